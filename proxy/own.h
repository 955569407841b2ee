/* What the answers of the proxy's own share. */
#ifndef PROXY_OWN_H
#define PROXY_OWN_H

#include "commands.h"
#include "proxy.h"

enum { MOST_WORDS = 8 };

/* The first words of a request. */
typedef struct line {
    word words[MOST_WORDS];
    size_t count; /* of all words */
} line;

void own_text(client *client, const char *text);
void own_bulk(client *client, const char *text, size_t len);
void own_wrong_count(client *client, word name);

/* A list that is nil, in version 3 or 2. */
static inline const char *own_nil(bool is_three) { return is_three ? "_\r\n" : "*-1\r\n"; }

/* CLIENT, and the name that a client gives itself. */
void own_client(client *client, const line *line);
bool own_set_name(client *client, word name);

/* INFO and CONFIG GET. */
void own_info(client *client, const line *line);
void own_config(client *client, const line *line);

/* What a node said of itself last. It is asked at times. */
const char *info_field(const worker *worker, node_field field);
void info_ask(node *node);
void info_reply(node *node, const uint8_t *reply, size_t len);

#endif
