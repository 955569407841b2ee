/* Requests of clients, and their parts on the way to nodes. invariants.h says what holds of them. */
#ifndef PROXY_REQUEST_H
#define PROXY_REQUEST_H

#include "commands.h"
#include "proxy.h"

#include <string.h>

/* Sends a request to where the library says. False if it has to wait until the client's earlier requests
 * are answered: then nothing was done. */
bool request_begin(client *client, const uint8_t *bytes, size_t len, command_kind kind);

/* Sends the pieces of the client's transaction. */
void request_begin_transaction(client *client);

/* Sends a request over a connection of the client's own. `is_blocking`: it may wait there. */
void request_begin_private(client *client, const uint8_t *bytes, size_t len, uint16_t slot, bool is_blocking);

/* Sends a command about subscriptions to the node that has them. The first `len` bytes are the command, and
 * what asks the node for the end of its replies. The rest goes to all other primaries before. */
void request_begin_subscription(client *client, const buffer *bytes, size_t len, node *to);

/* Sends SCAN to a node. */
void request_begin_scan(client *client, const buffer *bytes, node *to);

/* Answers a request with a text of the proxy's own, once the earlier ones are answered. */
void request_answer_own(client *client, const char *text, size_t len);

/* The same with what a buffer has, which is freed. */
void request_answer_with(client *client, buffer *out);

/* An error with this text. */
void request_refuse(client *client, const char *text);

/* A reply to a part has come, or the connection was lost. `was_sent`: a node may have read some of it. */
void part_reply(request *request, uint32_t part, node *from, const uint8_t *reply, size_t len);
void part_lost(request *request, uint32_t part, node *at, bool was_sent);

/* Where a part goes, or NULL if no node is known. */
node *part_node(const request *request, uint32_t part);

/* Sends a part to its node. */
void part_send(request *request, uint32_t part);

/* Keeps a reply until all earlier ones are written. */
void part_keep(request *request, uint32_t part, const uint8_t *reply, size_t len);

/* Whether a reply begins with this text. */
static inline bool begins(const uint8_t *reply, size_t len, const char *text) {
    return len >= strlen(text) && memcmp(reply, text, strlen(text)) == 0;
}

/* The reply that was kept. */
static inline const uint8_t *part_reply_bytes(const part *part) {
    return part->reply != NULL ? part->reply : part->small;
}

/* A part is done, with this reply. May free the request. */
void part_finish(request *request, uint32_t part, const uint8_t *reply, size_t len);
void part_fail(request *request, uint32_t part, const char *text);

/* What becomes of a part whose connection was lost: it is sent again, or its client gets an error. UNSURE: it
 * may have taken effect. Nobody waits if the client has gone. */
typedef enum part_fate { FATE_NOBODY, FATE_AGAIN, FATE_NO_EFFECT, FATE_UNSURE, FATES } part_fate;
part_fate part_fate_of(const request *request, bool was_sent);

/* A part is done with an error that names a node, and says why. `was_sent`: the node may have read some of
 * it, so the part may have taken effect. */
void part_fail_at(request *request, uint32_t part, const node *node, const char *why, bool was_sent);

/* Writes the replies to the requests that are complete, in their order. */
void requests_answer(client *client);

void request_free(request *request);

/* The client has gone: its requests belong to nobody. */
void requests_disown(client *client);

/* Writes the one reply to a complete request. */
void reply_write(request *request, buffer *out);

#endif
