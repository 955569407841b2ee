/* All calls of the library for C (slotroute.h). No other file of the proxy calls it.
 *
 * The library decides where a message ends, where a request goes, how it is split, how replies make
 * one, what a map of the cluster says, and what a redirect means. */
#ifndef PROXY_LAYER_H
#define PROXY_LAYER_H

#include "buffer.h"
#include "slotroute.h"

#include <stdbool.h>

enum { HOST_ROOM = 256 };

typedef enum whole { IS_WHOLE, IS_PIECE, IS_MALFORMED } whole;

/* Whether the bytes begin with a whole request or reply, and where it ends. If a piece is there, the
 * progress says how far it was gone over. */
whole layer_request(const uint8_t *bytes, size_t len, slotroute_progress *progress, size_t *end);
whole layer_reply(const uint8_t *bytes, size_t len, slotroute_progress *progress, size_t *end);

/* Where a request goes. False if the library cannot read it. */
bool layer_route(const uint8_t *request, size_t len, slotroute_routed *routed);

/* The parts of a request: part i goes to slots[i], and its bytes end at ends[i]. They stand in memory
 * of this thread up to the next call. */
typedef struct split {
    const uint16_t *slots;
    const size_t *ends;
    const uint8_t *bytes;
    size_t parts, len;
} split;

bool layer_split(const uint8_t *request, size_t len, split *split);

/* An empty buffer of this thread, into which replies are put one after the other. */
buffer *layer_replies(void);

/* Writes the one reply to a request by the replies to its parts, in their order. `policy` is 0 for a
 * request that was split, and else that of `layer_route` for one that went whole to `count` nodes.
 * Returns SLOTROUTE_DONE, or why there is none. Then `at` is the number of the reply at fault. */
uint32_t layer_combine(const uint8_t *request, size_t len, uint32_t policy, size_t count,
                       const buffer *replies, buffer *out, size_t *at);

/* Reads a reply to CLUSTER SLOTS: numbers of primaries by slot, and one line HOST:PORT for each. */
bool layer_primaries(const buffer *reply, const char *host, uint16_t *numbers, buffer *lines);

/* Writes one line for each replica, some perhaps twice. */
void layer_replicas(const buffer *reply, const char *host, buffer *lines);

typedef struct redirect {
    slotroute_redirected to;
    char host[HOST_ROOM];
} redirect;

/* Reads an error with its mark and line end. False if it is no redirect. */
bool layer_redirect(const uint8_t *error, size_t len, const char *answering, redirect *redirect);

/* What a cursor of SCAN over this many nodes means, and the next one. 0 follows the last node. False if it
 * names no node, or a node's cursor is too large. */
bool layer_scan_position(uint64_t cursor, uint32_t nodes, uint32_t *node, uint64_t *node_cursor);
bool layer_next_cursor(uint32_t node, uint64_t node_cursor, uint32_t nodes, uint64_t *cursor);

/* Writes the text of an answer of the library. */
void layer_message(uint32_t answer, char *text, size_t room);

/* Gives back what a long request took, and all memory of this thread. */
void layer_trim(void);
void layer_end(void);

#endif
