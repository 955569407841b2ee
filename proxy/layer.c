#include "layer.h"

#include <string.h>

enum { LONG_MESSAGE = 16384, FIRST_ROOM = 4096, MOST_PICKS = 16, MOST_KEPT = 1 << 20 };

/* What calls write stands here. It is initialized, as the library wants it. */
static _Thread_local uint8_t *out;
static _Thread_local uint16_t *slots;
static _Thread_local size_t *ends;
static _Thread_local size_t out_room, parts_room;
static _Thread_local buffer replies_room;

static void make_room(size_t bytes, size_t parts) {
    if (bytes > out_room) {
        memory_give(out, out_room);
        out_room = 2 * bytes;
        out = memory_take(out_room);
    }
    if (parts > parts_room) {
        memory_give(slots, parts_room * sizeof *slots);
        memory_give(ends, parts_room * sizeof *ends);
        parts_room = 2 * parts;
        slots = memory_take(parts_room * sizeof *slots);
        ends = memory_take(parts_room * sizeof *ends);
    }
}

/* A long message is scanned first, so that one that comes in pieces is gone over once. */
whole layer_request(const uint8_t *bytes, size_t len, slotroute_progress *progress, size_t *end) {
    slotroute_told told = {0};
    if (len >= LONG_MESSAGE && slotroute_scan(bytes, len, progress) == SLOTROUTE_REPLY_INCOMPLETE)
        return IS_PIECE;
    *progress = (slotroute_progress){0};
    uint32_t answer = slotroute_request_len(bytes, len, &told);
    *end = told.bytes;
    return answer == SLOTROUTE_DONE                 ? IS_WHOLE
           : answer == SLOTROUTE_REQUEST_INCOMPLETE ? IS_PIECE
                                                    : IS_MALFORMED;
}

whole layer_reply(const uint8_t *bytes, size_t len, slotroute_progress *progress, size_t *end) {
    uint32_t answer = slotroute_scan(bytes, len, progress);
    if (answer != SLOTROUTE_DONE)
        return answer == SLOTROUTE_REPLY_INCOMPLETE ? IS_PIECE : IS_MALFORMED;
    *end = progress->bytes;
    *progress = (slotroute_progress){0};
    return IS_WHOLE;
}

bool layer_route(const uint8_t *request, size_t len, slotroute_routed *routed) {
    slotroute_told told = {0};
    return slotroute_route(request, len, NULL, 0, 0, routed, &told) == SLOTROUTE_DONE;
}

bool layer_split(const uint8_t *request, size_t len, split *split) {
    slotroute_told told = {.parts = 64, .bytes = 2 * len + FIRST_ROOM};
    uint32_t answer;
    do {
        make_room(told.bytes, told.parts);
        answer =
            slotroute_split(request, len, NULL, 0, slots, parts_room, ends, parts_room, out, out_room, &told);
    } while (answer == SLOTROUTE_TOO_SMALL);
    *split = (struct split){slots, ends, out, told.parts, told.bytes};
    return answer == SLOTROUTE_DONE;
}

buffer *layer_replies(void) {
    buffer_drop(&replies_room, buffer_len(&replies_room));
    return &replies_room;
}

uint32_t layer_combine(const uint8_t *request, size_t len, uint32_t policy, size_t count,
                       const buffer *replies, buffer *into, size_t *at) {
    slotroute_told told = {.bytes = buffer_len(replies) + FIRST_ROOM};
    uint32_t answer;
    do {
        make_room(told.bytes, 1);
        answer = policy == SLOTROUTE_NO_POLICY
                     ? slotroute_combine(request, len, NULL, 0, buffer_at(replies), buffer_len(replies), out,
                                         out_room, &told)
                     : slotroute_combine_answers(policy, count, buffer_at(replies), buffer_len(replies), out,
                                                 out_room, &told);
    } while (answer == SLOTROUTE_TOO_SMALL);
    if (answer == SLOTROUTE_DONE)
        buffer_put(into, out, told.bytes);
    *at = told.reply;
    return answer;
}

/* Reads the map for one address of each slot. */
static bool read_map(const buffer *reply, const char *host, uint32_t addr, size_t pick, uint16_t *numbers,
                     buffer *lines) {
    slotroute_told told = {.bytes = FIRST_ROOM};
    uint32_t answer;
    do {
        make_room(told.bytes, 1);
        answer = slotroute_table(buffer_at(reply), buffer_len(reply), (const uint8_t *)host, strlen(host),
                                 addr, pick, numbers, SLOTROUTE_SLOTS, out, out_room, &told);
    } while (answer == SLOTROUTE_TOO_SMALL);
    if (answer != SLOTROUTE_DONE || told.bytes == 0)
        return false;
    buffer_put(lines, out, told.bytes);
    return true;
}

bool layer_primaries(const buffer *reply, const char *host, uint16_t *numbers, buffer *lines) {
    return read_map(reply, host, SLOTROUTE_PRIMARY, 0, numbers, lines);
}

void layer_replicas(const buffer *reply, const char *host, buffer *lines) {
    static _Thread_local uint16_t numbers[SLOTROUTE_SLOTS];
    buffer first = {0}, next = {0};
    bool is_new = read_map(reply, host, SLOTROUTE_REPLICA, 0, numbers, &first);
    buffer_put(lines, buffer_at(&first), buffer_len(&first));
    for (size_t pick = 1; is_new && pick < MOST_PICKS; pick++) {
        is_new = read_map(reply, host, SLOTROUTE_REPLICA, pick, numbers, &next);
        buffer_put(lines, buffer_at(&next), buffer_len(&next));
        buffer_drop(&next, buffer_len(&next));
    }
    buffer_free(&first);
    buffer_free(&next);
}

bool layer_redirect(const uint8_t *error, size_t len, const char *answering, redirect *redirect) {
    uint8_t host[HOST_ROOM - 1] = {0};
    if (len < 3 || error[0] != '-')
        return false;
    uint32_t answer = slotroute_redirect(error + 1, len - 3, (const uint8_t *)answering, strlen(answering),
                                         host, sizeof host, &redirect->to);
    if (answer != SLOTROUTE_DONE || memchr(host, 0, redirect->to.host_len) != NULL)
        return false;
    memcpy(redirect->host, host, redirect->to.host_len);
    redirect->host[redirect->to.host_len] = 0;
    return true;
}

bool layer_scan_position(uint64_t cursor, uint32_t nodes, uint32_t *node, uint64_t *node_cursor) {
    slotroute_position position;
    if (slotroute_cursor_position(cursor, nodes, &position) != SLOTROUTE_DONE)
        return false;
    *node = (uint32_t)position.node;
    *node_cursor = position.cursor;
    return true;
}

bool layer_next_cursor(uint32_t node, uint64_t node_cursor, uint32_t nodes, uint64_t *cursor) {
    return slotroute_next_cursor(nodes, node, node_cursor, cursor) == SLOTROUTE_DONE;
}

void layer_message(uint32_t answer, char *text, size_t room) {
    size_t len = slotroute_message(answer, (uint8_t *)text, room - 1);
    text[len < room ? len : 0] = 0;
}

void layer_trim(void) {
    if (out_room > MOST_KEPT || parts_room > MOST_KEPT / sizeof *ends)
        layer_end();
}

void layer_end(void) {
    memory_give(out, out_room);
    memory_give(slots, parts_room * sizeof *slots);
    memory_give(ends, parts_room * sizeof *ends);
    buffer_free(&replies_room);
    out = NULL;
    slots = NULL;
    ends = NULL;
    out_room = parts_room = 0;
}
