#include "request.h"
#include "transaction.h"

#include <string.h>

static const char multi[] = "*1\r\n$5\r\nMULTI\r\n", exec[] = "*1\r\n$4\r\nEXEC\r\n";
enum { MULTI_LEN = sizeof multi - 1, EXEC_LEN = sizeof exec - 1 };

static part *parts_of(const pieces *it) { return (part *)(void *)buffer_at(&it->parts); }

/* The number of the piece of a slot, which is made if there is none. Without a slot, it is the first. */
static uint32_t piece_of(pieces *it, uint16_t *numbers, uint16_t slot) {
    if (slot == NO_SLOT)
        return 0;
    if (numbers[slot] == 0) {
        part new = {.slot = slot};
        buffer_put(&it->parts, &new, sizeof new);
        numbers[slot] = (uint16_t)++it->count;
    }
    return numbers[slot] - 1u;
}

/* Finds the piece of each command, and where each piece has its commands. */
static void group(pieces *it, const client *client) {
    static _Thread_local uint16_t numbers[SLOTROUTE_SLOTS];
    const queued_command *list = (const void *)buffer_at(&client->multi_list);
    size_t end = 0;
    part first = {.slot = client->multi_slot};
    buffer_put(&it->parts, &first, sizeof first);
    it->count = 1;
    if (first.slot != NO_SLOT)
        numbers[first.slot] = 1;
    for (size_t at = 0; at < buffer_len(&client->multi_list) / sizeof *list; at++) {
        uint32_t number = piece_of(it, numbers, list[at].slot);
        parts_of(it)[number].end += list[at].len;
        parts_of(it)[number].queued++;
        buffer_put(&it->order, &number, sizeof number);
    }
    for (uint32_t at = 0; at < it->count; at++) {
        part *part = &parts_of(it)[at];
        if (part->slot != NO_SLOT)
            numbers[part->slot] = 0;
        part->start = end + MULTI_LEN;
        part->end = end = part->start + part->end + EXEC_LEN;
    }
}

void transaction_compose(const client *client, pieces *it) {
    const queued_command *list = (const void *)buffer_at(&client->multi_list);
    const uint8_t *from = buffer_at(&client->multi);
    group(it, client);
    part *parts = parts_of(it);
    size_t end = parts[it->count - 1].end;
    uint8_t *into = buffer_room(&it->bytes, end);
    it->bytes.end = end;
    for (size_t at = 0; at < buffer_len(&it->order) / sizeof(uint32_t); at++) {
        part *part = &parts[((const uint32_t *)(const void *)buffer_at(&it->order))[at]];
        memcpy(into + part->start, from, list[at].len);
        part->start += list[at].len;
        from += list[at].len;
    }
    for (uint32_t at = 0; at < it->count; at++) {
        memcpy(into + parts[at].start, exec, EXEC_LEN);
        parts[at].start = at == 0 ? 0 : parts[at - 1].end;
        memcpy(into + parts[at].start, multi, MULTI_LEN);
    }
}

/* Writes the next reply of a piece's list. If the piece has an error instead, each of its commands has it. */
static void put_next(const part *part, size_t *at, buffer *out) {
    static const char none[] = "-ERR the node has no reply to this command of the transaction\r\n";
    const uint8_t *reply = part_reply_bytes(part);
    slotroute_progress progress = {0};
    size_t len = 0;
    if (reply[0] != '*')
        buffer_put(out, reply, part->reply_len);
    else if (*at < part->reply_len &&
             layer_reply(reply + *at, part->reply_len - *at, &progress, &len) == IS_WHOLE)
        buffer_put(out, reply + *at, len);
    else
        buffer_text(out, none);
    *at += len;
}

void transaction_reply(const request *it, buffer *out) {
    const uint32_t *order = (const void *)it->bytes;
    size_t count = it->len / sizeof *order, size = it->parts * sizeof(size_t), *places = memory_take(size);
    for (uint32_t at = 0; at < it->parts; at++) { /* after the line with the length of the list */
        const uint8_t *reply = part_reply_bytes(&it->part[at]);
        const uint8_t *line = memchr(reply, '\n', it->part[at].reply_len);
        places[at] = line == NULL ? 0 : (size_t)(line + 1 - reply);
    }
    buffer_print(out, "*%zu\r\n", count);
    for (size_t at = 0; at < count; at++)
        put_next(&it->part[order[at]], &places[order[at]], out);
    memory_give(places, size);
}
