#include "scan.h"

#include "commands.h"
#include "request.h"

#include <pthread.h>
#include <stdio.h>
#include <string.h>

/* The primaries since the start, by their numbers. */
static pthread_mutex_t lock = PTHREAD_MUTEX_INITIALIZER;
static _Atomic uint32_t count;
static struct seen {
    char host[HOST_ROOM];
    uint16_t port;
} seen[MOST_NODES];

void scan_number(node *primary) {
    uint32_t at = 0;
    if (primary->is_numbered)
        return;
    pthread_mutex_lock(&lock);
    while (at < count && (seen[at].port != primary->port || strcmp(seen[at].host, primary->host) != 0))
        at++;
    if (at == count && count < MOST_NODES) {
        seen[at].port = primary->port;
        memcpy(seen[at].host, primary->host, sizeof seen[at].host);
        count++;
    }
    primary->is_numbered = at < count;
    primary->scan_number = at;
    pthread_mutex_unlock(&lock);
}

/* The primary with this number, or else with the next one. NULL if there is none. */
static node *primary_from(const topology *map, uint32_t number) {
    node *found = NULL;
    for (size_t at = 0; at < map->primary_count; at++) {
        node *it = map->primaries[at];
        if (it->is_numbered && it->scan_number >= number &&
            (found == NULL || it->scan_number < found->scan_number))
            found = it;
    }
    return found;
}

static bool read_cursor(word text, uint64_t *cursor) {
    *cursor = 0;
    for (size_t at = 0; at < text.len; at++) {
        if (text.text[at] < '0' || text.text[at] > '9' || *cursor > (UINT64_MAX - 9) / 10)
            return false;
        *cursor = 10 * *cursor + (uint64_t)(text.text[at] - '0');
    }
    return text.len > 0;
}

/* Writes an array of this many words, with the cursor as the last one. */
static void put_cursor(buffer *out, uint64_t words, const char *before, uint64_t cursor) {
    char text[24];
    int len = snprintf(text, sizeof text, "%llu", (unsigned long long)cursor);
    buffer_print(out, "*%llu\r\n%s$%d\r\n%s\r\n", (unsigned long long)words, before, len, text);
}

void scan_begin(client *client, const uint8_t *bytes, size_t len) {
    words words = words_of(bytes, len);
    uint64_t length = words.left, cursor = 0;
    uint32_t number = 0;
    word name, text;
    buffer out = {0};
    words_next(&words, &name);
    if (!words_next(&words, &text)) {
        request_refuse(client, "wrong number of arguments for 'scan' command");
        return;
    }
    if (!read_cursor(text, &cursor) || !layer_scan_position(cursor, count, &number, &cursor)) {
        request_refuse(client, "invalid cursor");
        return;
    }
    node *to = primary_from(&client->worker->map, number);
    if (to == NULL) {
        request_answer_own(client, "*2\r\n$1\r\n0\r\n*0\r\n", 15);
        return;
    }
    put_cursor(&out, length, "$4\r\nSCAN\r\n", to->scan_number == number ? cursor : 0);
    buffer_put(&out, words.at, (size_t)(words.end - words.at));
    request_begin_scan(client, &out, to);
    buffer_free(&out);
}

void scan_end(request *request, const uint8_t *reply, size_t len) {
    words words = words_of(reply, len);
    uint64_t cursor = 0;
    word text;
    buffer out = {0};
    if (words.left != 2 || !words_next(&words, &text) || !read_cursor(text, &cursor) ||
        !layer_next_cursor(request->one.to->scan_number, cursor, count, &cursor)) {
        part_fail(request, 0, "ERR the node's reply to SCAN has no cursor below 2^48");
        return;
    }
    put_cursor(&out, 2, "", cursor);
    buffer_put(&out, words.at, (size_t)(words.end - words.at));
    part_finish(request, 0, buffer_at(&out), buffer_len(&out));
    buffer_free(&out);
}
