#include "buffer.h"

#include <stdarg.h>
#include <stdio.h>
#include <stdlib.h>
#include <string.h>

enum { SMALLEST = 512, KEPT = 65536 }; /* bytes of a block, and those that an empty buffer may keep */

_Thread_local size_t memory_used;

static void *count(void *block, size_t size) {
    if (block == NULL) {
        fprintf(stderr, "out of memory: %zu bytes\n", size);
        abort();
    }
    memory_used += size;
    return block;
}

void *memory_take(size_t size) { return count(calloc(1, size), size); }

void *memory_take_raw(size_t size) { return count(malloc(size), size); }

void memory_give(void *block, size_t size) {
    free(block);
    memory_used -= size;
}

uint8_t *buffer_room(buffer *it, size_t least) {
    size_t len = buffer_len(it);
    if (it->room - it->end >= least)
        return it->bytes + it->end;
    if (it->room - len >= least && it->start > len) {
        memcpy(it->bytes, it->bytes + it->start, len);
        it->start = 0;
        it->end = len;
        return it->bytes + len;
    }
    buffer larger = {.room = SMALLEST};
    while (larger.room < 2 * len + least)
        larger.room *= 2;
    larger.bytes = memory_take_raw(larger.room);
    if (len > 0)
        memcpy(larger.bytes, it->bytes + it->start, len);
    larger.end = len;
    buffer_free(it);
    *it = larger;
    return it->bytes + len;
}

void buffer_put(buffer *it, const void *bytes, size_t len) {
    if (len == 0)
        return;
    memcpy(buffer_room(it, len), bytes, len);
    it->end += len;
}

void buffer_text(buffer *it, const char *text) { buffer_put(it, text, strlen(text)); }

void buffer_print(buffer *it, const char *format, ...) {
    va_list words;
    va_start(words, format);
    int len = vsnprintf(NULL, 0, format, words);
    va_end(words);
    if (len < 0)
        return;
    va_start(words, format);
    vsnprintf((char *)buffer_room(it, (size_t)len + 1), (size_t)len + 1, format, words);
    va_end(words);
    it->end += (size_t)len;
}

void buffer_bulk(buffer *it, const char *text, size_t len) {
    buffer_print(it, "$%zu\r\n", len);
    buffer_put(it, text, len);
    buffer_text(it, "\r\n");
}

void buffer_drop(buffer *it, size_t len) {
    it->start += len;
    if (it->start < it->end)
        return;
    it->start = it->end = 0;
    if (it->room > KEPT)
        buffer_free(it);
}

void buffer_free(buffer *it) {
    if (it->bytes != NULL)
        memory_give(it->bytes, it->room);
    *it = (buffer){0};
}
