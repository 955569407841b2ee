/* Bytes that wait to be read or written, and the memory that they take. */
#ifndef PROXY_BUFFER_H
#define PROXY_BUFFER_H

#include <stddef.h>
#include <stdint.h>

/* The bytes from `start` up to `end` of a block with `room` bytes. */
typedef struct buffer {
    uint8_t *bytes;
    size_t start, end, room;
} buffer;

/* How many bytes this thread holds in buffers and requests. */
extern _Thread_local size_t memory_used;

/* A block of zeros. The program ends if there is none: a proxy that lacks memory can keep no promise. */
void *memory_take(size_t size);
void *memory_take_raw(size_t size); /* of any bytes */
void memory_give(void *block, size_t size);

static inline size_t buffer_len(const buffer *it) { return it->end - it->start; }
static inline uint8_t *buffer_at(const buffer *it) {
    return it->bytes == NULL ? NULL : it->bytes + it->start;
}

/* Where the next `least` bytes can be written. `end` is then raised by the caller. */
uint8_t *buffer_room(buffer *it, size_t least);
void buffer_put(buffer *it, const void *bytes, size_t len);
void buffer_text(buffer *it, const char *text);
void buffer_bulk(buffer *it, const char *text, size_t len); /* a bulk string */
void buffer_print(buffer *it, const char *format, ...) __attribute__((format(printf, 2, 3)));

/* Drops bytes at the front. An empty buffer with a block above 64 KiB gives its block back. */
void buffer_drop(buffer *it, size_t len);
void buffer_free(buffer *it);

#endif
