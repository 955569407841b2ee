/* Splits a request by slot and combines the replies to its parts:
 *
 *     tools/c-archive PREFIX
 *     cc -IPREFIX/include -o split examples/split.c PREFIX/lib/libslotroute.a && ./split
 */
#include "slotroute.h"

#include <stdio.h>
#include <string.h>

int main(void) {
    const char *request = "*4\r\n$3\r\nDEL\r\n$3\r\nfoo\r\n$3\r\nbar\r\n$8\r\n{bar}vaz\r\n";
    const char *replies = ":1\r\n:2\r\n"; /* what the nodes answer, in the order of the parts */
    uint16_t slots[8] = {0};
    size_t ends[8] = {0};
    uint8_t out[256] = {0};
    slotroute_told told = {0};
    uint32_t answer = slotroute_split((const uint8_t *)request, strlen(request), NULL, 0, slots, 8,
                                      ends, 8, out, sizeof out, &told);
    for (size_t i = 0; answer == SLOTROUTE_DONE && i < told.parts; i++) {
        size_t start = i == 0 ? 0 : ends[i - 1];
        printf("slot %u: %zu bytes\n%.*s", slots[i], ends[i] - start, (int)(ends[i] - start),
               (const char *)out + start);
    }
    if (answer == SLOTROUTE_DONE)
        answer = slotroute_combine((const uint8_t *)request, strlen(request), NULL, 0,
                                   (const uint8_t *)replies, strlen(replies), out, sizeof out, &told);
    if (answer != SLOTROUTE_DONE) {
        size_t len = slotroute_message(answer, out, sizeof out);
        fprintf(stderr, "split: %.*s\n", (int)len, (const char *)out);
        return 1;
    }
    printf("reply: %.*s", (int)told.bytes, (const char *)out);
    return 0;
}
