#include "invariants.h"

#include <stdlib.h>

#ifdef PROXY_CHECKS
void check_that(bool holds, const char *what) {
    if (holds)
        return;
    warn("an invariant does not hold: %s", what);
    abort();
}

void node_check(const node *node) {
    uint64_t offset = 0;
    check_that(node->asked - node->replies == node->count, "one waiter for each reply that has not come");
    check_that(node->given - node->sent == buffer_len(&node->out), "what is not written yet stands in `out`");
    if (node->state == NODE_CLOSED)
        check_that(node->count == 0 || node->lost != NULL, "nobody waits on a closed connection");
    for (size_t at = 0; at < node->count; at++) {
        const waiter *it = &node->queue[(node->first + at) % node->room];
        check_that(it->offset >= offset && it->offset <= node->given,
                   "waiters are in the order of the stream");
        offset = it->offset;
        if (it->waits != WAITS_PART)
            continue;
        check_that(it->request->part[it->part].state == PART_SENT, "who waits was sent");
        check_that(it->request->in_flight > 0, "who waits is on its way");
        check_that(it->request->client_id == it->client_id, "who waits is who asked");
    }
}

void client_check(const client *client) {
    size_t held = 0, queued = 0, bytes = 0, kept = 0;
    for (const request *it = client->first; it != NULL; it = it->next) {
        uint32_t left = 0, in_flight = 0;
        check_that(it->client == client && it->client_id == client->id, "a request belongs to its client");
        for (uint32_t at = 0; at < it->parts; at++) {
            left += it->part[at].state != PART_DONE;
            in_flight += it->part[at].state == PART_SENT;
            held += it->part[at].state == PART_HELD || it->part[at].state == PART_AGAIN;
        }
        check_that(left == it->left && in_flight == it->in_flight, "the parts of a request are counted");
        check_that(it->next != NULL || it == client->last, "the last request is the last");
        queued++;
        bytes += it->len;
        kept += it->kept;
    }
    check_that(client->first == NULL || client->first->left > 0, "what is complete is answered");
    check_that(held == client->held, "held parts are counted");
    check_that(queued == client->queued && bytes == client->queued_bytes, "requests are counted");
    check_that(kept == client->kept, "replies that wait are counted");
}
#else
typedef int nothing_to_check;
#endif
