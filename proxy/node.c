#include "node.h"

#include "client.h"
#include "invariants.h"
#include "own.h"
#include "peer.h"
#include "private.h"
#include "request.h"
#include "subscription.h"
#include "tls.h"
#include "topology.h"
#include "transaction.h"

#include <errno.h>
#include <stdio.h>
#include <string.h>
#include <sys/epoll.h>
#include <sys/socket.h>
#include <unistd.h>

enum { FIRST_QUEUE = 64 };

node *node_new(worker *worker, const char *host, uint16_t port) {
    node *it = memory_take(sizeof *it);
    it->worker = worker;
    it->peer = (peer){.kind = PEER_NODE, .fd = -1};
    it->port = port;
    it->is_private = true;
    snprintf(it->host, sizeof it->host, "%s", host);
    return it;
}

node *node_at(worker *worker, const char *host, uint16_t port) {
    for (size_t at = 0; at < worker->node_count; at++)
        if (worker->nodes[at]->port == port && strcmp(worker->nodes[at]->host, host) == 0)
            return worker->nodes[at];
    if (worker->node_count == MOST_NODES)
        return NULL;
    node *it = node_new(worker, host, port);
    it->is_private = false;
    it->number = (uint16_t)worker->node_count;
    worker->nodes[it->number] = it;
    worker->node_count++; /* from now on other threads may read its figures */
    return it;
}

node *node_three(node *it) {
    if (it->three == NULL) {
        it->three = node_new(it->worker, it->host, it->port);
        it->three->is_private = false;
        it->three->is_three = true;
        it->three->number = it->number; /* it is counted there */
    }
    return it->three;
}

void node_count(const node *it, node_figure figure) {
    if (!it->is_private)
        figure_add(&it->worker->nodes[it->number]->figures[figure], 1);
}

void node_touch(node *it) {
    if (it->is_dirty)
        return;
    it->is_dirty = true;
    it->next_dirty = it->worker->dirty_nodes;
    it->worker->dirty_nodes = it;
}

void node_doom(node *it, const char *why) {
    if (it->lost == NULL) {
        snprintf(it->why, sizeof it->why, "%s", why);
        it->lost = it->why;
    }
    node_touch(it);
}

void node_make_room(node *it) {
    if (it->count < it->room)
        return;
    size_t room = it->room == 0 ? FIRST_QUEUE : 2 * it->room;
    waiter *queue = memory_take(room * sizeof *queue);
    for (size_t at = 0; at < it->count; at++)
        queue[at] = it->queue[(it->first + at) % it->room];
    memory_give(it->queue, it->room * sizeof *queue);
    it->queue = queue;
    it->first = 0;
    it->room = room;
}

void node_send(node *it, const void *bytes, size_t len) {
    if (it->state == NODE_CLOSED && it->lost == NULL)
        node_open(it);
    it->is_new = it->is_new || it->count == 0;
    buffer_put(&it->out, bytes, len);
    it->given += len;
    node_touch(it);
}

void node_ask(node *it, const void *bytes, size_t len, waiter waiter) {
    node_make_room(it);
    waiter.offset = it->given;
    node_send(it, bytes, len);
    it->queue[(it->first + it->count++) % it->room] = waiter;
    it->asked++;
    node_count(it, NODE_REQUESTS);
}

/* Gives a reply to who waits for it. */
static void deliver(node *it, const uint8_t *reply, size_t len) {
    waiter first = it->queue[it->first];
    it->first = (it->first + 1) % it->room;
    it->count--;
    it->replies++;
    if (first.waits == WAITS_PART) {
        check_that(first.request->client_id == first.client_id, "a reply goes to who asked");
        part_reply(first.request, first.part, it, reply, len);
    } else if (first.waits == WAITS_QUEUED) {
        transaction_queued(first.request, first.part, reply, len);
    } else if (first.waits == WAITS_MAP) {
        topology_reply(it, first.client_id, reply, len);
    } else if (first.waits == WAITS_INFO) {
        info_reply(it, reply, len);
    } else if (first.waits == WAITS_PASSWORD && reply[0] == '-') {
        char text[100];
        snprintf(text, sizeof text, "AUTH: %.*s", (int)(len - 3), (const char *)reply + 1);
        node_doom(it, text);
    } else if (first.waits == WAITS_PASSWORD) {
        node_become_open(it);
    }
}

/* Whether the request of the first waiter was written to its end. A password is written before all else. */
static bool was_written(const node *it) {
    if (it->queue[it->first].waits == WAITS_PASSWORD)
        return true;
    uint64_t end = it->count > 1 ? it->queue[(it->first + 1) % it->room].offset : it->given;
    return it->sent >= end;
}

/* Takes the replies that have come whole, and returns how many bytes they have. */
static size_t take_replies(node *it, const uint8_t *bytes, size_t len) {
    size_t used = 0, end = 0;
    while (used < len && it->lost == NULL) {
        whole found = layer_reply(bytes + used, len - used, &it->progress, &end);
        if (found == IS_PIECE && len - used > the_proxy.settings.max_reply)
            node_doom(it, "a reply that is too long");
        if (found == IS_MALFORMED)
            node_doom(it, "a malformed reply");
        if (found != IS_WHOLE)
            break;
        if (subscription_has(it, bytes + used, end)) {
            subscription_message(it, bytes + used, end);
            used += end;
            continue;
        }
        if (it->count == 0 || !was_written(it) || (bytes[used] == '>' && !it->is_private)) {
            figure_add(&it->worker->stats.counts[COUNT_STRAY], 1);
            warn("node %s:%u: a reply that nobody waits for", it->host, it->port);
            node_doom(it, "a reply that nobody waits for");
            break;
        }
        deliver(it, bytes + used, end);
        used += end;
    }
    return used;
}

void node_event(node *it, uint32_t events) {
    if (it->lost != NULL || it->state == NODE_CLOSED)
        return;
    if (it->state == NODE_OPENING) {
        node_finish_opening(it);
        return;
    }
    if (events & EPOLLOUT)
        node_touch(it);
    if ((events & (EPOLLIN | EPOLLERR | EPOLLHUP)) == 0)
        return;
    arrived found = peer_read(it->worker, &it->peer, &it->in);
    if ((found.is_end && found.fresh == 0) || found.is_broken) { /* what came before the end counts */
        node_doom(it, found.is_end ? "the node closed the connection" : strerror(errno));
        return;
    }
    it->heard = it->worker->now;
    peer_keep(&found, &it->in, take_replies(it, found.bytes, found.len));
    node_check(it);
}

/* Says what becomes of the commands that wait for a connection that is lost. */
static void report_loss(const node *it) {
    size_t counts[FATES] = {0};
    for (size_t at = 0; at < it->count; at++) {
        const waiter *lost = &it->queue[(it->first + at) % it->room];
        if (lost->waits == WAITS_PART)
            counts[part_fate_of(lost->request, lost->offset < it->sent)]++;
    }
    say("node %s:%u: %s; %zu commands may have taken effect, %zu did not, %zu wait to be sent again",
        it->host, it->port, it->lost, counts[FATE_UNSURE], counts[FATE_NO_EFFECT], counts[FATE_AGAIN]);
}

/* Closes the connection, and reports to who waits. It is reset: what was not written is dropped. */
static void lose(node *it) {
    struct linger reset = {1, 0};
    waiter *queue = it->queue;
    size_t first = it->first, count = it->count, room = it->room;
    uint64_t sent = it->sent; /* nothing, if it was not open */
    bool was_open = it->state == NODE_OPEN;
    if (!it->is_failing && !it->is_private && !(was_open && count == 0))
        report_loss(it);
    if (it->peer.fd >= 0) {
        setsockopt(it->peer.fd, SOL_SOCKET, SO_LINGER, &reset, sizeof reset);
        tls_free(&it->peer);
        close(it->peer.fd);
    }
    figure_add(&it->worker->stats.counts[COUNT_NODES_LOST], 1);
    node_count(it, NODE_LOST);
    buffer_free(&it->in);
    buffer_free(&it->out);
    it->peer = (peer){.kind = PEER_NODE, .fd = -1};
    it->progress = (slotroute_progress){0};
    it->queue = NULL;
    it->first = it->count = it->room = 0;
    it->given = it->sent = it->asked = it->replies = 0;
    it->state = NODE_CLOSED;
    it->is_failing = it->is_failing || !was_open || count > 0;
    it->failed = it->worker->now;
    it->lost = NULL; /* those who waited may ask it anew */
    if (it->client != NULL)
        it->client->is_watch_lost = true;
    for (size_t at = 0; at < count; at++) {
        const waiter *lost = &queue[(first + at) % room];
        if (lost->waits == WAITS_PART)
            part_lost(lost->request, lost->part, it, lost->offset < sent);
        if (lost->waits == WAITS_MAP)
            topology_lost(it, lost->client_id);
    }
    memory_give(queue, room * sizeof *queue);
    if (it->client != NULL && (it->client->is_subscribed || it != it->client->own))
        client_doom(it->client, "the connection with its subscriptions was lost");
    topology_want(it->worker);
}

void node_settle(node *it) {
    it->is_dirty = false;
    if (it->state == NODE_OPEN && it->lost == NULL) {
        if (it->is_new) /* the node is silent from here on, and not from before a long round */
            it->heard = clock_now();
        it->is_new = false;
        int64_t written = peer_write(&it->peer, &it->out);
        if (written < 0)
            node_doom(it, strerror(errno));
        else
            it->sent += (uint64_t)written;
        peer_watch(it->worker, &it->peer, buffer_len(&it->out) > 0 ? EPOLLIN | EPOLLOUT : EPOLLIN);
    } else if (it->state == NODE_LOGIN && it->lost == NULL) {
        peer_watch(it->worker, &it->peer, EPOLLIN);
    }
    if (it->lost != NULL)
        lose(it);
    node_check(it);
}

/* Gives back the memory of a connection that is idle. */
static void give_back(node *it) {
    buffer_free(&it->out);
    if (buffer_len(&it->in) == 0)
        buffer_free(&it->in);
    memory_give(it->queue, it->room * sizeof *it->queue);
    it->queue = NULL;
    it->first = it->room = 0;
}

void node_tick(node *it) {
    if (it->three != NULL)
        node_tick(it->three);
    if (it->count == 0 && buffer_len(&it->out) == 0 && it->worker->now > it->heard + SECOND)
        give_back(it);
    uint64_t limit = the_proxy.settings.timeout * MILLISECOND;
    bool owes = it->state == NODE_OPENING || it->state == NODE_LOGIN ||
                (it->state == NODE_OPEN && it->count > 0 && !it->is_new);
    if (it->is_private && it->state == NODE_OPEN && it->client != NULL &&
        (it->count > 0 || it->client->is_subscribed || it->client->is_watching)) {
        private_tick(it);
        return;
    }
    if (owes && it->lost == NULL && it->worker->now > it->heard + limit)
        node_doom(it, it->state == NODE_OPEN ? "silent for too long" : "no connection in time");
    if (owes && it->worker->now > it->heard + limit / 4)
        topology_want(it->worker);
    if (it->state == NODE_OPEN && !it->is_in_map && it->count == 0 &&
        it->worker->now > it->heard + 10 * SECOND)
        node_doom(it, "it is not needed");
}

void node_end(node *it) {
    if (it->three != NULL)
        node_end(it->three);
    tls_free(&it->peer);
    if (it->peer.fd >= 0)
        close(it->peer.fd);
    for (size_t at = 0; at < it->count; at++) { /* what waits is of clients that have gone */
        const waiter *last = &it->queue[(it->first + at) % it->room];
        if (last->waits == WAITS_PART)
            part_lost(last->request, last->part, it, true);
    }
    buffer_free(&it->in);
    buffer_free(&it->out);
    memory_give(it->queue, it->room * sizeof *it->queue);
    memory_give(it, sizeof *it);
}
