#include "worker.h"

#include "client.h"
#include "figures.h"
#include "listener.h"
#include "node.h"
#include "order.h"
#include "peer.h"
#include "private.h"
#include "request.h"
#include "topology.h"

#include <errno.h>
#include <fcntl.h>
#include <string.h>
#include <sys/epoll.h>
#include <unistd.h>

enum { EVENTS = 256, TICK = 10 * MILLISECOND, IDLE_TICK = 100 * MILLISECOND };
enum { PATIENCE = SECOND, NEXT_PATIENCE = 50 * MILLISECOND }; /* under pressure, before a client is closed */

worker *worker_new(unsigned number) {
    int ends[2];
    worker *it = memory_take(sizeof *it);
    it->number = number;
    it->poll = epoll_create1(EPOLL_CLOEXEC);
    if (it->poll < 0 || pipe2(ends, O_NONBLOCK | O_CLOEXEC) != 0) {
        warn("no event loop: %s", strerror(errno));
        return NULL;
    }
    it->given = ends[0];
    it->giver = ends[1];
    it->given_peer = (peer){.kind = PEER_GIVEN, .fd = it->given};
    it->now = clock_now();
    it->read = memory_take(READ_ROOM);
    peer_watch(it, &it->given_peer, EPOLLIN);
    for (size_t at = 0; at < the_proxy.settings.seed_count; at++) {
        char host[HOST_ROOM];
        uint16_t port = 0;
        address_split(the_proxy.settings.seeds[at], host, &port);
        node_at(it, host, port);
    }
    memset(it->map.owner, 0xff, sizeof it->map.owner); /* SLOTROUTE_NO_NODE */
    topology_want(it);
    return it;
}

static void dispatch(worker *it, peer *peer, uint32_t events) {
    if (peer->kind == PEER_CLIENT)
        client_event((client *)(void *)peer, events);
    else if (peer->kind == PEER_NODE)
        node_event((node *)(void *)peer, events);
    else if (peer->kind == PEER_GIVEN)
        listener_given(it);
    else if (peer->kind == PEER_READER)
        reader_event(it, peer, events);
    else if (events & EPOLLIN && peer->fd >= 0)
        listener_event(it, peer);
}

/* Writes what the round has left to write, until nothing is left to do. */
static void settle(worker *it) {
    while (it->dirty_nodes != NULL || it->dirty_clients != NULL) {
        node *nodes = it->dirty_nodes;
        client *clients = it->dirty_clients;
        if (nodes != NULL) {
            it->dirty_nodes = nodes->next_dirty;
            node_settle(nodes);
        } else {
            it->dirty_clients = clients->next_dirty;
            client_settle(clients);
        }
    }
    private_free(it);
    while (it->dead != NULL) {
        client *dead = it->dead;
        it->dead = dead->next_dead;
        client_free(dead);
    }
}

/* Closes the client that takes the most memory. */
static void close_largest(worker *it) {
    client *largest = it->clients;
    size_t most = 0;
    for (client *at = it->clients; at != NULL; at = at->next) {
        size_t bytes =
            buffer_len(&at->in) + buffer_len(&at->out) + buffer_len(&at->multi) + at->queued_bytes + at->kept;
        largest = bytes > most ? at : largest;
        most = bytes > most ? bytes : most;
    }
    if (most > READ_ROOM)
        client_doom(largest, "all clients together take too much memory, and it takes the most");
}

/* Clients wait while all of the thread take too much memory. If that does not help, the largest has to go. */
static void watch_memory(worker *it) {
    uint64_t limit = it->base + the_proxy.settings.memory / the_proxy.settings.threads;
    bool was_pressed = it->is_pressed;
    it->is_pressed = memory_used > limit;
    if (it->is_pressed && !was_pressed)
        it->pressed_at = it->now;
    if (it->is_pressed && (it->now - it->pressed_at > PATIENCE || memory_used > limit + limit / 4)) {
        close_largest(it);
        it->pressed_at = it->now - PATIENCE + NEXT_PATIENCE;
    }
    figure_add(&it->stats.counts[COUNT_MEMORY], memory_used - figure_read(&it->stats.counts[COUNT_MEMORY]));
}

/* Goes on with what has waited, over the clients that have some. */
static void advance_troubled(worker *it) {
    client **link = &it->troubled;
    while (*link != NULL) {
        client *at = *link;
        if (at->held > 0)
            client_advance(at);
        if (at->held == 0) {
            at->is_troubled = false;
            *link = at->next_troubled;
        } else {
            link = &at->next_troubled;
        }
    }
}

static void begin_to_drain(worker *it) {
    it->is_draining = true;
    it->drain_until = it->now + the_proxy.settings.drain * MILLISECOND;
    listeners_close(it);
    for (client *at = it->clients; at != NULL; at = at->next)
        client_end(at);
}

static void tick(worker *it) {
    static _Thread_local uint64_t next_slow;
    advance_troubled(it);
    topology_tick(it);
    for (size_t at = 0; at < it->node_count; at++) {
        node_tick(it->nodes[at]);
        figures_tick(it->nodes[at]);
    }
    watch_memory(it);
    if (!it->is_draining && atomic_load(&the_proxy.draining) > 0)
        begin_to_drain(it);
    if (it->now < next_slow)
        return;
    next_slow = it->now + IDLE_TICK;
    layer_trim();
    for (client *at = it->clients; at != NULL; at = at->next)
        client_tick(at);
    if (it->number == 0)
        listener_tick(it);
}

void worker_round(worker *it) {
    struct epoll_event events[EVENTS];
    bool is_busy = it->troubled != NULL || it->map.is_wanted || it->map.is_asked;
    uint64_t wait = is_busy ? TICK : IDLE_TICK;
    int count = epoll_wait(it->poll, events, EVENTS, (int)(wait / MILLISECOND));
    it->now = clock_now();
    it->is_reading = true;
    for (int at = 0; at < count; at++)
        dispatch(it, events[at].data.ptr, events[at].events);
    it->is_reading = false;
    settle(it);
    if (it->now >= it->next_tick) {
        it->next_tick = it->now + TICK;
        tick(it);
        settle(it);
    }
}

void *worker_run(void *given) {
    worker *it = given;
    it->base = memory_used;
    while (!it->is_draining ||
           (it->clients != NULL && it->now < it->drain_until && atomic_load(&the_proxy.draining) < 2))
        worker_round(it);
    layer_end();
    return NULL;
}

void worker_free(worker *it) {
    while (it->clients != NULL) {
        client_doom(it->clients, "");
        settle(it);
    }
    for (size_t at = 0; at < it->node_count; at++)
        node_end(it->nodes[at]);
    close(it->poll);
    close(it->given);
    close(it->giver);
    memory_give(it->read, READ_ROOM);
    layer_end();
    memory_give(it, sizeof *it);
}
