#include "topology.h"

#include "node.h"
#include "own.h"
#include "peer.h"
#include "scan.h"
#include "subscription.h"

#include <stdio.h>
#include <stdlib.h>
#include <string.h>

enum { SOONEST = 100 * MILLISECOND, LATER = 250 * MILLISECOND };
enum { PATIENCE = SECOND, EVERY = 10 * SECOND, RECENT = 30 * SECOND };

static const char question[] = "*2\r\n$7\r\nCLUSTER\r\n$5\r\nSLOTS\r\n";

node *topology_owner(const worker *worker, uint16_t slot) {
    uint16_t number = worker->map.owner[slot];
    return number == SLOTROUTE_NO_NODE ? NULL : worker->nodes[number];
}

void topology_want(worker *worker) { worker->map.is_wanted = true; }

/* The first tries only skip nodes that failed, and the last one may still be answered. */
bool topology_is_lost(const worker *worker) { return worker->map.tries > worker->map.all_count + 1; }

void topology_slows(worker *worker, uint16_t slot) {
    uint64_t until = worker->now + the_proxy.settings.timeout * MILLISECOND + SECOND;
    worker->map.moving[slot] = until;
    worker->map.moving_until = until;
}

bool topology_is_slow(const worker *worker, uint16_t slot) {
    return worker->now < worker->map.moving_until && worker->now < worker->map.moving[slot];
}

void topology_moved(worker *worker, uint16_t slot, node *to) {
    worker->map.owner[slot] = to->number;
    topology_slows(worker, slot);
    topology_want(worker);
}

node *topology_any(worker *worker) {
    topology *map = &worker->map;
    for (size_t tried = 0; tried < map->primary_count; tried++) {
        node *it = map->primaries[map->next_any++ % map->primary_count];
        if (!it->is_failing)
            return it;
    }
    return map->primary_count > 0 ? map->primaries[0] : NULL;
}

node *topology_herald(worker *worker) {
    node *it = topology_owner(worker, HERALD_SLOT);
    return it != NULL && !it->is_failing ? it : topology_any(worker);
}

/* The nodes of lines HOST:PORT. Returns how many there are. */
static size_t nodes_of(worker *worker, buffer *lines, node **nodes, size_t room) {
    size_t count = 0;
    char address[HOST_ROOM + 8], host[HOST_ROOM];
    while (buffer_len(lines) > 0 && count < room) {
        uint8_t *end = memchr(buffer_at(lines), '\n', buffer_len(lines));
        size_t len = end == NULL ? buffer_len(lines) : (size_t)(end - buffer_at(lines));
        uint16_t port = 0;
        node *it = NULL;
        if (len > 0 && len < HOST_ROOM) {
            memcpy(address, buffer_at(lines), len);
            address[len] = 0;
            address_split(address, host, &port);
            it = node_at(worker, host, port);
        }
        nodes[count++] = it; /* numbers of the table count each line */
        buffer_drop(lines, end == NULL ? len : len + 1);
    }
    return count;
}

/* Puts the nodes into the list of all, each once, and marks them. */
static void add_all(topology *map, node **nodes, size_t count) {
    for (size_t at = 0; at < count; at++) {
        if (nodes[at] == NULL || nodes[at]->is_in_map || map->all_count == MOST_NODES)
            continue;
        nodes[at]->is_in_map = true;
        map->all[map->all_count++] = nodes[at];
    }
}

/* A slot has another owner now, and goes slowly for a while. No part waits to reach the old one. */
static void change_owner(worker *worker, uint16_t slot) {
    node *old = topology_owner(worker, slot);
    topology_slows(worker, slot);
    for (; old != NULL; old = old->three)
        if (old->state == NODE_OPENING || old->state == NODE_LOGIN)
            node_doom(old, "another node has its slots");
}

/* Takes the owners of slots. */
static void take_owners(worker *worker, const uint16_t *numbers, node **nodes, size_t count) {
    topology *map = &worker->map;
    map->slots = 0;
    for (size_t at = 0; at < worker->node_count; at++)
        figure_set(&worker->nodes[at]->figures[NODE_SLOTS], 0);
    for (size_t slot = 0; slot < SLOTROUTE_SLOTS; slot++) {
        node *owner = numbers[slot] < count ? nodes[numbers[slot]] : NULL;
        uint16_t number = owner != NULL ? owner->number : (uint16_t)SLOTROUTE_NO_NODE;
        map->slots += owner != NULL;
        if (owner != NULL && worker->number == 0)
            figure_add(&owner->figures[NODE_SLOTS], 1);
        if (number != map->owner[slot] && map->has_map)
            change_owner(worker, (uint16_t)slot);
        map->owner[slot] = number;
    }
}

static void report(worker *worker, size_t primaries, size_t all, size_t slots) {
    const topology *map = &worker->map;
    bool is_first = !map->has_map;
    if (worker->number == 0 &&
        (is_first || primaries != map->primary_count || all != map->all_count || slots != map->slots))
        say("the map has %zu slots at %zu primaries, and %zu replicas", map->slots, map->primary_count,
            map->all_count - map->primary_count);
}

/* Reads a map. Returns whether there is one. */
static bool take_map(worker *worker, node *from, const uint8_t *reply, size_t len) {
    static _Thread_local uint16_t numbers[SLOTROUTE_SLOTS];
    static _Thread_local node *found[MOST_NODES];
    topology *map = &worker->map;
    buffer text = {0}, lines = {0};
    size_t primaries = map->primary_count, all = map->all_count, slots = map->slots;
    buffer_put(&text, reply, len);
    bool is_map = layer_primaries(&text, from->host, numbers, &lines);
    if (is_map) {
        size_t count = nodes_of(worker, &lines, found, MOST_NODES);
        for (size_t at = 0; at < worker->node_count; at++)
            worker->nodes[at]->is_in_map = worker->nodes[at]->is_primary = false;
        map->primary_count = map->all_count = 0;
        add_all(map, found, count);
        memcpy(map->primaries, map->all, map->all_count * sizeof *map->all);
        map->primary_count = map->all_count;
        for (size_t at = 0; at < map->primary_count; at++) {
            map->primaries[at]->is_primary = true;
            scan_number(map->primaries[at]);
        }
        take_owners(worker, numbers, found, count);
        buffer_drop(&lines, buffer_len(&lines));
        layer_replicas(&text, from->host, &lines);
        add_all(map, found, nodes_of(worker, &lines, found, MOST_NODES));
        report(worker, primaries, all, slots);
        map->has_map = true;
    }
    buffer_free(&lines);
    buffer_free(&text);
    return is_map;
}

/* A node of the map that failed a while ago, and may be back. NULL if there is none, or no time to look. */
static node *to_look_after(const worker *worker) {
    const topology *map = &worker->map;
    for (size_t at = 0; !map->is_wanted && at < map->all_count; at++)
        if (map->all[at]->is_failing && worker->now > map->all[at]->failed + RECENT)
            return map->all[at];
    return NULL;
}

/* Asks the next node: one of the map that did not fail, or else any that is known. */
static void ask_next(worker *worker) {
    topology *map = &worker->map;
    node *chosen = to_look_after(worker);
    for (size_t tried = 0; chosen == NULL && tried < worker->node_count; tried++) {
        node *it = worker->nodes[map->next_asked++ % worker->node_count];
        bool is_good = !it->is_failing && (it->is_in_map || !map->has_map);
        chosen = is_good || map->tries >= map->all_count ? it : NULL;
    }
    map->tries++;
    if (chosen == NULL) {
        map->next_at = worker->now + PAUSE;
        return;
    }
    map->is_asked = true;
    map->asked_at = worker->now;
    map->number++;
    node_ask(chosen, question, sizeof question - 1, (waiter){.waits = WAITS_MAP, .client_id = map->number});
    info_ask(chosen);
}

/* The map that was asked for does not come. */
static void go_on(worker *worker) {
    topology *map = &worker->map;
    map->is_asked = false;
    map->is_wanted = true;
    map->next_at = worker->now + (map->tries % (worker->node_count + 1) == 0 ? LATER : PAUSE);
}

void topology_tick(worker *worker) {
    topology *map = &worker->map;
    if (map->is_asked && worker->now - map->asked_at > PATIENCE) {
        snprintf(map->why, sizeof map->why, "a node did not answer in a second");
        go_on(worker);
    }
    bool is_old = map->has_map && worker->now > map->next_at + EVERY;
    if (!map->is_asked && (map->is_wanted || is_old) && worker->now >= map->next_at)
        ask_next(worker);
}

void topology_reply(node *from, uint64_t number, const uint8_t *reply, size_t len) {
    worker *worker = from->worker;
    topology *map = &worker->map;
    if (!map->is_asked || number != map->number)
        return;
    if (reply[0] == '-' || !take_map(worker, from, reply, len)) {
        const char *text = reply[0] == '-' ? (const char *)reply + 1 : "no slots\r\n";
        snprintf(map->why, sizeof map->why, "%.100s:%u: %.*s", from->host, from->port,
                 (int)strcspn(text, "\r"), text);
        go_on(worker);
        return;
    }
    for (client *at = worker->clients; at != NULL; at = at->next)
        subscription_follow(at);
    bool is_failing = false;
    for (size_t at = 0; at < map->primary_count; at++)
        is_failing |= map->primaries[at]->is_failing && worker->now - map->primaries[at]->failed < RECENT;
    figure_add(&worker->stats.counts[COUNT_MAPS], 1);
    map->read_at = worker->now;
    map->is_asked = false;
    map->is_wanted = is_failing || map->slots < SLOTROUTE_SLOTS;
    map->tries = 0;
    map->next_at = worker->now + (map->is_wanted ? LATER : SOONEST);
}

void topology_lost(node *from, uint64_t number) {
    topology *map = &from->worker->map;
    if (!map->is_asked || number != map->number)
        return;
    snprintf(map->why, sizeof map->why, "%.100s:%u: %.64s", from->host, from->port, from->why);
    go_on(from->worker);
}
