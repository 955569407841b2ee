#include "figures.h"

#include "topology.h"

#include <ctype.h>
#include <stdio.h>
#include <stdlib.h>
#include <string.h>

enum { ROOM = 2 * MOST_NODES }; /* for the names so far, and those of one more thread */

void figures_tick(node *it) {
    uint64_t in_flight = 0, open = 0, is_down = it->is_failing;
    for (const node *one = it; one != NULL; one = one->three) {
        in_flight += one->count;
        open += one->state == NODE_OPEN;
        is_down |= one->is_failing && it->worker->now < one->failed + SECOND; /* it may not be asked again */
    }
    figure_set(&it->figures[NODE_IN_FLIGHT], in_flight);
    figure_set(&it->figures[NODE_OPEN_NOW], open);
    figure_set(&it->figures[NODE_DOWN], is_down);
    figure_set(&it->figures[NODE_IN_MAP], it->is_in_map);
    if (it->worker->number == 0)
        figure_set(&it->figures[NODE_NUMBER], it->number);
}

bool figures_is_ready(const worker *it) {
    return it->map.has_map && it->map.slots == SLOTROUTE_SLOTS && !topology_is_lost(it);
}

size_t figures_nodes_up(const named_list *nodes) {
    size_t count = 0;
    for (size_t at = 0; at < nodes->count; at++)
        count += nodes->all[at].figures[NODE_DOWN] == 0;
    return count;
}

static int compare(const void *one, const void *other) {
    return strcmp(((const named *)one)->name, ((const named *)other)->name);
}

/* Adds up what has the same name. */
static void merge(named_list *it) {
    size_t last = 0;
    qsort(it->all, it->count, sizeof *it->all, compare);
    for (size_t at = 1; at < it->count; at++) {
        bool is_same = compare(&it->all[last], &it->all[at]) == 0;
        if (!is_same)
            it->all[++last] = it->all[at];
        for (size_t figure = 0; is_same && figure < NODE_FIGURES; figure++)
            it->all[last].figures[figure] += it->all[at].figures[figure];
    }
    it->count = it->count == 0 ? 0 : last + 1;
}

/* Another one of a list, with only what needs no quotes in a label or in HTML. */
static named *add(named_list *it, const char *name) {
    named *last = &it->all[it->count++];
    snprintf(last->name, sizeof last->name, "%s", name);
    for (char *at = last->name; *at != 0; at++)
        if (!isalnum((unsigned char)*at) && strchr(".:-_|%*/+[]()", *at) == NULL)
            *at = '?';
    return last;
}

static void add_nodes(const worker *from, named_list *list) {
    size_t known = from->node_count;
    for (size_t at = 0; at < known && list->count < ROOM; at++) {
        const node *it = from->nodes[at];
        char name[HOST_ROOM + 8];
        if (figure_read(&it->figures[NODE_IN_MAP]) == 0)
            continue;
        snprintf(name, sizeof name, "%s:%u", it->host, it->port);
        named *last = add(list, name);
        for (size_t figure = 0; figure < NODE_FIGURES; figure++)
            last->figures[figure] = figure_read(&it->figures[figure]);
    }
}

static void add_commands(const worker *from, named_list *list) {
    for (size_t at = 0; at <= COMMANDS; at++) {
        uint64_t count = figure_read(&from->stats.commands[at]);
        if (count > 0)
            add(list, at == COMMANDS ? "(unknown)" : command_name(at))->figures[0] = count;
    }
}

static void add_refused(const worker *from, named_list *list) {
    size_t known = from->stats.refused_count;
    for (size_t at = 0; at < known && list->count < ROOM; at++) {
        const refused *it = &from->stats.refused[at];
        uint64_t count = figure_read(&it->count);
        if (count > 0)
            add(list, at == 0 ? "(others)" : it->name)->figures[0] = count;
    }
}

named_list figures_of(named_kind kind) {
    static void (*const adders[])(const worker *from, named_list *list) = {add_nodes, add_commands,
                                                                           add_refused};
    named_list it = {memory_take(ROOM * sizeof *it.all), 0};
    for (uint64_t at = 0; at < the_proxy.settings.threads; at++) {
        adders[kind](the_proxy.workers[at], &it);
        merge(&it);
    }
    return it;
}

void named_free(named_list *it) { memory_give(it->all, ROOM * sizeof *it->all); }

/* Writes one figure of each node. */
static void write_of_nodes(const named_list *nodes, buffer *out) {
    static const struct row {
        const char *name, *says;
        node_figure figure;
    } rows[] = {
        {"node_requests_total", "commands sent on the shared connections to a node", NODE_REQUESTS},
        {"node_errors_total", "errors of a node that clients got", NODE_ERRORS},
        {"node_connections_ended_total", "shared connections to a node that ended", NODE_LOST},
        {"node_in_flight", "commands that a node has not answered", NODE_IN_FLIGHT},
        {"node_open_connections", "shared connections to a node", NODE_OPEN_NOW},
        {"node_slots", "slots of a node in the map", NODE_SLOTS},
        {"node_up", "0 if the last connection of a thread to a node failed", NODE_DOWN},
    };
    for (size_t row = 0; row < sizeof rows / sizeof *rows; row++) {
        stats_head(out, rows[row].name, rows[row].says);
        for (size_t at = 0; at < nodes->count; at++) {
            uint64_t figure = nodes->all[at].figures[rows[row].figure];
            buffer_print(out, "slotroute_proxy_%s{node=\"%s\"} %llu\n", rows[row].name, nodes->all[at].name,
                         (unsigned long long)(rows[row].figure == NODE_DOWN ? figure == 0 : figure));
        }
    }
}

static void write_commands(named_list list, const char *name, const char *says, buffer *out) {
    stats_head(out, name, says);
    for (size_t at = 0; at < list.count; at++)
        buffer_print(out, "slotroute_proxy_%s{command=\"%s\"} %llu\n", name, list.all[at].name,
                     (unsigned long long)list.all[at].figures[0]);
    named_free(&list);
}

static void write_gauge(buffer *out, const char *name, const char *says, double value) {
    stats_head(out, name, says);
    buffer_print(out, "slotroute_proxy_%s %g\n", name, value);
}

void figures_write(const worker *it, buffer *out) {
    named_list nodes = figures_of(NAMED_NODES);
    stats_prometheus(out);
    write_gauge(out, "nodes", "nodes of the map", (double)nodes.count);
    write_gauge(out, "nodes_up", "nodes of the map whose last connections did not fail",
                (double)figures_nodes_up(&nodes));
    write_gauge(out, "slots_served", "slots that have a node in the map", (double)it->map.slots);
    write_gauge(out, "map_age_seconds", "how long ago the map was read",
                (double)(it->now - it->map.read_at) / SECOND);
    write_of_nodes(&nodes, out);
    write_commands(figures_of(NAMED_COMMANDS), "command_calls_total", "commands of clients by their name",
                   out);
    write_commands(figures_of(NAMED_REFUSED), "refused_total", "commands that the proxy does not take", out);
    named_free(&nodes);
}
