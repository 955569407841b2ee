#include "proxy.h"

#include <ctype.h>
#include <string.h>

typedef struct row {
    const char *info, *name, *says;
} row;

static const row rows[COUNTERS] = {
    [COUNT_CLIENTS_NOW] = {"connected_clients", "clients", "clients that are connected"},
    [COUNT_CLIENTS_TAKEN] = {"total_connections_received", "clients_total", "clients since the start"},
    [COUNT_CLIENTS_REFUSED] = {"rejected_connections", "clients_refused_total", "clients above the limit"},
    [COUNT_CLIENTS_CLOSED] = {"closed_connections", "clients_closed_total",
                              "clients that the proxy closed, and the log says why"},
    [COUNT_COMMANDS] = {"total_commands_processed", "commands_total", "commands of clients"},
    [COUNT_SPLIT] = {"split_commands", "split_commands_total", "commands that were split by slot"},
    [COUNT_PARTS] = {"parts", "parts_total", "commands that were sent to nodes"},
    [COUNT_MOVED] = {"moved", "moved_total", "MOVED that was followed"},
    [COUNT_ASK] = {"ask", "ask_total", "ASK that was followed"},
    [COUNT_TRYAGAIN] = {"pauses", "pauses_total", "TRYAGAIN, CLUSTERDOWN and LOADING that were waited out"},
    [COUNT_RETRIES] = {"retries", "retries_total", "commands that were sent to nodes again"},
    [COUNT_HELD] = {"held", "held_total", "commands that waited for an earlier one of their slot"},
    [COUNT_NODE_ERRORS] = {"error_replies", "error_replies_total", "errors of nodes that clients got"},
    [COUNT_OWN_ERRORS] = {"own_errors", "own_errors_total", "errors of the proxy that clients got"},
    [COUNT_UNKNOWN_END] = {"unknown_ends", "unknown_ends_total", "commands that may have taken effect"},
    [COUNT_NODES_LOST] = {"node_connections_lost", "node_connections_lost_total",
                          "connections to nodes that ended"},
    [COUNT_NODES_OPENED] = {"node_connections", "node_connections_total", "connections to nodes that began"},
    [COUNT_MAPS] = {"maps", "maps_total", "maps of the cluster that were read"},
    [COUNT_STRAY] = {"stray_replies", "stray_replies_total", "replies that nobody waited for"},
    [COUNT_MEMORY] = {"used_memory", "memory_bytes", "bytes of buffers and requests"},
    [COUNT_BYTES_IN] = {"total_net_input_bytes", "read_bytes_total", "bytes read from clients"},
    [COUNT_BYTES_OUT] = {"total_net_output_bytes", "written_bytes_total", "bytes written to clients"},
};

void stats_took(stats *stats, uint64_t microseconds) {
    size_t step = microseconds == 0 ? 0 : 64 - (size_t)__builtin_clzll(microseconds);
    figure_add(&stats->took[step < LATENCY_STEPS ? step : LATENCY_STEPS - 1], 1);
    figure_add(&stats->took_sum, microseconds);
}

void stats_command(stats *stats, size_t number) {
    figure_add(&stats->counts[COUNT_COMMANDS], 1);
    figure_add(&stats->commands[number], 1);
}

void stats_refused(stats *stats, const char *name) {
    size_t count = stats->refused_count, at = 1;
    while (at < count && strcasecmp(stats->refused[at].name, name) != 0)
        at++;
    if (at >= count && at < MOST_REFUSED) {
        for (size_t place = 0; name[place] != 0 && place + 1 < REFUSED_NAME; place++)
            stats->refused[at].name[place] = (char)toupper((unsigned char)name[place]);
        stats->refused_count = at + 1; /* from now on other threads may read the name */
    }
    figure_add(&stats->refused[at < MOST_REFUSED ? at : 0].count, 1);
}

static uint64_t sum_of(size_t offset) {
    uint64_t sum = 0;
    for (uint64_t at = 0; at < the_proxy.settings.threads; at++)
        sum += figure_read(
            (const _Atomic uint64_t *)(const void *)((const char *)&the_proxy.workers[at]->stats + offset));
    return sum;
}

uint64_t stats_count(counter counter) { return sum_of(offsetof(stats, counts) + counter * sizeof(uint64_t)); }

uint64_t stats_took_sum(size_t step) { return sum_of(offsetof(stats, took) + step * sizeof(uint64_t)); }

void stats_info(buffer *out) {
    buffer_text(out, "# Stats\r\n");
    for (counter at = 0; at < COUNTERS; at++)
        if (at != COUNT_CLIENTS_NOW && at != COUNT_MEMORY) /* which have sections of their own */
            buffer_print(out, "%s:%llu\r\n", rows[at].info, (unsigned long long)stats_count(at));
    buffer_text(out, "\r\n# Latency\r\n");
    for (size_t at = 0; at + 1 < LATENCY_STEPS; at++)
        if (stats_took_sum(at) > 0)
            buffer_print(out, "below_%llu:%llu\r\n", 1ULL << at, (unsigned long long)stats_took_sum(at));
    if (stats_took_sum(LATENCY_STEPS - 1) > 0)
        buffer_print(out, "above:%llu\r\n", (unsigned long long)stats_took_sum(LATENCY_STEPS - 1));
}

void stats_head(buffer *out, const char *name, const char *says) {
    const char *end = strrchr(name, '_');
    const char *type = end != NULL && strcmp(end, "_total") == 0 ? "counter"
                       : strcmp(name, "seconds") == 0            ? "histogram"
                                                                 : "gauge";
    buffer_print(out, "# HELP slotroute_proxy_%s %s\n# TYPE slotroute_proxy_%s %s\n", name, says, name, type);
}

void stats_prometheus(buffer *out) {
    for (counter at = 0; at < COUNTERS; at++) {
        stats_head(out, rows[at].name, rows[at].says);
        buffer_print(out, "slotroute_proxy_%s %llu\n", rows[at].name, (unsigned long long)stats_count(at));
    }
    uint64_t below = 0;
    stats_head(out, "seconds", "how long commands took, except those that wait");
    for (size_t at = 0; at < LATENCY_STEPS; at++) {
        below += stats_took_sum(at);
        if (at + 1 < LATENCY_STEPS)
            buffer_print(out, "slotroute_proxy_seconds_bucket{le=\"%g\"} %llu\n", (double)(1ULL << at) / 1e6,
                         (unsigned long long)below);
    }
    buffer_print(out,
                 "slotroute_proxy_seconds_bucket{le=\"+Inf\"} %llu\nslotroute_proxy_seconds_count %llu\n",
                 (unsigned long long)below, (unsigned long long)below);
    buffer_print(out, "slotroute_proxy_seconds_sum %g\n", (double)sum_of(offsetof(stats, took_sum)) / 1e6);
}
