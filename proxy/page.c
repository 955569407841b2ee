#include "page.h"

#include "figures.h"

enum { SECONDS = 60, RECENT = 10, COLUMN = 16, MOST_ROWS = 200 }; /* COLUMN: slots of one bar of the strip */

/* What all threads had counted at a second. */
typedef struct sample {
    uint64_t commands, errors, took[LATENCY_STEPS];
} sample;

static sample samples[SECONDS + 1];
static size_t last; /* the newest one */

static const char head[] =
    "<!DOCTYPE html><html lang=en><meta charset=utf-8><meta http-equiv=refresh content=2>"
    "<title>slotroute-proxy</title><style>:root{color-scheme:light dark}body{font:15px/1.4 "
    "system-ui,sans-serif;margin:1.5rem auto;"
    "max-width:64rem;padding:0 1rem;font-variant-numeric:tabular-nums}h1{font-size:1.3rem}h2{font-size:1rem;"
    "margin:1.6rem 0 .3rem}p,th,dt{opacity:.7;margin:0}dl{display:flex;flex-wrap:wrap;gap:1rem 2.2rem}"
    "dd{margin:0;font-size:1.4rem}svg{width:100%;display:block;border:1px solid #8886}table{width:100%;"
    "border-collapse:collapse}th,td{text-align:right;padding:.25rem .5rem;border-bottom:1px solid #8886;"
    "font-weight:400}th:first-child,td:first-child{text-align:left}i{display:inline-block;width:.8em;"
    "height:.8em;margin-right:.5em}.bad{color:#d33;opacity:1}polygon{fill:#89a}.none{fill:#d33}</style>";

static const sample *ago(size_t seconds) { return &samples[(last + SECONDS + 1 - seconds) % (SECONDS + 1)]; }

void page_tick(const worker *it) {
    static uint64_t next;
    if (it->now < next)
        return;
    last = (last + 1) % (SECONDS + 1);
    samples[last].commands = stats_count(COUNT_COMMANDS);
    samples[last].errors = stats_count(COUNT_NODE_ERRORS) + stats_count(COUNT_OWN_ERRORS);
    for (size_t step = 0; step < LATENCY_STEPS; step++)
        samples[last].took[step] = stats_took_sum(step);
    next = it->now + SECOND;
}

static void write_tile(buffer *out, const char *name, const char *unit, double value) {
    bool is_whole = value >= 10 || value <= (double)(uint64_t)value;
    buffer_print(out, "<div><dt>%s<dd>%.*f%s</div>", name, is_whole ? 0 : 2, value, unit);
}

/* Milliseconds below which this part of the last minute's commands took. */
static double quantile(double part) {
    uint64_t all = 0, below = 0;
    size_t step = 0;
    for (size_t at = 0; at < LATENCY_STEPS; at++)
        all += ago(0)->took[at] - ago(SECONDS)->took[at];
    while (step + 1 < LATENCY_STEPS && (double)below < part * (double)all) {
        below += ago(0)->took[step] - ago(SECONDS)->took[step];
        step++;
    }
    return all == 0 ? 0 : (double)(1ULL << (step - 1)) / 1000;
}

static void write_tiles(const named_list *nodes, buffer *out) {
    uint64_t in_flight = 0;
    for (size_t at = 0; at < nodes->count; at++)
        in_flight += nodes->all[at].figures[NODE_IN_FLIGHT];
    buffer_text(out, "<dl>");
    write_tile(out, "clients", "", (double)stats_count(COUNT_CLIENTS_NOW));
    write_tile(out, "commands a second", "", (double)(ago(0)->commands - ago(RECENT)->commands) / RECENT);
    write_tile(out, "errors a second", "", (double)(ago(0)->errors - ago(RECENT)->errors) / RECENT);
    write_tile(out, "in flight", "", (double)in_flight);
    write_tile(out, "half took less than", " ms", quantile(0.5));
    write_tile(out, "99 of 100", " ms", quantile(0.99));
    write_tile(out, "999 of 1000", " ms", quantile(0.999));
    write_tile(out, "memory", " MiB", (double)stats_count(COUNT_MEMORY) / (1 << 20));
    buffer_text(out, "</dl>");
}

/* Commands of each second of the last minute. */
static void write_rates(buffer *out) {
    uint64_t rates[SECONDS], most = 1;
    for (size_t at = 0; at < SECONDS; at++) {
        rates[at] = ago(at)->commands - ago(at + 1)->commands;
        most = rates[at] > most ? rates[at] : most;
    }
    buffer_print(out,
                 "<h2>Commands a second, in the last minute</h2><p>at most %llu</p><svg viewBox='0 0 59 100' "
                 "height=80 preserveAspectRatio=none role=img aria-label='rates'><polygon points='59,100",
                 (unsigned long long)most);
    for (size_t at = 0; at < SECONDS; at++)
        buffer_print(out, " %zu,%.1f", SECONDS - 1 - at, 100 - 98 * (double)rates[at] / (double)most);
    buffer_text(out, " 0,100'/></svg>");
}

/* The owner of slots that make one bar, or NO_NODE if one of them has none. */
static uint16_t owner_of(const worker *it, size_t slot) {
    uint16_t owner = it->map.owner[slot];
    for (size_t at = slot; at < slot + COLUMN; at++)
        owner = it->map.owner[at] == SLOTROUTE_NO_NODE ? (uint16_t)SLOTROUTE_NO_NODE : owner;
    return owner;
}

static unsigned hue(uint64_t number) { return (unsigned)(number * 137 + 210) % 360; }

/* The slots from left to right, in the colors of their nodes. */
static void write_strip(const worker *it, buffer *out) {
    buffer_print(
        out,
        "<h2>Slots</h2><p>%zu of %d have a node. The map was read %.1f seconds ago.</p><svg "
        "viewBox='0 0 %d 1' height=36 preserveAspectRatio=none role=img aria-label='the node of each slot'>",
        it->map.slots, SLOTROUTE_SLOTS, (double)(it->now - it->map.read_at) / SECOND, SLOTROUTE_SLOTS);
    for (size_t first = 0, end; first < SLOTROUTE_SLOTS; first = end) {
        uint16_t owner = owner_of(it, first);
        for (end = first + COLUMN; end < SLOTROUTE_SLOTS && owner_of(it, end) == owner;)
            end += COLUMN;
        buffer_print(out, "<rect x=%zu width=%zu height=1 ", first, end - first);
        if (owner == SLOTROUTE_NO_NODE)
            buffer_text(out, "class=none />");
        else
            buffer_print(out, "fill='hsl(%u 55%% 50%%)'/>", hue(owner));
    }
    buffer_text(out, "</svg>");
}

/* The columns of numbers. */
static const node_figure cells[] = {NODE_SLOTS, NODE_REQUESTS, NODE_IN_FLIGHT, NODE_ERRORS, NODE_LOST};

static void write_nodes(const named_list *nodes, buffer *out) {
    buffer_text(out, "<h2>Nodes</h2><table><tr><th>node<th>role<th>state<th>slots<th>requests<th>in "
                     "flight<th>errors<th>lost");
    for (size_t at = 0; at < nodes->count; at++) {
        const uint64_t *it = nodes->all[at].figures;
        const char *state = it[NODE_DOWN] > 0       ? " class=bad>down"
                            : it[NODE_OPEN_NOW] > 0 ? ">up"
                                                    : ">not asked";
        buffer_print(out, "<tr><td><i style='background:hsl(%u 55%% 50%%)'></i>%s<td>%s<td%s",
                     hue(it[NODE_NUMBER]), nodes->all[at].name, it[NODE_SLOTS] > 0 ? "primary" : "replica",
                     state);
        for (const node_figure *cell = cells; cell < cells + sizeof cells / sizeof *cells; cell++)
            buffer_print(out, "<td>%llu", (unsigned long long)it[*cell]);
    }
    buffer_text(out, "</table>");
}

static void write_commands(named_list list, const char *says, buffer *out) {
    for (size_t at = 0; at < list.count && at < MOST_ROWS; at++)
        buffer_print(out, "<tr><td>%s%s<td>%llu", list.all[at].name, says,
                     (unsigned long long)list.all[at].figures[0]);
    named_free(&list);
}

void page_write(const worker *it, buffer *out) {
    named_list nodes = figures_of(NAMED_NODES);
    page_tick(it);
    buffer_text(out, head);
    buffer_print(out,
                 "<h1>slotroute-proxy %s</h1><p%s>%s: %zu of %zu nodes are up. The proxy has run for %llu "
                 "seconds. Threads: %llu.</p>",
                 SLOTROUTE_VERSION, figures_is_ready(it) ? "" : " class=bad",
                 figures_is_ready(it) ? "Ready" : "Not ready", figures_nodes_up(&nodes), nodes.count,
                 (unsigned long long)((it->now - the_proxy.start) / SECOND),
                 (unsigned long long)the_proxy.settings.threads);
    write_tiles(&nodes, out);
    write_rates(out);
    write_strip(it, out);
    write_nodes(&nodes, out);
    buffer_text(out, "<h2>Commands</h2><table><tr><th>name<th>since the start");
    write_commands(figures_of(NAMED_COMMANDS), "", out);
    write_commands(figures_of(NAMED_REFUSED), ", refused", out);
    buffer_text(out, "</table>");
    named_free(&nodes);
}
