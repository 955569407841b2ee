#include "own.h"

#include "node.h"
#include "request.h"

#include <fnmatch.h>
#include <inttypes.h>
#include <stdio.h>
#include <string.h>
#include <unistd.h>

enum { EVERY = 10 * SECOND };

/* Fields of a node's INFO that clients ask for, and what they are until a node has said so. */
static const struct field {
    const char *name, *first;
} fields[NODE_FIELDS] = {
    [NODE_VERSION] = {"redis_version:", "7.0.0"},
    [NODE_MAXMEMORY] = {"maxmemory:", "0"},
    [NODE_POLICY] = {"maxmemory_policy:", "noeviction"},
};

const char *info_field(const worker *worker, node_field field) {
    const char *found = worker->fields[field];
    return found[0] != 0 ? found : fields[field].first;
}

static void ask(node *node) {
    static const char question[] = "*1\r\n$4\r\nINFO\r\n";
    node_ask(node, question, sizeof question - 1, (waiter){.waits = WAITS_INFO});
}

void info_ask(node *node) {
    worker *worker = node->worker;
    if (worker->now < worker->info_at)
        return;
    worker->info_at = worker->now + EVERY;
    ask(node);
    for (size_t at = 0; at < worker->map.primary_count; at++)
        if (worker->map.primaries[at] != node && !worker->map.primaries[at]->is_failing)
            ask(worker->map.primaries[at]);
}

/* Reads how many keys a node has. It leaves them out if it has none. */
static void read_keys(node *node, const uint8_t *reply, size_t len) {
    static const char name[] = "\ndb0:";
    char text[100] = "";
    const char *end = (const char *)reply + len, *at = memmem(reply, len, name, sizeof name - 1);
    if (at != NULL)
        snprintf(text, sizeof text, "%.*s", (int)(end - at), at);
    if (sscanf(text, "\ndb0:keys=%" SCNu64 ",expires=%" SCNu64, &node->keys, &node->expiring) != 2)
        node->keys = node->expiring = 0;
}

void info_reply(node *node, const uint8_t *reply, size_t len) {
    worker *worker = node->worker;
    if (reply[0] == '$')
        read_keys(node, reply, len);
    for (size_t field = 0; field < NODE_FIELDS; field++) {
        const char *name = fields[field].name, *all_end = (const char *)reply + len;
        const char *at = memmem(reply, len, name, strlen(name));
        const char *value = at == NULL ? NULL : at + strlen(name);
        const char *end = at == NULL ? NULL : memchr(value, '\r', (size_t)(all_end - value));
        if (end != NULL)
            snprintf(worker->fields[field], FIELD_ROOM, "%.*s", (int)(end - value), value);
    }
}

static void put_keys(const worker *worker, buffer *out) {
    uint64_t keys = 0, expiring = 0;
    for (size_t at = 0; at < worker->map.primary_count; at++) {
        keys += worker->map.primaries[at]->keys;
        expiring += worker->map.primaries[at]->expiring;
    }
    if (keys > 0)
        buffer_print(out, "db0:keys=%" PRIu64 ",expires=%" PRIu64 ",avg_ttl=0\r\n", keys, expiring);
}

/* Writes all sections. Each begins with #. */
static void put_all(const worker *worker, buffer *out) {
    const settings *set = &the_proxy.settings;
    unsigned long long uptime = (clock_now() - the_proxy.start) / SECOND, used = stats_count(COUNT_MEMORY);
    buffer_print(out, "# Server\r\nredis_version:%s\r\nredis_mode:standalone\r\nproxy:slotroute %s\r\n",
                 info_field(worker, NODE_VERSION), SLOTROUTE_VERSION);
    buffer_print(out,
                 "process_id:%d\r\nuptime_in_seconds:%llu\r\nuptime_in_days:%llu\r\nthreads:%llu\r\n\r\n",
                 (int)getpid(), uptime, uptime / 86400, (unsigned long long)set->threads);
    buffer_print(out, "# Clients\r\nconnected_clients:%llu\r\nmaxclients:%llu\r\n\r\n",
                 (unsigned long long)stats_count(COUNT_CLIENTS_NOW), (unsigned long long)set->max_clients);
    buffer_print(out, "# Memory\r\nused_memory:%llu\r\nused_memory_human:%.2fM\r\n", used,
                 (double)used / (1 << 20));
    buffer_print(out, "maxmemory:%s\r\nmaxmemory_policy:%s\r\n\r\n", info_field(worker, NODE_MAXMEMORY),
                 info_field(worker, NODE_POLICY));
    buffer_text(out, "# Persistence\r\nloading:0\r\n\r\n");
    stats_info(out);
    buffer_text(out, "\r\n# Replication\r\nrole:master\r\nconnected_slaves:0\r\n\r\n"
                     "# Cluster\r\ncluster_enabled:0\r\n\r\n# Keyspace\r\n");
    put_keys(worker, out);
}

/* Whether INFO names a section, or all. */
static bool is_wanted(const line *line, word name) {
    bool is_named = line->count == 1;
    for (size_t at = 1; at < line->count && at < MOST_WORDS; at++) {
        word it = line->words[at];
        is_named |= word_is(it, "default") || word_is(it, "all") || word_is(it, "everything") ||
                    (it.len == name.len && strncasecmp(it.text, name.text, name.len) == 0);
    }
    return is_named;
}

void own_info(client *client, const line *line) {
    buffer all = {0}, out = {0};
    put_all(client->worker, &all);
    while (buffer_len(&all) > 0) {
        const char *text = (const char *)buffer_at(&all);
        const char *next = memmem(text + 1, buffer_len(&all) - 1, "\r\n# ", 4);
        size_t len = next == NULL ? buffer_len(&all) : (size_t)(next + 2 - text);
        if (is_wanted(line, (word){text + 2, strcspn(text + 2, "\r,")}))
            buffer_put(&out, text, len);
        buffer_drop(&all, len);
    }
    own_bulk(client, (const char *)buffer_at(&out), buffer_len(&out));
    buffer_free(&all);
    buffer_free(&out);
}

void own_config(client *client, const line *line) {
    char clients[FIELD_ROOM], message[FIELD_ROOM], pattern[FIELD_ROOM];
    const struct parameter {
        const char *name, *value;
    } all[] = {{"databases", "1"},
               {"timeout", "0"},
               {"maxclients", clients},
               {"proto-max-bulk-len", message},
               {"maxmemory", info_field(client->worker, NODE_MAXMEMORY)},
               {"maxmemory-policy", info_field(client->worker, NODE_POLICY)}};
    bool is_told[sizeof all / sizeof *all] = {false};
    buffer found = {0}, out = {0};
    size_t count = 0;
    if (line->count < 3 || line->count > MOST_WORDS || !word_is(line->words[1], "GET")) {
        stats_refused(&client->worker->stats, "CONFIG");
        request_refuse(client, "the proxy does not take this: of CONFIG it takes GET, for what it knows");
        return;
    }
    snprintf(clients, sizeof clients, "%llu", (unsigned long long)the_proxy.settings.max_clients);
    snprintf(message, sizeof message, "%llu", (unsigned long long)the_proxy.settings.max_message);
    for (size_t word = 2; word < line->count; word++) {
        size_t len = line->words[word].len;
        snprintf(pattern, FIELD_ROOM, "%.*s", len < FIELD_ROOM ? (int)len : 0, line->words[word].text);
        for (size_t at = 0; at < sizeof is_told; at++) {
            if (is_told[at] || fnmatch(pattern, all[at].name, FNM_CASEFOLD) != 0)
                continue;
            buffer_bulk(&found, all[at].name, strlen(all[at].name));
            buffer_bulk(&found, all[at].value, strlen(all[at].value));
            is_told[at] = true;
            count++;
        }
    }
    buffer_print(&out, client->is_three ? "%%%zu\r\n" : "*%zu\r\n", client->is_three ? count : 2 * count);
    buffer_put(&out, buffer_at(&found), buffer_len(&found));
    request_answer_with(client, &out);
    buffer_free(&found);
}
