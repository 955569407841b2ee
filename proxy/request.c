#include "request.h"

#include "client.h"
#include "order.h"
#include "topology.h"
#include "transaction.h"

#include <string.h>

/* A request at the end of a client's queue. `sent` has what its parts are pieces of: the request, or its
 * split. All of it is one block: the request, its parts, its bytes, and the bytes of the split. */
static request *request_new(client *client, const uint8_t *bytes, size_t len, uint32_t parts,
                            const split *split) {
    size_t parts_size = parts > 1 ? parts * sizeof(part) : 0, split_len = split != NULL ? split->len : 0;
    size_t size = sizeof(request) + parts_size + len + split_len;
    request *it = memory_take_raw(size);
    memset(it, 0, sizeof *it + parts_size);
    it->size = size;
    it->client = client;
    it->client_id = client->id;
    it->is_three = client->is_three;
    it->start = client->worker->now;
    it->len = len;
    it->part = parts > 1 ? (part *)(void *)(it + 1) : &it->one;
    it->parts = it->left = parts;
    it->bytes = it->sent = (uint8_t *)(it + 1) + parts_size;
    if (len > 0)
        memcpy(it->bytes, bytes, len);
    if (split != NULL) {
        it->sent = it->bytes + len;
        memcpy(it->sent, split->bytes, split->len);
    }
    if (client->last != NULL)
        client->last->next = it;
    else
        client->first = it;
    client->last = it;
    client->queued++;
    client->queued_bytes += len;
    client->queued_parts += it->parts;
    return it;
}

void request_free(request *it) {
    for (uint32_t at = 0; at < it->parts; at++)
        if (it->part[at].reply != NULL)
            memory_give(it->part[at].reply, it->part[at].reply_len);
    memory_give(it, it->size);
}

static void part_begin(request *it, uint32_t at) {
    if (part_has_to_wait(it, at)) {
        figure_add(&it->client->worker->stats.counts[COUNT_HELD], 1);
        part_hold(it, at, PART_HELD);
    } else {
        part_send(it, at);
    }
}

static void begin_one(client *client, const uint8_t *bytes, size_t len, uint16_t slot, command_kind kind) {
    request *it = request_new(client, bytes, len, 1, NULL);
    it->is_script = kind == COMMAND_SCRIPT;
    it->one = (part){.end = len, .slot = slot};
    part_begin(it, 0);
}

void request_begin_private(client *client, const uint8_t *bytes, size_t len, uint16_t slot,
                           bool is_blocking) {
    request *it = request_new(client, bytes, len, 1, NULL);
    it->is_private = client->is_alone = true;
    it->is_blocking = is_blocking;
    it->one = (part){.end = len, .slot = slot};
    part_begin(it, 0);
}

void request_begin_transaction(client *client) {
    pieces pieces = {0};
    transaction_compose(client, &pieces);
    split split = {.bytes = buffer_at(&pieces.bytes), .len = buffer_len(&pieces.bytes)};
    request *it =
        request_new(client, buffer_at(&pieces.order), buffer_len(&pieces.order), pieces.count, &split);
    it->is_script = true; /* as after a script, an error of EXEC itself may follow effects */
    it->is_transaction = true;
    it->is_private = client->is_alone = client->is_watching;
    memcpy(it->part, buffer_at(&pieces.parts), buffer_len(&pieces.parts));
    buffer_free(&pieces.bytes);
    buffer_free(&pieces.order);
    buffer_free(&pieces.parts);
    for (uint32_t at = 0; at < it->parts; at++)
        part_begin(it, at);
}

/* Sends the parts of a request that the library splits. False if it does not. */
static bool begin_split(client *client, const uint8_t *bytes, size_t len) {
    split split;
    if (!layer_split(bytes, len, &split))
        return false;
    request *it = request_new(client, bytes, len, (uint32_t)split.parts, &split);
    it->is_split = split.parts > 1;
    for (uint32_t at = 0; at < it->parts; at++)
        it->part[at] =
            (part){.start = at == 0 ? 0 : split.ends[at - 1], .end = split.ends[at], .slot = split.slots[at]};
    if (it->is_split)
        figure_add(&client->worker->stats.counts[COUNT_SPLIT], 1);
    for (uint32_t at = 0; at < it->parts; at++)
        part_begin(it, at);
    return true;
}

/* Sends a request whole to many nodes. The client's next request waits for it. */
static void begin_many(client *client, const uint8_t *bytes, size_t len, node **nodes, size_t count,
                       uint32_t policy) {
    if (policy == SLOTROUTE_NO_POLICY || policy == SLOTROUTE_SPECIAL) {
        request_refuse(
            client, "the replies of several nodes to this command make no one reply: send it to each node");
        return;
    }
    if (count == 0) {
        request_refuse(client, "the proxy has no map of the cluster");
        return;
    }
    request *it = request_new(client, bytes, len, (uint32_t)count, NULL);
    it->policy = policy;
    client->is_alone = true;
    for (uint32_t at = 0; at < it->parts; at++)
        it->part[at] = (part){.end = len, .slot = NO_SLOT, .to = nodes[at]};
    for (uint32_t at = 0; at < it->parts; at++)
        part_send(it, at);
}

bool request_begin(client *client, const uint8_t *bytes, size_t len, command_kind kind) {
    topology *map = &client->worker->map;
    slotroute_routed to;
    if (kind == COMMAND_SPLIT && begin_split(client, bytes, len))
        return true;
    if (!layer_route(bytes, len, &to)) {
        request_refuse(client, "the proxy cannot read this request");
        return true;
    }
    bool is_alone =
        to.kind == SLOTROUTE_TO_ALL || to.kind == SLOTROUTE_TO_ALL_PRIMARIES || kind == COMMAND_BLOCKING;
    if (is_alone && client->first != NULL)
        return false;
    if (to.kind == SLOTROUTE_TO_SLOT && kind == COMMAND_BLOCKING)
        request_begin_private(client, bytes, len, (uint16_t)to.slot, true);
    else if (to.kind == SLOTROUTE_TO_SLOT)
        begin_one(client, bytes, len, kind == COMMAND_PUBLISH ? HERALD_SLOT : (uint16_t)to.slot, kind);
    else if (to.kind == SLOTROUTE_TO_ALL)
        begin_many(client, bytes, len, map->all, map->all_count, to.policy);
    else if (to.kind == SLOTROUTE_TO_ALL_PRIMARIES)
        begin_many(client, bytes, len, map->primaries, map->primary_count, to.policy);
    else if (to.kind == SLOTROUTE_TO_ANY || to.kind == SLOTROUTE_TO_ANY_PRIMARY)
        begin_one(client, bytes, len, NO_SLOT, kind);
    else
        request_refuse(client, "this request goes to no node: is its key missing?");
    return true;
}

void request_begin_subscription(client *client, const buffer *bytes, size_t len, node *to) {
    topology *map = &client->worker->map;
    bool has_ears = len < buffer_len(bytes);
    uint32_t last = has_ears ? (uint32_t)map->primary_count - to->is_primary : 0;
    request *it = request_new(client, buffer_at(bytes), buffer_len(bytes), last + 1, NULL);
    it->is_subscription = it->is_private = client->is_alone = true;
    it->part[last] = (part){.end = len, .slot = NO_SLOT, .to = to};
    for (uint32_t at = 0, primary = 0; at < last; primary++)
        if (map->primaries[primary] != to)
            it->part[at++] =
                (part){.start = len, .end = it->len, .slot = NO_SLOT, .to = map->primaries[primary]};
    for (uint32_t at = 0; at < last; at++)
        part_send(it, at);
    if (last > 0)
        part_hold(it, last, PART_HELD); /* it goes out once the others are done */
    else
        part_begin(it, 0);
}

void request_begin_scan(client *client, const buffer *bytes, node *to) {
    request *it = request_new(client, buffer_at(bytes), buffer_len(bytes), 1, NULL);
    it->is_scan = true;
    it->one = (part){.end = it->len, .slot = NO_SLOT, .to = to};
    part_begin(it, 0);
}

void request_answer_own(client *client, const char *text, size_t len) {
    if (text[0] == '-')
        figure_add(&client->worker->stats.counts[COUNT_OWN_ERRORS], 1);
    if (client->first == NULL) {
        buffer_put(&client->out, text, len);
        client_touch(client);
        return;
    }
    request *it = request_new(client, NULL, 0, 1, NULL);
    it->one.state = PART_DONE;
    it->one.slot = NO_SLOT;
    it->left = 0;
    part_keep(it, 0, (const uint8_t *)text, len);
}

void request_answer_with(client *client, buffer *out) {
    request_answer_own(client, (const char *)buffer_at(out), buffer_len(out));
    buffer_free(out);
}

void request_refuse(client *client, const char *text) {
    buffer error = {0};
    buffer_print(&error, "-ERR %s\r\n", text);
    request_answer_with(client, &error);
}

void requests_disown(client *client) {
    request *it = client->first;
    while (it != NULL) {
        request *next = it->next;
        it->client = NULL;
        it->next = NULL;
        if (it->in_flight == 0)
            request_free(it);
        it = next;
    }
    client->first = client->last = NULL;
    client->queued = client->queued_parts = client->queued_bytes = client->kept = client->held = 0;
}
