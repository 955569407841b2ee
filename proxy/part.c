#include "request.h"

#include "client.h"
#include "invariants.h"
#include "node.h"
#include "order.h"
#include "private.h"
#include "scan.h"
#include "subscription.h"
#include "topology.h"
#include "transaction.h"

#include <stdio.h>
#include <string.h>

static const char asking[] = "*1\r\n$6\r\nASKING\r\n";

node *part_node(const request *it, uint32_t at) {
    const part *part = &it->part[at];
    worker *worker = it->client->worker;
    node *to = part->to != NULL        ? part->to
               : part->slot == NO_SLOT ? topology_any(worker)
                                       : topology_owner(worker, part->slot);
    if (to == NULL || !it->is_private)
        return to != NULL && it->is_three ? node_three(to) : to;
    if (it->is_transaction)
        return it->client->own;
    return at + 1 < it->parts ? private_ear(it->client, to) : private_node(it->client, to);
}

void part_send(request *it, uint32_t at) {
    part *part = &it->part[at];
    worker *worker = it->client->worker;
    node *to = part_node(it, at);
    if (to == NULL) {
        topology_want(worker);
        part->due = worker->now + LONGER_PAUSE;
        part_hold(it, at, PART_AGAIN);
        return;
    }
    if (part->asking)
        node_ask(to, asking, sizeof asking - 1, (waiter){.waits = WAITS_NOTHING});
    part->state = PART_SENT;
    it->in_flight++;
    figure_add(&worker->stats.counts[COUNT_PARTS], 1);
    if (it->is_transaction)
        transaction_ask(to, it, at);
    else
        node_ask(to, it->sent + part->start, part->end - part->start,
                 (waiter){.request = it, .part = at, .client_id = it->client_id, .waits = WAITS_PART});
}

/* Takes the first request off a client's queue: its reply, of this length, was written. */
static void unqueue(client *client, size_t reply_len) {
    request *it = client->first;
    client->first = it->next;
    if (client->first == NULL)
        client->last = NULL;
    client->queued--;
    client->queued_bytes -= it->len;
    client->queued_parts -= it->parts;
    client->kept -= it->kept;
    client->is_alone = false;
    client->reply_len = (7 * client->reply_len + reply_len) / 8;
    if (!it->is_private) /* those wait for as long as others like */
        stats_took(&client->worker->stats, client->worker->now - it->start);
    request_free(it);
}

void requests_answer(client *client) {
    while (client->first != NULL && client->first->left == 0) {
        size_t before = buffer_len(&client->out);
        reply_write(client->first, &client->out);
        unqueue(client, buffer_len(&client->out) - before);
    }
    client_touch(client);
}

void part_keep(request *it, uint32_t at, const uint8_t *reply, size_t len) {
    part *part = &it->part[at];
    it->kept += len;
    it->client->kept += len;
    if (it->client->kept > the_proxy.settings.client_memory)
        client_touch(it->client); /* it is closed at the end of the round */
    if (part->reply != NULL)
        memory_give(part->reply, part->reply_len);
    part->reply = NULL;
    part->reply_len = len;
    if (len > SMALL_REPLY)
        part->reply = memory_take_raw(len);
    memcpy(part->reply != NULL ? part->reply : part->small, reply, len);
}

void part_finish(request *it, uint32_t at, const uint8_t *reply, size_t len) {
    client *client = it->client;
    part *part = &it->part[at];
    if (part->state == PART_HELD || part->state == PART_AGAIN)
        client->held--;
    part->state = PART_DONE;
    it->left--;
    if (it->parts == 1 && it->policy == 0 && client->first == it) {
        buffer_put(&client->out, reply, len);
        unqueue(client, len);
        requests_answer(client);
        return;
    }
    part_keep(it, at, reply, len);
    if (client->first == it && it->left == 0)
        requests_answer(client);
}

void part_fail(request *it, uint32_t at, const char *text) {
    buffer error = {0};
    buffer_print(&error, "-%s\r\n", text);
    figure_add(&it->client->worker->stats.counts[COUNT_OWN_ERRORS], 1);
    part_finish(it, at, buffer_at(&error), buffer_len(&error));
    buffer_free(&error);
}

void part_fail_at(request *it, uint32_t at, const node *node, const char *why, bool was_sent) {
    char text[HOST_ROOM + 256];
    snprintf(text, sizeof text, "%s node %s:%u: %s; %s %s", was_sent ? "UNCERTAIN" : "ERR", node->host,
             node->port, why, it->parts > 1 ? "its part of the command" : "the command",
             was_sent ? "may have taken effect" : "did not take effect");
    if (was_sent)
        figure_add(&it->client->worker->stats.counts[COUNT_UNKNOWN_END], 1);
    part_fail(it, at, text);
}

/* A part of a request that belongs to nobody is done. */
static void drop(request *it, uint32_t at) {
    it->part[at].state = PART_DONE;
    it->left--;
    if (it->in_flight == 0)
        request_free(it);
}

void part_reply(request *it, uint32_t at, node *from, const uint8_t *reply, size_t len) {
    client *client = it->client;
    uint16_t slot = it->part[at].slot;
    check_that(it->part[at].state == PART_SENT, "a reply goes to a part that was sent");
    it->in_flight--;
    if (client == NULL) {
        drop(it, at);
    } else if (it->is_subscription) {
        subscription_end(it, at, reply, len);
    } else if (it->is_scan && reply[0] == '*') {
        scan_end(it, reply, len);
    } else if (reply[0] != '-') {
        part_finish(it, at, reply, len);
    } else if (it->is_transaction ? !transaction_follow(it, at, from, reply, len)
                                  : !redirect_follow(it, at, from, reply, len)) {
        figure_add(&from->worker->stats.counts[COUNT_NODE_ERRORS], 1);
        node_count(from, NODE_ERRORS);
        part_finish(it, at, reply, len);
    }
    if (client != NULL && client->held > 0)
        slot_advance(client, slot);
}

part_fate part_fate_of(const request *it, bool was_sent) {
    bool is_for_one_node = it->policy != 0 || it->is_scan;
    return it->client == NULL ? FATE_NOBODY
           : was_sent         ? FATE_UNSURE
           : is_for_one_node  ? FATE_NO_EFFECT
                              : FATE_AGAIN;
}

void part_lost(request *it, uint32_t at, node *lost_at, bool was_sent) {
    client *client = it->client;
    part *part = &it->part[at];
    uint16_t slot = part->slot;
    part_fate fate = part_fate_of(it, was_sent);
    it->in_flight--;
    if (fate == FATE_NOBODY) {
        drop(it, at);
        return;
    }
    if (fate == FATE_AGAIN) {
        part->to = NULL;
        part->asking = false;
        part->due = client->worker->now + LONGER_PAUSE;
        part_hold(it, at, PART_AGAIN);
        return;
    }
    part_fail_at(it, at, lost_at, lost_at->why, was_sent);
    if (client->held > 0)
        slot_advance(client, slot);
}
