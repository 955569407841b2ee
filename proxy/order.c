#include "order.h"

#include "client.h"
#include "invariants.h"
#include "node.h"
#include "own.h"
#include "request.h"
#include "topology.h"
#include "transaction.h"

#include <string.h>

/* A part in a client's queue. */
typedef struct place {
    request *request; /* NULL after the last one */
    uint32_t part;
} place;

/* The first part of the slot at a place or after it. */
static place find(place at, uint16_t slot) {
    for (; at.request != NULL; at = (place){at.request->next, 0})
        for (; at.part < at.request->parts; at.part++)
            if (at.request->part[at.part].slot == slot)
                return at;
    return at;
}

static place after(place at, uint16_t slot) { return find((place){at.request, at.part + 1}, slot); }

static part *part_at(place at) { return &at.request->part[at.part]; }

/* The first part of a slot that is not done. */
static place first_open(const client *client, uint16_t slot) {
    place at = find((place){client->first, 0}, slot);
    while (at.request != NULL && part_at(at)->state == PART_DONE)
        at = after(at, slot);
    return at;
}

bool part_has_to_wait(const request *request, uint32_t part) {
    const client *client = request->client;
    uint16_t slot = request->part[part].slot;
    if (slot == NO_SLOT || (client->held == 0 && !topology_is_slow(client->worker, slot)))
        return false;
    /* the part itself is HELD as it was made, and so the last of its slot that is open */
    return first_open(client, slot).request != request;
}

void part_hold(request *request, uint32_t part, part_state state) {
    client *client = request->client;
    request->part[part].state = (uint8_t)state;
    client->held++;
    if (client->is_troubled)
        return;
    client->is_troubled = true;
    client->next_troubled = client->worker->troubled;
    client->worker->troubled = client;
}

static void send_again(place at) {
    client *client = at.request->client;
    if (part_at(at)->state == PART_AGAIN)
        figure_add(&client->worker->stats.counts[COUNT_RETRIES], 1);
    client->held--;
    part_send(at.request, at.part);
}

/* What the later parts of a slot are. */
typedef struct later {
    bool is_done, is_sent; /* one of them is */
} later;

static later later_of(place at, uint16_t slot) {
    later it = {false, false};
    for (place next = after(at, slot); next.request != NULL; next = after(next, slot)) {
        it.is_done |= part_at(next)->state == PART_DONE;
        it.is_sent |= part_at(next)->state == PART_SENT;
    }
    return it;
}

/* The node that a part waits for, if that cannot be reached and the time to try is up. Else NULL. */
static node *out_of_reach(place at) {
    const worker *worker = at.request->client->worker;
    if (worker->now - at.request->start < the_proxy.settings.retry * MILLISECOND)
        return NULL;
    node *to = part_node(at.request, at.part);
    return to != NULL && to->is_failing ? to : NULL;
}

/* Does what is to be done with the first part of a slot that is open. Returns whether it is done now. */
static bool step(client *client, uint16_t slot) {
    place first = first_open(client, slot);
    if (first.request == NULL || part_at(first)->state == PART_SENT)
        return false;
    if (transaction_is_void(first.request, first.part)) {
        const char *nil = own_nil(first.request->is_three);
        part_finish(first.request, first.part, (const uint8_t *)nil, strlen(nil));
        return true;
    }
    const node *lost = out_of_reach(first);
    if (lost != NULL) {
        part_fail_at(first.request, first.part, lost, lost->why, false);
        return true;
    }
    if (part_at(first)->state == PART_HELD) {
        send_again(first);
        return false;
    }
    later later = slot == NO_SLOT ? (struct later){false, false} : later_of(first, slot);
    if (later.is_done) {
        part_fail(
            first.request, first.part,
            "TRYAGAIN the slot is being moved, and a later command on it took effect before this one could");
        return true;
    }
    if (!later.is_sent && client->worker->now >= part_at(first)->due)
        send_again(first);
    return false;
}

void slot_advance(client *client, uint16_t slot) {
    while (client->held > 0 && step(client, slot)) {
    }
}

bool part_may_try(const request *request, uint32_t part) {
    struct part *it = &request->part[part];
    uint64_t now = request->client->worker->now;
    it->since = it->since == 0 ? now : it->since;
    return now - it->since < the_proxy.settings.retry * MILLISECOND || it->since == now;
}

/* Gives up a part that waits for too long. Returns whether it is done now. */
static bool give_up(client *client, place at) {
    part *part = part_at(at);
    worker *worker = client->worker;
    uint64_t retry = the_proxy.settings.retry * MILLISECOND,
             timeout = the_proxy.settings.timeout * MILLISECOND;
    bool has_node =
        part->slot == NO_SLOT ? worker->map.primary_count > 0 : topology_owner(worker, part->slot) != NULL;
    if (part->state == PART_AGAIN && !has_node && part->to == NULL && worker->now - at.request->start > retry)
        part_fail(at.request, at.part, "CLUSTERDOWN Hash slot not served");
    else if (worker->now - at.request->start > 2 * (retry + timeout))
        part_fail(at.request, at.part,
                  at.request->is_split
                      ? "ERR a part of the command waited for too long, and did not take effect"
                      : "ERR the command waited for too long, and did not take effect");
    else
        return false;
    return true;
}

/* Looks for a part that is due or too old. Returns whether one is done now, which may have freed requests. */
static bool advance_one(client *client) {
    uint64_t now = client->worker->now;
    for (request *it = client->first; it != NULL; it = it->next) {
        for (uint32_t at = 0; at < it->parts; at++) {
            const part *part = &it->part[at];
            uint16_t slot = part->slot;
            bool is_due = part->state == PART_AGAIN && now >= part->due;
            bool is_old = part->state == PART_HELD && now - it->start > SECOND;
            if ((part->state == PART_HELD || part->state == PART_AGAIN) && give_up(client, (place){it, at})) {
                slot_advance(client, slot);
                return true;
            }
            if ((is_due || is_old) && step(client, slot))
                return true;
        }
    }
    return false;
}

void client_advance(client *client) {
    while (client->held > 0 && advance_one(client)) {
    }
}
