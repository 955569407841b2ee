#include "transaction.h"

#include "client.h"
#include "node.h"
#include "order.h"
#include "own.h"
#include "request.h"
#include "subscription.h"

#include <string.h>

static const char unwatch[] = "*1\r\n$7\r\nUNWATCH\r\n";

void transaction_drop(client *client) {
    buffer_free(&client->multi);
    buffer_free(&client->multi_list);
    client->multi_slot = NO_SLOT;
    client->is_multi = client->is_multi_bad = client->is_multi_publishing = client->is_watching = false;
}

/* Forgets all without EXEC: the node has to forget what is watched, too. */
static void discard(client *client) {
    if (client->is_watching && client->own != NULL && client->own->state != NODE_CLOSED)
        node_ask(client->own, unwatch, sizeof unwatch - 1, (waiter){.waits = WAITS_NOTHING});
    transaction_drop(client);
}

static bool execute(client *client) {
    if ((client->is_watching && client->first != NULL) ||
        (client->is_multi_publishing && subscription_is_awaited(client)))
        return false;
    if (client->is_multi_bad || (client->is_watching && client->is_watch_lost)) {
        own_text(client, client->is_multi_bad
                             ? "-EXECABORT Transaction discarded because of previous errors.\r\n"
                             : own_nil(client->is_three));
        discard(client);
        return true;
    }
    if (buffer_len(&client->multi) == 0 && !client->is_watching)
        own_text(client, "*0\r\n");
    else
        request_begin_transaction(client);
    transaction_drop(client);
    return true;
}

static bool watch(client *client, const uint8_t *bytes, size_t len) {
    slotroute_routed to = {0};
    bool has_route = layer_route(bytes, len, &to);
    if (client->is_multi) {
        request_refuse(client, "WATCH inside MULTI is not allowed");
    } else if (has_route &&
               (to.kind == SLOTROUTE_TO_SLOTS || (client->is_watching && to.slot != client->multi_slot))) {
        own_text(client, "-CROSSSLOT the proxy watches keys of one slot\r\n");
    } else if (!has_route || to.kind != SLOTROUTE_TO_SLOT) {
        request_refuse(client, "wrong number of arguments for 'watch' command");
    } else if (client->first != NULL) {
        return false;
    } else {
        request_begin_private(client, bytes, len, (uint16_t)to.slot, false);
        client->is_watch_lost = client->is_watching && client->is_watch_lost;
        client->is_watching = true;
        client->multi_slot = (uint16_t)to.slot;
    }
    return true;
}

bool transaction_command(client *client, const uint8_t *bytes, size_t len) {
    words words = words_of(bytes, len);
    word name = {"", 0};
    words_next(&words, &name);
    if (word_is(name, "WATCH"))
        return watch(client, bytes, len);
    if (words.left > 0) {
        request_refuse(client, "wrong number of arguments for a command of a transaction");
    } else if (word_is(name, "UNWATCH") && client->is_multi) {
        transaction_queue(client, bytes, len, COMMAND_TRANSACTION);
    } else if (word_is(name, "UNWATCH")) {
        discard(client);
        own_text(client, "+OK\r\n");
    } else if (word_is(name, "MULTI") && client->is_multi) {
        request_refuse(client, "MULTI calls can not be nested");
    } else if (word_is(name, "MULTI")) {
        client->is_multi = true;
        own_text(client, "+OK\r\n");
    } else if (!client->is_multi) {
        request_refuse(client, word_is(name, "EXEC") ? "EXEC without MULTI" : "DISCARD without MULTI");
    } else if (word_is(name, "EXEC")) {
        return execute(client);
    } else {
        discard(client);
        own_text(client, "+OK\r\n");
    }
    return true;
}

/* Whether a command has no keys, and may run at any node beside commands that have some. */
static bool is_keyless(const uint8_t *bytes, size_t len, command_kind kind, const slotroute_routed *to) {
    words words = words_of(bytes, len);
    word name, second = {"", 0};
    words_next(&words, &name);
    words_next(&words, &second);
    return kind == COMMAND_PING || kind == COMMAND_ECHO || kind == COMMAND_PUBLISH ||
           (kind == COMMAND_SCRIPT && to->kind == SLOTROUTE_TO_ANY) || word_is(name, "TIME") ||
           word_is(name, "UNWATCH") || (kind == COMMAND_SELECT && word_is(second, "0"));
}

/* Why a command is not queued, or NULL if it is. */
static const char *fault_of(const client *client, uint16_t slot, size_t len) {
    bool is_other = slot != NO_SLOT && client->multi_slot != NO_SLOT && slot != client->multi_slot;
    if (is_other && client->is_watching)
        return "-CROSSSLOT a transaction after WATCH has keys of the watched slot alone\r\n";
    if (is_other && !the_proxy.settings.split_transactions)
        return "-CROSSSLOT the commands of a transaction have keys in several slots\r\n";
    return buffer_len(&client->multi) + len > the_proxy.settings.max_message
               ? "-ERR the transaction is too long\r\n"
               : NULL;
}

void transaction_queue(client *client, const uint8_t *bytes, size_t len, command_kind kind) {
    slotroute_routed to = {0};
    bool is_read = layer_route(bytes, len, &to), has_no_key = is_keyless(bytes, len, kind, &to);
    bool is_right = is_read && (has_no_key || (command_is_taken(kind) && to.kind == SLOTROUTE_TO_SLOT));
    queued_command it = {.len = len, .slot = has_no_key ? NO_SLOT : (uint16_t)to.slot};
    const char *fault = is_right ? fault_of(client, it.slot, len) : NULL;
    if (!is_right)
        client_refuse(client, bytes, len, "in a transaction it takes commands on keys of one slot");
    if (fault != NULL)
        own_text(client, fault);
    if (!is_right || fault != NULL) {
        client->is_multi_bad = true;
        return;
    }
    if (client->multi_slot == NO_SLOT)
        client->multi_slot = it.slot;
    client->is_multi_publishing |= kind == COMMAND_PUBLISH;
    buffer_put(&client->multi_list, &it, sizeof it);
    buffer_put(&client->multi, bytes, len);
    own_text(client, "+QUEUED\r\n");
}

void transaction_ask(node *to, request *it, uint32_t part) {
    const struct part *piece = &it->part[part];
    for (uint32_t at = 0; at <= piece->queued; at++)
        node_ask(to, "", 0,
                 (waiter){.request = it, .part = part, .client_id = it->client_id, .waits = WAITS_QUEUED});
    node_ask(to, it->sent + piece->start, piece->end - piece->start,
             (waiter){.request = it, .part = part, .client_id = it->client_id, .waits = WAITS_PART});
}

void transaction_queued(request *it, uint32_t at, const uint8_t *reply, size_t len) {
    part *part = &it->part[at];
    if (reply[0] != '-' || part->reply_len > 0 || len > SMALL_ERROR)
        return;
    part->reply_len = len;
    part->reply = memory_take(len);
    memcpy(part->reply, reply, len);
}

bool transaction_follow(request *it, uint32_t at, node *from, const uint8_t *reply, size_t len) {
    static const char abort[] = "-EXECABORT ";
    part *part = &it->part[at];
    uint8_t error[SMALL_ERROR];
    size_t error_len = part->reply_len;
    if (error_len == 0) /* nodes answer EXEC with a list, or with an error if nothing took effect */
        return redirect_follow(it, at, from, reply, len);
    memcpy(error, part->reply, error_len);
    memory_give(part->reply, error_len);
    part->reply = NULL;
    part->reply_len = 0;
    return len > sizeof abort && memcmp(reply, abort, sizeof abort - 1) == 0 &&
           redirect_follow(it, at, from, error, error_len);
}

bool transaction_is_void(const request *it, uint32_t part) {
    return it->is_transaction && it->is_private && it->part[part].state == PART_AGAIN;
}
