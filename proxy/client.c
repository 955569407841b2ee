#include "client.h"

#include "commands.h"
#include "inline.h"
#include "invariants.h"
#include "node.h"
#include "peer.h"
#include "private.h"
#include "request.h"
#include "scan.h"
#include "subscription.h"
#include "tls.h"
#include "transaction.h"

#include <errno.h>
#include <stdio.h>
#include <string.h>
#include <sys/epoll.h>
#include <sys/socket.h>
#include <unistd.h>

/* The time that a client has to close after the proxy has, also while that is drained. */
enum { GOODBYE = 2 * SECOND, SHORT_GOODBYE = 500 * MILLISECOND };
enum { STRANGER = 16384 }; /* bytes of a request at most, before the password */

void client_begin(worker *worker, int fd) {
    client *it = memory_take(sizeof *it);
    it->peer = (peer){.kind = PEER_CLIENT, .fd = fd};
    it->worker = worker;
    it->id = atomic_fetch_add(&the_proxy.next_id, 1) + 1;
    it->active_at = it->begun_at = worker->now;
    it->is_known = the_proxy.settings.password == NULL;
    it->multi_slot = NO_SLOT;
    it->next = worker->clients;
    if (it->next != NULL)
        it->next->previous = it;
    worker->clients = it;
    peer_set_up(fd);
    peer_watch(worker, &it->peer, EPOLLIN);
    if (!tls_begin(&it->peer))
        client_doom(it, "TLS could not begin");
    if (worker->is_draining)
        client_end(it);
    figure_add(&worker->stats.counts[COUNT_CLIENTS_TAKEN], 1);
    figure_add(&worker->stats.counts[COUNT_CLIENTS_NOW], 1);
}

void client_touch(client *it) {
    if (it->is_dirty)
        return;
    it->is_dirty = true;
    it->next_dirty = it->worker->dirty_clients;
    it->worker->dirty_clients = it;
}

void client_doom(client *it, const char *why) {
    it->doom = why;
    client_touch(it);
}

void client_end(client *it) {
    it->is_ending = true;
    client_touch(it);
}

/* Closes the connection. The client itself is freed at the end of the round: an event may still name it. */
static void client_close(client *it) {
    worker *worker = it->worker;
    if (it->doom[0] != 0) {
        figure_add(&worker->stats.counts[COUNT_CLIENTS_CLOSED], 1);
        say("client %llu: %s", (unsigned long long)it->id, it->doom);
    }
    requests_disown(it);
    subscription_is_awaited(it); /* not by a client that is closed */
    subscription_leave(it);
    transaction_drop(it);
    private_drop(it);
    buffer_free(&it->in);
    buffer_free(&it->out);
    buffer_free(&it->name);
    tls_free(&it->peer);
    close(it->peer.fd);
    it->peer.fd = -1;
    if (it->next != NULL)
        it->next->previous = it->previous;
    if (it->previous != NULL)
        it->previous->next = it->next;
    else
        worker->clients = it->next;
    it->next_dead = worker->dead;
    worker->dead = it;
    figure_add(&worker->stats.counts[COUNT_CLIENTS_NOW], (uint64_t)-1);
    atomic_fetch_sub(&the_proxy.clients, 1);
}

void client_free(client *it) {
    client **link = &it->worker->troubled;
    while (it->is_troubled && *link != NULL && *link != it)
        link = &(*link)->next_troubled;
    if (it->is_troubled && *link == it)
        *link = it->next_troubled;
    memory_give(it, sizeof *it);
}

/* The replies that a client has not read. */
static size_t unread(const client *it) { return buffer_len(&it->out) + buffer_len(&it->early) + it->kept; }

/* Whether the next request may wait until nodes have answered the earlier ones. It never waits for the client
 * to read: a client may write all of its requests first. */
static bool has_enough(const client *it) {
    size_t expected = unread(it) + it->queued_bytes + it->queued * it->reply_len;
    return it->queued >= MOST_QUEUED || it->queued_parts >= MOST_PARTS ||
           (it->queued > 0 && expected >= the_proxy.settings.client_memory / 4);
}

/* Whether another request may be read. */
static bool may_read(const client *it) {
    return !it->is_ending && !it->is_alone && it->doom == NULL && !has_enough(it) &&
           unread(it) <= the_proxy.settings.client_memory;
}

/* Whether bytes are read, although no request is taken: a command about subscriptions may be among them,
 * which has its turn before what others send later. */
static bool may_look_ahead(const client *it) {
    return it->first != NULL && it->first->is_subscription && buffer_len(&it->in) < STRANGER &&
           it->doom == NULL;
}

/* Whether the client waits for as long as a node likes, as with BLPOP. */
static bool is_blocked(const client *it) { return it->first != NULL && it->first->is_blocking; }

void client_refuse(client *it, const uint8_t *bytes, size_t len, const char *why) {
    char text[250], name[32] = "";
    words words = words_of(bytes, len);
    word first = {"", 0};
    words_next(&words, &first);
    for (size_t at = 0; at < first.len && at + 1 < sizeof name; at++)
        name[at] = (char)(first.text[at] > ' ' && first.text[at] <= '~' ? first.text[at] : '?');
    stats_refused(&it->worker->stats, name);
    snprintf(text, sizeof text, "the proxy does not take '%s': %s", name, why);
    request_refuse(it, text);
}

/* Why a command is refused in the state in which the client is, or NULL if it is not. */
static const char *refusal_of_state(const client *it, command_kind kind) {
    if (kind == COMMAND_QUIT || kind == COMMAND_RESET)
        return NULL;
    if (it->is_elsewhere && kind != COMMAND_AUTH && kind != COMMAND_SELECT)
        return "SELECT was refused, so this command is for another database: until SELECT 0, the proxy takes "
               "AUTH, QUIT and RESET alone";
    if (it->is_subscribed && it->is_three &&
        (kind == COMMAND_BLOCKING || kind == COMMAND_TRANSACTION || kind == COMMAND_HELLO))
        return "the proxy does not take this from a subscriber: it would go over the same connection";
    if (it->is_subscribed && !it->is_three && kind != COMMAND_SUBSCRIPTION && kind != COMMAND_PING)
        return "only (P)SUBSCRIBE, (P)UNSUBSCRIBE, PING, QUIT and RESET are allowed in this context";
    return NULL;
}

/* Takes one whole request. False if it has to wait for the earlier ones. */
static bool take(client *it, const uint8_t *bytes, size_t len) {
    size_t number;
    command_kind kind = command_of(bytes, len, &number);
    const char *refusal = command_refusal(kind), *refusal_now = refusal_of_state(it, kind);
    bool has_begun = true;
    if (words_of(bytes, len).left == 0)
        return true; /* a server does not answer a request of no words either */
    if (!it->is_known && kind != COMMAND_AUTH && kind != COMMAND_HELLO && kind != COMMAND_QUIT)
        request_answer_own(it, "-NOAUTH Authentication required.\r\n", 34);
    else if (refusal_now != NULL)
        request_refuse(it, refusal_now);
    else if ((kind == COMMAND_HELLO || kind == COMMAND_RESET) && it->first != NULL)
        has_begun = false; /* what follows may go over other connections */
    else if (kind == COMMAND_TRANSACTION)
        has_begun = transaction_command(it, bytes, len);
    else if (it->is_multi && kind != COMMAND_QUIT && kind != COMMAND_RESET)
        transaction_queue(it, bytes, len, kind);
    else if (refusal != NULL)
        client_refuse(it, bytes, len, refusal);
    else if (kind == COMMAND_SUBSCRIPTION)
        has_begun = subscription_begin(it, bytes, len);
    else if (kind == COMMAND_CURSOR)
        scan_begin(it, bytes, len);
    else if (kind == COMMAND_PUBLISH && subscription_is_awaited(it))
        has_begun = false;
    else if (command_is_taken(kind) || kind == COMMAND_BLOCKING)
        has_begun = request_begin(it, bytes, len, kind);
    else
        own_answer(it, kind, bytes, len);
    if (has_begun)
        stats_command(&it->worker->stats, number);
    return has_begun;
}

/* Takes a request that is a line of text. If it has to wait for the earlier ones, `end` is 0. */
static whole take_line(client *it, const uint8_t *bytes, size_t len, size_t *end) {
    buffer request = {0};
    whole found = inline_read(bytes, len, &request, end);
    if (found == IS_WHOLE && buffer_len(&request) > 0)
        *end = take(it, buffer_at(&request), buffer_len(&request)) ? *end : 0;
    buffer_free(&request);
    return found;
}

/* Takes the requests that have come whole, as far as the client may be read. Returns their bytes. */
static size_t take_requests(client *it, const uint8_t *bytes, size_t len) {
    size_t used = 0, end = 0;
    while (used < len && may_read(it)) {
        size_t most = it->is_known ? the_proxy.settings.max_message : STRANGER; /* AUTH may have changed it */
        bool is_line = bytes[used] != '*';
        whole found = is_line ? take_line(it, bytes + used, len - used, &end)
                              : layer_request(bytes + used, len - used, &it->progress, &end);
        bool is_long = (found == IS_WHOLE ? end : len - used) > most;
        if (found == IS_MALFORMED || is_long) {
            char text[100];
            snprintf(text, sizeof text, "Protocol error: a request of more than %llu bytes",
                     (unsigned long long)most);
            request_refuse(it, is_long ? text : "Protocol error: malformed request");
            client_end(it);
            return len;
        }
        if (found == IS_PIECE || end == 0 || (!is_line && !take(it, bytes + used, end)))
            break;
        used += end;
    }
    return it->is_ending ? len : used;
}

static bool may_be_paused(const client *it) {
    return it->worker->is_pressed && (it->queued > 0 || buffer_len(&it->in) > 0);
}

void client_event(client *it, uint32_t events) {
    const char *why = NULL;
    int shaken = it->peer.fd < 0 ? 0 : tls_shake(it->worker, &it->peer, &why);
    if (shaken < 0)
        client_doom(it, why != NULL ? why : "");
    if (shaken <= 0)
        return;
    client_touch(it);
    bool has_left = (events & EPOLLRDHUP) != 0 && is_blocked(it);
    if (has_left || (events & EPOLLERR) != 0 || ((events & EPOLLHUP) != 0 && (events & EPOLLIN) == 0)) {
        client_doom(it, "");
        return;
    }
    if ((events & EPOLLIN) == 0 || may_be_paused(it))
        return;
    arrived found = peer_read(it->worker, &it->peer, &it->in);
    if (found.is_broken) {
        client_doom(it, "");
        return;
    }
    figure_add(&it->worker->stats.counts[COUNT_BYTES_IN], found.fresh);
    it->has_ended |= found.is_end;
    if (it->is_ending) { /* what comes now is not read */
        buffer_drop(&it->in, buffer_len(&it->in));
        return;
    }
    if (found.fresh > 0)
        it->active_at = it->worker->now;
    peer_keep(&found, &it->in, take_requests(it, found.bytes, found.len));
}

/* Writes replies. */
static void write_replies(client *it) {
    size_t left = buffer_len(&it->out);
    int64_t written = left == 0 ? 0 : peer_write(&it->peer, &it->out);
    if (written < 0)
        client_doom(it, "");
    else
        figure_add(&it->worker->stats.counts[COUNT_BYTES_OUT], (uint64_t)written);
    if (left == 0 || written > 0)
        it->active_at = it->worker->now;
    if (unread(it) > the_proxy.settings.client_memory)
        client_doom(it, "its replies, which it has not read, take more than client-memory");
}

/* Closes a client that has nothing more to come, in two steps: it has to see the end of its replies. */
static void finish(client *it) {
    if (it->has_ended) {
        client_doom(it, "");
    } else if (it->is_ending && !it->is_shut) {
        it->is_shut = true;
        it->end_at = it->worker->now + (it->worker->is_draining ? SHORT_GOODBYE : GOODBYE);
        tls_shut(&it->peer);
        shutdown(it->peer.fd, SHUT_WR);
    }
}

void client_settle(client *it) {
    if (it->peer.fd < 0)
        return;
    write_replies(it);
    if (buffer_len(&it->in) > 0 && may_read(it))
        buffer_drop(&it->in, take_requests(it, buffer_at(&it->in), buffer_len(&it->in)));
    if (it->first == NULL || !it->first->is_subscription)
        subscription_leave(it);
    bool is_waiting = it->has_ended && buffer_len(&it->in) > 0 && (it->is_publisher || !may_read(it));
    if (it->first == NULL && buffer_len(&it->out) == 0 && !is_waiting)
        finish(it);
    it->is_dirty = false;
    if (it->doom != NULL) {
        client_close(it);
        return;
    }
    it->is_paused = may_be_paused(it);
    bool may_go_on = it->is_ending || (may_read(it) && !it->is_publisher) || may_look_ahead(it);
    bool reads = !it->has_ended && !it->is_paused && may_go_on;
    bool writes = buffer_len(&it->out) > 0;
    peer_watch(it->worker, &it->peer,
               (reads ? EPOLLIN : 0u) | (writes ? EPOLLOUT : 0u) | (is_blocked(it) ? EPOLLRDHUP : 0u));
    client_check(it);
}

void client_tick(client *it) {
    uint64_t limit = the_proxy.settings.client_timeout * MILLISECOND;
    if (buffer_len(&it->out) > 0 && it->worker->now - it->active_at > limit)
        client_doom(it, "it leaves its replies unread");
    if (it->worker->now - it->active_at > SHAKING_TIME && !tls_is_shaken(&it->peer))
        client_doom(it, "no TLS handshake in time");
    if (it->is_shut && it->worker->now > it->end_at)
        client_doom(it, "");
    if ((it->is_paused && !it->worker->is_pressed) || it->is_publisher)
        client_touch(it);
    if (it->own != NULL)
        node_tick(it->own);
    for (node *ear = it->ears; ear != NULL; ear = ear->next_ear)
        node_tick(ear);
    if (it->worker->now - it->active_at > SECOND && buffer_len(&it->out) == 0)
        buffer_free(&it->out); /* it is idle */
    if (it->worker->now - it->active_at > SECOND && buffer_len(&it->in) == 0)
        buffer_free(&it->in);
}
