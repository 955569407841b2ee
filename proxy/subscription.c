#include "subscription.h"

#include "client.h"
#include "commands.h"
#include "node.h"
#include "private.h"
#include "request.h"
#include "topology.h"

#include <string.h>

/* The names of channels on which nodes tell what happens to their own keys begin so. */
static const char keys[] = "__key";

enum { MOST_TOLD = 65536 };     /* bytes of what a client is told of keys, at most */
enum { LONGEST_WAIT = SECOND }; /* of a command that publishes */

/* Asks for the end of replies. No client can have this channel, since its name begins as `keys`. A node takes
 * the command whenever it takes SUBSCRIBE. */
static const char end_question[] = "*2\r\n$11\r\nUNSUBSCRIBE\r\n$13\r\n__key:the-end\r\n";
/* After its mark, which is `*`, or `>` in version 3. */
static const char end_reply[] = "3\r\n$11\r\nunsubscribe\r\n$13\r\n__key:the-end\r\n";

static bool is_about_keys(word name) {
    return name.len >= sizeof keys - 1 && memcmp(name.text, keys, sizeof keys - 1) == 0;
}

static bool names_keys(words channels) {
    word it;
    while (words_next(&channels, &it))
        if (is_about_keys(it))
            return true;
    return false;
}

/* Whether a command subscribes to something more: the names of the other two are longer. */
static bool is_more(word name) { return name.len <= sizeof "PSUBSCRIBE" - 1; }

static void put_one(buffer *out, const char *name, word channel) {
    buffer_print(out, "*2\r\n$%zu\r\n%s\r\n", strlen(name), name);
    buffer_bulk(out, channel.text, channel.len);
}

/* Takes from `told` the request with this name and channel, or all with this name. */
static void forget(buffer *told, const char *name, const word *channel) {
    buffer left = {0};
    while (buffer_len(told) > 0) {
        words words = words_of(buffer_at(told), buffer_len(told));
        word first = {"", 0}, second = {"", 0};
        words_next(&words, &first);
        words_next(&words, &second);
        size_t len = (size_t)(words.at - (const char *)buffer_at(told));
        bool is_it = channel == NULL ||
                     (second.len == channel->len && memcmp(second.text, channel->text, channel->len) == 0);
        if (!word_is(first, name) || !is_it)
            buffer_put(&left, buffer_at(told), len);
        buffer_drop(told, len);
    }
    buffer_free(told);
    *told = left;
}

/* Changes `told` by a command, and writes what it means for the other primaries, if it is about keys. */
static void note(client *client, word name, words channels, buffer *out) {
    bool is_pattern = name.text[0] == 'p' || name.text[0] == 'P', had = buffer_len(&client->told) > 0;
    const char *adds = is_pattern ? "PSUBSCRIBE" : "SUBSCRIBE";
    const char *drops = is_pattern ? "PUNSUBSCRIBE" : "UNSUBSCRIBE";
    word channel;
    if (!is_more(name) && channels.left == 0 && had) {
        forget(&client->told, adds, NULL);
        buffer_print(out, "*1\r\n$%zu\r\n%s\r\n", strlen(drops), drops);
    }
    while (words_next(&channels, &channel)) {
        if (!is_about_keys(channel) || (!is_more(name) && !had))
            continue;
        forget(&client->told, adds, &channel);
        if (is_more(name))
            put_one(&client->told, adds, channel);
        put_one(out, is_more(name) ? adds : drops, channel);
    }
    if (buffer_len(out) > 0)
        buffer_text(out, end_question);
}

void subscription_follow(client *client) {
    bool is_amid = client->first != NULL && client->first->is_subscription;
    topology *map = &client->worker->map;
    if (buffer_len(&client->told) == 0 || client->own == NULL)
        return;
    size_t others = 0;
    for (size_t at = 0; at < map->primary_count; at++)
        others += !private_is_at(client->own, map->primaries[at]);
    if (others == map->primary_count) {
        client_doom(client, "the node with its subscriptions is no primary any more");
        return;
    }
    for (size_t at = 0; at < map->primary_count; at++)
        if (!private_is_at(client->own, map->primaries[at]))
            private_ear(client, map->primaries[at]);
    for (const node *it = client->ears; it != NULL; it = it->next_ear)
        others--;
    if (others != 0 && is_amid)
        client_doom(client, "the primaries changed while it subscribed");
    else if (others != 0)
        private_drop_ears(client, false);
}

/* Says that the client has none of the channels, or no channel. This is what a node would say. */
static void answer_none(client *client, word name, words channels) {
    const char *kind = name.len == 11 ? "3\r\n$11\r\nunsubscribe" : "3\r\n$12\r\npunsubscribe";
    char mark = client->is_three ? '>' : '*';
    buffer out = {0};
    word channel;
    if (channels.left == 0)
        buffer_print(&out, "%c%s\r\n%s\r\n:0\r\n", mark, kind, client->is_three ? "_" : "$-1");
    while (words_next(&channels, &channel)) {
        buffer_print(&out, "%c%s\r\n", mark, kind);
        buffer_bulk(&out, channel.text, channel.len);
        buffer_text(&out, ":0\r\n");
    }
    request_answer_with(client, &out);
}

static void enter(client *client) {
    worker *worker = client->worker;
    if (client->turn != 0)
        return;
    client->turn = ++worker->turns;
    client->previous_subscribing = worker->last_subscribing;
    client->next_subscribing = NULL;
    if (worker->last_subscribing != NULL)
        worker->last_subscribing->next_subscribing = client;
    else
        worker->first_subscribing = client;
    worker->last_subscribing = client;
}

void subscription_leave(client *client) {
    worker *worker = client->worker;
    struct client *next = client->next_subscribing, *previous = client->previous_subscribing;
    if (client->turn == 0)
        return;
    client->turn = 0;
    if (next != NULL)
        next->previous_subscribing = previous;
    else
        worker->last_subscribing = previous;
    if (previous != NULL)
        previous->next_subscribing = next;
    else
        worker->first_subscribing = next;
    for (struct client *it = worker->publishers; it != NULL && previous == NULL; it = it->next_publisher)
        client_touch(it);
}

/* Puts the client among those that wait, or takes it away. */
static void wait_to_publish(client *client, bool waits) {
    struct client **link = &client->worker->publishers;
    if (client->is_publisher == waits)
        return;
    client->is_publisher = waits;
    while (!waits && *link != client)
        link = &(*link)->next_publisher;
    if (waits)
        client->next_publisher = *link;
    *link = waits ? client : client->next_publisher;
}

bool subscription_is_awaited(client *client) {
    worker *worker = client->worker;
    const struct client *first = worker->first_subscribing;
    bool is_new = client->awaited == 0;
    if (first == client)
        first = first->next_subscribing; /* it has its own replies */
    if (is_new && !worker->is_reading) {
        client->awaited = worker->turns;
        client->awaited_at = worker->now;
    }
    bool is_before =
        first != NULL && first->turn <= client->awaited && worker->now - client->awaited_at < LONGEST_WAIT;
    bool waits = client->doom == NULL && (is_before || (is_new && worker->is_reading));
    if (!waits)
        client->awaited = 0;
    wait_to_publish(client, waits);
    return waits;
}

bool subscription_begin(client *client, const uint8_t *bytes, size_t len) {
    words channels = words_of(bytes, len);
    word name = {"", 0};
    words_next(&channels, &name);
    if (!client->is_subscribed && !is_more(name)) {
        answer_none(client, name, channels);
        return true;
    }
    if (client->first != NULL)
        return false;
    node *to = client->is_subscribed ? node_at(client->worker, client->own->host, client->own->port)
                                     : topology_herald(client->worker);
    if (!client->is_subscribed)
        private_drop_ears(client, true);
    if (to == NULL || (names_keys(channels) && buffer_len(&client->told) + len > MOST_TOLD)) {
        request_refuse(client, to == NULL ? "the proxy has no map of the cluster"
                                          : "too many names begin with __key: subscribe to a pattern");
        return true;
    }
    buffer all = {0}, rest = {0};
    note(client, name, channels, &rest);
    buffer_put(&all, bytes, len);
    buffer_text(&all, end_question);
    size_t own_len = buffer_len(&all);
    buffer_put(&all, buffer_at(&rest), buffer_len(&rest));
    request_begin_subscription(client, &all, own_len, to);
    enter(client);
    buffer_free(&rest);
    buffer_free(&all);
    return true;
}

bool subscription_has(const node *own, const uint8_t *reply, size_t len) {
    if (own->client == NULL)
        return false;
    bool is_ear = own != own->client->own;
    if (own->count == 0)
        return is_ear || own->client->is_subscribed;
    const waiter *first = &own->queue[own->first];
    if (is_ear)
        return first->waits == WAITS_PART && !begins(reply + 1, len - 1, end_reply);
    bool is_asked = own->client->is_subscribed || own->sent > first->offset;
    return is_asked && first->waits == WAITS_PART && first->request->is_subscription &&
           !begins(reply + 1, len - 1, end_reply);
}

static bool is_published(const uint8_t *message, size_t len) {
    return begins(message + 1, len - 1, "3\r\n$7\r\nmessage\r\n") ||
           begins(message + 1, len - 1, "4\r\n$8\r\npmessage\r\n");
}

/* Takes what another primary says: messages alone. They wait for the replies to a command. */
static void hear(client *client, const uint8_t *message, size_t len) {
    bool is_amid = client->first != NULL && client->first->is_subscription;
    if (message[0] == '-')
        client_doom(client, "a node does not tell of its keys");
    else if (is_published(message, len) && (is_amid || client->is_subscribed))
        buffer_put(is_amid ? &client->early : &client->out, message, len);
    client_touch(client);
}

void subscription_message(node *own, const uint8_t *message, size_t len) {
    client *client = own->client;
    request *command = client->first;
    bool is_reply = !is_published(message, len) && command != NULL && command->is_subscription;
    if (own != client->own) {
        hear(client, message, len);
        return;
    }
    /* a command has one error and no other reply, or none */
    if (is_reply && message[0] == '-' && command->is_told) {
        node_doom(own, "the node does not say where the replies to SUBSCRIBE end");
        return;
    }
    if (is_reply)
        command->is_told = true;
    client->is_subscribed = true; /* if not, the end will say so */
    buffer_put(&client->out, message, len);
    client_touch(client);
}

void subscription_end(request *request, uint32_t part, const uint8_t *reply, size_t len) {
    client *client = request->client;
    if (part + 1 == request->parts) {
        client->is_subscribed = !begins(reply + sizeof end_reply, len - sizeof end_reply, ":0\r\n");
        buffer_put(&client->out, buffer_at(&client->early), buffer_len(&client->early));
        buffer_free(&client->early);
        if (buffer_len(&client->told) == 0)
            private_drop_ears(client, true);
    }
    part_finish(request, part, reply, 0);
}
