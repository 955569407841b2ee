#include "private.h"

#include "node.h"

#include <string.h>

bool private_is_at(const node *own, const node *like) {
    return own != NULL && own->port == like->port && strcmp(own->host, like->host) == 0;
}

static void give_up(node *own) {
    node_doom(own, "its client has gone");
    own->client = NULL;
    own->next_left = own->worker->left;
    own->worker->left = own;
}

static void drop_own(client *client) {
    if (client->own == NULL)
        return;
    give_up(client->own);
    client->own = NULL;
    client->is_watch_lost = true;
    client->is_subscribed = false;
}

node *private_node(client *client, const node *like) {
    if (private_is_at(client->own, like))
        return client->own;
    drop_own(client);
    client->own = node_new(client->worker, like->host, like->port);
    client->own->is_three = client->is_three;
    client->own->client = client;
    return client->own;
}

node *private_ear(client *client, const node *like) {
    for (node *it = client->ears; it != NULL; it = it->next_ear)
        if (private_is_at(it, like))
            return it;
    node *it = node_new(client->worker, like->host, like->port);
    it->client = client;
    it->is_three = client->is_three;
    it->next_ear = client->ears;
    client->ears = it;
    node_send(it, buffer_at(&client->told), buffer_len(&client->told));
    return it;
}

void private_drop_ears(client *client, bool are_all) {
    node **link = &client->ears;
    while (*link != NULL) {
        node *it = *link, *shared = node_at(client->worker, it->host, it->port);
        if (are_all || shared == NULL || !shared->is_primary) {
            *link = it->next_ear;
            give_up(it);
        } else {
            link = &it->next_ear;
        }
    }
    if (are_all) {
        buffer_free(&client->told);
        buffer_free(&client->early);
    }
}

void private_drop(client *client) {
    private_drop_ears(client, true);
    drop_own(client);
}

/* The node says nothing on this connection for as long as its client waits. So the shared one asks it. */
void private_tick(node *own) {
    static const char ping[] = "*1\r\n$4\r\nPING\r\n";
    worker *worker = own->worker;
    node *shared = node_at(worker, own->host, own->port);
    uint64_t pause = the_proxy.settings.timeout * MILLISECOND / 2;
    if (shared == NULL)
        return;
    if (shared->is_failing && shared->failed > own->heard)
        node_doom(own, "the node does not answer");
    else if (shared->count == 0 && worker->now > shared->heard + pause)
        node_ask(shared, ping, sizeof ping - 1, (waiter){.waits = WAITS_NOTHING});
}

void private_free(worker *worker) {
    while (worker->left != NULL) {
        node *left = worker->left;
        worker->left = left->next_left;
        node_end(left);
    }
}
