/* SUBSCRIBE and its like, on a connection to a node that the client has alone.
 *
 * A command about subscriptions has as many replies as it names channels, and messages come between them. So
 * the proxy sends another command after it, whose one reply says that all of them have come. The client's
 * next request waits for that.
 *
 * Nodes tell of their own keys alone. So channels and patterns that begin with __key are subscribed at all
 * primaries: at the others by `ears` of the client, of which it gets nothing but messages. These are asked
 * before the node that has all subscriptions of the client, and whose replies the client gets. */
#ifndef PROXY_SUBSCRIPTION_H
#define PROXY_SUBSCRIPTION_H

#include "proxy.h"

/* Takes a command about subscriptions. False if the client's earlier requests have to be answered first. */
bool subscription_begin(client *client, const uint8_t *bytes, size_t len);

/* Whether the next reply on a connection goes to its client as it is: a message, or a reply to a command
 * about subscriptions. */
bool subscription_has(const node *own, const uint8_t *reply, size_t len);
void subscription_message(node *own, const uint8_t *message, size_t len);

/* A server takes commands as they arrive. Clients rely on this: they subscribe, wait for no reply, and
 * publish over another connection. So a command that publishes waits until the commands about subscriptions
 * that the thread read before it are answered, for a short while at most. Whether it has to wait: */
bool subscription_is_awaited(client *client);

/* The client's commands about subscriptions are answered, or it is closed. */
void subscription_leave(client *client);

/* All replies to a part of a command have come. The last part's says how many subscriptions there are. */
void subscription_end(request *request, uint32_t part, const uint8_t *reply, size_t len);

/* The map was read: what is told of keys comes from its primaries. */
void subscription_follow(client *client);

#endif
