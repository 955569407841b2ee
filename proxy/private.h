/* A connection to a node that one client has alone: for BLPOP and its like, WATCH, and subscriptions. */
#ifndef PROXY_PRIVATE_H
#define PROXY_PRIVATE_H

#include "proxy.h"

/* Whether a connection goes to this node. */
bool private_is_at(const node *own, const node *like);

/* The client's own connection to this node. An own connection to another node is given up. */
node *private_node(client *client, const node *like);

/* The client's connection to another primary, which tells it of its keys. A new one gets `told`. */
node *private_ear(client *client, const node *like);

/* Gives up those of these connections whose nodes are no primaries any more, or all. */
void private_drop_ears(client *client, bool are_all);

/* Gives up all connections that the client has alone. */
void private_drop(client *client);

/* Looks whether the node of an own connection is there, while a client waits for it. */
void private_tick(node *own);

/* Frees connections that were given up and are closed. */
void private_free(worker *worker);

#endif
