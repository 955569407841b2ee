/* Which node has which slot. Each thread reads its own map. */
#ifndef PROXY_TOPOLOGY_H
#define PROXY_TOPOLOGY_H

#include "proxy.h"

/* The node of a slot, or NULL. */
node *topology_owner(const worker *worker, uint16_t slot);

/* Has the map read anew, soon. */
void topology_want(worker *worker);
void topology_tick(worker *worker);

/* Whether all nodes of the map were asked for it in vain. */
bool topology_is_lost(const worker *worker);

/* A reply to CLUSTER SLOTS, or its loss. `number` says which map was asked for. */
void topology_reply(node *from, uint64_t number, const uint8_t *reply, size_t len);
void topology_lost(node *from, uint64_t number);

/* A node said that a slot is at another one now. */
void topology_moved(worker *worker, uint16_t slot, node *to);

/* From now on, and for a while, the commands of a client on this slot go one after the other. */
void topology_slows(worker *worker, uint16_t slot);
bool topology_is_slow(const worker *worker, uint16_t slot);

/* The primary of this slot has all subscriptions and gets all that is published, so that PUBLISH counts them,
 * and messages have an order. */
enum { HERALD_SLOT = 0 };
node *topology_herald(worker *worker);

/* A primary that any command may go to, or NULL. */
node *topology_any(worker *worker);

#endif
