/* Connections to nodes: one for each node and thread, on which the requests of all clients follow one
 * another. invariants.h says what holds of them. */
#ifndef PROXY_NODE_H
#define PROXY_NODE_H

#include "proxy.h"

/* The node of a host and port, or NULL if there are too many. It is opened when it is asked first. */
node *node_at(worker *worker, const char *host, uint16_t port);

/* A node that is none of the map, for one client alone. */
node *node_new(worker *worker, const char *host, uint16_t port);

/* The connection to the same node on which replies have version 3. */
node *node_three(node *node);

/* Puts a request into the stream to a node, and who waits for the reply into its queue. Nothing is written
 * and nobody is called back before the end of the round. */
void node_ask(node *node, const void *bytes, size_t len, waiter waiter);

/* Puts bytes into the stream, for which nobody waits. */
void node_send(node *node, const void *bytes, size_t len);

/* Has the connection closed at the end of the round. */
void node_doom(node *node, const char *why);

/* Begins to connect, deals with the end of the attempt, and has an open connection. */
void node_open(node *node);
void node_finish_opening(node *node);
void node_become_open(node *node);

/* Counts something at the node of a connection that clients share. */
void node_count(const node *node, node_figure figure);

/* Has the node looked after at the end of the round. */
void node_touch(node *node);

/* Has room for one more who waits. */
void node_make_room(node *node);

void node_event(node *node, uint32_t events);
void node_settle(node *node); /* at the end of a round: writes, or closes */
void node_tick(node *node);   /* closes a connection that is silent for too long */
void node_end(node *node);

#endif
