/* MULTI and EXEC. The proxy keeps the commands of a transaction until EXEC. They then stand as one piece in
 * the stream to the node of their slot, so that no command of another client comes between them. Commands on
 * several slots are refused, or else make a piece for each slot.
 *
 * WATCH goes over a connection of the client's own, and so does EXEC after it. It is sent once: if that
 * connection is another one by then, or the slot has moved, the client gets nil. */
#ifndef PROXY_TRANSACTION_H
#define PROXY_TRANSACTION_H

#include "commands.h"
#include "proxy.h"

/* MULTI, EXEC, DISCARD, WATCH or UNWATCH. False if earlier requests have to be answered first. */
bool transaction_command(client *client, const uint8_t *bytes, size_t len);

/* A command after MULTI. */
void transaction_queue(client *client, const uint8_t *bytes, size_t len, command_kind kind);

/* Forgets the transaction that the client has begun, and what it watches. */
void transaction_drop(client *client);

/* The pieces of a transaction: their bytes, the piece of each command (uint32_t), and their parts. */
typedef struct pieces {
    buffer bytes, order, parts;
    uint32_t count;
} pieces;

void transaction_compose(const client *client, pieces *pieces);

/* Puts a piece into the stream to a node. */
void transaction_ask(node *to, request *request, uint32_t part);

/* A reply to a command before EXEC. */
void transaction_queued(request *request, uint32_t part, const uint8_t *reply, size_t len);

/* A reply to EXEC. Returns true if nothing took effect and the piece is held to be sent again. */
bool transaction_follow(request *request, uint32_t part, node *from, const uint8_t *reply, size_t len);

/* Whether EXEC would be sent again after WATCH: then the client gets nil. */
bool transaction_is_void(const request *request, uint32_t part);

/* Writes the reply to a transaction that had several pieces. */
void transaction_reply(const request *request, buffer *out);

#endif
