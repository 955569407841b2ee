/* What always holds between two events of a thread. A build with PROXY_CHECKS ends if it does not.
 *
 * Of each connection to a node:
 *   1. Its queue has one waiter for each reply that was asked for and has not come, in the order in which
 *      the requests stand in the stream.
 *   2. A reply goes to the first waiter. A reply without a waiter, or to a request that was not written to
 *      its end, closes the connection.
 *   3. If the connection is closed, its queue is empty: each waiter was given an error, or is to be sent
 *      again because none of its bytes had been written.
 *
 * Of each client:
 *   4. Its requests are answered in the order in which they came.
 *   5. A reply goes only to the client that asked. If that has gone, its requests belong to nobody, and
 *      their replies are dropped.
 *   6. `held` is the number of its parts that are HELD or AGAIN, and `kept` the number of bytes of replies
 *      that are not in `out` yet.
 *
 * Of each part:
 *   7. It is SENT if and only if one queue has one waiter for it.
 *   8. It is sent again only if it had no effect: a node said so, or none of its bytes were written.
 *   9. It is sent again only if no later part of the same client and slot was done, or is SENT. */
#ifndef PROXY_INVARIANTS_H
#define PROXY_INVARIANTS_H

#include "proxy.h"

#ifdef PROXY_CHECKS
void check_that(bool holds, const char *what);
void node_check(const node *node);
void client_check(const client *client);
#else
static inline void check_that(bool holds, const char *what) { (void)holds, (void)what; }
static inline void node_check(const node *node) { (void)node; }
static inline void client_check(const client *client) { (void)client; }
#endif

#endif
