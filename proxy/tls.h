/* TLS of connections, by OpenSSL. A build has it if it is made with TLS=1. */
#ifndef PROXY_TLS_H
#define PROXY_TLS_H

#include "proxy.h"

#include <sys/types.h>

enum { SHAKING_TIME = 10 * SECOND }; /* that a client may take for the handshake */

/* Reads the certificates that these settings name, at the start and again. Returns what is wrong, or NULL. If
 * something is wrong, those from before stay. */
const char *tls_start(const settings *from);

/* Has a new connection speak TLS, if the settings want it. False if that fails. */
bool tls_begin(peer *peer);

/* Goes on with the handshake, if there is one. Returns 1 once all is done, 0 if it waits for an event, which
 * epoll watches then, and -1 if it failed. Then `why` has the reason, or NULL if the other side has gone. */
int tls_shake(worker *worker, peer *peer, const char **why);
bool tls_is_shaken(const peer *peer);

/* As read and send. Nothing that came is left where epoll does not see it. */
ssize_t tls_read(const peer *peer, uint8_t *into, size_t room, bool *is_end);
ssize_t tls_write(const peer *peer, const uint8_t *bytes, size_t len);

void tls_shut(const peer *peer); /* tells the other side that no more comes */
void tls_free(peer *peer);

#endif
