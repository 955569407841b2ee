/* Sockets, and what epoll watches of them. */
#ifndef PROXY_PEER_H
#define PROXY_PEER_H

#include "proxy.h"

/* Has epoll watch a peer for these events, and for errors. */
void peer_watch(worker *worker, peer *peer, uint32_t events);

/* Sets what each connection has: no waits at reads, writes and for small packets. */
void peer_set_up(int fd);

/* Bytes that have come: those kept in a buffer with the new ones, or the new ones alone. */
typedef struct arrived {
    const uint8_t *bytes;
    size_t len, fresh;      /* all of them, and those that are new */
    bool is_end, is_broken; /* the other side sends no more; the connection failed */
    bool is_kept;           /* the bytes stand in the buffer */
} arrived;

arrived peer_read(worker *worker, const peer *peer, buffer *in);

/* Keeps what follows the first `used` bytes of those that arrived. */
void peer_keep(const arrived *arrived, buffer *in, size_t used);

/* Writes what can be written without a wait. Returns how much, or -1 if the connection failed. */
int64_t peer_write(const peer *peer, buffer *out);

/* Splits HOST:PORT, whose form the settings have checked. */
void address_split(const char *address, char *host, uint16_t *port);

/* Whether a file can be made at a path. If not, errno has why. */
bool path_can_be_made(const char *path);

/* Whether an address is known, and whether a path can be that of a socket. If not, the log says why. */
bool address_is_known(const char *address);
bool unix_is_right(const char *path);

/* A socket that clients can connect to, or -1 with a line of the log. */
int listen_at(const char *address);
int listen_unix(const char *path, uint64_t mode); /* mode: its permissions, or 0 */

#endif
