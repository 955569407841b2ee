/* Clients: their connections, and what is read of them and written to them. */
#ifndef PROXY_CLIENT_H
#define PROXY_CLIENT_H

#include "proxy.h"

/* A connection that was accepted becomes a client of this thread. */
void client_begin(worker *worker, int fd);
void client_event(client *client, uint32_t events);

/* Has the client looked after at the end of the round. */
void client_touch(client *client);

/* At the end of a round: writes, reads on, or closes. */
void client_settle(client *client);
void client_tick(client *client);

/* Has the client closed at the end of the round. */
void client_doom(client *client, const char *why);

/* No more requests are read; it is closed once all are answered. */
void client_end(client *client);
void client_free(client *client);

/* Refuses a command, with its name, which is counted. */
void client_refuse(client *client, const uint8_t *bytes, size_t len, const char *why);

/* Answers a command that the proxy answers itself. */
void own_answer(client *client, unsigned kind, const uint8_t *request, size_t len);

#endif
