/* Where clients connect to. The first thread accepts them, and gives them to all in turn. */
#ifndef PROXY_LISTENER_H
#define PROXY_LISTENER_H

#include "proxy.h"

/* Whether clients could connect to what the settings name, as far as this shows without a socket. If not,
 * the log says why. */
bool listeners_are_right(const settings *settings);

/* Opens what the settings name. False if something is not free. */
bool listeners_open(worker *worker);
void listeners_close(worker *worker);
void listener_tick(worker *worker);

void listener_event(worker *worker, peer *peer);

/* A client that another thread accepted. */
void listener_given(worker *worker);

/* Readers of the figures: HTTP, one request each. */
void reader_event(worker *worker, peer *peer, uint32_t events);

#endif
