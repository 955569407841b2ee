/* A thread: an event loop over its own clients and its own connections to nodes. */
#ifndef PROXY_WORKER_H
#define PROXY_WORKER_H

#include "proxy.h"

/* A thread that does not run yet. */
worker *worker_new(unsigned number);

/* Runs rounds of events until `is_over` holds or the thread is drained. */
void worker_round(worker *worker);
void *worker_run(void *worker); /* until it is drained */
void worker_free(worker *worker);

#endif
