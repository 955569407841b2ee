/* What a thread counts, and other threads may read. */
#ifndef PROXY_STATS_H
#define PROXY_STATS_H

#include "buffer.h"
#include "commands.h"

#include <stdatomic.h>

typedef enum counter {
    COUNT_CLIENTS_NOW,   /* clients of this thread */
    COUNT_CLIENTS_TAKEN, /* since the start */
    COUNT_CLIENTS_REFUSED,
    COUNT_CLIENTS_CLOSED, /* by the proxy, for a reason that the log has */
    COUNT_COMMANDS,
    COUNT_SPLIT, /* commands that were split by slot */
    COUNT_PARTS, /* what was sent to nodes for clients */
    COUNT_MOVED,
    COUNT_ASK,
    COUNT_TRYAGAIN, /* TRYAGAIN, CLUSTERDOWN and LOADING */
    COUNT_RETRIES,  /* parts that were sent again */
    COUNT_HELD,     /* parts that waited for an earlier one of their slot */
    COUNT_NODE_ERRORS,
    COUNT_OWN_ERRORS,  /* errors that the proxy wrote itself */
    COUNT_UNKNOWN_END, /* commands that may have taken effect */
    COUNT_NODES_LOST,
    COUNT_NODES_OPENED,
    COUNT_MAPS,
    COUNT_STRAY,  /* replies that nobody waited for */
    COUNT_MEMORY, /* bytes held now */
    COUNT_BYTES_IN,
    COUNT_BYTES_OUT,
    COUNTERS
} counter;

enum { LATENCY_STEPS = 24 }; /* step i has what took less than 2^i microseconds, the last one the rest */

/* What is counted of the connections to a node that clients share. From IN_FLIGHT on, ticks set it. */
typedef enum node_figure {
    NODE_REQUESTS,
    NODE_ERRORS, /* that clients got */
    NODE_LOST,   /* connections that ended */
    NODE_IN_FLIGHT,
    NODE_OPEN_NOW,
    NODE_DOWN, /* the last connection failed */
    NODE_IN_MAP,
    NODE_SLOTS, /* the first thread alone sets these two */
    NODE_NUMBER,
    NODE_FIGURES
} node_figure;

/* Names that were refused: the first ones, since clients can make up any number. The first of these stands
 * for all others. */
enum { MOST_REFUSED = 64, REFUSED_NAME = 32 };

typedef struct refused {
    char name[REFUSED_NAME];
    _Atomic uint64_t count;
} refused;

typedef struct stats {
    _Atomic uint64_t counts[COUNTERS];
    _Atomic uint64_t took[LATENCY_STEPS];
    _Atomic uint64_t took_sum; /* microseconds */
    _Atomic uint64_t commands[COMMANDS + 1];
    refused refused[MOST_REFUSED];
    _Atomic size_t refused_count;
} stats;

/* Only the thread of the figures writes them, so a sum needs no lock. */
static inline void figure_add(_Atomic uint64_t *figure, uint64_t more) {
    uint64_t old = atomic_load_explicit(figure, memory_order_relaxed);
    atomic_store_explicit(figure, old + more, memory_order_relaxed);
}

static inline void figure_set(_Atomic uint64_t *figure, uint64_t value) {
    atomic_store_explicit(figure, value, memory_order_relaxed);
}

static inline uint64_t figure_read(const _Atomic uint64_t *figure) {
    return atomic_load_explicit(figure, memory_order_relaxed);
}

/* Counts how long a command took, a command by the number of its name, and a refused one by its name. */
void stats_took(stats *stats, uint64_t microseconds);
void stats_command(stats *stats, size_t number);
void stats_refused(stats *stats, const char *name);

/* Sums over all threads. */
uint64_t stats_count(counter counter);
uint64_t stats_took_sum(size_t step);

/* Writes the sums as INFO does, or for Prometheus. */
void stats_info(buffer *out);
void stats_prometheus(buffer *out);

/* Writes what stands before a figure for Prometheus. */
void stats_head(buffer *out, const char *name, const char *says);

#endif
