/* The figures for Prometheus, and what the page for people shows of them. The first thread writes both. */
#ifndef PROXY_FIGURES_H
#define PROXY_FIGURES_H

#include "proxy.h"

/* What all threads counted of what has a name: a node of the map, or a command. */
typedef struct named {
    char name[HOST_ROOM + 8]; /* with `?` for what could not stand in a page */
    uint64_t figures[NODE_FIGURES];
} named;

/* By their names. The one figure of a command is its first. */
typedef struct named_list {
    named *all;
    size_t count;
} named_list;

typedef enum named_kind { NAMED_NODES, NAMED_COMMANDS, NAMED_REFUSED } named_kind;
named_list figures_of(named_kind kind);
void named_free(named_list *list);

/* Whether each slot has a node in the map of the first thread, and a node still gives it that map. */
bool figures_is_ready(const worker *worker);
/* Nodes whose last connections did not fail. */
size_t figures_nodes_up(const named_list *nodes);

/* Sets the figures of a node that are not counted as things happen. */
void figures_tick(node *node);

void figures_write(const worker *worker, buffer *out);

#endif
