/* SCAN over all primaries in turn. A cursor holds the number of a primary and its cursor there. */
#ifndef PROXY_SCAN_H
#define PROXY_SCAN_H

#include "proxy.h"

/* Gives a primary of the map its number. All threads have the same numbers. None is given twice, so that no
 * change of the map has a scan leave out a node. */
void scan_number(node *primary);

/* Sends SCAN to the primary that its cursor names, or to the next one if that is no primary any more. */
void scan_begin(client *client, const uint8_t *bytes, size_t len);

/* A reply of a node: the client gets it with a cursor of the proxy. */
void scan_end(request *request, const uint8_t *reply, size_t len);

#endif
