/* Requests that are lines of text, as of health checks: PING, and what else the proxy answers itself. */
#ifndef PROXY_INLINE_H
#define PROXY_INLINE_H

#include "layer.h"

/* Whether the bytes begin with a whole line, and where it ends. `request` gets its words as a request, or
 * nothing if there are none. A line that asks for a node is malformed: it may be of another protocol. */
whole inline_read(const uint8_t *bytes, size_t len, buffer *request, size_t *end);

#endif
