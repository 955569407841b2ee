/* The order in which the commands of a client on a slot take effect: that in which they came. */
#ifndef PROXY_ORDER_H
#define PROXY_ORDER_H

#include "proxy.h"

/* Whether a new part has to wait for an earlier one of its client and slot. */
bool part_has_to_wait(const request *request, uint32_t part);

/* Counts a part as HELD or AGAIN, and has the thread look after its client. */
void part_hold(request *request, uint32_t part, part_state state);

/* Sends what may be sent now of a client's parts of a slot. */
void slot_advance(client *client, uint16_t slot);

/* Does so for all slots of a client, and gives up what took too long. */
void client_advance(client *client);

/* Whether a part that a node refused may be tried again: its time is not up. */
bool part_may_try(const request *request, uint32_t part);

/* Reads an error that a node sent for a part. If it redirects, the part is held to be sent again, or fails
 * because its time is up, and the result is true. */
bool redirect_follow(request *request, uint32_t part, node *from, const uint8_t *error, size_t len);

#endif
