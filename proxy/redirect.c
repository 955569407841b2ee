#include "order.h"

#include "node.h"
#include "request.h"
#include "topology.h"

#include <string.h>

enum { MANY_REDIRECTS = 5 }; /* in a row, after which each has a pause */

/* Whether the error says that the command did nothing, and may do it after a while. A script can write such
 * an error itself, after effects. Commands after MULTI are not run yet, so their errors are as good. */
static bool is_pause(const request *request, const uint8_t *error, size_t len) {
    return (!request->is_script || request->is_transaction) &&
           (begins(error, len, "-TRYAGAIN ") || begins(error, len, "-CLUSTERDOWN ") ||
            begins(error, len, "-LOADING "));
}

static void hold_for(request *request, uint32_t part, node *to, bool asking, uint64_t pause) {
    struct part *it = &request->part[part];
    it->to = to;
    it->asking = asking;
    it->due = request->client->worker->now + pause;
    part_hold(request, part, PART_AGAIN);
}

bool redirect_follow(request *request, uint32_t part, node *from, const uint8_t *error, size_t len) {
    worker *worker = from->worker;
    struct part *it = &request->part[part];
    redirect found;
    if (begins(error, len, "-READONLY ")) /* a primary that has become a replica */
        topology_want(worker);
    if (it->slot == NO_SLOT)
        return false;
    if (is_pause(request, error, len) && part_may_try(request, part)) {
        figure_add(&worker->stats.counts[COUNT_TRYAGAIN], 1);
        if (begins(error, len, "-TRYAGAIN "))
            topology_slows(worker, it->slot);
        else
            topology_want(worker);
        hold_for(request, part, NULL, false, PAUSE);
        return true;
    }
    bool is_redirect = begins(error, len, "-MOVED ") || begins(error, len, "-ASK ");
    if (!is_redirect || !layer_redirect(error, len, from->host, &found) || found.to.slot != it->slot)
        return false;
    if (request->is_script && !request->is_transaction) { /* the script may say so, after it took effect */
        topology_want(worker);
        part_fail_at(request, part, from, "the slot of the keys is moving, or the script says so", true);
        return true;
    }
    if (!part_may_try(request, part)) {
        part_fail(request, part, "TRYAGAIN the nodes redirected the command for too long");
        return true;
    }
    node *to = node_at(worker, found.host, (uint16_t)found.to.port);
    if (to == NULL)
        return false;
    uint64_t pause = ++it->redirects > MANY_REDIRECTS ? PAUSE : 0;
    if (found.to.kind == SLOTROUTE_MOVED) {
        figure_add(&worker->stats.counts[COUNT_MOVED], 1);
        topology_moved(worker, it->slot, to);
        hold_for(request, part, NULL, false, pause);
    } else {
        figure_add(&worker->stats.counts[COUNT_ASK], 1);
        topology_slows(worker, it->slot);
        bool waits = request->is_transaction; /* ASKING holds for one command, and MULTI would be it */
        hold_for(request, part, waits ? NULL : to, !waits, waits ? PAUSE : pause);
    }
    return true;
}
