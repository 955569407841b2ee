#include "node.h"

#include "peer.h"
#include "tls.h"

#include <errno.h>
#include <netdb.h>
#include <stdio.h>
#include <string.h>
#include <sys/epoll.h>
#include <sys/socket.h>

void node_open(node *it) {
    char port[8];
    struct addrinfo hints = {.ai_socktype = SOCK_STREAM, .ai_flags = AI_NUMERICSERV}, *found = NULL;
    snprintf(port, sizeof port, "%u", it->port);
    it->state = NODE_OPENING;
    it->heard = it->worker->now;
    int fault = getaddrinfo(it->host, port, &hints, &found);
    if (fault != 0) {
        node_doom(it, gai_strerror(fault));
        return;
    }
    it->peer.fd = socket(found->ai_family, SOCK_STREAM | SOCK_NONBLOCK | SOCK_CLOEXEC, 0);
    if (it->peer.fd >= 0)
        peer_set_up(it->peer.fd);
    if (it->peer.fd < 0 ||
        (connect(it->peer.fd, found->ai_addr, found->ai_addrlen) != 0 && errno != EINPROGRESS))
        node_doom(it, strerror(errno));
    else
        peer_watch(it->worker, &it->peer, EPOLLIN | EPOLLOUT);
    freeaddrinfo(found);
}

/* Sends the password, or asks for version 3. Nothing else is sent before the reply. */
static void log_in(node *it, const char *user, const char *password) {
    buffer words = {0};
    if (it->is_three && user == NULL)
        user = "default";
    buffer_print(&words, "*%d\r\n",
                 (it->is_three ? 2 : 0) + (password != NULL ? 2 : 0) + (password != NULL && user != NULL));
    if (it->is_three)
        buffer_text(&words, "$5\r\nHELLO\r\n$1\r\n3\r\n");
    if (password != NULL)
        buffer_text(&words, "$4\r\nAUTH\r\n");
    if (password != NULL && user != NULL)
        buffer_bulk(&words, user, strlen(user));
    if (password != NULL)
        buffer_bulk(&words, password, strlen(password));
    node_make_room(it);
    it->first = (it->first + it->room - 1) % it->room;
    it->queue[it->first] = (waiter){.waits = WAITS_PASSWORD};
    it->count++;
    it->asked++;
    it->state = NODE_LOGIN;
    if (peer_write(&it->peer, &words) < 0 || buffer_len(&words) > 0)
        node_doom(it, "the password could not be sent");
    buffer_free(&words);
}

void node_become_open(node *it) {
    it->state = NODE_OPEN;
    it->heard = it->worker->now;
    figure_add(&it->worker->stats.counts[COUNT_NODES_OPENED], 1);
    if (it->is_failing)
        say("node %s:%u: connected again", it->host, it->port);
    it->is_failing = false;
    it->failed = 0;
    node_touch(it);
}

void node_finish_opening(node *it) {
    const char *password = the_proxy.settings.node_password, *why = NULL;
    int fault = 0;
    socklen_t len = sizeof fault;
    getsockopt(it->peer.fd, SOL_SOCKET, SO_ERROR, &fault, &len);
    if (it->peer.tls == NULL)
        it->heard = it->worker->now;
    bool is_right = fault == 0 && (it->peer.tls != NULL || tls_begin(&it->peer));
    int shaken = is_right ? tls_shake(it->worker, &it->peer, &why) : -1;
    if (fault != 0)
        node_doom(it, strerror(fault));
    else if (shaken < 0)
        node_doom(it, why != NULL ? why : "TLS: the handshake was not finished");
    else if (shaken == 0)
        return;
    else if (password != NULL || it->is_three)
        log_in(it, the_proxy.settings.node_user, password);
    else
        node_become_open(it);
}
