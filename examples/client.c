/* A client of a cluster over slotroute.h: client HOST:PORT [HOST:PORT ...]
 *
 * Reads commands from standard input, one a line, as words with spaces between them. Many are asked at
 * once. Prints the replies as bytes, in the order of the lines. A refusal comes before awaited replies. */
#define _GNU_SOURCE
#include "slotroute.h"

#include <netdb.h>
#include <poll.h>
#include <stdio.h>
#include <stdlib.h>
#include <string.h>
#include <sys/socket.h>
#include <time.h>
#include <unistd.h>

enum { LINKS = 64, ROOM = 65536, HEAD = 32, MOST_AWAITED = 256 };

static slotroute_session session;
static int sockets[LINKS]; /* by the number of the link; -1: no connection */
static uint8_t bytes[ROOM];
static size_t awaited; /* how many replies are awaited */

static uint64_t now(void) {
    struct timespec time;
    clock_gettime(CLOCK_MONOTONIC, &time);
    return (uint64_t)time.tv_sec * 1000 + (uint64_t)time.tv_nsec / 1000000;
}

static int closed(int socket) { return close(socket), -1; }

/* A connection to a node, or -1. A node that takes neither a connection nor bytes for half a second fails. */
static int connection(const char *host, unsigned port) {
    struct addrinfo wanted = {.ai_socktype = SOCK_STREAM}, *found;
    struct timeval limit = {.tv_usec = 500000};
    char service[8];
    snprintf(service, sizeof service, "%u", port);
    int to = -1;
    if (getaddrinfo(host, service, &wanted, &found) != 0) return to;
    for (struct addrinfo *at = found; at && to < 0; at = at->ai_next) {
        to = socket(at->ai_family, at->ai_socktype, at->ai_protocol);
        setsockopt(to, SOL_SOCKET, SO_SNDTIMEO, &limit, sizeof limit);
        if (to >= 0 && connect(to, at->ai_addr, at->ai_addrlen) != 0) to = closed(to);
    }
    freeaddrinfo(found);
    return to;
}

/* Connects to each node that needs a link. */
static void connect_wanted(void) {
    size_t node, link;
    while (slotroute_session_wanted_node(&session, &node) == SLOTROUTE_DONE) {
        char host[256] = "";
        slotroute_node_address address = {0};
        slotroute_session_address(&session, node, (uint8_t *)host, sizeof host - 1, &address);
        int to = connection(host, address.port);
        if (to >= LINKS) to = closed(to);
        if (to < 0) slotroute_session_unreachable(&session, node);
        else if (slotroute_session_connected(&session, node, &link) != SLOTROUTE_DONE) close(to);
        else sockets[link] = to;
    }
}

static void end(size_t link) {
    sockets[link] = closed(sockets[link]);
    slotroute_session_ended(&session, link);
}

/* Writes what a link has to be written. */
static void write_link(size_t link) {
    size_t count;
    while ((count = slotroute_session_unwritten(&session, link, bytes, ROOM)) > 0) {
        ssize_t written = send(sockets[link], bytes, count < ROOM ? count : ROOM, MSG_NOSIGNAL);
        if (written < 0) end(link);
        else slotroute_session_wrote(&session, link, (size_t)written);
    }
}

static void read_link(size_t link) {
    ssize_t count = recv(sockets[link], bytes, ROOM, 0);
    if (count <= 0 || slotroute_session_read(&session, link, bytes, (size_t)count) != SLOTROUTE_DONE) end(link);
}

/* Prints the replies that are there. */
static void print_replies(void) {
    slotroute_due_reply reply;
    for (; slotroute_session_next_reply(&session, &reply) == SLOTROUTE_DONE; awaited--) {
        uint8_t *text = reply.bytes > ROOM ? malloc(reply.bytes) : bytes;
        if (!text) exit(1);
        slotroute_session_reply(&session, text, reply.bytes);
        fwrite(text, 1, reply.bytes, stdout);
        if (text != bytes) free(text);
    }
}

/* Begins the call of a line. The request is written to bytes, its head at last, before its words. */
static void begin(char *line) {
    uint8_t *end = bytes + HEAD, *start = end;
    char *word = strtok(line, " \r\n"), head[HEAD];
    uint64_t count = 0, call;
    for (; word && strlen(word) + 2 * HEAD < (size_t)(bytes + ROOM - end); count++) {
        end += sprintf((char *)end, "$%zu\r\n%s\r\n", strlen(word), word);
        word = strtok(NULL, " \r\n");
    }
    if (word) fputs("client: a line is too long\n", stderr);
    if (word || count == 0) return;
    start -= snprintf(head, sizeof head, "*%zu\r\n", (size_t)count);
    memcpy(start, head, strlen(head));
    uint32_t answer = slotroute_session_begin(&session, 0, start, (size_t)(end - start), now() + 5000, &call);
    if (answer == SLOTROUTE_DONE) awaited++;
    else fwrite(bytes, 1, slotroute_refusal_reply(answer, bytes, ROOM), stdout);
}

/* Begins the calls of further lines, many at once. Returns whether there may be more lines. */
static int begin_lines(char **line, size_t *size) {
    for (; awaited < MOST_AWAITED; begin(*line))
        if (getline(line, size, stdin) <= 0) return 0;
    return 1;
}

int main(int count, char **nodes) {
    slotroute_session_settings settings = {1 << 29, 100000, 1 << 30, 10000, 100, 100};
    size_t node, link, size = 0;
    char *line = NULL;
    if (slotroute_session_open(&settings, NULL, 0, &session) != SLOTROUTE_DONE) return 1;
    for (size_t i = 0; i < LINKS; i++) sockets[i] = -1;
    for (int i = 1; i < count; i++) {
        char *colon = strrchr(nodes[i], ':');
        if (!colon) return 2;
        slotroute_session_add_node(&session, (uint8_t *)nodes[i], (size_t)(colon - nodes[i]),
                                   (uint16_t)atoi(colon + 1), &node);
    }
    while (awaited > MOST_AWAITED / 2 || begin_lines(&line, &size) || awaited > 0) {
        struct pollfd polled[LINKS];
        slotroute_session_advance(&session, now());
        connect_wanted();
        while (slotroute_session_link_to_close(&session, &link) == SLOTROUTE_DONE) end(link);
        for (size_t i = 0; i < LINKS; i++) {
            if (sockets[i] >= 0) write_link(i);
            polled[i] = (struct pollfd){.fd = sockets[i], .events = POLLIN};
        }
        poll(polled, LINKS, 10);
        for (size_t i = 0; i < LINKS; i++)
            if (sockets[i] >= 0 && polled[i].revents) read_link(i);
        print_replies();
    }
    slotroute_session_close(session);
    free(line);
    return 0;
}
