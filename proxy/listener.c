#include "listener.h"

#include "client.h"
#include "figures.h"
#include "page.h"
#include "peer.h"
#include "topology.h"

#include <errno.h>
#include <stdio.h>
#include <string.h>
#include <sys/epoll.h>
#include <sys/socket.h>
#include <unistd.h>

enum { LISTENERS = 3, READERS = 16, ANSWER_TIME = 5 * SECOND };

static peer listeners[LISTENERS] = {{.fd = -1}, {.fd = -1}, {.fd = -1}};
static uint64_t pause_until; /* there were no descriptors */

/* A reader of the figures. */
typedef struct reader {
    peer peer;
    buffer in, out;
    uint64_t until;
} reader;

static reader readers[READERS];

static bool open_one(worker *worker, peer *peer, peer_kind kind, int fd) {
    *peer = (struct peer){.kind = kind, .fd = fd};
    if (fd < 0)
        return false;
    peer_watch(worker, peer, EPOLLIN);
    return true;
}

/* Warns if whoever reaches the proxy over a network can use the cluster. */
static void warn_if_open(const settings *set) {
    const char *address = set->listen;
    bool is_near = strncmp(address, "127.", 4) == 0 || strncmp(address, "localhost:", 10) == 0 ||
                   strncmp(address, "[::1]", 5) == 0;
    if (!is_near && set->password == NULL && !(set->tls && set->tls_auth_clients))
        warn("%s is open to all who reach it: there is no password, and no client needs a certificate",
             address);
}

bool listeners_are_right(const settings *settings) {
    return address_is_known(settings->listen) &&
           (settings->unix_path == NULL || unix_is_right(settings->unix_path)) &&
           (settings->metrics == NULL || address_is_known(settings->metrics));
}

bool listeners_open(worker *worker) {
    const settings *set = &the_proxy.settings;
    warn_if_open(set);
    for (size_t at = 0; at < READERS; at++)
        readers[at].peer = (peer){.kind = PEER_READER, .fd = -1};
    bool is_open = open_one(worker, &listeners[0], PEER_LISTENER, listen_at(set->listen));
    if (set->unix_path != NULL)
        is_open = is_open &&
                  open_one(worker, &listeners[1], PEER_LISTENER, listen_unix(set->unix_path, set->unix_mode));
    if (set->metrics != NULL)
        is_open = is_open && open_one(worker, &listeners[2], PEER_FIGURES, listen_at(set->metrics));
    return is_open;
}

void listeners_close(worker *worker) {
    if (worker->number != 0)
        return;
    for (size_t at = 0; at < LISTENERS; at++) {
        if (listeners[at].fd >= 0)
            close(listeners[at].fd);
        if (at == 1 && listeners[at].fd >= 0)
            unlink(the_proxy.settings.unix_path);
        listeners[at].fd = -1;
    }
}

static void end_reader(reader *it) {
    close(it->peer.fd);
    buffer_free(&it->in);
    buffer_free(&it->out);
    it->peer = (peer){.kind = PEER_READER, .fd = -1};
}

void listener_tick(worker *worker) {
    page_tick(worker);
    for (size_t at = 0; at < LISTENERS && pause_until != 0 && worker->now > pause_until; at++)
        if (listeners[at].fd >= 0)
            peer_watch(worker, &listeners[at], EPOLLIN);
    pause_until = worker->now > pause_until ? 0 : pause_until;
    for (size_t at = 0; at < READERS; at++)
        if (readers[at].peer.fd >= 0 && worker->now > readers[at].until)
            end_reader(&readers[at]);
}

/* Gives a new client to the thread whose turn it is. */
static void give(worker *worker, int fd) {
    static uint64_t turn;
    static const char full[] = "-ERR max number of clients reached\r\n";
    if (atomic_fetch_add(&the_proxy.clients, 1) >= the_proxy.settings.max_clients) {
        figure_add(&worker->stats.counts[COUNT_CLIENTS_REFUSED], 1);
        atomic_fetch_sub(&the_proxy.clients, 1);
        if (send(fd, full, sizeof full - 1, MSG_NOSIGNAL | MSG_DONTWAIT) < 0)
            figure_add(&worker->stats.counts[COUNT_OWN_ERRORS], 1);
        close(fd);
        return;
    }
    struct worker *to = the_proxy.workers[turn++ % the_proxy.settings.threads];
    if (to == worker) {
        client_begin(worker, fd);
    } else if (write(to->giver, &fd, sizeof fd) != sizeof fd) {
        atomic_fetch_sub(&the_proxy.clients, 1);
        close(fd);
    }
}

static void begin_reader(worker *worker, int fd) {
    for (size_t at = 0; at < READERS; at++) {
        if (readers[at].peer.fd >= 0)
            continue;
        readers[at] = (reader){.peer = {.kind = PEER_READER, .fd = fd}, .until = worker->now + ANSWER_TIME};
        peer_watch(worker, &readers[at].peer, EPOLLIN);
        return;
    }
    close(fd);
}

void listener_event(worker *worker, peer *peer) {
    for (int left = 64; left > 0; left--) {
        int fd = accept4(peer->fd, NULL, NULL, SOCK_NONBLOCK | SOCK_CLOEXEC);
        if (fd < 0 && (errno == EMFILE || errno == ENFILE)) {
            warn("no descriptor for a new client: %s", strerror(errno));
            pause_until = worker->now + SECOND;
            peer_watch(worker, peer, 0);
        }
        if (fd < 0)
            return;
        if (peer->kind == PEER_LISTENER)
            give(worker, fd);
        else
            begin_reader(worker, fd);
    }
}

void listener_given(worker *worker) {
    int fd;
    while (read(worker->given, &fd, sizeof fd) == sizeof fd)
        client_begin(worker, fd);
}

static void write_health(const worker *worker, buffer *out) {
    buffer_print(out, "%zu of %d slots have a node%s\n", worker->map.slots, SLOTROUTE_SLOTS,
                 topology_is_lost(worker) ? ", and no node answers" : "");
}

/* What can be read at the port of figures. */
static const struct page {
    const char *path, *type;
    void (*write)(const worker *worker, buffer *out);
} pages[] = {
    {"/", "text/html; charset=utf-8", page_write},
    {"/metrics", "text/plain; version=0.0.4", figures_write},
    {"/healthz", "text/plain", write_health},
    {"/readyz", "text/plain", write_health},
};

/* The page of a path, or NULL. */
static const struct page *page_of(const char *path) {
    for (size_t at = 0; at < sizeof pages / sizeof *pages; at++)
        if (strcmp(path, pages[at].path) == 0)
            return &pages[at];
    return NULL;
}

/* Answers once the request has come whole. */
static void answer(const worker *worker, reader *it) {
    char method[5] = "", path[16] = "";
    buffer text = {0};
    buffer_put(&it->in, "", 1);
    sscanf((const char *)buffer_at(&it->in), "%4[A-Z] %15[^ ?\r\n]", method, path);
    bool is_head = strcmp(method, "HEAD") == 0;
    const struct page *page = is_head || strcmp(method, "GET") == 0 ? page_of(path) : NULL;
    bool is_bad = strcmp(path, "/readyz") == 0 && !figures_is_ready(worker);
    if (page == NULL)
        buffer_text(&text, "no such page\n");
    else
        page->write(worker, &text);
    buffer_print(&it->out,
                 "HTTP/1.0 %s\r\nContent-Type: %s\r\nContent-Length: %zu\r\nCache-Control: no-store\r\n\r\n",
                 page == NULL ? "404 Not Found"
                 : is_bad     ? "503 Service Unavailable"
                              : "200 OK",
                 page == NULL ? "text/plain" : page->type, buffer_len(&text));
    if (!is_head)
        buffer_put(&it->out, buffer_at(&text), buffer_len(&text));
    buffer_free(&text);
}

void reader_event(worker *worker, peer *peer, uint32_t events) {
    reader *it = (reader *)(void *)peer;
    if (peer->fd < 0)
        return;
    if (events & EPOLLIN && buffer_len(&it->out) == 0) {
        arrived found = peer_read(worker, peer, &it->in);
        peer_keep(&found, &it->in, 0);
        if (found.is_end || found.is_broken || buffer_len(&it->in) > READ_ROOM) {
            end_reader(it);
            return;
        }
        if (buffer_len(&it->in) >= 4 &&
            memmem(buffer_at(&it->in), buffer_len(&it->in), "\r\n\r\n", 4) != NULL)
            answer(worker, it);
    }
    bool has_answer = buffer_len(&it->out) > 0;
    if ((events & (EPOLLERR | EPOLLHUP)) != 0 || peer_write(peer, &it->out) < 0 ||
        (has_answer && buffer_len(&it->out) == 0))
        end_reader(it);
    else
        peer_watch(worker, peer, has_answer ? EPOLLOUT : EPOLLIN);
}
