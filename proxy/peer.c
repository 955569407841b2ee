#include "peer.h"

#include "tls.h"

#include <errno.h>
#include <fcntl.h>
#include <limits.h>
#include <netdb.h>
#include <netinet/in.h>
#include <netinet/tcp.h>
#include <stdio.h>
#include <stdlib.h>
#include <string.h>
#include <sys/epoll.h>
#include <sys/socket.h>
#include <sys/stat.h>
#include <sys/un.h>
#include <unistd.h>

enum { BACKLOG = 1024 };

void peer_watch(worker *worker, peer *peer, uint32_t events) {
    struct epoll_event event = {.events = events, .data.ptr = peer};
    if (peer->is_watched && peer->events == events)
        return;
    int change = peer->is_watched ? EPOLL_CTL_MOD : EPOLL_CTL_ADD;
    if (epoll_ctl(worker->poll, change, peer->fd, &event) != 0)
        warn("epoll: %s", strerror(errno));
    peer->events = events;
    peer->is_watched = true;
}

void peer_set_up(int fd) {
    int one = 1, idle = 60, pause = 10, tries = 3; /* seconds until a dead connection ends */
    fcntl(fd, F_SETFL, O_NONBLOCK);
    fcntl(fd, F_SETFD, FD_CLOEXEC);
    setsockopt(fd, IPPROTO_TCP, TCP_NODELAY, &one, sizeof one);
    setsockopt(fd, SOL_SOCKET, SO_KEEPALIVE, &one, sizeof one);
    setsockopt(fd, IPPROTO_TCP, TCP_KEEPIDLE, &idle, sizeof idle);
    setsockopt(fd, IPPROTO_TCP, TCP_KEEPINTVL, &pause, sizeof pause);
    setsockopt(fd, IPPROTO_TCP, TCP_KEEPCNT, &tries, sizeof tries);
}

arrived peer_read(worker *worker, const peer *peer, buffer *in) {
    arrived it = {.is_kept = buffer_len(in) > 0};
    size_t room = READ_ROOM;
    uint8_t *into = worker->read;
    if (it.is_kept) {
        room = buffer_len(in) > READ_ROOM ? buffer_len(in) : READ_ROOM;
        room = room > 16 * READ_ROOM ? 16 * READ_ROOM : room;
        into = buffer_room(in, room);
    }
    ssize_t count = peer->tls == NULL ? read(peer->fd, into, room) : tls_read(peer, into, room, &it.is_end);
    it.fresh = count > 0 ? (size_t)count : 0;
    it.is_end |= count == 0;
    it.is_broken = count < 0 && errno != EAGAIN && errno != EINTR;
    if (it.is_kept)
        in->end += it.fresh;
    it.bytes = it.is_kept ? buffer_at(in) : into;
    it.len = it.is_kept ? buffer_len(in) : it.fresh;
    return it;
}

void peer_keep(const arrived *arrived, buffer *in, size_t used) {
    if (arrived->is_kept)
        buffer_drop(in, used);
    else
        buffer_put(in, arrived->bytes + used, arrived->len - used);
}

int64_t peer_write(const peer *peer, buffer *out) {
    int64_t written = 0;
    while (buffer_len(out) > 0) {
        ssize_t count = peer->tls == NULL ? send(peer->fd, buffer_at(out), buffer_len(out), MSG_NOSIGNAL)
                                          : tls_write(peer, buffer_at(out), buffer_len(out));
        if (count < 0 && errno == EINTR)
            continue;
        if (count < 0)
            return errno == EAGAIN || written > 0 ? written : -1;
        written += count;
        buffer_drop(out, (size_t)count);
    }
    return written;
}

void address_split(const char *address, char *host, uint16_t *port) {
    const char *colon = strrchr(address, ':');
    size_t len = (size_t)(colon - address);
    *port = (uint16_t)strtoul(colon + 1, NULL, 10);
    if (len > 2 && address[0] == '[' && address[len - 1] == ']') { /* [::1]:6380 */
        address++;
        len -= 2;
    }
    memcpy(host, address, len);
    host[len] = 0;
}

bool path_can_be_made(const char *path) {
    char folder[PATH_MAX + 2];
    const char *slash = strrchr(path, '/');
    snprintf(folder, sizeof folder, "%.*s.", slash == NULL ? 0 : (int)(slash + 1 - path), path);
    return faccessat(AT_FDCWD, folder, W_OK | X_OK, AT_EACCESS) == 0;
}

/* Has a socket listen at an address, or closes it, and returns -1. */
static int listen_on(int fd, const struct sockaddr *address, socklen_t len, const char *name) {
    if (fd >= 0 && bind(fd, address, len) == 0 && listen(fd, BACKLOG) == 0)
        return fd;
    warn("%s: %s", name, strerror(errno));
    if (fd >= 0)
        close(fd);
    return -1;
}

/* What to listen at, or NULL with a line of the log. */
static struct addrinfo *look_up(const char *address) {
    char host[HOST_ROOM];
    uint16_t port = 0;
    address_split(address, host, &port);
    struct addrinfo hints = {.ai_flags = AI_PASSIVE | AI_NUMERICSERV, .ai_socktype = SOCK_STREAM},
                    *found = NULL;
    int fault = getaddrinfo(host, strrchr(address, ':') + 1, &hints, &found);
    if (fault != 0)
        warn("%s: %s", address, gai_strerror(fault));
    return fault == 0 ? found : NULL;
}

bool address_is_known(const char *address) {
    struct addrinfo *found = look_up(address);
    if (found != NULL)
        freeaddrinfo(found);
    return found != NULL;
}

int listen_at(const char *address) {
    struct addrinfo *found = look_up(address);
    if (found == NULL)
        return -1;
    int one = 1, fd = socket(found->ai_family, SOCK_STREAM | SOCK_NONBLOCK | SOCK_CLOEXEC, 0);
    setsockopt(fd, SOL_SOCKET, SO_REUSEADDR, &one, sizeof one);
    fd = listen_on(fd, found->ai_addr, found->ai_addrlen, address);
    freeaddrinfo(found);
    return fd;
}

bool unix_is_right(const char *path) {
    struct stat old;
    bool is_free = stat(path, &old) != 0 || S_ISSOCK(old.st_mode);
    if (!is_free)
        warn("%s: the file is no socket", path);
    else if (!path_can_be_made(path))
        warn("%s: %s", path, strerror(errno));
    else
        return true;
    return false;
}

int listen_unix(const char *path, uint64_t mode) {
    struct sockaddr_un address = {.sun_family = AF_UNIX};
    struct stat old;
    memcpy(address.sun_path, path, strlen(path)); /* the settings have checked the length */
    if (stat(path, &old) == 0 && S_ISSOCK(old.st_mode))
        unlink(path);
    mode_t before = mode != 0 ? umask(~(mode_t)mode & 0777) : 0;
    int fd = listen_on(socket(AF_UNIX, SOCK_STREAM | SOCK_NONBLOCK | SOCK_CLOEXEC, 0),
                       (struct sockaddr *)&address, sizeof address, path);
    if (mode != 0)
        umask(before);
    return fd;
}
