#include "own.h"

#include "request.h"

#include <netdb.h>
#include <stdio.h>
#include <string.h>
#include <sys/socket.h>

bool own_set_name(client *client, word name) {
    for (size_t at = 0; at < name.len; at++)
        if (name.text[at] < '!' || name.text[at] > '~')
            return false;
    buffer_free(&client->name);
    buffer_put(&client->name, name.text, name.len);
    return true;
}

/* Writes the address of an end of a client's connection. */
static void put_address(int fd, const char *name, int (*of)(int, struct sockaddr *, socklen_t *),
                        buffer *out) {
    struct sockaddr_storage address = {0};
    socklen_t len = sizeof address;
    char host[64], port[8];
    if (of(fd, (struct sockaddr *)&address, &len) != 0 || address.ss_family == AF_UNIX ||
        getnameinfo((struct sockaddr *)&address, len, host, sizeof host, port, sizeof port,
                    NI_NUMERICHOST | NI_NUMERICSERV) != 0)
        buffer_print(out, " %s=%s:0", name, the_proxy.settings.unix_path ? the_proxy.settings.unix_path : "");
    else
        buffer_print(out, strchr(host, ':') != NULL ? " %s=[%s]:%s" : " %s=%s:%s", name, host, port);
}

/* Libraries read each of these fields as a number. So those that the proxy does not count are there, as 0. */
static void put_client(const client *it, buffer *out) {
    uint64_t now = it->worker->now;
    size_t queued = buffer_len(&it->multi_list) / sizeof(queued_command);
    buffer_print(out, "id=%llu", (unsigned long long)it->id);
    put_address(it->peer.fd, "addr", getpeername, out);
    put_address(it->peer.fd, "laddr", getsockname, out);
    buffer_print(out, " fd=%d name=", it->peer.fd);
    buffer_put(out, buffer_at(&it->name), buffer_len(&it->name));
    buffer_print(out, " age=%llu idle=%llu flags=%s db=0 sub=0 psub=0 ssub=0 multi=%d qbuf=%zu qbuf-free=0",
                 (unsigned long long)((now - it->begun_at) / SECOND),
                 (unsigned long long)((now - it->active_at) / SECOND),
                 it->is_subscribed      ? "P"
                 : it->is_multi         ? "x"
                 : it->first && it->own ? "b"
                                        : "N",
                 it->is_multi ? (int)queued : -1, buffer_len(&it->in));
    buffer_print(out, " argv-mem=0 obl=0 oll=0 omem=%zu tot-mem=%zu user=default redir=-1 resp=%d\n",
                 buffer_len(&it->out), buffer_len(&it->in) + buffer_len(&it->out), it->is_three ? 3 : 2);
}

/* Answers with these clients of the thread, or with one. */
static void answer_list(client *client, bool are_subscribed, bool are_others) {
    buffer out = {0};
    for (const struct client *it = client->worker->clients; it != NULL; it = it->next)
        if (it->is_subscribed ? are_subscribed : are_others)
            put_client(it, &out);
    if (!are_subscribed && !are_others)
        put_client(client, &out);
    own_bulk(client, (const char *)buffer_at(&out), buffer_len(&out));
    buffer_free(&out);
}

static void answer_id(client *client) {
    char text[32];
    snprintf(text, sizeof text, ":%llu\r\n", (unsigned long long)client->id);
    own_text(client, text);
}

static void answer_name(client *client, word name) {
    if (own_set_name(client, name))
        own_text(client, "+OK\r\n");
    else
        request_refuse(client, "Client names cannot contain spaces, newlines or special characters.");
}

static bool is_switch(word it) { return word_is(it, "ON") || word_is(it, "OFF"); }

void own_client(client *client, const line *line) {
    const word *words = line->words;
    word second = line->count > 1 ? words[1] : (word){"", 0};
    bool has_type = line->count == 4 && word_is(words[2], "TYPE");
    bool is_normal = has_type && word_is(words[3], "NORMAL"),
         is_pubsub = has_type && word_is(words[3], "PUBSUB");
    if (word_is(second, "SETNAME") && line->count == 3)
        answer_name(client, words[2]);
    else if (word_is(second, "GETNAME") && line->count == 2)
        own_bulk(client, (const char *)buffer_at(&client->name), buffer_len(&client->name));
    else if ((word_is(second, "SETINFO") && line->count == 4) ||
             ((word_is(second, "NO-EVICT") || word_is(second, "NO-TOUCH")) && line->count == 3 &&
              is_switch(words[2])))
        own_text(client, "+OK\r\n");
    else if (word_is(second, "ID") && line->count == 2)
        answer_id(client);
    else if (word_is(second, "INFO") && line->count == 2)
        answer_list(client, false, false);
    else if (word_is(second, "LIST") && (line->count == 2 || is_normal || is_pubsub))
        answer_list(client, !is_normal, !is_pubsub);
    else {
        stats_refused(&client->worker->stats, "CLIENT");
        request_refuse(client, "the proxy does not take this: of CLIENT it takes GETNAME, ID, INFO, LIST, "
                               "NO-EVICT, NO-TOUCH, SETINFO and SETNAME, and no caching by clients");
    }
}
