/* Runs the event loop of the proxy in an invented time, with two nodes and two clients that stand in this
 * file. What they do comes from a string of bytes: random ones, or those of a fuzzer.
 *
 * Client A sends whatever it likes. Client B asks for keys, and nodes answer GET with the key. So B has to
 * get its own keys in their order, or errors, and all of them in time. What comes to a node has to be
 * requests. At the end no memory is left. tests/proxy-simulated builds and runs it. */
#include "../proxy/client.h"
#include "../proxy/commands.h"
#include "../proxy/listener.h"
#include "../proxy/worker.h"

#include <errno.h>
#include <netinet/in.h>
#include <stdarg.h>
#include <stdio.h>
#include <stdlib.h>
#include <string.h>
#include <sys/epoll.h>
#include <sys/socket.h>
#include <unistd.h>

enum { NODES = 2, FIRST_PORT = 7001, CONNECTIONS = 64, LONGEST = 30 * SECOND, NO_FD = -1 };

proxy the_proxy;

static uint64_t now = SECOND;
static bool is_wild; /* a node broke the protocol: what B gets may be anything */

uint64_t clock_now(void) { return now; }
void say(const char *format, ...) { (void)format; }

void warn(const char *format, ...) {
    va_list words;
    if (strncmp(format, "an invariant", 12) != 0)
        return;
    va_start(words, format);
    vfprintf(stderr, format, words);
    va_end(words);
}

static void must(bool holds, const char *what) {
    if (holds)
        return;
    fprintf(stderr, "simulated: %s\n", what);
    abort();
}

/* ---- the nodes */

/* A connection of the proxy's to a node. It keeps requests until they are answered. */
typedef struct connection {
    int fd;
    unsigned node, queued;
    bool is_multi, is_subscribed;
    buffer in, out;
} connection;

static connection connections[CONNECTIONS];
static size_t connection_count;
static bool is_down[NODES], is_holding;
static uint16_t boundary; /* the first slot of the second node */

int __wrap_connect(int fd, const struct sockaddr *address, socklen_t len);
int __real_epoll_wait(int poll, struct epoll_event *events, int count, int wait);
int __wrap_epoll_wait(int poll, struct epoll_event *events, int count, int wait);

/* Connects to one of the nodes, and never to anything else. */
int __wrap_connect(int fd, const struct sockaddr *address, socklen_t len) {
    struct sockaddr_in to = {0};
    int ends[2];
    memcpy(&to, address, len < sizeof to ? len : sizeof to);
    unsigned node = (unsigned)ntohs(to.sin_port) - FIRST_PORT;
    if (node >= NODES || is_down[node] || connection_count == CONNECTIONS ||
        socketpair(AF_UNIX, SOCK_STREAM | SOCK_NONBLOCK, 0, ends) != 0) {
        errno = ECONNREFUSED;
        return -1;
    }
    dup2(ends[0], fd);
    close(ends[0]);
    connections[connection_count++] = (connection){.fd = ends[1], .node = node};
    return 0;
}

int __wrap_epoll_wait(int poll, struct epoll_event *events, int count, int wait) {
    (void)wait;
    return __real_epoll_wait(poll, events, count, 0);
}

static void drop(connection *it) {
    close(it->fd);
    buffer_free(&it->in);
    buffer_free(&it->out);
    *it = connections[--connection_count];
}

/* The length of the request at the front, or 0 if it is not whole. */
static size_t whole_request(const buffer *in) {
    slotroute_progress progress = {0};
    size_t end = 0;
    whole found = layer_request(buffer_at(in), buffer_len(in), &progress, &end);
    must(found != IS_MALFORMED, "a node gets something else than requests");
    return found == IS_WHOLE ? end : 0;
}

static void put_map(buffer *out) {
    buffer_print(out,
                 "*2\r\n*3\r\n:0\r\n:%u\r\n*2\r\n$9\r\n127.0.0.1\r\n:%d\r\n"
                 "*3\r\n:%u\r\n:16383\r\n*2\r\n$9\r\n127.0.0.1\r\n:%d\r\n",
                 boundary - 1u, FIRST_PORT, boundary, FIRST_PORT + 1);
}

static void put_words(buffer *out, words words) {
    word it;
    buffer_print(out, "*%u\r\n", (unsigned)words.left);
    while (words_next(&words, &it)) {
        buffer_print(out, "$%zu\r\n", it.len);
        buffer_put(out, it.text, it.len);
        buffer_text(out, "\r\n");
    }
}

/* Answers in a transaction. */
static bool answer_queued(connection *it, word name) {
    bool was_multi = it->is_multi, is_end = word_is(name, "EXEC");
    if (word_is(name, "MULTI")) {
        it->is_multi = true;
        it->queued = 0;
        buffer_text(&it->out, "+OK\r\n");
    } else if (was_multi && is_end) {
        buffer_print(&it->out, "*%u\r\n", it->queued);
        while (it->queued-- > 0)
            buffer_text(&it->out, "+OK\r\n");
        it->is_multi = false;
    } else if (was_multi) {
        it->queued++;
        buffer_text(&it->out, "+QUEUED\r\n");
    }
    return was_multi || it->is_multi;
}

/* Answers a command about the one channel that there is, or about another. A message of that channel comes
 * before the reply. */
static void put_subscription(connection *it, bool is_more, word channel) {
    const char *kind = is_more ? "$9\r\nsubscribe" : "$11\r\nunsubscribe";
    if (it->is_subscribed)
        buffer_text(&it->out, "*3\r\n$7\r\nmessage\r\n$1\r\nc\r\n$1\r\nx\r\n");
    if (word_is(channel, "c") || channel.len == 0)
        it->is_subscribed = is_more;
    buffer_print(&it->out, "*3\r\n%s\r\n$%zu\r\n", kind, channel.len);
    buffer_put(&it->out, channel.text, channel.len);
    buffer_print(&it->out, "\r\n:%d\r\n", it->is_subscribed);
}

/* Answers as a server would, more or less. */
static void put_reply(connection *it, words words) {
    word name = {"", 0}, key = {"", 0};
    struct words rest = words;
    words_next(&rest, &name);
    struct words keys = rest;
    words_next(&rest, &key);
    if (answer_queued(it, name))
        return;
    if (word_is(name, "CLUSTER")) {
        put_map(&it->out);
    } else if (word_is(name, "GET")) {
        buffer_print(&it->out, "$%zu\r\n", key.len);
        buffer_put(&it->out, key.text, key.len);
        buffer_text(&it->out, "\r\n");
    } else if (word_is(name, "MGET") || word_is(name, "KEYS")) {
        put_words(&it->out, keys);
    } else if (word_is(name, "DEL") || word_is(name, "EXISTS") || word_is(name, "DBSIZE")) {
        buffer_print(&it->out, ":%u\r\n", (unsigned)keys.left);
    } else if (word_is(name, "SCAN")) {
        buffer_text(&it->out, "*2\r\n$1\r\n7\r\n*0\r\n");
    } else if (word_is(name, "BLPOP")) {
        buffer_text(&it->out, "*-1\r\n");
    } else if (word_is(name, "SUBSCRIBE") || word_is(name, "UNSUBSCRIBE")) {
        put_subscription(it, name.len == 9, key);
    } else {
        buffer_text(&it->out, "+OK\r\n");
    }
}

/* Answers with an error of this kind. */
static void put_error(connection *it, const uint8_t *request, size_t len, unsigned kind) {
    static const char *const texts[] = {"-TRYAGAIN x\r\n", "-CLUSTERDOWN x\r\n", "-LOADING x\r\n",
                                        "-READONLY x\r\n", "-ERR x\r\n"};
    slotroute_routed to = {0};
    bool has_slot = layer_route(request, len, &to) && to.kind == SLOTROUTE_TO_SLOT;
    if (kind % 8 > 4 && has_slot)
        buffer_print(&it->out, "-%s %u 127.0.0.1:%u\r\n", kind % 8 == 5 ? "ASK" : "MOVED", to.slot,
                     FIRST_PORT + kind / 8 % NODES);
    else
        buffer_text(&it->out, texts[kind % 5]);
}

static void answer_one(connection *it, int error) {
    size_t len = whole_request(&it->in);
    if (len == 0)
        return;
    if (error >= 0)
        put_error(it, buffer_at(&it->in), len, (unsigned)error);
    else
        put_reply(it, words_of(buffer_at(&it->in), len));
    buffer_drop(&it->in, len);
}

/* Reads what came to the nodes, answers, and drops connections that the proxy has closed. */
static void nodes_run(void) {
    for (size_t at = connection_count; at-- > 0;) {
        connection *it = &connections[at];
        ssize_t count = read(it->fd, buffer_room(&it->in, READ_ROOM), READ_ROOM);
        it->in.end += count > 0 ? (size_t)count : 0;
        while (!is_holding && whole_request(&it->in) > 0)
            answer_one(it, -1);
        ssize_t sent = send(it->fd, buffer_at(&it->out), buffer_len(&it->out), MSG_NOSIGNAL);
        buffer_drop(&it->out, sent > 0 ? (size_t)sent : 0);
        if (count == 0 || (count < 0 && errno != EAGAIN))
            drop(it);
    }
}

/* ---- the clients */

static worker *the_worker;
static int client_a = NO_FD, client_b = NO_FD;
static bool reads_a;
static unsigned asked, answered; /* by B, and to B */
static buffer read_b;

static int begin_client(void) {
    int ends[2];
    must(socketpair(AF_UNIX, SOCK_STREAM | SOCK_NONBLOCK, 0, ends) == 0, "no socket");
    atomic_fetch_add(&the_proxy.clients, 1);
    client_begin(the_worker, ends[0]);
    return ends[1];
}

static void send_a(const void *bytes, size_t len) {
    if (client_a != NO_FD && send(client_a, bytes, len, MSG_NOSIGNAL) < 0)
        errno = 0; /* the proxy takes no more, or has closed */
}

/* B asks for the next key, of one of two slots. */
static void ask_b(void) {
    char key[32], request[64];
    int len = snprintf(key, sizeof key, "{%u}%u", asked % 2, asked);
    len = snprintf(request, sizeof request, "*2\r\n$3\r\nGET\r\n$%d\r\n%s\r\n", len, key);
    must(send(client_b, request, (size_t)len, MSG_NOSIGNAL) == len, "B cannot ask");
    asked++;
}

static void check_b(const uint8_t *reply, size_t len) {
    char key[32], wanted[64];
    int key_len = snprintf(key, sizeof key, "{%u}%u", answered % 2, answered);
    size_t size = (size_t)snprintf(wanted, sizeof wanted, "$%d\r\n%s\r\n", key_len, key);
    must(answered < asked, "B gets a reply that it did not ask for");
    answered++;
    must(is_wild || reply[0] == '-' || (len == size && memcmp(reply, wanted, len) == 0), "B gets another's reply");
}

static void clients_run(void) {
    uint8_t bytes[4096];
    slotroute_progress progress = {0};
    size_t end = 0;
    while (reads_a && client_a != NO_FD && read(client_a, bytes, sizeof bytes) > 0)
        ;
    ssize_t count = read(client_b, bytes, sizeof bytes);
    must(count != 0, "B was closed");
    buffer_put(&read_b, bytes, count > 0 ? (size_t)count : 0);
    while (buffer_len(&read_b) > 0 &&
           layer_reply(buffer_at(&read_b), buffer_len(&read_b), &progress, &end) == IS_WHOLE) {
        check_b(buffer_at(&read_b), end);
        buffer_drop(&read_b, end);
    }
}

static void round_of(uint64_t time) {
    now += time;
    worker_round(the_worker);
    nodes_run();
    if (client_b != NO_FD)
        clients_run();
}

/* ---- what happens, by bytes */

typedef struct script {
    const uint8_t *at, *end;
} script;

static uint8_t next(script *it) { return it->at < it->end ? *it->at++ : 0; }

static const char *const templates[] = {
    "*2\r\n$3\r\nGET\r\n$1\r\na\r\n",
    "*3\r\n$3\r\nSET\r\n$1\r\nb\r\n$1\r\n1\r\n",
    "*4\r\n$4\r\nMGET\r\n$1\r\na\r\n$1\r\nb\r\n$1\r\nc\r\n",
    "*5\r\n$4\r\nMSET\r\n$1\r\na\r\n$1\r\n1\r\n$1\r\nb\r\n$1\r\n2\r\n",
    "*3\r\n$3\r\nDEL\r\n$1\r\na\r\n$1\r\nb\r\n",
    "*1\r\n$6\r\nDBSIZE\r\n",
    "*2\r\n$4\r\nKEYS\r\n$1\r\n*\r\n",
    "*1\r\n$4\r\nTIME\r\n",
    "*1\r\n$4\r\nPING\r\n",
    "*1\r\n$5\r\nMULTI\r\n",
    "*1\r\n$4\r\nEXEC\r\n",
    "*1\r\n$7\r\nDISCARD\r\n",
    "*2\r\n$5\r\nWATCH\r\n$1\r\na\r\n",
    "*1\r\n$7\r\nUNWATCH\r\n",
    "*3\r\n$5\r\nBLPOP\r\n$1\r\na\r\n$1\r\n0\r\n",
    "*2\r\n$9\r\nSUBSCRIBE\r\n$1\r\nc\r\n",
    "*2\r\n$11\r\nUNSUBSCRIBE\r\n$1\r\nc\r\n",
    "*1\r\n$11\r\nUNSUBSCRIBE\r\n",
    "*3\r\n$9\r\nSUBSCRIBE\r\n$5\r\n__key\r\n$1\r\nc\r\n",
    "*2\r\n$6\r\nSELECT\r\n$1\r\n1\r\n",
    "*2\r\n$6\r\nSELECT\r\n$1\r\n0\r\n",
    "*4\r\n$4\r\nEVAL\r\n$1\r\nx\r\n$1\r\n1\r\n$1\r\na\r\n",
    "*1\r\n$5\r\nRESET\r\n",
    "*1\r\n$4\r\nINFO\r\n",
    "*2\r\n$4\r\nSCAN\r\n$1\r\n0\r\n",
    "*3\r\n$7\r\nPUBLISH\r\n$1\r\nc\r\n$1\r\nx\r\n",
    "*3\r\n$10\r\nPSUBSCRIBE\r\n$5\r\n__key\r\n$1\r\nc\r\n",
    "*3\r\n$6\r\nCLIENT\r\n$7\r\nSETNAME\r\n$1\r\nn\r\n",
    "*2\r\n$5\r\nHELLO\r\n$1\r\n2\r\n",
    "*2\r\n$5\r\nHELLO\r\n$1\r\n3\r\n",
    "*1\r\n$4\r\nQUIT\r\n",
};

/* A whole command a few times, or the front of one. */
static void send_template(script *it) {
    const char *text = templates[next(it) % (sizeof templates / sizeof *templates)];
    unsigned times = next(it);
    for (unsigned at = 0; at < times % 8; at++)
        send_a(text, strlen(text));
    send_a(text, times < 192 ? strlen(text) : times % strlen(text));
}

static void send_raw(script *it) {
    size_t len = next(it), left = (size_t)(it->end - it->at);
    len = len < left ? len : left;
    send_a(it->at, len);
    it->at += len;
}

/* A node does something wrong, or says an error. */
static void node_acts(script *it) {
    uint8_t act = next(it), of = next(it);
    if (act % 4 == 0) {
        is_down[of % NODES] = !is_down[of % NODES];
    } else if (connection_count > 0) {
        connection *one = &connections[of % connection_count];
        if (act % 4 == 1) {
            drop(one);
        } else if (act % 4 == 2) {
            answer_one(one, next(it));
        } else {
            size_t len = next(it) % 32, left = (size_t)(it->end - it->at);
            len = len < left ? len : left;
            is_wild = true;
            buffer_put(&one->out, it->at, len);
            it->at += len;
        }
    }
}

static void client_a_acts(script *it) {
    uint8_t act = next(it);
    reads_a = act % 4 != 0;
    if (act % 4 == 1) {
        shutdown(client_a, SHUT_WR);
    } else if (act % 4 == 2) {
        close(client_a);
        client_a = begin_client();
    }
}

static void step(script *it) {
    switch (next(it) % 10) {
    case 0:
        send_raw(it);
        break;
    case 1:
    case 2:
    case 3:
        send_template(it);
        break;
    case 4:
        ask_b();
        break;
    case 5:
        is_holding = !is_holding;
        break;
    case 6:
    case 7:
        node_acts(it);
        break;
    case 8:
        client_a_acts(it);
        break;
    default:
        round_of(next(it) * 20u * MILLISECOND);
        boundary = (uint16_t)(1 + next(it) * 64);
        break;
    }
    round_of(MILLISECOND);
}

static bool b_waits(void) { return answered < asked; }
static bool has_clients(void) { return the_worker->clients != NULL; }

/* Whether a node owes a reply, perhaps to a client that has gone. */
static bool nodes_owe(void) {
    for (size_t at = 0; at < the_worker->node_count; at++)
        if (the_worker->nodes[at]->count > 0)
            return true;
    return the_worker->left != NULL;
}

static void pass_time_while(bool (*holds)(void), const char *what) {
    uint64_t until = now + LONGEST;
    while (holds() && now < until)
        round_of(20 * MILLISECOND);
    must(!holds(), what);
}

/* Time passes until B has its replies. Then the clients go, or the proxy is drained. */
static void finish(bool is_drained) {
    pass_time_while(b_waits, "B waits for ever");
    close(client_a);
    close(client_b);
    client_a = client_b = NO_FD;
    atomic_store(&the_proxy.draining, is_drained);
    pass_time_while(has_clients, "a client that has gone is kept");
    is_holding = false;
    pass_time_while(nodes_owe, "a node owes a reply for ever");
    listeners_close(the_worker);
    worker_free(the_worker);
    while (connection_count > 0)
        drop(&connections[0]);
    buffer_free(&read_b);
    must(memory_used == 0, "memory is left");
}

int LLVMFuzzerInitialize(int *count, char ***words);
int LLVMFuzzerTestOneInput(const uint8_t *bytes, size_t len);

int LLVMFuzzerInitialize(int *count, char ***words) {
    static char *flags[] = {"proxy", "--node", "127.0.0.1:7001", "--node", "127.0.0.1:7002", "--listen", "127.0.0.1:1", NULL};
    (void)count, (void)words;
    commands_start();
    must(settings_read(&the_proxy.settings, 7, flags), "settings");
    the_proxy.settings.listen = "127.0.0.1:0";
    return 0;
}

int LLVMFuzzerTestOneInput(const uint8_t *bytes, size_t len) {
    script it = {bytes, bytes + len};
    uint8_t first = next(&it);
    bool is_drained = first % 4 == 0;
    the_proxy.settings.split_transactions = first % 8 > 3;
    is_wild = is_holding = is_down[0] = is_down[1] = false;
    asked = answered = 0;
    boundary = 8192;
    reads_a = true;
    atomic_store(&the_proxy.draining, 0);
    the_worker = the_proxy.workers[0] = worker_new(0);
    must(listeners_open(the_worker), "no listener");
    client_a = begin_client();
    client_b = begin_client();
    while (it.at < it.end)
        step(&it);
    finish(is_drained);
    return 0;
}

#ifndef FUZZER
/* Runs cases of random bytes: their number, and a seed. */
int main(int count, char **words) {
    uint8_t bytes[400];
    unsigned long cases = count > 1 ? strtoul(words[1], NULL, 10) : 1000;
    srand(count > 2 ? (unsigned)strtoul(words[2], NULL, 10) : 1);
    LLVMFuzzerInitialize(&count, &words);
    for (unsigned long at = 0; at < cases; at++) {
        size_t len = (size_t)rand() % sizeof bytes;
        for (size_t place = 0; place < len; place++)
            bytes[place] = (uint8_t)(rand() >> 7);
        LLVMFuzzerTestOneInput(bytes, len);
    }
    printf("%lu cases\n", cases);
    return 0;
}
#endif
