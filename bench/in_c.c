/* Times the library for C, careful Rust (bench/bytes_in_rust.rs) and hiredis on the same bytes:
   nanoseconds a call, by the processor's time of the thread, the least of some rounds in turn. What
   Rust writes has to be what the library writes. bench/c builds and runs it. */
#define _GNU_SOURCE
#include "slotroute.h"

#include <hiredis/hiredis.h>
#include <stdio.h>
#include <stdlib.h>
#include <string.h>
#include <time.h>

static double now(void) {
    struct timespec time;
    clock_gettime(CLOCK_THREAD_CPUTIME_ID, &time);
    return (double)time.tv_sec * 1e9 + (double)time.tv_nsec;
}

/* A round of so many calls, which may be the least. */
#define ROUND(least, times, call)                                    \
    do {                                                             \
        double start = now();                                        \
        for (size_t n = 0; n < (times); n++) { call; }               \
        double each = (now() - start) / (double)(times);             \
        if (each < least) least = each;                              \
    } while (0)

#define ROUNDS 25

/* The least time of a call. */
#define LEAST(least, times, call)                                    \
    do {                                                             \
        least = 1e18;                                                \
        for (int round = 0; round < ROUNDS; round++) ROUND(least, times, call); \
    } while (0)

/* The least times of two calls, whose rounds take turns. */
#define IN_TURN(own, other, times, own_call, other_call)             \
    do {                                                             \
        own = other = 1e18;                                          \
        for (int round = 0; round < ROUNDS; round++) {               \
            ROUND(own, times, own_call);                             \
            ROUND(other, times, other_call);                         \
        }                                                            \
    } while (0)

static volatile uint64_t sink;

size_t careful_reply_len(const uint8_t *bytes, size_t len);
size_t careful_split(const uint8_t *request, size_t len, uint16_t *slots, size_t *ends, size_t parts,
                     uint8_t *out, size_t room);
size_t careful_combine(const uint8_t *request, size_t len, const uint8_t *replies, size_t replies_len,
                       uint8_t *out, size_t room);

/* Ends unless Rust wrote the same bytes. */
static void same(const char *row, const uint8_t *own, size_t len, const uint8_t *other, size_t other_len) {
    if (len == other_len && memcmp(own, other, len) == 0) return;
    fprintf(stderr, "%s: Rust writes other bytes\n", row);
    exit(1);
}

static void row(const char *call, size_t size, double own, double rust, double hiredis) {
    printf("| %s | %zu | %.0f |", call, size, own);
    if (rust > 0) printf(" %.0f (%.2f) |", rust, own / rust); else printf(" |");
    if (hiredis > 0) printf(" %.0f |\n", hiredis); else printf(" |\n");
}

typedef struct text {
    uint8_t *bytes;
    size_t len;
} text;

static text some_room(size_t bytes) {
    text made = {calloc(1, bytes), 0};
    if (made.bytes == NULL) exit(3);
    return made;
}

static void add(text *to, const char *line, size_t number) {
    to->len += (size_t)sprintf((char *)to->bytes + to->len, line, number);
}

/* A request of a name and so many keys of about eight bytes. */
static text request_of(const char *name, size_t keys) {
    text made = some_room(keys * 40 + 64);
    add(&made, "*%zu\r\n", keys + 1);
    made.len += (size_t)sprintf((char *)made.bytes + made.len, "$%zu\r\n%s\r\n", strlen(name), name);
    for (size_t i = 0; i < keys; i++) {
        char key[32];
        int len = sprintf(key, "key:%zu", i * 7919);
        made.len += (size_t)sprintf((char *)made.bytes + made.len, "$%d\r\n%s\r\n", len, key);
    }
    return made;
}

static text array_of(size_t items) {
    text made = some_room(items * 16 + 64);
    add(&made, "*%zu\r\n", items);
    for (size_t i = 0; i < items; i++) add(&made, "$5\r\nvalue\r\n", i);
    return made;
}

static uint64_t read_by_hiredis(const text *of) {
    void *reply = NULL;
    redisReader *reader = redisReaderCreate();
    redisReaderFeed(reader, (const char *)of->bytes, of->len);
    int status = redisReaderGetReply(reader, &reply);
    if (reply != NULL) freeReplyObject(reply);
    redisReaderFree(reader);
    return (uint64_t)status;
}

static void time_reading(void) {
    double own, rust, other;
    for (size_t items = 1; items <= 1000; items *= 10) {
        text reply = array_of(items);
        slotroute_told told = {0};
        IN_TURN(own, rust, 20000 / items + 1,
                sink += slotroute_reply_len(reply.bytes, reply.len, &told),
                sink += careful_reply_len(reply.bytes, reply.len));
        LEAST(other, 20000 / items + 1, sink += read_by_hiredis(&reply));
        row("slotroute_reply_len (hiredis: read it)", items, own, rust, other);
        free(reply.bytes);
    }
}

/* hiredis makes the bytes of so many parts, each with its share of the keys. */
static uint64_t format_by_hiredis(size_t keys, size_t parts, const char **words, const size_t *lens) {
    uint64_t sum = 0;
    for (size_t part = 0; part < parts; part++) {
        char *made = NULL;
        size_t count = keys / parts + (part < keys % parts);
        sum += (uint64_t)redisFormatCommandArgv(&made, (int)count + 1, words, lens);
        redisFreeCommand(made);
    }
    return sum;
}

/* Room for what a split of a request writes. */
typedef struct parts {
    uint16_t *slots;
    size_t *ends;
    text out;
    size_t room;
} parts;

static parts room_of(size_t keys) {
    size_t room = keys * 128 + 64;
    parts made = {calloc(keys, sizeof *made.slots), calloc(keys, sizeof *made.ends), some_room(room), room};
    if (made.slots == NULL || made.ends == NULL) exit(3);
    return made;
}

static void free_parts(parts *of) {
    free(of->slots);
    free(of->ends);
    free(of->out.bytes);
}

static void time_splitting(void) {
    double own, rust, other;
    for (size_t keys = 10; keys <= 1000; keys *= 100) {
        text request = request_of("DEL", keys);
        parts to = room_of(keys), in_rust = room_of(keys);
        size_t *lens = calloc(keys + 1, sizeof *lens), rust_len = 0;
        const char **words = calloc(keys + 1, sizeof *words);
        slotroute_told told = {0};
        for (size_t i = 0; i <= keys; i++) {
            words[i] = i == 0 ? "DEL" : "key:1234567";
            lens[i] = strlen(words[i]);
        }
        IN_TURN(own, rust, 20000 / keys + 1,
                sink += slotroute_split(request.bytes, request.len, NULL, 0, to.slots, keys, to.ends, keys,
                to.out.bytes, to.room, &told),
                rust_len = careful_split(request.bytes, request.len, in_rust.slots, in_rust.ends, keys,
                in_rust.out.bytes, in_rust.room));
        same("split", to.out.bytes, told.bytes, in_rust.out.bytes, rust_len);
        LEAST(other, 20000 / keys + 1, sink += format_by_hiredis(keys, told.parts, words, lens));
        row("slotroute_split of a DEL (hiredis: write its parts)", keys, own, rust, other);
        IN_TURN(own, rust, 20000 / keys + 1,
                sink += slotroute_request_len(request.bytes, request.len, &told),
                sink += careful_reply_len(request.bytes, request.len));
        LEAST(other, 20000 / keys + 1, sink += read_by_hiredis(&request));
        row("slotroute_request_len (hiredis: read it)", keys, own, rust, other);
        free(request.bytes);
        free_parts(&to);
        free_parts(&in_rust);
        free(lens);
        free(words);
    }
}

/* The replies to the parts of an MGET that was split. */
static text replies_to(const parts *to, size_t count, size_t keys) {
    text replies = some_room(keys * 32 + 64);
    for (size_t i = 0; i < count; i++) {
        size_t values = (size_t)atoi((char *)to->out.bytes + (i == 0 ? 0 : to->ends[i - 1]) + 1) - 1;
        add(&replies, "*%zu\r\n", values);
        for (size_t j = 0; j < values; j++) add(&replies, "$5\r\nvalue\r\n", j);
    }
    return replies;
}

static void time_combining(void) {
    double own, rust;
    for (size_t keys = 10; keys <= 1000; keys *= 100) {
        text request = request_of("MGET", keys);
        parts to = room_of(keys), in_rust = room_of(keys);
        slotroute_told told = {0};
        size_t rust_len = 0;
        slotroute_split(request.bytes, request.len, NULL, 0, to.slots, keys, to.ends, keys, to.out.bytes,
                        to.room, &told);
        text replies = replies_to(&to, told.parts, keys);
        IN_TURN(own, rust, 20000 / keys + 1,
                sink += slotroute_combine(request.bytes, request.len, NULL, 0, replies.bytes, replies.len,
                to.out.bytes, to.room, &told),
                rust_len = careful_combine(request.bytes, request.len, replies.bytes, replies.len,
                in_rust.out.bytes, in_rust.room));
        same("combine", to.out.bytes, told.bytes, in_rust.out.bytes, rust_len);
        row("slotroute_combine of an MGET", keys, own, rust, 0);
        free(request.bytes);
        free_parts(&to);
        free_parts(&in_rust);
        free(replies.bytes);
    }
}

static void time_the_rest(void) {
    static uint16_t numbers[SLOTROUTE_SLOTS];
    static uint8_t lines[4096];
    double own;
    slotroute_told told = {0};
    slotroute_routed routed = {0};
    slotroute_redirected redirected = {0};
    text get = request_of("GET", 1), map = some_room(4096);
    const uint8_t *moved = (const uint8_t *)"MOVED 3999 127.0.0.1:6381";
    LEAST(own, 1000000, sink += slotroute_slot((const uint8_t *)"foo", 3));
    printf("| slotroute_slot | 3 bytes | %.1f | | |\n", own);
    LEAST(own, 20000, sink += slotroute_route(get.bytes, get.len, NULL, 0, 1, &routed, &told));
    row("slotroute_route of a GET", 1, own, 0, 0);
    LEAST(own, 20000,
          sink += slotroute_redirect(moved, strlen((const char *)moved), moved, 0, lines, sizeof lines,
                                     &redirected));
    row("slotroute_redirect", 1, own, 0, 0);
    add(&map, "*%zu\r\n", 3);
    for (size_t i = 0; i < 3; i++) {
        add(&map, "*3\r\n:%zu\r\n", i * 5462);
        add(&map, ":%zu\r\n", i == 2 ? 16383 : i * 5462 + 5461);
        add(&map, "*2\r\n$9\r\n127.0.0.1\r\n:%zu\r\n", 7000 + i);
    }
    LEAST(own, 20,
          sink += slotroute_table(map.bytes, map.len, moved, 0, 0, 0, numbers, SLOTROUTE_SLOTS, lines,
                                  sizeof lines, &told));
    row("slotroute_table, ranges", 3, own, 0, 0);
    free(get.bytes);
    free(map.bytes);
}

enum { LINKS = 100, CALLS = 10000, MOST_CALLS = 100000, ROOM = 1 << 22, PAUSE = 10 };

/* A session over links whose nodes have neighbouring slots, and what its shell has. */
typedef struct shell {
    slotroute_session session;
    text map, replies, written, big;
} shell;

/* Answers all that was asked, with replies of 11 bytes to requests of one length. */
static void answer_links(shell *it, size_t request_len) {
    size_t link;
    while (slotroute_session_link_to_write(&it->session, &link) == SLOTROUTE_DONE) {
        size_t len = slotroute_session_unwritten(&it->session, link, it->written.bytes, ROOM);
        slotroute_session_wrote(&it->session, link, len);
        slotroute_session_read(&it->session, link, it->replies.bytes, len / request_len * 11);
    }
}

/* Opens a session, connects its links and answers with the map. */
static shell shell_of(size_t nodes) {
    slotroute_session_settings settings = {1 << 25, MOST_CALLS, 1 << 30, 0, PAUSE, 16};
    shell it = {{NULL}, some_room(nodes * 80 + 64), some_room(MOST_CALLS * 11 + 16), some_room(ROOM), some_room(1 << 25)};
    size_t node, link;
    add(&it.map, "*%zu\r\n", nodes);
    for (size_t i = 0; i < nodes; i++) {
        add(&it.map, "*3\r\n:%zu\r\n", i * SLOTROUTE_SLOTS / nodes);
        add(&it.map, ":%zu\r\n", (i + 1) * SLOTROUTE_SLOTS / nodes - 1);
        add(&it.map, "*2\r\n$9\r\n127.0.0.1\r\n:%zu\r\n", 7000 + i);
    }
    for (size_t i = 0; i < MOST_CALLS; i++) add(&it.replies, "$5\r\nvalue\r\n", i);
    if (slotroute_session_open(&settings, NULL, 0, &it.session) != SLOTROUTE_DONE) exit(3);
    for (size_t i = 0; i < nodes; i++)
        slotroute_session_add_node(&it.session, (const uint8_t *)"127.0.0.1", 9, (uint16_t)(7000 + i), &node);
    slotroute_session_advance(&it.session, 1);
    while (slotroute_session_wanted_node(&it.session, &node) == SLOTROUTE_DONE)
        slotroute_session_connected(&it.session, node, &link);
    while (slotroute_session_link_to_write(&it.session, &link) == SLOTROUTE_DONE) {
        slotroute_session_wrote(&it.session, link, slotroute_session_unwritten(&it.session, link, NULL, 0));
        slotroute_session_read(&it.session, link, it.map.bytes, it.map.len);
    }
    return it;
}

static void free_shell(shell *it) {
    slotroute_session_close(it->session);
    free(it->map.bytes);
    free(it->replies.bytes);
    free(it->written.bytes);
    free(it->big.bytes);
}

/* Takes all replies that are there, and returns how many there were. */
static size_t take_replies(shell *it) {
    slotroute_due_reply due;
    size_t count = 0;
    for (; slotroute_session_next_reply(&it->session, &due) == SLOTROUTE_DONE; count++)
        sink += slotroute_session_reply(&it->session, it->big.bytes, 1 << 25);
    return count;
}

/* Each of some callers asks one GET, all are answered, and all replies are taken. */
static void ask_gets(shell *it, size_t callers) {
    uint64_t call;
    char request[64];
    int len = 0;
    for (size_t i = 0; i < callers; i++) {
        len = sprintf(request, "*2\r\n$3\r\nGET\r\n$8\r\nkey:%04zu\r\n", i % CALLS);
        slotroute_session_begin(&it->session, i, (const uint8_t *)request, (size_t)len, 1000, &call);
    }
    answer_links(it, (size_t)len);
    if (take_replies(it) == callers) return;
    fputs("a session gives too few replies\n", stderr);
    exit(1);
}

static const char *one_get = "*2\r\n$3\r\nGET\r\n$3\r\nkey\r\n";

/* One caller begins so many GETs of one key. */
static void begin_gets(shell *it, size_t count) {
    uint64_t call;
    for (size_t i = 0; i < count; i++)
        slotroute_session_begin(&it->session, 1, (const uint8_t *)one_get, strlen(one_get), 1 << 30, &call);
}

/* One caller asks GETs of one key. The node refuses the first half, while the others wait, and then it
 * answers all. `at` is the shell's time, and a refusal has so many bytes. */
static void refuse_half(shell *it, size_t calls, const text *refusals, size_t refusal_len, uint64_t *at) {
    size_t link;
    begin_gets(it, calls / 2);
    slotroute_session_link_to_write(&it->session, &link);
    slotroute_session_wrote(&it->session, link, calls / 2 * strlen(one_get));
    slotroute_session_read(&it->session, link, refusals->bytes, refusal_len);
    begin_gets(it, calls / 2);
    slotroute_session_read(&it->session, link, refusals->bytes, (calls / 2 - 1) * refusal_len);
    slotroute_session_advance(&it->session, *at += PAUSE);
    answer_links(it, strlen(one_get));
    if (take_replies(it) == calls) return;
    fputs("a session gives too few replies to refused requests\n", stderr);
    exit(1);
}

static void time_refusals(void) {
    const char *refusal = "-TRYAGAIN later\r\n";
    text refusals = some_room(MOST_CALLS * 17);
    shell it = shell_of(1);
    uint64_t at = 1;
    double own;
    for (size_t i = 0; i < MOST_CALLS / 2; i++) add(&refusals, refusal, i);
    for (size_t calls = 1000; calls <= MOST_CALLS; calls *= 10) {
        LEAST(own, 1, refuse_half(&it, calls, &refusals, strlen(refusal), &at));
        printf("| a GET of a session, half refused once | %zu of a caller | %.0f | | |\n", calls, own / (double)calls);
    }
    free_shell(&it);
    free(refusals.bytes);
}

/* A reply of so many bytes comes in pieces of 64 KB. */
static void read_in_pieces(shell *it, size_t bytes, const text *reply) {
    uint64_t call;
    size_t link;
    slotroute_session_begin(&it->session, 1, (const uint8_t *)one_get, strlen(one_get), 1000, &call);
    slotroute_session_link_to_write(&it->session, &link);
    slotroute_session_wrote(&it->session, link, strlen(one_get));
    for (size_t at = 0; at < reply->len; at += 65536)
        slotroute_session_read(&it->session, link, reply->bytes + at, reply->len - at < 65536 ? reply->len - at : 65536);
    if (take_replies(it) == 1 && reply->len > bytes) return;
    fputs("a session does not give a long reply\n", stderr);
    exit(1);
}

static void time_sessions(void) {
    double own;
    for (size_t nodes = 1; nodes <= LINKS; nodes *= LINKS) {
        shell it = shell_of(nodes);
        for (size_t callers = 1; callers <= CALLS; callers *= 100) {
            LEAST(own, 4000 / callers + 1, ask_gets(&it, callers));
            printf("| a GET of a session, %zu links | %zu callers | %.0f | | |\n", nodes, callers, own / (double)callers);
        }
        free_shell(&it);
    }
    shell it = shell_of(1);
    for (size_t bytes = 1 << 20; bytes <= 1 << 24; bytes *= 16) {
        text reply = some_room(bytes + 64);
        add(&reply, "$%zu\r\n", bytes);
        reply.len += bytes + 2;
        memcpy(reply.bytes + reply.len - 2, "\r\n", 2);
        LEAST(own, 3, read_in_pieces(&it, bytes, &reply));
        row("a reply of a session, in pieces of 64 KB", bytes, own, 0, 0);
        free(reply.bytes);
    }
    free_shell(&it);
}

int main(void) {
    puts("| call | size | nanoseconds | careful Rust (ratio) | hiredis |\n|---|---|---|---|---|");
    time_reading();
    time_splitting();
    time_combining();
    time_the_rest();
    time_sessions();
    time_refusals();
    return 0;
}
