/* Four callers of one session over two nodes in memory, while memory runs out.

   session_memory       with ample memory. With tests/requests.c linked in, then with each request for memory
                        refused in turn, and with the next three and the next forty refused, too

   Nodes refuse a login without its word, answer MOVED, ASK and TRYAGAIN, and one link ends in the middle of a
   request. One call is given up. The shell takes no memory, and lets time pass only to the session's next
   time. Each call has to end with its own reply, or with an error that says what became of it. No call may
   wait for its deadline, and no block may stay allocated. */
#define _GNU_SOURCE
#include "slotroute.h"

#include <stdio.h>
#include <stdlib.h>
#include <string.h>

enum { NODES = 2, CALLERS = 4, FORMS = 8, WORDS = 8, GIVEN_UP = 3, ROOM = 4096, ROUNDS = 2000, NONE = 99 };

/* Of tests/requests.c, if that is linked in. */
__attribute__((weak)) void refuse_requests(unsigned long from, unsigned long count);
__attribute__((weak)) unsigned long count_requests(void);
__attribute__((weak)) long count_blocks(void);

typedef struct text {
    const uint8_t *bytes;
    size_t len;
} text;

/* A node, and the link to it. */
typedef struct node {
    size_t link; /* NONE: there is no connection */
    int is_asking, is_known;
    int is_behind; /* whether replies came for which there was no memory */
} node;

typedef struct caller {
    uint64_t calls[FORMS];
    size_t begun, ended; /* how many calls were begun, and how many are over */
    int has_given_up;    /* whether the call of number GIVEN_UP was given up */
} caller;

static slotroute_session session;
static node nodes[NODES];
static caller callers[CALLERS];
static uint64_t now;
static unsigned right, failed, refused_once;

/* Ends the program, since something is wrong. */
static void fail(const char *why, uint64_t number) {
    fprintf(stderr, "session_memory: %s (%llu)\n", why, (unsigned long long)number);
    exit(1);
}

/* ---- requests */

/* The words of the request of a caller with this number, and how many there are. Each key names both. */
static int words_of(size_t caller, size_t form, char words[WORDS][32]) {
    static const char *const forms[FORMS] = {"GET bar", "SET foo 1",     "MGET a bar", "GET b",
                                             "SET a 2", "MSET b 1 foo 2", "DBSIZE",     "GET t"};
    int count = 0;
    char line[64], *rest = NULL;
    strcpy(line, forms[form]);
    for (char *word = strtok_r(line, " ", &rest); word; word = strtok_r(NULL, " ", &rest)) {
        int is_key = count > 0 && (word[0] > '9');
        snprintf(words[count++], 32, is_key ? "{%s}%zu.%zu" : "%s", word, caller, form);
    }
    return count;
}

static size_t request_of(size_t caller, size_t form, char *out) {
    char words[WORDS][32];
    int count = words_of(caller, form, words);
    size_t len = (size_t)sprintf(out, "*%d\r\n", count);
    for (int i = 0; i < count; i++) len += (size_t)sprintf(out + len, "$%zu\r\n%s\r\n", strlen(words[i]), words[i]);
    return len;
}

static size_t bulk(char *out, const uint8_t *bytes, size_t len) {
    return (size_t)sprintf(out, "$%zu\r\n%.*s\r\n", len, (int)len, (const char *)bytes);
}

/* The reply that a caller has to get: the value of a key is its name. */
static void wanted_reply(size_t caller, size_t form, char *out) {
    char words[WORDS][32];
    int count = words_of(caller, form, words);
    if (strcmp(words[0], "DBSIZE") == 0) strcpy(out, ":4\r\n");
    else if (strstr(words[0], "SET")) strcpy(out, "+OK\r\n");
    else {
        size_t len = words[0][0] == 'M' ? (size_t)sprintf(out, "*%d\r\n", count - 1) : 0;
        for (int i = 1; i < count; i++) len += bulk(out + len, (uint8_t *)words[i], strlen(words[i]));
    }
}

/* ---- nodes */

/* The words of a whole request. */
static int words_in(const uint8_t *bytes, text words[WORDS]) {
    char *at = (char *)bytes + 1;
    int count = (int)strtoul(at, &at, 10);
    if (count > WORDS) fail("a node gets too many words", (uint64_t)count);
    for (int i = 0; i < count; i++) {
        words[i].len = strtoul(at + 3, &at, 10);
        words[i].bytes = (uint8_t *)at + 2;
        at += 2 + words[i].len;
    }
    return count;
}

static int is_word(text word, const char *name) {
    return word.len == strlen(name) && memcmp(word.bytes, name, word.len) == 0;
}

/* The redirect or refusal of a node for a key, or nothing if it serves the key. */
static const char *refusal_of(size_t number, text key) {
    char tag = (char)key.bytes[1];
    int is_asking = nodes[number].is_asking;
    if (tag == 't' && number == 0 && refused_once++ % 2 == 0) return "-TRYAGAIN the slot is being moved\r\n";
    if (number == 1 && key.bytes[2] == 'a') return "-MOVED 5061 n1:7000\r\n";
    if (number == 1 && tag == 'f') return "-MOVED 12182 n1:7000\r\n";
    if (number == 1 && tag == 't') return "-MOVED 15891 n1:7000\r\n";
    if (number == 1 && tag == 'b' && !is_asking) return "-MOVED 3300 n1:7000\r\n";
    if (number == 0 && tag == 'a') return "-MOVED 15495 n2:7001\r\n";
    if (number == 0 && tag == 'b' && key.bytes[2] == '}') return "-ASK 3300 n2:7001\r\n";
    return NULL;
}

/* The reply of a node to a command on keys. */
static size_t reply_to_keys(size_t number, const text *words, int count, char *out) {
    int step = is_word(words[0], "MSET") || is_word(words[0], "SET") ? 2 : 1;
    size_t len = is_word(words[0], "MGET") ? (size_t)sprintf(out, "*%d\r\n", count - 1) : 0;
    for (int i = 1; i < count; i += step) {
        const char *refusal = refusal_of(number, words[i]);
        if (refusal) return (size_t)sprintf(out, "%s", refusal);
        if (step == 1) len += bulk(out + len, words[i].bytes, words[i].len);
    }
    return step == 1 ? len : (size_t)sprintf(out, "+OK\r\n");
}

static size_t reply_of(size_t number, const uint8_t *request, char *out) {
    static const char map[] = "*2\r\n*3\r\n:0\r\n:8191\r\n*2\r\n$2\r\nn1\r\n:7000\r\n"
                              "*3\r\n:8192\r\n:16383\r\n*2\r\n$2\r\nn2\r\n:7001\r\n";
    text words[WORDS];
    node *of = &nodes[number];
    int count = words_in(request, words), was_asking = is_word(words[0], "ASKING");
    const char *reply = "-NOAUTH\r\n";
    if (is_word(words[0], "AUTH")) of->is_known = 1, reply = "+OK\r\n";
    else if (!of->is_known) fail("a link begins without its login", number);
    else if (was_asking) reply = "+OK\r\n";
    else if (is_word(words[0], "CLUSTER")) reply = map;
    else if (is_word(words[0], "DBSIZE")) reply = ":2\r\n";
    else {
        size_t len = reply_to_keys(number, words, count, out);
        of->is_asking = 0;
        return len;
    }
    of->is_asking = was_asking;
    return (size_t)sprintf(out, "%s", reply);
}

/* ---- the shell */

static void read_link(node *of, const char *bytes, size_t len) {
    of->is_behind = slotroute_session_read(&session, of->link, (const uint8_t *)bytes, len) != SLOTROUTE_DONE;
}

static void end_link(node *of) {
    size_t link = of->link;
    *of = (node){.link = NONE};
    slotroute_session_ended(&session, link);
}

static void close_links(void) {
    size_t link;
    while (slotroute_session_link_to_close(&session, &link) == SLOTROUTE_DONE)
        for (size_t i = 0; i < NODES; i++)
            if (nodes[i].link == link) end_link(&nodes[i]);
}

static void connect_wanted(void) {
    size_t number;
    while (slotroute_session_wanted_node(&session, &number) == SLOTROUTE_DONE) {
        if (number >= NODES || nodes[number].link != NONE) fail("a node is wanted that has a link", number);
        nodes[number] = (node){.link = NONE};
        if (slotroute_session_connected(&session, number, &nodes[number].link) != SLOTROUTE_DONE)
            nodes[number].link = NONE;
    }
}

/* Writes what is to be written on a link, and reads the replies. Gives how many there are. */
static int exchange(size_t number) {
    uint8_t bytes[ROOM];
    char out[ROOM];
    node *of = &nodes[number];
    slotroute_told told = {0};
    int count = 0;
    size_t len = slotroute_session_unwritten(&session, of->link, bytes, sizeof bytes - 1);
    if (len >= sizeof bytes) fail("too much is to be written", len);
    bytes[len] = 0;
    slotroute_session_wrote(&session, of->link, len);
    for (size_t at = 0; at < len; at += told.bytes, count++) {
        if (slotroute_request_len(bytes + at, len - at, &told) != SLOTROUTE_DONE) fail("no request is written", at);
        read_link(of, out, reply_of(number, bytes + at, out));
    }
    if (count == 0 && of->is_behind) read_link(of, NULL, 0), count = 1;
    return count;
}

/* Ends a link once, of which a request is written in part. */
static void cut_link(void) {
    uint8_t bytes[ROOM];
    node *of = &nodes[1];
    if (of->link == NONE || slotroute_session_unwritten(&session, of->link, bytes, sizeof bytes) < 60) return;
    slotroute_session_wrote(&session, of->link, 50);
    end_link(of);
    refused_once |= 1u << 31;
}

/* Begins calls, each caller up to two at a time. Gives how many. */
static int begin_calls(void) {
    char request[ROOM];
    int count = 0;
    for (size_t i = 0; i < CALLERS; i++) {
        caller *of = &callers[i];
        if (of->begun == FORMS || of->begun - of->ended == 2) continue;
        size_t len = request_of(i, of->begun, request);
        uint32_t answer = slotroute_session_begin(&session, i, (uint8_t *)request, len, now + 100000, &of->calls[of->begun]);
        if (answer != SLOTROUTE_DONE && answer != SLOTROUTE_NO_MEMORY) fail("a request is refused", answer);
        of->begun += answer == SLOTROUTE_DONE;
        count++;
    }
    return count;
}

/* Gives a call of the last caller up, once it has begun. */
static void give_up(void) {
    caller *of = &callers[CALLERS - 1];
    if (of->has_given_up || of->begun <= GIVEN_UP) return;
    if (slotroute_session_give_up(&session, of->calls[GIVEN_UP]) != SLOTROUTE_DONE) fail("a call cannot be given up", 0);
    of->has_given_up = 1;
    of->ended += of->ended == GIVEN_UP;
}

static void take_reply(const slotroute_due_reply *due) {
    char bytes[ROOM] = "", wanted[ROOM] = "";
    caller *of = &callers[due->caller];
    if (due->caller >= CALLERS || due->bytes >= ROOM) fail("a reply is for nobody", due->caller);
    if (of->ended == of->begun || of->calls[of->ended] != due->call) fail("a reply is for another call", due->call);
    slotroute_session_reply(&session, (uint8_t *)bytes, sizeof bytes - 1);
    wanted_reply(due->caller, of->ended, wanted);
    of->ended++;
    of->ended += of->has_given_up && of->ended == GIVEN_UP;
    if (strcmp(bytes, wanted) == 0) right++;
    else if (bytes[0] == '-' && strstr(bytes, "effect") && !strstr(bytes, "time is over")) failed++;
    else fail(bytes, due->call);
}

/* Does all that is due. Gives whether something happened besides the passing of time. */
static int turn(void) {
    slotroute_due_reply due;
    int count = begin_calls();
    give_up();
    close_links();
    connect_wanted();
    if (!(refused_once >> 31)) cut_link();
    for (size_t i = 0; i < NODES; i++)
        if (nodes[i].link != NONE) count += exchange(i);
    for (; slotroute_session_next_reply(&session, &due) == SLOTROUTE_DONE; count++) take_reply(&due);
    return count;
}

static int is_over(void) {
    for (size_t i = 0; i < CALLERS; i++)
        if (callers[i].ended < FORMS) return 0;
    return 1;
}

/* Opens the session and adds its nodes, each anew as often as memory runs out. */
static void open_session(void) {
    static const slotroute_session_settings settings = {1000000, 1000, 1000000, 5000, 10, 16};
    static const char login[] = "*2\r\n$4\r\nAUTH\r\n$1\r\np\r\n";
    static const char *const hosts[NODES] = {"n1", "n2"};
    size_t number;
    while (slotroute_session_open(&settings, (const uint8_t *)login, strlen(login), &session) != SLOTROUTE_DONE) continue;
    for (uint16_t i = 0; i < NODES; i++)
        while (slotroute_session_add_node(&session, (const uint8_t *)hosts[i], 2, (uint16_t)(7000 + i), &number)
               != SLOTROUTE_DONE)
            continue;
}

/* One run: all calls of all callers. */
static void run(void) {
    uint64_t time;
    memset(callers, 0, sizeof callers);
    for (size_t i = 0; i < NODES; i++) nodes[i] = (node){.link = NONE};
    now = right = failed = refused_once = 0;
    open_session();
    for (int round = 0; !is_over(); round++) {
        if (round == ROUNDS) fail("calls do not end", right + failed);
        if (turn()) continue;
        if (slotroute_session_next_time(&session, &time) != SLOTROUTE_DONE) fail("nothing is awaited", right + failed);
        now = time > now ? time : now;
        slotroute_session_advance(&session, now);
    }
    slotroute_session_close(session);
}

/* Runs with these requests for memory refused. Gives how many are made. */
static unsigned long run_refusing(unsigned long from, unsigned long count) {
    refuse_requests(from, count);
    run();
    unsigned long made = count_requests();
    long left = count_blocks();
    refuse_requests(0, 0);
    if (left != 0) fail("blocks stay allocated", (uint64_t)left);
    return made;
}

/* ---- two calls */

static void write_all(size_t link) {
    slotroute_session_wrote(&session, link, slotroute_session_unwritten(&session, link, NULL, 0));
}

static uint32_t read_text(size_t link, const char *text) {
    return slotroute_session_read(&session, link, (const uint8_t *)text, strlen(text));
}

static size_t connect_next(void) {
    size_t number, link;
    if (slotroute_session_wanted_node(&session, &number) != SLOTROUTE_DONE) fail("no node is wanted", 0);
    if (slotroute_session_connected(&session, number, &link) != SLOTROUTE_DONE) fail("no link is there", number);
    return link;
}

/* Opens a session with a link to its one node. Gives the link. */
static size_t open_link(void) {
    static const slotroute_session_settings settings = {1000000, 1000, 1000000, 0, 10, 16};
    size_t number;
    if (slotroute_session_open(&settings, NULL, 0, &session) != SLOTROUTE_DONE) fail("no session", 0);
    slotroute_session_add_node(&session, (const uint8_t *)"n1", 2, 1, &number);
    size_t link = connect_next();
    write_all(link);
    read_text(link, "*1\r\n*3\r\n:0\r\n:16383\r\n*2\r\n$2\r\nn1\r\n:1\r\n");
    return link;
}

static void begin_text(uint64_t caller, const char *request) {
    uint64_t call;
    if (slotroute_session_begin(&session, caller, (const uint8_t *)request, strlen(request), 1000, &call) != SLOTROUTE_DONE)
        fail("a request is refused", caller);
}

/* The reply to caller 1 finds no memory once. The one to caller 2, which needs none, comes first then. */
static void run_behind(void) {
    slotroute_due_reply due = {0};
    size_t link = open_link();
    begin_text(1, "*3\r\n$4\r\nMGET\r\n$1\r\na\r\n$1\r\nb\r\n");
    begin_text(2, "*2\r\n$3\r\nGET\r\n$1\r\nb\r\n");
    write_all(link);
    read_text(link, "*1\r\n$1\r\nx\r\n*1\r\n$1\r\ny\r\n$1\r\ny\r\n");
    refuse_requests(1, 1);
    if (slotroute_session_next_reply(&session, &due) != SLOTROUTE_DONE || due.caller != 2) fail("a reply holds up others", due.caller);
    refuse_requests(0, 0);
    if (slotroute_session_next_reply(&session, &due) != SLOTROUTE_DONE || due.caller != 1) fail("a reply is lost", due.caller);
    slotroute_session_close(session);
}

/* Two calls of one caller on a slot are sent on to one node by ASK. This request for memory is refused while the
   second ASK is read. Gives how many are made there. */
static unsigned long run_pair(unsigned long from) {
    static const char ask[] = "-ASK 15495 n3:1\r\n";
    slotroute_due_reply due;
    uint64_t time;
    size_t number, first = open_link();
    for (int i = 0; i < 2; i++) begin_text(7, "*3\r\n$3\r\nSET\r\n$1\r\na\r\n$1\r\n1\r\n");
    write_all(first);
    read_text(first, ask);
    size_t second = connect_next();
    refuse_requests(from, 1);
    uint32_t answer = read_text(first, ask);
    unsigned long made = count_requests();
    refuse_requests(0, 0);
    if (slotroute_session_link_to_close(&session, &number) == SLOTROUTE_DONE) slotroute_session_ended(&session, number);
    else if (answer != SLOTROUTE_DONE) read_text(first, "");
    for (int replies = 0; replies < 2;) {
        size_t len = slotroute_session_unwritten(&session, second, NULL, 0);
        write_all(second);
        if (len > 0) read_text(second, len > 60 ? "+OK\r\n+OK\r\n+OK\r\n+OK\r\n" : "+OK\r\n+OK\r\n");
        write_all(first);
        for (; slotroute_session_next_reply(&session, &due) == SLOTROUTE_DONE; replies++) continue;
        if (len > 0 || replies == 2) continue;
        if (slotroute_session_next_time(&session, &time) != SLOTROUTE_DONE || time >= 1000) fail("two calls wait for ever", from);
        slotroute_session_advance(&session, time);
    }
    slotroute_session_close(session);
    return made;
}

int main(void) {
    static const unsigned long counts[] = {1, 4, 41};
    unsigned long runs = 0;
    setvbuf(stderr, NULL, _IONBF, 0);
    run();
    unsigned ample = right, lost = failed;
    if (right + failed != CALLERS * FORMS - 1 || failed > 6) fail("with ample memory calls fail", failed);
    for (size_t i = 0; refuse_requests && i < sizeof counts / sizeof *counts; i++)
        for (unsigned long from = 1; run_refusing(from, counts[i]) >= from; from++) runs++;
    for (unsigned long from = 1; refuse_requests && run_pair(from) >= from; from++) runs++;
    if (refuse_requests) run_behind();
    printf("%u replies and %u errors with ample memory; %lu runs with memory refused\n", ample, lost, runs);
    return 0;
}
