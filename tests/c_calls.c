/* Calls the library for C as careless and hostile callers may.

   c_calls pages     random calls, each buffer ending where memory that may not be touched begins; and
                     messages that are scanned byte by byte, from such buffers
   c_calls small     buffers that are too small: nothing is written, and told says what is needed
   c_calls exact     what stands behind what is written stays, and so do the fields that a code does
                     not name; what a server refuses is refused, and the code is that of the first fault
   c_calls threads   random calls by four threads at once, with the results of one thread
   c_calls null      a null pointer stands for no bytes and for no room
   c_calls stack     a split takes at most 8 KB of stack, any call at most 16 KB
   c_calls sessions  each call of a session, and each code that it gives; of two sessions, each keeps its own
                     state
   c_calls refusals  each code and reply of a request that a session refuses, its limits, and its login
   c_calls moved     four threads with a session each, and a session that goes from thread to thread
   c_calls hostile   random calls of random sessions, with buffers that end as those of pages; twice the same
   c_calls once N    the call of number N: its answer, and a sum of all that it writes. The number 0
                     stands for a call that gets no memory and writes nothing. The number 10 stands for the calls of
                     a session, each made anew when memory runs out. tests/refusals reads the names
                     at a case: the library's calls that this one makes, and that take memory.
                     resp::request_len, resp::reply_len and resp::scan take none */
#define _GNU_SOURCE
#include "slotroute.h"

#include <pthread.h>
#include <stdio.h>
#include <stdlib.h>
#include <string.h>
#include <sys/mman.h>

#define PAGE 4096u
#define ROOM (8 * PAGE)
#define REGIONS 5

static const char *const messages[] = {
    "*4\r\n$3\r\nDEL\r\n$3\r\nfoo\r\n$3\r\nbar\r\n$8\r\n{bar}vaz\r\n",
    "*7\r\n$4\r\nMSET\r\n$3\r\nfoo\r\n$1\r\n1\r\n$3\r\nbar\r\n$1\r\n2\r\n$3\r\nbaz\r\n$1\r\n3\r\n",
    "*4\r\n$4\r\nMGET\r\n$3\r\nfoo\r\n$3\r\nbar\r\n$3\r\nfoo\r\n",
    "*2\r\n$3\r\nGET\r\n$3\r\nfoo\r\n",
    "*1\r\n$6\r\nDBSIZE\r\n",
    ":1\r\n:2\r\n",
    "+OK\r\n+OK\r\n+OK\r\n",
    "*2\r\n$1\r\nx\r\n:7\r\n*1\r\n$-1\r\n",
    "-MOVED 3999 127.0.0.1:6381\r\n",
    "*2\r\n*3\r\n:0\r\n:8191\r\n*2\r\n$2\r\nn1\r\n:7000\r\n"
    "*4\r\n:8192\r\n:16383\r\n*2\r\n$0\r\n\r\n:7001\r\n*2\r\n$2\r\nn3\r\n:7002\r\n",
    "MOVED 3999 127.0.0.1:6381",
    "ASK 3999 :6381",
    "*2\r\n$3\r\nGET\r\n$1\r\na\r\n*3\r\n$4\r\nMGET\r\n$1\r\nb\r\n$1\r\na\r\n*2\r\n$3\r\nGET\r\n$1\r\nb\r\n",
    "$1\r\n1\r\n*1\r\n:1\r\n-ERR no\r\n$-1\r\n",
    "*2\r\n$1\r\na\r\n:1\r\n*4\r\n$1\r\nb\r\n:2\r\n$1\r\na\r\n:3\r\n",
    "%2\r\n+first\r\n|1\r\n+ttl\r\n:9\r\n#t\r\n$1\r\n\r\r\n~2\r\n,1.5\r\n(12345678901234567890\r\n",
    ">3\r\n=8\r\ntxt:some\r\n!5\r\nERR a\r\n*3\r\n_\r\n*-1\r\n$-1\r\n",
    "*3\r\n$9\r\ncountkeys\r\n$1\r\na\r\n$1\r\nb\r\n",
};
#define MESSAGES (sizeof messages / sizeof *messages)

/* Names of a module's commands. */
#define NAMES "multi keys sum COUNTKEYS\nmulti pairs ok OBJECT PUT\n"

/* Memory in regions, behind each of which a page may not be touched. */
typedef struct pool {
    uint8_t *end[REGIONS];
} pool;

static void make_pool(pool *of) {
    for (int i = 0; i < REGIONS; i++) {
        uint8_t *start = mmap(NULL, ROOM + PAGE, PROT_READ | PROT_WRITE,
                              MAP_PRIVATE | MAP_ANONYMOUS, -1, 0);
        if (start == MAP_FAILED || mprotect(start + ROOM, PAGE, PROT_NONE) != 0) exit(3);
        of->end[i] = start + ROOM;
    }
}

static uint32_t next(uint64_t *seed) {
    *seed = *seed * 6364136223846793005u + 1442695040888963407u;
    return (uint32_t)(*seed >> 33);
}

/* A message with some changes, at the end of a region. */
static uint8_t *some_message(pool *of, int region, uint64_t *seed, size_t *len) {
    const char *text = messages[next(seed) % MESSAGES];
    size_t whole = strlen(text), kept = next(seed) % 2 ? whole : next(seed) % (whole + 1);
    uint8_t *bytes = of->end[region] - kept;
    memcpy(bytes, text, kept);
    for (uint32_t changes = next(seed) % 3; kept > 0 && changes > 0; changes--)
        bytes[next(seed) % kept] = (uint8_t)("0123456789*$:+-\r\nx%>|~"[next(seed) % 22]);
    *len = kept;
    return bytes;
}

static size_t most(uint64_t *seed, size_t bytes) {
    return next(seed) % 2 ? bytes : next(seed) % (bytes + 1);
}

static uint64_t mixed(uint64_t sum, const void *bytes, size_t len) {
    for (size_t i = 0; i < len; i++) sum = (sum ^ ((const uint8_t *)bytes)[i]) * 1099511628211u;
    return sum;
}

/* Makes random calls, and gives a sum of all that they answer and write. */
static uint64_t some_calls(pool *of, uint64_t seed, int times) {
    uint64_t sum = 14695981039346656037u;
    for (int i = 0; i < times; i++) {
        size_t len, other_len, slots_len, ends_len, out_len = most(&seed, 512);
        uint8_t *bytes = some_message(of, 0, &seed, &len);
        uint8_t *others = some_message(of, 1, &seed, &other_len);
        uint8_t *out = of->end[2] - out_len;
        const uint8_t *names = next(&seed) % 4 ? NULL : (const uint8_t *)NAMES;
        size_t names_len = names ? most(&seed, strlen(NAMES)) : 0;
        slotroute_told told = {0};
        slotroute_routed routed = {0};
        slotroute_redirected redirected = {0};
        uint32_t answer = 0;
        memset(out, 0xA5, out_len);
        switch (next(&seed) % 11) {
        case 0: answer = slotroute_slot(bytes, len); break;
        case 1: answer = slotroute_request_len(bytes, len, &told); break;
        case 2: answer = slotroute_reply_len(bytes, len, &told); break;
        case 3: answer = slotroute_route(bytes, len, names, names_len, next(&seed) % 2, &routed, &told); break;
        case 4: {
            slots_len = most(&seed, 4);
            ends_len = most(&seed, 4);
            uint16_t *slots = (uint16_t *)(void *)of->end[3] - slots_len;
            size_t *ends = (size_t *)(void *)of->end[4] - ends_len;
            memset(slots, 0xA5, 2 * slots_len);
            memset(ends, 0xA5, sizeof *ends * ends_len);
            answer = slotroute_split(bytes, len, names, names_len, slots, slots_len, ends, ends_len, out,
                                     out_len, &told);
            sum = mixed(mixed(sum, slots, 2 * slots_len), ends, sizeof *ends * ends_len);
            break;
        }
        case 5:
            answer = slotroute_combine(bytes, len, names, names_len, others, other_len, out, out_len, &told);
            break;
        case 6: {
            slots_len = next(&seed) % 2 ? SLOTROUTE_SLOTS : most(&seed, 8);
            uint16_t *numbers = (uint16_t *)(void *)of->end[3] - slots_len;
            answer = slotroute_table(bytes, len, others, other_len, next(&seed) % 3, next(&seed) % 3,
                                     numbers, slots_len, out, out_len, &told);
            if (answer == SLOTROUTE_DONE) sum = mixed(sum, numbers, 2 * slots_len);
            break;
        }
        case 7: answer = slotroute_redirect(bytes, len, others, other_len, out, out_len, &redirected); break;
        case 8: answer = (uint32_t)slotroute_message(next(&seed) % 21, out, out_len); break;
        case 9: {
            uint32_t policy = next(&seed) % 12;
            answer = slotroute_combine_answers(policy, next(&seed) % 4, bytes, len, out, out_len, &told);
            break;
        }
        case 10: {
            slotroute_progress progress = {0};
            progress.bytes = next(&seed) % 2 ? next(&seed) % 64 : (size_t)0 - next(&seed) % 64;
            progress.searched = next(&seed) % 2 ? next(&seed) % 16 : (size_t)0 - next(&seed) % 16;
            progress.after = next(&seed) % 2 ? next(&seed) % 4 : (uint64_t)0 - next(&seed) % 4;
            answer = slotroute_scan(bytes, len, &progress);
            sum = mixed(sum, &progress, sizeof progress);
            break;
        }
        }
        sum = mixed(mixed(sum, &answer, sizeof answer), out, out_len);
        sum = mixed(mixed(sum, &told, sizeof told), &routed, sizeof routed);
        sum = mixed(sum, &redirected.host_len, sizeof redirected.host_len);
    }
    return sum;
}

#define TIMES 100000

/* Whether the first message, of this length, is incomplete as it arrives byte by byte, and then whole. */
static int is_scanned(pool *of, const char *text, size_t whole) {
    slotroute_told told = {0};
    slotroute_progress progress = {0};
    for (size_t len = 0; len <= whole; len++) {
        const uint8_t *bytes = memcpy(of->end[0] - len, text, len);
        uint32_t wanted = len < whole ? SLOTROUTE_REPLY_INCOMPLETE : SLOTROUTE_DONE;
        if (slotroute_scan(bytes, len, &progress) != wanted) return 0;
        if (slotroute_reply_len(bytes, len, &told) != wanted) return 0;
    }
    return told.bytes == whole && progress.bytes == whole && progress.searched == 0 && progress.after == 0;
}

static int pages(void) {
    pool of;
    make_pool(&of);
    if (!is_scanned(&of, messages[0], strlen(messages[0])) || !is_scanned(&of, messages[5], 4)
        || !is_scanned(&of, messages[9], strlen(messages[9])) || !is_scanned(&of, messages[15], strlen(messages[15]))
        || !is_scanned(&of, messages[16], strlen(messages[16])))
        return 1;
    some_calls(&of, 1, 10 * TIMES);
    return 0;
}

typedef struct work {
    uint64_t seed, sum;
} work;

static void *worked(void *of) {
    work *it = of;
    pool own;
    make_pool(&own);
    it->sum = some_calls(&own, it->seed, TIMES);
    return NULL;
}

static int threads(void) {
    work alone[4], beside[4];
    pthread_t ids[4];
    for (int i = 0; i < 4; i++) {
        alone[i].seed = beside[i].seed = 100 + (uint64_t)i;
        worked(&alone[i]);
    }
    for (int i = 0; i < 4; i++)
        if (pthread_create(&ids[i], NULL, worked, &beside[i]) != 0) return 3;
    for (int i = 0; i < 4; i++) pthread_join(ids[i], NULL);
    for (int i = 0; i < 4; i++)
        if (alone[i].sum != beside[i].sum) return 1;
    return 0;
}

#define BYTES(text) (const uint8_t *)(text), strlen(text)

static int is_untouched(const void *bytes, size_t len) {
    for (size_t i = 0; i < len; i++)
        if (((const uint8_t *)bytes)[i] != 0xA5) return 0;
    return 1;
}

/* Whether a split into these rooms is refused as too small, tells what it needs, and writes nothing. */
static int is_refused(size_t parts, size_t ends_len, size_t bytes) {
    uint16_t slots[2];
    size_t ends[2];
    uint8_t out[64];
    slotroute_told told = {0};
    memset(slots, 0xA5, sizeof slots);
    memset(ends, 0xA5, sizeof ends);
    memset(out, 0xA5, sizeof out);
    uint32_t answer = slotroute_split(BYTES(messages[0]), NULL, 0, slots, parts, ends, ends_len, out, bytes, &told);
    return answer == SLOTROUTE_TOO_SMALL && told.parts == 2 && told.bytes == 58
        && is_untouched(slots, sizeof slots) && is_untouched(ends, sizeof ends)
        && is_untouched(out, sizeof out);
}

static int small(void) {
    static uint16_t numbers[SLOTROUTE_SLOTS];
    uint8_t out[64];
    slotroute_told told = {0};
    slotroute_redirected redirected = {0};
    memset(out, 0xA5, sizeof out);
    memset(numbers, 0xA5, sizeof numbers);
    if (!is_refused(1, 2, 58) || !is_refused(2, 1, 58) || !is_refused(2, 2, 57)) return 1;
    if (slotroute_combine(BYTES(messages[0]), NULL, 0, BYTES(":1\r\n:2\r\n"), out, 3, &told) != SLOTROUTE_TOO_SMALL
        || told.bytes != 4 || !is_untouched(out, sizeof out))
        return 2;
    if (slotroute_table(BYTES(messages[9]), BYTES("n2"), 0, 0, numbers, SLOTROUTE_SLOTS, out, 15, &told)
            != SLOTROUTE_TOO_SMALL
        || told.bytes != 16 || told.parts != SLOTROUTE_SLOTS || !is_untouched(out, sizeof out)
        || !is_untouched(numbers, sizeof numbers))
        return 3;
    if (slotroute_redirect(BYTES(messages[10]), BYTES("n1"), out, 8, &redirected) != SLOTROUTE_TOO_SMALL
        || redirected.host_len != 9 || !is_untouched(out, sizeof out))
        return 4;
    if (slotroute_combine_answers(SLOTROUTE_SUM, 2, BYTES(":3\r\n:4\r\n"), out, 3, &told) != SLOTROUTE_TOO_SMALL
        || told.bytes != 4 || !is_untouched(out, sizeof out))
        return 5;
    if (slotroute_message(SLOTROUTE_NO_MEMORY, out, 12) != 13 || !is_untouched(out, sizeof out)) return 6;
    return 0;
}

/* Fields that hold what no call writes. */
static slotroute_told told_before(void) {
    slotroute_told told;
    memset(&told, 0xA5, sizeof told);
    return told;
}

/* Whether told is as before, but for these fields. */
static int is_told(slotroute_told told, const size_t *parts, const size_t *bytes, const size_t *reply,
                   const size_t *at) {
    slotroute_told wanted = told_before();
    if (parts) wanted.parts = *parts;
    if (bytes) wanted.bytes = *bytes;
    if (reply) wanted.reply = *reply;
    if (at) wanted.at = *at;
    return memcmp(&told, &wanted, sizeof told) == 0;
}

/* Whether each cut of a request or of a reply is incomplete, and the whole has this length. */
static int is_framed(const char *text, size_t len) {
    const uint8_t *bytes = (const uint8_t *)text;
    int is_request = text[0] == '*';
    for (size_t cut = 0; cut <= len; cut++) {
        slotroute_told told = told_before();
        size_t none = 0;
        uint32_t answer = is_request ? slotroute_request_len(bytes, cut, &told)
                                     : slotroute_reply_len(bytes, cut, &told);
        uint32_t cut_answer = is_request ? SLOTROUTE_REQUEST_INCOMPLETE : SLOTROUTE_REPLY_INCOMPLETE;
        if (answer != (cut < len ? cut_answer : SLOTROUTE_DONE)) return 0;
        if (!is_told(told, NULL, cut < len ? NULL : &len, cut < len && !is_request ? &none : NULL, NULL))
            return 0;
    }
    return 1;
}

/* Whether the byte at this index is the first that stands in no request. */
static int is_no_request(const char *text, size_t at) {
    slotroute_told told = told_before();
    return slotroute_request_len(BYTES(text), &told) == SLOTROUTE_REQUEST_MALFORMED
        && is_told(told, NULL, NULL, NULL, &at);
}

static int is_reply_fault(const char *text, uint32_t wanted) {
    slotroute_told told = told_before();
    size_t first = 0;
    return slotroute_reply_len(BYTES(text), &told) == wanted && is_told(told, NULL, NULL, &first, NULL);
}

static int is_routed(const char *request, uint32_t slot, uint32_t addr) {
    slotroute_told told = told_before();
    slotroute_routed routed = {0};
    return slotroute_route(BYTES(request), NULL, 0, 1, &routed, &told) == SLOTROUTE_DONE
        && is_told(told, NULL, NULL, NULL, NULL) && routed.kind == SLOTROUTE_TO_SLOT && routed.slot == slot
        && routed.addr == addr;
}

/* Whether the reply of number 1 is told as missing, where one of so many is there. Room is made for what
   is there, so memory is enough. */
static int is_missing(size_t count) {
    slotroute_told told = told_before(), wanted = told_before();
    uint8_t out[16];
    wanted.reply = 1;
    return slotroute_combine_answers(SLOTROUTE_SUM, count, BYTES(":1\r\n"), out, sizeof out, &told)
               == SLOTROUTE_REPLY_INCOMPLETE
        && memcmp(&told, &wanted, sizeof told) == 0;
}

/* Whether these replies of two nodes make no one reply, and nothing is told. */
static int is_unfit(uint32_t policy, const char *replies) {
    slotroute_told told = told_before();
    uint8_t out[16];
    return slotroute_combine_answers(policy, 2, BYTES(replies), out, sizeof out, &told) == SLOTROUTE_NO_FORM
        && is_told(told, NULL, NULL, NULL, NULL);
}

static int exact(void) {
    uint16_t slots[4];
    size_t ends[4], parts = 2, bytes = 58, whole = 4;
    uint8_t out[64];
    slotroute_told told = told_before();
    if (slotroute_version() != 204 || strcmp(SLOTROUTE_VERSION, "0.2.4") != 0) return 9;
    memset(slots, 0xA5, sizeof slots);
    memset(ends, 0xA5, sizeof ends);
    memset(out, 0xA5, sizeof out);
    if (slotroute_split(BYTES(messages[0]), NULL, 0, slots, 4, ends, 4, out, sizeof out, &told) != SLOTROUTE_DONE
        || !is_told(told, &parts, &bytes, NULL, NULL) || !is_untouched(slots + 2, 2 * sizeof *slots)
        || !is_untouched(ends + 2, 2 * sizeof *ends) || !is_untouched(out + 58, sizeof out - 58))
        return 1;
    told = told_before();
    memset(out, 0xA5, sizeof out);
    if (slotroute_combine(BYTES(messages[0]), NULL, 0, BYTES(":1\r\n:2\r\n"), out, sizeof out, &told) != SLOTROUTE_DONE
        || !is_told(told, NULL, &whole, NULL, NULL) || !is_untouched(out + 4, sizeof out - 4))
        return 2;
    if (!is_framed(messages[0], strlen(messages[0])) || !is_framed("$3\r\nabc\r\n", 9)) return 3;
    if (!is_no_request("*00\r\n", 2) || !is_no_request("*01\r\n$4\r\nPING\r\n", 2)
        || !is_no_request("*1\r\n$04\r\nPING\r\n", 6))
        return 4;
    if (!is_reply_fault("*1\r\nx", SLOTROUTE_REPLY_MALFORMED) || !is_reply_fault("+a\n", SLOTROUTE_REPLY_MALFORMED)
        || !is_reply_fault("|1\r\n+a\r\n:1\r\n", SLOTROUTE_REPLY_INCOMPLETE))
        return 5;
    if (!is_routed("*2\r\n$3\r\nGET\r\n$3\r\nfoo\r\n", 12182, SLOTROUTE_REPLICA_OPTIONAL)
        || !is_routed("*3\r\n$7\r\nCLUSTER\r\n$8\r\nADDSLOTS\r\n$1\r\n5\r\n", 5, SLOTROUTE_PRIMARY))
        return 6;
    if (!is_missing(2) || !is_missing((size_t)1 << 29) || !is_missing(SIZE_MAX)) return 7;
    if (!is_unfit(SLOTROUTE_SUM, ":1\r\n$-1\r\n") || !is_unfit(SLOTROUTE_SPECIAL, ":1\r\n:2\r\n")) return 8;
    return 0;
}

/* A SCAN over three nodes, the second of which has 17 as a cursor between. */
static int cursors(void) {
    static const uint64_t replied[] = {0, 17, 0, 0};
    uint64_t cursor = 0, asked[4] = {9, 9, 9, 9};
    slotroute_position at;
    for (size_t i = 0; i < 4; i++) {
        if (slotroute_cursor_position(cursor, 3, &at) != SLOTROUTE_DONE) return 1;
        asked[i] = at.node << 8 | at.cursor;
        if (slotroute_next_cursor(3, at.node, replied[i], &cursor) != SLOTROUTE_DONE) return 2;
    }
    if (asked[0] != 0 || asked[1] != 0x100 || asked[2] != 0x111 || asked[3] != 0x200 || cursor != 0) return 3;
    if (slotroute_cursor_position(3ull << 48, 3, &at) != SLOTROUTE_NOT_THERE || at.node != 2) return 4;
    cursor = 5;
    if (slotroute_next_cursor(3, 0, 1ull << 48, &cursor) != SLOTROUTE_NOT_THERE || cursor != 5) return 5;
    return slotroute_next_cursor(3, 3, 0, &cursor) != SLOTROUTE_NOT_THERE;
}

/* Each argument that may be empty is a null pointer. */
static int null(void) {
    slotroute_told told = {0};
    slotroute_routed routed = {0};
    slotroute_redirected redirected = {0};
    uint8_t none[1];
    if (slotroute_slot(NULL, 0) != slotroute_slot(none, 0) || slotroute_message(1, NULL, 0) != 13
        || slotroute_request_len(NULL, 0, &told) != SLOTROUTE_REQUEST_INCOMPLETE
        || slotroute_reply_len(NULL, 0, &told) != SLOTROUTE_REPLY_INCOMPLETE
        || slotroute_route(NULL, 0, NULL, 0, 0, &routed, &told) != SLOTROUTE_REQUEST_INCOMPLETE)
        return 1;
    if (slotroute_split(NULL, 0, NULL, 0, NULL, 0, NULL, 0, NULL, 0, &told) != SLOTROUTE_REQUEST_INCOMPLETE
        || slotroute_split(BYTES(messages[0]), NULL, 0, NULL, 0, NULL, 0, NULL, 0, &told) != SLOTROUTE_TOO_SMALL
        || slotroute_combine(BYTES(messages[0]), NULL, 0, NULL, 0, NULL, 0, &told) != SLOTROUTE_REPLY_INCOMPLETE
        || slotroute_combine(BYTES(messages[0]), NULL, 0, BYTES(messages[5]), NULL, 0, &told)
               != SLOTROUTE_TOO_SMALL
        || slotroute_combine_answers(SLOTROUTE_SUM, 1, NULL, 0, NULL, 0, &told) != SLOTROUTE_REPLY_INCOMPLETE)
        return 2;
    if (slotroute_table(NULL, 0, NULL, 0, 0, 0, NULL, 0, NULL, 0, &told) != SLOTROUTE_REPLY_INCOMPLETE
        || slotroute_table(BYTES(messages[9]), NULL, 0, 0, 0, NULL, 0, NULL, 0, &told) != SLOTROUTE_TOO_SMALL
        || slotroute_redirect(NULL, 0, NULL, 0, NULL, 0, &redirected) != SLOTROUTE_NO_REDIRECT
        || slotroute_redirect(BYTES(messages[10]), NULL, 0, NULL, 0, &redirected) != SLOTROUTE_TOO_SMALL)
        return 3;
    return 0;
}

/* A session and a link to the one node of its cluster, which is in memory. */
#define MAP_REQUEST "*2\r\n$7\r\nCLUSTER\r\n$5\r\nSLOTS\r\n"
#define MAP_REPLY "*1\r\n*3\r\n:0\r\n:16383\r\n*2\r\n$2\r\nn1\r\n:7000\r\n"
#define LOGIN "*2\r\n$4\r\nAUTH\r\n$1\r\np\r\n"
#define GET_FOO "*2\r\n$3\r\nGET\r\n$3\r\nfoo\r\n"
#define LOST "-ERR a connection ended; the command may have taken effect\r\n"

static const slotroute_session_settings usual = {1000000, 10000, 10000000, 0, 10, 16};

/* A number that no call writes. */
#define UNSET 77u

/* Whether these bytes, and no others, are to be written on a link. They count as written. */
static int is_written(slotroute_session *session, size_t link, const char *wanted) {
    uint8_t bytes[256];
    size_t len = strlen(wanted), named = UNSET;
    memset(bytes, 0xA5, sizeof bytes);
    return slotroute_session_link_to_write(session, &named) == SLOTROUTE_DONE && named == link
        && slotroute_session_unwritten(session, link, bytes, sizeof bytes) == len
        && memcmp(bytes, wanted, len) == 0 && is_untouched(bytes + len, sizeof bytes - len)
        && slotroute_session_wrote(session, link, len) == SLOTROUTE_DONE
        && slotroute_session_unwritten(session, link, NULL, 0) == 0;
}

static int is_read(slotroute_session *session, size_t link, const char *text) {
    return slotroute_session_read(session, link, BYTES(text)) == SLOTROUTE_DONE;
}

/* Whether the next reply is this one, and its bytes stay until the next is asked for. */
static int is_replied(slotroute_session *session, uint64_t caller, uint64_t call, const char *wanted) {
    uint8_t bytes[256];
    size_t len = strlen(wanted);
    slotroute_due_reply due = {0};
    memset(bytes, 0xA5, sizeof bytes);
    return slotroute_session_next_reply(session, &due) == SLOTROUTE_DONE && due.caller == caller
        && due.call == call && due.bytes == len
        && slotroute_session_reply(session, bytes, len - 1) == len && is_untouched(bytes, sizeof bytes)
        && slotroute_session_reply(session, NULL, 0) == len
        && slotroute_session_reply(session, bytes, sizeof bytes) == len && memcmp(bytes, wanted, len) == 0
        && is_untouched(bytes + len, sizeof bytes - len);
}

/* Whether nothing is due: no node, link, time or reply is named, and what would be written stays. */
static int is_idle(slotroute_session *session) {
    size_t node = UNSET, link = UNSET, closing = UNSET;
    uint64_t time = UNSET;
    slotroute_due_reply due = {UNSET, UNSET, UNSET};
    return slotroute_session_wanted_node(session, &node) == SLOTROUTE_NOT_THERE && node == UNSET
        && slotroute_session_link_to_write(session, &link) == SLOTROUTE_NOT_THERE && link == UNSET
        && slotroute_session_link_to_close(session, &closing) == SLOTROUTE_NOT_THERE && closing == UNSET
        && slotroute_session_next_time(session, &time) == SLOTROUTE_NOT_THERE && time == UNSET
        && slotroute_session_next_reply(session, &due) == SLOTROUTE_NOT_THERE && due.caller == UNSET
        && due.call == UNSET && due.bytes == UNSET && slotroute_session_reply(session, NULL, 0) == 0;
}

/* Whether nodes are added and named once, each by its address, and no others. */
static int is_node_added(slotroute_session *session) {
    size_t node = UNSET, again = UNSET, wanted = UNSET;
    uint8_t host[8];
    slotroute_node_address address = {UNSET, UNSET};
    memset(host, 0xA5, sizeof host);
    if (slotroute_session_add_node(session, BYTES("\xFF"), 7000, &node) != SLOTROUTE_NOT_TEXT || node != UNSET
        || slotroute_session_add_node(session, BYTES("n1"), 7000, &node) != SLOTROUTE_DONE || node != 0
        || slotroute_session_add_node(session, BYTES("n1"), 7000, &again) != SLOTROUTE_DONE || again != 0)
        return 0;
    if (slotroute_session_address(session, 1, host, sizeof host, &address) != SLOTROUTE_NOT_THERE
        || address.host_len != UNSET || address.port != UNSET
        || slotroute_session_address(session, 0, host, 1, &address) != SLOTROUTE_TOO_SMALL
        || address.host_len != 2 || address.port != 7000 || !is_untouched(host, sizeof host))
        return 0;
    return slotroute_session_address(session, 0, host, sizeof host, &address) == SLOTROUTE_DONE
        && memcmp(host, "n1", 2) == 0 && is_untouched(host + 2, sizeof host - 2)
        && slotroute_session_wanted_node(session, &wanted) == SLOTROUTE_DONE && wanted == 0
        && slotroute_session_wanted_node(session, &wanted) == SLOTROUTE_NOT_THERE;
}

/* Whether a session opens with no node, and a link to its first node reads the map. */
static int is_open(slotroute_session *session, const slotroute_session_settings *settings) {
    size_t link = UNSET;
    return slotroute_session_open(settings, NULL, 0, session) == SLOTROUTE_DONE && is_idle(session)
        && is_node_added(session)
        && slotroute_session_connected(session, 1, &link) == SLOTROUTE_NOT_THERE && link == UNSET
        && slotroute_session_connected(session, 0, &link) == SLOTROUTE_DONE && link == 0
        && is_written(session, 0, MAP_REQUEST) && is_read(session, 0, MAP_REPLY) && is_idle(session);
}

/* Begins a call of the caller 7 with the deadline 100. */
static int is_begun(slotroute_session *session, const char *request, uint64_t *call) {
    return slotroute_session_begin(session, 7, BYTES(request), 100, call) == SLOTROUTE_DONE;
}

/* Whether a call is written in pieces, and never more of it than there is. */
static int is_written_in_pieces(slotroute_session *session) {
    uint8_t bytes[8];
    uint64_t call = UNSET, time = UNSET;
    size_t len = strlen(GET_FOO);
    memset(bytes, 0xA5, sizeof bytes);
    return is_begun(session, GET_FOO, &call)
        && slotroute_session_next_time(session, &time) == SLOTROUTE_DONE && time == 100
        && slotroute_session_unwritten(session, 0, bytes, 4) == len && memcmp(bytes, GET_FOO, 4) == 0
        && is_untouched(bytes + 4, 4) && slotroute_session_unwritten(session, 9, bytes + 4, 4) == 0
        && is_untouched(bytes + 4, 4)
        && slotroute_session_wrote(session, 0, len + 1) == SLOTROUTE_NOT_THERE
        && slotroute_session_wrote(session, 9, 0) == SLOTROUTE_NOT_THERE
        && slotroute_session_wrote(session, 0, 4) == SLOTROUTE_DONE
        && slotroute_session_wrote(session, 0, len - 3) == SLOTROUTE_NOT_THERE
        && is_written(session, 0, &GET_FOO[4])
        && is_read(session, 0, "$1\r") && is_read(session, 0, "") && is_read(session, 0, "\nx\r\n")
        && is_replied(session, 7, call, "$1\r\nx\r\n") && is_idle(session)
        && slotroute_session_give_up(session, call) == SLOTROUTE_NOT_THERE;
}

/* Whether a caller gets no reply to a call that it gave up, and an error when the time of one is over. */
static int is_given_up(slotroute_session *session) {
    uint64_t call = UNSET, late = UNSET;
    return is_begun(session, GET_FOO, &call) && is_written(session, 0, GET_FOO)
        && slotroute_session_give_up(session, UNSET) == SLOTROUTE_NOT_THERE
        && slotroute_session_give_up(session, call) == SLOTROUTE_DONE
        && slotroute_session_give_up(session, call) == SLOTROUTE_NOT_THERE
        && is_read(session, 0, "$1\r\nx\r\n") && is_idle(session) && is_begun(session, GET_FOO, &late)
        && is_written(session, 0, GET_FOO) && slotroute_session_advance(session, 99) == SLOTROUTE_DONE
        && slotroute_session_next_reply(session, &(slotroute_due_reply){0}) == SLOTROUTE_NOT_THERE
        && slotroute_session_advance(session, 100) == SLOTROUTE_DONE
        && slotroute_session_advance(session, 0) == SLOTROUTE_DONE
        && is_replied(session, 7, late, "-ERR the time is over; the command may have taken effect\r\n")
        && is_read(session, 0, "$1\r\nx\r\n") && is_idle(session);
}

/* Whether a link is to be closed after a malformed reply. Its call is lost, and its number free. */
static int is_closed(slotroute_session *session) {
    uint64_t call = UNSET;
    size_t link = UNSET;
    return slotroute_session_begin(session, 7, BYTES(GET_FOO), 200, &call) == SLOTROUTE_DONE
        && is_written(session, 0, GET_FOO) && is_read(session, 0, "x\r\n")
        && slotroute_session_link_to_close(session, &link) == SLOTROUTE_DONE && link == 0
        && slotroute_session_link_to_close(session, &link) == SLOTROUTE_DONE && link == 0
        && slotroute_session_ended(session, 0) == SLOTROUTE_DONE
        && slotroute_session_link_to_close(session, &link) == SLOTROUTE_NOT_THERE
        && is_replied(session, 7, call, LOST) && is_read(session, 0, "$1\r\nx\r\n")
        && slotroute_session_ended(session, 0) == SLOTROUTE_DONE
        && slotroute_session_wrote(session, 0, 0) == SLOTROUTE_NOT_THERE;
}

/* Whether a call waits for a node that cannot be reached, until a link to it is there. */
static int is_reached_later(slotroute_session *session) {
    uint64_t call = UNSET, time = UNSET;
    size_t node = UNSET, link = UNSET;
    if (slotroute_session_begin(session, 7, BYTES(GET_FOO), 200, &call) != SLOTROUTE_DONE
        || slotroute_session_wanted_node(session, &node) != SLOTROUTE_DONE || node != 0
        || slotroute_session_unreachable(session, 1) != SLOTROUTE_NOT_THERE
        || slotroute_session_unreachable(session, 0) != SLOTROUTE_DONE
        || slotroute_session_wanted_node(session, &node) != SLOTROUTE_NOT_THERE
        || slotroute_session_next_time(session, &time) != SLOTROUTE_DONE || time != 110)
        return 0;
    return slotroute_session_advance(session, 110) == SLOTROUTE_DONE
        && slotroute_session_wanted_node(session, &node) == SLOTROUTE_DONE && node == 0
        && slotroute_session_connected(session, 0, &link) == SLOTROUTE_DONE && link == 0
        && is_written(session, 0, GET_FOO MAP_REQUEST) && is_read(session, 0, "$1\r\nx\r\n" MAP_REPLY)
        && is_replied(session, 7, call, "$1\r\nx\r\n") && is_idle(session);
}

/* Whether the reply for a code is this one, and is written if it fits. */
static int is_refusal_reply(uint32_t answer, const char *reply) {
    uint8_t bytes[80];
    size_t len = strlen(reply);
    memset(bytes, 0xA5, sizeof bytes);
    return slotroute_refusal_reply(answer, NULL, 0) == len
        && (len == 0 || slotroute_refusal_reply(answer, bytes, len - 1) == len)
        && is_untouched(bytes, sizeof bytes) && slotroute_refusal_reply(answer, bytes, sizeof bytes) == len
        && memcmp(bytes, reply, len) == 0 && is_untouched(bytes + len, sizeof bytes - len);
}

/* Whether a session refuses a request by this code, writes no number, and has this reply for it. */
static int is_not_begun(slotroute_session *session, const char *request, uint32_t wanted, const char *reply) {
    uint64_t call = UNSET;
    return slotroute_session_begin(session, 7, BYTES(request), 100, &call) == wanted && call == UNSET
        && is_idle(session) && is_refusal_reply(wanted, reply);
}

#define TOO_MANY "-ERR too many commands wait; the command did not take effect\r\n"
#define UNREAD "-ERR this request cannot be read\r\n"

/* Whether each request that a session does not take is refused by its code. */
static int is_each_refused(slotroute_session *session) {
    return is_not_begun(session, "", SLOTROUTE_REQUEST_INCOMPLETE, UNREAD)
        && is_not_begun(session, "*1\r\n$3\r\nGE", SLOTROUTE_REQUEST_INCOMPLETE, UNREAD)
        && is_not_begun(session, "*1\r\nx", SLOTROUTE_REQUEST_MALFORMED, UNREAD)
        && is_not_begun(session, GET_FOO "*", SLOTROUTE_AFTER_REQUEST, "-ERR bytes follow the request\r\n")
        && is_not_begun(session, "*2\r\n$9\r\nSUBSCRIBE\r\n$1\r\na\r\n", SLOTROUTE_NOT_TAKEN,
                        "-ERR shared links do not take this command\r\n")
        && is_not_begun(session,
                        "*6\r\n$5\r\nXREAD\r\n$5\r\nBLOCK\r\n$1\r\n0\r\n$7\r\nSTREAMS\r\n$1\r\ns\r\n$1\r\n$\r\n",
                        SLOTROUTE_BLOCKING, "-ERR shared links do not take a command that waits\r\n")
        && is_not_begun(session, "*1\r\n$3\r\nDEL\r\n", SLOTROUTE_NOT_ROUTABLE,
                        "-ERR this request goes to no node: is its key missing?\r\n");
}

/* Whether only the codes of refusals have a reply. */
static int is_reply_of_refusals(void) {
    static const uint32_t others[] = {SLOTROUTE_DONE,     SLOTROUTE_TOO_SMALL,  SLOTROUTE_NOT_MULTI_KEY,
                                      SLOTROUTE_NOT_TEXT, SLOTROUTE_NOT_THERE,  18,
                                      24,                 UINT32_MAX};
    for (size_t i = 0; i < sizeof others / sizeof *others; i++)
        if (!is_refusal_reply(others[i], "")) return 0;
    return is_refusal_reply(SLOTROUTE_NO_MEMORY, "-ERR out of memory; the command did not take effect\r\n")
        && is_refusal_reply(SLOTROUTE_NO_FORM,
                            "-ERR the replies of several nodes to this command make no one reply\r\n")
        && is_refusal_reply(SLOTROUTE_TOO_MANY, TOO_MANY);
}

/* Whether a session with these settings keeps one call, refuses a second, and takes it once the first is over. */
static int is_limit(const slotroute_session_settings *settings) {
    slotroute_session session;
    uint64_t call = UNSET, other = UNSET;
    int is_kept = is_open(&session, settings) && is_begun(&session, GET_FOO, &call)
        && slotroute_session_begin(&session, 8, BYTES(GET_FOO), 100, &other) == SLOTROUTE_TOO_MANY
        && other == UNSET && is_written(&session, 0, GET_FOO)
        && is_read(&session, 0, "$1\r\nx\r\n") && is_replied(&session, 7, call, "$1\r\nx\r\n")
        && slotroute_session_next_reply(&session, &(slotroute_due_reply){0}) == SLOTROUTE_NOT_THERE
        && is_begun(&session, GET_FOO, &other);
    slotroute_session_close(session);
    return is_kept;
}

/* Whether a reply that is longer than the settings allow closes its link. */
static int is_reply_limit(void) {
    slotroute_session_settings settings = usual;
    slotroute_session session;
    size_t link = UNSET;
    uint64_t call = UNSET;
    settings.most_reply_bytes = strlen(MAP_REPLY);
    int is_kept = is_open(&session, &settings) && is_begun(&session, GET_FOO, &call)
        && is_written(&session, 0, GET_FOO) && is_read(&session, 0, "$100\r\n" MAP_REPLY)
        && slotroute_session_link_to_close(&session, &link) == SLOTROUTE_DONE && link == 0
        && slotroute_session_ended(&session, 0) == SLOTROUTE_DONE && is_replied(&session, 7, call, LOST);
    slotroute_session_close(session);
    return is_kept;
}

/* Whether a link begins with the login, is to be closed if the login is refused, or silent for too long. */
static int is_login(void) {
    slotroute_session_settings settings = usual;
    slotroute_session session;
    size_t link = UNSET;
    uint64_t time = UNSET;
    settings.silence = 50;
    if (slotroute_session_open(&settings, BYTES(LOGIN), &session) != SLOTROUTE_DONE) return 0;
    int is_kept = is_node_added(&session)
        && slotroute_session_connected(&session, 0, &link) == SLOTROUTE_DONE && link == 0
        && is_written(&session, 0, LOGIN) && is_read(&session, 0, "-ERR no\r\n")
        && slotroute_session_link_to_close(&session, &link) == SLOTROUTE_DONE && link == 0
        && slotroute_session_ended(&session, 0) == SLOTROUTE_DONE
        && slotroute_session_advance(&session, 10) == SLOTROUTE_DONE
        && slotroute_session_wanted_node(&session, &link) == SLOTROUTE_DONE && link == 0
        && slotroute_session_connected(&session, 0, &link) == SLOTROUTE_DONE && link == 0
        && is_written(&session, 0, LOGIN) && is_read(&session, 0, "+OK\r\n")
        && is_written(&session, 0, MAP_REQUEST)
        && slotroute_session_next_time(&session, &time) == SLOTROUTE_DONE && time == 10
        && slotroute_session_advance(&session, 10) == SLOTROUTE_DONE
        && slotroute_session_next_time(&session, &time) == SLOTROUTE_DONE && time == 60
        && slotroute_session_advance(&session, 60) == SLOTROUTE_DONE
        && slotroute_session_link_to_close(&session, &link) == SLOTROUTE_NOT_THERE
        && slotroute_session_advance(&session, 60) == SLOTROUTE_DONE
        && slotroute_session_link_to_close(&session, &link) == SLOTROUTE_DONE && link == 0;
    slotroute_session_close(session);
    return is_kept;
}

static int refusals(void) {
    slotroute_session_settings one_call = usual, one_length = usual;
    slotroute_session session;
    one_call.most_calls = 1;
    one_length.most_bytes = 2 * strlen(GET_FOO) - 1;
    if (!is_open(&session, &usual) || !is_each_refused(&session)) return 1;
    slotroute_session_close(session);
    if (!is_reply_of_refusals()) return 2;
    if (!is_limit(&one_call)) return 3;
    if (!is_limit(&one_length)) return 4;
    if (!is_reply_limit()) return 5;
    if (!is_login()) return 6;
    return 0;
}

#define TRIES 4
#define ROUNDS 16

/* The shell of a session whose cluster is one node in memory. It takes no memory itself. */
typedef struct shell {
    slotroute_session session;
    size_t link; /* UNSET: there is no connection */
    uint64_t time;
} shell;

/* What the node replies to a request. */
static const char *node_reply(const uint8_t *request) {
    static const struct { const char *name, *reply; } replies[] = {
        {"*2\r\n$4\r\nAUTH", "+OK\r\n"},
        {"*2\r\n$7\r\nCLUSTER", MAP_REPLY},
        {"*3\r\n$3\r\nSET", "+OK\r\n"},
        {"*2\r\n$3\r\nGET", "$1\r\nx\r\n"},
        {"*2\r\n$4\r\nMGET", "*1\r\n$1\r\nx\r\n"},
        {"*1\r\n$6\r\nDBSIZE", ":2\r\n"},
    };
    for (size_t i = 0; i < sizeof replies / sizeof *replies; i++)
        if (memcmp(request, replies[i].name, strlen(replies[i].name)) == 0) return replies[i].reply;
    exit(4);
}

/* Writes all that is to be written, and reads the reply to each request of it. */
static void exchange(shell *of) {
    uint8_t bytes[512];
    size_t len = slotroute_session_unwritten(&of->session, of->link, bytes, sizeof bytes);
    slotroute_told told = {0};
    if (len > sizeof bytes || slotroute_session_wrote(&of->session, of->link, len) == SLOTROUTE_NO_MEMORY) exit(5);
    for (size_t at = 0; at < len; at += told.bytes) {
        if (slotroute_request_len(bytes + at, len - at, &told) != SLOTROUTE_DONE) exit(6);
        if (slotroute_session_read(&of->session, of->link, BYTES(node_reply(bytes + at))) != SLOTROUTE_DONE)
            slotroute_session_read(&of->session, of->link, NULL, 0);
    }
}

/* Closes and connects as the session wants it, exchanges bytes, and lets time pass. */
static void serve(shell *of) {
    size_t named;
    while (slotroute_session_link_to_close(&of->session, &named) == SLOTROUTE_DONE) {
        slotroute_session_ended(&of->session, named);
        of->link = UNSET;
    }
    while (slotroute_session_wanted_node(&of->session, &named) == SLOTROUTE_DONE)
        if (slotroute_session_connected(&of->session, named, &of->link) != SLOTROUTE_DONE) of->link = UNSET;
    if (of->link != UNSET) exchange(of);
    of->time += usual.pause;
    slotroute_session_advance(&of->session, of->time);
}

/* Whether a call that began gets a reply that is no error, which is written to these bytes. */
static int is_served(shell *of, uint64_t call, uint8_t *bytes, size_t len) {
    slotroute_due_reply due = {0};
    for (int round = 0; round < ROUNDS; round++) {
        serve(of);
        if (slotroute_session_next_reply(&of->session, &due) != SLOTROUTE_DONE) continue;
        memset(bytes, 0, len);
        if (due.call != call || slotroute_session_reply(&of->session, bytes, len) > len) exit(7);
        return bytes[0] != '-';
    }
    if (slotroute_session_give_up(&of->session, call) != SLOTROUTE_DONE) exit(8);
    return 0;
}

/* Whether a request is answered, if it is begun anew as often as memory runs out or its link is lost. */
static int is_answered(shell *of, const char *request, uint8_t *bytes, size_t len) {
    uint64_t call = UNSET;
    for (int try = 0; try < TRIES; try++)
        if (slotroute_session_begin(&of->session, 7, BYTES(request), of->time + 1000, &call) == SLOTROUTE_DONE
            && is_served(of, call, bytes, len))
            return 1;
    return 0;
}

/* Whether a session is opened and has its node, if each is done anew when memory runs out. */
static int is_begun_anew(shell *of) {
    size_t node;
    if (slotroute_session_open(&usual, BYTES(LOGIN), &of->session) != SLOTROUTE_DONE
        && slotroute_session_open(&usual, BYTES(LOGIN), &of->session) != SLOTROUTE_DONE)
        return 0;
    if (slotroute_session_add_node(&of->session, BYTES("n1"), 7000, &node) == SLOTROUTE_DONE
        || slotroute_session_add_node(&of->session, BYTES("n1"), 7000, &node) == SLOTROUTE_DONE)
        return 1;
    slotroute_session_close(of->session);
    return 0;
}

/* Asks requests of a session, and writes their replies one after the other, or nothing if one has none. */
static uint32_t session_call(uint8_t *out, size_t len) {
    static const char *const requests[] = {
        "*3\r\n$3\r\nSET\r\n$3\r\nfoo\r\n$1\r\nx\r\n", GET_FOO,
        "*3\r\n$4\r\nMGET\r\n$3\r\nfoo\r\n$3\r\nbar\r\n", "*1\r\n$6\r\nDBSIZE\r\n", GET_FOO};
    size_t count = sizeof requests / sizeof *requests, room = len / count, answered = 0;
    shell of = {.link = UNSET};
    if (!is_begun_anew(&of)) return SLOTROUTE_NO_MEMORY;
    while (answered < count && is_answered(&of, requests[answered], out + answered * room, room)) answered++;
    slotroute_session_close(of.session);
    if (answered == count) return SLOTROUTE_DONE;
    memset(out, 0, len);
    return SLOTROUTE_NO_MEMORY;
}

/* Whether each of these requests has its reply. */
static int is_each_answered(void) {
    static const char *const replies[] = {"+OK\r\n", "$1\r\nx\r\n", "*2\r\n$1\r\nx\r\n$1\r\nx\r\n", ":2\r\n",
                                          "$1\r\nx\r\n"};
    char out[5 * 64] = "";
    if (session_call((uint8_t *)out, sizeof out) != SLOTROUTE_DONE) return 0;
    for (size_t i = 0; i < 5; i++)
        if (strcmp(out + i * 64, replies[i]) != 0) return 0;
    return 1;
}

static int sessions(void) {
    slotroute_session session, other;
    if (!is_open(&session, &usual)) return 1;
    if (!is_open(&other, &usual)) return 2;
    if (!is_written_in_pieces(&session) || !is_idle(&other)) return 3;
    if (!is_given_up(&session)) return 4;
    if (!is_closed(&session)) return 5;
    if (!is_reached_later(&session)) return 6;
    if (!is_written_in_pieces(&other)) return 7;
    slotroute_session_close(session);
    slotroute_session_close(other);
    return is_each_answered() ? 0 : 8;
}

/* Makes a random call of a session, with bytes before a page that may not be touched. Adds its answer and
   what it writes to sum. */
static uint64_t some_session_call(pool *of, slotroute_session *session, uint64_t *seed, uint64_t sum) {
    size_t len, out_len = most(seed, 64), number = next(seed) % 4, named = UNSET;
    uint8_t *bytes = some_message(of, 0, seed, &len), *out = of->end[2] - out_len;
    uint64_t call = next(seed) % 8, time = UNSET;
    slotroute_node_address address = {UNSET, UNSET};
    slotroute_due_reply due = {UNSET, UNSET, UNSET};
    uint32_t answer = 0;
    memset(out, 0xA5, out_len);
    switch (next(seed) % 16) {
    case 0: answer = slotroute_session_add_node(session, bytes, len, (uint16_t)number, &named); break;
    case 1: answer = slotroute_session_wanted_node(session, &named); break;
    case 2: answer = slotroute_session_address(session, number, out, out_len, &address); break;
    case 3: answer = slotroute_session_connected(session, number, &named); break;
    case 4: answer = slotroute_session_unreachable(session, number); break;
    case 5: answer = slotroute_session_link_to_write(session, &named); break;
    case 6: answer = (uint32_t)slotroute_session_unwritten(session, number, out, out_len); break;
    case 7: answer = slotroute_session_wrote(session, number, out_len); break;
    case 8: answer = slotroute_session_read(session, number, bytes, len); break;
    case 9: answer = slotroute_session_ended(session, number); break;
    case 10: answer = slotroute_session_link_to_close(session, &named); break;
    case 11: answer = slotroute_session_begin(session, number, bytes, len, call * 100, &time); break;
    case 12: answer = slotroute_session_give_up(session, call); break;
    case 13: answer = slotroute_session_advance(session, call * 50); break;
    case 14: answer = slotroute_session_next_time(session, &time); break;
    case 15:
        answer = slotroute_session_next_reply(session, &due);
        answer += (uint32_t)slotroute_session_reply(session, out, out_len);
        break;
    }
    sum = mixed(mixed(mixed(sum, &answer, sizeof answer), out, out_len), &named, sizeof named);
    sum = mixed(mixed(sum, &address.host_len, sizeof address.host_len), &address.port, sizeof address.port);
    return mixed(mixed(sum, &time, sizeof time), &due, sizeof due);
}

/* Opens sessions, makes random calls of each, and gives a sum of all that they answer and write. */
static uint64_t some_sessions(pool *of, uint64_t seed, int times) {
    uint64_t sum = 14695981039346656037u;
    for (int i = 0; i < times; i++) {
        slotroute_session_settings settings = {next(&seed) % 100, next(&seed) % 8, next(&seed) % 200,
                                               next(&seed) % 100, next(&seed) % 20, next(&seed) % 3};
        slotroute_session session;
        size_t len;
        uint8_t *login = some_message(of, 1, &seed, &len);
        if (slotroute_session_open(&settings, login, next(&seed) % 2 ? len : 0, &session) != SLOTROUTE_DONE) exit(3);
        for (uint32_t calls = next(&seed) % 256; calls > 0; calls--)
            sum = some_session_call(of, &session, &seed, sum);
        slotroute_session_close(session);
    }
    return sum;
}

/* Whether random calls of a session answer and write the same a second time. */
static int hostile(void) {
    pool of, other;
    make_pool(&of);
    make_pool(&other);
    return some_sessions(&of, 1, TIMES / 20) == some_sessions(&other, 1, TIMES / 20) ? 0 : 1;
}

static void *answered(void *is_right) {
    *(int *)is_right = is_each_answered();
    return NULL;
}

static void *used(void *session) { return is_written_in_pieces(session) ? session : NULL; }

/* Four threads have a session of their own each, and one session goes to another thread and back. */
static int moved(void) {
    pthread_t ids[4], other;
    int is_right[4] = {0};
    slotroute_session session;
    void *given = NULL;
    for (int i = 0; i < 4; i++)
        if (pthread_create(&ids[i], NULL, answered, &is_right[i]) != 0) return 3;
    for (int i = 0; i < 4; i++) pthread_join(ids[i], NULL);
    for (int i = 0; i < 4; i++)
        if (!is_right[i]) return 1;
    if (!is_open(&session, &usual)) return 2;
    if (pthread_create(&other, NULL, used, &session) != 0 || pthread_join(other, &given) != 0) return 3;
    if (given != &session || !is_written_in_pieces(&session)) return 4;
    slotroute_session_close(session);
    return 0;
}

#define KEYS 65
#define STACK (64 * PAGE)

static char many[KEYS * 32], deep[KEYS * 256];

/* MGET of many keys, and replies to its parts with arrays as deep as may be. */
static void make_deep(void) {
    char *end = many + sprintf(many, "*%d\r\n$4\r\nMGET\r\n", KEYS + 1);
    for (int key = 0; key < KEYS; key++) end += sprintf(end, "$5\r\nk%04d\r\n", key);
    end = deep;
    for (int key = 0; key < KEYS; key++) {
        for (int level = 0; level < 32; level++) end += sprintf(end, "*1\r\n");
        end += sprintf(end, ":1\r\n");
    }
}

static void *no_call(void *answer) { return answer; }

static void *split_call(void *answer) {
    static uint16_t slots[KEYS];
    static size_t ends[KEYS];
    static uint8_t out[KEYS * 64];
    slotroute_told told = {0};
    *(uint32_t *)answer = slotroute_split(BYTES(many), NULL, 0, slots, KEYS, ends, KEYS, out, sizeof out, &told);
    return answer;
}

static void *combine_call(void *answer) {
    static uint8_t out[sizeof deep];
    slotroute_told told = {0};
    *(uint32_t *)answer = slotroute_combine(BYTES(many), NULL, 0, BYTES(deep), out, sizeof out, &told);
    return answer;
}

static void *answers_call(void *answer) {
    static uint8_t out[sizeof deep];
    slotroute_told told = {0};
    *(uint32_t *)answer = slotroute_combine_answers(SLOTROUTE_ARRAYS, KEYS, BYTES(deep), out, sizeof out, &told);
    return answer;
}

static void *route_call(void *answer) {
    slotroute_routed routed = {0};
    slotroute_told told = {0};
    *(uint32_t *)answer = slotroute_route(BYTES(many), BYTES(NAMES), 0, &routed, &told);
    return answer;
}

static void *table_call(void *answer) {
    static uint16_t numbers[SLOTROUTE_SLOTS];
    static uint8_t out[512];
    slotroute_told told = {0};
    size_t one = strlen(deep) / KEYS;
    *(uint32_t *)answer = slotroute_table((const uint8_t *)deep, one, BYTES("n2"), 0, 0, numbers, SLOTROUTE_SLOTS, out,
                                          sizeof out, &told);
    if (*(uint32_t *)answer == SLOTROUTE_DONE)
        *(uint32_t *)answer = slotroute_table(BYTES(messages[9]), BYTES("n2"), 0, 0, numbers, SLOTROUTE_SLOTS, out,
                                              sizeof out, &told);
    return answer;
}

static void *session_calls(void *answer) {
    static uint8_t out[512];
    *(uint32_t *)answer = session_call(out, sizeof out);
    return answer;
}

static void *light_calls(void *answer) {
    static uint8_t out[512];
    slotroute_told told = {0};
    slotroute_progress progress = {0};
    slotroute_redirected redirected = {0};
    slotroute_slot(BYTES(many));
    slotroute_message(SLOTROUTE_DONE, out, sizeof out);
    *(uint32_t *)answer = slotroute_request_len(BYTES(many), &told) | slotroute_reply_len(BYTES(deep), &told)
                          | slotroute_scan(BYTES(deep), &progress)
                          | slotroute_redirect(BYTES("MOVED 1 n1:1"), BYTES("n1"), out, sizeof out, &redirected);
    return answer;
}

/* How much of its stack a thread takes. */
static size_t taken(void *(*call)(void *)) {
    uint8_t *stack = mmap(NULL, STACK, PROT_READ | PROT_WRITE, MAP_PRIVATE | MAP_ANONYMOUS, -1, 0);
    pthread_attr_t in_room;
    pthread_t id;
    uint32_t answer = 0;
    size_t free_bytes = 0;
    if (stack == MAP_FAILED) exit(3);
    memset(stack, 0xA5, STACK);
    if (pthread_attr_init(&in_room) != 0 || pthread_attr_setstack(&in_room, stack, STACK) != 0
        || pthread_create(&id, &in_room, call, &answer) != 0 || pthread_join(id, NULL) != 0
        || answer != SLOTROUTE_DONE)
        exit(3);
    while (free_bytes < STACK && stack[free_bytes] == 0xA5) free_bytes++;
    munmap(stack, STACK);
    return STACK - free_bytes;
}

static int stack(void) {
    make_deep();
    size_t none = taken(no_call);
    void *(*const others[])(void *) = {combine_call, answers_call, route_call,
                                       table_call,   light_calls,  session_calls};
    if (taken(split_call) > none + 8192) return 1;
    for (int i = 0; i < (int)(sizeof others / sizeof *others); i++)
        if (taken(others[i]) > none + 16384) return 2 + i;
    return 0;
}

static int once(int call) {
    static uint16_t slots[SLOTROUTE_SLOTS];
    static uint8_t out[512];
    static char line[64];
    size_t ends[8] = {0};
    slotroute_told told = {0};
    slotroute_routed routed = {0};
    slotroute_redirected redirected = {0};
    uint32_t answer = SLOTROUTE_NO_MEMORY;
    switch (call) {
    case 1: /* redis_bytes::combine_answers resp::read */
        answer = slotroute_combine_answers(SLOTROUTE_MAPS, 2, BYTES(messages[14]), out, sizeof out, &told);
        break;
    case 2: /* resp::read_request redis_bytes::registry_in redis_bytes::fields_in redis_bytes::register_line
               redis_bytes::request_in redis_routing::RoutingInfo::for_read */
        answer = slotroute_route(BYTES(messages[2]), BYTES(NAMES), 1, &routed, &told);
        break;
    case 3: /* redis_bytes::split redis_bytes::Request::read redis_bytes::push_part resp::read_args resp::push_bulk */
        answer = slotroute_split(BYTES(messages[1]), NULL, 0, slots, 8, ends, 8, out, sizeof out, &told);
        break;
    case 4: /* redis_bytes::combine resp::write */
        answer = slotroute_combine(BYTES(messages[2]), NULL, 0, BYTES(messages[7]), out, sizeof out, &told);
        break;
    case 5: /* redis_bytes::slot_table redis_bytes::slot_map */
        answer = slotroute_table(BYTES(messages[9]), BYTES("n2"), 2, 0, slots, SLOTROUTE_SLOTS, out,
                                 sizeof out, &told);
        break;
    case 6:
        answer = slotroute_redirect(BYTES("MOVED 1 a-host-of-more-than-sixteen-bytes:1"), BYTES("n1"), out,
                                    sizeof out, &redirected);
        break;
    case 7: /* resp::push_items resp::push_array_line */
        answer = slotroute_combine(BYTES(messages[2]), NULL, 0, BYTES("*2\r\n$1\r\nx\r\n$-1\r\n*1\r\n$0\r\n\r\n"), out,
                                   sizeof out, &told);
        break;
    case 8: answer = session_call(out, sizeof out); break;
    }
    uint64_t sum = mixed(mixed(14695981039346656037u, slots, sizeof slots), out, sizeof out);
    sum = mixed(sum, ends, sizeof ends);
    sum = mixed(mixed(sum, &told, sizeof told), &routed, sizeof routed);
    sum = mixed(sum, &redirected.host_len, sizeof redirected.host_len);
    setvbuf(stdout, line, _IOFBF, sizeof line);
    printf("%u %016llx\n", (unsigned)answer, (unsigned long long)sum);
    return 0;
}

int main(int count, char **words) {
    if (count == 2 && strcmp(words[1], "pages") == 0) return pages();
    if (count == 2 && strcmp(words[1], "small") == 0) return small();
    if (count == 2 && strcmp(words[1], "exact") == 0) return exact();
    if (count == 2 && strcmp(words[1], "threads") == 0) return threads();
    if (count == 2 && strcmp(words[1], "null") == 0) return null();
    if (count == 2 && strcmp(words[1], "cursors") == 0) return cursors();
    if (count == 2 && strcmp(words[1], "stack") == 0) return stack();
    if (count == 2 && strcmp(words[1], "sessions") == 0) return sessions();
    if (count == 2 && strcmp(words[1], "refusals") == 0) return refusals();
    if (count == 2 && strcmp(words[1], "moved") == 0) return moved();
    if (count == 2 && strcmp(words[1], "hostile") == 0) return hostile();
    if (count == 3 && strcmp(words[1], "once") == 0) return once(atoi(words[2]));
    return 2;
}
