/* Makes the calls of a session that lines of standard input name, and prints what each returns, a line each.
 *
 * The lines are those of the topic `shell`, which crates/rows/stdin explains, without `faults`. Also, `to-write`
 * prints the link that slotroute_session_link_to_write names. A refusal is printed without an index. With
 * tests/requests.c linked in, `refuse FROM COUNT` has requests for memory refused in the next call that may take some.
 * tests/session-scripts compares the runners of several languages.
 */
#define _POSIX_C_SOURCE 200809L
#include "slotroute.h"

#include <stdio.h>
#include <stdlib.h>
#include <string.h>

/* Those of the program of crates/rows. */
static const slotroute_session_settings settings = {4000, 50, 3000, 60, 10, 16};
static slotroute_session session;
enum { LINKS = 1000 };
static char is_open[LINKS];

/* Of tests/requests.c, if that is linked in. */
__attribute__((weak)) void refuse_requests(unsigned long from, unsigned long count);
/* Which requests for memory are refused in the next call. */
static unsigned long refused_from, refused_count;

/* Comes before a call that may take memory. */
static void begin_refusing(void) {
    if (refuse_requests) refuse_requests(refused_from, refused_count);
}

/* Returns the answer of that call. */
static uint32_t end_refusing(uint32_t answer) {
    if (refuse_requests) refuse_requests(0, 0);
    refused_count = 0;
    return answer;
}

/* Takes a number and the space after it. */
static uint64_t number(char **words) {
    uint64_t found = strtoull(*words, words, 10);
    if (**words == ' ') ++*words;
    return found;
}

/* Turns a text with escapes into bytes, in its own place. Returns how many there are. */
static size_t bytes_of(char *text) {
    size_t len = 0;
    if (strcmp(text, "\"\"") == 0) return 0;
    for (char *at = text; *at; at++) {
        char byte = *at;
        if (byte == '\\' && *++at == 'x') {
            char digits[3] = {at[1], at[2], 0};
            byte = (char)strtoul(digits, NULL, 16);
            at += 2;
        } else if (byte == '\\') {
            byte = *at == 'r' ? '\r' : *at == 'n' ? '\n' : ' ';
        }
        text[len++] = byte;
    }
    return len;
}

/* Prints bytes with the escapes of Rust. */
static void print_bytes(const uint8_t *bytes, size_t len) {
    static const char escaped[] = "\t\r\n'\"\\", letters[] = "trn'\"\\";
    for (size_t i = 0; i < len; i++) {
        const char *found = bytes[i] ? strchr(escaped, bytes[i]) : NULL;
        if (found) printf("\\%c", letters[found - escaped]);
        else if (bytes[i] >= 32 && bytes[i] < 127) putchar(bytes[i]);
        else printf("\\x%02x", bytes[i]);
    }
    putchar('\n');
}

static uint8_t *room_for(size_t len) {
    uint8_t *room = malloc(len + 1);
    if (!room) exit(1);
    return room;
}

static void print_done(uint32_t answer) { puts(answer == SLOTROUTE_DONE ? "OK" : "NoMemory"); }

static void print_whether(uint32_t answer) { puts(answer == SLOTROUTE_DONE ? "true" : "false"); }

static void print_named(uint32_t answer, uint64_t named) {
    if (answer == SLOTROUTE_DONE) printf("Some(%llu)\n", (unsigned long long)named);
    else puts("None");
}

static void open_session(char *words) {
    size_t len = bytes_of(words);
    slotroute_session_close(session);
    memset(is_open, 0, sizeof is_open);
    print_done(slotroute_session_open(&settings, (uint8_t *)words, len, &session));
}

static void add_node(char *words) {
    char *colon = strrchr(words, ':');
    size_t node = 0;
    uint32_t answer = slotroute_session_add_node(&session, (uint8_t *)words, (size_t)(colon - words),
                                                 (uint16_t)atoi(colon + 1), &node);
    print_named(answer, node);
}

static void wanted(char *words) {
    size_t node = 0;
    uint32_t answer = slotroute_session_wanted_node(&session, &node);
    (void)words;
    print_named(answer, node);
}

static void print_address(char *words) {
    uint8_t host[256];
    slotroute_node_address address;
    if (slotroute_session_address(&session, number(&words), host, sizeof host, &address) == SLOTROUTE_DONE)
        printf("%.*s:%u\n", (int)address.host_len, (char *)host, (unsigned)address.port);
    else puts("none");
}

static void connected(char *words) {
    size_t link = 0;
    uint64_t node = number(&words);
    begin_refusing();
    if (end_refusing(slotroute_session_connected(&session, node, &link)) == SLOTROUTE_DONE && link < LINKS) {
        is_open[link] = 1;
        printf("%zu\n", link);
    } else {
        puts("none");
    }
}

static void unreachable(char *words) {
    puts(slotroute_session_unreachable(&session, number(&words)) == SLOTROUTE_DONE ? "OK" : "none");
}

static void to_write(char *words) {
    size_t link = 0;
    uint32_t answer = slotroute_session_link_to_write(&session, &link);
    (void)words;
    print_named(answer, link);
}

static void unwritten(char *words) {
    size_t link = number(&words), len = slotroute_session_unwritten(&session, link, NULL, 0);
    uint8_t *bytes = room_for(len);
    slotroute_session_unwritten(&session, link, bytes, len);
    print_bytes(bytes, len);
    free(bytes);
}

static void wrote(char *words) {
    size_t link = number(&words);
    print_whether(slotroute_session_wrote(&session, link, number(&words)));
}

static void read_link(char *words) {
    size_t link = number(&words), len = bytes_of(words);
    begin_refusing();
    print_done(end_refusing(slotroute_session_read(&session, link, (uint8_t *)words, len)));
}

/* Ends a link if it is open. An end of another one would have the map asked for. */
static void ended(char *words) {
    size_t link = number(&words);
    begin_refusing();
    uint32_t answer = end_refusing(link < LINKS && is_open[link] ? slotroute_session_ended(&session, link) : SLOTROUTE_DONE);
    if (link < LINKS) is_open[link] = 0;
    print_done(answer);
}

static void to_close(char *words) {
    size_t link = 0;
    uint32_t answer = slotroute_session_link_to_close(&session, &link);
    (void)words;
    print_named(answer, link);
}

static const char *refusal(uint32_t answer) {
    switch (answer) {
    case SLOTROUTE_REQUEST_INCOMPLETE: return "Unread(Incomplete)";
    case SLOTROUTE_REQUEST_MALFORMED: return "Unread(Malformed)";
    case SLOTROUTE_AFTER_REQUEST: return "AfterRequest";
    case SLOTROUTE_NO_FORM: return "NoOneReply";
    case SLOTROUTE_NOT_ROUTABLE: return "NoRoute";
    case SLOTROUTE_NOT_TAKEN: return "NotTaken";
    case SLOTROUTE_BLOCKING: return "Blocking";
    case SLOTROUTE_TOO_MANY: return "Limit";
    default: return "Memory";
    }
}

static void begin(char *words) {
    uint64_t caller = number(&words), deadline = number(&words), call = 0;
    size_t len = bytes_of(words);
    begin_refusing();
    uint32_t answer = end_refusing(slotroute_session_begin(&session, caller, (uint8_t *)words, len, deadline, &call));
    if (answer == SLOTROUTE_DONE) printf("%llu\n", (unsigned long long)call);
    else puts(refusal(answer));
}

static void give_up(char *words) {
    uint64_t call = number(&words);
    begin_refusing();
    print_whether(end_refusing(slotroute_session_give_up(&session, call)));
}

static void advance(char *words) {
    uint64_t time = number(&words);
    begin_refusing();
    print_done(end_refusing(slotroute_session_advance(&session, time)));
}

static void refuse(char *words) {
    refused_from = number(&words);
    refused_count = number(&words);
    puts(refuse_requests ? "OK" : "none");
}

static void next_time(char *words) {
    uint64_t time = 0;
    uint32_t answer = slotroute_session_next_time(&session, &time);
    (void)words;
    print_named(answer, time);
}

static void next_reply(char *words) {
    slotroute_due_reply due;
    uint8_t *bytes;
    (void)words;
    begin_refusing();
    uint32_t answer = end_refusing(slotroute_session_next_reply(&session, &due));
    if (answer != SLOTROUTE_DONE) {
        puts(answer == SLOTROUTE_NO_MEMORY ? "NoMemory" : "none");
        return;
    }
    bytes = room_for(due.bytes);
    printf("%llu %llu ", (unsigned long long)due.caller, (unsigned long long)due.call);
    print_bytes(bytes, slotroute_session_reply(&session, bytes, due.bytes));
    free(bytes);
}

static const struct {
    const char *name;
    void (*call)(char *words);
} calls[] = {{"shell", open_session}, {"node", add_node}, {"wanted", wanted}, {"address", print_address},
             {"connected", connected}, {"unreachable", unreachable}, {"to-write", to_write},
             {"unwritten", unwritten}, {"wrote", wrote}, {"read", read_link}, {"ended", ended},
             {"close", to_close}, {"begin", begin}, {"give-up", give_up}, {"advance", advance},
             {"time", next_time}, {"next", next_reply}, {"refuse", refuse}};

int main(void) {
    char *line = NULL;
    size_t size = 0;
    setvbuf(stdout, NULL, _IOLBF, BUFSIZ);
    if (slotroute_session_open(&settings, NULL, 0, &session) != SLOTROUTE_DONE) return 1;
    while (getline(&line, &size, stdin) > 0) {
        size_t name_len = strcspn(line, " \n"), i = 0, count = sizeof calls / sizeof *calls;
        char *words = line + name_len + (line[name_len] == ' ');
        words[strcspn(words, "\n")] = 0;
        line[name_len] = 0;
        while (i < count && strcmp(calls[i].name, line) != 0) i++;
        if (i < count) calls[i].call(words);
    }
    free(line);
    slotroute_session_close(session);
    return 0;
}
