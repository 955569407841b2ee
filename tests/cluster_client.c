/* The client of examples/client.c with many callers: cluster_client HOST:PORT [HOST:PORT ...]
 *
 * Reads calls from standard input: a line `CALLER NUMBER MILLISECONDS LENGTH` and a request of so many
 * bytes. Each call begins when it was read. Prints a line `CALLER NUMBER LENGTH` and the reply. Ends
 * after the last reply, once the input ended. */
#define main example_main
#include "../examples/client.c"
#undef main

enum { MOST_CALLS = 1024 };

static struct {
    uint64_t call, number;
    int is_open;
} calls[MOST_CALLS];
static uint8_t input[4 * ROOM];
static size_t input_len;

static void print(uint64_t caller, uint64_t number, const uint8_t *text, size_t len) {
    printf("%llu %llu %zu\n", (unsigned long long)caller, (unsigned long long)number, len);
    fwrite(text, 1, len, stdout);
}

/* Begins a call, and notes the number that its reply has to have. */
static void begin_call(uint64_t caller, uint64_t number, uint64_t time, const uint8_t *request, size_t len) {
    size_t free_at = 0;
    while (free_at < MOST_CALLS && calls[free_at].is_open) free_at++;
    if (free_at == MOST_CALLS) exit(3);
    uint32_t answer = slotroute_session_begin(&session, caller, request, len, now() + time, &calls[free_at].call);
    if (answer != SLOTROUTE_DONE) {
        print(caller, number, bytes, slotroute_refusal_reply(answer, bytes, ROOM));
        return;
    }
    calls[free_at].number = number;
    calls[free_at].is_open = 1;
    awaited++;
}

/* Begins the calls that were read wholly. */
static void begin_calls(void) {
    size_t at = 0;
    uint8_t *end;
    while ((end = memchr(input + at, '\n', input_len - at)) != NULL) {
        unsigned long long caller, number, time, len;
        if (sscanf((char *)input + at, "%llu %llu %llu %llu", &caller, &number, &time, &len) != 4) exit(3);
        size_t start = (size_t)(end - input) + 1;
        if (len > input_len - start) break;
        begin_call(caller, number, time, input + start, len);
        at = start + len;
    }
    input_len -= at;
    memmove(input, input + at, input_len);
}

/* Reads from standard input. Returns whether it goes on. */
static int read_calls(void) {
    ssize_t count = read(0, input + input_len, sizeof input - 1 - input_len);
    if (count <= 0) return 0;
    input_len += (size_t)count;
    begin_calls();
    return 1;
}

/* Prints the reply that is due, with the number of its call. */
static void print_reply(const slotroute_due_reply *due) {
    uint8_t *text = malloc(due->bytes + 1);
    size_t at = 0;
    while (at < MOST_CALLS && !(calls[at].is_open && calls[at].call == due->call)) at++;
    if (!text || at == MOST_CALLS) exit(3);
    slotroute_session_reply(&session, text, due->bytes);
    print(due->caller, calls[at].number, text, due->bytes);
    calls[at].is_open = 0;
    awaited--;
    free(text);
}

/* Does what the session wants, and waits for what comes next. Returns whether the input goes on. */
static int turn(int is_more) {
    struct pollfd polled[LINKS + 1];
    slotroute_due_reply due;
    size_t link;
    slotroute_session_advance(&session, now());
    while (slotroute_session_next_reply(&session, &due) == SLOTROUTE_DONE) print_reply(&due);
    fflush(stdout);
    connect_wanted();
    while (slotroute_session_link_to_close(&session, &link) == SLOTROUTE_DONE) end(link);
    for (size_t i = 0; i < LINKS; i++) {
        if (sockets[i] >= 0) write_link(i);
        polled[i] = (struct pollfd){.fd = sockets[i], .events = POLLIN};
    }
    polled[LINKS] = (struct pollfd){.fd = is_more ? 0 : -1, .events = POLLIN};
    poll(polled, LINKS + 1, 10);
    for (size_t i = 0; i < LINKS; i++)
        if (sockets[i] >= 0 && polled[i].revents) read_link(i);
    return is_more && (!polled[LINKS].revents || read_calls());
}

int main(int count, char **nodes) {
    slotroute_session_settings settings = {1000000, 10000, 10000000, 10000, 100, 100};
    size_t node;
    if (slotroute_session_open(&settings, NULL, 0, &session) != SLOTROUTE_DONE) return 1;
    for (size_t i = 0; i < LINKS; i++) sockets[i] = -1;
    for (int i = 1; i < count; i++) {
        char *colon = strrchr(nodes[i], ':');
        if (!colon) return 2;
        slotroute_session_add_node(&session, (uint8_t *)nodes[i], (size_t)(colon - nodes[i]),
                                   (uint16_t)atoi(colon + 1), &node);
    }
    int is_more = 1;
    while (is_more || awaited > 0) is_more = turn(is_more);
    slotroute_session_close(session);
    return 0;
}
