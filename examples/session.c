/* An everyday session: a pipeline, a redirect, a call that is given up, and a node that dies. It needs no
 * socket, since the code has what the nodes send. */
#include "slotroute.h"

#include <stdio.h>
#include <stdlib.h>
#include <string.h>

enum { ME = 1, ROOM = 512 };

static const char MAP[] = "*2\r\n*3\r\n:0\r\n:8191\r\n*2\r\n$8\r\n10.0.0.1\r\n:6379\r\n"
                          "*3\r\n:8192\r\n:16383\r\n*2\r\n$8\r\n10.0.0.2\r\n:6379\r\n";
static slotroute_session session;
static uint8_t bytes[ROOM];

/* Ends the program if a call did not do its work. */
static void check(uint32_t code) {
    if (code == SLOTROUTE_DONE) return;
    fprintf(stderr, "code %u\n", (unsigned)code);
    exit(1);
}

static void print(const char *what, size_t len) {
    printf("%s ", what);
    for (size_t i = 0; i < len; i++)
        if (bytes[i] == '\r') fputs("\\r", stdout);
        else if (bytes[i] == '\n') fputs("\\n", stdout);
        else putchar(bytes[i]);
    putchar('\n');
}

/* Connects to the node that needs a link. */
static size_t connect_node(void) {
    size_t node, link;
    slotroute_node_address address;
    check(slotroute_session_wanted_node(&session, &node));
    check(slotroute_session_address(&session, node, bytes, ROOM, &address));
    printf("connect to %.*s:%u\n", (int)address.host_len, (const char *)bytes, (unsigned)address.port);
    check(slotroute_session_connected(&session, node, &link));
    return link;
}

/* Writes all that is to be written on a link. */
static void write_link(size_t link) {
    size_t len = slotroute_session_unwritten(&session, link, bytes, ROOM);
    print("write", len);
    check(slotroute_session_wrote(&session, link, len));
}

static void read_link(size_t link, const char *came) {
    check(slotroute_session_read(&session, link, (const uint8_t *)came, strlen(came)));
}

static uint64_t begin(const char *request) {
    uint64_t call;
    check(slotroute_session_begin(&session, ME, (const uint8_t *)request, strlen(request), 5000, &call));
    return call;
}

static void print_replies(void) {
    slotroute_due_reply due;
    while (slotroute_session_next_reply(&session, &due) == SLOTROUTE_DONE)
        print("reply", slotroute_session_reply(&session, bytes, ROOM));
}

int main(void) {
    slotroute_session_settings settings = {1 << 29, 100000, 1 << 30, 10000, 100, 100};
    size_t node;
    check(slotroute_session_open(&settings, NULL, 0, &session));
    check(slotroute_session_add_node(&session, (const uint8_t *)"10.0.0.1", 8, 6379, &node));
    size_t first = connect_node();
    write_link(first);
    read_link(first, MAP);

    /* a pipeline: the second command has a part at each node */
    begin("*3\r\n$3\r\nSET\r\n$3\r\nbar\r\n$1\r\n1\r\n");
    begin("*3\r\n$4\r\nMGET\r\n$3\r\nfoo\r\n$3\r\nbar\r\n");
    write_link(first);
    size_t second = connect_node();
    write_link(second);
    /* a redirect: the slot of `bar` moves between the two commands */
    read_link(first, "+OK\r\n-MOVED 5061 10.0.0.2:6379\r\n");
    write_link(second);
    read_link(second, "*1\r\n$-1\r\n*1\r\n$1\r\n1\r\n");
    print_replies();

    /* a call that is given up: its late reply goes to nobody */
    uint64_t call = begin("*2\r\n$3\r\nGET\r\n$3\r\nfoo\r\n");
    write_link(second);
    check(slotroute_session_give_up(&session, call));
    read_link(second, "$3\r\nold\r\n");
    print_replies();

    /* a node that dies: nobody knows whether the command ran */
    begin("*2\r\n$4\r\nINCR\r\n$3\r\nbar\r\n");
    write_link(second);
    check(slotroute_session_ended(&session, second));
    print_replies();
    slotroute_session_close(session);
    return 0;
}
