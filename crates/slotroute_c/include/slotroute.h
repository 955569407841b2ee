/* Routing for Redis Cluster, proved: the interface for C. The code behind each function here was
 * proved against its contract, for every input that a caller may pass. docs/C.md says what is only
 * tested: the stack that a call takes, null pointers, and that a call frees what it asked for.
 *
 * Requests and replies are the bytes of the Redis protocol, version 2 (RESP2); a request is an
 * array of bulk strings, as clients send it. A session keeps its state between calls. Nothing else
 * is kept: what a call needs is passed, and what it returns is written to the caller's buffers.
 *
 * What a caller owes, and nothing checks:
 *  - A pointer and its length name memory that may be read (const) or read and written for the
 *    whole call, all of it initialized. A pointer may be null if its length is 0.
 *  - What is written overlaps nothing else that is passed.
 *  - malloc, realloc and free are of one allocator, and align a block to each power of two up to 16
 *    that divides its size.
 *  - No call is made from a signal handler, nor in the forked child of a process with threads.
 *  - A session is used from slotroute_session_open to slotroute_session_close, by one thread at a
 *    time. It may move from thread to thread. No copy of it is used after it was closed.
 *
 * Threads: each function may be called by any thread at any time, also at once. A call writes
 * nothing that another sees, except to the buffers and the session that it is passed.
 *
 * A call that does not return SLOTROUTE_DONE writes to no buffer. What follows the written items in
 * a buffer stays as it was. If a call returns SLOTROUTE_TOO_SMALL, `told` has the sizes that are
 * needed.
 */
#ifndef SLOTROUTE_H
#define SLOTROUTE_H

#include <stddef.h>
#include <stdint.h>

#define SLOTROUTE_VERSION "0.2.4"

#ifdef __cplusplus
extern "C" {
#endif

/* What a call returns. slotroute_message has a text for each. */
enum {
    SLOTROUTE_DONE = 0,
    SLOTROUTE_NO_MEMORY = 1,
    SLOTROUTE_TOO_SMALL = 2,          /* a buffer is too small; told says which sizes are needed */
    SLOTROUTE_REQUEST_INCOMPLETE = 3, /* more bytes can complete the request */
    SLOTROUTE_REQUEST_MALFORMED = 4,  /* no request can have the byte at told.at there */
    SLOTROUTE_AFTER_REQUEST = 5,      /* bytes follow the request, which ends at told.at */
    SLOTROUTE_NOT_MULTI_KEY = 6,      /* not a complete DEL, EXISTS, JSON.MGET, JSON.MSET, MGET,
                                         MSET, TOUCH, UNLINK or WATCH, nor of a name in `names` */
    SLOTROUTE_REPLY_INCOMPLETE = 7,   /* the reply of the number told.reply; so in the next three */
    SLOTROUTE_REPLY_MALFORMED = 8,
    SLOTROUTE_REPLY_TOO_DEEP = 9,     /* arrays are nested more than 32 deep */
    SLOTROUTE_REPLY_IS_ERROR = 10,    /* the reply is an error, or holds one */
    SLOTROUTE_AFTER_REPLIES = 11,     /* bytes follow the last reply, which ends at told.at */
    SLOTROUTE_UNFIT = 12,             /* the replies do not fit the parts */
    SLOTROUTE_NO_FORM = 13,           /* the replies of several nodes make no one reply, as of INFO */
    SLOTROUTE_NOT_TEXT = 14,          /* a text or a host is not UTF-8 */
    SLOTROUTE_NO_REDIRECT = 15,       /* the text is no redirect */
    SLOTROUTE_LINE_FEED_IN_HOST = 16, /* the host of a slot's node has a line feed */
    SLOTROUTE_NOT_ROUTABLE = 17,      /* the request goes to no node, as DEL without a key */
    SLOTROUTE_BAD_NAME = 19,          /* the line of the number told.at, counted from 0, registers no
                                         name */
    SLOTROUTE_NOT_THERE = 20,         /* there is none, or none of this number */
    SLOTROUTE_NOT_TAKEN = 21,         /* a session does not take this command, as SUBSCRIBE */
    SLOTROUTE_BLOCKING = 22,          /* a session does not take a command that waits, as XREAD BLOCK */
    SLOTROUTE_TOO_MANY = 23           /* a session keeps as many calls, or bytes of requests, as it may */
};

/* Sizes that a call needs, or where a fault is. A call changes only fields that its code names. */
typedef struct slotroute_told {
    size_t parts; /* how many parts there are */
    size_t bytes; /* how many bytes there are */
    size_t reply; /* the number of a reply, counted from 0 */
    size_t at;    /* the index of a byte, or of a line of names, counted from 0 */
} slotroute_told;

/* The length of the text of a code. The text is written if it fits, with no 0 at its end. */
size_t slotroute_message(uint32_t answer, uint8_t *text, size_t text_len);

/* The version of the library that is linked, as a number: 204 for 0.2.4, 10203 for 1.2.3. */
uint32_t slotroute_version(void);

/* The slot of a key, 0 to 16383. */
uint16_t slotroute_slot(const uint8_t *key, size_t key_len);

/* Writes the length of the first request to told->bytes. Takes no memory. A number with a leading
 * zero is malformed: a server closes the connection there. */
uint32_t slotroute_request_len(const uint8_t *bytes, size_t bytes_len, slotroute_told *told);

/* Writes the length of the first reply, which may be an error, to told->bytes. The reply is of RESP2
 * or RESP3; streamed types are malformed. Takes no memory. If the reply is at fault, told->reply is
 * 0. */
uint32_t slotroute_reply_len(const uint8_t *bytes, size_t bytes_len, slotroute_told *told);

/* How far slotroute_scan has come in a message. */
typedef struct slotroute_progress {
    size_t bytes;    /* how many bytes were stepped over; after SLOTROUTE_DONE, the message's length */
    size_t searched; /* how many bytes after those hold no end of a line */
    uint64_t after;  /* how many items are wanted after the next one */
} slotroute_progress;

/* Looks for the end of the first message, of RESP2 or RESP3, and goes on where the last call
 * stopped. All fields of progress are 0 for a new message. bytes begins with the message's first
 * byte at each call, and has all bytes of the earlier calls. Takes no memory. SLOTROUTE_DONE:
 * progress->bytes is the message's length, at least 1. SLOTROUTE_REPLY_INCOMPLETE: call again, with
 * more bytes and the same progress. SLOTROUTE_REPLY_MALFORMED: no bytes complete the message, or it
 * is of a streamed type. A request is such a message too, but slotroute_request_len is stricter. */
uint32_t slotroute_scan(const uint8_t *bytes, size_t bytes_len, slotroute_progress *progress);

/* Where a request goes. */
enum {
    SLOTROUTE_GOES_NOWHERE = 0, /* the layer does not route it, as SCAN, or DEL with no key */
    SLOTROUTE_TO_ANY = 1,       /* any node */
    SLOTROUTE_TO_ANY_PRIMARY = 2,
    SLOTROUTE_TO_SLOT = 3,      /* slot and addr say which */
    SLOTROUTE_TO_ALL = 4,       /* each node; policy says how the replies make one */
    SLOTROUTE_TO_ALL_PRIMARIES = 5,
    SLOTROUTE_TO_SLOTS = 6      /* slotroute_split splits it; slotroute_combine combines */
};

/* Which node of a slot. */
enum { SLOTROUTE_PRIMARY = 0, SLOTROUTE_REPLICA_OPTIONAL = 1, SLOTROUTE_REPLICA = 2 };

/* How the replies of several nodes make one. */
enum {
    SLOTROUTE_NO_POLICY = 0,
    SLOTROUTE_ONE_SUCCEEDED = 1,
    SLOTROUTE_FIRST_NOT_EMPTY = 2,
    SLOTROUTE_ALL_SUCCEEDED = 3,
    SLOTROUTE_BITS_AND = 4,
    SLOTROUTE_BITS_OR = 5,
    SLOTROUTE_LEAST = 6,
    SLOTROUTE_SUM = 7,
    SLOTROUTE_ARRAYS = 8,
    SLOTROUTE_SPECIAL = 9,
    SLOTROUTE_MAPS = 10
};

typedef struct slotroute_routed {
    uint32_t kind;
    uint32_t slot;
    uint32_t addr;
    uint32_t policy;
} slotroute_routed;

/* Three calls take names: a text that registers commands of a module that are split by slot, or
 * nothing. A line has four fields, with spaces between them: multi PATTERN POLICY NAME. A name of
 * two words takes two fields. No name is registered twice. PATTERN says how the arguments make keys:
 * keys, pairs (a key and a value), last (keys, and one argument for all), triples. POLICY says how
 * the replies make one: ok, sum or list. So `multi keys sum COUNTKEYS` registers a command that is
 * split as DEL. A name of the library's tables, as MGET, is refused with SLOTROUTE_BAD_NAME. Empty
 * lines are not counted. Each call reads the text anew. */

/* Where a request goes. only_reads is not 0 if its command only reads, so that a replica may serve
 * it. A command that names a slot by its number, as CLUSTER ADDSLOTS 5, goes to the primary either
 * way. */
uint32_t slotroute_route(const uint8_t *request, size_t request_len,
                         const uint8_t *names, size_t names_len, uint32_t only_reads,
                         slotroute_routed *routed, slotroute_told *told);

/* Splits a request by slot. Part i goes to slots[i]. Its bytes, a request of its own, are those of
 * out from ends[i - 1], or from 0, up to ends[i]. told->parts is the number of parts, and
 * told->bytes the number of bytes. The parts are in the order of their first keys. */
uint32_t slotroute_split(const uint8_t *request, size_t request_len,
                         const uint8_t *names, size_t names_len,
                         uint16_t *slots, size_t slots_len,
                         size_t *ends, size_t ends_len,
                         uint8_t *out, size_t out_len, slotroute_told *told);

/* Writes the one reply to a request, by the replies to its parts. replies has these in the order of
 * the parts, in whatever order they were sent. told->bytes is the length of the one reply. */
uint32_t slotroute_combine(const uint8_t *request, size_t request_len,
                           const uint8_t *names, size_t names_len,
                           const uint8_t *replies, size_t replies_len,
                           uint8_t *out, size_t out_len, slotroute_told *told);

/* Writes the one reply to a request that went whole to count nodes, as KEYS. policy is that of
 * slotroute_route. replies has the reply of each node, in the order of the nodes. The one reply may
 * be an error of a node. A map is an array of its keys and values. told->bytes is the length of the
 * one reply. SLOTROUTE_NO_FORM, which no other call returns: the policy is SLOTROUTE_NO_POLICY,
 * SLOTROUTE_SPECIAL, as of INFO, or no number of a policy; or the replies do not fit the policy. */
uint32_t slotroute_combine_answers(uint32_t policy, size_t count,
                                   const uint8_t *replies, size_t replies_len,
                                   uint8_t *out, size_t out_len, slotroute_told *told);

/* Where a SCAN over several nodes stands: the next call goes to this node, with this cursor. */
typedef struct slotroute_position {
    uint64_t node; /* its index, counted from 0 */
    uint64_t cursor;
} slotroute_position;

/* Writes where a client's cursor of SCAN stands, over so many nodes. SCAN 0 begins at node 0.
 * SLOTROUTE_NOT_THERE: the cursor names a node that is not there. */
uint32_t slotroute_cursor_position(uint64_t cursor, uint64_t nodes, slotroute_position *position);

/* Writes the cursor for the client, after one of so many nodes replied cursor. A node's 0 is followed
 * by the next node. The last one's is followed by 0: the scan ended. All are below 2^63.
 * SLOTROUTE_NOT_THERE: there is no such node, or more than 32768 nodes, or cursor is 2^48 or more. */
uint32_t slotroute_next_cursor(uint64_t nodes, uint64_t node, uint64_t cursor, uint64_t *next);

#define SLOTROUTE_SLOTS 16384u
#define SLOTROUTE_NO_NODE 65535u

/* The map of a reply to CLUSTER SLOTS as a table: numbers[slot] is the number of the slot's node,
 * or SLOTROUTE_NO_NODE. nodes has one line HOST:PORT for each node, in the order of their numbers.
 * told->bytes is the length of the lines. told->parts is SLOTROUTE_SLOTS, the room that numbers
 * needs. answering is the host of the node that replied, for hosts that the reply leaves out. addr
 * is SLOTROUTE_PRIMARY, or another number for the replica at pick modulo their count, or the
 * primary if there is none. A look-up is numbers[slotroute_slot(key, key_len)]. */
uint32_t slotroute_table(const uint8_t *reply, size_t reply_len,
                         const uint8_t *answering, size_t answering_len,
                         uint32_t addr, size_t pick,
                         uint16_t *numbers, size_t numbers_len,
                         uint8_t *nodes, size_t nodes_len, slotroute_told *told);

/* A redirect, without its host. */
enum { SLOTROUTE_MOVED = 1, SLOTROUTE_ASK = 2 };

typedef struct slotroute_redirected {
    uint32_t kind; /* SLOTROUTE_MOVED, or SLOTROUTE_ASK: this request alone, after ASKING */
    uint32_t slot;
    uint32_t port;
    size_t host_len;
} slotroute_redirected;

/* Reads the text of an error, as MOVED 3999 127.0.0.1:6381: the reply without its mark and its
 * line's end. answering is the host of the node that sent the error, for a text without a host. A
 * text whose host is `?` is no redirect. host gets the host, and redirected the rest.
 * redirected is set also if the buffer is too small. */
uint32_t slotroute_redirect(const uint8_t *text, size_t text_len,
                            const uint8_t *answering, size_t answering_len,
                            uint8_t *host, size_t host_len, slotroute_redirected *redirected);

/* A session asks the requests of many callers at the nodes that serve them, and puts the replies
 * together. It opens no connection and knows no clock. Its shell does that, and tells the session what
 * happened: a connection is there or ended, bytes were written or read, time passed. A link is one
 * connection to a node. Nodes, links and calls have numbers. The shell chooses the numbers of callers.
 * Times are of the shell's clock, in any unit. */
typedef struct slotroute_session {
    void *at;
} slotroute_session;

/* How a session asks. Usual numbers for times in milliseconds are 1 << 29, 100000, 1 << 30, 10000,
 * 100 and 100. With silence 0 a session never leaves a node that hangs. The pauses of all retries
 * together are to be longer than a failover takes. */
typedef struct slotroute_session_settings {
    size_t most_reply_bytes; /* how many bytes a reply may have; a link with more is to be closed */
    size_t most_calls;       /* how many calls may be kept, of all callers together */
    size_t most_bytes;       /* how many bytes the requests of the kept calls may have together */
    uint64_t silence;        /* how long a link may owe a reply without a byte coming; 0: forever */
    uint64_t pause;          /* how long a part pauses that a node cannot run yet, as after TRYAGAIN */
    uint32_t retries;        /* how often nodes may refuse a part before it is given up */
} slotroute_session_settings;

/* Opens a session without nodes, links and calls. login has the request that each link begins with, as
 * AUTH; it may be empty. SLOTROUTE_NO_MEMORY: session is as it was, and is not to be closed. */
uint32_t slotroute_session_open(const slotroute_session_settings *settings,
                                const uint8_t *login, size_t login_len,
                                slotroute_session *session);

/* Closes a session. Callers that wait get no reply. */
void slotroute_session_close(slotroute_session session);

/* Adds a node by its host and its port, and writes its number to node. The node needs a link then. A
 * node that is known keeps its number. SLOTROUTE_NOT_TEXT: the host is not UTF-8.
 * SLOTROUTE_NOT_THERE: 65534 nodes are known. */
uint32_t slotroute_session_add_node(slotroute_session *session,
                                    const uint8_t *host, size_t host_len, uint16_t port,
                                    size_t *node);

/* Writes the number of a node that needs a link to node. Each is named once; then the shell connects
 * and calls slotroute_session_connected or slotroute_session_unreachable. SLOTROUTE_NOT_THERE: no node
 * needs a link. */
uint32_t slotroute_session_wanted_node(slotroute_session *session, size_t *node);

/* The address of a node, without its host. */
typedef struct slotroute_node_address {
    size_t host_len;
    uint32_t port;
} slotroute_node_address;

/* Writes the host of a node to host, and the rest of its address to address, which is set also if the
 * buffer is too small. SLOTROUTE_NOT_THERE: no node has this number. */
uint32_t slotroute_session_address(slotroute_session *session, size_t node,
                                   uint8_t *host, size_t host_len,
                                   slotroute_node_address *address);

/* Notes a new connection to a node, and writes the number of its link to link. SLOTROUTE_NO_MEMORY:
 * there is no link, and the connection is to be closed. SLOTROUTE_NOT_THERE: no node has this
 * number. */
uint32_t slotroute_session_connected(slotroute_session *session, size_t node, size_t *link);

/* Notes that no connection to a node could be made. SLOTROUTE_NOT_THERE: no node has this number. */
uint32_t slotroute_session_unreachable(slotroute_session *session, size_t node);

/* Writes the number of a link on which something was asked to link. It has bytes to be written, and is
 * named once after that. SLOTROUTE_NOT_THERE: nothing was asked. */
uint32_t slotroute_session_link_to_write(slotroute_session *session, size_t *link);

/* How many bytes are to be written on a link. The first of them are written to bytes, as many as
 * fit. */
size_t slotroute_session_unwritten(slotroute_session *session, size_t link,
                                   uint8_t *bytes, size_t bytes_len);

/* Notes that count bytes more were written on a link. SLOTROUTE_NOT_THERE: not so many were to be
 * written, and nothing changes. */
uint32_t slotroute_session_wrote(slotroute_session *session, size_t link, size_t count);

/* Takes what was read on a link. Nothing changes if no open link has this number.
 * SLOTROUTE_NO_MEMORY: if the link is to be closed, slotroute_session_link_to_close names it. Else a
 * call without bytes goes on. */
uint32_t slotroute_session_read(slotroute_session *session, size_t link,
                                const uint8_t *bytes, size_t bytes_len);

/* Notes that the connection of a link ended, or was closed. Its number may be given to another link.
 * SLOTROUTE_NO_MEMORY: the link ended, and a later call asks what could not be asked now. */
uint32_t slotroute_session_ended(slotroute_session *session, size_t link);

/* Writes the number of a link that is to be closed to link. The shell closes the connection and calls
 * slotroute_session_ended. SLOTROUTE_NOT_THERE: none is to be closed. */
uint32_t slotroute_session_link_to_close(slotroute_session *session, size_t *link);

/* Begins a call: the request of a caller. Writes the number of the call to call. If its reply is not
 * there at deadline, the reply is an error. Another code is the reason of a refusal: nothing of the
 * request is asked, and the session is as it was. */
uint32_t slotroute_session_begin(slotroute_session *session, uint64_t caller,
                                 const uint8_t *request, size_t request_len, uint64_t deadline,
                                 uint64_t *call);

/* The length of the reply that tells a client why slotroute_session_begin returned this code. The
 * reply is written if it fits. It has at most 80 bytes, and none for a code that no refusal has. */
size_t slotroute_refusal_reply(uint32_t answer, uint8_t *bytes, size_t bytes_len);

/* Notes that the caller waits no more for the reply to a call. It gets none. SLOTROUTE_NOT_THERE: nobody
 * waited for it, and nothing changes. */
uint32_t slotroute_session_give_up(slotroute_session *session, uint64_t call);

/* Notes what time it is. A time before the last one counts as the last one. SLOTROUTE_NO_MEMORY: a later
 * call asks what could not be asked now. */
uint32_t slotroute_session_advance(slotroute_session *session, uint64_t now);

/* Writes the time at which slotroute_session_advance is to be called next to time: at once if it is not after
 * the last one. What could not be asked or given, since memory ran out, is tried again after a pause.
 * SLOTROUTE_NOT_THERE: nothing waits for a time. */
uint32_t slotroute_session_next_time(slotroute_session *session, uint64_t *time);

/* Whose reply comes next. */
typedef struct slotroute_due_reply {
    uint64_t caller;
    uint64_t call;
    size_t bytes; /* how many bytes the reply has */
} slotroute_due_reply;

/* Names the next reply in reply. slotroute_session_reply has its bytes up to the next call of this
 * function. A caller's replies come in the order of its calls. SLOTROUTE_NOT_THERE: no reply is there.
 * SLOTROUTE_NO_MEMORY: the replies that are there come in later calls. */
uint32_t slotroute_session_next_reply(slotroute_session *session,
                                      slotroute_due_reply *reply);

/* The length of the reply that slotroute_session_next_reply named. The reply is written if it fits. */
size_t slotroute_session_reply(slotroute_session *session, uint8_t *bytes, size_t bytes_len);

#ifdef __cplusplus
}
#endif

#endif
