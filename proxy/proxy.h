/* The things that the proxy is made of. Each belongs to one thread, which alone touches it. */
#ifndef PROXY_PROXY_H
#define PROXY_PROXY_H

#include "buffer.h"
#include "layer.h"
#include "settings.h"
#include "stats.h"

enum { MOST_NODES = 4096, NO_SLOT = 65535, SMALL_REPLY = 40, SMALL_ERROR = 512, READ_ROOM = 65536 };
/* Requests and parts on the way from which on a client's next request waits until nodes have answered. */
enum { MOST_QUEUED = 256, MOST_PARTS = 4096 };
enum { MILLISECOND = 1000, SECOND = 1000000 }; /* in microseconds, in which all times are */
enum { PAUSE = 20 * MILLISECOND, LONGER_PAUSE = 50 * MILLISECOND };

typedef struct worker worker;
typedef struct client client;
typedef struct node node;
typedef struct request request;

/* What epoll watches. */
typedef enum peer_kind {
    PEER_CLIENT,
    PEER_NODE,
    PEER_LISTENER,
    PEER_GIVEN,
    PEER_FIGURES,
    PEER_READER
} peer_kind;

typedef struct peer {
    peer_kind kind;
    int fd;
    struct ssl_st *tls; /* NULL if it speaks without TLS */
    uint32_t events;
    bool is_watched;
} peer;

/* Where a part of a request is. HELD: it was not sent yet. AGAIN: it was sent, and took no effect. */
typedef enum part_state { PART_HELD, PART_SENT, PART_AGAIN, PART_DONE } part_state;

typedef struct part {
    size_t start, end; /* its bytes in `sent` of its request */
    node *to;          /* where it goes, or NULL for the node of its slot */
    uint64_t due;      /* when it may be sent again */
    uint64_t since;    /* when a node refused it for the first time, or 0 */
    uint8_t *reply;    /* NULL for a reply in `small` */
    size_t reply_len;
    uint32_t queued; /* the commands of a transaction */
    uint16_t slot, redirects;
    uint8_t state;
    bool asking;
    uint8_t small[SMALL_REPLY];
} part;

/* A request of a client. It is freed once it is answered. If the client has gone, it is freed once no part
 * is on its way. */
struct request {
    client *client; /* NULL if it has gone */
    request *next;
    uint64_t client_id, start;
    uint32_t parts, left, in_flight; /* all parts, those not done, those sent */
    uint32_t policy;
    bool is_three; /* its client wants replies of version 3 of the protocol (RESP3) */
    bool is_split, is_script, is_scan, is_transaction;
    bool is_private, is_blocking;  /* it goes over the client's own connection; it waits there */
    bool is_subscription, is_told; /* a command about subscriptions, and whether a reply to it has come */
    size_t kept;                   /* bytes of the replies to its parts */
    size_t len, size;              /* of the request, and of the block that it stands in */
    uint8_t *bytes, *sent;         /* the request, and what its parts are pieces of */
    part *part, one;
};

/* A command after MULTI. */
typedef struct queued_command {
    size_t len;
    uint16_t slot;
} queued_command;

struct client {
    peer peer;
    worker *worker;
    uint64_t id;
    client *next, *previous; /* all clients of the thread */
    client *next_dirty, *next_troubled, *next_dead;
    buffer in, out;
    slotroute_progress progress;
    request *first, *last; /* in the order of their replies */
    size_t queued, queued_parts, queued_bytes;
    size_t kept;                          /* bytes of replies that wait for an earlier one, or for a part's */
    size_t reply_len;                     /* of its replies, about: those of late count most */
    size_t held;                          /* parts that are HELD or AGAIN */
    uint64_t active_at;                   /* when bytes last went to it or came from it, or none were to go */
    uint64_t end_at;                      /* when a client that is to close has to be gone */
    const char *doom;                     /* why it is closed at the end of the round, or NULL */
    bool is_dirty, is_troubled, is_known; /* known: it gave the password, if there is one */
    bool is_alone;                        /* its one request has to be answered before the next is taken */
    bool is_ending;                       /* nothing more is read as requests */
    bool has_ended;                       /* it will send nothing more */
    bool is_shut;                         /* all was written, and it was told so */
    bool is_paused;                       /* it waits because of the memory of all */
    bool is_subscribed, is_three;
    bool is_elsewhere; /* it selected another database than 0, and was refused */
    node *own;         /* a connection that it has alone, or NULL */
    node *ears;        /* connections to the other primaries, which tell it of their keys */
    buffer told;       /* requests that subscribe to what is told of keys, each with one name */
    buffer early;      /* messages that come before the replies to a command about subscriptions */
    client *next_subscribing, *previous_subscribing;
    uint64_t turn; /* of its command about subscriptions that is not answered, or 0 */
    client *next_publisher;
    uint64_t awaited, awaited_at; /* the last turn that its PUBLISH waits for, or 0, and since when */
    bool is_publisher;            /* its PUBLISH waits for subscriptions */
    bool is_multi, is_multi_bad, is_multi_publishing, is_watching;
    bool is_watch_lost;       /* the connection on which it watches is another one now */
    buffer multi, multi_list; /* the commands since MULTI, and their lengths and slots */
    uint16_t multi_slot;      /* the first one of these, or the watched one, or NO_SLOT */
    buffer name;
    uint64_t begun_at;
};

typedef enum waits { WAITS_PART, WAITS_QUEUED, WAITS_NOTHING, WAITS_PASSWORD, WAITS_MAP, WAITS_INFO } waits;

/* Who waits for the next reply of a node. WAITS_NOTHING: the reply is dropped. */
typedef struct waiter {
    request *request;
    uint64_t client_id; /* or the number of the map that was asked for */
    uint64_t offset;    /* where its bytes begin in the stream to the node */
    uint32_t part;
    waits waits;
} waiter;

typedef enum node_state { NODE_CLOSED, NODE_OPENING, NODE_LOGIN, NODE_OPEN } node_state;

struct node {
    peer peer;
    worker *worker;
    char host[HOST_ROOM];
    uint16_t port, number; /* number: its place in `nodes` of its thread */
    node_state state;
    buffer in, out;
    slotroute_progress progress;
    waiter *queue; /* a ring */
    size_t first, count, room;
    uint64_t given, sent, asked, replies; /* since it was opened: bytes for it and written, and replies */
    uint64_t heard;                       /* when it said something, or was asked while it owed nothing */
    uint64_t failed;                      /* when a connection failed last, or 0 */
    const char *lost;                     /* why the connection is closed at the end of the round, or NULL */
    char why[128];
    node *next_dirty, *next_left, *next_ear;
    client *client; /* who has it alone, or NULL */
    node *three;    /* a connection of version 3 to the same node, or NULL */
    bool is_dirty, is_failing, is_in_map, is_primary, is_private, is_three;
    bool is_numbered; /* it has a number in cursors of SCAN */
    uint32_t scan_number;
    bool is_new;             /* what it owes was asked for since the last write */
    uint64_t keys, expiring; /* that it had when it told last */
    _Atomic uint64_t figures[NODE_FIGURES];
};

/* Where slots are. */
typedef struct topology {
    uint16_t owner[SLOTROUTE_SLOTS];  /* the number of its node, or SLOTROUTE_NO_NODE */
    uint64_t moving[SLOTROUTE_SLOTS]; /* until when a client's commands on a slot go one after the other */
    uint64_t moving_until;            /* the latest of these */
    node *primaries[MOST_NODES], *all[MOST_NODES];
    size_t primary_count, all_count, slots, next_any, next_asked, tries;
    bool has_map, is_wanted, is_asked;
    uint64_t number, asked_at, next_at; /* of the map that is asked for */
    uint64_t read_at;                   /* when the last one was read */
    char why[192];                      /* why there is no map */
} topology;

/* Fields of a node's INFO. */
typedef enum node_field { NODE_VERSION, NODE_MAXMEMORY, NODE_POLICY, NODE_FIELDS } node_field;
enum { FIELD_ROOM = 32 };

struct worker {
    unsigned number;
    int poll, given, giver; /* epoll, and a pipe with the clients that the first thread gives */
    peer given_peer;
    uint64_t now, next_tick;
    topology map;
    node *nodes[MOST_NODES];
    _Atomic size_t node_count; /* other threads read the figures of these nodes */
    client *clients, *dirty_clients, *troubled, *dead;
    client *first_subscribing, *last_subscribing; /* by their turns */
    client *publishers;                           /* whose PUBLISH waits for some of these */
    uint64_t turns;
    bool is_reading;          /* some of what came by now may not be read yet */
    node *dirty_nodes, *left; /* left: given up by the clients that had them alone */
    bool is_draining, is_pressed;
    uint64_t drain_until, pressed_at;
    size_t base; /* the memory that the thread takes without clients */
    stats stats;
    uint8_t *read;                        /* room for what is read */
    char fields[NODE_FIELDS][FIELD_ROOM]; /* the last ones that a node told */
    uint64_t info_at;                     /* when they are asked for again */
};

/* The whole program. Threads only read what is not atomic. */
typedef struct proxy {
    settings settings;
    worker *workers[MOST_THREADS];
    uint64_t start;
    _Atomic uint64_t clients, next_id;
    _Atomic int draining; /* 1 after SIGTERM, 2 after another one */
} proxy;

extern proxy the_proxy;

uint64_t clock_now(void);
void say(const char *format, ...) __attribute__((format(printf, 1, 2)));  /* a line of the log */
void warn(const char *format, ...) __attribute__((format(printf, 1, 2))); /* also if `quiet` */

#endif
