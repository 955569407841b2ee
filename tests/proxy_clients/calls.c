/* What hiredis is used for: the port. Each prints a line of JSON. The port four above wants a password. */
#include <hiredis/async.h>
#include <hiredis/hiredis.h>
#include <poll.h>
#include <stdbool.h>
#include <stdio.h>
#include <stdlib.h>
#include <string.h>

static redisContext *it;
static int port;

static redisContext *connect_to(int of) {
    struct timeval wait = {20, 0};
    redisContext *own = redisConnect("127.0.0.1", of);
    if (own == NULL || own->err != 0)
        exit(1);
    redisSetTimeout(own, wait);
    return own;
}

static bool is_chosen(const char *name) {
    const char *only = getenv("CALLS_ONLY");
    return only == NULL || strcmp(only, name) == 0;
}

static void print_text(const char *text, size_t len) {
    putchar('"');
    for (size_t at = 0; at < len && at < 300; at++)
        printf(text[at] < ' ' || text[at] == '"' || text[at] == '\\' ? "\\u%04x" : "%c", (unsigned char)text[at]);
    putchar('"');
}

static void print_reply(const redisReply *found) {
    if (found == NULL || found->type == REDIS_REPLY_NIL) {
        printf("null");
    } else if (found->type == REDIS_REPLY_INTEGER) {
        printf("%lld", found->integer);
    } else if (found->type == REDIS_REPLY_ARRAY) {
        putchar('[');
        for (size_t at = 0; at < found->elements; at++) {
            printf("%s", at == 0 ? "" : ", ");
            print_reply(found->element[at]);
        }
        putchar(']');
    } else if (found->type == REDIS_REPLY_ERROR) {
        char text[300];
        snprintf(text, sizeof text, "ERROR %.250s", found->str);
        print_text(text, strlen(text));
    } else {
        print_text(found->str, found->len);
    }
}

/* Sends all commands, divided by `;`, over a connection of their own, and then prints all replies. */
static void call(const char *name, const char *commands) {
    char *text = strdup(commands);
    int count = 0;
    if (!is_chosen(name))
        return;
    redisContext *own = connect_to(port);
    for (char *one = strtok(text, ";"); one != NULL; one = strtok(NULL, ";"), count++)
        redisAppendCommand(own, one);
    printf("[\"%s\", [", name);
    for (int at = 0; at < count; at++) {
        void *found = NULL;
        if (redisGetReply(own, &found) != REDIS_OK) {
            printf("%s\"ERROR %s\"", at == 0 ? "" : ", ", own->errstr);
            break;
        }
        printf("%s", at == 0 ? "" : ", ");
        print_reply(found);
        freeReplyObject(found);
    }
    printf("]]\n");
    fflush(stdout);
    redisFree(own);
    free(text);
}

/* Prints the errors that commands, divided by `;`, are there to get: the first word of each. */
static void faults(const char *name, int of, const char *commands) {
    char *text = strdup(commands);
    if (!is_chosen(name))
        return;
    redisContext *own = connect_to(of);
    printf("[\"%s\", \"", name);
    for (char *one = strtok(text, ";"); one != NULL; one = strtok(NULL, ";")) {
        redisReply *found = redisCommand(own, one);
        bool is_error = found != NULL && found->type == REDIS_REPLY_ERROR;
        printf("%.*s ", is_error ? (int)strcspn(found->str, " ") : 2, is_error ? found->str : "ok");
        freeReplyObject(found);
    }
    printf("\"]\n");
    redisFree(own);
    free(text);
}

/* Counts the keys that SCAN gives. */
static void scan(const char *name, const char *words) {
    char cursor[32] = "0";
    size_t keys = 0, calls = 0;
    do {
        char line[100];
        snprintf(line, sizeof line, "SCAN %s %s", cursor, words);
        redisReply *found = redisCommand(it, line);
        bool is_right = found != NULL && found->type == REDIS_REPLY_ARRAY;
        snprintf(cursor, sizeof cursor, "%s", is_right ? found->element[0]->str : "ERROR");
        keys += is_right ? found->element[1]->elements : 0;
        freeReplyObject(found);
    } while (++calls < 100 && strcmp(cursor, "0") != 0 && strcmp(cursor, "ERROR") != 0);
    if (is_chosen(name))
        printf("[\"%s\", [%zu, \"%s\"]]\n", name, keys, cursor);
}

static void large_value(void) {
    size_t size = 5000000;
    char *text = malloc(size);
    memset(text, 'x', size);
    redisReply *found = redisCommand(it, "SET big %b", text, size);
    freeReplyObject(found);
    found = redisCommand(it, "GET big");
    if (is_chosen("large value"))
        printf("[\"large value\", %zu]\n", found == NULL ? 0 : found->len);
    freeReplyObject(found);
    freeReplyObject(redisCommand(it, "DEL big"));
    free(text);
}

/* Writes 1000 values of 10,000 bytes and reads them, before a reply is read. */
static void deep_pipeline(void) {
    static char text[10000];
    size_t bytes = 0;
    if (!is_chosen("deep pipeline"))
        return;
    memset(text, 'x', sizeof text);
    for (int at = 0; at < 1000; at++) {
        redisAppendCommand(it, "SET deep%d %b", at, text, sizeof text);
        redisAppendCommand(it, "GET deep%d", at);
    }
    for (int at = 0; at < 2000; at++) {
        void *found = NULL;
        if (redisGetReply(it, &found) == REDIS_OK && found != NULL)
            bytes += ((redisReply *)found)->len;
        freeReplyObject(found);
    }
    printf("[\"deep pipeline\", %zu]\n", bytes);
}

static void binary_value(void) {
    const char bytes[] = {0, '\r', '\n', 'x'};
    freeReplyObject(redisCommand(it, "SET %b %b", bytes, sizeof bytes, bytes, sizeof bytes));
    redisReply *found = redisCommand(it, "GET %b", bytes, sizeof bytes);
    if (is_chosen("key and value of bytes"))
        printf("[\"key and value of bytes\", %d]\n",
               found != NULL && found->len == sizeof bytes && memcmp(found->str, bytes, sizeof bytes) == 0);
    freeReplyObject(found);
    freeReplyObject(redisCommand(it, "DEL %b", bytes, sizeof bytes));
}

/* A transaction after WATCH, whose key another client changes before. */
static void watch(void) {
    redisContext *own = connect_to(port);
    if (!is_chosen("watch, changed key"))
        return;
    freeReplyObject(redisCommand(own, "WATCH {w}a"));
    freeReplyObject(redisCommand(it, "SET {w}a other"));
    freeReplyObject(redisCommand(own, "MULTI"));
    freeReplyObject(redisCommand(own, "SET {w}a mine"));
    redisReply *found = redisCommand(own, "EXEC");
    printf("[\"watch, changed key\", [");
    print_reply(found);
    freeReplyObject(found);
    found = redisCommand(own, "GET {w}a");
    printf(", ");
    print_reply(found);
    printf("]]\n");
    freeReplyObject(found);
    redisFree(own);
}

static void subscribe(void) {
    redisContext *own = connect_to(port);
    redisReply *found = redisCommand(own, "SUBSCRIBE news");
    void *message = NULL;
    freeReplyObject(found);
    freeReplyObject(redisCommand(it, "PUBLISH news x"));
    if (is_chosen("subscribe") && redisGetReply(own, &message) == REDIS_OK) {
        printf("[\"subscribe\", ");
        print_reply(message);
        printf("]\n");
    }
    freeReplyObject(message);
    redisFree(own);
}

static void given_up(void) {
    struct timeval wait = {0, 300000};
    redisContext *own = connect_to(port);
    if (!is_chosen("a call given up"))
        return;
    redisSetTimeout(own, wait);
    freeReplyObject(redisCommand(own, "BLPOP nothing 2"));
    int error = own->err;
    bool is_back = redisReconnect(own) == REDIS_OK;
    redisReply *found = redisCommand(own, "GET a");
    printf("[\"a call given up\", [%d, %d, ", error, is_back);
    print_reply(found);
    printf("]]\n");
    freeReplyObject(found);
    redisFree(own);
}

static int wants;
static void wants_read(void *to) { (void)to, wants |= POLLIN; }
static void wants_write(void *to) { (void)to, wants |= POLLOUT; }
static void wants_no_write(void *to) { (void)to, wants &= ~POLLOUT; }

static void on_reply(redisAsyncContext *own, void *reply, void *sum) {
    const redisReply *found = reply;
    *(long long *)sum += found != NULL && found->type == REDIS_REPLY_INTEGER ? found->integer : 0;
    if (found != NULL && found->type == REDIS_REPLY_STATUS)
        redisAsyncDisconnect(own);
}

/* The asynchronous interface: 1000 calls, each with a function for its reply. */
static void calls_with_functions(void) {
    static long long sum;
    redisAsyncContext *own = redisAsyncConnect("127.0.0.1", port);
    if (!is_chosen("calls with functions"))
        return;
    own->ev.addRead = wants_read;
    own->ev.addWrite = wants_write;
    own->ev.delWrite = wants_no_write;
    wants = POLLOUT;
    struct pollfd end = {own->c.fd, 0, 0};
    for (int at = 0; at < 1000; at++)
        redisAsyncCommand(own, on_reply, &sum, "INCR called%d", at % 10);
    redisAsyncCommand(own, on_reply, &sum, "PING");
    while (sum < 50500) {
        end.events = (short)wants;
        if (poll(&end, 1, 10000) <= 0)
            break;
        if (end.revents & POLLOUT)
            redisAsyncHandleWrite(own);
        else
            redisAsyncHandleRead(own);
    }
    printf("[\"calls with functions\", %lld]\n", sum);
}

int main(int count, char **words) {
    if (count < 2)
        return 1;
    port = atoi(words[1]);
    setvbuf(stdout, NULL, _IOLBF, 0);
    it = connect_to(port);
    call("strings", "SET a 1;GET a;GET none;INCR a;APPEND a 2;STRLEN a;GETSET a 9;SETNX a 1;INCRBYFLOAT a 0.5");
    call("expiry", "SETEX b 100 2;TTL b;PERSIST b;TTL b;EXPIRE b 50;TTL b;SET b 1 EX 9 XX;SET b 2 PX 5000 NX");
    call("several keys", "MSET x 1 y 2 z 3;MGET x y none;EXISTS x y;TOUCH x y;DEL x y;UNLINK z");
    call("hashes", "HSET h f 1 g 2;HGETALL h;HMGET h f none;HINCRBY h f 2;HDEL h g;HLEN h");
    call("lists", "RPUSH l 1 2 3;LRANGE l 0 -1;LPOP l;RPOP l 2;LPUSH l z;LREM l 1 z");
    call("sets", "SADD s m;SMEMBERS s;SISMEMBER s m;SADD {s}2 m;SINTER s {s}2;SPOP {s}2");
    call("sorted sets", "ZADD q 1.5 m 2 n;ZRANGE q 0 -1 WITHSCORES;ZINCRBY q 2 m;ZREVRANK q m;ZPOPMIN q");
    call("streams", "XADD stream 1-1 f 1;XADD stream 2-1 f 2;XLEN stream;XRANGE stream - +;XREAD STREAMS stream 1-1");
    call("a group of a stream", "XGROUP CREATE stream readers 0;XREADGROUP GROUP readers me STREAMS stream >;XACK stream readers 1-1");
    call("bits, counts and places", "SETBIT bits 3 1;BITCOUNT bits;PFADD seen a b;PFCOUNT seen;GEOADD geo 13.36 38.11 p;GEOHASH geo p");
    call("types and copies", "SET {k}a 1;TYPE {k}a;RENAME {k}a {k}b;COPY {k}b {k}c;GET {k}c;OBJECT ENCODING {k}c");
    large_value();
    binary_value();
    call("keys", "KEYS a;DBSIZE");
    scan("scan", "COUNT 1000");
    scan("scan with a pattern", "MATCH s* TYPE set");
    call("scans of one key", "HSCAN h 0;SSCAN s 0;ZSCAN q 0");
    call("pipeline", "SET p1 1;INCR p1;SET p2 1;INCR p2;SET p3 1;INCR p3");
    deep_pipeline();
    call("transaction", "MULTI;SET {t}1 1;INCR {t}1;SET {t}2 1;EXEC");
    call("transaction, several slots", "MULTI;SET t1 1;SET t2 1;EXEC");
    call("transaction, discarded", "SET {t}1 kept;MULTI;SET {t}1 lost;DISCARD;GET {t}1");
    call("watch", "WATCH {w}a;MULTI;SET {w}a 2;EXEC");
    watch();
    call("script", "EVAL return(redis.call('INCRBY',KEYS[1],ARGV[1])) 1 e 2;SCRIPT LOAD return(1);EVALSHA 930269f31393d0be681588b6ab08dccee7d6bb67 0");
    call("script without keys", "EVAL return(ARGV[1]) 0 x");
    call("script with keys that it does not name", "MSET a 1 b 2 c 3;EVAL return{redis.call('GET','a'),redis.call('GET','b'),redis.call('GET','c')} 0");
    call("blocking pop", "RPUSH jobs 1;BLPOP jobs 1;BRPOP jobs 1;RPUSH jobs 2;BRPOPLPUSH jobs {jobs}done 1;BZPOPMIN none 1");
    call("blocking pop, several slots", "RPUSH jobs 1;BLPOP jobs more 1");
    call("blocking read of a stream", "XREAD BLOCK 300 STREAMS stream $");
    subscribe();
    call("subscribe and leave, in one write", "SUBSCRIBE news;PSUBSCRIBE new*;PUNSUBSCRIBE new*;UNSUBSCRIBE news;ECHO x");
    faults("errors of a node", port, "SET a x;INCR a;LPUSH a 1;NONSENSE;GET a");
    call("ping, echo", "PING;PING x;ECHO x");
    call("client", "CLIENT SETNAME me;CLIENT GETNAME;CLIENT NO-EVICT on");
    call("config get", "CONFIG GET maxmemory-policy");
    given_up();
    calls_with_functions();
    call("database 0", "SELECT 0;SET a 1");
    faults("password", port + 4, "GET a;AUTH wrong;AUTH secret;GET a;AUTH default secret;SET a 1");
    call("flushdb", "FLUSHDB;DBSIZE");
    call("database 1", "SELECT 1;SET a 1");
    return 0;
}
