#include "commands.h"

#include <string.h>
#include <strings.h>

/* The table has room for more than the names below and those that are added, so that each search ends. */
enum { PLACES = COMMANDS, LONGEST_NAME = 40 };

typedef struct group {
    command_kind kind;
    const char *names; /* by spaces; two words of a name are joined by `|` */
} group;

static const group groups[] = {
    {COMMAND_TAKEN,
     "APPEND BITCOUNT BITFIELD BITFIELD_RO BITOP BITPOS COMMAND COPY DBSIZE DECR DECRBY DUMP EXPIRE "
     "EXPIREAT EXPIRETIME FLUSHALL FLUSHDB GEOADD GEODIST GEOHASH GEOPOS GEORADIUS GEORADIUSBYMEMBER "
     "GEORADIUSBYMEMBER_RO GEORADIUS_RO GEOSEARCH GEOSEARCHSTORE GET GETBIT GETDEL GETEX GETRANGE GETSET "
     "HDEL HEXISTS HEXPIRE HEXPIREAT HEXPIRETIME HGET HGETALL HGETDEL HGETEX HINCRBY HINCRBYFLOAT HKEYS "
     "HLEN HMGET HMSET HPERSIST HPEXPIRE HPEXPIREAT HPEXPIRETIME HPTTL HRANDFIELD HSCAN HSET HSETEX HSETNX "
     "HSTRLEN HTTL HVALS INCR INCRBY INCRBYFLOAT JSON.ARRAPPEND JSON.ARRINDEX JSON.ARRINSERT JSON.ARRLEN "
     "JSON.ARRPOP JSON.ARRTRIM JSON.CLEAR JSON.DEL JSON.FORGET JSON.GET JSON.MERGE JSON.NUMINCRBY "
     "JSON.NUMMULTBY JSON.OBJKEYS JSON.OBJLEN JSON.SET JSON.STRAPPEND JSON.STRLEN JSON.TOGGLE JSON.TYPE "
     "KEYS LCS LINDEX LINSERT LLEN LMOVE LMPOP LPOP LPOS LPUSH LPUSHX LRANGE LREM LSET LTRIM MEMORY|USAGE "
     "MSETNX OBJECT PERSIST PEXPIRE PEXPIREAT PEXPIRETIME PFADD PFCOUNT PFMERGE PSETEX PTTL "
     "PUBSUB|CHANNELS PUBSUB|NUMPAT PUBSUB|NUMSUB RANDOMKEY RENAME RENAMENX RESTORE RPOP RPOPLPUSH RPUSH "
     "RPUSHX SADD SCARD SCRIPT|EXISTS SCRIPT|FLUSH SCRIPT|KILL SCRIPT|LOAD SDIFF SDIFFSTORE SET SETBIT "
     "SETEX SETNX SETRANGE SINTER SINTERCARD SINTERSTORE SISMEMBER SMEMBERS SMISMEMBER SMOVE SORT SORT_RO "
     "SPOP SPUBLISH SRANDMEMBER SREM SSCAN STRLEN SUBSTR SUNION SUNIONSTORE TIME TTL TYPE XACK XADD "
     "XAUTOCLAIM XCLAIM XDEL XGROUP XINFO XLEN XPENDING XRANGE XREVRANGE XSETID XTRIM ZADD ZCARD ZCOUNT "
     "ZDIFF ZDIFFSTORE ZINCRBY ZINTER ZINTERCARD ZINTERSTORE ZLEXCOUNT ZMPOP ZMSCORE ZPOPMAX ZPOPMIN "
     "ZRANDMEMBER ZRANGE ZRANGEBYLEX ZRANGEBYSCORE ZRANGESTORE ZRANK ZREM ZREMRANGEBYLEX ZREMRANGEBYRANK "
     "ZREMRANGEBYSCORE ZREVRANGE ZREVRANGEBYLEX ZREVRANGEBYSCORE ZREVRANK ZSCAN ZSCORE ZUNION ZUNIONSTORE "
     "FUNCTION|DELETE FUNCTION|FLUSH FUNCTION|LOAD FUNCTION|LIST"},
    {COMMAND_SPLIT, "DEL EXISTS JSON.MGET JSON.MSET MGET MSET TOUCH UNLINK"},
    {COMMAND_SCRIPT, "EVAL EVALSHA EVALSHA_RO EVAL_RO FCALL FCALL_RO"},
    {COMMAND_STREAM, "XREAD XREADGROUP"},
    {COMMAND_PUBLISH, "PUBLISH"},
    {COMMAND_TRANSACTION, "MULTI EXEC DISCARD WATCH UNWATCH"},
    {COMMAND_SUBSCRIPTION, "SUBSCRIBE UNSUBSCRIBE PSUBSCRIBE PUNSUBSCRIBE"},
    {COMMAND_MONITOR, "SSUBSCRIBE SUNSUBSCRIBE MONITOR"},
    {COMMAND_BLOCKING, "BLPOP BRPOP BRPOPLPUSH BLMOVE BLMPOP BZPOPMIN BZPOPMAX BZMPOP"},
    {COMMAND_WAIT, "WAIT WAITAOF"},
    {COMMAND_CURSOR, "SCAN"},
    {COMMAND_ADMIN,
     "ACL ASKING BGREWRITEAOF BGSAVE CLUSTER DEBUG FAILOVER LASTSAVE LATENCY "
     "LOLWUT MIGRATE MODULE MOVE PSYNC READONLY READWRITE REPLCONF REPLICAOF RESTORE-ASKING SAVE "
     "SHUTDOWN SLAVEOF SLOWLOG SWAPDB SYNC PFDEBUG PFSELFTEST"},
    {COMMAND_PING, "PING"},
    {COMMAND_ECHO, "ECHO"},
    {COMMAND_QUIT, "QUIT"},
    {COMMAND_SELECT, "SELECT"},
    {COMMAND_AUTH, "AUTH"},
    {COMMAND_HELLO, "HELLO"},
    {COMMAND_RESET, "RESET"},
    {COMMAND_OWN, "CLIENT CONFIG INFO ROLE"},
};

typedef struct place {
    char name[LONGEST_NAME];
    command_kind kind;
    bool is_added; /* by commands_take */
} place;

static place places[PLACES];

static size_t hash(const char *name, size_t len) {
    uint32_t sum = 2166136261u;
    for (size_t at = 0; at < len; at++)
        sum = (sum ^ (uint8_t)name[at]) * 16777619u;
    return sum % PLACES;
}

static place *place_of(const char *name, size_t len) {
    size_t at = hash(name, len);
    while (places[at].name[0] != 0 && (strncmp(places[at].name, name, len) != 0 || places[at].name[len] != 0))
        at = (at + 1) % PLACES;
    return &places[at];
}

/* Puts a word in upper case after a name. Returns the new length, or 0 if it is too long. */
static size_t join(char *name, size_t len, word word) {
    if (word.len >= LONGEST_NAME - len)
        return 0;
    for (size_t at = 0; at < word.len; at++) {
        char letter = word.text[at];
        name[len + at] = (char)(letter >= 'a' && letter <= 'z' ? letter - 32 : letter);
    }
    return len + word.len;
}

static place *add(const char *name, size_t len, command_kind kind) {
    place *found = place_of(name, len);
    memcpy(found->name, name, len);
    found->kind = kind;
    return found;
}

const char *commands_refuse(const char *name) {
    char upper[LONGEST_NAME];
    size_t len = join(upper, 0, (word){name, strlen(name)});
    if (len == 0 || len + 1 >= LONGEST_NAME || memchr(upper, '|', len) != NULL)
        return "is not a command's name";
    const place *found = place_of(upper, len);
    return found->kind == COMMAND_UNKNOWN || found->is_added ? NULL : "is known already";
}

void commands_take(const char *name) {
    char upper[LONGEST_NAME];
    add(upper, join(upper, 0, (word){name, strlen(name)}), COMMAND_TAKEN)->is_added = true;
}

void commands_start(void) {
    for (size_t group = 0; group < sizeof groups / sizeof *groups; group++) {
        const char *at = groups[group].names;
        while (*at != 0) {
            size_t len = strcspn(at, " ");
            add(at, len, groups[group].kind);
            at += len;
            at += strspn(at, " ");
        }
    }
}

words words_of(const uint8_t *request, size_t len) {
    words it = {(const char *)request + 1, (const char *)request + len, 0};
    while (it.at < it.end && *it.at >= '0' && *it.at <= '9')
        it.left = 10 * it.left + (uint64_t)(*it.at++ - '0');
    it.at += 2;
    return it;
}

bool words_next(words *words, word *word) {
    uint64_t len = 0;
    if (words->left == 0 || words->end - words->at < 5)
        return false;
    const char *at = words->at + 1;
    while (at < words->end && *at >= '0' && *at <= '9')
        len = 10 * len + (uint64_t)(*at++ - '0');
    at += 2;
    if (at > words->end || len > (uint64_t)(words->end - at))
        return false;
    *word = (struct word){at, (size_t)len};
    words->at = at + len + 2;
    words->left--;
    return true;
}

bool word_is(word word, const char *text) {
    return word.len == strlen(text) && strncasecmp(word.text, text, word.len) == 0;
}

const char *command_name(size_t number) { return places[number].name; }

/* The place of a name of two words, as SCRIPT LOAD, or NULL. */
static const place *with_second(char *name, size_t len, words words) {
    word second;
    name[len++] = '|';
    if (!words_next(&words, &second))
        return NULL;
    len = join(name, len, second);
    return len == 0 || memchr(name, 0, len) != NULL ? NULL : place_of(name, len);
}

/* Whether a word is BLOCK. A key of this name counts as well: a group may be named as any other word. */
static bool has_block(words words) {
    word it;
    while (words_next(&words, &it))
        if (word_is(it, "BLOCK"))
            return true;
    return false;
}

command_kind command_of(const uint8_t *request, size_t len, size_t *number) {
    char name[LONGEST_NAME];
    words words = words_of(request, len);
    word first;
    *number = COMMANDS;
    if (!words_next(&words, &first))
        return COMMAND_UNKNOWN;
    size_t length = join(name, 0, first);
    if (length == 0 || length + 1 >= LONGEST_NAME || memchr(name, '|', length) || memchr(name, 0, length))
        return COMMAND_UNKNOWN;
    const place *found = place_of(name, length);
    if (found->kind == COMMAND_UNKNOWN)
        found = with_second(name, length, words);
    if (found == NULL || found->kind == COMMAND_UNKNOWN)
        return COMMAND_UNKNOWN;
    *number = (size_t)(found - places);
    command_kind kind = found->kind;
    return kind == COMMAND_STREAM && has_block(words) ? COMMAND_BLOCKING : kind;
}

const char *command_refusal(command_kind kind) {
    static const char *const all[] = {[COMMAND_UNKNOWN] = "it does not know this command",
                                      [COMMAND_MONITOR] = "it is about one node",
                                      [COMMAND_WAIT] = "it is about the writes of one connection",
                                      [COMMAND_ADMIN] = "it manages a node: send it there"};
    return kind < sizeof all / sizeof *all ? all[kind] : NULL;
}
