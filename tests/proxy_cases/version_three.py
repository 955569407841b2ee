"""Clients that speak version 3 of the protocol (RESP3)."""

import subprocess

from notifications import tell_keys
from shared import Client, OTHER, PORT, PROXY, port_of, proxy, request, set_password

HERE = [
    "HSET {foo}h a 1 b 2", "HGETALL {foo}h", "HGETALL {foo}none", "SADD {foo}s x", "SMEMBERS {foo}s", "ZADD {foo}z 1.5 a", "ZSCORE {foo}z a", "ZRANGE {foo}z 0 -1 WITHSCORES",
    "GET {foo}none", "MGET {foo}none {foo}h", "SET {foo}x 1", "SET {foo}x 2 NX", "LPUSH {foo}h 1", "EVAL return(redis.call('HGETALL',KEYS[1])) 1 {foo}h",
    "BLPOP {foo}none 0.1", "XADD {foo}l 1-1 a 1", "XREAD STREAMS {foo}l 0", "OBJECT ENCODING {foo}x", "CONFIG GET databasesx",
    "MULTI", "HGETALL {foo}h", "GET {foo}none", "EXEC", "WATCH {foo}x", "SET {foo}x 3", "MULTI", "EXEC", "WATCH {foo}x", "MULTI", "HGETALL {foo}h", "EXEC",
    "UNSUBSCRIBE", "PING", "SUBSCRIBE {foo}c", "PING x", "GET {foo}x", "PUBLISH none x", "UNSUBSCRIBE {foo}c",
]  # fmt: skip


def hello(port, *words):
    client = Client(port)
    return client, client.ask("HELLO", "3", *words)


def try_three():
    """Replies to clients of version 3 are as a server's, and those to other clients stay as they are."""
    old, node = Client(), hello(port_of("foo"))[0]
    client, greeting = hello(PROXY, "SETNAME", "me")
    old.ask_all([["FLUSHALL"], ["HSET", "{foo}h", "a", "1"]])
    seen = [[at.ask(*it.split()) for it in HERE] for at in (node, client) if at.ask("DEL", "{foo}h", "{foo}s", "{foo}z", "{foo}x", "{foo}l") is not None]
    for it in zip(HERE, *seen):
        print(*it, sep="  |  ")
    print(greeting, old.ask("HGETALL", "{foo}h"), old.ask("GET", "none"))
    is_old = old.ask("HGETALL", "{foo}h") == [b"a", b"1", b"b", b"2"] and old.ask("HELLO")[5] == 2
    return seen[0] == seen[1] and greeting[b"proto"] == 3 and is_old


def try_three_combined():
    """Replies that the proxy makes, of several nodes or its own, have version 3. The client may go back to version 2."""
    client, _ = hello(PROXY)
    client.ask_all([["FLUSHALL"], ["MSET", "foo", "1", "bar", "$-1\r\n*-1\r\n"]])
    found = [client.ask(*it.split()) for it in ("MGET foo none bar", "DEL foo none", "DBSIZE", "KEYS *", "RANDOMKEY", "SCAN 0 COUNT 1000", "CONFIG GET databases", "CLIENT TRACKING on")]
    found += [client.ask("FLUSHALL"), client.ask("RANDOMKEY"), b" resp=3" in client.ask("CLIENT", "INFO"), client.ask("HELLO", "4")[:8]]
    back = [client.ask("HELLO", "2")[5], client.ask("MGET", "a", "b"), client.ask("BLPOP", "none", "0.1"), client.ask("HELLO", "3")[b"proto"], client.ask("RESET"), client.ask("HELLO")[5]]
    rounds = [[["HELLO", str(2 + it % 2)], ["SET", "foo", str(it)], ["MGET", "bar", "foo"], ["MSET", "foo", "x", "bar", "y"], ["GET", "foo"]] for it in range(200)]
    order = client.ask_all(words for it in rounds for words in it)
    mixed = client.ask_all([["HELLO", "2"], ["HGETALL", "none"], ["HELLO", "3"], ["HGETALL", "none"], ["GET", "none"]])
    run = subprocess.run(["redis-cli", "-3", "-p", str(PROXY), "mget", "none", "foo"], capture_output=True, text=True, timeout=20)
    print(found, back, mixed, run.stdout, order[5:10])
    is_in_order = all(order[5 * it + 2] == [b"y" if it else None, b"%d" % it] and order[5 * it + 4] == b"x" for it in range(200))
    is_right = found[:5] == [[b"1", None, b"$-1\r\n*-1\r\n"], 1, 1, [b"bar"], b"bar"] and found[6] == {b"databases": b"1"} and found[7].startswith("-ERR the proxy does not")
    return is_right and is_in_order and found[8:] == ["+OK", None, True, "-NOPROTO"] and back == [2, [None, None], None, 3, "+RESET", 2] and mixed[1] == [] and mixed[3:] == [{}, None]


def try_three_subscriber():
    """A subscriber of version 3 goes on with other commands, and gets messages as pushes, those of keys too."""
    client, other = hello(PROXY)[0], Client()
    tell_keys("KEA")
    try:
        client.socket.sendall(request("PSUBSCRIBE", "__keyspace@0__:told*", "n*"))
        first = [client.lines.readline()] + [client.lines.readline() for _ in range(5)] + [client.reply()]
        found = [other.ask("PUBLISH", "news", "x"), client.reply(), client.ask("GET", "none"), client.ask("BLPOP", "a", "1")[:4], client.ask("HELLO", "2")[:4], client.ask("PING")]
        other.ask_all(["SET", f"told{it}", "1"] for it in range(20))
        told = {client.reply()[2] for _ in range(20)}
        left = [client.ask("PUNSUBSCRIBE"), client.reply(), client.ask("SET", "told1", "2"), client.ask("BLPOP", "none", "0.1")]
    finally:
        tell_keys("")
    print(first, found, told, left)
    is_right = found == [1, [b"pmessage", b"n*", b"news", b"x"], None, "-ERR", "-ERR", "+PONG"] and len(told) == 20
    return first[0] == b">3\r\n" and first[-1] == [b"psubscribe", b"n*", 2] and is_right and left[2:] == ["+OK", None]


def try_three_password():
    """Nodes that want a password get it with HELLO 3."""
    set_password("secret")
    try:
        with proxy(OTHER, PORT, "--password", "secret"):
            client, _ = hello(OTHER)
            found = [client.ask("SET", "foo", "1"), client.ask("HGETALL", "none"), client.ask("BLPOP", "none", "0.1"), client.ask("MGET", "foo", "none")]
    finally:
        set_password("", "secret")
    print(found)
    return found == ["+OK", {}, None, [b"1", None]]
