"""What clients are told of keys."""

import time
from collections import Counter

from outside import rest_of
from shared import Client, PORT, port_of, primaries, until


def tell_keys(events):
    """Has all nodes tell what happens to their keys."""
    for port in range(PORT, PORT + 6):
        Client(port).ask("CONFIG", "SET", "notify-keyspace-events", events)


def told(subscriber, count):
    """The kinds and channels of the next messages."""
    return Counter((it[0], it[-2]) for it in (subscriber.reply() for _ in range(count)))


def try_keys_told():
    """Channels and patterns that begin with __key tell of the keys of all primaries, once each, and the replies have the counts of one server."""
    client, subscriber, single, keys = Client(), Client(), Client(PORT), [f"told{it}" for it in range(60)]
    some = ["PSUBSCRIBE __keyspace@0__:told* __none*", "SUBSCRIBE news", "SUBSCRIBE __keyevent@0__:del", "UNSUBSCRIBE __none", "PUNSUBSCRIBE __none*"]
    tell_keys("KEA")
    try:
        found, wanted = ([at.ask(*some[0].split()), at.reply()] + [at.ask(*it.split()) for it in some[1:]] for at in (subscriber, single))
        client.ask_all(["SET", it, "1"] for it in keys)
        spaces = told(subscriber, 60)
        client.ask_all(["DEL", it] for it in keys)
        events = told(subscriber, 120)
        client.ask("PUBLISH", "news", "x")
        mixed = [subscriber.reply(), subscriber.ask("PUNSUBSCRIBE"), client.ask("SET", "told1", "1"), client.ask("DEL", *keys)]
        rest = [subscriber.reply(), subscriber.ask("UNSUBSCRIBE", "__keyevent@0__:del", "news"), subscriber.reply(), client.ask("DEL", "told1"), subscriber.ask("GET", "told1")]
    finally:
        tell_keys("")
    print(found, wanted, spaces, events, mixed, rest, sep="\n")
    channels = Counter((b"pmessage", b"__keyspace@0__:%s" % it.encode()) for it in keys)
    is_told = spaces == channels and events == channels + Counter({(b"message", b"__keyevent@0__:del"): 60})
    is_over = mixed == [[b"message", b"news", b"x"], [b"punsubscribe", b"__keyspace@0__:told*", 2], "+OK", 1]
    is_over &= rest == [[b"message", b"__keyevent@0__:del", b"told1"], [b"unsubscribe", b"__keyevent@0__:del", 1], [b"unsubscribe", b"news", 0], 0, None]
    return found == wanted and is_told and is_over


def replica_of(port):
    """The port of a primary's replica, or None if the map has none."""
    return next((it[3][1] for it in Client(PORT).ask("CLUSTER", "SLOTS") if it[2][1] == port and len(it) > 3), None)


def fail_over(port):
    """Has a replica take the place of a primary."""
    until(60, lambda: replica_of(port))
    new = replica_of(port)
    assert Client(new).ask("CLUSTER", "FAILOVER") == "+OK"
    return until(60, lambda: new in primaries().values() and port not in primaries().values())


def try_keys_told_failover():
    """After a replica has taken the place of a primary, its keys are told, once each. A subscriber whose own node is no primary any more is closed."""
    client, subscriber, first = Client(), Client(), primaries()[0]
    port = next(it for it in primaries().values() if it != first)
    keys = [it for it in map(str, range(1000)) if port_of(it) == port][:20]
    tell_keys("KEA")
    try:
        found = [subscriber.ask("PSUBSCRIBE", "__keyspace@0__:*")]
        found.append(fail_over(port))
        until(10, lambda: client.ask("SET", keys[0], "1") == "+OK")  # it is redirected, and the map is read
        time.sleep(2)
        client.ask_all(["SET", it, "1"] for it in [*keys[1:], "last"])
        time.sleep(1)
        client.ask("SET", "last", "2")
        seen = Counter()
        while seen["last"] < 2:
            seen[subscriber.reply()[2][15:].decode()] += 1
        found.append(fail_over(first))
        until(10, lambda: client.ask("SET", "other", "1") == "+OK")
        start = time.monotonic()
        rest_of(subscriber.socket)
        took = time.monotonic() - start
    finally:
        tell_keys("")
    print(found, dict(seen), took)
    return all(seen[it] == 1 for it in keys[1:]) and took < 20


def try_published():
    """PUBLISH says how many clients of the proxy get the message, those with a pattern too. Messages come in the order in which they were published."""
    client, subscribers = Client(), [Client() for _ in range(5)]
    for at, it in enumerate(subscribers):
        it.ask(*(["SUBSCRIBE", "news", "more"] if at % 2 else ["PSUBSCRIBE", "n*"]))
        if at % 2:
            it.reply()
    counts = Counter(client.ask_all(["PUBLISH", "news", str(it)] for it in range(50)))
    order = [[int(it.reply()[-1]) for _ in range(50)] for it in subscribers]
    print(counts, client.ask("PUBLISH", "more", "x"), client.ask("PUBLISH", "none", "x"), order[0])
    return counts == {5: 50} and order == [list(range(50))] * 5
