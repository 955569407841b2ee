"""WATCH, and what stands between MULTI and EXEC."""

import threading
import time
from collections import Counter

from shared import Client, Move, OTHER, PORT, PROXY, port_of, proxy, until


def parts(replies):
    """Replies with the first words of errors alone."""
    return [it.split()[0] if isinstance(it, str) and it.startswith("-") else parts(it) if isinstance(it, list) else it for it in replies]


def try_watch():
    """EXEC after WATCH takes effect if nobody changed the keys since. It is as with a server."""
    steps = [
        ("me", "SET {foo}a 1"), ("me", "WATCH {foo}a {foo}b"), ("me", "MULTI"), ("me", "INCR {foo}a"), ("me", "EXEC"),
        ("me", "WATCH {foo}a"), ("other", "SET {foo}a 7"), ("me", "MULTI"), ("me", "INCR {foo}a"), ("me", "EXEC"), ("me", "GET {foo}a"),
        ("me", "WATCH {foo}a"), ("me", "WATCH {foo}b"), ("other", "SET {foo}b 7"), ("me", "MULTI"), ("me", "EXEC"),
        ("me", "WATCH {foo}a"), ("other", "SET {foo}a 8"), ("me", "UNWATCH"), ("me", "MULTI"), ("me", "INCR {foo}a"), ("me", "EXEC"),
        ("me", "WATCH {foo}a"), ("other", "SET {foo}a 8"), ("me", "MULTI"), ("me", "DISCARD"), ("me", "MULTI"), ("me", "INCR {foo}a"), ("me", "EXEC"),
        ("me", "WATCH {foo}a"), ("other", "SET {foo}a 8"), ("me", "MULTI"), ("me", "NONE"), ("me", "EXEC"), ("me", "MULTI"), ("me", "INCR {foo}a"), ("me", "EXEC"),
        ("me", "UNWATCH"), ("me", "WATCH"), ("me", "MULTI"), ("me", "WATCH {foo}a"), ("me", "UNWATCH"), ("me", "GET {foo}a"), ("me", "EXEC"),
        ("me", "WATCH {foo}a"), ("me", "MULTI"), ("me", "EXEC"), ("me", "EXEC"),
    ]  # fmt: skip
    seen = []
    for port in (port_of("{foo}a"), PROXY):
        clients = {"me": Client(port), "other": Client(port)}
        seen.append(parts([clients[who].ask(*words.split()) for who, words in steps]))
    print(*zip(steps, *seen), sep="\n")
    client = Client()
    found = [client.ask("WATCH", "foo", "bar"), client.ask("WATCH", "foo"), client.ask("WATCH", "bar"), client.ask("MULTI"), client.ask("SET", "bar", "1")]
    print(found)
    return seen[0] == seen[1] and parts(found) == ["-CROSSSLOT", "+OK", "-CROSSSLOT", "+OK", "-CROSSSLOT"]


def try_watch_lost():
    """EXEC gives nil if the connection that watches was lost, or the slot has moved. An idle one is kept."""
    client, found = Client(), []
    client.ask("MSET", "{watch}a", "1", "{watch}b", "1")
    for does in ("kill", "move"):
        found.append(client.ask("WATCH", "{watch}a"))
        if does == "kill":
            Client(port_of("{watch}a")).ask("CLIENT", "KILL", "TYPE", "normal")
        else:
            move = Move("{watch}a")
            move.key("{watch}a")
            move.finish("{watch}b")
        found.append(client.ask_all([["MULTI"], ["INCR", "{watch}a"], ["EXEC"]])[2])
    until(10, lambda: client.ask("GET", "{watch}a") == b"1")
    client.ask("WATCH", "{watch}a")
    time.sleep(12)  # a connection that is not needed is closed after ten seconds
    found.append(client.ask_all([["MULTI"], ["GET", "{watch}a"], ["EXEC"]])[2])
    found.append(client.ask_all([["WATCH", "{watch}a"], ["MULTI"], ["INCR", "{watch}a"], ["EXEC"]]))
    print(found)
    return found == ["+OK", None, "+OK", None, [b"1"], ["+OK", "+OK", "+QUEUED", [2]]]


def try_watch_storm():
    """Clients that count with WATCH, a GET and EXEC, all at once: each EXEC that took effect counts once."""
    Client().ask("DEL", "{foo}sum")
    counts = Counter()

    def count():
        client = Client()
        for _ in range(200):
            client.ask("WATCH", "{foo}sum")
            at = int(client.ask("GET", "{foo}sum") or 0)
            found = client.ask_all([["MULTI"], ["SET", "{foo}sum", str(at + 1)], ["EXEC"]])[2]
            counts["done" if found == ["+OK"] else "nil" if found is None else str(found)] += 1

    threads = [threading.Thread(target=count) for _ in range(8)]
    for it in threads:
        it.start()
    for it in threads:
        it.join()
    total = int(Client().ask("GET", "{foo}sum"))
    print(dict(counts), total)
    return counts.keys() == {"done", "nil"} and counts["done"] == total


def try_keyless_queued():
    """Commands without keys may stand in a transaction, alone too."""
    client = Client()
    some = ["PING", "PING x", "ECHO y", "SELECT 0", "PUBLISH none x", "SET foo 1", "EVAL return(7) 0", "GET foo"]
    found = client.ask_all([["MULTI"], *(it.split() for it in some), ["TIME"], ["EXEC"], ["MULTI"], ["PING"], ["EXEC"]])
    refused = parts(client.ask_all([["MULTI"], ["SELECT", "1"], ["EXEC"], ["MULTI"], ["DBSIZE"], ["EXEC"], ["GET", "foo"]]))
    print(found, refused)
    is_right = found[10][:-1] == ["+PONG", b"x", b"y", "+OK", 0, "+OK", 7, b"1"] and len(found[10][-1]) == 2 and found[-1] == ["+PONG"]
    return is_right and refused == ["+OK", "-ERR", "-EXECABORT"] * 2 + [b"1"]


def try_split_transaction():
    """With --split-transactions, MULTI may have keys of several slots. The replies come in the order of the commands, and each slot's commands take effect as one."""
    keys = [f"split{it}" for it in range(100)]
    with proxy(OTHER, PORT, "--split-transactions") as (_, _, report):
        client = Client(OTHER)
        client.ask("DEL", *keys)
        some = [["SET", it, it] for it in keys] + [["ECHO", "x"]] + [["GET", it] for it in reversed(keys)] + [["LPUSH", keys[0], "x"], ["INCR", "{split0}n"]]
        found = client.ask_all([["MULTI"], *some, ["EXEC"]])[-1]
        wrong = parts(client.ask_all([["MULTI"], ["SET", "foo", "1"], ["SET", "bar"], ["GET", "foo"], ["EXEC"], ["GET", "foo"]]))
        watched = parts(client.ask_all([["WATCH", "foo"], ["MULTI"], ["SET", "bar", "1"], ["EXEC"]]))
        alone = client.ask_all([["MULTI"], ["SET", "foo", "2"], ["GET", "foo"], ["EXEC"]])[-1]
        report.seek(0)
        is_said = "is not atomic" in report.read()
    print(found, wrong, watched, alone, is_said)
    wanted = ["+OK"] * 100 + [b"x"] + [it.encode() for it in reversed(keys)] + ["-WRONGTYPE Operation against a key holding the wrong kind of value", 1]
    is_right = found[:-1] == wanted[:-1] and wrong[-2:] == [["+OK", "-EXECABORT", b"1"], b"1"]
    return is_right and watched[2:] == ["-CROSSSLOT", "-EXECABORT"] and alone == ["+OK", b"2"] and is_said
