"""SCAN over all primaries."""

import subprocess
import threading
from collections import Counter

from notifications import fail_over
from shared import Client, MOVED_SLOT, OTHER, PORT, PROXY, cluster, port_of, primaries, proxy, until


def fill(count):
    """Sets so many keys, and no others."""
    keys = [b"scan%d" % it for it in range(count)]
    Client().ask_all([["FLUSHALL"], *(["SET", it, "1"] for it in keys)])
    return set(keys)


def scan(clients, *words):
    """What a scan returns, one call after the other by the clients in turn, and its cursors."""
    found, cursors = [], [b"0"]
    while len(cursors) == 1 or cursors[-1] != b"0":
        reply = clients[len(cursors) % len(clients)].ask("SCAN", cursors[-1], *words)
        cursors.append(reply[0])
        found += reply[1]
    return found, cursors


WRONG = ["SCAN", "SCAN x", "SCAN -1", "SCAN 1x", "SCAN 18446744073709551616", "SCAN 9223372036854775807", "SCAN 0 COUNT 0", "SCAN 0 COUNT", "SCAN 0 MATCH"]


def try_scan():
    """SCAN returns each of 10,000 keys, by the clients of two threads in turn. Its options hold, and a wrong call is refused as by a server."""
    keys = fill(10000)
    with proxy(OTHER, PORT, "--threads", "2"):
        clients = [Client(OTHER) for _ in range(4)]
        clients[0].ask_all([["HSET", "hash", "a", "1"], ["SADD", "scan1", "x"]])
        found, cursors = scan(clients, "COUNT", "100")
        matched, typed, both = (scan(clients, *it.split())[0] for it in ("MATCH scan77* COUNT 1000", "TYPE hash", "MATCH h* COUNT 500 TYPE string"))
        refused = [[str(it.ask(*words.split()))[:21] for words in WRONG] for it in (clients[0], Client(PORT))]
    of_client = subprocess.run(["redis-cli", "-p", str(PROXY), "--scan", "--pattern", "scan?"], capture_output=True, text=True, timeout=20)
    print(len(found), len(set(found)), len(cursors), max(map(int, cursors)), len(matched), typed, both, refused, Counter(of_client.stdout.split()))
    is_right = set(found) == keys | {b"hash"} and max(map(int, cursors)) < 1 << 63
    is_chosen = set(matched) == {it for it in keys if it.startswith(b"scan77")} and typed == [b"hash"] and both == []
    is_refused = all(it.startswith("-ERR ") for it in refused[0]) and refused[0][1] == refused[1][1] == "-ERR invalid cursor"
    return is_right and is_chosen and is_refused and set(of_client.stdout.split()) == {f"scan{it}" for it in range(10)}


def try_scan_move():
    """While two slots move from node to node, a scan returns each key of all other slots."""
    keys, client, over, scans = fill(3000), Client(), threading.Event(), []
    moving = [b"{foo}%d" % it for it in range(300)]
    client.ask_all(["SET", it, "1"] for it in moving)
    slots = zip(keys, Client(PORT).ask_all(["CLUSTER", "KEYSLOT", it] for it in keys))
    staying = {it for it, slot in slots if slot not in (0, int(MOVED_SLOT))}

    def go_on():
        while not over.is_set():
            scans.append(set(scan([client], "COUNT", "50")[0]))

    scanner = threading.Thread(target=go_on)
    scanner.start()
    try:
        for slot in ["0", MOVED_SLOT] * 3:  # that of slot 0 is the first node of the map
            cluster("move", slot)
    finally:
        over.set()
        scanner.join()
    missing = [len(staying - it) for it in scans]
    after = set(scan([client])[0])
    print(f"{len(scans)} scans, {sum(missing)} keys missing; after that {len(after)}")
    return len(scans) > 2 and sum(missing) == 0 and after == keys.union(moving)


def try_scan_failover():
    """A scan that goes on after a replica has taken the place of a primary returns each key of the other primaries."""
    keys, client, port = fill(1000), Client(), port_of("foo")
    ports, found, cursor = primaries(), set(), b"0"
    slots = zip(keys, Client(PORT).ask_all(["CLUSTER", "KEYSLOT", it] for it in keys))
    staying = {it for it, slot in slots if ports[slot] != port}
    for at in range(1000):
        cursor, some = client.ask("SCAN", cursor, "COUNT", "20")
        found.update(some)
        if at == 20:
            took = fail_over(port), until(10, lambda: client.ask("SET", "foo", "1") == "+OK"), int(cursor) >> 48
        if cursor == b"0":
            break
    print(took, len(staying), len(found), len(staying - found))
    return took[0] is not None and not staying - found
