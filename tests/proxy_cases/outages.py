"""What has a cluster of this machine change while clients use it: connections are cut, and primaries are killed."""

import random
import time
from collections import Counter
from contextlib import suppress

import shared
from shared import PORT, Client

PORTS = range(PORT, PORT + 6)


class Whole:
    """What comes on a connection. It is an error if the connection ends before the rest of a reply has come."""

    def __init__(self, lines):
        self.lines = lines

    def readline(self):
        line = self.lines.readline()
        if not line.endswith(b"\r\n"):
            raise ConnectionError("a part of a line")
        return line

    def read(self, count):
        found = self.lines.read(count)
        if len(found) < count:
            raise ConnectionError("a part of a text")
        return found


class Asker:
    """Asks a node, and asks anew if the connection was cut or the node loads its data, for two minutes. A
    command may run twice. Keys that move replace what a failover left of them at the new node."""

    def __init__(self, port):
        self.port, self.refused = port, Counter()
        self.connect()

    def connect(self):
        self.client = Client(self.port)
        self.client.lines = Whole(self.client.lines)

    def ask(self, *words):
        if words[0] == "MIGRATE":
            words = (*words[:6], "REPLACE", *words[6:])
        end, reply = time.monotonic() + 120, ""
        while reply == "" or (isinstance(reply, str) and reply.startswith("-LOADING")):
            if time.monotonic() > end:
                raise AssertionError(f"the node of port {self.port} does not answer")
            reply = self.ask_once(words)
        if words[0] == "MIGRATE" and reply[:1] == "-":
            self.refused[reply] += 1
            if self.refused.total() == 100:
                raise AssertionError(f"keys do not move: {dict(self.refused)}")
        return reply

    def ask_once(self, words):
        """The reply, or nothing if the connection was cut."""
        try:
            reply = self.client.ask(*words)
        except OSError:
            self.connect()
            return ""
        if isinstance(reply, str) and reply.startswith("-LOADING"):
            time.sleep(0.05)
        return reply


def cut(seed, over, longest=0.5):
    """Cuts all connections of clients to a node, a few times a second, and then prints how many these were."""
    rng, count = random.Random(seed), 0
    while not over.wait(rng.uniform(0.05, longest)):
        with suppress(OSError, TypeError, ValueError):  # a node that ends says nothing, or half of it
            count += Client(PORT + rng.randrange(6)).ask("CLIENT", "KILL", "TYPE", "normal")
    print(f"cut {count} connections", flush=True)


def owner_of(slot, port):
    """The port of a slot's primary, as the node of a port knows it, or None."""
    return next((it[2][1] for it in Asker(port).ask("CLUSTER", "SLOTS") if it[0] <= slot <= it[1]), None)


def serves_elsewhere(slot, port):
    """Whether another node than the one at the port serves a slot, as a node that runs sees it."""
    node = next(it for it in PORTS if it != port and shared.is_open(it))
    return owner_of(slot, node) not in (None, port)


def counts_of_tokens():
    """How often the servers ran the INCR of each token, which is a key that begins with `t`."""
    found = Counter()
    for port in set(shared.primaries().values()):
        node = Client(port)
        keys = node.ask("KEYS", "t*")
        for key, value in zip(keys, node.ask_all([["GET", key] for key in keys])):
            if isinstance(value, bytes):  # else the slot is another node's
                found[key.decode()] = int(value)
    return found
