"""A cluster of nodes in memory, which answer on sockets of this machine, for tests of clients.

A thread runs the nodes. They know a few commands, and answer as a cluster does: with MOVED and ASK, with
the map of the slots, and with an error if the login is missing. A test moves slots, kills nodes, and
cuts a link after any byte of a reply.
"""

import asyncio
import random
import threading
from binascii import crc_hqx
from collections import deque

SLOTS = 16384
OK, NIL = b"+OK\r\n", b"$-1\r\n"


def slot_of(key):
    start = key.find(b"{")
    end = key.find(b"}", start + 1)
    tag = key[start + 1 : end] if start >= 0 and end > start + 1 else key
    return crc_hqx(tag, 0) % SLOTS


def bulk(value):
    return NIL if value is None else b"$%d\r\n%s\r\n" % (len(value), value)


def number(value):
    return b":%d\r\n" % value


def array(items):
    return b"*%d\r\n" % len(items) + b"".join(items)


def words_at(data):
    """The words of the first request and its end, or None if more bytes are needed."""
    head = data.find(b"\r\n")
    if head < 0:
        return None
    words, at = [], head + 2
    for _ in range(int(data[1:head])):
        end = data.find(b"\r\n", at)
        if end < 0:
            return None
        start, length = end + 2, int(data[at + 1 : end])
        at = start + length + 2
        if len(data) < at:
            return None
        words.append(bytes(data[start : start + length]))
    return words, at


class Link(asyncio.Protocol):
    """A connection of a client to a node."""

    def __init__(self, node):
        self.node, self.data, self.late = node, bytearray(), deque()
        self.is_asking, self.is_known = False, node.cluster.password is None

    def connection_made(self, transport):
        self.transport = transport
        self.node.links.add(self)

    def connection_lost(self, _):
        self.node.links.discard(self)

    def data_received(self, data):
        self.data += data
        cluster = self.node.cluster
        if self.node.index in cluster.silent:
            return
        replies = []
        while self.data and (found := words_at(self.data)):
            words, end = found
            del self.data[:end]
            replies.append(cluster.garbled(words, self.node.reply(self, words)))
        if cluster.delay:
            self.late.append(b"".join(replies))
            wait = cluster.random.uniform(0, cluster.delay)
            asyncio.get_running_loop().call_later(wait, lambda: self.write(self.late.popleft()))
        else:
            self.write(b"".join(replies))

    def write(self, data):
        """Writes replies, up to the byte at which the test has the link cut."""
        cuts = self.node.cluster.cuts
        if cuts and len(data) > cuts[0]:
            self.transport.write(data[: cuts.popleft()])
            self.transport.close()
            return
        if cuts:
            cuts[0] -= len(data)
        if pause := self.node.cluster.pause:
            for at in range(len(data)):
                asyncio.get_running_loop().call_later(at * pause, self.transport.write, data[at : at + 1])
            return
        self.transport.write(data)


class Node:
    """A node of the cluster, with a port of its own."""

    def __init__(self, cluster, index):
        self.cluster, self.index = cluster, index
        self.links = set()
        self.is_alive = True

    async def listen(self):
        loop = asyncio.get_running_loop()
        self.server = await loop.create_server(lambda: Link(self), "127.0.0.1", 0)
        self.port = self.server.sockets[0].getsockname()[1]

    def drop_links(self):
        for link in list(self.links):
            link.transport.abort()

    def die(self):
        self.is_alive = False
        self.server.close()
        self.drop_links()

    def reply(self, link, words):
        """The reply to a request, after its effect."""
        asking, link.is_asking = link.is_asking, False
        name, *rest = [words[0].upper(), *words[1:]]
        if name == b"AUTH":
            link.is_known = rest[-1] == self.cluster.password
            return OK if link.is_known else b"-WRONGPASS invalid username-password pair\r\n"
        if not link.is_known:
            return b"-NOAUTH Authentication required.\r\n"
        if name == b"ASKING":
            link.is_asking = True
            return OK
        if name == b"CLUSTER":
            return self.cluster.map_reply()
        if name == b"DBSIZE":
            own = [key for key in self.cluster.values if self.cluster.owner(key) is self]
            return number(len(own))
        keys = rest[::2] if name == b"MSET" else rest if name in (b"MGET", b"DEL", b"EXISTS") else rest[:1]
        if self.cluster.is_down:
            return b"-CLUSTERDOWN The cluster is down\r\n"
        return self.redirect(keys, asking) or self.cluster.run(name, rest)

    def redirect(self, keys, asking):
        """The redirect of a command with these keys, or None if it runs here."""
        slot = slot_of(keys[0])
        owner, (target, moved) = self.cluster.owners[slot], self.cluster.moving.get(slot, (None, ()))
        if self is target and asking:
            return None
        if self is not owner:
            return b"-MOVED %d 127.0.0.1:%d\r\n" % (slot, owner.port)
        if target is None or not any(key in moved or key not in self.cluster.values for key in keys):
            return None
        return b"-ASK %d 127.0.0.1:%d\r\n" % (slot, target.port)


class Cluster:
    """A cluster of some nodes, which have the slots in equal runs. Leave it by `with`."""

    def __init__(self, count=3, password=None, delay=0.0, seed=1):
        self.password, self.delay, self.random = password, delay, random.Random(seed)
        self.values = {}
        self.moving = {}
        self.cuts = deque()
        self.silent = set()
        # how long a node pauses before the next byte
        self.pause = 0.0
        # how likely a reply is changed
        self.garbles = 0.0
        self.is_down = False
        self.loop = asyncio.new_event_loop()
        self.thread = threading.Thread(target=self.loop.run_forever, daemon=True)
        self.thread.start()
        self.nodes = [Node(self, index) for index in range(count)]
        for node in self.nodes:
            asyncio.run_coroutine_threadsafe(node.listen(), self.loop).result()
        self.owners = [self.nodes[slot * count // SLOTS] for slot in range(SLOTS)]

    def __enter__(self):
        return self

    def __exit__(self, *_):
        self.call(lambda: [node.die() for node in self.nodes if node.is_alive])
        self.loop.call_soon_threadsafe(self.loop.stop)
        self.thread.join()
        self.loop.close()

    def call(self, action):
        """Does something between two events of the nodes, and returns what that gives."""

        async def act():
            return action()

        return asyncio.run_coroutine_threadsafe(act(), self.loop).result()

    @property
    def url(self):
        return f"redis://127.0.0.1:{self.nodes[0].port}"

    def owner(self, key):
        return self.owners[slot_of(key)]

    def move(self, key, to):
        """Has another node serve the slot of a key."""
        self.call(lambda: self.owners.__setitem__(slot_of(key), self.nodes[to]))

    def begin_move(self, key, to):
        """Begins to move the slot of a key. The key itself has moved."""
        self.call(lambda: self.moving.__setitem__(slot_of(key), (self.nodes[to], {key})))

    def kill(self, index, heir):
        """Ends a node. Another one has its slots then."""

        def act():
            self.nodes[index].die()
            self.owners = [self.nodes[heir] if it.index == index else it for it in self.owners]

        self.call(act)

    def drop_links(self):
        """Ends all links."""
        self.call(lambda: [node.drop_links() for node in self.nodes])

    def cut_after(self, *counts):
        """Has the link cut that writes so many bytes of replies, counted from now. Each further count is
        from that cut on. With none, no link is cut."""
        self.call(lambda: self.cuts.extend(counts) if counts else self.cuts.clear())

    def silence(self, *indexes):
        """Has these nodes read nothing from now on, and the others again."""

        def act():
            self.silent = set(indexes)
            for node in self.nodes:
                for link in list(node.links):
                    link.data_received(b"")

        self.call(act)

    def set_down(self, is_down):
        """Has the nodes refuse commands for keys, or take them again."""
        self.call(lambda: setattr(self, "is_down", is_down))

    def garbled(self, words, reply):
        """A reply, of which a node that fails changes a byte now and then. The map is never changed."""
        if words[0] == b"CLUSTER" or self.random.random() >= self.garbles:
            return reply
        changed, at = bytearray(reply), self.random.randrange(len(reply))
        changed[at] = self.random.choice(b"0159-+:$*_\r\nx\xff")
        return bytes(changed)

    def map_reply(self):
        runs = []
        for slot, node in enumerate(self.owners):
            if runs and runs[-1][2] is node:
                runs[-1][1] = slot
            else:
                runs.append([slot, slot, node])
        address = lambda node: array([bulk(b"127.0.0.1"), number(node.port)])
        return array([array([number(first), number(last), address(node)]) for first, last, node in runs])

    def run(self, name, words):
        """Runs a command of which this node has the keys."""
        values = self.values
        match name, words:
            case b"GET", [key]:
                return bulk(values.get(key))
            case b"SET", [key, value]:
                values[key] = value
                return OK
            case b"INCR", [key]:
                values[key] = b"%d" % (int(values.get(key, b"0")) + 1)
                return number(int(values[key]))
            case b"LPUSH", [_, _]:
                return b"-WRONGTYPE Operation against a key holding the wrong kind of value\r\n"
            case b"MGET", keys:
                return array([bulk(values.get(key)) for key in keys])
            case b"MSET", pairs:
                values.update(zip(pairs[::2], pairs[1::2]))
                return OK
            case b"EXISTS", keys:
                return number(sum(key in values for key in keys))
            case b"DEL", keys:
                return number(sum(values.pop(key, None) is not None for key in keys))
        return b"-ERR unknown command\r\n"
