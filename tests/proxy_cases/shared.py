"""What the tests of the proxy share: the cluster and the proxy that they start, clients, and the tests
of what clients can rely on. PORT is the first port of the cluster's six (7400). The proxy has the
port after these, and tests with a proxy or a node of their own have the next ones.
"""

import os
import random
import re
import signal
import socket
import socketserver
import subprocess
import sys
import tempfile
import threading
import time
from collections import Counter
from contextlib import contextmanager, suppress

ROOT = os.path.dirname(os.path.dirname(os.path.dirname(os.path.abspath(__file__))))
sys.path.insert(0, os.path.join(ROOT, "python"))
from slotroute import request

PORT = int(os.environ.get("PORT", "7400"))
PROXY, OTHER, FAKE = PORT + 6, PORT + 7, PORT + 8
FOLDER = f"{os.environ.get('TMPDIR', '/tmp')}/slotroute-cluster-{PORT}"
PROGRAM = os.path.abspath(sys.argv[1])
IS_CHECKED = PROGRAM.endswith(".checked")  # it takes more memory and time
MOVED_SLOT = "12182"  # that of foo
LOST = ("-ERR ", "-UNCERTAIN ")  # how errors begin whose command did not take effect, or perhaps


class LeftOut(Exception):
    """Why a test can not be run on this machine."""


def cluster(*words):
    run = subprocess.run([f"{ROOT}/examples/cluster", *words], check=True, capture_output=True, text=True)
    return run.stdout


@contextmanager
def proxy(port, node, *options, host="127.0.0.1"):
    """Starts the proxy. Gives its process, an empty line and the file of its log."""
    options = ["--node-password" if it == "--password" else it for it in options]
    words = [PROGRAM, "--listen", f"127.0.0.1:{port}", "--node", f"{host}:{node}", *options]
    with tempfile.TemporaryFile("w+") as report:
        process = subprocess.Popen(words, stderr=report)
        try:
            until(30, lambda: process.poll() is not None or is_open(port))
            yield process, "", report
        finally:
            process.terminate()
            process.wait(30)
            text = said(report)
            problem = re.search("an invariant does not hold.*|ERROR: AddressSanitizer.*|runtime error.*|ERROR: Leak.*", text)
            if problem:
                print(text[max(0, problem.start() - 1000) : problem.start() + 5000])
                raise AssertionError(problem.group())


def is_open(port):
    with suppress(OSError), socket.create_connection(("127.0.0.1", port)):
        return True


def said(report):
    report.seek(0)
    return report.read()


class Client:
    def __init__(self, port=PROXY, host="127.0.0.1"):
        self.socket = socket.create_connection((host, port), timeout=60)
        self.lines = self.socket.makefile("rb")

    def ask(self, *words):
        self.socket.sendall(request(*words))
        return self.reply()

    def ask_all(self, commands):
        commands = [request(*words) for words in commands]
        self.socket.sendall(b"".join(commands))
        return [self.reply() for _ in commands]

    def reply(self):
        line = self.lines.readline()[:-2]
        mark, rest = line[:1], line[1:]
        if mark == b"$":
            return None if rest == b"-1" else self.lines.read(int(rest) + 2)[:-2]
        if mark == b"%":
            return {self.reply(): self.reply() for _ in range(int(rest))}
        if mark in (b"_", b","):
            return None if mark == b"_" else float(rest)
        if mark in (b"*", b">", b"~"):
            return None if rest == b"-1" else [self.reply() for _ in range(int(rest))]
        return int(rest) if mark == b":" else line.decode()


def primaries(port=PORT + 3):
    """The port of each slot's primary, as the node of a port knows it."""
    found = {}
    for first, last, primary, *_ in Client(port).ask("CLUSTER", "SLOTS"):
        found |= dict.fromkeys(range(first, last + 1), primary[1])
    return found


def slot_of(key):
    return Client(PORT + 3).ask("CLUSTER", "KEYSLOT", key)


def port_of(key):
    return primaries()[slot_of(key)]


def has_replica(port, state="connected_slaves:1"):
    return state in str(Client(port).ask("INFO", "replication"))  # an error while the node loads its data


def process_of(port):
    """The number of a primary's process, once a replica has its data and can take its place."""
    until(60, lambda: has_replica(port, "state=online"))
    return int(open(f"{FOLDER}/{port}/pid").read())


def until(seconds, does):
    """The seconds that it took until `does` was true, or None if it was not in time."""
    start = time.monotonic()
    while time.monotonic() < start + seconds:
        if does():
            return time.monotonic() - start
        time.sleep(0.05)
    return None


@contextmanager
def others(count, key, port=PROXY):
    """Clients that set and read a key of their own each, which starts with `key`, all the while.
    Gives how often a client read what it had set ("right"), how often it got an error and else what
    it had set before ("lost"), what else was seen, and the longest that a client waited ("longest")."""
    over, seen = threading.Event(), Counter()

    def use(number):
        client, at = Client(port), 0
        while not over.is_set():
            at, start = at + 1, time.monotonic()
            own, mine = f"{key}{number}", f"{number}."
            answer, found = str(client.ask("SET", own, f"{mine}{at}")), str(client.ask("GET", own))
            is_right = answer == "+OK" and found == f"b'{mine}{at}'"
            is_lost = answer.startswith(LOST) or found.startswith(LOST)
            is_lost = is_lost and found.startswith((*LOST, "None", f"b'{mine}"))
            seen["right" if is_right else "lost" if is_lost else f"{answer}, {found}"] += 1
            seen["longest"] = max(seen["longest"], round(time.monotonic() - start, 3))

    clients = [threading.Thread(target=use, args=(it,)) for it in range(count)]
    for it in clients:
        it.start()
    try:
        yield seen
    finally:
        over.set()
        for it in clients:
            it.join()


COMMANDS = [
    (["MSET", "foo", "1", "bar", "2", "baz", "3", "{bar}vaz", "4"], "+OK"),
    (["MGET", "foo", "bar", "none", "baz", "foo"], [b"1", b"2", None, b"3", b"1"]),
    (["EXISTS", "foo", "bar", "none", "foo"], 3),
    (["TOUCH", "foo", "none", "baz"], 2),
    (["UNLINK", "foo", "none"], 1),
    (["DEL", "foo", "bar", "baz", "{bar}vaz"], 3),
    (["MGET", "foo", "bar"], [None, None]),
]


def try_commands():
    """Commands over keys of several slots: a node refuses them, and the proxy answers as one server."""
    node, proxied, right = Client(PORT), Client(), 0
    for words, wanted in COMMANDS:
        alone, found = node.ask(*words), proxied.ask(*words)
        print(f"{' '.join(words)}\n  a node: {alone}\n  the proxy: {found}")
        refused = isinstance(alone, str) and alone.startswith(("-CROSSSLOT", "-MOVED"))
        right += found == wanted and refused
    return right == len(COMMANDS)


PIPELINE = [
    ("SET foo 1", "+OK"),
    ("SET bar 2", "+OK"),
    ("MGET bar foo none", [b"2", b"1", None]),
    ("INCR foo", 2),
    ("LPUSH foo 1", "-WRONGTYPE Operation against a key holding the wrong kind of value"),
    ("GET foo", b"2"),
    ("DEL foo bar baz", 3),
]


def try_pipeline():
    """Requests that are sent without waiting for replies are answered as by one server."""
    Client().ask("SET", "baz", "1")
    found = Client().ask_all(words.split() for words, _ in PIPELINE)
    print("without waiting:", ", ".join(words for words, _ in PIPELINE))
    print(f"  the proxy: {found}")
    return found == [wanted for _, wanted in PIPELINE]


def try_lost():
    """Connections that nodes close while others use them: errors of commands on their way, and no value of another client."""
    with others(4, "own") as seen:
        for port in list(range(PORT, PORT + 3)) * 20:
            time.sleep(0.05)
            Client(port).ask("CLIENT", "KILL", "TYPE", "normal")
        time.sleep(1)
    print(dict(seen))
    return {"right", "longest"} <= seen.keys() <= {"right", "lost", "longest"}  # perhaps none was on its way


NOT_TAKEN = [
    "REPLCONF ACK 0", "CLIENT REPLY OFF", "SSUBSCRIBE foo", "PSYNC ? -1", "WAIT 1 0", "MONITOR", "foo",
]  # fmt: skip


def try_unanswered():
    """What servers do not answer once and at once leaves the replies of other clients as they are."""
    client, found = Client(), Counter()
    with others(4, "own") as seen:
        for words in NOT_TAKEN * 10:
            client.socket.sendall(b"*0\r\n")
            found[client.ask(*words.split())[:29]] += 1
            found[client.ask_all([["SET", "foo", "1"], words.split(), ["GET", "foo"]])[1][:29]] += 1
        client.socket.sendall(b"*01\r\n$4\r\nPING\r\n")  # a server closes the connection at the 0
        found[client.reply()[:19]] += 1
        time.sleep(1)
    print(f"{NOT_TAKEN}: {dict(found)}; others meanwhile: {dict(seen)}")
    is_refused = found.keys() == {"-ERR the proxy does not take ", "-ERR Protocol error"}
    return is_refused and seen.keys() == {"right", "longest"}


def milliseconds(client, *words):
    """How long a command takes, on average over 500."""
    start = time.monotonic()
    for _ in range(500):
        client.ask(*words)
    return (time.monotonic() - start) * 2


def try_keyless():
    """`PING` and `DBSIZE` go to each primary, and take no more than a few times as long as a `GET`."""
    client = Client()
    client.ask("FLUSHALL")
    client.ask_all(["SET", f"key{it}", "1"] for it in range(100))
    found = client.ask("PING"), client.ask("DBSIZE")
    took = {it: milliseconds(client, *it.split()) for it in ("GET key1", "PING", "DBSIZE")}
    print(f"{found}, {', '.join(f'{name}: {time:.2f} ms' for name, time in took.items())}")
    return found == ("+PONG", 100) and max(took.values()) < 10 * took["GET key1"]


def try_several():
    """A command that goes whole to several nodes gets the one reply of a server with all that they have."""
    until(60, lambda: all(len(it) == 4 for it in Client(PORT).ask("CLUSTER", "SLOTS")))  # with a replica each
    listener, keys = Client(PORT + 4), [f"key{it}".encode() for it in range(100)]
    listener.ask("SUBSCRIBE", "news")  # at a replica
    with proxy(OTHER, PORT):
        client = Client(OTHER)
        client.ask("FLUSHALL")
        client.ask_all(["SET", it, "1"] for it in keys)
        script = client.ask("SCRIPT", "LOAD", "return 1")
        found = {
            "KEYS": sorted(client.ask("KEYS", "*")) == sorted(keys),
            "RANDOMKEY": client.ask("RANDOMKEY") in keys,
            "SCRIPT EXISTS": client.ask("SCRIPT", "EXISTS", script, "0" * 40) == [1, 0],
            "SCRIPT KILL": client.ask("SCRIPT", "KILL").startswith("-NOTBUSY"),
            "PUBSUB NUMSUB": client.ask("PUBSUB", "NUMSUB", "news", "none") == [b"news", 1, b"none", 0],
            "PUBSUB CHANNELS": client.ask("PUBSUB", "CHANNELS") == [b"news"],
        }
    print(found)
    return all(found.values())


def try_long():
    """Long requests and long replies take few seconds and leave others their turns; those at the same
    node wait for the reply. A request that is longer than the limit is an error for its own client."""
    client, key, sent = Client(), "{foo}long", []
    items = [f"{it:032}" for it in range(1_000_000)]
    push, wanted = request("RPUSH", key, *items), request(*items * 2)  # a list in a reply looks like a request
    start = time.monotonic()
    with others(2, "{bar}") as seen, others(2, "{foo}") as near:
        for _ in range(2):
            client.socket.sendall(push)
            sent.append(client.reply())
        pushed = time.monotonic()
        client.socket.sendall(request("LRANGE", key, "0", "-1"))
        is_right = client.lines.read(len(wanted)) == wanted
        end = time.monotonic()
        error = Client().ask("SET", key, b"x" * (65 << 20))
    client.ask("DEL", key)
    print(f"two requests of {len(push) >> 20} MiB: {pushed - start:.1f} s; ", end="")
    print(f"a reply of {len(wanted) >> 20} MiB: {end - pushed:.1f} s")
    print(f"others meanwhile: {dict(seen)}, others at that node: {dict(near)}")
    print(f"a request of 65 MiB: {error}")
    is_right &= sent == [10**6, 2 * 10**6] and "of more than" in error
    is_right &= seen.keys() == near.keys() == {"right", "longest"}
    return is_right and end - start < 30 and seen["longest"] < 5


def use_pipelines(number, over, counts):
    """Sets and reads keys of two slots, twice each, without waiting, until the slot has moved. A command
    that the proxy refuses with TRYAGAIN has no effect."""
    rng, client, values = random.Random(number), Client(OTHER), {}
    keys = [f"{{foo}}{number}.{at}" for at in range(50)] + [f"{{bar}}{number}.{at}" for at in range(20)]
    while not over.is_set():
        some = [(key, str(rng.randrange(10**6))) for key in rng.choices(keys, k=4) * 2]
        found = client.ask_all(words for key, new in some for words in (("SET", key, new), ("GET", key)))
        wanted = []
        for (key, new), answer in zip(some, found[::2]):
            if not refused(answer):
                values[key] = new.encode()
            wanted += ["+OK", values.get(key)]
        right = all(refused(it) or it == value for it, value in zip(found, wanted))
        counts["refused" if right and any(map(refused, found)) else "read" if right else str(found)] += 1


def refused(answer):
    return str(answer).startswith("-TRYAGAIN")


def use_keys(number, over, counts):
    """Writes and reads keys of two slots, until the slot has moved."""
    rng, client, values = random.Random(number), Client(OTHER), {}
    keys = [f"{{foo}}{number}.{at}" for at in range(50)] + [f"{{bar}}{number}.{at}" for at in range(20)]
    while not over.is_set():
        some = rng.sample(keys, 4)
        if rng.random() < 0.5:
            new = {key: b"%d" % rng.randrange(10**6) for key in some}
            answer = client.ask("MSET", *(word for item in new.items() for word in item))
            values |= new
            counts["written" if answer == "+OK" else str(answer)] += 1
        else:
            answer = client.ask("MGET", *some)
            wanted = [values.get(key) for key in some]
            counts["read" if answer == wanted else "wrong" if isinstance(answer, list) else str(answer)] += 1


def try_move():
    """While a slot moves, each value that clients read is the one that was written last. A command over
    several keys is tried until the move ends, which may take ten seconds on a busy machine. A client may
    find one pipeline with commands that were refused with TRYAGAIN."""
    over, counts, piped = threading.Event(), Counter(), Counter()
    clients = [threading.Thread(target=use_keys, args=(it, over, counts)) for it in range(4)]
    clients += [threading.Thread(target=use_pipelines, args=(it, over, piped)) for it in (4, 5)]
    with proxy(OTHER, PORT, "--retry", "60000"):
        for it in clients:
            it.start()
        try:
            over.wait(1)
            print(cluster("move", MOVED_SLOT), end="")
            over.wait(1)
        finally:
            over.set()
        for it in clients:
            it.join()
    print("commands of four clients meanwhile:", dict(counts))
    print("pipelines of two clients meanwhile:", dict(piped))
    # a pipeline that is on its way when the move begins may have commands refused, once for each client
    return counts.keys() == {"written", "read"} and {"read"} <= piped.keys() <= {"read", "refused"} and piped["refused"] <= 2


class Move:
    """Moves a slot with two keys from its node to another, one key at a time."""

    def __init__(self, key):
        self.slot, port = slot_of(key), port_of(key)
        self.new_port = next(it for it in primaries().values() if it != port)
        self.old, self.new = Client(port), Client(self.new_port)
        self.new_name = self.new.ask("CLUSTER", "MYID")
        self.new.ask("CLUSTER", "SETSLOT", self.slot, "IMPORTING", self.old.ask("CLUSTER", "MYID"))
        self.old.ask("CLUSTER", "SETSLOT", self.slot, "MIGRATING", self.new_name)

    def key(self, key):
        self.old.ask("MIGRATE", "127.0.0.1", self.new_port, key, "0", "5000")

    def finish(self, key):
        self.key(key)
        for node in (self.new, self.old):
            node.ask("CLUSTER", "SETSLOT", self.slot, "NODE", self.new_name)


def try_order():
    """In a slot that is being moved, no earlier command of a pipeline takes effect after a later one."""
    here, gone, client = "{order}here", "{order}gone", Client()
    client.ask("MSET", here, "0", gone, "0")
    move = Move(here)
    move.key(gone)  # now TRYAGAIN answers a command on both keys, and a command on `here` alone takes effect
    first = client.ask_all([["MSET", here, "1", gone, "1"], ["SET", here, "2"]])
    first.append(client.ask("GET", here))
    finisher = threading.Timer(1, move.finish, [here])
    finisher.start()
    second = client.ask_all([["MSET", here, "3", gone, "3"], ["SET", here, "4"]])
    second.append(client.ask("MGET", here, gone))
    finisher.join()
    print(f"when the move is found: {first}\nafter that: {second}")
    is_kept = first[0].startswith("-TRYAGAIN the slot is being moved, and a later") and first[1:] == ["+OK", b"2"]
    return is_kept and second == ["+OK", "+OK", [b"4", b"3"]]


def set_password(password, old=None):
    for port in range(PORT, PORT + 6):
        client = Client(port)
        if old:
            client.ask("AUTH", old)
        for name in ("masterauth", "requirepass"):
            client.ask("CONFIG", "SET", name, password)


def try_password():
    """A cluster with a password: a message without it or with a wrong one, and service with it."""
    set_password("secret")
    try:
        with proxy(OTHER, PORT) as (process, line, report):
            without = process.wait(30), line, said(report)
        with proxy(OTHER, PORT, "--password", "wrong") as (process, line, report):
            wrong = process.wait(30), line, said(report)
        with proxy(OTHER, PORT, "--password", "secret"):
            right = Client(OTHER).ask_all([["MSET", "foo", "1", "bar", "2"], ["MGET", "bar", "foo"]])
    finally:
        set_password("", "secret")
    print(f"without: {without}\na wrong one: {wrong}\nthe right one: {right}")
    texts = [it[2].splitlines()[-1].split(": ")[-1][:9] for it in (without, wrong)]
    return without[0] == wrong[0] == 1 and texts == ["NOAUTH Au", "WRONGPASS"] and right == ["+OK", [b"2", b"1"]]


class TwiceAnswering(socketserver.StreamRequestHandler):
    """A node that has all slots, answers `GET` with the key, as `INFO` with that word, and answers `GET twice` two times."""

    def handle(self):
        slots = b"*1\r\n*3\r\n:0\r\n:16383\r\n*2\r\n$9\r\n127.0.0.1\r\n:%d\r\n" % FAKE
        with suppress(OSError):  # the proxy resets the connection
            while line := self.rfile.readline():
                words = [(self.rfile.readline(), self.rfile.readline())[1][:-2] for _ in range(int(line[1:]))]
                reply = b"$%d\r\n%s\r\n" % (len(words[-1]), words[-1])
                self.wfile.write(slots if words[0] == b"CLUSTER" else reply * (1 + (words[-1] == b"twice")))


def try_stray():
    """A reply that nobody waits for closes the connection and is reported."""
    with socketserver.ThreadingTCPServer(("127.0.0.1", FAKE), TwiceAnswering) as node:
        threading.Thread(target=node.serve_forever).start()
        with proxy(OTHER, FAKE) as (_, _, report):
            client, found = Client(OTHER), Counter()
            for at in range(200):
                key = "twice" if at % 20 == 0 else f"key{at}"
                reply = client.ask("GET", key)
                found["right" if reply == key.encode() else reply] += 1
            text = said(report)
        node.shutdown()
    print(f"{dict(found)}, reports: {Counter(text.splitlines())}")
    is_reported = "a reply that nobody waits for" in text
    return is_reported and found["right"] >= 190 and all(it == "right" or "nobody waits" in it for it in found)


def try_failover():
    """After a primary was killed, its shard is served again as soon as a replica has its place."""
    client, found, port = Client(), Counter(), port_of("foo")
    client.ask("SET", "foo", "1")
    os.kill(process_of(port), signal.SIGKILL)
    os.remove(f"{FOLDER}/{port}/pid")

    def is_set():
        answer = client.ask("SET", "foo", "2")
        found[answer] += 1
        return answer == "+OK"

    took = until(60, is_set)
    print(f"killed {port}: back after {took} s, with {dict(found)}")
    return took is not None and client.ask("GET", "foo") == b"2"


def try_hang():
    """A node that hangs: its requests fail after some seconds, others are answered, and a request
    that it had been sent before does not take effect after newer ones."""
    key = next(it for it in map(str, range(100)) if has_replica(port_of(it)))
    port = port_of(key)
    process, client, found = process_of(port), Client(), Counter()
    client.ask("SET", key, "0")
    os.kill(process, signal.SIGSTOP)

    def is_set():
        found[client.ask("SET", key, "new")] += 1
        return found["+OK"]

    try:
        left, start = Client(), time.monotonic()
        left.socket.sendall(request("SET", key, "old"))
        left.socket.close()
        answer = client.ask("GET", key)
        waited = time.monotonic() - start
        took = until(60, is_set)
    finally:
        os.kill(process, signal.SIGCONT)
    values = Counter(client.ask("GET", key) for _ in range(100) if not time.sleep(0.05))
    print(f"stopped {port}: {answer!r} after {waited:.1f} s, then back after {took} s with {dict(found)}")
    print(f"values once it runs again: {dict(values)}")
    return waited < 15 and took is not None and values.keys() == {b"new"}
