"""Clients that do what they should not, and many of them."""

import os
import random
import signal
import socket
import socketserver
import tempfile
import threading
import time
from collections import Counter
from contextlib import suppress

from outside import FIGURES, descriptors_of, figures, memory_of, raw, rest_of
from shared import Client, FAKE, IS_CHECKED, OTHER, PORT, PROXY, is_open, others, port_of, process_of, proxy, request, said, until


GARBAGE = [
    b"GET foo\r\n", b"*2\r\n$3\r\nGET\r\n:3\r\n", b"*-5\r\n$1\r\n", b"\x00" * 100, b"*1\r\n$-1\r\n", b"*1\r\n$99999999999\r\n",
    b"*2\r\n$3\r\nGET\r\n$3\r\nfooXX", b"*99999999999999999999\r\n", b"\r\n\r\n", b"$3\r\nfoo\r\n", b"*1\r\n$4\r\nPING\n\n",
]  # fmt: skip


def try_garbage():
    """Garbage ends its own connection with an error, and half requests wait, while others are served."""
    found, halves = Counter(), [raw() for _ in range(20)]
    with others(4, "own") as seen:
        for at, half in enumerate(halves):
            half.sendall(request("SET", "foo", "x" * 100)[: 5 + at])
        for it in GARBAGE:
            connection = raw()
            connection.sendall(request("PING") + it)
            connection.shutdown(socket.SHUT_WR)
            found[rest_of(connection)[:20]] += 1
        for at, half in enumerate(halves):
            half.sendall(request("SET", "foo", "x" * 100)[5 + at :])
        answers = Counter(half.recv(100) for half in halves)
    print(dict(found), dict(answers), dict(seen))
    return all(it.startswith(b"+PONG\r\n") for it in found) and answers == {b"+OK\r\n": 20} and seen.keys() == {"right", "longest"}


def try_large():
    """A large value beside small ones."""
    client, value = Client(), os.urandom(30 << 20)
    with others(4, "own") as seen:
        found = client.ask("SET", "{foo}large", value), client.ask("GET", "{foo}large") == value
        parts = client.ask("MGET", "{foo}large", "bar", "{foo}large")
        client.ask("DEL", "{foo}large")
        too_long = raw()
        with suppress(OSError):
            too_long.sendall(b"*3\r\n$3\r\nSET\r\n$3\r\nfoo\r\n$99000000\r\n" + bytes(99000000))
        error = rest_of(too_long)[:60]
    is_right = parts[0] == value and parts[2] == value
    print(found, is_right, error, dict(seen))
    return found == ("+OK", True) and is_right and b"of more than" in error and seen.keys() == {"right", "longest"}


def try_ahead():
    """A client may write all of its requests before it reads: it waits for nothing but nodes. What it has not read is bounded,
    and above that it is closed: the log says why, and a figure counts it."""
    value, count = "x" * 10000, 1000
    some = b"".join(request("SET", f"ahead{it}", value) + request("GET", f"ahead{it}") for it in range(count))
    wanted = (b"+OK\r\n$10000\r\n" + value.encode() + b"\r\n") * count
    is_right, start = [], time.monotonic()
    with tempfile.TemporaryDirectory() as folder, proxy(OTHER, PORT, "--client-memory", "16mb", "--unix", f"{folder}/proxy") as (_, _, report):
        for port in (PROXY, OTHER, f"{folder}/proxy"):  # the others are near the limit
            connection = raw(port)
            connection.settimeout(20)
            connection.sendall(some)
            connection.shutdown(socket.SHUT_WR)
            is_right.append(rest_of(connection) == wanted)
        took = time.monotonic() - start
        greedy = raw(OTHER)
        greedy.settimeout(20)
        with suppress(ConnectionError):
            greedy.sendall(some + request("GET", "ahead0") * 10000)
        closed, info = until(10, lambda: "more than client-memory" in said(report)), Client(OTHER).ask("INFO")
    print(f"{is_right} after {took:.1f} s; closed after {closed} s")
    return is_right == [True] * 3 and closed is not None and b"closed_connections:1\r\n" in info and took < 30


def try_unread():
    """Clients that never read take bounded memory and are closed: above client-memory, or after client-timeout."""
    Client().ask("SET", "{foo}10k", "x" * 10000)
    with proxy(OTHER, PORT, "--client-timeout", "4000", "--client-memory", "8mb") as (process, _, report):
        Client(OTHER).ask("GET", "{foo}10k")
        before, greedy, idle = memory_of(process), [raw(OTHER) for _ in range(20)], [raw(OTHER) for _ in range(20)]
        for it in idle:
            it.sendall(request("GET", "{foo}10k") * 700)
        for it in greedy:
            it.setblocking(False)
        for _ in range(100):
            for it in greedy:
                with suppress(OSError):
                    it.send(request("GET", "{foo}10k") * 100)
        most, start = memory_of(process), time.monotonic()
        for _ in range(20):
            assert Client(OTHER).ask("GET", "{foo}10k") == b"x" * 10000
            most = max(most, memory_of(process))
        took = time.monotonic() - start
        texts = ("more than client-memory", "leaves its replies unread")
        closed = until(60 if IS_CHECKED else 20, lambda: [said(report).count(it) for it in texts] == [20, 20])
        counts, after = [said(report).count(it) for it in texts], memory_of(process)
    print(f"memory {before}, {most}, {after} kB; twenty others: {took:.2f} s; {counts} closed after {closed} s")
    return closed is not None and (IS_CHECKED or (most - before < 400000 and after - before < 60000 and took < 3))


def try_blocked_pipeline():
    """Replies that wait for an earlier one count for client-memory, too."""
    Client().ask("SET", "{foo}1m", "x" * (1 << 20))
    with proxy(OTHER, PORT, "--client-memory", "8mb") as (_, _, report):
        client = Client(OTHER)
        slow = "local t = redis.call('TIME')[1] + 2 while redis.call('TIME')[1] + 0 < t do end return 7"
        other = next(key for key in map(str, range(100)) if port_of(key) != port_of("foo"))
        with suppress(ConnectionError):
            client.socket.sendall(request("EVAL", slow, "1", other) + request("GET", "{foo}1m") * 50)
        closed = until(1.5, lambda: "more than client-memory" in said(report))
    print(f"closed after {closed} s")
    return closed is not None


def try_limits():
    """Above --max-clients a client gets an error. All memory that clients may take is bounded."""
    with proxy(OTHER, PORT, "--max-clients", "50", "--memory", "32mb", "--max-message", "8mb") as (process, _, report):
        time.sleep(0.5)  # until the connection that tried the port is closed
        clients = [Client(OTHER) for _ in range(50)]
        found = {it.ask("PING") for it in clients}
        error = rest_of(raw(OTHER))
        before = memory_of(process)
        for it in clients[1:]:  # 49 halves of 7 MiB
            it.socket.settimeout(0.5)
            with suppress(OSError):
                it.socket.sendall(b"*3\r\n$3\r\nSET\r\n$3\r\nfoo\r\n$7340032\r\n" + bytes(6 << 20))
        until(10, lambda: said(report).count("too much memory") > 0)
        alive, most = clients[0].ask("SET", "foo", "1"), memory_of(process) - before
        closed = said(report).count("too much memory")
    print(found, error, alive, f"{most} kB more, {closed} closed")
    return found == {"+PONG"} and error.startswith(b"-ERR max number") and alive == "+OK" and (IS_CHECKED or most < 150000) and closed > 0


def try_drain():
    """SIGTERM lets open requests end, and then the proxy ends with status 0."""
    with proxy(OTHER, PORT) as (process, _, report):
        connection = raw(OTHER)
        connection.sendall(request("EVAL", "local t = redis.call('TIME')[1] + 2 while redis.call('TIME')[1] + 0 < t do end return 7", "1", "foo"))
        time.sleep(0.3)
        process.terminate()
        time.sleep(0.3)
        refused = not is_open(OTHER)
        found, status = rest_of(connection), process.wait(20)
        print(found, status, refused, said(report).splitlines()[-1])
    return found == b":7\r\n" and status == 0 and refused


def is_steady(sizes):
    """Whether the last three are no larger than those before them."""
    return len(sizes) > 3 and max(sizes[-3:]) <= 1.02 * max(sizes[:-3])


def try_back():
    """After many clients with pipelines have come and gone, descriptors and memory are what they were. Connections to replicas may
    have come, since the map is read from each node in turn. The memory of the process is what the allocator keeps of it: it grows
    no more after some rounds."""
    with proxy(OTHER, PORT, "--metrics", f"127.0.0.1:{FIGURES + 1}") as (process, _, _):
        Client(OTHER).ask_all([["MSET", "a", "1", "b", "1", "c", "1"], ["MGET", "a", "b", "c"]])
        time.sleep(1.5)  # idle connections give back their memory after a second
        before, rounds = (descriptors_of(process), figures(FIGURES + 1)["memory_bytes"]), []
        while len(rounds) < 4 or not (IS_CHECKED or len(rounds) == 30 or is_steady([it[3] for it in rounds])):
            clients = [Client(OTHER) for _ in range(300)]
            for at, it in enumerate(clients):
                it.socket.sendall(b"".join(request("MSET", f"a{at}", "x" * 2000, f"b{at}", "y") + request("MGET", f"a{at}", f"b{at}") for _ in range(20)))
            for it in clients[::2]:
                for _ in range(40):
                    it.reply()
            for it in clients:  # half of them close with replies on their way
                it.lines.close()
                it.socket.close()
            back = until(10, lambda: figures(FIGURES + 1)["memory_bytes"] < before[1] + 64000 and descriptors_of(process) <= before[0] + 6)
            rounds.append((back, descriptors_of(process), figures(FIGURES + 1)["memory_bytes"], memory_of(process)))
    print(f"before: {before}; seconds until all is back, descriptors, bytes held, kB of the process: {rounds}")
    is_small = IS_CHECKED or is_steady([it[3] for it in rounds])
    return all(it[0] is not None for it in rounds) and is_small


def try_many():
    """Five thousand clients at once, or CLIENTS."""
    with proxy(OTHER, PORT, "--threads", "2") as (process, _, _):
        clients = [Client(OTHER) for _ in range(int(os.environ.get("CLIENTS", "5000")))]
        start = time.monotonic()
        for at, it in enumerate(clients):
            it.socket.sendall(request("SET", f"many{at}", at) + request("GET", f"many{at}"))
        found = all((it.reply(), it.reply()) == ("+OK", b"%d" % at) for at, it in enumerate(clients))
        took, memory = time.monotonic() - start, memory_of(process)
        for it in clients:
            it.lines.close()
            it.socket.close()
    print(f"{took:.1f} s, {memory} kB")
    return found


def try_fuzz():
    """Mutated requests, in pieces, of many clients at once: no fault, and others are served."""
    rng, start = random.Random(int(os.environ.get("SEED", "1"))), time.monotonic()
    seconds, count = float(os.environ.get("SECONDS", "10")), 0
    words = ["GET", "SET", "MGET", "MSET", "DEL", "EVAL", "XREAD", "STREAMS", "BLOCK", "HELLO", "AUTH", "CLIENT", "INFO", "SCRIPT", "LOAD",
             "KEYS", "DBSIZE", "PING", "foo", "bar", "{foo}a", "", "0", "1", "-1", "x" * 300, "EXISTS", "MULTI", "QUIT", "PUBSUB", "NUMSUB"]  # fmt: skip
    with others(2, "own") as seen:
        while time.monotonic() < start + seconds:
            connections = [raw() for _ in range(10)]
            for it in connections:
                data = bytearray(b"".join(request(*rng.choices(words, k=rng.randrange(1, 6))) for _ in range(rng.randrange(1, 30))))
                for _ in range(rng.choice([0, 0, 1, 3, 10])):
                    at = rng.randrange(len(data))
                    data[at : at + rng.randrange(3)] = rng.choice([b"", b"\r\n", b"$", b"*9", b"-1", bytes([rng.randrange(256)])])
                with suppress(OSError):
                    for at in range(0, len(data), size := rng.randrange(1, 400)):
                        it.sendall(data[at : at + size])
                    if rng.random() < 0.5:
                        it.shutdown(socket.SHUT_WR)
                count += 1
            for it in connections:
                it.settimeout(0.05)
                with suppress(OSError):
                    it.recv(1 << 16)
                it.close()
    print(f"{count} clients; others meanwhile: {dict(seen)}")
    return seen.keys() <= {"right", "longest"}


class BadNode(socketserver.StreamRequestHandler):
    """A node that has all slots and answers `GET` with the key, unless it does one of several wrong things."""

    def handle(self):
        slots = b"*1\r\n*3\r\n:0\r\n:16383\r\n*2\r\n$9\r\n127.0.0.1\r\n:%d\r\n" % FAKE
        rng = random.Random()
        with suppress(OSError):
            while line := self.rfile.readline():
                words = [(self.rfile.readline(), self.rfile.readline())[1][:-2] for _ in range(int(line[1:]))]
                reply = slots if words[0] == b"CLUSTER" else b"$%d\r\n%s\r\n" % (len(words[-1]), words[-1])
                pick = rng.randrange(400) if words[0] == b"GET" else 0
                if pick == 1:
                    reply = reply[: rng.randrange(len(reply))]
                wrong = {2: b"$x\r\n", 3: b"*99999999\r\n", 4: b"-MOVED 1\r\n", 5: b"-ASK 99999 a:1\r\n", 6: b"\x00", 7: b"-MOVED 1 a\nb:1\r\n"}
                self.wfile.write(wrong.get(pick, reply))
                if pick == 1:
                    return


def try_bad_node():
    """A node that breaks the protocol: each client gets its own value, or an error, and no client waits for ever."""
    socketserver.ThreadingTCPServer.allow_reuse_address = socketserver.ThreadingTCPServer.daemon_threads = True
    found, threads = Counter(), []

    def ask(number):
        client = Client(OTHER)
        for at in range(200):
            keys = [f"{number}.{at}.{it}" for it in range(5)]
            for key, reply in zip(keys, client.ask_all(["GET", key] for key in keys)):
                is_error = isinstance(reply, str) and reply.startswith("-")
                found["right" if reply == key.encode() else "error" if is_error else f"{key}: {reply}"] += 1

    with socketserver.ThreadingTCPServer(("127.0.0.1", FAKE), BadNode) as node:
        threading.Thread(target=node.serve_forever).start()
        with proxy(OTHER, FAKE, "--timeout", "500", "--quiet"):
            threads = [threading.Thread(target=ask, args=(it,)) for it in range(20)]
            for it in threads:
                it.start()
            for it in threads:
                it.join(100)
        node.shutdown()
    print(dict(found))
    return found.keys() == {"right", "error"} and sum(found.values()) == 20000


class HalfMap(socketserver.StreamRequestHandler):
    """A node that has the second half of the slots, and says which port has the first half."""

    port = FAKE

    def handle(self):
        with suppress(OSError):
            while line := self.rfile.readline():
                words = [(self.rfile.readline(), self.rfile.readline())[1] for _ in range(int(line[1:]))]
                halves = [(0, 8191, HalfMap.port), (8192, 16383, FAKE)]
                slots = b"".join(b"*3\r\n:%d\r\n:%d\r\n*2\r\n$9\r\n127.0.0.1\r\n:%d\r\n" % it for it in halves)
                self.wfile.write(b"*2\r\n" + slots if words[0] == b"CLUSTER\r\n" else b"+OK\r\n")


def try_report():
    """The log says what becomes of the commands at a connection that is lost: those that were not sent wait."""
    socketserver.ThreadingTCPServer.allow_reuse_address = socketserver.ThreadingTCPServer.daemon_threads = True
    with socketserver.ThreadingTCPServer(("127.0.0.1", FAKE), HalfMap) as node, socket.create_server(("127.0.0.1", 0)) as closed:
        HalfMap.port = closed.getsockname()[1]
        closed.close()
        threading.Thread(target=node.serve_forever).start()
        with proxy(OTHER, FAKE, "--retry", "300") as (_, _, report):
            errors = Client(OTHER).ask_all([["SET", "bar", str(it)] for it in range(3)])
            unsent = said(report)
        node.shutdown()
    node = process_of(port_of("foo"))
    with proxy(OTHER, PORT, "--timeout", "500", "--retry", "300") as (_, _, report):
        client = Client(OTHER)
        client.ask("GET", "foo")
        os.kill(node, signal.SIGSTOP)
        unsure = client.ask("GET", "foo")
        os.kill(node, signal.SIGCONT)
        sent = said(report)
    print(errors, unsent, unsure, sent)
    is_told = "refused; 0 commands may have taken effect, 0 did not, 3 wait to be sent again" in unsent
    is_sure = "silent for too long; 1 commands may have taken effect, 0 did not, 0 wait to be sent again" in sent
    return is_told and is_sure and all("did not take effect" in it for it in errors) and "may have taken effect" in unsure


def try_unreachable():
    """A node does not take connections: its commands get errors in time. Once the map says that another node has
    its slots, they go there at once."""
    socketserver.ThreadingTCPServer.allow_reuse_address = socketserver.ThreadingTCPServer.daemon_threads = True
    with socketserver.ThreadingTCPServer(("127.0.0.1", FAKE), HalfMap) as node, socket.create_server(("127.0.0.1", 0), backlog=0) as full:
        HalfMap.port = full.getsockname()[1]
        threading.Thread(target=node.serve_forever).start()
        with socket.create_connection(full.getsockname()), proxy(OTHER, FAKE, "--timeout", "3000", "--retry", "1000"):  # it is full
            client, start = Client(OTHER), time.monotonic()
            errors = client.ask_all([["SET", "bar", str(it)] for it in range(8)])
            took = time.monotonic() - start
            client.socket.sendall(request("SET", "bar", "1"))
            time.sleep(0.3)
            HalfMap.port, start = FAKE, time.monotonic()
            moved = client.reply(), time.monotonic() - start
        node.shutdown()
    print(f"{set(errors)} after {took:.1f} s; {moved[0]} {moved[1]:.1f} s after the map has changed")
    return all("did not take effect" in it for it in errors) and took < 5 and moved[0] == "+OK" and moved[1] < 2
