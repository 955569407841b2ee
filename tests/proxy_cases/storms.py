"""Clients that know what their keys have to hold, while slots move and nodes fail."""

import os
import random
import signal
import subprocess
import threading
import time
from collections import Counter

from outside import figures
from shared import Client, FOLDER, OTHER, PORT, PROXY, has_replica, is_open, port_of, primaries, process_of, proxy, request, slot_of, until


COMMANDS = int(os.environ.get("COMMANDS", "100000"))


class User(threading.Thread):
    """A client that knows what its keys have to hold. A value is a set of what it may be."""

    def __init__(self, number, count, port=PROXY, tags=5):
        super().__init__(daemon=True)
        self.rng, self.left, self.port, self.seen, self.wrong = random.Random(number), count, port, Counter(), []
        self.keys = [f"{{m{tag}}}{number}.{at}" for tag in range(tags) for at in range(4)] + [f"k{number}.{at}" for at in range(8)]
        self.holds = {key: {None} for key in self.keys}
        self.longest = 0  # seconds that it waited for what it had sent at once

    def command(self):
        key, value = self.rng.choice(self.keys), str(self.rng.randrange(10**6))
        pick = self.rng.random()
        if pick < 0.3:
            return ["SET", key, value]
        if pick < 0.6:
            return ["GET", key]
        if pick < 0.7:
            return ["INCR", key]
        if pick < 0.75:
            return ["EXEC", key]  # stands for a transaction
        keys = self.rng.sample(self.keys, 4)
        if pick < 0.85:
            return ["MGET", *keys]
        if pick < 0.95:
            return ["MSET", *(word for it in keys for word in (it, value))]
        return ["DEL", key]

    def commands_of(self, words):
        name, key = words[:2]
        return [["MULTI"], ["INCR", key], ["GET", key], ["EXEC"]] if name == "EXEC" else [words]

    def effect(self, name, words, held):
        """What a key holds after a command."""
        if name in ("INCR", "EXEC"):
            return {b"%d" % (int(it or 0) + 1) for it in held}
        return {None} if name == "DEL" else {words[1].encode()} if name in ("SET", "MSET") else held

    def check(self, words, reply):
        name, keys = words[0], words[1::2] if words[0] == "MSET" else words[1:] if words[0] == "MGET" else words[1:2]
        if isinstance(reply, str) and reply.startswith("-"):
            kind = reply.split(":")[0] if "node" not in reply else "lost" if "may have" in reply else "not sent" if "did not" in reply else reply
            self.seen[kind[:30]] += 1
            if "did not take effect" not in reply and not reply.startswith(("-CLUSTERDOWN", "-TRYAGAIN", "-LOADING")) or name == "MSET":
                for key in keys:
                    self.holds[key] = self.holds[key] | self.effect(name, [key, words[2] if len(words) > 2 else ""], self.holds[key])
            return
        if name == "EXEC":
            if len(reply) != 2 or reply[1] != b"%d" % reply[0]:
                self.wrong.append((words, reply, self.holds[keys[0]]))
            name, reply = "INCR", reply[0]
        values = [reply] if name == "GET" else reply if name == "MGET" else []
        for key, value in zip(keys, values):
            if value not in self.holds[key]:
                self.wrong.append((words, reply, self.holds[key]))
            self.holds[key] = {value}
        if name in ("SET", "MSET", "DEL", "INCR"):
            for key in dict.fromkeys(keys):
                self.holds[key] = self.effect(name, [key, words[2] if len(words) > 2 else ""], self.holds[key])
        if name == "INCR":
            if b"%d" % reply not in self.holds[keys[0]]:
                self.wrong.append((words, reply, self.holds[keys[0]]))
            self.holds[keys[0]] = {b"%d" % reply}
        self.seen["right"] += 1

    def work(self):
        client = Client(self.port)
        while self.left > 0:
            some = [self.command() for _ in range(self.rng.choice([1, 1, 4, 16]))]
            self.left -= len(some)
            sent, start = [self.commands_of(words) for words in some], time.monotonic()
            replies = iter(client.ask_all(it for commands in sent for it in commands))
            self.longest = max(self.longest, time.monotonic() - start)
            for words, commands in zip(some, sent):
                self.check(words, [next(replies) for _ in commands][-1])
        self.check(["MGET", *self.keys], client.ask("MGET", *self.keys))
        client.socket.close()

    def run(self):
        try:
            self.work()
        except Exception as fault:  # as that no reply came within a minute
            self.wrong.append(fault)


def use(users, meanwhile):
    """Runs the users, and `meanwhile` beside them until they end. Gives what they saw."""
    over = threading.Event()
    beside = threading.Thread(target=meanwhile, args=(over,), daemon=True)
    start = time.monotonic()
    for it in (*users, beside):
        it.start()
    for it in users:
        it.join()
    over.set()
    beside.join()
    seen, wrong = Counter(), [it for user in users for it in user.wrong]
    for it in users:
        seen.update(it.seen)
    print(f"{sum(seen.values())} commands of {len(users)} clients in {time.monotonic() - start:.0f} s: {dict(seen)}")
    for it in wrong[:5]:
        print("WRONG", it)
    return seen, wrong


def knows(port, slot, owner):
    """Whether the node of a port, if it is alive, knows the primary of a slot."""
    try:
        return primaries(port).get(slot) == owner
    except OSError:
        return True


def move_slots(over):
    """Moves the slots of five tags to and fro until the users end. A node that knows an earlier owner could have
    the new one drop its keys, so each has to know of a move before the next one."""
    rng, names, moved, old_maps = random.Random(1), {}, 0, 0
    for port in set(primaries().values()):
        names[port] = Client(port).ask("CLUSTER", "MYID")
    while not over.is_set():
        slot = slot_of(f"{{m{rng.randrange(5)}}}")
        old = primaries()[slot]
        new = rng.choice([it for it in names if it != old])
        at_old, at_new = Client(old), Client(new)
        at_new.ask("CLUSTER", "SETSLOT", slot, "IMPORTING", names[old])
        if at_old.ask("CLUSTER", "SETSLOT", slot, "MIGRATING", names[new]) != "+OK":  # the map was an old one
            at_new.ask("CLUSTER", "SETSLOT", slot, "STABLE")
            old_maps += 1
            continue
        while keys := at_old.ask("CLUSTER", "GETKEYSINSLOT", slot, "7"):
            at_old.ask("MIGRATE", "127.0.0.1", new, "", "0", "5000", "KEYS", *keys)
        for node in (at_new, at_old):
            node.ask("CLUSTER", "SETSLOT", slot, "NODE", names[new])
        until(5, lambda: all(knows(port, slot, new) for port in names))
        moved += 1
    print(f"slots moved {moved} times, and {old_maps} times the map was an old one")


def try_storm():
    """Two hundred clients, while slots move to and fro: each value is right, and nothing takes effect twice."""
    before = figures()
    Client().ask("FLUSHALL")
    seen, wrong = use([User(it, COMMANDS // 200) for it in range(200)], move_slots)
    after = figures()
    print({it: int(after[it] - before[it]) for it in ("moved_total", "ask_total", "pauses_total", "retries_total", "held_total")})
    return not wrong and seen.keys() <= {"right", "-TRYAGAIN the slot is being mo"} and seen["right"] > 0.95 * sum(seen.values())


def restart(port):
    folder = f"{FOLDER}/{port}"
    subprocess.run(
        ["redis-server", "--port", str(port), "--bind", "127.0.0.1", "--dir", folder, "--daemonize", "yes", "--pidfile", f"{folder}/pid",
         "--logfile", f"{folder}/log", "--save", "", "--appendonly", "no", "--cluster-enabled", "yes", "--cluster-node-timeout", "3000"],
        check=True, stdout=subprocess.DEVNULL,
    )  # fmt: skip


def heal():
    """Starts the nodes that earlier tests killed, and waits until each primary has a replica with its data."""
    for port in range(PORT, PORT + 6):
        if not is_open(port):
            restart(port)
    started = until(60, lambda: all(is_open(port) for port in range(PORT, PORT + 6)))
    served = until(60, lambda: "cluster_state:ok" in str(Client(PORT).ask("CLUSTER", "INFO")))
    ready = until(60, lambda: all(has_replica(port, "state=online") for port in set(primaries().values())))
    if started is None or served is None or ready is None:
        raise AssertionError("the cluster is not whole")


def try_storm_failover():
    """A primary is killed while clients write: errors say what they have to, and values are right."""
    port = port_of("{m1}")
    until(10, lambda: Client().ask("FLUSHALL") == "+OK")
    process = process_of(port)

    def kill(over):
        over.wait(2)
        os.kill(process, signal.SIGSTOP)
        time.sleep(0.1)  # so that commands are on their way
        os.kill(process, signal.SIGKILL)
        print(f"killed {port}")

    users = [User(it, 6000, tags=3) for it in range(50)]
    seen, wrong = use(users, kill)
    took = until(30, lambda: Client().ask("SET", "{m1}", "1") == "+OK")
    print(f"served again {took} s after that")
    return not wrong and took is not None and seen["lost"] > 0


def try_storm_lost():
    """Nodes close all connections again and again while clients write: nothing takes effect twice."""
    Client().ask("FLUSHALL")

    def close(over):
        while not over.wait(0.1):
            for port in set(primaries().values()):
                Client(port).ask("CLIENT", "KILL", "TYPE", "normal")

    seen, wrong = use([User(it, 4000) for it in range(50)], close)
    return not wrong and seen.keys() == {"right", "lost"}


def try_storm_hang():
    """A primary stops for a second, and then for eight, while clients write: values are right."""
    port = port_of("{m1}")
    until(10, lambda: Client().ask("FLUSHALL") == "+OK")
    process = process_of(port)

    def stop(over):
        for seconds in (1, 8):
            over.wait(2)
            os.kill(process, signal.SIGSTOP)
            time.sleep(seconds)
            os.kill(process, signal.SIGCONT)
            print(f"stopped {port} for {seconds} s")

    seen, wrong = use([User(it, 6000, tags=3) for it in range(50)], stop)
    return not wrong and seen["lost"] > 0


def stop_all(ports, signal_number):
    for port in ports:
        os.kill(int(open(f"{FOLDER}/{port}/pid").read()), signal_number)


def try_all_gone():
    """All nodes stop and come back. Clients get errors in time, and are served again."""
    ports = range(PORT, PORT + 6)
    client, start = Client(), time.monotonic()
    stop_all(ports, signal.SIGSTOP)
    try:
        first = client.ask("SET", "foo", "1")
        took = time.monotonic() - start
        second = client.ask("MGET", "foo", "bar", "baz")
    finally:
        stop_all(ports, signal.SIGCONT)
    back = until(60, lambda: client.ask("SET", "foo", "2") == "+OK" and client.ask("MGET", "foo", "bar")[0] == b"2")
    print(f"{first} after {took:.1f} s, {second}; back after {back} s")
    return "may have taken effect" in first and took < 12 and isinstance(second, str) and back is not None


def try_all_killed():
    """All nodes are killed and started again."""
    ports = range(PORT, PORT + 6)
    client, start = Client(), time.monotonic()
    stop_all(ports, signal.SIGKILL)
    first, second = client.ask("SET", "foo", "1"), client.ask("SET", "bar", "1")
    took = time.monotonic() - start
    for port in ports:
        restart(port)
    back = until(60, lambda: client.ask("SET", "foo", "2") == client.ask("SET", "bar", "2") == "+OK")
    print(f"{first}, {second} after {took:.1f} s; back after {back} s")
    return first.startswith("-") and took < 15 and back is not None


def try_blocking_hang():
    """A client that waits for a node that hangs gets an error in time."""
    key = next(it for it in map(str, range(100)) if has_replica(port_of(it)))
    client, process = Client(), process_of(port_of(key))
    client.ask("DEL", key)
    client.socket.sendall(request("BLPOP", key, "0"))
    time.sleep(0.3)
    os.kill(process, signal.SIGSTOP)
    start = time.monotonic()
    try:
        found = client.reply()
    finally:
        os.kill(process, signal.SIGCONT)
    took = time.monotonic() - start
    print(f"{found} after {took:.1f} s")
    return found.startswith("-UNCERTAIN") and "may have taken effect" in found and took < 12


def try_threads():
    """Four threads serve clients as one does."""
    with proxy(OTHER, PORT, "--threads", "4"):
        Client(OTHER).ask("FLUSHALL")
        seen, wrong = use([User(it, 500, OTHER) for it in range(40)], lambda over: None)
    return not wrong and seen.keys() == {"right"}
