"""What clients are answered."""

import os
import re
import socket
import subprocess
import tempfile
import threading
import time
from collections import Counter

from outside import figures, raw, rest_of
from shared import Client, FAKE, Move, OTHER, PORT, PROGRAM, PROXY, is_open, others, proxy, request, said, set_password, slot_of, until


def try_own():
    """What the proxy answers itself."""
    client = Client()
    found = [
        client.ask("PING"), client.ask("PING", "x"), client.ask("ECHO", "hello"), client.ask("SELECT", "0"),
        client.ask("SELECT")[:4], client.ask("HELLO", "4")[:8], client.ask("HELLO", "2")[4:6],
        client.ask("CLIENT", "SETNAME", "me"), client.ask("CLIENT", "GETNAME"), b"maps:" in client.ask("INFO"),
        len(client.ask("COMMAND")) > 100, client.ask("AUTH", "x")[:4], client.ask("AUTH", "default", "x"),
        client.ask("AUTH", "other", "x")[:10], client.ask("HELLO", "2", "AUTH", "default", "x")[5], client.ask("QUIT"),
    ]  # fmt: skip
    print(found)
    return found == [
        "+PONG", b"x", b"hello", "+OK", "-ERR", "-NOPROTO", [b"proto", 2], "+OK", b"me", True, True, "-ERR", "+OK",
        "-WRONGPASS", 2, "+OK",
    ]  # fmt: skip


def try_client_password():
    """Clients have to give the password that --password names."""
    words = [PROGRAM, "--listen", f"127.0.0.1:{OTHER}", "--node", f"127.0.0.1:{PORT}", "--password", "secret"]
    process = subprocess.Popen(words, stderr=subprocess.DEVNULL)
    try:
        until(10, lambda: is_open(OTHER))
        client = Client(OTHER)
        found = [
            client.ask("GET", "foo")[:7], client.ask("AUTH", "wrong")[:10], client.ask("HELLO", "2")[:7],
            client.ask("AUTH", "secretx")[:10], client.ask("AUTH", "secret"), client.ask("SET", "foo", "1"),
            Client(OTHER).ask("HELLO", "2", "AUTH", "default", "secret")[5],
        ]  # fmt: skip
    finally:
        process.terminate()
        process.wait()
    print(found)
    return found == ["-NOAUTH", "-WRONGPASS", "-NOAUTH", "-WRONGPASS", "+OK", "+OK", 2]


def try_node_user():
    """Nodes that want a user and a password get both on each connection, also on one that a client has alone."""
    for port in range(PORT, PORT + 6):
        Client(port).ask("ACL", "SETUSER", "me", "on", ">word", "~*", "&*", "+@all")
    set_password("secret")
    try:
        with proxy(OTHER, PORT, "--node-user", "me", "--node-password", "word"):
            client, subscriber = Client(OTHER), Client(OTHER)
            found = [client.ask("MSET", "foo", "1", "bar", "2"), subscriber.ask("SUBSCRIBE", "news"), client.ask("PUBLISH", "news", "x")]
            found += [subscriber.reply(), client.ask("BLPOP", "none", "0.1"), client.ask("MGET", "bar", "foo")]
    finally:
        set_password("", "secret")
    print(found)
    return found[0] == "+OK" and found[3:] == [[b"message", b"news", b"x"], None, [b"2", b"1"]]


def try_settings():
    """A wrong setting is refused, with its line if it stands in a file. So is a name too many for the table of commands."""
    found, names = [], "".join(f"take name{it}\n" for it in range(3000))
    for text in ("node 127.0.0.1:1\nthreads none\n", "# a remark\n\nnode here\n", "nodes 127.0.0.1:1\n", "memory 3tb\n", "unix-mode 0690\n", names, "take GET\n", "take a|b\n"):
        with tempfile.NamedTemporaryFile("w") as file:
            file.write(text)
            file.flush()
            run = subprocess.run([PROGRAM, "--config", file.name], capture_output=True, text=True, timeout=20)
            found.append((run.returncode, run.stderr.replace(file.name, "FILE")))
    run = subprocess.run([PROGRAM, "--threads", "0"], capture_output=True, text=True)
    found.append((run.returncode, run.stderr))
    print(found)
    numbers = [re.search(r"FILE:(\d+):", it[1]) for it in found[:-1]]
    is_full = "take is one name too many" in found[5][1]
    return is_full and [it and it.group(1) for it in numbers] == ["2", "3", "1", "1", "1", "1025", "1", "1"] and all(it[0] == 2 for it in found)


def try_figures():
    """INFO and the figures for Prometheus count what clients do."""
    before, client = figures(), Client()
    client.ask_all([["SET", "foo", "1"], ["MGET", "foo", "bar"], ["LPUSH", "foo", "1"], ["MONITOR"]])
    time.sleep(0.2)
    after = figures()
    found = {it: after[it] - before[it] for it in ("commands_total", "split_commands_total", "error_replies_total", "own_errors_total", "seconds_count")}
    print(found, {it: value for it, value in after.items() if value and "bucket" not in it})
    return [*found.values()] == [4, 1, 1, 1, 4] and b"split_commands:%d" % after["split_commands_total"] in client.ask("INFO")


def try_idle():
    """Nodes that nobody has asked for longer than --timeout are asked anew. None is taken for a silent one."""
    with proxy(OTHER, PORT, "--timeout", "1000") as (_, _, report):
        Client(OTHER).ask("SCRIPT", "LOAD", "return 1")  # connects to each node
        time.sleep(1.5)
        Client(PORT).ask("CLIENT", "KILL", "TYPE", "normal")  # so the map is read from the next one
        time.sleep(1.5)
        text = said(report)
    print(text)
    return "silent" not in text


def try_take():
    """A name that --take adds goes to the node of its first argument, and others are refused with their name."""
    with proxy(OTHER, PORT, "--take", "bf.add"):
        found = Client(OTHER).ask("BF.ADD", "foo", "1"), Client(OTHER).ask("BF.NONE\r\n", "foo")
    print(found)
    return found[0].startswith("-ERR unknown command") and found[1] == "-ERR the proxy does not take 'BF.NONE??': it does not know this command"


def try_unix():
    """Clients can connect to a path, which has the permissions that are set, whatever the umask is."""
    with tempfile.TemporaryDirectory() as folder, proxy(OTHER, PORT, "--unix", f"{folder}/proxy", "--unix-mode", "0662"):
        connection = socket.socket(socket.AF_UNIX)
        connection.connect(f"{folder}/proxy")
        connection.sendall(request("SET", "foo", "1") + request("GET", "foo"))
        found = b""
        while len(found) < 12:
            found += connection.recv(100)
        mode = os.stat(f"{folder}/proxy").st_mode & 0o777
    print(found, oct(mode))
    return found == b"+OK\r\n$1\r\n1\r\n" and mode == 0o662


def try_half_closed():
    """A client that sends no more gets the replies to all that it sent."""
    connection = raw()
    connection.sendall(b"".join(request("SET", f"key{it}", it) + request("GET", f"key{it}") for it in range(500)))
    connection.shutdown(socket.SHUT_WR)
    wanted = b"".join(b"+OK\r\n$%d\r\n%d\r\n" % (len(str(it)), it) for it in range(500))
    found = rest_of(connection)
    print(f"{len(found)} of {len(wanted)} bytes")
    return found == wanted


def try_pieces():
    """Requests that come byte by byte, and many at once, are answered in their order."""
    connection, found = raw(), b""
    connection.setsockopt(socket.IPPROTO_TCP, socket.TCP_NODELAY, 1)
    some = request("SET", "{foo}a", "1") + request("MGET", "{foo}a", "bar", "baz") + request("DBSIZE") + request("GET", "{foo}a")
    Client().ask_all([["FLUSHALL"], ["SET", "bar", "2"]])
    for at in range(len(some)):
        connection.sendall(some[at : at + 1])
    connection.sendall(some * 300)
    wanted = b"+OK\r\n*3\r\n$1\r\n1\r\n$1\r\n2\r\n$-1\r\n:2\r\n$1\r\n1\r\n" * 301
    while len(found) < len(wanted):
        found += connection.recv(1 << 16)
    print(f"{len(found)} of {len(wanted)} bytes")
    return found == wanted


def try_transaction():
    """MULTI and EXEC over one slot, and no command of others between them."""
    client, found = Client(), []
    client.ask("DEL", "{foo}a", "{foo}b")
    with others(4, "{foo}") as seen:
        for _ in range(50):
            found.append(client.ask_all([["MULTI"], ["INCR", "{foo}a"], ["GET", "{foo}a"], ["LPUSH", "{foo}a", "1"], ["EXEC"]]))
    right = [
        ["+OK", "+QUEUED", "+QUEUED", "+QUEUED", [at, b"%d" % at, "-WRONGTYPE Operation against a key holding the wrong kind of value"]]
        for at in range(1, 51)
    ]
    rest = [
        client.ask_all([["MULTI"], ["SET", "foo", "1"], ["SET", "bar", "1"], ["EXEC"]]), client.ask("EXEC"),
        client.ask_all([["MULTI"], ["EXEC"]]), client.ask_all([["MULTI"], ["SET", "foo", "7"], ["DISCARD"], ["GET", "foo"]])[2],
    ]  # fmt: skip
    rest[0] = [it[:10] for it in rest[0]]
    print(found == right, rest, dict(seen))
    wanted = [["+OK", "+QUEUED", "-CROSSSLOT", "-EXECABORT"], "-ERR EXEC without MULTI", ["+OK", []], "+OK"]
    return found == right and rest == wanted and seen.keys() == {"right", "longest"}


def try_transaction_move():
    """A transaction on a slot that moves takes effect once, and as a whole."""
    client = Client()
    client.ask_all([["SET", "{tx}a", "0"], ["SET", "{tx}b", "0"]])
    move = Move("{tx}a")
    move.key("{tx}a")
    finisher = threading.Timer(0.5, move.finish, ["{tx}b"])
    finisher.start()
    found = client.ask_all([["MULTI"], ["INCR", "{tx}a"], ["INCR", "{tx}b"], ["EXEC"], ["MGET", "{tx}a", "{tx}b"]])
    finisher.join()
    print(found)
    return found[3:] == [[1, 1], [b"1", b"1"]]


def try_blocking():
    """A command that waits holds up its own client alone. If the client leaves, it takes nothing."""
    waiting, leaving, client = Client(), Client(), Client()
    client.ask("DEL", "{foo}list")
    leaving.socket.sendall(request("BLPOP", "{foo}list", "0"))
    time.sleep(0.2)
    leaving.lines.close()
    leaving.socket.close()
    time.sleep(0.3)
    waiting.socket.sendall(request("BLPOP", "{foo}list", "0") + request("GET", "{foo}x"))
    time.sleep(0.2)
    client.ask("SET", "{foo}x", "2")
    pushed, found = client.ask("RPUSH", "{foo}list", "1"), [waiting.reply(), waiting.reply()]
    start = time.monotonic()
    timed_out = client.ask("BLPOP", "{foo}none", "0.5")
    took = time.monotonic() - start
    print(pushed, found, timed_out, f"{took:.2f} s")
    return pushed == 1 and found == [[b"{foo}list", b"1"], b"2"] and 0.4 < took < 3


def try_subscription():
    """A subscriber gets what others publish, and goes on as a usual client after it has unsubscribed."""
    subscriber, client, found = Client(), Client(), []
    subscriber.socket.sendall(request("SUBSCRIBE", "news", "more"))
    found += [subscriber.reply(), subscriber.reply()]
    for it in range(3):
        client.ask("PUBLISH", "news", str(it))
        found.append(subscriber.reply())
    found += [subscriber.ask("PING"), subscriber.ask("GET", "foo")[:4], subscriber.ask("UNSUBSCRIBE"), subscriber.reply()]
    found += [subscriber.ask("SET", "foo", "1"), subscriber.ask("GET", "foo")]
    print(found)
    wanted = [[b"message", b"news", b"%d" % it] for it in range(3)]
    return found[2:5] == wanted and found[5:7] == [[b"pong", b""], "-ERR"] and found[-2:] == ["+OK", b"1"]


def replies_to(port, requests, count):
    """The replies to requests that are sent at once. Errors stand for one another."""
    client = Client(port)
    client.socket.settimeout(10)
    client.socket.sendall(b"".join(request(*it.split()) for it in requests))
    return ["an error" if str(it).startswith("-") else it for it in (client.reply() for _ in range(count))]


IN_ORDER = [
    (["UNSUBSCRIBE", "PUNSUBSCRIBE", "ECHO x"], 3),
    (["unsubscribe a b", "PUNSUBSCRIBE a", "ECHO x"], 4),
    (["ECHO x", "SUBSCRIBE a a", "ECHO x", "PING", "PING y", "UNSUBSCRIBE", "ECHO x", "PING"], 8),
    (["PSUBSCRIBE a*", "SUBSCRIBE a", "PUNSUBSCRIBE", "ECHO x", "UNSUBSCRIBE a b", "PUNSUBSCRIBE", "ECHO x"], 8),
    (["SUBSCRIBE", "ECHO x", "UNSUBSCRIBE", "SUBSCRIBE a", "SUBSCRIBE", "UNSUBSCRIBE x", "SUBSCRIBE b", "PING"], 8),
    (["SUBSCRIBE a", "RESET", "ECHO x", "SUBSCRIBE b", "QUIT"], 5),
]  # fmt: skip


def try_subscription_order():
    """Requests before and after a command about subscriptions are answered in their order, as by a server."""
    found = [replies_to(PROXY, *it) for it in IN_ORDER]
    wanted = [replies_to(PORT, *it) for it in IN_ORDER]
    for it in zip(IN_ORDER, found, wanted):
        print(*it, sep="\n  ")
    client = Client()
    client.ask("SET", "foo", "1")
    mixed = client.ask_all([["GET", "foo"], ["SUBSCRIBE", "a"], ["GET", "foo"], ["UNSUBSCRIBE", "a"], ["GET", "foo"]])
    print(mixed)
    mixed[2] = mixed[2][:9]
    return found == wanted and mixed == [b"1", [b"subscribe", b"a", 1], "-ERR only", [b"unsubscribe", b"a", 0], b"1"]


def try_subscribed_first():
    """Who subscribes and waits for no reply hears what another client publishes then, alone or in a transaction."""
    publisher, heard = Client(), Counter()
    ways = {
        "alone": [["PUBLISH", "now", "x"]],
        "queued": [["MULTI"], ["SET", "foo", "1"], ["PUBLISH", "now", "x"], ["EXEC"]],
        "again": [["PUBLISH", "now", "x"]],
    }
    for at in range(150):
        way = list(ways)[at % 3]
        client = Client()
        client.ask("PING")
        client.socket.settimeout(2)
        client.socket.setsockopt(socket.IPPROTO_TCP, socket.TCP_NODELAY, 1)
        for words in (["SUBSCRIBE"], ["UNSUBSCRIBE"], ["SUBSCRIBE"])[: 3 if way == "again" else 1]:
            client.socket.sendall(request(*words, "now"))
        publisher.ask_all(ways[way])
        try:
            while client.reply()[0] != b"message":
                pass
            heard[way] += 1
        except TimeoutError:
            pass
    print(dict(heard))
    return heard["alone"] == heard["queued"] == heard["again"] == 50


def try_subscription_storm():
    """Messages that come meanwhile stand between the replies, and none is lost or goes astray."""
    over, found = threading.Event(), Counter()

    def publish():
        client, at = Client(PORT), 0  # one node, so that the messages have an order
        while not over.is_set():
            client.ask_all([["PUBLISH", "always", str(at + it)] for it in range(20)])
            at += 20

    def subscribe(number):
        client, last = Client(), None
        names = [f"{number}.{it}" for it in range(50)]
        client.ask("SUBSCRIBE", "always")
        for _ in range(30):
            client.socket.sendall(request("SUBSCRIBE", *names) + request("PING", "a") + request("UNSUBSCRIBE", *names) + request("PING", "b"))
            for wanted in [[b"subscribe"]] * 50 + [[b"pong", b"a"]] + [[b"unsubscribe"]] * 50 + [[b"pong", b"b"]]:
                while (reply := client.reply())[0] == b"message":
                    found["in turn" if last is None or int(reply[2]) == last + 1 else "out of turn"] += 1
                    last = int(reply[2])
                found["right" if reply[: len(wanted)] == wanted else f"{wanted}: {reply}"] += 1

    publisher, subscribers = threading.Thread(target=publish), [threading.Thread(target=subscribe, args=(it,)) for it in range(5)]
    for it in (publisher, *subscribers):
        it.start()
    for it in subscribers:
        it.join()
    over.set()
    publisher.join()
    print(dict(found))
    return found.keys() == {"right", "in turn"} and found["right"] == 5 * 30 * 102


def try_selected():
    """After a refused SELECT nothing takes effect until SELECT 0. So what is meant for another database leaves this one as it is."""
    client = Client()
    client.ask("MSET", "foo", "1", "bar", "2")
    run = subprocess.run(["redis-cli", "-p", str(PROXY), "-n", "1", "flushdb"], capture_output=True, text=True, timeout=20)
    some = ["FLUSHDB", "FLUSHALL", "SET foo 2", "MSET foo 2 bar 3", "MULTI", "SET foo 2", "EXEC", "PING", "SUBSCRIBE news", "BLPOP foo 0", "HELLO 2", "MONITOR"]
    found = client.ask_all([["SELECT", "1"], *(it.split() for it in some), ["SELECT", "2"], ["GET", "foo"], ["AUTH", "x"], ["SELECT", "0"], ["MGET", "foo", "bar"]])
    after = client.ask_all([["SELECT", "x"], ["GET", "foo"], ["SELECT"], ["GET", "foo"], ["RESET"], ["GET", "foo"], ["SELECT", "1"], ["QUIT"]])
    print(run.stdout, run.stderr, found, after)
    refusals = [it[:25] for it in found[1 : 1 + len(some)] + found[-4:-3] + [after[1], after[3]]]
    is_refused = refusals == ["-ERR SELECT was refused, "] * (len(some) + 3) and "SELECT was refused" in run.stdout + run.stderr
    is_open_again = found[-2:] == ["+OK", [b"1", b"2"]] and after[4:6] == ["+RESET", b"1"] and after[7] == "+OK"
    return is_refused and is_open_again and found[-3].startswith("-ERR AUTH") and after[2].startswith("-ERR wrong number")


def try_forged():
    """A script that makes up a redirect runs once, and the error says that it may have taken effect. No slot moves, and no other host is asked."""
    client, before, asked = Client(), figures(), []
    client.ask("SET", "foo", "1")
    with socket.create_server(("127.0.0.1", FAKE)) as host:
        host.settimeout(1)
        for kind in ("MOVED", "ASK"):
            script = f"redis.call('INCR', KEYS[1]) return redis.error_reply('{kind} {slot_of('foo')} 127.0.0.1:{FAKE}')"
            asked.append(client.ask("EVAL", script, "1", "foo"))
        found = Client().ask("GET", "foo")
        try:
            host.accept()
            asked.append("the host was asked")
        except TimeoutError:
            pass
    unsure = figures()["unknown_ends_total"] - before["unknown_ends_total"]
    print(asked, found, unsure)
    are_told = [it.startswith("-UNCERTAIN node 127.0.0.1:") and it.endswith("; the command may have taken effect") for it in asked]
    return are_told == [True] * 2 and found == b"3" and unsure == 2


def try_group():
    """A command that waits does so on a connection of the client's own, whatever its words are named."""
    waiting, client, start = Client(), Client(), time.monotonic()
    client.ask("DEL", "{foo}log")
    client.ask("XGROUP", "CREATE", "{foo}log", "STREAMS", "$", "MKSTREAM")
    waiting.socket.sendall(request("XREADGROUP", "GROUP", "STREAMS", "me", "BLOCK", "3000", "STREAMS", "{foo}log", ">"))
    time.sleep(0.2)
    start = time.monotonic()
    found, took = client.ask("SET", "{foo}x", "1"), time.monotonic() - start
    print(found, f"{took:.2f} s", waiting.reply())
    return found == "+OK" and took < 1
