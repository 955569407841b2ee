"""What the proxy says of itself, and requests that are lines of text."""

import re
import subprocess

from outside import raw, rest_of
from shared import Client, PORT, PROXY, request, until


def fields(text):
    """The fields of INFO."""
    return dict(it.split(":", 1) for it in text.decode().splitlines() if ":" in it)


def try_info():
    """INFO has the fields that client libraries read, by sections, and those that are the nodes' own are theirs."""
    client, node = Client(), fields(Client(PORT).ask("INFO"))
    found = fields(client.ask("INFO"))
    same = ["redis_version", "maxmemory_policy", "maxmemory", "role"]
    sections = {it: list(fields(client.ask("INFO", *it.split()))) for it in ("server", "REPLICATION", "memory cluster", "none")}
    wanted = {"redis_mode": "standalone", "loading": "0", "cluster_enabled": "0", "connected_slaves": "0", "uptime_in_days": "0"}
    print(found, sections)
    is_right = all(found[it] == node[it] for it in same) and wanted.items() <= found.items() and int(found["connected_clients"]) > 0
    is_cut = sections["REPLICATION"] == ["role", "connected_slaves"] and sections["none"] == [] and "proxy" in sections["server"]
    is_cut &= "cluster_enabled" in sections["memory cluster"] and "role" not in sections["memory cluster"]
    version = client.ask("HELLO", "2")[3].decode()
    client.ask("SET", "foo", "1", "EX", "1000")
    client.ask_all([["SET", str(it), "1"] for it in range(20)])
    count = client.ask("DBSIZE")
    has_count = until(30, lambda: re.fullmatch(f"keys={count},expires=[1-9][0-9]*,avg_ttl=0", fields(client.ask("INFO", "keyspace")).get("db0", ""))) is not None
    is_cut &= all(re.fullmatch(r"# \w+", it) for it in client.ask("INFO").decode().split("\r\n") if it.startswith("#"))  # or lua-redis fails
    return is_right and is_cut and has_count and version == node["redis_version"] and "total_commands_processed" in fields(client.ask("INFO", "all"))


def try_config():
    """CONFIG GET tells what the proxy knows, by patterns, and nothing else. ROLE is a primary's."""
    client = Client()
    found = [client.ask("CONFIG", "GET", *it.split()) for it in ("maxmemory-policy", "DATABASES", "max* timeout maxclients", "requirepass", "no[")]
    refused = [client.ask(*it.split())[:30] for it in ("CONFIG", "CONFIG GET", "CONFIG SET maxmemory 1", "CONFIG RESETSTAT")]
    print(found, refused, client.ask("ROLE"))
    is_right = found[:2] == [[b"maxmemory-policy", b"noeviction"], [b"databases", b"1"]] and found[3:] == [[], []]
    is_right &= sorted(found[2][::2]) == [b"maxclients", b"maxmemory", b"maxmemory-policy", b"timeout"]
    return is_right and client.ask("ROLE") == [b"master", 0, []] and refused == ["-ERR the proxy does not take t"] * 4


def try_clients():
    """CLIENT tells of the clients, with names of any length. What would change the connection is refused."""
    client, at_threads, name = Client(), [Client() for _ in range(8)], "n" * 5000  # one of them at the thread of `client`
    for it in at_threads:
        it.ask("SUBSCRIBE", "news")
    found = [client.ask("CLIENT", *it.split()) for it in (f"SETNAME {name}", "GETNAME", "SETINFO LIB-NAME x", "NO-EVICT on", "NO-TOUCH OFF", "ID")]
    own, everyone = client.ask("CLIENT", "INFO").decode(), client.ask("CLIENT", "LIST").decode().splitlines()
    subscribers = client.ask("CLIENT", "LIST", "TYPE", "pubsub").decode().splitlines()
    refused = [client.ask("CLIENT", *it.split())[:30] for it in ("TRACKING on", "REPLY OFF", "KILL x", "PAUSE 1", "NO-EVICT x")] + [client.ask("CLIENT", "SETNAME", "a b")[:18]]
    port = client.socket.getsockname()[1]
    print(found[2:], own.replace(name, "NAME"), len(everyone), subscribers, refused)
    is_own = f"id={found[5]} addr=127.0.0.1:{port} laddr=127.0.0.1:{PROXY} " in own and f" name={name} " in own and " db=0 " in own
    is_listed = any(f"id={found[5]} " in it for it in everyone) and len(subscribers) >= 1 and all(" flags=P " in it for it in subscribers)
    is_named = client.ask("CLIENT", "SETNAME", "") == "+OK" and client.ask("CLIENT", "GETNAME") == b""
    return found[:5] == ["+OK", name.encode(), "+OK", "+OK", "+OK"] and is_own and is_listed and is_named and refused == ["-ERR the proxy does not take t"] * 5 + ["-ERR Client names c"[:18]]


def try_lines():
    """Empty lines are skipped, and lines of text are requests if the proxy answers them itself, in their order. Other protocols are refused."""
    found = []
    for text in (
        b"\r\nPING\r\n\n  ping  hello \r\n\r\n" + request("ECHO", "x") + b"\r\nROLE\r\nQUIT\r\nPING\r\n",
        b"PING\r\nGET foo\r\nPING\r\n", b"POST / HTTP/1.1\r\nHost: x\r\n\r\nPING\r\n", b"P" * 2000, b"PING " * 20 + b"\r\n", b"PING\0 x\r\n",
    ):  # fmt: skip
        connection = raw()
        connection.sendall(text)
        found.append(rest_of(connection))
    pieces = raw()
    for it in (b"PI", b"NG\r", b"\n\r", b"\nPING\r\n"):
        pieces.sendall(it)
    while len(found[-1]) < 14 or len(found) < 7:
        found = [*found, b""] if len(found) < 7 else [*found[:-1], found[-1] + pieces.recv(100)]
    pipe = subprocess.run(["redis-cli", "-p", str(PROXY), "--pipe"], input=b"".join(request("SET", f"pipe{it}", it) for it in range(1000)), capture_output=True, timeout=20)
    words = ["redis-benchmark", "-p", str(PROXY), "-n", "1000", "-q", "-t", "ping_inline,ping_mbulk,set"]
    bench = subprocess.run(words, capture_output=True, text=True, timeout=30)
    waiting = raw()
    waiting.sendall((request("GET", "none") + b"RESET\r\nECHO x\r\n") * 50 + b"QUIT\r\n")
    is_in_order = rest_of(waiting) == b"$-1\r\n+RESET\r\n$1\r\nx\r\n" * 50 + b"+OK\r\n"
    quoted = []
    for text in (rb'ECHO "a \x41\"\n\q"', rb"ECHO  'it\'s \n' ", b'ECHO ""', b'ECHO "x', b'ECHO "x"y', b"ECHO 'x\\'"):
        connection = raw()
        connection.sendall(text + b"\r\nQUIT\r\n")
        quoted.append(rest_of(connection).removesuffix(b"+OK\r\n")[:19])
    print(found, pipe.stdout, bench.stdout[-300:], is_in_order, quoted)
    is_right = is_in_order and found[0] == b"+PONG\r\n$5\r\nhello\r\n$1\r\nx\r\n*3\r\n$6\r\nmaster\r\n:0\r\n*0\r\n+OK\r\n" and found[6] == b"+PONG\r\n" * 2
    is_refused = found[1].startswith(b"+PONG\r\n-ERR Protocol error") and all(it.startswith(b"-ERR Protocol error") for it in found[2:6])
    are_quotes_read = quoted == [b'$6\r\na A"\nq\r\n', b"$7\r\nit's \\n\r\n", b"$0\r\n\r\n"] + 3 * [b"-ERR Protocol error"]
    return is_right and is_refused and are_quotes_read and b"errors: 0, replies: 1000" in pipe.stdout and len(re.findall("requests per second", bench.stdout)) == 3
