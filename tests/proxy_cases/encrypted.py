"""TLS to clients and to nodes. The program has to be made with TLS=1."""

import os
import select
import shutil
import socket
import ssl
import subprocess
import tempfile
import time
from collections import Counter
from contextlib import contextmanager, suppress

from operators import read, renew, run, told, write
from outside import descriptors_of, memory_of, raw, rest_of
from shared import Client, FAKE, IS_CHECKED, LeftOut, OTHER, PORT, PROGRAM, is_open, proxy, request, said, until

NODES = range(FAKE + 2, FAKE + 5)  # the ports of a cluster that speaks TLS
CA = "-x509 -days 2 -addext basicConstraints=critical,CA:TRUE"


def need_tls():
    without = subprocess.run([PROGRAM, "--node", "x:1", "--tls"], capture_output=True, text=True)
    if "made without TLS" in without.stderr or not shutil.which("openssl"):
        raise LeftOut("the program was made without TLS, or openssl is missing")


def openssl(folder, words):
    subprocess.run(["openssl", *words.split()], cwd=folder, check=True, capture_output=True)


def make_certificate(folder, name, authority="ca"):
    new = "req -newkey ec -pkeyopt ec_paramgen_curve:prime256v1 -nodes"
    if not os.path.exists(f"{folder}/{authority}.key"):
        openssl(folder, f"{new} {CA} -subj /CN={authority} -keyout {authority}.key -out {authority}.crt")
    openssl(folder, f"{new} -subj /CN={name} -addext subjectAltName=DNS:{name} -keyout {name}.key -out {name}.csr")
    openssl(folder, f"x509 -req -in {name}.csr -CA {authority}.crt -CAkey {authority}.key -days 2 -copy_extensions copy -out {name}.crt")


def flags(folder, name="proxy", authority="ca"):
    return ["--tls-cert", f"{folder}/{name}.crt", "--tls-key", f"{folder}/{name}.key", "--tls-ca", f"{folder}/{authority}.crt"]


@contextmanager
def certificates():
    """A folder with the certificates of a proxy, of nodes and of a client, and of a stranger."""
    need_tls()
    with tempfile.TemporaryDirectory() as folder:
        for name in ("proxy", "node", "client"):
            make_certificate(folder, name)
        make_certificate(folder, "stranger", "other")
        yield folder


def context(folder, name=None, authority="ca"):
    it = ssl.create_default_context(cafile=f"{folder}/{authority}.crt")
    if name:
        it.load_cert_chain(f"{folder}/{name}.crt", f"{folder}/{name}.key")
    return it


class Encrypted(Client):
    def __init__(self, folder, port=OTHER, **how):
        plain = socket.create_connection(("127.0.0.1", port), timeout=60)
        self.socket = context(folder, **how).wrap_socket(plain, server_hostname="proxy")
        self.lines = self.socket.makefile("rb")


def cli(folder, *words, port=OTHER, authority="ca", name=None):
    how = ["--tls", "--cacert", f"{folder}/{authority}.crt", *(["--cert", f"{folder}/{name}.crt", "--key", f"{folder}/{name}.key"] if name else [])]
    done = subprocess.run(["redis-cli", "-p", str(port), *how, *words], capture_output=True, text=True, timeout=60)
    return (done.stdout + done.stderr).strip()


def try_tls_clients():
    """Clients that speak TLS are served, also by redis-cli. Those that do not, or that lack a certificate, are closed."""
    with certificates() as folder, proxy(OTHER, PORT, "--tls", *flags(folder)):
        found = [cli(folder, "set", "foo", "1"), cli(folder, "mget", "foo", "none"), cli(folder, "get", "foo", authority="other")[:40]]
        plain = raw(OTHER)
        plain.sendall(request("SET", "foo", "2") * 100)
        closed = rest_of(plain)
        client = Encrypted(folder)
        asked = client.ask_all([["GET", "foo"], ["QUIT"]]) + [client.lines.read()]
    with certificates() as folder, proxy(OTHER, PORT, "--tls", "--tls-auth-clients", *flags(folder)):
        checked = [cli(folder, "get", "foo", name="client"), cli(folder, "get", "foo")[:5], cli(folder, "get", "foo", name="stranger")[:5]]
    print(found, closed, asked, checked)
    is_right = found[:2] == ["OK", "1"] and "Could not connect" in found[2]
    return is_right and b"OK" not in closed and asked == [b"1", "+OK", b""] and checked == ["1", "Error", "Error"]


def send_slowly(connection, data, size):
    for at in range(0, len(data), size):
        connection.sendall(data[at : at + size])


def exchange(connection, data, size, count):
    """Sends data in pieces of a size, and reads so many bytes meanwhile. One thread does both: two may not use
    a connection of Python's ssl at once."""
    came, data, end = b"", memoryview(data), time.monotonic() + 30
    connection.setblocking(False)
    while len(came) < count and time.monotonic() < end:
        is_idle = True
        with suppress(ssl.SSLWantReadError, ssl.SSLWantWriteError):
            data = data[connection.send(data[:size]) if data else 0 :]
            is_idle = not data
        with suppress(ssl.SSLWantReadError, ssl.SSLWantWriteError):
            came += (piece := connection.recv(count - len(came)))
            is_idle = not piece
        if is_idle:
            select.select([connection], [connection] if data else [], [], 0.1)
    connection.setblocking(True)
    return came


def try_tls_pieces():
    """Requests and replies of any size come whole through TLS, in pieces, while others are served."""
    big, client = os.urandom(8 << 20), None
    some = request("SET", "{foo}a", "1") + request("MGET", "{foo}a", "bar", "baz") + request("GET", "{foo}a")
    wanted = b"+OK\r\n*3\r\n$1\r\n1\r\n$-1\r\n$-1\r\n$1\r\n1\r\n"
    Client(PORT + 6).ask("DEL", "bar", "baz")
    with certificates() as folder, proxy(OTHER, PORT, "--tls", *flags(folder)):
        client = Encrypted(folder)
        send_slowly(client.socket, some, 1)
        found = [client.lines.read(len(wanted)) == wanted]
        for size in (100, 16384, 16385, 1 << 20):
            found.append(exchange(client.socket, some * 2000, size, 2000 * len(wanted)) == wanted * 2000)
        found += [client.ask("SET", "big", big), client.ask("GET", "big") == big]
        client.socket.sendall(request("GET", "big") * 8)  # much more than the sockets keep
        time.sleep(1)
        found += [Encrypted(folder).ask("GET", "{foo}a"), *(client.reply() == big for _ in range(8))]
        half = Encrypted(folder)
        half.socket.sendall(some * 500)
        socket.socket.shutdown(half.socket, socket.SHUT_WR)
        found.append(half.lines.read() == wanted * 500)
        client.ask("DEL", "big")
    print(found)
    return found == [True] * 5 + ["+OK", True, b"1"] + [True] * 9


def try_tls_stall():
    """Clients that stall in the handshake are closed in time. They take little memory, and others are served."""
    with certificates() as folder, proxy(OTHER, PORT, "--tls", *flags(folder)) as (process, _, _):
        client = Encrypted(folder)
        before, count = memory_of(process), 600
        incoming, outgoing = ssl.MemoryBIO(), ssl.MemoryBIO()
        hello = context(folder).wrap_bio(incoming, outgoing, server_hostname="proxy")
        with suppress(ssl.SSLWantReadError):
            hello.do_handshake()
        first = outgoing.read()
        long_hello = b"\x16\x03\x01\x40\x00\x01\x01\xff\xff" + b"x" * 9000  # says that 128 KiB will follow
        stalled = [raw(OTHER) for _ in range(count)]
        for at, it in enumerate(stalled):
            it.sendall([b"", first[:50], first, long_hello][at % 4])
        start, took = time.monotonic(), Counter()
        time.sleep(2)
        most = memory_of(process)
        while descriptors_of(process) > 50 and time.monotonic() < start + 30:
            took["served" if client.ask("SET", "foo", "1") == "+OK" else "not"] += 1
            time.sleep(0.05)
        waited, after = time.monotonic() - start, memory_of(process)
        fresh = Encrypted(folder).ask("GET", "foo")
        for it in stalled:
            it.close()
    print(f"closed after {waited:.1f} s; KiB of memory: {before}, {most}, then {after}; {dict(took)} {fresh}")
    is_small = IS_CHECKED or (most - before) / count < 100
    return waited < 20 and took.keys() == {"served"} and fresh == b"1" and is_small


@contextmanager
def cluster_of_nodes(folder):
    """Three nodes that speak TLS alone, also with one another, and want certificates."""
    processes = []
    try:
        for port in NODES:
            os.mkdir(f"{folder}/{port}")
            files = ["--tls-cert-file", f"{folder}/node.crt", "--tls-key-file", f"{folder}/node.key", "--tls-ca-cert-file", f"{folder}/ca.crt"]
            words = ["redis-server", "--port", "0", "--tls-port", str(port), "--tls-cluster", "yes", "--cluster-enabled", "yes", "--dir", f"{folder}/{port}"]
            processes.append(subprocess.Popen([*words, *files, "--bind", "127.0.0.1", "--save", ""], stdout=subprocess.DEVNULL))
        until(30, lambda: all(is_open(port) for port in NODES))
        made = cli(folder, "--cluster", "create", *(f"127.0.0.1:{port}" for port in NODES), "--cluster-yes", port=NODES[0], name="client")
        if "All 16384 slots covered" not in made:
            raise LeftOut(f"no cluster that speaks TLS: {made[-300:]}")
        until(30, lambda: all("cluster_state:ok" in cli(folder, "cluster", "info", port=port, name="client") for port in NODES))
        yield
    finally:
        for it in processes:
            it.terminate()
        for it in processes:
            it.wait()


def try_tls_nodes():
    """A cluster that speaks TLS alone is served. Nodes with a certificate of another authority, or with another name, are not asked."""
    with certificates() as folder, cluster_of_nodes(folder):
        found, refused = [], []
        for more in ([], ["--node-tls-name", "node"], ["--tls", "--threads", "2"]):
            with proxy(OTHER, NODES[0], "--node-tls", *flags(folder), *more):
                client = Encrypted(folder) if "--tls" in more else Client(OTHER)
                words = [["MSET", "foo", "1", "bar", "2"], ["MGET", "bar", "foo"], ["MULTI"], ["SET", "foo", "3"], ["EXEC"], ["BLPOP", "none", "0.1"]]
                found.append(client.ask_all(words))
                big = os.urandom(4 << 20)
                found[-1] += [client.ask("SET", "foo", big), client.ask("GET", "foo") == big, client.ask("DBSIZE")]
                found[-1] += [client.ask("HELLO", "3")[b"proto"], *client.ask_all([["HGETALL", "none"], ["MGET", "bar", "none"], ["BLPOP", "none", "0.1"]])]
        for how in (flags(folder, authority="other"), [*flags(folder), "--node-tls-name", "proxy"], flags(folder, "stranger"), None):
            with proxy(OTHER, NODES[0], "--timeout", "1500", *(["--node-tls", *how] if how else [])) as (process, _, report):
                refused.append((process.wait(30), said(report)))
    print(found, refused)
    wanted = ["+OK", [b"2", b"1"], "+OK", "+QUEUED", ["+OK"], None, "+OK", True, 2, 3, {}, [b"2", None], None]
    texts = ["self-signed certificate in certificate chain", "hostname mismatch", "", ""]
    return found == [wanted] * 3 and all(status == 1 and text in said for (status, said), text in zip(refused, texts))


def serial_of(folder):
    with socket.create_connection(("127.0.0.1", OTHER), timeout=20) as plain, context(folder).wrap_socket(plain, server_hostname="proxy") as it:
        return it.getpeercert()["serialNumber"]


def try_tls_renew():
    """SIGHUP has the certificates read again. If one is wrong, no setting changes, and clients stay connected."""
    with certificates() as folder, run(folder, "--tls", *flags(folder), "--config", write(f"{folder}/conf", "")) as (process, log):
        old, serials = Encrypted(folder), [serial_of(folder)]
        make_certificate(folder, "proxy")
        renew(process, log)
        is_new = until(10, lambda: serial_of(folder) != serials[0])
        serials.append(serial_of(folder))
        write(f"{folder}/proxy.crt", "nothing")
        write(f"{folder}/conf", "password word\n")
        text = renew(process, log)
        serials.append(serial_of(folder))
        found = old.ask("SET", "foo", "1"), Encrypted(folder).ask("GET", "foo")
    print(serials, found, text)
    is_told = f"TLS: {folder}/proxy.crt: error:" in text and "the settings stay as they are" in text and "read anew" not in text
    return is_new is not None and is_told and serials[1] == serials[2] and found == ("+OK", b"1")


def try_tls_check():
    """--check reads the certificates, and finds the wrong ones that a start finds. It says which file is wrong."""
    with certificates() as folder:
        node = ["--check", "--node", "127.0.0.1:1"]
        write(f"{folder}/empty", "")
        wrong = {
            ("--tls",): "TLS: tls needs tls-cert",
            ("--tls", "--tls-cert", f"{folder}/none"): "/none: error:",
            ("--tls", "--tls-cert", f"{folder}/proxy.crt"): "/proxy.crt: error:",  # it has no key
            ("--tls", "--tls-cert", f"{folder}/proxy.crt", "--tls-key", f"{folder}/none"): "/none: error:",
            ("--tls", "--tls-cert", f"{folder}/proxy.crt", "--tls-key", f"{folder}/node.key"): "/node.key: error:",
            ("--tls", *flags(folder)[:4], "--tls-ca", f"{folder}/empty"): "/empty: error:",
            ("--node-tls", "--tls-ca", f"{folder}/none"): "/none: error:",
            ("--node-tls", *flags(folder, "empty")): "/empty.crt: error:",
        }
        found = {words: (told(*node, *words), told(*node[1:], *words)) for words in wrong}
        right = [told(*node, *words) for words in (["--tls", *flags(folder)], ["--node-tls"], ["--node-tls", "--tls", *flags(folder), "--tls-auth-clients"])]
    print(found, right)
    is_told = all(it[0] == it[1] and it[0][:2] == (2, "") and wrong[words] in it[0][2] for words, it in found.items())
    return is_told and right == [(0, "the settings are right\n", "")] * 3


def try_open():
    """The log warns of an address that is open to a network without a password."""
    texts = []
    for how in (["0.0.0.0"], ["0.0.0.0", "--password", "x"], ["127.0.0.1"]):
        with tempfile.TemporaryDirectory() as folder, run(folder, "--listen", f"{how[0]}:{OTHER}", *how[1:]) as (_, log):
            texts.append(read(log))
    print(texts)
    return ["is open to all" in it for it in texts] == [True, False, False]
