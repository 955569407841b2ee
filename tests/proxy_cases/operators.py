"""What operators do with the proxy: settings, signals, the log, secrets and figures."""

import os
import re
import shutil
import signal
import socket
import socketserver
import subprocess
import tempfile
import threading
import time
from contextlib import contextmanager, suppress
from html.parser import HTMLParser

from outside import FIGURES, figures, page, raw, rest_of
from shared import Client, FAKE, LeftOut, OTHER, PORT, PROGRAM, ROOT, is_open, port_of, proxy, until

OTHER_FIGURES = FIGURES + 1


def read(path):
    with suppress(OSError), open(path) as file:
        return file.read()
    return ""


def write(path, text):
    with open(path, "w") as file:
        file.write(text)
    return path


@contextmanager
def run(folder, *options, **environment):
    """A proxy with its log in a file. Gives its process and the path of the log."""
    log = f"{folder}/proxy.log"
    words = [PROGRAM, "--listen", f"127.0.0.1:{OTHER}", "--node", f"127.0.0.1:{PORT}", "--log", log, *options]
    process = subprocess.Popen(words, env=os.environ | environment)
    try:
        until(30, lambda: process.poll() is not None or is_open(OTHER))
        yield process, log
    finally:
        process.terminate()
        if process.wait(30):
            print(read(log)[-4000:])
            raise AssertionError(f"the proxy ended with {process.returncode}")


def renew(process, log):
    """Sends SIGHUP, and gives what the log says of it."""
    before = len(read(log))
    process.send_signal(signal.SIGHUP)
    until(10, lambda: re.search("read anew|stay as they are", read(log)[before:]))
    return read(log)[before:]


def try_renew():
    """SIGHUP has the settings read again: limits, times, the password. If one is wrong, none changes."""
    with tempfile.TemporaryDirectory() as folder:
        config = f"{folder}/conf"
        write(config, "max-message 1mb\n")
        with run(folder, "--config", config) as (process, log):
            old = Client(OTHER)
            found = [old.ask("SET", "foo", "x" * 2000)]
            write(config, "max-message 1kb\npassword secret\nthreads 2\n")
            texts = [renew(process, log)]
            found += [old.ask("SET", "foo", "x" * 2000)[:20], Client(OTHER).ask("GET", "foo")[:7], Client(OTHER).ask("AUTH", "secret")]
            write(config, "max-message 2mb\npassword other\nmemory none\n")
            texts.append(renew(process, log))
            found += [Client(OTHER).ask("AUTH", "other")[:10], Client(OTHER).ask("AUTH", "secret")]
            os.remove(config)
            texts.append(renew(process, log))
            write(config, "")
            texts.append(renew(process, log))
            found += [Client(OTHER).ask("SET", "foo", "x" * 2000), Client(OTHER).ask("AUTH", "secret")[:9]]
    print(found, *texts)
    is_told = "threads stays as it was" in texts[0] and "conf:3: memory is not a number" in texts[1] and "No such file" in texts[2]
    wanted = ["+OK", "-ERR Protocol error:", "-NOAUTH", "+OK", "-WRONGPASS", "+OK", "+OK", "-ERR AUTH"]
    return found == wanted and is_told and "stay" not in texts[3]


def files(folder):
    """Files of settings of which each has something wrong, and what is said of it."""
    lines = {
        "threads none": ":2: threads is not a number in its range",
        "threads 65": ":2: threads is not a number in its range",
        "memory 3xb": ":2: memory is not a number in its range",
        "unix-mode 0690": ":2: unix-mode is not a number in its range",
        "nodes 127.0.0.1:1": ":2: nodes is no setting",
        "check yes": ":2: check is no setting",
        "node here": ":2: node is not HOST:PORT",
        "metrics 127.0.0.1:70000": ":2: metrics is not HOST:PORT",
        "quiet maybe": ":2: quiet is neither yes nor no",
        "node-user": ":2: node-user is empty",
        f"password-file {folder}/none": ":2: password-file is no file with a line: No such file",
        f"node-password-file {folder}/empty": ":2: node-password-file is no file with a line: it is empty",
        f"password-file {folder}": ":2: password-file is no file with a line: Is a directory",
        f"password-file {folder}/long": ":2: password-file is no file with a line: it is too long",
        f"password-file {folder}/blank": ":2: password-file is empty",
        f"unix {folder}/{'x' * 108}": ":2: unix is too long",
        "take GET": ":2: take is known already",
        "take A.B\ntake a.b": ":3: take is named already",
        "take a|b": ":2: take is not a command's name",
        "\n".join(f"take name{it}" for it in range(1025)): ":1026: take is one name too many",
        "\n".join(["node 127.0.0.1:1"] * 64): ":65: node is one node too many",
    }
    for name, text in {"empty": "", "blank": "\n", "long": "x" * 5000}.items():
        write(f"{folder}/{name}", text)
    for number, (text, wanted) in enumerate(lines.items()):
        write(f"{folder}/{number}", f"node 127.0.0.1:1\n{text}\n")
        yield ["--config", f"{folder}/{number}"], wanted


def flags(folder):
    """Flags of which one is wrong, and what is said of it."""
    node, unknown = ["--node", "127.0.0.1:1"], f"{'x' * 70}:1"  # longer than a name can be, so no server is asked for it
    yield [], "no node is named"
    yield [*node, "--nodes", "x"], "--nodes is no flag"
    yield [*node, "-t"], "-t is no flag"
    yield [*node, "--timeout"], "--timeout has no value"
    yield [*node, "--config"], "--config has no value"
    yield [*node, "--timeout", "10"], "--timeout 10 is not a number in its range"
    yield [*node, "--config", f"{folder}/none"], "/none: No such file or directory"
    yield [*node, "--config", folder], f"{folder}: Is a directory"
    yield [*node, "--log", f"{folder}/none/log"], "/none/log: No such file or directory"
    yield [*node, "--log", folder], f"{folder}: Is a directory"
    yield [*node, "--listen", unknown], f"{unknown}: "
    yield [*node, "--metrics", unknown], f"{unknown}: "
    yield [*node, "--unix", f"{folder}/none/socket"], "/none/socket: No such file or directory"
    yield [*node, "--unix", f"{folder}/empty"], "/empty: the file is no socket"
    yield [*node, "--tls"], "TLS: "  # there is no certificate, or the program has no TLS


def try_renew_wrong():
    """Each wrong setting is told at SIGHUP, with its line. Then all settings stay, and clients are served as before."""
    wrong, unknown = [], f"{'x' * 70}:1"
    with tempfile.TemporaryDirectory() as folder:
        config = f"{folder}/conf"
        more = {f"listen {unknown}": f"{unknown}: ", f"log {folder}/none/log": "/none/log: No such", f"unix {folder}/none/socket": "/none/socket: No such", "tls yes": "TLS: "}
        cases = [(read(words[1]).replace("node 127.0.0.1:1", "password other", 1), f"stay as they are: {config}{wanted}") for words, wanted in files(folder)]
        cases += [(f"password other\n{line}\n", wanted) for line, wanted in more.items()]
        write(config, "password word\ntake A.B\n")
        with run(folder, "--config", config) as (process, log):
            for text, wanted in cases:
                write(config, text)
                said, client = renew(process, log), Client(OTHER)
                found = client.ask("AUTH", "other")[:10], client.ask("AUTH", "word"), client.ask("SET", "foo", "1")
                if wanted not in said or "stay as they are" not in said or "read anew" in said or found != ("-WRONGPASS", "+OK", "+OK"):
                    wrong.append((wanted, said, found))
            os.remove(config)
            os.mkdir(config)
            texts = [renew(process, log)]
            os.rmdir(config)
            write(config, "password word\ntake A.B\ntake A.C\n")
            texts.append(renew(process, log))
    print(len(cases), "cases;", wrong, *texts)
    return not wrong and f"stay as they are: {config}: Is a directory" in texts[0] and "take stays as it was at the start" in texts[1] and "read anew" in texts[1]


def told(*words):
    """How the program ends, and what it writes, without the time."""
    done = subprocess.run([PROGRAM, *words], capture_output=True, text=True, timeout=30)
    return done.returncode, done.stdout, re.sub("(?m)^\\S+Z ", "", done.stderr)


def try_check():
    """--check finds each wrong setting that a start finds, with the same words and the same status."""
    wrong = []
    with tempfile.TemporaryDirectory() as folder:
        cases = [*files(folder), *flags(folder)]
        for words, wanted in cases:
            found, started = told("--check", *words), told(*words or ["--quiet"])
            if found != started or found[:2] != (2, "") or wanted not in found[2] or found[2].count("\n") != 1:
                wrong.append((words, wanted, found, started))
    print(len(cases), "cases;", wrong)
    return not wrong


def try_check_right():
    """--check says that settings are right. It asks no node, makes no file, and leaves the sockets of a proxy that runs as they are."""
    with tempfile.TemporaryDirectory() as folder, socketserver.TCPServer(("127.0.0.1", FAKE), None) as node:
        node.timeout = 0.2
        node.handle_timeout = lambda: asked.append("nobody")
        asked, path, one = [], f"{folder}/socket", ["--node", f"127.0.0.1:{FAKE}"]
        write(f"{folder}/secret", "word\n")
        more = ["--listen", f"127.0.0.1:{OTHER}", "--metrics", f"127.0.0.1:{OTHER_FIGURES}", "--unix", path, "--password-file", f"{folder}/secret"]
        with proxy(OTHER, PORT, *more):
            found = [told("--check", *one), told(*one, *more, "--log", f"{folder}/log", "--check"), told("--check", *one, "--log", "/dev/null")]
            found.append(told("--check", "--config", f"{ROOT}/packaging/slotroute-proxy.conf"))
            node.handle_request()
            with socket.socket(socket.AF_UNIX) as client:
                client.connect(path)
                client.sendall(b"PING\r\n")
                answer = client.recv(100)
            is_open(OTHER)
        made = sorted(os.listdir(folder))
    print(found, asked, answer, made)
    return found == [(0, "the settings are right\n", "")] * 4 and asked == ["nobody"] and answer.startswith(b"-NOAUTH") and made == ["secret"]


def try_signals():
    """SIGUSR1 and SIGUSR2 end nothing, and --version prints the version alone."""
    version = subprocess.run([PROGRAM, "--node", "x:1", "--version"], capture_output=True, text=True)
    with tempfile.TemporaryDirectory() as folder, run(folder) as (process, log):
        for it in (signal.SIGUSR1, signal.SIGUSR2, signal.SIGHUP):
            process.send_signal(it)
        is_told = until(10, lambda: read(log).count("it does nothing") == 2 and "read anew" in read(log))
        found = process.poll(), Client(OTHER).ask("SET", "foo", "1")
    print(version.stdout, version.stderr, found)
    return found == (None, "+OK") and is_told is not None and re.fullmatch(r"slotroute-proxy \d+\.\d+\.\d+\n", version.stdout) is not None


def try_log():
    """A log that was moved away is followed by a new one after SIGHUP, and no line is lost. A log that cannot be opened is told."""
    wrong = subprocess.run([PROGRAM, "--node", "x:1", "--log", "/none/log"], capture_output=True, text=True)
    with tempfile.TemporaryDirectory() as folder, run(folder) as (process, log):
        os.rename(log, log + ".1")
        process.send_signal(signal.SIGUSR1)
        is_kept = until(10, lambda: "signal 10" in read(log + ".1")) is not None and not os.path.exists(log)
        texts = renew(process, log), read(log + ".1")
    print(wrong.returncode, wrong.stderr, *texts)
    return is_kept and wrong.returncode == 2 and "/none/log: No such file" in wrong.stderr and "read anew" in texts[0] and "slots" in texts[1] and f"listening at 127.0.0.1:{OTHER}" in texts[1]


def try_logrotate():
    """The file for logrotate that the package has rotates the log."""
    program = shutil.which("logrotate", path=os.environ["PATH"] + ":/usr/sbin")
    if program is None or os.getuid() != 0:
        raise LeftOut("it needs logrotate, and root")
    with tempfile.TemporaryDirectory() as folder, run(folder) as (process, log):
        text = read(f"{ROOT}/packaging/slotroute-proxy.logrotate").replace("/var/log/slotroute-proxy/*.log", log)
        write(f"{folder}/conf", re.sub("(?m)^.*systemctl.*$", f"kill -HUP {process.pid}", text))
        os.chmod(f"{folder}/conf", 0o644)
        done = subprocess.run([program, "-f", "-s", f"{folder}/state", f"{folder}/conf"], capture_output=True, text=True)
        is_rotated = until(10, lambda: "read anew" in read(log)) is not None
        old = read(log + ".1")
    print(done.returncode, done.stderr, old)
    return done.returncode == 0 and is_rotated and "the map has" in old


def try_secrets():
    """Passwords come from files or the environment, so that no list of processes shows them."""
    found = []
    with tempfile.TemporaryDirectory() as folder:
        write(f"{folder}/secret", "from the file\n")
        write(f"{folder}/none", "")
        with run(folder, "--password-file", f"{folder}/secret", SLOTROUTE_PASSWORD="unused") as (process, log):
            found.append(Client(OTHER).ask("AUTH", "from the file"))
            write(f"{folder}/secret", "another")
            renew(process, log)
            found.append(Client(OTHER).ask("AUTH", "another"))
            is_hidden = "file\0" not in read(f"/proc/{process.pid}/cmdline").replace("-file\0", "")
        with run(folder, SLOTROUTE_PASSWORD="from outside", SLOTROUTE_NODE_PASSWORD=""):
            found.append(Client(OTHER).ask("AUTH", "from outside"))
        wrong = subprocess.run([PROGRAM, "--node", "x:1", "--password-file", f"{folder}/none"], capture_output=True, text=True)
    print(found, is_hidden, wrong.stderr)
    return found == ["+OK"] * 3 and is_hidden and wrong.returncode == 2 and "is no file with a line" in wrong.stderr


class Leaving(socketserver.StreamRequestHandler):
    """A node that has the slots up to `last`, and closes the connection in place of a reply to any other question."""

    last = 16383

    def handle(self):
        slots = b"*1\r\n*3\r\n:0\r\n:%d\r\n*2\r\n$9\r\n127.0.0.1\r\n:%d\r\n"
        with suppress(OSError):  # the proxy resets the connection
            while (line := self.rfile.readline()) and b"CLUSTER" in [(self.rfile.readline(), self.rfile.readline())[1][:-2] for _ in range(int(line[1:]))]:
                self.wfile.write(slots % (Leaving.last, FAKE))


def try_uncertain():
    """An error after which a command may have taken effect begins with UNCERTAIN. Clients take it as any other error."""
    socketserver.ThreadingTCPServer.allow_reuse_address = socketserver.ThreadingTCPServer.daemon_threads = True
    with socketserver.ThreadingTCPServer(("127.0.0.1", FAKE), Leaving) as node:
        threading.Thread(target=node.serve_forever).start()
        with proxy(OTHER, FAKE, "--retry", "300"):
            found = [Client(OTHER).ask("SET", "foo", "1"), Client(OTHER).ask("MSET", "foo", "1", "bar", "2")]
            cli = subprocess.run(["redis-cli", "-p", str(OTHER), "set", "foo", "1"], capture_output=True, text=True, timeout=20)
        node.shutdown()
    print(found, cli)
    is_sure = all(it.startswith("-UNCERTAIN node 127.0.0.1:") and it.endswith("may have taken effect") for it in found)
    return is_sure and cli.stdout.startswith("UNCERTAIN node")


def try_counts():
    """There are figures of each node, of each command, and of each refused name. Clients cannot make up more than some."""
    with proxy(OTHER, PORT, "--threads", "2", "--metrics", f"127.0.0.1:{OTHER_FIGURES}"):
        client = Client(OTHER)
        client.ask_all([["SET", "foo", "1"], ["GET", "foo"], ["get", "foo"], ["LPUSH", "foo", "1"], ["SCRIPT", "EXISTS", "x"], ["DEL", "foo"]])
        client.ask_all([["MONITOR"], ["monitor"], ['A"\\\n{}'], *([f"NAME{it}"] for it in range(500))])
        Client(OTHER).ask("MONITOR")  # at the other thread
        node = f'{{node="127.0.0.1:{port_of("foo")}"}}'
        until(5, lambda: (found := figures(OTHER_FIGURES))[f"node_open_connections{node}"] and not found[f"node_in_flight{node}"])
        found = figures(OTHER_FIGURES)
    of_node = {it: found[f"{it}{node}"] for it in ("node_errors_total", "node_in_flight", "node_up", "node_open_connections", "node_connections_ended_total")}
    commands = {it: found.get(f'command_calls_total{{command="{it}"}}') for it in ("SET", "GET", "LPUSH", "SCRIPT|EXISTS", "MONITOR", "(unknown)")}
    refused = {it: value for it, value in found.items() if it.startswith("refused_total")}
    gauges = {it: found[it] for it in ("nodes", "nodes_up", "slots_served", "map_age_seconds")}
    print(of_node, commands, len(refused), gauges)
    is_right = refused['refused_total{command="MONITOR"}'] == 3 and sum(refused.values()) == 504 and 0 < len(refused) <= 128
    is_right &= refused['refused_total{command="A?????"}'] == 1 and refused['refused_total{command="(others)"}'] > 300
    is_right &= commands == {"SET": 1, "GET": 2, "LPUSH": 1, "SCRIPT|EXISTS": 1, "MONITOR": 3, "(unknown)": 501}
    is_right &= 3 <= gauges["nodes_up"] <= gauges["nodes"] <= 6 and gauges["slots_served"] == 16384 and gauges["map_age_seconds"] < 60
    return is_right and of_node["node_errors_total"] == 1 and of_node["node_in_flight"] == 0 and of_node["node_up"] == 1 and of_node["node_open_connections"] >= 1


def try_counts_three():
    """The figures of a node have its connection of version 3, too. SCAN, WATCH, inline commands, and commands of transactions are counted,
    also those that a transaction or a command like CLIENT refuses."""
    with proxy(OTHER, PORT, "--metrics", f"127.0.0.1:{OTHER_FIGURES}"):
        client, node = Client(OTHER), f'{{node="127.0.0.1:{port_of("foo")}"}}'
        client.ask_all([["GET", "foo"], ["DEL", "foo"]])
        client.ask("HELLO", "3")
        until(5, lambda: figures(OTHER_FIGURES).get(f"node_open_connections{node}"))
        before = figures(OTHER_FIGURES)
        client.ask_all([["SET", "foo", "1"], ["LPUSH", "foo", "1"], ["WATCH", "foo"], ["MULTI"], ["EVAL", "return 1", "0"], ["EVAL", "return 1", "1", "foo"], ["EXEC"]])
        client.ask_all([["MULTI"], ["MONITOR"], ["DISCARD"], ["CLIENT", "TRACKING", "on"], ["CONFIG", "SET", "maxmemory", "1"], ["SCAN", "0"]])
        inline = raw(OTHER)
        inline.sendall(b"PING\r\nQUIT\r\n")
        rest_of(inline)
        until(5, lambda: figures(OTHER_FIGURES)[f"node_open_connections{node}"] == 2)
        found, info = figures(OTHER_FIGURES), client.ask("INFO", "stats").decode()
    of_node = [found[f"{it}{node}"] - before[f"{it}{node}"] for it in ("node_errors_total", "node_open_connections", "node_requests_total")]
    commands = [found.get(f'command_calls_total{{command="{it}"}}') for it in ("SCAN", "WATCH", "EVAL", "EXEC", "PING", "QUIT", "CONFIG")]
    refused = [found.get(f'refused_total{{command="{it}"}}') for it in ("MONITOR", "CLIENT", "CONFIG")]
    processed = re.search("total_commands_processed:(\\d+)", info)
    print(of_node, commands, refused, found["commands_total"], processed[0])
    is_right = of_node[:2] == [1, 1] and of_node[2] >= 2  # SCAN may have gone there, or a question for the map
    return is_right and commands == [1, 1, 2, 1, 1, 1, 1] and refused == [1, 1, 1] and int(processed[1]) == found["commands_total"]


LABELS = r'\{(?:[a-z_]+="(?:[^"\\\n]|\\["\\n])*",?)*\}'
SAMPLE = re.compile(rf"([a-z_]+?)(_bucket|_sum|_count)?({LABELS})? ([-+.e\d]+|\+Inf)")


def faults_of(text):
    """What is wrong with a text for Prometheus."""
    kinds, seen, last = {}, set(), None
    for line in text.splitlines():
        if line.startswith("#"):
            mark, word, name, rest = line.split(" ", 3)
            if word == "TYPE":
                if name in kinds or last != name:
                    yield f"{line}: twice, or without HELP"
                kinds[name] = rest
            last = name
            continue
        match = SAMPLE.fullmatch(line)
        name = match and (match[1] if kinds.get(match[1]) == "histogram" else match[1] + (match[2] or ""))
        if not match or name != last or kinds.get(name) not in ("counter", "gauge", "histogram"):
            yield f"{line}: not a figure of {last}"
        elif line.rpartition(" ")[0] in seen or (kinds[name] == "counter") != name.endswith("_total"):
            yield f"{line}: twice, or a wrong name"
        seen.add(line.rpartition(" ")[0])


def try_prometheus():
    """The figures are a text that Prometheus reads, by a strict reader and by promtool, if it is there."""
    client = Client()
    client.ask_all([["SET", "foo", "1"], ["MGET", "foo", "bar"], ["MONITOR"], ["GET"]])
    status, kind, text = page("/metrics")
    faults = [*faults_of(text), *([] if text.endswith("\n") else ["no line end"])]
    below = [float(it) for it in re.findall(r'seconds_bucket\{le="\S+"\} (\S+)', text)]
    count = float(re.search(r"seconds_count (\S+)", text)[1])
    tool = shutil.which("promtool")
    said = subprocess.run([tool, "check", "metrics"], input=text, capture_output=True, text=True) if tool else None
    print(status, kind, len(text.splitlines()), faults, said and said.stderr)
    is_steady = below == sorted(below) and below[-1] == count
    return status == 200 and kind == "text/plain; version=0.0.4" and not faults and is_steady and (said is None or said.returncode == 0)


def try_waiting():
    """A command that waits is counted, and its time is not among those of the others."""
    before, client = figures(), Client()
    found = [client.ask("BLPOP", "{foo}none", "0.3"), client.ask("XREAD", "BLOCK", "300", "STREAMS", "{foo}no", "$")]
    after = figures()
    print(found, after["seconds_count"] - before["seconds_count"], after["commands_total"] - before["commands_total"])
    return found == [None, None] and after["seconds_count"] == before["seconds_count"] and after["commands_total"] == before["commands_total"] + 2


def try_ready():
    """/healthz is well while the proxy runs, and /readyz while each slot has a node and one of the nodes answers."""
    socketserver.ThreadingTCPServer.allow_reuse_address = socketserver.ThreadingTCPServer.daemon_threads = True
    with socketserver.ThreadingTCPServer(("127.0.0.1", FAKE), Leaving) as node:
        threading.Thread(target=node.serve_forever).start()
        with proxy(OTHER, FAKE, "--metrics", f"127.0.0.1:{OTHER_FIGURES}") as (process, _, _):
            found = [page(it, OTHER_FIGURES)[::2] for it in ("/healthz", "/readyz?x=1", "/readyz/", "/none")]
            Leaving.last = 16000
            Client(OTHER).ask("GET", "foo")  # the connection ends, so the map is read
            gone = until(20, lambda: page("/readyz", OTHER_FIGURES)[0] == 503)
            found += [page(it, OTHER_FIGURES)[::2] for it in ("/healthz", "/readyz")] + [page("/readyz", OTHER_FIGURES, "HEAD")[::2]]
            served = figures(OTHER_FIGURES)["slots_served"]
            Leaving.last = 16383
            Client(OTHER).ask("GET", "foo")
            back = until(20, lambda: page("/readyz", OTHER_FIGURES)[0] == 200)
            head = page("/metrics", OTHER_FIGURES, "HEAD")[::2], page("/metrics", OTHER_FIGURES, "POST")[0]
            node.shutdown()
            node.server_close()  # so that no node is left
            Client(OTHER).ask("GET", "foo")
            lost = until(20, lambda: page("/readyz", OTHER_FIGURES)[0] == 503), page("/readyz", OTHER_FIGURES)[2], page("/", OTHER_FIGURES)[2]
    print(found, gone, served, back, head, lost[:2])
    first = [(200, "16384 of 16384 slots have a node\n"), (200, "16384 of 16384 slots have a node\n"), (404, "no such page\n"), (404, "no such page\n")]
    then = [(200, "16001 of 16384 slots have a node\n"), (503, "16001 of 16384 slots have a node\n"), (503, "")]
    is_told = lost[0] is not None and lost[1] == "16384 of 16384 slots have a node, and no node answers\n" and "Not ready: 0 of 1" in lost[2]
    return found == first + then and served == 16001 and None not in (gone, back) and head == ((200, ""), 404) and is_told


class Tags(HTMLParser):
    """Collects the tags of a page, with their attributes."""

    def __init__(self, text):
        super().__init__()
        self.found = []
        self.feed(text)

    def handle_starttag(self, tag, attributes):
        self.found.append((tag, dict(attributes)))

    def all(self, tag):
        return [it for name, it in self.found if name == tag]


def try_page():
    """The page for people has nodes, slots, rates and refused commands. It needs no script, and nothing from elsewhere."""
    socketserver.ThreadingTCPServer.allow_reuse_address = socketserver.ThreadingTCPServer.daemon_threads = True
    Leaving.last = 16000
    with socketserver.ThreadingTCPServer(("127.0.0.1", FAKE), Leaving) as node:
        threading.Thread(target=node.serve_forever).start()
        with proxy(OTHER, FAKE, "--metrics", f"127.0.0.1:{OTHER_FIGURES}"):
            Client(OTHER).ask_all([["PING"], ["<b>"]])
            time.sleep(2.2)
            status, kind, partial = page("/", OTHER_FIGURES)
        node.shutdown()
    Leaving.last = 16383
    time.sleep(1)
    whole = page("/")[2]
    strips = [[(int(it["x"]), int(it["width"]), it.get("class")) for it in Tags(text).all("rect")] for text in (partial, whole)]
    names = [line for line in re.findall(r"</i>([^<]+)<td>(\w+)<td[^>]*>([\w ]+)<td>(\d+)", whole)]
    is_plain = not Tags(whole).all("script") and "http" not in whole.replace("http-equiv", "") and "src=" not in whole and "<b>" not in partial
    points = Tags(whole).all("polygon")[0]["points"].split()
    print(status, kind, len(whole), strips, names, len(points))
    is_whole = sum(it[1] for it in strips[1]) == 16384 and all(it[2] is None for it in strips[1])
    is_partial = strips[0] == [(0, 16000, None), (16000, 384, "none")] and "Not ready" in partial and "??B?" not in partial and "?B?, refused" in partial
    served = sum(int(it[3]) for it in names if it[1] == "primary")
    return status == 200 and kind.startswith("text/html") and is_plain and is_whole and is_partial and served == 16384 and len(points) > 2 and "content=2" in whole
