"""What stands around the proxy: its Makefile, and the cluster of examples/."""

import os
import signal
import subprocess
import tempfile
import time
from contextlib import suppress

from shared import FAKE, ROOT, Client, is_open, until

CLUSTER = FAKE + 2  # the first port of another cluster


def make(folder, *words):
    """Calls make in a folder as a shell does, with a compiler that does nothing."""
    words = ["make", "-B", "CC=true", *words]
    return subprocess.run(words, cwd=folder, env=os.environ | {"PWD": folder}, capture_output=True, text=True)


def try_make():
    """A relative PREFIX starts in the folder in which make is called. Without a library there, its path is told."""
    found = []
    with tempfile.TemporaryDirectory() as prefix:
        os.mkdir(f"{prefix}/lib")
        open(f"{prefix}/lib/libslotroute.a", "w").close()
        for folder, options in ((ROOT, ["-C", "proxy"]), (f"{ROOT}/proxy", [])):
            for given in (prefix, os.path.relpath(prefix, folder)):
                run = make(folder, *options, f"PREFIX={given}")
                includes = [os.path.realpath(it[2:]) for it in run.stdout.split() if it.startswith("-I")]
                found.append(run.returncode == 0 and includes == [os.path.realpath(f"{prefix}/include")])
            run = make(folder, *options, "PREFIX=no/such")
            found.append(run.returncode == 2 and f"no {folder}/no/such/lib/libslotroute.a: tools/c-archive" in run.stderr)
    print(found)
    return found == [True] * 6


def stands_still(port, folder, seconds):
    """Has a node stand still for some seconds once it meets other nodes. Gives whether it did."""
    until(30, lambda: is_open(port))
    nodes = Client(port)
    if until(30, lambda: b"handshake" in nodes.ask("CLUSTER", "NODES")) is None:
        return False
    process = int(open(f"{folder}/slotroute-cluster-{CLUSTER}/{port}/pid").read())
    os.kill(process, signal.SIGSTOP)
    time.sleep(seconds)
    os.kill(process, signal.SIGCONT)
    return True


def try_cluster_start():
    """`examples/cluster start` makes a cluster, also if a node stands still while the nodes meet each other."""
    with tempfile.TemporaryDirectory() as folder:
        environment = os.environ | {"PORT": str(CLUSTER), "TMPDIR": folder}
        with subprocess.Popen([f"{ROOT}/examples/cluster", "start"], env=environment, stdout=subprocess.PIPE, text=True) as start:
            try:
                stood = stands_still(CLUSTER, folder, 5)
                with suppress(subprocess.TimeoutExpired):
                    start.wait(60)
            finally:
                start.kill()
                subprocess.run([f"{ROOT}/examples/cluster", "stop"], env=environment, timeout=60)
            found = stood, start.returncode, start.stdout.read()
    print(*found)
    return stood and start.returncode == 0


def try_cluster_stop():
    """`examples/cluster stop` stops all servers, also if one was killed and its number is that of another process."""
    with tempfile.TemporaryDirectory() as folder, subprocess.Popen(["sleep", "100"]) as other:
        environment = os.environ | {"PORT": str(CLUSTER), "TMPDIR": folder}
        files = [f"{folder}/slotroute-cluster-{CLUSTER}/{CLUSTER + it}/pid" for it in range(6)]
        start = subprocess.run([f"{ROOT}/examples/cluster", "start"], env=environment, capture_output=True, text=True)
        try:
            for it in files[:2]:
                os.kill(int(open(it).read()), signal.SIGKILL)
            with open(files[1], "w") as file:
                file.write(f"{other.pid}\n")
        finally:
            stop = subprocess.run([f"{ROOT}/examples/cluster", "stop"], env=environment, capture_output=True, text=True, timeout=60)
        found = start.returncode, stop.returncode, [is_open(CLUSTER + it) for it in range(6)], os.listdir(folder), other.poll()
        other.kill()
    print(*found, stop.stderr)
    return found == (0, 0, [None] * 6, [], None)
