"""Four network namespaces, and a cluster in three of them. The hub has a bridge to the others. Each of these
has a primary, and the replica of another one.
"""

import ctypes
import os
import signal
import subprocess
import tempfile
from contextlib import contextmanager, suppress

from shared import PORT, Client, LeftOut, until

HUB, SPACES = 0, (1, 2, 3)  # SPACES: those of nodes
PLACES = [(space, port) for port in (7000, 7001) for space in SPACES]  # of nodes: three primaries, and three replicas
NOBODY = "02:00:00:00:00:99"


def run(words):
    subprocess.run(words.split(), check=True, capture_output=True, text=True)


def name(space):
    return f"slotroute-{PORT}-{space}"


def address(space):
    return f"198.18.0.{space + 1}"


def hardware(space):
    return f"02:00:00:00:00:0{space}"


def let(sender, receiver, passes=True):
    """Packets from one namespace to another pass, or go to a hardware address that nobody has."""
    to = hardware(receiver) if passes else NOBODY
    run(f"ip -n {name(sender)} neigh replace {address(receiver)} lladdr {to} dev net0 nud permanent")


def plug(space, passes=True):
    """All packets from a namespace and to it pass, or none does."""
    run(f"bridge -n {name(HUB)} link set dev port{space} state {3 if passes else 0}")


def make():
    for it in (HUB, *SPACES):
        run(f"ip netns add {name(it)}")
        run(f"ip -n {name(it)} link set lo up")
    run(f"ip -n {name(HUB)} link add net0 address {hardware(HUB)} type bridge")
    for it in SPACES:
        run(f"ip -n {name(it)} link add net0 address {hardware(it)} type veth peer name port{it} netns {name(HUB)}")
        run(f"ip -n {name(HUB)} link set port{it} master net0 up")
    for it in (HUB, *SPACES):
        run(f"ip -n {name(it)} address add {address(it)}/24 dev net0")
        run(f"ip -n {name(it)} link set net0 up")
    for it in SPACES:
        let(HUB, it)
        let(it, HUB)


def remove():
    """Ends what runs in the namespaces, and removes them."""
    for it in (HUB, *SPACES):
        if os.path.exists(f"/run/netns/{name(it)}"):
            found = subprocess.run(["ip", "netns", "pids", name(it)], capture_output=True, text=True)
            for number in found.stdout.split():
                os.kill(int(number), signal.SIGKILL)
            run(f"ip netns del {name(it)}")


def enter(space):
    library = ctypes.CDLL(None, use_errno=True)
    if library.setns(space.fileno(), 0) != 0:
        raise OSError(ctypes.get_errno(), "setns")


@contextmanager
def inside_hub():
    """This thread is in the hub, and so are the threads and processes that it starts."""
    with open("/proc/thread-self/ns/net") as home, open(f"/run/netns/{name(HUB)}") as hub:
        enter(hub)
        try:
            yield
        finally:
            enter(home)


def ask(place, *words):
    """What a node answers, or None."""
    space, port = place
    with suppress(OSError):
        return Client(port, address(space)).ask(*words)


def owner(key):
    """The place of a key's primary."""
    slot = ask(PLACES[0], "CLUSTER", "KEYSLOT", key)
    host, port = next(it[2][:2] for it in ask(PLACES[0], "CLUSTER", "SLOTS") if it[0] <= slot <= it[1])
    return next(it for it in PLACES if (address(it[0]).encode(), it[1]) == (host, port))


def is_whole():
    """Whether each node serves and says that all slots have a replica, and replicas have their primaries' data."""
    roles, maps = [ask(it, "ROLE") for it in PLACES], [ask(it, "CLUSTER", "SLOTS") for it in PLACES]
    is_served = all(b"cluster_state:ok" in ask(it, "CLUSTER", "INFO") for it in PLACES)
    is_known = all([len(it) for it in found] == [4] * 3 for found in maps)
    return is_served and is_known and [it[3] for it in roles if it[0] == b"slave"] == [b"connected"] * 3


def start_nodes(folder):
    """Starts the cluster, and gives its processes."""
    nodes = []
    for space, port in PLACES:
        own = f"{folder}/{space}-{port}"
        os.mkdir(own)
        words = f"ip netns exec {name(space)} redis-server --bind {address(space)} --port {port} --dir {own} --logfile {own}/log"
        words += " --protected-mode no --cluster-enabled yes --cluster-node-timeout 2000 --repl-diskless-sync-delay 0 --save"
        nodes.append(subprocess.Popen([*words.split(), ""]))
    until(10, lambda: all(ask(it, "PING") for it in PLACES))
    names = " ".join(f"{address(space)}:{port}" for space, port in PLACES)
    run(f"redis-cli --cluster create {names} --cluster-replicas 1 --cluster-yes")
    for it in PLACES[:3]:
        ask(it, "FLUSHALL")  # maps name no replica to which nothing was ever sent
    if until(60, is_whole) is None:
        raise AssertionError("the cluster is not whole")
    return nodes


@contextmanager
def network():
    """Makes the namespaces and starts the cluster. This thread is in the hub meanwhile."""
    nodes = []
    remove()  # what an earlier run left
    with tempfile.TemporaryDirectory() as folder:
        try:
            try:
                make()
            except (OSError, subprocess.CalledProcessError) as fault:
                raise LeftOut(f"no network namespaces: {getattr(fault, 'stderr', '').strip() or fault}") from fault
            with inside_hub():
                nodes += start_nodes(folder)
                yield
        finally:
            remove()
            for it in nodes:
                it.wait()
