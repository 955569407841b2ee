"""Packets are dropped between the proxy and nodes, and between nodes. Nobody is told."""

import os
import threading
import time

from network import HUB, SPACES, address, ask, is_whole, let, network, owner, plug
from outside import descriptors_of
from shared import OTHER, Client, others, proxy, request, said, until
from storms import User, use

TIMEOUT, RETRY, MORE = 1.5, 2, 2  # seconds: no client waits for longer than for all three
LONGEST = TIMEOUT + RETRY + MORE
LONG = 2 * (TIMEOUT + RETRY) + 1


def is_served():
    return Client(OTHER).ask("SET", "{foo}", "1") == "+OK"


def a_moment():
    """A node is cut off for half a second."""
    plug(3, False)
    time.sleep(0.5)
    plug(3)
    return is_served()


def cut(drop, restore):
    """Drops packets for a while. Gives whether a client that waits for an element of a list gets an error in time."""
    waiting, start = Client(OTHER), time.monotonic()
    waiting.socket.sendall(request("BLPOP", "{foo}none", "0"))
    time.sleep(0.2)
    drop()
    error, took = waiting.reply(), time.monotonic() - start
    print(f"  {error}, after {took:.1f} s")
    time.sleep(max(0, start + LONG - time.monotonic()))
    restore()
    return "may have taken effect" in error and took < LONGEST


def cut_off(*pairs):
    """No packet passes from a namespace to another. Nodes see each other, so none takes another's place."""
    old = owner("foo")
    is_told = cut(lambda: [let(*it, False) for it in pairs], lambda: [let(*it) for it in pairs])
    back = until(30, is_served)
    print(f"  served {back} s after packets pass; {owner('foo')} has the slot, as {old} had")
    return is_told and back is not None and owner("foo") == old


def requests_dropped():
    return cut_off((HUB, 3))


def replies_dropped():
    return cut_off((3, HUB))


def all_dropped():
    return cut_off(*((HUB, it) for it in SPACES))


def node_alone():
    """A primary is cut off from all. Its replica takes over, and it becomes a replica once packets pass."""
    old, served = owner("foo"), []
    probe = threading.Thread(target=lambda: served.append(until(LONG, is_served)), daemon=True)

    def drop():
        plug(3, False)
        probe.start()

    is_told = cut(drop, lambda: plug(3))
    probe.join()
    back = until(60, lambda: is_whole() and ask(old, "ROLE")[0] == b"slave")
    print(f"  served {served[0]} s after the cut; a replica {back} s after packets pass; {owner('foo')} has the slot, as {old} had")
    return is_told and None not in (served[0], back) and owner("foo") != old


def while_used(number, scene):
    """What clients of all nodes see, and clients of a node that is not cut off, while a scene is played."""
    users, played = [User(number * 100 + it, 1 << 60, OTHER, 3) for it in range(12)], []

    def play(_):
        try:
            time.sleep(1)
            played.append(scene())
            time.sleep(1)
        finally:
            while any(it.is_alive() for it in users):
                for it in users:
                    it.left = 0
                time.sleep(0.1)

    print(f"{scene.__name__}:")
    with others(2, "{bar}", OTHER) as far:
        seen, wrong = use(users, play)
    longest = max(it.longest for it in users)
    print(f"  longest wait: {longest:.1f} s; at another node: {dict(far)}")
    is_quiet = scene in (all_dropped, node_alone) or (far.keys() == {"right", "longest"} and far["longest"] < 1)
    kinds = {"right"} if scene == a_moment else {"right", "lost", "not sent", "-CLUSTERDOWN The cluster is do"}
    has_errors = scene == a_moment or seen["lost"] > 0
    return played == [True] and not wrong and longest < LONGEST and is_quiet and has_errors and seen.keys() <= kinds


def opened(process):
    """How many descriptors the proxy has once each thread is connected to all nodes."""
    for client in [Client(OTHER) for _ in range(8)]:
        client.ask("SCRIPT", "LOAD", "return 1")
    del client
    time.sleep(0.2)
    return descriptors_of(process)


def try_partition():
    """Packets of a node are dropped, or those between the proxy and nodes: errors in time, no late write, service
    after that, and the descriptors are what they were."""
    options = "--timeout", str(int(1000 * TIMEOUT)), "--retry", str(int(1000 * RETRY)), "--threads", os.environ.get("THREADS", "1")
    found = []
    with network(), proxy(OTHER, 7000, *options, host=address(1)) as (process, _, report):
        before = opened(process)
        for number, scene in enumerate((a_moment, requests_dropped, replies_dropped, all_dropped, node_alone)):
            found.append(while_used(number, scene))
            found.append(until(20, lambda: opened(process) == before) is not None)
        print(f"{found}; {before} descriptors, and {opened(process)} at the end; {said(report)[-2000:]}")
    return all(found)
