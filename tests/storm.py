"""A storm over nodes in memory (tests/fake_cluster.py): slots move, nodes end, and links are cut. A caller
writes keys of its own meanwhile, and judges the replies: each value that it reads is one that it wrote, and
no increment ran twice, or not at all though its reply came."""

import time

NO_EFFECT = "the command did not take effect"


class Failure(str):
    """The text of the error with which a command ended."""


def commands(number, turns):
    """The commands of a caller."""
    key, counter = f"key:{number}", f"counter:{number}"
    for turn in range(turns):
        yield "SET", key, f"{number}-{turn}"
        yield "GET", key
        yield "INCR", counter
        yield "MGET", key, f"none:{number}"


class Judge:
    """What the key of a caller may hold, and how often its counter was raised: for sure, and perhaps."""

    def __init__(self):
        self.may_hold, self.sure, self.perhaps = {None}, 0, 0

    def note(self, words, reply):
        """Judges the reply to the next command."""
        is_failure = isinstance(reply, Failure)
        if words[0] == "SET":
            value = words[2].encode()
            self.may_hold = self.may_hold | {value} if is_failure else {value}
            assert is_failure or reply == b"OK", reply
        elif words[0] == "INCR":
            self.sure += not is_failure
            self.perhaps += is_failure and NO_EFFECT not in reply
            assert is_failure or self.sure <= reply <= self.sure + self.perhaps, (reply, self.sure, self.perhaps)
        elif not is_failure:
            first, *others = reply if words[0] == "MGET" else [reply]
            assert first in self.may_hold and others in ([], [None]), (words, reply, self.may_hold)

    def end(self, nodes, number):
        """Judges what the counter holds in the end."""
        count = int(nodes.values.get(b"counter:%d" % number, 0))
        assert self.sure <= count <= self.sure + self.perhaps, (number, count, self.sure, self.perhaps)


def rage(nodes, callers, rng):
    """Has slots move, links end after any byte, and half of six nodes end, for a second or two. It begins once
    each caller has written its key, or after half a minute."""
    until = time.monotonic() + 30
    while not all(b"key:%d" % it in nodes.values for it in range(callers)) and time.monotonic() < until:
        time.sleep(0.01)
    for index in range(3):
        for _ in range(40):
            nodes.move(b"key:%d" % rng.randrange(callers), rng.randrange(index, 6))
            nodes.cut_after(rng.randrange(rng.choice((100, 1000, 10000))))
            time.sleep(0.01)
        nodes.kill(index, 5)
        nodes.drop_links()
    nodes.cut_after()
