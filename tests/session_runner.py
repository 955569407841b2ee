#!/usr/bin/env python3
"""Does what tests/session_runner.c does, with the session of the module for Python."""

import re
import sys

from slotroute import Refused, Session

SETTINGS = {"most_reply_bytes": 4000, "most_calls": 50, "most_bytes": 3000, "silence": 60, "pause": 10, "retries": 16}
REFUSALS = {
    "REQUEST_INCOMPLETE": "Unread(Incomplete)", "REQUEST_MALFORMED": "Unread(Malformed)",
    "AFTER_REQUEST": "AfterRequest", "NO_FORM": "NoOneReply", "NOT_ROUTABLE": "NoRoute", "NOT_TAKEN": "NotTaken",
    "BLOCKING": "Blocking", "TOO_MANY": "Limit", "NO_MEMORY": "Memory",
}  # fmt: skip
ESCAPES = {9: "\\t", 10: "\\n", 13: "\\r", 34: '\\"', 39: "\\'", 92: "\\\\"}


def bytes_of(text):
    """A text with escapes as bytes."""
    text = "" if text == '""' else text.replace("\\s", "\\x20")
    return re.sub(rb"\\(x..|[rn])", lambda it: {b"r": b"\r", b"n": b"\n"}.get(it[1]) or bytes([int(it[1][1:], 16)]), text.encode())


def shown(data):
    """Bytes with the escapes of Rust."""
    return "".join(ESCAPES.get(it) or (chr(it) if 32 <= it < 127 else f"\\x{it:02x}") for it in data)


def some(number):
    return "None" if number is None else f"Some({number})"


def done(call, *words):
    """What is printed of a call that returns nothing."""
    try:
        call(*words)
    except Refused:
        return "none"
    return "OK"


class Runner:
    """A session, by the names of the lines."""

    def __init__(self, login=""):
        self.session, self.open = Session(login=bytes_of(login), **SETTINGS), set()

    def shell(self, login):
        self.session.close()
        self.__init__(login)
        return "OK"

    def node(self, address):
        host, port = address.rsplit(":", 1)
        return some(self.session.add_node(host, int(port)))

    def wanted(self, _):
        return some(self.session.wanted_node())

    def address(self, node):
        try:
            return "{}:{}".format(*self.session.address(int(node)))
        except Refused:
            return "none"

    def connected(self, node):
        try:
            link = self.session.connected(int(node))
        except Refused:
            return "none"
        self.open.add(link)
        return str(link)

    def unreachable(self, node):
        return done(self.session.unreachable, int(node))

    def to_write(self, _):
        return some(self.session.link_to_write())

    def unwritten(self, link):
        return shown(self.session.unwritten(int(link)))

    def wrote(self, words):
        return {"OK": "true", "none": "false"}[done(self.session.wrote, *map(int, words.split()))]

    def read(self, words):
        link, data = words.split(" ", 1)
        return done(self.session.read, int(link), bytes_of(data))

    def ended(self, link):
        """Ends a link if it is open. An end of another one would have the map asked for."""
        if int(link) in self.open:
            self.open.remove(int(link))
            self.session.ended(int(link))
        return "OK"

    def close(self, _):
        return some(self.session.link_to_close())

    def begin(self, words):
        caller, deadline, request = words.split(" ", 2)
        try:
            return str(self.session.begin(int(caller), bytes_of(request), int(deadline)))
        except Refused as refused:
            return REFUSALS[refused.name]

    def give_up(self, call):
        return str(self.session.give_up(int(call))).lower()

    def advance(self, now):
        return done(self.session.advance, int(now))

    def time(self, _):
        return some(self.session.next_time())

    def next(self, _):
        reply = self.session.next_reply()
        return "none" if reply is None else f"{reply.caller} {reply.call} {shown(reply.data)}"


def main():
    runner = Runner()
    for line in sys.stdin:
        name, _, words = line.rstrip("\n").partition(" ")
        if name != "==":
            print(getattr(runner, name.replace("-", "_"))(words), flush=True)


main()
