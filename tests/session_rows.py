"""The rows of a session, as the program of rows reads them, and the messages that they have.

A row is a tuple of a name and its words. A remark has the name `#`.
"""

import re
from typing import NamedTuple

ASKING = b"*1\r\n$6\r\nASKING\r\n"


class Malformed(Exception):
    """The bytes begin no message."""


class Seat(NamedTuple):
    call: int
    part: int


# the tickets of requests that are no parts
ASKS, LOGIN, MAP = ("Asking",), ("Login",), ("Map", 0)


class Spec(NamedTuple):
    """A part as it begins."""

    order: object
    retries: int
    may_refuse: bool
    request: bytes


# ---- messages

LINE = re.compile(rb"[^\r\n]*")


def ended(data, end):
    """The end of the line or the bytes that end there, or None if that has not come."""
    tail = data[end : end + 2]
    if tail not in (b"", b"\r", b"\r\n"):
        raise Malformed
    return end + 2 if len(tail) == 2 else None


def head(data, at):
    """The end of the head there and how many items it announces, or None if it is not whole."""
    mark, stop = data[at : at + 1], LINE.match(data, at + 1).end()
    text, is_line = data[at + 1 : stop], mark in b"+-:,#_("
    if mark not in b"+-:,#_($!=*~>%|":
        raise Malformed
    if not is_line and stop == len(data) and text in (b"", b"-"):
        return None
    if not is_line and text != b"-1" and not (re.fullmatch(rb"[0-9]+", text) and int(text) < 2**63):
        raise Malformed
    end, count = ended(data, stop), 0 if is_line else int(text)
    if end and mark in b"$!=" and count >= 0:
        end, count = ended(data, end + count), 0
    items = 0 if mark in b"$!=" else max(count, 0) * (2 if mark in b"%|" else 1) + (mark == b"|")
    return end and (end, items)


def message(data):
    """The end of the message at the front, or None if it is not whole, and whether it has version 2."""
    at, wanted, is_2 = 0, 1, True
    while wanted:
        found = head(data, at) if at < len(data) else None
        if not found:
            return None, is_2
        is_2 = is_2 and data[at : at + 1] in b"+-:$*"
        at, wanted = found[0], wanted - 1 + found[1]
    return at, is_2


# ---- rows


def text(row):
    """A row as the program reads it. Of bytes at its end a space is a byte."""
    words = " ".join(map(word, row))
    return words.replace("\\s", " ") if row[0] == "hear" else words


def word(it):
    """A word of a row."""
    if isinstance(it, Seat):
        return f"{it.call}.{it.part}"
    if isinstance(it, Spec):
        return f"{it.order}:{it.retries}:{'yes' if it.may_refuse else 'no'}:{word(it.request)}"
    if isinstance(it, bytes):
        plain = "".join(chr(b) if 33 <= b < 127 and b not in b"\\=" else f"\\x{b:02x}" for b in it)
        return plain.replace("\\x0d", "\\r").replace("\\x0a", "\\n").replace("\\x20", "\\s") or '""'
    return str(it)


def shown(it):
    """What the program prints of a value."""
    if isinstance(it, Seat):
        return f"Seat {{ call: {it.call}, part: {it.part} }}"
    if isinstance(it, bytes):
        return str(list(it))
    if isinstance(it, list):
        return f"[{', '.join(map(shown, it))}]"
    if isinstance(it, tuple):
        return it[0] + (f"({', '.join(map(shown, it[1:]))})" if it[1:] else "")
    return str(it)


def name_of(ticket):
    """What the program prints of a ticket."""
    return f"Part({ticket.call}, {ticket.part})" if isinstance(ticket, Seat) else shown(ticket)


def some(it):
    return "None" if it is None else f"Some({shown(it)})"


def lines_of(rows):
    """The lines of rows with their answers."""
    return ["== session", *(f"{text(row)} => {answer}" for row, answer in rows)]
