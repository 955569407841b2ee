"""The Python values of replies."""

from __future__ import annotations

from typing import TypeAlias

from ._compiled import find_value
from .errors import InvalidResponse, error_of

Value: TypeAlias = "bytes | int | None | Exception | list[Value]"
BULK = ord("$")


def value_of(reply: bytes) -> Value:
    """The value of one whole reply of RESP2: bytes, an int, None, or a list of values. An error is
    an exception, which is returned and not raised. What is no reply is an `InvalidResponse`."""
    if (value := find_value(reply)) is not NotImplemented:
        return value
    try:
        if reply[0] == BULK:  # most replies, so they are read at once
            end = reply.index(b"\r\n")
            text = reply[1:end]
            if text.isdigit() and int(text) + end + 4 == len(reply):
                return reply[end + 2 : -2]
        return _value(reply)
    except (ValueError, IndexError) as fault:
        raise InvalidResponse(f"no reply of RESP2: {reply[:80]!r}") from fault


def checked(reply: bytes) -> Value:
    """The value of a reply. If it is an error, it is raised."""
    value = value_of(reply)
    if isinstance(value, Exception):
        raise value
    return value


def _value(reply: bytes) -> Value:
    """The value of a reply. Each array that is not full is kept with its count, so that no depth of
    arrays is too deep."""
    at, open_arrays = 0, list[tuple[list[Value], int]]()
    while True:
        end = reply.index(b"\r\n", at)
        mark, text = reply[at : at + 1], reply[at + 1 : end]
        at = end + 2
        if mark == b"*" and text not in (b"0", b"-1"):
            open_arrays.append(([], _length(text)))
            continue
        if mark == b"$" and text != b"-1":
            start, at = at, at + _length(text) + 2
            value: Value = reply[start : at - 2]
        else:
            value = _line_value(mark, text)
        while open_arrays:
            items, count = open_arrays[-1]
            items.append(value)
            if len(items) < count:
                break
            value, _ = open_arrays.pop()
        else:
            if at != len(reply):
                raise ValueError(at)
            return value


def _line_value(mark: bytes, text: bytes) -> Value:
    """The value of a line that is a whole reply."""
    if mark == b"+":
        return text
    if mark == b":":
        return _number(text)
    if mark == b"-":
        return error_of(text)
    if mark in (b"$", b"*") and text == b"-1":
        return None
    if mark == b"*":
        return []
    raise ValueError(mark)


def _number(text: bytes) -> int:
    """The number that a line has. Python's own reader would take `1_0`, too."""
    if not text.lstrip(b"+-").isdigit():
        raise ValueError(text)
    return int(text)


def _length(text: bytes) -> int:
    """The length of a string, or of an array."""
    if not text.isdigit():
        raise ValueError(text)
    return int(text)
