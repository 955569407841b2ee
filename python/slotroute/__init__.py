"""The routing layer from Python, by ctypes over the shared library for C.

    from slotroute import Library, request

    library = Library()
    parts = library.split(request("DEL", "foo", "bar"))
    reply = library.combine(request("DEL", "foo", "bar"), [b":1\r\n", b":1\r\n"])

Requests and replies are bytes of the Redis protocol, RESP2. The page for callers in C says what
each call does.

`Cluster` is a client over sockets, and `slotroute.aio.Cluster` is one for asyncio. Both stand on a
`Session`, which has no sockets.
"""

from __future__ import annotations

import ctypes
from ctypes import POINTER, byref, c_char, c_char_p, c_size_t, c_uint16, c_uint32, c_uint64
from itertools import pairwise
from os import PathLike
from typing import Any, Callable, Sequence

from ._compiled import make_request
from ._shared import library_path, processor_lacks

# Codes of `Refused.answer`, kinds of `route`, policies and kinds of `redirect`, as in the header.
DONE, NO_MEMORY, TOO_SMALL, REQUEST_INCOMPLETE, REQUEST_MALFORMED, AFTER_REQUEST = range(6)
NOT_MULTI_KEY, REPLY_INCOMPLETE, REPLY_MALFORMED, REPLY_TOO_DEEP, REPLY_IS_ERROR = range(6, 11)
AFTER_REPLIES, UNFIT, NO_FORM, NOT_TEXT, NO_REDIRECT, LINE_FEED_IN_HOST = range(11, 17)
NOT_ROUTABLE, BAD_NAME = 17, 19
NOT_THERE, NOT_TAKEN, BLOCKING, TOO_MANY = range(20, 24)
GOES_NOWHERE, TO_ANY, TO_ANY_PRIMARY, TO_SLOT, TO_ALL, TO_ALL_PRIMARIES, TO_SLOTS = range(7)
PRIMARY, REPLICA_OPTIONAL, REPLICA = range(3)
NO_POLICY, ONE_SUCCEEDED, FIRST_NOT_EMPTY, ALL_SUCCEEDED, BITS_AND, BITS_OR = range(6)
LEAST, SUM, ARRAYS, SPECIAL, MAPS = range(6, 11)
MOVED, ASK = 1, 2
SLOTS, NO_NODE = 16384, 65535
# The names of the codes, by their numbers.
CODES: dict[int, str] = {
    globals()[name]: name
    for name in (
        "DONE NO_MEMORY TOO_SMALL REQUEST_INCOMPLETE REQUEST_MALFORMED AFTER_REQUEST NOT_MULTI_KEY "
        "REPLY_INCOMPLETE REPLY_MALFORMED REPLY_TOO_DEEP REPLY_IS_ERROR AFTER_REPLIES UNFIT NO_FORM "
        "NOT_TEXT NO_REDIRECT LINE_FEED_IN_HOST NOT_ROUTABLE BAD_NAME NOT_THERE NOT_TAKEN BLOCKING "
        "TOO_MANY"
    ).split()
}
BYTES_IN: list[Any] = [c_char_p, c_size_t]
BYTES_OUT: list[Any] = [c_char_p, c_size_t]
Data = bytes | bytearray

if _lacking := processor_lacks():
    raise ImportError(
        "slotroute needs a processor of x86-64-v2; this one lacks " + ", ".join(_lacking)
    )


class Fields(ctypes.Structure):
    def __repr__(self) -> str:
        fields = ", ".join(f"{it[0]}={getattr(self, it[0])}" for it in self._fields_)
        return f"{type(self).__name__}({fields})"


class Told(Fields):
    """Sizes that a call needs, or where a fault is."""

    parts: int
    bytes: int
    reply: int
    at: int
    _fields_ = [(name, c_size_t) for name in ("parts", "bytes", "reply", "at")]


class Routed(Fields):
    """Where a request goes: `kind` is TO_SLOT or the like, `addr` PRIMARY or the like."""

    kind: int
    slot: int
    addr: int
    policy: int
    _fields_ = [(name, c_uint32) for name in ("kind", "slot", "addr", "policy")]


class Redirected(Fields):
    """A redirect without its host: `kind` is MOVED or ASK."""

    kind: int
    slot: int
    port: int
    host_len: int
    _fields_ = [(name, c_uint32) for name in ("kind", "slot", "port")] + [("host_len", c_size_t)]


class Progress(Fields):
    """How far `scan` has come in a message. A new message begins with `Progress()`."""

    bytes: int
    searched: int
    after: int
    _fields_ = [("bytes", c_size_t), ("searched", c_size_t), ("after", c_uint64)]


class Refused(Exception):
    """An answer that is not the one that was asked for: its number, its text, and what is told."""

    def __init__(self, answer: int, text: str, told: Told) -> None:
        super().__init__(text)
        self.answer, self.reply, self.at = answer, told.reply, told.at

    @property
    def name(self) -> str:
        """The name of the code, as `NOT_TAKEN`."""
        return CODES.get(self.answer, str(self.answer))


class Library:
    """The calls of the library at `path`. Without a path it is the library in this package, that of
    `prebuilt` in its tree, or the one that the system's loader finds. Requests and replies are
    `bytes`. `names` has lines that register a module's commands, as `b"multi keys sum COUNTKEYS"`.
    A bad line is refused at once.
    """

    def __init__(self, path: str | PathLike[str] | None = None, names: Data = b"") -> None:
        self.names = bytes(names), len(names)
        lib = self.lib = ctypes.CDLL(library_path() if path is None else str(path))
        told: list[Any] = [POINTER(Told)]
        slots: list[Any] = [POINTER(c_uint16), c_size_t]
        ends: list[Any] = [POINTER(c_size_t), c_size_t]
        calls: tuple[tuple[str, list[Any], Any], ...]
        calls = (
            ("message", [c_uint32, *BYTES_OUT], c_size_t),
            ("version", [], c_uint32),
            ("slot", BYTES_IN, c_uint16),
            ("request_len", BYTES_IN + told, c_uint32),
            ("reply_len", BYTES_IN + told, c_uint32),
            ("scan", [*BYTES_IN, POINTER(Progress)], c_uint32),
            ("route", [*BYTES_IN, *BYTES_IN, c_uint32, POINTER(Routed), *told], c_uint32),
            ("split", BYTES_IN * 2 + slots + ends + BYTES_OUT + told, c_uint32),
            ("combine", BYTES_IN * 3 + BYTES_OUT + told, c_uint32),
            ("combine_answers", [c_uint32, c_size_t, *BYTES_IN, *BYTES_OUT, *told], c_uint32),
            ("table", BYTES_IN * 2 + [c_uint32, c_size_t] + slots + BYTES_OUT + told, c_uint32),
            ("redirect", [*BYTES_IN, *BYTES_IN, *BYTES_OUT, POINTER(Redirected)], c_uint32),
        )
        for name, takes, gives in calls:
            call = getattr(lib, "slotroute_" + name)
            call.argtypes, call.restype = takes, gives
        self.route(request("PING"))

    def message(self, answer: int) -> str:
        """The text of a code."""
        text = ctypes.create_string_buffer(100)
        length = self.lib.slotroute_message(answer, text, 100)
        return text.raw[:length].decode()

    def version(self) -> int:
        """The version of the library as a number: 204 for 0.2.4."""
        return int(self.lib.slotroute_version())

    def slot(self, key: bytes) -> int:
        """The slot of a key."""
        return int(self.lib.slotroute_slot(key, len(key)))

    def request_len(self, data: Data) -> int | None:
        """The length of the first request, or None if more bytes are needed. A bytearray is not
        copied."""
        return self._len(self.lib.slotroute_request_len, data, REQUEST_INCOMPLETE)

    def reply_len(self, data: Data) -> int | None:
        """The length of the first reply, or None if more bytes are needed. A bytearray is not
        copied."""
        return self._len(self.lib.slotroute_reply_len, data, REPLY_INCOMPLETE)

    def scan(self, data: Data, progress: Progress) -> int | None:
        """The length of the first message, or None if more bytes are needed. Then call again with
        all bytes and the same progress: it goes on where it stopped. After a whole message, begin
        with a new `Progress()`. A bytearray is not copied."""
        answer = self.lib.slotroute_scan(self._start(data), len(data), byref(progress))
        if answer == REPLY_INCOMPLETE:
            return None
        self._expect_done(answer, Told())
        return progress.bytes

    @staticmethod
    def _start(data: Data) -> Any:
        return (
            bytes(data) if isinstance(data, bytes) or not data else byref(c_char.from_buffer(data))
        )

    def _len(self, call: Callable[..., int], data: Data, incomplete: int) -> int | None:
        told = Told()
        answer = call(self._start(data), len(data), byref(told))
        if answer == incomplete:
            return None
        self._expect_done(answer, told)
        return told.bytes

    def route(self, request: bytes, only_reads: bool = False) -> Routed:
        """Where a request goes. With `only_reads`, a replica may serve it."""
        routed, told = Routed(), Told()
        answer = self.lib.slotroute_route(
            request, len(request), *self.names, only_reads, byref(routed), byref(told)
        )
        self._expect_done(answer, told)
        return routed

    def split(self, request: bytes) -> list[tuple[int, bytes]]:
        """The slot and the bytes of each part."""
        parts, room, told = 16, 2 * len(request) + 64, Told()
        while True:
            slots, ends = (c_uint16 * parts)(), (c_size_t * parts)()
            out = ctypes.create_string_buffer(room)
            answer = self.lib.slotroute_split(
                request,
                len(request),
                *self.names,
                slots,
                parts,
                ends,
                parts,
                out,
                room,
                byref(told),
            )
            if answer != TOO_SMALL:
                break
            parts, room = told.parts, told.bytes
        self._expect_done(answer, told)
        data = out.raw
        starts = [0, *ends[: told.parts]]
        return [(slot, data[a:b]) for slot, (a, b) in zip(slots, pairwise(starts))]

    def combine(self, request: bytes, replies: Sequence[bytes]) -> bytes:
        """The one reply, by the replies to the parts in their order."""
        joined = b"".join(replies)
        data = request, len(request), *self.names, joined, len(joined)
        return self._written(self.lib.slotroute_combine, data, len(joined) + 64)

    def combine_answers(self, policy: int, replies: Sequence[bytes]) -> bytes:
        """The one reply to a request that went whole to several nodes, by its policy."""
        joined = b"".join(replies)
        data = policy, len(replies), joined, len(joined)
        return self._written(self.lib.slotroute_combine_answers, data, len(joined) + 64)

    def table(
        self, reply: bytes, answering: bytes, addr: int = PRIMARY, pick: int = 0
    ) -> tuple[list[int], list[tuple[str, int]]]:
        """The number of each slot's node, or NO_NODE, and the host and port of each node."""
        numbers = (c_uint16 * SLOTS)()
        data = reply, len(reply), answering, len(answering), addr, pick, numbers, SLOTS
        nodes = self._written(self.lib.slotroute_table, data, len(reply) + 64)
        lines = nodes.decode().split("\n")[:-1]
        return list(numbers), [
            (host, int(port)) for host, _, port in (it.rpartition(":") for it in lines)
        ]

    def redirect(self, text: bytes, answering: bytes) -> tuple[Redirected, str] | None:
        """What the text of an error tells of a redirect, with its host; None of another text."""
        told, host = Redirected(), ctypes.create_string_buffer(len(text) + len(answering) + 1)
        answer = self.lib.slotroute_redirect(
            text, len(text), answering, len(answering), host, len(host), byref(told)
        )
        if answer == NO_REDIRECT:
            return None
        self._expect_done(answer, Told())
        return told, host.raw[: told.host_len].decode()

    def _written(self, call: Callable[..., int], data: tuple[Any, ...], room: int) -> bytes:
        """The bytes that a call writes, which is made again if they do not fit this room."""
        told = Told()
        while True:
            out = ctypes.create_string_buffer(room)
            answer = call(*data, out, room, byref(told))
            if answer != TOO_SMALL:
                break
            room = told.bytes
        self._expect_done(answer, told)
        return out.raw[: told.bytes]

    def _expect_done(self, answer: int, told: Told) -> None:
        if answer:
            raise Refused(answer, self.message(answer), told)


def request(*words: bytes | str | int | float) -> bytes:
    """The bytes of a request. A number is written as Python writes it. A word of another type is a
    `TypeError`, also `None`, `True` and `False`."""
    if (made := make_request(words)) is not None:
        return made
    fields: list[Any] = [len(words)]
    for it in words:
        data = it if type(it) is bytes else it.encode() if type(it) is str else _encoded(it)
        fields += len(data), data
    return (b"*%d\r\n" + b"$%d\r\n%b\r\n" * len(words)) % tuple(fields)


def _encoded(word: Any) -> bytes:
    """A word of a request as bytes."""
    if isinstance(word, str):
        return word.encode()
    if isinstance(word, (bytes, bytearray, memoryview)):
        return bytes(word)
    if isinstance(word, (int, float)) and not isinstance(word, bool):
        return str(word).encode()
    raise TypeError(f"a request has no word of the type {type(word).__name__}")


# These need the names above.
from .cluster import Cluster as Cluster  # noqa: E402
from .cluster import Pipeline as Pipeline  # noqa: E402
from .session import Reply as Reply  # noqa: E402
from .session import Session as Session  # noqa: E402
