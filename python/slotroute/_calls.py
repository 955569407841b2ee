"""The calls of a session as C has them."""

from __future__ import annotations

import ctypes
import select
import time
from ctypes import POINTER, byref, c_size_t, c_uint16, c_uint32, c_uint64, c_void_p
from functools import partial
from typing import Any, Callable, NoReturn

from . import BYTES_IN, BYTES_OUT, DONE, NOT_THERE, Fields, Library, Refused, Told
from ._compiled import Turn

Call = Callable[..., int]
Event = tuple[int, int]
MOST_UNWRITTEN = 65536
"""How many bytes `Session.unwritten` gives at most."""


class Settings(Fields):
    """How a session asks, as C has it."""

    _fields_ = [
        ("most_reply_bytes", c_size_t),
        ("most_calls", c_size_t),
        ("most_bytes", c_size_t),
        ("silence", c_uint64),
        ("pause", c_uint64),
        ("retries", c_uint32),
    ]


class NodeAddress(Fields):
    """The address of a node without its host, as C has it."""

    host_len: int
    port: int
    _fields_ = [("host_len", c_size_t), ("port", c_uint32)]


class DueReply(Fields):
    """Whose reply comes next, as C has it."""

    caller: int
    call: int
    bytes: int
    _fields_ = [("caller", c_uint64), ("call", c_uint64), ("bytes", c_size_t)]


class Handle(ctypes.Structure):
    """A session, as C has it."""

    _fields_ = [("at", c_void_p)]


# The calls that a shell makes now and then, without the name's beginning: what each takes after the
# session. Each returns a code.
_SIZE = POINTER(c_size_t)
_RARE: tuple[tuple[str, list[Any]], ...] = (
    ("add_node", [*BYTES_IN, c_uint16, _SIZE]),
    ("address", [c_size_t, *BYTES_OUT, POINTER(NodeAddress)]),
    ("connected", [c_size_t, _SIZE]),
    ("unreachable", [c_size_t]),
    ("give_up", [c_uint64]),
)
# The calls that a shell makes for each command, and what each returns, in the order of a `Turn`.
_FREQUENT: tuple[tuple[str, Any], ...] = (
    ("advance", c_uint32),
    ("begin", c_uint32),
    ("link_to_write", c_uint32),
    ("unwritten", c_size_t),
    ("wrote", c_uint32),
    ("next_time", c_uint32),
    ("read", c_uint32),
    ("ended", c_uint32),
    ("next_reply", c_uint32),
    ("reply", c_size_t),
    ("link_to_close", c_uint32),
    ("wanted_node", c_uint32),
)
# The methods of `Calls` that a `Turn` has, too.
_OF_TURN = "begin_each", "next_reply", "poll", "set_socket", "wait", "wanted"
# What a session may want.
WRITE, CLOSE, CONNECT = range(3)


def session_library(library: Library) -> ctypes.PyDLL:
    """The library with the calls of sessions. Without them it is an older one. Its calls are short,
    and other threads of Python wait meanwhile: to let them run would take longer than most calls.
    """
    if not hasattr(library.lib, "slotroute_session_open"):
        raise ImportError("this library has no sessions: " + str(library.lib._name))
    lib = ctypes.PyDLL(None, handle=library.lib._handle)
    for name, takes in _RARE:
        call = getattr(lib, "slotroute_session_" + name)
        call.argtypes, call.restype = [POINTER(Handle), *takes], c_uint32
    lib.slotroute_session_open.argtypes = [POINTER(Settings), *BYTES_IN, POINTER(Handle)]
    lib.slotroute_session_open.restype = c_uint32
    lib.slotroute_session_close.argtypes = [Handle]
    lib.slotroute_session_close.restype = None
    lib.slotroute_refusal_reply.argtypes = [c_uint32, *BYTES_OUT]
    lib.slotroute_refusal_reply.restype = c_size_t
    return lib


class Calls:
    """The calls that a shell makes for each command, over an open session. One thread at a time
    makes them. Nothing checks what they are passed: requests are bytes, and C can have the numbers.
    To check it by `argtypes` takes ctypes longer than the call. After `close` each call is a
    `ValueError`. The docstrings of `Session` say what the calls do. If `_turn.c` is built, a `Turn`
    makes the most frequent ones without ctypes.
    """

    _advance: Call
    _begin: Call
    _link_to_write: Call
    _unwritten: Call
    _wrote: Call
    _next_time: Call
    _read: Call
    _ended: Call
    _next_reply: Call
    _reply: Call
    _link_to_close: Call
    _wanted_node: Call
    # As `poll`, after a wait without a lock of up to so many seconds. Only a `Turn` has it.
    wait: Callable[[select.epoll, Any, float], list[Event] | None] | None = None

    def __init__(self, library: Library, lib: ctypes.PyDLL, session: Handle) -> None:
        self.refused: Callable[[int], Refused] = partial(_refused, library)
        self._at, addresses = byref(session), b""
        for name, gives in _FREQUENT:
            call = lib["slotroute_session_" + name]
            call.restype = gives
            setattr(self, "_" + name, call)
            addresses += bytes(ctypes.cast(call, c_void_p))
        if Turn is not None:
            turn = Turn(session, ctypes.addressof(session), addresses, self.refused)
            vars(self).update({name: getattr(turn, name) for name in _OF_TURN})
        # What calls are passed, and what they write to.
        self._size, self._number, self._due = c_size_t(), c_uint64(), DueReply()
        self._to_size, self._to_number, self._to_due = map(
            byref, (self._size, self._number, self._due)
        )
        self._link, self._room = c_size_t(), c_size_t(MOST_UNWRITTEN)
        self._buffer: Any = ctypes.create_string_buffer(MOST_UNWRITTEN)

    def close(self) -> None:
        """Has each call fail from now on."""
        vars(self).update(dict.fromkeys(["_" + name for name, _ in _FREQUENT], _closed))
        vars(self).update(dict.fromkeys(_OF_TURN, _closed))

    def advance(self, now: int) -> int:
        self._number.value = now
        return self._advance(self._at, self._number)

    def begin_each(self, caller: int, requests: list[bytes], deadline: int) -> list[int | Refused]:
        """The numbers of calls, one for each request. A refusal stands in the place of a number."""
        begin, at, size = self._begin, self._at, self._size
        number, to_number = self._number, self._to_number
        by, until = c_uint64(caller), c_uint64(deadline)
        begun: list[int | Refused] = []
        for it in requests:
            size.value = len(it)
            answer = begin(at, by, it, size, until, to_number)
            begun.append(number.value if answer == DONE else self.refused(answer))
        return begun

    def link_to_write(self) -> int | None:
        return self._named(self._link_to_write(self._at, self._to_size), self._size)

    def unwritten(self, link: int) -> bytes:
        self._link.value = link
        count = self._unwritten(self._at, self._link, self._buffer, self._room)
        unwritten: bytes = self._buffer[: min(count, MOST_UNWRITTEN)]
        return unwritten

    def wrote(self, link: int, count: int) -> int:
        self._link.value, self._size.value = link, count
        return self._wrote(self._at, self._link, self._size)

    def next_time(self) -> int | None:
        return self._named(self._next_time(self._at, self._to_number), self._number)

    def read(self, link: int, data: Any, count: int) -> int:
        """Takes so many bytes of what ctypes passes as a pointer."""
        self._link.value, self._size.value = link, count
        return self._read(self._at, self._link, data, self._size)

    def ended(self, link: int) -> int:
        self._link.value = link
        return self._ended(self._at, self._link)

    def next_reply(self) -> tuple[int, int, bytes] | None:
        """The next reply, if one is there: its caller, its number and its bytes."""
        due, size, buffer = self._due, self._size, self._buffer
        if (answer := self._next_reply(self._at, self._to_due)) != DONE:
            return self._unnamed(answer)
        size.value = due.bytes
        if due.bytes > MOST_UNWRITTEN:
            buffer = ctypes.create_string_buffer(due.bytes)
        self._reply(self._at, buffer, size)
        return due.caller, due.call, buffer[: due.bytes]

    def link_to_close(self) -> int | None:
        return self._named(self._link_to_close(self._at, self._to_size), self._size)

    def wanted_node(self) -> int | None:
        return self._named(self._wanted_node(self._at, self._to_size), self._size)

    def wanted(self) -> tuple[int, int] | None:
        """Tells the session the time. Returns what it wants next, or None: `WRITE` or `CLOSE` with the
        number of a link, or `CONNECT` with that of a node. A `Turn` writes on the links whose sockets
        it may use. It names one of them only if its socket does not take all."""
        told = self.advance(clock())
        if (link := self.link_to_write()) is not None:
            return WRITE, link
        if (link := self.link_to_close()) is not None:
            return CLOSE, link
        if (node := self.wanted_node()) is not None:
            return CONNECT, node
        if told != DONE:
            raise self.refused(told)
        return None

    def set_socket(self, link: int, fd: int) -> None:
        """Tells a `Turn` the socket of a link that it may use, or -1 if it may not."""

    def poll(self, epoll: select.epoll) -> list[Event] | None:
        """The events that are there, or None if there are none. A `Turn` reads the replies that came
        on sockets that it may use, and leaves these events out."""
        return epoll.poll(0) or None

    def _named(self, answer: int, number: Any) -> int | None:
        """The number that a call wrote, or None if it named none."""
        if answer != DONE:
            return self._unnamed(answer)
        named: int = number.value
        return named

    def _unnamed(self, answer: int) -> None:
        """What a call gives that named nothing: None, or the error of its answer."""
        if answer != NOT_THERE:
            raise self.refused(answer)
        return None


def clock() -> int:
    """The time that a session is told, in milliseconds."""
    return int(time.monotonic() * 1000)


def _refused(library: Library, answer: int) -> Refused:
    """The error of a code."""
    return Refused(answer, library.message(answer), Told())


def _closed(*_: Any) -> NoReturn:
    raise ValueError("the session is closed")
