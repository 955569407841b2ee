"""A session from Python: a client without sockets, as the page for callers in C describes it."""

from __future__ import annotations

import ctypes
import threading
import weakref
from ctypes import byref, c_size_t
from functools import cache
from typing import Any, NamedTuple

from . import NOT_THERE, TOO_SMALL, Data, Library, Refused
from ._calls import MOST_UNWRITTEN as MOST_UNWRITTEN
from ._calls import Calls, Handle, NodeAddress, Settings, session_library

FOREVER = 2**64 - 1
"""A deadline that never comes."""


class Reply(NamedTuple):
    """The reply to a call: its caller, its number, and its bytes."""

    caller: int
    call: int
    data: bytes


@cache
def default_library() -> Library:
    """The library that a session takes if none is named."""
    return Library()


class Session:
    """A session: it asks the requests of many callers at the nodes that serve them, and puts the
    replies together. It has no sockets and no clock. Its shell, which is your program, connects,
    reads, writes and tells the time. The page for callers in C has the loop of a shell, and
    `slotroute.Cluster` is one.

    `login` is the request that each link begins with, as `request("AUTH", "password")`. A reply has
    at most `most_reply_bytes`; a link with a longer one is to be closed. At most `most_calls` calls
    are kept, and `most_bytes` of their requests. A link that owes a reply and is silent for as long
    as `silence` is to be closed; with 0 a session never leaves a node that hangs. A part that a
    node cannot run yet pauses for as long as `pause`. It is given up after `retries` refusals.
    Times are numbers of one clock in any unit. The usual numbers are those for milliseconds.

    What a call refuses is raised as `Refused`, whose `name` is that of the code. A number that C
    cannot have is an `OverflowError`. After both the session is as it was, unless the call says
    otherwise. Any thread may make a call. Calls of several threads wait for each other. After
    `close` each call is a `ValueError`.
    """

    def __init__(
        self,
        *,
        login: bytes = b"",
        most_reply_bytes: int = 1 << 29,
        most_calls: int = 100_000,
        most_bytes: int = 1 << 30,
        silence: int = 10_000,
        pause: int = 100,
        retries: int = 100,
        library: Library | None = None,
    ) -> None:
        """Opens a session without nodes, links and calls. `NO_MEMORY`: there is no session. A
        library without sessions is an `ImportError`."""
        self._library = default_library() if library is None else library
        self._lib = session_library(self._library)
        # Who has it may make calls.
        self._lock = threading.RLock()
        self._handle = Handle()
        # For the clients of this package, which have a lock of their own.
        self.calls = Calls(self._library, self._lib, self._handle)
        sizes = [_unsigned(it) for it in (most_reply_bytes, most_calls, most_bytes, silence, pause)]
        settings = Settings(*sizes, _unsigned(retries, 32))
        words = byref(settings), login, len(login), byref(self._handle)
        self._expect_done(self._lib.slotroute_session_open(*words))
        own = Handle(self._handle.at)
        self._finalizer = weakref.finalize(self, self._lib.slotroute_session_close, own)
        self._finalizer.atexit = False

    def close(self) -> None:
        """Closes the session. Callers that wait get no reply. A second call does nothing."""
        with self._lock:
            self._handle.at = None
            self.calls.close()
            self._finalizer()

    def __enter__(self) -> Session:
        return self

    def __exit__(self, *_: object) -> None:
        self.close()

    def add_node(self, host: str, port: int) -> int:
        """Adds a node, and returns its number. The node needs a link then. A node that is known
        keeps its number. `NOT_TEXT`: the host is not UTF-8. `NOT_THERE`: 65534 nodes are known."""
        number, named = c_size_t(), host.encode("utf-8", "surrogateescape")
        words = named, len(named), _unsigned(port, 16), byref(number)
        self._expect_done(self._call(self._lib.slotroute_session_add_node, *words))
        return number.value

    def wanted_node(self) -> int | None:
        """The number of a node that needs a link, or None if no node does. Each is named once. Then
        connect, and call `connected` or `unreachable`."""
        with self._lock:
            return self.calls.wanted_node()

    def address(self, node: int) -> tuple[str, int]:
        """The host and the port of a node. `NOT_THERE`: no node has this number."""
        room, told, call = 256, NodeAddress(), self._lib.slotroute_session_address
        while True:
            host = ctypes.create_string_buffer(room)
            answer = self._call(call, _unsigned(node), host, room, byref(told))
            if answer != TOO_SMALL:
                break
            room = told.host_len
        self._expect_done(answer)
        return host.raw[: told.host_len].decode(), told.port

    def connected(self, node: int) -> int:
        """Notes a new connection to a node, and returns the number of its link. `NOT_THERE`: no
        node has this number. `NO_MEMORY`: there is no link. Close the connection."""
        link, call = c_size_t(), self._lib.slotroute_session_connected
        self._expect_done(self._call(call, _unsigned(node), byref(link)))
        return link.value

    def unreachable(self, node: int) -> None:
        """Notes that no connection to a node could be made. `NOT_THERE`: no node has this
        number."""
        self._expect_done(self._call(self._lib.slotroute_session_unreachable, _unsigned(node)))

    def link_to_write(self) -> int | None:
        """The number of a link on which something was asked, or None. It has bytes to be written,
        and is named once after that."""
        with self._lock:
            return self.calls.link_to_write()

    def unwritten(self, link: int) -> bytes:
        """The first bytes that are to be written on a link, up to `MOST_UNWRITTEN`. There are none
        if no open link has this number."""
        with self._lock:
            return self.calls.unwritten(_unsigned(link))

    def wrote(self, link: int, count: int) -> None:
        """Notes that so many bytes more were written on a link. `NOT_THERE`: not so many were to be
        written, and nothing changes."""
        with self._lock:
            self._expect_done(self.calls.wrote(_unsigned(link), _unsigned(count)))

    def read(self, link: int, data: Data) -> None:
        """Takes what was read on a link. Nothing changes if no open link has this number.
        `NO_MEMORY`: `link_to_close` may name the link. Else a call without bytes goes on."""
        data = _bytes_of(data)
        with self._lock:
            self._expect_done(self.calls.read(_unsigned(link), data, len(data)))

    def ended(self, link: int) -> None:
        """Notes that the connection of a link ended, or was closed. Its number may be given to
        another link. `NO_MEMORY`: the link ended, and a later call asks what could not be asked
        now."""
        with self._lock:
            self._expect_done(self.calls.ended(_unsigned(link)))

    def link_to_close(self) -> int | None:
        """The number of a link that is to be closed, or None. Close its connection, and call
        `ended`. Until then it is named again."""
        with self._lock:
            return self.calls.link_to_close()

    def begin(self, caller: int, request: Data, deadline: int = FOREVER) -> int:
        """Begins a call of a caller, and returns its number. If its reply is not there at the
        deadline, the reply is an error. Any code is the reason of a refusal: nothing is asked, and
        `refusal_reply` has the reply that says so."""
        words = _unsigned(caller), [_bytes_of(request)], _unsigned(deadline)
        with self._lock:
            [begun] = self.calls.begin_each(*words)
        if isinstance(begun, Refused):
            raise begun
        return begun

    def refusal_reply(self, answer: int) -> bytes:
        """The reply that tells a caller why `begin` was refused with this code. It is empty for a
        code that no refusal has."""
        text = ctypes.create_string_buffer(80)
        length = self._lib.slotroute_refusal_reply(_unsigned(answer, 32), text, len(text))
        return text.raw[:length]

    def give_up(self, call: int) -> bool:
        """Notes that the caller waits no more for the reply to a call. It gets none. Returns
        whether it waited. If not, nothing changes."""
        answer = self._call(self._lib.slotroute_session_give_up, _unsigned(call))
        if answer == NOT_THERE:
            return False
        self._expect_done(answer)
        return True

    def advance(self, now: int) -> None:
        """Notes what time it is. A time before the last one counts as the last one. `NO_MEMORY`: a
        later call asks what could not be asked now."""
        with self._lock:
            self._expect_done(self.calls.advance(_unsigned(now)))

    def next_time(self) -> int | None:
        """When `advance` is to be called next, or None if nothing waits for a time."""
        with self._lock:
            return self.calls.next_time()

    def next_reply(self) -> Reply | None:
        """The next reply, or None if there is none. A caller's replies come in the order of its
        calls. `NO_MEMORY`: the replies that are there come in later calls."""
        with self._lock:
            reply = self.calls.next_reply()
        return reply and Reply(*reply)

    def _call(self, call: Any, *words: Any) -> int:
        """Makes a call of an open session."""
        with self._lock:
            if not self._handle.at:
                raise ValueError("the session is closed")
            return int(call(byref(self._handle), *words))

    def _expect_done(self, answer: int) -> None:
        if answer:
            raise self.calls.refused(answer)


def _bytes_of(data: Data) -> bytes:
    """The bytes of what holds bytes."""
    return data if isinstance(data, bytes) else bytes(memoryview(data))


def _unsigned(number: int, bits: int = 64) -> int:
    """The number, if C can have it. Otherwise ctypes would pass another one."""
    if not 0 <= number < 1 << bits:
        raise OverflowError(f"{number} is no number of {bits} bits without a sign")
    return number
