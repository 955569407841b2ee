"""A client of a cluster for asyncio."""

from __future__ import annotations

import asyncio
import socket
from functools import partial
from typing import Any, Callable, Iterable

from . import request
from ._client import Callback, Client, Commands, Waiter, Word, closed_error
from .cluster import values_of
from .replies import Value, checked


class TaskWaiter(Waiter):
    """Waits in a task."""

    def __init__(self, count: int, future: asyncio.Future[None]) -> None:
        self.future = future
        super().__init__(count)

    def finish(self) -> None:
        if not self.future.done():
            self.future.set_result(None)


class Cluster(Client):
    """A client of a Redis cluster for asyncio.

        async with aio.Cluster.from_url("redis://127.0.0.1:7400") as cluster:
            await cluster.execute("SET", "foo", 1)

    All tasks of one event loop may use it. They share one connection to each node. Commands of one
    task take effect on a slot in their order. If a task that waits is cancelled, its command is
    given up. The command may have taken effect. Its late reply goes to nobody.

    It connects at the first command, or where `async with` begins. The settings and the errors are
    those of `slotroute.Cluster`. A command after one that could not connect connects anew. In
    another event loop a command is a `RuntimeError`.
    """

    def _open(self) -> None:
        self._loop: asyncio.AbstractEventLoop | None = None
        self._first: asyncio.Task[None] | None = None
        self._timer: asyncio.TimerHandle | None = None
        self._is_turn_due = False
        self._is_over = False
        self._lookups: set[asyncio.Task[None]] = set()

    async def execute(self, *words: Word, timeout: float | None = None) -> Value:
        """The reply to a command, with the values and the errors of `slotroute.Cluster.execute`."""
        [reply] = await self._replies([request(*words)], timeout)
        return checked(reply)

    def pipeline(self) -> Pipeline:
        """Commands that are sent at once."""
        return Pipeline(self)

    async def close(self) -> None:
        """Closes all connections. Tasks that wait get a `ConnectionError`. A second call does
        nothing."""
        if self._is_over:
            return
        self._is_over = True
        self._stop()

    def _stop(self) -> None:
        """Closes all connections, and ends what is under way."""
        self._close_all()
        for task in self._lookups:
            task.cancel()
        if self._timer is not None:
            self._timer.cancel()

    async def __aenter__(self) -> Cluster:
        try:
            await self._connected()
        except BaseException:
            await self.close()
            raise
        return self

    async def __aexit__(self, *_: object) -> None:
        await self.close()

    async def _replies(self, requests: list[bytes], timeout: float | None) -> list[bytes]:
        """The replies to requests of this task."""
        deadline = self._deadline(timeout)
        await self._connected()
        waiter = TaskWaiter(len(requests), asyncio.get_running_loop().create_future())
        self._begin(waiter, requests, id(asyncio.current_task()), deadline)
        await self._wait(waiter)
        return waiter.replies

    async def _wait(self, waiter: TaskWaiter) -> None:
        """Waits for the replies to calls that were begun. If the task is cancelled, they are given
        up."""
        self._turn_soon()
        try:
            await waiter.future
        finally:
            if waiter.missing:
                self._leave(waiter)
                self._turn_soon()
        if waiter.error is not None:
            raise waiter.error

    async def _connected(self) -> None:
        """Waits for the map of the slots. Tasks share one try, and none of them can cancel it."""
        loop = asyncio.get_running_loop()
        if self._loop not in (None, loop):
            raise RuntimeError("a cluster is for one event loop")
        self._loop = loop
        is_tried = self._first is not None and not (self._first.done() and _failed(self._first))
        if not self._is_over and not is_tried:
            self._first = loop.create_task(self._ask_first())
            self._first.add_done_callback(_failed)
        if self._first is not None and not self._first.done():
            await asyncio.shield(self._first)
        if self._is_over:
            raise closed_error()

    async def _ask_first(self) -> None:
        """Asks what shows that the session has the map. If that fails, all connections are
        closed."""
        if self._is_closed:
            self._open_session()
        waiter = TaskWaiter(1, asyncio.get_running_loop().create_future())
        try:
            self._begin_first(waiter, self._deadline(None))
            await self._wait(waiter)
            self._expect_map(waiter)
        except BaseException:
            self._stop()
            raise

    def _turn_soon(self) -> None:
        """Has a turn made soon, for all that happened until then."""
        if not self._is_turn_due and not self._is_closed and self._loop is not None:
            self._is_turn_due = True
            self._loop.call_soon(self._make_turn)

    def _make_turn(self) -> None:
        self._is_turn_due = False
        if self._is_closed or self._loop is None:
            return
        self._guarded(self._turn)
        if self._timer is not None:
            self._timer.cancel()
        if not self._is_closed:
            self._timer = self._loop.call_later(self._wait_time(), self._turn_soon)

    def _guarded(self, work: Callback) -> None:
        """Makes a turn, or takes an event. What this raises is raised. Then sockets may be half done, so
        all connections are closed: no task waits for what comes no more. The next command connects
        anew."""
        try:
            work()
        except BaseException:
            self._stop()
            self._first = None
            raise

    # Sockets.

    def _watch(self, sock: socket.socket, read: Callback | None, write: Callback | None) -> None:
        loop = self._loop
        if loop is None or loop.is_closed():
            return
        if read is not None:
            loop.add_reader(sock, self._take_event, read)
        else:
            loop.remove_reader(sock)
        if write is not None:
            loop.add_writer(sock, self._take_event, write)
        else:
            loop.remove_writer(sock)

    def _take_event(self, callback: Callback) -> None:
        if not self._is_closed:
            self._guarded(callback)
            self._turn_soon()

    def _resolve(self, host: str, port: int, then: Callable[[Iterable[Any]], None]) -> None:
        task = asyncio.ensure_future(self._look_up(host, port, then))
        self._lookups.add(task)
        task.add_done_callback(self._lookups.discard)

    async def _look_up(self, host: str, port: int, then: Callable[[Iterable[Any]], None]) -> None:
        """Looks the addresses of a host up without blocking the loop. There are none if that fails, also
        since no thread can be started."""
        found: Iterable[Any]
        try:
            loop = asyncio.get_running_loop()
            found = await loop.getaddrinfo(host, port, type=socket.SOCK_STREAM)
        except (OSError, ValueError, RuntimeError):
            found = ()
        self._take_event(partial(then, found))


class Pipeline(Commands):
    """Commands that are sent at once. They take effect on a slot in their order, and are no
    transaction.

        async with cluster.pipeline() as pipeline:
            pipeline.add("SET", "foo", 1).add("GET", "foo")
            replies = await pipeline.execute()
    """

    def __init__(self, cluster: Cluster) -> None:
        super().__init__()
        self._cluster = cluster

    async def execute(
        self, raise_on_error: bool = True, timeout: float | None = None
    ) -> list[Value]:
        """Sends all commands, and returns the reply to each, as `slotroute.Pipeline.execute`
        does."""
        return values_of(await self._cluster._replies(self._take(), timeout), raise_on_error)

    async def __aenter__(self) -> Pipeline:
        return self

    async def __aexit__(self, *_: object) -> None:
        self._take()


def _failed(task: asyncio.Task[None]) -> bool:
    """Whether a task that is done raised an error or was cancelled."""
    return task.cancelled() or task.exception() is not None
