"""A client of a cluster over blocking calls, for programs with threads."""

from __future__ import annotations

import select
import socket
import threading
from typing import Any, Callable, Iterable

from . import request
from ._calls import Event
from ._client import Callback, Client, Commands, Waiter, Word, addresses_of, closed_error
from .replies import Value, checked, value_of


# After so many seconds a thread that sleeps looks whether another one drives. One that a signal
# ended may have told nobody.
LONGEST_SLEEP = 1.0


class ThreadWaiter(Waiter):
    """Waits in a thread. It is woken when it is over, or if this thread is to drive."""

    is_over = False
    # Whether the thread waits without the client's lock.
    is_idle = False

    def __init__(self, count: int) -> None:
        super().__init__(count)
        # The thread sleeps while it is locked. What the handler of a signal raises leaves a bare
        # lock in order, but no Event.
        self._gate = threading.Lock()

    def sleep(self) -> None:
        """Waits until it is woken, also before now, or for some time."""
        self._gate.acquire(timeout=LONGEST_SLEEP)

    def wake(self) -> None:
        """Wakes the thread, or has it sleep no next time. The client's lock is held."""
        if self._gate.locked():
            self._gate.release()

    def finish(self) -> None:
        self.is_over = True
        self.wake()


class Cluster(Client):
    """A client of a Redis cluster.

        with Cluster.from_url("redis://127.0.0.1:7400") as cluster:
            cluster.execute("SET", "foo", 1)

    Any thread may use it. The threads share one connection to each node. Commands of one thread
    take effect on a slot in their order. In the child of a fork a command raises `RuntimeError`:
    make a new client there. Don't use it in the handler of a signal. If such a handler raises while
    a command waits, the command is given up, and the client may be closed.

    It connects at once. `nodes` are the hosts and ports to begin with. Times are in seconds. A
    command has up to `timeout`; None is for ever. A connection has up to `connect_timeout`. A node
    that owes a reply may be silent up to `silence`; 0 is for ever. A node that cannot run a command
    yet is asked again after `pause`, up to `retries` times.

    Raises `ConnectionError` if no node can be reached, or none gives the map of the slots in time,
    and the error of a node that refuses the login. A node that has not begun to answer after
    `connect_timeout` is left for another one, until there is a map. A library without sessions is
    an `ImportError`.
    """

    def _open(self) -> None:
        # It knows whether this thread has it. A lock that does not would be lost to a signal.
        self._lock: Any = threading.RLock()
        self._poll = select.epoll()
        # What to call if a socket may be read or written, by its file descriptor.
        self._watched: dict[int, tuple[Callback | None, Callback | None]] = {}
        self._wakes, self._waker = socket.socketpair()
        self._wakes.setblocking(False)
        self._waker.setblocking(False)
        self._watch(self._wakes, self._drain, None)
        # The threads that wait, and the one of them that drives: it waits for the sockets of all.
        self._threads: set[ThreadWaiter] = set()
        self._driver: ThreadWaiter | None = None
        try:
            self._expect_map(self._wait(ThreadWaiter(1), None, self._deadline(None)))
        except BaseException:
            self.close()
            raise

    def execute(self, *words: Word, timeout: float | None = None) -> Value:
        """The reply to a command: bytes, an int, None, or a list. `timeout` is for this command
        alone.

        An error of a node is raised, as `ResponseError`. `TimeoutError`: the reply did not come in
        time. `ConnectionError`: a connection ended, or the client is closed. The message of these
        says whether the command may have taken effect. After each error the client can be used
        further, unless it is closed. `InvalidResponse`: what a node sent is no reply of RESP2.
        """
        return checked(self._replies([request(*words)], timeout)[0])

    def pipeline(self) -> Pipeline:
        """Commands that are sent at once."""
        return Pipeline(self)

    def close(self) -> None:
        """Closes all connections. Threads that wait get a `ConnectionError`. A second call does
        nothing."""
        with self._lock:
            if not self._is_closed:
                self._shut()

    def __enter__(self) -> Cluster:
        return self

    def __exit__(self, *_: object) -> None:
        self.close()

    def _replies(self, requests: list[bytes], timeout: float | None) -> list[bytes]:
        """The replies to requests of this thread."""
        waiter = self._wait(ThreadWaiter(len(requests)), requests, self._deadline(timeout))
        if waiter.error is not None:
            raise waiter.error
        return waiter.replies

    def _wait(
        self, waiter: ThreadWaiter, requests: list[bytes] | None, deadline: int
    ) -> ThreadWaiter:
        """Begins the calls of requests, or the first call, and waits for the replies."""
        with self._lock:
            if self._is_closed:
                raise closed_error()
            try:
                self._threads.add(waiter)
                if self._driver is None:
                    self._take_waiting_events()
                if requests is None:
                    self._begin_first(waiter, deadline)
                else:
                    self._begin(waiter, requests, threading.get_ident(), deadline)
                self._turn()
                if self._driver is not None:
                    self._wake()
                while not waiter.is_over:
                    self._drive_or_sleep(waiter)
            except BaseException:
                if not waiter.is_idle and not self._is_closed:
                    # The handler of a signal ended a turn, so sockets may be half done.
                    self._shut()
                raise
            finally:
                self._threads.discard(waiter)
                if waiter.missing:
                    self._leave(waiter)
                if self._threads:
                    self._pass_on()
        return waiter

    # One of the threads that wait drives.

    def _drive_or_sleep(self, waiter: ThreadWaiter) -> None:
        """Drives until the replies are there. If another thread drives, sleeps until it has the
        replies or ends. If no other thread waits, what the session wants after the replies waits
        for the next command, as what comes later does."""
        if self._driver is None:
            self._driver = waiter
            try:
                while not waiter.is_over:
                    events = self._wait_for_events(waiter)
                    if self._is_closed:
                        break
                    if events:
                        self._take_events(events)
                    self._give_replies()
                    if not waiter.is_over or len(self._threads) > 1:
                        self._turn()
            finally:
                self._driver = None
                if self._is_closed:
                    self._close_poll()
            return
        self._unlocked(waiter, waiter.sleep)

    def _pass_on(self) -> None:
        """Has another thread drive, if none does."""
        if self._driver is None and (waiter := next(iter(self._threads), None)):
            waiter.wake()

    def _take_waiting_events(self) -> None:
        """Takes what came while no thread waited, such as the end of a link."""
        for _ in range(16):
            if (events := self._calls.poll(self._poll)) is None:
                return
            self._take_events(events)

    def _wait_for_events(self, waiter: ThreadWaiter) -> list[Event] | None:
        """Waits without the lock. Returns the events that have to be taken."""
        events: list[Event] | None
        if (wait := self._calls.wait) is None:
            events = self._unlocked(waiter, self._poll.poll, self._wait_time())
        else:
            waiter.is_idle = True
            events = wait(self._poll, self._lock, self._longest_wait())
            waiter.is_idle = False
        return events

    def _take_events(self, events: list[Event]) -> None:
        """Reads and writes the sockets that are ready. What one of them does may end another."""
        ready = [(fd, mask, self._watched.get(fd)) for fd, mask in events]
        for fd, mask, watched in ready:
            read, write = watched or (None, None)
            if write and mask & ~select.EPOLLIN and self._watched.get(fd) is watched:
                write()
            if read and mask & ~select.EPOLLOUT and self._watched.get(fd) is watched:
                read()

    def _unlocked(self, waiter: ThreadWaiter, wait: Callable[..., Any], *words: Any) -> Any:
        """What a call gives that waits without the lock. It has the lock again also if the handler
        of a signal raises, anywhere here: what that raises is raised then."""
        given, raised = None, None
        waiter.is_idle = True
        try:
            self._lock.release()
            given = wait(*words)
        except BaseException as error:
            raised = error
        while True:
            try:
                if self._lock._is_owned():
                    break
                self._lock.acquire()
            except BaseException as error:
                raised = error
        if raised is not None:
            raise raised
        waiter.is_idle = False
        return given

    def _wake(self) -> None:
        """Has the thread that drives look anew."""
        try:
            self._waker.send(b"x")
        except BlockingIOError:
            pass

    def _drain(self) -> None:
        try:
            self._wakes.recv(4096)
        except BlockingIOError:
            pass

    def _fail_all(self) -> None:
        """Ends all waiting, also of a thread whose reply was lost to a signal."""
        super()._fail_all()
        for waiter in self._threads:
            if not waiter.is_over:
                waiter.fail()

    def _shut(self) -> None:
        """Closes all. A thread that drives closes the poll itself, since it may wait on it."""
        self._close_all()
        if self._driver is None:
            self._close_poll()
        else:
            self._wake()

    def _close_poll(self) -> None:
        self._poll.close()
        self._wakes.close()
        self._waker.close()

    # Sockets.

    def _watch(self, sock: socket.socket, read: Callback | None, write: Callback | None) -> None:
        fd = sock.fileno()
        events = (select.EPOLLIN if read else 0) | (select.EPOLLOUT if write else 0)
        is_known = fd in self._watched
        if events == 0:
            if is_known:
                del self._watched[fd]
                self._poll.unregister(fd)
            return
        self._watched[fd] = read, write
        if is_known:
            self._poll.modify(fd, events)
        else:
            self._poll.register(fd, events)

    def _resolve(self, host: str, port: int, then: Callable[[Iterable[Any]], None]) -> None:
        found = addresses_of(host, port, socket.AI_NUMERICHOST)
        if found:
            then(found)
            return
        look_up = threading.Thread(target=self._look_up, args=(host, port, then), daemon=True)
        try:
            look_up.start()
        except RuntimeError:  # there are too many threads
            then(())

    def _look_up(self, host: str, port: int, then: Callable[[Iterable[Any]], None]) -> None:
        """Looks a name up in a thread of its own, since that may last longer than a command has."""
        found = addresses_of(host, port)
        with self._lock:
            if self._is_closed:
                return
            try:
                then(found)
                self._turn()
            except BaseException:
                self._shut()
                raise
            if self._driver is not None:
                self._wake()


class Pipeline(Commands):
    """Commands that are sent at once. They take effect on a slot in their order, and are no
    transaction.

        with cluster.pipeline() as pipeline:
            pipeline.add("SET", "foo", 1).add("GET", "foo")
            replies = pipeline.execute()

    One thread at a time uses a pipeline.
    """

    def __init__(self, cluster: Cluster) -> None:
        super().__init__()
        self._cluster = cluster

    def execute(self, raise_on_error: bool = True, timeout: float | None = None) -> list[Value]:
        """Sends all commands, and returns the reply to each. The pipeline is empty then. `timeout`
        is for all of them together.

        Once all replies are there, the first one that is an error is raised. If `raise_on_error` is
        false, errors stand in the list. Each command has the errors of `Cluster.execute`.
        """
        return values_of(self._cluster._replies(self._take(), timeout), raise_on_error)

    def __enter__(self) -> Pipeline:
        return self

    def __exit__(self, *_: object) -> None:
        self._take()


def values_of(replies: list[bytes], raise_on_error: bool) -> list[Value]:
    """The values of replies. The first error is raised, if it is to be raised."""
    values = [value_of(reply) for reply in replies]
    if raise_on_error:
        for value in values:
            if isinstance(value, Exception):
                raise value
    return values
