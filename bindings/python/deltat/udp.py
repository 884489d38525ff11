"""Nodes over UDP sockets of this machine: `Udp`, a plain loop, and `AsyncUdp`, for programs whose loop is asyncio's.

Both have their sockets driven by libdeltat-udp, which keeps the duties of the library that a program can keep: one
clock that counts while the machine sleeps (CLOCK_BOOTTIME), how long a datagram waited in the socket (by the kernel's
stamps), and that nothing is put on the wire long after it left the node. The charge of a link, equal parameters and the
number of a node remain duties of whoever sets up the network."""

from __future__ import annotations

import asyncio
import contextlib
import functools
import logging
import math
import os
import select
import threading
import time
import weakref
from collections import deque
from collections.abc import AsyncIterator, Callable, Iterator, Mapping
from typing import Protocol, Self

from . import clock
from .driven import LONGEST_WAIT_MS, Driven, Driver
from .errors import DeltatError, Forked, Full, InvalidArgument, OutOfMemory, Quiet, Stopped
from .node import AnyNode, Node
from .values import Flow, Message
from .watch import Alarm, Alarms

RETRY = 50
"""After how many ms a loop of asyncio tries again whether a flow has room."""

_log = logging.getLogger("deltat")
_sockets: weakref.WeakSet[AnyUdp] = weakref.WeakSet()


def _close_in_child() -> None:
    """In a forked child: closes its copies of the sockets."""
    for udp in list(_sockets):
        udp._driven.close()
        # (a thread that isn't here may have had it)
        udp._lock = threading.RLock()


os.register_at_fork(after_in_child=_close_in_child)


class Desk(Protocol):
    """Takes the events of a service, of all `Calls` over its socket."""

    def turn(self, driven: Driver, wait_ms: int) -> None:
        """Takes a turn, and passes its events on. Raises OutOfMemory or Stopped, after that."""

    def close(self) -> None:
        """Ends all waits."""


class AnyUdp:
    """The base of `deltat.Udp` and `deltat.driver.Udp`: a driver, for one thread (but see `background`)."""

    def __init__(self, driven: Driver, number: int) -> None:
        self._driven, self._number = driven, number
        self.alarms = Alarms()
        """Of each peer of which nothing passes, why: the watch found it."""
        self._desk: Desk | None = None
        self._was_early = False
        self._lock = threading.RLock()
        # the thread that uses it, and whether another one was seen: then nobody waits with the lock
        self._thread, self._is_shared = threading.get_ident(), False
        # of `background`: how deep the program is in its blocks, how many it began, and the thread that works meanwhile
        self._depth = self._begun = 0
        self._standby: threading.Thread | None = None
        _sockets.add(self)

    @property
    def not_sent(self) -> int:
        """How many datagrams left too late, had no address, or weren't taken by the system."""
        return self._driven.not_sent

    @property
    def strangers(self) -> int:
        """How many datagrams arrived from no peer."""
        return self._driven.unknown

    @property
    def counts(self) -> dict[str, int]:
        """The counters of the socket and of the watch, by their names in include/deltat_udp.h; empty once it is
        closed."""
        return self._driven.counts

    def record(self, path: str | os.PathLike[str] | None, max_octets: int = 1 << 30) -> None:
        """Records what passes from now on into a file that Wireshark and tools/trace_token.py read, in place of one
        that is there: each datagram, and each call, request, reply and end with its token. The recording ends at
        `max_octets`, with `None` as path, and when the socket is closed. Raises OSError if the file can't be made;
        OutOfMemory or Stopped."""
        with self._lock:
            self._driven.record(path, max_octets)

    @property
    def is_recording(self) -> bool:
        """Whether a recording continues: it ends early at its `max_octets`, or when the disk is full."""
        return self._driven.is_recording

    @property
    def is_closed(self) -> bool:
        """Whether it was closed, or is in a forked child."""
        return self._driven.is_closed

    def __enter__(self) -> Self:
        return self

    def __exit__(self, *_: object) -> None:
        self.close()

    def close(self) -> None:
        """Closes the socket and the node. Called again it does nothing."""
        self._enter()
        with self._lock:
            self._driven.close()

    def _enter(self) -> None:
        """Notes that this thread uses the socket."""
        if threading.get_ident() != self._thread:
            self._is_shared = True

    def _flush(self, at: int) -> bool:
        """Puts what left the node at the time `at` on the wire, and returns whether the driver took a turn."""
        self._enter()
        with self._lock:
            self._test()
            turned = not self.is_closed and self._driven.flush(at)
            self._was_early = self._was_early or turned
            return turned

    def _test(self) -> None:
        """Raises Forked in a child of the process that opened the node."""

    def _turn(self, timeout: float | None = 0.0) -> None:
        """Waits for so long at most, or until something is due; receives what arrived, and does what is due."""
        while timeout is None or timeout * 1000 > LONGEST_WAIT_MS:
            begun = time.monotonic()
            self._turn_within(LONGEST_WAIT_MS)
            # (it was so short because something was due, or a signal came)
            is_short = time.monotonic() - begun < 0.95 * LONGEST_WAIT_MS / 1000
            if self._driven.has_brought or is_short:
                return
            timeout = None if timeout is None else timeout - LONGEST_WAIT_MS / 1000
        self._turn_within(math.ceil(max(timeout, 0) * 1000))

    def _turn_for_events(self) -> None:
        """Waits until there is an event of the service, or something was due."""
        if self._is_shared:
            self._turn_within(LONGEST_WAIT_MS)
            return
        # (events that came in early wait in the driver, which returns them at once)
        with self._lock:
            self._work(LONGEST_WAIT_MS)

    def _turn_within(self, wait_ms: int) -> None:
        """The same, for as many ms as the driver waits by itself at most."""
        self._enter()
        if self._was_early:
            # (something may have come in since)
            self._was_early, wait_ms = False, 0
        if self._is_shared and wait_ms:
            # (what waits leaves first, and the descriptor is readable when something is due)
            with self._lock:
                self._work()
                if self._driven.has_brought:
                    return
            self._wait(wait_ms)
            wait_ms = 0
        with self._lock:
            self._work(wait_ms)

    def _wait(self, wait_ms: int) -> None:
        """Waits without the lock, so that other threads may use the socket."""
        with self._lock:
            descriptor = self._driven.fileno()
        waits = select.poll()
        waits.register(descriptor, select.POLLIN)
        waits.poll(wait_ms)

    def _work(self, wait_ms: int = 0) -> None:
        """Has the driver take a turn, and takes what it brought. The lock is held."""
        if self._desk:
            self._desk.turn(self._driven, wait_ms)
        else:
            self._driven.check(self._driven.turn(wait_ms))
        if self._driven.alarm:
            self._ring()

    def _ring(self) -> None:
        """Keeps an alarm of the watch."""
        self.alarms.ring(self._number, self._driven.alarm_peer, Alarm(self._driven.alarm))

    def _calls_desk(self) -> Desk:
        """The desk of the service's events, which are taken by it from now on. Raises InvalidArgument if there is no
        service."""
        self._desk = self._desk or self._new_desk()
        self._driven.takes_events()
        return self._desk

    def _new_desk(self) -> Desk:
        raise InvalidArgument(f"node {self._number} isn't a service: it has plain messages, and no calls")

    @contextlib.contextmanager
    def background(self) -> Iterator[None]:
        """While its block runs, and has done so for 10 ms or more, another thread receives what arrives and does what
        is due: so work that takes long doesn't hold the node up. Messages and requests wait for the program. In the
        block call only the socket and its `Calls`, and not the node itself."""
        self._test()
        with self._lock:
            self._depth += 1
            self._begun += 1
            if self._standby is None:
                self._standby = threading.Thread(
                    target=self._stand_by, name=f"deltat node {self._number}", daemon=True
                )
                self._standby.start()
        try:
            yield
        finally:
            with self._lock:
                self._depth -= 1

    def _stand_by(self) -> None:
        """Looks every 10 ms whether the program is in the same block as before, and does the node's work until it
        leaves the block. Ends when there was no block for a second."""
        begun = idle = 0
        while idle < 100:
            time.sleep(0.01)
            try:
                while self._depth and self._begun == begun:
                    self._wait(10)
                    with self._lock:
                        self._work()
            except (DeltatError, OSError, ValueError):
                # (the program's next call raises it)
                break
            idle = 0 if self._depth or self._begun != begun else idle + 1
            begun = self._begun
        with self._lock:
            self._standby = None


class Udp(AnyUdp):
    """A node over a UDP socket, for one thread (but see `background`): a plain loop. `peers` has the address of each
    neighbour, by its node's number; datagrams from other addresses are dropped. A socket has all links of the node.

    Unless the program called `node.set_guard`, the node receives at the ports that have a reader (at a service: those
    that have a kind), and on 1,024 flows at once, or 16 for each peer or each route if that is more. So strangers that
    send from a peer's address don't make it grow.

    How old each datagram is that arrives is measured (docs/watch.md), and what is too old is lost. Its neighbours need
    that too: `deltat node`, devices and programs with loops of their own have no watch, so pass `watch=False` to speak
    with them. Then the links' charges are the program's to choose, and what is under way for longer may be delivered
    twice."""

    _driven: Driven

    def __init__(
        self,
        node: AnyNode,
        bind: tuple[str, int],
        peers: Mapping[int, tuple[str, int]],
        routes: Mapping[int, int] | None = None,
        *,
        watch: bool = True,
        counters: str | os.PathLike[str] | None = None,
    ) -> None:
        """Binds the socket. `routes` has the number of each neighbour's link; if it is left out, that is the link of
        the node's route to it, or the node's only link. `counters`: a file into which the driver counts, for
        tools/counters.py. Raises InvalidArgument if the node has no such link, an address is none, or the counters
        file is another one; StateError if it is in use; UdpError, which is an OSError, if the socket can't be
        bound."""
        self.node = node
        links = {number: self._link_of(number, routes or {}) for number in peers}
        # (before there is a socket from which something could be passed in)
        node._guard_by_default(max(len(peers), 1))
        driven = Driven(node, bind, watch, counters)
        try:
            for number, address in peers.items():
                driven.set_neighbour(number, links[number], address)
        except BaseException:
            driven.close()
            raise
        super().__init__(driven, node.number)
        self.socket = driven.socket
        """The socket, which the driver reads and writes."""
        self._has_said = False

    def _link_of(self, peer: int, routes: Mapping[int, int]) -> int:
        """Returns the link of a neighbour."""
        own = {it.number for it in self.node.links}
        link = routes.get(peer, self.node.routes.get(peer))
        if link is None and len(own) == 1:
            (link,) = own
        if link not in own:
            known = ", ".join(map(str, sorted(own))) or "none"
            raise InvalidArgument(
                f"peer {peer}: its link is {'not named' if link is None else link}; node {self.node.number} has the "
                f"links {known}; name one of these in `routes`"
            )
        return link

    def close(self) -> None:
        """Closes the socket and the node. Called again, or in a forked child, it does nothing."""
        super().close()
        self.node.close()

    def _test(self) -> None:
        self.node._handle

    def _new_desk(self) -> Desk:
        desk: Desk | None = getattr(self.node, "_desk", None)
        return desk or super()._new_desk()

    def send(self, flow: Flow, octets: bytes, begin: bool = True, end: bool = True) -> None:
        """As `Node.send`; what leaves is put on the wire at once. Raises InvalidArgument also if the node is a
        service."""
        if not isinstance(self.node, Node):
            raise InvalidArgument(f"node {self.node.number} is a service, which has no plain messages; make a call")
        self._enter()
        with self._lock:
            at = clock.now()
            self.node.send(flow, octets, begin, end, at)
            self.flush(at)

    def flush(self, at: int) -> None:
        """Puts what left the node at the time `at` on the wire. Without the watch what is later than 20 ms is
        dropped. Does nothing if the socket is closed."""
        self._flush(at)

    def poll(self, timeout: float | None = 0.0) -> list[Message]:
        """Waits for a datagram, for `timeout` seconds at most (None: without end) and not beyond the node's wake;
        receives all that arrived, does what is due, and returns the messages that are whole now. Raises OutOfMemory or
        Stopped."""
        self._turn(timeout)
        with self._lock:
            at = clock.now()
            found = list(self.node.messages(at))
            if found:
                self.flush(at)
        return found

    def _work(self, wait_ms: int = 0) -> None:
        node, driven = self.node, self._driven
        if node._is_guard_due:
            node._guard_by_default(node._peers)
        if self._desk:
            self._desk.turn(driven, wait_ms)
        else:
            status = driven.turn(wait_ms)
            node._was_driven()
            driven.check(status)
        if driven.alarm:
            self._ring()
        if not self._has_said and driven.was_blocked:
            self._has_said = True
            _log.warning(
                "node %d: the guard blocked a datagram of a peer, for a port without a reader or of one flow too many; "
                "blocked_counts() counts them, and set_guard() sets another guard",
                node.number,
            )

    def __iter__(self) -> Iterator[Message]:
        """Returns the messages that arrive, until the socket is closed. Raises OutOfMemory, or Stopped if the node ran
        out of memory earlier."""
        while True:
            try:
                found = self.poll(None)
            except Stopped as why:
                if isinstance(why, Forked) or not self.is_closed:
                    raise
                return
            yield from found

    def run_for(self, seconds: float) -> list[Message]:
        """Runs the node for this many seconds, and returns the messages that arrived. What was sent before is
        acknowledged or reported by then, if that takes no longer."""
        end, found = time.monotonic() + seconds, []
        while (left := end - time.monotonic()) > 0:
            found += self.poll(left)
        return found


class _Line:
    """Waits for room of a flow, one after another; `ready` is set when something arrived from the flow's target."""

    def __init__(self) -> None:
        self.lock, self.ready, self.count = asyncio.Lock(), asyncio.Event(), 0


class AnyAsyncUdp:
    """The base of `AsyncUdp`: a driver in the running loop of asyncio, which watches its descriptor."""

    def __init__(self, udp: AnyUdp) -> None:
        self._loop = asyncio.get_running_loop()
        self.udp: AnyUdp = udp
        self._receivers: deque[asyncio.Future[None]] = deque()
        # by the flow's target, and by flow
        self._lines: dict[int, dict[Flow, _Line]] = {}
        self._is_due = False
        self._failure: DeltatError | None = None
        self._descriptor = self.udp._driven.fileno()
        self._loop.add_reader(self._descriptor, self._turn)

    def close(self) -> None:
        """Leaves the loop: calls that wait end. The driver stays open."""
        # (a child's loop has the parent's selector: nothing may be taken out of it)
        if not self.udp.is_closed and not self._failure:
            self._fail(Stopped(f"node {self.udp._number}: its calls in this loop are closed"))

    def _leave(self) -> None:
        """Has the loop watch the driver no more."""
        if self._descriptor >= 0:
            self._loop.remove_reader(self._descriptor)
            self._descriptor = -1

    def _fail(self, why: DeltatError) -> None:
        """Ends the work of the node, and every wait."""
        self._failure = self._failure or why
        if not self.udp.is_closed:
            self._leave()
            with contextlib.suppress(DeltatError):
                # (events that happened before)
                self.udp._work()
        if self.udp._desk:
            self.udp._desk.close()
        for line in (it for lines in self._lines.values() for it in lines.values()):
            line.ready.set()
        while self._receivers:
            self._wake_receiver()

    def _check(self) -> None:
        """Raises why the node's work has ended, if it has."""
        if self._failure:
            raise type(self._failure)(*self._failure.args)

    def _turn(self) -> None:
        """Does what arrived and what is due, and wakes those who wait for it."""
        self._is_due = False
        if self._failure or self.udp.is_closed:
            return
        try:
            self.udp._work()
        except DeltatError as why:
            self._fail(why)
            return
        if self._lines:
            self._wake_lines()
        if self._receivers:
            self._wake_receiver()

    def _wake_lines(self) -> None:
        heard = self.udp._driven.heard
        for number in self._lines if heard is None else heard:
            for line in self._lines.get(number, {}).values():
                line.ready.set()

    def _wake_receiver(self) -> None:
        while self._receivers:
            it = self._receivers.popleft()
            if not it.done():
                it.set_result(None)
                return

    def _soon(self) -> None:
        """Has a turn taken when the loop comes round: what was made until then leaves, and what it brought is taken."""
        if not self._is_due:
            self._is_due = True
            self._loop.call_soon(self._turn)

    def _left(self, at: int) -> None:
        """Puts what left the node at that time on the wire."""
        if self.udp._flush(at):
            # (it has taken in what would have woken the loop)
            self._soon()

    def _does(self, act: Callable[[int], object]) -> float | None:
        """Does something at the node, if the flow has room and the node isn't silent; if not, returns the seconds after
        which to try again at the latest."""
        self._check()
        at = clock.now()
        try:
            act(at)
        except Full:
            return RETRY / 1000
        except Quiet as why:
            return max(why.until - at, 1) / 1000
        except OutOfMemory as why:
            self._fail(why)
            raise
        finally:
            self._left(at)
        return None

    async def _when_room(self, flow: Flow, act: Callable[[int], object]) -> None:
        """Does something at the node as soon as the flow has room and the node isn't silent, after those who waited
        before."""
        if flow not in self._lines.get(flow.target, {}) and self._does(act) is None:
            return
        line = self._lines.setdefault(flow.target, {}).setdefault(flow, _Line())
        line.count += 1
        try:
            async with line.lock:
                line.ready.clear()
                while (seconds := self._does(act)) is not None:
                    with contextlib.suppress(TimeoutError):
                        async with asyncio.timeout(seconds):
                            await line.ready.wait()
                    line.ready.clear()
        finally:
            line.count -= 1
            if not line.count:
                del self._lines[flow.target][flow]
            if not self._lines[flow.target]:
                del self._lines[flow.target]


class AsyncUdp(AnyAsyncUdp):
    """A node over a UDP socket in the running loop of asyncio: what arrives and what is due is done as the loop turns.

    The loop watches one descriptor, which is readable if something arrived or is due. A message is read from the node
    when the program asks for it, so a slow program holds its senders back. After the node ran out of memory each call
    raises OutOfMemory; calls that wait when it is closed raise Stopped."""

    udp: Udp

    def __init__(
        self,
        node: AnyNode,
        bind: tuple[str, int],
        peers: Mapping[int, tuple[str, int]],
        routes: Mapping[int, int] | None = None,
        *,
        watch: bool = True,
        counters: str | os.PathLike[str] | None = None,
    ) -> None:
        """Binds the socket, and joins the running loop. `counters`: as of `Udp`. Raises RuntimeError if no loop runs,
        and what `Udp` raises."""
        asyncio.get_running_loop()
        super().__init__(Udp(node, bind, peers, routes, watch=watch, counters=counters))

    async def __aenter__(self) -> Self:
        return self

    async def __aexit__(self, *_: object) -> None:
        self.close()

    def __aiter__(self) -> AsyncIterator[Message]:
        """Returns the messages that arrive, until the socket is closed. Raises OutOfMemory."""
        return self

    async def __anext__(self) -> Message:
        try:
            return await self.receive()
        except Stopped as why:
            if isinstance(why, Forked) or not self.udp.is_closed:
                raise
            raise StopAsyncIteration from None

    @property
    def node(self) -> AnyNode:
        return self.udp.node

    def close(self) -> None:
        """Leaves the loop, and closes the socket and the node. Called again, or in a forked child, it does nothing."""
        # (the child's loop has the parent's selector: nothing may be taken out of it)
        if not self.udp.is_closed:
            self._leave()
            self.udp.close()
            self._fail(Stopped(f"node {self.node.number} is closed: open it again with Start.AGAIN"))

    async def send(self, flow: Flow, octets: bytes, begin: bool = True, end: bool = True) -> None:
        """Sends a message, or a part of one, of at most `params.cap` octets, as soon as there is room for it and the
        node isn't silent. Those who wait for room of one flow are served in their order. Raises InvalidArgument or
        Stopped, and then none was taken, as when the wait is cancelled; OutOfMemory, and then it may have been."""
        node = self.node
        if not isinstance(node, Node):
            raise InvalidArgument(f"node {node.number} is a service, which has no plain messages; make a call")
        await self._when_room(flow, functools.partial(node.send, flow, octets, begin, end))

    async def receive(self) -> Message:
        """Returns the next message. Raises OutOfMemory or Stopped."""
        while True:
            self._check()
            at = clock.now()
            message = next(self.node.messages(at), None)
            self._left(at)
            if message:
                self._wake_receiver()
                return message
            mine = self._loop.create_future()
            self._receivers.append(mine)
            try:
                await mine
            except asyncio.CancelledError:
                if mine.done() and not mine.cancelled():
                    self._wake_receiver()
                raise
