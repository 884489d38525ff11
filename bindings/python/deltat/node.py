"""A node without a socket, a clock or a thread, and what nodes of messages and of calls have in common.

A program passes in datagrams, messages to send and the time; it takes out datagrams, messages that arrived, reports,
and the time of the next call. `deltat.udp` drives a node over a socket."""

from __future__ import annotations

import ctypes
import logging
import os
import weakref
from collections import deque
from collections.abc import Callable, Iterator, Mapping, Sequence
from typing import TYPE_CHECKING, Self

from . import _c, clock
from ._c import ReportKind, Start, Status
from ._library import library
from .errors import Forked, Full, InvalidArgument, OutOfMemory, Quiet, Stopped
from .values import (
    PARAMETERS,
    BlockedCounts,
    Datagram,
    Flow,
    FlowCounts,
    Link,
    Message,
    NodeCounts,
    Params,
    Piece,
    Report,
    flow_from_c,
    flow_to_c,
    in_range,
    octets_of,
    params_of,
    report_from_c,
)

if TYPE_CHECKING:
    from .state import State

MAX_SEND = 65_536
MAX_MESSAGE = (1 << 64) - 1
"""As long as there is memory for."""
MOST_FLOWS, FLOWS_EACH = 1_024, 16
"""How many flows have a receiver at most, by the guard that a socket sets: in all, or for each peer and route."""
MOST_REPORTS = 10_000

_log = logging.getLogger("deltat")

_CHOOSE = (
    "pass start=Start.AGAIN if this node number may have been in use less than params.quiet_ms ago (as in each program "
    "that may be started anew), start=Start.FIRST only if it never was, or state=, which keeps that in a folder; "
    "exactly one of the two"
)


class Exports:
    """The functions of the library that nodes of messages and of calls both have, without their prefix."""

    size: Callable[[], int]
    align: Callable[[], int]
    init: Callable[[ctypes.c_void_p], None]
    close: Callable[[ctypes.c_void_p], None]
    open: Callable[..., _c.OpenResult]
    tick: Callable[[ctypes.c_void_p, int], int]
    receive: Callable[..., _c.ReceiveResult]
    next_datagram: Callable[..., int]
    wake: Callable[[ctypes.c_void_p], int]
    add_route: Callable[..., int]
    set_guard: Callable[..., int]
    get_blocked_counts: Callable[[ctypes.c_void_p], _c.BlockedCounts]
    get_counts: Callable[..., int]

    def __init__(self, prefix: str) -> None:
        for name in Exports.__annotations__:
            setattr(self, name, getattr(library, prefix + name))


_nodes: weakref.WeakSet[AnyNode] = weakref.WeakSet()


def _close_in_child() -> None:
    """In a forked child: frees its copies of the nodes. Nothing is sent."""
    for node in list(_nodes):
        node._exports.close(node._address)


os.register_at_fork(after_in_child=_close_in_child)


class AnyNode:
    """The base of `Node` and `Service`. A node is closed by `close`, at the end of a `with` block, and when it is
    dropped.

    A node belongs to the process that opened it. In a forked child it is closed, and each call raises `Forked`: parent
    and child would be two nodes of one number, and each would get the answers to the other's calls. A child opens a
    node of its own, with another number."""

    _exports = Exports("dt_node_")
    _DRIVEN_AS = "node"

    def __init__(
        self,
        node: int,
        params: Params,
        links: Sequence[Link],
        routes: Mapping[int, int],
        start: Start | None,
        state: State | None,
    ) -> None:
        if (start is None) == (state is None):
            chosen = "no start was chosen" if start is None else "more than one start was chosen"
            raise TypeError(f"node {node}: {chosen}; {_CHOOSE}")
        if state is not None:
            state.check(node, params)
        self.number = in_range(node, 32, "node")
        self.params, self.links, self.routes = params, tuple(links), dict(routes)
        self.start = state.start if state is not None else Start(start or 0)
        size, align = self._exports.size(), self._exports.align()
        # (the object keeps it: calls of a closed handle are allowed)
        self._memory = ctypes.create_string_buffer(size + align)
        at_octet = ctypes.addressof(self._memory)
        self._address = ctypes.c_void_p(at_octet + -at_octet % align)
        self._room = ctypes.create_string_buffer(MAX_SEND)
        self._out = _c.sized(_c.Datagram)
        self._owner = os.getpid()
        self._state = state
        # whether the program set a guard; how many flows the guard of a socket admits, and whether its ports changed
        self._is_guarded, self._flows, self._is_guard_due = False, 0, False
        self._exports.init(self._address)
        self._finalizer = weakref.finalize(self, _free, self._exports.close, self._address, self._memory)
        self._finalizer.atexit = False
        self._peers = 0
        _nodes.add(self)

    def __enter__(self) -> Self:
        return self

    def __exit__(self, *_: object) -> None:
        self.close()

    @property
    def _is_inherited(self) -> bool:
        """Whether another process opened it, of which this one is a forked child."""
        return self._owner != os.getpid()

    @property
    def _handle(self) -> ctypes.c_void_p:
        """The node's memory. Raises Forked in another process than the one that opened it."""
        if self._owner != os.getpid():
            raise Forked(
                f"node {self.number} was opened by process {self._owner}, and this is a forked child of it; open a "
                "node of another number here"
            )
        return self._address

    def _begun_at(self, at: int | None) -> int:
        """The time at which a node starts. One whose state has the end of its last life starts then, and sends and
        accepts nothing until the rest of its silence is over."""
        time = clock.now() if at is None else at
        return time if self._state is None else self._state.opens_at(time)

    def _noted(self, at: int | None) -> int:
        """The time of an input. The state gets it before the input is done: nothing leaves, and nothing is passed in,
        later than the state promises."""
        time = clock.now() if at is None else at
        if self._state is not None:
            self._note(self._state, time)
        return time

    def _note(self, state: State, time: int) -> None:
        state.note_packet(time)

    def _options(self, now: int) -> _c.NodeOptions:
        """What the library opens a node with. Raises InvalidArgument."""
        it = _c.sized(_c.NodeOptions)
        links = [
            _c.Link(in_range(charge, 32, "charge"), in_range(pace, 32, "pace"), in_range(number, 16, "link"))
            for number, charge, pace in self.links
        ]
        routes = [_c.Route(in_range(to, 32, "node"), in_range(link, 16, "link")) for to, link in self.routes.items()]
        it.links, it.link_count = (_c.Link * max(len(links), 1))(*links), len(links)
        it.routes, it.route_count = (_c.Route * max(len(routes), 1))(*routes), len(routes)
        it.node, it.start_as, it.now = self.number, self.start, now
        return it

    def _open(self, at: int | None, *more: ctypes.Structure) -> None:
        """Opens it. Raises what the state raises; InvalidArgument or OutOfMemory, and then it is closed."""
        now = self._begun_at(at)
        try:
            opened = self._exports.open(self._handle, params_of(self.params), self._options(now), *more)
            if opened.status == Status.INVALID:
                what = PARAMETERS[opened.field - 1] if opened.field else "an option"
                raise InvalidArgument(
                    f"{what} is {opened.value}, which is out of range; include/deltat.h has the ranges",
                    what,
                    opened.value,
                )
            if opened.status == Status.NO_MEMORY:
                raise OutOfMemory(f"node {self.number} can't be opened: out of memory")
        except BaseException:
            self.close()
            raise

    def _raise(self, status: int, is_usable: bool = False) -> None:
        """Raises the error of a status, if it is for good."""
        if status == Status.NO_MEMORY and is_usable:
            raise OutOfMemory(f"node {self.number}: out of memory; nothing changed, and the node is usable")
        if status == Status.NO_MEMORY:
            raise OutOfMemory(
                f"node {self.number} is stopped: out of memory; close it and open it again with Start.AGAIN"
            )
        if status == Status.STOPPED:
            raise Stopped(f"node {self.number} is stopped: close it and open it again with Start.AGAIN")
        if status == Status.NOT_OPEN:
            raise Stopped(f"node {self.number} is closed: open it again with Start.AGAIN")

    def close(self) -> None:
        """Frees what the node holds, and what waits in it. Called again, or in a forked child, it does nothing."""
        if self._is_inherited or not self._finalizer.alive:
            return
        self._finalizer()
        if self._state is not None:
            self._state.close()

    def tick(self, at: int | None = None) -> None:
        """Does what is due. Raises OutOfMemory or Stopped."""
        time = clock.now() if at is None else at
        if self._state is not None and self._exports.wake(self._handle) <= time:
            self._noted(time)
        self._raise(self._exports.tick(self._handle, time))

    def receive(self, link: int, datagram: bytes, waited_ms: int = 0, at: int | None = None) -> Status:
        """Passes in a datagram that arrived on a link and waited for `waited_ms` on this machine, rounded up. Returns
        OK, or why it was dropped: MALFORMED, EXPIRED (its lifetime is over), INVALID (there is no such link) or
        BLOCKED (by the guard). Raises OutOfMemory or Stopped."""
        octets = octets_of(datagram)
        if self._is_guard_due:
            self._guard_by_default(self._peers)
        came = self._exports.receive(
            self._handle,
            self._noted(at),
            in_range(link, 16, "link"),
            octets,
            len(octets),
            min(waited_ms, 0xFFFFFFFF),
        )
        self._raise(came.status)
        return Status(came.status)

    def set_guard(self, ports: Sequence[int] | None = None, max_flows: int = 0xFFFFFFFF) -> None:
        """From now on the node receives at these ports only (at all if none are named), and makes no receiver for a
        new flow while `max_flows` flows have one. What strangers send to others is dropped before the node sees it,
        and counted. It replaces the guard that a socket sets. Raises OutOfMemory, and then nothing changed; Stopped."""
        self._set_guard(ports, max_flows)
        self._is_guarded = True

    def _set_guard(self, ports: Sequence[int] | None, max_flows: int) -> None:
        chosen = [in_range(port, 16, "port") for port in ports or ()]
        octets = (ctypes.c_uint16 * max(len(chosen), 1))(*chosen)
        status = self._exports.set_guard(
            self._handle, octets, len(chosen), ports is None, in_range(max_flows, 32, "max_flows")
        )
        self._raise(status, is_usable=True)
        self._is_guard_due = False

    @classmethod
    def _plain(cls) -> type[AnyNode]:
        """The class whose `receive`, `tick`, `wake` and `datagrams` are the library's."""
        return AnyNode

    def _was_driven(self) -> None:
        """Called when a socket has passed datagrams in, and done what was due."""

    def _guard_by_default(self, peers: int) -> None:
        """If the program set no guard: the node receives at the ports that have a reader, and on some flows of each
        peer and each node to which there is a route."""
        if not self._is_guarded:
            self._peers, self._flows = peers, max(MOST_FLOWS, FLOWS_EACH * max(peers, len(self.routes)))
            self._set_guard(self._read_ports(), self._flows)

    def _guard_anew(self) -> None:
        """The guard of a socket is set anew before the next datagram, once for however many changes."""
        self._is_guard_due = self._flows > 0 and not self._is_guarded

    def _read_ports(self) -> Sequence[int] | None:
        """The ports that have a reader; None if all have."""
        return None

    def blocked_counts(self) -> BlockedCounts:
        """Returns how many datagrams the guard blocked since the node was opened."""
        it = self._exports.get_blocked_counts(self._handle)
        return BlockedCounts(it.closed_port, it.too_many_flows)

    def counts(self) -> NodeCounts:
        """Returns the node's counters of datagrams and octets. Raises Stopped if it is closed."""
        it = _c.sized(_c.NodeCounts)
        self._raise(self._exports.get_counts(self._handle, it))
        return NodeCounts(*(getattr(it, name) for name in NodeCounts._fields))

    def add_route(self, to: int, link: int) -> None:
        """From now on datagrams for node `to` leave on this link. Raises InvalidArgument if there is no such link or
        there is a route to the node; OutOfMemory, and then the node is usable; Stopped."""
        status = self._exports.add_route(self._handle, _c.Route(in_range(to, 32, "node"), in_range(link, 16, "link")))
        if status == Status.INVALID:
            raise InvalidArgument(f"node {self.number} has no link {link}", "link", link)
        if status == Status.EXISTS:
            raise InvalidArgument(f"node {self.number} has a route to node {to}, which can't be changed", "to", to)
        self._raise(status, is_usable=True)
        self.routes[to] = link
        self._guard_anew()

    def datagrams(self) -> Iterator[Datagram]:
        """Returns the datagrams to put on the wire, in their order, each once."""
        while True:
            # (the longest fits into the room)
            status = self._exports.next_datagram(self._handle, self._room, len(self._room), self._out)
            if status != Status.OK:
                return
            yield Datagram(self._out.link, self._out.to, ctypes.string_at(self._room, self._out.len))

    def not_sent(self) -> None:
        """Says that the last of `datagrams` wasn't put on the wire. That is a loss, and harmless."""

    def messages(self, at: int | None = None) -> Iterator[Message]:
        """Returns the whole messages that arrived. A service has none."""
        return iter(())

    @property
    def wake(self) -> int | None:
        """The time at which to call `tick` next. None: nothing is due."""
        it = self._exports.wake(self._handle)
        return None if it == _c.NEVER else it


def _free(close: Callable[[ctypes.c_void_p], None], address: ctypes.c_void_p, memory: object) -> None:
    """Frees what a node holds. Its memory lives until this has run."""
    close(address)


class Node(AnyNode):
    """A node of a network, without a socket. Times are in ms; left out, they are `deltat.now()`.

    `dropped_too_long`: how many messages were longer than `longest`, and dropped, when `messages` last looked.
    `reports_dropped`: how many reports were dropped since nobody took them; none of them is an UNCERTAIN."""

    _MARKS_READABLE: tuple[ReportKind, ...] = (ReportKind.ACCEPTED, ReportKind.RECORD_RELEASED)

    def __init__(
        self,
        node: int,
        params: Params,
        links: Sequence[Link],
        routes: Mapping[int, int],
        *,
        start: Start | None = None,
        state: State | None = None,
        at: int | None = None,
        longest: int = MAX_MESSAGE,
    ) -> None:
        """Opens the node with this number. `routes`: the link that leads to each node. `longest`: how many octets a
        message that arrives may have.

        Exactly one of `start` and `state` is given. `Start.AGAIN`: the number may have been in use less than
        `params.quiet_ms` ago, and the node is silent for as long. `Start.FIRST`: it never was. A `state` keeps that
        over the starts of a program. Raises TypeError if neither or both are given; InvalidArgument or OutOfMemory;
        what the state raises."""
        in_range(longest, 64, "longest")
        super().__init__(node, params, links, routes, start, state)
        self._unread: dict[Flow, None] = {}
        self._is_reading = False
        self.dropped_too_long = self.reports_dropped = 0
        self._reports: deque[Report] = deque()
        self._given_up: dict[Flow, Report] = {}
        self._report, self._message = _c.sized(_c.Report), _c.sized(_c.Message)
        self._open(at)
        self._raise(library.dt_node_enable_messages(self._handle, longest))

    @classmethod
    def _plain(cls) -> type[AnyNode]:
        return Node

    def _was_driven(self) -> None:
        self._take_reports()

    def tick(self, at: int | None = None) -> None:
        super().tick(at)
        self._take_reports()

    def receive(self, link: int, datagram: bytes, waited_ms: int = 0, at: int | None = None) -> Status:
        status = super().receive(link, datagram, waited_ms, at)
        self._take_reports()
        return status

    def count_flow(self, flow: Flow) -> None:
        """Starts counting the octets of a flow, until the node is closed. Does nothing if the flow is counted. Raises
        OutOfMemory, and then the node is usable; Stopped."""
        self._raise(library.dt_node_count_flow(self._handle, flow_to_c(flow)), is_usable=True)

    def flow_counts(self, flow: Flow) -> FlowCounts | None:
        """Returns the counters of a flow; None if it isn't counted. Raises Stopped if the node is closed."""
        it = _c.sized(_c.FlowCounts)
        status = library.dt_node_get_flow_counts(self._handle, flow_to_c(flow), it)
        if status == Status.NONE:
            return None
        self._raise(status)
        return FlowCounts(*(getattr(it, name) for name in FlowCounts._fields))

    def send(self, flow: Flow, octets: bytes, begin: bool = True, end: bool = True, at: int | None = None) -> None:
        """Sends a message of 1 to `params.cap` octets, or a part of one. Raises Full, Quiet, InvalidArgument or
        Stopped, and then none was taken; OutOfMemory, and then they may have been."""
        octets = octets_of(octets)
        if not 0 < len(octets) <= self.params.cap:
            raise InvalidArgument(
                f"a send on {flow} has {len(octets)} octets; 1 to {self.params.cap} fit (cap); send a longer message "
                "in parts, with begin and end"
            )
        sent = library.dt_node_send(self._handle, self._noted(at), flow_to_c(flow), octets, len(octets), begin, end)
        self._raise(sent.status)
        self._take_reports()
        if sent.status == Status.FULL:
            raise Full(sent.free)
        if sent.status == Status.QUIET:
            raise Quiet(sent.quiet_until)
        if sent.status == Status.INVALID:
            raise InvalidArgument(f"{flow} doesn't go from node {self.number} to another")

    def read(self, flow: Flow, at: int | None = None) -> Piece | None:
        """Reads unread octets of a flow to this node, at most 65,536 and of one message. Returns None if nothing is
        unread. Don't mix it with `messages` on one flow. Raises InvalidArgument, OutOfMemory or Stopped."""
        got = library.dt_node_read(self._handle, self._noted(at), flow_to_c(flow), self._room, MAX_SEND)
        self._raise(got.status)
        self._take_reports()
        if got.status == Status.INVALID:
            raise InvalidArgument(f"{flow} doesn't go from another node to node {self.number}")
        if got.status != Status.OK:
            return None
        return Piece(ctypes.string_at(self._room, got.len), got.begin, got.end, got.gap)

    def reports(self) -> Iterator[Report]:
        """Returns the reports of the node, in their order, each once. If more than 10,000 wait, the oldest are dropped;
        but no UNCERTAIN is: those of a flow are joined to one, with the sum of their octets, which comes before the
        others."""
        self._handle  # Forked, in a child
        while self._given_up:
            yield self._given_up.pop(next(iter(self._given_up)))
        while self._reports:
            yield self._reports.popleft()

    def _take_reports(self) -> None:
        """Takes the reports, so that none of them waits in the library."""
        while library.dt_node_next_report(self._handle, self._report) == Status.OK:
            self._keep_report(report_from_c(self._report))

    def _keep_report(self, report: Report) -> None:
        if report.kind in self._MARKS_READABLE and not report.sending:
            self._unread[report.flow] = None
        if len(self._reports) >= MOST_REPORTS:
            self._drop_report(self._reports.popleft())
        self._reports.append(report)

    def _drop_report(self, report: Report) -> None:
        """Drops a report, but keeps the octets that were given up, by their flow."""
        if report.kind is not ReportKind.UNCERTAIN:
            self.reports_dropped += 1
            return
        before = self._given_up.get(report.flow)
        self._given_up[report.flow] = report._replace(count=report.count + (before.count if before else 0))

    def messages(self, at: int | None = None) -> Iterator[Message]:
        """Returns the whole messages of all flows to this node that can be read, each once, those of a flow in their
        order. Raises OutOfMemory or Stopped."""
        while message := self._next_message(at):
            yield message

    def _next_message(self, at: int | None) -> Message | None:
        it = self._message
        while True:
            # (if no flow is looked at, nothing is read, and nothing done)
            self._is_reading = self._is_reading or bool(self._unread)
            time = self._noted(at) if self._is_reading else clock.now() if at is None else at
            self._mark_readable()
            status = library.dt_node_next_message(self._handle, time, self._room, len(self._room), it)
            self._raise(status)
            self._take_reports()
            self.dropped_too_long = it.dropped_too_long
            if status == Status.OK:
                return Message(flow_from_c(it.flow), ctypes.string_at(self._room, it.len), it.gap)
            if status == Status.NONE:
                self._is_reading = False
                return None
            if status == Status.BUFFER_TOO_SMALL:
                self._room = ctypes.create_string_buffer(it.len)
            if status == Status.LOST:
                _log.warning(
                    "node %d: out of memory: octets of %s are lost, and its next message has a gap",
                    self.number,
                    flow_from_c(it.flow),
                )

    def _mark_readable(self) -> None:
        """Marks the flows of which octets may be unread."""
        while self._unread:
            flow = next(iter(self._unread))
            self._raise(library.dt_node_mark_readable(self._handle, flow_to_c(flow)), is_usable=True)
            del self._unread[flow]
