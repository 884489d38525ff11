"""A node of this process over a UDP socket, by libdeltat-udp: what `Udp`, `AsyncUdp` and `deltat.driver` stand on.

The driver has the socket, the clock and the timer: it reads the socket and passes datagrams in, puts what leaves the
node on the wire, and does what is due. The node's handle stays the node's. A node whose class has its own `receive`,
`tick`, `wake`, `datagrams` or `not_sent`, as `Recorded` has, is driven by these."""

from __future__ import annotations

import ctypes
import os
import socket
import struct
import time
import weakref
from collections.abc import Iterable
from typing import TYPE_CHECKING, Any, NoReturn

from . import _c, _c_udp
from ._c import Status
from ._library import drivers
from .errors import InvalidArgument, OutOfMemory, StateError, Stopped, UdpError
from .hooked import Hooked, is_hooked
from .state import State
from .values import Flow, flow_to_c, in_range, params_of

if TYPE_CHECKING:
    from .node import AnyNode

MAX_ITEMS, ROOM = 1024, 262_144
"""How many events are taken at once, and of how many octets."""
LONGEST_WAIT_MS = 1000
# the structs `dt_udp_item`, `dt_token` and `dt_udp_batch_call`: a flow's two nodes are before its two ports
_ITEM, _TOKEN, _CALL = struct.Struct("=QIIIIHHBB2xQ"), struct.Struct("=QIIHH4x"), struct.Struct("=IIHHII4xQ")
assert [it.size for it in (_ITEM, _TOKEN, _CALL)] == [
    ctypes.sizeof(it) for it in (_c_udp.Item, _c.Token, _c_udp.BatchCall)
]
# of `dt_udp_batch`, from `count` on: count, used, heard_count, blocked, alarm, alarm_peer, calls_made
_RESULT = struct.Struct("=II8xI?B2xI24xI")
_RESULT_AT = _c_udp.Batch.count.offset
_PLACES = {"heard_count": 16, "blocked": 20, "alarm": 21, "alarm_peer": 24, "calls_made": _RESULT.size - 4}
assert all(getattr(_c_udp.Batch, name).offset == _RESULT_AT + at for name, at in _PLACES.items())


def refuse(error: _c_udp.Error) -> NoReturn:
    """Raises why the driver couldn't be opened, or has no such address."""
    text = error.text.decode(errors="replace")
    if error.status == Status.NO_MEMORY:
        raise OutOfMemory(text)
    if error.status == Status.INVALID and not error.system_error:
        raise InvalidArgument(text)
    if error.status == Status.EXISTS:
        raise StateError(text)
    if not error.system_error:
        raise Stopped(text)
    raise UdpError(error.system_error, text)


def _numeric(address: tuple[str, int]) -> tuple[bytes, bytes]:
    """An address of IPv4 if there is one by this name, or else the name itself."""
    host, port = address
    try:
        host = socket.getaddrinfo(host or "0.0.0.0", port, socket.AF_INET, socket.SOCK_DGRAM)[0][4][0]
    except socket.gaierror:
        pass
    return host.encode(), str(port).encode()


def _octets(of: ctypes.Array[Any]) -> memoryview:
    return memoryview(of).cast("B")


class Driver:
    """What drives a node, for one thread at a time."""

    def __init__(self, handle: int, kept: list[object], failures: list[BaseException]) -> None:
        """Takes over a driver that is open. `kept`: what has to live until it is closed. `failures`: what functions
        raised that it called."""
        self._waits, self._short = drivers()
        self._handle: int | None = handle
        self._ended, self._failures = (0, 0), failures
        # of the call that the last turn didn't make: its user, its flow and why
        self.refused: tuple[int, Flow, _c.CallResult] | None = None
        self.socket = socket.socket(fileno=self._short.dt_udp_socket(handle))
        room, items = ctypes.create_string_buffer(ROOM), (_c_udp.Item * MAX_ITEMS)()
        payloads, calls = ctypes.create_string_buffer(ROOM), (_c_udp.BatchCall * MAX_ITEMS)()
        self._heard, self._token = (ctypes.c_uint32 * _c_udp.MAX_HEARD)(), _c.Token()
        self._octets_view, self._items_view = _octets(room), _octets(items)
        # calls that are made at the next turn, and how many there are of them and of their octets
        self._payloads_view, self._calls_view = _octets(payloads), _octets(calls)
        self._call_count = self._payloads_used = 0
        self._batch = _c_udp.Batch(
            items=items,
            octets=ctypes.addressof(room),
            size=ROOM,
            heard=self._heard,
            calls=calls,
            payloads=ctypes.addressof(payloads),
        )
        # (the batch has only its address)
        self._kept_payloads = payloads
        self._batch_view, self._to_batch = memoryview(self._batch).cast("B"), ctypes.byref(self._batch)
        self.count = self._used = self._heard_count = 0
        """How many events the last turn took, of how many octets."""
        self.turned_at = 0.0
        """When the last turn ended, by time.monotonic()."""
        self.was_blocked = False
        """Whether the guard blocked a datagram at the last turn."""
        self.alarm = self.alarm_peer = 0
        """What the watch found at the last turn, a `deltat.Alarm` or 0, and of which peer."""
        self._reply = self._short.dt_udp_reply
        self._next, self._waits_next = self._short.dt_udp_next_batch, self._waits.dt_udp_next_batch
        self._counts = self._short.dt_udp_get_counts(self._handle).contents
        self._finalizer = weakref.finalize(self, _close, self._waits, handle, self.socket, kept)
        self._finalizer.atexit = False

    @property
    def is_closed(self) -> bool:
        return not self._finalizer.alive

    def close(self) -> None:
        """Closes the socket, or in a forked child its copy. Called again it does nothing."""
        if self._handle:
            self._ended = self.not_sent, self.unknown
            self._handle = None
            self._finalizer()

    def _open(self) -> int:
        """The driver's address. Raises Stopped if it is closed."""
        if not self._handle:
            raise Stopped("the driver is closed; open one again")
        return self._handle

    def _raise(self, status: int) -> None:
        """Raises the error of a status, if it is for good."""
        if status == Status.NO_MEMORY:
            raise OutOfMemory("out of memory; close the driver and open it again")
        if status in (Status.NOT_OPEN, Status.STOPPED):
            raise Stopped("the driver failed, or this is a forked child; open a driver again")

    def fileno(self) -> int:
        """A descriptor that is readable if something arrived or is due."""
        found: int = self._short.dt_udp_fd(self._handle or self._open())
        if found < 0:
            raise UdpError(ctypes.get_errno(), "the driver has no descriptor")
        return found

    # --- turns

    def takes_events(self) -> None:
        """From now on a turn takes the events of the service."""
        self._batch.max_items = MAX_ITEMS

    def turn(self, wait_ms: int = 0) -> int:
        """Makes the calls that were begun, waits at most so many ms for something, receives what arrived, does what is
        due, and puts what leaves on the wire. Returns a status, for `check`; `events` has the events that were taken.
        If `refused` has a call then, the calls after it are made at the next turn."""
        next_batch = self._waits_next if wait_ms else self._next
        self._batch.call_count = begun = self._call_count
        status: int = next_batch(self._handle or self._open(), wait_ms, self._to_batch)
        found = _RESULT.unpack_from(self._batch_view, _RESULT_AT)
        self.count, self._used, self._heard_count, self.was_blocked, self.alarm, self.alarm_peer, made = found
        self.refused, self.turned_at = None, time.monotonic()
        if made == begun:
            self._call_count = self._payloads_used = 0
        else:
            self._refuse(made)
        return status

    def _refuse(self, count: int) -> None:
        """Takes out of the calls that were begun those that were made, and the one after them, which was refused."""
        source, target, source_port, target_port, _, _, user = _CALL.unpack_from(self._calls_view, count * _CALL.size)
        self.refused = user, Flow(source, source_port, target, target_port), self._batch.refused
        octets = bytes(self._payloads_view[: self._payloads_used])
        calls = bytes(self._calls_view[: self._call_count * _CALL.size])
        self._call_count = self._payloads_used = 0
        at = 0
        for i, it in enumerate(_CALL.iter_unpack(calls)):
            size = it[5]
            if i > count:
                self.begin(Flow(it[0], it[2], it[1], it[3]), octets[at : at + size], it[4], it[6])
            at += size

    def events(self) -> tuple[Iterable[tuple[int, ...]], memoryview]:
        """The events of the last turn, and their octets until the next turn. Of each event: the call, the place of its
        octets and their number, the flow's source, target and their ports, the kind, the cause and the user."""
        if self.count == 1:
            return (_ITEM.unpack_from(self._items_view),), self._octets_view
        return _ITEM.iter_unpack(self._items_view[: self.count * _ITEM.size]), self._octets_view

    @property
    def has_brought(self) -> bool:
        """Whether the last turn took an event, or passed a datagram in."""
        return bool(self.count or self._heard_count)

    @property
    def heard(self) -> list[int] | None:
        """The nodes of which datagrams were passed in at the last turn; None: too many to name."""
        count = self._heard_count
        return None if count == _c_udp.MAX_HEARD else self._heard[:count]

    @property
    def counts(self) -> dict[str, int]:
        """The driver's counters, by their names in deltat_udp.h; empty once it is closed."""
        return {name: getattr(self._counts, name) for name, _ in self._counts._fields_} if self._handle else {}

    def check(self, status: int) -> None:
        """Raises why the driver can't continue, if it can't."""
        if status == Status.OK:
            return
        if self._failures:
            raise self._failures[0]
        error = self._short.dt_udp_system_error(self._open())
        if error:
            raise UdpError(error, os.strerror(error))
        self._raise(status)

    # --- what the program does

    def flush(self, at: int) -> bool:
        """Puts what left the node at that time on the wire. Returns whether it took a turn: if that wasn't done for
        5 ms."""
        turned: bool = self._short.dt_udp_flush_since(self._handle or self._open(), at)
        return turned

    def begin(self, flow: Flow, octets: bytes, timeout_ms: int, user: int) -> bool:
        """Has a call made at the next turn, whose end has `user`. Returns whether there was room for it. Raises
        InvalidArgument if a number is out of range, or it has more octets than any call; Forked or Stopped."""
        if not self._handle:
            self._open()
        source, source_port, target, target_port = flow
        count, at, size = self._call_count, self._payloads_used, len(octets)
        if size > _c.MAX_PAYLOAD:
            raise InvalidArgument(f"a call on {flow} has {size} octets; at most cap - 8 fit")
        if count == MAX_ITEMS or at + size > ROOM:
            return False
        try:
            _CALL.pack_into(
                self._calls_view, count * _CALL.size, source, target, source_port, target_port, timeout_ms, size, user
            )
        except struct.error:
            flow_to_c(flow)  # (raises which one)
            raise InvalidArgument(f"a call on {flow}: timeout_ms is {timeout_ms}; it has 32 bits") from None
        self._payloads_view[at : at + size] = octets
        self._call_count, self._payloads_used = count + 1, at + size
        return True

    def _put_token(self, flow: Flow, call: int) -> None:
        try:
            _TOKEN.pack_into(self._token, 0, call, flow.source, flow.target, flow.source_port, flow.target_port)
        except struct.error:
            raise InvalidArgument(f"call {call} on {flow} has a number that is out of range") from None

    def reply(self, flow: Flow, call: int, octets: bytes) -> _c.ReplyResult:
        self._put_token(flow, call)
        replied: _c.ReplyResult = self._reply(self._handle or self._open(), self._token, octets, len(octets))
        return replied

    def forget(self, flow: Flow, call: int) -> int:
        self._put_token(flow, call)
        status: int = self._short.dt_udp_forget(self._handle or self._open(), self._token)
        return status

    def record(self, path: str | os.PathLike[str] | None, max_octets: int) -> None:
        error, name = _c_udp.Error(), None if path is None else os.fsencode(path)
        status = self._waits.dt_udp_record(self._open(), name, in_range(max_octets, 64, "max_octets"), error)
        if status == Status.INVALID:
            raise OSError(error.system_error, os.strerror(error.system_error), os.fspath(path or ""))
        self.check(status)

    @property
    def is_recording(self) -> bool:
        return bool(self._handle) and self._short.dt_udp_recording(self._handle) == Status.OK

    @property
    def not_sent(self) -> int:
        return int(self._counts.not_sent + self._counts.too_big) if self._handle else self._ended[0]

    @property
    def unknown(self) -> int:
        return int(self._counts.unknown) if self._handle else self._ended[1]


class Driven(Driver):
    """The driver of a node that the program opened."""

    def __init__(
        self, node: AnyNode, bind: tuple[str, int], watch: bool, counters: str | os.PathLike[str] | None = None
    ) -> None:
        """Binds the socket. Raises UdpError if the system refuses it, InvalidArgument, StateError or OutOfMemory."""
        self._node, failures = node, list[BaseException]()
        host, port = _numeric(bind)
        options, given, error = _c.sized(_c_udp.Options), _c.sized(_c_udp.Driven), _c_udp.Error()
        options.node, options.host, options.port = node.number, host, port
        options.params = ctypes.pointer(params_of(node.params))
        options.flags = 0 if watch else _c_udp.Flag.WITHOUT_WATCH
        options.life = getattr(node, "life", 0)
        options.counters = None if counters is None else os.fsencode(counters)
        links = (_c.Link * max(len(node.links), 1))(*(_c.Link(it.charge, it.pace, it.number) for it in node.links))
        given.links, given.link_count = links, len(node.links)
        setattr(given, node._DRIVEN_AS, node._handle)
        # (the driver has their addresses until it is closed)
        kept = [_hooked(node, given, failures) if is_hooked(node) else _kept(node, given, failures), links]
        handle: int | None = drivers().waits.dt_udp_drive(given, options, error)
        if not handle:
            refuse(error)
        super().__init__(handle, kept, failures)

    def _open(self) -> int:
        """The driver's address. Raises Forked in a child of the process that opened it, or Stopped."""
        if not self._handle:
            self._node._handle
            raise Stopped(f"node {self._node.number} is closed: open it again with Start.AGAIN")
        return self._handle

    def _raise(self, status: int) -> None:
        self._node._raise(status)

    def check(self, status: int) -> None:
        if status and isinstance(self._node._state, State):
            self._node._state.explain()
        super().check(status)

    def set_neighbour(self, number: int, link: int, address: tuple[str, int]) -> None:
        """Sets the address of a node at the other end of a link. Raises InvalidArgument or OutOfMemory."""
        error = _c_udp.Error()
        if self._waits.dt_udp_set_neighbour(self._open(), _c.Route(number, link), *_numeric(address), error):
            refuse(error)


def _hooked(node: AnyNode, given: _c_udp.Driven, failures: list[BaseException]) -> object:
    """Has the node's own functions called, which tell its state of each input."""
    it = Hooked(node, failures)
    given.hooks = ctypes.pointer(it.hooks)
    return it


def _kept(node: AnyNode, given: _c_udp.Driven, failures: list[BaseException]) -> object:
    """Has the node's state told of each input before it is done."""
    state = node._state
    if isinstance(state, State):
        given.keeper = ctypes.pointer(state._keeper)
        return state
    if state is None:
        return None
    note_packet = state.note_packet  # (of a program's own class: it is asked of each input)

    def extend(_: object, at: int) -> bool:
        try:
            note_packet(at)
        except BaseException as why:
            failures.append(why)
            return False
        return True

    keeper = _c_udp.Keeper(extend=_c_udp.KeeperExtend(extend))
    given.keeper = ctypes.pointer(keeper)
    return keeper


def _close(library: ctypes.CDLL, handle: int, its_socket: socket.socket, kept: list[object]) -> None:
    """Closes the driver, whose socket it is; what it has the addresses of lives until then."""
    its_socket.detach()
    library.dt_udp_close(handle)
    for it in kept:
        if isinstance(it, _c_udp.Keeper):
            # (its function has the state, which has it)
            it.extend = _c_udp.KeeperExtend(0)
