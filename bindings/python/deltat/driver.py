"""Nodes and services over UDP, by the driver libdeltat-udp (docs/driver.md).

    from deltat import PortKind, Request, Start, driver

    with driver.Udp(2, params, charge=294, port=4002, state="node-2", max_peers=1000, service=True) as udp:
        udp.open_port(20, PortKind.SERVICE)
        calls = driver.Calls(udp)

        @calls.on(20)
        def octets_reversed(request: Request) -> bytes:
            return request.payload[::-1]

        calls.run()

    number = deltat.fresh_number()
    with driver.Udp(number, params, charge=294, start=Start.FIRST, service=True) as udp:
        udp.set_peer(2, "localhost", 4002)
        udp.open_port(10, PortKind.CALLER)
        answer = driver.Calls(udp).call(deltat.Flow(number, 10, 2, 20), b"hello", timeout=5.0)

`Udp` has the socket, the clock and the timer, and keeps the duties of include/deltat.h. Its plain loop is `poll` and
iteration, as that of `deltat.Udp`. `Calls` is `deltat.Calls`, and `AsyncCalls` is `deltat.AsyncCalls` over this `Udp`.
A driver is used by one thread at a time, and by the process that opened it. Objects and reports aren't in this module.

The library is looked for as that of `deltat.Udp` is."""

from __future__ import annotations

import ctypes
import math
import os
from collections.abc import Iterable, Iterator
from typing import Self

from . import _c, _c_udp
from . import service as _service
from ._c import PortKind, Start, Status
from ._c_udp import EventKind as _Kind
from ._library import drivers
from .driven import Driver, refuse
from .errors import Full, InvalidArgument, Quiet, UdpError
from .service import Calls
from .udp import AnyAsyncUdp, AnyUdp, Desk
from .values import Flow, Message, Params, flow_from_c, flow_to_c, in_range, octets_of, params_of
from .watch import Alarm

__all__ = ["AsyncCalls", "Calls", "Udp", "UdpError"]


def _milliseconds(seconds: float | None) -> int:
    return -1 if seconds is None else min(max(math.ceil(seconds * 1000), 0), 0x7FFFFFFF)


class Udp(AnyUdp):
    """A node, or with `service` a service, over a UDP socket, for one thread (but see `background`)."""

    def __init__(
        self,
        node: int,
        params: Params,
        charge: int,
        host: str | None = None,
        port: int | None = None,
        *,
        start: Start | None = None,
        state: str | os.PathLike[str] | None = None,
        life: int = 1,
        service: bool = False,
        max_peers: int = 0,
        pace: int = 0,
        flags: int = 0,
        counters: str | os.PathLike[str] | None = None,
    ) -> None:
        """Binds the socket: without `host` to every address of IPv6 and IPv4, without `port` to a free port. Either
        `state`, a folder, or `start` says how the node starts. `max_peers`: how many peers may be learnt at one time.
        `flags`: enum dt_udp_flag. `counters`: a file into which the driver counts, for tools/counters.py.

        Raises UdpError if the system refuses it; StateError if the state folder or the counters file is in use;
        InvalidArgument; OutOfMemory; TypeError without a start, or with two."""
        if (start is None) == (state is None):
            raise TypeError(f"node {node}: pass `state`, or `start`: Start.AGAIN unless the number is new")
        options = _c.sized(_c_udp.Options)
        options.node, options.charge = in_range(node, 32, "node"), in_range(charge, 32, "charge")
        options.host, options.port = host and host.encode(), None if port is None else str(port).encode()
        options.params = ctypes.pointer(params_of(params))
        options.pace, options.life = in_range(pace, 32, "pace"), in_range(life, 32, "life")
        options.role, options.start_as = _c_udp.Role.SERVICE if service else _c_udp.Role.NODE, start or 0
        options.state = None if state is None else os.fsencode(state)
        options.max_peers, options.flags = in_range(max_peers, 32, "max_peers"), in_range(flags, 32, "flags")
        options.counters = None if counters is None else os.fsencode(counters)
        self.node, self.params, error = node, params, _c_udp.Error()
        handle: int | None = drivers().waits.dt_udp_open(options, error)
        if not handle:
            refuse(error)
        super().__init__(Driver(handle, [], []), node)
        self._is_service = service

    def close(self) -> None:
        """Closes the socket and the node. Nothing is sent: `drain` first, if what was sent should still arrive. Called
        again it does nothing."""
        super().close()

    def _new_desk(self) -> Desk:
        return _service._Desk() if self._is_service else super()._new_desk()

    def set_peer(self, node: int, host: str, port: int | str) -> None:
        """Sets the address of a node. Raises InvalidArgument if there is no such address; OutOfMemory or Stopped."""
        error, driven = _c_udp.Error(), self._driven
        number = in_range(node, 32, "node")
        if driven._waits.dt_udp_set_peer(driven._open(), number, host.encode(), str(port).encode(), error):
            refuse(error)

    def open_port(self, port: int, kind: PortKind | None = None) -> None:
        """Opens a port: of a service as a caller's or a service's. InvalidArgument: it is open, or has no such kind."""
        number, driven = in_range(port, 16, "port"), self._driven
        status = driven._short.dt_udp_open_port(driven._open(), number, kind or 0)
        if status == Status.EXISTS:
            raise InvalidArgument(f"port {port} is open already")
        if status == Status.INVALID:
            raise InvalidArgument(f"port {port} can't be {kind}")
        driven.check(status)

    def _next(self, wait_ms: int) -> _c_udp.Event:
        """The next event of a node, which is the same object each time."""
        driven = self._driven
        library = driven._waits if wait_ms else driven._short
        event: _c_udp.Event = library.dt_udp_next_event(driven._open(), wait_ms).contents
        if event.kind == _Kind.FAILED:
            driven.check(event.cause)
        if event.kind == _Kind.ALARM:
            self.alarms.ring(self.node, event.peer, Alarm(event.cause))
        return event

    def poll(self, timeout: float | None = 0.0) -> list[Message]:
        """The messages that are whole, waiting at most `timeout` seconds for the first one (None: without limit). A
        service has none: it receives what arrived and does what is due, and its `Calls` take the events."""
        if self._is_service:
            self._turn(timeout)
            return []
        found, event = [], self._next(_milliseconds(timeout))
        while event.kind != _Kind.NONE:
            if event.kind == _Kind.MESSAGE:
                found.append(Message(flow_from_c(event.flow), ctypes.string_at(event.octets, event.len), event.gap))
            event = self._next(0)
        return found

    def __iter__(self) -> Iterator[Message]:
        """The messages that arrive, without end."""
        while True:
            yield from self.poll(None)

    def send(self, flow: Flow, octets: bytes) -> None:
        """Sends a whole message, at once. Raises Quiet, Full, InvalidArgument or Stopped: none of it was taken;
        OutOfMemory: it may have been."""
        given, driven = octets_of(octets), self._driven
        it = driven._short.dt_udp_send(driven._open(), flow_to_c(flow), given, len(given))
        driven._short.dt_udp_flush(driven._open())
        if it.status == Status.QUIET:
            raise Quiet(it.quiet_until)
        if it.status == Status.FULL:
            raise Full(it.free)
        if it.status == Status.INVALID:
            raise InvalidArgument(f"{len(given)} octets on {flow} can't be sent from node {self.node}")
        driven.check(it.status)

    def flush(self) -> None:
        """Puts what waits on the wire now."""
        self._driven._short.dt_udp_flush(self._driven._open())

    def drain(self, seconds: float | None = None) -> bool:
        """Waits until all that was sent is acknowledged or uncertain: whether that was within so many seconds."""
        driven = self._driven
        status = driven._waits.dt_udp_drain(driven._open(), _milliseconds(seconds))
        if status != Status.NONE:
            driven.check(status)
        return bool(status == Status.OK)

    def fileno(self) -> int:
        """A descriptor that is readable if something arrived or is due."""
        return self._driven.fileno()

    @property
    def port(self) -> int:
        """The UDP port of the socket."""
        return int(self._driven._short.dt_udp_local_port(self._driven._open()))

    @property
    def life(self) -> int:
        """The life of this opening."""
        return int(self._driven._short.dt_udp_life(self._driven._open()))

    @property
    def silence(self) -> float:
        """For how many seconds the node is still silent after its start."""
        return float(self._driven._short.dt_udp_silent_ms(self._driven._open()) / 1000)


class AsyncCalls(_service.AsyncCalls):
    """`deltat.AsyncCalls` over a driver that was opened with `service`, in the running loop of asyncio. Use it as
    `async with`, or call `close` at the end: the driver itself stays open."""

    def __init__(self, udp: Udp, ports: Iterable[int] = (), workers: int = 1) -> None:
        """Joins the running loop: RuntimeError if none runs. Raises what `deltat.AsyncCalls` raises."""
        super().__init__(AnyAsyncUdp(udp), ports, workers)

    async def __aenter__(self) -> Self:
        return self

    async def __aexit__(self, *_: object) -> None:
        self.close()

    def close(self) -> None:
        """Leaves the loop: calls that wait are unsure. Called again it does nothing."""
        self.udp.close()
