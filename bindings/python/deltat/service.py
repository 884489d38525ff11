"""Request and reply between nodes: a call is handed out once by the other node's service, or not at all.

    service = deltat.Service(2, None, params, [deltat.Link(1, charge)], {1: 1}, state=state)
    service.set_port(20, deltat.PortKind.SERVICE)
    with deltat.Udp(service, ("127.0.0.1", 4002), {1: ("127.0.0.1", 4001)}) as udp:
        served = deltat.Calls(udp)

        @served.on(20)
        def reversed_octets(request: deltat.Request) -> bytes:
            return request.payload[::-1]

        served.run()

    client = deltat.Service(1, None, params, [deltat.Link(1, charge)], {2: 1}, state=state)
    client.set_port(10, deltat.PortKind.CALLER)
    with deltat.Udp(client, ("127.0.0.1", 4001), {2: ("127.0.0.1", 4002)}) as udp:
        answer = deltat.Calls(udp).call(deltat.Flow(1, 10, 2, 20), b"hello", timeout=5.0)

A call ends once: with the answer that the service gave to this very call, or by `Unsure`: it was served once or not at
all, or still will be. `Declined` says that nothing of it was sent. docs/service.md says what to do then.

A life is a number of 32 bits that no earlier opening or `set_life` of this node number had: a `State` counts it. A port
is a caller's or a service's for the whole of one life of its node, and callers call only service ports.

`Service.call` has a `timeout_ms`, in ms; `Calls` and `AsyncCalls` have a `timeout`, in seconds.

The functions of the library that a `Service` calls are proved; this module is tested only (`tests/services.py` compares
it with a model of the definitions)."""

from __future__ import annotations

import asyncio
import contextlib
import ctypes
import inspect
import itertools
import logging
import time
import weakref
from collections import deque
from collections.abc import AsyncIterator, Awaitable, Callable, Iterable, Iterator, Mapping, Sequence
from concurrent.futures import ThreadPoolExecutor
from dataclasses import dataclass
from typing import TYPE_CHECKING, NamedTuple, NoReturn, Protocol, TypeGuard

from . import _c, clock
from ._c import Cause, EventKind, InvalidReason, PortKind, Start, Status
from ._c_udp import EventKind as Kind
from ._library import library
from .errors import Declined, DeltatError, Forked, Full, Gone, InvalidArgument, OutOfMemory, Stopped, Unsure
from .driven import Driver
from .node import AnyNode, Exports
from .udp import AnyAsyncUdp, AnyUdp
from .values import Flow, Link, Params, flow_from_c, flow_to_c, in_range, octets_of

if TYPE_CHECKING:
    from .state import State

_log = logging.getLogger("deltat")
_INVALID = {
    InvalidReason.FLOW: "the flow doesn't go from this node to another",
    InvalidReason.PORT: "the flow doesn't come from a caller's port; call set_port first",
    InvalidReason.LENGTH: "its payload is too long; at most cap - 8 octets fit",
    InvalidReason.TIMEOUT: "timeout_ms is 0; it must be at least 1",
    InvalidReason.TOTAL: "2^62 octets would have been passed in",
}


LONGEST_AWAY = 0.002
"""If the socket wasn't looked at for so many seconds, a call has it looked at."""
_FIRST_USER = 1 << 63
"""The users of calls by `Calls` are counted from here on; those that a program gives to `Service.call` are lower."""


class Token(NamedTuple):
    """The name of a request: its flow and the number of its call. You may store, compare and log it."""

    flow: Flow
    call: int


class Request(NamedTuple):
    """A request that arrived. Reply to its token, now or later."""

    token: Token
    payload: bytes


class Answered(NamedTuple):
    """The end of a call: its number, the answer, and what `call` was given as its user."""

    call: int
    answer: bytes
    user: int = 0


class UnsureCall(NamedTuple):
    """The end of a call that was served once or not at all, or still will be: its number, why it ended, and what `call`
    was given as its user."""

    call: int
    cause: Cause
    user: int = 0


class ReplyUncertain(NamedTuple):
    """Replies to requests of this flow were given up: each was delivered once or not at all. Their callers get no
    report."""

    flow: Flow


Event = Request | Answered | UnsureCall | ReplyUncertain


@dataclass(frozen=True)
class ServiceLimits:
    """`max_calls`: calls that wait or have an end that wasn't taken. `max_requests`: requests without a reply; also
    requests that wait to be taken. `max_requests_per_flow`: requests of one flow without a reply."""

    max_calls: int = 1_000
    max_requests: int = 1_000
    max_requests_per_flow: int = 1_000


class CallCounts(NamedTuple):
    """How many messages were dropped, by cause; include/deltat.h describes each. `unknown_replies` and
    `reused_requests` are alarms: a life was used before, or two nodes have one number."""

    late_replies: int
    old_replies: int
    unknown_replies: int
    reused_requests: int
    cut: int
    too_long: int
    too_short: int


class Service(AnyNode):
    """A node that makes calls and answers them, without a socket: `Udp` and `AsyncUdp` drive it as any other node.
    Times are in ms; left out, they are `deltat.now()`. It has no plain messages."""

    _exports = Exports("dt_service_")
    _DRIVEN_AS = "service"

    def __init__(
        self,
        node: int,
        life: int | None,
        params: Params,
        links: Sequence[Link],
        routes: Mapping[int, int],
        *,
        start: Start | None = None,
        state: State | None = None,
        at: int | None = None,
        limits: ServiceLimits = ServiceLimits(),
    ) -> None:
        """Opens it. `routes`: the link that leads to each node. Exactly one of `start` and `state` is given, as to
        `deltat.Node`. A state counts lives too, and then `life` is None. Raises TypeError, InvalidArgument or
        OutOfMemory; what the state raises."""
        if (life is None) != (state is not None):
            given = "no life was given" if life is None else "a life and a state were given"
            raise TypeError(f"node {node}: {given}; pass a life, or None and a state, which counts lives itself")
        options = _c.sized(_c.ServiceOptions)
        for name in ("max_calls", "max_requests", "max_requests_per_flow"):
            setattr(options, name, in_range(getattr(limits, name), 32, name))
        in_range(life or 0, 32, "life")
        super().__init__(node, params, links, routes, start, state)
        self.limits, self.life = limits, life or 0 if self._state is None else self._state.life
        self._kinds: dict[int, PortKind] = {}
        self._desk = _Desk()
        self._event = _c.sized(_c.Event)
        options.life = self.life
        self._open(at, options)

    def set_port(self, port: int, kind: PortKind) -> None:
        """Makes a port a caller's or a service's, until the node is closed. Do it before anything is sent from the port
        or arrives for it. Raises InvalidArgument if the port has a kind; OutOfMemory, and then nothing changed;
        Stopped."""
        status = library.dt_service_set_port(self._handle, in_range(port, 16, "port"), PortKind(kind))
        if status == Status.EXISTS:
            raise InvalidArgument(f"port {port} is a {self._kinds[port].name.lower()}'s until the node is closed")
        self._raise(status, is_usable=True)
        self._kinds[port] = kind
        self._guard_anew()

    @classmethod
    def _plain(cls) -> type[AnyNode]:
        return Service

    def _read_ports(self) -> Sequence[int]:
        return list(self._kinds)

    def call(self, flow: Flow, payload: bytes, timeout_ms: int, at: int | None = None, user: int = 0) -> int:
        """Makes a call that ends within `timeout_ms`, 1 to 4,294,967,295, and returns its number. Its end has the
        number and `user`, any number of 64 bits. Raises Declined, InvalidArgument or Stopped, and then nothing was
        sent. OutOfMemory: the call may have been made; if it was, `events` has its end. The node is stopped, unless
        there was no memory for `user`: then nothing changed."""
        octets = octets_of(payload)
        in_range(timeout_ms, 32, "timeout_ms")
        in_range(user, 64, "user")
        made = library.dt_service_call(
            self._handle, self._noted(at), flow_to_c(flow), octets, len(octets), timeout_ms, user
        )
        if made.status != Status.OK:
            raise _declined(self._raise, flow, made)
        return int(made.call)

    def reply(self, token: Token, payload: bytes, at: int | None = None) -> None:
        """Replies to a request, once. Raises Gone; Full: try again later (a reply needs 8 octets more than its
        payload); InvalidArgument if it is too long, and TypeError if it isn't bytes, and then the request stays open;
        Stopped. OutOfMemory: the node is stopped, and the reply may have been sent."""
        octets = octets_of(payload)
        it = library.dt_service_reply(self._handle, self._noted(at), _token(token), octets, len(octets))
        if it.status != Status.OK:
            _refuse_reply(self._raise, token, it)

    def forget(self, token: Token, at: int | None = None) -> None:
        """Closes a request without a reply: its caller becomes unsure. Raises Gone, OutOfMemory or Stopped."""
        status = library.dt_service_forget(self._handle, self._noted(at), _token(token))
        self._raise(status)
        if status == Status.GONE:
            raise _gone(token)

    def set_life(self, life: int) -> None:
        """Numbers calls from now on in another life, which this node number never had. Raises InvalidArgument if it is
        the present life, or that of a call that waits; Stopped."""
        status = library.dt_service_set_life(self._handle, in_range(life, 32, "life"))
        if status == Status.EXISTS:
            raise InvalidArgument(f"life is {life}, which is in use; choose one that this node never had", "life", life)
        self._raise(status)
        self.life = life

    def events(self) -> Iterator[Event]:
        """Returns requests, ends of calls and replies that were given up, in their order, each once, also after `stop`
        and after the node ran out of memory. A program that has `Calls` over the node's socket leaves this to them."""
        it = self._event
        while True:
            status = library.dt_service_next_event(self._handle, self._room, len(self._room), it)
            if status == Status.BUFFER_TOO_SMALL:
                self._room = ctypes.create_string_buffer(it.len)
            elif status != Status.OK:
                return
            else:
                yield self._taken(it)

    def _taken(self, it: _c.Event) -> Event:
        if it.kind == EventKind.UNSURE:
            return UnsureCall(it.call, Cause(it.cause), it.user)
        if it.kind == EventKind.REPLY_UNCERTAIN:
            return ReplyUncertain(flow_from_c(it.flow))
        octets = ctypes.string_at(self._room, it.len)
        if it.kind == EventKind.ANSWERED:
            return Answered(it.call, octets, it.user)
        return Request(Token(flow_from_c(it.flow), it.call), octets)

    def stop(self) -> None:
        """Stops the service: each call that waits becomes unsure, and requests are forgotten; `events` has what waits.
        Called again it does nothing."""
        library.dt_service_stop(self._handle)

    def call_counts(self) -> CallCounts:
        """Returns how many messages were dropped, by cause. Raises Stopped if the node is closed."""
        it = _c.sized(_c.CallCounts)
        self._raise(library.dt_service_get_call_counts(self._handle, it))
        return CallCounts(*(getattr(it, name) for name in CallCounts._fields))


def _invalid(what: str, invalid: int) -> InvalidArgument:
    reason = InvalidReason(invalid)
    return InvalidArgument(f"{what}: {_INVALID[reason]}", reason=reason)


def _declined(raises: Callable[[int], None], flow: Flow, made: _c.CallResult) -> InvalidArgument | Declined:
    """Returns why a call wasn't made. Raises it for a status that is for good, by `raises`."""
    if made.status == Status.INVALID:
        return _invalid(f"a call on {flow}", made.invalid)
    raises(made.status)
    return Declined(Status(made.status), made.quiet_until, made.free)


def _refuse_reply(raises: Callable[[int], None], token: Token, it: _c.ReplyResult) -> NoReturn:
    """Raises why a reply wasn't sent."""
    if it.status == Status.FULL:
        raise Full(it.free)
    if it.status == Status.INVALID:
        raise _invalid(f"a reply to call {token.call} on {token.flow}", it.invalid)
    raises(it.status)
    raise _gone(token)


def _gone(token: Token) -> Gone:
    return Gone(f"call {token.call} on {token.flow} has a reply, was forgotten, or is of an earlier life")


def _token(token: Token) -> _c.Token:
    return _c.Token(call=in_range(token.call, 64, "the number of a call"), flow=flow_to_c(token.flow))


def _ms(timeout: float) -> int:
    """Returns a timeout in seconds in ms, at least 1."""
    if not timeout < 4_294_967:
        raise InvalidArgument(f"timeout is {timeout} s; it must be below 4294967 s (timeout_ms of a Service is in ms)")
    ms = round(timeout * 1000)
    return ms if ms > 0 else 1


class _Line:
    """The requests that wait for those who serve a port. `wake` is called when one has arrived, or none will any
    more."""

    def __init__(self, wake: Callable[[], None]) -> None:
        self.requests: deque[Request] = deque()
        self.wake = wake


class _Ends(Protocol):
    """Who waits for the end of a call: a future of asyncio is one."""

    def done(self) -> bool:
        """Whether nobody waits any more."""

    def set_result(self, answer: bytes, /) -> None: ...

    def set_exception(self, why: DeltatError, /) -> None: ...


class _End:
    """The end of a call, for a plain program."""

    __slots__ = ("answer", "is_over", "why")

    def __init__(self) -> None:
        self.answer, self.is_over = b"", False
        self.why: DeltatError | None = None

    def done(self) -> bool:
        return self.is_over

    def set_result(self, answer: bytes) -> None:
        self.answer, self.is_over = answer, True

    def set_exception(self, why: DeltatError) -> None:
        self.why, self.is_over = why, True


_made = tuple.__new__
_ANSWERED, _REQUEST, _UNSURE = int(Kind.ANSWERED), int(Kind.REQUEST), int(Kind.UNSURE)
_UNCERTAIN, _TOO_BIG = int(Kind.REPLY_UNCERTAIN), int(Kind.TOO_BIG)


class _Desk:
    """Takes the events of a service: the end of each call goes to who waits for it, each request into the line of who
    serves its port. A node has one, however many `Calls` there are over its socket."""

    def __init__(self) -> None:
        # who waits for the end of each call, by the number that the call was given as its user
        self.ends: dict[int, _Ends] = {}
        self.users = itertools.count(_FIRST_USER)
        # the lines of ports that are served, the requests for other ports, and the lines that are waited for
        self.lines: weakref.WeakValueDictionary[int, _Line] = weakref.WeakValueDictionary()
        self.others: deque[Request] = deque()
        self.waiting: list[_Line] = []
        # the flows of requests of which a reply was given up: one entry a flow
        self.uncertain: set[Flow] = set()

    def opened(self, ports: Iterable[int], wake: Callable[[], None] = lambda: None) -> _Line:
        """Returns a line for these ports. The requests of a line that is dropped go to any. Raises InvalidArgument if
        another line has one of the ports."""
        line = _Line(wake)
        weakref.finalize(line, self.others.extend, line.requests)
        for port in ports:
            self.claim(port, line)
        return line

    def claim(self, port: int, line: _Line) -> None:
        """From now on requests for a port wait in this line, and those that arrived before. Raises InvalidArgument if
        another line has the port."""
        if self.lines.setdefault(in_range(port, 16, "port"), line) is not line:
            raise InvalidArgument(f"port {port} is served by other Calls over this socket; use these, or another port")
        others = list(self.others)
        self.others.clear()
        for it in others:
            (line.requests if it.token.flow.target_port == port else self.others).append(it)

    def next_request(self, line: _Line) -> Request | None:
        """Returns the first request that waits in a line, or else one for a port that nobody serves."""
        return line.requests.popleft() if line.requests else self.others.popleft() if self.others else None

    def begin(self, driven: Driver, end: _Ends, flow: Flow, payload: bytes, timeout: float) -> int:
        """Has a call made at the next turn, and returns its user. Raises InvalidArgument or TypeError."""
        octets, timeout_ms, user = octets_of(payload), _ms(timeout), next(self.users)
        while not driven.begin(flow, octets, timeout_ms, user):
            self.turn(driven, 0)
        self.ends[user] = end
        return user

    def turn(self, driven: Driver, wait_ms: int) -> None:
        """Has the driver take a turn, and passes on the events that it took. Raises OutOfMemory or Stopped, after
        that."""
        status = driven.turn(wait_ms)
        if driven.count:
            self._pass_on(driven)
        while driven.refused:
            self._refuse(driven, driven.refused)
            status = status or driven.turn()
            if driven.count:
                self._pass_on(driven)
        if status:
            driven.check(status)

    def _refuse(self, driven: Driver, refused: tuple[int, Flow, _c.CallResult]) -> None:
        """Ends a call that wasn't made."""
        user, flow, made = refused
        end = self.ends.pop(user, None)
        try:
            why: DeltatError = _declined(driven.check, flow, made)
        except DeltatError as for_good:
            why = for_good
        if end is not None and not end.done():
            end.set_exception(why)

    def _pass_on(self, driven: Driver) -> None:
        ends, (items, octets) = self.ends, driven.events()
        for call, at, size, source, target, source_port, target_port, kind, cause, user in items:
            if kind == _ANSWERED or kind == _UNSURE:
                end = ends.pop(user, None)
                if end is None or end.done():
                    continue
                if kind == _ANSWERED:
                    end.set_result(bytes(octets[at : at + size]))
                else:
                    end.set_exception(Unsure(Cause(cause)))
                continue
            flow = _made(Flow, (source, source_port, target, target_port))
            if kind == _REQUEST:
                self._ask(_made(Request, (_made(Token, (flow, call)), bytes(octets[at : at + size]))))
            elif kind == _UNCERTAIN:
                self.uncertain.add(flow)
            elif kind == _TOO_BIG:
                _log.warning("a datagram of %d octets to node %d doesn't fit the path; make seg smaller", size, target)

    def _ask(self, request: Request) -> None:
        """Puts a request into the line of its port."""
        line = self.lines.get(request.token.flow.target_port)
        if line is not None:
            line.requests.append(request)
            line.wake()
            return
        self.others.append(request)
        for waiting in self.waiting:
            waiting.wake()

    def close(self) -> None:
        """Ends each call that waits as unsure, and wakes all who wait for requests."""
        while self.ends:
            _, end = self.ends.popitem()
            if not end.done():
                end.set_exception(Unsure(Cause.STOPPED))
        for line in self.waiting:
            line.wake()


Serves = Callable[[Request], bytes | None]
ServesSometime = Callable[[Request], bytes | None | Awaitable[bytes | None]]


class Calls:
    """Calls and requests over a socket that drives a service, for one thread. Timeouts are in seconds.

    There may be several over one socket. Each call gets its own end. A request goes to those `Calls` that serve its
    port, by `ports` or by a function (`on`); one for a port that nobody named goes to any."""

    def __init__(self, udp: AnyUdp, ports: Iterable[int] = ()) -> None:
        """Raises InvalidArgument if the socket's node isn't a service, or other `Calls` serve a port."""
        self.udp = udp
        self._desk = _desk_of(udp)
        self._line = self._desk.opened(ports)
        self.uncertain: set[Flow] = self._desk.uncertain
        """The flows of requests of which a reply was given up, of all `Calls` over this socket. The program removes
        those that it has handled."""
        self._functions: dict[int, Serves] = {}

    @property
    def node(self) -> Service:
        """The service that the socket drives. Raises InvalidArgument if the driver opened it itself."""
        return _service_of(self.udp)

    def call(self, flow: Flow, payload: bytes, timeout: float = 5.0) -> bytes:
        """Makes a call, and returns its answer, within `timeout` seconds. Raises Unsure; Declined, InvalidArgument or
        Stopped if it wasn't made; OutOfMemory if the node ran out of memory in it: take the call as unsure."""
        end, udp, desk = _End(), self.udp, self._desk
        udp._enter()
        with udp._lock:
            user = desk.begin(udp._driven, end, flow, payload, timeout)
        try:
            while not end.is_over:
                udp._turn_for_events()
        except (OutOfMemory, Stopped):
            if not end.is_over:
                raise Unsure(Cause.STOPPED) from None
        finally:
            desk.ends.pop(user, None)
        if end.why:
            raise end.why
        return end.answer

    def requests(self, seconds: float | None = None) -> Iterator[Request]:
        """Returns the requests that arrive, until none did for this many seconds (None: until the socket is closed; 0:
        one look). Between two of them the node waits for the program: do work that takes long in `with
        udp.background()`."""
        udp = self.udp
        while True:
            end = None if seconds is None else time.monotonic() + seconds
            if udp.is_closed:
                udp._test()
                return
            looked = False
            while (request := self._desk.next_request(self._line)) is None:
                left = None if end is None else end - time.monotonic()
                if left is not None and left <= 0 and looked:
                    return
                looked = True
                try:
                    udp._turn(left)
                except Stopped as why:
                    if isinstance(why, Forked) or not udp.is_closed:
                        raise
                    return
            yield request
            # (many requests may wait, and each may take its time: the node's work is done between them)
            udp._flush(clock.now())

    def reply(self, token: Token, payload: bytes, seconds: float = 60.0) -> None:
        """Replies, as soon as there is room, within this many seconds. Raises Gone, Full or InvalidArgument; TypeError
        if it isn't bytes."""
        end, udp = time.monotonic() + seconds, self.udp
        udp._enter()
        while True:
            with udp._lock:
                try:
                    _reply(udp, token, payload)
                    return
                except Full:
                    if time.monotonic() >= end:
                        raise
                finally:
                    udp._flush(clock.now())
            udp._turn(0.05)

    def on(self, port: int) -> Callable[[Serves], Serves]:
        """Decorates the function that serves a port: it returns the reply. If it returns None or raises, or if what it
        returns is no reply (not bytes, or too long), the request is forgotten: its caller becomes unsure after its
        timeout. Raises InvalidArgument if other `Calls` over this socket serve the port."""

        def serves(function: Serves) -> Serves:
            self._desk.claim(port, self._line)
            self._functions[port] = function
            return function

        return serves

    def run(self, seconds: float | None = None) -> None:
        """Serves, until no request arrived for this many seconds (None: until the socket is closed). One function runs
        at a time, in this thread; if it takes long, another thread does what the node has due (`Udp.background`).
        Raises what a function raises, after its request is forgotten."""
        for request in self.requests(seconds):
            function = self._functions.get(request.token.flow.target_port)
            is_replied = False
            try:
                with self.udp.background():
                    reply = function(request) if function else None
                if reply is not None:
                    self.reply(request.token, reply)
                    is_replied = True
            finally:
                if not is_replied:
                    self._forget(request.token)

    def _forget(self, token: Token) -> None:
        """Forgets a request, if the node has it and isn't closed."""
        udp = self.udp
        with udp._lock, contextlib.suppress(Gone, Stopped):
            _forget(udp, token)
            udp._flush(clock.now())


# --- what both kinds of calls do: by the driver, which reads the clock


def _desk_of(udp: AnyUdp) -> _Desk:
    desk = udp._calls_desk()
    assert isinstance(desk, _Desk)
    return desk


def _service_of(udp: AnyUdp) -> Service:
    node = getattr(udp, "node", None)
    if not isinstance(node, Service):
        raise InvalidArgument(f"node {udp._number} isn't a deltat.Service of this program")
    return node


def _reply(udp: AnyUdp, token: Token, payload: bytes) -> None:
    """Replies. Raises what `Service.reply` raises."""
    replied = udp._driven.reply(*token, octets_of(payload))
    if replied.status:
        _refuse_reply(udp._driven.check, token, replied)


def _forget(udp: AnyUdp, token: Token) -> None:
    """Forgets a request. Raises what `Service.forget` raises."""
    status = udp._driven.forget(*token)
    if status == Status.GONE:
        raise _gone(token)
    udp._driven.check(status)


def _is_coroutine(function: ServesSometime) -> TypeGuard[Callable[[Request], Awaitable[bytes | None]]]:
    """Returns whether a call of it runs nothing before it is awaited."""
    return inspect.iscoroutinefunction(function) or inspect.iscoroutinefunction(getattr(function, "__call__", None))


class AsyncCalls:
    """As `Calls`, over `AsyncUdp`: many calls may wait at once, and many requests be served. Timeouts are in
    seconds."""

    def __init__(self, udp: AnyAsyncUdp, ports: Iterable[int] = (), workers: int = 1) -> None:
        """As `Calls`. `workers`: how many threads run the plain functions that serve ports."""
        self.udp = udp
        self._loop = udp._loop
        self._desk = _desk_of(udp.udp)
        self._came = asyncio.Event()
        self._line = self._desk.opened(ports, self._came.set)
        self.uncertain: set[Flow] = self._desk.uncertain
        """As that of `Calls`."""
        self._functions: dict[int, Callable[[Request], Awaitable[bytes | None]]] = {}
        self._tasks: set[asyncio.Task[None]] = set()
        # (its threads begin with the first plain function, and end when this is dropped)
        self._threads = ThreadPoolExecutor(workers, f"deltat node {udp.udp._number}")

    @property
    def node(self) -> Service:
        """As that of `Calls`."""
        return _service_of(self.udp.udp)

    async def call(self, flow: Flow, payload: bytes, timeout: float = 5.0) -> bytes:
        """Makes a call, and returns its answer, within `timeout` seconds. Raises Unsure; Declined, InvalidArgument or
        Stopped if it wasn't made; OutOfMemory if the node ran out of memory in it, or before: take the call as unsure.
        If the wait is cancelled the call continues, and its end is dropped."""
        udp = self.udp
        if udp._failure:
            udp._check()
        end: asyncio.Future[bytes] = self._loop.create_future()
        driven = udp.udp._driven
        self._desk.begin(driven, end, flow, payload, timeout)
        if time.monotonic() - driven.turned_at > LONGEST_AWAY:
            # (a loop that is busy must not keep what arrives waiting)
            udp._turn()
        else:
            udp._soon()
        return await end

    async def reply(self, token: Token, payload: bytes) -> None:
        """Replies, as soon as there is room. Raises Gone, InvalidArgument, OutOfMemory or Stopped; TypeError if it
        isn't bytes."""
        udp, flow = self.udp, token.flow
        is_first = flow.source not in udp._lines or flow.reversed() not in udp._lines[flow.source]
        if is_first and self._has_replied(token, payload):
            return
        await udp._when_room(flow.reversed(), lambda at: _reply(udp.udp, token, payload))

    def _has_replied(self, token: Token, payload: bytes) -> bool:
        """Replies if there is room. Returns whether there was."""
        udp = self.udp
        udp._check()
        try:
            _reply(udp.udp, token, payload)
        except Full:
            return False
        except OutOfMemory as why:
            udp._fail(why)
            raise
        finally:
            udp._soon()
        return True

    async def requests(self) -> AsyncIterator[Request]:
        """Returns the requests that arrive, until the socket is closed. Raises OutOfMemory."""
        self._desk.waiting.append(self._line)
        try:
            while not self.udp._failure:
                self._came.clear()
                while not self.udp._failure and (request := self._desk.next_request(self._line)):
                    yield request
                if not self.udp._failure:
                    await self._came.wait()
        finally:
            self._desk.waiting.remove(self._line)
        if not self.udp.udp.is_closed:
            self.udp._check()

    def on(self, port: int) -> Callable[[ServesSometime], ServesSometime]:
        """Decorates the coroutine that serves a port, as `Calls.on`, or a plain function, which runs in a thread (with
        one worker, one after another). Several coroutines may run at once. If one raises, or if what it returns is no
        reply (not bytes, or too long), the request is forgotten, `run` continues, and the logger `deltat` has a
        line."""

        def serves(function: ServesSometime) -> ServesSometime:
            self._desk.claim(port, self._line)
            self._functions[port] = self._awaited(function)
            return function

        return serves

    def _awaited(self, function: ServesSometime) -> Callable[[Request], Awaitable[bytes | None]]:
        """The function as a coroutine's."""
        if _is_coroutine(function):
            return function

        async def in_thread(request: Request) -> bytes | None:
            result = await self._loop.run_in_executor(self._threads, function, request)
            return await result if isinstance(result, Awaitable) else result

        return in_thread

    async def run(self) -> None:
        """Serves, until it is cancelled or the socket is closed."""
        async for request in self.requests():
            task = self._loop.create_task(self._serve(request))
            self._tasks.add(task)
            task.add_done_callback(self._tasks.discard)

    async def _serve(self, request: Request) -> None:
        token, is_replied = request.token, False
        try:
            function = self._functions.get(token.flow.target_port)
            reply = await function(request) if function else None
            if reply is not None:
                await self.reply(token, reply)
                is_replied = True
        except Exception:
            # (not if the node was closed while the function was at work)
            if not self.udp._failure:
                _log.exception(
                    "node %d: call %d on %s has no reply: it is forgotten, and its caller will be unsure",
                    self.udp.udp._number,
                    token.call,
                    token.flow,
                )
        finally:
            if not is_replied:
                self._forget(token)

    def _forget(self, token: Token) -> None:
        """Forgets a request, if the node has it and isn't closed."""
        with contextlib.suppress(Gone, Stopped, OutOfMemory):
            self.udp._does(lambda at: _forget(self.udp.udp, token))
            self.udp._soon()
