"""What nodes take and return: plain values without a node."""

from __future__ import annotations

import ctypes
import functools
from dataclasses import astuple, dataclass
from typing import NamedTuple

from . import _c
from ._c import ReportKind, Status
from ._library import library
from .errors import InvalidArgument


@dataclass(frozen=True)
class Network:
    """What is known of a network and wanted of it, for `Params.for_network`: the longest delay of a link with all
    queues, under load, and a usual round trip from end to end, both in microseconds and at most a day; the links of
    the longest path, 1 to 256; by how much a clock may run wrong, in parts per million, at most 100,000; transmissions
    of a segment before it is given up, 1 to 1,000; the least MTU of the links, 59 to 65,535 octets; octets of a flow
    under way or unread, 1 to 65,536; the longest wait of a packet at a node before it leaves, in ms, at most a day; and
    resends while others wait on the shelf of a `deltat node`, at most 1,000."""

    delay_us: int
    round_trip_us: int
    hops: int = 1
    drift_ppm: int = 100
    tries: int = 5
    mtu: int = 1500
    room: int = 65_536
    wait_ms: int = 2
    shelf: int = 0


@dataclass(frozen=True)
class Params:
    """The parameters of a network, equal at all of its nodes: times in ms, sizes in octets. `Params.for_network`
    computes them, and docs/parameters.md says what the numbers cost."""

    mpl: int
    r: int
    a: int
    rto: int
    probe: int
    seg: int
    cap: int
    rcap: int
    window: int
    run_limit: int = 2_147_483_648
    start: int = 0

    @classmethod
    def for_network(cls, network: Network) -> tuple[Params, int]:
        """Computes the parameters for a network and the charge of each of its links, as tools/params.py does. A node
        that is driven by `Udp` or `AsyncUdp` may have a charge of 20 less. Raises InvalidArgument if a field is out of
        range, or if no parameters suit: a packet would live for more than a day."""
        known, params, charge = _c.sized(_c.Network), _c.sized(_c.Params), ctypes.c_uint32()
        for name, kind in _c.Network._fields_[1:]:
            setattr(known, name, in_range(getattr(network, name), 8 * ctypes.sizeof(kind), name))
        status = library.dt_params_for(known, params, charge)
        if status == Status.INVALID:
            raise InvalidArgument(f"{network} has a field that is out of range; see the ranges of deltat.Network")
        if status != Status.OK:
            raise InvalidArgument(f"no parameters suit {network}: a packet would live for more than a day")
        return cls(*(getattr(params, name) for name in PARAMETERS)), charge.value

    @property
    def quiet_ms(self) -> int:
        """How long a node that starts with `Start.AGAIN` is silent, in ms: 3 mpl + r + a."""
        return 3 * self.mpl + self.r + self.a

    @property
    def fingerprint(self) -> int:
        """A number of 64 bits by which two programs compare their parameters: equal ones have equal numbers. That
        different ones have different numbers isn't proved. Raises InvalidArgument if a parameter is out of range."""
        value = ctypes.c_uint64()
        if library.dt_params_fingerprint(params_of(self), value) != Status.OK:
            raise InvalidArgument("a parameter is out of range; include/deltat.h has the ranges")
        return value.value


PARAMETERS = [name for name, *_ in _c.Params._fields_][1:]


class Flow(NamedTuple):
    """A one-way stream of octets from a port of one node to a port of another. Written `1:10>2:20`."""

    source: int
    source_port: int
    target: int
    target_port: int

    @classmethod
    def parse(cls, text: str) -> Flow:
        """Returns the flow that is written so. Raises ValueError for any other text."""
        ends = [end.split(":") for end in text.split(">")]
        if len(ends) != 2 or any(len(end) != 2 or not all(word.isdecimal() for word in end) for end in ends):
            raise ValueError(f"{text!r} isn't a flow; write NODE:PORT>NODE:PORT")
        return cls(*(int(word) for end in ends for word in end))

    def reversed(self) -> Flow:
        """Returns the flow on the way back."""
        return Flow(self.target, self.target_port, self.source, self.source_port)

    def __str__(self) -> str:
        return f"{self.source}:{self.source_port}>{self.target}:{self.target_port}"


class Link(NamedTuple):
    """A link of a node, in both directions. No datagram is under way on it for longer than `charge` ms; from one
    datagram that leaves to the next are at least `pace` ms."""

    number: int
    charge: int
    pace: int = 0


class Datagram(NamedTuple):
    """A datagram to put on the wire: its link, the node that it is for, and its octets."""

    link: int
    to: int
    octets: bytes


class Piece(NamedTuple):
    """Octets that were read. `begin`, `end`: a message begins with the first octet, ends with the last. `gap`: octets
    of the flow before these may be missing."""

    octets: bytes
    begin: bool
    end: bool
    gap: bool


class Message(NamedTuple):
    """A whole message of a flow. `gap`: octets of the flow before this message are left out, or may be."""

    flow: Flow
    octets: bytes
    gap: bool


class BlockedCounts(NamedTuple):
    """How many datagrams the guard blocked: for ports that aren't open, and of flows too many."""

    closed_port: int
    too_many_flows: int


class NodeCounts(NamedTuple):
    """Counters of a node since it was opened, without what its guard blocked. Datagrams that were handled, that were
    refused, and that left. Octets of all flows: queued by sends, acknowledged of these, given up of these; accepted,
    and read of these."""

    datagrams_in: int
    datagrams_refused: int
    datagrams_out: int
    octets_queued: int
    octets_acknowledged: int
    octets_uncertain: int
    octets_accepted: int
    octets_read: int


class FlowCounts(NamedTuple):
    """Counters of one flow since `count_flow`: octets that were queued by sends, acknowledged of these, given up of
    these; accepted, and read of these."""

    octets_queued: int
    octets_acknowledged: int
    octets_uncertain: int
    octets_accepted: int
    octets_read: int


class Report(NamedTuple):
    """What a node did or met. include/deltat.h says which fields each kind sets; others are 0 or False. UNCERTAIN says
    that `count` octets of the flow were given up, and ACKNOWLEDGED that `count` octets reached the other node."""

    kind: ReportKind
    flow: Flow
    time: int
    number: int
    count: int  # type: ignore[assignment]
    window: int
    begin: bool
    end: bool
    run: bool
    sending: bool

    def line(self, now: int, node: int) -> str:
        """Returns the line that the logs of `deltat node` have for this report of node `node` at `now`. That of READ
        ends in a blank: a log has the octets that were read after it, in hexadecimal."""
        it = _c.sized(_c.Report)
        it.flow = flow_to_c(self.flow)
        for name in Report._fields:
            if name != "flow":
                setattr(it, name, getattr(self, name))
        room = ctypes.create_string_buffer(_c.MAX_REPORT_LINE)
        size = library.dt_report_line(it, in_range(now, 64, "now"), in_range(node, 32, "node"), room, len(room))
        return room.raw[:size].decode()


# --- to the library, and from it


def in_range(value: int, bits: int, what: str) -> int:
    """Returns a number that fits into this many bits. (ctypes cuts others without an error.) Raises InvalidArgument."""
    if not 0 <= value < 1 << bits:
        raise InvalidArgument(f"{what} is {value}; it must be from 0 to {(1 << bits) - 1}", what, value)
    return value


def octets_of(given: bytes) -> bytes:
    """Returns the octets of bytes, or of an object like them. Raises TypeError for all else, numbers and texts too."""
    return given if type(given) is bytes else bytes(memoryview(given))


def params_of(params: Params) -> _c.Params:
    it = _c.sized(_c.Params)
    for name, value in zip(PARAMETERS, astuple(params)):
        setattr(it, name, in_range(value, 32, name))
    return it


@functools.lru_cache(maxsize=4096)
def flow_to_c(flow: Flow) -> _c.Flow:
    for name, value, bits in zip(Flow._fields, flow, (32, 16, 32, 16)):
        in_range(value, bits, f"{name} of the flow {flow}")
    return _c.Flow(source=flow.source, target=flow.target, source_port=flow.source_port, target_port=flow.target_port)


def flow_from_c(it: _c.Flow) -> Flow:
    return Flow(it.source, it.source_port, it.target, it.target_port)


def report_from_c(it: _c.Report) -> Report:
    return Report(
        ReportKind(it.kind),
        flow_from_c(it.flow),
        it.time,
        it.number,
        it.count,
        it.window,
        it.begin,
        it.end,
        it.run,
        it.sending,
    )
