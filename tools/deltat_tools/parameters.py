"""The parameters of a network, what follows from them, and which of them suit which delays. All times are
milliseconds. The time bounds are those of docs/protocol.md (crates/dt_units/specs/Times.antt), the ranges
those of docs/formats.md; what a charge has to cover is told in docs/premises.md."""
import math
from dataclasses import dataclass
from typing import Iterator, Sequence

# a packet that hasn't left its machine so long after its turn's reading is lost
SENDING_WAIT = 20
# a datagram that may have waited so long in the socket of its machine is dropped
SOCKET_WAIT = 20
# clocks tell whole milliseconds: what is lost by that at either end, and one more
CLOCK_STEPS = 3
# a packet has at most this many octets of headers: IPv4 and UDP, the Deltagram, and the packet
HEADERS = 28 + 16 + 14
MOST_SEGMENT = 8_192
MOST_ROOM = 65_536
MOST_SEGMENTS = 64
MOST_QUANTUM = 2**29
DAY = 86_400_000
RANGES = {
    "mpl": (2, DAY),
    "r": (1, DAY),
    "a": (1, DAY),
    "rto": (1, DAY),
    "probe": (1, DAY),
    "seg": (1, MOST_SEGMENT),
    "cap": (1, MOST_ROOM),
    "rcap": (1, MOST_ROOM),
    "window": (1, MOST_ROOM),
    "run_limit": (1, 2**31),
}


@dataclass(frozen=True)
class Params:
    """The numbers of a `params` line."""

    mpl: int
    r: int
    a: int
    rto: int
    probe: int
    seg: int
    cap: int
    rcap: int
    window: int
    run_limit: int
    start: int = 0

    @property
    def receive(self) -> int:
        """How long a receive record is kept after its last acceptance."""
        return self.mpl + self.r + self.a

    @property
    def give(self) -> int:
        """How long after its first transmission a segment is given up."""
        return 2 * self.mpl + self.r + self.a

    @property
    def send(self) -> int:
        """How long a send record is kept after its last transmission."""
        return 3 * self.mpl + self.r + self.a

    @property
    def quiet(self) -> int:
        """How long a node is silent that was started again."""
        return self.send

    @property
    def spacing(self) -> int:
        """How long a flow waits from one quantum of its octets to the next."""
        return 3 * self.mpl + 2 * self.r + self.a

    @property
    def quantum(self) -> int:
        """How many octets a flow may send each `spacing`."""
        return min(self.run_limit, MOST_QUANTUM)

    def line(self) -> str:
        """The line of a script or a schedule."""
        numbers = [getattr(self, name) for name in RANGES] + ([self.start] if self.start else [])
        return "params " + " ".join(map(str, numbers))

    def out_of_range(self) -> tuple[str, int] | None:
        """The first number that is out of its range, as the program has it."""
        for name, (least, most) in RANGES.items():
            value = getattr(self, name)
            if not least <= value <= most or name == "probe" and value >= self.send:
                return name, value
        return None


def drift_cost(drift: float, spacing: int) -> int:
    """What two clocks differ by, each wrong by at most `drift` parts in a million, over the longest span
    that is compared."""
    return math.ceil(2 * drift * spacing / 1_000_000)


def machine_charge(drift: float, spacing: int) -> int:
    """The part of a charge that isn't the network's: the two machines, whole milliseconds, and drift."""
    return SENDING_WAIT + SOCKET_WAIT + CLOCK_STEPS + drift_cost(drift, spacing)


def machine_parts(drift: float, spacing: int) -> str:
    """The same in its parts, for people."""
    return (
        f"{SENDING_WAIT} ms in the sending machine, {SOCKET_WAIT} in the socket, {CLOCK_STEPS} of whole milliseconds,"
        f" {drift_cost(drift, spacing)} of drift"
    )


def life_used(charges: Sequence[int], waits: Sequence[int]) -> int:
    """What a packet's life falls by on a path: the charge of each link, and for each station that it
    leaves what it waited there and one millisecond more."""
    return sum(charges) + sum(wait + 1 for wait in waits)


@dataclass(frozen=True)
class Hop:
    """A link of a path."""

    # the longest that a packet may be under way on it
    delay: float
    # the longest that a packet may wait for its turn at the station that it leaves
    wait: int
    # parts in a million by which a clock at its ends may be wrong
    drift: float


@dataclass(frozen=True)
class Wishes:
    """What is wanted of a network beside its delays."""

    # a usual round trip, in ms
    round_trip: float
    # how often a segment goes out before it is given up
    tries: int = 5
    # the least MTU of its links
    mtu: int = 1_500
    # the octets that a flow may have under way, and unread
    room: int = MOST_ROOM
    # how often a lost packet may go again while those behind it lie on a shelf
    shelved: int = 0


class Unsuited(Exception):
    """There are no parameters for such a network."""


def suited(paths: Sequence[Sequence[Hop]], wishes: Wishes) -> Params:
    """Parameters under which a packet lives long enough for each of the paths."""
    a = max(1, math.ceil(wishes.round_trip / 10))
    rto = max(2, math.ceil(1.5 * wishes.round_trip) + 2 * a + 5)
    r = rto * wishes.tries
    seg = min(MOST_SEGMENT, wishes.mtu - HEADERS, wishes.room)
    if seg < 1:
        raise Unsuited(f"the MTU is {wishes.mtu} octets; it must be more than {HEADERS}, which headers take")
    mpl = 2
    while mpl <= DAY:
        params = Params(mpl, r, a, rto, 1, seg, wishes.room, wishes.room, wishes.room, 2**31)
        most = max((path_life(path, params) for path in paths), default=0) + wishes.shelved * rto
        if most <= mpl:
            probe = min(2 * rto, params.send - 1)
            chosen = Params(mpl, r, a, rto, probe, seg, wishes.room, wishes.room, wishes.room, 2**31)
            wrong = chosen.out_of_range()
            if wrong:
                raise Unsuited(f"{wrong[0]} would be {wrong[1]}, which is out of range; docs/formats.md has the ranges")
            return chosen
        mpl = most
    raise Unsuited("a packet would live for more than a day; delays must be shorter, or hops fewer")


def link_charge(hop: Hop, params: Params) -> int:
    """The charge of a link."""
    return math.ceil(hop.delay) + machine_charge(hop.drift, params.spacing)


def path_life(path: Sequence[Hop], params: Params) -> int:
    """The life that a packet needs for a path, and five milliseconds that are left of it."""
    return life_used([link_charge(hop, params) for hop in path], [hop.wait for hop in path]) + 5


@dataclass(frozen=True)
class Ceiling:
    """The most octets a second of a flow, and by what."""

    rate: float
    by: str


def ceilings(params: Params, receiver: Params, round_trip: float, pace: int = 0) -> Iterator[Ceiling]:
    """What bounds the octets a second of a flow from a node of some parameters to one of others."""
    seconds = max(round_trip, 0.001) / 1000
    yield Ceiling(min(params.cap, receiver.rcap) / seconds, "its room each round trip")
    yield Ceiling(MOST_SEGMENTS * params.seg / seconds, "64 segments each round trip")
    yield Ceiling(
        params.quantum / (params.spacing / 1000), f"{params.quantum} octets each spacing of {params.spacing} ms"
    )
    if pace:
        yield Ceiling(params.seg * 1000 / pace, f"a segment each {pace} ms, the pace of a link")


def least_ceiling(params: Params, receiver: Params, round_trip: float, pace: int = 0) -> Ceiling:
    """The least of them."""
    return min(ceilings(params, receiver, round_trip, pace), key=lambda it: it.rate)


def rate_text(rate: float) -> str:
    """So many octets a second, for people."""
    for unit, size in (("GB/s", 1e9), ("MB/s", 1e6), ("KB/s", 1e3)):
        if rate >= size:
            return f"{rate / size:.3g} {unit}"
    return f"{rate:.3g} octets/s"


def sender_memory(params: Params) -> int:
    """About how many octets of memory a flow takes at its sender: four for each octet that it may hold,
    and 24 for each of 64 segments."""
    return 4 * params.cap + 24 * 64


def receiver_memory(params: Params) -> int:
    """About how many octets of memory a flow takes at its receiver."""
    return 4 * params.rcap
