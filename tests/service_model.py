"""Calls between nodes that see nobody's ledger but their own: the definitions of a caller and a service over a station,
as plainly as they can be written. `tests/service.py` holds the theorems against them, and they judge whatever makes
such calls.

A `Node` has the two halves, caller and service, over a `Station`, which is whatever sends, reads and tells what it did:
that of the library in simulated time, a script of reports, or an adversary. Moments are milliseconds. What is asked is
answered by a tuple that begins with a word, and what a turn tells is a list of such tuples:

    ("made", number)    ("declined", "numbers" | "many" | "quiet" | "full"[, until or free])    ("refused",)
    ("done",)    ("gone",)    ("full", free)
    ("request", Token, payload)    ("answered", number, payload)    ("unsure", number, "given up" | "patience" |
    "closed") ("doubtful", Flow), of a reply that was given up: the flow of its request

`judged(node, events)` is the judge: the list of what each event of a list told.

In tests/all: not a test."""
from collections import Counter, deque
from collections.abc import Iterable, Sequence
from dataclasses import dataclass
from typing import NamedTuple, Protocol

MOST = 65_536
MOST_PATIENCE = MOST_COUNT = 1 << 32
CALLER, SERVICE = "caller", "service"

Told = tuple[object, ...]


class Flow(NamedTuple):
    """From a port of a node to a port of another."""

    source: int
    source_port: int
    target: int
    target_port: int

    def reversed(self) -> "Flow":
        return Flow(self.target, self.target_port, self.source, self.source_port)


class Token(NamedTuple):
    """The name of a request: its flow, and the number of its call."""

    flow: Flow
    number: int


class Report(NamedTuple):
    """What a station told: `took`, `settled`, `uncertain` and `accepted` octets of a flow, or that its receive record
    was `released`. Other words say nothing here."""

    word: str
    flow: Flow
    count: int = 0


class Piece(NamedTuple):
    """Octets that were read, all of one message."""

    octets: bytes
    begin: bool
    end: bool
    run: bool


class Station(Protocol):
    cap: int
    """What a flow may hold, in octets."""

    def send(self, at: int, flow: Flow, octets: bytes) -> Told:
        """("taken",), ("quiet", until) or ("full", free)."""

    def read(self, at: int, flow: Flow) -> Piece | None: ...

    def arrive(self, at: int, came: object) -> None: ...

    def tick(self, at: int) -> None: ...

    def reports(self) -> list[Report]:
        """What was told since this was asked last, in its order."""

    @property
    def wake(self) -> int | None: ...


@dataclass(frozen=True)
class Limits:
    """How many calls may wait or have ends that nobody took; how many requests may be open, and how many untaken; and
    how many of one flow may be open."""

    most_waiting: int = 1_000
    most_open: int = 1_000
    most_each: int = 1_000


@dataclass(frozen=True)
class Waiting:
    flow: Flow
    deadline: int


@dataclass
class Posted:
    """A message that was taken, and how many of its octets have no fate yet."""

    number: int
    left: int


def number_of(life: int, count: int) -> int:
    return life << 32 | count


def life_of(number: int) -> int:
    return number >> 32


def count_of(number: int) -> int:
    return number & 0xFFFF_FFFF


def message_of(number: int, carried: bytes) -> bytes:
    return number.to_bytes(8, "big") + carried


class Node:
    """A node's two halves. Nothing of it outlives it: a node that starts again is a new one, over a new station."""

    def __init__(self, me: int, life: int, station: Station, limits: Limits = Limits(), at: int = 0) -> None:
        self.me, self.life, self.count, self.station, self.limits, self.now = me, life, 0, station, limits, at
        self.kinds: dict[int, str] = {}
        self.waiting: dict[int, Waiting] = {}
        self.posted: dict[Flow, deque[Posted]] = {}
        self.open: dict[Token, None] = {}
        self.begun: dict[Flow, bytes] = {}
        self.unread: dict[Flow, None] = {}
        self.records: set[Flow] = set()
        self.counts: Counter[str] = Counter()
        self.queue: deque[Told] = deque()
        """What was told and nobody took yet."""
        self.told: list[Told] = []
        """What the last event told."""

    # --- what is asked

    def port(self, port: int, kind: str) -> Told:
        """Gives a port its kind, for good."""
        if port in self.kinds:
            return ("refused",)
        self.kinds[port] = kind
        return ("done",)

    def call(self, at: int, flow: Flow, payload: bytes, patience: int) -> Told:
        self._begin(at)
        fits = 8 + len(payload) <= self._room() and 1 <= patience < MOST_PATIENCE
        if flow.source != self.me or flow.target == self.me or self.kinds.get(flow.source_port) != CALLER or not fits:
            return ("refused",)
        if self.count == MOST_COUNT:
            return ("declined", "numbers")
        if len(self.waiting) + sum(it[0] in ("answered", "unsure") for it in self.queue) >= self.limits.most_waiting:
            return ("declined", "many")
        number = number_of(self.life, self.count)
        sent = self.station.send(self.now, flow, message_of(number, payload))
        if sent[0] != "taken":
            self._end()
            return ("declined", *sent)
        self.posted.setdefault(flow, deque()).append(Posted(number, 8 + len(payload)))
        self.waiting[number] = Waiting(flow, self.now + patience)
        self.count += 1
        self._end()
        return ("made", number)

    def reply(self, at: int, token: Token, payload: bytes) -> Told:
        self._begin(at)
        if 8 + len(payload) > self._room():
            return ("refused",)
        if token not in self.open:
            return ("gone",)
        sent = self.station.send(self.now, token.flow.reversed(), message_of(token.number, payload))
        if sent[0] == "taken":
            del self.open[token]
        self._end()
        return ("done",) if sent[0] == "taken" else sent

    def forget(self, at: int, token: Token) -> Told:
        self._begin(at)
        if token not in self.open:
            return ("gone",)
        del self.open[token]
        self._end()
        return ("done",)

    def raise_life(self, life: int) -> Told:
        self._begin(self.now)
        if life == self.life or any(life_of(it) == life for it in self.waiting):
            return ("refused",)
        self.life, self.count = life, 0
        return ("done",)

    def arrive(self, at: int, came: object) -> None:
        self._begin(at)
        self.station.arrive(self.now, came)
        self._end()

    def tick(self, at: int) -> None:
        self._begin(at)
        self.station.tick(self.now)
        self._end()

    def close(self, at: int) -> None:
        """Ends all that waits. The node is used no more, but for what it told."""
        self._begin(at)
        for number in list(self.waiting):
            self._finish(("unsure", number, "closed"))
        self.open, self.begun, self.unread, self.posted = {}, {}, {}, {}

    def take(self) -> Told | None:
        """The next of what was told, or None. This is no turn."""
        return self.queue.popleft() if self.queue else None

    @property
    def wake(self) -> int | None:
        moments = [it.deadline for it in self.waiting.values()]
        if self.station.wake is not None:
            moments.append(self.station.wake)
        return min(moments, default=None)

    # --- a turn

    def _begin(self, at: int) -> None:
        self.now, self.told = max(self.now, at), []

    def _end(self) -> None:
        """The end of a turn: what the station told is heard, replies and requests are read, and then it is judged who
        waits no longer."""
        doubted = self._hear()
        for flow in list(self.unread):
            while self._may_read(flow):
                piece = self.station.read(self.now, flow)
                doubted |= self._hear()
                if piece is None:
                    del self.unread[flow]
                    break
                self._join(flow, piece)
        # a station keeps a receiver as long as it has a record or unread octets
        for flow in [it for it in self.begun if it not in self.records and it not in self.unread]:
            self._cut(flow)
        self._judge(doubted)

    def _hear(self) -> set[int]:
        """Hears what the station told. The numbers of which an octet was given up."""
        doubted: set[int] = set()
        for word, flow, count in self.station.reports():
            if word == "settled":
                self._count_off(flow, count)
            elif word == "uncertain":
                doubted |= self._count_off(flow, count)
                self._doubt_reply(flow)
            elif word == "accepted":
                self.records.add(flow)
                if flow.target_port in self.kinds:
                    self.unread[flow] = None
            elif word == "released":
                self.records.discard(flow)
        return doubted

    def _doubt_reply(self, flow: Flow) -> None:
        """Octets of a flow were given up. Where they are replies, the flow of their requests is told, and not again
        before that was taken."""
        told = ("doubtful", flow.reversed())
        if self.kinds.get(flow.source_port) == SERVICE and told not in self.queue:
            self._tell(told)

    def _count_off(self, flow: Flow, count: int) -> set[int]:
        """Takes the leftmost octets off that have no fate yet, and tells whose they are."""
        posted, numbers = self.posted.get(flow, deque()), set()
        while count and posted:
            first = posted[0]
            taken = min(count, first.left)
            first.left -= taken
            count -= taken
            numbers.add(first.number)
            if not first.left:
                posted.popleft()
        return numbers

    def _judge(self, doubted: set[int]) -> None:
        for number, it in list(self.waiting.items()):
            if number in doubted:
                self._finish(("unsure", number, "given up"))
            elif it.deadline <= self.now:
                self._finish(("unsure", number, "patience"))

    def _finish(self, end: Told) -> None:
        """A call has ended: a final state stays."""
        del self.waiting[end[1]]
        self._tell(end)

    def _tell(self, it: Told) -> None:
        self.told.append(it)
        self.queue.append(it)

    def _room(self) -> int:
        return min(MOST, self.station.cap)

    def _may_read(self, flow: Flow) -> bool:
        """Whether a flow may be read: a caller's always, and a service's while there is room for one request more."""
        if self.kinds[flow.target_port] == CALLER:
            return True
        kept, untaken = self.open.keys(), sum(it[0] == "request" for it in self.queue)
        has_place = len(kept) < self.limits.most_open and untaken < self.limits.most_open
        return has_place and sum(it.flow == flow for it in kept) < self.limits.most_each

    # --- messages

    def _cut(self, flow: Flow) -> None:
        if self.begun.pop(flow, None) is not None:
            self.counts["cut"] += 1

    def _join(self, flow: Flow, piece: Piece) -> None:
        """Joins a piece to what was begun: a begin mark begins anew, and at a run mark what stood before is dropped."""
        if piece.begin or piece.run:
            self._cut(flow)
        before = b"" if piece.begin else self.begun.pop(flow, None)
        if before is None:
            return
        octets = before + piece.octets
        if len(octets) > MOST:
            self.counts["long"] += 1
        elif not piece.end:
            self.begun[flow] = octets
        elif len(octets) < 8:
            self.counts["short"] += 1
        else:
            self._come(flow, int.from_bytes(octets[:8], "big"), octets[8:])

    def _come(self, flow: Flow, number: int, carried: bytes) -> None:
        """A whole message came."""
        if self.kinds[flow.target_port] == SERVICE:
            self._hand_out(flow, number, carried)
        elif number in self.waiting and self.waiting[number].flow == flow.reversed():
            self._finish(("answered", number, carried))
        elif life_of(number) != self.life:
            self.counts["old"] += 1
        elif count_of(number) < self.count and number not in self.waiting:
            self.counts["late"] += 1
        else:
            self.counts["strange"] += 1

    def _hand_out(self, flow: Flow, number: int, payload: bytes) -> None:
        token = Token(flow, number)
        if token in self.open:
            del self.open[token]
            self.counts["reused"] += 1
            return
        self.open[token] = None
        self._tell(("request", token, payload))


def judged(node: Node, events: Iterable[Sequence[object]], keeps: bool = False) -> list[list[Told]]:
    """What each event told: the status of what was asked, where it has one, and then the requests and ends of its turn,
    in order. An event is the name of a method of `Node` and its words: ("call", at, flow, payload, patience),
    ("reply", at, token, payload), ("forget", at, token), ("raise_life", life), ("port", port, kind), ("arrive", at,
    came), ("tick", at), ("close", at), ("take",). What was told is taken behind each event, but where `keeps` leaves
    that to the events."""
    log = []
    for name, *words in events:
        status = getattr(node, name)(*words)
        log.append([*([status] if status else []), *(node.told if name not in ("take", "port") else [])])
        if not keeps:
            node.queue.clear()
    return log
