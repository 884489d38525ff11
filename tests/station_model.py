"""A station of the definitions (docs/protocol.md), as plainly as it can be written, for tests that want reports and
times of stations where the library isn't built. Sends are whole messages, its links have no pace, and it relays
nothing. Offsets are numbers, and don't go round.

In tests/all: not a test."""
from collections import deque
from dataclasses import dataclass, field
from typing import NamedTuple

from lib.parameters import Params
from service_model import Flow, Piece, Report

OUTSTANDING = 64


class Frame(NamedTuple):
    """A packet of a flow; an acknowledgement goes back. `run` is the data-run flag."""

    kind: str
    flow: Flow
    life: int
    number: int
    octets: bytes = b""
    begin: bool = False
    end: bool = False
    run: bool = False
    window: int = 0


class Line(NamedTuple):
    """What a station tells: a word, a flow, and what the word has."""

    word: str
    flow: Flow
    number: int = 0
    count: int = 0
    window: int = 0
    begin: bool = False
    end: bool = False
    run: bool = False


@dataclass
class Segment:
    offset: int
    octets: bytes
    begin: bool
    end: bool
    first: int
    last: int

    @property
    def behind(self) -> int:
        return self.offset + len(self.octets)


@dataclass
class Sender:
    flow: Flow
    edge: int
    touched: int
    left: int = 0
    outstanding: list[Segment] = field(default_factory=list)
    waiting: deque[tuple[bytes, bool, bool]] = field(default_factory=deque)

    def next(self) -> int:
        return self.outstanding[-1].behind if self.outstanding else self.left

    def held(self) -> int:
        return sum(len(it.octets) for it in self.outstanding) + sum(len(it[0]) for it in self.waiting)

    def offers(self, p: Params, now: int) -> list[tuple[int, int, object]]:
        """Its acts in the order of their kinds: the class, the moment from when on it is due, and a segment."""
        found: list[tuple[int, int, object]] = []
        if self.outstanding:
            found.append((1, self.outstanding[0].first + p.give, None))
        else:
            found.append((2, self.touched + p.send, None))
        again = [it for it in self.outstanding if max(now, it.last + p.rto) < it.first + p.r]
        if again:
            it = min(again, key=lambda it: it.last)
            found.append((5, it.last + p.rto, it))
        if self.waiting and self.next() < self.edge and len(self.outstanding) < OUTSTANDING:
            found.append((6, 0, None))
        if self.waiting and not self.outstanding and self.next() >= self.edge:
            found.append((7, self.touched + p.probe, None))
        return found


@dataclass
class Receiver:
    flow: Flow
    unread: deque[Piece] = field(default_factory=deque)
    has_record: bool = False
    expected: int = 0
    touched: int = 0
    due: int | None = None
    told: int = 0

    def offers(self, p: Params, now: int) -> list[tuple[int, int, object]]:
        found: list[tuple[int, int, object]] = []
        if self.has_record:
            found.append((3, self.touched + p.receive, None))
            if self.due is not None:
                found.append((4, self.due, None))
        return found

    def free(self, p: Params) -> int:
        return p.rcap - sum(len(it.octets) for it in self.unread)


class Station:
    """A station. `arrive` takes the charge of the link, and a frame."""

    def __init__(self, me: int, params: Params, at: int, is_again: bool) -> None:
        self.me, self.params, self.cap = me, params, params.cap
        self.until = at + params.send if is_again else 0
        self.senders: dict[Flow, Sender] = {}
        self.receivers: dict[Flow, Receiver] = {}
        self.log: list[Line] = []
        self.heard, self.now = 0, at
        # the frames that left, each with the line that was told as it was made
        self.frames: list[tuple[Line, Frame]] = []

    # --- what a node asks of it

    def reports(self) -> list[Report]:
        """What was told since this was asked last."""
        new, self.heard = self.log[self.heard :], len(self.log)
        return [Report("released" if it.word == "released receive" else it.word, it.flow, it.count) for it in new]

    def forget(self) -> None:
        """Forgets what it told and what left."""
        self.log, self.frames, self.heard = [], [], 0

    def send(self, at: int, flow: Flow, octets: bytes) -> tuple[object, ...]:
        self._settle(at)
        sender = self.senders.get(flow) or Sender(flow, self.params.window, at)
        free = self.cap - sender.held()
        if at < self.until:
            return "quiet", self.until
        if len(octets) > free:
            self._settle(at)
            return "full", free
        self.senders[flow] = sender
        sender.waiting.append((octets, True, True))
        self.log.append(Line("took", flow, count=len(octets)))
        self._settle(at)
        return ("taken",)

    def read(self, at: int, flow: Flow) -> Piece | None:
        self._settle(at)
        receiver = self.receivers.get(flow)
        if receiver is None or not receiver.unread:
            return None
        least, before = min(self.params.seg, self.params.rcap), receiver.free(self.params)
        piece = receiver.unread.popleft()
        while not piece.end and receiver.unread and not receiver.unread[0].begin and not receiver.unread[0].run:
            more = receiver.unread.popleft()
            piece = Piece(piece.octets + more.octets, piece.begin, more.end, piece.run)
        if receiver.has_record and before < least <= receiver.free(self.params) and receiver.told < least:
            receiver.due = at
        self._drop_idle(receiver)
        self._settle(at)
        return piece

    def arrive(self, at: int, came: object) -> None:
        charge, frame = came
        self._settle(at)
        if frame.life > charge and at >= self.until:
            if frame.kind == "ack":
                self._acknowledged(frame)
            else:
                self._data(at, frame)
        self._settle(at)

    def tick(self, at: int) -> None:
        self._settle(at)

    @property
    def wake(self) -> int | None:
        moments = [due for it in self._records() for _, due, _ in it.offers(self.params, self.now)]
        return min(moments, default=None)

    # --- its acts

    def _records(self) -> "list[Sender | Receiver]":
        return [*self.senders.values(), *self.receivers.values()]

    def _settle(self, now: int) -> None:
        self.now = now
        while True:
            offered = []
            for at, it in enumerate(self._records()):
                due = next(
                    (
                        (kind, moment, at, it, what)
                        for kind, moment, what in it.offers(self.params, now)
                        if moment <= now
                    ),
                    None,
                )
                if due:
                    offered.append(due)
            if not offered:
                return
            kind, _, _, it, what = min(offered, key=lambda it: it[:3])
            {
                1: self._give_up,
                2: self._release,
                3: self._release_receive,
                4: self._ack,
                5: self._resend,
                6: self._cut,
                7: self._meet,
            }[kind](it, what, now)

    def _leave(self, line: Line, frame: Frame) -> None:
        self.log.append(line)
        self.frames.append((line, frame._replace(life=self.params.mpl - 1)))

    def _give_up(self, it: Sender, _: object, now: int) -> None:
        gone = it.outstanding.pop(0)
        it.left = gone.behind
        self.log.append(Line("uncertain", it.flow, count=len(gone.octets)))

    def _release(self, it: Sender, _: object, now: int) -> None:
        if it.waiting:
            it.left, it.edge, it.touched = 0, self.params.window, now
            self.log.append(Line("renewed", it.flow))
        else:
            del self.senders[it.flow]
            self.log.append(Line("released send", it.flow))

    def _release_receive(self, it: Receiver, _: object, now: int) -> None:
        it.has_record, it.due = False, None
        self.log.append(Line("released receive", it.flow))
        self._drop_idle(it)

    def _drop_idle(self, it: Receiver) -> None:
        if not it.has_record and not it.unread:
            self.receivers.pop(it.flow, None)

    def _ack(self, it: Receiver, _: object, now: int) -> None:
        it.due, it.told = None, it.free(self.params)
        self._leave(
            Line("acked", it.flow, it.expected, window=it.told), Frame("ack", it.flow, 0, it.expected, window=it.told)
        )

    def _transmit(self, word: str, it: Sender, segment: Segment, now: int) -> None:
        run = segment.offset == it.left
        line = Line(word, it.flow, segment.offset, len(segment.octets), 0, segment.begin, segment.end, run)
        self._leave(line, Frame("data", it.flow, 0, segment.offset, segment.octets, segment.begin, segment.end, run))
        it.touched = segment.last = now

    def _resend(self, it: Sender, segment: object, now: int) -> None:
        self._transmit("resent", it, segment, now)

    def _cut(self, it: Sender, _: object, now: int) -> None:
        octets, begin, end = it.waiting.popleft()
        count = min(len(octets), self.params.seg, it.edge - it.next())
        if count < len(octets):
            it.waiting.appendleft((octets[count:], False, end))
        segment = Segment(it.next(), octets[:count], begin, end and count == len(octets), now, now)
        it.outstanding.append(segment)
        self._transmit("sent", it, segment, now)

    def _meet(self, it: Sender, _: object, now: int) -> None:
        it.touched = now
        self._leave(Line("met", it.flow, it.left), Frame("meet", it.flow, 0, it.left))

    # --- what comes

    def _acknowledged(self, frame: Frame) -> None:
        it = self.senders.get(frame.flow)
        if it is None or frame.number not in (it.left, *(segment.behind for segment in it.outstanding)):
            return
        count = frame.number - it.left
        while it.outstanding and it.outstanding[0].behind <= frame.number:
            it.outstanding.pop(0)
        it.left, it.edge = frame.number, frame.number + frame.window
        self.log.append(Line("settled", it.flow, count=count, window=frame.window))

    def _data(self, at: int, frame: Frame) -> None:
        it = self.receivers.get(frame.flow) or Receiver(frame.flow)
        fits = len(frame.octets) <= it.free(self.params)
        is_new = frame.run and (not it.has_record or frame.number > it.expected)
        if frame.kind == "data" and fits and (is_new or it.has_record and frame.number == it.expected):
            self._accept(at, it, frame, is_new)
        elif it.has_record or frame.kind == "meet" or frame.run:
            own = not it.has_record or frame.kind == "data" and is_new
            self._reply(it, frame.number if own else it.expected)

    def _accept(self, at: int, it: Receiver, frame: Frame, is_new: bool) -> None:
        self.receivers[it.flow] = it
        owed = it.has_record and it.due is not None
        if not it.has_record:
            it.told = self.params.rcap
        it.has_record, it.expected, it.touched = True, frame.number + len(frame.octets), at
        it.due = at if frame.end or owed else at + self.params.a
        it.unread.append(Piece(frame.octets, frame.begin, frame.end, is_new))
        self.log.append(Line("accepted", it.flow, frame.number, len(frame.octets), run=is_new))

    def _reply(self, it: Receiver, number: int) -> None:
        window = it.free(self.params)
        if it.has_record:
            it.told = window
            if number == it.expected:
                it.due = None
        self._leave(Line("replied", it.flow, number, window=window), Frame("ack", it.flow, 0, number, window=window))
