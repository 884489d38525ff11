"""Calls between nodes in simulated time: the definitions over stations of the plain model or of the library, worked
runs, and random runs in which another maker of calls is judged by the definitions.

In tests/all: not a test."""
import dataclasses
import heapq
import importlib
import itertools
import os
import pathlib
import random
import sys
import types
from collections import Counter, defaultdict

import service_model
import station_model
from lib import TOP
from lib.parameters import WORKED
from service_model import CALLER, SERVICE, Flow, Limits, Piece, Report, Token
from service_rows import FLOW_NAMES, STATION_WORDS, Row
from service_wire import Broken, holds

CHARGE = 50


def library(path: str | None) -> types.ModuleType | None:
    """The binding, or None where there is no library."""
    found = pathlib.Path(path) if path else TOP / "lib" / "libdeltat.so.2"
    if not found.exists():
        return None
    os.environ["DELTAT_LIBRARY"] = str(found.resolve())
    sys.path.insert(0, str(TOP / "bindings" / "python"))
    return importlib.import_module("deltat")


def start_of(deltat: types.ModuleType, is_again: bool) -> object:
    return deltat.Start.AGAIN if is_again else deltat.Start.FIRST


def word_of(report: object) -> str:
    """The word of a report in a log, as the definitions have it."""
    return report.line(0, 0).split(" ")[2]


class LibraryStation:
    """A station of the library: a plain node of it. `arrive` takes a link, a datagram, and what it waited."""

    def __init__(self, deltat: types.ModuleType, node: object) -> None:
        self.deltat, self.node, self.cap = deltat, node, node.params.cap
        self.row: list[str] = []
        # the reports of the event, and the frames that left with them
        self.all: list[object] = []

    def reports(self) -> list[Report]:
        words = []
        for it in self.node.reports():
            self.all.append(it)
            name = word_of(it)
            if name in ("took", "settled", "uncertain", "accepted") or name == "released" and not it.sending:
                words.append(Report(name, it.flow, it.count))
        return words

    def send(self, at: int, flow: Flow, octets: bytes) -> tuple[object, ...]:
        try:
            self.node.send(flow, octets, at=at)
        except self.deltat.Quiet as why:
            return "quiet", why.until
        except self.deltat.Full as why:
            return "full", why.free
        return ("taken",)

    def read(self, at: int, flow: Flow) -> Piece | None:
        it = self.node.read(flow, at)
        return it and Piece(it.octets, it.begin, it.end, it.gap)

    def arrive(self, at: int, came: object) -> None:
        link, datagram, waited = came
        self.node.receive(link, datagram, waited, at)

    def tick(self, at: int) -> None:
        self.node.tick(at)

    @property
    def wake(self) -> int | None:
        return self.node.wake

    def lines(self) -> list[str]:
        """What an event told of octets, as a row has it."""
        return [row_line(word_of(it), it) for it in self.all if word_of(it) in STATION_WORDS]

    def left(self) -> list[tuple[tuple[str, ...], object]]:
        """What left since this was asked last, to be handed over: beside each what was told as it was made."""
        told, self.all = self.all, []
        makers = [before for before, it in zip(told, told[1:]) if word_of(it) == "put"]
        return [
            (made(word_of(it), it), (1, frame.octets, 0))
            for it, frame in zip(makers, self.node.datagrams(), strict=True)
        ]


class PlainStation(station_model.Station):
    """A station of the plain model."""

    row: list[str]

    def lines(self) -> list[str]:
        return [row_line(it.word, it) for it in self.log if it.word in STATION_WORDS]

    def left(self) -> list[tuple[tuple[str, ...], object]]:
        left = [(made(it.word, it), (CHARGE, frame)) for it, frame in self.frames]
        self.forget()
        return left


def row_line(word: str, it: object) -> str:
    """What a station told of octets, as a row has it."""
    name = FLOW_NAMES.get(Flow(*it.flow), "?")
    marks = ("d" if it.run else "") + ("b" if it.begin else "") + ("e" if it.end else "")
    rest = {
        "accepted": [it.number, it.count, "run" if it.run else "on"],
        "settled": [it.count, it.window],
        "uncertain": [it.count],
    }
    return " ".join(str(part) for part in [word, name, *rest.get(word, [it.number, it.count, marks])])


def made(word: str, it: object) -> tuple[str, ...]:
    """The first words of the row in which a frame comes."""
    name = FLOW_NAMES.get(Flow(*it.flow), "?")
    return ("settled", name) if word in ("acked", "replied") else ("accepted", name, str(it.number))


class Simulated:
    """The ground of a worked run: stations in simulated time, and of what left the last frame of each flow and number,
    and the last acknowledgement of each flow."""

    def __init__(self, params: dict[str, int], deltat: types.ModuleType | None) -> None:
        self.params, self.deltat = dataclasses.replace(WORKED, **params), deltat
        self.frames: dict[tuple[str, ...], object] = {}
        self.stations: list[PlainStation | LibraryStation] = []

    def station(self, me: int, at: int, is_again: bool) -> PlainStation | LibraryStation:
        if self.deltat:
            params = self.deltat.Params(**dataclasses.asdict(self.params))
            node = self.deltat.Node(
                me, params, [self.deltat.Link(1, CHARGE)], {3 - me: 1}, start=start_of(self.deltat, is_again), at=at
            )
            self.stations.append(LibraryStation(self.deltat, node))
        else:
            self.stations.append(PlainStation(me, self.params, at, is_again))
        return self.stations[-1]

    def before(self, nodes: dict[int, service_model.Node], me: int, at: int) -> None:
        """Each node has ticked where that was due before the event."""
        for station in self.stations:
            self.frames |= dict(station.left())
        while True:
            due = min(
                (
                    (node.wake, it)
                    for it, node in nodes.items()
                    if node.wake is not None and node.wake <= at - (it == me)
                ),
                default=None,
            )
            if due is None:
                return
            nodes[due[1]].tick(due[0])
            holds(not nodes[due[1]].told, f"node {due[1]} tells {nodes[due[1]].told} at {due[0]}")
            self.frames |= dict(nodes[due[1]].station.left())

    def came(self, row: Row) -> object:
        what = next(it.split() for it in row.told if it.startswith(("accepted", "settled")))
        return self.frames[tuple(what[:3] if what[0] == "accepted" else what[:2])]


class Half:
    """The service of the library, asked as the model is. What is judged otherwise is asked the same way."""

    # the words of the definitions, by the names of the binding
    DECLINED = {"QUIET": "quiet", "FULL": "full", "TOO_MANY_CALLS": "many", "LIFE_USED_UP": "numbers"}
    CAUSES = {"GIVEN_UP": "given up", "TIMEOUT": "patience", "STOPPED": "closed"}
    COUNTS = {
        "late_replies": "late",
        "old_replies": "old",
        "unknown_replies": "strange",
        "reused_requests": "reused",
        "cut": "cut",
        "too_long": "long",
        "too_short": "short",
    }

    def __init__(self, deltat: types.ModuleType, node: object) -> None:
        self.deltat, self.node = deltat, node
        # what each call was given whose end wasn't taken
        self.users: dict[int, int] = {}

    def port(self, port: int, kind: str) -> None:
        self.node.set_port(port, self.deltat.PortKind[kind.upper()])

    def call(self, at: int, flow: Flow, payload: bytes, patience: int) -> tuple[object, ...]:
        try:
            user = hash((at, flow, payload)) % 2**64
            number = self.node.call(flow, payload, patience, at=at, user=user)
        except self.deltat.Declined as why:
            word = self.DECLINED[why.status.name]
            return "declined", word, *([why.until] if word == "quiet" else [why.free] if word == "full" else [])
        except self.deltat.InvalidArgument:
            return ("refused",)
        self.users[number] = user
        return "made", number

    def reply(self, at: int, token: Token, payload: bytes) -> tuple[object, ...]:
        return self._said(self.node.reply, self.deltat.Token(*token), payload, at)

    def forget(self, at: int, token: Token) -> tuple[object, ...]:
        return self._said(self.node.forget, self.deltat.Token(*token), at)

    def raise_life(self, life: int) -> tuple[object, ...]:
        return self._said(self.node.set_life, life)

    def _said(self, ask: object, *words: object) -> tuple[object, ...]:
        try:
            ask(*words)
        except self.deltat.Gone:
            return ("gone",)
        except self.deltat.Full as why:
            return "full", why.free
        except self.deltat.InvalidArgument:
            return ("refused",)
        return ("done",)

    def arrive(self, at: int, came: object) -> None:
        link, datagram, waited = came
        self.node.receive(link, datagram, waited, at)

    def tick(self, at: int) -> None:
        self.node.tick(at)

    def close(self, at: int) -> None:
        self.node.stop()

    @property
    def counts(self) -> dict[str, int]:
        """Those that aren't 0."""
        return {self.COUNTS[name]: it for name, it in self.node.call_counts()._asdict().items() if it}

    def taken(self) -> list[tuple[object, ...]]:
        told = []
        for it in self.node.events():
            if isinstance(it, self.deltat.Request):
                told.append(("request", Token(Flow(*it.token.flow), it.token.call), it.payload))
            elif isinstance(it, self.deltat.Answered):
                told.append(("answered", it.call, it.answer, *self._other_user(it)))
            elif isinstance(it, self.deltat.ReplyUncertain):
                told.append(("doubtful", Flow(*it.flow)))
            else:
                told.append(("unsure", it.call, self.CAUSES[it.cause.name], *self._other_user(it)))
        return told

    def _other_user(self, end: object) -> list[str]:
        """What the model never tells, where the end of a call isn't given what the call was."""
        return [] if self.users.pop(end.call, None) == end.user else ["with another user"]


WORLD_CHARGE = 30
PORTS = ((10, CALLER), (11, CALLER), (20, SERVICE))
WORLD_FLOWS = [Flow(1, 10, 2, 20), Flow(1, 11, 2, 20), Flow(3, 10, 2, 20), Flow(1, 10, 3, 20)]


class Alone:
    """The model over a plain station."""

    def __init__(self, run: "World", me: int, is_again: bool) -> None:
        self.life = next(run.lives[me])
        self.model = service_model.Node(
            me, self.life, PlainStation(me, run.params, run.at, is_again), run.limits, run.at
        )
        for port, kind in PORTS:
            self.model.port(port, kind)

    def asked(self, what: str, *words: object) -> tuple[object, ...]:
        return getattr(self.model, what)(*words) or ()

    def left(self, me: int) -> list[tuple[int, object]]:
        """What left, to be handed over: beside each the node that it goes to."""
        frames = [it for _, it in self.model.station.frames]
        self.model.station.forget()
        return [(it.flow.source if it.kind == "ack" else it.flow.target, (WORLD_CHARGE, it)) for it in frames]

    def taken(self) -> list[tuple[object, ...]]:
        told = list(self.model.queue)
        self.model.queue.clear()
        return told

    def end(self) -> None:
        pass


class Pair(Alone):
    """The model over a node of the library, and what is judged over another one; both are asked the same."""

    def __init__(self, run: "World", me: int, is_again: bool) -> None:
        deltat, others = run.deltat, [it for it in (1, 2, 3) if it != me]
        links, routes = [deltat.Link(it, WORLD_CHARGE) for it in others], {it: it for it in others}
        self.life = next(run.lives[me])
        params = deltat.Params(**dataclasses.asdict(run.params))
        start = start_of(deltat, is_again)
        plain = deltat.Node(me, params, links, routes, start=start, at=run.at)
        self.model = service_model.Node(me, self.life, LibraryStation(deltat, plain), run.limits, run.at)
        limits = deltat.ServiceLimits(run.limits.most_waiting, run.limits.most_open, run.limits.most_each)
        self.other = Half(
            deltat, deltat.Service(me, self.life, params, links, routes, start=start, at=run.at, limits=limits)
        )
        for port, kind in PORTS:
            self.model.port(port, kind)
            self.other.port(port, kind)

    def asked(self, what: str, *words: object) -> tuple[object, ...]:
        statuses = getattr(self.model, what)(*words), getattr(self.other, what)(*words)
        self.model.station.all = []
        holds(statuses[0] == statuses[1], f"{what} {words}: {statuses[1]}, and the definitions say {statuses[0]}")
        if what != "close":
            wakes = self.model.wake, self.other.node.wake
            holds(wakes[0] == wakes[1], f"{what} {words}: the wake is {wakes[1]}, and the definitions say {wakes[0]}")
            counts = dict(+self.model.counts), self.other.counts
            holds(counts[0] == counts[1], f"{what} {words}: counted {counts[1]}, and the definitions say {counts[0]}")
        return statuses[0] or ()

    def left(self, me: int) -> list[tuple[int, object]]:
        frames = list(self.model.station.node.datagrams()), list(self.other.node.datagrams())
        holds(frames[0] == frames[1], "other frames than by the definitions")
        return [(it.to, (me, it.octets, 0)) for it in frames[0]]

    def taken(self) -> list[tuple[object, ...]]:
        told, others = super().taken(), self.other.taken()
        holds(told == others, f"told {others}, and the definitions say {told}")
        return told

    def end(self) -> None:
        self.model.station.node.close()
        self.other.node.close()


class World:
    """A random run of three nodes over links that drop, repeat and reorder: of the library, or plain ones where there
    is none. The theorems are checked by the names of calls."""

    def __init__(self, seed: int, deltat: types.ModuleType | None) -> None:
        self.chance, self.deltat = random.Random(seed), deltat
        self.make, chance = Pair if deltat else Alone, self.chance
        seg, room = chance.choice([10, 100]), chance.choice([40, 400])
        self.params = dataclasses.replace(
            WORKED,
            mpl=100,
            r=chance.choice([60, 300]),
            a=20,
            rto=50,
            probe=80,
            seg=seg,
            cap=room,
            rcap=400,
            window=chance.choice([25, 400]),
        )
        self.limits = Limits(*([chance.randint(1, 4) for _ in range(3)] if chance.random() < 0.3 else [50] * 3))
        self.loss = chance.choice([0.0, 0.1, 0.4])
        self.at, self.count, self.words = 0, itertools.count(), itertools.count()
        self.lives = {me: itertools.count(1) for me in (1, 2, 3)}
        self.pairs = {me: self.make(self, me, False) for me in (1, 2, 3)}
        self.links: list[tuple[int, int, int, object]] = []
        # the names of calls by their node and number
        self.names: dict[tuple[int, int], Token] = {}
        # by the name of each call: what it carried, its place among those of its flow, how often it was handed out, the
        # replies that were taken, and its ends
        self.payloads: dict[Token, bytes] = {}
        self.places: dict[Token, int] = {}
        self.handed: Counter[Token] = Counter()
        self.last: dict[Flow, int] = {}
        self.replies: dict[Token, list[bytes]] = defaultdict(list)
        self.ends: Counter[tuple[Token, int]] = Counter()
        self.tokens: dict[int, list[Token]] = {2: [], 3: []}
        self.totals: Counter[str] = Counter()

    def after(self, me: int, is_turn: bool = True) -> None:
        """What leaves goes on the links; what was told is taken, sooner or later. What is refused is no turn."""
        pair, chance = self.pairs[me], self.chance
        for to, came in pair.left(me):
            for _ in range(0 if chance.random() < self.loss else chance.choice([1, 1, 1, 2])):
                delay = chance.randrange(WORLD_CHARGE) if chance.random() < 0.3 else 5
                heapq.heappush(self.links, (self.at + delay, next(self.count), to, came))
        if chance.random() < 0.8:
            for it in pair.taken():
                self.told(me, it)
        if is_turn:
            holds(all(it.deadline > pair.model.now for it in pair.model.waiting.values()), "a deadline has passed")

    def told(self, me: int, it: tuple[object, ...]) -> None:
        if it[0] == "request":
            token = it[1]
            holds(self.payloads.get(token) == it[2], "a request that no call made")
            self.handed[token] += 1
            holds(self.handed[token] == 1, "handed out twice")
            holds(self.last.get(token.flow, -1) < self.places[token], "not in the order of the calls")
            self.last[token.flow] = self.places[token]
            self.tokens[me].append(token)
            self.totals["handed out"] += 1
            return
        if it[0] == "doubtful":
            holds(it[1].target == me and it[1] in WORLD_FLOWS, "a reply that nobody made is uncertain")
            self.totals["doubtful"] += 1
            return
        token = self.names[me, it[1]]
        self.ends[token] += 1
        holds(self.ends[token] == 1, "a call has two ends")
        self.totals[str(it[0] if it[0] == "answered" else it[2])] += 1
        if it[0] == "answered":
            holds(self.replies[token] == [it[2]], "another answer")
            holds(self.handed[token] == 1, "answered, and not handed out once")

    def event(self) -> None:
        chance, what = self.chance, self.chance.random()
        if what < 0.1:
            self.call(chance.choice(WORLD_FLOWS))
        elif what < 0.2:
            self.reply(chance.choice((2, 3)))
        elif what < 0.205:
            self.restart(chance.choice((1, 2, 3)))
        elif what < 0.21:
            me = chance.choice((1, 2, 3))
            life = next(self.lives[me])
            self.pairs[me].asked("raise_life", life)
        elif what < 0.75 and self.links:
            due, _, to, came = heapq.heappop(self.links)
            self.at = max(self.at, due)
            self.pairs[to].asked("arrive", self.at, came)
            self.after(to)
        else:
            self.pass_time()

    def pass_time(self) -> None:
        """To the next wake, or a little, but not beyond what is due on a link."""
        wakes = [it.model.wake for it in self.pairs.values() if it.model.wake is not None]
        to = min(wakes) if wakes and self.chance.random() < 0.7 else self.at + self.chance.choice([1, 10, 300])
        self.at = max(self.at, min([to, *(it[0] for it in self.links[:1])]))
        me = self.chance.choice((1, 2, 3))
        for me in (
            me,
            *(
                it
                for it in self.pairs
                if it != me and self.pairs[it].model.wake is not None and self.pairs[it].model.wake <= self.at
            ),
        ):
            self.pairs[me].asked("tick", self.at)
            self.after(me)

    def call(self, flow: Flow) -> None:
        pair, chance = self.pairs[flow.source], self.chance
        payload = b"%d" % next(self.words) + bytes(chance.choice([0, 0, 5, 20]))
        status = pair.asked("call", self.at, flow, payload, chance.choice([1, 100, 900, 3000, 3000]))
        self.totals[" ".join(str(it) for it in status[:2] if not isinstance(it, int))] += 1
        if status[0] == "made":
            token = Token(flow, status[1])
            self.names[flow.source, status[1]] = token
            self.payloads[token], self.places[token] = payload, len(self.places)
        self.after(flow.source, status[0] == "made" or status[1:2] in (("quiet",), ("full",)))

    def reply(self, me: int) -> None:
        if self.tokens[me]:
            token = self.tokens[me][-1] if self.chance.random() < 0.6 else self.chance.choice(self.tokens[me])
            if self.chance.random() < 0.05:
                status = self.pairs[me].asked("forget", self.at, token)
            else:
                payload = b"answer %d to " % next(self.words) + self.payloads[token][:4]
                status = self.pairs[me].asked("reply", self.at, token, payload)
                self.totals[f"reply {status[0]}"] += 1
                if status[0] == "done":
                    self.replies[token].append(payload)
                    holds(len(self.replies[token]) == 1, "two replies for a token")
            self.after(me, status[0] in ("done", "full"))

    def restart(self, me: int) -> None:
        pair = self.pairs[me]
        for it in pair.taken():
            self.told(me, it)
        pair.asked("close", self.at)
        for it in pair.taken():
            self.told(me, it)
        pair.end()
        self.pairs[me] = self.make(self, me, True)
        self.totals["restarts"] += 1

    def go(self) -> None:
        for _ in range(self.chance.choice([200, 600])):
            self.event()
        for pair in self.pairs.values():
            for name in pair.model.counts:
                self.totals[name] += pair.model.counts[name]
            pair.end()


def world(count: int, first: int, deltat: types.ModuleType | None) -> bool:
    over = "the library" if deltat else "plain stations"
    totals: Counter[str] = Counter()
    for seed in range(first, first + count):
        run = World(seed, deltat)
        try:
            run.go()
        except Broken as why:
            print(f"run {seed} over {over} fails: {why}")
            return False
        totals += run.totals
    agrees = ", and its services tell the same" if deltat else ""
    print(
        f"{count} runs over {over} hold{agrees}: " + ", ".join(f"{name} {it}" for name, it in sorted(totals.items())),
        flush=True,
    )
    wanted = (
        "answered",
        "given up",
        "doubtful",
        "patience",
        "closed",
        "reply gone",
        "reply full",
        "old",
        "late",
        "cut",
    )
    return totals["strange"] + totals["reused"] == 0 and all(totals[it] for it in wanted)
