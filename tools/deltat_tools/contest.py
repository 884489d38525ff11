"""A network that a program plays, packet by packet, against one of the lanes: what `tools/adversary.py` runs.

For each packet that leaves a node the network gets a line and gives an answer (ANSWER). The game has ORDERS orders, one
each EVERY ms. The network has won if an order was poured twice, or if the client believes in a cup that wasn't poured.
Of Delta-t, `deltat audit` judges the log too."""
import heapq
import random
import re
from collections.abc import Callable, Sequence
from dataclasses import dataclass, field
from functools import partial

from deltat_tools.lanes import Kind, Lane, Packet, Side
from deltat_tools.replayed import CHARGE, PARAMS, Replayed
from deltat_tools.rivals import RIVALS

ORDERS, EVERY = 3, 8_000
# how long the game lasts after its last order
REST = 30_000
# how long a packet is under way, at least
DELAY = 50
# a node is started again so long after it was killed
DOWN = 100
# the longest that a network may hold a packet if nothing bounds it
SLOW = 400_000
MOST_PACKETS = 400
ANSWER = "pass | lose | hold MS | twice MS, and then or not: kill client|dispenser [MS]"
LANES = ("deltat", *RIVALS)


class Wrong(Exception):
    """An answer that isn't one, or none."""


@dataclass(frozen=True)
class Answer:
    """What the network does with a packet: after how many ms it arrives, each time; and which node is killed right
    after the first of these, or at once if there is none, and started again after how many ms."""

    arrivals: tuple[int, ...] = (DELAY,)
    killed: Side | None = None
    down: int = DOWN

    def __str__(self) -> str:
        words = (
            "lose"
            if not self.arrivals
            else "pass"
            if self.arrivals == (DELAY,)
            else ("hold", "twice")[len(self.arrivals) - 1]
        )
        span = f" {self.arrivals[-1]}" if words in ("hold", "twice") else ""
        return words + span + (f" kill {self.killed.word} {self.down}" if self.killed else "")


@dataclass(frozen=True)
class Rules:
    """What a network may do: how long it may hold a packet, and whether it may kill."""

    limit: int = CHARGE
    kills: bool = True

    def read(self, line: str) -> Answer:
        """The answer in a line."""
        found = re.fullmatch(
            r"(?:(pass|lose)|(hold|twice) ([0-9]{1,9}))(?: kill (client|dispenser)(?: ([0-9]{1,9}))?)?", line
        )
        if not found:
            raise Wrong(f"the answer is {line[:60]!r}; it must be {ANSWER}")
        plain, word, wait, side, down = found.groups()
        span = int(wait or 0)
        if span > self.limit:
            raise Wrong(f"the answer is {line!r}; this network holds a packet for at most {self.limit} ms")
        if side and not self.kills:
            raise Wrong(f"the answer is {line!r}; this network doesn't kill")
        if int(down or 0) > SLOW:
            raise Wrong(f"the answer is {line!r}; a node is down for at most {SLOW} ms")
        arrivals = {"pass": (DELAY,), "lose": (), "hold": (span,), "twice": (min(DELAY, span), span)}[plain or word]
        return Answer(arrivals, Side[side.upper()] if side else None, int(down) if down else DOWN)


Network = Callable[[str, int], Answer]


@dataclass(order=True)
class Event:
    """What happens at a moment. Equal moments keep the order in which events were made."""

    moment: int
    number: int
    what: Callable[[], None] = field(compare=False)


@dataclass(frozen=True)
class Result:
    """How a game ended: each packet with its answer, how the network has won or nothing, and how near it came."""

    moves: Sequence[tuple[str, Answer]]
    won: str
    summary: str
    near: int
    schedule: str = ""


def lane_of(name: str, program: str) -> Lane:
    """A new lane of that name."""
    return Replayed(program) if name == "deltat" else RIVALS[name]()


class Contest:
    """One game."""

    def __init__(self, lane: Lane, network: Network):
        self.lane, self.network = lane, network
        self.events: list[Event] = []
        self.made = 0
        self.moves: list[tuple[str, Answer]] = []
        # copies of a packet that may still arrive
        self.left: dict[int, int] = {}
        self.seen = 0

    def at(self, moment: int, what: Callable[[], None]) -> None:
        heapq.heappush(self.events, Event(moment, self.made, what))
        self.made += 1

    def ask(self) -> None:
        """The network answers for each packet that is new."""
        while self.seen < len(self.lane.packets) and self.seen < MOST_PACKETS:
            packet = self.lane.packets[self.seen]
            self.seen += 1
            line = f"{packet.number} {packet.put} {packet.to.other.word} {packet.to.word} {packet.text}"
            answer = self.network(line, packet.number)
            self.moves.append((line, answer))
            self.follow(packet, answer)

    def follow(self, packet: Packet, answer: Answer) -> None:
        """What the answer makes happen."""
        self.left[packet.number] = len(answer.arrivals)
        moments = [packet.put + it for it in answer.arrivals]
        for moment in moments:
            self.at(moment, partial(self.arrive, packet))
        if not moments:
            self.lane.lose(packet)
        side = answer.killed
        if side is not None:
            killed = moments[0] if moments else self.lane.now
            self.at(killed, partial(self.lane.kill, side))
            self.at(killed + answer.down, partial(self.lane.start, side))

    def arrive(self, packet: Packet) -> None:
        self.left[packet.number] -= 1
        self.lane.arrive(packet)
        if not self.left[packet.number] and not self.lane.running[packet.to]:
            self.lane.lose(packet)

    def step(self, moment: int) -> None:
        """Time passes up to a moment, or to what the answers for packets make happen before it."""
        while self.lane.now < moment and not self.events_before(moment):
            self.lane.advance(moment)
            self.ask()

    def events_before(self, moment: int) -> bool:
        return bool(self.events) and self.events[0].moment < moment

    def run(self) -> Result:
        """Plays the game."""
        for place in range(ORDERS):
            self.at(place * EVERY, partial(self.lane.order, place + 1))
        end = (ORDERS - 1) * EVERY + REST
        while self.events or self.lane.now < end:
            moment = self.events[0].moment if self.events else end
            self.step(moment)
            if self.events and self.events[0].moment <= self.lane.now:
                heapq.heappop(self.events).what()
                self.ask()
        return self.result()

    def result(self) -> Result:
        lane, won = self.lane, self.lane.fault()
        verdict, schedule = "", ""
        if isinstance(lane, Replayed):
            verdict, schedule = lane.verdict(), lane.schedule()
            if verdict != "audit yes":
                won = won or f"the audit says: {verdict}"
        states = [
            f"{list(lane.orders.values()).count(state)} {state.name.lower()}"
            for state in dict.fromkeys(lane.orders.values())
        ]
        cups = sum(lane.cups.values())
        text = f"{len(lane.orders)} orders: {', '.join(states) or 'none'}; {cups} cups" + (
            f"; {verdict}" if verdict else ""
        )
        return Result(self.moves, won, text, self.near(), schedule)

    def near(self) -> int:
        """How near the network came: the kinds of what the dispenser did beside pouring, and how often it did that."""
        kinds = [
            it.kind
            for it in self.lane.marks
            if it.side is Side.DISPENSER and it.kind in (Kind.SEEN, Kind.IGNORED, Kind.RESET, Kind.STARTED)
        ]
        return 4 * len(set(kinds)) + min(len(kinds), 12)


def random_answer(chance: random.Random, rules: Rules) -> Answer:
    """An answer by chance."""
    waits = [0, DELAY, 1_000, 3_000, rules.limit - 1, rules.limit, chance.randint(0, rules.limit)]
    span = chance.choice(waits)
    kind = chance.random()
    arrivals = (DELAY,) if kind < 0.4 else () if kind < 0.6 else (span,) if kind < 0.8 else (min(DELAY, span), span)
    if chance.random() < 0.88 or not rules.kills:
        return Answer(arrivals)
    side = Side.DISPENSER if chance.random() < 0.7 else Side.CLIENT
    return Answer(arrivals, side, chance.choice([1, DOWN, 1_000, 5_000, PARAMS.quiet - 1, PARAMS.quiet]))


def random_network(seed: int, rules: Rules) -> Network:
    """A network that answers by chance."""
    chance = random.Random(seed)
    return lambda line, number: random_answer(chance, rules)


def play(name: str, program: str, network: Network) -> Result:
    """One game against a lane."""
    return Contest(lane_of(name, program), network).run()


def answers_of(answers: dict[int, Answer]) -> Network:
    """A network that has these answers, by the numbers of packets, and passes all others."""
    return lambda line, number: answers.get(number, Answer())


def shrunk(name: str, program: str, result: Result) -> Result:
    """A game that was won, with as few answers other than `pass` as still win it, taken from the last one on."""
    answers = {place: answer for place, (_, answer) in enumerate(result.moves) if answer != Answer()}
    for place in sorted(answers, reverse=True):
        fewer = {it: answer for it, answer in answers.items() if it != place}
        shorter = play(name, program, answers_of(fewer))
        if shorter.won:
            answers, result = fewer, shorter
    return result


def random_game(name: str, program: str, seed: int, rules: Rules) -> Result:
    """One game of a random network."""
    return play(name, program, random_network(seed, rules))


class Search:
    """A directed search: it changes a few answers of the best game so far, and keeps what brings the network no
    farther from its goal. After STALE games without progress it begins anew."""

    STALE = 40

    def __init__(self, name: str, program: str, seed: int, rules: Rules):
        self.name, self.program, self.rules = name, program, rules
        self.chance = random.Random(seed)
        self.best: dict[int, Answer] = {}
        self.near, self.length, self.stale = -1, 8, 0

    def play(self) -> Result:
        """One game more."""
        if self.stale >= self.STALE:
            self.best, self.near, self.length, self.stale = {}, -1, 8, 0
        answers = dict(self.best)
        for _ in range(self.chance.randint(1, 3)):
            answers[self.chance.randrange(self.length)] = random_answer(self.chance, self.rules)
        result = play(self.name, self.program, answers_of(answers))
        if result.near >= self.near:
            self.stale = 0 if result.near > self.near else self.stale + 1
            self.best, self.near, self.length = answers, result.near, max(1, min(len(result.moves), 24))
        else:
            self.stale += 1
        return result
