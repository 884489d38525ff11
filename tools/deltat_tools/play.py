"""The network in a reader's hands: what `tools/demo.py` plays. Each move is done to all lanes at once, so that a loss
or a kill means the same to each protocol.

A packet that leaves a node is in the network's hands until a move delivers it or loses it. A move takes STEP ms. A
packet that is LIMIT ms old is gone: a link of Delta-t is no slower than its charge, which is a premise. If the
network is slow, that holds for Delta-t only, and the other lanes' packets may be held for as long as the reader
likes."""
import re
from collections.abc import Iterator, Sequence
from dataclasses import dataclass
from typing import Any

from deltat_tools.lanes import Lane, Packet, Side
from deltat_tools.replayed import CHARGE, Replayed
from deltat_tools.rivals import RIVALS

STEP = 100
LIMIT = CHARGE
# how long a packet is delayed by a move
DELAY = 1_000
MOST_MOVES, MOST_WAIT, LONGEST = 400, 300_000, 3_600_000
ON_PACKETS = ("deliver", "lose", "twice", "hold", "delay", "release")
ON_NODES = ("kill", "start")
MOVES = (
    "order, wait MS, kill or start SIDE, or one of deliver, lose, twice, hold, delay, release and a SIDE; "
    "SIDE is client or dispenser"
)
PREFIX, SLOW = "# move ", "# the network is slow"


class BadMove(Exception):
    """A move that isn't one."""


@dataclass(frozen=True)
class Move:
    """A move of the reader: a word, and the side or the time that it is about."""

    word: str
    side: Side | None = None
    wait: int = 0

    def __str__(self) -> str:
        return self.word + (f" {self.side.word}" if self.side else f" {self.wait}" if self.wait else "")


def read_move(text: str) -> Move:
    """The move in a text."""
    if text == "order":
        return Move(text)
    found = re.fullmatch(r"([a-z]+) (client|dispenser)", text)
    if found and found[1] in ON_PACKETS + ON_NODES:
        return Move(found[1], Side[found[2].upper()])
    found = re.fullmatch(r"wait ([1-9][0-9]{0,5})", text)
    if not found:
        raise BadMove(f"the move is {text[:40]!r}; it must be {MOVES}")
    wait = int(found[1])
    if wait > MOST_WAIT or wait % STEP:
        raise BadMove(f"the move is {text!r}; a wait is a multiple of {STEP} ms, {MOST_WAIT} at most")
    return Move("wait", wait=wait)


def read_moves(schedule: str) -> tuple[list[Move], bool]:
    """The moves that a schedule of a game has as comments, and whether its network was slow."""
    lines = schedule.splitlines()
    moves = [read_move(line[len(PREFIX) :]) for line in lines if line.startswith(PREFIX)]
    if not moves:
        raise BadMove(f"the schedule has no line that begins with {PREFIX.strip()!r}; give one that this tool made")
    return moves, SLOW in lines


@dataclass
class Item:
    """A packet in the network's hands, or a second copy of one: waiting, held or delayed."""

    packet: Packet
    number: int
    status: str = "waiting"
    due: int = 0
    is_copy: bool = False


@dataclass(frozen=True)
class Fate:
    """What became of an item: it arrived, was lost, or is gone since it was too old."""

    packet: int
    moment: int
    word: str
    is_copy: bool


class Hands:
    """What the network has of one lane."""

    def __init__(self, lane: Lane, limit: int | None):
        self.lane, self.limit = lane, limit
        self.items: list[Item] = []
        self.fates: list[Fate] = []
        self.seen = self.made = 0

    def take(self) -> None:
        """Takes the packets that left since the last time."""
        for packet in self.lane.packets[self.seen :]:
            self.items.append(Item(packet, self.made))
            self.made += 1
        self.seen = len(self.lane.packets)

    def first(self, side: Side, held: bool = False) -> Item | None:
        """The oldest packet on its way to a side that waits, or that is held or delayed."""
        return next((it for it in self.items if it.packet.to is side and (it.status != "waiting") is held), None)

    def drop(self, item: Item, word: str, moment: int) -> None:
        """An item leaves the hands."""
        self.items.remove(item)
        self.fates.append(Fate(item.packet.number, moment, word, item.is_copy))
        if word != "arrived" and all(it.packet is not item.packet for it in self.items):
            self.lane.lose(item.packet)

    def arrive(self, item: Item) -> None:
        self.drop(item, "arrived", self.lane.now)
        is_over = all(it.packet is not item.packet for it in self.items)
        self.lane.arrive(item.packet)
        if is_over and not self.lane.running[item.packet.to]:
            self.lane.lose(item.packet)
        self.take()

    def end_of(self, item: Item) -> int:
        """The last moment at which a packet may arrive."""
        return item.packet.put + self.limit if self.limit is not None else LONGEST * 2

    def pass_time(self, moment: int) -> None:
        """Time passes: delayed packets arrive at their moments, and old ones are gone."""
        while True:
            due = min((it.due for it in self.items if it.status == "delayed" and it.due <= moment), default=moment)
            while self.lane.now < due:
                self.lane.advance(due)
                self.take()
            for item in [it for it in self.items if self.end_of(it) < due]:
                self.drop(item, "gone", self.end_of(item))
            late = next((it for it in self.items if it.status == "delayed" and it.due <= due), None)
            if late:
                self.arrive(late)
            elif due == moment:
                return

    def do(self, word: str, side: Side) -> None:
        """A move that is about a packet. Without such a packet nothing happens."""
        item = self.first(side, held=word == "release")
        if item is None:
            return
        if word in ("deliver", "release"):
            self.arrive(item)
        elif word == "lose":
            self.drop(item, "lost", self.lane.now)
        elif word == "twice":
            self.items.insert(self.items.index(item) + 1, Item(item.packet, self.made, "held", is_copy=True))
            self.made += 1
            self.arrive(item)
        else:
            item.status = "held" if word == "hold" else "delayed"
            item.due = min(self.lane.now + DELAY, self.end_of(item)) if word == "delay" else 0


class Game:
    """Four lanes, and what the reader has done to them."""

    def __init__(self, program: str, is_slow: bool = False):
        self.replayed = Replayed(program)
        others: dict[str, Lane] = {name: make() for name, make in RIVALS.items()}
        limit = None if is_slow else LIMIT
        self.is_slow = is_slow
        self.hands = {
            "deltat": Hands(self.replayed, LIMIT),
            **{name: Hands(lane, limit) for name, lane in others.items()},
        }
        self.moves: list[Move] = []
        self.now = self.ordered = 0
        if is_slow:
            self.replayed.events.append((0, SLOW))

    def do(self, move: Move) -> None:
        """Does a move, to all lanes."""
        if len(self.moves) >= MOST_MOVES:
            raise BadMove(f"the game has {MOST_MOVES} moves, which is the most; begin a new one")
        if self.now + move.wait > LONGEST:
            raise BadMove(f"the game has lasted {self.now // 1000} s; {LONGEST // 1000} is the most; begin a new one")
        self.moves.append(move)
        self.now += move.wait or STEP
        self.ordered += move.word == "order"
        for hands in self.hands.values():
            if move.wait:
                self.note(hands, move)
            hands.pass_time(self.now)
            if not move.wait:
                self.note(hands, move)
                self.act(hands, move)
            hands.take()

    @staticmethod
    def note(hands: Hands, move: Move) -> None:
        """The schedule has the move as a comment."""
        if isinstance(hands.lane, Replayed):
            hands.lane.note(f"{PREFIX[2:]}{move}")

    def act(self, hands: Hands, move: Move) -> None:
        if move.word == "order":
            hands.lane.order(self.ordered)
        elif move.side is None:
            return
        elif move.word == "kill":
            hands.lane.kill(move.side)
        elif move.word == "start":
            hands.lane.start(move.side)
        else:
            hands.do(move.word, move.side)

    def lane_view(self, name: str, hands: Hands) -> dict[str, Any]:
        """What the page shows of a lane."""
        lane = hands.lane
        return {
            "id": name,
            "name": lane.name,
            "running": {side.word: running for side, running in lane.running.items()},
            "quiet": lane.quiet_time,
            "silent": {side.word: lane.silent_until(side) for side in Side if lane.silent_until(side) > lane.now},
            "packets": [{"to": it.to.word, "text": it.text, "put": it.put, "order": it.order} for it in lane.packets],
            "hands": [
                {"packet": it.packet.number, "status": it.status, "due": it.due, "copy": it.is_copy}
                for it in hands.items
            ],
            "fates": [
                {"packet": it.packet, "moment": it.moment, "word": it.word, "copy": it.is_copy} for it in hands.fates
            ],
            "marks": [
                {"moment": it.moment, "side": it.side.word, "kind": it.kind.value, "text": it.text, "order": it.order}
                for it in lane.marks
            ],
            "orders": [
                {"order": order, "state": state.name.lower(), "text": state.value, "cups": lane.cups[order]}
                for order, state in lane.orders.items()
            ],
            "fault": lane.fault(),
        }

    def view(self) -> dict[str, Any]:
        """What the page shows."""
        verdict = self.replayed.verdict()
        return {
            "now": self.now,
            "slow": self.is_slow,
            "moves": [str(it) for it in self.moves],
            "lanes": [self.lane_view(name, hands) for name, hands in self.hands.items()],
            "verdict": verdict,
            "log": self.replayed.log,
            "schedule": self.replayed.schedule(),
        }


def play(program: str, moves: Sequence[Move], is_slow: bool = False) -> Game:
    """The game after these moves."""
    game = Game(program, is_slow)
    for move in moves:
        game.do(move)
    return game


def hands_of(game: Game, side: Side) -> Iterator[tuple[str, list[Item]]]:
    """What the network has in each lane, on its way to a side."""
    for hands in game.hands.values():
        yield hands.lane.name, [it for it in hands.items if it.packet.to is side]
