"""A client that orders cups, a dispenser that pours them, and packets between them: what `tools/demo.py` and
`tools/adversary.py` need of a protocol, whichever it is. One protocol with its client, its dispenser and its
packets is a lane. The network isn't part of a lane: who plays it decides which packet arrives, and when.

All moments and times are in ms."""
import enum
from abc import ABC, abstractmethod
from dataclasses import dataclass

# a node does what is due at multiples of this
TICK = 100


class Side(enum.Enum):
    """One of the two nodes; the value is its number in schedules."""

    CLIENT = 1
    DISPENSER = 2

    @property
    def other(self) -> "Side":
        return Side(3 - self.value)

    @property
    def word(self) -> str:
        return self.name.lower()


class State(enum.Enum):
    """What the client knows of an order."""

    WAITING = "waiting"
    REFUSED = "refused: the client is silent"
    DELIVERED = "delivered: the dispenser has it"
    ANSWERED = "answered: poured"
    UNSURE = "unsure: poured once or not at all"
    UNKNOWN = "no answer: the client gave up"
    FORGOTTEN = "the client was killed before an answer"


class Kind(enum.Enum):
    """What a mark is about."""

    ORDERED = "ordered"
    REFUSED = "refused"
    POURED = "poured"
    ANSWERED = "answered"
    DELIVERED = "delivered"
    SEEN = "seen"
    IGNORED = "ignored"
    RESET = "reset"
    UNSURE = "unsure"
    KILLED = "killed"
    STARTED = "started"
    DEAF = "deaf"


@dataclass(frozen=True)
class Packet:
    """A packet that left a node. Numbers count from 0 in each lane, in the order of leaving."""

    number: int
    to: Side
    text: str
    put: int
    order: int | None


@dataclass(frozen=True)
class Mark:
    """What a node did or noticed, in words, and the order that it is about."""

    moment: int
    side: Side
    kind: Kind
    text: str
    order: int | None = None


class Lane(ABC):
    """One protocol with its client and its dispenser. Both are running at the moment 0."""

    name = ""
    # how long a node is silent that starts again
    quiet_time = 0

    def __init__(self) -> None:
        self.now = 0
        self.packets: list[Packet] = []
        self.marks: list[Mark] = []
        self.running = {Side.CLIENT: True, Side.DISPENSER: True}
        self.orders: dict[int, State] = {}
        self.cups: dict[int, int] = {}

    # what a protocol does

    @abstractmethod
    def send_order(self, order: int) -> None:
        """The client, which is running, sends a new order."""

    @abstractmethod
    def receive(self, packet: Packet) -> None:
        """A packet arrives at a node that is running."""

    @abstractmethod
    def advance(self, moment: int) -> None:
        """Time passes up to a moment, or to the first at which a packet leaves. The nodes that are running do what is
        due."""

    @abstractmethod
    def forget(self, side: Side) -> None:
        """A node was killed: what it had in memory is gone."""

    @abstractmethod
    def wake(self, side: Side) -> None:
        """A node starts again."""

    def silent_until(self, side: Side) -> int:
        """The moment before which a node sends and accepts nothing. The usual node is never silent."""
        del side
        return 0

    # what a network does

    def order(self, order: int) -> None:
        """Someone orders a cup, if the client is running."""
        if not self.running[Side.CLIENT]:
            return
        self.orders[order], self.cups[order] = State.WAITING, 0
        self.mark(Side.CLIENT, Kind.ORDERED, f"order {order}", order)
        self.send_order(order)

    def arrive(self, packet: Packet) -> None:
        """A packet arrives. If the node isn't running, nothing happens."""
        if self.running[packet.to]:
            self.receive(packet)
        else:
            self.mark(packet.to, Kind.DEAF, f"{packet.text}: nobody is there", packet.order)

    def lose(self, packet: Packet) -> None:
        """The network has no copy of a packet any more."""

    def kill(self, side: Side) -> None:
        """A node is killed, if it is running."""
        if self.running[side]:
            self.running[side] = False
            self.mark(side, Kind.KILLED, f"the {side.word} is killed")
            if side is Side.CLIENT:
                for order, state in self.orders.items():
                    if state in (State.WAITING, State.DELIVERED):
                        self.orders[order] = State.FORGOTTEN
            self.forget(side)

    def start(self, side: Side) -> None:
        """A node that was killed starts again."""
        if not self.running[side]:
            self.running[side] = True
            self.mark(side, Kind.STARTED, f"the {side.word} starts again")
            self.wake(side)

    # what lanes share

    def mark(self, side: Side, kind: Kind, text: str, order: int | None = None) -> None:
        self.marks.append(Mark(self.now, side, kind, text, order))

    def put(self, to: Side, text: str, order: int | None) -> Packet:
        """A packet leaves now."""
        packet = Packet(len(self.packets), to, text, self.now, order)
        self.packets.append(packet)
        return packet

    def pour(self, order: int) -> None:
        """The dispenser pours a cup."""
        self.cups[order] = self.cups.get(order, 0) + 1
        again = "" if self.cups[order] == 1 else f", cup {self.cups[order]} of one order"
        self.mark(Side.DISPENSER, Kind.POURED, f"order {order} is poured{again}", order)

    def answered(self, order: int) -> None:
        """The client has the answer to an order."""
        self.orders[order] = State.ANSWERED
        self.mark(Side.CLIENT, Kind.ANSWERED, f"order {order} is answered", order)

    def fault(self) -> str:
        """How the network has won: an order that was poured more than once, or that the client takes for poured
        and that wasn't. Empty if it hasn't."""
        for order, cups in self.cups.items():
            if cups > 1:
                return f"order {order} was poured {cups} times"
        for order, state in self.orders.items():
            if state in (State.ANSWERED, State.DELIVERED) and not self.cups[order]:
                return f"order {order} wasn't poured, and the client believes that it was"
        return ""
