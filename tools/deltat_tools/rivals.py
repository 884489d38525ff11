"""Models of three other ways to order a cup: HTTP with retries, HTTP with keys that the dispenser keeps in memory, and
CoAP's confirmable messages. They leave out what would only help the network against them: a connection of TCP is opened
without packets if the dispenser is running, an acknowledgement is never sent by itself, and nobody forges a packet.

HTTP's client is one as `curl --max-time 3 --retry 3 --retry-all-errors` is. CoAP's rules and times are those of RFC
7252, sections 4.2, 4.5 and 4.8, without the random part of ACK_TIMEOUT."""
import random
from dataclasses import dataclass

from deltat_tools.lanes import Kind, Lane, Packet, Side, State

NEVER = 1 << 62


@dataclass
class Attempt:
    """An order that the client of HTTP waits for: its connection, and when it sends the request again, gives the
    connection up, and opens the next one."""

    order: int
    connection: int = 0
    tries: int = 0
    gap: int = 0
    resend: int = NEVER
    deadline: int = NEVER
    again: int = NEVER

    @property
    def due(self) -> int:
        return min(self.resend, self.deadline, self.again)


class Http(Lane):
    """HTTP over TCP: the client repeats an order on a new connection until it has an answer. Within a connection TCP
    delivers a request once."""

    name = "HTTP, retries"
    FIRST_RESEND = 1_000
    PATIENCE = 3_000
    PAUSE = 1_000
    TRIES = 4
    has_keys = False

    def __init__(self) -> None:
        super().__init__()
        self.attempts: dict[int, Attempt] = {}
        self.connection = 0
        # the connection of each packet, and the order of each connection
        self.connection_of: dict[int, int] = {}
        self.requests: dict[int, int] = {}
        # what the dispenser has in memory: connections, those of which it has a request, and keys
        self.open: set[int] = set()
        self.handled: set[int] = set()
        self.keys: set[int] = set()

    def send_order(self, order: int) -> None:
        self.attempts[order] = Attempt(order)
        self.connect(self.attempts[order])

    def connect(self, attempt: Attempt) -> None:
        """Opens a connection and sends the request; without a dispenser, pauses."""
        if attempt.tries == self.TRIES:
            del self.attempts[attempt.order]
            self.orders[attempt.order] = State.UNKNOWN
            self.mark(
                Side.CLIENT, Kind.UNSURE, f"order {attempt.order} has no answer after {self.TRIES} tries", attempt.order
            )
            return
        attempt.tries += 1
        attempt.resend = attempt.deadline = attempt.again = NEVER
        if not self.running[Side.DISPENSER]:
            attempt.again = self.now + self.PAUSE
            return
        self.connection += 1
        attempt.connection, self.requests[self.connection] = self.connection, attempt.order
        self.open.add(self.connection)
        attempt.deadline, attempt.gap = self.now + self.PATIENCE, self.FIRST_RESEND
        self.request(attempt)

    def request(self, attempt: Attempt) -> None:
        """The segment with the request leaves, for the first time or once more."""
        packet = self.put(Side.DISPENSER, f"request {attempt.order} ({attempt.connection})", attempt.order)
        self.connection_of[packet.number] = attempt.connection
        attempt.resend, attempt.gap = self.now + attempt.gap, 2 * attempt.gap

    def advance(self, moment: int) -> None:
        while self.running[Side.CLIENT] and self.attempts:
            attempt = min(self.attempts.values(), key=lambda it: it.due)
            if attempt.due > moment:
                break
            self.now, before = attempt.due, len(self.packets)
            if attempt.resend == self.now and attempt.deadline > self.now:
                self.request(attempt)
            elif attempt.deadline == self.now:
                self.fail(attempt)
            else:
                self.connect(attempt)
            if len(self.packets) > before:
                return
        self.now = moment

    def fail(self, attempt: Attempt) -> None:
        """The client gives its connection up, and opens another one after a pause."""
        attempt.connection, attempt.resend, attempt.deadline, attempt.again = 0, NEVER, NEVER, self.now + self.PAUSE

    def receive(self, packet: Packet) -> None:
        connection = self.connection_of[packet.number]
        if packet.to is Side.DISPENSER:
            self.receive_request(connection, self.requests[connection])
        else:
            self.receive_answer(connection, self.requests[connection], packet.text.startswith("reset"))

    def receive_request(self, connection: int, order: int) -> None:
        if connection not in self.open:
            self.mark(Side.DISPENSER, Kind.RESET, f"connection {connection} isn't known", order)
            self.answer(connection, f"reset ({connection})", order)
            return
        if connection in self.handled:
            self.mark(Side.DISPENSER, Kind.SEEN, f"TCP has seen this segment of connection {connection}", order)
        elif order in self.keys:
            self.mark(Side.DISPENSER, Kind.SEEN, f"the key of order {order} is known: answered from memory", order)
        else:
            self.pour(order)
            if self.has_keys:
                self.keys.add(order)
        self.handled.add(connection)
        self.answer(connection, f"answer {order} ({connection})", order)

    def answer(self, connection: int, text: str, order: int) -> None:
        self.connection_of[self.put(Side.CLIENT, text, order).number] = connection

    def receive_answer(self, connection: int, order: int, is_reset: bool) -> None:
        attempt = self.attempts.get(order)
        if attempt is None or attempt.connection != connection:
            self.mark(Side.CLIENT, Kind.IGNORED, f"connection {connection} is closed", order)
        elif is_reset:
            self.mark(Side.CLIENT, Kind.RESET, f"connection {connection} was reset", order)
            self.fail(attempt)
        else:
            del self.attempts[order]
            self.answered(order)

    def forget(self, side: Side) -> None:
        if side is Side.CLIENT:
            self.attempts.clear()
        else:
            self.open.clear()
            self.handled.clear()
            self.keys.clear()

    def wake(self, side: Side) -> None:
        pass


class HttpKeys(Http):
    """HTTP with a key for each order: the dispenser remembers the keys that it served, in memory, and answers a known
    one without pouring."""

    name = "HTTP, keys in memory"
    has_keys = True


@dataclass
class Exchange:
    """A confirmable message that the client waits for."""

    order: int
    resends: int
    gap: int
    due: int


class Coap(Lane):
    """CoAP's confirmable messages: the client sends a message with an identifier until it is acknowledged, and the
    dispenser remembers the identifiers of the last EXCHANGE_LIFETIME, in memory. No packet has its age, so nothing
    makes sure that none is older."""

    name = "CoAP, confirmable"
    ACK_TIMEOUT = 2_000
    MAX_RETRANSMIT = 4
    EXCHANGE_LIFETIME = 247_000

    def __init__(self, seed: int = 7252) -> None:
        super().__init__()
        self.chance = random.Random(seed)
        self.next = self.chance.randrange(65_536)
        self.exchanges: dict[int, Exchange] = {}
        # when the dispenser first saw an identifier
        self.seen: dict[int, int] = {}
        self.identifier_of: dict[int, int] = {}

    def send_order(self, order: int) -> None:
        identifier, self.next = self.next, (self.next + 1) % 65_536
        self.exchanges[identifier] = Exchange(order, 0, self.ACK_TIMEOUT, self.now + self.ACK_TIMEOUT)
        self.message(Side.DISPENSER, f"CON {identifier}", order, identifier)

    def message(self, to: Side, text: str, order: int, identifier: int) -> None:
        self.identifier_of[self.put(to, text, order).number] = identifier

    def advance(self, moment: int) -> None:
        while self.running[Side.CLIENT] and self.exchanges:
            identifier, exchange = min(self.exchanges.items(), key=lambda it: it[1].due)
            if exchange.due > moment:
                break
            self.now = exchange.due
            if exchange.resends == self.MAX_RETRANSMIT:
                del self.exchanges[identifier]
                self.orders[exchange.order] = State.UNKNOWN
                self.mark(Side.CLIENT, Kind.UNSURE, f"order {exchange.order} has no acknowledgement", exchange.order)
                continue
            exchange.resends, exchange.gap = exchange.resends + 1, 2 * exchange.gap
            exchange.due = self.now + exchange.gap
            self.message(Side.DISPENSER, f"CON {identifier}", exchange.order, identifier)
            return
        self.now = moment

    def receive(self, packet: Packet) -> None:
        identifier, order = self.identifier_of[packet.number], packet.order
        assert order is not None
        if packet.to is Side.CLIENT:
            if self.exchanges.pop(identifier, None):
                self.answered(order)
            else:
                self.mark(Side.CLIENT, Kind.IGNORED, f"nothing waits for identifier {identifier}", order)
            return
        self.seen = {it: since for it, since in self.seen.items() if self.now - since < self.EXCHANGE_LIFETIME}
        if identifier in self.seen:
            self.mark(Side.DISPENSER, Kind.SEEN, f"identifier {identifier} is known: acknowledged again", order)
        else:
            self.seen[identifier] = self.now
            self.pour(order)
        self.message(Side.CLIENT, f"ACK {identifier}", order, identifier)

    def forget(self, side: Side) -> None:
        if side is Side.CLIENT:
            self.exchanges.clear()
        else:
            self.seen.clear()

    def wake(self, side: Side) -> None:
        if side is Side.CLIENT:
            self.next = self.chance.randrange(65_536)


RIVALS: dict[str, type[Http] | type[HttpKeys] | type[Coap]] = {"http": Http, "keys": HttpKeys, "coap": Coap}
