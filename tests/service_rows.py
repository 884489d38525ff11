"""Eleven worked runs of calls between two nodes, each row with all that it tells. `tests/services.py` holds them.

The client is node 1 with the life 5, the server node 2 with the life 1; F is the flow 1:10>2:20, and R its way back.
The parameters are mpl 1000, r 3000, a 200, rto 500 and probe 800, segments of 100 octets and rooms and windows of
4,096, where a run says nothing else.

A row has the moment, the event, what it tells, the calls that wait behind it, and the requests that are open. What it
tells is the status of what was asked, then what the station of the node tells of octets (sent, resent, settled,
uncertain, accepted: flow, number and octets, marks), the requests that are handed out and the ends, and what was
counted. `comes` hands over the last frame that left with what is told, and lets the node tick before where that was due
earlier.

In tests/all: not a test."""
from collections import Counter, defaultdict
from collections.abc import Callable
from typing import NamedTuple, Protocol

import service_model
from service_model import CALLER, SERVICE, Flow, Limits, Piece, Report, Token


class Row(NamedTuple):
    at: int
    event: str
    told: list[str]
    waits: str
    open: str


class Worked(NamedTuple):
    name: str
    params: dict[str, int]
    rows: list[Row]


TEXT = """
# answered, in any order
0 | call "a" 8000 | made 5.0; sent F 0 9 dbe | 5.0 | -
0 | call "b" 8000 | made 5.1; sent F 9 9 be | 5.0, 5.1 | -
40 | comes | accepted F 0 9 run; handed 5.0 "a" | 5.0, 5.1 | 5.0
40 | comes | accepted F 9 9 on; handed 5.1 "b" | 5.0, 5.1 | 5.0, 5.1
70 | reply 5.1 "B" | done; sent R 0 9 dbe | 5.0, 5.1 | 5.0
70 | reply 5.0 "A" | done; sent R 9 9 be | 5.0, 5.1 | -
70 | reply 5.0 "A2" | gone | 5.0, 5.1 | -
110 | comes | accepted R 0 9 run; answered 5.1 "B" | 5.0 | -
110 | comes | accepted R 9 9 on; answered 5.0 "A" | - | -

# the request is lost
0 | call "a" 8000 | made 5.0; sent F 0 9 dbe | 5.0 | -
5199 | tick | | 5.0 | -
5200 | tick | uncertain F 9; unsure 5.0 given up | - | -

# the reply is late
0 | call "a" 3000 | made 5.0; sent F 0 9 dbe | 5.0 | -
40 | comes | accepted F 0 9 run; handed 5.0 "a" | 5.0 | 5.0
40 | reply 5.0 "A" | done; sent R 0 9 dbe | 5.0 | -
3000 | tick | unsure 5.0 patience | - | -
3010 | comes | accepted R 0 9 run; counted late 1 | - | -

# two replies are lost
0 | call "a" 8000 | made 5.0; sent F 0 9 dbe | 5.0 | -
0 | call "b" 8000 | made 5.1; sent F 9 9 be | 5.0, 5.1 | -
40 | comes | accepted F 0 9 run; handed 5.0 "a" | 5.0, 5.1 | 5.0
40 | comes | accepted F 9 9 on; handed 5.1 "b" | 5.0, 5.1 | 5.0, 5.1
40 | comes | settled F 18 4087 | 5.0, 5.1 | 5.0, 5.1
40 | reply 5.0 "A" | done; sent R 0 9 dbe | 5.0, 5.1 | 5.1
40 | reply 5.1 "B" | done; sent R 9 9 be | 5.0, 5.1 | -
5239 | server ticks | | 5.0, 5.1 | -
5240 | server ticks | uncertain R 9; uncertain R 9; doubtful F | 5.0, 5.1 | -
8000 | tick | unsure 5.0 patience; unsure 5.1 patience | - | -

# a slow service, and its client restarts
0 | call "pay A" 8000 | made 5.0; sent F 0 13 dbe | 5.0 | -
40 | comes | accepted F 0 13 run; handed 5.0 "pay A" | 5.0 | 5.0
100 | client restarts, life 6 | | - | 5.0
6299 | call "pay B" 8000 | declined quiet 6300 | - | 5.0
6300 | call "pay B" 8000 | made 6.0; sent F 0 13 dbe | 6.0 | 5.0
6320 | comes | accepted F 0 13 run; handed 6.0 "pay B" | 6.0 | 5.0, 6.0
6320 | reply 5.0 "paid A" | done; sent R 0 14 dbe | 6.0 | 6.0
6340 | comes | accepted R 0 14 run; counted old 1 | 6.0 | 6.0
6340 | reply 6.0 "paid B" | done; sent R 14 14 be | 6.0 | -
6360 | comes | accepted R 14 14 on; answered 6.0 "paid B" | - | -

# the server restarts between request and reply
0 | call "a" 8000 | made 5.0; sent F 0 9 dbe | 5.0 | -
40 | comes | accepted F 0 9 run; handed 5.0 "a" | 5.0 | 5.0
40 | comes | settled F 9 4087 | 5.0 | 5.0
100 | server restarts, life 2 | | 5.0 | -
100 | reply 5.0 "A" | gone | 5.0 | -
6400 | reply 5.0 "A" | gone | 5.0 | -
6400 | call "b" 1000 | made 5.1; sent F 0 9 dbe | 5.0, 5.1 | -
6410 | comes | accepted F 0 9 run; handed 5.1 "b" | 5.0, 5.1 | 5.1
6410 | reply 5.1 "B" | done; sent R 0 9 dbe | 5.0, 5.1 | -
6420 | comes | accepted R 0 9 run; answered 5.1 "B" | 5.0 | -
8000 | tick | unsure 5.0 patience | - | -

# given up and yet served: the reply comes in that very turn, or in a later one
0 | call "a" 8000 | made 5.0; sent F 0 9 dbe | 5.0 | -
1 | call "b" 8000 | made 5.1; sent F 9 9 be | 5.0, 5.1 | -
40 | comes | accepted F 0 9 run; handed 5.0 "a" | 5.0, 5.1 | 5.0
40 | comes | accepted F 9 9 on; handed 5.1 "b" | 5.0, 5.1 | 5.0, 5.1
5151 | reply 5.0 "A" | done; sent R 0 9 dbe | 5.0, 5.1 | 5.1
5151 | reply 5.1 "B" | done; sent R 9 9 be | 5.0, 5.1 | -
5200 | comes | uncertain F 9; accepted R 0 9 run; answered 5.0 "A" | 5.1 | -
5201 | tick | uncertain F 9; unsure 5.1 given up | - | -
5201 | comes | accepted R 9 9 on; counted late 1 | - | -

# a tail and the next head are passed over / seg 10, window 25
0 | call "AAAAAAA" 8000 | made 5.0; sent F 0 10 db; sent F 10 5 e | 5.0 | -
0 | call "BBBBBBB" 8000 | made 5.1; sent F 15 10 b | 5.0, 5.1 | -
2540 | comes | accepted F 0 10 run | 5.0, 5.1 | -
2750 | comes | settled F 10 4096; sent F 25 5 e | 5.0, 5.1 | -
5200 | tick | uncertain F 5; uncertain F 10; unsure 5.0 given up; unsure 5.1 given up | - | -
5250 | tick | resent F 25 5 de | - | -
5260 | comes | accepted F 25 5 run; counted cut 1 | - | -
5260 | call "CC" 8000 | made 5.2; sent F 30 10 be | 5.2 | -
5270 | comes | accepted F 30 10 on; handed 5.2 "CC" | 5.2 | 5.2

# declined, and a reply for which there is no room / cap 40
0 | call "01234567890123456789" 8000 | made 5.0; sent F 0 28 dbe | 5.0 | -
0 | call "another of 20 octets" 8000 | declined full 12 | 5.0 | -
0 | call "b" 8000 | made 5.1; sent F 28 9 be | 5.0, 5.1 | -
40 | comes | accepted F 0 28 run; handed 5.0 "01234567890123456789" | 5.0, 5.1 | 5.0
40 | comes | accepted F 28 9 on; handed 5.1 "b" | 5.0, 5.1 | 5.0, 5.1
40 | reply 5.0 "01234567890123456789" | done; sent R 0 28 dbe | 5.0, 5.1 | 5.1
40 | reply 5.1 "a reply of 22 octets.." | full 12 | 5.0, 5.1 | 5.1
80 | comes | accepted R 0 28 run; answered 5.0 "01234567890123456789" | 5.1 | 5.1
90 | comes | settled R 28 4068 | 5.1 | 5.1
90 | reply 5.1 "a reply of 22 octets.." | done; sent R 28 30 dbe | 5.1 | -
100 | comes | accepted R 28 30 on; answered 5.1 "a reply of 22 octets.." | - | -

# unsure, and asked again on the same flow
0 | call "order 17" 300 | made 5.0; sent F 0 16 dbe | 5.0 | -
300 | tick | unsure 5.0 patience | - | -
300 | call "was 17 booked?" 8000 | made 5.1; sent F 16 22 be | 5.1 | -
510 | comes | accepted F 0 16 run; handed 5.0 "order 17" | 5.1 | 5.0
510 | reply 5.0 "booked" | done; sent R 0 14 dbe | 5.1 | -
550 | comes | accepted R 0 14 run; counted late 1 | 5.1 | -
1110 | comes | accepted F 16 22 on; handed 5.1 "was 17 booked?" | 5.1 | 5.1
1110 | reply 5.1 "yes" | done; sent R 14 11 be | 5.1 | -
1120 | comes | accepted R 14 11 on; answered 5.1 "yes" | - | -

# a life that was not raised: the answer of another call
0 | call "pay A" 8000 | made 5.0; sent F 0 13 dbe | 5.0 | -
0 | call "pay C" 8000 | made 5.1; sent F 13 13 be | 5.0, 5.1 | -
40 | comes | accepted F 0 13 run; handed 5.0 "pay A" | 5.0, 5.1 | 5.0
40 | comes | accepted F 13 13 on; handed 5.1 "pay C" | 5.0, 5.1 | 5.0, 5.1
100 | client restarts, life 5 | | - | 5.0, 5.1
6300 | call "pay B" 8000 | made 5.0; sent F 0 13 dbe | 5.0 | 5.0, 5.1
6300 | reply 5.0 "paid A" | done; sent R 0 14 dbe | 5.0 | 5.1
6300 | reply 5.1 "paid C" | done; sent R 14 14 be | 5.0 | -
6310 | comes | accepted R 0 14 run; answered 5.0 "paid A" | - | -
6310 | comes | accepted R 14 14 on; counted strange 1 | - | -
6310 | comes | accepted F 0 13 run; handed 5.0 "pay B" | - | 5.0
"""


def row(line: str) -> Row:
    at, event, told, waits, opened = (it.strip() for it in line.split("|"))
    return Row(int(at), event, [it for it in told.split("; ") if it], waits, opened)


def worked(text: str) -> Worked:
    head, *lines = text.splitlines()
    name, _, params = head.removeprefix("# ").partition(" / ")
    words = [it.split() for it in params.split(", ") if it]
    return Worked(name, {word: int(number) for word, number in words}, [row(it) for it in lines])


RUNS = [worked(it) for it in TEXT.strip().split("\n\n")]


CLIENT, SERVER = 1, 2
F = Flow(CLIENT, 10, SERVER, 20)
FLOW_NAMES = {F: "F", F.reversed(): "R"}
STATION_WORDS = ("sent", "resent", "settled", "uncertain", "accepted")


class RowStation(service_model.Station, Protocol):
    """A station that knows the row, and tells of its event what a row tells of octets."""

    row: list[str]

    def lines(self) -> list[str]: ...


class Ground(Protocol):
    """What a worked run stands on."""

    def station(self, me: int, at: int, is_again: bool) -> RowStation: ...

    def before(self, nodes: dict[int, service_model.Node], me: int, at: int) -> None:
        """What was due before an event of this node is done."""

    def came(self, row: Row) -> object:
        """What is handed over where a row has `comes`."""


class Script:
    """A station that tells what a row says. The octets that it gives are those that were sent with this number last."""

    def __init__(self, me: int, segments: dict[tuple[str, str], Piece], cap: int = 4096) -> None:
        self.me, self.segments, self.cap, self.wake = me, segments, cap, None
        self.row: list[str] = []
        self.told: list[Report] = []
        self.pending: list[tuple[bytes, bool, bool]] = []
        self.rows: dict[Flow, list[Piece]] = defaultdict(list)

    def lines(self) -> list[str]:
        return [it for it in self.row if it.split()[0] in STATION_WORDS]

    def reports(self) -> list[Report]:
        told, self.told = self.told, []
        return told

    def send(self, at: int, flow: Flow, octets: bytes) -> tuple[object, ...]:
        for words in (it.removeprefix("declined ").split() for it in self.row[:1]):
            if words[0] in ("quiet", "full"):
                return words[0], int(words[1])
        self.told.append(Report("took", flow, len(octets)))
        self.pending += [(octets[at : at + 1], at == 0, at == len(octets) - 1) for at in range(len(octets))]
        self.act()
        return ("taken",)

    def arrive(self, at: int, came: object) -> None:
        self.act()

    def tick(self, at: int) -> None:
        self.act()

    def act(self) -> None:
        for word, name, *rest in (it.split() for it in self.lines()):
            flow = F if name == "F" else F.reversed()
            if word == "sent":
                octets, self.pending = self.pending[: int(rest[1])], self.pending[int(rest[1]) :]
                self.segments[name, rest[0]] = Piece(
                    b"".join(it[0] for it in octets), octets[0][1], octets[-1][2], False
                )
            elif word == "accepted":
                self.rows[flow].append(self.segments[name, rest[0]]._replace(run=rest[2] == "run"))
                self.told.append(Report("accepted", flow, int(rest[1])))
            elif word in ("settled", "uncertain"):
                self.told.append(Report(word, flow, int(rest[0])))

    def read(self, at: int, flow: Flow) -> Piece | None:
        return self.rows[flow].pop(0) if self.rows[flow] else None


class Scripted:
    """The ground of a worked run whose stations are scripts."""

    def __init__(self, params: dict[str, int]) -> None:
        self.params, self.segments = params, {}

    def station(self, me: int, at: int, is_again: bool) -> Script:
        return Script(me, self.segments, self.params.get("cap", 4096))

    def before(self, nodes: dict[int, service_model.Node], me: int, at: int) -> None:
        """Nothing is: the rows have all of it."""

    def came(self, row: Row) -> object:
        return None


def call_name(number: int) -> str:
    return f"{number >> 32}.{number & 0xFFFF_FFFF}"


def number_in(name: str) -> int:
    life, count = name.split(".")
    return int(life) << 32 | int(count)


def told_line(it: tuple[object, ...]) -> str:
    """A status, a request or an end, as a row has it."""
    word, *rest = it
    if word == "request":
        return f'handed {call_name(rest[0].number)} "{rest[1].decode()}"'
    if word == "answered":
        return f'answered {call_name(rest[0])} "{rest[1].decode()}"'
    if word == "doubtful":
        return f"doubtful {FLOW_NAMES[rest[0]]}"
    if word in ("unsure", "made"):
        return " ".join([word, call_name(rest[0]), *rest[1:]])
    return " ".join(str(part) for part in it)


class Stage:
    """A worked run: its nodes, and what its rows do to them."""

    def __init__(self, ground: Ground) -> None:
        self.ground = ground
        self.nodes: dict[int, service_model.Node] = {}
        for me, life in ((CLIENT, 5), (SERVER, 1)):
            self.start(me, life, 0, is_again=False)

    def start(self, me: int, life: int, at: int, is_again: bool) -> None:
        self.nodes[me] = service_model.Node(me, life, self.ground.station(me, at, is_again), Limits(), at)
        self.nodes[me].port(10, CALLER) if me == CLIENT else self.nodes[me].port(20, SERVICE)

    @staticmethod
    def node_of(row: Row) -> int:
        """Whose event a row is."""
        if row.event.startswith(("reply", "server")):
            return SERVER
        is_server = row.event == "comes" and any(it.startswith(("accepted F", "settled R")) for it in row.told)
        return SERVER if is_server else CLIENT

    def told(self, row: Row) -> list[str]:
        me = self.node_of(row)
        self.ground.before(self.nodes, me, row.at)
        word, _, rest = row.event.partition(" ")
        if "restarts" in row.event:
            self.start(me, int(row.event.split()[-1]), row.at, is_again=True)
            return []
        node, status = self.nodes[me], None
        counts = Counter(node.counts)
        node.station.row = row.told
        if word == "call":
            payload, patience = rest.rsplit(" ", 1)
            status = node.call(row.at, F, payload.strip('"').encode(), int(patience))
        elif word == "reply":
            name, payload = rest.split(" ", 1)
            status = node.reply(row.at, Token(F, number_in(name)), payload.strip('"').encode())
        elif word == "comes":
            node.arrive(row.at, self.ground.came(row))
        else:
            node.tick(row.at)
        counted = [f"counted {name} {it}" for name, it in (node.counts - counts).items()]
        return [*([told_line(status)] if status else []), *node.station.lines(), *map(told_line, node.told), *counted]

    def fault(self, row: Row) -> str | None:
        """How a row differs from what is told, if it does."""
        told = self.told(row)
        waits = ", ".join(map(call_name, self.nodes[CLIENT].waiting)) or "-"
        opened = ", ".join(sorted(call_name(it.number) for it in self.nodes[SERVER].open)) or "-"
        return (
            None
            if (told, waits, opened) == (row.told, row.waits, row.open)
            else f"{'; '.join(told)} | {waits} | {opened}"
        )


def rows(make: Callable[[dict[str, int]], Ground], over: str) -> bool:
    right = True
    for run in RUNS:
        stage = Stage(make(run.params))
        for row in run.rows:
            fault = stage.fault(row)
            if fault is not None:
                print(
                    f"{over}, {run.name}: at {row.at} {row.event}: {'; '.join(row.told)} | {row.waits} | {row.open},"
                    f" but it is {fault}"
                )
                right = False
                break
    print(f"{len(RUNS)} worked runs over {over}: {'as they are written' if right else 'FAILED'}", flush=True)
    return right
