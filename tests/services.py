#!/usr/bin/env python3
"""What is said of calls between nodes, held against their definitions (tests/service_model.py).
`tests/services.py [--runs N] [--worlds N] [--tries N] [--first SEED] [LIBRARY]`. Ends with 1 where one of these fails:

- runs: N random runs over an adversary that does whatever a safe wire may do (`tests/service_wire.py`): behind each
  turn every theorem is checked by the places of all octets, which no node sees.
- mutants: each defence is taken out of the definitions in turn (MUTANTS), and the runs fail; so they do where a life is
  used twice.
- cases: single ones, of lengths, marks, refusals, limits and counts.
- rows: eleven worked runs tell exactly what is written (`tests/service_rows.py`): over reports as they are written
  there; over plain stations (`tests/station_model.py`) in simulated time, whose reports are compared too; and, where
  `make -C lib` has made the library, over its nodes.
- world: random runs of three nodes over links that drop, repeat and reorder, with restarts: the theorems hold, by the
  names of the calls, over plain stations, and over nodes of the library. There the library's services are asked beside
  the definitions, and tell just what they say.

In tests/all: --runs 3000, 300 s."""
import argparse
import pathlib
import sys
import time
import types
from collections import Counter, defaultdict

import service_model
from service_model import CALLER, SERVICE, Flow, Limits, Piece, Report, Token, judged, message_of
from service_rows import Scripted, rows
from service_wire import Broken, Run
from service_world import Simulated, library, world

MODEL = pathlib.Path(service_model.__file__)

# --- defences that are taken away: texts of the definitions, each of which stands there once

MUTANTS: dict[str, list[tuple[str, str]]] = {
    "the life in the number": [("return life << 32 | count", "return count")],
    "the token goes with its reply": [
        (
            '            del self.open[token]\n        self._end()\n        return ("done",) if',
            '            pass\n        self._end()\n        return ("done",) if',
        )
    ],
    "dropping at run marks": [("        if piece.begin or piece.run:\n", "        if piece.begin:\n")],
    "patience": [("elif it.deadline <= self.now:", "elif False:")],
    "patience at its very moment": [("elif it.deadline <= self.now:", "elif it.deadline < self.now:")],
    "the name as token": [
        (
            "        self.begun: dict[Flow, bytes] = {}",
            "        self.handed, self.names = 0, {}\n        self.begun: dict[Flow, bytes] = {}",
        ),
        ("message_of(token.number, payload)", "message_of(self.names[token], payload)"),
        (
            "        token = Token(flow, number)",
            "        token = Token(flow, self.handed)\n        self.handed += 1\n        self.names[token] = number",
        ),
    ],
    "replies before judging": [
        (
            "        for flow in list(self.unread):\n",
            "        self._judge(doubted)\n        for flow in list(self.unread):\n",
        )
    ],
    "given up before patience": [
        (
            (
                '            if number in doubted:\n                self._finish(("unsure", number, "given up"))\n     '
                '       elif it.deadline'
            ),
            (
                '            if number in doubted and it.deadline > self.now:\n                self._finish(("unsure",'
                ' number, "given up"))\n            elif it.deadline'
            ),
        )
    ],
    "counting off what was settled": [('if word == "settled":', 'if word == "settled" and False:')],
    "a final state stays": [
        (
            "        del self.waiting[end[1]]\n",
            '        if end[0] == "answered":\n            del self.waiting[end[1]]\n',
        )
    ],
    "a token that stays open where its reply is full": [
        (
            '        if sent[0] == "taken":\n            del self.open[token]',
            "        if sent[0]:\n            del self.open[token]",
        )
    ],
    "a service that is full reads no more": [
        ("len(kept) < self.limits.most_open and", "len(kept) <= self.limits.most_open and")
    ],
    "a declined call uses up no number": [
        (
            "        number = number_of(self.life, self.count)\n",
            "        number = number_of(self.life, self.count)\n        self.count += 1\n",
        ),
        ("self.now + patience)\n        self.count += 1\n", "self.now + patience)\n"),
    ],
    "a reply is matched by its flow": [
        (
            "elif number in self.waiting and self.waiting[number].flow == flow.reversed():",
            "elif number in self.waiting:",
        )
    ],
    "a reply that was given up is told": [
        ("        if self.kinds.get(flow.source_port) == SERVICE and", "        if False and")
    ],
    "and not again before that was taken": [(" == SERVICE and told not in self.queue:", " == SERVICE:")],
    "all is read until nothing is there": [
        ("            while self._may_read(flow):", "            if self._may_read(flow):"),
        ("                    break\n", "                    continue\n"),
    ],
}
# those that no run needs, since other facts hold what they hold: a single case shows them
SILENT = {"a reply is matched by its flow"}


def mutant(edits: list[tuple[str, str]]) -> types.ModuleType:
    text = MODEL.read_text()
    for old, new in edits:
        if text.count(old) != 1:
            raise SystemExit(f"service: this stands {text.count(old)} times in {MODEL.name}: {old!r}")
        text = text.replace(old, new)
    module = types.ModuleType("mutant")
    sys.modules["mutant"] = module
    exec(compile(text, "mutant", "exec"), module.__dict__)
    return module


def first_failure(model: types.ModuleType, tries: int, has_lives_twice: bool = False) -> tuple[int, str] | None:
    for seed in range(tries):
        try:
            Run(seed, model, has_lives_twice).go()
        except Broken as why:
            return seed, str(why)
    return None


def mutants(tries: int) -> bool:
    right = True
    for name, edits in MUTANTS.items():
        module = mutant(edits)
        found = first_failure(module, tries)
        failed = failed_cases(module) if name in SILENT else []
        right &= bool(failed) if name in SILENT else found is not None
        told = f"run {found[0]} fails: {found[1]}" if found else f"none of {tries} runs fails"
        print(f"without {name!r}: {told}" + "".join(f"; the case fails: {it}" for it in failed), flush=True)
    found = first_failure(service_model, tries, has_lives_twice=True)
    print(
        "with lives that are used twice: " + (f"run {found[0]} fails: {found[1]}" if found else "no run fails"),
        flush=True,
    )
    return right and found is not None


def runs(count: int, first: int) -> bool:
    totals: Counter[str] = Counter()
    begun = time.process_time()
    for seed in range(first, first + count):
        run = Run(seed)
        try:
            run.go()
        except Broken as why:
            print(f"run {seed} fails: {why}")
            return False
        totals += run.referee.totals
    print(
        f"{count} runs hold, {time.process_time() - begun:.0f} s of a processor: "
        + ", ".join(f"{name} {it}" for name, it in sorted(totals.items()))
    )
    return all(
        totals[it]
        for it in (
            "made",
            "answered",
            "given up",
            "doubtful",
            "patience",
            "closed",
            "reply done",
            "reply gone",
            "reply full",
            "late",
            "old",
            "cut",
            "handed out",
            "declined quiet",
            "declined full",
            "declined many",
            "refused",
        )
    )


# --- single cases


class Pieces:
    """A station that takes all, and to which pieces, and the release of a record, come as they are."""

    def __init__(self, cap: int = 100_000) -> None:
        self.cap, self.wake = cap, None
        self.told: list[Report] = []
        self.unread: dict[Flow, list[Piece]] = defaultdict(list)

    def reports(self) -> list[Report]:
        told, self.told = self.told, []
        return told

    def send(self, at: int, flow: Flow, octets: bytes) -> tuple[object, ...]:
        return ("taken",)

    def arrive(self, at: int, came: list[tuple[Flow, Piece | None]]) -> None:
        for flow, piece in came:
            if piece is None:
                self.told.append(Report("released", flow))
            else:
                self.unread[flow].append(piece)
                self.told.append(Report("accepted", flow, len(piece.octets)))

    def tick(self, at: int) -> None:
        pass

    def read(self, at: int, flow: Flow) -> Piece | None:
        return self.unread[flow].pop(0) if self.unread[flow] else None


INTO, BACK = Flow(7, 10, 1, 20), Flow(2, 20, 1, 10)
OUT = BACK.reversed()


def message(number: int, text: bytes = b"", run: bool = False, begin: bool = True, end: bool = True) -> Piece:
    return Piece(message_of(number, text), begin, end, run)


def came(flow: Flow, *pieces: Piece | None) -> tuple[object, ...]:
    return "arrive", 5, [(flow, it) for it in pieces]


def request(number: int, text: bytes = b"") -> tuple[object, ...]:
    return "request", Token(INTO, number), text


# what happens, what each event tells, and what was counted
CASES: list[tuple[str, list[tuple[object, ...]], list[list[tuple[object, ...]]], dict[str, int]]] = [
    ("a whole message of seven octets is short", [came(INTO, Piece(b"1234567", True, True, True))], [[]], {"short": 1}),
    ("one of eight is a request that carries nothing", [came(INTO, message(9))], [[request(9)]], {}),
    (
        "one of 65,536 octets is handed out",
        [came(INTO, message(9, bytes(60_000), end=False), Piece(bytes(5_528), False, True, False))],
        [[request(9, bytes(65_528))]],
        {},
    ),
    (
        "a longer one is dropped to its end, and the next one isn't",
        [
            came(
                INTO,
                message(9, bytes(60_000), end=False),
                Piece(bytes(5_529), False, False, False),
                Piece(b"end", False, True, False),
                message(10),
            )
        ],
        [[request(10)]],
        {"long": 1},
    ),
    (
        "a begin mark begins anew",
        [came(INTO, message(9, b"a", end=False), message(10, b"b"))],
        [[request(10, b"b")]],
        {"cut": 1},
    ),
    (
        "behind a run mark nothing is joined",
        [came(INTO, message(9, b"a", end=False), Piece(b"c", False, True, True))],
        [[]],
        {"cut": 1},
    ),
    (
        "what was begun goes with its receiver",
        [came(INTO, message(9, b"a", end=False), None), came(INTO, Piece(b"c", False, True, False))],
        [[], []],
        {"cut": 1},
    ),
    ("octets without a begin mark are dropped", [came(INTO, Piece(b"12345678", False, True, True))], [[]], {}),
    ("a name that is open and comes again: neither has a name of its own",
     [
         came(INTO, message(9, b"a")),
         came(INTO, message(9, b"b")),
         ("reply", 6, Token(INTO, 9), b"A"),
         came(INTO, message(9, b"c")),
     ],
     [[request(9, b"a")], [], [("gone",)], [request(9, b"c")]], {"reused": 1}),
    ("what is asked wrongly is refused, and uses up no number",
     [
         ("call", 1, OUT._replace(source=3), b"", 9),
         ("call", 1, OUT._replace(source_port=20), b"", 9),
         ("call", 1, OUT._replace(source_port=30), b"", 9),
         ("call", 1, OUT._replace(target=1), b"", 9),
         ("call", 1, OUT, bytes(65_529), 9),
         ("call", 1, OUT, b"", 0),
         ("call", 1, OUT, b"", 1 << 32),
         ("call", 1, OUT, bytes(65_528), 9),
     ],
     [*[[("refused",)]] * 7, [("made", 5 << 32)]], {}),
    (
        "a port has one kind",
        [("port", 20, CALLER), ("port", 20, SERVICE), ("port", 30, CALLER)],
        [[("refused",)], [("refused",)], [("done",)]],
        {},
    ),
    (
        "a life is raised, but to none that is in use",
        [
            ("call", 1, OUT, b"", 9),
            ("raise_life", 5),
            ("raise_life", 6),
            ("raise_life", 5),
            ("raise_life", 6),
            ("call", 1, OUT, b"", 9),
            came(BACK, message(5 << 32, b"A"), message(6 << 32, b"B")),
        ],
        [
            [("made", 5 << 32)],
            [("refused",)],
            [("done",)],
            [("refused",)],
            [("refused",)],
            [("made", 6 << 32)],
            [("answered", 5 << 32, b"A"), ("answered", 6 << 32, b"B")],
        ],
        {},
    ),
    (
        "replies to nobody",
        [
            ("call", 1, OUT, b"", 9),
            came(BACK, message(5 << 32 | 1), message(4 << 32), message(5 << 32, b"A"), message(5 << 32, b"A2")),
        ],
        [[("made", 5 << 32)], [("answered", 5 << 32, b"A")]],
        {"strange": 1, "old": 1, "late": 1},
    ),
    (
        "a reply on another flow is strange",
        [("call", 1, OUT, b"", 9), came(BACK._replace(source=3), message(5 << 32, b"A"))],
        [[("made", 5 << 32)], []],
        {"strange": 1},
    ),
    (
        "a closed node's calls are unsure, in their order",
        [("call", 1, OUT, b"", 9), ("call", 1, OUT, b"", 9), ("close", 2)],
        [
            [("made", 5 << 32)],
            [("made", 5 << 32 | 1)],
            [("unsure", 5 << 32, "closed"), ("unsure", 5 << 32 | 1, "closed")],
        ],
        {},
    ),
    (
        "a forgotten request has no reply",
        [
            came(INTO, message(9)),
            ("forget", 6, Token(INTO, 9)),
            ("forget", 6, Token(INTO, 9)),
            ("reply", 6, Token(INTO, 9), b""),
        ],
        [[request(9)], [("done",)], [("gone",)], [("gone",)]],
        {},
    ),
    (
        "a moment that goes back counts as the latest",
        [("tick", 50), ("call", 1, OUT, b"", 9), ("tick", 58), ("tick", 59)],
        [[], [("made", 5 << 32)], [], [("unsure", 5 << 32, "patience")]],
        {},
    ),
]


def node_of(limits: Limits = Limits(), model: types.ModuleType = service_model) -> service_model.Node:
    node = model.Node(1, 5, Pieces(), limits)
    node.port(10, CALLER)
    node.port(20, SERVICE)
    return node


def limited() -> list[tuple[str, bool]]:
    """What waits for room, and what takes a place until it is taken."""
    # of two requests and one place the second is handed out with the turn of the first one's reply, once that was taken
    events = [came(INTO, message(9), message(10)), ("reply", 6, Token(INTO, 9), b""), ("take",), ("tick", 7)]
    each = judged(node_of(Limits(9, 1, 9)), events, keeps=True)
    taken = judged(node_of(Limits(9, 9, 1)), events)
    call = "call", 1, OUT, b"", 9
    many = judged(node_of(Limits(1, 9, 9)), [call, call, ("tick", 20), call, ("take",), call], keeps=True)
    last = node_of()
    last.count = (1 << 32) - 1
    numbers = judged(last, [call, call, ("raise_life", 6), call])
    # the head of 9 is read, then there is no room; its tail stays unread, and its record is released
    other = Token(INTO._replace(source=8), 4)
    kept = judged(
        node_of(Limits(9, 1, 9)),
        [
            came(INTO, message(9, b"a", end=False)),
            came(other.flow, message(4)),
            came(INTO, Piece(b"b", False, True, False)),
            came(INTO, None),
            ("reply", 6, other, b""),
        ],
    )
    return [
        (
            "a receiver with unread octets keeps what was begun",
            kept == [[], [("request", other, b"")], [], [], [("done",), request(9, b"ab")]],
        ),
        ("an untaken request has a place", each == [[request(9)], [("done",)], [request(9)], [request(10)]]),
        ("a reply makes room", taken == [[request(9)], [("done",), request(10)], [], []]),
        ("an untaken end has a place", [it[:1] for it in many] == [
            [("made", 5 << 32)], [("declined", "many")], [("unsure", 5 << 32, "patience")], [("declined", "many")],
            [("unsure", 5 << 32, "patience")], [("made", 5 << 32 | 1)],
        ]),
        (
            "a life has 2^32 numbers",
            numbers == [[("made", (6 << 32) - 1)], [("declined", "numbers")], [("done",)], [("made", 6 << 32)]],
        ),
    ]


def failed_cases(model: types.ModuleType) -> list[str]:
    """The single cases that differ."""
    failed = []
    for name, events, told, counts in CASES:
        node = node_of(model=model)
        if judged(node, events) != told or dict(node.counts) != counts:
            failed.append(name)
    return failed


def cases() -> bool:
    found = limited()
    failed = failed_cases(service_model) + [name for name, is_right in found if not is_right]
    print(
        f"{len(CASES) + len(found)} single cases" + (f", FAILED: {', '.join(failed)}" if failed else " are right"),
        flush=True,
    )
    return not failed


def main() -> int:
    reads = argparse.ArgumentParser(description=__doc__, formatter_class=argparse.RawDescriptionHelpFormatter)
    reads.add_argument("--runs", type=int, default=10_000)
    reads.add_argument("--first", type=int, default=0, metavar="SEED")
    reads.add_argument("--worlds", type=int, default=200, help="the runs of three nodes")
    reads.add_argument("--tries", type=int, default=3_000, help="the runs that a mutant gets")
    reads.add_argument("library", nargs="?")
    given = reads.parse_args()
    deltat = library(given.library)
    right = [cases(), rows(Scripted, "scripts"), runs(given.runs, given.first), mutants(given.tries)]
    right += [rows(lambda params: Simulated(params, None), "plain stations"), world(given.worlds, given.first, None)]
    if deltat:
        right += [
            rows(lambda params: Simulated(params, deltat), "the library"),
            world(given.worlds, given.first, deltat),
        ]
    else:
        print("nothing was tried over the library, since it isn't there: make -C lib")
    return 0 if all(right) else 1


if __name__ == "__main__":
    sys.exit(main())
