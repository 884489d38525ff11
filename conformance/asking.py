#!/usr/bin/env python3
"""What this project's program makes of frames: `conformance/asking.py PROGRAM`.

Reads lines of hexadecimal digits, a frame each, lets PROGRAM run nodes again that hear them, and writes for
each a line of what was told of it: what the frame says, or its fault (README.md, "Frames"). Nothing is read
from a frame here. Ends with 2 at a frame from a node to itself: no script may read what that brings."""
import argparse
import pathlib
import sys

TOP = pathlib.Path(__file__).resolve().parent.parent
sys.path[:0] = [str(TOP / "tests"), str(TOP / "tools")]
import wire  # noqa: E402
from lib import answer, heard  # noqa: E402

# a moment that is later by this finds no record of the one before, but what was unread then
LATER = 10_000
LAST_NODE = 2**32 - 1
# the octets that a receiver holds unread
ROOM = 65_536


class Asked:
    """A frame, and what was told of it: its fault, the node that it goes to, its life, and the words of its line."""

    def __init__(self, frame: bytes) -> None:
        self.frame = frame
        self.fault = ""
        self.target = LAST_NODE
        self.life = 0
        self.words: list[str] = []
        self.letters = ""
        self.octets = ""

    def line(self) -> str:
        """What the frame says, or its fault."""
        if self.fault:
            return f"bad {self.fault}"
        word, flow, number, *more = self.words
        kind = {"accepted": "data", "ignored": "ack", "replied": "rendezvous", "closing": "closing"}[word]
        way = wire.Flow.read(flow)
        source, source_port, target, target_port = way.back() if kind == "ack" else way
        said = f"{kind} {self.life} {source}:{source_port}>{target}:{target_port} {number}"
        return (
            f"{said} {self.letters} {self.octets}" if kind == "data" else f"{said} {more[0]}" if kind == "ack" else said
        )


def find_targets(program: str, asked: list[Asked]) -> None:
    """Tells the node that each goes to: a node without routes has none to it. Frames that are no Deltagram have a
    fault."""
    told = heard(program, LAST_NODE, [(at + 1, it.frame) for at, it in enumerate(asked)])
    for at, it in enumerate(asked):
        word, *more = answer(told[at + 1])
        if word == "bad":
            it.fault = " ".join(more)
        elif word == "noroute":
            it.target = int(more[0])


def find_lives(program: str, asked: list[Asked]) -> None:
    """Tells their lives: a relay that charges one millisecond puts them on its link, where they have more."""
    targets = {it.target for it in asked}
    node = next(it for it in range(len(targets) + 1) if it not in targets)
    told = heard(program, node, [(at + 1, it.frame) for at, it in enumerate(asked)], routes=sorted(targets))
    for at, it in enumerate(asked):
        [words] = told[at + 1]
        it.life = int(words[2]) + 1 if words[0] == "put" else 1


def find_fields(program: str, target: int, asked: list[Asked]) -> None:
    """Tells what those of one node say, by that node. A second run reads the data that the first one accepted."""
    first = heard(program, target, [(LATER * (at + 1), it.frame) for at, it in enumerate(asked)])
    for at, it in enumerate(asked):
        it.words = answer(first[LATER * (at + 1)])
        if it.words[0] == "bad":
            it.fault = " ".join(it.words[1:])
    took = [it for it in asked if it.words[0] == "accepted"]
    read(program, target, [[it.frame] for it in took], took, "d")
    # data without the data-run flag are dropped by a receiver that expects nothing, as closing packets are
    left = [it for it in asked if it.words[0] == "dropped"]
    read(program, target, [[before(it), it.frame] for it in left], left, "")


def before(it: Asked) -> bytes:
    """An octet of data behind which the frame's number is expected."""
    return wire.packet(wire.Flow.read(it.words[1]), 999, wire.DATA, (int(it.words[2]) - 1) % 2**32, wire.RUN, 0, b"x")


def read(program: str, target: int, groups: list[list[bytes]], asked: list[Asked], letter: str) -> None:
    """Tells the words, letters and octets of the last frame of each group, by a node that reads what each brings."""
    moments = [[LATER * (at + 1) + place for place in range(len(group))] for at, group in enumerate(groups)]
    datagrams = [it for pair in zip(moments, groups) for it in zip(*pair)]
    commands = [f"at {moment} read {it.words[1]} 65536" for it, times in zip(asked, moments) for moment in times]
    told = heard(program, target, datagrams, commands=commands) if asked else {}
    for it, times in zip(asked, moments):
        lines = told[times[-1]]
        it.words = answer(lines)
        for words in lines:
            if words[0] == "read":
                it.letters, it.octets = letter + words[2].strip("r-") or "-", words[3]


def parts(asked: list[Asked]) -> list[list[Asked]]:
    """The frames in their order, in parts that a receiver has room for: data that don't fit would be replied to."""
    groups: list[list[Asked]] = [[]]
    held = 0
    for it in asked:
        held += len(it.frame)
        if held > ROOM:
            groups.append([])
            held = len(it.frame)
        groups[-1].append(it)
    return groups


def lines_of(program: str, frames: list[bytes]) -> list[str]:
    """The line of each frame. None is from a node to itself."""
    asked = [Asked(it) for it in frames]
    find_targets(program, asked)
    sound = [it for it in asked if not it.fault]
    find_lives(program, sound)
    for target in sorted({it.target for it in sound}):
        for part in parts([it for it in sound if it.target == target]):
            find_fields(program, target, part)
    return [it.line() for it in asked]


def main() -> int:
    parser = argparse.ArgumentParser(description=__doc__, formatter_class=argparse.RawDescriptionHelpFormatter)
    parser.add_argument("program", help="the program, as crates/deltat/out/deltat")
    program = parser.parse_args().program
    frames = [bytes.fromhex(line) for line in sys.stdin]
    if any(len(it) >= 16 and it[8:12] == it[12:16] for it in frames):
        parser.error("a frame is from a node to itself")
    print("".join(f"{it}\n" for it in lines_of(program, frames)), end="")
    return 0


if __name__ == "__main__":
    sys.exit(main())
