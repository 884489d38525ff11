#!/usr/bin/env python3
"""Asks an implementation of Delta-t every case of the index, and tells where its answers differ.

`conformance/run.py COMMAND..` runs `COMMAND.. WORD` for each case, with the case's input on standard
input, and compares standard output and the status. It prints one line for each case that differs, with
the first line that does, and then how many hold. README.md says what the cases are, and how a part of an
implementation is tried alone. Ends with 1 where one differs, and with 2 where no case is asked."""
import argparse
import fnmatch
import hashlib
import pathlib
import re
import shutil
import subprocess
import sys
from dataclasses import dataclass
from typing import Iterator

from sizes import Sizes, sizes

HERE = pathlib.Path(__file__).resolve().parent
KINDS = ("frames", "schedule", "rounds", "trace", "calls", "audit")
# what a device may leave out: packets of other nodes, packets that are kept since they came too early, and lines that
# are refused
NEEDS = ("relay", "shelf", "refusals")
# what an implementation may have less of than this project's program (sizes.py)
LIMITS = {
    "segments": "more than N outstanding segments in a record",
    "queue": "more than N datagrams that wait on a link",
    "records": "more than N flows of one way with a record or unread octets, at one node",
    "seg": "segments of more than N octets",
}
SETUP = """params 1000 3000 200 500 800 100 4096 4096 512 2147483648
station 1 0
station 2 0
link 1 1 2 50 0
link 2 2 1 50 0
route 1 2 1
route 2 1 2
go
"""


def rounds(count: int) -> bytes:
    """The schedule of `make COUNT`, by the rule in docs/formats.md."""
    lines, x, copy = [], 1, 0
    for i in range(count):
        x = (x * 1103515245 + 12345) % 2147483648
        draw = x // 65536
        octets = bytes((i + j) % 256 for j in range(1 + draw // 4 % 16))
        lines.append(f"send 1:10>2:20 be {octets.hex()}")
        if draw % 4 == 2:
            lines += [
                f"lose {copy}",
                "pass 500",
                "tick 1",
                "pass 10",
                f"arrive {copy + 1}",
                "pass 10",
                f"arrive {copy + 2}",
            ]
        elif draw % 4 == 3:
            lines += [
                "pass 10",
                f"arrive {copy}",
                f"arrive {copy}",
                "pass 10",
                f"arrive {copy + 2}",
                f"arrive {copy + 1}",
            ]
        else:
            lines += ["pass 10", f"arrive {copy}", "pass 10", f"arrive {copy + 1}"]
        copy += 3 if draw % 4 in (2, 3) else 2
        lines.append("read 1:10>2:20 65536")
    return (SETUP + "".join(f"{it}\n" for it in lines)).encode()


@dataclass(frozen=True)
class Case:
    """A line of the index: KIND NAME WORD STATUS, and INPUT where that isn't NAME.in."""

    kind: str
    name: str
    word: str
    status: int
    input: str

    def title(self) -> str:
        """What it is called: its name without the folder, and its word."""
        return f"{self.kind} {self.name.rsplit('/', 1)[-1]} {self.word}"

    def words(self) -> list[str]:
        """The words behind the command."""
        return [self.word, self.name] if self.word == "make" else [self.word]

    def pairs(self) -> list[tuple[str, str]]:
        """The frames of a case of frames, each with the line that it is read as."""
        lines = (HERE / f"{self.name}.frames").read_text().splitlines()
        halves = [line.partition("=>") for line in lines if line and not line.startswith("#")]
        return [(left.strip(), right.strip()) for left, _, right in halves]

    def given(self) -> bytes:
        """The octets on standard input."""
        if self.kind == "frames":
            return "".join(f"{left}\n" for left, _ in self.pairs()).encode()
        if self.kind == "rounds":
            return b"" if self.word == "make" else rounds(int(self.name))
        return (HERE / (self.input or f"{self.name}.in")).read_bytes()

    def right(self) -> bytes | None:
        """The octets of standard output; None where only their sum is kept."""
        if self.kind == "frames":
            return "".join(f"{right}\n" for _, right in self.pairs()).encode()
        if self.kind == "rounds":
            return rounds(int(self.name)) if self.word == "make" else None
        return (HERE / f"{self.name}.out").read_bytes()

    def room(self) -> int:
        """The octets that the greater of both records of a flow may hold; 0 where no parameters say so."""
        found = re.search(rb"(?m)^params(?: [0-9]+){6} ([0-9]{1,10}) ([0-9]{1,10}) ", self.given() + b" ")
        return max(int(found[1]), int(found[2])) if found and self.kind != "audit" else 0

    def needs(self) -> set[str]:
        """What it asks of an implementation beside the two ends of a flow: of NEEDS those that hold."""
        found = {"refusals"} if self.kind in ("schedule", "trace", "calls") and self.status == 3 else set()
        if self.kind in ("schedule", "trace", "calls"):
            lines = (self.right() or b"").splitlines()
            found |= {"shelf"} if re.search(rb"(?m)^shelf ", self.given()) else set()
            found |= {"relay"} if relays([it.decode("latin-1").split(" ") for it in lines]) else set()
        return found

    def sizes(self) -> Sizes:
        """What it asks of an implementation's rooms; nothing where no node acts."""
        if self.kind == "rounds" and self.word == "replay":
            # their logs aren't kept; tests/conformance.py computes these of the program's
            return Sizes(segments=1, queue=1, records=1, seg=100)
        if self.kind not in ("schedule", "trace"):
            return Sizes()
        return sizes(self.given(), self.right() or b"", "relay" in self.needs())

    def sum(self) -> str:
        """The sum of a log of rounds."""
        sums = (line.split() for line in (HERE / "rounds.sha256").read_text().splitlines())
        return next(it[0] for it in sums if it[1] == f"{self.name}.out")


def relays(lines: list[list[str]]) -> bool:
    """Whether a node passes on what others made: it sends off more packets than it makes itself."""
    left: dict[str, int] = {}
    for words in lines:
        if len(words) > 2 and words[0].isdigit() and words[1].isdigit():
            made = words[2] in ("sent", "resent", "met", "acked", "replied")
            gone = words[2] in ("put", "noroute", "full") or words[2:4] == ["expired", "out"]
            left[words[1]] = left.get(words[1], 0) + made - gone
    return any(it < 0 for it in left.values())


def cases() -> list[Case]:
    """The cases of the index, in its order."""
    lines = (line.split() for line in (HERE / "INDEX").read_text().splitlines() if line and not line.startswith("#"))
    return [Case(it[0], it[1], it[2], int(it[3]), it[4] if len(it) > 4 else "") for it in lines]


def shown(line: bytes, start: int) -> str:
    """A line as text, around the place where it differs, if it is long. What isn't printed is escaped."""
    begin = max(start - 40, 0) if len(line) > 100 else 0
    text = repr(line[begin:begin + 100])[2:-1]
    return f"{'..' if begin else ''}{text}{'..' if begin + 100 < len(line) else ''}"


def first_difference(had: bytes, wanted: bytes) -> str:
    """The first line in which two texts differ; empty where they don't."""
    if had == wanted:
        return ""
    ours, theirs = (re.findall(rb"[^\n]*\n|[^\n]+", it) for it in (had, wanted))
    place = next((at for at, pair in enumerate(zip(ours, theirs)) if pair[0] != pair[1]), min(len(ours), len(theirs)))
    mine, right = (it[place].removesuffix(b"\n") if place < len(it) else b"" for it in (ours, theirs))
    if place >= len(theirs):
        return f"line {place + 1}: '{shown(mine, 0)}', where the text should end"
    if place >= len(ours):
        return f"line {place + 1}: missing, should be '{shown(right, 0)}'"
    if mine == right:
        return f"line {place + 1}: its line feed"
    start = next((at for at, pair in enumerate(zip(mine, right)) if pair[0] != pair[1]), min(len(mine), len(right)))
    return f"line {place + 1}: '{shown(mine, start)}', should be '{shown(right, start)}'"


def differs(command: list[str], case: Case, seconds: float) -> str:
    """How the answer of a command differs from that of a case; empty where it doesn't."""
    try:
        ran = subprocess.run(
            [*command, *case.words()],
            input=case.given(),
            stdout=subprocess.PIPE,
            stderr=subprocess.DEVNULL,
            check=False,
            timeout=seconds,
        )
    except subprocess.TimeoutExpired:
        return f"stopped after {seconds:g} s"
    right = case.right()
    if right is not None:
        why = first_difference(ran.stdout, right)
    else:
        found = hashlib.sha256(ran.stdout).hexdigest()
        why = "" if found == case.sum() else f"sum {found}, should be {case.sum()}"
    if ran.returncode != case.status:
        why = f"status {ran.returncode}, should be {case.status}" + (f"; {why}" if why else "")
    return why


def copy(chosen: list[Case], folder: pathlib.Path) -> None:
    """Writes the cases into a folder as plain files, an input and an output each, with an index of these.
    The schedules of `make` are inputs there."""
    index = []
    for case in (it for it in chosen if it.word != "make"):
        name = f"{case.kind}/{case.name.rsplit('/', 1)[-1]}"
        (folder / case.kind).mkdir(parents=True, exist_ok=True)
        (folder / f"{name}.in").write_bytes(case.given())
        right = case.right()
        if right is not None:
            (folder / f"{name}.out").write_bytes(right)
        index.append(f"{case.kind} {name} {case.word} {case.status}\n")
    (folder / "INDEX").write_text("".join(index))
    (folder / "rounds.sha256").write_text((HERE / "rounds.sha256").read_text().replace("  ", "  rounds/"))
    for it in ("README.md", "frames.c", "frames.py"):
        shutil.copy(HERE / it, folder)


def asked(command: list[str], chosen: list[Case], seconds: float) -> Iterator[tuple[Case, str]]:
    """The cases that differ, and how."""
    for case in chosen:
        why = differs(command, case, seconds)
        if why:
            yield case, why


def main() -> int:
    reads = argparse.ArgumentParser(description="Asks an implementation of Delta-t every case of the index.", epilog=(
        "COMMAND is run with the case's word behind it: replay, retrace, calls, audit, make N or frames. "
        "For this project's program it is conformance/deltat PATH."))
    reads.add_argument(
        "--kind", action="append", choices=KINDS, help="ask the cases of this kind alone; may be given again"
    )
    reads.add_argument(
        "--name", default="*", metavar="PATTERN", help="ask the cases with such a name alone, as 'refused-*'"
    )
    reads.add_argument(
        "--without",
        action="append",
        choices=NEEDS,
        default=[],
        help="leave out the cases that need this; may be given again",
    )
    reads.add_argument(
        "--room",
        type=int,
        default=1 << 32,
        metavar="N",
        help="leave out the cases whose records hold more than N octets",
    )
    for name, what in LIMITS.items():
        reads.add_argument(
            f"--{name}", type=int, default=1 << 32, metavar="N", help=f"leave out the cases that have {what}"
        )
    reads.add_argument("--seconds", type=float, default=60, metavar="S", help="stop a run after so long (%(default)s)")
    reads.add_argument("--list", action="store_true", help="print the cases and ask none")
    reads.add_argument(
        "--copy", type=pathlib.Path, metavar="FOLDER", help="write the cases into a folder as plain files and ask none"
    )
    reads.add_argument("command", nargs=argparse.REMAINDER, metavar="COMMAND", help="the implementation, and its words")
    given = reads.parse_args()
    chosen = [
        it
        for it in cases()
        if it.kind in (given.kind or KINDS) and fnmatch.fnmatch(it.name.rsplit("/", 1)[-1], given.name)
    ]
    chosen = [it for it in chosen if it.room() <= given.room and not it.needs() & set(given.without)]
    limits = {name: getattr(given, name) for name in LIMITS if getattr(given, name) < 1 << 32}
    if limits:
        chosen = [it for it in chosen if all(getattr(it.sizes(), name) <= most for name, most in limits.items())]
    if given.list:
        print("".join(f"{it.kind} {it.name} {it.word} {it.status}\n" for it in chosen), end="")
        return 0
    if given.copy:
        copy(chosen, given.copy)
        print(f"the cases are in {given.copy}")
        return 0
    if not given.command:
        reads.error("a command is wanted")
    if shutil.which(given.command[0]) is None:
        reads.error(f"there is no command {given.command[0]}")
    if not chosen:
        reads.error("no case has that kind and that name")
    wrong = 0
    for case, why in asked(given.command, chosen, given.seconds):
        print(f"{case.title()}: {why}", flush=True)
        wrong += 1
    print(f"{len(chosen) - wrong} of {len(chosen)} cases hold")
    return 1 if wrong else 0


if __name__ == "__main__":
    sys.exit(main())
