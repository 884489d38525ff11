"""The logs of nodes: cut into the runs of each node, and read as what happened to each flow."""
import re
from dataclasses import dataclass, field
from pathlib import Path
from typing import Iterator

from deltat_tools.scripts import Flow, flow

# the lines that an audit judges
FACTS = ("took", "sent", "settled", "uncertain", "accepted", "restarted")
ROUND = 2**32


class NoLog(Exception):
    """A file isn't the log of a node."""


@dataclass(frozen=True)
class Entry:
    """A line of a log. `text` is the line, without its line feed."""

    path: str
    line: int
    moment: int
    words: tuple[str, ...]
    text: str

    def place(self) -> str:
        """Where it stands."""
        return f"{self.path}:{self.line}"


@dataclass
class Run:
    """A run of a node, from its start to its end, with a clock of its own."""

    node: int
    entries: list[Entry] = field(default_factory=list)
    ended: bool = False


def entries_of(path: str, text: str) -> Iterator[Entry]:
    """The lines of a log of a node. One that is cut off is left out."""
    lines = text.split("\n")
    lines.pop()
    for place, line in enumerate(lines):
        words = line.split(" ")
        if words[0] in ("@", "<", "!"):
            raise NoLog(
                f"{path}:{place + 1}: this is a line of a trace; run the trace with `retrace`, and give its log"
            )
        if re.match("line [0-9]+: ", line):
            raise NoLog(f"{path}:{place + 1}: the node's script was refused: {line}; leave this log out")
        if words[0] == "flow" or len(words) > 1 and words[1] == "lost":
            raise NoLog(
                f"{path}:{place + 1}: this is a line of a log of `replay`; give that log to `deltat audit` itself"
            )
        ends = words[0] == "end" and len(words) == 2 and words[1].isdigit()
        if not ends and (len(words) < 3 or not words[0].isdigit() or not words[1].isdigit()):
            raise NoLog(f"{path}:{place + 1}: this isn't a line of a log: {line[:60]}; give the log of a node")
        yield Entry(path, place + 1, int(words[1] if ends else words[0]), tuple(words), line)


def runs_of(path: str) -> list[Run]:
    """The runs of the node of a file, which may have several logs, one behind the other."""
    runs: list[Run] = []
    for entry in entries_of(path, Path(path).read_bytes().decode("latin-1")):
        if entry.words[0] == "end":
            if runs:
                runs[-1].ended = True
            continue
        node = int(entry.words[1])
        if runs and runs[0].node != node:
            raise NoLog(
                f"{entry.place()}: this is a line of node {node}, and the earlier lines are of node {runs[0].node};"
                " give a log for each node"
            )
        last = runs[-1].entries[-1] if runs else None
        if last is None or runs[-1].ended or entry.moment < last.moment or entry.words[2] == "restarted":
            runs.append(Run(node))
        runs[-1].entries.append(entry)
    return runs


@dataclass
class Packet:
    """A transmission of a segment: its line among all of its node, and whether it has the data-run flag."""

    line: int
    leads: bool


@dataclass
class Segment:
    """Octets that went out together, as their sender's log tells."""

    number: int
    length: int
    run: int
    life: int
    packets: list[Packet]
    fate: str = "open"
    settled: int | None = None

    def end(self) -> int:
        """The number behind its octets."""
        return (self.number + self.length) % ROUND

    def packet(self, leads: bool) -> Packet | None:
        """The first packet of it, or the first with the data-run flag."""
        return next((it for it in self.packets if it.leads or not leads), None)


@dataclass(frozen=True)
class Acceptance:
    """Octets that were accepted."""

    line: int
    number: int
    length: int
    is_run: bool
    life: int


@dataclass(frozen=True)
class Told:
    """An acknowledgement: one that went out, or one that was used."""

    line: int
    number: int
    window: int
    count: int = 0


class Sending:
    """What a sender's log tells of a flow."""

    def __init__(self) -> None:
        self.segments: list[Segment] = []
        self.settled: list[Told] = []
        # the first line of each data run, by its number
        self.begins: list[int] = []
        self.out: list[int] = []
        self.next = 0
        self.standing = False

    def end_run(self) -> None:
        """The send record is gone, or begins anew."""
        self.standing, self.out = False, []

    def sent(self, line: int, life: int, words: tuple[str, ...]) -> None:
        if not self.standing:
            self.begins.append(line)
            self.standing = True
        self.out.append(len(self.segments))
        segment = Segment(int(words[4]), int(words[5]), len(self.begins) - 1, life, [Packet(line, "d" in words[6])])
        self.segments.append(segment)
        self.next = segment.end()

    def resent(self, line: int, words: tuple[str, ...]) -> None:
        number = int(words[4])
        for place in self.out:
            if self.segments[place].number == number:
                self.segments[place].packets.append(Packet(line, "d" in words[6]))

    def leave(self, count: int, fate: str, line: int) -> int:
        """The leftmost octets get their fate; the number up to which that is."""
        number = self.segments[self.out[0]].number if self.out else self.next
        while count > 0 and self.out:
            segment = self.segments[self.out.pop(0)]
            segment.fate, count, number = fate, count - segment.length, segment.end()
            segment.settled = line if fate == "settled" else None
        return number

    def follow(self, line: int, life: int, words: tuple[str, ...]) -> None:
        """A line of the flow."""
        name = words[2]
        if name == "sent":
            self.sent(line, life, words)
        elif name == "resent":
            self.resent(line, words)
        elif name == "uncertain":
            self.leave(int(words[4]), "uncertain", line)
        elif name == "settled":
            number = self.leave(int(words[4]), "settled", line)
            self.settled.append(Told(line, number, int(words[5]), int(words[4])))
        elif name == "renewed" or name == "released" and words[4] == "send":
            self.end_run()


class Receiving:
    """What a receiver's log tells of a flow."""

    def __init__(self) -> None:
        self.accepted: list[Acceptance] = []
        self.told: list[Told] = []

    def follow(self, line: int, life: int, words: tuple[str, ...]) -> None:
        """A line of the flow."""
        if words[2] == "accepted":
            self.accepted.append(Acceptance(line, int(words[4]), int(words[5]), words[6] == "run", life))
        elif words[2] in ("acked", "replied"):
            self.told.append(Told(line, int(words[4]), int(words[5])))


class Node:
    """All runs of a node, in their order: its lines, the life of each, and its flows."""

    def __init__(self, number: int):
        self.number = number
        self.runs: list[Run] = []
        self.entries: list[Entry] = []
        self.lives: list[int] = []
        self.sending: dict[Flow, Sending] = {}
        self.receiving: dict[Flow, Receiving] = {}

    def add(self, run: Run) -> None:
        """The next run. One behind another begins with a line `restarted`, which the log of a node hasn't."""
        life = self.lives[-1] + 1 if self.runs else int(self.is_restart(run))
        self.runs.append(run)
        for one in self.sending.values():
            one.end_run()
        entries = [it for it in run.entries if it.words[2] != "restarted"]
        if life:
            first = run.entries[0]
            text = f"{first.moment} {self.number} restarted {life}"
            entries.insert(0, Entry(first.path, first.line, first.moment, tuple(text.split(" ")), text))
        for entry in entries:
            self.follow(entry, life)

    @staticmethod
    def is_restart(run: Run) -> bool:
        """Whether its first line says that it is one."""
        return run.entries[0].words[2] == "restarted"

    def follow(self, entry: Entry, life: int) -> None:
        line = len(self.entries)
        self.entries.append(entry)
        self.lives.append(life)
        words = entry.words
        of = flow(words[3]) if len(words) > 3 else None
        if of is None:
            return
        try:
            if of.source == self.number:
                self.sending.setdefault(of, Sending()).follow(line, life, words)
            elif of.target == self.number:
                self.receiving.setdefault(of, Receiving()).follow(line, life, words)
        except (IndexError, ValueError) as why:
            raise NoLog(
                f"{entry.place()}: this isn't a line of a log: {entry.text[:60]}; give the log of a node"
            ) from why


def nodes_of(paths: list[str]) -> dict[int, Node]:
    """The nodes of these logs. Several of one node are its runs, in this order."""
    nodes: dict[int, Node] = {}
    for path in paths:
        for run in runs_of(path):
            nodes.setdefault(run.node, Node(run.node)).add(run)
    return nodes
