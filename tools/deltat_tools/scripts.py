"""The scripts of nodes: read as docs/formats.md has them, each line with its number, or refused as the
program refuses them."""
import re
from dataclasses import dataclass, field
from pathlib import Path
from typing import Sequence

from deltat_tools.parameters import DAY, Params

MOST_INPUT = 16_777_216
WORD = 2**32 - 1
# the words of each line behind its first one
FORMS = {
    "local": ["address"],
    "peer": ["link", "address", "time", "time"],
    "route": ["number", "link"],
    "shelf": ["shelf"],
    "go": [],
}
TASKS = {"send": ["flow", "marks", "hex"], "read": ["flow", "octets"], "stop": []}
MOST = {"number": WORD, "link": 255, "time": DAY, "shelf": 64, "octets": 65_536, "port": 65_535, "part": 255}
LEAST = {"shelf": 1, "octets": 1}


class Refused(Exception):
    """A line of a script is refused: its number, counted from 1, and the fault as the program has it."""

    def __init__(self, line: int, fault: str):
        super().__init__(f"{fault}")
        self.line = line
        self.fault = fault


@dataclass(frozen=True)
class Address:
    """An IPv4 address and a port."""

    ip: str
    port: int

    def __str__(self) -> str:
        return f"{self.ip}:{self.port}"


@dataclass(frozen=True)
class Flow:
    """A flow: octets go from a port of one node to a port of another."""

    source: int
    source_port: int
    target: int
    target_port: int

    def __str__(self) -> str:
        return f"{self.source}:{self.source_port}>{self.target}:{self.target_port}"


@dataclass(frozen=True)
class Peer:
    """The other end of a link."""

    line: int
    link: int
    address: Address
    charge: int
    pace: int


@dataclass(frozen=True)
class Route:
    """By which link packets for a node leave."""

    line: int
    to: int
    link: int


@dataclass(frozen=True)
class Command:
    """What is to be done at a moment: a send or a read of a flow."""

    line: int
    at: int
    name: str
    flow: Flow


@dataclass
class Script:
    """A script of a node, each part with the number of its line."""

    path: str
    params: Params | None = None
    params_line: int = 0
    me: int = 0
    again: bool = False
    me_line: int = 0
    local: Address | None = None
    local_line: int = 0
    peers: list[Peer] = field(default_factory=list)
    routes: list[Route] = field(default_factory=list)
    shelf: int = 0
    commands: list[Command] = field(default_factory=list)
    stop: int | None = None

    def peer(self, link: int) -> Peer | None:
        """The peer of a link."""
        return next((it for it in self.peers if it.link == link), None)

    def route(self, to: int) -> Route | None:
        """The route to a node."""
        return next((it for it in self.routes if it.to == to), None)


def number(word: str, most: int = WORD, least: int = 0) -> int | None:
    """A number in its one spelling, within its range."""
    if not re.fullmatch("0|[1-9][0-9]{0,19}", word):
        return None
    return int(word) if least <= int(word) <= most else None


def flow(word: str) -> Flow | None:
    """A flow in its one spelling."""
    parts = re.fullmatch("([0-9]+):([0-9]+)>([0-9]+):([0-9]+)", word)
    found = [number(it, most) for it, most in zip(parts.groups(), [WORD, 65_535] * 2)] if parts else [None]
    return None if None in found else Flow(*found)


def address(word: str) -> Address | None:
    """An address in its one spelling."""
    parts = re.fullmatch(r"([0-9]+)\.([0-9]+)\.([0-9]+)\.([0-9]+):([0-9]+)", word)
    found = [number(it, most) for it, most in zip(parts.groups(), [255] * 4 + [65_535])] if parts else [None]
    return None if None in found else Address(".".join(map(str, found[:4])), found[4])


def value(kind: str, word: str):
    """What a word says, or the fault of the line."""
    if kind == "flow":
        return flow(word), "flow"
    if kind == "address":
        return address(word), "number"
    if kind == "hex":
        return (word if re.fullmatch("(?:[0-9a-fA-F]{2}){1,65536}", word) else None), "hex"
    if kind == "marks":
        return (word if word in ("be", "b", "e", "-") else None), "word"
    if kind == "life":
        return (word if word in ("first", "again") else None), "word"
    return number(word, MOST[kind], LEAST.get(kind, 0)), "number"


def values(line: int, kinds: Sequence[str], words: Sequence[str]) -> list:
    """What the words say, from left to right."""
    if len(kinds) != len(words):
        raise Refused(line, "count")
    found = []
    for kind, word in zip(kinds, words):
        one, fault = value(kind, word)
        if one is None:
            raise Refused(line, fault)
        found.append(one)
    return found


class Reader:
    """Reads a script line by line."""

    def __init__(self, path: str):
        self.script = Script(path)
        self.stage = "begin"
        self.moment = 0

    def expect(self, line: int, *stages: str) -> None:
        """The line is allowed in these stages alone."""
        if self.stage not in stages:
            raise Refused(line, "order")

    def params(self, line: int, words: Sequence[str]) -> None:
        if len(words) not in (10, 11):
            raise Refused(line, "count")
        numbers = values(line, ["number"] * len(words), words)
        self.expect(line, "begin")
        params = Params(*numbers)
        wrong = params.out_of_range()
        if wrong:
            raise Refused(line, f"param {wrong[0]} {wrong[1]}")
        self.script.params, self.script.params_line, self.stage = params, line, "params"

    def me(self, line: int, words: Sequence[str]) -> None:
        me, life = values(line, ["number", "life"], words)
        self.expect(line, "params")
        self.script.me, self.script.again, self.script.me_line, self.stage = me, life == "again", line, "me"

    def at(self, line: int, words: Sequence[str]) -> None:
        if len(words) < 2:
            raise Refused(line, "count")
        if words[1] not in TASKS:
            raise Refused(line, "word")
        at, *found = values(line, ["number", *TASKS[words[1]]], [words[0], *words[2:]])
        self.expect(line, "run")
        if at < self.moment:
            raise Refused(line, "order")
        self.moment = at
        if words[1] == "stop":
            self.script.stop, self.stage = at, "ended"
            return
        one, me = found[0], self.script.me
        ends = (one.source, one.target) if words[1] == "send" else (one.target, one.source)
        if ends[0] != me or ends[1] == me:
            raise Refused(line, "bad flow")
        self.script.commands.append(Command(line, at, words[1], one))

    def setup(self, line: int, name: str, words: Sequence[str]) -> None:
        """A line of the setup: its words, where it stands, and what it adds."""
        found = values(line, FORMS[name], words)
        self.expect(line, "me" if name == "local" else "setup")
        script = self.script
        if name == "local":
            script.local, script.local_line, self.stage = found[0], line, "setup"
        elif name == "peer":
            if script.peer(found[0]):
                raise Refused(line, f"twice {found[0]}")
            script.peers.append(Peer(line, *found))
        elif name == "route":
            self.add_route(Route(line, *found))
        elif name == "shelf":
            if script.shelf:
                raise Refused(line, f"twice {found[0]}")
            script.shelf = found[0]
        else:
            self.stage = "run"

    def add_route(self, route: Route) -> None:
        if self.script.route(route.to):
            raise Refused(route.line, f"twice {route.to}")
        if route.to == self.script.me:
            raise Refused(route.line, f"stray {route.link}")
        if not self.script.peer(route.link):
            raise Refused(route.line, f"unknown {route.link}")
        self.script.routes.append(route)

    def line(self, line: int, text: str) -> None:
        """One line."""
        if not text or text.startswith("#"):
            return
        name, *words = text.split(" ")
        if name in ("params", "me", "at"):
            getattr(self, name)(line, words)
        elif name in FORMS:
            self.setup(line, name, words)
        else:
            raise Refused(line, "word")


def parse(path: str, octets: bytes) -> Script:
    """The script of these octets."""
    if len(octets) > MOST_INPUT:
        raise Refused(1, f"input longer than {MOST_INPUT} octets")
    lines = octets.decode("latin-1").split("\n")
    if not lines[-1]:
        lines.pop()
    reader = Reader(path)
    for place, text in enumerate(lines):
        reader.line(place + 1, text)
    if reader.stage != "ended":
        raise Refused(len(lines) + 1, "order")
    return reader.script


def read(path: str) -> Script:
    """The script of a file."""
    return parse(path, Path(path).read_bytes())
