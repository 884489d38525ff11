#!/usr/bin/env python3
"""The whole way of one call, from a recorded run: when the program made it, its request, each frame of it, what was
sent again, what was acknowledged, when the service had it, its reply, its answer, and its end at the program.

    tools/trace_token.py client.pcapng service.pcapng                          lists the calls
    tools/trace_token.py client.pcapng service.pcapng 1:10>2:20#4294967296     shows one

A file is a recording by the driver (dt_udp_record, `record` in Python and Rust), which has what the program did too; or
a capture of tcpdump or Wireshark (pcap or pcapng, of Ethernet, loopback, `any` or IP), or of tools/capture.py. A call
is its flow and its number, as in a token; one that waited in the driver has a number of its own at the program, and is
named by that of its frames. With several files, such as those of both ends, each frame is shown in each of them: one
that left and isn't in the other end's file was lost. Their clocks must agree. --log LOG adds the lines of the flow of a
node's log: its turns (docs/formats.md); its times count from the same moment as those of a capture by tools/capture.py.

Statuses: 0; 1 there is no such call; 2 a file can't be read, or the words are wrong."""
import argparse
import re
import struct
import sys
from collections.abc import Iterator
from dataclasses import dataclass, field
from pathlib import Path
from typing import NamedTuple

DATA, ACKNOWLEDGEMENT, PROBE = 1, 2, 3
HEADER, PACKET, NAME, TRAILER = 16, 14, 8, 34
BEGIN, END = 2, 4
# the octets before the IP header, by the kind of link of a capture
LINKS = {0: 4, 1: 14, 12: 0, 101: 0, 113: 16, 228: 0, 229: 0, 276: 20}
UDP, VLAN = 17, 0x8100
TOKEN = re.compile(r"(\d+):(\d+)>(\d+):(\d+)#(\d+)")
FIELD = re.compile(rb"^(\w+)=(.*)$", re.MULTILINE)
JOURNAL = -1


class NoCapture(Exception):
    """A file isn't a capture that is understood."""


class Flow(NamedTuple):
    source: int
    source_port: int
    target: int
    target_port: int

    def __str__(self) -> str:
        return f"{self.source}:{self.source_port}>{self.target}:{self.target_port}"

    def reversed(self) -> "Flow":
        return Flow(self.target, self.target_port, self.source, self.source_port)


@dataclass
class Frame:
    """A packet of a capture. `flow`: that of the data, also of an acknowledgement. `made`: when the step began that
    made it, in us of its sender's clock, if its driver has a watch."""

    at: float
    file: str
    kind: int
    flow: Flow
    number: int
    flags: int
    octets: bytes
    life: int
    made: int | None

    @property
    def end(self) -> int:
        return (self.number + len(self.octets)) % 2**32


@dataclass
class Entry:
    """What a program did or had: `event` is call, enters, request, reply, forget, answered or unsure."""

    at: float
    file: str
    event: str
    token: str
    text: str

    @property
    def number(self) -> int:
        return int(self.token.partition("#")[2])


# --- captures


def _records(octets: bytes) -> Iterator[tuple[float, int, bytes]]:
    """The moments, kinds of link and octets of a capture."""
    magic = octets[:4]
    if magic == b"\x0a\x0d\x0d\x0a":
        yield from _blocks(octets)
        return
    orders = {
        b"\xd4\xc3\xb2\xa1": ("<", 1e-6),
        b"\xa1\xb2\xc3\xd4": (">", 1e-6),
        b"\x4d\x3c\xb2\xa1": ("<", 1e-9),
        b"\xa1\xb2\x3c\x4d": (">", 1e-9),
    }
    if magic not in orders or len(octets) < 24:
        raise NoCapture("it is neither a pcap nor a pcapng file")
    order, unit = orders[magic]
    link = struct.unpack_from(f"{order}I", octets, 20)[0] & 0xFFFF
    at = 24
    while at + 16 <= len(octets):
        seconds, part, length, _ = struct.unpack_from(f"{order}4I", octets, at)
        yield seconds + part * unit, link, octets[at + 16 : at + 16 + length]
        at += 16 + length


def _blocks(octets: bytes) -> Iterator[tuple[float, int, bytes]]:
    """Those of a pcapng file: its interfaces, and its enhanced and simple packets."""
    at, order, links, units = 0, "<", list[int](), list[float]()
    while at + 12 <= len(octets):
        if octets[at : at + 4] == b"\x0a\x0d\x0d\x0a":
            order = "<" if octets[at + 8 : at + 12] == b"\x4d\x3c\x2b\x1a" else ">"
            links, units = [], []
        kind, length = struct.unpack_from(f"{order}2I", octets, at)
        if length < 12 or at + length > len(octets):
            return  # (it is cut off)
        body = octets[at + 8 : at + length - 4]
        if kind == 1:
            links.append(struct.unpack_from(f"{order}H", body)[0])
            units.append(_unit(body[8:], order))
        elif kind == 6:
            interface, high, low, there = struct.unpack_from(f"{order}4I", body)
            yield (high << 32 | low) * units[interface], links[interface], body[20 : 20 + there]
        elif kind == 9:
            yield 0.0, JOURNAL, body
        at += length


def _unit(options: bytes, order: str) -> float:
    """The unit of an interface's times, in seconds."""
    at = 0
    while at + 4 <= len(options):
        code, length = struct.unpack_from(f"{order}2H", options, at)
        if code == 9:
            value = options[at + 4]
            return float(2 ** -(value & 127)) if value & 128 else 10.0**-value
        at += 4 + (length + 3) // 4 * 4
    return 1e-6


def _datagram(link: int, octets: bytes) -> bytes | None:
    """The octets that UDP carries, or None."""
    if link not in LINKS:
        raise NoCapture(f"its link is of kind {link}; capture Ethernet, loopback, `any` or IP")
    start = LINKS[link]
    if link == 1 and octets[12:14] == VLAN.to_bytes(2, "big"):
        start += 4
    ip = octets[start:]
    if len(ip) < 28:
        return None
    if ip[0] >> 4 == 4:
        length = (ip[0] & 15) * 4
        is_part = int.from_bytes(ip[6:8], "big") & 0x3FFF
        return None if ip[9] != UDP or is_part else ip[length + 8 : int.from_bytes(ip[2:4], "big")]
    return ip[48 : 40 + int.from_bytes(ip[4:6], "big")] if ip[0] >> 4 == 6 and ip[6] == UDP else None


def _frame(at: float, file: str, octets: bytes) -> Frame | None:
    """A frame with a packet, or None."""
    if len(octets) < HEADER + PACKET or octets[0] not in (1, 2) or octets[1] != 1:
        return None
    length = int.from_bytes(octets[2:4], "big")
    behind = octets[HEADER + length :]
    if len(octets) < HEADER + length or len(behind) not in (0, TRAILER):
        return None
    life, maker, target = struct.unpack_from(">3I", octets, 4)
    kind, flags, source, to, number, _ = struct.unpack_from(">BBHHII", octets, HEADER)
    flow = Flow(maker, source, target, to)
    made = int.from_bytes(behind[12:18], "big") if behind else None
    body = octets[HEADER + PACKET : HEADER + length]
    return Frame(at, file, kind, flow.reversed() if kind == ACKNOWLEDGEMENT else flow, number, flags, body, life, made)


def _entry(file: str, octets: bytes) -> Entry | None:
    """An entry of the driver, or None if it is another program's."""
    fields = {name: value.decode(errors="replace") for name, value in FIELD.findall(octets)}
    token = fields.get(b"DELTAT_TOKEN", "")
    if not re.fullmatch(r"(\d+:\d+>\d+:\d+)?#\d+", token):
        return None
    at = int(fields.get(b"__REALTIME_TIMESTAMP", "0")) / 1e6
    return Entry(at, file, fields.get(b"DELTAT_EVENT", ""), token, fields.get(b"MESSAGE", ""))


def frames_of(path: Path, entries: list[Entry] | None = None) -> Iterator[Frame]:
    """The frames of a file, and into `entries` those of its journal. Raises OSError or NoCapture."""
    try:
        for at, link, octets in _records(path.read_bytes()):
            if link == JOURNAL:
                entry = _entry(path.name, octets)
                if entry and entries is not None:
                    entries.append(entry)
                continue
            datagram = _datagram(link, octets)
            frame = datagram and _frame(at, path.name, datagram)
            if frame:
                yield frame
    except (struct.error, IndexError) as why:
        raise NoCapture(f"it is damaged: {why}") from why


# --- messages


@dataclass
class Message:
    """A message of a flow: where it begins, its octets as far as they were seen, and its frames."""

    flow: Flow
    start: int
    octets: bytearray = field(default_factory=bytearray)
    is_whole: bool = False
    frames: list[tuple[Frame, str]] = field(default_factory=list)

    @property
    def number(self) -> int | None:
        """The number of its call."""
        return int.from_bytes(self.octets[:NAME], "big") if len(self.octets) >= NAME else None

    @property
    def end(self) -> int:
        return (self.start + len(self.octets)) % 2**32

    def place(self, number: int) -> int:
        return (number - self.start) % 2**32

    def has(self, frame: Frame) -> bool:
        """Whether it has exactly these octets there already."""
        at = self.place(frame.number)
        return at + len(frame.octets) <= len(self.octets) and self.octets[at : at + len(frame.octets)] == frame.octets


class Messages:
    """The messages of all flows, as their frames pass."""

    def __init__(self) -> None:
        self.all: list[Message] = []
        self._of_flow: dict[Flow, list[Message]] = {}
        # segments that came before those in front of them
        self._early: dict[Flow, list[Frame]] = {}

    def take(self, frame: Frame) -> None:
        """Takes a frame, and says of its message what it is."""
        own = self._of_flow.setdefault(frame.flow, [])
        if frame.kind == ACKNOWLEDGEMENT:
            for it in own[-8:]:
                if 0 < it.place(frame.number) <= max(len(it.octets), 1):
                    it.frames.append(
                        (
                            frame,
                            "all is acknowledged"
                            if it.is_whole and frame.number == it.end
                            else "a part is acknowledged",
                        )
                    )
        elif frame.kind == DATA and not self._again(own, frame) and not self._further(own, frame):
            self._early.setdefault(frame.flow, []).append(frame)

    def _again(self, own: list[Message], frame: Frame) -> bool:
        for it in reversed(own[-8:]):
            if it.has(frame):
                seen = {file.file for file, _ in it.frames if file.kind == DATA and file.number == frame.number}
                it.frames.append((frame, "again" if frame.file in seen else "the same"))
                return True
        return False

    def _further(self, own: list[Message], frame: Frame) -> bool:
        """Whether the frame begins a message, or continues one. Then those that wait may continue it too."""
        if frame.flags & BEGIN:
            own.append(Message(frame.flow, frame.number))
            self.all.append(own[-1])
        found = next((it for it in reversed(own[-8:]) if not it.is_whole and it.end == frame.number), None)
        if found is None:
            return False
        found.octets += frame.octets
        found.is_whole = bool(frame.flags & END)
        found.frames.append((frame, "first"))
        waiting = self._early.get(frame.flow, [])
        for it in waiting:
            if it.number == found.end and not found.is_whole:
                waiting.remove(it)
                return self._further(own, it) or True
        return True


# --- entries


class Entries:
    """What programs did, by the tokens of the calls: the flow, and the number that frames have."""

    def __init__(self, all_: list[Entry]) -> None:
        self._of: dict[str, list[Entry]] = {}
        # of each file: the token of a number of its program
        names: dict[tuple[str, int], str] = {}
        for it in sorted(all_, key=lambda it: it.at):
            token = it.token
            if it.event == "call":
                names[it.file, it.number] = token
            elif it.event == "enters":
                as_ = it.text.rpartition(" ")[2]
                token = names[it.file, it.number] = f"{it.token.partition('#')[0]}#{as_}"
                self._of[token] = self._of.pop(it.token, [])
            elif it.event in ("answered", "unsure"):
                token = names.get((it.file, it.number), token)
            self._of.setdefault(token, []).append(it)

    def of(self, token: str) -> list[Entry]:
        return self._of.get(token, [])

    def tokens(self) -> list[str]:
        """Those of calls."""
        return [it for it in self._of if TOKEN.fullmatch(it)]


# --- calls


@dataclass
class Call:
    """A request and, if it was seen, its answer."""

    request: Message
    answer: Message | None = None

    def __str__(self) -> str:
        return f"{self.request.flow}#{self.request.number}"

    @property
    def state(self) -> str:
        if self.answer is None or not self.answer.is_whole:
            return "no answer was seen" if self.request.is_whole else "its request wasn't seen whole"
        took = self.answer.frames[0][0].at - self.request.frames[0][0].at
        return f"answered after {took * 1000:.3f} ms"


def calls_of(messages: list[Message]) -> list[Call]:
    """Requests with their answers. A message is an answer if its flow goes back on that of a request of its number."""
    calls: dict[tuple[Flow, int], Call] = {}
    for it in messages:
        if it.number is None:
            continue
        asked = calls.get((it.flow.reversed(), it.number))
        if asked and asked.answer is None:
            asked.answer = it
        elif asked is None:
            calls[it.flow, it.number] = Call(it)
    return list(calls.values())


def said(frame: Frame, how: str, name: str) -> str:
    """What a line says of a frame."""
    if frame.kind == ACKNOWLEDGEMENT:
        return f"of the {name}: {how}, up to {frame.number}"
    marks = "".join(letter for letter, bit in (("d", 1), ("b", BEGIN), ("e", END)) if frame.flags & bit) or "-"
    kinds = {"first": name, "again": f"{name}, sent again", "the same": f"{name}"}
    return f"{kinds[how]}: {len(frame.octets)} octets from {frame.number}, {marks}, life {frame.life}"


def entry_rows(entries: list[Entry], files: list[str]) -> Iterator[tuple[float, list[str]]]:
    """A line for each thing that a program did or had, with its node."""
    flow = next((it.token for it in entries if TOKEN.fullmatch(it.token)), "")
    caller, _, service = (re.split("[:>]", flow) + ["", "", ""])[:3]
    for it in entries:
        node = service if it.event in ("request", "reply", "forget") else caller
        what, _, more = it.text.partition(" ")
        more = more.partition(": ")[2]
        yield it.at, [f"program {node}", f"{what}: {more}" if more else what, "", it.file if len(files) > 1 else ""]


def shown_of(token: str, entries: list[Entry], files: list[str]) -> Iterator[str]:
    """The picture of a call of which no frame was seen."""
    yield f"{token}: no frame of it was seen"
    rows = list(entry_rows(entries, files))
    for at, columns in rows:
        yield f"{(at - rows[0][0]) * 1000:10.3f}  {columns[0]:12} {columns[1]:52} {columns[3]}".rstrip()


def lines_of(call: Call, files: list[str], log: list[str], entries: list[Entry]) -> Iterator[str]:
    """The picture of a call: a line for each frame and each entry, in the order of time."""
    parts = [("request", call.request), *([("answer", call.answer)] if call.answer else [])]
    all_ = sorted(((frame, how, name) for name, it in parts for frame, how in it.frames), key=lambda it: it[0].at)
    begun, made = min([all_[0][0].at, *(it.at for it in entries)]), dict[int, int]()
    rows = list(entry_rows(entries, files))
    for frame, how, name in all_:
        sender = frame.flow.target if frame.kind == ACKNOWLEDGEMENT else frame.flow.source
        receiver = frame.flow.source if frame.kind == ACKNOWLEDGEMENT else frame.flow.target
        step = ""
        if frame.made is not None:
            step = f"step {(frame.made - made.setdefault(sender, frame.made)) / 1000:.3f} of {sender}"
        rows.append(
            (frame.at, [f"{sender} -> {receiver}", said(frame, how, name), step, frame.file if len(files) > 1 else ""])
        )
    last = all_[-1][0].at
    for line in log:
        words = line.split(" ")
        moment = int(words[0]) / 1000
        if (
            len(words) > 3
            and words[3] in (str(call.request.flow), str(call.request.flow.reversed()))
            and begun - 0.001 <= moment <= last + 0.001
        ):
            rows.append((moment, [f"turn of {words[1]}", " ".join(words[2:])[:80], "", ""]))
    yield f"{call}: {len(call.request.octets) - NAME} octets, {call.state}"
    yield f"request {bytes(call.request.octets[NAME : NAME + 40])!r}"
    if call.answer:
        yield f"answer  {bytes(call.answer.octets[NAME : NAME + 40])!r}"
    for at, columns in sorted(rows, key=lambda it: it[0]):
        yield f"{(at - begun) * 1000:10.3f}  {columns[0]:12} {columns[1]:52} {columns[2]:22} {columns[3]}".rstrip()


def counted(call: Call) -> str:
    """How many frames there were of it."""

    def how_many(it: Message | None, what: str) -> int:
        return sum(how == what and frame.kind == DATA for frame, how in it.frames) if it else 0

    return (
        f"request: {how_many(call.request, 'first')} frames, {how_many(call.request, 'again')} again; "
        f"answer: {how_many(call.answer, 'first')} frames, {how_many(call.answer, 'again')} again"
    )


def arguments() -> argparse.Namespace:
    it = argparse.ArgumentParser(description=__doc__, formatter_class=argparse.RawDescriptionHelpFormatter)
    it.add_argument("words", nargs="+", metavar="CAPTURE .. [TOKEN]", help="captures, and a call: FLOW#NUMBER")
    it.add_argument("--log", type=Path, action="append", default=[], help="the log of a node")
    return it.parse_intermixed_args()


def log_lines(paths: list[Path]) -> list[str]:
    return [line for path in paths for line in path.read_text().splitlines() if re.match(r"\d+ \d+ [a-z]", line)]


def main() -> int:
    given = arguments()
    token = given.words[-1] if TOKEN.fullmatch(given.words[-1]) else None
    paths = [Path(it) for it in (given.words[:-1] if token else given.words)]
    messages, frames, noted = Messages(), list[Frame](), list[Entry]()
    try:
        for path in paths:
            frames += frames_of(path, noted)
        log = log_lines(given.log)
    except (OSError, NoCapture, UnicodeDecodeError) as why:
        print(f"trace_token.py: {path}: {why}", file=sys.stderr)
        return 2
    for frame in sorted(frames, key=lambda it: it.at):
        messages.take(frame)
    calls, entries = calls_of(messages.all), Entries(noted)
    chosen = [it for it in calls if str(it) == token]
    names = [path.name for path in paths]
    unseen = [it for it in entries.tokens() if it not in set(map(str, calls))]
    if token in unseen:
        print("\n".join(shown_of(token, entries.of(token), names)))
        return 0
    if token and not chosen:
        print(
            f"trace_token.py: there is no call {token} in {len(frames)} frames; without it the calls are listed",
            file=sys.stderr,
        )
        return 1
    for it in chosen:
        print("\n".join(lines_of(it, names, log, entries.of(str(it)))))
        print(counted(it))
    for it in [] if token else calls:
        print(f"{it}: {it.state}; {counted(it)}")
    for name in [] if token else unseen:
        print(f"{name}: no frame of it was seen")
    return 0


if __name__ == "__main__":
    sys.exit(main())
