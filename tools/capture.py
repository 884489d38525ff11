#!/usr/bin/env python3
"""Writes the datagrams of a recorded run as a capture file: `tools/capture.py SCRIPT TRACE > FILE.pcapng`.

SCRIPT is the script of a node, and TRACE is what `deltat trace` wrote of its run. The trace has the datagrams that
arrived. A repeated run gives those that left: the lines of `deltat retrace` say which packets were made and when they
left, and the script has their octets. FILE opens in Wireshark, with tools/wireshark/deltat.lua.

Times are the node's: a datagram that left has the time of its step, and one that arrived has the time of the step that
received it. A datagram that the socket didn't take isn't in the file. Each packet is marked as inbound or outbound."""
import argparse
import pathlib
import shutil
import subprocess
import sys
from collections import deque
from typing import Iterator, NamedTuple

import wire

ROOM = 64  # packets that wait on a link
MAKERS = {"sent", "resent", "met", "acked"}  # lines of packets that a host makes by itself
FLAGS = {"d": wire.RUN, "b": wire.BEGIN, "e": wire.END}


class Refused(Exception):
    """The script or the trace can't be used, as the text says."""


class Script(NamedTuple):
    """What a script says of a node's addresses and octets."""
    text: str
    life: int
    node: int
    local: wire.Address
    peers: dict[int, wire.Address]
    charges: dict[int, int]
    routes: dict[int, int]
    sends: list[bytes]


class Datagram(NamedTuple):
    """A datagram that was taken on a link, and the moment of the turn that it was handed to."""
    moment: int
    link: int
    octets: bytes


class Event(NamedTuple):
    """A datagram that came or left, in ms since the first reading."""
    moment: int
    came: bool
    link: int
    octets: bytes


def _address(word: str) -> wire.Address:
    host, port = word.rsplit(":", 1)
    return host, int(port)


def read_script(text: str) -> Script:
    """The script of a node. A script that the program refuses is refused by the program later."""
    life, node, local = 0, 0, ("0.0.0.0", 0)
    peers: dict[int, wire.Address] = {}
    charges: dict[int, int] = {}
    routes: dict[int, int] = {}
    sends: list[bytes] = []
    for number, line in enumerate(text.split("\n"), 1):
        words = line.split(" ")
        try:
            if words[0] == "params":
                life = int(words[1])
            elif words[0] == "me":
                node = int(words[1])
            elif words[0] == "local":
                local = _address(words[1])
            elif words[0] == "peer":
                peers[int(words[1])], charges[int(words[1])] = _address(words[2]), int(words[3])
            elif words[0] == "route":
                routes.setdefault(int(words[1]), int(words[2]))
            elif words[0] == "at" and words[2] == "send":
                sends.append(bytes.fromhex(words[5]))
        except (ValueError, IndexError):
            raise Refused(
                f"line {number} of the script isn't valid: {line[:60]}; give the script that the node ran"
            ) from None
    if not text.endswith("\n"):
        text += "\n"
    return Script(text, life, node, local, peers, charges, routes, sends)


def marked(script: Script, trace: str) -> tuple[str, list[Datagram], set[int]]:
    """An input of `retrace`: the run with one turn more before each datagram, at the same reading, which
    is handed an empty datagram. That is told by a line `bad short 0` and changes nothing else, so the log
    shows where each datagram came. Then the datagrams that came, one for each such line; an empty one of
    the run itself has its own line. Last the numbers of the gives that failed."""
    lines: list[str] = []
    wanted: list[tuple[int, bytes]] = []
    places: list[int] = []
    readings: list[int] = []
    failed: set[int] = set()
    for line in trace.splitlines():
        words = line.split(" ")
        if words[0] == "@" and len(words) == 2 and words[1].isdigit():
            readings.append(max(int(words[1]), readings[-1] if readings else 0))
        elif words[0] == "!" and len(words) == 2 and words[1].isdigit():
            failed.add(int(words[1]))
        elif words[0] == "<" and len(words) in (2, 3) and words[1].isdigit() and int(words[1]) in script.peers:
            octets = _octets(words[2]) if len(words) == 3 else b""
            wanted.append((int(words[1]), octets))
            places.append(len(readings))
            if octets:
                lines += [f"< {words[1]}", f"@ {readings[-1] if readings else 0}"]
        lines.append(line)
    first = readings[0] if readings else 0
    moments = [it - first for it in readings] or [0]
    came = [Datagram(moments[min(at, len(moments) - 1)], *it) for it, at in zip(wanted, places)]
    return script.text + "trace\n" + "".join(f"{it}\n" for it in lines), came, failed


def _octets(word: str) -> bytes:
    """The octets that a word spells; none where it spells none, which the program refuses."""
    try:
        return bytes.fromhex(word)
    except ValueError:
        return b""


def run_again(program: str, text: str) -> tuple[int, list[str]]:
    """The status and the lines of a run that is run again."""
    ran = subprocess.run([program, "retrace"], input=text.encode("latin-1"), capture_output=True, check=False)
    lines = ran.stdout.decode("ascii").splitlines()
    if ran.returncode in (0, 3, 5, 6):
        return ran.returncode, lines
    raise Refused(f"{program} retrace failed with status {ran.returncode}: {ran.stderr.decode().strip()}")


def log_of(program: str, script: Script, trace: str, text: str) -> list[str]:
    """The log of the marked run. The line of a fault is that in the script, a line `trace` and the trace."""
    status, lines = run_again(program, text)
    if status == 3:
        _, plain = run_again(program, script.text + "trace\n" + trace)
        fault = plain[-1] if plain and plain[-1].startswith("line ") else "script and trace are too long together"
        raise Refused(f"{program} retrace refused the run: {fault}; give the script and the trace of one run")
    return lines


class Sender:
    """The octets of a flow at its sender: those that wait, and the segments that went out."""

    def __init__(self) -> None:
        self.waiting = bytearray()
        self.segments: deque[tuple[int, bytes]] = deque()

    def cut(self, number: int, count: int) -> bytes:
        """The octets of a segment that goes out for the first time."""
        octets = bytes(self.waiting[:count])
        del self.waiting[:count]
        self.segments.append((number, octets))
        return octets

    def again(self, number: int) -> bytes:
        """The octets of a segment that goes out again."""
        return next(octets for it, octets in self.segments if it == number)

    def gone(self, count: int) -> None:
        """The leftmost octets were acknowledged or given up."""
        while count > 0 and self.segments:
            count -= len(self.segments.popleft()[1])


class Node:
    """What a node put on its links, followed line by line."""

    def __init__(self, script: Script, failed: set[int]) -> None:
        self._script, self._failed = script, failed
        self._senders: dict[str, Sender] = {}
        self._queues: dict[int, deque[bytes]] = {link: deque() for link in script.peers}
        self._sends, self._gives = iter(script.sends), 0

    def enters(self, frame: bytes) -> None:
        """A frame enters the relay, where a route names its node."""
        link = self._script.routes.get(wire.node_of(frame))
        if link in self._queues:
            self._queues[link].append(frame)

    def passes(self, came: Datagram) -> bool:
        """Whether a datagram that came is for another node and lives when it is here."""
        octets = came.octets
        return (wire.is_deltagram(octets) and wire.node_of(octets) != self._script.node
                and wire.life_of(octets) > self._script.charges[came.link])

    def line(self, moment: int, words: list[str]) -> Iterator[Event]:
        """Follows a line; gives the datagram that left with it."""
        word = words[0]
        if word == "took":
            self._sender(words[1]).waiting += next(self._sends)
        elif word == "refused":
            next(self._sends)
        elif word in ("settled", "uncertain"):
            self._sender(words[1]).gone(int(words[2]))
        elif word in ("sent", "resent", "acked", "replied", "met"):
            self.enters(self._made(word, words))
        elif word == "full":
            del self._queues[int(words[1])][ROOM]
        elif word == "expired" and words[1] == "out":
            self._queues[int(words[2])].popleft()
        elif word == "put":
            self._gives += 1
            frame = wire.with_life(self._queues[int(words[1])].popleft(), int(words[2]))
            if self._gives not in self._failed:
                yield Event(moment, False, int(words[1]), frame)

    def _sender(self, flow: str) -> Sender:
        return self._senders.setdefault(flow, Sender())

    def _made(self, word: str, words: list[str]) -> bytes:
        """The frame of a line that tells that one was made."""
        flow, number = wire.Flow.read(words[1]), int(words[2])
        if word in ("acked", "replied"):
            return wire.packet(flow.back(), self._script.life, wire.ACK, number, 0, int(words[3]))
        if word == "met":
            return wire.packet(flow, self._script.life, wire.RENDEZVOUS, number)
        sender = self._sender(words[1])
        octets = sender.cut(number, int(words[3])) if word == "sent" else sender.again(number)
        flags = sum(FLAGS[it] for it in words[4] if it in FLAGS)
        return wire.packet(flow, self._script.life, wire.DATA, number, flags, 0, octets)


def entry(lines: list[tuple[int, list[str]]], start: int, moment: int) -> int:
    """The place of the line behind which a datagram for another node entered the relay, of those from
    `start` on: the last one of this turn that a packet was made with, before anything else came or was
    asked for. The station settles first, and a packet that passes makes nothing due."""
    place = start - 1
    for at in range(start, len(lines)):
        when, words = lines[at]
        if when != moment or words[0] not in MAKERS | {
            "put",
            "full",
            "noroute",
            "expired",
            "uncertain",
            "released",
            "renewed",
        }:
            break
        if words[:2] == ["expired", "in"]:
            break
        if words[0] in MAKERS:
            place = at
    return place


def split(log: list[str]) -> list[tuple[int, list[str]]]:
    """The lines of a node, as moments and words."""
    words = [line.split(" ") for line in log]
    return [(int(it[0]), it[2:]) for it in words if len(it) > 2 and it[0].isdigit()]


def datagrams(script: Script, trace: str, program: str) -> Iterator[Event]:
    """The datagrams of a run, in their order. Refused where the program can't run it again."""
    text, came, failed = marked(script, trace)
    lines = split(log_of(program, script, trace, text))
    node, left = Node(script, failed), deque(came)
    entering: dict[int, bytes] = {}
    for at, (moment, words) in enumerate(lines):
        if words == ["bad", "short", "0"] and left:
            it = left.popleft()
            yield Event(it.moment, True, it.link, it.octets)
            if node.passes(it):
                place = entry(lines, at + 1, it.moment)
                if place > at:
                    entering[place] = it.octets
                else:
                    node.enters(it.octets)
        else:
            yield from node.line(moment, words)
        if at in entering:
            node.enters(entering.pop(at))


def default_program() -> str:
    """The program of this repository where it is built, else the one that is installed."""
    built = pathlib.Path(__file__).resolve().parent.parent / "crates" / "deltat" / "out" / "deltat"
    return str(built) if built.exists() else shutil.which("deltat") or str(built)


def main() -> int:
    parser = argparse.ArgumentParser(description=__doc__, formatter_class=argparse.RawDescriptionHelpFormatter)
    parser.add_argument("script", help="the script of the node")
    parser.add_argument("trace", help="what `deltat trace` wrote of its run")
    parser.add_argument("--program", default=default_program(), help="the program (default: %(default)s)")
    parser.add_argument(
        "--start",
        type=float,
        default=0.0,
        metavar="SECONDS",
        help="when the run began, in seconds since 1970 (default: 0)",
    )
    given = parser.parse_args()
    if sys.stdout.isatty():
        parser.error("standard output is a terminal; add > FILE.pcapng")
    try:
        texts = [pathlib.Path(it).read_text(encoding="latin-1") for it in (given.script, given.trace)]
        script = read_script(texts[0])
        events = list(datagrams(script, texts[1], given.program))
    except (OSError, Refused) as fault:
        print(f"capture.py: {fault}", file=sys.stderr)
        return 1
    capture = wire.Capture(sys.stdout.buffer, f"node {script.node}", "deltat tools/capture.py")
    for it in events:
        ends = (script.peers[it.link], script.local)
        sender, receiver = ends if it.came else ends[::-1]
        direction = capture.INBOUND if it.came else capture.OUTBOUND
        capture.add(int(given.start * 1e6) + it.moment * 1000, sender, receiver, it.octets, direction)
    return 0


if __name__ == "__main__":
    sys.exit(main())
