#!/usr/bin/env python3
"""The same log: tests/library/drive.c runs a script and a trace over libdeltat, and has to write what `deltat retrace`
writes of them, octet for octet, and end with its status.

`tests/driver.py [PROGRAM] [--count N] [--seed N] [--library ARCHIVE] [--compiler CC] [--under COMMAND] [--keep
FOLDER]`. The inputs are the scripts and traces of crates/deltat_tests/data that are accepted and ask for no shelf,
which the library doesn't have, and N random ones: of each four

- one whose datagrams are made up: data, acknowledgements, rendezvous and closing packets of flows to the node, from it
  and past it, with numbers that are the next ones, old ones or any, and octets that are no Deltagram;
- one that a node heard in a network of three in memory, whose links drop, repeat and reorder (the nodes of the network
  are those of bindings/python);
- one that goes through the rows of the receive table: small rooms, data with numbers near the expected one, with and
  without the data-run flag, that fit or don't, and reads in between;
- one of these three with other lines: some are left out, doubled, swapped or cut.

Nodes start for the first time or again, clocks go back, leap and stand still, takes and gives fail, an address can't be
bound, and a parameter is out of its range. One input of 20 is for the driver with the address and undefined-behaviour
sanitizers. Ends with 1 where an input differs, which is kept in a folder; with 77 where there is no program, no library
or no compiler.

In tests/all: PROGRAM, 600 s."""
from __future__ import annotations

import argparse
import collections
import concurrent.futures
import heapq
import itertools
import os
import pathlib
import random
import shutil
import subprocess
import sys
import tempfile
import time
from collections.abc import Iterator

from lib import HOST, PROGRAM, TOP, skip

sys.path[:0] = [str(TOP / "tools"), str(TOP / "bindings" / "python")]
import wire  # noqa: E402

LIBRARY = TOP / "lib" / "libdeltat.a"
ROWS = TOP / "crates" / "deltat_tests" / "data"
ME, PEERS, FAR, NOWHERE = 1, (2, 3), 4, 9
# the last moment of a script
LAST = 2**32 - 1
FLOWS = [wire.Flow(2, 20, ME, 10), wire.Flow(3, 20, ME, 10), wire.Flow(2, 21, ME, 11)]
OUT = [wire.Flow(ME, 10, 2, 20), wire.Flow(ME, 10, 3, 20), wire.Flow(ME, 11, FAR, 5), wire.Flow(ME, 12, NOWHERE, 5)]
PAST = [wire.Flow(2, 1, 3, 1), wire.Flow(3, 1, NOWHERE, 1), wire.Flow(2, 1, FAR, 1)]


def word(flow: wire.Flow) -> str:
    return f"{flow.from_node}:{flow.from_port}>{flow.to_node}:{flow.to_port}"


# --- scripts


class Numbers:
    """The parameters of a node."""

    def __init__(self, chance: random.Random) -> None:
        self.mpl = chance.choice([2, 40, 500, 1000, 1000, 1000, 5000])
        self.r, self.a = chance.choice([1, 300, 3000]), chance.choice([1, 5, 200])
        self.rto = chance.choice([1, 100, 500])
        self.probe = min(chance.choice([1, 180, 800]), 3 * self.mpl + self.r + self.a - 1)
        self.seg = chance.choice([1, 7, 100, 100, 1000, 1024, 1025, 1400, 8192])
        self.cap, self.rcap, self.window = (chance.choice([1, 100, 1000, 4096, 65_536]) for _ in range(3))
        self.run_limit = chance.choice([1, 5, 100, 2**31, 2**31])
        self.start = chance.choice([0, 0, 7, 2**32 - 3, chance.randrange(2**32)])

    @property
    def quiet(self) -> int:
        return 3 * self.mpl + self.r + self.a

    def line(self) -> str:
        it = self
        return (
            f"params {it.mpl} {it.r} {it.a} {it.rto} {it.probe}"
            f" {it.seg} {it.cap} {it.rcap} {it.window} {it.run_limit} {it.start}"
        )


    def links(self, chance: random.Random) -> dict[int, tuple[int, int]]:
        """The charge and the pace of each link."""
        return {
            1: (chance.choice([0, 0, 1, 50]), chance.choice([0, 0, 0, 5, 100])),
            2: (chance.choice([0, 0, 20, 4000]), 0),
        }

    def size(self, chance: random.Random) -> int:
        """The octets of a send."""
        return min(
            chance.choice([1, 5, self.seg, self.seg + 1, 3 * self.seg, chance.randrange(1, 3000)]),
            40 * self.seg,
            65_536,
        )

    def step(self, chance: random.Random) -> int:
        """How far the clock goes from a reading to the next."""
        return chance.choice([0, 0, 1, 1, 5, 20, 50, self.rto, self.a, self.probe, self.mpl, self.quiet, -3])

    def heard(self, chance: random.Random) -> Made:
        """What draws the datagrams that come."""
        return Made(chance, self)


class Tight(Numbers):
    """Parameters of a device: rooms of 512 octets, small segments, odd quanta, times near each other."""

    def __init__(self, chance: random.Random) -> None:
        self.mpl = chance.choice([2, 10, 100, 1000])
        self.r, self.a = chance.choice([1, 50, 300, 3000]), chance.choice([1, 5, 20, 200])
        self.rto = chance.choice([1, 10, 100, 500, 4000])
        self.probe = min(chance.choice([1, 18, 180, 800]), 3 * self.mpl + self.r + self.a - 1)
        self.seg = chance.choice([1, 2, 7, 16, 32, 100, 128])
        self.cap, self.rcap, self.window = (chance.choice([1, 5, 16, 100, 300, 512]) for _ in range(3))
        self.run_limit = chance.choice([1, 2, 3, 5, 8, 13, 100, 1000, 2**29, 2**29 + 1, 2**31])
        self.start = chance.choice([0, 7, 2**32 - 1, 2**32 - 3, 2**32 - 100, 2**31 - 2, chance.randrange(2**32)])

    def size(self, chance: random.Random) -> int:
        return min(chance.choice([1, 1, 2, 3, 5, self.seg, self.seg + 1, 3 * self.seg, chance.randrange(1, 200)]), 512)


class Rows(Numbers):
    """Parameters in which data meet each row of the receive table, and what the rows owe and advertise."""

    def __init__(self, chance: random.Random) -> None:
        self.mpl, self.r, self.a = (
            chance.choice([40, 100, 1000]),
            chance.choice([50, 300, 3000]),
            chance.choice([5, 50, 200]),
        )
        self.rto, self.probe = chance.choice([10, 100, 500]), chance.choice([1, 18, 100])
        self.seg, self.cap, self.rcap = chance.choice([10, 50, 100]), 512, chance.choice([20, 60, 150, 512])
        self.window, self.run_limit = chance.choice([20, 512]), chance.choice([8, 100, 2**31])
        self.start = chance.choice([0, 2**32 - 3])

    def links(self, chance: random.Random) -> dict[int, tuple[int, int]]:
        return {1: (0, 0), 2: (1, 0)}

    def size(self, chance: random.Random) -> int:
        return chance.choice([1, 8, self.seg])

    def step(self, chance: random.Random) -> int:
        return chance.choice([0, 0, 0, 1, 1, self.a - 1, self.a, self.a, self.mpl, self.quiet - 2 * self.mpl])

    def heard(self, chance: random.Random) -> Made:
        return MadeForRows(chance, self)


def faulty(chance: random.Random, line: str) -> str:
    """A line of parameters with one out of its range."""
    words = line.split()
    words[chance.randrange(1, 11)] = chance.choice(["0", "4294967295"])
    return " ".join(words)


def script(numbers: str, again: bool, links: dict[int, tuple[int, int]], commands: list[str]) -> list[str]:
    """The script of the node ME: it reaches each peer by a link of its own, FAR by link 1, and NOWHERE by none."""
    peers = [f"peer {link} {HOST}:{4000 + link} {charge} {pace}" for link, (charge, pace) in links.items()]
    routes = [f"route {PEERS[0]} 1", f"route {PEERS[1]} 2", f"route {FAR} 1"]
    return [numbers, f"me {ME} {'again' if again else 'first'}", f"local {HOST}:4000", *peers, *routes, "go", *commands]


# --- traces whose datagrams are made up


class Made:
    """Datagrams that a node may hear, with the numbers that its flows have reached."""

    def __init__(self, chance: random.Random, numbers: Numbers) -> None:
        self.chance, self.numbers = chance, numbers
        self.next = {flow: chance.choice([0, 2**32 - 2, chance.randrange(2**32)]) for flow in FLOWS}
        self.begun: set[wire.Flow] = set()
        self.sent = {flow: 0 for flow in OUT}

    def number(self, right: int) -> int:
        """That number, or another one."""
        return (right + self.chance.choice([0] * 12 + [1, -1, 5, -5, 2**31, -100])) % 2**32

    def data(self, flow: wire.Flow) -> bytes:
        octets = self.chance.randbytes(self.chance.choice([1, 2, 5, 100, 1024, 1025, 8192]))
        if flow in self.next:
            number = self.number(self.next[flow])
            if flow not in self.begun or self.chance.random() < 0.1:
                self.begun.add(flow)
                run = wire.RUN
            else:
                run = 0 if self.chance.random() < 0.95 else wire.RUN
            if self.chance.random() < 0.8:
                self.next[flow] = (number + len(octets)) % 2**32
        else:
            number, run = self.chance.randrange(2**32), wire.RUN
        flags = (
            0
            if len(octets) > wire.MOST_OF_VERSION_1 and self.chance.random() < 0.1
            else run | self.chance.choice([0, wire.BEGIN, wire.END, wire.BEGIN | wire.END])
        )
        return wire.packet(flow, self.life(), wire.DATA, number, flags, 0, octets)

    def life(self) -> int:
        return self.chance.choice([self.numbers.mpl] * 6 + [1, 50, 51, 1000, 2**32 - 1])

    def answer(self) -> bytes:
        """An acknowledgement of something that was sent, or of something else."""
        flow = self.chance.choice(OUT)
        sent = self.chance.choice(
            [
                0,
                self.sent[flow],
                self.chance.randrange(self.sent[flow] + 1),
                self.numbers.seg * self.chance.randrange(1, 4),
            ]
        )
        number, window = self.number(self.numbers.start + sent), self.chance.choice([0, 1, 500, 4096, 65_536])
        return wire.packet(flow.back(), self.life(), wire.ACK, number, 0, window)

    def datagram(self) -> bytes:
        kind = self.chance.random()
        if kind < 0.4:
            return self.data(self.chance.choice(FLOWS))
        if kind < 0.7:
            return self.answer()
        if kind < 0.78:
            flow = self.chance.choice(sorted(self.begun) or FLOWS)
            return wire.packet(
                flow, self.life(), self.chance.choice([wire.RENDEZVOUS, wire.CLOSING]), self.number(self.next[flow])
            )
        if kind < 0.84:
            return self.data(self.chance.choice(PAST))
        return self.spoilt()

    def spoilt(self) -> bytes:
        """Octets that are a Deltagram by chance alone."""
        octets = bytearray(self.chance.choice([self.answer, lambda: self.data(FLOWS[0])])())
        kind = self.chance.randrange(4)
        if kind == 0:
            return bytes(octets[: self.chance.randrange(len(octets))])
        if kind == 1:
            return self.chance.randbytes(self.chance.choice([0, 3, 16, 30, 8223]))
        for _ in range(self.chance.choice([1, 1, 2])):
            octets[self.chance.choice([0, 1, 2, 3, 4, 7, 16, 17, 26, 29, self.chance.randrange(len(octets))])] = (
                self.chance.choice([0, 1, 2, 3, 4, 7, 255])
            )
        return bytes(octets)


class MadeForRows(Made):
    """Data with numbers near the expected one, with the data-run flag and without, of sizes that fit or don't."""

    def number(self, right: int) -> int:
        return (right + self.chance.choice([0] * 7 + [1, 30, 100, -1, -30, 2**31 - 1, 2**31, 2**31 + 1])) % 2**32

    def data(self, flow: wire.Flow) -> bytes:
        octets = self.chance.randbytes(self.chance.choice([1, 5, 19, 20, 40, 60, 100]))
        number = self.number(self.next.get(flow, 0))
        if flow in self.next and self.chance.random() < 0.7:
            self.next[flow] = (number + len(octets)) % 2**32
        flags = self.chance.choice([0, wire.RUN]) | self.chance.choice([0, 0, 0, wire.BEGIN, wire.END])
        return wire.packet(flow, self.life(), wire.DATA, number, flags, 0, octets)

    def datagram(self) -> bytes:
        return self.data(self.chance.choice(FLOWS)) if self.chance.random() < 0.8 else super().datagram()


def made(chance: random.Random, kind: type[Numbers] = Numbers) -> list[str]:
    numbers = kind(chance)
    heard, again = numbers.heard(chance), chance.random() < 0.3
    clock, commands, last, trace = chance.choice([0, 1000, 2**40, 2**62 - 2**34]), [], 0, []
    first = greatest = clock
    for _ in range(chance.choice([3, 10, 30, 60])):
        trace.append(f"@ {clock}")
        kind = chance.random()
        link = chance.choice([1, 1, 1, 2, 2, 7])
        trace.append("< -" if kind < 0.3 else f"< {link} {heard.datagram().hex()}".rstrip())
        clock = max(clock + numbers.step(chance), 0)
        greatest = max(greatest, clock)
        if chance.random() < 0.4:
            last = max(last, greatest - first + chance.choice([0, 0, 3, -50]))
            commands.append(f"at {last} {command(chance, heard)}")
    return done(
        chance, script(numbers.line(), again, numbers.links(chance), commands), trace, last, (first, greatest - first)
    )


def command(chance: random.Random, heard: Made) -> str:
    if chance.random() < 0.4:
        return (
            f"read {word(chance.choice([*FLOWS, *FLOWS, wire.Flow(8, 1, ME, 1)]))} {chance.choice([1, 3, 100, 65_536])}"
        )
    flow = chance.choice(OUT[:1] + OUT)
    octets = chance.randbytes(heard.numbers.size(chance))
    heard.sent[flow] += len(octets)
    return f"send {word(flow)} {chance.choice(['be', 'be', 'b', 'e', '-'])} {octets.hex()}"


def done(chance: random.Random, lines: list[str], trace: list[str], last: int, clock: tuple[int, int]) -> list[str]:
    """An input: the stop is behind the last command, and what fails stands among what came. The clock has its first
    reading, and how far it went."""
    first, passed = clock
    stop = min(max(last, chance.choice([passed, passed // 2, passed + 10_000])), LAST)
    if chance.random() < 0.98:
        trace = [*trace, f"@ {chance.choice([2**62, 2**63, 2**64 - 1]) if chance.random() < 0.1 else first + 2 * LAST}"]
    number = 0
    for _ in range(chance.choice([0, 0, 1, 3])):
        number += chance.choice([1, 1, 2, 5])
        trace.append(f"! {number}")
    fault = chance.random()
    if fault < 0.02:
        trace.insert(0, "! 0")
    elif fault < 0.06:
        trace.insert(chance.randrange(len(trace)), "< x")
    if fault > 0.98:
        lines = [faulty(chance, lines[0]), *lines[1:]]
    return [*lines, f"at {stop} stop", "trace", *trace]


# --- traces of a network in memory


class Network:
    """Nodes 1, 2 and 3 in memory, of which the first has a link to each other, and 4, which stands behind 2 and is
    never reached. Keeps what node 1 takes in."""

    def __init__(self, chance: random.Random, kind: type[Numbers] = Numbers) -> None:
        import deltat
        self.deltat, self.chance, self.at, self.count = deltat, chance, 0, itertools.count()
        self.numbers, self.again = kind(chance), chance.random() < 0.15
        self.links = self.numbers.links(chance)
        it = self.numbers
        params = deltat.Params(
            it.mpl, it.r, it.a, it.rto, it.probe, it.seg, it.cap, it.rcap, it.window, it.run_limit, it.start
        )
        mine = [deltat.Link(link, *costs) for link, costs in self.links.items()]
        self.nodes = {
            ME: deltat.Node(
                ME,
                params,
                mine,
                {2: 1, 3: 2, FAR: 1},
                start=deltat.Start.AGAIN if self.again else deltat.Start.FIRST,
                at=0,
            )
        }
        for link, (number, other) in enumerate(((2, 3), (3, 2)), 1):
            self.nodes[number] = deltat.Node(
                number, params, [deltat.Link(1, *self.links[link])], {ME: 1, other: 1}, start=deltat.Start.FIRST, at=0
            )
        self.under_way: list[tuple[int, int, int, int, bytes]] = []
        self.commands: list[str] = []
        self.trace = ["@ 0"]

    def flush(self, number: int) -> None:
        for frame in self.nodes[number].datagrams():
            to = ME if number != ME else PEERS[frame.link - 1]
            for _ in range(self.chance.choices([0, 1, 2], [15, 70, 15])[0]):
                link = frame.link if number == ME else number - 1
                late = self.at + self.chance.randrange(self.links[link][0] + 1)
                heapq.heappush(self.under_way, (late, next(self.count), to, link, frame.octets))

    def send(self, number: int) -> None:
        flow = self.chance.choice([it for it in OUT[:2] + FLOWS + PAST[:1] if it.from_node == number])
        octets, marks = self.chance.randbytes(self.numbers.size(self.chance)), self.chance.choice(
            ["be", "be", "b", "e", "-"]
        )
        try:
            way = self.deltat.Flow(flow.from_node, flow.from_port, flow.to_node, flow.to_port)
            self.nodes[number].send(way, octets, "b" in marks, "e" in marks, self.at)
        except (self.deltat.Full, self.deltat.Quiet, self.deltat.InvalidArgument):
            pass
        if number == ME:
            self.commands.append(f"at {self.at} send {word(flow)} {marks} {octets.hex()}")

    def read(self, number: int) -> None:
        flow, most = self.chance.choice(
            [it for it in FLOWS + OUT[:2] + PAST[:1] if it.to_node == number]
        ), self.chance.choice([1, 100, 65_536])
        self.nodes[number].read(self.deltat.Flow(flow.from_node, flow.from_port, flow.to_node, flow.to_port), self.at)
        if number == ME:
            self.commands.append(f"at {self.at} read {word(flow)} {most}")

    def step(self) -> None:
        """Something is sent or read, or the clock goes on, and what comes then comes."""
        number = self.chance.choice([1, 1, 2, 3])
        what = self.chance.random()
        if what < 0.3:
            self.send(number)
        elif what < 0.45:
            self.read(number)
        else:
            ahead = [it[0] for it in self.under_way[:1]] + [
                it.wake for it in self.nodes.values() if it.wake is not None
            ]
            self.at = (
                max(self.at, min(ahead, default=self.at + 1))
                if self.chance.random() < 0.8
                else self.at + self.chance.choice([1, 20, self.numbers.rto])
            )
        for it in self.nodes.values():
            it.tick(self.at)
        for it in self.nodes:
            self.flush(it)
        while self.under_way and self.under_way[0][0] <= self.at:
            _, _, to, link, octets = heapq.heappop(self.under_way)
            self.nodes[to].receive(link if to == ME else 1, octets, at=self.at)
            self.flush(to)
            if to == ME:
                self.trace += [f"< {link} {octets.hex()}", f"@ {self.at}"]
        self.trace += ["< -", f"@ {self.at}"]


def heard(chance: random.Random, kind: type[Numbers] = Numbers) -> list[str]:
    run = Network(chance, kind)
    for _ in range(chance.choice([5, 20, 60])):
        run.step()
    return done(chance, script(run.numbers.line(), run.again, run.links, run.commands), run.trace, run.at, (0, run.at))


# --- inputs, and what is written of them


def changed(chance: random.Random, lines: list[str]) -> list[str]:
    """An input with other lines in its trace. Its clock goes on in the end."""
    at = lines.index("trace") + 1
    head, trace = lines[:at], lines[at:]
    for _ in range(chance.choice([1, 2, 5])):
        kind, place, other = chance.randrange(4), chance.randrange(len(trace)), chance.randrange(len(trace))
        if trace[place].startswith("!") or trace[other].startswith("!"):
            continue
        if kind == 0 and len(trace) > 2:
            del trace[place]
        elif kind == 1:
            trace.insert(other, trace[place])
        elif kind == 2:
            trace[place], trace[other] = trace[other], trace[place]
        elif trace[place].startswith("< ") and len(trace[place]) > 20:
            trace[place] = trace[place][: 4 + 2 * chance.randrange(1, 8)]
    return [*head, *trace, f"@ {2**62}"]


def rows(chance: random.Random) -> list[str]:
    return made(chance, Rows)


def worked() -> Iterator[tuple[str, bytes]]:
    """The scripts and traces of the gate that are accepted and ask for no shelf, by their names."""
    for path in sorted(ROWS.glob("*.in")):
        text = path.read_bytes()
        is_refused = path.with_suffix(".out").read_bytes().startswith(b"line ")
        if (
            b"\ntrace\n" in text
            and not is_refused
            and not any(line.startswith(b"shelf ") for line in text.split(b"\n"))
        ):
            yield path.stem, text


def drawn_input(seed: int, number: int) -> tuple[str, bytes]:
    """The random input of that number, and its name: one of four kinds, in turn."""
    chance = random.Random(f"{seed} {number}")
    kind = number % 4
    lines = (
        changed(chance, chance.choice([made, heard, rows])(chance)) if kind == 3 else (made, heard, rows)[kind](chance)
    )
    return f"{('made', 'heard', 'rows', 'changed')[kind]}-{seed}-{number}", "".join(f"{it}\n" for it in lines).encode()


def inputs(seed: int, count: int) -> Iterator[tuple[str, bytes]]:
    """The inputs, by their names."""
    yield from worked()
    for number in range(count):
        yield drawn_input(seed, number)


def ran(words: list[str], text: bytes) -> tuple[int, bytes]:
    # the driver keeps what it read until it ends
    settings = {**os.environ, "ASAN_OPTIONS": "detect_leaks=0"}
    done_by = subprocess.run(words, input=text, capture_output=True, check=False, timeout=60, env=settings)
    return done_by.returncode, done_by.stdout


def compared(
    drivers: list[list[str]], program: str, at: int, name: str, text: bytes
) -> tuple[str, bytes, tuple[int, bytes], tuple[int, bytes]]:
    """What the program makes of an input, and what the driver does: of 20 inputs one is for that with the
    sanitizers."""
    driver = drivers[-1] if at % 20 == 0 else drivers[0]
    return name, text, ran([program, "retrace"], text), ran(driver, text)


def first_difference(wanted: bytes, had: bytes) -> str:
    rows = itertools.zip_longest(wanted.split(b"\n"), had.split(b"\n"))
    at, (right, wrong) = next((at, it) for at, it in enumerate(rows, 1) if it[0] != it[1])
    return f"line {at}: {(right or b'nothing')[:200]!r}, and by the library {(wrong or b'nothing')[:200]!r}"


def built(given: argparse.Namespace, folder: str) -> list[list[str]]:
    """How the driver is called, compiled in that folder, and with the sanitizers where the compiler has them."""
    compiler = given.compiler or next((it for it in ("gcc", "clang") if shutil.which(it)), None)
    if compiler is None:
        skip("there is no compiler of C")
    source, programs = TOP / "tests" / "library" / "drive.c", [f"{folder}/drive", f"{folder}/sanitized"]
    words = [
        compiler,
        "-std=c99",
        "-O2",
        "-g",
        "-Wall",
        "-Wextra",
        "-Werror",
        "-pedantic",
        f"-I{TOP / 'include'}",
        str(source),
        str(given.library),
        "-o",
    ]
    subprocess.run([*words, programs[0]], check=True)
    if given.under:
        return [[given.under, programs[0]]]
    sanitized = subprocess.run(
        [*words, programs[1], "-fsanitize=address,undefined", "-fno-sanitize-recover=all"], capture_output=True
    )
    return [[it] for it in (programs if sanitized.returncode == 0 else programs[:1])]


def main() -> int:
    reads = argparse.ArgumentParser(description=__doc__, formatter_class=argparse.RawDescriptionHelpFormatter)
    reads.add_argument("program", nargs="?", default=str(PROGRAM), help="the program (%(default)s)")
    reads.add_argument("--count", type=int, default=10_000, help="how many random inputs (%(default)s)")
    reads.add_argument("--seed", type=int, default=1, help="what they are drawn from (%(default)s)")
    reads.add_argument(
        "--library", type=pathlib.Path, default=LIBRARY, metavar="ARCHIVE", help="the archive (%(default)s)"
    )
    reads.add_argument("--compiler", metavar="CC", help="compile the driver by this (gcc or clang)")
    reads.add_argument("--under", metavar="COMMAND", help="run the driver by this, as an emulator")
    reads.add_argument(
        "--keep",
        type=pathlib.Path,
        metavar="FOLDER",
        help="keep the inputs that differ there (a new folder below /tmp)",
    )
    given = reads.parse_args()
    if not os.access(given.program, os.X_OK):
        skip(f"there is no program {given.program}: ./build")
    if not given.library.exists() or not LIBRARY.with_name("libdeltat.so.2").exists():
        skip(f"{given.library} isn't there: make -C lib")
    statuses: collections.Counter[int] = collections.Counter()
    words: collections.Counter[str] = collections.Counter()
    differ, begun, lines = 0, time.monotonic(), 0
    with tempfile.TemporaryDirectory() as folder, concurrent.futures.ThreadPoolExecutor(2) as pool:
        drivers = built(given, folder)
        drawn = enumerate(inputs(given.seed, given.count))
        while batch := list(itertools.islice(drawn, 200)):
            for name, text, right, found in pool.map(lambda it: compared(drivers, given.program, it[0], *it[1]), batch):
                statuses[right[0]] += 1
                lines += right[1].count(b"\n")
                words.update(it.split(b" ")[2].decode() for it in right[1].split(b"\n") if it.count(b" ") > 1)
                if right != found:
                    differ += 1
                    given.keep = given.keep or pathlib.Path(tempfile.mkdtemp(prefix="deltat-driver-"))
                    given.keep.mkdir(parents=True, exist_ok=True)
                    (given.keep / f"{name}.in").write_bytes(text)
                    why = (
                        f"status {right[0]}, and by the library {found[0]}"
                        if right[1] == found[1]
                        else first_difference(right[1], found[1])
                    )
                    print(f"{given.keep / name}.in: {why}", flush=True)
            if differ > 20:
                break
    told = ", ".join(f"{count} end with {status}" for status, count in sorted(statuses.items()))
    print(", ".join(f"{count} {it}" for it, count in words.most_common()))
    print(
        f"{sum(statuses.values())} inputs ({told}), {lines} lines, {differ} differ; seed {given.seed},"
        f" {time.monotonic() - begun:.0f} s"
    )
    return 1 if differ or not given.count else 0


if __name__ == "__main__":
    sys.exit(main())
