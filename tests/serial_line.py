#!/usr/bin/env python3
"""The driver over a serial line (lib/serial), over a pair of pseudo terminals: `tests/serial_line.py [--library
ARCHIVE] [--seed N] [--only NAME]`. Ends with 1 where one of these fails:

- framing: datagrams of each length to 1,100 and of 8,222 octets go over the framing and back, one with a changed bit
  doesn't, and the octets on the line are those that examples/board/bridge.py writes. With the sanitizers.
- zlib: the same with the check of zlib (-DDT_SERIAL_ZLIB), and `clean` with it at one end. Left out where there is no
  zlib.h.
- clean: 40 messages on each of 3 flows each way, over a line that takes 115,200 bits a second: all arrive, none is
  spoilt, and the guard blocks one for a port that isn't open.
- bad: the same over a line that changes one octet of 400, loses one of 800, and joins datagrams by losing an octet 0
  now and
  then: what arrives is right, in order and once, and no more is missing than was reported uncertain.
- long: messages of up to 19,758 octets in datagrams of 8,222, which the line's buffer doesn't hold whole, at 921,600
  bits a
  second: all arrive.
- half: the same both ways over a line that spoils whatever both ends send at a time, with a turnaround.
- gone: a line whose other side is closed ends the driver with an event, and a path that isn't a line is refused.

Ends with 77 where there is no library or no compiler.

In tests/all: no words, 400 s."""
from __future__ import annotations

import argparse
import os
import pathlib
import pty
import random
import select
import shutil
import subprocess
import sys
import tempfile
import time
import tty
from collections.abc import Callable
from dataclasses import dataclass, field
from zlib import crc32

from lib import TOP, skip

sys.path[:0] = [str(TOP / "examples" / "board")]
import bridge  # noqa: E402

SERIAL, ENDS = TOP / "lib" / "serial", TOP / "tests" / "serial"
FLAGS = ["-std=c11", "-D_GNU_SOURCE", "-g", "-O1", "-Wall", "-Wextra", "-Werror", "-fsanitize=address,undefined",
         "-fno-sanitize-recover=all", f"-I{TOP / 'include'}", f"-I{SERIAL}"]
FLOWS, MESSAGES = 3, 40
# octets a second at 115,200 and 921,600 bits, 10 of them an octet
RATE, LONG_RATE = 11_520, 92_160
BURST = 0.01


@dataclass
class Way:
    """One way of the line: octets go on at the line's rate, some changed or lost. Half duplex: those that overlap the
    other way's are changed."""

    source: int
    target: int
    flips: float
    losses: float
    chance: random.Random
    rate: int = RATE
    waiting: bytearray = field(default_factory=bytearray)
    at: float = 0.0
    busy_until: float = 0.0
    collisions: int = 0

    def spoil(self, octets: bytes, collides: bool) -> bytes:
        out = bytearray()
        for it in octets:
            if self.chance.random() < self.losses * (5 if it == 0 else 1):
                continue  # of the octets 0 more are lost, which joins datagrams
            flip = collides or self.chance.random() < self.flips
            out.append(it ^ (1 << self.chance.randrange(8)) if flip else it)
        return bytes(out)

    def step(self, now: float, other_busy: bool) -> None:
        """Takes what has come, and hands on what the line has carried since."""
        if self.source in select.select([self.source], [], [], 0)[0]:
            self.waiting += os.read(self.source, 4096)
        if not self.waiting:
            self.at = now
            return
        count = min(len(self.waiting), int((now - self.at) * self.rate))
        if count == 0:
            return
        self.at = max(self.at + count / self.rate, now - BURST)
        self.collisions += other_busy
        self.busy_until = now + 0.002
        octets, self.waiting = bytes(self.waiting[:count]), self.waiting[count:]
        try:
            os.write(self.target, self.spoil(octets, other_busy))
        except BlockingIOError:
            pass  # the other end has ended, and nobody reads


@dataclass
class Line:
    """A pair of pseudo terminals: what one end writes comes to the other."""

    masters: list[int]
    slaves: list[int]
    paths: list[str]

    def close(self) -> None:
        for it in [*self.masters, *self.slaves]:
            os.close(it)


def line() -> Line:
    pairs = [pty.openpty() for _ in range(2)]
    for master, slave in pairs:
        tty.setraw(slave)
        os.set_blocking(master, False)
    return Line([it[0] for it in pairs], [it[1] for it in pairs], [os.ttyname(it[1]) for it in pairs])


@dataclass
class End:
    status: int
    got: dict[int, list[int]]
    wrong: int
    uncertain: dict[int, int]
    counts: list[int]

    @classmethod
    def of(cls, status: int, text: str) -> End:
        it = cls(status, {}, 0, {}, [])
        for words in map(str.split, text.splitlines()):
            if words[0] == "got":
                it.got.setdefault(int(words[1]), []).append(int(words[2]))
            elif words[0] == "uncertain":
                it.uncertain[int(words[1])] = it.uncertain.get(int(words[1]), 0) + int(words[2])
            elif words[0] == "end":
                it.counts = list(map(int, words[1:]))
            it.wrong += words[0] == "wrong"
        return it


@dataclass
class Made:
    """The programs of an end, compiled in a folder when they are first asked for."""

    folder: str
    compiler: str
    library: pathlib.Path
    paths: dict[str, str] = field(default_factory=dict)

    def end(self, name: str, words: list[str]) -> str:
        if name not in self.paths:
            self.paths[name] = f"{self.folder}/{name}"
            sources = [str(ENDS / "end.c"), *map(str, sorted(SERIAL.glob("*.c"))), str(self.library)]
            subprocess.run(
                [self.compiler, *FLAGS, *sources, *words, "-Wl,--wrap=write", "-o", self.paths[name]], check=True
            )
        return self.paths[name]


@dataclass(frozen=True)
class Case:
    """A line, and what goes over it: the programs of both ends, chances of a changed and of a lost octet, and whether
    it is half duplex, or fast with long messages."""

    name: str
    programs: tuple[str, str]
    seed: int
    flips: float = 0
    losses: float = 0
    is_half: bool = False
    is_long: bool = False

    def messages(self) -> int:
        return 8 if self.is_long else MESSAGES


def exchange(case: Case) -> tuple[list[End], list[Way]]:
    """Both ends over a line, until both have ended."""
    chance, wire = random.Random(case.seed), line()
    rate = LONG_RATE if case.is_long else RATE
    ways = [Way(wire.masters[i], wire.masters[1 - i], case.flips, case.losses, chance, rate) for i in range(2)]
    words = [str(FLOWS), str(case.messages()), "45", "8" if case.is_half else "0", *["long"] * case.is_long]
    ends = [
        subprocess.Popen(
            [case.programs[i], wire.paths[i], str(1 + i), str(2 - i), *words], stdout=subprocess.PIPE, text=True
        )
        for i in range(2)
    ]
    begun = time.monotonic()
    for it in ways:
        it.at = begun
    while any(it.poll() is None for it in ends) and time.monotonic() - begun < 60:
        now = time.monotonic()
        for one, other in ((ways[0], ways[1]), (ways[1], ways[0])):
            one.step(now, case.is_half and other.busy_until > now)
        time.sleep(0.001)
    texts = [it.communicate(timeout=20)[0] for it in ends]
    wire.close()
    return [End.of(it.returncode, text) for it, text in zip(ends, texts)], ways


def is_sound(case: Case, at: int, end: End, other: End) -> bool:
    """Whether what an end got of the other is right: in order, once, and each that is missing has an octet that its
    sender reported uncertain, has under way, or didn't send."""
    good = end.status == 0 and end.wrong == 0 and bool(end.counts) and bool(other.counts)
    for port in range(10, 10 + FLOWS) if good else ():
        got = end.got.get(port, [])
        unsent, under_way = FLOWS * case.messages() - other.counts[0], other.counts[6]
        good = (
            good
            and got == sorted(set(got))
            and case.messages() - len(got) <= other.uncertain.get(port, 0) + under_way + unsent
        )
    uncertain = sum(other.uncertain.values())
    print(
        f"{case.name} {at}: got {sum(map(len, end.got.values()))} of {other.counts[0] if other.counts else '?'},"
        f" {uncertain} octets uncertain, counts {end.counts}{'' if good else ': WRONG'}"
    )
    return good


def run(case: Case) -> tuple[bool, list[End], list[Way]]:
    ends, ways = exchange(case)
    return all([is_sound(case, i + 1, ends[i], ends[1 - i]) for i in range(2)]), ends, ways


def framing(folder: str, compiler: str, words: list[str]) -> bool:
    path = f"{folder}/framing"
    subprocess.run(
        [compiler, *FLAGS, str(ENDS / "framing.c"), str(SERIAL / "framing.c"), *words, "-o", path], check=True
    )
    good, chance = subprocess.run([path], check=False).returncode == 0, random.Random(1)
    for count in (1, 30, 250, 254, 255, 300, 600):
        for octets in (bytes(count), bytes(1 + it % 255 for it in range(count)), chance.randbytes(count)):
            ours = b"\0" + bridge.stuff(octets + crc32(octets).to_bytes(4, "little")) + b"\0"
            theirs = subprocess.run([path, octets.hex()], capture_output=True, text=True, check=True).stdout.strip()
            if theirs != ours.hex():
                print(f"framing of {octets.hex()[:40]}..: {theirs[:60]}, should be {ours.hex()[:60]}")
                good = False
    return good


def all_arrive(case: Case) -> bool:
    """Whether all arrives, and none spoilt; the guard blocked what was for a port that isn't open."""
    good, ends, _ = run(case)
    return good and all(
        sum(map(len, it.got.values())) == FLOWS * case.messages() and it.counts[3] == 0 and it.counts[5] > 0
        for it in ends
    )


def with_zlib(made: Made, seed: int) -> bool:
    found = subprocess.run(
        [made.compiler, "-E", "-"], input="#include <zlib.h>\n", capture_output=True, text=True, check=False
    )
    if found.returncode:
        print("zlib: there is no zlib.h: apt-get install zlib1g-dev")
        return True
    words = ["-DDT_SERIAL_ZLIB", "-lz"]
    return framing(made.folder, made.compiler, words) and all_arrive(
        Case("zlib", (made.end("zlib", words), made.end("end", [])), seed)
    )


def bad(program: str, seed: int) -> bool:
    good, ends, _ = run(Case("bad", (program, program), seed, 1 / 400, 1 / 800))
    return good and all(it.counts[3] > 5 and sum(map(len, it.got.values())) > MESSAGES // 2 for it in ends)


def half(program: str, seed: int) -> bool:
    good, ends, ways = run(Case("half", (program, program), seed, is_half=True))
    print(f"half: {[it.collisions for it in ways]} times both ends sent")
    return good and all(sum(map(len, it.got.values())) > MESSAGES // 2 for it in ends)


def gone(program: str) -> bool:
    wire = line()
    end = subprocess.Popen([program, wire.paths[0], "1", "2", "1", "1", "20", "0"], stdout=subprocess.PIPE, text=True)
    time.sleep(0.5)
    wire.close()
    text = end.communicate(timeout=30)[0]
    refused = subprocess.run(
        [program, "/dev/null", "1", "2", "1", "1", "5", "0"], capture_output=True, text=True, check=False
    )
    print(f"gone: {text.strip().splitlines()[-1:]}, {end.returncode}; {refused.stderr.strip()}, {refused.returncode}")
    return end.returncode == 3 and "failed" in text and refused.returncode == 1 and "/dev/null" in refused.stderr


def main() -> int:
    reads = argparse.ArgumentParser(description=__doc__, formatter_class=argparse.RawDescriptionHelpFormatter)
    reads.add_argument(
        "--library",
        type=pathlib.Path,
        default=TOP / "lib" / "libdeltat.a",
        metavar="ARCHIVE",
        help="the archive (%(default)s)",
    )
    reads.add_argument("--seed", type=int, default=1)
    reads.add_argument("--only", action="append", metavar="NAME", help="run this test only; may be given again")
    given = reads.parse_args()
    compiler = next((it for it in ("gcc", "clang") if shutil.which(it)), None)
    if compiler is None:
        skip("there is no compiler of C")
        return 77
    if not given.library.exists():
        skip(f"{given.library} isn't there: make -C lib")
    with tempfile.TemporaryDirectory() as folder:
        made, seed = Made(folder, compiler, given.library), given.seed
        program = made.end("end", [])
        both = (program, program)
        tests: dict[str, Callable[[], bool]] = {
            "framing": lambda: framing(folder, made.compiler, []), "zlib": lambda: with_zlib(made, seed),
            "clean": lambda: all_arrive(Case("clean", both, seed)), "bad": lambda: bad(program, seed),
            "long": lambda: all_arrive(Case("long", both, seed, is_long=True)),
            "half": lambda: half(program, seed), "gone": lambda: gone(program)}
        failed = [name for name, it in tests.items() if not given.only or name in given.only if not it()]
    for name in failed:
        print(f"{name} failed")
    print(f"{len(tests) - len(failed)} of {len(tests)} hold")
    return 1 if failed else 0


if __name__ == "__main__":
    sys.exit(main())
