#!/usr/bin/env python3
"""The node for small devices (micro/) against the proved program: `tests/micro.py [PROGRAM] [--count N] [--seed N]
[--worlds N] [--only NAME]`. Ends with 1 where one of these fails:

- vectors: all cases of conformance/ that an end with a relay has to hold, by the node with the greatest limits; and
  those that fit a device, by the node with the limits of its header, with the sanitizers.
- parts: what no trace shows: admitted flows, `waited_ms`, deadlines, and what is refused (tests/micro/parts.c).
- traces: N random scripts and traces, a third each of tests/driver.py's usual kind, of rooms and times of a device, and
  of those that go through the receive table. The log and the status are the program's, octet for octet. In each,
  nothing happens before dtm_wake, and nothing is due after a tick. One of 10 is run with the sanitizers.
- limits: traces by a node with the limits of a device: where no limit is met the log is the program's.
- worlds: N random worlds of nodes with 2 records, 4 segments and 2 places for datagrams, with loss, repeats, restarts
  and relays, in half of which each node has rooms of its own: `deltat audit` says yes to all.
- sizes: the code for a Cortex-M3 and the memory of a node stay below CEILINGS.
- big_endian: the vectors, and one trace of 40, by a processor with the other order of octets, under qemu.

Each of the last two is left out, with a line, where its tools are missing. `--count 100000` is the long run.

In tests/all: PROGRAM, 420 s."""
from __future__ import annotations

import argparse
import collections
import concurrent.futures
import itertools
import os
import pathlib
import random
import shutil
import subprocess
import sys
import tempfile
import time
from collections.abc import Iterator

import driver
from lib import PROGRAM, TOP, skip

MICRO = TOP / "micro"
RUNNER = [sys.executable, str(TOP / "conformance" / "run.py")]
FLAGS = ["-std=c99", "-Wall", "-Wextra", "-Werror", "-pedantic", f"-I{MICRO}"]
SANITIZED = ["-g", "-O1", "-fsanitize=address,undefined", "-fno-sanitize-recover=all"]
# a schedule's links go one way, so a station has more of them than a device
DEVICE = ["-DDTM_SMALL", "-DDTM_LINKS=8", "-DDTM_ROUTES=8"]
FEW = [*DEVICE, "-DDTM_SENDS=2", "-DDTM_RECVS=2", "-DDTM_SEGMENTS=4", "-DDTM_QUEUE=2"]
MANY = [*DEVICE, "-DDTM_SENDS=4", "-DDTM_RECVS=4", "-DDTM_SEGMENTS=8", "-DDTM_QUEUE=8"]
BOARD = [
    "arm-none-eabi-gcc",
    "-mcpu=cortex-m3",
    "-mthumb",
    "-Os",
    "-std=c99",
    "-ffreestanding",
    "-fno-tree-loop-distribute-patterns",
]
# octets: the code, a node with one flow each way, one with four; gcc 12 makes 6,012, 1,788 and 6,236
CEILINGS = {"code": 6200, "node": 1840, "four flows each way": 6400}
KINDS = (driver.Numbers, driver.Tight, driver.Rows)
LIMIT_MET = 77


class Desk:
    """The node's programs for the desk, compiled in a folder when they are first asked for."""

    def __init__(self, folder: str, program: str) -> None:
        self.folder, self.program = folder, program
        self.compiler = next((it for it in ("gcc", "clang") if shutil.which(it)), None)
        if self.compiler is None:
            skip("there is no compiler of C")
        self.made: dict[str, str] = {}

    def path(
        self, name: str, words: list[str], source: pathlib.Path = MICRO / "desk.c", compiler: str | None = None
    ) -> str:
        """The program of that name, compiled by these words."""
        if name not in self.made:
            path = f"{self.folder}/{name}"
            extra = [] if source.name == "desk.c" else [str(MICRO / "deltat_micro.c")]
            subprocess.run([compiler or self.compiler, *FLAGS, *words, str(source), *extra, "-o", path], check=True)
            self.made[name] = path
        return self.made[name]

    def whole(self) -> str:
        return self.path("desk", ["-O2"])

    def sanitized(self) -> str:
        return self.path("sanitized", SANITIZED)


def hold(command: list[str], *words: str) -> bool:
    """Whether all cases of the frames, traces and schedules that these words leave are held by the command."""
    asked = [
        "--kind",
        "frames",
        "--kind",
        "trace",
        "--kind",
        "schedule",
        "--kind",
        "rounds",
        "--without",
        "shelf",
        "--without",
        "refusals",
    ]
    # the desk ends without giving back what it read
    settings = {**os.environ, "ASAN_OPTIONS": "detect_leaks=0"}
    ran = subprocess.run(
        [*RUNNER, *asked, *words, *command], stdout=subprocess.PIPE, text=True, check=False, env=settings
    )
    print(ran.stdout, end="")
    return ran.returncode == 0


def vectors(desk: Desk, given: argparse.Namespace) -> bool:
    del given
    small = desk.path("small", [*DEVICE, *SANITIZED])
    fits = ["--room", "512", "--seg", "128", "--segments", "4", "--records", "1", "--queue", "1"]
    return hold([desk.whole()]) and hold([small], *fits)


def parts(desk: Desk, given: argparse.Namespace) -> bool:
    del given
    source = TOP / "tests" / "micro" / "parts.c"
    return all(subprocess.run([desk.path(f"parts{number}", [*words, *SANITIZED], source)], check=False).returncode == 0
               for number, words in enumerate(([], ["-DDTM_SENDS=3", "-DDTM_RECVS=2"])))


def drawn(seed: int, count: int) -> Iterator[tuple[str, bytes]]:
    """That many scripts with traces, of each kind in turn; one of seven has other lines in its trace."""
    for number in range(count):
        chance = random.Random(f"micro {seed} {number}")
        kind = KINDS[number % len(KINDS)]
        lines = driver.made(chance, kind)
        if number % 7 == 0:
            lines = driver.changed(chance, lines)
        yield f"{kind.__name__.lower()}-{seed}-{number}", "".join(f"{it}\n" for it in lines).encode()


def compared(
    program: str, command: list[str], name: str, text: bytes
) -> tuple[str, bytes, tuple[int, bytes], tuple[int, bytes]]:
    return name, text, driver.ran([program, "retrace"], text), driver.ran([*command, "retrace"], text)


def alike(desk: Desk, what: str, inputs: Iterator[tuple[str, bytes]], commands: list[list[str]]) -> bool:
    """Whether the commands, of which each gets one input in its turn, write what the program writes. One that met a
    limit may differ."""
    differ, limits, lines, statuses, begun = [], 0, 0, collections.Counter[int](), time.monotonic()
    with concurrent.futures.ThreadPoolExecutor(3) as pool:
        turns = zip(inputs, itertools.cycle(commands))
        while batch := list(itertools.islice(turns, 300)):
            for name, text, right, found in pool.map(lambda it: compared(desk.program, it[1], *it[0]), batch):
                limits += found[0] == LIMIT_MET
                statuses[right[0]] += 1
                lines += right[1].count(b"\n")
                if found[0] != LIMIT_MET and right != found:
                    differ.append(name)
                    kept = pathlib.Path(tempfile.gettempdir(), f"deltat-micro-{name}.in")
                    kept.write_bytes(text)
                    why = (
                        driver.first_difference(right[1], found[1])
                        if right[1] != found[1]
                        else f"status {found[0]}, should be {right[0]}"
                    )
                    print(f"{kept}: {why}", flush=True)
            if len(differ) > 20:
                break
    told = ", ".join(f"{count} end with {status}" for status, count in sorted(statuses.items()))
    print(
        (
            f"{what}: {sum(statuses.values())} inputs ({told}), {lines} lines, {len(differ)} differ, {limits} met a"
            f" limit; {time.monotonic() - begun:.0f} s"
        ),
        flush=True,
    )
    return not differ and limits < sum(statuses.values())


def traces(desk: Desk, given: argparse.Namespace) -> bool:
    return alike(desk, "traces", drawn(given.seed, given.count), [*[[desk.whole()]] * 9, [desk.sanitized()]])


def limits(desk: Desk, given: argparse.Namespace) -> bool:
    # those of a device's numbers alone; the others have greater rooms
    tight = (it for it in drawn(given.seed + 1, max(given.count // 20, 30) * 3) if it[0].startswith("tight"))
    return alike(desk, "limits", tight, [[desk.path("many", [*MANY, *SANITIZED])]])


def numbers_of(chance: random.Random, times: str, start: int) -> str:
    """Parameters with these times, and rooms of their own."""
    seg, cap, rcap = chance.choice([1, 5, 32, 100]), chance.choice([20, 300, 512]), chance.choice([10, 100, 512])
    return f"{times} {seg} {cap} {rcap} {chance.choice([1, 50, 512])} {chance.choice([3, 10, 100, 2**31])} {start}"


def loose_event(chance: random.Random, flows: list[str], times: tuple[int, ...], ticks: list[int]) -> str:
    kind = chance.random()
    if kind < 0.2:
        flow, marks = chance.choice(flows), chance.choice(["be", "be", "b", "-", "e"])
        return f"send {flow} {marks} {chance.randbytes(chance.choice([1, 2, 10, 100])).hex()}"
    if kind < 0.3:
        return f"read {chance.choice(flows)} {chance.choice([1, 10, 65536])}"
    if kind < 0.7:
        return f"arrive {chance.choice([0, 0, 0, 1, 1, 2, 3, 5, 8])}"
    if kind < 0.75:
        return f"lose {chance.choice([0, 1, 2])}"
    if kind < 0.9:
        return f"pass {chance.choice([0, 1, 1, 5, *times])}"
    return f"tick {chance.choice(ticks)}" if kind < 0.99 else f"restart {chance.choice([1, 2])}"


def world(chance: random.Random) -> bytes:
    """A schedule of two ends, or of two with a relay between them."""
    mpl, r, a = chance.choice([20, 100, 1000]), chance.choice([50, 300, 3000]), chance.choice([1, 20, 200])
    charge, quiet = chance.choice([1, 5, mpl // 3]), 3 * mpl + r + a
    times, start = (
        f"{mpl} {r} {a} {chance.choice([10, 100, 500])} {min(chance.choice([10, 100]), quiet - 1)}",
        chance.choice([0, 2**32 - 20, 2**32 - 300]),
    )
    lines = [f"params {numbers_of(chance, times, start)}", "station 1 0", f"station 2 {chance.choice([0, 7])}"]
    relay = chance.random() < 0.4
    ways = ((1, 3), (3, 1), (3, 2), (2, 3)) if relay else ((1, 2), (2, 1))
    lines += ["station 3 3"] * relay + [
        f"link {at} {one} {two} {charge} {chance.choice([0, 0, 3])}" for at, (one, two) in enumerate(ways, 1)
    ]
    lines += ["route 1 2 1", "route 3 1 2", "route 3 2 3", "route 2 1 4"] if relay else ["route 1 2 1", "route 2 1 2"]
    if chance.random() < 0.5:
        lines += [f"own {node} {numbers_of(chance, times, chance.choice([start, 7]))}" for node in (1, 2)]
    flows = [f"{one}:{port}>{two}:{port + 10}" for one, two in ((1, 2), (2, 1)) for port in (1, 2, 3, 4)]
    events = [
        loose_event(chance, flows, (charge, a, 10, 100, r, quiet), [1, 2, 3][: 2 + relay])
        for _ in range(chance.choice([50, 300]))
    ]
    return "".join(f"{it}\n" for it in [*lines, "go", *events]).encode()


def worlds(desk: Desk, given: argparse.Namespace) -> bool:
    few, bad, words = desk.path("few", [*FEW, *SANITIZED]), 0, collections.Counter[str]()
    with concurrent.futures.ThreadPoolExecutor(3) as pool:
        texts = [world(random.Random(f"world {given.seed} {number}")) for number in range(given.worlds)]
        for number, (status, log) in enumerate(pool.map(lambda it: driver.ran([few, "loose"], it), texts)):
            verdict = driver.ran([desk.program, "audit"], log)
            words.update(it.split(b" ")[2].decode() for it in log.split(b"\n") if it.count(b" ") > 1)
            if status or verdict != (0, b"audit yes\n"):
                bad += 1
                kept = pathlib.Path(tempfile.gettempdir(), f"deltat-micro-world-{given.seed}-{number}.in")
                kept.write_bytes(texts[number])
                print(f"{kept}: status {status}, {verdict[1][:200]!r}", flush=True)
    restarts = words["restarted"]
    print(
        f"worlds: {given.worlds}, {bad} bad; {words['accepted']} accepted, {words['uncertain']} uncertain,"
        f" {words['dropped']} dropped, {restarts} restarts"
    )
    return not bad and words["accepted"] > given.worlds and restarts > 0


def sizes(desk: Desk, given: argparse.Namespace) -> bool:
    """The octets of the code, and of the struct, by what the compiler for a Cortex-M3 makes of them."""
    del given
    if not shutil.which(BOARD[0]):
        print(f"sizes: there is no {BOARD[0]}: apt-get install gcc-arm-none-eabi")
        return True
    found = {}
    with tempfile.TemporaryDirectory() as folder:
        subprocess.run([*BOARD, "-c", str(MICRO / "deltat_micro.c"), "-o", f"{folder}/micro.o"], check=True)
        lines = subprocess.run(
            ["arm-none-eabi-size", f"{folder}/micro.o"], capture_output=True, text=True, check=True
        ).stdout.splitlines()
        found["code"] = int(lines[1].split()[0])
        missing = subprocess.run(
            ["arm-none-eabi-nm", "-u", f"{folder}/micro.o"], capture_output=True, text=True, check=True
        ).stdout.split()
        for name, words in (("node", []), ("four flows each way", ["-DDTM_SENDS=4", "-DDTM_RECVS=4"])):
            pathlib.Path(folder, "size.c").write_text(
                '#include "deltat_micro.h"\nconst char size[sizeof(struct dtm_node)] = {1};\n'
            )
            subprocess.run(
                [*BOARD, *words, f"-I{MICRO}", "-c", f"{folder}/size.c", "-o", f"{folder}/size.o"], check=True
            )
            rows = subprocess.run(
                ["arm-none-eabi-nm", "-S", f"{folder}/size.o"], capture_output=True, text=True, check=True
            ).stdout
            found[name] = int(rows.split()[1], 16)
    print("sizes:", ", ".join(f"{name} {octets} (at most {CEILINGS[name]})" for name, octets in found.items()))
    return all(found[name] <= most for name, most in CEILINGS.items()) and set(missing) - {"U"} <= {
        "memcpy",
        "memmove",
        "memset",
    }


def big_endian(desk: Desk, given: argparse.Namespace) -> bool:
    compiler = "powerpc-linux-gnu-gcc"
    missing = [it for it in (compiler, "qemu-ppc") if not shutil.which(it)]
    if missing:
        print(
            f"big_endian: there is no {missing[0]}: apt-get install gcc-powerpc-linux-gnu libc6-dev-powerpc-cross"
            " qemu-user"
        )
        return True
    ppc = ["qemu-ppc", desk.path("ppc", ["-O2", "-static"], compiler=compiler)]
    return hold(ppc, "--kind", "trace") and alike(
        desk, "big_endian", drawn(given.seed + 2, max(given.count // 40, 30)), [ppc]
    )


TESTS = (vectors, parts, traces, limits, worlds, sizes, big_endian)


def main() -> int:
    reads = argparse.ArgumentParser(description=__doc__, formatter_class=argparse.RawDescriptionHelpFormatter)
    reads.add_argument("program", nargs="?", default=str(PROGRAM), help="the program (%(default)s)")
    reads.add_argument("--count", type=int, default=10_000, help="how many random traces (%(default)s)")
    reads.add_argument("--worlds", type=int, default=500, help="how many worlds (%(default)s)")
    reads.add_argument("--seed", type=int, default=1, help="what they are drawn from (%(default)s)")
    reads.add_argument(
        "--only", choices=[it.__name__ for it in TESTS], action="append", help="run this test only; may be given again"
    )
    given = reads.parse_args()
    if not os.access(given.program, os.X_OK):
        skip(f"there is no program {given.program}: ./build")
    with tempfile.TemporaryDirectory() as folder:
        desk = Desk(folder, given.program)
        chosen = [it for it in TESTS if not given.only or it.__name__ in given.only]
        failed = [it.__name__ for it in chosen if not it(desk, given)]
    for name in failed:
        print(f"{name} failed")
    print(f"{len(chosen) - len(failed)} of {len(chosen)} hold")
    return 1 if failed else 0


if __name__ == "__main__":
    sys.exit(main())
