#!/usr/bin/env python3
"""The proved library without an operating system: examples/bare is two nodes in one image, with no C library.
`tests/bare.py [--archive ARCHIVE] [--aarch64 ARCHIVE]`. Ends with 1 where one of these fails:

- wants: what the library asks of a program are the six functions of examples/bare, and nothing else.
- arena: what a node, a link and a flow take of an arena is what docs/field.md says (tests/bare/arena.c).
- here: the image runs on this processor, without a C library: all octets that arrived are right, and all memory comes
  back.
- aarch64: the same octets, datagrams and messages on a bare Cortex-A53 under qemu-system-aarch64. Left out, with a
  line, where there is no lib/libdeltat-aarch64-bare.a (lib/aarch64.py --without-heap proves it, in minutes) or a tool
  is missing.

Ends with 77 where there is no proved archive or no compiler.

In tests/all: no words, 120 s."""
from __future__ import annotations

import argparse
import pathlib
import shutil
import subprocess
import sys
import tempfile

from lib import TOP, skip

ARCHIVE = TOP / "crates" / "dt_c" / "out" / "libdt_c.a"
AARCH64 = TOP / "lib" / "libdeltat-aarch64-bare.a"
BARE = TOP / "examples" / "bare"
SIX = {"rattle_alloc", "rattle_realloc", "rattle_dealloc", "memcpy", "memmove", "memset"}
# the arena with both nodes open, whose links have no pace: 49,584 were measured
MOST_ARENA = 56_000
# octets, by room, segment, links and message: a node, its flow at the sender and at the receiver, and both at the most
ARENAS = {
    (512, 128, 1, 100): (19_356, 6_276, 5_276, 12_566),
    (512, 128, 2, 100): (19_484, 6_276, 5_276, 12_566),
    (512, 128, 1, 1): (19_356, 9_360, 39_760, 60_268),
    (4096, 128, 1, 100): (19_356, 27_038, 27_714, 57_296),
    (65536, 1024, 1, 1024): (19_356, 334_928, 220_560, 597_536),
}
COMPILE = [
    "-std=c11",
    "-O2",
    "-Wall",
    "-Wextra",
    "-Werror",
    "-ffreestanding",
    "-fno-stack-protector",
    "-fno-tree-loop-distribute-patterns",
    "-nostdlib",
    "-static",
    "-fno-pie",
    "-no-pie",
    f"-I{TOP / 'include'}",
    "-Wl,--gc-sections",
    "-Wl,--build-id=none",
]
EMULATOR = [
    "qemu-system-aarch64",
    "-M",
    "virt",
    "-cpu",
    "cortex-a53",
    "-m",
    "64",
    "-nic",
    "none",
    "-display",
    "none",
    "-monitor",
    "none",
    "-serial",
    "none",
    "-semihosting-config",
    "enable=on,target=native,chardev=s",
    "-chardev",
    "stdio,id=s",
    "-kernel",
]


def wants(archive: pathlib.Path) -> bool:
    """Whether the members of the archive ask for no more than the six functions and each other's."""
    rows = subprocess.run(
        ["nm", "--format=posix", str(archive)], capture_output=True, text=True, check=True
    ).stdout.splitlines()
    names = [it.split() for it in rows if len(it.split()) >= 2]
    asked = {it[0] for it in names if it[1] == "U"} - {it[0] for it in names if it[1] in "TtWDBR"}
    print("the library wants:", ", ".join(sorted(asked)))
    return asked <= SIX


def built(compiler: str, archive: pathlib.Path, path: pathlib.Path, *words: str) -> None:
    subprocess.run([compiler, *COMPILE, *words, str(BARE / "bare.c"), str(archive), "-o", str(path)], check=True)


def arena(archive: pathlib.Path, folder: pathlib.Path) -> bool:
    path, good = str(folder / "arena"), True
    words = ["-std=c11", "-D_GNU_SOURCE", "-O1", "-Wall", "-Wextra", "-Werror", f"-I{TOP / 'include'}"]
    subprocess.run(["gcc", *words, str(TOP / "tests" / "bare" / "arena.c"), str(archive), "-o", path], check=True)
    for case, most in ARENAS.items():
        found = tuple(said([path, *map(str, case)]).values())
        if any(it > bound for it, bound in zip(found, most)):
            print(f"arena {case}: {found}, at most {most}")
            good = False
    return good


def said(command: list[str]) -> dict[str, int]:
    """The numbers that an image printed; raises where it ended with another status than 0."""
    ran = subprocess.run(command, capture_output=True, text=True, check=False, timeout=60, stdin=subprocess.DEVNULL)
    lines = dict(it.split(": ") for it in ran.stdout.splitlines() if it.count(": ") == 1)
    print(f"{pathlib.Path(command[0]).name}: status {ran.returncode}; " + "; ".join(ran.stdout.splitlines()))
    if ran.returncode:
        raise ValueError(f"status {ran.returncode}: {ran.stdout[-200:]}{ran.stderr[-200:]}")
    return {name: int(value) for name, value in lines.items()}


def is_right(found: dict[str, int]) -> bool:
    whole = found["messages read"] == found["messages sent"] == 100 and found["octets read"] == 30_000
    return whole and found["arena, most"] <= MOST_ARENA and found["arena after the close"] == 0


def main() -> int:
    reads = argparse.ArgumentParser(description=__doc__, formatter_class=argparse.RawDescriptionHelpFormatter)
    reads.add_argument(
        "--archive", type=pathlib.Path, default=ARCHIVE, help="the proved library for this processor (%(default)s)"
    )
    reads.add_argument("--aarch64", type=pathlib.Path, default=AARCH64, help="that for aarch64 (%(default)s)")
    given = reads.parse_args()
    if not given.archive.exists():
        skip(f"{given.archive} isn't there: ./build --only dt_c")
    if not shutil.which("gcc"):
        skip("there is no gcc")
    with tempfile.TemporaryDirectory() as name:
        folder = pathlib.Path(name)
        good = all([wants(given.archive), arena(given.archive, folder)])
        built("gcc", given.archive, folder / "here")
        here = said([str(folder / "here")])
        good = is_right(here) and good
        missing = [it for it in ("aarch64-linux-gnu-gcc", "qemu-system-aarch64") if not shutil.which(it)]
        if missing or not given.aarch64.exists():
            absent = f"{given.aarch64} is not there: lib/aarch64.py --without-heap"
            print(f"aarch64: {f'there is no {missing[0]}' if missing else absent}")
            return 0 if good else 1
        built("aarch64-linux-gnu-gcc", given.aarch64, folder / "there", "-T", str(BARE / "virt.ld"))
        there = said([*EMULATOR, str(folder / "there")])
        same = {it: here[it] == there[it] for it in here if not it.startswith(("handle", "arena"))}
        print(f"the same on both: {all(same.values())}")
    return 0 if good and is_right(there) and all(same.values()) else 1


if __name__ == "__main__":
    sys.exit(main())
