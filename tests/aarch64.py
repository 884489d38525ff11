#!/usr/bin/env python3
"""The library for aarch64, which `lib/aarch64.py` makes, under qemu. `tests/aarch64.py [PROGRAM]`; ends with 77 where
there is no lib/libdeltat-aarch64.a, no aarch64-linux-gnu-gcc or no qemu-aarch64, and with 1 where one of these fails:

- the programs of tests/library.py: an exchange, each request for memory that fails in turn, 100,000 random datagrams;
- the same log: of 300 inputs the driver of tests/driver.py writes there what `retrace` writes here. It is left out
  where there is no program.

In tests/all: PROGRAM, 300 s."""
import os
import pathlib
import shutil
import subprocess
import sys
import tempfile

from lib import TOP, program, skip

LIBRARY = TOP / "lib" / "libdeltat-aarch64.a"
COMPILER, EMULATOR = "aarch64-linux-gnu-gcc", "qemu-aarch64"
# where the emulated program finds its C library, as Debian's packages have it
SETTINGS = {**os.environ, "QEMU_LD_PREFIX": "/usr/aarch64-linux-gnu"}
PROGRAMS = {"exchange": [], "each_failure": [], "strangers": ["datagrams", "100000"]}


def ran(name: str, command: list[str]) -> bool:
    done = subprocess.run(command, capture_output=True, text=True, env=SETTINGS, timeout=250)
    print(
        (
            f"{name}: {'ok' if done.returncode == 0 else f'FAILED with {done.returncode}'}:"
            f" {(done.stdout + done.stderr).strip().splitlines()[-1]}"
        ),
        flush=True,
    )
    return done.returncode == 0


def main() -> int:
    if not LIBRARY.exists():
        skip(f"{LIBRARY} isn't there: lib/aarch64.py")
    for it in (COMPILER, EMULATOR):
        if not shutil.which(it):
            skip(f"there is no {it}")
    right = True
    with tempfile.TemporaryDirectory() as folder:
        for name, words in PROGRAMS.items():
            built = str(pathlib.Path(folder, name))
            subprocess.run(
                [
                    COMPILER,
                    "-std=gnu99",
                    "-O1",
                    "-Wall",
                    "-Wextra",
                    "-Werror",
                    f"-I{TOP / 'include'}",
                    TOP / "tests" / "library" / f"{name}.c",
                    LIBRARY,
                    "-o",
                    built,
                ],
                check=True,
            )
            right = ran(name, [EMULATOR, built, *words]) and right
    if os.access(program(), os.X_OK):
        words = [
            sys.executable,
            str(TOP / "tests" / "driver.py"),
            program(),
            "--count",
            "300",
            "--library",
            str(LIBRARY),
            "--compiler",
            COMPILER,
            "--under",
            EMULATOR,
        ]
        right = ran("driver", words) and right
    else:
        print("driver: there is no program: ./build")
    return 0 if right else 1


if __name__ == "__main__":
    sys.exit(main())
