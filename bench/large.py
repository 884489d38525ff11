#!/usr/bin/env python3
"""What `replay` of a large schedule takes, beside a plain Rust program that writes the same log
(`bench/plain_replay.rs`, which `rustc` builds): of `make 50000`, three runs of each, in seconds, seconds of processor
and greatest memory. `bench/large.py [PROGRAM [ROUNDS [BEFORE]]]`, where BEFORE is an older program that is measured
too. Ends with 1 where a run doesn't end with 0, or where the logs differ."""
import os
import pathlib
import subprocess
import sys
import tempfile
import time

sys.path.insert(0, os.path.join(os.path.dirname(os.path.abspath(__file__)), "..", "tests"))

from lib import program

RUNS = 3


def run(words: list[str], source, sink) -> tuple[float, float, float, int]:
    """The seconds, those of processor, the greatest memory in MB and the status of a run."""
    begun = time.monotonic()
    child = subprocess.Popen(words, stdin=source, stdout=sink)
    _, status, used = os.wait4(child.pid, 0)
    return (
        time.monotonic() - begun,
        used.ru_utime + used.ru_stime,
        used.ru_maxrss * 1024 / 1e6,
        os.waitstatus_to_exitcode(status),
    )


def measure(name: str, words: list[str], schedule: pathlib.Path, log: pathlib.Path) -> float | None:
    """The least seconds of some runs, or None where one failed. Prints a line for each."""
    found = []
    for _ in range(RUNS):
        with open(schedule, "rb") as source, open(log, "wb") as sink:
            seconds, processor, memory, status = run(words, source, sink)
        print(
            f"{name}: {seconds:.2f} s, {processor:.2f} s of processor, at most {memory:.0f} MB"
            + (f", status {status}" if status else "")
        )
        found.append(seconds if status == 0 else None)
    return None if None in found else min(found)


def main() -> int:
    rounds = sys.argv[2] if len(sys.argv) > 2 else "50000"
    with tempfile.TemporaryDirectory() as room:
        schedule, plain, logs = (
            pathlib.Path(room, "schedule"),
            pathlib.Path(room, "plain"),
            [pathlib.Path(room, it) for it in ("log", "plain.log", "older.log")],
        )
        subprocess.run(
            ["rustc", "--edition", "2021", "-O", "-o", plain, pathlib.Path(__file__).with_name("plain_replay.rs")],
            check=True,
        )
        with open(schedule, "wb") as sink:
            subprocess.run([program(), "make", rounds], stdout=sink, check=True)
        print(f"make {rounds}: {schedule.stat().st_size / 1e6:.1f} MB")
        ours = measure("replay", [program(), "replay"], schedule, logs[0])
        theirs = measure("plain", [str(plain)], schedule, logs[1])
        # before the logs are read: what this script holds counts as memory of what it starts
        older = measure("before", [sys.argv[3], "replay"], schedule, logs[2]) if len(sys.argv) > 3 else ours
        same = all(it.read_bytes() == logs[0].read_bytes() for it in logs[1:] if it.exists())
    if ours is None or theirs is None or older is None or not same:
        print("the logs differ" if not same else "a run failed")
        return 1
    print(
        f"factor {ours / theirs:.2f}, of the least of each"
        + (f"; of the time before {ours / older:.2f}" if len(sys.argv) > 3 else "")
    )
    return 0


if __name__ == "__main__":
    sys.exit(main())
