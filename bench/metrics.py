#!/usr/bin/env python3
"""What counting costs: `bench/metrics.py [--runs N]`.

- calls: a service and a client of tests/udp/ends.c, one call of 100 octets after another over loopback, with a counters
  file at both ends and without one, in turns: calls a second and microseconds of processor of each run, and the middle;
- log: how many lines of a node's log a second tools/counters.py counts from a file, and of a pipe that is filled as
  fast as it goes how many it skips.

It wants a C compiler and lib/libdeltat.a (`make -C lib`)."""
import argparse
import pathlib
import re
import resource
import statistics
import subprocess
import sys
import tempfile
import time
from typing import NamedTuple

TOP = pathlib.Path(__file__).resolve().parent.parent
sys.path.insert(0, str(TOP / "tests"))

from lib import HOST
from metrics import TOOL, block_of
from udp import Built, End

CALLS, LINES = 20_000, 1_200_000


class Cost(NamedTuple):
    """Calls a second, and microseconds of processor of a call at both ends together."""

    rate: float
    processor: float


def processor() -> float:
    """The seconds of processor that children have taken."""
    it = resource.getrusage(resource.RUSAGE_CHILDREN)
    return it.ru_utime + it.ru_stime


def cost(program: str, folder: pathlib.Path, counts: bool) -> Cost:
    far = {"counters": folder / "far.counters"} if counts else {}
    service = End(program, "serve", "next", node=2, learns=10, **far)
    words = [
        "node=1",
        "peer=2",
        f"peer_host={HOST}",
        f"peer_port={service.port}",
        f"count={CALLS}",
        "octets=100",
        "many=1",
        "timeout=4000",
    ]
    begun, before = time.monotonic(), processor()
    subprocess.run(
        [program, "ask", "next", *words, *([f"counters={folder / 'near.counters'}"] if counts else [])],
        check=True,
        capture_output=True,
    )
    took = time.monotonic() - begun
    service.stop()
    return Cost(CALLS / took, (processor() - before) / CALLS * 1e6)


def calls(folder: pathlib.Path, runs: int) -> None:
    program, found = Built(folder)("ends", plain=True), {False: list[Cost](), True: list[Cost]()}
    for _ in range(runs):
        for counts in (False, True):
            found[counts].append(cost(program, folder, counts))
    for counts, name in ((False, "without a counters file"), (True, "with a counters file")):
        rates, each = [it.rate for it in found[counts]], [it.processor for it in found[counts]]
        print(
            f"{name}: {statistics.median(rates):,.0f} calls a second ({', '.join(f'{it:,.0f}' for it in rates)}); "
            f"{statistics.median(each):.1f} us of processor a call ({', '.join(f'{it:.1f}' for it in each)})",
            flush=True,
        )


def log(folder: pathlib.Path) -> None:
    path = folder / "node.log"
    path.write_bytes(block_of(LINES))
    for name, words in (("a file", f"{TOOL[0]} {TOOL[1]} < {path}"), ("a pipe", f"cat {path} | {TOOL[0]} {TOOL[1]}")):
        begun = time.monotonic()
        text = subprocess.run(["sh", "-c", words], capture_output=True, text=True, check=True).stdout
        took = time.monotonic() - begun
        counted, skipped = (
            int(re.search(rf"^deltat_{it}_lines_total (\d+)$", text, re.MULTILINE)[1]) for it in ("counted", "skipped")
        )
        print(
            f"a log of {LINES:,} lines from {name}: {LINES / took:,.0f} lines a second, "
            f"{counted:,} counted and {skipped:,} skipped",
            flush=True,
        )


def main() -> int:
    reads = argparse.ArgumentParser(description=__doc__, formatter_class=argparse.RawDescriptionHelpFormatter)
    reads.add_argument("--runs", type=int, default=5)
    given = reads.parse_args()
    with tempfile.TemporaryDirectory(prefix="deltat-bench-") as room:
        calls(pathlib.Path(room), given.runs)
        log(pathlib.Path(room))
    return 0


if __name__ == "__main__":
    sys.exit(main())
