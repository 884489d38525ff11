#!/usr/bin/env python3
"""What the watch and its window cost and bring, with and without in one run: `bench/watch.py [--seconds N] [--runs N]`.

Each row is a client and a service of tests/watch/ends.c over a relay of this machine (tests/watch/relay.c), or directly
over loopback; first without the watch, then with it. It prints answers a second, calls that ended unsure, requests that
were handed out twice, datagrams for each answer, and the longest queue of the relay:

  disk      32 KiB pieces on 64 and on 128 flows, 512 under way, over 1 ms and a queue of 40 MB at --rate Mbit/s (50)
  loopback  256, 1,000 and 4,000 calls of 64 octets under way
  line      16 MiB a run in 32 KiB calls, 512 under way, at 100 Mbit/s and 20 ms each way, by queues of 8, 40 and
            500 ms, with 0 and 1 % loss
  cost      one call at a time over loopback: nanoseconds of processor a datagram, of both ends

The figures are of this machine under its load of now; compare the columns of one run only. Ends with 77 where there is
no compiler or no archive."""
import argparse
import pathlib
import resource
import sys
import tempfile
import time
from typing import NamedTuple

sys.path.insert(0, str(pathlib.Path(__file__).resolve().parent.parent / "tests"))
from lib import skip  # noqa: E402
from watch import ARCHIVES, COMPILER, DISK, QUICK, WITHOUT_WATCH, Link, Programs, Run  # noqa: E402

FAR = {"mpl": 800, "r": 1200, "rto": 150, "charge": 300}


class Row(NamedTuple):
    """A line of the bench."""

    name: str
    link: Link


def rows(seconds: int, rate: int) -> list[Row]:
    found = []
    for flows in (64, 128):
        deep: dict[str, float] = {"delay": 1000, "rate": rate, "queue": 40_000_000}
        load = {"flows": flows, "depth": 512 // flows, "octets": 32768, "seconds": seconds}
        found.append(Row(f"disk, {flows} flows", Link(deep, DISK, load, after=1)))
    for calls in (256, 1000, 4000):
        load = {"flows": 50, "depth": calls // 50, "octets": 64, "seconds": seconds}
        found.append(Row(f"loopback, {calls} calls", Link({"delay": 0}, QUICK, load)))
    for queue_ms in (8, 40, 500):
        for loss in (0, 100):
            line = {"delay": 20000, "rate": 100, "queue": queue_ms * 12500, "lose": loss}
            load = {"flows": 64, "depth": 8, "octets": 32768, "seconds": seconds}
            found.append(Row(f"line, queue {queue_ms} ms, {loss // 100} % loss", Link(line, FAR, load, after=1)))
    found.append(
        Row("one call at a time", Link({"delay": 0}, QUICK, {"flows": 1, "depth": 1, "octets": 64, "seconds": seconds}))
    )
    return found


def line_of(programs: Programs, row: Row, flags: int, seed: int) -> str:
    """Runs a row, and says what came of it."""
    before, begun = resource.getrusage(resource.RUSAGE_CHILDREN), time.monotonic()
    it = Run(programs, row.link, flags, seed)()
    after = resource.getrusage(resource.RUSAGE_CHILDREN)
    seconds = row.link.client["seconds"]
    answered, datagrams = it.client.get("answered", 0), it.counted("out")
    used = after.ru_utime + after.ru_stime - before.ru_utime - before.ru_stime
    return (
        (
            f"{answered / seconds:9.0f}/s  unsure {it.client.get('unsure', 0):6}  twice {it.twice:5}  datagrams/answer"
            f" {datagrams / max(answered, 1):7.1f}  too old {it.counted('too_old'):6}  processor"
            f" {1e9 * used / max(datagrams, 1):7.0f} ns/datagram with the relay's  ({time.monotonic() - begun:.0f} s)"
        )
    )


def main() -> int:
    parser = argparse.ArgumentParser(description=(__doc__ or "").split("\n\n", maxsplit=1)[0])
    parser.add_argument("--seconds", type=int, default=5)
    parser.add_argument("--runs", type=int, default=1)
    parser.add_argument("--rate", type=int, default=50)
    parser.add_argument("--only", default="", help="rows whose name has this")
    words = parser.parse_args()
    if not COMPILER or not all(it.exists() for it in ARCHIVES):
        skip("there is no compiler, or lib/libdeltat.a isn't built (make -C lib)")
    with tempfile.TemporaryDirectory(prefix="deltat-watch-") as folder:
        programs = Programs(pathlib.Path(folder))
        for place, row in enumerate(rows(words.seconds, words.rate)):
            if words.only not in row.name:
                continue
            for run in range(words.runs):
                for name, flags in (("without", WITHOUT_WATCH), ("with", 0)):
                    print(
                        f"{row.name:32} {name:8} {line_of(programs, row, flags, 1000 * place + 100 * run + flags)}",
                        flush=True,
                    )
    return 0


if __name__ == "__main__":
    sys.exit(main())
