#!/usr/bin/env python3
"""The bank of examples/bank by orders, for long: `tests/bank_hour.py [--seconds S] [--seed N] [--folder FOLDER]`.

One bank and its 20 clients run in rounds of a minute, over a link of 20 ms each way that drops, repeats and reorders.
In a round a client is killed every 0.7 s and the bank every 10 s, and both continue with their stores; in each third
round the bank's disk is set back to a copy of half a minute before. After each round every order has its fate, and the
books are compared with the notes of all clients since the first round. Ends with 1 as soon as

- an order was booked twice, told otherwise than it is booked, not found out, or given by nobody;
- the sum of the accounts isn't what it was, or a client was told another one;
- an answered order that a set back took isn't told to its client, or one is told that the bank has, though it was
  called once;
- nothing happened in the whole time: no order, no kill of a client or of the bank, or no order that a set back took.

It runs for S seconds (60), at least one set back included, and then until the clients have their fates: an hour by
`--seconds 3600`. It needs the library (`make -C lib`), and is skipped without it.

In tests/all: no words, 400 s."""
import argparse
import os
import pathlib
import sys
import tempfile
import time

from lib import TOP, skip

LIBRARY = pathlib.Path(os.environ.setdefault("DELTAT_LIBRARY", str(TOP / "lib" / "libdeltat.so.2")))
if not LIBRARY.exists():
    skip(f"{LIBRARY} isn't there: make -C lib")
sys.path.insert(0, str(TOP / "examples" / "bank"))
import demo  # noqa: E402

ROUND = 60.0
SHOWN = ("orders", "booked", "times an order was unsure", demo.GONE, demo.TOLD, "kills of clients", "kills of the bank")


def run(folder: pathlib.Path, given: argparse.Namespace) -> int:
    begun, number, length = time.monotonic(), 0, min(ROUND, max(given.seconds / 3, 10.0))
    print("  ".join(("round", "s", *SHOWN)), flush=True)
    while number < 3 or time.monotonic() < begun + given.seconds:
        words = argparse.Namespace(seconds=length, seed=given.seed + number, set_back=number % 3 == 2)
        link = demo.Link(demo.DELAY, 0.05, 0.05, 0.05)
        found = demo.over(demo.ORDERS, link, words, folder)
        number += 1
        print(f"{number}  {time.monotonic() - begun:.0f}  " + "  ".join(str(found[it]) for it in SHOWN), flush=True)
        if not demo.is_exact(found):
            print("\n".join(f"{name:44}{cell}" for name, cell in found.items()))
            return 1
    lacks = [name for name in SHOWN if not found[name]]
    print(f"nothing of: {', '.join(lacks)}" if lacks else f"{number} rounds hold")
    return 1 if lacks else 0


def main() -> int:
    reads = argparse.ArgumentParser(description=__doc__, formatter_class=argparse.RawDescriptionHelpFormatter)
    reads.add_argument("--seconds", type=float, default=60.0)
    reads.add_argument("--seed", type=int, default=1)
    reads.add_argument("--folder", type=pathlib.Path, help="where the bank's files stay; what it has is continued")
    given = reads.parse_args()
    demo.choose_place(False)
    if given.folder:
        given.folder.mkdir(parents=True, exist_ok=True)
        return run(given.folder, given)
    with tempfile.TemporaryDirectory(prefix="deltat-bank-") as name:
        return run(pathlib.Path(name), given)


if __name__ == "__main__":
    sys.exit(main())
