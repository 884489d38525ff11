#!/usr/bin/env python3
"""dt_params_for of libdeltat computes what tools/params.py computes.

Usage: tests/params_for.py [LIBRARY] [--networks N] [--seed N]

- Networks of random delays, round trips, links, clocks and sizes, and the rows of docs/parameters.md: both
  give the same parameters and the same charge, or neither gives any.
- A number that is out of its range, a struct of another size and one that is too short are DT_INVALID, and
  change nothing.

LIBRARY is lib/libdeltat.so.2 if none is named.

In tests/all: no words, 60 s."""
from __future__ import annotations

import argparse
import ctypes
import pathlib
import random
import sys
from dataclasses import dataclass, replace

from lib import TOP, skip

# (the tables without their package, which would load a library)
sys.path[:0] = [str(TOP / "tools"), str(TOP / "bindings" / "python" / "deltat")]
import _c as tables  # noqa: E402
from deltat_tools import parameters as par  # noqa: E402

OK, INVALID, NONE = 0, 3, 5
NAMES = ("mpl", "r", "a", "rto", "probe", "seg", "cap", "rcap", "window", "run_limit", "start")


@dataclass(frozen=True)
class Network:
    delay_us: int
    round_trip_us: int
    hops: int = 1
    drift_ppm: int = 100
    tries: int = 5
    mtu: int = 1500
    room: int = par.MOST_ROOM
    wait_ms: int = 2
    shelf: int = 0


# the table of docs/parameters.md
ROWS = (
    Network(2_000, 300),
    Network(2_000, 300, mtu=9000),
    Network(20_000, 4_000),
    Network(250_000, 50_000),
    Network(250_000, 50_000, shelf=2),
    Network(1_000_000, 600_000),
    Network(30_000_000, 4_000_000, hops=3, mtu=250),
)
LEAST = {"hops": 1, "tries": 1, "mtu": 59, "room": 1}
MOST = {
    "delay_us": 86_400_000_000,
    "round_trip_us": 86_400_000_000,
    "hops": 256,
    "drift_ppm": 100_000,
    "tries": 1000,
    "mtu": 65_535,
    "room": 65_536,
    "wait_ms": 86_400_000,
    "shelf": 1000,
}


def by_tools(network: Network) -> tuple[tuple[int, ...], int] | None:
    """The parameters and the charge that tools/params.py has, or None where it has none."""
    hop = par.Hop(network.delay_us / 1000, network.wait_ms, float(network.drift_ppm))
    wishes = par.Wishes(network.round_trip_us / 1000, network.tries, network.mtu, network.room, network.shelf)
    try:
        params = par.suited([[hop] * network.hops], wishes)
    except par.Unsuited:
        return None
    return tuple(getattr(params, name) for name in NAMES), par.link_charge(hop, params)


class Library:
    """dt_params_for of a library."""

    def __init__(self, path: pathlib.Path) -> None:
        self.call = tables.load(str(path)).dt_params_for

    def suited(self, network: Network, size: int = 48, room: int = 48) -> tuple[int, tuple[int, ...], int]:
        """The status, and what is in the caller's memory after a call with structs of these sizes."""
        asked = tables.Network(size=size, **vars(network))
        params, charge = tables.Params(size=room, **{name: 7 for name in NAMES}), ctypes.c_uint32(7)
        status = self.call(ctypes.byref(asked), ctypes.byref(params), ctypes.byref(charge))
        if params.size != room:
            raise SystemExit(f"size of the parameters is {params.size} after the call")
        return status, tuple(getattr(params, name) for name in NAMES), charge.value


def drawn(dice: random.Random) -> Network:
    """A network, with a number out of the ordinary now and then."""

    usual = {
        "delay_us": 1_000_000,
        "round_trip_us": 500_000,
        "hops": 4,
        "drift_ppm": 200,
        "tries": 10,
        "mtu": 9_000,
        "room": 65_536,
        "wait_ms": 20,
        "shelf": 3,
    }

    def number(name: str) -> int:
        most = MOST[name]
        wide = int(2 ** dice.uniform(0, most.bit_length())) % (most + 1)
        return max(LEAST.get(name, 0), dice.choice((dice.randrange(usual[name] + 1), wide, dice.choice((0, 1, most)))))

    return Network(**{name: number(name) for name in MOST})


def compare(library: Library, network: Network) -> None:
    """Ends the test where the two differ."""
    status, numbers, charge = library.suited(network)
    wanted = by_tools(network)
    if (status, (numbers, charge)) != ((OK, wanted) if wanted else (NONE, ((7,) * 11, 7))):
        raise SystemExit(f"{network}: status {status}, {numbers}, charge {charge}; tools/params.py has {wanted}")


def refuse(library: Library) -> int:
    """Ends the test where something unfit isn't refused; how much was tried."""
    good, unchanged = ROWS[2], (INVALID, (7,) * 11, 7)
    tried = [library.suited(good, size=size) for size in (0, 40, 47, 49, 56)] + [
        library.suited(good, room=room) for room in (0, 44, 47)
    ]
    for name, most in MOST.items():
        for value in ([most + 1] + ([LEAST[name] - 1] if name in LEAST else [])):
            tried.append(library.suited(replace(good, **{name: value})))
    for it in tried:
        if it != unchanged:
            raise SystemExit(f"an unfit network had {it}")
    if library.suited(good, room=56)[0] != OK:
        raise SystemExit("a struct that is longer than is known wasn't filled")
    return len(tried)


def main() -> None:
    asked = argparse.ArgumentParser(description=__doc__, formatter_class=argparse.RawDescriptionHelpFormatter)
    asked.add_argument("library", nargs="?", type=pathlib.Path, default=TOP / "lib" / "libdeltat.so.2")
    asked.add_argument("--networks", type=int, default=20_000)
    asked.add_argument("--seed", type=int, default=1)
    words = asked.parse_args()
    if not words.library.exists():
        skip(f"{words.library} isn't there: make -C lib")
    library, dice = Library(words.library.resolve()), random.Random(words.seed)
    for network in ROWS:
        compare(library, network)
    for _ in range(words.networks):
        compare(library, drawn(dice))
    refused = refuse(library)
    print(
        f"params_for: {len(ROWS) + words.networks} networks as tools/params.py has them, {refused} unfit ones refused"
    )


if __name__ == "__main__":
    main()
