#!/usr/bin/env python3
"""Computes a `params` line for a network, the charge of its links, and what follows from them.

    tools/params.py DELAY ROUND-TRIP [--hops N] [--drift PPM] [--tries N] [--mtu N] [--room N] [--wait MS] [--shelf N]

DELAY is the longest time that a packet may be under way on one link, in ms, with all queues of the network. ROUND-TRIP
is a usual round trip from end to end, in ms. All nodes of a network get the same line.

Ends with 0, or with 2 if no parameters suit."""
import argparse
import sys

from deltat_tools import parameters as par
from deltat_tools.arguments import number


def arguments() -> argparse.Namespace:
    it = argparse.ArgumentParser(description=__doc__, formatter_class=argparse.RawDescriptionHelpFormatter)
    it.add_argument("delay", metavar="DELAY", type=number(0, par.DAY), help="the longest delay of a link, in ms")
    it.add_argument("round_trip", metavar="ROUND-TRIP", type=number(0, par.DAY), help="a usual round trip, in ms")
    it.add_argument("--hops", type=number(1, 256, int), default=1, help="the links of the longest path (1)")
    it.add_argument(
        "--drift", type=number(0, 100_000), default=100.0, help="how wrong a clock may be, in parts in a million (100)"
    )
    it.add_argument("--tries", type=number(1, 1000, int), default=5, help="how often a segment goes out (5)")
    it.add_argument("--mtu", type=number(1, 65_535, int), default=1500, help="the least MTU of the links (1500)")
    it.add_argument(
        "--room",
        type=number(1, par.MOST_ROOM, int),
        default=par.MOST_ROOM,
        help="octets of a flow that are under way, or unread (65536)",
    )
    it.add_argument(
        "--wait",
        type=number(0, par.DAY, int),
        default=2,
        help="the longest that a packet may wait at a station, in ms (2)",
    )
    it.add_argument(
        "--shelf",
        type=number(0, 1000, int),
        default=0,
        metavar="N",
        help="how often a lost packet may go again while those after it lie on a shelf (0: nodes have none)",
    )
    return it.parse_args()


def lines(asked: argparse.Namespace) -> list[str]:
    """What is told."""
    hop = par.Hop(asked.delay, asked.wait, asked.drift)
    params = par.suited(
        [[hop] * asked.hops], par.Wishes(asked.round_trip, asked.tries, asked.mtu, asked.room, asked.shelf)
    )
    charge = par.link_charge(hop, params)
    network = charge - par.machine_charge(asked.drift, params.spacing)
    told = [
        params.line(),
        f"charge {charge}: {network} ms of the link, {par.machine_parts(asked.drift, params.spacing)}",
        f"uncertain {params.give} ms after the first transmission, at the latest",
        f"silent for {params.quiet} ms after a restart",
    ]
    most = sorted(par.ceilings(params, params, asked.round_trip), key=lambda it: it.rate)
    told += [f"a flow carries at most {par.rate_text(it.rate)} by {it.by}" for it in most]
    told.append(
        f"a flow takes about {par.sender_memory(params)} octets of memory at its sender,"
        f" {par.receiver_memory(params)} at its receiver"
    )
    return told


def main() -> int:
    asked = arguments()
    try:
        print("\n".join(lines(asked)))
    except par.Unsuited as why:
        print(f"params.py: {why}", file=sys.stderr)
        return 2
    return 0


if __name__ == "__main__":
    sys.exit(main())
