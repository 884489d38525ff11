#!/usr/bin/env python3
"""Measures how long a message takes to another node and its acknowledgement back, and how many are lost.

    tools/dtping.py 1@4001 2@4002 --count 10

Sends a message of --size octets every --interval seconds and writes a line for each: when it was acknowledged, or that
it was given up. The other end is any node of the same --delay and --round-trip: tools/dtcat.py --listen, a program with
the library, or `deltat node`. It needn't answer. At the end the tool writes how many messages were sent, how many are
uncertain, how many segments were resent, and the least, median and longest time. Statuses: 0 all were acknowledged; 1
some are uncertain; 2 the words are wrong, or the library, the state folder or the port can't be used."""
import argparse
import statistics
import sys
import time

from deltat_tools import live
from deltat_tools.arguments import number


def arguments() -> argparse.Namespace:
    it = argparse.ArgumentParser(description=__doc__, formatter_class=argparse.RawDescriptionHelpFormatter)
    live.add_words(it)
    it.add_argument("--count", type=number(1, 1_000_000, int), default=5, help="how many messages (5)")
    it.add_argument("--size", type=number(1, 1400, int), default=56, help="octets of a message (56)")
    it.add_argument("--interval", type=number(0, 3600), default=1.0, help="seconds from one to the next (1)")
    return it.parse_args()


def answered(end: live.Live, octets: bytes) -> float | None:
    """Sends a message and waits for its fate: the seconds to its acknowledgement, or None where it was given up."""
    begun, uncertain = time.monotonic(), end.uncertain
    while True:
        try:
            end.udp.send(end.flow, octets)
            break
        except (end.deltat.Full, end.deltat.Quiet):
            end.udp.poll(0.05)
            begun = time.monotonic()
    while True:
        end.listen()
        if end.is_settled:
            return None if end.uncertain > uncertain else time.monotonic() - begun
        end.udp.poll(1)


def ping(end: live.Live, asked: argparse.Namespace) -> int:
    took: list[float] = []
    for number_of in range(1, asked.count + 1):
        begun = time.monotonic()
        found = answered(end, bytes(asked.size))
        if found is not None:
            took.append(1000 * found)
        print(
            f"{number_of}: {asked.size} octets, " + (f"{took[-1]:.1f} ms" if found is not None else "uncertain"),
            flush=True,
        )
        if number_of < asked.count:
            end.udp.run_for(max(asked.interval - (time.monotonic() - begun), 0))
    lost = asked.count - len(took)
    times = f", {min(took):.1f} {statistics.median(took):.1f} {max(took):.1f} ms" if took else ""
    print(f"{asked.count} messages, {lost} uncertain, {end.resent} resent{times}")
    return 1 if lost else 0


def main() -> int:
    asked = arguments()
    try:
        with live.opened(asked) as end:
            return ping(end, asked)
    except KeyboardInterrupt:
        return 1
    except (OSError, ValueError) as why:
        print(f"dtping.py: {why}", file=sys.stderr)
        return 2


if __name__ == "__main__":
    sys.exit(main())
