#!/usr/bin/env python3
"""How many calls a second one schedule of calls makes, each with its answer, on one flow and on a
thousand. `bench/calls.py [PROGRAM [CALLS]]`."""
import os
import subprocess
import sys
import time

sys.path.insert(0, os.path.join(os.path.dirname(os.path.abspath(__file__)), "..", "tests"))

from lib import program, two_stations


def schedule(calls: int, flows: int) -> bytes:
    """Each call's request, its acknowledgement, its reply and that one's acknowledgement come, one after
    another."""
    lines = [two_stations()]
    for number in range(calls):
        first = 4 * number
        lines.append(f"call 1:{10 + number % flows}>2:20 {number % 256:02x}{number // 256 % 256:02x}\n")
        lines.extend(f"arrive {first + copy}\n" for copy in (0, 1, 2, 3))
    return "".join(lines).encode()


def run(path: str, calls: int, flows: int) -> tuple[float, str]:
    text = schedule(calls, flows)
    begun = time.monotonic()
    out = subprocess.run([path, "calls"], input=text, stdout=subprocess.PIPE, check=True).stdout
    spent = time.monotonic() - begun
    return spent, out.decode().splitlines()[-2]


def main() -> None:
    path = program()
    calls = int(sys.argv[2]) if len(sys.argv) > 2 else 20_000
    for flows in (1, 1_000):
        spent, totals = run(path, calls, flows)
        print(f"{calls} calls on {flows} flows: {calls / spent:.0f} calls a second ({spent:.2f} s); {totals}")


if __name__ == "__main__":
    main()
