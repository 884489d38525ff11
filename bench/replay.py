#!/usr/bin/env python3
"""How fast `replay` is, and what memory it takes: lines a second, and octets of memory for each octet
that is taken, on 1, 100 and 10,000 flows, for two lengths each. `bench/replay.py [PROGRAM]`."""
import os
import subprocess
import sys
import tempfile
import time

sys.path.insert(0, os.path.join(os.path.dirname(os.path.abspath(__file__)), "..", "tests"))

from lib import program, two_stations

COUNT = 16


def schedule(flows, rounds, count, out):
    """Each round sends a message of so many octets on each flow, hands over the packets and then the
    acknowledgements, and reads. Returns the number of lines."""
    out.write(two_stations())
    lines, copy = 8, 0
    octets = "".join(f"{i % 256:02x}" for i in range(count))
    for _ in range(rounds):
        names = [f"1:{i}>2:{i}" for i in range(flows)]
        for name in names:
            out.write(f"send {name} be {octets}\n")
        out.write("pass 10\n")
        for i in range(flows):
            out.write(f"arrive {copy + i}\n")
        out.write("pass 10\n")
        for i in range(flows):
            out.write(f"arrive {copy + flows + i}\n")
        for name in names:
            out.write(f"read {name} 65536\n")
        copy += 2 * flows
        lines += 4 * flows + 2
    return lines


def run(binary, path):
    begun = time.monotonic()
    with open(path) as source, open(os.devnull, "w") as sink:
        child = subprocess.Popen([binary, "replay"], stdin=source, stdout=sink)
        _, status, usage = os.wait4(child.pid, 0)
    return time.monotonic() - begun, usage.ru_maxrss * 1024, status


def main() -> None:
    print("flows  lines    octets/message  seconds  lines/s   peak MB  octets of memory/octet taken")
    for flows, rounds in ((1, 10000), (1, 20000), (100, 100), (100, 200), (10000, 1), (10000, 2)):
        with tempfile.NamedTemporaryFile("w", suffix=".schedule") as file:
            lines = schedule(flows, rounds, COUNT, file)
            file.flush()
            seconds, peak, status = run(program(), file.name)
        taken = flows * rounds * COUNT
        print(
            f"{flows:5}  {lines:7}  {COUNT:14}  {seconds:7.2f}  {lines / seconds:8.0f}  {peak / 1e6:7.1f} "
            f" {peak / taken:6.1f}"
            + ("" if status == 0 else f"  status {status}")
        )


if __name__ == "__main__":
    main()
