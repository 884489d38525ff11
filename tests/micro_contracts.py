#!/usr/bin/env python3
"""The contracts of the pure parts of the node in micro/: which fault a datagram has, or none; what an accepted packet
keeps; no read beyond the octets; and the nine rows of the receive table. They are written in deltat_micro.c, and
Frama-C tries them with cvc4, through why3: `tests/micro_contracts.py [--seconds S]`. Ends with 1 where one isn't proved
in its time, and with 77 where a tool is missing.

In tests/all: no words, 600 s."""
from __future__ import annotations

import argparse
import os
import re
import shutil
import subprocess
import sys
import tempfile

from lib import TOP, skip

SOURCE = TOP / "micro" / "deltat_micro.c"
PURE = ("two", "four", "failed", "dtm_read_deltagram", "dtm_read_packet", "dtm_action_of")
TOOLS = {"frama-c": "frama-c-base", "why3": "why3", "cvc4": "cvc4"}
# Frama-C 25 makes 239 of them; many fewer would mean that contracts were lost
LEAST = 230


def main() -> int:
    reads = argparse.ArgumentParser(description=__doc__, formatter_class=argparse.RawDescriptionHelpFormatter)
    reads.add_argument("--seconds", type=int, default=560, metavar="S", help="for all goals (%(default)s)")
    given = reads.parse_args()
    for tool, package in TOOLS.items():
        if not shutil.which(tool):
            skip(f"there is no {tool}: apt-get install --no-install-recommends {package}")
    with tempfile.TemporaryDirectory() as home:
        settings = {**os.environ, "HOME": home}
        subprocess.run(["why3", "config", "detect"], capture_output=True, check=False, env=settings)
        words = [
            "frama-c",
            "-machdep",
            "x86_32",
            "-wp",
            "-wp-rte",
            "-wp-prover",
            "cvc4",
            "-wp-timeout",
            "60",
            "-wp-par",
            "2",
        ]
        words += ["-wp-fct", ",".join(PURE), str(SOURCE)]
        try:
            ran = subprocess.run(
                words, capture_output=True, text=True, check=False, env=settings, timeout=given.seconds
            )
        except subprocess.TimeoutExpired:
            print(f"not all goals were tried in {given.seconds} s: the machine is busy, or one got harder")
            return 1
    found = re.search(r"Proved goals:\s+(\d+) / (\d+)", ran.stdout)
    left = re.findall(r"\[wp\] \[(?:Failed|Timeout|Unknown)\].*", ran.stdout)
    print("\n".join(left))
    print(found[0] if found else ran.stdout[-300:] + ran.stderr[-300:])
    return 0 if found and found[1] == found[2] and int(found[2]) >= LEAST else 1


if __name__ == "__main__":
    sys.exit(main())
