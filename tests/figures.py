#!/usr/bin/env python3
"""bench/all writes its page section by section: what isn't measured stays octet for octet, a section of the gate
comes from a log, and so does one that took hours; a command that fails leaves the old figure. `tests/figures.py`.
Ends with 1 where one of this isn't so.

In tests/all: no words, 60 s."""
import pathlib
import re
import subprocess
import sys
import tempfile

from lib import TOP

LOG = """   10.0 rt: dt_items proved
   12.5 rt: dt_items: its tests are proved
   20.0 rt: must-fail dt_items/a.edit: refused, as it must be
   30.0 rt: dt_items: its tests passed
   31.0 41 passed, 0 failed
# in all 31 s, 100 s of processor, on 4 processors
# proofs 60 s of processor
# crate               proofs   tests   edits     all
# dt_items                40       5      30      75
"""
TOLD = """proofs: 1, the last at 10 s
tests proved: 1, the last at 12 s
edits refused: 1, the last at 20 s
tests passed: 1, the last at 30 s
41 passed, 0 failed
in all 31 s, 100 s of processor, on 4 processors
proofs 60 s of processor
crate               proofs   tests   edits     all
dt_items                40       5      30      75
"""


def sections(page: pathlib.Path) -> dict[str, str]:
    return dict(re.findall(r"(?ms)^## [^\n]* \(`(\w+)`\)\n(.*?)(?=^## |\Z)", page.read_text()))


def bench(page: pathlib.Path, *words: str) -> int:
    return subprocess.run(
        [sys.executable, TOP / "bench" / "all", "--page", page, *words], capture_output=True, check=False
    ).returncode


def main() -> int:
    with tempfile.TemporaryDirectory() as folder:
        page, log, slow = (pathlib.Path(folder, it) for it in ("figures.md", "log", "slow"))
        log.write_text(LOG)
        # a program that refuses all
        slow.write_text("#!/bin/sh\nexit 3\n")
        slow.chmod(0o755)
        first = bench(page, "--gate-log", str(log))
        told = sections(page)
        page.write_text(
            page.read_text().replace(
                "## Calls (`calls`)\n\nNot measured yet.",
                "## Calls (`calls`)\n\nMeasured long ago:\n\n```\n1 call\n```",
            )
        )
        failed = bench(page, "--only", "calls", "large", "--program", str(slow))
        after = sections(page)
        second = bench(page, "--gate-two-log", str(log))
        last = sections(page)
        soak = pathlib.Path(folder, "soak")
        soak.write_text("12 rounds, 0 faults; seed 1\n")
        third = bench(page, "--log", f"soak={soak}")
        logged = sections(page)
        strange = [bench(page, "--only", "nothing"), bench(page, "--log", f"nothing={soak}")]
    cases = {
        "the gate's log": first == 0 and f"```\n{TOLD}```" in told["gate"] and "Not measured yet." in told["nodes"],
        "a command that fails": (
            failed == 1
            and "1 call" in after["calls"]
            and "Not measured yet." in after["large"]
            and after["gate"] == told["gate"]
        ),
        "another log": (
            second == 0 and TOLD in last["gate_two"] and {**last, "gate_two": ""} == {**after, "gate_two": ""}
        ),
        "the log of another section": (
            third == 0
            and "```\n12 rounds, 0 faults; seed 1\n```" in logged["soak"]
            and {**logged, "soak": ""} == {**last, "soak": ""}
        ),
        "a section that isn't there": strange == [2, 2],
    }
    for name in (it for it, holds in cases.items() if not holds):
        print(f"{name}: otherwise")
    print(f"{sum(cases.values())} of {len(cases)} hold")
    return 0 if all(cases.values()) else 1


if __name__ == "__main__":
    sys.exit(main())
