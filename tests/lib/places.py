"""Where things are, what a test is run with, and how it ends."""
import os
import pathlib
import sys
from collections.abc import Sequence
from typing import NoReturn

TOP = pathlib.Path(__file__).resolve().parents[2]
PROGRAM = TOP / "crates" / "deltat" / "out" / "deltat"
# what a test ends with that can't be made here: tests/all counts it as skipped, for the reason in its last line
SKIPPED = 77


def skip(why: str) -> NoReturn:
    """Ends the test, since this machine lacks what it needs."""
    print(f"skipped: {why}")
    sys.exit(SKIPPED)


def program() -> str:
    """The program that is tested: the first word, or the built one."""
    return os.path.abspath(sys.argv[1]) if len(sys.argv) > 1 else str(PROGRAM)


def tell(cases: Sequence[tuple[str, bool, str]]) -> int:
    """Prints one line a case, and a closing line; returns 1 where one failed."""
    for name, holds, text in cases:
        print(f"{name}: {'holds' if holds else 'FAILED'}{': ' if text else ''}{text}")
    failed = sum(not holds for _, holds, _ in cases)
    print(f"{len(cases) - failed} of {len(cases)} hold")
    return 1 if failed or not cases else 0
