#!/usr/bin/env python3
"""What the program does where its standard streams fail, outside the gate: a closed pipe, a full disk, a
directory as standard input, and no streams at all. `tests/streams.py [PROGRAM]`. Ends with 1 where
a status is another than that of the table of statuses.

In tests/all: PROGRAM, 60 s."""
import os
import subprocess
import sys

from lib import TOP, program

SCHEDULE = TOP / "examples" / "loss-repeat-restart.schedule"
LOG = TOP / "crates" / "deltat_tests" / "data" / "short-exchange.out"


def status(path, words, redirections):
    """The exit status of the program under a shell's redirections."""
    line = f'exec "$0" {words} {redirections}'
    return subprocess.run(
        ["sh", "-c", line, path], stdin=subprocess.DEVNULL, stderr=subprocess.DEVNULL, check=False
    ).returncode


def status_into_a_closed_pipe(path, words):
    """The exit status of the program where nobody reads its output."""
    reading, writing = os.pipe()
    os.close(reading)
    with open(SCHEDULE, "rb") as schedule:
        run = subprocess.run([path, *words], stdin=schedule, stdout=writing, stderr=subprocess.DEVNULL, check=False)
    os.close(writing)
    return run.returncode


def main():
    path = program()
    cases = [
        ("a closed pipe", status_into_a_closed_pipe(path, ["replay"]), 8),
        ("a closed pipe for make", status_into_a_closed_pipe(path, ["make", "5"]), 8),
        ("a full disk", status(path, "replay", f'< "{SCHEDULE}" > /dev/full'), 8),
        ("a full disk for make", status(path, "make 5", "> /dev/full"), 8),
        ("a full disk for a refused script", status(path, "node", f'< "{SCHEDULE}" > /dev/full'), 8),
        ("a full disk for a verdict", status(path, "audit", f'< "{LOG}" > /dev/full'), 8),
        ("a full disk for the text of the status", status(path, "hop", "2> /dev/full"), 2),
        ("no place for the text of the status", status(path, "node", f'< "{SCHEDULE}" > /dev/null 2>&-'), 3),
        ("a directory as input", status(path, "replay", "< /"), 7),
        ("a directory as a script", status(path, "node", "< /"), 7),
        ("a directory as a log", status(path, "audit", "< /"), 7),
        ("no input", status(path, "replay", "<&-"), 7),
        ("no output", status(path, "replay", f'< "{SCHEDULE}" >&-'), 8),
        ("no streams at all", status(path, "replay", "<&- >&- 2>&-"), 7),
        ("no streams at all for a node", status(path, "node", "<&- >&- 2>&-"), 7),
        ("no streams at all for make", status(path, "make 5", "<&- >&- 2>&-"), 8),
        ("no streams at all for no command", status(path, "hop", "<&- >&- 2>&-"), 2),
    ]
    wrong = [(name, had, wanted) for name, had, wanted in cases if had != wanted]
    for name, had, wanted in wrong:
        print(f"{name}: status {had} in place of {wanted}")
    print(f"{len(cases) - len(wrong)} of {len(cases)} hold")
    return 1 if wrong else 0


sys.exit(main())
