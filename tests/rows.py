#!/usr/bin/env python3
"""Every worked row through the built program, outside the gate: each input on standard input, what
is written and the status compared with those that stand beside it. Ends with 1 where one differs.
`tests/rows.py [PROGRAM [ROW ..]]`: the rows that are named are run again and again too,
into a file that may have n octets, for each n below the length of the log. Then the status is 8, and the
file has the first n octets.

In tests/all: PROGRAM short-exchange, 180 s."""
import resource
import signal
import subprocess
import sys
import tempfile

from lib import TOP, program

ROWS = TOP / "crates" / "deltat_tests"


def differs(path, name, word, status):
    """What is wrong with a row, or None."""
    given = (ROWS / "data" / f"{name}.in").read_bytes()
    run = subprocess.run([path, word], input=given, capture_output=True, check=False)
    if run.stdout != (ROWS / "data" / f"{name}.out").read_bytes():
        return "another output"
    if run.returncode != status:
        return f"status {run.returncode}"
    return None


def ran_into(path, word, given, room):
    """The status and the output of the program where its output may be a file of so many octets."""

    def limit():
        signal.signal(signal.SIGXFSZ, signal.SIG_IGN)
        resource.setrlimit(resource.RLIMIT_FSIZE, (room, room))

    with tempfile.TemporaryFile() as out:
        run = subprocess.run(
            [path, word], input=given, stdout=out, stderr=subprocess.PIPE, preexec_fn=limit, check=False
        )
        out.seek(0)
        return run.returncode, out.read()


def differs_in_less_room(path, name, word):
    """What is wrong with a row whose log finds no room, or None."""
    given, log = ((ROWS / "data" / f"{name}{end}").read_bytes() for end in (".in", ".out"))
    wrong = [room for room in range(len(log)) if ran_into(path, word, given, room) != (8, log[:room])]
    return f"in room {wrong[0]}" if wrong else None


def main():
    path, named = program(), sys.argv[2:]
    rows = [line.split() for line in (ROWS / "stdin").read_text().splitlines()]
    wrong = [(name, why) for name, word, status in rows if (why := differs(path, name, word, int(status)))]
    wrong += [
        (name, why) for name, word, _ in rows if name in named and (why := differs_in_less_room(path, name, word))
    ]
    for name, why in wrong:
        print(f"{name}: {why}")
    print(f"{len(rows) - len(wrong)} of {len(rows)} rows hold")
    return 1 if wrong or not rows else 0


sys.exit(main())
