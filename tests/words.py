#!/usr/bin/env python3
"""The words of the command line through the built program, outside the gate: which are accepted, also one
that isn't UTF-8, and what a large schedule and its replay take. Ends with 1 where one differs.
`tests/words.py [PROGRAM [ROUNDS ..]]`: with numbers of rounds, each is made and replayed too, and its seconds
and greatest memory are printed.

In tests/all: PROGRAM 2000, 180 s."""
import os
import subprocess
import sys
import tempfile
import time

from lib import program, two_stations

USAGE = b"usage: deltat replay | node | make N | trace | retrace | calls | audit\n"
ONE = two_stations().encode() + b"""send 1:10>2:20 be 0001
lose 0
pass 500
tick 1
pass 10
arrive 1
pass 10
arrive 2
read 1:10>2:20 65536
"""
MAKE_ONE = [[b"make", b"1"], [b"--", b"make", b"1"], [b"make", b"--", b"1"], [b"make", b"1", b"--"]]
NO_COMMAND = [
    [],
    [b"make"],
    [b"make", b"0"],
    [b"make", b"01"],
    [b"make", b"50001"],
    [b"make", b"1", b"1"],
    [b"make", b"--", b"--", b"1"],
    [b"replay", b"5"],
    [b"node", b"5"],
    [b"audit", b"5"],
    [b"--help"],
    [b"-h"],
    [b"--version"],
    [b"\xff"],
    [b"replay", b"\xff"],
    [b"make", b"\xff"],
    [b"\xff", b"--", b"replay"],
]


def answered(path, words):
    """The status, standard output and standard error of a run on an input of one line."""
    run = subprocess.run([path, *words], input=b"hop\n", capture_output=True, check=False)
    return run.returncode, run.stdout, run.stderr


def wrong(path):
    """What is wrong, by the words."""
    cases = [(words, (0, ONE, b"")) for words in MAKE_ONE]
    cases += [(words, (2, b"", USAGE)) for words in NO_COMMAND]
    cases += [(words, (3, b"line 1: word\n", b"input refused\n")) for words in ([b"replay"], [b"--", b"replay"])]
    return [words for words, want in cases if answered(path, words) != want]


def timed(path, words, source, out):
    """The status, the seconds and the greatest memory of a run, in mebioctets: at least this script's own."""
    begun = time.monotonic()
    child = subprocess.Popen([path, *words], stdin=source, stdout=out)
    _, status, used = os.wait4(child.pid, 0)
    return os.waitstatus_to_exitcode(status), time.monotonic() - begun, used.ru_maxrss / 1024


def summary(rounds):
    """The last two lines of the log, from the numbers that the rounds are drawn from."""
    x, taken, end = 1, 0, 0
    for _ in range(rounds):
        x = (x * 1103515245 + 12345) % 2147483648
        draw = x // 65536
        taken += 1 + draw // 4 % 16
        end += 520 if draw % 4 == 2 else 20
    return (
        (
            f"flow 1:10>2:20 taken {taken} acked {taken} uncertain 0 open 0 "
            f"given {taken} read {taken}\nend {end}\n"
        ).encode()
    )


def large(path, rounds):
    """Makes and replays so many rounds, and says whether the log ends as it has to."""
    with tempfile.TemporaryFile() as schedule, tempfile.TemporaryFile() as log:
        runs = [timed(path, ["make", str(rounds)], subprocess.DEVNULL, schedule)]
        schedule.seek(0)
        runs.append(timed(path, ["replay"], schedule, log))
        sizes = [file.seek(0, os.SEEK_END) for file in (schedule, log)]
        end = b"\n" + summary(rounds)
        log.seek(-len(end), os.SEEK_END)
        holds = log.read() == end and all(status == 0 for status, _, _ in runs)
    for name, size, (_, seconds, memory) in zip(("make", "replay"), sizes, runs):
        print(f"{rounds} rounds: {name} {seconds:.2f} s, {memory:.0f} MiB, {size} octets")
    return holds


def main():
    path = program()
    bad = wrong(path)
    for words in bad:
        print(f"{words}: another answer")
    short = [rounds for rounds in map(int, sys.argv[2:]) if not large(path, rounds)]
    for rounds in short:
        print(f"{rounds} rounds: another log")
    print("words hold" if not bad and not short else "words don't hold")
    return 1 if bad or short else 0


sys.exit(main())
