#!/usr/bin/env python3
"""tools/adversary.py: `tests/adversary.py [PROGRAM] [GAMES]`.

- chance, search: GAMES (200) games by chance against Delta-t, and half as many of the directed search, never win.
- http, keys, coap: the same search against each model wins, within SECONDS.
- fair: without kills it doesn't win against keys and CoAP, and a packet that arrives twice is poured once by each
  model.
- slow: a network that holds a packet beyond EXCHANGE_LIFETIME wins against CoAP without a kill.
- judge: a program whose log has an acceptance twice is found out by the audit, and one that reads twice by the count.
- player: a program plays; its game is kept as a schedule that replays to a log without a flaw.
- bad: wrong answers, programs that end, write nothing or can't be run, and wrong options get an error and status 2.

One line a case, and then how many hold. Ends with 1 if one fails.

In tests/all: PROGRAM, 600 s."""
import os
import subprocess
import sys
import tempfile
import time
from functools import partial
from pathlib import Path

from lib import TOP, program, tell

sys.path.insert(0, str(TOP / "tools"))
from deltat_tools import contest  # noqa: E402
from deltat_tools.contest import Answer, Contest, Result, Rules, Search  # noqa: E402
from deltat_tools.lanes import Side  # noqa: E402
from deltat_tools.rivals import RIVALS  # noqa: E402

TOOL = TOP / "tools" / "adversary.py"
SECONDS = 20
# more time for more games than tests/all plays
LONG = 3_600
LOSE_ANSWERS = ["sed", "-u", "-e", "s/.* dispenser client .*/lose/", "-e", "t", "-e", "s/.*/pass/"]
Case = tuple[str, bool, str]

# a program that is wrong: in place of PROGRAM, its log has a line twice
WRONG = """#!/bin/sh
if [ "$1" = replay ]; then {program} replay | sed '/^[0-9]* 2 {word} 1:10/{{p;}}'; else exec {program} "$@"; fi
"""


def run(*words: str) -> "subprocess.CompletedProcess[str]":
    return subprocess.run(
        [sys.executable, str(TOOL), *words], capture_output=True, text=True, timeout=280 + LONG, check=False
    )


def never(path: str, games: int) -> list[Case]:
    cases = []
    for name, count in (("random", games), ("search", games // 2)):
        begun = time.monotonic()
        ran = run(f"--{name}", str(count), "--program", path)
        last = f"{''.join((ran.stdout + ran.stderr).splitlines()[-1:])}, {time.monotonic() - begun:.0f} s"
        cases.append((name, ran.returncode == 0 and f"{count} games" in ran.stdout and "never won" in ran.stdout, last))
    return cases


def models() -> list[Case]:
    cases = []
    for name in RIVALS:
        begun = time.monotonic()
        ran = run("--against", name, "--search", "2000", "--jobs", "1")
        took = time.monotonic() - begun
        last = ran.stdout.splitlines()[-1] if ran.stdout else ran.stderr
        cases.append((name, ran.returncode == 1 and "poured" in last and took < SECONDS, f"{last}, {took:.1f} s"))
    return cases


def first_wins(name: str, rules: Rules, games: int) -> int:
    """Which game of the search is won first, or 0."""
    search = Search(name, "", 1, rules)
    return next((it + 1 for it in range(games) if search.play().won), 0)


def twice_after(span: int, line: str, number: int) -> Answer:
    """A network that delivers each packet twice."""
    del line, number
    return Answer((50, span))


def fair() -> list[Case]:
    cases = []
    for name in RIVALS:
        won = first_wins(name, Rules(kills=False), 1000)
        cases.append(
            (
                f"{name} without kills",
                (won > 0) == (name == "http"),
                f"won in game {won}" if won else "1,000 games, not won",
            )
        )
        twice = [contest.play(name, "", partial(twice_after, span)) for span in (50, 500)]
        cups = {cup for it in twice for cup in it.summary.split("; ")[1:2]}
        cases.append((f"{name} twice", cups == {"3 cups"} and not any(it.won for it in twice), ", ".join(sorted(cups))))
    slow = Rules(contest.SLOW, kills=False)
    held = contest.play("coap", "", lambda line, number: slow.read("twice 248000" if number == 0 else "pass"))
    short = contest.play("coap", "", lambda line, number: slow.read("twice 246000" if number == 0 else "pass"))
    cases.append(("slow", held.won == "order 1 was poured 2 times" and not short.won, held.won))
    return cases


def planted(path: str, word: str) -> tuple[Result, bool]:
    """A game with a program that is wrong, and one with the same answers and the right one."""
    answers = {0: Answer((50, 500)), 3: Answer((), Side.CLIENT)}
    with tempfile.TemporaryDirectory() as folder:
        wrong = Path(folder) / "deltat"
        wrong.write_text(WRONG.format(program=path, word=word))
        wrong.chmod(0o755)
        found = contest.play("deltat", str(wrong), contest.answers_of(answers))
    return found, not contest.play("deltat", path, contest.answers_of(answers)).won


def judge(path: str) -> list[Case]:
    cases = []
    for word, told in (("accepted", "the audit says"), ("read", "was poured 2 times")):
        found, right = planted(path, word)
        cases.append((f"judge of {word}", told in found.won and right, found.won))
    return cases


def player(path: str) -> list[Case]:
    cases = []
    with tempfile.TemporaryDirectory() as folder:
        kept = os.path.join(folder, "game.schedule")
        ran = run("--keep", kept, "--program", path, "--", *LOSE_ANSWERS)
        log = subprocess.run([path, "replay"], input=Path(kept).read_bytes(), capture_output=True, check=False)
        audit = subprocess.run([path, "audit"], input=log.stdout, capture_output=True, check=False)
        good = (
            ran.returncode == 0
            and "3 orders: 3 unsure; 3 cups; audit yes" in ran.stdout
            and log.returncode == 0
            and audit.stdout == b"audit yes\n"
        )
        cases.append(("player", good, ran.stdout.splitlines()[-2] if ran.stdout else ran.stderr))
    ran = run("--against", "http", "--", *LOSE_ANSWERS)
    cases.append(
        (
            "player against http",
            ran.returncode == 1 and "the network wins" in ran.stdout,
            ran.stdout.splitlines()[-1] if ran.stdout else ran.stderr,
        )
    )
    return cases


def bad(path: str) -> list[Case]:
    http = ["--against", "http", "--"]
    cases: list[tuple[str, list[str], str]] = [
        ("word", [*http, "sh", "-c", "while read it; do echo maybe; done"], "the answer is 'maybe'; it must be pass"),
        ("span", [*http, "sh", "-c", "while read it; do echo hold 5001; done"], "for at most 5000 ms"),
        (
            "no kills",
            ["--no-kills", *http, "sh", "-c", "while read it; do echo lose kill client; done"],
            "doesn't kill",
        ),
        ("ends", [*http, "true"], "true "),
        ("after one", [*http, "sh", "-c", "read it; echo pass"], "it must"),
        ("silent", [*http, "sleep", "30"], "gave no answer"),
        ("endless", [*http, "sh", "-c", "tr '\\0' x < /dev/zero"], "gave no answer"),
        ("not there", [*http, "/nowhere/player"], "can't be run"),
        ("no program", ["--program", "/nowhere/deltat", "--", "cat"], "can't be run"),
        ("nobody", [], "give one of"),
        ("two", ["--random", "1", "--search", "1"], "give one of"),
        ("lane", ["--against", "tcp", "--random", "1"], "invalid choice"),
        ("slow", ["--slow", "--random", "1", "--program", path], "breaks a premise"),
        ("keep", ["--against", "http", "--keep", "x", "--", "cat"], "has no schedule"),
    ]
    told = []
    for name, words, want in cases:
        ran = run(*words)
        clean = "Traceback" not in ran.stderr
        told.append(
            (
                f"bad {name}",
                ran.returncode == 2 and want in ran.stderr and clean,
                "" if want in ran.stderr else ran.stderr[-300:],
            )
        )
    return told


def rules_kept() -> list[Case]:
    """A lane's schedule gives the lines that the game followed."""
    network = contest.random_network(5, Rules())
    lane = contest.lane_of("deltat", program())
    result = Contest(lane, network).run()
    log = subprocess.run(
        [program(), "replay"], input=result.schedule.encode(), capture_output=True, check=True
    ).stdout.decode()
    puts = sum(" put " in line for line in log.splitlines())
    return [
        (
            "schedule",
            puts == len(lane.packets) == len(result.moves),
            f"{puts} packets left, {len(result.moves)} were asked for",
        )
    ]


def main() -> int:
    path = program()
    games = int(sys.argv[2]) if len(sys.argv) > 2 else 200
    return tell([*never(path, games), *models(), *fair(), *judge(path), *player(path), *rules_kept(), *bad(path)])


if __name__ == "__main__":
    sys.exit(main())
