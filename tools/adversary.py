#!/usr/bin/env python3
"""A network that wants a cup poured twice. A program plays it, or chance, or a search.

    tools/adversary.py [--against LANE] -- PROGRAM [WORD ..]
    tools/adversary.py [--against LANE] --random GAMES
    tools/adversary.py [--against LANE] --search GAMES

A client orders three cups from a dispenser, one each 8 s. For each packet that leaves one of them, PROGRAM gets a line

    NUMBER MOMENT FROM TO WHAT

and answers with a line: `pass`, `lose`, `hold MS` (the packet arrives MS ms after it left) or `twice MS` (it arrives,
and once more MS ms after it left). `kill client` or `kill dispenser` may follow, and then the ms for which the node
is down (100): it is killed when the packet has arrived, or at once if the packet is lost. A packet is held for at
most 5,000 ms.

LANE is deltat (two nodes that `deltat replay` runs; the judge is `deltat audit`, and each order is counted too), http
(with retries), keys (HTTP with keys in memory) or coap (confirmable messages); the last three are models. With --slow
the network may hold packets of a model for 400 s. Of Delta-t that would break a premise, and a replay refuses it.
With --no-kills it can't kill.

Ends with 0 if the network never won, with 1 if it won, and with 2 if something is wrong."""
import argparse
import os
import select
import shlex
import subprocess
import sys
import time
from collections.abc import Iterator, Sequence
from concurrent.futures import ProcessPoolExecutor
from dataclasses import dataclass
from pathlib import Path
from types import TracebackType

from deltat_tools import contest
from deltat_tools.arguments import number
from deltat_tools.contest import Answer, Result, Rules, Search, Wrong
from deltat_tools.replayed import CHARGE, Broken, default_program

# games of a search that one process plays
SHARE = 25
# how long a program may take for an answer, in seconds, and the most octets of a line
PATIENCE, LONGEST = 10, 4096


class Player:
    """The program that plays the network."""

    def __init__(self, words: Sequence[str], rules: Rules):
        self.words, self.rules = words, rules

        self.pending = b""

    def __enter__(self) -> "Player":
        try:
            self.process = subprocess.Popen(self.words, stdin=subprocess.PIPE, stdout=subprocess.PIPE, bufsize=0)
        except OSError as why:
            raise Wrong(f"{shlex.join(self.words)} can't be run: {why}") from None
        return self

    def answer(self, line: str, packet: int) -> Answer:
        """What the program answers for a packet."""
        del packet
        assert self.process.stdin
        try:
            self.process.stdin.write(f"{line}\n".encode())
        except OSError:
            raise Wrong(
                f"{shlex.join(self.words)} ended before packet {line!r}; it must answer each line until its input ends"
            ) from None
        return self.rules.read(self.read_line(line))

    def read_line(self, asked: str) -> str:
        """The next line of the program."""
        assert self.process.stdout
        where, until = self.process.stdout.fileno(), time.monotonic() + PATIENCE
        while b"\n" not in self.pending:
            waits = until - time.monotonic()
            if waits <= 0 or not select.select([where], [], [], waits)[0]:
                late = f"{shlex.join(self.words)} gave no answer to {asked!r} in {PATIENCE} s"
                raise Wrong(f"{late}; write a line for each packet, and flush it")
            octets = os.read(where, 4096)
            if not octets or len(self.pending) > LONGEST:
                none = f"{shlex.join(self.words)} gave no answer to {asked!r}"
                raise Wrong(f"{none}; it must write a line for each packet until its input ends")
            self.pending += octets
        line, self.pending = self.pending.split(b"\n", 1)
        return line.decode("utf-8", "replace").strip()

    def __exit__(
        self, kind: type[BaseException] | None, why: BaseException | None, where: TracebackType | None
    ) -> None:
        assert self.process.stdin and self.process.stdout
        try:
            self.process.stdin.close()
        except OSError:
            pass
        try:
            self.process.wait(2)
        except subprocess.TimeoutExpired:
            self.process.kill()
            self.process.wait()
        self.process.stdout.close()


@dataclass(frozen=True)
class Task:
    """Games that one process plays: those of chance have consecutive seeds, those of a search one."""

    lane: str
    program: str
    rules: Rules
    seed: int
    games: int
    is_search: bool


def games_of(task: Task) -> list[tuple[int, Result]]:
    """Plays games until the network wins. Only a result that won keeps its moves."""
    search = Search(task.lane, task.program, task.seed, task.rules)
    results = []
    for place in range(task.games):
        seed = task.seed + place
        result = search.play() if task.is_search else contest.random_game(task.lane, task.program, seed, task.rules)
        results.append((seed, result if result.won else Result([], "", "", result.near)))
        if result.won:
            break
    return results


def tasks_of(given: argparse.Namespace, rules: Rules) -> Iterator[Task]:
    games = given.search or given.random
    for first in range(0, games, SHARE):
        yield Task(
            given.against, given.program, rules, given.seed + first, min(SHARE, games - first), bool(given.search)
        )


def show(result: Result) -> None:
    """The moves of a game."""
    for line, answer in result.moves:
        place, moment, source, target, text = line.split(" ", 4)
        print(f"{place:>3} {moment:>6} {source:<9} {target:<9} {text:<16} {answer}")


def play_many(given: argparse.Namespace, rules: Rules) -> int:
    """Games of chance or of a search, on several processors."""
    played = 0
    with ProcessPoolExecutor(given.jobs) as pool:
        for results in pool.map(games_of, tasks_of(given, rules)):
            for _, result in results:
                played += 1
                if result.won:
                    pool.shutdown(cancel_futures=True)
                    return lost(given, result, played)
            if sys.stderr.isatty():
                print(f"{played} games", end="\r", file=sys.stderr, flush=True)
    kind = "search" if given.search else "chance"
    print(f"{given.against}: {played} games by {kind}: the network never won")
    return 0


def lost(given: argparse.Namespace, result: Result, game: int) -> int:
    """The network has won. What it needn't have done is left out."""
    short = contest.shrunk(given.against, given.program, result)
    show(short)
    print(f"{given.against}: {short.won} in game {game}: the network wins")
    return 1


def play_one(given: argparse.Namespace, rules: Rules) -> int:
    """A game against the program that was given."""
    with Player(given.player, rules) as player:
        result = contest.play(given.against, given.program, player.answer)
    show(result)
    if given.keep:
        Path(given.keep).write_text(result.schedule, encoding="ascii")
    print(f"{given.against}: {result.summary}")
    print(f"{given.against}: {result.won + ': the network wins' if result.won else 'the network has not won'}")
    return 1 if result.won else 0


def arguments() -> argparse.Namespace:
    it = argparse.ArgumentParser(description=__doc__, formatter_class=argparse.RawDescriptionHelpFormatter)
    it.add_argument(
        "player",
        nargs="*",
        metavar="PROGRAM",
        help="the program that plays the network, and its words; put -- before it",
    )
    it.add_argument(
        "--against", choices=contest.LANES, default="deltat", metavar="LANE", help="deltat, http, keys or coap (deltat)"
    )
    it.add_argument(
        "--random", type=number(1, 1_000_000, int), default=0, metavar="GAMES", help="play so many games by chance"
    )
    it.add_argument(
        "--search",
        type=number(1, 1_000_000, int),
        default=0,
        metavar="GAMES",
        help="play so many games by a directed search",
    )
    it.add_argument("--seed", type=number(0, 1 << 31, int), default=1, metavar="N", help="where chance begins (1)")
    it.add_argument("--slow", action="store_true", help="the network may hold packets of a model for 400 s")
    it.add_argument("--no-kills", action="store_true", help="the network may not kill")
    it.add_argument(
        "--jobs",
        type=number(1, 256, int),
        default=os.cpu_count() or 1,
        metavar="N",
        help="processes (one for each processor)",
    )
    it.add_argument("--keep", metavar="FILE", help="write the schedule of a game against deltat")
    it.add_argument("--program", default=default_program(), metavar="PATH", help="the program deltat (%(default)s)")
    return checked(it)


def checked(it: argparse.ArgumentParser) -> argparse.Namespace:
    """The words of the command line, if they suit each other."""
    given = it.parse_args()
    if sum(map(bool, (given.player, given.random, given.search))) != 1:
        it.error("give one of PROGRAM, --random and --search")
    if given.slow and given.against == "deltat":
        it.error(
            "--slow breaks a premise of deltat, that a link is no slower than its charge; play against another lane"
        )
    if given.keep and (given.against != "deltat" or not given.player):
        it.error("--keep is for a program against deltat: a model has no schedule")
    return given


def main() -> int:
    given = arguments()
    rules = Rules(contest.SLOW if given.slow else CHARGE, not given.no_kills)
    try:
        return play_one(given, rules) if given.player else play_many(given, rules)
    except (Wrong, Broken, OSError) as why:
        print(f"adversary.py: {why}", file=sys.stderr)
        return 2


if __name__ == "__main__":
    sys.exit(main())
