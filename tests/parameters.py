#!/usr/bin/env python3
"""The table of docs/parameters.md is what tools/params.py tells, and numbers that fit do what the page says.

Usage: tests/parameters.py [PROGRAM] [--write]

- Each row of the table names its words for tools/params.py, and its cells are what follows from them. With
  --write the rows are written anew, and nothing else is done.
- The examples have the numbers of the row that the page names, or those for which they name the words, and one script
  has a shelf.
- Two nodes with a tenth of the packets lost each way: node 1 sends 100 messages of 30 octets, one each 40 ms.
  With round numbers many are reported uncertain, as with those of the Internet without a shelf, or with one for which
  packets don't live long enough; with those of examples/, and of an office, hardly any.

In tests/all: PROGRAM, 120 s."""
import argparse
import os
import re
import shlex
import subprocess
import sys
import threading
from random import Random

from lib import HOST, PROGRAM, TOP, Between, start, tell

PAGE = TOP / "docs" / "parameters.md"
HEAD = "| network | words for `tools/params.py` |"
MESSAGES, GAP = 100, 40
# how many are uncertain at most with numbers that fit (with the short times of an office a busy machine may hold a
# node up for too long), and at least with others
MOST = {"Internet, a shelf": 3, "office, no shelf": 20}
LEAST = 10
ROUND = "1000 3000 200 500 800 100 65536 65536 65536 2147483648"
# what tools/params.py allows for the wait in a socket
SOCKET = 20
# a serial line has the numbers of its own speed, which it tells, and two nodes in one program need none of a network
OWN = {"serial.c", "hello.c", "hello.py"}


def told(words: str) -> list[str]:
    """What tools/params.py tells for these words."""
    run = subprocess.run(
        [sys.executable, str(TOP / "tools" / "params.py"), *shlex.split(words)],
        capture_output=True,
        text=True,
        check=True,
    )
    return run.stdout.splitlines()


def milliseconds(number: str) -> str:
    """A span as people read it."""
    count = int(number)
    return f"{count} ms" if count < 1_000 else f"{count / 1000:.1f} s" if count < 100_000 else f"{count / 1000:.0f} s"


def cells(words: str) -> list[str]:
    """What follows from words: the first numbers of the `params` line, the charge, two spans and the least ceiling."""
    lines = told(words)
    numbers = " ".join(lines[0].split()[1:7])
    charge = lines[1].removeprefix("charge ").partition(":")[0]
    spans = [milliseconds(re.findall(r"\d+", line)[0]) for line in lines[2:4]]
    most = re.findall(r"at most (.+) by (.+)", lines[4])[0]
    return [f"`{numbers}`", charge, *spans, f"{most[0]} by {most[1]}"]


def rows(page: str) -> list[tuple[int, list[str]]]:
    """The rows of the table: their places among the lines, and their cells."""
    lines, found = page.splitlines(), []
    begun = next(number for number, line in enumerate(lines) if line.startswith(HEAD))
    for number in range(begun + 2, len(lines)):
        if not lines[number].startswith("|"):
            break
        found.append((number, [it.strip() for it in lines[number].strip("|").split("|")]))
    return found


def write() -> None:
    lines = PAGE.read_text().splitlines(keepends=True)
    for number, row in rows(PAGE.read_text()):
        lines[number] = f"| {' | '.join([*row[:2], *cells(row[1].strip('`'))])} |\n"
    PAGE.write_text("".join(lines))


def has_numbers_of(words: str, text: str) -> bool:
    """Whether a service has the numbers that tools/params.py tells for these words, and its charge but for the wait in
    this machine's socket, which the service measures."""
    numbers, charge, *_ = told(words)
    first = [int(it) for it in numbers.split()[1:10]]
    delay, round_trip = words.split()
    if f"DT_NETWORK({delay}000, {round_trip}000)" in text and "dt_params_for(" in text:
        # the library computes them, and tests/params_for.py compares it with the tool
        return True
    found = re.search(r"PARAMS = (?:deltat\.Params\(|\{)(.*)[)}]", text)
    own = re.search(r"CHARGE = (\d+)", text)
    listed = [int(it) for it in re.findall(r"\d+", found[1])][:9] if found else []
    return listed == first and own is not None and int(own[1]) == int(charge.split()[1].rstrip(":")) - SOCKET


def computes(words: str, text: str) -> bool:
    """Whether a program in Python has the library compute the parameters for these words of tools/params.py."""
    delay, round_trip, *more = words.split()
    fields = [f"delay_us={delay}_000", f"round_trip_us={round_trip}_000", *(["shelf=" + more[1]] if more else [])]
    return f"deltat.Params.for_network(deltat.Network({', '.join(fields)}))" in text


def examples(numbers: str, charge: str) -> list[tuple[str, bool, str]]:
    """Whether each example has these numbers and this charge."""
    first, room = numbers.split()[:6], numbers.split()[6]
    charges = {
        ".script": rf"^peer 1 \S+ {charge} 0$",
        ".schedule": rf"^link 1 1 2 {charge} 0\nlink 2 2 1 {charge} 0$",
        ".calls": rf"^link 1 1 2 {charge} 0\nlink 2 2 1 {charge} 0$",
        ".py": rf"Link\(1, charge={charge}\)",
        ".c": rf"\.charge = {charge}\b",
    }
    forms = {
        ".py": ", ".join(
            f"{name}={it}"
            for name, it in zip("mpl r a rto probe seg cap rcap window".split(), [*first, room, room, room])
        ),
        ".c": ", ".join([*first, room, room, room]),
    }
    cases, shelves = [], 0
    for path in sorted(it for it in (TOP / "examples").iterdir() if it.suffix in charges and it.name not in OWN):
        text = path.read_text()
        if named := re.search(r"as `tools/params\.py ([^`]*)` prints", text):
            cases.append((f"the numbers of {path.name}", computes(named[1], text), named[1]))
            continue
        if named := re.search(r"what `tools/params\.py ([^`]*)` tells", text):
            cases.append((f"the numbers of {path.name}", has_numbers_of(named[1], text), named[1]))
            continue
        # (one has shorter segments, since it wants several)
        wanted = forms.get(path.suffix, f"params {' '.join(first[:5])} ")
        shelves += bool(re.search(r"^shelf \d+$", text, re.MULTILINE))
        cases.append(
            (
                f"the numbers of {path.name}",
                wanted in text and bool(re.search(charges[path.suffix], text, re.MULTILINE)),
                "",
            )
        )
    return [*cases, ("an example with a shelf", shelves == 1 and len(cases) > 6, f"{len(cases)} examples")]


def script(me: int, numbers: str, charge: int, ports: tuple[int, int], further: list[str]) -> str:
    """The script of node 1 or 2 of a pair."""
    return (
        "\n".join(
            [
                f"params {numbers}",
                f"me {me} first",
                f"local {HOST}:{ports[0]}",
                f"peer 1 {HOST}:{ports[1]} {charge} 0",
                f"route {3 - me} 1",
                *further,
            ]
        )
        + "\n"
    )


def lossy(program: str, numbers: str, charge: int, shelf: list[str]) -> tuple[int, int]:
    """How many of the messages were accepted, and how many reported uncertain."""
    chance = Random(1)
    end = 500 + GAP * MESSAGES + 6_000
    sends = [f"at {500 + GAP * it} send 1:10>2:20 be {Random(it).randbytes(30).hex()}" for it in range(MESSAGES)]
    reads = [f"at {it} read 1:10>2:20 65536" for it in range(600, end, 100)]
    with Between(lambda _node, _octets: int(chance.random() >= 0.1)) as between:
        ends = [(between.nodes[it - 1], between.port(it)) for it in (1, 2)]
        texts = [
            script(it, numbers, charge, ends[it - 1], [*shelf, "go", *does, f"at {end} stop"])
            for it, does in ((1, sends), (2, reads))
        ]
        nodes = [start(program, text) for text in reversed(texts)]
        logs: list[str] = ["", ""]

        def keep(place: int) -> None:
            logs[place] = nodes[place].stdout.read().decode()

        threads = [threading.Thread(target=keep, args=(it,)) for it in (0, 1)]
        for it in threads:
            it.start()
        for it in threads:
            it.join()
        for it in nodes:
            it.wait()
    return logs[0].count(" accepted "), logs[1].count(" uncertain ")


def main() -> int:
    reads = argparse.ArgumentParser(description="Checks the table of docs/parameters.md, and what it promises.")
    reads.add_argument("program", nargs="?", default=str(PROGRAM), help="the program that is tried")
    reads.add_argument("--write", action="store_true", help="write the table anew")
    given = reads.parse_args()
    if given.write:
        write()
        return 0
    program, table = os.path.abspath(given.program), rows(PAGE.read_text())
    cases = [(f"the row {row[0]}", row[2:] == cells(row[1].strip("`")), "") for _, row in table]
    cases.append(("rows", len(table) >= 5, f"{len(table)}"))
    bare_spans = cells(next(row[1].strip("`") for _, row in table if row[0].startswith("the Internet")))[2:4]
    rack, satellite = (
        cells(next(row[1].strip("`") for _, row in table if row[0].startswith(name))) for name in ("a rack", "a geo")
    )
    says = f"that is {rack[2].removesuffix(' ms')} and {rack[3].removesuffix(' ms')} milliseconds"
    says_more = f"over a continent {bare_spans[0].removesuffix(' s')} and {bare_spans[1].removesuffix(' s')} seconds"
    says_too = f"over a satellite {satellite[2].removesuffix(' s')} and {satellite[3].removesuffix(' s')} seconds"
    answers = (TOP / "docs" / "faq.md").read_text()
    cases.append(
        (
            "the numbers of docs/faq.md",
            all(it in answers for it in (says, says_more, says_too)),
            f"{says}; {says_more}; {says_too}",
        )
    )
    bare, shelved, office = (
        told(next(row[1].strip("`") for _, row in table if row[0].startswith(name)))
        for name in ("the Internet", "the same", "an office")
    )
    charge = shelved[1].split()[1].rstrip(":")
    cases += examples(shelved[0].removeprefix("params "), charge)
    tries = {
        "round ones": (ROUND, 50, []),
        "Internet, no shelf": (bare[0].removeprefix("params "), int(charge), []),
        "Internet, a shelf, no life for it": (bare[0].removeprefix("params "), int(charge), ["shelf 64"]),
        "office, no shelf": (office[0].removeprefix("params "), int(office[1].split()[1].rstrip(":")), []),
        "Internet, a shelf": (shelved[0].removeprefix("params "), int(charge), ["shelf 64"]),
    }
    counts: dict[str, tuple[int, int]] = {}

    def count(name: str) -> None:
        counts[name] = lossy(program, *tries[name])

    threads = [threading.Thread(target=count, args=(it,)) for it in tries]
    for it in threads:
        it.start()
    for it in threads:
        it.join()
    for name, (accepted, uncertain) in counts.items():
        right = uncertain <= MOST[name] if name in MOST else uncertain > LEAST
        cases.append(
            (f"a tenth lost, {name}", right, f"{accepted} of {MESSAGES} accepted, {uncertain} reported uncertain")
        )
    return tell(cases)


if __name__ == "__main__":
    sys.exit(main())
