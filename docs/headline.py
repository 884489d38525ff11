#!/usr/bin/env python3
"""The lists of definitions in headline.md: those that the sentences of `run` and the laws beside it use, a list a
command, lowest first, in rows of files of one crate, with their lines. The page has the first list, and of the others
their sizes. Without a word it compares the page with the sources and ends with 1 if they differ; with `write` it
writes them; with `lists` it prints all lists."""

import re
import sys
from itertools import groupby
from pathlib import Path

TOP = Path(__file__).resolve().parent.parent
PAGE = TOP / "docs" / "headline.md"
BEGIN, END = "<!-- definitions -->\n", "<!-- end of definitions -->\n"

# Each command with the definitions that its sentences begin with. What a command's list has isn't listed
# again below it.
COMMANDS = {
    "`replay`: the headline": ["dt_replay/Schedules", "dt_world_model/WorldFacts", "dt_fold/Logging"],
    "`node` and `trace`, beside those": ["dt_node/Serving", "dt_node/Completing"],
    "`retrace`, beside those": ["dt_node/Retracing", "dt_node/Repeating", "dt_node/Reaching"],
    "`calls`, beside those": ["dt_calls_input/CallAnswers"],
    "`audit`, beside those": ["dt_audit/Audits"],
    "`make`, beside those": ["dt_make/Schedules"],
    "networks of endpoints, beside those": ["dt_network/Octets", "dt_network/Beside", "dt_network/Duties"],
}
REST = "`run` itself: words, streams, statuses, and the results of each job"
STATED = ["crates/dt_top/src/lib.rt", "crates/dt_top/src/laws.rt"]


def brought_in(path: str) -> list[str]:
    """The specs that a file brings in by its `use` lines."""
    text = (TOP / path).read_text()
    used = re.findall(r"use Rattle\.(dt_\w+)\.specs\.(\w+)", text)
    specs = [f"crates/{crate}/specs/{module}.antt" for crate, module in used]
    return [spec for spec in specs if (TOP / spec).exists()]


def collect(path: str, found: list[str]) -> None:
    """Adds what a file rests on, lowest first."""
    for spec in brought_in(path):
        if spec not in found and spec != path:
            found.append(spec)
            collect(spec, found)
            found.remove(spec)
            found.append(spec)


def lines(path: str) -> int:
    return len((TOP / path).read_text().splitlines())


def total(paths: list[str]) -> int:
    return sum(map(lines, paths))


def table(title: str, paths: list[str]) -> str:
    """A list: a row for each run of files of one crate, with the lines of each file."""
    rows = []
    for crate, group in groupby(paths, key=lambda path: path.split("/")[1]):
        rows.append(f"| {crate} | {', '.join(f'{Path(path).stem} {lines(path)}' for path in group)} |\n")
    head = f"### {title}\n\n{len(paths)} files, {total(paths)} lines\n\n| crate | files with their lines |\n|---|---|\n"
    return head + "".join(rows)


def lists() -> dict[str, list[str]]:
    """The files of each list, without those of the lists before it."""
    listed: list[str] = []
    made = {}
    for title, roots in COMMANDS.items():
        found = list(listed)
        for root in roots:
            crate, module = root.split("/")
            path = f"crates/{crate}/specs/{module}.antt"
            if path not in found:
                found.append(path)
                collect(path, found)
                found.remove(path)
                found.append(path)
        made[title] = [path for path in found if path not in listed]
        listed = found
    found = list(listed)
    for path in STATED:
        collect(path, found)
    made[REST] = [path for path in found if path not in listed]
    return made


def shown() -> str:
    """What the page has: the first list, and the sizes of the others."""
    (title, first), *others = lists().items()
    head = "\n| beside those | files | lines |\n|---|---|---|\n"
    rows = [f"| {name.removesuffix(', beside those')} | {len(paths)} | {total(paths)} |\n" for name, paths in others]
    return table(title, first) + head + "".join(rows)


def rewritten(page: str) -> str:
    """The page with the lists that the sources make."""
    before, rest = page.split(BEGIN)
    return before + BEGIN + shown() + END + rest.split(END)[1]


def main(words: list[str]) -> int:
    page = PAGE.read_text()
    if words == ["write"]:
        PAGE.write_text(rewritten(page))
    elif words == ["lists"]:
        print("\n".join(table(title, paths) for title, paths in lists().items()), end="")
    elif words:
        print(__doc__)
        return 2
    elif rewritten(page) != page:
        print("docs/headline.md lists other definitions: docs/headline.py write mends it")
        return 1
    return 0


if __name__ == "__main__":
    sys.exit(main(sys.argv[1:]))
