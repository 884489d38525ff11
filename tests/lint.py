#!/usr/bin/env python3
"""The Python of this repository, by tools of Debian, each if it is there: no line is over
120, nothing is imported or named in vain (pyflakes3), and what the checked folders call has the types that it
says (mypy). `tests/lint.py [TOOL ..]` runs these only.

Prints a line a tool. Ends with 1 where one finds something, with 77 where only the look at lines could be made.

In tests/all: no words, 600 s.
"""

import os
import pathlib
import shutil
import subprocess
import sys
from collections.abc import Iterator

from lib import SKIPPED, TOP

MOST = 120
# what has types throughout; the rest is checked by pyflakes only. (tests/typed.py checks the package and the examples)
TYPED = [
    "tests/lib",
    "tests/lint.py",
    "docs/files.py",
    "docs/headline.py",
    "docs/laws.py",
    "docs/rooms.py",
]


def scripts() -> list[pathlib.Path]:
    """Every file of Python that git keeps, or that is here if there is no git: by its name or by its first line."""
    listed = subprocess.run(["git", "ls-files"], cwd=TOP, capture_output=True, text=True, check=False)
    names = listed.stdout.splitlines() if listed.returncode == 0 else [str(it.relative_to(TOP)) for it in walked()]
    return [path for path in (TOP / it for it in names) if path.is_file() and is_python(path)]


def walked() -> Iterator[pathlib.Path]:
    for folder, folders, names in os.walk(TOP):
        folders[:] = [it for it in folders if it not in ("out", ".git", "__pycache__", "target")]
        yield from (pathlib.Path(folder, it) for it in names)


def is_python(path: pathlib.Path) -> bool:
    if path.suffix == ".py":
        return True
    with path.open("rb") as it:
        first = it.readline()
    return first.startswith(b"#!") and b"python3" in first


def lines(paths: list[pathlib.Path]) -> list[str]:
    """The lines that are too long."""
    return [
        f"{path.relative_to(TOP)}:{number}: {len(line)} characters"
        for path in paths
        for number, line in enumerate(path.read_text().splitlines(), 1)
        if len(line) > MOST
    ]


def ran(words: list[str]) -> list[str]:
    """What a tool wrote, if it found something."""
    environment = {**os.environ, "MYPYPATH": f"{TOP / 'release'}:{TOP / 'tests'}:{TOP / 'docs'}:{TOP / 'tools'}"}
    it = subprocess.run(words, cwd=TOP, capture_output=True, text=True, check=False, env=environment)
    return (it.stdout + it.stderr).splitlines() if it.returncode else []


def main(chosen: list[str]) -> int:
    paths = scripts()
    names = [str(it.relative_to(TOP)) for it in paths]
    tools = {
        "lines": lambda: lines(paths),
        "pyflakes3": lambda: ran(["pyflakes3", *names]),
        "mypy": lambda: ran(["mypy", "--no-incremental", "--disallow-untyped-defs", "--follow-imports=silent", *TYPED]),
    }
    missing = [it for it in tools if it != "lines" and not shutil.which(it)]
    failed = 0
    for name, tool in tools.items():
        if name in missing or chosen and name not in chosen:
            continue
        found = tool()
        print(f"{name}: {len(found)} complaints" if found else f"{name}: nothing", flush=True)
        print("".join(f"    {it}\n" for it in found), end="", flush=True)
        failed += bool(found)
    if missing:
        print(f"left out, since it isn't there: {', '.join(missing)}")
    if not failed and len(missing) == 2:
        return SKIPPED
    return 1 if failed else 0


if __name__ == "__main__":
    sys.exit(main(sys.argv[1:]))
