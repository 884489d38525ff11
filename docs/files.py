#!/usr/bin/env python3
"""Says what each file of a crate has: `docs/files.py dt_host`, or of several crates; of all without a name.

What stands behind a file is its first line of comment; where a file of `src/` has none, the first sentence of its
first public item, behind that item's name. A line below it has what was decided about the file (docs/decisions.txt).
Files that answer one function's goals (proofs/MODULE/FUNCTION/) aren't listed: they bear its name. Ends with 1 where a
listed file says nothing, and names it."""

import re
import sys
from pathlib import Path
from typing import Iterator

TOP = Path(__file__).resolve().parent.parent
LISTED = ("Answers", "Proof", "Invariants", "Goals")
KINDS = r"(?:const|struct|enum|trait|type|fn|impl|macro_rules!|proof)"
ITEM = re.compile(
    r"((?: *///.*\n)+)((?: *#\[.*\n)*) *(?:pub(?:\([a-z]+\))? )?"
    rf"(?:{KINDS} ?)+(?:<[^>]*> )?([A-Za-z_]\w*)"
)


def files_of(crate: Path) -> Iterator[Path]:
    """The files that a reader of a crate begins with: code, definitions, and lemmas that more than one goal cites."""
    for kind, ends in (("src", ".rt"), ("specs", ".antt"), ("proofs", ".antt")):
        for path in sorted((crate / kind).rglob(f"*{ends}")):
            if path.stem not in (*LISTED, "Lib") and "declared" not in path.parts:
                yield path


def heading(path: Path) -> str:
    """What the file's first words say of it; nothing where it has none."""
    text = path.read_text()
    marks = "//!" if path.suffix == ".rt" else "--"
    head = re.match(rf"(?:{re.escape(marks)} ?.*\n)+", text)
    if head:
        said = " ".join(line[len(marks):].strip() for line in head[0].splitlines())
        return first_sentence(said)
    item = ITEM.search(text)
    if item:
        said = " ".join(line.strip()[3:].strip() for line in item[1].splitlines())
        return f"{item[3]}: {first_sentence(said)}"
    return ""


def first_sentence(text: str) -> str:
    return re.split(r"(?<=[.:]) (?=[A-Z])", text.strip(), maxsplit=1)[0].rstrip(":")


def decisions() -> dict[Path, str]:
    """What was decided about one file, by its path."""
    lines = (TOP / "docs" / "decisions.txt").read_text().splitlines()
    pairs = (line.split(": ", 1) for line in lines if line and not line.startswith("#"))
    return {TOP / path: what for path, what in pairs}


def main(names: list[str]) -> int:
    known = {path.name: path for path in sorted((TOP / "crates").iterdir()) if path.is_dir()}
    strangers = [name for name in names if name not in known]
    if strangers:
        print(f"no such crate: {', '.join(strangers)}", file=sys.stderr)
        return 2
    silent = []
    decided = decisions()
    for name in names or known:
        for path in files_of(known[name]):
            said = heading(path)
            if not said:
                silent.append(path)
            print(f"{path.relative_to(TOP / 'crates')}  {said}".rstrip())
            if path in decided:
                print(f"    decided: {decided[path]}")
    for path in silent:
        print(f"{path.relative_to(TOP)}: nothing says what it has", file=sys.stderr)
    return 1 if silent else 0


if __name__ == "__main__":
    sys.exit(main(sys.argv[1:]))
