#!/usr/bin/env python3
"""Tries each planted bug by itself: `tests/edits.py [CRATE ..]`, all crates where none is named.

crates/CRATE/must-fail/planted.edit has a crate's bugs, each below a line `# NAME`. The gate plants all of them at once,
so that one check from nothing does for a crate, and is content where that is refused. Here each is an edit of its own,
in a copy of the repository, and has to be refused for what a contract says. Where the gate of the kit takes crates'
names, what is proved already on this machine isn't proved again; each crate takes a check from nothing, and some 15 to
60 s of processor for each bug.

What stands above the first bug turns off modules that no bug needs, so that a check costs less. It goes with each bug.
With no bug it has to be proved: then what is refused is the bug, and nothing that was turned off. That takes a check
from nothing more.

Ends with 1 where a bug isn't refused, or only since a proof names what it took away, or where what turns off is refused
by itself; with 77 where there is no `rt`.

In tests/all: dt_cases, 900 s."""
import pathlib
import re
import shutil
import subprocess
import sys
import tempfile

from lib import SKIPPED, TOP

NAME = "# "
PLANTED = pathlib.PurePath("must-fail", "planted.edit")
TRIED = re.compile(r"rt: must-fail (\w+)/(\w+)\.edit: (.*)")
REFUSED, PROVED = "refused, as it must be", "NOT REFUSED"
# the edit that turns off what no bug needs, and plants nothing
NO_BUG = "no_bug"
# what a refusal says that isn't one of a contract
IDLE = "only because a proof file names what the edit took away"


def edits(text: str) -> dict[str, str]:
    """The edits of a file by their names: each bug with what turns off, and that by itself."""
    head, *parts = re.split(rf"^{NAME}(\w+)\n", text, flags=re.MULTILINE)
    alone = {NO_BUG: head} if head else {}
    return alone | {name: head + pairs for name, pairs in zip(parts[::2], parts[1::2])}


def split(crate: pathlib.Path) -> list[str]:
    """Puts an edit for each bug in the place of the file that has all, and returns their names."""
    planted = crate / PLANTED
    found = edits(planted.read_text())
    planted.unlink()
    for name, text in found.items():
        planted.with_name(f"{name}.edit").write_text(text)
    return list(found)


def takes_names() -> bool:
    """Whether the gate of this kit takes crates' names: then it takes what is proved on this machine already."""
    said = subprocess.run(["rt", "help"], stdin=subprocess.DEVNULL, capture_output=True, text=True, check=False)
    return re.search(r"rt ci (\[|NAME)", said.stdout + said.stderr) is not None


def tried(top: pathlib.Path, crates: list[str]) -> dict[tuple[str, str], str]:
    """What the toolchain says of each edit of these crates, each line as it comes."""
    found = {}
    words = ["rt", "ci" if takes_names() else "must-fail", *crates]
    with subprocess.Popen(
        words,
        cwd=top,
        stdin=subprocess.DEVNULL,
        stdout=subprocess.PIPE,
        stderr=subprocess.STDOUT,
        text=True,
        errors="replace",
    ) as gate:
        for line in gate.stdout:
            if it := TRIED.match(line):
                found[it[1], it[2]] = it[3]
            if it or line.startswith("rt: "):
                print(line, end="", flush=True)
    return found


def is_right(name: str, said: str) -> bool:
    """Whether the toolchain says of an edit what it has to say."""
    return said.startswith(PROVED) if name == NO_BUG else said.startswith(REFUSED) and IDLE not in said


def main() -> int:
    all_crates = sorted(it.parent.parent.name for it in (TOP / "crates").glob(f"*/{PLANTED}"))
    crates = sys.argv[1:] or all_crates
    if strange := [it for it in crates if it not in all_crates]:
        print(f"{strange[0]} has no planted bugs; those that have are {', '.join(all_crates)}", file=sys.stderr)
        return 2
    if not shutil.which("rt"):
        print("there is no rt")
        return SKIPPED
    with tempfile.TemporaryDirectory(prefix="deltat-edits-") as folder:
        top = pathlib.Path(folder)
        for it in ("crates.txt", "HANDLES"):
            shutil.copy(TOP / it, top)
        shutil.copytree(TOP / "crates", top / "crates", ignore=shutil.ignore_patterns("out"))
        wanted = [(crate, name) for crate in crates for name in split(top / "crates" / crate)]
        said = tried(top, crates)
    wrong = [(crate, name) for crate, name in wanted if not is_right(name, said.get((crate, name), ""))]
    for crate, name in wrong:
        print(
            f"{crate}: what turns off isn't proved by itself"
            if name == NO_BUG
            else f"not refused by a contract: {crate}/{name}"
        )
    of_bugs, let_through = ([it for it in them if it[1] != NO_BUG] for them in (wanted, wrong))
    print(f"{len(of_bugs) - len(let_through)} of {len(of_bugs)} bugs are refused, each by itself")
    return 1 if wrong else 0


if __name__ == "__main__":
    sys.exit(main())
