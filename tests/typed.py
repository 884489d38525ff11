#!/usr/bin/env python3
"""The types of the Python package: `mypy --strict` finds nothing in it and in the examples, and finds what is wrong.
`tests/typed.py`. Ends with 77 if there is no mypy.

- The package, the script that builds its wheel, and each example are clean.
- Programs with one mistake each (MISTAKES) are refused for it, so the types of the package are seen by its users.

In tests/all: no words, 300 s."""
import os
import shutil
import subprocess
import sys
import tempfile
from pathlib import Path

from lib import TOP, skip

BINDINGS = TOP / "bindings" / "python"
HEAD = """import deltat

def ends_of(service: deltat.Service) -> list[deltat.Event]:
    return list(service.events())

params, charge = deltat.Params.for_network(deltat.Network(250_000, 50_000))
node = deltat.Node(2, params, [deltat.Link(1, charge)], {1: 1}, start=deltat.Start.AGAIN)
"""
MISTAKES = [
    ("the start of interface 1", "deltat.Node(2, params, [], {}, again=True)", 'Unexpected keyword argument "again"'),
    ("a truth for a start", "deltat.Node(2, params, [], {}, start=True)", 'has incompatible type "bool"'),
    ("a text for octets", 'node.send(deltat.Flow(2, 20, 1, 10), "text")', 'has incompatible type "str"'),
    ("a piece that may be None", "node.read(deltat.Flow(1, 10, 2, 20)).octets", '"None" of "Optional[Piece]"'),
    ("an event that may be another", "lambda service: [it.answer for it in ends_of(service)]", '"Request" of'),
    ("a former name", "deltat.Spent", 'has no attribute "Spent"'),
]


def checked(*words: object) -> subprocess.CompletedProcess[str]:
    places = os.pathsep.join(str(it) for it in (BINDINGS, TOP / "examples" / "bank", TOP / "tests"))
    command = ["mypy", "--strict", "--follow-imports=silent", "--cache-dir", os.devnull, *map(str, words)]
    return subprocess.run(command, env={**os.environ, "MYPYPATH": places}, capture_output=True, text=True, timeout=280)


def main() -> int:
    if not shutil.which("mypy"):
        skip("there is no mypy: apt-get install mypy")
    examples = sorted((TOP / "examples").rglob("*.py"))
    # (scripts of two folders may have one name)
    folders = [[it for it in examples if it.parent == folder] for folder in sorted({it.parent for it in examples})]
    runs = [checked(BINDINGS / "deltat", BINDINGS / "build_wheel.py"), *(checked(*folder) for folder in folders)]
    said = "".join(ran.stdout[-1000:] + ran.stderr[-500:] for ran in runs if ran.returncode)
    cases = [(f"the package and {len(examples)} examples are clean", not said, said)]
    with tempfile.TemporaryDirectory() as folder:
        for number, (what, mistake, error) in enumerate(MISTAKES):
            path = Path(folder) / f"mistake_{number}.py"
            path.write_text(f"{HEAD}{mistake}\n")
            ran = checked(path)
            is_refused = ran.returncode == 1 and error in ran.stdout
            cases.append((f"{what} is refused", is_refused, ran.stdout[-1000:]))
        path.write_text(HEAD)
        cases.append(("the same program without a mistake is clean", checked(path).returncode == 0, ""))
    for name, holds, text in cases:
        print(f"{'ok' if holds else 'FAILED'}: {name}{'' if holds else ': ' + text}", flush=True)
    failed = sum(not holds for _, holds, _ in cases)
    print(f"{len(cases) - failed} passed, {failed} failed")
    return 1 if failed else 0


if __name__ == "__main__":
    sys.exit(main())
