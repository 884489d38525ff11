#!/usr/bin/env python3
"""bench/peers.py over its bad link, shortly: plain UDP, TCP and two nodes. `tests/peers.py [PROGRAM]`. Ends with 1
where

- a measure has no figure, but those that a peer doesn't have;
- a request of plain UDP isn't served twice where its packets come once more, which shows that they do come, or one of
  the nodes is served more than once, by a server that runs on or by one that was killed and started again;
- a server over tests/wan.py isn't stopped when its client has ended, or the client's status isn't told;
- a wrong word isn't refused.

It wants what tests/wan.py wants, and a C compiler, and is skipped else.

In tests/all: PROGRAM, 180 s."""
import shutil
import subprocess
import sys
import time

from lib import TOP, program, skip, tell

BENCH = [sys.executable, str(TOP / "bench" / "peers.py")]
WAN = [sys.executable, str(TOP / "tests" / "wan.py")]


def ran(words: list[str]) -> "subprocess.CompletedProcess[str]":
    return subprocess.run(words, capture_output=True, text=True, check=False, timeout=150)


def last(text: str) -> str:
    """The last line of a text."""
    return (text.strip().splitlines() or [""])[-1]


def rows(text: str, head: str) -> dict[str, list[str]]:
    """The rows below the line of the first column `peer` that stands behind a heading, by their peers."""
    lines = text[text.index(head):].splitlines()[2:] if head in text else []
    cells = [[it.strip() for it in line.split("  ") if it.strip()] for line in lines]
    until = next((at for at, it in enumerate(cells) if not it), len(cells))
    return {it[0]: it[1:] for it in cells[:until]}


def measured(path: str) -> list[tuple[str, bool, str]]:
    """A short run of all measures, over a link without losses."""
    bench = ran([*BENCH, path, "--peers", "UDP", "TCP", "deltat", "--networks", "1/0", "--part", "0.4"])
    figures, served = rows(bench.stdout, "1 ms each way"), rows(bench.stdout, "a request is served so often")
    # for each measure whether the peer has it
    wants = {"UDP": "11---", "TCP": "11111", "deltat": "111-1"}
    cases = [("it ends with 0", bench.returncode == 0, last(bench.stderr))]
    for name, wanted in wants.items():
        got = figures.get(name, [])
        has = "".join("1" if it[0].isdigit() else "-" if it == "-" else "0" for it in got)
        cases.append((f"figures of {name}", has == wanted, " | ".join(got)))
    cases.append(("UDP serves a repeat", served.get("UDP") == ["2", "2"], str(served.get("UDP"))))
    # a message that was under way when its server was killed may be lost
    on, killed = served.get("deltat", ["-", "-"])
    cases.append(("a node serves none twice", on == "1" and killed in ("0", "1"), f"{on}, {killed}"))
    return cases


def serving() -> list[tuple[str, bool, str]]:
    begun = time.monotonic()
    link = ran([*WAN, "0", "0", "0", "0", "--serve", "--", "sleep", "100", "--", "sh", "-c", "exit 3"])
    is_quick = time.monotonic() - begun < 20
    return [
        (
            "a server is stopped, and the client's status told",
            is_quick and link.returncode == 3,
            f"status {link.returncode}",
        )
    ]


def refused(path: str) -> list[tuple[str, bool, str]]:
    cases = []
    for words in ([path, "--networks", "1"], [path, "--networks", "1/200"], ["/nowhere"], [path, "--peers", "nobody"]):
        bench = ran([*BENCH, *words])
        cases.append(
            (f"refused: {' '.join(words[-2:])}", bench.returncode == 2 and "error" in bench.stderr, last(bench.stderr))
        )
    return cases


def main() -> int:
    link = ran([*WAN, "0", "0", "0", "0", "--", "true", "--", "true"])
    if link.returncode == 2:
        skip(f"there is no such link here: {last(link.stderr)}")
    if not shutil.which("cc"):
        skip("there is no C compiler")
    path = program()
    return tell([*serving(), *refused(path), *measured(path)])


if __name__ == "__main__":
    sys.exit(main())
