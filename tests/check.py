#!/usr/bin/env python3
"""`./check` runs the gate and the pages, counts both and ends as the gate does, and `.ci/run` is `./check`.

Usage: tests/check.py

In a copy of the repository, with an `rt` on PATH that writes and ends as each case wants, and a README whose example is
written at once: what `./check` and `./check --quick` run, write and end with. docs/check.py is run only where its
answer matters. Prints a line for each case; ends with 1 if one isn't as it must be. Takes half a minute.

In tests/all: no words, 600 s."""
import os
import re
import shutil
import signal
import subprocess
import sys
import tempfile
import time
from collections.abc import Callable, Iterator
from pathlib import Path

from lib import TOP, tell

# what stands in for rt: it notes its words and where it was run, and for `ci` does what the test wrote
RT = """#!/bin/sh
echo "$* in $PWD" >>"{room}/asked"
case $1 in
    ci) . "{room}/gate" ;;
    try) echo 'test result: ok. 3 passed; 0 failed; 0 ignored; 0 filtered out' ;;
esac
"""
PASSES = "echo 'rt: one proved'; echo '96 passed, 0 failed'"
FAILS = "echo '95 passed, 1 failed'; exit 3"
BROKEN_OFF = "echo 'rt: one proved'; exit 9"
SILENT = "echo 'rt: one proved'"
KILLED = "kill -9 $$"


class Room:
    """A copy of the repository whose gate takes no time."""

    def __init__(self, folder: Path) -> None:
        self.folder, self.top = folder, folder / "copy"
        unwanted = shutil.ignore_patterns("out", ".git", "__pycache__", "target")
        shutil.copytree(TOP, self.top, ignore=unwanted)
        (self.top / "deltat").write_text(f"#!/bin/sh\ncat '{folder}/log'\n")
        readme = (TOP / "README.md").read_text()
        shown = re.findall(r"```\n(.*?)```\n", readme, re.DOTALL)
        (folder / "log").write_text(next(it for it in shown if "\nend " in it))
        (folder / "bin").mkdir()
        (folder / "bin" / "rt").write_text(RT.format(room=folder))
        (folder / "bin" / "rt").chmod(0o755)
        self.asked = folder / "asked"
        self.pages = self.top / "docs" / "check.py"
        self.pages.rename(folder / "check.py")
        self.look_at_pages(False)

    def look_at_pages(self, really: bool) -> None:
        """Puts docs/check.py in its place, or a script that finds nothing at once."""
        if really:
            shutil.copy2(self.folder / "check.py", self.pages)
        else:
            self.pages.write_text("print('docs/check.py: 0 complaints')\n")

    def start(self, words: list[str], gate: str) -> "subprocess.Popen[str]":
        self.asked.write_text("")
        (self.folder / "gate").write_text(gate)
        path = {**os.environ, "PATH": f"{self.folder / 'bin'}:{os.environ['PATH']}"}
        return subprocess.Popen(words, cwd=self.folder, env=path, stdout=subprocess.PIPE, stderr=subprocess.STDOUT,
                                text=True)

    def ran(self, gate: str, *words: str) -> tuple[int, list[str]]:
        """The status of a command of the copy, and the lines that it wrote."""
        with self.start([str(self.top / words[0]), *words[1:]], gate) as it:
            text, _ = it.communicate(timeout=200)
            return it.returncode, text.splitlines()


def is_told(room: Room, lines: list[str]) -> bool:
    """Whether the first line has the time that figures.md has for the processors of this machine."""
    page = (room.top / "docs" / "figures.md").read_text()
    figures = re.findall(r"^in all (\d+) s, .* on (\d+) processors", page, re.MULTILINE)
    count = len(os.sched_getaffinity(0))
    fitting = [int(seconds) for seconds, number in figures if int(number) <= count]
    told = re.search(rf"about (\d+) minutes on {count} processors", lines[0])
    return told is not None and (not fitting or told[1] == f"{min(fitting) / 60:.0f}")


def whole(room: Room) -> Iterator[tuple[str, bool, str]]:
    room.look_at_pages(True)
    status, lines = room.ran(PASSES, "check")
    room.look_at_pages(False)
    is_right = (status, lines[-1]) == (0, "99 passed, 0 failed")
    yield "all passes, and is counted together", is_right, f"{status}: {lines[-1]}"
    yield "the time is said first", is_told(room, lines), lines[0]
    asked = room.asked.read_text()
    yield "the gate is a plain rt ci at the top", asked == f"ci in {room.top}\n", asked.strip()
    yield "what the gate writes is shown", {"rt: one proved", "96 passed, 0 failed"} <= set(lines), ""
    status, lines = room.ran(PASSES, ".ci/run")
    yield ".ci/run does the same", status == 0 and lines[-1] == "99 passed, 0 failed", f"{status}: {lines[-1]}"
    for name, gate, wanted, last in (
        ("a gate that fails", FAILS, 3, "98 passed, 1 failed"),
        ("a gate that breaks off", BROKEN_OFF, 9, "3 passed, 1 failed"),
        ("a gate that is killed", KILLED, 137, "3 passed, 1 failed"),
        ("a gate that passes nothing", SILENT, 1, "3 passed, 1 failed"),
    ):
        status, lines = room.ran(gate, ".ci/run")
        yield f"{name} is its status", status == wanted and lines[-1] == last, f"{status}: {lines[-1]}"


def spoilt(room: Room, path: str, change: Callable[[str], str], name: str) -> tuple[str, bool, str]:
    """What `./check` says of a file that is spoilt: one of the checks after the gate fails, and it says which file."""
    file = room.top / path
    text = file.read_text()
    file.write_text(change(text))
    try:
        status, lines = room.ran(PASSES, "check")
    finally:
        file.write_text(text)
    is_named = any(Path(path).name in line for line in lines)
    return name, status == 1 and lines[-1] == "98 passed, 1 failed" and is_named, f"{status}: {lines[-1]}"


def pages(room: Room) -> Iterator[tuple[str, bool, str]]:
    room.look_at_pages(True)
    yield spoilt(room, "docs/faq.md", lambda it: it + "\n[nowhere](nowhere.md)\n", "a link that leads nowhere fails")
    room.look_at_pages(False)
    yield spoilt(room, "tools/dtping.py", lambda it: it + "\ndef (:\n", "a script in Python that can't be read fails")
    yield spoilt(room, "release/gate.sh", lambda it: it + "\nif true\n", "a script of sh that can't be read fails")
    yield spoilt(room, "README.md", lambda it: it.replace("\n0 lost 0\n", "\n0 lost 1\n"), "another log fails")
    yield lost(room)


def lost(room: Room) -> tuple[str, bool, str]:
    """A file that isn't there fails its check, and what the gate ended with stays the status."""
    file = room.top / "examples" / "loss-repeat-restart.schedule"
    file.rename(room.folder / "schedule")
    try:
        status, lines = room.ran(FAILS, "check")
    finally:
        (room.folder / "schedule").rename(file)
    is_right = status == 3 and lines[-1] == "97 passed, 2 failed"
    return "a file that isn't there fails, and the gate's status stays", is_right, f"{status}: {lines[-1]}"


def quick(room: Room) -> Iterator[tuple[str, bool, str]]:
    status, lines = room.ran(FAILS, "check", "--quick")
    asked = room.asked.read_text().splitlines()
    yield "quick passes without the gate", status == 0 and lines[-1] == "5 passed, 0 failed", f"{status}: {lines[-1]}"
    yield "quick says its time first", "minutes" in lines[0], lines[0]
    tried = [it for it in asked if it.startswith("try --test in ")]
    yield "quick tries the tests of crates", len(asked) == len(tried) == 2, str(asked)
    status, lines = room.ran(PASSES, "check", "--fast")
    is_idle = not room.asked.read_text()
    yield "other words are refused", status == 2 and "usage: check" in lines[0] and is_idle, str(status)


def without(room: Room) -> Iterator[tuple[str, bool, str]]:
    (room.folder / "bin" / "rt").rename(room.folder / "rt")
    usual = [it for it in os.environ["PATH"].split(":") if not Path(it, "rt").exists()]
    os.environ["PATH"], kept = ":".join(usual), os.environ["PATH"]
    try:
        status, lines = room.ran(PASSES, "check")
    finally:
        os.environ["PATH"] = kept
        (room.folder / "rt").rename(room.folder / "bin" / "rt")
    is_said = any("rt can't be run" in line for line in lines)
    is_right = is_said and (status, lines[-1]) == (127, "3 passed, 1 failed")
    yield "no toolchain is said", is_right, f"{status}: {lines[-1]}"


def interrupted(room: Room) -> Iterator[tuple[str, bool, str]]:
    """Whoever ends `./check` ends the gate."""
    with room.start([str(room.top / ".ci" / "run")], f"echo $$ >'{room.folder}/pid'; exec sleep 100") as it:
        until = time.monotonic() + 20
        while not (room.folder / "pid").exists() and time.monotonic() < until:
            time.sleep(0.05)
        it.send_signal(signal.SIGTERM)
        it.communicate(timeout=20)
    pid = int((room.folder / "pid").read_text())
    yield "ending it ends the gate", it.returncode == 143 and not Path(f"/proc/{pid}").exists(), str(it.returncode)


def main() -> int:
    with tempfile.TemporaryDirectory(prefix="deltat-check-") as folder:
        room = Room(Path(folder).resolve())
        return tell([case for part in (whole, pages, quick, without, interrupted) for case in part(room)])


if __name__ == "__main__":
    sys.exit(main())
