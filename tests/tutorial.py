#!/usr/bin/env python3
"""Every block of the pages for users is run: README, and some below docs/ (PAGES).

Usage: tests/tutorial.py [PROGRAM] [--page NAME] [--write] [--root FOLDER]

Each page gets a copy of the repository of its own, in which `./deltat` is the program, and its blocks are run in
order, at the top of that copy. With --root the pages are those of the package that is installed in the tree FOLDER,
each gets a copy of the package's folder of pages, and its blocks are run in that tree, as root; what wants Python is
run where the tree has it. A block is told by the words behind its fence:

- `sh`: commands, which have to end with 0.
- `sh first terminal`, `sh second terminal`: commands of one of two terminals. They run while the page goes on;
  the next block of the same terminal waits for their end.
- `text first terminal`, `text second terminal`: what the last commands of that terminal wrote.
- nothing: what an `sh` before it wrote, or a file of examples/.
- `python`: a service over the library's binding, which has to be at work still after SERVED seconds. It is run only
  where `make -C lib` has made the library, or the tree has it.
- `rust`: an example of bindings/rust, which tests/rust.py runs.
- `ini`: a file of release/; `conf`: an example of a file that isn't here; `example`: one of what isn't run here.
- `usage`: the words of tools; `--help` of each has its options.

What is shown has to be what was written, octet for octet. Of what comes from a node, whose moments are the
machine's, the shape is compared: each moment counts as any other, and lines of packets that may go once more on a
busy machine are left out (BUSY). Commands that prove, test or install all of it are not run (NOT_RUN), nor those over
the library where that isn't made, and those of programs that aren't there (WANTED).

Prints a line for each page; ends with 1 where a block isn't as it is shown. With --write the shown blocks of the
pages are written anew. Takes two minutes, nearly all of it waiting for nodes.

In tests/all: PROGRAM, 300 s."""
import argparse
import os
import re
import shlex
import shutil
import signal
import subprocess
import sys
import tempfile
from dataclasses import dataclass
from pathlib import Path

from lib import PROGRAM, TOP

PAGES = [
    "README.md",
    "docs/tutorial.md",
    "docs/parameters.md",
    "docs/operating.md",
    "docs/building.md",
    "docs/library.md",
    "docs/tools.md",
]
# what a page tells people to run and this doesn't: the whole build and its tests, and what changes the machine
NOT_RUN = (
    "./build",
    "./check",
    "rt ci",
    "tests/all",
    "bench/all",
    "sudo ",
    "release/build.sh",
    "release/gate.sh",
    "make -C lib",
)
# reports that come more often, or not at all, where a machine is busy
BUSY = {"put", "resent", "replied", "ignored", "quiet", "unsent"}
SECONDS = 120
RUST = TOP / "bindings" / "rust" / "deltat" / "examples"
# commands that are run only where this is there
WANTED = {"tshark ": "tshark", "tools/sequence.py --svg ": "chromium"}
# commands that want the library
OVER_LIBRARY = ("tools/dtcat.py", "tools/dtping.py", "examples/echo.py")
# how long a service is tried
SERVED = 2
# README is for a first look
MOST_WORDS = {"README.md": 1_200}
# how `Reader.finish` marks commands that ended otherwise than with 0
BADLY = re.compile(r"\((status \d+|stopped after \d+ s)\)\n$")


@dataclass
class Block:
    """A block of a page: the words behind its fence, its text, and the lines of the page that its text takes."""

    words: list[str]
    text: str
    first: int
    last: int

    @property
    def is_run(self) -> bool:
        return self.words[:1] == ["sh"]

    @property
    def terminal(self) -> str:
        return self.words[1] if len(self.words) == 3 and self.words[2] == "terminal" else ""


def blocks(page: str) -> list[Block]:
    """The blocks of a page."""
    found, begun, words = [], 0, []
    lines = page.splitlines(keepends=True)
    for number, line in enumerate(lines, 1):
        if line.startswith("```"):
            if begun:
                found.append(Block(words, "".join(lines[begun : number - 1]), begun + 1, number - 1))
                begun = 0
            else:
                begun, words = number, line[3:].split()
    if begun:
        raise SystemExit(f"the block at line {begun} has no end")
    return found


def is_left_out(text: str) -> bool:
    """Whether these are commands that aren't run here."""
    lines = [it for it in text.splitlines() if it.strip() and not it.startswith("#")]
    return all(it.startswith(NOT_RUN) for it in lines)


def shape(text: str) -> list[str]:
    """What doesn't depend on the moments of a node."""
    kept = []
    for line in text.splitlines():
        words = line.split(" ")
        if words[0].isdigit() and len(words) > 2:
            if words[2] in BUSY:
                continue
            words[0] = "MOMENT"
        elif words[0] == "end" and len(words) == 2:
            words[1] = "MOMENT"
        kept.append(" ".join(words))
    return kept


class Reader:
    """One who does what a page says, in a copy of the repository."""

    def __init__(self, top: Path, program: str) -> None:
        self.top = top
        # what the commands of the page wrote, the last ones first, and whether a node did
        self.outputs: list[tuple[str, bool]] = []
        self.terminals: dict[str, subprocess.Popen[str]] = {}
        self.written: dict[str, str] = {}
        self.ended_badly: list[str] = []
        # terminals whose last commands weren't run
        self.left_out: set[str] = set()
        # where the unit is, and for the page's commands the state folders of nodes
        self.units = self.top / "release"
        self.states = str(self.top / "state")
        self.furnish(program)

    def furnish(self, program: str) -> None:
        shutil.copytree(TOP, self.top, ignore=shutil.ignore_patterns("out", ".git", "__pycache__", "target"))
        (self.top / "deltat").write_text(f'#!/bin/sh\nexec "{program}" "$@"\n')
        (self.top / "deltat").chmod(0o755)
        # where tools look for it
        out = self.top / "crates" / "deltat" / "out"
        out.mkdir()
        (out / "deltat").symlink_to(program)

    def page(self, name: str) -> str:
        return (TOP / name).read_text()

    @property
    def has_library(self) -> bool:
        return (self.top / "lib" / "libdeltat.so.2").exists()

    def has_program(self, name: str) -> bool:
        return bool(shutil.which(name))

    def has_all_for(self, block: Block) -> bool:
        """Whether all is there that a block wants."""
        lacks = any(it in block.text for it in OVER_LIBRARY) and not self.has_library
        return not lacks and all(self.has_program(name) for begun, name in WANTED.items() if begun in block.text)

    def start(self, text: str) -> "subprocess.Popen[str]":
        # (the nodes of each page are new ones)
        places = {**os.environ, "XDG_STATE_HOME": self.states}
        return subprocess.Popen(
            ["bash", "-euc", "set -o pipefail\n" + text],
            cwd=self.top,
            stdin=subprocess.DEVNULL,
            stdout=subprocess.PIPE,
            stderr=subprocess.STDOUT,
            text=True,
            start_new_session=True,
            env=places,
        )

    def service(self, text: str) -> "subprocess.Popen[str] | None":
        """Starts a service in Python, where there is what it needs."""
        if not self.has_library:
            return None
        path = {**os.environ, "PYTHONPATH": str(self.top / "bindings" / "python")}
        return subprocess.Popen([sys.executable, "-c", text], env=path, cwd=self.top, stderr=subprocess.PIPE, text=True)

    def finish(self, process: "subprocess.Popen[str]") -> str:
        """What it wrote, once it has ended; a status other than 0 is written behind that."""
        try:
            text, _ = process.communicate(timeout=SECONDS)
        except subprocess.TimeoutExpired:
            os.killpg(process.pid, signal.SIGKILL)
            text, _ = process.communicate()
            return f"{text}(stopped after {SECONDS} s)\n"
        return text if process.returncode == 0 else f"{text}(status {process.returncode})\n"

    def wait(self, terminal: str) -> None:
        if terminal in self.terminals:
            given = self.written[terminal] = self.finish(self.terminals.pop(terminal))
            if BADLY.search(given):
                self.ended_badly.append(f"the {terminal} terminal: {given[-200:]}")

    def do(self, block: Block) -> str:
        """Runs a block, and returns what is wrong with it, or nothing."""
        if is_left_out(block.text) or not self.has_all_for(block):
            if block.terminal:
                self.left_out.add(block.terminal)
            return ""
        if block.terminal:
            self.left_out.discard(block.terminal)
            self.wait(block.terminal)
            self.terminals[block.terminal] = self.start(block.text)
            return ""
        given = self.finish(self.start(block.text))
        self.outputs.insert(0, (given, bool(re.search(r"deltat (node|trace)\b", block.text))))
        return f"it ended badly: {given[-300:]}" if BADLY.search(given) else ""

    def serve(self, block: Block) -> str:
        """Runs a service for a while, and returns why it ended before, or nothing."""
        process = self.service(block.text)
        if not process:
            return ""
        try:
            _, said = process.communicate(timeout=SERVED)
        except subprocess.TimeoutExpired:
            process.kill()
            process.communicate()
            return ""
        return f"it ended with {process.returncode}: {said[-300:]}"

    def shown(self, block: Block) -> str:
        """What a block shows, as it was written here."""
        if block.terminal:
            self.wait(block.terminal)
            return self.written.get(block.terminal, "")
        return self.outputs[0][0] if self.outputs else ""

    def is_as_shown(self, block: Block) -> bool:
        if block.terminal:
            return shape(self.shown(block)) == shape(block.text)
        return any(
            shape(given) == shape(block.text) if is_live else given == block.text for given, is_live in self.outputs
        )

    def is_a_file(self, block: Block, folder: Path) -> bool:
        return any(it.read_text(errors="replace") == block.text for it in folder.rglob("*") if it.is_file())

    def misses(self, block: Block) -> str:
        """The options of a usage that the tool's help hasn't got."""
        words = [it for line in block.text.splitlines() for it in re.findall(r"[\w./-]+", line.partition("|")[0])]
        helps = self.finish(self.start(f"{words[0]} --help"))
        lost = [it for it in words if it.startswith("--") and it not in helps]
        return f"{words[0]} --help has no {' '.join(lost)}" if lost or BADLY.search(helps) else ""

    def close(self) -> list[str]:
        """Waits for both terminals; which of their commands ended badly."""
        for terminal in list(self.terminals):
            self.wait(terminal)
        return self.ended_badly


def entering(root: Path, *words: str) -> list[str]:
    """A command in a tree, which has a /proc for it: state folders know the boot by that, and rustc itself."""
    enters = 'mount -t proc proc "$0/proc" && exec chroot "$0" "$@"'
    return ["unshare", "--mount", "--propagation", "private", "sh", "-c", enters, str(root), *words]


class Installed(Reader):
    """One who does what a page says in a tree where the package is installed, in a copy of its pages."""

    def __init__(self, root: Path) -> None:
        self.root = root
        super().__init__(root / "root" / "copy", "")
        self.units = root / "lib" / "systemd" / "system"
        self.states = "/root/copy/state"

    def furnish(self, program: str) -> None:
        shutil.rmtree(self.top, ignore_errors=True)
        subprocess.run(["chroot", str(self.root), "cp", "-rL", "/usr/share/doc/deltat", "/root/copy"], check=True)

    def page(self, name: str) -> str:
        return (self.top / name).read_text()

    @property
    def has_library(self) -> bool:
        return self.has_program("python3") and bool(list(self.root.glob("usr/lib/*/libdeltat.so.2")))

    def has_program(self, name: str) -> bool:
        return (self.root / "usr/bin" / name).exists()

    def start(self, text: str) -> "subprocess.Popen[str]":
        words = entering(self.root, "bash", "-euc", f"set -o pipefail; cd /root/copy\n{text}")
        return super().start(f"exec {shlex.join(words)}")

    def service(self, text: str) -> "subprocess.Popen[str] | None":
        if not self.has_library:
            return None
        # in the page's copy, so that no page has the state folder of another one's service
        words = entering(self.root, "sh", "-c", 'cd /root/copy && exec python3 -c "$0"', text)
        return subprocess.Popen(words, stderr=subprocess.PIPE, text=True)


def why_not(reader: Reader, block: Block) -> str:
    """What is wrong with a block, or nothing."""
    if block.is_run:
        return reader.do(block)
    if block.words == ["python"]:
        return reader.serve(block)
    if block.words in (["conf"], ["example"]):
        return ""
    if block.words == ["usage"]:
        return reader.misses(block)
    if block.words == ["rust"]:
        return "" if reader.is_a_file(block, RUST) else "no example of bindings/rust has this text"
    if block.words == ["ini"]:
        return "" if reader.is_a_file(block, reader.units) else "no file has this text"
    if block.words and not block.terminal:
        return f"nothing is known of blocks of {' '.join(block.words)}"
    if (
        block.terminal
        and block.terminal in reader.left_out
        or reader.is_as_shown(block)
        or not block.terminal
        and reader.is_a_file(block, reader.top / "examples")
    ):
        return ""
    return f"it was:\n{reader.shown(block)}"


def read(name: str, reader: Reader, writes: bool) -> list[str]:
    """Follows a page, and returns what isn't as it says. Where it writes, the page gets what was written."""
    text = reader.page(name)
    lines, wrong = text.splitlines(keepends=True), []
    # (a package's page says of some links where they lead)
    if not isinstance(reader, Installed) and len(text.split()) > MOST_WORDS.get(name, len(text)):
        wrong.append(f"{name}: {len(text.split())} words, and {MOST_WORDS[name]} are the most")
    anew: list[tuple[Block, str]] = []
    for block in blocks(text):
        why = why_not(reader, block)
        if why and writes and not block.is_run and (block.terminal or not block.words):
            anew.append((block, reader.shown(block)))
        elif why:
            wrong.append(f"{name}:{block.first}: {why}")
    wrong += [f"{name}: {it}" for it in reader.close()]
    for block, shown in reversed(anew):
        lines[block.first - 1 : block.last] = [shown]
    if anew:
        (TOP / name).write_text("".join(lines))
    return wrong


def main() -> int:
    reads = argparse.ArgumentParser(description="Runs every block of the pages for users.")
    reads.add_argument("program", nargs="?", default=str(PROGRAM), help="the program that is tried")
    reads.add_argument("--page", choices=PAGES, action="append", help="this page alone")
    reads.add_argument("--write", action="store_true", help="write the shown blocks anew")
    reads.add_argument("--root", type=Path, metavar="FOLDER", help="the tree in which the package is installed")
    given = reads.parse_args()
    if given.root and given.write:
        reads.error("--write goes without --root")
    failed = 0
    for name in given.page or [it for it in PAGES if (TOP / it).exists()]:
        with tempfile.TemporaryDirectory() as folder:
            reader = (
                Installed(given.root.resolve())
                if given.root
                else Reader(Path(folder) / "copy", os.path.abspath(given.program))
            )
            wrong = read(name, reader, given.write)
        count = len(blocks((TOP / name).read_text()))
        print(f"{name}: {count} blocks, {'as shown' if not wrong else 'FAILED'}")
        print("".join(f"  {it}\n" for it in wrong), end="", flush=True)
        failed += bool(wrong)
    print("all pages are as shown" if not failed else f"{failed} pages aren't as shown")
    return 1 if failed else 0


if __name__ == "__main__":
    sys.exit(main())
