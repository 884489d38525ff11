#!/usr/bin/env python3
"""Runs `rt ci` at the top of a clone and says what its parts take. `bench/gate.py [FOLDER] > LOG`; the log is what
`bench/all --gate-log LOG` reads.

Each line of `rt ci` is written with the seconds since its start before it. Behind its last line stand lines that
begin with `#`: seconds and seconds of processor in all, and those that the host of this machine gave to others
meanwhile; those of each part, and those of the crates that take most, the dearest first. Proofs, tests and edits are at
work side by side, so of a part only processor seconds are told; they are read from /proc twice a second, so what a
process took in its last half second is missing, and counts as other work. So does what `rt` itself takes, which reads
sources for all."""
import contextlib
import os
import pathlib
import resource
import subprocess
import sys
import threading
import time
from collections.abc import Iterator

sys.path.insert(0, str(pathlib.Path(__file__).resolve().parent.parent / "tests"))

from lib import stolen

PARTS = ("proofs", "tests", "edits", "programs")
# those that are a crate's own
OF_A_CRATE = PARTS[:3]
EVERY = 0.5
# how many crates are told
DEAREST = 12


def kind(words: list[str], folder: str) -> str | None:
    """The part that a process is of, by its words and the folder that it works in."""
    name = os.path.basename(words[0])
    if "/rt-edit" in folder:
        return "edits"
    if name == "rattle":
        return "tests" if "--test" in words else "proofs"
    if name in ("clang", "rattle-link", "rattle-x64", "ld.lld", "lld") or "/rt-run" in folder:
        return "programs"
    return None


def crate_of(words: list[str]) -> str:
    """The crate that a process is at work on, or nothing where its words name none."""
    return words[words.index("--crate-name") + 1] if "--crate-name" in words[:-1] else ""


class Taken:
    """Processor seconds of the descendants of a process, each as last seen: its part, its crate, its seconds."""

    def __init__(self) -> None:
        self.seen: dict[tuple[int, int], tuple[str, str, float]] = {}

    def look(self, root: int) -> None:
        above, own = {}, {}
        for entry in os.listdir("/proc"):
            try:
                fields = (
                    pathlib.Path("/proc", entry, "stat").read_text().rpartition(")")[2].split()
                    if entry.isdigit()
                    else None
                )
            except OSError:
                continue
            if fields:
                above[int(entry)] = int(fields[1])
                own[int(entry)] = int(fields[19]), (int(fields[11]) + int(fields[12])) / os.sysconf("SC_CLK_TCK")
        for pid, (started, seconds) in own.items():
            at = pid
            while at in above and at != root:
                at = above[at]
            if at == root and pid != root:
                self.note(pid, started, seconds)

    def note(self, pid: int, started: int, seconds: float) -> None:
        part, crate, _ = self.seen.get((pid, started), ("other", "", 0.0))
        with contextlib.suppress(OSError):
            words = pathlib.Path(f"/proc/{pid}/cmdline").read_bytes().decode(errors="replace").split("\0")
            # (one that is about to end has no words any more)
            if words[0]:
                part, crate = kind(words, os.readlink(f"/proc/{pid}/cwd")) or "other", crate_of(words)
        self.seen[pid, started] = part, crate, seconds

    def of(self, part: str, crate: str | None = None) -> float:
        """The seconds of a part, of one crate alone where it is named."""
        return sum(seconds for of, name, seconds in self.seen.values() if of == part and crate in (None, name))

    def dearest(self) -> Iterator[str]:
        """A line for each of the crates that take most, below a head."""
        rows = [
            (name, [self.of(part, name) for part in OF_A_CRATE])
            for name in {name for _, name, _ in self.seen.values()} - {""}
        ]
        yield f"{'crate':18}" + "".join(f"{it:>8}" for it in (*OF_A_CRATE, "all"))
        for name, seconds in sorted(rows, key=lambda row: -sum(row[1]))[:DEAREST]:
            yield f"{name:18}" + "".join(f"{it:8.0f}" for it in (*seconds, sum(seconds)))


def main() -> int:
    folder = sys.argv[1] if len(sys.argv) > 1 else str(pathlib.Path(__file__).resolve().parent.parent)
    taken, begun, ended, before = Taken(), time.monotonic(), threading.Event(), stolen()
    gate = subprocess.Popen(
        ["rt", "ci"],
        cwd=folder,
        stdin=subprocess.DEVNULL,
        stdout=subprocess.PIPE,
        stderr=subprocess.STDOUT,
        text=True,
        errors="replace",
    )

    def watch() -> None:
        while not ended.wait(EVERY):
            taken.look(gate.pid)

    watching = threading.Thread(target=watch)
    watching.start()
    for line in gate.stdout:
        print(f"{time.monotonic() - begun:8.1f} {line}", end="", flush=True)
    status = gate.wait()
    ended.set()
    watching.join()
    used = resource.getrusage(resource.RUSAGE_CHILDREN)
    whole = used.ru_utime + used.ru_stime
    print(
        f"# in all {time.monotonic() - begun:.0f} s, {whole:.0f} s of processor, on"
        f" {len(os.sched_getaffinity(0))} processors; their host gave {stolen() - before:.0f} s more to other machines"
    )
    for part in PARTS:
        print(f"# {part} {taken.of(part):.0f} s of processor")
    print(f"# other {max(whole - sum(taken.of(it) for it in PARTS), 0):.0f} s of processor")
    for line in taken.dearest():
        print(f"# {line}")
    return status


if __name__ == "__main__":
    sys.exit(main())
