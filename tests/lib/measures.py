"""What processes take of the machine, and what its host takes of it."""
import os
import pathlib
from collections.abc import Sequence


def memory_of(pid: int) -> int:
    """The resident memory of a process, in KiB, or 0."""
    try:
        text = pathlib.Path(f"/proc/{pid}/status").read_text()
    except OSError:
        return 0
    return next((int(it.split()[1]) for it in text.splitlines() if it.startswith("VmRSS:")), 0)


def growth(sizes: Sequence[int]) -> int:
    """By how much the last size is more than that at a third of them."""
    return sizes[-1] - sizes[len(sizes) // 3] if sizes else 0


def stolen() -> float:
    """Seconds of this machine's processors that its host has given to other machines since it began, as Linux counts
    them; nothing where it doesn't tell. A figure of time is that much too great."""
    with open("/proc/stat", encoding="ascii") as counts:
        fields = counts.readline().split()
    return int(fields[8]) / os.sysconf("SC_CLK_TCK") if len(fields) > 8 else 0.0
