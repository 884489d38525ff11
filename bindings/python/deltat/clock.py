"""The clocks of a program's nodes."""

from __future__ import annotations

import time


def now() -> int:
    """Returns the time in ms, of a clock that never steps back and counts while the machine sleeps."""
    return time.clock_gettime_ns(time.CLOCK_BOOTTIME) // 1_000_000


def wall_ns() -> int:
    """Returns the time of day in ns, by which the kernel stamps datagrams. It may be set."""
    return time.time_ns()


def wall() -> int:
    """Returns the time of day in ms."""
    return wall_ns() // 1_000_000
