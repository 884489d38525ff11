#!/usr/bin/env python3
"""A bad link between two commands, each in a network namespace of its own.

Usage: tests/wan.py DELAY LOSS DUP REORDER [--again MS] [--serve] [--seconds S] [--packets N] [--seed K] -- COMMAND --
COMMAND

The first command has the address 10.9.0.1, the second 10.9.0.2, and their only link is this process
(a TUN device in each namespace), so it needs root and no module of the kernel. An IP packet takes
DELAY milliseconds to the other side; it is dropped with the probability LOSS, comes twice with the
probability DUP, and is late by up to twice DELAY more with the probability REORDER (each 0 to 1), so
that later ones pass it. Packets of one direction that aren't late stay in their order. With --again each
packet comes once more so many milliseconds after its first copy.

It is bounded: after S seconds (120) or N packets (10,000,000) both commands are stopped, and the
status is 124. Else it is the greater of the two commands' statuses. With --serve the first command is a server,
which is stopped when the second one has ended, and the status is that of the second. The last line on standard
error counts what went, was dropped, repeated and late.

`impaired_link(..)` does the same for a test in Python.

In tests/all: not a test.
"""

import argparse
import ctypes
import fcntl
import heapq
import os
import random
import select
import signal
import struct
import subprocess
import sys
import time
from dataclasses import dataclass, field

ADDRESSES = ("10.9.0.1", "10.9.0.2")
MTU = 1500
TUNSETIFF, IFF_TUN, IFF_NO_PI = 0x400454CA, 0x0001, 0x1000
CLONE_NEWNET = 0x40000000
TIMED_OUT = 124

libc = ctypes.CDLL(None, use_errno=True)


@dataclass(frozen=True)
class Link:
    """What a link does to packets: milliseconds, and probabilities from 0 to 1."""

    delay: float
    loss: float = 0.0
    dup: float = 0.0
    reorder: float = 0.0
    # each packet comes once more so much later; 0: it doesn't
    again: float = 0.0


@dataclass
class Counts:
    went: int = 0
    dropped: int = 0
    repeated: int = 0
    late: int = 0

    def __str__(self) -> str:
        return f"{self.went} packets went, {self.dropped} dropped, {self.repeated} repeated, {self.late} late"


@dataclass
class Bound:
    """When a run is stopped, whatever its commands do."""

    seconds: float = 120.0
    packets: int = 10_000_000


@dataclass
class Outcome:
    statuses: list[int]
    counts: Counts
    stopped: bool = False


def call(function: str, *arguments: int) -> None:
    if getattr(libc, function)(*arguments) != 0:
        error = ctypes.get_errno()
        raise OSError(error, f"{function}: {os.strerror(error)}")


def new_space(address: str) -> tuple[int, int]:
    """A network namespace with that address on a TUN device: the two file descriptors. This process is
    in it afterwards."""
    call("unshare", CLONE_NEWNET)
    space = os.open("/proc/self/ns/net", os.O_RDONLY)
    tun = os.open("/dev/net/tun", os.O_RDWR | os.O_NONBLOCK)
    fcntl.ioctl(tun, TUNSETIFF, struct.pack("16sH22x", b"wan0", IFF_TUN | IFF_NO_PI))
    for words in (
        ["ip", "link", "set", "lo", "up"],
        ["ip", "address", "add", f"{address}/24", "dev", "wan0"],
        ["ip", "link", "set", "wan0", "up", "mtu", str(MTU)],
    ):
        subprocess.run(words, check=True)
    return space, tun


@dataclass
class Carrier:
    """What is under way on a link, in both directions."""

    link: Link
    chance: random.Random
    tuns: list[int]
    counts: Counts = field(default_factory=Counts)
    waiting: list[tuple[float, int, int, bytes]] = field(default_factory=list)

    def accept(self, side: int, packet: bytes, now: float) -> None:
        self.counts.went += 1
        if self.chance.random() < self.link.loss:
            self.counts.dropped += 1
            return
        copies = 2 if self.chance.random() < self.link.dup else 1
        self.counts.repeated += copies - 1
        for _ in range(copies):
            is_late = self.chance.random() < self.link.reorder
            self.counts.late += is_late
            times = self.chance.uniform(1, 3) if is_late else 1
            at = now + self.link.delay / 1000 * times
            # the count keeps the order of packets of one moment
            heapq.heappush(self.waiting, (at, self.counts.went, 1 - side, packet))
        if self.link.again:
            self.counts.repeated += 1
            heapq.heappush(
                self.waiting, (now + (self.link.delay + self.link.again) / 1000, self.counts.went, 1 - side, packet)
            )

    def take(self) -> None:
        """Accepts all that the two sides sent."""
        for side, tun in enumerate(self.tuns):
            while True:
                try:
                    packet = os.read(tun, 65_536)
                except BlockingIOError:
                    break
                self.accept(side, packet, time.monotonic())

    def deliver(self) -> None:
        """Hands over what is due. What finds no room at a side is lost there, as at any device."""
        while self.waiting and self.waiting[0][0] <= time.monotonic():
            _, _, side, packet = heapq.heappop(self.waiting)
            try:
                os.write(self.tuns[side], packet)
            except OSError:
                self.counts.dropped += 1

    def rest(self, most: float) -> None:
        """Waits for a packet or for what is due next, at most so many seconds."""
        due = self.waiting[0][0] - time.monotonic() if self.waiting else most
        select.select(self.tuns, [], [], min(max(due, 0.0), most))


def stop(commands: list[subprocess.Popen[bytes]]) -> None:
    for command in commands:
        if command.poll() is None:
            os.killpg(command.pid, signal.SIGTERM)
    for command in commands:
        try:
            command.wait(2)
        except subprocess.TimeoutExpired:
            os.killpg(command.pid, signal.SIGKILL)
            command.wait()


def impaired_link(commands: list[list[str]], link: Link, bound: Bound, seed: int = 1, serves: bool = False) -> Outcome:
    """Runs two commands over the link until both have ended, or the bound is met; where the first one serves, until
    the second has ended, and its status is 0 then. This process is in the namespace that it was in, afterwards."""
    home = os.open("/proc/self/ns/net", os.O_RDONLY)
    opened, running = [home], []
    try:
        spaces = [new_space(address) for address in ADDRESSES]
        opened += [it for pair in spaces for it in pair]
        for (space, _), command in zip(spaces, commands, strict=True):
            call("setns", space, CLONE_NEWNET)
            running.append(subprocess.Popen(command, start_new_session=True))
        call("setns", home, CLONE_NEWNET)
        carrier = Carrier(link, random.Random(seed), [tun for _, tun in spaces])
        end = time.monotonic() + bound.seconds
        waited_for = running[1:] if serves else running
        while any(it.poll() is None for it in waited_for):
            if time.monotonic() >= end or carrier.counts.went >= bound.packets:
                return Outcome([it.poll() or 0 for it in running], carrier.counts, stopped=True)
            carrier.take()
            carrier.deliver()
            carrier.rest(0.05)
        return Outcome([it.poll() if it in waited_for else 0 for it in running], carrier.counts)
    finally:
        call("setns", home, CLONE_NEWNET)
        stop(running)
        for it in opened:
            os.close(it)


def probability(word: str) -> float:
    value = float(word)
    if not 0 <= value <= 1:
        raise argparse.ArgumentTypeError(f"{word} isn't from 0 to 1")
    return value


def cut_words(words: list[str]) -> tuple[list[str], list[list[str]]]:
    """What stands before the first `--`, and the two commands behind the first and the second."""
    if words.count("--") < 2:
        return words, []
    first = words.index("--")
    second = words.index("--", first + 1)
    return words[:first], [words[first + 1 : second], words[second + 1 :]]


def main(words: list[str]) -> int:
    head, commands = cut_words(words)
    parser = argparse.ArgumentParser(description=__doc__, formatter_class=argparse.RawDescriptionHelpFormatter)
    parser.add_argument("delay", type=float, help="milliseconds")
    for name in ("loss", "dup", "reorder"):
        parser.add_argument(name, type=probability, help="a probability, 0 to 1")
    parser.add_argument("--again", type=float, default=Link.again, metavar="MS")
    parser.add_argument("--serve", action="store_true")
    parser.add_argument("--seconds", type=float, default=Bound.seconds)
    parser.add_argument("--packets", type=int, default=Bound.packets)
    parser.add_argument("--seed", type=int, default=1)
    given = parser.parse_args(head)
    if len(commands) != 2 or not all(commands):
        parser.error("two commands are wanted, each behind a --")
    link = Link(given.delay, given.loss, given.dup, given.reorder, given.again)
    try:
        outcome = impaired_link(commands, link, Bound(given.seconds, given.packets), given.seed, given.serve)
    except (OSError, subprocess.CalledProcessError) as error:
        print(f"wan: {error}", file=sys.stderr)
        return 2
    print(f"wan: {outcome.counts}", file=sys.stderr)
    if outcome.stopped:
        print("wan: stopped", file=sys.stderr)
        return TIMED_OUT
    return max(status if status >= 0 else 128 - status for status in outcome.statuses)


if __name__ == "__main__":
    sys.exit(main(sys.argv[1:]))
