#!/usr/bin/env python3
"""Between a board's UART (a unix socket of QEMU) and a node over UDP, or one over another line. Both ways it loses,
repeats and delays datagrams, and on the way to a line it changes octets.

`bridge.py SOCKET LOCAL-PORT NODE-PORT [--loss PART] [--seconds S] [--seed N]`: a PART of the datagrams is lost, half as
many arrive twice, a third as many are spoilt. Each is under way for at most 80 ms, so a charge of 200 ms covers a
bridge that is held up for 100. Datagrams are stuffed and have their CRC-32, as in line.c. At its end it prints what it
did."""
from __future__ import annotations

import argparse
import array
import fcntl
import heapq
import itertools
import os
import random
import select
import socket
import sys
import termios
import time
import zlib

MOST_LATE, MOST_HELD, MOST_WAIT = 0.08, 0.1, 0.02
LONGEST_RUN = 254


def stuff(octets: bytes) -> bytes:
    """The octets without a 0 (COBS)."""
    out, runs = bytearray(), octets.split(b"\0")
    for at, run in enumerate(runs):
        is_last = at == len(runs) - 1
        while len(run) > LONGEST_RUN or len(run) == LONGEST_RUN and not is_last:
            out += bytes([LONGEST_RUN + 1]) + run[:LONGEST_RUN]
            run = run[LONGEST_RUN:]
        out += bytes([len(run) + 1]) + run
    return bytes(out)


def unstuff(octets: bytes) -> bytes:
    """The octets that were stuffed; none where these weren't."""
    out, at = bytearray(), 0
    while at < len(octets):
        count = octets[at]
        if count == 0 or at + count > len(octets):
            return b""
        out += octets[at + 1 : at + count]
        at += count
        if count <= LONGEST_RUN and at < len(octets):
            out.append(0)
    return bytes(out)


class Line:
    """Datagrams on a line: each stuffed with its CRC-32 behind it, between octets 0. The file is a socket or a
    terminal, and stays its owner's."""

    def __init__(self, file: int) -> None:
        self.file, self.had, self.spoilt = file, b"", 0

    def fileno(self) -> int:
        return self.file

    def unread(self) -> int:
        """Octets that were written and that the other side hasn't read yet."""
        count = array.array("i", [0])
        fcntl.ioctl(self.file, termios.TIOCOUTQ, count)
        return count[0]

    def take(self) -> list[bytes] | None:
        """The datagrams that have become whole; None where the other side is gone."""
        octets = os.read(self.file, 4096)
        *whole, self.had = (self.had + octets).split(b"\0")
        found = []
        for it in filter(None, whole):
            datagram = unstuff(it)
            if len(datagram) > 4 and zlib.crc32(datagram[:-4]).to_bytes(4, "little") == datagram[-4:]:
                found.append(datagram[:-4])
            else:
                self.spoilt += 1
        return found if octets else None

    def put(self, datagram: bytes, flips: random.Random | None) -> None:
        """Writes a datagram, with one bit changed where `flips` says which."""
        out = bytearray(b"\0" + stuff(datagram + zlib.crc32(datagram).to_bytes(4, "little")) + b"\0")
        if flips:
            out[flips.randrange(len(out))] ^= 1 << flips.randrange(8)
        while out:
            del out[: os.write(self.file, out)]


class Udp:
    """Datagrams to a node over UDP. UDP has a check of its own, so none is changed."""

    def __init__(self, local: int, node: int) -> None:
        self.node, self.spoilt = node, 0
        self.socket = socket.socket(socket.AF_INET, socket.SOCK_DGRAM)
        self.socket.bind(("127.0.0.1", local))

    def fileno(self) -> int:
        return self.socket.fileno()

    def take(self) -> list[bytes] | None:
        return [self.socket.recv(9000)]

    def put(self, datagram: bytes, flips: random.Random | None) -> None:
        del flips
        self.socket.sendto(datagram, ("127.0.0.1", self.node))


class Bridge:
    """Between the board's line and another end. `counts` says what it did."""

    def __init__(self, board: Line, other: Line | Udp, loss: float, seed: int) -> None:
        self.board, self.ends = board, (board, other)
        self.loss, self.chance = loss, random.Random(seed)
        self.late: list[tuple[float, int, int, bytes]] = []
        self.number = itertools.count()
        self.read_at = self.turned_at = time.monotonic()
        self.counts = {"up": 0, "down": 0, "lost": 0, "twice": 0, "spoilt": 0, "too late": 0, "held up": 0}

    def under_way(self, to: int, datagram: bytes) -> None:
        """A datagram begins its way to the end 0 (the board) or 1."""
        self.counts["up" if to else "down"] += 1
        copies = self.chance.choices([0, 1, 2], [self.loss, 1 - 1.5 * self.loss, self.loss / 2])[0]
        self.counts["lost"] += copies == 0
        self.counts["twice"] += copies == 2
        for _ in range(copies):
            due = time.monotonic() + self.chance.random() * MOST_LATE
            heapq.heappush(self.late, (due, next(self.number), to, datagram))

    def hand_over(self, to: int, datagram: bytes) -> None:
        is_line = isinstance(self.ends[to], Line)
        is_spoilt = is_line and self.chance.random() < self.loss / 3
        self.counts["spoilt"] += is_spoilt
        self.ends[to].put(datagram, self.chance if is_spoilt else None)

    def watch(self) -> None:
        """Counts when the bridge or the board was held up, so that a datagram may have been under way for longer than
        the charge covers, and nobody sees it."""
        now = time.monotonic()
        if self.board.unread() == 0:
            self.read_at = now
        if max(now - self.turned_at, now - self.read_at) > MOST_WAIT + MOST_HELD:
            self.counts["held up"] += 1
            self.read_at = now
        self.turned_at = now

    def turn(self) -> bool:
        """Waits for what arrives, hands over what is due; whether both ends are still there. What it would hand over
        too late, since it was held up itself, is lost: the charge doesn't cover more."""
        self.watch()
        wait = max(self.late[0][0] - time.monotonic(), 0) if self.late else MOST_WAIT
        ready, _, _ = select.select(self.ends, [], [], min(wait, MOST_WAIT))
        for at, end in enumerate(self.ends):
            found = end.take() if end in ready else []
            if found is None:
                return False
            for it in found:
                self.under_way(1 - at, it)
        while self.late and self.late[0][0] <= time.monotonic():
            due, _, to, datagram = heapq.heappop(self.late)
            if time.monotonic() - due > MOST_HELD:
                self.counts["too late"] += 1
            else:
                self.hand_over(to, datagram)
        return True


def connected(path: str, seconds: float = 20) -> socket.socket:
    """The line of a board that is starting."""
    begun, line = time.monotonic(), socket.socket(socket.AF_UNIX)
    while line.connect_ex(path):
        if time.monotonic() - begun > seconds:
            sys.exit(f"bridge.py: {path}: nobody listens; start the board first")
        time.sleep(0.05)
    return line


def main() -> int:
    reads = argparse.ArgumentParser(description=__doc__, formatter_class=argparse.RawDescriptionHelpFormatter)
    reads.add_argument("line", metavar="SOCKET")
    reads.add_argument("local", type=int, metavar="LOCAL-PORT")
    reads.add_argument("node", type=int, metavar="NODE-PORT")
    reads.add_argument("--loss", type=float, default=0.1)
    reads.add_argument("--seconds", type=float, default=60)
    reads.add_argument("--seed", type=int, default=1)
    given = reads.parse_args()
    line, begun = connected(given.line), time.monotonic()
    bridge = Bridge(Line(line.fileno()), Udp(given.local, given.node), given.loss, given.seed)
    try:
        while time.monotonic() - begun < given.seconds and bridge.turn():
            pass
    except (BrokenPipeError, ConnectionResetError):
        pass  # the board ended
    print(bridge.counts, *(f"arrived spoilt: {it.spoilt}" for it in bridge.ends[:1]))
    return 0


if __name__ == "__main__":
    sys.exit(main())
