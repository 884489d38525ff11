#!/usr/bin/env python3
"""Sends lines of standard input to another node as messages, and writes messages that arrive as lines.

    tools/dtcat.py 1@4001 2@4002                    one end, on this machine
    tools/dtcat.py 2@4002 1@4001                    the other one
    seq 1000 | tools/dtcat.py 1@10.0.0.1:4001 2@10.0.0.2:4001

Each line arrives at most once, whole, and in order. Pass the same --delay and --round-trip at both ends. With --whole
all of standard input is one message of at most 65,536 octets, and messages are written as they are. The node has a
state folder: a start waits for the rest of the quiet time since the last datagram of the run before (the quiet time is
half a second with the usual delays).

It ends when standard input has ended and all that was sent is acknowledged or given up, and --linger SECONDS later.
With --listen it sends nothing and runs until it is interrupted. Statuses: 0 all was acknowledged; 1 something is
uncertain, and standard error has how many octets: each was delivered once or not at all; 2 the words are wrong, or the
library, the state folder or the port can't be used."""
import argparse
import os
import select
import sys
import time

from deltat_tools import live

MOST = 65_536


def arguments() -> argparse.Namespace:
    it = argparse.ArgumentParser(description=__doc__, formatter_class=argparse.RawDescriptionHelpFormatter)
    live.add_words(it)
    it.add_argument("--whole", action="store_true", help="all of standard input is one message")
    it.add_argument("--listen", action="store_true", help="send nothing, and go on until it is interrupted")
    it.add_argument("--linger", type=float, default=0, metavar="SECONDS", help="go on for so long behind the end (0)")
    return it.parse_args()


class Input:
    """Messages from standard input, as they come."""

    def __init__(self, is_whole: bool, is_ended: bool) -> None:
        self.is_whole, self.is_ended, self.octets = is_whole, is_ended, b""

    def more(self) -> list[bytes]:
        """The messages that are whole now. It waits for nothing."""
        if self.is_ended or len(self.octets) > 4 * MOST or not select.select([sys.stdin], [], [], 0)[0]:
            return []
        piece = os.read(sys.stdin.fileno(), MOST)
        self.is_ended = not piece
        self.octets += piece
        if self.is_whole:
            lines, rest = ([self.octets] if self.is_ended else []), b"" if self.is_ended else self.octets
        else:
            *lines, rest = self.octets.split(b"\n")
            if self.is_ended and rest:
                lines, rest = [*lines, rest], b""
        self.octets = rest
        return [line[at : at + MOST] for line in lines for at in range(0, len(line), MOST)]


def write(messages: list, is_whole: bool) -> None:
    for it in messages:
        sys.stdout.buffer.write(it.octets + (b"" if is_whole else b"\n"))
    if messages:
        sys.stdout.buffer.flush()


def send(end: live.Live, waiting: list[bytes]) -> None:
    """Sends as many as there is room for."""
    while waiting:
        try:
            end.udp.send(end.flow, waiting[0])
        except (end.deltat.Full, end.deltat.Quiet):
            return
        waiting.pop(0)


def talk(end: live.Live, asked: argparse.Namespace) -> int:
    given, waiting, until = Input(asked.whole, asked.listen), [], None
    while True:
        if len(waiting) < 1000:
            waiting += given.more()
        send(end, waiting)
        write(end.udp.poll(0.01), asked.whole)
        end.listen()
        if asked.listen or not (given.is_ended and not waiting and end.is_settled):
            continue
        until = until or time.monotonic() + asked.linger
        if time.monotonic() >= until:
            break
    if end.uncertain:
        print(
            f"dtcat.py: {end.uncertain} of {end.queued} octets are uncertain: each was delivered once or not at all",
            file=sys.stderr,
        )
    return 1 if end.uncertain else 0


def main() -> int:
    asked = arguments()
    try:
        with live.opened(asked) as end:
            return talk(end, asked)
    except KeyboardInterrupt:
        return 0
    except (OSError, ValueError) as why:
        print(f"dtcat.py: {why}", file=sys.stderr)
        return 2


if __name__ == "__main__":
    sys.exit(main())
