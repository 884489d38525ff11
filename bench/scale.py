#!/usr/bin/env python3
"""What many flows, and many octets of a flow, cost two nodes on this machine's loopback. `bench/scale.py [PROGRAM]`.

- flows: node 1 sends one message of 16 octets on each of 1,000, 10,000 and 100,000 flows to node 2, 2,000 a second.
  Records stand for minutes, so at the end all of them stand at either end, with the octets unread. For rooms of 64
  and of 4,096 octets: the memory of a flow at either end (what the process has above that of no flow), and the
  processor's time of a message, all that a node does for it. A row that wants more memory than the machine has free is
  left out, and named.
- octets: node 1 sends 100,000 and 1,000,000 octets on each of 1 and 8 flows, in messages of 10,000 octets that node 2
  reads as they come: the greatest memory of either node, and the processor's time of a megabyte. That of node 1 has
  its script, of which the octets are a part.

Behind each part stands what grew: how many times as much a flow, or an octet, costs where there are ten times as
many; 1.0 is linear. Ends with 1 where not all was acknowledged in time."""
import os
import subprocess
import sys
import tempfile
import time

sys.path.insert(0, os.path.join(os.path.dirname(os.path.abspath(__file__)), "..", "tests"))

from lib import HOST, own_port, params, program, start

FLOWS = (1_000, 10_000, 100_000)
ROOMS = (64, 4096)
A_SECOND = 2_000
MESSAGE = "ab" * 16
# records stand for minutes: longer than a row takes. rto is above what a turn of a busy machine takes
LONG = "60000 60000 200 2000 4000"
PIECE = 10_000
OCTETS = (100_000, 1_000_000)
OF_OCTETS = (1, 8)
PIECE_EACH = 100
FIRST = 500
MOST_SECONDS = 120
# octets of memory that a flow is taken to want, for each octet of its rooms, before it is measured
WANTED = 6
TICKS = os.sysconf("SC_CLK_TCK")


class Node:
    """A node, its log in a file, and what it costs."""

    def __init__(self, path: str, script: str, log: str) -> None:
        self.log = log
        with open(log, "wb") as out:
            self.process: subprocess.Popen[bytes] = start(path, script, out=out, err=subprocess.DEVNULL)
        self.read = 0
        self.settled = 0
        self.refused = 0

    def look(self) -> None:
        """Counts the octets that were acknowledged so far, and the sends that were refused."""
        with open(self.log, "rb") as it:
            it.seek(self.read)
            text = it.read()
        text = text[:text.rfind(b"\n") + 1]
        self.read += len(text)
        self.settled += sum(int(line.split()[4]) for line in text.splitlines() if b" settled " in line)
        self.refused += text.count(b" refused ")

    def memory(self) -> int:
        """The greatest resident memory so far, in octets."""
        with open(f"/proc/{self.process.pid}/status", encoding="ascii") as it:
            return next(int(line.split()[1]) * 1024 for line in it if line.startswith("VmHWM:"))

    def seconds(self) -> float:
        """The seconds of a processor so far."""
        with open(f"/proc/{self.process.pid}/stat", encoding="ascii") as it:
            fields = it.read().rpartition(")")[2].split()
        return (int(fields[11]) + int(fields[12])) / TICKS

    def end(self) -> None:
        self.process.kill()
        self.process.wait()


class Row:
    """A run of two nodes, of which the first sends messages of one size: what each of them cost, how many sends were
    refused, and whether all others were acknowledged."""

    def __init__(self, path: str, line: str, commands: tuple[list[str], list[str]], size: int) -> None:
        ports = own_port(), own_port()
        with tempfile.TemporaryDirectory(prefix="deltat-scale-") as folder:
            nodes = [Node(path, self.script(line, me, ports, commands[me - 1]), f"{folder}/{me}") for me in (2, 1)]
            receiver, sender = nodes
            until = time.monotonic() + MOST_SECONDS
            try:
                while (
                    sender.settled < (len(commands[0]) - sender.refused) * size
                    and time.monotonic() < until
                    and sender.process.poll() is None
                ):
                    time.sleep(0.1)
                    sender.look()
                self.refused = sender.refused
                self.is_whole = 0 < sender.settled == (len(commands[0]) - sender.refused) * size
                self.memory = sender.memory(), receiver.memory()
                self.seconds = sender.seconds(), receiver.seconds()
            finally:
                for it in nodes:
                    it.end()

    def note(self) -> str:
        """What stands behind the figures."""
        return (f"  {self.refused} sends refused" if self.refused else "") + ("" if self.is_whole else "  not whole")

    @staticmethod
    def script(line: str, me: int, ports: tuple[int, int], commands: list[str]) -> str:
        head = [
            line,
            f"me {me} first",
            f"local {HOST}:{ports[me - 1]}",
            f"peer 1 {HOST}:{ports[2 - me]} 50 0",
            f"route {3 - me} 1",
            "shelf 64",
            "go",
        ]
        return "\n".join([*head, *commands, "at 600000 stop"]) + "\n"


def of_flows(path: str, room: int, count: int) -> Row:
    sends = [
        f"at {FIRST + number * 1000 // A_SECOND} send 1:{number // 50_000}>2:{number % 50_000} be {MESSAGE}"
        for number in range(count)
    ]
    return Row(path, params(64, room, room, LONG), (sends, []), len(MESSAGE) // 2)


def of_octets(path: str, flows: int, octets: int) -> Row:
    octet = "61" * PIECE
    moments = [FIRST + number * PIECE_EACH for number in range(octets // PIECE)]
    sends = [f"at {at} send 1:{flow}>2:{flow} be {octet}" for at in moments for flow in range(flows)]
    reads = [
        f"at {at} read 1:{flow}>2:{flow} 65536"
        for at in range(FIRST, moments[-1] + 30_000, PIECE_EACH // 4)
        for flow in range(flows)
    ]
    return Row(path, params(1442, 65_536, 65_536, LONG), (sends, reads), PIECE)


def free_memory() -> int:
    """What the machine can hand out, in octets."""
    with open("/proc/meminfo", encoding="ascii") as it:
        return next(int(line.split()[1]) * 1024 for line in it if line.startswith("MemAvailable:"))


def factors(names: str, before: list[float], after: list[float]) -> None:
    """What grew, of the sender and the receiver each."""
    print(
        f"    {names}: {', '.join(f'{new / old:.2f}' if old else '-' for old, new in zip(before, after))} times as much"
        " as in the row before"
    )


def measure_flows(path: str) -> bool:
    is_whole = True
    print("room    flows  KiB a flow: sender  receiver  microseconds a message: sender  receiver")
    for room in ROOMS:
        empty = of_flows(path, room, 1)
        before: list[float] = []
        for count in FLOWS:
            if free_memory() < 2 * count * room * WANTED + (1 << 30):
                print(
                    f"{room:4}  {count:7}  left out: it may want {2 * count * room * WANTED / 1e9:.1f} GB of memory,"
                    " and one more has to be left"
                )
                continue
            row = of_flows(path, room, count)
            memory = [(mine - none) / count / 1024 for mine, none in zip(row.memory, empty.memory)]
            seconds = [it / count * 1e6 for it in row.seconds]
            print(
                (
                    f"{room:4}  {count:7}  {memory[0]:18.2f}  {memory[1]:8.2f}  {seconds[0]:30.0f} "
                    f" {seconds[1]:8.0f}{row.note()}"
                ),
                flush=True,
            )
            if before:
                factors("a flow's memory, a message's time", before, [*memory, *seconds])
            before, is_whole = [*memory, *seconds], is_whole and row.is_whole
    return is_whole


def measure_octets(path: str) -> bool:
    is_whole = True
    print("flows  octets a flow  greatest MB: sender  receiver  seconds a megabyte: sender  receiver")
    for flows in OF_OCTETS:
        before: list[float] = []
        for octets in OCTETS:
            row = of_octets(path, flows, octets)
            memory, seconds = [it / 1e6 for it in row.memory], [it / (flows * octets) * 1e6 for it in row.seconds]
            print(
                (
                    f"{flows:5}  {octets:13}  {memory[0]:19.1f}  {memory[1]:8.1f}  {seconds[0]:26.3f} "
                    f" {seconds[1]:8.3f}{row.note()}"
                ),
                flush=True,
            )
            if before:
                factors("all memory, an octet's time", before, [*memory, *seconds])
            before, is_whole = [*memory, *seconds], is_whole and row.is_whole
    return is_whole


def main() -> int:
    path = program()
    if not os.access(path, os.X_OK):
        print(f"there is no program {path}: ./build makes it", file=sys.stderr)
        return 2
    # both parts, whatever the first one says
    return 0 if all([measure_flows(path), measure_octets(path)]) else 1


if __name__ == "__main__":
    sys.exit(main())
