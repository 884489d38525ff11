"""Sockets and ports of this machine, and what passes between two nodes."""
import pathlib
import random
import select
import socket
import threading
import time
from collections.abc import Callable, Sequence
from random import Random

HOST = "127.0.0.1"
HANDED_OUT: set[int] = set()


def bound() -> socket.socket:
    """A socket at a port that the machine chooses."""
    it = socket.socket(socket.AF_INET, socket.SOCK_DGRAM)
    it.setsockopt(socket.SOL_SOCKET, socket.SO_RCVBUF, 1 << 22)
    it.bind((HOST, 0))
    return it


def free_port() -> int:
    with bound() as it:
        return int(it.getsockname()[1])


def own_port() -> int:
    """A port that nobody has, below those that machines choose by themselves, and handed out once: for nodes that run
    side by side."""
    while True:
        port = random.randrange(12_000, 32_000)
        with socket.socket(socket.AF_INET, socket.SOCK_DGRAM) as it:
            try:
                it.bind((HOST, port))
            except OSError:
                continue
        if port not in HANDED_OUT:
            HANDED_OUT.add(port)
            return port


def is_up(port: int) -> bool:
    """Whether some process has bound a socket for datagrams to that port. Nothing is bound to find out."""
    lines = pathlib.Path("/proc/net/udp").read_text().splitlines()[1:]
    return any(it.split()[1].endswith(f":{port:04X}") for it in lines)


def relay(
    chance: Random, ends: Sequence[socket.socket], ports: Sequence[int], until: float, told: list[int]
) -> None:
    """Passes datagrams from each end to the port of the other node, and drops and repeats some, until that moment;
    told counts those that were dropped, passed and repeated."""
    while time.monotonic() < until:
        for at in select.select(ends, [], [], 0.05)[0]:
            octets, _ = at.recvfrom(65536)
            other = 1 - ends.index(at)
            kind = chance.random()
            copies = 0 if kind < 0.1 else 2 if kind < 0.25 else 1
            told[copies] += 1
            for _ in range(copies):
                ends[other].sendto(octets, (HOST, ports[other]))


class Between:
    """Two sockets, one for each of two nodes, and what passes from one node to the other: as often as the rule says of
    the node that it comes from and its octets."""

    def __init__(self, rule: Callable[[int, bytes], int]) -> None:
        self.rule = rule
        self.ends = [bound(), bound()]
        self.nodes = [own_port(), own_port()]
        self.passed = [0, 0]
        self.over = threading.Event()
        self.thread = threading.Thread(target=self.run)

    def port(self, node: int) -> int:
        """Where node 1 or 2 sends to."""
        return int(self.ends[node - 1].getsockname()[1])

    def run(self) -> None:
        while not self.over.is_set():
            for end in select.select(self.ends, [], [], 0.02)[0]:
                octets, _ = end.recvfrom(65_536)
                at = self.ends.index(end)
                for _ in range(self.rule(at + 1, octets)):
                    self.passed[at] += 1
                    self.ends[1 - at].sendto(octets, (HOST, self.nodes[1 - at]))

    def __enter__(self) -> "Between":
        self.thread.start()
        return self

    def __exit__(self, *_: object) -> None:
        self.over.set()
        self.thread.join()
        for it in self.ends:
            it.close()
