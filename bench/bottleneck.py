#!/usr/bin/env python3
"""What a bottleneck carries, by our driver and by TCP, alone and beside each other: `bench/bottleneck.py`.

A link of 100 Mbit/s and 20 ms each way between two network namespaces (tests/wan.py; it needs root), with a queue of 8,
40 and 500 ms each; its carrier is tests/watch/relay.c, with whole packets. The ends are tests/watch/ends.c, with calls
of 32 KiB, 512 under way, and sockets of TCP.

  alone   16 MiB: the seconds of ours, of TCP with cubic and with bbr; how many of our packets were crowded out
  two     two clients of ours to one service, --seconds each: megabytes a second of each
  cubic   one of ours beside one flow of TCP with cubic, --seconds
  bbr     the same beside bbr, if the kernel has it

The figures are of this machine under its load of now. Ends with 77 without root, a compiler or an archive."""
import argparse
import os
import pathlib
import socket
import subprocess
import sys
import tempfile
import threading
import time
from collections.abc import Iterator
from contextlib import contextmanager
from typing import NamedTuple

sys.path.insert(0, str(pathlib.Path(__file__).resolve().parent.parent / "tests"))
import wan  # noqa: E402
from lib import skip  # noqa: E402
from watch import ARCHIVES, COMPILER, Programs, ended  # noqa: E402

RATE, DELAY = 100, 20_000
OCTETS = 16 << 20
PORT = 5001
BOTH = {"mpl": 800, "r": 1200, "rto": 150, "charge": 300}
LOAD = {"flows": 64, "depth": 8, "octets": 32768}
KNOWN = pathlib.Path("/proc/sys/net/ipv4/tcp_available_congestion_control").read_text().split()


class Carried(NamedTuple):
    """What one sender brought over in how many seconds."""

    octets: int
    seconds: float

    def __str__(self) -> str:
        return f"{self.octets / 1e6 / max(self.seconds, 1e-3):.2f} MB/s"


# --- TCP, in processes of their own, which are in a namespace


def tcp_serve() -> None:
    """Reads all that is sent, and answers each connection at its end with one octet."""
    with socket.create_server((wan.ADDRESSES[0], PORT)) as server:
        print("ready", flush=True)
        while True:
            threading.Thread(target=tcp_take, args=(server.accept()[0],), daemon=True).start()


def tcp_take(it: socket.socket) -> None:
    with it:
        while it.recv(1 << 18):
            pass
        it.sendall(b"!")


def tcp_send(how: str, octets: int, seconds: float) -> None:
    """Sends so many octets, or for so many seconds, and prints both when they were read."""
    with socket.socket() as it:
        it.setsockopt(socket.IPPROTO_TCP, socket.TCP_CONGESTION, how.encode())
        print("ready", flush=True)
        begun = time.monotonic()
        it.connect((wan.ADDRESSES[0], PORT))
        sent, block = 0, bytes(1 << 16)
        while sent < octets and time.monotonic() - begun < seconds:
            sent += it.send(block[: octets - sent])
        it.shutdown(socket.SHUT_WR)
        it.recv(1)
        print("octets", sent, "us", int(1e6 * (time.monotonic() - begun)), flush=True)


# --- the link


class Place:
    """Two namespaces and the link between them."""

    def __init__(self, programs: Programs, queue_ms: int, loss: int, seed: int) -> None:
        self.programs, self.running = programs, list[subprocess.Popen[str]]()
        self.home = os.open("/proc/self/ns/net", os.O_RDONLY)
        try:
            self.spaces = [wan.new_space(it) for it in wan.ADDRESSES]
        finally:
            wan.call("setns", self.home, wan.CLONE_NEWNET)
        tuns = [tun for _, tun in self.spaces]
        keys = {"tun_a": tuns[0], "tun_b": tuns[1], "delay": DELAY, "rate": RATE, "lose": loss}
        keys |= {"queue": queue_ms * RATE * 125}
        words = [str(programs.folder / "relay"), *(f"{key}={value}" for key, value in keys.items()), f"seed={seed}"]
        self.relay = subprocess.Popen(words, stdout=subprocess.PIPE, text=True, pass_fds=tuns)
        assert self.relay.stdout and self.relay.stdout.readline() == "ready\n"

    def start(self, side: int, words: list[str]) -> subprocess.Popen[str]:
        wan.call("setns", self.spaces[side][0], wan.CLONE_NEWNET)
        try:
            it = subprocess.Popen(words, stdout=subprocess.PIPE, text=True)
        finally:
            wan.call("setns", self.home, wan.CLONE_NEWNET)
        self.running.append(it)
        assert it.stdout and it.stdout.readline() == "ready\n", f"{words} doesn't start"
        return it

    def ends(self, side: int, role: str, **keys: object) -> subprocess.Popen[str]:
        own = {"host": wan.ADDRESSES[side], "peer_host": wan.ADDRESSES[1 - side], "port": 6000, "peer_port": 6000}
        words = (f"{key}={value}" for key, value in (own | BOTH | keys).items())
        return self.start(side, [str(self.programs.folder / "ends"), role, *words])

    def serve(self) -> None:
        self.ends(0, "serve", node=2, peer=9, peer_port=1, learns=16)
        self.start(0, [sys.executable, __file__, "tcp-serve"])

    def ask(self, node: int, **keys: object) -> subprocess.Popen[str]:
        return self.ends(1, "ask", node=node, peer=2, port=6000 + node, peer_port=6000, **(LOAD | keys))

    def tcp(self, how: str, octets: int, seconds: float) -> subprocess.Popen[str]:
        return self.start(1, [sys.executable, __file__, "tcp-send", how, str(octets), str(seconds)])

    def close(self) -> dict[str, int]:
        for it in self.running:
            it.kill()
            it.wait()
        said = ended(self.relay)
        for it in (self.home, *(it for pair in self.spaces for it in pair)):
            os.close(it)
        return said


@contextmanager
def place(programs: Programs, queue_ms: int, loss: int = 0, seed: int = 1) -> Iterator[tuple[Place, dict[str, int]]]:
    it, said = Place(programs, queue_ms, loss, seed), dict[str, int]()
    try:
        it.serve()
        yield it, said
    finally:
        said.update(it.close())


def told(it: subprocess.Popen[str], seconds: float) -> dict[str, int]:
    words = it.communicate(timeout=seconds)[0].split()
    return dict(zip(words[::2], map(int, words[1::2]), strict=True))


def of_ours(it: subprocess.Popen[str], seconds: float) -> Carried:
    return Carried(told(it, seconds + 30)["in_time"] * LOAD["octets"], seconds)


def of_tcp(it: subprocess.Popen[str], seconds: float) -> Carried:
    said = told(it, seconds + 60)
    return Carried(said["octets"], said["us"] / 1e6)


# --- the rows


def alone(programs: Programs, queue_ms: int, loss: int, seed: int) -> str:
    calls = OCTETS // LOAD["octets"]
    with place(programs, queue_ms, loss, seed) as (it, said):
        client = told(it.ask(1, calls=calls, seconds=60), 90)
    ours = client["took_ms"] / 1000
    shown = f"ours {ours:.2f} s, unsure {client['unsure']}, too old {client['too_old']}, "
    shown += f"{100 * said['udp_crowded'] / max(said['of_udp'], 1):.1f} % crowded out, {said['of_udp']} packets, "
    shown += f"longest queue {said['queue_us'] / 1000:.0f} ms"
    for how in ("cubic", "bbr"):
        if how in KNOWN:
            with place(programs, queue_ms, loss, seed) as (it, said):
                shown += f"; {how} {of_tcp(it.tcp(how, OCTETS, 60), 60).seconds:.2f} s"
    return shown


def two(programs: Programs, queue_ms: int, seconds: float, seed: int) -> str:
    with place(programs, queue_ms, 0, seed) as (it, said):
        ends = [it.ask(node, seconds=seconds) for node in (1, 3)]
        found = [of_ours(end, seconds) for end in ends]
    share = max(found).octets / max(sum(each.octets for each in found), 1)
    shown = f"{found[0]}, {found[1]}: {100 * share:.0f} to {100 - 100 * share:.0f}; "
    shown += (
        f"{100 * said['udp_crowded'] / max(said['of_udp'], 1):.1f} % crowded out, longest queue"
        f" {said['queue_us'] / 1000:.0f} ms"
    )
    return shown


def beside(programs: Programs, how: str, queue_ms: int, seconds: float, seed: int) -> str:
    if how not in KNOWN:
        return f"the kernel has no {how}"
    with place(programs, queue_ms, 0, seed) as (it, said):
        tcp, ours = it.tcp(how, 1 << 40, seconds), it.ask(1, seconds=seconds)
        mine = of_ours(ours, seconds)
        its = of_tcp(tcp, seconds)
    return f"ours {mine}, {how} {its}: ours {100 * mine.octets / max(mine.octets + its.octets, 1):.0f} %"


def main() -> int:
    if sys.argv[1:] == ["tcp-serve"]:
        tcp_serve()
    if sys.argv[1:2] == ["tcp-send"]:
        tcp_send(sys.argv[2], int(sys.argv[3]), float(sys.argv[4]))
        return 0
    parser = argparse.ArgumentParser(description=(__doc__ or "").split("\n\n", maxsplit=1)[0])
    parser.add_argument("--seconds", type=int, default=10)
    parser.add_argument("--runs", type=int, default=1)
    parser.add_argument("--queue", type=int, nargs="*", default=[8, 40, 500], help="in ms")
    parser.add_argument("rows", nargs="*", metavar="alone|loss|two|cubic|bbr")
    words = parser.parse_args()
    if not COMPILER or not all(it.exists() for it in ARCHIVES):
        skip("there is no compiler, or lib/libdeltat.a isn't built (make -C lib)")
    if os.geteuid() != 0:
        skip("network namespaces need root")
    with tempfile.TemporaryDirectory(prefix="deltat-bottleneck-") as folder:
        programs = Programs(pathlib.Path(folder))
        for row in words.rows or ["alone", "loss", "two", "cubic", "bbr"]:
            for queue_ms in words.queue:
                for seed in range(words.runs):
                    if row in ("alone", "loss"):
                        line = alone(programs, queue_ms, 100 * (row == "loss"), seed)
                    elif row == "two":
                        line = two(programs, queue_ms, words.seconds, seed)
                    else:
                        line = beside(programs, row, queue_ms, words.seconds, seed)
                    print(f"{row:6} queue {queue_ms:3} ms: {line}", flush=True)
    return 0


if __name__ == "__main__":
    sys.exit(main())
