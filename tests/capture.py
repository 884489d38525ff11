#!/usr/bin/env python3
"""The capture of a recorded run against what tshark captured of it: `tests/capture.py [PROGRAM]`.

A node that is traced talks to two peers over loopback, and passes on what they send each other. tshark
captures that on the loopback interface. tools/capture.py writes the same datagrams, octet for octet, with
the same addresses, each way in the same order, at the same moments to within 300 ms.

- talk: the peers wait for the node and the node for them, so that the whole order is one.
- crowd: a paced link whose queue fills, resends, a window that closes, packets that pass, octets that
  don't read, datagrams of strangers, and both versions of the layout.
- two: two nodes talk, and the captures of both traces have the same datagrams the other way round.
- marks: the turns that the tool adds change nothing of the log.

One line a case, and then how many hold. Status 1 where one fails, 77 where tshark can't capture.

In tests/all: PROGRAM, 200 s."""
import argparse
import os
import pathlib
import random
import shutil
import subprocess
import sys
import tempfile
import time
from typing import NamedTuple

ROOT = pathlib.Path(__file__).resolve().parent.parent
TOOL = ROOT / "tools" / "capture.py"
LUA = ROOT / "tools" / "wireshark" / "deltat.lua"
sys.path.insert(0, str(ROOT / "tools"))
import capture  # noqa: E402
from lib import HOST, bound, free_port, is_up  # noqa: E402
import wire  # noqa: E402

PARAMS = "params 400 700 60 150 250 1300 65536 65536 3000 2147483648"
NO_RESENDS = "params 400 700 60 2000 250 1300 65536 65536 3000 2147483648"
SLACK = 0.3  # seconds: from a reading of the clock to the datagram, where other jobs run too


class Packet(NamedTuple):
    """A UDP datagram of a capture."""
    at: float
    sender: int
    receiver: int
    payload: str


class Tshark:
    """A capture of the loopback interface, of the datagrams of some ports."""

    def __init__(self, ports: list[int], folder: str) -> None:
        self._probe = bound()
        self._file = os.path.join(folder, f"{ports[0]}.pcapng")
        wanted = " or ".join(f"udp port {it}" for it in ports)
        self._ran = subprocess.Popen(
            ["tshark", "-q", "-i", "lo", "-f", wanted, "-w", self._file], stderr=subprocess.PIPE
        )
        self.works = self._begins(ports[0])

    def _begins(self, port: int) -> bool:
        """Whether the capture has begun: a datagram of our own is there."""
        for _ in range(200):
            if self._ran.poll() is not None:
                return False
            self._probe.sendto(b"probe", (HOST, port))
            time.sleep(0.05)
            if os.path.exists(self._file) and b"probe" in pathlib.Path(self._file).read_bytes():
                return True
        return False

    def packets(self) -> list[Packet]:
        """Ends the capture; the datagrams that it has."""
        time.sleep(0.5)
        self._ran.terminate()
        self._ran.wait()
        own = self._probe.getsockname()[1]
        return [it for it in packets_of(self._file) if it.sender != own]


def packets_of(path: str, *options: str) -> list[Packet]:
    """The datagrams of a capture file. Linux doesn't fill in the sums of datagrams on the loopback
    interface, so those of a file are looked at only where that is asked for."""
    fields = ["frame.time_epoch", "udp.srcport", "udp.dstport", "udp.payload"]
    command = [
        "tshark",
        "-n",
        "-X",
        f"lua_script:{LUA}",
        "-r",
        path,
        "-T",
        "fields",
        *(it for name in fields for it in ("-e", name)),
    ]
    ran = subprocess.run([*command, *(options or ("-Y", "udp && !icmp"))], capture_output=True, text=True, check=True)
    rows = [line.split("\t") for line in ran.stdout.splitlines()]
    return [Packet(float(at), int(sender), int(receiver), payload) for at, sender, receiver, payload in rows]


def script(params: str, number: int, port: int, peers: dict[int, tuple[int, int]], lines: list[str]) -> str:
    """The script of a node. Each link has the port of its peer and its pace."""
    links = [f"peer {link} {HOST}:{peer} 0 {pace}" for link, (peer, pace) in peers.items()]
    return "\n".join([params, f"me {number} first", f"local {HOST}:{port}", *links, *lines]) + "\n"


class Node:
    """A node that is traced, and how its run looks to the tool."""

    def __init__(self, program: str, folder: str, name: str, text: str) -> None:
        self._program = program
        self.script, self.trace = (os.path.join(folder, f"{name}.{it}") for it in ("script", "trace"))
        pathlib.Path(self.script).write_text(text, encoding="ascii")
        with open(self.script, "rb") as its, open(self.trace, "wb") as trace:
            self._ran = subprocess.Popen([program, "trace"], stdin=its, stdout=trace)

    def captured(self) -> list[Packet]:
        """The datagrams that tools/capture.py writes of the run, when it has ended."""
        if self._ran.wait(30) != 0:
            raise RuntimeError("the node failed")
        path = self.trace + ".pcapng"
        with open(path, "wb") as out:
            subprocess.run(
                [sys.executable, TOOL, "--program", self._program, self.script, self.trace], stdout=out, check=True
            )
        return packets_of(
            path,
            "-o",
            "udp.check_checksum:TRUE",
            "-o",
            "ip.check_checksum:TRUE",
            "-Y",
            'udp.checksum.status == "Good" && ip.checksum.status == "Good"',
        )

    def log(self) -> list[str]:
        """The log of the run."""
        texts = [pathlib.Path(it).read_text("ascii") for it in (self.script, self.trace)]
        return capture.run_again(self._program, "trace\n".join(texts))[1]


def wait_for(port: int) -> None:
    """Waits until a port is bound, ten seconds at most."""
    until = time.monotonic() + 10
    while not is_up(port) and time.monotonic() < until:
        time.sleep(0.02)


def agree(name: str, told: list[Packet], seen: list[Packet], whole: bool) -> bool:
    """Whether the tool's datagrams are those that tshark saw, each way in order, or in one order."""
    ways = [None] if whole else sorted({it[1:3] for it in told + seen})
    zero = told[0].at - seen[0].at if told and seen else 0.0
    good = bool(told) and len(told) == len(seen)
    late = 0.0
    for way in ways:
        mine, theirs = ([it for it in packets if way is None or it[1:3] == way] for packets in (told, seen))
        good = good and [it[1:] for it in mine] == [it[1:] for it in theirs]
        late = max([late, *(abs(a.at - zero - b.at) for a, b in zip(mine, theirs))])
    order = "in one order" if whole else f"each of {len(ways)} ways in order"
    print(
        f"{name}: {len(told)} datagrams, tshark has {len(seen)}; {order} {'equal' if good else 'NOT equal'}, moments"
        f" within {late * 1000:.0f} ms"
    )
    return good and late <= SLACK


def data(way: wire.Flow, number: int, octets: bytes, flags: int = 7, life: int = 400) -> bytes:
    return wire.packet(way, life, wire.DATA, number, flags, 0, octets)


def talk(program: str, folder: str) -> bool:
    """Each waits for the other, and the node's own timers are far away."""
    peer, port = bound(), free_port()
    seen = Tshark([port], folder)
    lines = [
        "route 1 1",
        "go",
        *(f"at {300 + 250 * i} send 3:30>1:10 be {bytes([i] * (1 + 400 * i)).hex()}" for i in range(8)),
    ]
    lines += ["at 3500 read 1:10>3:30 65536", "at 6000 stop"]
    node = Node(program, folder, "talk", script(NO_RESENDS, 3, port, {1: (peer.getsockname()[1], 0)}, lines))
    number, until = 0, time.monotonic() + 3
    peer.settimeout(0.1)
    while time.monotonic() < until:
        try:
            frame = peer.recv(65536)
        except TimeoutError:
            continue
        if frame[16] == wire.DATA:
            end = int.from_bytes(frame[22:26], "big") + len(frame) - 30
            time.sleep(0.02)
            peer.sendto(wire.packet(wire.Flow(1, 10, 3, 30), 400, wire.ACK, end, 0, 60000), (HOST, port))
            time.sleep(0.02)
            peer.sendto(data(wire.Flow(1, 10, 3, 30), number, b"yes"), (HOST, port))
            number += 3
    return agree("talk", node.captured(), seen.packets(), True)


def crowd(program: str, folder: str) -> bool:
    """All at once, for three seconds."""
    chance = random.Random(5)
    peers, port = {1: bound(), 2: bound()}, free_port()
    stranger = bound()
    seen = Tshark([port], folder)
    lines = ["route 1 1", "route 2 2", "route 9 2", "go"]
    for i in range(20):
        if i < 12:
            octets = chance.randbytes(chance.choice([5, 900, 2900])).hex()
            lines.append(f"at {300 + 100 * i} send 3:30>{1 + i % 2}:10 {chance.choice(['be', 'b', 'e', '-'])} {octets}")
        lines.append(f"at {300 + 100 * i} read 1:10>3:30 65536")
    ends = {1: (peers[1].getsockname()[1], 0), 2: (peers[2].getsockname()[1], 60)}
    node = Node(program, folder, "crowd", script(PARAMS, 3, port, ends, [*lines, "at 6000 stop"]))
    wait_for(port)
    time.sleep(0.3)
    for i in range(500):
        at = 1 + i % 2
        peers[at].sendto(noise(chance, i, at, 3 - at), (HOST, port))
        if i % 7 == 0:
            stranger.sendto(b"stranger", (HOST, port))
        time.sleep(0.02 if i % 100 == 99 else 0.004 * chance.random())
    told = node.captured()
    seen_of_peers = [it for it in seen.packets() if it.sender != stranger.getsockname()[1]]
    lines = [" ".join(it[2:]) for it in map(str.split, node.log())]
    missing = [
        it
        for it in ("full 2", "expired out 2", "noroute 7", "met ", "resent ", "bad ", "replied ")
        if not any(line.startswith(it) for line in lines)
    ]
    if missing:
        print(f"crowd: its log has no line {missing}")
    return agree("crowd", told, seen_of_peers, False) and not missing


def noise(chance: random.Random, i: int, own: int, other: int) -> bytes:
    """A datagram of a peer: for the node, for the other peer, for nobody, or none that reads."""
    kind = chance.randrange(9)
    if kind == 0:
        return chance.randbytes(chance.choice([0, 1, 15, 40]))
    if kind == 1:
        return data(wire.Flow(own, 10, 3, 30), 10 * (i // 4), bytes(chance.choice([1, 10, 1200])))
    if kind == 2:
        return wire.packet(
            wire.Flow(own, 10, 3, 30), 400, wire.ACK, chance.choice([0, 5, 900, 1300]), 0, chance.choice([0, 100, 3000])
        )
    if kind == 3:
        return wire.packet(wire.Flow(own, 10, 3, 30), 400, chance.choice([wire.RENDEZVOUS, wire.CLOSING]), i)
    if kind == 4:
        return data(wire.Flow(own, 10, chance.choice([9, 7]), 1), i, b"far", life=chance.choice([1, 3, 400]))
    return data(
        wire.Flow(own, 10, other, 20),
        i,
        chance.randbytes(chance.choice([1, 30, 1100])),
        life=chance.choice([2, 300, 60000]),
    )


def two(program: str, folder: str) -> bool:
    """Two nodes; what one sent is what the other took, in both captures and in tshark's."""
    ports = [free_port(), free_port()]
    seen = Tshark(ports, folder)
    nodes = []
    for i in (0, 1):
        way = f"{i + 1}:10>{2 - i}:20"
        # the first sends when the second is up too, and stops when nothing of the second is left, on a busy machine too
        sends = [
            f"at {2000 + 150 * j} send {way} be {random.Random(j + 9 * i).randbytes(2000).hex()}" for j in range(5)
        ]
        lines = [f"route {2 - i} 1", "go", *sends, f"at 2900 read {2 - i}:10>{i + 1}:20 65536", "at 7000 stop"]
        nodes.append(
            Node(program, folder, f"two-{i + 1}", script(PARAMS, i + 1, ports[i], {1: (ports[1 - i], 0)}, lines))
        )
        wait_for(ports[i])
    told = [node.captured() for node in nodes]
    theirs = seen.packets()
    good = agree("two, node 1", told[0], theirs, False)
    good = agree("two, node 2", told[1], theirs, False) and good
    ways = sorted({it[1:3] for it in theirs})
    each = [[[it[1:] for it in packets if it[1:3] == way] for way in ways] for packets in told]
    return good and each[0] == each[1]


def marks(program: str, folder: str) -> bool:
    """The log of each run above, with the turns that the tool adds and without them."""
    scripts = sorted(pathlib.Path(folder).glob("*.script"))
    good = len(scripts) == 4
    for path in scripts:
        script, trace = capture.read_script(path.read_text("ascii")), path.with_suffix(".trace").read_text("ascii")
        text, came, _ = capture.marked(script, trace)
        with_marks, without = (capture.run_again(program, it)[1] for it in (text, script.text + "trace\n" + trace))
        added = sum(bool(it.octets) for it in came)
        left = [line for line in with_marks if not line.endswith(" bad short 0")]
        good = (
            good
            and left == [line for line in without if not line.endswith(" bad short 0")]
            and len(with_marks) - len(without) == added
        )
    print(f"marks: {len(scripts)} runs, logs {'equal' if good else 'NOT equal'} but for the marks")
    return good


def main() -> int:
    parser = argparse.ArgumentParser(description=__doc__, formatter_class=argparse.RawDescriptionHelpFormatter)
    parser.add_argument(
        "program", nargs="?", default=str(ROOT / "crates/deltat/out/deltat"), help="the program (default: %(default)s)"
    )
    program = os.path.abspath(parser.parse_args().program)
    if not shutil.which("tshark"):
        print("skipped: tshark isn't there (Debian: tshark)")
        return 77
    with tempfile.TemporaryDirectory() as folder:
        trial = Tshark([free_port()], folder)
        trial.packets()
        if not trial.works:
            print("skipped: tshark can't capture on the loopback interface here (it needs the right to do so)")
            return 77
        results = [case(program, folder) for case in (talk, crowd, two, marks)]
    print(f"{sum(results)} of {len(results)} hold")
    return 0 if all(results) else 1


if __name__ == "__main__":
    sys.exit(main())
