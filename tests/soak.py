#!/usr/bin/env python3
"""Five nodes in a ring for a long time, and calls through it: relays, losses, repeats, late packets, kills and starts,
outside the gate.

`tests/soak.py MINUTES [PROGRAM] [--seed N] [--keep FOLDER] [--first] [--spoil HOW]`. Each node has a link to either
neighbour and sends to all four others, so half of what it sends is relayed. Links are sockets of this process: it drops
a tenth of the datagrams, passes one of seven twice, and holds some up, but none for longer than the links' charges say.
Nodes end, or are killed, after 3 to 25 seconds, and are started `again`; one a round, drawn by chance, runs on to its
end. A node is killed where its log has all that it sent: of a turn that is broken off no log could be judged. A round
takes 5 minutes at most; the next one begins when nothing of it can be left. Scripts know their moments before they
start, so messages go and are read at moments that are drawn.

A service and two clients over the library (tests/soak_calls.py) have a link to a node of the ring each, so two of the
ring relay each of their packets, over three of the links. A client has four calls under way on two flows, each of
another number, which the service writes down before it replies. Clients are killed after 4 to 20 seconds, the service
after 8 to 25, and started `again` in a new life; in half of the rounds of two minutes or more the service runs on. They
write no log, so flows of calls are judged by what both sides wrote down. Where `make -C lib` hasn't made the library
the round goes without calls, which is said.

It ends with 1 where, in a round,

- the logs of all nodes have no order, or `deltat audit` finds a flaw in them (tools/fieldaudit.py);
- a message is read twice, by whatever lives of its receiver, or isn't one that was sent on its flow, octet for octet;
- a node ends otherwise than by its stop or by a kill;
- the node that runs on has grown by more than 1 MiB since its first third, or the service has where it runs on;
- a call is served twice, by whatever lives of the service, or was made by nobody; the calls of a flow aren't served in
  the order in which they were made; an answer isn't what the service gave for that very call; a call that was declined
  is served; a call ends twice, or has no end though its client wasn't killed while it waited;
- too little happened: no kill, no loss, no repeat, nothing relayed, or less than half of the messages read; or, in a
  round of 30 seconds or more, no client killed, no service where it doesn't run on, or less than half of the calls
  answered that weren't declined. Halves aren't asked of a round in which this process itself held more than a tenth of
  the datagrams too long, since the machine was busy: those are dropped, as the links' charges say, and the round's line
  says so.

With --first the nodes of the ring are started as `first` each time, and with `--spoil first` those of calls, in the
same life too, which breaks a premise of the promise; with `--spoil twice` the service serves some calls twice. Each
then ends with 1 within a minute or two, and so shows that these checks see what is broken; of calls they are tried on
written lines too before the first round. Logs and what was written down are kept in FOLDER, or where something failed
in a new folder, which is named. Two lines a round tell what happened.

In tests/all: 1 PROGRAM, 240 s."""
import argparse
import heapq
import os
import pathlib
import random
import selectors
import shutil
import signal
import socket
import struct
import subprocess
import sys
import tempfile
import time
from collections import Counter, defaultdict
from collections.abc import Mapping
from dataclasses import astuple, dataclass, field

from lib import HOST, PROGRAM, TOP, body, growth, memory_of, own_port
from soak_calls import LIBRARY, SPOILS, SPURS, Callers, Place, unseen

sys.path[:0] = [str(TOP / "tools")]
from deltat_tools.parameters import Hop, Wishes, link_charge, suited  # noqa: E402

NODES = range(1, 6)
PORTS = (1, 2, 3)
# the longest that this process may hold a datagram, and what the charges of the links allow, both in ms: the
# difference is for a processor that is taken from it between looking at its clock and sending
MOST_HELD, DELAY = 50, 150
ROUND_TRIP = 60
ROUND_SECONDS = 300
LIVES = (3.0, 25.0)
# ms between two messages of a node, at most
GAP = 200
READ_EACH = 100
SIZES = (16, 40, 300, 300, 2_000, 5_000)
LOSS, REPEAT, LATE = 0.1, 0.14, 0.2
MOST_GROWN = 1024
SO_TIMESTAMPNS = 35
HOP = Hop(DELAY, 2, 100)
# in the ring itself a packet goes over two links at most, and between nodes of calls over three
PARAMS = suited([[HOP, HOP, HOP]], Wishes(ROUND_TRIP, room=16_384, shelved=2))
CHARGE = link_charge(HOP, PARAMS)


def neighbour(node: int, step: int) -> int:
    return (node - 1 + step) % 5 + 1


class Ring:
    """The links: for each of them and each end a socket that stands for the other end. Spurs are links of further
    nodes, each to one of the ring."""

    def __init__(self, chance: random.Random, spurs: Mapping[int, int]) -> None:
        self.chance, self.spurs = chance, spurs
        # by each node those that it has a link to, in the order of their numbers at a node of the ring
        self.neighbours = {node: [neighbour(node, 1), neighbour(node, -1)] for node in NODES}
        for far, at in spurs.items():
            self.neighbours[far] = [at]
            self.neighbours[at].append(far)
        self.ports = {node: own_port() for node in self.neighbours}
        self.counts: Counter[str] = Counter()
        self.waiting: list[tuple[float, int, socket.socket, int, bytes]] = []
        self.selector = selectors.DefaultSelector()
        # how many datagrams came from each node
        self.from_node: Counter[int] = Counter()
        # by a node and its neighbour: what the node takes the neighbour for
        self.ends: dict[tuple[int, int], socket.socket] = {}
        for node, others in self.neighbours.items():
            for other in others:
                it = socket.socket(socket.AF_INET, socket.SOCK_DGRAM)
                it.setsockopt(socket.SOL_SOCKET, SO_TIMESTAMPNS, 1)
                it.setsockopt(socket.SOL_SOCKET, socket.SO_RCVBUF, 1 << 21)
                it.setblocking(False)
                it.bind((HOST, 0))
                self.ends[node, other] = it
        for (node, other), it in self.ends.items():
            self.selector.register(it, selectors.EVENT_READ, (node, self.ends[other, node], self.ports[other]))

    def port(self, node: int, other: int) -> int:
        """Where a node sends what goes to its neighbour."""
        return self.ends[node, other].getsockname()[1]

    def routes(self, node: int) -> dict[int, int]:
        """At a node of the ring, by each other node the link that leads to it."""
        routes = {neighbour(node, step): 1 if step > 0 else 2 for step in (1, 2, -1, -2)}
        return routes | {
            far: self.neighbours[node].index(far) + 1 if at == node else routes[at] for far, at in self.spurs.items()
        }

    def take_all(self, node: int) -> None:
        """Takes all that came from a node."""
        for other in self.neighbours[node]:
            end = self.ends[node, other]
            self.take(end, *self.selector.get_key(end).data)

    def take(self, come_in: socket.socket, node: int, out: socket.socket, to: int) -> None:
        """Takes all that came at a socket from a node, each with the moment at which the kernel got it."""
        while True:
            try:
                octets, told, _, _ = come_in.recvmsg(65_536, 64)
            except BlockingIOError:
                return
            self.from_node[node] += 1
            seconds, nanos = struct.unpack("qq", told[0][2][:16])
            came = seconds + nanos / 1e9
            kind = self.chance.random()
            copies = 0 if kind < LOSS else 2 if kind < LOSS + REPEAT else 1
            self.counts[("dropped", "passed", "repeated")[copies]] += 1
            for _ in range(copies):
                late = self.chance.uniform(5, 40) if self.chance.random() < LATE else self.chance.uniform(1, 4)
                self.counts["number"] += 1
                heapq.heappush(self.waiting, (came + late / 1000, self.counts["number"], out, to, octets))

    def run(self, seconds: float) -> None:
        """Passes datagrams on, for so many seconds."""
        until = time.monotonic() + seconds
        while time.monotonic() < until:
            due = self.waiting[0][0] - time.time() if self.waiting else 0.02
            for key, _ in self.selector.select(min(max(due, 0.0), 0.02)):
                self.take(key.fileobj, *key.data)
            while self.waiting and self.waiting[0][0] <= time.time():
                at, _, out, to, octets = heapq.heappop(self.waiting)
                # it was late by 40 ms at most when it was due
                if time.time() - at > (MOST_HELD - 40) / 1000:
                    self.counts["held too long"] += 1
                    continue
                out.sendto(octets, (HOST, to))

    def close(self) -> None:
        self.selector.close()
        for it in self.ends.values():
            it.close()


@dataclass
class Life:
    """A run of a node."""

    process: "subprocess.Popen[bytes]"
    until: float
    is_killed: bool
    # how many datagrams had come from its node before
    before: int
    sizes: list[int] = field(default_factory=list)
    is_over: bool = False


class Round:
    """A round: its nodes, what they sent, and their logs."""

    # how a node is started once more; the nodes of calls, and how they are spoilt
    anew = "again"
    spurs: Mapping[int, int] = SPURS
    spoilt: str | None = None

    def __init__(self, path: str, chance: random.Random, seconds: float, folder: pathlib.Path) -> None:
        self.path, self.chance, self.seconds, self.folder = path, chance, seconds, folder
        self.ring = Ring(chance, self.spurs)
        self.callers = Callers([self.place(node, at) for node, at in self.spurs.items()], chance, seconds)
        self.steady = chance.choice(NODES)
        self.lives: dict[int, Life] = {}
        self.logs: dict[int, list[pathlib.Path]] = {node: [] for node in NODES}
        # by flow the numbers and sizes of all messages that any life of its sender may have sent
        self.sent: dict[str, dict[int, int]] = defaultdict(dict)
        self.count = chance.randrange(1 << 32) << 24
        self.counts: Counter[str] = Counter()
        self.faults: list[str] = []

    def place(self, node: int, at: int) -> Place:
        """What a node of calls is told."""
        ports = self.ring.ports[node], self.ring.port(node, at)
        return Place(node, at, *ports, str(self.folder / f"calls-{node}"), astuple(PARAMS), CHARGE, spoilt=self.spoilt)

    def commands(self, node: int, seconds: float) -> list[str]:
        """What a life of a node does: messages to all others, and reads of all that may come."""
        commands = [
            (at, f"at {at} read {other}:{port}>{node}:{port} 65536")
            for other in NODES
            if other != node
            for port in PORTS
            for at in range(READ_EACH, int(seconds * 1000), READ_EACH)
        ]
        at = 0
        while (at := at + self.chance.randrange(1, GAP)) < seconds * 1000 - 1_000:
            other, port, size = (
                self.chance.choice([it for it in NODES if it != node]),
                self.chance.choice(PORTS),
                self.chance.choice(SIZES),
            )
            flow = f"{node}:{port}>{other}:{port}"
            self.count += 1
            self.sent[flow][self.count] = size
            commands.append((at, f"at {at} send {flow} be {body(self.count, size).hex()}"))
        return [it for _, it in sorted(commands)] + [f"at {int(seconds * 1000)} stop"]

    def script(self, node: int, seconds: float) -> str:
        how = self.anew if self.logs[node] else "first"
        head = [PARAMS.line(), f"me {node} {how}", f"local {HOST}:{self.ring.ports[node]}"]
        head += [
            f"peer {link} {HOST}:{self.ring.port(node, other)} {CHARGE} 0"
            for link, other in enumerate(self.ring.neighbours[node], 1)
        ]
        return "".join(
            f"{it}\n"
            for it in [
                *head,
                *(f"route {to} {link}" for to, link in self.ring.routes(node).items()),
                "shelf 64",
                "go",
                *self.commands(node, seconds),
            ]
        )

    def start(self, node: int, left: float) -> None:
        """Starts a life of a node."""
        seconds = left if node == self.steady else min(left, self.chance.uniform(*LIVES))
        text = self.script(node, seconds)
        log = self.folder / f"{node}-{len(self.logs[node]):03}.log"
        with log.open("wb") as out:
            process = subprocess.Popen(
                [self.path, "node"], stdin=subprocess.PIPE, stdout=out, stderr=subprocess.DEVNULL
            )
        process.stdin.write(text.encode())
        process.stdin.close()
        self.logs[node].append(log)
        is_killed = node != self.steady and seconds < left and self.chance.random() < 0.7
        until = time.monotonic() + (self.chance.uniform(0.3, 1) * seconds if is_killed else seconds)
        self.ring.take_all(node)
        self.lives[node] = Life(process, until, is_killed, self.ring.from_node[node])

    def is_logged(self, node: int, life: Life) -> bool:
        """Stops a node, and tells whether its log has all that it sent."""
        life.process.send_signal(signal.SIGSTOP)
        # it is stopped when the signal has come through, and what it sent has come by then
        time.sleep(0.005)
        self.ring.take_all(node)
        log = self.logs[node][-1].read_bytes()
        left = log.count(b" put ") - log.count(b" unsent ")
        # where a datagram was lost before it came here, the node isn't killed any more, and comes to its stop
        return log.endswith(b"\n") and left == self.ring.from_node[node] - life.before

    def look_after(self, node: int, left: float) -> None:
        """Ends a life where that is due, and begins the next."""
        life = self.lives[node]
        status = life.process.poll()
        if life.is_over:
            return
        if status is None and life.is_killed and time.monotonic() >= life.until and self.is_logged(node, life):
            life.process.kill()
            life.process.wait()
            self.counts["killed"] += 1
        elif status is None:
            life.process.send_signal(signal.SIGCONT)
            if node == self.steady:
                life.sizes.append(memory_of(life.process.pid))
            return
        elif status != 0:
            self.faults.append(f"node {node} ended with {status}: {self.logs[node][-1]}")
        life.is_over = True
        # the last lives end before the round does
        if left > LIVES[0]:
            self.start(node, left)
            self.counts["started again"] += 1

    def run(self) -> None:
        """The round, to its end."""
        try:
            end = time.monotonic() + self.seconds
            for node in NODES:
                self.start(node, self.seconds)
            while time.monotonic() < end:
                self.ring.run(0.25)
                for node in NODES:
                    self.look_after(node, end - time.monotonic())
                self.callers.look_after()
            self.finish()
        finally:
            for life in self.lives.values():
                if life.process.poll() is None:
                    life.process.kill()
                    life.process.wait()
            self.callers.close()
            self.ring.close()

    def finish(self) -> None:
        """Waits for those that haven't met their stop yet."""
        until = time.monotonic() + 20
        while (
            any(it.process.poll() is None for it in self.lives.values()) or not self.callers.is_over()
        ) and time.monotonic() < until:
            self.ring.run(0.25)
            self.callers.look_after()
        for node, life in self.lives.items():
            # one that was killed and not started any more has -9
            if life.process.poll() not in (0, -9):
                self.faults.append(f"node {node} doesn't meet its stop")
        sizes = [it for it in self.lives[self.steady].sizes if it]
        self.counts["KiB"] = sizes[-1] if sizes else 0
        if growth(sizes) > MOST_GROWN:
            self.faults.append(f"node {self.steady} grew by {growth(sizes)} KiB, to {sizes[-1]}")

    def judge(self) -> None:
        """Looks at the logs."""
        paths = [str(log) for node in NODES for log in self.logs[node]]
        ran = subprocess.run(
            [sys.executable, str(TOP / "tools" / "fieldaudit.py"), *paths, "--deltat", self.path],
            capture_output=True,
            text=True,
            check=False,
        )
        if (ran.returncode, ran.stdout) != (0, "audit yes\n"):
            self.faults.append(f"fieldaudit ends with {ran.returncode}: {(ran.stdout or ran.stderr).strip()[:300]}")
        seen: Counter[tuple[str, int]] = Counter()
        for node in NODES:
            for log in self.logs[node]:
                self.read(log, seen)
        twice = [f"{number:x} of {flow}" for (flow, number), times in seen.items() if times > 1]
        if twice:
            self.faults.append(f"read twice: {', '.join(twice[:5])}")
        self.counts["read"] = len(seen)
        happened = {
            "kills": self.counts["killed"],
            "losses": self.ring.counts["dropped"],
            "repeats": self.ring.counts["repeated"],
            "relayed packets": self.counts["relayed"],
            "half of the messages": self.is_busy() or self.counts["read"] * 2 >= self.counts["taken"],
        }
        self.faults += [f"too little happened: {name}" for name, it in happened.items() if not it]
        self.faults += self.callers.judge(self.is_busy())

    def is_busy(self) -> bool:
        """Whether the machine left this process too little time to pass datagrams on."""
        passed = self.ring.counts
        return passed["held too long"] * 10 > passed["passed"] + passed["repeated"]

    def read(self, log: pathlib.Path, seen: Counter[tuple[str, int]]) -> None:
        """Counts what a life took and gave up, and the messages that it read whole."""
        # of each flow what was read of a message whose begin was read
        open_ones: dict[str, str | None] = {}
        node = log.name.partition("-")[0]
        for line in log.read_text().splitlines():
            words = line.split(" ")
            if words[2:3] == ["took"]:
                self.counts["taken"] += 1
            elif words[2:3] == ["uncertain"]:
                self.counts["uncertain"] += 1
            elif words[2:3] in (["acked"], ["sent"], ["replied"], ["resent"], ["met"]):
                self.counts["own"] += 1
            elif words[2:3] == ["put"]:
                self.counts["put"] += 1
            elif words[2:3] == ["read"]:
                flow, marks, octets = words[3:]
                begun = open_ones.get(flow)
                # a run mark says that something was passed over
                text = octets if "b" in marks else None if "r" in marks or begun is None else begun + octets
                open_ones[flow] = None if "e" in marks else text
                if "e" in marks and text is not None:
                    self.whole(node, flow, bytes.fromhex(text), seen)
        self.counts["relayed"] = max(0, self.counts["put"] - self.counts["own"])

    def whole(self, node: str, flow: str, octets: bytes, seen: Counter[tuple[str, int]]) -> None:
        number = int.from_bytes(octets[:8], "big")
        size = self.sent[flow].get(number)
        if size is None or body(number, size) != octets:
            self.faults.append(f"node {node} read what nobody sent on {flow}: {octets[:16].hex()}")
        seen[flow, number] += 1

    def told(self) -> str:
        passed = self.ring.counts
        mine = self.counts
        return (
            f"{mine['taken']} messages taken, {mine['read']} read whole, {mine['uncertain']} segments uncertain;"
            f" {mine['killed']} kills, {mine['started again']} starts;"
            f" {passed['passed'] + passed['repeated']} datagrams passed, {passed['dropped']} dropped,"
            f" {passed['repeated']} twice, {passed['held too long']} held too long and dropped;"
            f" {mine['relayed']} packets relayed; the node that ran on has {mine['KiB']} KiB"
            + ("; the machine was too busy to ask for half of the messages and of the calls" if self.is_busy() else "")
        )


def minutes(word: str) -> float:
    try:
        value = float(word)
    except ValueError:
        value = 0.0
    if not 0.2 <= value <= 1_440:
        raise argparse.ArgumentTypeError(f"{word} isn't from 0.2 to 1440")
    return value


def arguments() -> argparse.Namespace:
    reads = argparse.ArgumentParser(description=__doc__, formatter_class=argparse.RawDescriptionHelpFormatter)
    reads.add_argument("minutes", type=minutes)
    reads.add_argument("program", nargs="?", default=str(PROGRAM))
    reads.add_argument("--seed", type=int, default=1)
    reads.add_argument("--keep", type=pathlib.Path, metavar="FOLDER")
    reads.add_argument("--first", action="store_true")
    reads.add_argument("--spoil", choices=SPOILS, metavar="HOW", help=" or ".join(SPOILS))
    given = reads.parse_args()
    if not os.access(given.program, os.X_OK):
        reads.error(f"there is no program {given.program}: ./build makes it")
    if given.spoil and not LIBRARY.exists():
        reads.error(f"there is no library {LIBRARY}: make -C lib makes it")
    return given


def judged_round(number: int, it: Round, keep: pathlib.Path | None) -> list[str]:
    """Runs a round, tells of it, keeps its logs where they are wanted, and returns what is wrong."""
    it.run()
    it.judge()
    print(f"round {number}: {it.told()}", flush=True)
    if it.spurs:
        print(f"round {number}: {it.callers.told()}", flush=True)
    for fault in it.faults:
        print(f"round {number}: {fault}", flush=True)
    if keep or it.faults:
        kept = (keep or pathlib.Path(tempfile.mkdtemp(prefix="deltat-soak-kept-"))) / f"round-{number}"
        shutil.copytree(it.folder, kept, dirs_exist_ok=True)
        print(f"its logs are in {kept}")
    return it.faults


def main() -> int:
    given = arguments()
    Round.anew, Round.spoilt = "first" if given.first else "again", given.spoil
    chance, left, number, faults = random.Random(given.seed), given.minutes * 60, 0, unseen()
    print(f"{PARAMS.line()}, charges {CHARGE}; silent for {PARAMS.quiet} ms after a restart", flush=True)
    if not LIBRARY.exists():
        Round.spurs = {}
        print(f"without calls: {LIBRARY} isn't there, make -C lib makes it", flush=True)
    for fault in faults:
        print(f"the checks of calls: {fault}", flush=True)
    while left > 1 and not faults:
        number += 1
        with tempfile.TemporaryDirectory(prefix="deltat-soak-") as folder:
            it = Round(os.path.abspath(given.program), chance, min(left, ROUND_SECONDS), pathlib.Path(folder))
            faults = judged_round(number, it, given.keep)
        left -= ROUND_SECONDS
        time.sleep(PARAMS.quiet / 1000)
    print(f"{number} rounds, {len(faults)} faults; seed {given.seed}")
    return 1 if faults else 0


if __name__ == "__main__":
    sys.exit(main())
