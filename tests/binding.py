#!/usr/bin/env python3
"""The Python binding over libdeltat, in memory and over sockets of this machine.
`tests/binding.py [LIBRARY] [TEST ..]`; LIBRARY is lib/libdeltat.so.2 where none is named. Ends with 1 where one of
these fails, and with 77 where there is no library:

- refusals: what is out of range, too long, for no one or too early is refused by its own exception, and nothing is
  sent.
- whole: a message in parts that is longer than any send comes whole; one that is too long is dropped and counted; what
  is lost between two is told as a gap, once.
- simulated: 300 random runs of two nodes in memory, over links that drop, repeat and reorder, with restarts: each
  message is one that was sent, none comes twice, those of one life come in their order.
- processes: two processes over a link that drops 15 of 100 datagrams, repeats 15 and reorders: what they exchange
  comes once and whole, and one that is killed and opened again goes on, with nothing twice.
- recorded: two nodes that record, over a link that drops, repeats and brings octets that are no datagrams, with gives
  that fail, one of them opened again and with a record that gets full: `deltat retrace` of each record writes the very
  log that the library told. It is left out where there is no program (./build).
- asynchronous: in a loop of asyncio a service answers four clients' messages over such a link, a sender waits for room
  while its messages aren't read, and who waits when it is closed is told.
- users: of two calls under way each ends with what it was given, in another order than they were made.
- services: a service of two ports answers 30 calls over such a link, each once; a call that nobody replies to is
  unsure; a service is told of a reply to a client that is away; 100 calls at once in a loop of asyncio are answered,
  and one that waits when it is closed is unsure.
- examples: examples/echo.py asks itself, and examples/echo.c, which is compiled first, at the ports that they name; and
  tools/dtcat.py asks examples/counter.py and examples/counter.c.

In tests/all: no words, 300 s."""
from __future__ import annotations

import asyncio
import contextlib
import dataclasses
import hashlib
import heapq
import itertools
import os
import random
import shutil
import subprocess
import sys
import tempfile
import threading
import time
from collections.abc import Iterator

from lib import HOST, PROGRAM, TOP, Between, bound, free_port, skip

LIBRARY = TOP / "lib" / "libdeltat.so.2"
named = [it for it in sys.argv[1:2] if it.endswith(".so") or ".so." in it]
os.environ["DELTAT_LIBRARY"] = os.path.abspath(named[0]) if named else str(LIBRARY)
if not os.path.exists(os.environ["DELTAT_LIBRARY"]):
    skip(f"{os.environ['DELTAT_LIBRARY']} isn't there: make -C lib")
sys.path[:0] = [str(TOP / "bindings" / "python"), str(TOP / "release")]
import deltat  # noqa: E402
from deltat import record  # noqa: E402

PARAMS = deltat.Params(mpl=1000, r=3000, a=200, rto=100, probe=800, seg=500, cap=65536, rcap=65536, window=65536)
CHARGE = 90
# a record that is full before its run has ended
SHORT_RECORD = 1_500_000


def node_of(number: int, other: int, again: bool, at: int) -> deltat.Node:
    return deltat.Node(
        number,
        PARAMS,
        [deltat.Link(1, CHARGE)],
        {other: 1},
        start=deltat.Start.AGAIN if again else deltat.Start.FIRST,
        at=at,
    )


def refused(error: type[Exception], call: object, *words: object, **named: object) -> bool:
    try:
        call(*words, **named)
    except error:
        return True
    print(f"refusals: {error.__name__} didn't come of {words} {named}")
    return False


def refusals() -> bool:
    node, flow = node_of(1, 2, False, 0), deltat.Flow(1, 10, 2, 20)
    right = [
        refused(
            deltat.InvalidArgument,
            deltat.Node,
            1,
            deltat.Params(1, 3000, 200, 500, 800, 100, 4096, 4096, 512),
            [],
            {},
            start=deltat.Start.FIRST,
        ),
        refused(deltat.InvalidArgument, deltat.Node, 1 << 32, PARAMS, [], {}, start=deltat.Start.FIRST),
        refused(deltat.InvalidArgument, node.send, flow, b"", at=1),
        refused(deltat.InvalidArgument, node.send, flow, bytes(65537), at=1),
        refused(deltat.InvalidArgument, node.send, flow.reversed(), b"hello", at=1),
        refused(deltat.InvalidArgument, node.send, deltat.Flow(1, 65536, 2, 20), b"hello", at=1),
        refused(deltat.InvalidArgument, node.read, flow, at=1),
        refused(ValueError, deltat.Flow.parse, "1:10>2"),
        deltat.Flow.parse("1:10>2:20") == flow and str(flow) == "1:10>2:20",
        node.receive(1, b"not a frame", at=1) is deltat.Status.MALFORMED,
        node.receive(9, bytes(40), at=1) is deltat.Status.INVALID,
        list(node.datagrams()) == [] and node.wake is None,
    ]
    node.send(flow, bytes(65536), at=2)
    right.append(refused(deltat.Full, node.send, flow, b"one more", at=2))
    late = node_of(1, 2, True, 100)
    right.append(refused(deltat.Quiet, late.send, flow, b"too early", at=100 + PARAMS.quiet_ms - 1))
    late.send(flow, b"in time", at=100 + PARAMS.quiet_ms)
    frame = next(late.datagrams())
    right.append(frame.to == 2 and b"in time" in frame.octets)
    right.append(node_of(2, 1, False, 0).receive(1, frame.octets, waited_ms=1000, at=5) is deltat.Status.EXPIRED)
    guarded = node_of(2, 1, False, 0)
    for ports, flows, status in (
        ([21], 9, "BLOCKED"),
        ([20, 21], 0, "BLOCKED"),
        ([20], 1, "OK"),
        ([20], 0, "OK"),
        ([], 9, "BLOCKED"),
        (None, 0, "OK"),
    ):
        guarded.set_guard(ports, flows)
        right.append(guarded.receive(1, frame.octets, at=5) is deltat.Status[status])
    right.append(guarded.blocked_counts() == (2, 1))
    octets = b"".join(it.to_bytes(4, "big") for it in dataclasses.astuple(PARAMS))
    right += [PARAMS.fingerprint == int.from_bytes(hashlib.sha256(octets).digest()[:8], "big")]
    right.append(refused(deltat.InvalidArgument, lambda: dataclasses.replace(PARAMS, mpl=1).fingerprint))
    lonely = deltat.Node(1, PARAMS, [deltat.Link(1, CHARGE)], {}, start=deltat.Start.FIRST, at=0)
    right.append(lonely.flow_counts(flow) is None)
    lonely.count_flow(flow)
    lonely.send(flow, b"nowhere", at=1)
    right.append(
        lonely.flow_counts(flow)
        == deltat.FlowCounts(7, octets_acknowledged=0, octets_uncertain=0, octets_accepted=0, octets_read=0)
    )
    right += [list(lonely.datagrams()) == [], refused(deltat.InvalidArgument, lonely.add_route, 2, 9)]
    lonely.add_route(2, 1)
    lonely.tick(200)
    right += [[it.to for it in lonely.datagrams()] == [2], refused(deltat.InvalidArgument, lonely.add_route, 2, 1)]
    right.append(
        lonely.counts()
        == deltat.NodeCounts(
            0,
            datagrams_refused=0,
            datagrams_out=1,
            octets_queued=7,
            octets_acknowledged=0,
            octets_uncertain=0,
            octets_accepted=0,
            octets_read=0,
        )
    )
    node.close()
    node.close()
    right += [refused(deltat.Stopped, node.count_flow, flow), refused(deltat.Stopped, node.flow_counts, flow)]
    right += [
        refused(deltat.Stopped, node.tick, 5),
        refused(deltat.Stopped, node.counts),
        refused(deltat.Stopped, node.add_route, 3, 1),
    ]
    return all(right)


def taken(nodes: list[deltat.Node], at: int, is_lost: bool = False) -> list[tuple[int, bytes, bool]]:
    """What waits at one of two nodes comes to the other, or is lost. The messages that node 2 has then, by their
    ports."""
    for node, other in (nodes, nodes[::-1]):
        node.tick(at)
        for frame in node.datagrams():
            if not is_lost:
                other.receive(1, frame.octets, at=at)
    found = [(it.flow.source_port, it.octets, it.gap) for it in nodes[1].messages(at)]
    for frame in nodes[1].datagrams():
        if not is_lost:
            nodes[0].receive(1, frame.octets, at=at)
    return found


def whole() -> bool:
    longest = 150_000
    nodes, flow, found = (
        [
            node_of(1, 2, False, 0),
            deltat.Node(2, PARAMS, [deltat.Link(1, CHARGE)], {1: 1}, start=deltat.Start.FIRST, at=0, longest=longest),
        ],
        deltat.Flow(1, 10, 2, 20),
        [],
    )
    octets, at = random.Random(3).randbytes(longest), 0
    for place in range(0, longest, 50_000):
        nodes[0].send(flow, octets[place : place + 50_000], place == 0, place == 100_000, at=at)
        for at in range(at, at + 1000, 50):
            found += taken(nodes, at)
    nodes[0].send(flow, b"next", at=at)
    nodes[0].send(deltat.Flow(1, 11, 2, 20), b"other", at=at)
    found += sorted(taken(nodes, at))
    nodes[0].send(flow, b"lost", at=at)
    for at in range(at, at + 10_000, 50):
        found += taken(nodes, at, True)
    nodes[0].send(flow, b"behind", at=at)
    nodes[0].send(flow, b"last", at=at)
    for at in range(at, at + 1000, 50):
        found += taken(nodes, at)
    wanted = [
        (10, octets, True),
        (10, b"next", False),
        (11, b"other", True),
        (10, b"behind", True),
        (10, b"last", False),
    ]
    if found != wanted:
        print(f"whole: {[(port, it[:10], len(it), gap) for port, it, gap in found]} came")
    right = found == wanted and nodes[1].dropped_too_long == 0
    nodes = [
        node_of(1, 2, False, 0),
        deltat.Node(2, PARAMS, [deltat.Link(1, CHARGE)], {1: 1}, start=deltat.Start.FIRST, at=0, longest=5),
    ]
    for it in (b"longer", b"short", b"longest", b"end"):
        nodes[0].send(flow, it, at=1)
    return right and taken(nodes, 1) == [(10, b"short", True), (10, b"end", True)] and nodes[1].dropped_too_long == 2


class Run:
    """Two nodes in memory, and what is on the links between them."""

    def __init__(self, chance: random.Random) -> None:
        self.chance, self.at, self.count = chance, 0, itertools.count()
        self.nodes = {number: node_of(number, 3 - number, False, 0) for number in (1, 2)}
        self.links: list[tuple[int, int, int, bytes]] = []
        self.sent: dict[bytes, tuple[int, int]] = {}
        self.life, self.came = {1: 0, 2: 0}, []

    def flush(self, number: int) -> None:
        for frame in self.nodes[number].datagrams():
            copies = self.chance.choices([0, 1, 2, 3], [15, 65, 15, 5])[0]
            for _ in range(copies):
                heapq.heappush(
                    self.links, (self.at + self.chance.randrange(CHARGE), next(self.count), frame.to, frame.octets)
                )

    def take(self, number: int) -> None:
        self.came += [(it, self.life[number]) for it in self.nodes[number].messages(self.at)]
        self.flush(number)

    def send(self, number: int) -> None:
        octets = self.chance.randbytes(self.chance.choice([8, 60, 700, 5000])) + next(self.count).to_bytes(8, "big")
        try:
            self.nodes[number].send(deltat.Flow(number, 10, 3 - number, 20), octets, at=self.at)
            self.sent[octets] = number, len(self.sent)
        except (deltat.Full, deltat.Quiet):
            pass
        self.flush(number)

    def restart(self, number: int) -> None:
        self.nodes[number].close()
        self.life[number] += 1
        self.nodes[number] = node_of(number, 3 - number, True, self.at)

    def step(self) -> None:
        what = self.chance.random()
        if what < 0.12:
            self.send(self.chance.choice([1, 2]))
        elif what < 0.125:
            self.restart(self.chance.choice([1, 2]))
        elif self.links and what < 0.8:
            self.at, _, to, octets = (
                heapq.heappop(self.links) if self.links[0][0] >= self.at else (self.at, *heapq.heappop(self.links)[1:])
            )
            self.nodes[to].receive(1, octets, at=self.at)
            self.take(to)
        else:
            self.at = min([self.at + self.chance.choice([1, 20, 100, 7000]), *(it[0] for it in self.links[:1])])
            self.at = max(self.at, 0)
            for number in (1, 2):
                self.nodes[number].tick(self.at)
                self.take(number)


def simulated() -> bool:
    total = 0
    for seed in range(300):
        run = Run(random.Random(seed))
        for _ in range(400):
            run.step()
        octets = [it.octets for it, _ in run.came]
        if len(set(octets)) != len(octets) or any(it not in run.sent for it in octets):
            print(f"simulated: run {seed} has a message twice, or one that nobody sent")
            return False
        for number in (1, 2):
            order = [run.sent[it][1] for it in octets if run.sent[it][0] == number]
            if order != sorted(order):
                print(f"simulated: run {seed} has messages out of order")
                return False
        total += len(octets)
        for node in run.nodes.values():
            node.close()
    print(f"simulated: {total} messages came")
    return total > 1000


PEER = """
import sys, time, hashlib
sys.path.insert(0, {path!r})
import deltat
number, port, to, again, seconds = (int(word) for word in sys.argv[1:6])
params = deltat.Params(mpl=1000, r=3000, a=200, rto=100, probe=800, seg=500, cap=65536, rcap=65536, window=65536)
start = deltat.Start.AGAIN if again else deltat.Start.FIRST
node = deltat.Node(number, params, [deltat.Link(1, 300)], {{3 - number: 1}}, start=start)
end, count = time.monotonic() + seconds, 0
with deltat.Udp(node, ({host!r}, port), {{3 - number: ({host!r}, to)}}) as udp:
    while time.monotonic() < end:
        try:
            octets = b"%d %d %d" % (number, deltat.now(), count) + bytes(count % 900)
            udp.send(deltat.Flow(number, 10, 3 - number, 20), octets)
            count += 1
        except (deltat.Full, deltat.Quiet):
            pass
        for message in udp.run_for(0.02):
            print(message.octets.split(b"\\0")[0].decode(), len(message.octets), flush=True)
    for message in udp.run_for(1.5):
        print(message.octets.split(b"\\0")[0].decode(), len(message.octets), flush=True)
print("sent", count, "unsent", udp.not_sent, flush=True)
"""


def bad_link(chance: random.Random, ends: list, ports: list[int], until: float) -> None:
    """Passes datagrams on between two ends: of 100 it drops 15 and repeats 15, and each waits up to 100 ms."""
    waiting: list[tuple[float, int, int, bytes]] = []
    count = itertools.count()
    for it in ends:
        it.setblocking(False)
    while time.monotonic() < until:
        for i, it in enumerate(ends):
            try:
                while True:
                    octets = it.recv(65536)
                    for _ in range(chance.choices([0, 1, 2], [15, 70, 15])[0]):
                        heapq.heappush(waiting, (time.monotonic() + chance.random() / 10, next(count), 1 - i, octets))
            except (BlockingIOError, ConnectionRefusedError):
                pass
        while waiting and waiting[0][0] <= time.monotonic():
            _, _, to, octets = heapq.heappop(waiting)
            ends[to].sendto(octets, (HOST, ports[to]))
        time.sleep(0.001)


def processes() -> bool:
    chance = random.Random(11)
    ports, ends = [free_port(), free_port()], [bound(), bound()]
    link = threading.Thread(target=bad_link, args=(chance, ends, ports, time.monotonic() + 40))
    link.start()
    program = PEER.format(path=str(TOP / "bindings" / "python"), host=HOST)

    def start(number: int, again: int, seconds: int) -> subprocess.Popen[str]:
        words = [str(number), str(ports[number - 1]), str(ends[number - 1].getsockname()[1]), str(again), str(seconds)]
        return subprocess.Popen([sys.executable, "-c", program, *words], stdout=subprocess.PIPE, text=True)

    first, second = start(1, 0, 25), start(2, 0, 5)
    time.sleep(3)
    second.kill()
    before, _ = second.communicate()
    second = start(2, 1, 22)
    after, _ = second.communicate(timeout=60)
    one, _ = first.communicate(timeout=60)
    link.join()
    right = True
    for who, text in (("node 1", one), ("node 2", before + after)):
        rows = [it for it in text.splitlines() if it[:1] in "12"]
        lengths = all(int(it.split()[3]) == len(" ".join(it.split()[:3])) + int(it.split()[2]) % 900 for it in rows)
        print(f"processes: {who} got {len(rows)} messages")
        right = right and len(rows) > 30 and len(set(rows)) == len(rows) and lengths
    return right


async def serve(udp: deltat.AsyncUdp) -> None:
    async for message in udp:
        await udp.send(message.flow.reversed(), message.octets[::-1])


async def ask(udp: deltat.AsyncUdp, port: int, count: int, answers: dict[bytes, asyncio.Event]) -> None:
    """Sends so many messages, and asks again where one isn't answered."""
    for number in range(count):
        octets = b"%d of %d" % (number, port) + bytes(number * 37 % 2000)
        answers[octets[::-1]] = asyncio.Event()
        for _ in range(20):
            await udp.send(deltat.Flow(1, port, 2, 20), octets)
            try:
                async with asyncio.timeout(0.6):
                    await answers[octets[::-1]].wait()
                break
            except TimeoutError:
                pass


async def hear(udp: deltat.AsyncUdp, answers: dict[bytes, asyncio.Event]) -> None:
    async for message in udp:
        answers[message.octets].set()


async def held_back(one: deltat.AsyncUdp, two: deltat.AsyncUdp) -> bool:
    """Whether a sender waits while nobody reads, and goes on when somebody does."""
    sent, messages = 0, [bytes([it]) * 20_000 for it in range(12)]

    async def give() -> None:
        nonlocal sent
        for it in messages:
            await one.send(deltat.Flow(1, 99, 2, 99), it)
            sent += 1

    giving = asyncio.create_task(give())
    await asyncio.sleep(1)
    stopped_at = sent
    came = []
    while len(came) < len(messages):
        async with asyncio.timeout(5):
            came.append((await two.receive()).octets)
    await giving
    return stopped_at < 8 and came == messages


async def asynchronously() -> bool:
    chance = random.Random(9)
    is_bad = True
    with Between(lambda number, octets: chance.choices([0, 1, 2], [10, 75, 15])[0] if is_bad else 1) as link:
        ends = [
            deltat.AsyncUdp(
                node_of(number, 3 - number, False, deltat.now()),
                (HOST, link.nodes[number - 1]),
                {3 - number: (HOST, link.port(number))},
            )
            for number in (1, 2)
        ]
        answers: dict[bytes, asyncio.Event] = {}
        serving, hearing = asyncio.create_task(serve(ends[1])), asyncio.create_task(hear(ends[0], answers))
        await asyncio.gather(*(ask(ends[0], port, 25, answers) for port in range(10, 14)))
        serving.cancel()
        hearing.cancel()
        right = len(answers) == 100 and all(it.is_set() for it in answers.values())
        is_bad = False
        await asyncio.sleep(PARAMS.r / 1000)
        right = right and await held_back(*ends)
        waiting = [asyncio.create_task(end.receive()) for end in ends]
        await asyncio.sleep(0.1)
        for end in ends:
            end.close()
            end.close()
        told = await asyncio.gather(*waiting, return_exceptions=True)
        print(f"asynchronous: {sum(it.is_set() for it in answers.values())} of 100 were answered")
        return right and all(isinstance(it, deltat.Stopped) for it in told)


def asynchronous() -> bool:
    return asyncio.run(asynchronously())


def service_of(number: int, ports: dict[int, deltat.PortKind]) -> deltat.Service:
    service = deltat.Service(number, 1, PARAMS, [deltat.Link(1, CHARGE)], {3 - number: 1}, start=deltat.Start.FIRST)
    for port, kind in ports.items():
        service.set_port(port, kind)
    return service


def users() -> bool:
    """Whether each of two calls under way ends with what it was given, in whatever order they end, and none that isn't
    made has an end."""
    flow, given = deltat.Flow(1, 10, 2, 20), {b"first": 2**64 - 1, b"second": 7}
    client, server = service_of(1, {10: deltat.PortKind.CALLER}), service_of(2, {20: deltat.PortKind.SERVICE})
    at = deltat.now()
    numbers = {client.call(flow, payload, 1000, at=at, user=user): payload for payload, user in given.items()}
    right = refused(deltat.InvalidArgument, lambda: client.call(flow, b"", 1000, user=2**64)) and refused(
        deltat.InvalidArgument, lambda: client.call(flow, b"", 0, user=8)
    )
    for it in client.datagrams():
        server.receive(1, it.octets, at=at)
    for request in list(server.events())[1:]:
        server.reply(request.token, request.payload, at=at)
    for it in server.datagrams():
        client.receive(1, it.octets, at=at)
    client.tick(at + 1000)
    ends = list(client.events())
    right = [type(it) for it in ends] == [deltat.Answered, deltat.UnsureCall] and right
    return all(it.user == given[numbers[it.call]] for it in ends) and not list(client.events()) and right


def unsure(cause: deltat.Cause, call: object, *words: object) -> bool:
    """Whether a call is unsure for this cause."""
    try:
        call(*words)
    except deltat.Unsure as why:
        return why.cause is cause
    return False


def serve_calls(link: Between, served: list[bytes]) -> None:
    """A service of two ports: one answers with the octets reversed, the other with nothing."""
    service = service_of(2, {20: deltat.PortKind.SERVICE, 21: deltat.PortKind.SERVICE})
    with deltat.Udp(service, (HOST, link.nodes[1]), {1: (HOST, link.port(2))}) as udp:
        calls = deltat.Calls(udp)

        @calls.on(20)
        def backwards(request: deltat.Request) -> bytes:
            served.append(request.payload)
            return request.payload[::-1]

        @calls.on(21)
        def silent(request: deltat.Request) -> None:
            served.append(request.payload)

        calls.run(3)


def calls_in_turn(link: Between, payloads: list[bytes]) -> bool:
    client = service_of(1, {10: deltat.PortKind.CALLER})
    with deltat.Udp(client, (HOST, link.nodes[0]), {2: (HOST, link.port(1))}) as udp:
        calls = deltat.Calls(udp)
        answers = [calls.call(deltat.Flow(1, 10, 2, 20), it, 10.0) for it in payloads]
        right = unsure(deltat.Cause.TIMEOUT, calls.call, deltat.Flow(1, 10, 2, 21), b"silent", 1.5)
        right = refused(deltat.InvalidArgument, calls.call, deltat.Flow(1, 11, 2, 20), b"from a plain port") and right
        return right and answers == [it[::-1] for it in payloads]


async def calls_at_once(link: Between, payloads: list[bytes]) -> bool:
    kinds = {1: {port: deltat.PortKind.CALLER for port in range(10, 14)}, 2: {20: deltat.PortKind.SERVICE}}
    ends = {
        it: deltat.AsyncUdp(service_of(it, kinds[it]), (HOST, link.nodes[it - 1]), {3 - it: (HOST, link.port(it))})
        for it in (1, 2)
    }
    client, server = deltat.AsyncCalls(ends[1]), deltat.AsyncCalls(ends[2])

    @server.on(20)
    async def backwards(request: deltat.Request) -> bytes:
        await asyncio.sleep(0.01)
        return request.payload[::-1]

    serving = asyncio.create_task(server.run())
    answers = await asyncio.gather(
        *(client.call(deltat.Flow(1, 10 + it % 4, 2, 20), octets, 20.0) for it, octets in enumerate(payloads))
    )
    serving.cancel()
    waiting = asyncio.create_task(client.call(deltat.Flow(1, 10, 2, 21), b"nobody", 30.0))
    await asyncio.sleep(0.1)
    for end in ends.values():
        end.close()
    told, = await asyncio.gather(waiting, return_exceptions=True)
    return (
        answers == [it[::-1] for it in payloads]
        and isinstance(told, deltat.Unsure)
        and told.cause is deltat.Cause.STOPPED
    )


def reply_given_up(link: Between) -> bool:
    """Whether a service is told the flow of a request whose client went away before the reply."""
    flow = deltat.Flow(1, 10, 2, 20)
    service = service_of(2, {20: deltat.PortKind.SERVICE})
    # (with a watch the service would ask the client first, which is away)
    with deltat.Udp(service, (HOST, link.nodes[1]), {1: (HOST, link.port(2))}, watch=False) as udp:
        calls = deltat.Calls(udp)
        calls.on(20)(lambda request: request.payload)
        client = service_of(1, {10: deltat.PortKind.CALLER})
        with deltat.Udp(client, (HOST, link.nodes[0]), {2: (HOST, link.port(1))}, watch=False) as asks:
            client.call(flow, b"and away", 10_000)
            asks.flush(deltat.now())
        calls.run((PARAMS.mpl + PARAMS.r + PARAMS.a) / 1000 + 3)
        return calls.uncertain == {flow}


def services() -> bool:
    chance = random.Random(11)
    payloads = [b"%d " % it + bytes(it * 37 % 2000) for it in range(100)]
    with Between(lambda number, octets: chance.choices([0, 1, 2], [10, 75, 15])[0]) as link:
        served: list[bytes] = []
        serving = threading.Thread(target=serve_calls, args=(link, served))
        serving.start()
        right = calls_in_turn(link, payloads[:30])
        serving.join()
        right = served == [*payloads[:30], b"silent"] and right
    with Between(lambda number, octets: 1) as link:
        right = reply_given_up(link) and right
    with Between(lambda number, octets: chance.choices([0, 1, 2], [10, 75, 15])[0]) as link:
        return asyncio.run(calls_at_once(link, payloads)) and right


class Failing(deltat.Recorded):
    """A node of which one datagram of ten leaves for a node that has no address, and so isn't sent."""

    chance = random.Random(4)

    def datagrams(self) -> Iterator[deltat.Datagram]:
        for it in super().datagrams():
            yield it if self.chance.random() >= 0.1 else it._replace(to=3, link=2)


def exchanged(ends: dict[int, deltat.Udp], chance: random.Random, seconds: float) -> int:
    """The nodes send each other messages of all sizes for so long. How many came."""
    until, came, count = time.monotonic() + seconds, 0, 0
    while time.monotonic() < until:
        for number, udp in ends.items():
            if chance.random() < 0.1:
                count += 1
                try:
                    udp.send(
                        deltat.Flow(number, 10, 3 - number, 20 + count % 2),
                        chance.randbytes(chance.choice([1, 60, 501, 1200])),
                        chance.random() < 0.95,
                        chance.random() < 0.95,
                    )
                except (deltat.Full, deltat.Quiet):
                    pass
            came += len(udp.poll(0.002))
    return came


def recorded() -> bool:
    if not os.access(PROGRAM, os.X_OK):
        print("recorded: there is no program: ./build")
        return True
    chance, right = random.Random(6), True

    def rule(number: int, octets: bytes) -> int:
        if chance.random() < 0.05:
            spoilt = bytearray(octets)
            spoilt[chance.randrange(len(octets))] ^= 1 << chance.randrange(8)
            link.ends[2 - number].sendto(
                chance.choice([bytes(spoilt), octets[: chance.randrange(len(octets))]]), (HOST, link.nodes[2 - number])
            )
        return chance.choices([0, 1, 2], [15, 70, 15])[0]

    with tempfile.TemporaryDirectory() as folder, Between(rule) as link:
        nodes = {}
        for number, most in ((1, record.MOST), (2, SHORT_RECORD)):
            record.MOST = most
            nodes[number] = Failing(
                f"{folder}/{number}",
                number,
                PARAMS,
                [deltat.Link(1, CHARGE)],
                {3 - number: 1},
                start=deltat.Start(number),
            )
        # (the octets that were spoilt may be those of a trailer)
        ends = {
            number: deltat.Udp(
                node, (HOST, link.nodes[number - 1]), {3 - number: (HOST, link.port(number))}, watch=False
            )
            for number, node in nodes.items()
        }
        came = exchanged(ends, chance, PARAMS.quiet_ms / 1000 + 6)
        for number, udp in ends.items():
            udp.close()
            with open(f"{folder}/{number}", "rb") as given, open(f"{folder}/{number}.log", "rb") as log:
                ran, told = subprocess.run([str(PROGRAM), "retrace"], stdin=given, capture_output=True), log.read()
            words = {line.split(b" ")[2] for line in told.splitlines()[:-1]}
            size = os.path.getsize(f"{folder}/{number}")
            print(
                f"recorded: node {number} told {told.count(10)} lines of {len(words)} kinds, in {size} octets;"
                f" {udp.not_sent} frames weren't sent"
            )
            wanted = {b"unsent", b"bad", b"read", b"resent"} if number == 1 else {b"refused", b"quiet"}
            right = (
                right
                and (ran.returncode, ran.stdout) == (0, told)
                and wanted <= words
                and (number == 1 or size <= SHORT_RECORD)
            )
    print(f"recorded: {came} messages came")
    return right and came > 20


@contextlib.contextmanager
def anew() -> Iterator[dict[str, str]]:
    """The environment of nodes that never ran before."""
    with tempfile.TemporaryDirectory() as folder:
        yield {**os.environ, "XDG_STATE_HOME": folder}


def asked(service: list[str], how: str) -> bool:
    """Whether a service of the examples answers."""
    with anew() as places, subprocess.Popen(service, stdout=subprocess.DEVNULL, env=places) as it:
        time.sleep(0.7)
        client = [sys.executable, str(TOP / "examples" / "echo.py"), how, "hello", "world"]
        ran = subprocess.run(client, capture_output=True, text=True, timeout=20, env=places)
        it.kill()
    if ran.stdout != "olleh\ndlrow\n":
        print(f"examples: {service} was asked, and the answer was {ran.stdout!r} {ran.stderr[-200:]!r}")
    return ran.stdout == "olleh\ndlrow\n"


def counted(service: list[str]) -> bool:
    """Whether a service of the examples that keeps sums answers what tools/dtcat.py sends."""
    with anew() as places, subprocess.Popen(service, stdout=subprocess.DEVNULL, env=places) as it:
        time.sleep(0.7)
        client = [sys.executable, str(TOP / "tools" / "dtcat.py"), "1@4001", "2@4002", "--linger", "1"]
        ran = subprocess.run(
            client, input="apples 3\npears 5\napples 4\n", capture_output=True, text=True, timeout=20, env=places
        )
        it.kill()
    if ran.stdout != "apples 3\npears 5\napples 7\n":
        print(f"examples: {service} was asked, and the answer was {ran.stdout!r} {ran.stderr[-200:]!r}")
    # the nodes are other lives then
    time.sleep(1)
    return ran.stdout == "apples 3\npears 5\napples 7\n"


def compiled(compiler: str, name: str, folder: str) -> str | None:
    """An example in C, compiled, or None where it can't be."""
    words = [
        compiler,
        "-std=gnu11",
        "-O2",
        "-Wall",
        "-Wextra",
        "-Werror",
        "-I",
        str(TOP / "include"),
        str(TOP / "examples" / f"{name}.c"),
    ]
    built = subprocess.run(
        [*words, str(TOP / "lib" / "libdeltat.a"), "-o", f"{folder}/{name}-{compiler}"], capture_output=True, text=True
    )
    if built.returncode:
        print(f"examples: {compiler}: {built.stderr[-500:]}")
    return None if built.returncode else f"{folder}/{name}-{compiler}"


def examples() -> bool:
    compilers = [it for it in ("gcc", "clang") if shutil.which(it)]
    right = asked([sys.executable, str(TOP / "examples" / "echo.py"), "serve"], "ask")
    right = counted([sys.executable, str(TOP / "examples" / "counter.py")]) and right
    with tempfile.TemporaryDirectory() as folder:
        for compiler in compilers:
            counter, echo = (compiled(compiler, name, folder) for name in ("counter", "echo"))
            right = counter is not None and counted([counter]) and right
            # the nodes of the service before have to be forgotten: those of this one are other lives
            time.sleep(PARAMS.quiet_ms / 1000)
            right = echo is not None and asked([echo], "ask-plain") and right
    return right


def main() -> int:
    words = sys.argv[2:] if named else sys.argv[1:]
    tests = {
        "refusals": refusals,
        "whole": whole,
        "simulated": simulated,
        "processes": processes,
        "asynchronous": asynchronous,
        "recorded": recorded,
        "users": users,
        "services": services,
        "examples": examples,
    }
    failed = 0
    for name in words or tests:
        begun = time.monotonic()
        well = tests[name]()
        failed += not well
        print(f"{name}: {'ok' if well else 'FAILED'} ({time.monotonic() - begun:.1f} s)", flush=True)
    return 1 if failed else 0


if __name__ == "__main__":
    sys.exit(main())
