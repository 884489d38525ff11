#!/usr/bin/env python3
"""What programs in Python do by default, in their first hour, and what they do wrong: the promise holds, and they are
told. `tests/first_hour.py [--bindings FOLDER] [--list] [CASE ..]`; FOLDER is bindings/python if none is named. Each
case (`--list` prints them) does what a program did that broke the promise, hung, grew or was told nothing, over sockets
of this machine. Prints a line a case; ends with 1 if one fails, and with 77 if there is no library.

In tests/all: no words, 600 s."""
from __future__ import annotations

import argparse
import asyncio
import contextlib
import gc
import inspect
import logging
import os
import pathlib
import resource
import select
import shutil
import signal
import socket
import subprocess
import sys
import tempfile
import threading
import time
from collections.abc import Callable, Iterator

from lib import HOST, TOP, memory_of, own_port, skip

reads = argparse.ArgumentParser(description=__doc__, formatter_class=argparse.RawDescriptionHelpFormatter)
reads.add_argument("--bindings", default=str(TOP / "bindings" / "python"), metavar="FOLDER")
reads.add_argument("--list", action="store_true", help="print the cases, and run none")
reads.add_argument("cases", nargs="*", metavar="CASE")
given = reads.parse_args()
LIBRARY = os.environ.setdefault("DELTAT_LIBRARY", str(TOP / "lib" / "libdeltat.so.2"))
if not os.path.exists(LIBRARY):
    skip(f"{LIBRARY} isn't there: make -C lib")
sys.path.insert(0, given.bindings)
import deltat  # noqa: E402
from deltat._c import NodeCounts, sized  # noqa: E402
from deltat import node as node_module  # noqa: E402

# as `tools/params.py 250 50 --shelf 2` has them: what the pages use
PARAMS = deltat.Params(mpl=482, r=450, a=5, rto=90, probe=180, seg=1442, cap=65536, rcap=65536, window=65536)
SMALL = deltat.Params(mpl=482, r=450, a=5, rto=90, probe=180, seg=1442, cap=4096, rcap=4096, window=4096)
# of a machine that has more to do than it can: each step may take a second
PATIENT = deltat.Params(mpl=4000, r=15000, a=50, rto=250, probe=500, seg=1442, cap=65536, rcap=65536, window=65536)
LINKS = [deltat.Link(1, charge=274)]
CALL = deltat.Flow(1, 10, 2, 20)


class Wrong(Exception):
    """What a case found."""


def holds(is_so: object, why: str) -> None:
    if not is_so:
        raise Wrong(why)


@contextlib.contextmanager
def raises(error: type[BaseException], words: str = "") -> Iterator[None]:
    """The block raises this error, whose text has these words."""
    try:
        yield
    except error as why:
        holds(words in str(why), f"{error.__name__} says {why}, and not {words!r}")
        return
    except Exception as why:
        raise Wrong(f"{type(why).__name__} in the place of {error.__name__}: {why}") from why
    raise Wrong(f"{error.__name__} didn't come")


def node_of(number: int, other: int, at: int | None = None, params: deltat.Params = PARAMS) -> deltat.Node:
    return deltat.Node(number, params, LINKS, {other: 1}, start=deltat.Start.FIRST, at=at)


def caller_of(number: int, other: int, waiting: int = 1000, params: deltat.Params = PARAMS) -> deltat.Service:
    """A node whose ports 10 and 11 are callers'."""
    limits = deltat.ServiceLimits(max_calls=waiting)
    it = deltat.Service(number, 1, params, LINKS, {other: 1}, start=deltat.Start.FIRST, limits=limits)
    it.set_port(10, deltat.PortKind.CALLER)
    it.set_port(11, deltat.PortKind.CALLER)
    return it


def server_of(number: int, others: list[int], limits: deltat.ServiceLimits = deltat.ServiceLimits()) -> deltat.Service:
    """A node whose ports 20 and 21 are services', with a link to each of the others."""
    links = [deltat.Link(it, charge=274) for it in others]
    node = deltat.Service(number, 1, PARAMS, links, {it: it for it in others}, start=deltat.Start.FIRST, limits=limits)
    node.set_port(20, deltat.PortKind.SERVICE)
    node.set_port(21, deltat.PortKind.SERVICE)
    return node


def pair_of_udp(
    one: object, two: object, make: type = deltat.Udp, watch: bool = True
) -> tuple[object, object, tuple[int, int]]:
    """Sockets of nodes 1 and 2 at ports that nobody has."""
    ports = own_port(), own_port()
    ends = (
        make(it, (HOST, ports[at]), {2 - at: (HOST, ports[1 - at])}, watch=watch) for at, it in enumerate((one, two))
    )
    return *ends, ports


@contextlib.contextmanager
def process(code: str, *words: object, preload: str = "") -> Iterator[subprocess.Popen[str]]:
    """A program in Python that has these modules, stopped behind the block."""
    own = str(TOP / "tests")
    head = f"import sys\nsys.path[:0] = [{given.bindings!r}, {own!r}]\n"
    head += f"sys.argv[1:1] = ['--bindings', {given.bindings!r}]\n"
    text = head + "words, sys.argv[3:] = sys.argv[3:], []\nfrom first_hour import *\n" + code
    env = {**os.environ, "LD_PRELOAD": preload}
    with subprocess.Popen(
        [sys.executable, "-c", text, *map(str, words)], stdout=subprocess.PIPE, text=True, env=env
    ) as it:
        try:
            yield it
        finally:
            it.kill()


def line_of(it: subprocess.Popen[str], seconds: float = 20) -> str:
    """The next line of a program."""
    holds(select.select([it.stdout], [], [], seconds)[0], "a program said nothing")
    return it.stdout.readline().strip()


# --- how a node starts


def start_of(again: bool) -> deltat.Start:
    return deltat.Start.AGAIN if again else deltat.Start.FIRST


class FakeState:
    """A state that keeps nothing, and notes what is asked of it."""

    def __init__(self, again: bool, left: int | None = None) -> None:
        self.start, self.left, self.life, self.notes = start_of(again), left, 7, []

    def check(self, number: int, params: deltat.Params) -> None:
        self.notes.append((number, params))

    def opens_at(self, now: int) -> int:
        return now if self.left is None else now - (PARAMS.quiet_ms - self.left)

    def note_packet(self, now: int) -> None:
        self.notes.append("packet")

    def close(self) -> None:
        self.notes.append("closed")


def start_is_chosen() -> None:
    """a node is opened without a start: it is refused, and the error says what to choose"""
    with tempfile.TemporaryDirectory() as folder:
        for make in (
            lambda **how: deltat.Node(1, PARAMS, LINKS, {2: 1}, **how),
            lambda **how: deltat.Service(1, None if "state" in how else 1, PARAMS, LINKS, {2: 1}, **how),
            lambda **how: deltat.Recorded(f"{folder}/run", 1, PARAMS, LINKS, {2: 1}, **how),
        ):
            with raises(TypeError, "start=Start.AGAIN if"):
                make()
            with raises(TypeError, "exactly one"):
                make(start=deltat.Start.AGAIN, state=FakeState(False))
            for start in deltat.Start:
                make(start=start).close()


def state_is_asked() -> None:
    """a state says how a node starts, and is told of its packets and its end"""
    for again, left in ((False, None), (True, None), (True, 300), (True, 0)):
        state = FakeState(again, left)
        quiet = PARAMS.quiet_ms if again and left is None else left or 0
        node = deltat.Node(1, PARAMS, LINKS, {2: 1}, state=state, at=100_000)
        if quiet:
            with raises(deltat.Quiet):
                node.send(CALL, b"early", at=100_000 + quiet - 1)
        node.send(CALL, b"in time", at=100_000 + quiet)
        node.close()
        node.close()
        packets = ["packet"] * (2 if quiet else 1)
        holds(state.notes == [(1, PARAMS), *packets, "closed"], f"the state was asked {state.notes}")
    state = FakeState(False)
    with deltat.Service(1, None, PARAMS, LINKS, {2: 1}, state=state) as caller:
        caller.set_port(10, deltat.PortKind.CALLER)
        holds(caller.life == 7, "the life isn't that of the state")
        with socket.socket(socket.AF_INET, socket.SOCK_DGRAM) as peer:
            peer.bind((HOST, 0))
            peer.setblocking(False)
            udp = deltat.Udp(caller, (HOST, own_port()), {2: peer.getsockname()}, watch=False)
            caller.call(CALL, b"x", 1000)
            with raises(BlockingIOError):
                peer.recv(2000)
            udp.flush(deltat.now())
            state.notes.append(f"sent {peer.recv(2000)[16]}")
            peer.sendto(bytes(40), udp.socket.getsockname())
            udp.poll(1)
            udp.close()
    holds(state.notes[1:] == ["packet", "sent 1", "packet", "closed"], f"the state was asked {state.notes[1:]}")
    state_refuses()
    with raises(deltat.InvalidArgument):
        deltat.Node(
            1, deltat.Params(1, 3000, 200, 500, 800, 100, 4096, 4096, 512), LINKS, {}, state=(state := FakeState(False))
        )
    holds(state.notes[-1] == "closed", "a start that was refused leaves its state open")


def state_refuses() -> None:
    """A state that can't be written ends the work of a socket, with its error."""

    def refuse(now: int) -> None:
        raise deltat.StateError("the disk is full")

    state = FakeState(False)
    state.note_packet = refuse
    with socket.socket(socket.AF_INET, socket.SOCK_DGRAM) as peer:
        peer.bind((HOST, 0))
        udp = deltat.Udp(
            deltat.Node(1, PARAMS, LINKS, {2: 1}, state=state), (HOST, own_port()), {2: peer.getsockname()}, watch=False
        )
        peer.sendto(bytes(40), udp.socket.getsockname())
        for _ in range(2):
            with raises(deltat.StateError, "the disk is full"):
                udp.poll(1)
        holds(udp.node.counts().datagrams_refused == 0, "a datagram was passed in all the same")
        udp.close()


# --- processes and memory


def echo_calls(udp: deltat.Udp) -> threading.Thread:
    """A thread that serves port 20 until the socket is closed."""
    calls = deltat.Calls(udp)
    calls.on(20)(lambda request: b"ok " + request.payload)

    it = threading.Thread(target=calls.run, daemon=True)
    it.start()
    return it


def in_child(do: Callable[[], str]) -> str:
    """What is found in a forked child, which ends without the rest of this program."""
    ends = os.pipe()
    child = os.fork()
    if child == 0:
        try:
            signal.alarm(20)
            text = do()
        except BaseException as why:
            text = f"{type(why).__name__}: {why}"
        os.write(ends[1], text.encode() or b"-")
        os._exit(0)
    os.close(ends[1])
    os.waitpid(child, 0)
    with os.fdopen(ends[0], "rb") as told:
        return told.read().decode().replace("-", "", 1)


def forked() -> None:
    """a process with open nodes forks: in the child each call raises, and the parent's calls get their own answers"""
    client, server, _ = pair_of_udp(caller_of(1, 2), server_of(2, [1]))
    serving = echo_calls(server)
    calls = deltat.Calls(client)
    plain = node_of(5, 6)
    folder = tempfile.TemporaryDirectory()
    record = deltat.Recorded(f"{folder.name}/run", 7, PARAMS, LINKS, {6: 1}, start=deltat.Start.FIRST)
    holds(calls.call(CALL, b"zero") == b"ok zero", "no answer before the fork")

    def tries() -> str:
        memory = getattr(client.node, "_address", None)
        asked = {
            "call": lambda: calls.call(CALL, b"child", 1.0),
            "poll": lambda: client.poll(0),
            "flush": lambda: client.flush(0),
            "wake": lambda: client.node.wake,
            "datagrams": lambda: list(client.node.datagrams()),
            "events": lambda: list(client.node.events()),
            "counts": client.node.counts,
            "blocked_counts": client.node.blocked_counts,
            "stop": client.node.stop,
            "tick": plain.tick,
            "reports": lambda: list(plain.reports()),
            "messages": lambda: list(plain.messages()),
            "send": lambda: plain.send(deltat.Flow(5, 1, 6, 1), b"x"),
        }
        for name, ask in asked.items():
            with raises(getattr(deltat, "Forked", deltat.Stopped), "forked child"):
                try:
                    ask()
                except Exception as why:
                    raise type(why)(*why.args) from None
                raise Wrong(f"{name} doesn't raise")
        holds(
            (
                client.socket.fileno() < 0
                and client.node._exports.get_counts(memory, sized(NodeCounts)) == deltat.Status.NOT_OPEN
            ),
            "the child's copies are open",
        )
        for it in (client, plain, record):
            it.close()
        holds(os.path.getsize(f"{folder.name}/run") == 0, "a child writes its parent's record")
        return ""

    for number in range(3):
        found = in_child(tries)
        holds(not found, f"in a child: {found}")
        holds(calls.call(CALL, b"%d" % number) == b"ok %d" % number, "a wrong answer behind a fork")
    record.close()
    holds(os.path.getsize(f"{folder.name}/run") > 0, "the parent writes no record")
    folder.cleanup()
    client.close()
    server.close()
    serving.join(5)


def forked_loop() -> None:
    """a program forks within a loop of asyncio: what the child closes stays open for its parent"""

    async def main() -> None:
        one, two, _ = pair_of_udp(node_of(1, 2), node_of(2, 1), deltat.AsyncUdp)

        def closes() -> str:
            one.close()
            two.close()
            return ""

        holds(not in_child(closes), "a child can't close")
        await one.send(CALL, b"hello")
        message = await asyncio.wait_for(two.receive(), 5)
        holds(message.octets == b"hello", "another message")
        one.close()
        two.close()

    asyncio.run(main())


def dropped() -> None:
    """500 nodes are dropped without `close`: their memory is freed"""

    def one() -> None:
        it = node_of(1, 2, at=0)
        it.send(CALL, bytes(60_000), at=1)

    for _ in range(50):
        one()
    gc.collect()
    before = memory_of(os.getpid())
    for _ in range(500):
        one()
    grown = memory_of(os.getpid()) - before
    holds(grown < 10_000, f"it grew by {grown} KiB")
    with node_of(1, 2, at=0) as it:
        it.tick(1)
    with raises(deltat.Stopped):
        it.tick(2)


def descriptors() -> None:
    """a process has 1,030 descriptors: a socket is polled all the same"""
    soft, hard = resource.getrlimit(resource.RLIMIT_NOFILE)
    resource.setrlimit(resource.RLIMIT_NOFILE, (max(soft, min(4096, hard)), hard))
    held = [socket.socket(socket.AF_INET, socket.SOCK_DGRAM) for _ in range(1030)]
    try:
        with deltat.Udp(node_of(1, 2), (HOST, own_port()), {2: (HOST, own_port())}) as udp:
            holds(udp.socket.fileno() > 1024 and udp.poll(0.01) == [], "it isn't polled")
    finally:
        for it in held:
            it.close()


def receive_buffer() -> None:
    """a burst comes: the kernel keeps as much of it as for `deltat node`"""
    most = int(pathlib.Path("/proc/sys/net/core/rmem_max").read_text())
    with deltat.Udp(node_of(1, 2), (HOST, own_port()), {2: (HOST, own_port())}) as udp:
        kept = udp.socket.getsockopt(socket.SOL_SOCKET, socket.SO_RCVBUF)
        # (the kernel doubles what it is asked for)
        holds(kept >= 2 * min(most, 1 << 21), f"{kept} octets are kept, and {most} are allowed")


# --- what is told


def longer_than_cap() -> None:
    """a message is longer than a flow may hold: it is refused at once, in both loops alike"""
    with deltat.Udp(node_of(1, 2, params=SMALL), (HOST, own_port()), {2: (HOST, own_port())}) as udp:
        for octets in (bytes(4097), bytes(5000), bytes(70_000), b""):
            with raises(deltat.InvalidArgument, "1 to 4096"):
                udp.send(CALL, octets)
        udp.send(CALL, bytes(4096))
        with raises(deltat.Full):
            udp.send(CALL, b"x")

    async def main() -> None:
        async with deltat.AsyncUdp(node_of(1, 2, params=SMALL), (HOST, own_port()), {2: (HOST, own_port())}) as udp:
            with raises(deltat.InvalidArgument, "1 to 4096"):
                await asyncio.wait_for(udp.send(CALL, bytes(5000)), 2)

    asyncio.run(main())


def units() -> None:
    """a timeout is 5: of a node these are ms, of calls seconds, and their names say it"""
    for kind, name in ((deltat.Service, "timeout_ms"), (deltat.Calls, "timeout"), (deltat.AsyncCalls, "timeout")):
        holds(list(inspect.signature(kind.call).parameters)[3] == name, f"{kind.__name__}.call has no {name}")
    caller = caller_of(1, 2)
    at = deltat.now()
    number = caller.call(CALL, b"x", timeout_ms=5, at=at)
    caller.tick(at + 6)
    holds(list(caller.events()) == [deltat.UnsureCall(number, deltat.Cause.TIMEOUT)], "5 ms aren't over")
    with deltat.Udp(caller, (HOST, own_port()), {2: (HOST, own_port())}) as udp:
        begun = time.monotonic()
        with raises(deltat.Unsure):
            deltat.Calls(udp).call(CALL, b"x", timeout=0.3)
        holds(0.25 < time.monotonic() - begun < 5, f"0.3 s are {time.monotonic() - begun:.2f} s")
        with raises(deltat.InvalidArgument, "s; it must be below"):
            deltat.Calls(udp).call(CALL, b"x", timeout=float("inf"))


def octets_alone() -> None:
    """a number or a text is sent: it is refused, and no octets of zero are made of it"""
    with deltat.Udp(node_of(1, 2), (HOST, own_port()), {2: (HOST, own_port())}) as udp:
        for it in (1000, "text", None):
            with raises(TypeError):
                udp.send(CALL, it)
        udp.send(CALL, bytearray(b"octets"))
        udp.send(CALL, memoryview(b"octets"))
    caller, server = caller_of(1, 2), server_of(2, [1])
    for it in (8, "text", None):
        with raises(TypeError):
            caller.call(CALL, it, 1000)
        with raises(TypeError):
            server.reply(deltat.Token(CALL, 1 << 32), it)


def given_up_is_kept() -> None:
    """4,000 messages follow one that was given up, and nobody takes reports: UNCERTAIN is told all the same"""
    nodes = node_of(1, 2, at=0), node_of(2, 1, at=0)
    lost, at = [deltat.Flow(1, 10, 2, 20), deltat.Flow(1, 12, 2, 20)], 1
    for _ in range(2):
        for flow in lost:
            nodes[0].send(flow, b"lost", at=at)
        at += 3000
        nodes[0].tick(at)
        list(nodes[0].datagrams())
    for _ in range(4000):
        nodes[0].send(deltat.Flow(1, 11, 2, 20), b"x", at=at)
        for frame in nodes[0].datagrams():
            nodes[1].receive(1, frame.octets, at=at)
        list(nodes[1].messages(at))
        for frame in nodes[1].datagrams():
            nodes[0].receive(1, frame.octets, at=at)
        at += 1
    told = list(nodes[0].reports())
    found = {it.flow: it.count for it in told if it.kind is deltat.ReportKind.UNCERTAIN}
    holds(found == dict.fromkeys(lost, 8), f"{found} was given up, by the reports")
    holds(len(told) <= 10_002 and nodes[0].reports_dropped > 0, f"{len(told)} reports are kept")


def other_link() -> None:
    """a node's link isn't number 1: its socket finds it, and one that is named wrongly is refused"""
    nodes = [
        deltat.Node(it, PARAMS, [deltat.Link(7, charge=274)], {3 - it: 7}, start=deltat.Start.FIRST) for it in (1, 2)
    ]
    one, two, ports = pair_of_udp(*nodes)
    with one, two:
        one.send(CALL, b"hello")
        end, found = time.monotonic() + 5, []
        while not found and time.monotonic() < end:
            found += two.poll(0.02)
            one.poll(0.02)
        holds([it.octets for it in found] == [b"hello"], f"{found} came; {nodes[1].counts()}")
    for links, routes in (([7], {2: 1}), ([7], {2: 8}), ([7, 8], None), ([], None)):
        lonely = deltat.Node(1, PARAMS, [deltat.Link(it, charge=274) for it in links], {}, start=deltat.Start.FIRST)
        with raises(deltat.InvalidArgument, "peer 2"):
            deltat.Udp(lonely, (HOST, ports[0]), {2: (HOST, ports[1])}, routes)
    socket.socket(socket.AF_INET, socket.SOCK_DGRAM).bind((HOST, ports[0]))


# --- the clock


class Noting(deltat.Node):
    """A node that notes what a datagram is said to have waited."""

    def receive(self, link: int, datagram: bytes, waited_ms: int = 0, at: int | None = None) -> deltat.Status:
        self.noted.append((at, waited_ms))
        return super().receive(link, datagram, waited_ms, at)


# stops its program at one reading of the clock: a datagram comes, and 30 ms are over, before the reading or behind it
STOPPING = r"""
#include <arpa/inet.h>
#include <errno.h>
#include <sys/socket.h>
#include <sys/syscall.h>
#include <time.h>
#include <unistd.h>

static int place = -1, count, is_before, has_stamps, from, to;
static double came = -1;

static int read_clock(clockid_t clock, struct timespec *at) { return (int)syscall(SYS_clock_gettime, clock, at); }

static void stop(void) {
    struct timespec at;
    struct sockaddr_in there = {.sin_family = AF_INET, .sin_port = htons(to)};
    there.sin_addr.s_addr = htonl(INADDR_LOOPBACK);
    char octets[40] = {0};
    read_clock(CLOCK_BOOTTIME, &at);
    came = at.tv_sec * 1e3 + at.tv_nsec / 1e6;
    sendto(from, octets, sizeof octets, 0, (struct sockaddr *)&there, sizeof there);
    nanosleep(&(struct timespec){0, 30000000}, 0);
}

int clock_gettime(clockid_t clock, struct timespec *at) {
    int is_here = clock == CLOCK_BOOTTIME && place >= 0 && count++ == place;
    if (is_here && is_before) stop();
    int failed = read_clock(clock, at);
    if (is_here && !is_before) stop();
    return failed;
}

int setsockopt(int fd, int level, int name, const void *value, socklen_t len) {
    if (level == SOL_SOCKET && name == SO_TIMESTAMPNS && !has_stamps) return errno = ENOPROTOOPT, -1;
    return (int)syscall(SYS_setsockopt, fd, level, name, value, len);
}

void set_stop(int at, int before, int stamps, int fd, int port) {
    place = at, count = 0, is_before = before, has_stamps = stamps, from = fd, to = port, came = -1;
}

double came_at(void) { return came; }
"""
STOPPED = """
import ctypes
library = ctypes.CDLL(None)
library.came_at.restype = ctypes.c_double

def stopped_at(place, before, stamps):
    node = Noting(1, PARAMS, LINKS, {2: 1}, start=deltat.Start.FIRST)
    node.noted = []
    library.set_stop(-1, 0, stamps, 0, 0)
    with socket.socket(socket.AF_INET, socket.SOCK_DGRAM) as peer:
        peer.bind((HOST, 0))
        with deltat.Udp(node, (HOST, 0), {2: peer.getsockname()}, watch=False) as udp:
            # (stamps count from 100 ms on)
            for _ in range(6 if stamps else 1):
                udp.poll(0.02)
                time.sleep(0.02)
            udp.poll(0)
            library.set_stop(place, before, stamps, peer.fileno(), udp.socket.getsockname()[1])
            for _ in range(5):
                udp.poll(0.001)
    came = library.came_at()
    # (a moment is rounded down, and what was waited is rounded up)
    ages = [at - waited - came for at, waited in node.noted]
    young = [f"{it:.0f} ms too young at reading {place}" for it in ages if it > 0.5]
    return len(node.noted), young

stops = [stopped_at(place, before, stamps) for stamps in (1, 0) for before in (1, 0) for place in range(14)]
print(sum(it for it, _ in stops), *(it for _, young in stops for it in young), flush=True)
"""


def slow_clock() -> None:
    """a program is stopped beside a reading of its clock, and a datagram comes meanwhile: it counts as old"""
    compiler = shutil.which("cc")
    if not compiler:
        print("  not tried: there is no C compiler")
        return
    with tempfile.TemporaryDirectory() as folder:
        place = pathlib.Path(folder, "stopping.c")
        place.write_text(STOPPING)
        subprocess.run([compiler, "-shared", "-fPIC", "-O1", "-o", f"{folder}/stopping.so", place], check=True)
        with process(STOPPED, preload=f"{folder}/stopping.so") as it:
            count, *young = line_of(it, 60).split(" ", 1)
    print(f"  {count} datagrams came beside 56 readings", flush=True)
    holds(int(count) > 40, f"{count} datagrams came")
    holds(not young, young and young[0])


# --- calls


class Lines(logging.Handler):
    """Keeps what the logger says."""

    def __init__(self) -> None:
        super().__init__()
        self.lines: list[str] = []

    def emit(self, record: logging.LogRecord) -> None:
        self.lines.append(self.format(record))

    def __enter__(self) -> Lines:
        self.was = logging.getLogger("deltat").propagate
        logging.getLogger("deltat").propagate = False
        logging.getLogger("deltat").addHandler(self)
        return self

    def __exit__(self, *_: object) -> None:
        logging.getLogger("deltat").removeHandler(self)
        logging.getLogger("deltat").propagate = self.was


def bad_replies() -> None:
    """a function returns a text, a number, too many octets or raises, oftener than requests may be open: all go on"""
    bad = {b"text": "text", b"number": 5, b"long": bytes(65_530)}

    async def main(log: Lines) -> None:
        client, server, _ = pair_of_udp(
            caller_of(1, 2), server_of(2, [1], deltat.ServiceLimits(10, 3, 3)), deltat.AsyncUdp
        )
        calls, served = deltat.AsyncCalls(client), deltat.AsyncCalls(server)

        @served.on(20)
        async def serve(request: deltat.Request) -> object:
            return bad[request.payload] if request.payload in bad else {b"good": b"fine"}[request.payload]

        serving = asyncio.create_task(served.run())
        for word in (b"good", *bad, *bad, b"raises", b"good"):
            wants = contextlib.nullcontext() if word == b"good" else raises(deltat.Unsure)
            with wants:
                holds(
                    await asyncio.wait_for(calls.call(CALL, word, 2.0 if word == b"good" else 0.3), 5) == b"fine",
                    "another answer",
                )
        holds(
            len(log.lines) == 7 and all("it is forgotten" in it for it in log.lines),
            f"the log says {len(log.lines)} lines",
        )
        serving.cancel()
        client.close()
        server.close()

    with Lines() as log:
        asyncio.run(main(log))
    # (the client takes no turn, so it would answer no question of a watch)
    client, server, _ = pair_of_udp(caller_of(1, 2), server_of(2, [1], deltat.ServiceLimits(10, 1, 1)), watch=False)
    calls = deltat.Calls(server)
    calls.on(20)(lambda request: bad.get(request.payload, b"fine"))
    with client, server:
        for word in (*bad, b"good"):
            client.node.call(CALL, word, 700)
            client.flush(deltat.now())
            try:
                calls.run(0.3)
                holds(word == b"good", "what isn't a reply isn't raised by `run`")
            except (TypeError, deltat.InvalidArgument):
                holds(word != b"good", "a good reply raises")
        end = time.monotonic() + 3
        told: list[object] = []
        while len(told) < 4 and time.monotonic() < end:
            client.poll(0.05)
            server.poll(0)
            told += client.node.events()
        holds([type(it) for it in told].count(deltat.Answered) == 1, f"{told} behind three bad replies")


def one_at_a_time() -> None:
    """a service has room for one request, and 30 come at once: each reply lets the next one in, at once"""

    async def main() -> float:
        client, server, _ = pair_of_udp(
            caller_of(1, 2), server_of(2, [1], deltat.ServiceLimits(10, 1, 1)), deltat.AsyncUdp
        )
        calls, served = deltat.AsyncCalls(client), deltat.AsyncCalls(server)

        @served.on(20)
        async def echo(request: deltat.Request) -> bytes:
            await asyncio.sleep(0.001)
            return request.payload

        serving = asyncio.create_task(served.run())
        begun = time.monotonic()
        answers = await asyncio.gather(*(calls.call(CALL, b"%d" % it, 10.0) for it in range(30)))
        took = time.monotonic() - begun
        holds(answers == [b"%d" % it for it in range(30)], "other answers")
        serving.cancel()
        client.close()
        server.close()
        return took

    took = min(asyncio.run(main()) for _ in range(2))
    holds(took < 1, f"30 calls took {took:.1f} s")


def two_over_one() -> None:
    """two `Calls` have one socket: each gets its own ends, and the requests of its own ports"""

    async def many(calls: deltat.AsyncCalls, word: bytes, port: int) -> None:
        for number in range(50):
            answer = await asyncio.wait_for(calls.call(deltat.Flow(1, 10, 2, port), b"%s %d" % (word, number), 3.0), 5)
            holds(answer == b"%d %s %d" % (port, word, number), f"{answer} answers {word} {number}")

    async def main() -> None:
        client, server, _ = pair_of_udp(caller_of(1, 2), server_of(2, [1]), deltat.AsyncUdp)
        serving = []
        for port in (20, 21):
            served = deltat.AsyncCalls(server)

            async def serve(request: deltat.Request, port: int = port) -> bytes:
                await asyncio.sleep(0.002)
                return b"%d %s" % (port, request.payload)

            served.on(port)(serve)
            serving.append(asyncio.create_task(served.run()))
        await asyncio.gather(*(many(deltat.AsyncCalls(client), b"%d" % it, 20 + it % 2) for it in range(4)))
        with raises(deltat.InvalidArgument, "served by other Calls"):
            served.on(20)(serve)
        for it in serving:
            it.cancel()
        client.close()
        server.close()

    asyncio.run(main())
    client, server, _ = pair_of_udp(caller_of(1, 2), server_of(2, [1]))
    serving = echo_calls(server)
    one, other = deltat.Calls(client), deltat.Calls(client)
    for number in range(20):
        for calls in (one, other):
            holds(calls.call(CALL, b"%d" % number, 3.0) == b"ok %d" % number, "another answer")
        # one that is made for a single call leaves nothing behind
        holds(deltat.Calls(client, [12]).call(CALL, b"x", 3.0) == b"ok x", "another answer")
    client.close()
    server.close()
    serving.join(5)


def closed_loops() -> None:
    """a loop over messages or requests runs while its node is closed: it ends"""

    async def over_messages(udp: deltat.AsyncUdp) -> str:
        async for _ in udp:
            pass
        return "ended"

    async def over_requests(udp: deltat.AsyncUdp) -> str:
        async for _ in deltat.AsyncCalls(udp).requests():
            pass
        return "ended"

    async def main() -> None:
        for node, loop in ((node_of(1, 2), over_messages), (caller_of(1, 2), over_requests)):
            udp = deltat.AsyncUdp(node, (HOST, own_port()), {2: (HOST, own_port())})
            going = asyncio.create_task(loop(udp))
            await asyncio.sleep(0.05)
            udp.close()
            holds(await asyncio.wait_for(going, 2) == "ended", "it doesn't end")
            with raises(deltat.Stopped):
                await udp.receive()

    asyncio.run(main())
    for node, loop in (
        (node_of(1, 2), lambda udp: list(udp)),
        (caller_of(1, 2), lambda udp: list(deltat.Calls(udp).requests())),
    ):
        udp = deltat.Udp(node, (HOST, own_port()), {2: (HOST, own_port())})
        udp.close()
        holds(loop(udp) == [], "it doesn't end")


SLOW = """
where = server_of(9, [1, 2]), (HOST, int(words[0])), {it: (HOST, int(words[it])) for it in (1, 2)}

def serve(request):
    if request.payload == b"slow":
        time.sleep(2)
    if request.payload == b"thread":
        return b"main" if threading.current_thread() is threading.main_thread() else b"another"
    return b"done " + request.payload

async def main():
    async with deltat.AsyncUdp(*where) as udp:
        calls = deltat.AsyncCalls(udp)
        calls.on(20)(serve)
        print("ready", flush=True)
        await calls.run()

if words[3] == "async":
    asyncio.run(main())
else:
    calls = deltat.Calls(deltat.Udp(*where))
    calls.on(20)(serve)
    print("ready", flush=True)
    calls.run()
"""


def slow_functions() -> None:
    """a plain function takes 2 s: calls of others wait for it and are answered, and none is unsure"""
    for kind in ("plain", "async"):
        ports = [own_port() for _ in range(3)]
        with process(SLOW, *ports, kind) as it:
            holds(line_of(it) == "ready", "the service doesn't begin")
            udps = [deltat.Udp(caller_of(number, 9), (HOST, ports[number]), {9: (HOST, ports[0])}) for number in (1, 2)]
            flows = [deltat.Flow(number, 10, 9, 20) for number in (1, 2)]
            answers: dict[int, object] = {}

            def ask(at: int, word: bytes) -> None:
                try:
                    answers[at] = deltat.Calls(udps[at]).call(flows[at], word, 8.0)
                except deltat.Unsure as why:
                    answers[at] = f"unsure: {why}"

            asking = [threading.Thread(target=ask, args=(0, b"slow")), threading.Thread(target=ask, args=(1, b"fast"))]
            asking[0].start()
            time.sleep(0.3)
            asking[1].start()
            for one in asking:
                one.join()
            holds(answers == {0: b"done slow", 1: b"done fast"}, f"{kind}: {answers}")
            where = deltat.Calls(udps[0]).call(flows[0], b"thread", 3.0)
            holds(where == (b"main" if kind == "plain" else b"another"), f"{kind}: the function runs in {where}")
            for udp in udps:
                udp.close()


def background_work() -> None:
    """a program works for 2 s: in `background` a message that comes meanwhile is acknowledged, and waits for it"""
    one, two, _ = pair_of_udp(node_of(1, 2), node_of(2, 1))
    with one, two:
        one.send(CALL, b"hello")
        for _ in range(5):
            one.poll(0.01)
            two.poll(0.01)
        told: list[deltat.Report] = []

        def asks() -> None:
            time.sleep(0.3)
            one.send(CALL, b"meanwhile")
            end = time.monotonic() + 3
            while time.monotonic() < end and not any(
                it.kind in (deltat.ReportKind.ACKNOWLEDGED, deltat.ReportKind.UNCERTAIN) for it in told
            ):
                one.poll(0.05)
                told.extend(one.node.reports())

        list(one.node.reports())
        asking = threading.Thread(target=asks)
        asking.start()
        with two.background():
            time.sleep(2)
        came = two.poll(0)
        asking.join()
        kinds = [
            it.kind.name for it in told if it.kind in (deltat.ReportKind.ACKNOWLEDGED, deltat.ReportKind.UNCERTAIN)
        ]
        holds(kinds == ["ACKNOWLEDGED"], f"the reports are {kinds}")
        holds([it.octets for it in came] == [b"meanwhile"], f"{came} came")


ECHO = """
async def main():
    params = PATIENT if words[2:] == ["patient"] else PARAMS
    limits = deltat.ServiceLimits(10, 4000, 4000)
    node = deltat.Service(2, 1, params, LINKS, {1: 1}, start=deltat.Start.FIRST, limits=limits)
    node.set_port(20, deltat.PortKind.SERVICE)
    node.set_port(21, deltat.PortKind.SERVICE)
    async with deltat.AsyncUdp(node, (HOST, int(words[0])), {1: (HOST, int(words[1]))}) as udp:
        calls = deltat.AsyncCalls(udp)

        @calls.on(20)
        async def echo(request):
            return request.payload

        @calls.on(21)
        async def never(request):
            await asyncio.sleep(1000)

        print("ready", flush=True)
        await calls.run()

asyncio.run(main())
"""
# calls a second with 1,000 under way, of a machine that has little else to do, and of one that has more than it can
FLOOR = 5000, 100


async def call_on(udp: deltat.AsyncUdp, seconds: float, tasks: int) -> tuple[int, int, float]:
    """So many calls are under way for so long: how many were answered and unsure, and the seconds of a processor."""
    calls, end, ends = deltat.AsyncCalls(udp), time.monotonic() + seconds, [0, 0]

    async def one(number: int) -> None:
        flow = deltat.Flow(1, 10 + number % 2, 2, 20)
        while time.monotonic() < end:
            try:
                holds(await calls.call(flow, b"%d" % number, 30.0) == b"%d" % number, "another answer")
                ends[0] += 1
            except deltat.Unsure:
                ends[1] += 1

    begun = time.process_time()
    await asyncio.gather(*(one(it) for it in range(tasks)))
    return ends[0], ends[1], time.process_time() - begun


async def cost_of(calls: deltat.AsyncCalls, waiting: int) -> float:
    """What one of 150 calls one after another costs, in seconds of a processor, while so many others wait."""
    others = [asyncio.ensure_future(calls.call(deltat.Flow(1, 11, 2, 21), b"", 60.0)) for _ in range(waiting)]
    await asyncio.sleep(1)
    begun = time.process_time()
    for number in range(150):
        holds(await calls.call(CALL, b"%d" % number, 10.0) == b"%d" % number, "another answer")
    took = (time.process_time() - begun) / 150
    for it in others:
        it.cancel()
    return took


def others_wait() -> None:
    """900 calls wait, and others are made: a datagram for these wakes none of the 900"""
    ports = own_port(), own_port()

    async def main() -> tuple[float, float]:
        async with deltat.AsyncUdp(caller_of(1, 2, 2000), (HOST, ports[1]), {2: (HOST, ports[0])}) as udp:
            calls = deltat.AsyncCalls(udp)
            return await cost_of(calls, 0), await cost_of(calls, 900)

    with process(ECHO, *ports) as it:
        holds(line_of(it) == "ready", "the service doesn't begin")
        alone, beside = asyncio.run(main())
    print(f"  a call costs {1e6 * alone:.0f} us of a processor, and {1e6 * beside:.0f} us while 900 wait", flush=True)
    holds(beside < 5 * alone, "it costs as much as the others")


async def calls_at(ports: tuple[int, int], params: deltat.Params, seconds: float) -> tuple[int, int, float]:
    """As `call_on`, of 1,000 calls."""
    async with deltat.AsyncUdp(caller_of(1, 2, 2000, params), (HOST, ports[1]), {2: (HOST, ports[0])}) as udp:
        return await asyncio.wait_for(call_on(udp, seconds, 1000), 80)


def many_calls() -> None:
    """1,000 calls are under way at once: all are answered, and quickly (a busy machine gets times that allow for it)"""
    seconds, best, is_patient = 3.0, 0.0, os.getloadavg()[0] > (os.cpu_count() or 1)
    floor = FLOOR[is_patient]
    for _ in range(4):
        ports = own_port(), own_port()
        with process(ECHO, *ports, *["patient"] * is_patient) as it:
            holds(line_of(it) == "ready", "the service doesn't begin")
            answered, unsure, took = asyncio.run(calls_at(ports, PATIENT if is_patient else PARAMS, seconds))
        cost = 1e6 * took / max(answered, 1)
        print(
            f"  1,000 calls under way: {answered / seconds:.0f} a second, {unsure} unsure, {cost:.0f} us each",
            flush=True,
        )
        if not unsure:
            best = max(best, answered / seconds)
        if best >= floor:
            break
    holds(best >= floor, f"{best:.0f} calls a second, of the runs in which none was unsure")


def blocked_loop() -> None:
    """a loop of asyncio makes 250 calls in one go, and works 3 ms before each: what comes meanwhile isn't late"""
    unsure = min(blocked_once() for _ in range(3))
    holds(unsure == 0, f"{unsure} of 250 are unsure")


def blocked_once() -> int:
    """How many of these calls are unsure."""
    ports = own_port(), own_port()

    async def main() -> list[object]:
        async with deltat.AsyncUdp(caller_of(1, 2, 2000), (HOST, ports[1]), {2: (HOST, ports[0])}) as udp:
            calls = deltat.AsyncCalls(udp)

            async def one(number: int) -> bytes:
                time.sleep(0.003)
                return await calls.call(CALL, b"%d" % number, 10.0)

            return await asyncio.wait_for(asyncio.gather(*(one(it) for it in range(250)), return_exceptions=True), 30)

    with process(ECHO, *ports) as it:
        holds(line_of(it) == "ready", "the service doesn't begin")
        told = asyncio.run(main())
    return sum(it != b"%d" % number for number, it in enumerate(told))


# --- strangers


def flood() -> None:
    """120,000 new flows come from a peer's address, and no guard was set: the service stays as large, and serves"""
    client, server, _ = pair_of_udp(caller_of(1, 2), server_of(2, [1]), watch=False)
    with client, server:
        number = client.node.call(CALL, b"x", 1)
        pattern = bytearray(next(client.node.datagrams()).octets)
        holds(pattern[16] == 1 and number is not None, "no packet of data")
        server.poll(0)
        before = memory_of(os.getpid())
        for flow in range(120_000):
            # from a node and a port of its own, to a port that is open or to one that isn't
            pattern[8:12] = (1000 + flow // 60_000).to_bytes(4, "big")
            pattern[18:20] = (flow % 60_000).to_bytes(2, "big")
            pattern[20:22] = (20 if flow % 2 else 30 + flow % 7).to_bytes(2, "big")
            client.socket.sendto(pattern, server.socket.getsockname())
            if flow % 100 == 99:
                server.poll(0)
                for it in server.node.events():
                    server.node.forget(it.token)
        grown, kept = memory_of(os.getpid()) - before, server.node.blocked_counts()
        print(f"  120,000 new flows: {grown} KiB, {kept}", flush=True)
        holds(grown < 60_000, f"it grew by {grown} KiB")
        holds(kept.closed_port > 50_000 and kept.too_many_flows > 10_000, f"{kept} were kept out")
        serving = echo_calls(server)
        time.sleep(PARAMS.quiet_ms / 1000 + 0.5)
        holds(deltat.Calls(client).call(deltat.Flow(1, 11, 2, 20), b"y", 5.0) == b"ok y", "it doesn't serve any more")
        server.close()
        serving.join(5)


def guards() -> None:
    """the guard of a socket has the ports with a kind, also those that get one later; a program's own one stays"""

    def admitted(server: deltat.Service, port: int) -> bool:
        caller = caller_of(1, 2)
        caller.call(deltat.Flow(1, 10, 2, port), b"x", 1000)
        return server.receive(1, next(caller.datagrams()).octets) is deltat.Status.OK

    server = server_of(2, [1])
    holds(admitted(server, 30), "a node without a socket has a guard")
    with deltat.Udp(server, (HOST, own_port()), {1: (HOST, own_port())}):
        holds(
            [admitted(server, port) for port in (20, 21, 30, 31)] == [True, True, False, False], "other ports are open"
        )
        server.set_port(30, deltat.PortKind.SERVICE)
        holds(
            [admitted(server, port) for port in (20, 30, 31)] == [True, True, False],
            "a port that got a kind isn't open",
        )
    server = server_of(2, [1])
    server.set_guard(ports=[31])
    with deltat.Udp(server, (HOST, own_port()), {1: (HOST, own_port())}):
        server.set_port(30, deltat.PortKind.SERVICE)
        holds([admitted(server, port) for port in (20, 30, 31)] == [False, False, True], "the program's guard is gone")
    usual, node_module.MOST_FLOWS = node_module.MOST_FLOWS, 2
    server, caller = server_of(2, [1]), caller_of(1, 2)
    caller.call(CALL, b"x", 1000)
    frame = bytearray(next(caller.datagrams()).octets)

    def flows(first: int) -> int:
        """How many of 100 new flows are admitted."""
        count = 0
        for port in range(first, first + 100):
            frame[18:20] = port.to_bytes(2, "big")
            count += server.receive(1, frame) is deltat.Status.OK
        return count

    with deltat.Udp(server, (HOST, own_port()), {1: (HOST, own_port())}):
        found = [flows(1000)]
        for number in range(50, 52):
            server.add_route(number, 1)
        found.append(flows(2000))
    node_module.MOST_FLOWS = usual
    holds(found == [16, 32], f"{found} flows are admitted with one route, and more with three")


CASES = [
    start_is_chosen,
    state_is_asked,
    forked,
    forked_loop,
    dropped,
    descriptors,
    receive_buffer,
    longer_than_cap,
    units,
    octets_alone,
    given_up_is_kept,
    other_link,
    slow_clock,
    bad_replies,
    one_at_a_time,
    two_over_one,
    closed_loops,
    slow_functions,
    background_work,
    blocked_loop,
    others_wait,
    many_calls,
    flood,
    guards,
]


def failure(case: Callable[[], None]) -> str:
    """Why a case fails, or nothing."""
    try:
        case()
    except Exception as why:
        return f"{type(why).__name__}: {why}"
    return ""


def main() -> int:
    if given.list:
        for case in CASES:
            print(f"{case.__name__:16} {case.__doc__}")
        return 0
    known, failed = {it.__name__: it for it in CASES}, 0
    strange = [it for it in given.cases if it not in known]
    if strange:
        reads.error(f"there is no case {strange[0]}; there are {', '.join(known)}")
    for name in given.cases or known:
        begun = time.monotonic()
        why = failure(known[name])
        failed += bool(why)
        print(f"{name}: {'FAILED: ' + why if why else 'ok'} ({time.monotonic() - begun:.1f} s)", flush=True)
    print(f"{len(given.cases or known) - failed} of {len(given.cases or known)} hold")
    return 1 if failed else 0


if __name__ == "__main__":
    sys.exit(main())
