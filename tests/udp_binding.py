#!/usr/bin/env python3
"""The Python modules over the driver: calls, messages, asyncio and each error as an exception, by deltat.driver; and
the neighbours, the state folder and the batches of the sockets of `deltat`.

`tests/udp_binding.py [CASE ..]`; all cases where none is named. Both ends are processes or drivers of this one. Ends
with 77 where lib/libdeltat.so.2 or lib/libdeltat-udp.so.1 isn't there (make -C lib).

In tests/all: no words, 180 s."""
import argparse
import asyncio
import contextlib
import dataclasses
import logging
import multiprocessing
import os
import pathlib
import re
import socket
import subprocess
import sys
import tempfile
import threading
import time
import zlib
from collections.abc import Callable, Iterator
from contextlib import contextmanager
from typing import NamedTuple

from lib import HOST, TOP, free_port, skip

if not all((TOP / "lib" / it).exists() for it in ("libdeltat.so.2", "libdeltat-udp.so.1")):
    skip("there is no lib/libdeltat.so.2 or lib/libdeltat-udp.so.1: make -C lib")
sys.path.insert(0, str(TOP / "bindings" / "python"))

import deltat  # noqa: E402
from deltat import Cause, Declined, Gone, PortKind, Request, Start, Status, Token, Unsure, driver  # noqa: E402
from deltat import service as of_service  # noqa: E402

PARAMS = deltat.Params(mpl=482, r=3000, a=5, rto=90, probe=180, seg=1442, cap=65536, rcap=65536, window=65536)
CALLER, SERVICE, OTHER = 10, 20, 21


def wants(truth: bool, what: str) -> None:
    if not truth:
        raise AssertionError(what)


def raises(kind: type[Exception], act: Callable[[], object]) -> Exception:
    try:
        act()
    except kind as why:
        return why
    raise AssertionError(f"{kind.__name__} isn't raised")


def opened(node: int, port: int | None = None, **more: object) -> driver.Udp:
    more = {"start": Start.FIRST, "service": True, **more}
    return driver.Udp(node, PARAMS, 294, HOST, port, **more)


def begun(calls: driver.Calls, flow: deltat.Flow, payload: bytes, timeout: float) -> None:
    """Makes a call for whose end nobody waits. Raises why it wasn't made."""
    end = of_service._End()
    calls._desk.begin(calls.udp._driven, end, flow, payload, timeout)
    calls._desk.turn(calls.udp._driven, 0)
    if end.why:
        raise end.why


def serve(port: int, flags: int = 0) -> None:
    """Node 2: port 20 answers with the octets reversed, and port 21 forgets requests of one octet."""
    with opened(2, port, max_peers=100, flags=flags) as udp:
        for it in (SERVICE, OTHER):
            udp.open_port(it, PortKind.SERVICE)
        calls = driver.Calls(udp)

        @calls.on(SERVICE)
        def octets_reversed(request: Request) -> bytes:
            return request.payload[::-1]

        @calls.on(OTHER)
        def picky(request: Request) -> bytes | None:
            return None if len(request.payload) == 1 else b"yes"

        calls.run()


def serve_async(port: int) -> None:
    async def main() -> None:
        with opened(2, port, max_peers=100) as udp:
            udp.open_port(SERVICE, PortKind.SERVICE)
            async with driver.AsyncCalls(udp) as calls:

                @calls.on(SERVICE)
                async def slow(request: Request) -> bytes:
                    await asyncio.sleep(0.01)
                    return request.payload[::-1]

                await calls.run()

    asyncio.run(main())


@contextmanager
def serving(function: Callable[[int], None]) -> Iterator[int]:
    """A process that serves at the port."""
    port = free_port()
    process = multiprocessing.get_context("spawn").Process(target=function, args=(port,), daemon=True)
    process.start()
    try:
        yield port
    finally:
        process.kill()
        process.join()


@contextmanager
def client(port: int) -> Iterator[tuple[driver.Udp, deltat.Flow]]:
    with opened(deltat.fresh_number()) as udp:
        udp.set_peer(2, HOST, port)
        udp.open_port(CALLER, PortKind.CALLER)
        yield udp, deltat.Flow(udp.node, CALLER, 2, SERVICE)


# --- cases


def calls() -> str:
    """Calls one after another, of every size; a request that is forgotten; and a service that isn't there."""
    with serving(serve) as port, client(port) as (udp, flow):
        made = driver.Calls(udp)
        until = time.monotonic() + 30
        while True:
            try:
                wants(made.call(flow, b"hello", timeout=2.0) == b"olleh", "an answer")
                break
            except Unsure:  # (the process isn't there yet)
                wants(time.monotonic() < until, "the service doesn't begin")
        for size in (0, 1, 1000, 1442, 30000, 60000):
            payload = bytes(i * 7 & 255 for i in range(size))
            wants(made.call(flow, payload) == payload[::-1], f"{size} octets")
        other = flow._replace(target_port=OTHER)
        wants(made.call(other, b"xx") == b"yes", "the other port")
        wants(
            raises(Unsure, lambda: made.call(other, b"x", timeout=0.3)).cause == Cause.TIMEOUT, "a forgotten request"
        )
        nobody = flow._replace(target=3)
        wants(raises(Unsure, lambda: made.call(nobody, b"x", timeout=0.3)).cause == Cause.TIMEOUT, "nobody is there")
        raises(deltat.InvalidArgument, lambda: made.call(flow, bytes(70000)))
        raises(deltat.InvalidArgument, lambda: made.call(flow._replace(source_port=11), b"x"))
        raises(
            Declined,
            lambda: [begun(made, nobody, bytes(30000), 0.1) for _ in range(9)],
        )
        wants(udp.drain(5.0), "all is acknowledged or uncertain")
    raises(deltat.Stopped, lambda: made.call(flow, b"x"))
    return "answers, Unsure, Declined, InvalidArgument, Stopped"


def at_once() -> str:
    """Two hundred calls at once in asyncio, to a service in asyncio."""

    async def main(port: int) -> list[bytes]:
        with client(port) as (udp, flow):
            async with driver.AsyncCalls(udp) as made:
                for _ in range(20):
                    try:
                        await made.call(flow, b"up", timeout=2.0)
                        break
                    except Unsure:
                        pass
                begun = time.monotonic()
                found = await asyncio.gather(*(made.call(flow, b"%d" % i, timeout=10.0) for i in range(200)))
                wants(time.monotonic() - begun < 5, "they are under way at once")
                try:
                    await made.call(flow._replace(target=3), b"x", timeout=0.2)
                except Unsure:
                    return found
                raise AssertionError("nobody is there, and it is answered")

    with serving(serve_async) as port:
        found = asyncio.run(main(port))
    wants(found == [(b"%d" % i)[::-1] for i in range(200)], "each has its own answer")
    return "200 calls"


def messages() -> str:
    """Plain messages between two nodes of this process, by poll."""
    with opened(1, service=False) as one, opened(2, service=False) as two:
        for it, other, number in ((one, two, 2), (two, one, 1)):
            it.set_peer(number, HOST, other.port)
            it.open_port(SERVICE)
        flow, sent = deltat.Flow(1, SERVICE, 2, SERVICE), [bytes([i]) * (1 + 997 * i) for i in range(30)]
        found: list[deltat.Message] = []
        waiting = list(sent)
        until = time.monotonic() + 30
        while len(found) < len(sent) and time.monotonic() < until:
            try:
                while waiting:
                    one.send(flow, waiting[0])
                    waiting.pop(0)
            except deltat.Full:
                pass
            found += two.poll(0.01)
            one.poll(0.0)
        wants([it.octets for it in found] == sent and all(it.flow == flow for it in found), "every message, in order")
        raises(deltat.InvalidArgument, lambda: one.send(flow.reversed(), b"x"))
        raises(deltat.Full, lambda: one.send(flow, bytes(70000)))
        wants(one.drain(5.0), "all is acknowledged")
    return "30 messages"


def uncertain() -> str:
    """A client that goes before its answer arrives: the service learns of which flow a reply was given up."""
    with opened(2, free_port(), max_peers=1) as udp:
        udp.open_port(SERVICE, PortKind.SERVICE)
        calls = driver.Calls(udp)
        with client(udp.port) as (caller, flow):
            made = driver.Calls(caller)
            request = None
            until = time.monotonic() + 20
            begun(made, flow, b"x", 5.0)
            while request is None and time.monotonic() < until:
                caller.poll(0.01)
                request = next(calls.requests(0.01), None)
            wants(request is not None, "the request arrives")
        calls.reply(request.token, b"yes")
        until = time.monotonic() + 20
        while not calls.uncertain and time.monotonic() < until:
            udp.poll(0.1)
        wants(calls.uncertain == {flow}, f"the flow of the request: {calls.uncertain}")
    return "the flow of its request"


def errors() -> str:
    """What can't be opened, and a start that is silent."""
    port = free_port()
    with opened(1, port), tempfile.TemporaryDirectory() as folder:
        raises(driver.UdpError, lambda: opened(2, port))
        raises(TypeError, lambda: opened(2, start=None))
        raises(deltat.InvalidArgument, lambda: opened(1 << 32))
        raises(deltat.InvalidArgument, lambda: driver.Udp(2, deltat.Params(0, *[1] * 8), 1, start=Start.FIRST))
        with opened(3, start=None, state=folder) as udp:
            wants(udp.life == 1 and udp.silence == 0, "a folder that is new")
            raises(deltat.StateError, lambda: opened(3, start=None, state=folder))
            raises(deltat.InvalidArgument, lambda: udp.set_peer(9, "no.such.name.invalid", 1))
            udp.open_port(CALLER, PortKind.CALLER)
            raises(deltat.InvalidArgument, lambda: udp.open_port(CALLER, PortKind.CALLER))
        with opened(3, start=None, state=folder) as udp:
            wants(udp.life == 2 and udp.silence > 0, "a second start")
            udp.open_port(CALLER, PortKind.CALLER)
            found = raises(Declined, lambda: driver.Calls(udp).call(deltat.Flow(3, CALLER, 2, SERVICE), b"x"))
            wants(found.status == Status.QUIET and found.until > 0, "it is silent")
            raises(Gone, lambda: driver.Calls(udp).reply(Token(deltat.Flow(2, 1, 3, CALLER), 1), b"x"))
            child = os.fork()
            if child == 0:
                try:
                    udp.poll()
                except deltat.Stopped:
                    os._exit(0)
                os._exit(1)
            wants(os.waitpid(child, 0)[1] == 0, "a forked child is refused")
            wants(udp.poll() == [], "its parent continues")
    return "UdpError, StateError, InvalidArgument, Declined, Gone, Stopped"


# --- nodes that Python opened, and the driver drives


def node_of(number: int, links: list[int], routes: dict[int, int]) -> deltat.Node:
    return deltat.Node(number, PARAMS, [deltat.Link(it, 294) for it in links], routes, start=Start.FIRST)


def arrives(udp: deltat.Udp, end: socket.socket, target: int) -> bool:
    """Whether a datagram for a node arrives there. (A machine that others load may drop one as late: it goes again.)"""
    until = time.monotonic() + 20
    while time.monotonic() < until:
        with contextlib.suppress(TimeoutError):
            if int.from_bytes(end.recv(2000)[12:16], "big") == target:
                return True
        udp.poll(0.0)
    return False


def neighbours() -> str:
    """A node with two links and two neighbours: what leaves for nodes behind them goes to the right one, what comes
    from behind them is taken in, and what comes from elsewhere isn't."""
    with contextlib.ExitStack() as ends:
        near, far, strange = (ends.enter_context(socket.socket(socket.AF_INET, socket.SOCK_DGRAM)) for _ in range(3))
        for it in (near, far, strange):
            it.bind((HOST, 0))
            it.settimeout(0.1)
        node = node_of(1, [7, 8, 9], {2: 7, 3: 7, 4: 8, 5: 8, 6: 9})
        peers = {2: near.getsockname(), 4: far.getsockname()}
        udp = ends.enter_context(deltat.Udp(node, (HOST, 0), peers, watch=False))
        for target, end in ((2, near), (3, near), (4, far), (5, far)):
            udp.send(deltat.Flow(1, 10, target, 20), b"to %d" % target)
            wants(arrives(udp, end, target), f"what is for {target} goes to its neighbour")
        late = udp.not_sent
        udp.send(deltat.Flow(1, 10, 6, 20), b"nowhere")
        wants(udp.not_sent > late, "a link without a neighbour: its datagram isn't sent, and is counted")
        for maker, end, is_heard in ((3, near, True), (4, far, True), (5, far, True), (2, strange, False)):
            other = node_of(maker, [1], {1: 1})
            other.send(deltat.Flow(maker, 30, 1, 40), b"from %d" % maker)
            end.sendto(next(other.datagrams()).octets, udp.socket.getsockname())
            found = [it.octets for it in udp.run_for(0.2)]
            wants(found == [b"from %d" % maker] * is_heard, f"from {maker}: {found}")
        wants(udp.strangers == 1, f"{udp.strangers} of a stranger")
    return "2 of 3 links"


def idle() -> str:
    """Nothing is due and nothing comes: a wait takes as long as it may, and one without end ends when a datagram
    comes."""
    with (
        socket.socket(socket.AF_INET, socket.SOCK_DGRAM) as near,
        deltat.Udp(node_of(1, [1], {2: 1}), (HOST, 0), {2: (HOST, free_port())}) as udp,
    ):
        begun = time.monotonic()
        wants(udp.poll(2.3) == [], "nothing comes")
        wants(2.2 < time.monotonic() - begun < 10, f"it took {time.monotonic() - begun:.1f} s")
        late = threading.Timer(1.5, lambda: near.sendto(bytes(40), udp.socket.getsockname()))
        late.start()
        begun = time.monotonic()
        wants(udp.poll(None) == [] and udp.strangers == 1, "a stranger's datagram brings no message")
        wants(time.monotonic() - begun > 1.4, f"it took {time.monotonic() - begun:.1f} s")
    return "2.3 s, and without end"


def busy_at_first() -> str:
    """A client that is busy after its first call: the exchange by which the ends learn each other's clocks is slow, and
    its width doesn't make everything too old that comes after it."""
    params, charge = deltat.Params.for_network(deltat.Network(delay_us=2_000, round_trip_us=1_000, wait_ms=50))
    there, here, flow, over = free_port(), free_port(), deltat.Flow(1, CALLER, 2, SERVICE), threading.Event()
    found: dict[str, int] = {}

    def serves() -> None:
        node = deltat.Service(2, 1, params, [deltat.Link(1, charge)], {1: 1}, start=Start.FIRST)
        node.set_port(SERVICE, PortKind.SERVICE)
        with deltat.Udp(node, (HOST, there), {1: (HOST, here)}) as udp:
            requests = deltat.Calls(udp)
            requests.on(SERVICE)(lambda request: request.payload[::-1])
            while not over.is_set():
                # (a look, and no wait: a program may have a loop of its own)
                requests.run(0)
                time.sleep(0.001)
            found.update(udp.counts)

    serving = threading.Thread(target=serves)
    serving.start()
    node = deltat.Service(1, 1, params, [deltat.Link(1, charge)], {2: 1}, start=Start.FIRST)
    node.set_port(CALLER, PortKind.CALLER)
    answered = 0
    with deltat.Udp(node, (HOST, here), {2: (HOST, there)}) as udp:
        made = deltat.Calls(udp)
        at = deltat.now()
        node.call(flow, b"first", 300, at)
        udp.flush(at)
        time.sleep(0.2)
        for _ in range(20):
            with contextlib.suppress(Unsure):
                answered += made.call(flow, b"hello", timeout=0.3) == b"olleh"
    over.set()
    serving.join()
    wants(answered > 10 and found["too_old"] < 6, f"{answered} answered, {found['too_old']} too old")
    return f"{answered} of 20 calls after a stop, {found['too_old']} datagrams too old"


def unlisted() -> str:
    """A client by `deltat.Udp` that its service doesn't list answers the challenge, and is answered; its state folder
    has what the driver passed in."""
    with serving(serve) as port, tempfile.TemporaryDirectory() as folder:
        number, lives = deltat.fresh_number(), []
        for _ in range(2):
            with deltat.State(folder, number, PARAMS) as state:
                lives.append(state.life)
                node = deltat.Service(number, None, PARAMS, [deltat.Link(1, 294)], {2: 1}, state=state)
                node.set_port(CALLER, PortKind.CALLER)
                with deltat.Udp(node, (HOST, 0), {2: (HOST, port)}) as udp:
                    udp.run_for(state.silence() / 1000)
                    made, answer = deltat.Calls(udp), b""
                    for _ in range(20):
                        try:
                            answer = made.call(deltat.Flow(number, CALLER, 2, SERVICE), b"hello", 2.0)
                            break
                        except Unsure:  # (the process isn't there yet)
                            pass
                    wants(answer == b"olleh", f"{answer!r} is the answer")
                    wants(state._keeper.noted > deltat.now() - 1000, "the state was told of the inputs")
                last = pathlib.Path(folder, "last").read_text()
                wants(int(last.split("until ")[1][:20]) == state._keeper.noted, f"the end of a life: {last}")
        wants(lives == [1, 2], f"lives {lives}")
    return "two lives"


def bare(number: int, heard: bytes, sure_us: int) -> bytes:
    """A ping of a node, to whoever sent the datagram `heard`: its clock had passed what that says and so much more."""
    print_of, opening, made = heard[-34:-30], heard[-30:-24], int.from_bytes(heard[-22:-16], "big")
    trailer = print_of + bytes(5) + b"\x07\x12\0" + (5_000_000).to_bytes(6, "big") + (made + sure_us).to_bytes(6, "big")
    return number.to_bytes(4, "big") + trailer + opening[-2:] + b"\xff\xff" + bytes(6)


def alarms() -> str:
    """What the watch finds out of a peer is in `alarms`, in the log and in `counts`: an end without a watch, at both
    ends; other parameters; and a clock that is wrong."""
    flow, found = deltat.Flow(1, 10, 2, 20), []
    for other, watch, alarm, counted in (
        (PARAMS, False, deltat.Alarm.WATCH, ("without_trailer", "with_trailer")),
        (dataclasses.replace(PARAMS, r=4000), True, deltat.Alarm.PARAMETERS, ("other_parameters",) * 2),
    ):
        ports = free_port(), free_port()
        with (
            driver.Udp(1, PARAMS, 294, HOST, ports[0], start=Start.FIRST) as one,
            deltat.Udp(
                deltat.Node(2, other, [deltat.Link(1, 294)], {1: 1}, start=Start.FIRST), (HOST, ports[1]),
                {1: (HOST, ports[0])}, watch=watch,
            ) as two,
        ):
            one.set_peer(2, HOST, ports[1])
            one.open_port(20)
            for _ in range(20):
                with contextlib.suppress(deltat.Full):
                    one.send(flow, b"one")
                    two.send(flow.reversed(), b"two")
                one.poll(0.02)
                two.poll(0.02)
            wants((one.alarms, two.alarms) == ({2: alarm}, {1: alarm}), f"{alarm!r}: {one.alarms}, {two.alarms}")
            counts = one.counts[counted[0]], two.counts[counted[1]]
            wants(min(counts) > 0, f"{alarm!r}: {counts} were counted")
            found.append(alarm.name)
    node = deltat.Node(1, PARAMS, [deltat.Link(1, 294)], {2: 1}, start=Start.FIRST)
    with socket.socket(socket.AF_INET, socket.SOCK_DGRAM) as peer:
        peer.bind((HOST, 0))
        peer.settimeout(5)
        with deltat.Udp(node, (HOST, 0), {2: peer.getsockname()}) as udp:
            udp.send(flow, b"hello")
            heard = peer.recv(2000)
            for sure_us in (0, 60_000_000):
                peer.sendto(bare(2, heard, sure_us), udp.socket.getsockname())
                udp.poll(0.2)
            wants(udp.alarms == {2: deltat.Alarm.CLOCK}, f"{udp.alarms}")
            wants(udp.counts["clock_alarms"] == 1, f"{udp.counts}")
    return ", ".join([*found, "CLOCK"])


# --- the state folder, of a node that dt_udp_open opens, and by deltat.State: for one that no driver drives, or that
# keeps a record

SHORT = deltat.Params(mpl=30, r=40, a=5, rto=10, probe=20, seg=100, cap=4096, rcap=4096, window=4096)
LONGER = dataclasses.replace(SHORT, mpl=31)
Files = dict[str, bytes]


def with_check(text: str) -> bytes:
    return text.encode() + b"check %08x\n" % zlib.crc32(text.encode())


def kept(**more: object) -> bytes:
    it = {"node": 1, "params": SHORT, "life": 7, **more}
    numbers = " ".join(map(str, dataclasses.astuple(it["params"])))
    return with_check(f"deltat state 1\nnode {it['node']}\nparams {numbers}\nlife {it['life']}\n")


def folders(now: int) -> Iterator[tuple[str, Files, deltat.Params]]:
    """Folders as earlier lives left them, and the parameters of the next one, which starts now."""
    boot = pathlib.Path("/proc/sys/kernel/random/boot_id").read_text().strip()
    ago, ahead, none = now - 60, now + 30, "00000000-0000-0000-0000-000000000000"

    def last(until: int, boot: str = boot, clock: int = 0) -> bytes:
        return with_check(f"deltat last 1\nboot {boot}\nclock {clock:+020d}\nuntil {until:020d}\n")

    whole = {"lock": b"pid 1\n", "state": kept(), "last": last(ago)}
    yield "new", {}, SHORT
    yield "closed", whole, SHORT
    yield "killed", {**whole, "last": last(ahead)}, SHORT
    other = "11111111-1111-1111-1111-111111111111"
    yield "before this start of the machine", {**whole, "last": last(ago, other)}, SHORT
    yield "by another clock", {**whole, "last": last(ago, clock=-5)}, SHORT
    yield "without a boot", {**whole, "last": last(ago, none)}, SHORT
    for cut in (b"", whole["last"][:-1], whole["last"] + b"x", whole["last"].replace(b"u", b"v", 1)):
        yield f"last of {len(cut)} octets", {**whole, "last": cut}, SHORT
    for cut in (b"", whole["state"][:-1], whole["state"] + b"x", whole["state"].replace(b"life 7", b"life 8")):
        yield f"state of {len(cut)} octets", {**whole, "state": cut}, SHORT
    yield "without last", {"lock": b"", "state": kept()}, SHORT
    yield "without state", {"lock": b"", "last": last(ago)}, SHORT
    yield "a lock alone", {"lock": b""}, SHORT
    yield "state.new alone", {"state.new": kept()}, SHORT
    yield "a former node's stamp", {"node-1.stamp": b"5\n"}, SHORT
    yield "another program's file", {"notes": b"5\n"}, SHORT
    yield "other parameters", whole, LONGER
    yield "longer parameters before", {**whole, "state": kept(params=LONGER)}, SHORT
    yield "another node", {**whole, "state": kept(node=2)}, SHORT
    yield "another node, damaged", {**whole, "state": kept(node=2)[:-1]}, SHORT
    yield "the last life but one", {**whole, "state": kept(life=2**32 - 2)}, SHORT
    yield "no more lives", {**whole, "state": kept(life=2**32 - 1)}, SHORT


def files_of(folder: pathlib.Path) -> Files:
    return {it.name: it.read_bytes() for it in folder.iterdir()}


def without_moment(files: Files) -> tuple[Files, int | None]:
    """The files, but for a life that was drawn and for the moment in `last`; and that moment. It has to be whole."""
    found = dict(files)
    life = re.search(rb"life (\d+)", found.get("state", b""))
    until = re.search(rb"until (\d{20})", found.get("last", b""))
    if life and int(life[1]) > 1 << 31 and int(life[1]) < 2**32 - 2:
        wants(found["state"] == with_check(found["state"][: life.end() + 1].decode()), f"{found['state']}")
        found["state"] = found["state"][: life.start()]
    if not until:
        return found, None
    wants(found["last"] == with_check(found["last"][: until.end() + 1].decode()), f"{found['last']}")
    found["last"] = found["last"][: until.start()]
    return found, int(until[1])


class Place(NamedTuple):
    """A folder, the parameters of the next life in it, and the moment at which its files were made."""

    folder: pathlib.Path
    params: deltat.Params
    now: int


class Seen(NamedTuple):
    """What a folder has after a step of a life, and the moments that the step was between."""

    files: Files
    before: int
    after: int


def lives_of(kind: str, place: Place, changed: bool) -> tuple[object, int, list[Seen]]:
    """What a life in a folder is: its number, until when it is silent, and what it leaves when it is opened, after an
    input, and closed. The number of one that is drawn is True."""
    folder, params, since = place
    seen = list[Seen]()

    def see() -> None:
        nonlocal since
        seen.append(Seen(files_of(folder), since, deltat.now()))
        since = deltat.now()

    try:
        if kind == "dt_udp_open":
            with driver.Udp(1, params, 30, HOST, state=folder, flags=16 * changed) as udp:
                life, silent_until = udp.life, deltat.now() + round(udp.silence * 1000)
                see()
                time.sleep(udp.silence + 0.01)
                since = deltat.now()
                udp.send(deltat.Flow(1, 10, 2, 20), b"noted")
                see()
        else:
            with deltat.State(folder, 1, params, changed=changed) as state:
                state.opens_at(deltat.now())
                life, silent_until = state.life, deltat.now() + state.silence()
                see()
                time.sleep(state.silence() / 1000 + 0.01)
                since = deltat.now()
                state.note_packet(deltat.now())
                see()
    except (deltat.StateError, deltat.InvalidArgument):
        see()
        return "refused", 0, seen
    since = seen[-1].before  # (what is closed has the moment of the input)
    see()
    return life > 1 << 31 or life, silent_until, seen


def is_near(moments: tuple[int, int], one: Seen, other: Seen) -> bool:
    """Whether two moments are one and the same, or as long after the steps that wrote them."""
    ours, others = moments
    return abs(ours - others) < 3 or (
        ours - one.after <= others - other.before + 2 and others - other.after <= ours - one.before + 2
    )


def compare(name: str, changed: bool) -> None:
    """Has a life of each kind begin in such a folder, whose moments are as long ago for both. What both answer and
    leave has to be the same."""
    found = []
    for kind in ("dt_udp_open", "deltat.State"):
        with tempfile.TemporaryDirectory() as top:
            now, folder = deltat.now(), pathlib.Path(top) / "it"
            files, params = next((files, params) for it, files, params in folders(now) if it == name)
            folder.mkdir()
            for file, octets in files.items():
                (folder / file).write_bytes(octets)
            found.append(lives_of(kind, Place(folder, params, now), changed))
    (life, silent, left), (other_life, other_silent, other_left) = found
    wants(life == other_life and len(left) == len(other_left), f"{name}: {found}")
    is_over = silent <= left[0].after + 1 and other_silent <= other_left[0].after + 1
    near = is_over or is_near((silent, other_silent), left[0], other_left[0])
    wants(near, f"{name}: silent until {silent} and {other_silent}")
    for one, other in zip(left, other_left):
        (octets, at), (other_octets, other_at) = without_moment(one.files), without_moment(other.files)
        wants(octets == other_octets and (at is None) == (other_at is None), f"{name}: {octets}, {other_octets}")
        if at is not None and other_at is not None:
            wants(is_near((at, other_at), one, other), f"{name}: until {at} and {other_at}: {one}, {other}")


def same_folders() -> str:
    """What a start by dt_udp_open and one by deltat.State answer and write is the same, after each way in which a life
    may have ended: octet for octet, but for moments, which are as long after the steps that wrote them, and lives that
    are drawn."""
    names = [name for name, _, _ in folders(deltat.now())]
    logging.getLogger("deltat").setLevel(logging.ERROR)
    for changed in (False, True):
        for name in names:
            compare(name, changed)
    logging.getLogger("deltat").setLevel(logging.NOTSET)
    return f"{2 * len(names)} folders"


def recorded() -> str:
    """Nodes that keep a record, with the watch: the record has the frames without their trailers."""
    with tempfile.TemporaryDirectory() as folder:
        ports, ends = (free_port(), free_port()), list[deltat.Udp]()
        for number, at in ((1, 0), (2, 1)):
            path = pathlib.Path(folder, str(number))
            links, to = [deltat.Link(1, 294)], 3 - number
            node = deltat.Recorded(path, number, PARAMS, links, {to: 1}, start=Start.FIRST)
            ends.append(deltat.Udp(node, (HOST, ports[at]), {to: (HOST, ports[1 - at])}))
        with ends[0] as one, ends[1] as two:
            one.send(deltat.Flow(1, 10, 2, 20), b"hello")
            found = list[deltat.Message]()
            for _ in range(100):
                found += two.poll(0.02)
                one.poll(0.02)
            wants([it.octets for it in found] == [b"hello"], f"{found} arrived")
            wants(not one.alarms and not two.alarms and two.counts["openings_proved"] == 1, "both have a watch")
        lines = pathlib.Path(folder, "2").read_text().splitlines()
        frames = [bytes.fromhex(it.split()[-1]) for it in lines if it.startswith("< ") and it != "< -"]
        wants(len(frames) > 0, "no frame is in the record")
        wants(all(len(it) == 16 + int.from_bytes(it[2:4], "big") for it in frames), "a trailer is in the record")
    return f"{len(frames)} frames"


def large() -> str:
    """Requests and answers of 60,000 octets, more at once than one batch has room for: each gets its own."""

    async def main() -> list[bytes]:
        ports, ends = (free_port(), free_port()), []
        for number, kind in ((1, PortKind.CALLER), (2, PortKind.SERVICE)):
            node = deltat.Service(number, 1, PARAMS, [deltat.Link(1, 294)], {3 - number: 1}, start=Start.FIRST)
            for port in range(10, 22):
                node.set_port(port, kind)
            ends.append(deltat.AsyncUdp(node, (HOST, ports[number - 1]), {3 - number: (HOST, ports[2 - number])}))
        async with ends[0], ends[1]:
            made, served = deltat.AsyncCalls(ends[0]), deltat.AsyncCalls(ends[1])
            for port in range(10, 22):

                @served.on(port)
                async def echo(request: Request, port: int = port) -> bytes:
                    return b"%d " % port + request.payload

            serving = asyncio.create_task(served.run())
            flows = [deltat.Flow(1, port, 2, port) for port in range(10, 22)]
            found = await asyncio.gather(*(made.call(it, bytes([it[1]]) * 60_000, 20.0) for it in flows))
            serving.cancel()
            return found

    wants(asyncio.run(main()) == [b"%d " % it + bytes([it]) * 60_000 for it in range(10, 22)], "other answers")
    return "12 calls"


PLAIN_SERVICE = """
import sys
import deltat
from deltat import PortKind, driver

with driver.Udp(2, PARAMS, charge=294, port=sys.argv[1], state=sys.argv[2], max_peers=1000, service=True) as udp:
    udp.open_port(20, PortKind.SERVICE)
    calls = driver.Calls(udp)

    @calls.on(20)
    def octets_reversed(request: deltat.Request) -> bytes:
        return request.payload[::-1]

    calls.run()
"""
PLAIN_CLIENT = """
import sys
import deltat
from deltat import PortKind, Start, driver

number = deltat.fresh_number()
with driver.Udp(number, PARAMS, charge=294, start=Start.FIRST, service=True) as udp:
    udp.set_peer(2, sys.argv[2], sys.argv[1])
    udp.open_port(10, PortKind.CALLER)
    print(driver.Calls(udp).call(deltat.Flow(number, 10, 2, 20), sys.argv[3].encode(), timeout=20.0).decode())
"""
ASYNC_SERVICE = """
import asyncio
import sys
import deltat
from deltat import PortKind, driver


async def main() -> None:
    with driver.Udp(2, PARAMS, charge=294, port=sys.argv[1], state=sys.argv[2], max_peers=1000, service=True) as udp:
        udp.open_port(20, PortKind.SERVICE)
        async with driver.AsyncCalls(udp) as calls:

            @calls.on(20)
            async def octets_reversed(request: deltat.Request) -> bytes:
                return request.payload[::-1]

            await calls.run()


asyncio.run(main())
"""
ASYNC_CLIENT = """
import asyncio
import sys
import deltat
from deltat import PortKind, Start, driver


async def main() -> None:
    number = deltat.fresh_number()
    with driver.Udp(number, PARAMS, charge=294, start=Start.FIRST, service=True) as udp:
        udp.set_peer(2, sys.argv[2], sys.argv[1])
        udp.open_port(10, PortKind.CALLER)
        async with driver.AsyncCalls(udp) as calls:
            print((await calls.call(deltat.Flow(number, 10, 2, 20), sys.argv[3].encode(), timeout=20.0)).decode())


asyncio.run(main())
"""


def short() -> str:
    """A service and a client of at most 30 lines each, plain and in asyncio, over 127.0.0.1, ::1 and a name."""
    env = {**os.environ, "PYTHONPATH": str(TOP / "bindings" / "python")}

    def words(program: str, *more: object) -> list[str]:
        wants(sum(1 for it in program.split("\n") if it.strip()) <= 30, "a program has more than 30 lines")
        return [sys.executable, "-c", program.replace("PARAMS", f"deltat.{PARAMS}"), *map(str, more)]

    ran = 0
    for service, client in ((PLAIN_SERVICE, ASYNC_CLIENT), (ASYNC_SERVICE, PLAIN_CLIENT)):
        with tempfile.TemporaryDirectory() as folder:
            port = free_port()
            with subprocess.Popen(words(service, port, folder), env=env) as serves:
                time.sleep(1)
                for host in ("127.0.0.1", "::1", "localhost"):
                    asks = words(client, port, host, f"hello {host}")
                    found = subprocess.run(asks, env=env, capture_output=True, text=True, timeout=60, check=False)
                    wants(found.stdout == f"hello {host}"[::-1] + "\n", f"{host}: {found.stdout}{found.stderr}")
                    ran += 1
                serves.kill()
    return f"{ran} clients"


CASES = [
    calls,
    at_once,
    messages,
    uncertain,
    errors,
    neighbours,
    idle,
    busy_at_first,
    unlisted,
    alarms,
    same_folders,
    recorded,
    large,
    short,
]


def main() -> int:
    reads = argparse.ArgumentParser(description=__doc__, formatter_class=argparse.RawDescriptionHelpFormatter)
    reads.add_argument("cases", nargs="*", metavar="CASE", help=", ".join(it.__name__ for it in CASES))
    given = reads.parse_args()
    failed = 0
    for it in CASES:
        if given.cases and it.__name__ not in given.cases:
            continue
        begun = time.monotonic()
        try:
            said = it()
        except AssertionError as why:
            said, failed = f"FAILED: {why}", failed + 1
        print(f"{it.__name__}: {said} ({time.monotonic() - begun:.1f} s)", flush=True)
    return 1 if failed else 0


if __name__ == "__main__":
    sys.exit(main())
