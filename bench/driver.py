#!/usr/bin/env python3
"""The driver over UDP, libdeltat-udp, beside plain UDP, ENet and TCP.

`bench/driver.py [--runs N] [--seconds S] [--only NAME ..] [--links DELAY:LOSS ..]`; it wants `make -C lib`. The
programs are those of bench/peers (peer.h says what is asked), one process at each end with one thread each. The peers
take turns, N runs (5) each:

- answers: requests of 100 octets, answered by 100 octets, for S seconds (2), with 1, 32, 1,000 or 4,000 under way: how
  many a second, and the microseconds of processor that one takes at both ends;
- 64 KiB: messages of 65,524 octets, one after another: how many a second;
- calls from Python by deltat.Calls, one after another, and by AsyncCalls 32 and 1,000 at once, to a service in C;
- with --links (`--links 20:0 20:1 20:5`), over tests/wan.py with so many ms each way and so many of 100 packets lost:
  objects of 64 KiB and of 16 MiB over 512 lanes from a node that the other one doesn't know, three one after another,
  and as many octets over one connection of TCP: the seconds of the first one and of the best one after it.

`same` is UDP with the very datagrams that two nodes exchange, acknowledgements too. The best run counts, since others
may load the machine; the load is printed. A peer that can't be built here is left out. Ends with 2 where the library
isn't there."""
import argparse
import os
import pathlib
import statistics
import subprocess
import sys
import tempfile
import time
from typing import NamedTuple

HERE = pathlib.Path(__file__).resolve().parent
TOP = HERE.parent
sys.path[:0] = [str(TOP / "tests"), str(TOP / "bindings" / "python")]

import deltat  # noqa: E402
from lib import HOST, free_port  # noqa: E402

C = ["cc", "-O2", "-Wall", "-Wextra", "-Werror"]
LIBRARIES = [f"-I{TOP / 'include'}", str(TOP / "lib" / "libdeltat-udp.a"), str(TOP / "lib" / "libdeltat.a")]
PROGRAMS = {"udp": [], "same": [], "tcp": [], "enet": ["-lenet"], "driver": LIBRARIES}
MESSAGES, LARGE = 50, 65_524
SIZES, LANES, TIMES = (65_536, 16_777_216), 512, 3


class Peer(NamedTuple):
    """A program with its environment; `of`: what its answers are compared with."""

    program: str
    env: dict[str, str] = {}
    of: str = ""
    messages: bool = False


PEERS = {
    "UDP": Peer("udp"),
    "same": Peer("same"),
    "ENet": Peer("enet", messages=True),
    "messages": Peer("driver", {}, "same", True),
    "calls": Peer("driver", {"CALLS": "1"}, "same", True),
    "calls, no watch": Peer("driver", {"CALLS": "1", "FLAGS": "32"}, "same", True),
    "calls, no segments": Peer("driver", {"CALLS": "1", "FLAGS": "1"}, "same", True),
    "calls, no segments, no batches": Peer("driver", {"CALLS": "1", "FLAGS": "3"}, "same", True),
    **{
        f"calls, {many} under way": Peer("driver", {"CALLS": "1", "MANY": many}, "calls")
        for many in ("32", "1000", "4000")
    },
    "messages, 32 under way": Peer("driver", {"MANY": "32"}, "messages"),
}
PYTHONS = {"Python": 1, "asyncio": 32, "asyncio, 1000 under way": 1000}
PYTHON = """
import asyncio, sys, time
import deltat

params = deltat.Params(mpl=82, r=800, a=5, rto=40, probe=80, seg=1400, cap=65536, rcap=65536, window=65536)
port, seconds, many = int(sys.argv[1]), float(sys.argv[2]), int(sys.argv[3])
number = deltat.fresh_number()
node = deltat.Service(number, 1, params, [deltat.Link(1, 41)], {1: 1}, start=deltat.Start.FIRST)
# (a flow has room for some 580 requests under way)
flows = [deltat.Flow(number, 10 + it, 1, 20) for it in range(4)]
where = (node, ("127.0.0.1", 0), {1: ("127.0.0.1", port)})
for flow in flows:
    node.set_port(flow.source_port, deltat.PortKind.CALLER)


def plain(udp):
    calls, count, begun = deltat.Calls(udp), 0, time.monotonic()
    while time.monotonic() - begun < seconds:
        calls.call(flows[0], bytes(104))
        count += 1
    return count / (time.monotonic() - begun)


async def at_once():
    count, begun = 0, time.monotonic()

    async def one(calls, flow):
        nonlocal count
        while time.monotonic() - begun < seconds:
            await calls.call(flow, bytes(104))
            count += 1

    async with deltat.AsyncUdp(*where) as udp:
        calls = deltat.AsyncCalls(udp)
        await asyncio.gather(*(one(calls, flows[it % 4]) for it in range(many)))
    return count / (time.monotonic() - begun)


begun = time.process_time()
if many == 1:
    with deltat.Udp(*where) as udp:
        rate = plain(udp)
else:
    rate = asyncio.run(at_once())
print(rate, 1e6 * (time.process_time() - begun) / (rate * seconds))
"""


def built(folder: pathlib.Path) -> set[str]:
    """The programs that can be built here."""
    found = set()
    sources = {name: HERE / "peers" / f"{name}.c" for name in PROGRAMS}
    for name, more in {**PROGRAMS, "objects": ["-D_GNU_SOURCE", *LIBRARIES]}.items():
        ran = subprocess.run(
            [*C, str(sources.get(name, TOP / "tests" / "udp" / f"{name}.c")), "-o", str(folder / name), *more],
            capture_output=True,
            text=True,
            check=False,
        )
        if ran.returncode:
            print(f"{name} isn't there: {(ran.stderr.strip().splitlines() or ['?'])[0]}", file=sys.stderr)
        else:
            found.add(name)
    return found


def server(folder: pathlib.Path, peer: Peer) -> tuple["subprocess.Popen[bytes]", str]:
    port = str(free_port())
    it = subprocess.Popen(
        [folder / peer.program, "serve", HOST, port, "-"], stderr=subprocess.DEVNULL, env={**os.environ, **peer.env}
    )
    time.sleep(0.2)
    return it, port


def asked(folder: pathlib.Path, peer: Peer, what: str, seconds: float) -> tuple[float, float]:
    """Answers or messages a second of a fresh pair, and the microseconds of processor that one takes at both ends."""
    serving, port = server(folder, peer)
    count, octets = (1, 100) if what == "answers" else (MESSAGES, LARGE)
    words = [folder / peer.program, "ask", HOST, port, what, str(count), str(octets), str(seconds)]
    asking = subprocess.Popen(words, stdout=subprocess.PIPE, text=True, env={**os.environ, **peer.env})
    lines = [it.split() for it in asking.stdout.read().splitlines() if it.startswith("done ")]
    _, _, used = os.wait4(asking.pid, 0)
    asking.returncode = 0
    serving.kill()
    _, _, other = os.wait4(serving.pid, 0)
    serving.returncode = 0
    processor = used.ru_utime + used.ru_stime + other.ru_utime + other.ru_stime
    if not lines or not int(lines[0][1]):
        return 0.0, 0.0
    if what == "message":
        return 1 / statistics.median(float(it[2]) for it in lines), 1e6 * processor / len(lines)
    return int(lines[0][1]) / float(lines[0][2]), 1e6 * processor / int(lines[0][1])


def from_python(folder: pathlib.Path, many: int, seconds: float) -> tuple[float, float]:
    serving, port = server(folder, PEERS["calls"])
    env = {**os.environ, "PYTHONPATH": str(TOP / "bindings" / "python")}
    ran = subprocess.run(
        [sys.executable, "-c", PYTHON, port, str(seconds), str(many)],
        capture_output=True,
        text=True,
        env=env,
        check=False,
    )
    serving.kill()
    serving.wait()
    if ran.returncode:
        print(ran.stderr, file=sys.stderr)
        return 0.0, 0.0
    rate, processor = map(float, ran.stdout.split())
    return rate, processor


def over_link(folder: pathlib.Path, link: str, octets: int) -> dict[str, list[float]]:
    """The seconds of each transfer over a link, by objects and by TCP."""
    delay, loss = (float(it) for it in link.split(":"))
    network = deltat.Network(delay_us=int(1000 * delay) + 10_000, round_trip_us=int(2000 * delay) or 1)
    rto = deltat.Params.for_network(network)[0].rto  # (as dt_udp_params_for has it)
    env = {**os.environ, "DELAY_MS": f"{2 * delay + 10:.0f}", "RTO_MS": f"{rto}"}
    at = ("10.9.0.1", "7001")
    pairs = {
        "objects": (
            ["objects", "take", *at, str(LANES), str(4 * octets), "/dev/null"],
            ["objects", "put", *at, str(LANES), str(octets), str(TIMES)],
        ),
        "TCP": (["tcp", "serve", *at, "-"], ["tcp", "ask", *at, "message", str(TIMES), str(octets), "30"]),
    }
    found = {}
    for name, commands in pairs.items():
        (first, *first_words), (second, *second_words) = commands
        words = [sys.executable, str(TOP / "tests" / "wan.py"), f"{delay}", f"{loss / 100}", "0", "0", "--serve"]
        words += ["--seconds", "40", "--", str(folder / first), *first_words, "--", str(folder / second), *second_words]
        ran = subprocess.run(words, capture_output=True, text=True, env=env, check=False)
        said = [it.split() for it in ran.stdout.splitlines()]
        found[name] = [float(it[2]) / (1000 if it[0] == "put" else 1) for it in said if it[0] in ("put", "done")]
    return found


def links(folder: pathlib.Path, given: argparse.Namespace) -> None:
    for link in given.links:
        for octets in SIZES:
            seen: dict[str, list[list[float]]] = {}
            for _ in range(given.runs):
                for name, found in over_link(folder, link, octets).items():
                    seen.setdefault(name, []).append(found)
            for name, runs in seen.items():
                first = sorted(it[0] for it in runs if it)
                later = sorted(it for found in runs for it in found[1:])
                text = f"first {first[0]:.3f} s, later {later[0]:.3f} s" if first and later else "none arrived"
                all_of_them = "; ".join(" ".join(f"{it:.3f}" for it in found) for found in runs)
                where = f"{link.replace(':', ' ms, ')} %  {octets:>10,} octets"
                print(f"{where}  {name:8} {text}   ({all_of_them})", flush=True)


def line(name: str, found: list[tuple[float, float]], base: float) -> str:
    rate, processor = max(it[0] for it in found), min(it[1] for it in found if it[1] or not it[0])
    factor = f"{rate / base:6.2f}" if base else " " * 6
    return (
        f"{name:32} {rate:10,.0f} a second {factor} {processor:8.1f} us   ({' '.join(f'{it[0]:,.0f}' for it in found)})"
    )


def main() -> int:
    reads = argparse.ArgumentParser(description=__doc__, formatter_class=argparse.RawDescriptionHelpFormatter)
    reads.add_argument("--runs", type=int, default=5)
    reads.add_argument("--seconds", type=float, default=2)
    reads.add_argument("--only", nargs="*", metavar="NAME", help=", ".join((*PEERS, *PYTHONS)))
    reads.add_argument("--links", nargs="*", default=[], metavar="DELAY:LOSS", help="in ms and in %%")
    given = reads.parse_args()
    if not (TOP / "lib" / "libdeltat-udp.a").exists():
        print("there is no lib/libdeltat-udp.a: make -C lib", file=sys.stderr)
        return 2
    with tempfile.TemporaryDirectory(prefix="deltat-bench-") as name:
        folder = pathlib.Path(name)
        programs = built(folder)
        if given.links:
            print("load", pathlib.Path("/proc/loadavg").read_text().strip(), flush=True)
            links(folder, given)
            return 0
        peers = {
            name: it for name, it in PEERS.items() if it.program in programs and (not given.only or name in given.only)
        }
        python = {name: many for name, many in PYTHONS.items() if not given.only or name in given.only}
        answers: dict[str, list[tuple[float, float]]] = {name: [] for name in (*peers, *python)}
        messages: dict[str, list[tuple[float, float]]] = {name: [] for name, it in peers.items() if it.messages}
        print("load", pathlib.Path("/proc/loadavg").read_text().strip(), flush=True)
        for _ in range(given.runs):
            for name, it in peers.items():
                answers[name].append(asked(folder, it, "answers", given.seconds))
                if it.messages:
                    messages[name].append(asked(folder, it, "message", 20))
            for name, many in python.items():
                answers[name].append(from_python(folder, many, given.seconds))
    best = {name: max(it[0] for it in found) for name, found in answers.items()}
    print(
        "answers: the best run, what it is of the peer that it is compared with, processor at both ends (Python: the"
        " caller's)"
    )
    for name, found in answers.items():
        print(line(name, found, best.get(PEERS[name].of if name in PEERS else "calls", 0)))
    print("messages of 64 KiB")
    for name, found in messages.items():
        print(line(name, found, 0))
    print("load", pathlib.Path("/proc/loadavg").read_text().strip())
    return 0


if __name__ == "__main__":
    sys.exit(main())
