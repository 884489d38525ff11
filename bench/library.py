#!/usr/bin/env python3
"""libdeltat beside plain UDP and ENet on loopback, on the same work, and what the library takes by itself.

`bench/library.py [LIBRARY] [--runs N] [--seconds S]`; LIBRARY is lib/libdeltat.a where none is named, with the driver
libdeltat-udp.a beside it, over which the library is measured. The programs are
those of bench/peers (peer.h says what is asked), one process at each end with one thread each. For each peer, the peers
taking turns, N runs (3) each:

- answers: requests of 100 octets, one after another for S seconds (3), each answered by 100 octets: how many a second,
  and the microseconds of processor that one takes at both ends, system calls and all;
- 64 KiB: messages of 65,536 octets, one after another, each answered by 100 octets: how many a second, of 50 the median
  time, and how many datagrams a message and its answer take, acknowledgements too: of the runs the least, since all
  that the machine sends meanwhile is counted.

UDP asks again after 100 ms where nothing comes, and has no messages above a datagram; `same` is UDP with the very
datagrams that two nodes exchange, acknowledgements too, and without what makes them reliable. `segments` is libdeltat
where the system cuts and joins datagrams of one length, each such run of which counts as one. Then, in one thread with
no
socket: events of two nodes a second, where each call that sends, takes in a datagram, reads or ticks is an event. The
last lines say how the library stands to the others, by the medians. A peer that can't be built here is left out; ends
with 2 where the library isn't there."""
import argparse
import os
import pathlib
import statistics
import subprocess
import sys
import tempfile
import time

HERE = pathlib.Path(__file__).resolve().parent
TOP = HERE.parent
sys.path.insert(0, str(TOP / "tests"))

from lib import HOST, free_port  # noqa: E402

C = ["cc", "-O2", "-Wall", "-Wextra", "-Werror"]
SMALL, LARGE, MESSAGES, EVENTS = 100, 65_536 - 4, 50, 4_000
FILES = {"UDP": "udp.c", "same": "same.c", "ENet": "enet.c", "libdeltat": "library.c", "segments": "library.c"}
# what has no messages of 64 KiB, and what is asked for these alone
SHORT, LONG = ("UDP", "same"), ("segments",)


def built(folder: pathlib.Path, library: pathlib.Path) -> dict[str, str]:
    """The programs that can be built here."""
    ours = [f"-I{TOP / 'include'}", str(library.with_name("libdeltat-udp.a")), str(library)]
    more = {"ENet": ["-lenet"], "libdeltat": ours, "segments": ours}
    found = {}
    for name, file in FILES.items():
        ran = subprocess.run(
            [*C, str(HERE / "peers" / file), "-o", str(folder / name), *more.get(name, [])],
            capture_output=True,
            text=True,
        )
        if ran.returncode:
            print(f"{name} isn't there: {(ran.stderr.strip().splitlines() or ['?'])[0]}", file=sys.stderr)
        else:
            found[name] = str(folder / name)
    return found


def asked(program: str, what: str, count: int, octets: int, seconds: float) -> tuple[list[tuple[int, float]], float]:
    """What a client got of a fresh server, and the seconds of processor that both took."""
    port = str(free_port())
    room = {**os.environ, "SEGMENTS": "1"} if pathlib.Path(program).name in LONG else None
    server = subprocess.Popen([program, "serve", HOST, port, "-"], stderr=subprocess.DEVNULL, env=room)
    time.sleep(0.3)
    client = subprocess.Popen(
        [program, "ask", HOST, port, what, str(count), str(octets), str(seconds)],
        stdout=subprocess.PIPE,
        text=True,
        env=room,
    )
    lines = client.stdout.read().splitlines()
    client.stdout.close()
    _, _, used = os.wait4(client.pid, 0)
    server.kill()
    _, _, other = os.wait4(server.pid, 0)
    client.returncode = server.returncode = 0
    done = [(int(it.split()[1]), float(it.split()[2])) for it in lines if it.startswith("done ")]
    return done, used.ru_utime + used.ru_stime + other.ru_utime + other.ru_stime


def datagrams() -> int:
    """How many datagrams this machine has sent."""
    names, counts = [
        it.split() for it in pathlib.Path("/proc/net/snmp").read_text().splitlines() if it.startswith("Udp:")
    ]
    return int(counts[names.index("OutDatagrams")])


def numbers(found: list[float]) -> str:
    return " ".join(f"{it:,.0f}" if it >= 100 else f"{it:.1f}" for it in found)


def answers(programs: dict[str, str], runs: int, seconds: float) -> dict[str, tuple[float, float]]:
    """The median answers a second of each, and the microseconds of processor of one."""
    rates: dict[str, list[float]] = {name: [] for name in programs if name not in LONG}
    costs: dict[str, list[float]] = {name: [] for name in rates}
    for _ in range(runs):
        for name in rates:
            done, used = asked(programs[name], "answers", 1, SMALL, seconds)
            if done and done[0][0]:
                rates[name].append(done[0][0] / done[0][1])
                costs[name].append(1e6 * used / done[0][0])
    for name in rates:
        print(
            f"answers {name}: {numbers(rates[name])} a second; {numbers(costs[name])} us of processor each", flush=True
        )
    return {name: (statistics.median(rates[name] or [0]), statistics.median(costs[name] or [0])) for name in rates}


def messages(programs: dict[str, str], runs: int) -> dict[str, float]:
    """The median seconds of a message of each."""
    times: dict[str, list[float]] = {name: [] for name in programs if name not in SHORT}
    sent: dict[str, list[float]] = {name: [] for name in times}
    for _ in range(runs):
        for name in times:
            before = datagrams()
            done, _ = asked(programs[name], "message", MESSAGES, LARGE, 20)
            if len(done) == MESSAGES:
                times[name].append(statistics.median(it for _, it in done))
                sent[name].append((datagrams() - before) / MESSAGES)
    for name, found in times.items():
        least = f"; {min(sent[name]):.1f} datagrams" if sent[name] else ""
        print(
            (
                f"64 KiB {name}: {numbers([1 / it for it in found])} a second; {numbers([1e6 * it for it in found])} us"
                f" each{least}"
            ),
            flush=True,
        )
    return {name: statistics.median(found or [0]) for name, found in times.items()}


def events(program: str, runs: int) -> None:
    for octets in (SMALL, LARGE):
        found = []
        for _ in range(runs):
            ran = subprocess.run(
                [
                    program,
                    "ask",
                    "-",
                    "0",
                    "memory",
                    str(EVENTS if octets == SMALL else EVENTS // 10),
                    str(octets),
                    "1",
                ],
                capture_output=True,
                text=True,
                check=True,
            )
            _, count, seconds = ran.stdout.split()
            found.append(int(count) / float(seconds))
        print(f"events, requests of {octets:,} octets: {numbers(found)} a second in one thread", flush=True)


def main() -> int:
    reads = argparse.ArgumentParser(description=__doc__, formatter_class=argparse.RawDescriptionHelpFormatter)
    reads.add_argument("library", nargs="?", type=pathlib.Path, default=TOP / "lib" / "libdeltat.a")
    reads.add_argument("--runs", type=int, default=3)
    reads.add_argument("--seconds", type=float, default=3)
    given = reads.parse_args()
    if not given.library.exists():
        print(f"{given.library} isn't there: make -C lib", file=sys.stderr)
        return 2
    with tempfile.TemporaryDirectory(prefix="deltat-library-") as folder:
        programs = built(pathlib.Path(folder), given.library)
        if "libdeltat" not in programs:
            return 2
        small = answers(programs, given.runs, given.seconds)
        large = messages(programs, given.runs)
        events(programs["libdeltat"], given.runs)
    own, cost = small["libdeltat"]
    for name, (rate, used) in small.items():
        if name != "libdeltat" and own and used:
            print(f"answers: {name} gives {rate / own:.2f} times as many, for {used / cost:.2f} of the processor")
    for ours, words in (("libdeltat", ""), ("segments", " in segments")):
        if large.get("ENet") and large.get(ours):
            print(f"64 KiB{words}: ENet takes {large['ENet'] / large[ours]:.2f} of the time")
    return 0


if __name__ == "__main__":
    sys.exit(main())
