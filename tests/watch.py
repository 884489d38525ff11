#!/usr/bin/env python3
"""The watch of the driver: what is late, copied, of other parameters or of a clock that stood is never delivered twice.

`tests/watch.py [--runs N] [CASE ..]`; all cases where none is named, each N times (2 where N isn't given). A client
makes calls to a service over a relay (tests/watch/relay.c), which delays, copies and keeps datagrams back; the service
notes each request that is handed out. In each run nothing is handed out twice, and the counter that names the cause has
counted. Then four runs without the watch, of which three at least must break.

  disk     32 KiB pieces on 64 and on 128 flows over a deep queue
  copies   1 % of the datagrams come a second time, 1 to 5 s later
  kept     1 % come 1 to 5 s late
  other_r  the client has another r than the service
  held     the client is stopped between the making of its frames and the socket
  again    the service is started again each 2 s, with old packets under way
  clock    the client's machine and its clock stand for 0.6 s: an alarm
  turns    calls of one flow that is full hold up no call of another
  form     the trailer's octets, by the worked one of docs/formats.md
  drops    no datagram is dropped that isn't too old: --datagrams of them (20,000) on loopback, over 1 ms, 20 ms and a
           bottleneck

Ends with 77 where there is no compiler or no archive.

In tests/all: no words, 900 s."""
import argparse
import collections
import mmap
import pathlib
import re
import shutil
import signal
import struct
import subprocess
import sys
import tempfile
import time
from collections.abc import Callable
from typing import NamedTuple

from lib import TOP, free_port, skip

HERE = TOP / "tests" / "watch"
ARCHIVES = (TOP / "lib" / "libdeltat-udp.a", TOP / "lib" / "libdeltat.a")
COMPILER = shutil.which("gcc") or shutil.which("clang") or ""
FLAGS = ("-std=c11", "-D_GNU_SOURCE", "-O2", "-Wall", "-Wextra", "-Werror", f"-I{TOP / 'include'}")
WRAPPED = "-Wl," + ",".join(
    f"--wrap={it}"
    for it in ("clock_gettime", "sendmmsg", "sendmsg", "dt_watch_hear", "dt_watch_around", "dt_service_receive")
)
WITHOUT_WATCH = 32
# runs without the watch, and how many of them must break, or the case shows nothing
TRIES, BROKEN = 4, 3
PATIENCE = 60


class Ended(NamedTuple):
    """What a run left: how many requests were handed out, how many of them twice, and the counters of both ends."""

    handed: int
    twice: int
    client: dict[str, int]
    server: dict[str, int]
    stops: int  # times that the client's clock stood

    def counted(self, name: str) -> int:
        return self.client.get(name, 0) + self.server.get(name, 0)


class Link(NamedTuple):
    """A client, a relay and a service: the words of each, and what is done to them meanwhile."""

    relay: dict[str, float]
    both: dict[str, int]
    client: dict[str, int]
    server: dict[str, int] = {}
    after: float = 0.5  # s, until what was kept back has come
    restart: float = 0  # s from one start of the service to the next
    stops: int = 0  # times that the client and its clock stand for 0.6 s


def numbers(text: str) -> dict[str, int]:
    return {name: int(value) for name, value in re.findall(r"(\w+) (\d+)", text)}


class Programs:
    """The programs, compiled into a folder."""

    def __init__(self, folder: pathlib.Path) -> None:
        self.folder = folder
        self.made = 0
        codec = [str(TOP / "lib" / "udp" / "trailer.c")]
        for name, more in (
            ("relay", ()),
            ("form", codec),
            ("ends", (WRAPPED, *map(str, ARCHIVES))),
            ("turns", tuple(map(str, ARCHIVES))),
        ):
            words = [COMPILER, *FLAGS, str(HERE / f"{name}.c"), *more, "-o", str(folder / name)]
            ran = subprocess.run(words, capture_output=True, text=True, check=False)
            if ran.returncode:
                sys.exit(f"{' '.join(words)}\n{ran.stderr}")

    def start(self, name: str, *words: str, **keys: object) -> subprocess.Popen[str]:
        all_words = [str(self.folder / name), *words, *(f"{key}={value}" for key, value in keys.items())]
        it = subprocess.Popen(all_words, stdout=subprocess.PIPE, text=True)
        assert it.stdout and it.stdout.readline() == "ready\n", f"{' '.join(all_words)} doesn't start"
        return it


def ended(it: subprocess.Popen[str]) -> dict[str, int]:
    it.send_signal(signal.SIGTERM)
    said, _ = it.communicate(timeout=PATIENCE)
    return numbers(said)


def requests(log: pathlib.Path) -> tuple[int, int]:
    """How many requests were handed out, and how many of them had been before."""
    octets = log.read_bytes() if log.exists() else b""
    seen = collections.Counter(it for (it,) in struct.iter_unpack("<Q", octets[: len(octets) // 8 * 8]))
    return seen.total(), seen.total() - len(seen)


class Run:
    """One run of a link."""

    def __init__(self, programs: Programs, link: Link, flags: int, seed: int, patience: float = PATIENCE) -> None:
        self.programs, self.link, self.flags, self.seed, self.patience = programs, link, flags, seed, patience
        self.log = programs.folder / f"log-{seed}"
        self.clock = programs.folder / f"clock-{seed}"
        self.ports = [free_port() for _ in range(4)]
        self.lives = self.stops = 0
        self.counts: collections.Counter[str] = collections.Counter()

    def serve(self) -> subprocess.Popen[str]:
        self.lives += 1
        return self.programs.start(
            "ends", "serve", port=self.ports[3], peer_port=self.ports[2], flags=self.flags, log=self.log,
            life=self.lives, again=int(self.lives > 1), **{**self.link.both, **self.link.server},
        )

    def ask(self) -> subprocess.Popen[str]:
        self.clock.write_bytes(bytes(4096))
        return self.programs.start(
            "ends", "ask", port=self.ports[0], peer_port=self.ports[1], flags=self.flags, run=self.seed,
            clock=self.clock, **{**self.link.both, **self.link.client},
        )

    def stand(self, client: subprocess.Popen[str]) -> None:
        """The client's machine stands, and its clock too."""
        client.send_signal(signal.SIGSTOP)
        time.sleep(0.6)
        with self.clock.open("r+b") as file, mmap.mmap(file.fileno(), 4096) as room:
            room[:8] = struct.pack("<q", struct.unpack("<q", room[:8])[0] + 600_000_000)
        client.send_signal(signal.SIGCONT)

    def watch(self, client: subprocess.Popen[str], server: subprocess.Popen[str]) -> subprocess.Popen[str]:
        """Waits for the client. What stopped itself goes on after 0.4 s; the service is started again."""
        begun = restarted = time.monotonic()
        while client.poll() is None and time.monotonic() - begun < self.patience:
            if self.link.client.get("held") and is_stopped(client.pid):
                time.sleep(0.4)
                client.send_signal(signal.SIGCONT)
            if self.link.restart and time.monotonic() - restarted > self.link.restart:
                self.counts.update(ended(server))
                server, restarted = self.serve(), time.monotonic()
            if self.stops < self.link.stops and time.monotonic() - begun > 1 + 0.9 * self.stops:
                self.stops += 1
                self.stand(client)
            time.sleep(0.01)
        return server

    def __call__(self) -> Ended:
        a, to_a, b, to_b = self.ports[1], self.ports[0], self.ports[2], self.ports[3]
        relay = self.programs.start("relay", a=a, b=b, to_a=to_a, to_b=to_b, seed=self.seed, **self.link.relay)
        server = self.serve()
        client = self.ask()
        try:
            server = self.watch(client, server)
            client_says = ended(client)
            time.sleep(self.link.after)
            self.counts.update(ended(server))
            ended(relay)
        finally:
            for it in (relay, server, client):
                it.kill()
        return Ended(*requests(self.log), client_says, dict(self.counts), self.stops)


def whole(programs: Programs, link: Link, flags: int, seed: int) -> Ended:
    """A run in which all that was meant happened: where the machine itself stood for seconds, the client ends before
    its clock stood, and there was nothing to find. Then it is run once more."""
    for again in range(3):
        it = Run(programs, link, flags, seed + 400 * again)()
        if it.stops == link.stops and (it.handed or it.counted("other_parameters")):
            return it
        print(f"the machine stood: {it}", file=sys.stderr)
    raise AssertionError("the machine stands again and again")


def is_stopped(pid: int) -> bool:
    try:
        return pathlib.Path(f"/proc/{pid}/stat").read_text().rpartition(")")[2].split()[0] == "T"
    except OSError:
        return False


# --- the cases

QUICK = {"mpl": 60, "r": 100, "rto": 10, "charge": 44}
# (one call at a time on a flow: then each request begins a run, which a receiver without a record takes)
# (and where the machine stands for longer than r, answers are given up: the next calls mustn't wait for long, since a
# stop is seen by what is sent after it)
SMALL = {"flows": 16, "depth": 1, "octets": 1000, "seconds": 4, "timeout": 400}
DISK = {"mpl": 400, "r": 300, "rto": 40, "charge": 44}
DEEP: dict[str, float] = {"delay": 1000, "rate": 50, "queue": 40_000_000}


def disk(flows: int) -> Link:
    return Link(DEEP, DISK, {"flows": flows, "depth": 512 // flows, "octets": 32768, "seconds": 6}, after=2)


LINKS = {
    "disk": (disk(64), disk(128)),
    "copies": (Link({"delay": 1000, "copy": 100, "lose": 50}, QUICK, SMALL, after=5),),
    "kept": (Link({"delay": 1000, "keep": 100}, QUICK, SMALL, after=5),),
    "other_r": (Link({"delay": 1000, "deaf": 700}, QUICK, SMALL | {"r": 2000}, {"r": 50}),),
    "held": (Link({"delay": 1000, "lose_back": 3000}, QUICK, SMALL | {"held": 100, "seconds": 8}),),
    "again": (Link({"delay": 1000, "copy": 200}, QUICK, SMALL | {"seconds": 8}, after=5, restart=2),),
    "clock": (Link({"delay": 1000, "lose_back": 3000}, QUICK, SMALL | {"seconds": 8}, stops=8),),
}
# which counter has the cause
COUNTERS = {
    "disk": "answered", "copies": "too_old", "kept": "too_old", "other_r": "other_parameters", "held": "too_old",
    "again": "too_old", "clock": "clock_alarms",
}


def runs_of(case: str, programs: Programs, runs: int) -> str:
    """The runs of a case with the watch, and without it."""
    told = []
    for place, link in enumerate(LINKS[case]):
        counted = handed = 0
        for seed in range(runs):
            it = whole(programs, link, 0, 1000 * place + seed)
            assert it.twice == 0, f"{it.twice} of {it.handed} requests were handed out twice: {it}"
            assert it.counted(COUNTERS[case]) > 0, f"{COUNTERS[case]} counted nothing: {it}"
            counted += it.counted(COUNTERS[case])
            handed += it.handed
        bare = [whole(programs, link, WITHOUT_WATCH, 5000 + 1000 * place + seed) for seed in range(TRIES)]
        shown = ", ".join(f"{it.twice} of {it.handed}" for it in bare)
        assert sum(it.twice > 0 for it in bare) >= BROKEN, f"without the watch too little breaks: {shown}"
        told.append(f"nothing twice in {runs} runs ({handed} requests, {COUNTERS[case]} {counted}); without it {shown}")
    return "; ".join(told)


def form(programs: Programs) -> str:
    """The codec: the worked trailer of docs/formats.md, each octet of it at each value, and other versions and
    kinds."""
    lines = (TOP / "docs" / "formats.md").read_text().splitlines()
    worked = bytes.fromhex(next(it for it in lines if it.startswith("a1b2c3d4")))
    changed = [
        worked[:at] + bytes([value]) + worked[at + 1 :] for at in range(len(worked)) for value in range(0, 256, 5)
    ]
    given = [worked, *changed, worked[:4] + bytes(6) + worked[10:]]
    words = [str(programs.folder / "form"), *(it.hex() for it in given)]
    said = subprocess.run(words, capture_output=True, text=True, check=True).stdout.splitlines()
    wanted = "a1b2c3d4 7 1 0 2000000 1999000 9 20 5 0 3 "
    assert said[0] == wanted + worked.hex(), f"the worked trailer is read as {said[0]}"
    for octets, line in zip(given, said, strict=True):
        good = octets[10] in (0x11, 0x12, 0x13) and octets[4:10] != bytes(6)
        assert line.split()[-1] == (octets.hex() if good else "none"), f"{octets.hex()} is read as {line}"
    return f"{len(given)} trailers"


def turns(programs: Programs) -> str:
    """A hundred calls of 32 KiB on one flow, which has room for one: a call on another flow of the same peer isn't held
    up by them, and a call whose time is over ends though others wait before it."""
    ports = [free_port() for _ in range(4)]
    relay = programs.start("relay", a=ports[1], b=ports[2], to_a=ports[0], to_b=ports[3], delay=5000, rate=50)
    keys = {"mpl": 800, "r": 1200, "rto": 150, "charge": 300}
    server = programs.start("ends", "serve", port=ports[3], peer_port=ports[2], **keys)
    client = programs.start("turns", str(ports[0]), str(ports[1]))
    try:
        said = numbers(client.communicate(timeout=PATIENCE)[0])
    finally:
        for it in (client, server, relay):
            it.kill()
    assert said.get("answered") == 100, f"{said}"
    assert said["before"] <= 15 and said["late"] == 0, f"the other flow's call was held up: {said}"
    return f"the call on another flow ended after {said['before']} of 100"


# paths: what the relay does, the longest delay and a usual round trip in us, and what is under way
PATHS: dict[str, tuple[dict[str, float], dict[str, int], dict[str, int]]] = {
    "loopback": ({"delay": 0}, {"delay_us": 200, "trip_us": 200}, {"flows": 16, "depth": 16, "octets": 4000}),
    "1 ms": ({"delay": 1000}, {"delay_us": 3000, "trip_us": 2000}, {"flows": 16, "depth": 16, "octets": 4000}),
    "20 ms": ({"delay": 20_000}, {"delay_us": 22_000, "trip_us": 40_000}, {"flows": 64, "depth": 4, "octets": 4000}),
    "bottleneck": (
        {"delay": 20_000, "rate": 100, "queue": 500_000},
        {"delay_us": 62_000, "trip_us": 50_000},
        {"flows": 64, "depth": 8, "octets": 32768},
    ),
}


def drops(programs: Programs, datagrams: int) -> str:
    """No datagram is dropped that isn't late in truth, by the parameters of dt_udp_params_for; few are late."""
    told = []
    for name, (relay, both, load) in PATHS.items():
        # (the client reads about half of them)
        client = load | {"seconds": 60 + datagrams // 2000, "datagrams": int(datagrams * 0.6)}
        it = Run(programs, Link(relay, both, client), 0, 9000, patience=120 + datagrams // 2000)()
        assert it.counted("clock_alarms") == 0, f"a false alarm: {it}"
        told.append(
            f"{name}: {it.counted('false_drops')} of {it.counted('in')} dropped falsely, {it.counted('late')} that "
            f"were late, the longest {max(it.client['longest_us'], it.server['longest_us']) / 1000:.1f} ms"
        )
        assert it.counted("false_drops") == 0, "; ".join(told)
        assert it.counted("in") >= datagrams, f"too few datagrams: {told[-1]}"
    return "; ".join(told)


def main() -> int:
    parser = argparse.ArgumentParser(description=(__doc__ or "").split("\n\n", maxsplit=1)[0])
    parser.add_argument("--runs", type=int, default=2)
    parser.add_argument("--datagrams", type=int, default=20_000)
    parser.add_argument("cases", nargs="*", metavar="CASE")
    words = parser.parse_args()
    cases: dict[str, Callable[[Programs], str]] = {
        it: (lambda programs, it=it: runs_of(it, programs, words.runs)) for it in LINKS
    }
    cases["form"], cases["turns"] = form, turns
    cases["drops"] = lambda programs: drops(programs, words.datagrams)
    if unknown := set(words.cases) - set(cases):
        parser.error(f"no case {', '.join(sorted(unknown))}")
    if not COMPILER:
        skip("there is no C compiler")
    if not all(it.exists() for it in ARCHIVES):
        skip("lib/libdeltat.a isn't built (make -C lib)")
    wrong = 0
    for name in words.cases or cases:
        with tempfile.TemporaryDirectory(prefix="deltat-watch-") as folder:
            begun = time.monotonic()
            try:
                told = cases[name](Programs(pathlib.Path(folder)))
            except (AssertionError, subprocess.TimeoutExpired) as why:
                wrong, told = wrong + 1, f"FAILED: {why}"
            print(f"{name}: {told} ({time.monotonic() - begun:.1f} s)", flush=True)
    return 1 if wrong else 0


if __name__ == "__main__":
    sys.exit(main())
