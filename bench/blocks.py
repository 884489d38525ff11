#!/usr/bin/env python3
"""The disk of examples/blocks beside nbdkit by TCP and beside an nbdkit proxy, by fio.

    bench/blocks.py [--links loopback 1 20] [--losses 0 1 5] [--blocks 4 64] [--depths 1 8 32] [--seconds S] [--runs N]

Each cell is a job of fio (randwrite, then each block read and verified by crc32c) over one after another of

- calls: client, Unix socket, gateway, calls, server;
- proxy: client, Unix socket, nbdkit, TCP, nbdkit: the same hops;
- TCP: client, TCP, nbdkit.

Links: `loopback`, or so many ms each way over tests/wan.py, where of 100 packets so many are lost (--losses), and the
queue of each end's device has 5,000 packets. The disks are files in /dev/shm. A job has as many blocks as S seconds (2)
would take on a quiet machine. Requests a second are printed, and of the last columns above 1 is better for calls.
It needs root, make -C lib, nbdkit and fio. Ends with 1 if fio found an error."""

import argparse
import dataclasses
import json
import os
import pathlib
import shutil
import signal
import subprocess
import sys
import tempfile
import time
from typing import Any

HERE = pathlib.Path(__file__).resolve().parent
TOP = HERE.parent
sys.path.insert(0, str(TOP / "tests"))

import wan  # noqa: E402
from lib import HOST  # noqa: E402

WAYS = ("calls", "proxy", "TCP")
TCP_PORT, CALLS_PORT = "10809", "10890"
DISK_MIB = 256
LIMIT = 150.0


@dataclasses.dataclass(frozen=True)
class Path:
    """A link, and what the disk's programs are told of it."""

    name: str
    delay: float  # ms each way; 0: loopback
    network: str
    # requests a second of a quiet machine, by which the length of a job is chosen: of 4 and of 64 KiB, by depth
    rates: dict[tuple[int, int], int]

    @property
    def host(self) -> str:
        return wan.ADDRESSES[0] if self.delay else HOST


def rates(of_4: tuple[int, int, int], of_64: tuple[int, int, int]) -> dict[tuple[int, int], int]:
    return {(size, depth): rate for size, row in ((4, of_4), (64, of_64)) for depth, rate in zip((1, 8, 32), row)}


PATHS = {
    "loopback": Path(
        "loopback",
        0,
        "20,1,9000",
        rates((8000, 20000, 20000), (2000, 3000, 3000)),
    ),
    "1": Path("1 ms", 1, "20,2", rates((300, 2000, 6000), (200, 1000, 1500))),
    "20": Path("20 ms", 20, "60,40", rates((24, 180, 700), (20, 150, 400))),
}


@dataclasses.dataclass(frozen=True)
class Job:
    size: int  # KiB of a block
    depth: int


@dataclasses.dataclass(frozen=True)
class Result:
    writes: float
    reads: float
    p99_ms: float
    error: int


def fio(uri: str, job: Job, blocks: int, folder: pathlib.Path) -> Result:
    words = [
        "fio",
        "--name=j",
        "--ioengine=nbd",
        f"--uri={uri}",
        "--rw=randwrite",
        f"--bs={job.size}k",
        f"--iodepth={job.depth}",
        f"--size={blocks * job.size}k",
        "--randrepeat=0",
        "--verify=crc32c",
        "--verify_fatal=0",
        "--do_verify=1",
        "--end_fsync=1",
        "--output-format=json",
    ]
    try:
        done = subprocess.run(words, capture_output=True, text=True, timeout=LIMIT, cwd=folder, check=False)
        found = json.loads(done.stdout[done.stdout.index("{") :])["jobs"][0]
    except (subprocess.TimeoutExpired, ValueError):
        return Result(0, 0, 0, 1)
    write, read = found["write"], found["read"]
    p99 = write["clat_ns"].get("percentile", {}).get("99.000000", 0) / 1e6
    return Result(write["iops"], read["iops"], p99, found["error"] or done.returncode)


def blocks_of(path: Path, job: Job, seconds: float) -> int:
    near = min((it for it in path.rates if it[0] == job.size), key=lambda it: abs(it[1] - job.depth), default=(64, 8))
    most = DISK_MIB * 1024 // job.size
    return min(max(round(path.rates[near] * seconds), 2 * job.depth, 24), most)


def wait_for(path: pathlib.Path) -> None:
    until = time.monotonic() + 20
    while not path.exists():
        if time.monotonic() > until:
            raise SystemExit(f"bench: {path.name} didn't appear")
        time.sleep(0.01)


def server_words(path: Path, folder: pathlib.Path) -> list[list[str]]:
    disks = [folder / f"{it}.disk" for it in WAYS]
    return [
        ["nbdkit", "-f", "-i", path.host, "-p", TCP_PORT, "file", str(disks[2])],
        [str(folder / "server"), path.network, str(disks[0]), str(folder / "state"), f"{path.host}:{CALLS_PORT}"],
    ]


def set_queue(path: Path) -> None:
    if path.delay:
        subprocess.run(["ip", "link", "set", "wan0", "txqueuelen", "5000"], check=True)


def serve(path: Path, folder: pathlib.Path) -> int:
    """Both servers, in this process's namespace, until it is stopped."""
    set_queue(path)
    running = [subprocess.Popen(it, stderr=subprocess.DEVNULL) for it in server_words(path, folder)]
    try:
        return running[0].wait()
    finally:
        for it in running:
            it.terminate()
            it.wait()


def measure(path: Path, folder: pathlib.Path, given: argparse.Namespace) -> None:
    """The client's side: every job over every way; the results are in the file `results`."""
    set_queue(path)
    time.sleep(0.5)
    gateway = [str(folder / "gateway"), path.network, f"{path.host}:{CALLS_PORT}", str(folder / "calls.sock")]
    proxy = ["nbdkit", "-f", "-U", str(folder / "proxy.sock"), "nbd", f"hostname={path.host}", f"port={TCP_PORT}"]
    running = [subprocess.Popen(it, stderr=(folder / f"log-{i}").open("wb")) for i, it in enumerate((gateway, proxy))]
    uris = {
        "calls": f"nbd+unix:///?socket={folder}/calls.sock",
        "proxy": f"nbd+unix:///?socket={folder}/proxy.sock",
        "TCP": f"nbd://{path.host}:{TCP_PORT}",
    }
    found = []
    try:
        wait_for(folder / "calls.sock")
        wait_for(folder / "proxy.sock")
        for size in given.blocks:
            for depth in given.depths:
                job = Job(size, depth)
                for run in range(given.runs):
                    for way in WAYS:
                        result = fio(uris[way], job, blocks_of(path, job, given.seconds), folder)
                        found.append([size, depth, run, way, dataclasses.astuple(result)])
    finally:
        for it in running:
            it.terminate()
            it.wait()
    (folder / "results").write_text(json.dumps(found))


def best(found: list[list[Any]], size: int, depth: int, way: str) -> Result:
    """The best run counts, since others may load the machine."""
    results = [Result(*it[4]) for it in found if it[:2] == [size, depth] and it[3] == way]
    return max(results, key=lambda it: it.writes + it.reads)


def show(path: Path, loss: float, given: argparse.Namespace, folder: pathlib.Path) -> int:
    """Prints the rows of a link; how many jobs had an error."""
    found = json.loads((folder / "results").read_text())
    for size in given.blocks:
        for depth in given.depths:
            calls, proxy, tcp = (best(found, size, depth, way) for way in WAYS)
            cells = "".join(f"{it.writes:8.0f} {it.reads:7.0f} {it.p99_ms:6.1f}" for it in (calls, proxy, tcp))
            ratios = "".join(
                f"{calls.writes / max(it.writes, 1):7.2f} {calls.reads / max(it.reads, 1):5.2f}" for it in (proxy, tcp)
            )
            print(f"{path.name:>8} {loss:3.0f} {size:3}k {depth:3}{cells}{ratios}", flush=True)
    log = (folder / "log-0").read_text(errors="replace").strip().splitlines()
    print(f"         {log[-1] if log else ''}", flush=True)
    return sum(it[4][3] != 0 for it in found)


def run(path: Path, loss: float, given: argparse.Namespace, programs: pathlib.Path) -> int:
    """One link: all jobs. How many had an error."""
    with tempfile.TemporaryDirectory(prefix="deltat-blocks-", dir="/dev/shm") as name:
        folder = pathlib.Path(name)
        for it in ("server", "gateway"):
            shutil.copy(programs / it, folder / it)
        for way in WAYS:
            with (folder / f"{way}.disk").open("wb") as disk:
                disk.truncate(DISK_MIB << 20)
        words = [sys.executable, __file__, "--inside", path.name.split()[0], name, *sys.argv[1:]]
        sides = [[*words[:2], "--serve", *words[3:5]], words]
        if path.delay:
            outcome = wan.impaired_link(sides, wan.Link(path.delay, loss / 100), wan.Bound(1800, 10**9), serves=True)
            failed = bool(outcome.stopped or outcome.statuses[1])
        else:
            servers = [subprocess.Popen(it, stderr=subprocess.DEVNULL) for it in server_words(path, folder)]
            try:
                failed = subprocess.run(words, check=False).returncode != 0
            finally:
                for server in servers:
                    server.terminate()
                    server.wait()
        if failed or not (folder / "results").exists():
            print(f"{path.name:>8} {loss:3.0f}: no results")
            return 1
        return show(path, loss, given, folder)


def main() -> int:
    reads = argparse.ArgumentParser(description=__doc__, formatter_class=argparse.RawDescriptionHelpFormatter)
    reads.add_argument("--links", nargs="+", choices=PATHS, default=list(PATHS))
    reads.add_argument("--losses", nargs="+", type=float, default=[0.0, 1.0, 5.0], metavar="PERCENT")
    reads.add_argument("--blocks", nargs="+", type=int, default=[4, 64], metavar="KIB")
    reads.add_argument("--depths", nargs="+", type=int, default=[1, 8, 32], metavar="N")
    reads.add_argument("--seconds", type=float, default=2.0)
    reads.add_argument("--runs", type=int, default=1)
    reads.add_argument("--inside", nargs=2, help=argparse.SUPPRESS)
    reads.add_argument("--serve", nargs=2, help=argparse.SUPPRESS)
    given = reads.parse_args()
    signal.signal(signal.SIGTERM, lambda *_: sys.exit(1))  # (so that what was started is ended)
    if given.serve:
        return serve(PATHS[given.serve[0]], pathlib.Path(given.serve[1]))
    if given.inside:
        measure(PATHS[given.inside[0]], pathlib.Path(given.inside[1]), given)
        return 0
    missing = [it for it in ("nbdkit", "fio", "ip", "make", "cc") if shutil.which(it) is None]
    if missing or not (TOP / "lib" / "libdeltat-udp.a").exists():
        raise SystemExit(f"bench: missing: {', '.join(missing) or 'the library (make -C lib)'}")
    with tempfile.TemporaryDirectory(prefix="deltat-blocks-") as name:
        subprocess.run(["make", "-s", "-C", str(TOP / "examples" / "blocks"), f"OUT={name}"], check=True)
        print(f"requests a second: writes, reads, and the p99 of a write in ms; load {os.getloadavg()[0]:.1f}")
        head = "".join(f"{it:>8} {'r/s':>7} {'p99':>6}" for it in WAYS)
        print(f"    link  %l block  qd{head}  : proxy w r   : TCP w r", flush=True)
        errors = 0
        for link in given.links:
            for loss in given.losses if PATHS[link].delay else [0.0]:
                errors += run(PATHS[link], loss, given, pathlib.Path(name))
        print(f"load {os.getloadavg()[0]:.1f}; jobs with errors: {errors}")
    return 1 if errors else 0


if __name__ == "__main__":
    sys.exit(main())
