#!/usr/bin/env python3
"""A disk over TCP and a disk over calls, side by side, when a client dies behind a cut network.

    examples/blocks/demo.py [--cut S] [--watch S] [--picture FILE]

The network is cut, a client with 64 writes under way is killed, a second client writes all blocks anew and flushes,
and the network comes back before that. One disk is a stock NBD server (nbdkit) that clients reach by TCP. The other is
this folder's server, which clients reach through a gateway. Both have the same clients (libnbd), the same network and
the same moments. Then the files of both disks are watched: does a block of the dead client replace a newer one?

It takes a minute. It needs Linux with namespaces (of users too, if you aren't root), the built library (make -C lib),
a C compiler, make, iproute2, nbdkit and python3-libnbd. Ends with 0 if no stale block was seen over calls."""

import argparse
import contextlib
import dataclasses
import importlib
import json
import os
import pathlib
import shutil
import signal
import subprocess
import sys
import tempfile
import threading
import time
from collections.abc import Callable, Iterator
from typing import Any

HERE = pathlib.Path(__file__).resolve().parent
sys.path.insert(0, str(HERE.parent.parent / "tests"))

import wan  # noqa: E402

BLOCKS, SIZE = 64, 4096
SERVER_HOST, TCP_PORT, CALLS_PORT = wan.ADDRESSES[0], "10809", "10890"
# the link has 20 ms each way; 60 ms are allowed, since this machine may be busy
DELAY, ALLOWED = 20.0, 60
NETWORK = f"{ALLOWED},{2 * DELAY:.0f}"
WAYS = ("TCP", "calls")
FIRST, OLD, NEW = "first", "old", "new"


def block(version: str, number: int) -> bytes:
    return (f"{version} {number} ".encode() * SIZE)[:SIZE]


def wait_for(path: pathlib.Path, seconds: float = 30.0) -> None:
    until = time.monotonic() + seconds
    while not path.exists():
        if time.monotonic() > until:
            raise SystemExit(f"demo: {path.name} didn't appear within {seconds:.0f} s")
        time.sleep(0.005)


# --- the clients: real ones, by libnbd


def libnbd() -> Any:
    """The module of python3-libnbd, which has no types."""
    return importlib.import_module("nbd")


def opened(uri: str, seconds: float = 20.0) -> Any:
    """A connection; the server may not be ready yet."""
    nbd = libnbd()
    until = time.monotonic() + seconds
    while True:
        try:
            handle = nbd.NBD()
            handle.connect_uri(uri)
            return handle
        except nbd.Error:
            if time.monotonic() > until:
                raise
            time.sleep(0.02)


def write_all(handle: Any, version: str) -> None:
    """Makes a write of each block, all at once, and waits for the answers."""
    nbd = libnbd()
    for number in range(BLOCKS):
        handle.aio_pwrite(nbd.Buffer.from_bytearray(bytearray(block(version, number))), number * SIZE)
    while handle.aio_in_flight():
        handle.poll(-1)


def first_client(uri: str, folder: pathlib.Path, way: str) -> None:
    """Writes all blocks, waits until the network is cut, and writes them again until it is killed."""
    handle = opened(uri)
    write_all(handle, FIRST)
    handle.flush()
    (folder / f"ready-{way}").touch()
    wait_for(folder / "cut")
    write_all(handle, OLD)


def second_client(uri: str, folder: pathlib.Path, way: str) -> None:
    """Writes all blocks and flushes, and notes when that was answered."""
    handle = opened(uri)
    write_all(handle, NEW)
    handle.flush()
    (folder / f"flushed-{way}.part").write_text(str(time.monotonic()))
    (folder / f"flushed-{way}.part").rename(folder / f"flushed-{way}")
    handle.shutdown()


# --- the side of the clients


@dataclasses.dataclass
class Watch:
    """What the blocks of a disk's file had, from one change to the next."""

    path: pathlib.Path
    changes: list[tuple[float, int, str]] = dataclasses.field(default_factory=list)
    now: list[str] = dataclasses.field(default_factory=lambda: [""] * BLOCKS)

    def look(self) -> None:
        at, octets = time.monotonic(), self.path.read_bytes()
        for number in range(BLOCKS):
            version = octets[number * SIZE : number * SIZE + 16].split(b" ")[0].decode(errors="replace").strip("\0")
            if version != self.now[number]:
                self.now[number] = version
                self.changes.append((at, number, version))


@contextlib.contextmanager
def watched(watches: list[Watch]) -> Iterator[None]:
    over = threading.Event()

    def run() -> None:
        while not over.wait(0.01):
            for it in watches:
                it.look()

    thread = threading.Thread(target=run)
    thread.start()
    try:
        yield
    finally:
        over.set()
        thread.join()


def client_side(folder: pathlib.Path, cut: float, watch: float) -> None:
    """Starts and kills the clients and gateways, cuts the network and mends it, and notes what was seen."""
    running: dict[str, "subprocess.Popen[bytes]"] = {}

    def start(name: str, *words: str) -> None:
        running[name] = subprocess.Popen(words, stderr=(folder / f"{name}.log").open("wb"))

    def start_client(which: str, way: str) -> None:
        uri = f"nbd://{SERVER_HOST}:{TCP_PORT}"
        if way == "calls":
            door = folder / f"{which}.sock"
            start(f"gateway-{which}", str(folder / "gateway"), NETWORK, f"{SERVER_HOST}:{CALLS_PORT}", str(door))
            uri = f"nbd+unix:///?socket={door}"
        start(f"{way}-{which}", python_with_nbd(), __file__, f"{which}-client", uri, str(folder), way)

    watches = {way: Watch(folder / f"{way}.disk") for way in WAYS}
    moments: dict[str, float] = {}
    try:
        with watched(list(watches.values())):
            for way in WAYS:
                start_client("first", way)
            for way in WAYS:
                wait_for(folder / f"ready-{way}")
            time.sleep(0.5)
            (folder / "cut").touch()
            moments["cut"] = time.monotonic()
            time.sleep(0.3)
            for name in ("TCP-first", "calls-first", "gateway-first"):
                running[name].send_signal(signal.SIGKILL)
                running[name].wait()
            moments["killed"] = time.monotonic()
            time.sleep(cut)
            (folder / "whole").touch()
            moments["whole"] = time.monotonic()
            for way in WAYS:
                start_client("second", way)
            for way in WAYS:
                wait_for(folder / f"flushed-{way}")
                moments[f"flushed-{way}"] = float((folder / f"flushed-{way}").read_text())
            time.sleep(watch)
        moments["end"] = time.monotonic()
    finally:
        for it in running.values():
            it.kill()
            it.wait()
    found = {"moments": moments, "changes": {way: it.changes for way, it in watches.items()}}
    (folder / "found").write_text(json.dumps(found))


def server_side(folder: pathlib.Path) -> int:
    """Both servers, until this process is stopped."""
    tcp = ["nbdkit", "-f", "-i", SERVER_HOST, "-p", TCP_PORT, "file", str(folder / "TCP.disk")]
    door = f"{SERVER_HOST}:{CALLS_PORT}"
    calls = [str(folder / "server"), NETWORK, str(folder / "calls.disk"), str(folder / "state"), door]
    with (folder / "server.log").open("wb") as log:
        running = [subprocess.Popen(it, stderr=log) for it in (tcp, calls)]
        signal.signal(signal.SIGTERM, lambda *_: sys.exit(0))
        try:
            return running[1].wait()
        finally:
            for it in running:
                it.terminate()
                it.wait()


# --- the network


class Cut(wan.Carrier):
    """A link that loses each packet while the folder has `cut` and not `whole`."""

    folder: pathlib.Path

    def accept(self, side: int, packet: bytes, now: float) -> None:
        if (self.folder / "cut").exists() and not (self.folder / "whole").exists():
            return
        super().accept(side, packet, now)


def linked(folder: pathlib.Path, cut: float, watch: float) -> dict[str, dict[str, Any]]:
    """Runs both sides over the link, and returns what was found."""
    words = [sys.executable, __file__]
    sides = [[*words, "server-side", str(folder)], [*words, "client-side", str(folder), str(cut), str(watch)]]
    Cut.folder = folder
    wan.Carrier = Cut  # type: ignore[misc]
    outcome = wan.impaired_link(sides, wan.Link(DELAY), wan.Bound(cut + watch + 60), serves=True)
    if outcome.stopped or any(outcome.statuses):
        logs = "".join(it.read_text(errors="replace") for it in folder.glob("*.log"))
        raise SystemExit(f"demo: the clients ended with {outcome.statuses[1]}\n{logs}")
    found: dict[str, dict[str, Any]] = json.loads((folder / "found").read_text())
    return found


# --- what was seen


@dataclasses.dataclass
class Seen:
    """One disk: for each block its stretches (from, to, version, is stale), in seconds after the kill."""

    way: str
    blocks: list[list[tuple[float, float, str, bool]]]
    flushed: float

    @property
    def stale(self) -> dict[int, float]:
        """The blocks in which an old version replaced a flushed one, and when."""
        found = {number: [it[0] for it in stretches if it[3]] for number, stretches in enumerate(self.blocks)}
        return {number: times[0] for number, times in found.items() if times}


def seen(way: str, found: dict[str, dict[str, Any]]) -> Seen:
    moments = found["moments"]
    killed, end = moments["killed"], moments["end"] - moments["killed"]
    changes: list[list[tuple[float, str]]] = [[] for _ in range(BLOCKS)]
    for at, number, version in found["changes"][way]:
        changes[number].append((at - killed, version))
    blocks = []
    for own in changes:
        ends = [*(at for at, _ in own[1:]), end]
        was_new = [any(it == NEW for _, it in own[:i]) for i in range(len(own))]
        blocks.append([(at, to, version, version != NEW and new) for (at, version), to, new in zip(own, ends, was_new)])
    return Seen(way, blocks, moments[f"flushed-{way}"] - killed)


def told(it: Seen, whole: float) -> str:
    line = f"{it.way:6} all blocks new and flushed {it.flushed - whole:.1f} s after the network was whole"
    if not it.stale:
        return f"{line}; stale blocks: 0 of {BLOCKS}"
    at = min(it.stale.values())
    numbers = ", ".join(str(number) for number in it.stale)
    return (
        f"{line}; STALE blocks: {len(it.stale)} of {BLOCKS} ({numbers}): old over new, "
        f"{at - it.flushed:.1f} s after the flush was answered, {at:.1f} s after the client was killed"
    )


# --- the picture

COLOURS = {"": "#eeeeee", FIRST: "#d0d4da", OLD: "#e8a33d", NEW: "#3b78b8"}
ROW, LEFT, TOP, WIDTH, GAP = 4, 60, 78, 760, 74


def panel(it: Seen, moments: dict[str, float], at_y: int, place: Callable[[float], float]) -> list[str]:
    height = BLOCKS * ROW
    result = "no stale block" if not it.stale else f"{len(it.stale)} stale block{'s' if len(it.stale) > 1 else ''}"
    title = "a stock NBD server over TCP" if it.way == "TCP" else "examples/blocks over calls"
    parts = [
        f'<text x="{LEFT}" y="{at_y - 22}" class="title">{title}: {result}</text>',
        f'<text x="{LEFT - 8}" y="{at_y + 9}" class="end">block 0</text>',
        f'<text x="{LEFT - 8}" y="{at_y + height}" class="end">{BLOCKS - 1}</text>',
    ]
    for number, stretches in enumerate(it.blocks):
        for begin, end, version, is_stale in stretches:
            x, to = place(begin), place(end)
            colour = "#c8102e" if is_stale else COLOURS.get(version, "#000000")
            if to > x:
                parts.append(
                    f'<rect x="{x:.1f}" y="{at_y + number * ROW}" width="{to - x:.1f}" '
                    f'height="{ROW - 0.5}" fill="{colour}"/>'
                )
    marks = [
        ("cut", "cut", "end"),
        ("killed", "client killed", ""),
        ("whole", "whole", "end"),
        (f"flushed-{it.way}", "all new, flushed", ""),
    ]
    for name, word, side in marks:
        x = place(moments[name] - moments["killed"])
        parts.append(f'<line x1="{x:.1f}" x2="{x:.1f}" y1="{at_y - 14}" y2="{at_y + height}" class="mark"/>')
        parts.append(f'<text x="{x + (-3 if side else 3):.1f}" y="{at_y - 5}" class="{side}">{word}</text>')
    if it.stale:
        at, last = min(it.stale.values()), max(it.stale)
        parts.append(
            f'<text x="{place(at) + 4:.1f}" y="{at_y + min(last + 4, BLOCKS - 1) * ROW}" class="stale">'
            f"{len(it.stale)} of {BLOCKS} old again, {at - it.flushed:.1f} s after the flush</text>"
        )
    return parts


def picture(both: list[Seen], moments: dict[str, float]) -> str:
    """An SVG: time from left to right, a row for each block, both disks one below the other."""
    killed = moments["killed"]
    begin, end = moments["cut"] - killed - 1, moments["end"] - killed
    height = TOP + 2 * (BLOCKS * ROW + GAP)

    def place(at: float) -> float:
        return LEFT + WIDTH * (min(max(at, begin), end) - begin) / (end - begin)

    parts = [
        f'<svg xmlns="http://www.w3.org/2000/svg" viewBox="0 0 {LEFT + WIDTH + 20} {height}" '
        'font-family="sans-serif" font-size="11">',
        "<style>.title{font-size:14px;font-weight:bold}.end{text-anchor:end}.mark{stroke:#000;stroke-dasharray:3 2}"
        ".stale{fill:#c8102e;font-weight:bold;paint-order:stroke;stroke:#fff;stroke-width:3px}</style>",
        '<rect width="100%" height="100%" fill="#ffffff"/>',
    ]
    legend = [(COLOURS[FIRST], "as it was"), (COLOURS[NEW], "new"), ("#c8102e", "old of the dead client, over new")]
    for i, (colour, word) in enumerate(legend):
        parts.append(
            f'<rect x="{LEFT + 130 * i}" y="10" width="12" height="12" fill="{colour}"/>'
            f'<text x="{LEFT + 130 * i + 17}" y="20">{word}</text>'
        )
    for i, it in enumerate(both):
        parts += panel(it, moments, TOP + i * (BLOCKS * ROW + GAP), place)
    for second in range(0, int(end) + 1, 5):
        parts.append(f'<text x="{place(second):.1f}" y="{height - 28}" text-anchor="middle">{second} s</text>')
    parts.append(
        f'<text x="{LEFT + WIDTH}" y="{height - 10}" class="end">seconds after the client was killed</text></svg>'
    )
    return "\n".join(parts) + "\n"


# --- the program


def python_with_nbd() -> str:
    """An interpreter that has libnbd's module: this one, or Debian's."""
    for it in (sys.executable, "/usr/bin/python3"):
        if subprocess.run([it, "-c", "import nbd"], capture_output=True, check=False).returncode == 0:
            return it
    raise SystemExit("demo: python3-libnbd isn't installed")


def built(folder: pathlib.Path) -> None:
    """The server and the gateway, in the folder."""
    if not (HERE.parent.parent / "lib" / "libdeltat-udp.a").exists():
        raise SystemExit("demo: the library isn't built; run make -C lib")
    subprocess.run(["make", "-s", "-C", str(HERE), f"OUT={folder}"], check=True)


def demonstrate(folder: pathlib.Path, given: argparse.Namespace) -> int:
    built(folder)
    python_with_nbd()
    for way in WAYS:
        (folder / f"{way}.disk").write_bytes(bytes(BLOCKS * SIZE))
    print(
        f"{DELAY:.0f} ms each way, cut {given.cut:.0f} s: a client with {BLOCKS} writes under way is killed, "
        f"a second one writes all "
        f"{BLOCKS} blocks and flushes; then {given.watch:.0f} s of watching",
        flush=True,
    )
    found = linked(folder, given.cut, given.watch)
    both = [seen(way, found) for way in WAYS]
    moments = found["moments"]
    for it in both:
        print(told(it, moments["whole"] - moments["killed"]))
    print("over calls a write lands at most mpl and one step of the server after its gateway's process is gone:")
    print("    " + (folder / "server.log").read_text().splitlines()[0])
    if given.picture:
        given.picture.write_text(picture(both, moments))
    return 1 if both[1].stale else 0


def main() -> int:
    parts: dict[str, Callable[..., object]] = {
        "server-side": lambda folder: server_side(pathlib.Path(folder)),
        "client-side": lambda folder, cut, watch: client_side(pathlib.Path(folder), float(cut), float(watch)),
        "first-client": lambda uri, folder, way: first_client(uri, pathlib.Path(folder), way),
        "second-client": lambda uri, folder, way: second_client(uri, pathlib.Path(folder), way),
    }
    if sys.argv[1:] and sys.argv[1] in parts:
        return 1 if parts[sys.argv[1]](*sys.argv[2:]) else 0
    if os.geteuid() != 0:
        os.execvp("unshare", ["unshare", "--user", "--map-root-user", sys.executable, *sys.argv])
    reads = argparse.ArgumentParser(description=__doc__, formatter_class=argparse.RawDescriptionHelpFormatter)
    reads.add_argument(
        "--cut", type=float, default=8.0, metavar="S", help="from the kill until the network is whole (8)"
    )
    reads.add_argument("--watch", type=float, default=20.0, metavar="S", help="from the last flush on (20)")
    reads.add_argument("--picture", type=pathlib.Path, metavar="FILE", help="where the picture is written, as SVG")
    given = reads.parse_args()
    signal.signal(signal.SIGTERM, lambda *_: sys.exit(1))  # (so that what was started is ended)
    for word in ("nbdkit", "ip", "make", "cc"):
        if shutil.which(word) is None:
            raise SystemExit(f"demo: {word} isn't installed")
    with tempfile.TemporaryDirectory(prefix="deltat-blocks-") as folder:
        return demonstrate(pathlib.Path(folder), given)


if __name__ == "__main__":
    sys.exit(main())
