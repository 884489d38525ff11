#!/usr/bin/env python3
"""The firmware of examples/board under QEMU, over a bad serial line against `deltat node` and against the library.
`tests/board.py [PROGRAM] [--library ARCHIVE] [--seed N] [--loss PART] [--keep FOLDER]` ends with 1 where one of these
fails:

- built: the firmware compiles without a warning, and stays below CEILINGS.
- first: the board starts with an erased flash, so as a new node, and sends at once. A tenth of the datagrams is lost
  each way, some come twice, in another order or spoilt. What was read is what was sent, in order; nothing that was
  acknowledged is missing, and nothing in between where nothing is uncertain; `deltat audit` says yes to both logs.
- again: the board starts once more, with the flash as it was when it was cut off: it counts a start, and is silent for
  3 mpl + r + a. It never sends before.
- full: the same with a page of flash that has no room for another start: it isn't erased.
- library: the same as `first`, with the library over lib/serial at the other end of the line, a pseudo terminal
  (tests/serial/peer.c): both logs are audited. Left out, with a line, where there is no library or no gcc.

A run in which the bridge or the emulator was held up shows nothing: the charge doesn't cover what waited there. It is
done again, three times at most, and then it fails: run the test on a machine with less work.

Ends with 77 where there is no program, no qemu-system-arm or no arm-none-eabi-gcc.

In tests/all: PROGRAM, 400 s."""
from __future__ import annotations

import argparse
import contextlib
import os
import pathlib
import pty
import random
import re
import shutil
import socket
import subprocess
import sys
import tempfile
import threading
import time
import tty
from collections.abc import Callable, Iterator
from dataclasses import dataclass

from lib import PROGRAM, TOP, skip

BOARD = TOP / "examples" / "board"
sys.path[:0] = [str(BOARD)]
from bridge import Bridge, Line, Udp, connected  # noqa: E402

SECONDS, QUIET, MESSAGES = 16, 6050, 60
LONGEST_MESSAGE = 200
TRIES = 3
# octets: code, and memory without the stack; gcc 12 makes 8,908 and 4,380. The stack's is what the firmware measured
CEILINGS = {"code": 9300, "memory": 4500, "stack": 1200}
COMPILE = [
    "arm-none-eabi-gcc",
    "-mcpu=cortex-m3",
    "-mthumb",
    "-Os",
    "-std=c11",
    "-DDTM_SENDS=2",
    f"-DSECONDS={SECONDS}",
    "-ffreestanding",
    "-nostdlib",
    "-fno-tree-loop-distribute-patterns",
    "-Wall",
    "-Wextra",
    "-Werror",
    f"-I{TOP / 'micro'}",
    "-T",
    str(BOARD / "mps2.ld"),
]
FLASH = (0x20100000, 4096)
UP, DOWN, BACK = "1:10>2:20", "2:20>1:10", "1:11>2:21"
SERIAL, PEER = TOP / "lib" / "serial", TOP / "tests" / "serial" / "peer.c"
PEER_FLAGS = ["-std=c11", "-D_GNU_SOURCE", "-g", "-O1", "-Wall", "-Wextra", "-Werror", "-fsanitize=address,undefined",
              "-fno-sanitize-recover=all", f"-I{TOP / 'include'}", f"-I{SERIAL}"]


def built(folder: pathlib.Path) -> str:
    path = str(folder / "firmware.elf")
    subprocess.run(
        [*COMPILE, *map(str, sorted(BOARD.glob("*.c"))), str(TOP / "micro" / "deltat_micro.c"), "-lgcc", "-o", path],
        check=True,
    )
    row = (
        subprocess.run(["arm-none-eabi-size", path], capture_output=True, text=True, check=True)
        .stdout.splitlines()[1]
        .split()
    )
    found = {"code": int(row[0]) + int(row[1]), "memory": int(row[1]) + int(row[2])}
    print("firmware:", ", ".join(f"{name} {octets} (at most {CEILINGS[name]})" for name, octets in found.items()))
    if any(octets > CEILINGS[name] for name, octets in found.items()):
        sys.exit("the firmware has grown")
    return path


Other = Callable[[argparse.Namespace, pathlib.Path], contextlib.AbstractContextManager["Peer"]]


def build_peer(folder: pathlib.Path, archive: pathlib.Path) -> None:
    """The program of the library's end, with the sanitizers."""
    sources = [str(PEER), *map(str, sorted(SERIAL.glob("*.c"))), str(archive)]
    subprocess.run(["gcc", *PEER_FLAGS, *sources, "-o", str(folder / "peer")], check=True)


def free_ports(count: int) -> list[int]:
    """Ports of this machine that were free right now."""
    sockets = [socket.socket(socket.AF_INET, socket.SOCK_DGRAM) for _ in range(count)]
    for it in sockets:
        it.bind(("127.0.0.1", 0))
    ports = [it.getsockname()[1] for it in sockets]
    for it in sockets:
        it.close()
    return ports


def script(local: int, peer: int, chance: random.Random) -> tuple[str, list[bytes]]:
    """Node 2 reads all the time, and sends messages for 6 s; the script, and the messages."""
    lines = ["params 1000 3000 50 300 800 128 512 512 512 2147483648 7", "me 2 first", f"local 127.0.0.1:{local}",
             f"peer 1 127.0.0.1:{peer} 200 0", "route 1 1", "go"]
    sent = []
    for at in range(0, SECONDS * 1000 + 2000, 50):
        lines += [f"at {at} read 1:10>2:20 65536", f"at {at} read 1:11>2:21 65536"]
        if at % 250 == 0 and 1000 <= at < 7000:
            sent.append(chance.randbytes(chance.choice([1, 10, 128, 129, LONGEST_MESSAGE])))
            lines.append(f"at {at} send 2:20>1:10 be {sent[-1].hex()}")
    return "".join(f"{it}\n" for it in [*lines, f"at {SECONDS * 1000 + 2000} stop"]), sent


@dataclass
class Run:
    """What both ends wrote, the octets that node 2 took to send, the board's last lines, and its flash when it was cut
    off. `is_whole`: node 2 reads whole messages. `held_up`: how often a datagram may have waited for longer than the
    charge."""

    board: list[str]
    node: list[str]
    taken: bytes
    notes: str
    flash: bytes
    is_whole: bool
    held_up: int


@dataclass
class Peer:
    """Node 2: the bridge's end to it, its process, and what it sends. The library's offers a message again that was
    refused, and reads whole messages."""

    end: Line | Udp
    process: subprocess.Popen[bytes]
    sent: list[bytes]
    is_library: bool = False

    def taken(self, log: list[str]) -> bytes:
        """The octets that it took to send, by its log."""
        if self.is_library:
            return b"".join(self.sent)[: count(log, "took", DOWN)]
        answers = [" took " in it for it in log if f" took {DOWN}" in it or f" refused {DOWN}" in it]
        return b"".join(it for it, was_taken in zip(self.sent, answers) if was_taken)


@contextlib.contextmanager
def program(given: argparse.Namespace, log: pathlib.Path) -> Iterator[Peer]:
    """`deltat node` over UDP."""
    here, there = free_ports(2)
    text, sent = script(there, here, random.Random(given.seed))
    end = Udp(here, there)
    with open(log, "wb") as out, end.socket, subprocess.Popen(
        [given.program, "node"], stdin=subprocess.PIPE, stdout=out
    ) as node:
        assert node.stdin
        with node.stdin as lines:
            lines.write(text.encode())
        yield Peer(end, node, sent)


@contextlib.contextmanager
def library(given: argparse.Namespace, log: pathlib.Path) -> Iterator[Peer]:
    """The library over lib/serial, whose line is a pseudo terminal."""
    chance = random.Random(given.seed)
    sent = [chance.randbytes(chance.choice([1, 10, 128, 129, LONGEST_MESSAGE])) for _ in range(24)]
    ours, theirs = pty.openpty()
    tty.setraw(theirs)
    words = [str(log.with_name("peer")), os.ttyname(theirs), str(SECONDS + 2), *(it.hex() for it in sent)]
    try:
        with open(log, "wb") as out, subprocess.Popen(words, stdout=out) as peer:
            yield Peer(Line(ours), peer, sent, True)
    finally:
        os.close(ours)
        os.close(theirs)


def dump(folder: pathlib.Path) -> bytes:
    """The flash as it is, by QEMU's monitor, once the board has written a line of its log: by then it has counted its
    start."""
    monitor, path, log = folder / "monitor", folder / "flash.now", folder / "board.log"
    until = time.monotonic() + 10
    while time.monotonic() < until and not (log.exists() and log.stat().st_size):
        time.sleep(0.05)
    with socket.socket(socket.AF_UNIX) as it:
        it.connect(str(monitor))
        it.sendall(f'pmemsave {FLASH[0]:#x} {FLASH[1]} "{path}"\n'.encode())
        begun = time.monotonic()
        while time.monotonic() - begun < 10 and not (path.exists() and path.stat().st_size == FLASH[1]):
            time.sleep(0.05)
    return path.read_bytes()


def start_board(firmware: str, folder: pathlib.Path, flash: bytes) -> subprocess.Popen[bytes]:
    (folder / "flash").write_bytes(flash)
    for name in ("uart", "monitor", "board.log", "flash.now"):
        (folder / name).unlink(missing_ok=True)
    return subprocess.Popen(
        [
            "qemu-system-arm",
            "-M",
            "mps2-an385",
            "-display",
            "none",
            "-kernel",
            firmware,
            "-device",
            f"loader,file={folder / 'flash'},addr={FLASH[0]:#x},force-raw=on",
            "-monitor",
            f"unix:{folder / 'monitor'},server=on,wait=off",
            "-chardev",
            f"socket,id=u,path={folder / 'uart'},server=on,wait=off",
            "-serial",
            "chardev:u",
            "-semihosting-config",
            "enable=on,target=native,chardev=s",
            "-chardev",
            f"file,id=s,path={folder / 'board.log'}",
        ]
    )


@contextlib.contextmanager
def carried(bridge: Bridge) -> Iterator[Bridge]:
    """Datagrams go over the bridge meanwhile."""
    over = threading.Event()

    def carry() -> None:
        try:
            while not over.is_set() and bridge.turn():
                pass
        except OSError:
            pass  # the board ended, or node 2 did

    thread = threading.Thread(target=carry)
    thread.start()
    try:
        yield bridge
    finally:
        over.set()
        thread.join()
        print(bridge.counts, *(f"arrived spoilt: {it.spoilt}" for it in bridge.ends))


def run(firmware: str, folder: pathlib.Path, given: argparse.Namespace, flash: bytes, other: Other) -> Run:
    """A run in which nothing was held up, or the last one that was tried."""
    for _ in range(TRIES):
        found = run_once(firmware, folder, given, flash, other)
        if found.held_up == 0:
            break
        print(f"the machine is too busy: {found.held_up} times a datagram may have waited for longer than the charge")
    return found


def run_once(firmware: str, folder: pathlib.Path, given: argparse.Namespace, flash: bytes, other: Other) -> Run:
    """The board from its start to its end, with the flash that it had before, and node 2 of that kind."""
    # node 2 is there before the board sends: nothing waits on the line for longer than the charge
    with other(given, folder / "node.log") as peer:
        board = start_board(firmware, folder, flash)
        try:
            with connected(str(folder / "uart")) as line, carried(
                Bridge(Line(line.fileno()), peer.end, given.loss, given.seed)
            ) as bridge:
                now = dump(folder)
                if peer.process.wait(SECONDS + 30) or board.wait(60):
                    sys.exit(f"node 2 ended with {peer.process.returncode}, the board with {board.returncode}")
        finally:
            board.kill()
            board.wait()
    logs = [(folder / name).read_text().splitlines() for name in ("board.log", "node.log")]
    notes = next((it for it in logs[0] if it.startswith("# spoilt")), "")
    print("".join(f"{it}\n" for it in logs[1] if it.startswith("#")), end="")
    lines = [[it for it in log if not it.startswith("#")] for log in logs]
    (folder / "node.log").write_text("".join(f"{it}\n" for it in lines[1]))
    return Run(lines[0], lines[1], peer.taken(lines[1]), notes, now, peer.is_library, bridge.counts["held up"])


def octets_read(lines: list[str], flow: str) -> bytes:
    return b"".join(bytes.fromhex(it.split(" ")[5]) for it in lines if f" read {flow} " in it)


def count(lines: list[str], word: str, flow: str) -> int:
    return sum(int(it.split(" ")[4]) for it in lines if f" {word} {flow} " in it)


def is_part(found: bytes, of: bytes) -> bool:
    """Whether octets are those of another string, in order, with some left out: greedy, octet by octet."""
    rest = iter(of)
    return all(it in rest for it in found)


def is_sound(what: str, found: bytes, taken: bytes, lines: list[str], flow: str, left_out: int = 0) -> bool:
    """Whether what was read are octets that were taken, in order; none that its sender had acknowledged is missing, but
    for `left_out`, and where nothing is uncertain, none in between."""
    settled, uncertain = count(lines, "settled", flow), count(lines, "uncertain", flow)
    good = is_part(found, taken) and len(found) >= settled - left_out and (uncertain > 0 or taken.startswith(found))
    print(
        f"{what}: {len(taken)} octets taken, {len(found)} read, {settled} acknowledged,"
        f" {uncertain} uncertain{'' if good else ': WRONG'}"
    )
    return good


def at_node(run_: Run, what: str, taken: bytes, flow: str) -> bool:
    """Whether what node 2 read of a flow of the board is sound. Where it reads whole messages, it leaves out those of
    which an octet is uncertain, and a last one that isn't whole yet."""
    left_out = LONGEST_MESSAGE * (1 + count(run_.board, "uncertain", flow)) if run_.is_whole else 0
    return is_sound(
        what, octets_read(run_.node, flow), taken[: count(run_.board, "took", flow)], run_.board, flow, left_out
    )


def audited(run_: Run, folder: pathlib.Path, program: str) -> bool:
    (folder / "one.log").write_text("".join(f"{it}\n" for it in run_.board))
    words = [
        sys.executable,
        str(TOP / "tools" / "fieldaudit.py"),
        str(folder / "one.log"),
        str(folder / "node.log"),
        "--deltat",
        program,
    ]
    ran = subprocess.run(words, capture_output=True, text=True, check=False)
    print(ran.stdout.strip().splitlines()[-1:], ran.stderr.strip())
    return ran.returncode == 0 and "audit yes" in ran.stdout


def first(run_: Run, folder: pathlib.Path, program: str) -> bool:
    up = b"".join(bytes((i + j) % 256 for j in range(1 + i * 37 % LONGEST_MESSAGE)) for i in range(MESSAGES))
    mine = octets_read(run_.board, DOWN)
    stack = int(next(iter(re.findall(r" stack ([0-9]+)", run_.notes)), CEILINGS["stack"] + 1))
    print(run_.notes, f"(stack at most {CEILINGS['stack']})")
    good = [
        at_node(run_, "up", up, UP),
        is_sound("down", mine, run_.taken, run_.node, DOWN),
        at_node(run_, "back", mine, BACK),
        audited(run_, folder, program),
        count(run_.board, "took", UP) > 1000,
        len(mine) > 200,
        stack <= CEILINGS["stack"],
    ]
    return all(good) and " again 0" in run_.notes and run_.held_up == 0


def again(run_: Run, folder: pathlib.Path, program: str) -> bool:
    """Whether the board was silent, and no longer, and what it sent then is sound."""
    left = [int(it.split(" ")[0]) for it in run_.board if it.split(" ")[2:3] == ["put"]]
    taken = [int(it.split(" ")[0]) for it in run_.board if " took 1:10" in it]
    print(
        run_.notes,
        f"first datagram at {left[0] if left else 'none'} ms, first octets taken at {taken[0] if taken else 'none'}",
    )
    return (
        " again 1" in run_.notes
        and bool(left)
        and min(left) >= QUIET
        and QUIET <= taken[0] < QUIET + 1000
        and audited(run_, folder, program)
    )


def tried(firmware: str, folder: pathlib.Path, given: argparse.Namespace) -> list[str]:
    """The names of what failed."""
    erased = b"\xff" * FLASH[1]
    one = run(firmware, folder, given, erased, program)
    failed = [] if first(one, folder, given.program) else ["first"]
    two = run(firmware, folder, given, one.flash, program)
    if not again(two, folder, given.program) or one.flash != b"\xfe" + erased[1:]:
        failed.append("again")
    full = run(firmware, folder, given, bytes(FLASH[1]), program)
    if not again(full, folder, given.program) or any(full.flash):
        failed.append("full")
    if not given.library.exists() or not shutil.which("gcc"):
        print(f"library: there is no {'gcc' if given.library.exists() else f'{given.library}: make -C lib'}")
        return failed
    build_peer(folder, given.library)
    return (
        failed if first(run(firmware, folder, given, erased, library), folder, given.program) else [*failed, "library"]
    )


def main() -> int:
    reads = argparse.ArgumentParser(description=__doc__, formatter_class=argparse.RawDescriptionHelpFormatter)
    reads.add_argument("program", nargs="?", default=str(PROGRAM), help="the program (%(default)s)")
    reads.add_argument(
        "--library",
        type=pathlib.Path,
        default=TOP / "lib" / "libdeltat.a",
        metavar="ARCHIVE",
        help="the archive (%(default)s)",
    )
    reads.add_argument("--seed", type=int, default=1)
    reads.add_argument("--loss", type=float, default=0.1)
    reads.add_argument("--keep", type=pathlib.Path, metavar="FOLDER", help="keep the logs there")
    given = reads.parse_args()
    if not os.access(given.program, os.X_OK):
        skip(f"there is no program {given.program}: ./build")
    for tool, package in (("qemu-system-arm", "qemu-system-arm"), ("arm-none-eabi-gcc", "gcc-arm-none-eabi")):
        if not shutil.which(tool):
            skip(f"there is no {tool}: apt-get install {package}")
    with tempfile.TemporaryDirectory() as name:
        folder = given.keep or pathlib.Path(name)
        folder.mkdir(parents=True, exist_ok=True)
        failed = tried(built(folder), folder, given)
    print(f"{', '.join(failed)} failed" if failed else "first, again, full and library hold")
    return 1 if failed else 0


if __name__ == "__main__":
    sys.exit(main())
