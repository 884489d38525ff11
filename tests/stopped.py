#!/usr/bin/env python3
"""What a node does that is stopped, blocked, asleep or busy. `tests/stopped.py [PROGRAM] [--runs N]
[PART ..]`, where N is 20 without it, and all parts are tried without one. Each says what it found; it ends
with 1 where octets were delivered twice, or where a part doesn't hold:

- stopped: a receiver behind a process that repeats datagrams is stopped (SIGSTOP) for longer than its
  records live, while repeats of what it accepted wait in its socket. N runs. What is read twice is found by
  tools/fieldaudit.py, and nothing else is.
- log: the same with a receiver whose log nobody reads, so that it blocks in a write. N runs.
- trace: the same with one that writes its trace (`trace`), run again by `retrace`. N runs.
- frames: a sender whose log nobody reads blocks between the reading of its turn and the frames of the
  turn, for longer than its records live. What it is told to be acknowledged was delivered. N runs.
- busy: 100,000 datagrams in a second, and fewer where the kernel had no room for all of them: what was sent is
  what the log tells, so the node itself dropped none. What it dropped at the greater rates is told.
- clock: which clock the node reads, seen by a few lines of C before the C library's `clock_gettime`, within
  `unshare --time --boottime 1000`; and that an hour in which the machine sleeps counts for it.

In tests/all: PROGRAM, 600 s."""
import argparse
import fcntl
import re
import shutil
import socket
import subprocess
import sys
import tempfile
import threading
import time
from concurrent.futures import ThreadPoolExecutor
from pathlib import Path

from fieldaudit import script
from lib import HOST, TOP, Between, own_port, params, program, start, tell, wait_for

# a receive record lives 820 ms, and a segment goes again for 600 ms
SHORT = params(1000, 8192, 8192, "200 600 20 50 300")
HELLO = "68656c6c6f"
STOPPED = 1.3
F_SETPIPE_SZ = 1031
AT_ONCE = 10
# how often a run is tried that a busy machine left without what it is to show
ATTEMPTS = 3
# datagrams in a second
RATES = [100_000, 30_000, 10_000, 3_000]


def receiver_script(between: Between, stop: int = 3500) -> str:
    """A receiver that reads both flows all the time."""
    reads = [f"at {at} read {flow} 8192" for at in range(20, stop, 20) for flow in ("1:10>2:20", "1:11>2:21")]
    return script(2, "first", between.nodes[1], between.port(2), [*reads, f"at {stop} stop"], SHORT)


def sender(deltat: str, between: Between, sends: list[str], log: Path) -> "subprocess.Popen[bytes]":
    return start(
        deltat,
        script(1, "first", between.nodes[0], between.port(1), [*sends, "at 2500 stop"], SHORT),
        out=log.open("wb"),
    )


def repeated(node: int, octets: bytes) -> int:
    """What node 1 sends comes twice, and what node 2 sends is lost."""
    return 2 if node == 1 else 0


def stopped(deltat: str) -> tuple[int, bool]:
    """How often the octets were read, and whether the audit of both logs says so."""
    with tempfile.TemporaryDirectory() as folder, Between(repeated) as between:
        one, two = Path(folder) / "1.log", Path(folder) / "2.log"
        receiver = start(deltat, receiver_script(between), out=two.open("wb"))
        sending = sender(deltat, between, [f"at 250 send 1:10>2:20 be {HELLO}"], one)
        wait_for(two, HELLO, 5)
        receiver.send_signal(19)
        time.sleep(STOPPED)
        receiver.send_signal(18)
        receiver.wait(20)
        sending.wait(20)
        audit = [sys.executable, str(TOP / "tools" / "fieldaudit.py"), str(one), str(two), "--deltat", deltat]
        status = subprocess.run(audit, stdout=subprocess.DEVNULL, stderr=subprocess.DEVNULL, check=False).returncode
        count = two.read_text().count(HELLO)
    return count, status == (0 if count == 1 else 1)


def unread(deltat: str, word: str) -> tuple[int, bool]:
    """How often the octets were read by a receiver whose output nobody reads for a while, and whether it was blocked.
    One that wasn't shows nothing, and there is another attempt, unless it read them twice."""
    for _ in range(ATTEMPTS):
        count, waits = blocked(deltat, word)
        if waits or count > 1:
            break
    return count, waits


def blocked(deltat: str, word: str) -> tuple[int, bool]:
    """A run of such a receiver: 4,000 octets on another flow, or many repeats in a trace, fill its pipe."""
    first = threading.Event()

    def rule(node: int, octets: bytes) -> int:
        if node == 1 and octets.endswith(b"hello"):
            first.set()
            return 12 if word == "trace" else 2
        return repeated(node, octets)

    with tempfile.TemporaryDirectory() as folder, Between(rule) as between:
        text = receiver_script(between)
        receiver = start(deltat, text, word)
        fcntl.fcntl(receiver.stdout.fileno(), F_SETPIPE_SZ, 4096)
        time.sleep(0.1)
        more = [f"at 350 send 1:11>2:21 be {'7a' * 8000}"] if word == "node" else []
        sending = sender(deltat, between, [f"at 250 send 1:10>2:20 be {HELLO}", *more], Path(folder) / "1.log")
        first.wait(5)
        time.sleep(STOPPED + 0.7)
        waits = (
            int(Path(f"/proc/{receiver.pid}/syscall").read_text().split()[0] == "1") if readable(receiver.pid) else 1
        )
        out = receiver.stdout.read()
        receiver.wait(20)
        sending.wait(20)
    if word == "trace":
        out = subprocess.run(
            [deltat, "retrace"], input=text.encode() + b"trace\n" + out, capture_output=True, check=False
        ).stdout
    return out.decode().count(HELLO), waits == 1


def late(deltat: str) -> tuple[bool, bool, bool]:
    """Whether "world" was acknowledged, whether it was read, and whether its sender was blocked: node 1 reads
    8,000 octets into its log, which nobody reads, and in the same turn sends "hello", which so leaves late."""
    began = threading.Event()

    def rule(node: int, octets: bytes) -> int:
        if node == 2:
            began.set()
        return 1

    world = "776f726c64"
    with tempfile.TemporaryDirectory() as folder, Between(rule) as between:
        log = Path(folder) / "2.log"
        reads = [f"at {at} read 1:10>2:20 8192" for at in range(1000, 5900, 20)]
        commands = [f"at 300 send 2:30>1:40 be {'7a' * 8000}", *reads, "at 6000 stop"]
        other = start(
            deltat, script(2, "first", between.nodes[1], between.port(2), commands, SHORT), out=log.open("wb")
        )
        tasks = [
            "at 1300 read 2:30>1:40 8192",
            f"at 1300 send 1:10>2:20 be {HELLO}",
            f"at 1400 send 1:10>2:20 be {world}",
            "at 5000 stop",
        ]
        node = start(deltat, script(1, "first", between.nodes[0], between.port(1), tasks, SHORT))
        fcntl.fcntl(node.stdout.fileno(), F_SETPIPE_SZ, 4096)
        began.wait(5)
        time.sleep(2.9)
        told = node.stdout.read().decode()
        node.wait(20)
        other.wait(20)
        read = world in log.read_text()
    sent = re.search(
        r"^([0-9]+) 1 sent 1:10>2:20 0 5 dbe\n(?:.*\n)*?([0-9]+) 1 sent 1:10>2:20 0 5 ", told, re.MULTILINE
    )
    settled = sent is not None and " settled 1:10>2:20 5 " in told[sent.end() :]
    return settled, read, "7a" * 4000 in told


def tried(deltat: str) -> tuple[bool, bool, bool]:
    """The same. A run whose sender wasn't blocked shows nothing, and there is another attempt, unless it lost
    octets."""
    for _ in range(ATTEMPTS):
        settled, read, waits = late(deltat)
        if waits or (settled and not read):
            break
    return settled, read, waits


def frames(deltat: str, runs: int) -> tuple[bool, str]:
    """So many runs of a sender whose frames leave late."""
    with ThreadPoolExecutor(AT_ONCE) as pool:
        found = list(pool.map(lambda _: tried(deltat), range(runs)))
    lost = sum(settled and not read for settled, read, _ in found)
    count = sum(it for _, _, it in found)
    return (
        lost == 0 and count == runs,
        f"octets were acknowledged and never delivered in {lost} of {runs} runs, {count} of which blocked",
    )


def readable(pid: int) -> bool:
    """Whether this machine tells what call a process is in."""
    try:
        return Path(f"/proc/{pid}/syscall").read_text()[:1].isdigit()
    except OSError:
        return False


def attempted(run) -> tuple[int, bool]:
    """A run, and again where nothing was read: on a busy machine all that goes once more may come too late."""
    for _ in range(ATTEMPTS):
        count, well = run()
        if count > 0:
            break
    return count, well


def many(run, runs: int) -> tuple[bool, str]:
    """So many runs: nothing may be read twice, once it must be read, and each has to be what it is to be."""
    with ThreadPoolExecutor(AT_ONCE) as pool:
        found = list(pool.map(lambda _: attempted(run), range(runs)))
    twice, once = sum(count > 1 for count, _ in found), sum(count == 1 for count, _ in found)
    right = sum(well for _, well in found)
    text = f"octets were read twice in {twice} of {runs} runs, once in {once}, never in {runs - twice - once}" + (
        "" if right == runs else f"; {runs - right} runs weren't as they should be"
    )
    return once == runs and right == runs, text


def kernel_drops(port: int) -> int:
    """How many datagrams the kernel had no room for, of the socket at a port of this machine."""
    for line in Path("/proc/net/udp").read_text().splitlines()[1:]:
        words = line.split()
        if int(words[1].split(":")[1], 16) == port:
            return int(words[-1])
    return -1


def flood(port: int, source: socket.socket, count: int, seconds: float) -> None:
    """Sends so many datagrams of 5 octets, spread over the time."""
    source.connect((HOST, port))
    began = time.monotonic()
    for i in range(count):
        source.send(b"12345")
        if i % 50 == 49:
            while time.monotonic() - began < seconds * i / count:
                pass


def flooded(deltat: str, rate: int) -> tuple[int, int]:
    """How many datagrams of a second's the node took, and how many the kernel had no room for. Each datagram
    that is taken is a line `bad short 5` of the log."""
    port = own_port()
    with socket.socket(socket.AF_INET, socket.SOCK_DGRAM) as source, tempfile.TemporaryDirectory() as folder:
        source.bind((HOST, 0))
        log = Path(folder) / "2.log"
        node = start(
            deltat, script(2, "first", port, source.getsockname()[1], ["at 5000 stop"], SHORT), out=log.open("wb")
        )
        until = time.monotonic() + 5
        while kernel_drops(port) < 0 and time.monotonic() < until:
            time.sleep(0.01)
        flood(port, source, rate, 1.0)
        time.sleep(1.5)
        dropped = kernel_drops(port)
        node.wait(20)
        return log.read_bytes().count(b" bad short 5\n"), dropped


def busy(deltat: str) -> tuple[bool, str]:
    """At the greatest rate at which the kernel has room for all, the node takes all. Where this machine lets
    it wait for 20 ms it may drop some, so it has three attempts at each rate."""
    told = []
    for rate in RATES:
        for _ in range(ATTEMPTS):
            taken, dropped = flooded(deltat, rate)
            lost = rate - taken - dropped
            if lost == 0 or dropped > 0:
                break
        told.append(
            f"of {rate} datagrams in a second {taken} were taken, {dropped} had no room in the kernel, {lost} were"
            " dropped by the node"
        )
        if dropped == 0:
            return lost == 0, "; ".join(told)
    return False, "; ".join(told)


# the readings of each clock are noted once, and the clock that counts sleep goes an hour forward after 400 ms
BEFORE_LIBC = r"""
#define _GNU_SOURCE
#include <fcntl.h>
#include <stdio.h>
#include <stdlib.h>
#include <sys/syscall.h>
#include <time.h>
#include <unistd.h>
int clock_gettime(clockid_t id, struct timespec *t) {
    static unsigned noted;
    static struct timespec begun;
    struct timespec now;
    int result = syscall(SYS_clock_gettime, id, t);
    const char *path = getenv("CLOCKS");
    if (path && id >= 0 && id < 32 && !(noted >> id & 1)) {
        char line[64];
        int fd = open(path, O_WRONLY | O_CREAT | O_APPEND, 0600);
        noted |= 1u << id;
        if (fd >= 0) {
            if (write(fd, line, snprintf(line, sizeof line, "%d %ld\n", (int)id, (long)t->tv_sec)) < 0) _exit(99);
            close(fd);
        }
    }
    syscall(SYS_clock_gettime, CLOCK_MONOTONIC, &now);
    if (!begun.tv_sec) begun = now;
    long since = (now.tv_sec - begun.tv_sec) * 1000 + (now.tv_nsec - begun.tv_nsec) / 1000000;
    if (id == CLOCK_BOOTTIME && since > 400) t->tv_sec += 3600;
    return result;
}
"""


def clock(deltat: str) -> tuple[bool, str]:
    """The clocks that a node reads within a time namespace, and when it stops of which the machine sleeps."""
    compiler = shutil.which("cc") or shutil.which("gcc")
    if compiler is None:
        return True, "skipped: this machine has no C compiler"
    with tempfile.TemporaryDirectory() as folder:
        source, library, noted = (Path(folder) / name for name in ("before.c", "before.so", "clocks"))
        source.write_text(BEFORE_LIBC)
        subprocess.run([compiler, "-O1", "-shared", "-fPIC", "-o", str(library), str(source)], check=True)
        inside = ["unshare", "--time", "--boottime", "1000"]
        if subprocess.run([*inside, "true"], capture_output=True, check=False).returncode != 0:
            inside = []
        text = script(2, "first", own_port(), own_port(), ["at 2500 stop"], SHORT)
        words = [*inside, "env", f"LD_PRELOAD={library}", f"CLOCKS={noted}", deltat, "node"]
        began = time.clock_gettime(time.CLOCK_BOOTTIME)
        ran = subprocess.run(words, input=text, capture_output=True, text=True, check=False, timeout=30)
        seen = dict(tuple(map(int, line.split())) for line in noted.read_text().splitlines()) if noted.exists() else {}
    end = int(ran.stdout.split()[-1])
    sleeps = end >= 3_600_000
    shifted = f", {seen.get(7, 0) - began:.0f} s ahead of the one outside" if inside and 7 in seen else ""
    names = {1: "CLOCK_MONOTONIC", 7: "CLOCK_BOOTTIME", 0: "CLOCK_REALTIME"}
    told = " and ".join(names.get(it, str(it)) for it in sorted(seen)) or "none that is seen"
    right = 7 in seen and sleeps and (not inside or abs(seen[7] - began - 1000) < 20)
    return right, f"it reads {told}{shifted}; with an hour of sleep it stopped at {end} ms where 2500 was asked"


def main() -> int:
    reads = argparse.ArgumentParser(description=__doc__, formatter_class=argparse.RawDescriptionHelpFormatter)
    reads.add_argument("program", nargs="?", help="the program (crates/deltat/out/deltat)")
    reads.add_argument("parts", nargs="*", metavar="PART", help="clock, busy, stopped, log, trace or frames (all)")
    reads.add_argument("--runs", type=int, default=20, help="how often a node is stopped or blocked (20)")
    asked = reads.parse_intermixed_args()
    deltat = program()
    parts = {
        "clock": lambda: clock(deltat),
        "busy": lambda: busy(deltat),
        "stopped": lambda: many(lambda: stopped(deltat), asked.runs),
        "log": lambda: many(lambda: unread(deltat, "node"), asked.runs),
        "trace": lambda: many(lambda: unread(deltat, "trace"), asked.runs),
        "frames": lambda: frames(deltat, asked.runs),
    }
    strange = [it for it in asked.parts if it not in parts]
    if strange:
        reads.error(f"there is no part {strange[0]}; there are {', '.join(parts)}")
    return tell([(name, *parts[name]()) for name in asked.parts or parts])


if __name__ == "__main__":
    sys.exit(main())
