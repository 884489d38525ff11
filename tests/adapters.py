#!/usr/bin/env python3
"""The machine's wire and clock under the program, by the traces that it writes: what no contract can say of a
socket and of a clock. `tests/adapters.py [PROGRAM [TEST ..]]`. Ends with 1 where one of these fails:

- links: datagrams of three peers come under the number of the link that each has, 0 and 255 among them, and
  what is sent on a link comes to its peer. One of a stranger's comes under none.
- waits: a node that has nothing to do waits a second at a time, the last time to its stop, and a datagram
  ends a wait at once.
- slept: a node that is stopped (SIGSTOP) for longer than its wait reads the time that has passed.
- signal: a signal that is caught ends a wait, with nothing found, and the node goes on to its stop. The handler
  is put in by a few lines of C; without a compiler that is skipped.

In tests/all: PROGRAM, 90 s."""
import shutil
import signal
import socket
import subprocess
import sys
import tempfile
import threading
import time
from collections.abc import Sequence
from pathlib import Path

from lib import HOST, PARAMS, bound, free_port, program, script, start

# how much later than it was to a machine with much to do may wake a node, in ms
LATE = 400

# catches SIGUSR1, so that it ends the system's call that it comes into
CATCHES = r"""
#include <signal.h>
#include <string.h>

static void caught(int number) { (void)number; }

__attribute__((constructor)) static void catches(void) {
    struct sigaction action;
    memset(&action, 0, sizeof action);
    action.sa_handler = caught;
    sigaction(SIGUSR1, &action, 0);
}
"""


def readings(trace: str) -> list[int]:
    """The clock's readings of a trace, in ms since the first one."""
    found = [int(line.split()[1]) for line in trace.splitlines() if line.startswith("@ ")]
    return [it - found[0] for it in found]


def taken(trace: str) -> list[str]:
    """What the takes of a trace found: a link and octets, or `-`."""
    return [line[2:] for line in trace.splitlines() if line.startswith("< ")]


def ended(node: "subprocess.Popen[bytes]") -> tuple[int, str]:
    """The status of a node that ends by itself, and what it wrote."""
    text = node.stdout.read().decode()
    return node.wait(), text


def insist(sender: socket.socket, octets: bytes, port: int) -> None:
    """Sends a datagram some times: a busy machine wakes a node so late that it drops what has waited there."""
    for _ in range(8):
        sender.sendto(octets, (HOST, port))
        time.sleep(0.03)


def steps(moments: Sequence[int]) -> list[int]:
    return [after - before for before, after in zip(moments, moments[1:])]


def links(path: str) -> bool:
    numbers = [0, 7, 255]
    peers, stranger, port = [bound() for _ in numbers], bound(), free_port()
    setup = [PARAMS, "me 1 first", f"local {HOST}:{port}"]
    setup += [f"peer {number} {HOST}:{peer.getsockname()[1]} 50 0" for number, peer in zip(numbers, peers)]
    setup += [f"route {number + 2} {number}" for number in numbers]
    sends = [f"at 0 send 1:10>{number + 2}:20 be 68656c6c6f" for number in numbers]
    node = start(path, "\n".join([*setup, "go", *sends, "at 2000 stop"]) + "\n", word="trace")
    time.sleep(0.5)
    stranger.sendto(b"\xee", (HOST, port))
    for number, peer in zip(numbers, peers):
        insist(peer, bytes([number]), port)
    status, trace = ended(node)
    found = list(dict.fromkeys(it for it in taken(trace) if it != "-"))
    # the receiver's number in the head of what each peer was sent
    sent = []
    for peer in peers:
        peer.settimeout(0.1)
        sent.append(int.from_bytes(peer.recv(9000)[12:16], "big"))
    print(f"links: took {found}, sent to {sent}")
    return (
        status == 0
        and found == [f"{number} {number:02x}" for number in numbers]
        and sent == [number + 2 for number in numbers]
    )


def waits(path: str) -> bool:
    peer, port = bound(), free_port()
    idle = start(path, script(1, 2, port, peer.getsockname()[1], ["at 2500 stop"]), word="trace")
    status, trace = ended(idle)
    kept = steps(readings(trace))
    print(f"waits: {kept} ms")
    wanted = [1000, 1000, 500]
    if (
        status != 0
        or len(kept) != len(wanted)
        or not all(0 <= it - want <= LATE for it, want in zip(kept[:2], wanted))
        or not 2500 <= sum(kept) <= 2500 + LATE
    ):
        return False
    node = start(path, script(1, 2, port, peer.getsockname()[1], ["at 1500 stop"]), word="trace")
    time.sleep(0.4)
    insist(peer, b"\x01", port)
    status, trace = ended(node)
    woken = readings(trace)
    print(f"waits: a datagram woke it, readings {woken} ms")
    return status == 0 and "1 01" in taken(trace) and woken[1] < 900 and woken[-1] >= 1500


def slept(path: str) -> bool:
    peer, port = bound(), free_port()
    node = start(path, script(1, 2, port, peer.getsockname()[1], ["at 4000 stop"]), word="trace")
    time.sleep(0.3)
    node.send_signal(signal.SIGSTOP)
    began = time.monotonic()
    time.sleep(2)
    for_ms = int((time.monotonic() - began) * 1000)
    node.send_signal(signal.SIGCONT)
    status, trace = ended(node)
    longest = max(steps(readings(trace)))
    print(f"slept: stopped for {for_ms} ms, and read a step of {longest} ms")
    return status == 0 and for_ms <= longest <= for_ms + 1000 + LATE and 4000 <= readings(trace)[-1] <= 4000 + LATE


def caught(path: str, compiler: str) -> bool:
    """A node into whose wait a signal comes."""
    peer, port = bound(), free_port()
    with tempfile.TemporaryDirectory() as folder:
        source, library = Path(folder) / "catches.c", Path(folder) / "catches.so"
        source.write_text(CATCHES)
        subprocess.run([compiler, "-O1", "-shared", "-fPIC", "-o", str(library), str(source)], check=True)
        words = ["env", f"LD_PRELOAD={library}", path, "trace"]
        text = script(1, 2, port, peer.getsockname()[1], ["at 1600 stop"])
        node = subprocess.Popen(words, stdin=subprocess.PIPE, stdout=subprocess.PIPE)
        told: list[tuple[int, str]] = []
        reading = threading.Thread(target=lambda: told.append(ended(node)))
        node.stdin.write(text.encode())
        node.stdin.close()
        reading.start()
        time.sleep(0.5)
        node.send_signal(signal.SIGUSR1)
        reading.join()
    (status, trace), = told
    moments = readings(trace)
    print(f"signal: status {status}, readings {moments} ms, takes {taken(trace)}")
    return status == 0 and moments[1] < 900 and set(taken(trace)) == {"-"} and moments[-1] >= 1600


def signals(path: str) -> bool:
    compiler = shutil.which("cc") or shutil.which("gcc")
    if compiler is None:
        print("signal: skipped, this machine has no C compiler")
        return True
    return caught(path, compiler)


TESTS = {"links": links, "waits": waits, "slept": slept, "signal": signals}


def main() -> int:
    chosen = [name for name in TESTS if name in sys.argv[2:] or len(sys.argv) <= 2]
    failed = [name for name in chosen if not TESTS[name](program())]
    for name in failed:
        print(f"{name} failed")
    print(f"{len(chosen) - len(failed)} of {len(chosen)} hold")
    return 1 if failed or not chosen else 0


if __name__ == "__main__":
    sys.exit(main())
