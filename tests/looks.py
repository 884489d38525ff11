#!/usr/bin/env python3
"""A program that is stopped right after it has found its socket empty takes no old datagram for a young one.

Usage: tests/looks.py [ARCHIVE]

examples/echo.c and examples/counter.c are compiled over ARCHIVE (lib/libdeltat.a) and run with a library before the
system's, which stops them for STOP seconds when recvmsg has found nothing. While one is stopped a datagram arrives that
lives for less than that. The program must not answer it: it has waited for all of its life, which only a clock that was
read before the look can say. A datagram before the stop is answered, and so is one after it. A copy of each program
that reads the clock after the look answers the old one, so the test would see it.

In tests/all: no words, 120 s."""
import os
import pathlib
import shutil
import socket
import struct
import subprocess
import sys
import tempfile
import time
from collections.abc import Iterator

from lib import HOST, TOP, in_own_network, skip

STOP = 1.0
INSIDE = "DELTAT_TEST_INSIDE"
OWN, PEER = 4001, 4002

# stops the program once, if there is a file of that name, when the socket is found empty; the file goes first
BEFORE = """#define _GNU_SOURCE
#include <dlfcn.h>
#include <errno.h>
#include <stdlib.h>
#include <sys/socket.h>
#include <time.h>
#include <unistd.h>
ssize_t recvmsg(int wire, struct msghdr *head, int flags) {
    ssize_t (*real)(int, struct msghdr *, int) = (ssize_t (*)(int, struct msghdr *, int))dlsym(RTLD_NEXT, "recvmsg");
    ssize_t len = real(wire, head, flags);
    const struct timespec stop = {%d, 0};
    if (len < 0 && errno == EAGAIN && unlink(getenv("STOPS")) == 0) nanosleep(&stop, NULL);
    if (len < 0) errno = EAGAIN;
    return len;
}
"""
# what each program is asked, the port, the lifetime of its packets, and how a copy reads the clock after the look
PROGRAMS = {
    "echo": (b"hello", 20, 480, ("(it->empty_at = looked_at)", "(it->empty_at = now())")),
    "counter": (b"apples 1", 10, 100, ("(empty_at = looked_at)", "(empty_at = now())")),
}


def packet(port: int, payload: bytes, to: int, lifetime: int) -> bytes:
    """A message of node 1 to node 2, in the only packet of its flow."""
    body = struct.pack(">BBHHII", 1, 7, port, to, 0, 0) + payload
    return struct.pack(">BBHIII", 1, 1, len(body), lifetime, 1, 2) + body


def is_answered(wire: socket.socket, seconds: float = 0.6) -> bool:
    """Whether a datagram comes back in time."""
    wire.settimeout(seconds)
    try:
        while True:
            wire.recv(65536)
            return True
    except TimeoutError:
        return False


def drain(wire: socket.socket) -> None:
    while is_answered(wire, 0.3):
        pass


def answers(program: pathlib.Path, library: pathlib.Path, asked: tuple[bytes, int, int]) -> tuple[bool, bool, bool]:
    """Whether the program answers a message before a stop, one that arrives in it, and one after it."""
    stops = program.with_suffix(".stops")
    environment = {**os.environ, "LD_PRELOAD": str(library), "STOPS": str(stops)}
    with socket.socket(socket.AF_INET, socket.SOCK_DGRAM) as wire:
        wire.bind((HOST, OWN))
        wire.connect((HOST, PEER))
        process = subprocess.Popen([program], env=environment)
        try:
            time.sleep(0.3)
            wire.send(packet(100, *asked))
            first = is_answered(wire)
            drain(wire)
            stops.touch()
            wire.send(packet(101, *asked))
            # (it is stopped once the file is gone)
            while stops.exists():
                time.sleep(0.005)
            is_answered(wire, 0.2)
            wire.send(packet(102, *asked))
            time.sleep(STOP)
            # what was answered before the stop may be acknowledged or sent again: only the flow of the old one counts
            old = any_of(wire, 102)
            wire.send(packet(103, *asked))
            return first, old, any_of(wire, 103)
        finally:
            process.kill()
            process.wait()


def any_of(wire: socket.socket, port: int) -> bool:
    """Whether a datagram of this flow, or of the one back, comes within a second."""
    end = time.monotonic() + 1
    while (left := end - time.monotonic()) > 0:
        wire.settimeout(left)
        try:
            octets = wire.recv(65536)
        except TimeoutError:
            return False
        if len(octets) >= 22 and port in struct.unpack(">HH", octets[18:22]):
            return True
    return False


def cases(archive: pathlib.Path, folder: pathlib.Path) -> Iterator[tuple[str, bool, str]]:
    library = folder / "before.so"
    (folder / "before.c").write_text(BEFORE % STOP)
    subprocess.run(["cc", "-shared", "-fPIC", folder / "before.c", "-o", library, "-ldl"], check=True)
    for name, (*asked, (as_it_is, spoilt)) in PROGRAMS.items():
        text = (TOP / "examples" / f"{name}.c").read_text()
        yield f"{name}.c notes the clock that was read before the look", text.count(as_it_is) == 1, ""
        ways = (("", text, (True, False, True)), ("-spoilt", text.replace(as_it_is, spoilt), (True, True, True)))
        for way, source, wanted in ways:
            path, built = folder / f"{name}{way}.c", folder / f"{name}{way}"
            path.write_text(source)
            words = ["-std=gnu11", "-O1", f"-I{TOP / 'include'}", path, archive, "-o", built]
            subprocess.run(["cc", *words], check=True)
            found = answers(built, library, tuple(asked))
            yield f"{name}{way}: answered before, in and after the stop: {found}", found == wanted, f"wanted {wanted}"


def main() -> int:
    archive = pathlib.Path(sys.argv[1]).resolve() if len(sys.argv) > 1 else TOP / "lib" / "libdeltat.a"
    if not archive.exists() or not shutil.which("cc"):
        skip(f"there is no compiler of C, or {archive} isn't there: make -C lib")
    if INSIDE not in os.environ:
        alone = in_own_network([sys.executable, __file__, str(archive)])
        os.execvpe(alone[0], alone, {**os.environ, INSIDE: "1"})
    failed = count = 0
    with tempfile.TemporaryDirectory() as folder:
        for name, good, more in cases(archive, pathlib.Path(folder)):
            print(f"{'ok' if good else 'FAILED'}: {name}{'' if good else ': ' + more}", flush=True)
            failed, count = failed + (not good), count + 1
    print(f"{count - failed} passed, {failed} failed")
    return 1 if failed else 0


if __name__ == "__main__":
    sys.exit(main())
