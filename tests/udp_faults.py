#!/usr/bin/env python3
"""Each system call of the driver over UDP fails, once at each of its first calls: by `strace --inject`.

`tests/udp_faults.py [CALL ..]`; all calls where none is named, `driven` for those of tests/udp/driven.c. A client of
tests/udp/ends.c makes calls to a service, or both ends that tests/udp/driven.c opened by deltat.h exchange calls, while
one of the system calls fails. Then all its calls are answered; or it isn't opened, and one line says why; or it
gets a failure as an event, with the error of that call. It never hangs, crashes, or takes a wrong answer. Ends with
77 where there is no strace, no compiler or no archive.

In tests/all: no words, 1200 s."""
import argparse
import pathlib
import re
import shutil
import subprocess
import sys
import tempfile
import time
from typing import NamedTuple

import udp
from lib import HOST, TOP, skip

OK, REFUSED, FAILED = "answered", "refused", "failed"


class Fault(NamedTuple):
    """A call that fails with these errors, at each of its first `times` calls, and what may come of it."""

    call: str
    errors: str
    times: int
    ends: tuple[str, ...]
    loop: str = "poll"
    keys: dict[str, object] = {}
    # both ends in one program, which opened the nodes
    is_driven: bool = False


MESSAGES = {"octets": 20000, "count": 20, "many": 4}
FAULTS = [
    Fault("socket", "EMFILE EAFNOSUPPORT ENOMEM", 2, (OK, REFUSED)),
    Fault("setsockopt", "ENOPROTOOPT EPERM", 12, (OK, REFUSED), "next"),
    Fault("bind", "EADDRINUSE EACCES", 2, (OK, REFUSED)),
    Fault("getsockname", "ENOBUFS", 1, (OK,)),
    Fault("recvmmsg", "EAGAIN EINTR ENOMEM ENOBUFS ECONNREFUSED", 6, (OK,), "next"),
    Fault("recvmmsg", "EAGAIN EINTR ENOMEM", 6, (OK,)),
    Fault("recvmmsg", "EBADF EIO ENOSYS", 3, (FAILED,)),
    Fault("sendmsg", "EAGAIN EINTR ENOBUFS EPERM ENETUNREACH EIO", 4, (OK,)),
    Fault("sendmsg", "EINVAL EIO EMSGSIZE", 3, (OK, "too big"), "poll", MESSAGES),
    Fault("sendmmsg", "EAGAIN EINTR ENOBUFS EPERM EINVAL EIO", 4, (OK,), "poll", MESSAGES),
    Fault("poll", "EINTR ENOMEM", 3, (OK,), "next", MESSAGES),
    Fault("epoll_create1", "EMFILE ENOMEM", 1, (REFUSED,)),
    Fault("epoll_ctl", "ENOMEM ENOSPC", 2, (REFUSED,)),
    Fault("timerfd_create", "EMFILE ENOMEM", 1, (REFUSED,)),
    Fault("timerfd_settime", "ENOMEM", 4, (OK,)),
    Fault("getrandom", "EINTR ENOSYS", 6, (OK, REFUSED)),
    Fault("madvise", "EINVAL", 1, (OK,)),
    Fault("mmap", "ENOMEM", 40, (OK, REFUSED, FAILED, "not begun"), "next"),
    Fault("mkdir", "EACCES ENOSPC", 2, (OK, REFUSED), "poll", {"state": True}),
    Fault("openat", "EMFILE EACCES EIO", 30, (OK, REFUSED, "not begun"), "poll", {"state": True}),
    Fault("flock", "EAGAIN EINTR ENOLCK", 1, (REFUSED,), "poll", {"state": True}),
    Fault("fsync", "EIO ENOSPC", 4, (REFUSED,), "poll", {"state": True}),
    Fault("renameat", "EIO", 1, (REFUSED,), "poll", {"state": True}),
    Fault("ftruncate", "EIO", 4, (OK, REFUSED, FAILED, "declined"), "poll", {"state": True}),
    Fault("pwrite64", "ENOSPC EIO", 4, (OK, REFUSED, FAILED, "declined"), "poll", {"state": True}),
    Fault("readlink", "EACCES ENOENT", 2, (OK,), "poll", {"state": True}),
    Fault("getdents64", "EIO", 1, (REFUSED,), "poll", {"state": True}),
]
FAULTS += [
    it._replace(is_driven=True)
    for it in (
        Fault("socket", "EMFILE EAFNOSUPPORT ENOMEM", 2, (REFUSED,)),
        Fault("setsockopt", "ENOPROTOOPT EPERM", 12, (OK, REFUSED)),
        Fault("bind", "EADDRINUSE EACCES", 2, (REFUSED,)),
        Fault("recvmmsg", "EAGAIN EINTR ENOMEM ENOBUFS ECONNREFUSED", 6, (OK,)),
        Fault("recvmmsg", "EBADF EIO ENOSYS", 3, (FAILED,)),
        Fault("sendmsg", "EAGAIN EINTR ENOBUFS EPERM ENETUNREACH EIO EMSGSIZE", 4, (OK,)),
        Fault("sendmmsg", "EAGAIN EINTR ENOBUFS EPERM EINVAL EIO", 2, (OK,)),
        Fault("getrandom", "EINTR ENOSYS", 8, (OK, REFUSED)),
        Fault("madvise", "EINVAL", 2, (OK,)),
        Fault("mmap", "ENOMEM", 40, (OK, REFUSED, FAILED, "not begun")),
    )
]


def outcome(ran: "subprocess.CompletedProcess[str]", count: int, fault_of_loader: bool) -> str:
    """What came of a run, in one of the words of Fault.ends; anything else is a fault of the driver. The first mappings
    of memory are the loader's, which may crash without them."""
    found = udp.figures(ran.stdout)
    if ran.returncode == 0 and "too big" in ran.stdout:
        return "too big"
    if ran.returncode == 0 and found.get("answered") == count and found.get("wrong", 0) == 0:
        return OK
    if ran.returncode == 0 and found.get("declined") == count:
        return "declined"
    if ran.returncode == 1 and re.fullmatch(r"(ends|driven): [^\n]{10,}\n", ran.stderr):
        return REFUSED
    if ran.returncode == 3 and re.fullmatch(r"(ends|driven): failed: status \d+, [^\n]+\n", ran.stderr):
        return FAILED
    if (
        ran.returncode == 127
        or "error while loading" in ran.stderr
        or (fault_of_loader and ran.returncode == -11 and not ran.stdout + ran.stderr)
    ):
        return "not begun"
    return f"status {ran.returncode}: {ran.stdout[-300:]}{ran.stderr[-300:]}"


def tried(fault: Fault, error: str, at: int, program: str, port: int, folder: pathlib.Path) -> str:
    """Runs a client of which one call fails."""
    keys = {"count": 40, "many": 4, "timeout": 20000, "r": 3000, **fault.keys}
    if keys.get("state"):
        keys["state"] = folder / f"state-{time.monotonic_ns()}" / "of" / "client"
    node = 1000 + time.monotonic_ns() % 1_000_000
    words = [
        "strace",
        "-qq",
        "-o",
        "/dev/null",
        "-e",
        f"trace={fault.call}",
        "-e",
        f"inject={fault.call}:error={error}:when={at}",
    ]
    asks = ["ask", fault.loop, f"host={HOST}", f"node={node}", "peer=2", f"peer_port={port}"]
    asks += [f"{key}={value}" for key, value in keys.items()]
    words += [program, *([str(keys["count"])] if fault.is_driven else asks)]
    try:
        ran = subprocess.run(words, capture_output=True, text=True, timeout=udp.PATIENCE, check=False)
    except subprocess.TimeoutExpired:
        return "it hangs"
    return outcome(ran, int(keys["count"]), fault.call == "mmap" and at < 10)


def main() -> int:
    reads = argparse.ArgumentParser(description=__doc__, formatter_class=argparse.RawDescriptionHelpFormatter)
    reads.add_argument("calls", nargs="*", metavar="CALL")
    given = reads.parse_args()
    if not shutil.which("strace"):
        skip("there is no strace")
    if not udp.COMPILER or not udp.ARCHIVE.exists():
        skip(f"there is no compiler of C, or no {udp.ARCHIVE.relative_to(TOP)}: make -C lib")
    wrong = ran = 0
    with tempfile.TemporaryDirectory(prefix="deltat-udp-faults-") as name:
        folder = pathlib.Path(name)
        built = udp.Built(folder)
        program, driven = (built(it, plain=True) for it in ("ends", "driven"))
        server = udp.End(program, "serve", "next", host=HOST, node=2, learns=1000, r=3000)
        for fault in FAULTS:
            if given.calls and fault.call not in given.calls and not (fault.is_driven and "driven" in given.calls):
                continue
            seen: dict[str, int] = {}
            for error in fault.errors.split():
                for at in range(1, fault.times + 1):
                    runs = driven if fault.is_driven else program
                    found, ran = tried(fault, error, at, runs, server.port, folder), ran + 1
                    seen[found] = seen.get(found, 0) + 1
                    if found not in fault.ends:
                        wrong += 1
                        print(f"{fault.call} {at}, {error}, {fault.loop}: {found}", flush=True)
            print(
                (
                    f"{'driven: ' * fault.is_driven}{fault.call} ({fault.errors}):"
                    f" {', '.join(f'{count} {end}' for end, count in seen.items())}"
                ),
                flush=True,
            )
        server.stop()
    print(f"{ran} runs, {wrong} wrong")
    return 1 if wrong else 0


if __name__ == "__main__":
    sys.exit(main())
