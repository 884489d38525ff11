#!/usr/bin/env python3
"""Nodes and services of Rust over UDP, plain and under tokio: `tests/rust_udp.py [CASE ..]`; all where none is named.

The crates deltat-udp and deltat-tokio of bindings/rust are built without a network, over the archives of lib/
(DELTAT_LIB_DIR names another folder); tokio is that of Debian's package librust-tokio-dev, in place of crates-io.

- short: the examples `service` and `client` of both crates have 30 lines or fewer, and docs/driver.md shows the first
  two.
- plain, tokio: the service is asked over 127.0.0.1, ::1 and localhost, by both clients and by that of C; killed and
  started again in its state folder it is silent, and answers.
- c_service: both clients ask the service of C.
- loss: 5 % of all datagrams are lost each way: of 2,000 calls none is served twice or has another call's answer, and
  99 % are answered.
- killed: of 60,000 calls to a service that is killed five times while it serves, each ends, and none is served twice.
- memory: each allocation of 16 KiB or more fails once in a client: it says that there is no memory or that the service
  stopped, or is answered.
- system: each system call that opens something fails once: the error is that of the system.
- tasks: the tests of deltat-tokio, and those in its documents; clippy has nothing to say, where there is one.

Ends with 1 where one fails, and with 77 where there is no cargo or no archive; without tokio's crates the cases of
tokio are left out, and it says so.

In tests/all: no words, 900 s."""
from __future__ import annotations

import errno
import os
import pathlib
import re
import shutil
import signal
import subprocess
import sys
import tempfile
import time
from collections import Counter
from collections.abc import Callable, Iterator
from contextlib import contextmanager

from lib import HOST, TOP, free_port, is_up, skip
from udp import Relay

CRATES = TOP / "bindings" / "rust"
LIBRARY = pathlib.Path(os.environ.get("DELTAT_LIB_DIR", TOP / "lib")).resolve()
DEBIAN = pathlib.Path("/usr/share/cargo/registry")
# in place of crates-io, of which nothing is asked
SOURCES = ["--config", 'source.crates-io.replace-with="debian"', "--config", f'source.debian.directory="{DEBIAN}"']
HOSTS = ("127.0.0.1", "::1", "localhost")
LONGEST_PROGRAM = 30
# the silence of a node with the parameters of the examples, in seconds; and how long a program may take on a machine
# that others load
SILENT, PATIENCE = 2.0, 120

# fails the allocation of at least LEAST octets with the number FAIL_AT
NO_MEMORY = """#define _GNU_SOURCE
#include <dlfcn.h>
#include <errno.h>
#include <stdlib.h>
enum { LEAST = 16384 };
static long left = -1;
static int fails(size_t size) {
    if (size < LEAST) return 0;
    if (left < 0) left = getenv("FAIL_AT") ? atol(getenv("FAIL_AT")) : 0;
    if (left == 0 || --left > 0) return 0;
    left = 0;
    errno = ENOMEM;
    return 1;
}
void *malloc(size_t size) {
    static void *(*own)(size_t);
    if (!own) *(void **)&own = dlsym(RTLD_NEXT, "malloc");
    return fails(size) ? NULL : own(size);
}
void *realloc(void *it, size_t size) {
    static void *(*own)(void *, size_t);
    if (!own) *(void **)&own = dlsym(RTLD_NEXT, "realloc");
    return fails(size) ? NULL : own(it, size);
}
"""


class Built:
    """A copy of the crates, and the programs that are built of it."""

    def __init__(self, folder: str) -> None:
        self.folder = pathlib.Path(folder)
        self.crates = self.folder / "rust"
        shutil.copytree(CRATES, self.crates, ignore=shutil.ignore_patterns("target"))

    def cargo(self, crate: str, *words: str, seconds: float = 400) -> subprocess.CompletedProcess[str]:
        """What cargo does in a crate, without a network."""
        names = {**os.environ, "DELTAT_LIB_DIR": str(LIBRARY), "CARGO_TARGET_DIR": str(self.folder / "target" / crate)}
        more = SOURCES if crate == "deltat-tokio" else []
        first, *others = words
        return ran(["cargo", first, "--offline", *more, *others], seconds, cwd=self.crates / crate, env=names)

    def example(self, crate: str, name: str) -> str:
        path = self.folder / "target" / crate / "debug" / "examples" / name
        if not path.exists():
            wants_well("cargo build", self.cargo(crate, "build", "--examples"))
        return str(path)

    def of_c(self, name: str) -> str:
        path = self.folder / name
        archives = [str(LIBRARY / f"lib{it}.a") for it in ("deltat-udp", "deltat")]
        source = TOP / "examples" / f"{name}.c"
        if not path.exists():
            words = ["cc", "-std=c11", "-I", str(TOP / "include"), str(source), *archives, "-o", str(path)]
            wants_well("cc", ran(words, 60))
        return str(path)


def ran(words: list[str], seconds: float = PATIENCE, **how: object) -> subprocess.CompletedProcess[str]:
    return subprocess.run(words, capture_output=True, text=True, timeout=seconds, check=False, **how)


def wants(truth: bool, what: str) -> None:
    if not truth:
        raise AssertionError(what)


def wants_well(what: str, it: subprocess.CompletedProcess[str]) -> None:
    """A command ended with 0 and warned of nothing."""
    is_well = it.returncode == 0 and "warning" not in it.stderr
    wants(is_well, f"{what}: {it.returncode}: {(it.stdout + it.stderr)[-2000:]}")


@contextmanager
def running(words: list[str], port: int) -> Iterator[subprocess.Popen[str]]:
    """A service at a port, until the end of the block."""
    with subprocess.Popen(words, stdout=subprocess.PIPE, stderr=subprocess.PIPE, text=True) as it:
        try:
            until = time.monotonic() + 20
            while it.poll() is None and not is_bound(port) and time.monotonic() < until:
                time.sleep(0.01)
            if it.poll() is not None:
                raise AssertionError(f"{' '.join(words)} ended with {it.returncode}: {it.stderr.read()}")
            yield it
        finally:
            it.kill()


def is_bound(port: int) -> bool:
    """Whether a socket of either family has the port."""
    return is_up(port) or f":{port:04X} " in pathlib.Path("/proc/net/udp6").read_text()


# --- cases


def short(built: Built) -> str:
    counts = []
    page = (TOP / "docs" / "driver.md").read_text()
    for crate in ("deltat-udp", "deltat-tokio"):
        for name in ("service", "client"):
            text = (CRATES / crate / "examples" / f"{name}.rs").read_text()
            counts.append(sum(1 for it in text.splitlines() if it.strip()))
            wants(counts[-1] <= LONGEST_PROGRAM, f"{crate}: {name}.rs has {counts[-1]} lines")
            wants(crate == "deltat-tokio" or f"```rust\n{text}```\n" in page, f"docs/driver.md doesn't show {name}.rs")
    return f"{', '.join(map(str, counts))} lines"


def clients(built: Built) -> list[str]:
    """All that can ask: those of both crates and of C."""
    crates = ["deltat-udp", *(["deltat-tokio"] if DEBIAN.is_dir() else [])]
    return [*(built.example(it, "client") for it in crates), built.of_c("udp_client")]


def ask_all(built: Built, port: int) -> int:
    count = 0
    for client in clients(built):
        for host in HOSTS:
            it = ran([client, host, f"hello {host}", str(port)])
            answered = (it.returncode, it.stdout) == (0, f"hello {host}"[::-1] + "\n")
            wants(answered, f"{client} {host}: {it.stdout}{it.stderr}")
            count += 1
    return count


def served(built: Built, service: str) -> str:
    port, state, count = free_port(), tempfile.mkdtemp(dir=built.folder), 0
    for silent in (0, SILENT + 0.5):
        with running([service, str(port), f"{state}/node-2"], port):
            time.sleep(silent)
            count += ask_all(built, port)
    return f"{count} calls by {len(clients(built))} clients over {', '.join(HOSTS)}; again after a kill"


def plain(built: Built) -> str:
    return served(built, built.example("deltat-udp", "service"))


def tokio(built: Built) -> str:
    return served(built, built.example("deltat-tokio", "service"))


def c_service(built: Built) -> str:
    return served(built, built.of_c("udp_service"))


def judged(ends: str, journal: pathlib.Path, count: int) -> Counter[str]:
    """How many calls ended how. Each has one end, and none was served twice or without having been made."""
    lines = [it.split() for it in ends.splitlines()]
    counts = Counter(it[0] for it in lines)
    wants(sorted(int(it[1]) for it in lines) == list(range(1, count + 1)), f"a call has no end, or two: {counts}")
    wants(counts["another"] == 0, f"{counts['another']} calls got another call's answer")
    times = Counter(journal.read_text().split())
    twice = [it for it, often in times.items() if often > 1]
    wants(not twice, f"served twice: {twice[:5]}")
    answered = {it[1] for it in lines if it[0] == "answered"}
    wants(answered <= times.keys() and len(times) <= count, "an answer of nobody, or a request of nobody")
    return counts


def loss(built: Built) -> str:
    many, port, count = built.example("deltat-udp", "many"), free_port(), 2000
    journal, relay = built.folder / "loss.journal", Relay(0.05, port, seed=5)
    relay.start()
    try:
        with running([many, "serve", str(port), f"{built.folder}/loss", str(journal)], port):
            it = ran([many, "ask", HOST, str(relay.near_port), str(count)], 3 * PATIENCE)
    finally:
        relay.over = True
    wants(it.returncode == 0, f"many ask ended with {it.returncode}: {it.stderr[-500:]}")
    counts = judged(it.stdout, journal, count)
    wants(counts["answered"] >= 0.99 * count, f"too few were answered: {counts}, {it.stderr}")
    wants(relay.lost > count / 50, f"{relay.lost} datagrams were lost")
    return f"{counts['answered']} of {count} calls answered, {counts['unsure']} unsure, {relay.lost} datagrams lost"


def killed(built: Built) -> str:
    many, port, count, kills = built.example("deltat-udp", "many"), free_port(), 60_000, 5
    journal, ends, lives = built.folder / "killed.journal", built.folder / "killed.ends", []
    serve = [many, "serve", str(port), f"{built.folder}/killed", str(journal)]
    asking: subprocess.Popen[bytes] | None = None
    for number in range(kills + 1):
        before = journal.read_text().count("\n") if journal.exists() else 0
        with running(serve, port) as service:
            silent = int(re.findall(r"\d+", service.stdout.readline())[0])
            if asking is None:
                words = [many, "ask", HOST, str(port), str(count)]
                with ends.open("w") as out:
                    asking = subprocess.Popen(words, stdout=out, stderr=subprocess.DEVNULL)
            time.sleep(silent / 1000 + 0.2)
            if number == kills:
                asking.wait(PATIENCE)
        lives.append(journal.read_text().count("\n") - before)
    assert asking
    wants(asking.returncode == 0, f"many ask ended with {asking.returncode}")
    counts = judged(ends.read_text(), journal, count)
    wants(sum(it > 0 for it in lives) >= 2, f"requests served by each life: {lives}")
    return f"lives that served {lives}: {counts['answered']} of {count} calls answered, {counts['unsure']} unsure"


def memory(built: Built) -> str:
    source, shim = built.folder / "no_memory.c", built.folder / "no_memory.so"
    source.write_text(NO_MEMORY)
    wants_well("cc", ran(["cc", "-shared", "-fPIC", "-O1", str(source), "-o", str(shim), "-ldl"]))
    client, port, failed = built.example("deltat-udp", "client"), free_port(), 0
    with running([built.example("deltat-udp", "service"), str(port), f"{built.folder}/memory"], port):
        for number in range(1, 100):
            names = {**os.environ, "LD_PRELOAD": str(shim), "FAIL_AT": str(number)}
            it = ran([client, HOST, "hello", str(port)], env=names)
            if it.returncode == 0:
                wants(it.stdout == "olleh\n", f"allocation {number}: {it.stdout}")
                # (the last one that failed is behind, or it was one that the driver can do without)
                if number > failed + 3:
                    break
                continue
            failed = number
            # (where the call was made before, its end is the service's stop)
            says = "OutOfMemory" in it.stderr or "cause: Stopped" in it.stderr
            wants(it.returncode == 1 and says, f"allocation {number}: {it.returncode} {it.stderr}")
    wants(failed >= 3, f"only {failed} allocations failed")
    return f"{failed} allocations failed, one at a time"


def system(built: Built) -> str:
    if not shutil.which("strace"):
        return "left out: there is no strace"
    client, told = built.example("deltat-udp", "client"), []
    failures = {"socket": "EMFILE", "bind": "EACCES", "timerfd_create": "EMFILE", "epoll_create1": "EMFILE"}
    for call, error in failures.items():
        number = getattr(errno, error)
        words = ["strace", "-f", "-qq", "-o", "/dev/null", "-e", f"trace={call}", "-e", f"inject={call}:error={error}"]
        it = ran([*words, client, HOST, "hello", str(free_port())])
        wants(it.returncode == 1 and f"code: {number}" in it.stderr, f"{call}: {it.returncode} {it.stderr[-300:]}")
        told.append(call)
    return f"{', '.join(told)} failed"


def tasks(built: Built) -> str:
    it = built.cargo("deltat-tokio", "test")
    wants_well("cargo test", it)
    wants_well("cargo doc", built.cargo("deltat-tokio", "doc", "--no-deps"))
    if ran(["cargo", "clippy", "--version"], 30).returncode == 0:
        wants_well("clippy", built.cargo("deltat-tokio", "clippy", "--all-targets", "--", "-D", "warnings"))
    passed = [int(it) for it in re.findall(r"ok\. (\d+) passed", it.stdout)]
    return f"{sum(passed)} tests"


CASES: list[Callable[[Built], str]] = [short, plain, tokio, c_service, loss, killed, memory, system, tasks]
WITH_TOKIO = (tokio, tasks)


def main() -> int:
    if not shutil.which("cargo") or not shutil.which("cc"):
        skip("there is no cargo or no cc")
    missing = [it for it in ("libdeltat.a", "libdeltat-udp.a") if not (LIBRARY / it).exists()]
    if missing:
        skip(f"{LIBRARY}/{missing[0]} isn't there: make -C lib")
    # a program that is stopped by its reader ends
    signal.signal(signal.SIGPIPE, signal.SIG_DFL)
    failed = 0
    with tempfile.TemporaryDirectory() as folder:
        built = Built(folder)
        for case in [it for it in CASES if not sys.argv[1:] or it.__name__ in sys.argv[1:]]:
            begun = time.monotonic()
            if case in WITH_TOKIO and not any(DEBIAN.glob("tokio-1*")):
                print(f"{case.__name__}: left out: librust-tokio-dev isn't installed", flush=True)
                continue
            try:
                print(f"{case.__name__}: ok: {case(built)} ({time.monotonic() - begun:.1f} s)", flush=True)
            except (AssertionError, subprocess.TimeoutExpired) as why:
                failed += 1
                print(f"{case.__name__}: FAILED: {why}", flush=True)
    return 1 if failed else 0


if __name__ == "__main__":
    sys.exit(main())
