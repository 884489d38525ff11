#!/usr/bin/env python3
"""Memory that is refused, outside the gate: the built program runs a row again and again, and the first
call for memory is refused, then the second, and so on, until a run makes no more calls than that. Each run
in which one was refused ends with status 4, with a first part of the log, and says so on standard error.
`tests/memory.py [PROGRAM [ROW ..]]`, where a ROW is short-exchange, quiet-time,
node or make-5; without one all four are run. Ends with 1 where a run ends otherwise.

One call may be refused and the run be served all the same: the words are collected into a vector that asks
for room for all of them first, and where that is refused for room for one. So one run may have status 0
with the whole log.

The calls are counted and refused by a few lines of C before the C library's own, which `cc` builds into a
temporary folder. `rt try --fail-alloc N -- replay` in crates/deltat refuses one call without a built
program; it compiles for a minute or two each time.

In tests/all: PROGRAM, 300 s."""
import os
import subprocess
import sys
import tempfile
import threading

from lib import TOP, bound, free_port, node_script, params, program

DATA = TOP / "crates" / "deltat_tests" / "data"

# the call for memory with the number in REFUSED_CALL is refused, which one octet on REFUSED_FD tells
BEFORE_LIBC = r"""
#include <errno.h>
#include <stdlib.h>
#include <unistd.h>
void *__libc_malloc(size_t), *__libc_calloc(size_t, size_t);
void *__libc_realloc(void *, size_t), *__libc_memalign(size_t, size_t);
static long calls;
static int refused(void) {
    const char *number = getenv("REFUSED_CALL"), *fd = getenv("REFUSED_FD");
    if (!number || !fd || ++calls != atol(number)) return 0;
    errno = ENOMEM;
    return write(atoi(fd), "r", 1) == 1;
}
void *malloc(size_t size) { return refused() ? NULL : __libc_malloc(size); }
void *calloc(size_t count, size_t size) { return refused() ? NULL : __libc_calloc(count, size); }
void *realloc(void *old, size_t size) { return refused() ? NULL : __libc_realloc(old, size); }
void *aligned_alloc(size_t align, size_t size) { return refused() ? NULL : __libc_memalign(align, size); }
int posix_memalign(void **made, size_t align, size_t size) {
    if (refused()) return ENOMEM;
    *made = __libc_memalign(align, size);
    return *made ? 0 : ENOMEM;
}
"""

# the acknowledgement of the five octets
ACKNOWLEDGEMENT = bytes.fromhex("0101000e000003e7000000020000000102000014000a0000000500000ffb")


def without_moments(log):
    """The log of a node without its moments, which are the machine's."""
    return b"".join(
        b" ".join(word for place, word in enumerate(line.split(b" ")) if place != (1 if line.startswith(b"end") else 0))
        for line in log.splitlines(keepends=True)
    )


class Row:
    """A row that is run: the words, the input, and how its log is compared."""

    def __init__(self, words, given=b"", compared=lambda log: log):
        self.words, self.given, self.compared = words, given, compared


def acknowledge(there):
    """Answers each datagram with the acknowledgement, until an empty one comes."""
    while True:
        octets, sender = there.recvfrom(9000)
        if not octets:
            return
        there.sendto(ACKNOWLEDGEMENT, sender)


def node_row():
    """Node 1 against a peer that acknowledges what it sends."""
    port, there = free_port(), bound()
    threading.Thread(target=acknowledge, args=(there,), daemon=True).start()
    commands = ["at 0 send 1:10>2:20 be 68656c6c6f", "at 300 stop"]
    script = node_script([params()], (1, 2), (port, there.getsockname()[1]), commands)
    return Row(["node"], script.encode(), without_moments)


ROWS = {
    "short-exchange": lambda: Row(["replay"], (DATA / "short-exchange.in").read_bytes()),
    "quiet-time": lambda: Row(["replay"], (DATA / "quiet-time.in").read_bytes()),
    "node": node_row,
    "make-5": lambda: Row(["make", "5"]),
}


def ran(path, row, library, call):
    """The row where this call for memory is refused: whether it was, and how the run ended."""
    reading, writing = os.pipe()
    env = {**os.environ, "LD_PRELOAD": library, "REFUSED_CALL": str(call), "REFUSED_FD": str(writing)}
    run = subprocess.run(
        [path, *row.words], input=row.given, capture_output=True, env=env, pass_fds=(writing,), check=False
    )
    os.close(writing)
    was_refused = os.read(reading, 1) == b"r"
    os.close(reading)
    return was_refused, run.returncode, row.compared(run.stdout), run.stderr


def wrong_runs(path, name, library):
    """Runs a row with each call refused in turn, and gives a line for each run that ends otherwise."""
    row = ROWS[name]()
    _, status, whole, _ = ran(path, row, library, 0)
    if status != 0 or not whole:
        return [f"{name}: status {status} where nothing is refused"]
    wrong, served, call = [], [], 1
    while True:
        was_refused, status, log, said = ran(path, row, library, call)
        if not was_refused:
            break
        if (status, log, said) == (0, whole, b""):
            served.append(call)
        elif status != 4 or not whole.startswith(log) or said != b"out of memory\n":
            wrong.append(f"{name}: call {call} refused: status {status}, {len(log)} of {len(whole)} octets, {said!r}")
        call += 1
    print(f"{name}: {call - 1} calls refused, one a run; served all the same: {served}")
    if call == 1:
        wrong.append(f"{name}: no call for memory was seen")
    if len(served) > 1:
        wrong.append(f"{name}: more than one run was served all the same")
    return wrong


def main():
    path, names = program(), sys.argv[2:] or list(ROWS)
    with tempfile.TemporaryDirectory() as folder:
        library = os.path.join(folder, "refuses.so")
        subprocess.run(
            ["cc", "-shared", "-fPIC", "-O1", "-o", library, "-x", "c", "-"], input=BEFORE_LIBC.encode(), check=True
        )
        wrong = [line for name in names for line in wrong_runs(path, name, library)]
    for line in wrong:
        print(line)
    return 1 if wrong else 0


sys.exit(main())
