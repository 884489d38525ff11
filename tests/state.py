#!/usr/bin/env python3
"""The state folder of a node: lib/udp/state.c, by deltat.State of Python, and who else keeps its files. `tests/state.py
[TEST ..]`; ends with 77 where `make -C lib` hasn't made the library, and with 1 where one of these fails:

- answers: what a start is, after no life, one that was closed in order, one that was killed, another boot, another
  clock; after files that are damaged, cut off, gone or foreign; and that a folder of another number or of other
  parameters is refused.
- owners: a second process is refused with the id of the first one; a forked child is refused, and doesn't keep the
  lock when its parent has ended.
- model: 400 random lives of a folder with a clock and boots of the test's own, killed, closed, damaged: no start is
  silent for too little, none for longer than the whole, one after a life that was closed in order just for the rest,
  and no life comes twice.
- killed: a program that opens a folder, notes and closes is killed at each of its system calls (by strace), from an
  empty folder, one that was closed in order and one that was left by a kill. What leaves is written down.
- exchanged: 40 random runs of two nodes in memory over links that repeat and delay, with a state folder each, killed
  and closed at random: no message comes twice, and what is acknowledged was delivered. The same runs with a state
  that asks for no silence, or that notes what leaves alone, have to fail.
- loop: twenty starts of tools/dtcat.py in a row, as a shell's loop makes them: each line that is acknowledged is heard,
  and so are 20 of 20, but on a busy machine, where some are told as uncertain.
- stopped: the same with twelve senders that are killed when their line was heard.
- fresh: twenty clients with numbers that nobody had, one after another, without a folder and without silence; and
  the table of docs/premises.md.

In tests/all: no words, 600 s."""
from __future__ import annotations

import collections
import concurrent.futures
import contextlib
import heapq
import logging
import os
import pathlib
import random
import re
import shutil
import signal
import subprocess
import sys
import tempfile
import time
import zlib
from collections.abc import Iterator

from lib import HOST, TOP, free_port, is_up, skip

LIBRARY = TOP / "lib" / "libdeltat-udp.so.1"
if not LIBRARY.exists():
    skip(f"{LIBRARY} isn't there: make -C lib")
sys.path.insert(0, str(TOP / "bindings" / "python"))
import deltat  # noqa: E402
from deltat import clock  # noqa: E402
from deltat import state as state_module  # noqa: E402
from deltat._library import drivers  # noqa: E402

CAT = str(TOP / "tools" / "dtcat.py")
# silent for 3 * 30 + 40 + 5 = 135 ms
PARAMS = deltat.Params(mpl=30, r=40, a=5, rto=10, probe=20, seg=100, cap=4096, rcap=4096, window=4096)
OTHER = deltat.Params(mpl=31, r=40, a=5, rto=10, probe=20, seg=100, cap=4096, rcap=4096, window=4096)
QUIET = PARAMS.quiet_ms
CHARGE = 10
NO_BOOT = "00000000-0000-0000-0000-000000000000"
FLOW = deltat.Flow(1, 10, 2, 20)


class Heard(logging.Handler):
    """The warnings."""

    def __init__(self) -> None:
        super().__init__()
        self.lines: list[str] = []

    def emit(self, record: logging.LogRecord) -> None:
        self.lines.append(record.getMessage())


WARNED = Heard()
logging.getLogger("deltat").addHandler(WARNED)
logging.getLogger("deltat").propagate = False


@contextlib.contextmanager
def machine(boot: str, clock: int | None = 0) -> Iterator[None]:
    """A boot of a machine of the test's own. `clock` None: what it is ahead by can't be known."""
    kept = state_module._machine
    state_module._machine = lambda: (NO_BOOT, 0) if clock is None else (boot, clock)
    try:
        yield
    finally:
        state_module._machine = kept


def boot_named(number: int) -> str:
    return f"00000000-0000-4000-8000-{number:012d}"


def is_again(state: deltat.State) -> bool:
    return state.start is deltat.Start.AGAIN


def killed(state: deltat.State) -> None:
    """What a kill leaves of a state: its files are closed, and nothing is written."""
    state._keeper.noted = 0
    state._end("killed")


def fails(what: type[Exception], text: str, call) -> bool:
    try:
        call()
    except what as why:
        return text in str(why)
    return False


# --- answers


def one_life(folder: pathlib.Path, notes: list[int], opened: int, orderly: bool = True) -> tuple[bool, int, int]:
    """A life: whether it is `again`, the moment that it is opened at, and its number."""
    state = deltat.State(folder, 1, PARAMS)
    at = state.opens_at(opened)
    for it in notes:
        state.note_packet(it)
    (deltat.State.close if orderly else killed)(state)
    return is_again(state), at, state.life


def starts(folder: pathlib.Path) -> list[tuple[str, bool]]:
    with machine(boot_named(1)):
        found = [("a new folder", one_life(folder, [1000], 1000) == (False, 1000, 1))]
        found.append(("closed in order: from the last datagram on", one_life(folder, [1500], 1100) == (True, 1000, 2)))
        found.append(("long ago", one_life(folder, [9000], 8000, orderly=False) == (True, 1500, 3)))
        found.append(
            ("killed: from what was promised on", one_life(folder, [], 9500) == (True, 9000 + max(QUIET // 4, 50), 4))
        )
        found.append(("killed just now: the whole", one_life(folder, [9800], 9001) == (True, 9001, 5)))
        found.append(("nothing was done since", one_life(folder, [], 9900) == (True, 9800, 6)))
        found.append(("what is noted in the silence doesn't leave", one_life(folder, [9910], 9905) == (True, 9800, 7)))
        found.append(("and so the silence isn't begun anew", one_life(folder, [], 9915) == (True, 9800, 8)))
    with machine(boot_named(2)):
        found.append(("another boot: the whole", one_life(folder, [], 700) == (True, 700, 9)))
        found.append(("which isn't begun anew", one_life(folder, [], 720) == (True, 700, 10)))
    with machine(boot_named(2), 5_000_000_000):
        found.append(("another clock", one_life(folder, [], 5800) == (True, 5800, 11)))
    with machine(boot_named(2), None):
        found.append(("a clock that isn't known", one_life(folder, [], 900) == (True, 900, 12)))
        found.append(("once more", one_life(folder, [], 950) == (True, 950, 13)))
    with machine(NO_BOOT):
        found.append(
            (
                "a machine that names no boots",
                one_life(folder, [], 990) == (True, 990, 14) and one_life(folder, [], 999) == (True, 999, 15),
            )
        )
    return found


def damages(top: pathlib.Path) -> list[tuple[str, bool]]:
    def cut(path: pathlib.Path) -> None:
        path.write_bytes(path.read_bytes()[:-1])

    def longer(path: pathlib.Path) -> None:
        path.write_bytes(path.read_bytes() + b"\n")

    def other_digit(path: pathlib.Path) -> None:
        path.write_bytes(re.sub(rb"(life|until) (\d*)1", rb"\1 \g<2>0", path.read_bytes()))

    def next_form(path: pathlib.Path) -> None:
        path.write_bytes(path.read_bytes().replace(b" 1\n", b" 2\n", 1))

    def nothing(path: pathlib.Path) -> None:
        path.write_bytes(b"")

    def foreign(path: pathlib.Path) -> None:
        path.write_bytes(os.urandom(5000))

    found = []
    for name in ("state", "last"):
        for damage in (cut, longer, other_digit, next_form, nothing, foreign, pathlib.Path.unlink):
            folder = top / f"{name}-{damage.__name__}"
            with machine(boot_named(1)):
                lives = [one_life(folder, [1001], 1000)[2]]
                damage(folder / name)
                WARNED.lines.clear()
                again, at, life = one_life(folder, [], 1050)
                lives += [life, one_life(folder, [], 1060)[2]]
            # (an empty or a missing file `last` is what a kill leaves of a first start)
            is_warned = bool(WARNED.lines) or name == "last" and damage in (nothing, pathlib.Path.unlink)
            is_kept = name == "last" or damage is pathlib.Path.unlink or (folder / "state.damaged").exists()
            found.append(
                (
                    f"{name}: {damage.__name__}",
                    (again, at) == (True, 1050) and len(set(lives)) == 3 and is_warned and is_kept,
                )
            )
    for name in ("state", "lock", "node-7.stamp"):
        folder = top / f"leads-nowhere-{name}"
        folder.mkdir()
        (folder / name).symlink_to("/nowhere/at/all") if name != "lock" else (folder / name).touch()
        found.append((f"a folder with a {name} alone", one_life(folder, [], 1000)[:2] == (True, 1000)))
    return found


def refusals(top: pathlib.Path) -> list[tuple[str, bool]]:
    folder = top / "refusals"
    with machine(boot_named(1)):
        one_life(folder, [1000], 1000)
        found = [
            (
                "another number",
                fails(deltat.StateError, "of node 1, and this is node 2", lambda: deltat.State(folder, 2, PARAMS)),
            )
        ]
        found.append(
            (
                "other parameters",
                fails(deltat.StateError, "mpl was 30 and is 31", lambda: deltat.State(folder, 1, OTHER)),
            )
        )
        found.append(("it is as it was", one_life(folder, [], 1001) == (True, 1000, 2)))
        with deltat.State(folder, 1, OTHER, changed=True) as state:
            found.append(("other parameters that were changed", state.opens_at(1010) == 1010 and state.life == 3))
        begun = time.monotonic()
        with deltat.State(folder, 1, PARAMS, changed=True) as state:
            found.append(
                (
                    "shorter ones wait for the longer silence",
                    state.opens_at(1020) == 1020 and time.monotonic() - begun >= 0.003,
                )
            )
        with deltat.State(folder, 1, PARAMS, again=True) as state:
            found.append(
                ("`again`: the whole, and a drawn life", state.opens_at(1030) == 1030 and state.life >= 1 << 31)
            )
            found.append(("one opening a state", fails(deltat.StateError, "one opening", lambda: state.opens_at(1040))))
            found.append(
                ("a life more", state.next_life() == state.life and str(state.life) in (folder / "state").read_text())
            )
            state.note_packet(1031)
        for name, call in (
            ("note", lambda: state.note_packet(1032)),
            ("note", lambda: state.note_packet(0)),
            ("life", state.next_life),
        ):
            found.append((f"closed: {name}", fails(deltat.StateError, "is closed", call)))
        (folder / "state").write_text("node 3\n")
        found.append(
            (
                "a damaged file of another number",
                fails(deltat.StateError, "of node 3", lambda: deltat.State(folder, 1, PARAMS)),
            )
        )
        found.append(
            (
                "no number",
                fails(
                    deltat.InvalidArgument,
                    "node is 4294967296; it must be",
                    lambda: deltat.State(folder, 1 << 32, PARAMS),
                ),
            )
        )
        blocked = top / "file"
        blocked.write_text("")
        found.append(("no folder", fails(OSError, "file", lambda: deltat.State(blocked, 1, PARAMS))))
    return found


def with_nodes(top: pathlib.Path) -> list[tuple[str, bool]]:
    """What a node asks of its state, and a service."""
    found, links = [], [deltat.Link(1, CHARGE)]
    with deltat.State(top / "node", 1, PARAMS) as state:
        wrong = [
            lambda: deltat.Node(2, PARAMS, links, {2: 1}, state=state),
            lambda: deltat.Node(1, OTHER, links, {2: 1}, state=state),
        ]
        found += [
            ("a node with the state of another one", fails(deltat.StateError, "make a state", it)) for it in wrong
        ]
        both = lambda: deltat.Node(1, PARAMS, links, {2: 1}, start=deltat.Start.AGAIN, state=state)  # noqa: E731
        found.append(("a node with both", fails(TypeError, "more than one start", both)))
        node = deltat.Node(1, PARAMS, links, {2: 1}, state=state)
        node.send(FLOW, b"x")
    found.append(("a node whose state is closed", fails(deltat.StateError, "is closed", lambda: node.send(FLOW, b"x"))))
    found.append(("nothing was sent by it", len(list(node.datagrams())) == 1))
    node.close()
    with deltat.State(top / "node", 1, PARAMS) as state:
        wrong = lambda: deltat.Service(1, 1, PARAMS, links, {2: 1}, state=state)  # noqa: E731
        found.append(("a service with a life of its own", fails(TypeError, "a life and a state were given", wrong)))
        service = deltat.Service(1, None, PARAMS, links, {2: 1}, state=state)
        service.set_port(10, deltat.PortKind.CALLER)
        found.append(
            (
                "a service that is silent still",
                0 < state.silence() <= QUIET
                and fails(deltat.Declined, "silent until", lambda: service.call(FLOW, b"x", 100)),
            )
        )
        time.sleep(state.silence() / 1000)
        found.append(("and then calls", service.call(FLOW, b"x", 100) >> 32 == state.life == service.life == 2))
        service.set_life(state.next_life())
        found.append(
            (
                "by another life",
                service.call(FLOW, b"x", 100) >> 32 == 3 and "life 3\n" in (top / "node" / "state").read_text(),
            )
        )
        service.close()
    return found


def unwritable(top: pathlib.Path) -> list[tuple[str, bool]]:
    """A disk on which nothing can be written any more."""
    begun = f"""import os, resource, signal, sys, time
sys.path.insert(0, {str(TOP / 'bindings' / 'python')!r})
import deltat
def full(): signal.signal(signal.SIGXFSZ, signal.SIG_IGN); resource.setrlimit(resource.RLIMIT_FSIZE, (0, 0))
params, folder = deltat.{PARAMS!r}, {str(top / 'full')!r}
"""
    after = begun + """state = deltat.State(folder, 1, params)
node = deltat.Node(1, params, [deltat.Link(1, 10)], {2: 1}, state=state)
full()
time.sleep(0.01)
try: node.send(deltat.Flow(1, 1, 2, 1), b"x")
except deltat.StateError as why: print(why, len(list(node.datagrams())), "frames")
"""
    before = begun + "full()\ntry: deltat.State(folder, 1, params)\nexcept OSError as why: print(type(why).__name__)"
    told = [
        subprocess.run([sys.executable, "-c", it], capture_output=True, text=True, timeout=30).stdout
        for it in (after, before)
    ]
    right = "last can't be written" in told[0] and told[0].endswith(" 0 frames\n")
    return [
        ("a disk that is full: nothing is sent", right),
        ("a disk that is full: nothing starts", told[1] == "OSError\n"),
    ]


def with_check(text: str) -> bytes:
    """The octets of a file, with their checksum as its last line."""
    return text.encode() + b"check %08x\n" % zlib.crc32(text.encode())


def documented(top: pathlib.Path) -> list[tuple[str, bool]]:
    """The files that docs/formats.md shows are what is read and written."""
    shown = re.findall(
        r"^```example\n(deltat .*?)```$", (TOP / "docs" / "formats.md").read_text(), re.MULTILINE | re.DOTALL
    )
    texts = {it.split()[1]: it for it in shown}
    node, *numbers, life = map(
        int, re.search(r"node (\d+)\nparams ([\d ]+)\nlife (\d+)", texts["state"]).expand(r"\1 \2 \3").split()
    )
    boot, ahead, until = re.search(r"boot (\S+)\nclock (\S+)\nuntil (\d+)", texts["last"]).groups()
    folder = top / "documented"
    folder.mkdir()
    for name, text in texts.items():
        (folder / name).write_text(text)
    WARNED.lines.clear()
    with machine(boot, int(ahead)), deltat.State(folder, node, deltat.Params(*numbers)) as state:
        at = state.opens_at(int(until) + 1)
        found = [("the page's files are read", (at, state.life, WARNED.lines) == (int(until), life + 1, []))]
        state.note_packet(int(until) + state.params.quiet_ms)
    for name, was, is_now in (("state", life, life + 1), ("last", int(until), int(until) + state.params.quiet_ms)):
        width = 20 if name == "last" else 1
        text = texts[name].partition("check ")[0].replace(f" {was:0{width}}\n", f" {is_now:0{width}}\n")
        found.append((f"`{name}` is written as the page says", (folder / name).read_bytes() == with_check(text)))
    return found


def answers() -> bool:
    with tempfile.TemporaryDirectory() as folder:
        top = pathlib.Path(folder)
        found = [
            *starts(top / "a" / "b"),
            *damages(top),
            *refusals(top),
            *with_nodes(top),
            *unwritable(top),
            *documented(top),
        ]
    wrong = [name for name, holds in found if not holds]
    print(f"answers: {len(found) - len(wrong)} of {len(found)} hold" + "".join(f"\n  wrong: {it}" for it in wrong))
    return not wrong


# --- owners


def owners() -> bool:
    with tempfile.TemporaryDirectory() as top:
        folder = os.path.join(top, "it")
        state = deltat.State(folder, 1, PARAMS)
        state.opens_at(deltat.now())
        tries = (
            f"import sys; sys.path.insert(0, {str(TOP / 'bindings' / 'python')!r}); import deltat;"
            f" deltat.State({folder!r}, 1, deltat.{PARAMS!r})"
        )
        second = subprocess.run([sys.executable, "-c", tries], capture_output=True, text=True)
        right = second.returncode == 1 and f"in use by process {os.getpid()};" in second.stderr
        right &= fails(deltat.StateError, f"in use by process {os.getpid()};", lambda: deltat.State(folder, 1, PARAMS))
        reading, writing = os.pipe()
        child = os.fork()
        if not child:
            told = fails(deltat.StateError, "parent", lambda: state.note_packet(deltat.now()))
            state.close()
            os.write(writing, b"y" if told else b"n")
            time.sleep(60)
            os._exit(0)
        right &= os.read(reading, 1) == b"y"
        before = (pathlib.Path(folder) / "last").read_bytes()
        state.note_packet(deltat.now() + 1000)
        right &= before != (pathlib.Path(folder) / "last").read_bytes()
        state.close()
        # the child lives on, and hasn't got the lock
        deltat.State(folder, 1, PARAMS).close()
        os.kill(child, signal.SIGKILL)
        os.waitpid(child, 0)
        return right


# --- model


class Machine:
    """Boots and a clock of the test's own, and what a node in the folder really did."""

    def __init__(self, chance: random.Random, folder: pathlib.Path) -> None:
        self.chance, self.folder = chance, folder
        self.boot, self.now = 1, chance.randrange(100_000)
        self.last: tuple[int, int] | None = None  # the boot and the moment of the last datagram
        self.lives: set[int] = set()
        self.opened = 1, 0
        self.was_orderly = False
        self.wrong: list[str] = []

    def pass_time(self) -> None:
        self.now += self.chance.choice((0, 1, 5, QUIET // 4, QUIET - 1, QUIET, QUIET + 1, 10 * QUIET))
        if self.chance.random() < 0.1:
            self.boot, self.now, self.was_orderly = self.boot + 1, self.chance.randrange(100_000), False

    def damage(self) -> None:
        name = self.chance.choice(("state", "last", "lock"))
        path = self.folder / name
        if self.chance.random() < 0.8 or not path.exists():
            return
        octets = bytearray(path.read_bytes())
        kind = self.chance.randrange(4)
        if kind == 0:
            path.unlink()
        elif kind == 1 or not octets:
            path.write_bytes(octets[: self.chance.randrange(len(octets) + 1)])
        elif kind == 2:
            octets[self.chance.randrange(len(octets))] ^= 1 << self.chance.randrange(8)
            path.write_bytes(octets)
        else:
            (self.folder / f"{name}.new").write_bytes(b"half of a fi")
        self.was_orderly = False

    def live(self) -> None:
        with machine(boot_named(self.boot)):
            try:
                state = deltat.State(self.folder, 1, PARAMS, again=self.chance.random() < 0.05)
            except deltat.StateError as why:
                # a flipped bit may have made another number of it
                if "of node" not in str(why):
                    raise
                (self.folder / "state").unlink()
                return
            if self.chance.random() < 0.1:
                self.was_orderly &= "asked" not in state.why
                return killed(state)
            self.look(state)
            has_noted = False
            for _ in range(self.chance.randrange(6)):
                self.now += self.chance.choice((0, 0, 1, 7, QUIET // 4, QUIET))
                state.note_packet(self.now)
                if self.now >= self.silent_until:
                    self.last, has_noted = (self.boot, self.now), True
            is_closed = self.chance.random() < 0.5
            (deltat.State.close if is_closed else killed)(state)
            self.was_orderly = is_closed and has_noted

    def look(self, state: deltat.State) -> None:
        at = state.opens_at(self.now)
        self.silent_until = at + QUIET if is_again(state) else self.now
        if self.last and self.last[0] == self.boot and self.silent_until < self.last[1] + QUIET:
            self.wrong.append(
                f"silent until {self.silent_until}, and the last datagram was at {self.last[1]} ({state.why})"
            )
        if self.boot != self.opened[0] and at < self.now:
            self.wrong.append("another boot, and not the whole")
        if at > self.now:
            self.wrong.append("longer than the whole")
        if self.was_orderly and self.last[0] == self.boot and "asked" not in state.why and at > self.last[1]:
            self.wrong.append(f"opened at {at}, and the last datagram was at {self.last[1]}")
        if state.life in self.lives:
            self.wrong.append(f"the life {state.life} came twice")
        self.opened = self.boot, at
        self.lives.add(state.life)


def model() -> bool:
    wrong: list[str] = []
    lives = 0
    for seed in range(400):
        with tempfile.TemporaryDirectory(dir="/dev/shm" if os.path.isdir("/dev/shm") else None) as folder:
            it = Machine(random.Random(seed), pathlib.Path(folder) / "it")
            for _ in range(12):
                it.pass_time()
                if it.folder.exists():
                    it.damage()
                it.live()
            lives += len(it.lives)
            wrong += [f"seed {seed}: {text}" for text in it.wrong]
    print(f"model: {lives} lives" + "".join(f"\n  {it}" for it in wrong[:5]))
    return not wrong and lives > 3000


# --- killed


BASE = 10_000_000
MOMENTS = (0, 1, QUIET, QUIET + 1, QUIET + QUIET // 4, 3 * QUIET, 3 * QUIET + 1)


def child(folder: str, log: str, base: int) -> None:
    """The program that is killed. What it writes into the log has left."""
    drivers()  # (its library is loaded before what is tried)
    told = os.open(log, os.O_WRONLY | os.O_APPEND | os.O_CREAT)
    with contextlib.suppress(OSError):
        os.open("/nowhere/begins", os.O_RDONLY)
    with machine(boot_named(1)), deltat.State(folder, 1, PARAMS) as state:
        opened = state.opens_at(base)
        os.write(told, f"life {state.life}\n".encode())
        for it in MOMENTS:
            state.note_packet(base + it)
            if not is_again(state) or base + it >= opened + QUIET:
                os.write(told, f"left {base + it}\n".encode())


def calls_of(listing: pathlib.Path) -> list[tuple[str, int]]:
    """The system calls after the mark: of each its name, and the how manieth of that name it is in the run."""
    counts: collections.Counter[str] = collections.Counter()
    found, has_begun = [], False
    for line in listing.read_text(errors="replace").splitlines():
        if not (name := re.match(r"(?:\d+ +)?(\w+)\(", line)):
            continue
        counts[name[1]] += 1
        if has_begun:
            found.append((name[1], counts[name[1]]))
        has_begun |= "/nowhere/begins" in line
    return [it for it in found if it[0] != "exit_group"]


def what_is_answered(folder: pathlib.Path, log: pathlib.Path, now: int) -> str:
    """What is wrong with the start after a kill, or nothing."""
    lines = log.read_text().splitlines() if log.exists() else []
    left = [int(it.split()[1]) for it in lines if it.startswith("left ")]
    lives = [int(it.split()[1]) for it in lines if it.startswith("life ")]
    with machine(boot_named(1)), deltat.State(folder, 1, PARAMS) as state:
        at = state.opens_at(now)
        until = at + QUIET if is_again(state) else now
        if left and until < max(left) + QUIET:
            return f"silent until {until}, and the last datagram left at {max(left)}"
        if at > now or left and not is_again(state) or state.life in lives:
            return f"opened at {at} as {is_again(state)}, life {state.life}"
    return ""


def traced(place: pathlib.Path, base: int, *options: str) -> int:
    """Runs the program under strace, with its folder and its log in a place. Its status."""
    environment = {**os.environ, "PYTHONHASHSEED": "0", "PYTHONDONTWRITEBYTECODE": "1"}
    words = [sys.executable, "-S", __file__, "child", str(place / "it"), str(place / "log"), str(base)]
    return subprocess.run(
        ["strace", "-qq", *options, *words], env=environment, stderr=subprocess.DEVNULL, timeout=60
    ).returncode


def killed_at(call: str, count: int, place: pathlib.Path, base: int) -> None:
    traced(
        place,
        base,
        "-f",
        "--seccomp-bpf",
        "-o",
        "/dev/null",
        "-e",
        f"trace={call}",
        f"--inject={call}:signal=KILL:when={count}",
    )


def killed_at_each_call() -> bool:
    if not shutil.which("strace"):
        print("killed: not tried, since there is no strace")
        return True
    wrong, tried = [], 0
    with tempfile.TemporaryDirectory() as top, concurrent.futures.ThreadPoolExecutor(4) as runners:
        kept = pathlib.Path(top) / "kept"
        for number, name in enumerate(("empty", "closed", "left by a kill")):
            # what was there before: nothing, a life that was closed in order, one that was killed as it wrote
            kept.mkdir(exist_ok=True)
            base = BASE + number * 5 * QUIET
            listed = shutil.copytree(kept, pathlib.Path(top) / f"listed-{number}")
            if traced(listed, base, "-o", str(listed / "listing")) != 0:
                print("killed: not tried, since strace can't trace here")
                return True
            calls = calls_of(listed / "listing")
            places = [shutil.copytree(kept, pathlib.Path(top) / f"{number}-{it}") for it in range(len(calls))]
            list(runners.map(lambda it: killed_at(*it[0], it[1], base), zip(calls, places)))
            for (call, count), place in zip(calls, places):
                why = what_is_answered(place / "it", place / "log", base + 3 * QUIET + 2)
                wrong += [f"{name}, {call} {count}: {why}"] * bool(why)
            tried += len(calls)
            if number == 0:
                shutil.rmtree(kept)
                kept = listed
            else:
                killed_at("pwrite64", 4, kept, base)
    print(f"killed: at {tried} calls" + "".join(f"\n  {it}" for it in wrong[:5]))
    return not wrong and tried > 100


# --- exchanged


class World:
    """Two nodes with a state folder each, links that repeat and delay within their charge, and one clock."""

    def __init__(self, seed: int, folder: pathlib.Path, kind: type[deltat.State]) -> None:
        self.chance, self.folder, self.kind = random.Random(seed), folder, kind
        self.now = 1_000
        self.nodes: dict[int, tuple[deltat.State, deltat.Node]] = {}
        self.opens = {1: 0, 2: 0}
        self.under_way: list[tuple[int, int, int, bytes]] = []
        self.count = 0
        self.open: collections.deque[int] = collections.deque()
        self.delivered: collections.Counter[int] = collections.Counter()
        self.settled: list[int] = []

    def start(self, number: int) -> None:
        state = self.kind(self.folder / str(number), number, PARAMS)
        self.nodes[number] = state, deltat.Node(number, PARAMS, [deltat.Link(1, CHARGE)], {3 - number: 1}, state=state)

    def stop(self, number: int) -> None:
        state, node = self.nodes.pop(number)
        if self.chance.random() < 0.5:
            killed(state)
        node.close()
        self.opens[number] = self.now + self.chance.choice((0, 1, 10, 30, 60, 100, 2 * QUIET))
        if number == 1:
            self.open.clear()

    def step(self) -> None:
        self.now += 1
        for number in (1, 2):
            if number not in self.nodes:
                if self.now >= self.opens[number]:
                    self.start(number)
            elif self.chance.random() < 0.01:
                self.stop(number)
        while self.under_way and self.under_way[0][0] <= self.now:
            _, _, to, octets = heapq.heappop(self.under_way)
            if to in self.nodes:
                self.nodes[to][1].receive(1, octets)
        for number, (_, node) in self.nodes.items():
            node.tick()
            if number == 1 and not self.open and self.chance.random() < 0.1:
                self.send(node)
            self.look(number, node)

    def send(self, node: deltat.Node) -> None:
        with contextlib.suppress(deltat.Full, deltat.Quiet):
            self.count += 1
            node.send(FLOW, self.count.to_bytes(8, "big"))
            self.open.append(self.count)

    def look(self, number: int, node: deltat.Node) -> None:
        for message in node.messages():
            self.delivered[int.from_bytes(message.octets, "big")] += 1
        for it in node.reports():
            if number == 1 and it.kind in (deltat.ReportKind.ACKNOWLEDGED, deltat.ReportKind.UNCERTAIN):
                for _ in range(it.count // 8):
                    done = self.open.popleft()
                    if it.kind is deltat.ReportKind.ACKNOWLEDGED:
                        self.settled.append(done)
        for frame in node.datagrams():
            for _ in range(self.chance.choice((0, 1, 1, 2, 3))):
                due = self.now + self.chance.randrange(CHARGE + 1)
                heapq.heappush(self.under_way, (due, self.chance.getrandbits(30), frame.to, frame.octets))

    @property
    def is_wrong(self) -> bool:
        return max(self.delivered.values(), default=0) > 1 or any(it not in self.delivered for it in self.settled)


class Hasty(deltat.State):
    """A state that asks for no silence."""

    def opens_at(self, now: int) -> int:
        super().opens_at(now)
        return 0


class Deaf(deltat.State):
    """A state that notes only a moment long ago of what leaves or comes."""

    def note_packet(self, now: int) -> None:
        super().note_packet(max(now - QUIET // 2, 0))


def worlds(kind: type[deltat.State], count: int) -> tuple[int, int, int]:
    """How many runs were wrong, and how many messages were delivered and acknowledged."""
    wrong = delivered = settled = 0
    kept = clock.now
    for seed in range(count):
        with tempfile.TemporaryDirectory(dir="/dev/shm" if os.path.isdir("/dev/shm") else None) as folder, machine(
            boot_named(1)
        ):
            it = World(seed, pathlib.Path(folder), kind)
            clock.now = lambda: it.now
            try:
                for _ in range(3000):
                    it.step()
                for number in list(it.nodes):
                    it.stop(number)
            finally:
                clock.now = kept
            wrong += it.is_wrong
            delivered, settled = delivered + len(it.delivered), settled + len(it.settled)
    return wrong, delivered, settled


def exchanged() -> bool:
    wrong, delivered, settled = worlds(deltat.State, 40)
    hasty, deaf = worlds(Hasty, 40)[0], worlds(Deaf, 40)[0]
    print(
        f"exchanged: {delivered} messages delivered, {settled} acknowledged, {wrong} runs wrong; without silence"
        f" {hasty}, noted too early {deaf}"
    )
    return wrong == 0 and delivered > 300 and settled > 200 and hasty > 0 and deaf > 0


# --- tools


def listener(
    one: str, two: str, heard: pathlib.Path, environment: dict[str, str], *delays: str
) -> "subprocess.Popen[bytes]":
    with heard.open("wb") as out:
        words = [sys.executable, CAT, two, one, "--listen", *delays]
        return subprocess.Popen(words, stdout=out, env=environment, stdin=subprocess.DEVNULL)


def loops(name: str, count: int, kills: bool, *delays: str) -> bool:
    """Starts one sender after another. On a busy machine a line may be told as uncertain; what is acknowledged is
    heard."""
    one, two = f"1@{HOST}:{free_port()}", f"2@{HOST}:{free_port()}"
    with tempfile.TemporaryDirectory() as folder:
        heard, environment = pathlib.Path(folder) / "heard", {**os.environ, "XDG_STATE_HOME": folder}
        listening = listener(one, two, heard, environment, *delays)
        until = time.monotonic() + 20
        while not is_up(int(two.split(":")[1])) and time.monotonic() < until:
            time.sleep(0.05)
        begun, statuses = time.monotonic(), []
        for it in range(count):
            words = [sys.executable, CAT, one, two, *delays] + ["--linger", "60"] * kills
            with subprocess.Popen(words, stdin=subprocess.PIPE, stderr=subprocess.DEVNULL, env=environment) as sender:
                sender.stdin.write(f"line{it}\n".encode())
                sender.stdin.close()
                if kills:
                    until = time.monotonic() + 6
                    while f"line{it}\n" not in heard.read_text() and time.monotonic() < until:
                        time.sleep(0.01)
                    time.sleep(0.1)
                    sender.kill()
                statuses.append(sender.wait(timeout=30))
        seconds = time.monotonic() - begun
        time.sleep(0.5)
        listening.kill()
        listening.wait()
        heard_of = [int(it.removeprefix("line")) for it in heard.read_text().split()]
    lost = [it for it, status in enumerate(statuses) if status == 0 and it not in heard_of]
    print(f"{name}: {len(heard_of)} of {count} were heard, in {seconds:.1f} s; acknowledged and not heard: {lost}")
    return heard_of == sorted(set(heard_of)) and not lost and len(heard_of) >= count * 3 // 4


def loop() -> bool:
    # (where the machine is so busy that a start takes half a second, only the second loop has to wait)
    return loops("loop", 20, False) and loops(
        "loop, by longer delays", 6, False, "--delay", "900", "--round-trip", "100"
    )


def stopped() -> bool:
    return loops("stopped", 12, True)


# --- fresh


def fresh() -> bool:
    table = re.findall(
        r"^\| ([\d,]+) \| ([\d,]+) \| ([^|]+) \|$", (TOP / "docs" / "premises.md").read_text(), re.MULTILINE
    )
    right = len(table) >= 3
    for numbers, openings, told in table:
        n, k = (int(it.replace(",", "")) for it in (numbers, openings))
        odds = k * n / ((1 << 32) - 65_536)
        shown = f"1 in {1 / odds:,.0f}" if odds < 0.5 else f"{odds:.1f}"
        if told.strip() != shown:
            print(f"fresh: docs/premises.md says {told} of {numbers} and {openings}, and it is {shown}")
            right = False
    drawn = {deltat.fresh_number() for _ in range(1000)}
    right &= len(drawn) == 1000 and min(drawn) >= 65_536 and max(drawn) < 1 << 32
    heard = []
    ports = free_port(), free_port()
    usual = deltat.Params(mpl=102, r=195, a=2, rto=39, probe=78, seg=1442, cap=65536, rcap=65536, window=65536)
    server = deltat.Node(2, usual, [deltat.Link(1, 74)], {}, start=deltat.Start.AGAIN)
    begun = time.monotonic()
    with deltat.Udp(server, (HOST, ports[1]), {1: (HOST, ports[0])}) as udp:
        udp.run_for(usual.quiet_ms / 1000)
        for it in range(20):
            number = deltat.fresh_number()
            node = deltat.Node(number, usual, [deltat.Link(1, 74)], {2: 1}, start=deltat.Start.FIRST)
            with deltat.Udp(node, (HOST, ports[0]), {2: (HOST, ports[1])}) as client:
                client.send(deltat.Flow(number, 10, 2, 20), b"%d" % it)
                until, is_settled = time.monotonic() + 2, False
                while not is_settled and time.monotonic() < until:
                    heard += [int(message.octets) for message in udp.poll(0.005)]
                    for report in server.reports():
                        if report.kind is deltat.ReportKind.NO_ROUTE:
                            with contextlib.suppress(deltat.InvalidArgument):
                                server.add_route(report.number, 1)
                    client.poll(0.005)
                    is_settled = any(report.kind is deltat.ReportKind.ACKNOWLEDGED for report in node.reports())
                right &= is_settled
    seconds = time.monotonic() - begun - usual.quiet_ms / 1000
    print(f"fresh: {len(heard)} of 20 were heard, in {seconds:.1f} s")
    return right and heard == list(range(20)) and seconds < 8


TESTS = {
    "answers": answers,
    "owners": owners,
    "model": model,
    "killed": killed_at_each_call,
    "exchanged": exchanged,
    "loop": loop,
    "stopped": stopped,
    "fresh": fresh,
}


def main() -> int:
    if sys.argv[1:2] == ["child"]:
        return child(sys.argv[2], sys.argv[3], int(sys.argv[4])) or 0
    failed = 0
    for name in sys.argv[1:] or TESTS:
        well = TESTS[name]()
        failed += not well
        print(f"{name}: {'ok' if well else 'FAILED'}", flush=True)
    return 1 if failed else 0


if __name__ == "__main__":
    sys.exit(main())
