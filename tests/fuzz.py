#!/usr/bin/env python3
"""Inputs that are changed by chance, for a number of seconds, outside the gate: schedules, scripts, traces, calls,
logs, frames, and datagrams that a real node hears, each drawn from those of conformance/ and examples/, and those that
were accepted on the way.

`tests/fuzz.py [PROGRAM] [--seconds S] [--seed N] [--kind KIND]..` tries all kinds in turn, for S seconds in all;
`--minutes M` tries one kind after another, each for M minutes, and tells of each how much it tried, with the seed. An
input fails where

- the program crashes, ends with a status that its word doesn't have, says another text with it than the page of
  formats does, takes more than 10 seconds of a processor, or writes something else when it is run again;
- a line that it writes isn't one of the formats, or stands where it may not (grammar.py);
- a log doesn't pass the audit, its totals aren't the sums of its lines, or its copies aren't counted from 0;
- a script is refused by `node` otherwise than by `retrace`. One that is accepted is run by `retrace` alone;
- a call is served twice, is answered by another payload or without having been served, or isn't in the counts;
- a verdict isn't that of the plain reading of the rule in audit.py;
- a frame is read otherwise than by the plain reader of conformance/frames.py;
- a node that is sent datagrams on loopback traces another one, or its trace isn't run again to its stop.

Before that each of these checks has to find fault with a program that is spoilt. Each input that fails is kept in
a folder, which is named at the end, with a file that says why; `--input FILE --kind KIND` tries one again. Ends
with 1 where one failed.

In tests/all: PROGRAM --seconds 30, 120 s."""
import argparse
import collections
import itertools
import os
import pathlib
import random
import re
import resource
import subprocess
import sys
import tempfile
import time
from typing import Callable, NamedTuple, Sequence

import audit
from grammar import Wrong, log_of_node, log_of_world, told_of_calls, verdict_of
from lib import HOST, PROGRAM, TOP, bound, is_up, own_port, script, start

sys.path[:0] = [str(TOP / "conformance")]
import asking  # noqa: E402
import frames  # noqa: E402
import run  # noqa: E402

# what stands on standard error with each status
TEXTS = {0: b"", 3: b"input refused\n", 5: b"wire failed\n", 6: b"clock stands still\n"}
STATUSES = {"replay": (0, 3), "retrace": (0, 3, 5, 6), "node": (3,), "trace": (3,), "calls": (0, 3), "audit": (0, 3)}
# seconds of a processor that a run may take, and those of the clock in which it has to end even where it waits; a
# machine that is busy gives a run at a low priority little of either, so the clock alone blames nobody for less
MOST_SECONDS, MOST_WALL = 10, 3_600
# how often a run that goes on is looked at, and how long a node may take to be up, in seconds of the clock
LOOK, MOST_START = 1, 300
MOST_SEED = 20_000
MOST_KEPT = 50
# the inputs of a kind that were accepted and are drawn from: what is above them takes another's place
MOST_POOL = 2_000
# octets of a flow above which the plain reading of the rule of an audit, which keeps each, isn't asked
MOST_TAKEN = 5_000
# the most lines that are left out of an input since they are refused
MOST_MENDED = 6
# the trace that a script is run by: all its commands are done at the second reading
READINGS = b"trace\n@ 0\n@ 4294967296\n"
NUMBERS = [
    0,
    1,
    2,
    3,
    9,
    64,
    65,
    99,
    255,
    256,
    1000,
    6200,
    65_535,
    65_536,
    65_537,
    86_400_000,
    2**31,
    2**32 - 1,
    2**32,
    2**62,
    2**64 - 1,
    2**64,
]


class Ran(NamedTuple):
    """A run of the program."""

    status: int
    out: bytes
    err: bytes


class Program:
    """The program that is tried."""

    def __init__(self, path: str) -> None:
        self.path = path

    def run(self, word: str, text: bytes) -> Ran:
        """A run. Raises `Wrong` where it takes too long."""
        # files, since a wait that is broken off and made again wouldn't go on with writing to a pipe
        with tempfile.TemporaryFile() as given, tempfile.TemporaryFile() as out, tempfile.TemporaryFile() as err:
            given.write(text)
            given.seek(0)
            child = subprocess.Popen([self.path, word], stdin=given, stdout=out, stderr=err)
            status = in_time(child, word)
            for it in (out, err):
                it.seek(0)
            return Ran(status, out.read(), err.read())

    def ask(self, word: str, text: bytes) -> Ran:
        """A run, and once more: `Wrong` where they differ, or the status isn't one of the word's."""
        first = self.run(word, text)
        if first.status < 0:
            raise Wrong(f"{word}: killed by signal {-first.status}")
        if first.status not in STATUSES[word] or first.err != TEXTS[first.status]:
            raise Wrong(f"{word}: status {first.status} and {first.err!r}")
        if self.run(word, text) != first:
            raise Wrong(f"{word}: another output when it is run again")
        return first


def in_time(child: "subprocess.Popen[bytes]", word: str) -> int:
    """Waits for the end of a run, and gives its status. Raises `Wrong` where it takes too long."""
    begun = time.monotonic()
    while True:
        try:
            return child.wait(LOOK)
        except subprocess.TimeoutExpired:
            seconds = processor_of(child.pid)
            if seconds <= MOST_SECONDS and time.monotonic() - begun <= MOST_WALL:
                continue
        child.kill()
        child.wait()
        raise Wrong(
            f"{word}: stopped after {seconds:.1f} s of a processor, and {time.monotonic() - begun:.0f} s of the clock"
        )


def processor_of(pid: int) -> float:
    """The seconds of a processor that a child took which wasn't waited for."""
    fields = pathlib.Path(f"/proc/{pid}/stat").read_text().rpartition(")")[2].split()
    return (int(fields[11]) + int(fields[12])) / os.sysconf("SC_CLK_TCK")


def processor() -> float:
    """The seconds of a processor that this process and all runs took."""
    both = [resource.getrusage(it) for it in (resource.RUSAGE_SELF, resource.RUSAGE_CHILDREN)]
    return sum(it.ru_utime + it.ru_stime for it in both)


# The checks of an input. Each tells whether it was accepted, and raises `Wrong` where something isn't as it should be.


def try_schedule(program: Program, text: bytes) -> bool:
    ran = program.ask("replay", text)
    told, totals = log_of_world(ran.out, ran.status == 0)
    copies = [int(it[6]) for it in told if it[2] == "put"]
    if copies != list(range(len(copies))):
        raise Wrong("copies that aren't counted from 0")
    sums = collections.defaultdict(collections.Counter)
    for it in told:
        if it[2] in ("took", "settled", "uncertain"):
            sums[it[3]][it[2]] += int(it[4])
        elif it[2] in ("accepted", "read"):
            sums[it[3]][it[2]] += int(it[5]) if it[2] == "accepted" else len(it[5]) // 2
    for flow, (taken, acked, uncertain, is_open, given, read) in totals.items():
        had = [sums[flow][it] for it in ("took", "settled", "uncertain", "accepted", "read")]
        # an octet of an earlier life of its sender is open, and is never settled
        if had != [taken, acked, uncertain, given, read] or taken != acked + uncertain + is_open:
            raise Wrong(f"totals of {flow} that aren't the sums of its lines: {had}")
    # a refused schedule has a log up to its fault
    if program.run("audit", ran.out) != Ran(0, b"audit yes\n", b""):
        raise Wrong("a log that doesn't pass the audit")
    return ran.status == 0


def try_trace(program: Program, text: bytes) -> bool:
    ran = program.ask("retrace", text)
    log_of_node(ran.out, ran.status)
    return ran.status != 3


def try_script(program: Program, text: bytes) -> bool:
    script = text if text.endswith(b"\n") else text + b"\n"
    if b"trace" in script.split(b"\n"):
        return False
    ran = program.ask("retrace", script + READINGS)
    log_of_node(ran.out, ran.status)
    if ran.status != 3:
        return True
    for word in ("node", "trace"):
        other = program.run(word, script)
        if other != ran:
            raise Wrong(
                f"{word} ends with {other.status} and {other.out[:100]!r} where retrace wrote {ran.out[:100]!r}"
            )
    return False


def try_calls(program: Program, text: bytes) -> bool:
    ran = program.ask("calls", text)
    told, counts = told_of_calls(ran.out, ran.status == 0)
    asked = [it.split(b" ")[2] for it in text.split(b"\n") if it.startswith(b"call ") and it.count(b" ") == 2]
    payloads, states, served = [], {}, set()
    for it in told:
        name, number = it[1], int(it[2])
        if name == "call":
            payloads.append(bytes.fromhex(asked[number].decode()))
            if number != len(payloads) - 1 or int(it[4]) != len(payloads[-1]):
                raise Wrong(f"call {number} isn't that of its line")
        elif name == "served":
            if number in served:
                raise Wrong(f"call {number} was served twice")
            served.add(number)
        elif number in states or number >= len(payloads):
            raise Wrong(f"call {number} has two states, or wasn't made")
        else:
            states[number] = name
            if name == "answered" and (number not in served or bytes.fromhex(it[3]) != payloads[number][::-1]):
                raise Wrong(f"call {number} is answered, and wasn't served so")
    names = list(states.values())
    mine = [
        len(payloads),
        len(served),
        *(names.count(it) for it in ("answered", "unsure", "declined")),
        len(payloads) - len(names),
    ]
    if counts and counts != mine:
        raise Wrong(f"counts {counts} where the lines have {mine}")
    return ran.status == 0


def try_log(program: Program, text: bytes) -> bool:
    ran = program.ask("audit", text)
    verdict = verdict_of(ran.out, ran.status == 0)
    lines = text.decode("latin-1").split("\n")
    if lines[-1] == "":
        lines.pop()
    taken = [int(it[1]) for it in re.finditer(r"(?m)took \S* ([0-9]{1,20})$", "\n".join(lines))]
    is_plain = sum(taken) <= MOST_TAKEN and not re.search("[0-9]{4000}", max(lines, key=len, default=""))
    right = audit.verdict(lines) if is_plain else verdict
    if verdict != right:
        raise Wrong(f"{verdict}, where the rule says {right}")
    return ran.status == 0


def try_frames(program: Program, text: bytes) -> bool:
    """An input is lines of hexadecimal digits, a frame each."""
    asked = [bytes.fromhex(it) for it in text.decode().split("\n")]
    # no script may read what a node hears from itself, and no more octets are taken in
    asked = [it[:8223] for it in asked if it[8:12] != it[12:16] or len(it) < 16]
    try:
        told = asking.lines_of(program.path, asked)
    except (RuntimeError, LookupError, ValueError) as why:
        raise Wrong(f"no answer to a frame: {why!r}") from why
    for frame, line in zip(asked, told):
        if line != frames.read(frame):
            raise Wrong(f"{frame.hex()}: {line}, where the plain reader has {frames.read(frame)}")
    return any(not it.startswith("bad") for it in told)


def sent(program: Program, datagrams: list[bytes]) -> tuple[bytes, bytes, int]:
    """The script, the trace and the status of a node that its peer sent datagrams on loopback."""
    with bound() as peer, tempfile.TemporaryFile() as out:
        port = own_port()
        text = script(2, 1, port, peer.getsockname()[1], ["at 900 stop"])
        node = start(program.path, text, "trace", out, subprocess.DEVNULL)
        # what is sent before it is up is lost
        until = time.monotonic() + MOST_START
        while not is_up(port) and node.poll() is None and time.monotonic() < until:
            time.sleep(0.01)
        for it in datagrams:
            peer.sendto(it, (HOST, port))
        status = in_time(node, "trace")
        out.seek(0)
        return text.encode(), out.read(), status


def try_datagrams(program: Program, text: bytes) -> bool:
    """An input is lines of hexadecimal digits, a datagram each."""
    datagrams = [bytes.fromhex(it) for it in text.decode().split("\n")]
    script_text, trace, status = sent(program, datagrams)
    if status != 0:
        raise Wrong(f"trace: status {status}")
    # no more octets are taken in, and the order is that of sending, since it is one socket to another
    left = iter(f"< 1 {it[:8223].hex()}".rstrip() for it in datagrams)
    heard = [it for it in trace.decode().splitlines() if it[0] == "<" and it != "< -"]
    if not all(it in left for it in heard):
        raise Wrong("a datagram in the trace that wasn't sent, or in another order")
    ran = program.ask("retrace", script_text + b"trace\n" + trace)
    log_of_node(ran.out, ran.status)
    if ran.status != 0:
        raise Wrong(f"retrace: status {ran.status} and {ran.out[-100:]!r}")
    return bool(heard)


class Kind(NamedTuple):
    """A kind of input: its word, how one is tried, those to begin with, and in which rounds: each so many."""

    word: str
    tried: Callable[[Program, bytes], bool]
    seeds: list[bytes]
    every: int = 1


def kinds() -> dict[str, Kind]:
    cases = run.cases()
    given = {kind: [it.given() for it in cases if it.kind == kind] for kind in run.KINDS}
    scripts = [it.partition(b"\ntrace\n")[0] + b"\n" for it in given["trace"]]
    logs = [it.right() for it in cases if it.kind in ("schedule", "trace")]
    octets = [it for text in given["frames"] for it in text.splitlines() if len(it) < 200]
    found = {
        "schedule": Kind("replay", try_schedule, [*given["schedule"], run.rounds(20), *examples("*.schedule")]),
        "trace": Kind("retrace", try_trace, given["trace"]),
        "script": Kind("retrace", try_script, [*scripts, *examples("*.script")]),
        "calls": Kind("calls", try_calls, given["calls"]),
        "log": Kind("audit", try_log, [*given["audit"], *logs]),
        "frames": Kind("", try_frames, octets),
        # a node that runs for a second
        "datagrams": Kind("retrace", try_datagrams, octets, every=25),
    }
    return {
        name: it._replace(seeds=sorted({seed for seed in it.seeds if len(seed) <= MOST_SEED}))
        for name, it in found.items()
    }


def examples(pattern: str) -> list[bytes]:
    return [it.read_bytes() for it in sorted((TOP / "examples").glob(pattern))]


def changed_octet(chance: random.Random, text: bytes) -> bytes:
    at = chance.randrange(len(text) + 1)
    return (
        text[:at]
        + bytes([chance.choice([chance.randrange(256), 0, 10, 32, 48, 255])])
        + text[at + chance.randrange(2) :]
    )


def cut(chance: random.Random, text: bytes) -> bytes:
    at = chance.randrange(len(text) + 1)
    return text[:at] + (b"" if chance.random() < 0.2 else text[at + chance.choice([1, 2, 8, 60]):])


def changed_lines(chance: random.Random, text: bytes, other: bytes) -> bytes:
    """One line is swapped, doubled, left out, or said many times, or some of another input come in."""
    lines, strange = text.split(b"\n"), other.split(b"\n")
    at, place = chance.randrange(len(lines)), chance.randrange(len(lines))
    kind = chance.randrange(5)
    if kind == 0:
        lines[at], lines[place] = lines[place], lines[at]
    elif kind == 1:
        lines.insert(at, lines[place])
    elif kind == 2:
        del lines[at]
    elif kind == 3:
        lines[at:at] = [lines[place]] * chance.choice([2, 3, 20, 70])
    else:
        begin = chance.randrange(len(strange))
        lines[at:at] = strange[begin:begin + chance.randrange(1, 12)]
    return b"\n".join(lines)


def changed_word(chance: random.Random, text: bytes, other: bytes) -> bytes:
    """A word is another number, another word of the inputs, or has another octet, if it is hexadecimal."""
    lines = text.split(b"\n")
    at = chance.randrange(len(lines))
    words, strange = lines[at].split(b" "), other.split()
    place = chance.randrange(len(words))
    kind = chance.randrange(4)
    if kind == 0:
        words[place] = str(chance.choice([*NUMBERS, chance.randrange(10_000)])).encode()
    elif kind == 1 and strange:
        words[place] = chance.choice(strange)
    elif kind == 2 and words[place].isdigit():
        words[place] = str(max(int(words[place][:20]) + chance.choice([-1, 1, 10, -10, 2**16, 2**32]), 0)).encode()
    else:
        digits = [it for it, word in enumerate(words) if re.fullmatch(rb"(?:[0-9a-f]{2})+", word)]
        if digits:
            place = digits[-1]
            words[place] = changed_frame(chance, bytes.fromhex(words[place].decode())).hex().encode()
    lines[at] = b" ".join(words)
    return b"\n".join(lines)


def changed_frame(chance: random.Random, octets: bytes) -> bytes:
    """One octet is another, octets are missing or too many, or the length is told anew."""
    kind, at = chance.randrange(6), chance.randrange(len(octets) + 1)
    if kind == 0:
        return octets[:at]
    if kind == 1:
        return octets + chance.randbytes(chance.choice([1, 5, 1024, 8192]))
    if kind == 2 and len(octets) >= 16:
        return octets[:2] + min(len(octets) - 16, 65_535).to_bytes(2, "big") + octets[4:]
    if kind == 3 and octets:
        at = chance.choice([0, 1, 16, 17, 26, 27, 28, 29]) % len(octets)
    return octets[:at] + bytes([chance.choice([0, 1, 2, 3, 4, 7, 8, 255, chance.randrange(256)])]) + octets[at + 1:]


def mutated(chance: random.Random, pool: list[bytes]) -> bytes:
    """An input of the pool with some changes."""
    text = chance.choice(pool)
    for _ in range(chance.choice([1, 1, 2, 3, 5, 9])):
        kind = chance.random()
        if kind < 0.15:
            text = changed_octet(chance, text)
        elif kind < 0.25:
            text = cut(chance, text)
        elif kind < 0.6:
            text = changed_lines(chance, text, chance.choice(pool))
        else:
            text = changed_word(chance, text, chance.choice(pool))
    return text


def mended(program: Program, word: str, text: bytes, behind: bytes) -> bytes:
    """An input without the lines that are refused, one after another: what is behind them is served then."""
    for _ in range(MOST_MENDED):
        try:
            out = program.run(word, text + behind).out
        except Wrong:
            # whoever tries it meets that again
            break
        refused = re.search(rb"(?:^|\n)line ([0-9]+): .*\n$", out)
        lines = text.split(b"\n")
        if not refused or int(refused[1]) > len(lines):
            break
        del lines[int(refused[1]) - 1]
        text = b"\n".join(lines)
    return text


def mutated_frames(chance: random.Random, pool: list[bytes]) -> bytes:
    """Some frames of the pool with changes. All of them go to one node, as far as they do: each node is a run."""
    lines = []
    for _ in range(100):
        frame = bytes.fromhex(chance.choice(pool).decode())
        for _ in range(chance.choice([1, 2, 3])):
            frame = changed_frame(chance, frame)
        lines.append((frame[:12] + b"\0\0\0\2" + frame[16:] if len(frame) >= 16 else frame).hex())
    return "\n".join(lines).encode()


class Spoilt(Program):
    """A program whose answers to one word are changed."""

    def __init__(self, path: str, word: str, spoil: Callable[[Ran], Ran]) -> None:
        super().__init__(path)
        self.word, self.spoil = word, spoil

    def run(self, word: str, text: bytes) -> Ran:
        ran = super().run(word, text)
        return self.spoil(ran) if word == self.word else ran


SPOILS: dict[str, Callable[[Ran], Ran]] = {
    "a status": lambda it: it._replace(status=it.status ^ 1),
    "a signal": lambda it: it._replace(status=-11),
    "no text": lambda it: it._replace(err=b"?"),
    "no end": lambda it: it._replace(out=it.out[:-1]),
    "no last line": lambda it: it._replace(out=b"".join(it.out.splitlines(keepends=True)[:-1])),
    "another line": lambda it: it._replace(out=b"0 hop\n" + it.out),
    "chance": lambda it: it._replace(out=it.out + b"%d\n" % time.monotonic_ns()),
}


def finds(program: Program, kind: Kind, text: bytes) -> bool:
    try:
        kind.tried(program, text)
    except Wrong:
        return True
    return False


def blind(path: str, all_kinds: dict[str, Kind]) -> list[str]:
    """The checks that find no fault with what is spoilt, or one with what isn't."""
    names = ("/short-exchange", "/node", "/calls-answered", "/audit-breaks-skip")
    texts = {it.kind: it.given() for it in run.cases() if it.name.endswith(names)}
    texts["log"] = texts.pop("audit")
    hello = asking.wire.packet(asking.wire.Flow(1, 10, 2, 20), 999, asking.wire.DATA, 0, 7, 0, b"hello").hex().encode()
    found = [f"{name}: {what}" for name, text in texts.items() for what, spoil in SPOILS.items()
             if not finds(Spoilt(path, all_kinds[name].word, spoil), all_kinds[name], text)]
    others = [
        ("schedule", "replay", texts["schedule"], lambda it: it._replace(out=it.out.replace(b"given 5", b"given 4"))),
        ("schedule", "replay", texts["schedule"], lambda it: it._replace(out=it.out.replace(b"as 1", b"as 2"))),
        ("schedule", "replay", texts["schedule"], lambda it: it._replace(out=it.out.replace(b"\n70 1", b"\n7 1"))),
        ("schedule", "audit", texts["schedule"], lambda it: it._replace(out=b"line 1: stray\n")),
        ("calls", "calls", texts["calls"], lambda it: it._replace(out=it.out.replace(b"030201", b"010203"))),
        (
            "calls",
            "calls",
            texts["calls"],
            lambda it: it._replace(out=it.out.replace(b"0 served 0\n", b"0 served 0\n0 served 0\n")),
        ),
        ("calls", "calls", texts["calls"], lambda it: it._replace(out=it.out.replace(b"waiting 0", b"waiting 1"))),
        ("log", "audit", texts["log"], lambda it: it._replace(out=it.out.replace(b"S3", b"S1"))),
        ("script", "node", b"hop\n", lambda it: it._replace(out=b"line 2: word\n")),
        ("datagrams", "retrace", hello, lambda it: it._replace(status=6, err=TEXTS[6], out=b"")),
    ]
    found += [f"{name}: change {at} of {word}" for at, (name, word, text, spoil) in enumerate(others)
              if not finds(Spoilt(path, word, spoil), all_kinds[name], text)]
    with tempfile.TemporaryDirectory() as folder:
        slow = pathlib.Path(folder) / "slow"
        slow.write_text(f'#!/bin/sh\nsleep {1.5 * LOOK}\nexec "{path}" "$@"\n')
        slow.chmod(0o755)
        found += (
            ["schedule: what waits for the clock alone is blamed"]
            if finds(Program(str(slow)), all_kinds["schedule"], texts["schedule"])
            else []
        )
    read = frames.read
    frames.read = lambda frame: read(frame).replace("dbe", "db")
    found += [] if finds(Program(path), all_kinds["frames"], hello) else ["frames: a reader that is spoilt"]
    frames.read = read
    return found


class Kept:
    """The inputs that failed, in a folder that is made for the first."""

    def __init__(self, folder: pathlib.Path | None) -> None:
        self.folder = folder
        self.count = 0
        self.most = MOST_KEPT

    def keep(self, path: str, name: str, text: bytes, why: str) -> None:
        if self.folder is None:
            self.folder = pathlib.Path(tempfile.mkdtemp(prefix="deltat-fuzz-"))
        self.folder.mkdir(parents=True, exist_ok=True)
        self.count += 1
        file = self.folder / f"{self.count:03}-{name}"
        file.with_suffix(".in").write_bytes(text)
        file.with_suffix(".why").write_text(
            f"{why}\n\ntests/fuzz.py {path} --kind {name} --input {file.with_suffix('.in')}\n"
        )
        print(f"{name}: {why[:300]}", flush=True)


def drawn(program: Program, name: str, kind: Kind, chance: random.Random) -> bytes:
    """An input of a kind."""
    if name in ("frames", "datagrams"):
        return mutated_frames(chance, kind.seeds)
    text = mutated(chance, kind.seeds)
    # a clock that stands still costs 100,000 turns
    if name == "trace" and chance.random() < 0.9:
        text = text.rstrip(b"\n") + b"\n@ 4294967296\n"
    # a log that is flawed has no line that is left out for that
    if name == "log" or chance.random() < 0.3:
        return text
    return mended(program, kind.word, text, READINGS if name == "script" else b"")


def fuzz(path: str, chosen: dict[str, Kind], seconds: float, seed: int, kept: Kept) -> collections.Counter[str]:
    """Tries inputs of all kinds in turn, and counts them; those that were accepted are drawn from too."""
    counts: collections.Counter[str] = collections.Counter()
    chances = {name: random.Random(f"{seed} {name}") for name in chosen}
    program, until = Program(path), time.monotonic() + seconds
    for turn in itertools.count():
        if time.monotonic() >= until or kept.count >= kept.most:
            return counts
        for name, kind in chosen.items():
            if turn % kind.every and len(chosen) > 1:
                continue
            text = drawn(program, name, kind, chances[name])
            counts[name] += 1
            try:
                is_accepted = kind.tried(program, text)
            except (Wrong, LookupError, ValueError) as why:
                # an output at which a check stumbles is none of the formats
                kept.keep(path, name, text, str(why) if isinstance(why, Wrong) else repr(why))
                continue
            if is_accepted:
                counts[f"{name} accepted"] += 1
                if len(text) <= MOST_SEED and name not in ("frames", "datagrams"):
                    grow(kind.seeds, text, chances[name])


def grow(pool: list[bytes], text: bytes, chance: random.Random) -> None:
    """An input more to draw from; in place of another one where there are many, so that hours don't take more
    memory."""
    if len(pool) < MOST_POOL:
        pool.append(text)
    else:
        pool[chance.randrange(len(pool))] = text


def told_of(names: Sequence[str], counts: collections.Counter[str], seed: int) -> str:
    return (
        ", ".join(f"{counts[name]} {name} ({counts[f'{name} accepted']} accepted)" for name in names) + f"; seed {seed}"
    )


def fuzz_each(path: str, chosen: dict[str, Kind], seconds: float, seed: int, kept: Kept) -> collections.Counter[str]:
    """Tries one kind after another, each for so many seconds, and says of each what was tried."""
    counts: collections.Counter[str] = collections.Counter()
    for name, kind in chosen.items():
        failed, begun, before = kept.count, time.monotonic(), processor()
        # a kind whose inputs fail leaves room for those of the next
        kept.most = kept.count + MOST_KEPT
        of_kind = fuzz(path, {name: kind}, seconds, seed, kept)
        counts += of_kind
        print(f"{told_of([name], of_kind, seed)}: {kept.count - failed} fail, in {time.monotonic() - begun:.0f} s, "
              f"{processor() - before:.0f} s of processor", flush=True)
    return counts


def positive(word: str) -> float:
    try:
        value = float(word)
    except ValueError:
        value = 0.0
    if not 0 < value <= 100_000:
        raise argparse.ArgumentTypeError(f"{word} isn't a number above 0, and 100,000 at most")
    return value


def main() -> int:
    reads = argparse.ArgumentParser(description=__doc__, formatter_class=argparse.RawDescriptionHelpFormatter)
    reads.add_argument("program", nargs="?", default=str(PROGRAM), help="the program (%(default)s)")
    reads.add_argument("--seconds", type=positive, default=60, help="for how long (%(default)s)")
    reads.add_argument("--minutes", type=positive, metavar="M", help="one kind after another, each for so long")
    reads.add_argument("--seed", type=int, default=1, help="what the changes are drawn from (%(default)s)")
    all_kinds = kinds()
    reads.add_argument(
        "--kind", action="append", choices=list(all_kinds), help="inputs of this kind alone; may be given again"
    )
    reads.add_argument(
        "--keep", type=pathlib.Path, metavar="FOLDER", help="keep those that fail there (a new folder below /tmp)"
    )
    reads.add_argument("--input", type=pathlib.Path, metavar="FILE", help="try this input alone, of the one --kind")
    given = reads.parse_args()
    path = str(pathlib.Path(given.program).resolve())
    chosen = {name: all_kinds[name] for name in given.kind or all_kinds}
    if given.input:
        if len(chosen) != 1:
            reads.error("--input wants one --kind")
        try:
            is_accepted = next(iter(chosen.values())).tried(Program(path), given.input.read_bytes())
        except Wrong as why:
            print(why)
            return 1
        print("holds, and is accepted" if is_accepted else "holds, and is refused")
        return 0
    unseen = blind(path, all_kinds)
    if unseen:
        print("\n".join(f"no fault found with what is spoilt, or one with what isn't: {it}" for it in unseen))
        return 1
    kept = Kept(given.keep)
    if given.minutes:
        counts = fuzz_each(path, chosen, given.minutes * 60, given.seed, kept)
    else:
        counts = fuzz(path, chosen, given.seconds, given.seed, kept)
        print(told_of(list(chosen), counts, given.seed))
    tried = sum(counts[name] for name in chosen)
    print(f"{kept.count} of {tried} inputs fail: they are in {kept.folder}" if kept.count else f"{tried} inputs hold")
    return 1 if kept.count or not tried else 0


if __name__ == "__main__":
    sys.exit(main())
