#!/usr/bin/env python3
"""examples/serial.c on two pseudo terminals, between which stands a line that flips octets and loses some.
`tests/serial.py`; ends with 77 where `make -C lib` hasn't made the library or there is no compiler, and with 1 where
one of these fails:

- stuffing: a clean line brings each line once and whole, with octets of all values and of all lengths about those at
  which the stuffing counts anew.
- noise: of 1,000 octets one is another, some are left out and some stand twice. Each end sends 100 lines. What comes
  are lines that were sent, whole, in their order, none twice; each that doesn't come is told as uncertain; frames came
  spoilt.
- restart: one end is killed and started `again` in between: no line comes twice to the other.

In tests/all: no words, 180 s."""
import os
import pathlib
import pty
import random
import select
import shutil
import signal
import subprocess
import sys
import tempfile
import threading
import time
import tty

from lib import TOP, skip

LIBRARY = TOP / "lib" / "libdeltat.a"
# how long a node that starts again is silent, in seconds: 3 mpl + r + a of the example
QUIET = 3 * 1.0 + 7.0 + 0.05


class Line:
    """Two pseudo terminals, and what passes between them: each octet by the rule."""

    def __init__(self, rule) -> None:
        self.rule, self.over = rule, threading.Event()
        pairs = [pty.openpty(), pty.openpty()]
        self.masters = [master for master, _ in pairs]
        self.slaves = [slave for _, slave in pairs]
        for it in self.slaves:
            tty.setraw(it)
        self.names = [os.ttyname(slave) for slave in self.slaves]
        self.thread = threading.Thread(target=self.run)

    def run(self) -> None:
        while not self.over.is_set():
            for it in select.select(self.masters, [], [], 0.02)[0]:
                octets = os.read(it, 4096)
                os.write(self.masters[1 - self.masters.index(it)], b"".join(self.rule(octet) for octet in octets))

    def __enter__(self) -> "Line":
        self.thread.start()
        return self

    def __exit__(self, *_: object) -> None:
        self.over.set()
        self.thread.join()
        for it in (*self.masters, *self.slaves):
            os.close(it)


class Noise:
    """Of 1,000 octets one is another, and of 10,000 one is left out and one stands twice."""

    def __init__(self, seed: int) -> None:
        self.chance = random.Random(seed)

    def __call__(self, octet: int) -> bytes:
        what = self.chance.random()
        if what < 0.001:
            return bytes([octet ^ 1 << self.chance.randrange(8)])
        return b"" if what < 0.0011 else bytes([octet] * (2 if what < 0.0012 else 1))


class End:
    """A node on its terminal, and what it wrote."""

    def __init__(self, program: str, line: Line, number: int, *more: str) -> None:
        words = [program, line.names[number - 1], str(number), str(3 - number), *more]
        self.out = tempfile.TemporaryFile()
        self.it = subprocess.Popen(words, stdin=subprocess.PIPE, stdout=self.out, stderr=subprocess.PIPE)

    def give(self, lines: list[bytes]) -> None:
        self.it.stdin.write(b"".join(line + b"\n" for line in lines))
        self.it.stdin.flush()

    def wait_for(self, count: int, seconds: float) -> None:
        """Waits until so many lines came, or so long."""
        until = time.monotonic() + seconds
        while time.monotonic() < until and len(self.came()) < count:
            time.sleep(0.05)

    def came(self) -> list[bytes]:
        return os.pread(self.out.fileno(), 1 << 24, 0).split(b"\n")[:-1]

    def ended(self, how: int = signal.SIGINT) -> tuple[int, int]:
        """Ends it. How many frames came spoilt to it, and how many octets are uncertain."""
        self.it.send_signal(how)
        self.it.stdin.close()
        self.it.wait(10)
        said = self.it.stderr.read().split()
        return (int(said[0]), int(said[3])) if said else (0, 0)


def stuffing(program: str) -> bool:
    chance = random.Random(3)
    sent = [
        bytes(chance.choice([value for value in range(256) if value != 10]) for _ in range(length))
        for length in (1, 2, 92, 93, 94, 95, 96, 97, 120, 127, 128, 129, 252, 253, 254, 255, 256, 257, 600)
    ]
    sent += [bytes([0]) * length for length in (1, 200, 256, 300)] + [bytes(range(11, 256))]
    with Line(lambda octet: bytes([octet])) as line:
        one, two = End(program, line, 1), End(program, line, 2)
        one.give(sent)
        two.wait_for(len(sent), 30)
        spoilt = [one.ended(), two.ended()]
        came = two.came()
    print(f"stuffing: {len(came)} of {len(sent)} lines, {spoilt[0][0] + spoilt[1][0]} frames spoilt")
    return came == sent and spoilt == [(0, 0), (0, 0)]


def is_order(came: list[bytes], sent: list[bytes]) -> bool:
    """Whether what came was sent, in that order, nothing twice."""
    places = [sent.index(it) if it in sent else -1 for it in came]
    return -1 not in places and places == sorted(set(places))


def noise(program: str) -> bool:
    sent = {number: [b"%d: line %d %s" % (number, it, b"x" * (it * 7 % 90)) for it in range(100)] for number in (1, 2)}
    with Line(Noise(5)) as line:
        ends = {number: End(program, line, number) for number in (1, 2)}
        for number, end in ends.items():
            end.give(sent[number])
        for number, end in ends.items():
            end.wait_for(100, 50)
        time.sleep(1)
        told = {number: end.ended() for number, end in ends.items()}
        came = {number: end.came() for number, end in ends.items()}
    right = True
    for number, other in ((1, 2), (2, 1)):
        missing = sum(len(it) for it in sent[other] if it not in came[number])
        print(
            f"noise: node {number} got {len(came[number])} of 100 lines, {told[number][0]} frames spoilt;"
            f" {missing} octets missing, {told[other][1]} told as uncertain"
        )
        right = (
            right
            and is_order(came[number], sent[other])
            and missing <= told[other][1]
            and told[number][0] > 0
            and len(came[number]) > 80
        )
    return right


def restart(program: str) -> bool:
    sent = [b"line %d" % it for it in range(120)]
    with Line(Noise(8)) as line:
        one, two = End(program, line, 1), End(program, line, 2)
        one.give(sent[:60])
        two.wait_for(20, 20)
        two.ended(signal.SIGKILL)
        before = two.came()
        two = End(program, line, 2, "again")
        time.sleep(QUIET)
        one.give(sent[60:])
        two.wait_for(60, 30)
        time.sleep(1)
        one.ended()
        two.ended()
        after = two.came()
    print(f"restart: {len(before)} lines came before, {len(after)} behind it")
    return is_order(before + after, sent) and len(before) >= 20 and len(after) >= 30


def main() -> int:
    compiler = next((it for it in ("gcc", "clang") if shutil.which(it)), None)
    if compiler is None or not LIBRARY.exists():
        skip("there is no compiler of C" if compiler is None else f"{LIBRARY} isn't there: make -C lib")
    failed = 0
    with tempfile.TemporaryDirectory() as folder:
        program = str(pathlib.Path(folder) / "serial")
        words = [
            compiler,
            "-std=gnu11",
            "-O2",
            "-Wall",
            "-Wextra",
            "-Werror",
            "-I",
            str(TOP / "include"),
            str(TOP / "examples" / "serial.c"),
        ]
        subprocess.run([*words, str(LIBRARY), "-o", program], check=True)
        for test in (stuffing, noise, restart):
            well = test(program)
            failed += not well
            print(f"{test.__name__}: {'ok' if well else 'FAILED'}", flush=True)
    return 1 if failed else 0


if __name__ == "__main__":
    sys.exit(main())
