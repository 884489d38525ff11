#!/usr/bin/env python3
"""The launcher `./deltat` and `./build` in a small repository of their own, with a toolchain that only pretends,
so all of this takes seconds. `tests/launcher.py [TEST ..]`. Ends with 1 where a test fails. What `./build` does is
tried as it proves from nothing, by the pretended `rattle`, and as `--kept` keeps proofs, by the pretended `rt`.

Both note when they begin and end with which crate, make a library of the sources' sum, and link a program that prints
its words. `rt` refuses a crate over libraries that aren't those of the sources below; what `rattle` was given stands in
what it makes.

In tests/all: no words, 240 s."""
import json
import os
import pathlib
import re
import shutil
import signal
import subprocess
import sys
import tempfile
import time

from lib import TOP

# apex stands on a short and a long chain; side is needed by nothing
CRATES = """# a small repository
low:
short: low
long_one: low
long_two: long_one
apex: short long_two
deltat: apex
side: low
"""
SECONDS = "# seconds\nlow 1\nshort 1\nlong_one 5\nlong_two 5\napex 1\ndeltat 1\n"

RT = r"""#!{python}
import hashlib, json, os, pathlib, stat, sys, time

here, log = pathlib.Path.cwd(), pathlib.Path({log!r})
name = here.name

def note(*what):
    with open(log, "a") as it:
        it.write(json.dumps([time.monotonic(), *what]) + "\n")

def text(crate):
    return "".join(it.read_text() for it in sorted((here.parent / crate).glob("src/*.rt")))

def below(crate):
    for line in (here.parent.parent / "crates.txt").read_text().splitlines():
        if line.startswith(crate + ":"):
            return line.partition(":")[2].split()
    sys.exit(f"no line of {{crate}}")

def made(crate):
    return hashlib.sha256((text(crate) + "".join(made(it) for it in below(crate))).encode()).hexdigest()

word = sys.argv[1]
if word == "version":
    print(os.environ.get("PRETENDED_VERSION", "a kit that pretends"))
    sys.exit()
if word == "doc":
    print({page!r})
    sys.exit()
note("begins", word, name, *sys.argv[2:])
if word == "try":
    given = sys.stdin.buffer.read()
    note("given", given.decode(), stat.S_ISREG(os.fstat(0).st_mode))
    how = os.environ.get("PRETENDED_TRY", "ended")
    if how == "ended":
        print("log of", *sys.argv[sys.argv.index("--") + 1:])
        print("input refused\nchecked: ended status=3\nrun=ended status=3 runners=1 proved=no", file=sys.stderr)
        sys.exit(3)
    print(how, file=sys.stderr)
    sys.exit(6)
time.sleep(float(os.environ.get("PRETENDED_SECONDS", "0.1")))
for it in below(name):
    if (here.parent / it / "out" / "rlib" / "made").read_text() != made(it):
        sys.exit(f"the library {{it}} is another")
print("\n".join(f"line {{i}}" for i in range(30)))
if "broken" in text(name):
    print("not proved")
    sys.exit(1)
(here / "out" / "rlib").mkdir(parents=True, exist_ok=True)
if word == "lib":
    (here / "out" / "rlib" / "made").unlink(missing_ok=True)
    (here / "out" / "rlib" / "made").write_text(made(name))
if word == "run":
    program = here / "out" / "deltat"
    program.unlink(missing_ok=True)
    program.write_text('#!/bin/sh\necho "program $*"\nexit 4\n')
    program.chmod(0o755)
note("ends", word, name)
"""

RATTLE = r"""#!{python}
import hashlib, json, os, pathlib, sys, time

def note(*what):
    with open({log!r}, "a") as it:
        it.write(json.dumps([time.monotonic(), *what]) + "\n")

words = sys.argv[1:]
after = lambda flag: [words[i + 1] for i, it in enumerate(words) if it == flag]
made = pathlib.Path(after("-o")[0])
if words[0] != "build":
    made.write_text('#!/bin/sh\necho "program $*"\nexit 4\n')
    made.chmod(0o755)
    sys.exit()
name = after("--crate-name")[0]
note("begins", "rattle", name, "--jobs", *after("--jobs"))
time.sleep(float(os.environ.get("PRETENDED_SECONDS", "0.1")))
if os.environ.get("PRETENDED_KILL") and after("--jobs") != ["1"]:
    os.kill(os.getpid(), 9)
text = "".join(it.read_text() for it in sorted(pathlib.Path("src").glob("*.rt")))
print("\n".join(f"line {{i}}" for i in range(30)))
if "broken" in text:
    print("not proved")
    sys.exit(1)
below = [pathlib.Path(it.partition("=")[2]) for it in after("--extern") if not it.startswith("std=")]
sum = hashlib.sha256((text + "".join((it / "made").read_text() for it in below)).encode()).hexdigest()
if "--statements" in words:
    made.mkdir(exist_ok=True)
    (made / "made").unlink(missing_ok=True)
    made /= "made"
made.write_text(sum)
note("ends", "rattle", name)
"""


class Place:
    """The small repository, with the pretended toolchain before all else on PATH."""

    def __init__(self, folder: pathlib.Path, *more: str) -> None:
        self.top, self.log, self.build = folder / "repository", folder / "log", ["./build", *more]
        self.is_kept = "--kept" in more
        for name in re.findall(r"(?m)^(\w+):", CRATES):
            source = self.top / "crates" / name / "src" / ("main.rt" if name == "deltat" else "lib.rt")
            source.parent.mkdir(parents=True)
            source.write_text(f"// {name}\n")
        (self.top / "crates.txt").write_text(CRATES)
        (self.top / "crates" / "seconds.txt").write_text(SECONDS)
        for name in ("deltat", "build"):
            shutil.copy2(TOP / name, self.top / name)
        bin_folder = folder / "bin"
        bin_folder.mkdir()
        said = {"python": sys.executable, "log": str(self.log), "page": str(folder / "page")}
        for name, text in (("rt", RT), ("rattle", RATTLE), ("rattle-link", RATTLE)):
            (bin_folder / name).write_text(text.format(**said))
            (bin_folder / name).chmod(0o755)
        self.env = {**os.environ, "PATH": f"{bin_folder}:{os.environ['PATH']}", "TMPDIR": str(folder)}
        self.program = self.top / "crates" / "deltat" / "out" / "deltat"

    def run(self, *words: str, given: str = "", **env: str) -> "subprocess.CompletedProcess[str]":
        words = (*self.build, *words[1:]) if words[0] == "./build" else words
        return subprocess.run(
            words,
            cwd=self.top,
            input=given,
            capture_output=True,
            text=True,
            env={**self.env, **env},
            check=False,
            timeout=60,
        )

    def noted(self) -> list[list]:
        """What rt noted since this was last asked."""
        notes = [json.loads(it) for it in self.log.read_text().splitlines()] if self.log.exists() else []
        self.log.unlink(missing_ok=True)
        return [it[1:] for it in sorted(notes)]

    def built(self) -> list[str]:
        """The crates that rt began with, in that order."""
        return [it[2] for it in self.noted() if it[0] == "begins"]

    def change(self, name: str, text: str) -> None:
        next((self.top / "crates" / name / "src").glob("*.rt")).write_text(text)

    def library(self, name: str) -> pathlib.Path:
        """What is made of a library for those above it."""
        return (
            self.top / "crates" / name / "out" / "rlib"
            if self.is_kept
            else self.top / "out" / ".libraries" / f"{name}.rlib"
        )

    def rooms(self) -> list[pathlib.Path]:
        """What is left of rooms and of the launcher's temporary folders."""
        return [it for it in self.top.parent.iterdir() if it.name not in ("repository", "log", "bin")]


USAGE = (
    next(re.finditer(r'b"(usage: [^"]*)\\n"', (TOP / "crates" / "dt_top" / "src" / "ending.rt").read_text()))[1] + "\n"
)


def faulty_words(place: Place) -> bool:
    """They are answered as by the program, and nothing is run."""
    faulty = [
        [],
        ["hop"],
        ["--help"],
        ["make"],
        ["make", "0"],
        ["make", "01"],
        ["make", "50001"],
        ["make", "1", "1"],
        ["make 1"],
        ["replay", "5"],
        ["replay", ""],
        ["--", "--", "replay"],
    ]
    answers = [place.run("./deltat", *it) for it in faulty]
    return all((it.returncode, it.stdout, it.stderr) == (2, "", USAGE) for it in answers) and not place.noted()


def unproved_run(place: Place) -> bool:
    """Outputs and status are the program's own, but for one line; the input is a file when rt reads it."""
    ran = place.run("./deltat", "--", "replay", given="a schedule\n")
    notes = place.noted()
    first, rest = ran.stderr.split("\n", 1)
    says = first.startswith("deltat: ") and "unproved" in first and "./build" in first
    right = notes == [["begins", "try", "deltat", "--seconds", "600", "--", "replay"], ["given", "a schedule\n", True]]
    made = place.run("./deltat", "make", "50000", given="this isn't read")
    return (
        says
        and right
        and (ran.returncode, ran.stdout, rest) == (3, "log of replay\n", "input refused\n")
        and made.stdout == "log of make 50000\n"
        and place.noted()[1] == ["given", "", True]
        and not place.rooms()
    )


def no_answer(place: Place) -> bool:
    """Status 70 where the run passes a limit of rt, where the sources are refused, where rt isn't there."""
    cases = [("run=no-answer proved=no", "1 MiB"), ("error: no such thing\nrun=none proved=no", "error: no such thing")]
    answers = [(place.run("./deltat", "audit", PRETENDED_TRY=how), word) for how, word in cases]
    tools = place.top.parent / "tools"
    tools.mkdir()
    for name in ("bash", "dirname", "env", "find"):
        (tools / name).symlink_to(shutil.which(name))
    answers.append((place.run("./deltat", "replay", PATH=str(tools)), "no rt on PATH"))
    shutil.rmtree(tools)
    return (
        all(it.returncode == 70 and it.stdout == "" and word in it.stderr for it, word in answers) and not place.rooms()
    )


def installed(place: Place) -> bool:
    """Without rt an installed program is run, with the words as they are; but not this launcher, by whatever name."""
    tools = place.top.parent / "tools"
    tools.mkdir()
    for name in ("bash", "dirname", "env", "find"):
        (tools / name).symlink_to(shutil.which(name))
    other, answers = tools / "deltat", []
    for text in (
        '#!/usr/bin/env bash\necho "installed $*"\nexit 5\n',
        f'#!/usr/bin/env bash\nexec {place.top}/deltat "$@"\n',
    ):
        other.write_text(text)
        other.chmod(0o755)
        answers.append(place.run("./deltat", "--", "replay", PATH=str(tools)))
    other.unlink()
    other.symlink_to(place.top / "deltat")
    answers.append(place.run("./deltat", "replay", PATH=str(tools)))
    shutil.rmtree(tools)
    first, *others = answers
    says = first.stderr.startswith("deltat: ") and str(other) in first.stderr and "installed" in first.stderr
    return (
        says
        and (first.returncode, first.stdout) == (5, "installed -- replay\n")
        and all((it.returncode, it.stdout) == (70, "") for it in others)
        and not place.noted()
        and not place.rooms()
    )


def failing_streams(place: Place) -> bool:
    """No input is 7, and no room for the output 8, as of the program."""
    lines = [
        ("replay < /", 7, "read failed\n"),
        ("replay <&-", 7, "read failed\n"),
        ("replay < crates.txt > /dev/full", 8, "write failed\n"),
    ]
    for line, status, text in lines:
        ran = place.run("bash", "-c", f"exec ./deltat {line}")
        if ran.returncode != status or not ran.stderr.endswith(text):
            print(f"{line}: {ran.returncode}, {ran.stderr}")
            return False
    return True


def order(place: Place) -> bool:
    """With one processor that with the most work behind it comes first, and nothing stands beside another."""
    ran = place.run("./build", "--jobs", "1")
    notes = place.noted()
    begun = [it[2] for it in notes if it[0] == "begins"]
    words = {tuple(it[3:]) for it in notes if it[:2] in (["begins", "lib"], ["begins", "rattle"])}
    return ran.returncode == 0 and [it[0] for it in notes] == ["begins", "ends"] * 6 and words == {("--jobs", "1")} \
        and begun == ["low", "long_one", "long_two", "short", "apex", "deltat"] and "6 of 6: deltat" in ran.stdout


def side_by_side(place: Place) -> bool:
    """With two processors two crates are at work; then the program is used, and nothing is built again."""
    ran = place.run("./build", "--jobs", "2", PRETENDED_SECONDS="0.5")
    notes = place.noted()
    at = {(it[0], it[2]): number for number, it in enumerate(notes)}
    beside = at["begins", "short"] < at["ends", "long_one"] and at["begins", "long_one"] < at["ends", "short"]
    below_first = all(
        at["ends", below] < at["begins", name]
        for name, below in (("short", "low"), ("long_two", "long_one"), ("apex", "short"), ("deltat", "apex"))
    )
    used = place.run("./deltat", "replay", "--", "x")
    again = place.run("./build")
    return (
        ran.returncode == 0
        and beside
        and below_first
        and (used.returncode, used.stdout, used.stderr) == (4, "program replay -- x\n", "")
        and again.returncode == 0
        and not place.built()
        and not place.rooms()
    )


def changed(place: Place) -> bool:
    """Only what a change reaches is built again, and a library that somebody made anew since, where something is to be
    built over it or proofs are kept; what is touched alone isn't, and neither is what nothing needs."""
    place.run("./build")
    place.noted()
    place.change("short", "// short, changed\n")
    tried = place.run("./deltat", "replay")
    place.noted()
    first = place.run("./build").returncode == 0 and place.built() == ["short", "apex", "deltat"]
    place.change("long_one", "// long_one\n")
    os.utime(place.top / "crates" / "long_one" / "src" / "lib.rt")
    touched = place.run("./deltat", "replay")
    place.noted()
    second = (
        place.run("./build").returncode == 0
        and not place.built()
        and place.run("./deltat", "replay").stdout == "program replay\n"
    )
    (place.library("low") / "made").write_text("of other sources")
    (place.library("low") / "more").touch()
    remade = place.run("./build").returncode == 0 and place.built() == (["low"] if place.is_kept else [])
    place.change("side", "// side, changed\n")
    remade = (
        remade
        and place.run("./build", "--only", "side").returncode == 0
        and place.built() == (["side"] if place.is_kept else ["low", "side"])
    )
    other_kit = place.run("./build", PRETENDED_VERSION="another kit").returncode == 0 and len(place.built()) == 6
    return first and second and remade and other_kit and "unproved" in tried.stderr and "unproved" in touched.stderr


def failure(place: Place) -> bool:
    """A crate that isn't proved ends the build with 70 and its last 20 lines; what was done isn't done again."""
    place.change("long_two", "// broken\n")
    ran = place.run("./build", "--jobs", "1")
    lines = "".join(f"line {i}\n" for i in range(11, 30)) + "not proved\n"
    failed = (
        ran.returncode == 70
        and ran.stderr.endswith(f"long_two failed; the end of what it said:\n{lines}")
        and not place.program.exists()
    )
    place.noted()
    place.change("long_two", "// mended\n")
    mended = place.run("./build", "--jobs", "1")
    return (
        failed
        and mended.returncode == 0
        and place.built()[0] == "long_two"
        and "low" not in place.built()
        and not place.rooms()
    )


def wait_for(holds) -> None:
    until = time.monotonic() + 20
    while not holds() and time.monotonic() < until:
        time.sleep(0.1)


def seconds(place: Place) -> bool:
    """--seconds writes what was measured below the head of the file, and builds nothing."""
    place.run("./build", "--only", "long_one")
    place.noted()
    ran = place.run("./build", "--seconds")
    head, *lines = (place.top / "crates" / "seconds.txt").read_text().splitlines()
    told = {name: int(number) for name, number in map(str.split, lines)}
    return (
        ran.returncode == 0
        and not place.noted()
        and head == "# seconds"
        and list(told) == ["low", "short", "long_one", "long_two", "apex", "deltat"]
        and told["long_one"] < 5
        and told["long_two"] == 5
    )


def killed(place: Place) -> bool:
    """After a build that was killed the next one proves what is missing, and removes its rooms."""
    build = subprocess.Popen(
        place.build,
        cwd=place.top,
        env={**place.env, "PRETENDED_SECONDS": "1"},
        stdout=subprocess.DEVNULL,
        stderr=subprocess.DEVNULL,
    )
    wait_for(place.log.exists)
    build.kill()
    build.wait()
    left = len(place.rooms())
    wait_for(
        lambda: not subprocess.run(["pgrep", "-f", str(place.top.parent)], capture_output=True, check=False).stdout
    )
    place.noted()
    return left == 1 and place.run("./build").returncode == 0 and len(place.built()) == 6 and not place.rooms()


def interrupt(place: Place) -> bool:
    """An interrupted build ends at once and leaves no process; the next one goes on."""
    place.run("./build", "--only", "long_one")
    for number in (signal.SIGINT, signal.SIGTERM):
        build = subprocess.Popen(
            place.build,
            cwd=place.top,
            env={**place.env, "PRETENDED_SECONDS": "60"},
            stdout=subprocess.DEVNULL,
            stderr=subprocess.DEVNULL,
        )
        place.noted()
        wait_for(place.log.exists)
        build.send_signal(number)
        begun = time.monotonic()
        status = build.wait(timeout=20)
        left = subprocess.run(["pgrep", "-f", str(place.top.parent)], capture_output=True, check=False).stdout
        if status != 128 + number or time.monotonic() - begun > 5 or left or place.rooms():
            print(f"{signal.Signals(number).name}: status {status}, left {left} {place.rooms()}")
            return False
    place.noted()
    ran = place.run("./build")
    return ran.returncode == 0 and sorted(place.built()) == ["apex", "deltat", "long_two", "short"]


def live_output(place: Place) -> bool:
    """node and trace have the program built first, and nothing of that is on standard output."""
    ran = place.run("./deltat", "node", given="a script\n")
    failed = place.run("./deltat", "hop").returncode
    place.change("apex", "// broken\n")
    broken = place.run("./deltat", "trace")
    return (
        (ran.returncode, ran.stdout) == (4, "program node\n")
        and "6 of 6" in ran.stderr
        and failed == 4
        and (broken.returncode, broken.stdout) == (70, "")
        and "not proved" in broken.stderr
    )


def only(place: Place) -> bool:
    """--only builds what is named and what is below; a crate that isn't there is a wrong word."""
    ran = place.run("./build", "--only", "short", "side")
    built = place.built()
    return (
        ran.returncode == 0
        and built[0] == "low"
        and sorted(built) == ["low", "short", "side"]
        and not place.program.exists()
        and place.run("./build", "--only", "nothing").returncode == 2
        and place.run("./build", "--jobs", "0").returncode == 2
    )


def two_builds(place: Place) -> bool:
    """The second of two builds waits for the first, and finds all done."""
    builds = [
        subprocess.Popen(place.build, cwd=place.top, env=place.env, stdout=subprocess.PIPE, stderr=subprocess.PIPE)
        for _ in range(2)
    ]
    said = [it.communicate(timeout=60)[0] for it in builds]
    return (
        [it.returncode for it in builds] == [0, 0] and len(place.built()) == 6 and any(b"waiting" in it for it in said)
    )


def over_other_libraries(place: Place) -> bool:
    """What is made of a crate is made over the libraries of the sources below it: as by a build from nothing."""
    place.run("./build")
    place.change("low", "// low, changed\n")
    again = place.run("./build").returncode
    over = {it: (place.library(it) / "made").read_text() for it in ("low", "long_one", "apex")}
    shutil.rmtree(place.top / "out")
    for it in place.top.glob("crates/*/out"):
        shutil.rmtree(it)
    return again == 0 == place.run("./build").returncode and over == {
        it: (place.library(it) / "made").read_text() for it in over
    }


def want_of_memory(place: Place) -> bool:
    """A crate whose proof was killed is proved once more by one process."""
    ran = place.run("./build", "--only", "low", "--jobs", "2", PRETENDED_KILL="yes")
    return ran.returncode == 0 and [it[4] for it in place.noted() if it[0] == "begins"] == ["2", "1"]


LAUNCHER = (faulty_words, unproved_run, no_answer, installed, failing_streams, live_output, want_of_memory)
BUILD = (order, side_by_side, changed, over_other_libraries, failure, interrupt, killed, seconds, only, two_builds)
TESTS = [
    (test.__name__ + "".join(more), test, more)
    for tests, forms in ((LAUNCHER, [[]]), (BUILD, [[], ["--kept"]]))
    for test in tests
    for more in forms
]


def holds(test, more: list[str]) -> bool:
    with tempfile.TemporaryDirectory(prefix="launcher-") as folder:
        return test(Place(pathlib.Path(folder), *more))


def main() -> int:
    chosen = [it for it in TESTS if it[1].__name__ in sys.argv[1:] or len(sys.argv) == 1]
    failed = [name for name, test, more in chosen if not holds(test, more)]
    for name in failed:
        print(f"{name} failed")
    print(f"{len(chosen) - len(failed)} of {len(chosen)} hold")
    return 1 if failed or not chosen else 0


if __name__ == "__main__":
    sys.exit(main())
