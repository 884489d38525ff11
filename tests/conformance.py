#!/usr/bin/env python3
"""The vectors of conformance/ against the built program, and the runner against programs that are spoilt:
`tests/conformance.py [PROGRAM]`. Ends with 1 where one of these fails:

- vectors: the program gives each answer.
- spoilt: a program that changes one octet of each answer, and one whose statuses are others, differ in each
  case, and the runner ends with 1.
- differences: what the runner says of an answer that differs.
- reader: a reader of frames that isn't the program's holds, and reads some 12,900 frames as the program does; so does
  the one in C, with the sanitizers, where there is a compiler, and its parser compiles alone.
- chosen: what a device may leave out is left out, and nothing else.
- sizes: the cases that a small device is asked have no more segments, records and waiting datagrams than it, and what
  is counted of a case is what it is named for.
- station: the plain station of the tests acknowledges what the vectors say.
- index: each file of the folders is in the index once, and so is each worked row.
- lines: each report, fault and flaw of docs/formats.md stands in an answer.
- copied: the folder that the runner writes has the same inputs and answers.

In tests/all: PROGRAM, 300 s."""
import collections
import dataclasses
import os
import pathlib
import re
import shutil
import subprocess
import sys
import tempfile

from lib import TOP, program
from lib.parameters import WORKED

FOLDER = TOP / "conformance"
sys.path[:0] = [str(FOLDER), str(TOP / "tools")]
import asking  # noqa: E402
import dissector  # noqa: E402
import frames  # noqa: E402
import run  # noqa: E402

RUNNER = [sys.executable, str(FOLDER / "run.py")]
SPOIL = {
    "an octet": "sed '$ s/.$/~/' \"$out\"\nexit $status\n",
    "a status": "cat \"$out\"\nexit $((status + 1))\n",
}


def runner(*words: str) -> tuple[int, list[str]]:
    """The status and the lines of the runner."""
    ran = subprocess.run([*RUNNER, *words], stdout=subprocess.PIPE, text=True, check=False)
    return ran.returncode, ran.stdout.splitlines()


def vectors(path: str) -> bool:
    status, lines = runner(str(FOLDER / "deltat"), path)
    print("\n".join(lines))
    return status == 0 and lines[-1:] == [f"{len(run.cases())} of {len(run.cases())} cases hold"]


def spoilt(path: str) -> bool:
    """Whether all cases differ that can: an answer without octets has none to change."""
    good = True
    with tempfile.TemporaryDirectory() as folder:
        for what, rest in SPOIL.items():
            wrapper = pathlib.Path(folder) / "spoilt"
            wrapper.write_text(
                f'#!/bin/sh\nout={folder}/out\n"{FOLDER}/deltat" "{path}" "$@" > "$out"\nstatus=$?\n{rest}'
            )
            wrapper.chmod(0o755)
            status, lines = runner(str(wrapper))
            wanted = [it.title() for it in run.cases() if what == "a status" or it.right() != b""]
            found = [line.partition(":")[0] for line in lines[:-1]]
            print(f"a program that spoils {what}: {len(found)} of {len(wanted)} differ")
            good = good and status == 1 and found == wanted
    return good


def differences(path: str) -> bool:
    del path
    long = b"0" * 300
    rows = [
        (b"a\nb\n", b"a\nb\n", ""),
        (b"a\nb\n", b"a\nc\n", "line 2: 'b', should be 'c'"),
        (b"a\r\nb\r\n", b"a\nb\n", "line 1: 'a\\r', should be 'a'"),
        (b"a\nb", b"a\nb\n", "line 2: its line feed"),
        (b"a\n", b"a\nb\n", "line 2: missing, should be 'b'"),
        (b"", b"a\n", "line 1: missing, should be 'a'"),
        (b"a\nb\n", b"a\n", "line 2: 'b', where the text should end"),
        (b"a\n\xff\n", b"a\n\n", "line 2: '\\xff', should be ''"),
        (
            long + b"1" + long + b"\n",
            long + b"2" + long + b"\n",
            f"line 1: '..{'0' * 40}1{'0' * 59}..', should be '..{'0' * 40}2{'0' * 59}..'",
        ),
    ]
    wrong = [(had, wanted) for had, wanted, text in rows if run.first_difference(had, wanted) != text]
    print("".join(f"{run.first_difference(*it)} is said of {it}\n" for it in wrong), end="")
    return not wrong


def in_c(folder: str) -> str | None:
    """The reader in C, compiled with the sanitizers; none where there is no compiler. Raises where it doesn't
    compile."""
    compiler = next((it for it in ("gcc", "clang") if shutil.which(it)), None)
    if compiler is None:
        return None
    words = [compiler, "-std=c99", "-Wall", "-Wextra", "-Werror", str(FOLDER / "frames.c")]
    subprocess.run([*words, "-DDEVICE", "-ffreestanding", "-c", "-o", f"{folder}/device.o"], check=True)
    subprocess.run(
        [*words, "-fsanitize=address,undefined", "-fno-sanitize-recover=all", "-o", f"{folder}/frames"], check=True
    )
    return f"{folder}/frames"


def reader(path: str) -> bool:
    with tempfile.TemporaryDirectory() as folder:
        other = in_c(folder)
        return reads_alike(path, other)


def reads_alike(path: str, other: str | None) -> bool:
    """Whether the readers of frames, of which the other may be missing, read them as the program does."""
    readers = [str(FOLDER / "frames.py"), *([other] if other else [])]
    good, count = all(runner("--kind", "frames", it)[0] == 0 for it in readers), 0
    for name in ("changes", "kinds", "lengths", "parts"):
        # no script may read what a node hears from itself
        asked = [it for it in getattr(dissector, name)() if it[8:12] != it[12:16] or len(it) < 16]
        right = asking.lines_of(path, asked)
        if other:
            ran = subprocess.run(
                [other, "frames"],
                input="".join(f"{it.hex()}\n" for it in asked),
                capture_output=True,
                text=True,
                check=False,
            )
            differ = [it for it, *lines in zip(asked, right, ran.stdout.splitlines()) if lines[0] != lines[1]]
            if ran.returncode or len(ran.stdout.splitlines()) != len(right) or differ:
                print(
                    f"the reader in C ends with {ran.returncode}, and reads {len(differ)} frames otherwise:"
                    f" {ran.stderr[:300]}"
                )
                good = False
        for frame, line in zip(asked, right):
            count += 1
            if line != frames.read(frame):
                print(f"{frame.hex()[:60]}: the program says {line[:60]}, the reader {frames.read(frame)[:60]}")
                good = False
    print(f"{count} frames read twice")
    return good and count > 10_000


def chosen(path: str) -> bool:
    """What is left out: by name where the name says it, and each of them where all three are."""
    del path
    by_need = {need: {it.name.rsplit("/", 1)[-1] for it in run.cases() if need in it.needs()} for need in run.NEEDS}
    relays = {
        "relay-expired",
        "relay-last-millisecond",
        "through-a-relay",
        "relay-expires-and-restarts",
        "mixed-2",
        "relayed",
        "relay-is-full",
    }
    named = {
        it.name.rsplit("/", 1)[-1]
        for it in run.cases()
        if "refused-" in it.name and it.kind in ("schedule", "trace", "calls")
    }
    status, lines = runner("--list", "--without", "relay", "--without", "shelf", "--without", "refusals")
    left = {line.split()[1].rsplit("/", 1)[-1] for line in lines}
    small = [line.split()[1] for line in runner("--list", "--kind", "schedule", "--room", "512")[1]]
    sizes = {it.name: it.room() for it in run.cases()}
    print(", ".join(f"{need}: {len(names)}" for need, names in by_need.items()))
    return (
        status == 0
        and by_need["relay"] == relays
        and all("shelf" in it for it in by_need["shelf"])
        and named <= by_need["refusals"]
        and not left & set().union(*by_need.values())
        and bool(small)
        and all(sizes[it] <= 512 for it in small)
        and max(sizes.values()) > 512
    )


def sizes(path: str) -> bool:
    """What is counted of known cases, and what is left of all for a device. The rounds' logs are the program's."""
    found = {
        it.name.rsplit("/", 1)[-1]: it.sizes()
        for it in run.cases()
        if it.kind in ("schedule", "trace") and it.status != 3
    }
    known = {
        "setup-alone": (0, 0, 0, 100),
        "three-packets": (3, 1, 1, 100),
        "full-link": (64, 64, 2, 100),
        "mixed-1": (12, 48, 2, 60),
        "mixed-3": (5, 13, 2, 60),
        "through-a-relay": (2, 64, 1, 100),
        "each-kind": (0, 1, 1, 8192),
        "place-of-unread-octets": (0, 1, 2, 100),
        "gives-fail-512": (2, 1, 1, 100),
    }
    wrong = [name for name, numbers in known.items() if found[name] != run.Sizes(*numbers)]
    rounds = next(it for it in run.cases() if it.kind == "rounds" and it.word == "replay" and it.name == "1000")
    log = subprocess.run([path, "replay"], input=rounds.given(), stdout=subprocess.PIPE, check=True).stdout
    same = run.sizes(rounds.given(), log, False) == rounds.sizes()
    words = ["--segments", "4", "--queue", "1", "--records", "1", "--seg", "128", "--room", "512"]
    lines = (line.split() for kind in ("schedule", "trace") for line in runner("--list", "--kind", kind, *words)[1])
    left = {it[1].rsplit("/", 1)[-1] for it in lines if it[3] != "3"}
    fits = all(
        it.segments <= 4 and it.queue <= 1 and it.records <= 1 and it.seg <= 128
        for name, it in found.items()
        if name in left
    )
    print(f"sizes of {len(found)} cases; a device of 512 octets has {len(left)}; wrong: {wrong}")
    return (
        not wrong and same and fits and "node-512" in left and "full-link" not in left and "each-kind-512" not in left
    )


def station(path: str) -> bool:
    """What a new record of the plain station has in `told`: the read makes nothing due, and the acknowledgement is
    late."""
    del path
    import station_model as plain
    params = dataclasses.replace(WORKED, rcap=150, cap=512)
    it = plain.Station(1, params, 0, False)
    flow = plain.Flow(2, 20, 1, 10)
    it.arrive(10, (50, plain.Frame("data", flow, 999, 0, bytes(60), begin=True, run=True)))
    it.read(20, flow)
    it.tick(209)
    early = [line.word for line in it.log]
    it.tick(210)
    answer = (FOLDER / "traces" / "told-of-a-new-record.out").read_text()
    return "acked" not in early and it.log[-1].word == "acked" and "\n210 1 acked 2:20>1:10 60 150\n" in answer


def index(path: str) -> bool:
    del path
    listed = [it for it in run.cases() if it.kind != "rounds"]
    named = {f"{it.name}{end}" for it in listed for end in ((".frames",) if it.kind == "frames" else (".in", ".out"))}
    named = {it for it in named if not it.startswith("..")} - {f"{it.name}.in" for it in listed if it.input}
    there = {str(it.relative_to(FOLDER)) for it in FOLDER.glob("*/*") if "__pycache__" not in it.parts}
    rows = [line.split() for line in (TOP / "crates" / "deltat_tests" / "stdin").read_text().splitlines()]
    ours = [[it.name.rsplit("/", 1)[1], it.word, str(it.status)] for it in listed if it.name.startswith("..")]
    twice = [title for title, count in collections.Counter(it.title() for it in run.cases()).items() if count > 1]
    for what, names in (("not there", named - there), ("not in the index", there - named), ("twice", twice)):
        print("".join(f"{it}: {what}\n" for it in sorted(names)), end="")
    return named == there and not twice and sorted(rows) == sorted(ours)


def texts(behind: str, column: int) -> set[str]:
    """The texts in a column of a table of formats.md, of the first table behind a line."""
    page = (TOP / "docs" / "formats.md").read_text().split(f"{behind}\n", 1)[1]
    rows = re.search(r"(?:^\|.*\n)+", page, re.MULTILINE)[0].splitlines()[2:]
    found = {it for row in rows for it in re.findall(r"`([^`]+)`", row.split("|")[column])}
    if not found:
        raise ValueError(f"no table behind {behind!r}")
    return found


def lines(path: str) -> bool:
    """Whether each kind of line is in an answer. A fault of a parameter names it: each is wanted."""
    del path
    answers = [
        line.split()
        for it in run.cases()
        if it.kind != "frames"
        for line in (it.right() or b"").decode("latin-1").splitlines()
    ]
    names = texts("### The numbers of `params`", 3)
    faults = {it.split()[0] for it in texts("### Faults", 2)} - names - {"param", "out"} | {
        f"param {it}" for it in names
    }
    of_frames = texts("Octets that are no Deltagram are refused by the first of these tests that they fail:", 3)
    of_frames |= texts(
        "The body of a Deltagram that is no packet is refused by the first of these tests that it fails:", 3
    )
    of_calls = {it.split()[it.startswith("MOMENT")] for it in texts("### Calls", 1)}
    wanted = [
        (
            "reports",
            {it.split()[0] for it in texts("### Lines of a node", 2)},
            {it[2] for it in answers if len(it) > 2},
        ),
        ("faults", faults, {" ".join(it[2:4] if it[2] == "param" else it[2:3]) for it in answers if it[0] == "line"}),
        ("faults of frames", {it.split()[0] for it in of_frames}, {it[3] for it in answers if it[2:3] == ["bad"]}),
        (
            "flaws",
            texts("### The verdict of an audit", 1) - {"accepted .. on"},
            {" ".join(it[2:]) for it in answers if it[0] == "line"},
        ),
        ("lines of calls", of_calls, {word for it in answers for word in it[:2]}),
    ]
    for what, all_of, there in wanted:
        print(f"{what}: {len(all_of)} in the page, in no answer: {' '.join(sorted(all_of - there)) or 'none'}")
    return all(all_of <= there for _, all_of, there in wanted)


def copied(path: str) -> bool:
    del path
    with tempfile.TemporaryDirectory() as name:
        folder = pathlib.Path(name)
        status, _ = runner("--copy", name)
        index = [line.split() for line in (folder / "INDEX").read_text().splitlines()]
        asked = [it for it in run.cases() if it.word != "make"]
        pairs = list(zip(index, asked, strict=True))
        same = all((folder / f"{row[1]}.in").read_bytes() == it.given() for row, it in pairs)
        same = same and all([row[0], *row[2:]] == [it.kind, it.word, str(it.status)] for row, it in pairs)
        outs = all((folder / f"{row[1]}.out").read_bytes() == it.right() for row, it in pairs if it.kind != "rounds")
        return status == 0 and same and outs and os.path.exists(folder / "rounds.sha256")


def main() -> int:
    path = program()
    tests = [vectors, spoilt, differences, reader, chosen, sizes, station, index, lines, copied]
    failed = [it.__name__ for it in tests if not it(path)]
    for name in failed:
        print(f"{name} failed")
    print(f"{len(tests) - len(failed)} of {len(tests)} hold")
    return 1 if failed else 0


if __name__ == "__main__":
    sys.exit(main())
