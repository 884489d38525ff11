#!/usr/bin/env python3
"""Compiles the C programs of tests/library over libdeltat, and runs them.

`tests/library.py [ARCHIVE] [--datagrams N]` takes the archive at that path; with no word it is the one that
`./build --only dt_c` leaves in crates/dt_c/out, which it builds where there is none. The header is compiled alone too.
Compilers are gcc and clang, languages C99, C11 and C++17, all with -Wall -Wextra -Werror; each program runs bare, and
those of C99 also under valgrind and with the address and undefined-behaviour sanitizers, where the machine has them.
The C files of lib/ are compiled by each compiler with these warnings, and linked:

- layout.c: sizes and places of fields, by the compiler alone, as release/interface.py has them of the header;
  crates/dt_c proves the same sizes.
- exchange.c: two nodes, a message that comes whole, each refusal, wrong sizes of structs, and the calls of plain C.
- messages.c: whole messages: with gaps, in parts, too long, for a buffer that is too small, of many flows.
- shelf.c: data that came too early: held, handed in once, no longer than they live, within bounds.
- each_failure.c: each request for memory fails in turn.
- services.c: calls and replies, each of their answers, and each request for memory fails in turn.
- handles.cpp: deltat.hpp, as C++17 and C++20, and without exceptions and RTTI; and the two programs of docs/library.md,
  examples/hello.c and hello.cpp, of 25 lines at most.
- loops.c: the loops of a program, taken from the header's comments, over a wire that loses and with a clock that stops.
- strangers.c: N random datagrams (1,000,000), after which the node takes as much memory as before, and some thousand
  flows from one peer; a million flows at a guard that lets a thousand in; and 200,000 that come and go, each with half
  a message for an inbox. In C99 alone.

The last line is `N passed, M failed`; ends with 1 where one failed, and with 77 where there is no compiler or no
archive.

In tests/all: no words, 900 s."""
import argparse
import pathlib
import shutil
import subprocess
import sys
import tempfile
from collections.abc import Iterator, Sequence
from typing import NamedTuple

from lib import TOP, skip

sys.path.insert(0, str(TOP / "release"))
import interface  # noqa: E402

HERE = TOP / "tests" / "library"
ARCHIVE = TOP / "crates" / "dt_c" / "out" / "libdt_c.a"
WARNINGS = ("-Wall", "-Wextra", "-Werror", "-pedantic")
SECONDS = 300
# the plain C of the library, and each compiler of C with that of C++ beside it
SOURCES = sorted((TOP / "lib").glob("*.c"))
CPLUS = {"gcc": "g++", "clang": "clang++"}


class Language(NamedTuple):
    """A standard, and what compilers want to hear to take files of C as it."""

    name: str
    words: tuple[str, ...]
    drivers: tuple[str, ...]


LANGUAGES = (
    Language("C99", ("-std=c99",), ("gcc", "clang")),
    Language("C11", ("-std=c11",), ("gcc", "clang")),
    Language("C++17", ("-std=c++17",), ("g++", "clang++")),
)


class Program(NamedTuple):
    """A program: its file, and whether it brings a heap of its own."""

    file: str
    has_heap: bool


PROGRAMS = (
    Program("layout.c", False),
    Program("exchange.c", False),
    Program("messages.c", False),
    Program("shelf.c", False),
    Program("each_failure.c", True),
    Program("services.c", True),
)
# what valgrind and the sanitizers see of the random datagrams, and the flows of one peer that are opened
FEW_DATAGRAMS, FLOWS = 20_000, 5_000


class Tally:
    """Counts what passed and what failed, and prints what a failure said."""

    def __init__(self) -> None:
        self.passed = self.failed = 0

    def run(
        self, what: str, command: Sequence[str | pathlib.Path], seconds: int = SECONDS, tells: bool = False
    ) -> bool:
        """Runs a command, and prints what it said where it tells figures. Whether it ended with 0."""
        try:
            done = subprocess.run([str(word) for word in command], capture_output=True, text=True, timeout=seconds)
            good, said = done.returncode == 0, done.stdout + done.stderr
        except subprocess.TimeoutExpired:
            good, said = False, f"took more than {seconds} s"
        if good and tells:
            print(f"{what}: {said}", end="", flush=True)
        if good:
            self.passed += 1
        else:
            self.failed += 1
            print(f"failed: {what}\n{said}")
        return good


def archive(named: pathlib.Path | None) -> pathlib.Path:
    """The archive: the one that is named, or the built one."""
    if named is not None:
        return named.resolve()
    if not ARCHIVE.exists():
        if shutil.which("rt") is None:
            skip("there is no libdt_c.a, and no rt to build it")
        subprocess.run([TOP / "build", "--only", "dt_c"], check=True)
    return ARCHIVE


def compiled(
    driver: str,
    language: Language,
    sources: Sequence[pathlib.Path],
    out: pathlib.Path,
    more: Sequence[str | pathlib.Path],
) -> list[str | pathlib.Path]:
    """The command that compiles these files and links them with what is named."""
    as_what = ("-x", "c++") if language.name.startswith("C++") else ("-x", "c")
    return [
        driver,
        *language.words,
        *WARNINGS,
        "-O1",
        "-gdwarf-4",
        f"-I{TOP / 'include'}",
        *as_what,
        *sources,
        "-x",
        "none",
        *more,
        "-o",
        out,
    ]


def members(driver: str, folder: pathlib.Path, without_heap: bool = False) -> list[pathlib.Path]:
    """What the C files of lib/ were compiled to for programs of a compiler."""
    for_c = next(it for it in CPLUS if driver in (it, CPLUS[it]))
    return [folder / f"{it.stem}-{for_c}.o" for it in SOURCES if not (without_heap and it.stem == "heap")]


def ways() -> Iterator[tuple[str, Language]]:
    """Each compiler that is there, with each language that it takes."""
    for language in LANGUAGES:
        for driver in language.drivers:
            if shutil.which(driver) is not None:
                yield driver, language


def try_program(
    tally: Tally, program: Program, driver: str, language: Language, library: pathlib.Path, folder: pathlib.Path
) -> None:
    """Compiles a program in one way, and runs it bare, and in C99 with what looks at its memory."""
    what = f"{program.file}, {driver}, {language.name}"
    name = f"{program.file}-{driver}-{language.name}"
    built = folder / name
    linked = [*members(driver, folder, without_heap=program.has_heap), library]
    if not tally.run(what, compiled(driver, language, [HERE / program.file], built, linked)):
        return
    tally.run(what, [built])
    if language.name != "C99":
        return
    if shutil.which("valgrind") is not None:
        tally.run(f"{what}, valgrind", ["valgrind", "--quiet", "--error-exitcode=9", "--leak-check=full", built])
    sanitized = folder / f"{name}-sanitized"
    flags = ["-fsanitize=address,undefined", "-fno-sanitize-recover=all"]
    if tally.run(
        f"{what}, sanitizers", compiled(driver, language, [HERE / program.file], sanitized, [*flags, *linked])
    ):
        tally.run(f"{what}, sanitizers", [sanitized])


# C++ as deltat.hpp is compiled
DIALECTS = (
    ("-std=c++17", "-fsanitize=address,undefined"),
    ("-std=c++20",),
    ("-std=c++17", "-fno-exceptions", "-fno-rtti"),
)


def try_handles(tally: Tally, driver: str, library: pathlib.Path, folder: pathlib.Path) -> None:
    """The header for C++, by a compiler of C++."""
    linked = [*members(driver, folder), library]
    for words in DIALECTS:
        for source in (HERE / "handles.cpp", TOP / "examples" / "hello.cpp"):
            what, built = f"{source.name}, {driver} {' '.join(words)}", folder / f"{source.stem}-{driver}"
            command = [
                driver,
                *words,
                *WARNINGS,
                "-Wconversion",
                "-O1",
                f"-I{TOP / 'include'}",
                source,
                *linked,
                "-o",
                built,
            ]
            if tally.run(what, command):
                tally.run(what, [built])


def try_hello(tally: Tally, driver: str, library: pathlib.Path, folder: pathlib.Path) -> None:
    """The shortest program in C."""
    built = folder / f"hello-{driver}"
    language = Language("C11", ("-std=c11",), (driver,))
    if tally.run(
        f"hello.c, {driver}",
        compiled(driver, language, [TOP / "examples" / "hello.c"], built, [*members(driver, folder), library]),
    ):
        tally.run(f"hello.c, {driver}", [built])


def try_loops(tally: Tally, driver: str, library: pathlib.Path, folder: pathlib.Path) -> None:
    """The loops of the header, word for word."""
    functions, node = interface.code("---- 2 THE LOOP OF A PROGRAM ----")
    (service,) = interface.code("---- 11 SERVICES: REQUEST AND REPLY ----")
    language = Language("C99", ("-std=c99",), (driver,))
    # the second reads the clock after the look that found nothing, and has to fail
    for way, loop in (
        ("as it is", node),
        ("spoilt", node.replace("empty_at = looked_at;", "(void)looked_at, empty_at = now();")),
    ):
        room, built = folder / f"loops-{driver}-{way.split()[0]}", folder / f"loops-{driver}-{way.split()[0]}.out"
        room.mkdir()
        for name, text in (("node_functions", f"static {functions}"), ("node_loop", loop), ("service_loop", service)):
            (room / f"{name}.inc").write_text(text)
        more = [
            f"-I{room}",
            "-fsanitize=address,undefined",
            "-fno-sanitize-recover=all",
            *members(driver, folder),
            library,
        ]
        if tally.run(f"loops.c {way}, {driver}", compiled(driver, language, [HERE / "loops.c"], built, more)):
            tally.run(
                f"loops.c {way}, {driver}", [built] if way == "as it is" else ["sh", "-c", f"! {built} 2>/dev/null"]
            )


def is_short(path: pathlib.Path) -> bool:
    """Whether a program has at most 25 lines, none of them above 120 columns."""
    lines = path.read_text().splitlines()
    return len(lines) <= 25 and all(len(it) <= 120 for it in lines)


def try_strangers(tally: Tally, driver: str, count: int, library: pathlib.Path, folder: pathlib.Path) -> None:
    """Random datagrams, bare, under valgrind and with the sanitizers, and many flows."""
    language = Language("C99", ("-std=gnu99",), (driver,))
    linked, bare, sanitized = [*members(driver, folder), library], folder / "strangers", folder / "strangers-sanitized"
    if not tally.run("strangers.c", compiled(driver, language, [HERE / "strangers.c"], bare, linked)):
        return
    few = ["datagrams", str(FEW_DATAGRAMS)]
    tally.run("random datagrams", [bare, "datagrams", str(count)], SECONDS + count // 10_000, tells=True)
    tally.run("flows of one peer", [bare, "flows", str(FLOWS), "4096"], tells=True)
    tally.run("a million flows at a guard", [bare, "guard", "1000000", "1000"], tells=True)
    tally.run("messages of flows that come and go", [bare, "messages", "200000"], tells=True)
    if shutil.which("valgrind") is not None:
        tally.run(
            "random datagrams, valgrind", ["valgrind", "--quiet", "--error-exitcode=9", "--leak-check=full", bare, *few]
        )
    flags = ["-fsanitize=address,undefined", "-fno-sanitize-recover=all"]
    if tally.run(
        "strangers.c, sanitizers", compiled(driver, language, [HERE / "strangers.c"], sanitized, [*flags, *linked])
    ):
        tally.run("random datagrams, sanitizers", [sanitized, *few])


def main() -> int:
    reads = argparse.ArgumentParser(description=__doc__, formatter_class=argparse.RawDescriptionHelpFormatter)
    reads.add_argument("archive", nargs="?", type=pathlib.Path, help="the archive (crates/dt_c/out/libdt_c.a)")
    reads.add_argument(
        "--datagrams", type=int, default=1_000_000, metavar="N", help="how many random datagrams (%(default)s)"
    )
    given = reads.parse_args()
    if not any(ways()):
        skip("there is no compiler of C")
    library = archive(given.archive)
    tally = Tally()
    with tempfile.TemporaryDirectory() as name:
        folder = pathlib.Path(name)
        (folder / "alone.c").write_text('#include "deltat.h"\ntypedef struct dt_report report;\n')
        for driver in (it for it in CPLUS if shutil.which(it)):
            for source in SOURCES:
                made = folder / f"{source.stem}-{driver}.o"
                command = [driver, "-std=c99", *WARNINGS, "-gdwarf-4", f"-I{TOP / 'include'}", "-c", source, "-o", made]
                tally.run(f"{source.name}, {driver}", command)
        for driver, language in ways():
            tally.run(
                f"deltat.h, {driver}, {language.name}",
                compiled(driver, language, [folder / "alone.c"], folder / "alone.o", ["-c"]),
            )
            for program in PROGRAMS:
                try_program(tally, program, driver, language, library, folder)
        for driver in (it for it in CPLUS if shutil.which(it)):
            try_hello(tally, driver, library, folder)
            try_loops(tally, driver, library, folder)
            if shutil.which(CPLUS[driver]):
                try_handles(tally, CPLUS[driver], library, folder)
        for name in ("hello.c", "hello.cpp"):
            tally.run(f"{name} is short", ["true" if is_short(TOP / "examples" / name) else "false"])
        try_strangers(tally, next(ways())[0], given.datagrams, library, folder)
    print(f"{tally.passed} passed, {tally.failed} failed")
    return 1 if tally.failed else 0


if __name__ == "__main__":
    sys.exit(main())
