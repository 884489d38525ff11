#!/usr/bin/env python3
"""Any octets as calls of libdeltat, with the address and undefined-behaviour sanitizers: of plain nodes by
tests/library/fuzz.c, and of services by fuzz_service.c.

`tests/library_fuzz.py [ARCHIVE] [--only nodes|services] [--minutes M | --seconds S] [--seed N] [--keep FOLDER]
[--input FILE] [--plain]`; an --input wants an --only. The heads of both files tell what an input is and where it is a
fault. Each of the two has the time that is given.

With --minutes libFuzzer draws the inputs, of both side by side: those that reach other code of the library, or make
something happen behind something else for the first time, are kept and drawn from again. For that the library's code is
compiled once more: rattle proves crates/dt_c and hands what it would compile to a compiler between, which keeps it;
then clang compiles the same with the address sanitizer in each function and a counter at each branch. So a read or a
write beyond a block is seen in the library itself, not in its caller alone. It wants `rt` and a clang with libFuzzer.
With --plain the archive is linked as it is, which is faster, and only what happens is counted.

With --seconds the archive is linked as it is by gcc or clang, and inputs are drawn by chance. Ends with 1 where an
input fails, which is kept, cut down to the records that it takes, in a folder that is named; with 77 where there is no
compiler or no archive. Before all that, the checks have to find fault with a library whose answers are spoilt.

In tests/all: --seconds 20, 1800 s."""
import argparse
import os
import pathlib
import re
import shutil
import subprocess
import sys
import tempfile
import threading
import time
from collections.abc import Sequence
from concurrent.futures import ThreadPoolExecutor
from typing import NamedTuple

from lib import TOP, skip

sys.path[:0] = [str(TOP / "lib")]
import aarch64  # noqa: E402
import library  # noqa: E402

HERE = TOP / "tests" / "library"
ARCHIVE = TOP / "crates" / "dt_c" / "out" / "libdt_c.a"
FLAGS = ("-std=gnu11", "-Wall", "-Wextra", "-Werror", "-O1", "-g", f"-I{TOP / 'include'}")
SANITIZED = "address,undefined"
TARGET = "x86_64-unknown-linux-gnu"
COMPILER = next((it for it in ("clang", "gcc") if shutil.which(it)), None)
# octets of the head of an input, and of a record, as fuzz.c has them, and of the longest input
HEAD, RECORD, MOST = 24, 4, 24 + 4 * 300
# the inputs that are tried until one is a fault of a spoilt library
ENOUGH = 4_000
# of the folder where inputs are kept, and of what is said
ALONE = threading.Lock()


class Source(NamedTuple):
    """What is tried: a program, and a library that is spoilt in so many ways for it."""

    name: str
    program: str
    spoil: str
    spoils: int


SOURCES = [Source("nodes", "fuzz.c", "spoil.c", 11), Source("services", "fuzz_service.c", "spoil_service.c", 12)]


def run(words: Sequence[str | pathlib.Path], **more: object) -> "subprocess.CompletedProcess[str]":
    return subprocess.run(
        [str(it) for it in words], capture_output=True, text=True, errors="replace", check=False, **more
    )


def built(words: Sequence[str | pathlib.Path], out: pathlib.Path) -> pathlib.Path:
    """A program that is compiled by these words. Ends this run where it isn't."""
    ran = run([*words, "-o", out])
    if ran.returncode:
        sys.exit(f"{' '.join(map(str, words))}\n{ran.stderr}")
    return out


def instrumented(folder: pathlib.Path) -> pathlib.Path:
    """The library's code, proved and compiled once more, with the sanitizer and with counters in it."""
    kit = pathlib.Path(run(["rt", "doc"]).stdout.strip()).parent
    tools, code = folder / "toolchain", folder / "library.bc"
    (tools / "bin").mkdir(parents=True)
    (tools / "lib").symlink_to(kit / "toolchain" / "lib")
    for it in (kit / "toolchain" / "bin").iterdir():
        (tools / "bin" / it.name).symlink_to(it)
    (tools / "bin" / "clang").unlink()
    (tools / "bin" / "clang").write_text(f'#!/bin/sh\ncp module.bc "{code}"\nexec "{kit}/toolchain/bin/clang" "$@"\n')
    (tools / "bin" / "clang").chmod(0o755)
    ran = run(aarch64.words(folder / "unused.a", TARGET, tools), cwd=aarch64.CRATES / aarch64.CRATE)
    if ran.returncode or not code.exists():
        sys.exit(f"the library isn't proved, or wasn't compiled:\n{ran.stdout[-2000:]}{ran.stderr[-2000:]}")
    clang = [kit / "toolchain" / "bin" / "clang", f"--target={TARGET}", "-x", "ir"]
    text = built([*clang, code, "-S", "-emit-llvm", "-Xclang", "-disable-llvm-passes"], folder / "library.ll")
    # the compiler puts the sanitizer only into functions that ask for it
    text.write_text(re.sub(r"(?m)^(attributes #\d+ = \{ )", r"\1sanitize_address ", text.read_text()))
    counters = ["-fsanitize=address", "-fsanitize-coverage=inline-8bit-counters,pc-table"]
    return built([*clang, text, "-c", "-O1", "-fPIC", *counters], folder / "library.o")


def alone(
    source: Source, archive: pathlib.Path, folder: pathlib.Path, compiler: str, *more: str | pathlib.Path
) -> pathlib.Path:
    """The program with a main of its own, over an archive or what is linked in its place."""
    words = [compiler, *FLAGS, "-DALONE", f"-fsanitize={SANITIZED}", "-fno-sanitize-recover=all"]
    return built([*words, HERE / source.program, *more, archive], folder / f"alone{len(list(folder.glob('alone*')))}")


def blind(source: Source, archive: pathlib.Path, folder: pathlib.Path, compiler: str) -> list[int]:
    """The ways to spoil the library that no input of some thousand shows."""
    names = re.findall(r"__wrap_(\w+)\(", (HERE / source.spoil).read_text())
    wraps = [f"-Wl,--wrap={it}" for it in sorted(set(names))]
    program = alone(source, archive, folder, compiler, HERE / source.spoil, *wraps)
    found = [
        run([program, "--count", str(ENOUGH)], env={**os.environ, "SPOIL": str(it)}) for it in range(source.spoils + 1)
    ]
    if found[0].returncode:
        sys.exit(f"a library that isn't spoilt fails:\n{found[0].stderr}")
    return [it for it, ran in enumerate(found) if it > 0 and ran.returncode == 0]


def smaller(program: pathlib.Path, octets: bytes, folder: pathlib.Path) -> bytes:
    """An input that fails too, with fewer records."""
    file = folder / "tried"

    def fails(tried: bytes) -> bool:
        file.write_bytes(tried)
        return run([program, file]).returncode not in (0, 2)

    if not fails(octets):
        return octets
    length = (len(octets) - HEAD) // RECORD // 2
    while length > 0:
        at = HEAD
        while at < len(octets):
            tried = octets[:at] + octets[at + length * RECORD:]
            if len(tried) < len(octets) and fails(tried):
                octets = tried
            else:
                at += length * RECORD
        length //= 2
    return octets


def keep(
    source: Source, program: pathlib.Path, octets: bytes, said: str, folder: pathlib.Path, kept: pathlib.Path | None
) -> None:
    """Keeps an input that fails, and tells what it said."""
    kept = kept or pathlib.Path(tempfile.mkdtemp(prefix="deltat-library-fuzz-"))
    kept.mkdir(parents=True, exist_ok=True)
    octets = smaller(program, octets, folder)
    number = len(list(kept.glob("*.in"))) + 1
    (kept / f"{number:03}.in").write_bytes(octets)
    (kept / f"{number:03}.why").write_text(
        f"{run([program, kept / f'{number:03}.in']).stderr or said}\n\ntests/library_fuzz.py --only"
        f" {source.name} --input {kept / f'{number:03}.in'}\n"
    )
    print("\n".join(said.strip().splitlines()[:12]))
    print(f"an input of {(len(octets) - HEAD) // RECORD} records fails: {kept / f'{number:03}.in'}")


def by_chance(
    source: Source, program: pathlib.Path, seconds: float, seed: int, folder: pathlib.Path, kept: pathlib.Path | None
) -> int:
    """Tries inputs, some thousand at a time, for so many seconds."""
    begun, tried, each = time.monotonic(), 0, 2_000
    while time.monotonic() - begun < seconds:
        ran = run([program, "--count", str(each), "--seed", str(seed + tried // each)])
        if ran.returncode:
            # once more, since only then the input is written before it is tried
            run([program, "--count", str(each), "--seed", str(seed + tried // each), "--keep", folder / "last"])
            keep(source, program, (folder / "last").read_bytes(), ran.stderr, folder, kept)
            return 1
        tried += each
    print(f"{source.name}: {tried} inputs hold, in {time.monotonic() - begun:.0f} s; seed {seed}")
    return 0


def by_coverage(
    source: Source,
    program: pathlib.Path,
    single: pathlib.Path,
    minutes: float,
    seed: int,
    folder: pathlib.Path,
    kept: pathlib.Path | None,
) -> int:
    """Has libFuzzer draw inputs for so many minutes, and tells how many it tried."""
    corpus, found = folder / f"corpus-{source.name}", folder / f"found-{source.name}"
    corpus.mkdir()
    found.mkdir()
    # a busy machine lets an input wait: what is slow by the clock alone is no fault
    words = [
        program,
        corpus,
        f"-max_total_time={max(int(minutes * 60), 1)}",
        f"-seed={seed}",
        f"-max_len={MOST}",
        "-len_control=0",
        "-timeout=3600",
        "-report_slow_units=3600",
        "-rss_limit_mb=3000",
        "-print_final_stats=1",
        "-verbosity=1",
        f"-artifact_prefix={found}/",
    ]
    begun = time.monotonic()
    status, wrote, processor = measured(words)
    seconds = time.monotonic() - begun
    figures = dict(re.findall(r"(?m)^stat::(\w+): +(\d+)", wrote))
    reached = re.findall(r"cov: (\d+) ft: (\d+) corp: (\d+)", wrote)
    branches = re.search(r"\((\d+) inline 8-bit counters\)", wrote)
    cov, features, kept_count = reached[-1] if reached else ("0", "0", "0")
    print(
        f"{source.name}: {figures.get('number_of_executed_units', '?')} inputs in {seconds:.0f} s, {processor:.0f} s of"
        f" processor; {cov} branches reached{f' of {branches[1]}' if branches else ''}, {features} features,"
        f" {kept_count} inputs kept; at most {figures.get('peak_rss_mb', '?')} MB; seed {seed}"
    )
    artifacts = sorted(found.iterdir())
    if status == 0 and not artifacts:
        return 0
    fault = re.search(r"(?m)^fuzz\w*\.[ch]:\d+: at record", wrote)
    said = wrote[fault.start():] if fault else wrote[-4000:]
    if not artifacts:
        print(said)
    with ALONE:
        for it in artifacts:
            keep(source, single, it.read_bytes(), said, folder, kept)
    return 1


def measured(words: Sequence[str | pathlib.Path]) -> tuple[int, str, float]:
    """The status of a command, what it wrote on standard error, and its seconds of processor."""
    with tempfile.TemporaryFile("w+", errors="replace") as wrote:
        child = subprocess.Popen(
            [str(it) for it in words], stdin=subprocess.DEVNULL, stdout=subprocess.DEVNULL, stderr=wrote
        )
        _, status, used = os.wait4(child.pid, 0)
        child.returncode = os.waitstatus_to_exitcode(status)
        wrote.seek(0)
        return child.returncode, wrote.read(), used.ru_utime + used.ru_stime


def positive(word: str) -> float:
    value = float(word)
    if not 0 < value <= 100_000:
        raise argparse.ArgumentTypeError(f"{word} isn't a number above 0, and 100,000 at most")
    return value


def tried(source: Source, code: pathlib.Path | None, folder: pathlib.Path, given: argparse.Namespace) -> int:
    """Tries inputs of a source as the words say, over the archive or, by libFuzzer, over `code`."""
    compiler = COMPILER or ""
    if given.input or code is None:
        shipped = alone(source, library.archive(given.archive), folder, compiler)
        if not given.input:
            return by_chance(source, shipped, given.seconds, given.seed, folder, given.keep)
        ran = run([shipped, given.input])
        print(ran.stdout.strip() if ran.returncode == 0 else ran.stderr)
        return ran.returncode
    program = built(
        ["clang", *FLAGS, f"-fsanitize=fuzzer,{SANITIZED}", "-fno-sanitize-recover=all", HERE / source.program, code],
        folder / f"fuzz-{source.name}",
    )
    return by_coverage(
        source, program, alone(source, code, folder, "clang"), given.minutes, given.seed, folder, given.keep
    )


def main() -> int:
    reads = argparse.ArgumentParser(description=__doc__, formatter_class=argparse.RawDescriptionHelpFormatter)
    reads.add_argument("archive", nargs="?", type=pathlib.Path, help="the archive (crates/dt_c/out/libdt_c.a)")
    reads.add_argument("--only", choices=[it.name for it in SOURCES], help="try these alone")
    reads.add_argument("--seconds", type=positive, default=20, help="inputs by chance, for so long (%(default)s)")
    reads.add_argument("--minutes", type=positive, metavar="M", help="inputs that libFuzzer draws, for so long")
    reads.add_argument("--seed", type=int, default=1, help="what the inputs are drawn from (%(default)s)")
    reads.add_argument(
        "--keep", type=pathlib.Path, metavar="FOLDER", help="keep those that fail there (a new folder below /tmp)"
    )
    reads.add_argument("--input", type=pathlib.Path, metavar="FILE", help="try this input alone")
    reads.add_argument("--plain", action="store_true", help="link the archive as it is")
    given = reads.parse_args()
    if given.input and not given.only:
        reads.error("--input wants --only")
    if COMPILER is None:
        skip("there is no compiler of C")
    sources = [it for it in SOURCES if given.only in (None, it.name)]
    with tempfile.TemporaryDirectory(prefix="deltat-library-fuzz-") as name:
        folder = pathlib.Path(name)
        archive = library.archive(given.archive)
        for it in [] if given.input else sources:
            unseen = blind(it, archive, folder, COMPILER)
            if unseen:
                print(
                    f"no fault found with a library that is spoilt in the way {', '.join(map(str, unseen))} of"
                    f" {it.spoil}"
                )
                return 1
        if given.input or not given.minutes:
            return max([tried(it, None, folder, given) for it in sources])
        code = archive if given.plain else instrumented(folder)
        rooms = [folder / it.name for it in sources]
        for it in rooms:
            it.mkdir()
        with ThreadPoolExecutor(len(sources)) as pool:
            return max(pool.map(lambda it, room: tried(it, code, room, given), sources, rooms))


if __name__ == "__main__":
    sys.exit(main())
