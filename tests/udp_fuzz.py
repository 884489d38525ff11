#!/usr/bin/env python3
"""Any octets as datagrams of the driver over UDP, with the address and undefined-behaviour sanitizers:
tests/udp/fuzz.c.

`tests/udp_fuzz.py [--seconds S] [--seed N] [--keep FOLDER] [--input FILE]`. With a clang that has libFuzzer it draws
the inputs, and keeps those that reach other code of the driver; else they are drawn by chance. Ends with 1 where an
input fails, which is kept in a folder that is named; with 77 where there is no compiler or no archive. Before that
the checks have to find fault with a driver that answers strangers with frames.

In tests/all: --seconds 60, 900 s."""
import argparse
import pathlib
import re
import shutil
import subprocess
import sys
import tempfile
import time

from lib import TOP, skip

FUZZ = TOP / "tests" / "udp" / "fuzz.c"
ARCHIVE = TOP / "lib" / "libdeltat.a"
FLAGS = [
    "-std=c11",
    "-D_GNU_SOURCE",
    "-Wall",
    "-Wextra",
    "-Werror",
    "-O1",
    "-g",
    f"-I{TOP / 'include'}",
    "-fno-sanitize-recover=all",
]
# the inputs by chance in one process, and those until a spoilt driver is found
EACH, ENOUGH = 500, 3000
# what spoils the driver: a stranger's datagram is passed in as if its maker were known
SPOILT = (
    "if (u->strangers.proofs == NULL || !is_plausible(u, it, peer)) {",
    "(void)is_plausible; keep(u, it, peer, &(struct proof){.node = it->maker}); if (true) {",
)


def built(words: list[str], out: pathlib.Path) -> pathlib.Path:
    ran = subprocess.run([*words, "-o", str(out)], capture_output=True, text=True, check=False)
    if ran.returncode:
        sys.exit(f"{' '.join(words)}\n{ran.stderr}")
    return out


def sources(folder: pathlib.Path, spoilt: bool = False) -> list[str]:
    """The driver's files, of which one is spoilt."""
    found = sorted((TOP / "lib" / "udp").glob("*.c"))
    if spoilt:
        text = (TOP / "lib" / "udp" / "strangers.c").read_text()
        if text.count(SPOILT[0]) != 1:
            sys.exit("strangers.c isn't spoilt: the line that is replaced isn't there once")
        copy = folder / "strangers.c"
        copy.write_text(text.replace(*SPOILT))
        found = [copy if it.name == "strangers.c" else it for it in found]
    return [str(it) for it in found]


def alone(compiler: str, folder: pathlib.Path, spoilt: bool = False) -> pathlib.Path:
    """The program with a main of its own."""
    words = [
        compiler,
        *FLAGS,
        "-DALONE",
        "-fsanitize=address,undefined",
        f"-I{TOP / 'lib' / 'udp'}",
        str(FUZZ),
        *sources(folder, spoilt),
        str(ARCHIVE),
    ]
    return built(words, folder / ("spoilt" if spoilt else "alone"))


def by_chance(program: pathlib.Path, seconds: float, seed: int) -> int:
    begun, tried = time.monotonic(), 0
    while time.monotonic() - begun < seconds:
        ran = subprocess.run(
            [str(program), "--count", str(EACH), "--seed", str(seed + tried)],
            capture_output=True,
            text=True,
            timeout=300,
            check=False,
        )
        if ran.returncode:
            print(f"{ran.stderr[-3000:]}\nan input of fuzz --count {EACH} --seed {seed + tried} fails")
            return 1
        tried += 1
    print(f"{tried * EACH} inputs by chance")
    return 0


def by_coverage(folder: pathlib.Path, given: argparse.Namespace) -> int:
    words = [
        "clang",
        *FLAGS,
        "-fsanitize=fuzzer,address,undefined",
        f"-I{TOP / 'lib' / 'udp'}",
        str(FUZZ),
        *sources(folder),
        str(ARCHIVE),
    ]
    program = built(words, folder / "fuzz")
    kept = given.keep or pathlib.Path(tempfile.mkdtemp(prefix="deltat-udp-fuzz-"))
    kept.mkdir(parents=True, exist_ok=True)
    (folder / "corpus").mkdir()
    options = [
        f"-max_total_time={given.seconds:.0f}",
        f"-seed={given.seed}",
        "-max_len=2000",
        "-len_control=0",
        "-print_final_stats=1",
        f"-artifact_prefix={kept}/",
    ]
    ran = subprocess.run(
        [str(program), *options, str(folder / "corpus")], capture_output=True, text=True, errors="replace", check=False
    )
    stats = dict(re.findall(r"stat::(\w+): +(\d+)", ran.stderr))
    reached = re.findall(r"cov: (\d+) ft: (\d+) corp: (\d+)", ran.stderr) or [("0", "0", "0")]
    print(
        (
            f"{stats.get('number_of_executed_units', '?')} inputs in {given.seconds:.0f} s, {reached[-1][0]} branches,"
            f" {reached[-1][2]} inputs kept, at most {stats.get('peak_rss_mb', '?')} MB"
        )
    )
    if ran.returncode == 0 and not any(kept.iterdir()):
        kept.rmdir()
        return 0
    print(f"{ran.stderr[-4000:]}\ninputs that fail: {kept}")
    return 1


def main() -> int:
    reads = argparse.ArgumentParser(description=__doc__, formatter_class=argparse.RawDescriptionHelpFormatter)
    reads.add_argument("--seconds", type=float, default=60)
    reads.add_argument("--seed", type=int, default=1)
    reads.add_argument("--keep", type=pathlib.Path, metavar="FOLDER")
    reads.add_argument("--input", type=pathlib.Path, metavar="FILE")
    given = reads.parse_args()
    compiler = shutil.which("clang") or shutil.which("gcc")
    if not compiler or not ARCHIVE.exists():
        skip(f"there is no compiler of C, or no {ARCHIVE.relative_to(TOP)}: make -C lib")
    with tempfile.TemporaryDirectory(prefix="deltat-udp-fuzz-") as name:
        folder = pathlib.Path(name)
        if given.input:
            return subprocess.run([str(alone(compiler, folder)), str(given.input)], check=False).returncode
        words = [str(alone(compiler, folder, spoilt=True)), "--count", str(ENOUGH), "--seed", "1"]
        if subprocess.run(words, capture_output=True, timeout=250, check=False).returncode == 0:
            print("no fault is found with a driver that answers strangers")
            return 1
        probe = subprocess.run(
            [compiler, "-fsanitize=fuzzer", "-x", "c", "-", "-o", "/dev/null"],
            input="int LLVMFuzzerTestOneInput(const char *p, unsigned long n) { return p && n > 1 ? 0 : 0; }",
            capture_output=True,
            text=True,
            check=False,
        )
        if probe.returncode == 0:
            return by_coverage(folder, given)
        return by_chance(alone(compiler, folder), given.seconds, given.seed)


if __name__ == "__main__":
    sys.exit(main())
