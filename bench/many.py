#!/usr/bin/env python3
"""What a turn of a node or a service costs beside what is open, and what losses and windows cost a flow, of one library
or of two in one run. `bench/many.py [--old LIBRARY] [--most N] [--runs N] [ROW ..]`.

bench/many.c is compiled against include/deltat.h and run over lib/libdeltat.so, and over LIBRARY too where one is
named: an older one of the same interface. They take turns, and the least of the runs is shown. Two handles of one
process exchange datagrams in memory, so neither sockets nor the system count. The rows:

- calls, untaken, answers, ports: a call, a reply and an arrival beside N calls that wait, N requests that the program
  hasn't taken, N answers that it hasn't taken, N ports that have a kind
- unfinished: marking and taking a message beside N flows whose message isn't whole
- release: the tick that releases the records of N flows
- link: the heap of one link, where segments have at most N octets
- lossy: N calls under way on one flow, 5 % of datagrams lost, 2 ms each way
- transfer: 4 MiB on one flow, 20 ms each way, at N per mille of loss

Both have shelves of 256 datagrams where the library has shelves.
- window: twice N octets, 20 ms each way: the acknowledgement of the first half makes room for the second

Ends with 1 where a row doesn't end with 0."""
import argparse
import pathlib
import subprocess
import sys
import tempfile

TOP = pathlib.Path(__file__).resolve().parent.parent
# the rows that grow, and the N of the others
GROWING = ("calls", "untaken", "answers", "ports", "unfinished", "release")
SIZES = (1, 1_000, 10_000, 50_000)
OTHERS = {"link": (64, 500, 1_500, 8_186), "lossy": (1, 32), "transfer": (10, 50, 150), "window": (60_000, 65_532)}
# seconds that one row may take
LIMIT = 900
Figures = dict[str, tuple[float, str]]


def compiled(folder: pathlib.Path, library: pathlib.Path) -> pathlib.Path:
    """The program, linked with this library."""
    made = folder / f"many-{library.parent.name}-{library.stat().st_ino}"
    source = str(TOP / "bench" / "many.c")
    words = ["cc", "-std=c11", "-O2", f"-I{TOP / 'include'}", "-o", str(made), source, str(library)]
    subprocess.run([*words, f"-Wl,-rpath,{library.parent}"], check=True)
    return made


def measured(made: pathlib.Path, row: str, size: int) -> Figures:
    """What one run of a row writes: each figure's name, with its value and unit."""
    ran = subprocess.run([made, row, str(size)], capture_output=True, text=True, timeout=LIMIT)
    if ran.returncode:
        sys.exit(f"bench/many.py: {row} {size} ended with {ran.returncode}: {ran.stderr.strip()}")
    lines = (it.split() for it in ran.stdout.splitlines())
    return {name: (float(value), unit) for name, value, unit in lines}


def least(runs: list[Figures]) -> Figures:
    """The least of each figure, or the greatest where more is better."""
    best = {name: max if unit == "a-second" else min for name, (_, unit) in runs[0].items()}
    return {name: (best[name](it[name][0] for it in runs), runs[0][name][1]) for name in runs[0]}


def library_of(name: str) -> pathlib.Path:
    """The library at this path, or a usage error."""
    found = pathlib.Path(name).resolve()
    if not found.is_file():
        raise argparse.ArgumentTypeError(f"there is no library {name}; `make -C lib` makes one")
    return found


def words() -> argparse.Namespace:
    """What the command says."""
    reads = argparse.ArgumentParser(description=__doc__, formatter_class=argparse.RawDescriptionHelpFormatter)
    reads.add_argument("--old", type=library_of, metavar="LIBRARY")
    reads.add_argument("--library", type=library_of, default=None, metavar="LIBRARY")
    reads.add_argument("--most", type=int, default=SIZES[-1], metavar="N", help="leave out larger N of growing rows")
    reads.add_argument("--runs", type=int, default=3, metavar="N")
    reads.add_argument("rows", nargs="*", metavar="ROW")
    said = reads.parse_args()
    strange = [it for it in said.rows if it not in (*GROWING, *OTHERS)]
    if strange:
        reads.error(f"there is no row {strange[0]}; there are {', '.join((*GROWING, *OTHERS))}")
    if said.library is None:
        made = sorted((TOP / "lib").glob("libdeltat.so.*"))
        if not made:
            reads.error("there is no library in lib: `make -C lib` makes one")
        said.library = made[-1]
    return said


def main() -> int:
    said = words()
    libraries = {"old": said.old, "new": said.library} if said.old else {"new": said.library}
    with tempfile.TemporaryDirectory() as room:
        made = {name: compiled(pathlib.Path(room), it) for name, it in libraries.items()}
        print(f"{'row':10} {'N':>6}  {'figure':18} {'unit':9} " + " ".join(f"{it:>10}" for it in made))
        for row in said.rows or (*GROWING, *OTHERS):
            sizes = [it for it in SIZES if it <= said.most] if row in GROWING else OTHERS[row]
            for size in sizes:
                runs: dict[str, list[Figures]] = {name: [] for name in made}
                for _ in range(said.runs):
                    for name, program in made.items():
                        runs[name].append(measured(program, row, size))
                best = {name: least(it) for name, it in runs.items()}
                for figure, (_, unit) in best["new"].items():
                    values = " ".join(f"{best[name][figure][0]:10.2f}" for name in made)
                    print(f"{row:10} {size:6}  {figure:18} {unit:9} {values}", flush=True)
    return 0


if __name__ == "__main__":
    sys.exit(main())
