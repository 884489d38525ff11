#!/usr/bin/env python3
"""Makes the library for aarch64 beside this file, proved for that target.

    lib/aarch64.py                  libdeltat-aarch64.a, for a program of Linux: with the C files of lib/, so over
                                    malloc
    lib/aarch64.py --without-heap   libdeltat-aarch64-bare.a, for a machine without a system: without these. The
                                    program has the three functions of lib/heap.c, and memcpy, memmove and memset
                                    (examples/bare)

`./build --only dt_c` is for the processor that it runs on, and rattle, which it calls, for others too. So this calls
rattle on crates/dt_c, over the libraries below it, and adds the C files of lib/, compiled by $CC or
aarch64-linux-gnu-gcc. They are compiled before anything is proved, so what is missing for them is said at once. The
libraries are those of `./build`: after it only dt_c is proved anew, and without it `./build` proves them first.
`rt ci` keeps none that this could take.

Ends with rattle's status, 1 where a crate isn't proved or a file doesn't compile, and 2 where a tool is missing."""
import argparse
import importlib.machinery
import importlib.util
import os
import pathlib
import shutil
import subprocess
import sys
import tempfile
from types import ModuleType

HERE = pathlib.Path(__file__).resolve().parent
TOP = HERE.parent
CRATES = TOP / "crates"
CRATE, TARGET = "dt_c", "aarch64-unknown-linux-gnu"
WANTED = {False: HERE / "libdeltat-aarch64.a", True: HERE / "libdeltat-aarch64-bare.a"}


def build() -> ModuleType:
    """`./build`, as a module: it knows the crates, and how rattle is called on one."""
    sys.dont_write_bytecode = True
    loader = importlib.machinery.SourceFileLoader("build", str(TOP / "build"))
    spec = importlib.util.spec_from_loader("build", loader)
    assert spec
    module = importlib.util.module_from_spec(spec)
    loader.exec_module(module)
    return module


def words(out: pathlib.Path, target: str, tools: pathlib.Path | None = None) -> list[str]:
    """What rattle is called with on the library, as `./build` calls it, but for the target and, where they are named,
    the tools that compile what is proved. The libraries below it are proved first."""
    builds = build()
    crates, toolchain = builds.Crates(TOP), builds.Toolchain()
    subprocess.run([TOP / "build", "--only", *crates.below[CRATE]], check=True)
    most = min(len(os.sched_getaffinity(0)), builds.MOST_JOBS)
    jobs = max((it for it in range(1, most + 1) if builds.need(it) <= builds.available()), default=1)
    said = toolchain.proves(crates, CRATE, builds.libraries(TOP), jobs)
    into = ["--crate-type", "staticlib", "--target", target, "-o", str(out)]
    return [*said, "--toolchain", str(tools or toolchain.folder / "toolchain"), *into]


def compiled(compiler: str, folder: str) -> list[pathlib.Path] | None:
    """The C files of lib/, compiled into that folder; none where one doesn't compile, and the compiler said why."""
    members = []
    for source in sorted(HERE.glob("*.c")):
        members.append(pathlib.Path(folder, f"{source.stem}.o"))
        flags = ["-O2", "-Wall", "-Wextra", "-Werror", "-fPIC", f"-I{TOP / 'include'}"]
        if subprocess.run([compiler, *flags, "-c", source, "-o", members[-1]], check=False).returncode:
            what = f"{compiler} doesn't compile {source.name}; install libc6-dev-arm64-cross, or say --without-heap"
            print(f"aarch64.py: {what}", file=sys.stderr)
            return None
    return members


def proved(archive: pathlib.Path) -> tuple[int, pathlib.Path]:
    """Proves the library for the target into that archive; rattle's status, and the folder of its tools."""
    proves = words(archive, TARGET)
    done = subprocess.run(proves, cwd=CRATES / CRATE, capture_output=True, text=True)
    said = done.stdout + done.stderr
    print(said if done.returncode else next((it for it in said.splitlines() if it.startswith("logic=")), "proved"))
    return done.returncode, pathlib.Path(proves[proves.index("--toolchain") + 1])


def main() -> int:
    reads = argparse.ArgumentParser(description=__doc__, formatter_class=argparse.RawDescriptionHelpFormatter)
    what = "leave out the C files of lib/: the program has the functions of heap.c"
    reads.add_argument("--without-heap", action="store_true", help=what)
    given = reads.parse_args()
    compiler = os.environ.get("CC", "aarch64-linux-gnu-gcc")
    missing = [it for it in ([] if given.without_heap else [compiler]) + ["rt"] if not shutil.which(it)]
    if missing:
        print(f"aarch64.py: there is no {missing[0]}", file=sys.stderr)
        return 2
    with tempfile.TemporaryDirectory() as folder:
        members = [] if given.without_heap else compiled(compiler, folder)
        if members is None:
            return 1
        archive = pathlib.Path(folder, "libdt_c.a")
        try:
            status, tools = proved(archive)
        except subprocess.CalledProcessError:
            return 1
        if status:
            return status
        if members:
            subprocess.run([tools / "bin" / "llvm-ar", "rs", archive, *members], check=True, stderr=subprocess.DEVNULL)
        shutil.move(archive, WANTED[given.without_heap])
    print(WANTED[given.without_heap])
    return 0


if __name__ == "__main__":
    sys.exit(main())
