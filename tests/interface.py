#!/usr/bin/env python3
"""The interface of libdeltat as programs meet it: what is made from the header, what an older program gets, and how the
installed library is found.

Usage: tests/interface.py [FOLDER], with libdeltat.a and libdeltat.so.2 in FOLDER, or in lib/.

- release/interface.py finds no difference between the header and its copies (the exports of crates/dt_c included); and
  it finds one after each of some changes of a copy of the header: a field that was moved, a status with another number,
  a parameter that has another type.
- The ctypes tables have the sizes and places of release/interface.py, and load the library. dt_status_name,
  dt_fault_name and dt_report_name give each constant's own name.
- A program of interface 1 isn't linked, with libdeltat.a or with libdeltat.so, and the linker names its functions; one
  that is linked already doesn't start, with libdeltat.so.2 under its own name or under that of the older library; and
  the Python package refuses a library of interface 1.
- `make install` into a folder: examples/hello.c and examples/hello.cpp are compiled by pkg-config and by CMake's
  find_package, with the shared library and with the static one, and run; a version that isn't there is refused.

In tests/all: no words, 300 s."""
import ctypes
import importlib
import os
import pathlib
import re
import shutil
import subprocess
import sys
import tempfile
from collections.abc import Iterator

from lib import TOP, skip

sys.dont_write_bytecode = True
sys.path[:0] = [str(TOP / "release"), str(TOP / "bindings" / "python" / "deltat")]
import interface  # noqa: E402

SONAME = f"libdeltat.so.{next(it.value for it in interface.header().constants if it.name == 'DT_ABI_VERSION')}"

# what a program of interface 1 declared, as far as it is called here
FORMER = """#include <stdint.h>
#include <stddef.h>
typedef struct dt_node dt_node;
uint32_t dt_abi(void);
size_t dt_size(void);
void dt_init(dt_node *n);
uint8_t dt_tick(dt_node *n, uint64_t now);
static char room[65536];
int main(void) {
    if (dt_abi() != 1 || dt_size() > sizeof room) return 1;
    dt_init((dt_node *)room);
    return dt_tick((dt_node *)room, 0) != 2;
}
"""
# a shared library with these names, as interface 1 had it
FORMER_LIBRARY = """#include <stdint.h>
#include <stddef.h>
uint32_t dt_abi(void) { return 1; }
size_t dt_size(void) { return 1; }
void dt_init(void *n) { (void)n; }
uint8_t dt_tick(void *n, uint64_t now) { (void)n, (void)now; return 2; }
"""
CMAKE = """cmake_minimum_required(VERSION 3.13)
project(hello C CXX)
find_package(deltat {version} REQUIRED)
set(CMAKE_CXX_STANDARD 17)
add_executable(hello_c hello.c)
target_link_libraries(hello_c PRIVATE deltat::deltat)
add_executable(hello_cpp hello.cpp)
target_link_libraries(hello_cpp PRIVATE deltat::static)
"""

Case = tuple[str, bool, str]


def run(*command: object, **more: str) -> subprocess.CompletedProcess[str]:
    words = [str(it) for it in command]
    return subprocess.run(words, capture_output=True, text=True, timeout=120, env={**os.environ, "LC_ALL": "C", **more})


def found_with(text: str) -> list[str]:
    """What is found when the header has this text: the files that aren't made of it, and where the exports differ."""
    begins = text.index('#ifdef __cplusplus\nextern "C" {')
    real, interface.header = interface.header, lambda: interface.read(text[begins:])
    interface.layout.cache_clear()
    try:
        stale = [path.name for path, made in interface.MADE.items() if path.read_text() != made()]
        return [*stale, *interface.differences_of_exports()]
    finally:
        interface.header = real
        interface.layout.cache_clear()


def copies() -> Iterator[Case]:
    found = [f"{path.name}: {what}" for path, what in interface.differences()]
    yield "what is made from the header is as it is made", not found, "; ".join(found[:3])
    text = interface.HEADER.read_text()
    for what, old, new, stale in (
        ("a field that was moved", "uint32_t source, target;", "uint32_t target, source;", "sys.rs"),
        ("another number of a status", "DT_GONE = 18 ", "DT_GONE = 19 ", "_c.py"),
        (
            "another type of a parameter",
            "_tick(dt_node *node, uint64_t now)",
            "_tick(dt_node *node, uint32_t now)",
            "dt_node_tick has",
        ),
        ("another type of a field", "    uint32_t mpl; ", "    uint64_t mpl; ", "struct dt_params and"),
        ("another name of a status", "DT_FULL = 7", "DT_ROOM = 7", "names.c"),
    ):
        refused = [it for it in found_with(text.replace(old, new)) if stale in it]
        yield f"a header with {what} is refused", text.count(old) == 1 and bool(refused), ""


def layouts(tables: object) -> Iterator[Case]:
    wrong = []
    for it in interface.header().structs:
        struct, (places, size) = getattr(tables, interface.camel(it.name)), interface.layout(it)
        own = {name: getattr(struct, name).offset for name, *_ in struct._fields_}
        wrong += [it.name] if own != places or ctypes.sizeof(struct) != size else []
    yield "the structs of ctypes have the places of C", not wrong, " ".join(wrong)


def names(library: ctypes.CDLL) -> Iterator[Case]:
    wrong = []
    for what, enum, _ in interface.NAMED:
        wanted = {it.value: it.name for it in interface.header().enum(enum).members}
        name_of = getattr(library, f"dt_{what}_name")
        wrong += [f"{what} {it}" for it in range(256) if name_of(it).decode() != wanted.get(it, f"unknown {what}")]
    yield "each constant has its name", not wrong, " ".join(wrong[:5])
    version = library.dt_version().decode()
    yield "the library has the version of VERSION", version == (TOP / "VERSION").read_text().strip(), version


def former(folder: pathlib.Path, libraries: pathlib.Path, tables: object) -> Iterator[Case]:
    """What a program of interface 1 meets."""
    (folder / "former.c").write_text(FORMER)
    (folder / "library.c").write_text(FORMER_LIBRARY)
    (folder / "former.map").write_text("DELTAT_0 { global: dt_*; local: *; };\n")
    old = folder / "libdeltat.so.0"
    words = [f"-Wl,--version-script={folder / 'former.map'}", "-Wl,-soname,libdeltat.so.0"]
    run("cc", "-shared", "-fPIC", folder / "library.c", *words, "-o", old)
    gnu = "GNU ld" in run("ld", "--version").stdout
    for library in (libraries / "libdeltat.a", libraries / SONAME):
        ran = run("cc", folder / "former.c", library, "-o", folder / "linked")
        names_it = "undefined reference to `dt_init'" in ran.stderr or "undefined symbol: dt_init" in ran.stderr
        says_why = "dt_init is of interface 1 of libdeltat" in ran.stderr and "see dt_node_init" in ran.stderr
        good = ran.returncode != 0 and names_it and (says_why or not gnu)
        yield f"a program of interface 1 isn't linked with {library.name}, which says why", good, ran.stderr[-300:]
    program, place = folder / "program", folder / "place"
    place.mkdir()
    ran = run("cc", folder / "former.c", old, "-o", program)
    runs = ran.returncode == 0 and run(program, LD_LIBRARY_PATH=str(folder)).returncode == 0
    yield "(it is linked with its own library, and runs)", runs, ran.stderr
    shutil.copy(libraries / SONAME, place)
    ran = run(program, LD_LIBRARY_PATH=str(place))
    why = "libdeltat.so.0: cannot open shared object file"
    yield "it doesn't start with the new library", ran.returncode != 0 and why in ran.stderr, ran.stderr
    (place / "libdeltat.so.0").symlink_to(SONAME)
    ran = run(program, LD_LIBRARY_PATH=str(place))
    why = "version `DELTAT_0' not found"
    yield "nor with the new library by the old name", ran.returncode != 0 and why in ran.stderr, ran.stderr
    try:
        tables.load(str(old))
        yield "a library of interface 1 isn't loaded by ctypes", False, ""
    except ImportError as said:
        good = "has interface 1, and this package needs 2; install" in str(said)
        yield "a library of interface 1 isn't loaded by ctypes", good, str(said)


def installed(folder: pathlib.Path, libraries: pathlib.Path) -> Iterator[Case]:
    """What pkg-config and CMake make of an installed library."""
    prefix, greets = folder / "prefix", "hello\n"
    clone = folder / "clone"
    for it in ("lib", "include"):
        shutil.copytree(TOP / it, clone / it, ignore=shutil.ignore_patterns("*.o", "*.part"))
    shutil.copy(TOP / "VERSION", clone)
    for it in ("libdeltat.a", SONAME):
        shutil.copy(libraries / it, clone / "lib")
    # what is linked already is newer than what it is made of
    words = [
        f"PREFIX={prefix}",
        f"ARCHIVE={libraries / 'libdeltat.a'}",
        "--old-file=libdeltat.a",
        f"--old-file={SONAME}",
    ]
    ran = run("make", "-C", clone / "lib", "install", *words)
    yield "make install", ran.returncode == 0, ran.stderr[-500:]
    finds = {"PKG_CONFIG_PATH": str(prefix / "lib" / "pkgconfig"), "LD_LIBRARY_PATH": str(prefix / "lib")}
    if shutil.which("pkg-config"):
        words = run("pkg-config", "--cflags", "--libs", "deltat", **finds).stdout.split()
        for compiler, standard, name in (("cc", "-std=c11", "hello.c"), ("c++", "-std=c++17", "hello.cpp")):
            built = folder / f"{name}.out"
            ran = run(compiler, standard, "-Wall", "-Wextra", "-Werror", TOP / "examples" / name, *words, "-o", built)
            said = run(built, **finds).stdout if ran.returncode == 0 else ran.stderr
            yield f"{name} by pkg-config", said == greets, said[-300:]
    if not shutil.which("cmake"):
        return
    project = folder / "project"
    project.mkdir()
    for name in ("hello.c", "hello.cpp"):
        shutil.copy(TOP / "examples" / name, project)
    version = re.match(r"\d+\.\d+", (TOP / "VERSION").read_text())
    for wanted, is_there in ((version[0] if version else "", True), ("99.0", False)):
        (project / "CMakeLists.txt").write_text(CMAKE.format(version=wanted))
        ran = run("cmake", "-S", project, "-B", project / wanted, f"-DCMAKE_PREFIX_PATH={prefix}")
        good = (ran.returncode == 0) == is_there
        yield f"find_package(deltat {wanted}) {'finds it' if is_there else 'is refused'}", good, ran.stderr[-300:]
        if not is_there:
            continue
        ran = run("cmake", "--build", project / wanted)
        built = [project / wanted / name for name in ("hello_c", "hello_cpp")]
        said = [run(it).stdout if it.exists() else ran.stderr[-300:] for it in built]
        yield "deltat::deltat and deltat::static by CMake", said == [greets, greets], str(said)


def cases(libraries: pathlib.Path) -> Iterator[Case]:
    tables = importlib.import_module("_c")
    library = tables.load(str(libraries / SONAME))
    yield from copies()
    yield from layouts(tables)
    yield from names(library)
    with tempfile.TemporaryDirectory() as folder:
        yield from former(pathlib.Path(folder), libraries, tables)
        yield from installed(pathlib.Path(folder), libraries)


def main() -> int:
    libraries = pathlib.Path(sys.argv[1]).resolve() if len(sys.argv) > 1 else TOP / "lib"
    if not (libraries / SONAME).exists():
        skip(f"there is no {SONAME} in {libraries}: make -C lib")
    if not shutil.which("cc") or not shutil.which("make"):
        skip("there is no compiler of C, or no make")
    failed = count = 0
    for name, good, more in cases(libraries):
        print(f"{'ok' if good else 'FAILED'}: {name}{': ' + more if more and not good else ''}", flush=True)
        failed, count = failed + (not good), count + 1
    print(f"{count - failed} passed, {failed} failed")
    return 1 if failed else 0


if __name__ == "__main__":
    sys.exit(main())
