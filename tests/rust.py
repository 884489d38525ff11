#!/usr/bin/env python3
"""The crates of bindings/rust over libdeltat: `tests/rust.py [TEST ..]`. Ends with 1 where one of these fails, and with
77 where there is no cargo, or no libdeltat.a and libdeltat-udp.a in lib/ (DELTAT_LIB_DIR names another folder).

- declared: what deltat-sys and deltat-udp-sys declare is what include/deltat.h and deltat_udp.h have: a C compiler
  compares the prototypes, and two programs the sizes of structs, the places of their fields and the numbers.
- crates: without a network and without warnings cargo builds all of it, runs the tests of the crates and those in
  their documents, and makes the documents; clippy has nothing to say, where there is one.
- found: library and driver are found by a deltat.pc, also the shared ones; a folder without one is named in the error.
- interfaces: a program isn't linked with a library of interface 1, and one of interface 3 is refused at the opening.
- short: the program of docs/library.md is examples/min.rs of deltat-udp, has 26 lines or fewer, and answers.
- echo: over a link that drops 1 of 100 datagrams the example answers 120 words, each once and in order, while
  strangers send to it and it is stopped eight times for 80 ms; opened again it is silent at first, and answers. On a
  machine that is slower than the parameters allow, what wasn't answered was reported as uncertain.
- calls: over such a link each of 100 calls is answered with its own answer; one that nobody serves is unsure.

In tests/all: no words, 400 s."""
from __future__ import annotations

import os
import pathlib
import random
import re
import shutil
import signal
import subprocess
import sys
import tempfile
import threading
import time
from collections.abc import Callable, Iterator
from contextlib import contextmanager

from lib import HOST, TOP, Between, bound, is_up, skip

CRATES = TOP / "bindings" / "rust"
SYS = CRATES / "deltat-sys" / "src" / "sys.rs"
SYS_UDP = CRATES / "deltat-udp-sys" / "src" / "sys.rs"
LIBRARY = pathlib.Path(os.environ.get("DELTAT_LIB_DIR", TOP / "lib")).resolve()
C_TYPES = {"u8": "uint8_t", "u16": "uint16_t", "u32": "uint32_t", "u64": "uint64_t", "usize": "size_t", "bool": "bool",
           "f64": "double", "c_char": "char", "c_void": "void", "dt_status": "dt_status", "i32": "int32_t",
           "c_int": "int", "i64": "int64_t"}
ARCHIVES = ("libdeltat.a", "libdeltat-udp.a")
LONGEST_PROGRAM = 26
# how often a service is stopped while it is asked
STOPS = 8
# the silence of nodes with the parameters of the examples, in seconds
SILENT = 2.0


def ran(words: list[str], seconds: float, **how: object) -> subprocess.CompletedProcess[str]:
    return subprocess.run(words, capture_output=True, text=True, timeout=seconds, check=False, **how)


def cargo(target: str, *words: str, **variables: str) -> subprocess.CompletedProcess[str]:
    """What cargo does in the workspace without a network, with its files in a folder of the test."""
    names = {**os.environ, "DELTAT_LIB_DIR": str(LIBRARY), **variables, "CARGO_TARGET_DIR": target}
    return ran(["cargo", words[0], "--offline", *words[1:]], 300, cwd=CRATES, env=names)


def well(what: str, it: subprocess.CompletedProcess[str]) -> bool:
    """Whether a command ended with 0 and warned of nothing. If not, it is said."""
    right = it.returncode == 0 and "warning" not in it.stderr
    if not right:
        print(f"{what} ended with {it.returncode}: {(it.stdout + it.stderr)[-1500:]}")
    return right


# --- declarations


def c_type(rust: str) -> str:
    pointer = re.fullmatch(r"\*(const|mut) (\w+)", rust)
    if not pointer:
        return C_TYPES.get(rust, f"struct {rust}")
    const, name = pointer.groups()
    return f"{'const ' if const == 'const' else ''}{C_TYPES.get(name, f'struct {name}')} *"


def prototypes(text: str) -> list[str]:
    """The functions that a sys.rs declares, as C has them."""
    found = []
    for name, words, result in re.findall(r"pub fn (\w+)\((.*?)\)(?: -> ([^;]+))?;", text, re.DOTALL):
        given = [c_type(it.split(":")[1].strip()) for it in words.split(",") if ":" in it]
        found.append(f"{c_type(result) if result else 'void'} {name}({', '.join(given) or 'void'});")
    return found


def structs(text: str) -> dict[str, list[str]]:
    """The structs that a sys.rs has and their fields, without those of which only pointers are known."""
    found = re.findall(r"pub struct (\w+) \{\n(.*?)\n\}", text, re.DOTALL)
    return {name: re.findall(r"^\s+pub (\w+):", body, re.MULTILINE) for name, body in found if "_data" not in body}


NUMBERS = re.compile(r"pub const (\w+): (?:u\d+|usize|dt_status) =")


def in_c(text: str, header: str) -> str:
    lines = [f'#include "{header}"', "#include <stdio.h>", *prototypes(text), "int main(void) {"]
    for name, fields in structs(text).items():
        lines.append(f'printf("{name} %zu\\n", sizeof(struct {name}));')
        lines += [f'printf("{name}.{it} %zu\\n", offsetof(struct {name}, {it}));' for it in fields]
    for name in NUMBERS.findall(text):
        lines.append(f'printf("{name} %llu\\n", (unsigned long long)({name}));')
    return "\n".join([*lines, "return 0; }"])


def in_rust(text: str, sys_rs: pathlib.Path) -> str:
    lines = ["#![allow(dead_code)]", f'#[path = "{sys_rs}"]', "mod sys;", "use std::mem::{size_of, MaybeUninit};",
             "use std::ptr::addr_of;", "fn main() {"]
    for name, fields in structs(text).items():
        lines.append(f'println!("{name} {{}}", size_of::<sys::{name}>());')
        lines.append(f"let it = MaybeUninit::<sys::{name}>::uninit(); let it = it.as_ptr();")
        for field in fields:
            place = f"unsafe {{ addr_of!((*it).{field}) as usize - it as usize }}"
            lines.append(f'println!("{name}.{field} {{}}", {place});')
    for name in NUMBERS.findall(text):
        lines.append(f'println!("{name} {{}}", sys::{name});')
    return "\n".join([*lines, "}"])


def is_declared(folder: str, sys_rs: pathlib.Path, header: str, words: list[str]) -> bool:
    """Whether a sys.rs declares what the header has. `words`: what rustc is given beside it."""
    text = sys_rs.read_text()
    c, rust = pathlib.Path(folder, f"{header}.c"), pathlib.Path(folder, f"{header}.rs".replace(".h", ""))
    c.write_text(in_c(text, header))
    rust.write_text(in_rust(text, sys_rs))
    compilers = {
        c: ["cc", "-std=c11", "-Wall", "-Wextra", "-Werror", "-I", str(TOP / "include")],
        rust: ["rustc", "--edition", "2021", *words],
    }
    places: dict[pathlib.Path, set[str]] = {}
    for source, command in compilers.items():
        program = f"{source}.program"
        if not well(command[0], ran([*command, str(source), "-o", program], 60)):
            return False
        places[source] = set(ran([program], 10).stdout.splitlines())
    different = sorted(places[c] ^ places[rust])
    if different:
        print(f"declared: C and Rust differ: {different[:6]}")
    plain = re.sub(r"/\*.*?\*/", "", (TOP / "include" / header).read_text(), flags=re.DOTALL)
    names = {re.split(r"[ *]", it.split("(")[0])[-1] for it in prototypes(text)}
    missing = names ^ set(re.findall(r"\b(dt_\w+)\(", plain))
    if missing:
        print(f"declared: only one of both has {sorted(missing)}")
    return not different and not missing and len(places[c]) > 100


def declared(folder: str) -> bool:
    library = ["rustc", "--edition", "2021", "--crate-type", "rlib", "--crate-name", "deltat_sys"]
    rlib = f"{folder}/libdeltat_sys.rlib"
    if not well("rustc", ran([*library, str(SYS.parent / "lib.rs"), "-o", rlib], 60)):
        return False
    of_udp = is_declared(folder, SYS_UDP, "deltat_udp.h", ["--extern", f"deltat_sys={rlib}"])
    return is_declared(folder, SYS, "deltat.h", []) and of_udp


# --- building


def crates(folder: str) -> bool:
    right = well("cargo build", cargo(folder, "build", "--all-targets")) and well("cargo test", cargo(folder, "test"))
    right = well("cargo doc", cargo(folder, "doc", "--no-deps", RUSTDOCFLAGS="-D warnings")) and right
    if ran(["cargo", "clippy", "--version"], 30).returncode:
        print("crates: there is no clippy")
        return right
    return well("cargo clippy", cargo(folder, "clippy", "--all-targets", "--", "-D", "warnings")) and right


USER = """use deltat::{Network, Node, NodeOptions, Params, Start};
fn main() {
    assert!(deltat_udp::fresh_number().is_ok());
    let (params, _) = Params::for_network(&Network::new(1000, 1000)).unwrap();
    let options = NodeOptions { node: 1, now: 0, links: &[], routes: &[], start: Start::Again };
    match Node::open(&params, &options) {
        Ok(_) => println!("{}", deltat::version()),
        Err(why) => println!("{why}"),
    }
}
"""


def user_of(folder: str) -> pathlib.Path:
    """A crate that stands where a copy of the crates is, as one that is installed, and not in a clone."""
    top = pathlib.Path(folder, "installed")
    shutil.copytree(CRATES, top / "rust" / "crates", ignore=shutil.ignore_patterns("target"), dirs_exist_ok=True)
    (top / "user" / "src").mkdir(parents=True, exist_ok=True)
    package = '[package]\nname = "user"\nversion = "0.1.0"\nedition = "2021"\n'
    paths = "".join(f'{it} = {{ path = "../rust/crates/{it}" }}\n' for it in ("deltat", "deltat-udp"))
    dependencies = f"[dependencies]\n{paths}"
    (top / "user" / "Cargo.toml").write_text(f"{package}{dependencies}[workspace]\n")
    (top / "user" / "src" / "main.rs").write_text(USER)
    return top / "user"


def found(folder: str) -> bool:
    user = user_of(folder)
    names = {it: value for it, value in os.environ.items() if it not in ("DELTAT_LIB_DIR", "PKG_CONFIG_PATH")}
    version = (TOP / "VERSION").read_text().strip()
    right = True
    for kind in ("static", "shared"):
        lib = pathlib.Path(folder, kind, "lib", "pkgconfig")
        lib.mkdir(parents=True)
        shared = [*LIBRARY.glob("libdeltat.so.*"), *LIBRARY.glob("libdeltat-udp.so.*")]
        if kind == "shared" and len(shared) < 2:
            print("found: there are no shared libraries")
            continue
        for it in ARCHIVES if kind == "static" else ():
            shutil.copy(LIBRARY / it, lib.parent)
        for it in shared if kind == "shared" else ():
            shutil.copy(it, lib.parent)
            (lib.parent / it.with_suffix("").name).symlink_to(it.name)
        prefix = f"prefix={lib.parent.parent}\nlibdir=${{prefix}}/lib\n"
        (lib / "deltat.pc").write_text(f"{prefix}\nName: deltat\nVersion: {version}\nLibs: -L${{libdir}} -ldeltat\n")
        target = f"{folder}/user-{kind}"
        how = {**names, "PKG_CONFIG_PATH": str(lib), "LD_LIBRARY_PATH": str(lib.parent), "CARGO_TARGET_DIR": target}
        it = ran(["cargo", "run", "--offline"], 200, cwd=user, env=how)
        linked = ran(["ldd", f"{target}/debug/user"], 10, env=how).stdout
        if it.stdout.strip() != version or ("libdeltat" in linked) != (kind == "shared"):
            print(f"found: {kind}: {it.stdout!r} {it.stderr[-600:]} {linked}")
            right = False
    alone = pathlib.Path(folder, "alone")
    alone.mkdir()
    shutil.copy(LIBRARY / ARCHIVES[0], alone)
    it = cargo(f"{folder}/alone-target", "build", DELTAT_LIB_DIR=str(alone))
    if it.returncode == 0 or f"no libdeltat-udp.a or libdeltat-udp.so beside libdeltat: {alone}" not in it.stderr:
        print(f"found: a folder without the driver: {it.stderr[-600:]}")
        right = False
    it = cargo(f"{folder}/nowhere", "build", DELTAT_LIB_DIR=folder)
    if it.returncode == 0 or f"no libdeltat.a or libdeltat.so in DELTAT_LIB_DIR: {folder}" not in it.stderr:
        print(f"found: a folder without a library: {it.stderr[-600:]}")
        right = False
    return right


def of_interface(place: pathlib.Path, name: str, version: int) -> None:
    """An object for libdeltat.a in which a function tells the interface."""
    place.mkdir(exist_ok=True)
    (place / "told.c").write_text(f"unsigned {name}(void); unsigned {name}(void) {{ return {version}; }}\n")
    ran(["cc", "-c", "told.c", "-o", "told.o"], 30, cwd=place)


def interfaces(folder: str) -> bool:
    # of interface 1 no export has a name of interface 2
    former = pathlib.Path(folder, "former")
    of_interface(former, "dt_abi", 1)
    ran(["ar", "rcs", "libdeltat.a", "told.o"], 30, cwd=former)
    shutil.copy(LIBRARY / ARCHIVES[1], former)
    it = cargo(f"{folder}/interfaces", "build", "--example", "min", DELTAT_LIB_DIR=str(former))
    right = it.returncode != 0 and "dt_abi_version" in it.stderr
    if not right:
        print(f"interfaces: cargo ended with {it.returncode}: {it.stderr[-600:]}")
    later = pathlib.Path(folder, "later")
    of_interface(later, "dt_abi_version", 3)
    ran(["objcopy", "--redefine-sym", "dt_abi_version=own", str(LIBRARY / "libdeltat.a"), "libdeltat.a"], 30, cwd=later)
    ran(["ar", "rs", "libdeltat.a", "told.o"], 30, cwd=later)
    shutil.copy(LIBRARY / ARCHIVES[1], later)
    names = {**os.environ, "DELTAT_LIB_DIR": str(later), "CARGO_TARGET_DIR": f"{folder}/interfaces"}
    it = ran(["cargo", "run", "--offline"], 200, cwd=user_of(folder), env=names)
    if not it.stdout.startswith("libdeltat has interface 3, and this crate is for 2"):
        print(f"interfaces: cargo ended with {it.returncode}: {it.stdout} {it.stderr[-600:]}")
        right = False
    return right


# --- the examples


@contextmanager
def running(folder: str, words: list[str], own: int, peer: int) -> Iterator[subprocess.Popen[str]]:
    """An example at a port, with its peer at another one, until the end of the block."""
    names = {**os.environ, "OWN": f"{HOST}:{own}", "PEER": f"{HOST}:{peer}"}
    path = f"{folder}/debug/examples/{words[0]}"
    pipes = {"stdout": subprocess.PIPE, "stderr": subprocess.PIPE}
    with subprocess.Popen([path, *words[1:]], **pipes, text=True, env=names) as it:
        try:
            until = time.monotonic() + 10
            while not is_up(own) and time.monotonic() < until:
                time.sleep(0.01)
            yield it
        finally:
            it.kill()


def asked(folder: str, words: list[str], own: int, peer: int, seconds: float = 60) -> subprocess.CompletedProcess[str]:
    """What an example that asks wrote."""
    names = {**os.environ, "OWN": f"{HOST}:{own}", "PEER": f"{HOST}:{peer}"}
    return ran([f"{folder}/debug/examples/{words[0]}", *words[1:]], seconds, env=names)


def lossy(seed: int) -> Between:
    """A link that drops 1 of 100 datagrams."""
    chance = random.Random(seed)
    return Between(lambda number, octets: 0 if chance.random() < 0.01 else 1)


def words_of(count: int) -> list[str]:
    return [f"{it}-" + "abcdefghij" * (it * 7 % 30) for it in range(count)]


def is_part(some: list[str], whole: list[str]) -> bool:
    """Whether lines are some of others, each once and in their order."""
    rest = iter(whole)
    return all(line in rest for line in some)


def is_answered(what: str, it: subprocess.CompletedProcess[str], wanted: list[str]) -> bool:
    """Whether a client got these answers. Some may be missing if it or the service says that octets are uncertain."""
    lines = it.stdout.splitlines()
    excused = "uncertain" in it.stderr and len(lines) > len(wanted) // 2 and is_part(lines, wanted)
    right = it.returncode == 0 and lines == wanted or excused
    if it.returncode:
        print(f"{what} ended with {it.returncode}: {len(lines)} of {len(wanted)} lines, {it.stderr[-600:]}")
    return right


def short(folder: str) -> bool:
    program = (CRATES / "deltat-udp" / "examples" / "min.rs").read_text()
    page = (TOP / "docs" / "library.md").read_text()
    right = f"```rust\n{program}```\n" in page and len(program.splitlines()) <= LONGEST_PROGRAM
    if not right:
        print(f"short: docs/library.md doesn't show examples/min.rs, or it has {len(program.splitlines())} lines")
    right = well("cargo build", cargo(folder, "build", "--examples")) and right
    # at the ports that it names
    with running(folder, ["min"], 4002, 4001):
        time.sleep(SILENT)
        it = asked(folder, ["echo", "ask", "first", "hello", "world"], 4001, 4002)
        return is_answered("short", it, ["olleh", "dlrow"]) and right


def disturb(port: int, service: subprocess.Popen[str], over: threading.Event) -> None:
    """Strangers send to a service, which is stopped now and then."""
    chance = random.Random(5)
    with bound() as stranger:
        for count in range(40):
            for _ in range(20):
                stranger.sendto(chance.randbytes(chance.randrange(1, 200)), (HOST, port))
            if count < STOPS:
                service.send_signal(signal.SIGSTOP)
                time.sleep(0.08)
                service.send_signal(signal.SIGCONT)
            if over.wait(0.02):
                return


def echo(folder: str) -> bool:
    right = well("cargo build", cargo(folder, "build", "--examples"))
    words = words_of(120)
    with lossy(1) as link:
        with running(folder, ["echo", "serve", "first"], link.nodes[1], link.port(2)) as service:
            over = threading.Event()
            disturbing = threading.Thread(target=disturb, args=(link.nodes[1], service, over))
            disturbing.start()
            it = asked(folder, ["echo", "ask", "first", *words], link.nodes[0], link.port(1))
            over.set()
            disturbing.join()
            service.kill()
            it.stderr += service.stderr.read()
            right = is_answered("echo", it, [word[::-1] for word in words]) and right
        # both are opened again at once: what is left of their former lives means nothing
        with running(folder, ["echo", "serve"], link.nodes[1], link.port(2)):
            begun = time.monotonic()
            it = asked(folder, ["echo", "ask", *words[:30]], link.nodes[0], link.port(1))
            right = is_answered("echo again", it, [word[::-1] for word in words[:30]]) and right
            if time.monotonic() - begun < SILENT - 0.2:
                print(f"echo: it wasn't silent: {time.monotonic() - begun:.1f} s")
                right = False
    return right


def calls(folder: str) -> bool:
    right = well("cargo build", cargo(folder, "build", "--examples"))
    words = words_of(100)
    with lossy(2) as link:
        with running(folder, ["calls", "serve"], link.nodes[1], link.port(2)):
            it = asked(folder, ["calls", "ask", "1", *words], link.nodes[0], link.port(1))
            # replies may overtake one another where one is lost
            it.stdout = "\n".join(sorted(it.stdout.splitlines()))
            right = is_answered("calls", it, sorted(f"{word}: {word[::-1]}" for word in words)) and right
        it = asked(folder, ["calls", "ask", "2", "nobody"], link.nodes[0], link.port(1))
        if it.returncode != 1 or "nobody may have been served: GivenUp" not in it.stderr:
            print(f"calls: nobody serves: {it.returncode} {it.stderr[-300:]}")
            right = False
    return right


TESTS: dict[str, Callable[[str], bool]] = {
    it.__name__: it for it in (declared, crates, found, interfaces, short, echo, calls)
}


def main() -> int:
    if not shutil.which("cargo"):
        skip("there is no cargo")
    missing = [it for it in ARCHIVES if not (LIBRARY / it).exists()]
    if missing:
        skip(f"{LIBRARY}/{missing[0]} isn't there: make -C lib")
    failed = 0
    with tempfile.TemporaryDirectory() as folder:
        for name in sys.argv[1:] or TESTS:
            begun = time.monotonic()
            right = TESTS[name](folder)
            failed += not right
            print(f"{name}: {'ok' if right else 'FAILED'} ({time.monotonic() - begun:.1f} s)", flush=True)
    return 1 if failed else 0


if __name__ == "__main__":
    sys.exit(main())
