#!/usr/bin/env python3
"""Makes an UNPROVED archive of the library, in a minute or two, so that C, bindings and tests can be tried before the
proofs.

    lib/unproved.py OUT.a [--kept FOLDER]
    make -C lib ARCHIVE=/path/of/OUT.a

Nothing is proved of what it makes, and each call has the checks that `rt try` adds, so it is slower than the proved
archive: never give it to a user, and take no figure from it without saying so. `./build --only dt_c` makes the proved
one.

`rt try` compiles programs only. So crates/dt_c is copied, and the copy becomes a program whose main names each export.
The kit is copied too, by links, with a clang that keeps the module which it is given. The exports of that module become
global, C functions with the declarations of include/deltat.h call them, and all else becomes local to the archive.
--kept FOLDER keeps the copies and the modules there, to look at.

Ends with 1 where the sources don't compile or a declaration lacks an export, and with 2 where a tool is missing."""
import argparse
import dataclasses
import pathlib
import re
import shutil
import subprocess
import sys
import tempfile
from collections.abc import Iterator

TOP = pathlib.Path(__file__).resolve().parent.parent
CRATE = "dt_c"
EXPORT = re.compile(
    r'#\[unsafe\(no_mangle\)\]\s*pub (?P<unsafe>unsafe )?extern "C" fn (?P<name>\w+)\((?P<inputs>.*?)\)\s*'
    r"(?:->\s*[\w&'<> ]+?)?\s*(?=\n\s*(?:ghost|requires|ensures|\{)|\s*\{)",
    re.DOTALL,
)
PUBLIC = re.compile(r"pub use (\w+)::\{?([^;]*?)\}?;")
DECLARED = re.compile(r"([A-Za-z_][\w \n*]*?)\b(dt_\w+)\s*\(([^()]*)\)\s*;")
# an export's name in the module: the crate, the file, the function
MANGLED = r'@"' + CRATE + r'::\w+::(dt_\w+)"'
# as the kit itself compiles a module, but for a shared library
COMPILE = (
    "-march=x86-64 -mllvm -no-trap-after-noreturn -mllvm -trap-unreachable -ffunction-sections -fdata-sections -O1"
    " -fPIC"
)


class Failed(Exception):
    """The archive can't be made, for this reason."""


@dataclasses.dataclass(frozen=True)
class Export:
    """A function that the library exports: the file and the types of its parameters."""

    name: str
    module: str
    unsafe: bool
    inputs: list[str]

    def call(self) -> str:
        """A call of it with the fields of `e` that have its name."""
        text = f"{self.name}({', '.join(f'e.{self.name}_{it}' for it in range(len(self.inputs)))})"
        return f"    let _ = {f'unsafe {{ {text} }}' if self.unsafe else text};"

    def fields(self) -> Iterator[str]:
        for place, kind in enumerate(self.inputs):
            lent = re.sub(r"&(mut )?", r"&'a \1", kind).replace("'_", "'a")
            yield f"    {self.name}_{place}: {lent},"


def exports(sources: pathlib.Path) -> list[Export]:
    made = []
    for file in sorted(sources.glob("*.rt")):
        for found in EXPORT.finditer(file.read_text()):
            inputs = [it.partition(":")[2].strip() for it in re.split(r",\s*", found["inputs"].strip()) if it]
            made.append(Export(found["name"], file.stem, bool(found["unsafe"]), inputs))
    return made


def program(library: str, found: list[Export]) -> str:
    """The root of the library as that of a program: `main` calls each export, with what is never there."""
    fields = [line for it in found for line in it.fields()]
    return "\n".join([
        library,
        "use std::alloc::Global;",
        "use std::process::ExitCode;",
        *(f"use crate::{it.module}::{it.name};" for it in found),
        *(
            f"use crate::{module}::{{{names}}};"
            for module, names in PUBLIC.findall(library)
            if f"pub use {module}" not in library
        ),
        "#[derive(Drop)]\nstruct Everything<'a> {", *fields, "}",
        "fn all(e: Everything<'_>) {", *(it.call() for it in found), "}",
        "fn main(rt: HostRuntime) -> ExitCode {",
        "    let never: Option<Everything<'_>> = None;",
        "    if let Some(e) = never {\n        all(e)\n    }",
        "    ExitCode::from(0)\n}\n",
    ])


def kit() -> pathlib.Path:
    """The folder of the toolchain."""
    try:
        page = subprocess.run(["rt", "doc"], capture_output=True, text=True, check=True).stdout.strip()
    except (OSError, subprocess.CalledProcessError) as error:
        raise FileNotFoundError("rt, the toolchain") from error
    return pathlib.Path(page).parent


def copied_kit(of: pathlib.Path, room: pathlib.Path) -> pathlib.Path:
    """A copy of the kit, by links where it can, whose clang keeps the last module that it is given in `room`."""
    made = room / "kit"
    tools = made / "toolchain" / "bin"
    tools.mkdir(parents=True)
    shutil.copytree(of / "bin", made / "bin")
    for folder in (of, of / "toolchain"):
        for it in folder.iterdir():
            if it.name not in ("bin", "toolchain"):
                (made / it.relative_to(of)).symlink_to(it)
    for it in (of / "toolchain" / "bin").iterdir():
        (tools / it.name).write_text(f"""#!/bin/sh
for it in "$@"; do
    case "$it" in *.bc) cp -f "$it" {room}/module.bc ;; esac
done
exec {it} "$@"
""")
        (tools / it.name).chmod(0o755)
    return made


def module(found: list[Export], room: pathlib.Path) -> pathlib.Path:
    """The module of the library as a program, as the kit compiles it unproved."""
    tree = room / "tree"
    shutil.copytree(TOP / "crates", tree / "crates", ignore=shutil.ignore_patterns("out", "must-fail"))
    shutil.copy(TOP / "HANDLES", tree / "HANDLES")
    (tree / "crates.txt").write_text((TOP / "crates.txt").read_text().replace(f"{CRATE} staticlib:", f"{CRATE}:"))
    subprocess.run(["git", "init", "-q", str(tree)], check=True)
    folder = tree / "crates" / CRATE
    library = folder / "src" / "lib.rt"
    (folder / "src" / "main.rt").write_text(program(library.read_text(), found))
    library.unlink()
    ran = subprocess.run(
        [str(copied_kit(kit(), room) / "bin" / "rt"), "try"], cwd=folder, capture_output=True, text=True
    )
    if ran.returncode or not (room / "module.bc").exists():
        raise Failed(f"rt try: {(ran.stdout + ran.stderr)[-3000:]}")
    return room / "module.bc"


def thunks(header: str, text: str) -> str:
    """C functions with the header's declarations over those of the module, which have `try_` before their names. A
    function whose answer is a struct takes where to write it first."""
    plain = re.sub(r"^\s*#.*$", " ", re.sub(r"/\*.*?\*/", " ", header, flags=re.DOTALL), flags=re.MULTILINE)
    there = {
        name: kind.split()[-1] for kind, name in re.findall(r"^define ([^@\n]*)@try_(dt_\w+)\(", text, re.MULTILINE)
    }
    made = ['#include "deltat.h"']
    for answer, name, inputs in DECLARED.findall(plain):
        if name not in there:
            continue
        answer, inputs = " ".join(answer.split()), " ".join(inputs.split())
        names = re.findall(r"(\w+)(?=,|$)", inputs) if inputs != "void" else []
        by_place = there.pop(name) == "void" and answer != "void"
        first = [f"{answer} *out_"] if by_place else []
        made.append(
            "extern"
            f" {'void' if by_place else answer} try_{name}({', '.join(first + ([inputs] if names else [])) or 'void'});"
        )
        call = f"try_{name}({', '.join((['&r_'] if by_place else []) + names)});"
        body = f"{answer} r_; {call} return r_;" if by_place else f"{'' if answer == 'void' else 'return '}{call}"
        made.append(f"{answer} {name}({inputs}) {{ {body} }}")
    if there:
        raise Failed(f"include/deltat.h doesn't declare {', '.join(sorted(there))}")
    return "\n".join(made) + "\n"


def run(*words: str | pathlib.Path) -> None:
    subprocess.run([str(it) for it in words], check=True)


def link(bitcode: pathlib.Path, room: pathlib.Path, out: pathlib.Path) -> None:
    """Makes the archive of the module: what isn't an export is local, and the three functions for memory are asked
    for."""
    tools = kit() / "toolchain"
    clang = [tools / "bin" / "clang", "--target=x86_64-unknown-linux-gnu", f"--sysroot={tools}"]
    run(
        *clang,
        "-S",
        "-emit-llvm",
        "-Xclang",
        "-disable-llvm-passes",
        "-O0",
        "-x",
        "ir",
        bitcode,
        "-o",
        room / "module.ll"
    )
    text = (room / "module.ll").read_text().replace("define i32 @main()", "define internal i32 @main()")
    text = re.sub(r"define internal ([^@\n]*)" + MANGLED + r"\(", r"define \1@try_\2(", text)
    text = re.sub(MANGLED, r"@try_\1", text)
    (room / "exports.ll").write_text(text)
    run(*clang, *COMPILE.split(), "-c", "-x", "ir", room / "exports.ll", "-o", room / "exports.o")
    (room / "thunks.c").write_text(thunks((TOP / "include" / "deltat.h").read_text(), text))
    run("cc", "-O2", "-fPIC", "-I", TOP / "include", "-c", room / "thunks.c", "-o", room / "thunks.o")
    run("ld", "-r", "-o", room / "all.o", room / "exports.o", room / "thunks.o")
    run("objcopy", "--wildcard", "--keep-global-symbol=dt_*", room / "all.o")
    out.unlink(missing_ok=True)
    run("ar", "rcs", out, room / "all.o")


def main() -> int:
    parser = argparse.ArgumentParser(description=__doc__, formatter_class=argparse.RawDescriptionHelpFormatter)
    parser.add_argument("out", type=pathlib.Path, metavar="OUT.a")
    parser.add_argument("--kept", type=pathlib.Path, metavar="FOLDER")
    words = parser.parse_args()
    missing = [it for it in ("rt", "cc", "ld", "objcopy", "ar", "git") if shutil.which(it) is None]
    if missing:
        print(f"unproved.py: {', '.join(missing)}: not found", file=sys.stderr)
        return 2
    with tempfile.TemporaryDirectory(prefix="deltat-unproved-") as folder:
        room = words.kept.resolve() if words.kept else pathlib.Path(folder)
        room.mkdir(parents=True, exist_ok=True)
        try:
            link(module(exports(TOP / "crates" / CRATE / "src"), room), room, words.out.resolve())
        except (Failed, subprocess.CalledProcessError) as error:
            print(f"unproved.py: {error}", file=sys.stderr)
            return 1
    print(f"{words.out}: UNPROVED")
    return 0


if __name__ == "__main__":
    sys.exit(main())
