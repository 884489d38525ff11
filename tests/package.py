#!/usr/bin/env python3
"""The Debian packages: release/all.sh makes a tarball of a program and an archive, release/build.sh makes packages of
it, and what is in them works.

Usage: tests/package.py [PROGRAM] [--archive FILE] [--keep FOLDER]

FILE is the archive of the library (crates/dt_c/out/libdt_c.a, or what DELTAT_ARCHIVE names); --keep copies the tarball
and the packages.

- Tarball and packages are built twice and have to be the same octets. There are none of a tarball whose files or whose
  sum were changed, of faulty words, without a program or without an archive; and there is no statement PROVED of a gate
  that failed, that is of another commit or of none, or whose crates were changed since.
- Control data, files and their sums, links, who has which file: each by the package that is meant to have it. The
  symbols files are those of the libraries, and an export that is missing in one is found. What each package needs is
  here or in Debian: apt, which knows of nothing installed, finds all of it for each package by itself.
- lintian finds no error and no warning; what is overridden is printed and has its reason. man, groff and mandoc have
  nothing to say of the man pages. The completions complete. logrotate cuts a log that a node writes on. promtool reads
  the rules. What isn't installed is left out with a line.
- Extracted into one folder, the pages' folder is copied and README's first example is run there, without the toolchain;
  and as root in a folder that has this and the C library alone. Two nodes of the Python package exchange a message.

tests/chroot.py installs the packages. Skipped where debhelper, dh-python, chrpath or the archive isn't there.

In tests/all: PROGRAM, 1500 s."""
import argparse
import gzip
import hashlib
import os
import re
import shutil
import subprocess
import sys
import tarfile
import tempfile
from pathlib import Path
from typing import NamedTuple

from lib import PROGRAM, TOP, skip, tell

MACHINE = os.uname().machine
LIBDIR = f"usr/lib/{MACHINE}-linux-gnu"
COMMANDS = ["audit", "calls", "make", "node", "replay", "retrace", "trace"]
# which package has which files
OWNED = {
    "libdeltat2": [f"{LIBDIR}/libdeltat.so.2", "usr/share/doc/libdeltat2/PROVED"],
    "libdeltat-udp1": [f"{LIBDIR}/libdeltat-udp.so.1"],
    "libdeltat-dev": [
        *(f"usr/include/{it}" for it in ("deltat.h", "deltat.hpp", "deltat_udp.h")),
        "usr/share/man/man3/libdeltat.3.gz",
        *(f"{LIBDIR}/{it}" for it in ("libdeltat.a", "libdeltat.so", "libdeltat-udp.a", "libdeltat-udp.so")),
        *(
            f"{LIBDIR}/{it}"
            for it in ("pkgconfig/deltat.pc", "pkgconfig/deltat-udp.pc", "cmake/deltat/deltatConfig.cmake")
        ),
        *(
            f"usr/share/deltat/rust/{it}"
            for it in ("Cargo.toml", "deltat/src/lib.rs", "deltat-sys/build.rs", "deltat-sys/src/sys.rs")
        ),
        "usr/share/doc/deltat/include/deltat.h",
        "usr/share/doc/libdeltat-dev/PROVED",
    ],
    "python3-deltat": [
        "usr/lib/python3/dist-packages/deltat/py.typed",
        *(
            f"usr/lib/python3/dist-packages/deltat/{it.name}"
            for it in sorted((TOP / "bindings" / "python" / "deltat").glob("*.py"))
        ),
    ],
    "deltat": [
        "usr/bin/deltat",
        "usr/lib/deltat/run-node",
        "lib/systemd/system/deltat-node@.service",
        "etc/logrotate.d/deltat",
        "etc/deltat",
        "usr/share/man/man1/deltat.1.gz",
        "usr/share/man/man5/deltat-formats.5.gz",
        "usr/share/bash-completion/completions/deltat",
        "usr/share/zsh/vendor-completions/_deltat",
        "usr/share/doc/deltat/PROVED",
        "usr/share/doc/deltat/README.md",
        "usr/share/doc/deltat/CHANGES",
        "usr/share/doc/deltat/docs/clauses.md",
        *(f"usr/share/doc/deltat/docs/{it.name}" for it in sorted((TOP / "docs").glob("*.md"))),
    ],
    "deltat-tools": [
        *(f"usr/lib/deltat/{it.name}" for it in sorted((TOP / "tools").glob("*.py"))),
        "usr/lib/deltat/deltat_tools/gateway/front.py",
        "lib/systemd/system/deltat-gateway@.service",
        "lib/systemd/system/deltat-counters.service",
        "usr/share/deltat/prometheus/deltat.rules.yml",
        "usr/share/deltat/grafana/deltat-dashboard.json",
    ],
    "deltat-wireshark": [f"{LIBDIR}/wireshark/plugins/deltat.lua"],
}
# what a package may need of Debian: the C library, and Python where it is written in it
OF_DEBIAN = {"libc6", "libgcc-s1"}
OF_PYTHON = {"python3-deltat": {"python3", "python3:any"}, "deltat-tools": {"python3", "python3:any"}}
Case = tuple[str, bool, str]


class Given(NamedTuple):
    """What the packages are made of."""

    program: str
    archive: str

    @property
    def words(self) -> tuple[str, ...]:
        return "--program", self.program, "--archive", self.archive


def run(
    *words: str, cwd: str | Path = "/", given: str = "", seconds: float = 600, **env: str
) -> "subprocess.CompletedProcess[str]":
    plain = {"PATH": "/usr/sbin:/usr/bin:/sbin:/bin", "LC_ALL": "C.UTF-8", "PYTHONDONTWRITEBYTECODE": "1"}
    return subprocess.run(
        words, cwd=cwd, input=given, capture_output=True, text=True, check=False, timeout=seconds, env={**plain, **env}
    )


def release(name: str, *words: str, top: Path = TOP) -> "subprocess.CompletedProcess[str]":
    """One of the scripts of release/, of a fixed moment."""
    return run(str(top / "release" / name), *words, SOURCE_DATE_EPOCH="1700000000")


def default_archive() -> str:
    """The archive of the library."""
    return os.environ.get("DELTAT_ARCHIVE") or str(TOP / "crates" / "dt_c" / "out" / "libdt_c.a")


def lacking(archive: str) -> str:
    """Why no package can be built here, or nothing."""
    tools = [it for it in ("dpkg-buildpackage", "dh", "dh_python3", "chrpath", "cc", "make") if not shutil.which(it)]
    if tools:
        return f"there is no {', no '.join(tools)} (Debian: debhelper, dh-python, chrpath, build-essential)"
    return (
        ""
        if Path(archive).is_file()
        else f"there is no archive {archive}: make -C lib makes it, or DELTAT_ARCHIVE names one"
    )


def commit(top: Path = TOP) -> str:
    return run("git", "-c", "safe.directory=*", "rev-parse", "HEAD", cwd=top).stdout.strip()


# a toolchain whose gate passes, in a clone of the commit
PRETENDED = """#!/bin/sh
[ "$1" = version ] && echo 'a kit' && exit
[ -f crates.txt ] && [ -d .git ] && printf 'much\ncommit 0000\n1234 passed, 0 failed\n'
"""


def log_text(of: str, last: str) -> str:
    """A gate's log, as release/gate.sh writes one."""
    return f"commit {of}\ntoolchain a kit\n\nmuch\ncommit 0000\n{last}\n"


def log(path: Path, of: str = "", last: str = "1234 passed, 0 failed") -> str:
    path.write_text(log_text(of, last) if of else f"much\n{last}\n")
    return str(path)


def gates(room: Path, given: Given) -> list[Case]:
    """Of which gates there is a statement, in a clone whose crates are as committed."""
    top = room / "clone"
    ran = run("git", "-c", "safe.directory=*", "clone", "-q", "--shared", str(TOP), str(top))
    if ran.returncode:
        return [("gates and commits", True, "not tried: this copy has no commits")]
    for it in ("release", "debian"):
        shutil.copytree(TOP / it, top / it, dirs_exist_ok=True)
    here = commit(top)
    refused = [
        ("a gate that failed", log(room / "bad", here, "1234 passed, 1 failed")),
        ("a gate's log that isn't there", "/nowhere"),
        ("a gate of another commit", log(room / "other", here[::-1])),
        ("a gate of no commit", log(room / "no")),
    ]
    good = room / "good"
    (room / "rt").write_text(PRETENDED)
    (room / "rt").chmod(0o755)
    ran = run(str(top / "release" / "gate.sh"), PATH=f"{room}:/usr/bin:/bin")
    good.write_text(ran.stdout)
    cases = [
        ("the gate's log", (ran.returncode, ran.stdout) == (0, log_text(here, "1234 passed, 0 failed")), ran.stderr)
    ]
    for name, path in refused:
        ran = release("proved.sh", *given.words, "--gate", path, top=top)
        cases.append(
            (name, (ran.returncode, ran.stdout) == (1, "") and ran.stderr.startswith("proved.sh: "), ran.stderr.strip())
        )
    ran = release("all.sh", *given.words, "--gate", str(room / "bad"), "--out", str(room / "none"), top=top)
    is_refused = ran.returncode == 1 and "proved.sh: the gate didn't pass" in ran.stderr
    cases.append(("and no tarball of one", is_refused and not (room / "none").exists(), ran.stderr.strip()))
    said = release("proved.sh", *given.words, "--gate", str(good), top=top).stdout
    wanted = ("    1234 passed, 0 failed\n", here, "a kit", sums(given.program), sums(given.archive))
    cases.append(("what was proved", all(it in said for it in wanted), ""))
    (room / "said").write_text(said)
    summary = release("proved.sh", "--summary", str(room / "said")).stdout
    cases.append(
        (
            "and the description says so",
            summary.startswith("The gate of its commit was run and passed."),
            summary.strip(),
        )
    )
    (top / "crates.txt").write_text("# another\n")
    ran = release("proved.sh", *given.words, "--gate", str(good), top=top)
    return [*cases, ("a gate of crates that were changed since", ran.returncode == 1, ran.stderr.strip())]


def sums(path: str | Path) -> str:
    return hashlib.sha256(Path(path).read_bytes()).hexdigest()


def tarballs(room: Path, given: Given) -> list[Case]:
    """The tarball, twice, and what there is none of."""
    first, second = (release("all.sh", *given.words, "--out", str(room / it)) for it in ("one", "two"))
    made = [Path(it.stdout.strip()).read_bytes() for it in (first, second) if it.returncode == 0]
    cases = [
        ("the tarball", len(made) == 2, first.stderr),
        ("and it is the same the next time", len(made) == 2 and made[0] == made[1], ""),
    ]
    if len(made) < 2:
        return cases
    with tarfile.open(first.stdout.strip()) as it:
        it.extractall(room / "tarball")
    tree = next((room / "tarball").iterdir())
    ran = run("sha256sum", "--quiet", "-c", "SHA256SUMS", cwd=tree)
    listed = {it.split("  ./", 1)[1] for it in (tree / "SHA256SUMS").read_text().splitlines()}
    there = {str(it.relative_to(tree)) for it in tree.rglob("*") if it.is_file()} - {"SHA256SUMS"}
    cases.append(("SHA256SUMS has each file, with its sum", ran.returncode == 0 and listed == there, ran.stdout[-300:]))
    wheels = list(tree.glob("deltat-*.whl"))
    said = (tree / "PROVED").read_text()
    right = len(wheels) == 1 and all(it in said for it in (sums(wheels[0]), sums(given.program), sums(given.archive)))
    cases.append(("PROVED has the sums of program, archive and wheel", right, ""))
    cases.append(
        ("without a gate's log it claims nothing", "The gate was not run" in said and "passed" not in said, "")
    )
    for name, words, status in (
        ("no program", ("--program", "/nowhere"), 1),
        ("no archive", ("--archive", "/nowhere"), 1),
        ("a word too much", ("more",), 2),
    ):
        ran = release("all.sh", *given.words, *words, "--out", str(room / "none"))
        cases.append(
            (
                name,
                ran.returncode == status and ran.stderr.startswith("all.sh: ") and not (room / "none").exists(),
                ran.stderr.strip(),
            )
        )
    return [*cases, *changed(room, Path(first.stdout.strip()), tree)]


def changed(room: Path, tarball: Path, tree: Path) -> list[Case]:
    """Tarballs that aren't what their sums say."""
    other = room / "changed" / tarball.name
    other.parent.mkdir()
    (other.with_name(f"{other.name}.sha256")).write_text(f"{'0' * 64}  {other.name}\n")
    shutil.copy(tarball, other)
    ran = release("build.sh", "--tarball", str(other), "--out", str(room / "none"))
    cases = [
        (
            "a tarball of another sum",
            ran.returncode == 1 and "isn't what its sum is of" in ran.stderr,
            ran.stderr[-200:],
        )
    ]
    other.with_name(f"{other.name}.sha256").unlink()
    archive = tree / "crates/dt_c/out/libdt_c.a"
    was = archive.read_bytes()
    archive.write_bytes(was[:-1] + bytes([was[-1] ^ 1]))
    with tarfile.open(other, "w:gz", compresslevel=1) as it:
        it.add(tree, tree.name)
    ran = release("build.sh", "--tarball", str(other), "--out", str(room / "none"))
    cases.append(
        ("a tarball with another archive", ran.returncode == 1 and "its SHA256SUMS" in ran.stderr, ran.stderr[-200:])
    )
    archive.write_bytes(was)
    for name, words, status in (
        ("no tarball", ("--tarball", "/nowhere"), 1),
        ("an unknown word", ("more",), 2),
        ("a tarball and a program", ("--tarball", str(tarball), "--program", "x"), 2),
    ):
        ran = release("build.sh", *words, "--out", str(room / "none"))
        cases.append(
            (f"build.sh: {name}", ran.returncode == status and ran.stderr.startswith("build.sh: "), ran.stderr.strip())
        )
    return [*cases, ("and none of these made a package", not (room / "none").exists(), "")]


def built(room: Path) -> tuple[dict[str, str], list[Case]]:
    """The packages by their names, built twice."""
    tarball = str(next((room / "one").glob("*.tar.gz")))
    made = [release("build.sh", "--tarball", tarball, "--out", str(room / it)) for it in ("packages", "again")]
    paths = [it.stdout.split() for it in made]
    packages = {Path(it).name.partition("_")[0]: it for it in paths[0]}
    cases = [("the packages are built", sorted(packages) == sorted(OWNED), made[0].stderr[-1500:])]
    other = [Path(one).name for one, two in zip(*paths) if Path(one).read_bytes() != Path(two).read_bytes()]
    return packages, [
        *cases,
        (
            "and are the same the next time",
            bool(packages) and len(paths[0]) == len(paths[1]) and not other,
            " ".join(other),
        ),
    ]


def field(package: str, name: str) -> str:
    return run("dpkg-deb", "-f", package, name).stdout.strip()


def controls(packages: dict[str, str]) -> list[Case]:
    version = (TOP / "VERSION").read_text().strip()
    headed = re.findall(r"^(\d\S*)$", (TOP / "CHANGES").read_text(), re.MULTILINE)
    noted = re.findall(r"^deltat \((\S+)\)", (TOP / "debian" / "changelog").read_text(), re.MULTILINE)
    wrong = [
        name
        for name, path in packages.items()
        if not re.fullmatch(re.escape(version) + r"-\d+", field(path, "Version"))
    ]
    cases = [
        (
            "their version is that of VERSION",
            not wrong and bool(re.fullmatch(r"\d+\.\d+\.\d+", version)),
            " ".join(wrong) or version,
        ),
        (
            "which is the newest of CHANGES and of debian/changelog",
            headed[:1] == [version] and noted[0].rpartition("-")[0] == version,
            "",
        ),
    ]
    for name, path in packages.items():
        needs = {it.split()[0] for it in field(path, "Depends").split(", ") if it}
        strange = needs - OWNED.keys() - OF_DEBIAN - OF_PYTHON.get(name, set())
        cases.append(
            (
                f"{name} needs the C library, {'Python, ' if name in OF_PYTHON else ''}and what is here",
                not strange,
                field(path, "Depends") or "nothing",
            )
        )
    unproved = [
        it
        for it in ("libdeltat2", "libdeltat-dev", "deltat")
        if "The gate was not run" not in field(packages[it], "Description")
    ]
    return [*cases, ("what has proved code says that the gate was not run", not unproved, " ".join(unproved))]


def files(packages: dict[str, str], roots: Path, given: Given) -> list[Case]:
    """What is in them."""
    cases: list[Case] = []
    for name, path in packages.items():
        run("dpkg-deb", "-x", path, str(roots / name))
        run("dpkg-deb", "-e", path, str(roots / f"{name}.control"))
        missing = [it for it in OWNED[name] if not os.path.lexists(roots / name / it)]
        summed = run("md5sum", "--quiet", "-c", str(roots / f"{name}.control" / "md5sums"), cwd=roots / name)
        cases.append(
            (
                f"{name} has its files, and their sums",
                not missing and summed.returncode == 0,
                " ".join(missing) + summed.stdout,
            )
        )
    doc = roots / "deltat/usr/share/doc/deltat"
    lost = [
        it.name
        for it in (TOP / "examples").rglob("*")
        if it.is_file() and it.suffix not in (".pyc", ".o") and not (doc / it.relative_to(TOP)).is_file()
    ]
    proved = {
        (roots / it / f"usr/share/doc/{it}/PROVED").read_text() for it in ("deltat", "libdeltat2", "libdeltat-dev")
    }
    return [
        *cases,
        ("the examples", not [it for it in lost if it not in ("server", "gateway")], " ".join(lost)),
        ("nothing of a Python that ran", not list(roots.rglob("__pycache__")), ""),
        ("the program, octet for octet", sums(roots / "deltat/usr/bin/deltat") == sums(given.program), ""),
        ("each PROVED is the tarball's", len(proved) == 1 and sums(given.program) in proved.pop(), ""),
        (
            "nothing is left for ld.so to look up but names",
            "RUNPATH" not in run("readelf", "-d", str(roots / f"libdeltat-udp1/{LIBDIR}/libdeltat-udp.so.1")).stdout,
            "",
        ),
    ]


def symbols(roots: Path, room: Path) -> list[Case]:
    """The symbols files are those of the libraries; one that lacks a name, or has one too much, is refused."""
    cases = []
    for package, library in (("libdeltat2", "libdeltat.so.2"), ("libdeltat-udp1", "libdeltat-udp.so.1")):
        lines = (TOP / "debian" / f"{package}.symbols").read_text().splitlines(keepends=True)
        gone = lines[-1].replace(lines[-1].split("@")[0], " dt_gone")
        for name, said, wanted in (
            ("has the exports", lines, ""),
            ("that lacks one is refused", lines[:-1], "some new symbols appeared"),
            ("with one that is gone is refused", [*lines, gone], "some symbols or patterns disappeared"),
        ):
            why = gensymbols(package, roots / package / LIBDIR / library, "".join(said), room)
            cases.append((f"{package}.symbols {name}", wanted in why and bool(wanted) == bool(why), why[:200]))
    return cases


def gensymbols(package: str, library: Path, text: str, room: Path) -> str:
    """Why the build of a package ends with this symbols file, or nothing."""
    version = (TOP / "VERSION").read_text().strip()
    with tempfile.TemporaryDirectory(dir=room) as folder:
        given = Path(folder) / "symbols"
        given.write_text(text)
        words = ("-c4", f"-p{package}", f"-I{given}", f"-e{library}", f"-v{version}-1", f"-O{folder}/out")
        ran = run("dpkg-gensymbols", *words, cwd=TOP)
    return ran.stderr if ran.returncode else ""


def closure(packages: dict[str, str], room: Path) -> list[Case]:
    """apt, which knows of nothing installed, finds what each package needs, here and in Debian."""
    lists = Path("/var/lib/apt/lists")
    if not shutil.which("apt-get") or not shutil.which("dpkg-scanpackages") or not list(lists.glob("*_Packages*")):
        return [
            ("what each package needs is here or in Debian", True, "not tried: apt has no lists of Debian's packages")
        ]
    place, state = room / "repository", room / "apt"
    (state / "lists" / "partial").mkdir(parents=True)
    place.mkdir()
    for it in packages.values():
        shutil.copy(it, place)
    (place / "Packages").write_text(run("dpkg-scanpackages", "-m", ".", cwd=place).stdout)
    (state / "status").touch()
    (state / "local.list").write_text(f"deb [trusted=yes] file:{place} ./\n")
    private = [
        "-o",
        f"Dir::State={state}",
        "-o",
        f"Dir::State::status={state / 'status'}",
        "-o",
        f"Dir::Cache={state / 'cache'}",
        "-o",
        "Debug::NoLocking=1",
    ]
    ran = run(
        "apt-get",
        *private,
        "-o",
        f"Dir::Etc::SourceList={state / 'local.list'}",
        "-o",
        "Dir::Etc::SourceParts=-",
        "update",
    )
    if ran.returncode:
        return [("apt reads the packages", False, ran.stderr[-300:])]
    for it in lists.iterdir():
        if it.is_file() and it.name != "lock":
            (state / "lists" / it.name).symlink_to(it)
    cases = []
    for name in OWNED:
        ran = run(
            "apt-get",
            *private,
            "-o",
            f"Dir::Etc::SourceList={state / 'local.list'}",
            "--no-install-recommends",
            "-s",
            "install",
            name,
        )
        gets = re.findall(r"^Inst (\S+)", ran.stdout, re.MULTILINE)
        ours = [it for it in gets if it in OWNED]
        cases.append(
            (
                f"apt finds what {name} needs",
                ran.returncode == 0 and name in gets,
                f"{len(gets)} packages, of them {' '.join(ours)}" if gets else ran.stdout[-300:] + ran.stderr[-300:],
            )
        )
    return cases


def links(root: Path) -> Case:
    """Each link of a page leads to a file of the packages."""
    pages = sorted((root / "usr/share/doc/deltat").rglob("*.md"))
    lost = [
        f"{page.name}: {it}"
        for page in pages
        for it in re.findall(r"\]\((?!https?:)([^)#]+)(?:#[^)]*)?\)", page.read_text())
        if not (page.parent / it).exists()
    ]
    return "each link of a page leads somewhere", not lost and len(pages) > 10, " ".join(lost)


def judged(room: Path, roots: Path) -> list[Case]:
    """lintian's verdict, and what is overridden."""
    lines = [
        it for path in sorted(roots.glob("*/usr/share/lintian/overrides/*")) for it in path.read_text().splitlines()
    ]
    bare = [
        it
        for before, it in zip(["", *lines], lines)
        if not it.startswith("#") and not before.startswith("#") and before.split(":")[0] != it.split(":")[0]
    ]
    told = "; ".join(it for it in lines if not it.startswith("#"))
    cases = [("each override has its reason", not bare and bool(lines), f"overridden: {told}")]
    if not shutil.which("lintian"):
        return [*cases, ("lintian", True, "not tried: it isn't installed")]
    ran = run("lintian", "--allow-root", "--fail-on=error,warning", str(next((room / "packages").glob("*.changes"))))
    found = [it for it in ran.stdout.splitlines() if it.startswith(("E:", "W:"))]
    return [
        *cases,
        (
            "lintian finds no error and no warning",
            ran.returncode == 0 and not found,
            "\n".join(found) + ran.stderr[-300:],
        ),
    ]


def manuals(root: Path) -> list[Case]:
    """The man pages, by what reads them here."""
    cases, texts = [], {}
    readers = {
        "mandoc": ("mandoc", "-T", "lint"),
        "groff": ("groff", "-ww", "-b", "-z", "-man", "-Tutf8", "-K", "utf8"),
        "man": ("man", "--warnings", "-E", "UTF-8", "-l", "-Tutf8", "-Z"),
    }
    for path in sorted(root.glob("usr/share/man/man*/*.gz")):
        texts[path.stem] = text = gzip.decompress(path.read_bytes()).decode()
        plain = path.with_suffix("")
        plain.write_text(text)
        there = [it for it in readers if shutil.which(it) and shutil.which("groff" if it == "man" else it)]
        ran = [run(*readers[it], str(plain)) for it in there]
        # (man writes the page itself to standard output)
        said = "".join(it.stderr if name == "man" else it.stdout + it.stderr for name, it in zip(there, ran))
        plain.unlink()
        cases.append(
            (
                f"no warnings of {path.stem}",
                not said and "@" not in text.split("\n.SH")[0],
                said[:300] or f"by {', '.join(there) or 'nobody'}",
            )
        )
    rows = [it for it in (TOP / "docs" / "formats.md").read_text().splitlines() if it.startswith("| ")]
    words = {it for row in rows for it in re.findall(r"`(\w+)", row)}
    lost = [it for it in sorted(words) if it not in texts["deltat-formats.5"]]
    page = texts["libdeltat.3"]
    exports = {
        it.split()[-1].partition("@")[0]
        for it in run("nm", "-D", "--defined-only", str(root / LIBDIR / "libdeltat.so.2")).stdout.splitlines()
        if it.split()[1] == "T"
    }
    whole = len(exports) > 10 and all(
        (f" {it}(" in page or f"*{it}(" in page) and f"\\fB{it}\\fR()" in page for it in exports
    )
    cases.append(
        ("libdeltat(3) has each function of the library, and a sentence for it", whole, f"{len(exports)} functions")
    )
    return [
        *cases,
        (
            "deltat-formats(5) has each word of the tables of docs/formats.md",
            len(words) > 80 and not lost,
            " ".join(lost),
        ),
    ]


def completions(root: Path, program: str) -> list[Case]:
    """The completions, by the shells that are there."""
    path = str(root / "usr/share/bash-completion/completions/deltat")
    asks = (
        f'source {path}; complete -p deltat; COMP_WORDS=(deltat "$1"); COMP_CWORD=$2; _deltat; echo "${{COMPREPLY[@]}}"'
    )
    told = {it: run("bash", "-c", asks, "bash", it, "1").stdout.splitlines()[-1].split() for it in ("", "re", "x")}
    behind = run("bash", "-c", asks, "bash", "re", "2").stdout.splitlines()[-1]
    right = sorted(told[""]) == COMMANDS and told["re"] == ["replay", "retrace"] and not told["x"] and not behind
    cases = [("completion of bash", right, "")]
    named = sorted(
        re.findall(r"^ +'(\w+):", (root / "usr/share/zsh/vendor-completions/_deltat").read_text(), re.MULTILINE)
    )
    if shutil.which("zsh"):
        cases.append(
            (
                "completion of zsh",
                named == COMMANDS
                and run("zsh", "-n", str(root / "usr/share/zsh/vendor-completions/_deltat")).returncode == 0,
                "",
            )
        )
    else:
        cases.append(("completion of zsh", named == COMMANDS, "its words alone: zsh isn't installed"))
    usage = run(program).stderr.replace("usage: deltat ", "").replace(" N", "").split(" | ")
    return [*cases, ("they have the program's commands", sorted(it.strip() for it in usage) == COMMANDS, "")]


def rotated(root: Path, room: Path) -> Case:
    """logrotate cuts the log that a process holds open, where it is long, and leaves the others."""
    name = "logrotate cuts a long log that a node writes on, and no other"
    if not shutil.which("logrotate"):
        return name, True, "not tried: it isn't installed"
    place = room / "log" / "pump"
    place.mkdir(parents=True)
    text = (root / "etc/logrotate.d/deltat").read_text()
    (room / "rotate").write_text(text.replace("/var/log/deltat", str(place.parent)).replace("size 100M", "size 1000"))
    (place / "short.log").write_text("0 1 took 1:10>2:20 5\n")
    with open(place / "long.log", "a", encoding="ascii") as node:
        node.write("0 1 took 1:10>2:20 5\n" * 100)
        node.flush()
        ran = run("logrotate", "-s", str(room / "rotate.state"), str(room / "rotate"))
        node.write("1 1 stop\n")
    right = (
        (place / "long.log").read_text() == "1 1 stop\n"
        and (place / "long.log.1").stat().st_size == 2100
        and sorted(it.name for it in place.iterdir()) == ["long.log", "long.log.1", "short.log"]
    )
    return name, ran.returncode == 0 and right and text.count("size 100M") == 1, ran.stderr[-300:]


def served(root: Path) -> list[Case]:
    """What operators' other programs read."""
    units = sorted(root.glob("lib/systemd/system/*"))
    asked = {
        it.name: re.findall(r"(/usr/\S+)", re.findall(r"^ExecStart=(.*)$", it.read_text(), re.MULTILINE)[0])
        for it in units
    }
    lost = [f"{name}: {it}" for name, its in asked.items() for it in its if not (root / it[1:]).exists()]
    cases = [
        (
            "each program that a unit starts is there",
            len(units) == 3 and all(asked.values()) and not lost,
            " ".join(lost),
        )
    ]
    if not shutil.which("promtool"):
        return [*cases, ("the rules for Prometheus", True, "not tried: promtool isn't installed")]
    ran = run("promtool", "check", "rules", str(root / "usr/share/deltat/prometheus/deltat.rules.yml"))
    return [*cases, ("the rules for Prometheus", ran.returncode == 0, ran.stderr[-300:])]


def example() -> tuple[str, str, str]:
    """README's first example: its command, the path of its schedule, and its log."""
    page = (TOP / "README.md").read_text()
    command, path = re.findall(r"^(\./deltat replay < (\S+))$", page, re.MULTILINE)[0]
    shown = re.findall(r"^```\n(0 1 took .*?)```", page, re.MULTILINE | re.DOTALL)[0]
    return command, path, shown


def used(root: Path, room: Path) -> list[Case]:
    """README's first example, as one who has the packages runs it."""
    command, path, shown = example()
    copy = room / "copy"
    ran = run("cp", "-rL", str(root / "usr/share/doc/deltat"), str(copy))
    cases = [("the pages' folder can be copied", ran.returncode == 0, ran.stderr)]
    ran = run("sh", "-c", command, cwd=copy)
    cases.append(("README's first example in a copy", (ran.returncode, ran.stdout) == (0, shown), ran.stderr))
    ran = run("sh", "-c", "tools/params.py 20 4", cwd=copy)
    cases.append(("a tool in a copy", ran.stdout.startswith("params "), ran.stderr))
    helps = [
        it
        for it in (root / "usr/lib/deltat").iterdir()
        if os.access(it, os.X_OK) and it.is_file() and run(str(it), "--help").returncode
    ]
    cases.append(("each tool tells its help", not helps, " ".join(map(str, helps))))
    if os.geteuid():
        return [*cases, ("with the C library alone", True, "not tried: only root can")]
    for it in re.findall(r"(/\S+)", run("ldd", str(root / "usr/bin/deltat")).stdout):
        (root / it[1:]).parent.mkdir(parents=True, exist_ok=True)
        shutil.copy2(os.path.realpath(it), root / it[1:])
    ran = run("chroot", str(root), "/usr/bin/deltat", "replay", given=(TOP / path).read_text())
    return [*cases, ("with the C library alone", (ran.returncode, ran.stdout) == (0, shown), ran.stderr)]


# two nodes of the Debian package's Python package, and a message
ASKS = """import deltat
params = deltat.Params(1000, 3000, 200, 100, 800, 500, 4096, 4096, 4096)
one, two = (deltat.Node(it, params, [deltat.Link(1, 90)], {3 - it: 1}, start=deltat.Start.FIRST, at=0) for it in (1, 2))
one.send(deltat.Flow(1, 10, 2, 20), b"hello", at=0)
for frame in one.datagrams():
    two.receive(frame.link, frame.octets, at=1)
print([it.octets for it in two.messages(2)])
"""


def asks(root: Path) -> list[Case]:
    """The library, as one who has the packages uses it."""
    library = str(root / LIBDIR / "libdeltat.so.2")
    ran = run(
        sys.executable, "-c", ASKS, PYTHONPATH=str(root / "usr/lib/python3/dist-packages"), DELTAT_LIBRARY=library
    )
    return [("two nodes of the Python package exchange a message", ran.stdout == "[b'hello']\n", ran.stderr)]


def looked_at(room: Path, packages: dict[str, str], given: Given) -> list[Case]:
    """All that is tried with the packages."""
    roots, root = room / "roots", room / "root"
    roots.mkdir()
    cases = [*controls(packages), *files(packages, roots, given), *symbols(roots, room), *closure(packages, room)]
    for it in packages.values():
        run("dpkg-deb", "-x", it, str(root))
    cases += [
        links(root),
        *manuals(root),
        *judged(room, roots),
        *completions(root, given.program),
        rotated(root, room),
        *served(root),
    ]
    return [*cases, *used(root, room), *asks(root)]


def main() -> int:
    reads = argparse.ArgumentParser(description="Builds the Debian packages, and looks at them.")
    reads.add_argument("program", nargs="?", default=str(PROGRAM), help="the program that is packed")
    reads.add_argument("--archive", default=default_archive(), metavar="FILE", help="the archive of the library")
    reads.add_argument("--keep", type=Path, metavar="FOLDER", help="copy the tarball and the packages there")
    words = reads.parse_args()
    given = Given(os.path.abspath(words.program), os.path.abspath(words.archive))
    if why := lacking(given.archive):
        skip(why)
    with tempfile.TemporaryDirectory() as folder:
        room = Path(folder)
        cases = tarballs(room, given)
        if not cases[0][1]:
            return tell(cases)
        cases += gates(room, given)
        packages, more = built(room)
        cases += more
        if sorted(packages) == sorted(OWNED):
            cases += looked_at(room, packages, given)
            if words.keep:
                for it in ("one", "packages"):
                    shutil.copytree(room / it, words.keep, dirs_exist_ok=True)
        return tell(cases)


if __name__ == "__main__":
    sys.exit(main())
