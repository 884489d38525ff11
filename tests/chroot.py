#!/usr/bin/env python3
"""The Debian packages, installed in a fresh Debian without the toolchain, and used there as the pages say.

Usage: tests/chroot.py [PROGRAM] [--archive FILE] [--packages FOLDER] [--cache FOLDER]

FILE is the archive of the library, as for tests/package.py; --packages takes the tarball and the packages that are in a
folder (tests/package.py --keep), in place of making them.

debootstrap makes two trees of Debian 12, which FOLDER (out/chroot) keeps as archives for the next time: one with what
its variant minbase has, and one that has python3, man, pkg-config, compilers of C, C++ and Rust, CMake and systemd too.
Each is unpacked anew.

- In the first, which has no toolchain, no compiler and no Python, the packages that need no Python are installed, every
  block of README and of the tutorial is run in a copy of the pages, a clone's `./deltat` takes the installed program,
  and two nodes start by their state folders. Then the packages are purged, and nothing is left.
- In the second all are installed, and the blocks of the other pages for users are run; a program in C is compiled by
  pkg-config, and a client in Python asks it; the programs in C and C++ of the library's page are compiled by pkg-config
  and by CMake, the one in Rust by cargo, without a network, with the crates' path, and pip installs the tarball's wheel
  into an environment of its own; man shows each man page; the tests of debian/tests run. Then systemd is started there,
  as the first process of namespaces and of a cgroup of its own: the unit's node starts as `first`, is killed, and is
  started as `again`; a script that is refused isn't started once more; and when the package is removed, the node is
  stopped, and its state folder is kept.
- Where piuparts is installed, it installs, removes and purges each package in the first tree, with the mirror's
  packages.

Neither has a network but for its own loopback, except piuparts'. Skipped where there is no root, no debootstrap, no
archive, or no tree after MAKING seconds, as without a network.

In tests/all: PROGRAM, 2400 s."""
import argparse
import hashlib
import os
import re
import shutil
import subprocess
import sys
import tarfile
import tempfile
from pathlib import Path

from lib import PROGRAM, TOP, skip, tell
from package import ASKS, OF_PYTHON, OWNED, Case, default_archive, example, lacking
from tutorial import entering

SUITE = "bookworm"
MIRROR = "http://deb.debian.org/debian"
# how long the making of a tree may take, and what else is done in one
MAKING, DOING = 800, 300
ADDED = "python3 python3-venv man-db pkg-config gcc g++ cmake make libc6-dev cargo rustc systemd"
INSIDE = "DELTAT_TEST_INSIDE"
# with mounts and a network of its own
ALONE = ("unshare", "--mount", "--propagation", "private", "--net")

# what the plain tree hasn't got
BARE = "for it in rt gcc cc tcc clang python3 man make; do ! command -v $it || exit 1; done"
# two nodes that are started by their state folders, and what these have
STATES = """cp -rL /usr/share/doc/deltat /root/pages
cd /root/pages
mkdir state-1 state-2
timeout 30 tools/run-node state-2 examples/node-2.script >two &
tools/run-node state-1 examples/node-1.script >one
grep -q 'read 2:20>1:10 rbe 776f726c64' one
wait
ls state-1 state-2
"""
REMOVED = """dpkg --purge {names} >/dev/null
find / -xdev -path /root -prune -o -path /proc -prune -o -name '*deltat*' -print
"""
# the service of examples/ in C, compiled by the pkg-config file, and a client in Python that asks it
COMPILED = """cd /root/copy
cc -std=gnu11 -O2 examples/echo.c $(pkg-config --cflags --libs deltat) -o /root/echo
ldconfig -p | grep -q libdeltat.so.2
timeout 30 /root/echo &
sleep 1
python3 examples/echo.py ask-plain hello world
kill $!
"""
# the wheel of the Python package, in an environment of its own, and with it the programs of README and of the library's
# page; `block` gives a page's first block of a language
BLOCK = r"""block() { sed -n "/^\`\`\`$1\$/,/^\`\`\`\$/{/^\`\`\`\$/q;/^\`/d;p;}" "/usr/share/doc/deltat/$2"; }
"""
WHEEL = (
    BLOCK
    + """python3 -m venv /root/environment
/root/environment/bin/pip install --no-index --quiet /root/deltat-*.whl
cd /
/root/environment/bin/python -c 'import deltat; print(deltat.__file__.startswith("/root/environment/"))'
PATH=/root/environment/bin:$PATH
python /usr/share/doc/deltat/examples/hello.py
mkdir /root/calls /root/messages
block python README.md >/root/calls/service.py
block python docs/library.md >/root/messages/service.py
cd /root/calls
timeout 60 python service.py &
sleep 1
python service.py ask
kill $! && wait
cd /root/messages
timeout 60 python service.py &
sleep 3
python /usr/share/doc/deltat/examples/echo.py ask hello world
kill $!
"""
)
# the two programs of docs/library.md, by pkg-config and by CMake
HELLO = """cd /root/copy/examples
cc -std=c11 hello.c $(pkg-config --cflags --libs deltat) -o /root/hello && /root/hello
c++ -std=c++17 hello.cpp $(pkg-config --cflags --libs deltat) -o /root/hello++ && /root/hello++
mkdir /root/project
cp hello.c hello.cpp /root/project
cat >/root/project/CMakeLists.txt <<'END'
cmake_minimum_required(VERSION 3.13)
project(hello C CXX)
find_package(deltat REQUIRED)
set(CMAKE_CXX_STANDARD 17)
add_executable(hello hello.c)
target_link_libraries(hello PRIVATE deltat::deltat)
add_executable(hello++ hello.cpp)
target_link_libraries(hello++ PRIVATE deltat::static)
END
cmake -S /root/project -B /root/project/made >/dev/null && cmake --build /root/project/made >/dev/null
/root/project/made/hello && /root/project/made/hello++
"""
# the service of the same page in Rust, by the path of its crates, with the oldest Rust that the page names; behind its
# silence the client in Python asks it
RUST = (
    BLOCK
    + r"""rustc --version | grep -q '^rustc 1\.63\.'
mkdir -p /root/crate/src
cd /root/crate
cat >Cargo.toml <<'END'
[package]
name = "service"
version = "0.1.0"
edition = "2021"

[dependencies]
deltat = { path = "/usr/share/deltat/rust/deltat" }
deltat-udp = { path = "/usr/share/deltat/rust/deltat-udp" }
END
block rust docs/library.md >src/main.rs
cargo build --offline --quiet
timeout 30 target/debug/service &
sleep 3
python3 /root/copy/examples/echo.py ask hello world
kill $!
"""
)
# the tests of debian/tests, as autopkgtest runs them
TESTS = """cd /root/tests
export AUTOPKGTEST_TMP=/root/autopkgtest
mkdir "$AUTOPKGTEST_TMP"
for it in example python c tools; do ./$it; done
"""
HELPS = "for it in /usr/lib/deltat/*; do [ ! -f $it ] || [ ! -x $it ] || $it --help >/dev/null || echo $it; done"
# what systemd runs: the unit of two nodes, of which one is killed and the other's script is refused
UNIT = """[Service]
Type=oneshot
ExecStart=/bin/bash -eux /root/units.sh
StandardOutput=file:/root/units.out
StandardError=file:/root/units.err
"""
UNITS = r"""sed -e 's/^peer .*/peer 1 127.0.0.1:4002 46 0/' \
    -e 's/^params .*/params 54 40 1 8 16 1442 65536 65536 65536 2147483648/' \
    -e 's/^at 1000 /at 20 /' /usr/share/doc/deltat/examples/node-1.script >/etc/deltat/pump.script
echo nonsense >/etc/deltat/bad.script
systemctl start deltat-node@pump
sleep 2
kill -9 "$(systemctl show deltat-node@pump -p MainPID --value)"
sleep 4
systemctl start deltat-node@bad || true
sleep 2
show() {
    systemctl show "deltat-node@$1" -p ActiveState -p NRestarts -p ExecMainStatus | sort | tr '\n' ' '
    echo "$1"
}
show pump
show bad
for log in /var/log/deltat/pump/*.log; do head -n 1 "$log"; done
grep '^me' /var/lib/deltat/pump/node-1.script
dpkg --remove deltat >/dev/null
systemctl show deltat-node@pump -p ActiveState
ls /var/lib/deltat/pump
echo done
"""
# the first line of each start's log: the node sends 20 ms behind its start, or is silent for 203
STARTED = (
    r"ActiveState=active ExecMainStatus=0 NRestarts=1 pump\nActiveState=failed ExecMainStatus=2 NRestarts=0 bad\n"
    r"\d+ 1 took 1:10>2:20 5\n\d+ 1 refused 1:10>2:20 quiet 203\nme 1 again\nActiveState=(inactive|failed)\n"
    r"lock\nnode-1.script\nstate\ndone\n"
)
# a cgroup of its own, which is gone behind that; and in it systemd, whose end is that of all it started
BOOT = r"""group={group}
was=$(sed -n 's/^0:://p' /proc/self/cgroup)
mkdir -p "$group" && mount -t cgroup2 none "$group" && mkdir "$group/deltat-$$" || exit 77
echo $$ >"$group/deltat-$$/cgroup.procs" || exit 77
unshare --cgroup --mount --pid --fork --kill-child --net --uts --ipc bash -c '
mount --bind {root} {root} && mount -t proc proc {root}/proc && mount -t sysfs sysfs {root}/sys &&
mount -t tmpfs tmpfs {root}/run &&
mount -t cgroup2 none {root}/sys/fs/cgroup &&
container=chroot exec chroot {root} /lib/systemd/systemd --unit=units.service' </dev/null >/dev/null 2>&1 &
for _ in $(seq {seconds}); do sleep 1; ! grep -qs "^done" {root}/root/units.out || break; done
kill -9 $! && wait
echo $$ >"$group$was/cgroup.procs"
sleep 1
find "$group/deltat-$$" -depth -type d -exec rmdir {{}} \;
"""
MANUALS = {"deltat": 1, "deltat-formats": 5, "libdeltat": 3}


def run(*words: str, seconds: float = DOING) -> "subprocess.CompletedProcess[str]":
    """A command that is ended, with all that it started, after its seconds; the status is 124 then."""
    with subprocess.Popen(
        words,
        stdin=subprocess.DEVNULL,
        stdout=subprocess.PIPE,
        stderr=subprocess.PIPE,
        text=True,
        start_new_session=True,
        env={
            "PATH": "/usr/sbin:/usr/bin:/sbin:/bin",
            "LC_ALL": "C.UTF-8",
            "DEBIAN_FRONTEND": "noninteractive",
            "HOME": "/root",
        },
    ) as process:
        try:
            out, err = process.communicate(timeout=seconds)
        except subprocess.TimeoutExpired:
            os.killpg(process.pid, 9)
            out, err = process.communicate()
            return subprocess.CompletedProcess(words, 124, out, f"{err}stopped after {seconds} s")
        return subprocess.CompletedProcess(words, process.returncode, out, err)


def apart(*words: str) -> tuple[str, ...]:
    """A command whose mounts go with it."""
    return "unshare", "--mount", "--propagation", "private", "nice", "-n", "10", *words


def archives(cache: Path) -> tuple[Path, Path]:
    return cache / f"{SUITE}.tar.gz", cache / f"{SUITE}-{hashlib.sha256(ADDED.encode()).hexdigest()[:8]}.tar.gz"


def trees(cache: Path) -> tuple[Path, Path]:
    """The archives of both trees, which are made where they aren't there."""
    plain, full = archives(cache)
    cache.mkdir(parents=True, exist_ok=True)
    with tempfile.TemporaryDirectory() as folder:
        root = Path(folder) / "root"
        if not plain.exists():
            packages = cache / "packages"
            packages.mkdir(exist_ok=True)
            made(
                run(
                    *apart("debootstrap", "--variant=minbase", f"--cache-dir={packages}", SUITE, str(root), MIRROR),
                    seconds=MAKING,
                )
            )
            keep(root, plain)
        if not full.exists():
            unpack(plain, root)
            gets = f"apt-get -q update && apt-get -qy --no-install-recommends install {ADDED} && apt-get clean"
            adds = f"mount -t proc proc {root}/proc && exec chroot {root} sh -c '{gets}'"
            made(run(*apart("sh", "-c", adds), seconds=MAKING))
            keep(root, full)
    return plain, full


def made(ran: "subprocess.CompletedProcess[str]") -> None:
    if ran.returncode:
        skip(f"no Debian could be made: {(ran.stderr.strip() or ran.stdout.strip()).splitlines()[-1:]}")


def keep(root: Path, archive: Path) -> None:
    part = archive.with_suffix(".part")
    subprocess.run(["tar", "--use-compress-program", "gzip -1", "-C", str(root), "-cf", str(part), "."], check=True)
    part.rename(archive)


def unpack(archive: Path, root: Path) -> None:
    root.mkdir(exist_ok=True)
    subprocess.run(["tar", "-C", str(root), "-xzf", str(archive)], check=True)
    # as Debian's installer writes it, and debootstrap doesn't
    (root / "etc/hosts").write_text("127.0.0.1 localhost\n::1 localhost\n")


def within(root: Path, text: str) -> "subprocess.CompletedProcess[str]":
    """Commands in a tree."""
    return run(*entering(root, "bash", "-euc", f"set -o pipefail\ncd /root\n{text}"))


def pages(root: Path, *names: str) -> list[Case]:
    """Every block of these pages, as the package has them."""
    wanted = [word for it in names for word in ("--page", it)]
    ran = run(sys.executable, str(TOP / "tests" / "tutorial.py"), "--root", str(root), *wanted)
    lines = [it for it in ran.stdout.splitlines() if it.startswith(names)]
    cases = [
        (f"every block of {it.partition(':')[0]}", "as shown" in it, it.partition(":")[2].strip())
        for it in lines
        if re.match(r"\S+: \d+ blocks", it)
    ]
    return [
        *cases,
        (
            "all of these pages",
            ran.returncode == 0 and len(cases) == len(names),
            "" if not ran.returncode else ran.stdout[-600:] + ran.stderr[-300:],
        ),
    ]


def install(root: Path, packages: dict[str, Path], *names: str) -> Case:
    """Installs these packages, and has dpkg look at them."""
    for it in names:
        shutil.copy2(packages[it], root / "root")
    files = " ".join(packages[it].name for it in names)
    ran = within(root, f"dpkg -i {files} >/dev/null && dpkg --audit && dpkg --verify {' '.join(names)}")
    return "installed", (ran.returncode, ran.stdout + ran.stderr) == (0, ""), ran.stdout + ran.stderr[-300:]


def plain_cases(root: Path, packages: dict[str, Path], _wheel: Path) -> list[Case]:
    ran = within(root, BARE)
    names = sorted(packages.keys() - OF_PYTHON.keys())
    cases = [("nothing but Debian is there", ran.returncode == 0, ran.stdout.strip()), install(root, packages, *names)]
    cases += pages(root, "README.md", "docs/tutorial.md")
    _, path, log = example()
    clone = root / "root" / "clone"
    shutil.copytree(TOP, clone, ignore=shutil.ignore_patterns("out", ".git", "__pycache__", "target"))
    ran = within(root, f"cd clone && ./deltat replay < {path}")
    right = (ran.returncode, ran.stdout) == (0, log) and "this is /usr/bin/deltat, which is installed" in ran.stderr
    cases.append(("a clone's ./deltat is the installed one", right, ran.stderr.strip()))
    ran = within(root, STATES)
    folders = "state-1:\nlock\nnode-1.script\nstate\n\nstate-2:\nlock\nnode-2.script\nstate\n"
    cases.append(("two nodes by their state folders", (ran.returncode, ran.stdout) == (0, folders), ran.stderr[-300:]))
    ran = within(root, REMOVED.format(names=" ".join(names)))
    return [
        *cases,
        ("removed, and nothing is left", (ran.returncode, ran.stdout) == (0, ""), ran.stdout + ran.stderr[-300:]),
    ]


def manual(root: Path, name: str, section: int) -> Case:
    ran = within(root, f"MANPAGER=cat MANWIDTH=80 man --warnings {section} {name}")
    right = (
        ran.returncode == 0
        and not ran.stderr
        and ran.stdout.count("\n") > 50
        and f"{name.upper()}({section})" in ran.stdout
    )
    return f"man {section} {name}", right, ran.stderr[-300:] or f"{ran.stdout.count(chr(10))} lines"


def unit(root: Path) -> Case:
    """The unit, by a systemd of its own."""
    name = "the unit under systemd"
    if not (root / "lib/systemd/systemd").exists():
        return name, True, "not tried: there is no systemd"
    (root / "etc/systemd/system/units.service").write_text(UNIT)
    (root / "root/units.sh").write_text(UNITS)
    with tempfile.TemporaryDirectory() as group:
        ran = run(
            "unshare",
            "--mount",
            "--propagation",
            "private",
            "bash",
            "-c",
            BOOT.format(group=group, root=root, seconds=60),
        )
    if ran.returncode == 77:
        return name, True, "not tried: there are no cgroups to make"
    out, err = (root / "root/units.out", root / "root/units.err")
    said = out.read_text() if out.exists() else ""
    return (
        name,
        bool(re.fullmatch(STARTED, said)),
        "" if re.fullmatch(STARTED, said) else f"{said}{err.read_text()[-300:] if err.exists() else ran.stderr[-300:]}",
    )


def library_cases(root: Path, wheel: Path) -> list[Case]:
    (root / "root" / "asks.py").write_text(ASKS)
    shutil.copy2(wheel, root / "root")
    tests = root / "root" / "tests"
    shutil.copytree(TOP / "debian" / "tests", tests)
    parts = [
        ("the Python package, where it is installed", "python3 asks.py", "[b'hello']\n"),
        ("the wheel, by pip, and the programs in Python", WHEEL, "True\nhello\nb'olleh'\nolleh\ndlrow\n"),
        ("a C program by its pkg-config file, and a client in Python", COMPILED, "olleh\ndlrow\n"),
        ("the programs of the library's page, by pkg-config and by CMake", HELLO, "hello\n" * 4),
        ("the program in Rust of that page, by its crates' path", RUST, "olleh\ndlrow\n"),
        ("the tests of debian/tests", TESTS, "audit yes\n[b'hello']\n"),
    ]
    return [wrote(root, *it) for it in parts]


def wrote(root: Path, name: str, text: str, wanted: str) -> Case:
    """Whether commands in a tree end with 0 and write this."""
    ran = within(root, text)
    is_right = (ran.returncode, ran.stdout) == (0, wanted)
    return name, is_right, "" if is_right else ran.stdout + ran.stderr[-300:]


def full_cases(root: Path, packages: dict[str, Path], wheel: Path) -> list[Case]:
    users = ("README.md", "docs/parameters.md", "docs/operating.md", "docs/library.md", "docs/tools.md")
    cases = [install(root, packages, *sorted(packages)), *pages(root, *users)]
    cases += [manual(root, it, section) for it, section in MANUALS.items()]
    helps = within(root, HELPS)
    cases.append(
        ("each tool tells its help", (helps.returncode, helps.stdout) == (0, ""), helps.stdout + helps.stderr[-300:])
    )
    return [*cases, *library_cases(root, wheel), unit(root)]


def given_packages(room: Path, program: str, archive: str) -> str:
    """Makes the tarball and the packages in a folder; returns why there are none, or nothing."""
    ran = run(
        str(TOP / "release" / "all.sh"), "--program", program, "--archive", archive, "--out", str(room), seconds=MAKING
    )
    if ran.returncode == 0:
        ran = run(
            str(TOP / "release" / "build.sh"), "--tarball", ran.stdout.strip(), "--out", str(room), seconds=MAKING
        )
    return "" if ran.returncode == 0 else ran.stderr or "nothing was said"


def wheel_of(folder: Path, room: Path) -> Path:
    """The wheel of the tarball in a folder."""
    with tarfile.open(next(folder.glob("deltat-*-linux_*.tar.gz"))) as it:
        name = next(name for name in it.getnames() if name.endswith(".whl"))
        it.extract(name, room)
    return room / name


def piuparts(plain: Path, packages: dict[str, Path]) -> Case:
    """Whether piuparts finds nothing that is left or broken behind any of the packages."""
    name = "piuparts: installed, removed, purged"
    if not shutil.which("piuparts", path="/usr/sbin:/usr/bin"):
        return name, True, "not tried: it isn't installed"
    words = (
        "--no-upgrade-test",
        "--skip-logrotatefiles-test",
        "--warn-on-debsums-errors",
        "--warn-on-usr-move",
        "-d",
        SUITE,
        "-m",
        MIRROR,
        "-b",
        str(plain),
    )
    ran = run("piuparts", *words, *map(str, packages.values()), seconds=MAKING)
    last = (ran.stdout.strip() or ran.stderr.strip() or "nothing was said").splitlines()
    told = [it for it in last if "ERROR" in it or "FAIL" in it]
    if ran.returncode and any(
        "Temporary failure" in it or "Could not resolve" in it or "Failed to fetch" in it for it in last
    ):
        return name, True, "not tried: there is no mirror"
    return name, ran.returncode == 0, last[-1] if ran.returncode == 0 else "\n".join([*told, *last[-15:]])


def inside(folder: Path, plain: Path, full: Path) -> int:
    """All of it, in a network namespace that has its loopback alone."""
    subprocess.run(["ip", "link", "set", "lo", "up"], check=True)
    packages = {it.name.partition("_")[0]: it for it in sorted(folder.glob("*.deb"))}
    if packages.keys() != OWNED.keys():
        return tell([("the packages", False, f"{folder} has {' '.join(packages) or 'none'}")])
    with tempfile.TemporaryDirectory() as name:
        room = Path(name)
        wheel = wheel_of(folder, room)
        cases: list[Case] = []
        for archive, does in ((plain, plain_cases), (full, full_cases)):
            root = room / archive.name.partition(".")[0]
            unpack(archive, root)
            where = "with Python" if archive == full else "without Python"
            cases += [(f"{where}: {name}", holds, text) for name, holds, text in does(root, packages, wheel)]
        return tell(cases)


def main() -> int:
    reads = argparse.ArgumentParser(
        description="Installs the packages in a fresh Debian, and does there what the pages say."
    )
    reads.add_argument("program", nargs="?", default=str(PROGRAM), help="the program that is packed")
    reads.add_argument("--archive", default=default_archive(), metavar="FILE", help="the archive of the library")
    reads.add_argument("--packages", type=Path, metavar="FOLDER", help="take the tarball and the packages there")
    reads.add_argument(
        "--cache",
        type=Path,
        default=TOP / "out" / "chroot",
        metavar="FOLDER",
        help="keep the trees of Debian there (out/chroot)",
    )
    given = reads.parse_args()
    cache = given.cache.resolve()
    if INSIDE in os.environ:
        return inside(given.packages.resolve(), *archives(cache))
    if os.geteuid():
        skip("only root can change its root")
    for it in ("debootstrap", "dpkg-deb", "unshare", "ip"):
        if not shutil.which(it, path="/usr/sbin:/usr/bin:/sbin:/bin"):
            skip(f"there is no {it}")
    if not given.packages and (why := lacking(given.archive)):
        skip(why)
    if run(*ALONE, "true").returncode:
        skip("this root may make no namespaces")
    plain, _ = trees(cache)
    with tempfile.TemporaryDirectory() as folder:
        packages = given.packages.resolve() if given.packages else Path(folder)
        why = (
            ""
            if given.packages
            else given_packages(packages, os.path.abspath(given.program), os.path.abspath(given.archive))
        )
        if why:
            return tell([("the packages", False, why)])
        words = [
            *ALONE,
            sys.executable,
            str(Path(__file__).resolve()),
            "--packages",
            str(packages),
            "--cache",
            str(cache),
        ]
        status = subprocess.run(words, env={**os.environ, INSIDE: "yes"}, check=False).returncode
        files = {it.name.partition("_")[0]: it for it in sorted(packages.glob("*.deb"))}
        return max(status, tell([piuparts(plain, files)]))


if __name__ == "__main__":
    sys.exit(main())
