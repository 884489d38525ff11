#!/usr/bin/env python3
"""The wheel of the Python package, as a user installs it. `tests/wheel.py`. Ends with 77 if there is no library, or if
Python has no venv or pip (Debian: python3-venv).

- `release/wheel.sh` makes it, twice the same, octet for octet; pip makes the same one of bindings/python; and without a
  library nothing is made, and the error says what to do.
- `pip install --no-index` puts it into a fresh environment. There, without any variable that names a library or a
  module, the package imports, from that environment, and the libraries that the process has are those of the wheel.
- examples/hello.py is the program that docs/library.md shows, of 25 lines at most, and prints what it says there;
  examples/echo.py answers, both ends from the environment. The program of README has 25 lines at most.
- A library of interface 1, or none, is refused at the import, and the error says what to install.
- `pip uninstall` leaves nothing.

In tests/all: no words, 300 s."""
import os
import pathlib
import re
import shutil
import subprocess
import sys
import tempfile
import time
from collections.abc import Iterator

from lib import TOP, skip

ABI = int(re.findall(r"(?m)^ABI_VERSION = (\d+)$", (TOP / "bindings" / "python" / "deltat" / "_c.py").read_text())[0])
LIBRARY = TOP / "lib" / f"libdeltat.so.{ABI}"
WHEEL = TOP / "release" / "wheel.sh"
MOST_LINES = 25
# a shared library with the one function by which interface 1 had its number
FORMER = "#include <stdint.h>\nuint32_t dt_abi(void) { return 1; }\n"
# which files the import has, as the kernel sees them
LOADED = """import deltat
from deltat._library import drivers
drivers()
maps = {line.split()[-1] for line in open("/proc/self/maps") if "libdeltat" in line}
print(deltat.__file__, *sorted(maps), deltat.version())
"""

Case = tuple[str, bool, str]


def run(*words: object, **places: str) -> subprocess.CompletedProcess[str]:
    """Runs a program with no variable that names libraries or modules, except these."""
    kept = {name: it for name, it in os.environ.items() if not name.startswith(("PYTHON", "PIP_", "LD_", "DELTAT_"))}
    env = {**kept, "PIP_CONFIG_FILE": os.devnull, "PIP_DISABLE_PIP_VERSION_CHECK": "1", **places}
    return subprocess.run([str(it) for it in words], env=env, capture_output=True, text=True, timeout=120)


def made(folder: pathlib.Path, python: str) -> Iterator[Case]:
    wheels = []
    for name in ("one", "two"):
        (folder / name).mkdir()
        ran = run("sh", WHEEL, folder / name)
        wheels += (folder / name).glob("deltat-*.whl")
        yield f"release/wheel.sh, {name}", ran.returncode == 0 and ran.stdout.strip() == str(wheels[-1]), ran.stderr
    version = (TOP / "VERSION").read_text().strip()
    wanted = f"deltat-{version}-py3-none-linux_{os.uname().machine}.whl"
    yield "its name has the version and the machine", [it.name for it in wheels] == [wanted] * 2, str(wheels)
    yield "both are the same", wheels[0].read_bytes() == wheels[1].read_bytes(), ""
    words = ["--no-index", "--no-deps", "-w", folder / "three", TOP / "bindings" / "python"]
    ran, by_pip = run(python, "-m", "pip", "wheel", *words), folder / "three" / wanted
    is_same = by_pip.exists() and by_pip.read_bytes() == wheels[0].read_bytes()
    yield "pip makes the same of bindings/python", is_same, ran.stderr[-500:]
    ran = run("sh", WHEEL, folder / "one", DELTAT_LIBRARY=str(folder / "none"))
    is_said = "isn't there; build it with `make -C lib`" in ran.stderr
    yield "without a library none is made", ran.returncode == 1 and is_said, ran.stderr
    ran = run("sh", WHEEL, folder / "no" / "folder")
    yield "wrong words are refused", ran.returncode == 2, ran.stderr


def block_of(page: str, after: str) -> str:
    """The program in Python that stands first after these words of a page."""
    text = (TOP / page).read_text()
    found = re.search(r"```(?:python)?\n((?:import |\"\"\").*?)```\n", text[text.index(after):], re.DOTALL)
    return found[1] if found else ""


def programs(python: str, folder: pathlib.Path) -> Iterator[Case]:
    example = TOP / "examples" / "hello.py"
    text = example.read_text()
    yield "docs/library.md shows examples/hello.py", text in (TOP / "docs" / "library.md").read_text(), ""
    for name, program in (
        ("examples/hello.py", text),
        ("README", block_of("README.md", "## A service and its client")),
    ):
        lines = program.splitlines()
        is_short = 0 < len(lines) <= MOST_LINES and max(map(len, lines)) <= 120
        yield f"{name} has at most {MOST_LINES} lines", is_short, f"{len(lines)} lines"
    # (a copy, so that it finds no bindings beside it)
    shutil.copytree(TOP / "examples", folder / "examples")
    ran = run(python, folder / "examples" / "hello.py")
    yield "examples/hello.py", (ran.stdout, ran.stderr) == ("hello\n", ""), ran.stdout + ran.stderr[-500:]
    words = [python, str(folder / "examples" / "echo.py")]
    kept = {"PATH": os.environ["PATH"], "HOME": str(folder)}
    with subprocess.Popen([*words, "serve"], env=kept, stderr=subprocess.PIPE, text=True) as service:
        time.sleep(1)
        ran = run(*words, "ask", "hello", "world", HOME=str(folder))
        is_busy = service.poll() is not None
        service.kill()
        said = service.communicate()[1]
    if is_busy and "in use" in said:
        print("examples/echo.py wasn't tried: another program has port 4002")
    else:
        yield "examples/echo.py", ran.stdout == "olleh\ndlrow\n", ran.stdout + ran.stderr[-300:] + said[-300:]


def refused(python: str, folder: pathlib.Path) -> Iterator[Case]:
    """Libraries that the package can't use."""
    ran = run(python, "-c", "import deltat", DELTAT_LIBRARY=str(folder / "nothing.so"))
    error = ran.stderr.strip().splitlines()[-1]
    is_said = error.startswith("ImportError: deltat: ") and "can't be loaded" in error and "install libdeltat" in error
    yield "no library is an ImportError that says what to do", is_said, error
    if not shutil.which("cc"):
        print("a library of interface 1 wasn't tried: there is no compiler of C")
        return
    old, source = folder / "libdeltat.so.0", folder / "former.c"
    source.write_text(FORMER)
    run("cc", "-shared", "-fPIC", source, "-o", old)
    ran = run(python, "-c", "import deltat", DELTAT_LIBRARY=str(old))
    error = ran.stderr.strip().splitlines()[-1]
    is_said = f"{old} has interface 1, and this package needs {ABI}; install" in error
    is_said = is_said and error.startswith("ImportError")
    yield "a library of interface 1 is an ImportError with both numbers", is_said, error
    program = "import deltat\ntry:\n    deltat.Spent\nexcept AttributeError as why:\n    print(why)\n"
    ran = run(python, "-c", program)
    is_said = "has Stopped in its place" in ran.stdout
    yield "a name of interface 1 is refused, with the present one", is_said, ran.stdout + ran.stderr[-300:]


def installed(folder: pathlib.Path) -> Iterator[Case]:
    place = folder / "environment"
    ran = run(sys.executable, "-m", "venv", place)
    if ran.returncode:
        skip(f"there is no venv or pip: apt-get install python3-venv ({(ran.stdout + ran.stderr).strip()[-200:]})")
    python = str(place / "bin" / "python")
    yield from made(folder, python)
    wheel = next((folder / "one").glob("*.whl"), folder / "none")
    ran = run(python, "-m", "pip", "install", "--no-index", wheel)
    yield "pip install --no-index", ran.returncode == 0, ran.stderr[-500:]
    ran = run(python, "-c", LOADED)
    package = place / "lib" / f"python{sys.version_info[0]}.{sys.version_info[1]}" / "site-packages" / "deltat"
    driver = next((TOP / "lib").glob("libdeltat-udp.so.*")).name
    wanted = [
        str(package / "__init__.py"),
        str(package / driver),
        str(package / LIBRARY.name),
        (TOP / "VERSION").read_text().strip(),
    ]
    yield "it imports, with the libraries of the wheel", ran.stdout.split() == wanted, ran.stdout + ran.stderr[-500:]
    yield from programs(python, folder)
    yield from refused(python, folder)
    ran = run(python, "-m", "pip", "uninstall", "--yes", "deltat")
    left = [it for it in place.rglob("*") if "deltat" in str(it.relative_to(place))]
    yield "pip uninstall leaves nothing", ran.returncode == 0 and not left, ran.stderr[-300:] + str(left[:3])


def main() -> int:
    if not LIBRARY.exists():
        skip(f"{LIBRARY} isn't there: make -C lib")
    count = failed = 0
    with tempfile.TemporaryDirectory() as folder:
        for name, holds, text in installed(pathlib.Path(folder)):
            print(f"{'ok' if holds else 'FAILED'}: {name}{'' if holds else ': ' + text}", flush=True)
            count, failed = count + 1, failed + (not holds)
    print(f"{count - failed} passed, {failed} failed")
    return 1 if failed else 0


if __name__ == "__main__":
    sys.exit(main())
