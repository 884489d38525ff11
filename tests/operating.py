#!/usr/bin/env python3
"""tools/run-node and the unit of release/: a node starts as `first` once, and as `again` ever after.

Usage: tests/operating.py [PROGRAM]

Starts of a real node, killed and started again, with scripts that say `first` and `again`; a stamp of an earlier
version, a link that leads nowhere, a state that is damaged, and other parameters; the same folder used by the library's
module for Python, where `make -C lib` has made it; and what ends without a start: wrong words, scripts without a line
`me`, or with two, a folder that can't be written, is another node's or in use; and starts that are killed on their way.
The order of state and start is looked at by a command that reads the state. The unit is checked by systemd-analyze
where that is installed.

In tests/all: PROGRAM, 60 s."""
import os
import re
import shutil
import signal
import subprocess
import sys
import tempfile
import time
from pathlib import Path

from lib import HOST, TOP, free_port, params, program, tell

RUN_NODE = str(TOP / "tools" / "run-node")
UNIT = TOP / "release" / "deltat-node@.service"
# silent for 3 * 34 + 40 + 1 = 143 ms
TIMES = "34 40 1 8 16"


def script(number: int, how: str, commands: tuple[str, ...] = ("at 0 stop",)) -> str:
    lines = [
        params(times=TIMES),
        f"me {number} {how}",
        f"local {HOST}:{free_port()}",
        "peer 1 127.0.0.1:9 26 0",
        "route 99 1",
        "go",
        *commands,
    ]
    return "".join(f"{it}\n" for it in lines)


class Place:
    """State folders by their nodes' numbers, and a script beside them."""

    def __init__(self, folder: str) -> None:
        self.states, self.script = Path(folder) / "states", Path(folder) / "a.script"
        self.states.mkdir()

    def folder(self, number: int) -> Path:
        found = self.states / str(number)
        found.mkdir(exist_ok=True)
        return found

    def run(self, text: str, *command: str, folder: Path | None = None) -> "subprocess.CompletedProcess[str]":
        self.script.write_text(text)
        found = folder or self.folder(int((re.findall(r"^me (\d+)", text, re.MULTILINE) or ["0"])[0]))
        return subprocess.run(
            [RUN_NODE, str(found), str(self.script), *command], capture_output=True, text=True, check=False, timeout=30
        )

    def how(self, text: str) -> str:
        """As what a node is started."""
        return " ".join(re.findall(r"^me \d+ (\w+)$", self.run(text, "cat").stdout, re.MULTILINE))


def is_silent(place: Place, text: str) -> bool:
    """Whether a real node that sends at once is refused."""
    ran = place.run(text, program(), "node")
    return ran.returncode == 0 and "refused 5:1>99:1 quiet 143" in ran.stdout


def starts(place: Place) -> list[tuple[str, bool, str]]:
    sends = script(5, "first", ("at 0 send 5:1>99:1 be 00", "at 10 stop"))
    cases = [
        ("the first start isn't silent", not is_silent(place, sends), ""),
        ("the second is", is_silent(place, sends), ""),
    ]
    cases.append(("another number starts as first", place.how(script(6, "first")) == "first", ""))
    cases.append(("and then as again", place.how(script(6, "first")) == "again", ""))
    cases.append(("a script that says again stays so", place.how(script(60, "again")) == "again", ""))
    cases.append(("and leaves a stamp", place.how(script(60, "first")) == "again", ""))
    cases.append(("a longer number is another one", place.how(script(66, "first")) == "first", ""))
    (place.folder(8) / "state").symlink_to("/nowhere/at/all")
    cases.append(
        (
            "a state that leads nowhere",
            place.how(script(8, "first")) == "again" and not (place.folder(8) / "state").is_symlink(),
            "",
        )
    )
    (place.folder(10) / "node-10.stamp").write_text("node 10 was started on 2026-01-01\n")
    cases.append(("a stamp of an earlier version", place.how(script(10, "first")) == "again", ""))
    kept = (place.folder(5) / "node-5.script").read_text()
    cases.append(("the script as it ran is kept", kept == sends.replace("me 5 first", "me 5 again"), ""))
    return cases


def killed(place: Place) -> tuple[str, bool, str]:
    """A node that is killed right behind its start is started as again."""
    place.script.write_text(script(7, "first", ("at 20000 stop",)))
    folder = str(place.folder(7))
    with subprocess.Popen([RUN_NODE, folder, str(place.script), program(), "node"], stdout=subprocess.DEVNULL) as node:
        time.sleep(0.5)
        second = place.run(script(7, "first"), "echo", "started")
        is_refused = (
            second.returncode == 1
            and not second.stdout
            and f"{folder} is in use by process {node.pid};" in second.stderr
        )
        runs_itself = Path(f"/proc/{node.pid}/exe").resolve() == Path(program()).resolve()
        node.kill()
    return (
        "a node that was killed",
        runs_itself and is_refused and place.how(script(7, "first")) == "again",
        second.stderr if not is_refused else "",
    )


def order(place: Place) -> tuple[str, bool, str]:
    """The state is there when the command starts."""
    looks = f'grep "^life" "{place.folder(9)}/state"; ls "{place.folder(9)}"'
    told = [place.run(script(9, "first"), "sh", "-c", looks).stdout.split() for _ in range(2)]
    return (
        "the state is there before the start",
        told == [["life", it, "lock", "node-9.script", "state"] for it in ("1", "2")],
        f"{told}",
    )


def kept(place: Place) -> list[tuple[str, bool, str]]:
    """States that are damaged, another node's, and of other parameters."""
    def life(number: int) -> int:
        return int(re.findall(r"^life (\d+)$", (place.folder(number) / "state").read_text(), re.MULTILINE)[0])

    cases = []
    for name, damage in {
        "cut": lambda it: it[:-1],
        "a digit more": lambda it: it.replace("life 1", "life 10"),
        "empty": lambda it: "",
    }.items():
        shutil.rmtree(place.folder(20))
        place.how(script(20, "first"))
        state = place.folder(20) / "state"
        state.write_text(damage(state.read_text()))
        ran = place.run(script(20, "first"), "cat")
        right = (
            "me 20 again" in ran.stdout
            and "state.damaged" in ran.stderr
            and (place.folder(20) / "state.damaged").exists()
            and life(20) > 1 << 31
        )
        cases.append(
            (
                f"a state that is {name}",
                right and place.how(script(20, "first")) == "again" and life(20) > (1 << 31) + 1,
                ran.stderr if not right else "",
            )
        )
    other = place.run(script(21, "first"), "echo", "started", folder=place.folder(20))
    cases.append(
        ("another node's folder", other.returncode == 2 and not other.stdout and "is of node 20" in other.stderr, "")
    )
    place.how(script(22, "first"))
    begun = time.monotonic()
    ran = place.run(script(22, "first").replace("params 34 40", "params 33 40"), "cat")
    right = (
        "me 22 again" in ran.stdout
        and "the parameters were 34 40" in ran.stderr
        and life(22) == 2
        and time.monotonic() - begun > 1
    )
    return [*cases, ("other parameters are silent for the longer time", right, "")]


def interrupted(place: Place) -> tuple[str, bool, str]:
    """Starts that are killed with all that they started, at moments of their way to the command."""
    begun, starts, wrong = 0, 60, []
    for number in range(100, 100 + starts):
        folder = place.folder(number)
        place.script.write_text(script(number, "first"))
        command = ["sh", "-c", f'echo begun >"{folder}/begun"; sleep 5']
        with subprocess.Popen(
            [RUN_NODE, str(folder), str(place.script), *command], stdout=subprocess.DEVNULL, start_new_session=True
        ) as it:
            time.sleep((number - 100) * 0.0015)
            os.killpg(it.pid, signal.SIGKILL)
        has_begun = (folder / "begun").exists()
        begun += has_begun
        how = place.how(script(number, "first"))
        if has_begun and how != "again" or how not in ("first", "again"):
            wrong.append(f"{number}: {how}")
    return "a start that is killed on its way", not wrong, f"{begun} of {starts} had begun; {wrong}"


def shared(place: Place) -> tuple[str, bool, str]:
    """A folder that the library's module and this script use in turn."""
    name = "a folder of both"
    if not (TOP / "lib" / "libdeltat.so.2").exists():
        return name, True, "not tried: there is no library"
    sys.path.insert(0, str(TOP / "bindings" / "python"))
    import deltat

    numbers = [int(it) for it in params(times=TIMES).split()[1:]]
    lives, hows = [], []
    for _ in range(2):
        with deltat.State(place.folder(30), 30, deltat.Params(*numbers)) as state:
            opened, now = state.opens_at(deltat.now()), deltat.now()
            lives.append(state.life)
            hows.append(state.start is deltat.Start.AGAIN)
            state.note_packet(now + 1000)
            second = place.run(script(30, "first"), "echo", "started")
        hows.append(place.how(script(30, "first")))
        # (what the node itself did isn't known, so the silence is the whole)
        right = second.returncode == 1 and f"process {os.getpid()}" in second.stderr and opened >= now - 5
        if not right:
            return name, False, f"{second.stderr} {opened} {now}"
    return name, lives == [1, 3] and hows == [False, "again", True, "again"], f"{lives} {hows}"


def refused(place: Place) -> list[tuple[str, bool, str]]:
    """What starts nothing."""
    good = script(1, "first")
    faulty = {
        "no line me": good.replace("me 1 first\n", ""),
        "two lines me": good.replace("me 1 first\n", "me 1 first\nme 1 first\n"),
        "another word": good.replace("me 1 first", "me 1 once"),
        "a number with a zero": good.replace("me 1 first", "me 01 first"),
        "a carriage return": good.replace("me 1 first", "me 1 first\r"),
        "nothing": "",
    }
    cases = []
    for name, text in faulty.items():
        ran = place.run(text, "echo", "started")
        cases.append(
            (f"a script with {name}", ran.returncode == 2 and not ran.stdout and "me N first" in ran.stderr, "")
        )
    for words in ([], ["one"], ["/nowhere", str(place.script)], [str(place.folder(1)), "/nowhere"]):
        ran = subprocess.run([RUN_NODE, *words], capture_output=True, text=True, check=False)
        cases.append((f"the words {words[:1]}", ran.returncode == 2 and ran.stderr.startswith("run-node: "), ""))
    for name in ("node-4.script", "lock", "state.new"):
        folder = place.states / f"blocked-{name}"
        (folder / name).mkdir(parents=True)
        ran = place.run(script(4, "first"), "echo", "started", folder=folder)
        cases.append(
            (
                f"a {name} that can't be written",
                ran.returncode == 1 and not ran.stdout and not (folder / "state").exists(),
                ran.stderr,
            )
        )
    for text in (
        good.replace(" 2147483648", ""),
        good + good.splitlines()[0] + "\n",
        good.replace("params 34", "params x"),
    ):
        ran = place.run(text, "echo", "started")
        cases.append(
            ("a script without parameters", ran.returncode == 2 and not ran.stdout and "params" in ran.stderr, "")
        )
    helps = subprocess.run([RUN_NODE, "--help"], capture_output=True, text=True, check=False)
    cases.append(("--help", helps.returncode == 0 and "FOLDER" in helps.stdout and "set -u" not in helps.stdout, ""))
    return cases


def unit() -> list[tuple[str, bool, str]]:
    """The unit, by systemd's own check where there is one, with programs that are there."""
    text = UNIT.read_text()
    cases = [
        (
            "the unit starts by run-node",
            "/usr/lib/deltat/run-node %S/deltat/%i" in text and "Restart=on-failure" in text,
            "",
        )
    ]
    line = re.findall(r"^ExecStart=/bin/sh -c '(.*)'$", text, re.MULTILINE)[0]
    with tempfile.TemporaryDirectory() as folder:
        for name in ("S/deltat/a", "L/deltat/a", "etc"):
            (Path(folder) / name).mkdir(parents=True)
        (Path(folder) / "etc/a.script").write_text(script(2, "first", ("at 0 send 2:1>99:1 be 00", "at 10 stop")))
        # as systemd spells it, with this copy's programs
        spelled = {"$$": "$", "%%": "%", "%S": f"{folder}/S", "%L": f"{folder}/L", "%i": "a"}
        line = re.sub(r"\$\$|%.", lambda it: spelled[it[0]], line.replace("/etc/deltat", f"{folder}/etc"))
        line = line.replace("/usr/lib/deltat/run-node", RUN_NODE).replace("/usr/bin/deltat", program())
        statuses = []
        for _ in range(2):
            statuses.append(
                subprocess.run(["sh", "-c", line], capture_output=True, text=True, check=False, timeout=30).returncode
            )
            time.sleep(1.1)
        logs = [it.read_text() for it in sorted((Path(folder) / "L/deltat/a").glob("*.log"))]
        right = (
            len(logs) == 2
            and "took 2:1>99:1" in logs[0]
            and "quiet" not in logs[0]
            and "refused 2:1>99:1 quiet" in logs[1]
        )
        cases.append(("its command starts twice, with a log each", right and statuses == [0, 0], f"{statuses}"))
    if not shutil.which("systemd-analyze"):
        return [*cases, ("the unit by systemd-analyze", True, "not tried: it isn't installed")]
    with tempfile.TemporaryDirectory() as folder:
        path = Path(folder) / UNIT.name.replace("@", "@a")
        path.write_text(text.replace("/usr/lib/deltat/run-node", RUN_NODE))
        ran = subprocess.run(
            ["systemd-analyze", "verify", "--man=no", str(path)], capture_output=True, text=True, check=False
        )
        said = [it for it in ran.stderr.splitlines() if UNIT.stem.rstrip("@") in it]
        return [*cases, ("the unit by systemd-analyze", not said, "; ".join(said))]


def main() -> int:
    if os.access("/nowhere", os.F_OK):
        print("this machine has a file /nowhere")
        return 1
    with tempfile.TemporaryDirectory() as folder:
        place = Place(folder)
        return tell(
            [
                *starts(place),
                killed(place),
                order(place),
                *kept(place),
                interrupted(place),
                shared(place),
                *refused(place),
                *unit(),
            ]
        )


if __name__ == "__main__":
    sys.exit(main())
