#!/usr/bin/env python3
"""tools/fleet.py: what it makes, and what it says of bad descriptions. `tests/fleet.py [PROGRAM]`. Ends with
1 where one of these fails:

- example, random: of the example and of random networks tools/doctor.py says nothing bad, and `replay`
  accepts the schedule.
- same world: the scripts and the schedule have the same parameters, and on each way charges are the same.
- files: the files of a network of two nodes, line by line.
- live: the three nodes of the example talk by the one in the middle, on this machine.
- bad input: each with its text."""
import random
import subprocess
import sys
import tempfile
from pathlib import Path

from lib import HOST, TOP, own_port, program, tell

TOOL, DOCTOR = (str(TOP / "tools" / name) for name in ("fleet.py", "doctor.py"))
TWO = """[network]
round_trip = 50
shelf = 0
stop = 100

[[node]]
name = "a"
number = 1
address = "127.0.0.1:4001"
start = "first"
commands = ["at 10 send 1:10>2:20 be 68"]

[[node]]
name = "b"
number = 2
address = "localhost:4002"
commands = ["# what came", "at 5 read 1:10>2:20 9"]

[[link]]
ends = ["b", "a"]
delay = 250
pace = 3
queue = 4
"""
# a packet may wait 2 + 3 * 4 ms, and one more: mpl is 294 + 15 + 5
NUMBERS = "params 314 450 5 90 180 1442 65536 65536 65536 2147483648"
FILES = {
    "a.script": f"""# Node 1, a: made by tools/fleet.py
{NUMBERS}
me 1 first
local 127.0.0.1:4001
# b
peer 0 127.0.0.1:4002 294 3
route 2 0
go
at 10 send 1:10>2:20 be 68
at 100 stop
""",
    "b.script": f"""# Node 2, b: made by tools/fleet.py
{NUMBERS}
me 2 again
local 127.0.0.1:4002
# a
peer 0 127.0.0.1:4001 294 3
route 1 0
go
# what came
at 5 read 1:10>2:20 9
at 100 stop
""",
    "network.schedule": f"""# The world of a network: made by tools/fleet.py
{NUMBERS}
station 1 0
station 2 0
link 0 2 1 294 3
link 1 1 2 294 3
route 1 2 1
route 2 1 0
go
restart 2
pass 5
read 1:10>2:20 9
pass 5
send 1:10>2:20 be 68
""",
}
BAD = [
    ("x", "it isn't valid TOML: Expected '=' after a key in a key/value pair (at end of document)"),
    ("", "there is no node or no link; a network needs both"),
    ("[net]\n", "unknown table: net; the tables are [network], [[node]] and [[link]]"),
    (
        TWO.replace("round_trip", "roundtrip"),
        "network: unknown key: roundtrip; the keys are round_trip, drift, tries, room, shelf, stop",
    ),
    (TWO.replace("shelf = 0", "shelf = 65"), "network: shelf is 65; it must be a whole number from 0 to 64"),
    (TWO.replace("shelf = 0", "shelf = 0.5"), "network: shelf is 0.5; it must be a whole number from 0 to 64"),
    (TWO.replace("delay = 250", "delay = -1"), "link 1: delay is -1; it must be a number from 0 to 86400000"),
    (TWO.replace("delay = 250\n", ""), "link 1: delay is missing"),
    (
        TWO.replace("number = 2", "number = 1"),
        "node 2: 'b', number 1, has the name or number of 'a', number 1; give it its own",
    ),
    (TWO.replace('name = "b"', 'name = "../b"'), "node 2: name is '../b'; it must be 1 to 64 letters, digits, - and _"),
    (TWO.replace('"first"', '"once"'), "node 1: start is 'once'; it must be \"first\" or \"again\""),
    (TWO.replace('["b", "a"]', '["b", "c"]'), "link 1: unknown node: 'c'; the nodes are a, b"),
    (
        TWO.replace('["b", "a"]', '["b", "b"]'),
        "link 1: ends is ['b', 'b']; it must be a list of the names of two nodes",
    ),
    (
        TWO.replace("localhost:4002", "127.0.0.1:4001"),
        "node 'b': 127.0.0.1:4001 is the address of node 'a' too; give each node its own",
    ),
    (TWO.replace("localhost:4002", "localhost"), "node 'b': address is 'localhost'; it must be HOST:PORT"),
    (
        TWO.replace("2:20 be 68", "2:20 be 6"),
        "node 'a': the line `at 10 send 1:10>2:20 be 6` is refused: hex; docs/formats.md explains the fault",
    ),
    (
        TWO.replace("1:10>2:20 be", "2:10>1:20 be"),
        "node 'a': the line `at 10 send 2:10>1:20 be 68` is refused: bad flow; docs/formats.md explains the fault",
    ),
    (
        TWO + '\n[[link]]\nends = ["a", "b"]\ndelay = 1\n',
        "node 'a' has two links to one node; packets would count as those of the first, so leave one out",
    ),
    (
        TWO + '\n[[node]]\nname = "c"\nnumber = 3\naddress = "127.0.0.1:4003"\n',
        "no links lead from node 'a' to node 'c'; add a link",
    ),
    (TWO + "mtu = 58\n", "the MTU is 58 octets; it must be more than 58, which headers take"),
    (
        TWO.replace("delay = 250", "delay = 86400000"),
        "a packet would live for more than a day; delays must be shorter, or hops fewer",
    ),
]


def fleet(text: str, folder: Path) -> tuple[int, str]:
    """The status of the tool on a description, and what it says."""
    (folder / "network.toml").write_text(text)
    words = [sys.executable, TOOL, "network.toml", "--out", "out"]
    ran = subprocess.run(words, cwd=folder, capture_output=True, text=True, check=False)
    return ran.returncode, ran.stdout + ran.stderr


def is_good(deltat: str, text: str) -> tuple[bool, str]:
    """Whether doctor says nothing bad of what a description gives, and replay takes its schedule."""
    with tempfile.TemporaryDirectory() as name:
        folder = Path(name)
        status, said = fleet(text, folder)
        if status:
            return False, said
        scripts = sorted(map(str, (folder / "out").glob("*.script")))
        options = said.splitlines()[-1].split(" ")[3:-1]
        found = subprocess.run(
            [sys.executable, DOCTOR, *scripts, *options], capture_output=True, text=True, check=False
        )
        bad = [it for it in found.stdout.splitlines() if ": note: " not in it]
        schedule = (folder / "out" / "network.schedule").read_text()
        ran = subprocess.run([deltat, "replay"], input=schedule, capture_output=True, text=True, check=False)
        same = {it.splitlines()[1] for it in [schedule, *(Path(script).read_text() for script in scripts)]}
        good = found.returncode == 0 and not bad and not found.stderr and ran.returncode == 0 and len(same) == 1
        return good, "" if good else "; ".join([*bad, found.stderr, ran.stdout[-80:], *same])


def drawn(chance: random.Random) -> str:
    """A random network: a tree of some nodes, and some links more."""
    count = chance.randrange(2, 9)
    parts = [
        f"[network]\ndrift = {chance.choice([0, 20, 100, 500])}\ntries = {chance.randrange(1, 9)}\nroom ="
        f" {chance.choice([512, 4096, 65536])}\n"
    ]
    pairs = {(chance.randrange(n), n) for n in range(1, count)} | {
        tuple(sorted(chance.sample(range(count), 2))) for _ in range(count // 2)
    }
    for n in range(count):
        parts.append(
            f'[[node]]\nname = "n{n}"\nnumber = {100 + n}\naddress = "127.0.0.1:{5000 + n}"\nstart ='
            f' "{chance.choice(["first", "again"])}"\n'
        )
    for one, other in sorted(pairs):
        parts.append(
            f'[[link]]\nends = ["n{one}", "n{other}"]\ndelay = {chance.choice([0, 0.3, 5, 40, 700])}\nmtu ='
            f' {chance.choice([250, 1280, 1500, 9000])}\npace = {chance.choice([0, 0, 5])}\n'
        )
    return "\n".join(parts)


def drawn_networks(deltat: str) -> tuple[bool, str]:
    found = [is_good(deltat, drawn(random.Random(seed))) for seed in range(12)]
    return all(it for it, _ in found), "; ".join([f"{len(found)} networks", *(text for _, text in found if text)])


def files() -> tuple[bool, str]:
    with tempfile.TemporaryDirectory() as name:
        folder = Path(name)
        status, said = fleet(TWO, folder)
        made = {it.name: it.read_text() for it in (folder / "out").iterdir()} if status == 0 else {}
    return (status, made) == (0, FILES), "" if made == FILES else said + "\n".join(made.values())


def live(deltat: str) -> tuple[bool, str]:
    """The nodes of the example, at ports that are free."""
    text = (TOP / "examples" / "network.toml").read_text()
    for port in ("4001", "4002", "4003"):
        text = text.replace(f"localhost:{port}", f"{HOST}:{own_port()}")
    for old, new in (
        ("stop = 20000", "stop = 4000"),
        ("at 10000", "at 1500"),
        ("at 15000", "at 3500"),
        ("at 1000 ", "at 800 "),
    ):
        text = text.replace(old, new)
    with tempfile.TemporaryDirectory() as name:
        status, said = fleet(text, Path(name))
        if status:
            return False, said
        nodes = []
        for script in ("mast", "pump", "depot"):
            with (Path(name) / "out" / f"{script}.script").open() as it:
                nodes.append(subprocess.Popen([deltat, "node"], stdin=it, stdout=subprocess.PIPE, text=True))
        logs = [it.communicate(timeout=30)[0] for it in nodes]
    heard = " read 1:10>3:20 rbe 68656c6c6f" in logs[1] and " read 3:20>1:10 rbe 776f726c64" in logs[2]
    settled = all(" settled " in logs[i] for i in (1, 2))
    return heard and settled and all(it.returncode == 0 for it in nodes), "hello, world" if heard else "\n".join(logs)


def bad() -> list[tuple[str, bool, str]]:
    found = []
    with tempfile.TemporaryDirectory() as name:
        for text, right in BAD:
            status, said = fleet(text, Path(name))
            holds = (status, said) == (2, f"network.toml: {right}\n") and not (Path(name) / "out").exists()
            found.append((f"bad: {right}", holds, "" if holds else said))
        words = [sys.executable, TOOL, "none.toml", "--out", "out"]
        ran = subprocess.run(words, cwd=name, capture_output=True, text=True, check=False)
        found.append(
            (
                "no file",
                (ran.returncode, ran.stderr)
                == (
                    2,
                    (
                        "fleet.py: none.toml: No such file or directory; give a description, and a folder that can be"
                        " written\n"
                    ),
                ),
                ran.stderr.strip(),
            )
        )
        status, said = fleet(TWO.replace("localhost:4002", "no.such.host.invalid:4002"), Path(name))
        found.append(
            (
                "a host that isn't found",
                status == 2 and said.startswith("network.toml: node 'b': host 'no.such.host.invalid' isn't found: "),
                said.strip(),
            )
        )
    return found


def main() -> int:
    deltat = program()
    example = (TOP / "examples" / "network.toml").read_text()
    cases = [
        ("example", *is_good(deltat, example)),
        ("files", *files()),
        ("random", *drawn_networks(deltat)),
        ("live", *live(deltat)),
        *bad(),
    ]
    return tell(cases)


if __name__ == "__main__":
    sys.exit(main())
