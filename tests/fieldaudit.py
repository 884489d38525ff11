#!/usr/bin/env python3
"""tools/fieldaudit.py on logs of worlds and of real nodes. `tests/fieldaudit.py [PROGRAM] [--worlds N]`.
Ends with 1 where one of these fails:

- rows, make, worlds: logs of `replay` (the worked rows, a long one of `make`, and random worlds with
  losses, repeats, a relay and restarts), cut into the logs of their nodes, each with a clock of its own:
  the merged log has no flaw.
- doubled, left out, swapped: one line of the log of a node is changed so, and it is found.
- pair: two real nodes behind a process that drops and repeats datagrams; no flaw.
- again: the receiver is killed while its sender repeats, and started `again`; no flaw.
- first: the same, but started as `first`, which it may not be: the octets that were delivered twice are found.
- sender: the sender is killed and started as `first`: the octets that were acknowledged and never delivered
  are found.
- twins: two nodes of one number send at once; what is acknowledged and was never delivered is found.
- stood, forged, missing: the clock of a node stands for a while; octets were accepted that nobody sent, and an
  acknowledgement was used that nobody sent; a log is missing. Each is told.
- bad input: what is told of files that aren't logs of nodes."""
import random
import re
import subprocess
import sys
import tempfile
from concurrent.futures import ThreadPoolExecutor
from pathlib import Path

from lib import HOST, TOP, Between, node_script, own_port, params, program, start, tell, wait_for

TOOL = TOP / "tools" / "fieldaudit.py"
ROWS = TOP / "crates" / "deltat_tests"
HELLO = "68656c6c6f"
# a receive record lives 1,850 ms, and a node that starts again is silent for 2,450
QUICK = params(times="300 1500 50 100 400")


def script(me: int, life: str, local: int, peer: int, commands: list[str], line: str = QUICK) -> str:
    """The script of node 1 or 2, whose peer is the other one."""
    return node_script([line], (me, 3 - me), (local, peer), commands).replace(f"me {me} first", f"me {me} {life}")


def audited(deltat: str, paths: list[Path]) -> tuple[int, str]:
    """The status of the tool, and what it says."""
    ran = subprocess.run(
        [sys.executable, str(TOOL), *map(str, paths), "--deltat", deltat], capture_output=True, text=True, check=False
    )
    return ran.returncode, ran.stdout.strip() + ("" if ran.returncode < 2 else ran.stderr.strip())


def cut(log: str, chance: random.Random, folder: Path) -> list[Path]:
    """The logs that the nodes of a world would have written, one for each life of a node: with a clock of
    its own, without the numbers of copies, and without the world's own lines."""
    parts: dict[tuple[int, int], list[str]] = {}
    lives: dict[int, int] = {}
    zero: dict[tuple[int, int], int] = {}
    for line in log.splitlines():
        words = line.split(" ")
        if len(words) < 3 or not words[0].isdigit() or not words[1].isdigit():
            continue
        node = int(words[1])
        if words[2] == "restarted":
            lives[node] = lives.get(node, 0) + 1
            continue
        life = (node, lives.get(node, 0))
        words[0] = str(int(words[0]) + zero.setdefault(life, chance.randrange(100_000)))
        parts.setdefault(life, []).append(" ".join(words[:5] if words[2] == "put" else words))
    paths = []
    for (node, life), lines in sorted(parts.items()):
        paths.append(folder / f"{node}-{life}.log")
        paths[-1].write_text("\n".join(lines) + "\n")
    return paths


def passes(deltat: str, log: str, seed: int) -> tuple[bool, str]:
    """Whether the log of a world, cut into those of its nodes, has no flaw."""
    with tempfile.TemporaryDirectory() as folder:
        paths = cut(log, random.Random(seed), Path(folder))
        if not paths:
            return True, ""
        status, said = audited(deltat, paths)
        return (status, said) == (0, "audit yes"), said


def replayed(deltat: str, schedule: str) -> str:
    return subprocess.run([deltat, "replay"], input=schedule, capture_output=True, text=True, check=False).stdout


class World:
    """A random world of a line of three stations: its schedule so far, and the copies that may arrive."""

    def __init__(self, deltat: str, seed: int):
        self.chance = random.Random(seed)
        self.deltat = deltat
        start = self.chance.choice([0, 0, 4_294_967_000])
        window = self.chance.choice([64, 512, 4096])
        links = ["link 1 1 2 50 0", "link 2 2 1 50 0", "link 3 2 3 40 0", "link 4 3 2 40 0"]
        routes = ["route 1 2 1", "route 1 3 1", "route 2 1 2", "route 2 3 3", "route 3 2 4", "route 3 1 4"]
        stations = [f"station {n} {self.chance.randrange(1000)}" for n in (1, 2, 3)]
        self.lines = [
            f"params 1000 3000 200 500 800 40 4096 4096 {window} 2147483648 {start}",
            *stations,
            *links,
            *routes,
            "go",
        ]
        self.now = 0

    def events(self, copies: dict[int, tuple[int, int]]) -> list[str]:
        """What happens next: the copies have their moments and the charges of their links."""
        chance, out = self.chance, []
        for _ in range(chance.randrange(1, 4)):
            flow = chance.choice(["1:10>2:20", "1:10>3:20", "3:20>1:10", "2:5>1:6"])
            out.append(
                "send"
                f" {flow} {chance.choice(['be', 'b', '-', 'e'])} {chance.randbytes(chance.choice([1, 5, 5, 90])).hex()}"
            )
        moment = self.now
        for copy, (since, charge) in copies.items():
            if since + charge >= moment and chance.random() < 0.75:
                out += [f"arrive {copy}"] * chance.choice([1, 1, 1, 2])
        chance.shuffle(out)
        wait = chance.choice([0, 5, 20, 45, 45, 200, 500, 900, 6300])
        self.now += wait
        out += [f"pass {wait}", *(f"tick {n}" for n in (1, 2, 3))]
        if chance.random() < 0.06:
            out.append(f"restart {chance.choice([1, 2, 3])}")
        for flow in ("1:10>2:20", "1:10>3:20", "3:20>1:10", "2:5>1:6"):
            if chance.random() < 0.5:
                out.append(f"read {flow} 4096")
        return out

    def log(self, rounds: int) -> str:
        """The log of so many rounds."""
        log = ""
        for _ in range(rounds):
            copies = {}
            for line in log.splitlines():
                words = line.split(" ")
                if len(words) == 7 and words[2] == "put":
                    copies[int(words[6])] = (int(words[0]), 50 if words[3] in "12" else 40)
            self.lines += self.events(copies)
            log = replayed(self.deltat, "\n".join(self.lines) + "\n")
            if log.splitlines()[-1].startswith("line "):
                raise ValueError(f"the schedule is refused: {log.splitlines()[-1]}")
        return log


def rows(deltat: str) -> tuple[bool, str]:
    tried, wrong = 0, []
    for line in (ROWS / "stdin").read_text().splitlines():
        name, word, status = line.split()
        if (word, status) == ("replay", "0"):
            tried += 1
            holds, said = passes(deltat, (ROWS / "data" / f"{name}.out").read_text(), tried)
            wrong += [] if holds else [f"{name}: {said}"]
    return tried > 5 and not wrong, "; ".join([f"{tried} logs", *wrong])


def made(deltat: str) -> tuple[bool, str]:
    schedule = subprocess.run([deltat, "make", "800"], capture_output=True, text=True, check=False).stdout
    return passes(deltat, replayed(deltat, schedule), 3)


def worlds(deltat: str, count: int) -> tuple[bool, str]:
    with ThreadPoolExecutor(4) as pool:
        logs = list(pool.map(lambda seed: World(deltat, seed).log(25), range(1, count + 1)))
        found = list(pool.map(lambda it: passes(deltat, it[1], it[0]), enumerate(logs)))
    accepted = sum(log.count(" accepted ") for log in logs)
    restarts = sum(log.count(" restarted ") for log in logs)
    wrong = [f"world {seed}: {said}" for seed, (holds, said) in enumerate(found, 1) if not holds]
    return accepted > 5 * count and not wrong, "; ".join(
        [f"{count} worlds, {accepted} lines accepted, {restarts} restarts", *wrong]
    )


def changed(deltat: str) -> list[tuple[str, bool, str]]:
    """One line of a node's log is doubled, left out, or swapped with the next of its kind."""
    schedule = subprocess.run([deltat, "make", "8"], capture_output=True, text=True, check=False).stdout
    told: dict[str, list[str]] = {"doubled": [], "left out": [], "swapped": []}
    with tempfile.TemporaryDirectory() as folder:
        paths = cut(replayed(deltat, schedule), random.Random(1), Path(folder))
        lines = paths[1].read_text().splitlines()
        places = [i for i, line in enumerate(lines) if " accepted " in line]
        tries = []
        for here, after in zip(places, [*places[1:], None]):
            tries.append(("doubled", lines[: here + 1] + lines[here:]))
            tries.append(("left out", lines[:here] + lines[here + 1 :]))
            if after is not None:
                other = list(lines)
                other[here], other[after] = lines[after], lines[here]
                tries.append(("swapped", other))
        for name, text in tries:
            paths[1].write_text("\n".join(text) + "\n")
            status, said = audited(deltat, paths)
            told[name].append("" if status == 1 and ("breaks" in said or "stray" in said) else said)
    return [
        (name, bool(found) and not any(found), f"{len(found)} logs{''.join(found)}") for name, found in told.items()
    ]


def pair(deltat: str) -> tuple[bool, str]:
    """Two nodes send each other many messages; a tenth of the datagrams is dropped, a sixth repeated."""
    chance = random.Random(7)
    copies = lambda node, octets: chance.choices([0, 1, 2], [10, 74, 16])[0]
    with tempfile.TemporaryDirectory() as folder, Between(copies) as between:
        paths, nodes = [Path(folder) / "1.log", Path(folder) / "2.log"], []
        for me, path in ((2, paths[1]), (1, paths[0])):
            out, back = ("1:10>2:20", "2:20>1:10") if me == 1 else ("2:20>1:10", "1:10>2:20")
            commands = [(300 + 20 * i, f"send {out} be {chance.randbytes(30).hex()}") for i in range(60)]
            commands += [(at, f"read {back} 4096") for at in range(400, 4200, 100)]
            lines = [f"at {at} {text}" for at, text in sorted(commands)]
            text = script(me, "first", between.nodes[me - 1], between.port(me), [*lines, "at 4500 stop"])
            nodes.append(start(deltat, text.replace("go\n", "shelf 64\ngo\n", 1), out=path.open("wb")))
        for node in nodes:
            node.wait(20)
        status, said = audited(deltat, paths)
        accepted = sum(path.read_text().count(" accepted ") for path in paths)
    return status == 0 and said == "audit yes" and accepted > 60, f"{accepted} lines accepted, {said}"


def restarted(deltat: str, life: str) -> tuple[int, str, int]:
    """The receiver is killed right after it accepted, with its acknowledgements lost, and starts once more:
    what the audit says, and how often the octets were read."""
    with tempfile.TemporaryDirectory() as folder, Between(lambda node, octets: 2 if node == 1 else 0) as between:
        sender, first, second = (Path(folder) / name for name in ("1.log", "2.log", "2-second.log"))
        reads = [f"at {at} read 1:10>2:20 100" for at in range(20, 3500, 20)]
        text = script(2, "first", between.nodes[1], between.port(2), [*reads, "at 4000 stop"])
        receiver = start(deltat, text, out=first.open("wb"))
        sends = [f"at 300 send 1:10>2:20 be {HELLO}", "at 4500 stop"]
        sending = start(deltat, script(1, "first", between.nodes[0], between.port(1), sends), out=sender.open("wb"))
        wait_for(first, " read ", 5)
        receiver.kill()
        receiver.wait()
        start(deltat, text.replace("me 2 first", f"me 2 {life}"), out=second.open("wb")).wait(20)
        sending.wait(20)
        status, said = audited(deltat, [sender, first, second])
        return status, said, (first.read_text() + second.read_text()).count(HELLO)


def again(deltat: str) -> tuple[bool, str]:
    status, said, count = restarted(deltat, "again")
    return (status, said, count) == (0, "audit yes", 1), f"read {count} times, {said}"


def first(deltat: str) -> tuple[bool, str]:
    status, said, count = restarted(deltat, "first")
    found = re.search(
        r"^no order: \S*2-second.log:\d+: accepted 1:10>2:20 0 5 run: all that was sent with this number", said
    )
    flaw = re.search(r"2-second.log:\d+: breaks S1: ", said)
    return (
        status == 1 and count == 2 and bool(found and flaw),
        f"read {count} times; {said.splitlines()[-1].rpartition('/')[2]}",
    )


def sender(deltat: str) -> tuple[bool, str]:
    with tempfile.TemporaryDirectory() as folder, Between(lambda node, octets: 1) as between:
        first_log, second_log, receiver_log = (Path(folder) / name for name in ("1.log", "1-second.log", "2.log"))
        reads = [f"at {at} read 1:10>2:20 100" for at in range(20, 3500, 20)]
        receiver = start(
            deltat,
            script(2, "first", between.nodes[1], between.port(2), [*reads, "at 3600 stop"]),
            out=receiver_log.open("wb"),
        )
        text = script(
            1, "first", between.nodes[0], between.port(1), [f"at 300 send 1:10>2:20 be {HELLO}", "at 1500 stop"]
        )
        sending = start(deltat, text, out=first_log.open("wb"))
        wait_for(first_log, " settled ", 5)
        sending.kill()
        sending.wait()
        start(deltat, text.replace(HELLO, "776f726c64"), out=second_log.open("wb")).wait(20)
        receiver.wait(20)
        status, said = audited(deltat, [first_log, second_log, receiver_log])
        flaw = re.search(r"1-second.log:\d+: breaks S4: ", said)
        gone = "776f726c64" not in receiver_log.read_text() and " settled " in second_log.read_text()
    return status == 1 and bool(flaw) and gone, said.splitlines()[-1].rpartition("/")[2]


def twins(deltat: str) -> tuple[bool, str]:
    """Two nodes of number 1, each with a link of its own to node 2, which answers on the first."""
    with tempfile.TemporaryDirectory() as folder:
        paths = [Path(folder) / name for name in ("1.log", "1-twin.log", "2.log")]
        ports = [own_port(), own_port(), own_port()]
        lines = [
            QUICK,
            "me 2 first",
            f"local {HOST}:{ports[2]}",
            f"peer 1 {HOST}:{ports[0]} 50 0",
            f"peer 2 {HOST}:{ports[1]} 50 0",
            "route 1 2",
            "go",
        ]
        receiver = start(
            deltat, "\n".join([*lines, "at 1900 read 1:10>2:20 100", "at 2000 stop"]) + "\n", out=paths[2].open("wb")
        )
        nodes = []
        sends = [f"at 300 send 1:10>2:20 be {HELLO}", "at 400 send 1:10>2:20 be 20796f75"], [
            "at 900 send 1:10>2:20 be 776f726c6477696465"
        ]
        for i in (0, 1):
            text = script(1, "first", ports[i], ports[2], [*sends[i], "at 1500 stop"])
            nodes.append(start(deltat, text, out=paths[i].open("wb")))
        for node in [receiver, *nodes]:
            node.wait(20)
        status, said = audited(deltat, paths)
        settled = " settled " in paths[1].read_text() and "776f726c64" not in paths[2].read_text()
    return (
        status == 1 and settled and "1-twin.log:" in said and "breaks S4" in said,
        said.splitlines()[-1].rpartition("/")[2],
    )


def told_of(paths: list[Path]) -> tuple[int, str]:
    """The status of the tool without the program, and its notes."""
    ran = subprocess.run([sys.executable, str(TOOL), *map(str, paths)], capture_output=True, text=True, check=False)
    return ran.returncode, ran.stderr


def notes(deltat: str) -> list[tuple[str, bool, str]]:
    """What is told of logs of a world in which something is wrong that an audit doesn't see."""
    schedule = subprocess.run([deltat, "make", "800"], capture_output=True, text=True, check=False).stdout
    with tempfile.TemporaryDirectory() as folder:
        paths = cut(replayed(deltat, schedule), random.Random(1), Path(folder))
        lines = [line.split(" ", 1) for line in paths[1].read_text().splitlines()]
        middle = int(lines[len(lines) // 2][0])
        status, said = told_of(paths)
        found = [("quiet", (status, said) == (0, ""), said)]
        stands = [(int(at) if int(at) < middle else max(middle, int(at) - 5000), text) for at, text in lines]
        paths[1].write_text("".join(f"{at} {text}\n" for at, text in stands))
        status, said = told_of(paths)
        right = re.search(
            (
                r"^note: the clocks of node 1 and node 2 don't fit by 49[0-9]{2} ms: .*; one stood still, or goes at"
                r" another rate$"
            ),
            said,
            re.MULTILINE,
        )
        found.append(("stood", status == 0 and bool(right), "" if right else said))
        number = next(text.split(" ")[3] for _, text in lines if " acked " in text)
        kept = [it for it in lines if not re.match(f"2 (acked|replied) 1:10>2:20 {number} ", it[1])]
        forged = [*kept[:-1], [kept[-2][0], "2 accepted 1:10>2:20 77777777 5 on"], kept[-1]]
        paths[1].write_text("".join(f"{at} {text}\n" for at, text in forged))
        status, said = told_of(paths)
        right = (
            "accepted 1:10>2:20 77777777 5 on: nothing with this number and length was sent" in said
            and "no log has that acknowledgement" in said
        )
        found.append(("forged", status == 1 and right, "" if right else said[:300]))
        status, said = told_of(paths[:1])
        found.append(
            (
                "missing",
                (status, said) == (0, "note: no log of node 2 is given, so the flow 1:10>2:20 isn't judged\n"),
                said.strip(),
            )
        )
    return found


BAD = {
    "a trace": ("@ 0\n< -\n", "x.log:1: this is a line of a trace; run the trace with `retrace`, and give its log"),
    "a replay": (
        "0 1 took 1:1>2:2 5\n0 lost 0\n",
        "x.log:2: this is a line of a log of `replay`; give that log to `deltat audit` itself",
    ),
    "two nodes": (
        "0 1 took 1:1>2:2 5\n0 2 nothing 1:1>2:2\n",
        "x.log:2: this is a line of node 2, and the earlier lines are of node 1; give a log for each node",
    ),
    "a refused script": ("line 3: word\n", "x.log:1: the node's script was refused: line 3: word; leave this log out"),
    "other text": ("hello\n", "x.log:1: this isn't a line of a log: hello; give the log of a node"),
    "a short line": (
        "0 1 sent 1:1>2:2 0\n",
        "x.log:1: this isn't a line of a log: 0 1 sent 1:1>2:2 0; give the log of a node",
    ),
}


def bad(deltat: str) -> list[tuple[str, bool, str]]:
    found = []
    with tempfile.TemporaryDirectory() as folder:
        path = Path(folder) / "x.log"
        for name, (text, right) in BAD.items():
            path.write_text(text)
            status, said = audited(deltat, [path])
            found.append(
                (name, (status, said) == (2, f"fieldaudit.py: {folder}/{right}"), "" if said.endswith(right) else said)
            )
        status, said = audited(deltat, [Path(folder) / "y.log"])
        found.append(
            ("no file", (status, said) == (2, f"fieldaudit.py: {folder}/y.log: No such file or directory"), "")
        )
    return found


def main() -> int:
    deltat = program()
    count = int(sys.argv[sys.argv.index("--worlds") + 1]) if "--worlds" in sys.argv else 12
    live = {"pair": pair, "again": again, "first": first, "sender": sender, "twins": twins}
    with ThreadPoolExecutor(len(live)) as pool:
        running = {name: pool.submit(it, deltat) for name, it in live.items()}
        found = [(name, *it.result()) for name, it in running.items()]
    found += [
        ("rows", *rows(deltat)),
        ("make", *made(deltat)),
        ("worlds", *worlds(deltat, count)),
        *changed(deltat),
        *notes(deltat),
        *bad(deltat),
    ]
    return tell(found)


if __name__ == "__main__":
    sys.exit(main())
