#!/usr/bin/env python3
"""tools/doctor.py and tools/params.py on scripts with one defect each, and on bad input.
`tests/doctor.py [PROGRAM]`. Ends with 1 where one isn't found as it should be, or where another is; where a
script is refused by the program and read by the tool, or the other way; or where a `params` line that is
told is refused."""
import subprocess
import sys
import tempfile
from pathlib import Path

from lib import HOST, TOP, own_port, program, tell

PARAMS = "params 1000 3000 200 500 800 100 4096 4096 512 2147483648"
ONE = [
    PARAMS,
    "me 1 first",
    "local 127.0.0.1:4001",
    "peer 1 127.0.0.1:4002 50 0",
    "route 2 1",
    "go",
    "at 0 send 1:1>2:2 be 00",
    "at 100 stop",
]
TWO = [PARAMS, "me 2 first", "local 127.0.0.1:4002", "peer 1 127.0.0.1:4001 50 0", "route 1 1", "go", "at 100 stop"]
# a relay in the middle: node 3 between the two, each link with a charge of 50
MIDDLE = [
    PARAMS,
    "me 3 first",
    "local 127.0.0.1:4003",
    "peer 1 127.0.0.1:4001 50 0",
    "peer 2 127.0.0.1:4002 50 0",
    "route 1 1",
    "route 2 2",
    "go",
    "at 100 stop",
]
FAR_ONE = [PARAMS, "me 1 first", "local 127.0.0.1:4001", "peer 1 127.0.0.1:4003 50 0", "route 2 1", "go", "at 100 stop"]
FAR_TWO = [PARAMS, "me 2 first", "local 127.0.0.1:4002", "peer 1 127.0.0.1:4003 50 0", "route 1 1", "go", "at 100 stop"]


def with_line(lines: list[str], place: int, text: str) -> list[str]:
    """The lines with another one at a place, counted from 1."""
    return [*lines[: place - 1], text, *lines[place:]]


def changed(number: int, value: int) -> str:
    """The parameters with another number at a place, counted from 1."""
    words = PARAMS.split(" ")
    words[number] = str(value)
    return " ".join(words)


# each defect: the scripts, the findings that aren't notes, and the status
DEFECTS: dict[str, tuple[list[list[str]], list[str], int]] = {
    "a good pair": ([ONE, TWO], [], 0),
    "a good relay": ([FAR_ONE, FAR_TWO, MIDDLE], [], 0),
    "any address of a machine": ([with_line(ONE, 3, "local 0.0.0.0:4001"), TWO], [], 0),
    "another mpl": (
        [ONE, with_line(TWO, 1, changed(1, 1100))],
        [
            "2:1: danger: mpl is 1100 here and 1000 at 1:1; give all nodes the same mpl, r and a, and restart each as"
            " `again`"
        ],
        1,
    ),
    "another r": (
        [ONE, with_line(TWO, 1, changed(2, 3100))],
        [
            "2:1: danger: r is 3100 here and 3000 at 1:1; give all nodes the same mpl, r and a, and restart each as"
            " `again`"
        ],
        1,
    ),
    "another a": (
        [ONE, with_line(TWO, 1, changed(3, 100))],
        [
            "2:1: danger: a is 100 here and 200 at 1:1; give all nodes the same mpl, r and a, and restart each as"
            " `again`"
        ],
        1,
    ),
    "a number twice": (
        [FAR_ONE, FAR_TWO, with_line(MIDDLE[:5] + MIDDLE[6:], 2, "me 1 first")],
        ["3:2: danger: node 1 is also at 1:2; give each node a number of its own"],
        1,
    ),
    "a peer that doesn't name this one": (
        [ONE, with_line(TWO, 4, "peer 1 127.0.0.1:4009 50 0")],
        [
            (
                "1:4: warning: 2 has no peer at 127.0.0.1:4001, so node 2 drops packets from here; give it a line `peer"
                " L 127.0.0.1:4001 CHARGE PACE`"
            ),
            "2:4: warning: no script has a node at 127.0.0.1:4009; give that node's script too, or correct the address",
        ],
        0,
    ),
    "no way back": (
        [ONE, TWO[:4] + TWO[5:]],
        [
            "1:5: warning: node 2 has no way back here: packets for node 1 arrive at node 2, which has no route there;"
            " give 2 a line `route 1 L`"
        ],
        0,
    ),
    "no way on": (
        [FAR_ONE, FAR_TWO, MIDDLE[:6] + MIDDLE[7:]],
        [
            "1:5: warning: packets for node 2 arrive at node 3, which has no route there; give 3 a line `route 2 L`",
            (
                "2:5: warning: node 1 has no way back here: packets for node 2 arrive at node 3, which has no route"
                " there; give 3 a line `route 2 L`"
            ),
        ],
        0,
    ),
    "a way round": (
        [FAR_ONE, FAR_TWO, with_line(MIDDLE, 7, "route 2 1")],
        [
            "1:5: warning: packets for node 2 loop through node 1; change the routes so that they end there",
            (
                "2:5: warning: node 1 has no way back here: packets for node 2 loop through node 1; change the routes"
                " so that they end there"
            ),
            "3:7: warning: packets for node 2 loop through node 3; change the routes so that they end there",
        ],
        0,
    ),
    "a life that is used up": (
        [FAR_ONE, with_line(FAR_TWO, 4, "peer 1 127.0.0.1:4003 948 0"), MIDDLE],
        [
            "1:5: warning: 2 links to node 2 charge 998 ms, the stations 2 or more, and mpl is 1000; give all nodes a"
            " greater mpl"
        ],
        0,
    ),
    "a life that isn't": ([FAR_ONE, with_line(FAR_TWO, 4, "peer 1 127.0.0.1:4003 947 0"), MIDDLE], [], 0),
    "a shelf that life doesn't pay for": (
        [ONE, with_line(TWO, 4, "peer 1 127.0.0.1:4001 498 0\nshelf 1")],
        [
            "1:5: warning: packets for node 2 have 501 ms of lifetime left for its shelf, and a lost one before them is"
            " resent after 500; give all nodes an mpl that is greater by two rto"
        ],
        0,
    ),
    "a shelf that it pays for": ([ONE, with_line(TWO, 4, "peer 1 127.0.0.1:4001 497 0\nshelf 1")], [], 0),
    "a small charge": (
        [with_line(ONE, 4, "peer 1 127.0.0.1:4002 44 0"), TWO],
        [
            "1:4: danger: link 1 charges 44 ms, and a packet may take 45: 20 ms in the sending machine, 20 in the"
            " socket, 3 of whole milliseconds, 2 of drift; set its charge to the link's longest delay and 45 ms"
        ],
        1,
    ),
    "a charge that will do": ([with_line(ONE, 4, "peer 1 127.0.0.1:4002 45 0"), TWO], [], 0),
    "a long segment": (
        [with_line(ONE, 1, changed(6, 1443)), TWO],
        [
            "1:1: warning: a segment of 1443 octets makes packets of 1501, and the MTU is 1500, so they are sent in"
            " fragments, which may be joined wrongly; set seg to at most 1442"
        ],
        0,
    ),
    "a wide window": (
        [with_line(ONE, 1, changed(9, 5000)), TWO],
        [
            "1:1: warning: window is 5000, and node 2 has room for 4096 octets (2:1); set window to at most the other's"
            " rcap"
        ],
        0,
    ),
    "an address twice": (
        [with_line(ONE, 4, "peer 1 127.0.0.1:4002 50 0\npeer 2 127.0.0.1:4002 60 0"), TWO],
        [
            "1:5: danger: link 2 has the address of link 1, so packets from there are charged 50 ms; give each link an"
            " address of its own"
        ],
        1,
    ),
    "a send without a route": (
        [with_line(ONE, 7, "at 0 send 1:1>7:2 be 00"), TWO],
        ["1:7: warning: there is no route to node 7; add a line `route 7 L`"],
        0,
    ),
    "a script alone": (
        [ONE],
        [
            "1:4: warning: no script has a node at 127.0.0.1:4002; give that node's script too, or correct the address",
            "1:5: warning: no script has node 2; give that node's script too, or correct the number",
        ],
        0,
    ),
    "one address for two nodes": (
        [FAR_ONE, with_line(FAR_TWO, 3, "local 127.0.0.1:4001"), with_line(MIDDLE, 5, "peer 2 127.0.0.1:4009 50 0")],
        [
            "2:3: warning: 127.0.0.1:4001 is also the address at 1:3; give each node an address of its own",
            "3:5: warning: no script has a node at 127.0.0.1:4009; give that node's script too, or correct the address",
        ],
        0,
    ),
}
# what a flow carries at most: what is asked for, and the note
CEILINGS = [
    (
        [],
        PARAMS,
        (
            "40.2 KB/s by its room each round trip, if a round trip is 102 ms; that is the longest; give --round-trip"
            " for a usual one"
        ),
    ),
    (["--round-trip", "10"], PARAMS, "410 KB/s by its room each round trip, if a round trip is 10 ms"),
    (["--round-trip", "10"], changed(6, 1), "6.4 KB/s by 64 segments each round trip, if a round trip is 10 ms"),
    (
        ["--round-trip", "0.01"],
        "params 1000 3000 200 500 800 1442 65536 65536 512 2147483648",
        "58.4 MB/s by 536870912 octets each spacing of 9200 ms, if a round trip is 0.01 ms",
    ),
]
# refused lines, and their faults; the program has the same ones
REFUSED = [
    (["params 1"], "1: error: count"),
    ([changed(1, 1), *ONE[1:]], "1: error: param mpl 1"),
    ([changed(5, 6200), *ONE[1:]], "1: error: param probe 6200"),
    ([ONE[1], *ONE], "1: error: order"),
    (with_line(ONE, 2, "me 1 second"), "2: error: word"),
    (with_line(ONE, 3, "local 127.0.0.256:4001"), "3: error: number"),
    (with_line(ONE, 3, "local localhost:4001"), "3: error: number"),
    (with_line(ONE, 4, "peer 1 127.0.0.1:4002 50"), "4: error: count"),
    (with_line(ONE, 4, "peer 1 127.0.0.1:4002 50 0\npeer 1 127.0.0.1:4003 50 0"), "5: error: twice 1"),
    (with_line(ONE, 5, "route 2 2"), "5: error: unknown 2"),
    (with_line(ONE, 5, "route 1 1"), "5: error: stray 1"),
    (with_line(ONE, 5, "shelf 65"), "5: error: number"),
    (with_line(ONE, 6, ""), "7: error: order"),
    (with_line(ONE, 7, "at 0 send 2:1>1:2 be 00"), "7: error: bad flow"),
    (with_line(ONE, 7, "at 0 send 1:1>2:2 be 0"), "7: error: hex"),
    (with_line(ONE, 7, "at 0 send 1:1>2:2 eb 00"), "7: error: word"),
    (with_line(ONE, 7, "at 0 send 1:1>2 be 00"), "7: error: flow"),
    (with_line(ONE, 7, "at 0 wait"), "7: error: word"),
    (with_line(ONE, 7, "at 0"), "7: error: count"),
    (with_line(ONE, 7, "at  0 stop"), "7: error: word"),
    (with_line(ONE, 7, "at 101 read 2:2>1:1 1"), "8: error: order"),
    (ONE[:7], "8: error: order"),
    ([*ONE, "at 200 stop"], "9: error: order"),
]


def doctor(scripts: list[list[str]], *options: str) -> tuple[int, list[str]]:
    """The status, and the lines, with the scripts named 1, 2 and so on."""
    with tempfile.TemporaryDirectory() as folder:
        names = [str(number) for number in range(1, len(scripts) + 1)]
        for name, lines in zip(names, scripts):
            (Path(folder) / name).write_text("\n".join(lines) + "\n")
        words = [sys.executable, str(TOP / "tools" / "doctor.py"), *names, *options]
        ran = subprocess.run(words, cwd=folder, capture_output=True, text=True, check=False)
    return ran.returncode, [*ran.stdout.splitlines(), *ran.stderr.splitlines()]


def refused(deltat: str, lines: list[str], fault: str) -> tuple[bool, str]:
    """Whether the tool refuses a script, and the program with the same fault."""
    status, said = doctor([lines])
    right = [f"1:{fault}; the program refuses this line; docs/formats.md explains the fault"]
    ran = subprocess.run([deltat, "node"], input="\n".join(lines) + "\n", capture_output=True, text=True, check=False)
    program_says = f"line {fault.replace(': error', '')}"
    return (status, said, ran.returncode, ran.stdout.strip()) == (2, right, 3, program_says), (
        "" if said == right else f"{said} {ran.stdout}"
    )


def served(deltat: str) -> tuple[bool, str]:
    """The scripts of the examples, at free ports, are read by both."""
    ports = {"4001": str(own_port()), "4002": str(own_port())}
    scripts = [(TOP / "examples" / f"node-{n}.script").read_text() for n in (1, 2)]
    status, said = doctor([it.splitlines() for it in scripts])
    text = scripts[0].replace("12000", "100").replace("13000", "200").replace("at 1000", "at 50")
    for old, new in ports.items():
        text = text.replace(f"{HOST}:{old}", f"{HOST}:{new}")
    ran = subprocess.run([deltat, "node"], input=text, capture_output=True, text=True, check=False)
    return status == 0 and ran.returncode == 0 and len(said) == 2, "; ".join(said) if status else ""


def params(deltat: str) -> list[tuple[str, bool, str]]:
    """What tools/params.py tells: lines that the program takes, what follows from one, and bad input."""
    tool = [sys.executable, str(TOP / "tools" / "params.py")]
    found = []
    for words in (
        ["2", "0.3"],
        ["250", "50"],
        ["1000", "600", "--drift", "20"],
        ["30000", "4000", "--hops", "3", "--mtu", "250"],
        ["0", "0", "--room", "1"],
    ):
        ran = subprocess.run([*tool, *words], capture_output=True, text=True, check=False)
        line = ran.stdout.split("\n")[0]
        taken = subprocess.run([deltat, "replay"], input=f"{line}\ngo\n", capture_output=True, text=True, check=False)
        found.append((f"params {' '.join(words)}", ran.returncode == 0 and taken.returncode == 0, line))
    ran = subprocess.run([*tool, "250", "50"], capture_output=True, text=True, check=False)
    right = [
        "params 302 450 5 90 180 1442 65536 65536 65536 2147483648",
        (
            "charge 294: 250 ms of the link, 20 ms in the sending machine, 20 in the socket, 3 of whole milliseconds, 1"
            " of drift"
        ),
        "uncertain 1059 ms after the first transmission, at the latest",
        "silent for 1361 ms after a restart",
        "a flow carries at most 1.31 MB/s by its room each round trip",
        "a flow carries at most 1.85 MB/s by 64 segments each round trip",
        "a flow carries at most 296 MB/s by 536870912 octets each spacing of 1811 ms",
        "a flow takes about 263680 octets of memory at its sender, 262144 at its receiver",
    ]
    found.append(("params follow", ran.stdout.splitlines() == right, ""))
    bad = [
        (["-1", "5"], "argument DELAY: it is -1; it must be from 0 to 86400000"),
        (["x", "5"], "argument DELAY: invalid number value: 'x'"),
        (["5"], "the following arguments are required: ROUND-TRIP"),
        (["5", "5", "--mtu", "58"], "params.py: the MTU is 58 octets; it must be more than 58, which headers take"),
        (
            ["86000000", "5", "--hops", "2"],
            "params.py: a packet would live for more than a day; delays must be shorter, or hops fewer",
        ),
    ]
    for words, why in bad:
        ran = subprocess.run([*tool, *words], capture_output=True, text=True, check=False)
        holds = ran.returncode == 2 and why in ran.stderr and not ran.stdout
        found.append((f"bad params {' '.join(words)}", holds, "" if holds else ran.stderr))
    return found


def main() -> int:
    deltat = program()
    cases = []
    for name, (scripts, right, status) in DEFECTS.items():
        found, said = doctor(scripts)
        said = [it for it in said if " note: " not in it]
        cases.append((name, (found, said) == (status, right), "" if said == right else "\n".join(said)))
    for options, line, right in CEILINGS:
        status, said = doctor([with_line(ONE, 1, line), with_line(TWO, 1, line)], *options)
        text = f"1:5: note: a flow to node 2 carries at most {right}"
        cases.append(
            (
                f"ceiling {right.split(',', maxsplit=1)[0]}",
                status == 0 and text in said,
                "" if text in said else "\n".join(said),
            )
        )
    status, said = doctor([ONE, TWO], "--delay", "6")
    more = "6 of the link; set its charge to the link's longest delay and 45 ms"
    cases.append(("a delay that is known", status == 1 and len([it for it in said if it.endswith(more)]) == 2, ""))
    cases += [(f"refused {fault}", *refused(deltat, lines, fault)) for lines, fault in REFUSED]
    status, said = doctor([ONE], "missing.script")
    cases.append(
        (
            "no file",
            (status, said) == (2, ["missing.script: error: No such file or directory; give the path of a script"]),
            "",
        )
    )
    cases.append(("examples", *served(deltat)))
    return tell([*cases, *params(deltat)])


if __name__ == "__main__":
    sys.exit(main())
