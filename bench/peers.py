#!/usr/bin/env python3
"""This project's nodes beside other transports, over a bad link (tests/wan.py), so it needs root.

`bench/peers.py [PROGRAM] [--peers NAME ..] [--networks DELAY/LOSS ..] [--part P]`. For each network, with so many
milliseconds each way and so many of a hundred packets lost each way, and for each peer:

- first: a new connection's first answer, from the first call of the connection: the median and the worst of 20;
- answers: requests of 100 octets a second, one after another on one connection;
- 64 KiB, 16 MiB: a message and its answer; of the first the median and the worst of 8;
- flows: 1,000 connections at once (of QUIC streams of one), each with one request, to the last answer.

Where a time is over, it says how many were answered till then. Then what the link's packets do that come once more,
1.2 seconds later, to a server that runs on and to one that was killed and started again in between: how often the
request is served. And a link of 20 ms each way that loses 15 of 100 packets, for 10 seconds, with a server that runs on
and with one that is killed each 2 seconds: how many requests of new connections were served, and how many of them
twice. `--only-served` measures these two alone.

Peers are PEERS below: plain UDP that asks again (what the link can do), TCP, ENet, CoAP, UDT, QUIC, two nodes, and two
nodes of the library over its driver (`make -C lib`), which sends 16 MiB as an object. The
programs beside this file are built with cc and c++ first. A peer that can't be built here, or a measure that it can't
do, is `-`. Each measure has its seconds, so all takes at most half an hour; `--part 0.2` gives each a fifth of them.
Ends with 1 where a peer that was named with --peers can't be built, and with 2 where there is no such link here."""
import argparse
import dataclasses
import os
import pathlib
import shlex
import statistics
import subprocess
import sys
import tempfile
import zlib
from collections import Counter
from collections.abc import Callable, Sequence

HERE = pathlib.Path(__file__).resolve().parent
TOP = HERE.parent
sys.path.insert(0, str(TOP / "tests"))

from lib import PROGRAM  # noqa: E402
from wan import ADDRESSES, Bound, Link, impaired_link  # noqa: E402

PORT = "4801"
NETWORKS = ["0/0", "0/5", "0/15", "20/0", "20/5", "20/15"]
# until a server is up
UP = 0.6
# when a copy comes once more, and when a server is killed, after the client's start
AGAIN_MS, KILLED_AFTER, LINGER = 1_200, 0.9, 2.5
# how long requests are asked over the lossy link, how many at most, and how long a server lives there
LOSSY, FIRSTS, LIVES = 10, 1_000, 2
# the delay that the nodes' parameters allow for: what the link has, and what this machine adds under load
ADDED_DELAY = 30


@dataclasses.dataclass(frozen=True)
class Measure:
    """What is asked: the words of a client, and its seconds."""

    name: str
    what: str
    count: int
    octets: int
    seconds: float


MEASURES = [
    Measure("first", "first", 20, 100, 6),
    Measure("answers", "answers", 1, 100, 3),
    Measure("64 KiB", "message", 8, 65_536, 6),
    Measure("16 MiB", "message", 1, 1 << 24, 12),
    Measure("flows", "flows", 1_000, 100, 8),
]


@dataclasses.dataclass(frozen=True)
class Peer:
    """A transport: how its program is made, and the words of both its ends."""

    name: str
    build: list[str]
    words: Callable[["Room", Link, list[str]], list[str]]
    # measures that it doesn't have
    lacks: tuple[str, ...] = ()
    # whether its server tells what it serves
    tells: bool = True
    environment: tuple[str, ...] = ()
    # what is set in a namespace before it runs
    before: str = ":"


@dataclasses.dataclass(frozen=True)
class Room:
    """Where programs are built and files lie, and the program that is measured."""

    folder: pathlib.Path
    program: str


def built(name: str) -> Callable[[Room, Link, list[str]], list[str]]:
    return lambda room, link, words: [str(room.folder / name), *words]


def node(room: Room, link: Link, words: list[str]) -> list[str]:
    delay = link.delay + ADDED_DELAY + link.again
    return [
        sys.executable,
        str(HERE / "peers" / "node.py"),
        room.program,
        str(delay),
        str(max(40, 2 * link.delay + 10)),
        *words,
    ]


def library(room: Room, link: Link, words: list[str]) -> list[str]:
    delay = link.delay + ADDED_DELAY + link.again
    return [
        "env",
        "SEGMENTS=1",
        f"DELAY_MS={delay:.0f}",
        f"RTO_MS={max(40, 2 * link.delay + 10):.0f}",
        str(room.folder / "library"),
        *words,
    ]


def quic(room: Room, link: Link, words: list[str]) -> list[str]:
    return [
        sys.executable,
        str(HERE / "peers" / "quic.py"),
        *(words[:3] if words[0] == "serve" else words),
        str(room.folder / "quic"),
    ]


C, CXX = ["cc", "-O2", "-Wall", "-Wextra", "-Werror"], ["c++", "-std=c++17", "-O2", "-Wall", "-Wextra", "-Werror"]
# the driver, and the library below it
ARCHIVES = [str(TOP / "lib" / f"lib{it}.a") for it in ("deltat-udp", "deltat")]
FAST = "echo 3 > /proc/sys/net/ipv4/tcp_fastopen"
PEERS = [
    Peer("UDP", [*C, "udp.c", "-o", "udp"], built("udp"), lacks=("64 KiB", "16 MiB", "flows")),
    Peer("TCP", [*C, "tcp.c", "-o", "tcp"], built("tcp")),
    Peer("TCP-FO", [*C, "tcp.c", "-o", "tcp-fast"], built("tcp-fast"), environment=("FAST_OPEN=1",), before=FAST),
    Peer("ENet", [*C, "enet.c", "-o", "enet", "-lenet"], built("enet")),
    Peer("CoAP", [*C, "coap.c", "-o", "coap", "-lcoap-3-notls"], built("coap")),
    Peer("UDT", [*CXX, "udt.cc", "-o", "udt", "-ludt", "-lpthread"], built("udt")),
    Peer(
        "QUIC",
        ["sh", "-c", "command -v gtlsclient && test -x /usr/sbin/gtlsserver && command -v openssl"],
        quic,
        lacks=("answers",),
        tells=False,
    ),
    Peer("deltat", [], node, lacks=("16 MiB",)),
    Peer("libdeltat", [*C, f"-I{TOP / 'include'}", "library.c", *ARCHIVES, "-o", "library"], library),
]


def is_built(peer: Peer, room: Room) -> bool:
    """Builds a peer's program."""
    words = [str(room.folder / it) if before == "-o" else str(HERE / "peers" / it) if it.endswith((".c", ".cc")) else it
             for before, it in zip(["", *peer.build], peer.build)]
    try:
        ran = subprocess.run(words or ["true"], capture_output=True, text=True, check=False)
    except FileNotFoundError as error:
        print(f"{peer.name}: {error}", file=sys.stderr)
        return False
    if ran.returncode:
        print(
            f"{peer.name} isn't there: {(ran.stderr.strip().splitlines() or ['a program of its is missing'])[0]}",
            file=sys.stderr,
        )
    return ran.returncode == 0


def run(peer: Peer, link: Link, serve: str, ask: str, measure: tuple[str, float]) -> None:
    """Runs the two ends over a link, by the shell. What a server complains about isn't shown: it is stopped in the
    midst of what it does. Losses are of their own for each measure, which has a name and seconds, and the same in each
    run."""
    name, seconds = measure
    settings = "".join(f"export {it}; " for it in [*peer.environment, f"AGAIN_MS={max(40, 4 * link.delay)}"])
    commands = [
        ["sh", "-c", f"{peer.before}; {settings}exec 2> /dev/null; {serve}"],
        ["sh", "-c", f"{peer.before}; {settings}sleep {UP}; {ask}"],
    ]
    impaired_link(
        commands, link, Bound(seconds + UP + 3), zlib.crc32(f"{peer.name} {link} {name}".encode()), serves=True
    )


def asked(peer: Peer, room: Room, link: Link, words: list[str], seconds: float) -> list[tuple[int, float]]:
    """What a client was told over the link: answers or octets, and the time for them."""
    told = room.folder / "told"
    told.write_text("")
    many = "export MANY_FLOWS=1; " if words[0] == "flows" else ""
    serve = shlex.join(peer.words(room, link, ["serve", ADDRESSES[0], PORT, "-"]))
    ask = shlex.join(peer.words(room, link, ["ask", ADDRESSES[0], PORT, *words]))
    run(peer, link, f"{many}exec {serve}", f"{many}exec {ask} > {told}", (" ".join(words), seconds))
    lines = [it.split() for it in told.read_text().splitlines() if it.startswith("done ")]
    return [(int(it[1]), float(it[2])) for it in lines]


def milliseconds(seconds: Sequence[float]) -> str:
    """A median and the worst."""
    return f"{statistics.median(seconds) * 1000:.1f} ({max(seconds) * 1000:.0f})"


def cell(measure: Measure, seconds: float, told: list[tuple[int, float]]) -> str:
    """What is written of a measure."""
    times = [it for _, it in told]
    if measure.what == "answers":
        return f"{told[0][0] / told[0][1]:.0f}" if told and told[0][0] else "none"
    if measure.what == "flows":
        count, took = told[0] if told else (0, seconds)
        return f"{took:.2f}" if count == measure.count else f"{count} in {seconds:.0f}"
    if measure.count == 1:
        return f"{times[0]:.2f}" if times else f"not in {seconds:.0f}"
    whole = "" if len(told) == measure.count else f", {len(told)} of {measure.count}"
    return f"{milliseconds(times)}{whole}" if times else f"none in {seconds:.0f}"


def row(peer: Peer, room: Room, link: Link, part: float) -> list[str]:
    """What a peer did over a link."""
    cells = [peer.name]
    for measure in MEASURES:
        if measure.name in peer.lacks:
            cells.append("-")
            continue
        seconds = max(1.0, measure.seconds * part)
        words = [measure.what, str(measure.count), str(measure.octets), str(seconds)]
        cells.append(cell(measure, seconds, asked(peer, room, link, words, seconds)))
    return cells


def served(peer: Peer, room: Room, is_killed: bool) -> str:
    """How often a request was served whose packets all came once more, later."""
    log, link = room.folder / "served", Link(1, again=AGAIN_MS)
    log.write_text("")
    serve = shlex.join(peer.words(room, link, ["serve", ADDRESSES[0], PORT, str(log)]))
    # a client that needs an answer before it can send with its opening packet asks twice
    ask = shlex.join(
        peer.words(room, link, ["ask", ADDRESSES[0], PORT, "first", "2" if peer.environment else "1", "100", "0.8"])
    )
    # the first server has a session of its own, so that all of it is killed
    killed = f"setsid {serve} & first=$!; sleep {UP + KILLED_AFTER}; kill -9 -$first; wait $first; export AGAIN=1; "
    run(
        peer,
        link,
        f"{killed if is_killed else ''}exec {serve}",
        f"{ask} > /dev/null; sleep {LINGER}",
        ("served", UP + LINGER + 5),
    )
    numbers = log.read_text().split()
    return str(max((numbers.count(it) for it in set(numbers)), default=0))


def served_twice(peer: Peer, room: Room, is_killed: bool) -> str:
    """How many requests were served over a lossy link, and how many of them more than once."""
    log, link = room.folder / "served", Link(20, 0.15)
    log.write_text("")
    serve = shlex.join(peer.words(room, link, ["serve", ADDRESSES[0], PORT, str(log)]))
    ask = shlex.join(peer.words(room, link, ["ask", ADDRESSES[0], PORT, "first", str(FIRSTS), "100", str(LOSSY)]))
    # (each has a session of its own, so that all of it is killed, and ends by itself after the last one)
    starts = (
        f"while true; do setsid timeout -s KILL {LOSSY + LINGER + 5} {serve} & it=$!; sleep {LIVES}; kill -9 -$it; wait"
        " $it; export AGAIN=1; done"
    )
    run(
        peer,
        link,
        starts if is_killed else f"exec {serve}",
        f"{ask} > /dev/null; sleep {LINGER}",
        ("lossy", LOSSY + LINGER + 2),
    )
    numbers = log.read_text().split()
    twice = sum(count > 1 for count in Counter(numbers).values())
    return f"{twice} of {len(set(numbers))}"


def table(head: list[str], rows: list[list[str]]) -> None:
    widths = [max(len(it[at]) for it in [head, *rows]) for at in range(len(head))]
    for cells in [head, *rows]:
        print("  ".join(f"{it:{width}}" for it, width in zip(cells, widths)).rstrip(), flush=True)


def measured(peers: list[Peer], networks: list[Link], room: Room, part: float) -> None:
    for link in networks:
        print(f"\n{link.delay:g} ms each way, {link.loss * 100:g} of 100 packets lost each way")
        table(
            ["peer", "first, ms", "answers/s", "64 KiB, ms", "16 MiB, s", "1,000 flows, s"],
            [row(it, room, link, part) for it in peers],
        )


def measured_repeats(peers: list[Peer], room: Room) -> None:
    print("\na request is served so often, where all packets of its exchange come once more 1.2 s later")
    rows = [[it.name, served(it, room, False), served(it, room, True)] for it in peers if it.tells]
    table(["peer", "the server runs on", "it was killed and started again"], rows)
    print(f"\nrequests that were served twice, of those that were served: 15 of 100 packets lost each way, {LOSSY} s")
    rows = [[it.name, served_twice(it, room, False), served_twice(it, room, True)] for it in peers if it.tells]
    table(["peer", "the server runs on", f"it is killed each {LIVES} s"], rows)


def network_of(word: str) -> Link:
    delay, _, loss = word.partition("/")
    try:
        link = Link(float(delay), float(loss) / 100)
    except ValueError:
        link = Link(-1)
    if link.delay < 0 or not 0 <= link.loss < 1:
        raise argparse.ArgumentTypeError(f"{word} isn't DELAY/LOSS, milliseconds and packets of a hundred")
    return link


def main() -> int:
    reads = argparse.ArgumentParser(description=__doc__, formatter_class=argparse.RawDescriptionHelpFormatter)
    reads.add_argument("program", nargs="?", default=str(PROGRAM))
    reads.add_argument(
        "--peers", nargs="+", choices=[it.name for it in PEERS], metavar="NAME", help=", ".join(it.name for it in PEERS)
    )
    reads.add_argument(
        "--networks", nargs="+", type=network_of, default=[network_of(it) for it in NETWORKS], metavar="DELAY/LOSS"
    )
    reads.add_argument("--only-served", action="store_true", help="only how often requests are served")
    reads.add_argument(
        "--part", type=float, default=1.0, metavar="P", help="the part of its seconds that each measure gets"
    )
    given = reads.parse_args()
    if not os.access(given.program, os.X_OK):
        reads.error(f"there is no program {given.program}: ./build makes it")
    with tempfile.TemporaryDirectory(prefix="deltat-peers-") as folder:
        room = Room(pathlib.Path(folder), os.path.abspath(given.program))
        wanted = [it for it in PEERS if it.name in (given.peers or [it.name])]
        peers = [it for it in wanted if is_built(it, room)]
        try:
            measured(peers, [] if given.only_served else given.networks, room, given.part)
            measured_repeats(peers, room)
        except (OSError, subprocess.CalledProcessError) as error:
            print(f"peers: there is no such link here, which needs root, ip and /dev/net/tun: {error}", file=sys.stderr)
            return 2
    return 1 if given.peers and len(peers) < len(wanted) else 0


if __name__ == "__main__":
    sys.exit(main())
