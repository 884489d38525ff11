#!/usr/bin/env python3
"""Two nodes of this project's program as a peer of bench/peers.py, as far as scripts can do it.

    bench/peers/node.py PROGRAM DELAY ROUND-TRIP serve ADDRESS PORT LOG
    bench/peers/node.py PROGRAM DELAY ROUND-TRIP ask ADDRESS PORT WHAT COUNT OCTETS SECONDS

DELAY and ROUND-TRIP are milliseconds, and the parameters those of tools/params.py with a shelf. Words and answers
are those of peer.h. A script knows its moments before it starts and hears nothing, so

- the answer of a request is its acknowledgement: all of its octets are in the other node's queue;
- `answers` is asked by this process over a socket of its own, one packet after another, each sent again after rto;
  the node answers;
- `message` has one flow for each message, begun at moments that are known before, and `flows` hands its messages in
  over 100 ms, which are counted;
- a message is at most 65,536 octets, what one send may have.

In the environment, AGAIN lets the server say `again`, and MANY_FLOWS gives each flow of either end a room of 4,096
octets."""
import argparse
import os
import pathlib
import socket
import struct
import subprocess
import sys
import time
from collections import defaultdict

TOP = pathlib.Path(__file__).resolve().parent.parent.parent
sys.path[:0] = [str(TOP / "tools")]
import wire  # noqa: E402
from deltat_tools.parameters import MOST_ROOM, Hop, Params, Wishes, link_charge, suited  # noqa: E402

CLIENT, SERVER = 1, 2
CLIENT_PORT = 4700
SERVICE = 20
# the server is silent for longer than any measure takes
LONGEST = 60_000
# a flow of 1,000 has one message, so it needs no more room
SMALL_ROOM = 4096
FIRST_MOMENT = 300
# what is handed in at one moment is one turn, and what leaves more than 20 ms after a turn began is `unsent`
SPREAD = 100
READ_EACH = 100


class Network:
    """What the two nodes have in common."""

    def __init__(self, delay: float, round_trip: float, room: int) -> None:
        hop = Hop(delay, 2, 100)
        self.params: Params = suited([[hop]], Wishes(round_trip, tries=20, room=room, shelved=3))
        self.charge = link_charge(hop, self.params)

    def script(self, me: int, local: str, other: tuple[int, str], commands: list[str]) -> str:
        """The script of one of them."""
        way = "again" if me == SERVER and "AGAIN" in os.environ else "first"
        head = [
            self.params.line(),
            f"me {me} {way}",
            f"local {local}",
            f"peer 1 {other[1]} {self.charge} 0",
            f"route {other[0]} 1",
            "shelf 64",
            "go",
        ]
        return "".join(f"{it}\n" for it in [*head, *commands])


def started(program: str, script: str) -> "subprocess.Popen[str]":
    node = subprocess.Popen([program, "node"], stdin=subprocess.PIPE, stdout=subprocess.PIPE, text=True)
    node.stdin.write(script)
    node.stdin.close()
    return node


def serve(network: Network, program: str, here: str, log: str) -> None:
    """Runs the server. Where a log is wanted it reads the first flow, and each message's first octets are a line."""
    reads = (
        [f"at {at} read {CLIENT}:1>{SERVER}:{SERVICE} 65536" for at in range(READ_EACH, 6_000, READ_EACH)]
        if log != "-"
        else []
    )
    node = started(
        program, network.script(SERVER, here, (CLIENT, f"10.9.0.2:{CLIENT_PORT}"), [*reads, f"at {LONGEST} stop"])
    )
    for line in node.stdout:
        words = line.split()
        if log != "-" and words[2:3] == ["read"] and "b" in words[4]:
            with open(log, "a", encoding="ascii") as out:
                out.write(f"{words[5][:16]}\n")


def sends(what: str, count: int, octets: int, seconds: float) -> list[str]:
    """The commands of a client."""
    gap = SPREAD / count if what == "flows" else (seconds * 1000 - FIRST_MOMENT) * 0.9 / count
    bodies = [(os.urandom(8) + bytes(octets))[:octets].hex() for _ in range(count)]
    return [
        f"at {FIRST_MOMENT + int(at * gap)} send {CLIENT}:{at + 1}>{SERVER}:{SERVICE} be {it}"
        for at, it in enumerate(bodies)
    ]


def watched(
    node: "subprocess.Popen[str]", octets: int, count: int, until: float
) -> tuple[dict[str, float], dict[str, float]]:
    """When each flow's message was taken and when all of it was acknowledged, by the lines of the log as they come."""
    took: dict[str, float] = {}
    whole: dict[str, float] = {}
    settled: dict[str, int] = defaultdict(int)
    for line in node.stdout:
        at, words = time.monotonic(), line.split()
        if words[2:3] == ["took"]:
            took[words[3]] = at
        if words[2:3] == ["settled"]:
            settled[words[3]] += int(words[4])
            if settled[words[3]] == octets:
                whole[words[3]] = at
        if len(whole) == count or at > until:
            break
    return took, whole


def ask(network: Network, program: str, there: str, wanted: argparse.Namespace) -> None:
    """Runs the client, and tells what its log tells."""
    end = f"at {int(wanted.seconds * 1000)} stop"
    commands = [*sends(wanted.what, wanted.count, wanted.octets, wanted.seconds), end]
    until = time.monotonic() + wanted.seconds
    node = started(program, network.script(CLIENT, f"10.9.0.2:{CLIENT_PORT}", (SERVER, there), commands))
    took, whole = watched(node, wanted.octets, wanted.count, until)
    over = time.monotonic()
    node.kill()
    node.wait()
    if wanted.what == "flows":
        begun = min(took.values(), default=over)
        print(f"done {len(whole)} {(max(whole.values()) if len(whole) == wanted.count else over) - begun:.6f}")
        return
    for flow, at in whole.items():
        print(f"done {1 if wanted.what == 'first' else wanted.octets} {at - took[flow]:.6f}")


def is_answered(client: socket.socket, flow: wire.Flow, number: int) -> bool:
    """Whether an acknowledgement of all before that number comes, before the socket's time is over."""
    # kind, flags and both ports, and then the number, as a packet has them behind the Deltagram's header
    wanted = struct.pack(">BBHHI", wire.ACK, 0, flow.to_port, flow.from_port, number)
    try:
        while client.recv(65_536)[16:26] != wanted:
            pass
    except TimeoutError:
        return False
    return True


def ask_answers(network: Network, there: str, octets: int, seconds: float) -> None:
    """One packet after another, each with the next octets of its flow; a flow's octets fit into the server's room."""
    address, _, port = there.partition(":")
    most = network.params.rcap // octets
    count = 0
    with socket.socket(socket.AF_INET, socket.SOCK_DGRAM) as client:
        client.bind(("10.9.0.2", CLIENT_PORT))
        client.connect((address, int(port)))
        client.settimeout(network.params.rto / 1000)
        begun = time.monotonic()
        while time.monotonic() < begun + seconds:
            flow = wire.Flow(CLIENT, 1 + count // most, SERVER, SERVICE)
            number = count % most * octets
            flags = wire.BEGIN | wire.END | wire.RUN
            frame = wire.packet(flow, network.params.mpl, wire.DATA, number, flags, octets=bytes(octets))
            sent = time.monotonic()
            client.send(frame)
            while not is_answered(client, flow, number + octets):
                # as a node does: with what is left of r, and with a life of its own each time
                if time.monotonic() - sent > network.params.r / 1000:
                    print(f"done {count} {time.monotonic() - begun:.6f}")
                    return
                client.send(frame)
            count += 1
        print(f"done {count} {time.monotonic() - begun:.6f}")


def main() -> None:
    reads = argparse.ArgumentParser(description=__doc__, formatter_class=argparse.RawDescriptionHelpFormatter)
    reads.add_argument("program")
    reads.add_argument("delay", type=float)
    reads.add_argument("round_trip", type=float)
    forms = reads.add_subparsers(dest="form", required=True)
    for form in ("serve", "ask"):
        of_form = forms.add_parser(form)
        of_form.add_argument("address")
        of_form.add_argument("port", type=int)
        if form == "serve":
            of_form.add_argument("log")
            continue
        of_form.add_argument("what", choices=("first", "answers", "message", "flows"))
        for name, kind in (("count", int), ("octets", int), ("seconds", float)):
            of_form.add_argument(name, type=kind)
    given = reads.parse_args()
    network = Network(given.delay, given.round_trip, SMALL_ROOM if "MANY_FLOWS" in os.environ else MOST_ROOM)
    place = f"{given.address}:{given.port}"
    if given.form == "serve":
        serve(network, given.program, place, given.log)
    elif given.octets > MOST_ROOM:
        sys.exit("node: a send has at most 65,536 octets")
    elif given.what == "answers":
        ask_answers(network, place, given.octets, given.seconds)
    else:
        ask(network, given.program, place, given)


if __name__ == "__main__":
    main()
