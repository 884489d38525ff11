#!/usr/bin/env python3
"""Reports what in the scripts of a network's nodes endangers the promise or the traffic.

    tools/doctor.py SCRIPT .. [--drift PPM] [--mtu N] [--delay MS] [--round-trip MS]

Give the scripts of all nodes at once. Each finding is a line, FILE:LINE: SEVERITY: TEXT; WHAT TO DO. The severities:
`danger`, the promise itself is in danger; `warning`, packets get lost needlessly; `note`, how much a flow can carry.

Ends with 1 if the promise is in danger, with 2 if a script can't be read or is refused, and otherwise with 0."""
import argparse
import itertools
import math
import sys
from dataclasses import dataclass
from typing import Iterable, Iterator

from deltat_tools import parameters as par
from deltat_tools.arguments import number
from deltat_tools.scripts import Address, Peer, Refused, Route, Script, read

SAME = ("mpl", "r", "a")


@dataclass(frozen=True)
class Finding:
    """What was found at a line, and what to do."""

    path: str
    line: int
    severity: str
    text: str
    advice: str = ""

    def __str__(self) -> str:
        behind = f"; {self.advice}" if self.advice else ""
        return f"{self.path}:{self.line}: {self.severity}: {self.text}{behind}"


@dataclass(frozen=True)
class World:
    """What is known beside the scripts."""

    # parts in a million
    drift: float
    # octets
    mtu: int
    # ms: the longest that a packet is under way on a link
    delay: float
    # ms, or None for that of the charges
    round_trip: float | None


@dataclass(frozen=True)
class Path:
    """A way through the network: the stations that a packet leaves, and the charges and paces of the links."""

    stations: list[Script]
    peers: list[Peer]
    charges: list[int]

    def life(self) -> int:
        """What a packet's life falls by, where it waits nowhere."""
        return par.life_used(self.charges, [0] * len(self.charges))

    def pace(self) -> int:
        """The greatest pace of its links."""
        return max((it.pace for it in self.peers), default=0)


def is_at(script: Script, address: Address) -> bool:
    """Whether a node is reached at an address: its own, or any of its machine's where it binds 0.0.0.0."""
    return script.local is not None and script.local.port == address.port and script.local.ip in (address.ip, "0.0.0.0")


def neighbour(scripts: list[Script], script: Script, peer: Peer) -> Script | None:
    """The node at the other end of a link."""
    found = [it for it in scripts if it is not script and is_at(it, peer.address)]
    exact = [it for it in found if it.local == peer.address]
    return next(iter(exact or found), None)


def way_back(other: Script, script: Script) -> Peer | None:
    """The peer by which a node names another one: what comes from there counts as of this link."""
    return next((it for it in other.peers if is_at(script, it.address)), None)


def parameters(scripts: list[Script]) -> Iterator[Finding]:
    """All nodes have the same mpl, r and a."""
    first = scripts[0]
    for script, name in itertools.product(scripts[1:], SAME):
        here, there = getattr(script.params, name), getattr(first.params, name)
        if here != there:
            text = f"{name} is {here} here and {there} at {first.path}:{first.params_line}"
            yield Finding(
                script.path,
                script.params_line,
                "danger",
                text,
                "give all nodes the same mpl, r and a, and restart each as `again`",
            )


def numbers(scripts: list[Script]) -> Iterator[Finding]:
    """Each node has a number of its own."""
    seen: dict[int, Script] = {}
    for script in scripts:
        other = seen.setdefault(script.me, script)
        if other is not script:
            text = f"node {script.me} is also at {other.path}:{other.me_line}"
            yield Finding(script.path, script.me_line, "danger", text, "give each node a number of its own")


def charges(script: Script, world: World) -> Iterator[Finding]:
    """A charge covers the link, the machines at its ends, whole milliseconds, and drift."""
    own = par.machine_charge(world.drift, script.params.spacing)
    least = own + math.ceil(world.delay)
    parts = par.machine_parts(world.drift, script.params.spacing)
    link = f", {least - own} of the link" if least > own else ""
    for peer in script.peers:
        if peer.charge < least:
            text = f"link {peer.link} charges {peer.charge} ms, and a packet may take {least}: {parts}{link}"
            yield Finding(
                script.path, peer.line, "danger", text, f"set its charge to the link's longest delay and {own} ms"
            )


def shared(script: Script) -> Iterator[Finding]:
    """Each address is that of one link: what comes counts as of the first."""
    seen: dict[Address, Peer] = {}
    for peer in script.peers:
        first = seen.setdefault(peer.address, peer)
        if first is not peer:
            low = first.charge < peer.charge
            text = (
                f"link {peer.link} has the address of link {first.link}, so packets from there are charged"
                f" {first.charge} ms"
            )
            yield Finding(
                script.path, peer.line, "danger" if low else "warning", text, "give each link an address of its own"
            )


def ends(scripts: list[Script], script: Script) -> Iterator[Finding]:
    """The other end of each link names this node."""
    for peer in script.peers:
        other = neighbour(scripts, script, peer)
        if other is None:
            yield Finding(
                script.path,
                peer.line,
                "warning",
                f"no script has a node at {peer.address}",
                "give that node's script too, or correct the address",
            )
        elif way_back(other, script) is None:
            text = f"{other.path} has no peer at {script.local}, so node {other.me} drops packets from here"
            yield Finding(
                script.path, peer.line, "warning", text, f"give it a line `peer L {script.local} CHARGE PACE`"
            )


def locals_of(scripts: list[Script]) -> Iterator[Finding]:
    """Each node has an address of its own."""
    seen: dict[Address, Script] = {}
    for script in scripts:
        other = seen.setdefault(script.local, script)
        if other is not script and script.local.ip != "0.0.0.0":
            text = f"{script.local} is also the address at {other.path}:{other.local_line}"
            yield Finding(script.path, script.local_line, "warning", text, "give each node an address of its own")


def walk(scripts: list[Script], start: Script, to: int) -> tuple[Path | None, Finding | None]:
    """The path of packets from a node to another, or what is in the way. A packet is charged by the node
    that it comes to."""
    path, at, seen = Path([], [], []), start, [start]
    first: Route | None = None
    while True:
        route = at.route(to)
        first = first or route
        line = first.line if first else start.me_line
        if route is None:
            text = f"packets for node {to} arrive at node {at.me}, which has no route there"
            return None, Finding(start.path, line, "warning", text, f"give {at.path} a line `route {to} L`")
        peer = at.peer(route.link)
        after = neighbour(scripts, at, peer)
        back = way_back(after, at) if after else None
        if after is None or back is None:
            return None, None
        path.stations.append(at)
        path.peers.append(peer)
        path.charges.append(back.charge)
        if after.me == to:
            return path, None
        if after in seen:
            return None, Finding(
                start.path,
                line,
                "warning",
                f"packets for node {to} loop through node {after.me}",
                "change the routes so that they end there",
            )
        seen.append(after)
        at = after


def lives(start: Script, to: int, path: Path) -> Iterator[Finding]:
    """A packet lives long enough for its path."""
    if path.life() >= start.params.mpl:
        text = (
            f"{len(path.charges)} links to node {to} charge {sum(path.charges)} ms, the stations {len(path.charges)} or"
            f" more, and mpl is {start.params.mpl}"
        )
        yield Finding(start.path, start.route(to).line, "warning", text, "give all nodes a greater mpl")


def shelved(start: Script, other: Script, path: Path) -> Iterator[Finding]:
    """A packet lives long enough for a shelf at its end: until the lost one before it went again, and for the
    millisecond more that this costs."""
    left = start.params.mpl - path.life()
    if other.shelf and 0 < left < start.params.rto + 2:
        text = (
            f"packets for node {other.me} have {left} ms of lifetime left for its shelf, and a lost one before them is"
            f" resent after {start.params.rto}"
        )
        yield Finding(
            start.path, start.route(other.me).line, "warning", text, "give all nodes an mpl that is greater by two rto"
        )


def windows(start: Script, other: Script) -> Iterator[Finding]:
    """A new flow sends no more than there is room for at the other node."""
    if start.params.window > other.params.rcap:
        text = (
            f"window is {start.params.window}, and node {other.me} has room for {other.params.rcap} octets"
            f" ({other.path}:{other.params_line})"
        )
        yield Finding(start.path, start.params_line, "warning", text, "set window to at most the other's rcap")


def carries(start: Script, other: Script, path: Path, back: Path, world: World) -> Finding:
    """What a flow can carry at most."""
    told = world.round_trip is not None
    trip = world.round_trip if told else path.life() + back.life()
    most = par.least_ceiling(start.params, other.params, trip, path.pace())
    text = (
        f"a flow to node {other.me} carries at most {par.rate_text(most.rate)} by {most.by}, if a round trip is"
        f" {trip:g} ms"
    )
    return Finding(
        start.path,
        start.route(other.me).line,
        "note",
        text,
        "" if told else "that is the longest; give --round-trip for a usual one",
    )


def passes_on(scripts: list[Script]) -> set[tuple[str, int]]:
    """The stations that pass packets for a node on, which others made: they need no way back."""
    found = set()
    for start in scripts:
        for route in start.routes:
            at, seen = start, [start]
            while at and at.me != route.to and at.route(route.to):
                at = neighbour(scripts, at, at.peer(at.route(route.to).link))
                if at is None or at in seen:
                    break
                seen.append(at)
            found |= {(it.path, route.to) for it in seen[1:]}
    return found


def speaks(script: Script, to: int) -> bool:
    """Whether a node has something to send to another, or to read from it."""
    return any(to in (it.flow.source, it.flow.target) for it in script.commands)


def paths(scripts: list[Script], world: World) -> Iterator[Finding]:
    """Between the nodes there are ways and ways back, on which packets live long enough."""
    by_number = {it.me: it for it in reversed(scripts)}
    through = passes_on(scripts)
    for start in scripts:
        for route in start.routes:
            other = by_number.get(route.to)
            if other is None:
                yield Finding(
                    start.path,
                    route.line,
                    "warning",
                    f"no script has node {route.to}",
                    "give that node's script too, or correct the number",
                )
                continue
            path, wrong = walk(scripts, start, route.to)
            back, wrong_back = walk(scripts, other, start.me)
            if wrong:
                yield wrong
            if path is None:
                continue
            yield from lives(start, route.to, path)
            yield from shelved(start, other, path)
            yield from windows(start, other)
            if back is not None:
                yield carries(start, other, path, back, world)
            elif wrong_back and (speaks(start, route.to) or (start.path, route.to) not in through):
                text = f"node {route.to} has no way back here: {wrong_back.text}"
                yield Finding(start.path, route.line, "warning", text, wrong_back.advice)


def commands(script: Script) -> Iterator[Finding]:
    """What is sent has a route."""
    for to, command in {it.flow.target: it for it in reversed(script.commands) if it.name == "send"}.items():
        if script.route(to) is None:
            yield Finding(
                script.path, command.line, "warning", f"there is no route to node {to}", f"add a line `route {to} L`"
            )


def segments(script: Script, world: World) -> Iterator[Finding]:
    """A segment with its headers fits into one packet of the link."""
    size = script.params.seg + par.HEADERS
    if size > world.mtu:
        text = (
            f"a segment of {script.params.seg} octets makes packets of {size}, and the MTU is {world.mtu}, so they are"
            " sent in fragments, which may be joined wrongly"
        )
        yield Finding(
            script.path, script.params_line, "warning", text, f"set seg to at most {max(1, world.mtu - par.HEADERS)}"
        )


def findings(scripts: list[Script], world: World) -> list[Finding]:
    """All that is found, in the order of the scripts and their lines."""
    found: list[Finding] = [*parameters(scripts), *numbers(scripts), *locals_of(scripts), *paths(scripts, world)]
    for script in scripts:
        found += [
            *charges(script, world),
            *shared(script),
            *ends(scripts, script),
            *segments(script, world),
            *commands(script),
        ]
    place = {it.path: i for i, it in enumerate(scripts)}
    return sorted(dict.fromkeys(found), key=lambda it: (place[it.path], it.line))


def read_all(names: Iterable[str]) -> tuple[list[Script], list[str]]:
    """The scripts, and what is wrong with those that can't be read."""
    scripts, wrong = [], []
    for name in names:
        try:
            scripts.append(read(name))
        except OSError as why:
            wrong.append(f"{name}: error: {why.strerror}; give the path of a script")
        except Refused as why:
            wrong.append(
                f"{name}:{why.line}: error: {why.fault}; the program refuses this line; docs/formats.md explains the"
                " fault"
            )
    return scripts, wrong


def arguments() -> argparse.Namespace:
    it = argparse.ArgumentParser(description=__doc__, formatter_class=argparse.RawDescriptionHelpFormatter)
    it.add_argument("scripts", metavar="SCRIPT", nargs="+", help="the script of a node")
    it.add_argument(
        "--drift", type=number(0, 100_000), default=100.0, help="how wrong a clock may be, in parts in a million (100)"
    )
    it.add_argument(
        "--mtu", type=number(1, 65_535, int), default=1500, help="the least MTU of the links, in octets (1500)"
    )
    it.add_argument(
        "--delay",
        type=number(0, par.DAY),
        default=0.0,
        help="the longest that a packet is under way on a link, in ms, where it is known (0)",
    )
    it.add_argument(
        "--round-trip",
        type=number(0, par.DAY),
        default=None,
        help="a usual round trip in ms, for what a flow can carry",
    )
    return it.parse_args()


def main() -> int:
    asked = arguments()
    scripts, wrong = read_all(asked.scripts)
    if wrong:
        print("\n".join(wrong), file=sys.stderr)
        return 2
    found = findings(scripts, World(asked.drift, asked.mtu, asked.delay, asked.round_trip))
    for it in found:
        print(it)
    return 1 if any(it.severity == "danger" for it in found) else 0


if __name__ == "__main__":
    sys.exit(main())
