#!/usr/bin/env python3
"""Makes the script of each node, and the schedule of the same world, from one description of a network.

    tools/fleet.py NETWORK.toml --out FOLDER

The description:

    [network]            # each line of this part may be left out
    round_trip = 40      # a usual round trip, in ms; without it twice the delay of the longest path
    drift = 100          # how wrong a clock may be, in parts in a million
    tries = 5            # transmissions of a segment before it is given up
    room = 65536         # the octets that a flow may have under way, and unread
    shelf = 64           # how many packets that arrive too early are kept; 0 for none
    stop = 60000         # when the nodes stop, in ms

    [[node]]
    name = "depot"       # its script is depot.script
    number = 1
    address = "depot.example:4001"
    start = "first"      # or "again", as without this line
    commands = ["at 1000 send 1:10>2:20 be 68656c6c6f"]   # may be left out

    [[link]]
    ends = ["depot", "mast"]
    delay = 30           # the longest time that a packet may be under way, in ms, with all queues of the network
    mtu = 1500           # may be left out, as all below
    drift = 200          # of the clocks at its ends, if it differs from the network's
    pace = 0             # the least time between two packets, in ms
    queue = 8            # how many packets may wait for that

A packet travels to each node by the path of the least delay. The parameters, the charges and the routes follow from the
delays; host names are looked up once, here. FOLDER gets NAME.script for each node, and network.schedule for
`deltat replay`, with the sends and reads, and no arrivals. The last line of the output is the command of
tools/doctor.py for these scripts.

Ends with 0, or with 2 if the description can't be read or has a fault."""
import argparse
import heapq
import re
import socket
import sys
import tomllib
from dataclasses import dataclass, field
from pathlib import Path
from typing import Any

from deltat_tools import parameters as par
from deltat_tools import scripts

# the ms that a packet may wait at a station that has no pace
WAIT = 2
# a link has a number for each direction in the schedule
MOST_LINKS = 128
# the packets that nodes keep which came too early, and how often the lost one before them may go again meanwhile
SHELF, SHELVED = 64, 2
NETWORK = {
    "round_trip": (float, 0, par.DAY),
    "drift": (float, 0, 100_000),
    "tries": (int, 1, 1000),
    "room": (int, 1, par.MOST_ROOM),
    "shelf": (int, 0, 64),
    "stop": (int, 0, 2**32 - 1),
}
LINK = {
    "delay": (float, 0, par.DAY),
    "mtu": (int, 1, 65_535),
    "drift": (float, 0, 100_000),
    "pace": (int, 0, par.DAY),
    "queue": (int, 0, 64),
}


class Wrong(Exception):
    """The description is wrong."""


@dataclass
class Node:
    """A node of the network."""

    name: str
    number: int
    address: str
    start: str = "again"
    commands: list[str] = field(default_factory=list)
    place: scripts.Address | None = None


@dataclass
class Link:
    """A link of the network, in both directions."""

    number: int
    ends: tuple[str, str]
    delay: float
    drift: float
    mtu: int
    pace: int
    queue: int

    def hop(self) -> par.Hop:
        """What it costs a packet."""
        return par.Hop(self.delay, WAIT + self.pace * self.queue, self.drift)

    def other(self, name: str) -> str:
        """The node at its other end."""
        return self.ends[1] if self.ends[0] == name else self.ends[0]


@dataclass
class Network:
    """The whole description."""

    wishes: dict[str, Any]
    nodes: dict[str, Node]
    links: list[Link]


def checked(where: str, table: dict[str, Any], rules: dict[str, tuple], others: set[str]) -> dict[str, Any]:
    """The numbers of a table, each of its kind and within its range, and no other key."""
    for key, value in table.items():
        if key in others:
            continue
        if key not in rules:
            raise Wrong(f"{where}: unknown key: {key}; the keys are {', '.join([*sorted(others), *rules])}")
        kind, least, most = rules[key]
        if (
            isinstance(value, bool)
            or not isinstance(value, (int, float))
            or kind is int
            and not isinstance(value, int)
            or not least <= value <= most
        ):
            raise Wrong(
                f"{where}: {key} is {value}; it must be {'a whole number' if kind is int else 'a number'} from"
                f" {least} to {most}"
            )
    return table


def node_of(place: int, table: Any) -> Node:
    """A node of the description."""
    where = f"node {place + 1}"
    rules = {"number": (int, 0, 2**32 - 1)}
    if not isinstance(table, dict):
        raise Wrong(f"{where}: it isn't a table; write [[node]]")
    checked(where, table, rules, {"name", "address", "start", "commands"})
    missing = {"name", "number", "address"} - set(table)
    if missing:
        raise Wrong(f"{where}: {' and '.join(sorted(missing))} {'is' if len(missing) == 1 else 'are'} missing")
    it = Node(**table)
    if not isinstance(it.name, str) or not re.fullmatch(r"[A-Za-z0-9_-]{1,64}", it.name):
        raise Wrong(f"{where}: name is {it.name!r}; it must be 1 to 64 letters, digits, - and _")
    if it.start not in ("first", "again"):
        raise Wrong(f"{where}: start is {it.start!r}; it must be \"first\" or \"again\"")
    if not isinstance(it.commands, list) or not all(isinstance(one, str) for one in it.commands):
        raise Wrong(f"{where}: commands isn't a list of texts; write a line of a script in each")
    return it


def link_of(place: int, table: Any, wishes: dict[str, Any], nodes: dict[str, Node]) -> Link:
    """A link of the description."""
    where = f"link {place + 1}"
    if not isinstance(table, dict):
        raise Wrong(f"{where}: it isn't a table; write [[link]]")
    checked(where, table, LINK, {"ends"})
    missing = {"ends", "delay"} - set(table)
    if missing:
        raise Wrong(f"{where}: {' and '.join(sorted(missing))} {'is' if len(missing) == 1 else 'are'} missing")
    ends = table["ends"]
    if not isinstance(ends, list) or len(ends) != 2 or ends[0] == ends[1]:
        raise Wrong(f"{where}: ends is {ends!r}; it must be a list of the names of two nodes")
    for name in ends:
        if name not in nodes:
            raise Wrong(f"{where}: unknown node: {name!r}; the nodes are {', '.join(nodes)}")
    drift = table.get("drift", wishes.get("drift", 100))
    return Link(
        place,
        (ends[0], ends[1]),
        table["delay"],
        drift,
        table.get("mtu", 1500),
        table.get("pace", 0),
        table.get("queue", 8),
    )


def network_of(text: bytes) -> Network:
    """The network of a description."""
    try:
        top = tomllib.loads(text.decode())
    except (UnicodeDecodeError, tomllib.TOMLDecodeError) as why:
        raise Wrong(f"it isn't valid TOML: {why}") from why
    unknown = set(top) - {"network", "node", "link"}
    if unknown:
        raise Wrong(f"unknown table: {sorted(unknown)[0]}; the tables are [network], [[node]] and [[link]]")
    if not all(isinstance(top.get(part, []), list) for part in ("node", "link")) or not isinstance(
        top.get("network", {}), dict
    ):
        raise Wrong("a table has the wrong form; write one [network], and [[node]] and [[link]] for each node and link")
    wishes = checked("network", top.get("network", {}), NETWORK, set())
    nodes: dict[str, Node] = {}
    for place, table in enumerate(top.get("node", [])):
        it = node_of(place, table)
        twice = next((one for one in nodes.values() if one.name == it.name or one.number == it.number), None)
        if twice:
            raise Wrong(
                f"node {place + 1}: {it.name!r}, number {it.number}, has the name or number of {twice.name!r}, number"
                f" {twice.number}; give it its own"
            )
        nodes[it.name] = it
    links = [link_of(place, table, wishes, nodes) for place, table in enumerate(top.get("link", []))]
    if not nodes or not links:
        raise Wrong("there is no node or no link; a network needs both")
    if len(links) > MOST_LINKS:
        raise Wrong(f"there are {len(links)} links; at most {MOST_LINKS} fit into a schedule")
    for name in nodes:
        others = [it.other(name) for it in links if name in it.ends]
        if len(set(others)) < len(others):
            raise Wrong(
                f"node {name!r} has two links to one node; packets would count as those of the first, so leave one out"
            )
    return Network(wishes, nodes, links)


def resolve(nodes: dict[str, Node]) -> None:
    """Looks up the address of each node."""
    seen: dict[scripts.Address, str] = {}
    for it in nodes.values():
        host, colon, port = str(it.address).rpartition(":")
        if not colon or scripts.number(port, 65_535, 1) is None:
            raise Wrong(f"node {it.name!r}: address is {it.address!r}; it must be HOST:PORT")
        try:
            found = socket.getaddrinfo(host, int(port), socket.AF_INET, socket.SOCK_DGRAM)
        except (OSError, UnicodeError) as why:
            raise Wrong(f"node {it.name!r}: host {host!r} isn't found: {why}") from why
        it.place = scripts.Address(found[0][4][0], int(port))
        if it.place in seen:
            raise Wrong(
                f"node {it.name!r}: {it.place} is the address of node {seen[it.place]!r} too; give each node its own"
            )
        seen[it.place] = it.name


def ways(network: Network, start: str) -> dict[str, list[Link]]:
    """The links by which packets go from a node to each of the others: those of the least delay together,
    and of these the fewest."""
    found: dict[str, list[Link]] = {}
    front: list[tuple[float, int, str, list[int]]] = [(0.0, 0, start, [])]
    while front:
        cost, steps, name, way = heapq.heappop(front)
        if name in found:
            continue
        found[name] = [network.links[it] for it in way]
        for link in network.links:
            if name in link.ends and link.other(name) not in found:
                heapq.heappush(front, (cost + link.delay, steps + 1, link.other(name), [*way, link.number]))
    del found[start]
    return found


@dataclass
class Plan:
    """What follows from a description."""

    network: Network
    params: par.Params
    ways: dict[str, dict[str, list[Link]]]

    def charge(self, link: Link) -> int:
        """The charge of a link."""
        return par.link_charge(link.hop(), self.params)


def plan_of(network: Network) -> Plan:
    """The routes and parameters of a network."""
    routes = {name: ways(network, name) for name in network.nodes}
    lost = [(one, other) for one in routes for other in network.nodes if other != one and other not in routes[one]]
    if lost:
        raise Wrong(f"no links lead from node {lost[0][0]!r} to node {lost[0][1]!r}; add a link")
    paths = [way for each in routes.values() for way in each.values()]
    longest = max(sum(link.delay for link in way) for way in paths)
    wishes = network.wishes
    mtu, shelved = min(link.mtu for link in network.links), SHELVED if wishes.get("shelf", SHELF) else 0
    wanted = par.Wishes(
        wishes.get("round_trip", 2 * longest), wishes.get("tries", 5), mtu, wishes.get("room", par.MOST_ROOM), shelved
    )
    try:
        return Plan(network, par.suited([[link.hop() for link in way] for way in paths], wanted), routes)
    except par.Unsuited as why:
        raise Wrong(str(why)) from why


def script_of(plan: Plan, node: Node) -> str:
    """The script of a node."""
    network, stop = plan.network, plan.network.wishes.get("stop", 60_000)
    lines = [
        f"# Node {node.number}, {node.name}: made by tools/fleet.py",
        plan.params.line(),
        f"me {node.number} {node.start}",
        f"local {node.place}",
    ]
    for link in network.links:
        if node.name in link.ends:
            other = network.nodes[link.other(node.name)]
            lines += [f"# {other.name}", f"peer {link.number} {other.place} {plan.charge(link)} {link.pace}"]
    for name, way in plan.ways[node.name].items():
        lines.append(f"route {network.nodes[name].number} {way[0].number}")
    shelf = network.wishes.get("shelf", SHELF)
    lines += [f"shelf {shelf}"] if shelf else []
    lines += ["go", *node.commands, f"at {stop} stop"]
    return "\n".join(lines) + "\n"


def schedule_of(plan: Plan, made: dict[str, scripts.Script]) -> str:
    """The schedule of the same world. A link of the network has two of its numbers, one a direction."""
    network = plan.network
    lines = ["# The world of a network: made by tools/fleet.py", plan.params.line()]
    lines += [f"station {it.number} 0" for it in network.nodes.values()]
    for link in network.links:
        one, other = (network.nodes[name].number for name in link.ends)
        for number, (start, end) in enumerate(((one, other), (other, one)), 2 * link.number):
            lines.append(f"link {number} {start} {end} {plan.charge(link)} {link.pace}")
    for name, each in plan.ways.items():
        for to, way in each.items():
            number = 2 * way[0].number + (name != way[0].ends[0])
            lines.append(f"route {network.nodes[name].number} {network.nodes[to].number} {number}")
    lines.append("go")
    lines += [f"restart {it.number}" for it in network.nodes.values() if it.start == "again"]
    return "\n".join(lines + events_of(network, made)) + "\n"


def events_of(network: Network, made: dict[str, scripts.Script]) -> list[str]:
    """What the nodes send and read, in the order of the moments, each behind the time that passed."""
    tasks = []
    for node in network.nodes.values():
        texts = iter(node.commands)
        for command in made[node.name].commands:
            text = next(it for it in texts if it.startswith("at "))
            tasks.append((command.at, node.number, text.split(" ", 2)[2]))
    lines, moment = [], 0
    for at, _, text in sorted(tasks, key=lambda it: it[0]):
        lines += [f"pass {at - moment}"] if at > moment else []
        lines.append(text)
        moment = at
    return lines


def files_of(network: Network) -> dict[str, str]:
    """Each file, by its name."""
    resolve(network.nodes)
    plan = plan_of(network)
    files, made = {}, {}
    for node in network.nodes.values():
        name = f"{node.name}.script"
        files[name] = script_of(plan, node)
        try:
            made[node.name] = scripts.parse(name, files[name].encode())
        except scripts.Refused as why:
            line = files[name].split("\n")[why.line - 1]
            raise Wrong(
                f"node {node.name!r}: the line `{line}` is refused: {why.fault}; docs/formats.md explains the fault"
            ) from why
    files["network.schedule"] = schedule_of(plan, made)
    return files


def doctor_words(network: Network) -> str:
    """What tools/doctor.py has to be told of the links, which the scripts don't say."""
    return f"--drift {min(it.drift for it in network.links)} --mtu {min(it.mtu for it in network.links)}"


def main() -> int:
    it = argparse.ArgumentParser(description=__doc__, formatter_class=argparse.RawDescriptionHelpFormatter)
    it.add_argument("network", metavar="NETWORK.toml", help="the description")
    it.add_argument(
        "--out", metavar="FOLDER", required=True, help="where the files go; the folder is made where it is missing"
    )
    asked = it.parse_args()
    try:
        network = network_of(Path(asked.network).read_bytes())
        files = files_of(network)
        Path(asked.out).mkdir(parents=True, exist_ok=True)
        for name, text in files.items():
            (Path(asked.out) / name).write_text(text)
    except OSError as why:
        print(
            f"fleet.py: {why.filename}: {why.strerror}; give a description, and a folder that can be written",
            file=sys.stderr,
        )
        return 2
    except Wrong as why:
        print(f"{asked.network}: {why}", file=sys.stderr)
        return 2
    print("\n".join(str(Path(asked.out) / name) for name in files))
    print(f"see also: tools/doctor.py {doctor_words(network)} {Path(asked.out) / '*.script'}")
    return 0


if __name__ == "__main__":
    sys.exit(main())
