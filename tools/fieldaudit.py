#!/usr/bin/env python3
"""Merges the logs of a network's nodes into one, which `deltat audit` judges.

    tools/fieldaudit.py LOG .. | deltat audit
    tools/fieldaudit.py LOG .. --deltat PROGRAM [--out FILE]

Give the logs of all nodes of a run. A node that was started more than once has several logs: give them in their order,
or one after the other in one file. The clocks of the nodes needn't agree: the lines themselves force their order.
Octets that were accepted were sent earlier. Octets are acknowledged after the acknowledgement was sent. Each node's
lines keep their order. If there is an order in which all that was acknowledged was accepted earlier, it is taken. If
there is none, `no order` is written with the lines that have none, and the other lines are merged as well as possible.

Only the lines that an audit judges are written. With --deltat the program judges them, and a flaw is written with its
file and line; --out keeps the merged log.

Ends with 0 if there is an order and, with --deltat, the audit finds nothing; with 1 if there is none or the audit finds
a flaw; with 2 if a log can't be read."""
import argparse
import heapq
import statistics
import subprocess
import sys
from dataclasses import dataclass, field
from pathlib import Path

from deltat_tools.logs import FACTS, Entry, NoLog, Node, Receiving, Sending, nodes_of
from deltat_tools.matching import Matcher, why_broken
from deltat_tools.scripts import Flow

# a line of a node: its node, and its place among all of that node
Place = tuple[int, int]


@dataclass
class Order:
    """What is known of the order of lines."""

    nodes: dict[int, Node]
    # what each line stands behind, as the lines force it; as it would be if all is well; and as is handy
    forced: dict[Place, set[Place]] = field(default_factory=dict)
    wished: dict[Place, set[Place]] = field(default_factory=dict)
    handy: dict[Place, set[Place]] = field(default_factory=dict)
    # of two runs of nodes, how long after a line of the first one that of the second was, by their clocks
    samples: dict[tuple[Place, Place], list[int]] = field(default_factory=dict)
    # of two runs of nodes, how much the clock of the second is at most ahead of the first one's, in ms
    ahead: dict[tuple[Place, Place], tuple[int, Place, Place]] = field(default_factory=dict)
    broken: list[str] = field(default_factory=list)
    notes: list[str] = field(default_factory=list)

    def entry(self, place: Place) -> Entry:
        """The line at a place."""
        return self.nodes[place[0]].entries[place[1]]

    def run_of(self, place: Place) -> Place:
        """The run of its node in which a line stands."""
        return place[0], self.nodes[place[0]].lives[place[1]]

    def came(self, first: Place, then: Place) -> None:
        """What the first line tells of led to the other one, over the network."""
        self.forced.setdefault(then, set()).add(first)
        pair = (self.run_of(first), self.run_of(then))
        apart = self.entry(then).moment - self.entry(first).moment
        self.samples.setdefault(pair, []).append(apart)
        if pair not in self.ahead or apart < self.ahead[pair][0]:
            self.ahead[pair] = (apart, first, then)

    def wish(self, first: Place, then: Place) -> None:
        """The first line should stand before the other one."""
        self.wished.setdefault(then, set()).add(first)

    def usual(self, first: Place, then: Place) -> float | None:
        """About how long after a line of the first run one of the other is that it led to."""
        found = [*self.samples.get((first, then), ()), *(-it for it in self.samples.get((then, first), ()))]
        return statistics.median(found) if found else None

    def told(self, place: Place) -> str:
        """A line with its place, for people."""
        it = self.entry(place)
        return f"{it.place()}: {' '.join(it.words[2:])}"


def follow_flow(order: Order, of: Flow, fits: dict[Place, tuple[int, float]]) -> None:
    """What the two logs of a flow say about the order of their lines; with what was found before of their
    clocks."""
    sender, receiver = order.nodes[of.source], order.nodes[of.target]
    sending, receiving = sender.sending.get(of, Sending()), receiver.receiving.get(of, Receiving())

    def ahead(life: int, other: int) -> float | None:
        one, two = fits.get((of.source, life)), fits.get((of.target, other))
        return two[1] - one[1] if one and two and one[0] == two[0] else None

    matched, broken = Matcher(sender, receiver, sending, receiving, ahead).match()
    for i in broken:
        it = receiving.accepted[i]
        last = next((place for place in reversed(matched[:i]) if place is not None), None)
        order.broken.append(f"{order.told((of.target, it.line))}: {why_broken(it, matched[i], last, sending.segments)}")
    accepted: dict[int, int] = {}
    for it, place in zip(receiving.accepted, matched):
        if place is None:
            continue
        segment = sending.segments[place]
        line = (of.target, it.line)
        order.came((of.source, (segment.packet(it.is_run) or segment.packets[0]).line), line)
        if segment.run + 1 < len(sending.begins):
            order.handy.setdefault((of.source, sending.begins[segment.run + 1]), set()).add(line)
        accepted.setdefault(place, it.line)
    follow_acknowledgements(order, of, sending, receiving, accepted)


def follow_acknowledgements(
    order: Order, of: Flow, sending: Sending, receiving: Receiving, accepted: dict[int, int]
) -> None:
    """Each acknowledgement that was used was sent, and what it acknowledges should have been accepted."""
    last: dict[int, int] = {}
    for place, segment in enumerate(sending.segments):
        if segment.settled is None:
            continue
        if place in accepted:
            last[segment.settled] = max(last.get(segment.settled, -1), accepted[place])
            order.wish((of.target, accepted[place]), (of.source, segment.settled))
        else:
            text = (
                f"{order.told((of.source, segment.settled))}: octets that were sent at"
                f" {order.entry((of.source, segment.packets[0].line)).place()} were never accepted"
            )
            order.broken.append(text)
    lines: dict[tuple[int, int], list[int]] = {}
    for it in receiving.told:
        lines.setdefault((it.number, it.window), []).append(it.line)
    for it in sending.settled:
        found = lines.get((it.number, it.window))
        if not found:
            order.notes.append(
                f"{order.told((of.source, it.line))}: no log has that acknowledgement, of number {it.number} and window"
                f" {it.window}"
            )
        elif it.count:
            behind = last.get(it.line, -1)
            order.came((of.target, next((one for one in found if one >= behind), found[-1])), (of.source, it.line))


def runs_of_all(order: Order) -> list[Place]:
    """Each run of each node."""
    return [(number, life) for number, node in order.nodes.items() for life in dict.fromkeys(node.lives)]


def fitted(order: Order) -> dict[Place, tuple[int, float]]:
    """For each run of a node the group of runs of which it is known how far their clocks are apart, and how
    far this one is ahead of the first of the group; by what usually passes between two of them."""
    found: dict[Place, tuple[int, float]] = {}
    runs = runs_of_all(order)
    for group, root in enumerate(runs):
        front = [] if root in found else [root]
        found.setdefault(root, (group, 0.0))
        while front:
            one = front.pop(0)
            for other in runs:
                apart = None if other in found else order.usual(one, other)
                if apart is not None:
                    found[other] = (group, found[one][1] + apart)
                    front.append(other)
    return found


def clocks(order: Order) -> dict[Place, float]:
    """For each run of a node, what is added to its moments to fit those of the others; 0 where nothing
    passed between them. Clocks that no constant fits are noted."""
    added: dict[Place, float] = {}
    runs = runs_of_all(order)
    for root in runs:
        front = [root] if root not in added else []
        added.setdefault(root, 0.0)
        while front:
            one = front.pop()
            for other in runs:
                to, back = order.ahead.get((one, other)), order.ahead.get((other, one))
                if other in added or not (to or back):
                    continue
                # the other's clock is ahead by at most `to` and at least -`back`
                ahead = (to[0] - back[0]) / 2 if to and back else to[0] if to else -back[0]
                added[other] = added[one] - ahead
                front.append(other)
    for (one, other), to in order.ahead.items():
        back = order.ahead.get((other, one))
        if back and one < other and to[0] + back[0] < -1:
            order.notes.append(
                (
                    f"the clocks of node {one[0]} and node {other[0]} don't fit by {-to[0] - back[0]} ms:"
                    f" {order.told(to[1])} before {order.told(to[2])}, and {order.told(back[1])} before"
                    f" {order.told(back[2])}; one stood still, or goes at another rate"
                )
            )
    return added


class Merging:
    """Takes the lines of all nodes one after another: of those that may be next the one of the earliest
    moment."""

    def __init__(self, order: Order):
        self.order, self.added = order, clocks(order)
        self.kinds = (order.forced, order.wished, order.handy)
        # for each line how many stand before it and aren't taken, and those that stand behind it
        self.wait = {
            place: sum(len(kind.get(place, ())) for kind in self.kinds) for kind in self.kinds for place in kind
        }
        self.behind: dict[Place, list[Place]] = {}
        for kind in self.kinds:
            for then, firsts in kind.items():
                for first in firsts:
                    self.behind.setdefault(first, []).append(then)
        self.heads = {number: 0 for number in order.nodes}
        self.done: set[Place] = set()
        self.ready: list[tuple[float, Place]] = []

    def moment(self, place: Place) -> float:
        """When a line was, by one clock for all."""
        return self.order.entry(place).moment + self.added[self.order.run_of(place)]

    def is_there(self, place: Place) -> bool:
        return place[1] < len(self.order.nodes[place[0]].entries)

    def offer(self, place: Place) -> None:
        """The line is the next one of its node: it may be taken where nothing stands before it."""
        if self.is_there(place) and self.wait.get(place, 0) == 0:
            heapq.heappush(self.ready, (self.moment(place), place))

    def forced(self) -> Place | None:
        """No line may be next: the one that rests on the least is, and that is told. None at the end."""
        stuck = [place for place in self.heads.items() if self.is_there(place)]
        if not stuck:
            return None
        left = lambda kind, place: sorted(it for it in kind.get(place, ()) if it not in self.done)
        place = min(
            stuck,
            key=lambda it: (bool(left(self.order.forced, it)), bool(left(self.order.wished, it)), self.moment(it)),
        )
        rests = left(self.order.forced, place) or left(self.order.wished, place)
        if rests:
            self.order.broken.append(
                f"{self.order.told(place)}: it stands before what it rests on, {self.order.told(rests[0])}"
            )
        self.wait[place] = 0
        return place

    def take(self, place: Place) -> None:
        """The line is the next one."""
        self.done.add(place)
        self.heads[place[0]] += 1
        for then in self.behind.get(place, ()):
            if then not in self.done:
                self.wait[then] = max(0, self.wait[then] - 1)
                if then[0] != place[0] and self.heads[then[0]] == then[1]:
                    self.offer(then)
        self.offer((place[0], place[1] + 1))

    def lines(self) -> list[Place]:
        """All lines in their order."""
        for place in self.heads.items():
            self.offer(place)
        out = []
        while True:
            place = heapq.heappop(self.ready)[1] if self.ready else self.forced()
            if place is None:
                return out
            if place not in self.done:
                out.append(place)
                self.take(place)


def order_of(nodes: dict[int, Node]) -> tuple[Order, set[Flow]]:
    """What is known of the order, and the flows of which a log is missing."""
    flows = list(dict.fromkeys(of for node in nodes.values() for of in [*node.sending, *node.receiving]))
    missing = {of for of in flows if of.source not in nodes or of.target not in nodes}
    # the first time without the clocks, which follow from it
    order, fits = Order(nodes), {}
    for _ in range(3):
        order = Order(nodes)
        for of in flows:
            if of not in missing:
                follow_flow(order, of, fits)
        fits = fitted(order)
    for of in sorted(missing, key=str):
        gone = of.source if of.source not in nodes else of.target
        order.notes.append(f"no log of node {gone} is given, so the flow {of} isn't judged")
    for node in nodes.values():
        for before, run in zip(node.runs, node.runs[1:]):
            ended = "stopped" if before.ended else "ended without its stop"
            first = run.entries[0]
            order.notes.append(
                f"{first.place()}: node {node.number} starts once more, which {ended} in {before.entries[-1].path}; a"
                " log doesn't show whether as `again`"
            )
    return order, missing


def facts(order: Order, missing: set[Flow]) -> list[Entry]:
    """The lines that an audit judges, in their order."""
    left_out = {str(it) for it in missing}
    entries = [order.entry(place) for place in Merging(order).lines()]
    return [it for it in entries if it.words[2] in FACTS and it.words[3] not in left_out]


def judged(program: str, lines: list[Entry]) -> tuple[bool, str]:
    """What the audit of the program says, with the file and line of a flaw."""
    text = "".join(f"{it.text}\n" for it in lines)
    ran = subprocess.run([program, "audit"], input=text.encode("latin-1"), capture_output=True, check=False)
    said = ran.stdout.decode().strip()
    if ran.returncode == 0:
        return True, said
    if ran.returncode != 3 or not said.startswith("line "):
        raise OSError(0, f"the audit failed with status {ran.returncode}: {ran.stderr.decode().strip()}", program)
    number, flaw = said.removeprefix("line ").split(": ", 1)
    it = lines[int(number) - 1]
    return False, f"{it.place()}: {flaw}: {it.text}"


def arguments() -> argparse.Namespace:
    it = argparse.ArgumentParser(description=__doc__, formatter_class=argparse.RawDescriptionHelpFormatter)
    it.add_argument("logs", metavar="LOG", nargs="+", help="the log of a node")
    it.add_argument("--deltat", metavar="PROGRAM", help="the program, which judges the merged log")
    it.add_argument(
        "--out", metavar="FILE", help="where the merged log goes; without it and without --deltat to standard output"
    )
    return it.parse_args()


def main() -> int:
    asked = arguments()
    try:
        order, missing = order_of(nodes_of(asked.logs))
        lines = facts(order, missing)
        text = "".join(f"{it.text}\n" for it in lines)
        if asked.out:
            Path(asked.out).write_bytes(text.encode("latin-1"))
        well, said = judged(asked.deltat, lines) if asked.deltat else (True, "")
    except NoLog as why:
        print(f"fieldaudit.py: {why}", file=sys.stderr)
        return 2
    except OSError as why:
        print(f"fieldaudit.py: {why.filename}: {why.strerror}", file=sys.stderr)
        return 2
    for it in order.notes:
        print(f"note: {it}", file=sys.stderr)
    for it in order.broken:
        print(f"no order: {it}", file=sys.stdout if asked.deltat else sys.stderr)
    if asked.deltat:
        print(said)
    elif not asked.out:
        sys.stdout.write(text)
    return 1 if order.broken or not well else 0


if __name__ == "__main__":
    sys.exit(main())
