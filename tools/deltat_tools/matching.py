"""Which packet led to which acceptance, as the logs of a flow's two ends tell.

The octets of a flow are accepted in the order in which they were sent, so what was accepted is matched to
segments of the same number and length in their order, such that each that was acknowledged is matched, and
those that are passed over were given up. Numbers come again in later data runs. Where more than one way is
left, the one is taken in which the time between two acceptances is most like that between their packets,
and, once it is known how far apart the clocks of two nodes are, each acceptance is most soon behind its
packet. Where no way is left, one is taken that breaks as little as can be, and the lines are named at which
it does."""
from bisect import bisect_left, bisect_right
from dataclasses import dataclass
from typing import Callable

from deltat_tools.logs import Acceptance, Node, Receiving, Segment, Sending

# what a break costs, beside milliseconds
BREAK = 1e12
# how many ways are kept from one acceptance to the next, and how many segments behind are looked at
KEPT = 40
NEAR = 12


@dataclass(frozen=True)
class Way:
    """A way of matching up to an acceptance: the segment that it ends at, and the way before it."""

    cost: float
    place: int
    broken: bool
    before: "Way | None"
    matched: bool = True


class Matcher:
    """Matches the acceptances of one flow."""

    def __init__(
        self,
        sender: Node,
        receiver: Node,
        sending: Sending,
        receiving: Receiving,
        ahead: Callable[[int, int], float | None],
    ):
        """`ahead` of a life of the sender and one of the receiver: about how many ms the receiver's clock is
        ahead, with the time that a packet takes, or None where that isn't known."""
        self.sender, self.receiver, self.ahead = sender, receiver, ahead
        self.segments, self.accepted = sending.segments, receiving.accepted
        self.places: dict[tuple[int, int], list[int]] = {}
        self.settled, self.open, self.first_of_life = [0], [0], {}
        for place, it in enumerate(self.segments):
            self.places.setdefault((it.number, it.length), []).append(place)
            self.settled.append(self.settled[-1] + (it.fate == "settled"))
            self.open.append(self.open[-1] + (it.fate == "open"))
            self.first_of_life.setdefault(it.life, place)

    def moment(self, segment: Segment, leads: bool) -> int:
        """When the first packet of a segment that could be accepted was made, by its sender's clock."""
        packet = segment.packet(leads) or segment.packets[0]
        return self.sender.entries[packet.line].moment

    def passed(self, before: int, place: int) -> int:
        """How many segments between two may not be passed over."""
        if place <= before:
            return 0
        own = max(before + 1, self.first_of_life[self.segments[place].life])
        settled = self.settled[place] - self.settled[before + 1]
        return settled + max(0, self.open[place] - self.open[min(own, place)])

    def apart(self, i: int, place: int) -> int:
        """How long after its packet the acceptance i is, by the two nodes' own clocks."""
        it = self.accepted[i]
        return self.receiver.entries[it.line].moment - self.moment(self.segments[place], it.is_run)

    def unlike(self, i: int, way: Way | None, place: int) -> float:
        """How unlike the clocks of the two nodes find it that the acceptance i is of this segment."""
        it, segment = self.accepted[i], self.segments[place]
        ahead = self.ahead(segment.life, it.life)
        if ahead is not None:
            return abs(self.apart(i, place) - ahead)
        if (
            way is None
            or not way.matched
            or self.accepted[i - 1].life != it.life
            or self.segments[way.place].life != segment.life
        ):
            return 0.0
        return abs(self.apart(i, place) - self.apart(i - 1, way.place))

    def step(self, i: int, way: Way | None, place: int) -> Way:
        """The acceptance i is of this segment, behind a way."""
        before = way.place if way else -1
        it = self.accepted[i]
        wrong = self.passed(before, place)
        if way and place <= before:
            wrong += 3
        if it.is_run and self.segments[place].packet(True) is None:
            wrong += 1
        if not it.is_run and (
            way is None or not way.matched or place != before + 1 or it.life != self.accepted[i - 1].life
        ):
            wrong += 1
        cost = (way.cost if way else 0.0) + wrong * BREAK + self.unlike(i, way, place)
        return Way(cost, place, wrong > 0, way)

    def candidates(self, i: int, way: Way | None) -> list[int]:
        """The segments that the acceptance i may be of, behind a way: the next ones, those whose packets
        were made when the clocks say, and the last one that would break the order."""
        it = self.accepted[i]
        all_of = self.places.get((it.number, it.length), [])
        if way is None or len(all_of) <= 2 * NEAR:
            return all_of
        behind = bisect_right(all_of, way.place)
        wanted = self.moment(self.segments[way.place], self.accepted[i - 1].is_run)
        wanted += self.receiver.entries[it.line].moment - self.receiver.entries[self.accepted[i - 1].line].moment
        near = (
            bisect_left(all_of, wanted, key=lambda place: self.moment(self.segments[place], it.is_run))
            if self.one_life()
            else behind
        )
        return sorted(
            {*all_of[max(0, behind - 1) : behind + NEAR], *all_of[max(behind, near - 3) : max(behind, near + 3)]}
        )

    def one_life(self) -> bool:
        """Whether the sender had one life, so that its segments are in the order of their moments."""
        return len(self.first_of_life) == 1

    def last(self, way: Way) -> float:
        """What a whole way costs: with what was acknowledged behind its last segment."""
        return way.cost + BREAK * (self.settled[-1] - self.settled[way.place + 1])

    def match(self) -> tuple[list[int | None], list[int]]:
        """For each acceptance its segment, or none; and those at which it breaks."""
        ways: list[Way | None] = [None]
        for i in range(len(self.accepted)):
            found: dict[int, Way] = {}
            for way in ways:
                for place in self.candidates(i, way):
                    one = self.step(i, way, place)
                    if place not in found or one.cost < found[place].cost:
                        found[place] = one
            if not found:
                ways = [Way((it.cost if it else 0.0) + BREAK, it.place if it else -1, True, it, False) for it in ways]
            else:
                ways = sorted(found.values(), key=lambda it: (it.cost, it.place))[:KEPT if i else 10 * KEPT]
        whole = [it for it in ways if it]
        best = min(whole, key=self.last) if whole else None
        matched: list[int | None] = []
        broken: list[int] = []
        while best:
            matched.append(best.place if best.matched else None)
            if best.broken:
                broken.append(len(self.accepted) - len(matched))
            best = best.before
        return matched[::-1], broken[::-1]


def why_broken(it: Acceptance, place: int | None, before: int | None, segments: list[Segment]) -> str:
    """What is wrong with an acceptance that fits nowhere."""
    if place is None:
        return "nothing with this number and length was sent"
    if before is not None and place <= before:
        return "all that was sent with this number was accepted before, or stands before what was accepted"
    if it.is_run and segments[place].packet(True) is None:
        return "it begins a data run, and no packet with this number had the data-run flag"
    if not it.is_run and place != (before if before is not None else -1) + 1:
        return "it goes on with a run, and isn't the octets behind those that were accepted last"
    return "it passes over octets that weren't given up"
