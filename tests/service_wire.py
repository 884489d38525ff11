"""An adversary that does whatever a safe wire may do to calls between nodes, and what is checked behind each turn.

It gives any next octets, passes over what was given up or is of a former life, puts run marks at will, acknowledges and
gives up at will, also what it gives later. There are up to five flows between four nodes, of which one calls and
serves; small limits, quiet and full senders, lives counted, drawn and raised, nodes that start again or close, and
workers that reply in any order, twice, and with tokens of former lives. What nobody sees, the places of all octets, is
kept here, and by it the `Referee` holds every theorem.

In tests/all: not a test."""
import bisect
import itertools
import random
import types
from collections import Counter, defaultdict
from dataclasses import dataclass, field

import service_model
from service_model import CALLER, SERVICE, Flow, Limits, Piece, Report, Token


class Broken(Exception):
    """A theorem doesn't hold."""


def holds(is_so: bool, what: str) -> None:
    if not is_so:
        raise Broken(what)


# --- a safe wire: what it did stands here, and no node sees it


@dataclass(eq=False)
class Ghost:
    """A message, by its places. `call` is that of a request, and of a reply the one whose request it answers."""

    flow: Flow
    first: int
    behind: int
    payload: bytes
    call: "GhostCall"


@dataclass(eq=False)
class GhostCall:
    flow: Flow
    number: int
    payload: bytes
    deadline: int
    request: Ghost | None = None
    end: tuple[object, ...] | None = None
    handed: int = 0
    replies: list[bytes] = field(default_factory=list)


class Track:
    """A flow: all octets that it ever took, and what became of them."""

    def __init__(self) -> None:
        self.octets, self.given, self.doubtful = bytearray(), bytearray(), bytearray()
        self.firsts: list[int] = []
        self.ghosts: list[Ghost] = []
        # the sender: where the octets of its life begin, and where those that have no fate yet
        self.life_from = self.front = 0
        # the receiver: the least place that may still be given
        self.top = 0

    def ghost_at(self, place: int) -> Ghost:
        return self.ghosts[bisect.bisect_right(self.firsts, place) - 1]

    def may_skip(self, place: int) -> bool:
        return place < self.life_from or self.doubtful[place] == 1


class SafeStation:
    """A station in one of its lives. `arrive` and `tick` take what the wire does in that event."""

    def __init__(self, wire: "Wire", me: int, cap: int, quiet_until: int) -> None:
        self.wire, self.me, self.cap, self.quiet_until = wire, me, cap, quiet_until
        self.told: list[Report] = []
        self.rows: dict[Flow, list[tuple[int, int, bool]]] = defaultdict(list)
        self.last: dict[Flow, int] = {}
        # where the message begins that is read of each flow, and where its next octet stands
        self.reading: dict[Flow, tuple[int, int]] = {}
        self.records: set[Flow] = set()
        self.wholes: list[Ghost] = []
        self.doubts: list[Ghost] = []
        self.wake = None

    def reports(self) -> list[Report]:
        told, self.told = self.told, []
        return told

    def send(self, at: int, flow: Flow, octets: bytes) -> tuple[object, ...]:
        if at < self.quiet_until:
            return "quiet", self.quiet_until
        track = self.wire.tracks[flow]
        free = self.cap - (len(track.octets) - track.front)
        if len(octets) > free:
            return "full", free
        track.firsts.append(len(track.octets))
        track.octets += octets
        track.given += bytes(len(octets))
        track.doubtful += bytes(len(octets))
        self.told.append(Report("took", flow, len(octets)))
        return ("taken",)

    def arrive(self, at: int, came: object) -> None:
        for act in came:
            getattr(self, act[0])(*act[1:])

    def tick(self, at: int) -> None:
        pass

    def give(self, flow: Flow, first: int, behind: int, run: bool) -> None:
        track = self.wire.tracks[flow]
        track.given[first:behind] = b"\1" * (behind - first)
        track.top = behind
        self.last[flow] = behind
        self.records.add(flow)
        self.rows[flow].append((first, behind, run))
        self.told.append(Report("accepted", flow, behind - first))

    def settle(self, flow: Flow, count: int) -> None:
        self.wire.tracks[flow].front += count
        self.told.append(Report("settled", flow, count))

    def doubt(self, flow: Flow, count: int) -> None:
        track = self.wire.tracks[flow]
        for place in range(track.front, track.front + count):
            track.doubtful[place] = 1
            self.doubts.append(track.ghost_at(place))
        track.front += count
        self.told.append(Report("uncertain", flow, count))

    def release(self, flow: Flow) -> None:
        self.records.discard(flow)
        self.last.pop(flow, None)
        self.told.append(Report("released", flow))

    def read(self, at: int, flow: Flow) -> Piece | None:
        """The next octets of one message, up to the next run mark."""
        rows, track = self.rows[flow], self.wire.tracks[flow]
        if not rows:
            return None
        first, behind, run = rows.pop(0)
        while rows and rows[0][0] == behind and not rows[0][2]:
            behind = rows.pop(0)[1]
        ghost = track.ghost_at(first)
        if behind > ghost.behind:
            rows.insert(0, (ghost.behind, behind, False))
            behind = ghost.behind
        self._look(flow, ghost, first, behind, run)
        return Piece(bytes(track.octets[first:behind]), first == ghost.first, behind == ghost.behind, run)

    def _look(self, flow: Flow, ghost: Ghost, first: int, behind: int, run: bool) -> None:
        """Whether a message is whole with this, by the places."""
        begun, following = self.reading.pop(flow, (-1, -1))
        if first == ghost.first:
            begun = first
        elif run or following != first or begun != ghost.first:
            return
        if behind == ghost.behind:
            self.wholes.append(ghost)
        else:
            self.reading[flow] = begun, behind

    def end_turn(self) -> None:
        """What was begun goes with the receiver, which has a record or unread octets."""
        for flow in [it for it in self.reading if it not in self.records and not self.rows[it]]:
            del self.reading[flow]

    def is_unread(self, flow: Flow) -> bool:
        return bool(self.rows[flow])


class Wire:
    def __init__(self) -> None:
        self.tracks: dict[Flow, Track] = defaultdict(Track)


# --- what is checked


class Referee:
    """Checks each turn. It keeps all calls, requests and replies of a run, over all lives."""

    def __init__(self, wire: Wire) -> None:
        self.wire = wire
        self.calls: dict[tuple[int, int, int], GhostCall] = {}
        self.last_handed: dict[Flow, int] = {}
        self.done: Counter[Token] = Counter()
        self.totals: Counter[str] = Counter()

    def posted(self, flow: Flow, payload: bytes, call: GhostCall) -> Ghost:
        """A message was taken: it stands last on its flow."""
        track = self.wire.tracks[flow]
        ghost = Ghost(flow, track.firsts[-1], len(track.octets), payload, call)
        track.ghosts.append(ghost)
        return ghost

    def handed_out(self, host: "Host", token: Token, payload: bytes, ghost: Ghost) -> None:
        call = ghost.call
        holds(ghost.flow == token.flow and call.request is ghost, "it is the call's: a request that no call made")
        holds((call.payload, call.flow) == (payload, token.flow), "it is the call's: another payload")
        call.handed += 1
        holds(call.handed == 1, "handed out once")
        holds(self.last_handed.get(token.flow, -1) < ghost.first, "in order")
        self.last_handed[token.flow] = ghost.first
        host.open[token] = call
        host.worker.append((token, call))

    def answered(self, host: "Host", number: int, answer: bytes, ghost: Ghost) -> None:
        call = host.waits.get(number)
        holds(call is not None, "ends once: a call that doesn't wait is answered")
        holds(ghost.call is call, "its own answer: that of another call")
        holds(
            (call.handed, call.replies) == (1, [answer]), "its own answer: one request, and one reply that carried it"
        )
        self.ended(host, number, ("answered", answer))

    def ended(self, host: "Host", number: int, end: tuple[object, ...]) -> None:
        call = host.waits.pop(number)
        holds(call.end is None, "ends once")
        call.end = end
        self.totals[str(end[0] if end[0] == "answered" else end[1])] += 1

    def unsure(self, host: "Host", number: int, cause: str, answers: set[GhostCall], doubts: set[GhostCall]) -> None:
        call = host.waits.get(number)
        holds(call is not None, "ends once: a call that doesn't wait is unsure")
        holds(call not in answers, "unsure exactly: its answer came whole in this turn")
        if cause == "given up":
            holds(call in doubts, "unsure exactly: given up, and no octet of it is")
        if cause == "patience":
            holds(call not in doubts and call.deadline <= host.node.now, "unsure exactly: patience, and it isn't over")
        self.ended(host, number, ("unsure", cause))

    def turn(self, host: "Host", is_closed: bool = False) -> None:
        """Checks what a turn told against what it read and gave up."""
        station, node = host.station, host.node
        wholes, station.wholes = station.wholes, []
        given_up, station.doubts = station.doubts, []
        doubts = {it.call for it in given_up if it.call.request is it}
        lost = {it.call.flow for it in given_up if it.call.request is not it}
        holds(
            is_closed or all(node.queue.count(("doubtful", it)) == 1 for it in lost),
            "doubtful exactly: a reply was given up",
        )
        requests = [it for it in wholes if node.kinds[it.flow.target_port] == SERVICE]
        replies = [it for it in wholes if node.kinds[it.flow.target_port] == CALLER]
        answers = {it.call for it in replies if it.call.number in host.waits and host.waits[it.call.number] is it.call}
        came = {(it.call.number, it.payload): it for it in replies}
        for what, *words in node.told:
            if what == "request":
                while requests and requests[0].flow == words[0].flow and requests[0].payload != words[1]:
                    requests.pop(0)
                holds(bool(requests), "it is the call's: a request, and no message came whole")
                self.handed_out(host, words[0], words[1], requests.pop(0))
                self.totals["handed out"] += 1
            elif what == "doubtful":
                holds(
                    words[0] in lost and node.queue.count(("doubtful", words[0])) == 1,
                    "doubtful exactly: no reply was given up, or it is told twice",
                )
                self.totals["doubtful"] += 1
            elif what == "answered":
                holds((words[0], words[1]) in came, "its own answer: no such reply came whole")
                self.answered(host, words[0], words[1], came[words[0], words[1]])
            else:
                self.unsure(host, words[0], words[1], answers, doubts)
        station.end_turn()
        if not is_closed:
            self.rest(host, doubts, answers)

    def rest(self, host: "Host", doubts: set[GhostCall], answers: set[GhostCall]) -> None:
        """What stands behind a turn."""
        node, station = host.node, host.station
        waits = host.waits
        holds(node.waiting.keys() == waits.keys(), "ends once: who waits")
        holds(all(it.deadline > node.now for it in waits.values()), "ends once: a deadline has passed")
        holds(
            not any(it in doubts or it in answers for it in waits.values()),
            "unsure exactly: one waits that has a cause",
        )
        if node.counts["reused"] > host.reused:
            host.reused = node.counts["reused"]
            host.open = {it: host.open[it] for it in node.open}
        holds(node.open.keys() == host.open.keys(), "one reply a token: what is open")
        limits = node.limits
        holds(len(node.waiting) <= limits.most_waiting and len(node.open) <= limits.most_open, "bounded")
        each = Counter(it.flow for it in node.open)
        untaken = sum(it[0] == "request" for it in node.queue)
        holds(untaken <= limits.most_open and all(it <= limits.most_each for it in each.values()), "bounded: requests")
        for flow in station.rows:
            if station.is_unread(flow):
                has_room = max(len(node.open), untaken) < limits.most_open and each[flow] < limits.most_each
                holds(node.kinds[flow.target_port] == SERVICE and not has_room, "at rest")
        for flow, posted in node.posted.items():
            track = self.wire.tracks[flow]
            is_right = sum(it.left for it in posted) == len(track.octets) - track.front and all(
                it.left for it in posted
            )
            holds(is_right, "unsure exactly: posted is what is held")
        holds(all(it in station.records or station.rows[it] for it in node.begun), "bounded: begun without a receiver")


# --- a run


class Host:
    """A node in one of its lives, and the worker of its service, which lives on."""

    def __init__(self, run: "Run", me: int, is_again: bool) -> None:
        chance = run.chance
        self.worker: list[tuple[Token, GhostCall]] = []
        quiet = run.at + (chance.choice([0, 5, 40]) if is_again else 0)
        self.station = SafeStation(run.wire, me, run.cap, quiet)
        self.life = run.life_of(me)
        self.number = 0
        self.node = run.model.Node(me, self.life, self.station, run.limits, run.at)
        self.node.port(10, CALLER)
        self.node.port(11, CALLER)
        self.node.port(20, SERVICE)
        self.waits: dict[int, GhostCall] = {}
        self.open: dict[Token, GhostCall] = {}
        self.reused = 0


FLOWS = [Flow(1, 10, 2, 20), Flow(1, 11, 2, 20), Flow(1, 10, 3, 20), Flow(3, 10, 2, 20), Flow(4, 10, 3, 20)]
NODES = (1, 2, 3, 4)


class Run:
    """A random run."""

    def __init__(self, seed: int, model: types.ModuleType = service_model, has_lives_twice: bool = False) -> None:
        self.chance, self.model, self.has_lives_twice = random.Random(seed), model, has_lives_twice
        chance = self.chance
        self.at = chance.choice([0, 1000])
        self.wire = Wire()
        self.referee = Referee(self.wire)
        self.flows = FLOWS[: chance.randint(1, len(FLOWS))]
        self.cap = chance.choice([24, 60, 4096])
        small = chance.random() < 0.4
        self.limits = Limits(*([chance.randint(1, 3) for _ in range(3)] if small else [50, 50, 50]))
        self.is_drawn = chance.random() < 0.3
        self.lives = {me: itertools.count(1) for me in NODES}
        self.used: set[tuple[int, int]] = set()
        self.hosts = {me: Host(self, me, False) for me in NODES}
        self.words = itertools.count()

    def life_of(self, me: int) -> int:
        """A life that this node number never had; where lives are used twice, often the last one."""
        if self.has_lives_twice:
            return self.chance.choice([1, 1, 2])
        while True:
            life = (
                self.chance.choice([self.chance.randrange(1 << 32), 0xFFFF_FFFF, 0])
                if self.is_drawn
                else next(self.lives[me])
            )
            if (me, life) not in self.used:
                self.used.add((me, life))
                return life

    # what the wire may do

    def give(self, flow: Flow) -> list[tuple[object, ...]]:
        track, station = self.wire.tracks[flow], self.hosts[flow.target].station
        if self.at < station.quiet_until:
            return []
        first, chance = track.top, self.chance
        skips = chance.random() < 0.4
        while skips and first < len(track.octets) and track.may_skip(first) and chance.random() < 0.9:
            first += 1
        if first >= len(track.octets):
            return []
        ghost = track.ghost_at(first)
        behind = (
            ghost.behind if chance.random() < 0.5 else chance.randint(first + 1, min(len(track.octets), first + 30))
        )
        run = station.last.get(flow) != first or chance.random() < 0.05
        return [("give", flow, first, behind, run)]

    def fate(self, flow: Flow) -> list[tuple[object, ...]]:
        """Octets are settled, where they were given, or given up."""
        track, chance = self.wire.tracks[flow], self.chance
        held = len(track.octets) - track.front
        if not held:
            return []
        count = chance.randint(1, held)
        if chance.random() < 0.5:
            return [("doubt", flow, count)]
        end = track.given.find(0, track.front, track.front + count)
        count = count if end < 0 else end - track.front
        return [("settle", flow, count)] if count else []

    def acts(self, me: int) -> list[tuple[object, ...]]:
        """What happens to a node in one event: what comes, and what is due."""
        acts: list[tuple[object, ...]] = []
        tracks, both = self.wire.tracks, [it for flow in self.flows for it in (flow, flow.reversed())]
        into = [it for it in both if it.target == me and len(tracks[it].octets) > tracks[it].top]
        out = [it for it in both if it.source == me and len(tracks[it].octets) > tracks[it].front]
        chance = self.chance
        if out and chance.random() < 0.3:
            acts += self.fate(chance.choice(out))
        if into and chance.random() < 0.8:
            flow = chance.choice(into)
            acts += self.give(flow)
        held = sorted(self.hosts[me].station.records)
        if held and chance.random() < 0.02:
            acts.insert(0, ("release", chance.choice(held)))
        return acts

    # what nodes and programs do

    def event(self) -> None:
        chance = self.chance
        what = chance.random()
        if chance.random() < 0.3:
            self.at += chance.choice([1, 3, 20, 300]) if chance.random() < 0.98 else 10_000
        if what < 0.14:
            self.call(chance.choice(self.flows))
        elif what < 0.68:
            self.arrive(chance.choice(NODES))
        elif what < 0.84:
            self.reply(chance.choice((2, 3)))
        elif what < 0.92:
            self.tick(chance.choice(NODES))
        elif what < 0.935:
            self.restart(chance.choice(NODES), is_closed=chance.random() < 0.3)
        elif what < 0.945:
            self.forget(chance.choice((2, 3)))
        elif what < 0.955:
            self.raise_life(chance.choice(NODES))
        if chance.random() < 0.7:
            self.hosts[chance.choice(NODES)].node.queue.clear()

    def call(self, flow: Flow) -> None:
        host, chance = self.hosts[flow.source], self.chance
        node, track = host.node, self.wire.tracks[flow]
        payload = b"%d" % next(self.words) + bytes(chance.choice([0, 0, 3, 12]))
        patience = (
            chance.choice([0, 1, 60, 5000, 50_000, 50_000, 50_000, (1 << 32) - 1])
            if chance.random() < 0.98
            else 1 << 32
        )
        before = len(track.octets)
        # the referee has to know it before its turn ends
        call = GhostCall(flow, self.model.number_of(host.life, host.number), payload, max(self.at, node.now) + patience)
        send = host.station.send

        def sent(at: int, flow: Flow, octets: bytes) -> tuple[object, ...]:
            answer = send(at, flow, octets)
            if answer[0] == "taken":
                call.request = self.referee.posted(flow, payload, call)
                host.waits[call.number] = call
            return answer

        host.station.send = sent
        status = node.call(self.at, flow, payload, patience)
        del host.station.send
        self.referee.totals[" ".join(str(it) for it in status[:2] if not isinstance(it, int))] += 1
        if status[0] == "made":
            holds(len(track.octets) == before + 8 + len(payload), "a call that was made is one message")
            holds(status[1] == call.number, "a call that is declined uses up no number")
            host.number += 1
        else:
            holds(len(track.octets) == before and call.request is None, "declined is nothing")
        if status[0] == "made" or status[1:2] in (("quiet",), ("full",)):
            self.referee.turn(host)

    def reply(self, me: int) -> None:
        host, chance = self.hosts[me], self.chance
        if not host.worker:
            return
        still = [it for it in host.worker if it[0] in host.open]
        token, call = chance.choice(still if still and chance.random() < 0.7 else host.worker)
        payload = b"%d for " % next(self.words) + call.payload[:8]
        is_open = host.open.get(token)
        send = host.station.send

        def sent(at: int, flow: Flow, octets: bytes) -> tuple[object, ...]:
            answer = send(at, flow, octets)
            if answer[0] == "taken":
                holds(is_open is call, "one reply a token: it answers another request")
                self.referee.posted(flow, payload, call)
                call.replies.append(payload)
                self.referee.done[token] += 1
                holds(len(call.replies) == 1, "one reply a token")
                host.open.pop(token, None)
            return answer

        host.station.send = sent
        status = host.node.reply(self.at, token, payload)
        del host.station.send
        holds(status[0] != "quiet", "one reply a token: quiet")
        is_refused = 8 + len(payload) > self.cap
        holds(
            (status[0] == "gone") == (is_open is None and not is_refused),
            "one reply a token: gone exactly where it isn't open",
        )
        holds((status[0] == "refused") == is_refused, "a reply is refused exactly where it is longer than the room")
        self.referee.totals[f"reply {status[0]}"] += 1
        if status[0] in ("done", "full"):
            self.referee.turn(host)

    def arrive(self, me: int) -> None:
        acts = self.acts(me)
        if acts:
            self.hosts[me].node.arrive(self.at, acts)
            self.referee.turn(self.hosts[me])

    def tick(self, me: int) -> None:
        host = self.hosts[me]
        wake, is_open = host.node.wake, any(host.station.is_unread(it) for it in host.station.rows)
        host.node.tick(self.at)
        if not is_open and (wake is None or self.at < wake):
            holds(not host.node.told, "at rest: a tick before the wake does something")
        self.referee.turn(host)

    def forget(self, me: int) -> None:
        host = self.hosts[me]
        if host.worker:
            token, _ = self.chance.choice(host.worker)
            is_open = host.open.pop(token, None) is not None
            status = host.node.forget(self.at, token)
            holds((status[0] == "done") == is_open, "forgotten exactly where it is open")
            if is_open:
                self.referee.turn(host)

    def raise_life(self, me: int) -> None:
        host, life = self.hosts[me], self.life_of(me)
        if host.node.raise_life(life)[0] == "done":
            host.life, host.number = life, 0

    def restart(self, me: int, is_closed: bool) -> None:
        """The node goes, with all that it has; its worker keeps its tokens."""
        host = self.hosts[me]
        if is_closed:
            host.node.close(self.at)
            self.referee.turn(host, is_closed=True)
            holds(not host.waits, "ends once: closed, and one waits")
        self.referee.totals["forgotten"] += len(host.waits)
        self.referee.totals["restarts"] += 1
        for flow, track in self.wire.tracks.items():
            if flow.source == me:
                track.life_from = track.front = len(track.octets)
        for name in ("late", "old", "cut", "strange", "reused"):
            self.referee.totals[name] += host.node.counts[name]
        self.hosts[me] = Host(self, me, True)
        self.hosts[me].worker = host.worker[-20:]

    def go(self) -> None:
        for _ in range(self.chance.choice([20, 60, 150])):
            self.event()
        for host in self.hosts.values():
            for name in ("late", "old", "cut", "strange", "reused"):
                self.referee.totals[name] += host.node.counts[name]
        if not self.has_lives_twice:
            totals = self.referee.totals
            holds(totals["strange"] + totals["reused"] == 0, "strange and reused stay 0 where lives differ")
