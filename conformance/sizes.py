"""How much an implementation must have room for, so that a case can hold: read from the case's input and its answer.

A device has fewer segments, records and places for waiting datagrams than this project's program. If its limit is met
its log may differ, and it is right for all that; run.py leaves out the cases that would meet it."""
from __future__ import annotations

import re
from dataclasses import dataclass, field

# of a link, and of a record; what no answer shows is counted as these
MOST_WAITING = 64
HEADERS = 30
MADE = ("sent", "resent", "met", "acked", "replied")
BACK = ("acked", "replied")


@dataclass
class Sizes:
    """The most of each at one moment, at any node: the outstanding segments of a record, the datagrams that wait on a
    link, the flows of one way that have a record or unread octets; and the octets of the longest segment."""

    segments: int = 0
    queue: int = 0
    records: int = 0
    seg: int = 0


@dataclass
class Counting:
    """What the lines of an answer have counted so far. A record is named by its node and its flow."""

    links: dict[tuple[str, str], str]
    found: Sizes
    segments: dict[tuple[str, str], list[int]] = field(default_factory=dict)
    receivers: dict[tuple[str, str], list[int]] = field(default_factory=dict)
    waiting: dict[tuple[str, str], int] = field(default_factory=dict)

    def send_record(self, key: tuple[str, str], words: list[str]) -> None:
        if words[0] == "took":
            self.segments.setdefault(key, [])
        elif words[0] == "sent":
            self.segments[key].append(int(words[3]))
        elif words[0] == "settled":
            left = int(words[2])
            while left > 0:
                left -= self.segments[key].pop(0)
        elif words[0] == "uncertain":
            self.segments[key].pop(0)
        elif words == ["released", words[1], "send"]:
            del self.segments[key]
        self.found.segments = max(self.found.segments, len(self.segments.get(key, [])))
        self.found.records = max(self.found.records, of_node(self.segments, key[0]))

    def receive_record(self, key: tuple[str, str], words: list[str]) -> None:
        """A receiver has 1 where its record stands, and its unread octets."""
        it = self.receivers.get(key, [0, 0])
        if words[0] == "accepted":
            it = [1, it[1] + int(words[3])]
        elif words[0] == "read":
            it = [it[0], it[1] - len(words[3]) // 2]
        elif words == ["released", words[1], "receive"]:
            it = [0, it[1]]
        if it == [0, 0]:
            self.receivers.pop(key, None)
        else:
            self.receivers[key] = it
        self.found.records = max(self.found.records, of_node(self.receivers, key[0]))

    def relay(self, node: str, words: list[str]) -> None:
        if words[0] in MADE:
            ends = re.findall(r"([0-9]+):", words[1])
            link = self.links.get((node, ends[0] if words[0] in BACK else ends[1]))
            if link is not None:
                self.waiting[node, link] = self.waiting.get((node, link), 0) + 1
        elif words[0] == "full":
            self.found.queue = MOST_WAITING
            self.waiting[node, words[1]] -= 1
        elif words[0] == "put" or words[:2] == ["expired", "out"]:
            link = words[1] if words[0] == "put" else words[2]
            self.found.queue = max(self.found.queue, self.waiting.get((node, link), 0))
            self.waiting[node, link] = self.waiting.get((node, link), 0) - 1

    def restarted(self, node: str) -> None:
        for table in (self.segments, self.receivers, self.waiting):
            for key in [it for it in table if it[0] == node]:
                del table[key]


def of_node(table: dict[tuple[str, str], list[int]], node: str) -> int:
    return sum(it[0] == node for it in table)


def routes(given: bytes) -> dict[tuple[str, str], str]:
    """The link of each station and node that is reached from it."""
    me = re.search(rb"(?m)^me ([0-9]+)", given)
    rows = [it.decode().split() for it in re.findall(rb"(?m)^route ([0-9]+(?: [0-9]+)+)$", given)]
    node = me[1].decode() if me else ""
    return {(it[-3] if len(it) > 2 else node, it[-2]): it[-1] for it in rows}


def longest(given: bytes) -> int:
    """The octets of the longest segment: of the parameters, and of the datagrams that come."""
    params = re.search(rb"(?m)^params(?: [0-9]+){5} ([0-9]{1,10}) ", given)
    frames = re.findall(rb"(?m)^< [0-9]+ ([0-9a-f]+)$", given)
    return max([int(params[1]) if params else 0, *(len(it) // 2 - HEADERS for it in frames)])


def sizes(given: bytes, answer: bytes, relays: bool) -> Sizes:
    """The sizes of a schedule or a trace. What waits at a relay is in no line, so a case with one has the most."""
    counting = Counting(routes(given), Sizes(seg=longest(given)))
    for line in answer.decode("latin-1").splitlines():
        words = line.split(" ")
        if len(words) < 4 or not words[0].isdigit() or not words[1].isdigit():
            continue
        node, rest = words[1], words[2:]
        key = (node, rest[1])
        if rest[0] in ("took", "sent", "settled", "uncertain", "released"):
            counting.send_record(key, rest)
        if rest[0] in ("accepted", "read", "released"):
            counting.receive_record(key, rest)
        if rest[0] == "restarted":
            counting.restarted(node)
        if not relays:
            counting.relay(node, rest)
    if relays:
        counting.found.queue = MOST_WAITING
    return counting.found
