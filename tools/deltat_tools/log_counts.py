"""The counts of a node's log, line by line or in blocks of lines, in bounded memory."""
import re
import threading
from collections import Counter
from collections.abc import Iterator
from operator import itemgetter
from typing import NamedTuple

from deltat_tools.metrics import Family

LONGEST = 200_000  # octets; a line of a node has at most 65,536 octets in hexadecimal
FLOW = re.compile(r"\d{1,10}:\d{1,5}>\d{1,10}:\d{1,5}")
NUMBER = re.compile(r"\d{1,20}")
OTHER = "other"
# A line that begins with a moment: the moment; the words before a sequence number, or a packet's life; and those after
# it, or all words.
LINE = re.compile(
    r"^(\d{1,20}+) (\d{1,20}+ (?:sent|resent|accepted|acked|replied|ignored|met|dropped|closing|shelved|noshelf|again"
    r"|stale|put) \S++)?+(?(2) \d{1,20}+(?=[ \n]|$))([^\n]*+)$",
    re.MULTILINE,
)


class Named(NamedTuple):
    """A metric: its name, what its labels are beside the node, and what it counts."""

    name: str
    labels: tuple[str, ...]
    about: str
    kind: str = "counter"


NAMED = {
    it.name: it
    for it in [
        Named("deltat_taken_octets_total", ("flow",), "Octets that were taken to be sent"),
        Named("deltat_refused_sends_total", ("flow", "reason"), "Sends that were refused: quiet or full"),
        Named("deltat_sent_segments_total", ("flow",), "Segments that went out for the first time"),
        Named("deltat_sent_octets_total", ("flow",), "Their octets"),
        Named("deltat_resent_segments_total", ("flow",), "Segments that went out again"),
        Named("deltat_resent_octets_total", ("flow",), "Their octets"),
        Named("deltat_rendezvous_total", ("flow",), "Rendezvous packets that went out"),
        Named("deltat_settled_octets_total", ("flow",), "Octets that were acknowledged"),
        Named("deltat_uncertain_octets_total", ("flow",), "Octets that were given up: they came or they didn't"),
        Named("deltat_open_octets", ("flow",), "Octets that were taken and have no fate yet", "gauge"),
        Named("deltat_window_octets", ("flow",), "The window of the last acknowledgement that was used", "gauge"),
        Named("deltat_ignored_acknowledgements_total", ("flow",), "Acknowledgements that changed nothing"),
        Named("deltat_accepted_segments_total", ("flow",), "Segments that were accepted"),
        Named("deltat_accepted_octets_total", ("flow",), "Their octets"),
        Named(
            "deltat_accepted_runs_total",
            ("flow",),
            "Segments that were accepted with a run mark: a run began, or something was passed over",
        ),
        Named(
            "deltat_acknowledgements_total",
            ("flow", "kind"),
            "Acknowledgements that went out: owed, or replies at once",
        ),
        Named("deltat_dropped_packets_total", ("flow",), "Packets that were dropped for want of a record"),
        Named("deltat_closing_packets_total", ("flow",), "Closing packets of peers"),
        Named("deltat_read_octets_total", ("flow",), "Octets that were read"),
        Named("deltat_empty_reads_total", ("flow",), "Reads that found nothing"),
        Named("deltat_released_records_total", ("flow", "record"), "Records that time released: send or receive"),
        Named("deltat_renewed_records_total", ("flow",), "Send records that began again"),
        Named("deltat_shelf_total", ("flow", "what"), "Data that came too early: shelved, noshelf, again or stale"),
        Named("deltat_put_packets_total", ("link",), "Packets that left"),
        Named("deltat_unsent_packets_total", ("link",), "Packets that the wire didn't take"),
        Named("deltat_expired_packets_total", ("link", "way"), "Packets without life left: in or out"),
        Named("deltat_full_link_packets_total", ("link",), "Packets that found a full link"),
        Named("deltat_noroute_packets_total", (), "Packets without a route"),
        Named("deltat_bad_datagrams_total", ("fault",), "Datagrams that don't read"),
        Named("deltat_quiet_packets_total", (), "Packets that met quiet time"),
        Named("deltat_restarts_total", (), "Restarts"),
        Named("deltat_life", (), "The life of the node, from its last restart", "gauge"),
        Named("deltat_moment_milliseconds", (), "The moment of the last line", "gauge"),
    ]
}
UNREAD = "deltat_unread_lines_total"

# Lines that are of one flow: how many words they have behind the report, and the counts that they raise:
# the name, the word that is added (None: one), and the words of further labels.
RAISES: dict[str, tuple[int, list[tuple[str, int | None, tuple[str, ...]]]]] = {
    "took": (2, [("deltat_taken_octets_total", 1, ()), ("deltat_open_octets", 1, ())]),
    "sent": (4, [("deltat_sent_segments_total", None, ()), ("deltat_sent_octets_total", 2, ())]),
    "resent": (4, [("deltat_resent_segments_total", None, ()), ("deltat_resent_octets_total", 2, ())]),
    "met": (2, [("deltat_rendezvous_total", None, ())]),
    "settled": (3, [("deltat_settled_octets_total", 1, ())]),
    "uncertain": (2, [("deltat_uncertain_octets_total", 1, ())]),
    "ignored": (3, [("deltat_ignored_acknowledgements_total", None, ())]),
    "accepted": (4, [("deltat_accepted_segments_total", None, ()), ("deltat_accepted_octets_total", 2, ())]),
    "acked": (3, [("deltat_acknowledgements_total", None, ("owed",))]),
    "replied": (3, [("deltat_acknowledgements_total", None, ("reply",))]),
    "dropped": (2, [("deltat_dropped_packets_total", None, ())]),
    "closing": (2, [("deltat_closing_packets_total", None, ())]),
    "nothing": (1, [("deltat_empty_reads_total", None, ())]),
    "renewed": (1, [("deltat_renewed_records_total", None, ())]),
    **{it: (2, [("deltat_shelf_total", None, (it,))]) for it in ("shelved", "noshelf", "again", "stale")},
}
FAULTS = {"short", "version", "length", "dead", "protocol", "kind", "flags", "window", "size"}


class Counts:
    """The counts of a log, line by line. Its memory is bounded by the count of flows."""

    def __init__(self, flows: int) -> None:
        self._bound = flows
        self._flows: set[str] = set()
        self._nodes: set[str] = set()
        self._values: dict[str, dict[tuple[str, ...], int]] = {name: {} for name in NAMED}
        self._unread = self._counted = self._skipped = 0
        # how many lines the one that is read stands for
        self._times = 1
        self._lock = threading.Lock()

    def lines(self, block: bytes) -> None:
        """Counts lines of a log, each with its line feed. Lines that are too long or no text are unread.

        Lines that differ only in their moment and in a sequence number are counted together, which is several times as
        fast. Not where a node restarts, since the order of the lines counts there."""
        with self._lock:
            found = [] if b" restarted " in block or not block.isascii() else LINE.findall(block.decode("ascii"))
            count, blank = block.count(b"\n"), block.count(b"\n\n") + block.startswith(b"\n")
            self._counted += count
            if len(found) == count - blank:
                self._alike(found)
            else:
                self._one_by_one(block)

    def _alike(self, found: list[tuple[str, str, str]]) -> None:
        """Counts the parts of lines: the moment, the words before a sequence number, and those after it."""
        kinds = list(map(itemgetter(1, 2), found))
        moments = dict(zip(kinds, map(itemgetter(0), found)))
        # (the kinds are taken in the order of their last lines)
        for kind, times in reversed(Counter(reversed(kinds)).items()):
            before, after = kind
            words = f"{moments[kind]} {before} 0{after}" if before else f"{moments[kind]} {after}"
            if len(words) >= LONGEST or not self._reads(words.split(" "), times):
                self._unread += times

    def _one_by_one(self, block: bytes) -> None:
        for line in block.split(b"\n")[:-1]:
            if line and (
                len(line) >= LONGEST or not line.isascii() or not self._reads(line.decode("ascii").split(" "))
            ):
                self._unread += 1

    def skip(self, lines: int) -> None:
        """Notes that so many lines weren't counted, since the reader was behind. From then on nothing is known of open
        octets."""
        if not lines:
            return
        with self._lock:
            self._skipped += lines
            self._values["deltat_open_octets"].clear()

    def unread(self) -> None:
        """Counts a line that was too long."""
        with self._lock:
            self._counted += 1
            self._unread += 1

    def _reads(self, words: list[str], times: int = 1) -> bool:
        """Counts the words of a line. No count is changed where it isn't one."""
        if words[0] in ("flow", "end", "line"):
            return len(words) > 1
        if len(words) > 1 and words[1] == "lost":
            return len(words) == 3 and NUMBER.fullmatch(words[0]) is not None
        if len(words) < 3 or not NUMBER.fullmatch(words[0]) or not NUMBER.fullmatch(words[1]):
            return False
        node, self._times = self._known(words[1], self._nodes), times
        if not (self._of_flow(node, words[2], words[3:]) or self._of_node(node, words[2], words[3:])):
            return False
        self._set("deltat_moment_milliseconds", (node,), int(words[0]))
        return True

    def _of_flow(self, node: str, report: str, words: list[str]) -> bool:
        if not words or not FLOW.fullmatch(words[0]):
            return False
        if report in RAISES:
            return self._raise_all(node, report, words)
        if report == "read" and len(words) == 3:
            self._add("deltat_read_octets_total", (node, self._flow(words[0])), len(words[2]) // 2)
        elif report == "refused" and len(words) == 3 and words[1] in ("quiet", "full"):
            self._add("deltat_refused_sends_total", (node, self._flow(words[0]), words[1]))
        elif report == "released" and len(words) == 2 and words[1] in ("send", "receive"):
            self._add("deltat_released_records_total", (node, self._flow(words[0]), words[1]))
        else:
            return False
        return True

    def _raise_all(self, node: str, report: str, words: list[str]) -> bool:
        count, raised = RAISES[report]
        numbers = {1: 1, 2: 2, 3: 3, 4: 3}[count]
        if len(words) != count or not all(NUMBER.fullmatch(it) for it in words[1:numbers]):
            return False
        flow = self._flow(words[0])
        for name, place, labels in raised:
            self._add(name, (node, flow, *labels), 1 if place is None else int(words[place]))
        if report in ("settled", "uncertain"):
            self._add("deltat_open_octets", (node, flow), -int(words[1]))
        if report == "settled":
            self._set("deltat_window_octets", (node, flow), int(words[2]))
        if report == "accepted" and words[3] == "run":
            self._add("deltat_accepted_runs_total", (node, flow))
        return True

    def _of_node(self, node: str, report: str, words: list[str]) -> bool:
        numbers = [bool(NUMBER.fullmatch(it)) for it in words]
        if report == "put" and numbers[:2] == [True, True] and int(words[0]) < 256:
            self._add("deltat_put_packets_total", (node, words[0]))
        elif report in ("unsent", "full") and numbers == [True] and int(words[0]) < 256:
            self._add(
                "deltat_unsent_packets_total" if report == "unsent" else "deltat_full_link_packets_total",
                (node, words[0]),
            )
        elif (
            report == "expired" and len(words) == 2 and words[0] in ("in", "out") and numbers[1] and int(words[1]) < 256
        ):
            self._add("deltat_expired_packets_total", (node, words[1], words[0]))
        elif report == "noroute" and numbers == [True]:
            self._add("deltat_noroute_packets_total", (node,))
        elif report == "quiet" and numbers == [True]:
            self._add("deltat_quiet_packets_total", (node,))
        elif report == "restarted" and numbers == [True]:
            self._restarted(node, int(words[0]))
        elif report == "bad" and words and words[0] in FAULTS:
            self._add("deltat_bad_datagrams_total", (node, words[0]))
        else:
            return False
        return True

    def _restarted(self, node: str, life: int) -> None:
        """What was open gets no report: it is of an earlier life."""
        self._add("deltat_restarts_total", (node,))
        self._set("deltat_life", (node,), life)
        for key in self._values["deltat_open_octets"]:
            if key[0] == node:
                self._values["deltat_open_octets"][key] = 0

    def _known(self, word: str, known: set[str]) -> str:
        if word not in known:
            if len(known) >= self._bound:
                return OTHER
            known.add(word)
        return word

    def _flow(self, word: str) -> str:
        return self._known(word, self._flows)

    def _add(self, name: str, labels: tuple[str, ...], count: int = 1) -> None:
        if self._skipped and name == "deltat_open_octets":
            return
        values = self._values[name]
        values[labels] = values.get(labels, 0) + count * self._times

    def _set(self, name: str, labels: tuple[str, ...], value: int) -> None:
        self._values[name][labels] = value

    def families(self) -> Iterator[Family]:
        """All counts, as metrics."""
        with self._lock:
            for it in NAMED.values():
                family = Family(it.name.removesuffix("_total"), it.kind, it.about)
                names = ("node", *it.labels)
                for values, count in sorted(self._values[it.name].items()):
                    family.add(count, tuple(zip(names, values)))
                yield family
            for name, about, count in (
                ("unread", "Lines that are none of a log", self._unread),
                ("counted", "Lines that were read and counted, those that are none of a log too", self._counted),
                ("skipped", "Lines that weren't counted, since more arrived than could be counted", self._skipped),
            ):
                family = Family(f"deltat_{name}_lines", "counter", about)
                family.add(count)
                yield family
