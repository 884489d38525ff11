"""Counters files of libdeltat-udp (docs/formats.md): what a driver counts while its node runs.

A file is read while it is written. The writer raises one word before a look and another after it; if both are equal
around a copy, the copy has all of one look."""
import mmap
import os
import struct
import sys
from collections.abc import Iterator
from dataclasses import dataclass
from pathlib import Path
from typing import NamedTuple

MAGIC, VERSION, WORDS = b"deltatCF", 1, 512
FIRST_COUNTER, FIRST_GAUGE, FIRST_HISTOGRAM, HISTOGRAM_WORDS = 16, 112, 128, 20
BOUNDS_US = (
    100,
    200,
    500,
    1_000,
    2_000,
    5_000,
    10_000,
    20_000,
    50_000,
    100_000,
    200_000,
    500_000,
    1_000_000,
    2_000_000,
    5_000_000,
    10_000_000,
)
BEGUN, ENDED = 5, 6
TRIES = 100
_LAYOUT = struct.Struct(f"={WORDS}Q")


class NoCounters(Exception):
    """A file isn't a counters file, or not of this version."""


class Name(NamedTuple):
    """A number of the file: the metric that it is part of, its labels, and what the metric counts."""

    metric: str
    about: str
    labels: tuple[tuple[str, str], ...] = ()


def _cause(metric: str, about: str, label: str, *values: str) -> list[Name]:
    return [Name(metric, about, ((label, it),)) for it in values]


_REFUSED_IN = "Datagrams that arrived and were dropped, by cause"
# Counters, in the order of the file.
COUNTERS: tuple[Name, ...] = (
    *_cause("system_calls", "System calls for datagrams", "what", "read", "write"),
    Name("datagrams_in", "Datagrams that were read"),
    Name("datagrams_out", "Datagrams that the system took"),
    Name("dropped_datagrams", _REFUSED_IN, (("cause", "unknown"),)),
    *_cause("unsent_datagrams", "Datagrams that didn't leave, by cause", "cause", "late_or_refused", "too_big"),
    *_cause(
        "challenges", "Strangers that were asked to prove that they hear, and that weren't", "what", "sent", "withheld"
    ),
    *_cause(
        "learnt_peers",
        "Peers that were learnt, that moved, that were forgotten",
        "what",
        "learnt",
        "moved",
        "forgotten",
    ),
    Name("clock_steps", "How often the wall clock was set"),
    *_cause("lost_messages", "Messages that arrived and weren't handed out", "cause", "out_of_memory", "too_long"),
    *_cause("dropped_datagrams", _REFUSED_IN, "cause", "without_trailer", "too_old"),
    Name("frames_of_unknown_age", "Frames that were kept until their sender said how old they are"),
    *_cause("dropped_datagrams", _REFUSED_IN, "cause", "other_parameters", "clock", "former_opening", "early_opening"),
    Name("proved_openings", "Openings of peers that were found to be the present ones"),
    *_cause("pings", "Questions how old a datagram is", "way", "in", "out"),
    Name("dropped_datagrams", _REFUSED_IN, (("cause", "with_trailer"),)),
    Name("frames_in", "Frames that the node handled"),
    Name("refused_frames", "Frames that the node refused"),
    Name("frames_out", "Frames that the node made"),
    Name("queued_octets", "Octets that were taken to be sent"),
    Name("acknowledged_octets", "Octets that reached the other node"),
    Name("uncertain_octets", "Octets that were given up: delivered once or not at all"),
    Name("accepted_octets", "Octets that arrived and could be read"),
    Name("read_octets", "Octets that were read"),
    *_cause("blocked_frames", "Frames that the guard blocked", "cause", "closed_port", "too_many_flows"),
    *_cause(
        "dropped_messages",
        "Messages of services that were dropped, by cause",
        "cause",
        "late_reply",
        "old_reply",
        "unknown_reply",
        "reused_request",
        "incomplete",
    ),
    Name("sent_segments", "Segments that left for the first time"),
    Name("sent_octets", "Their octets"),
    Name("resent_segments", "Segments that left again"),
    Name("resent_octets", "Their octets"),
    *_cause("acknowledgements", "Acknowledgements", "way", "out", "in"),
    Name("probes", "Probes of closed windows that left"),
    Name("relayed_frames", "Frames of other nodes that left"),
    Name("messages", "Messages that were taken to be sent"),
    Name("calls", "Calls that were made"),
    Name("replies", "Replies that were made"),
    Name("requests", "Requests that were handed out"),
    Name("answered_calls", "Calls that were answered"),
    *_cause("unsure_calls", "Calls that ended unsure, by cause", "cause", "given_up", "timeout", "stopped"),
    Name("uncertain_replies", "Flows of requests whose replies were given up"),
    *_cause(
        "refused_sends",
        "Messages, calls and replies that were refused, by cause",
        "cause",
        "quiet",
        "full",
        "too_many_calls",
        "life_used_up",
        "invalid",
        "gone",
        "other",
    ),
    *_cause(
        "unusable_frames",
        "Frames that were passed to the node in vain, by cause",
        "cause",
        "malformed",
        "expired",
        "blocked",
    ),
    *_cause("alarms", "Alarms of the watch", "cause", "clock", "parameters", "watch"),
    *_cause(
        "unmeasured",
        "Flows and calls of which no round trip was measured, for want of a place",
        "what",
        "flows",
        "calls",
    ),
)
GAUGES: tuple[Name, ...] = (
    Name("open_octets", "Octets that were queued and are neither acknowledged nor uncertain"),
    Name("open_calls", "Calls whose end wasn't handed out"),
    Name("waiting_octets", "Octets of calls and replies that wait until they may enter"),
    Name("peers", "Peers that have an address"),
    Name("kept_frames", "Frames that wait until their age is known"),
    Name("failed", "The status for which the driver can't continue; 0: it can"),
)
HISTOGRAMS: tuple[Name, ...] = (
    Name("round_trip_seconds", "From a segment's leaving to its acknowledgement"),
    Name("call_seconds", "From a call to its answer, as they pass the driver's interface"),
    Name("frame_age_seconds", "How old frames are at most when they arrive, by the watch"),
)


@dataclass(frozen=True)
class Reading:
    """One look at a file. `is_whole`: all numbers are of one look of the driver."""

    words: tuple[int, ...]
    is_whole: bool

    @property
    def node(self) -> int:
        return self.words[3]

    @property
    def created(self) -> int:
        """Names the file: another one has another."""
        return self.words[4]

    @property
    def openings(self) -> int:
        return self.words[7]

    @property
    def life(self) -> int:
        return self.words[8]

    @property
    def process(self) -> int:
        """0: the driver is closed."""
        return self.words[9]

    @property
    def opened_ms(self) -> int:
        return self.words[10]

    @property
    def written_ms(self) -> int:
        return self.words[11]

    @property
    def quiet_until_ms(self) -> int:
        """When the node's silence after its start ends, by the wall clock; 0: there is none, or it isn't known."""
        return self.words[12]

    def counters(self) -> Iterator[tuple[Name, int]]:
        yield from zip(COUNTERS, self.words[FIRST_COUNTER:])

    def gauges(self) -> Iterator[tuple[Name, int]]:
        yield from zip(GAUGES, self.words[FIRST_GAUGE:])

    def histogram(self, which: int) -> tuple[tuple[int, ...], int]:
        """How many were in each bucket, the last one above all bounds; and the sum, in microseconds."""
        first = FIRST_HISTOGRAM + which * HISTOGRAM_WORDS
        return self.words[first : first + len(BOUNDS_US) + 1], self.words[first + len(BOUNDS_US) + 1]


def read(path: str | Path) -> Reading:
    """Reads a file once. Raises OSError if it can't be read; NoCounters if it isn't a counters file."""
    with open(path, "rb") as file:
        if os.fstat(file.fileno()).st_size != _LAYOUT.size:
            raise NoCounters(f"{path} isn't a counters file: it hasn't {_LAYOUT.size} octets")
        with mmap.mmap(file.fileno(), _LAYOUT.size, access=mmap.ACCESS_READ) as octets:
            found = _read(octets)
    if found.words[0].to_bytes(8, sys.byteorder) != MAGIC or found.words[1] != VERSION:
        raise NoCounters(f"{path} isn't a counters file of version {VERSION}, or no driver has opened it yet")
    return found


def _read(octets: mmap.mmap) -> Reading:
    words: tuple[int, ...] = ()
    for _ in range(TRIES):
        (ended,) = struct.unpack_from("=Q", octets, 8 * ENDED)
        words = _LAYOUT.unpack(octets[:])
        (begun,) = struct.unpack_from("=Q", octets, 8 * BEGUN)
        if begun == ended == words[BEGUN]:
            return Reading(words, True)
    return Reading(words, False)
