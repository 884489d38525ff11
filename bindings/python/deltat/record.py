"""A node that keeps what was passed in, so that its run can be repeated.

    node = deltat.Recorded("run.txt", 2, params, links, routes, start=deltat.Start.AGAIN)
    ...
    node.close()

After that `deltat retrace < run.txt` writes what run.txt.log has: every report of the node, in the log's words. So a
run on one machine can be looked at on another one, line by line.

A script of a node does its commands in the first turn of their time. So a send or a read of a node that records begins
a new millisecond, unless it follows another one: it waits for that, and takes up to 1 ms longer. Times count from the
opening of the node. What is kept is in memory until the node is closed; `retrace` reads at most 16,777,216 octets, and
what follows about as many isn't kept."""

from __future__ import annotations

import contextlib
import pathlib
import time
from collections.abc import Iterator, Mapping, Sequence
from dataclasses import dataclass
from typing import TYPE_CHECKING

from . import clock
from ._c import ReportKind, Start, Status
from .errors import DeltatError, Full, InvalidArgument, Quiet
from .node import MAX_SEND, Node
from .values import Datagram, Flow, Link, Message, Params, Piece, Report

if TYPE_CHECKING:
    from .state import State

MOST = 16_777_216
"""So many octets of a script and a trace are read, and no more."""
_MOST_EVENT = 200_000


def _letters(all_: str, *marks: bool) -> str:
    return "".join(letter for letter, mark in zip(all_, marks) if mark) or "-"


def _fault(octets: bytes) -> str:
    """Returns why octets are no Deltagram, in the words of a log (docs/formats.md)."""
    if len(octets) < 16:
        return f"short {len(octets)}"
    told, there = int.from_bytes(octets[2:4], "big"), len(octets) - 16
    if octets[0] not in (1, 2):
        return f"version {octets[0]}"
    if told != there or there > (1038 if octets[0] == 1 else 8206):
        return f"length {told} {there}"
    return "dead"


@dataclass
class _Turn:
    """The turn that is under way: its moment, whether it is the first one of it, and whether its tick is still to
    come."""

    moment: int
    is_first: bool
    is_open: bool = True


@dataclass
class _Run:
    """What is kept: lines of the script's commands, of the trace and of the log, where in the log packets were put, and
    which of these weren't sent, counted from 1."""

    commands: list[str]
    trace: list[str]
    log: list[str]
    puts: list[int]
    failed: list[int]

    def copied(self) -> _Run:
        return _Run(self.commands[:], self.trace[:], self.log[:], self.puts[:], self.failed[:])

    def finished(self, setup: list[str], stop: int) -> tuple[str, str]:
        """The script with its trace, and the log, of a run that stops at that moment."""
        failed = [number for number in self.failed if number <= len(self.puts)]
        for number in reversed(failed):
            moment, node, _, link, _ = self.log[self.puts[number - 1]].split(" ")
            self.log.insert(self.puts[number - 1] + 1, f"{moment} {node} unsent {link}")
        lines = [
            *setup,
            *self.commands,
            f"at {stop} stop",
            "trace",
            *(f"! {number}" for number in failed),
            *self.trace,
            "< -",
            f"@ {stop}",
        ]
        return "".join(f"{it}\n" for it in lines), "".join(f"{it}\n" for it in [*self.log, f"end {stop}"])


class Recorded(Node):
    """A node that keeps a script and a trace of its run, which `close` writes to `path`, and the log to `path`.log. The
    numbers of its links are at most 255."""

    _MARKS_READABLE = (ReportKind.ACCEPTED,)

    def __init__(
        self,
        path: str | pathlib.Path,
        node: int,
        params: Params,
        links: Sequence[Link],
        routes: Mapping[int, int],
        *,
        start: Start | None = None,
        state: State | None = None,
        at: int | None = None,
    ) -> None:
        """Opens the node, as a `Node`. Raises TypeError, InvalidArgument, OutOfMemory or StateError; OSError if the
        file can't be written. Times count from the start that a state has, if there is one."""
        strange = [it.number for it in links if it.number > 255]
        if strange:
            raise InvalidArgument(
                f"link is {strange[0]}; it must be at most 255 at a node that records", "link", strange[0]
            )
        self._path, self._base = pathlib.Path(path), clock.now() if at is None else at
        self._path.write_text("")
        self._run = _Run([], ["@ 0"], [], [], [])
        # the run up to where the record was full, and the moment of its stop
        self._kept: tuple[_Run, int] | None = None
        self._turn, self._event_at, self._handed, self._is_closed = _Turn(0, True), 0, 0, False
        self._begun: dict[Flow, bytearray] = {}
        self._gaps: set[Flow] = set()
        super().__init__(node, params, links, routes, start=start, state=state, at=0)
        self._setup = self._setup_of(node, params, links, routes, self.start)
        self._left = MOST - sum(len(it) + 1 for it in self._setup)

    def _begun_at(self, at: int | None) -> int:
        self._base = super()._begun_at(self._base)
        return 0

    def _note(self, state: State, time: int) -> None:
        super()._note(state, time + self._base)

    @staticmethod
    def _setup_of(
        node: int, params: Params, links: Sequence[Link], routes: Mapping[int, int], start: Start
    ) -> list[str]:
        """Returns the setup of the script. Its addresses are in the place of those of the sockets: nothing is sent
        there."""
        it = params
        lines = [
            f"params {it.mpl} {it.r} {it.a} {it.rto} {it.probe} {it.seg} {it.cap} {it.rcap} {it.window} {it.run_limit} "
            f"{it.start}"
        ]
        lines += [f"me {node} {start.name.lower()}", "local 127.0.0.1:1"]
        first = {link.number: link for link in reversed(links)}
        lines += [
            f"peer {link.number} 127.0.0.1:1 {link.charge} {link.pace}" for link in links if first[link.number] is link
        ]
        return lines + [f"route {to} {link}" for to, link in routes.items() if link in first and to != node] + ["go"]

    # --- turns

    def _moment(self, at: int | None) -> int:
        return max((clock.now() if at is None else at) - self._base, self._turn.moment)

    def _end_turn(self) -> None:
        """A turn ends with a tick."""
        if self._turn.is_open:
            self._turn.is_open = False
            self._event_at = self._turn.moment
            super().tick(self._turn.moment)

    def _begin_turn(self, moment: int, taken: str = "< -") -> None:
        self._end_turn()
        self._keep(self._run.trace, taken, f"@ {moment}")
        self._turn = _Turn(moment, moment > self._turn.moment)

    def _begin_command(self, at: int | None) -> int:
        """The moment of a send or a read: it is in the first turn of that."""
        moment = self._moment(at)
        if not (self._turn.is_open and self._turn.is_first and moment == self._turn.moment) or self._left < _MOST_EVENT:
            while moment == self._turn.moment:
                time.sleep(0.0002)
                moment = self._moment(None)
            self._fill()
            self._begin_turn(moment)
        self._event_at = moment
        return moment

    def _fill(self) -> None:
        """Between two turns: where there is no room for another one, what there is up to here is kept."""
        if self._left < _MOST_EVENT and self._kept is None:
            self._end_turn()
            self._kept = self._run.copied(), self._turn.moment + 1

    def _keep(self, where: list[str], *lines: str) -> None:
        self._left -= sum(len(it) + 1 for it in lines)
        if self._kept is None:
            where.extend(lines)

    # --- the node's calls

    def tick(self, at: int | None = None) -> None:
        moment = self._moment(at)
        due = super().wake
        is_due = due is not None and due <= moment
        if moment > self._turn.moment or (is_due and not self._turn.is_open):
            self._fill()
            self._begin_turn(moment)
        if is_due:
            self._end_turn()

    def receive(self, link: int, datagram: bytes, waited_ms: int = 0, at: int | None = None) -> Status:
        octets, moment = bytes(datagram), self._moment(at)
        self._end_turn()
        self._fill()
        self._event_at = moment
        status = super().receive(link, octets, waited_ms, moment)
        if status is Status.MALFORMED:
            self._begin_turn(moment, f"< {link} {octets[:8223].hex()}".rstrip())
            self._run.log.append(f"{moment} {self.number} bad {_fault(octets[:8223])}")
        elif status is Status.OK:
            lifetime = int.from_bytes(octets[4:8], "big") - waited_ms
            self._begin_turn(moment, f"< {link} {(octets[:4] + lifetime.to_bytes(4, 'big') + octets[8:]).hex()}")
        return status

    def send(self, flow: Flow, octets: bytes, begin: bool = True, end: bool = True, at: int | None = None) -> None:
        moment = self._begin_command(at)
        line = f"at {moment} send {flow} {_letters('be', begin, end)} {bytes(octets).hex()}"
        try:
            super().send(flow, octets, begin, end, moment)
        except (Full, Quiet) as why:
            self._keep(self._run.commands, line)
            if isinstance(why, Quiet):
                raise Quiet(why.until + self._base) from None
            raise
        self._keep(self._run.commands, line)

    def read(self, flow: Flow, at: int | None = None) -> Piece | None:
        moment, log = self._begin_command(at), self._run.log
        before = len(log)
        piece = super().read(flow, moment)
        self._keep(self._run.commands, f"at {moment} read {flow} {MAX_SEND}")
        if piece is not None:
            # the line of the read, which has no octets yet
            place = next(it for it in range(before, len(log)) if log[it].endswith(" "))
            log[place] += piece.octets.hex()
        return piece

    def messages(self, at: int | None = None) -> Iterator[Message]:
        """As those of a `Node`, of any length. They are read by pieces and joined here, since the log has each
        piece."""
        while self._unread:
            flow = next(iter(self._unread))
            piece = self.read(flow, at)
            if piece is None:
                del self._unread[flow]
            elif message := self._joined(flow, piece):
                yield message

    def _joined(self, flow: Flow, piece: Piece) -> Message | None:
        """The message that a piece makes whole. A begin mark begins anew, and behind a run mark what stood before is no
        part of any message."""
        begun = self._begun.pop(flow, None)
        if piece.gap:
            self._gaps.add(flow)
        if piece.begin:
            begun = bytearray()
        elif piece.gap or begun is None:
            return None
        begun += piece.octets
        if not piece.end:
            self._begun[flow] = begun
            return None
        gap = flow in self._gaps
        self._gaps.discard(flow)
        return Message(flow, bytes(begun), gap)

    @property
    def wake(self) -> int | None:
        it = super().wake
        return None if it is None else it + self._base

    def datagrams(self) -> Iterator[Datagram]:
        for it in super().datagrams():
            self._handed += 1
            yield it

    def not_sent(self) -> None:
        self._run.failed.append(self._handed)

    def _keep_report(self, report: Report) -> None:
        super()._keep_report(report)
        if report.kind is ReportKind.PACKET_OUT:
            self._run.puts.append(len(self._run.log))
        self._run.log.append(report.line(self._event_at, self.number))

    # --- the end

    def close(self) -> None:
        """Closes the node, and writes what was kept. Called again, or in a forked child, it does nothing."""
        if self._is_closed or self._is_inherited:
            return
        self._is_closed = True
        with contextlib.suppress(DeltatError):
            self._end_turn()
        super().close()
        run, stop = self._kept or (self._run, self._turn.moment + 1)
        text, log = run.finished(self._setup, stop)
        self._path.write_text(text)
        self._path.with_name(f"{self._path.name}.log").write_text(log)
