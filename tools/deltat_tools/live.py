"""Nodes that run while their tool does, over the library's Python module."""
import argparse
import contextlib
import errno
import pathlib
import re
import sys
from collections.abc import Iterator
from dataclasses import astuple
from types import ModuleType
from typing import NamedTuple

from deltat_tools import parameters as par
from deltat_tools.arguments import number


SILENCE_SAID = 1_000
"""A silence that is longer, in ms, is said on standard error."""


class End(NamedTuple):
    """A node and its address. Written `NODE@HOST:PORT`, or `NODE@PORT` on 127.0.0.1."""

    node: int
    host: str
    port: int


def end(word: str) -> End:
    found = re.fullmatch(r"(\d{1,10})@(?:([^@:]+):)?(\d{1,5})", word)
    if not found or int(found[1]) >= 2**32 or not 0 < int(found[3]) < 2**16:
        raise argparse.ArgumentTypeError(f"{word!r} isn't valid; write NODE@HOST:PORT, or NODE@PORT on 127.0.0.1")
    return End(int(found[1]), found[2] or "127.0.0.1", int(found[3]))


def add_words(it: argparse.ArgumentParser) -> None:
    """The words of a tool that runs a node."""
    it.add_argument("own", metavar="OWN", type=end, help="this node: NODE@HOST:PORT, or NODE@PORT on 127.0.0.1")
    it.add_argument("peer", metavar="PEER", type=end, help="the other one")
    it.add_argument(
        "--delay",
        type=number(0, par.DAY),
        default=50,
        help="the longest delay of the link, in ms (50): the same at both ends",
    )
    it.add_argument(
        "--round-trip",
        type=number(0, par.DAY),
        default=20,
        help="a usual round trip, in ms (20): the same at both ends",
    )
    it.add_argument(
        "--ports",
        nargs=2,
        type=number(0, 65_535, int),
        default=(10, 10),
        metavar=("OWN", "PEER"),
        help="the ports of the flow (10 10)",
    )
    it.add_argument(
        "--state",
        metavar="DIR",
        type=pathlib.Path,
        help=(
            "the node's state folder, by which it knows how long it has to be silent at first "
            "($XDG_STATE_HOME/deltat/NODE, or ~/.local/state/deltat/NODE)"
        ),
    )
    it.add_argument(
        "--again", action="store_true", help="be silent for the whole quiet time, whatever the state folder says"
    )
    it.add_argument(
        "--counters",
        metavar="PATH",
        type=pathlib.Path,
        help="a file on tmpfs into which the node counts, as /run/deltat-1.counters: tools/counters.py reads it",
    )
    it.add_argument(
        "--record",
        metavar="PATH",
        help="keep what the node takes in: `deltat retrace` writes of PATH what is in PATH.log, the node's log",
    )


def library() -> ModuleType:
    """Returns the library's package: of the system, or of the clone that this is in. Ends with 2 if there is none."""
    sys.path.append(str(pathlib.Path(__file__).resolve().parents[2] / "bindings" / "python"))
    try:
        import deltat
    except (ImportError, OSError) as why:
        print(f"{pathlib.Path(sys.argv[0]).name}: the library can't be used ({why})", file=sys.stderr)
        sys.exit(2)
    return deltat


class Live:
    """The node of a tool, its socket, and what its flow has sent."""

    def __init__(self, asked: argparse.Namespace, deltat: ModuleType) -> None:
        """As `opened`, which closes what this opens, the state folder last."""
        self.deltat = deltat
        hop = par.Hop(asked.delay, 2, 100.0)
        chosen = par.suited([[hop]], par.Wishes(asked.round_trip))
        self.params = self.deltat.Params(*astuple(chosen))
        # what a datagram waits at this machine is told and charged beside the link, so the link's charge hasn't it
        links = [self.deltat.Link(1, par.link_charge(hop, chosen) - par.SOCKET_WAIT)]
        # whoever says other delays has changed the parameters at both ends
        folder = asked.state or self.deltat.usual_folder("deltat", asked.own.node)
        self.state = self.deltat.State(folder, asked.own.node, self.params, again=asked.again, changed=True)
        try:
            given = asked.own.node, self.params, links, {asked.peer.node: 1}
            node = (
                self.deltat.Recorded(asked.record, *given, state=self.state)
                if asked.record
                else self.deltat.Node(*given, state=self.state)
            )
            where = (asked.own.host, asked.own.port), {asked.peer.node: (asked.peer.host, asked.peer.port)}
            self.udp = self.deltat.Udp(node, *where, watch=False, counters=asked.counters)
        except BaseException:
            self.state.close()
            raise
        if self.state.silence() > SILENCE_SAID:
            print(
                (
                    f"{pathlib.Path(sys.argv[0]).name}: node {asked.own.node} is silent for"
                    f" {self.state.silence() / 1000:.1f} s, since it ran before ({folder})"
                ),
                file=sys.stderr,
            )
        self.flow = self.deltat.Flow(asked.own.node, asked.ports[0], asked.peer.node, asked.ports[1])
        self.queued = self.acknowledged = self.uncertain = self.resent = 0

    @property
    def give(self) -> float:
        """How long it takes, in seconds, until what was sent is acknowledged or given up."""
        return (2 * self.params.mpl + self.params.r + self.params.a) / 1000

    @property
    def is_settled(self) -> bool:
        """Whether all that was sent is acknowledged or reported."""
        return self.acknowledged + self.uncertain == self.queued

    def listen(self) -> None:
        """Counts the reports of the flow."""
        kind = self.deltat.ReportKind
        for it in self.udp.node.reports():
            if it.flow == self.flow:
                self.queued += it.count * (it.kind is kind.SEND_QUEUED)
                self.acknowledged += it.count * (it.kind is kind.ACKNOWLEDGED)
                self.uncertain += it.count * (it.kind is kind.UNCERTAIN)
                self.resent += it.kind is kind.SEGMENT_RESENT


@contextlib.contextmanager
def opened(asked: argparse.Namespace) -> Iterator[Live]:
    """The node that was asked for, closed after its use. Raises OSError if its socket can't be bound, or its state
    folder can't be written; ValueError if its port is in use, no parameters suit such a link, or the state folder is in
    use or of another node."""
    deltat = library()
    try:
        it = Live(asked, deltat)
    except OSError as why:
        if why.errno != errno.EADDRINUSE:
            raise
        raise ValueError(f"port {asked.own.port} is in use; stop the other program, or choose another port") from why
    except (par.Unsuited, deltat.StateError) as why:
        raise ValueError(str(why)) from why
    try:
        with it.state, it.udp:
            yield it
    except deltat.StateError as why:
        raise ValueError(str(why)) from why
