"""Delta-t nodes for Python: messages that are delivered at most once, without a handshake.

    import deltat

    params, charge = deltat.Params.for_network(deltat.Network(delay_us=250_000, round_trip_us=50_000))
    state = deltat.State("state-2", 2, params)
    node = deltat.Node(2, params, [deltat.Link(1, charge)], {1: 1}, state=state)
    with deltat.Udp(node, ("127.0.0.1", 4002), {1: ("127.0.0.1", 4001)}) as udp:
        for message in udp:
            udp.send(message.flow.reversed(), message.octets[::-1])

A `Node` has no socket, no clock and no thread: the program passes in datagrams, messages to send and the time; it takes
out datagrams, messages that arrived and the time of the next call. A `Service` makes calls and answers them. `Udp` and
`AsyncUdp` drive either of them over a socket, `Calls` and `AsyncCalls` make calls over these.

How a node starts has no default. `Start.AGAIN`: its number may have been in use less than `Params.quiet_ms` ago; the
node is silent for that time first. `Start.FIRST`: the number never was in use. `state=` keeps that in a folder, over
the starts of a program.

A node and its socket are used by one thread at a time, and by the process that opened the node: in a forked child each
call raises `Forked`. Times, and arguments whose names end in `_ms`, are in ms; timeouts are in seconds. The logger
`deltat` has what a program should look at. docs/library.md has the words, and include/deltat.h the duties of a program.

The functions of the library are proved; this package, which calls them, and libdeltat-udp, which drives its sockets,
are tested only. The library is looked for at DELTAT_LIBRARY, if that is set, then beside this file, in lib/ of the
clone that has it, and in the system's places; libdeltat-udp at DELTAT_UDP_LIBRARY, or where the library is."""

from typing import TYPE_CHECKING

from . import _c
from ._c import ABI_VERSION, MAX_DATAGRAM, MAX_PAYLOAD, Cause, Fault, InvalidReason, PortKind, ReportKind, Start, Status
from ._library import library as _library
from .clock import now
from .errors import (
    Declined,
    DeltatError,
    Forked,
    Full,
    Gone,
    InvalidArgument,
    OutOfMemory,
    Quiet,
    StateError,
    Stopped,
    UdpError,
    Unsure,
)
from .node import AnyNode, Node
from .record import Recorded
from .service import (
    Answered,
    AsyncCalls,
    CallCounts,
    Calls,
    Event,
    ReplyUncertain,
    Request,
    Service,
    ServiceLimits,
    Token,
    UnsureCall,
)
from .state import State, fresh_number, usual_folder
from .udp import AsyncUdp, Udp
from .values import (
    BlockedCounts,
    Datagram,
    Flow,
    FlowCounts,
    Link,
    Message,
    Network,
    NodeCounts,
    Params,
    Piece,
    Report,
)
from .watch import Alarm

__all__ = [
    "ABI_VERSION",
    "MAX_DATAGRAM",
    "MAX_PAYLOAD",
    "Alarm",
    "Answered",
    "AnyNode",
    "AsyncCalls",
    "AsyncUdp",
    "BlockedCounts",
    "CallCounts",
    "Calls",
    "Cause",
    "Datagram",
    "Declined",
    "DeltatError",
    "Event",
    "Fault",
    "Flow",
    "FlowCounts",
    "Forked",
    "Full",
    "Gone",
    "InvalidArgument",
    "InvalidReason",
    "Link",
    "Message",
    "Network",
    "Node",
    "NodeCounts",
    "OutOfMemory",
    "Params",
    "Piece",
    "PortKind",
    "Quiet",
    "Recorded",
    "ReplyUncertain",
    "Report",
    "ReportKind",
    "Request",
    "Service",
    "ServiceLimits",
    "Start",
    "State",
    "StateError",
    "Status",
    "Stopped",
    "Token",
    "Udp",
    "UdpError",
    "Unsure",
    "UnsureCall",
    "fresh_number",
    "now",
    "usual_folder",
    "version",
]

__version__ = _c.DELTAT_VERSION


def version() -> str:
    """Returns the version of the library that is loaded, as "0.3.0"."""
    text: bytes = _library.dt_version()
    return text.decode()


_FORMER = {
    "BadParameter": "InvalidArgument",
    "Counts": "NodeCounts",
    "KeptOut": "BlockedCounts",
    "Kind": "ReportKind, or PortKind",
    "NoMemory": "OutOfMemory",
    "OutFrame": "Datagram",
    "Spent": "Stopped",
    "Totals": "FlowCounts",
}


# (a type checker would take any name for one of the package)
if not TYPE_CHECKING:

    def __getattr__(name: str) -> object:
        former = f"; interface {ABI_VERSION} has {_FORMER[name]} in its place" if name in _FORMER else ""
        raise AttributeError(f"module 'deltat' has no attribute {name!r}{former}")
