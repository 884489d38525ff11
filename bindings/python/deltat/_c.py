"""The interface of libdeltat for ctypes.

Made by release/interface.py from include/deltat.h; to change it, change that."""
from __future__ import annotations

import ctypes
import enum
from typing import Any, TypeVar

DELTAT_VERSION = "0.3.0"
DELTAT_VERSION_MAJOR = 0
DELTAT_VERSION_MINOR = 3
DELTAT_VERSION_PATCH = 0
ABI_VERSION = 2
MAX_DATAGRAM = 8_222
MAX_PAYLOAD = 65_528
MAX_REPORT_LINE = 128
NEVER = 18_446_744_073_709_551_615


class Status(enum.IntEnum):
    """`enum dt_status_code`."""

    OK = 0
    NO_MEMORY = 1
    NOT_OPEN = 2
    INVALID = 3
    EXISTS = 4
    NONE = 5
    BUFFER_TOO_SMALL = 6
    FULL = 7
    QUIET = 8
    STOPPED = 9
    MALFORMED = 11
    EXPIRED = 12
    BLOCKED = 13
    MORE = 14
    LOST = 15
    TOO_MANY_CALLS = 16
    LIFE_USED_UP = 17
    GONE = 18


class Fault(enum.IntEnum):
    """`enum dt_fault`."""

    SHORT = 1
    VERSION = 2
    LENGTH = 3
    LIFETIME = 4
    PROTOCOL = 5
    KIND = 6
    FLAGS = 7
    WINDOW = 8
    SIZE = 9


class Start(enum.IntEnum):
    """`enum dt_start`."""

    FIRST = 1
    AGAIN = 2


class ReportKind(enum.IntEnum):
    """`enum dt_report_kind`."""

    SEND_QUEUED = 1
    SEND_QUIET = 2
    SEND_FULL = 3
    SEGMENT_SENT = 4
    SEGMENT_RESENT = 5
    PROBE_SENT = 6
    UNCERTAIN = 7
    RECORD_RELEASED = 8
    RECORD_RENEWED = 9
    ACK_SENT = 10
    REPLY_SENT = 11
    ACCEPTED = 12
    PACKET_DROPPED = 13
    RUN_ENDED = 14
    ACKNOWLEDGED = 15
    ACK_IGNORED = 16
    PACKET_QUIET = 17
    READ = 18
    READ_NONE = 19
    PACKET_OUT = 20
    EXPIRED_IN = 21
    EXPIRED_OUT = 22
    NO_ROUTE = 23
    LINK_FULL = 24
    PACKET_MALFORMED = 25


class PortKind(enum.IntEnum):
    """`enum dt_port_kind`."""

    CALLER = 1
    SERVICE = 2


class InvalidReason(enum.IntEnum):
    """`enum dt_invalid`."""

    FLOW = 1
    PORT = 2
    LENGTH = 3
    TIMEOUT = 4
    TOTAL = 5


class EventKind(enum.IntEnum):
    """`enum dt_event_kind`."""

    REQUEST = 1
    ANSWERED = 2
    UNSURE = 3
    REPLY_UNCERTAIN = 4


class Cause(enum.IntEnum):
    """`enum dt_cause`."""

    GIVEN_UP = 1
    TIMEOUT = 2
    STOPPED = 3


class Judgement(enum.IntEnum):
    """`enum dt_judgement`."""

    PRESENT = 32
    UNPROVED = 33
    FORMER = 34
    EARLY = 35
    OTHER_PARAMETERS = 36


class Order(enum.IntEnum):
    """`enum dt_order`."""

    DONE = 65
    NEVER = 66
    AT_WORK = 67
    NOT_NOW = 68
    OLD = 69
    STALE = 70
    FORKED = 71
    HELLO = 72
    TOLD = 73
    EXECUTE = 80
    READ = 81
    UNKNOWN = 82
    WAITS = 83
    STRANGE = 84
    UNSURE = 85
    ALARM = 86


class Flow(ctypes.Structure):
    """`struct dt_flow`."""

    _fields_ = [
        ("source", ctypes.c_uint32),
        ("target", ctypes.c_uint32),
        ("source_port", ctypes.c_uint16),
        ("target_port", ctypes.c_uint16),
    ]


class Params(ctypes.Structure):
    """The parameters of a network, equal at all nodes. dt_params_for computes them."""

    _fields_ = [
        ("size", ctypes.c_uint32),
        ("mpl", ctypes.c_uint32),
        ("r", ctypes.c_uint32),
        ("a", ctypes.c_uint32),
        ("rto", ctypes.c_uint32),
        ("probe", ctypes.c_uint32),
        ("seg", ctypes.c_uint32),
        ("cap", ctypes.c_uint32),
        ("rcap", ctypes.c_uint32),
        ("window", ctypes.c_uint32),
        ("run_limit", ctypes.c_uint32),
        ("start", ctypes.c_uint32),
    ]


class Link(ctypes.Structure):
    """A link of this node, in both directions."""

    _fields_ = [
        ("charge", ctypes.c_uint32),
        ("pace", ctypes.c_uint32),
        ("number", ctypes.c_uint16),
        ("reserved", ctypes.c_uint16),
    ]


class Route(ctypes.Structure):
    """Datagrams for node `to` leave on this link."""

    _fields_ = [
        ("to", ctypes.c_uint32),
        ("link", ctypes.c_uint16),
    ]


class NodeOptions(ctypes.Structure):
    """`struct dt_node_options`."""

    _fields_ = [
        ("size", ctypes.c_uint32),
        ("node", ctypes.c_uint32),
        ("now", ctypes.c_uint64),
        ("links", ctypes.POINTER(Link)),
        ("link_count", ctypes.c_size_t),
        ("routes", ctypes.POINTER(Route)),
        ("route_count", ctypes.c_size_t),
        ("start_as", ctypes.c_uint8),
    ]


class OpenResult(ctypes.Structure):
    """`struct dt_open_result`."""

    _fields_ = [
        ("value", ctypes.c_uint32),
        ("status", ctypes.c_uint8),
        ("field", ctypes.c_uint8),
    ]


class ReceiveResult(ctypes.Structure):
    """`struct dt_receive_result`."""

    _fields_ = [
        ("value", ctypes.c_uint32),
        ("status", ctypes.c_uint8),
        ("fault", ctypes.c_uint8),
    ]


class SendResult(ctypes.Structure):
    """`struct dt_send_result`."""

    _fields_ = [
        ("quiet_until", ctypes.c_uint64),
        ("free", ctypes.c_uint32),
        ("status", ctypes.c_uint8),
    ]


class ReadResult(ctypes.Structure):
    """`struct dt_read_result`."""

    _fields_ = [
        ("len", ctypes.c_size_t),
        ("status", ctypes.c_uint8),
        ("begin", ctypes.c_bool),
        ("end", ctypes.c_bool),
        ("gap", ctypes.c_bool),
    ]


class Message(ctypes.Structure):
    """`struct dt_message`."""

    _fields_ = [
        ("size", ctypes.c_uint32),
        ("flow", Flow),
        ("len", ctypes.c_size_t),
        ("dropped_too_long", ctypes.c_uint64),
        ("gap", ctypes.c_bool),
    ]


class Datagram(ctypes.Structure):
    """`struct dt_datagram`."""

    _fields_ = [
        ("size", ctypes.c_uint32),
        ("to", ctypes.c_uint32),
        ("len", ctypes.c_size_t),
        ("link", ctypes.c_uint16),
    ]


class Report(ctypes.Structure):
    """`struct dt_report`."""

    _fields_ = [
        ("size", ctypes.c_uint32),
        ("flow", Flow),
        ("time", ctypes.c_uint64),
        ("number", ctypes.c_uint32),
        ("count", ctypes.c_uint32),
        ("window", ctypes.c_uint32),
        ("kind", ctypes.c_uint8),
        ("begin", ctypes.c_bool),
        ("end", ctypes.c_bool),
        ("run", ctypes.c_bool),
        ("sending", ctypes.c_bool),
    ]


class BlockedCounts(ctypes.Structure):
    """`struct dt_blocked_counts`."""

    _fields_ = [
        ("closed_port", ctypes.c_uint64),
        ("too_many_flows", ctypes.c_uint64),
    ]


class NodeCounts(ctypes.Structure):
    """Since the opening, without what the guard blocked."""

    _fields_ = [
        ("size", ctypes.c_uint32),
        ("reserved", ctypes.c_uint32),
        ("datagrams_in", ctypes.c_uint64),
        ("datagrams_refused", ctypes.c_uint64),
        ("datagrams_out", ctypes.c_uint64),
        ("octets_queued", ctypes.c_uint64),
        ("octets_acknowledged", ctypes.c_uint64),
        ("octets_uncertain", ctypes.c_uint64),
        ("octets_accepted", ctypes.c_uint64),
        ("octets_read", ctypes.c_uint64),
    ]


class FlowCounts(ctypes.Structure):
    """Of one flow, since dt_node_count_flow."""

    _fields_ = [
        ("size", ctypes.c_uint32),
        ("reserved", ctypes.c_uint32),
        ("octets_queued", ctypes.c_uint64),
        ("octets_acknowledged", ctypes.c_uint64),
        ("octets_uncertain", ctypes.c_uint64),
        ("octets_accepted", ctypes.c_uint64),
        ("octets_read", ctypes.c_uint64),
    ]


class ServiceOptions(ctypes.Structure):
    """`struct dt_service_options`."""

    _fields_ = [
        ("size", ctypes.c_uint32),
        ("life", ctypes.c_uint32),
        ("max_calls", ctypes.c_uint32),
        ("max_requests", ctypes.c_uint32),
        ("max_requests_per_flow", ctypes.c_uint32),
    ]


class Token(ctypes.Structure):
    """`struct dt_token`."""

    _fields_ = [
        ("call", ctypes.c_uint64),
        ("flow", Flow),
    ]


class CallResult(ctypes.Structure):
    """`struct dt_call_result`."""

    _fields_ = [
        ("call", ctypes.c_uint64),
        ("quiet_until", ctypes.c_uint64),
        ("free", ctypes.c_uint32),
        ("status", ctypes.c_uint8),
        ("invalid", ctypes.c_uint8),
    ]


class ReplyResult(ctypes.Structure):
    """`struct dt_reply_result`."""

    _fields_ = [
        ("free", ctypes.c_uint32),
        ("status", ctypes.c_uint8),
        ("invalid", ctypes.c_uint8),
    ]


class Event(ctypes.Structure):
    """`struct dt_event`."""

    _fields_ = [
        ("size", ctypes.c_uint32),
        ("kind", ctypes.c_uint8),
        ("cause", ctypes.c_uint8),
        ("call", ctypes.c_uint64),
        ("user", ctypes.c_uint64),
        ("len", ctypes.c_size_t),
        ("flow", Flow),
    ]


class CallCounts(ctypes.Structure):
    """Messages that were dropped, by cause; each stops at 2^64 - 1."""

    _fields_ = [
        ("size", ctypes.c_uint32),
        ("reserved", ctypes.c_uint32),
        ("late_replies", ctypes.c_uint64),
        ("old_replies", ctypes.c_uint64),
        ("unknown_replies", ctypes.c_uint64),
        ("reused_requests", ctypes.c_uint64),
        ("cut", ctypes.c_uint64),
        ("too_long", ctypes.c_uint64),
        ("too_short", ctypes.c_uint64),
    ]


class Network(ctypes.Structure):
    """What is known of a network, and wanted of it."""

    _fields_ = [
        ("size", ctypes.c_uint32),
        ("hops", ctypes.c_uint32),
        ("delay_us", ctypes.c_uint64),
        ("round_trip_us", ctypes.c_uint64),
        ("drift_ppm", ctypes.c_uint32),
        ("tries", ctypes.c_uint32),
        ("mtu", ctypes.c_uint32),
        ("room", ctypes.c_uint32),
        ("wait_ms", ctypes.c_uint32),
        ("shelf", ctypes.c_uint32),
    ]


class WatchOptions(ctypes.Structure):
    """`struct dt_watch_options`."""

    _fields_ = [
        ("size", ctypes.c_uint32),
        ("fingerprint", ctypes.c_uint32),
        ("now", ctypes.c_uint64),
        ("gap", ctypes.c_uint64),
        ("most", ctypes.c_uint64),
        ("drift", ctypes.c_uint32),
        ("grain", ctypes.c_uint32),
        ("segment", ctypes.c_uint32),
        ("reserved", ctypes.c_uint32),
    ]


class Passage(ctypes.Structure):
    """The readings of a datagram."""

    _fields_ = [
        ("made", ctypes.c_uint64),
        ("sure", ctypes.c_uint64),
        ("came", ctypes.c_uint64),
    ]


class Arrival(ctypes.Structure):
    """A datagram, as its trailer describes it."""

    _fields_ = [
        ("opening", ctypes.c_uint64),
        ("sure", ctypes.c_uint64),
        ("came", ctypes.c_uint64),
        ("fingerprint", ctypes.c_uint32),
        ("is_frame", ctypes.c_uint32),
    ]


class OrdersServer(ctypes.Structure):
    """What a transaction of a server reads and writes."""

    _fields_ = [
        ("numbers", ctypes.c_uint8 * 32),
        ("row", ctypes.c_uint8 * 40),
        ("openings", ctypes.c_uint8 * 64),
        ("answer", ctypes.c_uint8 * 56),
    ]


class OrdersLane(ctypes.Structure):
    """What a client keeps."""

    _fields_ = [
        ("client", ctypes.c_uint8 * 80),
        ("lane", ctypes.c_uint8 * 104),
        ("request", ctypes.c_uint8 * 112),
    ]


class OrdersLook(ctypes.Structure):
    """What a server looks up for a request."""

    _fields_ = [
        ("kind", ctypes.c_uint32),
        ("lane", ctypes.c_uint32),
        ("since", ctypes.c_uint32),
        ("knows", ctypes.c_uint32),
    ]


# Each function: its result, and its arguments.
FUNCTIONS: dict[str, tuple[Any, list[Any]]] = {
    "dt_abi_version": (ctypes.c_uint32, []),
    "dt_node_size": (ctypes.c_size_t, []),
    "dt_node_align": (ctypes.c_size_t, []),
    "dt_node_init": (None, [ctypes.c_void_p]),
    "dt_node_new": (ctypes.c_void_p, []),
    "dt_node_free": (None, [ctypes.c_void_p]),
    "dt_node_open": (OpenResult, [ctypes.c_void_p, ctypes.POINTER(Params), ctypes.POINTER(NodeOptions)]),
    "dt_node_close": (None, [ctypes.c_void_p]),
    "dt_node_add_route": (ctypes.c_uint8, [ctypes.c_void_p, ctypes.POINTER(Route)]),
    "dt_params_quiet_ms": (ctypes.c_uint64, [ctypes.POINTER(Params)]),
    "dt_params_fingerprint": (ctypes.c_uint8, [ctypes.POINTER(Params), ctypes.POINTER(ctypes.c_uint64)]),
    "dt_node_tick": (ctypes.c_uint8, [ctypes.c_void_p, ctypes.c_uint64]),
    "dt_node_receive": (
        ReceiveResult,
        [
            ctypes.c_void_p,
            ctypes.c_uint64,
            ctypes.c_uint16,
            ctypes.c_void_p,
            ctypes.c_size_t,
            ctypes.c_uint32,
        ],
    ),
    "dt_node_send": (
        SendResult,
        [
            ctypes.c_void_p,
            ctypes.c_uint64,
            ctypes.POINTER(Flow),
            ctypes.c_void_p,
            ctypes.c_size_t,
            ctypes.c_bool,
            ctypes.c_bool,
        ],
    ),
    "dt_node_read": (
        ReadResult,
        [
            ctypes.c_void_p,
            ctypes.c_uint64,
            ctypes.POINTER(Flow),
            ctypes.c_void_p,
            ctypes.c_size_t,
        ],
    ),
    "dt_node_next_datagram": (
        ctypes.c_uint8,
        [
            ctypes.c_void_p,
            ctypes.c_void_p,
            ctypes.c_size_t,
            ctypes.POINTER(Datagram),
        ],
    ),
    "dt_node_next_report": (ctypes.c_uint8, [ctypes.c_void_p, ctypes.POINTER(Report)]),
    "dt_node_wake": (ctypes.c_uint64, [ctypes.c_void_p]),
    "dt_node_enable_messages": (ctypes.c_uint8, [ctypes.c_void_p, ctypes.c_size_t]),
    "dt_node_mark_readable": (ctypes.c_uint8, [ctypes.c_void_p, ctypes.POINTER(Flow)]),
    "dt_node_next_message": (
        ctypes.c_uint8,
        [
            ctypes.c_void_p,
            ctypes.c_uint64,
            ctypes.c_void_p,
            ctypes.c_size_t,
            ctypes.POINTER(Message),
        ],
    ),
    "dt_node_set_guard": (
        ctypes.c_uint8,
        [
            ctypes.c_void_p,
            ctypes.POINTER(ctypes.c_uint16),
            ctypes.c_size_t,
            ctypes.c_bool,
            ctypes.c_uint32,
        ],
    ),
    "dt_node_get_blocked_counts": (BlockedCounts, [ctypes.c_void_p]),
    "dt_node_set_shelf": (ctypes.c_uint8, [ctypes.c_void_p, ctypes.c_uint32, ctypes.c_uint32]),
    "dt_node_get_counts": (ctypes.c_uint8, [ctypes.c_void_p, ctypes.POINTER(NodeCounts)]),
    "dt_node_count_flow": (ctypes.c_uint8, [ctypes.c_void_p, ctypes.POINTER(Flow)]),
    "dt_node_get_flow_counts": (ctypes.c_uint8, [ctypes.c_void_p, ctypes.POINTER(Flow), ctypes.POINTER(FlowCounts)]),
    "dt_service_size": (ctypes.c_size_t, []),
    "dt_service_align": (ctypes.c_size_t, []),
    "dt_service_init": (None, [ctypes.c_void_p]),
    "dt_service_new": (ctypes.c_void_p, []),
    "dt_service_free": (None, [ctypes.c_void_p]),
    "dt_service_close": (None, [ctypes.c_void_p]),
    "dt_service_open": (
        OpenResult,
        [
            ctypes.c_void_p,
            ctypes.POINTER(Params),
            ctypes.POINTER(NodeOptions),
            ctypes.POINTER(ServiceOptions),
        ],
    ),
    "dt_service_set_port": (ctypes.c_uint8, [ctypes.c_void_p, ctypes.c_uint16, ctypes.c_uint8]),
    "dt_service_call": (
        CallResult,
        [
            ctypes.c_void_p,
            ctypes.c_uint64,
            ctypes.POINTER(Flow),
            ctypes.c_void_p,
            ctypes.c_size_t,
            ctypes.c_uint32,
            ctypes.c_uint64,
        ],
    ),
    "dt_service_reply": (
        ReplyResult,
        [
            ctypes.c_void_p,
            ctypes.c_uint64,
            ctypes.POINTER(Token),
            ctypes.c_void_p,
            ctypes.c_size_t,
        ],
    ),
    "dt_service_forget": (ctypes.c_uint8, [ctypes.c_void_p, ctypes.c_uint64, ctypes.POINTER(Token)]),
    "dt_service_next_event": (
        ctypes.c_uint8,
        [
            ctypes.c_void_p,
            ctypes.c_void_p,
            ctypes.c_size_t,
            ctypes.POINTER(Event),
        ],
    ),
    "dt_service_set_life": (ctypes.c_uint8, [ctypes.c_void_p, ctypes.c_uint32]),
    "dt_service_get_call_counts": (ctypes.c_uint8, [ctypes.c_void_p, ctypes.POINTER(CallCounts)]),
    "dt_service_stop": (ctypes.c_uint8, [ctypes.c_void_p]),
    "dt_service_tick": (ctypes.c_uint8, [ctypes.c_void_p, ctypes.c_uint64]),
    "dt_service_receive": (
        ReceiveResult,
        [
            ctypes.c_void_p,
            ctypes.c_uint64,
            ctypes.c_uint16,
            ctypes.c_void_p,
            ctypes.c_size_t,
            ctypes.c_uint32,
        ],
    ),
    "dt_service_next_datagram": (
        ctypes.c_uint8,
        [
            ctypes.c_void_p,
            ctypes.c_void_p,
            ctypes.c_size_t,
            ctypes.POINTER(Datagram),
        ],
    ),
    "dt_service_wake": (ctypes.c_uint64, [ctypes.c_void_p]),
    "dt_service_add_route": (ctypes.c_uint8, [ctypes.c_void_p, ctypes.POINTER(Route)]),
    "dt_service_set_guard": (
        ctypes.c_uint8,
        [
            ctypes.c_void_p,
            ctypes.POINTER(ctypes.c_uint16),
            ctypes.c_size_t,
            ctypes.c_bool,
            ctypes.c_uint32,
        ],
    ),
    "dt_service_set_shelf": (ctypes.c_uint8, [ctypes.c_void_p, ctypes.c_uint32, ctypes.c_uint32]),
    "dt_service_get_blocked_counts": (BlockedCounts, [ctypes.c_void_p]),
    "dt_service_get_counts": (ctypes.c_uint8, [ctypes.c_void_p, ctypes.POINTER(NodeCounts)]),
    "dt_version": (ctypes.c_char_p, []),
    "dt_status_name": (ctypes.c_char_p, [ctypes.c_uint8]),
    "dt_fault_name": (ctypes.c_char_p, [ctypes.c_uint8]),
    "dt_report_name": (ctypes.c_char_p, [ctypes.c_uint8]),
    "dt_report_line": (
        ctypes.c_size_t,
        [
            ctypes.POINTER(Report),
            ctypes.c_uint64,
            ctypes.c_uint32,
            ctypes.c_void_p,
            ctypes.c_size_t,
        ],
    ),
    "dt_params_for": (
        ctypes.c_uint8,
        [
            ctypes.POINTER(Network),
            ctypes.POINTER(Params),
            ctypes.POINTER(ctypes.c_uint32),
        ],
    ),
    "dt_watch_size": (ctypes.c_size_t, []),
    "dt_watch_align": (ctypes.c_size_t, []),
    "dt_watch_init": (None, [ctypes.c_void_p]),
    "dt_watch_open": (ctypes.c_uint8, [ctypes.c_void_p, ctypes.POINTER(WatchOptions)]),
    "dt_watch_begin": (ctypes.c_uint8, [ctypes.c_void_p, ctypes.c_bool, ctypes.c_uint64]),
    "dt_watch_hear": (ctypes.c_uint8, [ctypes.c_void_p, ctypes.c_bool, ctypes.POINTER(Passage)]),
    "dt_watch_judge": (ctypes.c_uint8, [ctypes.c_void_p, ctypes.POINTER(Arrival)]),
    "dt_watch_sure": (ctypes.c_uint64, [ctypes.c_void_p, ctypes.c_bool, ctypes.c_uint64]),
    "dt_watch_around": (ctypes.c_uint64, [ctypes.c_void_p, ctypes.c_bool, ctypes.c_uint64]),
    "dt_watch_age": (ctypes.c_uint64, [ctypes.c_void_p, ctypes.c_bool, ctypes.c_uint64, ctypes.c_uint64]),
    "dt_watch_waited_ms": (ctypes.c_uint32, [ctypes.c_uint64, ctypes.c_uint32]),
    "dt_watch_window": (ctypes.c_uint64, [ctypes.c_void_p]),
    "dt_watch_admits": (ctypes.c_uint8, [ctypes.c_void_p, ctypes.c_uint64, ctypes.c_uint64]),
    "dt_watch_grow": (ctypes.c_uint8, [ctypes.c_void_p, ctypes.c_bool]),
    "dt_watch_shrink": (ctypes.c_uint8, [ctypes.c_void_p, ctypes.c_uint32]),
    "dt_watch_aim": (ctypes.c_uint64, [ctypes.c_uint64, ctypes.c_uint64, ctypes.c_uint64]),
    "dt_watch_cut": (ctypes.c_uint32, [ctypes.c_uint64, ctypes.c_uint64, ctypes.c_uint64]),
    "dt_orders_open": (ctypes.c_uint8, [ctypes.POINTER(OrdersServer), ctypes.c_uint64]),
    "dt_orders_look_up": (ctypes.c_uint8, [ctypes.c_void_p, ctypes.c_size_t, ctypes.POINTER(OrdersLook)]),
    "dt_orders_judge": (
        ctypes.c_uint8,
        [
            ctypes.POINTER(OrdersServer),
            ctypes.c_void_p,
            ctypes.c_size_t,
            ctypes.c_bool,
        ],
    ),
    "dt_orders_executed": (
        ctypes.c_uint8,
        [
            ctypes.POINTER(OrdersServer),
            ctypes.c_void_p,
            ctypes.c_size_t,
            ctypes.c_bool,
            ctypes.c_bool,
        ],
    ),
    "dt_orders_finish": (ctypes.c_uint8, [ctypes.POINTER(OrdersServer)]),
    "dt_orders_forget": (ctypes.c_uint8, [ctypes.POINTER(OrdersServer)]),
    "dt_orders_answer": (
        ctypes.c_uint8,
        [
            ctypes.POINTER(OrdersServer),
            ctypes.c_void_p,
            ctypes.c_size_t,
            ctypes.c_uint8,
        ],
    ),
    "dt_orders_start": (ctypes.c_uint8, [ctypes.POINTER(OrdersLane), ctypes.c_uint64, ctypes.c_uint32, ctypes.c_bool]),
    "dt_orders_give": (ctypes.c_uint8, [ctypes.POINTER(OrdersLane), ctypes.c_uint64, ctypes.c_uint64]),
    "dt_orders_call": (ctypes.c_uint8, [ctypes.POINTER(OrdersLane), ctypes.c_uint64, ctypes.c_uint32]),
    "dt_orders_ask": (ctypes.c_uint8, [ctypes.POINTER(OrdersLane), ctypes.c_void_p, ctypes.c_size_t, ctypes.c_uint32]),
    "dt_orders_made": (ctypes.c_uint8, [ctypes.POINTER(OrdersLane), ctypes.c_bool]),
    "dt_orders_unsure": (ctypes.c_uint8, [ctypes.POINTER(OrdersLane)]),
    "dt_orders_hear": (ctypes.c_uint8, [ctypes.POINTER(OrdersLane), ctypes.c_void_p, ctypes.c_size_t, ctypes.c_uint64]),
    "dt_orders_word": (ctypes.c_uint8, [ctypes.c_void_p, ctypes.c_size_t]),
    "dt_orders_cancel": (ctypes.c_uint8, [ctypes.POINTER(OrdersLane)]),
    "dt_orders_adopt": (ctypes.c_uint8, [ctypes.POINTER(OrdersLane)]),
}

Struct = TypeVar("Struct", bound=ctypes.Structure)


def sized(struct: type[Struct]) -> Struct:
    """A struct of this type, all 0 but its size."""
    it = struct()
    it.size = ctypes.sizeof(struct)
    return it


def load(path: str) -> ctypes.PyDLL:
    """Loads the library. A call of it takes some microseconds and never blocks, so it keeps the interpreter's lock: no
    other thread calls the same handle meanwhile, and none forks the process. Raises OSError if the library can't be
    loaded, and ImportError if it has another interface."""
    library = ctypes.PyDLL(path)
    # (interface 1 has the function by another name)
    version = getattr(library, "dt_abi_version", None) or getattr(library, "dt_abi", None)
    if version is None:
        raise ImportError(f"{path} isn't libdeltat: it has no dt_abi_version")
    found = version()
    if found != ABI_VERSION:
        raise ImportError(
            f"{path} has interface {found}, and this package needs {ABI_VERSION}; install library and package of one "
            "release"
        )
    for name, (result, arguments) in FUNCTIONS.items():
        function = getattr(library, name)
        function.restype, function.argtypes = result, arguments
    return library
