"""The interface of libdeltat-udp for ctypes.

Made by release/interface.py from include/deltat_udp.h; to change it, change that."""
from __future__ import annotations

import ctypes
import enum
from typing import Any

from . import _c

ABI_VERSION = 1
TRAILER = 34
MAX_HEARD = 64


class Role(enum.IntEnum):
    """`enum dt_udp_role`."""

    NODE = 1
    SERVICE = 2


class Start(enum.IntEnum):
    """`enum dt_udp_start`."""

    BY_STATE = 0
    FIRST = 1
    AGAIN = 2


class Flag(enum.IntEnum):
    """`enum dt_udp_flag`."""

    WITHOUT_SEGMENTS = 1
    WITHOUT_BATCHES = 2
    WITHOUT_STAMPS = 4
    ALL_PORTS = 8
    WITHOUT_WATCH = 32
    PARAMS_CHANGED = 16


class EventKind(enum.IntEnum):
    """`enum dt_udp_event_kind`."""

    NONE = 0
    MESSAGE = 1
    REQUEST = 2
    ANSWERED = 3
    UNSURE = 4
    REPORT = 5
    TOO_BIG = 6
    OBJECT = 7
    PUT_ENDED = 8
    FAILED = 9
    REPLY_UNCERTAIN = 10
    ALARM = 11
    ROOM = 12


class Alarm(enum.IntEnum):
    """`enum dt_udp_alarm`."""

    CLOCK = 1
    PARAMETERS = 2
    WATCH = 3


class Options(ctypes.Structure):
    """Zero the struct, and set `size` and what you need. A zero means the value in brackets."""

    _fields_ = [
        ("size", ctypes.c_uint32),
        ("node", ctypes.c_uint32),
        ("host", ctypes.c_char_p),
        ("port", ctypes.c_char_p),
        ("params", ctypes.POINTER(_c.Params)),
        ("charge", ctypes.c_uint32),
        ("pace", ctypes.c_uint32),
        ("link", ctypes.c_uint16),
        ("role", ctypes.c_uint8),
        ("start_as", ctypes.c_uint8),
        ("life", ctypes.c_uint32),
        ("state", ctypes.c_char_p),
        ("max_calls", ctypes.c_uint32),
        ("max_requests", ctypes.c_uint32),
        ("max_requests_per_flow", ctypes.c_uint32),
        ("max_message", ctypes.c_uint32),
        ("max_queued", ctypes.c_uint32),
        ("max_flows", ctypes.c_uint32),
        ("max_peers", ctypes.c_uint32),
        ("report_kinds", ctypes.c_uint32),
        ("flags", ctypes.c_uint32),
        ("max_waiting", ctypes.c_uint32),
        ("counters", ctypes.c_char_p),
    ]


class Error(ctypes.Structure):
    """Why dt_udp_open or dt_udp_set_peer failed."""

    _fields_ = [
        ("text", ctypes.c_char * 240),
        ("system_error", ctypes.c_int),
        ("status", ctypes.c_uint8),
        ("field", ctypes.c_uint8),
    ]


class Event(ctypes.Structure):
    """Belongs to the driver, and stays as it is until the next call of dt_udp_next_event or dt_udp_close."""

    _fields_ = [
        ("octets", ctypes.c_void_p),
        ("len", ctypes.c_size_t),
        ("call", ctypes.c_uint64),
        ("object", ctypes.c_uint64),
        ("token", _c.Token),
        ("flow", _c.Flow),
        ("peer", ctypes.c_uint32),
        ("system_error", ctypes.c_int32),
        ("kind", ctypes.c_uint8),
        ("cause", ctypes.c_uint8),
        ("gap", ctypes.c_bool),
        ("report", ctypes.POINTER(_c.Report)),
        ("user", ctypes.c_uint64),
    ]


class Counts(ctypes.Structure):
    """Counters begin at 0 when the driver is opened."""

    _fields_ = [
        ("reads", ctypes.c_uint64),
        ("writes", ctypes.c_uint64),
        ("datagrams_in", ctypes.c_uint64),
        ("datagrams_out", ctypes.c_uint64),
        ("unknown", ctypes.c_uint64),
        ("not_sent", ctypes.c_uint64),
        ("too_big", ctypes.c_uint64),
        ("challenges_out", ctypes.c_uint64),
        ("challenges_withheld", ctypes.c_uint64),
        ("peers_learnt", ctypes.c_uint64),
        ("peers_moved", ctypes.c_uint64),
        ("peers_forgotten", ctypes.c_uint64),
        ("clock_steps", ctypes.c_uint64),
        ("messages_lost", ctypes.c_uint64),
        ("messages_too_long", ctypes.c_uint64),
        ("without_trailer", ctypes.c_uint64),
        ("too_old", ctypes.c_uint64),
        ("ages_unknown", ctypes.c_uint64),
        ("other_parameters", ctypes.c_uint64),
        ("clock_alarms", ctypes.c_uint64),
        ("former_openings", ctypes.c_uint64),
        ("early_openings", ctypes.c_uint64),
        ("openings_proved", ctypes.c_uint64),
        ("pings_in", ctypes.c_uint64),
        ("pings_out", ctypes.c_uint64),
        ("with_trailer", ctypes.c_uint64),
    ]


class CallOptions(ctypes.Structure):
    """Of a call. Zero the struct, and set `size` and what you need."""

    _fields_ = [
        ("size", ctypes.c_uint32),
        ("timeout_ms", ctypes.c_uint32),
        ("flow", _c.Flow),
        ("user", ctypes.c_uint64),
    ]


class PutResult(ctypes.Structure):
    """`struct dt_udp_put_result`."""

    _fields_ = [
        ("object", ctypes.c_uint64),
        ("status", ctypes.c_uint8),
    ]


KeeperExtend = ctypes.CFUNCTYPE(ctypes.c_bool, ctypes.c_void_p, ctypes.c_uint64)


class Keeper(ctypes.Structure):
    """`struct dt_udp_keeper`."""

    _fields_ = [
        ("since", ctypes.c_uint64),
        ("until", ctypes.c_uint64),
        ("noted", ctypes.c_uint64),
        ("extend", KeeperExtend),
        ("user", ctypes.c_void_p),
    ]


class StateOptions(ctypes.Structure):
    """Zero the struct, and set `size` and what you need."""

    _fields_ = [
        ("size", ctypes.c_uint32),
        ("node", ctypes.c_uint32),
        ("params", ctypes.POINTER(_c.Params)),
        ("folder", ctypes.c_char_p),
        ("boot", ctypes.c_char_p),
        ("clock_ahead", ctypes.c_int64),
        ("start_as", ctypes.c_uint8),
        ("params_changed", ctypes.c_bool),
    ]


class StateStart(ctypes.Structure):
    """How the node starts, as its folder says."""

    _fields_ = [
        ("why", ctypes.c_char_p),
        ("warning", ctypes.c_char * 64),
        ("life", ctypes.c_uint32),
        ("start", ctypes.c_uint8),
    ]


class Datagram(ctypes.Structure):
    """A datagram that arrived."""

    _fields_ = [
        ("octets", ctypes.c_void_p),
        ("len", ctypes.c_size_t),
        ("now", ctypes.c_uint64),
        ("waited_ms", ctypes.c_uint32),
        ("link", ctypes.c_uint16),
    ]


HooksReceive = ctypes.CFUNCTYPE(ctypes.c_uint8, ctypes.c_void_p, ctypes.POINTER(Datagram))
HooksTick = ctypes.CFUNCTYPE(ctypes.c_uint8, ctypes.c_void_p, ctypes.c_uint64)
HooksWake = ctypes.CFUNCTYPE(ctypes.c_uint64, ctypes.c_void_p)
HooksNextDatagram = ctypes.CFUNCTYPE(ctypes.c_uint8, ctypes.c_void_p, ctypes.c_void_p, ctypes.POINTER(_c.Datagram))
HooksNotSent = ctypes.CFUNCTYPE(None, ctypes.c_void_p)


class Hooks(ctypes.Structure):
    """`struct dt_udp_hooks`."""

    _fields_ = [
        ("receive", HooksReceive),
        ("tick", HooksTick),
        ("wake", HooksWake),
        ("next_datagram", HooksNextDatagram),
        ("not_sent", HooksNotSent),
        ("user", ctypes.c_void_p),
    ]


class Driven(ctypes.Structure):
    """Zero the struct, and set `size` and what there is. All of it is the program's, until dt_udp_close."""

    _fields_ = [
        ("size", ctypes.c_uint32),
        ("node", ctypes.c_void_p),
        ("service", ctypes.c_void_p),
        ("keeper", ctypes.POINTER(Keeper)),
        ("links", ctypes.POINTER(_c.Link)),
        ("link_count", ctypes.c_size_t),
        ("hooks", ctypes.POINTER(Hooks)),
    ]


class Item(ctypes.Structure):
    """One event of a batch. It has no pointer, so that a binding reads many at once."""

    _fields_ = [
        ("call", ctypes.c_uint64),
        ("at", ctypes.c_uint32),
        ("len", ctypes.c_uint32),
        ("flow", _c.Flow),
        ("kind", ctypes.c_uint8),
        ("cause", ctypes.c_uint8),
        ("user", ctypes.c_uint64),
    ]


class BatchCall(ctypes.Structure):
    """A call of a batch. Its octets are behind those of the call before."""

    _fields_ = [
        ("flow", _c.Flow),
        ("timeout_ms", ctypes.c_uint32),
        ("len", ctypes.c_uint32),
        ("user", ctypes.c_uint64),
    ]


class Batch(ctypes.Structure):
    """Zero the struct, and set the first four."""

    _fields_ = [
        ("items", ctypes.POINTER(Item)),
        ("octets", ctypes.c_void_p),
        ("max_items", ctypes.c_uint32),
        ("size", ctypes.c_uint32),
        ("count", ctypes.c_uint32),
        ("used", ctypes.c_uint32),
        ("heard", ctypes.POINTER(ctypes.c_uint32)),
        ("heard_count", ctypes.c_uint32),
        ("blocked", ctypes.c_bool),
        ("alarm", ctypes.c_uint8),
        ("alarm_peer", ctypes.c_uint32),
        ("calls", ctypes.POINTER(BatchCall)),
        ("payloads", ctypes.c_void_p),
        ("call_count", ctypes.c_uint32),
        ("calls_made", ctypes.c_uint32),
        ("refused", _c.CallResult),
    ]


# Each function: its result, and its arguments.
FUNCTIONS: dict[str, tuple[Any, list[Any]]] = {
    "dt_udp_params_for": (
        ctypes.c_uint8,
        [
            ctypes.POINTER(_c.Network),
            ctypes.POINTER(_c.Params),
            ctypes.POINTER(ctypes.c_uint32),
        ],
    ),
    "dt_udp_abi_version": (ctypes.c_uint32, []),
    "dt_udp_fresh_number": (ctypes.c_uint32, []),
    "dt_udp_open": (ctypes.c_void_p, [ctypes.POINTER(Options), ctypes.POINTER(Error)]),
    "dt_udp_close": (None, [ctypes.c_void_p]),
    "dt_udp_set_peer": (
        ctypes.c_uint8,
        [
            ctypes.c_void_p,
            ctypes.c_uint32,
            ctypes.c_char_p,
            ctypes.c_char_p,
            ctypes.POINTER(Error),
        ],
    ),
    "dt_udp_open_port": (ctypes.c_uint8, [ctypes.c_void_p, ctypes.c_uint16, ctypes.c_uint8]),
    "dt_udp_next_event": (ctypes.POINTER(Event), [ctypes.c_void_p, ctypes.c_int]),
    "dt_udp_send": (_c.SendResult, [ctypes.c_void_p, ctypes.POINTER(_c.Flow), ctypes.c_void_p, ctypes.c_size_t]),
    "dt_udp_call": (
        _c.CallResult,
        [
            ctypes.c_void_p,
            ctypes.POINTER(_c.Flow),
            ctypes.c_void_p,
            ctypes.c_size_t,
            ctypes.c_uint32,
        ],
    ),
    "dt_udp_make_call": (
        _c.CallResult,
        [
            ctypes.c_void_p,
            ctypes.POINTER(CallOptions),
            ctypes.c_void_p,
            ctypes.c_size_t,
        ],
    ),
    "dt_udp_reply": (_c.ReplyResult, [ctypes.c_void_p, ctypes.POINTER(_c.Token), ctypes.c_void_p, ctypes.c_size_t]),
    "dt_udp_forget": (ctypes.c_uint8, [ctypes.c_void_p, ctypes.POINTER(_c.Token)]),
    "dt_udp_open_objects": (ctypes.c_uint8, [ctypes.c_void_p, ctypes.c_uint16, ctypes.c_uint16, ctypes.c_uint64]),
    "dt_udp_put_object": (
        PutResult,
        [
            ctypes.c_void_p,
            ctypes.c_uint32,
            ctypes.c_void_p,
            ctypes.c_uint64,
            ctypes.c_uint32,
        ],
    ),
    "dt_udp_flush": (None, [ctypes.c_void_p]),
    "dt_udp_drain": (ctypes.c_uint8, [ctypes.c_void_p, ctypes.c_int]),
    "dt_udp_fd": (ctypes.c_int, [ctypes.c_void_p]),
    "dt_udp_local_port": (ctypes.c_uint16, [ctypes.c_void_p]),
    "dt_udp_silent_ms": (ctypes.c_uint64, [ctypes.c_void_p]),
    "dt_udp_life": (ctypes.c_uint32, [ctypes.c_void_p]),
    "dt_udp_get_counts": (ctypes.POINTER(Counts), [ctypes.c_void_p]),
    "dt_udp_record": (ctypes.c_uint8, [ctypes.c_void_p, ctypes.c_char_p, ctypes.c_uint64, ctypes.POINTER(Error)]),
    "dt_udp_recording": (ctypes.c_uint8, [ctypes.c_void_p]),
    "dt_udp_node": (ctypes.c_void_p, [ctypes.c_void_p]),
    "dt_udp_service": (ctypes.c_void_p, [ctypes.c_void_p]),
    "dt_udp_state_open": (ctypes.c_void_p, [ctypes.POINTER(StateOptions), ctypes.POINTER(Error)]),
    "dt_udp_state_get_start": (ctypes.POINTER(StateStart), [ctypes.c_void_p]),
    "dt_udp_state_begin": (ctypes.c_uint8, [ctypes.c_void_p, ctypes.c_uint64, ctypes.POINTER(ctypes.c_uint64)]),
    "dt_udp_state_keeper": (ctypes.POINTER(Keeper), [ctypes.c_void_p]),
    "dt_udp_state_note": (ctypes.c_uint8, [ctypes.c_void_p, ctypes.c_uint64]),
    "dt_udp_state_next_life": (ctypes.c_uint8, [ctypes.c_void_p, ctypes.POINTER(ctypes.c_uint32)]),
    "dt_udp_state_system_error": (ctypes.c_int, [ctypes.c_void_p]),
    "dt_udp_state_close": (ctypes.c_uint8, [ctypes.c_void_p]),
    "dt_udp_state_free": (None, [ctypes.c_void_p]),
    "dt_udp_drive": (ctypes.c_void_p, [ctypes.POINTER(Driven), ctypes.POINTER(Options), ctypes.POINTER(Error)]),
    "dt_udp_set_neighbour": (
        ctypes.c_uint8,
        [
            ctypes.c_void_p,
            ctypes.POINTER(_c.Route),
            ctypes.c_char_p,
            ctypes.c_char_p,
            ctypes.POINTER(Error),
        ],
    ),
    "dt_udp_next_batch": (ctypes.c_uint8, [ctypes.c_void_p, ctypes.c_int, ctypes.POINTER(Batch)]),
    "dt_udp_flush_since": (ctypes.c_bool, [ctypes.c_void_p, ctypes.c_uint64]),
    "dt_udp_socket": (ctypes.c_int, [ctypes.c_void_p]),
    "dt_udp_system_error": (ctypes.c_int, [ctypes.c_void_p]),
}
