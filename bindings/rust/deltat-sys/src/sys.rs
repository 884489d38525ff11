// made by release/interface.py from include/deltat.h; to change it, change that.
//! What libdeltat exports, as include/deltat.h has it: names, duties and statuses are those of C.
#![allow(non_camel_case_types)]

use core::marker::{PhantomData, PhantomPinned};
use std::os::raw::c_char; // in core since Rust 1.64

pub const DELTAT_VERSION: &str = "0.3.0";
pub const DELTAT_VERSION_MAJOR: u32 = 0;
pub const DELTAT_VERSION_MINOR: u32 = 3;
pub const DELTAT_VERSION_PATCH: u32 = 0;
pub const DT_ABI_VERSION: u32 = 2;
/// octets; no datagram that leaves a node is longer
pub const DT_MAX_DATAGRAM: usize = 8_222;
/// octets; no request or reply is longer
pub const DT_MAX_PAYLOAD: usize = 65_528;
/// octets, the final 0 included; no line of a report is longer
pub const DT_MAX_REPORT_LINE: usize = 128;
/// from dt_*_wake: nothing is due
pub const DT_NEVER: u64 = 18_446_744_073_709_551_615;

// `enum dt_status_code`
pub const DT_OK: u8 = 0;
/// an allocation failed; see below
pub const DT_NO_MEMORY: u8 = 1;
/// the handle isn't open, or messages aren't enabled
pub const DT_NOT_OPEN: u8 = 2;
/// an argument is out of range, or a struct's `size` is wrong; nothing changed but a count
pub const DT_INVALID: u8 = 3;
/// already open, enabled, routed or set; nothing changed
pub const DT_EXISTS: u8 = 4;
/// there is nothing to return
pub const DT_NONE: u8 = 5;
/// `len` octets are needed; what was to be returned waits
pub const DT_BUFFER_TOO_SMALL: u8 = 6;
/// the octets don't fit into the flow's send buffer; none was taken
pub const DT_FULL: u8 = 7;
/// the node is silent after its start; none was taken
pub const DT_QUIET: u8 = 8;
/// an earlier call ran out of memory, or the service was stopped
pub const DT_STOPPED: u8 = 9;
/// the datagram isn't valid; only a count changed
pub const DT_MALFORMED: u8 = 11;
/// the datagram's lifetime is over; only a count changed
pub const DT_EXPIRED: u8 = 12;
/// the guard doesn't admit the datagram; only a count changed
pub const DT_BLOCKED: u8 = 13;
/// no message found yet; call again
pub const DT_MORE: u8 = 14;
/// out of memory: octets that arrived are lost; the node is usable
pub const DT_LOST: u8 = 15;
/// max_calls are waiting or have an end that wasn't taken
pub const DT_TOO_MANY_CALLS: u8 = 16;
/// 2^32 calls were made in this life: call dt_service_set_life
pub const DT_LIFE_USED_UP: u8 = 17;
/// the request isn't open any more; nothing changed
pub const DT_GONE: u8 = 18;

// `enum dt_fault`: why a datagram is DT_MALFORMED: the first test that failed; and its `value`
/// too few octets for a header: their number
pub const DT_FAULT_SHORT: u8 = 1;
/// unknown version: the version
pub const DT_FAULT_VERSION: u8 = 2;
/// the length field is wrong: its value
pub const DT_FAULT_LENGTH: u8 = 3;
/// the lifetime is 0: 0
pub const DT_FAULT_LIFETIME: u8 = 4;
/// another protocol: its number
pub const DT_FAULT_PROTOCOL: u8 = 5;
/// unknown kind of packet: the kind
pub const DT_FAULT_KIND: u8 = 6;
/// flags that this kind doesn't allow: the flags
pub const DT_FAULT_FLAGS: u8 = 7;
/// a window that this kind doesn't allow: the window
pub const DT_FAULT_WINDOW: u8 = 8;
/// a number of octets that this kind doesn't allow: the number
pub const DT_FAULT_SIZE: u8 = 9;

// `enum dt_start`: there is no default: 0 is DT_INVALID
/// the number was never used, or not for dt_params_quiet_ms()
pub const DT_START_FIRST: u8 = 1;
/// it may have been: the node is silent for that time from `now`
pub const DT_START_AGAIN: u8 = 2;

// `enum dt_report_kind`: what a report says, and the fields it sets beside `flow`; others are 0
/// dt_node_send took `count` octets
pub const DT_REPORT_SEND_QUEUED: u8 = 1;
/// dt_node_send met the silence, which ends at `time`
pub const DT_REPORT_SEND_QUIET: u8 = 2;
/// dt_node_send found room for `count` octets only
pub const DT_REPORT_SEND_FULL: u8 = 3;
/// first transmission: `number` of its first octet, `count`, `begin`, `end`; `run`: nothing before it is
/// outstanding
pub const DT_REPORT_SEGMENT_SENT: u8 = 4;
/// later transmission; as above
pub const DT_REPORT_SEGMENT_RESENT: u8 = 5;
/// a closed window was probed at `number`
pub const DT_REPORT_PROBE_SENT: u8 = 6;
/// `count` octets were given up: delivered once or not at all
pub const DT_REPORT_UNCERTAIN: u8 = 7;
/// the send record (`sending`) or the receive record is gone
pub const DT_REPORT_RECORD_RELEASED: u8 = 8;
/// the send record began again, for octets that wait
pub const DT_REPORT_RECORD_RENEWED: u8 = 9;
/// an owed acknowledgement left: `number`, `window`
pub const DT_REPORT_ACK_SENT: u8 = 10;
/// a packet was answered at once: `number`, `window`
pub const DT_REPORT_REPLY_SENT: u8 = 11;
/// `count` octets from `number` on can be read; `run`: octets before them may be missing
pub const DT_REPORT_ACCEPTED: u8 = 12;
/// a packet of no use: `number`
pub const DT_REPORT_PACKET_DROPPED: u8 = 13;
/// the sender says that no more octets follow `number`
pub const DT_REPORT_RUN_ENDED: u8 = 14;
/// `count` octets reached the other node; `window`
pub const DT_REPORT_ACKNOWLEDGED: u8 = 15;
/// an acknowledgement of no use: `number`, `window`
pub const DT_REPORT_ACK_IGNORED: u8 = 16;
/// a packet met the silence, which ends at `time`; no flow
pub const DT_REPORT_PACKET_QUIET: u8 = 17;
/// octets were read: `begin`, `end`, `run`
pub const DT_REPORT_READ: u8 = 18;
/// a read found nothing
pub const DT_REPORT_READ_NONE: u8 = 19;
/// a packet left on link `number`, lifetime `count`; no flow
pub const DT_REPORT_PACKET_OUT: u8 = 20;
/// a packet from link `number` had no lifetime left; no flow
pub const DT_REPORT_EXPIRED_IN: u8 = 21;
/// a packet for link `number` had none left; no flow
pub const DT_REPORT_EXPIRED_OUT: u8 = 22;
/// there is no route to node `number`; no flow
pub const DT_REPORT_NO_ROUTE: u8 = 23;
/// 64 packets wait for link `number`: it is lost; no flow
pub const DT_REPORT_LINK_FULL: u8 = 24;
/// `number`: enum dt_fault, `count`: its value; no flow
pub const DT_REPORT_PACKET_MALFORMED: u8 = 25;

// `enum dt_port_kind`
pub const DT_PORT_CALLER: u8 = 1;
pub const DT_PORT_SERVICE: u8 = 2;

// `enum dt_invalid`: why a call or a reply is DT_INVALID; 0: it isn't
/// the flow doesn't go from this node to another
pub const DT_INVALID_FLOW: u8 = 1;
/// the flow doesn't come from a caller's port
pub const DT_INVALID_PORT: u8 = 2;
/// payload and 8 octets are more than `cap` or 65,536
pub const DT_INVALID_LENGTH: u8 = 3;
/// `timeout_ms` is 0
pub const DT_INVALID_TIMEOUT: u8 = 4;
/// 2^62 octets would have been passed in
pub const DT_INVALID_TOTAL: u8 = 5;

// `enum dt_event_kind`
/// answer it: `call`, `flow`, and `len` octets of payload
pub const DT_EVENT_REQUEST: u8 = 1;
/// your call ended with `len` octets of answer: `call`, `user`
pub const DT_EVENT_ANSWERED: u8 = 2;
/// it ended without: it was served once or not at all, or still will be: `call`, `user`, `cause`
pub const DT_EVENT_UNSURE: u8 = 3;
/// replies to requests of `flow` were given up: each was delivered once or not at all, and its caller gets no
/// report. Reported again for this flow only after this event was taken
pub const DT_EVENT_REPLY_UNCERTAIN: u8 = 4;

// `enum dt_cause`
/// octets of the request weren't acknowledged in time
pub const DT_CAUSE_GIVEN_UP: u8 = 1;
/// no answer came within `timeout_ms`
pub const DT_CAUSE_TIMEOUT: u8 = 2;
/// the service stopped
pub const DT_CAUSE_STOPPED: u8 = 3;

// `enum dt_judgement`: what dt_watch_judge returns
/// of the present opening
pub const DT_JUDGED_PRESENT: u8 = 32;
/// of one that hasn't proved that it is the latest: ask it
pub const DT_JUDGED_UNPROVED: u8 = 33;
/// of one before the present one: drop it
pub const DT_JUDGED_FORMER: u8 = 34;
/// a frame too soon after the last one of the opening before: drop it
pub const DT_JUDGED_EARLY: u8 = 35;
/// drop it
pub const DT_JUDGED_OTHER_PARAMETERS: u8 = 36;

// `enum dt_order`: what the functions of orders return beside DT_OK, DT_INVALID, DT_NONE
/// it was executed exactly once, and the result is its own
pub const DT_ORDER_DONE: u8 = 65;
/// it was cancelled: it wasn't executed and never is
pub const DT_ORDER_NEVER: u8 = 66;
/// it was executed, and has no result yet
pub const DT_ORDER_AT_WORK: u8 = 67;
/// its handler failed: it wasn't executed now
pub const DT_ORDER_NOT_NOW: u8 = 68;
/// the server forgot what it would need to know
pub const DT_ORDER_OLD: u8 = 69;
/// its number was used
pub const DT_ORDER_STALE: u8 = 70;
/// its client knows of a commit that the store lost
pub const DT_ORDER_FORKED: u8 = 71;
/// its client must hear of the present opening first
pub const DT_ORDER_HELLO: u8 = 72;
/// a question is answered
pub const DT_ORDER_TOLD: u8 = 73;
/// run the handler
pub const DT_ORDER_EXECUTE: u8 = 80;
/// answer the question
pub const DT_ORDER_READ: u8 = 81;
/// it was executed once or not at all, and no call of it is any more
pub const DT_ORDER_UNKNOWN: u8 = 82;
/// the answer was used; call again
pub const DT_ORDER_WAITS: u8 = 83;
/// the answer is of another call; call again
pub const DT_ORDER_STRANGE: u8 = 84;
/// the answer says nothing; call again
pub const DT_ORDER_UNSURE: u8 = 85;
/// the server's store was set back: nothing is called until dt_orders_adopt
pub const DT_ORDER_ALARM: u8 = 86;

/// A status: one of the constants of `enum dt_status_code`.
pub type dt_status = u8;

/// A handle. Its octets are the library's.
#[repr(C)]
pub struct dt_node {
    _data: [u8; 0],
    _marker: PhantomData<(*mut u8, PhantomPinned)>,
}

/// A handle. Its octets are the library's.
#[repr(C)]
pub struct dt_service {
    _data: [u8; 0],
    _marker: PhantomData<(*mut u8, PhantomPinned)>,
}

/// A handle. Its octets are the library's.
#[repr(C)]
pub struct dt_watch {
    _data: [u8; 0],
    _marker: PhantomData<(*mut u8, PhantomPinned)>,
}

/// One-way stream of octets from a port of one node to a port of another. The way back is another flow.
#[repr(C)]
#[derive(Clone, Copy, Debug, PartialEq, Eq, Hash)]
pub struct dt_flow {
    pub source: u32,
    pub target: u32,
    pub source_port: u16,
    pub target_port: u16,
}

impl dt_flow {
    /// All fields 0.
    pub const fn new() -> Self {
        Self {
            source: 0,
            target: 0,
            source_port: 0,
            target_port: 0,
        }
    }
}

impl Default for dt_flow {
    fn default() -> Self {
        Self::new()
    }
}

/// The parameters of a network, equal at all nodes. dt_params_for computes them.
#[repr(C)]
#[derive(Clone, Copy, Debug, PartialEq, Eq, Hash)]
pub struct dt_params {
    pub size: u32,
    /// longest lifetime of a packet: 2 to 86,400,000
    pub mpl: u32,
    /// from the first transmission to the last: 1 to 86,400,000
    pub r: u32,
    /// longest delay of an acknowledgement: 1 to 86,400,000
    pub a: u32,
    /// from one transmission to the next: 1 to 86,400,000
    pub rto: u32,
    /// from the last transmission to a window probe: 1 to 86,400,000, and below 3 mpl + r + a
    pub probe: u32,
    /// most octets of a segment: 1 to 8,192
    pub seg: u32,
    /// send buffer of a flow: 1 to 65,536
    pub cap: u32,
    /// receive buffer of a flow, its unread octets: 1 to 65,536
    pub rcap: u32,
    /// window of a new send record: 1 to 65,536
    pub window: u32,
    /// quantum of sequence numbers: 1 to 2,147,483,648; use the largest
    pub run_limit: u32,
    /// first sequence number of a send record: any
    pub start: u32,
}

impl dt_params {
    /// All fields 0, and `size` as it has to be.
    pub const fn new() -> Self {
        Self {
            size: core::mem::size_of::<Self>() as u32,
            mpl: 0,
            r: 0,
            a: 0,
            rto: 0,
            probe: 0,
            seg: 0,
            cap: 0,
            rcap: 0,
            window: 0,
            run_limit: 0,
            start: 0,
        }
    }
}

impl Default for dt_params {
    fn default() -> Self {
        Self::new()
    }
}

/// A link of this node, in both directions.
#[repr(C)]
#[derive(Clone, Copy, Debug, PartialEq, Eq, Hash)]
pub struct dt_link {
    /// longest time under way; taken off the lifetime of what arrives
    pub charge: u32,
    /// least time from one datagram that leaves to the next; 0: no limit
    pub pace: u32,
    pub number: u16,
    pub reserved: u16,
}

impl dt_link {
    /// All fields 0.
    pub const fn new() -> Self {
        Self {
            charge: 0,
            pace: 0,
            number: 0,
            reserved: 0,
        }
    }
}

impl Default for dt_link {
    fn default() -> Self {
        Self::new()
    }
}

/// Datagrams for node `to` leave on this link.
#[repr(C)]
#[derive(Clone, Copy, Debug, PartialEq, Eq, Hash)]
pub struct dt_route {
    pub to: u32,
    pub link: u16,
}

impl dt_route {
    /// All fields 0.
    pub const fn new() -> Self {
        Self {
            to: 0,
            link: 0,
        }
    }
}

impl Default for dt_route {
    fn default() -> Self {
        Self::new()
    }
}

#[repr(C)]
#[derive(Clone, Copy, Debug)]
pub struct dt_node_options {
    pub size: u32,
    /// the number of this node
    pub node: u32,
    pub now: u64,
    /// copied; the first of two with one number counts
    pub links: *const dt_link,
    pub link_count: usize,
    /// copied; the first of two to one node counts; one over an unknown link leads nowhere
    pub routes: *const dt_route,
    pub route_count: usize,
    /// enum dt_start
    pub start_as: u8,
}

impl dt_node_options {
    /// All fields 0, and `size` as it has to be.
    pub const fn new() -> Self {
        Self {
            size: core::mem::size_of::<Self>() as u32,
            node: 0,
            now: 0,
            links: core::ptr::null(),
            link_count: 0,
            routes: core::ptr::null(),
            route_count: 0,
            start_as: 0,
        }
    }
}

impl Default for dt_node_options {
    fn default() -> Self {
        Self::new()
    }
}

#[repr(C)]
#[derive(Clone, Copy, Debug, PartialEq, Eq, Hash)]
pub struct dt_open_result {
    /// DT_INVALID by a parameter: its value
    pub value: u32,
    pub status: dt_status,
    /// and its place in dt_params: 1 is mpl; 0: an option is wrong
    pub field: u8,
}

impl dt_open_result {
    /// All fields 0.
    pub const fn new() -> Self {
        Self {
            value: 0,
            status: 0,
            field: 0,
        }
    }
}

impl Default for dt_open_result {
    fn default() -> Self {
        Self::new()
    }
}

#[repr(C)]
#[derive(Clone, Copy, Debug, PartialEq, Eq, Hash)]
pub struct dt_receive_result {
    /// DT_MALFORMED: see enum dt_fault; else 0
    pub value: u32,
    pub status: dt_status,
    /// DT_MALFORMED: enum dt_fault; else 0
    pub fault: u8,
}

impl dt_receive_result {
    /// All fields 0.
    pub const fn new() -> Self {
        Self {
            value: 0,
            status: 0,
            fault: 0,
        }
    }
}

impl Default for dt_receive_result {
    fn default() -> Self {
        Self::new()
    }
}

#[repr(C)]
#[derive(Clone, Copy, Debug, PartialEq, Eq, Hash)]
pub struct dt_send_result {
    /// DT_QUIET: the time at which the silence ends; else 0
    pub quiet_until: u64,
    /// DT_FULL: how many octets fit now; else 0
    pub free: u32,
    pub status: dt_status,
}

impl dt_send_result {
    /// All fields 0.
    pub const fn new() -> Self {
        Self {
            quiet_until: 0,
            free: 0,
            status: 0,
        }
    }
}

impl Default for dt_send_result {
    fn default() -> Self {
        Self::new()
    }
}

#[repr(C)]
#[derive(Clone, Copy, Debug, PartialEq, Eq, Hash)]
pub struct dt_read_result {
    pub len: usize,
    pub status: dt_status,
    /// a message begins with the first octet; ends with the last
    pub begin: bool,
    /// a message begins with the first octet; ends with the last
    pub end: bool,
    /// octets of the flow before these may be missing
    pub gap: bool,
}

impl dt_read_result {
    /// All fields 0.
    pub const fn new() -> Self {
        Self {
            len: 0,
            status: 0,
            begin: false,
            end: false,
            gap: false,
        }
    }
}

impl Default for dt_read_result {
    fn default() -> Self {
        Self::new()
    }
}

#[repr(C)]
#[derive(Clone, Copy, Debug, PartialEq, Eq, Hash)]
pub struct dt_message {
    pub size: u32,
    pub flow: dt_flow,
    pub len: usize,
    /// messages of all flows above `longest` so far; stops at 2^64 - 1
    pub dropped_too_long: u64,
    /// octets of the flow before this message are left out, or may be
    pub gap: bool,
}

impl dt_message {
    /// All fields 0, and `size` as it has to be.
    pub const fn new() -> Self {
        Self {
            size: core::mem::size_of::<Self>() as u32,
            flow: dt_flow::new(),
            len: 0,
            dropped_too_long: 0,
            gap: false,
        }
    }
}

impl Default for dt_message {
    fn default() -> Self {
        Self::new()
    }
}

#[repr(C)]
#[derive(Clone, Copy, Debug, PartialEq, Eq, Hash)]
pub struct dt_datagram {
    pub size: u32,
    /// the node that it is for; with relays between, not the next one
    pub to: u32,
    pub len: usize,
    pub link: u16,
}

impl dt_datagram {
    /// All fields 0, and `size` as it has to be.
    pub const fn new() -> Self {
        Self {
            size: core::mem::size_of::<Self>() as u32,
            to: 0,
            len: 0,
            link: 0,
        }
    }
}

impl Default for dt_datagram {
    fn default() -> Self {
        Self::new()
    }
}

#[repr(C)]
#[derive(Clone, Copy, Debug, PartialEq, Eq, Hash)]
pub struct dt_report {
    pub size: u32,
    pub flow: dt_flow,
    pub time: u64,
    pub number: u32,
    pub count: u32,
    pub window: u32,
    /// enum dt_report_kind
    pub kind: u8,
    pub begin: bool,
    pub end: bool,
    pub run: bool,
    pub sending: bool,
}

impl dt_report {
    /// All fields 0, and `size` as it has to be.
    pub const fn new() -> Self {
        Self {
            size: core::mem::size_of::<Self>() as u32,
            flow: dt_flow::new(),
            time: 0,
            number: 0,
            count: 0,
            window: 0,
            kind: 0,
            begin: false,
            end: false,
            run: false,
            sending: false,
        }
    }
}

impl Default for dt_report {
    fn default() -> Self {
        Self::new()
    }
}

#[repr(C)]
#[derive(Clone, Copy, Debug, PartialEq, Eq, Hash)]
pub struct dt_blocked_counts {
    pub closed_port: u64,
    pub too_many_flows: u64,
}

impl dt_blocked_counts {
    /// All fields 0.
    pub const fn new() -> Self {
        Self {
            closed_port: 0,
            too_many_flows: 0,
        }
    }
}

impl Default for dt_blocked_counts {
    fn default() -> Self {
        Self::new()
    }
}

/// since the opening, without what the guard blocked
#[repr(C)]
#[derive(Clone, Copy, Debug, PartialEq, Eq, Hash)]
pub struct dt_node_counts {
    pub size: u32,
    pub reserved: u32,
    /// handled
    pub datagrams_in: u64,
    /// DT_INVALID, DT_MALFORMED, DT_EXPIRED or DT_STOPPED
    pub datagrams_refused: u64,
    pub datagrams_out: u64,
    /// all flows: taken by dt_node_send
    pub octets_queued: u64,
    /// of these: reached the other node
    pub octets_acknowledged: u64,
    /// of these: given up
    pub octets_uncertain: u64,
    /// arrived, and could be read
    pub octets_accepted: u64,
    /// of these: read
    pub octets_read: u64,
}

impl dt_node_counts {
    /// All fields 0, and `size` as it has to be.
    pub const fn new() -> Self {
        Self {
            size: core::mem::size_of::<Self>() as u32,
            reserved: 0,
            datagrams_in: 0,
            datagrams_refused: 0,
            datagrams_out: 0,
            octets_queued: 0,
            octets_acknowledged: 0,
            octets_uncertain: 0,
            octets_accepted: 0,
            octets_read: 0,
        }
    }
}

impl Default for dt_node_counts {
    fn default() -> Self {
        Self::new()
    }
}

/// of one flow, since dt_node_count_flow
#[repr(C)]
#[derive(Clone, Copy, Debug, PartialEq, Eq, Hash)]
pub struct dt_flow_counts {
    pub size: u32,
    pub reserved: u32,
    pub octets_queued: u64,
    pub octets_acknowledged: u64,
    pub octets_uncertain: u64,
    pub octets_accepted: u64,
    pub octets_read: u64,
}

impl dt_flow_counts {
    /// All fields 0, and `size` as it has to be.
    pub const fn new() -> Self {
        Self {
            size: core::mem::size_of::<Self>() as u32,
            reserved: 0,
            octets_queued: 0,
            octets_acknowledged: 0,
            octets_uncertain: 0,
            octets_accepted: 0,
            octets_read: 0,
        }
    }
}

impl Default for dt_flow_counts {
    fn default() -> Self {
        Self::new()
    }
}

#[repr(C)]
#[derive(Clone, Copy, Debug, PartialEq, Eq, Hash)]
pub struct dt_service_options {
    pub size: u32,
    /// duty 9
    pub life: u32,
    /// calls that wait or have an end that wasn't taken
    pub max_calls: u32,
    /// requests without a reply; also those that wait to be taken
    pub max_requests: u32,
    /// requests of one flow without a reply
    pub max_requests_per_flow: u32,
}

impl dt_service_options {
    /// All fields 0, and `size` as it has to be.
    pub const fn new() -> Self {
        Self {
            size: core::mem::size_of::<Self>() as u32,
            life: 0,
            max_calls: 0,
            max_requests: 0,
            max_requests_per_flow: 0,
        }
    }
}

impl Default for dt_service_options {
    fn default() -> Self {
        Self::new()
    }
}

/// The name of a request: its call's number (life in the upper 32 bits, count in the lower) and the flow that it
/// arrived on. You may store, compare and log it.
#[repr(C)]
#[derive(Clone, Copy, Debug, PartialEq, Eq, Hash)]
pub struct dt_token {
    pub call: u64,
    pub flow: dt_flow,
}

impl dt_token {
    /// All fields 0.
    pub const fn new() -> Self {
        Self {
            call: 0,
            flow: dt_flow::new(),
        }
    }
}

impl Default for dt_token {
    fn default() -> Self {
        Self::new()
    }
}

#[repr(C)]
#[derive(Clone, Copy, Debug, PartialEq, Eq, Hash)]
pub struct dt_call_result {
    /// DT_OK: the number of the call; else 0
    pub call: u64,
    /// DT_QUIET: the time at which the silence ends; else 0
    pub quiet_until: u64,
    /// DT_FULL: octets that fit now; a request needs 8 more; else 0
    pub free: u32,
    pub status: dt_status,
    /// DT_INVALID: enum dt_invalid; else 0
    pub invalid: u8,
}

impl dt_call_result {
    /// All fields 0.
    pub const fn new() -> Self {
        Self {
            call: 0,
            quiet_until: 0,
            free: 0,
            status: 0,
            invalid: 0,
        }
    }
}

impl Default for dt_call_result {
    fn default() -> Self {
        Self::new()
    }
}

#[repr(C)]
#[derive(Clone, Copy, Debug, PartialEq, Eq, Hash)]
pub struct dt_reply_result {
    /// DT_FULL: as in dt_call_result
    pub free: u32,
    pub status: dt_status,
    pub invalid: u8,
}

impl dt_reply_result {
    /// All fields 0.
    pub const fn new() -> Self {
        Self {
            free: 0,
            status: 0,
            invalid: 0,
        }
    }
}

impl Default for dt_reply_result {
    fn default() -> Self {
        Self::new()
    }
}

#[repr(C)]
#[derive(Clone, Copy, Debug, PartialEq, Eq, Hash)]
pub struct dt_event {
    pub size: u32,
    /// enum dt_event_kind
    pub kind: u8,
    /// enum dt_cause, else 0
    pub cause: u8,
    pub call: u64,
    /// what you passed to dt_service_call for the call that ended; else 0
    pub user: u64,
    pub len: usize,
    /// of a request, or of the requests of uncertain replies; else 0
    pub flow: dt_flow,
}

impl dt_event {
    /// All fields 0, and `size` as it has to be.
    pub const fn new() -> Self {
        Self {
            size: core::mem::size_of::<Self>() as u32,
            kind: 0,
            cause: 0,
            call: 0,
            user: 0,
            len: 0,
            flow: dt_flow::new(),
        }
    }
}

impl Default for dt_event {
    fn default() -> Self {
        Self::new()
    }
}

/// messages that were dropped, by cause; each stops at 2^64 - 1
#[repr(C)]
#[derive(Clone, Copy, Debug, PartialEq, Eq, Hash)]
pub struct dt_call_counts {
    pub size: u32,
    pub reserved: u32,
    /// to calls of this life that have ended
    pub late_replies: u64,
    /// to calls of another life
    pub old_replies: u64,
    /// ALARM: to a call that this life hasn't made, or on another flow
    pub unknown_replies: u64,
    /// ALARM: a request with the name of one that is open
    pub reused_requests: u64,
    /// incomplete: a gap, a new message or the receiver's end
    pub cut: u64,
    /// above 65,536 octets
    pub too_long: u64,
    /// below 8 octets
    pub too_short: u64,
}

impl dt_call_counts {
    /// All fields 0, and `size` as it has to be.
    pub const fn new() -> Self {
        Self {
            size: core::mem::size_of::<Self>() as u32,
            reserved: 0,
            late_replies: 0,
            old_replies: 0,
            unknown_replies: 0,
            reused_requests: 0,
            cut: 0,
            too_long: 0,
            too_short: 0,
        }
    }
}

impl Default for dt_call_counts {
    fn default() -> Self {
        Self::new()
    }
}

/// what is known of a network, and wanted of it
#[repr(C)]
#[derive(Clone, Copy, Debug, PartialEq, Eq, Hash)]
pub struct dt_network {
    pub size: u32,
    /// links of the longest path: 1 to 256
    pub hops: u32,
    /// longest delay of a link in microseconds, with all queues, under load: at most a day
    pub delay_us: u64,
    /// a usual round trip from end to end: at most a day
    pub round_trip_us: u64,
    /// by how much a clock may run wrong, in parts per million: at most 100,000
    pub drift_ppm: u32,
    /// transmissions of a segment before it is given up: 1 to 1,000
    pub tries: u32,
    /// least MTU of the links: 59 to 65,535
    pub mtu: u32,
    /// octets of a flow under way, or unread: 1 to 65,536
    pub room: u32,
    /// longest wait of a packet at a node before it leaves: at most a day
    pub wait_ms: u32,
    /// resends of a lost packet while others wait on the shelf of a `deltat node`: at most 1,000
    pub shelf: u32,
}

impl dt_network {
    /// All fields 0, and `size` as it has to be.
    pub const fn new() -> Self {
        Self {
            size: core::mem::size_of::<Self>() as u32,
            hops: 0,
            delay_us: 0,
            round_trip_us: 0,
            drift_ppm: 0,
            tries: 0,
            mtu: 0,
            room: 0,
            wait_ms: 0,
            shelf: 0,
        }
    }
}

impl Default for dt_network {
    fn default() -> Self {
        Self::new()
    }
}

#[repr(C)]
#[derive(Clone, Copy, Debug, PartialEq, Eq, Hash)]
pub struct dt_watch_options {
    pub size: u32,
    /// the first four octets of dt_params_fingerprint
    pub fingerprint: u32,
    /// a reading
    pub now: u64,
    /// for how long after the last frame of an opening of the peer none of the next one is taken:
    /// dt_params_quiet_ms less mpl, in microseconds
    pub gap: u64,
    /// octets that may be under way: 8 segments to 2^40 - 1
    pub most: u64,
    /// how far two clocks go apart: half of how many parts in a million of a span, 0 to 1,000. Clocks within d
    /// parts of the true time: d + 1
    pub drift: u32,
    /// and microseconds more, 0 to 1,000,000: three steps of a clock
    pub grain: u32,
    /// octets of a segment
    pub segment: u32,
    pub reserved: u32,
}

impl dt_watch_options {
    /// All fields 0, and `size` as it has to be.
    pub const fn new() -> Self {
        Self {
            size: core::mem::size_of::<Self>() as u32,
            fingerprint: 0,
            now: 0,
            gap: 0,
            most: 0,
            drift: 0,
            grain: 0,
            segment: 0,
            reserved: 0,
        }
    }
}

impl Default for dt_watch_options {
    fn default() -> Self {
        Self::new()
    }
}

/// the readings of a datagram
#[repr(C)]
#[derive(Clone, Copy, Debug, PartialEq, Eq, Hash)]
pub struct dt_passage {
    /// its sender's, when it was made
    pub made: u64,
    /// the receiver's that had surely passed then; 0: not known
    pub sure: u64,
    /// the receiver's, when it came
    pub came: u64,
}

impl dt_passage {
    /// All fields 0.
    pub const fn new() -> Self {
        Self {
            made: 0,
            sure: 0,
            came: 0,
        }
    }
}

impl Default for dt_passage {
    fn default() -> Self {
        Self::new()
    }
}

/// a datagram, as its trailer describes it
#[repr(C)]
#[derive(Clone, Copy, Debug, PartialEq, Eq, Hash)]
pub struct dt_arrival {
    /// names its sender's opening, as no other opening of that node is named
    pub opening: u64,
    /// as in dt_passage
    pub sure: u64,
    /// as in dt_passage
    pub came: u64,
    /// its sender's
    pub fingerprint: u32,
    /// 0: it carries no frame
    pub is_frame: u32,
}

impl dt_arrival {
    /// All fields 0.
    pub const fn new() -> Self {
        Self {
            opening: 0,
            sure: 0,
            came: 0,
            fingerprint: 0,
            is_frame: 0,
        }
    }
}

impl Default for dt_arrival {
    fn default() -> Self {
        Self::new()
    }
}

/// what a transaction of a server reads and writes
#[repr(C)]
#[derive(Clone, Copy, Debug, PartialEq, Eq, Hash)]
pub struct dt_orders_server {
    /// of the store: zeros before its first opening
    pub numbers: [u8; 32],
    /// of the request's lane; zeros: it has none
    pub row: [u8; 40],
    /// four of 16 octets each, zeros: none; dt_orders_open writes the first
    pub openings: [u8; 64],
    /// what dt_orders_answer wrote
    pub answer: [u8; 56],
}

impl dt_orders_server {
    /// All fields 0.
    pub const fn new() -> Self {
        Self {
            numbers: [0; 32],
            row: [0; 40],
            openings: [0; 64],
            answer: [0; 56],
        }
    }
}

impl Default for dt_orders_server {
    fn default() -> Self {
        Self::new()
    }
}

/// what a client keeps
#[repr(C)]
#[derive(Clone, Copy, Debug, PartialEq, Eq, Hash)]
pub struct dt_orders_lane {
    /// what it knows of its server, which its lanes share; zeros at first
    pub client: [u8; 80],
    /// zeros at first
    pub lane: [u8; 104],
    /// what was called last on this lane
    pub request: [u8; 112],
}

impl dt_orders_lane {
    /// All fields 0.
    pub const fn new() -> Self {
        Self {
            client: [0; 80],
            lane: [0; 104],
            request: [0; 112],
        }
    }
}

impl Default for dt_orders_lane {
    fn default() -> Self {
        Self::new()
    }
}

/// what a server looks up for a request
#[repr(C)]
#[derive(Clone, Copy, Debug, PartialEq, Eq, Hash)]
pub struct dt_orders_look {
    /// 1 an order, 2 a cancel, 3 a question
    pub kind: u32,
    /// the client's lane
    pub lane: u32,
    /// numbers of two openings of the store: 0 is the first one
    pub since: u32,
    pub knows: u32,
}

impl dt_orders_look {
    /// All fields 0.
    pub const fn new() -> Self {
        Self {
            kind: 0,
            lane: 0,
            since: 0,
            knows: 0,
        }
    }
}

impl Default for dt_orders_look {
    fn default() -> Self {
        Self::new()
    }
}

extern "C" {
    /// Returns the interface version of the library. Compare it with DT_ABI_VERSION first.
    pub fn dt_abi_version() -> u32;

    /// Returns the size of a node's handle.
    pub fn dt_node_size() -> usize;

    /// Returns the alignment of a node's handle.
    pub fn dt_node_align() -> usize;

    /// Makes fresh memory a handle that isn't open.
    pub fn dt_node_init(node: *mut dt_node);

    /// Allocates a handle that isn't open. Null: out of memory.
    pub fn dt_node_new() -> *mut dt_node;

    /// Closes a handle of dt_node_new and releases its memory. Does nothing with a null pointer.
    pub fn dt_node_free(node: *mut dt_node);

    /// Opens a node.
    ///
    /// - `DT_OK`
    /// - `DT_NO_MEMORY`: nothing changed
    /// - `DT_EXISTS`: the handle is open; nothing changed
    /// - `DT_INVALID`: a size, `start_as` or a reserved field is wrong (`field` is 0), or a parameter is out of
    ///   range (`field`, `value`: the first such); nothing changed
    ///
    /// Cost: each link with a pace reserves room for 64 datagrams of `seg` and 30 octets.
    pub fn dt_node_open(
        node: *mut dt_node,
        params: *const dt_params,
        options: *const dt_node_options,
    ) -> dt_open_result;

    /// Releases what the node holds. The handle isn't open then, and may be opened again.
    pub fn dt_node_close(node: *mut dt_node);

    /// Adds a route. Routes can't be changed or removed while a node is open.
    ///
    /// - `DT_OK`
    /// - `DT_NO_MEMORY`: nothing changed; the node is usable
    /// - `DT_NOT_OPEN`
    /// - `DT_STOPPED`: nothing changed
    /// - `DT_INVALID`: there is no link with this number
    /// - `DT_EXISTS`: there is a route to this node
    pub fn dt_node_add_route(node: *mut dt_node, route: *const dt_route) -> dt_status;

    /// Returns how long a node that starts with DT_START_AGAIN is silent: 3 mpl + r + a. 0: a parameter is out of
    /// range, or `size` is wrong.
    pub fn dt_params_quiet_ms(params: *const dt_params) -> u64;

    /// Computes a number by which two programs can compare their parameters. Equal parameters give equal numbers.
    /// It is the first eight octets, most significant first, of the SHA-256 digest of the eleven parameters as
    /// 32-bit big-endian numbers. That different parameters give different numbers isn't proved.
    ///
    /// - `DT_OK`: `*fingerprint` is set
    /// - `DT_INVALID`: a parameter is out of range, or `size` is wrong; `*fingerprint` is 0
    pub fn dt_params_fingerprint(params: *const dt_params, fingerprint: *mut u64) -> dt_status;

    /// Does what is due: resends, acknowledgements, timeouts.
    ///
    /// - `DT_OK`
    /// - `DT_NO_MEMORY`: done in part; the node is stopped
    /// - `DT_NOT_OPEN`
    /// - `DT_STOPPED`: nothing changed
    pub fn dt_node_tick(node: *mut dt_node, now: u64) -> dt_status;

    /// Passes in a datagram that arrived on `link`. `waited_ms` (duty 5) is taken off its lifetime.
    ///
    /// - `DT_OK`: it was handled; a valid header with an invalid packet inside is dropped and reported
    /// - `DT_NO_MEMORY`: done in part; the node is stopped
    /// - `DT_NOT_OPEN`
    /// - `DT_BLOCKED`: the guard doesn't admit it; dt_node_get_blocked_counts counts it
    /// - `DT_STOPPED`: the node is stopped
    /// - `DT_INVALID`: there is no such link
    /// - `DT_MALFORMED`: the header isn't valid: `fault`, `value`
    /// - `DT_EXPIRED`: `waited_ms` is its whole lifetime or more
    ///
    /// The last four add one to `datagrams_refused` and change nothing else.
    pub fn dt_node_receive(
        node: *mut dt_node,
        now: u64,
        link: u16,
        datagram: *const u8,
        len: usize,
        waited_ms: u32,
    ) -> dt_receive_result;

    /// Sends octets: all of them or none. `begin`: the first one begins a message; `end`: the last one ends it. For
    /// a whole message set both.
    ///
    /// - `DT_OK`: the node has taken them; reports will say what becomes of them
    /// - `DT_NO_MEMORY`: they may have been taken; the node is stopped
    /// - `DT_NOT_OPEN`
    /// - `DT_STOPPED`: nothing changed
    /// - `DT_INVALID`: `flow` doesn't go from this node to another, `len` is 0, or 2^62 octets would have been
    ///   passed in; nothing changed
    /// - `DT_QUIET`: the node is silent until `quiet_until`; none was taken
    /// - `DT_FULL`: only `free` octets fit; none was taken. More than `cap` octets never fit
    pub fn dt_node_send(
        node: *mut dt_node,
        now: u64,
        flow: *const dt_flow,
        octets: *const u8,
        len: usize,
        begin: bool,
        end: bool,
    ) -> dt_send_result;

    /// Reads unread octets of a flow, at most `room` and not beyond the end of a message. For programs that want
    /// octets as they arrive; don't mix it with dt_node_next_message on one flow. What the buffer holds after the
    /// first `len` octets isn't defined.
    ///
    /// - `DT_OK`: `len`, `begin`, `end`, `gap`
    /// - `DT_NONE`: nothing is unread
    /// - `DT_NO_MEMORY`: octets may have been read; the node is stopped
    /// - `DT_NOT_OPEN`
    /// - `DT_STOPPED`: nothing changed
    /// - `DT_INVALID`: `flow` doesn't go from another node to this one; nothing changed
    /// - `DT_BUFFER_TOO_SMALL`: `room` is 0; nothing changed
    pub fn dt_node_read(
        node: *mut dt_node,
        now: u64,
        flow: *const dt_flow,
        buf: *mut u8,
        room: usize,
    ) -> dt_read_result;

    /// Takes the next datagram to put on the wire, into the first `len` octets of `buf`. With room for
    /// DT_MAX_DATAGRAM it always fits.
    ///
    /// - `DT_OK`: it is yours, and waits no more
    /// - `DT_NONE`: none waits
    /// - `DT_BUFFER_TOO_SMALL`: `len` octets are needed; it keeps waiting, and `out` is filled
    /// - `DT_NOT_OPEN`
    pub fn dt_node_next_datagram(
        node: *mut dt_node,
        buf: *mut u8,
        room: usize,
        out: *mut dt_datagram,
    ) -> dt_status;

    /// Takes the next report, in the order in which things happened. Reports use memory until they are taken, so
    /// take them all in each round.
    ///
    /// - `DT_OK`
    /// - `DT_NONE`
    /// - `DT_NOT_OPEN`
    pub fn dt_node_next_report(node: *mut dt_node, out: *mut dt_report) -> dt_status;

    /// Returns the time at which to call dt_node_tick next. DT_NEVER: nothing is due, or the node is stopped or not
    /// open. The time may be past on a node that was called so late that a segment can't be resent any more.
    /// Nothing is due then, so wait for 1 ms at least.
    pub fn dt_node_wake(node: *mut dt_node) -> u64;

    /// Enables dt_node_next_message, for messages of at most `longest` octets. A longer one is dropped and counted
    /// in `dropped_too_long`, and the next message of its flow has `gap`. The begun part of a message stays in
    /// memory.
    ///
    /// - `DT_OK`
    /// - `DT_EXISTS`: already enabled; nothing changed
    /// - `DT_NOT_OPEN`
    pub fn dt_node_enable_messages(node: *mut dt_node, longest: usize) -> dt_status;

    /// Says that a flow may have unread octets. Call it for each DT_REPORT_ACCEPTED, and for each
    /// DT_REPORT_RECORD_RELEASED of a receive record, so that memory of a flow without a receiver is freed.
    ///
    /// - `DT_OK`
    /// - `DT_NO_MEMORY`: nothing changed: call it again, or messages of the flow may stay unread
    /// - `DT_NOT_OPEN`: or messages aren't enabled
    ///
    /// Cost: grows with the number of marked flows that aren't read to their end.
    pub fn dt_node_mark_readable(node: *mut dt_node, flow: *const dt_flow) -> dt_status;

    /// Takes the next whole message of any marked flow, into the first `len` octets of `buf`; what follows them
    /// stays as it was. Messages of one flow are returned in the order in which they were sent. Does what is due at
    /// `now`. `gap` is true for the first message of a flow too: what was sent before it isn't known.
    ///
    /// - `DT_OK`: the message is yours
    /// - `DT_NONE`: no marked flow has one
    /// - `DT_MORE`: 65,537 flows had none; others may: call again
    /// - `DT_BUFFER_TOO_SMALL`: it has `len` octets and waits: call again with room for them
    /// - `DT_LOST`: out of memory: octets of `flow` are lost, and its next message has `gap`; the node is usable:
    ///   call again
    /// - `DT_NO_MEMORY`: the node is stopped
    /// - `DT_STOPPED`: as DT_NO_MEMORY; a message that waits for room can still be taken
    /// - `DT_NOT_OPEN`: or messages aren't enabled
    ///
    /// After DT_NO_MEMORY or DT_STOPPED the flow that couldn't be read is marked no more. Unless DT_OK is returned
    /// the buffer is unchanged. `out` is filled unless DT_NOT_OPEN is returned: what doesn't apply is 0, and
    /// `dropped_too_long` always applies. Cost: looks at marked flows one by one, and copies each octet three
    /// times.
    pub fn dt_node_next_message(
        node: *mut dt_node,
        now: u64,
        buf: *mut u8,
        room: usize,
        out: *mut dt_message,
    ) -> dt_status;

    /// Limits what strangers can open: from now on the node receives only at `ports` (`all`: at every port), and
    /// makes no receiver for a new flow while `max_flows` flows have one. A datagram for another port, or of one
    /// flow too many, is DT_BLOCKED before the node sees it. Flows that have a receiver keep it, and
    /// acknowledgements are always admitted. A node opens with all ports and 4,294,967,295 flows.
    ///
    /// - `DT_OK`
    /// - `DT_NO_MEMORY`: nothing changed
    /// - `DT_NOT_OPEN`
    pub fn dt_node_set_guard(
        node: *mut dt_node,
        ports: *const u16,
        port_count: usize,
        all: bool,
        max_flows: u32,
    ) -> dt_status;

    /// Returns how many datagrams the guard blocked since the opening. Both stop at 2^64 - 1.
    pub fn dt_node_get_blocked_counts(node: *mut dt_node) -> dt_blocked_counts;

    /// Makes a loss cheap: from now on the node holds datagrams whose data came too early, behind a gap of their
    /// flow, and handles them when the gap is filled; without that the sender sends all of them again. At most
    /// `max_datagrams` are held, and at most `max_of_flow` of one flow; what doesn't fit is handled at once, as a
    /// node without a shelf does. A node opens without a shelf: 0 and 0. For a flow at full speed `max_of_flow` is
    /// its window divided by `seg`, rounded up. dt_node_receive returns DT_OK for a datagram that is held, and it
    /// isn't counted then: it is handled by a later dt_node_receive of its flow, whose clock says how much longer
    /// it waited. One whose life ends before that is lost. So a shelf is a link that delays, and no promise
    /// changes. Datagrams of a flow without a receiver are never held. The guard is asked as a datagram arrives,
    /// and not again.
    ///
    /// - `DT_OK`: what is held already stays
    /// - `DT_NOT_OPEN`
    ///
    /// Cost: of dt_node_receive a look at each datagram that is held, and one more for each that it then handles.
    /// Memory: the octets of the datagrams that are held and 48 for each.
    pub fn dt_node_set_shelf(node: *mut dt_node, max_datagrams: u32, max_of_flow: u32) -> dt_status;

    /// Gets the counters of a node.
    ///
    /// - `DT_OK`
    /// - `DT_NOT_OPEN`
    pub fn dt_node_get_counts(node: *mut dt_node, out: *mut dt_node_counts) -> dt_status;

    /// Starts counting the octets of a flow from or to this node, until the node closes. Does nothing if the flow
    /// is counted already.
    ///
    /// - `DT_OK`
    /// - `DT_NO_MEMORY`: nothing changed
    /// - `DT_NOT_OPEN`
    ///
    /// Cost: 64 octets a flow.
    pub fn dt_node_count_flow(node: *mut dt_node, flow: *const dt_flow) -> dt_status;

    /// Gets the counters of a flow.
    ///
    /// - `DT_OK`
    /// - `DT_NOT_OPEN`
    /// - `DT_NONE`: the flow isn't counted
    pub fn dt_node_get_flow_counts(
        node: *mut dt_node,
        flow: *const dt_flow,
        out: *mut dt_flow_counts,
    ) -> dt_status;

    /// Returns the size of a service's handle.
    pub fn dt_service_size() -> usize;

    /// Returns the alignment of a service's handle.
    pub fn dt_service_align() -> usize;

    /// Makes fresh memory a handle of a service that isn't open.
    pub fn dt_service_init(service: *mut dt_service);

    /// Allocates a handle of a service that isn't open. Null: out of memory.
    pub fn dt_service_new() -> *mut dt_service;

    /// Closes a handle of dt_service_new and releases its memory. Does nothing with a null pointer.
    pub fn dt_service_free(service: *mut dt_service);

    /// Releases what the service holds, events not yet taken included. The handle isn't open then, and may be
    /// opened again.
    pub fn dt_service_close(service: *mut dt_service);

    /// Opens a service. No port has a kind yet. Returns as dt_node_open.
    pub fn dt_service_open(
        service: *mut dt_service,
        params: *const dt_params,
        options: *const dt_node_options,
        service_options: *const dt_service_options,
    ) -> dt_open_result;

    /// Makes a port a caller's or a service's, until the service is closed. Messages for a port without a kind
    /// aren't read.
    ///
    /// - `DT_OK`
    /// - `DT_NO_MEMORY`: nothing changed
    /// - `DT_NOT_OPEN`
    /// - `DT_INVALID`: there is no such kind
    /// - `DT_EXISTS`: the port has a kind
    pub fn dt_service_set_port(service: *mut dt_service, port: u16, kind: u8) -> dt_status;

    /// Makes a call on a flow from a caller's port. It ends, by an event with its number and with `user` (a
    /// pointer, an index, or 0: the library doesn't look at it), in the first call with a `now` of `timeout_ms` or
    /// more after this one, at the latest.
    ///
    /// - `DT_OK`: `call` is its number
    /// - `DT_NO_MEMORY`: the service is stopped. The call may have been made, so take it as unsure; if it was, an
    ///   event with `user` says so. Where there was no memory for `user` itself, nothing changed, and the service
    ///   goes on
    /// - `DT_NOT_OPEN`
    /// - `DT_STOPPED`: nothing changed
    /// - `DT_INVALID`: `invalid` says why; nothing changed
    /// - `DT_TOO_MANY_CALLS`: nothing changed
    /// - `DT_LIFE_USED_UP`: nothing changed
    /// - `DT_QUIET`: the node is silent until `quiet_until`; nothing was sent
    /// - `DT_FULL`: the flow has `free` octets left; nothing was sent
    pub fn dt_service_call(
        service: *mut dt_service,
        now: u64,
        flow: *const dt_flow,
        payload: *const u8,
        len: usize,
        timeout_ms: u32,
        user: u64,
    ) -> dt_call_result;

    /// Replies to a request, once.
    ///
    /// - `DT_OK`: the node has taken the reply, and the request is closed
    /// - `DT_NO_MEMORY`: the service is stopped, and the reply may have been sent
    /// - `DT_NOT_OPEN`
    /// - `DT_STOPPED`: nothing changed
    /// - `DT_INVALID`: `invalid` says why; nothing changed
    /// - `DT_GONE`: it has a reply, was forgotten, or is of an earlier life
    /// - `DT_FULL`: the flow has `free` octets left: try again later; the request stays open
    pub fn dt_service_reply(
        service: *mut dt_service,
        now: u64,
        token: *const dt_token,
        payload: *const u8,
        len: usize,
    ) -> dt_reply_result;

    /// Closes a request without a reply, so that there is room for another. Its caller becomes unsure. Does not do
    /// what the node has due; dt_service_tick does.
    ///
    /// - `DT_OK`
    /// - `DT_NO_MEMORY`: the service is stopped
    /// - `DT_NOT_OPEN`
    /// - `DT_GONE`: as dt_service_reply, or the service is stopped
    pub fn dt_service_forget(
        service: *mut dt_service,
        now: u64,
        token: *const dt_token,
    ) -> dt_status;

    /// Takes the next event, in the order in which they happened, each once, with its payload in the first `len`
    /// octets of `buf`; what follows them stays as it was. Does no other work. After the service has stopped it
    /// returns the events that wait, and then DT_EVENT_UNSURE for each call that waited, with DT_CAUSE_STOPPED.
    ///
    /// - `DT_OK`
    /// - `DT_NONE`
    /// - `DT_BUFFER_TOO_SMALL`: `len` octets are needed; this event, and those after it, wait. Of `out` only `len`
    ///   is set, all else is 0
    /// - `DT_NOT_OPEN`
    pub fn dt_service_next_event(
        service: *mut dt_service,
        buf: *mut u8,
        room: usize,
        out: *mut dt_event,
    ) -> dt_status;

    /// Numbers the calls from now on in this life, from 0. Calls that wait keep their numbers.
    ///
    /// - `DT_OK`
    /// - `DT_NOT_OPEN`
    /// - `DT_EXISTS`: it is the present life, or that of a call that waits; nothing changed
    pub fn dt_service_set_life(service: *mut dt_service, life: u32) -> dt_status;

    /// Gets the counters of dropped messages.
    ///
    /// - `DT_OK`
    /// - `DT_NOT_OPEN`
    pub fn dt_service_get_call_counts(
        service: *mut dt_service,
        out: *mut dt_call_counts,
    ) -> dt_status;

    /// Stops the service: each call that waits becomes unsure, requests are forgotten, and what isn't taken yet can
    /// be taken. Takes no memory.
    ///
    /// - `DT_OK`
    /// - `DT_NOT_OPEN`
    pub fn dt_service_stop(service: *mut dt_service) -> dt_status;

    /// As dt_node_tick; when it returns DT_NO_MEMORY the service is stopped.
    pub fn dt_service_tick(service: *mut dt_service, now: u64) -> dt_status;

    /// As dt_node_receive; when it returns DT_NO_MEMORY the service is stopped. A stopped service doesn't count
    /// datagrams.
    pub fn dt_service_receive(
        service: *mut dt_service,
        now: u64,
        link: u16,
        datagram: *const u8,
        len: usize,
        waited_ms: u32,
    ) -> dt_receive_result;

    /// As dt_node_next_datagram.
    pub fn dt_service_next_datagram(
        service: *mut dt_service,
        buf: *mut u8,
        room: usize,
        out: *mut dt_datagram,
    ) -> dt_status;

    /// As dt_node_wake, timeouts of calls included. DT_NEVER once the service is stopped.
    pub fn dt_service_wake(service: *mut dt_service) -> u64;

    /// As dt_node_add_route. Returns DT_STOPPED after a lack of memory only, not after dt_service_stop.
    pub fn dt_service_add_route(service: *mut dt_service, route: *const dt_route) -> dt_status;

    /// As dt_node_set_guard.
    pub fn dt_service_set_guard(
        service: *mut dt_service,
        ports: *const u16,
        port_count: usize,
        all: bool,
        max_flows: u32,
    ) -> dt_status;

    /// As dt_node_set_shelf.
    pub fn dt_service_set_shelf(
        service: *mut dt_service,
        max_datagrams: u32,
        max_of_flow: u32,
    ) -> dt_status;

    /// As dt_node_get_blocked_counts.
    pub fn dt_service_get_blocked_counts(service: *mut dt_service) -> dt_blocked_counts;

    /// As dt_node_get_counts.
    pub fn dt_service_get_counts(service: *mut dt_service, out: *mut dt_node_counts) -> dt_status;

    /// Returns the version of the library: DELTAT_VERSION of the header that it was made with.
    pub fn dt_version() -> *const c_char;

    /// Returns the name of a status as this header has it, as "DT_FULL". Another number: "unknown status".
    pub fn dt_status_name(status: dt_status) -> *const c_char;

    /// Returns the name of a fault, as "DT_FAULT_SHORT". Another number: "unknown fault".
    pub fn dt_fault_name(fault: u8) -> *const c_char;

    /// Returns the name of a kind of report, as "DT_REPORT_ACCEPTED". Another number: "unknown report".
    pub fn dt_report_name(kind: u8) -> *const c_char;

    /// Writes the line that the logs of `deltat node` have for a report of node `node` at `now`, as "120 2 accepted
    /// 1:10>2:20 0 5 run", without a line feed and with a 0 at its end. Returns how many octets the line has
    /// without the 0. If `room` isn't more than that, the line is cut; in DT_MAX_REPORT_LINE octets each fits.
    /// docs/formats.md describes the lines. That of DT_REPORT_READ ends in a blank: a log has the octets that were
    /// read behind it, in hexadecimal.
    pub fn dt_report_line(
        report: *const dt_report,
        now: u64,
        node: u32,
        buf: *mut c_char,
        room: usize,
    ) -> usize;

    /// Computes the parameters for a network, and the charge of each of its links, as tools/params.py does;
    /// docs/parameters.md says what the numbers cost. The charge has room for a wait of 20 ms in the receiver's
    /// socket: a node that keeps duty 5 may have a charge of 20 less.
    ///
    /// - `DT_OK`: `params` (all of it but `size`) and `*charge` are set
    /// - `DT_INVALID`: a field is out of range, or `size` of either struct is wrong; nothing changed
    /// - `DT_NONE`: no parameters suit: a packet would live for more than a day; nothing changed
    ///
    /// Cost: a few steps for usual clocks.
    pub fn dt_params_for(
        network: *const dt_network,
        params: *mut dt_params,
        charge: *mut u32,
    ) -> dt_status;

    pub fn dt_watch_size() -> usize;

    pub fn dt_watch_align() -> usize;

    /// Makes a handle that isn't open, of fresh memory.
    pub fn dt_watch_init(watch: *mut dt_watch);

    /// Opens a handle, or opens it anew: nothing is known of the peer.
    ///
    /// - `DT_OK`
    /// - `DT_INVALID`: an option is out of its range; nothing changed
    pub fn dt_watch_open(watch: *mut dt_watch, options: *const dt_watch_options) -> dt_status;

    /// Forgets what is known of one of two openings: its first datagram comes. The caller knows which of the two,
    /// the first or the `second`, is which.
    ///
    /// - `DT_OK`
    ///
    /// DT_NOT_OPEN, DT_INVALID nothing changed
    pub fn dt_watch_begin(watch: *mut dt_watch, second: bool, came: u64) -> dt_status;

    /// Takes the readings of a datagram of that opening, also of one that is dropped later. After 30 s in which
    /// none came, what was known before is forgotten.
    ///
    /// - `DT_OK`
    /// - `DT_NONE`: the readings can't all be true: a clock stood, was set or drifts by more than `drift`. From now
    ///   on nothing of this opening may be believed
    ///
    /// DT_NOT_OPEN, DT_INVALID nothing changed
    pub fn dt_watch_hear(
        watch: *mut dt_watch,
        second: bool,
        passage: *const dt_passage,
    ) -> dt_status;

    /// Judges a datagram by its opening: returns an enum dt_judgement, DT_NOT_OPEN or DT_INVALID. An opening
    /// becomes the present one if its datagram has a later `sure` than any of the one before had.
    pub fn dt_watch_judge(watch: *mut dt_watch, arrival: *const dt_arrival) -> dt_status;

    /// Returns what the peer's clock had surely passed when this one read `made`: what a datagram to it has as
    /// `sure`. 0: nothing is known, or for 24 s nothing came.
    pub fn dt_watch_sure(watch: *mut dt_watch, second: bool, made: u64) -> u64;

    /// Returns what this clock had surely passed when the peer's read `then`: for a datagram that had no `sure`,
    /// after others had. 0: nothing is known.
    pub fn dt_watch_around(watch: *mut dt_watch, second: bool, then: u64) -> u64;

    /// Returns how old a datagram is at most that is handed in at the reading `came`, in microseconds, stops of
    /// clocks that weren't seen included. DT_NEVER: `sure` is later than `came`.
    pub fn dt_watch_age(watch: *mut dt_watch, second: bool, came: u64, sure: u64) -> u64;

    /// Returns the `waited_ms` for dt_node_receive that this age means, beside the charge of the link.
    pub fn dt_watch_waited_ms(age: u64, charge: u32) -> u32;

    /// Returns how many octets may be under way to the peer, handed in and not settled; 0: not open.
    pub fn dt_watch_window(watch: *mut dt_watch) -> u64;

    /// Returns 1 if a message of so many octets fits into the window beside what is under way, or if nothing is
    /// under way; else 0.
    pub fn dt_watch_admits(watch: *mut dt_watch, under_way: u64, octets: u64) -> u8;

    /// Makes the window larger: by half if `fast`, else by a 64th or 8 segments, and up to `most`. Or smaller by so
    /// many thousandths, 500 at most, and down to 8 segments. DT_OK or DT_NOT_OPEN.
    pub fn dt_watch_grow(watch: *mut dt_watch, fast: bool) -> dt_status;

    pub fn dt_watch_shrink(watch: *mut dt_watch, thousandths: u32) -> dt_status;

    /// Returns the delay in queues to aim at, in microseconds: a quarter of the least delay `base`, 2 ms at least,
    /// and at most what is left by `budget`, the longest life of a datagram, and by `resend`, after which a segment
    /// goes again. 0 if `base` or `resend` is 2^50 or more.
    pub fn dt_watch_aim(base: u64, budget: u64, resend: u64) -> u64;

    /// Returns by how many thousandths a window shrinks after a round whose delay in queues was above `aim`: 80 to
    /// 500. 0 if it wasn't, or an argument is 2^50 or more.
    pub fn dt_watch_cut(queue: u64, base: u64, aim: u64) -> u32;

    /// Opens a server's store: `numbers` become those of the new opening, and the first 16 octets of `openings` are
    /// the opening. `nonce`: 64 drawn bits. The opening's number is the big-endian number in `numbers` from octet
    /// 16 on.
    ///
    /// - `DT_OK`
    /// - `DT_INVALID`
    pub fn dt_orders_open(server: *mut dt_orders_server, nonce: u64) -> dt_status;

    /// Gets what a server looks up for a request: the 112 octets before its body.
    ///
    /// - `DT_OK`
    /// - `DT_INVALID`: they spell no request
    pub fn dt_orders_look_up(
        request: *const u8,
        len: usize,
        look: *mut dt_orders_look,
    ) -> dt_status;

    /// Judges a request, and writes what needs no handler: a cancelled order, or a row's stamp. Returns an enum
    /// dt_order, up to DT_ORDER_READ, or DT_INVALID. `strict`: a client must know the present opening; so it must
    /// be if the store may be set back and the transport may deliver an old call.
    pub fn dt_orders_judge(
        server: *mut dt_orders_server,
        request: *const u8,
        len: usize,
        strict: bool,
    ) -> dt_status;

    /// Writes the row of an order that the handler executed, `done` or at work.
    ///
    /// - `DT_OK`
    /// - `DT_NONE`: dt_orders_judge doesn't say DT_ORDER_EXECUTE of it
    /// - `DT_INVALID`
    pub fn dt_orders_executed(
        server: *mut dt_orders_server,
        request: *const u8,
        len: usize,
        strict: bool,
        done: bool,
    ) -> dt_status;

    /// Writes that the row's order, which was at work, has its result.
    ///
    /// - `DT_OK`
    /// - `DT_NONE`: it isn't at work
    /// - `DT_INVALID`
    pub fn dt_orders_finish(server: *mut dt_orders_server) -> dt_status;

    /// Forgets the row: it is zeros then, and you delete it.
    ///
    /// - `DT_OK`
    /// - `DT_NONE`: there is none, or its order is at work
    /// - `DT_INVALID`
    pub fn dt_orders_forget(server: *mut dt_orders_server) -> dt_status;

    /// Writes the answer to a request: DT_ORDER_DONE to DT_ORDER_TOLD.
    ///
    /// - `DT_OK`
    /// - `DT_INVALID`
    pub fn dt_orders_answer(
        server: *mut dt_orders_server,
        request: *const u8,
        len: usize,
        said: u8,
    ) -> dt_status;

    /// A new opening of a client's store, with 64 drawn bits, for a lane of this number: called for each lane, with
    /// the same nonce. `once`: the transport delivers each call once at most.
    ///
    /// - `DT_OK`
    /// - `DT_INVALID`
    pub fn dt_orders_start(
        lane: *mut dt_orders_lane,
        nonce: u64,
        number: u32,
        once: bool,
    ) -> dt_status;

    /// Notes an order on the lane: `uid` is your name for it, `record` the record that you store it in.
    ///
    /// - `DT_OK`
    /// - `DT_NONE`: the lane has one, or the client never heard of its server or had an alarm
    /// - `DT_INVALID`
    pub fn dt_orders_give(lane: *mut dt_orders_lane, uid: u64, record: u64) -> dt_status;

    /// Writes the request of the lane's order. `stored`: the last record that is synced. `count`: another number
    /// for each call and question since dt_orders_start.
    ///
    /// - `DT_OK`
    /// - `DT_NONE`: there is nothing to call: no order, not stored, a call waits, or an alarm
    /// - `DT_INVALID`
    pub fn dt_orders_call(lane: *mut dt_orders_lane, stored: u64, count: u32) -> dt_status;

    /// Writes the request of a question. If `len` is 0 it carries what the client knows; else what this answer
    /// named, and the server says DT_ORDER_FORKED exactly if its store lost that. Use a struct of its own for
    /// questions, and copy `client` back.
    ///
    /// - `DT_OK`
    /// - `DT_INVALID`
    pub fn dt_orders_ask(
        lane: *mut dt_orders_lane,
        answer: *const u8,
        len: usize,
        count: u32,
    ) -> dt_status;

    /// The request was sent, or may have been (`sent`), or certainly wasn't.
    ///
    /// - `DT_OK`
    /// - `DT_INVALID`
    pub fn dt_orders_made(lane: *mut dt_orders_lane, sent: bool) -> dt_status;

    /// The call ended without an answer.
    ///
    /// - `DT_OK`
    /// - `DT_INVALID`
    pub fn dt_orders_unsure(lane: *mut dt_orders_lane) -> dt_status;

    /// Takes the answer to the request: the 56 octets before its result. Returns a fate (DT_ORDER_DONE, NEVER or
    /// UNKNOWN), DT_ORDER_WAITS to DT_ORDER_ALARM, or DT_INVALID. Store the lane under `record` if it changed,
    /// before you call again.
    pub fn dt_orders_hear(
        lane: *mut dt_orders_lane,
        answer: *const u8,
        len: usize,
        record: u64,
    ) -> dt_status;

    /// Returns what an answer says, DT_ORDER_DONE to DT_ORDER_TOLD, or DT_INVALID.
    pub fn dt_orders_word(answer: *const u8, len: usize) -> dt_status;

    /// Cancels the lane's order. Returns
    ///
    /// - `DT_ORDER_NEVER`: it was never called: that is its fate
    /// - `DT_OK`: it is asked about from now on: its fate is an answer's
    /// - `DT_NONE`: the lane has no order
    /// - `DT_INVALID`
    pub fn dt_orders_cancel(lane: *mut dt_orders_lane) -> dt_status;

    /// Goes on after an alarm, when all fates before it are stored and reported. Store `client`.
    ///
    /// - `DT_OK`
    /// - `DT_INVALID`
    pub fn dt_orders_adopt(lane: *mut dt_orders_lane) -> dt_status;
}
