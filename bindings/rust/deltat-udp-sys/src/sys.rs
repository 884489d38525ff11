// made by release/interface.py from include/deltat_udp.h; to change it, change that.
//! What libdeltat-udp exports, as include/deltat_udp.h has it: names, duties and statuses are those of C.
#![allow(non_camel_case_types)]

use core::ffi::c_void;
use core::marker::{PhantomData, PhantomPinned};
use std::os::raw::{c_char, c_int}; // in core since Rust 1.64

use deltat_sys::*;

pub const DT_UDP_ABI_VERSION: u32 = 1;
pub const DT_UDP_TRAILER: usize = 34;
pub const DT_UDP_MAX_HEARD: usize = 64;

// `enum dt_udp_role`
pub const DT_UDP_ROLE_NODE: u8 = 1;
pub const DT_UDP_ROLE_SERVICE: u8 = 2;

// `enum dt_udp_start`
/// as the state folder says; without `state` this is refused
pub const DT_UDP_START_BY_STATE: u8 = 0;
/// the number was never used, or not for dt_params_quiet_ms() ms
pub const DT_UDP_START_FIRST: u8 = 1;
/// it may have been: the node is silent for dt_params_quiet_ms() ms. With `state`: for all of them, and the life is
/// drawn, as after a machine was set back to a snapshot
pub const DT_UDP_START_AGAIN: u8 = 2;

// `enum dt_udp_flag`: bits of options.flags
/// don't use UDP_SEGMENT and UDP_GRO
pub const DT_UDP_FLAG_WITHOUT_SEGMENTS: u8 = 1;
/// read and write one datagram a system call
pub const DT_UDP_FLAG_WITHOUT_BATCHES: u8 = 2;
/// don't use the kernel's time stamps
pub const DT_UDP_FLAG_WITHOUT_STAMPS: u8 = 4;
/// receive at every port, not only at those of dt_udp_open_port
pub const DT_UDP_FLAG_ALL_PORTS: u8 = 8;
/// don't measure how old datagrams are: to speak with nodes that have no such driver. `charge` must be right then
pub const DT_UDP_FLAG_WITHOUT_WATCH: u8 = 32;
/// with `state`: the parameters were changed, with all nodes stopped. If the silence by the old ones is longer,
/// dt_udp_open waits for the rest
pub const DT_UDP_FLAG_PARAMS_CHANGED: u8 = 16;

// `enum dt_udp_event_kind`
/// nothing happened in `wait_ms`, or a signal came
pub const DT_UDP_EVENT_NONE: u8 = 0;
/// `flow`, `octets`, `gap`
pub const DT_UDP_EVENT_MESSAGE: u8 = 1;
/// `token`, `octets`
pub const DT_UDP_EVENT_REQUEST: u8 = 2;
/// `call`, `octets`
pub const DT_UDP_EVENT_ANSWERED: u8 = 3;
/// `call`, `cause`: served once, not at all, or later
pub const DT_UDP_EVENT_UNSURE: u8 = 4;
/// `report`: one that options.report_kinds asks for
pub const DT_UDP_EVENT_REPORT: u8 = 5;
/// a datagram of `len` octets to `peer` doesn't fit the path: make params.seg smaller at all nodes
pub const DT_UDP_EVENT_TOO_BIG: u8 = 6;
/// `object` of `peer`, whole: `octets`
pub const DT_UDP_EVENT_OBJECT: u8 = 7;
/// `object`, which was put, is over: `cause` is DT_OK (the peer has it whole), DT_FULL (the peer has no room for
/// it) or DT_NONE (the time is over: the peer may have it)
pub const DT_UDP_EVENT_PUT_ENDED: u8 = 8;
/// the driver can't continue: `cause` is DT_NO_MEMORY, DT_STOPPED, or DT_NOT_OPEN (a forked child, or a system call
/// that failed: `system_error`)
pub const DT_UDP_EVENT_FAILED: u8 = 9;
/// `flow`: as DT_EVENT_REPLY_UNCERTAIN of deltat.h
pub const DT_UDP_EVENT_REPLY_UNCERTAIN: u8 = 10;
/// nothing of `peer` passes any more, as `cause` says
pub const DT_UDP_EVENT_ALARM: u8 = 11;
/// after a DT_FULL of any call: there may be room again
pub const DT_UDP_EVENT_ROOM: u8 = 12;

// `enum dt_udp_alarm`: `cause` of DT_UDP_EVENT_ALARM: once for each opening of the peer
/// one of the two clocks stood, was set, or is wrong by more than 100 parts in a million. Close the driver of the
/// end whose clock it was, or of both, and open it again
pub const DT_UDP_ALARM_CLOCK: u8 = 1;
/// the peer has other parameters
pub const DT_UDP_ALARM_PARAMETERS: u8 = 2;
/// this end has a watch and the peer hasn't, or the other way round: once for each peer. Open both with a watch, or
/// both with DT_UDP_FLAG_WITHOUT_WATCH
pub const DT_UDP_ALARM_WATCH: u8 = 3;

/// A handle. Its octets are the library's.
#[repr(C)]
pub struct dt_udp {
    _data: [u8; 0],
    _marker: PhantomData<(*mut u8, PhantomPinned)>,
}

/// A handle. Its octets are the library's.
#[repr(C)]
pub struct dt_udp_state {
    _data: [u8; 0],
    _marker: PhantomData<(*mut u8, PhantomPinned)>,
}

/// Zero the struct, and set `size` and what you need. A zero means the value in brackets.
#[repr(C)]
#[derive(Clone, Copy, Debug)]
pub struct dt_udp_options {
    /// sizeof(struct dt_udp_options)
    pub size: u32,
    /// number of this node
    pub node: u32,
    /// address to bind \[every address, IPv6 and IPv4; a free port\]
    pub host: *const c_char,
    /// address to bind \[every address, IPv6 and IPv4; a free port\]
    pub port: *const c_char,
    /// of the network: dt_params_for computes them; copied
    pub params: *const dt_params,
    /// of the link, in ms
    pub charge: u32,
    /// of the link, in ms \[no limit\]
    pub pace: u32,
    /// number of the link, the same at all nodes \[1\]
    pub link: u16,
    /// enum dt_udp_role \[DT_UDP_ROLE_NODE\]
    pub role: u8,
    /// enum dt_udp_start
    pub start_as: u8,
    /// of a service without `state`
    pub life: u32,
    /// folder that keeps lives and starts \[none\]
    pub state: *const c_char,
    /// of a service: calls under way \[1,000\]
    pub max_calls: u32,
    /// of a service: requests without a reply \[1,000\]
    pub max_requests: u32,
    /// of a service \[1,000\]
    pub max_requests_per_flow: u32,
    /// of a node: octets of a message \[65,536\]
    pub max_message: u32,
    /// of a node: octets of messages that wait for dt_udp_next_event before flows aren't read any more
    /// \[1,048,576\]
    pub max_queued: u32,
    /// flows that may have a receiver at one time \[4,096\]
    pub max_flows: u32,
    /// peers that may be learnt at one time \[0: none is\]
    pub max_peers: u32,
    /// of a node: reports that are events, as bits 1 << kind \[none\]
    pub report_kinds: u32,
    /// enum dt_udp_flag
    pub flags: u32,
    /// octets of calls and replies that wait in the driver while enough is under way to their peers \[16,777,216\]
    pub max_waiting: u32,
    /// file into which the driver counts, for tools/counters.py \[none\]
    pub counters: *const c_char,
}

impl dt_udp_options {
    /// All fields 0, and `size` as it has to be.
    pub const fn new() -> Self {
        Self {
            size: core::mem::size_of::<Self>() as u32,
            node: 0,
            host: core::ptr::null(),
            port: core::ptr::null(),
            params: core::ptr::null(),
            charge: 0,
            pace: 0,
            link: 0,
            role: 0,
            start_as: 0,
            life: 0,
            state: core::ptr::null(),
            max_calls: 0,
            max_requests: 0,
            max_requests_per_flow: 0,
            max_message: 0,
            max_queued: 0,
            max_flows: 0,
            max_peers: 0,
            report_kinds: 0,
            flags: 0,
            max_waiting: 0,
            counters: core::ptr::null(),
        }
    }
}

impl Default for dt_udp_options {
    fn default() -> Self {
        Self::new()
    }
}

/// Why dt_udp_open or dt_udp_set_peer failed.
#[repr(C)]
#[derive(Clone, Copy, Debug, PartialEq, Eq, Hash)]
pub struct dt_udp_error {
    /// one line: what is wrong, and what to do
    pub text: [c_char; 240],
    /// an errno, or 0
    pub system_error: c_int,
    /// enum dt_status_code: DT_INVALID (an option, an address), DT_NO_MEMORY, DT_NOT_OPEN (the system refused a
    /// call), DT_EXISTS (the state folder is in use)
    pub status: dt_status,
    /// place of a wrong parameter in dt_params: 1 is mpl; else 0
    pub field: u8,
}

impl dt_udp_error {
    /// All fields 0.
    pub const fn new() -> Self {
        Self {
            text: [0; 240],
            system_error: 0,
            status: 0,
            field: 0,
        }
    }
}

impl Default for dt_udp_error {
    fn default() -> Self {
        Self::new()
    }
}

/// Belongs to the driver, and stays as it is until the next call of dt_udp_next_event or dt_udp_close.
#[repr(C)]
#[derive(Clone, Copy, Debug)]
pub struct dt_udp_event {
    pub octets: *const u8,
    pub len: usize,
    pub call: u64,
    pub object: u64,
    pub token: dt_token,
    pub flow: dt_flow,
    pub peer: u32,
    pub system_error: i32,
    /// enum dt_udp_event_kind
    pub kind: u8,
    /// enum dt_cause (UNSURE), enum dt_status_code (PUT_ENDED, FAILED)
    pub cause: u8,
    /// octets of the flow before this message may be missing
    pub gap: bool,
    /// of DT_UDP_EVENT_REPORT, else null
    pub report: *const dt_report,
    /// of ANSWERED and UNSURE: what the call was given by dt_udp_make_call, else 0
    pub user: u64,
}

impl dt_udp_event {
    /// All fields 0.
    pub const fn new() -> Self {
        Self {
            octets: core::ptr::null(),
            len: 0,
            call: 0,
            object: 0,
            token: dt_token::new(),
            flow: dt_flow::new(),
            peer: 0,
            system_error: 0,
            kind: 0,
            cause: 0,
            gap: false,
            report: core::ptr::null(),
            user: 0,
        }
    }
}

impl Default for dt_udp_event {
    fn default() -> Self {
        Self::new()
    }
}

/// Counters begin at 0 when the driver is opened.
#[repr(C)]
#[derive(Clone, Copy, Debug, PartialEq, Eq, Hash)]
pub struct dt_udp_counts {
    /// system calls
    pub reads: u64,
    /// system calls
    pub writes: u64,
    /// all that were read; all that the system took
    pub datagrams_in: u64,
    /// all that were read; all that the system took
    pub datagrams_out: u64,
    /// in: from an address that isn't a peer's, or no datagram of this network
    pub unknown: u64,
    /// out: late, without an address, or refused by the system
    pub not_sent: u64,
    /// out: longer than the path allows
    pub too_big: u64,
    /// strangers that were asked to prove that they hear
    pub challenges_out: u64,
    /// and that weren't: too many came
    pub challenges_withheld: u64,
    /// by such a proof; from one address to another
    pub peers_learnt: u64,
    /// by such a proof; from one address to another
    pub peers_moved: u64,
    /// learnt ones that were silent, for others
    pub peers_forgotten: u64,
    /// the wall clock was set: until then stamps don't count
    pub clock_steps: u64,
    /// of a node: out of memory
    pub messages_lost: u64,
    /// of a node: longer than max_message
    pub messages_too_long: u64,
    /// dropped: the sender has no watch, or a later version of it
    pub without_trailer: u64,
    /// dropped: the age left no life
    pub too_old: u64,
    /// kept until the sender had said how old
    pub ages_unknown: u64,
    /// dropped
    pub other_parameters: u64,
    /// dropped: a clock was wrong (DT_UDP_ALARM_CLOCK)
    pub clock_alarms: u64,
    /// dropped: of an opening before the peer's present one
    pub former_openings: u64,
    /// dropped: too soon after the last frame of the opening before
    pub early_openings: u64,
    /// openings of peers that were found to be the present ones
    pub openings_proved: u64,
    /// questions how old a datagram is
    pub pings_in: u64,
    /// questions how old a datagram is
    pub pings_out: u64,
    /// dropped: the sender has a watch, and this end has none
    pub with_trailer: u64,
}

impl dt_udp_counts {
    /// All fields 0.
    pub const fn new() -> Self {
        Self {
            reads: 0,
            writes: 0,
            datagrams_in: 0,
            datagrams_out: 0,
            unknown: 0,
            not_sent: 0,
            too_big: 0,
            challenges_out: 0,
            challenges_withheld: 0,
            peers_learnt: 0,
            peers_moved: 0,
            peers_forgotten: 0,
            clock_steps: 0,
            messages_lost: 0,
            messages_too_long: 0,
            without_trailer: 0,
            too_old: 0,
            ages_unknown: 0,
            other_parameters: 0,
            clock_alarms: 0,
            former_openings: 0,
            early_openings: 0,
            openings_proved: 0,
            pings_in: 0,
            pings_out: 0,
            with_trailer: 0,
        }
    }
}

impl Default for dt_udp_counts {
    fn default() -> Self {
        Self::new()
    }
}

/// Of a call. Zero the struct, and set `size` and what you need.
#[repr(C)]
#[derive(Clone, Copy, Debug, PartialEq, Eq, Hash)]
pub struct dt_udp_call_options {
    /// sizeof(struct dt_udp_call_options)
    pub size: u32,
    /// at least 1
    pub timeout_ms: u32,
    /// from a caller's port of this node
    pub flow: dt_flow,
    /// the event of its end has it: a pointer, an index, or 0
    pub user: u64,
}

impl dt_udp_call_options {
    /// All fields 0, and `size` as it has to be.
    pub const fn new() -> Self {
        Self {
            size: core::mem::size_of::<Self>() as u32,
            timeout_ms: 0,
            flow: dt_flow::new(),
            user: 0,
        }
    }
}

impl Default for dt_udp_call_options {
    fn default() -> Self {
        Self::new()
    }
}

#[repr(C)]
#[derive(Clone, Copy, Debug, PartialEq, Eq, Hash)]
pub struct dt_udp_put_result {
    /// DT_OK: its number, which no other object of any opening has, but by chance
    pub object: u64,
    pub status: dt_status,
}

impl dt_udp_put_result {
    /// All fields 0.
    pub const fn new() -> Self {
        Self {
            object: 0,
            status: 0,
        }
    }
}

impl Default for dt_udp_put_result {
    fn default() -> Self {
        Self::new()
    }
}

/// Until when the node may have inputs: a state folder has to know before each. The driver reads and writes it in
/// its calls.
#[repr(C)]
#[derive(Clone, Copy, Debug)]
pub struct dt_udp_keeper {
    /// an input before this reading needn't be kept: the node is silent
    pub since: u64,
    /// an input up to this reading needs no `extend`
    pub until: u64,
    /// the greatest reading of an input from `since` on: the driver writes it
    pub noted: u64,
    /// makes `until` at least `at`. False: the input isn't done, and the driver fails with DT_NOT_OPEN
    pub extend: Option<unsafe extern "C" fn(*mut c_void, u64) -> bool>,
    pub user: *mut c_void,
}

impl dt_udp_keeper {
    /// All fields 0.
    pub const fn new() -> Self {
        Self {
            since: 0,
            until: 0,
            noted: 0,
            extend: None,
            user: core::ptr::null_mut(),
        }
    }
}

impl Default for dt_udp_keeper {
    fn default() -> Self {
        Self::new()
    }
}

/// Zero the struct, and set `size` and what you need.
#[repr(C)]
#[derive(Clone, Copy, Debug)]
pub struct dt_udp_state_options {
    /// sizeof(struct dt_udp_state_options)
    pub size: u32,
    /// number of the node
    pub node: u32,
    /// of the network; copied
    pub params: *const dt_params,
    /// its path; it is made if it isn't there
    pub folder: *const c_char,
    /// 36 of "0-9a-f-": names what the readings count from \[the system's name of this start of the machine, from
    /// which CLOCK_BOOTTIME counts\]
    pub boot: *const c_char,
    /// with `boot`: ns by which the readings are ahead of those of other processes
    pub clock_ahead: i64,
    /// DT_UDP_START_BY_STATE, or DT_UDP_START_AGAIN: as in options.start_as
    pub start_as: u8,
    /// as DT_UDP_FLAG_PARAMS_CHANGED
    pub params_changed: bool,
}

impl dt_udp_state_options {
    /// All fields 0, and `size` as it has to be.
    pub const fn new() -> Self {
        Self {
            size: core::mem::size_of::<Self>() as u32,
            node: 0,
            params: core::ptr::null(),
            folder: core::ptr::null(),
            boot: core::ptr::null(),
            clock_ahead: 0,
            start_as: 0,
            params_changed: false,
        }
    }
}

impl Default for dt_udp_state_options {
    fn default() -> Self {
        Self::new()
    }
}

/// How the node starts, as its folder says.
#[repr(C)]
#[derive(Clone, Copy, Debug)]
pub struct dt_udp_state_start {
    /// one line: what that rests on
    pub why: *const c_char,
    /// a file that was damaged or gone, for an operator; else empty
    pub warning: [c_char; 64],
    /// the last that was counted: no earlier life of the node had it
    pub life: u32,
    /// enum dt_start
    pub start: u8,
}

impl dt_udp_state_start {
    /// All fields 0.
    pub const fn new() -> Self {
        Self {
            why: core::ptr::null(),
            warning: [0; 64],
            life: 0,
            start: 0,
        }
    }
}

impl Default for dt_udp_state_start {
    fn default() -> Self {
        Self::new()
    }
}

/// A datagram that arrived.
#[repr(C)]
#[derive(Clone, Copy, Debug)]
pub struct dt_udp_datagram {
    pub octets: *const u8,
    pub len: usize,
    pub now: u64,
    pub waited_ms: u32,
    pub link: u16,
}

impl dt_udp_datagram {
    /// All fields 0.
    pub const fn new() -> Self {
        Self {
            octets: core::ptr::null(),
            len: 0,
            now: 0,
            waited_ms: 0,
            link: 0,
        }
    }
}

impl Default for dt_udp_datagram {
    fn default() -> Self {
        Self::new()
    }
}

/// Functions that are called in the place of those of the handle, each with its arguments: for a node that keeps a
/// record of its inputs. Slower: a datagram a system call.
#[repr(C)]
#[derive(Clone, Copy, Debug)]
pub struct dt_udp_hooks {
    pub receive: Option<unsafe extern "C" fn(*mut c_void, *const dt_udp_datagram) -> dt_status>,
    pub tick: Option<unsafe extern "C" fn(*mut c_void, u64) -> dt_status>,
    pub wake: Option<unsafe extern "C" fn(*mut c_void) -> u64>,
    /// at most DT_MAX_DATAGRAM octets
    pub next_datagram: Option<unsafe extern "C" fn(*mut c_void, *mut c_void, *mut dt_datagram) -> dt_status>,
    /// the last of next_datagram wasn't sent
    pub not_sent: Option<unsafe extern "C" fn(*mut c_void)>,
    pub user: *mut c_void,
}

impl dt_udp_hooks {
    /// All fields 0.
    pub const fn new() -> Self {
        Self {
            receive: None,
            tick: None,
            wake: None,
            next_datagram: None,
            not_sent: None,
            user: core::ptr::null_mut(),
        }
    }
}

impl Default for dt_udp_hooks {
    fn default() -> Self {
        Self::new()
    }
}

/// Zero the struct, and set `size` and what there is. All of it is the program's, until dt_udp_close.
#[repr(C)]
#[derive(Clone, Copy, Debug)]
pub struct dt_udp_driven {
    /// sizeof(struct dt_udp_driven)
    pub size: u32,
    /// exactly one of the two: it is open
    pub node: *mut dt_node,
    pub service: *mut dt_service,
    /// \[none: the program has no state folder\]
    pub keeper: *mut dt_udp_keeper,
    /// with the watch: those of the node, with their charges
    pub links: *const dt_link,
    pub link_count: usize,
    /// \[none: the functions of deltat.h\]
    pub hooks: *const dt_udp_hooks,
}

impl dt_udp_driven {
    /// All fields 0, and `size` as it has to be.
    pub const fn new() -> Self {
        Self {
            size: core::mem::size_of::<Self>() as u32,
            node: core::ptr::null_mut(),
            service: core::ptr::null_mut(),
            keeper: core::ptr::null_mut(),
            links: core::ptr::null(),
            link_count: 0,
            hooks: core::ptr::null(),
        }
    }
}

impl Default for dt_udp_driven {
    fn default() -> Self {
        Self::new()
    }
}

/// One event of a batch. It has no pointer, so that a binding reads many at once.
#[repr(C)]
#[derive(Clone, Copy, Debug, PartialEq, Eq, Hash)]
pub struct dt_udp_item {
    /// of an end, or of the request's token
    pub call: u64,
    /// where its octets are in the room, and how many; of TOO_BIG: of the datagram
    pub at: u32,
    /// where its octets are in the room, and how many; of TOO_BIG: of the datagram
    pub len: u32,
    /// of a request, or of REPLY_UNCERTAIN; of TOO_BIG its target is the peer
    pub flow: dt_flow,
    /// enum dt_udp_event_kind
    pub kind: u8,
    /// of UNSURE: enum dt_cause
    pub cause: u8,
    /// of an end: what dt_udp_make_call was given
    pub user: u64,
}

impl dt_udp_item {
    /// All fields 0.
    pub const fn new() -> Self {
        Self {
            call: 0,
            at: 0,
            len: 0,
            flow: dt_flow::new(),
            kind: 0,
            cause: 0,
            user: 0,
        }
    }
}

impl Default for dt_udp_item {
    fn default() -> Self {
        Self::new()
    }
}

/// A call of a batch. Its octets are behind those of the call before.
#[repr(C)]
#[derive(Clone, Copy, Debug, PartialEq, Eq, Hash)]
pub struct dt_udp_batch_call {
    pub flow: dt_flow,
    pub timeout_ms: u32,
    pub len: u32,
    pub user: u64,
}

impl dt_udp_batch_call {
    /// All fields 0.
    pub const fn new() -> Self {
        Self {
            flow: dt_flow::new(),
            timeout_ms: 0,
            len: 0,
            user: 0,
        }
    }
}

impl Default for dt_udp_batch_call {
    fn default() -> Self {
        Self::new()
    }
}

/// Zero the struct, and set the first four.
#[repr(C)]
#[derive(Clone, Copy, Debug)]
pub struct dt_udp_batch {
    pub items: *mut dt_udp_item,
    pub octets: *mut u8,
    /// room for so many items, and for so many octets: at least DT_MAX_PAYLOAD
    pub max_items: u32,
    /// room for so many items, and for so many octets: at least DT_MAX_PAYLOAD
    pub size: u32,
    /// set: how many items there are, and octets
    pub count: u32,
    /// set: how many items there are, and octets
    pub used: u32,
    /// \[null\] room for DT_UDP_MAX_HEARD nodes
    pub heard: *mut u32,
    /// set: the nodes whose datagrams were passed in, each at least once; DT_UDP_MAX_HEARD also if there were more
    pub heard_count: u32,
    /// set: the guard of a driven node dropped a datagram
    pub blocked: bool,
    /// set: enum dt_udp_alarm of the node `alarm_peer`, or 0; each batch has one at most
    pub alarm: u8,
    pub alarm_peer: u32,
    /// \[null\] `call_count` calls to make first, as by dt_udp_make_call
    pub calls: *const dt_udp_batch_call,
    pub payloads: *const u8,
    /// set: how many of them were made. If one wasn't, those after it aren't tried,
    pub call_count: u32,
    /// set: how many of them were made. If one wasn't, those after it aren't tried,
    pub calls_made: u32,
    /// set: this says why, and nothing is waited for
    pub refused: dt_call_result,
}

impl dt_udp_batch {
    /// All fields 0.
    pub const fn new() -> Self {
        Self {
            items: core::ptr::null_mut(),
            octets: core::ptr::null_mut(),
            max_items: 0,
            size: 0,
            count: 0,
            used: 0,
            heard: core::ptr::null_mut(),
            heard_count: 0,
            blocked: false,
            alarm: 0,
            alarm_peer: 0,
            calls: core::ptr::null(),
            payloads: core::ptr::null(),
            call_count: 0,
            calls_made: 0,
            refused: dt_call_result::new(),
        }
    }
}

impl Default for dt_udp_batch {
    fn default() -> Self {
        Self::new()
    }
}

extern "C" {
    /// Computes the parameters for a network whose nodes have drivers with a watch, and the charge of its links: as
    /// dt_params_for, of links whose MTU is less by the trailer and whose longest delay is longer by two round
    /// trips. So long may the age of a datagram be above the time that it was under way (docs/watch.md). Returns
    /// what dt_params_for does.
    pub fn dt_udp_params_for(
        network: *const dt_network,
        params: *mut dt_params,
        charge: *mut u32,
    ) -> dt_status;

    /// Returns the interface version of the library. Compare it with DT_UDP_ABI_VERSION first.
    pub fn dt_udp_abi_version() -> u32;

    /// Draws a node number that nobody had, but by chance: from 65,536 to 4,294,967,295. Start it with
    /// DT_UDP_START_FIRST; it needs no state folder. Returns 0 if the system has no random octets.
    pub fn dt_udp_fresh_number() -> u32;

    /// Opens a node or a service and binds its socket. Returns null if that fails, and `error` says why; then
    /// nothing is left open. Cost: about 2 MB of buffers, of which only what is used becomes resident.
    pub fn dt_udp_open(options: *const dt_udp_options, error: *mut dt_udp_error) -> *mut dt_udp;

    /// Closes the socket and the node, and frees the memory. Sends nothing: call dt_udp_drain first if what was
    /// sent should still arrive. In a forked child it frees the child's copy only.
    pub fn dt_udp_close(udp: *mut dt_udp);

    /// Sets the address of a node. A name is looked up by getaddrinfo now, which may block, and not again. If it
    /// has several addresses, datagrams go to one after another until one of them answers. If the node is behind
    /// relays, give the address of the first relay. Called again it replaces the address.
    ///
    /// - `DT_OK`
    /// - `DT_INVALID`: no such host or port, or none of the socket's family; `error` says which
    /// - `DT_NO_MEMORY`: nothing changed
    ///
    /// DT_STOPPED, DT_NOT_OPEN the driver failed, or this is a forked child
    pub fn dt_udp_set_peer(
        udp: *mut dt_udp,
        node: u32,
        host: *const c_char,
        port: *const c_char,
        error: *mut dt_udp_error,
    ) -> dt_status;

    /// Opens a port. Datagrams for other ports are dropped before the node sees them, unless DT_UDP_FLAG_ALL_PORTS
    /// is set. `kind` is DT_PORT_CALLER or DT_PORT_SERVICE for a service, and 0 for a node. A service's port keeps
    /// its kind.
    ///
    /// - `DT_OK`
    /// - `DT_EXISTS`: the port is open already
    /// - `DT_INVALID`: there is no such kind here
    /// - `DT_NO_MEMORY`: nothing changed
    ///
    /// DT_STOPPED, DT_NOT_OPEN the driver failed, or this is a forked child Cost: grows with the number of open
    /// ports.
    pub fn dt_udp_open_port(udp: *mut dt_udp, port: u16, kind: u8) -> dt_status;

    /// Returns what happened next. Waits at most `wait_ms` ms for it (-1: without limit; 0: not at all), and
    /// meanwhile sends and receives what is due. Never returns null.
    pub fn dt_udp_next_event(udp: *mut dt_udp, wait_ms: c_int) -> *const dt_udp_event;

    /// Sends a whole message of 1 to params.cap octets; of a node. As dt_node_send.
    ///
    /// - `DT_FULL`: also: as much is under way to the target as its delay allows; DT_UDP_EVENT_ROOM follows
    /// - `DT_NOT_OPEN`: also: the driver is a service's, failed, or is in a forked child
    pub fn dt_udp_send(
        udp: *mut dt_udp,
        flow: *const dt_flow,
        octets: *const c_void,
        len: usize,
    ) -> dt_send_result;

    /// Makes a call, which ends within `timeout_ms` by an event; of a service. As dt_service_call. If as much is
    /// under way to the target as its delay allows, the call waits in the driver, behind those of its flow, and its
    /// time passes.
    ///
    /// - `DT_FULL`: also: options.max_waiting octets wait already; DT_UDP_EVENT_ROOM follows in each case
    /// - `DT_NOT_OPEN`: also: the driver is a node's, failed, or is in a forked child
    pub fn dt_udp_call(
        udp: *mut dt_udp,
        flow: *const dt_flow,
        octets: *const c_void,
        len: usize,
        timeout_ms: u32,
    ) -> dt_call_result;

    /// Makes a call as dt_udp_call does, with a value of the caller's that its end has: so the caller needs no
    /// table of calls by their numbers.
    ///
    /// - `DT_INVALID`: also: options.size isn't that of the struct
    pub fn dt_udp_make_call(
        udp: *mut dt_udp,
        options: *const dt_udp_call_options,
        octets: *const c_void,
        len: usize,
    ) -> dt_call_result;

    /// Replies to a request, once; of a service. `octets` may be those of the event. As dt_service_reply. A reply
    /// may wait in the driver as a call does; then DT_OK says only that it was kept, and a second one for the same
    /// request is dropped in silence. DT_FULL: as for a call.
    pub fn dt_udp_reply(
        udp: *mut dt_udp,
        token: *const dt_token,
        octets: *const c_void,
        len: usize,
    ) -> dt_reply_result;

    /// Ends a request without a reply, so that there is room for another; of a service. As dt_service_forget.
    pub fn dt_udp_forget(udp: *mut dt_udp, token: *const dt_token) -> dt_status;

    /// Opens ports `first_port` to `first_port` + `lanes` for objects, the same ports at both ends; of a node.
    /// Objects are sent over `lanes` flows at once, a chunk of five segments in each: 64 fill a way of 1 ms, 512
    /// one of 20 ms, where a loss holds up the chunk of its lane only. `max_octets`: of objects that arrive, until
    /// they are taken.
    ///
    /// - `DT_OK`
    /// - `DT_EXISTS`: done before, or one of the ports is open
    /// - `DT_INVALID`: of a service, or the ports end beyond 65,535; nothing changed
    /// - `DT_NO_MEMORY`: some of the ports may be open
    ///
    /// DT_STOPPED, DT_NOT_OPEN the driver failed, or this is a forked child
    pub fn dt_udp_open_objects(
        udp: *mut dt_udp,
        first_port: u16,
        lanes: u16,
        max_octets: u64,
    ) -> dt_status;

    /// Sends an object of at most 2^32 - 1 octets to a node, whole, and at most once. The octets stay yours: keep
    /// them unchanged until DT_UDP_EVENT_PUT_ENDED, which arrives within `timeout_ms` and 2 mpl + r + a.
    ///
    /// - `DT_OK`
    /// - `DT_INVALID`: dt_udp_open_objects wasn't called, the target is this node, `len` is too great, or
    ///   `timeout_ms` is 0
    /// - `DT_NO_MEMORY`: nothing changed
    ///
    /// DT_STOPPED, DT_NOT_OPEN the driver failed, or this is a forked child Cost: objects to one node are sent one
    /// after another; a target takes about 900 octets for each lane.
    pub fn dt_udp_put_object(
        udp: *mut dt_udp,
        target: u32,
        octets: *const c_void,
        len: u64,
        timeout_ms: u32,
    ) -> dt_udp_put_result;

    /// Puts what is due and what was sent on the wire now. dt_udp_next_event does it too.
    pub fn dt_udp_flush(udp: *mut dt_udp);

    /// Sends and receives until every octet that was sent is acknowledged or uncertain, for at most `wait_ms` ms
    /// (-1: without limit). Events wait for dt_udp_next_event meanwhile.
    ///
    /// - `DT_OK`: nothing is outstanding
    /// - `DT_NONE`: the time is over first, or a signal came
    ///
    /// DT_NO_MEMORY, DT_STOPPED, DT_NOT_OPEN the driver failed, or this is a forked child
    pub fn dt_udp_drain(udp: *mut dt_udp, wait_ms: c_int) -> dt_status;

    /// Returns a descriptor that is readable if a datagram arrived or something is due. It belongs to the driver:
    /// only watch it. Returns -1 if the system refuses one, and errno says why.
    pub fn dt_udp_fd(udp: *mut dt_udp) -> c_int;

    /// Returns the UDP port that the socket is bound to; 0 if the system doesn't say.
    pub fn dt_udp_local_port(udp: *mut dt_udp) -> u16;

    /// Returns for how many ms the node is still silent after its start: until then sends and calls are DT_QUIET.
    pub fn dt_udp_silent_ms(udp: *mut dt_udp) -> u64;

    /// Returns the life of this opening: that of the state folder, or of the options.
    pub fn dt_udp_life(udp: *mut dt_udp) -> u32;

    /// Returns the counters, which belong to the driver.
    pub fn dt_udp_get_counts(udp: *mut dt_udp) -> *const dt_udp_counts;

    /// Records what passes from now on into a file, for Wireshark and tools/trace_token.py: each datagram, and each
    /// call, request, reply and end of a call with its token (docs/formats.md, "Recordings"). A file of that name
    /// is replaced; an earlier recording ends. It ends by itself before the file would have more than `max_octets`.
    /// A null `path` ends it, and so does dt_udp_close. What passed since the driver last waited isn't in the file
    /// yet.
    ///
    /// - `DT_OK`
    /// - `DT_INVALID`: the file can't be made; `error` (or null) has the errno. Nothing is recorded
    /// - `DT_NO_MEMORY`: nothing is recorded
    ///
    /// DT_STOPPED, DT_NOT_OPEN the driver failed, or this is a forked child Cost: 256 KB while it records; a copy
    /// of each datagram, and a system call for each wait.
    pub fn dt_udp_record(
        udp: *mut dt_udp,
        path: *const c_char,
        max_octets: u64,
        error: *mut dt_udp_error,
    ) -> dt_status;

    /// Returns whether the driver records: DT_OK; DT_NONE: no; DT_FULL: it ended at `max_octets`; DT_NOT_OPEN: it
    /// ended since the system refused a write, and the file has what was written before.
    pub fn dt_udp_recording(udp: *mut dt_udp) -> dt_status;

    /// Returns the handle of the node or of the service, for calls of deltat.h that the driver doesn't have
    /// (counters, dt_node_count_flow, dt_service_stop ..); null if the driver has the other. Never call what takes
    /// `now`, and never take datagrams, reports, messages or events by it.
    pub fn dt_udp_node(udp: *mut dt_udp) -> *mut dt_node;

    pub fn dt_udp_service(udp: *mut dt_udp) -> *mut dt_service;

    /// Opens a state folder, takes its lock, and counts a life, which is on the disk when this returns. One folder
    /// is for one opening of a node. Returns null if that fails, and `error` says why: DT_EXISTS (another process
    /// has it), DT_INVALID (it is of another node or of other parameters; an option is wrong; no lives are left),
    /// DT_NO_MEMORY, DT_NOT_OPEN (it can't be read or written). Cost: two syncs of the disk. With `params_changed`
    /// it may wait for the rest of a silence.
    pub fn dt_udp_state_open(
        options: *const dt_udp_state_options,
        error: *mut dt_udp_error,
    ) -> *mut dt_udp_state;

    /// Returns how the node starts. It belongs to the state.
    pub fn dt_udp_state_get_start(state: *mut dt_udp_state) -> *const dt_udp_state_start;

    /// Sets `at` to the reading to open the node at: the end of its last life, if that is known, so that the node
    /// is silent for the rest only, or `now`. Until the rest is over nothing is noted.
    ///
    /// - `DT_OK`
    /// - `DT_EXISTS`: it was called before: open another state for another opening
    /// - `DT_NOT_OPEN`: it can't be written, or the state is closed, or this is a forked child; don't open the node
    pub fn dt_udp_state_begin(state: *mut dt_udp_state, now: u64, at: *mut u64) -> dt_status;

    /// Returns the keeper, for dt_udp_drive: the driver notes each input then. It belongs to the state, until that
    /// is freed.
    pub fn dt_udp_state_keeper(state: *mut dt_udp_state) -> *mut dt_udp_keeper;

    /// Notes that at this reading a datagram may leave the node, or is passed in. A program with a wire of its own
    /// calls it before each input of the node, except a tick at which nothing is due. Cost: three comparisons, and
    /// each quarter of the quiet time a write of 125 octets.
    ///
    /// - `DT_OK`
    /// - `DT_NOT_OPEN`: it can't be written, or the state is closed, or this is a forked child: don't do the input
    pub fn dt_udp_state_note(state: *mut dt_udp_state, at: u64) -> dt_status;

    /// Counts one more life, for dt_service_set_life. It is on the disk when this returns. Sets `life` to the last
    /// one.
    ///
    /// - `DT_OK`
    /// - `DT_FULL`: no lives are left
    /// - `DT_NOT_OPEN`: it can't be written, or the state is closed, or this is a forked child
    pub fn dt_udp_state_next_life(state: *mut dt_udp_state, life: *mut u32) -> dt_status;

    /// Returns the errno of the write that failed last, or 0.
    pub fn dt_udp_state_system_error(state: *mut dt_udp_state) -> c_int;

    /// With the node closed: writes when the last datagram left or was passed in, and frees the lock. Later calls
    /// are DT_NOT_OPEN. In a forked child it writes nothing, and the lock stays the parent's.
    ///
    /// - `DT_OK`
    /// - `DT_NOT_OPEN`: it can't be written: the next start counts with what was promised ahead
    pub fn dt_udp_state_close(state: *mut dt_udp_state) -> dt_status;

    /// Frees the memory; null is allowed. A state that wasn't closed leaves what a killed program leaves.
    pub fn dt_udp_state_free(state: *mut dt_udp_state);

    /// As dt_udp_open, with a node of the program, before the first call of that. Of `options` size, node, host,
    /// port, params and flags count; the guard, the ports and the routes are the program's. Without
    /// DT_UDP_FLAG_WITHOUT_WATCH each neighbour needs a driver with a watch; then the program calls
    /// dt_udp_flush_since after each call of the node, since what leaves otherwise counts as made when the driver
    /// was last called. Nothing limits what is under way.
    pub fn dt_udp_drive(
        driven: *const dt_udp_driven,
        options: *const dt_udp_options,
        error: *mut dt_udp_error,
    ) -> *mut dt_udp;

    /// Sets the address of a neighbour, at the other end of a link of the node. What leaves for a node that is no
    /// neighbour goes to one on the same link; what arrives from another address is dropped. DT_INVALID also: of a
    /// driver of dt_udp_open. Else as dt_udp_set_peer, but the route is the program's.
    pub fn dt_udp_set_neighbour(
        udp: *mut dt_udp,
        route: *const dt_route,
        host: *const c_char,
        port: *const c_char,
        error: *mut dt_udp_error,
    ) -> dt_status;

    /// Returns events of a service as dt_udp_next_event does, many at once: makes calls, waits at most `wait_ms` ms
    /// for the first event, sends and receives what is due, and puts what was made meanwhile on the wire. Of a
    /// driven node, and with `max_items` 0, it takes no events, and returns when something arrived or was due.
    /// Alarms aren't among the items.
    ///
    /// - `DT_OK`: `count` events, 0 if there was none in `wait_ms`, or a signal came
    /// - `DT_INVALID`: of a node that isn't driven
    ///
    /// DT_NO_MEMORY, DT_STOPPED, DT_NOT_OPEN the driver can't continue; `count` events waited before that
    pub fn dt_udp_next_batch(
        udp: *mut dt_udp,
        wait_ms: c_int,
        batch: *mut dt_udp_batch,
    ) -> dt_status;

    /// Says that the program called a driven node at the reading `at`, and puts what left the node on the wire:
    /// without the watch what is more than 20 ms old is dropped. If the socket wasn't looked at for 5 ms, does what
    /// is due, as dt_udp_call and dt_udp_reply of a driven node do: so a program may make many calls in one go.
    /// Returns whether it was looked at.
    pub fn dt_udp_flush_since(udp: *mut dt_udp, at: u64) -> bool;

    /// Returns the socket, which belongs to the driver, and the errno of the system call that failed, or 0.
    pub fn dt_udp_socket(udp: *mut dt_udp) -> c_int;

    pub fn dt_udp_system_error(udp: *mut dt_udp) -> c_int;
}
