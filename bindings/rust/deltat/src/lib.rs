//! Delta-t nodes: messages and calls that are delivered at most once, without a handshake.
//!
//! Delta-t carries messages over datagrams that may be lost, repeated, reordered or delayed. No octet
//! is delivered twice, a flow's octets stay in order, and reports say which sent octets were
//! acknowledged and which are uncertain.
//!
//! A [`Node`] has no socket, no clock and no thread. A program passes in datagrams that arrived
//! ([`Endpoint::receive`]), octets to send ([`Node::send`]) and the time; it takes out datagrams to
//! put on the wire ([`Endpoint::next_datagram`]), messages ([`Node::next_message`]), reports
//! ([`Node::next_report`]) and the time of the next call ([`Endpoint::wake`]). A [`Service`] makes
//! and answers calls instead. Both are kinds of [`Endpoint`], which has the calls that they share.
//! The crate `deltat-udp` has nodes and services over UDP sockets, and drives those of this crate.
//!
//! Times and durations are in milliseconds and lengths in octets, unless a name says something else.
//!
//! ```
//! use deltat::{Flow, Link, Node, NodeOptions, Params, Route, Start, MAX_DATAGRAM};
//!
//! # fn main() -> Result<(), Box<dyn std::error::Error>> {
//! let params = Params {
//!     mpl: 482, r: 450, a: 5, rto: 90, probe: 180, seg: 1442,
//!     cap: 65536, rcap: 65536, window: 65536, run_limit: 1 << 31, start: 0,
//! };
//! let links = [Link { number: 1, charge: 294, pace: 0 }];
//! let open = |node, other| {
//!     let routes = [Route { to: other, link: 1 }];
//!     Node::open(&params, &NodeOptions { node, now: 0, links: &links, routes: &routes, start: Start::First })
//! };
//! let (mut one, mut two) = (open(1, 2)?, open(2, 1)?);
//! two.enable_messages(65_536)?;
//!
//! let flow = Flow { source: 1, target: 2, source_port: 10, target_port: 20 };
//! one.send(1, flow, b"hello", true, true)?;
//! let mut buf = [0; MAX_DATAGRAM];
//! while let Some(datagram) = one.next_datagram(&mut buf)? {
//!     two.receive(2, 1, &buf[..datagram.len], 0)?; // it arrived, and didn't wait
//! }
//! two.take_reports(|report| println!("{}", report.line(2, 2)))?;
//! let message = two.next_message(3, &mut buf)?.expect("it arrived whole");
//! assert_eq!(&buf[..message.len], b"hello");
//! # Ok(())
//! # }
//! ```
//!
//! # Duties of the caller
//!
//! The library can't check these. If one is broken, octets may be delivered twice, or be acknowledged
//! without having been delivered, and no call says so. This crate keeps the first two duties of
//! include/deltat.h, memory and threads. Over UDP the crate `deltat-udp` keeps the clock, the wait, and the
//! part of the delay that is on this machine.
//!
//! - **Clock.** Take the time from one clock that never steps back, runs at the right rate and keeps
//!   counting while the machine sleeps: [`now`], and not [`std::time::Instant`].
//! - **Delay.** No datagram is under way on a link for longer than the receiver's [`Link::charge`].
//!   Put datagrams on the wire after each call, and drop one that is later than the charge allows.
//! - **Wait.** Pass at least the time that a datagram waited on this machine to [`Endpoint::receive`].
//!   If that is the time since the socket was last found empty, read the clock before each look at the
//!   socket, and note that reading if the look finds nothing.
//! - **Intact datagrams.** Don't pass in a datagram that was changed on its way.
//! - **Restart.** Open a node number that may have been used less than [`Params::quiet_ms`] ago with
//!   [`Start::Again`].
//! - **One network.** All nodes have equal parameters, and no two nodes have the same number.
//! - **Lives and ports**, of services: see [`Service`].
//!
//! # Processes
//!
//! A node belongs to the process that opened it. A forked child has a copy of the node's memory: used
//! in both processes, it would be two nodes with one number, which take each other's
//! acknowledgements and answers. So in a child every call returns [`Error::OtherProcess`], and
//! dropping the copy doesn't touch it. A child that needs a node opens one with a number of its own.
//! Each call compares the identifier of the process with that at the opening, which costs a `getpid`.
//! A child that has its parent's identifier, in a new namespace of processes, isn't recognized.
//!
//! # What is proved
//!
//! What each call of libdeltat does is proved against its contract, and what the calls of all nodes
//! of a network give together, under these duties; docs/library.md says how far. This crate, which
//! makes those calls, is tested.
#![warn(missing_docs)]
#![deny(unsafe_op_in_unsafe_fn)]

mod clock;
mod convert;
mod counts;
mod endpoint;
mod error;
mod network;
mod node;
mod report;
mod service;
mod types;

pub use clock::now;
pub use counts::{BlockedCounts, CallCounts, FlowCounts, NodeCounts};
pub use endpoint::{Calls, Endpoint, Kind, Messages};
pub use error::{Declined, Error, Fault, InvalidReason, NotReplied};
pub use network::Network;
pub use node::{Message, Node, Piece};
pub use report::{Report, ReportKind};
pub use service::{Cause, Event, PortKind, Service, ServiceOptions, Token};
pub use types::{
    Datagram, Flow, Link, NodeOptions, Params, Route, Start, ABI_VERSION, MAX_DATAGRAM, MAX_PAYLOAD,
};

/// The version of libdeltat that the program is linked to, as "0.3.0".
#[must_use]
pub fn version() -> &'static str {
    // SAFETY: what dt_version returns is constant text, which ends with a 0.
    unsafe { std::ffi::CStr::from_ptr(deltat_sys::dt_version()) }.to_str().unwrap_or("unknown")
}
