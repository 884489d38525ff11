//! Delta-t nodes and services over one UDP socket, for Linux: messages and calls that are delivered at
//! most once, without a handshake.
//!
//! A [`Service`] makes calls and answers them, a [`Node`] sends and receives messages and objects. Each has
//! a socket, a clock and a timer of its own, by libdeltat-udp, and keeps the duties that a program over the
//! crate `deltat` keeps by hand. A program pulls: [`Udp::next_event`] returns the next event, and meanwhile
//! sends, receives, resends and acknowledges. Nothing calls back, and no thread is started.
//!
//! ```no_run
//! use deltat_udp::{Event, Network, Options, Params, PortKind, Service};
//!
//! # fn main() -> Result<(), Box<dyn std::error::Error>> {
//! let (params, charge) = Params::for_network(&Network { mtu: 1466, ..Network::new(250_000, 50_000) })?;
//! let state = Some("node-2".as_ref());
//! let options = Options { port: 4002, state, max_peers: 1000, ..Options::new(2, params, charge) };
//! let mut service = Service::open(&options)?;
//! service.open_port(20, PortKind::Service)?;
//! loop {
//!     if let Event::Request { token, octets } = service.next_event()? {
//!         let reversed: Vec<u8> = octets.iter().rev().copied().collect();
//!         service.reply(token, &reversed)?;
//!     }
//! }
//! # }
//! ```
//!
//! [`Driven`] is for a node of the crate `deltat` that the program opened, with several links.
//!
//! In another loop, watch the descriptor of a driver for reading (`AsFd`, `AsRawFd`), and when it is
//! readable call [`Udp::next_event_within`] with a wait of 0 until it returns None. The crate
//! `deltat-tokio` does that under tokio.
//!
//! # What a program still has to do
//!
//! If one of these isn't kept, octets may be lost, delivered twice, or acknowledged without having been
//! delivered.
//!
//! - **Charge.** [`Options::charge`] covers the delay of the network, and 20 ms of each of the two
//!   machines. What is older is lost, and without the watch ([`Options::watch`]) it may be delivered twice.
//! - **Alarms.** On [`Event::Alarm`] with [`Alarm::Clock`] the driver of the end whose clock was wrong, or
//!   of both, is dropped and opened again.
//! - **One network.** All nodes have equal parameters, and no two nodes have the same number.
//!   [`fresh_number`] draws one for a client.
//! - **Starts and lives.** [`Options::state`] keeps them. Without it [`Options::start`] and
//!   [`Options::life`] are right.
//! - **Time.** At most 20 ms pass from a send, a call or a reply to [`Udp::next_event`] or
//!   [`Handle::flush`]. A datagram that waits longer is dropped, and is sent again after `rto`.
//!
//! # Processes and threads
//!
//! A driver may move to another thread, and is used by one at a time. It belongs to the process that
//! opened it: in a forked child every call returns [`Error::OtherProcess`], and dropping the copy leaves
//! the parent's as it is.
//!
//! # What is proved
//!
//! The node below the driver is that of libdeltat, whose code is proved. The driver, which is plain C, and
//! this crate are tested; docs/driver.md says how.
#![warn(missing_docs)]
#![deny(unsafe_op_in_unsafe_fn)]

mod counts;
mod driven;
mod driver;
mod error;
mod event;
mod options;

pub use counts::Counts;
pub use deltat::{
    BlockedCounts, CallCounts, Calls, Cause, Flow, InvalidReason, Messages, Network, NodeCounts,
    Params, PortKind, Report, ReportKind, Start, Token,
};
pub use driven::{Driven, DrivenKind, Peer};
pub use driver::{fresh_number, Events, Handle, Kind, Node, Service, Udp};
pub use error::Error;
pub use event::{Alarm, Event, PutOutcome};
pub use options::Options;

/// Octets that the watch puts behind each datagram: give [`Params::for_network`] an `mtu` that is so much
/// less than that of the path.
pub const TRAILER: u32 = deltat_udp_sys::DT_UDP_TRAILER as u32;
