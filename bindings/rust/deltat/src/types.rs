//! What a node is opened with, and what its calls take and return.
use std::fmt;

use deltat_sys as sys;

/// The interface of libdeltat that this crate is for. [`Node::open`](crate::Node::open) and
/// [`Service::open`](crate::Service::open) refuse another one.
pub const ABI_VERSION: u32 = sys::DT_ABI_VERSION;

/// Octets of the longest datagram that leaves a node: each one fits a buffer of this length.
pub const MAX_DATAGRAM: usize = sys::DT_MAX_DATAGRAM;

/// Octets of the longest request or reply: each event fits a buffer of this length.
pub const MAX_PAYLOAD: usize = sys::DT_MAX_PAYLOAD;

/// The parameters of a network, equal at all of its nodes. [`Params::for_network`] and
/// `tools/params.py` compute them, and docs/parameters.md says how.
#[derive(Clone, Copy, Debug, PartialEq, Eq, Hash)]
pub struct Params {
    /// Longest lifetime of a packet in ms: 2 to 86,400,000.
    pub mpl: u32,
    /// From the first transmission of a segment to the last, in ms: 1 to 86,400,000.
    pub r: u32,
    /// Longest delay of an acknowledgement in ms: 1 to 86,400,000.
    pub a: u32,
    /// From one transmission to the next, in ms: 1 to 86,400,000.
    pub rto: u32,
    /// From the last transmission to a window probe, in ms: 1 to 86,400,000, and below
    /// 3 `mpl` + `r` + `a`.
    pub probe: u32,
    /// Most octets of a segment: 1 to 8,192.
    pub seg: u32,
    /// Octets of a flow's send buffer: 1 to 65,536.
    pub cap: u32,
    /// Octets of a flow's receive buffer: 1 to 65,536.
    pub rcap: u32,
    /// Octets of the window of a new send record: 1 to 65,536.
    pub window: u32,
    /// Quantum of sequence numbers: 1 to 2,147,483,648. Use the largest.
    pub run_limit: u32,
    /// First sequence number of a send record: any.
    pub start: u32,
}

impl Params {
    /// How long a node that starts with [`Start::Again`] is silent, in ms. None if a parameter is out
    /// of its range.
    #[must_use]
    pub fn quiet_ms(&self) -> Option<u64> {
        // SAFETY: the pointer is that of a struct of the header, which is only read.
        Some(unsafe { sys::dt_params_quiet_ms(&self.to_c()) }).filter(|it| *it > 0)
    }

    /// A number by which two programs can compare their parameters: equal parameters give equal
    /// numbers. None if a parameter is out of its range.
    #[must_use]
    pub fn fingerprint(&self) -> Option<u64> {
        let mut value = 0;
        // SAFETY: as in `quiet_ms`; the number is written.
        let status = unsafe { sys::dt_params_fingerprint(&self.to_c(), &mut value) };
        (status == sys::DT_OK).then_some(value)
    }

    pub(crate) fn of_c(it: sys::dt_params) -> Params {
        let sys::dt_params {
            mpl, r, a, rto, probe, seg, cap, rcap, window, run_limit, start, ..
        } = it;
        Params { mpl, r, a, rto, probe, seg, cap, rcap, window, run_limit, start }
    }

    pub(crate) fn to_c(self) -> sys::dt_params {
        let Params { mpl, r, a, rto, probe, seg, cap, rcap, window, run_limit, start } = self;
        let c = sys::dt_params::new(); // with its size
        sys::dt_params { mpl, r, a, rto, probe, seg, cap, rcap, window, run_limit, start, ..c }
    }
}

/// A one-way stream of octets from a port of one node to a port of another. The way back is another
/// flow. Written `1:10>2:20`.
#[derive(Clone, Copy, Debug, PartialEq, Eq, Hash, PartialOrd, Ord)]
pub struct Flow {
    /// The node that sends.
    pub source: u32,
    /// The node that receives.
    pub target: u32,
    /// The port at the node that sends.
    pub source_port: u16,
    /// The port at the node that receives.
    pub target_port: u16,
}

impl Flow {
    /// The way back.
    #[must_use]
    pub fn reversed(self) -> Flow {
        let Flow { source, target, source_port, target_port } = self;
        Flow { source: target, target: source, source_port: target_port, target_port: source_port }
    }

    pub(crate) fn of_c(flow: sys::dt_flow) -> Flow {
        let sys::dt_flow { source, target, source_port, target_port } = flow;
        Flow { source, target, source_port, target_port }
    }

    pub(crate) fn to_c(self) -> sys::dt_flow {
        let Flow { source, target, source_port, target_port } = self;
        sys::dt_flow { source, target, source_port, target_port }
    }
}

impl fmt::Display for Flow {
    fn fmt(&self, f: &mut fmt::Formatter<'_>) -> fmt::Result {
        write!(f, "{}:{}>{}:{}", self.source, self.source_port, self.target, self.target_port)
    }
}

/// A link of a node, in both directions.
#[derive(Clone, Copy, Debug, PartialEq, Eq, Hash)]
pub struct Link {
    /// Its number, the same at both ends. Of two links with one number the first counts.
    pub number: u16,
    /// Longest time in ms that a datagram is under way; taken off the lifetime of each that arrives.
    pub charge: u32,
    /// Least time in ms from one datagram that leaves to the next; 0: no limit.
    pub pace: u32,
}

/// Datagrams for node `to` leave on this link.
#[derive(Clone, Copy, Debug, PartialEq, Eq, Hash)]
pub struct Route {
    /// The node. Of two routes to one node the first counts.
    pub to: u32,
    /// The number of the link. A route over an unknown link leads nowhere.
    pub link: u16,
}

/// How a node starts. There is no default: after a wrong `First` octets may be delivered twice, or be
/// acknowledged without having been delivered.
#[derive(Clone, Copy, Debug, PartialEq, Eq, Hash)]
pub enum Start {
    /// The number was never used, or not for [`Params::quiet_ms`].
    First,
    /// The number may have been used: the node is silent for that time.
    Again,
}

impl Start {
    pub(crate) fn to_c(self) -> u8 {
        match self {
            Start::First => sys::DT_START_FIRST,
            Start::Again => sys::DT_START_AGAIN,
        }
    }
}

/// What a node is opened with, beside its parameters.
#[derive(Clone, Copy, Debug, PartialEq, Eq)]
pub struct NodeOptions<'a> {
    /// The number of this node.
    pub node: u32,
    /// The time in ms.
    pub now: u64,
    /// Its links. Each with a pace reserves room for 64 datagrams of `seg` and 30 octets.
    pub links: &'a [Link],
    /// Its routes. Others can be added later.
    pub routes: &'a [Route],
    /// How it starts.
    pub start: Start,
}

/// A datagram to put on the wire: `len` octets at the head of the buffer.
#[derive(Clone, Copy, Debug, PartialEq, Eq, Hash)]
pub struct Datagram {
    /// Its octets.
    pub len: usize,
    /// The number of the link that it leaves on.
    pub link: u16,
    /// The node that it is for; with relays between, not the next one.
    pub to: u32,
}
