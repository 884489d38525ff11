//! Counters, which begin at 0 and stop at 2^64 - 1.
use deltat_sys as sys;

/// Counts of a node since its opening, without datagrams that the guard blocked.
#[non_exhaustive]
#[derive(Clone, Copy, Debug, PartialEq, Eq, Hash)]
pub struct NodeCounts {
    /// Datagrams that were handled.
    pub datagrams_in: u64,
    /// Datagrams that were refused: `Invalid`, `Malformed`, `Expired` or `Stopped`.
    pub datagrams_refused: u64,
    /// Datagrams that left.
    pub datagrams_out: u64,
    /// Octets of all flows that the node has taken to send.
    pub octets_queued: u64,
    /// Of these, octets that reached the other node.
    pub octets_acknowledged: u64,
    /// Of these, octets that were given up: delivered once or not at all.
    pub octets_uncertain: u64,
    /// Octets that arrived and could be read.
    pub octets_accepted: u64,
    /// Of these, octets that were read.
    pub octets_read: u64,
}

/// Counts of one flow since [`Node::count_flow`](crate::Node::count_flow).
#[non_exhaustive]
#[derive(Clone, Copy, Debug, PartialEq, Eq, Hash)]
pub struct FlowCounts {
    /// Octets that the node has taken to send.
    pub octets_queued: u64,
    /// Of these, octets that reached the other node.
    pub octets_acknowledged: u64,
    /// Of these, octets that were given up: delivered once or not at all.
    pub octets_uncertain: u64,
    /// Octets that arrived and could be read.
    pub octets_accepted: u64,
    /// Of these, octets that were read.
    pub octets_read: u64,
}

/// Counts of datagrams that the guard blocked since the opening.
#[non_exhaustive]
#[derive(Clone, Copy, Debug, PartialEq, Eq, Hash)]
pub struct BlockedCounts {
    /// For a port that isn't open.
    pub closed_port: u64,
    /// Of a new flow, when as many flows as allowed had a receiver.
    pub too_many_flows: u64,
}

/// Counts of messages that a service dropped, by cause.
///
/// `unknown_replies` and `reused_requests` are alarms: a life was used before, or two nodes have one
/// number. Without an alarm neither is ruled out.
#[non_exhaustive]
#[derive(Clone, Copy, Debug, PartialEq, Eq, Hash)]
pub struct CallCounts {
    /// Replies to calls of this life that have ended.
    pub late_replies: u64,
    /// Replies to calls of another life.
    pub old_replies: u64,
    /// Replies to a call that this life hasn't made, or on another flow.
    pub unknown_replies: u64,
    /// Requests with the name of one that is open.
    pub reused_requests: u64,
    /// Incomplete messages: a gap, a new message or the receiver's end.
    pub cut: u64,
    /// Messages above 65,536 octets.
    pub too_long: u64,
    /// Messages below 8 octets.
    pub too_short: u64,
}

impl NodeCounts {
    pub(crate) fn of_c(it: sys::dt_node_counts) -> NodeCounts {
        NodeCounts {
            datagrams_in: it.datagrams_in,
            datagrams_refused: it.datagrams_refused,
            datagrams_out: it.datagrams_out,
            octets_queued: it.octets_queued,
            octets_acknowledged: it.octets_acknowledged,
            octets_uncertain: it.octets_uncertain,
            octets_accepted: it.octets_accepted,
            octets_read: it.octets_read,
        }
    }
}

impl FlowCounts {
    pub(crate) fn of_c(it: sys::dt_flow_counts) -> FlowCounts {
        FlowCounts {
            octets_queued: it.octets_queued,
            octets_acknowledged: it.octets_acknowledged,
            octets_uncertain: it.octets_uncertain,
            octets_accepted: it.octets_accepted,
            octets_read: it.octets_read,
        }
    }
}

impl BlockedCounts {
    pub(crate) fn of_c(it: sys::dt_blocked_counts) -> BlockedCounts {
        BlockedCounts { closed_port: it.closed_port, too_many_flows: it.too_many_flows }
    }
}

impl CallCounts {
    pub(crate) fn of_c(it: sys::dt_call_counts) -> CallCounts {
        CallCounts {
            late_replies: it.late_replies,
            old_replies: it.old_replies,
            unknown_replies: it.unknown_replies,
            reused_requests: it.reused_requests,
            cut: it.cut,
            too_long: it.too_long,
            too_short: it.too_short,
        }
    }
}
