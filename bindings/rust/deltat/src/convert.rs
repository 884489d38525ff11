//! Between these types and those of deltat-sys, for crates that call libraries over libdeltat.
use deltat_sys as sys;

use crate::{
    BlockedCounts, CallCounts, Cause, Flow, InvalidReason, Link, NodeCounts, Params, Report,
    ReportKind, Token,
};

impl From<sys::dt_flow> for Flow {
    fn from(it: sys::dt_flow) -> Flow {
        Flow::of_c(it)
    }
}

impl From<Flow> for sys::dt_flow {
    fn from(it: Flow) -> sys::dt_flow {
        it.to_c()
    }
}

impl From<sys::dt_token> for Token {
    fn from(it: sys::dt_token) -> Token {
        Token { call: it.call, flow: it.flow.into() }
    }
}

impl From<Token> for sys::dt_token {
    fn from(it: Token) -> sys::dt_token {
        it.to_c()
    }
}

impl From<sys::dt_report> for Report {
    fn from(it: sys::dt_report) -> Report {
        Report::of_c(it)
    }
}

impl From<Params> for sys::dt_params {
    fn from(it: Params) -> sys::dt_params {
        it.to_c()
    }
}

impl From<Link> for sys::dt_link {
    fn from(it: Link) -> sys::dt_link {
        sys::dt_link { charge: it.charge, pace: it.pace, number: it.number, reserved: 0 }
    }
}

impl Cause {
    /// The cause with this number of `enum dt_cause`.
    #[must_use]
    pub fn from_number(number: u8) -> Cause {
        Cause::of_c(number)
    }
}

impl InvalidReason {
    /// The reason with this number of `enum dt_invalid`.
    #[must_use]
    pub fn from_number(number: u8) -> InvalidReason {
        InvalidReason::of_c(number)
    }
}

impl ReportKind {
    /// The kind with this number of `enum dt_report_kind`.
    #[must_use]
    pub fn from_number(number: u8) -> ReportKind {
        ReportKind::of_c(number)
    }
}

impl From<sys::dt_node_counts> for NodeCounts {
    fn from(it: sys::dt_node_counts) -> NodeCounts {
        NodeCounts::of_c(it)
    }
}

impl From<sys::dt_blocked_counts> for BlockedCounts {
    fn from(it: sys::dt_blocked_counts) -> BlockedCounts {
        BlockedCounts::of_c(it)
    }
}

impl From<sys::dt_call_counts> for CallCounts {
    fn from(it: sys::dt_call_counts) -> CallCounts {
        CallCounts::of_c(it)
    }
}
