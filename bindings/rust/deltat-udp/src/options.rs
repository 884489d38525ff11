//! What a driver is opened with.
use std::ffi::CString;
use std::os::unix::ffi::OsStrExt;
use std::path::Path;

use deltat::{Params, ReportKind, Start};
use deltat_sys as c;
use deltat_udp_sys as sys;

use crate::Error;

/// What a driver is opened with. Begin with [`Options::new`], as in
/// `Options { port: 4002, max_peers: 1000, ..Options::new(2, params, charge) }`. Numbers that limit
/// something have usual values, which 0 stands for too.
#[derive(Clone, Copy, Debug, PartialEq, Eq)]
pub struct Options<'a> {
    /// The number of this node, which no other node has.
    pub node: u32,
    /// The parameters of the network, equal at all nodes. [`Params::for_network`] computes them: give it an
    /// `mtu` that is [`TRAILER`](crate::TRAILER) octets less than that of the path.
    pub params: Params,
    /// Longest time in ms that a datagram is under way, 20 ms for each of the two machines included. What
    /// is older is lost; without the watch it may be delivered twice.
    pub charge: u32,
    /// Least time in ms from one datagram that leaves to the next; 0: no limit.
    pub pace: u32,
    /// The number of the link, the same at all nodes: usually 1.
    pub link: u16,
    /// The name or the number of the address to bind. None: every address, of IPv6 and IPv4.
    pub host: Option<&'a str>,
    /// The UDP port to bind. 0: a free one.
    pub port: u16,
    /// How the node starts. None: as the folder `state` says; without `state` that is refused.
    /// `First` with `state` is refused; `Again` with `state` is for a machine that was set back to a
    /// snapshot, and draws the life.
    pub start: Option<Start>,
    /// The folder that keeps starts and lives; it is made if it isn't there. None: the program knows how the
    /// node starts, and `life`.
    pub state: Option<&'a Path>,
    /// A file into which the driver counts, for tools/counters.py: on tmpfs, as below /run. None: it counts for
    /// [`Handle::counts`](crate::Handle::counts) only.
    pub counters: Option<&'a Path>,
    /// The life of this opening of a service without `state`, which no other one of the number has.
    pub life: u32,
    /// Of a service: calls that wait, or have an end that wasn't taken. Usually 1,000.
    pub max_calls: u32,
    /// Of a service: requests without a reply. Usually 1,000.
    pub max_requests: u32,
    /// Of a service: requests of one flow without a reply. Usually 1,000.
    pub max_requests_per_flow: u32,
    /// Of a node: octets of the longest message. Usually 65,536.
    pub max_message: u32,
    /// Of a node: octets of messages that wait for the program before flows aren't read any more. Usually
    /// 1,048,576.
    pub max_queued: u32,
    /// Flows that may have a receiver at one time. Usually 4,096.
    pub max_flows: u32,
    /// Octets of calls and replies that wait in the driver while enough is under way to their peers.
    /// Usually 16,777,216.
    pub max_waiting: u32,
    /// Peers that nobody named and that may be learnt at one time. Usually 0: none is.
    pub max_peers: u32,
    /// Of a node: the kinds of reports that are events. Usually none.
    pub reports: &'a [ReportKind],
    /// Receive at every port, and not only at those that were opened. Usually false.
    pub all_ports: bool,
    /// Measure how old datagrams are (docs/watch.md). Usually true. False to speak with nodes that have no
    /// driver: `charge` must be right then.
    pub watch: bool,
    /// Have the system cut and join datagrams (UDP_SEGMENT, UDP_GRO). Usually true.
    pub segments: bool,
    /// Read and send several datagrams by one system call. Usually true.
    pub batches: bool,
    /// Use the kernel's time stamps. Usually true.
    pub stamps: bool,
    /// With `state`: the parameters were changed, with all nodes stopped. Usually false. If the silence by
    /// the former ones is longer, opening waits for the rest.
    pub params_changed: bool,
}

/// Text that C reads, as long as the options are passed.
pub(crate) struct Texts {
    host: Option<CString>,
    port: CString,
    state: Option<CString>,
    counters: Option<CString>,
    params: c::dt_params,
}

impl Options<'_> {
    /// Options with the usual values: every address, a free port, no state folder and no start, which
    /// [`Node::open`](crate::Node::open) refuses until one of both is named.
    #[must_use]
    pub fn new(node: u32, params: Params, charge: u32) -> Options<'static> {
        Options {
            node,
            params,
            charge,
            pace: 0,
            link: 1,
            host: None,
            port: 0,
            start: None,
            state: None,
            counters: None,
            life: 1,
            max_calls: 1000,
            max_requests: 1000,
            max_requests_per_flow: 1000,
            max_message: 65_536,
            max_queued: 1 << 20,
            max_flows: 4096,
            max_waiting: 1 << 24,
            max_peers: 0,
            reports: &[],
            all_ports: false,
            watch: true,
            segments: true,
            batches: true,
            stamps: true,
            params_changed: false,
        }
    }

    pub(crate) fn texts(&self) -> Result<Texts, Error> {
        Ok(Texts {
            host: self.host.map(|it| text(it.as_bytes(), "host")).transpose()?,
            port: text(self.port.to_string().as_bytes(), "port")?,
            state: self.state.map(|it| text(it.as_os_str().as_bytes(), "state")).transpose()?,
            counters: self
                .counters
                .map(|it| text(it.as_os_str().as_bytes(), "counters"))
                .transpose()?,
            params: self.params.into(),
        })
    }

    /// The options of the header, which point into `texts`.
    pub(crate) fn to_c(self, role: u8, texts: &Texts) -> sys::dt_udp_options {
        let pointer = |it: &Option<CString>| it.as_ref().map_or(std::ptr::null(), |it| it.as_ptr());
        sys::dt_udp_options {
            node: self.node,
            host: pointer(&texts.host),
            port: texts.port.as_ptr(),
            params: &texts.params,
            charge: self.charge,
            pace: self.pace,
            link: self.link,
            role,
            start_as: self.start_as(),
            life: self.life,
            state: pointer(&texts.state),
            counters: pointer(&texts.counters),
            max_calls: self.max_calls,
            max_requests: self.max_requests,
            max_requests_per_flow: self.max_requests_per_flow,
            max_message: self.max_message,
            max_queued: self.max_queued,
            max_flows: self.max_flows,
            max_peers: self.max_peers,
            report_kinds: self.report_kinds(),
            flags: self.flags(),
            max_waiting: self.max_waiting,
            ..sys::dt_udp_options::new()
        }
    }

    fn start_as(&self) -> u8 {
        match self.start {
            None => sys::DT_UDP_START_BY_STATE,
            Some(Start::First) => sys::DT_UDP_START_FIRST,
            Some(Start::Again) => sys::DT_UDP_START_AGAIN,
        }
    }

    fn report_kinds(&self) -> u32 {
        (0..32_u8)
            .filter(|it| self.reports.contains(&ReportKind::from_number(*it)))
            .fold(0, |kinds, it| kinds | 1 << it)
    }

    fn flags(&self) -> u32 {
        let flags = [
            (sys::DT_UDP_FLAG_WITHOUT_SEGMENTS, !self.segments),
            (sys::DT_UDP_FLAG_WITHOUT_BATCHES, !self.batches),
            (sys::DT_UDP_FLAG_WITHOUT_STAMPS, !self.stamps),
            (sys::DT_UDP_FLAG_ALL_PORTS, self.all_ports),
            (sys::DT_UDP_FLAG_PARAMS_CHANGED, self.params_changed),
            (sys::DT_UDP_FLAG_WITHOUT_WATCH, !self.watch),
        ];
        flags.iter().filter(|it| it.1).fold(0, |all, it| all | u32::from(it.0))
    }
}

/// Octets as a text of C.
pub(crate) fn text(octets: &[u8], what: &str) -> Result<CString, Error> {
    CString::new(octets).map_err(|_| Error::Refused {
        text: format!("{what} has an octet 0: {:?}", String::from_utf8_lossy(octets)),
        param: None,
    })
}

#[cfg(test)]
mod tests {
    use super::*;

    const PARAMS: Params = Params {
        mpl: 482,
        r: 450,
        a: 5,
        rto: 90,
        probe: 180,
        seg: 1408,
        cap: 65_536,
        rcap: 65_536,
        window: 65_536,
        run_limit: 1 << 31,
        start: 0,
    };

    #[test]
    fn switches_and_kinds_of_reports_are_bits() {
        let usual = Options::new(2, PARAMS, 294);
        assert_eq!((usual.flags(), usual.report_kinds()), (0, 0));
        let all = Options {
            all_ports: true,
            watch: false,
            segments: false,
            batches: false,
            stamps: false,
            params_changed: true,
            reports: &[ReportKind::Uncertain, ReportKind::SegmentResent],
            ..usual
        };
        let kinds = 1 << c::DT_REPORT_UNCERTAIN | 1 << c::DT_REPORT_SEGMENT_RESENT;
        assert_eq!((all.flags(), all.report_kinds()), (63, kinds));
        assert_eq!(Options { watch: false, ..usual }.flags(), 32);
    }

    #[test]
    fn a_text_with_an_octet_0_is_refused() {
        let why = Options { host: Some("a\0b"), ..Options::new(2, PARAMS, 294) }.texts().err();
        assert_eq!(why.unwrap().to_string(), "host has an octet 0: \"a\\0b\"");
    }
}
