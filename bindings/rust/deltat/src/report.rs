//! Reports: what a node did or met.
use deltat_sys as sys;

use crate::Flow;

/// What a report says, and the fields it sets beside `flow`; others are 0 or false.
#[non_exhaustive]
#[derive(Clone, Copy, Debug, PartialEq, Eq, Hash)]
pub enum ReportKind {
    /// The node has taken `count` octets to send.
    SendQueued,
    /// A send met the silence, which ends at `time`.
    SendQuiet,
    /// A send found room for `count` octets only.
    SendFull,
    /// First transmission of a segment: `number` of its first octet, `count`, `begin`, `end`; `run`:
    /// nothing before it is outstanding.
    SegmentSent,
    /// Later transmission of a segment; as above.
    SegmentResent,
    /// A closed window was probed at `number`.
    ProbeSent,
    /// `count` octets were given up: delivered once or not at all.
    Uncertain,
    /// The send record (`sending`) or the receive record is gone. What is unread can be read.
    RecordReleased,
    /// The send record began again, for octets that wait.
    RecordRenewed,
    /// An owed acknowledgement left: `number`, `window`.
    AckSent,
    /// A packet was answered at once: `number`, `window`.
    ReplySent,
    /// `count` octets from `number` on can be read; `run`: octets before them may be missing.
    Accepted,
    /// A packet of no use: `number`.
    PacketDropped,
    /// The sender says that no more octets follow `number`.
    RunEnded,
    /// `count` octets reached the other node; `window`.
    Acknowledged,
    /// An acknowledgement of no use: `number`, `window`.
    AckIgnored,
    /// A packet met the silence, which ends at `time`; no flow.
    PacketQuiet,
    /// Octets were read: `begin`, `end`, `run`.
    Read,
    /// A read found nothing.
    ReadNone,
    /// A packet left on link `number`, with lifetime `count`; no flow.
    PacketOut,
    /// A packet from link `number` had no lifetime left; no flow.
    ExpiredIn,
    /// A packet for link `number` had no lifetime left; no flow.
    ExpiredOut,
    /// There is no route to node `number`; no flow.
    NoRoute,
    /// 64 packets wait for link `number`, so a packet is lost; no flow.
    LinkFull,
    /// A packet isn't valid: the number of a [`Fault`](crate::Fault) in `number`, its value in
    /// `count`; no flow.
    PacketMalformed,
    /// A kind that this crate doesn't know.
    Unknown(u8),
}

impl ReportKind {
    pub(crate) fn of_c(kind: u8) -> ReportKind {
        match kind {
            sys::DT_REPORT_SEND_QUEUED => ReportKind::SendQueued,
            sys::DT_REPORT_SEND_QUIET => ReportKind::SendQuiet,
            sys::DT_REPORT_SEND_FULL => ReportKind::SendFull,
            sys::DT_REPORT_SEGMENT_SENT => ReportKind::SegmentSent,
            sys::DT_REPORT_SEGMENT_RESENT => ReportKind::SegmentResent,
            sys::DT_REPORT_PROBE_SENT => ReportKind::ProbeSent,
            sys::DT_REPORT_UNCERTAIN => ReportKind::Uncertain,
            sys::DT_REPORT_RECORD_RELEASED => ReportKind::RecordReleased,
            sys::DT_REPORT_RECORD_RENEWED => ReportKind::RecordRenewed,
            sys::DT_REPORT_ACK_SENT => ReportKind::AckSent,
            sys::DT_REPORT_REPLY_SENT => ReportKind::ReplySent,
            sys::DT_REPORT_ACCEPTED => ReportKind::Accepted,
            sys::DT_REPORT_PACKET_DROPPED => ReportKind::PacketDropped,
            sys::DT_REPORT_RUN_ENDED => ReportKind::RunEnded,
            sys::DT_REPORT_ACKNOWLEDGED => ReportKind::Acknowledged,
            sys::DT_REPORT_ACK_IGNORED => ReportKind::AckIgnored,
            sys::DT_REPORT_PACKET_QUIET => ReportKind::PacketQuiet,
            sys::DT_REPORT_READ => ReportKind::Read,
            sys::DT_REPORT_READ_NONE => ReportKind::ReadNone,
            sys::DT_REPORT_PACKET_OUT => ReportKind::PacketOut,
            sys::DT_REPORT_EXPIRED_IN => ReportKind::ExpiredIn,
            sys::DT_REPORT_EXPIRED_OUT => ReportKind::ExpiredOut,
            sys::DT_REPORT_NO_ROUTE => ReportKind::NoRoute,
            sys::DT_REPORT_LINK_FULL => ReportKind::LinkFull,
            sys::DT_REPORT_PACKET_MALFORMED => ReportKind::PacketMalformed,
            other => ReportKind::Unknown(other),
        }
    }
}

/// What a node did or met. [`ReportKind`] says which fields each kind sets.
#[non_exhaustive]
#[derive(Clone, Copy, Debug, PartialEq, Eq, Hash)]
pub struct Report {
    /// What it says.
    pub kind: ReportKind,
    /// The flow that it is about; zeros if it isn't about a flow.
    pub flow: Flow,
    /// A time in ms.
    pub time: u64,
    /// A sequence number, or a number as its kind says.
    pub number: u32,
    /// Octets, or a count as its kind says.
    pub count: u32,
    /// The window of an acknowledgement, in octets.
    pub window: u32,
    /// The first octet begins a message.
    pub begin: bool,
    /// The last octet ends a message.
    pub end: bool,
    /// The octets begin a run.
    pub run: bool,
    /// It is about the send record, and not the receive record.
    pub sending: bool,
    code: u8,
}

impl Report {
    /// The flow to pass to [`Node::mark_readable`](crate::Node::mark_readable), if the report is one of
    /// those after which that must be called: octets were accepted, or a receive record is gone.
    #[must_use]
    pub fn readable(&self) -> Option<Flow> {
        match self.kind {
            ReportKind::Accepted => Some(self.flow),
            ReportKind::RecordReleased if !self.sending => Some(self.flow),
            _ => None,
        }
    }

    /// The line that the logs of `deltat node` have for this report of node `node` at `now`, as
    /// `120 2 accepted 1:10>2:20 0 5 run`; docs/formats.md describes the lines. That of
    /// [`ReportKind::Read`] ends in a blank: a log has the octets that were read after it.
    #[must_use]
    pub fn line(&self, now: u64, node: u32) -> String {
        let mut text = [0_u8; sys::DT_MAX_REPORT_LINE];
        // SAFETY: the report is a struct of the header, which is only read, and the text is borrowed
        // for the call only.
        let len = unsafe {
            sys::dt_report_line(&self.to_c(), now, node, text.as_mut_ptr().cast(), text.len())
        };
        String::from_utf8_lossy(&text[..len.min(text.len() - 1)]).into_owned()
    }

    fn to_c(self) -> sys::dt_report {
        sys::dt_report {
            flow: self.flow.to_c(),
            time: self.time,
            number: self.number,
            count: self.count,
            window: self.window,
            kind: self.code,
            begin: self.begin,
            end: self.end,
            run: self.run,
            sending: self.sending,
            ..sys::dt_report::new()
        }
    }

    pub(crate) fn of_c(it: sys::dt_report) -> Report {
        Report {
            kind: ReportKind::of_c(it.kind),
            flow: Flow::of_c(it.flow),
            time: it.time,
            number: it.number,
            count: it.count,
            window: it.window,
            begin: it.begin,
            end: it.end,
            run: it.run,
            sending: it.sending,
            code: it.kind,
        }
    }
}
