//! What a driver hands out.
use deltat::{Cause, Flow, Report, Token};
use deltat_sys as c;
use deltat_udp_sys as sys;

/// What happened. `B` is `&[u8]` where the octets are lent, and `Vec<u8>` where they are the program's
/// ([`Event::into_owned`]).
#[non_exhaustive]
#[derive(Clone, Debug, PartialEq, Eq)]
pub enum Event<B> {
    /// A message arrived, whole. Of a node.
    Message {
        /// The flow that it arrived on.
        flow: Flow,
        /// Its octets.
        octets: B,
        /// Octets of the flow before this message may be missing. True for the first message of a flow too.
        gap: bool,
    },
    /// A request arrived: answer it by [`Handle::reply`](crate::Handle::reply), now or later. Of a service.
    Request {
        /// Its name.
        token: Token,
        /// The octets of its payload.
        octets: B,
    },
    /// A call ended with its answer. Of a service.
    Answered {
        /// The number of the call.
        call: u64,
        /// What was passed to [`Handle::call_with`](crate::Handle::call_with) with it, else 0.
        user: u64,
        /// The octets of the answer.
        octets: B,
    },
    /// A call ended without an answer: it was served once, not at all, or will be. Of a service.
    Unsure {
        /// The number of the call.
        call: u64,
        /// What was passed to [`Handle::call_with`](crate::Handle::call_with) with it, else 0.
        user: u64,
        /// Why it ended.
        cause: Cause,
    },
    /// Replies to requests of a flow were given up: each was delivered once or not at all, and its caller
    /// gets no report. Happens again for this flow only after this event was taken. Of a service.
    ReplyUncertain {
        /// The flow of the requests.
        flow: Flow,
    },
    /// A report that [`Options::reports`](crate::Options::reports) asks for. Of a node.
    Report(Report),
    /// A datagram doesn't fit the path: make [`Params::seg`](crate::Params::seg) smaller at all nodes.
    TooBig {
        /// The node that it was for.
        peer: u32,
        /// Its octets.
        len: usize,
    },
    /// An object of another node arrived, whole. Of a node.
    Object {
        /// Its number, which no other object of any opening has, but by chance.
        object: u64,
        /// The node that sent it.
        peer: u32,
        /// Its octets.
        octets: B,
    },
    /// An object that was put is over. Of a node.
    PutEnded {
        /// Its number.
        object: u64,
        /// What became of it.
        outcome: PutOutcome,
    },
    /// Nothing of this peer passes any more. Happens once for each opening of the peer.
    Alarm {
        /// The node.
        peer: u32,
        /// Why, and what to do.
        alarm: Alarm,
    },
    /// After an [`Error::Full`](crate::Error::Full): there may be room again.
    Room,
    /// A kind of event that this crate doesn't know.
    Unknown(u8),
}

/// What the watch found wrong with a peer (docs/watch.md).
#[non_exhaustive]
#[derive(Clone, Copy, Debug, PartialEq, Eq, Hash)]
pub enum Alarm {
    /// One of the two clocks stood, was set, or is wrong by more than 100 parts in a million. Drop the driver
    /// of the end whose clock it was, or of both, and open it again.
    Clock,
    /// The peer has other parameters.
    Parameters,
    /// One of the two has a watch and the other hasn't: open both with [`Options::watch`](crate::Options::watch),
    /// or both without. Happens once for each peer.
    Watch,
    /// A cause that this crate doesn't know.
    Unknown(u8),
}

/// What became of an object that was put.
#[non_exhaustive]
#[derive(Clone, Copy, Debug, PartialEq, Eq, Hash)]
pub enum PutOutcome {
    /// The peer has it whole.
    Whole,
    /// The peer has no room for it.
    NoRoom,
    /// The time is over: the peer may have it.
    Uncertain,
    /// An outcome that this crate doesn't know.
    Unknown(u8),
}

impl Alarm {
    pub(crate) fn of_c(cause: u8) -> Alarm {
        match cause {
            sys::DT_UDP_ALARM_CLOCK => Alarm::Clock,
            sys::DT_UDP_ALARM_PARAMETERS => Alarm::Parameters,
            sys::DT_UDP_ALARM_WATCH => Alarm::Watch,
            other => Alarm::Unknown(other),
        }
    }
}

impl PutOutcome {
    fn of_c(cause: u8) -> PutOutcome {
        match cause {
            c::DT_OK => PutOutcome::Whole,
            c::DT_FULL => PutOutcome::NoRoom,
            c::DT_NONE => PutOutcome::Uncertain,
            other => PutOutcome::Unknown(other),
        }
    }
}

impl<'a> Event<&'a [u8]> {
    /// An event of a kind with octets, a flow or a number. Those of a driver that failed aren't events here.
    pub(crate) fn of_c(
        it: &sys::dt_udp_event,
        octets: &'a [u8],
        report: Option<Report>,
    ) -> Event<&'a [u8]> {
        match (it.kind, report) {
            (sys::DT_UDP_EVENT_MESSAGE, _) => {
                Event::Message { flow: it.flow.into(), octets, gap: it.gap }
            }
            (sys::DT_UDP_EVENT_REQUEST, _) => Event::Request { token: it.token.into(), octets },
            (sys::DT_UDP_EVENT_ANSWERED, _) => {
                Event::Answered { call: it.call, user: it.user, octets }
            }
            (sys::DT_UDP_EVENT_UNSURE, _) => {
                Event::Unsure { call: it.call, user: it.user, cause: Cause::from_number(it.cause) }
            }
            (sys::DT_UDP_EVENT_REPLY_UNCERTAIN, _) => {
                Event::ReplyUncertain { flow: it.flow.into() }
            }
            (sys::DT_UDP_EVENT_REPORT, Some(report)) => Event::Report(report),
            (sys::DT_UDP_EVENT_TOO_BIG, _) => Event::TooBig { peer: it.peer, len: it.len },
            (sys::DT_UDP_EVENT_OBJECT, _) => {
                Event::Object { object: it.object, peer: it.peer, octets }
            }
            (sys::DT_UDP_EVENT_PUT_ENDED, _) => {
                Event::PutEnded { object: it.object, outcome: PutOutcome::of_c(it.cause) }
            }
            (sys::DT_UDP_EVENT_ALARM, _) => {
                Event::Alarm { peer: it.peer, alarm: Alarm::of_c(it.cause) }
            }
            (sys::DT_UDP_EVENT_ROOM, _) => Event::Room,
            (other, _) => Event::Unknown(other),
        }
    }

    /// The same event with octets of its own, which outlive the next call.
    ///
    /// Cost: copies the octets.
    #[must_use]
    pub fn into_owned(self) -> Event<Vec<u8>> {
        match self {
            Event::Message { flow, octets, gap } => {
                Event::Message { flow, octets: octets.to_vec(), gap }
            }
            Event::Request { token, octets } => Event::Request { token, octets: octets.to_vec() },
            Event::Answered { call, user, octets } => {
                Event::Answered { call, user, octets: octets.to_vec() }
            }
            Event::Object { object, peer, octets } => {
                Event::Object { object, peer, octets: octets.to_vec() }
            }
            Event::Unsure { call, user, cause } => Event::Unsure { call, user, cause },
            Event::ReplyUncertain { flow } => Event::ReplyUncertain { flow },
            Event::Report(report) => Event::Report(report),
            Event::TooBig { peer, len } => Event::TooBig { peer, len },
            Event::PutEnded { object, outcome } => Event::PutEnded { object, outcome },
            Event::Alarm { peer, alarm } => Event::Alarm { peer, alarm },
            Event::Room => Event::Room,
            Event::Unknown(kind) => Event::Unknown(kind),
        }
    }
}
