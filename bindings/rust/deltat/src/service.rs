//! Services, which make and answer calls.

use deltat_sys as sys;

use crate::endpoint::Calls;
use crate::{
    CallCounts, Declined, Endpoint, Error, Flow, InvalidReason, NodeOptions, NotReplied, Params,
};

/// An [`Endpoint`] that makes calls and answers them.
///
/// A request is handed out at most once, requests of a flow in the order in which they were made, an
/// answer is the service's own answer to that very call, and a call ends at most once: under the
/// duties of the crate, and these.
///
/// - **Lives.** No two openings of a node number, and no [`set_life`](Service::set_life), use the same
///   life. Count it in a file that is written, and synced if the machine may crash, before the first
///   call; or draw it at random.
/// - **Ports.** A port is a caller's or a service's for the whole of one life, and callers call only
///   service ports.
///
/// Each call that takes the time reads what arrived, hands out requests, and ends calls that were
/// answered, given up or timed out. docs/service.md says what to do with an unsure call.
pub type Service = Endpoint<Calls>;

/// What a port is for, until the service is dropped.
#[derive(Clone, Copy, Debug, PartialEq, Eq, Hash)]
pub enum PortKind {
    /// Calls are made from it.
    Caller,
    /// Requests arrive at it.
    Service,
}

/// What a service is opened with, beside the options of its node.
#[derive(Clone, Copy, Debug, PartialEq, Eq, Hash)]
pub struct ServiceOptions {
    /// The life of this opening, which no other one of the node number has.
    pub life: u32,
    /// Most calls that wait or have an end that wasn't taken.
    pub max_calls: u32,
    /// Most requests without a reply, and also most that wait to be taken. At a limit of requests flows
    /// aren't read any more; nothing is dropped.
    pub max_requests: u32,
    /// Most requests of one flow without a reply.
    pub max_requests_per_flow: u32,
}

/// The name of a request. It may be stored, compared and logged.
#[derive(Clone, Copy, Debug, PartialEq, Eq, Hash, PartialOrd, Ord)]
pub struct Token {
    /// The number of its call: the life in the upper 32 bits, a count in the lower.
    pub call: u64,
    /// The flow that it arrived on.
    pub flow: Flow,
}

impl Token {
    pub(crate) fn to_c(self) -> sys::dt_token {
        sys::dt_token { call: self.call, flow: self.flow.to_c() }
    }
}

/// Why a call is unsure.
#[non_exhaustive]
#[derive(Clone, Copy, Debug, PartialEq, Eq, Hash)]
pub enum Cause {
    /// Octets of the request weren't acknowledged in time.
    GivenUp,
    /// No answer came within the timeout.
    Timeout,
    /// The service stopped.
    Stopped,
    /// A cause that this crate doesn't know.
    Unknown(u8),
}

impl Cause {
    pub(crate) fn of_c(cause: u8) -> Cause {
        match cause {
            sys::DT_CAUSE_GIVEN_UP => Cause::GivenUp,
            sys::DT_CAUSE_TIMEOUT => Cause::Timeout,
            sys::DT_CAUSE_STOPPED => Cause::Stopped,
            other => Cause::Unknown(other),
        }
    }
}

/// What happened. A payload is `len` octets at the head of the buffer.
#[non_exhaustive]
#[derive(Clone, Copy, Debug, PartialEq, Eq, Hash)]
pub enum Event {
    /// A request arrived. Answer it by [`Service::reply`], now or later.
    Request {
        /// Its name.
        token: Token,
        /// The octets of its payload.
        len: usize,
    },
    /// A call of this service ended with its answer.
    Answered {
        /// The number of the call.
        call: u64,
        /// What was passed to [`Service::call`] with it.
        user: u64,
        /// The octets of the answer.
        len: usize,
    },
    /// A call of this service ended without an answer: it was served once, not at all, or will be.
    Unsure {
        /// The number of the call.
        call: u64,
        /// What was passed to [`Service::call`] with it.
        user: u64,
        /// Why it ended.
        cause: Cause,
    },
    /// Replies to requests of a flow were given up: each was delivered once or not at all, and its
    /// caller gets no report. Happens again for this flow only after this event was taken.
    ReplyUncertain {
        /// The flow of the requests.
        flow: Flow,
    },
    /// A kind of event that this crate doesn't know.
    Unknown(u8),
}

impl Event {
    fn of_c(it: sys::dt_event) -> Event {
        match it.kind {
            sys::DT_EVENT_REQUEST => Event::Request {
                token: Token { call: it.call, flow: Flow::of_c(it.flow) },
                len: it.len,
            },
            sys::DT_EVENT_ANSWERED => Event::Answered { call: it.call, user: it.user, len: it.len },
            sys::DT_EVENT_UNSURE => {
                Event::Unsure { call: it.call, user: it.user, cause: Cause::of_c(it.cause) }
            }
            sys::DT_EVENT_REPLY_UNCERTAIN => Event::ReplyUncertain { flow: Flow::of_c(it.flow) },
            other => Event::Unknown(other),
        }
    }
}

impl Endpoint<Calls> {
    /// Opens a service. No port has a kind yet, and messages for a port without a kind aren't read.
    ///
    /// # Errors
    ///
    /// `Invalid`: a parameter is out of its range. `OutOfMemory`. `OtherInterface`.
    pub fn open(
        params: &Params,
        options: &NodeOptions<'_>,
        limits: &ServiceOptions,
    ) -> Result<Service, Error> {
        let limits = sys::dt_service_options {
            life: limits.life,
            max_calls: limits.max_calls,
            max_requests: limits.max_requests,
            max_requests_per_flow: limits.max_requests_per_flow,
            ..sys::dt_service_options::new()
        };
        Endpoint::open_by(params, options, |handle, params, options| {
            // SAFETY: a fresh handle; the structs and what they point to are only read.
            unsafe { sys::dt_service_open(handle, params, options, &limits) }
        })
    }

    /// Makes a port a caller's or a service's.
    ///
    /// # Errors
    ///
    /// `Exists`: the port has a kind. `OutOfMemory`: nothing changed, and the service is usable.
    pub fn set_port(&mut self, port: u16, kind: PortKind) -> Result<(), Error> {
        let kind = match kind {
            PortKind::Caller => sys::DT_PORT_CALLER,
            PortKind::Service => sys::DT_PORT_SERVICE,
        };
        // SAFETY: the handle was made in `open`, and `&mut self` lets one call at a time in. So below.
        Error::check(unsafe { sys::dt_service_set_port(self.handle()?, port, kind) })
    }

    /// Makes a call on a flow from a caller's port, and returns its number. It ends by an event with this
    /// number and with `user`, which the library doesn't look at: at the latest in the first call that takes
    /// a time of `timeout_ms` or more after this one.
    /// First does what is due at `now`. Put the datagrams that it made on the wire.
    ///
    /// # Errors
    ///
    /// [`Declined`] says why the call wasn't made. `Invalid` has as its reason `Flow`, `Port`, `Length`
    /// (payload and 8 octets are more than [`Params::cap`]), `Timeout` or `Total`.
    pub fn call(
        &mut self,
        now: u64,
        flow: Flow,
        payload: &[u8],
        timeout_ms: u32,
        user: u64,
    ) -> Result<u64, Declined> {
        let handle = self.handle()?;
        let (flow, len) = (flow.to_c(), payload.len());
        // SAFETY: as in `set_port`; pointer and length are those of a slice.
        let it = unsafe {
            sys::dt_service_call(handle, now, &flow, payload.as_ptr(), len, timeout_ms, user)
        };
        match it.status {
            sys::DT_QUIET => Err(Declined::Quiet { until: it.quiet_until }),
            sys::DT_FULL => Err(Declined::Full { free: it.free }),
            sys::DT_TOO_MANY_CALLS => Err(Declined::TooManyCalls),
            sys::DT_LIFE_USED_UP => Err(Declined::LifeUsedUp),
            status => {
                Error::check_for(status, InvalidReason::of_c(it.invalid))?;
                Ok(it.call)
            }
        }
    }

    /// Replies to a request, once. First does what is due at `now`. Put the datagrams that it made on the
    /// wire.
    ///
    /// # Errors
    ///
    /// [`NotReplied`] says why the reply wasn't taken. `Invalid` has as its reason `Length` (payload and
    /// 8 octets are more than [`Params::cap`]) or `Total`.
    pub fn reply(&mut self, now: u64, token: Token, payload: &[u8]) -> Result<(), NotReplied> {
        let handle = self.handle()?;
        // SAFETY: as in `call`.
        let it = unsafe {
            sys::dt_service_reply(handle, now, &token.to_c(), payload.as_ptr(), payload.len())
        };
        match it.status {
            sys::DT_GONE => Err(NotReplied::Gone),
            sys::DT_FULL => Err(NotReplied::Full { free: it.free }),
            status => Ok(Error::check_for(status, InvalidReason::of_c(it.invalid))?),
        }
    }

    /// Closes a request without a reply, so that there is room for another. Its caller becomes unsure.
    /// Does not do what the node has due; [`tick`](Endpoint::tick) does.
    ///
    /// # Errors
    ///
    /// `Gone`: as of [`reply`](Service::reply), or the service is stopped. `OutOfMemory`: the service is
    /// stopped.
    pub fn forget(&mut self, now: u64, token: Token) -> Result<(), NotReplied> {
        // SAFETY: as in `set_port`; the token is only read.
        match unsafe { sys::dt_service_forget(self.handle()?, now, &token.to_c()) } {
            sys::DT_GONE => Err(NotReplied::Gone),
            status => Ok(Error::check(status)?),
        }
    }

    /// Takes the next event, in the order in which they happened, each once, with its payload in the head
    /// of `buf`; what follows it stays as it was. None if none waits. With room for
    /// [`MAX_PAYLOAD`](crate::MAX_PAYLOAD) octets it always fits. After the service has stopped it returns
    /// the events that wait, and then [`Event::Unsure`] for each call that waited.
    ///
    /// # Errors
    ///
    /// `BufferTooSmall`: this event, and those after it, wait.
    pub fn next_event(&mut self, buf: &mut [u8]) -> Result<Option<Event>, Error> {
        let handle = self.handle()?;
        let mut it = sys::dt_event::new();
        // SAFETY: as in `set_port`; the buffer and the struct are borrowed for the call only.
        match unsafe { sys::dt_service_next_event(handle, buf.as_mut_ptr(), buf.len(), &mut it) } {
            sys::DT_NONE => Ok(None),
            sys::DT_BUFFER_TOO_SMALL => Err(Error::BufferTooSmall { needed: it.len }),
            status => Error::check(status).map(|()| Some(Event::of_c(it))),
        }
    }

    /// Numbers the calls from now on in this life, from 0. Calls that wait keep their numbers.
    ///
    /// # Errors
    ///
    /// `Exists`: it is the present life, or that of a call that waits.
    pub fn set_life(&mut self, life: u32) -> Result<(), Error> {
        // SAFETY: as in `set_port`.
        Error::check(unsafe { sys::dt_service_set_life(self.handle()?, life) })
    }

    /// The counters of dropped messages.
    ///
    /// # Errors
    ///
    /// Only [`Error::OtherProcess`].
    pub fn call_counts(&mut self) -> Result<CallCounts, Error> {
        let handle = self.handle()?;
        let mut it = sys::dt_call_counts::new();
        // SAFETY: as in `next_event`.
        Error::check(unsafe { sys::dt_service_get_call_counts(handle, &mut it) })
            .map(|()| CallCounts::of_c(it))
    }

    /// Stops the service: each call that waits becomes unsure, requests are forgotten, and events not yet
    /// taken can be taken. Takes no memory.
    ///
    /// # Errors
    ///
    /// Only [`Error::OtherProcess`].
    pub fn stop(&mut self) -> Result<(), Error> {
        // SAFETY: as in `set_port`.
        Error::check(unsafe { sys::dt_service_stop(self.handle()?) })
    }
}
