//! Nodes, which send and receive messages.
use deltat_sys as sys;

use crate::endpoint::Messages;
use crate::{Endpoint, Error, Flow, FlowCounts, InvalidReason, NodeOptions, Params, Report};

/// An [`Endpoint`] that sends and receives messages.
pub type Node = Endpoint<Messages>;

/// Octets that were read: `len` octets at the head of the buffer.
#[derive(Clone, Copy, Debug, PartialEq, Eq, Hash)]
pub struct Piece {
    /// How many.
    pub len: usize,
    /// A message begins with the first octet.
    pub begin: bool,
    /// A message ends with the last octet.
    pub end: bool,
    /// Octets of the flow before these may be missing.
    pub gap: bool,
}

/// A whole message: `len` octets at the head of the buffer.
#[derive(Clone, Copy, Debug, PartialEq, Eq, Hash)]
pub struct Message {
    /// The flow that it arrived on.
    pub flow: Flow,
    /// Its octets.
    pub len: usize,
    /// Octets of the flow before this message may be missing. True for the first message of a flow
    /// too: what was sent before it isn't known.
    pub gap: bool,
    /// How many messages of all flows were longer than the longest and were dropped so far.
    pub dropped_too_long: u64,
}

impl Endpoint<Messages> {
    /// Opens a node.
    ///
    /// # Errors
    ///
    /// `Invalid`: a parameter is out of its range. `OutOfMemory`. `OtherInterface`.
    pub fn open(params: &Params, options: &NodeOptions<'_>) -> Result<Node, Error> {
        Endpoint::open_by(params, options, |handle, params, options| {
            // SAFETY: a fresh handle; the structs and what they point to are only read.
            unsafe { sys::dt_node_open(handle, params, options) }
        })
    }

    /// Sends octets: all of them or none. `begin`: the first one begins a message; `end`: the last one
    /// ends it. For a whole message set both. First does what is due at `now`. Put the datagrams that
    /// it made on the wire. Reports say what becomes of the octets.
    ///
    /// # Errors
    ///
    /// `Full`: only so many octets fit now. `Quiet`: the node is silent after its start. In both cases
    /// none was taken, and what else was due was done. `Invalid` (`Flow`): the flow doesn't go from this
    /// node to another one, or 2^62 octets would have been passed in; (`Length`): there are no octets,
    /// or more than [`Params::cap`], which never fit. `OutOfMemory`: they may have been taken, and the
    /// node is stopped. `Stopped`.
    pub fn send(
        &mut self,
        now: u64,
        flow: Flow,
        octets: &[u8],
        begin: bool,
        end: bool,
    ) -> Result<(), Error> {
        let handle = self.handle()?;
        if octets.is_empty() || octets.len() > self.cap() {
            return Err(Error::Invalid { reason: InvalidReason::Length });
        }
        // SAFETY: the handle was made in `open`, `&mut self` lets one call at a time in, and pointer and
        // length are those of a slice. So below.
        let it = unsafe {
            sys::dt_node_send(handle, now, &flow.to_c(), octets.as_ptr(), octets.len(), begin, end)
        };
        match it.status {
            sys::DT_FULL => Err(Error::Full { free: it.free }),
            sys::DT_QUIET => Err(Error::Quiet { until: it.quiet_until }),
            status => Error::check_for(status, InvalidReason::Flow),
        }
    }

    /// Reads unread octets of a flow into the head of `buf`, not beyond the end of a message. None if
    /// nothing is unread. For programs that want octets as they arrive; don't mix it with
    /// [`next_message`](Node::next_message) on one flow. What the buffer holds after the first `len`
    /// octets isn't defined. First does what is due at `now`.
    ///
    /// # Errors
    ///
    /// `Invalid`: the flow doesn't go from another node to this one. `BufferTooSmall`: it is empty.
    /// `OutOfMemory`: octets may have been read, and the node is stopped. `Stopped`.
    pub fn read(&mut self, now: u64, flow: Flow, buf: &mut [u8]) -> Result<Option<Piece>, Error> {
        let handle = self.handle()?;
        // SAFETY: as in `send`; the buffer is borrowed for the call only.
        let it =
            unsafe { sys::dt_node_read(handle, now, &flow.to_c(), buf.as_mut_ptr(), buf.len()) };
        match it.status {
            sys::DT_NONE => Ok(None),
            sys::DT_BUFFER_TOO_SMALL => Err(Error::BufferTooSmall { needed: 1 }),
            status => Error::check_for(status, InvalidReason::Flow)
                .map(|()| Some(Piece { len: it.len, begin: it.begin, end: it.end, gap: it.gap })),
        }
    }

    /// Enables [`next_message`](Node::next_message), for messages of at most `longest` octets. A longer
    /// one is dropped and counted. The begun part of a message stays in memory.
    ///
    /// # Errors
    ///
    /// `Exists`: messages are enabled.
    pub fn enable_messages(&mut self, longest: usize) -> Result<(), Error> {
        // SAFETY: as in `send`.
        Error::check(unsafe { sys::dt_node_enable_messages(self.handle()?, longest) })
    }

    /// Says that a flow may have unread octets. Call it for each report whose
    /// [`readable`](Report::readable) is a flow, so that messages are found and memory of a flow without
    /// a receiver is freed.
    ///
    /// Cost: grows with the number of marked flows that aren't read to their end.
    ///
    /// # Errors
    ///
    /// `OutOfMemory`: nothing changed, and the node is usable; call it again, or messages of the flow may
    /// stay unread. `NotOpen`: messages aren't enabled.
    pub fn mark_readable(&mut self, flow: Flow) -> Result<(), Error> {
        // SAFETY: as in `send`; the flow is only read.
        Error::check(unsafe { sys::dt_node_mark_readable(self.handle()?, &flow.to_c()) })
    }

    /// Takes the next whole message of any marked flow, into the head of `buf`; what follows it stays as
    /// it was. None if no marked flow has one. Messages of one flow are returned in the order in which
    /// they were sent. First does what is due at `now`.
    ///
    /// Cost: looks at marked flows one by one, and copies each octet three times.
    ///
    /// # Errors
    ///
    /// `BufferTooSmall`: the message waits. `Lost`: out of memory for octets of a flow, and the node is
    /// usable; call it again. `OutOfMemory`: the node is stopped. `Stopped`. `NotOpen`: messages aren't
    /// enabled. Then the buffer is unchanged.
    pub fn next_message(&mut self, now: u64, buf: &mut [u8]) -> Result<Option<Message>, Error> {
        let handle = self.handle()?;
        let mut it = sys::dt_message::new();
        loop {
            // SAFETY: as in `read`; the struct is borrowed for the call only.
            let status = unsafe {
                sys::dt_node_next_message(handle, now, buf.as_mut_ptr(), buf.len(), &mut it)
            };
            let flow = Flow::of_c(it.flow);
            return match status {
                sys::DT_MORE => continue,
                sys::DT_NONE => Ok(None),
                sys::DT_BUFFER_TOO_SMALL => Err(Error::BufferTooSmall { needed: it.len }),
                sys::DT_LOST => Err(Error::Lost { flow }),
                status => Error::check(status).map(|()| {
                    Some(Message {
                        flow,
                        len: it.len,
                        gap: it.gap,
                        dropped_too_long: it.dropped_too_long,
                    })
                }),
            };
        }
    }

    /// Takes the next report, in the order in which things happened. None if none waits. Reports use
    /// memory until they are taken, so take them all in each round.
    ///
    /// # Errors
    ///
    /// Only [`Error::OtherProcess`].
    pub fn next_report(&mut self) -> Result<Option<Report>, Error> {
        let handle = self.handle()?;
        let mut it = sys::dt_report::new();
        // SAFETY: as in `next_message`.
        match unsafe { sys::dt_node_next_report(handle, &mut it) } {
            sys::DT_NONE => Ok(None),
            status => Error::check(status).map(|()| Some(Report::of_c(it))),
        }
    }

    /// Takes the reports that wait, marks the flows of those that are [`readable`](Report::readable), and
    /// passes each to `each`.
    ///
    /// # Errors
    ///
    /// `NotOpen`: messages aren't enabled, and a flow was to be marked. `OutOfMemory`: the flow of the
    /// last report that was taken isn't marked; the node is usable.
    pub fn take_reports(&mut self, mut each: impl FnMut(Report)) -> Result<(), Error> {
        while let Some(report) = self.next_report()? {
            each(report);
            if let Some(flow) = report.readable() {
                self.mark_readable(flow)?;
            }
        }
        Ok(())
    }

    /// Starts counting the octets of a flow from or to this node, until the node is dropped. Does nothing
    /// if the flow is counted already.
    ///
    /// Cost: 64 octets of memory a flow.
    ///
    /// # Errors
    ///
    /// `OutOfMemory`: nothing changed, and the node is usable.
    pub fn count_flow(&mut self, flow: Flow) -> Result<(), Error> {
        // SAFETY: as in `mark_readable`.
        Error::check(unsafe { sys::dt_node_count_flow(self.handle()?, &flow.to_c()) })
    }

    /// The counters of a flow. None if it isn't counted.
    ///
    /// # Errors
    ///
    /// Only [`Error::OtherProcess`].
    pub fn flow_counts(&mut self, flow: Flow) -> Result<Option<FlowCounts>, Error> {
        let handle = self.handle()?;
        let mut it = sys::dt_flow_counts::new();
        // SAFETY: as in `next_message`; the flow is only read.
        match unsafe { sys::dt_node_get_flow_counts(handle, &flow.to_c(), &mut it) } {
            sys::DT_NONE => Ok(None),
            status => Error::check(status).map(|()| Some(FlowCounts::of_c(it))),
        }
    }
}
