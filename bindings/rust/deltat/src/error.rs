//! Why a call failed.
use std::error;
use std::fmt;

use deltat_sys as sys;

use crate::{Flow, ABI_VERSION};

/// Why a call did nothing of what it was asked to do. The documents of each call say which of these
/// it returns; unless they say something else, nothing changed.
#[non_exhaustive]
#[derive(Clone, Copy, Debug, PartialEq, Eq, Hash)]
pub enum Error {
    /// Out of memory. A call that takes the time was done in part, and from then on the node is
    /// stopped: take the datagrams and reports that wait, drop it, and open it with
    /// [`Start::Again`](crate::Start::Again). After any other call the node is usable.
    OutOfMemory,
    /// [`Node::enable_messages`](crate::Node::enable_messages) wasn't called.
    NotOpen,
    /// An argument is out of its range.
    Invalid {
        /// What is wrong with it.
        reason: InvalidReason,
    },
    /// Messages are enabled, a route to the node is there, the port has a kind, or the life is in use.
    Exists,
    /// The buffer is too small. What was to be returned waits.
    BufferTooSmall {
        /// How many octets it needs.
        needed: usize,
    },
    /// The octets don't fit into the flow's send buffer. What else was due was done.
    Full {
        /// How many octets fit now.
        free: u32,
    },
    /// The node is silent after its start. What else was due was done.
    Quiet {
        /// The time in ms at which the silence ends.
        until: u64,
    },
    /// An earlier call ran out of memory, or the service was stopped.
    Stopped,
    /// The datagram isn't valid, and was dropped. Only a count changed.
    Malformed {
        /// The first test that failed.
        fault: Fault,
        /// What was tested.
        value: u32,
    },
    /// The datagram's lifetime is over, and it was dropped. Only a count changed.
    Expired,
    /// The guard doesn't admit the datagram, which was dropped. Only a count changed. Strangers can
    /// cause it at any time, so a program continues.
    Blocked,
    /// Out of memory: octets of this flow that arrived are lost, and its next message has a gap. The
    /// node is usable.
    Lost {
        /// The flow.
        flow: Flow,
    },
    /// Another process opened the node, and this one is a forked child: two processes that use it
    /// would be two nodes with one number.
    OtherProcess,
    /// The library that the program is linked to has another interface than [`ABI_VERSION`].
    OtherInterface {
        /// The interface of the library.
        version: u32,
    },
    /// A status that this crate doesn't expect of the call.
    Unknown(u8),
}

impl Error {
    /// Whether [`Endpoint::receive`](crate::Endpoint::receive) dropped the datagram, for a reason for
    /// which the program isn't to blame: it continues. `Malformed`, `Expired` and `Blocked`.
    #[must_use]
    pub fn is_dropped(&self) -> bool {
        matches!(self, Error::Malformed { .. } | Error::Expired | Error::Blocked)
    }

    /// The result for a status. Calls look at the statuses that come with data first.
    pub(crate) fn check(status: sys::dt_status) -> Result<(), Error> {
        Err(match status {
            sys::DT_OK => return Ok(()),
            sys::DT_NO_MEMORY => Error::OutOfMemory,
            sys::DT_NOT_OPEN => Error::NotOpen,
            sys::DT_INVALID => Error::Invalid { reason: InvalidReason::Argument },
            sys::DT_EXISTS => Error::Exists,
            sys::DT_STOPPED => Error::Stopped,
            sys::DT_EXPIRED => Error::Expired,
            sys::DT_BLOCKED => Error::Blocked,
            other => Error::Unknown(other),
        })
    }

    /// The result for a status of a call that can be refused for one reason only.
    pub(crate) fn check_for(status: sys::dt_status, reason: InvalidReason) -> Result<(), Error> {
        match status {
            sys::DT_INVALID => Err(Error::Invalid { reason }),
            other => Error::check(other),
        }
    }
}

impl fmt::Display for Error {
    fn fmt(&self, f: &mut fmt::Formatter<'_>) -> fmt::Result {
        match self {
            Error::OutOfMemory => write!(f, "out of memory"),
            Error::NotOpen => write!(f, "messages aren't enabled; call enable_messages first"),
            Error::Invalid { reason } => write!(f, "invalid argument: {reason}"),
            Error::Exists => write!(f, "it exists already"),
            Error::BufferTooSmall { needed } => {
                write!(f, "the buffer is too small: {needed} octets are needed")
            }
            Error::Full { free } => {
                write!(f, "the flow's send buffer has room for {free} octets only; try again later")
            }
            Error::Quiet { until } => {
                write!(f, "the node is silent after its start until {until} ms")
            }
            Error::Stopped => {
                write!(f, "the node is stopped; drop it and open it with Start::Again")
            }
            Error::Malformed { fault, value } => {
                write!(f, "the datagram isn't valid: {fault}: {value}")
            }
            Error::Expired => write!(f, "the datagram's lifetime is over"),
            Error::Blocked => write!(f, "the guard doesn't admit the datagram"),
            Error::Lost { flow } => write!(f, "out of memory: octets of flow {flow} are lost"),
            Error::OtherProcess => {
                write!(
                    f,
                    "another process opened the node; open one with another number in this process"
                )
            }
            Error::OtherInterface { version } => {
                write!(f, "libdeltat has interface {version}, and this crate is for {ABI_VERSION}; link another library")
            }
            Error::Unknown(status) => write!(f, "unexpected status {status}"),
        }
    }
}

impl error::Error for Error {}

/// Why an argument is invalid.
#[non_exhaustive]
#[derive(Clone, Copy, Debug, PartialEq, Eq, Hash)]
pub enum InvalidReason {
    /// The library says no more.
    Argument,
    /// A parameter of the network is out of its range: the first such.
    Param {
        /// Its name in [`Params`](crate::Params).
        name: &'static str,
        /// Its value.
        value: u32,
    },
    /// The node has no link with this number.
    Link,
    /// The flow doesn't go from this node to another one, or for a read from another one to this node.
    Flow,
    /// The flow doesn't come from a caller's port.
    Port,
    /// There are no octets, or more than ever fit: more than [`Params::cap`](crate::Params::cap), or,
    /// of a call or a reply, 8 octets less.
    Length,
    /// The timeout is 0.
    Timeout,
    /// 2^62 octets would have been passed in.
    Total,
    /// No parameters suit the network: a packet would live for more than a day.
    Network,
    /// A reason that this crate doesn't know.
    Unknown(u8),
}

impl InvalidReason {
    pub(crate) fn of_c(invalid: u8) -> InvalidReason {
        match invalid {
            0 => InvalidReason::Argument,
            sys::DT_INVALID_FLOW => InvalidReason::Flow,
            sys::DT_INVALID_PORT => InvalidReason::Port,
            sys::DT_INVALID_LENGTH => InvalidReason::Length,
            sys::DT_INVALID_TIMEOUT => InvalidReason::Timeout,
            sys::DT_INVALID_TOTAL => InvalidReason::Total,
            other => InvalidReason::Unknown(other),
        }
    }
}

impl fmt::Display for InvalidReason {
    fn fmt(&self, f: &mut fmt::Formatter<'_>) -> fmt::Result {
        match self {
            InvalidReason::Argument => write!(f, "it is out of its range"),
            InvalidReason::Param { name, value } => {
                write!(f, "parameter {name} is out of its range: {value}")
            }
            InvalidReason::Link => write!(f, "the node has no link with this number"),
            InvalidReason::Flow => {
                write!(f, "the flow doesn't join this node and another one in this direction")
            }
            InvalidReason::Port => write!(f, "the flow doesn't come from a caller's port"),
            InvalidReason::Length => {
                write!(f, "no octets, or more than the send buffer ever holds")
            }
            InvalidReason::Timeout => write!(f, "the timeout is 0 ms; it must be at least 1 ms"),
            InvalidReason::Total => write!(f, "2^62 octets would have been passed in"),
            InvalidReason::Network => {
                write!(f, "no parameters suit: a packet would live for more than a day")
            }
            InvalidReason::Unknown(reason) => write!(f, "unexpected reason {reason}"),
        }
    }
}

/// Why a datagram isn't valid: the first test that failed. Its value is beside it in
/// [`Error::Malformed`].
#[non_exhaustive]
#[derive(Clone, Copy, Debug, PartialEq, Eq, Hash)]
pub enum Fault {
    /// Too few octets for a header: their number.
    Short,
    /// Unknown version: the version.
    Version,
    /// The length field is wrong: its value.
    Length,
    /// The lifetime is 0: 0.
    Lifetime,
    /// Another protocol: its number.
    Protocol,
    /// Unknown kind of packet: the kind.
    Kind,
    /// Flags that this kind doesn't allow: the flags.
    Flags,
    /// A window that this kind doesn't allow: the window.
    Window,
    /// A number of octets that this kind doesn't allow: the number.
    Size,
    /// A fault that this crate doesn't know.
    Unknown(u8),
}

impl Fault {
    pub(crate) fn of_c(fault: u8) -> Fault {
        match fault {
            sys::DT_FAULT_SHORT => Fault::Short,
            sys::DT_FAULT_VERSION => Fault::Version,
            sys::DT_FAULT_LENGTH => Fault::Length,
            sys::DT_FAULT_LIFETIME => Fault::Lifetime,
            sys::DT_FAULT_PROTOCOL => Fault::Protocol,
            sys::DT_FAULT_KIND => Fault::Kind,
            sys::DT_FAULT_FLAGS => Fault::Flags,
            sys::DT_FAULT_WINDOW => Fault::Window,
            sys::DT_FAULT_SIZE => Fault::Size,
            other => Fault::Unknown(other),
        }
    }
}

impl fmt::Display for Fault {
    fn fmt(&self, f: &mut fmt::Formatter<'_>) -> fmt::Result {
        match self {
            Fault::Short => write!(f, "too few octets for a header"),
            Fault::Version => write!(f, "unknown version"),
            Fault::Length => write!(f, "wrong length"),
            Fault::Lifetime => write!(f, "no lifetime"),
            Fault::Protocol => write!(f, "another protocol"),
            Fault::Kind => write!(f, "unknown kind of packet"),
            Fault::Flags => write!(f, "flags that the kind doesn't allow"),
            Fault::Window => write!(f, "a window that the kind doesn't allow"),
            Fault::Size => write!(f, "a number of octets that the kind doesn't allow"),
            Fault::Unknown(fault) => write!(f, "unexpected fault {fault}"),
        }
    }
}

/// Why a call wasn't made. Nothing of it was sent, but after [`Error::OutOfMemory`].
#[non_exhaustive]
#[derive(Clone, Copy, Debug, PartialEq, Eq, Hash)]
pub enum Declined {
    /// The node is silent after its start.
    Quiet {
        /// The time in ms at which the silence ends.
        until: u64,
    },
    /// The request doesn't fit into the flow's send buffer.
    Full {
        /// How many octets fit now; a request needs 8 more than its payload.
        free: u32,
    },
    /// [`ServiceOptions::max_calls`](crate::ServiceOptions::max_calls) calls are waiting, or have an
    /// end that wasn't taken.
    TooManyCalls,
    /// 2^32 calls were made in this life: call [`Service::set_life`](crate::Service::set_life).
    LifeUsedUp,
    /// The call can't be made. After [`Error::OutOfMemory`] the service is stopped and the call may
    /// have been made, so take it as unsure; if it was, an event says so.
    Error(Error),
}

impl fmt::Display for Declined {
    fn fmt(&self, f: &mut fmt::Formatter<'_>) -> fmt::Result {
        match self {
            Declined::Quiet { until } => {
                write!(f, "call not made: {}", Error::Quiet { until: *until })
            }
            Declined::Full { free } => write!(f, "call not made: {}", Error::Full { free: *free }),
            Declined::TooManyCalls => {
                write!(f, "call not made: too many calls are waiting; take their ends")
            }
            Declined::LifeUsedUp => {
                write!(f, "call not made: the life has no numbers left; set another life")
            }
            Declined::Error(why) => write!(f, "call not made: {why}"),
        }
    }
}

impl error::Error for Declined {
    fn source(&self) -> Option<&(dyn error::Error + 'static)> {
        match self {
            Declined::Error(why) => Some(why),
            _ => None,
        }
    }
}

impl From<Error> for Declined {
    fn from(why: Error) -> Declined {
        Declined::Error(why)
    }
}

/// Why a request wasn't replied to or forgotten.
#[non_exhaustive]
#[derive(Clone, Copy, Debug, PartialEq, Eq, Hash)]
pub enum NotReplied {
    /// The request isn't open: it has a reply, was forgotten, or is of an earlier life.
    Gone,
    /// The reply doesn't fit into the flow's send buffer. The request stays open: try again later.
    Full {
        /// How many octets fit now; a reply needs 8 more than its payload.
        free: u32,
    },
    /// The reply can't be sent. After [`Error::OutOfMemory`] the service is stopped, and the reply may
    /// have been sent.
    Error(Error),
}

impl fmt::Display for NotReplied {
    fn fmt(&self, f: &mut fmt::Formatter<'_>) -> fmt::Result {
        match self {
            NotReplied::Gone => write!(f, "not replied: the request isn't open any more"),
            NotReplied::Full { free } => write!(f, "not replied: {}", Error::Full { free: *free }),
            NotReplied::Error(why) => write!(f, "not replied: {why}"),
        }
    }
}

impl error::Error for NotReplied {
    fn source(&self) -> Option<&(dyn error::Error + 'static)> {
        match self {
            NotReplied::Error(why) => Some(why),
            _ => None,
        }
    }
}

impl From<Error> for NotReplied {
    fn from(why: Error) -> NotReplied {
        NotReplied::Error(why)
    }
}
