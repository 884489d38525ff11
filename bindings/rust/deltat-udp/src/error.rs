//! Why a call failed.
use std::ffi::CStr;
use std::{error, fmt, io};

use deltat::{Cause, InvalidReason};
use deltat_sys as c;
use deltat_udp_sys as sys;

/// Why a call did nothing of what it was asked to do. The documents of each call say which of these it
/// returns; unless they say something else, nothing changed.
#[non_exhaustive]
#[derive(Clone, Debug, PartialEq, Eq)]
pub enum Error {
    /// An option, a parameter or an address is wrong.
    Refused {
        /// One line: what is wrong, and what to do.
        text: String,
        /// The name of a parameter in [`Params`](crate::Params) that is out of its range.
        param: Option<&'static str>,
    },
    /// The state folder is in use by another driver.
    InUse {
        /// One line: which folder, and what to do.
        text: String,
    },
    /// The system refused a call. Of a driver that was open: it can't continue; drop it, and open it again.
    System {
        /// One line: which call or which address, and what the system says.
        text: String,
        /// The system's number of the error, for [`io::Error::from_raw_os_error`]; 0 if it gave none.
        code: i32,
    },
    /// Out of memory. If the documents of the call don't say that nothing changed, the driver can't
    /// continue: drop it, and open it again.
    OutOfMemory,
    /// An argument is out of its range.
    Invalid {
        /// What is wrong with it.
        reason: InvalidReason,
    },
    /// The port is open already, or objects are.
    Exists,
    /// There is no room for the octets now. [`Event::Room`](crate::Event::Room) follows when there may be.
    Full {
        /// How many octets fit into the flow's send buffer now; 0 if as much is under way to the peer as
        /// its delay allows.
        free: u32,
    },
    /// The node is silent after its start: [`Handle::silence`](crate::Handle::silence) says for how long.
    Quiet {
        /// The time in ms at which the silence ends, as of [`deltat::now`].
        until: u64,
    },
    /// [`Options::max_calls`](crate::Options::max_calls) calls are waiting, or have an end that wasn't taken.
    TooManyCalls,
    /// 2^32 calls were made in this life: open the driver again, in another life.
    LifeUsedUp,
    /// The request isn't open: it has a reply, was forgotten, or is of an earlier life.
    Gone,
    /// A call ended without an answer: it was served once, not at all, or will be. Only of
    /// `deltat-tokio`; here it is [`Event::Unsure`](crate::Event::Unsure).
    Unsure {
        /// Why it ended.
        cause: Cause,
    },
    /// The driver failed earlier: drop it, and open it again.
    Stopped,
    /// Another process opened the driver, and this one is a forked child: two processes that use it
    /// would be two nodes with one number.
    OtherProcess,
    /// The library that the program is linked to has another interface than this crate.
    OtherInterface {
        /// The interface of the library.
        version: u32,
    },
    /// A status that this crate doesn't expect of the call.
    Unknown(u8),
}

/// The names of the parameters, in the order of the header's struct, where `size` is the first.
const PARAMS: [&str; 11] =
    ["mpl", "r", "a", "rto", "probe", "seg", "cap", "rcap", "window", "run_limit", "start"];

impl Error {
    /// The result for a status of a call without words.
    pub(crate) fn check(status: c::dt_status) -> Result<(), Error> {
        Err(match status {
            c::DT_OK => return Ok(()),
            c::DT_NO_MEMORY => Error::OutOfMemory,
            c::DT_NOT_OPEN | c::DT_STOPPED => Error::Stopped,
            c::DT_INVALID => Error::Invalid { reason: InvalidReason::Argument },
            c::DT_EXISTS => Error::Exists,
            c::DT_GONE => Error::Gone,
            c::DT_TOO_MANY_CALLS => Error::TooManyCalls,
            c::DT_LIFE_USED_UP => Error::LifeUsedUp,
            other => Error::Unknown(other),
        })
    }

    /// Why the node refused a call ([`Driven`](crate::Driven)).
    pub(crate) fn of_node(why: deltat::Error) -> Error {
        match why {
            deltat::Error::OutOfMemory => Error::OutOfMemory,
            deltat::Error::Stopped => Error::Stopped,
            deltat::Error::OtherProcess => Error::OtherProcess,
            other => Error::Refused { text: other.to_string(), param: None },
        }
    }

    /// What the driver said when it refused to open, or to set a peer.
    pub(crate) fn of_c(it: &sys::dt_udp_error) -> Error {
        // SAFETY: the driver ends the text with a 0, and `new` has only zeros.
        let text = unsafe { CStr::from_ptr(it.text.as_ptr()) }.to_string_lossy().into_owned();
        match it.status {
            c::DT_NO_MEMORY => Error::OutOfMemory,
            c::DT_EXISTS => Error::InUse { text },
            c::DT_INVALID => {
                let param = usize::from(it.field).checked_sub(1).and_then(|at| PARAMS.get(at));
                Error::Refused { text, param: param.copied() }
            }
            c::DT_NOT_OPEN | c::DT_STOPPED if it.system_error == 0 => Error::Stopped,
            _ => Error::System { text, code: it.system_error },
        }
    }

    /// A call of the system that failed.
    pub(crate) fn system(what: &str, code: i32) -> Error {
        Error::System { text: format!("{what}: {}", io::Error::from_raw_os_error(code)), code }
    }
}

impl fmt::Display for Error {
    fn fmt(&self, f: &mut fmt::Formatter<'_>) -> fmt::Result {
        match self {
            Error::Refused { text, .. } | Error::InUse { text } | Error::System { text, .. } => {
                write!(f, "{text}")
            }
            Error::OutOfMemory => write!(f, "out of memory; drop the driver and open it again"),
            Error::Invalid { reason } => write!(f, "invalid argument: {reason}"),
            Error::Exists => write!(f, "it is open already"),
            Error::Full { free } => {
                write!(f, "there is room for {free} octets only; try again after Event::Room")
            }
            Error::Quiet { until } => {
                write!(f, "the node is silent after its start until {until} ms; try again then")
            }
            Error::TooManyCalls => write!(f, "too many calls are waiting; take their ends"),
            Error::LifeUsedUp => {
                write!(f, "the life has no numbers left; open the driver again in another life")
            }
            Error::Gone => write!(f, "the request isn't open any more"),
            Error::Unsure { cause } => {
                write!(f, "no answer: {cause:?}; the call was served once, not at all, or will be")
            }
            Error::Stopped => write!(f, "the driver failed; drop it and open it again"),
            Error::OtherProcess => {
                write!(f, "another process opened the driver; open one with another number here")
            }
            Error::OtherInterface { version } => {
                let own = sys::DT_UDP_ABI_VERSION;
                write!(f, "libdeltat-udp has interface {version}, and this crate is for {own}; link another library")
            }
            Error::Unknown(status) => write!(f, "unexpected status {status}"),
        }
    }
}

impl error::Error for Error {}

impl From<Error> for io::Error {
    /// An error of the system keeps its number, and so its kind.
    fn from(why: Error) -> io::Error {
        match why {
            Error::System { code, .. } if code != 0 => io::Error::from_raw_os_error(code),
            Error::OutOfMemory => io::Error::new(io::ErrorKind::OutOfMemory, why),
            other => io::Error::new(io::ErrorKind::Other, other),
        }
    }
}
