//! Nodes and services with a socket.
use std::borrow::Cow;
use std::cell::RefCell;
use std::collections::HashMap;
use std::marker::PhantomData;
use std::ops::Deref;
use std::os::raw::c_int;
use std::os::unix::ffi::OsStrExt;
use std::os::unix::io::{AsFd, AsRawFd, BorrowedFd, RawFd};
use std::path::Path;
use std::ptr::NonNull;
use std::time::Duration;
use std::{fmt, io, process, slice};

use deltat::{
    BlockedCounts, CallCounts, Calls, Flow, InvalidReason, Messages, NodeCounts, PortKind, Token,
};
use deltat_sys as c;
use deltat_udp_sys as sys;

use crate::options::text;
use crate::{Counts, Error, Event, Options};

/// A node with a socket, which sends and receives messages and objects.
pub type Node = Udp<Messages>;

/// A service with a socket, which makes calls and answers them.
pub type Service = Udp<Calls>;

/// A [`Node`] or a [`Service`] over one UDP socket, for one thread at a time. All calls but
/// [`next_event`](Udp::next_event) are those of [`Handle`], to which it derefs.
///
/// Dropping it closes the socket and the node, and sends nothing: call [`drain`](Handle::drain) first if
/// what was sent should still arrive. In a forked child every call returns [`Error::OtherProcess`], and
/// dropping frees the child's copy only.
pub struct Udp<K: Kind> {
    handle: Handle<K>,
}

/// All of a driver but its events: what a program may call while the octets of an event are lent to it
/// ([`Udp::split`]).
pub struct Handle<K: Kind> {
    driver: NonNull<sys::dt_udp>,
    descriptor: RawFd,
    process: u32,
    node: u32,
    /// Octets of objects that were put: the driver reads them until the object is over.
    objects: RefCell<HashMap<u64, Cow<'static, [u8]>>>,
    kind: PhantomData<K>,
}

/// The events of a driver, where the rest of it is used meanwhile ([`Udp::split`]).
pub struct Events<'a, K: Kind> {
    handle: &'a Handle<K>,
}

/// The two kinds of drivers: [`Messages`], of a [`Node`], and [`Calls`], of a [`Service`].
pub trait Kind: role::Role {}

impl Kind for Messages {}
impl Kind for Calls {}

mod role {
    /// Nobody else can name it, so there are no other kinds.
    pub trait Role {
        const ROLE: u8;
        const NAME: &'static str;
    }

    impl Role for super::Messages {
        const ROLE: u8 = super::sys::DT_UDP_ROLE_NODE;
        const NAME: &'static str = "Node";
    }

    impl Role for super::Calls {
        const ROLE: u8 = super::sys::DT_UDP_ROLE_SERVICE;
        const NAME: &'static str = "Service";
    }
}

// SAFETY: nothing else has the driver's pointer, the driver keeps nothing outside its memory but
// descriptors, and a `Handle` isn't Sync, so one thread at a time calls.
unsafe impl<K: Kind> Send for Handle<K> {}

/// As whole ms, rounded up: -1 is without limit, and longer waits are cut.
pub(crate) fn wait_ms(wait: Option<Duration>) -> c_int {
    wait.map_or(-1, |it| c_int::try_from(ms(it)).unwrap_or(c_int::MAX))
}

/// As whole ms, rounded up.
fn ms(it: Duration) -> u128 {
    (it.as_nanos() + 999_999) / 1_000_000
}

/// A timeout as the header has it. One that is longer than 2^32 - 1 ms is cut.
fn timeout_ms(timeout: Duration) -> u32 {
    u32::try_from(ms(timeout)).unwrap_or(u32::MAX)
}

/// A node number for a client, from 65,536 to 4,294,967,295, which nobody had but by chance. Open it with
/// `Start::First`; it needs no state folder.
///
/// # Errors
///
/// `System`: the system has no random octets.
pub fn fresh_number() -> Result<u32, Error> {
    // SAFETY: it takes no pointer.
    match unsafe { sys::dt_udp_fresh_number() } {
        0 => Err(Error::system(
            "no random octets",
            io::Error::last_os_error().raw_os_error().unwrap_or(0),
        )),
        number => Ok(number),
    }
}

impl<K: Kind> Udp<K> {
    /// Opens a node or a service and binds its socket.
    ///
    /// Cost: about 2 MB of buffers; only what is used becomes resident. Three descriptors, and three of the
    /// state folder.
    ///
    /// # Errors
    ///
    /// `Refused`: an option, a parameter or the address is wrong. `InUse`: the state folder is.
    /// `System`: the port is in use, or the system refused a call. `OutOfMemory`. `OtherInterface`.
    /// Nothing is left open.
    pub fn open(options: &Options<'_>) -> Result<Udp<K>, Error> {
        // SAFETY: it takes no pointer.
        let version = unsafe { sys::dt_udp_abi_version() };
        if version != sys::DT_UDP_ABI_VERSION {
            return Err(Error::OtherInterface { version });
        }
        let texts = options.texts()?;
        let (given, mut error) = (options.to_c(K::ROLE, &texts), sys::dt_udp_error::new());
        // SAFETY: structs of the header; what they point to lives in `texts` for the call, after which the
        // driver has no pointer to it.
        let driver = NonNull::new(unsafe { sys::dt_udp_open(&given, &mut error) })
            .ok_or_else(|| Error::of_c(&error))?;
        let mut handle = Handle {
            driver,
            descriptor: -1,
            process: process::id(),
            node: options.node,
            objects: RefCell::default(),
            kind: PhantomData,
        };
        // SAFETY: the driver is open. (Where there is no descriptor it is closed at the return.)
        handle.descriptor = unsafe { sys::dt_udp_fd(handle.driver.as_ptr()) };
        if handle.descriptor < 0 {
            let code = io::Error::last_os_error().raw_os_error().unwrap_or(0);
            return Err(Error::system("the driver has no descriptor", code));
        }
        Ok(Udp { handle })
    }

    /// Returns what happened next, and meanwhile sends and receives what is due. Waits without limit, and
    /// over signals. The octets of the event are lent until the next call: [`Event::into_owned`] copies
    /// them, and [`split`](Udp::split) is for calls in between that pass them on.
    ///
    /// ```compile_fail
    /// # fn both(udp: &mut deltat_udp::Node) -> Result<(), deltat_udp::Error> {
    /// let first = udp.next_event()?;
    /// let second = udp.next_event()?; // the octets of the first one are gone
    /// println!("{first:?} {second:?}");
    /// # Ok(())
    /// # }
    /// ```
    ///
    /// # Errors
    ///
    /// Why the driver can't continue: `System`, `OutOfMemory`, `Stopped` or `OtherProcess`. Drop it, and open
    /// it again.
    pub fn next_event(&mut self) -> Result<Event<&[u8]>, Error> {
        self.split().0.into_next()
    }

    /// As [`next_event`](Udp::next_event), waiting at most `wait`, rounded up to ms. None: nothing
    /// happened, or a signal came. In the loop of another library call it with [`Duration::ZERO`] when
    /// the descriptor is readable, until it returns None.
    ///
    /// # Errors
    ///
    /// As of [`next_event`](Udp::next_event).
    pub fn next_event_within(&mut self, wait: Duration) -> Result<Option<Event<&[u8]>>, Error> {
        self.split().0.into_next_within(wait)
    }

    /// The events, and the rest of the driver, each to be used while the other is: so octets that are lent may
    /// be passed on.
    ///
    /// ```no_run
    /// # fn main() -> Result<(), deltat_udp::Error> {
    /// # let options: deltat_udp::Options<'_> = unimplemented!();
    /// let mut node = deltat_udp::Node::open(&options)?;
    /// node.open_port(20)?;
    /// let (mut events, handle) = node.split();
    /// loop {
    ///     if let deltat_udp::Event::Message { flow, octets, .. } = events.next_event()? {
    ///         handle.send(flow.reversed(), octets)?;
    ///     }
    /// }
    /// # }
    /// ```
    pub fn split(&mut self) -> (Events<'_, K>, &Handle<K>) {
        (Events { handle: &self.handle }, &self.handle)
    }
}

impl<'a, K: Kind> Events<'a, K> {
    /// As [`Udp::next_event`].
    ///
    /// # Errors
    ///
    /// As of [`Udp::next_event`].
    pub fn next_event(&mut self) -> Result<Event<&[u8]>, Error> {
        Events { handle: self.handle }.into_next()
    }

    /// As [`Udp::next_event_within`].
    ///
    /// # Errors
    ///
    /// As of [`Udp::next_event`].
    pub fn next_event_within(&mut self, wait: Duration) -> Result<Option<Event<&[u8]>>, Error> {
        Events { handle: self.handle }.into_next_within(wait)
    }

    fn into_next(self) -> Result<Event<&'a [u8]>, Error> {
        let mut event = self.taken(None);
        while event.kind == sys::DT_UDP_EVENT_NONE {
            event = self.taken(None);
        }
        self.lent(event)
    }

    fn into_next_within(self, wait: Duration) -> Result<Option<Event<&'a [u8]>>, Error> {
        let event = self.taken(Some(wait));
        if event.kind == sys::DT_UDP_EVENT_NONE {
            return Ok(None);
        }
        self.lent(event).map(Some)
    }

    fn taken(&self, wait: Option<Duration>) -> sys::dt_udp_event {
        // SAFETY: the driver is open, and it never returns null. The struct is copied before the next call.
        unsafe { *sys::dt_udp_next_event(self.handle.driver.as_ptr(), wait_ms(wait)) }
    }

    /// The event with its octets, which are the driver's. An `Events` is used up, so nobody takes the next one
    /// meanwhile: those that are lent out borrow the `Events` or the `Udp` that it was made of.
    fn lent(self, it: sys::dt_udp_event) -> Result<Event<&'a [u8]>, Error> {
        if it.kind == sys::DT_UDP_EVENT_FAILED {
            return Err(self.handle.failure(&it));
        }
        if it.kind == sys::DT_UDP_EVENT_PUT_ENDED {
            self.handle.objects.borrow_mut().remove(&it.object);
        }
        let octets = if it.octets.is_null() || it.len == 0 {
            &[][..]
        } else {
            // SAFETY: of an event that has octets there are `len` of them, and they stay as they are until the
            // next event is asked for or the driver is closed, for which both `'a` has to be over.
            unsafe { slice::from_raw_parts(it.octets, it.len) }
        };
        // SAFETY: of a report the pointer is that of a struct of the header, which is read here.
        let report = unsafe { it.report.as_ref() }.map(|it| (*it).into());
        Ok(Event::of_c(&it, octets, report))
    }
}

impl<K: Kind> Handle<K> {
    fn driver(&self) -> *mut sys::dt_udp {
        self.driver.as_ptr()
    }

    /// Why the driver can't continue.
    fn failure(&self, it: &sys::dt_udp_event) -> Error {
        if process::id() != self.process {
            Error::OtherProcess
        } else if it.system_error != 0 {
            Error::system("the driver can't continue", it.system_error)
        } else {
            Error::check(it.cause).err().unwrap_or(Error::Stopped)
        }
    }

    /// The result for a status. One that says that the driver isn't open means that it failed, or that this is
    /// a forked child.
    fn check(&self, status: c::dt_status) -> Result<(), Error> {
        if !matches!(status, c::DT_NOT_OPEN | c::DT_STOPPED) {
            return Error::check(status);
        }
        // SAFETY: the driver is open.
        let system_error = unsafe { sys::dt_udp_system_error(self.driver()) };
        Err(self.failure(&sys::dt_udp_event {
            cause: status,
            system_error,
            ..sys::dt_udp_event::new()
        }))
    }

    /// The result for a status of a call that may be refused for the reason with this number.
    fn check_for(&self, status: c::dt_status, reason: u8) -> Result<(), Error> {
        match status {
            c::DT_INVALID => Err(Error::Invalid { reason: InvalidReason::from_number(reason) }),
            other => self.check(other),
        }
    }

    fn check_words(&self, status: c::dt_status, error: &sys::dt_udp_error) -> Result<(), Error> {
        match status {
            c::DT_NOT_OPEN | c::DT_STOPPED => self.check(status),
            c::DT_OK => Ok(()),
            _ => Err(Error::of_c(error)),
        }
    }

    fn open_port_as(&self, port: u16, kind: u8) -> Result<(), Error> {
        // SAFETY: the driver is open. So below.
        self.check(unsafe { sys::dt_udp_open_port(self.driver(), port, kind) })
    }

    /// Sets the address of a node. A name is looked up now, which may block, and not again. If it has several
    /// addresses, datagrams go to one after another until one of them answers. If the node is behind relays,
    /// give the address of the first relay. Called again it replaces the address.
    ///
    /// # Errors
    ///
    /// `Refused`: no such host, or none of the socket's family. `OutOfMemory`: nothing changed. `Stopped`,
    /// `OtherProcess`.
    pub fn set_peer(&self, node: u32, host: &str, port: u16) -> Result<(), Error> {
        let host = text(host.as_bytes(), "host")?;
        let port = text(port.to_string().as_bytes(), "port")?;
        let mut error = sys::dt_udp_error::new();
        // SAFETY: the texts and the struct are borrowed for the call only.
        let status = unsafe {
            sys::dt_udp_set_peer(self.driver(), node, host.as_ptr(), port.as_ptr(), &mut error)
        };
        self.check_words(status, &error)
    }

    /// Puts what is due and what was sent on the wire now. Asking for an event does it too; between the two
    /// at most 20 ms may pass: what waits longer is older by that, and without the watch it is dropped, and sent
    /// again after `rto`.
    pub fn flush(&self) {
        // SAFETY: as in `open_port_as`.
        unsafe { sys::dt_udp_flush(self.driver()) }
    }

    /// Sends and receives until every octet that was sent is acknowledged or uncertain, for at most `wait`
    /// (None: without limit). Events wait meanwhile. Whether nothing is outstanding; false: the time was over
    /// first, or a signal came.
    ///
    /// # Errors
    ///
    /// `System`, `OutOfMemory`, `Stopped`: the driver failed. `OtherProcess`.
    pub fn drain(&self, wait: Option<Duration>) -> Result<bool, Error> {
        // SAFETY: as in `open_port_as`.
        match unsafe { sys::dt_udp_drain(self.driver(), wait_ms(wait)) } {
            c::DT_NONE => Ok(false),
            status => self.check(status).map(|()| true),
        }
    }

    /// Records what passes from now on into a file that Wireshark and tools/trace_token.py read, in place of one that
    /// is there: each datagram, and each call, request, reply and end with its token. The recording ends at
    /// `max_octets`, by [`stop_recording`](Self::stop_recording), and when this is dropped.
    ///
    /// # Errors
    ///
    /// `Refused`: the file can't be made. `OutOfMemory`, `Stopped`, `System`. Nothing is recorded.
    pub fn record(&self, path: &Path, max_octets: u64) -> Result<(), Error> {
        let path = text(path.as_os_str().as_bytes(), "the file of a recording")?;
        let mut error = sys::dt_udp_error::new();
        // SAFETY: as in `open_port_as`; the path ends in a 0, and both live until the call returns.
        let status =
            unsafe { sys::dt_udp_record(self.driver(), path.as_ptr(), max_octets, &mut error) };
        if status == c::DT_OK {
            Ok(())
        } else {
            Err(Error::of_c(&error))
        }
    }

    /// Ends the recording, if there is one.
    pub fn stop_recording(&self) {
        let (none, null) = (std::ptr::null(), std::ptr::null_mut());
        // SAFETY: as in `open_port_as`; a null path ends it, which doesn't fail.
        let _ = unsafe { sys::dt_udp_record(self.driver(), none, 0, null) };
    }

    /// Whether a recording continues: it ends early at its `max_octets`, or when the disk is full.
    #[must_use]
    pub fn is_recording(&self) -> bool {
        // SAFETY: as in `open_port_as`.
        unsafe { sys::dt_udp_recording(self.driver()) == c::DT_OK }
    }

    /// The number of this node.
    #[must_use]
    pub fn number(&self) -> u32 {
        self.node
    }

    /// The UDP port of the socket; 0 if the system doesn't say.
    #[must_use]
    pub fn port(&self) -> u16 {
        // SAFETY: as in `open_port_as`.
        unsafe { sys::dt_udp_local_port(self.driver()) }
    }

    /// The life of this opening: that of the state folder, or of the options.
    #[must_use]
    pub fn life(&self) -> u32 {
        // SAFETY: as in `open_port_as`.
        unsafe { sys::dt_udp_life(self.driver()) }
    }

    /// For how long the node is still silent after its start: until then sends and calls are `Quiet`.
    #[must_use]
    pub fn silence(&self) -> Duration {
        // SAFETY: as in `open_port_as`.
        Duration::from_millis(unsafe { sys::dt_udp_silent_ms(self.driver()) })
    }

    /// The counters of the driver.
    #[must_use]
    pub fn counts(&self) -> Counts {
        // SAFETY: the counters belong to the driver, which is open, and are read at once.
        Counts::of_c(unsafe { &*sys::dt_udp_get_counts(self.driver()) })
    }
}

impl Handle<Messages> {
    /// Opens a port to receive at. Datagrams for other ports are dropped before the node sees them, unless
    /// [`Options::all_ports`] is set.
    ///
    /// Cost: grows with the number of open ports.
    ///
    /// # Errors
    ///
    /// `Exists`: it is open. `OutOfMemory`: nothing changed. `Stopped`, `OtherProcess`.
    pub fn open_port(&self, port: u16) -> Result<(), Error> {
        self.open_port_as(port, 0)
    }

    /// Sends a whole message of 1 to [`Params::cap`](crate::Params::cap) octets. [`flush`](Handle::flush), or
    /// the next event, puts it on the wire.
    ///
    /// # Errors
    ///
    /// `Full`: it doesn't fit now. `Quiet`: the node is silent after its start. `Invalid`: the flow doesn't go
    /// from this node to another one, or the message has no octets or too many. In these cases none was
    /// taken. `OutOfMemory`: it may have been, and the driver failed. `Stopped`, `OtherProcess`.
    pub fn send(&self, flow: Flow, octets: &[u8]) -> Result<(), Error> {
        // SAFETY: the flow is only read; pointer and length are those of a slice.
        let it = unsafe {
            sys::dt_udp_send(self.driver(), &flow.into(), octets.as_ptr().cast(), octets.len())
        };
        match it.status {
            c::DT_FULL => Err(Error::Full { free: it.free }),
            c::DT_QUIET => Err(Error::Quiet { until: it.quiet_until }),
            status => self.check(status),
        }
    }

    /// Opens ports `first_port` to `first_port` + `lanes` for objects, the same at both ends. Objects are
    /// sent over `lanes` flows at once: 16 to 64 if the way is long. `max_octets`: of objects that arrive,
    /// until they are taken.
    ///
    /// # Errors
    ///
    /// `Exists`: it was done before, or one of the ports is open. `Invalid`: no lanes, or the ports end
    /// beyond 65,535; nothing changed. `OutOfMemory`: some of the ports may be open. `Stopped`,
    /// `OtherProcess`.
    pub fn open_objects(&self, first_port: u16, lanes: u16, max_octets: u64) -> Result<(), Error> {
        // SAFETY: as in `open_port_as`.
        let status =
            unsafe { sys::dt_udp_open_objects(self.driver(), first_port, lanes, max_octets) };
        self.check(status)
    }

    /// Sends an object of at most 2^32 - 1 octets to a node, whole, and at most once, and returns its
    /// number. The driver has the octets until [`Event::PutEnded`], which arrives within `timeout`
    /// (rounded up to ms, 49 days at most) and 2 `mpl` + `r` + `a`.
    ///
    /// Cost: objects to one node are sent one after another; a target takes about 900 octets for each lane.
    ///
    /// # Errors
    ///
    /// `Invalid`: objects aren't open, the target is this node, the object is too long, or the timeout is 0.
    /// `OutOfMemory`: nothing changed. `Stopped`, `OtherProcess`.
    pub fn put_object(
        &self,
        target: u32,
        octets: impl Into<Cow<'static, [u8]>>,
        timeout: Duration,
    ) -> Result<u64, Error> {
        let octets = octets.into();
        let (pointer, len) = (octets.as_ptr().cast(), octets.len() as u64);
        // SAFETY: pointer and length are those of octets that don't move with the `Cow`, which is kept until
        // the object is over or the driver is closed.
        let it = unsafe {
            sys::dt_udp_put_object(self.driver(), target, pointer, len, timeout_ms(timeout))
        };
        self.check(it.status)?;
        self.objects.borrow_mut().insert(it.object, octets);
        Ok(it.object)
    }

    /// The counters of the node below the driver.
    ///
    /// # Errors
    ///
    /// `OtherProcess`.
    pub fn node_counts(&self) -> Result<NodeCounts, Error> {
        let mut it = c::dt_node_counts::new();
        // SAFETY: the driver is open, and so its handle; the struct is borrowed for the call only.
        let status = unsafe { c::dt_node_get_counts(sys::dt_udp_node(self.owned()?), &mut it) };
        self.check(status).map(|()| it.into())
    }

    /// How many datagrams the guard blocked.
    ///
    /// # Errors
    ///
    /// `OtherProcess`.
    pub fn blocked_counts(&self) -> Result<BlockedCounts, Error> {
        // SAFETY: as in `node_counts`.
        Ok(unsafe { c::dt_node_get_blocked_counts(sys::dt_udp_node(self.owned()?)) }.into())
    }
}

impl Handle<Calls> {
    /// Opens a port, from which calls are made or at which requests arrive, until the driver is dropped.
    /// Datagrams for other ports are dropped before the node sees them.
    ///
    /// Cost: grows with the number of open ports.
    ///
    /// # Errors
    ///
    /// `Exists`: it is open. `OutOfMemory`: nothing changed. `Stopped`, `OtherProcess`.
    pub fn open_port(&self, port: u16, kind: PortKind) -> Result<(), Error> {
        let kind = match kind {
            PortKind::Caller => c::DT_PORT_CALLER,
            PortKind::Service => c::DT_PORT_SERVICE,
        };
        self.open_port_as(port, kind)
    }

    /// Makes a call from a caller's port, and returns its number. It ends within `timeout` (rounded up to ms,
    /// 49 days at most) by [`Event::Answered`] or [`Event::Unsure`] with this number. If as much is under
    /// way to the target as its delay allows, the call waits in the driver, and its time passes.
    /// [`flush`](Handle::flush), or the next event, puts it on the wire.
    ///
    /// # Errors
    ///
    /// The call wasn't made: `Quiet`, `Full`, `TooManyCalls`, `LifeUsedUp`; `Invalid`, whose reason is
    /// `Flow`, `Port`, `Length` (payload and 8 octets are more than [`Params::cap`](crate::Params::cap)),
    /// `Timeout` or `Total`. `OutOfMemory`: it may have been made, and the driver failed. `Stopped`,
    /// `OtherProcess`.
    pub fn call(&self, flow: Flow, payload: &[u8], timeout: Duration) -> Result<u64, Error> {
        self.call_with(flow, payload, timeout, 0)
    }

    /// As [`call`](Handle::call), with a value that the event of its end has: so a program needs no table of calls
    /// by their numbers.
    ///
    /// # Errors
    ///
    /// As of [`call`](Handle::call).
    pub fn call_with(
        &self,
        flow: Flow,
        payload: &[u8],
        timeout: Duration,
        user: u64,
    ) -> Result<u64, Error> {
        let (flow, timeout_ms) = (flow.into(), timeout_ms(timeout));
        let options =
            sys::dt_udp_call_options { timeout_ms, flow, user, ..sys::dt_udp_call_options::new() };
        let (octets, len) = (payload.as_ptr().cast(), payload.len());
        // SAFETY: the options are only read; pointer and length are those of a slice.
        let it = unsafe { sys::dt_udp_make_call(self.driver(), &options, octets, len) };
        match it.status {
            c::DT_FULL => Err(Error::Full { free: it.free }),
            c::DT_QUIET => Err(Error::Quiet { until: it.quiet_until }),
            status => self.check_for(status, it.invalid).map(|()| it.call),
        }
    }

    /// Replies to a request, once. A reply may wait in the driver as a call does; then Ok says only that it
    /// was kept, and a second one for the same request is dropped.
    ///
    /// # Errors
    ///
    /// `Gone`: the request isn't open. `Full`: the request stays open. `Invalid`: the reply and 8 octets are
    /// more than [`Params::cap`](crate::Params::cap). `OutOfMemory`: it may have been sent, and the driver
    /// failed. `Stopped`, `OtherProcess`.
    pub fn reply(&self, token: Token, payload: &[u8]) -> Result<(), Error> {
        // SAFETY: the token is only read; pointer and length are those of a slice.
        let it = unsafe {
            sys::dt_udp_reply(self.driver(), &token.into(), payload.as_ptr().cast(), payload.len())
        };
        match it.status {
            c::DT_FULL => Err(Error::Full { free: it.free }),
            status => self.check_for(status, it.invalid),
        }
    }

    /// Ends a request without a reply, so that there is room for another. Its caller becomes unsure when its
    /// timeout is over.
    ///
    /// # Errors
    ///
    /// `Gone`: as of [`reply`](Handle::reply). `OutOfMemory`: the driver failed. `Stopped`, `OtherProcess`.
    pub fn forget(&self, token: Token) -> Result<(), Error> {
        // SAFETY: the token is only read.
        self.check(unsafe { sys::dt_udp_forget(self.driver(), &token.into()) })
    }

    /// The counters of the node below the driver.
    ///
    /// # Errors
    ///
    /// `OtherProcess`.
    pub fn node_counts(&self) -> Result<NodeCounts, Error> {
        let mut it = c::dt_node_counts::new();
        // SAFETY: the driver is open, and so its handle; the struct is borrowed for the call only. So below.
        let status =
            unsafe { c::dt_service_get_counts(sys::dt_udp_service(self.owned()?), &mut it) };
        self.check(status).map(|()| it.into())
    }

    /// How many datagrams the guard blocked.
    ///
    /// # Errors
    ///
    /// `OtherProcess`.
    pub fn blocked_counts(&self) -> Result<BlockedCounts, Error> {
        // SAFETY: as in `node_counts`.
        Ok(unsafe { c::dt_service_get_blocked_counts(sys::dt_udp_service(self.owned()?)) }.into())
    }

    /// The counters of dropped messages. `unknown_replies` and `reused_requests` are alarms.
    ///
    /// # Errors
    ///
    /// `OtherProcess`.
    pub fn call_counts(&self) -> Result<CallCounts, Error> {
        let mut it = c::dt_call_counts::new();
        // SAFETY: as in `node_counts`.
        let status =
            unsafe { c::dt_service_get_call_counts(sys::dt_udp_service(self.owned()?), &mut it) };
        self.check(status).map(|()| it.into())
    }
}

impl<K: Kind> Handle<K> {
    /// The driver, if this is the process that opened it: calls of deltat.h don't look for that.
    fn owned(&self) -> Result<*mut sys::dt_udp, Error> {
        if process::id() == self.process {
            Ok(self.driver())
        } else {
            Err(Error::OtherProcess)
        }
    }
}

impl<K: Kind> Drop for Handle<K> {
    fn drop(&mut self) {
        // SAFETY: the driver was opened in `Udp::open`, and nothing uses it afterwards. The octets of objects
        // are freed after it.
        unsafe { sys::dt_udp_close(self.driver()) }
    }
}

impl<K: Kind> Deref for Udp<K> {
    type Target = Handle<K>;

    fn deref(&self) -> &Handle<K> {
        &self.handle
    }
}

impl<K: Kind> AsRawFd for Handle<K> {
    /// The descriptor that is readable if a datagram arrived or something is due. It is the driver's: only
    /// watch it.
    fn as_raw_fd(&self) -> RawFd {
        self.descriptor
    }
}

impl<K: Kind> AsFd for Handle<K> {
    fn as_fd(&self) -> BorrowedFd<'_> {
        // SAFETY: it is open until the driver is closed.
        unsafe { BorrowedFd::borrow_raw(self.descriptor) }
    }
}

impl<K: Kind> AsRawFd for Udp<K> {
    fn as_raw_fd(&self) -> RawFd {
        self.handle.as_raw_fd()
    }
}

impl<K: Kind> AsFd for Udp<K> {
    fn as_fd(&self) -> BorrowedFd<'_> {
        self.handle.as_fd()
    }
}

impl<K: Kind> fmt::Debug for Handle<K> {
    fn fmt(&self, f: &mut fmt::Formatter<'_>) -> fmt::Result {
        let Handle { node, process, descriptor, .. } = self;
        f.debug_struct(K::NAME)
            .field("number", node)
            .field("process", process)
            .field("descriptor", descriptor)
            .finish_non_exhaustive()
    }
}

impl<K: Kind> fmt::Debug for Udp<K> {
    fn fmt(&self, f: &mut fmt::Formatter<'_>) -> fmt::Result {
        self.handle.fmt(f)
    }
}

impl<K: Kind> fmt::Debug for Events<'_, K> {
    fn fmt(&self, f: &mut fmt::Formatter<'_>) -> fmt::Result {
        f.debug_struct("Events").field("of", self.handle).finish()
    }
}
