//! What nodes and services have in common.
use std::fmt;
use std::os::raw::c_void;
use std::process;
use std::ptr::NonNull;

use deltat_sys as sys;

use crate::{
    BlockedCounts, Datagram, Error, Fault, InvalidReason, Link, NodeCounts, NodeOptions, Params,
    Route, ABI_VERSION,
};

/// The names of the parameters, in the order of the header's struct.
const PARAMS: [&str; 11] =
    ["mpl", "r", "a", "rto", "probe", "seg", "cap", "rcap", "window", "run_limit", "start"];

/// One end of the protocol without a socket, a clock or a thread: a [`Node`](crate::Node) or a
/// [`Service`](crate::Service). It is used by one thread at a time, and closed when it is dropped.
///
/// Every call returns [`Error::OtherProcess`] in a forked child of the process that opened it.
pub struct Endpoint<K: Kind> {
    handle: NonNull<K::Handle>,
    process: u32,
    node: u32,
    params: Params,
    links: Box<[Link]>,
}

/// The two kinds of [`Endpoint`]: [`Messages`] and [`Calls`].
pub trait Kind: exports::Exports {}

/// The kind of a [`Node`](crate::Node), which sends and receives messages.
#[derive(Debug)]
pub enum Messages {}

/// The kind of a [`Service`](crate::Service), which makes and answers calls.
#[derive(Debug)]
pub enum Calls {}

impl Kind for Messages {}
impl Kind for Calls {}

pub(crate) mod exports {
    use deltat_sys as sys;

    /// The functions of the library that nodes and services both have.
    pub struct Table<H> {
        pub name: &'static str,
        pub new: unsafe extern "C" fn() -> *mut H,
        pub free: unsafe extern "C" fn(*mut H),
        pub tick: unsafe extern "C" fn(*mut H, u64) -> sys::dt_status,
        pub receive:
            unsafe extern "C" fn(*mut H, u64, u16, *const u8, usize, u32) -> sys::dt_receive_result,
        pub next_datagram:
            unsafe extern "C" fn(*mut H, *mut u8, usize, *mut sys::dt_datagram) -> sys::dt_status,
        pub wake: unsafe extern "C" fn(*mut H) -> u64,
        pub add_route: unsafe extern "C" fn(*mut H, *const sys::dt_route) -> sys::dt_status,
        pub set_guard: unsafe extern "C" fn(*mut H, *const u16, usize, bool, u32) -> sys::dt_status,
        pub get_blocked_counts: unsafe extern "C" fn(*mut H) -> sys::dt_blocked_counts,
        pub get_counts: unsafe extern "C" fn(*mut H, *mut sys::dt_node_counts) -> sys::dt_status,
    }

    /// A type of handle, and its functions. Nobody else can name it, so there are no other kinds.
    pub trait Exports {
        type Handle;
        const TABLE: Table<Self::Handle>;
    }

    impl Exports for super::Messages {
        type Handle = sys::dt_node;
        const TABLE: Table<sys::dt_node> = Table {
            name: "Node",
            new: sys::dt_node_new,
            free: sys::dt_node_free,
            tick: sys::dt_node_tick,
            receive: sys::dt_node_receive,
            next_datagram: sys::dt_node_next_datagram,
            wake: sys::dt_node_wake,
            add_route: sys::dt_node_add_route,
            set_guard: sys::dt_node_set_guard,
            get_blocked_counts: sys::dt_node_get_blocked_counts,
            get_counts: sys::dt_node_get_counts,
        };
    }

    impl Exports for super::Calls {
        type Handle = sys::dt_service;
        const TABLE: Table<sys::dt_service> = Table {
            name: "Service",
            new: sys::dt_service_new,
            free: sys::dt_service_free,
            tick: sys::dt_service_tick,
            receive: sys::dt_service_receive,
            next_datagram: sys::dt_service_next_datagram,
            wake: sys::dt_service_wake,
            add_route: sys::dt_service_add_route,
            set_guard: sys::dt_service_set_guard,
            get_blocked_counts: sys::dt_service_get_blocked_counts,
            get_counts: sys::dt_service_get_counts,
        };
    }
}

// SAFETY: nothing else has the handle's pointer, the library keeps nothing outside the handle but
// memory of malloc, and `&mut self` lets one thread at a time call.
unsafe impl<K: Kind> Send for Endpoint<K> {}

impl<K: Kind> Endpoint<K> {
    /// A handle in fresh memory, opened by `open`, which is given the parameters and options of the header.
    pub(crate) fn open_by(
        params: &Params,
        options: &NodeOptions<'_>,
        open: impl FnOnce(*mut K::Handle, &sys::dt_params, &sys::dt_node_options) -> sys::dt_open_result,
    ) -> Result<Endpoint<K>, Error> {
        let links: Vec<sys::dt_link> = options.links.iter().map(|it| (*it).into()).collect();
        let routes: Vec<sys::dt_route> =
            options.routes.iter().map(|it| sys::dt_route { to: it.to, link: it.link }).collect();
        let c_options = sys::dt_node_options {
            node: options.node,
            now: options.now,
            links: links.as_ptr(),
            link_count: links.len(),
            routes: routes.as_ptr(),
            route_count: routes.len(),
            start_as: options.start.to_c(),
            ..sys::dt_node_options::new()
        };
        let endpoint = Endpoint::<K>::not_open(params, options)?;
        let opened = open(endpoint.handle.as_ptr(), &params.to_c(), &c_options);
        let named = usize::from(opened.field).checked_sub(1).and_then(|it| PARAMS.get(it));
        let reason = named.map_or(InvalidReason::Argument, |name| InvalidReason::Param {
            name,
            value: opened.value,
        });
        Error::check_for(opened.status, reason).map(|()| endpoint)
    }

    /// A handle that isn't open.
    fn not_open(params: &Params, options: &NodeOptions<'_>) -> Result<Endpoint<K>, Error> {
        // SAFETY: it takes no pointer.
        let version = unsafe { sys::dt_abi_version() };
        if version != ABI_VERSION {
            return Err(Error::OtherInterface { version });
        }
        // SAFETY: it takes no pointer, and what it returns is a handle or null.
        let handle = NonNull::new(unsafe { (K::TABLE.new)() }).ok_or(Error::OutOfMemory)?;
        let (node, links) = (options.node, options.links.into());
        Ok(Endpoint { handle, process: process::id(), node, params: *params, links })
    }

    /// The handle for a call, if this is the process that opened it.
    pub(crate) fn handle(&mut self) -> Result<*mut K::Handle, Error> {
        if process::id() == self.process {
            Ok(self.handle.as_ptr())
        } else {
            Err(Error::OtherProcess)
        }
    }

    /// Octets that a flow's send buffer holds.
    pub(crate) fn cap(&self) -> usize {
        self.params.cap as usize
    }

    /// The handle of libdeltat, a `dt_node` or a `dt_service`, for crates that pass it to other libraries of C.
    /// It is this endpoint's, until it is dropped.
    ///
    /// # Errors
    ///
    /// `OtherProcess`.
    pub fn as_ptr(&mut self) -> Result<*mut c_void, Error> {
        self.handle().map(<*mut K::Handle>::cast)
    }

    /// The parameters that it was opened with.
    #[must_use]
    pub fn params(&self) -> &Params {
        &self.params
    }

    /// The links that it was opened with.
    #[must_use]
    pub fn links(&self) -> &[Link] {
        &self.links
    }

    /// The number of this node.
    #[must_use]
    pub fn number(&self) -> u32 {
        self.node
    }

    /// Does what is due at `now`: resends, acknowledgements, timeouts. Put the datagrams that it made on
    /// the wire.
    ///
    /// # Errors
    ///
    /// `OutOfMemory`: done in part, and the node is stopped. `Stopped`.
    pub fn tick(&mut self, now: u64) -> Result<(), Error> {
        // SAFETY: the handle was made in `not_open`, and `&mut self` lets one call at a time in. So below.
        Error::check(unsafe { (K::TABLE.tick)(self.handle()?, now) })
    }

    /// Passes in a datagram that arrived on `link` and waited on this machine for `waited_ms`, rounded up,
    /// which is taken off its lifetime. First does what is due at `now`. Put the datagrams that it made
    /// on the wire. A valid header with an invalid packet inside is dropped and reported.
    ///
    /// # Errors
    ///
    /// `Malformed`, `Expired`, `Blocked`: the datagram was dropped, and the program continues
    /// ([`Error::is_dropped`]). `Invalid`: the node has no such link. `OutOfMemory`: done in part, and
    /// the node is stopped. `Stopped`.
    pub fn receive(
        &mut self,
        now: u64,
        link: u16,
        datagram: &[u8],
        waited_ms: u32,
    ) -> Result<(), Error> {
        let handle = self.handle()?;
        // SAFETY: as in `tick`; pointer and length are those of a slice.
        let it = unsafe {
            (K::TABLE.receive)(handle, now, link, datagram.as_ptr(), datagram.len(), waited_ms)
        };
        match it.status {
            sys::DT_MALFORMED => {
                Err(Error::Malformed { fault: Fault::of_c(it.fault), value: it.value })
            }
            status => Error::check_for(status, InvalidReason::Link),
        }
    }

    /// Takes the next datagram to put on the wire, into the head of `buf`. None if none waits. With room
    /// for [`MAX_DATAGRAM`](crate::MAX_DATAGRAM) octets it always fits.
    ///
    /// # Errors
    ///
    /// `BufferTooSmall`: the datagram keeps waiting.
    pub fn next_datagram(&mut self, buf: &mut [u8]) -> Result<Option<Datagram>, Error> {
        let handle = self.handle()?;
        let mut it = sys::dt_datagram::new();
        // SAFETY: as in `tick`; the buffer and the struct are borrowed for the call only.
        match unsafe { (K::TABLE.next_datagram)(handle, buf.as_mut_ptr(), buf.len(), &mut it) } {
            sys::DT_NONE => Ok(None),
            sys::DT_BUFFER_TOO_SMALL => Err(Error::BufferTooSmall { needed: it.len }),
            status => Error::check(status)
                .map(|()| Some(Datagram { len: it.len, link: it.link, to: it.to })),
        }
    }

    /// The time at which to call [`tick`](Endpoint::tick) next. None: nothing is due, or the node is
    /// stopped.
    ///
    /// The time may be past on a node that was called so late that a segment can't be resent any more.
    /// Nothing is due then, so wait for 1 ms at least.
    ///
    /// # Errors
    ///
    /// Only [`Error::OtherProcess`].
    pub fn wake(&mut self) -> Result<Option<u64>, Error> {
        // SAFETY: as in `tick`.
        let time = unsafe { (K::TABLE.wake)(self.handle()?) };
        Ok(Some(time).filter(|it| *it != sys::DT_NEVER))
    }

    /// Adds a route. Routes can't be changed or removed.
    ///
    /// # Errors
    ///
    /// `Invalid`: the node has no such link. `Exists`: there is a route to this node. `OutOfMemory`:
    /// nothing changed, and the node is usable. `Stopped`: after a lack of memory.
    pub fn add_route(&mut self, route: Route) -> Result<(), Error> {
        let route = sys::dt_route { to: route.to, link: route.link };
        // SAFETY: as in `tick`; the route is only read.
        Error::check_for(
            unsafe { (K::TABLE.add_route)(self.handle()?, &route) },
            InvalidReason::Link,
        )
    }

    /// Limits what strangers can open: from now on the node receives only at `ports` (None: at every
    /// port), and makes no receiver for a new flow while `max_flows` flows have one. Other datagrams are
    /// [`Error::Blocked`] before the node sees them. Flows that have a receiver keep it, and
    /// acknowledgements are always admitted. A node opens with all ports and 4,294,967,295 flows.
    ///
    /// # Errors
    ///
    /// `OutOfMemory`: nothing changed, and the node is usable.
    pub fn set_guard(&mut self, ports: Option<&[u16]>, max_flows: u32) -> Result<(), Error> {
        let (handle, list) = (self.handle()?, ports.unwrap_or(&[]));
        // SAFETY: as in `tick`; pointer and length are those of a slice.
        Error::check(unsafe {
            (K::TABLE.set_guard)(handle, list.as_ptr(), list.len(), ports.is_none(), max_flows)
        })
    }

    /// How many datagrams the guard blocked since the opening.
    ///
    /// # Errors
    ///
    /// Only [`Error::OtherProcess`].
    pub fn blocked_counts(&mut self) -> Result<BlockedCounts, Error> {
        // SAFETY: as in `tick`.
        Ok(BlockedCounts::of_c(unsafe { (K::TABLE.get_blocked_counts)(self.handle()?) }))
    }

    /// The counters of the node since the opening.
    ///
    /// # Errors
    ///
    /// Only [`Error::OtherProcess`].
    pub fn counts(&mut self) -> Result<NodeCounts, Error> {
        let handle = self.handle()?;
        let mut it = sys::dt_node_counts::new();
        // SAFETY: as in `next_datagram`.
        Error::check(unsafe { (K::TABLE.get_counts)(handle, &mut it) })
            .map(|()| NodeCounts::of_c(it))
    }
}

impl<K: Kind> fmt::Debug for Endpoint<K> {
    fn fmt(&self, f: &mut fmt::Formatter<'_>) -> fmt::Result {
        let Endpoint { node, process, .. } = self;
        f.debug_struct(K::TABLE.name)
            .field("number", node)
            .field("process", process)
            .finish_non_exhaustive()
    }
}

impl<K: Kind> Drop for Endpoint<K> {
    /// Closes the node and frees its memory, but not in a forked child.
    fn drop(&mut self) {
        if let Ok(handle) = self.handle() {
            // SAFETY: the handle was made in `not_open`, and nothing uses it afterwards.
            unsafe { (K::TABLE.free)(handle) }
        }
    }
}
