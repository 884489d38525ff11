//! Nodes and services that the program opened, over a UDP socket.
use std::collections::VecDeque;
use std::ffi::CString;
use std::net::{SocketAddr, ToSocketAddrs};
use std::os::raw::c_void;
use std::os::unix::io::{AsFd, AsRawFd, BorrowedFd, RawFd};
use std::ptr::NonNull;
use std::time::Duration;
use std::{fmt, io};

use deltat::{now, Calls, Endpoint, Flow, Messages};
use deltat_sys as c;
use deltat_udp_sys as sys;

use crate::driver::wait_ms;
use crate::options::text;
use crate::{Alarm, Counts, Error};

/// The longest wait for the end of a silence, or for room in a flow.
const WAIT: Duration = Duration::from_millis(10);

/// A node at the other end of a link, with which a [`Driven`] node exchanges datagrams.
#[derive(Clone, Copy, Debug, PartialEq, Eq, Hash)]
pub struct Peer {
    /// Its number.
    pub node: u32,
    /// The number of the link to it, of [`Link`](deltat::Link).
    pub link: u16,
    /// Where its socket is.
    pub address: SocketAddr,
}

/// The kinds of nodes that can be driven: [`Messages`] and [`Calls`].
pub trait DrivenKind: deltat::Kind + of::Role {}

impl DrivenKind for Messages {}
impl DrivenKind for Calls {}

mod of {
    use super::{c_void, sys};

    /// Nobody else can name it, so there are no other kinds.
    pub trait Role {
        fn put(handle: *mut c_void, given: &mut sys::dt_udp_driven);
    }

    impl Role for super::Messages {
        fn put(handle: *mut c_void, given: &mut sys::dt_udp_driven) {
            given.node = handle.cast();
        }
    }

    impl Role for super::Calls {
        fn put(handle: *mut c_void, given: &mut sys::dt_udp_driven) {
            given.service = handle.cast();
        }
    }
}

/// A [`deltat::Node`] or a [`deltat::Service`] over a UDP socket, with all of its links: for relays, and for
/// programs that call the node themselves. [`Node`](crate::Node) and [`Service`](crate::Service) need less.
///
/// The driver has the socket, the clock and the timer, and measures how old datagrams are, as those of
/// [`Udp`](crate::Udp) do. Datagrams of addresses that aren't a peer's are dropped.
///
/// A program calls [`turn`](Driven::turn) again and again, and between turns the calls of
/// [`node`](Driven::node) that take the time, with the time that the turn returned. What these make is put on
/// the wire by the next turn, or by [`flush`](Driven::flush) before long work.
///
/// ```no_run
/// use deltat::{now, Link, Network, Node, NodeOptions, Params, Route, Start};
/// use deltat_udp::{Driven, Peer, TRAILER};
///
/// # fn main() -> Result<(), Box<dyn std::error::Error>> {
/// let network = Network { mtu: 1500 - TRAILER, ..Network::new(250_000, 50_000) };
/// let (params, charge) = Params::for_network(&network)?;
/// let (links, routes) = ([Link { number: 1, charge, pace: 0 }], [Route { to: 1, link: 1 }]);
/// let start = Start::Again;
/// let mut node = Node::open(&params, &NodeOptions { node: 2, now: now(), links: &links, routes: &routes, start })?;
/// node.enable_messages(65_536)?;
/// node.set_guard(Some(&[20]), 1000)?;
/// let peers = [Peer { node: 1, link: 1, address: "127.0.0.1:4001".parse()? }];
/// let mut udp = Driven::bind("127.0.0.1:4002", node, &peers)?;
/// let mut buf = vec![0; 65_536];
/// loop {
///     let at = udp.turn(None)?;
///     udp.node.take_reports(|_| ())?;
///     while let Some(message) = udp.node.next_message(at, &mut buf)? {
///         println!("{} octets of {}", message.len, message.flow);
///     }
/// }
/// # }
/// ```
pub struct Driven<K: DrivenKind> {
    /// The node or the service. If another one is put in its place, every call is [`Error::Stopped`].
    pub node: Endpoint<K>,
    driver: NonNull<sys::dt_udp>,
    descriptor: RawFd,
    /// The node that is driven: `node` is that one still.
    handle: *mut c_void,
    /// Those of the node: the driver reads them until it is closed.
    _links: Box<[c::dt_link]>,
    turned_at: u64,
    alarms: VecDeque<(u32, Alarm)>,
}

// SAFETY: nothing else has the driver's pointer, it keeps nothing outside its memory but descriptors, and
// `&mut self` lets one thread at a time call.
unsafe impl<K: DrivenKind> Send for Driven<K> {}

/// The texts of an address, for C.
fn texts(of: SocketAddr) -> Result<(CString, CString), Error> {
    let host = match of {
        SocketAddr::V6(it) if it.scope_id() > 0 => format!("{}%{}", it.ip(), it.scope_id()),
        _ => of.ip().to_string(),
    };
    Ok((text(host.as_bytes(), "address")?, text(of.port().to_string().as_bytes(), "port")?))
}

fn first_of(own: impl ToSocketAddrs) -> Result<SocketAddr, Error> {
    let mut found = own.to_socket_addrs().map_err(|why| Error::Refused {
        text: format!("the address to bind isn't known: {why}"),
        param: None,
    })?;
    found.next().ok_or_else(|| Error::Refused { text: "no address to bind".into(), param: None })
}

impl<K: DrivenKind> Driven<K> {
    /// Binds a socket for a node and its peers. A datagram for another node, which a relay passes on, goes
    /// to the first peer on its link. Each peer needs a driver with the watch (docs/watch.md), as another
    /// `Driven` is: what is older than its link's charge allows is lost.
    ///
    /// # Errors
    ///
    /// `Refused`: an address is none, or the node has no link of a peer's. `System`: the port is in use, or the
    /// system refused a call. `OutOfMemory`, `OtherProcess`, `OtherInterface`. The node is closed.
    pub fn bind(
        own: impl ToSocketAddrs,
        node: Endpoint<K>,
        peers: &[Peer],
    ) -> Result<Driven<K>, Error> {
        Driven::open(first_of(own)?, node, peers, 0)
    }

    /// As [`bind`](Driven::bind), to speak with nodes that have no driver: `deltat node`, devices, loops of the
    /// program's own. The links' charges must be right then: what is under way for longer may be delivered twice.
    ///
    /// # Errors
    ///
    /// As of [`bind`](Driven::bind).
    pub fn bind_without_watch(
        own: impl ToSocketAddrs,
        node: Endpoint<K>,
        peers: &[Peer],
    ) -> Result<Driven<K>, Error> {
        Driven::open(first_of(own)?, node, peers, u32::from(sys::DT_UDP_FLAG_WITHOUT_WATCH))
    }

    fn open(
        own: SocketAddr,
        mut node: Endpoint<K>,
        peers: &[Peer],
        flags: u32,
    ) -> Result<Driven<K>, Error> {
        // SAFETY: it takes no pointer.
        let version = unsafe { sys::dt_udp_abi_version() };
        if version != sys::DT_UDP_ABI_VERSION {
            return Err(Error::OtherInterface { version });
        }
        let handle = node.as_ptr().map_err(Error::of_node)?;
        let params: c::dt_params = (*node.params()).into();
        let links: Box<[c::dt_link]> = node.links().iter().map(|it| (*it).into()).collect();
        let (host, port) = texts(own)?;
        let options = sys::dt_udp_options {
            node: node.number(),
            host: host.as_ptr(),
            port: port.as_ptr(),
            params: &params,
            flags,
            ..sys::dt_udp_options::new()
        };
        let mut given = sys::dt_udp_driven {
            links: links.as_ptr(),
            link_count: links.len(),
            ..sys::dt_udp_driven::new()
        };
        K::put(handle, &mut given);
        let mut error = sys::dt_udp_error::new();
        // SAFETY: structs of the header. What they point to lives for the call, and the node and its links
        // until the driver is closed.
        let driver = NonNull::new(unsafe { sys::dt_udp_drive(&given, &options, &mut error) })
            .ok_or_else(|| Error::of_c(&error))?;
        let (turned_at, alarms) = (now(), VecDeque::new());
        let mut it =
            Driven { node, driver, descriptor: -1, handle, _links: links, turned_at, alarms };
        // SAFETY: the driver is open. So below.
        it.descriptor = unsafe { sys::dt_udp_fd(it.driver()) };
        if it.descriptor < 0 {
            let code = io::Error::last_os_error().raw_os_error().unwrap_or(0);
            return Err(Error::system("the driver has no descriptor", code));
        }
        peers.iter().try_for_each(|one| it.set_peer(*one)).map(|()| it)
    }

    fn driver(&self) -> *mut sys::dt_udp {
        self.driver.as_ptr()
    }

    /// Refuses a call if the node isn't the one that is driven.
    fn check_node(&mut self) -> Result<(), Error> {
        if self.node.as_ptr().map_err(Error::of_node)? == self.handle {
            Ok(())
        } else {
            Err(Error::Stopped)
        }
    }

    fn check(&self, status: c::dt_status) -> Result<(), Error> {
        // SAFETY: as in `open`.
        match unsafe { sys::dt_udp_system_error(self.driver()) } {
            code if status != c::DT_OK && code != 0 => {
                Err(Error::system("the driver can't continue", code))
            }
            _ => Error::check(status),
        }
    }

    /// Sets the address of a peer. Called again it replaces it.
    ///
    /// # Errors
    ///
    /// `Refused`: it isn't an address of the socket's family, or the node has no such link. `OutOfMemory`:
    /// nothing changed. `Stopped`, `OtherProcess`.
    pub fn set_peer(&mut self, peer: Peer) -> Result<(), Error> {
        self.check_node()?;
        if !self.node.links().iter().any(|it| it.number == peer.link) {
            let text = format!("peer {}: the node has no link {}", peer.node, peer.link);
            return Err(Error::Refused { text, param: None });
        }
        let (host, port) = texts(peer.address)?;
        let route = c::dt_route { to: peer.node, link: peer.link };
        let mut error = sys::dt_udp_error::new();
        // SAFETY: as in `open`; the texts and the structs are borrowed for the call only.
        let status = unsafe {
            let (host, port) = (host.as_ptr(), port.as_ptr());
            sys::dt_udp_set_neighbour(self.driver(), &route, host, port, &mut error)
        };
        if status == c::DT_OK {
            Ok(())
        } else {
            Err(Error::of_c(&error))
        }
    }

    /// Sends what waits; waits until a datagram arrives or something is due, but not for longer than `wait`
    /// (None: without limit), which is rounded up to ms; receives what arrived, does what is due, and sends what
    /// that made. Returns the time, for the calls of [`node`](Driven::node) until the next turn.
    ///
    /// # Errors
    ///
    /// `System`, `OutOfMemory`, `Stopped`: the driver or the node can't continue; drop it, and open it again.
    /// `OtherProcess`.
    pub fn turn(&mut self, wait: Option<Duration>) -> Result<u64, Error> {
        self.flush()?;
        let mut batch = sys::dt_udp_batch::new();
        // SAFETY: as in `open`; a batch without room for items has no pointers.
        let status = unsafe { sys::dt_udp_next_batch(self.driver(), wait_ms(wait), &mut batch) };
        self.turned_at = now();
        if batch.alarm != 0 {
            self.alarms.push_back((batch.alarm_peer, Alarm::of_c(batch.alarm)));
        }
        self.check(status).map(|()| self.turned_at)
    }

    /// Sends what waits. What the node made since the last turn counts as made at that turn's time. Without the
    /// watch nothing is sent later than 20 ms after it, and the node sends it again.
    ///
    /// # Errors
    ///
    /// `OtherProcess`, `Stopped`.
    pub fn flush(&mut self) -> Result<(), Error> {
        self.flush_since(self.turned_at)
    }

    fn flush_since(&mut self, at: u64) -> Result<(), Error> {
        self.check_node()?;
        // SAFETY: as in `open`.
        unsafe { sys::dt_udp_flush_since(self.driver(), at) };
        Ok(())
    }

    /// What the watch found wrong with a peer, of which nothing passes any more: once for each opening of it.
    pub fn next_alarm(&mut self) -> Option<(u32, Alarm)> {
        self.alarms.pop_front()
    }

    /// The counters of the driver.
    #[must_use]
    pub fn counts(&self) -> Counts {
        // SAFETY: the counters belong to the driver, which is open, and are read at once.
        Counts::of_c(unsafe { &*sys::dt_udp_get_counts(self.driver()) })
    }

    /// The UDP port of the socket; 0 if the system doesn't say.
    #[must_use]
    pub fn port(&self) -> u16 {
        // SAFETY: as in `open`.
        unsafe { sys::dt_udp_local_port(self.driver()) }
    }
}

impl Driven<Messages> {
    /// Sends a whole message. Takes turns as long as the node is silent or the flow has no room, which ends
    /// when octets are acknowledged or given up. Messages that arrive meanwhile wait in the node.
    ///
    /// # Errors
    ///
    /// As [`turn`](Driven::turn). `Refused`: what [`deltat::Node::send`] refuses, but for `Full` and `Quiet`.
    pub fn send(&mut self, flow: Flow, octets: &[u8]) -> Result<(), Error> {
        loop {
            self.flush()?;
            let at = now();
            match self.node.send(at, flow, octets, true, true) {
                Ok(()) => return self.flush_since(at),
                Err(deltat::Error::Full { .. } | deltat::Error::Quiet { .. }) => {
                    self.flush_since(at)?;
                    self.turn(Some(WAIT))?;
                }
                Err(why) => return Err(Error::of_node(why)),
            }
        }
    }
}

impl<K: DrivenKind> Drop for Driven<K> {
    fn drop(&mut self) {
        // SAFETY: nothing uses the driver afterwards. It doesn't touch the node, which is freed after it.
        unsafe { sys::dt_udp_close(self.driver()) }
    }
}

impl<K: DrivenKind> AsRawFd for Driven<K> {
    /// The descriptor that is readable if a datagram arrived or something is due. It is the driver's: only
    /// watch it.
    fn as_raw_fd(&self) -> RawFd {
        self.descriptor
    }
}

impl<K: DrivenKind> AsFd for Driven<K> {
    fn as_fd(&self) -> BorrowedFd<'_> {
        // SAFETY: it is open until the driver is closed.
        unsafe { BorrowedFd::borrow_raw(self.descriptor) }
    }
}

impl<K: DrivenKind> fmt::Debug for Driven<K> {
    fn fmt(&self, f: &mut fmt::Formatter<'_>) -> fmt::Result {
        f.debug_struct("Driven").field("node", &self.node).finish_non_exhaustive()
    }
}
