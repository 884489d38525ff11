//! Drivers over 127.0.0.1.
#![allow(dead_code)] // each test uses some of it

use std::time::{Duration, Instant};

use deltat_udp::{Event, Flow, Kind, Node, Options, Params, PortKind, Service, Start, Udp};

pub const PARAMS: Params = Params {
    mpl: 482,
    r: 3000, // (a message is given up later: others may load the machine)
    a: 5,
    rto: 90,
    probe: 180,
    seg: 1408,
    cap: 65_536,
    rcap: 65_536,
    window: 65_536,
    run_limit: 1 << 31,
    start: 0,
};

/// From the caller's port 10 of node 1 to port 20 of node 2.
pub const FLOW: Flow = Flow { source: 1, target: 2, source_port: 10, target_port: 20 };

pub const LONG: Duration = Duration::from_secs(10);

pub fn options(node: u32) -> Options<'static> {
    let start = Some(Start::First);
    Options { host: Some("127.0.0.1"), start, ..Options::new(node, PARAMS, 294) }
}

/// A client with a port, and a service that learns its peers.
pub fn services(client: &Options<'_>) -> (Service, Service) {
    let service = Service::open(&Options { max_peers: 10, ..options(2) }).unwrap();
    service.open_port(20, PortKind::Service).unwrap();
    let client = Service::open(client).unwrap();
    client.open_port(10, PortKind::Caller).unwrap();
    client.set_peer(2, "127.0.0.1", service.port()).unwrap();
    (client, service)
}

/// Two nodes that have each other's address, each with its port of `FLOW` open.
pub fn nodes(one: &Options<'_>, two: &Options<'_>) -> (Node, Node) {
    let (one, two) = (Node::open(one).unwrap(), Node::open(two).unwrap());
    one.open_port(10).unwrap();
    two.open_port(20).unwrap();
    one.set_peer(2, "127.0.0.1", two.port()).unwrap();
    two.set_peer(1, "127.0.0.1", one.port()).unwrap();
    (one, two)
}

/// The next event of either of two drivers that `wanted` takes; others are dropped.
pub fn until<K: Kind, T>(
    one: &mut Udp<K>,
    two: &mut Udp<K>,
    mut wanted: impl FnMut(u32, Event<Vec<u8>>) -> Option<T>,
) -> T {
    let begun = Instant::now();
    while begun.elapsed() < LONG {
        for it in [&mut *one, &mut *two] {
            let number = it.number();
            let event = it.next_event_within(Duration::from_millis(1)).unwrap();
            if let Some(found) = event.and_then(|event| wanted(number, event.into_owned())) {
                return found;
            }
        }
    }
    panic!("nothing happened in {LONG:?}");
}
