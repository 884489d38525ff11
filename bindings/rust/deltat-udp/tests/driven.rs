//! Nodes that the program opened, with their links, over sockets of the driver.
mod common;

use std::net::UdpSocket;
use std::thread::sleep;
use std::time::{Duration, Instant};

use common::{FLOW, LONG, PARAMS};
use deltat::{now, Flow, Link, Node, NodeOptions, Route, Service, ServiceOptions, Start};
use deltat_udp::{Alarm, Driven, DrivenKind, Error, Messages, Peer, PortKind};

const LINK: Link = Link { number: 1, charge: 100, pace: 0 };
const TURN: Option<Duration> = Some(Duration::from_millis(5));

/// Node `number` with these links, and its routes by them.
fn node(number: u32, links: &[Link], routes: &[(u32, u16)]) -> Node {
    let routes: Vec<Route> = routes.iter().map(|it| Route { to: it.0, link: it.1 }).collect();
    let start = Start::First;
    let options = NodeOptions { node: number, now: now(), links, routes: &routes, start };
    let mut it = Node::open(&PARAMS, &options).unwrap();
    it.enable_messages(65_536).unwrap();
    it
}

fn bound(node: Node) -> Driven<Messages> {
    Driven::bind("127.0.0.1:0", node, &[]).unwrap()
}

fn peer(node: u32, link: u16, port: u16) -> Peer {
    Peer { node, link, address: ([127, 0, 0, 1], port).into() }
}

/// Gives each of two nodes the other's address.
fn join<K: DrivenKind>(one: (u32, &mut Driven<K>), two: (u32, &mut Driven<K>), link: u16) {
    one.1.set_peer(peer(two.0, link, two.1.port())).unwrap();
    two.1.set_peer(peer(one.0, link, one.1.port())).unwrap();
}

/// Nodes 1 and 2, joined.
fn pair() -> (Driven<Messages>, Driven<Messages>) {
    let mut one = bound(node(1, &[LINK], &[(2, 1)]));
    let mut two = bound(node(2, &[LINK], &[(1, 1)]));
    join((1, &mut one), (2, &mut two), 1);
    (one, two)
}

/// Has nodes take turns until `wanted` finds something at the last one.
fn until<T>(
    nodes: &mut [&mut Driven<Messages>],
    mut wanted: impl FnMut(u64, &mut Driven<Messages>) -> Option<T>,
) -> T {
    let begun = Instant::now();
    while begun.elapsed() < LONG {
        let times: Vec<u64> = nodes.iter_mut().map(|it| it.turn(TURN).unwrap()).collect();
        for it in nodes.iter_mut() {
            it.node.take_reports(|_| ()).unwrap();
        }
        let at = times[times.len() - 1];
        if let Some(found) = nodes.last_mut().and_then(|it| wanted(at, it)) {
            return found;
        }
    }
    panic!("nothing happened in {LONG:?}");
}

fn message(at: u64, of: &mut Driven<Messages>) -> Option<Vec<u8>> {
    let mut buf = vec![0; 65_536];
    let found = of.node.next_message(at, &mut buf).unwrap()?;
    buf.truncate(found.len);
    Some(buf)
}

#[test]
fn a_message_arrives_by_way_of_a_relay() {
    let far = Link { number: 7, ..LINK };
    let mut one = bound(node(1, &[LINK], &[(2, 1), (3, 1)]));
    let mut relay = bound(node(2, &[LINK, far], &[(1, 1), (3, 7)]));
    let mut three = bound(node(3, &[far], &[(2, 7), (1, 7)]));
    join((1, &mut one), (2, &mut relay), 1);
    join((2, &mut relay), (3, &mut three), 7);
    let octets: Vec<u8> = (0..20_000_u32).map(|it| it as u8).collect();
    one.send(Flow { target: 3, ..FLOW }, &octets).unwrap();
    assert_eq!(until(&mut [&mut one, &mut relay, &mut three], message), octets);
    assert!(relay.counts().datagrams_out > 0);
}

#[test]
fn more_than_fits_is_sent_as_the_peer_takes_it() {
    let (mut one, mut two) = pair();
    let octets = vec![1; 40_000];
    let sent = std::thread::spawn(move || {
        (0..5).for_each(|_| one.send(FLOW, &octets).unwrap());
        let begun = Instant::now();
        while begun.elapsed() < Duration::from_secs(2) {
            one.turn(TURN).unwrap();
        }
    });
    for _ in 0..5 {
        assert_eq!(until(&mut [&mut two], message).len(), 40_000);
    }
    sent.join().unwrap();
}

#[test]
fn services_call_each_other() {
    let service = |number: u32, life| {
        let routes = [Route { to: 3 - number, link: 1 }];
        let (links, start) = ([LINK], Start::First);
        let options =
            NodeOptions { node: number, now: now(), links: &links, routes: &routes, start };
        let limits =
            ServiceOptions { life, max_calls: 10, max_requests: 10, max_requests_per_flow: 10 };
        let mut it = Service::open(&PARAMS, &options, &limits).unwrap();
        it.set_port(10, PortKind::Caller).unwrap();
        it.set_port(20, PortKind::Service).unwrap();
        Driven::bind("127.0.0.1:0", it, &[]).unwrap()
    };
    let (mut one, mut two) = (service(1, 1), service(2, 1));
    join((1, &mut one), (2, &mut two), 1);
    let (at, mut buf) = (one.turn(TURN).unwrap(), [0; 100]);
    one.node.call(at, FLOW, b"hello", 5000, 77).unwrap();
    one.flush().unwrap();
    let begun = Instant::now();
    while begun.elapsed() < LONG {
        let at = two.turn(TURN).unwrap();
        if let Some(deltat::Event::Request { token, len }) = two.node.next_event(&mut buf).unwrap()
        {
            buf[..len].reverse();
            two.node.reply(at, token, &buf[..len]).unwrap();
            two.flush().unwrap();
        }
        one.turn(TURN).unwrap();
        if let Some(event) = one.node.next_event(&mut buf).unwrap() {
            assert!(matches!(event, deltat::Event::Answered { user: 77, len: 5, .. }), "{event:?}");
            assert_eq!(&buf[..5], b"olleh");
            return;
        }
    }
    panic!("no answer in {LONG:?}");
}

#[test]
fn strangers_are_not_heard_and_a_guard_ends_nothing() {
    let (mut one, mut two) = pair();
    let stranger = UdpSocket::bind("127.0.0.1:0").unwrap();
    stranger.send_to(b"not a datagram", ("127.0.0.1", two.port())).unwrap();
    let begun = Instant::now();
    while two.counts().unknown == 0 && begun.elapsed() < LONG {
        two.turn(TURN).unwrap();
    }
    assert_eq!((two.counts().unknown, two.node.counts().unwrap().datagrams_in), (1, 0));
    two.node.set_guard(Some(&[21]), 1000).unwrap();
    one.send(FLOW, b"hello").unwrap();
    let blocked = |_, it: &mut Driven<Messages>| {
        Some(it.node.blocked_counts().unwrap().closed_port).filter(|it| *it > 0)
    };
    assert!(until(&mut [&mut one, &mut two], blocked) > 0);
}

#[test]
fn what_is_late_is_not_sent() {
    let hears = UdpSocket::bind("127.0.0.1:0").unwrap();
    let peers = [Peer { node: 2, link: 1, address: hears.local_addr().unwrap() }];
    let node = node(1, &[LINK], &[(2, 1)]);
    let mut one = Driven::bind_without_watch("127.0.0.1:0", node, &peers).unwrap();
    let at = one.turn(Some(Duration::ZERO)).unwrap();
    one.node.send(at, FLOW, b"hello", true, true).unwrap();
    sleep(Duration::from_millis(30));
    one.flush().unwrap();
    assert_eq!((one.counts().not_sent, one.counts().datagrams_out), (1, 0));
}

#[test]
fn a_node_that_is_silent_sends_when_that_is_over() {
    let quiet = deltat::Params { mpl: 40, r: 60, a: 2, rto: 10, probe: 50, ..PARAMS };
    let routes = [Route { to: 1, link: 1 }];
    let links = [Link { charge: 30, ..LINK }];
    let (begun, start) = (now(), Start::Again);
    let options = NodeOptions { node: 2, now: begun, links: &links, routes: &routes, start };
    let node = Node::open(&quiet, &options).unwrap();
    let hears = UdpSocket::bind("127.0.0.1:0").unwrap();
    hears.set_read_timeout(Some(LONG)).unwrap();
    let peers = [Peer { node: 1, link: 1, address: hears.local_addr().unwrap() }];
    let mut udp = Driven::bind_without_watch("127.0.0.1:0", node, &peers).unwrap();
    udp.send(FLOW.reversed(), b"hello").unwrap();
    assert!(now() >= begun + quiet.quiet_ms().unwrap());
    assert_eq!(hears.recv(&mut [0; 99]).unwrap(), 35);
    let why = udp.send(FLOW, b"of another node").unwrap_err();
    assert!(matches!(why, Error::Refused { .. }), "{why}");
}

#[test]
fn a_peer_without_a_watch_is_an_alarm() {
    let mut one = bound(node(1, &[LINK], &[(2, 1)]));
    let other = node(2, &[LINK], &[(1, 1)]);
    let mut two = Driven::bind_without_watch("127.0.0.1:0", other, &[]).unwrap();
    join((1, &mut one), (2, &mut two), 1);
    two.send(FLOW.reversed(), b"hello").unwrap();
    let begun = Instant::now();
    while begun.elapsed() < LONG {
        one.turn(TURN).unwrap();
        if let Some(found) = one.next_alarm() {
            assert_eq!(found, (2, Alarm::Watch));
            return;
        }
    }
    panic!("no alarm in {LONG:?}");
}

#[test]
fn what_is_wrong_is_said() {
    let refused = |it: Result<Driven<Messages>, Error>| match it {
        Err(Error::Refused { text, .. }) => text,
        other => panic!("{other:?}"),
    };
    let it = Driven::bind("127.0.0.1:0", node(1, &[LINK], &[(2, 1)]), &[peer(2, 7, 4001)]);
    assert_eq!(refused(it), "peer 2: the node has no link 7");
    let it = Driven::bind("no address", node(1, &[LINK], &[]), &[]);
    assert!(refused(it).starts_with("the address to bind isn't known"));
    let (one, mut two) = pair();
    let address = ("127.0.0.1", one.port());
    let it = Driven::bind(address, node(3, &[LINK], &[]), &[]);
    assert!(matches!(it, Err(Error::System { code: 98, .. })), "{it:?}");
    // the driver was given another node's handle
    let former = std::mem::replace(&mut two.node, node(2, &[LINK], &[(1, 1)]));
    drop(former);
    assert_eq!(two.turn(TURN).unwrap_err(), Error::Stopped);
    assert_eq!(two.flush().unwrap_err(), Error::Stopped);
    assert_eq!(two.set_peer(peer(1, 1, 4001)).unwrap_err(), Error::Stopped);
}
