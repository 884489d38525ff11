//! Nodes of one process: each call, and each error with its data.
mod common;

use std::error::Error as _;

use common::{node, FLOW, LINK, PARAMS};
use deltat::{
    Datagram, Declined, Endpoint, Error, Fault, Flow, InvalidReason, Message, Network, Node,
    NodeOptions, NotReplied, Params, Piece, ReportKind, Route, Start, MAX_DATAGRAM,
};

const LENGTH: Error = Error::Invalid { reason: InvalidReason::Length };
const NO_LINK: Error = Error::Invalid { reason: InvalidReason::Link };
const WRONG_FLOW: Error = Error::Invalid { reason: InvalidReason::Flow };

/// What waits at one node arrives at the other, three times each.
fn carry(one: &mut Node, two: &mut Node, now: u64) {
    let mut buf = [0; MAX_DATAGRAM];
    while let Some(it) = one.next_datagram(&mut buf).unwrap() {
        assert_eq!((it.link, it.to), (1, 2));
        for _ in 0..3 {
            two.receive(now, 1, &buf[..it.len], 1).unwrap();
        }
    }
}

#[test]
fn a_message_arrives_once_over_repeats() {
    let (mut one, mut two) = (node(1, Start::First, 0), node(2, Start::First, 0));
    let octets: Vec<u8> = (0..2000u32).map(|it| it as u8).collect();
    one.send(1, FLOW, &octets, true, true).unwrap();
    carry(&mut one, &mut two, 5);
    two.enable_messages(5000).unwrap();
    assert_eq!(two.enable_messages(5000), Err(Error::Exists));
    let mut buf = [0; 2000];
    assert_eq!(two.next_message(6, &mut buf), Ok(None));
    let mut accepted = 0;
    while let Some(report) = two.next_report().unwrap() {
        if report.kind == ReportKind::Accepted {
            accepted += report.count;
            assert_eq!(report.readable(), Some(FLOW));
        }
    }
    assert_eq!(accepted, 2000);
    two.mark_readable(FLOW).unwrap();
    assert_eq!(two.next_message(6, &mut buf[..1999]), Err(Error::BufferTooSmall { needed: 2000 }));
    let message = Message { flow: FLOW, len: 2000, gap: true, dropped_too_long: 0 };
    assert_eq!(two.next_message(6, &mut buf), Ok(Some(message)));
    assert_eq!(&buf[..], octets);
    assert_eq!(two.next_message(6, &mut buf), Ok(None));
}

#[test]
fn too_long_messages_are_counted() {
    let (mut one, mut two) = (node(1, Start::First, 0), node(2, Start::First, 0));
    two.enable_messages(5).unwrap();
    for it in [&b"longer"[..], b"short"] {
        one.send(1, FLOW, it, true, true).unwrap();
    }
    carry(&mut one, &mut two, 2);
    two.mark_readable(FLOW).unwrap();
    let mut buf = [0; 9];
    let message = two.next_message(3, &mut buf).unwrap().unwrap();
    assert_eq!((message.len, message.dropped_too_long, &buf[..5]), (5, 1, &b"short"[..]));
}

#[test]
fn only_reports_of_receive_records_are_readable() {
    let (mut one, mut two) = (node(1, Start::First, 0), node(2, Start::First, 0));
    one.send(1, FLOW, b"hello", true, true).unwrap();
    carry(&mut one, &mut two, 2);
    let quiet = PARAMS.quiet_ms().unwrap();
    let mut seen = Vec::new();
    for end in [&mut one, &mut two] {
        end.tick(3 + quiet).unwrap();
        while let Some(report) = end.next_report().unwrap() {
            if report.kind == ReportKind::RecordReleased {
                seen.push((report.sending, report.readable()));
            }
            if report.kind == ReportKind::SegmentSent {
                assert_eq!(
                    (report.count, report.begin, report.end, report.run),
                    (5, true, true, true)
                );
            }
        }
    }
    assert_eq!(seen, [(true, None), (false, Some(FLOW))]);
}

#[test]
fn routes_are_added_and_octets_are_counted() {
    let mut one = Node::open(
        &PARAMS,
        &NodeOptions { node: 1, now: 0, links: &[LINK], routes: &[], start: Start::First },
    )
    .unwrap();
    assert_eq!(one.flow_counts(FLOW), Ok(None));
    one.count_flow(FLOW).unwrap();
    one.send(1, FLOW, b"nowhere", true, true).unwrap();
    assert_eq!(one.flow_counts(FLOW).unwrap().unwrap().octets_queued, 7);
    assert_eq!(one.next_datagram(&mut [0; MAX_DATAGRAM]), Ok(None));
    assert_eq!(one.add_route(Route { to: 2, link: 9 }), Err(NO_LINK));
    assert_eq!(one.add_route(Route { to: 2, link: 1 }), Ok(()));
    assert_eq!(one.add_route(Route { to: 2, link: 1 }), Err(Error::Exists));
    assert_eq!(one.wake(), Ok(Some(101)));
    one.tick(101).unwrap();
    assert!(matches!(
        one.next_datagram(&mut [0; MAX_DATAGRAM]),
        Ok(Some(Datagram { to: 2, link: 1, len: 37 }))
    ));
    let counts = one.counts().unwrap();
    assert_eq!(
        (
            counts.datagrams_out,
            counts.datagrams_in,
            counts.octets_queued,
            counts.octets_acknowledged
        ),
        (1, 0, 7, 0)
    );
    assert_eq!(one.number(), 1);
}

#[test]
fn pieces_are_read_as_they_arrive() {
    let (mut one, mut two) = (node(1, Start::First, 0), node(2, Start::First, 0));
    one.send(1, FLOW, b"hello", true, true).unwrap();
    carry(&mut one, &mut two, 5);
    let mut buf = [0; 3];
    assert_eq!(
        (two.mark_readable(FLOW), two.next_message(6, &mut buf)),
        (Err(Error::NotOpen), Err(Error::NotOpen))
    );
    assert_eq!(two.read(6, FLOW, &mut []), Err(Error::BufferTooSmall { needed: 1 }));
    assert_eq!(two.read(6, FLOW.reversed(), &mut buf), Err(WRONG_FLOW));
    assert_eq!(
        two.read(6, FLOW, &mut buf),
        Ok(Some(Piece { len: 3, begin: true, end: false, gap: true }))
    );
    assert_eq!(
        two.read(6, FLOW, &mut buf),
        Ok(Some(Piece { len: 2, begin: false, end: true, gap: false }))
    );
    assert_eq!(two.read(6, FLOW, &mut buf), Ok(None));
}

#[test]
fn sends_that_are_refused_take_nothing() {
    let quiet = PARAMS.quiet_ms().unwrap();
    let (mut one, now) = (node(1, Start::Again, 100), 100 + quiet);
    assert_eq!(one.send(100, FLOW, b"early", true, true), Err(Error::Quiet { until: now }));
    assert_eq!(one.send(now, FLOW.reversed(), b"back", true, true), Err(WRONG_FLOW));
    assert_eq!(one.send(now, FLOW, b"", true, true), Err(LENGTH));
    assert_eq!(one.send(now, FLOW, &[0; 4097], true, true), Err(LENGTH));
    assert_eq!((one.next_datagram(&mut [0; 10]), one.wake()), (Ok(None), Ok(None)));
    one.send(now, FLOW, b"in time", true, true).unwrap();
    assert_eq!(one.send(now, FLOW, &[0; 4096], true, true), Err(Error::Full { free: 4089 }));
    assert_eq!(one.next_datagram(&mut [0; 10]), Err(Error::BufferTooSmall { needed: 37 }));
}

#[test]
fn datagrams_that_are_refused_say_why() {
    let (mut one, mut two) = (node(1, Start::First, 0), node(2, Start::First, 0));
    one.send(1, FLOW, b"hello", true, true).unwrap();
    let mut buf = [0; MAX_DATAGRAM];
    let len = one.next_datagram(&mut buf).unwrap().unwrap().len;
    let datagram = &buf[..len];
    let short = Error::Malformed { fault: Fault::Short, value: 11 };
    assert_eq!(two.receive(2, 1, b"not a frame", 0), Err(short));
    assert_eq!(
        two.receive(2, 1, &[9; 40], 0),
        Err(Error::Malformed { fault: Fault::Version, value: 9 })
    );
    assert_eq!(two.receive(2, 7, datagram, 0), Err(NO_LINK));
    assert_eq!(two.receive(2, 1, datagram, 1000), Err(Error::Expired));
    two.set_guard(Some(&[21]), 9).unwrap();
    assert_eq!(two.receive(2, 1, datagram, 0), Err(Error::Blocked));
    two.set_guard(Some(&[20]), 0).unwrap();
    assert_eq!(two.receive(2, 1, datagram, 0), Err(Error::Blocked));
    let blocked = two.blocked_counts().unwrap();
    assert_eq!((blocked.closed_port, blocked.too_many_flows), (1, 1));
    two.set_guard(None, 1).unwrap();
    assert_eq!(two.receive(2, 1, datagram, 0), Ok(()));
    assert_eq!(two.counts().unwrap().datagrams_refused, 4);
    assert_eq!(
        [short, Error::Expired, Error::Blocked, NO_LINK].map(|it| it.is_dropped()),
        [true, true, true, false]
    );
}

#[test]
fn parameters_out_of_range_are_named() {
    let open = |params: &Params| {
        Node::open(
            params,
            &NodeOptions { node: 1, now: 0, links: &[], routes: &[], start: Start::First },
        )
    };
    let wrong = |name, value| Error::Invalid { reason: InvalidReason::Param { name, value } };
    assert_eq!(open(&Params { mpl: 1, ..PARAMS }).unwrap_err(), wrong("mpl", 1));
    assert_eq!(open(&Params { seg: 8193, ..PARAMS }).unwrap_err(), wrong("seg", 8193));
    assert_eq!(open(&Params { run_limit: 0, ..PARAMS }).unwrap_err(), wrong("run_limit", 0));
    assert_eq!(PARAMS.quiet_ms(), Some(6200));
    assert_eq!(Params { mpl: 1, ..PARAMS }.quiet_ms(), None);
    assert_eq!(Params { mpl: 1, ..PARAMS }.fingerprint(), None);
    assert!(PARAMS.fingerprint().is_some());
    assert_ne!(PARAMS.fingerprint(), Params { start: 1, ..PARAMS }.fingerprint());
}

#[test]
fn parameters_are_computed_for_a_network() {
    // as `tools/params.py 250 50 --shelf 2` has them
    let (params, charge) =
        Params::for_network(&Network { shelf: 2, ..Network::new(250_000, 50_000) }).unwrap();
    let wanted = Params {
        mpl: 482,
        r: 450,
        a: 5,
        rto: 90,
        probe: 180,
        seg: 1442,
        cap: 65536,
        rcap: 65536,
        window: 65536,
        ..PARAMS
    };
    assert_eq!((params, charge), (wanted, 294));
    let unfit = Error::Invalid { reason: InvalidReason::Argument };
    let no_hops = Network { hops: 0, ..Network::new(250_000, 50_000) };
    assert_eq!(Params::for_network(&no_hops), Err(unfit));
    let too_long = Network::new(86_400_000_000, 50_000);
    let none = Error::Invalid { reason: InvalidReason::Network };
    assert_eq!(Params::for_network(&too_long), Err(none));
}

#[test]
fn reports_have_the_lines_of_logs() {
    let (mut one, mut two) = (node(1, Start::First, 0), node(2, Start::First, 0));
    one.send(1, FLOW, b"hello", true, true).unwrap();
    carry(&mut one, &mut two, 120);
    let mut lines = Vec::new();
    while let Some(report) = two.next_report().unwrap() {
        if report.kind == ReportKind::Accepted {
            lines.push(report.line(120, 2));
        }
    }
    assert_eq!(lines, ["120 2 accepted 1:10>2:20 0 5 run"]);
    assert!(
        deltat::version().split('.').all(|it| it.parse::<u32>().is_ok()),
        "{}",
        deltat::version()
    );
}

#[test]
fn errors_are_errors() {
    fn boxed() -> Result<(), Box<dyn std::error::Error>> {
        let mut one = node(1, Start::First, 0);
        one.send(1, FLOW, b"", true, true)?;
        Ok(())
    }
    assert_eq!(
        boxed().unwrap_err().to_string(),
        "invalid argument: no octets, or more than the send buffer ever holds"
    );
    let declined = Declined::Error(Error::Stopped);
    assert_eq!(declined.source().unwrap().to_string(), Error::Stopped.to_string());
    assert!(NotReplied::Gone.source().is_none());
    let fault = Error::Malformed { fault: Fault::Short, value: 11 };
    assert_eq!(fault.to_string(), "the datagram isn't valid: too few octets for a header: 11");
    assert_eq!(
        Error::Full { free: 7 }.to_string(),
        "the flow's send buffer has room for 7 octets only; try again later"
    );
}

#[test]
fn flows_are_written_as_in_logs() {
    assert_eq!(FLOW.to_string(), "1:10>2:20");
    assert_eq!(FLOW.reversed(), Flow { source: 2, target: 1, source_port: 20, target_port: 10 });
}

#[test]
fn nodes_move_to_other_threads() {
    fn sent<T: Send>(it: T) -> T {
        it
    }
    let mut one = sent(node(1, Start::First, 0));
    std::thread::spawn(move || one.tick(5)).join().unwrap().unwrap();
}

#[test]
fn nodes_and_services_can_be_driven_alike() {
    fn due<K: deltat::Kind>(end: &mut Endpoint<K>) -> Result<Option<u64>, Error> {
        end.tick(9)?;
        end.wake()
    }
    assert_eq!(due(&mut node(1, Start::First, 0)), Ok(None));
    assert_eq!(due(&mut common::service(1, &common::LIMITS)), Ok(None));
    assert!(format!("{:?}", node(2, Start::First, 0)).starts_with("Node { number: 2, process: "));
}
