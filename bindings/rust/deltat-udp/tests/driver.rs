//! Drivers of one process: each call, and each error with its data.
mod common;

use std::error::Error as _;
use std::io::{self, ErrorKind};
use std::os::unix::io::{AsFd, AsRawFd};
use std::path::PathBuf;
use std::time::{Duration, Instant};
use std::{env, fs, process, thread};

use common::{nodes, options, services, until, FLOW, LONG, PARAMS};
use deltat_udp::{
    fresh_number, Alarm, Cause, Error, Event, Flow, InvalidReason, Node, Options, Params, PortKind,
    PutOutcome, ReportKind, Service, Start,
};

/// A folder that isn't there yet.
fn folder(name: &str) -> PathBuf {
    let path = env::temp_dir().join(format!("deltat-udp-{}-{name}", process::id()));
    let _ = fs::remove_dir_all(&path);
    path
}

#[test]
fn a_call_is_answered_by_a_service_that_learns_its_client() {
    let (mut client, mut service) = services(&options(1));
    let made = client.call_with(FLOW, b"hello", LONG, 77).unwrap();
    client.flush();
    let (mut replied, mut answer) = (false, None);
    while answer.is_none() {
        let event = service.next_event_within(Duration::from_millis(1)).unwrap();
        if let Some(Event::Request { token, octets }) = event {
            assert_eq!((token.flow, token.call), (FLOW, made));
            let reversed: Vec<u8> = octets.iter().rev().copied().collect();
            service.reply(token, &reversed).unwrap();
            assert_eq!(service.reply(token, b"twice"), Err(Error::Gone));
            assert_eq!(service.forget(token), Err(Error::Gone));
            replied = true;
        }
        let event = client.next_event_within(Duration::from_millis(1)).unwrap();
        if let Some(Event::Answered { call, user, octets }) = event {
            answer = Some((call, user, octets.to_vec()));
        }
    }
    assert!(replied);
    assert_eq!(answer, Some((made, 77, b"olleh".to_vec())));
    let counts = service.counts();
    assert_eq!((counts.peers_learnt, counts.peers_moved, counts.clock_alarms), (1, 0, 0));
    assert!(counts.challenges_out >= 1 && counts.datagrams_in > 0 && counts.reads > 0);
    assert_eq!(service.call_counts().unwrap().reused_requests, 0);
    assert!(service.node_counts().unwrap().octets_accepted >= 5);
    assert_eq!(client.drain(Some(LONG)), Ok(true));
}

#[test]
fn lent_octets_are_passed_on_without_a_copy() {
    let (one, mut two) = nodes(&options(1), &options(2));
    let sent: Vec<u8> = (0..60_000_u32).map(|it| it as u8).collect();
    one.send(FLOW, &sent).unwrap();
    let mut one = one;
    let begun = Instant::now();
    let mut echoed = None;
    while echoed.is_none() && begun.elapsed() < LONG {
        let (mut events, handle) = two.split();
        if let Some(Event::Message { flow, octets, gap }) =
            events.next_event_within(Duration::from_millis(1)).unwrap()
        {
            assert!(gap, "the first message of a flow");
            handle.send(flow.reversed(), octets).unwrap();
            handle.flush();
            // (they are lent yet)
            assert_eq!(octets, sent);
        }
        if let Some(Event::Message { flow, octets, .. }) =
            one.next_event_within(Duration::from_millis(1)).unwrap()
        {
            echoed = Some((flow, octets.to_vec()));
        }
    }
    assert_eq!(echoed, Some((FLOW.reversed(), sent)));
}

#[test]
fn an_object_arrives_whole_and_its_octets_are_free_then() {
    let (mut one, mut two) = nodes(&options(1), &options(2));
    one.open_objects(1000, 16, 1 << 24).unwrap();
    two.open_objects(1000, 16, 1 << 24).unwrap();
    assert_eq!(one.open_objects(2000, 16, 1), Err(Error::Exists));
    let sent: Vec<u8> = (0..1_000_000_u32).map(|it| (it / 251) as u8).collect();
    let number = one.put_object(2, sent.clone(), LONG).unwrap();
    let (mut found, mut ended) = (None, None);
    until(&mut one, &mut two, |_, event| {
        match event {
            Event::Object { object, peer, octets } => found = Some((object, peer, octets)),
            Event::PutEnded { object, outcome } => ended = Some((object, outcome)),
            _ => (),
        }
        (found.is_some() && ended.is_some()).then_some(())
    });
    assert_eq!(found, Some((number, 1, sent)));
    assert_eq!(ended, Some((number, PutOutcome::Whole)));
}

#[test]
fn an_object_that_has_no_room_says_so() {
    let (mut one, mut two) = nodes(&options(1), &options(2));
    one.open_objects(1000, 4, 1 << 20).unwrap();
    two.open_objects(1000, 4, 1000).unwrap();
    let number = one.put_object(2, vec![1; 100_000], LONG).unwrap();
    let ended = until(&mut one, &mut two, |_, event| match event {
        Event::PutEnded { object, outcome } => Some((object, outcome)),
        _ => None,
    });
    assert_eq!(ended, (number, PutOutcome::NoRoom));
}

#[test]
fn a_call_that_nobody_serves_is_unsure() {
    let (mut client, service) = services(&options(1));
    drop(service);
    let made = client.call(FLOW, b"hello", Duration::from_micros(99_500)).unwrap();
    let begun = Instant::now();
    match client.next_event().unwrap() {
        Event::Unsure { call, cause, .. } => assert_eq!((call, cause), (made, Cause::Timeout)),
        other => panic!("{other:?}"),
    }
    assert!(begun.elapsed() >= Duration::from_millis(99), "{:?}", begun.elapsed());
    assert_eq!(client.drain(Some(Duration::from_millis(1))), Ok(false));
}

#[test]
fn reports_are_events_if_they_are_asked_for() {
    let reports = &[ReportKind::Acknowledged, ReportKind::Accepted];
    let (mut one, mut two) = nodes(&Options { reports, ..options(1) }, &options(2));
    one.send(FLOW, b"hello").unwrap();
    let report = until(&mut one, &mut two, |number, event| match event {
        Event::Report(report) => Some((number, report)),
        _ => None,
    });
    assert_eq!((report.0, report.1.kind, report.1.count), (1, ReportKind::Acknowledged, 5));
    assert_eq!(one.blocked_counts().unwrap().closed_port, 0);
}

#[test]
fn other_parameters_are_an_alarm_and_counted() {
    let others = Params { rto: 91, ..PARAMS };
    let (one, mut two) = nodes(&Options { params: others, ..options(1) }, &options(2));
    let mut one = one;
    one.send(FLOW, b"hello").unwrap();
    let alarm = until(&mut one, &mut two, |number, event| match event {
        Event::Alarm { peer, alarm } if number == 2 => Some((peer, alarm)),
        _ => None,
    });
    assert_eq!(alarm, (1, Alarm::Parameters));
    assert!(two.counts().other_parameters > 0);
    assert_eq!(two.node_counts().unwrap().octets_accepted, 0);
}

#[test]
fn a_node_without_the_watch_is_an_alarm_and_counted() {
    let (mut one, mut two) = nodes(&Options { watch: false, ..options(1) }, &options(2));
    one.send(FLOW, b"hello").unwrap();
    let alarm = until(&mut one, &mut two, |number, event| match event {
        Event::Alarm { alarm, .. } if number == 2 => Some(alarm),
        Event::Message { .. } => panic!("nothing passes"),
        _ => None,
    });
    assert_eq!(alarm, Alarm::Watch);
    assert!(two.counts().without_trailer > 0);
}

#[test]
fn counters_are_in_a_file_too() {
    let path = PathBuf::from(format!("/dev/shm/deltat-udp-{}.counters", process::id()));
    let _ = fs::remove_file(&path);
    let with_file = Options { counters: Some(&path), ..options(1) };
    let (mut client, mut service) = services(&with_file);
    client.call(FLOW, b"hello", LONG).unwrap();
    client.flush();
    loop {
        let event = service.next_event_within(Duration::from_millis(1)).unwrap();
        if let Some(Event::Request { token, .. }) = event {
            service.reply(token, b"answer").unwrap();
        }
        let event = client.next_event_within(Duration::from_millis(1)).unwrap();
        if let Some(Event::Answered { octets, .. }) = event {
            assert_eq!(octets, b"answer");
            break;
        }
    }
    let why = Service::open(&with_file).unwrap_err();
    assert!(matches!(&why, Error::InUse { .. }), "{why:?}");
    drop(client);
    let written = fs::read(&path).unwrap();
    fs::remove_file(&path).unwrap();
    assert!(written.starts_with(b"deltat") && written.iter().any(|it| *it != 0), "{written:?}");
    let nowhere = Options { counters: Some("/nowhere/a".as_ref()), ..options(1) };
    let why = Service::open(&nowhere).unwrap_err();
    assert!(matches!(&why, Error::System { code: 2, .. }), "{why:?}");
}

#[test]
fn each_wrong_option_is_named() {
    let text = |options: Options<'_>| match Node::open(&options).unwrap_err() {
        Error::Refused { text, param } => (text, param),
        other => panic!("{other:?}"),
    };
    let usual = options(1);
    let (why, param) = text(Options { params: Params { mpl: 1, ..PARAMS }, ..usual });
    assert_eq!((why.as_str(), param), ("params.mpl is 1; its range is in deltat.h", Some("mpl")));
    let (why, param) = text(Options { params: Params { window: 0, ..PARAMS }, ..usual });
    assert_eq!(
        (why.as_str(), param),
        ("params.window is 0; its range is in deltat.h", Some("window"))
    );
    let (why, param) = text(Options { start: None, ..usual });
    let wanted = "options.start_as is 0; use DT_UDP_START_AGAIN unless the number is new";
    assert_eq!((why.as_str(), param), (wanted, None));
    let state = folder("refused");
    let (why, _) = text(Options { state: Some(&state), ..usual });
    assert!(why.contains("the state folder knows better"), "{why}");
    let (why, _) = text(Options { host: Some("no such host"), ..usual });
    assert!(why.starts_with("no such host port 0: no such address"), "{why}");
    let (why, _) = text(Options { host: Some("a\0b"), ..usual });
    assert!(why.contains("octet 0"), "{why}");
}

#[test]
fn what_the_system_refuses_is_an_error_with_its_number() {
    let one = Node::open(&options(1)).unwrap();
    let why = Node::open(&Options { port: one.port(), ..options(2) }).unwrap_err();
    let text = format!(
        "127.0.0.1 port {} is in use; stop the other program or choose another port: \
                        Address already in use",
        one.port()
    );
    assert_eq!(why, Error::System { text, code: 98 });
    assert!(why.source().is_none());
    assert_eq!(io::Error::from(why).kind(), ErrorKind::AddrInUse);
    let why = Node::open(&Options { host: Some("192.0.2.1"), ..options(2) }).unwrap_err();
    assert!(matches!(why, Error::System { code: 99, .. }), "{why:?}");
    let why = one.set_peer(2, "no.such.host.invalid", 4002).unwrap_err();
    assert!(matches!(why, Error::Refused { .. }), "{why:?}");
    assert!(
        why.to_string().starts_with("no.such.host.invalid port 4002: no such address"),
        "{why}"
    );
    let why = one.set_peer(2, "::1", 1).unwrap_err();
    assert!(why.to_string().starts_with("::1 port 1: no such address"), "{why}");
}

#[test]
fn a_state_folder_is_of_one_driver_and_counts_lives() {
    let state = folder("state");
    let options = Options { start: None, state: Some(&state), ..options(1) };
    let first = Service::open(&options).unwrap();
    assert!((first.life(), first.silence()) == (1, Duration::ZERO), "{first:?}");
    let why = Service::open(&options).unwrap_err();
    assert!(matches!(&why, Error::InUse { text } if text.contains("in use")), "{why:?}");
    drop(first);
    let again = Service::open(&options).unwrap();
    assert_eq!(again.life(), 2);
    drop(again);
    let snapshot = Options { start: Some(Start::Again), ..options };
    let drawn = Service::open(&snapshot).unwrap();
    assert!(drawn.silence() > Duration::from_secs(1), "{:?}", drawn.silence());
    drop(drawn);
    fs::remove_dir_all(&state).unwrap();
}

#[test]
fn wrong_arguments_of_calls_have_their_reasons() {
    let (client, service) = services(&options(1));
    let invalid = |it: Result<u64, Error>| match it {
        Err(Error::Invalid { reason }) => reason,
        other => panic!("{other:?}"),
    };
    let (own, port) = (Flow { target: 1, ..FLOW }, Flow { source_port: 11, ..FLOW });
    assert_eq!(invalid(client.call(own, b"a", LONG)), InvalidReason::Flow);
    assert_eq!(invalid(client.call(port, b"a", LONG)), InvalidReason::Port);
    assert_eq!(invalid(client.call(FLOW, b"a", Duration::ZERO)), InvalidReason::Timeout);
    assert_eq!(invalid(client.call(FLOW, &[0; 65_529], LONG)), InvalidReason::Length);
    assert_eq!(client.open_port(10, PortKind::Caller), Err(Error::Exists));
    assert_eq!(service.open_port(20, PortKind::Caller), Err(Error::Exists));
}

#[test]
fn a_call_too_many_is_refused() {
    let (client, _service) = services(&Options { max_calls: 2, ..options(1) });
    for _ in 0..2 {
        client.call(FLOW, b"a", LONG).unwrap();
    }
    assert_eq!(client.call(FLOW, b"a", LONG), Err(Error::TooManyCalls));
}

#[test]
fn a_silent_node_says_until_when() {
    let quiet = PARAMS.quiet_ms().unwrap();
    let one = Node::open(&Options { start: Some(Start::Again), ..options(1) }).unwrap();
    one.set_peer(2, "127.0.0.1", 9).unwrap();
    let left = one.silence().as_millis() as u64;
    assert!(left > quiet - 1000 && left <= quiet, "{left} of {quiet}");
    match one.send(FLOW, b"hello") {
        Err(Error::Quiet { until }) => assert!(until <= deltat::now() + quiet),
        other => panic!("{other:?}"),
    }
    let wrong = Err(Error::Invalid { reason: InvalidReason::Argument });
    assert_eq!(one.send(FLOW.reversed(), b"hello"), wrong);
    assert_eq!(one.send(FLOW, &[]), wrong);
}

#[test]
fn a_full_flow_takes_nothing_and_room_follows() {
    let (mut one, mut two) = nodes(&options(1), &options(2));
    let mut sent = 0;
    let why = loop {
        match one.send(FLOW, &[1; 60_000]) {
            Ok(()) => sent += 1,
            Err(why) => break why,
        }
    };
    assert!(sent >= 1 && matches!(why, Error::Full { .. }), "{sent} {why:?}");
    let mut arrived = 0;
    until(&mut one, &mut two, |_, event| {
        arrived += i32::from(matches!(event, Event::Message { .. }));
        (arrived == sent).then_some(())
    });
    assert_eq!(one.drain(Some(LONG)), Ok(true));
    one.send(FLOW, b"more").unwrap();
}

#[test]
fn the_descriptor_is_readable_when_something_arrives() {
    let (one, mut two) = nodes(&options(1), &options(2));
    assert_eq!(two.as_raw_fd(), two.as_fd().as_raw_fd());
    while two.next_event_within(Duration::ZERO).unwrap().is_some() {}
    assert!(!is_readable(two.as_raw_fd(), 0));
    one.send(FLOW, b"hello").unwrap();
    one.flush();
    assert!(is_readable(two.as_raw_fd(), 5000));
    match two.next_event_within(Duration::ZERO).unwrap() {
        Some(Event::Message { octets, .. }) => assert_eq!(octets, b"hello"),
        // (the watch asked first how old it is)
        other => assert_eq!(other, None),
    }
}

/// Whether poll says so within so many ms.
fn is_readable(descriptor: i32, wait_ms: i32) -> bool {
    #[repr(C)]
    struct Wanted {
        descriptor: i32,
        events: i16,
        found: i16,
    }

    extern "C" {
        fn poll(wanted: *mut Wanted, count: u64, wait_ms: i32) -> i32;
    }

    let mut wanted = Wanted { descriptor, events: 1, found: 0 };
    // SAFETY: the pointer is that of one struct of the form that poll has on Linux.
    unsafe { poll(&mut wanted, 1, wait_ms) == 1 }
}

#[test]
fn a_driver_may_move_to_another_thread() {
    let (client, mut service) = services(&options(1));
    let serving = thread::spawn(move || {
        if let Event::Request { token, octets } = service.next_event().unwrap() {
            let octets = octets.to_vec();
            service.reply(token, &octets).unwrap();
        }
        service.drain(Some(LONG)).unwrap()
    });
    let mut client = client;
    client.call(FLOW, b"hello", LONG).unwrap();
    assert!(matches!(client.next_event().unwrap(), Event::Answered { octets: b"hello", .. }));
    client.drain(Some(LONG)).unwrap();
    assert!(serving.join().unwrap());
}

#[test]
fn fresh_numbers_differ_and_debug_shows_the_number() {
    let (one, two) = (fresh_number().unwrap(), fresh_number().unwrap());
    assert!(one != two && one >= 65_536 && two >= 65_536);
    let node = Node::open(&options(one)).unwrap();
    assert!(format!("{node:?}").starts_with(&format!("Node {{ number: {one}, process: ")));
}

#[test]
fn calls_that_grow_are_all_answered_soon() {
    // (frames of growing sizes: those of a flow have to leave in their order, or a round brings one of them)
    let (mut client, mut service) = services(&options(1));
    for len in 0..200 {
        client.call(FLOW, &vec![7; len], LONG).unwrap();
    }
    let mut answered = 0;
    let begun = Instant::now();
    while answered < 200 && begun.elapsed() < Duration::from_millis(2500) {
        while let Some(event) = service.next_event_within(Duration::ZERO).unwrap() {
            if let Event::Request { token, octets } = event {
                let octets = octets.to_vec();
                service.reply(token, &octets).unwrap();
            }
        }
        if let Some(event) = client.next_event_within(Duration::from_millis(1)).unwrap() {
            assert!(matches!(event, Event::Answered { .. }), "{event:?}");
            answered += 1;
        }
    }
    assert_eq!(answered, 200, "in {:?}", begun.elapsed());
}
