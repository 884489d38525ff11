//! Calls, requests and messages of tasks, over 127.0.0.1.
use std::time::{Duration, Instant};

use deltat_tokio::deltat_udp::{
    self, Cause, Error, Event, Flow, Node, Options, Params, PortKind, Service, Start, Token,
};
use deltat_tokio::{AsyncCalls, AsyncUdp};

const PARAMS: Params = Params {
    mpl: 482,
    r: 3000, // (a message is given up later: others may load the machine)
    a: 5,
    rto: 90,
    probe: 180,
    seg: 1408,
    cap: 65_536,
    rcap: 65_536,
    window: 65_536,
    run_limit: 1 << 31,
    start: 0,
};
const FLOW: Flow = Flow { source: 1, target: 2, source_port: 10, target_port: 20 };
const LONG: Duration = Duration::from_secs(20);

fn options(node: u32) -> Options<'static> {
    let start = Some(Start::First);
    Options { host: Some("127.0.0.1"), start, ..Options::new(node, PARAMS, 294) }
}

/// A client and a service of this runtime.
fn both() -> (AsyncCalls, AsyncCalls) {
    let service = Service::open(&Options { max_peers: 10, ..options(2) }).unwrap();
    service.open_port(20, PortKind::Service).unwrap();
    let client = Service::open(&options(1)).unwrap();
    client.open_port(10, PortKind::Caller).unwrap();
    client.set_peer(2, "127.0.0.1", service.port()).unwrap();
    (AsyncCalls::new(client).unwrap(), AsyncCalls::new(service).unwrap())
}

/// Serves so many requests, each in a task of its own.
async fn serve(service: AsyncCalls, count: usize) {
    let mut left = count;
    while left > 0 {
        if let Event::Request { token, octets } = service.next_event().await.unwrap() {
            left -= 1;
            let service = service.clone();
            tokio::spawn(async move {
                let octets: Vec<u8> = octets.into_iter().rev().collect();
                service.reply(token, &octets).await.unwrap();
            });
        }
    }
    service.drain(LONG).await.unwrap();
}

async fn calls_at_once(count: usize) {
    let (client, service) = both();
    let serving = tokio::spawn(serve(service.clone(), count));
    let calls: Vec<_> = (0..count)
        .map(|number| {
            let client = client.clone();
            tokio::spawn(async move {
                let asked = format!("{number}-{}", "a".repeat(number % 3000));
                let answer = client.call(FLOW, asked.as_bytes(), LONG).await.unwrap();
                assert_eq!(answer, asked.into_bytes().into_iter().rev().collect::<Vec<_>>());
            })
        })
        .collect();
    for call in calls {
        call.await.unwrap();
    }
    assert!(client.drain(LONG).await.unwrap());
    serving.await.unwrap();
    assert_eq!(service.with(|it| it.call_counts()).unwrap().reused_requests, 0);
}

#[tokio::test(flavor = "current_thread")]
async fn each_of_500_tasks_gets_its_own_answer() {
    calls_at_once(500).await;
}

#[tokio::test(flavor = "multi_thread", worker_threads = 2)]
async fn tasks_may_be_on_several_threads() {
    calls_at_once(200).await;
}

#[tokio::test(flavor = "current_thread")]
async fn a_call_without_an_answer_is_unsure_and_one_that_is_dropped_leaves_nothing() {
    let (client, service) = both();
    let short = Duration::from_millis(100);
    let dropped = tokio::time::timeout(Duration::from_millis(20), client.call(FLOW, b"a", short));
    assert!(dropped.await.is_err());
    let begun = Instant::now();
    let end = client.call(FLOW, b"b", short).await;
    assert_eq!(end, Err(Error::Unsure { cause: Cause::Timeout }));
    // (the driver's clock has whole ms)
    assert!(begun.elapsed() >= Duration::from_millis(99), "{:?}", begun.elapsed());
    // both arrived, and are forgotten
    for wanted in [b"a", b"b"] {
        match service.next_event().await.unwrap() {
            Event::Request { token, octets } => {
                assert_eq!(octets, wanted);
                service.forget(token).unwrap();
                assert_eq!(service.forget(token), Err(Error::Gone));
            }
            other => panic!("{other:?}"),
        }
    }
}

#[tokio::test(flavor = "current_thread")]
async fn wrong_calls_and_replies_are_refused() {
    let (client, _service) = both();
    let other = Flow { source_port: 11, ..FLOW };
    assert!(matches!(client.call(other, b"a", LONG).await, Err(Error::Invalid { .. })));
    assert_eq!(client.reply(Token { call: 7, flow: FLOW }, b"a").await, Err(Error::Gone));
}

#[tokio::test(flavor = "current_thread")]
async fn calls_wait_for_room_until_their_time_is_over() {
    let (client, service) = both();
    let call = |timeout| {
        let client = client.clone();
        tokio::spawn(async move { client.call(FLOW, &[7; 1000], timeout).await })
    };
    // a flow has room for 65 of them; nobody takes them
    let calls: Vec<_> = (0..100).map(|_| call(Duration::from_millis(200))).collect();
    let (mut unsure, mut full) = (0, 0);
    for it in calls {
        match it.await.unwrap() {
            Err(Error::Unsure { cause: Cause::Timeout }) => unsure += 1,
            Err(Error::Full { .. }) => full += 1,
            other => panic!("{other:?}"),
        }
    }
    assert!(unsure >= 1 && unsure + full == 100, "{unsure} unsure, {full} full");
    assert!(matches!(call(Duration::ZERO).await.unwrap(), Err(Error::Invalid { .. })));
    // and now somebody does
    let serving = tokio::spawn(serve(service.clone(), unsure + 100));
    let calls: Vec<_> = (0..100).map(|_| call(LONG)).collect();
    for it in calls {
        assert_eq!(it.await.unwrap(), Ok(vec![7; 1000]));
    }
    client.drain(LONG).await.unwrap();
    serving.await.unwrap();
}

#[tokio::test(flavor = "current_thread")]
async fn the_driver_is_closed_with_the_last_clone() {
    let (client, _service) = both();
    let port = client.with(|it| it.port());
    let clone = client.clone();
    drop(client);
    assert_eq!(clone.with(|it| it.port()), port);
    drop(clone);
    let begun = Instant::now();
    while Service::open(&Options { port, ..options(3) }).is_err() {
        assert!(begun.elapsed() < LONG, "the port is in use yet");
        tokio::time::sleep(Duration::from_millis(5)).await;
    }
}

#[tokio::test(flavor = "multi_thread", worker_threads = 2)]
async fn messages_of_nodes_are_events() -> Result<(), deltat_udp::Error> {
    let (one, two) = (Node::open(&options(1))?, Node::open(&options(2))?);
    one.open_port(10)?;
    two.open_port(20)?;
    one.set_peer(2, "127.0.0.1", two.port())?;
    two.set_peer(1, "127.0.0.1", one.port())?;
    let (mut one, mut two) = (AsyncUdp::new(one)?, AsyncUdp::new(two)?);
    let echoing = tokio::spawn(async move {
        loop {
            match two.next_event().await {
                Ok(Event::Message { flow, octets, .. }) => {
                    two.send(flow.reversed(), &octets).unwrap()
                }
                Ok(_) => (),
                Err(why) => return why,
            }
        }
    });
    for number in 0..50_u8 {
        one.send(FLOW, &[number; 5000])?;
        let echoed = tokio::time::timeout(LONG, one.next_event()).await.expect("no answer")?;
        let (flow, gap) = (FLOW.reversed(), number == 0);
        assert_eq!(echoed, Event::Message { flow, octets: vec![number; 5000], gap });
    }
    // (a wait that is dropped loses nothing)
    assert!(tokio::time::timeout(Duration::from_millis(20), one.next_event()).await.is_err());
    one.send(FLOW, b"last")?;
    assert!(matches!(one.next_event().await?, Event::Message { octets, .. } if octets == b"last"));
    assert_eq!(one.into_inner().number(), 1);
    echoing.abort();
    Ok(())
}
