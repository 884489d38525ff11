//! Services of one process: each call and each end.
mod common;

use common::{service, FLOW, LIMITS};
use deltat::{
    CallCounts, Cause, Declined, Error, Event, Flow, InvalidReason, NotReplied, PortKind, Service,
    ServiceOptions, Token, MAX_DATAGRAM,
};

fn declined(reason: InvalidReason) -> Result<u64, Declined> {
    Err(Declined::Error(Error::Invalid { reason }))
}

/// What waits at one service arrives at the other, twice each.
fn carry(one: &mut Service, two: &mut Service, now: u64) {
    let mut buf = [0; MAX_DATAGRAM];
    while let Some(it) = one.next_datagram(&mut buf).unwrap() {
        for _ in 0..2 {
            two.receive(now, 1, &buf[..it.len], 1).unwrap();
        }
    }
}

#[test]
fn a_call_is_served_once_and_answered() {
    let (mut client, mut server) = (service(1, &LIMITS), service(2, &LIMITS));
    let call = client.call(1, FLOW, b"hello", 3000, 77).unwrap();
    assert_eq!(call, 5 << 32);
    carry(&mut client, &mut server, 5);
    let mut buf = [0; 5];
    let token = Token { call, flow: FLOW };
    assert_eq!(server.next_event(&mut buf[..4]), Err(Error::BufferTooSmall { needed: 5 }));
    assert_eq!(server.next_event(&mut buf), Ok(Some(Event::Request { token, len: 5 })));
    assert_eq!(&buf, b"hello");
    assert_eq!(server.next_event(&mut buf), Ok(None));
    let long = Err(NotReplied::Error(Error::Invalid { reason: InvalidReason::Length }));
    assert_eq!(server.reply(6, token, &[0; 4089]), long);
    assert_eq!(server.reply(6, token, b"olleh"), Ok(()));
    assert_eq!(server.reply(6, token, b"again"), Err(NotReplied::Gone));
    carry(&mut server, &mut client, 10);
    assert_eq!(client.next_event(&mut buf), Ok(Some(Event::Answered { call, user: 77, len: 5 })));
    assert_eq!((&buf, client.next_event(&mut [])), (b"olleh", Ok(None)));
}

#[test]
fn calls_end_by_their_timeout_and_by_stopping() {
    let mut client = service(1, &LIMITS);
    assert_eq!(client.set_port(10, PortKind::Service), Err(Error::Exists));
    let call = client.call(1, FLOW, b"a", 300, u64::MAX).unwrap();
    let next = client.call(1, FLOW, b"b", 900, 0).unwrap();
    assert_eq!(client.call(1, FLOW, b"c", 300, 3), Err(Declined::TooManyCalls));
    assert_eq!(client.set_life(5), Err(Error::Exists));
    assert_eq!(client.set_life(6), Ok(()));
    client.tick(301).unwrap();
    assert_eq!(
        client.next_event(&mut []),
        Ok(Some(Event::Unsure { call, user: u64::MAX, cause: Cause::Timeout }))
    );
    client.stop().unwrap();
    assert_eq!(
        client.next_event(&mut []),
        Ok(Some(Event::Unsure { call: next, user: 0, cause: Cause::Stopped }))
    );
    assert_eq!((client.tick(302), client.wake()), (Err(Error::Stopped), Ok(None)));
    assert_eq!(client.call(303, FLOW, b"d", 300, 4), Err(Declined::Error(Error::Stopped)));
    let CallCounts { late_replies, unknown_replies, reused_requests, .. } =
        client.call_counts().unwrap();
    assert_eq!((late_replies, unknown_replies, reused_requests), (0, 0, 0));
}

#[test]
fn calls_that_cannot_be_made_say_why() {
    let mut client = service(1, &ServiceOptions { max_calls: 9, ..LIMITS });
    assert_eq!(client.call(1, FLOW.reversed(), b"a", 300, 0), declined(InvalidReason::Flow));
    assert_eq!(
        client.call(1, Flow { source_port: 11, ..FLOW }, b"a", 300, 0),
        declined(InvalidReason::Port)
    );
    assert_eq!(client.call(1, FLOW, &[0; 4089], 300, 0), declined(InvalidReason::Length));
    assert_eq!(client.call(1, FLOW, b"a", 0, 0), declined(InvalidReason::Timeout));
    client.call(1, FLOW, &[0; 4000], 300, 0).unwrap();
    assert_eq!(client.call(1, FLOW, &[0; 99], 300, 0), Err(Declined::Full { free: 88 }));
}

#[test]
fn a_request_that_is_forgotten_is_gone() {
    let (mut client, mut server) = (service(1, &LIMITS), service(2, &LIMITS));
    let call = client.call(1, FLOW, b"hello", 300, 0).unwrap();
    carry(&mut client, &mut server, 5);
    let token = Token { call, flow: FLOW };
    assert!(matches!(server.next_event(&mut [0; 9]), Ok(Some(Event::Request { len: 5, .. }))));
    assert_eq!(server.forget(6, token), Ok(()));
    assert_eq!(
        (server.forget(6, token), server.reply(6, token, b"late")),
        (Err(NotReplied::Gone), Err(NotReplied::Gone))
    );
}

#[test]
fn a_reply_that_is_given_up_is_reported() {
    let (mut client, mut server) = (service(1, &LIMITS), service(2, &LIMITS));
    let call = client.call(1, FLOW, b"hello", 300, 0).unwrap();
    carry(&mut client, &mut server, 5);
    assert!(matches!(server.next_event(&mut [0; 9]), Ok(Some(Event::Request { .. }))));
    server.reply(6, Token { call, flow: FLOW }, b"lost").unwrap();
    let mut seen = None;
    for at in (10..20_000).step_by(50) {
        server.tick(at).unwrap();
        while server.next_datagram(&mut [0; MAX_DATAGRAM]).unwrap().is_some() {}
        seen = seen.or(server.next_event(&mut []).unwrap());
    }
    assert_eq!(seen, Some(Event::ReplyUncertain { flow: FLOW }));
}

#[test]
fn errors_of_calls_pass_through_a_question_mark() {
    fn boxed() -> Result<(), Box<dyn std::error::Error>> {
        let mut client = service(1, &LIMITS);
        client.call(1, FLOW, b"a", 0, 0)?;
        Ok(())
    }
    assert_eq!(
        boxed().unwrap_err().to_string(),
        "call not made: invalid argument: the timeout is 0 ms; it must be at least 1 ms"
    );
}
