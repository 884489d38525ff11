//! A forked child can't use the drivers of its parent, and leaves them as they are.
mod common;

use std::time::Duration;

use common::{nodes, options, services, until, FLOW};
use deltat_udp::{Error, Event, Node, PortKind, Service};

extern "C" {
    fn fork() -> i32;
    fn waitpid(process: i32, status: *mut i32, options: i32) -> i32;
    fn _exit(status: i32) -> !;
}

/// Whether each call says that the driver is another process's.
fn is_refused(one: &mut Node, client: &mut Service) -> bool {
    let other = Err(Error::OtherProcess);
    one.send(FLOW, b"once more") == other
        && one.open_port(11) == other
        && one.set_peer(3, "127.0.0.1", 9) == other
        && one.next_event() == Err(Error::OtherProcess)
        && one.next_event_within(Duration::ZERO) == Err(Error::OtherProcess)
        && one.drain(Some(Duration::ZERO)) == Err(Error::OtherProcess)
        && one.put_object(2, &b"object"[..], Duration::from_secs(1)) == Err(Error::OtherProcess)
        && one.open_objects(100, 4, 1000) == other
        && one.node_counts() == Err(Error::OtherProcess)
        && client.call(FLOW, b"a", Duration::from_secs(1)) == Err(Error::OtherProcess)
        && client.open_port(11, PortKind::Caller) == other
        && client.call_counts() == Err(Error::OtherProcess)
        && client.next_event() == Err(Error::OtherProcess)
}

fn main() {
    let ((mut one, mut two), (mut client, service)) =
        (nodes(&options(1), &options(2)), services(&options(1)));
    one.send(FLOW, b"hello").unwrap();
    // SAFETY: this process has one thread, and the child ends by _exit.
    let child = unsafe { fork() };
    assert!(child >= 0, "fork");
    if child == 0 {
        let refused = is_refused(&mut one, &mut client);
        drop((one, two, client, service));
        // a node of the child's own, with another number
        let own = Node::open(&options(3)).is_ok();
        // SAFETY: it ends the child without what the parent has to do at its end.
        unsafe { _exit(if refused && own { 0 } else { 1 }) }
    }
    let mut status = -1;
    // SAFETY: the pointer is that of an int.
    assert_eq!(unsafe { waitpid(child, &mut status, 0) }, child);
    assert_eq!(status, 0, "a call of the child wasn't refused");
    // the parent's nodes are as they were
    one.flush();
    let octets = until(&mut one, &mut two, |_, event| match event {
        Event::Message { octets, .. } => Some(octets),
        _ => None,
    });
    assert_eq!(octets, b"hello");
    println!("fork: ok");
}
