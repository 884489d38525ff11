//! A forked child can't use the nodes of its parent, and doesn't touch them.
mod common;

use common::{node, service, FLOW, LIMITS};
use deltat::{Declined, Error, Node, Service, Start, MAX_DATAGRAM};

extern "C" {
    fn fork() -> i32;
    fn waitpid(process: i32, status: *mut i32, options: i32) -> i32;
    fn _exit(status: i32) -> !;
}

/// Whether each call says that the node is another process's.
fn is_refused(one: &mut Node, client: &mut Service) -> bool {
    let other = Err(Error::OtherProcess);
    one.tick(2) == other
        && one.send(2, FLOW, b"once more", true, true) == other
        && one.receive(2, 1, &[0; 40], 0) == other
        && one.next_datagram(&mut [0; MAX_DATAGRAM]).is_err()
        && one.wake() == Err(Error::OtherProcess)
        && one.next_report().is_err()
        && one.counts().is_err()
        && client.tick(2) == other
        && client.stop() == other
        && client.call(2, FLOW, b"a", 300, 0) == Err(Declined::Error(Error::OtherProcess))
        && client.next_event(&mut []).is_err()
}

fn main() {
    let (mut one, mut client) = (node(1, Start::First, 0), service(1, &LIMITS));
    one.send(1, FLOW, b"hello", true, true).unwrap();
    // SAFETY: this process has one thread, and the child ends by _exit.
    let child = unsafe { fork() };
    assert!(child >= 0, "fork");
    if child == 0 {
        let refused = is_refused(&mut one, &mut client);
        drop((one, client));
        // a node of the child's own, with another number
        let own = node(2, Start::First, 0).tick(1);
        // SAFETY: it ends the child without what the parent has to do at its end.
        unsafe { _exit(if refused && own.is_ok() { 0 } else { 1 }) }
    }
    let mut status = -1;
    // SAFETY: the pointer is that of an int.
    assert_eq!(unsafe { waitpid(child, &mut status, 0) }, child);
    assert_eq!(status, 0, "a call of the child wasn't refused");
    // the parent's node is as it was
    assert_eq!(one.next_datagram(&mut [0; MAX_DATAGRAM]).unwrap().unwrap().len, 35);
    println!("fork: ok");
}
