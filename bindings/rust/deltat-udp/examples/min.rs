//! Node 2 on port 4002 answers each message of node 1 on port 4001 with its octets reversed.
use deltat::{now, Link, Network, Node, NodeOptions, Params, Route, Start};
use deltat_udp::{Driven, Peer};

fn main() -> Result<(), Box<dyn std::error::Error>> {
    let network = Network { shelf: 2, ..Network::new(250_000, 50_000) };
    let (params, charge) = Params::for_network(&network)?;
    let (links, routes) = (&[Link { number: 1, charge, pace: 0 }], &[Route { to: 1, link: 1 }]);
    let start = Start::Again; // node 2 may have run before: it is silent for two seconds
    let options = NodeOptions { node: 2, now: now(), links, routes, start };
    let mut node = Node::open(&params, &options)?;
    node.enable_messages(65_536)?;
    node.set_guard(Some(&[20]), 1000)?; // datagrams for other ports are blocked
    let peer = Peer { node: 1, link: 1, address: "127.0.0.1:4001".parse()? };
    let mut udp = Driven::bind("127.0.0.1:4002", node, &[peer])?;
    let mut buf = vec![0; 65_536];
    loop {
        let at = udp.turn(None)?;
        udp.node.take_reports(|_| ())?;
        while let Some(message) = udp.node.next_message(at, &mut buf)? {
            buf[..message.len].reverse();
            udp.send(message.flow.reversed(), &buf[..message.len])?; // waits for room
        }
    }
}
