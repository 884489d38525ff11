//! Request and reply: node 2 answers each request with its octets reversed, node 1 makes calls.
//!
//! ```text
//! calls serve             node 2 on port 4002, until it is interrupted
//! calls ask LIFE WORD ..  node 1 on port 4001: a call for each word; prints the answers
//! ```
//!
//! LIFE is a number that no other start of node 1 had; docs/service.md says how a program counts it. Both
//! are silent for two seconds at first. OWN and PEER in the environment are other addresses.
use std::env;
use std::error::Error;
use std::time::Duration;

use deltat::{
    now, Calls, Declined, Event, Flow, Link, Network, NodeOptions, Params, PortKind, Route,
    Service, ServiceOptions, Start, MAX_PAYLOAD,
};
use deltat_udp::{Driven, Peer};

const TIMEOUT_MS: u32 = 10_000;
const TURN: Duration = Duration::from_millis(50);

/// Node 1 or 2, and its peer.
fn open(node: u32, life: u32, port: u16, kind: PortKind) -> Result<Driven<Calls>, Box<dyn Error>> {
    let address = |name, usual| env::var(name).unwrap_or_else(|_| format!("127.0.0.1:{usual}"));
    let peer = Peer { node: 3 - node, link: 1, address: address("PEER", 4003 - node).parse()? };
    let network = Network { shelf: 2, ..Network::new(250_000, 50_000) };
    let (params, charge) = Params::for_network(&network)?;
    let links = [Link { number: peer.link, charge, pace: 0 }];
    let routes = [Route { to: peer.node, link: peer.link }];
    let start = Start::Again;
    let options = NodeOptions { node, now: now(), links: &links, routes: &routes, start };
    let limits =
        ServiceOptions { life, max_calls: 100, max_requests: 1000, max_requests_per_flow: 100 };
    let mut service = Service::open(&params, &options, &limits)?;
    service.set_port(port, kind)?;
    service.set_guard(Some(&[port]), 1000)?;
    Ok(Driven::bind(address("OWN", 4000 + node), service, &[peer])?)
}

fn serve() -> Result<(), Box<dyn Error>> {
    // it makes no calls, so its life names none
    let (mut udp, mut buf) = (open(2, 0, 20, PortKind::Service)?, vec![0; MAX_PAYLOAD]);
    loop {
        let at = udp.turn(None)?;
        while let Some(event) = udp.node.next_event(&mut buf)? {
            match event {
                Event::Request { token, len } => {
                    buf[..len].reverse();
                    if let Err(why) = udp.node.reply(at, token, &buf[..len]) {
                        eprintln!("calls: {why}");
                        let _ = udp.node.forget(at, token);
                    }
                }
                Event::ReplyUncertain { flow } => {
                    eprintln!("calls: a reply to {flow} is uncertain")
                }
                _ => (),
            }
        }
    }
}

fn ask(life: u32, words: &[String]) -> Result<(), Box<dyn Error>> {
    let (mut udp, mut buf) = (open(1, life, 10, PortKind::Caller)?, vec![0; MAX_PAYLOAD]);
    let flow = Flow { source: 1, target: 2, source_port: 10, target_port: 20 };
    let (mut made, mut ended, mut unsure) = (0, 0, 0);
    while ended < words.len() {
        let at = udp.turn(Some(TURN))?;
        while let Some(event) = udp.node.next_event(&mut buf)? {
            match event {
                Event::Answered { user, len, .. } => {
                    println!("{}: {}", words[user as usize], String::from_utf8_lossy(&buf[..len]));
                }
                Event::Unsure { user, cause, .. } => {
                    eprintln!("calls: {} may have been served: {cause:?}", words[user as usize]);
                    unsure += 1;
                }
                _ => continue,
            }
            ended += 1;
        }
        while made < words.len() {
            match udp.node.call(at, flow, words[made].as_bytes(), TIMEOUT_MS, made as u64) {
                Ok(_) => made += 1,
                // in a later turn
                Err(Declined::Quiet { .. } | Declined::Full { .. } | Declined::TooManyCalls) => {
                    break
                }
                Err(why) => return Err(why.into()),
            }
        }
    }
    if unsure > 0 {
        return Err(format!("{unsure} calls are unsure").into());
    }
    Ok(())
}

fn main() -> Result<(), Box<dyn Error>> {
    let words: Vec<String> = env::args().skip(1).collect();
    match words.first().map(String::as_str) {
        Some("serve") if words.len() == 1 => serve(),
        Some("ask") if words.len() > 2 => ask(words[1].parse()?, &words[2..]),
        _ => Err("usage: calls serve | calls ask LIFE WORD ..".into()),
    }
}
