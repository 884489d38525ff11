//! A service that answers each message with its octets reversed, and a client that asks it.
//!
//! ```text
//! echo serve [first]              node 2 on port 4002, until it is interrupted
//! echo ask [first] hello world    node 1 on port 4001: sends each word, prints the answers
//! ```
//!
//! `first` says that the number was never used, or not for two seconds; without it the node is silent
//! for these at first. OWN and PEER in the environment are other addresses. What the client sends
//! arrives at most once, whatever the network repeats; what wasn't acknowledged in time is reported.
use std::env;
use std::error::Error;
use std::time::Duration;

use deltat::{
    now, Flow, Link, Messages, Network, Node, NodeOptions, Params, Report, ReportKind, Route, Start,
};
use deltat_udp::{Driven, Peer};

const LONGEST: usize = 65_536;
const ASKING_MS: u64 = 20_000;
const TURN: Duration = Duration::from_millis(50);

/// Node 1 or 2, which receives at one port, and its peer.
fn open(node: u32, port: u16, start: Start) -> Result<Driven<Messages>, Box<dyn Error>> {
    let address = |name, usual| env::var(name).unwrap_or_else(|_| format!("127.0.0.1:{usual}"));
    let peer = Peer { node: 3 - node, link: 1, address: address("PEER", 4003 - node).parse()? };
    // as `tools/params.py 250 50 --shelf 2` has them for all nodes
    let network = Network { shelf: 2, ..Network::new(250_000, 50_000) };
    let (params, charge) = Params::for_network(&network)?;
    let links = [Link { number: peer.link, charge, pace: 0 }];
    let routes = [Route { to: peer.node, link: peer.link }];
    let options = NodeOptions { node, now: now(), links: &links, routes: &routes, start };
    let mut it = Node::open(&params, &options)?;
    it.enable_messages(LONGEST)?;
    // datagrams for other ports are blocked, and strangers open 1,000 flows at most
    it.set_guard(Some(&[port]), 1000)?;
    Ok(Driven::bind(address("OWN", 4000 + node), it, &[peer])?)
}

fn tell(report: Report) {
    if report.kind == ReportKind::Uncertain {
        eprintln!("echo: {} octets of {} are uncertain", report.count, report.flow);
    }
}

fn serve(start: Start) -> Result<(), Box<dyn Error>> {
    let (mut udp, mut buf) = (open(2, 20, start)?, vec![0; LONGEST]);
    loop {
        let at = udp.turn(None)?;
        udp.node.take_reports(tell)?;
        while let Some(message) = udp.node.next_message(at, &mut buf)? {
            buf[..message.len].reverse();
            // waits for room, and meanwhile for no further messages: so a client that doesn't read is held
            // back, and nothing is dropped
            udp.send(message.flow.reversed(), &buf[..message.len])?;
        }
    }
}

fn ask(start: Start, words: &[String]) -> Result<(), Box<dyn Error>> {
    let (mut udp, mut buf) = (open(1, 10, start)?, vec![0; LONGEST]);
    let flow = Flow { source: 1, target: 2, source_port: 10, target_port: 20 };
    let (begun, mut unsent, mut answers) = (now(), words.iter().peekable(), 0);
    while answers < words.len() {
        let at = udp.turn(Some(TURN))?;
        udp.node.take_reports(tell)?;
        while let Some(message) = udp.node.next_message(at, &mut buf)? {
            println!("{}", String::from_utf8_lossy(&buf[..message.len]));
            answers += 1;
        }
        while let Some(word) = unsent.peek() {
            match udp.node.send(at, flow, word.as_bytes(), true, true) {
                Ok(()) => unsent.next(),
                // in a later turn
                Err(deltat::Error::Quiet { .. } | deltat::Error::Full { .. }) => break,
                Err(why) => return Err(why.into()),
            };
        }
        if at - begun > ASKING_MS {
            return Err(format!("{answers} of {} words were answered", words.len()).into());
        }
    }
    // the last answers are acknowledged
    while udp.turn(Some(TURN))? - begun < ASKING_MS {
        if !matches!(udp.node.wake()?, Some(it) if it < now() + 100) {
            break;
        }
    }
    Ok(())
}

fn main() -> Result<(), Box<dyn Error>> {
    let words: Vec<String> = env::args().skip(1).collect();
    let is_first = words.get(1).map_or(false, |it| it == "first");
    let (start, begin) = if is_first { (Start::First, 2) } else { (Start::Again, 1) };
    match words.first().map(String::as_str) {
        Some("serve") if words.len() == begin => serve(start),
        Some("ask") if words.len() > begin => ask(start, &words[begin..]),
        _ => Err("usage: echo serve [first] | echo ask [first] WORD ..".into()),
    }
}
