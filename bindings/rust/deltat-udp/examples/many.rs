//! Many calls at once.
//!
//! ```text
//! many serve PORT STATE JOURNAL   node 2 writes each request into a file before it replies, until it is killed
//! many ask HOST PORT COUNT        COUNT calls, 16 at a time; prints how each ended
//! ```
use std::collections::HashMap;
use std::error::Error;
use std::fs::OpenOptions;
use std::io::Write;
use std::time::Duration;
use std::{env, str};

use deltat_udp::{fresh_number, Event, Flow, Network, Options, Params, PortKind, Service, Start};

const AT_A_TIME: usize = 16;
const TIMEOUT: Duration = Duration::from_secs(20);

/// As `tools/params.py 250 50 --shelf 2 --mtu 1466` has it, but segments are sent 34 times before they are given
/// up, for networks that lose a lot.
fn network() -> Result<(Params, u32), deltat::Error> {
    Params::for_network(&Network {
        shelf: 2,
        mtu: 1466,
        tries: 34,
        ..Network::new(250_000, 50_000)
    })
}

fn serve(port: u16, state: &str, journal: &str) -> Result<(), Box<dyn Error>> {
    let (params, charge) = network()?;
    let state = Some(state.as_ref());
    let options = Options { port, state, max_peers: 1000, ..Options::new(2, params, charge) };
    let mut service = Service::open(&options)?;
    service.open_port(20, PortKind::Service)?;
    println!("silent for {} ms", service.silence().as_millis());
    let mut journal = OpenOptions::new().create(true).append(true).open(journal)?;
    let (mut events, handle) = service.split();
    loop {
        match events.next_event()? {
            Event::Request { token, octets } => {
                journal.write_all(&[octets, b"\n"].concat())?;
                // an answer is as long as the request: the octets are passed on without a copy
                handle.reply(token, octets)?;
            }
            Event::ReplyUncertain { flow } => eprintln!("many: a reply to {flow} is uncertain"),
            _ => (),
        }
    }
}

fn ask(host: &str, port: u16, count: usize) -> Result<(), Box<dyn Error>> {
    let (params, charge) = network()?;
    let (source, start) = (fresh_number()?, Some(Start::First));
    let mut client = Service::open(&Options { start, ..Options::new(source, params, charge) })?;
    client.set_peer(2, host, port)?;
    client.open_port(10, PortKind::Caller)?;
    let flow = Flow { source, target: 2, source_port: 10, target_port: 20 };
    let (mut made, mut under_way) = (0, HashMap::new());
    while made < count || !under_way.is_empty() {
        while made < count && under_way.len() < AT_A_TIME {
            made += 1;
            let call = client.call(flow, made.to_string().as_bytes(), TIMEOUT)?;
            under_way.insert(call, made);
        }
        match client.next_event()? {
            Event::Answered { call, octets, .. } => {
                let number = under_way.remove(&call).ok_or("an answer to no call")?;
                let own = str::from_utf8(octets)?.parse() == Ok(number);
                println!("{} {number}", if own { "answered" } else { "another answer to" });
            }
            Event::Unsure { call, cause, .. } => {
                let number = under_way.remove(&call).ok_or("an end of no call")?;
                println!("unsure {number} {cause:?}");
            }
            _ => (),
        }
    }
    client.drain(Some(Duration::from_secs(1)))?;
    let counts = client.counts();
    eprintln!("{} datagrams out, {} alarms", counts.datagrams_out, counts.clock_alarms);
    Ok(())
}

fn main() -> Result<(), Box<dyn Error>> {
    let words: Vec<String> = env::args().skip(1).collect();
    match words.iter().map(String::as_str).collect::<Vec<_>>()[..] {
        ["serve", port, state, journal] => serve(port.parse()?, state, journal),
        ["ask", host, port, count] => ask(host, port.parse()?, count.parse()?),
        _ => Err("usage: many serve PORT STATE JOURNAL | many ask HOST PORT COUNT".into()),
    }
}
