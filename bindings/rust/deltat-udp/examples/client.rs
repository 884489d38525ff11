//! `client HOST WORD [PORT]` has a service reverse the word. Its node has a fresh number, so it keeps no state.
use std::{env, error::Error, time::Duration};

use deltat_udp::{fresh_number, Event, Flow, Network, Options, Params, PortKind, Service, Start};

fn main() -> Result<(), Box<dyn Error>> {
    let words: Vec<String> = env::args().collect();
    let (host, word) = match &words[..] {
        [_, host, word, ..] => (host, word),
        _ => return Err("usage: client HOST WORD [PORT]".into()),
    };
    let port = words.get(3).map_or(Ok(4002), |it| it.parse())?;
    let network = Network { shelf: 2, mtu: 1466, ..Network::new(250_000, 50_000) };
    let (params, charge) = Params::for_network(&network)?;
    let source = fresh_number()?;
    let start = Some(Start::First);
    let mut client = Service::open(&Options { start, ..Options::new(source, params, charge) })?;
    client.set_peer(2, host, port)?;
    client.open_port(10, PortKind::Caller)?;
    let flow = Flow { source, target: 2, source_port: 10, target_port: 20 };
    client.call(flow, word.as_bytes(), Duration::from_secs(5))?;
    match client.next_event()? {
        Event::Answered { octets, .. } => println!("{}", String::from_utf8_lossy(octets)),
        other => return Err(format!("no answer: {other:?}").into()),
    }
    client.drain(Some(Duration::from_secs(1)))?; // so that the answer is acknowledged
    Ok(())
}
