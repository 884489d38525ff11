//! Node 2 answers each request with its octets reversed, for whoever asks: `service [PORT] [STATE FOLDER]`.
use deltat_udp::{Event, Network, Options, Params, PortKind, Service};

fn main() -> Result<(), Box<dyn std::error::Error>> {
    let words: Vec<String> = std::env::args().collect();
    let port = words.get(1).map_or(Ok(4002), |it| it.parse())?;
    let state = Some(words.get(2).map_or("node-2", |it| it).as_ref());
    // as `tools/params.py 250 50 --shelf 2 --mtu 1466` has them
    let network = Network { shelf: 2, mtu: 1466, ..Network::new(250_000, 50_000) };
    let (params, charge) = Params::for_network(&network)?;
    let options = Options { port, state, max_peers: 1000, ..Options::new(2, params, charge) };
    let mut service = Service::open(&options)?;
    service.open_port(20, PortKind::Service)?;
    loop {
        match service.next_event()? {
            Event::Request { token, octets } => {
                let reversed: Vec<u8> = octets.iter().rev().copied().collect();
                if let Err(why) = service.reply(token, &reversed) {
                    eprintln!("service: {why}");
                }
            }
            Event::Alarm { peer, alarm } => eprintln!("service: node {peer}: {alarm:?}"),
            _ => (),
        }
    }
}
