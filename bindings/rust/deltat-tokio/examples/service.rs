//! Node 2 answers each request with its octets reversed, for whoever asks: `service [PORT] [STATE FOLDER]`.
use deltat_tokio::deltat_udp::{Event, Network, Options, Params, PortKind, Service};
use deltat_tokio::AsyncCalls;

#[tokio::main(flavor = "current_thread")]
async fn main() -> Result<(), Box<dyn std::error::Error>> {
    let words: Vec<String> = std::env::args().collect();
    let port = words.get(1).map_or(Ok(4002), |it| it.parse())?;
    let state = Some(words.get(2).map_or("node-2", |it| it).as_ref());
    // as `tools/params.py 250 50 --shelf 2 --mtu 1466` has them
    let network = Network { shelf: 2, mtu: 1466, ..Network::new(250_000, 50_000) };
    let (params, charge) = Params::for_network(&network)?;
    let options = Options { port, state, max_peers: 1000, ..Options::new(2, params, charge) };
    let service = Service::open(&options)?;
    service.open_port(20, PortKind::Service)?;
    let calls = AsyncCalls::new(service)?;
    loop {
        if let Event::Request { token, octets } = calls.next_event().await? {
            let calls = calls.clone();
            tokio::spawn(async move {
                let reversed: Vec<u8> = octets.into_iter().rev().collect();
                if let Err(why) = calls.reply(token, &reversed).await {
                    eprintln!("service: {why}");
                }
            });
        }
    }
}
