//! `client HOST WORD [PORT]` has a service reverse the word. Its node has a fresh number, so it keeps no state.
use std::{env, error::Error, time::Duration};

use deltat_tokio::deltat_udp::{
    fresh_number, Flow, Network, Options, Params, PortKind, Service, Start,
};
use deltat_tokio::AsyncCalls;

#[tokio::main(flavor = "current_thread")]
async fn main() -> Result<(), Box<dyn Error>> {
    let words: Vec<String> = env::args().collect();
    let [host, word] = match &words[..] {
        [_, host, word, ..] => [host, word],
        _ => return Err("usage: client HOST WORD [PORT]".into()),
    };
    let network = Network { shelf: 2, mtu: 1466, ..Network::new(250_000, 50_000) };
    let (params, charge) = Params::for_network(&network)?;
    let (source, start) = (fresh_number()?, Some(Start::First));
    let client = Service::open(&Options { start, ..Options::new(source, params, charge) })?;
    client.set_peer(2, host, words.get(3).map_or(Ok(4002), |it| it.parse())?)?;
    client.open_port(10, PortKind::Caller)?;
    let calls = AsyncCalls::new(client)?;
    let flow = Flow { source, target: 2, source_port: 10, target_port: 20 };
    let answer = calls.call(flow, word.as_bytes(), Duration::from_secs(5)).await?;
    println!("{}", String::from_utf8_lossy(&answer));
    calls.drain(Duration::from_secs(1)).await?; // so that the answer is acknowledged
    Ok(())
}
