// A plain loop over UDP sockets, for bench/nodes.py to set beside a node: each datagram is answered by
// one of 30 octets. `plain PORT COUNT` ends after so many datagrams.
use std::env;
use std::io;
use std::net::UdpSocket;

fn main() -> io::Result<()> {
    let mut args = env::args().skip(1).map(|word| word.parse::<u32>().expect("a number"));
    let port = args.next().expect("a port") as u16;
    let count = args.next().expect("a count");
    let socket = UdpSocket::bind(("127.0.0.1", port))?;
    let mut buf = [0u8; 8223];
    for _ in 0..count {
        let (_, from) = socket.recv_from(&mut buf)?;
        socket.send_to(&[0x61; 30], from)?;
    }
    Ok(())
}
