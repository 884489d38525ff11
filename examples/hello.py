"""A call and its answer, both ends in one program, so that the wire is a loop."""
import deltat

params, charge = deltat.Params.for_network(deltat.Network(delay_us=20_000, round_trip_us=10_000))


def opened(number: int, peer: int) -> deltat.Service:
    return deltat.Service(number, 1, params, [deltat.Link(1, charge)], {peer: 1}, start=deltat.Start.FIRST, at=0)


with opened(1, 2) as client, opened(2, 1) as server:
    client.set_port(10, deltat.PortKind.CALLER)
    server.set_port(20, deltat.PortKind.SERVICE)
    client.call(deltat.Flow(1, 10, 2, 20), b"hello", timeout_ms=1000, at=0)
    for it in client.datagrams():  # your wire, which takes 5 ms
        server.receive(it.link, it.octets, at=5)
    for event in server.events():
        if isinstance(event, deltat.Request):
            server.reply(event.token, event.payload, at=5)
    for it in server.datagrams():
        client.receive(it.link, it.octets, at=10)
    for event in client.events():
        if isinstance(event, deltat.Answered):
            print(event.answer.decode())
