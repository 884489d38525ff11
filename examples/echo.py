#!/usr/bin/env python3
"""A service that answers each message with its octets reversed, and a client that asks it.

    examples/echo.py serve              node 2 on port 4002, until it is interrupted
    examples/echo.py ask hello world    node 1 on port 4001: sends each word, prints the answers
    examples/echo.py ask-plain hello    the same of a service without a watch, as examples/echo.c

What the client sends arrives at most once, whatever the network repeats. Each node has a state folder,
~/.local/state/deltat-echo/NODE: one that ran less than 1.9 s before is silent at first, until these are over."""
import pathlib
import sys

sys.path.insert(0, str(pathlib.Path(__file__).resolve().parent.parent / "bindings" / "python"))
import deltat  # noqa: E402

HOSTS = {1: ("127.0.0.1", 4001), 2: ("127.0.0.1", 4002)}
# as `tools/params.py 250 50 --shelf 2` prints them
PARAMS, CHARGE = deltat.Params.for_network(deltat.Network(delay_us=250_000, round_trip_us=50_000, shelf=2))


def opened_state(number: int) -> deltat.State:
    return deltat.State(deltat.usual_folder("deltat-echo", number), number, PARAMS)


def opened_udp(state: deltat.State, watch: bool = True) -> deltat.Udp:
    peers = {other: address for other, address in HOSTS.items() if other != state.node}
    node = deltat.Node(state.node, PARAMS, [deltat.Link(1, CHARGE)], {other: 1 for other in peers}, state=state)
    return deltat.Udp(node, HOSTS[state.node], peers, watch=watch)


def serve() -> None:
    with opened_state(2) as state, opened_udp(state) as udp:
        for message in udp:
            udp.send(message.flow.reversed(), message.octets[::-1])


def ask(words: list[str], watch: bool) -> None:
    with opened_state(1) as state, opened_udp(state, watch) as udp:
        udp.run_for(state.silence() / 1000)
        for word in words:
            udp.send(deltat.Flow(1, 10, 2, 20), word.encode())
        for message in udp.run_for(1):
            print(message.octets.decode())


if __name__ == "__main__":
    word, *rest = sys.argv[1:] or ["serve"]
    serve() if word == "serve" else ask(rest, watch=word == "ask")
