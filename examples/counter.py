#!/usr/bin/env python3
"""A service that keeps sums: a message `NAME NUMBER` adds the number to the name's sum, and is answered by `NAME SUM`.
No message is added twice, whatever the network repeats, and who sent it needs no number of its own for that.

    examples/counter.py
    printf 'apples 3\\npears 5\\napples 4\\n' | tools/dtcat.py 1@4001 2@4002 --linger 1

It is node 2 on port 4002, for node 1 on port 4001. By its state folder, ~/.local/state/deltat-counter/2, it is silent
at first if it ran less than half a second before."""
import asyncio
import collections
import pathlib
import sys

sys.path.insert(0, str(pathlib.Path(__file__).resolve().parent.parent / "bindings" / "python"))
import deltat  # noqa: E402

# as `tools/params.py 50 20` prints them, but the wait in this machine's socket, of 20 ms, is measured and not charged
PARAMS, CHARGE = deltat.Params.for_network(deltat.Network(delay_us=50_000, round_trip_us=20_000))


def answer(sums: dict[str, int], message: deltat.Message) -> str:
    name, _, number = message.octets.decode(errors="replace").partition(" ")
    try:
        sums[name] += int(number)
    except ValueError:
        return f"{number!r} isn't a number"
    return f"{name} {sums[name]}"


async def serve() -> None:
    sums: dict[str, int] = collections.Counter()
    with deltat.State(deltat.usual_folder("deltat-counter", 2), 2, PARAMS) as state:
        node = deltat.Node(2, PARAMS, [deltat.Link(1, CHARGE - 20)], {1: 1}, state=state)
        # (dtcat has no watch, since it speaks with `deltat node` too)
        async with deltat.AsyncUdp(node, ("127.0.0.1", 4002), {1: ("127.0.0.1", 4001)}, watch=False) as udp:
            async for message in udp:
                await udp.send(message.flow.reversed(), answer(sums, message).encode())


if __name__ == "__main__":
    asyncio.run(serve())
