#!/usr/bin/env python3
"""A node of calls of tests/soak.py: `soak_caller.py PLACE`, a Place of tests/soak_calls.py as JSON. The service writes
a line before it replies, and replies late and out of order; a client has some calls under way at once, each of which it
writes down before it makes it. Nothing of a call may be done twice. It ends with 0 at its moment, and is killed before.

Spoilt as `first`, it opens its node each time as one that never ran, with the same life, and a service opens it anew
once or twice a second, which is faster than a process starts. A service that is spoilt as `twice` serves one of 50
calls twice.

In tests/all: not a test."""
import asyncio
import contextlib
import json
import os
import pathlib
import random
import secrets
import sys
from collections import Counter

from lib import HOST, TOP, body, number_in
from soak_calls import EACH, LIBRARY, PORTS, SERVED_PORT, SERVICE, SPURS, Place, lines_of

os.environ["DELTAT_LIBRARY"] = str(LIBRARY)
sys.path.insert(0, str(TOP / "bindings" / "python"))
import deltat  # noqa: E402

REQUESTS, ANSWERS = (16, 40, 300, 1_400, 3_000), (16, 16, 300, 1_400)
# the mean of what a reply waits, and the most between two calls, in seconds
SERVING, THINKING = 0.03, 0.2


class Notes:
    """What a node wrote down over all of its lives. A line is in the file before the node goes on, so whoever kills it
    takes nothing of it away."""

    def __init__(self, path: pathlib.Path) -> None:
        before = lines_of(path)
        self.life = 1 + sum(word == "life" for word, _ in before)
        # by caller how many calls it made
        self.made = Counter(numbers[0] >> 32 for word, numbers in before if word == "made")
        self.file = os.open(path, os.O_WRONLY | os.O_APPEND | os.O_CREAT, 0o644)
        self.note("life", self.life)

    def note(self, word: str, *numbers: int) -> None:
        os.write(self.file, (" ".join([word, *map(str, numbers)]) + "\n").encode())

    def new_call(self, node: int, port: int) -> int:
        caller = node << 16 | port
        self.made[caller] += 1
        call = caller << 32 | self.made[caller]
        self.note("made", call)
        return call


class Caller:
    """A life of such a node."""

    def __init__(self, place: Place) -> None:
        self.place, self.chance = place, random.Random(place.seed)
        self.notes = Notes(pathlib.Path(place.notes))

    def opened(self) -> deltat.Service:
        """Its node, whose ports have their kinds."""
        place = self.place
        life = 1 if place.spoilt == "first" else self.notes.life
        routes = dict.fromkeys([place.next_hop, *(it for it in SPURS if it != place.number)], 1)
        node = deltat.Service(place.number, life, deltat.Params(*place.params), [deltat.Link(1, place.charge)], routes,
                              start=deltat.Start.AGAIN if life > 1 else deltat.Start.FIRST)
        ports = [SERVED_PORT] if place.number == SERVICE else PORTS
        for port in ports:
            node.set_port(port, deltat.PortKind.SERVICE if place.number == SERVICE else deltat.PortKind.CALLER)
        return node

    def left(self) -> float:
        return (self.place.until - deltat.now()) / 1000

    async def run(self) -> None:
        while self.left() > 0:
            async with deltat.AsyncUdp(
                self.opened(), (HOST, self.place.port), {self.place.next_hop: (HOST, self.place.to)}, watch=False
            ) as udp:
                calls = deltat.AsyncCalls(udp)
                await (self.serve(calls) if self.place.number == SERVICE else self.ask(calls))
        self.notes.note("over")

    async def serve(self, calls: deltat.AsyncCalls) -> None:
        seconds = self.chance.uniform(0.4, 1) if self.place.spoilt == "first" else self.left()
        with contextlib.suppress(TimeoutError):
            async with asyncio.timeout(seconds), asyncio.TaskGroup() as replies:
                async for request in calls.requests():
                    answer = self.served(number_in(request.payload))
                    replies.create_task(self.reply(calls, request.token, answer))

    def served(self, call: int) -> int:
        """Does what is asked: it writes a line with an answer of its own."""
        is_twice = self.place.spoilt == "twice" and self.chance.random() < 0.02
        for _ in range(2 if is_twice else 1):
            answer = secrets.randbits(62) + 1
            self.notes.note("served", call, answer)
        return answer

    async def reply(self, calls: deltat.AsyncCalls, token: deltat.Token, answer: int) -> None:
        await asyncio.sleep(self.chance.expovariate(1 / SERVING))
        await calls.reply(token, body(answer, self.chance.choice(ANSWERS)))

    async def ask(self, calls: deltat.AsyncCalls) -> None:
        async with asyncio.TaskGroup() as asking:
            for port in PORTS * EACH:
                asking.create_task(self.ask_from(calls, port))

    async def ask_from(self, calls: deltat.AsyncCalls, port: int) -> None:
        """One call after another from a port, until the node's moment."""
        flow = deltat.Flow(self.place.number, port, SERVICE, SERVED_PORT)
        while self.left() > 0:
            call = self.notes.new_call(self.place.number, port)
            try:
                answer = await calls.call(flow, body(call, self.chance.choice(REQUESTS)), self.place.patience)
            except deltat.Unsure:
                self.notes.note("unsure", call)
            except deltat.Declined as why:
                self.notes.note("declined", call)
                await asyncio.sleep(max(why.until - deltat.now(), 50) / 1000)
            else:
                self.notes.note("answered", call, number_in(answer))
            await asyncio.sleep(self.chance.uniform(0, THINKING))


def main() -> None:
    asyncio.run(Caller(Place(**json.loads(sys.argv[1]))).run())


if __name__ == "__main__":
    main()
