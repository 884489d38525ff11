#!/usr/bin/env python3
"""A gateway between HTTP and calls: requests that an HTTP server gets once or not at all, from any language.

    tools/gateway.py near.toml          tools/gateway.py far.toml

A near gateway listens for HTTP on a port or a Unix socket. `POST /NAME` becomes a call to the far gateway of NAME,
which hands it to an HTTP server. Whatever is lost, repeated or restarted on the way, the server gets it once at most.
The answer is the server's own. 409: it was declined, and nothing happened. 504: it is unsure, with a token; `POST
/ask/TOKEN`, or the same request with the same Idempotency-Key, settles it, and `GET /calls/TOKEN` shows it.
docs/gateway.md has the settings, a table of answers, and what is promised.

--check reads the settings and ends. Statuses: 0 it was ended by SIGTERM or SIGINT; 1 the node ran out of memory; 2 the
settings, the library, the state folder or an address can't be used."""
import argparse
import asyncio
import logging
import signal
import sqlite3
import sys
import threading
from contextlib import AsyncExitStack, closing
from typing import TYPE_CHECKING, Any

from deltat_tools import live, told
from deltat_tools.gateway import settings
from deltat_tools.gateway.journal import Journal

if TYPE_CHECKING:
    from deltat_tools.gateway import front

LINK = 1
log = logging.getLogger("gateway")


def words() -> argparse.Namespace:
    it = argparse.ArgumentParser(description=__doc__, formatter_class=argparse.RawDescriptionHelpFormatter)
    it.add_argument("settings", metavar="FILE", help="the settings, in TOML")
    it.add_argument("--check", action="store_true", help="read the settings, and end")
    it.add_argument("--level", default="INFO", choices=told.LEVELS)
    return it.parse_args()


def opened(said: settings.Settings, params: Any, charge: int, state: Any) -> Any:
    """The gateway's node, with the kinds of its ports. Requests of a flow are handed out one at a time."""
    deltat = live.library()
    limits = deltat.ServiceLimits(max_calls=10_000, max_requests=10_000, max_requests_per_flow=1)
    routes = {peer: LINK for peer in said.peers}
    node = deltat.Service(said.node, None, params, [deltat.Link(LINK, charge)], routes, state=state, limits=limits)
    for target in said.targets.values():
        for port in target.from_ports:
            node.set_port(port, deltat.PortKind.CALLER)
    for port in said.backends:
        node.set_port(port, deltat.PortKind.SERVICE)
    return node


async def closed(listens: "front.Front") -> None:
    """Ends the HTTP server, by a thread, since it waits for the requests that are served."""
    await asyncio.to_thread(listens.close)


async def serve(said: settings.Settings) -> None:
    """Runs the gateway, until it is told to stop."""
    deltat = live.library()
    from deltat_tools.gateway import front, orders, served

    params, charge = deltat.Params.for_network(deltat.Network(**said.network))
    stop = asyncio.Event()
    for it in (signal.SIGTERM, signal.SIGINT):
        asyncio.get_running_loop().add_signal_handler(it, stop.set)
    async with AsyncExitStack() as stack:
        state = stack.enter_context(deltat.State(said.state, said.node, params))
        made = Journal(said.state / "gateway.db", orders.SCHEMA + served.SCHEMA, said.sync)
        journal = stack.enter_context(closing(made))
        node = opened(said, params, charge, state)
        udp = await stack.enter_async_context(deltat.AsyncUdp(node, said.bind, said.peers, counters=said.counters))
        calls = deltat.AsyncCalls(udp)
        for port, backend in said.backends.items():
            calls.on(port)(served.Served(journal, backend).serve)
        running = asyncio.create_task(calls.run())
        stack.callback(running.cancel)
        if said.listen is not None:
            near = orders.Orders(journal, calls, said.node, said.keep_hours)
            await near.start()
            listens = front.Front(said.listen, said.targets, near)
            threading.Thread(target=listens.run, name="http", daemon=True).start()
            stack.push_async_callback(closed, listens)
        log.info("node %d is ready, life %d, silent for %d ms", said.node, node.life, state.silence())
        stopping = asyncio.create_task(stop.wait())
        await asyncio.wait({running, stopping}, return_when=asyncio.FIRST_COMPLETED)
        if running.done():
            running.result()
        log.info("node %d ends", said.node)


def main() -> int:
    asked = words()
    told.begin(asked.level)
    try:
        said = settings.read(asked.settings)
        if not asked.check:
            asyncio.run(serve(said))
    except MemoryError as why:
        print(f"gateway.py: {why}", file=sys.stderr)
        return 1
    except (OSError, ValueError, TypeError, ImportError, sqlite3.Error) as why:
        print(f"gateway.py: {why}", file=sys.stderr)
        return 2
    return 0


if __name__ == "__main__":
    sys.exit(main())
