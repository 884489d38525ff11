"""The programs of docs/orders.md, as they stand there: a server and a client, and the middle of a chain, over sockets
of this machine."""
import ast
import asyncio
import contextlib
import inspect
import os
import pathlib
import re
import signal
import subprocess
import sys
import tempfile
import time
from typing import Any

import deltat
from deltat import orders, orders_chain

TOP = pathlib.Path(__file__).resolve().parents[2]
PAGE = TOP / "docs" / "orders.md"
MOST_LINES = 40


def programs() -> list[str]:
    return re.findall(r"```python\n(.*?)```", PAGE.read_text(), re.DOTALL)


def run(folder: pathlib.Path, text: str) -> "subprocess.Popen[str]":
    environment = {**os.environ, "PYTHONPATH": str(TOP / "bindings" / "python")}
    command = [sys.executable, "-u", "-c", text]
    return subprocess.Popen(
        command, cwd=folder, env=environment, stdout=subprocess.PIPE, stderr=subprocess.STDOUT, text=True
    )


def cases() -> list[tuple[str, bool, str]]:
    server_text, client_text, chain_text = programs()
    lines = sum(bool(it.strip()) for text in (server_text, client_text) for it in text.splitlines())
    said = []
    with tempfile.TemporaryDirectory() as name:
        folder = pathlib.Path(name)
        server = run(folder, server_text)
        try:
            for turn in range(4):
                if turn == 1:
                    copy = (folder / "bank.db").read_bytes(), (folder / "bank.db-wal").read_bytes()
                if turn == 3:
                    # the disk is set back to the copy of before
                    server.kill()
                    server.wait()
                    (folder / "bank.db").write_bytes(copy[0])
                    (folder / "bank.db-wal").write_bytes(copy[1])
                    (folder / "bank.db-shm").unlink(missing_ok=True)
                    server = run(folder, server_text)
                client = run(folder, client_text)
                try:
                    said.append(client.communicate(timeout=40)[0])
                except subprocess.TimeoutExpired:
                    client.kill()
                    said.append(client.communicate()[0] + " and doesn't end")
                time.sleep(0.1)
        finally:
            server.send_signal(signal.SIGKILL)
            server.wait()
            if server.stdout:
                server.stdout.close()
    wanted = ["Done(result=b'paid')\n"] * 3
    return [
        (f"a server and a client have {lines} lines, {MOST_LINES} at most", lines <= MOST_LINES, ""),
        ("they run as they stand on the page", said[:3] == wanted, str(said[:3])),
        ("a set back is told, with its orders", "undone: [b'alice 20', b'alice 20']" in said[3], said[3]),
        chain(chain_text),
    ]


# --- the middle of a chain, with a client and a last server in this process


PARAMS, CHARGE = deltat.Params.for_network(deltat.Network(delay_us=20_000, round_trip_us=2_000))
CLIENT, MIDDLE, LAST, COUNT = 1, 2, 3, 12
PEERS = {CLIENT: [MIDDLE], MIDDLE: [CLIENT, LAST], LAST: [MIDDLE]}


def address(number: int) -> tuple[str, int]:
    return "127.0.0.1", 4_740 + number


def opened(number: int, ports: dict[int, deltat.PortKind]) -> deltat.AsyncUdp:
    links = {it: at for at, it in enumerate(PEERS[number], 1)}
    node = deltat.Service(number, 1, PARAMS, [deltat.Link(it, CHARGE) for it in links.values()], links,
                          start=deltat.Start.FIRST)
    for port, kind in ports.items():
        node.set_port(port, kind)
    return deltat.AsyncUdp(node, address(number), {it: address(it) for it in links}, links)


async def chained(text: str, folder: pathlib.Path) -> list[object]:
    """What the client is told, what the middle did, and what the last server did."""
    service, caller = deltat.PortKind.SERVICE, deltat.PortKind.CALLER
    last, served = (orders.Served(orders.Sqlite(folder / name)) for name in ("last.db", "shop.db"))
    last.database.run("CREATE TABLE packed(body BLOB)")
    served.database.run("CREATE TABLE shipped(body BLOB)")

    @last.order
    def pack(db, order):  # type: ignore[no-untyped-def]
        db.execute("INSERT INTO packed VALUES (?)", (order.body,))
        return b"packed"

    async with (
        opened(CLIENT, {10: caller}) as udp,
        opened(MIDDLE, {20: service, 11: caller}) as middle_udp,
        opened(LAST, {20: service}) as last_udp,
    ):
        names: dict[str, Any] = {"asyncio": asyncio, "deltat": deltat, "orders": orders, "orders_chain": orders_chain,
                 "served": served, "calls": deltat.AsyncCalls(middle_udp)}
        program = eval(compile(text.replace("shop.db", str(folder / "shop.db")), "orders.md", "exec",
                               ast.PyCF_ALLOW_TOP_LEVEL_AWAIT), names)
        assert inspect.iscoroutine(program)
        tasks = [asyncio.create_task(program), asyncio.create_task(last.serve(deltat.AsyncCalls(last_udp), 20))]
        wire = orders.over_async(deltat.AsyncCalls(udp), deltat.Flow(CLIENT, 10, MIDDLE, 20))
        async with orders.AsyncOrders(wire, orders.Log(folder / "client.orders"), lanes=4) as given:
            fates = await asyncio.wait_for(asyncio.gather(*(given.give(b"%02d" % it) for it in range(COUNT))), 60)
        for it in tasks:
            it.cancel()
        for it in tasks:
            with contextlib.suppress(asyncio.CancelledError):
                await it
        await names["packs"].close()
    found = [sorted(bytes(it) for (it,) in at.database.run(f"SELECT body FROM {table}"))
             for at, table in ((served, "shipped"), (last, "packed"))]
    served.close()
    last.close()
    return [fates, *found]


def chain(text: str) -> tuple[str, bool, str]:
    bodies = [b"%02d" % it for it in range(COUNT)]
    wanted = [[orders.Done(b"shipped")] * COUNT, bodies, [b"pack " + it for it in bodies]]
    with tempfile.TemporaryDirectory() as name:
        found = asyncio.run(chained(text, pathlib.Path(name)))
    return "the middle of a chain runs as it stands on the page", found == wanted, str(found)
