#!/usr/bin/env python3
"""How many orders a second deltat.orders makes, and how many syncs an order costs at each end.

    bench/orders.py [--seconds S] [--folder FOLDER]

First client and server are in one process, and a request is a function call: what is measured is the library, the two
stores and Python. Then they are two processes, and a request is a call over loopback. The client has a log, the server
SQLite; both are synced. Ends with 1 if an order isn't done once."""
import argparse
import asyncio
import os
import pathlib
import sqlite3
import subprocess
import sys
import tempfile
import time
from collections.abc import Sequence

sys.path.insert(0, str(pathlib.Path(__file__).resolve().parents[1] / "bindings" / "python"))
import deltat  # noqa: E402
from deltat import orders  # noqa: E402

BODY = b"transfer 3 5 20"
HOST, CLIENT, SERVER = "127.0.0.1", 4_911, 4_912
# how often the server looks whether the client has ended, in seconds
LOOK = 0.5


class Counted(orders.Log):
    """A log that counts its writes, each of which is one sync."""

    writes = 0

    def write(self, records: Sequence[bytes]) -> None:
        self.writes += 1
        super().write(records)


class CountedDatabase(orders.Sqlite):
    """A database that counts its commits, each of which is one sync."""

    commits = 0

    def commit(self) -> None:
        self.commits += 1
        super().commit()


def served(folder: pathlib.Path) -> orders.Served:
    it = orders.Served(CountedDatabase(folder / "bank.db"))
    it.database.run("CREATE TABLE effects(body BLOB)")

    @it.order
    def book(db: sqlite3.Connection, order: orders.Order) -> bytes:
        db.execute("INSERT INTO effects VALUES (?)", (order.body,))
        return b"booked"

    return it


def one_at_a_time(folder: pathlib.Path, seconds: float) -> tuple[int, float, float]:
    """Orders, seconds, and the client's syncs an order."""
    bank, log, count = served(folder), Counted(folder / "log"), 0
    with orders.Orders(lambda request: bank.handle(1, request) or b"", log) as given:
        given.give(BODY)
        begun, had = time.monotonic(), log.writes
        while time.monotonic() < begun + seconds:
            given.give(BODY)
            count += 1
        took = time.monotonic() - begun
        return count, took, (log.writes - had) / count


async def many(folder: pathlib.Path, seconds: float, lanes: int) -> tuple[int, float, float, float]:
    """Orders, seconds, and the syncs an order of the client and of the server, which takes what waits together."""
    bank, log, waiting, commits = (
        served(folder),
        Counted(folder / "log"),
        list[tuple[bytes, asyncio.Future[bytes]]](),
        0,
    )
    loop = asyncio.get_running_loop()

    def serve() -> None:
        nonlocal waiting, commits
        batch, waiting, commits = waiting, [], commits + 1
        for (_, end), answer in zip(batch, bank.handle_all([(1, request) for request, _ in batch]), strict=True):
            end.set_result(answer or b"")

    async def sends(request: bytes) -> bytes:
        end: asyncio.Future[bytes] = loop.create_future()
        if not waiting:
            loop.call_soon(serve)
        waiting.append((request, end))
        return await end

    async with orders.AsyncOrders(sends, log, lanes=lanes) as given:
        await given.give(BODY)
        begun, count, had, served_before = time.monotonic(), 0, log.writes, commits

        async def gives() -> None:
            nonlocal count
            while time.monotonic() < begun + seconds:
                await given.give(BODY)
                count += 1

        await asyncio.gather(*(gives() for _ in range(lanes)))
        took = time.monotonic() - begun
        return count, took, (log.writes - had) / count, (commits - served_before) / count


# --- two processes


PARAMS, CHARGE = deltat.Params.for_network(deltat.Network(delay_us=20_000, round_trip_us=2_000))


def node(folder: pathlib.Path, number: int, port: int, kind: deltat.PortKind) -> deltat.Service:
    state = deltat.State(folder / f"node-{number}", number, PARAMS)
    it = deltat.Service(number, None, PARAMS, [deltat.Link(1, CHARGE)], {3 - number: 1}, state=state)
    it.set_port(port, kind)
    return it


def serve(folder: pathlib.Path) -> None:
    bank = served(folder)
    serves = node(folder, 2, 20, deltat.PortKind.SERVICE)
    with deltat.Udp(serves, (HOST, SERVER), {1: (HOST, CLIENT)}) as udp:
        (folder / "ready").touch()
        calls = deltat.Calls(udp)
        while not (folder / "end").exists():
            bank.run(calls, 20, LOOK)
    ((count,),) = bank.database.run("SELECT count(*) FROM effects")
    assert isinstance(bank.database, CountedDatabase)
    (folder / "served").write_text(f"{count} {bank.database.commits}")
    bank.close()


async def over_calls(folder: pathlib.Path, seconds: float, lanes: int) -> tuple[int, float, float]:
    """Orders, seconds, and the client's syncs an order."""
    calls_node = node(folder, 1, 10, deltat.PortKind.CALLER)
    async with deltat.AsyncUdp(calls_node, (HOST, CLIENT), {2: (HOST, SERVER)}) as udp:
        wire, log = orders.over_async(deltat.AsyncCalls(udp), deltat.Flow(1, 10, 2, 20)), Counted(folder / "log")
        async with orders.AsyncOrders(wire, log, lanes=lanes) as given:
            await given.give(BODY)
            begun, count, had = time.monotonic(), 0, log.writes

            async def gives() -> None:
                nonlocal count
                while time.monotonic() < begun + seconds:
                    await given.give(BODY)
                    count += 1

            await asyncio.gather(*(gives() for _ in range(lanes)))
            return count, time.monotonic() - begun, (log.writes - had) / count


def two_processes(folder: pathlib.Path, seconds: float, lanes: int) -> str:
    server = subprocess.Popen([sys.executable, __file__, "--serve", str(folder)])
    try:
        while not (folder / "ready").exists() and server.poll() is None:
            time.sleep(0.01)
        count, took, client = asyncio.run(over_calls(folder, seconds, lanes))
        (folder / "end").touch()
        server.wait(30)
    finally:
        server.kill()
        server.wait()
    done, commits = map(int, (folder / "served").read_text().split())
    if done != count + 1:
        raise SystemExit(f"{count + 1} orders are done, and {done} were executed")
    return f"{count / took:.0f} orders a second; syncs an order: client {client:.2f}, server {commits / done:.2f}"


def main() -> int:
    reads = argparse.ArgumentParser(description=__doc__, formatter_class=argparse.RawDescriptionHelpFormatter)
    reads.add_argument("--seconds", type=float, default=5.0)
    reads.add_argument(
        "--folder", type=pathlib.Path, default=None, help="where the stores are: on the disk that is meant"
    )
    reads.add_argument("--serve", type=pathlib.Path, help=argparse.SUPPRESS)
    given = reads.parse_args()
    if given.serve:
        serve(given.serve)
        return 0
    print(f"load {os.getloadavg()[0]:.1f}")
    with tempfile.TemporaryDirectory(dir=given.folder) as name:
        count, took, syncs = one_at_a_time(pathlib.Path(name), given.seconds)
        print(f"one at a time: {count / took:.0f} orders a second; syncs an order: client {syncs:.2f}, server 1.00")
    for lanes in (16, 64):
        with tempfile.TemporaryDirectory(dir=given.folder) as name:
            count, took, client, server = asyncio.run(many(pathlib.Path(name), given.seconds, lanes))
            rate = f"{count / took:.0f} orders a second"
            print(f"{lanes} lanes: {rate}; syncs an order: client {client:.2f}, server {server:.2f}")
    for lanes in (1, 16, 64):
        with tempfile.TemporaryDirectory(dir=given.folder) as name:
            said = two_processes(pathlib.Path(name), given.seconds, lanes)
        print(f"over calls, {lanes} lane{'s' * (lanes > 1)}: {said}", flush=True)
    return 0


if __name__ == "__main__":
    sys.exit(main())
