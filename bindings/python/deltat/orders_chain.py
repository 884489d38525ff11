"""Chains: a handler of orders gives orders to another server, in its own transaction (docs/orders.md).

    packs = Chain(served, orders.Sqlite("shop.db"), orders.over_async(calls, deltat.Flow(2, 11, 3, 20)))

    @served.order
    def ship(db: sqlite3.Connection, order: orders.Order) -> orders.AtWork:
        packs.note(order, b"pack 17")                # in the transaction of the order's effect
        return orders.AT_WORK

    @packs.then
    def shipped(db: sqlite3.Connection, order: orders.Order, body: bytes, fate: orders.Fate) -> bytes:
        return b"shipped" if isinstance(fate, orders.Done) else b"look into the warehouse's books"

    await asyncio.gather(served.serve(calls, 20), packs.run())

What a handler noted is given once its transaction is committed, and not if that is rolled back. The function `then`
takes each fate once, in a transaction, and what it returns is the result of the order that was at work. So a chain of
orders that are each executed once does each of its parts once. It isn't atomic: the effects at two servers are seen at
different times, and nothing undoes the first if the second has another fate than Done."""

from __future__ import annotations

import asyncio
import struct
from collections.abc import Callable, Coroutine, Sequence
from types import TracebackType
from typing import Any

from . import orders
from .errors import InvalidArgument

__all__ = ["Chain"]

Then = Callable[[Any, orders.Order, bytes, orders.Fate], bytes | None]
# a note: its chain, its number, the order's name at this server, its own name at the next one (0: not given yet)
_TABLES = (
    "CREATE TABLE IF NOT EXISTS orders_notes(chain TEXT NOT NULL, note BIGINT NOT NULL, parent {octets} NOT NULL,"
    " uid BIGINT NOT NULL, body {octets} NOT NULL, PRIMARY KEY (chain, note))",
    "CREATE INDEX IF NOT EXISTS orders_notes_uid ON orders_notes(chain, uid)",
    "CREATE TABLE IF NOT EXISTS orders_chains(chain TEXT NOT NULL, place BIGINT NOT NULL, record {octets} NOT NULL,"
    " PRIMARY KEY (chain, place))",
)
_PARENT = struct.Struct(">QQQQ")
_OCTETS = {orders.Sqlite: "BLOB", orders.Postgres: "BYTEA"}


class _Records:
    """The client's records of a chain, in the server's database. An order's record is written together with the number
    that it has in its note."""

    def __init__(self, database: orders.Database, name: str) -> None:
        self.database, self.name = database, name
        self.notes: dict[int, int] = {}
        """The notes of orders that aren't written yet, by the orders' numbers."""
        database.begin()
        octets = next((it for kind, it in _OCTETS.items() if isinstance(database, kind)), "BLOB")
        for it in _TABLES:
            database.run(it.format(octets=octets))
        database.commit()

    def read(self) -> list[bytes]:
        rows = self.database.run("SELECT record FROM orders_chains WHERE chain = ? ORDER BY place", self.name)
        return [bytes(it) for (it,) in rows]

    def write(self, records: Sequence[bytes]) -> None:
        self._commit(records, False)

    def replace(self, records: Sequence[bytes]) -> None:
        self._commit(records, True)

    def _commit(self, records: Sequence[bytes], all_of_them: bool) -> None:
        run = self.database.run
        try:
            self.database.begin()
            if all_of_them:
                run("DELETE FROM orders_chains WHERE chain = ?", self.name)
            ((last,),) = run("SELECT coalesce(max(place), 0) FROM orders_chains WHERE chain = ?", self.name)
            for place, it in enumerate(records, last + 1):
                run("INSERT INTO orders_chains VALUES (?, ?, ?)", self.name, place, it)
            given = [uid for it in records if (uid := orders._noted_uid(it)) in self.notes]
            for uid in given:
                run("UPDATE orders_notes SET uid = ? WHERE chain = ? AND note = ?", uid, self.name, self.notes[uid])
            self.database.commit()
            for uid in given:
                del self.notes[uid]
        except Exception as why:
            self.database.close()
            raise orders.NotStored(f"the store of the chain {self.name}: {why}") from why

    def fresh(self, most: int) -> list[tuple[int, bytes]]:
        """Notes that weren't given yet. In the thread that writes, so that no write is between the two looks."""
        waiting = set(self.notes.values())
        rows = self.database.run(
            "SELECT note, body FROM orders_notes WHERE chain = ? AND uid = 0 ORDER BY note LIMIT ?",
            self.name,
            most + len(waiting),
        )
        return [(int(note), bytes(body)) for note, body in rows if note not in waiting]

    def close(self) -> None:
        self.database.close()


class Chain:
    """What handlers of a server order of another one."""

    def __init__(
        self,
        served: orders.Served,
        database: orders.Database,
        sends: orders.SendsSometime,
        *,
        name: str = "chain",
        lanes: int = 16,
    ) -> None:
        """`database`: a connection of its own to the database of `served`. `name`: another one for each chain of the
        server. `lanes`: how many orders are under way at once. Raises what the database raises. Within a running loop
        of asyncio."""
        self.name, self._served, self._lanes = name, served, lanes
        self._records = _Records(database, name)
        self._orders = orders.AsyncOrders(sends, self._records, lanes=lanes)
        self._then: Then = lambda connection, order, body, fate: None
        self._loop, self._woken = asyncio.get_running_loop(), asyncio.Event()
        self._failed_waits = (0.05, 10.0)
        served._committed.append(self._wake)

    async def __aenter__(self) -> Chain:
        return self

    async def __aexit__(
        self, kind: type[BaseException] | None, why: BaseException | None, at: TracebackType | None
    ) -> None:
        await self.close()

    async def close(self) -> None:
        """Closes the connection. What was noted stays in the database, and is given in a later life."""
        self._served._committed.remove(self._wake)
        await self._orders.close()

    def note(self, order: orders.Order, body: bytes) -> None:
        """Notes an order for the other server, in the transaction of an order whose handler calls this. Raises
        InvalidArgument if it is too long; what the database raises."""
        if len(body) > orders.MOST_BODY:
            raise InvalidArgument(f"the order has {len(body)} octets; at most {orders.MOST_BODY} fit")
        run = self._served.database.run
        ((last,),) = run("SELECT coalesce(max(note), 0) FROM orders_notes WHERE chain = ?", self.name)
        parent = _PARENT.pack(order.client, order.lane, order.number, order.tag)
        run("INSERT INTO orders_notes VALUES (?, ?, ?, 0, ?)", self.name, last + 1, parent, body)

    def then(self, function: Then) -> Then:
        """Decorates the function that takes the fate of each order that was noted, in a transaction: with the order
        whose handler noted it (without its body), the body that was noted, and the fate. What it returns is the result
        of that order, if it is at work; None leaves it at work. If it raises, its transaction is rolled back, and it is
        called again later."""
        self._then = function
        return function

    async def adopt(self) -> None:
        """As `AsyncOrders.adopt`. Then call `run` again."""
        await self._orders.adopt()

    async def run(self) -> None:
        """Gives what was noted, and takes the fates, until it is cancelled. Raises SetBack if the other server's store
        was set back: call `adopt`, and `run` again; NotStored; what the wire raises."""
        tasks: set[asyncio.Task[None]] = set()
        failed: asyncio.Future[None] = self._loop.create_future()

        def ended(task: asyncio.Task[None]) -> None:
            tasks.discard(task)
            if not task.cancelled() and (why := task.exception()) and not failed.done():
                failed.set_exception(why)

        def begin(work: Coroutine[Any, Any, None]) -> None:
            task = self._loop.create_task(work)
            tasks.add(task)
            task.add_done_callback(ended)

        try:
            for order, fate in self._orders.untaken():
                await self._end(order, fate)
            for order in self._orders.unsettled:
                begin(self._settle(order))
            begin(self._give(begin))
            await failed
        finally:
            for it in list(tasks):
                it.cancel()
            await asyncio.gather(*tasks, return_exceptions=True)

    # steps

    def _wake(self) -> None:
        """A transaction of the server was committed, in some thread."""
        self._loop.call_soon_threadsafe(self._woken.set)

    async def _give(self, begin: Callable[[Coroutine[Any, Any, None]], None]) -> None:
        """Gives each note in turn."""
        while True:
            self._woken.clear()
            found = await self._loop.run_in_executor(self._orders._thread, self._records.fresh, self._lanes)
            for note, body in found:
                order = await self._orders._noted(body)
                # (no write has begun since: the note and the order's record are one transaction)
                self._records.notes[order.uid] = note
                begin(self._settle(order))
            if not found:
                await self._woken.wait()

    async def _settle(self, order: orders.Order) -> None:
        fate = await self._orders._settled(order)
        await self._end(order, fate)
        # (from now on it isn't kept for a later life)
        self._orders._told.append(order.uid)

    async def _end(self, order: orders.Order, fate: orders.Fate) -> None:
        """Has the fate taken, in a transaction that takes the note away."""
        wait = orders._Backoff(*self._failed_waits)
        while not await self._loop.run_in_executor(None, self._taken, order.uid, fate):
            await asyncio.sleep(wait.again())

    def _taken(self, uid: int, fate: orders.Fate) -> bool:
        """Whether the function took the fate, now or before."""
        served, database = self._served, self._served.database
        try:
            with served._transaction():
                rows = database.run(
                    "SELECT parent, body FROM orders_notes WHERE chain = ? AND uid = ?", self.name, uid
                )
                for parent, body in rows:
                    client, lane, number, tag = _PARENT.unpack(bytes(parent))
                    order = orders.Order(b"", 0, client, lane, number, tag)
                    database.guard(True)
                    try:
                        result = self._then(database.connection, order, bytes(body), fate)
                    finally:
                        database.guard(False)
                    database.run("DELETE FROM orders_notes WHERE chain = ? AND uid = ?", self.name, uid)
                    if result is not None:
                        served._finish(order, result)
        except Exception:
            orders._log.exception("orders: chain %s: the fate of order %d isn't taken: again later", self.name, uid)
            return False
        return True
