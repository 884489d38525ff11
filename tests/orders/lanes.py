"""AsyncOrders: a lane has one order at a time and is free again once, whatever is settled twice, cancelled, raises or
fails to be stored; and each order is executed once at most."""
import asyncio
import contextlib
import logging
import pathlib
import random
import sqlite3
import struct
import tempfile
from collections import Counter
from collections.abc import Awaitable, Callable, Sequence

from deltat import Unsure, orders
from deltat._c import Cause

LANES, SEEDS = 3, 120


class Memory:
    """A store of records, whose writes fail from one of them on, if it is told so."""

    def __init__(self) -> None:
        self.records, self.fails_at, self.writes = list[bytes](), 0, 0

    def read(self) -> list[bytes]:
        return list(self.records)

    def write(self, records: Sequence[bytes]) -> None:
        self.writes += 1
        if self.writes == self.fails_at:
            raise orders.NotStored("the disk is full")
        self.records += records

    def replace(self, records: Sequence[bytes]) -> None:
        self.records = list(records)

    def close(self) -> None:
        pass


class Bank:
    """A server in this process, and a wire to it that may wait, lose and raise. It counts what is under way on each
    lane."""

    def __init__(self, folder: pathlib.Path, chance: random.Random) -> None:
        self.folder, self.chance, self.bad, self.copies = folder, chance, 0.0, 0
        self.under_way, self.most_on_a_lane, self.most = Counter[int](), 0, 0
        self.gate: asyncio.Event | None = None
        self.held: asyncio.Event | None = None
        self.served = self.opened()
        self.served.database.run("CREATE TABLE effects(body BLOB)")

    def opened(self) -> orders.Served:
        served = orders.Served(orders.Sqlite(self.folder / "bank.db"), strict=True)

        @served.order
        def book(db: sqlite3.Connection, order: orders.Order) -> bytes:
            db.execute("INSERT INTO effects VALUES (?)", (order.body,))
            return b"did " + order.body

        return served

    def effects(self) -> list[bytes]:
        return [bytes(it) for (it,) in self.served.database.run("SELECT body FROM effects")]

    def copy(self) -> None:
        self.served.database.run("VACUUM INTO ?", str(self.folder / "copy.db"))

    def set_back(self) -> None:
        """Its disk is set back to the copy."""
        self.served.close()
        for name in ("bank.db", "bank.db-wal", "bank.db-shm"):
            (self.folder / name).unlink(missing_ok=True)
        (self.folder / "bank.db").write_bytes((self.folder / "copy.db").read_bytes())
        self.served = self.opened()

    async def sends(self, request: bytes) -> bytes:
        kind, lane = struct.unpack_from(">QQ", request)
        if kind != 1:
            return self.handled(request)
        self.under_way[lane] += 1
        self.most_on_a_lane = max(self.most_on_a_lane, self.under_way[lane])
        self.most = max(self.most, self.under_way.total())
        try:
            if self.gate:
                await self.gate.wait()
            for _ in range(self.chance.randint(0, 3)):
                await asyncio.sleep(0)
            if self.chance.random() < self.bad:
                raise Unsure(Cause.TIMEOUT)
            answer = self.handled(request)
            if self.held:
                await self.held.wait()
            if self.chance.random() < self.bad:
                raise self.chance.choice([Unsure(Cause.TIMEOUT), RuntimeError("a wire that fails")])
            return answer
        finally:
            self.under_way[lane] -= 1

    def handled(self, request: bytes) -> bytes:
        answer = self.served.handle(1, request)
        assert answer is not None
        return answer


@contextlib.contextmanager
def world(seed: int = 0):  # type: ignore[no-untyped-def]
    with tempfile.TemporaryDirectory(dir="/dev/shm" if pathlib.Path("/dev/shm").is_dir() else None) as name:
        bank = Bank(pathlib.Path(name), random.Random(seed))
        try:
            yield bank, Memory()
        finally:
            bank.served.close()


def opened(bank: Bank, store: Memory) -> orders.AsyncOrders:
    return orders.AsyncOrders(bank.sends, store, lanes=LANES, once=False, waits=(0.0, 0.0))


async def all_lanes_work(bank: Bank, given: orders.AsyncOrders, name: bytes) -> str:
    """Why not as many orders as there are lanes are under way at once, and each lane has one: nothing if so."""
    bank.gate, bank.most, bank.most_on_a_lane, bank.bad = asyncio.Event(), 0, 0, 0.0
    tasks = [asyncio.create_task(given.give(name + b" %d" % it)) for it in range(3 * LANES)]
    for _ in range(400):
        await asyncio.sleep(0.001)
        if bank.most >= LANES:
            break
    await asyncio.sleep(0.005)
    bank.gate.set()
    fates = await asyncio.wait_for(asyncio.gather(*tasks, return_exceptions=True), 10)
    bank.gate = None
    wanted = [orders.Done(b"did " + name + b" %d" % it) for it in range(3 * LANES)]
    if fates != wanted:
        return f"fates are {fates}"
    if bank.most != LANES or bank.most_on_a_lane != 1:
        return f"{bank.most} under way at once, {bank.most_on_a_lane} on a lane"
    twice = [body for body, count in Counter(bank.effects()).items() if count > 1]
    return f"executed twice: {twice}" if twice else ""


# --- one case each


async def settled_again(bank: Bank, given: orders.AsyncOrders) -> str:
    order = await given.note(b"a")
    fates = [await given.settle(order) for _ in range(3)]
    return "" if fates == [orders.Done(b"did a")] * 3 else str(fates)


async def settled_at_once(bank: Bank, given: orders.AsyncOrders) -> str:
    order = await given.note(b"a")
    fates = await asyncio.gather(*(given.settle(order) for _ in range(4)))
    return "" if fates == [orders.Done(b"did a")] * 4 else str(fates)


async def cancelled_before_its_call(bank: Bank, given: orders.AsyncOrders) -> str:
    for it in range(2 * LANES):
        given.cancel(await asyncio.wait_for(given.note(b"never %d" % it), 5))
    return f"executed: {bank.effects()}" if bank.effects() else ""


async def tasks_cancelled(bank: Bank, given: orders.AsyncOrders) -> str:
    """A give is cancelled after each number of steps of the loop."""
    for steps in range(40):
        task = asyncio.create_task(given.give(b"cancelled %d" % steps))
        for _ in range(steps):
            await asyncio.sleep(0 if steps % 2 else 0.0005)
        task.cancel()
        with contextlib.suppress(asyncio.CancelledError):
            await task
        for order in given.unsettled:
            await given.settle(order)
    return ""


async def cancelled_while_it_waits_for_a_lane(bank: Bank, given: orders.AsyncOrders) -> str:
    bank.gate = asyncio.Event()
    tasks = [asyncio.create_task(given.give(b"held %d" % it)) for it in range(4 * LANES)]
    await asyncio.sleep(0.02)
    for task in tasks[LANES : 3 * LANES]:
        task.cancel()
    bank.gate.set()
    found = await asyncio.gather(*tasks, return_exceptions=True)
    cancelled = sum(isinstance(it, asyncio.CancelledError) for it in found)
    done = sum(isinstance(it, orders.Done) for it in found)
    return "" if (cancelled, done) == (2 * LANES, 2 * LANES) else str(found)


async def wire_raises(bank: Bank, given: orders.AsyncOrders) -> str:
    bank.bad = 0.4
    for it in range(6):
        with contextlib.suppress(RuntimeError):
            await given.give(b"raises %d" % it)
        for order in given.unsettled:
            while given.unsettled:
                with contextlib.suppress(RuntimeError):
                    await given.settle(order)
    return ""


async def set_back_twice(bank: Bank, given: orders.AsyncOrders) -> str:
    """Several orders meet an alarm at once. Each alarm names its own orders, and a second one not the first one's."""
    told = []
    for turn in range(2):
        await given.give(b"kept %d" % turn)
        bank.copy()
        (await given.give(b"gone %d" % turn))
        bank.set_back()
        (bank.folder / "copy.db").unlink()
        found = await asyncio.gather(*(given.give(b"more %d %d" % (turn, it)) for it in range(LANES)),
                                     return_exceptions=True)
        alarms = [it for it in found if isinstance(it, orders.SetBack)]
        told.append({body for alarm in alarms for body in (it.body for it in alarm.undone)})
        await given.adopt()
        for order in given.unsettled:
            await given.settle(order)
    return "" if told == [{b"gone 0"}, {b"gone 1"}] else f"told: {told}"


async def adopted_meanwhile(bank: Bank, given: orders.AsyncOrders) -> str:
    """An order that waits while another one adopts goes on, and a later alarm doesn't name what this one named."""
    await given.give(b"kept")
    bank.copy()
    await given.give(b"gone")
    bank.set_back()
    (bank.folder / "copy.db").unlink()
    named = []

    async def gives(it: int) -> None:
        order = None
        while True:
            try:
                order = order or await given.note(b"more %d" % it)
                await given.settle(order)
                return
            except orders.SetBack as why:
                named.append([it.body for it in why.undone])
                await given.adopt()

    await asyncio.wait_for(asyncio.gather(*(gives(it) for it in range(4 * LANES))), 10)
    return "" if named and all(it == [b"gone"] for it in named) else f"named: {named}"


async def done_after_the_alarm(bank: Bank, given: orders.AsyncOrders) -> str:
    """An answer of before the set back arrives after one that says that the store was set back: its order is named."""
    await given.give(b"kept")
    bank.copy()
    await given.give(b"gone first")
    bank.held = held = asyncio.Event()
    first = asyncio.create_task(given.give(b"gone"))
    while b"gone" not in bank.effects():
        await asyncio.sleep(0.001)
    bank.held = None
    bank.set_back()
    second = asyncio.create_task(given.give(b"more"))
    await asyncio.sleep(0.05)
    held.set()
    found = await asyncio.gather(first, second, return_exceptions=True)
    named = [[it.body for it in why.undone] for why in found if isinstance(why, orders.SetBack)]
    await given.adopt()
    for order in given.unsettled:
        await given.settle(order)
    is_right = found[0] == orders.Done(b"did gone") and named == [[b"gone first", b"gone"]]
    return "" if is_right else f"{found}, named: {named}"


CASES: dict[str, Callable[[Bank, orders.AsyncOrders], Awaitable[str]]] = {
    "an order that is settled again": settled_again,
    "an order that is settled four times at once": settled_at_once,
    "orders that are cancelled before their call": cancelled_before_its_call,
    "orders whose tasks are cancelled at any step": tasks_cancelled,
    "orders that are cancelled while they wait for a lane": cancelled_while_it_waits_for_a_lane,
    "a wire that raises anything": wire_raises,
    "two set backs, each met by several orders": set_back_twice,
    "an alarm that one adopts while others wait": adopted_meanwhile,
    "an order that is done, heard after the alarm": done_after_the_alarm,
}


async def one(case: Callable[[Bank, orders.AsyncOrders], Awaitable[str]], bank: Bank, store: Memory) -> str:
    async with opened(bank, store) as given:
        why = await asyncio.wait_for(case(bank, given), 20)
        return why or await asyncio.wait_for(all_lanes_work(bank, given, b"after"), 20)


# --- at random


async def at_random(bank: Bank, store: Memory, chance: random.Random) -> str:
    """Orders that are given, settled twice, cancelled, and whose tasks are cancelled, over a bad wire."""
    async with opened(bank, store) as given:
        await given.give(b"first")
        bank.bad = chance.choice([0.0, 0.2])
        noted: dict[bytes, orders.Order] = {}
        fates: list[tuple[bytes, orders.Fate]] = []

        async def lives(it: int) -> None:
            body = b"order %d" % it
            noted[body] = order = await given.note(body)
            if chance.random() < 0.2:
                given.cancel(order)
            for _ in range(chance.randint(0, 2)):
                fates.append((body, await given.settle(order)))

        tasks: list[asyncio.Task[object]] = [asyncio.create_task(lives(it)) for it in range(4 * LANES)]
        for _ in range(60):
            await asyncio.sleep(0)
            if chance.random() < 0.3:
                chance.choice(tasks).cancel()
            for order in given.unsettled if chance.random() < 0.2 else []:
                tasks.append(asyncio.create_task(given.settle(order)))
        while not all(it.done() for it in tasks):
            for order in given.unsettled:
                with contextlib.suppress(RuntimeError):
                    fates.append((order.body, await given.settle(order)))
            await asyncio.wait(tasks, timeout=0.001)
        for it in await asyncio.gather(*tasks, return_exceptions=True):
            if isinstance(it, BaseException) and not isinstance(it, (RuntimeError, asyncio.CancelledError)):
                return f"a task ended with {it!r}"
        for order in given.unsettled:
            while order in given.unsettled:
                with contextlib.suppress(RuntimeError):
                    fates.append((order.body, await given.settle(order)))
        done = Counter(bank.effects())
        for body, fate in fates:
            if done[body] != (fate == orders.Done(b"did " + body)) or isinstance(fate, orders.Unknown):
                return f"{body!r} is {fate}, and was executed {done[body]} times"
        return await all_lanes_work(bank, given, b"after")


def random_runs() -> str:
    for seed in range(SEEDS):
        with world(seed) as (bank, store):
            why = asyncio.run(asyncio.wait_for(at_random(bank, store, random.Random(seed)), 60))
        if why:
            return f"run {seed}: {why}"
    return ""


# --- a store that fails


def not_stored() -> str:
    """Whatever write fails: what was executed is in the store, and nothing is called after it, by either kind."""
    for fails_at in range(2, 9):
        with world() as (bank, store):
            why = asyncio.run(fails_async(bank, store, fails_at)) or executed_unstored(bank, store)
        if not why:
            with world() as (bank, store):
                why = fails_plainly(bank, store, fails_at) or executed_unstored(bank, store)
        if why:
            return f"write {fails_at} fails: {why}"
    return ""


def executed_unstored(bank: Bank, store: Memory) -> str:
    kept = b"".join(store.records)
    return ", ".join(f"{it!r} was executed, and isn't in the store" for it in bank.effects() if it not in kept)


async def fails_async(bank: Bank, store: Memory, fails_at: int) -> str:
    given, raised = opened(bank, store), 0
    store.fails_at = fails_at
    for it in range(8):
        try:
            await given.give(b"[order %d]" % it)
        except orders.NotStored:
            raised += 1
    for order in given.unsettled:
        try:
            await given.settle(order)
            return f"{order.body!r} has a fate after its store failed"
        except orders.NotStored:
            pass
    with contextlib.suppress(orders.NotStored):
        await given.close()
    return "" if raised else "nobody was told that a write failed"


def fails_plainly(bank: Bank, store: Memory, fails_at: int) -> str:
    given, raised = orders.Orders(bank.handled, store, once=False, waits=(0.0, 0.0)), 0
    store.fails_at = fails_at
    for it in range(8):
        try:
            given.give(b"[order %d]" % it)
        except orders.NotStored:
            raised += 1
            for order in given.unsettled:
                with contextlib.suppress(orders.NotStored):
                    given.settle(order)
                    return f"{order.body!r} has a fate after its store failed"
    with contextlib.suppress(orders.NotStored):
        given.close()
    return "" if raised else "nobody was told that a write failed"


def cases() -> list[tuple[str, bool, str]]:
    logging.getLogger("deltat").setLevel(logging.CRITICAL)
    found = []
    for what, case in CASES.items():
        with world() as (bank, store):
            try:
                why = asyncio.run(one(case, bank, store))
            except Exception as raised:  # noqa: BLE001
                why = repr(raised)
        found.append((f"lanes: {what}", not why, why))
    for what, runs in ((f"{SEEDS} random runs", random_runs), ("a store whose write fails", not_stored)):
        try:
            why = runs()
        except Exception as raised:  # noqa: BLE001
            why = repr(raised)
        found.append((f"lanes: {what}", not why, why))
    return found
