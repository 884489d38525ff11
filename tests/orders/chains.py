"""A chain of three ends: a handler of the middle one gives an order to the last one, in its own transaction. The middle
dies at commits, before them or behind them; wires lose, repeat and hold back; handlers fail."""
import asyncio
import contextlib
import logging
import pathlib
import random
import sqlite3
import tempfile

from lanes import Memory

from deltat import Unsure, orders
from deltat._c import Cause
from deltat.orders_chain import Chain

SEEDS, ORDERS = 12, 8


class Died(BaseException):
    """The process died."""


class Dying(orders.Sqlite):
    """A database whose process dies at commits: before one, or after it."""

    def __init__(self, path: pathlib.Path, chance: random.Random, likely: float) -> None:
        self.chance, self.likely = chance, 0.0
        super().__init__(path)
        self.likely = likely

    def commit(self) -> None:
        dies = self.chance.random() < self.likely
        if dies and self.chance.random() < 0.5:
            self.rollback()
            raise Died
        super().commit()
        if dies:
            raise Died


class World:
    """The three ends: a client, a middle and a last server, and what each did."""

    def __init__(self, seed: int, folder: pathlib.Path) -> None:
        self.chance, self.folder, self.bad = random.Random(seed), folder, 0.1
        self.deaths, self.alarms, self.has_died = 0, list[list[bytes]](), False
        self.late = list[bytes]()
        self.last = self.opened_last()
        self.middle: orders.Served | None = None
        self.opened = list[Dying]()
        self.over = False

    def opened_last(self) -> orders.Served:
        served = orders.Served(orders.Sqlite(self.folder / "last.db"))
        served.database.run("CREATE TABLE IF NOT EXISTS packed(body BLOB)")

        @served.order
        def pack(db: sqlite3.Connection, order: orders.Order) -> bytes:
            db.execute("INSERT INTO packed VALUES (?)", (order.body,))
            if self.chance.random() < self.bad:
                raise RuntimeError("a handler that fails")
            return b"packed " + order.body

        return served

    def database(self) -> Dying:
        it = Dying(self.folder / "middle.db", self.chance, self.bad / 2)
        self.opened.append(it)
        return it

    def open_middle(self) -> tuple[orders.Served, Chain]:
        served = orders.Served(self.database())
        for it in ("shipped(body BLOB)", "ended(body BLOB)"):
            served.database.run(f"CREATE TABLE IF NOT EXISTS {it}")
        chain = Chain(served, self.database(), self.to_last, lanes=3)
        chain._orders._waits = chain._failed_waits = (0.0, 0.001)

        @served.order
        def ship(db: sqlite3.Connection, order: orders.Order) -> orders.AtWork:
            db.execute("INSERT INTO shipped VALUES (?)", (order.body,))
            chain.note(order, b"<" + order.body + b">")
            if self.chance.random() < self.bad:
                raise RuntimeError("a handler that fails")
            return orders.AT_WORK

        @chain.then
        def ended(db: sqlite3.Connection, order: orders.Order, body: bytes, fate: orders.Fate) -> bytes:
            db.execute("INSERT INTO ended VALUES (?)", (body,))
            if self.chance.random() < self.bad:
                raise RuntimeError("a continuation that fails")
            return b"shipped, " + (fate.result if isinstance(fate, orders.Done) else str(fate).encode())

        return served, chain

    async def lives_of_middle(self) -> None:
        while not self.over:
            try:
                self.middle, chain = self.open_middle()
                served = self.middle
                try:
                    await self.runs(chain)
                finally:
                    chain._orders._thread.shutdown()
                    served.close()
            except (Died, orders.NotStored):
                self.deaths += 1
            finally:
                self.middle = None
                while self.opened:
                    self.opened.pop().close()

    async def runs(self, chain: Chain) -> None:
        """Until it dies, in the chain or in a request."""
        while True:
            try:
                running = asyncio.create_task(chain.run())
                while not running.done():
                    await asyncio.wait([running], timeout=0.002)
                    if self.has_died:
                        running.cancel()
                        self.has_died = False
                        with contextlib.suppress(asyncio.CancelledError):
                            await running
                        raise Died
                await running
            except orders.SetBack as why:
                self.alarms.append([it.body for it in why.undone])
                await chain.adopt()

    # wires

    async def to_middle(self, request: bytes) -> bytes:
        return await self.carried(lambda it: self.middle and self.middle.handle(1, it), request)

    async def to_last(self, request: bytes) -> bytes:
        if self.late and self.chance.random() < 0.2:
            self.last.handle(2, self.chance.choice(self.late))
        if self.chance.random() < self.bad:
            self.late.append(request)
            raise Unsure(Cause.TIMEOUT)
        return await self.carried(lambda it: self.last.handle(2, it), request)

    async def carried(self, handles, request: bytes) -> bytes:  # type: ignore[no-untyped-def]
        await asyncio.sleep(0)
        if self.chance.random() < self.bad:
            raise Unsure(Cause.TIMEOUT)
        try:
            answer = handles(request)
        except Died:
            # (the middle's own task opens it again)
            self.has_died, self.middle = True, None
            raise Unsure(Cause.TIMEOUT) from None
        await asyncio.sleep(0)
        if answer is None or self.chance.random() < self.bad:
            raise Unsure(Cause.TIMEOUT)
        return bytes(answer)

    def rows(self, name: str, table: str) -> list[bytes]:
        db = sqlite3.connect(self.folder / name)
        found = sorted(bytes(it) for (it,) in db.execute(f"SELECT body FROM {table}"))
        db.close()
        return found


async def run(world: World) -> str:
    """Why a run fails: nothing if it holds."""
    middle = asyncio.create_task(world.lives_of_middle())
    async with orders.AsyncOrders(world.to_middle, Memory(), lanes=4, once=False, waits=(0.0, 0.001)) as client:
        fates = await asyncio.gather(*(client.give(b"%02d" % it) for it in range(ORDERS)))
    world.over = True
    middle.cancel()
    with contextlib.suppress(asyncio.CancelledError):
        await middle
    bodies = [b"%02d" % it for it in range(ORDERS)]
    noted = [b"<" + it + b">" for it in bodies]
    found = {
        "fates": (fates, [orders.Done(b"shipped, packed " + it) for it in noted]),
        "shipped": (world.rows("middle.db", "shipped"), bodies),
        "ended": (world.rows("middle.db", "ended"), noted),
        "packed": (world.rows("last.db", "packed"), noted),
        "notes": (world.rows("middle.db", "orders_notes"), []),
    }
    return ", ".join(f"{name}: {had}" for name, (had, wanted) in found.items() if had != wanted)


def histories() -> tuple[str, int]:
    deaths = 0
    for seed in range(SEEDS):
        with tempfile.TemporaryDirectory(dir="/dev/shm" if pathlib.Path("/dev/shm").is_dir() else None) as folder:
            world = World(seed, pathlib.Path(folder))
            why = asyncio.run(asyncio.wait_for(run(world), 60))
            world.last.close()
            deaths += world.deaths
        if why:
            return f"run {seed}: {why}", deaths
    return "", deaths


async def set_back(world: World) -> str:
    """The last server's disk is set back: the middle is told which orders of its chain are undone, and goes on."""
    world.bad = 0.0
    middle = asyncio.create_task(world.lives_of_middle())
    async with orders.AsyncOrders(world.to_middle, Memory(), lanes=1, waits=(0.0, 0.001)) as client:
        await client.give(b"kept")
        world.last.database.run("VACUUM INTO ?", str(world.folder / "copy.db"))
        await client.give(b"gone")
        world.last.close()
        for name in ("last.db", "last.db-wal", "last.db-shm"):
            (world.folder / name).unlink(missing_ok=True)
        (world.folder / "copy.db").rename(world.folder / "last.db")
        world.last = world.opened_last()
        fate = await client.give(b"more")
    world.over = True
    middle.cancel()
    with contextlib.suppress(asyncio.CancelledError):
        await middle
    is_right = world.alarms == [[b"<gone>"]] and fate == orders.Done(b"shipped, packed <more>")
    return "" if is_right else f"alarms {world.alarms}, {fate}"


def alarmed() -> str:
    with tempfile.TemporaryDirectory() as folder:
        world = World(0, pathlib.Path(folder))
        why = asyncio.run(asyncio.wait_for(set_back(world), 30))
        world.last.close()
    return why


def cases() -> list[tuple[str, bool, str]]:
    logging.getLogger("deltat").setLevel(logging.CRITICAL)
    why, deaths = histories()
    told = alarmed()
    return [
        (f"{SEEDS} histories of a chain whose middle died {deaths} times: each part once, and its result is told",
         not why and deaths > SEEDS, why),
        ("a middle is told which orders of its chain are undone", not told, told),
    ]
