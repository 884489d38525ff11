"""The server's transactions, why an order is Unknown, and progress: once both ends are well, few calls give each order
its fate."""
import asyncio
import logging
import pathlib
import random
import sqlite3
import tempfile
import threading
from collections.abc import Callable

from lanes import Memory
from page import CLIENT, LAST, MIDDLE, opened

import deltat
from deltat import Unsure, orders
from deltat._c import Cause

LANES, COUNT = 32, 192


class Counted(orders.Sqlite):
    """Counts its commits."""

    commits = 0

    def commit(self) -> None:
        self.commits += 1
        super().commit()


def served(folder: pathlib.Path) -> tuple[orders.Served, Counted]:
    database = Counted(folder / "bank.db")
    it = orders.Served(database)
    database.run("CREATE TABLE IF NOT EXISTS names(name BLOB PRIMARY KEY)")
    database.run(
        "CREATE TABLE IF NOT EXISTS paid(name BLOB REFERENCES names(name) DEFERRABLE INITIALLY DEFERRED)"
    )
    database.run("PRAGMA foreign_keys = ON")
    database.run("INSERT OR IGNORE INTO names VALUES (?)", b"known")

    @it.order
    def pay(db: sqlite3.Connection, order: orders.Order) -> bytes:
        db.execute("INSERT INTO paid VALUES (?)", (order.body.split()[0],))
        return b"paid " + order.body

    return it, database


def paid(database: orders.Database) -> int:
    ((count,),) = database.run("SELECT count(*) FROM paid")
    return int(count)


# --- transactions


async def refused(folder: pathlib.Path) -> str:
    """One order of many in a transaction breaks a constraint that is looked at when it is committed: the others are
    done, and it is when that is mended."""
    server, database = served(folder)
    waiting = list[tuple[bytes, asyncio.Future[bytes]]]()
    loop = asyncio.get_running_loop()

    def serves() -> None:
        batch = waiting[:]
        waiting.clear()
        answers = server.handle_all([(1, it) for it, _ in batch])
        for (_, end), answer in zip(batch, answers, strict=True):
            end.set_result(answer or b"")

    async def sends(request: bytes) -> bytes:
        end: asyncio.Future[bytes] = loop.create_future()
        if not waiting:
            loop.call_soon(serves)
        waiting.append((request, end))
        return await end

    async with orders.AsyncOrders(sends, Memory(), lanes=8, once=False, waits=(0.0, 0.01)) as given:
        bodies = [b"known %d" % it for it in range(7)] + [b"stranger"]
        tasks = [asyncio.create_task(given.give(it)) for it in bodies]
        await asyncio.wait(tasks[:7], timeout=20)
        early = [it.done() for it in tasks]
        database.run("INSERT INTO names VALUES (?)", b"stranger")
        fates = await asyncio.wait_for(asyncio.gather(*tasks), 20)
    count = paid(database)
    server.close()
    wanted = [orders.Done(b"paid " + it) for it in bodies]
    is_right = early == [True] * 7 + [False] and fates == wanted and count == 8
    return "" if is_right else f"{early}, {fates}, {count} rows"


def grouped(folder: pathlib.Path, is_async: bool) -> str:
    """Over sockets, requests that wait at the same time are one transaction, and each is answered."""
    ready, loops = threading.Event(), list[Callable[[], object]]()
    failures, counts = list[BaseException](), list[int]()

    async def serves() -> None:
        server, database = served(folder)
        loop = asyncio.get_running_loop()
        async with opened(MIDDLE, {20: deltat.PortKind.SERVICE}) as udp:
            task = asyncio.create_task(server.serve(deltat.AsyncCalls(udp), 20))
            loops.append(lambda: loop.call_soon_threadsafe(task.cancel))
            ready.set()
            await asyncio.wait([task])
        counts.extend((paid(database), database.commits))
        server.close()

    def runs() -> None:
        try:
            if is_async:
                asyncio.run(serves())
                return
            server, database = served(folder)
            params, charge = deltat.Params.for_network(deltat.Network(delay_us=20_000, round_trip_us=2_000))
            links, routes = [deltat.Link(1, charge), deltat.Link(2, charge)], {CLIENT: 1, LAST: 2}
            node = deltat.Service(MIDDLE, 1, params, links, routes, start=deltat.Start.FIRST)
            node.set_port(20, deltat.PortKind.SERVICE)
            peers = {it: ("127.0.0.1", 4_740 + it) for it in routes}
            with deltat.Udp(node, ("127.0.0.1", 4_740 + MIDDLE), peers, routes) as udp:
                ready.set()
                server.run(deltat.Calls(udp), 20, 2.0)
            counts.extend((paid(database), database.commits))
            server.close()
        except BaseException as why:  # noqa: BLE001
            failures.append(why)
            ready.set()

    async def gives() -> list[orders.Fate]:
        async with opened(CLIENT, {10: deltat.PortKind.CALLER}) as udp:
            wire = orders.over_async(deltat.AsyncCalls(udp), deltat.Flow(CLIENT, 10, MIDDLE, 20))
            async with orders.AsyncOrders(wire, Memory(), lanes=LANES) as given:
                return await asyncio.gather(*(given.give(b"known %d" % it) for it in range(COUNT)))

    thread = threading.Thread(target=runs)
    thread.start()
    ready.wait(20)
    fates = [] if failures else asyncio.run(asyncio.wait_for(gives(), 60))
    for end in loops:
        end()
    thread.join(30)
    is_right = fates == [orders.Done(b"paid known %d" % it) for it in range(COUNT)]
    if failures or not is_right or counts[:1] != [COUNT] or counts[1] > COUNT * 2 // 3:
        return f"{failures}, {counts[:1]} rows, {counts[1:]} commits, all told: {is_right}"
    return ""


# --- why an order is Unknown


def unsure_once(server: orders.Served) -> Callable[[bytes], bytes]:
    """A wire that loses the answer to each order's first call."""
    lost = set[bytes]()

    def sends(request: bytes) -> bytes:
        answer = server.handle(1, request) or b""
        if request[112:] and request[112:] not in lost:
            lost.add(request[112:])
            raise Unsure(Cause.TIMEOUT)
        return answer

    return sends


def forgotten(folder: pathlib.Path) -> str:
    """The server forgets the row of an order whose answer was lost."""
    server, database = served(folder)
    wire = unsure_once(server)

    def sends(request: bytes) -> bytes:
        try:
            return wire(request)
        except Unsure:
            server.forget(1, 0)
            raise

    with orders.Orders(sends, Memory(), once=False, waits=(0.0, 0.0)) as given:
        fate = given.give(b"known")
    count = paid(database)
    server.close()
    return "" if fate == orders.Unknown(orders.Why.FORGOTTEN) and count == 1 else f"{fate}, executed {count} times"


def client_set_back(folder: pathlib.Path) -> str:
    """A client's store is set back: its number was used by an order of the life that is lost. Its store has the reason
    in later lives too."""
    server, database = served(folder)
    store = orders.Log(folder / "client")
    with orders.Orders(unsure_once(server), store, once=False, waits=(0.0, 0.0)) as given:
        given.give(b"known 1")
    copy = (folder / "client").read_bytes()
    with orders.Orders(unsure_once(server), orders.Log(folder / "client"), once=False, waits=(0.0, 0.0)) as given:
        given.give(b"known 2")
        given.give(b"known 3")
    (folder / "client").write_bytes(copy)
    with orders.Orders(unsure_once(server), orders.Log(folder / "client"), once=False, waits=(0.0, 0.0)) as given:
        list(given.untaken())
        order = given.note(b"known 4")
        fate = given.settle(order)
        given._told.clear()
    with orders.Orders(unsure_once(server), orders.Log(folder / "client"), once=False) as given:
        again = [it for _, it in given.untaken()]
    count = paid(database)
    server.close()
    wanted = orders.Unknown(orders.Why.SET_BACK)
    return "" if fate == wanted and again == [wanted] and count == 3 else f"{fate}, {again}, executed {count} times"


# --- progress


MOST_CALLS = 12


def progress(folder: pathlib.Path, seed: int) -> str:
    """After a time of losses, crashes, set backs and handlers that fail, all is well: then an order has its fate within
    MOST_CALLS calls."""
    chance = random.Random(seed)
    folder = folder / str(seed)
    folder.mkdir()
    state = {"bad": True, "calls": 0}
    server = [served(folder)[0]]
    store, copies = Memory(), list[bytes]()

    def sends(request: bytes) -> bytes:
        state["calls"] += 1
        if not state["bad"]:
            return server[0].handle(1, request) or b""
        what = chance.random()
        if what < 0.1:
            server[0].close()
            server[0] = served(folder)[0]
        elif what < 0.15:
            server[0].database.run("VACUUM INTO ?", str(folder / "copy"))
            copies.append((folder / "copy").read_bytes())
            (folder / "copy").unlink()
        elif what < 0.2 and copies:
            server[0].close()
            for it in ("bank.db-wal", "bank.db-shm"):
                (folder / it).unlink(missing_ok=True)
            (folder / "bank.db").write_bytes(chance.choice(copies))
            server[0] = served(folder)[0]
        elif what < 0.25:
            server[0].forget(1, 0)
        answer = server[0].handle(1, request) or b""
        if chance.random() < 0.5:
            raise Unsure(Cause.TIMEOUT)
        return answer

    with orders.Orders(sends, store, once=False, waits=(0.0, 0.0)) as given:
        given.ask(b"")
        for it in range(6):
            state["bad"] = True
            try:
                given.give(b"known %d" % it, 0.02)
            except (orders.StillOpen, orders.SetBack):
                pass
            state["bad"], state["calls"] = False, 0
            while given.unsettled or given._book.is_stopped:
                try:
                    for order in given.unsettled:
                        given.settle(order, 10.0)
                    given.ask(b"")
                except orders.SetBack:
                    given.adopt()
            if state["calls"] > MOST_CALLS:
                return f"seed {seed}: {state['calls']} calls until order {it} had its fate"
    server[0].close()
    return ""


def cases() -> list[tuple[str, bool, str]]:
    logging.getLogger("deltat").setLevel(logging.CRITICAL)
    found = []
    with tempfile.TemporaryDirectory(dir="/dev/shm" if pathlib.Path("/dev/shm").is_dir() else None) as name:
        parts: dict[str, Callable[[pathlib.Path], str]] = {
            "an order that can't be committed holds up no others": lambda it: asyncio.run(refused(it)),
            f"{COUNT} orders over sockets share transactions": lambda it: grouped(it, False),
            "so they do with asyncio": lambda it: grouped(it, True),
            "Unknown, since the row was forgotten": forgotten,
            "Unknown, since the client was set back": client_set_back,
            f"once all is well, {MOST_CALLS} calls give an order its fate": lambda it: next(
                filter(None, (progress(it, seed) for seed in range(40))), ""
            ),
        }
        for number, (what, part) in enumerate(parts.items()):
            folder = pathlib.Path(name, str(number))
            folder.mkdir()
            try:
                why = part(folder)
            except Exception as raised:  # noqa: BLE001
                why = repr(raised)
            found.append((f"server: {what}", not why, why))
    return found
