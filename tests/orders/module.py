"""deltat.orders over a wire that loses, repeats and holds back, and stores that die at any write; and its log."""
import functools
import logging
import os
import pathlib
import random
import sqlite3
import tempfile
from collections.abc import Callable, Sequence
from typing import TypeVar

from deltat import Unsure, orders
from deltat._c import Cause

Found = TypeVar("Found")
SEEDS = 60
CLIENT = 7


class Died(Exception):
    """The process died, or the machine lost power."""


class Memory:
    """A store of records that has lost, after a death at a write, any last part of what that write had."""

    def __init__(self, chance: random.Random) -> None:
        self.chance, self.records, self.dies = chance, list[bytes](), 0.0

    def read(self) -> list[bytes]:
        return list(self.records)

    def write(self, records: Sequence[bytes]) -> None:
        self._die(list(records))
        self.records += records

    def replace(self, records: Sequence[bytes]) -> None:
        if self.chance.random() < self.dies:
            self.records = self.chance.choice([self.records, list(records)])
            raise Died
        self.records = list(records)

    def _die(self, records: list[bytes]) -> None:
        if self.chance.random() < self.dies:
            self.records += records[: self.chance.randint(0, len(records))]
            raise Died

    def close(self) -> None:
        pass


class World:
    """A client and a server, whose machines die, and what became of each order."""

    def __init__(self, seed: int, folder: pathlib.Path, sets_back: bool) -> None:
        self.chance = random.Random(seed)
        self.folder, self.sets_back = folder, sets_back
        self.store = Memory(self.chance)
        self.path, self.copies = folder / "server.db", list[pathlib.Path]()
        self.late, self.undone = list[bytes](), set[bytes]()
        self.alarms = 0
        self.served = self.open_server()
        self.served.database.connection.execute("CREATE TABLE IF NOT EXISTS effects(body BLOB, result BLOB)")

    def open_server(self) -> orders.Served:
        served = orders.Served(orders.Sqlite(self.path), strict=self.sets_back)
        served.order(self.execute)
        return served

    def execute(self, db: sqlite3.Connection, order: orders.Order) -> bytes:
        result = b"result of " + order.body
        db.execute("INSERT INTO effects VALUES (?, ?)", (order.body, result))
        if self.chance.random() < 0.1:
            raise RuntimeError("a handler that fails")
        return result

    def effects(self) -> dict[bytes, list[bytes]]:
        found: dict[bytes, list[bytes]] = {}
        for body, result in self.served.database.connection.execute("SELECT body, result FROM effects"):
            found.setdefault(bytes(body), []).append(bytes(result))
        return found

    # the wire, and what happens beside it

    def sends(self, request: bytes) -> bytes:
        for what, likely in (
            (self.lose, 0.1),
            (self.hold, 0.1),
            (self.reopen, 0.05),
            (self.set_back, 0.03),
            (self.forget, 0.01),
        ):
            if self.chance.random() < likely:
                what(request)
        if self.late and self.chance.random() < 0.2:
            self.served.handle(CLIENT, self.chance.choice(self.late))
        answer = self.served.handle(CLIENT, request)
        if answer is None or self.chance.random() < 0.1:
            raise Unsure(Cause.TIMEOUT)
        return answer

    def lose(self, request: bytes) -> None:
        raise Unsure(Cause.TIMEOUT)

    def hold(self, request: bytes) -> None:
        """The request is lost for its client, and comes late, as often as it likes."""
        self.late.append(request)
        raise Unsure(Cause.TIMEOUT)

    def reopen(self, request: bytes) -> None:
        self.served.close()
        self.served = self.open_server()

    def forget(self, request: bytes) -> None:
        self.served.forget(CLIENT, 0)

    def copy(self) -> None:
        it = self.folder / f"copy-{len(self.copies)}.db"
        self.served.database.connection.execute("VACUUM INTO ?", (str(it),))
        self.copies.append(it)

    def set_back(self, request: bytes) -> None:
        """The server's disk is set back to a copy, or a process that runs finds it so."""
        if not self.sets_back or not self.copies:
            return
        self.served.close()
        for name in ("server.db", "server.db-wal", "server.db-shm"):
            (self.folder / name).unlink(missing_ok=True)
        self.path.write_bytes(self.chance.choice(self.copies).read_bytes())
        self.served = self.open_server()

    # the client's lives

    def live(self, given: list[tuple[bytes, orders.Fate]], count: int) -> None:
        """A life of the client: it settles what it has, and gives orders, until it dies."""
        with orders.Orders(self.sends, self.store, once=False, waits=(0.0, 0.0), sleep=lambda wait: None) as client:
            self.store.dies = 0.05
            given += [(order.body, fate) for order, fate in client.untaken()]
            for order in client.unsettled:
                given.append((order.body, self.alarmed(client, functools.partial(client.settle, order))))
            while client._book.state.last_uid < count:
                body = b"order %d" % client._book.state.last_uid
                if self.sets_back and self.chance.random() < 0.2:
                    self.copy()
                order = self.alarmed(client, functools.partial(client.note, body))
                given.append((order.body, self.alarmed(client, functools.partial(client.settle, order))))

    def alarmed(self, client: orders.Orders, does: Callable[[], Found]) -> Found:
        while True:
            try:
                return does()
            except orders.SetBack as why:
                self.alarms += 1
                gone = {it.body for it in why.undone}
                there = self.effects().keys()
                wrong = [it for it in gone if it in there]
                if wrong:
                    raise AssertionError(f"told undone, and is there: {wrong}") from why
                self.undone |= gone
                client.adopt()


def run(seed: int, folder: pathlib.Path, sets_back: bool) -> str:
    """Why the run of a seed fails: nothing if it holds."""
    world, given = World(seed, folder, sets_back), list[tuple[bytes, orders.Fate]]()
    for _ in range(400):
        world.store.dies = 0.0
        try:
            world.live(given, 12)
            break
        except Died:
            continue
    else:
        return "the client never came to its end"
    effects, fates = world.effects(), dict(given)
    world.served.close()
    twice = [body for body, results in effects.items() if len(results) > 1]
    if twice:
        return f"executed twice: {twice}"
    for body, fate in given:
        if fates[body] != fate:
            return f"{body!r} has two fates"
        if isinstance(fate, orders.Done) and body not in world.undone:
            if effects.get(body) != [fate.result]:
                return f"{body!r} is done, and the books have {effects.get(body)}; {world.alarms} alarms"
        if isinstance(fate, orders.Never):
            return f"{body!r} is never, though nobody cancelled it"
    missing = [it for it in range(12) if b"order %d" % it not in fates]
    return f"no fate: {missing}" if missing else ""


def histories(sets_back: bool) -> tuple[str, int]:
    for seed in range(SEEDS):
        with tempfile.TemporaryDirectory(dir="/dev/shm" if os.path.isdir("/dev/shm") else None) as folder:
            why = run(seed, pathlib.Path(folder), sets_back)
        if why:
            return f"run {seed}: {why}", seed
    return "", SEEDS


def cases() -> list[tuple[str, bool, str]]:
    logging.getLogger("deltat").setLevel(logging.CRITICAL)
    found = []
    for what, sets_back in (("crashes and a bad wire", False), ("and set backs", True)):
        why, _ = histories(sets_back)
        found.append((f"{SEEDS} histories of {what}: each order once, and its fate is so", not why, why))
    return found


# --- the log


def log_cases() -> list[tuple[str, bool, str]]:
    """A log that is cut anywhere, or has one octet changed, reads as a first part of its records."""
    records = [b"one", b"", b"three" * 20, b"\0\0\0\0", b"five"]
    with tempfile.TemporaryDirectory() as name:
        path = pathlib.Path(name, "log")
        log = orders.Log(path)
        log.read()
        for it in records:
            log.write([it])
        log.close()
        whole = path.read_bytes()

        def read(octets: bytes) -> list[bytes]:
            path.write_bytes(octets)
            log = orders.Log(path)
            try:
                found = log.read()
                log.write([b"more"])
            finally:
                log.close()
            log = orders.Log(path)
            again = log.read()
            log.close()
            return found if again == [*found, b"more"] else [b"what was written later isn't read"]

        cut = [at for at in range(len(whole)) if not is_first(read(whole[:at]), records)]
        changed = [at for at in range(16, len(whole)) if not is_first(read(flipped(whole, at)), records, at_most=4)]
        first = orders.Log(path)
        try:
            orders.Log(path)
            is_alone = False
        except BlockingIOError:
            is_alone = True
        first.close()
    return [
        ("a log that is cut anywhere reads as its first records", not cut, str(cut)),
        ("so does one with a changed octet, and not as all of them", not changed, str(changed)),
        ("a log is one process's", is_alone, ""),
    ]


def flipped(octets: bytes, at: int) -> bytes:
    return octets[:at] + bytes([octets[at] ^ 1]) + octets[at + 1 :]


def is_first(found: list[bytes], records: list[bytes], at_most: int = 5) -> bool:
    return len(found) <= at_most and found == records[: len(found)]
