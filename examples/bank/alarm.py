#!/usr/bin/env python3
"""A bank whose disk is set back to a copy of a moment ago: by orders each client is told which of its transfers are
gone; by idempotency keys nobody is told.

    examples/bank/alarm.py [--clients N] [--transfers N]

Each client makes some transfers; the bank's database is copied; it makes as many more; and then the copy takes the
database's place, as after a restore from a backup. Each client makes one transfer more. The requests are function calls
in this process: what is shown is of stores, and not of a network."""
import argparse
import pathlib
import sqlite3
import sys
import tempfile
from typing import NamedTuple

sys.path.insert(0, str(pathlib.Path(__file__).resolve().parents[2] / "bindings" / "python"))
from deltat import orders  # noqa: E402

TABLE = "CREATE TABLE IF NOT EXISTS booked(transfer TEXT)"


class Shown(NamedTuple):
    """Of one way: transfers that were acknowledged, those that the bank has no more, and those that clients were told
    of as gone, and wrongly so."""

    acknowledged: int
    gone: int
    told: int
    told_wrongly: int


def book(db: sqlite3.Connection, order: orders.Order) -> bytes:
    db.execute("INSERT INTO booked VALUES (?)", (order.body.decode(),))
    return b"booked"


class OrdersBank:
    """The bank by orders."""

    def __init__(self, path: pathlib.Path) -> None:
        self.served = orders.Served(orders.Sqlite(path))
        self.served.database.run(TABLE)
        self.served.order(book)

    def handle(self, client: int, request: bytes) -> bytes:
        return self.served.handle(client, request) or b""

    def booked(self) -> set[str]:
        return {it for (it,) in self.served.database.run("SELECT transfer FROM booked")}

    def copy(self, path: pathlib.Path) -> None:
        self.served.database.run("VACUUM INTO ?", str(path))

    def close(self) -> None:
        self.served.close()


class KeysBank:
    """The bank by idempotency keys: a key and its answer are in the transaction of the transfer."""

    def __init__(self, path: pathlib.Path) -> None:
        self.db = sqlite3.connect(path, isolation_level=None)
        self.db.execute(TABLE)
        self.db.execute("CREATE TABLE IF NOT EXISTS keys(key TEXT PRIMARY KEY)")

    def transfer(self, key: str) -> bytes:
        self.db.execute("BEGIN IMMEDIATE")
        if not self.db.execute("SELECT 1 FROM keys WHERE key = ?", (key,)).fetchone():
            self.db.execute("INSERT INTO booked VALUES (?)", (key,))
            self.db.execute("INSERT INTO keys VALUES (?)", (key,))
        self.db.execute("COMMIT")
        return b"booked"

    def booked(self) -> set[str]:
        return {it for (it,) in self.db.execute("SELECT transfer FROM booked")}

    def copy(self, path: pathlib.Path) -> None:
        self.db.execute("VACUUM INTO ?", (str(path),))

    def close(self) -> None:
        self.db.close()


def set_back(path: pathlib.Path, copy: pathlib.Path) -> None:
    """The copy takes the place of the database, which nobody has open."""
    for it in (path, path.with_name(path.name + "-wal"), path.with_name(path.name + "-shm")):
        it.unlink(missing_ok=True)
    copy.rename(path)


def by_orders(folder: pathlib.Path, clients: int, transfers: int) -> Shown:
    path, copy, told = folder / "orders.db", folder / "orders.copy", set[str]()
    bank = OrdersBank(path)
    acknowledged: set[str] = set()

    def transfer(client: int, number: int) -> None:
        name = f"{client}.{number}"
        wire = lambda request: bank.handle(client, request)  # noqa: E731
        with orders.Orders(wire, orders.Log(folder / f"client-{client}")) as given:
            try:
                fate = given.give(name.encode())
            except orders.SetBack as why:
                told.update(it.body.decode() for it in why.undone)
                given.adopt()
                fate = given.settle(given.unsettled[0]) if given.unsettled else given.give(name.encode())
        if isinstance(fate, orders.Done):
            acknowledged.add(name)

    for number in range(2 * transfers + 1):
        if number == transfers:
            bank.copy(copy)
        if number == 2 * transfers:
            bank.close()
            set_back(path, copy)
            bank = OrdersBank(path)
        for client in range(1, clients + 1):
            transfer(client, number)
    gone = acknowledged - bank.booked()
    bank.close()
    return Shown(len(acknowledged), len(gone), len(told & gone), len(told - gone))


def by_keys(folder: pathlib.Path, clients: int, transfers: int) -> Shown:
    path, copy = folder / "keys.db", folder / "keys.copy"
    bank, acknowledged = KeysBank(path), set[str]()
    for number in range(2 * transfers + 1):
        if number == transfers:
            bank.copy(copy)
        if number == 2 * transfers:
            bank.close()
            set_back(path, copy)
            bank = KeysBank(path)
        for client in range(1, clients + 1):
            if bank.transfer(f"{client}.{number}") == b"booked":
                acknowledged.add(f"{client}.{number}")
    gone = acknowledged - bank.booked()
    bank.close()
    return Shown(len(acknowledged), len(gone), 0, 0)


def main() -> int:
    reads = argparse.ArgumentParser(description=__doc__, formatter_class=argparse.RawDescriptionHelpFormatter)
    reads.add_argument("--clients", type=int, default=5)
    reads.add_argument("--transfers", type=int, default=10, help="of each client before the copy, and as many after it")
    given = reads.parse_args()
    with tempfile.TemporaryDirectory(prefix="deltat-bank-") as name:
        found = [by(pathlib.Path(name), given.clients, given.transfers) for by in (by_orders, by_keys)]
    print(f"{'':52}{'orders':>10}{'keys':>10}")
    rows = (
        "transfers that were acknowledged",
        "of them the bank has no more",
        "of these their clients were told",
        "told as gone, and the bank has them",
    )
    for row, numbers in zip(rows, zip(*found, strict=True), strict=True):
        print(f"{row:52}" + "".join(f"{it:>10}" for it in numbers))
    right = found[0]
    return 0 if right.gone and right.told == right.gone and not right.told_wrongly else 1


if __name__ == "__main__":
    sys.exit(main())
