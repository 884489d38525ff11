"""The bank's servers and clients: by orders over calls between nodes, and over TCP. `demo.py` starts them, kills them,
and starts them again.

    bank.py serve|serve-tcp|serve-names|serve-keys FOLDER
    bank.py ask|ask-tcp FOLDER NUMBER UNTIL SEED

`serve-names` and `serve-keys` serve over TCP, by a bank that remembers the names of orders in memory, or as idempotency
keys in the transaction of the order; their clients are those of `ask-tcp`.

UNTIL is a moment in ms of `deltat.now()`: until then a client gives orders, and after it only finds out what became of
them. In FOLDER are the bank's database, the log of orders and the notes of each client, and the state folders of their
nodes."""
import asyncio
import os
import pathlib
import random
import secrets
import socket
import sqlite3
import sys
import time
from collections.abc import Callable
from typing import TypeVar

from accounts import ACCOUNTS, Bank, KeysBank, NamedBank, Notes, moment, prepare, told, transfer

sys.path.insert(0, str(pathlib.Path(__file__).resolve().parents[2] / "bindings" / "python"))
import deltat  # noqa: E402
from deltat import orders  # noqa: E402

PORT = 4_700
# whether the ends are on this machine, with a relay between them (demo.py), or in two namespaces (tests/wan.py)
IS_RELAYED = os.environ.get("BANK_RELAYED") == "1"
BANK_HOST, CLIENT_HOST = ("127.0.0.1", "127.0.0.1") if IS_RELAYED else ("10.9.0.1", "10.9.0.2")
# what is added to the port of a client where it sends to the bank, and where the bank sends to it, over a relay
TO_BANK, TO_CLIENT = 100, 200
BANK, CLIENTS = 100, 20
"""Node numbers: the bank's, and how many clients there are, from 1 on."""
# as `tools/params.py 200 50` tells them: delays of 20 ms, late ones of 60, and a machine under load
PARAMS = deltat.Params(mpl=252, r=450, a=5, rto=90, probe=180, seg=1442, cap=65536, rcap=65536, window=65536)
CHARGE = 244
# a request that was sent at once and its answer are over after 2 (r + mpl) and the bank's time
TIMEOUT = 2.0
# before an order is called again, at first and at most
WAITS = (0.05, 1.0)
# how long clients find out what became of their orders, at most
DRAIN_MS = 60_000

Found = TypeVar("Found")


def bank_udp(folder: pathlib.Path) -> deltat.Udp:
    """The bank's node: each client is a link of its own."""
    links = [deltat.Link(it, CHARGE) for it in range(1, CLIENTS + 1)]
    routes = {it: it for it in range(1, CLIENTS + 1)}
    node = deltat.Service(BANK, None, PARAMS, links, routes, state=deltat.State(folder / "bank", BANK, PARAMS))
    node.set_port(20, deltat.PortKind.SERVICE)
    peers = {it: (CLIENT_HOST, PORT + it + (TO_CLIENT if IS_RELAYED else 0)) for it in routes}
    return deltat.Udp(node, (BANK_HOST, PORT), peers, routes)


def client_udp(node: deltat.Service) -> deltat.Udp:
    """A client's socket, whose only peer is the bank."""
    peers = {BANK: (BANK_HOST, PORT + (TO_BANK + node.number if IS_RELAYED else 0))}
    return deltat.Udp(node, (CLIENT_HOST, PORT + node.number), peers)


def orders_bank(path: pathlib.Path) -> orders.Served:
    """The bank by orders: a transfer is in the transaction of its order's row."""
    served = orders.Served(orders.Sqlite(path))
    prepare(served.database.connection)

    @served.order
    def execute(db: sqlite3.Connection, order: orders.Order) -> bytes:
        return transfer(db, order.body.decode())

    @served.read
    def tell(db: sqlite3.Connection, question: bytes) -> bytes:
        return told(db, question.decode())

    return served


def serve(folder: pathlib.Path) -> None:
    served = orders_bank(folder / "bank.db")
    with bank_udp(folder) as udp:
        served.run(deltat.Calls(udp), 20)


class Client:
    """A client with its notes: it gives orders until a moment, and then finds out what became of them."""

    def __init__(self, folder: pathlib.Path, number: int, until: int, seed: int) -> None:
        self.number, self.until = number, until
        self.notes = Notes(folder / f"client-{number}.notes", number)
        self.folder = folder / f"client-{number}"
        self.chance = random.Random(f"{seed} {number} {self.notes.new_life()}")

    def transfer(self) -> str:
        """What a new order is to do."""
        payer, payee = self.chance.sample(range(ACCOUNTS), 2)
        return f"{payer} {payee} {self.chance.randint(1, 50)}"

    def is_early(self) -> bool:
        return deltat.now() < self.until

    def seconds_left(self) -> float:
        """Until it stops to find out what became of its orders."""
        return max(self.until + DRAIN_MS - deltat.now(), 0) / 1000

    def think(self) -> float:
        return self.chance.uniform(0, 0.1)


class OrderingClient(Client):
    """By orders: each is in the client's log before it is called, and is called until it has its fate. If the bank was
    set back, it notes which orders are gone, and goes on. Its notes are for demo.py alone: it doesn't read them."""

    def run(self) -> None:
        state = deltat.State(self.folder, self.number, PARAMS)
        node = deltat.Service(self.number, None, PARAMS, [deltat.Link(1, CHARGE)], {BANK: 1}, state=state)
        node.set_port(10, deltat.PortKind.CALLER)
        with client_udp(node) as udp:
            self.wire = orders.over(deltat.Calls(udp), deltat.Flow(self.number, 10, BANK, 20), TIMEOUT)
            log = orders.Log(self.folder.with_suffix(".orders"))
            with orders.Orders(self.sends, log, waits=WAITS, sleep=udp.run_for) as self.given:
                try:
                    self.go_on()
                    while self.is_early():
                        self.give(f"{secrets.token_hex(6)} {self.transfer()}")
                        udp.run_for(self.think())
                    if self.number == 1:
                        self.notes.note(f"sum {self.alarmed(self.asked).decode()}")
                except orders.StillOpen:
                    pass

    def go_on(self) -> None:
        """With what earlier lives left."""
        for order, fate in self.given.untaken():
            self.ended(order, fate)
        for order in self.given.unsettled:
            self.notes.note(f"again {order.body.decode().split()[0]}")
            self.settle(order, moment())

    def give(self, body: str) -> None:
        at = moment()
        self.settle(self.alarmed(lambda: self.given.note(body.encode(), self.seconds_left())), at)

    def settle(self, order: orders.Order, at: int) -> None:
        name, _, what = order.body.decode().partition(" ")
        if name not in self.notes.orders:
            self.notes.new_order(name, what, at)
        self.ended(order, self.alarmed(lambda: self.given.settle(order, self.seconds_left())))

    def ended(self, order: orders.Order, fate: orders.Fate) -> None:
        name, _, what = order.body.decode().partition(" ")
        if name not in self.notes.orders:
            self.notes.new_order(name, what, moment())
        self.notes.new_fate(name, fate.result.decode() if isinstance(fate, orders.Done) else "unknown")

    def asked(self) -> bytes:
        return self.given.ask(b"sum", self.seconds_left())

    def sends(self, request: bytes) -> bytes:
        """One call. Counts how often its order was unsure."""
        try:
            return self.wire(request)
        except deltat.Unsure:
            for order in self.given.unsettled:
                self.notes.note(f"unsure {order.body.decode().split()[0]}")
            raise

    def alarmed(self, does: Callable[[], Found]) -> Found:
        """Does it, after each alarm again."""
        while True:
            try:
                return does()
            except orders.SetBack as why:
                for order in why.undone:
                    self.notes.note(f"undone {order.body.decode().split()[0]}")
                self.given.adopt()


OVER_TCP = {"serve-tcp": Bank, "serve-names": NamedBank, "serve-keys": KeysBank}
"""The banks that are served over TCP."""


async def serve_tcp(bank: Bank) -> None:
    async def answer(reader: asyncio.StreamReader, writer: asyncio.StreamWriter) -> None:
        try:
            while line := await reader.readline():
                writer.write(bank.handle(line) + b"\n")
                await writer.drain()
        except OSError:
            pass
        writer.close()

    server = await asyncio.start_server(answer, BANK_HOST, PORT, reuse_address=True)
    await server.serve_forever()


class TcpClient(Client):
    """Over TCP: an order that isn't answered in time, or whose connection breaks, is given again. With a bank that
    remembers names that is what to do; with one that doesn't the order may be booked twice."""

    stream: socket.socket | None = None
    # whether octets of the last request may have reached the bank
    is_unsure = False

    def run(self) -> None:
        while not self.is_over():
            order = next(iter(self.notes.open_orders()), None) or self.order()
            fate = self.asked(f"transfer {order} {self.notes.orders[order]}\n".encode())
            if fate is not None:
                self.notes.new_fate(order, fate)
                time.sleep(self.think())
            elif self.is_unsure:
                self.notes.note(f"unsure {order}")
        if self.number == 1 and (told := self.asked(b"sum\n")):
            self.notes.note(f"sum {told}")

    def order(self) -> str:
        """A new order, which is written down before it is given."""
        name = f"{self.number}.{len(self.notes.orders)}"
        self.notes.new_order(name, self.transfer(), moment())
        return name

    def is_over(self) -> bool:
        return not self.is_early() and (not self.notes.open_orders() or not self.seconds_left())

    def asked(self, request: bytes) -> str | None:
        """What was answered, or None: there was no connection, it broke, or it took too long."""
        self.is_unsure = False
        try:
            if self.stream is None:
                self.stream = socket.create_connection((BANK_HOST, PORT), TIMEOUT)
            self.is_unsure = True
            self.stream.sendall(request)
            answer = b""
            while not answer.endswith(b"\n"):
                part = self.stream.recv(4096)
                if not part:
                    raise ConnectionError("closed")
                answer += part
            return answer.decode().strip()
        except OSError:
            if self.stream:
                self.stream.close()
            self.stream = None
            time.sleep(0.05)
            return None


def main() -> None:
    word, folder, *words = sys.argv[1:]
    if word == "serve":
        serve(pathlib.Path(folder))
    elif word in OVER_TCP:
        asyncio.run(serve_tcp(OVER_TCP[word](pathlib.Path(folder, "bank.db"))))
    else:
        number, until, seed = map(int, words)
        kind: type[OrderingClient | TcpClient] = OrderingClient if word == "ask" else TcpClient
        kind(pathlib.Path(folder), number, until, seed).run()


if __name__ == "__main__":
    main()
