"""The two processes that tests/orders/killed.py kills: a server over SQLite and a client over a log, which call over a
socket of this machine.

    ends.py serve FOLDER
    ends.py give FOLDER COUNT"""
import pathlib
import socket
import sqlite3
import struct
import sys

from deltat import Unsure, orders
from deltat._c import Cause


def whole(stream: socket.socket, count: int) -> bytes:
    octets = b""
    while len(octets) < count:
        part = stream.recv(count - len(octets))
        if not part:
            raise ConnectionError("closed")
        octets += part
    return octets


def message(stream: socket.socket) -> bytes:
    (count,) = struct.unpack(">I", whole(stream, 4))
    return whole(stream, count)


def serve(folder: pathlib.Path) -> None:
    served = orders.Served(orders.Sqlite(folder / "server.db"))

    @served.order
    def execute(db: sqlite3.Connection, order: orders.Order) -> bytes:
        db.execute("CREATE TABLE IF NOT EXISTS effects(body BLOB)")
        db.execute("INSERT INTO effects VALUES (?)", (order.body,))
        return b"done"

    path = folder / "socket"
    path.unlink(missing_ok=True)
    with socket.socket(socket.AF_UNIX) as listens:
        listens.bind(str(path))
        listens.listen()
        while True:
            stream, _ = listens.accept()
            with stream:
                answer = served.handle(1, message(stream)) or b""
                stream.sendall(struct.pack(">I", len(answer)) + answer)


def give(folder: pathlib.Path, count: int) -> None:
    def sends(request: bytes) -> bytes:
        try:
            with socket.socket(socket.AF_UNIX) as stream:
                stream.settimeout(2)
                stream.connect(str(folder / "socket"))
                stream.sendall(struct.pack(">I", len(request)) + request)
                return message(stream)
        except OSError:
            raise Unsure(Cause.TIMEOUT) from None

    with orders.Orders(sends, orders.Log(folder / "client.orders"), once=False, waits=(0.01, 0.05)) as client:
        had = {order.uid for order, _ in client.untaken()} | client._book.state.taken
        for order in client.unsettled:
            client.settle(order, 10)
            had.add(order.uid)
        for uid in range(len(had) + 1, count + 1):
            assert client.give(b"order %d" % uid, 10) == orders.Done(b"done")


def main() -> None:
    word, name, *words = sys.argv[1:]
    if word == "serve":
        serve(pathlib.Path(name))
    else:
        give(pathlib.Path(name), int(words[0]))


if __name__ == "__main__":
    main()
