"""Orders: calls that are executed once at most, whatever is lost, repeated, crashes or is set back (docs/orders.md).

    # a server: the function runs in the transaction of the order's row
    served = orders.Served(orders.Sqlite("bank.db"))

    @served.order
    def transfer(db: sqlite3.Connection, order: orders.Order) -> bytes:
        db.execute("UPDATE accounts SET balance = balance - 20 WHERE name = ?", (order.body.decode(),))
        return b"booked"

    served.run(calls, 20)

    # a client: the order is in its store before it is called
    with orders.Orders(orders.over(calls, deltat.Flow(1, 10, 2, 20)), orders.Log("shop.orders")) as given:
        match given.give(b"alice"):
            case orders.Done(result): ...
            case orders.Unknown(why): ...    # executed once or not at all, and nothing of it comes any more

The library says what to store and what to send; this module stores and sends. The functions of the library are proved;
this module is tested only. Times are in seconds. A store is used by one process at a time; `Orders` and `Served` by one
thread."""

from __future__ import annotations

import asyncio
import contextlib
import ctypes
import enum
import fcntl
import logging
import os
import random
import secrets
import sqlite3
import struct
import threading
import time
import zlib
from collections import deque
from collections.abc import Awaitable, Callable, Iterable, Iterator, Sequence
from concurrent.futures import ThreadPoolExecutor
from dataclasses import dataclass, field
from pathlib import Path
from types import TracebackType
from typing import TYPE_CHECKING, Any, Protocol

from . import clock
from ._c import Order as _Said
from ._c import OrdersLane, OrdersLook, OrdersServer, Status
from ._library import library
from .errors import Declined, DeltatError, InvalidArgument, Stopped, Unsure
from .values import Flow

if TYPE_CHECKING:
    from .service import AsyncCalls, Calls, Request

__all__ = [
    "AT_WORK",
    "AsyncOrders",
    "AtWork",
    "Database",
    "Done",
    "Fate",
    "Log",
    "Never",
    "NotStored",
    "Order",
    "Orders",
    "Postgres",
    "Served",
    "SetBack",
    "Sqlite",
    "SqliteLog",
    "StillOpen",
    "Store",
    "Unknown",
    "Why",
    "over",
    "over_async",
]

_log = logging.getLogger("deltat")
_REQUEST, _ANSWER, _LANE, _CLIENT = 112, 56, 104, 80
MOST_BODY = 65_536 - 8 - _REQUEST
"""The longest body of an order, in octets, over calls."""
SPARE_RECORDS = 4_100
"""How many records a client's store has at most, beside twice those that count. So an order costs the same, however
many there were before. Those that count are its lanes, the fates that weren't taken, and the last `keep` that were."""
MOST_AT_ONCE = 256
"""How many requests a server handles in one transaction at most."""


@dataclass(frozen=True)
class Done:
    """The order was executed exactly once, and this is what its handler returned."""

    result: bytes


@dataclass(frozen=True)
class Never:
    """The order was cancelled: it wasn't executed and never is."""


class Why(enum.Enum):
    """Why an order is `Unknown`."""

    FORGOTTEN = "the server forgot a row that was written after the commit that the order carries"
    SET_BACK = "its number was used by another order: the client's store was set back, or two clients have one number"


@dataclass(frozen=True)
class Unknown:
    """The order was executed once or not at all, and no call of it is executed any more: what the service's data says
    now is the last word."""

    why: Why


Fate = Done | Never | Unknown


@dataclass(frozen=True)
class Order:
    """An order. `client`, `lane`, `number` and `tag` are its name at its server, `uid` its name at its client."""

    body: bytes
    uid: int = 0
    client: int = 0
    lane: int = 0
    number: int = 0
    tag: int = 0


class SetBack(DeltatError):
    """The server's store was set back: it lost commits that this client heard of. `undone`: the orders whose answers
    `Done` are of lost commits, in the order in which they were given. Each order that is undone is among them. One that
    was called more than once may be there and not be undone, if it was executed before what was lost and its answer
    came after. Nothing is called until `adopt`."""

    def __init__(self, undone: list[Order]) -> None:
        super().__init__(f"the server's store was set back: {len(undone)} orders that were done are undone; adopt it")
        self.undone = undone


class StillOpen(DeltatError):
    """The order has no fate yet. It stays in the store, and `settle` goes on with it."""

    def __init__(self, order: Order) -> None:
        super().__init__(f"order {order.uid} has no fate yet")
        self.order = order


class NotStored(DeltatError):
    """A store couldn't write or sync. What it has is read at its next opening; this process can't go on with it."""


# --- what the library says


def _call(function: Callable[..., int], *arguments: object) -> int:
    """Calls the library. Raises InvalidArgument if octets spell nothing: a store or a message was damaged."""
    said = function(*arguments)
    if said == Status.INVALID:
        raise InvalidArgument(f"{function.__name__}: octets of a store or of a message spell nothing")
    return said


def _octets(of: bytes, kind: Any) -> Any:
    return kind.from_buffer_copy(of)


_ClientOctets, _LaneOctets = ctypes.c_uint8 * _CLIENT, ctypes.c_uint8 * _LANE


# --- what a client stores: records


class Store(Protocol):
    """Where a client keeps its records, octets each. A store that lost its end in a crash reads as a first part of what
    was written, with all that `write` returned of."""

    def read(self) -> list[bytes]:
        """Returns the records, in their order."""

    def write(self, records: Sequence[bytes]) -> None:
        """Appends records: they are durable when it returns. Raises NotStored."""

    def replace(self, records: Sequence[bytes]) -> None:
        """Keeps these records in place of all. After a crash the store has these or those from before."""

    def close(self) -> None:
        ...


class Log:
    """A file of records: each has its length, its octets and a checksum over its place, its length and its octets
    (docs/formats.md). The first record that isn't whole ends what is read; the file is cut there."""

    _HEAD = b"dtorders\0\0\0\1\0\0\0\0"

    def __init__(self, path: str | os.PathLike[str]) -> None:
        """Raises BlockingIOError if another process has it; InvalidArgument if it is no such file; OSError."""
        self.path = Path(path)
        self._file, self._end = self._opened(self.path), 0

    @staticmethod
    def _opened(path: Path) -> int:
        file = os.open(path, os.O_RDWR | os.O_CREAT | os.O_CLOEXEC, 0o600)
        try:
            fcntl.flock(file, fcntl.LOCK_EX | fcntl.LOCK_NB)
        except OSError:
            os.close(file)
            raise
        return file

    def read(self) -> list[bytes]:
        octets = self._whole()
        if octets[: len(self._HEAD)] != self._HEAD[: len(octets)]:
            raise InvalidArgument(f"{self.path} is no file of orders")
        records, self._end = _records(octets, len(self._HEAD))
        os.ftruncate(self._file, self._end if len(octets) >= len(self._HEAD) else 0)
        if len(octets) < len(self._HEAD):
            self._put(0, self._HEAD)
            _sync_folder(self.path.parent)
            self._end = len(self._HEAD)
        return records

    def _whole(self) -> bytes:
        parts, at = [], 0
        while part := os.pread(self._file, 1 << 20, at):
            parts.append(part)
            at += len(part)
        return b"".join(parts)

    def write(self, records: Sequence[bytes]) -> None:
        octets = _framed(records, self._end)
        self._put(self._end, octets)
        self._end += len(octets)

    def _put(self, at: int, octets: bytes) -> None:
        """Writes and syncs. A store whose sync failed once is dead: what a second one says means nothing."""
        if self._file < 0:
            raise NotStored(f"{self.path} is closed, or a write to it failed")
        try:
            view = memoryview(octets)
            while view:
                count = os.pwrite(self._file, view, at)
                view, at = view[count:], at + count
            os.fdatasync(self._file)
        except OSError as why:
            self.close()
            raise NotStored(f"{self.path}: {why}") from why

    def replace(self, records: Sequence[bytes]) -> None:
        fresh = self.path.with_name(self.path.name + ".new")
        fresh.unlink(missing_ok=True)
        file, had = self._opened(fresh), self._file
        octets = self._HEAD + _framed(records, len(self._HEAD))
        try:
            self._file = file
            self._put(0, octets)
            os.replace(fresh, self.path)
            _sync_folder(self.path.parent)
        except OSError as why:
            self.close()
            raise NotStored(f"{self.path}: {why}") from why
        finally:
            os.close(had)
        self._end = len(octets)

    def close(self) -> None:
        if self._file >= 0:
            os.close(self._file)
            self._file = -1


def _sync_folder(folder: Path) -> None:
    """What was created or renamed in a folder outlives a crash after this."""
    file = os.open(folder, os.O_RDONLY | os.O_DIRECTORY)
    try:
        os.fsync(file)
    finally:
        os.close(file)


def _sum(place: int, length: int, octets: bytes) -> bytes:
    return struct.pack(">I", zlib.crc32(octets, zlib.crc32(struct.pack(">QI", place, length))))


def _framed(records: Iterable[bytes], place: int) -> bytes:
    parts: list[bytes] = []
    for it in records:
        frame = struct.pack(">I", len(it)) + it + _sum(place, len(it), it)
        parts.append(frame)
        place += len(frame)
    return b"".join(parts)


def _records(octets: bytes, at: int) -> tuple[list[bytes], int]:
    """The records from a place on, up to the first that isn't whole, and where that begins."""
    records: list[bytes] = []
    while at + 8 <= len(octets):
        (length,) = struct.unpack_from(">I", octets, at)
        it = octets[at + 4 : at + 4 + length]
        if octets[at + 4 + length : at + 8 + length] != _sum(at, length, it):
            break
        records.append(it)
        at += 8 + length
    return records, at


class SqliteLog:
    """The same records in a table of an SQLite database."""

    def __init__(self, path: str | os.PathLike[str]) -> None:
        """Raises sqlite3.Error."""
        self.db = _connected(path)
        self.db.execute("CREATE TABLE IF NOT EXISTS orders_records(place INTEGER PRIMARY KEY, record BLOB NOT NULL)")

    def read(self) -> list[bytes]:
        return [it for (it,) in self.db.execute("SELECT record FROM orders_records ORDER BY place")]

    def write(self, records: Sequence[bytes]) -> None:
        self._commit(records, "")

    def replace(self, records: Sequence[bytes]) -> None:
        self._commit(records, "DELETE FROM orders_records")

    def _commit(self, records: Sequence[bytes], first: str) -> None:
        try:
            self.db.execute("BEGIN IMMEDIATE")
            self.db.execute(first)
            self.db.executemany("INSERT INTO orders_records(record) VALUES (?)", [(it,) for it in records])
            self.db.execute("COMMIT")
        except sqlite3.Error as why:
            self.db.close()
            raise NotStored(f"the store of orders: {why}") from why

    def close(self) -> None:
        self.db.close()


def _connected(path: str | os.PathLike[str]) -> sqlite3.Connection:
    """A connection whose commits outlive a power cut."""
    db = sqlite3.connect(path, isolation_level=None, check_same_thread=False)
    db.execute("PRAGMA journal_mode=WAL")
    db.execute("PRAGMA synchronous=FULL")
    return db


# --- the client's half: no socket, no clock


_OPENING, _ORDER, _AGAIN, _FATE, _KNOWN, _TAKEN, _UNDONE = range(1, 8)


@dataclass
class _Kept:
    """A fate, and the answer that said so: no octets of a fate that needed none."""

    order: Order
    fate: Fate
    answer: bytes


@dataclass
class _State:
    """What the records of a store say. `taken`: fates that the program has, which are kept to be named after a set
    back."""

    client: bytes = bytes(_CLIENT)
    lanes: dict[int, bytes] = field(default_factory=dict)
    bodies: dict[int, bytes] = field(default_factory=dict)
    fates: dict[int, _Kept] = field(default_factory=dict)
    taken: set[int] = field(default_factory=set)
    last_uid: int = 0

    def read(self, record: bytes) -> None:
        kind, body = record[0], record[1:]
        if kind == _ORDER or kind == _AGAIN:
            (lane,) = struct.unpack_from(">Q", body)
            self.lanes[lane] = body[:_LANE]
            if kind == _ORDER:
                (uid,) = struct.unpack_from(">Q", body, 24)
                self.bodies[uid], self.last_uid = body[_LANE:], max(self.last_uid, uid)
        elif kind == _FATE:
            self._read_fate(body)
        elif kind == _KNOWN:
            self.client = body
        elif kind == _TAKEN or kind == _UNDONE:
            (uid,) = struct.unpack(">Q", body)
            if kind == _UNDONE:
                self.fates.pop(uid, None)
            self.taken.add(uid)

    def _read_fate(self, body: bytes) -> None:
        said, uid = struct.unpack_from(">BQ", body)
        at = 9
        lane, at = body[at : at + _LANE], at + _LANE
        client, at = body[at : at + _CLIENT], at + _CLIENT
        answer, at = body[at : at + _ANSWER], at + _ANSWER
        (number,) = struct.unpack_from(">Q", lane)
        self.lanes[number], self.client = lane, client
        order = Order(self.bodies.pop(uid, b""), uid, lane=number)
        self.fates[uid] = _Kept(order, _fate(said, answer, body[at:]), answer)
        self.last_uid = max(self.last_uid, uid)

    def records(self, keep: int) -> list[bytes]:
        """Records that say the same, without all but the last `keep` of the fates that the program has."""
        made = [bytes([_KNOWN]) + self.client]
        open_lanes = {}
        for lane, octets in self.lanes.items():
            (has_order, uid) = struct.unpack_from(">QQ", octets, 16)
            open_lanes[lane] = bytes([_ORDER]) + octets + self.bodies.get(uid, b"") if has_order else b""
        had = [uid for uid in self.fates if uid in self.taken]
        for uid in had[: max(0, len(had) - keep)]:
            del self.fates[uid]
        for uid, it in self.fates.items():
            octets = self.lanes[it.order.lane]
            made.append(bytes([_ORDER]) + _with_order(octets, uid) + it.order.body)
            made.append(_fate_record(uid, it, octets, self.client))
            made += [bytes([_TAKEN]) + struct.pack(">Q", uid)] if uid in self.taken else []
        for lane, octets in self.lanes.items():
            made.append(open_lanes[lane] or bytes([_AGAIN]) + octets)
        self.taken &= self.fates.keys()
        return made


def _noted_uid(record: bytes) -> int:
    """The number of the order that a record notes: 0 if it notes none."""
    (uid,) = struct.unpack_from(">Q", record, 25) if record[0] == _ORDER else (0,)
    return int(uid)


def _with_order(lane: bytes, uid: int) -> bytes:
    """The octets of a lane, with an order of this name: the body behind it is that order's."""
    return lane[:16] + struct.pack(">QQ", 1, uid) + lane[32:]


def _fate(said: int, answer: bytes, result: bytes) -> Fate:
    """The fate that an answer made."""
    if said == _Said.DONE:
        return Done(result)
    if said == _Said.NEVER:
        return Never()
    return Unknown(Why.FORGOTTEN if library.dt_orders_word(answer, len(answer)) == _Said.OLD else Why.SET_BACK)


def _said(fate: Fate) -> int:
    return int(_Said.DONE if isinstance(fate, Done) else _Said.NEVER if isinstance(fate, Never) else _Said.UNKNOWN)


def _fate_record(uid: int, it: _Kept, lane: bytes, client: bytes) -> bytes:
    result = it.fate.result if isinstance(it.fate, Done) else b""
    head = bytes([_FATE]) + struct.pack(">BQ", _said(it.fate), uid)
    return head + lane + client + it.answer.ljust(_ANSWER, b"\0") + result


class _Book:
    """The client's half over a store: what to write and what to send. It sends nothing itself.

    Records are appended to `unwritten`; `write` makes them durable. A request is made only of what is. `frees` is
    called with the number of a lane when it is free for the next order: at first, and when its order has its fate."""

    def __init__(self, store: Store, lanes: int, once: bool, keep: int, frees: Callable[[int], object]) -> None:
        if not 1 <= lanes <= 65_536:
            raise InvalidArgument(f"lanes is {lanes}; it must be 1 to 65536", "lanes", lanes)
        self.store, self.keep, self.state = store, keep, _State()
        records = store.read()
        for it in records:
            self.state.read(it)
        self.nonce, self.count, self.written, self.appended = secrets.randbits(64), 0, 0, 0
        self.unwritten: list[bytes] = []
        self.lanes = {it: self._lane(it, once) for it in {*range(lanes), *self.state.lanes}}
        self.client = bytes(self.lanes[0].client)
        self.usable, self.frees, self.failure = range(lanes), frees, ""
        for number in self.usable:
            if self.order_of(number) is None:
                frees(number)
        # how many records the store has, and how many of them counted when it was written anew
        self.kept, self.counted = len(records), 0
        # what was read may not be durable yet: nothing is called or reported before a record behind it is
        self.append(bytes([_OPENING]) + struct.pack(">Q", self.nonce))
        self.write()

    def _lane(self, number: int, once: bool) -> OrdersLane:
        it = OrdersLane()
        it.client = _octets(self.state.client, _ClientOctets)
        it.lane = _octets(self.state.lanes.get(number, bytes(_LANE)), _LaneOctets)
        _call(library.dt_orders_start, it, self.nonce, number, once)
        return it

    # the store

    def append(self, record: bytes) -> None:
        self.unwritten.append(record)
        self.appended += 1

    def take_unwritten(self) -> tuple[Callable[[Sequence[bytes]], None], list[bytes], int]:
        """How and what is to be written, and the number of its last record: if the store has many records that don't
        count any more, it is written anew. Raises NotStored."""
        self.check()
        records, self.unwritten = self.unwritten, []
        self.kept += len(records)
        if self.kept <= 2 * self.counted + SPARE_RECORDS:
            return self.store.write, records, self.appended
        records = self.state.records(self.keep)
        self.kept = self.counted = len(records)
        return self.store.replace, records, self.appended

    def check(self) -> None:
        """Raises NotStored if a write failed earlier: what it had isn't durable, and nothing that is behind it may be
        called or reported."""
        if self.failure:
            raise NotStored(self.failure)

    def fail(self, why: BaseException) -> None:
        """A write failed."""
        self.failure = self.failure or f"an earlier write of orders failed: {why}"

    def write(self) -> None:
        """Makes all that was appended durable. Raises NotStored; what the store raises."""
        writes, records, last = self.take_unwritten()
        if records:
            try:
                writes(records)
            except BaseException as why:
                self.fail(why)
                raise
        self.written = last

    # orders

    @property
    def has_met(self) -> bool:
        """Whether the client ever heard of its server."""
        return self.client[23] == 1

    @property
    def is_stopped(self) -> bool:
        """Whether the server's store was set back, and the program didn't adopt that yet."""
        return self.client[55] == 1

    def order_of(self, lane: int) -> Order | None:
        """The lane's order, if it has one."""
        has_order, uid, number, tag = struct.unpack_from(">QQQQ", bytes(self.lanes[lane].lane), 16)
        return Order(self.state.bodies[uid], uid, 0, lane, number, tag) if has_order else None

    def is_open(self, order: Order) -> bool:
        """Whether it has its lane. (Its number may be another one by now.)"""
        it = self.order_of(order.lane) if order.lane in self.lanes else None
        return it is not None and it.uid == order.uid

    def orders(self) -> list[Order]:
        """Those without a fate, in the order in which they were noted."""
        found = [it for lane in self.lanes if (it := self.order_of(lane))]
        return sorted(found, key=lambda it: it.uid)

    def _turn(self, lane: int) -> OrdersLane:
        it = self.lanes[lane]
        it.client = _octets(self.client, _ClientOctets)
        return it

    def note(self, lane: int, body: bytes) -> Order:
        """Notes an order on a lane without one. It may be called when its record is written."""
        if len(body) > MOST_BODY:
            raise InvalidArgument(f"the order has {len(body)} octets; at most {MOST_BODY} fit")
        uid, it = self.state.last_uid + 1, self._turn(lane)
        if _call(library.dt_orders_give, it, uid, self.appended + 1) != Status.OK:
            raise InvalidArgument(f"lane {lane} has an order, or the client hasn't met its server")
        record = bytes([_ORDER]) + bytes(it.lane) + body
        self.state.read(record)
        self.append(record)
        order = self.order_of(lane)
        assert order is not None
        return order

    def request(self, lane: int) -> bytes | None:
        """What to send for the lane's order: None if its record isn't written, a call waits, or there was an alarm."""
        it = self._turn(lane)
        self.count += 1
        if _call(library.dt_orders_call, it, self.written, self.count) != Status.OK:
            return None
        order = self.order_of(lane)
        return bytes(it.request) + (order.body if order else b"")

    def made(self, lane: int, sent: bool) -> None:
        _call(library.dt_orders_made, self._turn(lane), sent)

    def unsure(self, lane: int) -> None:
        _call(library.dt_orders_unsure, self._turn(lane))

    def heard(self, lane: int, octets: bytes) -> int:
        """Takes an answer. Returns what the library says of it; a fate is appended, with what the client knows."""
        order, it = self.order_of(lane), self._turn(lane)
        answer, result = octets[:_ANSWER], octets[_ANSWER:]
        try:
            said = _call(library.dt_orders_hear, it, answer, len(answer), self.appended + 1)
        except InvalidArgument:
            _log.warning("orders: an answer of %d octets spells nothing: the order is called again", len(octets))
            self.unsure(lane)
            return int(_Said.UNSURE)
        self.client = bytes(it.client)
        if order and said in (_Said.DONE, _Said.NEVER, _Said.UNKNOWN):
            self._end(order, said, answer, result)
        elif struct.unpack_from(">Q", bytes(it.lane), 96) == (self.appended + 1,):
            record = bytes([_AGAIN]) + bytes(it.lane)
            self.state.read(record)
            self.append(record)
        return said

    def _end(self, order: Order, said: int, answer: bytes, result: bytes) -> None:
        kept = _Kept(order, _fate(said, answer, result), answer)
        record = _fate_record(order.uid, kept, bytes(self.lanes[order.lane].lane), self.client)
        self.state.read(record)
        self.append(record)
        # (this is the one place where an order ends, so that its lane is free once)
        if order.lane in self.usable:
            self.frees(order.lane)

    def cancel(self, order: Order) -> None:
        """From now on its calls ask that it is never executed. If it was never called it has its fate."""
        if self.is_open(order) and _call(library.dt_orders_cancel, self._turn(order.lane)) == _Said.NEVER:
            self._end(order, _Said.NEVER, b"", b"")

    def fate(self, order: Order) -> Fate | None:
        """The order's fate, which may be reported when its record is written. Raises InvalidArgument if the order has
        none and gets none: it is no order of this store, was undone, or had its fate so long ago that it isn't kept."""
        it = self.state.fates.get(order.uid)
        if it is None and not self.is_open(order):
            raise InvalidArgument(f"order {order.uid} isn't open, and the store doesn't have its fate")
        return it.fate if it else None

    def taken(self, uid: int) -> None:
        """The program has the fate: it isn't reported in a later life."""
        record = bytes([_TAKEN]) + struct.pack(">Q", uid)
        self.state.read(record)
        self.append(record)

    def untaken(self) -> Iterator[tuple[Order, Fate]]:
        """The fates that the program doesn't have, each once: it has one when it takes the next."""
        for it in list(self.state.fates.values()):
            if it.order.uid not in self.state.taken:
                yield it.order, it.fate
                self.taken(it.order.uid)

    def take_all(self, told: list[int]) -> None:
        """The program came back: it has the fates that it was told."""
        for uid in told:
            self.taken(uid)
        told.clear()

    # questions, and a set back

    def question(self, answer: bytes = b"", body: bytes = b"") -> tuple[OrdersLane, bytes]:
        """What to send to ask; with an answer, whether the server's store still has the commit that it named."""
        it = OrdersLane()
        it.client = _octets(self.client, _ClientOctets)
        self.count += 1
        _call(library.dt_orders_ask, it, answer, len(answer), self.count)
        return it, bytes(it.request) + body

    def told(self, asked: OrdersLane, octets: bytes) -> tuple[int, bytes]:
        """Takes the answer to a question: what the library says of it, and what was told."""
        answer = octets[:_ANSWER]
        asked.client = _octets(self.client, _ClientOctets)
        said = _call(library.dt_orders_hear, asked, answer, len(answer), 0)
        self.client = bytes(asked.client)
        return said, octets[_ANSWER:]

    def done(self) -> list[_Kept]:
        """The orders that are done, in the order of the commits that said so."""
        kept = [it for it in self.state.fates.values() if isinstance(it.fate, Done)]
        return sorted(kept, key=lambda it: struct.unpack_from(">QxxxxxxxxQ", it.answer, 16))

    def adopt(self, undone: Iterable[Order]) -> None:
        """Goes on with the server's store as it is now."""
        lane = self._turn(0)
        _call(library.dt_orders_adopt, lane)
        self.client = bytes(lane.client)
        # (first what is undone: of a part of these records the alarm comes again)
        for it in undone:
            record = bytes([_UNDONE]) + struct.pack(">Q", it.uid)
            self.state.read(record)
            self.append(record)
        self.append(bytes([_KNOWN]) + self.client)
        self.state.client = self.client
        self.write()


class _Halving:
    """Finds which orders that were done the server's store lost: those from one on, in the order of their commits. All
    answers must be of one opening of the store: if it is set back meanwhile, the search begins again."""

    def __init__(self, done: Sequence[_Kept]) -> None:
        self.done, self.opening, self.least, self.most = done, b"", 0, len(done)

    def asks(self) -> bytes:
        """The answer whose commit is asked about: none if the search is over."""
        return self.done[(self.least + self.most) // 2].answer if self.least < self.most else b""

    def take(self, octets: bytes) -> None:
        """Takes what was answered."""
        opening, had = octets[16:32], self.opening
        self.opening = opening
        if had and opening != had:
            self.least, self.most = 0, len(self.done)
            return
        middle = (self.least + self.most) // 2
        if library.dt_orders_word(octets[:_ANSWER], min(len(octets), _ANSWER)) == _Said.FORKED:
            self.most = middle
        else:
            self.least = middle + 1

    def undone(self) -> list[Order]:
        return sorted((it.order for it in self.done[self.least :]), key=lambda it: it.uid)


class _Backoff:
    """How long to wait before the next call: each time twice as long, times a drawn 0.5 to 1."""

    def __init__(self, first: float, most: float) -> None:
        self.first, self.most, self.wait = first, most, first

    def again(self) -> float:
        wait, self.wait = self.wait, min(self.wait * 2, self.most)
        return wait * random.uniform(0.5, 1)



class _Silence:
    """Until when the node makes no calls, since it was opened."""

    def __init__(self) -> None:
        self.end = 0.0

    def begins(self, why: Declined) -> None:
        if why.status == Status.QUIET:
            self.end = time.monotonic() + (why.until - clock.now() + 1) / 1000

    def wait(self, backoff: _Backoff) -> float:
        """How long to wait before the next call."""
        left = self.end - time.monotonic()
        return left if left > 0 else backoff.again()


Sends = Callable[[bytes], bytes]
"""Sends a request and returns its answer. Raises Unsure if it may have been handed out, and Declined or Stopped if it
certainly wasn't sent."""
SendsSometime = Callable[[bytes], Awaitable[bytes]]


def over(calls: Calls, flow: Flow, timeout: float = 5.0) -> Sends:
    """Sends requests as calls along a flow, each within `timeout` seconds."""
    return lambda request: calls.call(flow, request, timeout)


def over_async(calls: AsyncCalls, flow: Flow, timeout: float = 5.0) -> SendsSometime:
    """As `over`, for `AsyncOrders`."""
    return lambda request: calls.call(flow, request, timeout)


class Orders:
    """A client's orders, one at a time. Its store has each order before it is called."""

    def __init__(
        self,
        sends: Sends,
        store: Store,
        *,
        once: bool = True,
        keep: int = 1_000,
        waits: tuple[float, float] = (0.05, 30.0),
        sleep: Callable[[float], object] = time.sleep,
    ) -> None:
        """Opens the store: orders of earlier lives are in `unsettled`. `once`: each call is delivered once at most, as
        calls of `deltat` are; False over any other wire. `keep`: of how many orders that are done a set back tells.
        `waits`: how long to wait before the next call at first and at most. Raises NotStored; what the store raises."""
        self._sends, self._sleep, self._waits, self._silence = sends, sleep, waits, _Silence()
        self._free = deque[int]()
        self._book = _Book(store, 1, once, keep, self._free.append)
        self._undone: list[Order] | None = None
        self._told: list[int] = []

    def __enter__(self) -> Orders:
        return self

    def __exit__(self, kind: type[BaseException] | None, why: BaseException | None, at: TracebackType | None) -> None:
        self.close()

    def close(self) -> None:
        """Closes the store. Orders without a fate stay in it."""
        self._book.take_all(self._told)
        try:
            if not self._book.failure:
                self._book.write()
        finally:
            self._book.store.close()

    @property
    def unsettled(self) -> list[Order]:
        """The orders without a fate. `settle` goes on with one."""
        return self._book.orders()

    def untaken(self) -> Iterator[tuple[Order, Fate]]:
        """Returns the fates of earlier lives that no program took, each once."""
        return self._book.untaken()

    def give(self, body: bytes, timeout: float | None = None) -> Fate:
        """Gives an order, and returns its fate. Raises StillOpen after `timeout` seconds (None: never); SetBack; and
        NotStored. Costs a round trip and two syncs. The next call of this object, or `close`, notes that the program
        has the fate; a program that dies before gets it from `untaken` in its next life."""
        return self.settle(self.note(body, timeout), timeout)

    def note(self, body: bytes, timeout: float | None = None) -> Order:
        """Notes an order: when it returns, the order is in the store, and `settle` calls it. Raises InvalidArgument if
        another order has no fate; StillOpen if the server wasn't heard of in time; SetBack; NotStored."""
        self._book.take_all(self._told)
        self._book.check()
        self._check()
        self._meet(timeout)
        if not self._free:
            raise InvalidArgument("an order has no fate yet: settle it first")
        order = self._book.note(self._free[0], body)
        self._free.popleft()
        self._book.write()
        return order

    def settle(self, order: Order, timeout: float | None = None) -> Fate:
        """Calls an order until it has its fate. Raises as `give`; InvalidArgument if it is no order of this store, or
        was undone by a set back."""
        self._book.take_all(self._told)
        end = None if timeout is None else time.monotonic() + timeout
        wait = _Backoff(*self._waits)
        while (fate := self._book.fate(order)) is None:
            self._check()
            self._step(order.lane)
            if self._book.fate(order) is None:
                if self._book.is_stopped:
                    continue
                self._pause(wait, end, order)
        self._book.write()
        self._told.append(order.uid)
        return fate

    def cancel(self, order: Order) -> None:
        """Cancels an order: `settle` returns Never, or Done if it was executed before. A cancel isn't stored."""
        self._book.cancel(order)

    def ask(self, body: bytes, timeout: float | None = None) -> bytes:
        """Asks the server's function for questions: what it answers has in it all that this client was told. Nothing is
        stored. Raises StillOpen, SetBack."""
        self._check()
        end = None if timeout is None else time.monotonic() + timeout
        wait = _Backoff(*self._waits)
        while True:
            asked, request = self._book.question(body=body)
            octets = self._sent(request)
            if octets is not None:
                said, told = self._book.told(asked, octets)
                self._check()
                if said == _Said.WAITS:
                    return told
            self._pause(wait, end, Order(body))

    def adopt(self) -> None:
        """Goes on after SetBack, with the server's store as it is now: orders without a fate are called again."""
        if self._book.is_stopped:
            undone = self._undone if self._undone is not None else self._find_undone()
            self._book.adopt(undone)
            self._undone = None

    # steps

    def _check(self) -> None:
        if self._book.is_stopped:
            self._book.write()
            if self._undone is None:
                self._undone = self._find_undone()
            raise SetBack(self._undone)

    def _pause(self, backoff: _Backoff, end: float | None, order: Order) -> None:
        wait = self._silence.wait(backoff)
        if end is not None and time.monotonic() + wait > end:
            raise StillOpen(order)
        self._sleep(wait)

    def _meet(self, timeout: float | None) -> None:
        """A client gives no order before it heard of its server."""
        if not self._book.has_met:
            self.ask(b"", timeout)

    def _sent(self, request: bytes) -> bytes | None:
        try:
            return self._sends(request)
        except Unsure:
            return None
        except Declined as why:
            self._silence.begins(why)
            return None

    def _step(self, lane: int) -> None:
        """One call of a lane's order, and its end."""
        book = self._book
        book.write()
        request = book.request(lane)
        if request is None:
            return
        try:
            octets = self._sends(request)
        except (Declined, Stopped) as why:
            book.made(lane, False)
            if isinstance(why, Stopped):
                raise
            self._silence.begins(why)
            return
        except Unsure:
            book.made(lane, True)
            book.unsure(lane)
            return
        except BaseException:
            # it may have been sent
            book.made(lane, True)
            book.unsure(lane)
            raise
        book.made(lane, True)
        book.heard(lane, octets)
        book.write()

    def _find_undone(self) -> list[Order]:
        search, wait = _Halving(self._book.done()), _Backoff(*self._waits)
        while answer := search.asks():
            octets = self._sent(self._book.question(answer)[1])
            if octets is None:
                self._sleep(self._silence.wait(wait))
            else:
                search.take(octets)
        return search.undone()


class AsyncOrders:
    """As `Orders`, for asyncio: as many orders at once as there are lanes, and records that wait at the same time are
    synced together. More orders than lanes wait, not given yet."""

    def __init__(
        self,
        sends: SendsSometime,
        store: Store,
        *,
        lanes: int = 16,
        once: bool = True,
        keep: int = 1_000,
        waits: tuple[float, float] = (0.05, 30.0),
    ) -> None:
        """As `Orders`. `lanes`: how many orders are under way at most, 1 to 65,536, on lanes 0 and up."""
        self._sends, self._waits, self._silence = sends, waits, _Silence()
        self._free = asyncio.Queue[int]()
        self._book = _Book(store, lanes, once, keep, self._free.put_nowait)
        self._thread = ThreadPoolExecutor(1, "deltat orders")
        self._writing: asyncio.Future[None] | None = None
        self._meeting, self._searching = asyncio.Lock(), asyncio.Lock()
        # how many calls of orders wait for their end, and whether there are none
        self._under_way, self._none_under_way = 0, asyncio.Event()
        self._none_under_way.set()
        self._undone: list[Order] | None = None
        self._told: list[int] = []

    async def __aenter__(self) -> AsyncOrders:
        return self

    async def __aexit__(
        self, kind: type[BaseException] | None, why: BaseException | None, at: TracebackType | None
    ) -> None:
        await self.close()

    async def close(self) -> None:
        """Closes the store. Orders without a fate stay in it."""
        self._book.take_all(self._told)
        try:
            if not self._book.failure:
                await self._written()
        finally:
            self._thread.shutdown()
            self._book.store.close()

    @property
    def unsettled(self) -> list[Order]:
        """The orders without a fate. `settle` goes on with one."""
        return self._book.orders()

    def untaken(self) -> Iterator[tuple[Order, Fate]]:
        """As `Orders.untaken`. Take them before the first order is given."""
        return self._book.untaken()

    async def give(self, body: bytes) -> Fate:
        """Gives an order, and returns its fate. Raises SetBack, NotStored. If the wait is cancelled, or the wire
        raises, an order that was noted stays in the store: `unsettled` has it, and it keeps its lane until it is
        settled."""
        return await self.settle(await self.note(body))

    async def note(self, body: bytes) -> Order:
        """Notes an order when a lane is free: it is in the store when this returns. Raises SetBack, NotStored. If the
        wait is cancelled, either nothing was noted or `unsettled` has the order."""
        order = await self._noted(body)
        await self._written()
        return order

    async def _noted(self, body: bytes) -> Order:
        """Notes an order when a lane is free. It isn't written yet."""
        self._book.take_all(self._told)
        await self._meet()
        lane = await self._free.get()
        try:
            self._book.check()
            await self._check()
            return self._book.note(lane, body)
        except BaseException:
            self._free.put_nowait(lane)
            raise

    async def settle(self, order: Order) -> Fate:
        """Calls an order until it has its fate. Several tasks may settle one order. Raises SetBack, NotStored, and what
        the wire raises; InvalidArgument if it is no order of this store, or was undone by a set back."""
        fate = await self._settled(order)
        self._told.append(order.uid)
        return fate

    async def _settled(self, order: Order) -> Fate:
        """The same, without a note that the program has the fate."""
        wait = _Backoff(*self._waits)
        while (fate := self._book.fate(order)) is None:
            await self._check()
            await self._step(order.lane)
            if self._book.fate(order) is None and not self._book.is_stopped:
                await asyncio.sleep(self._silence.wait(wait))
        await self._written()
        return fate

    def cancel(self, order: Order) -> None:
        """As `Orders.cancel`."""
        self._book.cancel(order)

    async def ask(self, body: bytes) -> bytes:
        """As `Orders.ask`."""
        wait = _Backoff(*self._waits)
        while True:
            await self._check()
            asked, request = self._book.question(body=body)
            octets = await self._sent(request)
            if octets is not None:
                said, told = self._book.told(asked, octets)
                if said == _Said.WAITS:
                    return told
                if self._book.is_stopped:
                    continue
            await asyncio.sleep(self._silence.wait(wait))

    async def adopt(self) -> None:
        """As `Orders.adopt`."""
        async with self._searching:
            if self._book.is_stopped:
                undone = await self._found_undone()
                await self._idle()
                try:
                    self._book.adopt(undone)
                except BaseException as why:
                    self._failed(why)
                    raise
                self._undone = None

    async def _check(self) -> None:
        if self._book.is_stopped:
            # (one task searches; an alarm that was adopted meanwhile is over)
            async with self._searching:
                if self._book.is_stopped:
                    raise SetBack(await self._found_undone())

    async def _meet(self) -> None:
        async with self._meeting:
            if not self._book.has_met:
                await self.ask(b"")

    async def _sent(self, request: bytes) -> bytes | None:
        try:
            return await self._sends(request)
        except Unsure:
            return None
        except Declined as why:
            self._silence.begins(why)
            return None

    async def _step(self, lane: int) -> None:
        book = self._book
        await self._written()
        request = book.request(lane)
        if request is None:
            return
        book.made(lane, True)
        self._under_way += 1
        self._none_under_way.clear()
        try:
            book.heard(lane, await self._sends(request))
        except BaseException as why:
            # (a call that was declined is taken as one that may have been sent: `once` isn't used then)
            book.unsure(lane)
            if isinstance(why, Declined):
                self._silence.begins(why)
            elif not isinstance(why, Unsure):
                raise
        finally:
            self._under_way -= 1
            if not self._under_way:
                self._none_under_way.set()

    async def _written(self) -> None:
        """Returns when all that is appended now is durable: what waits meanwhile is one sync."""
        last = self._book.appended
        while self._book.written < last:
            self._book.check()
            await asyncio.shield(self._writing or self._write())

    def _failed(self, why: BaseException) -> None:
        """A write failed. Orders that wait for a lane wait no more: each takes this number, finds that and puts it
        back."""
        self._book.fail(why)
        self._free.put_nowait(-1)

    async def _idle(self) -> None:
        """Returns when no thread uses the store."""
        while self._writing:
            await asyncio.shield(self._writing)

    def _write(self) -> asyncio.Future[None]:
        """Has written what is appended until the next turn of the loop, and returns the end of that. It is no task, so
        that nothing cancels it."""
        loop = asyncio.get_running_loop()
        self._writing = end = loop.create_future()
        loop.call_soon(self._begin_write, end)
        return end

    def _begin_write(self, end: asyncio.Future[None]) -> None:
        writes, records, last = self._book.take_unwritten()

        def ended(writing: asyncio.Future[None]) -> None:
            self._writing = None
            why = asyncio.CancelledError("stopped") if writing.cancelled() else writing.exception()
            if why is None:
                self._book.written = last
            else:
                self._failed(why)
            # (all that wait look again)
            end.set_result(None)

        asyncio.get_running_loop().run_in_executor(self._thread, writes, records).add_done_callback(ended)

    async def _found_undone(self) -> list[Order]:
        """The orders that are undone. Calls that are under way end before: one may bring a fate of before the set
        back."""
        await self._none_under_way.wait()
        await self._written()
        if self._undone is None:
            self._undone = await self._find_undone()
        return self._undone

    async def _find_undone(self) -> list[Order]:
        search, wait = _Halving(self._book.done()), _Backoff(*self._waits)
        while answer := search.asks():
            octets = await self._sent(self._book.question(answer)[1])
            if octets is None:
                await asyncio.sleep(self._silence.wait(wait))
            else:
                search.take(octets)
        return search.undone()


# --- the server's half


class AtWork:
    """The type of AT_WORK."""


AT_WORK = AtWork()
"""What a handler returns if the order is executed and its result comes later, by `Served.finish`."""


class Database(Protocol):
    """The database that has a service's own data, and the tables of orders beside them."""

    connection: Any
    refusals: tuple[type[Exception], ...]
    """What `commit` raises if what a handler did breaks a constraint."""

    def begin(self) -> None:
        """Begins a transaction that no other writer of orders runs beside."""

    def commit(self) -> None:
        """Commits it: it outlives a power cut when this returns."""

    def rollback(self) -> None:
        ...

    def run(self, text: str, *values: object) -> list[tuple[Any, ...]]:
        """Runs a statement with `?` for its values, and returns its rows."""

    def guard(self, is_on: bool) -> None:
        """While it is on, the connection refuses to end the transaction."""

    def close(self) -> None:
        ...


_TABLES = (
    "CREATE TABLE IF NOT EXISTS orders_numbers(one INTEGER PRIMARY KEY CHECK (one = 1), octets {octets} NOT NULL)",
    "CREATE TABLE IF NOT EXISTS orders_openings(opening BIGINT PRIMARY KEY, octets {octets} NOT NULL)",
    "CREATE TABLE IF NOT EXISTS orders_rows(client BIGINT NOT NULL, lane BIGINT NOT NULL, octets {octets} NOT NULL,"
    " result {octets} NOT NULL, touched BIGINT NOT NULL, PRIMARY KEY (client, lane))",
    "CREATE INDEX IF NOT EXISTS orders_oldest ON orders_rows(touched)",
)


class Sqlite:
    """An SQLite database, in WAL mode with `synchronous=FULL`."""

    refusals: tuple[type[Exception], ...] = (sqlite3.IntegrityError,)

    def __init__(self, path: str | os.PathLike[str]) -> None:
        """Raises sqlite3.Error."""
        self.connection: sqlite3.Connection = _connected(path)
        self.begin()
        for it in _TABLES:
            self.run(it.format(octets="BLOB"))
        self.commit()

    def begin(self) -> None:
        self.connection.execute("BEGIN IMMEDIATE")

    def commit(self) -> None:
        self.connection.execute("COMMIT")

    def rollback(self) -> None:
        if self.connection.in_transaction:
            self.connection.execute("ROLLBACK")

    def run(self, text: str, *values: object) -> list[tuple[Any, ...]]:
        return self.connection.execute(text, values).fetchall()

    def guard(self, is_on: bool) -> None:
        self.connection.set_authorizer(_refuses_ends if is_on else None)

    def close(self) -> None:
        self.connection.close()


def _refuses_ends(action: int, *_: object) -> int:
    return (
        sqlite3.SQLITE_DENY if action in (sqlite3.SQLITE_TRANSACTION, sqlite3.SQLITE_SAVEPOINT) else sqlite3.SQLITE_OK
    )


class Postgres:
    """A PostgreSQL database, by psycopg 3 (Debian: python3-psycopg). The row of the store's numbers is locked, so that
    transactions of orders run one after another."""

    def __init__(self, where: str) -> None:
        """`where`: as psycopg.connect takes it. Raises ImportError, psycopg.Error."""
        import psycopg

        self.refusals: tuple[type[Exception], ...] = (psycopg.IntegrityError,)
        self.connection: Any = psycopg.connect(where, autocommit=True)
        self.connection.execute("SET synchronous_commit = on")
        with self.connection.transaction():
            self.run("SELECT pg_advisory_xact_lock(7318347)")
            for it in _TABLES:
                self.run(it.format(octets="BYTEA"))

    def begin(self) -> None:
        self.connection.execute("BEGIN")
        self.connection.execute("SELECT pg_advisory_xact_lock(7318347)")

    def commit(self) -> None:
        self.connection.execute("COMMIT")

    def rollback(self) -> None:
        self.connection.execute("ROLLBACK")

    def run(self, text: str, *values: object) -> list[tuple[Any, ...]]:
        it = self.connection.execute(text.replace("?", "%s"), values or None)
        return list(it.fetchall()) if it.description else []

    def guard(self, is_on: bool) -> None:
        """PostgreSQL has no such guard: that the transaction is still open is seen after the handler."""

    def close(self) -> None:
        self.connection.close()


Executes = Callable[[Any, Order], bytes | AtWork]
Reads = Callable[[Any, bytes], bytes]


class Served:
    """A server's orders: each is executed in the transaction of its row.

    A function that raises is rolled back, and its client calls again. It must have no effect but in the database,
    through the connection that it is given, and must not end the transaction. Several threads may use it: transactions
    are one after another."""

    def __init__(
        self, database: Database, *, strict: bool = False, forget_after: float = 30 * 86_400, most_result: int = 4_096
    ) -> None:
        """Opens the store. `strict`: a client must hear of the present opening before its orders are executed; needed
        over a wire that may deliver an old call late, if the store may be set back. `forget_after`: rows that weren't
        written for so many seconds are forgotten. Raises what the database raises."""
        self.database, self.strict = database, strict
        self.forget_after, self.most_result = forget_after, most_result
        self._lock = threading.RLock()
        self._committed: list[Callable[[], None]] = []
        self._executes: Executes | None = None
        self._reads: Reads = lambda connection, body: b""
        self._numbers = b""
        self.database.begin()
        self._open(self._read_numbers())
        self.database.commit()

    def order(self, function: Executes) -> Executes:
        """Decorates the function that executes orders. It returns the result, `most_result` octets at most, or
        AT_WORK."""
        self._executes = function
        return function

    def read(self, function: Reads) -> Reads:
        """Decorates the function that answers questions. It changes nothing."""
        self._reads = function
        return function

    def close(self) -> None:
        """Closes the database, when no transaction runs."""
        with self._lock:
            self.database.close()

    # the store

    def _read_numbers(self) -> bytes:
        found = self.database.run("SELECT octets FROM orders_numbers WHERE one = 1")
        return bytes(found[0][0]) if found else bytes(32)

    def _open(self, numbers: bytes) -> None:
        """A new opening, in a transaction."""
        turn = OrdersServer()
        turn.numbers = _octets(numbers, ctypes.c_uint8 * 32)
        _call(library.dt_orders_open, turn, secrets.randbits(64))
        made = bytes(turn.numbers)
        (opening,) = struct.unpack_from(">Q", made, 16)
        self.database.run("INSERT INTO orders_openings VALUES (?, ?)", opening, bytes(turn.openings)[:16])
        self._write_numbers(made)

    def _write_numbers(self, numbers: bytes) -> None:
        self.database.run(
            "INSERT INTO orders_numbers VALUES (1, ?) ON CONFLICT (one) DO UPDATE SET octets = excluded.octets", numbers
        )
        self._numbers = numbers

    def _begin(self) -> bytes:
        """Begins a transaction over the store as this process left it, or opens it anew: it was set back, or another
        process opened it."""
        self.database.begin()
        numbers = self._read_numbers()
        if numbers != self._numbers:
            _log.warning("orders: the store isn't as this process left it: it is opened anew")
            self._open(numbers)
            self.database.commit()
            self.database.begin()
            numbers = self._read_numbers()
        return numbers

    def _turn(self, numbers: bytes, client: int, look: OrdersLook) -> tuple[OrdersServer, bytes]:
        """What a transaction reads for a request, and the result beside the row."""
        turn = OrdersServer()
        turn.numbers = _octets(numbers, ctypes.c_uint8 * 32)
        rows = self.database.run(
            "SELECT octets, result FROM orders_rows WHERE client = ? AND lane = ?", client, look.lane
        )
        row, result = rows[0] if rows else (bytes(40), b"")
        turn.row = _octets(bytes(row), ctypes.c_uint8 * 40)
        wanted = (look.since, look.since + 1, look.knows, look.knows + 1)
        found = self.database.run("SELECT opening, octets FROM orders_openings WHERE opening IN (?, ?, ?, ?)", *wanted)
        openings = {number: bytes(octets) for number, octets in found}
        turn.openings = _octets(b"".join(openings.get(it, bytes(16)) for it in wanted), ctypes.c_uint8 * 64)
        return turn, bytes(result)

    def _store(self, turn: OrdersServer, client: int, lane: int, result: bytes) -> None:
        self.database.run(
            "INSERT INTO orders_rows VALUES (?, ?, ?, ?, ?) ON CONFLICT (client, lane) DO UPDATE SET"
            " octets = excluded.octets, result = excluded.result, touched = excluded.touched",
            client,
            lane,
            bytes(turn.row),
            result,
            int(time.time()),
        )
        self._write_numbers(bytes(turn.numbers))

    # requests

    def handle(self, client: int, request: bytes) -> bytes | None:
        """Handles one request of a client, which no other client's number is, and returns the answer: None if it is no
        request. Raises what the database raises; nothing is changed then."""
        return self.handle_all([(client, request)])[0]

    def handle_all(self, requests: Sequence[tuple[int, bytes]]) -> list[bytes | None]:
        """Handles requests in one transaction, in their order: one sync for all of them. If the database refuses to
        commit that (a constraint that is deferred), each is handled in a transaction of its own, and the handler of the
        one that is refused then has failed."""
        try:
            return self._handle(requests, True)
        except self.database.refusals:
            if len(requests) == 1:
                _log.exception("orders: the database refuses an order of client %d: it is rolled back", requests[0][0])
                return self._handle(requests, False)
        return [answer for it in requests for answer in self.handle_all([it])]

    def _handle(self, requests: Sequence[tuple[int, bytes]], executes: bool) -> list[bytes | None]:
        """Handles requests in one transaction."""
        with self._transaction():
            self._forget_oldest()
            return [self._answer(client, it, executes) for client, it in requests]

    @contextlib.contextmanager
    def _transaction(self) -> Iterator[None]:
        """A transaction of this process, by one thread at a time."""
        with self._lock:
            numbers = self._numbers
            try:
                self._begin()
                yield
                self.database.commit()
            except BaseException:
                self._numbers = numbers
                self.database.rollback()
                raise
        for it in self._committed:
            it()

    def _answer(self, client: int, request: bytes, executes: bool) -> bytes | None:
        head, body, look = request[:_REQUEST], request[_REQUEST:], OrdersLook()
        if library.dt_orders_look_up(head, len(head), look) != Status.OK:
            return None
        turn, result = self._turn(self._numbers, client, look)
        before = bytes(turn.row), bytes(turn.numbers)
        said = _call(library.dt_orders_judge, turn, head, len(head), self.strict)
        if said == _Said.EXECUTE:
            said, result = self._execute(turn, head, body, client) if executes else (int(_Said.NOT_NOW), b"")
        elif said == _Said.READ:
            said, result = _Said.TOLD, self._reads(self.database.connection, body) if body else b""
        if (bytes(turn.row), bytes(turn.numbers)) != before:
            self._store(turn, client, look.lane, result if said == _Said.DONE else b"")
        _call(library.dt_orders_answer, turn, head, len(head), said)
        return bytes(turn.answer) + (result if said in (_Said.DONE, _Said.TOLD) else b"")

    def _execute(self, turn: OrdersServer, head: bytes, body: bytes, client: int) -> tuple[int, bytes]:
        """Runs the handler within a savepoint, and writes the row."""
        lane, number, tag = struct.unpack_from(">QQQ", head, 8)
        order, database = Order(body, 0, client, lane, number, tag), self.database
        database.run("SAVEPOINT orders_handler")
        database.guard(True)
        try:
            result = self._run(order)
        except Exception:
            database.guard(False)
            _log.exception("orders: order %d on lane %d of client %d failed: it is rolled back", number, lane, client)
            database.run("ROLLBACK TO SAVEPOINT orders_handler")
            return _Said.NOT_NOW, b""
        finally:
            database.guard(False)
        database.run("RELEASE SAVEPOINT orders_handler")
        is_done = not isinstance(result, AtWork)
        _call(library.dt_orders_executed, turn, head, len(head), self.strict, is_done)
        return (_Said.AT_WORK, b"") if isinstance(result, AtWork) else (_Said.DONE, result)

    def _run(self, order: Order) -> bytes | AtWork:
        if self._executes is None:
            raise InvalidArgument("no function executes orders: decorate one with `order`")
        result = self._executes(self.database.connection, order)
        if not isinstance(result, (bytes, AtWork)):
            raise TypeError(f"a handler returned {type(result).__name__}; it must return bytes or AT_WORK")
        if isinstance(result, bytes) and len(result) > self.most_result:
            raise InvalidArgument(f"a result has {len(result)} octets; at most {self.most_result} are kept")
        return result

    def finish(self, order: Order, result: bytes) -> bool:
        """Gives an order that is at work its result, in a transaction of its own. Returns whether it was at work."""
        with self._transaction():
            return self._finish(order, result)

    def _finish(self, order: Order, result: bytes) -> bool:
        """The same, within a transaction."""
        turn, _ = self._turn(self._numbers, order.client, OrdersLook(lane=order.lane))
        named = struct.unpack_from(">QQ", bytes(turn.row), 8) == (order.number, order.tag)
        is_done = named and _call(library.dt_orders_finish, turn) == Status.OK
        if is_done:
            self._store(turn, order.client, order.lane, result)
        return is_done

    def _forget_oldest(self, most: int = 4) -> None:
        """Forgets some rows that weren't written for long, the oldest first."""
        before = int(time.time() - self.forget_after)
        found = self.database.run(
            "SELECT client, lane FROM orders_rows WHERE touched < ? ORDER BY touched LIMIT ?", before, most
        )
        for client, lane in found:
            self._forget(client, lane)

    def _forget(self, client: int, lane: int) -> None:
        turn, _ = self._turn(self._numbers, client, OrdersLook(lane=lane))
        if _call(library.dt_orders_forget, turn) == Status.OK:
            self.database.run("DELETE FROM orders_rows WHERE client = ? AND lane = ?", client, lane)
            self._write_numbers(bytes(turn.numbers))

    def forget(self, client: int, lane: int) -> None:
        """Forgets a row, if its order isn't at work. Nothing is executed twice by it."""
        with self._transaction():
            self._forget(client, lane)

    def run(self, calls: Calls, port: int, seconds: float | None = None) -> None:
        """Serves a port of a node, until no request arrived for this many seconds (None: until the socket is closed).
        Requests that wait at the same time are one transaction. Raises what the database raises."""

        def serves(request: Request) -> bytes | None:
            batch, waiting = [request], calls._line.requests
            while waiting and len(batch) < MOST_AT_ONCE and waiting[0].token.flow.target_port == port:
                batch.append(waiting.popleft())
            answered = 1
            try:
                answers = self.handle_all([(it.token.flow.source, it.payload) for it in batch])
                for it, answer in zip(batch[1:], answers[1:], strict=True):
                    if answer is not None:
                        calls.reply(it.token, answer)
                        answered += 1
                    else:
                        calls._forget(it.token)
            except BaseException:
                for it in batch[answered:]:
                    calls._forget(it.token)
                raise
            return answers[0]

        calls.on(port)(serves)
        calls.run(seconds)

    async def serve(self, calls: AsyncCalls, port: int) -> None:
        """As `run`, for asyncio: until it is cancelled or the socket is closed. Transactions run in a thread, one after
        another."""
        group = _Group(self)
        calls.on(port)(group.handled)
        try:
            await calls.run()
        finally:
            group.close()


class _Group:
    """Requests that come while a transaction runs are the next transaction."""

    def __init__(self, served: Served) -> None:
        self.served, self.thread = served, ThreadPoolExecutor(1, "deltat orders served")
        self.waiting: list[tuple[Request, asyncio.Future[bytes | None]]] = []
        self.running: asyncio.Task[None] | None = None

    async def handled(self, request: Request) -> bytes | None:
        loop = asyncio.get_running_loop()
        end: asyncio.Future[bytes | None] = loop.create_future()
        self.waiting.append((request, end))
        if self.running is None:
            self.running = loop.create_task(self.run())
        return await end

    async def run(self) -> None:
        loop = asyncio.get_running_loop()
        try:
            while self.waiting:
                batch, self.waiting = self.waiting[:MOST_AT_ONCE], self.waiting[MOST_AT_ONCE:]
                requests = [(it.token.flow.source, it.payload) for it, _ in batch]
                try:
                    answers = await loop.run_in_executor(self.thread, self.served.handle_all, requests)
                except Exception as why:
                    for _, end in batch:
                        if not end.done():
                            end.set_exception(why)
                    continue
                for (_, end), answer in zip(batch, answers, strict=True):
                    if not end.done():
                        end.set_result(answer)
        finally:
            self.running = None

    def close(self) -> None:
        for _, end in self.waiting:
            end.cancel()
        self.thread.shutdown()
