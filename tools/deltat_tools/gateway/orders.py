"""The near side: orders of programs become calls, and what became of each is kept under its token and its key.

An order is noted before its call is made, with a number that its store counts for its flow. A call that ends unsure is
settled by a question on the same flow: requests of a flow are handed out in order, so the far gateway's answer is
final."""
import asyncio
import logging
import secrets
import sqlite3
import time
from collections.abc import Coroutine
from dataclasses import dataclass, replace
from typing import Any

import deltat

from .journal import Journal
from .messages import BadMessage, Order, Outcome, Question, packed, unpacked_outcome
from .settings import MOST_HEAD, Target

SCHEMA = """
CREATE TABLE IF NOT EXISTS store (only_one INTEGER PRIMARY KEY CHECK (only_one = 1), id TEXT NOT NULL);
CREATE TABLE IF NOT EXISTS counts (port INTEGER PRIMARY KEY, next INTEGER NOT NULL) WITHOUT ROWID;
CREATE TABLE IF NOT EXISTS orders (
    token TEXT PRIMARY KEY, name TEXT NOT NULL, key TEXT, digest BLOB NOT NULL, port INTEGER NOT NULL,
    number INTEGER NOT NULL, state TEXT NOT NULL, status INTEGER NOT NULL DEFAULT 0, type TEXT NOT NULL DEFAULT '',
    body BLOB NOT NULL DEFAULT x'', at REAL NOT NULL) WITHOUT ROWID;
CREATE UNIQUE INDEX IF NOT EXISTS by_key ON orders (name, key) WHERE key IS NOT NULL;
CREATE INDEX IF NOT EXISTS by_number ON orders (port, number) WHERE state IN ('open', 'unsure');
CREATE INDEX IF NOT EXISTS by_time ON orders (at);
"""
# the longest body of an order: with its head it is the payload of a call
MOST_BODY = 65_528 - MOST_HEAD
# orders that are dropped at a time, when they are older than they are kept
DROPPED = 1_000
log = logging.getLogger("gateway")


@dataclass(frozen=True)
class Kept:
    """An order as the journal has it. `state`: open, answered, unsure, declined, never, begun or forgotten."""

    token: str
    name: str
    port: int
    number: int
    state: str
    status: int
    type: str
    body: bytes
    digest: bytes

    COLUMNS = "token, name, port, number, state, status, type, body, digest"


@dataclass(frozen=True)
class Wanted:
    """What a program asks for: `path` follows the name, and `key` is the order's own name, if it has one."""

    target: Target
    path: str
    type: str
    body: bytes
    digest: bytes
    key: str | None


class KeyReused(Exception):
    """The key is that of another order."""


class Orders:
    """Makes calls for programs. All of it runs in one loop of asyncio."""

    def __init__(self, journal: Journal, calls: deltat.AsyncCalls, node: int, keep_hours: float) -> None:
        self._journal, self._calls, self._node, self._keep = journal, calls, node, 3_600 * keep_hours
        self._store = ""
        # by token: who waits for the end of an order's call, or for the answer to its question
        self._under_way: dict[str, asyncio.Task[Kept]] = {}
        self._by_key: dict[tuple[str, str], asyncio.Lock] = {}
        self._open: dict[int, int] = {}

    async def start(self) -> None:
        """Reads the store's name. Calls of an earlier run are unsure."""
        self._store = await self._journal.do(_opened)

    async def post(self, wanted: Wanted) -> Kept:
        """Makes an order once, whatever its program repeats under one key. Returns what became of it. Raises
        KeyReused."""
        if wanted.key is None:
            return await self._made(wanted, None)
        lock = self._by_key.setdefault((wanted.target.name, wanted.key), asyncio.Lock())
        try:
            async with lock:
                return await self._posted(wanted)
        finally:
            if not lock.locked():
                self._by_key.pop((wanted.target.name, wanted.key), None)

    async def _posted(self, wanted: Wanted) -> Kept:
        words = (wanted.target.name, wanted.key)
        kept: Kept | None = await self._journal.do(lambda base: _found(base, "name = ? AND key = ?", words))
        if kept is None:
            return await self._made(wanted, None)
        if kept.digest != wanted.digest:
            raise KeyReused
        if kept.state in ("open", "unsure"):
            kept = await self.ask(wanted.target, kept)
        if kept.state in ("never", "declined"):
            # nothing of it was handed over, and nothing will be: it is made once more, under another number
            return await self._made(wanted, kept)
        return kept

    async def ask(self, target: Target, kept: Kept) -> Kept:
        """Settles an order whose call ended unsure, by a question on its flow. What is settled stays as it is, and who
        asks for one that is under way waits for its end."""
        if kept.token in self._under_way:
            return await asyncio.shield(self._under_way[kept.token])
        if kept.state not in ("open", "unsure"):
            return kept
        return await self._alone(kept.token, self._settled(target, kept))

    async def find(self, token: str) -> Kept | None:
        """The order of this token."""
        found: Kept | None = await self._journal.do(lambda base: _found(base, "token = ?", (token,)))
        return found

    async def _alone(self, token: str, act: Coroutine[Any, Any, Kept]) -> Kept:
        """Runs the act to its end, also if its program is gone meanwhile."""
        task: asyncio.Task[Kept] = asyncio.get_running_loop().create_task(act)
        self._under_way[token] = task
        task.add_done_callback(lambda _: self._under_way.pop(token, None))
        return await asyncio.shield(task)

    async def _made(self, wanted: Wanted, before: Kept | None) -> Kept:
        """Notes the order, and makes its call. `before`: the same order, of which nothing happened."""
        port = min(wanted.target.from_ports, key=lambda it: self._open.get(it, 0))
        token = before.token if before else secrets.token_hex(8)
        # counted from here on, so that orders that are made meanwhile take other ports
        self._open[port] = self._open.get(port, 0) + 1
        try:
            kept, floor = await self._journal.do(lambda base: _noted(base, token, port, wanted, self._keep))
            return await self._alone(token, self._called(wanted, kept, floor))
        finally:
            self._open[port] -= 1

    async def _called(self, wanted: Wanted, kept: Kept, floor: int) -> Kept:
        order = Order(self._store, kept.number, floor, wanted.path, wanted.type)
        try:
            return await self._ended(wanted.target, kept, packed(order, wanted.body))
        except deltat.Declined as why:
            return await self._kept(kept, "declined", why.status.name.encode())

    async def _settled(self, target: Target, kept: Kept) -> Kept:
        floor = await self._journal.do(lambda base: _floor(base, kept.port))
        try:
            return await self._ended(target, kept, packed(Question(self._store, kept.number, floor)))
        except deltat.Declined as why:
            # (that nothing of a question was sent says nothing of its order)
            return await self._kept(kept, "unsure", why.status.name.encode())

    async def _ended(self, target: Target, kept: Kept, payload: bytes) -> Kept:
        """Makes a call, and keeps what it says of the order. Raises Declined."""
        try:
            outcome, body = unpacked_outcome(await self._patiently(target, kept.port, payload))
        except deltat.Unsure as why:
            return await self._kept(kept, "unsure", why.cause.name.encode())
        except BadMessage as why:
            log.error("node %d, port %d: the reply is no gateway's: %s", target.node, target.port, why)
            return await self._kept(kept, "unsure", b"BAD_REPLY")
        return await self._kept(kept, outcome.fate, body, outcome)

    async def _patiently(self, target: Target, port: int, payload: bytes) -> bytes:
        """Makes a call, after the silence of a start if that ends within the timeout. Raises Unsure, Declined."""
        flow = deltat.Flow(self._node, port, target.node, target.port)
        try:
            return await self._calls.call(flow, payload, target.timeout)
        except deltat.Declined as why:
            silence = (why.until - deltat.now()) / 1000 if why.until else 0.0
            if not 0 < silence <= target.timeout:
                raise
        await asyncio.sleep(silence)
        return await self._calls.call(flow, payload, target.timeout)

    async def _kept(self, kept: Kept, state: str, body: bytes, outcome: Outcome = Outcome("")) -> Kept:
        made = replace(kept, state=state, status=outcome.status, type=outcome.type, body=body)
        await self._journal.do(lambda base: _keep(base, made))
        return made


def _opened(base: sqlite3.Connection) -> str:
    base.execute("INSERT OR IGNORE INTO store VALUES (1, ?)", (secrets.token_hex(8),))
    base.execute("UPDATE orders SET state = 'unsure', body = CAST('STOPPED' AS BLOB) WHERE state = 'open'")
    return str(base.execute("SELECT id FROM store").fetchone()[0])


def _found(base: sqlite3.Connection, where: str, words: tuple[Any, ...]) -> Kept | None:
    row = base.execute(f"SELECT {Kept.COLUMNS} FROM orders WHERE {where}", words).fetchone()
    return Kept(*row) if row else None


def _floor(base: sqlite3.Connection, port: int) -> int:
    """The least number of this port's orders that may be asked about."""
    words = "SELECT min(number) FROM orders WHERE port = ? AND state IN ('open', 'unsure')"
    least = base.execute(words, (port,)).fetchone()[0]
    if least is not None:
        return int(least)
    row = base.execute("SELECT next FROM counts WHERE port = ?", (port,)).fetchone()
    return int(row[0]) if row else 1


def _noted(base: sqlite3.Connection, token: str, port: int, wanted: Wanted, keep: float) -> tuple[Kept, int]:
    """Gives the order a number, and notes it; with the floor of its port."""
    now = time.time()
    words = f"token IN (SELECT token FROM orders WHERE at < ? AND token != ? LIMIT {DROPPED})"
    base.execute(f"DELETE FROM orders WHERE {words}", (now - keep, token))
    base.execute("INSERT OR IGNORE INTO counts VALUES (?, 1)", (port,))
    number = base.execute("UPDATE counts SET next = next + 1 WHERE port = ? RETURNING next - 1", (port,)).fetchone()[0]
    base.execute("DELETE FROM orders WHERE token = ?", (token,))
    row = (token, wanted.target.name, wanted.key, wanted.digest, port, number, "open", now)
    base.execute("INSERT INTO orders (token, name, key, digest, port, number, state, at) VALUES (?,?,?,?,?,?,?,?)", row)
    kept = Kept(token, wanted.target.name, port, number, "open", 0, "", b"", wanted.digest)
    return kept, _floor(base, port)


def _keep(base: sqlite3.Connection, made: Kept) -> None:
    words = (made.state, made.status, made.type, made.body, made.token, made.number)
    base.execute("UPDATE orders SET state = ?, status = ?, type = ?, body = ? WHERE token = ? AND number = ?", words)
