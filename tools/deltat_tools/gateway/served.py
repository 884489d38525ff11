"""The far side: requests of calls are handed to an HTTP server, each at most once, and questions are answered.

The journal has a row for each order that was handed over, from before it is handed over on. Requests of a flow are
handed out in order and one at a time, over all restarts of both ends: so where a question finds no row, the order
before it on its flow will never be handed out."""
import asyncio
import http.client
import logging
import sqlite3
from typing import Any, NamedTuple

import deltat

from .journal import Journal
from .messages import BadMessage, Order, Outcome, Question, packed, unpacked_request
from .settings import Backend

SCHEMA = """
CREATE TABLE IF NOT EXISTS served (
    flow TEXT NOT NULL, store TEXT NOT NULL, number INTEGER NOT NULL, status INTEGER NOT NULL, type TEXT NOT NULL,
    body BLOB NOT NULL, PRIMARY KEY (flow, store, number)) WITHOUT ROWID;
CREATE TABLE IF NOT EXISTS floors (
    flow TEXT NOT NULL, store TEXT NOT NULL, floor INTEGER NOT NULL, PRIMARY KEY (flow, store)) WITHOUT ROWID;
"""
# the status of a row whose server hasn't answered
BEGUN = 0
MOST_ANSWER = 60_000
log = logging.getLogger("gateway")


class Answer(NamedTuple):
    """What an HTTP server answered."""

    status: int
    type: str
    body: bytes


def asked(backend: Backend, order: Order, body: bytes) -> Answer:
    """Hands an order to its HTTP server, once. What went wrong is an answer too: 502 if the server wasn't reached, so
    that nothing happened there, or if its answer is too long or no HTTP; 504 if it has the order and no answer came."""
    connection = http.client.HTTPConnection(backend.host, backend.tcp_port, timeout=backend.timeout)
    try:
        try:
            connection.connect()
        except OSError as why:
            return Answer(502, "text/plain", f"the server wasn't reached, so nothing happened: {why}\n".encode())
        connection.request("POST", backend.path + order.path, body, {"Content-Type": order.type, "Connection": "close"})
        response = connection.getresponse()
        octets = response.read(MOST_ANSWER + 1)
        if len(octets) > MOST_ANSWER:
            return Answer(502, "text/plain", f"the server's answer has more than {MOST_ANSWER} octets\n".encode())
        return Answer(response.status, response.getheader("Content-Type") or "application/octet-stream", octets)
    except (OSError, http.client.HTTPException) as why:
        return Answer(504, "text/plain", f"the server has the order, and gave no answer: {why!r}\n".encode())
    finally:
        connection.close()


class Served:
    """Serves a port for one HTTP server."""

    def __init__(self, journal: Journal, backend: Backend) -> None:
        self._journal, self._backend = journal, backend

    async def serve(self, request: deltat.Request) -> bytes:
        """The reply to a request. Raises BadMessage: the request is forgotten, and the log says so."""
        head, body = unpacked_request(request.payload)
        flow = str(request.token.flow)
        if isinstance(head, Question):
            return await self._told(flow, head)
        order = head
        row = await self._journal.do(lambda base: _begin(base, flow, order))
        if row is not None:
            # (a store that was copied: two near gateways with one state folder's contents)
            log.error("order %d of store %s on %s was handed out before; it isn't again", head.number, head.store, flow)
            return _outcome(row)
        loop = asyncio.get_running_loop()
        answer = await loop.run_in_executor(None, asked, self._backend, order, body)
        await self._journal.do(lambda base: _end(base, flow, order, answer))
        return packed(Outcome("answered", answer.status, answer.type), answer.body)

    async def _told(self, flow: str, question: Question) -> bytes:
        row = await self._journal.do(lambda base: _look_up(base, flow, question))
        return _outcome(row)


def _outcome(row: tuple[Any, ...]) -> bytes:
    fate, status, kind, body = row
    return packed(Outcome(fate, status, kind), body)


def _drop(base: sqlite3.Connection, flow: str, head: Order | Question) -> None:
    """Drops the rows that won't be asked about."""
    base.execute(
        "INSERT INTO floors VALUES (?, ?, ?) ON CONFLICT DO UPDATE SET floor = max(floor, excluded.floor)",
        (flow, head.store, head.floor),
    )
    base.execute("DELETE FROM served WHERE flow = ? AND store = ? AND number < ?", (flow, head.store, head.floor))


def _row(base: sqlite3.Connection, flow: str, head: Order | Question) -> tuple[Any, ...] | None:
    """The fate, status, type and body of an order, if there is a row or if it is below the floor."""
    words = (flow, head.store, head.number)
    found = base.execute("SELECT status, type, body FROM served WHERE flow = ? AND store = ? AND number = ?", words)
    row = found.fetchone()
    if row is not None:
        return ("begun" if row[0] == BEGUN else "answered", *row)
    floor = base.execute("SELECT floor FROM floors WHERE flow = ? AND store = ?", words[:2]).fetchone()
    return ("forgotten", 0, "", b"") if floor is not None and head.number < floor[0] else None


def _begin(base: sqlite3.Connection, flow: str, order: Order) -> tuple[Any, ...] | None:
    """Notes that an order will be handed over, or returns what is known of it already."""
    _drop(base, flow, order)
    row = _row(base, flow, order)
    if row is None:
        base.execute("INSERT INTO served VALUES (?, ?, ?, ?, '', x'')", (flow, order.store, order.number, BEGUN))
    return row


def _end(base: sqlite3.Connection, flow: str, order: Order, answer: Answer) -> None:
    base.execute(
        "UPDATE served SET status = ?, type = ?, body = ? WHERE flow = ? AND store = ? AND number = ?",
        (*answer, flow, order.store, order.number),
    )


def _look_up(base: sqlite3.Connection, flow: str, question: Question) -> tuple[Any, ...]:
    _drop(base, flow, question)
    return _row(base, flow, question) or ("never", 0, "", b"")


__all__ = ["SCHEMA", "BadMessage", "Served"]
