"""The HTTP server of the near side.

    POST /NAME[/PATH]   makes an order, once for one Idempotency-Key
    GET /calls/TOKEN    what is known of an order, or its answer
    POST /ask/TOKEN     settles an order whose call ended unsure"""
import asyncio
import hashlib
import http.server
import json
import logging
import os
import socket
import socketserver
from collections.abc import Mapping
from pathlib import Path
from typing import Any

from .orders import MOST_BODY, Kept, KeyReused, Orders, Wanted
from .settings import Target

KEY = "Idempotency-Key"
MOST_KEY, MOST_PATH, MOST_TYPE = 255, 1_024, 255
# seconds in which a program must send its request, and how many may be connected
SLOW, CONNECTIONS = 30, 512
log = logging.getLogger("gateway")
# what a POST is answered with where the HTTP server gave no answer
STATUSES = {"declined": 409, "never": 409, "unsure": 504, "open": 504, "begun": 504, "forgotten": 410}


class Refused(Exception):
    """The request is answered by this status and text, and nothing happened."""

    def __init__(self, status: int, text: str) -> None:
        super().__init__(text)
        self.status = status


class Front:
    """The near side's HTTP server, with its threads. `close` ends it."""

    def __init__(self, listen: "tuple[str, int] | Path", targets: Mapping[str, Target], orders: Orders) -> None:
        """Binds. Raises OSError."""
        self.targets, self.orders, self.loop = targets, orders, asyncio.get_running_loop()
        self.server: _Server | _UnixServer
        self.server = _unix(listen, _Handler) if isinstance(listen, Path) else _Server(listen, _Handler)
        self.server.front = self

    def run(self) -> None:
        """Serves, until it is closed."""
        self.server.serve_forever(0.1)

    def close(self) -> None:
        self.server.shutdown()
        self.server.server_close()

    def wait_for(self, act: Any) -> Any:
        """Runs the act in the node's loop, from another thread."""
        return asyncio.run_coroutine_threadsafe(act, self.loop).result()


class _Threads(socketserver.ThreadingMixIn):
    """A thread for each connection. A client that is gone is no error of the server's."""

    daemon_threads = True
    request_queue_size = CONNECTIONS
    front: Front

    def handle_error(self, request: Any, client_address: Any) -> None:
        log.debug("a connection of %s broke", client_address, exc_info=True)


class _Server(_Threads, http.server.HTTPServer):
    """Over TCP."""


class _UnixServer(_Threads, http.server.HTTPServer):
    """Over a Unix socket."""

    address_family = socket.AF_UNIX

    def server_bind(self) -> None:
        socketserver.TCPServer.server_bind(self)
        self.server_name, self.server_port = "localhost", 0

    def get_request(self) -> tuple[Any, Any]:
        made, _ = self.socket.accept()
        return made, ("local", 0)


def _unix(path: Path, handler: type[http.server.BaseHTTPRequestHandler]) -> _UnixServer:
    """Binds a Unix socket; one that an earlier run left, and that nobody serves, is removed."""
    with socket.socket(socket.AF_UNIX) as probe:
        if path.is_socket() and probe.connect_ex(str(path)) != 0:
            os.unlink(path)
    return _UnixServer(str(path), handler)  # type: ignore[arg-type]  # (a path is this family's address)


class _Handler(http.server.BaseHTTPRequestHandler):
    protocol_version = "HTTP/1.1"
    server_version, sys_version = "deltat-gateway", ""
    timeout = SLOW
    server: _Server

    def do_POST(self) -> None:
        try:
            body = self._body()
            words = self.path.lstrip("/").split("/", 1)
            if words[0] == "ask" and len(words) == 2:
                self._show(self._asked(words[1]))
            else:
                self._show(self._posted(words, body))
        except Refused as why:
            self._say(why.status, {"error": str(why)})

    def do_GET(self) -> None:
        try:
            words = self.path.lstrip("/").split("/")
            if len(words) != 2 or words[0] != "calls":
                raise Refused(404, "GET knows /calls/TOKEN only; an order is made by POST /NAME")
            self._show(self._kept(words[1]), is_told=True)
        except Refused as why:
            self._say(why.status, {"error": str(why)})

    def _body(self) -> bytes:
        length = self.headers.get("Content-Length")
        if length is None or not length.isdigit():
            self.close_connection = True
            raise Refused(411, "Content-Length is missing")
        if int(length) > MOST_BODY:
            self.close_connection = True
            raise Refused(413, f"the body has {length} octets; at most {MOST_BODY} fit in a call")
        return self.rfile.read(int(length))

    def _posted(self, words: list[str], body: bytes) -> Kept:
        front = self.server.front
        target = front.targets.get(words[0])
        if target is None:
            raise Refused(404, f"there is no service {words[0]!r}; there are {', '.join(sorted(front.targets))}")
        key = self.headers.get(KEY)
        if key is None and target.keys:
            raise Refused(400, f"give the order a name of its own in {KEY}, so that a retry isn't another order")
        path, kind = "/" + words[1] if len(words) == 2 else "", self.headers.get("Content-Type", "")
        bounds = ((KEY, key or "", MOST_KEY), ("the path", path, MOST_PATH), ("Content-Type", kind, MOST_TYPE))
        for what, text, most in bounds:
            if len(text.encode()) > most:
                raise Refused(400, f"{what} has more than {most} octets")
        digest = hashlib.sha256(b"\0".join((path.encode(), kind.encode(), body))).digest()
        try:
            made: Kept = front.wait_for(front.orders.post(Wanted(target, path, kind, body, digest, key)))
        except KeyReused:
            raise Refused(422, f"this {KEY} is that of another order") from None
        return made

    def _kept(self, token: str) -> Kept:
        front = self.server.front
        kept: Kept | None = front.wait_for(front.orders.find(token))
        if kept is None:
            raise Refused(404, "there is no order with this token, or it was dropped since")
        return kept

    def _asked(self, token: str) -> Kept:
        front, kept = self.server.front, self._kept(token)
        target = front.targets.get(kept.name)
        if target is None:
            raise Refused(404, f"the order's service {kept.name!r} isn't in the settings any more")
        asked: Kept = front.wait_for(front.orders.ask(target, kept))
        return asked

    def _show(self, kept: Kept, is_told: bool = False) -> None:
        """Answers with an order: its server's answer, or what is known of it."""
        if kept.state == "answered":
            self._answer(kept.status, kept.type, kept.body, kept)
            return
        cause = kept.body.decode(errors="replace")
        said = {"token": kept.token, "state": kept.state, "cause": cause, "says": SAYS[kept.state]}
        self._say(200 if is_told else STATUSES[kept.state], said, kept)

    def _say(self, status: int, said: Mapping[str, str], kept: Kept | None = None) -> None:
        self._answer(status, "application/json", json.dumps(said).encode() + b"\n", kept)

    def _answer(self, status: int, kind: str, body: bytes, kept: Kept | None) -> None:
        self.send_response(status)
        self.send_header("Content-Type", kind or "application/octet-stream")
        self.send_header("Content-Length", str(len(body)))
        if kept is not None:
            self.send_header("Deltat-Token", kept.token)
            self.send_header("Deltat-State", kept.state)
        self.end_headers()
        self.wfile.write(body)

    def log_message(self, format: str, *args: Any) -> None:
        log.debug("%s " + format, self.address_string(), *args)

    def log_error(self, format: str, *args: Any) -> None:
        log.info("%s " + format, self.address_string(), *args)


SAYS = {
    "open": "the call is under way",
    "unsure": "the order was or will be served once, or never: POST /ask/TOKEN, or repeat it with its key",
    "declined": "nothing of it was sent: it may be made again",
    "never": "it wasn't served and won't be: it may be made again",
    "begun": "the HTTP server has it, and the far gateway ended before the answer: only the server knows",
    "forgotten": "the far gateway was told that nobody would ask",
}
