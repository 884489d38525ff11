#!/usr/bin/env python3
"""You are the network: you lose, repeat, hold back and deliver the packets between a client and a dispenser, and kill
them.

    tools/demo.py [SCHEDULE] [--port N] [--no-browser]
    tools/demo.py [SCHEDULE] --terminal

The client orders cups. Each of your moves is done to four protocols at once: Delta-t, as two nodes that `deltat
replay` runs, and models of HTTP with retries, HTTP with keys in memory and CoAP's confirmable messages. At the end
there are the log, the verdict of `deltat audit`, and the schedule: keep it, replay it, or give it to this tool again.

The page is served on 127.0.0.1, until Ctrl-C. Ends with 2 if something is wrong."""
import argparse
import json
import os
import sys
import threading
import webbrowser
from collections.abc import Iterable, Sequence
from http.server import BaseHTTPRequestHandler, ThreadingHTTPServer
from pathlib import Path
from typing import Any

from deltat_tools.arguments import number
from deltat_tools.lanes import Side
from deltat_tools.play import BadMove, Game, Move, hands_of, play, read_move, read_moves
from deltat_tools.replayed import Broken, default_program

HERE = Path(__file__).resolve().parent
PLACE = '<script id="start" type="application/json">{}</script>'
MOST_BODY = 65_536
POLICY = (
    "default-src 'none'; style-src 'unsafe-inline'; script-src 'unsafe-inline'; connect-src 'self'; "
    "base-uri 'none'; form-action 'none'; frame-ancestors 'none'"
)


class Table:
    """The game that the page plays. The page sends all moves each time; those that are new are done."""

    def __init__(self, program: str):
        self.program = program
        self.game = Game(program)
        self.lock = threading.Lock()

    def play(self, texts: Sequence[str], is_slow: bool) -> dict[str, Any]:
        """What the page shows after these moves."""
        with self.lock:
            done = [str(it) for it in self.game.moves]
            if done != list(texts[: len(done)]) or self.game.is_slow != is_slow:
                self.game, done = Game(self.program, is_slow), []
            try:
                for text in texts[len(done) :]:
                    self.game.do(read_move(text))
                return self.game.view()
            except BaseException:
                # a move that was done in part is none that a game may continue from
                self.game = Game(self.program)
                raise


class Handler(BaseHTTPRequestHandler):
    """Serves the page and its moves, to this machine's own page only."""

    server: "Server"
    protocol_version = "HTTP/1.1"
    timeout = 60

    def log_message(self, format: str, *args: Any) -> None:  # pylint: disable=redefined-builtin
        """Requests aren't logged."""

    def reply(self, status: int, kind: str, octets: bytes) -> None:
        self.send_response(status)
        for name, value in (
            ("Content-Type", kind),
            ("Content-Length", str(len(octets))),
            ("Cache-Control", "no-store"),
            ("Content-Security-Policy", POLICY),
            ("X-Content-Type-Options", "nosniff"),
        ):
            self.send_header(name, value)
        self.end_headers()
        self.wfile.write(octets)

    def reply_json(self, status: int, value: dict[str, Any]) -> None:
        self.reply(status, "application/json", json.dumps(value).encode())

    def is_own(self) -> bool:
        """Whether the request is one of this page: another page's script has another host or origin."""
        port = self.server.server_address[1]
        hosts = {f"127.0.0.1:{port}", f"localhost:{port}"}
        origin = self.headers.get("Origin")
        return self.headers.get("Host") in hosts and (origin is None or origin in {f"http://{it}" for it in hosts})

    def do_GET(self) -> None:  # pylint: disable=invalid-name
        """The page."""
        if not self.is_own():
            self.reply(403, "text/plain", b"this page is for 127.0.0.1 only\n")
        elif self.path == "/":
            self.reply(200, "text/html; charset=utf-8", self.server.page)
        else:
            self.reply(404, "text/plain", b"there is only /\n")

    def do_POST(self) -> None:  # pylint: disable=invalid-name
        """Moves."""
        try:
            length = int(self.headers.get("Content-Length", ""))
        except ValueError:
            length = -1
        is_json = self.headers.get("Content-Type", "").split(";")[0] == "application/json"
        if not self.is_own() or self.path != "/play" or not is_json or not 0 <= length <= MOST_BODY:
            self.close_connection = True
            self.reply_json(403, {"error": f"moves come from this page, as JSON, {MOST_BODY} octets at most"})
            return
        try:
            self.reply_json(200, self.play(self.rfile.read(length)))
        except BadMove as why:
            self.reply_json(400, {"error": str(why)})
        except Broken as why:
            self.reply_json(500, {"error": str(why)})

    def play(self, octets: bytes) -> dict[str, Any]:
        """What the page shows after the moves of a request."""
        try:
            asked = json.loads(octets)
        except (ValueError, RecursionError):
            raise BadMove("the request isn't JSON") from None
        moves = asked.get("moves") if isinstance(asked, dict) else None
        if not isinstance(moves, list) or not all(isinstance(it, str) for it in moves):
            raise BadMove("the request has no list of moves")
        return self.server.table.play(moves, asked.get("slow") is True)


class Server(ThreadingHTTPServer):
    """The page on this machine."""

    daemon_threads = True

    def __init__(self, port: int, table: Table, page: bytes):
        super().__init__(("127.0.0.1", port), Handler)
        self.table, self.page = table, page


def page_of(moves: Iterable[Move], is_slow: bool) -> bytes:
    """The page, with the moves that it begins with."""
    page = (HERE / "demo.html").read_text(encoding="utf-8")
    start = json.dumps({"moves": [str(it) for it in moves], "slow": is_slow})
    return page.replace(PLACE, PLACE.replace("{}", start)).encode()


def serve(given: argparse.Namespace, moves: Sequence[Move], is_slow: bool) -> None:
    """Serves the page until Ctrl-C."""
    try:
        server = Server(given.port, Table(given.program), page_of(moves, is_slow))
    except OSError as why:
        raise BadMove(f"port {given.port} can't be used: {why.strerror}; choose another --port") from None
    with server:
        where = f"http://127.0.0.1:{server.server_address[1]}/"
        print(f"You are the network: {where}\nCtrl-C ends it.", flush=True)
        if not given.no_browser and (
            sys.platform == "darwin" or os.environ.get("DISPLAY") or os.environ.get("WAYLAND_DISPLAY")
        ):
            webbrowser.open(where)
        try:
            server.serve_forever()
        except KeyboardInterrupt:
            print()


# the terminal

LETTERS = {
    "d": "deliver",
    "l": "lose",
    "t": "twice",
    "h": "hold",
    "y": "delay",
    "r": "release",
    "k": "kill",
    "s": "start",
}
HELP = """o           order a cup            w, w 10     wait 1 s, 10 s
d> d<       deliver the next packet to the dispenser, to the client
l> t> h>    lose it; deliver it and keep a copy; hold it back
y> r>       delay it by 1 s; deliver the oldest that is held back
k> s>       kill the dispenser; start it again (k< s< the client)
u           undo the last move     j           the log, the verdict and the schedule
save FILE   keep the schedule      q           end"""


def typed(line: str) -> Move:
    """The move that a line of the terminal is."""
    words = line.split()
    if words == ["o"]:
        return Move("order")
    if words[0] == "w" and len(words) <= 2:
        seconds = words[1] if len(words) == 2 else "1"
        return read_move(f"wait {int(seconds) * 1000}" if seconds.isascii() and seconds.isdigit() else line)
    if len(line) == 2 and line[0] in LETTERS and line[1] in "<>":
        return Move(LETTERS[line[0]], Side.DISPENSER if line[1] == ">" else Side.CLIENT)
    return read_move(line)


def shown(game: Game) -> str:
    """The state of the game, for the terminal."""
    lines = [f"{game.now / 1000:>6.1f} s               {'to the dispenser >':<30}{'< to the client':<30}cups of orders"]
    to_client = dict(hands_of(game, Side.CLIENT))
    for hands, (name, items) in zip(game.hands.values(), hands_of(game, Side.DISPENSER)):
        texts = [
            ", ".join(it.packet.text + {"held": " (held)", "delayed": " (delayed)"}.get(it.status, "") for it in both)
            or "-"
            for both in (items, to_client[name])
        ]
        lane = hands.lane
        cups = ", ".join(
            f"{order}: {count}{'!' * (count > 1)} {lane.orders[order].name.lower()}"
            for order, count in lane.cups.items()
        )
        down = "".join(
            f" [{side.word} {'is silent' if lane.running[side] else 'is down'}]"
            for side in Side
            if not lane.running[side] or lane.silent_until(side) > lane.now
        )
        lines.append(f"{name:<24}{texts[0][:29]:<30}{texts[1][:29]:<30}{cups or '-'}{down}")
    return "\n".join(lines)


def news(game: Game, seen: dict[str, int]) -> str:
    """What the nodes did since the last time."""
    lines = []
    for name, hands in game.hands.items():
        lines += [f"  {hands.lane.name}: {it.side.word}: {it.text}" for it in hands.lane.marks[seen.get(name, 0) :]]
        seen[name] = len(hands.lane.marks)
    return "".join(f"{line}\n" for line in lines)


def ended(game: Game) -> str:
    """What a game ends with."""
    verdict = game.replayed.verdict()
    log, schedule = game.replayed.log, game.replayed.schedule()
    return f"The log:\n{log}\nThe schedule:\n{schedule}\nThe verdict of `deltat audit`: {verdict}"


class Terminal:
    """The game, line by line."""

    def __init__(self, program: str, moves: Sequence[Move], is_slow: bool):
        self.program, self.is_slow = program, is_slow
        self.game = play(program, moves, is_slow)
        self.seen: dict[str, int] = {}

    def command(self, line: str) -> str:
        """Does what a line says, and returns what is shown."""
        if line in ("?", "help"):
            return HELP
        if line == "j":
            return ended(self.game)
        if line.startswith("save "):
            path = Path(line[5:].strip())
            path.write_text(self.game.replayed.schedule(), encoding="ascii")
            return f"kept: ./deltat replay < {path}"
        if line == "u":
            self.game, self.seen = play(self.program, self.game.moves[:-1], self.is_slow), {}
            news(self.game, self.seen)
            return shown(self.game)
        self.game.do(typed(line))
        return news(self.game, self.seen) + shown(self.game)

    def run(self, lines: Iterable[str]) -> None:
        """Plays until `q` or the end of the input."""
        print(f"You are the network. Make a dispenser pour twice.\n\n{HELP}\n\n{shown(self.game)}", flush=True)
        for line in lines:
            line = line.strip()
            if line == "q":
                break
            try:
                print(self.command(line) if line else shown(self.game), flush=True)
            except (BadMove, OSError) as why:
                print(f"demo.py: {why}; ? shows the letters", flush=True)
        print(ended(self.game))


def prompted() -> Iterable[str]:
    """The lines of the terminal."""
    while True:
        try:
            yield input("> ")
        except (EOFError, KeyboardInterrupt):
            print()
            return


def arguments() -> argparse.Namespace:
    it = argparse.ArgumentParser(description=__doc__, formatter_class=argparse.RawDescriptionHelpFormatter)
    it.add_argument(
        "schedule", nargs="?", metavar="SCHEDULE", help="a schedule that this tool made: the game begins with its moves"
    )
    it.add_argument("--terminal", action="store_true", help="play in this terminal")
    it.add_argument(
        "--port", type=number(0, 65_535, int), default=0, metavar="N", help="the port of the page (one that is free)"
    )
    it.add_argument("--no-browser", action="store_true", help="print the page's address and open nothing")
    it.add_argument(
        "--slow", action="store_true", help="the network may hold packets of the models for longer than 5 s"
    )
    it.add_argument("--program", default=default_program(), metavar="PATH", help="the program deltat (%(default)s)")
    return it.parse_args()


def main() -> int:
    given = arguments()
    try:
        moves, is_slow = (
            read_moves(Path(given.schedule).read_text(encoding="utf-8")) if given.schedule else ([], given.slow)
        )
        play(given.program, moves, is_slow).view()
        if given.terminal:
            Terminal(given.program, moves, is_slow).run(prompted() if sys.stdin.isatty() else sys.stdin)
        else:
            serve(given, moves, is_slow)
    except (BadMove, Broken, OSError, UnicodeDecodeError) as why:
        print(f"demo.py: {why}", file=sys.stderr)
        return 2
    return 0


if __name__ == "__main__":
    sys.exit(main())
