#!/usr/bin/env python3
"""Counters of nodes for Prometheus, in OpenMetrics: of counters files, of logs, or of both.

    tools/counters.py --counters /run/deltat --listen 9400       what running drivers count (docs/formats.md)
    tools/counters.py --logs /var/log/deltat/pump --listen 9400  the logs of `deltat node`, as they grow
    deltat node < SCRIPT | tools/counters.py --listen 9400       a log from standard input

--counters takes a counters file, or a folder, of which each file *.counters is read, those of folders in it too; it may
be given several times. The counters continue over restarts of the nodes, and if a file is lost. --logs takes a folder
with one log for each start of a node, each *.log in the order of their names, and continues with the next one; folders
in it are of further nodes. Without either, the log is standard input. --through passes that on to standard output.

The port is one of 127.0.0.1, and serves any path. --file replaces a file as a whole each time, in Prometheus' format,
which a node exporter's textfile collector takes. With neither, the counters are written to standard output when the
log ends, or, of counters files alone, at once.

Memory is bounded: --flows flows and nodes of logs have counters of their own, all others are counted together as
"other", and a line that is longer than any of a node is skipped. If a pipe brings more lines than can be counted, the
rest is skipped and counted as that (deltat_skipped_lines_total).

Statuses: 0 the log ended, or SIGTERM or SIGINT; 1 a file or a port can't be used; 2 the words are wrong."""
import argparse
import errno
import fcntl
import logging
import os
import pathlib
import signal
import sys
import tempfile
import termios
import threading
import time
from collections.abc import Callable
from http.server import BaseHTTPRequestHandler, ThreadingHTTPServer
from typing import BinaryIO

from deltat_tools import metrics, told
from deltat_tools.log_counts import LONGEST, Counts
from deltat_tools.watched import Files

log = logging.getLogger("counters")
Text = Callable[[bool], str]
"""The metrics: in OpenMetrics (True), or in Prometheus' older format."""
BLOCK = 1 << 16
PIPE = 1 << 20
LOOK = 0.2


def write(path: str, text: str) -> None:
    """Replaces a file as a whole."""
    folder = os.path.dirname(os.path.abspath(path))
    handle, part = tempfile.mkstemp(prefix=".counters-", dir=folder)
    try:
        with os.fdopen(handle, "w", encoding="ascii") as out:
            out.write(text)
        os.chmod(part, 0o644)
        os.replace(part, path)
    except OSError:
        os.unlink(part)
        raise


def serve(port: int, text: Text) -> ThreadingHTTPServer:
    """A server of the metrics on a port of 127.0.0.1; port 0 is one that the machine chooses."""

    class Handler(BaseHTTPRequestHandler):
        """Answers any path with the metrics, in the format that is asked for."""

        timeout = 10

        def do_GET(self) -> None:  # noqa: N802, a name of the library
            is_open = metrics.OPENMETRICS in self.headers.get("Accept", "")
            body = text(is_open).encode()
            self.send_response(200)
            self.send_header("Content-Type", metrics.TYPES[is_open])
            self.send_header("Content-Length", str(len(body)))
            self.end_headers()
            self.wfile.write(body)

        def log_message(self, format: str, *args: object) -> None:  # noqa: A002
            """Nothing: the log is for faults."""

    server = ThreadingHTTPServer(("127.0.0.1", port), Handler)
    threading.Thread(target=server.serve_forever, daemon=True).start()
    return server


# --- logs


class Pipe:
    """Standard input, if it is a pipe: how much waits in it."""

    def __init__(self, lines: BinaryIO) -> None:
        self._number, self._size = lines.fileno(), 0
        try:
            self._size = fcntl.fcntl(self._number, fcntl.F_SETPIPE_SZ, PIPE)
        except OSError:
            pass  # (a file, or a system that allows no larger pipe)

    @property
    def is_full(self) -> bool:
        """Whether its writer may have to wait."""
        if not self._size:
            return False
        waits = fcntl.ioctl(self._number, termios.FIONREAD, b"\0\0\0\0")
        return int.from_bytes(waits, sys.byteorder) > self._size * 3 // 4


class Lines:
    """Octets of logs, cut into whole lines."""

    def __init__(self, counts: Counts) -> None:
        self._counts, self._rest = counts, b""
        # the line that is begun is too long, and counted as that; or it was left out, and isn't counted yet
        self._is_long = self._is_left_out = False

    def take(self, octets: bytes) -> None:
        """Counts the lines that are whole now."""
        if self._is_long or self._is_left_out:
            _, end, octets = octets.partition(b"\n")
            if not end:
                return
            self._counts.skip(int(self._is_left_out))
            self._is_long = self._is_left_out = False
        whole, end, rest = (self._rest + octets).rpartition(b"\n")
        self._counts.lines(whole + end)
        self._rest = rest
        if len(rest) >= LONGEST:
            self._counts.unread()
            self._rest, self._is_long = b"", True

    def skip(self, octets: bytes) -> None:
        """Leaves these out, and the lines of which they are a part, and counts how many lines that are."""
        self._counts.skip(octets.count(b"\n") - self._is_long * (b"\n" in octets))
        self._is_left_out = not octets.endswith(b"\n") if b"\n" in octets else not self._is_long
        self._is_long, self._rest = self._is_long and b"\n" not in octets, b""

    def end(self) -> None:
        """The last line has no line feed."""
        if self._rest:
            self._counts.lines(self._rest + b"\n")
        self._counts.skip(int(self._is_left_out))
        self._rest, self._is_long, self._is_left_out = b"", False, False


def follow(source: BinaryIO, counts: Counts, out: BinaryIO | None, skips: bool) -> None:
    """Counts the lines of a log until it ends, and passes them on if that is asked for. Half of a pipe that is full is
    left out (`skips`), since a node waits for whoever reads its log: so as much is counted as this machine can."""
    pipe, lines = Pipe(source), Lines(counts)
    while octets := os.read(source.fileno(), BLOCK):
        if out:
            out.write(octets)
            out.flush()
        lines.take(octets)
        if skips and pipe.is_full:
            lines.skip(os.read(source.fileno(), PIPE // 2))
    lines.end()


def follow_logs(top: pathlib.Path, counts: Counts) -> None:
    """Counts the logs of a folder and of all below it, each by a thread. Never returns."""
    known: set[pathlib.Path] = set()
    if not top.is_dir():
        raise NotADirectoryError(errno.ENOTDIR, "is no folder", str(top))
    while True:
        for folder in sorted({it.parent for it in top.rglob("*.log")} - known):
            known.add(folder)
            threading.Thread(target=follow_folder, args=(folder, counts), daemon=True).start()
        time.sleep(LOOK)


def follow_folder(folder: pathlib.Path, counts: Counts) -> None:
    """Counts the logs of a node, in the order of their names, and then what is added. Never returns."""
    done = ""
    while True:
        for path in sorted(it for it in folder.glob("*.log") if it.name > done):
            try:
                follow_log(path, counts)
            except OSError as why:
                log.error("%s can't be counted: %s", path, why)
            done = path.name
        time.sleep(LOOK)


def follow_log(path: pathlib.Path, counts: Counts) -> None:
    """Counts a log, until there is a later one. One that was cut off is read from its beginning."""
    lines = Lines(counts)
    log.info("%s is counted", path)
    with open(path, "rb", buffering=0) as source:
        is_last = False
        while True:
            while octets := source.read(PIPE):
                lines.take(octets)
            if is_last:
                return lines.end()
            if os.fstat(source.fileno()).st_size < source.tell():
                source.seek(0)
                continue
            is_last = any(it.name > path.name for it in path.parent.glob("*.log"))
            if not is_last:
                time.sleep(LOOK)


# --- the tool


def write_again(path: str, text: Text, every: float, ended: threading.Event) -> None:
    """Replaces the file every so often, and once more when the log has ended."""
    while True:
        last = ended.wait(every)
        try:
            write(path, text(False))
        except OSError as fault:
            log.warning("%s can't be written: %s; the counters there are old", path, fault.strerror)
        if last:
            return


def arguments() -> argparse.Namespace:
    parser = argparse.ArgumentParser(description=__doc__, formatter_class=argparse.RawDescriptionHelpFormatter)
    parser.add_argument(
        "--counters",
        metavar="PATH",
        type=pathlib.Path,
        action="append",
        default=[],
        help="a counters file, or a folder of them",
    )
    parser.add_argument("--logs", metavar="FOLDER", type=pathlib.Path, help="the folder of a node's logs")
    parser.add_argument("--file", metavar="PATH", help="replace this file by the counts, again and again")
    parser.add_argument("--every", type=float, default=1.0, metavar="SECONDS", help="how often (default: %(default)s)")
    parser.add_argument("--listen", type=int, metavar="PORT", help="serve the counts on this port of 127.0.0.1; 0: any")
    parser.add_argument(
        "--flows", type=int, default=10_000, metavar="N", help="flows with counts of their own (default: %(default)s)"
    )
    parser.add_argument("--through", action="store_true", help="pass the log on to standard output")
    parser.add_argument(
        "--all", action="store_true", help="skip no line of a pipe, however long its writer waits; with --through too"
    )
    parser.add_argument("--level", default="INFO", choices=told.LEVELS, help="which lines of its own log are written")
    given = parser.parse_args()
    if given.every <= 0:
        parser.error(f"--every is {given.every:g}; it must be above 0")
    if given.flows < 1:
        parser.error(f"--flows is {given.flows}; it must be at least 1")
    if given.through and (given.logs or given.counters):
        parser.error("--through is for a log from standard input, without --logs and --counters")
    return given


def count(given: argparse.Namespace, counts: Counts) -> None:
    """Counts what is asked for, until it ends."""
    if given.logs:
        follow_logs(given.logs, counts)
    elif not given.counters:
        follow(sys.stdin.buffer, counts, sys.stdout.buffer if given.through else None, not (given.all or given.through))
    elif given.file or given.listen is not None:
        threading.Event().wait()


def run(given: argparse.Namespace, text: Text, counts: Counts) -> None:
    """Serves the metrics while they are counted."""
    ended, writer = threading.Event(), None
    try:
        if given.file:
            write(given.file, text(False))
            writer = threading.Thread(target=write_again, args=(given.file, text, given.every, ended))
            writer.start()
        if given.listen is not None:
            server = serve(given.listen, text)
            log.info("the counters are at http://127.0.0.1:%d/metrics", server.server_port)
        count(given, counts)
    finally:
        ended.set()
        if writer:
            writer.join()


def stop(*_: object) -> None:
    raise KeyboardInterrupt


def main() -> int:
    given = arguments()
    told.begin(given.level)
    signal.signal(signal.SIGTERM, stop)
    counts, files = Counts(given.flows), Files(given.counters)
    has_logs = bool(given.logs or not given.counters)

    def text(is_open: bool) -> str:
        logs = list(counts.families()) if has_logs else []
        return metrics.text_of([*logs, *(files.families() if given.counters else ())], is_open)

    try:
        run(given, text, counts)
    except KeyboardInterrupt:
        pass
    except (OSError, OverflowError) as fault:
        is_in_use = isinstance(fault, OSError) and fault.errno == errno.EADDRINUSE
        why = f"port {given.listen} is in use; stop the other program, or choose another port" if is_in_use else fault
        print(f"counters.py: {why}", file=sys.stderr)
        return 1
    if not given.file and given.listen is None and not given.through:
        sys.stdout.write(text(False))
    return 0


if __name__ == "__main__":
    sys.exit(main())
