#!/usr/bin/env python3
"""Metrics of living nodes: counters files of the driver, tools/counters.py over them, and what is made for Prometheus.

`tests/metrics.py [CASE ..]`; all cases where none is named.

- layout: the words of lib/udp/counters_file.h, of docs/formats.md and of tools/deltat_tools/counted.py are the same;
- counts: a service and a client (tests/udp/ends.c, with sanitizers) over a relay that loses 5 %: the files have each
  call, each answer, what was sent again, and round trips, as the programs and the relay counted them;
- restarts: the service is killed and started again while a reader looks without pause: no counter ever falls, each
  look is whole, and the openings and lives are those of the starts;
- lost: a file that is removed, or made anew with less in it, continues in the reader;
- refused: files that are none, of another node, or in use; a forked child leaves the file alone;
- alarms: a peer with other parameters is an alarm of the file, and frames that are too old are counted;
- calls: under strace, calls with a counters file make the same system calls as without one;
- python: the files of `deltat.driver` and of `deltat.Udp`;
- served: several files and a log at once over HTTP, in OpenMetrics and in the older format, as promtool reads it;
- logs: a folder of logs, over starts of a node; and how many lines a second are counted, and skipped;
- rules: promtool and systemd-analyze over the files of release/, and the dashboard's metrics are all served.

Ends with 77 where there is no compiler or no archive; a case whose tool is missing says so.

In tests/all: no words, 400 s."""
import argparse
import contextlib
import json
import os
import pathlib
import re
import select
import shutil
import signal
import struct
import subprocess
import sys
import tempfile
import threading
import time
import urllib.request
from collections.abc import Callable

TOP = pathlib.Path(__file__).resolve().parent.parent
sys.path[:0] = [str(TOP / "tools"), str(TOP / "bindings" / "python")]

from deltat_tools import counted, metrics  # noqa: E402
from deltat_tools.watched import Files, Watched  # noqa: E402
from lib import HOST, free_port, skip  # noqa: E402
from udp import ARCHIVE, COMPILER, Built, End, Relay, figures, wants  # noqa: E402

TOOL = [sys.executable, str(TOP / "tools" / "counters.py")]
RELEASE = TOP / "release"
SAMPLE = re.compile(r'([a-z_0-9]+)(?:\{((?:[a-z]+="[^"\\\n]*",?)+)\})? (-?\d+(?:\.\d+)?)')
SUFFIXES = {"counter": ("_total",), "gauge": ("",), "histogram": ("_bucket", "_count", "_sum")}


def value(path: pathlib.Path | str, metric: str, **labels: str) -> int:
    """A counter or a gauge of a file; of counters with several labels the sum of those that fit."""
    it = counted.read(path)
    found = [
        number
        for name, number in [*it.counters(), *it.gauges()]
        if name.metric == metric and set(labels.items()) <= set(name.labels)
    ]
    wants(bool(found), f"{path} has no {metric} {labels}")
    return sum(found)


def openmetrics(text: str) -> dict[tuple[str, str], float]:
    """The samples of a text in OpenMetrics. AssertionError if it isn't that."""
    lines, found, family, kind, seen = text.split("\n"), {}, "", "", set()
    wants(lines[-2:] == ["# EOF", ""], "the text has no end")
    for line in lines[:-2]:
        if line.startswith("# TYPE "):
            _, _, family, kind = line.split(" ")
            wants(family not in seen and kind in SUFFIXES, line)
            seen.add(family)
        elif line.startswith("# HELP "):
            wants(line.split(" ")[2] == family, line)
        else:
            at = SAMPLE.fullmatch(line)
            wants(bool(at), line)
            wants(any(at[1] == family + it for it in SUFFIXES[kind]) and (at[1], at[2] or "") not in found, line)
            found[at[1], at[2] or ""] = float(at[3])
    return found


# --- the driver's file


def layout(built: Built, folder: pathlib.Path) -> str:
    """The three descriptions of the file agree, and the compiler's numbers with them."""
    source = folder / "layout.c"
    source.write_text(
        '#include "counters_file.h"\n#include <stdio.h>\nint main(void) { printf("%d %d %d %d %d %d %d",'
        " COUNTS, COUNT_OWN, GAUGE_FAILED + 1, HISTOGRAMS, BOUNDS, FIRST_GAUGE, COUNTERS_WORDS); }\n"
    )
    program = folder / "layout"
    include = ["-I", str(TOP / "include"), "-I", str(TOP / "lib" / "udp")]
    subprocess.run([COMPILER, "-std=c11", *include, str(source), "-o", str(program)], check=True)
    said = [int(it) for it in subprocess.run([program], capture_output=True, text=True, check=True).stdout.split()]
    mine = [
        len(counted.COUNTERS),
        41,
        len(counted.GAUGES),
        len(counted.HISTOGRAMS),
        len(counted.BOUNDS_US),
        counted.FIRST_GAUGE,
        counted.WORDS,
    ]
    wants(said == mine, f"the header has {said}, the reader {mine}")
    page = (TOP / "docs" / "formats.md").read_text()
    page = page[page.index("## A counters file") :]
    rows = []
    for first, name, labels in re.findall(r"^\| (\d+) \| `(\w+)`((?:,? `\w+`)*) \|", page, re.MULTILINE):
        of_row = re.findall(r"`(\w+)`", labels) or [""]
        rows += [(int(first) + at, name, label) for at, label in enumerate(of_row)]
    places = [(counted.FIRST_COUNTER, counted.COUNTERS), (counted.FIRST_GAUGE, counted.GAUGES)]
    own = [
        (first + at, it.metric, it.labels[0][1] if it.labels else "")
        for first, names in places
        for at, it in enumerate(names)
    ]
    wants(rows == own, "docs/formats.md has other words")
    # (the driver's own counts have the order of their struct)
    header = (TOP / "include" / "deltat_udp.h").read_text()
    struct_ = header[header.index("struct dt_udp_counts {") :].split("};")[0]
    names = re.findall(r"\b(\w+)[,;]", re.sub(r"/\*.*?\*/", "", struct_, flags=re.DOTALL))
    wants(
        len(names) == 26 and names.index("too_old") == 16 and counted.COUNTERS[16].labels == (("cause", "too_old"),),
        "the order",
    )
    return f"{len(own)} numbers and {len(counted.HISTOGRAMS)} histograms"


def ends(built: Built, **keys: object) -> End:
    return End(built("ends"), "serve", "next", node=2, learns=100, **keys)


def asked(built: Built, port: int, **keys: object) -> dict[str, int]:
    words = [f"{key}={it}" for key, it in {"node": 1, "peer": 2, "peer_host": HOST, "peer_port": port, **keys}.items()]
    ran = subprocess.run(
        [built("ends"), "ask", "next", *words], capture_output=True, text=True, timeout=120, check=False
    )
    wants(ran.returncode == 0, f"the client ended with {ran.returncode}: {ran.stdout}{ran.stderr}")
    return figures(ran.stdout)


class Counting(Relay):
    """A relay that counts the client's segments: each is sent first once, and again whenever it comes once more."""

    def __init__(self, loss: float, target: int) -> None:
        super().__init__(loss, target)
        self.first: set[bytes] = set()
        self.again = 0

    def run(self) -> None:
        while not self.over:
            for it in select.select([self.near, self.far], [], [], 0.05)[0]:
                octets, source = it.recvfrom(65536)
                if it is self.near:
                    self.client = source
                    self.count(octets)
                if self.chance.random() < self.loss:
                    self.lost += 1
                elif it is self.near:
                    self.far.sendto(octets, (HOST, self.target))
                elif self.client:
                    self.near.sendto(octets, self.client)

    def count(self, octets: bytes) -> None:
        """Of a frame with data: its flow and number are octets 8 to 15 and 18 to 25."""
        if octets[0] in (1, 2) and octets[1] == 1 and octets[16] == 1:
            name = octets[8:16] + octets[18:26]
            self.again += name in self.first
            self.first.add(name)


def counts(built: Built, folder: pathlib.Path) -> str:
    """A lossy run is counted as the programs and the relay counted it."""
    near, far = folder / "near.counters", folder / "far.counters"
    service = ends(built, counters=far, r=4000)
    relay = Counting(0.05, service.port)
    relay.start()
    try:
        told = asked(built, relay.near_port, count=600, octets=3000, many=8, counters=near, timeout=20000, r=4000)
    finally:
        relay.over = True
        relay.join()
    service.stop()
    sums = {
        it: value(near, it)
        for it in (
            "calls",
            "answered_calls",
            "unsure_calls",
            "sent_segments",
            "resent_segments",
            "queued_octets",
            "acknowledged_octets",
            "uncertain_octets",
            "open_calls",
        )
    }
    wants(sums["calls"] == 600 and sums["answered_calls"] == told["answered"], f"{told} {sums}")
    wants(sums["unsure_calls"] == told["unsure"], f"{told} {sums}")
    wants(
        value(far, "requests") >= told["answered"] and value(far, "replies") == value(far, "requests"), "the service's"
    )
    # each call is 3,008 octets in three segments; what isn't sent first is sent again
    wants(value(near, "queued_octets") == 600 * 3008, f"{sums}")
    wants(value(near, "sent_octets") == value(near, "queued_octets") and sums["sent_segments"] == 1800, f"{sums}")
    seen = len(relay.first), relay.again
    # (the driver repeats the first frame, and not the node: behind the proof that the client hears, and when it asks
    # again)
    wants(
        seen[0] == sums["sent_segments"] and 0 <= seen[1] - sums["resent_segments"] <= 3 and seen[1] > 20,
        f"the relay saw {seen}: {sums}",
    )
    wants(
        sums["acknowledged_octets"] + sums["uncertain_octets"] == sums["queued_octets"] and sums["open_calls"] == 0,
        f"{sums}",
    )
    it = counted.read(near)
    calls, call_us = it.histogram(1)
    trips, _ = it.histogram(0)
    ages, _ = it.histogram(2)
    wants(sum(calls) == told["answered"] and call_us > 0, f"{sum(calls)} calls measured of {told}")
    wants(sum(trips) > 20 and sum(ages) > 600, f"{sum(trips)} round trips, {sum(ages)} ages")
    wants(value(near, "unmeasured") == 0 and it.process == 0 and it.is_whole, "the end")
    return (
        f"600 calls, {told['answered']} answered, {sums['resent_segments']} segments sent again of "
        f"{relay.lost} datagrams lost; {sum(trips)} round trips, {sum(ages)} ages"
    )


class Looking(threading.Thread):
    """Reads a file without pause, and sees whether a counter falls."""

    def __init__(self, path: pathlib.Path) -> None:
        super().__init__(daemon=True)
        self.path, self.over, self.looks, self.torn, self.falls = path, False, 0, 0, list[str]()
        self.lives: list[int] = []

    def run(self) -> None:
        last: dict[object, int] = {}
        watched = Watched(self.path)
        while not self.over:
            if not self.path.exists() or self.path.stat().st_size == 0:
                continue
            watched.look()
            it = watched.last
            if it is None or it.openings == 0:
                continue
            self.looks, self.torn = self.looks + 1, watched.torn
            if it.life not in self.lives:
                self.lives.append(it.life)
            now = {(name.metric, name.labels): number for name, number in it.counters()}
            now["requests less replies"] = 0
            self.falls += [f"{key}: {last[key]} to {now[key]}" for key in last if now[key] < last[key]]
            if it.is_whole and now[("replies", ())] > now[("requests", ())]:
                self.falls.append("a reply before its request")
            last = now


def restarts(built: Built, folder: pathlib.Path) -> str:
    """Killed and started again: the counters continue, and the reader sees each life."""
    path, log = folder / "node.counters", folder / "served"
    looking = Looking(path)
    looking.start()
    total = 0
    for start in range(4):
        service = ends(built, counters=path, state=folder / "state", log=log)
        time.sleep(service.silent / 1000)
        total += asked(built, service.port, node=100 + start, count=400, octets=100, many=16, timeout=4000)["answered"]
        if start < 3:
            service.kill()
        else:
            service.stop()
    looking.over = True
    looking.join()
    served = len(log.read_text().split())
    it = counted.read(path)
    wants(not looking.falls, f"{looking.falls[:3]}")
    wants(
        it.openings == 4 and it.life == 4 and looking.lives == [1, 2, 3, 4],
        f"{it.openings} openings, lives {looking.lives}",
    )
    # (what a killed process had counted since its last look is lost, and nothing else)
    wants(
        served - 3 * 16 <= value(path, "requests") <= served and total <= served,
        f"{value(path, 'requests')} of {served}",
    )
    wants(
        looking.looks > 1000 and looking.torn < looking.looks / 1000 + 2,
        f"{looking.torn} of {looking.looks} looks are torn",
    )
    counts_ = f"{value(path, 'requests')} of {served} requests are counted over 3 kills"
    return f"{counts_}; {looking.looks} looks, {looking.torn} torn, no fall"


def made(path: pathlib.Path, created: int, calls: int, openings: int = 1) -> None:
    """Writes a file as a driver would leave it."""
    words = [0] * counted.WORDS
    words[:8] = [
        int.from_bytes(counted.MAGIC, sys.byteorder),
        counted.VERSION,
        counted.WORDS,
        7,
        created,
        4,
        4,
        openings,
    ]
    words[8] = 1
    at = next(at for at, it in enumerate(counted.COUNTERS) if it.metric == "calls")
    words[counted.FIRST_COUNTER + at] = calls
    path.write_bytes(struct.pack(f"={counted.WORDS}Q", *words))


def lost(built: Built, folder: pathlib.Path) -> str:
    """The reader's counters continue if the file is lost."""
    del built
    path = folder / "a.counters"
    files = Files([folder])
    seen = []
    for created, calls in ((1, 100), (1, 150), (2, 10), (2, 30), (3, 0), (3, 5)):
        made(path, created, calls)
        (it,) = files.look()
        seen.append(it.total("calls"))
    wants(seen == [100, 150, 160, 180, 180, 185], f"{seen}")
    path.unlink()
    (it,) = files.look()
    wants(it.fault and it.total("calls") == 185, "a file that isn't there")
    path.write_bytes(b"x" * 4096)
    (it,) = files.look()
    wants(it.fault and it.total("calls") == 185, "a file that is another one")
    made(path, 4, 1, 2)
    (it,) = files.look()
    wants(
        not it.fault and it.total("calls") == 186 and it.total("openings") == 5,
        f"{it.total('calls')} {it.total('openings')}",
    )
    return f"{seen}, then 186, over four losses"


def refused(built: Built, folder: pathlib.Path) -> str:
    """What can't be a node's counters file is refused, and nothing of it is changed."""
    other, text, of_node = folder / "other", b"something else\n" * 300, folder / "node.counters"
    other.write_bytes(text[:4096])
    made(of_node, 1, 5)
    cases = {
        other: "isn't a counters file",
        of_node: "another node",
        folder: "can't be opened",
        folder / "no" / "where": "can't be opened",
    }
    for path, why in cases.items():
        try:
            ends(built, counters=path).kill()
        except AssertionError as said:
            wants(why in str(said), f"{path}: {said}")
            continue
        raise AssertionError(f"{path} isn't refused")
    wants(other.read_bytes() == text[:4096] and value(of_node, "calls") == 5, "a refused file is changed")
    first = ends(built, counters=folder / "mine.counters")
    try:
        ends(built, counters=folder / "mine.counters").kill()
        raise AssertionError("two drivers have one file")
    except AssertionError as said:
        wants("another process" in str(said), f"{said}")
    first.stop()
    wants(counted.read(folder / "mine.counters").openings == 1, "a refused opening is counted")
    return f"{len(cases)} paths and a file that is in use"


def alarms(built: Built, folder: pathlib.Path) -> str:
    """A peer with other parameters is an alarm, once for its opening."""
    path = folder / "far.counters"
    service = ends(built, counters=path)
    words = [
        "node=1",
        "peer=2",
        f"peer_host={HOST}",
        f"peer_port={service.port}",
        "count=3",
        "octets=10",
        "many=1",
        "timeout=500",
        "r=460",
    ]
    subprocess.run([built("ends"), "ask", "next", *words], capture_output=True, timeout=60, check=False)
    service.stop()
    got = value(path, "dropped_datagrams", cause="other_parameters"), value(path, "alarms"), value(path, "requests")
    wants(got[0] > 0 and got[2] == 0, f"{got}")
    return f"{got[0]} datagrams with other parameters are counted, {got[1]} alarms"


def calls(built: Built, folder: pathlib.Path) -> str:
    """Counting makes no system call of its own."""
    if not shutil.which("strace"):
        return "there is no strace"
    program, found = built("ends", plain=True), {}
    for name, more in (("without", []), ("with", [f"counters={folder / 'far.counters'}"])):
        trace = folder / f"{name}.trace"
        words = ["strace", "-f", "-c", "-o", str(trace), program, "serve", "next", "node=2", "learns=10", *more]
        with subprocess.Popen(words, stdout=subprocess.PIPE, text=True) as service:
            port = int(service.stdout.readline().split()[1])
            asked(built, port, count=500, octets=100, many=1, timeout=4000)
            # (strace ends with its program)
            children = pathlib.Path(f"/proc/{service.pid}/task/{service.pid}/children").read_text().split()
            os.kill(int(children[0]), signal.SIGTERM)
            service.communicate(timeout=30)
        rows = re.findall(r"^ *[\d.]+ +[\d.]+ +\d+ +(\d+) +(?:\d+ +)?(\w+)$", trace.read_text(), re.MULTILINE)
        found[name] = {call: int(count) for count, call in rows if call != "total"}
    usual = {"recvmmsg", "sendmsg", "sendmmsg", "setsockopt", "poll"}
    more = {it: count - found["without"].get(it, 0) for it, count in found["with"].items() if it not in usual}
    more = {it: count for it, count in more.items() if count > 0}
    wants(sum(found["with"].values()) > 900 and max(more.values()) <= 3, f"{found}")
    return f"500 calls, {sum(found['with'].values())} system calls; of the file {more}"


def python(built: Built, folder: pathlib.Path) -> str:
    """Files of deltat.driver, of deltat.Udp, and of a forked child."""
    del built
    import deltat
    from deltat import driver

    params, charge = deltat.Params.for_network(deltat.Network(delay_us=2_000, round_trip_us=1_000, wait_ms=50))
    own, driven = folder / "own.counters", folder / "driven.counters"
    with driver.Udp(
        2, params, charge, HOST, start=deltat.Start.FIRST, service=True, counters=own
    ) as udp, contextlib.ExitStack() as ending:
        udp.open_port(20, deltat.PortKind.SERVICE)
        calls_ = driver.Calls(udp)
        calls_.on(20)(lambda request: request.payload[::-1])
        udp.set_peer(1, HOST, (port := free_port()))
        serving = threading.Thread(target=calls_.run, args=(3.0,))
        serving.start()
        ending.callback(serving.join)
        node = deltat.Service(1, 1, params, [deltat.Link(1, charge)], {2: 1}, start=deltat.Start.FIRST)
        node.set_port(10, deltat.PortKind.CALLER)
        with deltat.Udp(node, (HOST, port), {2: (HOST, udp.port)}, counters=driven) as other:
            mine = deltat.Calls(other)
            for i in range(50):
                wants(
                    mine.call(deltat.Flow(1, 10, 2, 20), b"hello %d" % i, timeout=5.0) == (b"hello %d" % i)[::-1],
                    "an answer",
                )
            if (child := os.fork()) == 0:
                try:
                    mine.call(deltat.Flow(1, 10, 2, 20), b"child", timeout=1.0)
                except deltat.DeltatError:
                    pass
                os._exit(0)
            os.waitpid(child, 0)
            wants(counted.read(driven).process == os.getpid() and value(driven, "open_calls") == 0, "the child wrote")
    got = [value(driven, it) for it in ("calls", "answered_calls", "sent_segments")] + [
        value(own, it) for it in ("requests", "replies")
    ]
    wants(got == [50, 50, 50, 50, 50], f"{got}")
    wants(sum(counted.read(driven).histogram(1)[0]) == 50 and counted.read(driven).life == 1, "what is measured")
    return "50 calls of a driven service, 50 requests of the driver's own; a forked child writes nothing"


# --- what is served


def served(built: Built, folder: pathlib.Path) -> str:
    """Several files and a log at once, over HTTP, while they are written."""
    place, logs = folder / "run", folder / "logs"
    (place / "deeper").mkdir(parents=True)
    logs.mkdir()
    (logs / "node-1.log").write_text("1 1 took 1:10>2:20 5\n2 1 sent 1:10>2:20 0 5 dbe\n")
    far, near = place / "far.counters", place / "deeper" / "near.counters"
    service = ends(built, counters=far)
    with contextlib.ExitStack() as ending, subprocess.Popen(
        [*TOOL, "--counters", str(place), "--logs", str(logs), "--listen", "0"], stderr=subprocess.PIPE, text=True
    ) as tool:
        ending.callback(service.kill)
        try:
            line = tool.stderr.readline()
            wants(bool(re.match(r"\d{4}-\d\d-\d\dT\d\d:\d\d:\d\d\.\d{3}Z INFO counters: ", line)), f"its log: {line}")
            url = line.split()[-1]
            asked(built, service.port, count=300, octets=100, many=8, counters=near, timeout=4000)
            time.sleep(1)
            request = urllib.request.Request(url, headers={"Accept": metrics.OPENMETRICS})
            with urllib.request.urlopen(request, timeout=10) as it:
                kind, text = it.headers["Content-Type"], it.read().decode()
            with urllib.request.urlopen(url, timeout=10) as it:
                plain = it.read().decode()
            ending.close()
            with urllib.request.urlopen(request, timeout=10) as it:
                after = openmetrics(it.read().decode())
        finally:
            tool.terminate()
            status = tool.wait(10)
    samples = openmetrics(text)
    wants(kind.startswith(metrics.OPENMETRICS) and status == 0, f"{kind}, status {status}")
    both = [("1", "near"), ("2", "far")]
    labels = [f'node="{node}",file="{name}"' for node, name in both]
    wants(
        samples["deltat_udp_calls_total", labels[0]] == 300 and samples["deltat_udp_requests_total", labels[1]] == 300,
        "calls",
    )
    wants(samples["deltat_udp_call_seconds_count", labels[0]] == 300, "the histogram")
    wants(samples["deltat_udp_call_seconds_bucket", labels[0] + ',le="+Inf"'] == 300, "its last bucket")
    wants(samples["deltat_udp_open", labels[1]] == 1 and after["deltat_udp_open", labels[1]] == 0, "open, and killed")
    wants(samples["deltat_taken_octets_total", 'node="1",flow="1:10>2:20"'] == 5, "the log")
    checked = "there is no promtool"
    if shutil.which("promtool"):
        ran = subprocess.run(["promtool", "check", "metrics"], input=plain, capture_output=True, text=True, check=False)
        # (it wants names of its own taste; what it can't read is an error)
        wants(ran.returncode in (0, 3) and "error while linting: text format parsing" not in ran.stderr, ran.stderr)
        checked = f"promtool reads {plain.count(chr(10))} lines"
    return f"{len(samples)} samples; {checked}"


LINES = [
    b"%d 1 took 1:10>2:20 300\n",
    b"%d 1 sent 1:10>2:20 %d 300 dbe\n",
    b"%d 1 put 1 482\n",
    b"%d 1 settled 1:10>2:20 300 65536\n",
    b"%d 1 accepted 2:20>1:10 %d 300 on\n",
    b"%d 1 acked 2:20>1:10 %d 65536\n",
]


def block_of(count: int) -> bytes:
    return b"".join(it % ((i, i * 300) if it.count(b"%d") == 2 else i) for i in range(count // 6) for it in LINES)


def at_a_port(url: str) -> dict[tuple[str, str], float]:
    with urllib.request.urlopen(urllib.request.Request(url, headers={"Accept": metrics.OPENMETRICS}), timeout=10) as it:
        return openmetrics(it.read().decode())


def logs(built: Built, folder: pathlib.Path) -> str:
    """Logs of a folder over starts; and a pipe that brings more than can be counted loses no line's count."""
    del built
    (folder / "20260101-000000.log").write_bytes(LINES[0] % 1 * 3)
    with subprocess.Popen([*TOOL, "--logs", str(folder), "--listen", "0"], stderr=subprocess.PIPE, text=True) as tool:
        url, name, seen = (
            tool.stderr.readline().split()[-1],
            ("deltat_taken_octets_total", 'node="1",flow="1:10>2:20"'),
            [],
        )
        steps = [("20260101-000000.log", 2), ("20260102-000000.log", 4), ("20260102-000000.log", 1)]
        for path, more in [("20260101-000000.log", 0), *steps]:
            with open(folder / path, "ab") as out:
                out.write(LINES[0] % 1 * more)
            until = time.monotonic() + 20
            while (
                at_a_port(url).get(name, 0) < 300 * (sum(seen and [seen[-1]] or [3]) + more)
                and time.monotonic() < until
            ):
                time.sleep(0.05)
            seen.append(int(at_a_port(url).get(name, 0)) // 300)
        tool.terminate()
    wants(seen == [3, 5, 9, 10], f"{seen}")
    block, rates = block_of(600_000), {}
    for rate in (None, 1_000_000):
        with subprocess.Popen(TOOL, stdin=subprocess.PIPE, stdout=subprocess.PIPE) as tool:
            begun, longest, pieces = time.monotonic(), 0.0, 60
            for i in range(pieces):
                at = time.monotonic()
                tool.stdin.write(block[len(block) * i // pieces : len(block) * (i + 1) // pieces])
                longest = max(longest, time.monotonic() - at)
                if rate:
                    time.sleep(max(begun + (i + 1) * 600_000 / pieces / rate - time.monotonic(), 0))
            took = time.monotonic() - begun
            tool.stdin.close()
            text = tool.stdout.read().decode()
        lines = {
            it: int(re.search(rf"^deltat_{it}_lines_total (\d+)$", text, re.MULTILINE)[1])
            for it in ("counted", "skipped", "unread")
        }
        wants(lines["counted"] + lines["skipped"] == 600_000 and lines["unread"] <= lines["skipped"], f"{lines}")
        skipped = 100 * lines["skipped"] / 600_000
        waited = f"the writer waited {longest * 1000:.0f} ms at most"
        rates[rate] = f"{600_000 / took:,.0f} lines a second, {skipped:.0f} % skipped, {waited}"
    return f"over starts {seen}; as fast as it goes: {rates[None]}; at 10^6: {rates[1_000_000]}"


def rules(built: Built, folder: pathlib.Path) -> str:
    """The files of release/ for Prometheus, systemd and Grafana."""
    del built
    made(folder / "a.counters", 1, 1)
    families = {it.name: it for it in Files([folder]).families()}
    served_ = {f"{name}{suffix}" for name, it in families.items() for suffix in SUFFIXES[it.kind]}
    board = json.loads((RELEASE / "deltat-dashboard.json").read_text())
    text = " ".join(
        [
            *(target["expr"] for panel in board["panels"] for target in panel["targets"]),
            (RELEASE / "deltat.rules.yml").read_text(),
        ]
    )
    named = set(re.findall(r"\bdeltat_[a-z_]+", text))
    of_logs = {"deltat_counted_lines_total", "deltat_skipped_lines_total", "deltat_uncertain_octets_total"}
    wants(named - of_logs <= served_, f"these aren't served: {sorted(named - of_logs - served_)}")
    boxes = [tuple(panel["gridPos"][it] for it in "xy") for panel in board["panels"]]
    wants(len(set(boxes)) == len(boxes), "two panels have one place")
    said = [f"{len(named)} metrics in {len(board['panels'])} panels and the rules are served"]
    if shutil.which("promtool"):
        ran = subprocess.run(
            ["promtool", "test", "rules", "deltat.rules.test.yml"],
            cwd=RELEASE,
            capture_output=True,
            text=True,
            check=False,
        )
        wants(ran.returncode == 0, ran.stdout + ran.stderr)
        # a rule that never fires must fail its test
        spoilt = (
            (RELEASE / "deltat.rules.yml")
            .read_text()
            .replace('alarms_total{cause="clock"}[10m]) > 0', 'alarms_total{cause="clock"}[10m]) > 9')
        )
        (folder / "deltat.rules.yml").write_text(spoilt)
        shutil.copy(RELEASE / "deltat.rules.test.yml", folder)
        ran = subprocess.run(
            ["promtool", "test", "rules", "deltat.rules.test.yml"],
            cwd=folder,
            capture_output=True,
            text=True,
            check=False,
        )
        wants(ran.returncode != 0, "a rule that never fires passes")
        said.append("promtool tests the rules")
    if shutil.which("systemd-analyze"):
        unit = folder / "deltat-counters.service"
        unit.write_text(
            (RELEASE / "deltat-counters.service").read_text().replace("/usr/lib/deltat/counters.py", TOOL[1])
        )
        ran = subprocess.run(
            ["systemd-analyze", "verify", "--man=no", str(unit)], capture_output=True, text=True, check=False
        )
        wants(not [it for it in ran.stderr.splitlines() if "deltat-counters" in it], ran.stderr)
        said.append("systemd-analyze verifies the unit")
    return "; ".join(said)


CASES: list[Callable[[Built, pathlib.Path], str]] = [
    layout,
    counts,
    restarts,
    lost,
    refused,
    alarms,
    calls,
    python,
    served,
    logs,
    rules,
]


def main() -> int:
    reads = argparse.ArgumentParser(description=__doc__, formatter_class=argparse.RawDescriptionHelpFormatter)
    reads.add_argument("cases", nargs="*", choices=[it.__name__ for it in CASES] + [[]], metavar="CASE")
    named = reads.parse_args().cases
    if not COMPILER or not ARCHIVE.exists():
        skip("there is no C compiler, or no lib/libdeltat.a: `make -C lib` makes it")
    failed, chosen = 0, [it for it in CASES if not named or it.__name__ in named]
    with tempfile.TemporaryDirectory(prefix="deltat-metrics-") as room:
        built = Built(pathlib.Path(room))
        for case in chosen:
            folder = pathlib.Path(room) / f"case-{case.__name__}"
            folder.mkdir()
            try:
                print(f"{case.__name__}: {case(built, folder)}", flush=True)
            except (AssertionError, OSError, ValueError, KeyError, subprocess.SubprocessError) as why:
                failed += 1
                print(f"{case.__name__}: FAILED: {type(why).__name__} {why}", flush=True)
    print(f"{len(chosen) - failed} of {len(chosen)} hold")
    return 1 if failed else 0


if __name__ == "__main__":
    sys.exit(main())
