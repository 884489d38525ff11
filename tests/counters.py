#!/usr/bin/env python3
"""The counters of tools/counters.py: `tests/counters.py [PROGRAM]`.

- totals: of replays with losses, repeats and restarts, what is counted is what the `flow` lines tell at
  their end, and each report is counted as often as it stands in the log.
- live: two real nodes; their counts are there in the file and at the port while they run, a reader of
  the file never finds a part of it, and no count falls.
- format: each text is Prometheus' text format, families whole, no sample twice.
- bound: of 200,000 flows, and of lines of 10 MB, the memory stays, and no octet is lost from the sums.
- noise: what is no line of a log is counted as that, and changes nothing else.
- through: the log is passed on as it came, and a fault of the file or the port is told.

One line a case, and then how many hold. Status 1 where one fails.

In tests/all: PROGRAM, 200 s."""
import argparse
import os
import pathlib
import random
import re
import socket
import subprocess
import sys
import tempfile
import time
import urllib.request
from collections import Counter

from lib import free_port

ROOT = pathlib.Path(__file__).resolve().parent.parent
TOOL = [sys.executable, str(ROOT / "tools" / "counters.py")]
SAMPLE = re.compile(r'([a-z_]+)(?:\{((?:[a-z]+="[^"\\\n]*",?)+)\})? (-?\d+)')
Samples = dict[tuple[str, str], int]


def read(text: str) -> Samples:
    """The samples of a text. ValueError where it isn't Prometheus' text format."""
    samples: Samples = {}
    family = kind = ""
    seen: set[str] = set()
    for line in text.split("\n")[:-1]:
        if line.startswith("# TYPE "):
            _, _, family, kind = line.split(" ")
            if family in seen or kind not in ("counter", "gauge"):
                raise ValueError(line)
            seen.add(family)
        elif line.startswith("# HELP "):
            if line.split(" ")[2] != family:
                raise ValueError(line)
        else:
            found = SAMPLE.fullmatch(line)
            if (
                not found
                or found[1] != family
                or (kind == "counter") != family.endswith("_total")
                or (found[1], found[2] or "") in samples
            ):
                raise ValueError(line)
            samples[found[1], found[2] or ""] = int(found[3])
    if not text.endswith("\n") or "deltat_unread_lines_total" not in seen:
        raise ValueError("the text is cut off")
    return samples


def counted(log: bytes, *options: str) -> Samples:
    return read(subprocess.run([*TOOL, *options], input=log, capture_output=True, check=True).stdout.decode())


def summed(samples: Samples, name: str, part: str = "") -> int:
    return sum(count for (it, labels), count in samples.items() if it == name and part in labels)


def replay(program: str, schedule: bytes) -> bytes:
    return subprocess.run([program, "replay"], input=schedule, capture_output=True, check=False).stdout


def differences(log: bytes) -> list[str]:
    """Where the counts of a replay's log differ from its totals and from its lines."""
    samples, wrong = counted(log), []
    lines = [line.split(" ") for line in log.decode().splitlines()]
    for it in (it for it in lines if it[0] == "flow"):
        told = dict(zip(it[2::2], map(int, it[3::2])))
        for name, word in (
            ("deltat_taken_octets_total", "taken"),
            ("deltat_settled_octets_total", "acked"),
            ("deltat_uncertain_octets_total", "uncertain"),
            ("deltat_accepted_octets_total", "given"),
            ("deltat_read_octets_total", "read"),
        ):
            if summed(samples, name, f'flow="{it[1]}"') != told[word]:
                wrong.append(f"{it[1]} {word}")
        if (
            not any(len(line) > 2 and line[2] == "restarted" for line in lines)
            and summed(samples, "deltat_open_octets", f'flow="{it[1]}"') != told["open"]
        ):
            wrong.append(f"{it[1]} open")
    reports = Counter(line[2] for line in lines if len(line) > 2 and line[0].isdigit() and line[1].isdigit())
    for report, name in {
        "sent": "deltat_sent_segments_total",
        "resent": "deltat_resent_segments_total",
        "accepted": "deltat_accepted_segments_total",
        "put": "deltat_put_packets_total",
        "dropped": "deltat_dropped_packets_total",
        "met": "deltat_rendezvous_total",
        "refused": "deltat_refused_sends_total",
        "released": "deltat_released_records_total",
        "expired": "deltat_expired_packets_total",
        "full": "deltat_full_link_packets_total",
        "noroute": "deltat_noroute_packets_total",
        "quiet": "deltat_quiet_packets_total",
        "restarted": "deltat_restarts_total",
        "renewed": "deltat_renewed_records_total",
        "nothing": "deltat_empty_reads_total",
        "ignored": "deltat_ignored_acknowledgements_total",
        "bad": "deltat_bad_datagrams_total",
    }.items():
        if summed(samples, name) != reports[report]:
            wrong.append(report)
    if summed(samples, "deltat_acknowledgements_total") != reports["acked"] + reports["replied"]:
        wrong.append("acknowledgements")
    return wrong + (["unread"] if summed(samples, "deltat_unread_lines_total") else [])


def totals(program: str) -> tuple[bool, str]:
    data = ROOT / "crates" / "deltat_tests" / "data"
    schedules = [
        it.read_bytes() for it in [*sorted((ROOT / "examples").glob("*.schedule")), *sorted(data.glob("*.in"))]
    ]
    schedules.append(subprocess.run([program, "make", "300"], capture_output=True, check=True).stdout)
    logs = [log for it in schedules if b"\nstation " in it and (log := replay(program, it))]
    wrong = [it for log in logs for it in differences(log)]
    return not wrong and len(logs) > 20, f"{len(logs)} logs, {len(wrong)} counts differ {wrong[:5]}"


def script(me: int, ports: list[int]) -> str:
    other = 3 - me
    sends = [f"at {500 + 100 * i} send {me}:10>{other}:20 be {bytes(300).hex()}" for i in range(20)]
    return (
        "\n".join(
            [
                "params 1000 3000 200 500 800 100 4096 4096 4096 2147483648",
                f"me {me} first",
                f"local 127.0.0.1:{ports[me - 1]}",
                f"peer 1 127.0.0.1:{ports[other - 1]} 50 0",
                f"route {other} 1",
                "go",
                *sends,
                *(f"at {2600 + 100 * i} read {other}:10>{me}:20 65536" for i in range(30)),
                "at 6000 stop",
            ]
        )
        + "\n"
    )


def live(program: str) -> tuple[bool, str]:
    ports = [free_port(), free_port()]
    with tempfile.TemporaryDirectory() as folder:
        path = os.path.join(folder, "counts.prom")
        nodes = [subprocess.Popen([program, "node"], stdin=subprocess.PIPE, stdout=subprocess.PIPE) for _ in ports]
        tools = [
            subprocess.Popen(
                [*TOOL, "--file", path, "--every", "0.02", "--listen", "0"],
                stdin=nodes[0].stdout,
                stderr=subprocess.PIPE,
            ),
            subprocess.Popen([*TOOL], stdin=nodes[1].stdout, stdout=subprocess.PIPE),
        ]
        for me, node in enumerate(nodes, 1):
            node.stdin.write(script(me, ports).encode())
            node.stdin.close()
        url = tools[0].stderr.readline().decode().split()[-1]
        last, reads, early, falls = {}, 0, 0, 0
        while tools[0].poll() is None:
            samples = read(pathlib.Path(path).read_text("ascii"))
            falls += sum(count < last.get(it, 0) for it, count in samples.items() if it[0].endswith("_total"))
            last, reads = samples, reads + 1
            if nodes[0].poll() is None and summed(samples, "deltat_sent_segments_total"):
                with urllib.request.urlopen(url, timeout=5) as it:
                    early += summed(read(it.read().decode()), "deltat_sent_segments_total") > 0
            time.sleep(0.005)
        mine, theirs = read(pathlib.Path(path).read_text("ascii")), read(tools[1].communicate()[0].decode())
        left = sorted(os.listdir(folder))
    whole = all(
        summed(a, "deltat_accepted_octets_total") == summed(b, "deltat_taken_octets_total") == 6000
        for a, b in ((mine, theirs), (theirs, mine))
    )
    good = whole and early > 10 and reads > 50 and not falls and left == ["counts.prom"]
    return (
        good,
        (
            f"6,000 octets each way {'are' if whole else 'are NOT'} in the counts; {reads} readings of the file,"
            f" {early} of the port while the node ran, {falls} falls"
        ),
    )


def format(program: str) -> tuple[bool, str]:
    text = subprocess.run(
        [*TOOL],
        input=replay(program, (ROOT / "examples/loss-repeat-restart.schedule").read_bytes()),
        capture_output=True,
        check=True,
    ).stdout
    samples = read(text.decode())
    refused = 0
    for wrong in (
        text[:-1],
        text[:-40],
        text + text,
        text.replace(b"# HELP deltat_taken", b"# HELP deltat_sent", 1),
        text.replace(b'node="1"', b'node=1', 1),
    ):
        try:
            read(wrong.decode())
        except (ValueError, IndexError):
            refused += 1
    return len(samples) > 15 and refused == 5, f"{len(samples)} samples read, {refused} of 5 spoilt texts are refused"


def peak(pid: int) -> int:
    """The most memory that a process had, in KB."""
    status = pathlib.Path(f"/proc/{pid}/status").read_text("ascii")
    return int(re.search(r"VmHWM:\s+(\d+)", status)[1])


def bound(program: str) -> tuple[bool, str]:
    del program
    peaks, sums = [], []
    for flows in (1_000, 200_000):
        tool = subprocess.Popen(
            [*TOOL, "--all", "--flows", "500", "--listen", "0"], stdin=subprocess.PIPE, stderr=subprocess.PIPE
        )
        url = tool.stderr.readline().decode().split()[-1]
        for i in range(flows):
            tool.stdin.write(b"%d %d took %d:%d>%d:%d 3\n" % (i, i, i, i % 65536, i + 1, 7))
            if i % (flows // 5) == 0:
                tool.stdin.write(b"x" * (10_000_000 if flows > 1_000 else 1_000) + b"\n")
        tool.stdin.flush()
        for _ in range(600):
            with urllib.request.urlopen(url, timeout=10) as it:
                samples = read(it.read().decode())
            if summed(samples, "deltat_taken_octets_total") == 3 * flows:
                break
            time.sleep(0.05)
        peaks.append(peak(tool.pid))
        sums.append(
            summed(samples, "deltat_taken_octets_total") == 3 * flows
            and summed(samples, "deltat_unread_lines_total") == 5
        )
        tool.stdin.close()
        tool.wait()
    return (
        all(sums) and peaks[1] < peaks[0] + 4096,
        (
            f"sums {'hold' if all(sums) else 'do NOT hold'}; at most {peaks[0]} KB for 1,000 flows, {peaks[1]} KB for"
            " 200,000"
        ),
    )


def noise(program: str) -> tuple[bool, str]:
    log = replay(program, (ROOT / "examples/loss-repeat-restart.schedule").read_bytes())
    chance = random.Random(3)
    wrong = [
        b"",
        b"hello",
        b"1",
        b"1 2",
        b"1 2 3",
        b"x 1 took 1:10>2:20 5",
        b"0 1 took 1:10>2:20",
        b"0 1 took 1:10>2:20 x",
        b'0 1 took 1:10>2"0 5',
        b"0 1 put 256 5",
        b"0 1 put",
        b"0 1 bad",
        b"0 1 bad idea",
        b"0 1 expired up 1",
        b"0 1 read 1:10>2:20",
        b"0  1 took 1:10>2:20 5",
        b"\xff\xfe",
        b"0 1 took 1:10>2:20 -5",
        b"0 lost",
    ]
    wrong += [
        bytes(chance.randrange(256) for _ in range(chance.randrange(1, 200))).replace(b"\n", b" ") for _ in range(500)
    ]
    mixed = b"".join(it + b"\n" for line in log.splitlines() for it in [line, *chance.sample(wrong, 20)])
    plain, there = counted(log), counted(mixed)
    unread = there.pop(("deltat_unread_lines_total", ""))
    read_all = there.pop(("deltat_counted_lines_total", "")) == mixed.count(b"\n")
    plain.pop(("deltat_counted_lines_total", ""))
    expected = sum(line not in log.splitlines() and line != b"" for line in mixed.split(b"\n"))
    plain.pop(("deltat_unread_lines_total", ""))
    return (
        there == plain and unread == expected and read_all,
        (
            f"{unread} of {expected} lines of noise are counted as such; the counts are"
            f" {'the same' if there == plain else 'NOT the same'}"
        ),
    )


def through(program: str) -> tuple[bool, str]:
    log = replay(program, (ROOT / "examples/loss-repeat-restart.schedule").read_bytes()) + b"no line feed"
    passed = subprocess.run([*TOOL, "--through"], input=log, capture_output=True, check=True).stdout == log
    with socket.socket() as taken:
        taken.bind(("127.0.0.1", 0))
        taken.listen()
        busy = subprocess.run(
            [*TOOL, "--listen", str(taken.getsockname()[1])], input=b"", capture_output=True, check=False
        )
    nowhere = subprocess.run([*TOOL, "--file", "/nowhere/at/all"], input=b"", capture_output=True, check=False)
    told = [it.returncode == 1 and it.stderr.startswith(b"counters.py: ") for it in (busy, nowhere)]
    return (
        passed and all(told),
        f"the log is {'passed on' if passed else 'NOT passed on'}; {sum(told)} of 2 faults are told",
    )


def main() -> int:
    parser = argparse.ArgumentParser(description=__doc__, formatter_class=argparse.RawDescriptionHelpFormatter)
    parser.add_argument(
        "program", nargs="?", default=str(ROOT / "crates/deltat/out/deltat"), help="the program (default: %(default)s)"
    )
    parser.add_argument("only", nargs="*", help="cases (default: all)")
    given = parser.parse_args()
    program, results = os.path.abspath(given.program), []
    for case in [
        it for it in (totals, live, format, bound, noise, through) if not given.only or it.__name__ in given.only
    ]:
        good, told = case(program)
        print(f"{case.__name__}: {told}{'' if good else ' (FAILED)'}", flush=True)
        results.append(good)
    print(f"{sum(results)} of {len(results)} hold")
    return 0 if all(results) else 1


if __name__ == "__main__":
    sys.exit(main())
