#!/usr/bin/env python3
"""Runs of nodes over real sockets that are run again, outside the gate, since ports and time are the
machine's. `tests/traces.py [PROGRAM]`. Ends with 1 where one of these fails:

- pair: two nodes that write their traces send each other 20,000 octets through a third process that
  drops and repeats datagrams. Both traces are run again, and each log has read what the other sent.
- cut: a trace that is cut off behind a line in its last 2,000 octets gives a first part of the log, up
  to a datagram behind which the reading is missing; one that is cut off elsewhere does, or refuses the
  line, or reads it as another.
- rows: so with two worked rows, cut off at each octet.

In tests/all: PROGRAM, 600 s."""
import random
import subprocess
import sys
import tempfile
import threading
import time

from lib import TOP, bound, free_port, program, read_of, relay, script, start

FLOWS = ["1:10>2:20", "2:20>1:10"]
DATA = TOP / "crates" / "deltat_tests" / "data"


def all_of(out):
    out.seek(0)
    return out.read()


def again(path, text, trace):
    """What is written of a run that is run again, and the status."""
    ran = subprocess.run([path, "retrace"], input=text.encode() + b"trace\n" + trace, capture_output=True, check=False)
    return ran.stdout, ran.returncode


def traced(path):
    """The scripts and the traces of two nodes, what each sent, and whether all went as it should."""
    chance = random.Random(7)
    messages = [chance.randbytes(20000), chance.randbytes(20000)]
    ports, ends = [free_port(), free_port()], [bound(), bound()]
    told = [0, 0, 0]
    passing = threading.Thread(target=relay, args=(chance, ends, ports, time.monotonic() + 15, told))
    passing.start()
    texts, nodes, outs = [], [], [tempfile.TemporaryFile(), tempfile.TemporaryFile()]
    for i in (0, 1):
        commands = [
            f"at 200 send {FLOWS[i]} be {messages[i].hex()}",
            f"at 11000 read {FLOWS[1 - i]} 65536",
            "at 11100 stop",
        ]
        texts.append(script(i + 1, 2 - i, ports[i], ends[i].getsockname()[1], commands))
        # into a file: a pipe that nobody reads yet would stop a node once it is full
        nodes.append(start(path, texts[i], "trace", outs[i]))
    statuses = [node.wait() for node in nodes]
    traces = [all_of(out) for out in outs]
    passing.join()
    print(
        f"{told[1]} datagrams passed, {told[0]} dropped, {told[2]} repeated; traces of"
        f" {[len(it) for it in traces]} octets"
    )
    return texts, traces, messages, statuses == [0, 0] and told[0] > 0 and told[2] > 0


def is_first_part(path, script_of, part, log, written):
    """Whether what is written of a trace that was cut off behind a line is a first part of the log. A
    datagram is handed in at the next reading. Where that one is missing it is handed in at the last one
    again, so only what was written before it is compared."""
    last = part.rfind(b"\n", 0, len(part) - 1) + 1
    if part[last:].startswith(b"< ") and part[last:] != b"< -\n":
        before, _ = again(path, script_of, part[:last])
        return log.startswith(before) and written.startswith(before)
    return log.startswith(written)


def pair(path, run):
    texts, traces, messages, well = run
    logs = [again(path, text, trace) for text, trace in zip(texts, traces)]
    once_more = [again(path, text, trace) for text, trace in zip(texts, traces)]
    heard = [read_of(logs[i][0].decode(), FLOWS[1 - i]) == messages[1 - i] for i in (0, 1)]
    return well and logs == once_more and [it[1] for it in logs] == [0, 0] and all(heard)


def cut(path, run):
    texts, traces, _, well = run
    text, trace = texts[0], traces[0]
    log, _ = again(path, text, trace)
    last = text.count("\n") + 1
    for length in range(max(0, len(trace) - 2000), len(trace), 13):
        part = trace[:length]
        written, status = again(path, text, part)
        line = last + part.count(b"\n") + 1
        whole = part.endswith(b"\n")
        runs = status in (0, 6) and (not whole or is_first_part(path, text, part, log, written))
        refuses = not whole and status == 3 and written.startswith(b"line %d: " % line)
        if not runs and not refuses:
            print(f"cut at {length}: status {status}")
            return False
    return well


def rows(path, run):
    for name in ("node-give-fails", "node-closing"):
        row = (DATA / f"{name}.in").read_bytes()
        behind = row.index(b"\ntrace\n") + 7
        text, trace = row[: behind - 6].decode(), row[behind:]
        log, _ = again(path, text, trace)
        for length in range(len(row)):
            ran = subprocess.run([path, "retrace"], input=row[:length], capture_output=True, check=False)
            whole, part = row[length - 1 : length] == b"\n", row[behind:length]
            is_part = not whole or not part or is_first_part(path, text, part, log, ran.stdout)
            runs = length >= behind - 1 and ran.returncode in (0, 6) and is_part
            refuses = ran.returncode == 3 and ran.stdout.startswith(b"line ") and (length < behind or not whole)
            if not runs and not refuses:
                print(f"{name} cut at {length}: status {ran.returncode}")
                return False
    return True


def main():
    path = program()
    run = traced(path)
    tests = [pair, cut, rows]
    failed = [it.__name__ for it in tests if not it(path, run)]
    for name in failed:
        print(f"{name} failed")
    print(f"{len(tests) - len(failed)} of {len(tests)} hold")
    return 1 if failed else 0


if __name__ == "__main__":
    sys.exit(main())
