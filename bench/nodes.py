#!/usr/bin/env python3
"""How fast a node is on this machine's loopback, beside a plain loop of UDP sockets with datagrams of the
same sizes (`bench/plain.rs`, which `rustc` builds where no PLAIN is given). `bench/nodes.py [PROGRAM [PLAIN]]`.

- requests: a client sends a message of 100 octets in one packet and waits for what answers it. Node and
  loop take turns, five rounds; medians, and what each used of a processor. It depends on where the
  machine lets the two processes run: `taskset -c 0` for both has them share a processor.
- rest: what a node uses of a processor while nothing comes, and while a datagram comes each millisecond.
- octets: one node sends another messages of 65,536 octets, one after another, each from its taking to
  its last acknowledgement; the plain client sends as many datagrams of the same size and waits for an answer
  to each, 64 at a time; the median of either. Where a packet is lost its message stands until a timer sends it
  again: how many did is told apart, with where packets were lost, so that a stall is seen as one."""
import os
import pathlib
import resource
import socket
import statistics
import struct
import subprocess
import sys
import tempfile
import time

sys.path.insert(0, os.path.join(os.path.dirname(os.path.abspath(__file__)), "..", "tests"))

from lib import HOST, bound, free_port, node_script, params, program, start

REQUESTS, FLOWS, ROUNDS = 500, 20, 5
MESSAGES = 40
SEG = 1024


SETUP = (params(SEG, 65536, 65536),)


def client_socket() -> socket.socket:
    """A socket that gives up after five seconds."""
    it = bound()
    it.settimeout(5)
    return it


def data(port, number, drf):
    """A data packet of 100 octets from node 2 to node 1, a message of its own."""
    body = struct.pack(">BBHHII", 1, 6 | drf, port, 20, number, 0) + b"a" * 100
    return struct.pack(">BBHIII", 1, 1, len(body), 999, 2, 1) + body


def exchange(client, port, datagrams):
    """Requests a second, each answered before the next."""
    begun = time.monotonic()
    for octets in datagrams:
        client.sendto(octets, (HOST, port))
        client.recv(65536)
    return len(datagrams) / (time.monotonic() - begun)


def used():
    """The seconds of processor of all processes that were started and have ended."""
    usage = resource.getrusage(resource.RUSAGE_CHILDREN)
    return usage.ru_utime + usage.ru_stime


def node_for(path, client, port):
    """A node whose peer is the client."""
    text = node_script(SETUP, (1, 2), (port, client.getsockname()[1]), ["at 15000 stop"])
    return start(path, text, out=subprocess.DEVNULL)


def one_round(start_one, datagrams):
    """Requests a second, and microseconds of processor a request, of a process that is started for a client.
    A node drops what waited 20 ms in a loaded machine: the round then begins again, twice at most."""
    for left in (2, 1, 0):
        client, port = client_socket(), free_port()
        process = start_one(client, port)
        time.sleep(0.3)
        before, rate = used(), 0
        try:
            rate = exchange(client, port, datagrams)
        except TimeoutError:
            if not left:
                raise
        finally:
            process.kill()
            process.wait()
        if rate:
            return rate, (used() - before) / len(datagrams) * 1e6


def requests(path, plain):
    """The medians of a node, and of the loop: requests a second, microseconds of processor a request."""
    datagrams = [data(flow, 100 * i, i == 0) for flow in range(FLOWS) for i in range(REQUESTS)]
    starts = (lambda client, port: node_for(path, client, port)), (
        lambda _, port: subprocess.Popen([plain, str(port), str(len(datagrams))])
    )
    rounds = [[one_round(it, datagrams) for it in starts] for _ in range(ROUNDS)]
    return [statistics.median(it[who][what] for it in rounds) for who in (0, 1) for what in (0, 1)]


def rest(path, pause):
    """What of a processor a node uses for three seconds, in percent, while datagrams come with such pauses, or none
    come."""
    client, port = client_socket(), free_port()
    node = node_for(path, client, port)
    before, begun, sent = used(), time.monotonic(), 0
    while time.monotonic() - begun < 3:
        time.sleep(pause or 3)
        if pause:
            client.sendto(data(1, 100 * sent, sent == 0), (HOST, port))
            sent += 1
    node.kill()
    node.wait()
    return (used() - before) / (time.monotonic() - begun) * 100


def drops(port):
    """How many datagrams the kernel has dropped at the socket of this port for want of room."""
    with open("/proc/net/udp") as table:
        rows = [line.split() for line in table]
    return next((int(it[-1]) for it in rows[1:] if int(it[1].split(":")[1], 16) == port), 0)


class Told:
    """What the sender's lines tell while they come: for each message when it was taken and when it was last
    acknowledged, and how many packets went out, went out again and were never sent. At each packet that goes
    out again the kernel is asked what it dropped."""

    def __init__(self, node, ports):
        self.first, self.last, self.counts, self.dropped = (
            {},
            {},
            dict.fromkeys(("sent", "resent", "unsent"), 0),
            [0, 0],
        )
        for line in node.stdout:
            now, words = time.monotonic(), line.decode().split()
            word = words[2] if len(words) > 2 else ""
            if word == "took":
                self.first[words[3]] = now
            if word == "settled":
                self.last[words[3]] = now
            if word in self.counts:
                self.counts[word] += 1
            if word == "resent":
                self.dropped = [drops(it) for it in ports]

    def spans(self):
        """The seconds of each message, from its taking to its last acknowledgement."""
        return [self.last[flow] - self.first[flow] for flow in self.first]


def arrived(log):
    """How many data packets a receiver's log tells of: each is accepted, replied to or dropped."""
    return sum(line.split()[2] in ("accepted", "replied", "dropped") for line in log.read_text().splitlines()[:-1])


def tell_losses(told, ports, log):
    """Where packets were lost, and how many messages stood until a timer sent them again: a stall is no speed."""
    out, gone = sum(told.counts[it] for it in ("sent", "resent")), told.counts["unsent"]
    late = out - gone - told.dropped[1] - arrived(log)
    stood = sum(it > 0.1 for it in told.spans())
    print(
        f"  (the sender sent {out} packets of {MESSAGES * 65536 // SEG}, {gone} of which didn't leave in time; the"
        f" kernel dropped {told.dropped[1]} and {told.dropped[0]} answers; the receiver dropped {late} as late;"
        f" {stood} messages of {MESSAGES} stood)"
    )


def octets(path, plain, folder):
    ports, log = (free_port(), free_port()), pathlib.Path(folder, "receiver")
    nodes = []
    with log.open("wb") as lines:
        for me, other, mine, theirs, stop in ((2, 1, ports[1], ports[0], 9000), (1, 2, ports[0], ports[1], 8000)):
            sends = (
                [f"at {500 + 100 * i} send 1:{i}>2:20 be {'61' * 65536}" for i in range(MESSAGES)] if me == 1 else []
            )
            text = node_script(SETUP, (me, other), (mine, theirs), [*sends, f"at {stop} stop"])
            nodes.append(start(path, text, out=subprocess.PIPE if me == 1 else lines))
        told = Told(nodes[1], ports)
        for node in nodes:
            node.wait()
    tell_losses(told, ports, log)
    by_nodes = 65536 / statistics.median(told.spans())
    client, port, count = client_socket(), free_port(), MESSAGES * 65536 // SEG
    loop = subprocess.Popen([plain, str(port), str(count)])
    time.sleep(0.3)
    seconds = []
    for _ in range(MESSAGES):
        begun = time.monotonic()
        for _ in range(65536 // SEG):
            client.sendto(b"a" * (SEG + 30), (HOST, port))
        for _ in range(65536 // SEG):
            client.recv(65536)
        seconds.append(time.monotonic() - begun)
    by_loop = 65536 / statistics.median(seconds)
    loop.wait()
    return by_nodes, by_loop


def main() -> None:
    with tempfile.TemporaryDirectory() as folder:
        plain = sys.argv[2] if len(sys.argv) > 2 else os.path.join(folder, "plain")
        if len(sys.argv) <= 2:
            subprocess.run(["rustc", "-O", "-o", plain, pathlib.Path(__file__).with_name("plain.rs")], check=True)
        print(
            "requests of 100 octets a second: node %.0f (%.1f us of processor each), plain loop %.0f (%.1f us)"
            % tuple(requests(program(), plain))
        )
        print(
            "processor of a node: at rest %.1f %%, with a datagram each millisecond %.1f %%"
            % (rest(program(), None), rest(program(), 0.001))
        )
        print(
            "octets a second of messages of 65,536: two nodes %.0f, plain loop %.0f" % octets(program(), plain, folder)
        )


if __name__ == "__main__":
    main()
