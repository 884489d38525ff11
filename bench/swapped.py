#!/usr/bin/env python3
"""What a shelf is worth: octets a second of one message of 65,536 octets between two nodes, over a link
that swaps every tenth pair of datagrams, each way. Without a shelf, and with one for 64 packets.
`bench/swapped.py [PROGRAM [RUNS]]`."""
import os
import select
import sys
import threading
import time

sys.path.insert(0, os.path.join(os.path.dirname(os.path.abspath(__file__)), "..", "tests"))

from lib import HOST, bound, free_port, node_script, params, program, start

SETUP = params(1024, 65536, 65536)
FLOW = "1:10>2:20"


class Way:
    """One way of the link: of every tenth pair the second datagram goes first."""

    def __init__(self, out, to):
        self.out, self.to, self.count, self.kept, self.since = out, to, 0, None, 0.0

    def pass_on(self, octets):
        place = self.count % 20
        self.count += 1
        if place == 18:
            self.kept, self.since = octets, time.monotonic()
            return
        self.out.sendto(octets, (HOST, self.to))
        self.flush()

    def flush(self):
        if self.kept is not None:
            self.out.sendto(self.kept, (HOST, self.to))
            self.kept = None


def relay(one, two, ports, ended):
    ways = {one: Way(two, ports[1]), two: Way(one, ports[0])}
    while not ended.is_set():
        for it in select.select([one, two], [], [], 0.01)[0]:
            ways[it].pass_on(it.recv(65536))
        for way in ways.values():
            # a datagram without a second one goes after 20 ms
            if way.kept is not None and time.monotonic() - way.since > 0.02:
                way.flush()


def settled_after(log):
    """From the taking of the message to the acknowledgement of its last octet, in ms."""
    begun, count = None, 0
    for line in log.decode().splitlines():
        words = line.split(" ")
        if words[2:3] == ["took"]:
            begun = int(words[0])
        if words[2:3] == ["settled"]:
            count += int(words[4])
            if count == 65536:
                return max(int(words[0]) - begun, 1)
    return None


def run(path, shelf):
    one, two = bound(), bound()
    ports = [free_port(), free_port()]
    ended = threading.Event()
    link = threading.Thread(target=relay, args=(one, two, ports, ended))
    link.start()
    octets = "ab" * 65536
    receiver = node_script([SETUP, *shelf], (2, 1), (ports[1], two.getsockname()[1]), ["at 9000 stop"])
    sender = node_script(
        [SETUP], (1, 2), (ports[0], one.getsockname()[1]), [f"at 500 send {FLOW} be {octets}", "at 8000 stop"]
    )
    nodes = [start(path, receiver), start(path, sender)]
    log = nodes[1].stdout.read()
    nodes[0].stdout.read()
    for node in nodes:
        node.wait()
    ended.set()
    link.join()
    one.close()
    two.close()
    return settled_after(log)


def main() -> None:
    path, runs = program(), int(sys.argv[2]) if len(sys.argv) > 2 else 3
    for name, shelf in (("without a shelf", []), ("with a shelf", ["shelf 64"])):
        found = [run(path, shelf) for _ in range(runs)]
        times = sorted(it for it in found if it is not None)
        middle = 65536 * 1000 // times[len(times) // 2] if times else 0
        print(f"{name}: {times} ms, in the middle {middle} octets a second; {runs - len(times)} runs lost octets")


if __name__ == "__main__":
    main()
