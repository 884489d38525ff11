#!/usr/bin/env python3
"""Nodes over real sockets on this machine, outside the gate, since ports and time are the machine's.
`tests/nodes.py [PROGRAM [TEST ..]]`. Ends with 1 where one of these fails:

- pair: two nodes send each other 20,000 octets through a third process that drops and repeats
  datagrams. What each has read is what the other sent.
- strangers: a node is sent 100,000 random datagrams by strangers and by its peer's address. It
  neither stops nor grows.
- port: a node whose port is in use ends with status 5.

In tests/all: PROGRAM, 180 s."""
import random
import subprocess
import sys
import threading
import time

from lib import HOST, bound, free_port, program, read_of, relay, script, start


def pair(path: str) -> bool:
    chance = random.Random(7)
    messages = [chance.randbytes(20000), chance.randbytes(20000)]
    ports, ends = [free_port(), free_port()], [bound(), bound()]
    flows = ["1:10>2:20", "2:20>1:10"]
    told = [0, 0, 0]
    passing = threading.Thread(target=relay, args=(chance, ends, ports, time.monotonic() + 15, told))
    passing.start()
    nodes = []
    for i in (0, 1):
        commands = [
            f"at 200 send {flows[i]} be {messages[i].hex()}",
            f"at 11000 read {flows[1 - i]} 65536",
            "at 11100 stop",
        ]
        nodes.append(
            start(path, script(i + 1, 2 - i, ports[i], ends[i].getsockname()[1], commands), err=subprocess.DEVNULL)
        )
    logs = [node.stdout.read().decode() for node in nodes]
    statuses = [node.wait() for node in nodes]
    passing.join()
    print(f"pair: {told[1]} datagrams passed, {told[0]} dropped, {told[2]} repeated")
    return (
        statuses == [0, 0]
        and told[0] > 0
        and told[2] > 0
        and all(read_of(logs[i], flows[1 - i]) == messages[1 - i] for i in (0, 1))
    )


def memory_of(pid: int) -> int:
    """The resident memory of a process, in KB."""
    with open(f"/proc/{pid}/status") as it:
        return next(int(line.split()[1]) for line in it if line.startswith("VmRSS:"))


def noise(chance: random.Random, number: int) -> bytes:
    """Random octets; of some the head is that of a Deltagram, or of a packet."""
    octets = chance.randbytes(chance.randrange(0, 200))
    if number % 3 == 0:
        return octets
    body = octets[14:] if number % 3 == 1 else bytes([1, 7]) + octets[:12] + octets[14:]
    return b"\x01\x01" + len(body).to_bytes(2, "big") + b"\x00\x00\x03\xe7" + b"\x00\x00\x00\x02\x00\x00\x00\x01" + body


def strangers(path: str) -> bool:
    chance = random.Random(11)
    peer, stranger, port = bound(), bound(), free_port()
    node = start(path, script(1, 2, port, peer.getsockname()[1], ["at 30000 stop"]), err=subprocess.DEVNULL)
    lines = []
    draining = threading.Thread(target=lambda: lines.extend(node.stdout))
    draining.start()
    time.sleep(0.5)
    sizes = []
    for number in range(100_000):
        (peer if number % 2 else stranger).sendto(noise(chance, number // 2), (HOST, port))
        if number % 100 == 99:
            time.sleep(0.015)
        if number % 20_000 == 19_999:
            sizes.append(memory_of(node.pid))
    status_then = node.poll()
    draining.join()
    bad = sum(b" bad " in line for line in lines)
    print(f"strangers: {len(lines)} lines, {bad} of them bad; resident KB after each 20,000 datagrams: {sizes}")
    return status_then is None and node.wait() == 0 and bad > 10_000 and sizes[-1] - sizes[1] <= 1024


def port(path: str) -> bool:
    with bound() as taken:
        text = script(1, 2, taken.getsockname()[1], free_port(), ["at 100 stop"])
        ran = subprocess.run([path, "node"], input=text.encode(), capture_output=True, check=False)
    return (ran.returncode, ran.stdout, ran.stderr) == (5, b"", b"wire failed\n")


TESTS = (pair, strangers, port)


def main() -> int:
    chosen = [it for it in TESTS if it.__name__ in sys.argv[2:] or len(sys.argv) <= 2]
    failed = [it.__name__ for it in chosen if not it(program())]
    for name in failed:
        print(f"{name} failed")
    print(f"{len(chosen) - len(failed)} of {len(chosen)} hold")
    return 1 if failed or not chosen else 0


if __name__ == "__main__":
    sys.exit(main())
