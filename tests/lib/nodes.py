"""Nodes as processes, and what they write."""
import pathlib
import subprocess
import time
from collections.abc import Sequence
from typing import IO

from .scripts import params
from .sockets import HOST

# the lines that tell what became of a datagram: an arrival writes exactly one of them, and one for another node is put
# on a link, or finds no route
ANSWERS = {"bad", "accepted", "dropped", "replied", "ignored", "settled", "closing", "noroute", "put"}


def start(
    path: str,
    text: str,
    word: str = "node",
    out: int | IO[bytes] = subprocess.PIPE,
    err: int | IO[bytes] | None = None,
) -> "subprocess.Popen[bytes]":
    """A node that has its script. A pipe that nobody reads stops it once that is full."""
    node = subprocess.Popen([path, word], stdin=subprocess.PIPE, stdout=out, stderr=err)
    assert node.stdin
    node.stdin.write(text.encode())
    node.stdin.close()
    return node


def heard(
    path: str,
    node: int,
    datagrams: Sequence[tuple[int, bytes]],
    routes: Sequence[int] = (),
    commands: Sequence[str] = (),
) -> dict[int, list[list[str]]]:
    """What a node tells of datagrams on its link 1, which charges nothing, each at a moment above the one before: by a
    trace that the program at `path` runs again. For each moment the lines, without moment and node."""
    end = datagrams[-1][0] + 1 if datagrams else 1
    ends = [f"me {node} first", f"local {HOST}:4002", f"peer 1 {HOST}:4001 0 0"]
    setup = [params(room=65536), *ends, *(f"route {it} 1" for it in routes), "go"]
    trace = [line for moment, octets in datagrams for line in (f"< 1 {octets.hex()}".rstrip(), f"@ {moment}")]
    text = "\n".join([*setup, *commands, f"at {end} stop", "trace", "@ 0", *trace, "< -", f"@ {end}"]) + "\n"
    ran = subprocess.run([path, "retrace"], input=text.encode(), capture_output=True, check=False)
    if ran.returncode != 0:
        raise RuntimeError(f"retrace ended with {ran.returncode}: {ran.stdout[-200:]!r}")
    told: dict[int, list[list[str]]] = {moment: [] for moment, _ in datagrams}
    for line in ran.stdout.decode().splitlines()[:-1]:
        moment, _, *words = line.split(" ")
        told.setdefault(int(moment), []).append(words)
    return told


def answer(lines: Sequence[list[str]]) -> list[str]:
    """Of what a node tells at a moment, the line of the datagram that came; no words where there is none. The node's
    own acknowledgements go off too, or find no route."""
    own = [
        before[0] in ("acked", "replied") and it[0] in ("put", "noroute") for before, it in zip([[""], *lines], lines)
    ]
    found = (it for it, is_own in zip(reversed(lines), reversed(own)) if it[0] in ANSWERS and not is_own)
    return next(found, [])


def read_of(log: str, flow: str) -> bytes:
    """The octets that a log has read of a flow."""
    words = [line.split() for line in log.splitlines()]
    return bytes.fromhex("".join(it[5] for it in words if it[2:4] == ["read", flow]))


def wait_for(path: pathlib.Path, word: str, seconds: float) -> bool:
    """Waits until a file has a word, so long at most."""
    until = time.monotonic() + seconds
    while time.monotonic() < until:
        if path.exists() and word in path.read_text():
            return True
        time.sleep(0.005)
    return False
