#!/usr/bin/env python3
"""Reads frames, and nothing else of Delta-t: what a first part of an implementation may look like.

`frames.py frames` reads lines of hexadecimal digits, a frame each, and writes for each a line: what the
frame says, or its fault (README.md, "Frames"). It is written from docs/formats.md alone."""
import struct
import sys

MOST_OF_BODY = {1: 1038, 2: 8206}
KINDS = {1: "data", 2: "ack", 3: "rendezvous", 4: "closing"}
VERSIONS = {"data": (1, 2), "ack": (1,), "rendezvous": (1,), "closing": (2,)}
DATA_OCTETS = {1: range(1, 1025), 2: range(1025, 8193)}


def deltagram_fault(frame: bytes) -> str:
    """Why octets are no Deltagram; empty where they are."""
    if len(frame) < 16:
        return f"short {len(frame)}"
    version, told, there = frame[0], int.from_bytes(frame[2:4], "big"), len(frame) - 16
    if version not in MOST_OF_BODY:
        return f"version {version}"
    if told != there or there > MOST_OF_BODY[version]:
        return f"length {told} {there}"
    return "" if any(frame[4:8]) else "dead"


def packet_fault(frame: bytes) -> str:
    """Why a Deltagram has no packet; empty where it has one."""
    version, protocol, body = frame[0], frame[1], frame[16:]
    if protocol != 1:
        return f"protocol {protocol}"
    if len(body) < 14:
        return f"short {len(body)}"
    kind = KINDS.get(body[0], "")
    if version not in VERSIONS.get(kind, ()):
        return f"kind {body[0]}"
    if body[1] > (7 if kind == "data" else 0):
        return f"flags {body[1]}"
    window, size = int.from_bytes(body[10:14], "big"), len(body) - 14
    if window > (65536 if kind == "ack" else 0):
        return f"window {window}"
    return "" if size in (DATA_OCTETS[version] if kind == "data" else (0,)) else f"size {size}"


def read(frame: bytes) -> str:
    """The line of a frame."""
    fault = deltagram_fault(frame) or packet_fault(frame)
    if fault:
        return f"bad {fault}"
    life, source, target, kind, flags, source_port, target_port, number, window = struct.unpack(
        ">4xIIIBBHHII", frame[:30]
    )
    said = f"{KINDS[kind]} {life} {source}:{source_port}>{target}:{target_port} {number}"
    if KINDS[kind] == "ack":
        return f"{said} {window}"
    if KINDS[kind] != "data":
        return said
    letters = "".join(letter for bit, letter in ((1, "d"), (2, "b"), (4, "e")) if flags & bit)
    return f"{said} {letters or '-'} {frame[30:].hex()}"


def main() -> int:
    if sys.argv[1:] != ["frames"]:
        print("usage: frames.py frames", file=sys.stderr)
        return 2
    for line in sys.stdin:
        print(read(bytes.fromhex(line)))
    return 0


if __name__ == "__main__":
    sys.exit(main())
