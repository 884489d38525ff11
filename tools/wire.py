"""Frames as octets (docs/formats.md, "Frames, Deltagrams and packets"), and datagrams as a capture file.
It is used by the tools and tests beside it, and does nothing when it is run."""
import struct
from typing import BinaryIO, NamedTuple

DATA, ACK, RENDEZVOUS, CLOSING = 1, 2, 3, 4
RUN, BEGIN, END = 1, 2, 4
MOST_OF_VERSION_1 = 1024

Address = tuple[str, int]


class Flow(NamedTuple):
    """A flow, `a:p>b:q`: octets go from port p of node a to port q of node b."""
    from_node: int
    from_port: int
    to_node: int
    to_port: int

    @classmethod
    def read(cls, word: str) -> "Flow":
        """The flow that a word of a line spells. ValueError where it spells none."""
        ends = [int(it) for end in word.split(">") for it in end.split(":")]
        if len(ends) != 4:
            raise ValueError(f"{word!r} isn't a flow; write NODE:PORT>NODE:PORT")
        return cls(*ends)

    def back(self) -> "Flow":
        """The way of its acknowledgements."""
        return Flow(self.to_node, self.to_port, self.from_node, self.from_port)


def deltagram(version: int, life: int, from_node: int, to_node: int, body: bytes) -> bytes:
    """A Deltagram of protocol 1."""
    return struct.pack(">BBHIII", version, 1, len(body), life, from_node, to_node) + body


def packet(way: Flow, life: int, kind: int, number: int, flags: int = 0, window: int = 0, octets: bytes = b"") -> bytes:
    """A packet that goes the way `way`, as a frame. It is of version 1 wherever that has it."""
    version = 2 if kind == CLOSING or len(octets) > MOST_OF_VERSION_1 else 1
    head = struct.pack(">BBHHII", kind, flags, way.from_port, way.to_port, number, window)
    return deltagram(version, life, way.from_node, way.to_node, head + octets)


def life_of(frame: bytes) -> int:
    """The life of a Deltagram."""
    return int.from_bytes(frame[4:8], "big")


def node_of(frame: bytes) -> int:
    """The node that a Deltagram goes to."""
    return int.from_bytes(frame[12:16], "big")


def with_life(frame: bytes, life: int) -> bytes:
    """A Deltagram with another life."""
    return frame[:4] + life.to_bytes(4, "big") + frame[8:]


def is_deltagram(octets: bytes) -> bool:
    """Whether octets are a Deltagram, whatever its protocol and its body."""
    if len(octets) < 16 or octets[0] not in (1, 2) or life_of(octets) == 0:
        return False
    there = len(octets) - 16
    return int.from_bytes(octets[2:4], "big") == there and there <= (1038 if octets[0] == 1 else 8206)


def _sum_of(octets: bytes) -> int:
    """The sum of the Internet: the ones' complement sum of 16 bits, complemented."""
    if len(octets) % 2:
        octets += b"\0"
    total = sum(struct.unpack(f">{len(octets) // 2}H", octets))
    while total > 0xFFFF:
        total = (total & 0xFFFF) + (total >> 16)
    return 0xFFFF - total


def _ip_of(address: Address) -> bytes:
    return bytes(int(it) for it in address[0].split("."))


def datagram(sender: Address, receiver: Address, payload: bytes) -> bytes:
    """A UDP datagram in an IPv4 packet, with both sums."""
    ends = _ip_of(sender) + _ip_of(receiver)
    head = struct.pack(">HHHH", sender[1], receiver[1], 8 + len(payload), 0)
    total = _sum_of(ends + struct.pack(">HH", 17, 8 + len(payload)) + head + payload) or 0xFFFF
    udp = head[:6] + total.to_bytes(2, "big") + payload
    ip = struct.pack(">HHHHBBH", 0x4500, 20 + len(udp), 0, 0x4000, 64, 17, 0) + ends
    return ip[:10] + _sum_of(ip).to_bytes(2, "big") + ip[12:] + udp


class Capture:
    """A capture file (pcapng) of IPv4 packets, written as they come."""

    INBOUND, OUTBOUND = 1, 2

    def __init__(self, out: BinaryIO, interface: str, application: str) -> None:
        self._out = out
        section = struct.pack("<IHHq", 0x1A2B3C4D, 1, 0, -1)
        self._block(0x0A0D0D0A, section + self._option(4, application.encode()) + self._option(0, b""))
        described = self._option(2, interface.encode()) + self._option(9, b"\x06") + self._option(0, b"")
        self._block(1, struct.pack("<HHI", 228, 0, 0) + described)

    def add(self, microseconds: int, sender: Address, receiver: Address, payload: bytes, direction: int = 0) -> None:
        """Writes a datagram. `microseconds` count from 1970."""
        octets = datagram(sender, receiver, payload)
        moment = struct.pack("<II", microseconds >> 32, microseconds & 0xFFFFFFFF)
        head = struct.pack("<I", 0) + moment + struct.pack("<II", len(octets), len(octets))
        flags = self._option(2, struct.pack("<I", direction)) + self._option(0, b"") if direction else b""
        self._block(6, head + octets + b"\0" * (-len(octets) % 4) + flags)

    def _block(self, kind: int, body: bytes) -> None:
        length = struct.pack("<I", 12 + len(body))
        self._out.write(struct.pack("<I", kind) + length + body + length)

    @staticmethod
    def _option(code: int, value: bytes) -> bytes:
        return struct.pack("<HH", code, len(value)) + value + b"\0" * (-len(value) % 4)
