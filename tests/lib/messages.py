"""Messages whose octets their number decides."""
from random import Random


def body(number: int, size: int) -> bytes:
    """The octets of a message, 8 or more, which its number decides."""
    return number.to_bytes(8, "big") + Random(number).randbytes(size - 8)


def number_in(octets: bytes) -> int:
    """The number of such octets, or 0 where they are none."""
    number = int.from_bytes(octets[:8], "big")
    return number if len(octets) >= 8 and body(number, len(octets)) == octets else 0
