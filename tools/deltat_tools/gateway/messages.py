"""What two gateways say to each other in a call: a head of one line of JSON, and a body of octets.

An order has a number: its caller's store and a count of that store for its flow. Its far gateway keeps what became of
it under that number, until the near one says that it won't ask any more (`floor`)."""
import json
from dataclasses import asdict, dataclass
from typing import Any


class BadMessage(ValueError):
    """The octets are no message of a gateway."""


@dataclass(frozen=True)
class Order:
    """A request for the HTTP server. `floor`: no order of this store and flow below it will be asked about any more."""

    store: str
    number: int
    floor: int
    path: str
    type: str


@dataclass(frozen=True)
class Question:
    """What became of an order of this flow?"""

    store: str
    number: int
    floor: int


@dataclass(frozen=True)
class Outcome:
    """What became of an order. `answered`: the HTTP server answered with `status`. `never`: it wasn't handed to the
    server, and won't be. `begun`: it was handed to the server, and the gateway ended before the server answered.
    `forgotten`: the near gateway said that it wouldn't ask."""

    fate: str
    status: int = 0
    type: str = ""


FATES = ("answered", "never", "begun", "forgotten")


def packed(head: Order | Question | Outcome, body: bytes = b"") -> bytes:
    """The octets of a message."""
    said = {"is": type(head).__name__.lower(), **asdict(head)}
    return json.dumps(said, separators=(",", ":")).encode() + b"\n" + body


def _fields(octets: bytes) -> tuple[dict[str, Any], bytes]:
    line, newline, body = octets.partition(b"\n")
    try:
        said = json.loads(line)
    except ValueError as why:
        raise BadMessage(f"no head of JSON: {why}") from why
    if not newline or not isinstance(said, dict):
        raise BadMessage("no head of JSON")
    return said, body


def _made(kind: type, said: dict[str, Any]) -> Any:
    fields = {name: it for name, it in kind.__annotations__.items() if name in said}
    if len(fields) != len(kind.__annotations__):
        raise BadMessage(f"a field of {kind.__name__.lower()} is missing")
    if not all(isinstance(said[name], it) and not isinstance(said[name], bool) for name, it in fields.items()):
        raise BadMessage(f"a field of {kind.__name__.lower()} has a wrong type")
    return kind(**{name: said[name] for name in fields})


def unpacked_request(octets: bytes) -> tuple[Order | Question, bytes]:
    """The order or question of a request, and its body. Raises BadMessage."""
    said, body = _fields(octets)
    kinds = {"order": Order, "question": Question}
    if said.get("is") not in kinds:
        raise BadMessage(f"neither an order nor a question, but {said.get('is')!r}")
    head = _made(kinds[said["is"]], said)
    if head.number < 1 or head.floor < 1:
        raise BadMessage("a number below 1")
    return head, body


def unpacked_outcome(octets: bytes) -> tuple[Outcome, bytes]:
    """The outcome of a reply, and its body. Raises BadMessage."""
    said, body = _fields(octets)
    head: Outcome = _made(Outcome, said)
    if said.get("is") != "outcome" or head.fate not in FATES:
        raise BadMessage("no outcome of an order")
    return head, body
