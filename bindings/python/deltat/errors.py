"""What calls raise. Each error is a `DeltatError`."""

from __future__ import annotations

from ._c import Cause, InvalidReason, Status

_CAUSES = {
    Cause.GIVEN_UP: "octets of its request weren't acknowledged in time",
    Cause.TIMEOUT: "no answer came within its timeout",
    Cause.STOPPED: "its node was stopped or closed",
}


class DeltatError(Exception):
    """The base of all errors. Unless it is `OutOfMemory` or `Unsure`, the call that raised it sent and read nothing."""


class OutOfMemory(DeltatError):
    """The library ran out of memory, and the call was done in part: the octets of a send may have been taken. Then the
    node is stopped: close it, and open it again with `Start.AGAIN`. Only `set_guard`, `add_route` and `count_flow`, and
    `set_port` of a service, changed nothing when they raise this, and the node is usable; so did a service's `call`, if
    only the memory for its `user` was missing."""


class Stopped(DeltatError):
    """The node ran out of memory earlier, was stopped, or is closed. Open it again with `Start.AGAIN`."""


class Forked(Stopped):
    """The node was opened by another process, and this process is a forked child of it. Nothing was sent."""


class InvalidArgument(DeltatError, ValueError):
    """An argument is out of range. `field` is its name and `value` its value, if one number is wrong; `reason` is why
    the library refused a call or a reply."""

    def __init__(
        self, text: str, field: str = "", value: int | None = None, reason: InvalidReason | None = None
    ) -> None:
        super().__init__(text)
        self.field, self.value, self.reason = field, value, reason


class Quiet(DeltatError):
    """The node is silent after its start, until the time `until`, in ms of its clock. Nothing was taken."""

    def __init__(self, until: int) -> None:
        super().__init__(f"the node is silent until {until} ms; try again then")
        self.until = until


class Full(DeltatError):
    """The octets don't fit into the flow's send buffer: `free` octets fit now. More fit when the peer has acknowledged
    some. Nothing was taken."""

    def __init__(self, free: int) -> None:
        super().__init__(f"the flow has room for {free} octets; try again when some are acknowledged")
        self.free = free


_DECLINED = {
    Status.QUIET: "the node is silent until {until} ms; try again then",
    Status.FULL: "the flow has room for {free} octets, of which a request needs 8; try again later",
    Status.TOO_MANY_CALLS: "max_calls are waiting, or have an end that wasn't taken; take events, or raise the limit",
    Status.LIFE_USED_UP: "2^32 calls were made in this life; set another one with set_life",
}


class Declined(DeltatError):
    """A call wasn't made, and nothing of it was sent. `status` is `QUIET` (until the time `until`, in ms), `FULL`
    (`free` octets fit, and a request needs 8 more than its payload), `TOO_MANY_CALLS` or `LIFE_USED_UP`."""

    def __init__(self, status: Status, until: int = 0, free: int = 0) -> None:
        super().__init__(f"the call wasn't made: {_DECLINED[status].format(until=until, free=free)}")
        self.status, self.until, self.free = status, until, free


class Unsure(DeltatError):
    """A call ended without an answer, for `cause`: it was served once or not at all, or still will be."""

    def __init__(self, cause: Cause) -> None:
        super().__init__(f"the call was served once or not at all, or still will be: {_CAUSES[cause]}")
        self.cause = cause


class Gone(DeltatError):
    """The request has a reply, was forgotten, or is of an earlier life."""


class StateError(DeltatError):
    """A state folder can't be used: another process has it, it is of another node or of other parameters, it was
    closed, or it can't be written. No datagram was sent, and none was passed in."""


class UdpError(DeltatError, OSError):
    """The socket can't be opened, or a system call failed without which its driver can't continue."""
