"""Scripts of nodes, and schedules of two stations."""
from collections.abc import Sequence

from .sockets import HOST


def params(seg: int = 100, room: int = 4096, window: int = 512, times: str = "1000 3000 200 500 800") -> str:
    """A line of parameters: mpl, r, a, rto and probe in ms, octets of a segment, of a record's room at each end, and of
    a window."""
    return f"params {times} {seg} {room} {room} {window} 2147483648"


# those of nodes: a segment of 1,000 octets, room for 65,536
PARAMS = params(1000, 65536, 65536, "1000 8000 200 200 800")


def two_stations(line: str = params()) -> str:
    """The setup of stations 1 and 2 with a link each way, and its `go`."""
    stations = ["station 1 0", "station 2 0"]
    links = ["link 1 1 2 50 0", "link 2 2 1 50 0", "route 1 2 1", "route 2 1 2"]
    return "".join(f"{it}\n" for it in [line, *stations, *links, "go"])


def node_script(setup: Sequence[str], ends: tuple[int, int], ports: tuple[int, int], commands: Sequence[str]) -> str:
    """The script of a node with one peer: parameters and further lines of the setup, this node's number and the
    other's, this node's port and the other's, and what it does."""
    own = [f"me {ends[0]} first", f"local {HOST}:{ports[0]}", f"peer 1 {HOST}:{ports[1]} 50 0", f"route {ends[1]} 1"]
    return "\n".join([setup[0], *own, *setup[1:], "go", *commands]) + "\n"


def script(me: int, other: int, local: int, peer: int, commands: Sequence[str]) -> str:
    """The script of a node with one peer, with the usual parameters."""
    return node_script([PARAMS], (me, other), (local, peer), commands)
