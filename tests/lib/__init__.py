"""What tests and benches share, a module for each kind of it. A bench puts the folder of tests into its path first.

places      where things are, and how a test ends
sockets     ports, and what passes between two nodes
scripts     scripts of nodes, schedules of two stations
nodes       nodes as processes, and what they write
messages    octets that a number decides
measures    memory and time
namespaces  networks of a test's own
parameters  `Params`, as the tools have it (imported by itself, since it needs the folder of tools)
"""
from .measures import growth, memory_of, stolen
from .messages import body, number_in
from .namespaces import in_own_network
from .nodes import ANSWERS, answer, heard, read_of, start, wait_for
from .places import PROGRAM, SKIPPED, TOP, program, skip, tell
from .scripts import PARAMS, node_script, params, script, two_stations
from .sockets import HOST, Between, bound, free_port, is_up, own_port, relay

__all__ = [
    "ANSWERS",
    "HOST",
    "PARAMS",
    "PROGRAM",
    "SKIPPED",
    "TOP",
    "Between",
    "answer",
    "body",
    "bound",
    "free_port",
    "growth",
    "heard",
    "in_own_network",
    "is_up",
    "memory_of",
    "node_script",
    "number_in",
    "own_port",
    "params",
    "program",
    "read_of",
    "relay",
    "script",
    "skip",
    "start",
    "stolen",
    "tell",
    "two_stations",
    "wait_for",
]
