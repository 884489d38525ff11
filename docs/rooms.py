#!/usr/bin/env python3
"""Draws the map of the crates, docs/pictures/rooms.svg, from crates.txt: seven rooms, the crates in each, and an arrow
from each room to a room that it uses.

Usage: docs/rooms.py          ends with 1 where the picture differs from crates.txt, or a crate has no room or two
       docs/rooms.py write    draws it anew"""
import sys
from collections.abc import Iterator
from pathlib import Path
from typing import NamedTuple

TOP = Path(__file__).resolve().parent.parent
CRATES = TOP / "crates.txt"
PICTURE = TOP / "docs" / "pictures" / "rooms.svg"


class Room(NamedTuple):
    """A room: what it has, where it is drawn (row from below, column of two, or -1 for the whole width), its crates."""

    name: str
    says: str
    row: int
    column: int
    crates: str


ROOMS = (
    Room(
        "Basics",
        "limits, times, octets, deadlines",
        0,
        -1,
        "dt_units dt_items dt_params dt_fingerprint dt_cases dt_timers dt_ordered",
    ),
    Room(
        "A flow",
        "one sender, one receiver: definitions, laws, code",
        1,
        0,
        "dt_layout dt_flow_model dt_flow_laws dt_send dt_recv dt_flow_tests",
    ),
    Room(
        "Texts",
        "logs, schedules, scripts: written and read",
        1,
        1,
        (
            "dt_edges dt_reports dt_log dt_text dt_make dt_fold dt_trace dt_command dt_text_tests dt_machine"
            " dt_edges_tests"
        ),
    ),
    Room(
        "A node",
        "all flows of a node, its links and routes",
        2,
        0,
        "dt_table dt_host dt_relay dt_shelf dt_station dt_station_tests",
    ),
    Room(
        "The world",
        "all nodes, and what happens to packets",
        2,
        1,
        "dt_world_model dt_world_laws dt_calls_model dt_calls_laws",
    ),
    Room(
        "The library",
        "what programs call, and laws of its networks",
        3,
        0,
        (
            "dt_endpoint dt_messages dt_inbox dt_service_model dt_tokens dt_open_calls dt_call_book dt_service dt_early"
            " dt_early_laws dt_exchange_tests dt_network dt_service_laws dt_mailbox_laws dt_watch dt_watch_laws"
            " dt_orders_model dt_registers dt_order_lanes dt_orders_octets dt_orders_turns dt_orders_laws"
            " dt_orders_world_laws dt_orders_tests dt_c"
        ),
    ),
    Room(
        "The program",
        "replay, node, calls, audit",
        3,
        1,
        (
            "dt_ledger dt_parts_tests dt_script dt_notes dt_world dt_scenario dt_replay dt_call_parts dt_calls"
            " dt_calls_input dt_turn dt_node dt_audit dt_audit_laws dt_replay_audit dt_top dt_trial dt_top_tests deltat"
            " deltat_tests"
        ),
    ),
)
WIDTH, MARGIN, GAP, LINE = 960, 20, 56, 18
HALF = (WIDTH - 2 * MARGIN - GAP) // 2
# how many characters of a crate's name a line of a box takes, half a page wide
LETTERS = 54


class Box(NamedTuple):
    x: int
    y: int
    width: int
    height: int

    def middle(self) -> int:
        return self.x + self.width // 2


def uses() -> dict[str, list[str]]:
    """The crates that each crate names in crates.txt, those of the toolchain left out."""
    lines = [it.split("#")[0] for it in CRATES.read_text().splitlines()]
    found = {head.split()[0]: tail.split() for head, _, tail in (it.partition(":") for it in lines if it.strip())}
    return {name: [it for it in below if it in found] for name, below in found.items()}


def faults(found: dict[str, list[str]]) -> Iterator[str]:
    rooms = [it for room in ROOMS for it in room.crates.split()]
    for name in found:
        if rooms.count(name) != 1:
            yield f"docs/rooms.py: {name} is in {rooms.count(name)} rooms, and not in one"
    for name in rooms:
        if name not in found:
            yield f"docs/rooms.py: crates.txt has no crate {name}"
    rows = {it.name: it.row for it in ROOMS}
    for a, b in edges(found) if sorted(rooms) == sorted(found) else []:
        if rows[a] < rows[b]:
            yield f"docs/rooms.py: {a} uses {b}, which is drawn above it"


def wrapped(words: list[str], most: int) -> list[str]:
    lines = [""]
    for it in words:
        if len(lines[-1]) + len(it) + 2 > most:
            lines.append("")
        lines[-1] += ("  " if lines[-1] else "") + it
    return lines


def lines_of(room: Room) -> list[str]:
    return wrapped(room.crates.split(), LETTERS * 2 if room.column < 0 else LETTERS)


def boxes() -> dict[str, Box]:
    """Where each room is drawn, those that use others above them."""
    made, y = {}, MARGIN
    for row in sorted({it.row for it in ROOMS}, reverse=True):
        here = [it for it in ROOMS if it.row == row]
        height = 58 + LINE * max(len(lines_of(it)) for it in here)
        for it in here:
            whole = it.column < 0
            x = MARGIN if whole else MARGIN + it.column * (HALF + GAP)
            made[it.name] = Box(x, y, WIDTH - 2 * MARGIN if whole else HALF, height)
        y += height + GAP
    return made


def edges(found: dict[str, list[str]]) -> list[tuple[str, str]]:
    """The pairs of rooms where a crate of the first names one of the second."""
    home = {it: room.name for room in ROOMS for it in room.crates.split()}
    pairs = {(home[name], home[it]) for name, below in found.items() for it in below}
    order = [it.name for it in ROOMS]
    return sorted(((a, b) for a, b in pairs if a != b), key=lambda it: (order.index(it[0]), order.index(it[1])))


def arrow(upper: Box, lower: Box, place: int) -> str:
    """An arrow from a box to a neighbour beside or below it; none to one further away, which the text lists."""
    if upper.y == lower.y:
        y = upper.y + 24 + 16 * place
        x, to = (upper.x + upper.width, lower.x) if upper.x < lower.x else (upper.x, lower.x + lower.width)
        return f'<path class="a" d="M{x} {y} H{to}"/>'
    x = min(max(lower.middle(), upper.x + 30), upper.x + upper.width - 30) if lower.width > HALF else lower.middle()
    start = upper.middle() + (
        0 if lower.width > HALF else 40 * (1 if lower.x > upper.x else -1 if lower.x < upper.x else 0)
    )
    x = start if lower.width > HALF else x + 14 * place
    return f'<path class="a" d="M{start} {upper.y + upper.height} L{x} {lower.y}"/>'


STYLE = """<style>
  text { font: 13px sans-serif; fill: #1c2733 }
  .n { font: bold 16px sans-serif } .c { font: 12px monospace; fill: #31475c } .s { fill: #44586b }
  rect { fill: #f3f7fb; stroke: #5b7a99; stroke-width: 1.5 }
  .a { stroke: #5b7a99; stroke-width: 1.8; fill: none; marker-end: url(#h) }
  @media (prefers-color-scheme: dark) {
    text { fill: #e6edf3 } .c { fill: #b9cbdc } .s { fill: #a9bccd }
    rect { fill: #17212b; stroke: #7d9cba } .a { stroke: #7d9cba } #h path { fill: #7d9cba }
  }
</style>
<defs><marker id="h" viewBox="0 0 8 8" refX="7" refY="4" markerWidth="7" markerHeight="7" orient="auto">\
<path d="M0 0 L8 4 L0 8 z" fill="#5b7a99"/></marker></defs>"""


def picture(found: dict[str, list[str]]) -> str:
    where = boxes()
    height = max(it.y + it.height for it in where.values()) + MARGIN
    words = "; ".join(f"{a} uses {b}" for a, b in edges(found))
    made = [f'<svg xmlns="http://www.w3.org/2000/svg" viewBox="0 0 {WIDTH} {height}" role="img">',
            f"<title>Seven rooms of crates</title><desc>{words}</desc>", STYLE]
    rows = {it.name: it.row for it in ROOMS}
    seen: dict[str, int] = {}
    for a, b in edges(found):
        if rows[a] - rows[b] in (0, 1):
            made.append(arrow(where[a], where[b], seen.get(b, 0)))
            seen[b] = seen.get(b, 0) + 1
    for room in ROOMS:
        box = where[room.name]
        made.append(f'<rect x="{box.x}" y="{box.y}" width="{box.width}" height="{box.height}" rx="8"/>')
        made.append(f'<text x="{box.x + 14}" y="{box.y + 24}"><tspan class="n">{room.name}</tspan>'
                    f'<tspan class="s" dx="10">{room.says}</tspan></text>')
        for place, line in enumerate(lines_of(room)):
            made.append(
                f'<text class="c" x="{box.x + 14}" y="{box.y + 48 + LINE * place}" xml:space="preserve">{line}</text>'
            )
    return "\n".join([*made, "</svg>", ""])


def wrong() -> list[str]:
    """What is wrong with the rooms and the picture, a line each."""
    found = uses()
    said = list(faults(found))
    if not said and (not PICTURE.is_file() or PICTURE.read_text() != picture(found)):
        said.append("docs/pictures/rooms.svg differs from crates.txt: docs/rooms.py write draws it anew")
    return said


def main(words: list[str]) -> int:
    if words == ["write"]:
        PICTURE.write_text(picture(uses()))
    elif words:
        print(__doc__, file=sys.stderr)
        return 2
    said = wrong()
    for it in said:
        print(it)
    return 1 if said else 0


if __name__ == "__main__":
    sys.exit(main(sys.argv[1:]))
