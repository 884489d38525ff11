#!/usr/bin/env python3
"""The Wireshark dissector against the program: `tests/dissector.py [PROGRAM]`.

Each frame is a datagram of a trace that PROGRAM runs again, and a packet of a capture that tshark reads
with tools/wireshark/deltat.lua. What the program tells of it (its fault, or its flow, number and count of
octets) is what the dissector shows. The frames: the worked frame of docs/formats.md with each octet at
each value (8,960 changes), each of its first parts, each kind in both versions, data of each length near
a limit, and what relays and other nodes see. Frames with the trailer of the driver's watch, and its pings, by the
worked trailer of docs/formats.md.

One line a case, and then how many hold. Status 1 where one fails, 77 where tshark isn't there.

In tests/all: PROGRAM, 300 s."""
import argparse
import os
import pathlib
import shutil
import subprocess
import sys
import tempfile
from typing import Iterator

ROOT = pathlib.Path(__file__).resolve().parent.parent
sys.path.insert(0, str(ROOT / "tools"))
import wire  # noqa: E402
import lib  # noqa: E402

LUA = ROOT / "tools" / "wireshark" / "deltat.lua"
WAY = wire.Flow(1, 10, 2, 20)
LOCAL, PEER = ("127.0.0.1", 4002), ("127.0.0.1", 4001)
FIELDS = ["fault", "flow", "number", "size", "letters", "kind", "version", "protocol", "life", "from", "to", "window"]


def program_answers(program: str, frames: list[bytes]) -> list[list[str]]:
    """What the program tells of each frame. Each has a moment of its own."""
    told = lib.heard(program, 2, [(at + 1, frame) for at, frame in enumerate(frames)], routes=[1])
    return [lib.answer(told[at + 1]) for at in range(len(frames))]


def tshark(path: str, names: list[str], *options: str) -> list[list[str]]:
    """The values of fields of each packet of a capture."""
    wanted = [it for name in names for it in ("-e", name)]
    command = [
        "tshark",
        "-n",
        "-X",
        f"lua_script:{LUA}",
        "-r",
        path,
        *options,
        "-T",
        "fields",
        "-E",
        "separator=/t",
        *wanted,
    ]
    ran = subprocess.run(command, capture_output=True, text=True, check=True)
    if "lua" in ran.stderr.lower():
        raise RuntimeError(ran.stderr)
    return [line.split("\t") for line in ran.stdout.splitlines()]


def captured(frames: list[bytes], folder: str, name: str = "frames.pcapng", step: int = 1000) -> str:
    """A capture of frames that go from the peer to the node."""
    path = os.path.join(folder, name)
    with open(path, "wb") as out:
        capture = wire.Capture(out, "test", "tests/dissector.py")
        for at, frame in enumerate(frames):
            capture.add(at * step, PEER, LOCAL, frame)
    return path


def shown(frames: list[bytes], folder: str) -> list[dict[str, str]]:
    """What the dissector shows of each frame at a port that is set to it."""
    rows = tshark(captured(frames, folder), [f"deltat.{it}" for it in FIELDS], "-d", "udp.port==4002,deltat")
    return [dict(zip(FIELDS, row)) for row in rows]


def differs(frame: bytes, answer: list[str], values: dict[str, str]) -> str:
    """How the dissector's values of a frame differ from the program's answer; empty where they don't."""
    word = answer[0] if answer else ""
    if word == "bad":
        return "" if values["fault"] == " ".join(answer[1:]) else f"fault {values['fault']!r}"
    if values["fault"] or not word:
        return f"fault {values['fault']!r}"
    # the octets of each field are where docs/formats.md puts them
    places = {"version": (0, 1), "protocol": (1, 2), "life": (4, 8), "from": (8, 12), "to": (12, 16), "kind": (16, 17),
              "number": (22, 26), "window": (26, 30)}
    wrong = [
        name for name, (start, end) in places.items() if int(values[name]) != int.from_bytes(frame[start:end], "big")
    ]
    if word == "noroute":
        wrong += ["to"] if values["to"] != answer[1] else []
    elif word == "put":
        wrong += ["to"] if values["to"] == "2" else []
    else:
        wrong += ["flow"] if values["flow"] != answer[1] else []
    if word in ("accepted", "dropped", "ignored", "closing"):
        wrong += ["number"] if values["number"] != answer[2] else []
    if word == "accepted":
        wrong += ["size"] if values["size"] != answer[3] else []
        wrong += ["run"] if ("d" in values["letters"]) < (answer[4] == "run") else []
    if word == "ignored":
        wrong += ["window"] if values["window"] != answer[3] else []
    return " ".join(wrong)


def same(name: str, program: str, frames: list[bytes], folder: str) -> bool:
    """Whether program and dissector agree on all frames of a case. tshark hands over no empty datagram."""
    answers, values = program_answers(program, frames), shown(frames, folder)
    if len(values) != len(frames):
        print(f"{name}: {len(frames)} frames, {len(values)} packets")
        return False
    wrong = [(f, a, d) for f, a, v in zip(frames, answers, values) if f and (d := differs(f, a, v))]
    for frame, answer, how in wrong[:5]:
        print(f"  {frame[:34].hex()} ({len(frame)} octets): program {' '.join(answer) or 'nothing'}, dissector {how}")
    told = sum(it[:1] == ["bad"] for it in answers)
    print(f"{name}: {len(frames)} frames, {told} that don't read, {len(wrong)} differences")
    return not wrong


def worked() -> bytes:
    return wire.packet(WAY, 999, wire.DATA, 0, 7, 0, b"hello")


def changes() -> Iterator[bytes]:
    """The worked frame with each octet at each value."""
    frame = worked()
    for place in range(len(frame)):
        for value in range(256):
            yield frame[:place] + bytes([value]) + frame[place + 1:]


def raw(version: int, kind: int, flags: int, window: int, size: int, told: int | None = None) -> bytes:
    """A frame of any kind in any version, whether there is one or not."""
    body = bytes([kind, flags]) + bytes.fromhex("000a0014ffffffff") + window.to_bytes(4, "big") + bytes(size)
    frame = wire.deltagram(version, 999, 1, 2, body)
    return frame if told is None else frame[:2] + told.to_bytes(2, "big") + frame[4:]


def kinds() -> Iterator[bytes]:
    """Each kind in both versions, with flags, windows and lengths at and about their limits."""
    for version in (0, 1, 2, 3):
        for kind in range(0, 6):
            for flags in (0, 1, 7, 8, 255):
                for window in (0, 1, 65536, 65537, 4294967295):
                    for size in (0, 1, 1024, 1025):
                        yield raw(version, kind, flags, window, size)


def lengths() -> Iterator[bytes]:
    """Data of each length of version 1 and of each near a limit of version 2, and bodies whose length is told wrong."""
    yield from (raw(1, wire.DATA, 7, 0, size) for size in range(0, 1060))
    for size in [*range(0, 40), *range(1000, 1100), *range(8150, 8194)]:
        yield raw(2, wire.DATA, 7, 0, size)
    for version in (1, 2):
        for there in (0, 13, 14, 15, 1038, 1039):
            for told in (0, 13, 14, 15, 1038, 1039, 8206, 8207, 65535):
                yield wire.deltagram(version, 5, 1, 2, bytes(there))[:2] + told.to_bytes(2, "big") + wire.deltagram(
                    version, 5, 1, 2, bytes(there)
                )[4:]


def parts() -> Iterator[bytes]:
    """All first parts of a frame of each kind."""
    whole = [worked(), wire.packet(WAY.back(), 999, wire.ACK, 5, 0, 4091), wire.packet(WAY, 999, wire.RENDEZVOUS, 5),
             wire.packet(WAY, 999, wire.CLOSING, 5), wire.packet(WAY, 999, wire.DATA, 5, 7, 0, bytes(1025))]
    for frame in whole:
        yield from (frame[:count] for count in range(0, min(len(frame) + 1, 40)))


def claims(program: str, folder: str) -> bool:
    """Without a port, exactly the frames that the program reads are claimed."""
    frames = [*changes(), *parts()]
    answers = program_answers(program, frames)
    rows = tshark(captured(frames, folder), ["deltat.version"])
    wrong = sum((row[0] == "") != (answer[:1] == ["bad"] or not answer) for row, answer in zip(rows, answers))
    print(f"claims: {len(frames)} frames, {sum(row[0] != '' for row in rows)} claimed, {wrong} differences")
    return wrong == 0 and len(rows) == len(frames)


# Frames of a talk at 0, 100 ms, 200 ms and so on, with what is shown of each.
def talk() -> list[tuple[bytes, dict[str, str]]]:
    hello = {"letters": "dbe", "size": "5", "next": "5", "flow": "1:10>2:20"}
    return [
        (worked(), {**hello, "acked_in": "3", "again": "", "acked_after": ""}),
        (wire.with_life(worked(), 500), {**hello, "again": "True", "first": "1", "acked_in": ""}),
        (
            wire.packet(WAY.back(), 999, wire.ACK, 5, 0, 4091),
            {"flow": "1:10>2:20", "acks": "1", "acked_after": "0.200000000", "again": ""},
        ),
        (wire.packet(WAY.back(), 999, wire.ACK, 5, 0, 4091), {"again": "True", "first": "3", "acked_after": ""}),
        (wire.packet(WAY, 999, wire.DATA, 5, 0, 0, b"x"), {"letters": "-", "again": "", "next": "6"}),
        (wire.packet(WAY, 999, wire.DATA, 5, 0, 0, b"y"), {"again": ""}),
        (wire.packet(WAY, 999, wire.RENDEZVOUS, 6), {"flow": "1:10>2:20", "kind": "3", "again": ""}),
        (
            wire.packet(WAY.back(), 1001, wire.ACK, 6, 0, 0),
            {"acks": "6", "acked_after": "0.200000000", "life_above_mpl": "1", "window_closed": "1"},
        ),
        (wire.packet(WAY, 1000, wire.CLOSING, 6), {"kind": "4", "version": "2", "life_above_mpl": ""}),
        (wire.packet(WAY, 1000, wire.DATA, 4294967295, 6, 0, b"ab"), {"next": "1", "letters": "be"}),
    ]


def values(program: str, folder: str) -> bool:
    """What is shown of a talk: letters, frames that were seen before, and the time to acknowledgements."""
    del program
    steps = talk()
    path = captured([frame for frame, _ in steps], folder, step=100_000)
    names = sorted({name for _, wanted in steps for name in wanted})
    rows = tshark(path, [f"deltat.{it}" for it in names], "-2", "-o", "deltat.mpl:1000")
    good = len(rows) == len(steps)
    for at, ((_, wanted), row) in enumerate(zip(steps, rows)):
        there = {name: value for name, value in zip(names, row) if name in wanted}
        there = {
            name: "1" if value and name in ("life_above_mpl", "window_closed") else value
            for name, value in there.items()
        }
        if {k: "True" if v == "1" and k == "again" else v for k, v in there.items()} != wanted:
            print(f"  packet {at + 1}: {there}, not {wanted}")
            good = False
    print(f"values: {len(steps)} packets of a talk, {'as they should be' if good else 'wrong'}")
    return good


def worked_trailer() -> bytes:
    """The trailer of docs/formats.md."""
    lines = (ROOT / "docs" / "formats.md").read_text().splitlines()
    return bytes.fromhex(next(it for it in lines if it.startswith("a1b2c3d4")))


def trailers(program: str, folder: str) -> bool:
    """What is shown of a frame with a trailer, of a ping, and of a trailer of another version."""
    del program
    trailer = worked_trailer()
    numbers = {
        "print": "0xa1b2c3d4",
        "opening": "0x0000000000000007",
        "version": "1",
        "kind": "1",
        "round": "0",
        "made": "2000000",
        "sure": "1999000",
        "of": "0x0009",
        "aged": "20",
        "rounded": "5",
        "wall": "0",
        "heard": "3",
    }
    ping = trailer[:10] + b"\x12" + trailer[11:]
    other = trailer[:10] + b"\x21" + trailer[11:]
    none = dict.fromkeys(numbers, "")
    steps = [
        (worked() + trailer, {**numbers, "flow": "1:10>2:20", "fault": "", "maker": ""}),
        (bytes(3) + b"\x01" + ping, {**numbers, "kind": "2", "flow": "", "fault": "", "maker": "1"}),
        (worked() + other, {**none, "flow": "", "fault": "length 19 53", "maker": ""}),
    ]
    names = [*numbers, "maker", "flow", "fault"]
    wanted_names = [f"deltat.trailer.{it}" for it in [*numbers, "maker"]] + ["deltat.flow", "deltat.fault"]
    rows = tshark(captured([it for it, _ in steps], folder), wanted_names, "-d", "udp.port==4002,deltat")
    found = [dict(zip(names, row + [""] * (len(names) - len(row)))) for row in rows]
    wrong = [(there, wanted) for there, (_, wanted) in zip(found, steps) if there != wanted]
    for there, wanted in wrong:
        print(f"  {there}, not {wanted}")
    claimed = tshark(captured([it for it, _ in steps], folder), ["deltat.flow"])
    good = not wrong and len(rows) == len(steps) and [row[0] for row in claimed] == ["1:10>2:20", "", ""]
    print(f"trailers: {len(steps)} packets, {'as they should be' if good else 'wrong'}")
    return good


def main() -> int:
    parser = argparse.ArgumentParser(description=__doc__, formatter_class=argparse.RawDescriptionHelpFormatter)
    parser.add_argument(
        "program", nargs="?", default=str(ROOT / "crates/deltat/out/deltat"), help="the program (default: %(default)s)"
    )
    program = os.path.abspath(parser.parse_args().program)
    if not shutil.which("tshark"):
        print("skipped: tshark isn't there (Debian: tshark)")
        return 77
    cases = {"changes": changes, "kinds": kinds, "lengths": lengths, "parts": parts}
    with tempfile.TemporaryDirectory() as folder:
        results = [same(name, program, list(frames()), folder) for name, frames in cases.items()]
        results += [claims(program, folder), values(program, folder), trailers(program, folder)]
    print(f"{sum(results)} of {len(results)} hold")
    return 0 if all(results) else 1


if __name__ == "__main__":
    sys.exit(main())
