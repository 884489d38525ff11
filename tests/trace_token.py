#!/usr/bin/env python3
"""tools/trace_token.py over a recorded run: `tests/trace_token.py`.

A client makes calls to a service (tests/udp/ends.c) through a relay, which writes what it receives and what it passes
on as two captures. The relay loses each seventh segment that it sees for the first time. Of each call the tool must
show its request, each frame that the relay saw, those that were sent again, and the answer; and by both captures which
frames were lost. Both ends record too (dt_udp_record): by their recordings the tool must show the same frames, when
each program made the call, had the request, replied and had the answer, and the same of calls that waited in the
driver. A recording ends at its `max_octets`, and when the disk is full, and the calls continue; tshark reads it, if it
is there. Then captures in other forms, one that is cut off, one that is damaged, a file that is none, a call that isn't
there, and lines of a node's log.

Ends with 77 where there is no compiler or no archive.

In tests/all: no words, 240 s."""
import pathlib
import re
import select
import shutil
import struct
import subprocess
import sys
import tempfile
import time

from lib import HOST, TOP, skip
from udp import ARCHIVE, COMPILER, Built, End, Relay, wants

TOOL = TOP / "tools" / "trace_token.py"
sys.path.insert(0, str(TOP / "tools"))
import trace_token  # noqa: E402

HEAD = struct.pack("<IHHiIII", 0xA1B2C3D4, 2, 4, 0, 0, 65535, 101)
CALLS, OCTETS = 30, 3000


def packet_of(payload: bytes) -> bytes:
    """A datagram of UDP over IPv4; nothing reads the addresses."""
    udp = struct.pack(">4H", 1, 2, 8 + len(payload), 0) + payload
    return struct.pack(">BBHHHBBH4s4s", 0x45, 0, 20 + len(udp), 0, 0, 64, 17, 0, b"\x7f\0\0\1", b"\x7f\0\0\1") + udp


def record(at: float, packet: bytes) -> bytes:
    return struct.pack("<4I", int(at), int(at % 1 * 1e6), len(packet), len(packet)) + packet


class Recording(Relay):
    """A relay that writes what comes and what goes, and loses each segment of 7 that it sees for the first time."""

    def __init__(self, target: int) -> None:
        super().__init__(0, target)
        self.came, self.went = bytearray(HEAD), bytearray(HEAD)
        self.first: set[bytes] = set()
        self.lost_frames: list[bytes] = []

    def run(self) -> None:
        while not self.over:
            for it in select.select([self.near, self.far], [], [], 0.05)[0]:
                octets, source = it.recvfrom(65536)
                if it is self.near:
                    self.client = source
                packet, at = packet_of(octets), time.time()
                self.came += record(at, packet)
                if self.loses(octets):
                    continue
                self.went += record(at + 1e-6, packet)
                to, where = (self.far, (HOST, self.target)) if it is self.near else (self.near, self.client)
                to.sendto(octets, where)

    def loses(self, octets: bytes) -> bool:
        if octets[0] not in (1, 2) or octets[1] != 1 or octets[16] != 1 or octets[8:26] in self.first:
            return False
        self.first.add(octets[8:26])
        lost = len(self.first) % 7 == 3
        self.lost_frames += [octets] * lost
        return lost


def ran(*words: object) -> "subprocess.CompletedProcess[str]":
    return subprocess.run(
        [sys.executable, TOOL, *map(str, words)], capture_output=True, text=True, check=False, timeout=60
    )


def recorded(built: Built, folder: pathlib.Path) -> Recording:
    """Runs the calls. What the relay saw is in came.pcap and went.pcap, what the ends recorded in client.pcapng and
    service.pcapng."""
    service = End(built("ends"), "serve", "next", node=2, learns=10, r=4000, record=folder / "service.pcapng")
    relay = Recording(service.port)
    relay.start()
    words = [
        "ask",
        "next",
        "node=1",
        "peer=2",
        f"peer_host={HOST}",
        f"peer_port={relay.near_port}",
        f"count={CALLS}",
        f"octets={OCTETS}",
        "many=3",
        "timeout=20000",
        "r=4000",
        f"record={folder / 'client.pcapng'}",
    ]
    try:
        said = subprocess.run([built("ends"), *words], capture_output=True, text=True, timeout=60, check=True).stdout
    finally:
        service.stop()
        relay.over = True
        relay.join()
    wants(f"answered {CALLS} unsure 0" in said, said)
    for name in ("came", "went"):
        (folder / f"{name}.pcap").write_bytes(getattr(relay, name))
    return relay


def listed(folder: pathlib.Path) -> list[str]:
    """Every call is listed once, as answered."""
    ran_ = ran(folder / "came.pcap")
    lines = ran_.stdout.splitlines()
    wants(ran_.returncode == 0 and len(lines) == CALLS, f"{ran_.returncode}, {len(lines)} calls: {ran_.stderr}")
    wants(
        all(
            re.fullmatch(
                r"1:10>2:20#\d+: answered after [\d.]+ ms; request: \d+ frames, \d+ again; "
                r"answer: \d+ frames, \d+ again",
                it,
            )
            for it in lines
        ),
        lines[0],
    )
    again = sum(int(it) for line in lines for it in re.findall(r"(\d+) again", line))
    wants(again > 5, f"{again} frames again")
    return [line.split(": ")[0] for line in lines]


def shown(folder: pathlib.Path, tokens: list[str], relay: Recording) -> int:
    """Of each call each frame is shown, in both captures, and what was lost only in the first."""
    losses = 0
    for token in tokens:
        ran_ = ran(folder / "came.pcap", folder / "went.pcap", token)
        lines = ran_.stdout.splitlines()
        wants(ran_.returncode == 0 and lines[0].startswith(f"{token}: {OCTETS} octets, answered after "), ran_.stdout)
        asked, got = (eval(it.partition(" ")[2]) for it in lines[1:3])
        wants(len(asked) == len(got) == 40, f"{asked} {got}")
        came, went = (sum(f" {it}.pcap" in line and "life" in line for line in lines) for it in ("came", "went"))
        first = {
            re.search(r"(request|answer).*: (\d+ octets from \d+)", line).groups()
            for line in lines
            if "came.pcap" in line and "life" in line
        }
        octets = sum(int(it[1].split()[0]) for it in first)
        wants(octets == 2 * (OCTETS + 8), f"{token}: {octets} octets are shown: {ran_.stdout}")
        losses += came - went
        wants(any("request: all is acknowledged" in it for it in lines) or "of the request" in ran_.stdout, ran_.stdout)
        wants(all(re.search(r"step -?[\d.]+ of [12]", it) for it in lines if "life" in it), "steps")
        moments = [float(it.split()[0]) for it in lines[3:-1]]
        wants(moments == sorted(moments) and moments[0] == 0, "order")
    wants(losses == len(relay.lost_frames), f"{losses} of {len(relay.lost_frames)} losses are seen")
    return losses


WAY = [
    *("program 1", "call: 3000 octets, 20000 ms"),
    *("program 2", "request: 3000 octets", "program 2", "reply: 3000 octets"),
    *("program 1", "answered: 3000 octets"),
]


def by_ends(folder: pathlib.Path, tokens: list[str]) -> None:
    """Of each call the recordings of both ends show what the programs did, and each frame that the relay saw."""
    files = (folder / "client.pcapng", folder / "service.pcapng")
    wants(ran(*files).stdout.count("answered after") == CALLS, "calls are missing in the recordings")
    for token in tokens:
        lines = ran(*files, token).stdout.splitlines()
        did = [re.split(r"  (?:client|service)\.", it.split("program ")[1])[0] for it in lines if " program " in it]
        wants([part for it in did for part in (f"program {it[0]}", it[1:].strip())] == WAY, f"{token}: {did}")
        frames = [it for it in lines if "life" in it or "acknowledged" in it]
        seen = [it for it in ran(folder / "came.pcap", token).stdout.splitlines() if "life" in it]
        own = {"client": "1", "service": "2"}
        frames = [it for it in frames if "life" in it]
        left = [it for it in frames if it.split("->")[0].split()[-1] == own[it.split()[-1].split(".")[0]]]
        wants(len(left) == len(seen), f"{token}: {len(left)} frames left, and the relay saw {len(seen)}")
        wants("program 1" in lines[3], f"{token}: {lines[3]}")


def waited(built: Built, folder: pathlib.Path) -> int:
    """Calls that waited in the driver are shown under the number of their frames."""
    service = End(built("ends"), "serve", "next", node=2, learns=10)
    words = ["ask", "next", "node=1", "peer=2", f"peer_host={HOST}", f"peer_port={service.port}", "count=300"]
    words += ["octets=20000", "many=100", "timeout=20000", f"record={folder / 'waited.pcapng'}"]
    try:
        said = subprocess.run([built("ends"), *words], capture_output=True, text=True, timeout=60, check=True).stdout
    finally:
        service.stop()
    wants("answered 300 unsure 0" in said, said)
    listed_ = ran(folder / "waited.pcapng").stdout.splitlines()
    wants(len(listed_) == 300 and all("answered after" in it for it in listed_), f"{len(listed_)} calls")
    entries: list[trace_token.Entry] = []
    list(trace_token.frames_of(folder / "waited.pcapng", entries))
    entered = [it for it in entries if it.event == "enters"]
    wants(len(entered) > 10, f"{len(entered)} calls waited")
    token = f"{entered[-1].token.partition('#')[0]}#{entered[-1].text.rpartition(' ')[2]}"
    shown_ = ran(folder / "waited.pcapng", token).stdout
    parts = ("it waits in the driver", "enters: passed to the node", "answered: 20000")
    wants(all(it in shown_ for it in parts), shown_)
    return len(entered)


def ends_early(built: Built, folder: pathlib.Path) -> None:
    """The calls continue where a recording can't: on a full disk, and beyond its limit."""
    service = End(built("ends"), "serve", "next", node=2, learns=10, record="/dev/full")
    words = ["ask", "next", "node=1", "peer=2", f"peer_host={HOST}", f"peer_port={service.port}", "count=50"]
    words += ["octets=3000", "record_octets=60000", f"record={folder / 'short.pcapng'}"]
    try:
        said = subprocess.run([built("ends"), *words], capture_output=True, text=True, timeout=60, check=True).stdout
    finally:
        service.stop()
    wants("answered 50 unsure 0" in said, said)
    size = (folder / "short.pcapng").stat().st_size
    wants(50_000 < size <= 60_000, f"{size} octets are recorded")
    wants("answered after" in ran(folder / "short.pcapng").stdout, "a recording that ended early isn't read")
    words[-1] = f"record={folder}"
    refused = subprocess.run([built("ends"), *words], capture_output=True, text=True, check=False)
    wants(refused.returncode == 1 and "can't be made: Is a directory" in refused.stderr, refused.stderr)


def wireshark(folder: pathlib.Path) -> str:
    """tshark reads a recording whole, without a complaint."""
    if not shutil.which("tshark"):
        return "no tshark"
    words = ["tshark", "-r", str(folder / "client.pcapng"), "-T", "fields", "-e", "udp.length", "-e", "frame.number"]
    got = subprocess.run(words, capture_output=True, text=True, check=False, timeout=60)
    frames = len(list(trace_token.frames_of(folder / "client.pcapng")))
    there = sum(it.split("\t")[0] != "" for it in got.stdout.splitlines())
    wants(got.returncode == 0 and there >= frames, f"{there} of {frames} frames: {got.stderr}")
    return f"{len(got.stdout.splitlines())} records"


def others(folder: pathlib.Path, token: str) -> int:
    """Other forms of captures, and what is refused."""
    plain = (folder / "came.pcap").read_bytes()
    cut, none, damaged = folder / "cut.pcap", folder / "none.pcap", folder / "damaged.pcap"
    cut.write_bytes(plain[:-10])
    none.write_bytes(b"nothing of the kind" * 10)
    damaged.write_bytes(HEAD[:20] + b"\x99\0\0\0" + plain[24:])
    blocks = struct.pack("<IIIHHqI", 0x0A0D0D0A, 28, 0x1A2B3C4D, 1, 0, -1, 28) + struct.pack(
        "<IIHHII", 1, 20, 101, 0, 0, 20
    )
    at = 24
    while at < len(plain):
        seconds, part, length, _ = struct.unpack_from("<4I", plain, at)
        moment, room = seconds * 1_000_000 + part, -(-length // 4) * 4
        blocks += struct.pack("<7I", 6, 32 + room, 0, moment >> 32, moment & 0xFFFFFFFF, length, length)
        blocks += plain[at + 16 : at + 16 + length].ljust(room, b"\0") + struct.pack("<I", 32 + room)
        at += 16 + length
    (folder / "came.pcapng").write_bytes(blocks)
    wants(ran(folder / "came.pcapng").stdout == ran(folder / "came.pcap").stdout, "pcapng differs")
    wants(ran(cut).returncode == 0, "one that is cut off")
    cases = [(none, 2), (damaged, 2), (folder / "nowhere", 2)]
    for path, status in cases:
        got = ran(path)
        wants(got.returncode == status and got.stderr.startswith("trace_token.py: "), f"{path}: {got}")
    got = ran(folder / "came.pcap", token + "9")
    wants(got.returncode == 1 and "there is no call" in got.stderr, f"{got}")
    log = folder / "node.log"
    frames = list(trace_token.frames_of(folder / "came.pcap"))
    begun = min(it.at for it in frames)
    log.write_text(f"{round(begun * 1000)} 1 took 1:10>2:20 300\n5 1 took 1:10>2:20 300\n")
    turns = [it for it in ran(folder / "came.pcap", "--log", log, token).stdout.splitlines() if "turn of 1" in it]
    wants(len(turns) == 1 and "took 1:10>2:20 300" in turns[0], f"turns: {turns}")
    return len(cases) + 4


def main() -> int:
    if not COMPILER or not ARCHIVE.exists():
        skip("there is no C compiler, or no lib/libdeltat.a: `make -C lib` makes it")
    with tempfile.TemporaryDirectory(prefix="deltat-trace-") as room:
        folder = pathlib.Path(room)
        try:
            built = Built(folder)
            relay = recorded(built, folder)
            tokens = listed(folder)
            losses = shown(folder, tokens, relay)
            by_ends(folder, tokens[::5])
            waits = waited(built, folder)
            ends_early(built, folder)
            read = wireshark(folder)
            cases = others(folder, tokens[0])
        except (AssertionError, AttributeError, subprocess.SubprocessError) as why:
            print(f"FAILED: {type(why).__name__} {why}")
            return 1
    print(
        f"{len(tokens)} calls are shown with each frame, {losses} of them lost, by captures and by recordings; {waits} "
        f"that waited; {read} for Wireshark; {cases} other captures and words"
    )
    return 0


if __name__ == "__main__":
    sys.exit(main())
