"""Power cuts. A client and its server run once, and each of their system calls that change files is written down by
strace. Then the power is cut after each of these calls: of the octets that weren't synced any sectors of 512 are lost,
of the names that weren't synced all from one on. The ends are opened with what is left, of either or of both, and go
on."""
import contextlib
import logging
import os
import pathlib
import random
import re
import sqlite3
import subprocess
import sys
import tempfile
from dataclasses import dataclass, field

from deltat import InvalidArgument, orders

HERE = pathlib.Path(__file__).resolve().parent
PATHS = [str(HERE), str(HERE.parents[1] / "bindings" / "python")]
PROGRAM = f"import sys; sys.path[:0] = {PATHS!r}; import power; power.work(sys.argv[1], sys.argv[2:])"
ORDERS, SECTOR = 10, 512
CALLS = "openat,pwrite64,ftruncate,fdatasync,fsync,rename,unlink"
SYNCED = ("fdatasync", "fsync")


# --- what runs, and is run again


def served(folder: pathlib.Path) -> orders.Served:
    it = orders.Served(orders.Sqlite(folder / "server.db"))
    # (so that pages go from the log into the database meanwhile)
    it.database.run("PRAGMA wal_autocheckpoint = 4")
    it.database.run("CREATE TABLE IF NOT EXISTS effects(body BLOB)")

    @it.order
    def execute(db: sqlite3.Connection, order: orders.Order) -> bytes:
        db.execute("INSERT INTO effects VALUES (?)", (order.body,))
        return b"did " + order.body

    return it


def given(folder: pathlib.Path, server: orders.Served) -> orders.Orders:
    def sends(request: bytes) -> bytes:
        return server.handle(1, request) or b""

    return orders.Orders(sends, orders.Log(folder / "client.log"), once=False, waits=(0.0, 0.0))


def work(name: str, without: list[str]) -> None:
    """Gives orders. After each that is done it writes that down, by a call that strace sees."""
    folder = pathlib.Path(name)
    orders.SPARE_RECORDS = 12
    if "client" in without:
        os.fdatasync = lambda file: None
    server = served(folder)
    if "server" in without:
        server.database.run("PRAGMA synchronous = OFF")
    marks = os.open(folder / "marks", os.O_WRONLY | os.O_CREAT)
    with given(folder, server) as client:
        for it in range(ORDERS):
            client.give(b"order %d" % it)
            os.pwrite(marks, b"%d" % it, 0)


# --- a disk that loses what wasn't synced


@dataclass
class File:
    """A file as it is, as it is on the disk for sure, and what was done to it since."""

    now: bytearray = field(default_factory=bytearray)
    sure: bytes = b""
    since: list[tuple[int, bytes | None]] = field(default_factory=list)

    def write(self, at: int, octets: bytes) -> None:
        put(self.now, at, octets)
        self.since.append((at, octets))

    def cut(self, length: int) -> None:
        resize(self.now, length)
        self.since.append((length, None))

    def sync(self) -> None:
        self.sure, self.since = bytes(self.now), []

    def left(self, chance: random.Random) -> bytes:
        """What is left of it without power."""
        found = bytearray(self.sure)
        for at, octets in self.since:
            if octets is None:
                if chance.random() < 0.5:
                    resize(found, at)
                continue
            for start in range(at - at % SECTOR, at + len(octets), SECTOR):
                first, end = max(start, at), min(start + SECTOR, at + len(octets))
                if chance.random() < 0.5:
                    put(found, first, octets[first - at : end - at])
        return bytes(found)


def put(octets: bytearray, at: int, more: bytes) -> None:
    if len(octets) < at:
        octets.extend(bytes(at - len(octets)))
    octets[at : at + len(more)] = more


def resize(octets: bytearray, length: int) -> None:
    del octets[length:]
    octets.extend(bytes(length - len(octets)))


class Disk:
    """A folder's files by their names, and what was done to the names since the folder was synced."""

    def __init__(self) -> None:
        self.now: dict[str, File] = {}
        self.sure: dict[str, File] = {}
        self.since: list[dict[str, File]] = []
        self.marks = -1

    def does(self, call: str, words: list[str], octets: bytes) -> None:
        if call == "openat":
            name, flags = words
            if "O_CREAT" in flags and name not in self.now:
                self.now[name] = File()
                self.since.append(dict(self.now))
        elif call == "rename":
            self.now[words[1]] = self.now.pop(words[0])
            self.since.append(dict(self.now))
        elif call == "unlink":
            self.now.pop(words[0], None)
            self.since.append(dict(self.now))
        elif words[0] == "":
            self.sure, self.since = dict(self.now), []
        elif words[0] == "marks":
            self.marks = int(octets)
        elif call == "pwrite64":
            self.now[words[0]].write(int(words[1]), octets)
        elif call == "ftruncate":
            self.now[words[0]].cut(int(words[1]))
        elif call in SYNCED:
            self.now[words[0]].sync()

    def left(self, chance: random.Random, cuts: str) -> dict[str, bytes]:
        """The files after a cut at the end that is named, or at both."""
        names = chance.choice([self.sure, *self.since])
        found = {}
        for name in {*names, *self.now}:
            is_cut = cuts == "both" or name.startswith(cuts)
            it = (names if is_cut else self.now).get(name)
            if it and not name.endswith("-shm"):
                found[name] = it.left(chance) if is_cut else bytes(it.now)
        return found


# --- what strace saw


def plain(text: str) -> bytes:
    return bytes(int(it, 16) for it in re.findall(r"\\x(..)", text))


def calls(folder: pathlib.Path, trace: pathlib.Path) -> list[tuple[str, list[str], bytes]]:
    """The calls that change the folder's files: each with names of files, numbers, and octets."""

    def name(text: str) -> str | None:
        path = pathlib.Path(os.fsdecode(plain(text)))
        return "" if path == folder else path.name if path.parent == folder else None

    found = []
    for line in trace.read_text().splitlines():
        if not (it := re.fullmatch(r"(\w+)\((.*)\) += (-?\d+).*", line)) or int(it[3]) < 0:
            continue
        call, words = it[1], it[2].split(", ")
        if call in ("rename", "unlink"):
            names = [name(word) for word in words]
            if None not in names:
                found.append((call, [str(word) for word in names], b""))
            continue
        file = re.search(r"<(.*)>", words[0] if call != "openat" else line.rsplit(" = ", 1)[1])
        at = name(file[1]) if file else None
        if at is None or call == "openat" and at == "":
            continue
        if call == "openat":
            found.append((call, [at, words[2]], b""))
        elif call == "pwrite64":
            found.append((call, [at, words[3]], plain(words[1])))
        else:
            found.append((call, [at, *words[1:]], b""))
    return found


def traced(without: str = "") -> list[tuple[str, list[str], bytes]]:
    """The calls of a run, without the syncs of one end if it is named."""
    with tempfile.TemporaryDirectory() as name, tempfile.NamedTemporaryFile() as trace:
        command = ["strace", "-y", "-xx", "-s", "1000000", "-o", trace.name, "-e", f"trace={CALLS}", sys.executable]
        subprocess.run([*command, "-S", "-c", PROGRAM, name, without], check=True, timeout=120)
        return calls(pathlib.Path(name).resolve(), pathlib.Path(trace.name))


# --- after a cut


def after(left: dict[str, bytes], told: int) -> str:
    """What is wrong when both ends are opened with what is left of their files: nothing if they hold."""
    bodies = [b"order %d" % it for it in range(ORDERS)]
    with tempfile.TemporaryDirectory(dir="/dev/shm" if os.path.isdir("/dev/shm") else None) as name:
        folder = pathlib.Path(name)
        for file, octets in left.items():
            (folder / file).write_bytes(octets)
        try:
            server = served(folder)
            with contextlib.closing(server), given(folder, server) as client:
                fates = {it.order.body: it.fate for it in client._book.state.fates.values()}
                lost = [it for it in bodies[: told + 1] if it not in fates and client._book.state.last_uid <= told]
                for order in client.unsettled:
                    fates[order.body] = client.settle(order)
                for it in range(client._book.state.last_uid, ORDERS):
                    fates[bodies[it]] = client.give(bodies[it])
                rows = server.database.run("SELECT body FROM effects")
        except (orders.SetBack, sqlite3.DatabaseError, orders.NotStored, InvalidArgument) as why:
            return repr(why)
    wrong = [it for it, fate in fates.items() if fate != orders.Done(b"did " + it)]
    found = sorted(bytes(body) for (body,) in rows)
    if lost or wrong or found != sorted(bodies):
        return f"lost {lost}, other fates {wrong}, effects {found}"
    return ""


def cut(seen: list[tuple[str, list[str], bytes]], cuts: str) -> tuple[str, int]:
    """Cuts the power after each call. Returns what is wrong at first, and how many cuts there were."""
    disk = Disk()
    for number, it in enumerate(seen, 1):
        disk.does(*it)
        if why := after(disk.left(random.Random(f"{number} {cuts}"), cuts), disk.marks):
            return f"after call {number} ({it[0]} {it[1]}): {why}", number
    return "", len(seen)


def cases() -> list[tuple[str, bool, str]]:
    logging.getLogger("deltat").setLevel(logging.CRITICAL)
    seen, found = traced(), []
    for cuts in ("client", "server", "both"):
        why, count = cut(seen, cuts)
        found.append((f"{count} power cuts ({cuts}): each order is executed once, and none is lost", not why, why))
    for end in ("client", "server"):
        why, _ = cut(traced(end), "both")
        found.append((f"without the syncs of the {end} a power cut breaks it", bool(why), why and why[:100]))
    return found
