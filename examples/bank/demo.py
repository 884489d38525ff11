#!/usr/bin/env python3
"""A bank whose servers and clients are killed, over a link that drops, repeats and reorders: by orders of deltat, and
over TCP without and with names of orders that the bank remembers.

    examples/bank/demo.py [--seconds S] [--seed N] [--loss P] [--repeat P] [--late P] [--keep FOLDER] [--relay]
    examples/bank/demo.py --set-back [..]

20 clients give orders to a bank of 100 accounts, whose books are in SQLite. It runs four times:

- orders: over calls, by deltat.orders: each order is in its client's log before, and is called until it has its fate;
- TCP: an order is given again until it is answered;
- TCP+names: likewise, and the bank remembers the name of each order with its answer, in memory;
- TCP+keys: likewise, as an idempotency key in the transaction of the order.

The link is that of tests/wan.py, two network namespaces with 20 ms between them each way,
which wants root and /dev/net/tun. Where there are none, or with --relay, both ends are on this machine, and a relay
between them does the same to the datagrams of calls; TCP has no losses and no delay then. A client is killed every
0.7 s, the bank every 10 s, each at a random moment, and started again. After the time that was asked for nobody is
killed any more, and each client finds out what became of its last orders.

Then the books of the bank are compared with the notes of all clients. Ends with 0 if by orders the sum of the accounts
is what it was, no order was booked twice, and the fate of each order is the one that its client noted; else with 1. The
table has the same counts of the other three, and what each way took. Times from a kill have the 0 to 300 ms after which
the program is started again, and its start. At last the first answer is measured over the same delay without losses, a
flow or a connection of its own for each, and how long one transaction takes to be synced.

With --set-back it runs twice, by orders and by keys, and beside all this the bank's disk is copied after a quarter of
the time, and after three quarters the copy takes its place, as after a restore from a backup: with the usual 120 s it
is a copy of a minute ago. By orders each client is told which of its orders are gone. Ends with 0 if these are exactly
the ones that are gone, and by keys some are gone too, of which nobody is told. (Of an order that was called more than
once only the answer may be gone: the client is told of it too, and the table counts it by itself.)"""
import argparse
import asyncio
import heapq
import importlib
import json
import os
import pathlib
import random
import select
import socket
import sqlite3
import statistics
import subprocess
import sys
import tempfile
import threading
import time
from collections.abc import Callable, Iterable

HERE = pathlib.Path(__file__).resolve().parent
sys.path[:0] = [str(HERE), str(HERE.parents[1] / "tests"), str(HERE.parents[1] / "bindings" / "python")]

import bank  # noqa: E402
import deltat  # noqa: E402
from accounts import ACCOUNTS, START, Bank, Notes, answers, balances, moment  # noqa: E402
from deltat import orders  # noqa: E402
from wan import Bound, Carrier, Link, Outcome, impaired_link, stop  # noqa: E402

DELAY = 20
KILL_CLIENT, KILL_BANK = 0.7, 10.0
FIRSTS, SYNCS = 20, 100
ORDERS, KEYS = "orders", "TCP+keys"
# what the bank and its clients are started with
WAYS = {
    ORDERS: ("serve", "ask"),
    "TCP": ("serve-tcp", "ask-tcp"),
    "TCP+names": ("serve-names", "ask-tcp"),
    KEYS: ("serve-keys", "ask-tcp"),
}
# the parts of the time after which the bank's disk is copied, and is set back to the copy
COPIED, SET_BACK = 0.25, 0.75
GONE, TOLD = "answered, and the bank has it no more", "of these their clients were told"
# what a row of the table has
Cell = int | float | None


class Keeper:
    """Programs that are killed at random moments, and started again."""

    def __init__(
        self, commands: dict[str, list[str]], each: float, until: int, chance: random.Random, kills: pathlib.Path
    ) -> None:
        self.commands, self.each, self.until, self.chance, self.kills = commands, each, until, chance, kills
        # what is done at which moments beside the kills, in their order
        self.plan: list[tuple[float, Callable[[], None]]] = []
        self.running: dict[str, "subprocess.Popen[bytes]"] = {}
        # those that were killed, and when they start again
        self.due = {name: 0 for name in commands}
        kills.touch()

    def kill(self, now: int) -> None:
        """Kills one of them at random, and notes its name and the moment."""
        name = self.chance.choice(sorted(self.running))
        self.running[name].kill()
        with self.kills.open("a") as kills:
            kills.write(f"{name} {moment()}\n")
        self.running.pop(name).wait()
        self.due[name] = now + self.chance.randint(0, 300)

    def stop_all(self) -> None:
        """Kills all; they start again at once."""
        for name, it in self.running.items():
            it.kill()
            it.wait()
            self.due[name] = 0
        self.running.clear()

    def go(self) -> int:
        """Until each has ended by itself. Ends with 1 where one failed."""
        kill_at = deltat.now() + 1000 * self.chance.expovariate(1 / self.each)
        while self.running or self.due:
            now = deltat.now()
            for name in [name for name, at in self.due.items() if at <= now]:
                del self.due[name]
                self.running[name] = subprocess.Popen([sys.executable, *self.commands[name]])
            while self.plan and self.plan[0][0] <= now:
                self.plan.pop(0)[1]()
            if kill_at <= now < self.until and self.running:
                self.kill(now)
                kill_at = now + 1000 * self.chance.expovariate(1 / self.each)
            for name, it in list(self.running.items()):
                if it.poll() is not None:
                    if it.returncode:
                        print(f"{name} ended with {it.returncode}", file=sys.stderr)
                        return 1
                    del self.running[name]
            time.sleep(0.01)
        return 0


def keep(words: list[str]) -> int:
    """One side of the link: the bank, or all clients."""
    side, way, folder, until, seed, *moments = words
    serve, ask = WAYS[way]
    program = str(HERE / "bank.py")
    chance = random.Random(f"{side} {seed}")
    if side == "bank":
        commands = {"bank": [program, serve, folder]}
    else:
        commands = {f"client {it}": [program, ask, folder, str(it), until, seed] for it in range(1, bank.CLIENTS + 1)}
    each = KILL_BANK if side == "bank" else KILL_CLIENT
    keeper = Keeper(commands, each, int(until), chance, pathlib.Path(folder) / f"killed-{side}")
    if moments and side == "bank":
        copied, back = map(float, moments)
        path, copy = pathlib.Path(folder) / "bank.db", pathlib.Path(folder) / "bank.copy"
        keeper.plan = [(copied, lambda: copy_of(path, copy)), (back, lambda: set_back(keeper, path, copy))]
    return keeper.go()


def copy_of(path: pathlib.Path, copy: pathlib.Path) -> None:
    """Copies a database, which may be in use, as it is after one of its transactions."""
    copy.unlink(missing_ok=True)
    db = sqlite3.connect(path, timeout=30)
    db.execute("VACUUM INTO ?", (str(copy),))
    db.close()


def set_back(keeper: Keeper, path: pathlib.Path, copy: pathlib.Path) -> None:
    """The copy takes the place of the bank's database."""
    keeper.stop_all()
    for it in (path, path.with_name(path.name + "-wal"), path.with_name(path.name + "-shm")):
        it.unlink(missing_ok=True)
    copy.rename(path)


def kills(folder: pathlib.Path, side: str) -> list[tuple[str, int]]:
    """The programs of a side that were killed, each with its moment."""
    path = folder / f"killed-{side}"
    lines = path.read_text().splitlines() if path.exists() else []
    return [(name, int(at)) for name, _, at in (it.rpartition(" ") for it in lines)]


def part(numbers: list[int], which: float) -> Cell:
    """The number below which this part of them is, or None if there are none."""
    return sorted(numbers)[min(int(which * len(numbers)), len(numbers) - 1)] if numbers else None


def times(folder: pathlib.Path, notes: list[Notes]) -> dict[str, Cell]:
    """In ms: from an order to its fate, and from a kill to the next fate that was noted: by the client that was killed,
    or by any client of an order that was given after the bank was killed."""
    took = [it.known[order] - it.given[order] for it in notes for order in it.known if order in it.given]
    known = [(it.given[order], at) for it in notes for order, at in it.known.items() if order in it.given]
    own = {f"client {it.number}": list(it.known.values()) for it in notes}

    def after(killed: int, moments: Iterable[int]) -> int:
        """From a kill to the first of these moments that is later; negative if there is none."""
        return min((at for at in moments if at > killed), default=0) - killed

    of_clients = [after(at, own.get(name, ())) for name, at in kills(folder, "clients")]
    of_bank = [after(at, (fate for given, fate in known if given > at)) for _, at in kills(folder, "bank")]
    return {
        "ms to an order's fate, half of them within": part(took, 0.5),
        "ms to an order's fate, 99 of 100 within": part(took, 0.99),
        "ms from a client's kill to a fate, half": part([it for it in of_clients if it > 0], 0.5),
        "ms from the bank's kill to a fate, half": part([it for it in of_bank if it > 0], 0.5),
    }


def outcome(folder: pathlib.Path) -> dict[str, Cell]:
    """What the books and the notes say."""
    executed = answers(folder / "bank.db")
    booked = {name: count for name, found in executed.items() if (count := found.count("booked"))}
    notes = [Notes(folder / f"client-{it}.notes", it) for it in range(1, bank.CLIENTS + 1)]
    fates = {order: fate for it in notes for order, fate in {**dict.fromkeys(it.orders), **it.fates}.items()}
    undone = {order for it in notes for order in it.undone}
    known = {order: fate for order, fate in fates.items() if fate and fate != "unknown"}
    gone = {order for order in known if order not in executed}
    # those whose answer may be of a later commit than their execution: a set back may take the one and not the other
    late = {order for it in notes for order in it.again | it.doubts.keys()} & undone & executed.keys()
    sums = [told for it in notes for told in it.sums]
    return {
        "orders": len(fates),
        "booked": len(booked),
        "booked more than once": sum(it > 1 for it in booked.values()),
        "times an order was unsure": sum(it.doubts.total() for it in notes),
        "told otherwise than it is booked": sum(
            (fate == "booked" and order not in undone - late) != (order in booked) for order, fate in known.items()
        ),
        "told as unknown": sum(fate == "unknown" for fate in fates.values()),
        "not found out": sum(not fate for fate in fates.values()),
        "booked, and given by nobody": sum(it not in fates for it in booked),
        GONE: len(gone),
        TOLD: len(gone & undone),
        "told as gone, and the bank has it": sum(it in executed for it in undone - late),
        "so, but answered by a later call": len(late),
        "kills of clients": len(kills(folder, "clients")),
        "kills of the bank": len(kills(folder, "bank")),
        "the sum, less what it was": balances(folder / "bank.db") - ACCOUNTS * START,
        "sums that clients were told wrongly": sum(it != ACCOUNTS * START for it in sums),
        **times(folder, notes),
    }


class Relay(threading.Thread):
    """What tests/wan.py does to packets, done to datagrams between ends on this machine."""

    def __init__(self, link: Link, seed: int) -> None:
        super().__init__(daemon=True)
        self.carrier = Carrier(link, random.Random(seed), [])
        self.over = threading.Event()
        # beside each socket the one that passes on what came to it, and the port that it goes to
        self.ways: dict[socket.socket, tuple[socket.socket, int]] = {}
        for number in range(1, bank.CLIENTS + 1):
            near, far = self.bound(bank.TO_BANK + number), self.bound(bank.TO_CLIENT + number)
            self.ways |= {near: (far, bank.PORT), far: (near, bank.PORT + number)}
        self.sockets = list(self.ways)

    @staticmethod
    def bound(offset: int) -> socket.socket:
        it = socket.socket(socket.AF_INET, socket.SOCK_DGRAM)
        it.bind((bank.BANK_HOST, bank.PORT + offset))
        return it

    def run(self) -> None:
        waiting = self.carrier.waiting
        while not self.over.is_set():
            due = waiting[0][0] - time.monotonic() if waiting else 0.02
            for it in select.select(self.sockets, [], [], min(max(due, 0.0), 0.02))[0]:
                # a carrier hands over to the side that is 1 less the one that it took from
                self.carrier.accept(1 - self.sockets.index(it), it.recv(65_536), time.monotonic())
            while waiting and waiting[0][0] <= time.monotonic():
                _, _, at, octets = heapq.heappop(waiting)
                out, port = self.ways[self.sockets[at]]
                out.sendto(octets, (bank.BANK_HOST, port))

    def stop(self) -> None:
        self.over.set()
        self.join()
        for it in self.sockets:
            it.close()


def relayed(commands: list[list[str]], link: Link, bound: Bound, seed: int) -> Outcome:
    """What `impaired_link` does, without namespaces."""
    relay = Relay(link, seed)
    relay.start()
    running = [subprocess.Popen(it, start_new_session=True) for it in commands]
    try:
        return Outcome([0, running[1].wait(bound.seconds)], relay.carrier.counts)
    except subprocess.TimeoutExpired:
        return Outcome([0, 0], relay.carrier.counts, stopped=True)
    finally:
        stop(running)
        relay.stop()


def linked(commands: list[list[str]], link: Link, bound: Bound, seed: int = 1) -> Outcome:
    """Runs the bank and its clients over a link, until the clients have ended."""
    if bank.IS_RELAYED:
        return relayed(commands, link, bound, seed)
    return impaired_link(commands, link, bound, seed, serves=True)


def has_namespaces() -> bool:
    try:
        return not any(impaired_link([["true"], ["true"]], Link(0), Bound(5)).statuses)
    except (OSError, subprocess.CalledProcessError):
        return False


def over(way: str, link: Link, given: argparse.Namespace, folder: pathlib.Path) -> dict[str, Cell]:
    """A run of the bank over a link. A bank whose folder is there continues."""
    folder.mkdir(exist_ok=True)
    until = deltat.now() + round(1000 * given.seconds) + 1_000
    words = [sys.executable, str(HERE / "demo.py")]
    commands = [[*words, "keep", side, way, str(folder), str(until), str(given.seed)] for side in ("bank", "clients")]
    if given.set_back:
        commands[0] += [str(until - 1000 * given.seconds * (1 - it)) for it in (COPIED, SET_BACK)]
    ran = linked(commands, link, Bound(given.seconds + 90), given.seed)
    if ran.stopped or any(ran.statuses):
        stopped = ", stopped" if ran.stopped else ""
        raise SystemExit(f"demo: {way}: the clients ended with {ran.statuses[1]}{stopped}")
    print(f"{way}: {ran.counts if ran.counts.went else 'without losses'}", flush=True)
    found = outcome(folder)
    each = round(ran.counts.went / found["booked"], 1) if ran.counts.went and found["booked"] else None
    return found | {"packets an order that was booked": each}


# --- first answers


def first_serve(folder: pathlib.Path) -> None:
    """Both banks at once, each with its books."""
    other = folder / "tcp"
    other.mkdir(exist_ok=True)

    def serves_tcp() -> None:
        asyncio.run(bank.serve_tcp(Bank(other / "bank.db")))

    threading.Thread(target=serves_tcp, daemon=True).start()
    bank.serve(folder)


def first_ask(folder: pathlib.Path) -> None:
    """How long a first answer takes, in ms: on a flow, or a connection, that was never used."""
    time.sleep(1)
    took: dict[str, list[float]] = {ORDERS: [], "TCP": []}
    node = deltat.Service(1, 1, bank.PARAMS, [deltat.Link(1, bank.CHARGE)], {bank.BANK: 1}, start=deltat.Start.FIRST)
    with bank.client_udp(node) as udp:
        calls = deltat.Calls(udp)
        for at in range(FIRSTS):
            node.set_port(10 + at, deltat.PortKind.CALLER)
            wire = orders.over(calls, deltat.Flow(1, 10 + at, bank.BANK, 20))
            with orders.Orders(wire, orders.Log(folder / f"first-{at}"), sleep=udp.run_for) as given:
                begun = time.monotonic()
                given.ask(b"balance 7")
                took[ORDERS].append(1000 * (time.monotonic() - begun))
            client = bank.TcpClient(folder, 2, 0, at)
            begun = time.monotonic()
            client.asked(b"balance 7\n")
            took["TCP"].append(1000 * (time.monotonic() - begun))
            if client.stream:
                client.stream.close()
    (folder / "first").write_text(json.dumps(took))


def synced(path: pathlib.Path) -> float:
    """How long a transaction takes until it is synced, in ms: the median of some."""
    took, db = [], Bank(path).db
    for it in range(SYNCS):
        begun = time.monotonic()
        db.execute("INSERT INTO answered VALUES (?, 'booked')", (str(it),))
        took.append(1000 * (time.monotonic() - begun))
    db.close()
    return statistics.median(took)


def firsts(folder: pathlib.Path) -> dict[str, float]:
    """The median of the first answers, in ms. What names cost isn't in it: it asks for a balance."""
    folder.mkdir()
    words = [sys.executable, str(HERE / "demo.py")]
    ran = linked([[*words, "first-serve", str(folder)], [*words, "first-ask", str(folder)]], Link(DELAY), Bound(40))
    if ran.stopped or any(ran.statuses):
        raise SystemExit("demo: the first answers didn't come")
    took = {way: statistics.median(it) for way, it in json.loads((folder / "first").read_text()).items()}
    over_tcp = None if bank.IS_RELAYED else took["TCP"]
    return {way: it for way in WAYS if (it := took[ORDERS] if way == ORDERS else over_tcp) is not None}


def table(found: dict[str, dict[str, Cell]]) -> str:
    names = list(next(iter(found.values())))
    lines = [["", *found]]
    lines += [[name, *("-" if it[name] is None else str(it[name]) for it in found.values())] for name in names]
    return "\n".join(f"{it[0]:44}" + "".join(f"{word:>12}" for word in it[1:]) for it in lines)


def measured(folder: pathlib.Path) -> dict[str, dict[str, Cell]]:
    """Of each way, what is measured without kills."""
    first, sync = firsts(folder / "firsts"), synced(folder / "synced.db")
    answer, commit = f"ms to a first answer, {DELAY} ms each way", "ms of a transaction that is synced"
    return {way: {answer: round(first[way]) if way in first else None, commit: round(sync, 2)} for way in WAYS}


WRONG = (
    "booked more than once",
    "told otherwise than it is booked",
    "booked, and given by nobody",
    "the sum, less what it was",
    "sums that clients were told wrongly",
    "not found out",
)
"""What there is none of, if the promise is kept."""


def is_kept(it: dict[str, Cell]) -> bool:
    """Whether the promise was kept, and something happened."""
    return not any(it[name] for name in (*WRONG, "told as unknown")) and bool(it["booked"] and it["kills of clients"])


def is_exact(it: dict[str, Cell]) -> bool:
    """Whether the promise was kept, and clients were told exactly what set backs took."""
    wrong = (*WRONG, "told as unknown", "told as gone, and the bank has it")
    return it[GONE] == it[TOLD] and not any(it[name] for name in wrong)


def is_told(by: dict[str, dict[str, Cell]]) -> bool:
    """Whether by orders clients were told exactly what a set back took, and by keys something was taken too."""
    return is_exact(by[ORDERS]) and bool(by[ORDERS][GONE]) and bool(by[KEYS][GONE])


def choose_place(is_relayed: bool) -> None:
    """Has the ends on this machine with a relay between them, if that is asked for or there are no namespaces."""
    if is_relayed or not has_namespaces():
        os.environ["BANK_RELAYED"] = "1"
        # this process relays, and those that it starts are told by their environment
        importlib.reload(bank)


def demonstrate(folder: pathlib.Path, given: argparse.Namespace) -> int:
    choose_place(given.relay)
    link = Link(DELAY, given.loss, given.repeat, given.late)
    place = "a relay on this machine" if bank.IS_RELAYED else "two namespaces by tests/wan.py"
    print(f"{DELAY} ms each way; of 100 packets {100 * link.loss:.0f} dropped, {100 * link.dup:.0f} repeated, "
          f"{100 * link.reorder:.0f} late by up to {2 * DELAY} ms more; {place}; {given.seconds:.0f} s, "
          f"seed {given.seed}", flush=True)
    ways = (ORDERS, KEYS) if given.set_back else WAYS
    found = {way: over(way, link, given, folder / way) for way in ways}
    if given.set_back:
        print(table(found))
        return 0 if is_told(found) else 1
    rows = measured(folder)
    print(table({way: it | rows[way] for way, it in found.items()}))
    return 0 if is_kept(found[ORDERS]) else 1


def main() -> int:
    if sys.argv[1:2] == ["keep"]:
        return keep(sys.argv[2:])
    if sys.argv[1:2] == ["first-serve"]:
        first_serve(pathlib.Path(sys.argv[2]))
        return 0
    if sys.argv[1:2] == ["first-ask"]:
        first_ask(pathlib.Path(sys.argv[2]))
        return 0
    reads = argparse.ArgumentParser(description=__doc__, formatter_class=argparse.RawDescriptionHelpFormatter)
    reads.add_argument("--seconds", type=float, help="of each way: 60, and 120 with --set-back")
    reads.add_argument("--seed", type=int, default=1)
    for name in ("loss", "repeat", "late"):
        reads.add_argument(f"--{name}", type=float, default=0.05, metavar="P")
    reads.add_argument("--keep", type=pathlib.Path, metavar="FOLDER", help="where journals and notes stay")
    reads.add_argument("--relay", action="store_true", help="without namespaces, also where there are some")
    reads.add_argument("--set-back", action="store_true", help="the bank's disk is set back to a copy")
    given = reads.parse_args()
    given.seconds = given.seconds or (120.0 if given.set_back else 60.0)
    if given.keep:
        given.keep.mkdir(parents=True)
        return demonstrate(given.keep, given)
    with tempfile.TemporaryDirectory(prefix="deltat-bank-") as folder:
        return demonstrate(pathlib.Path(folder), given)


if __name__ == "__main__":
    sys.exit(main())
