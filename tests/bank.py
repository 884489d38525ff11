#!/usr/bin/env python3
"""examples/bank by its one command, shortly. `tests/bank.py [SECONDS]`. Ends with 1 where

- the demonstration doesn't see an order that is booked twice, one that is told otherwise than it is booked, one that is
  told as gone and isn't, or one that nobody gave, in books and notes that have it;
- it takes a set back for told of which an order wasn't told, or one was told wrongly;
- a bank doesn't keep the names of orders as it says: none, in memory, or as keys in its database, started again after
  each order; or the bank by orders executes one twice that comes twice;
- the times in the table aren't those of the notes;
- examples/bank/alarm.py doesn't name exactly the transfers that a set back took, or the bank by keys names any;
- run for SECONDS (20), by orders one is booked twice or told otherwise, the sum of the accounts changes, or an order
  isn't found out; the same over TCP with keys; or nothing happened: too few orders, no kills, none that was unsure, no
  packets dropped or repeated;
- run for SECONDS with the bank's disk set back meanwhile, by orders clients aren't told exactly what is gone, or by
  keys nothing is gone.

It needs the library (`make -C lib`), and is skipped without it. The link is that of tests/wan.py, or a relay where
there are no namespaces.

In tests/all: no words, 600 s."""
import os
import pathlib
import re
import subprocess
import sys
import tempfile

from lib import TOP, skip, tell

LIBRARY = TOP / "lib" / "libdeltat.so.2"
if not LIBRARY.exists():
    skip(f"{LIBRARY} isn't there: make -C lib")
os.environ["DELTAT_LIBRARY"] = str(LIBRARY)
sys.path.insert(0, str(TOP / "examples" / "bank"))
import demo  # noqa: E402
import bank  # noqa: E402
from accounts import START, Bank, KeysBank, NamedBank, transfer  # noqa: E402
from deltat import orders  # noqa: E402

DEMO = [sys.executable, str(TOP / "examples" / "bank" / "demo.py")]

BOOKS = ("1.0 3 4 10", "1.1 8 9 5000", "2.0 5 6 7")
NOTES = {
    1: "life 1\norder 1.0 3 4 10\nfate 1.0 booked\norder 1.1 8 9 5000\nunsure 1.1\nfate 1.1 refused\nsum 100000\n",
    2: "life 1\norder 2.0 5 6 7\nfate 2.0 booked\n",
}
# what is wrong, what is added to the books, and to the notes of client 1
WRONG: list[tuple[str, tuple[str, ...], str]] = [
    ("booked twice", ("1.0 3 4 10",), ""),
    ("booked, and told as refused", ("1.1 8 9 5",), ""),
    ("told as booked, and not booked", (), "order 1.2 8 9 5\nfate 1.2 booked\n"),
    ("given by nobody", ("7.0 1 2 3",), ""),
    ("a wrong sum", (), "sum 99990\n"),
    ("told as gone, and booked", (), "undone 1.0\n"),
    ("told as unknown", (), "order 1.2 8 9 5\nfate 1.2 unknown\n"),
    ("not found out", (), "order 1.2 8 9 5\n"),
]
# what is added to the notes of client 1, and whether a set back is told exactly then
GONE = "order 1.2 8 9 5\nfate 1.2 booked\norder 1.3 8 9 5000\nfate 1.3 refused\n"
TOLD = [
    ("all that is gone", GONE + "undone 1.2\nundone 1.3\n", True),
    ("one isn't told", GONE + "undone 1.2\n", False),
    ("one is told, and isn't gone", GONE + "undone 1.2\nundone 1.3\nundone 1.0\n", False),
    ("nothing is gone", "", False),
]


def found(books: tuple[str, ...], notes: str) -> dict[str, demo.Cell]:
    """What the demonstration finds with these added."""
    with tempfile.TemporaryDirectory() as name:
        folder = pathlib.Path(name)
        db = Bank(folder / "bank.db").db
        for it in (*BOOKS, *books):
            transfer(db, it)
        db.close()
        (folder / "killed-clients").write_text("client 1 1\n")
        for number, text in NOTES.items():
            (folder / f"client-{number}.notes").write_text(text + (notes if number == 1 else ""))
        return demo.outcome(folder)


def judged() -> list[tuple[str, bool, str]]:
    keys = found((), GONE)
    return [
        ("a right bank is right", demo.is_kept(found((), "")), ""),
        *((f"seen: {name}", not demo.is_kept(found(books, notes)), "") for name, books, notes in WRONG),
        *(
            (f"a set back: {name}", demo.is_told({demo.ORDERS: found((), notes), demo.KEYS: keys}) == is_told, "")
            for name, notes, is_told in TOLD
        ),
    ]


def answers(kind: type[Bank], is_started_again: bool) -> list[bytes]:
    """What a bank answers to an order that is given twice, and to one that it refuses, given again when it could be
    booked; where it is started again, after each request."""
    # account 3 has no 2,000 before account 5 pays
    once, refused, pays = b"transfer 1.0 1 2 10", b"transfer 2.0 3 4 2000", b"transfer 3.0 5 3 1000"
    requests = [once, once, refused, pays, refused, b"balance 1"]
    with tempfile.TemporaryDirectory() as name:
        path = pathlib.Path(name, "bank.db")
        bank, said = kind(path), []
        for request in requests:
            if is_started_again:
                bank.db.close()
                bank = kind(path)
            said.append(bank.handle(request))
        bank.db.close()
        return said


def ordered(is_started_again: bool) -> list[bytes]:
    """The same of the bank by orders, each of whose requests comes twice."""
    bodies = [b"1.0 1 2 10", b"2.0 3 4 2000", b"3.0 5 3 1000"]
    with tempfile.TemporaryDirectory() as name:
        path, said = pathlib.Path(name, "bank.db"), []
        served = [bank.orders_bank(path)]

        def sends(request: bytes) -> bytes:
            answers = []
            for _ in range(2):
                if is_started_again:
                    served[0].close()
                    served[0] = bank.orders_bank(path)
                answers.append(served[0].handle(1, request) or b"")
            return answers[1]

        with orders.Orders(sends, orders.Log(pathlib.Path(name, "log"))) as given:
            for body in bodies:
                fate = given.give(body)
                said.append(fate.result if isinstance(fate, orders.Done) else b"unknown")
            said.append(given.ask(b"balance 1"))
        served[0].close()
        return said


def named() -> list[tuple[str, bool, str]]:
    """Which banks do an order once."""
    once = [b"booked", b"booked", b"refused", b"booked", b"refused", b"%d" % (START - 10)]
    twice = [b"booked", b"booked", b"refused", b"booked", b"booked", b"%d" % (START - 20)]
    wanted = [(Bank, twice, twice), (NamedBank, once, twice), (KeysBank, once, once)]
    by_orders = [b"booked", b"refused", b"booked", b"%d" % (START - 10)]
    cases = [
        (f"{kind.__name__}{', started again' * is_again}", answers(kind, is_again), (running, again)[is_again])
        for kind, running, again in wanted
        for is_again in (False, True)
    ]
    cases += [(f"the bank by orders{', started again' * it}", ordered(it), by_orders) for it in (False, True)]
    return [(f"orders of {name}", said == right, "" if said == right else str(said)) for name, said, right in cases]


TIMED = """order 1.0 3 4 10
given 1.0 100
fate 1.0 booked
known 1.0 140
order 1.1 3 4 10
given 1.1 1000
fate 1.1 booked
known 1.1 1090
"""


def timed() -> list[tuple[str, bool, str]]:
    """The rows of times: client 1 is killed after its first order, the bank before and after its second was given."""
    with tempfile.TemporaryDirectory() as name:
        folder = pathlib.Path(name)
        (folder / "client-1.notes").write_text(TIMED)
        (folder / "killed-clients").write_text("client 1 200\n")
        (folder / "killed-bank").write_text("bank 990\nbank 1010\n")
        found = list(demo.times(folder, [demo.Notes(folder / "client-1.notes", 1)]).values())
    return [("times are those of the notes", found == [90, 90, 890, 100], str(found))]


def run(seconds: str, *words: str) -> tuple["subprocess.CompletedProcess[str]", dict[str, dict[str, int]]]:
    """A run of the demonstration, and the numbers of its table, of each way by the row's name."""
    command = [*DEMO, "--seconds", seconds, *words]
    it = subprocess.run(command, capture_output=True, text=True, check=False, timeout=440)
    print(it.stdout, end="")
    ways: list[str] = []
    numbers: dict[str, dict[str, int]] = {}
    for line in it.stdout.splitlines():
        cells = line[44:].split()
        if line.startswith(" " * 44) and cells:
            ways = cells
        elif ways and len(cells) == len(ways):
            for way, cell in zip(ways, cells, strict=True):
                numbers.setdefault(way, {})[line[:44].strip()] = int(cell) if cell.lstrip("-").isdigit() else -1
    return it, numbers


def ran(seconds: str) -> list[tuple[str, bool, str]]:
    it, numbers = run(seconds)

    def number(name: str, way: str = demo.ORDERS) -> int:
        return numbers.get(way, {}).get(name, -1)

    went = re.search(
        r"^orders: (\d+) packets went, (\d+) dropped, (\d+) repeated, (\d+) late$", it.stdout, re.MULTILINE
    )
    happened = ("orders", "booked", "kills of clients", "kills of the bank", "times an order was unsure")
    return [
        ("it ends with 0", it.returncode == 0, it.stderr.strip()[-300:]),
        *((f"none by {way}: {name}", number(name, way) == 0, str(number(name, way)))
          for way in (demo.ORDERS, demo.KEYS) for name in (*demo.WRONG, "told as unknown")),
        *((f"some: {name}", number(name) > 0, str(number(name))) for name in happened),
        ("packets were dropped, repeated and late", went is not None and all(int(count) for count in went.groups()),
         went[0] if went else ""),
        ("more than 20 orders by each way", all(number("orders", way) > 20 for way in demo.WAYS), ""),
        ("kills of both by each way", all(number(name, way) > 0 for way in demo.WAYS for name in happened[2:4]), ""),
    ]


def set_back(seconds: str) -> list[tuple[str, bool, str]]:
    it, numbers = run(seconds, "--set-back")
    by_orders, by_keys = numbers.get(demo.ORDERS, {}), numbers.get(demo.KEYS, {})
    gone, told = demo.GONE, demo.TOLD
    return [
        ("set back: it ends with 0", it.returncode == 0, it.stderr.strip()[-300:]),
        ("set back: orders are gone by both ways", by_orders.get(gone, 0) > 0 and by_keys.get(gone, 0) > 0, ""),
        ("set back: by orders each client is told of its own", by_orders.get(told) == by_orders.get(gone), ""),
        ("set back: and of no other", by_orders.get("told as gone, and the bank has it") == 0, ""),
        ("set back: by keys nobody is told", by_keys.get(told) == 0, ""),
        *((f"set back: none by orders: {name}", by_orders.get(name) == 0, str(by_orders.get(name)))
          for name in demo.WRONG),
    ]


def alarmed() -> list[tuple[str, bool, str]]:
    """The bank whose disk is set back."""
    command = [sys.executable, str(TOP / "examples" / "bank" / "alarm.py"), "--clients", "3", "--transfers", "4"]
    it = subprocess.run(command, capture_output=True, text=True, check=False, timeout=60)
    numbers = [line[52:].split() for line in it.stdout.splitlines()[1:]]
    wanted = [["27", "27"], ["12", "12"], ["12", "0"], ["0", "0"]]
    is_right = it.returncode == 0 and numbers == wanted
    return [("each client is told what a set back took", is_right, it.stdout + it.stderr)]


def main() -> int:
    seconds = sys.argv[1] if len(sys.argv) > 1 else "20"
    return tell([*judged(), *named(), *timed(), *alarmed(), *ran(seconds), *set_back(seconds)])


if __name__ == "__main__":
    sys.exit(main())
