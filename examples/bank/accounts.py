"""A bank's books in SQLite, banks that remember the names of orders or don't, and the notes of clients. An order isn't
idempotent: booked twice, it moves the money twice. Whoever commits a transaction has it on the disk."""
import os
import pathlib
import sqlite3
import time
from collections import Counter

ACCOUNTS, START = 100, 1_000


def moment() -> int:
    """Milliseconds of a clock that all programs of this machine share."""
    return time.monotonic_ns() // 1_000_000


# --- the books


def prepare(db: sqlite3.Connection) -> None:
    """Makes the tables of the books, where there are none, in one transaction. `answered` has each order that was
    executed, with its answer: nothing looks there but who compares the books with the notes of clients."""
    db.execute("BEGIN IMMEDIATE")
    db.execute("CREATE TABLE IF NOT EXISTS accounts(number INTEGER PRIMARY KEY, balance INTEGER NOT NULL)")
    db.execute("CREATE TABLE IF NOT EXISTS answered(name TEXT NOT NULL, answer TEXT NOT NULL)")
    if not db.execute("SELECT 1 FROM accounts").fetchone():
        db.executemany("INSERT INTO accounts VALUES (?, ?)", ((it, START) for it in range(ACCOUNTS)))
    db.execute("COMMIT")


def transfer(db: sqlite3.Connection, order: str) -> bytes:
    """Executes an order, `NAME FROM TO AMOUNT`, in a transaction of its caller."""
    name, payer, payee, amount = order.split()
    (balance,) = db.execute("SELECT balance FROM accounts WHERE number = ?", (payer,)).fetchone()
    answer = "booked" if balance >= int(amount) else "refused"
    if answer == "booked":
        db.execute("UPDATE accounts SET balance = balance - ? WHERE number = ?", (int(amount), payer))
        db.execute("UPDATE accounts SET balance = balance + ? WHERE number = ?", (int(amount), payee))
    db.execute("INSERT INTO answered VALUES (?, ?)", (name, answer))
    return answer.encode()


def told(db: sqlite3.Connection, question: str) -> bytes:
    """Answers `sum` or `balance ACCOUNT`."""
    match question.split():
        case ["sum"]:
            return b"%d" % db.execute("SELECT sum(balance) FROM accounts").fetchone()
        case ["balance", account]:
            return b"%d" % db.execute("SELECT balance FROM accounts WHERE number = ?", (account,)).fetchone()
    return b"what?"


def answers(path: pathlib.Path) -> dict[str, list[str]]:
    """The answers of each order that was executed, one for each time."""
    found: dict[str, list[str]] = {}
    db = sqlite3.connect(path)
    for name, answer in db.execute("SELECT name, answer FROM answered"):
        found.setdefault(name, []).append(answer)
    db.close()
    return found


def balances(path: pathlib.Path) -> int:
    """The sum of the accounts."""
    db = sqlite3.connect(path)
    (found,) = db.execute("SELECT sum(balance) FROM accounts").fetchone()
    db.close()
    return int(found)


# --- banks that are served over TCP


class Bank:
    """Doesn't look whether it executed an order before."""

    def __init__(self, path: pathlib.Path) -> None:
        self.db = sqlite3.connect(path, isolation_level=None)
        self.db.execute("PRAGMA journal_mode=WAL")
        self.db.execute("PRAGMA synchronous=FULL")
        prepare(self.db)

    def handle(self, request: bytes) -> bytes:
        """Does what is asked, and answers."""
        word, _, rest = request.decode(errors="replace").partition(" ")
        return self.execute(rest) if word == "transfer" else told(self.db, request.decode(errors="replace"))

    def execute(self, order: str) -> bytes:
        self.db.execute("BEGIN IMMEDIATE")
        answer = self.decide(order)
        self.db.execute("COMMIT")
        return answer

    def decide(self, order: str) -> bytes:
        """Within the transaction."""
        return transfer(self.db, order)


class NamedBank(Bank):
    """Remembers the name of each order and its answer, in memory: an order that is given again gets its first answer,
    and isn't executed again. A bank that is started again knows no names."""

    def __init__(self, path: pathlib.Path) -> None:
        super().__init__(path)
        self.answers: dict[str, bytes] = {}

    def execute(self, order: str) -> bytes:
        name = order.split()[0]
        if name not in self.answers:
            self.answers[name] = super().execute(order)
        return self.answers[name]


class KeysBank(Bank):
    """Remembers the names with their answers as idempotency keys, in the transaction of the order: a bank that is
    started again has all of them."""

    def __init__(self, path: pathlib.Path) -> None:
        super().__init__(path)
        self.db.execute("CREATE TABLE IF NOT EXISTS keys(key TEXT PRIMARY KEY, answer BLOB NOT NULL)")

    def decide(self, order: str) -> bytes:
        name = order.split()[0]
        if had := self.db.execute("SELECT answer FROM keys WHERE key = ?", (name,)).fetchone():
            return bytes(had[0])
        answer = super().decide(order)
        self.db.execute("INSERT INTO keys VALUES (?, ?)", (name, answer))
        return answer


# --- notes


class Notes:
    """What a client was told over all of its lives, to compare it with the books: lines of a file. Those who give their
    orders again over TCP have their orders here too."""

    def __init__(self, path: pathlib.Path, number: int) -> None:
        self.number, self.life = number, 0
        self.orders: dict[str, str] = {}
        self.fates: dict[str, str] = {}
        self.undone: set[str] = set()
        # orders that a later life called again
        self.again: set[str] = set()
        # the moments at which orders were written down, and at which their fates were
        self.given: dict[str, int] = {}
        self.known: dict[str, int] = {}
        self.sums: list[int] = []
        self.doubts: Counter[str] = Counter()
        for line in path.read_text().splitlines() if path.exists() else ():
            self._read(*line.split(" ", 2))
        self.file = os.open(path, os.O_WRONLY | os.O_APPEND | os.O_CREAT)

    def _read(self, word: str, name: str, rest: str = "") -> None:
        match word:
            case "life":
                self.life = int(name)
            case "order":
                self.orders[name] = rest
            case "fate":
                self.fates[name] = rest
            case "undone":
                self.undone.add(name)
            case "again":
                self.again.add(name)
            case "given":
                self.given[name] = int(rest)
            case "known":
                self.known[name] = int(rest)
            case "unsure":
                self.doubts[name] += 1
            case "sum":
                self.sums.append(int(name))

    def note(self, *lines: str) -> None:
        """Writes lines down, all of them or none."""
        os.write(self.file, "".join(f"{it}\n" for it in lines).encode())
        for it in lines:
            self._read(*it.split(" ", 2))

    def new_life(self) -> int:
        """A life that no earlier start had."""
        self.note(f"life {self.life + 1}")
        return self.life

    def new_order(self, name: str, what: str, at: int) -> None:
        self.note(f"order {name} {what}", f"given {name} {at}")

    def new_fate(self, name: str, fate: str) -> None:
        """Writes down what became of an order."""
        self.note(f"fate {name} {fate}", f"known {name} {moment()}")

    def open_orders(self) -> list[str]:
        """Those of which it isn't known what became of them."""
        return [it for it in self.orders if it not in self.fates]
