"""Calls under way in tests/soak.py: a service and its clients, each a process and a node of the library
(tests/soak_caller.py). They are killed and started again while they call; what they wrote down is judged here.

Each writes lines of a word and numbers, over all of its lives, into a file of its own:

- `life N`, and `over` where the life ended by itself;
- a client `made CALL` before it makes a call, and then `answered CALL ANSWER`, `unsure CALL` or `declined CALL`;
- the service `served CALL ANSWER` before it replies, and it doesn't look whether it served that call before.

A CALL is a number that never comes again: node and port of its caller, and how many calls they made before. An ANSWER
is a number that the service drew for that very line. Both go as the first octets of a body that is theirs alone
(`lib.body`); the number of octets that are no such body is 0.

In tests/all: not a test."""
import json
import math
import pathlib
import random
import subprocess
import sys
import time
from collections import Counter
from collections.abc import Iterable, Iterator, Sequence
from dataclasses import asdict, dataclass, replace

from lib import TOP, growth, memory_of

LIBRARY = TOP / "lib" / "libdeltat.so.2"
SERVICE, SERVED_PORT = 6, 20
# each node of calls, and the node of the ring that it has a link to: two of the ring relay what goes between them
SPURS = {SERVICE: 1, 7: 2, 8: 5}
# a client's ports, and how many calls of each may wait at once
PORTS, EACH = (10, 11), 2
ENDS = ("answered", "unsure", "declined")
# seconds after which a client, and the service, is killed
LIVES, SERVICE_LIVES = (4.0, 20.0), (8.0, 25.0)
# the most ms for which one that was killed stays away; half of them are started again at once
AWAY = 300
# a round of fewer seconds needn't have kills, nor answers
LONG = 30
# in rounds of so many seconds or more the service may run on
GROWING = 120
MOST_GROWN = 1024
SPOILS = ("first", "twice")

Lines = list[tuple[str, list[int]]]


@dataclass(frozen=True)
class Place:
    """What a node of calls is told: its number, the next hop, its port and where it sends; where it writes; the
    network's parameters; when it ends, in ms of `now`; what its chance begins with; and how it is spoilt, if it is."""

    number: int
    next_hop: int
    port: int
    to: int
    notes: str
    params: Sequence[int]
    charge: int
    until: int = 0
    seed: int = 0
    spoilt: str | None = None

    @property
    def patience(self) -> float:
        """In seconds: as long as a request that was sent at once and its answer are under way, and the service's
        time."""
        mpl, r = self.params[:2]
        return (2 * (mpl + r) + 300) / 1000


def now() -> int:
    """As `deltat.now()`, without the library."""
    return time.clock_gettime_ns(time.CLOCK_BOOTTIME) // 1_000_000


def lines_in(text: str) -> Lines:
    return [(word, [int(it) for it in numbers]) for word, *numbers in map(str.split, text.splitlines())]


def lines_of(path: pathlib.Path) -> Lines:
    return lines_in(path.read_text()) if path.exists() else []


# --- what was written down is judged


def lives_of(lines: Lines) -> Iterator[Lines]:
    """The lines of each life."""
    begins = [at for at, (word, _) in enumerate(lines) if word == "life"]
    for begin, end in zip(begins, [*begins[1:], len(lines)]):
        yield lines[begin:end]


def without_end(lines: Lines) -> tuple[list[int], list[int]]:
    """The calls that waited when their client was killed, and those that have no end without such a reason."""
    waited: list[int] = []
    lost: list[int] = []
    for life in lives_of(lines):
        ended = {numbers[0] for word, numbers in life if word in ENDS}
        left = [numbers[0] for word, numbers in life if word == "made" and numbers[0] not in ended]
        is_killed = ("over", []) not in life
        (waited if is_killed and len(left) <= len(PORTS) * EACH else lost).extend(left)
    return waited, lost


def behind_later(served: Iterable[int]) -> list[int]:
    """The calls that were served when a later one of their flow had been."""
    found: list[int] = []
    latest: dict[int, int] = {}
    for call in served:
        if call < latest.get(call >> 32, 0):
            found.append(call)
        latest[call >> 32] = max(call, latest.get(call >> 32, 0))
    return found


def judged(journal: Lines, clients: Sequence[Lines]) -> tuple[Counter[str], dict[str, list[int]]]:
    """What happened to calls, and by each thing that may be wrong the calls with which it is."""
    served = [numbers for word, numbers in journal if word == "served"]
    told = [it for lines in clients for it in lines]
    of = {word: [numbers[0] for it, numbers in told if it == word] for word in ("made", *ENDS)}
    ends = [without_end(lines) for lines in clients]
    made, answers = set(of["made"]), dict(served)
    times, ended = Counter(call for call, _ in served), Counter(call for word in ENDS for call in of[word])
    wrong = {
        "served twice": [call for call, count in times.items() if count > 1],
        "served, and made by nobody": [call for call in times if call not in made],
        "served behind a later one of its flow": behind_later(call for call, _ in served),
        "answered otherwise than served": [
            it[0] for word, it in told if word == "answered" and answers.get(it[0]) != it[1]
        ],
        "declined, and served": [call for call in of["declined"] if call in times],
        "ended twice, or not made": [call for call, count in ended.items() if count > 1 or call not in made],
        "without an end": [call for _, lost in ends for call in lost],
    }
    counts = Counter({word: len(calls) for word, calls in of.items()})
    counts.update({"served": len(served), "waited": sum(len(waited) for waited, _ in ends)})
    return counts, wrong


JOURNAL = "life 1\nserved 1 101\nserved 2 102\nlife 2\nserved 4 104\nover\n"
NOTES = "life 1\nmade 1\nanswered 1 101\nmade 2\nunsure 2\nmade 3\ndeclined 3\nmade 4\nlife 2\nmade 5\nunsure 5\nover\n"
# what is wrong where these lines are added to the service's and to a client's
WRONG = [
    ("served twice", "served 2 105", ""),
    ("served, and made by nobody", "served 9 105", ""),
    ("served behind a later one of its flow", "served 2 105", ""),
    ("answered otherwise than served", "", "made 6\nanswered 6 104"),
    ("answered otherwise than served", "served 6 106", "made 6\nanswered 6 0"),
    ("declined, and served", "served 3 105", ""),
    ("ended twice, or not made", "", "unsure 5"),
    ("ended twice, or not made", "", "unsure 7"),
    ("without an end", "", "life 3\nmade 6\nover"),
    ("without an end", "", "life 3\nmade 6\nmade 7\nmade 8\nmade 9\nmade 10"),
]


def unseen() -> list[str]:
    """What `judged` doesn't see, or sees where all is right."""
    right = judged(lines_in(JOURNAL), [lines_in(NOTES)])[1]
    missed = [
        name
        for name, journal, notes in WRONG
        if not judged(lines_in(JOURNAL + journal), [lines_in(NOTES + notes)])[1][name]
    ]
    return [f"seen where all is right: {name}" for name, calls in right.items() if calls] + [
        f"not seen: {name}" for name in missed
    ]


# --- the processes


class Callers:
    """The service and its clients in a round of so many seconds. With no places there are none, and nothing is
    judged."""

    def __init__(self, places: Sequence[Place], chance: random.Random, seconds: float) -> None:
        self.chance, self.seconds = chance, seconds
        end = now() + round(seconds * 1000)
        self.places = {
            it.number: replace(it, until=end if it.number == SERVICE else end - round(it.patience * 1000) - 1_000)
            for it in places
        }
        # in half of those rounds that are long enough to see it grow the service isn't killed
        self.runs_on = seconds >= GROWING and chance.random() < 0.5 and not any(it.spoilt for it in places)
        self.running: dict[int, "subprocess.Popen[bytes]"] = {}
        self.kill_at: dict[int, float] = {}
        self.due = dict.fromkeys(self.places, 0)
        self.sizes: list[int] = []
        self.counts: Counter[str] = Counter()
        self.faults: list[str] = []

    def look_after(self) -> None:
        """Sees who has ended, kills those whose time has come, and starts those that are due."""
        for number, process in list(self.running.items()):
            status = process.poll()
            if status is None and now() >= self.kill_at[number]:
                process.kill()
                process.wait()
                del self.running[number]
                self.counts["kills of the service" if number == SERVICE else "kills of clients"] += 1
                self.due[number] = now() + max(0, self.chance.randrange(-AWAY, AWAY))
            elif status is not None:
                del self.running[number]
                self.faults += [f"node {number} ended with {status}: {self.places[number].notes}.err"] if status else []
            elif number == SERVICE and self.runs_on:
                # (one that has just ended has no memory any more)
                self.sizes += [it] if (it := memory_of(process.pid)) else []
        for number in [it for it, at in self.due.items() if at <= now()]:
            del self.due[number]
            self.start(number)

    def start(self, number: int) -> None:
        place = replace(self.places[number], seed=self.chance.randrange(1 << 32))
        least, most = SERVICE_LIVES if number == SERVICE else LIVES
        kill_at = now() + round(self.chance.uniform(least, most) * 1000)
        is_killed = kill_at < place.until and not (number == SERVICE and self.runs_on)
        self.kill_at[number] = kill_at if is_killed else math.inf
        with open(f"{place.notes}.err", "ab") as err:
            words = [sys.executable, str(TOP / "tests" / "soak_caller.py"), json.dumps(asdict(place))]
            self.running[number] = subprocess.Popen(
                words, stdin=subprocess.DEVNULL, stdout=subprocess.DEVNULL, stderr=err
            )

    def is_over(self) -> bool:
        return not self.running and not self.due

    def close(self) -> None:
        """Ends those that run yet."""
        for number, process in self.running.items():
            process.kill()
            process.wait()
            self.faults.append(f"node {number} doesn't come to its end")
        self.running.clear()

    def judge(self, is_busy: bool) -> list[str]:
        """What is wrong with the round."""
        lines = {number: lines_of(pathlib.Path(place.notes)) for number, place in self.places.items()}
        counts, wrong = judged(lines.pop(SERVICE, []), list(lines.values()))
        self.counts.update(counts)
        faults = [
            f"{len(calls)} calls {name}: {', '.join(f'{it:x}' for it in calls[:5])}"
            for name, calls in wrong.items()
            if calls
        ]
        if growth(self.sizes) > MOST_GROWN:
            faults.append(f"the service grew by {growth(self.sizes)} KiB, to {self.sizes[-1]}")
        if self.places and self.seconds >= LONG:
            happened = {
                "calls answered": counts["answered"],
                "kills of clients": self.counts["kills of clients"],
                "kills of the service": self.runs_on or self.counts["kills of the service"],
                "half of the calls answered": is_busy or counts["answered"] * 2 >= counts["made"] - counts["declined"],
            }
            faults += [f"too little happened: {name}" for name, it in happened.items() if not it]
        return self.faults + faults

    def told(self) -> str:
        it, last = self.counts, self.sizes[-1] if self.sizes else 0
        kills = (
            f"none of the service, which has {last} KiB, {growth(self.sizes)} more than at a third"
            if self.runs_on
            else f"{it['kills of the service']} of the service"
        )
        return (
            f"{it['made']} calls made, {it['answered']} answered, {it['unsure']} unsure, {it['declined']} declined,"
            f" {it['waited']} whose client was killed; {it['served']} served; {it['kills of clients']} kills of"
            f" clients, {kills}"
        )
