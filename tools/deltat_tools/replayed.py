"""The lane of this project: a client and a dispenser over two nodes that `deltat replay` runs. What happens is a
schedule; after each step the program replays all of it, and its log says what the nodes did. So there is no second
copy of the protocol here: only the client and the dispenser, which are messages of eight octets."""
import shutil
import subprocess
from pathlib import Path

from deltat_tools.lanes import TICK, Kind, Lane, Packet, Side, State
from deltat_tools.parameters import Params

TOP = Path(__file__).resolve().parent.parent.parent
# the longest that a packet may be under way, which is a premise: later, a replay refuses its arrival
CHARGE = 5_000
PARAMS = Params(CHARGE + 100, 6_000, 100, 2_000, 4_000, 1_000, 4_096, 4_096, 4_096, 2**31)
SETUP = f"""{PARAMS.line()}
station 1 0
station 2 0
link 1 1 2 {CHARGE} 0
link 2 2 1 {CHARGE} 0
route 1 2 1
route 2 1 2
go
"""
REQUESTS, ANSWERS = "1:10>2:20", "2:20>1:10"
SIZE = 8


class Broken(Exception):
    """The program can't be run, or refused what this made."""


def default_program() -> str:
    """The program of this repository if it is built, else the one that is installed."""
    built = TOP / "crates" / "deltat" / "out" / "deltat"
    return str(built) if built.exists() else shutil.which("deltat") or str(built)


def run(program: str, word: str, text: str) -> str:
    """What the program writes. A log with a flaw has its verdict, and a refused schedule its fault."""
    try:
        ran = subprocess.run([program, word], input=text.encode(), capture_output=True, check=False)
    except OSError as why:
        raise Broken(
            f"{program} can't be run: {why}; build it (./build), install the package, or give another --program"
        ) from None
    out = ran.stdout.decode("utf-8", "replace")
    if ran.returncode not in (0, 3) or not out:
        said = ran.stderr.decode("utf-8", "replace").strip() or "nothing was written"
        raise Broken(f"{program} {word} ended with {ran.returncode}: {said}")
    if ran.returncode == 3 and word == "replay":
        raise Broken(f"{program} refused the schedule: {out.splitlines()[-1]}")
    return out


class Replayed(Lane):
    """Two nodes of Delta-t, run by the program."""

    name = "Delta-t"
    quiet_time = PARAMS.quiet

    def __init__(self, program: str) -> None:
        super().__init__()
        self.program = program
        # each line of the schedule after `go` but `pass`, with its moment
        self.events: list[tuple[int, str]] = []
        self.log = ""
        self.followed = 0
        # orders that weren't sent yet, and by their first numbers those that were; orders that wait for a fate
        self.queued: list[int] = []
        self.sent: dict[str, int] = {}
        self.open: list[int] = []
        self.answers: list[int] = []
        self.sent_answers: dict[str, int] = {}
        self.last: list[str] = []
        self.quiet = {Side.CLIENT: 0, Side.DISPENSER: 0}
        self.lost: set[int] = set()

    # the schedule

    def schedule(self) -> str:
        """The schedule up to now."""
        lines, at = [], 0
        for moment, line in [*self.events, (self.now, "")]:
            if moment > at:
                lines.append(f"pass {moment - at}")
                at = moment
            if line:
                lines.append(line)
        return SETUP + "".join(f"{line}\n" for line in lines)

    def note(self, text: str) -> None:
        """Adds a comment to the schedule."""
        self.events.append((self.now, f"# {text}"))

    def do(self, *lines: str) -> list[list[str]]:
        """Adds events of this moment, and returns what the log has of them."""
        self.events += [(self.now, line) for line in lines]
        return self.replay()

    def replay(self) -> list[list[str]]:
        """Replays the schedule, and follows what is new in the log."""
        new = self.unread()
        self.follow_lines(new)
        return new

    def unread(self) -> list[list[str]]:
        """Replays the schedule, and returns the lines of the log that weren't followed yet."""
        self.log = run(self.program, "replay", self.schedule())
        lines = [line.split(" ") for line in self.log.splitlines() if not line.startswith(("flow ", "end "))]
        return lines[self.followed :]

    def follow_lines(self, lines: list[list[str]]) -> None:
        """Does what lines of the log mean, each at its moment."""
        self.followed += len(lines)
        now = self.now
        for words in lines:
            self.now = int(words[0])
            if words[1] != "lost":
                self.follow(Side(int(words[1])), words[2:])
        self.now = now

    def verdict(self) -> str:
        """What `deltat audit` says of the log."""
        self.replay()
        return run(self.program, "audit", self.log).strip()

    # the log

    def follow(self, side: Side, words: list[str]) -> None:
        """What a line of a node means for its application."""
        method = getattr(self, f"on_{words[0]}", None)
        if method:
            method(side, words)
        if words[0] in ("sent", "resent", "acked", "replied", "met"):
            self.last = words

    def on_sent(self, side: Side, words: list[str]) -> None:
        waiting, sent = (self.queued, self.sent) if side is Side.CLIENT else (self.answers, self.sent_answers)
        sent[words[2]] = waiting.pop(0)

    def on_put(self, side: Side, words: list[str]) -> None:
        name, number = self.last[0], self.last[2]
        order = None
        if name in ("sent", "resent"):
            order = (self.sent if side is Side.CLIENT else self.sent_answers)[number]
            text = f"order {order}" if side is Side.CLIENT else f"answer {order}"
        else:
            text = "probe" if name == "met" else "ack"
        packet = self.put(side.other, text, order)
        assert packet.number == int(words[4])

    def on_refused(self, side: Side, words: list[str]) -> None:
        self.orders[self.queued[-1]] = State.REFUSED
        self.mark(side, Kind.REFUSED, f"order {self.queued.pop()} is refused: silent until {int(words[3]) / 1000:g} s")

    def on_took(self, side: Side, words: list[str]) -> None:
        del words
        if side is Side.CLIENT:
            self.open.append(self.queued[-1])

    def on_settled(self, side: Side, words: list[str]) -> None:
        if side is Side.CLIENT:
            for order in self.take_open(words):
                if self.orders[order] is State.WAITING:
                    self.orders[order] = State.DELIVERED
                    self.mark(side, Kind.DELIVERED, f"order {order} is acknowledged", order)

    def on_uncertain(self, side: Side, words: list[str]) -> None:
        if side is Side.DISPENSER:
            self.mark(side, Kind.UNSURE, "an answer may not have arrived")
            return
        for order in self.take_open(words):
            if self.orders[order] is State.WAITING:
                self.orders[order] = State.UNSURE
                self.mark(side, Kind.UNSURE, f"order {order} is uncertain", order)

    def take_open(self, words: list[str]) -> list[int]:
        """The oldest orders without a fate, as many as these octets have."""
        count = int(words[2]) // SIZE
        taken, self.open = self.open[:count], self.open[count:]
        return taken

    def on_replied(self, side: Side, words: list[str]) -> None:
        del words
        self.mark(side, Kind.SEEN, "accepted before: acknowledged again, and not passed on")

    def on_quiet(self, side: Side, words: list[str]) -> None:
        self.mark(side, Kind.IGNORED, f"silent until {int(words[1]) / 1000:g} s: not accepted")

    def on_dropped(self, side: Side, words: list[str]) -> None:
        del words
        self.mark(side, Kind.IGNORED, "no record: dropped")

    def on_ignored(self, side: Side, words: list[str]) -> None:
        del words
        self.mark(side, Kind.IGNORED, "an old acknowledgement: ignored")

    # the nodes

    def send_order(self, order: int) -> None:
        self.queued.append(order)
        self.do(f"send {REQUESTS} be {b'pour %03d'.__mod__(order).hex()}")

    def receive(self, packet: Packet) -> None:
        came = self.do(f"arrive {packet.number}")
        if any(words[2] == "accepted" for words in came):
            flow = REQUESTS if packet.to is Side.DISPENSER else ANSWERS
            for words in self.do(f"read {flow} {SIZE}"):
                if words[2] == "read":
                    self.read(packet.to, bytes.fromhex(words[5]))

    def read(self, side: Side, message: bytes) -> None:
        """An application reads a message."""
        order = int(message[5:])
        if side is Side.DISPENSER:
            self.pour(order)
            self.answers.append(order)
            self.do(f"send {ANSWERS} be {b'done %03d'.__mod__(order).hex()}")
        elif self.orders[order] is State.FORGOTTEN:
            self.mark(side, Kind.IGNORED, f"the answer to order {order}, which was forgotten", order)
        else:
            self.answered(order)

    def advance(self, moment: int) -> None:
        """The nodes tick. A tick at which nothing was due changes nothing, and isn't kept."""
        kept, first = len(self.events), self.now
        stops = [*range(first - first % TICK + TICK, moment, TICK), moment] if moment > first else []
        ticks = [f"tick {side.value}" for side in Side if self.running[side]]
        self.events += [(at, line) for at in stops for line in ticks]
        self.now = moment
        if not stops or not ticks:
            return
        lines = self.unread()
        self.now = next((int(words[0]) for words in lines if words[2] == "put"), moment)
        lines = [words for words in lines if int(words[0]) <= self.now]
        due = {(int(words[0]), f"tick {words[1]}") for words in lines}
        self.events[kept:] = [it for it in self.events[kept:] if it in due]
        self.follow_lines(lines)

    def lose(self, packet: Packet) -> None:
        if packet.number not in self.lost:
            self.lost.add(packet.number)
            self.do(f"lose {packet.number}")

    def forget(self, side: Side) -> None:
        if side is Side.CLIENT:
            self.open, self.queued = [], []
        else:
            self.answers = []

    def wake(self, side: Side) -> None:
        self.quiet[side] = self.now + PARAMS.quiet
        self.do(f"restart {side.value}")

    def silent_until(self, side: Side) -> int:
        return self.quiet[side]
