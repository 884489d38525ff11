#!/usr/bin/env python3
"""The audit of logs against a plain reading of its rule, outside the gate: the log of each worked row that
was accepted, and that log with one line doubled, left out, or swapped with the next, at each of its lines.
Ends with 1 where a verdict or a status differs. `tests/audit.py [PROGRAM]`.

In tests/all: PROGRAM, 600 s."""
import re
import subprocess
import sys

from lib import TOP, program

ROWS = TOP / "crates" / "deltat_tests"
ROUND = 2**32
LETTERS = {"dbe", "db", "de", "d", "be", "b", "e", "-"}
WORDS = {"took": 5, "sent": 7, "settled": 6, "uncertain": 5, "accepted": 7, "restarted": 4}


class Flawed(Exception):
    """A line has this flaw."""


def number(word, most=ROUND - 1):
    """A number in its one spelling, or None."""
    return int(word) if re.fullmatch("0|[1-9][0-9]*", word) and int(word) <= most else None


def flow(word):
    """The four numbers of a flow, or None."""
    parts = re.fullmatch("([0-9]+):([0-9]+)>([0-9]+):([0-9]+)", word)
    found = parts and [number(part, most) for part, most in zip(parts.groups(), [ROUND - 1, 65535] * 2)]
    return tuple(found) if found and None not in found else None


def asked(value, fault):
    """The value, or the fault where there is none."""
    if value is None:
        raise Flawed(fault)
    return value


def fact(line):
    """What a line tells: its name, and its values."""
    words = line.split(" ")
    if len(words) < 3 or number(words[0], 2**64 - 1) is None or number(words[1]) is None:
        return None
    name = words[2]
    if name not in WORDS:
        return None
    if len(words) != WORDS[name]:
        raise Flawed("count")
    if name == "restarted":
        return name, number(words[1]), asked(number(words[3]), "number")
    values = [asked(flow(words[3]), "flow"), asked(number(words[4]), "number")]
    if name in ("sent", "settled", "accepted"):
        values.append(asked(number(words[5]), "number"))
    if name == "sent" and words[6] not in LETTERS or name == "accepted" and words[6] not in ("run", "on"):
        raise Flawed("word")
    return (name, *values, *words[6:])


class Rows:
    """The rows of a flow: life, sent and fate of each octet that was taken; place and life of each given."""

    def __init__(self):
        self.taken = []
        self.given = []
        self.edge = 0
        self.next = 0


def leftmost(rows, count, wanted):
    """The places of the leftmost rows that are wanted, so many."""
    places = [place for place, row in enumerate(rows.taken) if wanted(row)]
    if len(places) < count:
        raise Flawed("stray")
    return places[:count]


def settle(rows, life, count, fate):
    """The leftmost open rows of the life get the fate."""
    places = leftmost(rows, count, lambda row: row["life"] == life and row["fate"] == "open")
    if fate == "acked" and not set(places) <= {place for place, _ in rows.given}:
        raise Flawed("breaks S4")
    for place in places:
        rows.taken[place]["fate"] = fate


def send(rows, life, first, length):
    """The leftmost rows of the life that weren't sent are sent."""
    for place in leftmost(rows, length, lambda row: row["life"] == life and not row["sent"]):
        rows.taken[place]["sent"] = True
        rows.edge = place + 1
    rows.next = (first + length) % ROUND


def accept(rows, life, own, first, length, run):
    """Octets are accepted, where no test fails."""
    place = rows.edge - (rows.next - first) % ROUND
    for end in (place, max(place + length - 1, 0)):
        if not 0 <= end < len(rows.taken) or place < 0 or not rows.taken[end]["sent"]:
            raise Flawed("stray")
    top = rows.given[-1][0] + 1 if rows.given else 0
    if place < top:
        raise Flawed("breaks S1")
    if not run and not (rows.given and rows.given[-1] == (place - 1, own)):
        raise Flawed("breaks S6")
    for row in rows.taken[top:place]:
        if row["fate"] != "uncertain" and not row["life"] < life:
            raise Flawed("breaks S3")
    rows.given += [(place + i, own) for i in range(length)]


def follow(told, lives, flows):
    """What a fact does."""
    name, *values = told
    if name == "restarted":
        node, life = values
        if life != lives.get(node, 0) + 1:
            raise Flawed("stray")
        lives[node] = life
        return
    rows = flows.setdefault(values[0], Rows())
    life, own = lives.get(values[0][0], 0), lives.get(values[0][2], 0)
    if name == "took":
        rows.taken += [{"life": life, "sent": False, "fate": "open"} for _ in range(values[1])]
    elif name == "sent":
        send(rows, life, values[1], values[2])
    elif name == "accepted":
        accept(rows, life, own, values[1], values[2], values[3] == "run")
    else:
        settle(rows, life, values[1], "acked" if name == "settled" else "uncertain")


def verdict(log):
    """The line that an audit writes."""
    lives, flows = {}, {}
    for place, line in enumerate(log):
        try:
            told = fact(line)
            if told:
                follow(told, lives, flows)
        except Flawed as flaw:
            return f"line {place + 1}: {flaw}"
    return "audit yes"


def changed(log):
    """The log, and each way of changing it at one line."""
    yield log
    for i in range(len(log)):
        yield log[: i + 1] + log[i:]
        yield log[:i] + log[i + 1 :]
        if i + 1 < len(log):
            yield log[:i] + [log[i + 1], log[i]] + log[i + 2 :]


def logs():
    """The logs of the rows that were accepted, each with its changes. The first passes."""
    for line in (ROWS / "stdin").read_text().splitlines():
        name, word, status = line.split()
        if (word, status) == ("replay", "0"):
            log = (ROWS / "data" / f"{name}.out").read_text().splitlines()
            for k, log in enumerate(changed(log)):
                yield f"{name} {k}", log, k == 0


def main():
    path, tried, wrong = program(), 0, 0
    for name, log, whole in logs():
        run = subprocess.run(
            [path, "audit"], input="".join(f"{line}\n" for line in log), capture_output=True, text=True, check=False
        )
        right = verdict(log)
        tried += 1
        if (
            run.stdout != right + "\n"
            or run.returncode != (0 if right == "audit yes" else 3)
            or whole
            and right != "audit yes"
        ):
            print(f"{name}: {run.stdout.strip()} (status {run.returncode}) where the rule says {right}")
            wrong += 1
    print(f"{tried - wrong} of {tried} logs have their verdicts")
    return 1 if wrong or not tried else 0


if __name__ == "__main__":
    sys.exit(main())
