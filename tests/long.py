#!/usr/bin/env python3
"""What is long: runs in which no clause says that the program doesn't give up early, with what must come out of
them reckoned here. 65,536 octets that are sent in one piece and read whole, a call of 65,528 octets and its reply,
a script of 1,001 commands, and schedules over an hour and over a year. `tests/long.py [PROGRAM]`. Ends with 1 where
one gives up, or tells another end.

In tests/all: PROGRAM, 60 s."""
import random
import subprocess
import sys

from lib import bound, free_port, node_script, params, program, read_of, tell, two_stations

FLOW = "1:10>2:20"
SEGMENT, ROOM = 8_192, 65_536
SETUP = two_stations(params(SEGMENT, ROOM, ROOM))
HOUR, YEAR = 3_600_000, 365 * 86_400_000
# the greatest number of one `pass`
PASS = 2**32 - 1


def run(path: str, word: str, text: str) -> tuple[int, list[list[str]]]:
    ran = subprocess.run([path, word], input=text.encode(), capture_output=True, timeout=30, check=False)
    return ran.returncode, [line.split(" ") for line in ran.stdout.decode().splitlines()]


def delivered(path: str, word: str, head: str) -> tuple[str, int, list[list[str]]]:
    """An input with an arrival of each copy behind its head, until there is no further one; its status and its log."""
    text, number = head, 0
    while run(path, word, f"{text}arrive {number}\n")[0] == 0:
        text += f"arrive {number}\n"
        number += 1
    return text, *run(path, word, text)


def whole_message(path: str, before: str = "") -> str:
    """What is wrong with 65,536 octets that are sent in one piece behind these lines."""
    octets = random.Random(1).randbytes(ROOM)
    text, status, log = delivered(path, "replay", f"{SETUP}{before}send {FLOW} be {octets.hex()}\n")
    if status:
        return f"status {status}: {' '.join(log[-1])}"
    status, log = run(path, "replay", text + f"read {FLOW} 65536\n" * (ROOM // SEGMENT + 1))
    told = "\n".join(" ".join(words) for words in log)
    marks = [words[4] for words in log if words[2:4] == ["read", FLOW]]
    if status or read_of(told, FLOW) != octets:
        return f"status {status}, {len(read_of(told, FLOW))} octets read"
    return "" if "b" in marks[0] and "e" in marks[-1] else f"marks {marks}"


def long_call(path: str) -> str:
    """What is wrong with a call of the longest payload."""
    payload = random.Random(2).randbytes(ROOM - 8)
    _, status, log = delivered(path, "calls", f"{SETUP}call {FLOW} {payload.hex()}\n")
    answers = [words[3] for words in log if words[1:3] == ["answered", "0"]]
    if status or answers != [payload[::-1].hex()]:
        return f"status {status}, {len(answers)} answers, {' '.join(log[-1])}"
    return ""


def many_commands(path: str) -> str:
    """What is wrong with a script of 1,001 commands."""
    with bound() as peer:
        commands = [f"at {number // 20} send {FLOW} be {number:04x}" for number in range(1_000)] + ["at 60 stop"]
        text = node_script((params(100, ROOM, ROOM),), (1, 2), (free_port(), peer.getsockname()[1]), commands)
        status, log = run(path, "node", text)
    took = [words for words in log if words[2:3] == ["took"]]
    return "" if status == 0 and len(took) == 1_000 else f"status {status}, {len(took)} sends of 1000"


def passes(milliseconds: int) -> str:
    whole, rest = divmod(milliseconds, PASS)
    return f"pass {PASS}\n" * whole + f"pass {rest}\n"


def main() -> int:
    path = program()
    # an unanswered send, whose record is given up and released in the meantime
    lost = "send 2:20>1:10 be 00\nlose 0\n"
    rows = [
        ("65,536 octets in one piece", whole_message(path)),
        ("a call of 65,528 octets", long_call(path)),
        ("a script of 1,001 commands", many_commands(path)),
        ("an hour, and then 65,536 octets", whole_message(path, passes(HOUR))),
        ("a year, and then 65,536 octets", whole_message(path, passes(YEAR))),
    ]
    status, log = run(path, "replay", SETUP + lost + "".join(f"{passes(HOUR // 60)}tick 2\n" for _ in range(60)))
    given_up = [words for words in log if words[2:4] == ["uncertain", "2:20>1:10"]]
    rows.append(
        (
            "an octet that nobody hears, for an hour",
            "" if status == 0 and len(given_up) == 1 else f"status {status}, {len(given_up)} given up",
        )
    )
    return tell([(name, not why, why) for name, why in rows])


if __name__ == "__main__":
    sys.exit(main())
