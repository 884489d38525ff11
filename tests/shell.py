#!/usr/bin/env python3
"""tools/dtcat.py and tools/dtping.py over sockets of this machine. `tests/shell.py`; ends with 77 where `make -C lib`
hasn't made the library, and with 1 where one of these fails:

- lines: 2,000 lines go to a listener. What it writes are lines of these, in order, none twice; status 0 comes with all
  of them, status 1 with what is missing told as uncertain.
- both: two ends send each other 500 lines; --whole sends 60,000 octets as one message.
- ping: ten messages to a listener are acknowledged, and one to nobody is uncertain, with status 1.
- recorded: what two ends and a ping recorded by --record is run again by `deltat retrace` to the very log beside it. It
  is left out where there is no program (./build).
- states: a node that runs has its state folder to itself, the folder of another node is refused, one that can't be
  written starts nothing, a node whose parameters were other ones is silent first, and --state and --help say where.
- refused: faulty words, a port in use and no library are status 2, with a line that says so.

In tests/all: no words, 120 s."""
import os
import re
import signal
import subprocess
import sys
import tempfile
import time

from lib import HOST, PROGRAM, TOP, bound, free_port, is_up, skip

LIBRARY = TOP / "lib" / "libdeltat.so.2"
CAT, PING = str(TOP / "tools" / "dtcat.py"), str(TOP / "tools" / "dtping.py")
if not LIBRARY.exists():
    skip(f"{LIBRARY} isn't there: make -C lib")


HOME = tempfile.TemporaryDirectory()
places = {"XDG_STATE_HOME": HOME.name}


def ends() -> tuple[str, str]:
    """Two nodes at free ports, which never ran before."""
    places["XDG_STATE_HOME"] = tempfile.mkdtemp(dir=HOME.name)
    return f"1@{HOST}:{free_port()}", f"2@{HOST}:{free_port()}"


def start(*words: str, given: bytes | None = None) -> "subprocess.Popen[bytes]":
    # a listener is stopped by an interrupt, which a shell in the background has its children ignore
    it = subprocess.Popen(
        [sys.executable, *words],
        stdin=subprocess.PIPE,
        stdout=subprocess.PIPE,
        stderr=subprocess.PIPE,
        env={**os.environ, **places},
        preexec_fn=lambda: signal.signal(signal.SIGINT, signal.SIG_DFL),
    )
    if given is not None:
        it.stdin.write(given)
        it.stdin.close()
        it.stdin = None
    return it


def ended(it: "subprocess.Popen[bytes]") -> tuple[int, str, str]:
    out, err = it.communicate(timeout=60)
    return it.returncode, out.decode(), err.decode()


def stopped(it: "subprocess.Popen[bytes]") -> str:
    """What a listener wrote, which is interrupted."""
    time.sleep(0.3)
    it.send_signal(2)
    return ended(it)[1]


def lines() -> bool:
    one, two = ends()
    listener = start(CAT, two, one, "--listen")
    time.sleep(0.5)
    sent = [f"line {it}" for it in range(2000)]
    status, _, said = ended(start(CAT, one, two, given="".join(f"{it}\n" for it in sent).encode()))
    came = stopped(listener).splitlines()
    missing = sum(len(it) for it in sent) - sum(len(it) for it in came)
    told = int(re.match(r"dtcat.py: (\d+) of", said)[1]) if status == 1 else 0
    numbers = [sent.index(it) for it in came]
    print(f"lines: {len(came)} of 2000 came, {told} octets uncertain")
    return (
        numbers == sorted(set(numbers))
        and (status, missing) == (0, 0)
        or status == 1
        and numbers == sorted(set(numbers))
        and 0 <= missing <= told
    )


def both() -> bool:
    one, two = ends()
    texts = ["".join(f"{who} {it}\n" for it in range(500)) for who in (1, 2)]
    found = [
        start(CAT, one, two, "--linger", "1.5", given=texts[0].encode()),
        start(CAT, two, one, "--linger", "1.5", given=texts[1].encode()),
    ]
    told = [ended(it) for it in found]
    right = all(
        set(out.splitlines()) <= set(text.splitlines()) and (status or out)
        for (status, out, _), text in zip(told, reversed(texts))
    )
    one, two = ends()
    listener = start(CAT, two, one, "--listen", "--whole")
    time.sleep(0.5)
    octets = "x" * 60_000
    status, _, _ = ended(start(CAT, one, two, "--whole", given=octets.encode()))
    came = stopped(listener)
    return right and (came == octets if status == 0 else octets.startswith(came))


def ping() -> bool:
    one, two = ends()
    listener = start(CAT, two, one, "--listen")
    time.sleep(0.5)
    status, said, _ = ended(start(PING, one, two, "--count", "10", "--interval", "0.05"))
    stopped(listener)
    alone, nobody = ends()
    lost, told, _ = ended(start(PING, alone, nobody, "--count", "1", "--delay", "5"))
    last = said.splitlines()[-1] if said else ""
    print(f"ping: {last}")
    return (
        status == 0
        and re.match(r"10 messages, 0 uncertain, \d+ resent, [\d. ]+ ms$", last) is not None
        and lost == 1
        and "1: 56 octets, uncertain" in told
    )


def is_run_again(path: str) -> bool:
    with open(path, "rb") as record, open(f"{path}.log", "rb") as log:
        ran, told = subprocess.run([str(PROGRAM), "retrace"], stdin=record, capture_output=True), log.read()
    if (ran.returncode, ran.stdout) != (0, told):
        print(f"recorded: {path} ends with {ran.returncode}, and {len(ran.stdout)} octets of {len(told)}")
    return (ran.returncode, ran.stdout) == (0, told) and told.count(10) > 20


def recorded() -> bool:
    if not os.access(PROGRAM, os.X_OK):
        print("recorded: there is no program: ./build")
        return True
    with tempfile.TemporaryDirectory() as folder:
        one, two = ends()
        records = [f"{folder}/{it}" for it in ("one", "two", "ping", "listens")]
        texts = ["".join(f"{who} {it}\n" for it in range(300)).encode() for who in (1, 2)]
        found = [
            start(CAT, one, two, "--linger", "1", "--record", records[0], given=texts[0]),
            start(CAT, two, one, "--linger", "1", "--record", records[1], given=texts[1]),
        ]
        statuses = [ended(it)[0] for it in found]
        one, two = ends()
        listener = start(CAT, two, one, "--listen", "--record", records[3])
        time.sleep(0.5)
        statuses.append(ended(start(PING, one, two, "--count", "10", "--interval", "0.05", "--record", records[2]))[0])
        stopped(listener)
        return set(statuses) <= {0, 1} and all([is_run_again(it) for it in records])


def states() -> bool:
    right = True

    def tell(name: str, holds: bool) -> None:
        nonlocal right
        right &= holds
        if not holds:
            print(f"states: {name}")

    one, two = ends()
    listener = start(CAT, two, one, "--listen")
    until = time.monotonic() + 20
    while not is_up(int(two.split(":")[1])) and time.monotonic() < until:
        time.sleep(0.05)
    status, _, said = ended(start(CAT, two, one, given=b"x"))
    tell(
        "a second node 2",
        status == 2 and f"in use by process {listener.pid};" in said and f"{places['XDG_STATE_HOME']}/deltat/2" in said,
    )
    folder = os.path.join(HOME.name, "named")
    status, _, said = ended(start(PING, one, two, "--count", "1", "--state", folder))
    tell("a folder that is named", status < 2 and sorted(os.listdir(folder)) == ["last", "lock", "state"])
    status, _, said = ended(start(PING, "3@" + one.split("@")[1], two, "--count", "1", "--state", folder))
    tell("another node's folder", status == 2 and "is of node 1, and this is node 3" in said)
    status, _, said = ended(start(PING, one, two, "--count", "1", "--state", "/proc/nowhere"))
    tell("no folder", status == 2 and "/proc" in said)
    begun = time.monotonic()
    status, out, said = ended(
        start(PING, one, two, "--count", "1", "--state", folder, "--again", "--round-trip", "400")
    )
    tell("other delays", "is silent for" in said and time.monotonic() - begun > 1 and "1 messages" in out)
    stopped(listener)
    tell("--help", "~/.local/state/deltat/NODE" in " ".join(ended(start(CAT, "--help"))[1].split()))
    return right


def refused() -> bool:
    right = True
    one, two = ends()
    with bound() as taken:
        used = f"1@{HOST}:{taken.getsockname()[1]}"
        for words in ([CAT], [CAT, "1", two], [CAT, "1@0", two], [PING, one, two, "--count", "0"], [CAT, used, two]):
            status, out, said = ended(start(*words, given=b""))
            if (status, out) != (2, "") or not said:
                print(f"refused: {words[1:]} gave {status} {said!r}")
                right = False
    none = subprocess.run(
        [sys.executable, CAT, one, two],
        capture_output=True,
        text=True,
        stdin=subprocess.DEVNULL,
        env={**os.environ, "DELTAT_LIBRARY": "/nowhere"},
    )
    return right and none.returncode == 2 and "make -C lib" in none.stderr


def main() -> int:
    failed = 0
    for test in (lines, both, ping, recorded, states, refused):
        well = test()
        failed += not well
        print(f"{test.__name__}: {'ok' if well else 'FAILED'}", flush=True)
    return 1 if failed else 0


if __name__ == "__main__":
    sys.exit(main())
