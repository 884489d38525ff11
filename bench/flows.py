#!/usr/bin/env python3
"""What many flows cost `replay`. `bench/flows.py [PROGRAM]`.

- A schedule on 20,000 flows beside one on 20 with as many lines and octets, in seconds, peak memory and the factor
  between their times, for two sizes of the records' rooms. Each flow's records stand to the end, so each event finds
  its act among those of all flows.
- A release: each of 2,000 and of 20,000 flows has sent one message and goes quiet, and then one tick of either node
  releases all of their records. Beside it the same schedule without its end: the rest is what the two ticks took. The
  factor is that of a flow: 1 where a tick's cost grows with the flows that it releases, 10 where it grows with their
  square.

Ends with 1 where a schedule isn't accepted."""
import os
import subprocess
import sys
import tempfile
import time

sys.path.insert(0, os.path.join(os.path.dirname(os.path.abspath(__file__)), "..", "tests"))

from lib import params, program, two_stations

FEW = 20
MANY = 20_000
ROOMS = (64, 4096)
ROUNDS = 3600
RUNS = 25
RELEASED = (2_000, 20_000)
# from here on all ports have five digits, so that a schedule on few flows has as many octets as one on many
FIRST_PORT = 10_000
# longer than any record stands behind its flow's last packet, in ms
QUIET = 10_000
OCTETS = "".join(f"{i:02x}" for i in range(16))


def setup(room: int) -> str:
    """Two nodes with a link each way, where a record has room for so many octets."""
    return two_stations(params(16, room, room))


def schedule(flows, room, rounds, out):
    """Each round sends a message on the next 20 flows, hands over the packets and then the
    acknowledgements, reads, and ticks both nodes. A round is 2 ms, so 20,000 flows come round again
    after 2 s; a record stands for 4.2 s and more. Returns the number of lines."""
    out.write(setup(room))
    for number in range(rounds):
        first, copy = number * FEW, number * FEW * 2
        names = [f"1:{FIRST_PORT + i % flows}>2:{FIRST_PORT + i % flows}" for i in range(first, first + FEW)]
        out.writelines(f"send {name} be {OCTETS}\n" for name in names)
        out.write("pass 1\n")
        out.writelines(f"arrive {copy + i}\n" for i in range(FEW))
        out.write("pass 1\n")
        out.writelines(f"arrive {copy + FEW + i}\n" for i in range(FEW))
        out.writelines(f"read {name} 65536\n" for name in names)
        out.write("tick 1\ntick 2\n")
    return setup(room).count("\n") + rounds * (4 * FEW + 4)


def run(binary, path):
    """The seconds, the peak memory in octets and the status of one run."""
    begun = time.monotonic()
    with open(path, encoding="ascii") as source, open(os.devnull, "wb") as sink:
        child = subprocess.Popen([binary, "replay"], stdin=source, stdout=sink)
        _, status, usage = os.wait4(child.pid, 0)
    return time.monotonic() - begun, usage.ru_maxrss * 1024, os.waitstatus_to_exitcode(status)


def measure(binary, *wanted):
    """The least seconds of some runs of each schedule, or None of one that isn't accepted. The runs take turns, since
    the speed of a machine that others share changes within seconds. What is wanted is flows, room, rounds and an end.
    Prints a row each."""
    with tempfile.TemporaryDirectory() as folder:
        paths = [os.path.join(folder, f"{i}.schedule") for i in range(len(wanted))]
        lines = []
        for path, (flows, room, rounds, end) in zip(paths, wanted):
            with open(path, "w", encoding="ascii") as file:
                lines.append(schedule(flows, room, rounds, file) + end.count("\n"))
                file.write(end)
        turns = [[run(binary, path) for path in paths] for _ in range(RUNS)]
    least = []
    for (flows, room, _, _), count, runs in zip(wanted, lines, zip(*turns)):
        seconds = min(seconds for seconds, _, _ in runs)
        peak = max(peak for _, peak, _ in runs)
        statuses = {status for _, _, status in runs}
        print(f"{room:4}  {flows:5}  {count:6}  {seconds:7.2f}  {peak / 1e6:7.1f}  {max(statuses)}")
        least.append(seconds if statuses == {0} else None)
    return least


def release(binary, flows):
    """The seconds that a flow's release takes, where one tick of either node releases so many, or None
    where a schedule isn't accepted."""
    room, rounds = ROOMS[0], flows // FEW
    stand, gone = measure(binary, (flows, room, rounds, ""), (flows, room, rounds, f"pass {QUIET}\ntick 1\ntick 2\n"))
    # by chance the difference of two measured times may be none
    return None if stand is None or gone is None else max(gone - stand, 1e-6) / flows


def main():
    binary = program()
    print("room  flows  lines   seconds  peak MB  status")
    for room in ROOMS:
        few, many = measure(binary, (FEW, room, ROUNDS, ""), (MANY, room, ROUNDS, ""))
        if few is None or many is None:
            return 1
        print(f"factor {many / few:.2f}")
    each = [release(binary, flows) for flows in RELEASED]
    if None in each:
        return 1
    for flows, seconds in zip(RELEASED, each):
        print(
            f"release of {flows} in a tick of either node: {seconds * flows * 1e3:.1f} ms, {seconds * 1e6:.2f} us a"
            " flow"
        )
    print(f"factor {each[1] / each[0]:.2f}")
    return 0


if __name__ == "__main__":
    sys.exit(main())
