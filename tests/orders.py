#!/usr/bin/env python3
"""Orders: the model with all its mutants, the library against the model, and deltat.orders under crashes.
`tests/orders.py [NAME ..]`. Ends with 1 where

- `model`: the model breaks a theorem in a random run, or doesn't break one without each of its defences and premises
  (tests/orders/model.py, whose own runs are longer);
- `library`: in the runs of the model's adversary a function of the library leaves other octets than the model's state
  has, or answers otherwise;
- `module`: over a wire that loses, repeats and holds back, and stores that die at any write and lose what wasn't
  written, an order is executed twice, or its fate isn't so; a set back isn't told, or not exactly;
- `lanes`: in AsyncOrders a lane has two orders or none gets it again, whatever is settled twice, cancelled or raises;
  an alarm doesn't name exactly what is undone; or after a write that failed something is called, or waits for ever;
- `log`: a log that is cut anywhere, or has a changed octet, isn't read as a first part of its records;
- `chains`: of a chain of three ends, whose middle dies at commits, a part is done twice or not at all, or its result
  isn't told; or a middle isn't told of a set back of the last end;
- `power`: the power is cut after any system call that changes a file, and of what wasn't synced any part is lost: an
  order is lost or executed twice; or that isn't seen where an end doesn't sync;
- `server`: an order that can't be committed holds up others; orders over sockets don't share transactions; an order is
  Unknown and not for its reason; or many calls are needed for a fate though all is well again;
- `killed`: of two processes, each is killed at each of its system calls that write, sync, send or receive, and an order
  is lost or executed twice;
- `postgres`: the same service over PostgreSQL executes twice, or keeps what a handler did that failed;
- `page`: the programs of docs/orders.md don't run as they stand there, or have more than 40 lines together.

`killed` and `power` need strace, and `postgres` a PostgreSQL server and psycopg: without them they are left out. It
needs the library (`make -C lib`).

In tests/all: no words, 600 s."""
import os
import pathlib
import shutil
import sys

from lib import TOP, skip, tell

LIBRARY = pathlib.Path(os.environ.setdefault("DELTAT_LIBRARY", str(TOP / "lib" / "libdeltat.so.2")))
if not LIBRARY.exists():
    skip(f"{LIBRARY} isn't there: make -C lib")
sys.path[:0] = [str(TOP / "bindings" / "python"), str(TOP / "tests" / "orders")]

import chains  # noqa: E402
import killed  # noqa: E402
import lanes  # noqa: E402
import module  # noqa: E402
import mutants  # noqa: E402
import page  # noqa: E402
import postgres  # noqa: E402
import power  # noqa: E402
import server  # noqa: E402
import twins  # noqa: E402

PARTS = {
    "model": mutants.cases,
    "library": twins.cases,
    "module": module.cases,
    "lanes": lanes.cases,
    "chains": chains.cases,
    "log": module.log_cases,
    "power": power.cases,
    "server": server.cases,
    "killed": killed.cases,
    "postgres": postgres.cases,
    "page": page.cases,
}
LACKS = {it: not shutil.which("strace") for it in ("killed", "power")} | {"postgres": not postgres.is_there()}


def main() -> int:
    chosen = sys.argv[1:] or list(PARTS)
    cases = []
    for name in chosen:
        if LACKS.get(name):
            print(f"{name}: left out, since this machine lacks what it needs")
        else:
            cases += PARTS[name]()
    return tell(cases)


if __name__ == "__main__":
    sys.exit(main())
