"""The state folder of a node: what has to outlive a program, so that the next start of its node is safe.

    with deltat.State("/var/lib/pump/deltat", node=1, params=params) as state:
        node = deltat.Node(1, params, links, routes, state=state)

A node that starts must be silent until nothing of its earlier lives is under way any more: for the quiet time
`3 mpl + r + a` after the last datagram that left it or was passed in. A new life needs a number that no earlier life
had. Only the program can keep both, and a program that is killed keeps nothing in memory. So the folder has

- a lock: one node number is one node at a time;
- the number, the parameters, and the count of lives, which are on the disk before the first datagram leaves;
- the boot of the machine, and a time after which no datagram has left and none was passed in.

That time is written ahead of time, so a program that is killed at any instruction leaves one that is late enough.
docs/formats.md has the form of the files; the tools and `tools/run-node` keep the same ones.
lib/udp/state.c of libdeltat-udp keeps it, for this class and for `deltat.driver`. It is tested (`tests/state.py`), and
not proved."""

from __future__ import annotations

import ctypes
import logging
import os
import secrets
import weakref
from pathlib import Path
from typing import NoReturn

from . import _c, _c_udp, clock
from ._c import Start, Status
from ._library import drivers
from .errors import OutOfMemory, StateError
from .values import Params, in_range, params_of

_LOG = logging.getLogger("deltat")
_FIRST_FRESH = 65_536


def fresh_number() -> int:
    """Returns a node number that nobody has, except by chance: drawn from 65,536 to 4,294,967,295. A node of such a
    number needs no state folder and no silence. If n numbers of that range are in use, or were within the last quiet
    time, it is one of these with a probability of n in 4,294,901,760; docs/premises.md has a table."""
    return _FIRST_FRESH + secrets.randbelow((1 << 32) - _FIRST_FRESH)


def usual_folder(program: str, node: int) -> Path:
    """Returns a place for the state folder of a node that a user starts: $XDG_STATE_HOME/PROGRAM/NODE, or
    ~/.local/state/PROGRAM/NODE. A service has one below /var/lib."""
    home = Path(os.environ.get("XDG_STATE_HOME") or "")
    return (home if home.is_absolute() else Path.home() / ".local" / "state") / program / str(node)


def _machine() -> tuple[str, int] | None:
    """The name of a start of the machine, and the ns by which the clock is ahead of that of other processes; None:
    those of the system."""
    return None


def _refuse(error: _c_udp.Error) -> NoReturn:
    """Raises why a folder couldn't be opened."""
    text = error.text.decode(errors="replace")
    if error.status == Status.NO_MEMORY:
        raise OutOfMemory(text)
    if error.status in (Status.EXISTS, Status.INVALID):
        raise StateError(text)
    raise OSError(error.system_error, text)


class State:
    """The state folder of a node, locked for one opening of it.

    `start`: `Start.AGAIN` if the node may have had an earlier life, else `Start.FIRST`; `life`: the number of this
    life, which no earlier one had; `why`: in words, what the answer rests on. They are on the disk when the constructor
    returns.

    A state is for one opening of one node, which closes it when it is closed itself. It costs two syncs of the disk at
    the start, and a short write without one each quarter of the quiet time while datagrams leave or arrive."""

    def __init__(
        self, folder: str | os.PathLike[str], node: int, params: Params, again: bool = False, changed: bool = False
    ) -> None:
        """Opens the folder, or makes it, and takes its lock.

        `again`: be silent for the whole quiet time, whatever the folder says, and draw a life at random. Set it after a
        machine was set back to a snapshot, or the folder to a copy. `changed`: the parameters of the network were
        changed, with all nodes stopped. If the silence by the old ones is longer, the constructor waits for the rest.

        Raises StateError if another process has the folder (its id is in the text), or the folder is of another node,
        or of other parameters and `changed` isn't set; InvalidArgument if a number is out of range; OSError if the
        folder can't be read or written; OutOfMemory. The node must not be opened then.

        A file that is damaged or of another program is kept as `state.damaged`, the logger `deltat` has a warning, and
        the node is silent for the whole quiet time."""
        in_range(node, 32, "node")
        params.fingerprint  # InvalidArgument where one is out of its range
        self.folder, self.node, self.params = Path(os.path.abspath(folder)), node, params
        self._pid, self._unusable = os.getpid(), ""
        self._waits, self._short = drivers()
        self._state = self._opened(again, changed)
        self._finalizer = weakref.finalize(self, self._short.dt_udp_state_free, self._state)
        self._finalizer.atexit = False
        # what the driver of a socket reads and writes
        self._keeper: _c_udp.Keeper = self._short.dt_udp_state_keeper(self._state).contents
        self._start: _c_udp.StateStart = self._short.dt_udp_state_get_start(self._state).contents
        self.start, self.why = Start(self._start.start), self._start.why.decode()
        if warning := self._start.warning.decode():
            quiet = params.quiet_ms
            _LOG.warning("%s: %s; the node is silent for its whole quiet time, %d ms", self.folder, warning, quiet)
        _OPEN.add(self)

    def __enter__(self) -> State:
        return self

    def __exit__(self, *_: object) -> None:
        self.close()

    def _opened(self, again: bool, changed: bool) -> int:
        options, error = _c.sized(_c_udp.StateOptions), _c_udp.Error()
        options.node, options.folder = self.node, os.fsencode(self.folder)
        options.params = ctypes.pointer(params_of(self.params))
        options.start_as = _c_udp.Start.AGAIN if again else _c_udp.Start.BY_STATE
        options.params_changed = changed
        if machine := _machine():
            options.boot, options.clock_ahead = machine[0].encode(), machine[1]
        found: int | None = self._waits.dt_udp_state_open(options, error)
        return found or _refuse(error)

    # --- for a node

    @property
    def life(self) -> int:
        """The number of this life, which no earlier one of this node had: 1 to 4,294,967,295."""
        return int(self._start.life)

    def next_life(self) -> int:
        """Counts one more life, as for `set_life` of a service. It is on the disk when this returns. Raises StateError,
        or OSError, and then the life must not be used."""
        self._test()
        life = ctypes.c_uint32()
        status = self._waits.dt_udp_state_next_life(self._state, life)
        if status == Status.FULL:
            raise StateError(f"{self.folder}: node {self.node} has no more lives; give it another number and folder")
        if status:
            raise OSError(self._system_error, f"{self.folder}/state can't be written")
        return life.value

    def check(self, node: int, params: Params) -> None:
        """Raises StateError if the state is of another node or of other parameters, or was closed."""
        self._test()
        if node != self.node or params != self.params:
            raise StateError(
                f"{self.folder}: node {node} was given the state of node {self.node}, or other parameters than those "
                "of its state; make a state for it"
            )

    def opens_at(self, now: int) -> int:
        """Returns the time to open the node at, in ms of `deltat.now()` and at most `now`. It is the end of the last
        life, if that is known, so that the node is silent for the rest of its quiet time. Raises StateError at a second
        call."""
        self._test()
        at = ctypes.c_uint64()
        status = self._short.dt_udp_state_begin(self._state, now, at)
        if status == Status.EXISTS:
            raise StateError(f"{self.folder}: one state is for one opening of a node; close it and make another")
        if status:
            self.explain()
        return at.value

    def silence(self, now: int | None = None) -> int:
        """Returns for how many ms from `now` on (left out, `deltat.now()`) the node that was opened is silent."""
        at = clock.now() if now is None else now
        return max(int(self._keeper.since) - at, 0)

    def note_packet(self, now: int) -> None:
        """Notes that at this time a datagram may leave the node, or is passed in. Call it before each input of the
        node, except a tick at which nothing is due. Raises StateError: the input must not be passed to the node. Cost:
        three comparisons, and each quarter of the quiet time a write of 125 octets."""
        if self._short.dt_udp_state_note(self._state, now):
            self.explain()

    # --- what is wrong

    @property
    def _system_error(self) -> int:
        return int(self._short.dt_udp_state_system_error(self._state))

    def explain(self) -> None:
        """Raises StateError if an input was refused: the state is closed, another process's, or wasn't written."""
        self._test()
        if error := self._system_error:
            raise StateError(f"{self.folder}/last can't be written ({os.strerror(error)}); nothing was sent")

    def _test(self) -> None:
        if not self._unusable and os.getpid() != self._pid:
            self._leave()
        if self._unusable:
            raise StateError(f"{self.folder}: {self._unusable}")

    # --- the end

    def close(self) -> None:
        """Writes down when the last datagram left or was passed in, and frees the lock. Close the node first: a node
        whose state is closed sends nothing. Called again it does nothing. Raises StateError if it can't be written;
        the lock is free then too."""
        if self._unusable:
            return
        if self._end("the state is closed"):
            raise StateError(f"{self.folder}/last can't be written ({os.strerror(self._system_error)})")

    def _leave(self) -> None:
        """In a child: the lock is the parent's, and so is the node."""
        self._end("the state is of the parent of this process; give each process a node number and a folder of its own")

    def _end(self, why: str) -> int:
        self._unusable = why
        return int(self._short.dt_udp_state_close(self._state))


_OPEN: weakref.WeakSet[State] = weakref.WeakSet()


def _leave_all() -> None:
    for it in list(_OPEN):
        it._leave()


os.register_at_fork(after_in_child=_leave_all)
