"""A journal in a file of SQLite, written by a thread of its own, so that no write holds up the loop of the node. What
is given while a commit is under way is committed together."""
import asyncio
import queue
import sqlite3
import threading
from collections.abc import Callable
from concurrent.futures import Future
from pathlib import Path
from typing import Any

Act = Callable[[sqlite3.Connection], Any]


class Journal:
    """A database in a file. `do` runs a function in the journal's thread, and returns when what it wrote is committed,
    and on the disk if the journal syncs. Raises sqlite3.Error if it can't be opened."""

    def __init__(self, path: Path, schema: str, sync: bool) -> None:
        self._acts: queue.SimpleQueue[tuple[Act, Future[Any]] | None] = queue.SimpleQueue()
        ready: Future[None] = Future()
        words = (path, schema, sync, ready)
        self._thread = threading.Thread(target=self._run, args=words, name=f"journal {path.name}", daemon=True)
        self._thread.start()
        ready.result()

    async def do(self, act: Act) -> Any:
        """Runs the act in a transaction, and returns what it returns. Raises what it raises; then nothing of it is
        kept."""
        done: Future[Any] = Future()
        self._acts.put((act, done))
        return await asyncio.wrap_future(done)

    def close(self) -> None:
        """Commits what was given, and ends the thread."""
        self._acts.put(None)
        self._thread.join()

    def _run(self, path: Path, schema: str, sync: bool, ready: "Future[None]") -> None:
        try:
            base = sqlite3.connect(path, isolation_level=None)
            base.execute("PRAGMA journal_mode = WAL")
            base.execute(f"PRAGMA synchronous = {'FULL' if sync else 'NORMAL'}")
            base.executescript(schema)
        except BaseException as why:
            ready.set_exception(why)
            return
        ready.set_result(None)
        while self._commit(base):
            continue
        base.close()

    def _commit(self, base: sqlite3.Connection) -> bool:
        """Does all that waits in one transaction; false at the end."""
        waiting, goes_on = [self._acts.get()], True
        while not self._acts.empty():
            waiting.append(self._acts.get())
        results: list[tuple[Future[Any], Any]] = []
        base.execute("BEGIN IMMEDIATE")
        for it in waiting:
            if it is None:
                goes_on = False
                continue
            act, done = it
            base.execute("SAVEPOINT act")
            try:
                results.append((done, act(base)))
            except Exception as why:
                base.execute("ROLLBACK TO act")
                done.set_exception(why)
            base.execute("RELEASE act")
        try:
            base.execute("COMMIT")
        except sqlite3.Error as why:
            base.execute("ROLLBACK")
            for done, _ in results:
                done.set_exception(why)
            return goes_on
        for done, result in results:
            done.set_result(result)
        return goes_on
