"""The same service over a PostgreSQL server, which is started here as the user postgres."""
import contextlib
import importlib.util
import pathlib
import shutil
import subprocess
import sys
import tempfile
from collections.abc import Iterator

from deltat import orders

PROGRAMS = (
    sorted(pathlib.Path("/usr/lib/postgresql").glob("*/bin")) if pathlib.Path("/usr/lib/postgresql").exists() else []
)
if importlib.util.find_spec("psycopg") is None and pathlib.Path("/usr/lib/python3/dist-packages/psycopg").exists():
    # (Debian's, for a Python that isn't)
    sys.path.append("/usr/lib/python3/dist-packages")


def is_there() -> bool:
    return bool(PROGRAMS) and importlib.util.find_spec("psycopg") is not None and shutil.which("runuser") is not None


def as_postgres(*words: object) -> None:
    subprocess.run(["runuser", "-u", "postgres", "--", *map(str, words)], check=True, capture_output=True, timeout=60)


@contextlib.contextmanager
def server() -> Iterator[str]:
    """A server of its own, and how psycopg finds it."""
    with tempfile.TemporaryDirectory() as name:
        folder = pathlib.Path(name)
        shutil.chown(folder, "postgres")
        data = folder / "data"
        as_postgres(PROGRAMS[-1] / "initdb", "-D", data, "-A", "trust")
        options = f"-c listen_addresses='' -c unix_socket_directories={folder}"
        as_postgres(PROGRAMS[-1] / "pg_ctl", "-D", data, "-w", "-l", folder / "log", "-o", options, "start")
        try:
            yield f"host={folder} user=postgres dbname=postgres"
        finally:
            as_postgres(PROGRAMS[-1] / "pg_ctl", "-D", data, "-m", "immediate", "-w", "stop")


def requests_of(bodies: list[bytes], served: orders.Served) -> list[orders.Fate]:
    """What a client is told, each of whose requests comes twice."""

    class Kept(list[bytes]):
        def read(self) -> list[bytes]:
            return list(self)

        def write(self, records: object) -> None:
            self.extend(records)  # type: ignore[arg-type]

        def replace(self, records: object) -> None:
            self[:] = records  # type: ignore[assignment]

        def close(self) -> None:
            pass

    def sends(request: bytes) -> bytes:
        served.handle(3, request)
        answer = served.handle(3, request)
        assert answer is not None
        return answer

    with orders.Orders(sends, Kept(), waits=(0.0, 0.0)) as client:
        return [client.give(it) for it in bodies]


def cases() -> list[tuple[str, bool, str]]:
    with server() as where:
        served, tries = orders.Served(orders.Postgres(where)), [0]
        served.database.run("CREATE TABLE effects(body BYTEA)")

        @served.order
        def execute(connection, order):  # type: ignore[no-untyped-def]
            connection.execute("INSERT INTO effects VALUES (%s)", (order.body,))
            tries[0] += 1
            if order.body == b"fails" and tries[0] < 4:
                raise RuntimeError("at first")
            return b"did " + order.body

        bodies = [b"a", b"b", b"fails", b"c"]
        fates = requests_of(bodies, served)
        rows = [bytes(it) for (it,) in served.database.run("SELECT body FROM effects")]
        other = orders.Served(orders.Postgres(where))
        other.order(execute)
        again = requests_of([b"d"], other)
        served.close()
        other.close()
    return [
        ("orders that come twice over PostgreSQL are done once", sorted(rows) == sorted(bodies), str(rows)),
        ("each fate has its result", fates == [orders.Done(b"did " + it) for it in bodies], str(fates)),
        (
            "a client that lost its store is told of it",
            again == [orders.Done(b"did d")] or again == [orders.Unknown(orders.Why.SET_BACK)],
            str(again),
        ),
    ]
