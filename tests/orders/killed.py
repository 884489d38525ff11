"""Each end is killed at each of its system calls that write, sync, send or receive; then it is started again, and in
the end each order is executed once."""
import contextlib
import os
import pathlib
import signal
import sqlite3
import subprocess
import sys
import tempfile
import time

HERE = pathlib.Path(__file__).resolve().parent
PATHS = [str(HERE), str(HERE.parents[1] / "bindings" / "python")]
ENDS = [sys.executable, "-S", "-c", f"import sys; sys.path[:0] = {PATHS!r}; import ends; ends.main()"]
# (strace counts the calls of each name by itself)
CALLS = {
    "give": ("pwrite64", "fdatasync", "ftruncate", "fsync", "sendto", "recvfrom"),
    "serve": ("pwrite64", "fdatasync", "sendto", "recvfrom"),
}
ORDERS = 2
MOST = 60


def start(folder: pathlib.Path, word: str, kill: tuple[str, int] | None = None) -> "subprocess.Popen[bytes]":
    command = [*ENDS, word, str(folder), *([str(ORDERS)] if word == "give" else [])]
    if kill:
        name, number = kill
        trace = ["strace", "-f", "-qq", "-o", str(folder / "trace"), "-e", f"trace={name}"]
        command = [*trace, "-e", f"inject={name}:signal=KILL:when={number}", *command]
    return subprocess.Popen(command, stdout=subprocess.DEVNULL, stderr=subprocess.DEVNULL, start_new_session=True)


def wait_for(folder: pathlib.Path, server: "subprocess.Popen[bytes]") -> None:
    """Until the server listens, or has died."""
    end = time.monotonic() + 10
    while time.monotonic() < end and server.poll() is None and not (folder / "socket").exists():
        time.sleep(0.01)


def killed(folder: pathlib.Path, word: str, kill: tuple[str, int]) -> tuple[bool, str]:
    """Whether the call was reached, and what is wrong in the end."""
    server = start(folder, "serve", kill if word == "serve" else None)
    try:
        wait_for(folder, server)
        reached = False
        client = start(folder, "give", kill if word == "give" else None)
        end = time.monotonic() + 15
        for _ in range(6):
            # the end that dies is started again
            while client.poll() is None and server.poll() is None and time.monotonic() < end:
                time.sleep(0.01)
            if time.monotonic() >= end:
                return reached, "it takes too long"
            if server.poll() is not None:
                reached = True
                (folder / "socket").unlink(missing_ok=True)
                server = start(folder, "serve")
                wait_for(folder, server)
                continue
            if client.wait() == 0:
                break
            reached = True
            client = start(folder, "give")
        else:
            return reached, "the client doesn't come to its end"
    finally:
        for it in (server, client):
            # (strace has a child)
            with contextlib.suppress(ProcessLookupError):
                os.killpg(it.pid, signal.SIGKILL)
            it.wait()
    db = sqlite3.connect(folder / "server.db")
    found = sorted(bytes(body) for (body,) in db.execute("SELECT body FROM effects"))
    db.close()
    wanted = [b"order %d" % it for it in range(1, ORDERS + 1)]
    return reached, "" if found == wanted else f"the books have {found}"


def cases() -> list[tuple[str, bool, str]]:
    found = []
    for word, names in CALLS.items():
        for name in names:
            wrong, count = "", 0
            for number in range(1, MOST):
                with tempfile.TemporaryDirectory() as folder:
                    reached, why = killed(pathlib.Path(folder), word, (name, number))
                if why:
                    wrong = f"{name} {number}: {why}"
                if why or not reached:
                    break
                count += 1
            found.append((f"{word} killed at each of {count} calls of {name}", not wrong and count > 0, wrong))
    return found
