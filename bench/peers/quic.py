#!/usr/bin/env python3
"""QUIC as a peer of bench/peers.py: the client and the server of Debian's ngtcp2-client and ngtcp2-server, with HTTP/3
over them.

    bench/peers/quic.py serve ADDRESS PORT FOLDER
    bench/peers/quic.py ask ADDRESS PORT WHAT COUNT OCTETS SECONDS FOLDER

FOLDER is one for the key, the certificate and what is sent. Answers are those of peer.h. A client is a process of
its own, so

- `first` is a request and its answer in a new connection, by the client's own milliseconds since it began;
- `message` is a body of so many octets and its answer in a new connection: up to a MiB by the same, above by the
  time of the process;
- `flows` is so many streams of one connection;
- there is no `answers`: that client asks all at once and can't wait for an answer."""
import pathlib
import re
import subprocess
import sys
import time

CLIENT, SERVER = "gtlsclient", "/usr/sbin/gtlsserver"
MOST_TOLD = 1 << 20
# the line of a stream's last octets that came, with its moment
ENDED = re.compile(rb"I(\d{8}) \S+ frm rx .*STREAM\(0x\w+\) id=0x(\w+) fin=1 ")


def prepare(folder: pathlib.Path) -> None:
    """Makes the key, the certificate and the page that answers."""
    folder.mkdir(exist_ok=True)
    if not (folder / "certificate").exists():
        words = [
            "openssl",
            "req",
            "-x509",
            "-newkey",
            "ec",
            "-pkeyopt",
            "ec_paramgen_curve:prime256v1",
            "-nodes",
            "-subj",
            "/CN=peer",
            "-days",
            "2",
            "-keyout",
            str(folder / "key"),
            "-out",
            str(folder / "certificate"),
        ]
        subprocess.run(words, check=True, capture_output=True)
    (folder / "pages").mkdir(exist_ok=True)
    (folder / "pages" / "answer").write_bytes(bytes(100))


def client(words: list[str], folder: pathlib.Path, there: list[str], seconds: float) -> tuple[list[int], float]:
    """The moments at which streams ended, in ms, and the seconds of the process."""
    begun = time.monotonic()
    command = [
        CLIENT,
        "--no-quic-dump",
        "--no-http-dump",
        "--exit-on-all-streams-close",
        *words,
        *there,
        "https://peer/answer",
    ]
    try:
        ran = subprocess.run(command, cwd=folder, capture_output=True, timeout=max(seconds, 0.1), check=False)
        said = ran.stdout + ran.stderr
    except subprocess.TimeoutExpired as why:
        said = (why.stdout or b"") + (why.stderr or b"")
    # streams of the client's requests alone, each once
    ended = {it[2]: int(it[1]) for it in ENDED.finditer(said) if int(it[2], 16) % 4 == 0}
    return list(ended.values()), time.monotonic() - begun


def ask(there: list[str], what: str, numbers: list[str], folder: pathlib.Path) -> None:
    count, octets, seconds = int(numbers[0]), int(numbers[1]), float(numbers[2])
    until = time.monotonic() + seconds
    body = folder / f"body-{octets}"
    body.write_bytes(bytes(octets))
    upload = ["-m", "POST", "-d", str(body)]
    if what == "flows":
        ended, took = client(["-n", str(count)], folder, there, seconds)
        print(f"done {len(ended)} {(max(ended) / 1000 if len(ended) == count else took):.6f}")
        return
    for _ in range(count):
        left = until - time.monotonic()
        if left <= 0:
            break
        if octets > MOST_TOLD:
            begun = time.monotonic()
            try:
                subprocess.run(
                    [CLIENT, "-q", "--exit-on-all-streams-close", *upload, *there, "https://peer/answer"],
                    cwd=folder,
                    capture_output=True,
                    timeout=left,
                    check=True,
                )
            except subprocess.SubprocessError:
                break
            print(f"done {octets} {time.monotonic() - begun:.6f}", flush=True)
            continue
        ended, _ = client(upload, folder, there, left)
        if ended:
            print(f"done {1 if what == 'first' else octets} {max(ended) / 1000:.6f}", flush=True)


def main() -> None:
    form, address, port, *words = sys.argv[1:]
    folder = pathlib.Path(words[-1]).resolve()
    prepare(folder)
    if form == "serve":
        subprocess.run(
            [
                SERVER,
                "-q",
                "-d",
                str(folder / "pages"),
                address,
                port,
                str(folder / "key"),
                str(folder / "certificate"),
            ],
            stdout=subprocess.DEVNULL,
            stderr=subprocess.DEVNULL,
            check=False,
        )
    else:
        ask([address, port], words[0], words[1:4], folder)


if __name__ == "__main__":
    main()
