#!/usr/bin/env python3
"""tools/gateway.py as its users meet it: HTTP clients that retry, over a bad link, while both gateways are killed.

Usage: tests/gateway.py [--seconds N]

First the settings: each wrong field is refused with its name. Then, without losses, what each status means: an answer
of the server's own, a repeated key, a key of another order, no key, a body too long, an unknown service, a Unix socket,
a server that is away, a far gateway that is away (504, then settled by a question).

Then two network namespaces with 10 ms between them, 5 % of packets lost, 5 % repeated and 5 % late, for N seconds (20).
At one end a gateway and an HTTP server that writes a line for each order that it serves; at the other a gateway, nginx
and haproxy, which pass orders on and retry, and clients: `curl --retry 5 --retry-all-errors` at the gateway, at nginx
and at haproxy, and ab. Each gateway is killed every 3 s or so, and started again. At the end every order is settled. No
order may be served twice, and each that was answered must be served. Beside it the same clients ask the server itself
over the same link, while the server is killed, and what it served twice is counted and printed.

It needs the library, curl, and root for the namespaces; nginx, haproxy and ab are used where they are there.

In tests/all: no words, 300 s."""
import argparse
import collections
import http.client
import http.server
import os
import pathlib
import random
import shutil
import signal
import socket
import subprocess
import sys
import tempfile
import threading
import time
from collections.abc import Callable, Iterator
from contextlib import contextmanager

sys.path.insert(0, str(pathlib.Path(__file__).resolve().parent))

from lib import HOST, TOP, skip
from wan import ADDRESSES, Bound, Link, impaired_link

GATEWAY = TOP / "tools" / "gateway.py"
LINK = Link(10, 0.05, 0.05, 0.05)
NEAR, FAR, HTTP, NGINX, HAPROXY, SERVER = 4101, 4102, 8180, 8181, 8182, 8190
CLIENTS = 4
# (a machine that runs all tests lets a process wait for its turn)
NETWORK = "[network]\ndelay_us = 60_000\nround_trip_us = 25_000\nwait_ms = 200\n"
KEY = "Idempotency-Key"


def near_settings(hosts: tuple[str, str], listen: str) -> str:
    return (
        f'node = 1\nstate = "near"\nbind = "{hosts[1]}:{NEAR}"\nlisten = "{listen}"\nsync = false\n'
        f'peers.2 = "{hosts[0]}:{FAR}"\n{NETWORK}'
        '[call.orders]\nnode = 2\nport = 20\ntimeout = 3.0\n'
        '[call.plain]\nnode = 2\nport = 20\nfrom_port = 2000\ntimeout = 3.0\nkeys = "optional"\n'
    )


def far_settings(hosts: tuple[str, str]) -> str:
    return (
        f'node = 2\nstate = "far"\nbind = "{hosts[0]}:{FAR}"\nsync = false\npeers.1 = "{hosts[1]}:{NEAR}"\n{NETWORK}'
        f'[serve.20]\nurl = "http://{HOST}:{SERVER}/shop"\n'
    )


class Shop(http.server.BaseHTTPRequestHandler):
    """Serves an order: writes its body as a line, works for WORK seconds, and then answers."""

    protocol_version = "HTTP/1.1"

    def do_POST(self) -> None:
        body = self.rfile.read(int(self.headers["Content-Length"]))
        with open("effects", "ab", buffering=0) as file:
            file.write(body + b"\n")
        time.sleep(float(os.environ.get("WORK", "0")))
        answer = b"served " + self.path.encode() + b" " + body
        self.send_response(201)
        self.send_header("Content-Length", str(len(answer)))
        self.end_headers()
        self.wfile.write(answer)

    def log_message(self, format: str, *args: object) -> None:
        """Says nothing."""


def shop(host: str = HOST) -> None:
    """The HTTP server, in a process of its own."""
    http.server.ThreadingHTTPServer.request_queue_size = 256
    http.server.ThreadingHTTPServer((host, SERVER), Shop).serve_forever()


def spawn(*words: object, log: str = "log") -> "subprocess.Popen[bytes]":
    with open(log, "ab") as file:
        return subprocess.Popen([str(it) for it in words], stdout=file, stderr=file, stdin=subprocess.DEVNULL)


def own(*words: str) -> list[str]:
    return [sys.executable, os.path.abspath(__file__), *words]


def waits_until_up(address: tuple[str, int] | str, seconds: float = 20.0) -> None:
    end = time.monotonic() + seconds
    family = socket.AF_UNIX if isinstance(address, str) else socket.AF_INET
    while time.monotonic() < end:
        with socket.socket(family) as it:
            if it.connect_ex(address) == 0:
                return
        time.sleep(0.05)
    raise AssertionError(f"nothing listens at {address} after {seconds} s")


@contextmanager
def running(*words: object, log: str = "log", keeps: bool = True, every: float = 0.0) -> Iterator[None]:
    """A process that is started again when it ends; with `every`, it is killed so often."""
    ends = threading.Event()
    at: list["subprocess.Popen[bytes]"] = [spawn(*words, log=log)]

    def look_after() -> None:
        next_kill = time.monotonic() + every * random.uniform(0.5, 1.5)
        while not ends.wait(0.05):
            if every and time.monotonic() >= next_kill and not pathlib.Path("peace").exists():
                at[0].send_signal(signal.SIGKILL)
                next_kill = time.monotonic() + every * random.uniform(0.5, 1.5)
            if at[0].poll() is not None and keeps:
                at[0] = spawn(*words, log=log)

    thread = threading.Thread(target=look_after, daemon=True)
    thread.start()
    try:
        yield
    finally:
        ends.set()
        thread.join()
        at[0].kill()
        at[0].wait()


def post(path: str, body: bytes, key: str | None = None) -> tuple[int, bytes, str]:
    """The status, body and token of an answer. The type is that of curl: with another one it is another order."""
    connection = http.client.HTTPConnection(HOST, HTTP, timeout=20)
    try:
        head = {"Content-Type": "application/x-www-form-urlencoded"} | ({KEY: key} if key else {})
        connection.request("POST", path, body, head)
        response = connection.getresponse()
        return response.status, response.read(), response.headers.get("Deltat-Token", "")
    finally:
        connection.close()


def get(path: str) -> tuple[int, bytes]:
    connection = http.client.HTTPConnection(HOST, HTTP, timeout=20)
    try:
        connection.request("GET", path)
        response = connection.getresponse()
        return response.status, response.read()
    finally:
        connection.close()


def holds(fact: bool, text: str) -> None:
    if not fact:
        raise AssertionError(text)


def served() -> collections.Counter[str]:
    """How often each order was served."""
    path = pathlib.Path("effects")
    return collections.Counter(path.read_text().split()) if path.exists() else collections.Counter()


# ---- settings, and what each status means ----

WRONG = {
    "node = -1": "node is -1",
    'bind = "4101"': "must be HOST:PORT",
    "[call.orders]\nnode = 9\nport = 20": "none of the peers",
    '[serve.x]\nurl = "http://h"': "the name of the table is a port",
    '[serve.20]\nurl = "ftp://h"': "must be http://",
    "bogus = 1": "no field that is known",
    "[call.a]\nnode = 2\nport = 20\n[call.b]\nnode = 2\nport = 21": "is used by call.a",
    "x": "Expected",
}


def settings() -> None:
    for text, wanted in WRONG.items():
        first, tables = text.partition("[")[0], "".join(text.partition("[")[1:])
        bind, listen = f'"{HOST}:{NEAR}"', f'"{HOST}:{HTTP}"'
        fields = {"node": "1", "state": '"s"', "bind": bind, "listen": listen}
        if "=" in first:
            fields[first.split(" ")[0]] = first.split("= ")[1].strip()
        lines = "".join(f"{name} = {value}\n" for name, value in fields.items()) + (
            "" if "=" in first else first + "\n"
        )
        tables = tables or "[call.orders]\nnode = 2\nport = 20\n"
        body = lines + f'peers.2 = "{HOST}:{FAR}"\n{NETWORK}' + tables
        pathlib.Path("wrong.toml").write_text(body)
        ran = subprocess.run([sys.executable, GATEWAY, "wrong.toml", "--check"], capture_output=True, text=True)
        holds(ran.returncode == 2 and wanted in ran.stderr, f"{text!r}: {ran.returncode}, {ran.stderr!r}")
    print(f"settings: {len(WRONG)} wrong ones are refused with their field")


def statuses() -> None:
    hosts = (HOST, HOST)
    pathlib.Path("near.toml").write_text(near_settings(hosts, f"{HOST}:{HTTP}"))
    pathlib.Path("far.toml").write_text(far_settings(hosts))
    with running(sys.executable, GATEWAY, "near.toml"):
        waits_until_up((HOST, HTTP))
        status, body, token = post("/orders", b"early", "early")
        holds(status == 504 and b"unsure" in body and token != "", f"without a far gateway: {status} {body!r}")
        with running(sys.executable, GATEWAY, "far.toml"):
            asked = settled(token)
            holds(asked[0] == 409 and b"never" in asked[1], f"a lost order is never served: {asked}")
            status, body, _ = post("/orders", b"away", "away")
            holds(status == 502 and b"nothing happened" in body, f"without a server: {status} {body!r}")
            with running(*own("--shop", HOST)):
                waits_until_up((HOST, SERVER))
                each_status(token)
    holds(all(it == 1 for it in served().values()), f"served twice: {served()}")
    print("statuses: 201, 400, 404, 409, 411, 413, 422, 502, 504 as the page says")


def settled(token: str) -> tuple[int, bytes, str]:
    """Asks until the question is answered."""
    for _ in range(40):
        asked = post(f"/ask/{token}", b"")
        if asked[0] != 504:
            return asked
        time.sleep(0.25)
    raise AssertionError("ten seconds of questions, and no answer")


def each_status(early: str) -> None:
    first = post("/orders/new", b"one", "k1")
    holds(first[:2] == (201, b"served /shop/new one"), f"an order: {first}")
    holds(post("/orders/new", b"one", "k1") == first, "a repeated key gets another answer")
    holds(get(f"/calls/{first[2]}") == (201, b"served /shop/new one"), "the answer isn't kept under its token")
    holds(post("/orders", b"early", "early")[0] == 201, "what was never served can't be made again")
    holds(get(f"/calls/{early}")[0] == 201, "the token of an order that is made again is its first")
    wrong = {
        422: post("/orders/new", b"two", "k1"),
        400: post("/orders", b"no-key"),
        404: post("/nobody", b"x", "k"),
        413: post("/orders", bytes(70_000), "long"),
    }
    for wanted, found in wrong.items():
        holds(found[0] == wanted, f"{found}, but {wanted} was wanted")
    holds(get("/calls/0000")[0] == 404 and get("/orders")[0] == 404, "GET of what isn't there")
    holds(post("/plain", b"keyless")[0] == 201, "an order without a key, where keys are optional")
    long = bytes([97]) * 60_000
    holds(post("/orders", long, "room")[0] in (201, 502), "a long order")
    with socket.create_connection((HOST, HTTP)) as it:
        it.sendall(b"POST /orders HTTP/1.1\r\nHost: h\r\n\r\n")
        holds(b" 411 " in it.recv(4096), "a request without Content-Length")


def unix_socket() -> None:
    pathlib.Path("far.toml").write_text(far_settings((HOST, HOST)))
    pathlib.Path("unix.toml").write_text(near_settings((HOST, HOST), f"unix:{os.getcwd()}/http.sock"))
    curl = ["curl", "-s", "--unix-socket", "http.sock", "-d", "local", "-H", f"{KEY}: u1", "http://gateway/orders"]
    with running(*own("--shop", HOST)), running(sys.executable, GATEWAY, "far.toml"):
        for _ in range(2):
            with running(sys.executable, GATEWAY, "unix.toml", keeps=False):
                waits_until_up(f"{os.getcwd()}/http.sock")
                found, end = b"", time.monotonic() + 30
                while b"served" not in found and time.monotonic() < end:
                    # (the other gateway may not be up yet: then the key settles it)
                    found = subprocess.run(curl, capture_output=True).stdout
                holds(found == b"served /shop local", f"over a Unix socket: {found!r}")
    print("unix socket: answered, and again after a kill, though the socket's file was left")


# ---- over a bad link, with kills ----

NGINX_CONF = """daemon off; pid nginx.pid; error_log nginx.log;
events {{ }}
http {{
  access_log off; client_body_temp_path t1; proxy_temp_path t2; fastcgi_temp_path t3; uwsgi_temp_path t4;
  scgi_temp_path t5;
  upstream gateway {{ server {to} max_fails=0; server {to} max_fails=0; }}
  server {{ listen {at}; location / {{ proxy_pass http://gateway; proxy_read_timeout 4s;
    proxy_next_upstream error timeout http_502 http_504 non_idempotent; }} }} }}
"""
HAPROXY_CONF = """defaults
  mode http
  timeout connect 2s
  timeout client 30s
  timeout server 4s
  retries 5
  option redispatch
  retry-on all-retryable-errors
listen gateway
  bind {at}
  server a {to}
"""


def proxies(target: tuple[str, int]) -> dict[str, tuple[int, list[str]]]:
    """The proxies that this machine has, with their ports and commands."""
    address = f"{target[0]}:{target[1]}"
    pathlib.Path("nginx.conf").write_text(NGINX_CONF.format(at=f"{HOST}:{NGINX}", to=address))
    pathlib.Path("haproxy.cfg").write_text(HAPROXY_CONF.format(at=f"{HOST}:{HAPROXY}", to=address))
    known = {
        "nginx": (NGINX, ["nginx", "-p", os.getcwd(), "-c", "nginx.conf"]),
        "haproxy": (HAPROXY, ["haproxy", "-f", "haproxy.cfg"]),
    }
    return {name: it for name, it in known.items() if shutil.which(name)}


def client(number: int, address: str, path: str, until: float) -> None:
    """Makes orders by curl, which retries, and notes what became of each."""
    with open(f"orders-{number}", "a", buffering=1) as notes:
        for count in range(100_000):
            if time.monotonic() >= until:
                return
            name = f"{number}-{count}"
            words = ["curl", "-s", "-f", "-m", "20", "--retry", "5", "--retry-all-errors", "--retry-delay", "1"]
            order = ["-d", name, "-H", f"{KEY}: {name}", f"http://{address}{path}"]
            ran = subprocess.run([*words, *order], stdout=subprocess.PIPE)
            notes.write(f"{name} {'answered' if ran.returncode == 0 else 'unknown'}\n")


def clients(addresses: list[str], path: str, seconds: float) -> None:
    until = time.monotonic() + seconds
    words = [(number, addresses[number % len(addresses)], path, until) for number in range(CLIENTS * len(addresses))]
    threads = [threading.Thread(target=client, args=it) for it in words]
    for it in threads:
        it.start()
    for it in threads:
        it.join()


def near_side(seconds: float) -> None:
    """The end of the clients, in its namespace: their orders, and then the fate of each."""
    subprocess.run(["ip", "link", "set", "lo", "up"], check=True)
    found = proxies((HOST, HTTP))
    with running(sys.executable, GATEWAY, "near.toml", every=3.0):
        waits_until_up((HOST, HTTP))
        proxied = [spawn(*command) for _, command in found.values()]
        words = ("ab", "-r", "-n", "300", "-c", "8", "-s", "20", "-p", "ab.body", f"http://{HOST}:{HTTP}/plain")
        ab = spawn(*words) if shutil.which("ab") else None
        clients([f"{HOST}:{HTTP}", *(f"{HOST}:{port}" for port, _ in found.values())], "/orders", seconds)
        pathlib.Path("peace").touch()
        settle()
        if ab is not None:
            ab.wait()
        for it in proxied:
            it.terminate()


def fate(name: str) -> str:
    """What an order's gateway says of it in the end."""
    end = time.monotonic() + 30
    while time.monotonic() < end:
        try:
            status, body, _ = post("/orders", name.encode(), name)
        except (OSError, http.client.HTTPException):
            status, body = 0, b""
        holds(status != 422, f"order {name} is another one")
        if status == 201 or b'"begun"' in body:
            return "settled" if status == 201 else "begun"
        time.sleep(0.2)
    return "open"


def settle() -> None:
    """Repeats each order that has no answer, under its key, until it has one."""
    for notes in sorted(pathlib.Path().glob("orders-*")):
        lines = [it.split() for it in notes.read_text().splitlines()]
        for name in (name for name, state in lines if state == "unknown"):
            with open(notes, "a") as file:
                file.write(f"{name} {fate(name)}\n")


def far_side() -> None:
    subprocess.run(["ip", "link", "set", "lo", "up"], check=True)
    with running(*own("--shop", HOST)), running(sys.executable, GATEWAY, "far.toml", every=3.0):
        time.sleep(600)


def over_gateways(seconds: float) -> None:
    pathlib.Path("near.toml").write_text(near_settings(ADDRESSES, f"{HOST}:{HTTP}"))
    pathlib.Path("far.toml").write_text(far_settings(ADDRESSES))
    pathlib.Path("ab.body").write_text("ab")
    outcome = impaired_link([own("--far"), own("--near", str(seconds))], LINK, Bound(seconds + 150), serves=True)
    holds(not outcome.stopped and not any(outcome.statuses), f"a side failed: {outcome}")
    times, fates = served(), fates_noted()
    ab = times.pop("ab", 0)
    twice = {name: count for name, count in times.items() if count > 1}
    holds(not twice, f"served twice: {twice}")
    lost = [name for name, fate in fates.items() if fate in ("answered", "settled") and times[name] != 1]
    holds(not lost, f"answered, and not served: {lost}")
    holds(len(times) > 20 and ab <= 300, f"only {len(times)} orders were served, and {ab} of 300 by ab")
    counts = ", ".join(f"{count} {name}" for name, count in collections.Counter(fates.values()).items())
    print(f"gateways: of {len(fates)} orders {counts}; {len(times)} served, none twice; of ab's 300 {ab} served")
    print(f"  {outcome.counts}")


def fates_noted() -> dict[str, str]:
    return dict(it.split() for notes in pathlib.Path().glob("orders-*") for it in notes.read_text().splitlines())


def direct_side(seconds: float) -> None:
    subprocess.run(["ip", "link", "set", "lo", "up"], check=True)
    waits_until_up((ADDRESSES[0], SERVER))
    found = proxies((ADDRESSES[0], SERVER))
    proxied = [spawn(*command) for _, command in found.values()]
    clients([f"{ADDRESSES[0]}:{SERVER}", *(f"{HOST}:{port}" for port, _ in found.values())], "/orders", seconds)
    for it in proxied:
        it.terminate()


def direct(seconds: float) -> None:
    sides = [own("--killed-shop"), own("--direct", str(seconds))]
    outcome = impaired_link(sides, LINK, Bound(seconds + 100), serves=True)
    times = served()
    twice = sum(count > 1 for count in times.values())
    holds(not outcome.stopped and len(times) > 20, f"only {len(times)} orders were served: {outcome}")
    print(f"without gateways: {len(times)} orders served, {twice} of them more than once")


def killed_shop() -> None:
    with running(*own("--shop", ADDRESSES[0]), every=3.0):
        time.sleep(600)


def in_a_folder(case: Callable[..., None], *words: float) -> None:
    """Runs a case in a folder of its own."""
    before = os.getcwd()
    with tempfile.TemporaryDirectory(prefix="gateway-") as room:
        os.chmod(room, 0o755)
        os.chdir(room)
        try:
            case(*words)
        except AssertionError:
            sys.stdout.write("".join(it.read_text(errors="replace")[-2000:] for it in pathlib.Path().glob("log")))
            raise
        finally:
            os.chdir(before)


def main() -> int:
    reads = argparse.ArgumentParser(description=__doc__, formatter_class=argparse.RawDescriptionHelpFormatter)
    reads.add_argument("--seconds", type=float, default=20.0)
    for name, kind in (("shop", str), ("near", float), ("direct", float)):
        reads.add_argument(f"--{name}", type=kind, help=argparse.SUPPRESS)
    for name in ("far", "killed-shop"):
        reads.add_argument(f"--{name}", action="store_true", help=argparse.SUPPRESS)
    given = reads.parse_args()
    if given.shop:
        shop(given.shop)
    elif given.near:
        near_side(given.near)
    elif given.direct:
        direct_side(given.direct)
    elif given.far:
        far_side()
    elif given.killed_shop:
        killed_shop()
    else:
        cases(given.seconds)
    return 0


def cases(seconds: float) -> None:
    if not shutil.which("curl"):
        skip("there is no curl")
    if "DELTAT_LIBRARY" not in os.environ and not any((TOP / "lib").glob("libdeltat.so.*")):
        skip("there is no library; `make -C lib` makes one")
    for case in (settings, statuses, unix_socket):
        in_a_folder(case)
    if os.geteuid() != 0:
        skip("namespaces want root; what needs none passed")
    os.environ["WORK"] = "0.05"
    in_a_folder(over_gateways, seconds)
    in_a_folder(direct, seconds / 2)


if __name__ == "__main__":
    sys.exit(main())
