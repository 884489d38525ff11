#!/usr/bin/env python3
"""The driver over UDP sockets, libdeltat-udp, with the address and undefined-behaviour sanitizers.

`tests/udp.py [--clients N] [CASE ..]`; all cases where none is named. It builds lib/udp with tests/udp/*.c over
lib/libdeltat.a and runs them as processes over 127.0.0.1, ::1 and `localhost`, under the driver's own wait, poll, epoll
and GLib's loop; through a relay that loses 1 %; with an end that is killed and started again; in a forked child; with
services that the program opened; until there is no room, and again; over a path that is too narrow for a segment; and
with strangers: sixteen thousand that come and go, N (2,000) behind one address, as a gateway with nft's masquerade
gives it to them, one whose address changes, and forgers; the state folder; and objects. Ends with 77 where there is no
compiler or no archive; a case whose tool is missing says so. `tests/udp.py --clients 10000 masqueraded` takes a minute.

In tests/all: no words, 1200 s."""
import argparse
import contextlib
import os
import pathlib
import re
import select
import shutil
import signal
import socket
import subprocess
import sys
import tempfile
import threading
import time
import zlib
from collections.abc import Callable, Iterator, Sequence
from random import Random

from lib import HOST, TOP, free_port, skip

HERE = TOP / "tests" / "udp"
ARCHIVE = TOP / "lib" / "libdeltat.a"
SANITIZED = ("-fsanitize=address,undefined", "-fno-sanitize-recover=all")
FLAGS = ("-std=c11", "-D_GNU_SOURCE", "-Wall", "-Wextra", "-Werror", "-O1", "-g", f"-I{TOP / 'include'}", *SANITIZED)
COMPILER = shutil.which("gcc") or shutil.which("clang") or ""
# of options.flags: frames that are written here by hand have no trailer
WITHOUT_WATCH = 32
# how long a process may take, on a machine that others load
PATIENCE = 60
# how many come to the service behind a gateway
CLIENTS = 2_000


class Built:
    """The programs, each built once when it is first asked for."""

    def __init__(self, folder: pathlib.Path) -> None:
        self.folder = folder
        self.done: dict[str, pathlib.Path] = {}
        glib = subprocess.run(
            ["pkg-config", "--cflags", "--libs", "glib-2.0"], capture_output=True, text=True, check=False
        )
        self.glib = glib.stdout.split() if glib.returncode == 0 else None

    def __call__(self, name: str, plain: bool = False) -> str:
        """The path of a program; `plain`: without sanitizers, where memory is measured."""
        key = f"{name}-plain" if plain else name
        if key not in self.done:
            more = ["-DWITH_GLIB", *self.glib] if self.glib and name == "ends" else []
            flags = [it for it in FLAGS if not (plain and it in SANITIZED)]
            self.done[key] = self.compiled(key, [HERE / f"{name}.c"], flags, more)
        return str(self.done[key])

    def compiled(
        self, key: str, sources: list[pathlib.Path], flags: Sequence[str] = FLAGS, more: Sequence[str] = ()
    ) -> pathlib.Path:
        """A program of these sources, the driver and the library."""
        out = self.folder / key
        self.run([*flags, *map(str, sources), *self.driver(flags), str(ARCHIVE), *more, "-o", str(out)])
        return out

    def driver(self, flags: Sequence[str]) -> list[str]:
        """The driver's objects, compiled once for these flags."""
        place = self.folder / f"driver-{zlib.crc32(' '.join(flags).encode()):08x}"
        if not place.exists():
            place.mkdir()
            for it in sorted((TOP / "lib" / "udp").glob("*.c")):
                self.run([*flags, "-c", str(it), "-o", str(place / f"{it.stem}.o")])
        return [str(it) for it in sorted(place.glob("*.o"))]

    def run(self, words: Sequence[str]) -> None:
        ran = subprocess.run([COMPILER, *words], capture_output=True, text=True, check=False)
        if ran.returncode:
            sys.exit(f"{' '.join(words)}\n{ran.stderr}")

    def loops(self) -> list[str]:
        return ["next", "poll", "epoll", *(["glib"] if self.glib else [])]


class End:
    """A process of tests/udp/ends.c that goes on until it is stopped."""

    def __init__(self, program: str, mode: str, loop: str, before: tuple[str, ...] = (), **keys: object) -> None:
        words = [*before, program, mode, loop, *(f"{key}={value}" for key, value in keys.items())]
        self.process = subprocess.Popen(words, stdout=subprocess.PIPE, stderr=subprocess.PIPE, text=True)
        line = self.process.stdout.readline()
        if not line.startswith("port "):
            self.process.kill()
            raise AssertionError(f"{' '.join(words)}: {line}{self.process.communicate()[1]}")
        self.port, self.life, self.silent = (int(it) for it in line.split()[1::2])

    def resident(self) -> int:
        """The KiB of memory that it has."""
        found = re.search(r"VmRSS:\s+(\d+)", pathlib.Path(f"/proc/{self.process.pid}/status").read_text())
        return int(found[1])

    def kill(self) -> None:
        self.process.kill()
        self.process.communicate()

    def stop(self) -> str:
        """Asks it to end, and returns what it said."""
        self.process.send_signal(signal.SIGTERM)
        return self.ended()

    def ended(self) -> str:
        try:
            said, wrong = self.process.communicate(timeout=PATIENCE)
        except subprocess.TimeoutExpired:
            self.kill()
            raise
        assert self.process.returncode == 0, f"status {self.process.returncode}: {said}{wrong}"
        return said


def figures(text: str) -> dict[str, int]:
    """The numbers of what an end says, by the word before each."""
    return {name: int(value) for name, value in re.findall(r"(\w+) (\d+)", text)}


def boottime() -> int:
    return time.clock_gettime_ns(time.CLOCK_BOOTTIME) // 1_000_000


def checked(lines: str) -> str:
    """The text of a file of a state folder, with its last line (docs/formats.md)."""
    return f"{lines}check {zlib.crc32(lines.encode()):08x}\n"


class Relay(threading.Thread):
    """Passes datagrams between two ports, and loses a part of them each way."""

    def __init__(self, loss: float, target: int, seed: int = 1) -> None:
        super().__init__(daemon=True)
        self.loss, self.target, self.chance = loss, target, Random(seed)
        self.near, self.far = (socket.socket(socket.AF_INET, socket.SOCK_DGRAM) for _ in range(2))
        for it in (self.near, self.far):
            it.setsockopt(socket.SOL_SOCKET, socket.SO_RCVBUF, 1 << 22)
            it.bind((HOST, 0))
        self.client: tuple[str, int] | None = None
        self.lost = self.passed = 0
        self.over = False

    @property
    def near_port(self) -> int:
        return self.near.getsockname()[1]

    @property
    def far_port(self) -> int:
        return self.far.getsockname()[1]

    def rebind(self) -> None:
        """From now on what is passed on comes from another port, as behind a NAT that forgot the client."""
        other = socket.socket(socket.AF_INET, socket.SOCK_DGRAM)
        other.bind((HOST, 0))
        self.far = other
        time.sleep(0.1)

    def run(self) -> None:
        while not self.over:
            far = self.far
            for it in select.select([self.near, far], [], [], 0.05)[0]:
                octets, source = it.recvfrom(65536)
                if it is self.near:
                    self.client = source
                if self.chance.random() < self.loss:
                    self.lost += 1
                    continue
                self.passed += 1
                if it is self.near:
                    self.far.sendto(octets, (HOST, self.target))
                elif self.client:
                    self.near.sendto(octets, self.client)
            if far is not self.far:
                far.close()  # (nobody else does, as long as this thread may wait for it)


def wants(truth: bool, what: str) -> None:
    if not truth:
        raise AssertionError(what)


# --- cases


def examples(built: Built, folder: pathlib.Path) -> str:
    """A service and a client of at most 30 lines of C each, over IPv4, IPv6 and a name."""
    port, programs = str(free_port()), {}
    for name in ("udp_service", "udp_client"):
        source = TOP / "examples" / f"{name}.c"
        lines = re.sub(r"/\*.*?\*/", "", source.read_text(), flags=re.DOTALL).split("\n")
        wants(sum(1 for it in lines if it.strip()) <= 30, f"{name}.c has more than 30 lines")
        programs[name] = str(built.compiled(name, [source]))
    for start in range(2):
        with subprocess.Popen([programs["udp_service"], port, str(folder / "node-2")]) as service:
            time.sleep(0.5 if start == 0 else 2.5)  # (it is silent after its second start)
            for host in ("127.0.0.1", "::1", "localhost"):
                ran = subprocess.run(
                    [programs["udp_client"], host, f"hello {host}", port],
                    capture_output=True,
                    text=True,
                    timeout=PATIENCE,
                    check=False,
                )
                wants(
                    ran.stdout == f"hello {host}"[::-1] + "\n" and ran.returncode == 0,
                    f"{host}: {ran.stdout}{ran.stderr}",
                )
            service.kill()
    return "over 127.0.0.1, ::1 and localhost; again after a kill"


def loops(built: Built, folder: pathlib.Path) -> str:
    """Each loop with calls and with long messages, over IPv4, IPv6 and a name of both."""
    hosts = [{"host": "127.0.0.1"}, {"host": "::1"}, {}]
    ran = 0
    for hosting in hosts:
        for loop in built.loops():
            for serve, ask, keys in (
                ("serve", "ask", {"count": 300, "many": 8}),
                ("echo", "say", {"count": 30, "octets": 60000}),
            ):
                ports = free_port(), free_port()
                address = hosting.get("host", "localhost")
                server = End(
                    built("ends"),
                    serve,
                    loop,
                    **hosting,
                    port=ports[0],
                    r=3000,  # (a message is given up later: nobody sends it anew, and others load the machine)
                    node=2,
                    peer=1,
                    peer_host=address,
                    peer_port=ports[1],
                )
                client = End(
                    built("ends"),
                    ask,
                    loop,
                    **hosting,
                    port=ports[1],
                    r=3000,
                    node=1,
                    peer=2,
                    peer_host=address,
                    peer_port=ports[0],
                    **keys,
                )
                found = figures(client.ended())
                wants(found.get("answered", found.get("echoed")) == keys["count"], f"{loop} over {address}: {found}")
                wants(figures(server.stop())["unknown"] == 0, "no datagram was from a stranger")
                ran += 1
    return f"{ran} pairs of processes, loops {', '.join(built.loops())}"


def switches(built: Built, folder: pathlib.Path) -> str:
    """Kernels without segments, batches and stamps."""
    for flags in (1, 2, 3, 4, 7):
        ports = free_port(), free_port()
        server = End(
            built("ends"), "echo", "next", host=HOST, port=ports[0], node=2, peer=1, peer_port=ports[1], flags=flags
        )
        client = End(
            built("ends"),
            "say",
            "poll",
            host=HOST,
            port=ports[1],
            node=1,
            peer=2,
            peer_port=ports[0],
            flags=flags,
            count=20,
            octets=60000,
        )
        found = figures(client.ended())
        wants(found["echoed"] == 20, f"flags {flags}: {found}")
        alone = flags & 1
        wants(
            (found["writes"] > found["out"] // 4) == bool(flags & 2 and alone),
            f"flags {flags}: {found['writes']} writes for {found['out']} datagrams",
        )
        server.stop()
    return "5 sets of flags"


def every_address(built: Built, folder: pathlib.Path) -> str:
    """A service at every address answers from the one that it was asked at."""
    ports = free_port(), free_port()
    for address in ("127.0.0.5", "127.0.0.1", "::1"):
        own = "::1" if ":" in address else HOST
        server = End(built("ends"), "serve", "next", port=ports[0], node=2, peer=1, peer_host=own, peer_port=ports[1])
        client = End(
            built("ends"),
            "ask",
            "next",
            host=own,
            port=ports[1],
            node=1,
            peer=2,
            peer_host=address,
            peer_port=ports[0],
            count=20,
        )
        wants(figures(client.ended())["answered"] == 20, f"asked at {address}")
        server.stop()
    return "3 addresses of one socket"


def loss(built: Built, folder: pathlib.Path) -> str:
    """1 % of all datagrams is lost: every call is answered, none is served twice."""
    server_port, log = free_port(), folder / "loss.log"
    relay = Relay(0.01, server_port)
    relay.start()
    server = End(
        built("ends"),
        "serve",
        "epoll",
        host=HOST,
        port=server_port,
        node=2,
        r=3000,
        peer=1,
        peer_port=relay.far_port,
        log=log,
    )
    client = End(
        built("ends"),
        "ask",
        "next",
        host=HOST,
        node=1,
        peer=2,
        peer_port=relay.near_port,
        count=3000,
        many=16,
        r=3000,
        timeout=20000,
    )
    found = figures(client.ended())
    server.stop()
    relay.over = True
    served = log.read_text().split()
    wants(found["answered"] + found["unsure"] == 3000 and found["wrong"] == 0, str(found))
    wants(found["answered"] >= 2990, f"at 1 % loss nearly all are answered: {found}")
    wants(len(served) == len(set(served)), "a request was served twice")
    return f"{found['answered']} of 3000 answered, {relay.lost} of {relay.lost + relay.passed} datagrams lost"


def killed(built: Built, folder: pathlib.Path) -> str:
    """The service is killed and started again, five times, while calls are made."""
    ports, log = (free_port(), free_port()), folder / "killed.log"

    def service(life: int) -> End:
        return End(
            built("ends"),
            "serve",
            "next",
            host=HOST,
            port=ports[0],
            node=2,
            peer=1,
            peer_port=ports[1],
            life=life,
            again=int(life > 1),
            log=log,
        )

    server = service(1)
    client = End(
        built("ends"),
        "ask",
        "poll",
        host=HOST,
        port=ports[1],
        node=1,
        peer=2,
        peer_port=ports[0],
        count=30000,
        many=4,
        timeout=8000,
    )
    for life in range(2, 7):
        time.sleep(0.4)
        server.kill()
        server = service(life)
        time.sleep(2.2)
    found = figures(client.ended())
    server.stop()
    served = log.read_text().split()
    wants(found["answered"] + found["unsure"] == 30000 and found["wrong"] == 0 and found["declined"] == 0, str(found))
    wants(
        len(served) == len(set(served)) and len(served) >= found["answered"],
        "each answered request is served, and none twice",
    )
    return f"{found['answered']} answered, {found['unsure']} unsure, {len(served)} served, none twice"


def stopped(built: Built, folder: pathlib.Path) -> str:
    """Each end is stopped (SIGSTOP) for longer than a datagram may be under way: what waited in its socket is old."""
    ports, log = (free_port(), free_port()), folder / "stopped.log"
    server = End(built("ends"), "serve", "next", host=HOST, port=ports[0], node=2, peer=1, peer_port=ports[1], log=log)
    asks = {"count": 20000, "many": 8, "timeout": 8000}
    client = End(built("ends"), "ask", "poll", host=HOST, port=ports[1], node=1, peer=2, peer_port=ports[0], **asks)
    for seconds in (0.1, 0.6, 1.5):
        for it in (server, client):
            it.process.send_signal(signal.SIGSTOP)
            time.sleep(seconds)
            it.process.send_signal(signal.SIGCONT)
            time.sleep(0.3)
    found = figures(client.ended())
    server.stop()
    served = log.read_text().split()
    wants(found["answered"] + found["unsure"] == 20000 and found["wrong"] == 0, str(found))
    wants(len(served) == len(set(served)) >= found["answered"], "a request was served twice")
    return f"{found['answered']} answered, {found['unsure']} unsure, none twice"


def forked(built: Built, folder: pathlib.Path) -> str:
    """A forked child is refused, and its parent goes on."""
    ran = subprocess.run(
        [built("forked"), str(free_port()), str(free_port())],
        capture_output=True,
        text=True,
        timeout=PATIENCE,
        check=False,
    )
    wants(ran.returncode == 0 and ran.stdout.split() == ["refused", "answered"], ran.stdout + ran.stderr)
    return "the child is refused"


def threads(built: Built, folder: pathlib.Path) -> str:
    """Two drivers in two threads, with the thread sanitizer."""
    flags = [*(it for it in FLAGS if it not in SANITIZED), "-fsanitize=thread"]
    program = built.compiled("threads", [HERE / "threads.c"], flags, ["-pthread"])
    ran = subprocess.run([str(program), "500"], capture_output=True, text=True, timeout=PATIENCE, check=False)
    if "unexpected memory mapping" in ran.stderr:
        return "left out: the thread sanitizer doesn't run on this kernel"
    wants(ran.returncode == 0 and ran.stdout == "answered 500\n", ran.stdout + ran.stderr[-2000:])
    return "500 calls"


def driven(built: Built, folder: pathlib.Path) -> str:
    """Services that the program opened itself, by batches of events; a keeper that refuses, and hooks."""
    ran = subprocess.run([built("driven"), "3000"], capture_output=True, text=True, timeout=PATIENCE, check=False)
    found = re.fullmatch(r"answered 3000 most (\d+)\n", ran.stdout)
    wants(ran.returncode == 0 and found and int(found[1]) > 1, ran.stdout + ran.stderr[-2000:])
    return f"3000 calls, up to {found[1]} events in a batch"


def stamps(built: Built, folder: pathlib.Path) -> str:
    """What a program's own call of a driven service made has the time of that call, and not that of a later call by the
    driver, with which it leaves: else it would look younger than it is."""
    ran = subprocess.run([built("stamps")], capture_output=True, text=True, timeout=PATIENCE, check=False)
    wants(ran.returncode == 0, ran.stdout + ran.stderr[-2000:])
    return ran.stdout.strip()


def acks(built: Built, folder: pathlib.Path) -> str:
    """Acknowledgements of one flow that wait together leave as one, which acknowledges all."""
    ran = subprocess.run([built("acks")], capture_output=True, text=True, timeout=PATIENCE, check=False)
    wants(ran.returncode == 0 and ran.stdout == "answered by 1\n", ran.stdout + ran.stderr[-2000:])
    return "five segments by one"


def room(built: Built, folder: pathlib.Path) -> str:
    """Calls, messages and objects are refused when their settings are reached, an event says when there is room again,
    each call has its own user at its end, and a drain waits until nothing is outstanding."""
    words = [built("room"), str(free_port())]
    ran = subprocess.run(words, capture_output=True, text=True, timeout=PATIENCE, check=False)
    found = [figures(it) for it in ran.stdout.splitlines()]
    wants(ran.returncode == 0 and len(found) == 3, ran.stdout + ran.stderr[-2000:])
    return ", ".join(ran.stdout.splitlines())


def narrow(built: Built, folder: pathlib.Path) -> str:
    """A segment that doesn't fit the path is reported; one that fits passes."""
    if os.geteuid() or not shutil.which("unshare") or not shutil.which("ip"):
        return "left out: it needs root, unshare and ip"
    script = """ip link set lo mtu 1300 up
    {ends} serve next host=127.0.0.1 port=4602 node=2 peer=1 peer_port=4601 seg={seg} >/dev/null &
    sleep 0.5
    {ends} ask next host=127.0.0.1 port=4601 node=1 peer=2 peer_port=4602 count=20 octets={octets} seg={seg}
    kill $!; wait $!"""
    said = []
    for octets, seg in ((1400, 1408), (1400, 1208), (60000, 1408), (60000, 1208)):
        text = script.format(ends=built("ends"), octets=octets, seg=seg)
        ran = subprocess.run(
            ["unshare", "--net", "bash", "-ec", text], capture_output=True, text=True, timeout=PATIENCE, check=False
        )
        wants(ran.returncode == 0, ran.stdout + ran.stderr)
        said.append(ran.stdout)
    wants(
        "too big: 1472 octets to 2" in said[0] and "too big: 1472 octets to 2" in said[2],
        f"too long: {said[0]}{said[2]}",
    )
    wants(
        all(figures(it)["answered"] == 20 and figures(it)["too_big"] == 0 for it in (said[1], said[3])),
        f"short enough: {said[1]}{said[3]}",
    )
    return "an MTU of 1,300"


def learnt(built: Built, folder: pathlib.Path) -> str:
    """Sixteen thousand clients that nobody listed come, ask and go: all are answered, none twice, in bounded memory."""
    log = folder / "learnt.log"
    server = End(built("ends", plain=True), "serve", "next", host=HOST, node=2, learns=6000, r=2000, log=log)

    said, sizes = {"answered": 0, "unsure": 0, "wrong": 0}, []
    for first in range(1000, 17000, 2000):
        words = [built("crowd", plain=True), HOST, str(server.port), str(first), "2000", "50"]
        ran = subprocess.run(words, capture_output=True, text=True, timeout=2 * PATIENCE, check=True)
        for key, value in figures(ran.stdout).items():
            said[key] += value
        sizes.append(server.resident())
        time.sleep(1.5)
    found = figures(server.stop())
    served = log.read_text().split()
    wants(said == {"answered": 16000, "unsure": 0, "wrong": 0}, str(said))
    wants(
        len(served) == len(set(served)) == 16000,
        f"{len(served)} requests were served, {len(set(served))} of them different",
    )
    wants(found["learnt"] >= 16000 and found["forgotten"] >= 10000, str(found))
    # (what is live at one time depends on how fast they come; the table of peers is full after the third round)
    wants(max(sizes[6:]) < 1.25 * max(sizes[2:5]), f"the service grew: {sizes} KiB")
    return f"16,000 clients, {sizes[0]} to {sizes[-1]} KiB resident, {found['challenges']} challenges"


@contextlib.contextmanager
def gateway() -> Iterator[tuple[tuple[str, ...], tuple[str, ...]]]:
    """Three networks of their own: of clients, of a gateway that gives them its one address and 4,096 ports, each for a
    second after the last datagram (nft's masquerade), and of a service. Words that run a program among the clients,
    and at 10.78.0.2."""
    with contextlib.ExitStack() as all_of_them:
        spaces = []
        for _ in range(3):
            it = subprocess.Popen(["unshare", "--net", "sleep", "600"])
            all_of_them.callback(it.wait)
            all_of_them.callback(it.kill)
            spaces.append(it.pid)
        time.sleep(0.3)
        enters = [("nsenter", f"--net=/proc/{it}/ns/net") for it in spaces]
        clients, own, service = enters
        script = f"""
        ip link add c0 type veth peer name c1 netns {spaces[0]}
        ip link add s0 type veth peer name s1 netns {spaces[2]}
        ip address add 10.77.0.1/16 dev c0; ip address add 10.78.0.1/24 dev s0
        ip link set c0 up; ip link set s0 up
        echo 1 >/proc/sys/net/ipv4/ip_forward
        echo 1 >/proc/sys/net/netfilter/nf_conntrack_udp_timeout
        echo 1 >/proc/sys/net/netfilter/nf_conntrack_udp_timeout_stream
        nft add table ip t
        nft add chain ip t p '{{ type nat hook postrouting priority 100; }}'
        nft add rule ip t p oifname s0 meta l4proto udp masquerade to :40000-44095
        {' '.join(clients)} sh -ec 'ip address add 10.77.0.2/16 dev c1; ip link set c1 up
            ip route add default via 10.77.0.1'
        {' '.join(service)} sh -c 'ip address add 10.78.0.2/24 dev s1; ip link set s1 up'
        """
        subprocess.run([*own, "sh", "-ec", script], check=True, capture_output=True, text=True)
        yield clients, service


def masqueraded(built: Built, folder: pathlib.Path) -> str:
    """Clients that nobody listed come, ask and go behind one address, whose ports the gateway gives to one after
    another: all are answered, none twice, in bounded memory."""
    if os.geteuid() or not all(shutil.which(it) for it in ("unshare", "nsenter", "ip", "nft")):
        return "left out: it needs root, unshare, nsenter, ip and nft"
    log, each, said = folder / "masqueraded.log", CLIENTS // 10, {"answered": 0, "unsure": 0, "wrong": 0}
    sizes = list[int]()
    with gateway() as (inside, outside):
        keys = {"host": "10.78.0.2", "node": 2, "learns": 3 * each, "r": 2000, "log": log}
        server = End(built("ends", plain=True), "serve", "next", before=outside, **keys)
        for first in range(1000, 1000 + 10 * each, each):
            words = [*inside, built("crowd", plain=True), "10.78.0.2", str(server.port), str(first), str(each), "50"]
            ran = subprocess.run(words, capture_output=True, text=True, timeout=PATIENCE, check=True)
            for key, value in figures(ran.stdout).items():
                said[key] += value
            sizes.append(server.resident())
            time.sleep(1.5)  # (what was learnt may be forgotten after the quiet time, 3.5 s)
        found = figures(server.stop())
    served = log.read_text().split()
    wants(said == {"answered": 10 * each, "unsure": 0, "wrong": 0}, str(said))
    wants(
        len(served) == len(set(served)) == 10 * each, f"{len(served)} were served, {len(set(served))} of them different"
    )
    wants(found["learnt"] >= 10 * each and found["forgotten"] >= 5 * each, str(found))
    wants(max(sizes[6:]) < 1.25 * max(sizes[2:5]), f"the service grew: {sizes} KiB")
    grew = " ".join(map(str, sizes))
    return f"{10 * each} clients, {found['challenges']} challenges; KiB resident after each tenth: {grew}"


def rebinds(built: Built, folder: pathlib.Path) -> str:
    """A client's address changes five times: it is heard again within a second each time."""
    server = End(built("ends"), "serve", "next", host=HOST, node=2, learns=10)
    relay = Relay(0.0, server.port)
    relay.start()
    log = folder / "rebinds.log"
    client = End(
        built("ends"),
        "ask",
        "next",
        host=HOST,
        node=1,
        peer=2,
        peer_port=relay.near_port,
        count=6000,
        many=1,
        timeout=20000,
        pause=1,
        log=log,
    )
    for _ in range(5):
        time.sleep(1.2)
        relay.rebind()
    found = figures(client.ended())
    relay.over = True
    moved = figures(server.stop())
    wants(found["answered"] == 6000 and found["unsure"] == 0, str(found))
    wants(moved["learnt"] == 1 and moved["moved"] == 5, str(moved))
    wants(found["longest"] < 1000, f"a call took {found['longest']} ms")
    return f"5 addresses, the longest call took {found['longest']} ms"


class Stranger:
    """A socket that speaks as a node, octet by octet."""

    def __init__(self, server: int, node: int, key: int = 1) -> None:
        self.node, self.key = node, key
        self.socket = socket.socket(socket.AF_INET, socket.SOCK_DGRAM)
        self.socket.connect((HOST, server))
        self.socket.settimeout(0.1)
        self.sent = self.heard = 0
        self.number = 0

    def frame(self, port: int = 20, flags: int = 7, kind: int = 1) -> None:
        """A request to node 2, the next of its flow."""
        payload = (1 << 32 | self.number).to_bytes(8, "big") + b"hello"
        packet = (
            bytes([kind, flags if self.number == 0 else flags & 6]) + (10).to_bytes(2, "big") + port.to_bytes(2, "big")
        )
        packet += (13 * self.number).to_bytes(4, "big") + bytes(4) + payload
        header = (
            bytes([1, 1])
            + len(packet).to_bytes(2, "big")
            + (482).to_bytes(4, "big")
            + self.node.to_bytes(4, "big")
            + (2).to_bytes(4, "big")
        )
        self.sent += self.socket.send(header + packet)

    def proof(self, challenge: bytes, node: int | None = None) -> None:
        ends = (self.node if node is None else node).to_bytes(4, "big") + (2).to_bytes(4, "big")
        self.socket.send(bytes([208, 1, 2, challenge[3]]) + ends + challenge[12:20] + self.key.to_bytes(8, "big"))

    def answers(self) -> list[bytes]:
        """What comes until nothing does."""
        found = []
        try:
            while True:
                found.append(self.socket.recv(65536))
                self.heard += len(found[-1])
        except TimeoutError:
            return found

    def challenged(self) -> bytes:
        """The challenge that answers a frame, which is all that does. (Who was heard before may get what it was sent
        then.)"""
        self.frame()
        found = self.answers() or self.answers()
        if self.number:
            found = [it for it in found if it[0] not in (1, 2)]
        wants(len(found) == 1 and found[0][:3] == bytes([208, 1, 1]) and len(found[0]) == 28, f"no challenge: {found}")
        return found[0]

    def is_heard(self) -> bool:
        """Whether a frame of it is answered by frames."""
        self.frame()
        self.number += 1
        return any(it[0] in (1, 2) for it in self.answers())


def forgers(built: Built, folder: pathlib.Path) -> str:
    """Strangers who don't hear at their address, who aren't who they say, or who speak to closed ports."""
    log, own = folder / "forgers.log", socket.socket(socket.AF_INET, socket.SOCK_DGRAM)
    own.bind((HOST, 0))
    server = End(
        built("ends"), "serve", "poll", host=HOST, node=2, learns=10, peer=77, peer_port=own.getsockname()[1], log=log,
        flags=WITHOUT_WATCH,
    )
    one, other = Stranger(server.port, 500), Stranger(server.port, 500, key=2)
    for _ in range(300):
        one.frame()
    answers = one.answers()
    wants(
        answers and all(it[:3] == bytes([208, 1, 1]) for it in answers) and one.heard <= one.sent,
        "a stranger is answered by challenges, no longer than what it sent",
    )
    challenge = one.challenged()
    one.proof(challenge[:12] + bytes([challenge[12] ^ 1]) + challenge[13:])
    one.challenged()
    other.proof(challenge)  # (a cookie is of an address)
    other.challenged()
    one.proof(challenge)
    one.frame(kind=9)
    one.frame(flags=255)
    wants(log.read_text() == "" and one.answers() == [], "junk is passed in, and isn't answered")
    wants(one.is_heard(), "who has proved it is heard")
    other.proof(other.challenged())
    other.challenged()  # (the number is another opening's, which isn't silent)
    wants(one.is_heard(), "the first one is still heard")
    moved = Stranger(server.port, 500, key=1)
    moved.proof(moved.challenged())
    moved.number = one.number
    wants(moved.is_heard() and one.challenged(), "one whose key is the same has moved")
    configured, closed = Stranger(server.port, 77), Stranger(server.port, 501)
    configured.proof(challenge, 77)
    configured.frame()
    closed.frame(port=21)
    wants(
        configured.answers() == [] and closed.answers() == [], "a configured number and a closed port aren't answered"
    )
    found = figures(server.stop())
    wants(found["learnt"] == 1 and found["moved"] == 1 and len(log.read_text().split()) == 3, f"{found}")
    return f"{found['challenges']} challenges"


def state(built: Built, folder: pathlib.Path) -> str:
    """A state folder gives each start a life of its own and the rest of the silence, whatever happened before."""
    place, quiet, program = folder / "state" / "of" / "1", 3 * 482 + 450 + 5, built("ends")
    server = End(program, "serve", "next", host=HOST, node=2, learns=10)

    def begin(**keys: object) -> End:
        return End(
            program,
            "ask",
            "next",
            **{
                "host": HOST,
                "node": 1,
                "peer": 2,
                "peer_port": server.port,
                "count": 10**6,
                "state": place,
                "timeout": 20000,
                **keys,
            },
        )

    def refused(**keys: object) -> str:
        try:
            begin(**keys).kill()
        except AssertionError as why:
            return str(why)
        raise AssertionError("it isn't refused")

    def last() -> str:
        return (place / "last").read_text()

    def until() -> int:
        return int(re.search(r"until (\d{20})", last())[1])

    client = begin()
    wants((client.life, client.silent) == (1, 0), "the first start")
    wants(
        (place / "state").read_text()
        == checked("deltat state 1\nnode 1\nparams 482 450 5 90 180 1408 65536 65536 65536 2147483648 0\nlife 1\n"),
        "the form of state",
    )
    wants(f"is in use by process {client.process.pid};" in refused(), "a second process is refused")
    time.sleep(1)
    wants(until() >= boottime() - 50, "what is promised is ahead")
    client.kill()
    wants(
        last() == checked("".join(last().splitlines(keepends=True)[:4])) and len(last()) == 125,
        f"the form of last: {last()}",
    )
    begun = boottime()
    client = begin(count=1)
    wants(
        client.life == 2 and quiet - (boottime() - begun) - 20 <= client.silent <= quiet + quiet // 4,
        f"after a kill: {client.silent}",
    )
    wants(figures(client.ended())["answered"] == 1, "after the silence calls are answered")
    ended = until()
    wants(ended <= boottime(), "a node that is closed promises nothing ahead")
    time.sleep(0.5)
    client = begin(count=0)
    wants(client.life == 3 and client.silent <= quiet - 500, f"the rest of the silence alone: {client.silent}")
    client.ended()
    wants(until() == ended, "a start that is ended in its silence doesn't begin it anew")
    wants(
        "of node 1, and this is node 3" in refused(node=3) and "r was 450 and is 451" in refused(r=451),
        "other nodes and other parameters",
    )
    client = begin(count=0, r=451, flags=16)
    wants(client.life == 4 and client.silent > 1800, "parameters that were changed")
    client.ended()
    for name in ("last", "state"):
        (place / name).write_text((place / name).read_text().replace("1", "2", 1))
        client = begin(count=0, r=451)
        wants(client.silent > 1800, f"{name} is damaged: {client.silent}")
        client.ended()
    wants(client.life > 1 << 31 and (place / "state.damaged").exists(), f"a life that is drawn: {client.life}")
    client = begin(count=1, r=451)
    client.ended()
    (place / "last").write_text(
        checked(
            "\n".join(last().splitlines()[:4]).replace(
                re.search("boot (.*)", last())[1], "1" * 8 + "-1111-1111-1111-" + "1" * 12
            )
            + "\n"
        )
    )
    time.sleep(1)
    client = begin(count=0, r=451)
    wants(client.silent > 1800, f"before the machine started: {client.silent}")
    client.ended()
    server.stop()
    return f"lives 1 to {client.life}"


def objects(built: Built, folder: pathlib.Path) -> str:
    """Objects of every size arrive whole, once, and are those that were sent, at 0 and 1 % loss; one too great is
    refused."""
    log, taken = folder / "objects.log", 0
    with subprocess.Popen(
        [built("objects"), "take", HOST, "0", "8", "5000000", str(log)], stdout=subprocess.PIPE, text=True
    ) as taker:
        port = int(taker.stdout.readline().split()[1])
        relay = Relay(0.01, port)
        relay.start()
        for way in (port, relay.near_port):
            for octets, count in ((0, 2), (1, 2), (6971, 2), (6972, 2), (6973, 2), (500000, 2), (50000, -10)):
                words = [built("objects"), "put", HOST, str(way), "8", str(octets), str(count)]
                ran = subprocess.run(words, capture_output=True, text=True, timeout=2 * PATIENCE, check=True)
                wants(
                    [it.split()[0] for it in ran.stdout.splitlines()] == ["put"] * abs(count),
                    f"{octets} octets: {ran.stdout}",
                )
                taken += abs(count)
        ran = subprocess.run(
            [built("objects"), "put", HOST, str(port), "8", "5000001", "1"],
            capture_output=True,
            text=True,
            timeout=PATIENCE,
            check=True,
        )
        wants(ran.stdout.startswith("full "), f"too great: {ran.stdout}")
        relay.over = True
        time.sleep(0.3)
        taker.send_signal(signal.SIGTERM)
        wants(taker.wait(PATIENCE) == 0, "the taker ends well")
    found = [it.split() for it in log.read_text().splitlines()]
    wants(all(it[0] == "whole" for it in found), "an object isn't what was sent")
    wants(len({it[1] for it in found}) == len(found) == taken, f"{len(found)} objects were taken, of {taken}")
    return f"{taken} objects, {relay.lost} datagrams lost"


CASES: list[Callable[[Built, pathlib.Path], str]] = [
    examples,
    loops,
    switches,
    every_address,
    loss,
    killed,
    stopped,
    forked,
    threads,
    driven,
    stamps,
    acks,
    room,
    narrow,
    learnt,
    masqueraded,
    rebinds,
    forgers,
    state,
    objects,
]


def main() -> int:
    reads = argparse.ArgumentParser(description=__doc__, formatter_class=argparse.RawDescriptionHelpFormatter)
    reads.add_argument("cases", nargs="*", metavar="CASE", help=", ".join(it.__name__ for it in CASES))
    reads.add_argument("--clients", type=int, default=CLIENTS, metavar="N", help="behind a gateway (%(default)s)")
    given = reads.parse_args()
    globals()["CLIENTS"] = given.clients
    if not COMPILER:
        skip("there is no compiler of C")
    if not ARCHIVE.exists():
        skip(f"there is no {ARCHIVE.relative_to(TOP)}: make -C lib")
    failed = 0
    with tempfile.TemporaryDirectory(prefix="deltat-udp-") as name:
        built = Built(pathlib.Path(name))
        for it in CASES:
            if given.cases and it.__name__ not in given.cases:
                continue
            begun = time.monotonic()
            try:
                said = it(built, pathlib.Path(name))
            except (AssertionError, subprocess.TimeoutExpired) as why:
                said, failed = f"FAILED: {why}", failed + 1
            print(f"{it.__name__}: {said} ({time.monotonic() - begun:.1f} s)", flush=True)
    return 1 if failed else 0


if __name__ == "__main__":
    sys.exit(main())
