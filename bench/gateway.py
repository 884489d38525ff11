#!/usr/bin/env python3
"""What a gateway costs: orders a second and their latency by ab, at the HTTP server itself, through one near and one
far gateway (tools/gateway.py) with journals that sync and that don't, over loopback. `bench/gateway.py [--orders N]`.

The server answers each POST with a few octets. Each row is one run of ab with so many orders under way; the rows take
turns. Orders have no key, so each is noted and called anew."""
import argparse
import os
import pathlib
import re
import subprocess
import sys
import tempfile

TOP = pathlib.Path(__file__).resolve().parent.parent
sys.path.insert(0, str(TOP / "tests"))

import gateway
from lib import HOST

UNDER_WAY = (1, 32)


def asked(url: str, orders: int, under_way: int) -> tuple[float, float, int]:
    """Orders a second, the median latency in ms, and how many failed, by ab."""
    words = ["ab", "-q", "-n", str(orders), "-c", str(under_way), "-p", "body", url]
    said = subprocess.run(words, capture_output=True, text=True, check=True).stdout
    rate, median = re.search(r"Requests per second: +([\d.]+)", said), re.search(r"^ +50% +(\d+)", said, re.MULTILINE)
    failed = re.search(r"Non-2xx responses: +(\d+)", said)
    if rate is None or median is None:
        sys.exit(f"bench/gateway.py: ab wrote no rate: {said}")
    return float(rate[1]), float(median[1]), int(failed[1]) if failed else 0


def show(name: str, url: str, orders: int) -> None:
    for under_way in UNDER_WAY:
        rate, median, failed = asked(url, orders, under_way)
        print(f"{name:26} {under_way:9} {rate:9.0f} {median:9.0f} {failed:7}", flush=True)


def through(sync: bool, orders: int) -> None:
    """Both gateways, with fresh state folders."""
    for name, text in (
        ("near.toml", gateway.near_settings((HOST, HOST), f"{HOST}:{gateway.HTTP}")),
        ("far.toml", gateway.far_settings((HOST, HOST))),
    ):
        folder = f'state = "{name[:-5]}-{sync}"'
        text = re.sub(r'state = "\w+"', folder, text).replace("sync = false", f"sync = {str(sync).lower()}")
        pathlib.Path(name).write_text(text)
    words = (sys.executable, gateway.GATEWAY)
    with gateway.running(*words, "far.toml", keeps=False), gateway.running(*words, "near.toml", keeps=False):
        gateway.waits_until_up((HOST, gateway.HTTP))
        # (until the far gateway is up too)
        while gateway.post("/plain", b"first")[0] != 201:
            continue
        name = "gateways, synced" if sync else "gateways, not synced"
        show(name, f"http://{HOST}:{gateway.HTTP}/plain", orders)


def main() -> int:
    reads = argparse.ArgumentParser(description=__doc__, formatter_class=argparse.RawDescriptionHelpFormatter)
    reads.add_argument("--orders", type=int, default=1_000)
    orders = reads.parse_args().orders
    with tempfile.TemporaryDirectory() as room:
        os.chdir(room)
        pathlib.Path("body").write_text('{"item": 7}')
        print(f"{'way':26} {'under way':>9} {'a second':>9} {'median ms':>9} {'failed':>7}")
        with gateway.running(*gateway.own("--shop", HOST)):
            gateway.waits_until_up((HOST, gateway.SERVER))
            show("the server itself", f"http://{HOST}:{gateway.SERVER}/shop", orders)
            for sync in (False, True):
                through(sync, orders)
        os.chdir("/")
    return 0


if __name__ == "__main__":
    sys.exit(main())
