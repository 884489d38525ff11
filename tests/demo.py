#!/usr/bin/env python3
"""tools/demo.py in a headless Chromium and in a terminal: `tests/demo.py [PROGRAM] [--shots FOLDER] [--picture FILE]`.

- Each key and each button is pressed, as a reader does it; the move that it makes is compared. By Tab and Enter alone
  an order is made and delivered, and wherever the focus stops it can be seen.
- The shows beat whom they should beat, and never Delta-t; so does a slow network.
- The log and the schedule at the end are those of the program; the file that is kept is replayed and played on.
- At six widths, light and dark: nothing is cut off or hides another, and texts have enough contrast.
- The server refuses other hosts, other origins and what isn't a move. The terminal plays the same game.

With --shots or --picture only screenshots are written. One line a case, and then how many hold. Status 1 if one
fails, 77 if there is no Chromium.

In tests/all: PROGRAM, 900 s."""
import argparse
import base64
import http.client
import json
import os
import re
import shutil
import socket
import subprocess
import sys
import tempfile
import time
from pathlib import Path
from types import TracebackType
from typing import Any

from lib import PROGRAM, TOP, skip, tell

TOOL = TOP / "tools" / "demo.py"
BROWSERS = ("chromium", "chromium-browser", "google-chrome", "google-chrome-stable")
Case = tuple[str, bool, str]


class Page:
    """A page in a Chromium without a window, by its DevTools protocol over two pipes."""

    def __init__(self, browser: str, address: str):
        self.browser, self.address = browser, address
        self.number, self.pending, self.session = 0, b"", ""
        self.events: list[dict[str, Any]] = []

    def __enter__(self) -> "Page":
        self.folder = tempfile.mkdtemp()
        their_in, self.out = os.pipe()
        self.into, their_out = os.pipe()
        words = [
            self.browser,
            "--headless=new",
            "--no-sandbox",
            "--disable-gpu",
            "--hide-scrollbars",
            "--remote-debugging-pipe",
            "--no-first-run",
            f"--user-data-dir={self.folder}",
            "about:blank",
        ]
        command = ["sh", "-c", f'exec "$@" 3<&{their_in} 4>&{their_out}', "sh", *words]
        self.process = subprocess.Popen(
            command, pass_fds=(their_in, their_out), stdout=subprocess.DEVNULL, stderr=subprocess.DEVNULL
        )
        os.close(their_in)
        os.close(their_out)
        target = next(it for it in self.call("Target.getTargets")["targetInfos"] if it["type"] == "page")["targetId"]
        self.session = self.call("Target.attachToTarget", targetId=target, flatten=True)["sessionId"]
        for domain in ("Page", "Runtime", "Log"):
            self.call(f"{domain}.enable")
        return self

    def call(self, method: str, **params: Any) -> dict[str, Any]:
        """Calls a method, and keeps the events that come before its answer."""
        self.number += 1
        asked = {
            "id": self.number,
            "method": method,
            "params": params,
            **({"sessionId": self.session} if self.session else {}),
        }
        os.write(self.out, json.dumps(asked).encode() + b"\0")
        while True:
            while b"\0" not in self.pending:
                octets = os.read(self.into, 1 << 20)
                if not octets:
                    raise RuntimeError(f"{self.browser} ended at {method}")
                self.pending += octets
            line, self.pending = self.pending.split(b"\0", 1)
            told = json.loads(line)
            if told.get("id") == self.number:
                if "error" in told:
                    raise RuntimeError(f"{method}: {told['error']}")
                result: dict[str, Any] = told["result"]
                return result
            self.events.append(told)

    def size(self, width: int, height: int, scheme: str = "light") -> None:
        self.call(
            "Emulation.setDeviceMetricsOverride", width=width, height=height, deviceScaleFactor=1, mobile=width < 600
        )
        features = [
            {"name": "prefers-color-scheme", "value": scheme},
            {"name": "prefers-reduced-motion", "value": "reduce"},
        ]
        self.call("Emulation.setEmulatedMedia", features=features)

    def open(self, ready: str = "view !== null") -> None:
        self.call("Page.navigate", url=self.address)
        self.wait(f"document.readyState === 'complete' && typeof view !== 'undefined' && ({ready})")

    def value(self, script: str) -> Any:
        """The value of an expression of the page; a promise is waited for."""
        told = self.call("Runtime.evaluate", expression=script, returnByValue=True, awaitPromise=True)
        if "exceptionDetails" in told:
            raise RuntimeError(f"{script}: {told['exceptionDetails'].get('exception', {}).get('description')}")
        return told["result"].get("value")

    def wait(self, script: str, seconds: float = 30) -> None:
        until = time.monotonic() + seconds
        while time.monotonic() < until:
            try:
                if self.value(script):
                    return
            except RuntimeError:
                pass  # the page is being opened
            time.sleep(0.02)
        raise RuntimeError(f"{script} isn't so after {seconds:.0f} s")

    def settle(self) -> None:
        """Waits until the moves that were asked for are done."""
        self.value("(async () => { let it; do { it = queue; await it; } while (it !== queue); })()")

    def key(self, key: str) -> None:
        """Presses a key as a reader does."""
        code = {"Tab": 9, "Enter": 13, "ArrowLeft": 37, "ArrowRight": 39, " ": 32}.get(key, ord(key.upper()[0]))
        text = {"Enter": "\r", " ": " "}.get(key, key if len(key) == 1 else "")
        extra = {"text": text} if text else {}
        self.call(
            "Input.dispatchKeyEvent",
            type="keyDown" if text else "rawKeyDown",
            key=key,
            windowsVirtualKeyCode=code,
            **extra,
        )
        self.call("Input.dispatchKeyEvent", type="keyUp", key=key, windowsVirtualKeyCode=code)
        self.settle()

    def click(self, selector: str) -> None:
        """Clicks at the middle of an element, as a mouse does."""
        place = self.value(
            f"(() => {{ const it = document.querySelector({json.dumps(selector)});"
            " it.scrollIntoView({ block: 'nearest' }); const b = it.getBoundingClientRect();"
            " return [b.left + b.width / 2, b.top + b.height / 2]; })()"
        )
        for kind in ("mousePressed", "mouseReleased"):
            self.call("Input.dispatchMouseEvent", type=kind, x=place[0], y=place[1], button="left", clickCount=1)
        self.settle()

    def shot(self, path: Path) -> None:
        path.write_bytes(base64.b64decode(self.call("Page.captureScreenshot", format="png")["data"]))

    def __exit__(
        self, kind: type[BaseException] | None, why: BaseException | None, where: TracebackType | None
    ) -> None:
        os.close(self.out)
        os.close(self.into)
        try:
            self.process.wait(5)
        except subprocess.TimeoutExpired:
            self.process.kill()
            self.process.wait()
        shutil.rmtree(self.folder, ignore_errors=True)


class Served:
    """tools/demo.py with its page."""

    def __init__(self, program: str, *words: str):
        self.command = [sys.executable, str(TOOL), "--no-browser", "--program", program, *words]

    def __enter__(self) -> str:
        self.process = subprocess.Popen(self.command, stdout=subprocess.PIPE, stderr=subprocess.PIPE, text=True)
        assert self.process.stdout
        line = self.process.stdout.readline()
        return line.split()[-1] if line else ""

    def __exit__(
        self, kind: type[BaseException] | None, why: BaseException | None, where: TracebackType | None
    ) -> None:
        self.process.terminate()
        self.process.communicate()


# what each key does to a run, by what the page asks of the server: before it, the key, and the move that it adds
KEYS: list[tuple[list[str], str, str]] = [
    ([], "o", "order"),
    (["order"], "d", "deliver dispenser"),
    (["order"], "l", "lose dispenser"),
    (["order"], "t", "twice dispenser"),
    (["order"], "h", "hold dispenser"),
    (["order"], "y", "delay dispenser"),
    (["order", "hold dispenser"], "r", "release dispenser"),
    (["order", "deliver dispenser"], "d", "deliver client"),
    (["order"], "w", "wait 1000"),
    (["order"], "e", "wait 10000"),
    ([], "c", "kill client"),
    (["kill client"], "c", "start client"),
    ([], "k", "kill dispenser"),
    (["kill dispenser"], "k", "start dispenser"),
]
WIDTHS = ((1440, 900), (1100, 760), (1024, 768), (800, 1000), (390, 844), (320, 640))
# what is wrong with the layout of a page
LAYOUT = """(() => {
  const wrong = [];
  const name = (it) => it.dataset.do || it.dataset.show || it.id || it.className || it.textContent;
  const there = (it) => it.getClientRects().length > 0;
  const box = (it) => it.getBoundingClientRect();
  const beside = (p, q, x) => p.left >= q.right - x || q.left >= p.right - x;
  const meet = (p, q, x, y) => !beside(p, q, x) && p.top < q.bottom - y && q.top < p.bottom - y;
  const hiding = (all, x, y) => all.forEach(([a, p], i) => all.slice(i + 1).forEach(([b, q]) => {
    if (meet(p, q, x, y)) wrong.push(`${a} hides ${b}`);
  }));
  const wide = document.documentElement.scrollWidth;
  if (wide > innerWidth) wrong.push(`the page is ${wide} wide`);
  const buttons = [...document.querySelectorAll("button, .ways label, #guide, .more label")].filter(there);
  for (const it of buttons) {
    if (it.scrollWidth > it.clientWidth + 1 && it.clientWidth) wrong.push(`${name(it)} is cut off`);
    if (it.scrollHeight > it.clientHeight + 1 && it.clientHeight) wrong.push(`${name(it)} is too low`);
    if (it.tagName === "BUTTON" && box(it).height < 24) wrong.push(`${name(it)} is too small`);
  }
  hiding(buttons.filter((it) => it.closest("#controls")).map((it) => [name(it), box(it)]), 1, 1);
  for (const it of [...document.querySelectorAll(".chip")].filter(there)) {
    if (box(it.querySelector("text")).width > box(it.firstChild).width) wrong.push(`${it.textContent} leaves its chip`);
  }
  for (const svg of [...document.querySelectorAll(".lane svg")].filter(there)) {
    const words = [...svg.querySelectorAll("text")].map((it) => [it.textContent, box(it)]), frame = box(svg);
    for (const [text, it] of words) {
      if (it.left < frame.left - 1 || it.right > frame.right + 1) wrong.push(`${text} leaves its lane`);
    }
    hiding(words, 2, 3);
  }
  return wrong;
})()"""
# the least contrast of texts, by the colours that they have, after WCAG 2
CONTRAST = """(() => {
  const linear = (x) => x <= .04045 ? x / 12.92 : ((x + .055) / 1.055) ** 2.4;
  const light = (colour) => {
    const [r, g, b] = colour.match(/[\\d.]+/g).slice(0, 3).map((it) => linear(it / 255));
    return .2126 * r + .7152 * g + .0722 * b;
  };
  const under = (it) => {
    for (let at = it; at; at = at.parentElement) {
      const colour = getComputedStyle(at).backgroundColor;
      if (!/, 0\\)$|transparent/.test(colour)) return colour;
    }
    return "rgb(255, 255, 255)";
  };
  const texts = "h1, h2, h3, p, b, label, legend, td, th, pre, code, kbd, button, .badge, .tally span, .ends span";
  let least = 99, where = "";
  for (const it of document.querySelectorAll(texts)) {
    if (!it.getClientRects().length || !it.textContent.trim() || it.closest(":disabled, .unseen")) continue;
    const a = light(getComputedStyle(it).color), b = light(under(it));
    const ratio = (Math.max(a, b) + .05) / (Math.min(a, b) + .05);
    if (ratio < least) { least = ratio; where = it.textContent.slice(0, 30); }
  }
  return [least, where];
})()"""
# what has the focus, and how that is marked
FOCUS = """(() => {
  const it = document.activeElement, look = getComputedStyle(it.closest(".ways label") || it);
  const name = it.dataset.do || it.dataset.show || it.id || it.name || it.dataset.lane || it.tagName;
  return [name, look.outlineStyle, look.outlineWidth];
})()"""
# runs whose pictures are looked at
HELD = [
    "order",
    "twice dispenser",
    "hold client",
    "delay client",
    "kill client",
    "start client",
    "order",
    "kill dispenser",
]
UNSURE = ["order", "lose dispenser", "wait 10000", "wait 10000", "order", "kill client", "start client", "order"]


def run_of(page: Page, moves: list[str]) -> None:
    """Makes these the moves of the run."""
    page.value("showing += 1")
    page.value(f"(by('end').hidden = true, way = 'dispenser', become(() => {json.dumps(moves)}))")
    page.settle()


def state(page: Page) -> dict[str, Any]:
    """What the page has of each lane: whether it is beaten, and its cups."""
    lanes = page.value(
        "view.lanes.map((it) => [it.id, it.fault, it.orders.map((o) => o.cups), it.orders.map((o) => o.state)])"
    )
    return {name: (fault, cups, states) for name, fault, cups, states in lanes}


def keys(page: Page) -> list[Case]:
    """Each key, and the way that arrows choose."""
    page.open()
    wrong = []
    for before, key, move in KEYS:
        run_of(page, before)
        page.key(key)
        moves = page.value("moves")
        if moves != [*before, move]:
            wrong.append(f"{key} after {before} gave {moves}")
    run_of(page, ["order", "deliver dispenser", "wait 10000"])
    ways = []
    for key in ("ArrowLeft", "ArrowRight"):
        page.key(key)
        ways.append(page.value("[way, document.querySelector('[name=way]:checked').value]"))
    run_of(page, ["order", "wait 1000"])
    page.key("u")
    undone = page.value("moves")
    page.key("j")
    is_judged = page.value("!by('end').hidden && document.activeElement === by('end')")
    page.key("n")
    anew = page.value("[moves.length, by('end').hidden, by('welcome').hidden]")
    rest = (
        ways == [["client", "client"], ["dispenser", "dispenser"]]
        and undone == ["order"]
        and is_judged
        and anew == [0, True, False]
    )
    page.value("by('keys').click()")
    page.key("o")
    silent = page.value("moves.length") == 0
    page.value("by('keys').click()")
    return [
        ("keys", not wrong, "; ".join(wrong) or f"{len(KEYS)} keys"),
        ("arrows, undo, judge, new", rest, f"{ways}, {undone}, {is_judged}, {anew}"),
        ("keys that are turned off", silent, ""),
    ]


def tabs(page: Page) -> list[Case]:
    """By Tab and Enter alone: an order and its delivery; each place where the focus stops is seen."""
    page.open()
    stops, unseen = [], []
    for _ in range(60):
        page.key("Tab")
        it = page.value(FOCUS)
        if it[0] == "BODY":
            break
        stops.append(it[0])
        if it[1] == "none" or it[2] == "0px":
            unseen.append(it[0])
        if it[0] == "order" and page.value("moves.length") == 0:
            page.key("Enter")
        if it[0] == "deliver" and page.value("moves.length") == 1:
            page.key("Enter")
    moves = page.value("moves")
    return [
        (
            "tab and enter",
            moves == ["order", "deliver dispenser"] and not unseen,
            f"{moves}, {len(stops)} stops, no mark at {unseen}",
        )
    ]


def button_of(move: str) -> str:
    """The button that makes a move."""
    word, _, side = move.partition(" ")
    return move if word == "wait" else side if word in ("kill", "start") else word


def buttons(page: Page) -> list[Case]:
    """Each button of a move, by mouse."""
    page.open()
    wrong = []
    for before, _, move in KEYS:
        run_of(page, before)
        page.click(f'#controls [data-do="{button_of(move)}"]')
        if page.value("moves") != [*before, move]:
            wrong.append(f"{button_of(move)} after {before} gave {page.value('moves')}")
    pressed = {button_of(move) for _, _, move in KEYS} | {"undo", "judge", "new", "wait 250000"}  # the last in `others`
    missing = set(page.value("all('[data-do]').map((it) => it.dataset.do)")) - pressed
    return [("buttons", not wrong and not missing, "; ".join(wrong) or f"{len(pressed)} pressed, not {missing}")]


def others(page: Page) -> list[Case]:
    """Each other control, by mouse: what is clicked, and what holds then."""
    page.open()
    steps = [
        ('#welcome [data-do="order"]', "moves.length === 1"),
        ("[name=way][value=client]", "way === 'client'"),
        (".chip", "way === 'dispenser'"),
        ('[data-do="undo"]', "moves.length === 0"),
        ('#controls [data-do="order"]', "by('end').hidden"),
        ('[data-do="judge"]', "!by('end').hidden"),
        ("#on", "by('end').hidden"),
        ('[data-do="new"]', "moves.length === 0 && !by('welcome').hidden"),
        ("#slow", "slow && !by('long').hidden"),
        ("#long", "moves.join() === 'wait 250000'"),
        ("#slow", "!slow && moves.length === 0 && by('long').hidden"),
        ('.head[data-lane="coap"]', "lane === 'coap'"),
    ]
    wrong = []
    for selector, holds in steps:
        page.click(selector)
        if not page.value(holds):
            wrong.append(f"{selector}: not {holds}")
    return [("other controls", not wrong, "; ".join(wrong) or f"{len(steps)} clicks")]


def shows(page: Page) -> list[Case]:
    """What the three shows lead to, each by its button and by its key."""
    want = [{"http"}, {"http", "keys", "coap"}, {"http", "keys", "coap"}]
    cases = []
    for place, beaten in enumerate(want):
        for how in ("button", "key"):
            page.open()
            if how == "button":
                page.click(f'#controls [data-show="{place}"]')
            else:
                page.key(str(place + 1))
            page.wait(f"moves.length === SHOWS[{place}].length")
            page.settle()
            told = state(page)
            found = {name for name, (fault, _, _) in told.items() if fault}
            good = found == beaten and told["deltat"][1] == [1] and page.value("view.verdict") == "audit yes"
            cases.append((f"show {place + 1} by {how}", good, f"beaten: {', '.join(sorted(found))}"))
    return cases


def slow(page: Page) -> list[Case]:
    """A packet of CoAP that is held for longer than its identifier is remembered; and the same in 5 s."""
    moves = ["order", "twice dispenser", "deliver client", "wait 250000", "release dispenser"]
    told = []
    for is_slow in (True, False):
        page.value(f"become(() => {json.dumps(moves)}, {json.dumps(is_slow)})")
        page.settle()
        told.append(state(page))
    good = told[0]["coap"][1] == [2] and told[0]["deltat"][1] == [1] and told[1]["coap"][1] == [1]
    return [("slow", good, f"{told[0]['coap'][0]}; within 5 s {told[1]['coap'][1]} cup")]


def kept_by(page: Page, folder: Path) -> Path:
    """The file that the page keeps, by its button."""
    page.call("Browser.setDownloadBehavior", behavior="allow", downloadPath=str(folder))
    page.click("#save")
    path, until = folder / "network.schedule", time.monotonic() + 20
    while not (path.exists() and path.stat().st_size) and time.monotonic() < until:
        time.sleep(0.05)
    return path


def ends(page: Page, program: str, folder: Path) -> list[Case]:
    """The verdict, the log and the schedule; the file that is kept, replayed, audited and played on."""
    page.open()
    page.value("become(() => SHOWS[1])")
    page.key("j")
    title = page.value("by('end-title').textContent")
    kept = kept_by(page, folder)
    page.click("#copy")
    schedule, log = page.value("[by('schedule').textContent, by('log').textContent]")
    ran = subprocess.run([program, "replay"], input=kept.read_bytes(), capture_output=True, check=False)
    audit = subprocess.run([program, "audit"], input=ran.stdout, capture_output=True, check=False).stdout
    good = (
        ran.returncode == 0 and ran.stdout.decode() == log and kept.read_text() == schedule and audit == b"audit yes\n"
    )
    cases = [("end", good and title == "You beat HTTP, HTTP+keys and CoAP, and not Delta-t", title)]
    with Served(program, str(kept)) as address:
        page.address = address
        page.open("moves.length > 0")
        page.settle()
        same = page.value("JSON.stringify(moves) === JSON.stringify(SHOWS[1])")
        cases.append(("played on", same and page.value("view.schedule") == schedule, ""))
    page.key("o")
    told = page.value("by('fault').textContent")
    return [*cases, ("server that ended", "Is tools/demo.py still running?" in told, told)]


def looks(page: Page, address: str) -> list[Case]:
    """Layout and contrast at each width, light and dark; screenshots differ and aren't empty."""
    page.address = address
    wrong: list[str] = []
    papers: set[tuple[str, str]] = set()
    least = (99.0, "")
    for width, height in WIDTHS:
        for scheme in ("light", "dark"):
            page.size(width, height, scheme)
            page.open()
            for moves in (
                "[]",
                "['order']",
                "SHOWS[0].slice(0, 6)",
                "SHOWS[1]",
                str(HELD),
                str(UNSURE),
            ):
                page.value(f"become(() => {moves})")
                page.settle()
                wrong += [f"{width} {scheme} {moves}: {it}" for it in page.value(LAYOUT)]
            page.value("judge()")
            ratio, where = page.value(CONTRAST)
            least = min(least, (ratio, where))
            wrong += [f"{width} {scheme} judged: {it}" for it in page.value(LAYOUT)]
            papers.add((scheme, page.value("getComputedStyle(document.body).backgroundColor")))
    page.size(1440, 900)
    return [
        ("layout", not wrong, "; ".join(wrong[:6]) or f"{len(WIDTHS)} widths, light and dark"),
        ("contrast", least[0] >= 4.5, f"{least[0]:.2f} at least, of {least[1]!r}"),
        ("light and dark", len(papers) == 2, str(sorted(papers))),
    ]


def quiet(page: Page) -> list[Case]:
    """Nothing of the page failed, and it names nothing that it would fetch."""
    bad = [
        it["params"]
        for it in page.events
        if it["method"] == "Runtime.exceptionThrown"
        or it["method"] == "Log.entryAdded"
        and it["params"]["entry"]["level"] == "error"
        and "favicon" not in it["params"]["entry"].get("url", "")
        and "Failed to load resource" not in it["params"]["entry"]["text"]
    ]
    text = (TOP / "tools" / "demo.html").read_text()
    named = [
        it
        for it in re.findall(r"https?://[^\s\"'<)]*|@import|url\(|\bsrc=|<link", text)
        if it != "http://www.w3.org/2000/svg"
    ]
    return [("no fault of the page", not bad, str(bad)[:300]), ("no dependency", not named, str(named))]


def server(address: str) -> list[Case]:
    """What the server refuses."""
    host = address.split("/")[2]
    json_type = {"Content-Type": "application/json"}
    cases: list[tuple[str, str, str, dict[str, str], str | None, int, str]] = [
        ("page", "GET", "/", {}, None, 200, "You are the network"),
        ("path", "GET", "/etc/passwd", {}, None, 404, "only /"),
        ("other host", "GET", "/", {"Host": "example.org"}, None, 403, "127.0.0.1"),
        ("other origin", "POST", "/play", {**json_type, "Origin": "http://example.org"}, "{}", 403, "this page"),
        ("form", "POST", "/play", {"Content-Type": "text/plain"}, '{"moves": []}', 403, "JSON"),
        ("no JSON", "POST", "/play", json_type, "{", 400, "isn't JSON"),
        ("deep", "POST", "/play", json_type, "[" * 60_000, 400, "isn't JSON"),
        ("no moves", "POST", "/play", json_type, "[]", 400, "no list of moves"),
        ("numbers", "POST", "/play", json_type, '{"moves": [1]}', 400, "no list of moves"),
        ("a move", "POST", "/play", json_type, '{"moves": ["fly"]}', 400, "the move is 'fly'"),
        ("a wait", "POST", "/play", json_type, '{"moves": ["wait 150"]}', 400, "multiple of 100"),
        ("long waits", "POST", "/play", json_type, json.dumps({"moves": ["wait 300000"] * 13}), 400, "begin a new one"),
        ("many moves", "POST", "/play", json_type, json.dumps({"moves": ["lose client"] * 401}), 400, "400 moves"),
        ("size", "POST", "/play", json_type, " " * 70_000, 403, "65536"),
        ("after these", "POST", "/play", json_type, '{"moves": ["order"]}', 200, "order 1"),
    ]
    told = []
    for name, method, path, headers, body, status, want in cases:
        link = http.client.HTTPConnection(host, timeout=60)
        link.request(method, path, body, headers)
        answer = link.getresponse()
        text = answer.read().decode()
        policy = "default-src 'none'" in answer.getheader("Content-Security-Policy", "")
        told.append(
            (
                f"server: {name}",
                answer.status == status and want in text and policy,
                f"{answer.status} {text[:80] if answer.status != status else ''}",
            )
        )
        link.close()
    return told


def terminal(program: str, folder: Path) -> list[Case]:
    """The game in a terminal: the same moves give the same schedule; bad lines get an error, and the game goes on."""
    kept = folder / "typed.schedule"
    lines = [*"o|d>|k>|s>|l<|l<|w 4|fly|w|u|w x|d|d>|d>".split("|"), f"save {kept}", "save /nowhere/x", "?", ""]
    command = [sys.executable, str(TOOL), "--terminal", "--program", program]
    ran = subprocess.run(command, input="\n".join(lines), capture_output=True, text=True, timeout=60, check=False)
    moves = [it[7:] for it in kept.read_text().splitlines() if it.startswith("# move ")]
    want = "order|deliver dispenser|kill dispenser|start dispenser|lose client|lose client|wait 4000".split("|")
    errors = ran.stdout.count("demo.py:")
    good = ran.returncode == 0 and moves == [*want, "deliver dispenser", "deliver dispenser"] and errors == 4
    good = good and "1: 2! waiting" in ran.stdout and ran.stdout.rstrip().endswith("audit yes")
    again = subprocess.run([*command, str(kept)], input="q\n", capture_output=True, text=True, timeout=60, check=False)
    same = kept.read_text() in again.stdout
    return [
        ("terminal", good, f"{len(moves)} moves, {errors} errors, {ran.stderr[-200:]}"),
        ("terminal again", same, ""),
    ]


def bad(program: str, folder: Path) -> list[Case]:
    """Wrong words get an error and status 2."""
    (folder / "no").write_text("params 1\n")
    (folder / "wrong").write_text("# move fly\n")
    (folder / "binary").write_bytes(b"\xff\xfe")
    with socket.socket() as taken:
        taken.bind(("127.0.0.1", 0))
        taken.listen()
        cases = [
            ("file", [str(folder / "nothing")], "No such file"),
            ("schedule", [str(folder / "no")], "give one that this tool made"),
            ("moves", [str(folder / "wrong")], "the move is 'fly'"),
            ("octets", [str(folder / "binary")], "decode"),
            ("port", ["--port", str(taken.getsockname()[1])], "choose another --port"),
            ("range", ["--port", "70000"], "must be from"),
            ("program", ["--program", "/nowhere/deltat"], "./build"),
            ("another program", ["--program", "/bin/true"], "ended with 0"),
        ]
        told = []
        for name, words, want in cases:
            command = [sys.executable, str(TOOL), "--no-browser", "--program", program, *words]
            ran = subprocess.run(command, capture_output=True, text=True, timeout=60, check=False)
            good = ran.returncode == 2 and want in ran.stderr and "Traceback" not in ran.stderr
            told.append((f"bad {name}", good, "" if good else f"{ran.returncode} {ran.stderr[-200:]}"))
    return told


def shots(page: Page, folder: Path) -> None:
    """Screenshots to look at."""
    folder.mkdir(parents=True, exist_ok=True)
    for width, height in ((1440, 900), (390, 844), (800, 1000)):
        for scheme in ("light", "dark"):
            page.size(width, height, scheme)
            page.open()
            page.shot(folder / f"{width}-{scheme}-0-start.png")
            page.key("o")
            page.shot(folder / f"{width}-{scheme}-1-order.png")
            for place in range(3):
                page.value(f"become(() => SHOWS[{place}])")
                page.settle()
                page.shot(folder / f"{width}-{scheme}-2-show{place}.png")
            page.value(f"become(() => {HELD})")
            page.settle()
            page.shot(folder / f"{width}-{scheme}-5-held.png")
            page.value(f"become(() => {UNSURE})")
            page.settle()
            page.shot(folder / f"{width}-{scheme}-6-unsure.png")
            page.value("become(() => SHOWS[0].slice(0, 6))")
            page.settle()
            page.shot(folder / f"{width}-{scheme}-3-middle.png")
            page.value("become(() => SHOWS[0])")
            page.settle()
            page.value("judge()")
            time.sleep(0.3)
            page.shot(folder / f"{width}-{scheme}-4-end.png")


def picture(page: Page, path: Path) -> None:
    """The picture of README: a dispenser that was killed after it poured."""
    page.size(1260, 880)
    page.open()
    page.value("become(() => SHOWS[1].slice(0, -1))")
    page.settle()
    page.shot(path)


def main() -> int:
    reads = argparse.ArgumentParser()
    reads.add_argument("program", nargs="?", default=str(PROGRAM))
    reads.add_argument("--shots", type=Path, metavar="FOLDER", help="write screenshots there, and test nothing")
    reads.add_argument(
        "--picture", type=Path, metavar="FILE", help="write the picture of the pages there, and test nothing"
    )
    given = reads.parse_args()
    browser = next((found for it in BROWSERS if (found := shutil.which(it))), "")
    if not browser:
        skip("there is no Chromium: apt-get install chromium")
    program = os.path.abspath(given.program)
    with Served(program) as address, Page(browser, address) as page, tempfile.TemporaryDirectory() as place:
        if given.shots or given.picture:
            if given.shots:
                shots(page, given.shots)
            if given.picture:
                picture(page, given.picture)
            return 0
        folder = Path(place)
        page.size(1440, 900)
        cases = [
            *keys(page),
            *tabs(page),
            *buttons(page),
            *others(page),
            *shows(page),
            *slow(page),
            *looks(page, address),
            *ends(page, program, folder),
            *quiet(page),
        ]
        cases += [*server(address), *terminal(program, folder), *bad(program, folder)]
    return tell(cases)


if __name__ == "__main__":
    sys.exit(main())
