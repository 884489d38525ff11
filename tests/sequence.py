#!/usr/bin/env python3
"""The pictures of tools/sequence.py in a headless Chromium: `tests/sequence.py [PROGRAM]`.

- picture: the README's picture is what the command in docs/tools.md draws.
- arrows: for schedules with losses, repeats, restarts, relays, queues and long runs, the arrows are those
  that a plain reading of schedule and log gives, each with its copy, stations, moments and packet.
- logs: the logs of the nodes alone, with clocks of their own, give the same arrows.
- one: so does the log of one node, as far as it goes.
- layout: no text hides another or is cut off, in any of these pictures.
- page: files that are dropped into tools/sequence.html give the picture of the tool; what is no log is told.
- look: a screenshot is light where light is wanted and dark where dark is, and not empty.
- alone: no page names anything that it would fetch.

One line a case, and then how many hold. Status 1 where one fails, 77 where no Chromium is there.

In tests/all: PROGRAM, 900 s."""
import argparse
import html
import json
import os
import pathlib
import re
import subprocess
import sys
import tempfile
import xml.dom.minidom
import zlib
from collections import Counter
from typing import NamedTuple

ROOT = pathlib.Path(__file__).resolve().parent.parent
sys.path.insert(0, str(ROOT / "tools"))
import sequence  # noqa: E402

PICTURE = ROOT / "docs" / "pictures" / "loss-repeat-restart.svg"
EXAMPLE = ROOT / "examples" / "loss-repeat-restart.schedule"
SETUP = "params 1000 3000 200 500 800 100 4096 4096 512 2147483648\nstation 1 0\nstation 2 0\n"
RELAY = SETUP + """station 3 0
link 1 1 3 50 0
link 2 3 2 50 20
link 3 2 3 50 0
link 4 3 1 50 0
route 1 2 1
route 1 3 1
route 3 2 2
route 3 1 4
route 2 1 3
route 2 3 3
go
send 1:10>2:20 be 68656c6c6f
send 1:11>2:21 b 68656c6c6f68656c6c6f68656c6c6f
pass 10
arrive 0
arrive 1
pass 5
arrive 2
pass 20
tick 3
pass 5
arrive 3
arrive 4
read 1:10>2:20 100
send 2:20>1:10 be 776f726c64
arrive 5
arrive 6
pass 20
arrive 6
arrive 7
pass 180
tick 2
lose 8
send 3:5>2:5 be 00
send 2:5>3:5 be 00
pass 10
arrive 11
arrive 12
pass 490
tick 1
restart 3
pass 20
arrive 14
pass 7000
tick 1
tick 2
tick 3
"""
QUEUE = (
    SETUP
    + "link 1 1 2 50 30\nlink 2 2 1 50 0\nroute 1 2 1\nroute 2 1 2\ngo\n"
    + "send 1:10>2:20 be 61\n" * 5
    + "".join(f"pass 30\ntick 1\narrive {i}\n" for i in (0, 2, 4, 6))
)


class Arrow(NamedTuple):
    """An arrow: what its packet is, where it goes, and what became of it."""
    way: str
    packet: str
    fate: str


def replay(program: str, schedule: str) -> str:
    return subprocess.run([program, "replay"], input=schedule.encode(), capture_output=True, check=True).stdout.decode()


def plain(schedule: str, log: str) -> list[Arrow]:
    """The arrows, read in the plainest way: what a `put` line puts is the oldest packet of its station for
    a node that its link leads to, and what becomes of a copy is said by the schedule."""
    links: dict[str, tuple[str, str]] = {}
    routes: dict[tuple[str, str], str] = {}
    words = [line.split(" ") for line in schedule.splitlines() if line and line[0] != "#"]
    for it in words:
        if it[0] == "link":
            links[it[1]] = (it[2], it[3])
        elif it[0] == "route":
            routes[it[1], it[2]] = it[3]
    copies = copies_of(log, links, routes, words)
    fates: dict[int, list[str]] = {number: [] for number in copies}
    now = 0
    for it in words:
        now += int(it[1]) if it[0] == "pass" else 0
        if it[0] == "arrive":
            came = any(fate.startswith("came") for fate in fates[int(it[1])])
            fates[int(it[1])].append(f"came {'once more ' if came else ''}at {now:,} ms")
        elif it[0] == "lose":
            fates[int(it[1])].append(f"lost at {now:,} ms")
    return [
        Arrow(way, packet, fate)
        for number, (way, packet) in copies.items()
        for fate in fates[number] or ["nothing more is told of it"]
    ]


def copies_of(log: str, links: dict, routes: dict, words: list[list[str]]) -> dict[int, tuple[str, str]]:
    """The way and the packet of each copy."""
    queues: dict[tuple[str, str], list[tuple[str, str]]] = {}
    copies: dict[int, tuple[str, str]] = {}
    packets: dict[int, tuple[str, str]] = {}
    passing = passing_of(words)
    for line in log.splitlines():
        it = line.split(" ")
        if len(it) < 3 or not it[0].isdigit():
            continue
        made = re.match(r"(sent|resent|acked|replied|met) (\d+):\d+>(\d+):\d+", " ".join(it[2:]))
        if made:
            ack = made[1] in ("acked", "replied")
            to = made[2] if ack else made[3]
            queues.setdefault((it[1], routes.get((it[1], to), "")), []).append(
                (to, f"{it[3]} {text_of(made[1], it[4:])}")
            )
        elif it[2] == "put":
            queue = queues.setdefault((it[1], it[3]), [])
            if not queue:  # one that passes: the next that came here for a node beyond
                number = next(
                    n
                    for n in passing
                    if n in packets and links_end(copies[n]) == it[1] and routes.get((it[1], packets[n][0])) == it[3]
                )
                passing.remove(number)
                queue.append(packets[number])
            packets[int(it[6])] = queue.pop(0)
            copies[int(it[6])] = (" to ".join(links[it[3]]), packets[int(it[6])][1])
        elif it[2] == "restarted":
            for key in [key for key in queues if key[0] == it[1]]:
                queues[key].clear()
    return copies


def passing_of(words: list[list[str]]) -> list[int]:
    """The arrivals in their order."""
    return [int(it[1]) for it in words if it[0] == "arrive"]


def links_end(copy: tuple[str, str]) -> str:
    return copy[0].split(" to ")[1]


def text_of(word: str, numbers: list[str]) -> str:
    if word in ("acked", "replied"):
        return f"ack {numbers[0]} window {numbers[1]}"
    if word == "met":
        return f"rendezvous {numbers[0]}"
    return f"{'data' if word == 'sent' else 'resent'} {numbers[0]}+{numbers[1]} {numbers[2]}"


def drawn(svg: str) -> list[Arrow]:
    """The arrows of a picture, by what hovering tells."""
    arrows = []
    for title in re.findall(r'<g class="copy [^>]*><title>([^<]*)</title>', svg):
        head, *rest = html.unescape(title).split("\n")
        packet = next((it.split(" ", 1)[1] for it in rest if re.match(r"(sent|resent|acked|replied|met) ", it)), "")
        arrows.append(Arrow(head.split(" from ", 1)[1], packet, rest[-1]))
    return arrows


def picture(program: str) -> tuple[bool, str]:
    texts = sequence.texts_of([str(EXAMPLE)], program)
    same = PICTURE.exists() and PICTURE.read_text(encoding="utf-8") == sequence.picture_of(sequence.page_of(texts))
    return same, f"{PICTURE.name} is {'' if same else 'NOT '}what the tool draws"


def schedules(program: str) -> dict[str, str]:
    """The schedules of all cases by their names."""
    made = {
        f"make {n}": subprocess.run([program, "make", str(n)], capture_output=True, text=True, check=True).stdout
        for n in (1, 40, 200)
    }
    examples = {it.name: it.read_text("ascii") for it in sorted((ROOT / "examples").glob("*.schedule"))}
    return {**examples, "relay": RELAY, "queue": QUEUE, **made}


def svg_of(*texts: str) -> str:
    return sequence.picture_of(sequence.page_of([{"name": f"text {i}", "text": it} for i, it in enumerate(texts)]))


def arrows(program: str) -> tuple[bool, str]:
    count = 0
    for name, schedule in schedules(program).items():
        log = replay(program, schedule)
        told, there = Counter(plain(schedule, log)), Counter(drawn(svg_of(schedule, log)))
        count += sum(told.values())
        if told != there:
            return False, f"{name}: missing {list((told - there))[:3]}, too many {list((there - told))[:3]}"
    return True, f"{count} arrows of {len(schedules(program))} schedules are as told"


def parted(log: str, zeros: dict[str, int]) -> list[str]:
    """The log of a replay as those of its nodes, each with a clock of its own and without copies' numbers."""
    logs: dict[str, list[str]] = {}
    for line in log.splitlines():
        it = line.split(" ")
        if len(it) > 2 and it[0].isdigit() and it[1] != "lost":
            logs.setdefault(it[1], []).append(
                " ".join([str(int(it[0]) + zeros.get(it[1], 0)), *it[1:]]).split(" as ")[0]
            )
    return ["\n".join([*lines, "end 99999"]) + "\n" for lines in logs.values()]


def bare(arrow: Arrow) -> Arrow:
    """An arrow without moments. Where nothing more is told of a copy, logs alone can't tell it from one that was
    lost."""
    fate = "gone" if arrow.fate.startswith(("lost", "no", "nothing")) else arrow.fate.split(" at ")[0]
    return arrow._replace(fate=fate)


def logs(program: str) -> tuple[bool, str]:
    """With two clocks, and with one, that of the replay."""
    count = 0
    for name, clocks in (("make 40", 2), ("make 200", 2), ("make 200", 1), ("loss-repeat-restart.schedule", 1)):
        schedule = schedules(program)[name]
        log = replay(program, schedule)
        files = parted(log, {"2": 5000}) if clocks == 2 else [log]
        told, there = (Counter(map(bare, it)) for it in (plain(schedule, log), drawn(svg_of(*files))))
        # a restarted node that is silent tells that something came, and not what
        heard = sum(line.split(" ")[2:3] == ["quiet"] for line in log.splitlines())
        missing, extra = told - there, there - told
        count += sum(told.values())
        if sum(missing.values()) != heard or sum(extra.values()) != heard or any(it.fate != "gone" for it in extra):
            return False, f"{name} by {clocks} clocks: missing {list(missing)[:3]}, too many {list(extra)[:3]}"
    return True, f"{count} arrows of logs alone are those of their schedules"


def one(program: str) -> tuple[bool, str]:
    schedule = schedules(program)["make 40"]
    log = replay(program, schedule)
    part = parted(log, {})[0]
    there = drawn(svg_of(part))
    left = sum(" put " in line for line in part.splitlines())
    came = sum(
        line.split(" ")[2] in ("settled", "ignored", "accepted", "replied", "dropped")
        for line in part.splitlines()
        if len(line.split(" ")) > 2
    )
    good = sum(it.way == "1 to 2" for it in there) == left and sum(it.way == "2 to 1" for it in there) == came
    return good, f"{left} packets left and {came} came in the log of one node; {len(there)} arrows"


# Each text's box, and what is wrong with it.
CHECK = """<script>
const all = [...document.querySelectorAll("svg text")].map((it) => [it, it.getBoundingClientRect()]);
const boxes = all.filter(([, b]) => b.width);
const frame = document.querySelector("svg").getBoundingClientRect(), wrong = [];
const named = ([it, b]) => [it.firstChild.textContent, b];
const isLabel = ([it]) => it.classList.contains("label");
const straight = boxes.filter((it) => !isLabel(it)).map(named);
const isOutside = (b) => b.left < frame.left || b.right > frame.right || b.top < frame.top || b.bottom > frame.bottom;
for (const [text, b] of boxes.map(named)) if (isOutside(b)) wrong.push("cut off: " + text);
straight.sort((a, b) => a[1].top - b[1].top);
straight.forEach(([text, a], i) => {
  for (let j = i + 1; j < straight.length && straight[j][1].top < a.bottom; j += 1) {
    const b = straight[j][1];
    if (a.left < b.right && b.left < a.right && b.top < a.bottom - 1.5) wrong.push(text + " hides " + straight[j][0]);
  }
});
const place = (it) => {
  const m = it.getScreenCTM(), n = it.getComputedTextLength() / 2, points = [];
  for (let at = -n; at <= n; at += 6) points.push([m.a * at + m.c * -8 + m.e, m.b * at + m.d * -8 + m.f]);
  return points;
};
const labels = boxes.filter(isLabel).map(([it, b]) => [it.textContent, b, place(it)]);
labels.sort((a, b) => a[1].top - b[1].top);
const isNear = (p, q) => Math.hypot(p[0] - q[0], p[1] - q[1]) < 8;
labels.forEach(([text, a, points], i) => {
  for (let j = i + 1; j < labels.length && labels[j][1].top < a.bottom; j += 1) {
    if (points.some((p) => labels[j][2].some((q) => isNear(p, q)))) wrong.push(text + " hides " + labels[j][0]);
  }
});
const told = document.createElement("pre");
told.id = "told";
told.textContent = JSON.stringify({ texts: boxes.length, wrong: wrong.slice(0, 5), count: wrong.length });
document.body.append(told);
</script>"""


def told_by(page: str) -> dict:
    """What a script at the end of a page tells."""
    with tempfile.TemporaryDirectory() as folder:
        path = os.path.join(folder, "page.html")
        pathlib.Path(path).write_text(page, encoding="utf-8")
        dom = sequence.headless(path, "--dump-dom", "--virtual-time-budget=5000", "--window-size=1600,1200").stdout
    found = re.search(r'<pre id="told">([^<]*)</pre>', dom)
    return json.loads(html.unescape(found.group(1))) if found else {}


def layout(program: str) -> tuple[bool, str]:
    texts = 0
    for name, schedule in schedules(program).items():
        log = replay(program, schedule)
        for files in ([schedule, log], parted(log, {"2": 700}), [log]):
            page = sequence.page_of([{"name": f"text {i}", "text": it} for i, it in enumerate(files)])
            told = told_by(page.replace("</body>", CHECK + "</body>"))
            texts += told.get("texts", 0)
            if told.get("count", 1):
                return False, f"{name} ({len(files)} files): {told}"
    return True, f"{texts} texts, none hidden or cut off"


DROP = """<script>
const give = %s;
opened(give.map((it) => new File([it.text], it.name))).then(() => {
  const told = document.createElement("pre");
  const [svg, fault] = [document.getElementById("picture").innerHTML, document.getElementById("fault").textContent];
  told.id = "told";
  told.textContent = JSON.stringify({ svg, fault });
  document.body.append(told);
});
</script>"""


def dropped(texts: list[dict[str, str]]) -> dict:
    """What the page shows where files are dropped into it."""
    page = (ROOT / "tools" / "sequence.html").read_text(encoding="utf-8")
    return told_by(page.replace("</body>", DROP % json.dumps(texts).replace("<", "\\u003c") + "</body>"))


def page(program: str) -> tuple[bool, str]:
    texts = sequence.texts_of([str(EXAMPLE)], program)
    same = dropped(texts).get("svg", "").strip() == sequence.picture_of(sequence.page_of(texts)).strip()
    faults = {
        "no log": [texts[0]],
        "a script": [{"name": "node-1.script", "text": (ROOT / "examples/node-1.script").read_text("ascii")}],
        "noise": [{"name": "noise", "text": "\x00\x01 noise <b>"}],
        "nothing": [{"name": "nothing", "text": ""}],
    }
    told = {name: dropped(it).get("fault", "") for name, it in faults.items()}
    silent = [name for name, it in told.items() if not it]
    refused = replay_fault(program)
    good = same and not silent and refused
    return (
        good,
        (
            f"a drop draws {'the same' if same else 'ANOTHER picture'}; {len(told) - len(silent)} of {len(told)} wrong"
            f" drops are told; a refused schedule is {'drawn with its fault' if refused else 'NOT drawn'}"
        ),
    )


def replay_fault(program: str) -> bool:
    """A schedule that is refused is drawn up to its fault."""
    schedule = EXAMPLE.read_text("ascii") + "arrive 99\n"
    log = subprocess.run([program, "replay"], input=schedule.encode(), capture_output=True, check=False).stdout.decode()
    return "no copy 99" in svg_of(schedule, log)


def pixels(path: str) -> tuple[tuple[int, ...], int]:
    """The first pixel of a PNG, and how long its packed rows are: an empty page packs to little."""
    octets = pathlib.Path(path).read_bytes()
    at, packed = 8, b""
    while at < len(octets):
        length = int.from_bytes(octets[at:at + 4], "big")
        if octets[at + 4:at + 8] == b"IDAT":
            packed += octets[at + 8:at + 8 + length]
        at += 12 + length
    return tuple(zlib.decompress(packed)[1:4]), len(packed)


def look(program: str) -> tuple[bool, str]:
    texts = sequence.page_of(sequence.texts_of([str(EXAMPLE)], program))
    seen = {}
    with tempfile.TemporaryDirectory() as folder:
        path = os.path.join(folder, "page.html")
        pathlib.Path(path).write_text(texts, encoding="utf-8")
        for name, scheme in (("light", 1), ("dark", 0)):
            shot = os.path.join(folder, f"{name}.png")
            sequence.headless(
                path,
                f"--screenshot={shot}",
                "--window-size=1000,700",
                f"--blink-settings=preferredColorScheme={scheme}",
            )
            seen[name] = pixels(shot)
    good = (
        seen["light"][0] == (255, 255, 255)
        and seen["dark"][0] == (18, 22, 28)
        and min(it[1] for it in seen.values()) > 20000
    )
    return good, ", ".join(f"{name}: paper {colour}, {size} octets of picture" for name, (colour, size) in seen.items())


def alone(program: str) -> tuple[bool, str]:
    svg = PICTURE.read_text(encoding="utf-8") if PICTURE.exists() else ""
    texts = sequence.page_of(sequence.texts_of([str(EXAMPLE)], program))
    named = [
        it
        for text in (texts, svg)
        for it in re.findall(
            r"(?:https?:)?//[a-z][^\s\"'<]*|@import|url\(|\bsrc=|\bhref=|\bfetch\(|XMLHttp|WebSocket", text
        )
        if it not in ("http://www.w3.org/2000/svg",) and not it.startswith("// ")
    ]
    xml.dom.minidom.parseString(svg.encode() or b"<none/>")
    kept = "default-src 'none'" in texts and "<script" not in svg
    return not named and kept and bool(svg), f"{named or 'nothing'} is named that would be fetched"


def main() -> int:
    parser = argparse.ArgumentParser(description=__doc__, formatter_class=argparse.RawDescriptionHelpFormatter)
    parser.add_argument(
        "program", nargs="?", default=str(ROOT / "crates/deltat/out/deltat"), help="the program (default: %(default)s)"
    )
    parser.add_argument("only", nargs="*", help="cases (default: all)")
    given = parser.parse_args()
    program = os.path.abspath(given.program)
    if not sequence.browser():
        print("skipped: no Chromium is there (Debian: chromium)")
        return 77
    results = []
    cases = [picture, arrows, logs, one, layout, page, look, alone]
    for case in [it for it in cases if not given.only or it.__name__ in given.only]:
        good, told = case(program)
        print(f"{case.__name__}: {told}{'' if good else ' (FAILED)'}", flush=True)
        results.append(good)
    print(f"{sum(results)} of {len(results)} hold")
    return 0 if all(results) else 1


if __name__ == "__main__":
    sys.exit(main())
