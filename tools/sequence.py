#!/usr/bin/env python3
"""A picture of a run: `tools/sequence.py SCHEDULE LOG > PAGE.html`, or `tools/sequence.py LOG .. > PAGE.html`.

A schedule goes with the log of its replay; where the log is left out, the program writes it. Without a
schedule the logs are those of one node or more, each a file. The page is HTML and SVG, and fetches
nothing. Stations are lines, and time runs down them; stretches in which nothing happens are folded. An
arrow is a copy of a packet, a cross a loss, a dashed arrow a copy that came once more, two dots a copy of
which nothing more is told, a red bar a restart, a ring a record that was released. Hovering tells the line.

tools/sequence.html is the same page without a run: files are dropped into it. Both draw by its script.
With --svg the picture alone is written; a Chromium draws it then."""
import argparse
import json
import os
import pathlib
import re
import shutil
import subprocess
import sys
import tempfile
import xml.dom.minidom
from xml.parsers.expat import ExpatError

HERE = pathlib.Path(__file__).resolve().parent
PLACE = '<script id="data" type="application/json">[]</script>'
BROWSERS = ["chromium", "chromium-browser", "google-chrome", "google-chrome-stable"]


class Refused(Exception):
    """No picture can be made, as the text says."""


def is_schedule(text: str) -> bool:
    """Whether a text is a schedule: it begins with its parameters, and has no node of its own."""
    first = next((it for it in text.splitlines() if it and not it.startswith("#")), "")
    return first.startswith("params ") and not re.search(r"^me \d", text, re.MULTILINE)


def log_of(schedule: str, program: str) -> str:
    """The log of a schedule. One that is refused has its fault in its log."""
    try:
        ran = subprocess.run([program, "replay"], input=schedule.encode(), capture_output=True, check=False)
    except OSError as fault:
        raise Refused(f"{program} can't be run: {fault}; build it (./build), or give its log too") from None
    if ran.returncode not in (0, 3) or not ran.stdout:
        raise Refused(f"{program} replay failed with status {ran.returncode}: {ran.stderr.decode().strip()}")
    return ran.stdout.decode()


def texts_of(paths: list[str], program: str) -> list[dict[str, str]]:
    """The files as the page reads them."""
    texts = []
    for path in paths:
        try:
            texts.append({"name": pathlib.Path(path).name, "text": pathlib.Path(path).read_text(encoding="utf-8")})
        except (OSError, UnicodeDecodeError) as fault:
            raise Refused(f"{path} can't be read: {fault}; give a schedule or logs") from None
    if len(texts) == 1 and is_schedule(texts[0]["text"]):
        texts.append({"name": "its log", "text": log_of(texts[0]["text"], program)})
    return texts


def page_of(texts: list[dict[str, str]]) -> str:
    """The page of a run."""
    page = (HERE / "sequence.html").read_text(encoding="utf-8")
    data = json.dumps(texts).replace("<", "\\u003c")
    if page.count(PLACE) != 1:
        raise Refused("sequence.html has no place for a run; take the file of this version")
    return page.replace(PLACE, PLACE.replace("[]", data))


def browser() -> str | None:
    """A Chromium, where one is there."""
    return next((found for it in BROWSERS if (found := shutil.which(it))), None)


def headless(path: str, *options: str) -> subprocess.CompletedProcess[str]:
    """Opens a page of this machine in a Chromium without a window, and has it do what the options say."""
    program = browser()
    if not program:
        raise Refused("Chromium isn't installed, and --svg needs it; install it (Debian: chromium)")
    with tempfile.TemporaryDirectory() as profile:
        command = [
            program,
            "--headless",
            "--no-sandbox",
            "--disable-gpu",
            "--hide-scrollbars",
            f"--user-data-dir={profile}",
            *options,
            pathlib.Path(path).absolute().as_uri(),
        ]
        return subprocess.run(command, capture_output=True, text=True, check=False, timeout=120)


def picture_of(page: str) -> str:
    """The picture of a page alone, as an SVG file."""
    with tempfile.TemporaryDirectory() as folder:
        path = os.path.join(folder, "page.html")
        pathlib.Path(path).write_text(page, encoding="utf-8")
        drawn = headless(path, "--dump-dom").stdout
    found = re.search(r'<svg xmlns=.*?</svg>', drawn, re.DOTALL)
    if not found:
        told = re.search(r'<p id="fault"[^>]*>([^<]+)<', drawn)
        raise Refused(told.group(1) if told else f"{browser()} drew nothing; try without --svg")
    try:
        xml.dom.minidom.parseString(found.group().encode())
    except ExpatError as fault:
        raise Refused(f"the picture of {browser()} isn't valid XML: {fault}") from None
    return found.group() + "\n"


def default_program() -> str:
    """The program of this repository where it is built, else the one that is installed."""
    built = HERE.parent / "crates" / "deltat" / "out" / "deltat"
    return str(built) if built.exists() else shutil.which("deltat") or str(built)


def main() -> int:
    parser = argparse.ArgumentParser(description=__doc__, formatter_class=argparse.RawDescriptionHelpFormatter)
    parser.add_argument("files", nargs="+", metavar="FILE", help="a schedule and its log, or the logs of nodes")
    parser.add_argument("--svg", action="store_true", help="write the picture alone, drawn by a Chromium")
    parser.add_argument(
        "--program",
        default=default_program(),
        help="the program, for a schedule without its log (default: %(default)s)",
    )
    given = parser.parse_args()
    try:
        page = page_of(texts_of(given.files, given.program))
        sys.stdout.write(picture_of(page) if given.svg else page)
    except Refused as fault:
        print(f"sequence.py: {fault}", file=sys.stderr)
        return 1
    return 0


if __name__ == "__main__":
    sys.exit(main())
