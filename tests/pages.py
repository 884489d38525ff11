#!/usr/bin/env python3
"""The pages are true to the sources, and docs/check.py sees where one isn't.

Usage: tests/pages.py [TEXT]   only the pages as they are and the cases whose name has TEXT

Runs docs/check.py, and again on a copy in which one sentence is spoilt, for each kind of sentence
that it looks at. Prints a line a case; ends with 1 where one isn't as it should be. Takes 30 seconds.

In tests/all: no words, 1200 s.
"""

import shutil
import subprocess
import sys
import tempfile
from pathlib import Path

TOP = Path(__file__).resolve().parent.parent

PLANTED = "must-fail/planted.edit"

# what is spoilt, on which page, from what to what
SPOILT = [
    ("a file that isn't there", "docs/architecture.md", "`dt_layout/src/limits.rt`", "`dt_layout/src/limit.rt`"),
    ("a law that isn't there", "docs/guarantees.md", "laws::fates_are_final` |", "laws::fate_is_final` |"),
    ("a clause of a law that isn't there", "docs/guarantees.md", "in_order.network` |", "in_order.net` |"),
    ("a law of another crate", "docs/guarantees.md", "`dt_world_laws::totals_", "`dt_flow_laws::totals_"),
    (
        "a law of the library without a row",
        "docs/guarantees.md",
        "what_was_settled_was_accepted` |",
        "network_is_a_world` |",
    ),
    ("a clause of run that isn't named", "docs/headline.md", "`stood_still`", "`stood`"),
    ("a crate on another stand", "docs/architecture.md", " dt_host, dt_relay |", " dt_host |"),
    ("a library that isn't used", "crates.txt", "dt_units:", "dt_units: hex"),
    ("a crate without a row", "docs/architecture.md", "| dt_shelf |", "| shelf |"),
    ("a written line that isn't named", "docs/formats.md", "settled", "set"),
    ("a read line that isn't named", "docs/formats.md", "`restart N`", "`again N`"),
    ("a link that leads to no file", "README.md", "(docs/headline.md)", "(docs/headlin.md)"),
    (
        "a link that leads to no heading",
        "docs/formats.md",
        "(#the-schedules-of-make)",
        "(#the-schedule-of-make)",
    ),
    (
        "a name that nothing has",
        "docs/protocol.md",
        "\n",
        "\nThe function `" + "_".join(["nobody", "wrote", "this"]) + "` does it.\n",
    ),
    (
        "a writer of a rule that isn't listed",
        "docs/architecture.md",
        "`micro/deltat_micro.c`, `tests/station_model.py`",
        "`tests/station_model.py`",
    ),
    ("a decision about a file that isn't there", "docs/decisions.txt", "dt_make/src/lib.rt:", "dt_make/src/libs.rt:"),
    ("a list of the headline that differs", "docs/headline.md", "Carried 35, Safe 42,", "Carried 35, Safe 41,"),
    ("a file that says nothing of itself", "crates/dt_relay/proofs/Links.antt", "-- Out links by", "use Out links by"),
    ("a bug that can't be planted", f"crates/dt_endpoint/{PLANTED}", "(MOST_MOMENT))", "(MOST_MOMENTS))"),
    ("two bugs of one name", f"crates/dt_recv/{PLANTED}", "# skip_is_not_marked\n", "# released_early\n"),
    ("a bug without a name", f"crates/dt_cases/{PLANTED}", "# covers_stops_one_key_early\n", ""),
    ("a bug without a name below what is turned off", f"crates/dt_log/{PLANTED}", "# failed_put_goes_on\n", ""),
    (
        "a line that is turned off without saying so",
        f"crates/dt_log/{PLANTED}",
        "## What no bug needs is turned off:\n",
        "",
    ),
    (
        "a bug among what is turned off",
        f"crates/dt_log/{PLANTED}",
        "new: #[cfg(test)] mod log_lines;",
        "new: mod words;",
    ),
    (
        "an answer for a bug that isn't planted",
        "crates/dt_recv/proofs/records/paid/Answers.antt",
        "-- refused here: ",
        "-- refused here: nothing_",
    ),
]


def check(top: Path) -> subprocess.CompletedProcess[str]:
    words = [sys.executable, str(top / "docs" / "check.py")]
    return subprocess.run(words, capture_output=True, text=True, timeout=900)


def is_refused(copy: Path, page: str, old: str, new: str) -> str:
    """What is wrong with the answer to a page that is spoilt, or nothing."""
    path = copy / page
    text = path.read_text()
    if old not in text:
        return f"{page} has no {old!r}: name another sentence here"
    path.write_text(text.replace(old, new) if old != "\n" else text.replace(old, new, 1))
    try:
        ran = check(copy)
    finally:
        path.write_text(text)
    return "" if ran.returncode == 1 and page in ran.stdout else f"answers {ran.returncode}: {ran.stdout[-200:]}"


def main(text: str = "") -> int:
    failed = 0
    ran = check(TOP)
    print(f"pages as they are: {'ok' if ran.returncode == 0 else ran.stdout + ran.stderr}")
    failed += ran.returncode != 0
    with tempfile.TemporaryDirectory() as folder:
        copy = Path(folder) / "copy"
        skip = shutil.ignore_patterns("out", ".git", "__pycache__", "target")
        shutil.copytree(TOP, copy, ignore=skip)
        chosen = [it for it in SPOILT if text in it[0]]
        for what, page, old, new in chosen:
            why = is_refused(copy, page, old, new)
            print(f"{what}: {why or 'refused'}")
            failed += bool(why)
        (copy / "tests" / "soak.py").chmod(0o644)
        ran = check(copy)
        is_seen = ran.returncode == 1 and "tests/soak.py" in ran.stdout
        print(f"a script that isn't executable: {'refused' if is_seen else ran.stdout[-200:]}")
        failed += not is_seen
    print(f"{len(chosen) + 2 - failed} passed, {failed} failed")
    return 1 if failed else 0


if __name__ == "__main__":
    sys.exit(main(*sys.argv[1:2]))
