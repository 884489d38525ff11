#!/usr/bin/env python3
"""Each rule is seen: one rule of the node in micro/ is changed at a time, and some case has to differ then.
`tests/micro_rules.py [--only PATTERN]`. The cases are the vectors of conformance/ of an end and a relay, and for what
they can't show (admitted flows, what a datagram waited, the quantum's bound, which takes 512 MiB of octets)
tests/micro/parts.c. Ends with 1 where a change stands for no place of the node, or all cases hold with it.

In tests/all: no words, 400 s."""
from __future__ import annotations

import argparse
import concurrent.futures
import fnmatch
import os
import pathlib
import shutil
import subprocess
import sys
import tempfile

from lib import TOP, skip

sys.path[:0] = [str(TOP / "conformance")]
import run  # noqa: E402

MICRO, PARTS = TOP / "micro", TOP / "tests" / "micro" / "parts.c"
# a wrong rule may act for ever: what it writes is cut at 4 MiB, and its time at 2 s
LIMITED = ["sh", "-c", 'ulimit -t 2; ulimit -f 8192; exec "$@"', "limited"]
FLAGS = ["-std=c99", "-O0", "-w"]
# the rule that is broken, and what stands for what in deltat_micro.c
RULES = [
    (
        "a new record has advertised nothing",
        "r->owes = 0, r->advertised = n->p.rcap;",
        "r->owes = 0, r->advertised = 0;",
    ),
    (
        "a new record has advertised what the one before did",
        "if (!r->has_record) r->owes = 0, r->advertised = n->p.rcap;",
        "if (!r->has_record) r->owes = 0;",
    ),
    (
        "a reply with the packet's own number advertises nothing",
        "r->advertised = window;\n        if (number == r->expected) r->owes = 0;",
        "if (number == r->expected) r->advertised = window, r->owes = 0;",
    ),
    ("a reply with another number pays what was owed", "if (number == r->expected) r->owes = 0;", "r->owes = 0;"),
    (
        "an acknowledgement advertises nothing",
        (
            "r->advertised = n->p.rcap - r->unread;\n        answer(n, DTM_REPORT_ACK_SENT, &r->flow, r->expected,"
            " r->advertised);"
        ),
        "answer(n, DTM_REPORT_ACK_SENT, &r->flow, r->expected, n->p.rcap - r->unread);",
    ),
    ("a read opens the window whatever was advertised", " && r->advertised < least)", ")"),
    (
        "a read's least room is seg, whatever rcap is",
        "n->p.seg < n->p.rcap ? n->p.seg : n->p.rcap, before",
        "n->p.seg, before",
    ),
    (
        "data that come while something is owed make nothing due at once",
        "(it->flags & DTM_MARK_END) || r->owes ? n->now",
        "(it->flags & DTM_MARK_END) ? n->now",
    ),
    (
        "the leftmost segment is resent, not the one that left longest ago",
        "if (best == s->segments || rest > longest) best = i, longest = rest;",
        "if (best == s->segments) best = i, longest = rest;",
    ),
    ("of two that left at one time the last is resent", "rest > longest) best = i", "rest >= longest) best = i"),
    (
        "a segment is resent at r",
        "n->now - s->segment[i].first >= n->p.r) continue;",
        "n->now - s->segment[i].first > n->p.r) continue;",
    ),
    (
        "of equals the record that was made last acts first",
        "class == best && since > longest",
        "class == best && since >= longest",
    ),
    ("in a class the due times don't count", "(class == best && since > longest)", "false"),
    ("a cut that waits for nothing is due now, not at 0", ": UINT32_MAX;", ": 0;"),
    ("a resend goes before an acknowledgement", "        return RESEND;\n", "        return RELEASE_RECEIVE;\n"),
    ("a record that begins anew keeps its last crossing", "s->segments = s->has_crossed = 0;", "s->segments = 0;"),
    ("spacing has r once", "n->spacing = n->send + p->r;", "n->spacing = n->send;"),
    ("the quantum has no bound of 2^29", "p->run_limit < 0x20000000u ? p->run_limit : 0x20000000u", "p->run_limit"),
    (
        "a window whose edge is below left isn't used up",
        "s->edge - next_of(s) - 1 >= 0x7fffffffu;",
        "s->edge == next_of(s);",
    ),
    (
        "a window whose edge is below left is wide",
        "if (window - 1 >= 0x7fffffffu) return 0;",
        "if (window == 0) return 0;",
    ),
    (
        "one segment less may be outstanding",
        "return s->segments < DTM_SEGMENTS;",
        "return s->segments < DTM_SEGMENTS - 1;",
    ),
    (
        "an acknowledgement of left is ignored",
        "for (uint8_t i = 0; s && i <= s->segments; i++) {\n        if (it->number ==",
        "for (uint8_t i = 0; s && i <= s->segments; i++) {\n        if (i > 0 && it->number ==",
    ),
    (
        "a probe doesn't touch the record",
        "    s->touched = n->now;\n    report_of(n, DTM_REPORT_PROBE_SENT",
        "    report_of(n, DTM_REPORT_PROBE_SENT",
    ),
    (
        "a packet that expired counts for the pace",
        "report_of(n, DTM_REPORT_EXPIRED_OUT, NULL, q->link, 0);\n",
        (
            "report_of(n, DTM_REPORT_EXPIRED_OUT, NULL, q->link, 0);\n            q->last = n->now, q->has_last ="
            " q->pace > 0;\n"
        ),
    ),
    (
        "a packet that waited costs no millisecond more",
        "charge = n->now - it->since + 1;",
        "charge = n->now - it->since + (n->now == it->since);",
    ),
    (
        "quiet is asked before a packet is read",
        "else if ((fault = dtm_read_packet(",
        "else if (!n->is_quiet && (fault = dtm_read_packet(",
    ),
    (
        "quiet is asked after the room of a send",
        "    if (n->is_quiet) {\n        report_of(n, DTM_REPORT_SEND_QUIET",
        "    if (n->is_quiet && message->len <= free) {\n        report_of(n, DTM_REPORT_SEND_QUIET",
    ),
    (
        "a receiver whose record went loses its place in the order",
        "r->has_record = r->owes = 0;\n        drop_idle(n, r);",
        (
            "r->has_record = r->owes = 0;\n        { uint8_t i = 0; while (n->receiver_order[i] != (uint8_t)(r -"
            " n->receiver)) i++; take_out(n->receiver_order, i, &n->receivers); if (r->unread > 0) n->receivers++; }"
        ),
    ),
    ("a distance of 2^31 is above", "above < 0x80000000u ? 2", "above <= 0x80000000u ? 2"),
    (
        "a skip isn't a new run",
        "accept(n, r, it, act != DTM_ACTION_ACCEPT)",
        "accept(n, r, it, act == DTM_ACTION_MAKE)",
    ),
    (
        "a run mark doesn't end a piece",
        "if (it.len > 0 && (marked(r->runs, r->at) || marked(r->begins, r->at))) break;",
        "if (it.len > 0 && marked(r->begins, r->at)) break;",
    ),
    ("a begin mark doesn't end a cut", "if (i > 0 && marked(s->begins, at)) return i;", ""),
    ("links aren't flushed first", "for (uint8_t i = 0; i < n->links; i++) flush(n, &n->queue[i]);", ""),
    (
        "a packet whose life is the charge lives",
        "if (it.life <= q->charge) report_of",
        "if (it.life < q->charge) report_of",
    ),
    (
        "a closing packet without a record is reported",
        "else if (has_record && it->number == r->expected) report_of",
        "else if (!has_record || it->number == r->expected) report_of",
    ),
    (
        "a window counts from the old left",
        "forget(s, i, octets);\n            s->edge = s->left + it->window;",
        "s->edge = s->left + it->window;\n            forget(s, i, octets);",
    ),
    (
        "a renewed record keeps its edge",
        "s->edge = n->p.window;\n    s->touched",
        "if (!s->edge) s->edge = n->p.window;\n    s->touched",
    ),
    ("a flow that isn't admitted is heard", "    return n->flows == 0;", "    return true;"),
    ("what a datagram waited isn't taken off", "    it.life -= arrival->waited_ms;\n", ""),
]


def asked() -> list[run.Case]:
    """The cases in the order in which they see most: traces, those of one rule first, then frames and schedules."""
    chosen = [
        it
        for it in run.cases()
        if it.kind in ("frames", "trace", "schedule") and not it.needs() & {"shelf", "refusals"}
    ]
    return sorted(chosen, key=lambda it: (it.kind != "trace", it.name.startswith("..") or it.name.endswith("-512")))


def differs(desk: str, case: run.Case, folder: pathlib.Path) -> bool:
    """Whether a case's answer or status isn't the right one."""
    with open(folder / "out", "w+b") as out:
        ran = subprocess.run(
            [*LIMITED, desk, *case.words()], input=case.given(), stdout=out, stderr=subprocess.DEVNULL, check=False
        )
        out.seek(0)
        return ran.returncode != case.status or out.read() != case.right()


def compiled(folder: pathlib.Path, compiler: str, source: pathlib.Path, text: str, name: str) -> str:
    """A program over a node with that text."""
    (folder / "deltat_micro.c").write_text(text)
    shutil.copy(MICRO / "deltat_micro.h", folder)
    shutil.copy(source, folder)
    words = [
        str(folder / source.name),
        *([] if name == "desk" else [str(folder / "deltat_micro.c")]),
        "-o",
        str(folder / name),
    ]
    subprocess.run([compiler, *FLAGS, f"-I{folder}", *words], check=True)
    return str(folder / name)


def sees(compiler: str, cases: list[run.Case], text: str) -> str:
    """The first case that differs with that text of the node; empty where none does."""
    with tempfile.TemporaryDirectory() as name:
        folder = pathlib.Path(name)
        desk = compiled(folder, compiler, MICRO / "desk.c", text, "desk")
        found = next((it for it in cases if differs(desk, it, folder)), None)
        if found:
            return found.title()
        parts = compiled(folder, compiler, PARTS, text, "parts")
        ran = subprocess.run(
            [*LIMITED, parts], stdout=subprocess.PIPE, stderr=subprocess.DEVNULL, text=True, check=False
        )
        return f"parts.c, {ran.stdout.strip() or ran.returncode}" if ran.returncode else ""


def main() -> int:
    reads = argparse.ArgumentParser(description=__doc__, formatter_class=argparse.RawDescriptionHelpFormatter)
    reads.add_argument("--only", default="*", metavar="PATTERN", help="the rules with such a name only")
    given = reads.parse_args()
    compiler = next((it for it in ("gcc", "clang") if shutil.which(it)), None)
    if compiler is None:
        skip("there is no compiler of C")
    text, cases = (MICRO / "deltat_micro.c").read_text(), asked()
    chosen = [it for it in RULES if fnmatch.fnmatch(it[0], given.only)]
    strange = [name for name, old, _ in chosen if text.count(old) != 1]
    right = sees(compiler, cases, text)
    if strange or right:
        print("".join(f"{it}: its text doesn't stand once in deltat_micro.c\n" for it in strange), end="")
        print(f"the node as it is fails: {right}" if right else "")
        return 1
    with concurrent.futures.ThreadPoolExecutor(min(os.cpu_count() or 1, 3)) as pool:
        seen = []
        for (name, _, _), case in zip(
            chosen, pool.map(lambda it: sees(compiler, cases, text.replace(it[1], it[2])), chosen)
        ):
            print(f"{name}: {case or 'NO CASE'}", flush=True)
            seen.append(case)
    print(f"{sum(map(bool, seen))} of {len(chosen)} wrong rules are seen")
    return 0 if chosen and all(seen) else 1


if __name__ == "__main__":
    sys.exit(main())
