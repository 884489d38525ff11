#!/usr/bin/env python3
"""Makes a man page from a page of docs/: `release/manpage.py PAGE VERSION DATE > MANUAL`.

PAGE is docs/formats.md, for deltat-formats(5), or docs/library.md, for libdeltat(3). It reads what these are made of:
headings, paragraphs, lists, tables, blocks, `words`, *stressed* words and links. A row of a table becomes an entry: the
first cell, and below it the others, each behind its heading. Ends with 1 at a line that it doesn't know. libdeltat(3)
has the functions and the statuses of include/deltat.h with the header's own words, by release/interface.py."""
import re
import sys
import textwrap
from collections.abc import Iterator
from pathlib import Path
from typing import NamedTuple

import interface


class Manual(NamedTuple):
    """What stands at the head of a man page."""

    name: str
    section: int
    about: str
    volume: str
    # the header whose functions it has, if any, and how a program is compiled
    header: str = ""
    compiled: str = ""


MANUALS = {
    "formats": Manual("deltat-formats", 5, "octets, lines, texts and statuses of deltat", "File Formats"),
    "library": Manual("libdeltat", 3, "a Delta-t node without a socket, a clock or a thread", "Library Functions",
                      "include/deltat.h", "cc program.c $(pkg-config --cflags --libs deltat)"),
}
# the most octets of a line of running text
WIDTH = 79


def escaped(text: str) -> str:
    """Text as roff takes it: nothing of it is a request."""
    text = (
        text.replace("\\", "\\e")
        .replace("-", "\\-")
        .replace("'", "\\(aq")
        .replace("^", "\\(ha")
        .replace("~", "\\(ti")
        .replace("`", "\\(ga")
    )
    return "\\&" + text if text.startswith((".", "\\(aq")) else text


def spelled(text: str) -> str:
    """A line of a page with its marks: what stands in backticks bold, what is stressed in italics, links as texts."""
    text = re.sub(r"\[([^\]]+)\]\([^)]+\)", r"\1", text).replace("\\|", "|")
    parts = []
    for part in re.split(r"(`[^`]+`|\*[^*]+\*)", text):
        mark = part[:1] if len(part) > 2 and part[:1] in "`*" and part[-1:] == part[:1] else ""
        parts.append(escaped(part) if not mark else f"\\f{'B' if mark == '`' else 'I'}{escaped(part[1:-1])}\\fR")
    return "".join(parts).replace("·", "\\(pc").replace("→", "\\(->")


def wrapped(text: str) -> Iterator[str]:
    """Running text as lines; none of them is a request."""
    line = ""
    for word in text.split():
        if line and len(f"{line} {word}".encode()) > WIDTH:
            yield line
            line = escaped(word[:1]) + word[1:] if word.startswith(".") else word
        else:
            line = f"{line} {word}" if line else word
    yield line or "\\&"


def cells(line: str) -> list[str]:
    """The cells of a row. A bar behind a backslash is none between cells."""
    return [it.strip() for it in re.split(r"(?<!\\)\|", line.strip()[1:-1])]


def entry(tag: str, rest: list[str]) -> Iterator[str]:
    """A tag with the lines that belong to it. One that is longer than a line is a paragraph of its own, since .TP takes
    one line."""
    if len(tag.encode()) > WIDTH:
        yield from [".PP", *wrapped(tag), ".RS", *rest, ".RE"]
    else:
        yield from [".TP", tag, *rest]


def table(lines: list[str]) -> Iterator[str]:
    head = cells(lines[0])
    for line in lines[2:]:
        row = cells(line)
        others = [(name, it) for name, it in zip(head[1:], row[1:]) if it]
        tag = f"\\fB{spelled(row[0])}\\fR" if "`" not in row[0] else spelled(row[0])
        if len(head) == 2:
            yield from entry(tag, list(wrapped(spelled(row[1]))))
            continue
        rest: list[str] = []
        for number, (name, it) in enumerate(others):
            rest += [".br"] if number else []
            rest += wrapped(f"\\fI{spelled(name)}:\\fR {spelled(it)}" if name else spelled(it))
        yield from entry(tag, rest or ["\\&"])
    yield ".PP"


def blocks(lines: list[str]) -> Iterator[str]:
    """The requests of a page, block by block."""
    at = 0
    while at < len(lines):
        line, first = lines[at], at
        at += 1
        if not line.strip():
            continue
        if line.startswith("```"):
            while not lines[at].startswith("```"):
                at += 1
            yield from [".PP", ".EX", *("    " + escaped(it) for it in lines[first + 1 : at]), ".EE"]
            at += 1
        elif line.startswith("## "):
            yield f".SH {escaped(line[3:].upper())}"
        elif line.startswith("### "):
            yield f".SS {spelled(line[4:])}"
        elif line.startswith("|"):
            while at < len(lines) and lines[at].startswith("|"):
                at += 1
            yield from table(lines[first:at])
        elif found := re.match(r"(- |\d+\. )(.*)", line):
            yield ".IP " + ("\\(bu 2" if found[1] == "- " else f"{found[1].strip()} 3")
            yield from wrapped(spelled(found[2]))
        elif re.match(r"[#>]|    ", line):
            raise ValueError(f"line {first + 1} is nothing that is known here: {line}")
        else:
            while at < len(lines) and lines[at].strip() and not re.match(r"[|#`-]|\d+\. ", lines[at]):
                at += 1
            yield from [".PP", *wrapped(spelled(" ".join(lines[first:at])))]


def tidy(requests: list[str]) -> Iterator[str]:
    """Leaves out a paragraph that begins where nothing follows it, or right below a heading."""
    for number, it in enumerate(requests):
        before = requests[number - 1] if number else ""
        behind = requests[number + 1] if number + 1 < len(requests) else ".SH"
        if it == ".PP" and (
            before.startswith((".SH", ".SS")) or behind.startswith((".PP", ".SH", ".SS", ".IP", ".TP"))
        ):
            continue
        yield it


def prototype(function: interface.Function) -> list[str]:
    """The lines of a prototype. Arguments stay whole."""
    words = re.sub(r"(?<!,) ", "\N{NO-BREAK SPACE}", function.prototype)
    lines = textwrap.wrap(words, WIDTH - 10, subsequent_indent=" " * 4, break_on_hyphens=False)
    return [it.replace("\N{NO-BREAK SPACE}", " ") for it in lines]


def synopsis(it: Manual) -> Iterator[str]:
    """How a program names the header, each function, and how the program is compiled."""
    yield from [".SH SYNOPSIS", f".B #include <{Path(it.header).name}>", ".PP", ".nf"]
    for function in interface.header().functions:
        yield from (f"\\fB{line}\\fR" for line in prototype(function))
    yield from [".fi", ".PP", f".B {escaped(it.compiled)}"]


def calls() -> Iterator[str]:
    """What the header says of each function, and of each status."""
    yield ".SH FUNCTIONS"
    for function in interface.header().functions:
        yield from [".TP", f"\\fB{function.name}\\fR()", *wrapped(spelled(function.doc.text))]
        if function.doc.statuses:
            yield ".RS"
            for status in function.doc.statuses:
                yield from [".TP", f"\\fB{status.name}\\fR", *wrapped(spelled(status.says) if status.says else "\\&")]
            yield ".RE"
        if function.doc.after:
            yield from [".IP", *wrapped(spelled(function.doc.after))]
    yield ".SH RETURN VALUES"
    for member in interface.header().enum("dt_status_code").members:
        says = spelled(member.says) if member.says else "the call did what it was asked"
        yield from [".TP", f"\\fB{member.name}\\fR ({member.value})", *wrapped(says)]


def page(it: Manual, text: str, version: str, date: str) -> str:
    lines = text.splitlines()
    if not lines[0].startswith("# "):
        raise ValueError("the page has no heading")
    title = f".TH {escaped(it.name.upper())} {it.section} {date} \"deltat {version}\" \"{it.volume}\""
    head = [title, ".SH NAME", f"{escaped(it.name)} \\- {escaped(it.about)}"]
    head += synopsis(it) if it.header else []
    head.append(".SH DESCRIPTION")
    ends = [*(calls() if it.header else ()), ".SH SEE ALSO", ".BR deltat (1)"]
    return "\n".join(tidy([*head, *blocks(lines[1:]), *ends])) + "\n"


def main(words: list[str]) -> int:
    if words in (["-h"], ["--help"]) or len(words) != 3:
        print(__doc__, file=sys.stdout if len(words) == 1 else sys.stderr)
        return 0 if len(words) == 1 else 2
    try:
        path = Path(words[0])
        if path.stem not in MANUALS:
            raise ValueError(f"of {path.name} no man page is made")
        sys.stdout.write(page(MANUALS[path.stem], path.read_text(), *words[1:]))
    except (OSError, ValueError, interface.Unreadable) as why:
        print(f"manpage.py: {why}", file=sys.stderr)
        return 1
    return 0


if __name__ == "__main__":
    sys.exit(main(sys.argv[1:]))
