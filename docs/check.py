#!/usr/bin/env python3
"""Compares the pages with the sources, and ends with 1 where a page says what isn't there.

It refuses, each with page and line:
- a link that leads nowhere: a file that isn't there, or a heading that the page doesn't have;
- a name in backticks that nothing has: a file, a crate, a function, a type, a definition;
- a row of a table of laws whose law is gone, or has no such clause; and a law of docs/laws.py without a row in the
  table of docs/guarantees.md;
- a crate's row in the table of crates whose "stands on" differs from crates.txt, and a crate
  without a row;
- a library on a crate's line in crates.txt of which the crate names nothing;
- a clause of `run`, or of a law beside it, that docs/headline.md doesn't name; and a law there that is gone;
- a word of a line that is written or read and that docs/formats.md doesn't name;
- a count of the files that a new line, export or report or another retransmission rule costs, where the sources have
  other files;
- a list of docs/headline.md that differs from the definitions that its sentences rest on;
- a file of a crate that says nothing of itself, so that docs/files.py would list it without a word; and a decision of
  docs/decisions.txt about a file that isn't there;
- a copy of the header that differs from what release/interface.py makes of it, and exports of crates/dt_c that differ
  from it;
- a public name of the library, in C, Python or Rust, that the table of words of docs/library.md doesn't have, or has
  twice; and a name of that table that nothing has;
- a sentence of the header or of docs/library.md that speaks of a law and isn't in the table of docs/laws.py; one of
  that table that isn't in its file; and one whose law is gone, or has no such clause;
- a crate that the map of docs/rooms.py lacks or has twice, and a picture that differs from crates.txt;
- a script that can't be run as the pages say, since it isn't executable;
- a must-fail edit whose text isn't once in its file: the `rt ci` of some kits counts it for nothing, and passes;
- two edits of a crate, or a planted bug without a name;
- what an edit turns off, where it doesn't say so, or does something else to the line;
- an answer that says that it refuses a bug which isn't planted.

Usage: docs/check.py            compares
       docs/check.py write      writes the "stands on" column, the files that a new line costs and the lists of
                                docs/headline.md anew; release/interface.py write does the copies of the header
       docs/check.py clauses    prints a page with each public function of the crates and its clauses by name
"""

import os
import re
import sys
from functools import cache
from pathlib import Path
from typing import Iterator, NamedTuple

import files as headings
import headline
import laws
import rooms

sys.path.insert(0, str(Path(__file__).resolve().parent.parent / "release"))
import interface  # noqa: E402

TOP = Path(__file__).resolve().parent.parent
PAGES = sorted([TOP / "README.md", TOP / "conformance" / "README.md", *(TOP / "docs").glob("*.md")])
ARCHITECTURE = TOP / "docs" / "architecture.md"
GUARANTEES = TOP / "docs" / "guarantees.md"

# What pages name of the language, the toolchain and the system, and of no file here.
FOREIGN = set(
    """alloca bash cargo clang gcc git memmove memset nproc perf python3 rt rustc sha256sum strace sudo taskset
    tshark unshare valgrind main self Self u8 u16 u32 u64 usize str bool i64 Box Vec String Option
    Some None Ok Err Result true false BufWriter final get_by to_vec""".split()
)


class Complaint(NamedTuple):
    page: Path
    line: int
    text: str

    def __str__(self) -> str:
        return f"{self.page.relative_to(TOP)}:{self.line}: {self.text}"


def sources(*kinds: str) -> Iterator[Path]:
    """The files of the crates of these kinds (src, specs, proofs, must-fail)."""
    for kind in kinds:
        for path in sorted(TOP.glob(f"crates/*/{kind}")):
            yield from (it for it in sorted(path.rglob("*")) if it.is_file())


@cache
def text_of(path: Path) -> str:
    return path.read_text(errors="replace")


@cache
def files() -> tuple[str, ...]:
    """Every file and folder of the repository that isn't made by a tool, below the top."""
    kept = []
    for path in TOP.rglob("*"):
        name = path.relative_to(TOP)
        if not {".git", "out", "__pycache__", "target"} & set(name.parts):
            kept.append(name.as_posix())
    return tuple(kept)


@cache
def known_words() -> frozenset[str]:
    """Every name that stands in a source, a script or a list of the repository, and the files' stems."""
    words: set[str] = set(FOREIGN)
    paths = [*sources("src", "specs", "proofs"), TOP / "crates.txt", TOP / "deltat"]
    for folder in ("bench", "conformance", "docs", "tests", "tools", "bindings", "include", "lib", "examples"):
        for path in (TOP / folder).rglob("*") if (TOP / folder).is_dir() else ():
            if path.is_file() and path.suffix != ".md" and path != Path(__file__).resolve():
                paths.append(path)
    for path in paths:
        words.update(re.findall(r"[A-Za-z_][A-Za-z0-9_]*", text_of(path)))
    for name in files():
        words.add(Path(name).stem)
        words.add(Path(name).name)
    for crate in (TOP / "crates").iterdir():
        words.update(bugs(crate.name))
    return frozenset(words)


# --- headings and links


def slug(heading: str) -> str:
    """The anchor of a heading, as GitHub makes it."""
    plain = re.sub(r"[`*]", "", heading.strip().lower())
    return re.sub(r"[^\w\- ]", "", plain).replace(" ", "-")


def outside_code(page: Path) -> Iterator[tuple[int, str]]:
    """The lines of a page that stand in no block of code, with their numbers."""
    fenced = False
    for number, line in enumerate(text_of(page).splitlines(), 1):
        if line.lstrip().startswith("```"):
            fenced = not fenced
        elif not fenced:
            yield number, line


@cache
def anchors(page: Path) -> frozenset[str]:
    return frozenset(slug(line.lstrip("#")) for _, line in outside_code(page) if re.match(r"#+ ", line))


def check_links(page: Path) -> Iterator[Complaint]:
    for number, line in outside_code(page):
        for target in re.findall(r"\]\(([^)\s]+)\)", line):
            if re.match(r"[a-z]+:", target):
                continue
            path, _, anchor = target.partition("#")
            where = (page.parent / path).resolve() if path else page
            if not where.exists():
                yield Complaint(page, number, f"the link leads to no file: {target}")
            elif anchor and anchor not in anchors(where):
                yield Complaint(page, number, f"the link leads to no heading: {target}")


# --- names in backticks


FILE = re.compile(r"[\w./*-]+\.(rt|antt|py|md|txt|lua|sh|toml|schedule|script|calls|h|c)")
NAME = re.compile(r"[A-Za-z_][\w]*(::[A-Za-z_]\w*)*(\(\))?")


def is_file(name: str) -> bool:
    """Whether a file, a folder or a module has this path, from the top or from a folder on the way. A
    word in capitals, as CRATE, stands for any name, and so does `*`."""
    name = re.sub(r"\b[A-Z]+\b(?=/)|\.\.(?=/)", "*", name)
    if "*" in name:
        return any(Path(it).match(name) for it in files())
    ends = (name, name + ".antt", name + ".rt")
    return any(it in ends or it.endswith(tuple("/" + end for end in ends)) for it in files())


def is_known(name: str) -> bool:
    return all(part in known_words() for part in name.removesuffix("()").split("::"))


def check_names(page: Path) -> Iterator[Complaint]:
    for number, line in outside_code(page):
        for name in re.findall(r"`([^`]+)`", line):
            if FILE.fullmatch(name):
                if not is_file(name):
                    yield Complaint(page, number, f"no such file: {name}")
            elif re.fullmatch(r"\w+/[\w/.-]*", name):
                if not is_file(name.rstrip("/")):
                    yield Complaint(page, number, f"no such folder: {name}")
            elif NAME.fullmatch(name) and not name.isupper() and not is_known(name):
                yield Complaint(page, number, f"nothing has this name: {name}")


# --- clauses of functions


class Function(NamedTuple):
    crate: str
    module: str
    name: str
    requires: tuple[str, ...]
    ensures: tuple[str, ...]
    says: str
    is_pub: bool

    @property
    def clauses(self) -> tuple[str, ...]:
        return (*self.requires, *self.ensures)

    @property
    def is_public(self) -> bool:
        """Whether other crates can call it: the module is public, or the root hands its first name on."""
        modules, names = surface(self.crate)
        return self.is_pub and (self.module in modules or self.name.split("::")[0] in names)


FUNCTION = re.compile(
    r"(?P<doc>(?:^[ \t]*///[^\n]*\n)*)(?:^[ \t]*(?:#\[[^\n]*|//[^\n]*)\n)*"
    r"^(?P<indent>[ \t]*)(?P<pub>pub(?:\([a-z]+\))? )?(?:const )?fn (?P<name>\w+)",
    re.MULTILINE,
)
OWNER = re.compile(r"^(?:impl(?:<[^{]*?>)? (?:\w+(?:<[^{]*?>)? for )?|pub trait |trait )(\w+)", re.MULTILINE)


CLAUSE = re.compile(r"\b(ensures|requires)\b\*?\s*(\w*)\s*$")
GHOST = re.compile(r"\bghost\s+\w+\s*:\s*$")


def behind(text: str, at: int) -> int:
    """The place behind the brace that closes the one at this place."""
    depth = 0
    for it in re.compile("[{}]").finditer(text, at):
        depth += 1 if it[0] == "{" else -1
        if depth == 0:
            return it.end()
    return len(text)


def contract(text: str, at: int) -> Iterator[tuple[str, str]]:
    """The clauses of the function whose name stands at this place, each as its kind and its name, which
    may be empty. They end where the body begins, or with the declaration of a trait's method."""
    while at < len(text):
        opens, ends = text.find("{", at), text.find(";", at)
        opens = len(text) if opens < 0 else opens
        between = text[at:opens]
        clause = CLAUSE.search(between)
        if clause:
            yield clause[1], clause[2]
        elif not GHOST.search(between) or -1 < ends < opens and ")" in text[at:ends]:
            return
        at = behind(text, opens)


@cache
def surface(crate: str) -> tuple[frozenset[str], frozenset[str]]:
    """The modules of a crate that are public, and the names that its root has or hands on."""
    root = text_of(next((TOP / "crates" / crate / "src").glob("[lm]*i[bn].rt")))
    modules = {"lib", *re.findall(r"^pub mod (\w+);", root, re.MULTILINE)}
    handed = re.findall(r"^pub use [\w:]+::(?:\{([^}]*)\}|(\w+));", root, re.MULTILINE)
    return frozenset(modules), frozenset(re.findall(r"\w+", " ".join(it for pair in handed for it in pair)))


def first_sentence(doc: str) -> str:
    said = " ".join(re.sub(r"^[ \t]*/// ?", "", line) for line in doc.splitlines())
    return re.sub(r":$", ".", re.split(r"(?<=[.:]) ", said + " ")[0].strip())


@cache
def functions() -> tuple[Function, ...]:
    """Every function of the crates' code, tests left out, with the names of its clauses."""
    found = []
    for path in sources("src"):
        if path.suffix != ".rt" or "tests" in path.name:
            continue
        text, crate = text_of(path), path.relative_to(TOP).parts[1]
        owners = [(it.start(), it) for it in OWNER.finditer(text)]
        for it in FUNCTION.finditer(text):
            owner = [owner for at, owner in owners if at < it.start()][-1:] if it["indent"] else []
            name = f"{owner[0][1]}::{it['name']}" if owner else it["name"]
            clauses = list(contract(text, it.end("name")))
            requires, ensures = (
                tuple(name for kind, name in clauses if kind == which) for which in ("requires", "ensures")
            )
            is_pub = it["pub"] == "pub " or bool(owner) and owner[0][0].startswith("pub trait")
            found.append(Function(crate, path.stem, name, requires, ensures, first_sentence(it["doc"]), is_pub))
    return tuple(found)


def check_laws_listed(page: Path) -> Iterator[Complaint]:
    """The rows of a table whose first column is law: a public function has the contract."""
    inside = False
    for number, line in outside_code(page):
        cells = [it.strip() for it in line.strip().strip("|").split("|")] if line.startswith("|") else []
        if not cells:
            inside = False
        elif cells[:2] == ["law", "says"]:
            inside = True
        elif inside and not set(line) <= set("|- "):
            for name in re.findall(r"`([\w:.]+)`", cells[0]):
                if not is_law(name):
                    yield Complaint(page, number, f"no such law: {name}")


def sentences_of_run() -> Iterator[str]:
    """The clauses of `run`, and the named fields of the records that its main clause is made of."""
    for it in functions():
        if (it.crate, it.name) == ("dt_top", "run"):
            yield from it.clauses
    text = text_of(TOP / "crates/dt_top/specs/Answering.antt")
    for record in re.split(r"^pub record ", text, flags=re.MULTILINE)[1:]:
        # the first is the sentence `ends`, the other one has all of them
        if not record.startswith(("IsEnded ", "Answers ")):
            yield from re.findall(r"^  pub (\w+) :", record, re.MULTILINE)


def check_run() -> Iterator[Complaint]:
    page = headline.PAGE
    named = set(re.findall(r"`(\w+)`", text_of(page)))
    for clause in sentences_of_run():
        if clause not in named:
            yield Complaint(page, 1, f"the clause {clause} of `run` isn't named")
    # the laws beside `run`, and every other that the page names
    laws_named = set(re.findall(r"`(dt_\w+::[\w.]+)`", text_of(page)))
    for it in functions():
        if (it.crate, it.module) == ("dt_top", "laws"):
            for law in (f"dt_top::{it.name}.{clause}" for clause in it.ensures):
                if law not in laws_named:
                    yield Complaint(page, 1, f"the law {law} isn't named")
    for law in sorted(laws_named):
        if not is_law(law):
            yield Complaint(page, 1, f"no such law: {law}")


# --- the table of crates


def crates() -> dict[str, list[str]]:
    """Each crate of crates.txt, with the libraries on its line."""
    below = {}
    for line in text_of(TOP / "crates.txt").splitlines():
        line = line.partition("#")[0]
        if line.strip():
            name, _, names = line.partition(":")
            below[name.split()[0]] = names.split()
    return below


def stands_on(crate: str) -> str:
    """The crates right below a crate: those on its line that no other of them stands on, and then the
    toolchain's."""
    below = crates()

    def all_below(name: str) -> set[str]:
        return {it for dep in below.get(name, []) for it in (dep, *all_below(dep))}

    own = [it for it in below[crate] if it in below]
    covered = {it for dep in own for it in all_below(dep)}
    right = [it for it in own if it not in covered]
    kit = [it for it in below[crate] if it not in below]
    return ", ".join([*right, *kit]) or "none"


def rows_of_crates() -> Iterator[tuple[int, list[str]]]:
    inside = False
    for number, line in outside_code(ARCHITECTURE):
        if not line.startswith("|"):
            inside = False
        elif re.match(r"\| crate \|.*\| stands on \|", line):
            inside = True
        elif inside and not set(line) <= set("|- "):
            yield number, [it.strip() for it in line.strip().strip("|").split("|")]


def check_crates() -> Iterator[Complaint]:
    missing = set(crates())
    for number, cells in rows_of_crates():
        for name in cells[0].split(", "):
            if name not in crates():
                yield Complaint(ARCHITECTURE, number, f"crates.txt has no crate {name}")
                continue
            missing.discard(name)
            if cells[-1] != stands_on(name):
                yield Complaint(ARCHITECTURE, number, f"{name} stands on {stands_on(name)} by crates.txt")
    for name in sorted(missing):
        yield Complaint(ARCHITECTURE, 1, f"the crate {name} has no row")


def check_libraries() -> Iterator[Complaint]:
    """Each library on a crate's line is named in its sources."""
    for name, below in crates().items():
        words: set[str] = set()
        for kind in ("src", "specs", "proofs"):
            for path in (TOP / "crates" / name / kind).rglob("*"):
                if path.is_file():
                    words.update(re.findall(r"\w+", text_of(path)))
        for library in below:
            if library not in words:
                yield Complaint(TOP / "crates.txt", 1, f"{name} names nothing of {library}")


def write_crates() -> None:
    lines = text_of(ARCHITECTURE).splitlines(keepends=True)
    for number, cells in rows_of_crates():
        name = cells[0].split(", ")[0]
        if name in crates():
            lines[number - 1] = f"| {' | '.join([*cells[:-1], stands_on(name)])} |\n"
    ARCHITECTURE.write_text("".join(lines))


# --- the words of lines


def written_words() -> set[str]:
    """The words that the table of written lines spells."""
    rows = re.findall(r"^line_words .*$", text_of(TOP / "crates/dt_log/specs/LogLines.antt"), re.MULTILINE)
    return {word for row in rows for word in re.findall(r'codes "(\w+)"', row)} | {"flow", "line"}


def read_words() -> set[str]:
    """The first words of the lines that are read."""
    return set(re.findall(r'"(\w+)" => \w+_line,', text_of(TOP / "crates/dt_text/src/reading.rt")))


def check_formats() -> Iterator[Complaint]:
    page = TOP / "docs" / "formats.md"
    spoken = {
        word for _, line in outside_code(page) for part in re.findall(r"`([^`]+)`", line) for word in part.split()
    }
    for what, words in (("written", written_words()), ("read", read_words())):
        if not words:
            yield Complaint(page, 1, f"no words of lines that are {what} were found in the sources")
        for word in sorted(words - spoken):
            yield Complaint(page, 1, f"a line that is {what} has the word {word}, which isn't named")


# --- the page of clauses


HEAD = """# Clause by clause

What other crates can call, crate by crate, and the clauses of each contract by their names. The contract has a clause
word for word: in the file of its module below `crates/CRATE/src/`, above the body. A `-` is a clause without a name.
A condition is the caller's duty, and is proved at each call. `docs/check.py clauses` makes this page from the sources.
"""


def cell(names: tuple[str, ...]) -> str:
    return ", ".join(f"`{it}`" if it else "-" for it in names)


def page_of_clauses() -> str:
    """The page's text: a table for each crate with public functions, in the order of crates.txt."""
    parts = [HEAD]
    for crate in crates():
        rows = [it for it in functions() if it.crate == crate and it.is_public and (it.clauses or it.says)]
        if rows:
            columns = "| call | module | conditions | clauses | what it is |"
            parts.append(f"\n## {crate}\n\n{columns}\n|---|---|---|---|---|\n")
        for it in rows:
            said = it.says.replace("|", "\\|")
            parts.append(f"| `{it.name}` | {it.module} | {cell(it.requires)} | {cell(it.ensures)} | {said} |\n")
    return "".join(parts)


# --- what a new variant costs

class Sum(NamedTuple):
    """A sum of which a new variant wants a row in many files."""

    variant: str
    type: str
    path: str


SUMS = (
    Sum("a line that is written", "Report", "dt_reports/src/reports.rt"),
    Sum("one that a station itself reports, beside that", "StationReport", "dt_reports/src/station_reports.rt"),
    Sum("a line of the setup of a world", "SetupLine", "dt_text/src/lines.rt"),
    Sum("a line of a world after `go`", "WorldLine", "dt_text/src/lines.rt"),
    Sum("a line of a user of a node", "UserLine", "dt_text/src/lines.rt"),
    Sum("a line that sets up a script's node", "NodeLine", "dt_text/src/lines.rt"),
    Sum("a kind of lines after `go`", "RunLine", "dt_text/src/lines.rt"),
    Sum("a kind of lines of a script alone", "ScriptLine", "dt_text/src/lines.rt"),
    Sum("a kind of lines", "Line", "dt_text/src/lines.rt"),
)


def has_row_for_each(path: Path, it: Sum, variants: set[str]) -> bool:
    """Whether a file declares the sum, or names each of its variants as one of it. A definition may name what a variant
    that lends says (`send_said`) in its place, and code may leave the type to a macro's rows (`Report::$name`)."""
    text = text_of(path)
    words = set(re.findall(r"\w+", text))
    if path.suffix == ".rt":
        each = all(re.search(rf"\b{it.type}::{variant}\b", text) for variant in variants)
        of_macro = re.search(rf"\b{it.type}::\$", text) and variants <= words
        return path == TOP / "crates" / it.path or each or bool(of_macro)
    imported = re.search(rf"\b{it.type}\.TheVariants\b", text)
    return bool(imported) and all(variant in words or f"{variant.lower()}_said" in words for variant in variants)


def files_with_all_of(it: Sum) -> list[str]:
    """The files outside the crates of tests that have a row for each variant of a type, lowest crate first."""
    body = re.search(rf"pub enum {it.type}(?:<[^>]*>)? \{{(.*?)\n\}}", text_of(TOP / "crates" / it.path), re.S)
    assert body, f"{it.path} declares no {it.type}"
    variants = set(re.findall(r"(?m)^    ([A-Z]\w*)", body[1]))
    order = list(crates())
    found = []
    for path in sources("src", "specs", "proofs"):
        crate = path.relative_to(TOP / "crates").parts[0]
        if not crate.endswith("_tests") and has_row_for_each(path, it, variants):
            found.append((order.index(crate), path.relative_to(TOP / "crates").as_posix()))
    return [path for _, path in sorted(found)]


@cache
def kept() -> tuple[Path, ...]:
    """The files with text that a rule or a word may be in: no page but docs/formats.md, no proof, and no test of a
    crate."""
    wanted = (".antt .c .h .hpp .html .lua .py .rs .rt .sh .symbols").split()
    found = []
    for name in files():
        path = TOP / name
        is_page = path.suffix == ".md" and name != "docs/formats.md"
        is_foreign = name.startswith("crates/") and re.search(r"/proofs/|_tests/|/must-fail/", name)
        if path.is_file() and not is_page and not is_foreign and path != Path(__file__).resolve():
            if path.suffix in wanted or name in ("docs/formats.md", "conformance/INDEX"):
                found.append(path)
    return tuple(sorted(found))


@cache
def words_in(path: Path) -> frozenset[str]:
    return frozenset(re.findall(r"[A-Za-z_]\w*", text_of(path)))


def outside(words: set[str], share: float) -> list[str]:
    """The files outside the crates that have this share of the words."""
    assert words, "no words were found in the sources"
    found = [it for it in kept() if not it.is_relative_to(TOP / "crates")]
    return [it.relative_to(TOP).as_posix() for it in found if len(words & words_in(it)) >= share * len(words)]


# the sum of a segment's last transmission and rto, in whichever language
RESENDS = re.compile(r"\blast\b.*\brto\b|\brto\b.*\blast\b")


def writers() -> Iterator[tuple[str, str, list[str]]]:
    """What is written in many places that no type holds together: what changes, by what its places are found, and
    these."""
    it = interface.header()
    exports = {one.name for one in it.functions}
    homes = [path for path in kept() if path.parent == TOP / "crates/dt_c/src" and "exports" in path.stem]
    declare = [path.relative_to(TOP / "crates").as_posix() for path in homes]
    yield "an export of the library: one of the files of dt_c, and all others", "the exports", [
        *declare, *outside(exports, 1)
    ]
    reports = set(re.findall(r"DT_REPORT_\w+", text_of(interface.HEADER)))
    yield "a report of the library, beside `StationReport`", "`DT_REPORT_..`", outside(reports, 1)
    yield "a line that is written, outside the crates", "three of four words", outside(written_words(), 0.75)
    yield "a line that is read, outside the crates", "three of four words", outside(read_words(), 0.75)
    sources = [path for path in kept() if path.suffix != ".md"]
    rule = [path for path in sources if any(RESENDS.search(line) for line in text_of(path).splitlines())]
    places = [path.relative_to(TOP).as_posix().removeprefix("crates/") for path in rule]
    yield "the retransmission rule", "`last` and `rto`", places


def row_of_cost(what: str, by: str, paths: list[str]) -> str:
    return f"| {what} | {by} | {len(paths)} | {', '.join(f'`{path}`' for path in paths)} |"


def lines_of_costs() -> list[str]:
    of_types = [row_of_cost(it.variant, f"`{it.type}`", files_with_all_of(it)) for it in SUMS]
    return [*of_types, *(row_of_cost(*it) for it in writers())]


def check_costs() -> Iterator[Complaint]:
    lines = text_of(ARCHITECTURE).splitlines()
    for line in lines_of_costs():
        if line not in lines:
            what = "the table of what a new variant costs differs from the sources: docs/check.py write"
            yield Complaint(ARCHITECTURE, 1, what)


def write_costs() -> None:
    text = ARCHITECTURE.read_text()
    for line in lines_of_costs():
        head = "|".join(line.split("|")[:3])
        text = re.sub(rf"(?m)^{re.escape(head)}\|.*$", lambda _: line, text)
    ARCHITECTURE.write_text(text)


def check_files() -> Iterator[Complaint]:
    for crate in sorted((TOP / "crates").iterdir()):
        for path in headings.files_of(crate) if crate.is_dir() else ():
            if not headings.heading(path):
                yield Complaint(path, 1, "nothing says what the file has")
    for path in headings.decisions():
        if not path.is_file():
            yield Complaint(TOP / "docs" / "decisions.txt", 1, f"there is no {path.relative_to(TOP)}")


PLANTED = Path("must-fail", "planted.edit")
BUG = "# "
# Above the first bug: modules that no bug needs, so that the check passes over them.
TURNED_OFF = "## What no bug needs is turned off:"
OFF = "#[cfg(test)] "


@cache
def bugs(crate: str) -> frozenset[str]:
    """The names of a crate's planted bugs."""
    edit = TOP / "crates" / crate / PLANTED
    lines = edit.read_text().splitlines() if edit.is_file() else []
    return frozenset(it.removeprefix(BUG) for it in lines if it.startswith(BUG))


def check_turned_off(edit: Path) -> Iterator[Complaint]:
    """The part above an edit's first bug says what it is, and only puts `OFF` before lines that declare or bring in a
    module."""
    head, old = [], ""
    for line in edit.read_text().splitlines():
        if line.startswith(BUG):
            break
        head.append(line)
    if any(it.startswith("file: ") for it in head) and head[0] != TURNED_OFF:
        yield Complaint(edit, 1, "a bug has no name, or what is turned off isn't said to be")
    for number, line in enumerate(head, 1):
        key, _, words = line.partition(": ")
        if key == "old":
            old = words
            if not re.fullmatch(r"(pub )?(mod|use) [^;]+[;{]", words):
                yield Complaint(edit, number, "only a module, or what brings it in, is turned off")
        elif key == "new" and words != OFF + old:
            yield Complaint(edit, number, f"what is turned off has {OFF.strip()} before it, and is the same else")


def check_edits() -> Iterator[Complaint]:
    """A crate's bugs are in one file, each below its name, and each pair applies to what the earlier ones made."""
    for edit in sorted((TOP / "crates").glob("*/must-fail/*.edit")):
        if edit.name != PLANTED.name:
            yield Complaint(edit, 1, f"a crate's bugs stand in {PLANTED}")
        yield from check_turned_off(edit)
        made: dict[Path, str] = {}
        path, names = edit, set[str]()
        olds = 0
        for number, line in enumerate(edit.read_text().splitlines(), 1):
            key, _, words = line.partition(": ")
            if line.startswith(BUG):
                path = edit
                if line in names:
                    yield Complaint(edit, number, "a bug above has this name")
                if not re.fullmatch(rf"{BUG}\w+", line):
                    yield Complaint(edit, number, "a bug's name is one word")
                names.add(line)
            match key:
                case "file":
                    path = edit.parent.parent / words
                    if not path.is_file():
                        yield Complaint(edit, number, f"there is no {words}")
                        break
                    made.setdefault(path, path.read_text())
                case "old":
                    old, olds = words, olds + 1
                    if path not in made or (count := made[path].count(old)) != 1:
                        times = count if path in made else 0
                        yield Complaint(edit, number, f"the text is {times} times in {path.name}")
                        break
                case "new":
                    made[path] = made[path].replace(old, words)
        if not olds:
            yield Complaint(edit, 1, "it changes nothing")


REFUSED = "-- refused here: "


def check_refusals() -> Iterator[Complaint]:
    """The bugs that an answer says it refuses."""
    for path in sources("proofs"):
        for number, line in enumerate(text_of(path).splitlines(), 1):
            for name in line.removeprefix(REFUSED).split(", ") if line.startswith(REFUSED) else ():
                if name not in bugs(path.relative_to(TOP / "crates").parts[0]):
                    yield Complaint(path, number, f"there is no bug {name}")


SCRIPTS = ("tests", "tools", "bench", "lib", "docs", "release", "examples", "conformance")


def check_scripts() -> Iterator[Complaint]:
    """The scripts that name what runs them."""
    for path in sorted(it for folder in SCRIPTS for it in (TOP / folder).rglob("*") if it.is_file()):
        with path.open("rb") as it:
            if it.read(2) == b"#!" and not os.access(path, os.X_OK):
                yield Complaint(path, 1, "it isn't executable")


def check_headline() -> Iterator[Complaint]:
    """The lists of definitions of the headline."""
    if headline.rewritten(text := headline.PAGE.read_text()) != text:
        yield Complaint(headline.PAGE, 1, "it lists other definitions, or other lines of them")


# --- the interface of the library, and its words


LIBRARY = TOP / "docs" / "library.md"
WORDS = "## Words\n"


def words_of(column: int) -> dict[str, int]:
    """The names in backticks of a column of the table of words, and the line of each; 0 if it is there twice."""
    found: dict[str, int] = {}
    lines = text_of(LIBRARY).splitlines()
    begins = lines.index(WORDS.strip())
    for number, line in enumerate(lines[begins:], begins + 1):
        if line.startswith("## ") and number > begins + 1:
            break
        if line.startswith("| ") and (cells := [it.strip() for it in line.strip("|").split("|")])[0] != "word":
            for name in re.findall(r"`([^`]+)`", cells[column]):
                found[name] = 0 if name in found else number
    return found


def names_in_c() -> set[str]:
    """Functions, types, enums and constants of the header. What an enum has follows from its name."""
    it = interface.header()
    named = {one.name for one in it.functions} | {one.name for one in it.structs} | {one.name for one in it.enums}
    named |= {one.name for one in it.constants}
    # (results are those of their functions, and need no word)
    macros = re.findall(r"#define (DT_\w+)\(", text_of(interface.HEADER))
    return {*named, *it.opaque, *macros}


def names_in_python() -> set[str]:
    """What the package hands out."""
    path = TOP / "bindings" / "python" / "deltat" / "__init__.py"
    listed = re.search(r"^__all__ = \[(.*?)\]", text_of(path) if path.is_file() else "", re.DOTALL | re.MULTILINE)
    return set(re.findall(r"\"(\w+)\"", listed[1])) if listed else set()


def names_in_rust() -> set[str]:
    """What the crate hands out."""
    path = TOP / "bindings" / "rust" / "deltat" / "src" / "lib.rs"
    text = text_of(path) if path.is_file() else ""
    listed = re.findall(r"^pub use [\w:]+?::(?:\{([^}]*)\}|(\w+));", text, re.MULTILINE)
    functions = re.findall(r"^pub fn (\w+)", text, re.MULTILINE)
    return {name for pair in listed for name in re.findall(r"\w+", " ".join(pair))} | set(functions)


def check_interface() -> Iterator[Complaint]:
    for path, what in interface.differences():
        yield Complaint(path, 1, what)
    public = (("C", names_in_c()), ("Python", names_in_python()), ("Rust", names_in_rust()))
    for column, (language, names) in enumerate(public, 2):
        listed = words_of(column)
        for name in sorted(names - listed.keys()) if names else ():
            yield Complaint(LIBRARY, 1, f"the table of words hasn't {name}, a name in {language}")
        for name, line in listed.items() if names else ():
            if name not in names:
                yield Complaint(LIBRARY, line, f"{language} has no {name}")
            elif line == 0:
                yield Complaint(LIBRARY, 1, f"the table of words has {name} twice")


# --- what pages for users say by a law


def is_law(name: str) -> bool:
    """Whether a public function has this contract: CRATE::LAW, or CRATE::LAW.CLAUSE."""
    crate, _, rest = name.partition("::")
    law, _, clause = rest.partition(".")
    has = [set(it.ensures) for it in functions() if (it.crate, it.name) == (crate, law) and it.is_public]
    return any(clause in it if clause else it for it in has)


def check_laws() -> Iterator[Complaint]:
    for page in (laws.HEADER, laws.LIBRARY):
        for line, sentence in laws.unknown(page):
            yield Complaint(page, line, f"it speaks of a law, and docs/laws.py doesn't know of which: {sentence[:80]}")
    for claim in laws.CLAIMS:
        if claim.says not in laws.text_of(claim.page):
            yield Complaint(claim.page, 1, f"docs/laws.py has a sentence that isn't here: {claim.says[:80]}")
        for law in claim.laws:
            if not is_law(law):
                yield Complaint(claim.page, 1, f"no such law: {law}, by which it says: {claim.says[:80]}")
    listed = set(re.findall(r"^\| `([\w:.]+)` \|", text_of(GUARANTEES), re.MULTILINE))
    for law in sorted({law.partition(".")[0] for claim in laws.CLAIMS for law in claim.laws}):
        if law not in {it.partition(".")[0] for it in listed}:
            yield Complaint(GUARANTEES, 1, f"the table of laws hasn't {law}, which docs/laws.py names")


def check_map() -> Iterator[Complaint]:
    for it in rooms.wrong():
        yield Complaint(ARCHITECTURE, 1, it)


def complaints() -> Iterator[Complaint]:
    for page in PAGES:
        yield from check_links(page)
        yield from check_names(page)
        yield from check_laws_listed(page)
    yield from check_run()
    yield from check_crates()
    yield from check_libraries()
    yield from check_formats()
    yield from check_costs()
    yield from check_files()
    yield from check_edits()
    yield from check_refusals()
    yield from check_headline()
    yield from check_scripts()
    yield from check_interface()
    yield from check_laws()
    yield from check_map()


def main(words: list[str]) -> int:
    match words:
        case []:
            found = list(complaints())
            for it in found:
                print(it)
            print(f"docs/check.py: {len(PAGES)} pages, {len(found)} complaints")
            return 1 if found else 0
        case ["write"]:
            write_crates()
            write_costs()
            headline.main(words)
            return 0
        case ["clauses"]:
            print(page_of_clauses(), end="")
            return 0
        case ["-h" | "--help"]:
            print(__doc__)
            return 0
    print(__doc__, file=sys.stderr)
    return 2


if __name__ == "__main__":
    sys.exit(main(sys.argv[1:]))
