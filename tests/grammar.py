"""What the program writes, as docs/formats.md has it: each line, and what a whole output is made of. A
function raises `Wrong` where an output isn't so.

In tests/all: not a test."""
import re

NUMBER = "(?:0|[1-9][0-9]*)"
FLOW = f"{NUMBER}:{NUMBER}>{NUMBER}:{NUMBER}"
# the names in the lines below
NAMES = {
    "N": NUMBER, "FLOW": FLOW, "SENT": "(?:d?be|d?b|d?e|d|-)", "READ": "(?:r?be|r?b|r?e|r|-)", "HEX": "(?:[0-9a-f]{2})",
    "BAD": "(?:short N|version N|length N N|dead|protocol N|kind N|flags N|window N|size N)".replace("N", NUMBER),
}
REPORTS = """
took FLOW N
refused FLOW (?:quiet|full) N
sent FLOW N N SENT
resent FLOW N N SENT
met FLOW N
uncertain FLOW N
released FLOW (?:send|receive)
renewed FLOW
acked FLOW N N
replied FLOW N N
accepted FLOW N N (?:run|on)
dropped FLOW N
closing FLOW N
settled FLOW N N
ignored FLOW N N
quiet N
read FLOW READ HEX+
nothing FLOW
expired (?:in|out) N
noroute N
full N
bad BAD
"""
OF_A_WORLD = "put N N as N\nrestarted N"
OF_A_NODE = "put N N\nunsent N\nshelved FLOW N\nnoshelf FLOW N\nagain FLOW N\nstale FLOW N"
FAULTS = """
word
count
number
flow
hex
order
param (?:mpl|r|a|rto|probe|seg|cap|rcap|window|run_limit) N
twice N
unknown N
stray N
bad flow
no station N
no copy N
lost N
too late N N
"""
OF_CALLS = """
N call N FLOW N
N declined N
N served N
N answered N HEX+
N unsure N
"""
FLAWS = "count|flow|number|word|stray|breaks S[1346]"


class Wrong(Exception):
    """What the program did isn't what it should."""


def one_of(texts: str) -> str:
    """The pattern of the lines that stand here."""
    return "|".join(
        re.sub(r"\b(FLOW|SENT|READ|HEX|BAD|N)\b", lambda it: NAMES[it[0]], line) for line in texts.split("\n") if line
    )


FAULT = re.compile(f"line {NUMBER}: (?:{one_of(FAULTS)})")
FLAW = re.compile(f"line {NUMBER}: (?:{FLAWS})")
WORLD = re.compile(f"{NUMBER} (?:{NUMBER} (?:{one_of(REPORTS)}|{one_of(OF_A_WORLD)})|lost {NUMBER})")
NODE = re.compile(f"{NUMBER} {NUMBER} (?:{one_of(REPORTS)}|{one_of(OF_A_NODE)})")
CALL = re.compile(one_of(OF_CALLS))
TOTALS = re.compile(
    f"flow {FLOW} taken {NUMBER} acked {NUMBER} uncertain {NUMBER} open {NUMBER} given {NUMBER} read {NUMBER}"
)
COUNTS = re.compile(
    f"calls {NUMBER} served {NUMBER} answered {NUMBER} unsure {NUMBER} declined {NUMBER} waiting {NUMBER}"
)
END = re.compile(f"end {NUMBER}")


def lines_of(out: bytes) -> list[str]:
    """The lines of an output, the last one with its line feed too."""
    lines = out.decode("latin-1").split("\n")
    if lines.pop():
        raise Wrong("an output that ends within a line")
    return lines


def wants(pattern: re.Pattern[str], line: str) -> None:
    if not pattern.fullmatch(line):
        raise Wrong(f"no line of the format: {line[:200]}")


def body(out: bytes, pattern: re.Pattern[str], tail: list[re.Pattern[str]]) -> list[list[str]]:
    """The words of the lines before a tail, which has the lines of these forms. Their moments never fall."""
    lines = lines_of(out)
    if len(lines) < len(tail):
        raise Wrong("an output without its end")
    for form, line in zip(reversed(tail), reversed(lines)):
        wants(form, line)
    told = lines[:len(lines) - len(tail)]
    for line in told:
        wants(pattern, line)
    words = [line.split(" ") for line in told]
    moments = [int(it[0]) for it in words]
    if moments != sorted(moments):
        raise Wrong("a moment before the one of the line before")
    return words


def log_of_world(out: bytes, accepted: bool) -> tuple[list[list[str]], dict[str, list[int]]]:
    """The lines of a log of `replay` and the totals of its flows, in their order; none where it was refused."""
    if not accepted:
        return body(out, WORLD, [FAULT]), {}
    lines = lines_of(out)
    count = sum(line.startswith("flow ") for line in lines)
    told = body(out, WORLD, [*[TOTALS] * count, END])
    return told, {
        it[1]: [int(value) for value in it[3::2]] for it in (line.split(" ") for line in lines[-1 - count : -1])
    }


def log_of_node(out: bytes, status: int) -> list[list[str]]:
    """The lines of a node's log. Where the status is 3, a refused line is all that is written."""
    if status == 3:
        wants(FAULT, "\n".join(lines_of(out)))
        return []
    return body(out, NODE, [END] if status == 0 else [])


def told_of_calls(out: bytes, accepted: bool) -> tuple[list[list[str]], list[int]]:
    """The lines of calls, and their counts: calls, served, answered, unsure, declined, waiting."""
    if not accepted:
        return body(out, CALL, [FAULT]), []
    return body(out, CALL, [COUNTS, END]), [int(it) for it in lines_of(out)[-2].split(" ")[1::2]]


def verdict_of(out: bytes, accepted: bool) -> str:
    """The line of an audit."""
    lines = lines_of(out)
    if len(lines) != 1:
        raise Wrong(f"{len(lines)} lines of a verdict")
    if accepted and lines[0] != "audit yes":
        raise Wrong(f"no verdict: {lines[0][:200]}")
    if not accepted:
        wants(FLAW, lines[0])
    return lines[0]
