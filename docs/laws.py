"""What pages for users say by a law: each such sentence, and the laws that carry it.

docs/check.py refuses a sentence of these files that speaks of a law and isn't here, one that is here and isn't there
any more, and one whose law is gone: no public function of that crate has that name, or it has no such clause.
"""

import re
from pathlib import Path
from typing import NamedTuple

TOP = Path(__file__).resolve().parent.parent
HEADER = TOP / "include" / "deltat.h"
LIBRARY = TOP / "docs" / "library.md"


class Claim(NamedTuple):
    """A sentence, or the part of one, and the laws that carry it: CRATE::LAW, or CRATE::LAW.CLAUSE. A sentence that
    says what no law says has none."""

    page: Path
    says: str
    laws: tuple[str, ...] = ()


OCTETS = ("dt_network::what_is_read_is_what_was_sent",)
LEDGER = ("dt_network::reports_tell_a_safe_ledger", "dt_network::what_was_settled_was_accepted")
WORLD = ("dt_network::network_is_a_world",)
MESSAGES = ("dt_service_laws::whole_messages_come_once_and_in_order.network",)
MAILBOX = ("dt_mailbox_laws::mailbox_hands_out_messages_once_and_in_order",)
SERVICES = (
    "dt_service_laws::requests_are_calls_once_and_in_their_order",
    "dt_service_laws::names_are_called_handed_out_and_replied_to_once.handed_out",
    "dt_service_laws::answers_are_what_the_service_gave",
    "dt_service_laws::calls_end_once.ends",
)

CLAIMS = (
    Claim(
        HEADER,
        "No octet is delivered twice, a flow's octets stay in order, and reports say which sent octets were "
        "acknowledged and which are uncertain.",
        OCTETS + LEDGER,
    ),
    Claim(
        HEADER,
        "What the calls of several nodes give together is proved by the laws of crates/dt_network and "
        "crates/dt_service_laws, under all duties and the assumptions below them.",
        OCTETS + LEDGER + WORLD + MESSAGES + SERVICES,
    ),
    Claim(HEADER, "The laws assume more than these duties."),
    Claim(
        HEADER,
        "that is within the laws if each datagram takes 1 ms at least and charges are 1 ms longer than delays.",
        OCTETS + WORLD,
    ),
    Claim(HEADER, "no law says that this suffices"),
    Claim(HEADER, "By the laws of messages", MESSAGES + MAILBOX),
    Claim(
        HEADER,
        "a request is handed out at most once, requests of a flow are handed out in the order in which they were "
        "made, an answer is the service's own answer to that very call, and a call ends at most once.",
        SERVICES,
    ),
    Claim(LIBRARY, "Four laws state what a program can rely on", OCTETS + LEDGER + WORLD),
    Claim(
        LIBRARY,
        "The octets that the reads of a flow returned are octets that its sends took: each at most once, in order, "
        "with the marks of their messages, over all restarts.",
        OCTETS,
    ),
    Claim(LIBRARY, "This law assumes that every call found memory.", LEDGER[:1]),
    Claim(
        LIBRARY,
        "Octets that the sender's reports acknowledge are among those that the reader's reports tell as accepted, "
        "however often either node opened again.",
        LEDGER[1:],
    ),
    Claim(LIBRARY, "This follows from the second law.", LEDGER[1:]),
    Claim(LIBRARY, "Beside the calls there is a world of the definitions in which every node is its station.", WORLD),
    Claim(LIBRARY, "Two more laws are about whole messages.", MESSAGES + MAILBOX),
    Claim(
        LIBRARY,
        "Messages that a program joins from its reads by the definition were sent, each at most once, in order "
        "(dt_service_laws).",
        MESSAGES,
    ),
    Claim(
        LIBRARY,
        "And so are the messages that a mailbox hands out of a flow that it alone reads, over any calls "
        "(dt_mailbox_laws).",
        MAILBOX,
    ),
    Claim(LIBRARY, "The laws stand in crates above the library's.", OCTETS + MESSAGES + MAILBOX),
    Claim(LIBRARY, "`./build --only dt_c` proves the functions", OCTETS + MESSAGES + MAILBOX),
    Claim(LIBRARY, "laws hold of networks of services", SERVICES),
    Claim(LIBRARY, "The others are part of the premises of the laws."),
    Claim(LIBRARY, "The laws say nothing of a program that keeps only the duties."),
    Claim(LIBRARY, "Only the second law, and the third over it, ask that calls find memory.", LEDGER),
)


def sentences(page: Path) -> list[tuple[int, str]]:
    """The sentences of a page, each with the line on which it begins."""
    words: list[tuple[int, str]] = []
    for number, line in enumerate(page.read_text().splitlines(), 1):
        # (the frame of C's comments, and where a page's links lead, are no words of it)
        plain = re.sub(r"^ ?\*/?( |$)|/\*|\*/", " ", line) if page == HEADER else re.sub(r"\]\([^)]*\)", "]", line)
        words += ((number, it) for it in plain.split())
    found: list[tuple[int, str]] = []
    begun: list[tuple[int, str]] = []
    for number, word in words:
        begun.append((number, word))
        if word.endswith((".", ":", ".*", "*:")) or word.endswith(".)"):
            found.append((begun[0][0], " ".join(it for _, it in begun)))
            begun = []
    return [*found, *([(begun[0][0], " ".join(it for _, it in begun))] if begun else [])]


def text_of(page: Path) -> str:
    return " ".join(it for _, it in sentences(page))


SPEAKS = re.compile(r"\b[Ll]aws?\b")


def unknown(page: Path) -> list[tuple[int, str]]:
    """The sentences of a page that speak of a law, and of which no claim knows."""
    known = [it.says for it in CLAIMS if it.page == page]
    return [
        (line, it)
        for line, it in sentences(page)
        if SPEAKS.search(it) and not any(says in it or it in says for says in known)
    ]
