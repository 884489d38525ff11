#!/usr/bin/env python3
"""Makes links of the pages in a folder plain words where they lead to nothing there: `release/pages.py FOLDER`.

A package has the pages, and not all of the repository that they name. Such a link keeps its words, and behind them
stands `(in the repository)`. Ends with 2 where the words are wrong."""
import re
import sys
from pathlib import Path

LINK = re.compile(r"\[([^\]]+)\]\((?!https?:)([^)#]+)(?:#[^)]*)?\)")


def plain(page: Path) -> str:
    """The text of a page, with the links that lead somewhere."""
    return LINK.sub(
        lambda it: it[0] if (page.parent / it[2]).exists() else f"{it[1]} (in the repository)", page.read_text()
    )


def main(words: list[str]) -> int:
    if words in (["-h"], ["--help"]) or len(words) != 1:
        print(__doc__, file=sys.stdout if len(words) == 1 else sys.stderr)
        return 0 if len(words) == 1 else 2
    for page in sorted(Path(words[0]).rglob("*.md")):
        page.write_text(plain(page))
    return 0


if __name__ == "__main__":
    sys.exit(main(sys.argv[1:]))
