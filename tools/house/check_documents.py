#!/usr/bin/env python3
"""Checks the size and the layout of the documents.

    check_documents.py           ends with 1 where there are too many words, or where a line is too long
    check_documents.py --list    prints the words of each document

Counted are README.md, CHANGELOG.md, CONTRIBUTING.md and all pages of docs/, but not what scripts make: docs/laws.md,
from the comments of the laws, and the tables of docs/speed.md, from measurements. Lines of tables, of code and of
links may be longer than 118 columns.
"""

import pathlib
import re
import sys
from collections.abc import Iterator

from tools import TOP

MOST_WORDS = 30_000
MOST_COLUMNS = 118
MADE = {"docs/laws.md"}
MEASURED = {"docs/speed.md"}


def documents(top: pathlib.Path) -> dict[str, str]:
    """The text of each document, by its name."""
    pages = [top / name for name in ("README.md", "CHANGELOG.md", "CONTRIBUTING.md")]
    pages += sorted((top / "docs").rglob("*.md"))
    texts = {str(path.relative_to(top)): path.read_text(encoding="utf-8") for path in pages if path.exists()}
    return {name: text for name, text in texts.items() if name not in MADE}


def without_tables(text: str) -> str:
    return "\n".join(line for line in text.splitlines() if not line.startswith("|"))


def words_of(texts: dict[str, str]) -> dict[str, int]:
    """The words that people wrote, by the names of documents."""
    return {name: len((without_tables(text) if name in MEASURED else text).split()) for name, text in texts.items()}


def long_lines(text: str) -> Iterator[int]:
    """The numbers of lines of prose that are too long."""
    in_code = False
    for number, line in enumerate(text.splitlines(), 1):
        if line.lstrip().startswith("```"):
            in_code = not in_code
        elif not in_code and len(line) > MOST_COLUMNS and not re.match(r"\s*\||\[[^\]]+\]:|\s*<", line):
            yield number


def faults_of(texts: dict[str, str]) -> Iterator[str]:
    for name, text in texts.items():
        for number in long_lines(text):
            yield f"{name}:{number}: longer than {MOST_COLUMNS} columns"
    total = sum(words_of(texts).values())
    if total > MOST_WORDS:
        yield f"the documents have {total} words, and {MOST_WORDS} are allowed"


def main() -> int:
    texts = documents(TOP)
    counts = words_of(texts)
    if "--list" in sys.argv[1:]:
        for name, count in counts.items():
            print(f"{count:6} {name}")
    faults = list(faults_of(texts))
    for fault in faults:
        print(fault)
    print(f"{sum(counts.values())} words in {len(counts)} documents, {len(faults)} faults")
    return 1 if faults else 0


if __name__ == "__main__":
    sys.exit(main())
