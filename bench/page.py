#!/usr/bin/env python3
"""Writes the tables and pictures of docs/speed.md as they were measured, or checks that they are so.

    bench/page.py [--check]

What was measured are the tables in `bench/measured`, which the scripts of this folder write with `--keep`. A table of
the page is known by its head, and its rows are those of the measured table with that head; what stands around them is
written by hand. The pictures are those of `bench/charts.py`. With `--check` nothing is written: each table and picture
that isn't the measured one is told, and so is each peer's function or version in README that `bench/peers.py` didn't
run. Then the status is 1.
"""
import argparse
import itertools
import re
import sys
from collections.abc import Iterator

from bench import charts, peers, tables
from tools import TOP

PAGE = TOP / "docs" / "speed.md"
README = TOP / "README.md"
PICTURES = TOP / "docs" / "pictures"


def shown_tables() -> dict[str, list[str]]:
    """The lines of the rows of each measured table that the page may show, by the line of its head."""
    names = {path.stem for path in tables.MEASURED.glob("*.tsv")} - {peers.ALL_RUNS, peers.FUNCTIONS}
    found = [*(tables.kept(name) for name in sorted(names)), (peers.HEAD, peers.shown(peers.kept_runs()))]
    return {tables.line(head): [tables.line(row) for row in rows] for head, rows in found if rows}


def blocks_of(page: str) -> list[list[str]]:
    """The lines of a page in blocks: each table is one, and what stands between two."""
    return [list(block) for _, block in itertools.groupby(page.splitlines(), lambda line: line.startswith("|"))]


def with_measured(page: str, shown: dict[str, list[str]]) -> str:
    """The text of the page with the measured rows below each head."""
    lines: list[str] = []
    for block in blocks_of(page):
        lines += [*block[:2], *shown[block[0]]] if block[0] in shown else block
    return "\n".join(lines) + "\n"


def page_faults(page: str, shown: dict[str, list[str]]) -> Iterator[str]:
    """The tables of the page that aren't as they were measured, each by the first line that differs or is too much,
    and the measured tables that it lacks."""
    tables_here = [block for block in blocks_of(page) if block[0].startswith("|")]
    for head, _, *rows in tables_here:
        if head not in shown:
            yield f"docs/speed.md: no such table was measured: {head}"
        elif rows != shown[head]:
            pairs = itertools.zip_longest(rows, shown[head], fillvalue="nothing")
            here, due = next(pair for pair in pairs if pair[0] != pair[1])
            yield f"docs/speed.md: {here}\n    where was measured: {due}"
    heads = {block[0] for block in tables_here}
    yield from (f"docs/speed.md: the table lacks: {head}" for head in shown if head not in heads)


def functions_in_table(readme: str) -> Iterator[tuple[str, str]]:
    """The peers and their functions in the table whose last column is surf's."""
    rows = [[cell.strip() for cell in line.split("|")[1:-1]] for line in readme.splitlines() if line.startswith("|")]
    head = next(cells for cells in rows if cells[-1] == "surf")
    for cells in (cells for cells in rows[rows.index(head) + 1 :] if len(cells) == len(head)):
        for column, cell in zip(head[1:-1], cells[1:-1]):
            yield from ((column.split()[0], function) for function in re.findall(r"`(\w+)`", cell))


def readme_faults(readme: str, tried: list[peers.Tried]) -> Iterator[str]:
    """Versions and functions of peers that README names and that weren't tried."""
    versions, functions = {(one.peer, one.release()) for one in tried}, {(one.peer, one.function) for one in tried}
    version = rf"\b({'|'.join(peers.OF_OTHERS)})\s(\d+(?:\.\d+)+)"
    named = [*re.findall(rf"{version}\s\(`(\w+)`\)", readme), *functions_in_table(readme)]
    for peer, release in re.findall(version, readme):
        if (peer, release) not in versions:
            yield f"README.md: {peer} {release} wasn't tried"
    for peer, *_, function in named:
        if (peer, function) not in functions:
            yield f"README.md: {function} of {peer} wasn't tried"


def pictures() -> dict[str, str]:
    """The pictures of what was measured, by their names."""
    runs = peers.kept_runs()
    return charts.pictures(runs) if runs else {}


def picture_faults() -> Iterator[str]:
    for name, svg in pictures().items():
        path = PICTURES / name
        if not path.exists() or path.read_text() != svg:
            yield f"docs/pictures/{name} isn't drawn of the measured table"


def faults() -> list[str]:
    """All that stands in the documents and wasn't measured."""
    found = [*page_faults(PAGE.read_text(), shown_tables()), *readme_faults(README.read_text(), peers.kept_functions())]
    return [*found, *picture_faults()]


def write() -> None:
    PAGE.write_text(with_measured(PAGE.read_text(), shown_tables()))
    for name, svg in pictures().items():
        (PICTURES / name).write_text(svg)


def main() -> int:
    parser = argparse.ArgumentParser(description=__doc__, formatter_class=argparse.RawDescriptionHelpFormatter)
    parser.add_argument("--check", action="store_true")
    if not parser.parse_args().check:
        write()
    found = faults()
    for fault in found:
        print(fault)
    return 1 if found else 0


if __name__ == "__main__":
    sys.exit(main())
