#!/usr/bin/env python3
"""Draws how the crates stand on each other, from crates.txt.

    crate_graph.py             prints the drawing
    crate_graph.py --write     puts it into docs/architecture.md
    crate_graph.py --check     ends with 1 where the drawing there is old
    crate_graph.py --unused    lists the libraries that a crate lists and none of its files uses

The drawing is the transitive reduction: a line from a crate to one below it is left out where it leads there through
another. A crate stands one level above the highest that it stands on. Every name has `surf_` before it.
"""

import re
import sys

from tools import TOP

PAGE = TOP / "docs" / "architecture.md"
BEGIN, END = "```text crates.txt\n", "```\n"


def read_crates(text: str) -> dict[str, list[str]]:
    """The crates in the order of the file, each with the libraries that it lists."""
    found = {}
    for line in text.splitlines():
        line = line.split("#", 1)[0].strip()
        if line:
            name, listed = line.split(":", 1)
            found[name.split()[0]] = listed.split()
    return found


def below(crates, name, known):
    """All crates of the repository below a crate."""
    if name not in known:
        own = [dep for dep in crates[name] if dep in crates]
        known[name] = set(own).union(*(below(crates, dep, known) for dep in own))
    return known[name]


def reduced(crates: dict[str, list[str]]) -> dict[str, list[str]]:
    """What each crate stands on directly, without what those stand on."""
    known, found = {}, {}
    for name in crates:
        own = [dep for dep in crates[name] if dep in crates]
        found[name] = [dep for dep in own if not any(dep in below(crates, other, known) for other in own)]
    return found


def level(graph, name, known):
    if name not in known:
        known[name] = 1 + max((level(graph, dep, known) for dep in graph[name]), default=0)
    return known[name]


def short(name: str) -> str:
    return name.removeprefix("surf_")


def drawing(crates: dict[str, list[str]]) -> str:
    graph, levels = reduced(crates), {}
    for name in crates:
        level(graph, name, levels)
    wide = max(len(short(name)) for name in crates) + 2
    rows = []
    for height in range(max(levels.values()), 0, -1):
        names = sorted(name for name in crates if levels[name] == height)
        for place, name in enumerate(names):
            kit = [dep for dep in crates[name] if dep not in crates]
            under = ", ".join(sorted(short(dep) for dep in graph[name]))
            under += ("; of the kit " if under else "of the kit ") + ", ".join(kit) if kit else ""
            head = f"{short(name)}:" if under else short(name)
            rows.append(f"{height if place == 0 else '':>2}  {head:<{wide}}{under}".rstrip())
    return "\n".join(rows) + "\n"


def uses(crate, library):
    """Whether some file of the crate names the library, in an import or in a path."""
    named = re.compile(rf"\bRattle\.{library}\.|\b{library}::|\b{library}!|^\s*(?:pub )?use {library}\b", re.M)
    return any(
        named.search(path.read_text())
        for folder in ("src", "specs", "proofs")
        for path in sorted((TOP / "crates" / crate / folder).rglob("*"))
        if path.suffix in (".rt", ".antt")
    )


def unused(crates):
    return {name: lost for name in crates if (lost := [dep for dep in crates[name] if not uses(name, dep)])}


def redrawn(page, crates):
    """The page with the drawing in its place."""
    start = page.index(BEGIN) + len(BEGIN)
    return page[:start] + drawing(crates) + page[page.index(END, start) :]


def main() -> int:
    crates = read_crates((TOP / "crates.txt").read_text())
    word = sys.argv[1] if len(sys.argv) > 1 else ""
    if word == "--unused":
        for name, lost in unused(crates).items():
            print(f"{name}: {' '.join(lost)}")
    elif word == "--write":
        PAGE.write_text(redrawn(PAGE.read_text(), crates))
    elif word == "--check":
        lost = unused(crates)
        if PAGE.read_text() != redrawn(PAGE.read_text(), crates):
            print("docs/architecture.md: the drawing of the crates is old: python3 tools crate_graph --write")
            return 1
        print(f"{len(crates)} crates are drawn as crates.txt has them, {sum(map(len, lost.values()))} lines unused")
    else:
        print(drawing(crates), end="")
    return 0


if __name__ == "__main__":
    sys.exit(main())
