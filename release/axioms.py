#!/usr/bin/env python3
"""Which contracts of C functions the proofs of the program and of the library for C rest on: a list in docs/proved.md.

    axioms.py --write    proves both again, over what the gate left, and writes the list: some minutes
    axioms.py --check    ends with 1 where the list can't be right

The compiler takes the contract of a C function as it is written. Asked by `--list-axioms`, it says which of these
contracts a proof reached, called or not. `--check` proves nothing: each listed function has to be one that the kit
declares, and those that the program and the library ask for have to be listed. Which ones the program asks for, and
what the compiler said when `libraries.py` made the library, have to be as in the list.
"""

import pathlib
import re
import shutil
import sys
import tempfile
import textwrap
from typing import NamedTuple

from release import libraries
from release.proof import Refused, kit_folder, ran
from tools import TOP
from tools.house.crate_graph import read_crates

PAGE = TOP / "docs/proved.md"
BEGIN, END = "## Contracts of C functions\n", "\n## "
TEXT = """\
The kit declares {count} functions in C, whose contracts the compiler takes as they are written. A proof rests on
those that it reaches, called or not, and on no other: that of the program on {program}, that of the library for C on
{library}. The program asks for those in bold. `release/axioms.py` made the list.
"""
HEAD = "| Declared in | Program | Library for C |\n|---|---|---|\n"
# The crates of the kit that declare functions in C.
DECLARING = ("libc", "os", "std")


class Reached(NamedTuple):
    """The functions in C, by their whole names, that the program's and the library's proofs rest on, and those that the
    program asks for."""

    program: set[str]
    library: set[str]
    called: set[str]


class Built(NamedTuple):
    """What a gate left, if it did: the program's object file, the library for C, and what the compiler said of it."""

    program: pathlib.Path
    library: pathlib.Path
    report: pathlib.Path


def reached_of(said: str) -> set[str]:
    """The functions in C that a proof rests on, by what the compiler said of it. Refused where that is no report."""
    if not re.search(r"^axioms \w+: .* declared$", said, re.M):
        raise Refused("the compiler said nothing of functions in C: was it asked by --list-axioms?")
    return set(re.findall(r"^  ([\w:]+)   reached$", said, re.M))


def declared(kit: pathlib.Path) -> set[str]:
    """The names of all functions in C that the kit's crates declare."""
    found = set()
    for path in sorted(path for name in DECLARING for path in (kit / "rattle" / name / "src").rglob("*.rt")):
        for block in re.findall(r'^( *)unsafe extern "C" \{\n(.*?)^\1\}', path.read_text(encoding="utf-8"),
                                re.M | re.S):
            found |= set(re.findall(r"\bfn (\w+)", re.sub(r"//[^\n]*", "", block[1])))
    return found


def asked_for(path: pathlib.Path) -> set[str]:
    """The names that an object file or an archive asks for."""
    return {line.split()[-1] for line in ran(["nm", "-u", path]).splitlines() if line.strip().startswith("U ")}


def short(name: str) -> str:
    return name.rpartition("::")[2]


def cell(names: set[str], home: str, called: set[str]) -> str:
    """The names that are declared in one module, those that are called in bold."""
    here = sorted(name for name in names if name.rpartition("::")[0] == home)
    return ", ".join(f"**`{short(name)}`**" if name in called else f"`{short(name)}`" for name in here)


def section(reached: Reached, count: int) -> str:
    """The part of the page that has the list, of so many declared functions."""
    text = TEXT.format(count=count, program=len(reached.program), library=len(reached.library))
    homes = sorted({name.rpartition("::")[0] for name in reached.program | reached.library})
    rows = [f"| `{home}` | {cell(reached.program, home, reached.called)} | {cell(reached.library, home, set())} |\n"
            for home in homes]
    return f"{BEGIN}\n{textwrap.fill(text, 118, break_on_hyphens=False)}\n\n{HEAD}{''.join(rows)}"


def names_in(text: str, home: str) -> set[str]:
    return {f"{home}::{name}" for name in re.findall(r"`(\w+)`", text)}


def listed(page: str) -> Reached:
    """The list in a page. Refused where the page has none."""
    at = page.find(BEGIN)
    rows = re.findall(r"^\| `([\w:]+)` \| (.*) \| (.*) \|$", page[at : page.find(END, at + 1)], re.M)
    if at < 0 or not rows:
        raise Refused("docs/proved.md has no list of contracts of C functions")
    found = Reached(set(), set(), set())
    for home, program, library in rows:
        found.program.update(names_in(program, home))
        found.library.update(names_in(library, home))
        found.called.update(names_in(" ".join(re.findall(r"\*\*`\w+`\*\*", program)), home))
    return found


def rewritten(page: str, reached: Reached, count: int) -> str:
    """The page with the list in its place."""
    at = page.index(BEGIN)
    return page[:at] + section(reached, count) + page[page.index(END, at + 1) :]


def called_of(names: set[str], program: pathlib.Path) -> set[str]:
    """Which of these functions the program's object file asks for."""
    asked = asked_for(program)
    return {name for name in names if short(name) in asked}


def faults(page: str, kit: pathlib.Path, built: Built):
    """What is wrong with the list in a page, a line each. What no gate left is passed over."""
    found, known = listed(page), declared(kit)
    if page != rewritten(page, found, len(known)):
        yield "docs/proved.md: the list isn't in its form, or counts other functions than the kit declares"
    for name in sorted(found.program | found.library):
        if short(name) not in known:
            yield f"{name} is listed, and the kit declares no such function"
    for what, part, path in (("program", found.program, built.program), ("library", found.library, built.library)):
        asked = asked_for(path) & known if path.exists() else set()
        for name in sorted(asked - {short(name) for name in part}):
            yield f"the {what} asks for {name}, which isn't listed for it"
    if built.program.exists() and called_of(found.program, built.program) != found.called:
        yield f"the program asks for others: {' '.join(sorted(called_of(found.program, built.program) ^ found.called))}"
    others = reached_of(built.report.read_text()) ^ found.library if built.report.exists() else set()
    if others:
        yield f"the library's proof rests on other contracts: {' '.join(sorted(others))}"


def prove(crates: dict[str, list[str]]) -> Reached:
    """Proves the program and the library over what the gate left, for what the compiler says of functions in C."""
    kit, said = kit_folder(), []
    for name, source, kind in (("surf", "src/main.rt", []),
                               (libraries.NAME, "src/lib.rt", ["--crate-type", "staticlib"])):
        with tempfile.TemporaryDirectory() as room:
            words = [*libraries.build_words(kit, name, source, crates), *kind, "--toolchain", kit / "toolchain"]
            said.append(ran([*words, "-o", pathlib.Path(room) / "made"], cwd=TOP / "crates" / name))
            libraries.verdict_of(said[-1])
    program, library = map(reached_of, said)
    return Reached(program, library, called_of(program, libraries.OBJECT))


def main() -> int:
    missing = [tool for tool in ("rt", "nm") if not shutil.which(tool)]
    if missing:
        print(f"the list of contracts of C functions isn't compared, since {missing[0]} isn't here")
        return 0
    try:
        if sys.argv[1:] == ["--write"]:
            reached = prove(read_crates((TOP / "crates.txt").read_text()))
            PAGE.write_text(rewritten(PAGE.read_text(), reached, len(declared(kit_folder()))))
        elif sys.argv[1:] != ["--check"]:
            sys.exit(__doc__)
        built = Built(libraries.OBJECT, libraries.MADE, libraries.REPORT)
        wrong = list(faults(PAGE.read_text(), kit_folder(), built))
    except Refused as fault:
        wrong = [str(fault)]
    for fault in wrong:
        print(fault)
    print(f"contracts of C functions: {len(wrong)} faults in the list of docs/proved.md")
    return 1 if wrong else 0


if __name__ == "__main__":
    sys.exit(main())
