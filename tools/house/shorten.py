#!/usr/bin/env python3
"""Tries whether the lemmas of a crate are proved by less text, and keeps what the prover accepts.

    python3 tools shorten CRATE [--least N] [--steps N] [--check COMMAND]     shortens the proofs of a crate
    python3 tools shorten CRATE --uncited                                    lists its lemmas that no file cites

Each clause of a lemma that takes `--least` lines or more gets one call of a tactic in place of its body: `grind` with
the lemmas that the body cites, then `search` with them. What is refused gets the next call and at last its old body.
The prover doesn't look at lemmas that cite a refused one, so the crate is checked again until nothing is refused.
Only what follows the `=` of a clause changes. `--steps` bounds what a call of `grind` may cost. COMMAND is run in the
folder of the crate. The last line says how many lines went, and the seconds of the check before and after.

Run it in a tree whose proofs are committed: where the check ends in an error outside the new bodies, all is put back.
"""

from __future__ import annotations

import argparse
import dataclasses
import pathlib
import re
import shlex
import subprocess
import sys
import time
from collections.abc import Callable, Iterator

from tools import TOP

MARKS = r"(?:pub |abbrev |unfoldable )*"
SIGNATURE = re.compile(rf"(?P<indent> *){MARKS}(?P<name>[^\s(){{}}\[\]|,;=]+) : ")
IMPORT = re.compile(r"(?:pub )?use (?P<module>Rattle\.[^\s{]+)\.\{(?P<names>[^}]*)\}")
WORD = re.compile(r'[^\s(){}\[\].,;:|@`"]+')
ERROR = re.compile(r"^(?:\./)?(?P<path>proofs/\S+\.antt):(?P<line>\d+):\d+: error: (?P<said>.*)", re.M)
WIDTH = 120
# Files whose names the prover gives a meaning: answers to goals, and lists of modules.
OTHERS = {"Answers.antt", "Invariants.antt", "Proof.antt", "Lib.antt", "Common.antt"}


@dataclasses.dataclass(frozen=True)
class Clause:
    """One clause of a lemma: `lines[start:end]` of its file, and what a shorter body needs."""

    name: str
    start: int
    end: int
    head: str  # its lines up to the `=`
    indent: int
    cited: tuple[str, ...]  # lemmas that the body cites, in their order

    def calls(self, steps: int) -> tuple[str, ...]:
        """The calls to try in place of the body, in their order."""
        names = "".join(f", {name}" for name in self.cited)
        return (f"grind (arith{names}) steps {steps}", f"search (rules{names})")

    def text(self, call: str) -> str:
        """The clause with a call as its body."""
        line = f"{self.head} {call}"
        return line if len(line.splitlines()[-1]) <= WIDTH else f"{self.head}\n{' ' * (self.indent + 4)}{call}"


def uncommented(line: str) -> str:
    """A line without its comment."""
    return re.sub(r"(?:^|(?<=\s))--(?: .*)?$", "", line)


def imported(text: str) -> Iterator[tuple[str, str]]:
    """The names that a file imports, each with its module."""
    for found in IMPORT.finditer(text):
        for name in found["names"].split(","):
            yield found["module"], name.split(" as ")[-1].strip()


def lemmas(text: str) -> set[str]:
    """The names that proofs of a file may list for a tactic: its own lemmas, and those of other files of proofs."""
    own = {found["name"] for line in text.splitlines() if (found := SIGNATURE.match(line)) and "abbrev" not in line}
    others = {name for module, name in imported(text) if ".proofs." in module and not module.endswith(".Common")}
    return {name for name in own | others if name and not name[0].isupper() and "◌" not in name}


def end_of_head(lines: list[str]) -> tuple[int, int] | None:
    """Where the `=` of a clause stands, line and column, if it has one outside brackets."""
    depth = 0
    for at, line in enumerate(lines):
        for column, letter in enumerate(line):
            depth += (letter in "([{") - (letter in ")]}")
            if depth == 0 and re.match(r" =(?: |$)", line[column:]):
                return at, column + 2
    return None


def clause_of(name: str, lines: list[str], start: int, end: int, listed: set[str]) -> Clause | None:
    """The clause at these lines, unless it has local definitions, which a tactic can't see."""
    found = end_of_head(lines[start:end])
    if found is None or any(re.match(r"\s*where\b", line) for line in lines[start:end]):
        return None
    at, column = start + found[0], found[1]
    head = "\n".join(lines[start:at] + [lines[at][:column]])
    body = "\n".join(uncommented(line) for line in [lines[at][column:], *lines[at + 1:end]])
    cited = tuple(dict.fromkeys(word for word in WORD.findall(body) if word in listed and word != name))
    return Clause(name, start, end, head, len(lines[start]) - len(lines[start].lstrip()), cited)


def clauses(text: str, least: int) -> list[Clause]:
    """The clauses of a file's lemmas that take so many lines or more."""
    lines, listed, found = text.splitlines(), lemmas(text), []
    for at, line in enumerate(lines):
        signature = SIGNATURE.match(line)
        if not signature or signature["name"] not in listed:
            continue
        opening = re.compile(rf"{signature['indent']}{re.escape(signature['name'])} (?!: )")
        deeper = re.compile(rf"{signature['indent']}(?:\s|[\])}}])")
        next_one = at + 1
        while next_one < len(lines) and (deeper.match(lines[next_one]) or opening.match(lines[next_one])
                                         or lines[next_one].startswith(signature["indent"] + "unfolding ")):
            start, next_one = next_one, next_one + 1
            if opening.match(lines[start]):
                while next_one < len(lines) and deeper.match(lines[next_one]):
                    next_one += 1
                clause = clause_of(signature["name"], lines, start, next_one, listed)
                found += [clause] if clause and next_one - start >= least else []
    return found


def with_calls(text: str, calls: dict[Clause, str]) -> tuple[str, dict[Clause, range]]:
    """The text with calls as the bodies of these clauses, and the lines, from 1, where each then stands."""
    lines, new, places, at = text.splitlines(), [], {}, 0
    for clause in sorted(calls, key=lambda clause: clause.start):
        new += lines[at:clause.start]
        shorter = clause.text(calls[clause]).splitlines()
        places[clause] = range(len(new) + 1, len(new) + len(shorter) + 1)
        new += shorter
        at = clause.end
    return "\n".join(new + lines[at:]) + "\n", places


def refusals(told: str) -> set[tuple[str, int]]:
    """The places of errors in proofs, file and line, without those of lemmas that weren't looked at."""
    return {(error["path"], int(error["line"])) for error in ERROR.finditer(told) if "depend" not in error["said"]}


Check = Callable[[], tuple[bool, str]]  # whether the crate is proved, and what the prover said


class Trial:
    """The files of a crate's proofs, with the calls that are tried in them."""

    def __init__(self, crate: pathlib.Path, least: int, steps: int) -> None:
        paths = sorted(path for path in crate.glob("proofs/**/*.antt") if path.name not in OTHERS)
        self.crate, self.steps = crate, steps
        self.old = {path: path.read_text(encoding="utf-8") for path in paths}
        self.tries = {path: {clause: 0 for clause in clauses(text, least)} for path, text in self.old.items()}

    def write(self) -> dict[tuple[str, int], tuple[pathlib.Path, Clause]]:
        """Writes the files, and gives the clause at each line of a new body."""
        places = {}
        for path, tries in self.tries.items():
            calls = {clause: clause.calls(self.steps)[at] for clause, at in tries.items()}
            text, where = with_calls(self.old[path], calls)
            path.write_text(text if calls else self.old[path], encoding="utf-8")
            places.update({(path.relative_to(self.crate).as_posix(), line): (path, clause)
                           for clause, lines in where.items() for line in lines})
        return places

    def give_way(self, refused: set[tuple[pathlib.Path, Clause]]) -> None:
        """Gives each refused clause its next call, or its old body where there is none."""
        for path, clause in refused:
            self.tries[path][clause] += 1
            if self.tries[path][clause] == len(clause.calls(self.steps)):
                del self.tries[path][clause]

    def run(self, check: Check) -> int:
        """Tries until the crate is proved; gives how many lines went. Puts all back where the error is elsewhere."""
        while True:
            places = self.write()
            proved, told = check()
            if proved:
                return sum(text.count("\n") - path.read_text(encoding="utf-8").count("\n")
                           for path, text in self.old.items())
            refused = {places[place] for place in refusals(told) if place in places}
            if not refused:
                self.tries = {path: {} for path in self.tries}
                self.write()
                return 0
            self.give_way(refused)


def end_of_item(lines: list[str], at: int, name: str) -> int:
    """The line past the lemma whose signature is at a line: past its clauses and what stands deeper."""
    indent = re.match(" *", lines[at])[0]
    more = re.compile(rf"{indent}(?:\s|[\])}}]|unfolding |{re.escape(name)} )|\s*$")
    at += 1
    while at < len(lines) and more.match(lines[at]):
        at += 1
    return at


def cited_elsewhere(files: dict[str, str]) -> set[str]:
    """The names that some file imports or cites by a path, and all words of code, whose attributes name lemmas."""
    names = {name for text in files.values() for _, name in imported(text)}
    for text in files.values():
        paths = "|".join([r"Rattle\.[\w.]+", *re.findall(r"(?m)^use \S+ as (\w+)$", text)])
        names.update(re.findall(rf"\b(?:{paths})\.([^\s(){{}}\[\],;:|.]+)", text))
    return names | {word for path, text in files.items() if path.endswith(".rt") for word in WORD.findall(text)}


def uncited(crate: str, files: dict[str, str]) -> Iterator[str]:
    """The lemmas of a crate's proofs that no other item of their file, no other file and no attribute cites."""
    asked = cited_elsewhere(files)
    for path, text in files.items():
        if not path.startswith(f"crates/{crate}/proofs/") or pathlib.Path(path).name in OTHERS:
            continue
        lines = [uncommented(line) for line in IMPORT.sub("", text).splitlines()]
        words = [set(WORD.findall(line)) for line in lines]
        for at, line in enumerate(lines):
            found = SIGNATURE.match(line)
            if found and found["name"] not in asked:
                end = end_of_item(lines, at, found["name"])
                if not any(found["name"] in some for some in words[:at] + words[end:]):
                    yield f"{path}: {found['name']}"


def main() -> int:
    parser = argparse.ArgumentParser(description=(__doc__ or "").splitlines()[0])
    parser.add_argument("crate")
    parser.add_argument("--uncited", action="store_true", help="list lemmas that no file cites")
    parser.add_argument("--least", type=int, default=4, help="the lines of a clause from which on it is tried")
    parser.add_argument("--steps", type=int, default=200_000, help="what a call of `grind` may cost")
    parser.add_argument("--check", default="rt check", help="what proves the crate, run in its folder")
    words = parser.parse_args()
    crate = TOP / "crates" / words.crate
    if words.uncited:
        paths = [path for ending in ("rt", "antt") for path in TOP.glob(f"crates/*/[sp]*/**/*.{ending}")]
        print(*uncited(words.crate, {str(path.relative_to(TOP)): path.read_text(encoding="utf-8") for path in paths}),
              sep="\n")
        return 0
    seconds: list[float] = []

    def check() -> tuple[bool, str]:
        begun = time.monotonic()
        done = subprocess.run(shlex.split(words.check), cwd=crate, capture_output=True, text=True, check=False)
        seconds.append(time.monotonic() - begun)
        return done.returncode == 0, done.stdout + done.stderr

    if not check()[0]:
        print(f"{words.crate} isn't proved as it stands", file=sys.stderr)
        return 1
    fewer = Trial(crate, words.least, words.steps).run(check)
    print(f"{words.crate}: {fewer} lines fewer; the check took {seconds[0]:.1f} s before and {seconds[-1]:.1f} s after")
    return 0


if __name__ == "__main__":
    sys.exit(main())
