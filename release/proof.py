#!/usr/bin/env python3
"""What a release says of its proof: the commit, the kit, the gate that passed and the checksums of what was built.

Run as a script it prints the commit and the checksum of the program that the gate has just left, so that a log of
`.ci/run` says of which sources and of which program it is.
"""

import hashlib
import os
import pathlib
import re
import subprocess
import sys
import textwrap
from typing import NamedTuple

from tools import TOP

PROGRAM = TOP / "crates/surf/out/surf"


class Refused(Exception):
    """A release that can't be made; the text says why."""


class Gate(NamedTuple):
    """A gate that passed: its last line, the line on what it did, and how it is known to be of these files."""

    last: str
    told: str
    known: str = ""


def ran(words: list, **how) -> str:
    """What a command prints. Refused where its status isn't 0."""
    words = [str(word) for word in words]
    done = subprocess.run(words, stdout=subprocess.PIPE, stderr=subprocess.STDOUT, text=True, check=False, **how)
    if done.returncode:
        raise Refused(f"{' '.join(words)[:200]} ended with {done.returncode}:\n{done.stdout[-2000:]}")
    return done.stdout


def changed_files() -> str:
    return ran(["git", "status", "--porcelain", "--untracked-files=no"], cwd=TOP)


def commit() -> str:
    """The commit of this checkout. Refused where a file that git knows has changed since."""
    changed = changed_files()
    if changed:
        raise Refused(f"files have changed since the last commit, so no commit says what is built:\n{changed}")
    return ran(["git", "rev-parse", "HEAD"], cwd=TOP).strip()


def commit_time() -> int:
    """The seconds to which every file of the release is dated: SOURCE_DATE_EPOCH, or the time of the commit."""
    given = os.environ.get("SOURCE_DATE_EPOCH")
    return int(given or ran(["git", "log", "-1", "--format=%ct"], cwd=TOP))


def kit() -> str:
    return ran(["rt", "version"]).strip()


def kit_folder() -> pathlib.Path:
    return pathlib.Path(ran(["rt", "doc"]).strip()).parent


def checksum(path: pathlib.Path) -> str:
    return hashlib.sha256(path.read_bytes()).hexdigest()


# ---- the gate


def due_count(top: pathlib.Path) -> int:
    """How much a gate of this checkout passes: its crates, and the wrong bodies that have to be refused."""
    lines = (line.split("#")[0].strip() for line in (top / "crates.txt").read_text().splitlines())
    return sum(1 for line in lines if line) + sum(1 for _ in top.glob("crates/*/must-fail/*.edit"))


def newest_source(top: pathlib.Path) -> float:
    """When the last source of a crate was written."""
    parts = ("src", "specs", "proofs", "must-fail")
    times = (path.stat().st_mtime for part in parts for path in top.glob(f"crates/*/{part}/**/*") if path.is_file())
    return max([*times, (top / "crates.txt").stat().st_mtime])


def gate_of(text: str) -> Gate:
    """The gate in what `rt ci` or `.ci/run` printed. Refused where it didn't pass."""
    lines = text.splitlines()
    told = [at for at, line in enumerate(lines) if line.startswith("rt: ok; ")]
    lasts = [line for line in lines[told[-1] if told else 0 :] if re.fullmatch(r"\d+ passed, \d+ failed", line)]
    if not told or not lasts or not lasts[0].endswith(" 0 failed"):
        raise Refused("no gate passed in this log: it has no line 'rt: ok; ..' with 'N passed, 0 failed' behind it")
    return Gate(lasts[0], lines[told[-1]].removeprefix("rt: "))


def built_from(text: str) -> tuple[str, str] | None:
    """The commit and the checksum of the program that a log of `.ci/run` names, if it does."""
    found = re.findall(r"^built from (\w+|no commit): surf ([0-9a-f]{64})$", text, re.M)
    return found[-1] if found else None


def gate_by_log(log: pathlib.Path, head: str, top: pathlib.Path = TOP) -> Gate:
    """The gate that a log tells of. Refused where that wasn't one of this checkout, as it is now."""
    text = log.read_text(errors="replace")
    gate, named, program = gate_of(text), built_from(text), top / PROGRAM.relative_to(TOP)
    passed, due = int(gate.last.split()[0]), due_count(top)
    if passed != due:
        raise Refused(f"{passed} passed in the gate of this log, and this checkout has {due} crates and wrong bodies")
    written = log.stat().st_mtime
    if newest_source(top) > written:
        raise Refused("a source of a crate is newer than the log of the gate")
    if not program.exists() or program.stat().st_mtime > written:
        raise Refused("the program isn't there, or is newer than the log of the gate")
    if not named:
        return gate._replace(known="its log names no commit; it counts what this commit has, and no file is newer")
    if named != (head, checksum(program)):
        raise Refused(f"the log is of commit {named[0]} and of another program, or of another commit, than this one")
    return gate._replace(known="its log names this commit, and this program by its checksum")


def gate(log: pathlib.Path | None) -> Gate:
    """The gate that this checkout passed, by its log, or else by running it. Refused where it didn't."""
    if log:
        return gate_by_log(log, commit())
    return gate_of(ran(["rt", "ci"], cwd=TOP))._replace(known="it was run when this release was made")


# ---- the text


def proved(version: str, gate: Gate, root: pathlib.Path, notes: dict[str, str], packaged: str) -> str:
    """The file PROVED: what was proved and built, what each built file in this folder is, and what the packages of
    Debian have in their place. Its lines are comments to sha256sum, but for the checksums at its end."""
    lines = [f"surf {version}", "", f"commit  {commit()}", f"kit     {kit()}", f"gate    {gate.last}"]
    lines += [f"        {gate.told}", f"        {gate.known}", ""]
    lines += ["Each function of the program and of the library was proved from the sources of this commit, and",
              "built, by this kit; the gate ran the program. docs/proved.md says what is proved, README.md what is",
              "trusted.", ""]
    for name, note in notes.items():
        lines += [name, *textwrap.wrap(note, 96, initial_indent="    ", subsequent_indent="    ")]
    lines += ["", *textwrap.wrap(packaged, 100), "", "SHA-256, to be tried by sha256sum -c PROVED:"]
    sums = [f"{checksum(root / name)}  {name}" for name in notes]
    return "\n".join([f"# {line}".rstrip() for line in lines] + sums) + "\n"


def main() -> int:
    """Prints the commit, or none where files have changed since, and the checksum of the program."""
    if not PROGRAM.exists():
        print("there is no program: the gate left none")
        return 1
    try:
        head = commit()
    except (Refused, OSError):
        head = "no commit"
    print(f"built from {head}: surf {checksum(PROGRAM)}")
    return 0


if __name__ == "__main__":
    sys.exit(main())
