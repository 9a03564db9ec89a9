#!/usr/bin/env python3
"""Tries the wrong bodies that stand beside the gate: the prover has to refuse each.

    wrong_bodies.py [CRATE ..]     tries those of the crates, of all crates where none is named
    wrong_bodies.py --check        only looks whether each can be applied, and counts those of the gate

A wrong body is a change of a few lines that turns what a function means. The gate tries those in
`crates/CRATE/must-fail/`. Those in `wrong-bodies/CRATE/` would cost the gate a second proof of each crate, so they
are tried by hand: before a release, and after a contract changed. The trial runs `rt must-fail` in a clone of the
last commit, and its last line is `N refused, M not refused`. The status is 0 where every wrong body was refused.
"""

import argparse
import pathlib
import re
import shutil
import subprocess
import sys
import tempfile

from tools import TOP

# The gate's share: each crate's first wrong body costs a proof of the whole crate, each further one the loading of it.
MOST_EDITS, MOST_CRATES = 30, 10

# What `rt must-fail` says of one wrong body.
TOLD = re.compile(r"must-fail (\w+)/([\w.-]+\.edit): (.*)")
KEPT = re.compile(r"rt: (\w+): (\d+) of its \d+ must-fail edits were tried by an earlier run")


def pairs_of(text):
    """The changes that a wrong body makes, in their order: file, old text, new text."""
    file = old = None
    for line in text.splitlines():
        word, _, rest = line.partition(":")
        if word == "file":
            file = rest.strip()
        elif word == "old":
            old = rest.removeprefix(" ")
        elif word == "new" and file and old is not None:
            yield file, old, rest.removeprefix(" ")
            old = None


def fault_of(text, folder):
    """Why a wrong body can't be applied to the crate in the folder, or None where it can."""
    texts = {}
    for file, old, new in pairs_of(text):
        path = folder / file
        if file not in texts:
            if not path.is_file():
                return f"there is no file {file}"
            texts[file] = path.read_text(encoding="utf-8")
        found = texts[file].count(old) if old else 0
        if found != 1:
            return f"its text stands {found} times in {file}: {old.strip()!r}"
        texts[file] = texts[file].replace(old, new)
    if not texts:
        return "it has no lines `file:`, `old:` and `new:`"
    same = all((folder / file).read_text(encoding="utf-8") == text for file, text in texts.items())
    return "it changes nothing" if same else None


def edits_in(folder, under=""):
    """The wrong bodies below a folder, by crate: {crate: [path]}."""
    found = {}
    for path in sorted(folder.glob(f"*/{under}*.edit")):
        found.setdefault(path.relative_to(folder).parts[0], []).append(path)
    return found


def faults(top):
    """What is wrong with the wrong bodies of the repository, a line each."""
    gate, beside = edits_in(top / "crates", "must-fail/"), edits_in(top / "wrong-bodies")
    for crate in sorted({*gate, *beside}):
        names = [path.name for path in gate.get(crate, []) + beside.get(crate, [])]
        for name in sorted({it for it in names if names.count(it) > 1}):
            yield f"{crate}/{name}: it stands in the gate and beside it"
        for path in gate.get(crate, []) + beside.get(crate, []):
            fault = fault_of(path.read_text(encoding="utf-8"), top / "crates" / crate)
            if fault:
                yield f"{path.relative_to(top)}: {fault}"
    count = sum(map(len, gate.values()))
    if count > MOST_EDITS or len(gate) > MOST_CRATES:
        most = f"at most {MOST_EDITS} in {MOST_CRATES} are allowed"
        yield f"the gate tries {count} wrong bodies in {len(gate)} crates, and {most}"


def check(top):
    found = list(faults(top))
    for line in found:
        print(line)
    gate, beside = edits_in(top / "crates", "must-fail/"), edits_in(top / "wrong-bodies")
    print(
        f"wrong bodies: {sum(map(len, gate.values()))} in the gate, {sum(map(len, beside.values()))} beside it, "
        f"{len(found)} faults"
    )
    return 1 if found else 0


def laid_out(room, wanted):
    """A clone of the last commit whose crates have these wrong bodies in place of the gate's."""
    clone = room / "clone"
    subprocess.run(["git", "clone", "-q", TOP, clone], check=True)
    for path in clone.glob("crates/*/must-fail"):
        shutil.rmtree(path)
    for crate, paths in wanted.items():
        into = clone / "crates" / crate / "must-fail"
        into.mkdir()
        for path in paths:
            shutil.copy(path, into)
    return clone


def tried(clone, crate):
    """What `rt must-fail` says of the crate's wrong bodies: {name: what it came to}, and how many it knew from
    before."""
    ran = subprocess.run(["rt", "must-fail", crate], cwd=clone, stdin=subprocess.DEVNULL, capture_output=True,
                         text=True)
    said = ran.stdout + ran.stderr
    told = {name: what for _, name, what in TOLD.findall(said)}
    return told, sum(int(count) for _, count in KEPT.findall(said)), ran.returncode, said


def try_all(crates):
    beside = edits_in(TOP / "wrong-bodies")
    lacking = [crate for crate in crates if crate not in beside]
    if lacking:
        print(f"no wrong bodies stand beside the gate for {' '.join(lacking)}")
        return 2
    wanted = {crate: beside[crate] for crate in crates or beside}
    refused = others = 0
    with tempfile.TemporaryDirectory(prefix="wrong-bodies-") as room:
        clone = laid_out(pathlib.Path(room), wanted)
        for crate, paths in wanted.items():
            told, known, status, said = tried(clone, crate)
            bad = {name: what for name, what in told.items() if not what.startswith("refused")}
            lost = max(0, len(paths) - len(told) - known)
            for name, what in bad.items():
                print(f"  {crate}/{name}: {what}")
            if lost or (status and not bad):
                print(f"  {crate}: rt must-fail ended with status {status}: {said.strip().splitlines()[-1:]}")
            refused += len(paths) - len(bad) - lost
            others += len(bad) + lost
            print(f"{crate}: {len(paths) - len(bad) - lost} of {len(paths)} refused", flush=True)
    print(f"{refused} refused, {others} not refused")
    return 1 if others else 0


def main():
    parser = argparse.ArgumentParser(description=__doc__.splitlines()[0])
    parser.add_argument("--check", action="store_true")
    parser.add_argument("crates", nargs="*", metavar="CRATE")
    given = parser.parse_args()
    if given.check:
        return check(TOP)
    if not shutil.which("rt"):
        print("rt isn't here: no wrong body can be tried")
        return 2
    return try_all(given.crates)


if __name__ == "__main__":
    sys.exit(main())
