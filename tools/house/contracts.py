#!/usr/bin/env python3
"""Tells whether contracts and definitions are what they were at another commit, wherever they stand now.

    python3 tools contracts [COMMIT]        the working tree against COMMIT (HEAD if none is given)

After code was moved between crates and files, or a name became public, this tells that no statement changed: each
function with its clauses, each type with its fields, and each definition of `specs/` is looked for by its text, without
comments, layout, imports and visibility. What stands on one side alone is printed; then the status is 1.
"""

import collections
import re
import subprocess
import sys
from collections.abc import Iterator

from tools import TOP

FUNCTION = re.compile(r"\s*(?:pub(?:\(\w+\))? )?(?:const )?(?:unsafe )?(?:extern \"C\" )?fn (\w+)")
TYPE = re.compile(r"(?:pub(?:\(\w+\))? )?(?:struct|enum|trait|const|type) (\w+)")


def plain(text: str) -> str:
    """A text without comments, layout and visibility."""
    text = re.sub(r"(?m)//.*$|^\s*--.*$| -- .*$", "", text)
    text = re.sub(r"\bpub(\(\w+\))? ", "", text)
    return " ".join(text.split()).replace(",)", ")").replace(", )", ")").replace("( ", "(").replace(" )", ")")


def functions(text: str) -> Iterator[str]:
    """The functions and types of a file of code, each up to its body."""
    lines = text.splitlines()
    for at, line in enumerate(lines):
        if FUNCTION.match(line):
            end = at
            while not re.search(r"(?:^|\s)\{\}?$|;$", lines[end]):
                end += 1
            yield "fn " + plain("\n".join(lines[at:end + 1])).rstrip("{}; ")
        elif TYPE.match(line):
            end = at
            while not re.search(r"^\}|;$|\{\}$", lines[end]):
                end += 1
            yield plain("\n".join(lines[at:end + 1]))


def definitions(text: str) -> Iterator[str]:
    """The definitions of a file of `specs/`, each with the lines that belong to it."""
    block: list[str] = []
    for line in text.splitlines() + [""]:
        if line.startswith(("use ", "pub use ", "pub mod ", "mod ")):
            continue
        if not line.strip():
            if plain("\n".join(block)):
                yield plain("\n".join(block))
            block = []
        else:
            block.append(line)


def statements(files: Iterator[tuple[str, str]]) -> collections.Counter[tuple[str, str]]:
    """The statements of files, each with what kind it is: (kind, text)."""
    found: collections.Counter[tuple[str, str]] = collections.Counter()
    for path, text in files:
        if re.fullmatch(r"crates/\w+/src/.*\.rt", path):
            found.update(("contract", one) for one in functions(text))
        elif re.fullmatch(r"crates/\w+/specs/.*\.antt", path):
            found.update(("definition", one) for one in definitions(text))
    return found


def at_commit(commit: str) -> Iterator[tuple[str, str]]:
    """The files under crates/ at a commit: (path, text)."""
    listed = subprocess.run(["git", "ls-tree", "-r", "--name-only", commit, "crates"], cwd=TOP, check=True,
                            capture_output=True, text=True).stdout.split("\n")
    wanted = [path for path in listed if path.endswith((".rt", ".antt")) and "/proofs/" not in path]
    asked = "".join(f"{commit}:{path}\n" for path in wanted)
    answer = subprocess.run(["git", "cat-file", "--batch"], cwd=TOP, check=True, capture_output=True,
                            input=asked.encode()).stdout
    for path in wanted:
        head, answer = answer.split(b"\n", 1)
        size = int(head.split()[2])
        yield path, answer[:size].decode()
        answer = answer[size + 1:]


def in_tree() -> Iterator[tuple[str, str]]:
    """The files under crates/ as they are: (path, text)."""
    for path in sorted((TOP / "crates").glob("*/*/**/*")):
        if path.suffix in (".rt", ".antt") and path.parts[len(TOP.parts) + 2] in ("src", "specs"):
            yield str(path.relative_to(TOP)), path.read_text(encoding="utf-8")


def main() -> int:
    """Compares, prints what stands on one side alone, and answers the status."""
    commit = sys.argv[1] if len(sys.argv) > 1 else "HEAD"
    before, after = statements(at_commit(commit)), statements(in_tree())
    gone, new = before - after, after - before
    for sign, side in (("-", gone), ("+", new)):
        for (kind, text), count in sorted(side.items()):
            print(f"{sign} {kind}: {text}" + (f" ({count} times)" if count > 1 else ""))
    both = collections.Counter(kind for kind, _ in (before & after).elements())
    print(f"{both['contract']} functions and types and {both['definition']} definitions are the same as at {commit}; "
          f"{gone.total()} are gone, {new.total()} are new")
    return 1 if gone or new else 0


if __name__ == "__main__":
    sys.exit(main())
