#!/usr/bin/env python3
"""Makes docs/laws.md, the page of all laws, from the comments over their statements.

    laws.py --write     makes the page anew
    laws.py --check     ends with 1 where the page is old, or a law has no comment or is a type of data

A law is a definition in the `specs/` of a crate that a clause of a public function without arguments and with an empty
body states, for all values and under premises that the clause may name before it. Its comment says what it states, and
can be read alone. Functions that only show examples are left out.
"""

import re
import sys

from tools import TOP

PAGE = TOP / "docs" / "laws.md"
# Law functions that show examples.
EXAMPLES = {"small_meshes", "small_surfaces", "small_cases", "smallest_surface"}
FUNCTION = re.compile(r"^pub fn (\w+)\(\)\n((?:    [^\n]*\n|\n)+)\{\}", re.M)
CLAUSE = re.compile(r"^    ensures (?:(\w+) )?\{ (.*?) \}$", re.M | re.S)
DEFINITION = re.compile(r"^ *(?:pub )?(?:abbrev|unfoldable|record|data) (?:pub )?(?:record |data )?([\w-]+)")
HEAD = """# The laws

Made by `tools laws --write` from the comments over the statements; don't edit it. Each law is a definition in the
`specs/` of its crate and a clause of a public function with an empty body, so the gate asks for its proof. Code that
rests on a law calls that function. Proofs mostly don't: they import the lemmas behind the laws, also from the `proofs/`
of other crates. [definitions.md](definitions.md) has the words.
"""
# The spaces that laws of any space are stated for, in words.
SPACES = {"numbers": "sets of numbers, each written as one number", "chains": "chains"}
# A type that a bound variable or a field has.
BOUND = re.compile(r"(?:[({]|pub )[\w ]+ : (?:List )?([A-Z][\w-]*)")


def law_functions(crate):
    """The law functions of a crate: for each, the text of each clause by its name, "" for one without a name."""
    found = {}
    for path in sorted((TOP / "crates" / crate / "src").glob("*.rt")):
        for name, clauses in FUNCTION.findall(path.read_text()):
            found[name] = {clause: " ".join(text.split()) for clause, text in CLAUSE.findall(clauses)}
    return found


def statements(crate):
    """The definitions of a crate with the comments over them: {name: comment}."""
    found = {}
    for path in sorted((TOP / "crates" / crate / "specs").glob("*.antt")):
        comment = []
        for line in path.read_text(encoding="utf-8").splitlines():
            if line.strip().startswith("--"):
                comment.append(line.strip()[2:].strip())
                continue
            named = DEFINITION.match(line)
            if named:
                found.setdefault(named[1], " ".join(comment))
            comment = []
    return found


def conclusion(clause):
    """What a clause states: what stands behind its last arrow that no bracket holds."""
    depth, start = 0, 0
    for at, sign in enumerate(clause):
        depth += (sign in "({") - (sign in ")}")
        if sign == "→" and not depth:
            start = at + 1
    return clause[start:].strip()


def types_of_data(crate):
    """The types that bound variables and fields have in the specs of a crate, and in the clauses of its laws."""
    texts = [path.read_text(encoding="utf-8") for path in (TOP / "crates" / crate / "specs").glob("*.antt")]
    texts += [text for clauses in law_functions(crate).values() for text in clauses.values()]
    return {name for text in texts for name in BOUND.findall(text)}


def spaces_of(conclusions):
    """A sentence on the spaces that a law of any space is stated for, or nothing."""
    words = [word for text in conclusions for word in re.findall(r"[\w-]+", text)]
    named = [told for space, told in SPACES.items() if space in words]
    return f" Stated of {', and of '.join(named)}." if named else ""


def laws_of(crate):
    """The laws of a crate in the order of its functions: (law, comment, function, clauses)."""
    said = statements(crate)
    for function, clauses in law_functions(crate).items():
        if function in EXAMPLES:
            continue
        grouped = {}
        for clause, text in clauses.items():
            grouped.setdefault(conclusion(text).split()[0], {})[clause] = conclusion(text)
        for law, stated in grouped.items():
            comment = said.get(law, "")
            yield law, comment and comment + spaces_of(stated.values()), function, [name for name in stated if name]


def purpose(crate):
    """The first sentence of the page at a crate's head."""
    lines = (TOP / "crates" / crate / "src" / "lib.rt").read_text(encoding="utf-8").splitlines()
    text = " ".join(line[3:].strip() for line in lines[: next(k for k, x in enumerate(lines) if x[:3] != "//!")])
    return text.split(". ")[0].rstrip(".") + "."


def page():
    """The page, and what is wrong with the comments, a line each."""
    parts, faults = [HEAD], []
    for crate in sorted(path.name for path in (TOP / "crates").iterdir() if (path / "specs").is_dir()):
        rows, data = [], types_of_data(crate)
        for law, comment, function, clauses in laws_of(crate):
            if not comment:
                faults.append(f"{crate}: {function}: no comment stands over the law {law}")
            if law in data:
                faults.append(f"{crate}: {function}: {law} is a type of data and no law")
            where = f"`{function}`" + "".join(f", `{clause}`" for clause in clauses)
            rows.append(f"| `{law}` | {comment.replace('|', chr(92) + '|')} | {where} |")
        if rows:
            table = ["| Law | Says | Function, clause |", "|---|---|---|", *rows]
            parts.append(f"## `{crate}`\n\n{purpose(crate)}\n\n" + "\n".join(table) + "\n")
    return "\n".join(parts), faults


def main():
    text, faults = page()
    if sys.argv[1:] == ["--write"]:
        PAGE.write_text(text, encoding="utf-8")
    elif sys.argv[1:] != ["--check"]:
        sys.exit(__doc__)
    elif not PAGE.exists() or PAGE.read_text(encoding="utf-8") != text:
        faults.append("docs/laws.md is old: run python3 tools laws --write")
    for fault in faults:
        print(fault)
    count = sum(line.startswith("| `") for line in text.splitlines())
    print(f"{count} laws, {len(faults)} faults")
    return 1 if faults else 0


if __name__ == "__main__":
    sys.exit(main())
