#!/usr/bin/env python3
"""Which definitions the contracts reach, and how many lines a reader has to believe for an answer.

    reach.py --unreached    lists the definitions of specs/ that no clause reaches; ends with 1 if one isn't excused
    reach.py COMMAND        lists the definitions under what a command answers, with their files and lines
    reach.py --write        puts the counts for all commands into docs/believe.md
    reach.py --check        ends with 1 where the counts there are old

A clause is what stands in braces behind `requires`, `ensures`, `invariant` or `decreases`, and behind the `=`, `:` or
`by` of a `ghost` item or field, such as the view of a type. It reaches the names that its file imports and that it
has, a definition reaches those that its own file has or imports, and so on down. Lines of definitions are counted
without comments, imports and empty lines. Names of std and of the kit are not followed.
"""

import re
import sys
import textwrap

from tools import TOP

PAGE = TOP / "docs" / "believe.md"

# Definitions that no clause reaches and that stay in specs/, each with the reason.
EXCUSED = {
    "surf_surfaces.Mesh.tetrahedron-edges": "an example that is computed where it stands",
    "surf_surfaces.Mesh.tetrahedron-characteristic": "an example that is computed where it stands",
}

# What each command answers, by the definition that says so, and the names of the cases that lead there. A case of
# another command is passed over where definitions go by cases.
COMMANDS = {
    "info": ("surf_answers.Info.Informs", {"info"}),
    "dist": ("surf_answers.Distances.GivesDistances", {"dist"}),
    "loops": ("surf_answers.LeastLoops.GivesLoops", {"loops"}),
    "basis": ("surf_answers.LeastBasis.GivesBasis", {"basis", "large_basis"}),
    "cycle": ("surf_answers.ShortestCycle.GivesCycle", {"cycle", "large_cycle"}),
    "cut": ("surf_answers.Cuts.IsCutAt", {"cut"}),
    "disc": ("surf_answers.Discs.JudgesDisc", {"disc"}),
    "certify M L x": ("surf_answers.Certificates.GivesLoopCert", {"certify_loops"}),
    "certify M L": ("surf_answers.Certificates.GivesBasisCert", {"certify_basis"}),
    "check": ("surf_answers.Verdicts.JudgesCert", {"check"}),
    "lengths": ("surf_answers.Lengths.GivesLengths", {"lengths"}),
    "class": ("surf_answers.Classes.GivesClass", {"class"}),
    "same": ("surf_answers.Classes.GivesClass", {"same"}),
    "confirm": ("surf_answers.Confirming.JudgesEvidence", {"confirm"}),
    "shortest": ("surf_answers.ShortestWalk.GivesShortestWalk", {"shortest", "large_shortest"}),
    "sew": ("surf_answers.Sewing.GivesSewn", {"sew"}),
    "gen": ("surf_answers.Making.GivesMesh", {"gen_shape"}),
    "try": ("surf_answers.Summaries.GivesSummary", {"try_shape"}),
    "--help, --version": ("surf_words.Words.help_text", {"help", "version"}),
}
CASES = set().union(*(cases for _, cases in COMMANDS.values()))
REQUESTS = ("surf_words", "Words")  # the home of the cases

START = re.compile(r"^( *)(?:(?:pub |private |unfoldable |abbrev |data |record )+)([^\s:({]+)")
WORD = re.compile(r"[^\s(){}\[\],;`\"]+")
IMPORT = re.compile(r"^\s*(?:pub )?(?:ghost )?use Rattle\.(surf_\w+)\.(specs|proofs)\.([\w.]+?)\.\{([^}]*)\};?", re.M)
CLAUSE = re.compile(r"\b(?:requires|ensures|invariant|decreases)\b(?: +\w+)? *\{|\bghost +\w+ *[=:] *\{|\bby *\{")


class Definition:
    """A definition of a specs/ file, with its lines and the names in them."""

    def __init__(self, crate, module, name, number):
        self.crate, self.module, self.name, self.number = crate, module, name, number
        self.lines, self.named = [], set()

    def key(self):
        return f"{self.crate}.{self.module}.{self.name}"


def bare(name):
    """The name as it stands in a text: an operator without the marks of its places."""
    return name.strip("◌") or name


def words_of(line):
    """The names in a line, without those in texts and those behind a point, which are fields. A `do` is a use of `>>=`
    and `>>`."""
    line = re.sub(r'"[^"]*"', " ", line)
    found = {">>=", ">>"} if re.search(r"\bdo\b", line) else set()
    for word in WORD.findall(line):
        for part in re.split(r"(?<=[^\d])\.", word)[:1]:
            found.add(part.strip("."))
        found.add(word)
    return found


def without_comment(line):
    return "" if re.match(r"\s*--( |$|-)", line) else re.split(r"\s--\s", line)[0]


def imports_of(text):
    """For each name that the file imports from the repository: the key of the definition, or of what has it."""
    scope = {}
    for crate, kind, module, names in IMPORT.findall(text):
        for name in names.split(","):
            parts = name.split(" as ")
            scope[bare(parts[-1].strip())] = (crate, kind, module, bare(parts[0].strip()))
    return scope


class Specs:
    """All definitions of specs/, by their keys, with the parts of `data` and the homes of names."""

    def __init__(self, top, requests=REQUESTS):
        self.requests = requests
        self.definitions, self.parts = {}, {}
        self.scopes = {}
        for path in sorted((top / "crates").glob("*/specs/**/*.antt")):
            self.read(path, path.relative_to(top / "crates").parts)

    def read(self, path, parts):
        crate, module = parts[0], ".".join(parts[2:]).removesuffix(".antt")
        text = path.read_text()
        self.scopes[crate, module] = imports_of(text)
        current = None
        for number, line in enumerate(text.splitlines(), 1):
            if re.match(r"\s*(pub )?(use|open|mod|module|infix\w*) ", line):
                current = None if re.match(r"\s*(module|mod) ", line) else current
                continue
            start = START.match(line)
            if start:
                inner = current and current.indent < len(start[1]) and current.is_block
                if not inner:
                    current = Definition(crate, module, bare(start[2]), number)
                    current.indent = len(start[1])
                    current.is_block = bool(re.match(r"\s*(pub )?(data|record)\b", line))
                    current.is_data = bool(re.match(r"\s*(pub )?data\b", line))
                    self.definitions[current.key()] = current
            line = without_comment(line)
            if current and line.strip():
                current.lines.append(line)
                constructor = re.match(r"\s+([^\s:]+(?:, [^\s:]+)*) :", line)
                if current.is_data and constructor:
                    for name in constructor[1].split(", "):
                        self.parts[crate, module, bare(name)] = current.key()

    def key_of(self, crate, module, name):
        key = f"{crate}.{module}.{name}"
        return key if key in self.definitions else self.parts.get((crate, module, name))

    def resolved(self, scope, words):
        """The definitions that the words name in a scope of imports."""
        found = set()
        for word in words:
            if word in scope:
                crate, kind, module, name = scope[word]
                if kind == "specs" and (key := self.key_of(crate, module, name)):
                    found.add(key)
        return found

    def cases_here(self, definition, passed_over):
        """Those names of cases that are requests where the definition stands: others may use the words for
        variables."""
        if (definition.crate, definition.module) == self.requests:
            return passed_over
        scope = self.scopes[definition.crate, definition.module]
        return {word for word in passed_over if word in scope and (scope[word][0], scope[word][2]) == self.requests}

    def cases_of(self, definition, passed_over):
        """The lines of a definition, without the equations for cases that are passed over."""
        passed_over = self.cases_here(definition, passed_over)
        kept, keeping = [], True
        for line in definition.lines:
            head = line.strip().split(" = ")[0] if " = " in line or line.rstrip().endswith("=") else None
            if head and line.strip().startswith(definition.name + " "):
                keeping = not (words_of(head) & passed_over)
            elif definition.is_data and (made := re.match(r"\s+([^\s:]+) :", line)):
                keeping = made[1] not in passed_over
            if keeping:
                kept.append(line)
        return kept

    def below(self, key, passed_over=frozenset()):
        definition = self.definitions[key]
        words = set().union(*(words_of(line) for line in self.cases_of(definition, passed_over)), set())
        own = {word for word in words if self.key_of(definition.crate, definition.module, word)}
        found = self.resolved(self.scopes[definition.crate, definition.module], words)
        found |= {self.key_of(definition.crate, definition.module, word) for word in own}
        return found - {key}

    def reached(self, roots, passed_over=frozenset()):
        found, todo = set(), list(roots)
        while todo:
            key = todo.pop()
            if key not in found:
                found.add(key)
                todo += self.below(key, passed_over)
        return found

    def line_count(self, keys, passed_over=frozenset()):
        return sum(len(self.cases_of(self.definitions[key], passed_over)) for key in keys)


def clauses_of(text):
    """The texts of the clauses of a file of code."""
    text = re.sub(r"//[^\n]*", "", text)
    for found in CLAUSE.finditer(text):
        depth, at = 1, found.end()
        while depth and at < len(text):
            depth += {"{": 1, "}": -1}.get(text[at], 0)
            at += 1
        yield text[found.end() : at - 1]


def roots_of(specs, path):
    text = path.read_text()
    words = set().union(*(words_of(line) for clause in clauses_of(text) for line in clause.splitlines()), set())
    return specs.resolved(imports_of(text), words)


def all_roots(specs, top):
    return set().union(*(roots_of(specs, path) for path in sorted((top / "crates").glob("*/src/**/*.rt"))), set())


def unreached(specs, top):
    reached = specs.reached(all_roots(specs, top))
    return sorted(set(specs.definitions) - reached)


def counts(specs, top):
    """For each command: definitions and lines under its answer, and under all that `run` says of its words."""
    run = roots_of(specs, top / "crates/surf_run/src/top.rt")
    for command, (key, cases) in COMMANDS.items():
        passed_over = frozenset(CASES - cases)
        if key not in specs.definitions:
            sys.exit(f"tools/house/reach.py: what `{command}` answers, {key}, isn't there")
        answer, whole = specs.reached([key], passed_over), specs.reached(run, passed_over)
        yield command, key, len(answer), specs.line_count(answer,
                                                          passed_over), len(whole), specs.line_count(whole, passed_over)


def page_text(specs, top):
    run = specs.reached(roots_of(specs, top / "crates/surf_run/src/top.rt"))
    head, loops, theorem = (specs.reached(names) for names in (HEADLINE, HEADLINE[:2], HEADLINE + THEOREM))
    rows = [
        f"| `{command}` | `{key}` | {few} | {lines} | {all_few} | {all_lines} |"
        for command, key, few, lines, all_few, all_lines in counts(specs, top)
    ]
    text = TEXT.format(
        rows="\n".join(rows), run=len(run), run_lines=specs.line_count(run),
        crates=len({key.split(".")[0] for key in run}),
        all=len(specs.definitions), all_lines=specs.line_count(specs.definitions),
        head=len(head), head_lines=specs.line_count(head), loops=len(loops), loops_lines=specs.line_count(loops),
        theorem=len(theorem), theorem_lines=specs.line_count(theorem),
        names=", ".join(f"`{name.split('.')[-1]}`" for name in HEADLINE),
    )
    whole = (part if part.startswith("|") else textwrap.fill(part, 118, break_long_words=False, break_on_hyphens=False)
             for part in text.strip().split("\n\n"))
    return "\n\n".join(whole) + "\n"


HEADLINE = [f"surf_surfaces.{name}" for name in (
    "Surface.IsSurface", "Homology.IsLeastLoopSystem", "Homology.IsLeastBasis", "Cycle.IsShortestNonseparating",
    "Disc.IsDisc", "Disc.IsOpening")]
# What docs/theorem.md names beside these.
THEOREM = [f"surf_surfaces.{name}" for name in (
    "Mesh.characteristic", "Homology.IsNull", "Places.IsLeastLoopSystemInOrder", "Places.IsLeastBasisInOrder",
    "Places.IsShortestNotNull", "Cycle.IsSimpleCycle")]
THEOREM += [f"surf_classes.{name}" for name in (
    "Evidence.IsNullEvidence", "Evidence.IsOddEvidence", "Shortest.AreHomologous", "Shortest.IsShortestInClass")]
THEOREM += ["surf_seams.Through.HasCopyOnBorder"]
TEXT = """# How many lines a reader has to believe

A proof shows that the program meets its contract. Whether the contract says what you want, you have to read for
yourself. `tools reach --write` counts here what there is to read, and `tools reach loops` lists the definitions
under an answer, with their files.

**The theorem alone**: {names}, with all that they rest on, are {head} definitions of {head_lines} lines. They stand
in `surf_surfaces` and `surf_z2`, and [definitions.md](definitions.md) says them in prose. For loops alone,
`IsSurface` and `IsLeastLoopSystem`, they are {loops} of {loops_lines} lines; all that [theorem.md](theorem.md)
names are {theorem} of {theorem_lines}.

An **answer** is the theorem, the choice among ties, and how it is written down. The **contract** is all that `run`
says of the command: also how words, files and lengths are read, which refusal comes first, and its line.

| Command | Definition of its answer | Definitions | Lines | in the contract: definitions | lines |
|---|---|---|---|---|---|
{rows}

The contract of `run`, for all commands, rests on {run} definitions of {run_lines} lines in {crates} crates. The
`specs/` of all crates have {all} definitions of {all_lines} lines; the others say what the calls below `run` do.
Not counted are comments, imports, empty lines, enums and structs of the code, and the words of std.
"""


def main():
    word = sys.argv[1] if len(sys.argv) > 1 else ""
    specs = Specs(TOP)
    if word == "--unreached":
        lost = unreached(specs, TOP)
        for key in lost:
            print(key + (f": {EXCUSED[key]}" if key in EXCUSED else ""))
        stale = sorted(set(EXCUSED) - set(lost))
        for key in stale:
            print(f"{key} needs no excuse any more")
        print(f"{len(specs.definitions)} definitions, {len(lost)} that no clause reaches, "
              f"{len(set(lost) & set(EXCUSED))} of them excused")
        return 1 if set(lost) - set(EXCUSED) else 0
    if word == "--write":
        PAGE.write_text(page_text(specs, TOP))
    elif word == "--check":
        if not PAGE.exists() or PAGE.read_text() != page_text(specs, TOP):
            print("docs/believe.md: the counts are old: python3 tools reach --write")
            return 1
        print("docs/believe.md has the counts of today")
    elif word in COMMANDS:
        root, cases = COMMANDS[word]
        for key in sorted(specs.reached([root], frozenset(CASES - cases))):
            found = specs.definitions[key]
            print(f"crates/{found.crate}/specs/{found.module.replace('.', '/')}.antt:{found.number}: {found.name}")
    else:
        print(__doc__.strip(), "\n\nCommands:", ", ".join(COMMANDS))
    return 0


if __name__ == "__main__":
    sys.exit(main())
