#!/usr/bin/env python3
"""Seconds and peak memory of each command on generated meshes, as tables in Markdown.

    bench/speed.py [--surf PROGRAM] [--no-plain] [--beside NAME=WORDS ..] [--repeat N] [--limit SECONDS]
                   [--keep] [--part NAME ..] [COMMAND ..]

One run makes every table of docs/speed.md but that of peers, which is of `bench/peers.py`. It takes the program that
a gate left, or else builds it (`rt run` in crates/surf), unless one is named. The parts, of which --part chooses:

    plain       commands that `bench/plain` has by the basic methods
    sketch      bases and cycles, of which it has a sketch
    commands    the rest
    bases, large, handles, real, python
                tables of the scripts in OTHERS, which can be run alone too

`--keep` keeps each table in `bench/measured` and shows it in docs/speed.md (`bench/page.py`). Words at the end choose
commands of the first three parts.

For these three, meshes are tori and chains of tori by `surf gen`. A mesh that is `shuffled` is a torus whose vertices
and faces are numbered anew at random, and one that is `spaced` has two spaces between its numbers, so that its lines
aren't read in one pass. Seconds are of one processor (user and system, the least of the repeats). Megabytes are the
most that was resident; those below this script's own (some 12) aren't seen, since a program starts as its copy. A run
that takes more than the limit is `late`. A row for two kinds of lengths has a figure for each, in their order, or one
figure where both are equal.

`bench/plain` is built by cargo and stands beside; where cargo isn't there, or with `--no-plain`, the tables have no
columns of it, and parts that want it are passed over with a word. `--beside` names another program and the words to
start it by, as in `--beside old=release/surf`. It takes the same words, and gets columns of its own: its seconds, its
megabytes, and the ratio of ours to its seconds. Where its bytes are not ours, the ratio has `DIFFERS` after it; where
it doesn't take the command, the columns are empty. Machines differ and are shared, so ratios say more than seconds, and
the programs run in turn: a repeat is one run of each.
"""
import argparse
import filecmp
import multiprocessing
import os
import random
import shlex
import shutil
import subprocess
import sys
import tempfile
from pathlib import Path

if not __package__:  # run by its path: packages are found from the top of the repository
    sys.path[0] = str(Path(__file__).resolve().parent.parent)

from bench import tables
from release import proof
from tools import TOP

TORUS = ["torus 700 700"]
LINEAR = [*TORUS, "shuffled 700 700"]
READ = [*LINEAR, "spaced 700 700"]
FAR = ["torus 40 40", "torus 100 100", "torus 100 200", "chain 8 30 30", "chain 64 4 4"]

# A command, the meshes that it is measured on by the words of `gen`, the scatter of its lengths (0: all are 1), what is
# made first (None, or words whose answer is the file C), and its words, with M for the mesh and L for its lengths.
BASIC = [
    ("info", READ, [0], None, "info M"),
    ("dist", LINEAR, [0, 1], None, "dist M L 0"),
    ("loops", LINEAR, [0, 1], None, "loops M L 0"),
    ("cut trim", LINEAR, [0, 1], None, "cut M L 0 trim"),
    ("cut full", LINEAR, [0, 1], None, "cut M L 0 full"),
    ("basis", ["torus 40 40", "chain 64 4 4"], [0, 1], None, "basis M L"),
]
BASES = [
    ("basis", FAR, [0, 1], None, "basis M L"),
    ("cycle", FAR, [0, 1], None, "cycle M L"),
]
ALONE = [
    ("sew", TORUS, [0], "cut M L 0 trim", "sew C"),
    ("class", TORUS, [0], "walk", "class M C"),
    ("certify at a base", TORUS, [0], None, "certify M L 0"),
    ("check of loops", TORUS, [0], "certify M L 0", "check M L C"),
    ("gen", TORUS, [0], None, "gen G"),
    ("shortest", ["torus 128 128", "chain 4 8 8"], [0], "walk", "shortest M L C"),
    ("certify", ["torus 31 32"], [0], None, "certify M L"),
    ("check of a basis", ["torus 31 32", "torus 3 333"], [0], "certify M L", "check M L C"),
]
# The tables of this script by their parts, each with the words of `bench/plain` for the method that stands beside.
TABLES = {"plain": (BASIC, []), "sketch": (BASES, ["--sketch"]), "commands": (ALONE, None)}
# The parts of other scripts, with their words: S is the program.
OTHERS = {
    "bases": "bench.hard --surf S --plain --bases",
    "large": "bench.hard --surf S --plain --large",
    "handles": "bench.handles --surf S",
    "real": "bench.real --surf S",
    "python": "bench.python",
}


class Refused(Exception):
    """A program doesn't take these words."""


def built():
    """The program of this repository: what a gate left there, if no source is newer, or else what `rt run` builds."""
    program = proof.PROGRAM
    if not program.exists() or program.stat().st_mtime < proof.newest_source(TOP):
        subprocess.run(["rt", "run", "--", "--version"], cwd=TOP / "crates" / "surf", check=True, stdout=sys.stderr)
    return program


def plain_built():
    """The program of `bench/plain`, built."""
    folder = TOP / "bench" / "plain"
    subprocess.run(["cargo", "build", "--release", "--offline"], cwd=folder, check=True, stdout=sys.stderr)
    return folder / "target" / "release" / "plain"


def stop_after(limit):
    import resource

    resource.setrlimit(resource.RLIMIT_CPU, (limit, limit + 1))


def run(program, words, answer, limit):
    """Runs a program once, its answer into a file. Seconds and megabytes, or None where it took too long."""
    with open(answer, "wb") as out:
        child = subprocess.Popen(
            [*program, *words], stdout=out, stderr=subprocess.DEVNULL, preexec_fn=lambda: stop_after(limit)
        )
        _, status, usage = os.wait4(child.pid, 0)
    child.returncode = os.waitstatus_to_exitcode(status)
    if child.returncode < 0:
        return None
    if child.returncode != 0:
        raise Refused(f"{' '.join([*program, *words])}: status {child.returncode}")
    return usage.ru_utime + usage.ru_stime, usage.ru_maxrss / 1024


class Runner:
    """A program that is measured, with the least seconds of its runs so far and the memory of that run."""

    def __init__(self, program, answer):
        self.program, self.answer = program, answer
        self.least, self.is_late, self.is_refused = None, False, False

    def turn(self, words, limit):
        """Runs once more, unless an earlier run took too long or was refused."""
        if self.is_late or self.is_refused:
            return
        try:
            once = run(self.program, words, self.answer, limit)
        except (Refused, OSError):
            self.is_refused = True
            return
        if once is None:
            self.is_late = True
        elif self.least is None or once < self.least:
            self.least = once

    def figures(self):
        """Seconds and megabytes as they stand in the table."""
        if self.is_refused:
            return ["", ""]
        if self.is_late:
            return ["late", "-"]
        seconds, megabytes = self.least
        return [f"{seconds:.3f}" if seconds < 0.1 else f"{seconds:.2f}", f"{megabytes:.0f}"]


def in_turn(programs, words, work, options):
    """The programs, each run as often as there are repeats, one after the other."""
    runners = [Runner(program, work / f"answer{place}") for place, program in enumerate(programs)]
    for _ in range(options.repeat):
        for runner in runners:
            runner.turn(words, options.limit)
    return runners


def ratio(ours, other):
    """How our seconds stand to another program's, and whether the answers differ."""
    if other.is_refused:
        return ""
    if ours.is_late or other.is_late:
        return "-"
    same = filecmp.cmp(ours.answer, other.answer, shallow=False)
    return f"{ours.least[0] / max(other.least[0], 0.001):.2f}" + ("" if same else " DIFFERS")


def write_lengths(mesh, scatter, path):
    lines = Path(mesh).read_text().splitlines()
    faces = [[int(word) for word in line.split()[1:]] for line in lines[2 + int(lines[1].split()[0]) :]]
    sides = {(min(u, v), max(u, v)) for face in faces for u, v in zip(face, face[1:] + face[:1])}
    rows = (f"{u} {v} {1 + scatter * (7 * k + 13) % 97}\n" for k, (u, v) in enumerate(sorted(sides)))
    path.write_text("".join(rows))


def write_shuffled(mesh, path):
    """The same mesh, its vertices and its faces in another order, always the same one."""
    keyword, counts, *lines = Path(mesh).read_text().splitlines()
    vertices = int(counts.split()[0])
    chance = random.Random(1)
    number = list(range(vertices))
    chance.shuffle(number)
    vertex_lines = [""] * vertices
    for v, line in zip(number, lines):
        vertex_lines[v] = line
    faces = [line.split() for line in lines[vertices:]]
    chance.shuffle(faces)
    face_lines = (" ".join([face[0], *(str(number[int(v)]) for v in face[1:])]) for face in faces)
    path.write_text("\n".join([keyword, counts, *vertex_lines, *face_lines, ""]))


def write_spaced(mesh, path):
    """The same mesh, with two spaces between numbers."""
    path.write_text(Path(mesh).read_text().replace(" ", "  "))


# How a torus is written anew, by the first word of a mesh.
WRITTEN_ANEW = {"shuffled": write_shuffled, "spaced": write_spaced}


def made_apart(make, *given):
    """Makes a file in a process of its own: what runs later begins with the memory of this one."""
    maker = multiprocessing.Process(target=make, args=given)
    maker.start()
    maker.join()


class Inputs:
    """The files that a case reads, each made once."""

    def __init__(self, surf, work, options):
        self.surf, self.work, self.options = surf, work, options
        self.made = {}

    def answer_of(self, words, name):
        """The file that holds what the program answers to these words."""
        key = (name, *words)
        if key not in self.made:
            path = self.work / f"{len(self.made)}.{name}"
            if run([str(self.surf)], words, path, 600) is None:
                sys.exit(f"{' '.join(words)}: too long")
            self.made[key] = str(path)
        return self.made[key]

    def names(self, mesh, scatter, first):
        """What stands for the letters of a case's words."""
        given = mesh.split()
        names = {"M": [self.mesh(given)], "L": ["unit"], "G": given}
        if scatter:
            names["L"] = [self.scattered(names["M"][0], scatter)]
        if first == "walk":
            names["C"] = [self.walk(names["M"][0])]
        elif first:
            names["C"] = [self.answer_of(filled(first, names), "first")]
        return names

    def mesh(self, given):
        """The mesh of the words of `gen`, or of a word of WRITTEN_ANEW and the counts of a torus."""
        if given[0] not in WRITTEN_ANEW:
            return self.answer_of(["gen", *given], "off")
        key = ("written anew", *given)
        if key not in self.made:
            torus = self.answer_of(["gen", "torus", *given[1:]], "off")
            path = self.work / f"{len(self.made)}.off"
            made_apart(WRITTEN_ANEW[given[0]], torus, path)
            self.made[key] = str(path)
        return self.made[key]

    def scattered(self, mesh, scatter):
        """Lengths from 1 to 97 that hang on the number of the edge alone, as `try` scatters them."""
        key = ("lengths", mesh, scatter)
        if key not in self.made:
            path = self.work / f"{len(self.made)}.len"
            made_apart(write_lengths, mesh, scatter, path)
            self.made[key] = str(path)
        return self.made[key]

    def walk(self, mesh):
        """The first loop at vertex 0, as a file with one walk."""
        loops = Path(self.answer_of(["loops", mesh, "unit", "0"], "loops")).read_text()
        path = self.work / f"{len(self.made)}.walk"
        self.made[("walk", mesh)] = str(path)
        path.write_text(" ".join(loops.splitlines()[2].split()[2:]) + "\n")
        return str(path)


def filled(words, names):
    """The words with the letters replaced by what they stand for."""
    return [part for word in words.split() for part in names.get(word, [word])]


def row(name, mesh, scatter, words, work, options, programs):
    """The cells of one command on a mesh with the lengths of a scatter, by ours and the other programs."""
    ours, *others = in_turn([program for _, program in programs], words, work, options)
    if ours.is_refused:
        sys.exit(f"{' '.join(words)}: refused")
    cells = [name, mesh, "scattered" if scatter else "unit", *ours.figures()]
    for other in others:
        cells += [*other.figures(), ratio(ours, other)]
    return cells


def joined(rows):
    """Rows as one, whose cells have a figure of each row, or one where all are equal."""
    return [", ".join(cells if len(set(cells)) > 1 else cells[:1]) for cells in zip(*rows)]


def rows(case, inputs, work, options, beside):
    """The rows of one command, one for each mesh, with a figure for each scatter."""
    name, meshes, scatters, first, text = case
    for mesh in meshes:
        figures = []
        for scatter in scatters:
            words = filled(text, inputs.names(mesh, scatter, first))
            figures.append(row(name, mesh, scatter, words, work, options, [("surf", [str(inputs.surf)]), *beside]))
        yield joined(figures)


def named(text):
    name, _, words = text.partition("=")
    return name, shlex.split(words)


def tell_table(part, plain, inputs, work, options):
    """The table of a part, with the cases that are asked for, if there are any."""
    cases, method = TABLES[part]
    chosen = [case for case in cases if not options.commands or case[0].split()[0] in options.commands]
    if not chosen:
        return
    beside = [(part, [str(plain), *method])] if plain and method is not None else []
    beside += options.beside
    head = ["command", "mesh", "lengths", "seconds", "MB"]
    for name, _ in beside:
        head += [f"{name}: seconds", f"{name}: MB", "ratio"]
    made = (cells for case in chosen for cells in rows(case, inputs, work, options, beside))
    tables.tell(part, head, made, options.keep)


def run_other(part: str, surf: Path, has_plain: bool, is_kept: bool) -> None:
    """Runs the script of another part. One that fails doesn't keep the rest from being run."""
    words = filled(OTHERS[part], {"S": [str(surf)]})
    if "--plain" in words and not has_plain:
        print(f"{part} wants bench/plain: passed over", file=sys.stderr)
        return
    kept = ["--keep"] if is_kept else []
    if subprocess.run([sys.executable, "-m", *words, *kept], cwd=TOP, check=False).returncode:
        print(f"{part}: failed", file=sys.stderr)


def parsed() -> argparse.Namespace:
    parser = argparse.ArgumentParser(description=__doc__, formatter_class=argparse.RawDescriptionHelpFormatter)
    parser.add_argument("--surf", type=Path)
    parser.add_argument("--no-plain", action="store_true", help="without bench/plain")
    parser.add_argument("--beside", type=named, action="append", default=[])
    parser.add_argument("--repeat", type=int, default=3)
    parser.add_argument("--limit", type=int, default=60, help="processor seconds of one run")
    parser.add_argument("--keep", action="store_true", help="keep the tables and show them in docs/speed.md")
    parser.add_argument("--part", choices=[*TABLES, *OTHERS], action="append", help="none: all")
    parser.add_argument("commands", nargs="*", help="their first words; none: all")
    options = parser.parse_args()
    if options.keep and (options.beside or options.commands or options.no_plain):
        parser.error("tables are kept whole, with bench/plain beside and nothing else")
    return options


def main():
    options = parsed()
    surf = (options.surf or built()).resolve()
    has_plain = not options.no_plain and shutil.which("cargo") is not None
    plain = plain_built() if has_plain else None
    parts = options.part or [*TABLES, *([] if options.commands else OTHERS)]
    with tempfile.TemporaryDirectory() as folder:
        work = Path(folder)
        inputs = Inputs(surf, work, options)
        for part in (part for part in TABLES if part in parts):
            tell_table(part, plain, inputs, work, options)
    for part in (part for part in OTHERS if part in parts):
        run_other(part, surf, has_plain, options.keep)
    if options.keep:
        tables.show_on_page()


if __name__ == "__main__":
    main()
