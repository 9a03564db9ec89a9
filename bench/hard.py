#!/usr/bin/env python3
"""Seconds, memory and growth of each command on meshes that no search was tuned for, as one table in Markdown.

    bench/hard.py [--surf PROGRAM] [--plain] [--beside NAME=WORDS ..] [--repeat N] [--limit SECONDS] [--part TEXT]
                  [--keep] [--bases | --large | COMMAND ..]

Each row is a command on a mesh of `bench/meshes.py` with lengths of `bench/lengths.py`, at two sizes, the second
about four times the first. Seconds, megabytes and ratios are those of the second; the exponent is the power of the
number of vertices with which the seconds grow from the first to the second, and stands where the first takes long
enough to tell. Programs, options and cells are those of `bench/speed.py`: seconds of one processor, the least of the
repeats in turn; `--beside` names another program that takes the same words, whose bytes have to be ours. `--plain`
builds `bench/plain` and puts it beside, for bases and cycles its sketch. `--part` keeps the rows whose mesh has that
text in its words.

`--bases` makes another table: how many times the seconds of the sketch a basis takes, on meshes of some 20,000
vertices with lengths of six kinds. `--large` makes one of bases of meshes with up to 1,000,000 vertices, by the word
`large`; a program that doesn't know it is passed over with a word. `--keep` keeps that table in `bench/measured`.
"""
import argparse
import math
import shlex
import subprocess
import sys
import tempfile
from collections.abc import Iterator
from dataclasses import dataclass
from pathlib import Path

from bench import lengths, meshes, speed, tables

# Less than this at the first size tells nothing of growth.
TELLING_SECONDS = 0.02

GREAT_FACES = [
    ("prism 50000 1", "prism 200000 1"),
    ("polygon 250000", "polygon 990000"),
    ("bigface 250 250 200", "bigface 500 500 400"),
]
GREAT_DEGREES = [("suspension 250000", "suspension 990000"), ("fan 125000", "fan 490000")]
DEEP = [("chain 256 4 244", "chain 512 4 488"), ("tail 255 4 4 62000", "tail 511 4 4 248000")]
SCANS = [("gyroid 42 2 --shuffle 1", "gyroid 85 4 --shuffle 1"), ("flipped 60000 175 175", "flipped 240000 350 350")]
THIN = [("torus 3 1600", "torus 3 6400"), ("ring 127 6 7", "ring 511 6 7")]
HANDLES = [
    ("handles 70 71 64", "handles 140 142 64"),
    ("handles 70 71 64 --near", "handles 140 142 64 --near"),
    ("comb 30 50", "comb 60 100"),
]
ONE_SIDED = [("handles 70 71 64 --cross", "handles 140 142 64 --cross")]
ROUGH = [("blobs 29 40", "blobs 57 40"), ("glued 62", "glued 250")]
DENSE = [("dense 15 17 128", "dense 30 33 512")]
BASES = [
    "handles 140 142 64 --near",
    "handles 140 142 64",
    "comb 60 100",
    "torus 3 6666",
    "ring 63 16 20",
    "ring 511 6 7",
    "chain 8 30 30",
]
LARGE = [
    "scan 500000 5",
    "scan 500000 50",
    "scan 500000 104",
    "torus 3 333333",
    "ring 511 44 44",
    "chain 512 44 44",
    "chain 64 125 125",
    "torus 700 700",
    "gyroid 90 4",
]
# These take longest, so they run only where --part names them.
LARGEST = ["chain 8 353 353", "handles 700 700 500"]
LINEAR = GREAT_FACES + GREAT_DEGREES + DEEP + SCANS
FAR = THIN + HANDLES + ONE_SIDED + ROUGH

UNIT = "unit"
SCATTERED = "scattered 1"
TIES = "ties 3"
HEAVY = "heavy 97 1 4294967295"
NEAR = "near 1000000 3"
MILLION = "random 1 1000000"
COORDINATES = "coordinates 6"
BASES_LENGTHS = {
    UNIT: "unit",
    SCATTERED: "1 to 97",
    TIES: "1 to 3",
    HEAVY: "one heavy cut",
    NEAR: "near-equal",
    MILLION: "to a million",
}


@dataclass
class Case:
    """A command: its name in the table, its words (M for the mesh, L for its lengths, C for what is made first), the
    words of its meshes at two sizes, those of its lengths, and what is made first (see `speed.Inputs.names`)."""

    name: str
    words: str
    sizes: list[tuple[str, str]]
    lengths: list[str]
    first: str | None = None


CASES = [
    Case("info", "info M", LINEAR, [UNIT]),
    Case("dist", "dist M L 0", LINEAR, [UNIT, SCATTERED]),
    Case("loops", "loops M L 0", LINEAR, [UNIT, SCATTERED]),
    Case("cut trim", "cut M L 0 trim", LINEAR, [UNIT, SCATTERED]),
    Case("cut full", "cut M L 0 full", LINEAR, [UNIT]),
    Case("sew", "sew C", LINEAR, [UNIT], "cut M L 0 trim"),
    Case("disc", "disc C", LINEAR, [UNIT], "cut M L 0 trim"),
    Case("class", "class M C", DEEP + SCANS, [UNIT], "walk"),
    Case("same", "same M C C", DEEP + SCANS, [UNIT], "walk"),
    Case("certify at a base", "certify M L 0", LINEAR, [UNIT]),
    Case("check of loops", "check M L C", LINEAR, [UNIT], "certify M L 0"),
    Case("basis", "basis M L", FAR, [UNIT, SCATTERED, TIES, HEAVY, NEAR]),
    Case("cycle", "cycle M L", FAR, [UNIT, SCATTERED, TIES, HEAVY, NEAR]),
    Case("shortest", "shortest M L C", [("torus 3 1365", "torus 3 5461")], [UNIT, SCATTERED], "walk"),
    Case("certify", "certify M L", DENSE, [UNIT, SCATTERED]),
    Case("check of a basis", "check M L C", DENSE, [UNIT, SCATTERED], "certify M L"),
]


def write_mesh(words: str, path: Path) -> None:
    with path.open("w") as out:
        meshes.write_off(meshes.made(shlex.split(words)), out)


def write_lengths(mesh: Path, words: str, path: Path) -> None:
    kind, *numbers = words.split()
    with path.open("w") as out:
        out.writelines(lengths.lengths_of(mesh, kind, map(int, numbers)))


class Files(speed.Inputs):
    """The files that a case reads, each made once, by the words of meshes and lengths here."""

    def mesh(self, given: list[str]) -> str:
        key = ("mesh", *given)
        if key not in self.made:
            path = self.work / f"{len(self.made)}.off"
            speed.made_apart(write_mesh, " ".join(given), path)
            self.made[key] = str(path)
        return self.made[key]

    def scattered(self, mesh: str, scatter: str) -> str:
        key = ("lengths", mesh, scatter)
        if key not in self.made:
            path = self.work / f"{len(self.made)}.len"
            speed.made_apart(write_lengths, Path(mesh), scatter, path)
            self.made[key] = str(path)
        return self.made[key]

    def forget(self) -> None:
        """Removes all files."""
        for path in self.made.values():
            Path(path).unlink()
        self.made.clear()


def vertices_of(path: str) -> int:
    with open(path) as text:
        next(text)
        return int(next(text).split()[0])


def measured(case: Case, mesh: str, weights: str, files: Files, options: argparse.Namespace):
    """The programs that ran a command on a mesh, and its number of vertices."""
    names = files.names(mesh, "" if weights == UNIT else weights, case.first)
    plain = options.sketch if case.name in ("basis", "cycle") else options.plain_beside
    programs = [[str(files.surf)], *(program for _, program in [*plain, *options.beside])]
    runners = speed.in_turn(programs, speed.filled(case.words, names), files.work, options)
    return runners, vertices_of(names["M"][0])


def exponent(first, second, first_count: int, second_count: int) -> str:
    """With which power of the number of vertices the seconds grow."""
    if any(run.is_late or run.is_refused for run in (first, second)) or first.least[0] < TELLING_SECONDS:
        return "-"
    return f"{math.log(second.least[0] / first.least[0]) / math.log(second_count / first_count):.2f}"


def row(case: Case, sizes: tuple[str, str], weights: str, files: Files, options: argparse.Namespace) -> list[str]:
    (small, *_), small_count = measured(case, sizes[0], weights, files, options)
    (ours, *others), count = measured(case, sizes[1], weights, files, options)
    cells = [case.name, sizes[1], weights, f"{count:,}", *ours.figures(), exponent(small, ours, small_count, count)]
    for other in others:
        cells += [other.figures()[0], speed.ratio(ours, other)]
    return cells


def basis_beside(mesh: str, weights: str, files: Files, options: argparse.Namespace, is_large: bool):
    """Ours and the sketch after a basis each, in turn, and how many vertices there are."""
    names = files.names(mesh, "" if weights == UNIT else weights, None)
    words = speed.filled("basis M L", names)
    programs = [[str(files.surf), *words, *(["large"] if is_large else [])]]
    programs += [[*program, *words] for _, program in options.sketch]
    return speed.in_turn(programs, [], files.work, options), vertices_of(names["M"][0])


def bases_rows(files: Files, options: argparse.Namespace) -> Iterator[list[str]]:
    """The ratios of each mesh, one for each kind of lengths."""
    for mesh in (mesh for mesh in BASES if options.part in mesh):
        cells = [mesh]
        for weights in BASES_LENGTHS:
            (ours, sketch), _ = basis_beside(mesh, weights, files, options, is_large=False)
            cells.append(speed.ratio(ours, sketch))
        yield cells


def print_bases(files: Files, options: argparse.Namespace) -> None:
    tables.tell("bases", ["basis", *BASES_LENGTHS.values()], bases_rows(files, options), options.keep)


def knows_large(files: Files) -> bool:
    """Whether the program takes the word `large`."""
    words = [str(files.surf), "basis", files.mesh(["torus", "3", "3"]), "unit", "large"]
    return subprocess.run(words, capture_output=True, check=False).returncode == 0


def large_rows(files: Files, options: argparse.Namespace) -> Iterator[list[str]]:
    """The cells of each large mesh, with equal lengths and with others. Its files go before the next are made."""
    for mesh in (mesh for mesh in [*LARGE, *(LARGEST if options.part else [])] if options.part in mesh):
        for weights in (UNIT, COORDINATES if mesh.startswith("scan") else SCATTERED):
            (ours, *others), count = basis_beside(mesh, weights, files, options, is_large=True)
            cells = [mesh, weights.split()[0], f"{count:,}", *ours.figures()]
            for other in others:
                cells += [*other.figures(), speed.ratio(ours, other)]
            yield cells
        files.forget()


def print_large(files: Files, options: argparse.Namespace) -> None:
    if not knows_large(files):
        print("the program doesn't know `large`: bases of large meshes passed over")
        return
    head = ["basis", "lengths", "vertices", "seconds", "MB"]
    for name, _ in options.sketch:
        head += [f"{name}: seconds", f"{name}: MB", "ratio"]
    tables.tell("large", head, large_rows(files, options), options.keep)


def print_all(files: Files, options: argparse.Namespace) -> None:
    """The table of all commands."""
    head = ["command", "mesh", "lengths", "vertices", "seconds", "MB", "exponent"]
    for name, _ in [*options.plain_beside, *options.beside]:
        head += [f"{name}: seconds", "ratio"]
    tables.print_head(head)
    for case in CASES:
        if options.commands and not {case.name, case.name.split()[0]} & set(options.commands):
            continue
        for sizes in (pair for pair in case.sizes if options.part in pair[1]):
            for weights in case.lengths:
                print(tables.line(row(case, sizes, weights, files, options)), flush=True)


def main() -> None:
    parser = argparse.ArgumentParser(description=__doc__, formatter_class=argparse.RawDescriptionHelpFormatter)
    parser.add_argument("--surf", type=Path)
    parser.add_argument("--plain", action="store_true", help="build bench/plain and put it beside")
    parser.add_argument("--beside", type=speed.named, action="append", default=[])
    parser.add_argument("--repeat", type=int, default=1)
    parser.add_argument("--limit", type=int, help="processor seconds of one run: 60, or 200 with --large")
    parser.add_argument("--part", default="", help="only meshes with this text in their words")
    parser.add_argument("--bases", action="store_true")
    parser.add_argument("--large", action="store_true")
    parser.add_argument("--keep", action="store_true", help="with --bases or --large, of all meshes")
    parser.add_argument("commands", nargs="*", help="names of rows, or their first words; none: all")
    options = parser.parse_args()
    if options.bases and not options.plain:
        parser.error("--bases wants --plain")
    if options.keep and (options.part or not options.plain or not (options.bases or options.large)):
        parser.error("--keep wants --plain, --bases or --large, and all meshes")
    options.limit = options.limit or (200 if options.large else 60)
    surf = (options.surf or speed.built()).resolve()
    plain = [str(speed.plain_built())] if options.plain else []
    options.plain_beside = [("plain or sketch", plain)] if plain else []
    options.sketch = [("sketch", [*plain, "--sketch"])] if plain else []
    with tempfile.TemporaryDirectory() as folder:
        files = Files(surf, Path(folder), options)
        table = print_bases if options.bases else print_large if options.large else print_all
        table(files, options)


if __name__ == "__main__":
    sys.exit(main())
