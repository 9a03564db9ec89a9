#!/usr/bin/env python3
"""How the seconds of each command grow, on every kind of mesh that `bench/meshes.py` makes, as one table in Markdown.

    bench/growth.py [--surf PROGRAM] [--limit SECONDS] [--above POWER] [--part TEXT] [COMMAND ..]

Each command runs on each kind of mesh at two sizes, the second about four times the first, with lengths of
`bench/lengths.py`. The table has for each command how often it ran, the greatest power of the number of vertices with
which its seconds grew, and its most seconds. Where a run is too short or too long to tell, there is no power. Each pair
of runs whose power is above `--above` (1.3) is told before, with its seconds. `--part` keeps the meshes that have that
text in their words. Commands are named as in the table, or by their first words.
"""
import argparse
import sys
import tempfile
from collections.abc import Iterator
from dataclasses import dataclass
from pathlib import Path

from bench import hard, speed, tables

LENGTHS = [hard.UNIT, hard.SCATTERED, hard.TIES, hard.HEAVY, hard.NEAR]

# Meshes with loops at two sizes, those without, and smaller ones for the commands whose meshes are small.
LOOPED = [
    ("torus 175 175", "torus 350 350"),
    ("torus 3 10000", "torus 3 40000"),
    ("quads 175 175", "quads 350 350"),
    ("chain 64 22 22", "chain 256 22 22"),
    ("ring 64 22 22", "ring 256 22 22"),
    ("tail 127 4 4 7500", "tail 511 4 4 30000"),
    ("handles 175 176 128", "handles 350 352 512"),
    ("handles 175 176 128 --near", "handles 350 352 512 --near"),
    ("handles 175 176 128 --cross", "handles 350 352 512 --cross"),
    ("comb 64 150", "comb 256 150"),
    ("hub 64 470", "hub 256 470"),
    ("glued 500", "glued 2000"),
    ("flipped 60000 175 175", "flipped 240000 350 350"),
    ("torus 175 175 --shuffle 1", "torus 350 350 --shuffle 1"),
    ("fan 30000", "fan 120000"),
    ("polygon 30000", "polygon 120000"),
    ("bigface 175 175 140", "bigface 350 350 280"),
]
SPHERES = [
    ("sphere 170 180", "sphere 340 360"),
    ("suspension 30000", "suspension 120000"),
    ("pillow 30000", "pillow 120000"),
    ("pyramid 30000", "pyramid 120000"),
    ("prism 15000 1", "prism 60000 1"),
]
IN_SPACE = [
    ("gyroid 21 2", "gyroid 42 4"),
    ("truss 21 2", "truss 42 4"),
    ("blobs 57 40", "blobs 114 40"),
    ("bumpy 175 175", "bumpy 350 350"),
    ("stretched 175 175", "stretched 350 350"),
]
FAR = hard.FAR + hard.ONE_SIDED
FEW_LOOPS = [("torus 3 1365", "torus 3 5461"), ("torus 64 64", "torus 128 128"), ("chain 4 4 16", "chain 4 8 32")]
SMALL = [*hard.DENSE, ("torus 15 16", "torus 31 32"), ("torus 3 83", "torus 3 333"), ("comb 4 20", "comb 16 20")]


@dataclass
class Growth(hard.Case):
    """A command as in `bench/hard.py`, on meshes with the given lengths."""


LINEAR = [*LOOPED, *SPHERES, *IN_SPACE]
CASES = [
    Growth("info", "info M", LINEAR, [hard.UNIT]),
    Growth("lengths", "lengths M 6", IN_SPACE, [hard.UNIT]),
    Growth("dist", "dist M L 0", LINEAR, LENGTHS),
    Growth("loops", "loops M L 0", LINEAR, LENGTHS),
    Growth("cut trim", "cut M L 0 trim", LINEAR, LENGTHS),
    Growth("cut full", "cut M L 0 full", LINEAR, LENGTHS),
    Growth("certify at a base", "certify M L 0", LINEAR, LENGTHS),
    Growth("check of loops", "check M L C", LINEAR, LENGTHS, "certify M L 0"),
    Growth("sew", "sew C", LINEAR, [hard.UNIT], "cut M L 0 trim"),
    Growth("disc", "disc C", LINEAR, [hard.UNIT], "cut M L 0 trim"),
    Growth("class", "class M C", [*LOOPED, *IN_SPACE], [hard.UNIT], "walk"),
    Growth("same", "same M C C", [*LOOPED, *IN_SPACE], [hard.UNIT], "walk"),
    Growth("basis", "basis M L", FAR, LENGTHS),
    Growth("cycle", "cycle M L", FAR, LENGTHS),
    Growth("shortest", "shortest M L C", FEW_LOOPS, LENGTHS, "walk"),
    Growth("certify", "certify M L", SMALL, LENGTHS),
    Growth("check of a basis", "check M L C", SMALL, LENGTHS, "certify M L"),
]


@dataclass
class Row:
    """What two runs of a command took, with the power of their growth or a stroke."""

    words: list[str]
    seconds: float
    power: str

    def is_steep(self, above: float) -> bool:
        return self.power != "-" and float(self.power) > above


def measured_row(case: Growth, sizes: tuple[str, str], weights: str, files: hard.Files, options) -> Row | None:
    """A row, or nothing where a command doesn't take a mesh."""
    (small,), small_count = hard.measured(case, sizes[0], weights, files, options)
    (great,), count = hard.measured(case, sizes[1], weights, files, options)
    if small.is_refused or great.is_refused:
        return None
    power = hard.exponent(small, great, small_count, count)
    words = [case.name, sizes[1], weights, small.figures()[0], *great.figures(), power]
    return Row(words, float(options.limit) if great.is_late else great.least[0], power)


def rows(options: argparse.Namespace, surf: Path) -> Iterator[Row]:
    """All rows, a mesh at a time: its files go before those of the next are made."""
    pairs = {sizes: None for case in CASES for sizes in case.sizes if options.part in sizes[1]}
    for sizes in pairs:
        with tempfile.TemporaryDirectory() as folder:
            files = hard.Files(surf, Path(folder), options)
            for case in CASES:
                if options.commands and not {case.name, case.name.split()[0]} & set(options.commands):
                    continue
                for weights in case.lengths if sizes in case.sizes else []:
                    row = measured_row(case, sizes, weights, files, options)
                    if row:
                        yield row


def summed(name: str, rows: list[Row]) -> list[str]:
    """The cells of a command: how many pairs of runs it has, its greatest power, and its most seconds."""
    steepest = max((row for row in rows if row.power != "-"), key=lambda row: float(row.power), default=None)
    slowest = max(rows, key=lambda row: row.seconds)
    power = [steepest.power, steepest.words[1]] if steepest else ["-", ""]
    return [name, str(len(rows)), *power, f"{slowest.seconds:.2f}", slowest.words[1]]


def main() -> None:
    parser = argparse.ArgumentParser(description=__doc__, formatter_class=argparse.RawDescriptionHelpFormatter)
    parser.add_argument("--surf", type=Path)
    parser.add_argument("--repeat", type=int, default=1)
    parser.add_argument("--limit", type=int, default=60, help="processor seconds of one run")
    parser.add_argument("--above", type=float, default=1.3, help="the power from which on a row is shown")
    parser.add_argument("--part", default="", help="only meshes with this text in their words")
    parser.add_argument("commands", nargs="*", help="names of rows, or their first words; none: all")
    options = parser.parse_args()
    options.beside, options.plain_beside, options.sketch = [], [], []
    surf = (options.surf or speed.built()).resolve()
    tables.print_head(["command", "mesh", "lengths", "seconds before", "seconds", "MB", "power"])
    seen: dict[str, list[Row]] = {}
    for row in rows(options, surf):
        seen.setdefault(row.words[0], []).append(row)
        if row.is_steep(options.above):
            print(tables.line(row.words), flush=True)
    head = ["command", "pairs of runs", "greatest power", "on", "most seconds", "on"]
    tables.tell("growth", head, (summed(name, ours) for name, ours in seen.items()), is_kept=False)


if __name__ == "__main__":
    sys.exit(main())
