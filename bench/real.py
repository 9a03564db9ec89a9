#!/usr/bin/env python3
"""Shortest bases of the surfaces with handles among the mesh files of a Debian package, as a table in Markdown.

    bench/real.py [--surf PROGRAM] [--package NAME] [--root DIR] [--repeat N] [--limit SECONDS] [--keep]

The package is libcgal-demo unless another is named; it is installed, or with --root unpacked as `survey_meshes.py`
takes it. Each file is taken in by `to_off.py --close`; files of equal bytes count once, and surfaces without a loop
and what is no surface are left out. Lengths are those of `surf lengths` in millionths of the file's unit, or where an
edge doesn't fit in these, in thousandths or in billionths; the total is in the file's unit. A surface without a genus
has its number of crosscaps. Seconds are of one processor, the least of the repeats. A basis above 20,000 vertices
wants the word `large`; where the program doesn't know it, the row says so. `--keep` keeps the table in
`bench/measured`.
"""
import argparse
import hashlib
import subprocess
import sys
import tempfile
from collections.abc import Iterator
from pathlib import Path

from bench import speed, tables
from tools.oracles import survey_meshes

HEAD = ["file", "vertices", "genus", "total length", "seconds"]


def said(surf: Path, *words: str) -> list[str] | None:
    """The lines of an answer, or nothing where it is refused."""
    ran = subprocess.run([str(surf), *words], capture_output=True, text=True, check=False)
    return ran.stdout.splitlines() if ran.returncode == 0 else None


def surfaces(package: str, root: Path | None, work: Path) -> Iterator[tuple[str, Path]]:
    """The name and the mended mesh of each file, those of equal bytes once."""
    seen = set()
    for name, data in survey_meshes.meshes_of(package, root):
        mark = hashlib.sha256(data).digest()
        if mark in seen:
            continue
        seen.add(mark)
        given, mended = work / name, work / "mended.off"
        given.write_bytes(data)
        status, mesh, _ = survey_meshes.convert(given, "--close")
        given.unlink()
        if status == 0:
            mended.write_bytes(mesh)
            yield name, mended


def lengths_of(surf: Path, mesh: Path, path: Path) -> int:
    """Writes lengths, and says in which power of a tenth of the unit they are."""
    for decimals in (6, 3, 9):
        lines = said(surf, "lengths", str(mesh), str(decimals))
        if lines is not None:
            path.write_text("\n".join(lines) + "\n")
            return decimals
    raise ValueError(f"{mesh}: no lengths")


def row(name: str, mesh: Path, options: argparse.Namespace, work: Path) -> list[str] | None:
    """The cells of a surface with loops."""
    info = said(options.surf, "info", str(mesh))
    if info is None or info[4].split()[1] == "0":
        return None
    vertices = int(info[0].split()[1])
    cells = [name, f"{vertices:,}", info[4].removeprefix("genus ")]
    lengths = work / "mended.len"
    decimals = lengths_of(options.surf, mesh, lengths)
    runner = speed.Runner([str(options.surf)], work / "answer")
    words = ["basis", str(mesh), str(lengths), *(["large"] if vertices > 20_000 else [])]
    for _ in range(options.repeat):
        runner.turn(words, options.limit)
    if runner.is_refused:
        return [*cells, "", "wants `large`"]
    seconds = runner.figures()[0]
    if runner.is_late:
        return [*cells, "", seconds]
    total = runner.answer.read_text().splitlines()[1].split()[1]
    return [*cells, f"{int(total) / 10**decimals:.6g}", seconds]


def main() -> None:
    parser = argparse.ArgumentParser(description=__doc__, formatter_class=argparse.RawDescriptionHelpFormatter)
    parser.add_argument("--surf", type=Path)
    parser.add_argument("--package", default="libcgal-demo")
    parser.add_argument("--root", type=Path)
    parser.add_argument("--repeat", type=int, default=2)
    parser.add_argument("--limit", type=int, default=60, help="processor seconds of one run")
    parser.add_argument("--keep", action="store_true")
    options = parser.parse_args()
    options.surf = (options.surf or speed.built()).resolve()
    with tempfile.TemporaryDirectory() as folder:
        work = Path(folder)
        made = (row(name, mesh, options, work) for name, mesh in surfaces(options.package, options.root, work))
        rows = sorted((cells for cells in made if cells), key=lambda cells: int(cells[1].replace(",", "")))
    if rows:
        tables.tell("real", HEAD, rows, options.keep)
    else:
        print(f"{options.package} isn't installed or has no surface with a loop: passed over", file=sys.stderr)


if __name__ == "__main__":
    main()
