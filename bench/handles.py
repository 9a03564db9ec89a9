#!/usr/bin/env python3
"""Seconds that `tools drop_handles` takes for many handles, as a table in Markdown.

    bench/handles.py [--surf PROGRAM] [--repeat N] [--keep]

Seconds are of one processor, of the tool and of the program that it asks, the least of the repeats. The meshes are of
`bench/meshes.py` with lengths of `bench/lengths.py`, and cheese.off of Debian's package libcgal-demo, which is passed
over with a word where that isn't installed. The tool takes off the shortest handles, as many as the table says.
`--keep` keeps the table in `bench/measured`.
"""
import argparse
import os
import subprocess
import sys
import tempfile
from pathlib import Path

from bench import hard, speed, tables
from tools import TOP
from tools.house import pictures
from tools.users.off import Mesh, write_off

CHEESE = "cheese.off"
# A mesh, the lengths of its edges, and how many handles are taken off; None: all.
CASES = [
    (CHEESE, hard.COORDINATES, 66),
    ("handles 136 142 50 --near", "random 500 1000", None),
    ("blobs 46 100", hard.COORDINATES, 50),
]


def cheese_at(path: Path) -> bool:
    """Writes cheese.off, if its package is installed."""
    soup = pictures.cheese()
    if soup is None:
        print("libcgal-demo isn't installed: cheese.off passed over", file=sys.stderr)
        return False
    path.write_text(write_off(Mesh([tuple(map(float, point)) for point in soup.points], soup.faces)))
    return True


def mesh_at(name: str, files: hard.Files) -> str | None:
    """The file of a mesh, or nothing where it can't be had here."""
    if name != CHEESE:
        return files.mesh(name.split())
    path = files.work / CHEESE
    return str(path) if cheese_at(path) else None


def genus_of(surf: Path, mesh: str | Path) -> int:
    said = subprocess.run([surf, "info", mesh], capture_output=True, text=True, check=True).stdout
    return int(dict(row.split() for row in said.splitlines())["genus"])


def seconds_of(words: list[str], answer: Path) -> float:
    """What a command takes with all that it starts. Its answer goes into a file."""
    before = os.times()
    with answer.open("wb") as out:
        subprocess.run(words, stdout=out, stderr=subprocess.DEVNULL, check=True)
    after = os.times()
    return after.children_user + after.children_system - before.children_user - before.children_system


def row(name: str, lengths: str, most: int | None, files: hard.Files, repeat: int) -> list[str] | None:
    """The cells of a mesh, or nothing where it can't be had here."""
    mesh = mesh_at(name, files)
    if mesh is None:
        return None
    words = [sys.executable, str(TOP / "tools"), "drop_handles", mesh, "--shorter-than", "inf"]
    words += ["--program", str(files.surf), *(["--most", str(most)] if most else [])]
    words += [] if lengths == hard.COORDINATES else ["--lengths", files.scattered(mesh, lengths)]
    left = files.work / "left.off"
    seconds = min(seconds_of(words, left) for _ in range(repeat))
    before = genus_of(files.surf, mesh)
    taken = f"{before - genus_of(files.surf, left)} of {before}"
    return [name, lengths, f"{hard.vertices_of(mesh):,}", taken, f"{seconds:.1f}"]


def main() -> None:
    parser = argparse.ArgumentParser(description=__doc__, formatter_class=argparse.RawDescriptionHelpFormatter)
    parser.add_argument("--surf", type=Path)
    parser.add_argument("--repeat", type=int, default=1)
    parser.add_argument("--keep", action="store_true")
    options = parser.parse_args()
    surf = (options.surf or speed.built()).resolve()
    with tempfile.TemporaryDirectory() as folder:
        files = hard.Files(surf, Path(folder), options)
        head = ["mesh", "lengths", "vertices", "handles taken off", "seconds"]
        made = (row(*case, files, options.repeat) for case in CASES)
        tables.tell("handles", head, filter(None, made), options.keep)


if __name__ == "__main__":
    main()
