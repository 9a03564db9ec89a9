#!/usr/bin/env python3
"""Turns a mesh file into the OFF that `surf` reads: one surface, whatever the faults of the file.

    to_off.py MESH > mesh.off                  OFF of any dialect, OBJ, PLY, STL, each also as .gz
    to_off.py MESH --close > mesh.off          each hole closed by one face
    to_off.py MESH --hub mesh.len > mesh.off   holes kept, so that loops round them count: lengths to use with it

Equal points become one where an edge has no second face. Corners and faces that stand twice go. Faces are glued
side by side, where more than two meet those that bound one wedge of the inside, and never at a vertex alone. An
edge that has the ends of another gets a vertex in its middle. The part with the most faces is taken. A closed
surface is left as it is, but for vertices that no face has. What was done is told on standard error.
"""

from __future__ import annotations

import argparse
import os
import pathlib
import sys
from typing import BinaryIO

from tools.users.meshfiles import Mended, MeshFileError, mend, mend_all, read_mesh


def parsed(arguments: list[str] | None) -> argparse.Namespace:
    parser = argparse.ArgumentParser(description=__doc__, formatter_class=argparse.RawDescriptionHelpFormatter)
    parser.add_argument("mesh", type=pathlib.Path, metavar="MESH")
    merging = parser.add_mutually_exclusive_group()
    merging.add_argument(
        "--tolerance", type=float, default=0.0, metavar="T", help="points no farther apart become one"
    )
    merging.add_argument("--no-merge", action="store_true", help="equal points stay apart, as in a mesh that was cut")
    which = parser.add_mutually_exclusive_group()
    which.add_argument(
        "--part", type=int, default=0, metavar="K", help="the part at place K, from 0, the greatest first"
    )
    which.add_argument("--all", type=pathlib.Path, metavar="DIR", help="a file in DIR for each part")
    parser.add_argument("--most", choices=["faces", "area"], default="faces", help="what makes a part great")
    holes = parser.add_mutually_exclusive_group()
    holes.add_argument("--close", action="store_true", help="close each hole by one face")
    holes.add_argument(
        "--hub", type=pathlib.Path, metavar="LEN", help="join all holes by a sphere; lengths go to LEN"
    )
    parser.add_argument("--decimals", type=int, default=6, metavar="K", help="of the lengths in LEN: units of 10^-K")
    parser.add_argument("--map", type=pathlib.Path, metavar="FILE", help="which vertex and face of MESH each one is")
    return parser.parse_args(arguments)


def write(mended: Mended, words: argparse.Namespace, out: BinaryIO, number: int | None = None) -> None:
    """Writes one surface, after the files beside it. Those of a part have its number before their ending."""

    def beside(path: pathlib.Path) -> pathlib.Path:
        return path if number is None else words.all / f"{path.stem}-{number}{path.suffix}"

    if words.hub:
        beside(words.hub).write_bytes(mended.lengths_text(words.decimals))
    if words.map:
        beside(words.map).write_bytes(mended.map_text())
    out.write(mended.off_text())
    out.flush()


def write_all(surfaces: list[Mended], words: argparse.Namespace) -> None:
    """A file for each part, named after the mesh and numbered, and a line for each on what was done."""
    words.all.mkdir(parents=True, exist_ok=True)
    name = words.mesh.name.removesuffix(".gz").rsplit(".", 1)[0]
    for number, mended in enumerate(surfaces):
        path = words.all / f"{name}-{number}.off"
        with open(path, "wb") as out:
            write(mended, words, out, number)
        mended.report.parts = 1  # none is left out
        told = "; ".join(mended.report.lines())
        print(f"{path}: {len(mended.starts) - 1} faces{'; ' if told else ''}{told}", file=sys.stderr)


def run(words: argparse.Namespace) -> None:
    how = {"tolerance": None if words.no_merge else words.tolerance, "most": words.most}
    how["holes"] = "close" if words.close else "hub" if words.hub else "keep"
    soup = read_mesh(words.mesh)
    if words.all:
        write_all(mend_all(soup, **how), words)
        return
    mended = mend(soup, part=words.part, **how)
    write(mended, words, sys.stdout.buffer)
    for line in mended.report.lines():
        print(line, file=sys.stderr)


def main() -> int:
    words = parsed(None)
    try:
        run(words)
    except KeyboardInterrupt:
        return 130
    except BrokenPipeError:  # whoever reads the mesh has gone
        os.dup2(os.open(os.devnull, os.O_WRONLY), sys.stdout.fileno())
        return 1
    except (MeshFileError, OSError) as fault:
        told = fault.strerror if isinstance(fault, OSError) and fault.strerror else fault
        print(f"to_off: {words.mesh}: {told}", file=sys.stderr)
        return 1
    except MemoryError:
        print(f"to_off: {words.mesh}: there is no memory for it", file=sys.stderr)
        return 1
    return 0


if __name__ == "__main__":
    sys.exit(main())
