"""Draws a shortest homology basis of a mesh file: python -m surfbasis MESH [PICTURE.png or PAGE.html]."""

from __future__ import annotations

import argparse
import pathlib
import sys
from typing import List, Optional

from . import MeshFileError, Refused, Surface, plot


def main(words: Optional[List[str]] = None) -> int:
    """Prints the lengths and draws the picture; the status is surf's, or 1 where the file can't be read."""
    parser = argparse.ArgumentParser(prog="python -m surfbasis", description=__doc__.partition(":")[0] + ".")
    parser.add_argument("mesh", help="an OFF, OBJ, PLY or STL file, also with .gz behind")
    parser.add_argument("picture", nargs="?", help="where the picture goes, or a page (.html); MESH.png in this folder")
    parser.add_argument("--close", action="store_true", help="close each hole by one face")
    parser.add_argument("--hub", action="store_true", help="join all holes, so that loops round them count")
    parser.add_argument("--tolerance", type=float, default=0.0, help="merge points of open edges nearer than this")
    parser.add_argument("--base", type=int, help="draw loops at this vertex in place of a basis")
    given = parser.parse_args(words)
    picture = given.picture or f"{pathlib.Path(given.mesh).name.partition('.')[0]}.png"
    try:
        close = "hub" if given.hub else given.close
        surface = Surface.from_file(given.mesh, close=close, tolerance=given.tolerance)
        walks = surface.basis() if given.base is None else surface.loops(given.base)
    except Refused as refused:
        print(refused, file=sys.stderr)
        return refused.status
    except (MeshFileError, OSError) as fault:
        print(fault, file=sys.stderr)
        return 1
    for note in surface.notes:
        print(note, file=sys.stderr)
    print(f"{len(walks)} {'cycles' if given.base is None else 'loops'}, {walks.length:.6g} in all")
    for walk in walks:
        print(f"{walk.length:.6g}: {len(walk)} edges")
    plot.save(picture, surface, walks)
    print(picture)
    return 0


if __name__ == "__main__":
    sys.exit(main())
