"""Handles taken off surfaces, by the cutter that the package carries."""

from __future__ import annotations

import decimal
import numbers
from typing import TYPE_CHECKING, Any, List, NamedTuple, Optional, Tuple

import numpy as np

from ._answers import Walk, Walks
from ._faces import frozen
from ._texts import Ints
from .meshfiles.handles import CLOSINGS, Cycle, Shape, Wanted, take_off

if TYPE_CHECKING:
    from ._surface import Surface


class Removal(NamedTuple):
    """What is left of a surface; for each vertex and face its number on that, -1 where it is new; and the cycles along
    which that was cut."""

    surface: Surface
    vertices: Ints
    faces: Ints
    removed: Walks

    def note(self) -> str:
        """What was done, in a line."""
        count, lengths = len(self.removed), [f"{walk.length:.6g}" for walk in self.removed]
        return f"{count} handle{'' if count == 1 else 's'} taken off{': ' if count else ''}{' '.join(lengths)}"


def wanted(shorter_than: Any, most: Optional[int], closing: str, decimals: int) -> Wanted:
    """Which handles go, with the bound in units of 10**-decimals."""
    if not isinstance(shorter_than, numbers.Real):
        raise TypeError(f"shorter_than is of the type {type(shorter_than).__name__}, and not a number")
    if not float(shorter_than) > 0:  # nor is what isn't a number
        raise ValueError(f"shorter_than is a number above 0, and not {shorter_than}")
    if most is not None and most < 0:
        raise ValueError(f"most is a number from 0 on, and not {most}")
    if closing not in CLOSINGS:
        raise ValueError(f'closing is "faces" or "triangles", and not {closing!r}')
    return Wanted(decimal.Decimal(repr(float(shorter_than))).scaleb(decimals), most, closing)


class Finder:
    """Asks surf for the cycles of a shape, whose old edges are as long as those of the surface that it was."""

    def __init__(self, first: Surface) -> None:
        self.first = first
        edges: List[Any] = first.edges.tolist()
        self.known = dict(zip(map(tuple, edges), first.units.tolist()))
        self._made: Tuple[int, Optional[Surface]] = -1, None

    def surface(self, shape: Any, points: Any) -> Surface:
        """The shape as a surface."""
        vertices = len(shape.vertex_origins) if points is None else np.array(points)
        units = np.array([units for _, _, units in shape.lengths(self.known)], np.int64)
        return type(self.first)(vertices, shape.faces, lengths=units, decimals=self.first.decimals)

    def _now(self, shape: Any) -> Surface:
        """The same of the shape as it is: one that was cut has more vertices than before."""
        count, made = self._made
        if made is None or count != len(shape.vertex_origins):
            made = self.surface(shape, shape.points)
            self._made = len(shape.vertex_origins), made
        return made

    def basis(self, shape: Any) -> List[Any]:
        return [Cycle(walk.units, walk.vertices.tolist()) for walk in self._now(shape).basis()]

    def cycle(self, shape: Any) -> Any:
        walk = self._now(shape).cycle()
        return walk and Cycle(walk.units, walk.vertices.tolist())


def without_handles(surface: Surface, which: Wanted) -> Removal:
    """What is left of a surface, and what was taken off."""
    points = None if surface.vertices is None else surface.vertices.tolist()
    shape = Shape(surface.vertex_count, points, [list(map(int, face)) for face in surface.faces])
    finder, decimals = Finder(surface), surface.decimals
    taken = take_off(shape, finder, which)
    walks = tuple(Walk(frozen(np.array(cycle.vertices)), cycle.units, decimals) for cycle in taken.cycles)
    left = finder.surface(shape, None if points is None else shape.parted_points())
    vertices, faces = (frozen(np.array(found, np.int64)) for found in (shape.vertex_origins, shape.face_origins))
    return Removal(left, vertices, faces, Walks(walks, sum(walk.units for walk in walks), decimals))


def composed(before: Optional[Ints], now: Ints) -> Ints:
    """The numbers before two changes, of those before the first and those before the second; -1 for what is new."""
    if before is None:
        return now
    found: Ints = frozen(np.where(now < 0, -1, before[now]))
    return found
