"""Small handles taken off each part of a mesh."""

from __future__ import annotations

from typing import Any, List, NamedTuple

import numpy as np

from .meshes import Mesh, Unfit, telling
from .surfbasis import MeshFileError, Surface

HOLE = -1  # the number of a face that closes a hole, which the mesh hasn't


class Change(NamedTuple):
    """What becomes of a mesh. Vertices from `len(mesh.points)` on are new.

    origins: for each new vertex the one that it is a copy of, shape (n,)
    places:  for each vertex, old or new, where it stands
    faces:   the corners of each old face that has new ones, by its number
    closing: the corners of each new face
    lengths: of the cycles along which the mesh is cut
    left:    for each part the length of a shortest cycle that doesn't separate it, if there is one"""

    origins: List[int]
    places: Any
    faces: "dict[int, List[int]]"
    closing: List[List[int]]
    lengths: List[float]
    left: List[float]

    def told(self) -> str:
        """What was done, in words."""
        count, lengths = len(self.lengths), ", ".join(f"{length:.6g}" for length in self.lengths)
        done = f"{count} handle{'' if count == 1 else 's'} taken off{f': {lengths}' if count else ''}"
        return f"{done}; the shortest left has {min(self.left):.6g}" if self.left else f"{done}; none is left"


def without_small_handles(mesh: Mesh, shorter_than: float, by_length: bool) -> Change:
    """The change by which no part, its holes closed, has a cycle that is shorter and doesn't separate it."""
    change = Change([], np.array(mesh.points, float), {}, [], [], [])
    for surface in mesh.surfaces(True, by_length):
        with telling(surface):
            try:
                left = surface.without_handles(shorter_than=shorter_than)
            except MeshFileError as fault:
                raise Unfit(str(fault)) from None
            shortest = left.cycle()
        change = _with_part(change, len(mesh.points), surface, left)
        change.left.extend([shortest.length] if shortest else [])
    return change


def _with_part(change: Change, count: int, surface: Surface, left: Surface) -> Change:
    """The change with that of a part, of a mesh of so many vertices."""
    old = surface.vertex_count
    new = left.vertex_origins[old:]
    first = count + len(change.origins)
    names = np.concatenate([surface.vertex_origins, np.arange(first, first + len(new))])
    for number, face in zip(surface.face_origins.tolist(), left.faces):
        if number != HOLE and face.max() >= old:
            change.faces[number] = names[face].tolist()
    change.closing.extend(names[face].tolist() for face in list(left.faces)[len(surface.faces) :])
    change.lengths.extend(walk.length for walk in left.removed)
    moved = np.flatnonzero((left.vertices[:old] != surface.vertices).any(axis=1))
    change.places[surface.vertex_origins[moved]] = left.vertices[moved]
    places = np.concatenate([change.places, left.vertices[old:]])
    return change._replace(origins=[*change.origins, *new.tolist()], places=places)
