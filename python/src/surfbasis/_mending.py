"""Mesh files and arrays that aren't surfaces, by the readers and the mender that the package carries."""

from __future__ import annotations

import math
from typing import Any, Iterator, NamedTuple, Optional, Tuple, Union

import numpy as np

from ._callers import Path
from ._faces import Faces, frozen, points_of
from ._texts import Floats, Ints
from .meshfiles import MeshFileError, Soup, mend, mend_all, read_mesh

__all__ = ["How", "Hub", "Mended", "MeshFileError", "Origins", "mended_arrays", "mended_file", "mended_parts"]

REACH = 20  # cycles round a surface with holes are taken to be no longer than so many times its diagonal


class How(NamedTuple):
    """How a mesh is mended, in the words of `Surface.from_file`."""

    close: Union[bool, str] = False
    tolerance: Optional[float] = 0.0
    part: int = 0

    def holes(self) -> str:
        """What becomes of holes, in the mender's word."""
        if self.close not in (False, True, "hub"):
            raise ValueError(f'close is True, False or "hub", and not {self.close!r}')
        return "hub" if self.close == "hub" else "close" if self.close else "keep"


class Origins(NamedTuple):
    """The numbers that vertices and faces had before mending, -1 for new ones, and what was done, a line each."""

    vertices: Ints
    faces: Ints
    notes: Tuple[str, ...]


class Hub(NamedTuple):
    """A sphere that joins holes: its first vertex and face, with which all behind are its own, and the rims of the
    holes, each as the vertices round it."""

    first_vertex: int
    first_face: int
    rims: Tuple[Ints, ...]


class Mended(NamedTuple):
    """The points and faces of one surface, where they come from, and the hub where there is one."""

    points: Floats
    faces: Any
    origins: Origins
    hub: Optional[Hub]

    def without(self, hub: Hub) -> Tuple[Floats, Any]:
        """The points and faces where each hole is closed by one face in place of the hub: all other edges are there."""
        return self.points[: hub.first_vertex], [*self.faces[: hub.first_face], *hub.rims]

    def most_decimals(self, hub: Hub, greatest: int, most: int) -> int:
        """As many decimals as leave cycles shorter than the edges of the hub, which have the greatest length."""
        reach = REACH * float(np.linalg.norm(np.ptp(self.points[: hub.first_vertex], axis=0)))
        return most if reach == 0 else max(0, min(most, math.floor(math.log10(greatest / reach))))


def mended_file(path: Path, how: How) -> Mended:
    """The mended part of a mesh file."""
    return _taken(mend(read_mesh(path), tolerance=how.tolerance, part=how.part, holes=how.holes()))


def mended_arrays(vertices: Any, faces: Any, how: How) -> Mended:
    """The mended part of arrays."""
    return _taken(mend(_soup(vertices, faces), tolerance=how.tolerance, part=how.part, holes=how.holes()))


def mended_parts(vertices: Any, faces: Any, how: How) -> Iterator[Mended]:
    """All mended parts of arrays."""
    return map(_taken, mend_all(_soup(vertices, faces), tolerance=how.tolerance, holes=how.holes()))


def _soup(vertices: Any, faces: Any) -> Soup:
    """Arrays as the mender takes them, of the shapes and types that a surface takes."""
    _, points = points_of(vertices)
    if points is None:
        raise ValueError("a mesh without places can't be mended")
    listed = Faces.of(faces)
    return Soup(points, listed.corners, listed.starts)


def _taken(mended: Any) -> Mended:
    corners, starts = np.asarray(mended.corners, np.int64), np.asarray(mended.starts, np.int64)
    sizes = np.diff(starts)
    alike = len(sizes) > 0 and bool((sizes == sizes[0]).all())
    faces = corners.reshape(len(sizes), -1) if alike else np.split(corners, starts[1:-1])
    origins = Origins(
        frozen(np.array(mended.vertex_origins, np.int64)),
        frozen(np.array(mended.face_origins, np.int64)),
        tuple(mended.report.lines()),
    )
    hub = None
    if mended.hub_edges:
        rims = tuple(np.array(rim, np.int64) for rim in mended.rims)
        hub = Hub(int(mended.first_added_vertex), int(mended.first_added_face), rims)
    return Mended(np.asarray(mended.points, np.float64), faces, origins, hub)
