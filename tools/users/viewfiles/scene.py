"""What a file of the viewer shows."""

from __future__ import annotations

from dataclasses import dataclass
from typing import Any, Iterable, List, Optional, Sequence, Tuple


@dataclass(frozen=True)
class Mesh:
    """A mesh in space.

    points:   three coordinates for each vertex: a sequence of sequences, or an array
    faces:    the vertices of each face, three or more: as `points`, or a sequence of arrays
    is_added: for each face whether it was added to close holes, so that it isn't drawn; empty where none was
    """

    points: Any
    faces: Any
    is_added: Sequence[bool] = ()


@dataclass(frozen=True)
class Line:
    """What is drawn in one colour and is a row of the list.

    vertices: a closed walk with its first vertex again at the end, or else both ends of each edge
    is_walk:  which of the two
    units:    the walk's length, in whole units of 10**-decimals; None for edges
    decimals: None where each edge counts 1
    """

    vertices: Sequence[int]
    is_walk: bool
    units: Optional[int] = None
    decimals: Optional[int] = 0


def walk(vertices: Sequence[int], units: int, decimals: Optional[int] = 0) -> Line:
    """A closed walk, whose first vertex is the last one, too."""
    return Line(vertices, True, units, decimals)


def edge_set(edges: Iterable[Tuple[int, int]]) -> Line:
    """Edges of one colour."""
    return Line([vertex for edge in edges for vertex in edge], False)


@dataclass(frozen=True)
class Values:
    """A number for each vertex or for each face, by which faces are coloured.

    label: what the scale says of them
    """

    numbers: Sequence[float]
    is_of_faces: bool = False
    label: str = ""


@dataclass(frozen=True)
class Scene:
    """A mesh and what is shown on it.

    title:  what the file is called by
    turn:   degrees about the upright axis, which is the third one, from where it is seen at first; tilt: degrees from
            above the horizon
    lines:  walks, or the edges of evidence
    seams:  both ends of each edge along which the mesh is cut into a disc, which is laid in the plane; None for no cut
    marked: faces that a walk bounds
    """

    title: str
    mesh: Mesh
    lines: Sequence[Line] = ()
    seams: Optional[Sequence[Tuple[int, int]]] = None
    marked: Sequence[int] = ()
    values: Optional[Values] = None
    turn: float = 30.0
    tilt: float = 40.0

    def drawn_lines(self) -> List[Line]:
        """The lines, the seams before them."""
        return [*([] if self.seams is None else [edge_set(self.seams)]), *self.lines]
