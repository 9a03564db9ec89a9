"""What surf answers, as small classes that don't change."""

from __future__ import annotations

from dataclasses import dataclass, field
from typing import TYPE_CHECKING, Any, Dict, Iterator, Optional, Sequence, Tuple, TypeVar, Union, overload

import numpy as np

from ._texts import Floats, Ints

if TYPE_CHECKING:
    from ._surface import Surface

Polygons = Union[Ints, Tuple[Ints, ...]]


@dataclass(frozen=True, eq=False)
class OnSurface:
    """An answer that a notebook shows on its surface, which a copy by pickle leaves behind."""

    surface: Optional[Surface] = field(default=None, init=False, repr=False)

    def _repr_html_(self) -> Optional[str]:
        """The page that `surface.show` makes, where the surface is known and lies in space."""
        if self.surface is None or self.surface.vertices is None:
            return None
        return self.surface.show(self)._repr_html_()

    def __getstate__(self) -> Dict[str, Any]:
        return {**self.__dict__, "surface": None}


Answer = TypeVar("Answer", bound=OnSurface)


def answer_on(surface: Surface, answer: Answer) -> Answer:
    """An answer that knows its surface."""
    object.__setattr__(answer, "surface", surface)  # its class lets nobody else change it
    return answer


@dataclass(frozen=True)
class Info:
    """The counts of a surface, its Euler characteristic, and how many handles or crosscaps it has.

    `genus` is None where the surface is one-sided, and `crosscaps` where it is two-sided.

    >>> info = surfbasis.Surface.from_file("meshes/plane6.off", lengths="unit").info()
    >>> info.crosscaps, info.genus, info.orientable, info.rank
    (1, None, False, 1)
    """

    vertices: int
    edges: int
    faces: int
    characteristic: int
    genus: Optional[int]
    crosscaps: Optional[int]

    @property
    def orientable(self) -> bool:
        """Whether the surface is two-sided."""
        return self.genus is not None

    @property
    def rank(self) -> int:
        """How many walks a homology basis has: 2 - characteristic."""
        return 2 - self.characteristic


@dataclass(frozen=True, eq=False)
class Walk(OnSurface):
    """A closed walk along edges, with its exact length.

    vertices: shape (n,); each steps to the next, and the last to the first, which isn't repeated. A walk that stands
              still has one vertex
    units:    the length, a whole number of units
    decimals: a unit is 10**-decimals of the mesh's own unit

    >>> walk = surfbasis.Surface.from_file("meshes/torus7.off", lengths="unit").cycle()
    >>> walk.vertices, walk.closed, walk.units, walk.length
    (array([0, 1, 2]), array([0, 1, 2, 0]), 3, 3.0)
    """

    vertices: Ints
    units: int
    decimals: int = field(repr=False)

    @property
    def length(self) -> float:
        """The length in the mesh's own unit."""
        return self.units / int(10**self.decimals)

    @property
    def closed(self) -> Ints:
        """The vertices with the first at the end again, shape (n + 1,): so `points[walk.closed]` is a polyline."""
        return np.append(self.vertices, self.vertices[:1]) if len(self.vertices) > 1 else self.vertices

    def __len__(self) -> int:
        """The number of vertices, each counted as often as the walk meets it."""
        return len(self.vertices)


@dataclass(frozen=True, eq=False)
class Walks(OnSurface, Sequence[Walk]):
    """Independent closed walks, the shortest first, with their exact total length.

    units:    the total, a whole number of units
    decimals: a unit is 10**-decimals of the mesh's own unit

    >>> basis = surfbasis.Surface.from_file("meshes/torus7.off", lengths="unit").basis()
    >>> len(basis), basis.units, basis.length, basis[0].units, [len(walk) for walk in basis]
    (2, 6, 6.0, 3, [3, 3])
    """

    walks: Tuple[Walk, ...]
    units: int
    decimals: int = field(repr=False)

    @property
    def length(self) -> float:
        """The total length in the mesh's own unit."""
        return self.units / int(10**self.decimals)

    @overload
    def __getitem__(self, place: int) -> Walk: ...

    @overload
    def __getitem__(self, place: slice) -> Tuple[Walk, ...]: ...

    def __getitem__(self, place: Union[int, slice]) -> Union[Walk, Tuple[Walk, ...]]:
        return self.walks[place]

    def __len__(self) -> int:
        return len(self.walks)

    def __iter__(self) -> Iterator[Walk]:
        return iter(self.walks)


@dataclass(frozen=True, eq=False)
class Distances(OnSurface):
    """The distance of each vertex from a base along edges, and the tree of shortest walks there.

    units:    shape (n,), whole numbers of units
    parents:  shape (n,), the vertex before each one on its walk from the base; -1 at the base
    decimals: a unit is 10**-decimals of the mesh's own unit

    >>> distances = surfbasis.Surface.from_file("meshes/tet.off", decimals=3).distances(0)
    >>> distances.units, distances.parents, distances.lengths
    (array([   0, 1000, 1000, 1000]), array([-1,  0,  0,  0]), array([0., 1., 1., 1.]))
    """

    base: int
    units: Ints
    parents: Ints
    decimals: int = field(repr=False)

    @property
    def lengths(self) -> Floats:
        """The distances in the mesh's own unit, shape (n,)."""
        lengths: Floats = self.units / 10**self.decimals
        return lengths

    def path(self, vertex: int) -> Ints:
        """The vertices of the shortest walk from the base to a vertex, both included, shape (k,).

        >>> surfbasis.Surface.from_file("meshes/tet.off").distances(0).path(2)
        array([0, 2])
        """
        walk = [int(vertex)]
        while self.parents[walk[-1]] >= 0:
            walk.append(int(self.parents[walk[-1]]))
        return np.array(walk[::-1], np.int64)


@dataclass(frozen=True, eq=False)
class Cut(OnSurface):
    """A surface cut open into one disc. Its faces are those of the surface, in their order, over copies of the
    vertices.

    vertices: shape (c, 3), the places of the copies; None where the surface has none
    faces:    as the surface's: shape (m, k), or a tuple of m arrays; whole numbers below c
    origins:  shape (c,), the vertex of the surface that each copy is of
    seams:    shape (s, 2), the edges of the surface along which it was cut, in order, the lesser end first

    >>> cut = surfbasis.Surface.from_file("meshes/pillow.off", lengths="unit").cut()
    >>> cut.faces.tolist(), cut.origins.tolist(), cut.seams.tolist(), cut.vertices.shape
    ([[0, 2, 3], [1, 3, 2]], [0, 0, 1, 2], [[0, 1], [0, 2]], (4, 3))
    """

    vertices: Optional[Floats]
    faces: Polygons
    origins: Ints
    seams: Ints


@dataclass(frozen=True, eq=False)
class Evidence(OnSurface):
    """Why a closed walk bounds (mod 2), or why it doesn't; for `same`, why two walks do so together, or don't.

    bounds: whether it is the boundary of a set of faces
    faces:  shape (n,), such a set, in order; None where there is none
    edges:  shape (n, 2), a set of edges of which each face has an even number, and this walk runs an odd number an
            odd number of times, so that it doesn't bound; None where it does
    text:   the line that surf wrote, as `confirm` reads it

    >>> evidence = surfbasis.Surface.from_file("meshes/eight.off").classify([0, 1, 3])
    >>> evidence.bounds, evidence.faces, evidence.edges, evidence.text
    (True, array([1]), None, b'null 1 1\\n')
    """

    bounds: bool
    faces: Optional[Ints]
    edges: Optional[Ints]
    text: bytes = field(repr=False)


@dataclass(frozen=True)
class Verdict:
    """Whether a certificate or evidence is right. It is true where it is.

    units:   the exact total of the walks that a valid certificate is of; None for evidence, and where there is a
             fault
    fault:   the first fault, as surf names it; None where there is none
    meaning: what that fault means; empty where there is none

    >>> surface = surfbasis.Surface.from_file("meshes/torus7.off", lengths="unit")
    >>> verdict = surface.confirm([0, 1, 2], b"odd 0")
    >>> bool(verdict), verdict.fault
    (False, 'even')
    """

    valid: bool
    units: Optional[int] = None
    fault: Optional[str] = None
    meaning: str = ""

    def __bool__(self) -> bool:
        return self.valid
