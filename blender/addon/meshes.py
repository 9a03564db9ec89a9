"""A mesh of Blender as arrays: the surfaces that are its parts, and its islands."""

from __future__ import annotations

import contextlib
from typing import Any, Iterator, List, Tuple, Union

import numpy as np

from .surfbasis import MeshFileError, Refused, Surface
from .surfbasis.meshfiles import arrays
from .surfbasis.meshfiles.plain import BORDER

Table = Any  # an array of whole numbers


class Unfit(Exception):
    """Why there is no answer, in words, and the vertices, edges (pairs of vertices) and faces that they are about."""

    def __init__(self, words: str, vertices: Any = (), edges: Any = (), faces: Any = ()) -> None:
        super().__init__(words)
        self.vertices, self.edges, self.faces = vertices, edges, faces


class Mesh:
    """A mesh whose edges have one or two faces. Raises Unfit where an edge has more, or where there is no face.

    points:  the places of the vertices, shape (n, 3)
    corners: the vertices of the faces, one face behind the other
    starts:  where each face begins in these, and their end"""

    def __init__(self, points: Any, corners: Table, starts: Table) -> None:
        self.points, self.corners, self.starts = points, corners.astype(np.int64), starts.astype(np.int64)
        if len(starts) < 2:
            raise Unfit("the mesh has no faces")
        self._keys = self.keys(np.column_stack([self.corners, self.corners[arrays.next_places(self.starts)]]))
        self.mates, crowded = arrays.mates_of(self.corners, self.starts)
        if crowded:
            edges = self.pairs(np.unique(self._keys[[sides[0] for sides in crowded]]))
            raise Unfit(f"edges with more than two faces, {len(edges)} of them: there is no surface", edges=edges)

    def keys(self, pairs: Table) -> Table:
        """A number for each pair of vertices, whichever comes first."""
        pairs = np.sort(np.asarray(pairs, np.int64).reshape(-1, 2), axis=1)
        return pairs[:, 0] * len(self.points) + pairs[:, 1]

    def pairs(self, keys: Table) -> Table:
        """The pairs that have these numbers, shape (n, 2)."""
        return np.column_stack(np.divmod(keys, len(self.points)))

    def surfaces(self, close: Union[bool, str], by_length: bool) -> Iterator[Surface]:
        """Each part as a closed surface, its holes closed as `Surface.mended` does it."""
        faces = np.split(self.corners, self.starts[1:-1])
        lengths = None if by_length else "unit"
        try:
            yield from Surface.mended_parts(self.points, faces, close=close, tolerance=None, lengths=lengths)
        except MeshFileError as fault:
            raise Unfit(str(fault)) from None

    def rim_vertices(self) -> Table:
        """The vertices of edges that have one face."""
        return np.unique(self.pairs(self._keys[self.mates == BORDER]))

    def part_count(self) -> int:
        """How many parts there are that don't hang together by edges."""
        return len(np.unique(arrays.parts(self.starts, self.mates)))

    def islands(self, seams: Table) -> Tuple[Table, Table]:
        """What faces make where they hang together over edges that are no seams: for each face the least face of its
        island, and for each island, at its least face, its Euler characteristic. Only of a disc that is 1, since each
        island has a border."""
        mates = np.where(np.isin(self._keys, self.keys(seams)), BORDER, self.mates)
        faces = arrays.parts(self.starts, mates)
        sides = faces[arrays.face_numbers(self.starts)]
        vertices = sides[np.unique(arrays.fans(self.corners, self.starts, mates))]
        counts = [np.bincount(found, minlength=len(faces)) for found in (vertices, sides, sides[mates >= 0], faces)]
        return faces, counts[0] - counts[1] + counts[2] // 2 + counts[3]

    def between(self, seams: Table) -> Iterator[Tuple[int, Tuple[int, int]]]:
        """The place of each seam that has two faces, and these."""
        keys, at = self.keys(seams), arrays.face_numbers(self.starts)
        order = np.argsort(keys)
        sides = np.flatnonzero(np.isin(self._keys, keys) & (self.mates > np.arange(len(self.mates))))
        places = order[np.searchsorted(keys, self._keys[sides], sorter=order)]
        for place, side in zip(places.tolist(), sides.tolist()):
            yield place, (int(at[side]), int(at[self.mates[side]]))


@contextlib.contextmanager
def telling(surface: Surface) -> Iterator[None]:
    """Raises Unfit in place of what surf refuses of a part. Since that is a surface, it is a coordinate, a limit, or
    vertices to cut through."""
    try:
        yield
    except Refused as refused:
        raise _unfit(refused, surface.vertex_origins) from None


def _unfit(refused: Refused, origins: Table) -> Unfit:
    """A refusal of a part, in words and in the numbers of the mesh."""
    told, vertices, edges = refused, [], []
    if refused.edge is not None:
        edges = [origins[[*refused.edge]].tolist()]
        told = _renumbered(refused, edges[0])
    elif refused.vertex is not None:
        vertices = [int(origins[refused.vertex])]
        told = _renumbered(refused, [*vertices, *refused.numbers[1:]])
    return Unfit(f"{told.meaning or 'surf refuses this'} ({told.line})", vertices, edges)


def _renumbered(refused: Refused, numbers: List[int]) -> Refused:
    """The refusal with other numbers in its line."""
    head = refused.line.partition(": ")[0]
    return type(refused)(refused.status, " ".join([f"{head}:", refused.kind, *map(str, numbers)]))
