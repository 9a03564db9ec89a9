"""Shortest loops on each part of a mesh."""

from __future__ import annotations

from typing import Dict, Iterator, List, NamedTuple

import numpy as np

from .meshes import Mesh, Table, Unfit, telling
from .surfbasis import Surface, Walk


class Loop(NamedTuple):
    """A loop as its edges, pairs of vertices of the mesh, shape (n, 2), and its length in the mesh's own unit."""

    edges: Table
    length: float


def basis_loops(mesh: Mesh, round_holes: bool, by_length: bool) -> Iterator[Loop]:
    """A shortest homology basis of each part. `round_holes`: loops round holes count; else holes are closed."""
    for surface in mesh.surfaces("hub" if round_holes else True, by_length):
        with telling(surface):
            yield from (_loop(surface, walk) for walk in surface.basis())


def loops_at(mesh: Mesh, vertices: Table, round_holes: bool, by_length: bool) -> Iterator[Loop]:
    """A least system of loops at the one of the vertices that a part has, for each part that has one.

    Raises Unfit where no part has one, or one has several."""
    found = 0
    for surface in mesh.surfaces("hub" if round_holes else True, by_length):
        bases = np.flatnonzero(np.isin(surface.vertex_origins, vertices))
        if len(bases) > 1:
            raise Unfit("select one vertex of a part, not more: the loops begin there")
        found += len(bases)
        with telling(surface):
            yield from (_loop(surface, walk) for base in bases for walk in surface.loops(base))
    if not found:
        raise Unfit("select the vertex where the loops begin")


def shortest_cycles(mesh: Mesh, by_length: bool) -> Iterator[Loop]:
    """A shortest cycle that doesn't separate, of each part that has one when its holes are closed."""
    for surface in mesh.surfaces(True, by_length):
        with telling(surface):
            walk = surface.cycle()
        if walk:
            yield _loop(surface, walk)


def shortest_homologous(mesh: Mesh, edges: Table, by_length: bool) -> Loop:
    """A shortest loop homologous (mod 2) to that of the edges, on its part with holes closed. It has no edges where
    the loop bounds. Raises Unfit where the edges aren't one loop."""
    vertices = _round(edges)
    for surface in mesh.surfaces(True, by_length):
        if not np.isin(mesh.keys(edges), mesh.keys(surface.vertex_origins[surface.edges])).all():
            continue
        places = {vertex: place for place, vertex in enumerate(surface.vertex_origins.tolist())}
        with telling(surface):
            return _loop(surface, surface.shortest([places[vertex] for vertex in vertices]))
    raise Unfit("the selected edges are of no face", edges=edges)


def _loop(surface: Surface, walk: Walk) -> Loop:
    ends = surface.vertex_origins[walk.closed]
    return Loop(np.column_stack([ends[:-1], ends[1:]]), walk.length)


def _round(edges: Table) -> List[int]:
    """The vertices of a loop in their order."""
    ends: Dict[int, List[int]] = {}
    for u, v in np.asarray(edges).tolist():
        ends.setdefault(u, []).append(v)
        ends.setdefault(v, []).append(u)
    first = next(iter(ends), None)
    if first is None or any(len(others) != 2 for others in ends.values()):
        raise Unfit("select the edges of one closed loop, and no others")
    found, before = [first], ends[first][0]
    while True:
        one, other = ends[found[-1]]
        following = other if one == before else one
        if following == first:
            break
        before = found[-1]
        found.append(following)
    if len(found) < len(ends):
        raise Unfit("select the edges of one closed loop, and not of several")
    return found
