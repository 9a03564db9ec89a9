"""Seams that open each part of a mesh into one disc."""

from __future__ import annotations

from typing import Any, Dict, List, Set, Tuple

import numpy as np

from .meshes import Mesh, Table, telling
from .surfbasis import Surface

SHORT = 1  # the length of edges that lead over a hole; that of others is more than twice so great


def seams_into_discs(mesh: Mesh, vertices: Table, far: int, by_length: bool) -> Table:
    """Edges that open each part into one disc, as pairs of vertices, shape (n, 2).

    vertices: the seams lead to these as well
    far:      and to so many more of each part, each of them the farthest from those before

    Raises Unfit where surf refuses a part."""
    found = [np.zeros((0, 2), np.int64)]
    for surface in mesh.surfaces(True, by_length):
        with telling(surface):
            found.append(_part_seams(surface, vertices, far))
    return _joined(mesh, np.concatenate(found), {*np.asarray(vertices).tolist(), *mesh.rim_vertices().tolist()})


def _part_seams(surface: Surface, vertices: Table, far: int) -> Table:
    """The cut of a part with all its holes shrunk to points, which are on the border of the disc."""
    tops, shrunk = _shrunk(surface)
    rims = np.unique(shrunk.edges[shrunk.edges[:, 1] >= surface.vertex_count, 0])
    wanted = np.setdiff1d(np.flatnonzero(np.isin(surface.vertex_origins, vertices)), rims)
    chosen, sphere = [*tops, *wanted.tolist()], shrunk.info().characteristic == 2
    if sphere and len(tops) == len(chosen) == 1 and not far:
        return np.zeros((0, 2), np.int64)  # it is a disc already
    chosen = _with_far(shrunk, chosen or [0], far) if far else chosen
    is_plain = not chosen or (sphere and len(chosen) == 1)
    seams = shrunk.cut(*chosen[:1]).seams if is_plain else shrunk.cut(chosen[0], chosen).seams
    return surface.vertex_origins[seams[seams[:, 1] < surface.vertex_count]]


def _shrunk(surface: Surface) -> Tuple[List[int], Surface]:
    """The surface with a vertex, a top, in each hole, which short edges join to all of its rim: so ways over a hole
    cost next to nothing, and none runs along its rim. And the tops."""
    count, rims = surface.vertex_count, [surface.faces[k] for k in np.flatnonzero(surface.face_origins < 0)]
    if not rims:
        return [], surface
    faces: List[Any] = list(surface.faces)[: -len(rims)]  # those that close holes are the last
    for top, rim in enumerate(rims, count):
        faces += [(a, b, top) for a, b in zip(rim.tolist(), np.roll(rim, -1).tolist())]
    edges = Surface(count + len(rims), faces).edges
    units = np.full(len(edges), SHORT)
    units[edges[:, 1] < count] = np.maximum(surface.units, 2 * SHORT + 1)
    return list(range(count, count + len(rims))), Surface(count + len(rims), faces, lengths=units)


def _with_far(surface: Surface, chosen: List[int], far: int) -> List[int]:
    """The chosen vertices and so many more, each the farthest from those before, while there are any."""
    found, nearest = list(chosen), np.full(surface.vertex_count, np.iinfo(np.int64).max)
    for number in range(len(chosen) + far):
        if number == len(found):
            found.append(int(np.argmax(nearest)))
        nearest = np.minimum(nearest, surface.distances(found[number]).units)
        if number >= len(chosen) - 1 and not nearest.any():
            break
    return found


def _joined(mesh: Mesh, seams: Table, kept: Set[int]) -> Table:
    """The seams without those that are one too many between islands. A cut that touches a rim where it doesn't run
    over the hole parts an island there; all are discs, and two discs that are joined along an edge are one."""
    islands = mesh.islands(seams)[0].tolist()
    stays, loose = [True] * len(seams), []  # type: Tuple[List[bool], List[int]]
    heads: Dict[int, int] = {}

    def head(island: int) -> int:
        while island in heads:
            island = heads[island]
        return island

    for place, (one, other) in mesh.between(seams):
        first, second = head(islands[one]), head(islands[other])
        if first != second:
            heads[first] = second
            stays[place] = False
            loose += seams[place].tolist()
    return _trimmed(seams[stays], loose, kept) if loose else seams


def _trimmed(seams: Table, loose: List[int], kept: Set[int]) -> Table:
    """The seams without those that lead to nothing, from loose ends on."""
    ends: Dict[int, Set[int]] = {}
    for u, v in seams.tolist():
        ends.setdefault(u, set()).add(v)
        ends.setdefault(v, set()).add(u)
    while loose:
        vertex = loose.pop()
        if vertex not in kept and len(ends.get(vertex, ())) == 1:
            (other,) = ends.pop(vertex)
            ends[other].discard(vertex)
            loose.append(other)
    found = [(u, v) for u, v in seams.tolist() if v in ends.get(u, ())]
    return np.array(found, np.int64).reshape(-1, 2)
