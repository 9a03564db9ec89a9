"""The holes of a surface: the rims round them, faces that close them, and a sphere that joins them."""

from __future__ import annotations

import collections
import math
import statistics
from typing import Any, Deque, Dict, List, Sequence, Tuple

Rim = List[int]
NEAR = 20  # rims are near each other where they are so many times nearer than their edges are long


def rims_of(corners: Sequence[int], ends: Sequence[int]) -> List[Rim]:
    """The rims along the sides at the border, which begin at these corners and have these ends. Each rim begins with
    the least side that is left, and runs against most of its sides, as a face over the hole has to."""
    at: Dict[int, List[int]] = {}
    for side, (u, v) in enumerate(zip(corners, ends)):
        at.setdefault(u, []).append(side)
        at.setdefault(v, []).append(side)
    rims, done = [], [False] * len(corners)
    for first in range(len(corners)):
        if done[first]:
            continue
        rim, forward, side, vertex = [], 0, first, corners[first]
        while not done[side]:
            done[side] = True
            rim.append(vertex)
            forward += 1 if corners[side] == vertex else -1
            vertex = ends[side] if corners[side] == vertex else corners[side]
            side = next((other for other in at[vertex] if not done[other]), side)
        rims.append(rim[::-1] if forward > 0 else rim)
    return rims


class Hub:
    """A sphere with a hole for each rim, of as many faces. Between rims its edges have a vertex in their middle,
    since their ends may have an edge already."""

    def __init__(self, rims: Sequence[Rim], points: Any) -> None:
        self.points: List[Tuple[float, ...]] = []
        self.faces: List[Rim] = []
        self.edges: List[Tuple[int, int]] = []
        self._places, self._count = points, len(points)
        whole = collections.deque(rims[0])
        for rim in rims[1:]:
            self._join(whole, rim)
        self.faces.append(list(whole))

    def _join(self, whole: Deque[int], rim: Rim) -> None:
        """Makes one rim of two: a face is put between an edge of each, and what is left is one round. It doesn't
        begin with the edges that were used, so that the next face is put elsewhere."""
        u, v, (x, y) = whole.popleft(), whole.popleft(), rim[:2]
        one, other = self._middle(v, x), self._middle(y, u)
        self.faces.append([u, v, one, x, y, other])
        whole.extend([u, other, *rim[1:], x, one, v])

    def _middle(self, a: int, b: int) -> int:
        vertex = self._count + len(self.points)
        p, q = self._place(a), self._place(b)
        self.points.append(tuple(s / 2 + t / 2 for s, t in zip(p, q)))
        self.edges += [(a, vertex), (b, vertex)]
        return vertex

    def _place(self, vertex: int) -> Sequence[float]:
        if vertex < self._count:
            return [float(x) for x in self._places[vertex]]
        return self.points[vertex - self._count]


def nearness(rims: Sequence[Rim], points: Any, bulk: Any) -> "float | None":
    """A tolerance by which at least a tenth of the vertices of rims would meet another one that is no neighbour, far
    nearer than the edges there are long. None where rims don't look like seams that were never merged."""
    neighbours: Dict[int, Tuple[int, int]] = {}
    lengths = []
    for rim in rims:
        for k, vertex in enumerate(rim):
            neighbours[vertex] = rim[k - 1], rim[(k + 1) % len(rim)]
            lengths.append(math.dist(points[vertex], points[rim[k - 1]]))
    distance = statistics.median(lengths) / NEAR if lengths else 0.0
    if not 0 < distance < math.inf:
        return None
    chosen = sorted(neighbours)
    try:
        pairs = bulk.listed(bulk.near_pairs(points, bulk.numbers(chosen), distance, 50 * len(chosen) + 1000))
    except ValueError:
        return None
    nearest: Dict[int, float] = {}
    for a, b in pairs:
        far = math.dist(points[a], points[b])
        if far > 0 and b not in neighbours[a]:
            for vertex in (a, b):
                nearest[vertex] = min(far, nearest.get(vertex, far))
    return rounded_up(max(nearest.values())) if 10 * len(nearest) >= len(chosen) else None


def rounded_up(value: float) -> float:
    """The least number with one digit that isn't less."""
    step = 10.0 ** math.floor(math.log10(value))
    return float(f"{math.ceil(value / step * (1 - 1e-12)) * step:.0e}")
