"""Handles taken off a closed surface, shortest first: it is cut along cycles that don't separate it, and each border
that this leaves is closed. After I. Guskov and Z. J. Wood, "Topological noise removal", 2001.

    shape = Shape(points, faces)
    taken, left = take_off(shape, finder, Wanted(limit=30000))

A cut makes no walk shorter, and what closes a border leads nowhere more quickly than the border does. Since the cycle
doesn't separate, the surface stays in one piece; its characteristic rises by 2, or by 1 where the cycle is one-sided.
"""

from __future__ import annotations

import math
from typing import Any, Dict, Iterable, List, NamedTuple, Optional, Sequence, Set, Tuple

from .soup import MeshFileError
from .writing import GREATEST_LENGTH

CLOSINGS = ("faces", "triangles")
HAIR = 1e-5  # of the surface's diagonal: so far, at most, a vertex moves off its cut
SHARE = 1e-3  # and at most this part of the way to what lies beside the cut

Pair = Tuple[int, int]
Face = List[int]


class Cycle(NamedTuple):
    """A cycle that doesn't separate: its length in units, and its vertices, each of them once."""

    units: int
    vertices: List[int]

    def steps(self) -> List[Pair]:
        return list(zip(self.vertices, self.vertices[1:] + self.vertices[:1]))


class Wanted(NamedTuple):
    """Which handles go: those shorter than so many units, and no more than `most`; and whether each border is closed
    by one face ("faces"), or by triangles that meet in a new vertex ("triangles")."""

    limit: Any
    most: Optional[int] = None
    closing: str = "faces"

    def check(self) -> Wanted:
        """Itself, if it can be done. ValueError otherwise."""
        if not self.limit > 0:  # so not a number is none either
            raise ValueError("a bound is a number above 0")
        if self.most is not None and self.most < 0:
            raise ValueError(f"at most {self.most} handles can't be taken off")
        if self.closing not in CLOSINGS:
            raise ValueError(f"borders are closed by {' or by '.join(CLOSINGS)}")
        return self


class Ring:
    """The faces at a vertex: the two neighbours of the vertex in each, and the two faces at each neighbour."""

    def __init__(self) -> None:
        self.neighbours: Dict[int, Pair] = {}
        self.faces: Dict[int, List[int]] = {}

    def add(self, number: int, face: Face, place: int) -> None:
        self.neighbours[number] = face[place - 1], face[(place + 1) % len(face)]
        for neighbour in self.neighbours[number]:
            self.faces.setdefault(neighbour, []).append(number)

    def across(self, face: int, neighbour: int) -> int:
        one, other = self.neighbours[face]
        return other if neighbour == one else one

    def between(self, face: int, before: int, after: int) -> Tuple[List[int], List[int]]:
        """The faces round the vertex from one at the edge to `before` up to the edge to `after`, and the neighbours
        between them."""
        arc, passed, at = [face], [], self.across(face, before)
        while at != after:
            passed.append(at)
            one, other = self.faces[at]
            arc.append(other if arc[-1] == one else one)
            at = self.across(arc[-1], at)
        return arc, passed


class Side(NamedTuple):
    """What lies on one side of a cycle: at each of its vertices the faces there, and all edges that leave it on this
    side, from the cycle on. On a one-sided cycle what begins on one side comes back on the other, at its first
    vertex. `along` tells of the two faces at its first edge, that on this side first, whether they run it as the cycle
    does."""

    arcs: List[List[int]]
    leaving: List[Pair]
    is_two_sided: bool
    along: Tuple[bool, bool]


def side_of(cycle: Cycle, rings: Dict[int, Ring]) -> Side:
    vertices, ring = cycle.vertices, rings[cycle.vertices[0]]
    first, second = ring.faces[vertices[1]]
    arcs, leaving, face = [], [], first  # type: List[List[int]], List[Pair], int
    for before, vertex, after in zip(vertices, vertices[1:] + vertices[:1], vertices[2:] + vertices[:2]):
        arc, passed = rings[vertex].between(face, before, after)
        arcs.append(arc)
        leaving += [(vertex, end) for end in passed]
        face = arc[-1]
    along = ring.neighbours[first][1] == vertices[1], ring.neighbours[second][1] == vertices[1]
    return Side(arcs[-1:] + arcs[:-1], leaving, face == first, along)


def rings_at(faces: Sequence[Face], vertices: Iterable[int]) -> Dict[int, Ring]:
    rings = {vertex: Ring() for vertex in vertices}
    for number, face in enumerate(faces):
        for place, vertex in enumerate(face):
            if vertex in rings:
                rings[vertex].add(number, face, place)
    return rings


class Together:
    """Cycles of a least basis that are taken off at once, each of them a shortest one when its turn comes.

    They have no vertex in common and are independent, so together they don't separate. A cycle that meets one of them
    is passed over. Why the next is still a shortest one: what doesn't separate once the chosen ones are off crosses
    each of them an even number of times and is no sum of them. If it is no sum of them and of those passed over
    either, it is no shorter than the next cycle, since the basis is least. So it has to be excluded that some of those
    passed over cross each chosen one an even number of times, all together: their rows of crossings stay independent
    (mod 2), or nothing more is chosen."""

    def __init__(self) -> None:
        self.chosen: List[Tuple[Cycle, Side]] = []
        self.passed: List[Cycle] = []
        self._taken: Set[int] = set()
        self._leaving: Dict[Pair, int] = {}

    def meets(self, cycle: Cycle) -> bool:
        return not self._taken.isdisjoint(cycle.vertices)

    def choose(self, cycle: Cycle, side: Side) -> None:
        self._leaving.update(dict.fromkeys(side.leaving, 1 << len(self.chosen)))
        self._taken.update(cycle.vertices)
        self.chosen.append((cycle, side))

    def pass_over(self, cycle: Cycle) -> bool:
        """Whether more can be chosen once this cycle is passed over."""
        self.passed.append(cycle)
        return is_independent(self._crossings(other) for other in self.passed)

    def _crossings(self, cycle: Cycle) -> int:
        """The chosen cycles that this one crosses an odd number of times, as bits. Each is pushed to its side a
        little, where it crosses the edges that leave it."""
        bits = 0
        for u, v in cycle.steps():
            bits ^= self._leaving.get((u, v), 0) ^ self._leaving.get((v, u), 0)
        return bits


def is_independent(rows: Iterable[int]) -> bool:
    """Whether no sum (mod 2) of some rows of bits is 0."""
    tops: Dict[int, int] = {}
    for row in rows:
        while row.bit_length() in tops:
            row ^= tops[row.bit_length()]
        if not row:
            return False
        tops[row.bit_length()] = row
    return True


def together(faces: Sequence[Face], cycles: Sequence[Cycle], most: Optional[int]) -> List[Tuple[Cycle, Side]]:
    """The first cycles of a least basis that can be taken off at once, with their sides, and at most so many. A
    one-sided cycle is taken off alone."""
    rings = rings_at(faces, {vertex for cycle in cycles for vertex in cycle.vertices})
    found = Together()
    for cycle in cycles:
        if len(found.chosen) == most:
            break
        if found.meets(cycle):
            if not found.pass_over(cycle):
                break
            continue
        side = side_of(cycle, rings)
        if side.is_two_sided or not found.chosen:
            found.choose(cycle, side)
        if not side.is_two_sided:
            break
    return found.chosen


class Shape:
    """A closed surface that handles are taken off.

    points:         a place for each vertex, or None where there are no places
    faces:          the vertices of each; those that close a border are behind all others
    vertex_origins: for each vertex its number at the beginning, of which a copy has that of its vertex; -1 where it
                    is in the middle of a border that triangles close. `face_origins`: -1 where a face is new
    spokes:         for each such vertex the length of its edges, in units"""

    def __init__(self, count: int, points: Optional[Sequence[Sequence[float]]], faces: Sequence[Face]) -> None:
        self.points = None if points is None else [tuple(point) for point in points]
        self.faces = list(faces)
        self.vertex_origins, self.face_origins = list(range(count)), list(range(len(faces)))
        self.spokes: Dict[int, int] = {}

    def edges(self) -> List[Pair]:
        """Each edge once, the lesser end first, in order."""
        pairs = {(min(u, v), max(u, v)) for face in self.faces for u, v in zip(face, face[1:] + face[:1])}
        return sorted(pairs)

    def lengths(self, known: Dict[Pair, int]) -> List[Tuple[int, int, int]]:
        """Each edge, the lesser end first, in order, with its length, where the lengths at the beginning are known: an
        edge that was there keeps its own."""
        found, origins = [], self.vertex_origins
        for u, v in self.edges():
            one, other = origins[u], origins[v]
            spoke = self.spokes.get(u) or self.spokes.get(v)
            found.append((u, v, spoke or known[(one, other) if one < other else (other, one)]))
        return found

    def cut(self, chosen: Sequence[Tuple[Cycle, Side]], closing: str) -> None:
        """Cuts along cycles that have no vertex in common, and closes the borders."""
        for cycle, side in chosen:
            copies = [self._copied(vertex, arc) for vertex, arc in zip(cycle.vertices, side.arcs)]
            if side.is_two_sided:
                self._close(turned(cycle.vertices, side.along[1]), cycle.units, closing)
                self._close(turned(copies, side.along[0]), cycle.units, closing)
            else:
                # From the first copy on the border runs to the second vertex itself, and at its end back.
                rim = copies[1:] + copies[:1] + cycle.vertices[1:] + cycle.vertices[:1]
                self._close(turned(rim, side.along[0]), 2 * cycle.units, closing)

    def _copied(self, vertex: int, arc: Sequence[int]) -> int:
        """Gives the faces of an arc a copy of their vertex, at the same place."""
        copy = len(self.vertex_origins)
        self.vertex_origins.append(self.vertex_origins[vertex])
        if self.points is not None:
            self.points.append(self.points[vertex])
        for number in arc:
            self.faces[number] = [copy if corner == vertex else corner for corner in self.faces[number]]
        return copy

    def _close(self, rim: List[int], units: int, closing: str) -> None:
        """Closes a border of this length, against the way that the faces there run it. A walk over the middle of
        triangles isn't shorter than half the border."""
        if closing == "faces":
            self.faces.append(list(rim))
            self.face_origins.append(-1)
            return
        middle, spoke = len(self.vertex_origins), (units + 1) // 2
        if spoke > GREATEST_LENGTH:
            raise MeshFileError("a border is too long to be closed by triangles: take fewer decimals")
        self.spokes[middle] = spoke
        self.vertex_origins.append(-1)
        if self.points is not None:
            self.points.append(tuple(mean([self.points[vertex] for vertex in rim])))
        self.faces += [[u, v, middle] for u, v in zip(rim, rim[1:] + rim[:1])]
        self.face_origins += [-1] * len(rim)

    def parted_points(self, hair: float = HAIR, share: float = SHARE) -> List[Tuple[float, ...]]:
        """The points, in which copies of one vertex stand a hair apart: each is moved towards what lies on its side of
        the cut, so that there is a gap between the borders."""
        points, beside, most = list(self.points), self._beside_copies(), hair * diagonal(self.points)
        for copies in self._copies():
            for number, copy in enumerate(copies, 1):
                step = step_towards(points[copy], beside[copy], most, share)
                # No two go equally far, so they come apart where they go the same way, too.
                part = (1 + number / len(copies)) / 2
                points[copy] = tuple(x + part * y for x, y in zip(points[copy], step))
        return points

    def _copies(self) -> List[List[int]]:
        """The vertices that are copies of one, for each vertex that has several."""
        found: Dict[int, List[int]] = {}
        for vertex, origin in enumerate(self.vertex_origins):
            found.setdefault(origin, []).append(vertex)
        return [copies for origin, copies in found.items() if origin >= 0 and len(copies) > 1]

    def _beside_copies(self) -> Dict[int, List[Tuple[float, ...]]]:
        """For each copy the places of corners of its old faces, of those alone that aren't copies if there are any."""
        copies = {copy for several in self._copies() for copy in several}
        corners: Dict[int, Set[int]] = {copy: set() for copy in copies}
        for face in (face for face, origin in zip(self.faces, self.face_origins) if origin >= 0):
            for copy in copies.intersection(face):
                corners[copy].update(face)
        return {copy: [self.points[c] for c in sorted(some - copies or some)] for copy, some in corners.items()}


def turned(rim: List[int], is_backwards: bool) -> List[int]:
    return rim[::-1] if is_backwards else rim


def mean(points: Sequence[Sequence[float]]) -> List[float]:
    return [sum(column) / len(points) for column in zip(*points)]


def diagonal(points: Sequence[Sequence[float]]) -> float:
    return math.hypot(*(max(column) - min(column) for column in zip(*points)))


def step_towards(place: Sequence[float], goals: Sequence[Sequence[float]], most: float, share: float) -> List[float]:
    """The step to the middle of the goals by a share of the way, and no more than so far. Where there is no way it is
    along an axis."""
    way = [x - y for x, y in zip(mean(goals), place)] if goals else []
    size = math.hypot(*way)
    return [min(most, share * size) * x / size for x in way] if size else [most, 0.0, 0.0]


class Taken(NamedTuple):
    """Cycles along which handles went, in their order, by the vertices at the beginning; how many of them were
    one-sided; and a shortest cycle that doesn't separate what is left, or None on a sphere."""

    cycles: List[Cycle]
    one_sided: int
    left: Optional[Cycle]


def take_off(shape: Shape, finder: Any, wanted: Wanted) -> Taken:
    """Takes handles off a shape. `finder.cycle(shape)` is a shortest cycle that doesn't separate it, or None, and
    `finder.basis(shape)` a least homology basis (mod 2), the shortest cycle first. The last word is that of
    `finder.cycle`: it ends the work when there is nothing shorter than the limit."""
    wanted.check()
    cycles, one_sided = [], 0  # type: List[Cycle], int
    while True:
        left = finder.cycle(shape)
        rest = None if wanted.most is None else wanted.most - len(cycles)
        if left is None or left.units >= wanted.limit or rest == 0:
            return Taken(cycles, one_sided, left)
        short = [cycle for cycle in finder.basis(shape) if cycle.units < wanted.limit]
        chosen = together(shape.faces, short, rest)
        for cycle, side in chosen:
            cycles.append(Cycle(cycle.units, [shape.vertex_origins[vertex] for vertex in cycle.vertices]))
            one_sided += not side.is_two_sided
        shape.cut(chosen, wanted.closing)
