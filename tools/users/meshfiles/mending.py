"""From points and faces to one surface, whatever the faults.

1. A face whose corner stands twice is parted there, and what has fewer than three corners then is left out. Of faces
   that stand twice one stays.
2. Points of rims that are equal, or within a tolerance, become one. What has no rim is left as it is.
3. Faces are glued side by side: the two at an edge, and where there are more those that bound one wedge of the
   inside. None are glued at a vertex alone, so each vertex has one fan, and merging can't pinch.
4. Faces that hang together are a part. Of a part an edge that has the ends of another gets a vertex in its middle.
5. Holes stay, or each is closed by one face, or all are joined by one sphere, the hub.
"""

from __future__ import annotations

import dataclasses
import itertools
from typing import Any, Dict, Iterator, List, Sequence, Set, Tuple

from . import arrays, plain
from .holes import Hub, Rim, nearness, rims_of
from .soup import MeshFileError, Soup, faces_of, is_array, quiet
from .wedges import pairs_at
from .writing import edges_of, lengths_text, map_text, mesh_text, points_text

HOLES = ("keep", "close", "hub")
MOST = ("faces", "area")
MOST_LOOPS = 1024


@dataclasses.dataclass
class Report:
    """What was done, by numbers. `one_sided` and `rim_sizes` are of the surface before its holes are closed, and
    `loops` is 2 - chi of the surface that came out, 0 where it has holes."""

    merged_points: int = 0
    parted_faces: int = 0
    spoiled_faces: int = 0
    doubled_faces: int = 0
    crowded_edges: int = 0
    parts: int = 1
    left_out_faces: int = 0
    all_faces: int = 0
    split_vertices: int = 0
    halved_edges: int = 0
    one_sided: bool = False
    rim_sizes: List[int] = dataclasses.field(default_factory=list)
    near_rims: "float | None" = None
    holes: str = "keep"
    hub_vertex: "int | None" = None
    loops: int = 0

    def lines(self) -> List[str]:
        """What a user is told, a line each. What is likely to be unwanted begins with `warning: `."""
        said = [
            (self.merged_points, "point", "merged"),
            (self.parted_faces, "face", "parted where a corner stands twice"),
            (self.spoiled_faces, "face", "left out for want of three corners"),
            (self.doubled_faces, "face", "left out as standing twice"),
            (self.crowded_edges, "edge", "of more than two faces taken apart"),
            (self.split_vertices, "vertex", "added where fans or sheets met"),
            (self.halved_edges, "edge", "halved, with the ends of another edge"),
        ]
        done = [f"{counted(count, noun)} {what}" for count, noun, what in said if count]
        return done + self._parts() + self._sides() + self._holes() + self._loops()

    def _parts(self) -> List[str]:
        if self.parts < 2:
            return []
        told = (
            f"{counted(self.parts - 1, 'other part')} left out, with {self.left_out_faces} of {self.all_faces} faces"
        )
        if 10 * self.left_out_faces <= self.all_faces:
            return [told]
        return [f"warning: {told}: --part K takes another one, --all DIR takes each"]

    def _sides(self) -> List[str]:
        if not self.one_sided:
            return []
        return ["warning: the surface became one-sided" if self.crowded_edges else "the surface is one-sided"]

    def _holes(self) -> List[str]:
        if not self.rim_sizes:
            return []
        sizes = sorted(self.rim_sizes, reverse=True)
        holes = f"{counted(len(sizes), 'hole')} of {', '.join(map(str, sizes[:8]))}{' ..' if sizes[8:] else ''} edges"
        if self.holes == "keep":
            cure = "--close closes each by a face, --hub LEN keeps loops round them"
            found = [f"warning: {holes}, which `surf` refuses: {cure}"]
        elif self.holes == "hub" and len(sizes) > 1:
            found = [f"{holes}, joined by a hub: leave out cycles with a vertex from {self.hub_vertex} on"]
        else:
            found = [f"{holes}, {'each ' if len(sizes) > 1 else ''}closed by one face"]
        if self.near_rims is not None:
            found.append(f"warning: there are rims that are near each other, try --tolerance {self.near_rims:g}")
        return found

    def _loops(self) -> List[str]:
        if self.loops <= MOST_LOOPS:
            return []
        return [f"warning: a basis has {self.loops} cycles, and `surf` takes surfaces with up to {MOST_LOOPS}"]


def counted(count: int, noun: str) -> str:
    if count == 1:
        return f"1 {noun}"
    return f"{count} vertices" if noun == "vertex" else f"{count} {noun}s"


class Mended:
    """One surface: each edge has two faces, or one at a hole that was kept, each vertex one fan, and all hangs
    together.

    `vertex_origins` and `face_origins` have the number that each vertex and face had in the soup, -1 where it is new.
    From `first_added_face` on faces close holes, and from `first_added_vertex` on vertices are those of a hub.
    `rims` are the vertices round each hole, and `hub_edges` the edges of the hub, which have the greatest length."""

    def __init__(self, points: Any, corners: Any, starts: Any, origins: Tuple[Any, Any], report: Report) -> None:
        self.points, self.corners, self.starts = points, corners, starts
        self.vertex_origins, self.face_origins = origins
        self.report = report
        self.first_added_vertex, self.first_added_face = len(points), len(starts) - 1
        self.rims: List[Rim] = []
        self.hub_edges: List[Tuple[int, int]] = []

    @property
    def faces(self) -> List[List[int]]:
        return faces_of(self.corners, self.starts)

    def off_text(self) -> bytes:
        """The mesh as OFF. A comment at its end tells from which face and vertex on it was added to."""
        is_added = self.first_added_face < len(self.starts) - 1
        border = 0 if is_added else sum(map(len, self.rims))
        added = f"added faces {self.first_added_face} vertices {self.first_added_vertex}" if is_added else ""
        lines = points_text(self.points)
        return mesh_text(lines, self.corners, self.starts, (len(self.corners) + border) // 2, added)

    def lengths_text(self, decimals: int = 6) -> bytes:
        """A length file as `surf lengths` makes it, in which the edges of the hub have the greatest length that
        there is. Raises MeshFileError where an edge is shorter than a unit, or as long as those of the hub."""
        return lengths_text(self.points, edges_of(self.corners, self.starts), self.hub_edges, decimals)

    def map_text(self) -> bytes:
        """A line `v N` for each vertex and `f N` for each face: its number in the soup, or `-` where it is new."""
        return map_text(listed(self.vertex_origins), listed(self.face_origins))


def listed(values: Any) -> List[int]:
    return list(values.tolist() if hasattr(values, "tolist") else values)


def mend(
    soup: Soup, *, tolerance: "float | None" = 0.0, part: int = 0, most: str = "faces", holes: str = "keep"
) -> Mended:
    """The part of the soup that comes at place `part`, from 0, in the order of the number of faces or of the area,
    as `most` says. Points of rims that are within the tolerance become one; with None not even equal ones do.
    `holes` are kept ("keep"), each closed by one face ("close"), or joined by one sphere ("hub"), by which no
    cycle round some of them bounds that doesn't bound beforehand. Raises MeshFileError where there is no such part
    or no face."""
    with quiet():
        glued = Glued(soup, tolerance)
        parts = glued.parts(most)
        if not 0 <= part < len(parts):
            raise MeshFileError(f"there is no part {part}: the parts are 0 to {len(parts) - 1}")
        return glued.surface(parts[part], holes)


def mend_all(
    soup: Soup, *, tolerance: "float | None" = 0.0, most: str = "faces", holes: str = "keep"
) -> Iterator[Mended]:
    """All parts, the one with the most faces or the greatest area first."""
    with quiet():
        glued = Glued(soup, tolerance)
        parts = glued.parts(most)
    for part in parts:
        with quiet():
            surface = glued.surface(part, holes)
        yield surface


class Glued:
    """A soup whose faces are glued: `mates` has for each side the one that it is glued to, and `heads` for each
    corner the least of its fan."""

    def __init__(self, soup: Soup, tolerance: "float | None" = 0.0) -> None:
        if tolerance is not None and not 0 <= tolerance < float("inf"):
            raise MeshFileError("a tolerance is a number from 0 on")
        soup.check()
        self.bulk = arrays if is_array(soup.corners) else plain
        self.points, self.report = soup.points, Report()
        self.corners, self.starts = soup.corners, soup.starts
        self.origins = self.bulk.ranges(len(soup.starts) - 1)
        self._part_faces()
        self._drop_doubles()
        if tolerance is not None:
            self._merge(tolerance)
        if len(self.starts) < 2:
            raise MeshFileError("no face is left: each has fewer than three different corners")
        self._pair_wedges()
        self.heads = self.bulk.fans(self.corners, self.starts, self.mates)

    def _part_faces(self) -> None:
        """Parts faces where a corner stands twice, and leaves out those with fewer than three."""
        faulty = self.bulk.faulty_faces(self.corners, self.starts)
        changes: Dict[int, List[List[int]]] = {}
        for f in faulty:
            face = listed(self.corners[self.starts[f] : self.starts[f + 1]])
            changes[f] = rounds_of(face)
            self.report.spoiled_faces += not changes[f]
            self.report.parted_faces += len(changes[f]) > 1
        self._change(changes)

    def _change(self, changes: Dict[int, List[List[int]]]) -> None:
        if changes:
            tables = self.bulk.with_faces(self.corners, self.starts, self.origins, changes)
            self.corners, self.starts, self.origins = tables

    def _drop_doubles(self) -> None:
        """Leaves out faces that stand twice, at edges of more than two faces, or alone with each other beside others.
        Then finds the mates."""
        self.mates, self.crowded = self.bulk.mates_of(self.corners, self.starts)
        at = self.bulk.face_numbers(self.starts)
        suspects = {int(at[side]) for sides in self.crowded for side in sides}
        if len(self.starts) > 3:
            suspects.update(self.bulk.paired_faces(self.starts, self.mates))
        seen, doubled = set(), {}  # type: Set[Tuple[int, ...]], Dict[int, List[List[int]]]
        for f in sorted(suspects):
            key = round_key(listed(self.corners[self.starts[f] : self.starts[f + 1]]))
            if key in seen:
                doubled[f] = []
            seen.add(key)
        if doubled:
            self.report.doubled_faces += len(doubled)
            self._change(doubled)
            self.mates, self.crowded = self.bulk.mates_of(self.corners, self.starts)

    def _merge(self, tolerance: float) -> None:
        """Makes one of points at rims that are equal, or within the tolerance. Where all stand at one place their
        coordinates tell nothing."""
        chosen = self.bulk.rim_vertices(self.corners, self.starts, self.mates)
        names = self.bulk.equal_names(self.points, chosen)
        firsts = self.bulk.numbers(sorted(set(listed(self.bulk.taken(names, chosen)))))
        if len(firsts) < 2:
            return
        if tolerance > 0:
            pairs = self.bulk.near_pairs(self.points, firsts, tolerance, 50 * len(firsts) + 10**6)
            heads = self.bulk.components(len(self.points), pairs)
            names = self.bulk.taken(heads, names)
        self.report.merged_points = self.bulk.changed(names)
        if self.report.merged_points:
            self.corners = self.bulk.renamed(self.corners, names)
            self._part_faces()
            self._drop_doubles()

    def _pair_wedges(self) -> None:
        """Glues at edges of more than two faces those that bound one wedge of the inside: first the faces of sheets
        that have no rim, so that a fin or a wall doesn't tear them open, and then what is left."""
        self.report.crowded_edges = len(self.crowded)
        if not self.crowded:
            return
        inside_out = self.bulk.is_inside_out(self.points, self.corners, self.starts)
        at, places = self.bulk.face_numbers(self.starts), self.bulk.next_places(self.starts)
        sheets = self.bulk.parts(self.starts, self.mates)
        open_sheets = {int(sheets[at[side]]) for side in self.bulk.border_sides(self.mates)}
        for sides in self.crowded:
            ends = sorted((int(self.corners[sides[0]]), int(self.corners[places[sides[0]]])))
            for side in sides:
                self.mates[side] = plain.BORDER
            self._pair(ends, [side for side in sides if int(sheets[at[side]]) not in open_sheets], at, inside_out)
            self._pair(ends, [side for side in sides if self.mates[side] == plain.BORDER], at, inside_out)

    def _pair(self, ends: Sequence[int], sides: Sequence[int], at: Any, inside_out: bool) -> None:
        """Glues those of the sides at an edge that bound one wedge. `at` has the face of each side."""
        middles = [self._middle(int(at[side])) for side in sides]
        opens = [(int(self.corners[side]) != ends[0]) != inside_out for side in sides]
        for one, other in pairs_at((self.points[ends[0]], self.points[ends[1]]), middles, sides, opens):
            self.mates[one], self.mates[other] = other, one

    def _middle(self, face: int) -> List[float]:
        places = [self.points[c] for c in listed(self.corners[self.starts[face] : self.starts[face + 1]])]
        return [sum(float(place[k]) for place in places) / len(places) for k in range(3)]

    def parts(self, most: str = "faces") -> List[Any]:
        """The faces of each part, the greatest part first."""
        if most not in MOST:
            raise MeshFileError(f"parts are chosen by {' or by '.join(MOST)}")
        labels = self.bulk.parts(self.starts, self.mates)
        if most == "area":
            weights = self.bulk.areas(self.points, self.corners, self.starts)
        else:
            weights = [1] * len(labels)
        found: List[Any] = self.bulk.parts_by_size(labels, weights)
        self.report.parts, self.report.all_faces = len(found), len(labels)
        return found

    def surface(self, faces: Any, holes: str = "keep") -> Mended:
        """The surface of the faces of a part, one of those that `parts` answers."""
        if holes not in HOLES:
            raise MeshFileError(f"holes are one of: {', '.join(HOLES)}")
        bulk, tables = self.bulk, (self.corners, self.starts, self.mates, self.heads)
        corners, starts, mates, heads = bulk.chosen_part(tables, faces)
        one_sided = not bulk.is_orientable(corners, starts, mates)
        corners, vertices = bulk.numbered(corners, heads)
        report = dataclasses.replace(self.report, one_sided=one_sided, holes=holes)
        report.left_out_faces = report.all_faces - len(faces)
        report.split_vertices = len(vertices) - len(set(listed(vertices)))
        points, face_origins = bulk.taken(self.points, vertices), bulk.taken(self.origins, faces)
        twins = bulk.twin_sides(corners, starts, mates)
        mended = Mended(points, corners, starts, (vertices, face_origins), report)
        if twins:
            mates = halve(mended, twins, mates, bulk)
        add_rims(mended, mates, bulk)
        if mended.first_added_face < len(mended.starts) - 1 or not mended.rims:
            report.loops = 2 - len(mended.points) + len(mended.corners) // 2 - (len(mended.starts) - 1)
        return mended


def rounds_of(face: Sequence[int]) -> List[List[int]]:
    """The rounds of at least three corners into which a face falls where a corner stands twice."""
    found: List[List[int]] = []
    walk: List[int] = []
    at: Dict[int, int] = {}
    for corner in [*face, *face[:1]]:
        if corner in at:
            start = at[corner]
            found.append(walk[start:])
            for gone in walk[start + 1 :]:
                del at[gone]
            del walk[start + 1 :]
        else:
            at[corner] = len(walk)
            walk.append(corner)
    return [row for row in found if len(row) >= 3]


def round_key(face: Sequence[int]) -> Tuple[int, ...]:
    """The corners of a face from the least on, the way on which the lesser neighbour comes first."""
    least = min(range(len(face)), key=face.__getitem__)
    run = [*face[least:], *face[:least]]
    return tuple(run if run[1] < run[-1] else [run[0], *run[:0:-1]])


def halve(mended: Mended, twins: Sequence[int], mates: Any, bulk: Any) -> Any:
    """Gives edges with the ends of another a vertex in their middle. The mates of the sides that are there then."""
    places = bulk.next_places(mended.starts)
    middles: Dict[int, int] = {}
    points: List[Tuple[float, ...]] = []
    for side in twins:
        ends = (mended.points[mended.corners[side]], mended.points[mended.corners[places[side]]])
        vertex = len(mended.points) + len(points)
        points.append(tuple(float(a) / 2 + float(b) / 2 for a, b in zip(*ends)))
        middles[side] = vertex
        if mates[side] >= 0:
            middles[int(mates[side])] = vertex
    mended.points = bulk.joined(mended.points, points)
    mended.vertex_origins = bulk.joined(mended.vertex_origins, [-1] * len(points))
    mended.corners, mended.starts = bulk.inserted(mended.corners, mended.starts, middles)
    mended.report.halved_edges = len(twins)
    mended.first_added_vertex = len(mended.points)
    return bulk.mates_of(mended.corners, mended.starts)[0]


def add_rims(mended: Mended, mates: Any, bulk: Any) -> None:
    """Finds the rims, and closes the holes as the report says."""
    sides = bulk.border_sides(mates)
    if not sides:
        return
    places, report = bulk.next_places(mended.starts), mended.report
    begins = [int(mended.corners[side]) for side in sides]
    rims = rims_of(begins, [int(mended.corners[places[side]]) for side in sides])
    mended.rims, report.rim_sizes = rims, [len(rim) for rim in rims]
    report.near_rims = nearness(rims, mended.points, bulk)
    if report.holes == "keep":
        return
    faces: List[Rim] = rims
    if report.holes == "hub":
        hub = Hub(rims, mended.points)
        faces, mended.hub_edges, report.hub_vertex = hub.faces, hub.edges, len(mended.points)
        mended.points = bulk.joined(mended.points, hub.points)
        mended.vertex_origins = bulk.joined(mended.vertex_origins, [-1] * len(hub.points))
    ends = list(itertools.accumulate(map(len, faces), initial=int(mended.starts[-1])))[1:]
    mended.corners = bulk.joined(mended.corners, [c for face in faces for c in face])
    mended.starts = bulk.joined(mended.starts, ends)
    mended.face_origins = bulk.joined(mended.face_origins, [-1] * len(faces))
