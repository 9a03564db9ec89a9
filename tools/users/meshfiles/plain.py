"""The work on whole tables, by the standard library alone. `arrays` has these functions for numpy."""

from __future__ import annotations

import math
from typing import Any, Dict, Iterable, List, Sequence, Tuple

from .soup import MeshFileError, faces_of, starts_of

BORDER, CROWDED = -1, -2


def next_places(starts: Sequence[int]) -> List[int]:
    """For each corner the place of the next one of its face."""
    found: List[int] = []
    for a, b in zip(starts, starts[1:]):
        found += range(a + 1, b)
        found.append(a)
    return found


def face_numbers(starts: Sequence[int]) -> List[int]:
    """For each corner its face."""
    return [f for f, (a, b) in enumerate(zip(starts, starts[1:])) for _ in range(a, b)]


def mates_of(corners: Sequence[int], starts: Sequence[int]) -> Tuple[List[int], List[List[int]]]:
    """For each side, numbered by its first corner, the other side with the same ends: BORDER where there is none,
    CROWDED where there are several. The sides of each crowded edge, by the least of them."""
    at: Dict[Tuple[int, int], List[int]] = {}
    for side, (u, place) in enumerate(zip(corners, next_places(starts))):
        v = corners[place]
        at.setdefault((u, v) if u < v else (v, u), []).append(side)
    mates, crowded = [BORDER] * len(corners), []
    for sides in at.values():
        if len(sides) == 2:
            mates[sides[0]], mates[sides[1]] = sides[1], sides[0]
        elif len(sides) > 2:
            crowded.append(sides)
            for side in sides:
                mates[side] = CROWDED
    return mates, crowded


def components(count: int, links: Iterable[Tuple[int, int]]) -> List[int]:
    """For each number the least that hangs together with it."""
    heads = list(range(count))
    for a, b in links:
        while heads[a] != a:
            heads[a] = a = heads[heads[a]]
        while heads[b] != b:
            heads[b] = b = heads[heads[b]]
        if a < b:
            heads[b] = a
        else:
            heads[a] = b
    for k in range(count):
        heads[k] = heads[heads[k]]
    return heads


def rim_vertices(corners: Sequence[int], starts: Sequence[int], mates: Sequence[int]) -> List[int]:
    """The vertices of sides that have no mate, in order."""
    places = next_places(starts)
    sides = [side for side, mate in enumerate(mates) if mate == BORDER]
    return sorted({corners[side] for side in sides} | {corners[places[side]] for side in sides})


def equal_names(points: Sequence[Any], chosen: Sequence[int]) -> List[int]:
    """For each vertex the least of the chosen ones at its place; itself where it isn't chosen."""
    names, first = list(range(len(points))), {}  # type: List[int], Dict[Tuple[float, ...], int]
    for vertex in chosen:
        x, y, z = points[vertex]
        names[vertex] = first.setdefault((x + 0.0, y + 0.0, z + 0.0), vertex)
    return names


def near_pairs(points: Sequence[Any], chosen: Sequence[int], distance: float, most: int) -> List[Tuple[int, int]]:
    """The pairs of chosen vertices that are no farther from each other. MeshFileError where more than `most` are
    to be looked at."""
    cells: Dict[Tuple[int, int, int], List[int]] = {}
    low = [min((points[v][k] for v in chosen), default=0.0) for k in range(3)]
    spans = [(max((points[v][k] for v in chosen), default=0.0) - low[k]) / distance for k in range(3)]
    if not max(spans) <= 2.0**60:  # so near no two different points can be
        return []
    pairs, looked = [], 0
    for vertex in chosen:
        point = points[vertex]
        a, b, c = (math.floor((x - y) / distance) for x, y in zip(point, low))
        for x in (a - 1, a, a + 1):
            for y in (b - 1, b, b + 1):
                for z in (c - 1, c, c + 1):
                    near = cells.get((x, y, z), ())
                    looked += len(near)
                    pairs += [(other, vertex) for other in near if math.dist(points[other], point) <= distance]
        cells.setdefault((a, b, c), []).append(vertex)
        if looked > most:
            raise MeshFileError(f"{distance:g} is too great: too many points are that near each other")
    return pairs


def renamed(corners: Sequence[int], names: Sequence[int]) -> List[int]:
    return [names[c] for c in corners]


def faulty_faces(corners: Sequence[int], starts: Sequence[int]) -> List[int]:
    """The faces with fewer than three corners, or with one twice, in order."""
    faces = faces_of(corners, starts)
    return [f for f, face in enumerate(faces) if len(face) < 3 or len(set(face)) < len(face)]


def with_faces(
    corners: Sequence[int], starts: Sequence[int], origins: Sequence[int], changes: Dict[int, List[List[int]]]
) -> Tuple[List[int], List[int], List[int]]:
    """The tables with other faces, of any number, in the places of some, with the origins of those."""
    rows, found = [], []
    for f, face in enumerate(faces_of(corners, starts)):
        for row in changes.get(f, [face]):
            rows.append(row)
            found.append(origins[f])
    return [c for row in rows for c in row], starts_of(map(len, rows)), found


def paired_faces(starts: Sequence[int], mates: Sequence[int]) -> List[int]:
    """The faces of which all sides have their mates in one other face, with no side left there."""
    at, found = face_numbers(starts), []
    for f, (a, b) in enumerate(zip(starts, starts[1:])):
        others = {at[mate] if mate >= 0 else -1 for mate in mates[a:b]}
        other = min(others, default=-1)
        if len(others) == 1 and other not in (-1, f) and starts[other + 1] - starts[other] == b - a:
            found.append(f)
    return found


def is_inside_out(points: Sequence[Any], corners: Sequence[int], starts: Sequence[int]) -> bool:
    """Whether the faces are listed as those of a solid are that is seen from within: what they enclose is below 0,
    and by more than rounding makes."""
    total, size, origin = 0.0, 0.0, points[corners[0]]
    for face in faces_of(corners, starts):
        places = [[x - y for x, y in zip(points[c], origin)] for c in face]
        a = places[0]
        for b, c in zip(places[1:], places[2:]):
            values = [a[k] * (b[k - 2] * c[k - 1] - b[k - 1] * c[k - 2]) for k in range(3)]
            total, size = total + sum(values), size + sum(map(abs, values))
    return total < -1e-9 * size


def areas(points: Sequence[Any], corners: Sequence[int], starts: Sequence[int]) -> List[float]:
    found = []
    for face in faces_of(corners, starts):
        total, origin = [0.0, 0.0, 0.0], points[face[0]]
        for a, b in zip(face, face[1:] + face[:1]):
            p, q = ([x - y for x, y in zip(points[c], origin)] for c in (a, b))
            for i in range(3):
                total[i] += p[(i + 1) % 3] * q[(i + 2) % 3] - p[(i + 2) % 3] * q[(i + 1) % 3]
        found.append(math.hypot(*total) / 2)
    return found


def fans(corners: Sequence[int], starts: Sequence[int], mates: Sequence[int]) -> List[int]:
    """For each corner the least one of its fan: corners at one vertex hang together over sides that are mates."""
    places, links = next_places(starts), []  # type: List[int], List[Tuple[int, int]]
    for side, mate in enumerate(mates):
        if mate > side:
            ends, others = (side, places[side]), (mate, places[mate])
            links += zip(ends, others if corners[side] == corners[mate] else others[::-1])
    return components(len(corners), links)


def parts(starts: Sequence[int], mates: Sequence[int]) -> List[int]:
    """For each face the least one of its part: faces hang together over sides that are mates."""
    at = face_numbers(starts)
    return components(len(starts) - 1, ((at[side], at[mate]) for side, mate in enumerate(mates) if mate > side))


def is_orientable(corners: Sequence[int], starts: Sequence[int], mates: Sequence[int]) -> bool:
    """Whether the faces can be listed so that mates run opposite ways. Each face stands twice, once turned round."""
    at, count, links = face_numbers(starts), len(starts) - 1, []
    for side, mate in enumerate(mates):
        if mate > side:
            turned = count * (corners[side] == corners[mate])
            links += [(at[side], at[mate] + turned), (at[side] + count, at[mate] + count - turned)]
    heads = components(2 * count, links)
    return all(heads[f] != heads[f + count] for f in range(count))


def parts_by_size(labels: Sequence[int], weights: Sequence[float]) -> List[List[int]]:
    """The faces of each part, the part with the greatest weight first, then that with the least face."""
    found: Dict[int, List[int]] = {}
    for f, label in enumerate(labels):
        found.setdefault(label, []).append(f)
    return sorted(found.values(), key=lambda part: (-sum(weights[f] for f in part), part[0]))


def chosen_part(tables: Tuple[Any, Any, Any, Any], faces: Sequence[int]) -> Tuple[Any, Any, Any, Any]:
    """Corners, starts, mates and fans of some faces alone, with mates and fans by the numbers that sides now have."""
    corners, starts, mates, heads = tables
    sides = [side for f in faces for side in range(starts[f], starts[f + 1])]
    numbers = {side: k for k, side in enumerate(sides)}
    sizes = starts_of(starts[f + 1] - starts[f] for f in faces)
    mates = [numbers[mates[side]] if mates[side] >= 0 else BORDER for side in sides]
    return [corners[side] for side in sides], sizes, mates, [numbers[heads[side]] for side in sides]


def numbered(corners: Sequence[int], heads: Sequence[int]) -> Tuple[List[int], List[int]]:
    """The corners by new numbers of vertices, one for each fan, and for each of these the vertex that it was."""
    roots = sorted((corners[side], side) for side, head in enumerate(heads) if head == side)
    numbers = {side: number for number, (_, side) in enumerate(roots)}
    return [numbers[head] for head in heads], [vertex for vertex, _ in roots]


def twin_sides(corners: Sequence[int], starts: Sequence[int], mates: Sequence[int]) -> List[int]:
    """The lesser side of each edge whose ends an edge with a lesser side has too, in order."""
    seen, found, places = set(), [], next_places(starts)
    for side, mate in enumerate(mates):
        if mate < 0 or mate > side:
            u, v = corners[side], corners[places[side]]
            key = (u, v) if u < v else (v, u)
            if key in seen:
                found.append(side)
            seen.add(key)
    return found


def inserted(corners: Sequence[int], starts: Sequence[int], middles: Dict[int, int]) -> Tuple[List[int], List[int]]:
    """The faces with a new vertex behind the first corner of some sides."""
    rows = [
        [c for side in range(a, b) for c in ([corners[side], middles[side]] if side in middles else [corners[side]])]
        for a, b in zip(starts, starts[1:])
    ]
    return [c for row in rows for c in row], starts_of(map(len, rows))


def taken(values: Sequence[Any], places: Sequence[int]) -> List[Any]:
    return [values[k] for k in places]


def joined(one: Sequence[Any], other: Sequence[Any]) -> List[Any]:
    return [*one, *other]


def border_sides(mates: Sequence[int]) -> List[int]:
    return [side for side, mate in enumerate(mates) if mate == BORDER]


def listed(values: Sequence[Any]) -> List[Any]:
    return list(values)


def changed(names: Sequence[int]) -> int:
    """How many vertices have another's name."""
    return sum(name != vertex for vertex, name in enumerate(names))


def ranges(count: int) -> List[int]:
    return list(range(count))


def numbers(values: Sequence[int]) -> List[int]:
    return list(values)
