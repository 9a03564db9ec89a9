"""Which faces at an edge of more than two belong together."""

from __future__ import annotations

import math
from typing import List, NamedTuple, Sequence, Tuple

Vector = Sequence[float]


class Sheet(NamedTuple):
    """A face at an edge: the angle at which it leaves, the side that it has there, and whether the inside begins
    there when one turns on round the edge. Faces of a solid are listed so that they tell where its inside is."""

    angle: float
    side: int
    opens: bool


def pairs_at(
    ends: Tuple[Vector, Vector], middles: Sequence[Vector], sides: Sequence[int], opens: Sequence[bool]
) -> List[Tuple[int, int]]:
    """The pairs of sides that bound one wedge of the inside. `ends` are those of the edge. Of each face there are its
    middle, its side, and whether the inside begins there. A side may be left over."""
    angles = angles_round(ends, middles)
    return matched(sorted(Sheet(*row) for row in zip(angles, sides, opens)))


def angles_round(ends: Tuple[Vector, Vector], middles: Sequence[Vector]) -> List[float]:
    """The angles, round the line through the ends, at which the middles stand."""
    axis = [b - a for a, b in zip(*ends)]
    size = math.hypot(*axis) or 1.0
    axis = [x / size for x in axis]
    least = min(range(3), key=lambda k: abs(axis[k]))
    east = cross(axis, [float(k == least) for k in range(3)])
    north = cross(axis, east)
    ways = [[x - y for x, y in zip(middle, ends[0])] for middle in middles]
    return [math.atan2(dot(way, north), dot(way, east)) for way in ways]


def matched(sheets: Sequence[Sheet]) -> List[Tuple[int, int]]:
    """Each sheet that closes with the one that opens before it, as brackets go, round the circle."""
    waiting: List[int] = []
    found: List[Tuple[int, int]] = []
    early: List[int] = []
    for sheet in sheets:
        if sheet.opens:
            waiting.append(sheet.side)
        elif waiting:
            found.append((waiting.pop(), sheet.side))
        else:
            early.append(sheet.side)
    return found + [(waiting.pop(), side) for side in early[: len(waiting)]]


def cross(a: Vector, b: Vector) -> List[float]:
    return [a[1] * b[2] - a[2] * b[1], a[2] * b[0] - a[0] * b[2], a[0] * b[1] - a[1] * b[0]]


def dot(a: Vector, b: Vector) -> float:
    return sum(x * y for x, y in zip(a, b))
