"""Tables of whole numbers in few bytes. Where numpy can be imported it does the work; the bytes are the same."""

from __future__ import annotations

import array
import itertools
import sys
from typing import Any, List, Sequence, Tuple

np: Any
try:
    import numpy as np
except ImportError:
    np = None

Numbers = Any  # a sequence of whole numbers, or an array of them


def planes(numbers: Numbers) -> bytes:
    """A table of numbers from 0 to 2**32 - 1: the lowest bytes of all, then the next ones, up to the highest."""
    if np is not None:
        table = np.asarray(numbers, "<u4")
        data: bytes = table.view(np.uint8).reshape(-1, 4).T.tobytes()
        return data
    listed = array.array("I", numbers)
    if listed.itemsize != 4:
        raise TypeError("unsigned int hasn't four bytes here")
    if sys.byteorder == "big":
        listed.byteswap()
    whole = listed.tobytes()
    return b"".join(whole[place::4] for place in range(4))


def steps(numbers: Numbers) -> bytes:
    """A table of the steps from each number to the next, from 0 on, the sign in the lowest bit."""
    if np is not None:
        found = np.diff(np.asarray(numbers, np.int64), prepend=0)
        return planes(np.where(found >= 0, 2 * found, -2 * found - 1))
    listed = (after - before for before, after in zip(itertools.chain((0,), numbers), numbers))
    return planes([2 * step if step >= 0 else -2 * step - 1 for step in listed])


def size_of_all(faces: Sequence[Sequence[int]]) -> int:
    """The size of each face, or 0 where they have several sizes."""
    if np is not None and isinstance(faces, np.ndarray):
        return int(faces.shape[1])
    sizes = {len(face) for face in faces}
    return sizes.pop() if len(sizes) == 1 else 0


def order_of(faces: Sequence[Sequence[int]]) -> List[int]:
    """The faces by their vertices, the least ones first."""
    if np is not None and len(faces) and size_of_all(faces):
        keys = np.sort(np.asarray(faces, np.int64), axis=1)
        order: List[int] = np.lexsort(keys.T[::-1]).tolist()
        return order
    return sorted(range(len(faces)), key=lambda number: sorted(faces[number]))


def turned(faces: Sequence[Sequence[int]], order: List[int]) -> Tuple[Numbers, Numbers]:
    """The least vertex of each face, and how much greater the others are, in their order behind the least one."""
    if np is not None and order and size_of_all(faces):
        table = np.asarray(faces, np.int64)[order]
        places = (table.argmin(axis=1)[:, None] + np.arange(table.shape[1])) % table.shape[1]
        table = np.take_along_axis(table, places, axis=1)
        return table[:, 0], (table[:, 1:] - table[:, :1]).ravel()
    firsts, rest = [], []
    for number in order:
        face = [int(vertex) for vertex in faces[number]]
        first = min(face)
        at = face.index(first)
        firsts.append(first)
        rest += [vertex - first for vertex in face[at + 1 :] + face[:at]]
    return firsts, rest


def rounded(numbers: Numbers, low: float, step: float, grain: int, most: int) -> Numbers:
    """Numbers in whole steps above the lowest, in multiples of a grain, from 0 to the most."""
    if np is not None:
        exact = (np.asarray(numbers, np.float64) - low) / step
        return np.clip(np.rint(exact / grain) * grain, 0, most).astype(np.int64)
    return [min(most, max(0, round((x - low) / step / grain) * grain)) for x in numbers]


def column(points: Sequence[Sequence[float]], axis: int) -> Numbers:
    """One coordinate of all points."""
    if np is not None:
        return np.asarray(points, np.float64).reshape(-1, 3)[:, axis]
    return [float(point[axis]) for point in points]


def vertices_in(faces: Sequence[Sequence[int]], is_left_out: Sequence[bool]) -> List[int]:
    """The vertices of the faces that aren't left out."""
    if np is not None and not len(is_left_out) and isinstance(faces, np.ndarray):
        found: List[int] = np.unique(faces).tolist()
        return found
    left_out = is_left_out if len(is_left_out) else itertools.repeat(False)
    return sorted({int(vertex) for face, is_out in zip(faces, left_out) if not is_out for vertex in face})


def bounds(numbers: Numbers, places: List[int]) -> Tuple[float, float]:
    """The least and the greatest of the numbers at some places."""
    if np is not None:
        some = numbers[places]
        return float(some.min()), float(some.max())
    some = [numbers[place] for place in places]
    return min(some), max(some)
