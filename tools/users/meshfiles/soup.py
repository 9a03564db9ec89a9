"""Points and faces as a file lists them, not yet known to be a surface."""

from __future__ import annotations

import contextlib
import itertools
import math
import os
from typing import Any, ContextManager, Iterable, List, Sequence


def numpy_if_there() -> Any:
    """numpy, or None where it can't be imported, or is to be done without, for tests and to compare."""
    if os.environ.get("MESHFILES_PLAIN"):
        return None
    try:
        import numpy
    except ImportError:
        return None
    return numpy


np = numpy_if_there()

Ints = Any  # a list of int, or with numpy an array of int64
Points = Any  # a list of tuples of three floats, or with numpy an array (n, 3) of float64


class MeshFileError(ValueError):
    """A file can't be read, or can't become a surface: one line that says what is wrong and where."""

    def __init__(self, told: str) -> None:
        super().__init__("".join(c if c.isprintable() else "?" for c in told))


class Soup:
    """`points`; `corners`, the vertex numbers of all faces one after the other; and `starts`, for each face the place
    of its first corner, with the number of all corners at the end."""

    def __init__(self, points: Points, corners: Ints, starts: Ints) -> None:
        if np is not None:
            points = np.asarray(points, float).reshape(-1, 3)
            corners, starts = as_array(corners), as_array(starts)
        else:
            corners, starts = list(corners), list(starts)
        self.points, self.corners, self.starts = points, corners, starts

    @classmethod
    def of(cls, points: Sequence[Sequence[float]], faces: Sequence[Sequence[int]]) -> "Soup":
        """The soup of points (n, 3) and faces, an array (m, k) or rows of any lengths."""
        if np is None:
            points = [(float(x), float(y), float(z)) for x, y, z in points]
        elif isinstance(faces, np.ndarray) and faces.ndim == 2:
            return cls(points, faces.reshape(-1), np.arange(0, faces.size + 1, max(1, faces.shape[1])))
        rows = [list(map(int, face)) for face in faces]
        return cls(points, list(itertools.chain.from_iterable(rows)), starts_of(map(len, rows)))

    @property
    def faces(self) -> List[List[int]]:
        return faces_of(self.corners, self.starts)

    def check(self) -> "Soup":
        """The soup itself, if it has a face, and all corners are vertices whose coordinates are finite numbers."""
        if len(self.starts) < 2 or self.starts[-1] == 0:
            raise MeshFileError("no face: a cloud of points, or curves alone")
        bad = self._first_bad_corner()
        if bad is not None:
            face = next(f for f in range(len(self.starts) - 1) if self.starts[f + 1] > bad)
            corner = int(self.corners[bad])
            raise MeshFileError(
                f"face {face} has the corner {corner}, and the vertices are 0 to {len(self.points) - 1}"
            )
        self._check_numbers()
        return self

    def _first_bad_corner(self) -> "int | None":
        count = len(self.points)
        if not is_array(self.corners):
            return next((k for k, c in enumerate(self.corners) if not 0 <= c < count), None)
        bad = np.flatnonzero((self.corners < 0) | (self.corners >= count))
        return int(bad[0]) if len(bad) else None

    def _check_numbers(self) -> None:
        if not is_array(self.points):
            bad = {v for v, point in enumerate(self.points) if not all(map(math.isfinite, point))}
            bad = bad.intersection(self.corners) if bad else bad
        else:
            is_bad = ~np.isfinite(self.points).all(axis=1)
            bad = self.corners[is_bad[self.corners]]
        if len(bad):
            raise MeshFileError(f"vertex {min(bad)} has a coordinate that is no finite number")


def starts_of(sizes: Iterable[int]) -> List[int]:
    """For faces of these sizes the place of each first corner, and the number of all corners."""
    return list(itertools.accumulate(sizes, initial=0))


def quiet() -> "ContextManager[Any]":
    """No warnings of numpy on numbers that are too great or none: what comes of these is looked at."""
    if np is None:
        return contextlib.nullcontext()
    found: ContextManager[Any] = np.errstate(all="ignore")
    return found


def as_array(values: Any) -> Ints:
    if isinstance(values, range):
        return np.arange(values.start, values.stop, values.step)
    return np.asarray(values, np.int64)


def is_array(values: Any) -> bool:
    return np is not None and isinstance(values, np.ndarray)


def faces_of(corners: Ints, starts: Ints) -> List[List[int]]:
    if is_array(corners):
        corners, starts = corners.tolist(), starts.tolist()
    return [corners[a:b] for a, b in zip(starts, starts[1:])]
