"""Polygons as one flat table of corners, and meshes of other packages as arrays."""

from __future__ import annotations

import operator
import re
from typing import Any, Optional, Tuple, TypeVar

import numpy as np

from ._answers import Polygons
from ._texts import Floats, Ints, token_lines

Numbers = TypeVar("Numbers", Ints, Floats)

POLYGONS_OF_MESHIO = r"triangle|quad|polygon\d*"
NO_FACES_OF_MESHIO = r"vertex|line\d*"


def frozen(array: Any) -> Any:
    """An array that can't be written to."""
    array.flags.writeable = False
    return array


class Faces:
    """Faces of any sizes.

    corners: shape (n,), the vertices of the faces, one face behind the other
    starts:  shape (m + 1,), where each face begins in these, and their end
    size:    how many corners each face has, where all have as many; else None"""

    def __init__(self, corners: Ints, starts: Ints, size: Optional[int]):
        self.corners, self.starts, self.size = corners, starts, size

    @staticmethod
    def of(faces: Any) -> Faces:
        """The faces of an array (m, k) or of m sequences, of whole numbers."""
        if isinstance(faces, np.ndarray) and faces.ndim == 2:
            return Faces.of_table(_whole(faces))
        if isinstance(faces, np.ndarray) and faces.dtype != object and faces.size:
            raise ValueError(f"faces have the shape {faces.shape}, and not (m, k)")
        rows = [_whole(np.asarray(face)) for face in faces]
        if any(row.ndim != 1 for row in rows):
            raise ValueError("a face isn't a flat sequence of vertices")
        if not rows:
            return Faces.of_table(np.zeros((0, 3), np.int64))
        if len({len(row) for row in rows}) == 1:
            return Faces.of_table(np.stack(rows))
        starts = np.cumsum([0] + [len(row) for row in rows])
        return Faces(frozen(np.concatenate(rows)), starts, None)

    @staticmethod
    def of_table(table: Ints) -> Faces:
        """The faces of an array (m, k) of 64-bit numbers."""
        count, size = table.shape
        return Faces(frozen(np.array(table).reshape(-1)), np.arange(count + 1) * size, size)

    def __len__(self) -> int:
        return len(self.starts) - 1

    def polygons(self) -> Polygons:
        """The faces as an array (m, k), or, where their sizes differ, as a tuple of m arrays."""
        return self.shaped(self.corners)

    def shaped(self, corners: Ints) -> Polygons:
        """Other numbers at the corners of these faces, in the form of `polygons`."""
        if self.size is not None:
            return corners.reshape(len(self), self.size)
        return tuple(np.split(corners, self.starts[1:-1]))

    def next_corners(self, corners: Numbers) -> Numbers:
        """For each corner what stands at the next one in its face, of what stands at the corners."""
        following: Numbers = np.empty_like(corners)
        if self.size is not None:
            table, rolled = (numbers.reshape(len(self), self.size) for numbers in (corners, following))
            rolled[:, :-1], rolled[:, -1:] = table[:, 1:], table[:, :1]
            return following
        following[:-1] = corners[1:]
        full = self.starts[:-1] < self.starts[1:]
        following[self.starts[1:][full] - 1] = corners[self.starts[:-1][full]]
        return following

    def corners_of(self, numbers: Ints) -> Ints:
        """The corners of a listing of faces of these sizes, in which each face's size stands before its corners."""
        if self.size is not None:
            return numbers.reshape(len(self), self.size + 1)[:, 1:].reshape(-1)
        return np.delete(numbers, self.starts[:-1] + np.arange(len(self)))

    def text(self) -> bytes:
        """A line for each face: its size and its corners."""
        sizes = np.diff(self.starts)
        if self.size is not None:
            tokens = np.column_stack([sizes, self.corners.reshape(len(self), self.size)]).reshape(-1)
            return token_lines(tokens, slice(self.size, None, self.size + 1))
        return token_lines(np.insert(self.corners, self.starts[:-1], sizes), np.cumsum(sizes + 1) - 1)


def _whole(table: Any) -> Ints:
    """The table in 64 bits, where it has whole numbers."""
    if table.size and table.dtype.kind not in "iu":
        raise TypeError(f"faces are of the type {table.dtype}, and not of whole numbers")
    found: Ints = table.astype(np.int64)
    return found


def points_of(vertices: Any) -> Tuple[int, Optional[Floats]]:
    """How many vertices there are, and their places, of a whole number or of an array (n, 3)."""
    if np.ndim(vertices) == 0:
        count = operator.index(vertices)
        if count < 0:
            raise ValueError(f"there can't be {count} vertices")
        return count, None
    table = np.asarray(vertices)
    if table.size == 0:
        table = np.zeros((0, 3))
    if table.ndim != 2 or table.shape[1] != 3:
        raise ValueError(f"vertices have the shape {table.shape}, and not (n, 3)")
    if table.dtype.kind not in "fiu":
        raise TypeError(f"vertices are of the type {table.dtype}, and not of numbers")
    return len(table), frozen(np.array(table, dtype=np.float64, order="C"))


def arrays_of(mesh: Any) -> Tuple[Any, Any]:
    """The vertices and the faces of a mesh of trimesh (`vertices`, `faces`) or of meshio (`points`, `cells`)."""
    if hasattr(mesh, "vertices") and hasattr(mesh, "faces"):
        return np.asarray(mesh.vertices), np.asarray(mesh.faces)
    if hasattr(mesh, "points") and hasattr(mesh, "cells"):
        return np.asarray(mesh.points), _faces_of_cells(mesh.cells)
    raise TypeError(f"{type(mesh).__name__} has neither vertices and faces nor points and cells")


def _faces_of_cells(cells: Any) -> Any:
    blocks = [block for block in cells if not re.fullmatch(NO_FACES_OF_MESHIO, block.type)]
    for block in blocks:
        if not re.fullmatch(POLYGONS_OF_MESHIO, block.type):
            raise TypeError(f"cells of the type {block.type} are no polygons")
    if len(blocks) == 1:
        return np.asarray(blocks[0].data)
    return [face for block in blocks for face in np.asarray(block.data)]
