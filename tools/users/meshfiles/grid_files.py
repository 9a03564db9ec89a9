"""Geomview's MESH, a grid of vertices, and its QUAD, four vertices for each face. Texts alone."""

from __future__ import annotations

import re
from typing import List, Tuple

from .off_files import Head, bare
from .soup import MeshFileError, Soup
from .text import Cursor, rows_of, shown

QUADS = re.compile(rb"(?P<C>C)?(?P<N>N)?(?P<four>4)?(QUAD|POLY)")
GRID = re.compile(rb"(?P<U>U)?(?P<C>C)?(?P<N>N)?(?P<Z>Z)?(?P<four>4)?(?P<u>u)?(?P<v>v)?MESH")


def is_grid(data: bytes) -> bool:
    """Whether the first word, behind comments and what tells how it is shown, is a keyword of these."""
    first = re.match(rb"(?:\s|#[^\n]*\n)*([^\s#]*)", bare(data))
    return bool(first and (QUADS.fullmatch(first[1]) or GRID.fullmatch(first[1])))


def read_grid(data: bytes) -> Soup:
    rows = rows_of(bare(data))
    cursor = Cursor(rows)
    word, line = cursor.word("its keyword")
    if rows[0][1][1:2] == [b"BINARY"]:
        raise MeshFileError(f"line {line}: a binary {word.decode()} isn't read")
    quads, grid = QUADS.fullmatch(word), GRID.fullmatch(word)
    if quads:
        return read_quads(cursor, quads)
    if grid:
        return read_squares(cursor, grid, len(data))
    raise MeshFileError(f"line {line}: {shown(word)} is no keyword of a MESH or a QUAD")


def read_quads(cursor: Cursor, found: "re.Match[bytes]") -> Soup:
    width = 3 + bool(found["four"]) + 3 * bool(found["N"]) + 4 * bool(found["C"])
    words = sum(len(row[1]) for row in cursor.rows) - 1
    if words % (4 * width):
        raise MeshFileError(f"the text ends within face {words // (4 * width)}")
    head = Head(3 + bool(found["four"]), bool(found["four"]), width, words // width, words // width // 4)
    points = [vertex_of(cursor, head, vertex) for vertex in range(head.vertices)]
    return Soup(points, range(head.vertices), range(0, head.vertices + 1, 4))


def vertex_of(cursor: Cursor, head: Head, vertex: int) -> Tuple[float, float, float]:
    wanted = f"vertex {vertex} of {head.vertices} is complete"
    values = [cursor.number(wanted) for _ in range(head.dimensions)]
    for _ in range(head.width - head.dimensions):
        cursor.word(wanted)
    return head.place(values)


def read_squares(cursor: Cursor, found: "re.Match[bytes]", size: int) -> Soup:
    """The squares of a grid, which closes round where the keyword has `u` or `v`."""
    across, down = cursor.whole("the count of columns"), cursor.whole("the count of rows")
    dimensions = 1 if found["Z"] else 3 + bool(found["four"])
    width = dimensions + 3 * bool(found["N"]) + 4 * bool(found["C"]) + 3 * bool(found["U"])
    if across < 1 or down < 1:
        raise MeshFileError("counts that no grid has")
    head = Head(dimensions, bool(found["four"]), width, across * down, 0).check(size, "the head")
    points = [vertex_of(cursor, head, vertex) for vertex in range(head.vertices)]
    if found["Z"]:
        points = [(float(k % across), float(k // across), z) for k, (z, _, _) in enumerate(points)]
    corners: List[int] = []
    for row in range(down if found["v"] else down - 1):
        for column in range(across if found["u"] else across - 1):
            right, below = (column + 1) % across, (row + 1) % down
            corners += [row * across + column, row * across + right, below * across + right, below * across + column]
    return Soup(points, corners, range(0, len(corners) + 1, 4))
