"""OBJ: vertices and polygons, with numbers from 1, or back from the last vertex where they are negative."""

from __future__ import annotations

import re
from typing import Any, List

from .soup import MeshFileError, Soup, np, starts_of
from .text import number, rows_of, shown, table, whole


def read_obj(data: bytes) -> Soup:
    if b"\\" in data:  # a line goes on behind it
        data = re.sub(rb"\\[ \t]*\r?\n", b" ", data)
    quick = read_regular(data) if np is not None else None
    return quick or read_by_lines(data)


def read_by_lines(data: bytes) -> Soup:
    points: List[Any] = []
    corners: List[int] = []
    sizes: List[int] = []
    for line, words in rows_of(data):
        if words[0] == b"v":
            if len(words) < 4:
                raise MeshFileError(f"line {line}: a vertex has three coordinates, and there are {len(words) - 1}")
            points.append(tuple(number(word, line) for word in words[1:4]))
        elif words[0] in (b"f", b"fo"):
            found = [corner_of(word, line, len(points)) for word in words[1:]]
            corners += found
            sizes.append(len(found))
    return Soup(points, corners, starts_of(sizes))


def corner_of(word: bytes, line: int, count: int) -> int:
    """The vertex that a corner names, where so many vertices stand before the line."""
    value = whole(word.split(b"/", 1)[0], line)
    if value == 0 or value < -count:
        raise MeshFileError(f"line {line}: {shown(word)} names no vertex")
    return value - 1 if value > 0 else count + value


def read_regular(data: bytes) -> "Soup | None":
    """The mesh of a text whose vertices have one number of words each, with numbers of corners from 1 on. None where
    anything is otherwise: then the lines tell what is wrong, if something is."""
    if b"#" in data:
        data = re.sub(rb"#[^\n]*", b"", data)
    lines = [line.strip() for line in data.splitlines()]
    vertices = [line[1:] for line in lines if line[:2] in (b"v ", b"v\t")]
    faces = [line[1:] for line in lines if line[:2] in (b"f ", b"f\t")]
    if not vertices or not faces or any(line[:2] == b"fo" or line in (b"v", b"f") for line in lines):
        return None
    values = table(b"\n".join(vertices))
    width = len(vertices[0].split())
    if width < 3 or values is None or len(values) != width * len(vertices):
        return None
    if any(len(line.split()) != width for line in vertices):
        return None
    found = regular_faces(faces)
    return found and Soup(values.reshape(-1, width)[:, :3], *found)


def regular_faces(lines: List[bytes]) -> Any:
    text = b"\n".join(lines)
    if b"/" in text:
        text = re.sub(rb"(?<=\d)/[/\d-]*", b"", text)
    values = table(text, np.int64)
    if values is None or len(values) == 0 or values.min() < 1:
        return None
    sizes = np.array([len(line.split()) for line in lines])
    return (values - 1, np.concatenate([[0], np.cumsum(sizes)])) if sizes.sum() == len(values) else None
