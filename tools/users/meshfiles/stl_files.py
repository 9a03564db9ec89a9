"""STL, text and binary: triangles that share no vertices."""

from __future__ import annotations

import struct
from typing import Any, List
from .soup import MeshFileError, Soup, np
from .text import number, shown

HEAD, FACET = 84, 50
FACET_WORDS = b"facet normal - - - outer loop vertex - - - vertex - - - vertex - - - endloop endfacet".split()
FACET_WORDS = [b"" if word == b"-" else word for word in FACET_WORDS]
BEHIND_NORMAL = FACET_WORDS.index(b"outer")


def is_text(data: bytes) -> bool:
    front = data[:4096].lower()
    return front.lstrip().startswith(b"solid") and (b"facet" in front or b"endsolid" in front)


def read_stl(data: bytes) -> Soup:
    if is_text(data) and not is_binary(data):
        return read_regular(data) or read_text(data)
    return read_binary(data)


def is_binary(data: bytes) -> bool:
    """Whether the file is just as long as the count of a binary one says: some of them begin with `solid`, too."""
    return len(data) >= HEAD and len(data) == HEAD + FACET * struct.unpack_from("<I", data, 80)[0]


def read_binary(data: bytes) -> Soup:
    if len(data) < HEAD:
        raise MeshFileError(f"neither a text with facets nor a binary STL, of which {HEAD} bytes are the head")
    (count,) = struct.unpack_from("<I", data, 80)
    if HEAD + FACET * count > len(data):
        held = (len(data) - HEAD) // FACET
        raise MeshFileError(f"byte 80: {count} triangles are claimed, and the file holds {held}")
    if np is not None:
        rows = np.frombuffer(data, np.dtype([("normal", "<3f4"), ("points", "<9f4"), ("rest", "<u2")]), count, HEAD)
        points = rows["points"].astype(float).reshape(-1, 3)
    else:
        points = []
        for values in struct.iter_unpack("<12x9f2x", data[HEAD : HEAD + FACET * count]):
            points += [values[0:3], values[3:6], values[6:9]]
    return Soup(points, range(3 * count), range(0, 3 * count + 1, 3))


def read_text(data: bytes) -> Soup:
    """The polygons between `loop` and `endloop`, of triangles as a rule, in any number of solids."""
    points: List[Any] = []
    starts = [0]
    is_open = False
    for line, words in enumerate((row.split() for row in data.splitlines()), 1):
        word = words[0].lower() if words else b""
        if word == b"vertex":
            if len(words) < 4:
                raise MeshFileError(f"line {line}: a vertex has three coordinates, and there are {len(words) - 1}")
            points.append(tuple(number(value, line) for value in words[1:4]))
        elif word == b"outer":
            is_open = True
        elif word == b"endloop":
            starts.append(len(points))
            is_open = False
        elif word not in (b"", b"facet", b"endfacet", b"solid", b"endsolid", b"end", b"color"):
            raise MeshFileError(f"line {line}: {shown(words[0])} is no word of an STL")
    if is_open or starts[-1] != len(points):
        raise MeshFileError("the text ends within a facet")
    return Soup(points, range(len(points)), starts)


def read_regular(data: bytes) -> "Soup | None":
    """The triangles of a text of one solid, by the places of its words. None where anything is otherwise: then the
    lines tell what is wrong, if something is."""
    data = data.lower()
    start, end = data.find(b"\n"), data.rfind(b"endsolid")
    words = data[start:end].split() if 0 <= start < end else []
    if not words or len(words) % len(FACET_WORDS) or data.find(b"_", start, end) >= 0:
        return None
    columns = []
    for place, word in enumerate(FACET_WORDS):
        column = words[place :: len(FACET_WORDS)]
        if word and column.count(word) < len(column):
            return None
        if not word and place > BEHIND_NORMAL:
            try:
                columns.append(list(map(float, column)))
            except ValueError:
                return None
    count = 3 * len(columns[0])
    if np is not None:
        return Soup(np.array(columns).T.reshape(-1, 3), range(count), range(0, count + 1, 3))
    points = [point for row in zip(*columns) for point in (row[0:3], row[3:6], row[6:9])]
    return Soup(points, range(count), range(0, count + 1, 3))
