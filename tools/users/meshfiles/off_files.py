"""OFF of every dialect: the keyword in any case, glued to a number or missing, several vertices or faces on a line or
one on several, colours, normals and texture places behind the coordinates, colours behind the corners, four or more
dimensions, binary."""

from __future__ import annotations

import re
import struct
from typing import Any, List, NamedTuple, Sequence, Tuple

from .soup import MeshFileError, Soup, np, starts_of
from .text import Cursor, rows_of, shown, table, whole

KEYWORD = re.compile(rb"(?P<st>ST)?(?P<c>C)?(?P<n>N)?(?P<four>4)?OFF(?P<glued>\d*)", re.I)
KEYWORD_OF_MANY = re.compile(rb"(?P<st>ST)?(?P<c>C)?(?P<n>N)?(?P<four>4)?nOFF(?P<glued>\d*)")
BINARY = re.compile(rb"\s*(?:#[^\n]*\n\s*)*(\w*OFF)\s+BINARY[^\n]*\n", re.I)


class Head(NamedTuple):
    """What an OFF says of itself. `dimensions` are the coordinates of a vertex, of which the last divides the others
    where they are `homogeneous`, and `width` is the number of its words with all that stands behind."""

    dimensions: int
    homogeneous: bool
    width: int
    vertices: int
    faces: int

    def check(self, size: int, where: str) -> "Head":
        """The head itself, if a file of this size can hold so much."""
        if self.vertices < 0 or self.faces < 0 or not 1 <= self.dimensions <= 1000:
            raise MeshFileError(f"{where}: counts that no mesh has")
        if 2 * self.dimensions * self.vertices + 2 * self.faces > size + 2:
            claim = f"{self.vertices} vertices and {self.faces} faces"
            raise MeshFileError(f"{where}: {claim} are claimed, and the file has {size} bytes")
        return self

    def place(self, values: Sequence[float]) -> Tuple[float, float, float]:
        """The place in space of a vertex with these coordinates."""
        if self.homogeneous and values[-1]:
            values = [x / values[-1] for x in values[:-1]]
        x, y, z = [*values, 0.0, 0.0][:3]
        return x, y, z


def read_off(data: bytes) -> Soup:
    data = bare(data)
    if BINARY.match(data[:4096]):
        return read_binary(data)
    quick = read_regular(data) if np is not None else None
    return quick or read_by_words(data)


def bare(data: bytes) -> bytes:
    """The mesh without the brace that Geomview may put before it, and without a block that tells how it is shown. The
    lines keep their numbers."""
    front = data[:512].lstrip()
    if front.startswith(b"{"):
        return data.replace(b"{", b" ", 1)
    if not front.startswith(b"appearance"):
        return data
    depth = 0
    for brace in re.finditer(rb"[{}]", data):
        depth += 1 if brace[0] == b"{" else -1
        if depth <= 0:
            return b"\n" * data.count(b"\n", 0, brace.start()) + data[brace.end() :]
    raise MeshFileError("a brace isn't closed")


def keyword_of(word: bytes) -> "re.Match[bytes] | None":
    return KEYWORD_OF_MANY.fullmatch(word) or KEYWORD.fullmatch(word)


def width_of(found: "re.Match[bytes]", dimensions: int) -> int:
    """The words of a vertex: its coordinates, a normal, a colour of four numbers, and a place in a texture."""
    return dimensions * (2 if found["n"] else 1) + (4 if found["c"] else 0) + (2 if found["st"] else 0)


# ---- by words


def read_by_words(data: bytes) -> Soup:
    rows = rows_of(data)
    if not rows:
        raise MeshFileError("there is no word in the file")
    cursor = Cursor(rows)
    head = head_of(cursor, len(data))
    rows = [(line, words[cursor.place :]) for line, words in rows[cursor.at : cursor.at + 1]] + rows[cursor.at + 1 :]
    rows = [row for row in rows[:1] if row[1]] + rows[1:]
    points = read_vertices(cursor := Cursor(rows), head)
    return read_faces(cursor, head, points)


def head_of(cursor: Cursor, size: int) -> Head:
    """The keyword and the counts. The number of edges is passed over; it's missing where a line ends before it."""
    word, line = cursor.word("its keyword")
    found = keyword_of(word)
    if not found and not word.isdigit():
        raise MeshFileError(f"line {line}: {shown(word)} is neither a keyword of OFF nor a count of vertices")
    if not found or found["glued"]:
        glued = found["glued"] if found else word
        cursor.rows[cursor.at][1].insert(cursor.place, glued)
    many = found is not None and found.re is KEYWORD_OF_MANY
    dimensions = cursor.whole("its dimensions") if many else 3
    dimensions += 1 if found and found["four"] else 0
    vertices, faces = cursor.whole("the count of vertices"), cursor.whole("the count of faces")
    line = cursor.rows[cursor.at][0]
    if cursor.place < len(cursor.rows[cursor.at][1]):
        cursor.word("the count of edges")
    width = width_of(found, dimensions) if found else dimensions
    return Head(dimensions, bool(found and found["four"]), width, vertices, faces).check(size, f"line {line}")


def read_vertices(cursor: Cursor, head: Head) -> List[Tuple[float, float, float]]:
    """A vertex for each line, if there are lines enough and each is long enough, and else so many words for each."""
    rows = cursor.rows
    by_lines = len(rows) >= head.vertices + head.faces
    by_lines = by_lines and all(len(words) >= head.dimensions for _, words in rows[: head.vertices])
    points = []
    for vertex in range(head.vertices):
        wanted = f"vertex {vertex} of {head.vertices} is complete"
        points.append(head.place([cursor.number(wanted) for _ in range(head.dimensions)]))
        if by_lines:
            cursor.leave_row()
        else:
            for _ in range(head.width - head.dimensions):
                cursor.word(wanted)
    return points


def read_faces(cursor: Cursor, head: Head, points: List[Any]) -> Soup:
    """The mesh. What stands behind the corners on a line is a colour where there are lines enough for the faces."""
    corners: List[int] = []
    sizes: List[int] = []
    for face in range(head.faces):
        wanted = f"face {face} of {head.faces} is complete"
        word, line = cursor.word(wanted)
        size = whole(word, line)
        if size < 0:
            raise MeshFileError(f"line {line}: {shown(word)} is no number of corners")
        for _ in range(size):
            corners.append(cursor.whole(wanted))
        sizes.append(size)
        if cursor.left >= head.faces - face - 1:
            cursor.leave_row()
    return Soup(points, corners, starts_of(sizes))


# ---- a line for each vertex and each face, by numpy


def read_regular(data: bytes) -> "Soup | None":
    """The mesh of a text with a line for each vertex, of the same number of words each, and for each face. None where
    anything is otherwise: then the words tell what is wrong, if something is."""
    if b"#" in data:
        data = re.sub(rb"#[^\n]*", b"", data)
    lines = [line for line in data.splitlines() if line and not line.isspace()]
    if len(lines) < 3:
        return None
    cursor = Cursor([(0, line.split()) for line in lines[:3]])
    try:
        head = head_of(cursor, len(data))
    except MeshFileError:
        return None
    first = cursor.at + 1
    if cursor.place < len(cursor.rows[cursor.at][1]) or head.dimensions != 3 or head.homogeneous:
        return None
    if len(lines) < first + head.vertices + head.faces or not head.vertices or not head.faces:
        return None
    points = regular_points(lines[first : first + head.vertices])
    found = regular_faces(lines[first + head.vertices : first + head.vertices + head.faces])
    return Soup(points, *found) if points is not None and found else None


def regular_points(lines: List[bytes]) -> Any:
    width = len(lines[0].split())
    values = table(b"\n".join(lines))
    if width < 3 or values is None or len(values) != width * len(lines):
        return None
    if any(len(line.split()) != width for line in lines):
        return None
    return values.reshape(-1, width)[:, :3]


def regular_faces(lines: List[bytes]) -> Any:
    """Corners and starts, where nothing stands behind corners, or equally many numbers where faces have one size."""
    values = table(b"\n".join(lines), np.int64)
    if values is None:
        return None
    words = np.array([len(line.split()) for line in lines])
    width = int(words[0])
    if (words == width).all() and len(values) == width * len(lines):
        rows = values.reshape(-1, width)
        if (rows[:, 0] == rows[0, 0]).all() and 0 < rows[0, 0] < width:
            size = int(rows[0, 0])
            return rows[:, 1 : size + 1].reshape(-1), np.arange(0, size * len(lines) + 1, size)
    places = np.concatenate([[0], np.cumsum(words)])
    sizes = words - 1
    if places[-1] != len(values) or (values[places[:-1]] != sizes).any():
        return None
    is_corner = np.ones(len(values), bool)
    is_corner[places[:-1]] = False
    return values[is_corner], np.concatenate([[0], np.cumsum(sizes)])


# ---- binary, as Geomview writes it: whole numbers and floats of 32 bits, the greatest byte first


def read_binary(data: bytes) -> Soup:
    start = BINARY.match(data[:4096])
    found = keyword_of(start[1]) if start else None
    if not start or not found:
        raise MeshFileError("line 1: no keyword of OFF stands before BINARY")
    try:
        return binary_body(data, start.end(), found)
    except struct.error:
        raise MeshFileError(f"byte {len(data)}: the file ends before the last vertex or face") from None


def binary_body(data: bytes, at: int, found: "re.Match[bytes]") -> Soup:
    dimensions = 3 + bool(found["four"])
    if found.re is KEYWORD_OF_MANY:
        dimensions, at = struct.unpack_from(">i", data, at)[0] + bool(found["four"]), at + 4
    vertices, faces, _ = struct.unpack_from(">3i", data, at)
    head = Head(dimensions, bool(found["four"]), width_of(found, dimensions), vertices, faces)
    head.check(len(data), f"byte {at}")
    at += 12
    points = []
    for _ in range(vertices):
        points.append(head.place(struct.unpack_from(f">{dimensions}f", data, at)))
        at += 4 * head.width
    corners: List[int] = []
    sizes: List[int] = []
    for face in range(faces):
        (size,) = struct.unpack_from(">i", data, at)
        if not 0 <= 4 * size <= len(data) - at:
            raise MeshFileError(f"byte {at}: face {face} can't have {size} corners")
        *some, colours = struct.unpack_from(f">{size + 1}i", data, at + 4)
        if not 0 <= 4 * colours <= len(data) - at:
            raise MeshFileError(f"byte {at}: face {face} can't have {colours} numbers of a colour")
        corners += some
        sizes.append(size)
        at += 4 * (size + 2 + colours)
    return Soup(points, corners, starts_of(sizes))
