"""PLY: text, and binary of both orders of bytes, with lists of any type and other elements between."""

from __future__ import annotations

import itertools
import struct
from typing import Any, Dict, Iterator, List, NamedTuple, Tuple

from .soup import MeshFileError, Soup, np, starts_of
from .text import shown, table, whole

KINDS = {"char": "b", "int8": "b", "uchar": "B", "uint8": "B", "short": "h", "int16": "h", "ushort": "H"}
KINDS |= {"uint16": "H", "int": "i", "int32": "i", "uint": "I", "uint32": "I", "float": "f", "float32": "f"}
KINDS |= {"double": "d", "float64": "d", "int64": "q", "uint64": "Q"}
FORMATS = {"ascii": "", "binary_little_endian": "<", "binary_big_endian": ">"}
GREATEST = 2**53  # up to it a float is exact
CORNERS = ("vertex_indices", "vertex_index")


class Property(NamedTuple):
    """A value of a kind, or where `count_kind` names one, a list of them behind their number."""

    name: str
    kind: str
    count_kind: str = ""


class Element(NamedTuple):
    name: str
    total: int
    properties: List[Property]

    def has_lists(self) -> bool:
        return any(one.count_kind for one in self.properties)

    def place_of(self, *names: str) -> int:
        """The place of the first property of such a name, -1 where there is none."""
        return next((k for k, one in enumerate(self.properties) if one.name in names), -1)


class Body:
    """What is behind the head: the values of all elements, one after the other, from the place `at` on."""

    def __init__(self, data: bytes, order: str) -> None:
        self.order, self.at = order, 0
        self.words: List[bytes] = [] if order else data.split()
        self.data = data

    def values(self, kinds: str, what: str) -> Tuple[Any, ...]:
        """The next values, of these kinds. `what` tells where they are missing or wrong."""
        if self.order:
            form = self.order + kinds
            size = struct.calcsize(form)
            if self.at + size > len(self.data):
                raise MeshFileError(f"{what}: the file ends there")
            self.at += size
            return struct.unpack_from(form, self.data, self.at - size)
        words = self.words[self.at : self.at + len(kinds)]
        if len(words) < len(kinds):
            raise MeshFileError(f"{what}: the file ends there")
        self.at += len(kinds)
        return tuple(number_of(word, what) for word in words)

    def size_of(self, what: str, value: Any) -> int:
        """The number of a list's items, if the file can hold so many."""
        left = len(self.data) - self.at if self.order else len(self.words) - self.at
        if not 0 <= value <= left or value != int(value):
            raise MeshFileError(f"{what}: a list can't have {value:.9g} items there")
        return int(value)

    def row(self, element: Element, what: str) -> List[Any]:
        """The values of one element, with a tuple for each list."""
        found: List[Any] = []
        for one in element.properties:
            if one.count_kind:
                size = self.size_of(what, self.values(one.count_kind, what)[0])
                found.append(self.values(one.kind * size, what))
            else:
                found.append(self.values(one.kind, what)[0])
        return found

    def rows(self, element: Element) -> Iterator[List[Any]]:
        for k in range(element.total):
            yield self.row(element, f"{element.name} {k} of {element.total}")


def number_of(word: bytes, what: str) -> float:
    try:
        if b"_" not in word:
            return float(word)
    except ValueError:
        pass
    raise MeshFileError(f"{what}: {shown(word)} is no number")


def read_ply(data: bytes) -> Soup:
    order, elements, at = head_of(data)
    check_claims(elements, order, len(data) - at)
    tables: Dict[str, Any] = {}
    body = QuickBody(data[at:], order) if np is not None else Body(data[at:], order)
    for element in elements:
        if element.properties:
            tables[element.name] = table_of(body, element)
    if "vertex" not in tables:
        raise MeshFileError("the head names no element `vertex` with properties")
    corners, starts = tables.get("face") or tables.get("tristrips") or ([], [0])
    return Soup(tables["vertex"], corners, starts)


def head_of(data: bytes) -> Tuple[str, List[Element], int]:
    """The order of bytes, the elements, and where the body begins."""
    elements: List[Element] = []
    order, at, line = None, 0, 0
    while at < len(data):
        end = data.find(b"\n", at)
        row, at, line = data[at : end if end >= 0 else len(data)], (end + 1 if end >= 0 else len(data)), line + 1
        words = [word.decode("ascii", "replace") for word in row.split()]
        if words[:1] == ["end_header"]:
            if order is None:
                raise MeshFileError(f"line {line}: the head ends without a format")
            return order, elements, at
        if words[:1] == ["format"] and len(words) > 1:
            order = FORMATS.get(words[1])
            if order is None:
                raise MeshFileError(f"line {line}: `{words[1][:20]}` is no format of PLY")
        elif words[:1] == ["element"]:
            elements.append(element_of(row.split(), line))
        elif words[:1] == ["property"]:
            if not elements:
                raise MeshFileError(f"line {line}: a property stands before the first element")
            elements[-1].properties.append(property_of(words, line))
    raise MeshFileError("the head has no line `end_header`")


def element_of(words: List[bytes], line: int) -> Element:
    if len(words) < 3 or (count := whole(words[2], line)) < 0:
        raise MeshFileError(f"line {line}: an element has a name and a count")
    return Element(words[1].decode("ascii", "replace"), count, [])


def property_of(words: List[str], line: int) -> Property:
    kinds = words[2:4] if words[1:2] == ["list"] else words[1:2]
    if len(words) < len(kinds) + 2 + (len(kinds) == 2) or not kinds or any(kind not in KINDS for kind in kinds):
        raise MeshFileError(f"line {line}: no property of PLY: `{' '.join(words)[:40]}`")
    return Property(words[-1], KINDS[kinds[-1]], KINDS[kinds[0]] if len(kinds) == 2 else "")


def check_claims(elements: List[Element], order: str, size: int) -> None:
    least = 0
    for element in elements:
        for one in element.properties:
            least += element.total * (struct.calcsize(order + (one.count_kind or one.kind)) if order else 2)
        if least > size + 1:
            claim = f"{element.total} times `{element.name[:20]}`"
            raise MeshFileError(f"{claim} is claimed, and the file has {size} bytes behind its head")


def table_of(body: Body, element: Element) -> Any:
    """Points for vertices, corners with starts for faces and strips, and nothing for what else a file may have."""
    if element.name == "vertex":
        places = [element.place_of(axis) for axis in "xyz"]
        if -1 in places:
            raise MeshFileError("the head names no x, y and z of a vertex")
        return vertices_of(body, element, places)
    place = element.place_of(*CORNERS)
    if element.name == "face" and place >= 0:
        return faces_of(body, element, place)
    if element.name == "tristrips" and place >= 0:
        faces = [face for row in body.rows(element) for face in strip_of(row[place])]
        return list(itertools.chain.from_iterable(faces)), starts_of(map(len, faces))
    for _ in body.rows(element):
        pass
    return None


def vertices_of(body: Body, element: Element, places: List[Any]) -> Any:
    quick = body.quick_rows(element) if isinstance(body, QuickBody) else None
    if quick is not None:
        return quick[:, places]
    return [tuple(float(row[k]) for k in places) for row in body.rows(element)]


def faces_of(body: Body, element: Element, place: int) -> Tuple[Any, Any]:
    quick = body.quick_lists(element) if isinstance(body, QuickBody) else None
    if quick is not None:
        return quick.reshape(-1), np.arange(0, quick.size + 1, quick.shape[1])
    corners: List[int] = []
    sizes: List[int] = []
    for k, row in enumerate(body.rows(element)):
        face = row[place]
        if not all(abs(c) < GREATEST and c == int(c) for c in face):
            raise MeshFileError(f"face {k} of {element.total}: a corner is no number of a vertex")
        corners += map(int, face)
        sizes.append(len(face))
    return corners, starts_of(sizes)


def strip_of(corners: Tuple[int, ...]) -> List[List[int]]:
    """The triangles of strips, one after the other with -1 between. Every other triangle is turned round."""
    faces: List[List[int]] = []
    run: List[int] = []
    for corner in corners:
        run = [] if corner == -1 else [*run, int(corner)]
        if len(run) >= 3:
            a, b, c = run[-3:]
            faces.append([a, b, c] if len(run) % 2 else [b, a, c])
            run = run[-3:] if len(run) % 2 else run[-4:]
    return faces


class QuickBody(Body):
    """A body whose regular elements are read as whole tables, by numpy. A text of numbers alone is read at once."""

    def __init__(self, data: bytes, order: str) -> None:
        self.numbers = None if order else table(data)
        super().__init__(data if order or self.numbers is None else b"", order)
        if self.numbers is not None:
            self.words = self.numbers.tolist()

    def values(self, kinds: str, what: str) -> Tuple[Any, ...]:
        if self.numbers is None:
            return super().values(kinds, what)
        words = self.words[self.at : self.at + len(kinds)]
        if len(words) < len(kinds):
            raise MeshFileError(f"{what}: the file ends there")
        self.at += len(kinds)
        return tuple(words)

    def quick_rows(self, element: Element) -> Any:
        """A column for each property, or None where there are lists or too few bytes."""
        return None if element.has_lists() else self._columns(element, [1] * len(element.properties))

    def quick_lists(self, element: Element) -> Any:
        """The corners of faces that have all as many, or None."""
        if not element.total:
            return None
        at, first = self.at, self.row(element, f"{element.name} 0 of {element.total}")
        self.at = at
        sizes = [len(value) if one.count_kind else 1 for one, value in zip(element.properties, first)]
        place = element.place_of(*CORNERS)
        found = self._columns(element, sizes)
        if found is None or not sizes[place]:
            return None
        start = sum(size + bool(one.count_kind) for one, size in zip(element.properties[:place], sizes)) + 1
        corners = found[:, start : start + sizes[place]]
        if not ((corners == np.floor(corners)) & (np.abs(corners) < GREATEST)).all():
            self.at = at
            return None
        return corners.astype(np.int64)

    def _columns(self, element: Element, sizes: List[int]) -> Any:
        """All values of an element as a table of floats, where each list has as many items as in the first row."""
        widths = [size + bool(one.count_kind) for one, size in zip(element.properties, sizes)]
        if self.order:
            rows = self._records(element, sizes)
        else:
            rows = None if self.numbers is None else self.numbers[self.at : self.at + element.total * sum(widths)]
            if rows is not None:
                rows = rows.reshape(-1, sum(widths)) if len(rows) == element.total * sum(widths) else None
        if rows is None:
            return None
        at = 0
        for one, size, width in zip(element.properties, sizes, widths):
            if one.count_kind and (rows[:, at] != size).any():
                return None
            at += width
        self.at += element.total * (self._record(element, sizes).itemsize if self.order else sum(widths))
        return rows

    def _record(self, element: Element, sizes: List[int]) -> Any:
        fields: List[Any] = []
        for k, (one, size) in enumerate(zip(element.properties, sizes)):
            if one.count_kind:
                fields.append((f"count{k}", self.order + one.count_kind))
            fields.append((f"value{k}", self.order + one.kind, (size,)))
        return np.dtype(fields)

    def _records(self, element: Element, sizes: List[int]) -> Any:
        record = self._record(element, sizes)
        if self.at + element.total * record.itemsize > len(self.data):
            return None
        rows = np.frombuffer(self.data, record, element.total, self.at)
        return np.hstack([rows[name].reshape(element.total, -1).astype(float) for name in record.names])
