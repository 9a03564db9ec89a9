"""Meshes as `surf` reads them: one vertex or one face a line."""

from __future__ import annotations

Point = tuple[float, float, float]


class Mesh:
    """Points, faces as lists of vertex numbers from 0, the colours behind the faces, and of a mesh that was cut the
    vertex of which each one is a copy. `added` are the first face and the first vertex that were added to a surface
    with holes."""

    def __init__(self, points: list[Point], faces: list[list[int]], colours: list[str] | None = None,
                 origins: list[int] | None = None, added: tuple[int, int] | None = None):
        self.points = points
        self.faces = faces
        self.colours = colours or [""] * len(faces)
        self.origins = origins or []
        self.added = added or (len(faces), len(points))

    def edges(self) -> dict[tuple[int, int], list[int]]:
        """Each edge once, the lesser end first, with the faces that have it, in order."""
        found = {}
        for number, face in enumerate(self.faces):
            for u, v in zip(face, face[1:] + face[:1]):
                found.setdefault((min(u, v), max(u, v)), []).append(number)
        return dict(sorted(found.items()))


def tokens_of(text: str) -> list[list[str]]:
    """The lines with tokens, comments left out, each as a list of tokens."""
    rows = (line.split("#", 1)[0].split() for line in text.splitlines())
    return [row for row in rows if row]


def copy_lines(text: str) -> list[int]:
    """The origins that lines `# copy i from v` name, in order."""
    rows = (line.split() for line in text.splitlines())
    return [int(row[4]) for row in rows if row[:2] == ["#", "copy"] and len(row) == 5]


def added_line(text: str) -> tuple[int, int] | None:
    """The numbers that a line `# added faces f vertices v` names, or None."""
    rows = (line.split() for line in text.splitlines() if line.startswith("# added"))
    found = [(int(row[3]), int(row[5])) for row in rows if len(row) == 6 and row[2::2] == ["faces", "vertices"]]
    return found[-1] if found else None


def is_off(text: str) -> bool:
    """Whether a text begins as OFF, of any variant and case."""
    rows = tokens_of(text)
    return bool(rows) and rows[0][0].upper().endswith("OFF")


def read_off(text: str) -> Mesh:
    """The mesh of an OFF text with one vertex or one face a line."""
    rows = tokens_of(text)
    if not rows or not rows[0][0].upper().endswith("OFF"):
        raise ValueError("the first line doesn't begin with a keyword such as OFF")
    counts = rows[0][1:] or rows[1]
    body = rows[1:] if rows[0][1:] else rows[2:]
    vertices, faces = int(counts[0]), int(counts[1])
    points = [tuple(float(x) for x in row[:3]) for row in body[:vertices]]
    corners, colours = [], []
    for row in body[vertices : vertices + faces]:
        size = int(row[0])
        corners.append([int(x) for x in row[1 : size + 1]])
        colours.append(" ".join(row[size + 1 :]))
    if len(points) < vertices or len(corners) < faces:
        raise ValueError("the text ends before the last vertex or face")
    return Mesh(points, corners, colours, copy_lines(text), added_line(text))


def write_off(mesh: Mesh) -> str:
    """The OFF text of a mesh, with nine decimals where a coordinate isn't whole."""

    def number(x: float) -> str:
        return str(int(x)) if x == int(x) and abs(x) < 1e9 else f"{x:.9f}"

    rows = ["OFF", f"{len(mesh.points)} {len(mesh.faces)} {len(mesh.edges())}"]
    rows += [" ".join(number(x) for x in point) for point in mesh.points]
    rows += [" ".join(str(n) for n in [len(face), *face]) for face in mesh.faces]
    return "\n".join(rows) + "\n"
