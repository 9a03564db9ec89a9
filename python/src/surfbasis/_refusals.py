"""What surf refuses, as exceptions: its line, the numbers in it by name, what it means and what to do."""

from __future__ import annotations

from typing import Dict, List, Optional, Tuple, Type

from ._advice import Advice, advice_in

FIRST_LINES = 2  # lines before the first vertex, in the texts of meshes that this package writes


class Refused(ValueError):
    """surf refused. Its text is the line, what the line means, and what to do.

    status:  surf's status, from 1 to 15 (docs/formats.md)
    line:    the line that surf wrote
    kind:    the word for the fault, such as `border`
    numbers: the whole numbers in the line, in order
    meaning: what is wrong
    advice:  what to do

    By name, and None or empty where this fault has none: `edge` (two vertices, the lesser first), `vertex`, `faces`,
    `face` (the first of them), `place` (from 0, in a face, a walk or a list) and `limit`. All count from 0.

    >>> try:
    ...     surfbasis.Surface(4, [[0, 1, 2], [0, 3, 1], [0, 2, 3]]).info()
    ... except surfbasis.Refused as refused:
    ...     refused.status, refused.line, refused.kind, refused.edge, refused.face
    (4, 'surface: border 1 2 0', 'border', (1, 2), 0)
    """

    edge: Optional[Tuple[int, int]] = None
    vertex: Optional[int] = None
    faces: Tuple[int, ...] = ()
    place: Optional[int] = None
    limit: Optional[str] = None

    def __init__(self, status: int, line: str, vertices: int = 0):
        super().__init__(status, line, vertices)
        self.status, self.line = status, line
        words = (line.partition(": ")[2] or line).split()
        self.kind = words[0] if words else ""
        self.numbers = [int(word) for word in words[1:] if word.isdigit()]
        self._name(self.numbers, vertices)

    def _name(self, numbers: List[int], vertices: int) -> None:
        """Gives the numbers of the line their names; there are so many vertices."""

    @property
    def face(self) -> Optional[int]:
        return self.faces[0] if self.faces else None

    @property
    def meaning(self) -> str:
        return self._told().meaning

    @property
    def advice(self) -> str:
        return self._told().advice

    def _told(self) -> Advice:
        return advice_in(self.status, self.line)

    def __str__(self) -> str:
        parts = [self.line]
        if self.meaning:
            parts.append(f"  {self.meaning}")
        if self.advice:
            parts.append(f"  what to do: {self.advice}")
        return "\n".join(parts)


class WordsRefused(Refused, NotImplementedError):
    """Status 2: this build of surf has no such command."""


class MeshRefused(Refused):
    """Status 3: a face that is none. `face` tells which, `place` the corner that is no vertex, `vertex` the one that
    the face has twice."""

    def _name(self, numbers: List[int], vertices: int) -> None:
        if self.kind.startswith("face-"):
            self.faces = (numbers[0] - 1 - FIRST_LINES - vertices,)
        if self.kind == "face-index":
            self.place = numbers[1]
        elif self.kind == "face-repeat":
            self.vertex = numbers[1]


class SurfaceRefused(Refused):
    """Status 4: the faces aren't one closed connected surface. `border` and `crowded` have an `edge` and its `faces`,
    `isolated` and `pinched` a `vertex`, `pinched` and `apart` `faces`."""

    def _name(self, numbers: List[int], vertices: int) -> None:
        if self.kind in ("border", "crowded"):
            self.edge, self.faces = (numbers[0], numbers[1]), tuple(numbers[2:])
        elif self.kind in ("isolated", "pinched"):
            self.vertex, self.faces = numbers[0], tuple(numbers[1:])
        elif self.kind == "apart":
            self.faces = (numbers[0],)

    @property
    def advice(self) -> str:
        told = super().advice
        if "`to_off`" not in told:
            return told
        return f"{told}. In Python `Surface.mended` does so, with close=, tolerance= and part= for these flags"


class LengthsRefused(Refused):
    """Status 5: a length is 0 or above 4,294,967,295. `place` is its place among the edges."""

    def _name(self, numbers: List[int], vertices: int) -> None:
        if self.kind == "range":
            self.place = numbers[0] - 1


class LimitRefused(Refused):
    """Status 6: a count is above its limit, whose name is `limit`."""

    def _name(self, numbers: List[int], vertices: int) -> None:
        self.limit = self.kind


class BaseRefused(Refused, IndexError):
    """Status 7: the base is no vertex."""


class CertificateRefused(Refused):
    """Status 8: a text is no certificate, or no evidence."""


class FileRefused(Refused, OSError):
    """Status 9 or 10: the program can't read or write a file."""


class NoMemory(Refused, MemoryError):
    """Status 11: there is no memory for the answer."""


class CoordinatesRefused(Refused):
    """Status 12: a coordinate has no fixed value, or an edge no measure. `zero` and `great` have an `edge`, `form`
    and `range` a `vertex` and the `place` of its coordinate."""

    def _name(self, numbers: List[int], vertices: int) -> None:
        if self.kind in ("zero", "great"):
            self.edge = (numbers[0], numbers[1])
        else:
            self.vertex, self.place = numbers[0], numbers[1]


class WalkRefused(Refused):
    """Status 13: a walk isn't a closed walk of the mesh. `place` tells where."""

    def _name(self, numbers: List[int], vertices: int) -> None:
        self.place = numbers[0] if numbers else None


class SewingRefused(Refused):
    """Status 14: copies can't be sewn; or status 1: they are no disc."""


class VerticesRefused(Refused):
    """Status 15: a list of vertices to cut through has one that is no vertex, at `place`, or they give no cut
    (`near`)."""

    def _name(self, numbers: List[int], vertices: int) -> None:
        self.place = numbers[0] if numbers else None


KINDS: Dict[int, Type[Refused]] = {
    1: SewingRefused,
    2: WordsRefused,
    3: MeshRefused,
    4: SurfaceRefused,
    5: LengthsRefused,
    6: LimitRefused,
    7: BaseRefused,
    8: CertificateRefused,
    9: FileRefused,
    10: FileRefused,
    11: NoMemory,
    12: CoordinatesRefused,
    13: WalkRefused,
    14: SewingRefused,
    15: VerticesRefused,
}


def refusal(status: int, line: str, vertices: int = 0) -> Refused:
    """The exception for a status and its line, of a mesh of so many vertices."""
    return KINDS.get(status, Refused)(status, line.strip(), vertices)
