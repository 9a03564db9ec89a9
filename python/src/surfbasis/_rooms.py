"""How long surf's answers can be, so that no call is made twice for want of room."""

from __future__ import annotations

from typing import NamedTuple

LINE = 256  # the longest answer of a few words
NUMBER = 21  # the digits of a distance or a length, and a blank
MOST_LOOPS = 1024
MOST_NODES = 65_536


class Rooms(NamedTuple):
    """Bounds, in bytes, by the counts of a mesh that is a surface. Of what is none surf writes a line only.

    A room costs nothing but addresses where it isn't written to."""

    vertices: int
    faces: int
    corners: int

    @property
    def edges(self) -> int:
        return self.corners // 2

    @property
    def loops(self) -> int:
        return max(0, min(2 - self.vertices + self.edges - self.faces, MOST_LOOPS))

    @property
    def copies(self) -> int:
        """A disc has one more vertex than edges without its faces, and the full cut makes two of as many edges as
        there are beyond those between faces."""
        return max(self.vertices, 2 + 2 * self.edges - 2 * self.faces)

    @staticmethod
    def number(below: int) -> int:
        """The digits of a number below so many, and a blank."""
        return len(str(below)) + 1

    def line(self) -> int:
        return LINE

    def walk(self) -> int:
        """A closed walk of two shortest walks and an edge, with its length."""
        return LINE + 2 * (self.vertices + 1) * self.number(self.vertices)

    def walks(self) -> int:
        return LINE + self.loops * self.walk()

    def lift(self) -> int:
        """A walk that meets each pair of a vertex and a set of loops once."""
        return LINE + (MOST_NODES + 1) * self.number(self.vertices)

    def distances(self) -> int:
        return LINE + self.vertices * (NUMBER + 2 * self.number(self.vertices))

    def lengths(self) -> int:
        return LINE + self.edges * (NUMBER + 2 * self.number(self.vertices))

    def cut(self) -> int:
        """Of a mesh whose vertex lines are `0 0 0`."""
        number = self.number(self.copies)
        lines = self.copies * (len("0 0 0\n") + len("# copy from ") + 2 * number)
        return LINE + lines + (self.faces + self.corners) * number

    def evidence(self) -> int:
        return LINE + max(2 * self.edges * self.number(self.vertices), self.faces * self.number(self.faces))

    def certificate(self) -> int:
        """Of loops: a tree of vertices, a tree of faces, and pairs."""
        number = self.number(self.vertices)
        tree = LINE + self.vertices * (NUMBER + number)
        dual = self.faces * (self.number(self.faces) + 2 * number)
        return tree + LINE + dual + self.loops * 2 * number

    def basis_certificate(self) -> int:
        """A tree for each vertex, and the cycles."""
        return self.certificate() * max(1, self.vertices) + self.walks()

    def sewn(self) -> int:
        """Of a mesh whose vertex lines have three numbers of 64 bits."""
        return LINE + self.vertices * 3 * NUMBER + (self.faces + self.corners) * self.number(self.vertices)
