"""What the tests share: meshes as arrays, the program's own texts, and exact sums along walks.

SURF_PROGRAM is the program, whose texts are what is due. Which caller the package uses is for the environment to say.
"""

import atexit
import os
import pathlib
import subprocess
import tempfile
from types import SimpleNamespace

import numpy as np

TOP = pathlib.Path(__file__).resolve().parents[2]
MESHES = TOP / "meshes"
PROGRAM = os.environ.get("SURF_PROGRAM", "")
ROOM = tempfile.TemporaryDirectory()
atexit.register(ROOM.cleanup)
CUBE = [[0, 1, 3, 2], [4, 6, 7, 5], [0, 4, 5, 1], [2, 3, 7, 6], [0, 2, 6, 4], [1, 5, 7, 3]]
CORNERS = np.array([[x, y, z] for x in (0, 1) for y in (0, 1) for z in (0, 1)], float)
MEASURED = ("eight", "ring", "tet", "three")
CLOSED = (*MEASURED, "torus33", "torus7", "plane6", "pillow")


def read(name):
    """The vertices and the faces of a mesh of triangles of the repository."""
    return arrays_of((MESHES / f"{name}.off").read_text())


def chain(tori, rows, columns):
    """The vertices and the faces of a chain of tori, as `gen` makes it."""
    words = [PROGRAM, "gen", "chain", str(tori), str(rows), str(columns)]
    return arrays_of(subprocess.run(words, capture_output=True, text=True, check=True).stdout)


def arrays_of(text):
    """The vertices and the faces of a plain OFF text of triangles."""
    rows = [line.split() for line in text.splitlines()]
    vertices, faces = int(rows[1][0]), int(rows[1][1])
    body = rows[2 : 2 + vertices + faces]
    return np.array([row[:3] for row in body[:vertices]], float), np.array([row[1:4] for row in body[vertices:]], int)


def torus(rows, columns):
    """The vertices and the faces of a torus in space."""
    i, j = np.meshgrid(np.arange(rows), np.arange(columns), indexing="ij")
    u, v = 2 * np.pi * i / rows, 2 * np.pi * j / columns
    across = 2 + 0.7 * np.cos(v)
    points = np.stack([across * np.cos(u), across * np.sin(u), 0.7 * np.sin(v)], axis=2).reshape(-1, 3)

    def number(i, j):
        return (i % rows) * columns + j % columns

    first = np.stack([number(i, j), number(i + 1, j), number(i + 1, j + 1)], axis=2)
    second = np.stack([number(i, j), number(i + 1, j + 1), number(i, j + 1)], axis=2)
    return points, np.concatenate([first.reshape(-1, 3), second.reshape(-1, 3)])


def off_text(vertices, faces):
    """An OFF text as a user would write it, by Python's own decimals."""
    rows = ["OFF", f"{len(vertices)} {len(faces)} 0"]
    rows += [" ".join(map(repr, row)) for row in np.asarray(vertices, float).tolist()]
    rows += [" ".join(map(str, [len(face), *map(int, face)])) for face in faces]
    return "\n".join(rows) + "\n"


class Asked:
    """The program on files of a mesh: what it prints, as rows of words."""

    def __init__(self, mesh, decimals=None):
        self.folder = tempfile.mkdtemp(dir=ROOM.name)
        self.file("mesh.off", mesh)
        self.lengths = "unit"
        if decimals is not None:
            self.file("lengths", self.text("lengths", "mesh.off", str(decimals)))
            self.lengths = "lengths"

    def file(self, name, text):
        pathlib.Path(self.folder, name).write_text(text)

    def ran(self, *words):
        return subprocess.run([PROGRAM, *words], cwd=self.folder, capture_output=True, text=True)

    def text(self, *words):
        done = self.ran(*words)
        if done.returncode > 1:
            raise AssertionError(f"{words}: status {done.returncode}, {done.stderr}")
        return done.stdout

    def rows(self, command, *more, measured=True):
        lengths = [self.lengths] if measured else []
        return [line.split() for line in self.text(command, "mesh.off", *lengths, *more).splitlines()]


def walks_in(rows):
    """The lengths and the vertices of walks in lines `loop n v0 v1 .. v0`, the last vertex left out."""
    found = [(int(row[1]), list(map(int, row[2:]))) for row in rows]
    return [(units, walk[:-1] if len(walk) > 1 else walk) for units, walk in found]


def walks_of(walks):
    return [(walk.units, walk.vertices.tolist()) for walk in walks]


def units_along(surface, walk):
    """The length of a walk, edge by edge."""
    lengths = {tuple(edge): units for edge, units in zip(surface.edges.tolist(), surface.units.tolist())}
    closed = walk.closed.tolist()
    return sum(lengths[min(step), max(step)] for step in zip(closed, closed[1:]))


def characteristic(count, faces):
    """V - E + F."""
    sides = {tuple(sorted(side)) for face in map(list, faces) for side in zip(face, face[1:] + face[:1])}
    return count - len(sides) + len(faces)


def trimesh_like(vertices, faces):
    return SimpleNamespace(vertices=vertices, faces=faces)


def meshio_like(points, **blocks):
    cells = [SimpleNamespace(type=kind, data=data) for kind, data in blocks.items()]
    return SimpleNamespace(points=points, cells=cells)
