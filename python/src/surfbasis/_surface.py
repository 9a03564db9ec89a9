"""Surfaces, and what surf answers of them."""

from __future__ import annotations

import math
import operator
from typing import Any, Iterator, List, Optional, Sequence, Tuple, Union

import numpy as np
import numpy.typing as npt

from . import _handles, _mending
from ._advice import advice_in
from ._answers import Cut, Distances, Evidence, Info, Polygons, Verdict, Walk, Walks, answer_on
from ._callers import Path, caller
from ._faces import Faces, arrays_of, frozen, points_of
from ._refusals import BaseRefused, LengthsRefused, refusal
from ._rooms import Rooms
from ._showing import Look, Shown
from ._texts import NO_VERTEX, Floats, Ints, numbers_of, place_lines, token_lines

MOST_DECIMALS = 9
GREATEST_LENGTH = 4_294_967_295


class Surface:
    """A closed connected surface mesh with an exact whole length for each edge.

    vertices: shape (n, 3), numbers, the places of the vertices in any unit; or the number n, where there are no
              places
    faces:    shape (m, k), whole numbers below n; or m sequences of them, polygons of any sizes. They may run in any
              direction, and the surface may be one-sided
    lengths:  None to measure the edges, in units of 10**-decimals; "unit" for the length 1 of each; or shape (e,),
              whole numbers from 1 to 4,294,967,295, one for each of `edges`. Without places None is as "unit"
    decimals: from 0 to 9: a unit is 10**-decimals of the mesh's own unit. None takes as many as the longest edge
              allows where edges are measured, and 0 where lengths are given; of "unit" it is 0

    In place of vertices and faces also a mesh of trimesh or of meshio. Arrays may be of any numbers that numpy has;
    they are copied. Only shapes and types are checked here (ValueError, TypeError); each question first asks whether
    the faces are a surface, and raises `SurfaceRefused`, `MeshRefused` or another `Refused` where they aren't.

    >>> tetrahedron = Surface(4, [[0, 1, 2], [0, 3, 1], [0, 2, 3], [1, 3, 2]])
    >>> tetrahedron.info().genus
    0
    """

    def __init__(
        self,
        vertices: Any,
        faces: Any = None,
        *,
        lengths: Any = None,
        decimals: Optional[int] = None,
    ):
        if faces is None:
            vertices, faces = arrays_of(vertices)
        self._count, self._points = points_of(vertices)
        self._faces = Faces.of(faces)
        self._listed: Optional[bytes] = None
        self._edges: Optional[Ints] = None
        self._origins: Optional[_mending.Origins] = None
        self._hub: Optional[_mending.Hub] = None
        self._removed: Optional[Walks] = None
        self._set_lengths(lengths, decimals)

    def _set_lengths(self, lengths: Any, decimals: Optional[int]) -> None:
        if decimals is not None and not 0 <= operator.index(decimals) <= MOST_DECIMALS:
            raise ValueError(f"decimals are from 0 to {MOST_DECIMALS}, and not {decimals}")
        self._given, self._wished = lengths, decimals
        if lengths is None and self._points is None:
            self._given = "unit"
        elif isinstance(lengths, str) and lengths != "unit":
            raise ValueError(f'lengths are "unit", an array or None, and not {lengths!r}')
        elif lengths is not None and not isinstance(lengths, str):
            self._given = np.array(lengths)
            if self._given.dtype.kind not in "iu" and self._given.size:
                raise TypeError(f"lengths are of the type {self._given.dtype}, and not of whole numbers")
        self._measured: Optional[Tuple[bytes, int]] = None
        self._units: Optional[Ints] = None

    # ---- how a surface is made otherwise

    @classmethod
    def from_file(
        cls,
        path: Path,
        *,
        close: Union[bool, str] = False,
        tolerance: float = 0.0,
        part: int = 0,
        lengths: Any = None,
        decimals: Optional[int] = None,
    ) -> Surface:
        """The surface of an OFF, OBJ, PLY or STL file, also with .gz behind, mended where it has to be.

        tolerance: points of open edges that are nearer than this become one
        close:     True closes each hole by one face; "hub" joins all holes by a sphere, whose own edges are so long
                   that `loops` and `basis` are those of the surface with its holes, and loops round holes count;
                   False leaves holes open
        part:      which of the parts that don't hang together, from 0, the one with the most faces first

        `vertex_origins` and `face_origins` have the file's own numbers, `notes` what was done. Raises MeshFileError
        where the file can't be read, and OSError where it isn't there.

        >>> Surface.from_file("meshes/ring.off").info().genus
        1
        """
        mended = _mending.mended_file(path, _mending.How(close, tolerance, part))
        return cls._of_mended(mended, lengths, decimals)

    @classmethod
    def mended(
        cls,
        vertices: Any,
        faces: Any = None,
        *,
        close: Union[bool, str] = False,
        tolerance: float = 0.0,
        part: int = 0,
        lengths: Any = None,
        decimals: Optional[int] = None,
    ) -> Surface:
        """The surface of arrays that aren't one: points merged, faces sorted out, holes closed, as `from_file` does.

        `vertex_origins` and `face_origins` have the numbers in these arrays. Raises MeshFileError where there is no
        face or no such part.

        >>> sheet = Surface.mended([[0, 0, 0], [1, 0, 0], [1, 1, 0], [0, 1, 0]], [[0, 1, 2], [0, 2, 3]], close=True)
        >>> sheet.info().genus, sheet.face_origins.tolist()
        (0, [0, 1, -1])
        """
        if faces is None:
            vertices, faces = arrays_of(vertices)
        mended = _mending.mended_arrays(vertices, faces, _mending.How(close, tolerance, part))
        return cls._of_mended(mended, lengths, decimals)

    @classmethod
    def mended_parts(
        cls,
        vertices: Any,
        faces: Any = None,
        *,
        close: Union[bool, str] = False,
        tolerance: Optional[float] = 0.0,
        lengths: Any = None,
        decimals: Optional[int] = None,
    ) -> Iterator[Surface]:
        """All parts of what `mended` takes, each a surface, those with the most faces first. With None for the
        tolerance not even points of open edges that are equal become one.

        >>> face = [[0, 1, 2], [0, 3, 1], [0, 2, 3], [1, 3, 2]]
        >>> points = np.random.default_rng(0).random((8, 3))
        >>> parts = Surface.mended_parts(points, [*face, *np.add(face, 4)])
        >>> [part.vertex_origins.tolist() for part in parts]
        [[0, 1, 2, 3], [4, 5, 6, 7]]
        """
        if faces is None:
            vertices, faces = arrays_of(vertices)
        for mended in _mending.mended_parts(vertices, faces, _mending.How(close, tolerance)):
            yield cls._of_mended(mended, lengths, decimals)

    @classmethod
    def _of_mended(cls, mended: _mending.Mended, lengths: Any, decimals: Optional[int]) -> Surface:
        if mended.hub is not None:
            lengths, decimals = cls._hub_lengths(mended, mended.hub, lengths, decimals)
        surface = cls(mended.points, mended.faces, lengths=lengths, decimals=decimals)
        surface._origins, surface._hub = mended.origins, mended.hub
        return surface

    @classmethod
    def _hub_lengths(
        cls, mended: _mending.Mended, hub: _mending.Hub, lengths: Any, decimals: Optional[int]
    ) -> Tuple[Ints, int]:
        """Lengths and their decimals where a hub joins holes: the greatest for its edges, and those of the others."""
        if lengths is not None and not isinstance(lengths, str):
            raise ValueError('where a hub joins holes, lengths are measured or "unit"; others by `with_lengths`')
        if decimals is None:
            decimals = mended.most_decimals(hub, GREATEST_LENGTH, MOST_DECIMALS)
        near = cls(*mended.without(hub), lengths=lengths, decimals=decimals)
        edges = cls(len(mended.points), mended.faces).edges
        units = np.full(len(edges), GREATEST_LENGTH)
        units[~_is_far(edges, hub)] = near.units
        return units, near.decimals

    def with_lengths(self, lengths: Any = None, decimals: Optional[int] = None) -> Surface:
        """The same mesh with other lengths, as the class takes them.

        >>> ring = Surface.from_file("meshes/ring.off")
        >>> dear = ring.with_lengths(np.full(len(ring.edges), 7))
        >>> dear.cycle().units % 7
        0
        """
        if self._hub is not None:
            if lengths is None or isinstance(lengths, str):
                raise ValueError("where a hub joins holes, other lengths are an array")
            lengths = np.where(_is_far(self.edges, self._hub), GREATEST_LENGTH, lengths)
        other = object.__new__(type(self))
        other.__dict__.update(self.__dict__)
        other._set_lengths(lengths, decimals)
        return other

    def without_handles(
        self, *, shorter_than: float, most: Optional[int] = None, closing: str = "faces"
    ) -> Surface:
        """The surface without its small handles: while a shortest nonseparating cycle is shorter than a bound, the
        surface is cut along it, and each border is closed. What is left has no such cycle below the bound.

        shorter_than: the bound, in the mesh's own unit
        most:         no more than so many handles go, the shortest first; then shorter cycles may be left
        closing:      "faces" closes each border by one face, "triangles" by triangles round a new vertex, whose edges
                      are so long that no walk takes a short cut over them

        Old edges keep their lengths, which are given to the new surface: `with_lengths()` measures them anew. Copies
        of a vertex stand a hair apart. Old faces, and old vertices, keep their numbers; `vertex_origins` and
        `face_origins` have those of copies, and `removed` the cycles.

        >>> eight = Surface.from_file("meshes/eight.off", decimals=6)
        >>> ring = eight.without_handles(shorter_than=1.86)
        >>> ring.info().genus, ring.cycle().length, [walk.length for walk in ring.removed]
        (1, 1.88172, [1.854371])
        """
        if self._hub is not None:
            raise ValueError("where a hub joins holes, no handles are taken off: close the holes, close=True")
        done = _handles.without_handles(self, _handles.wanted(shorter_than, most, closing, self.decimals))
        vertices = _handles.composed(self.vertex_origins, done.vertices)
        faces = _handles.composed(self.face_origins, done.faces)
        done.surface._origins = _mending.Origins(vertices, faces, (*self.notes, done.note()))
        done.surface._removed = done.removed
        return done.surface

    def __repr__(self) -> str:
        return f"<Surface: {self._count} vertices, {len(self._faces)} faces>"

    # ---- the mesh

    @property
    def vertices(self) -> Optional[Floats]:
        """The places of the vertices, shape (n, 3), or None."""
        return self._points

    @property
    def vertex_count(self) -> int:
        """How many vertices there are."""
        return self._count

    @property
    def faces(self) -> Polygons:
        """The faces, shape (m, k), or a tuple of m arrays where their sizes differ."""
        return self._faces.polygons()

    @property
    def edges(self) -> Ints:
        """Each edge once, the lesser end first, in order, shape (e, 2). Raises MeshRefused where a corner is no
        vertex.

        >>> Surface.from_file("meshes/pillow.off").edges.tolist()
        [[0, 1], [0, 2], [1, 2]]
        """
        if self._edges is None:
            if not self._has_vertices():
                self.info()  # which tells the face
            corners = self._faces.corners
            following = self._faces.next_corners(corners)
            self._edges = frozen(_pairs(np.unique(_pair_keys(corners, following, self._count)), self._count))
        return self._edges

    def _has_vertices(self) -> bool:
        """Whether all corners are vertices."""
        corners = self._faces.corners
        return len(corners) == 0 or (int(corners.min()) >= 0 and int(corners.max()) < self._count)

    @property
    def units(self) -> Ints:
        """The exact length of each of `edges`, shape (e,), a whole number of units.

        >>> Surface.from_file("meshes/tet.off", decimals=3).units
        array([1000, 1000, 1000, 1414, 1414, 1414])
        """
        if self._units is None and isinstance(self._given, str):
            self._units = frozen(np.ones(len(self.edges), np.int64))
        elif self._units is None:
            self._units = frozen(numbers_of(self._length_text())[2::3].copy())
        return self._units

    @property
    def lengths(self) -> Floats:
        """The length of each of `edges` in the mesh's own unit, shape (e,).

        >>> Surface.from_file("meshes/tet.off", decimals=3).lengths
        array([1.   , 1.   , 1.   , 1.414, 1.414, 1.414])
        """
        lengths: Floats = self.units / 10**self.decimals
        return lengths

    @property
    def decimals(self) -> int:
        """A unit is 10**-decimals of the mesh's own unit.

        >>> Surface.from_file("meshes/eight.off").decimals
        9
        """
        if self._given is None:
            return self._measure()[1]
        return 0 if isinstance(self._given, str) else self._wished or 0

    @property
    def vertex_origins(self) -> Optional[Ints]:
        """For each vertex its number in the file or the arrays before mending or cutting, -1 where it is new, shape
        (n,). None where nothing was mended or cut."""
        return None if self._origins is None else self._origins.vertices

    @property
    def face_origins(self) -> Optional[Ints]:
        """For each face its number in the file or the arrays before mending or cutting, -1 where it is new, shape
        (m,). None where nothing was mended or cut."""
        return None if self._origins is None else self._origins.faces

    @property
    def notes(self) -> Tuple[str, ...]:
        """What was done to mend or to cut the mesh, a line each."""
        return () if self._origins is None else self._origins.notes

    @property
    def removed(self) -> Optional[Walks]:
        """The cycles along which `without_handles` cut, in their order, by the vertices of the surface that was cut.
        None where this isn't its answer."""
        return self._removed

    # ---- texts

    def _head(self) -> bytes:
        return b"OFF\n%d %d 0\n" % (self._count, len(self._faces))

    def _face_lines(self) -> bytes:
        if self._listed is None:
            self._listed = self._faces.text()
        return self._listed

    def _mesh(self) -> bytes:
        """The mesh without places: only `lengths` and `sew` read them, and copies are placed by their origins."""
        return self._head() + b"0 0 0\n" * self._count + self._face_lines()

    def _measure(self) -> Tuple[bytes, int]:
        """The measured lengths as text, and their decimals."""
        if self._measured is None:
            assert self._points is not None
            decimals = self._wished if self._wished is not None else self._most_decimals()
            mesh = self._head() + place_lines(self._points) + self._face_lines()
            self._measured = self._ask(f"lengths 1 {decimals}", [mesh], self._rooms().lengths()), decimals
        return self._measured

    def _most_decimals(self) -> int:
        """As many decimals as the longest edge allows; where a place isn't finite, or no vertex, surf will say so."""
        assert self._points is not None
        corners = self._faces.corners
        if len(corners) == 0 or not self._has_vertices():
            return 0
        squares: Floats = np.zeros(len(corners))
        with np.errstate(over="ignore", invalid="ignore"):
            for coordinates in np.ascontiguousarray(self._points.T):
                here = coordinates[corners]
                here -= self._faces.next_corners(here)
                squares += here * here
            longest = math.sqrt(float(squares.max()))
        if not 0 < longest < math.inf:
            return 0
        return max(0, min(MOST_DECIMALS, math.floor(math.log10((GREATEST_LENGTH - 1) / longest))))

    def _given_lengths(self) -> bytes:
        """A length file of the array that was given."""
        edges = self.edges
        if self._given.shape != (len(edges),):
            raise ValueError(f"lengths have the shape {self._given.shape}, and there are {len(edges)} edges")
        wrong = np.flatnonzero((self._given < 1) | (self._given > GREATEST_LENGTH))
        if len(wrong):
            raise LengthsRefused(5, f"lengths: range {wrong[0] + 1}")
        tokens = np.column_stack([edges, self._given.astype(np.int64)]).reshape(-1)
        return token_lines(tokens, slice(2, None, 3))

    def _length_text(self) -> bytes:
        return self._measure()[0] if self._given is None else self._given_lengths()

    def _measured_files(self) -> Tuple[str, List[bytes]]:
        """The word for the lengths in a command, and the files of the mesh and the lengths."""
        if isinstance(self._given, str):
            return "unit", [self._mesh()]
        return "2", [self._mesh(), self._length_text()]

    def _rooms(self) -> Rooms:
        return Rooms(self._count, len(self._faces), len(self._faces.corners))

    def _ask(self, words: str, files: Sequence[bytes], room: int, seconds: Optional[float] = None) -> bytes:
        status, text = caller(seconds)(words, files, room)
        if status > 1:
            raise refusal(status, text.decode("utf-8", "replace"), self._count)
        return text

    def _ask_lengths(
        self, words: str, room: int, more: Sequence[bytes] = (), seconds: Optional[float] = None
    ) -> bytes:
        """Asks with `M`, `L` and `N` in the words for the mesh, the lengths and the next file."""
        length, files = self._measured_files()
        words = words.replace("M", "1").replace("L", length).replace("N", str(len(files) + 1))
        return self._ask(words, [*files, *more], room, seconds)

    def _base(self, base: Any) -> int:
        """A base in digits, as surf reads it. A vertex of a hub is none."""
        number, count = operator.index(base), self._count if self._hub is None else self._hub.first_vertex
        if not 0 <= number <= NO_VERTEX or number >= count < self._count:
            raise BaseRefused(7, f"base: {number} of {count}")
        return number

    # ---- pictures

    def show(
        self,
        shown: Any = None,
        *,
        values: Any = None,
        label: str = "",
        turn: float = 30.0,
        tilt: float = 40.0,
        title: str = "surfbasis",
        height: int = 480,
    ) -> Shown:
        """The surface with an answer on it, to be turned: in a notebook as the last line of a cell, and by `save` in a
        file of HTML.

        shown:  as `plot.draw` takes it: Walks, a Walk, other walks, a Cut, Evidence, Distances or None
        values: shape (n,) or (m,), a number for each vertex or face, by which faces are coloured
        label:  what the scale says of the values
        turn:   degrees about the upright axis at first; tilt: degrees from above the horizon
        height: of the frame in a notebook, in pixels

        >>> ring = Surface.from_file("meshes/ring.off")
        >>> ring.show(ring.basis(), values=ring.distances(0).lengths, label="distance").save("ring.html")
        """
        return Shown(self, shown, Look(values, label, turn, tilt, title, height))

    # ---- questions

    def info(self) -> Info:
        """The counts of the surface, its characteristic, and its genus or the number of its crosscaps.

        >>> Surface.from_file("meshes/eight.off").info()
        Info(vertices=754, edges=2268, faces=1512, characteristic=-2, genus=2, crosscaps=None)
        """
        text = self._ask("info 1", [self._mesh()], self._rooms().line())
        rows = dict(line.split() for line in text.decode().splitlines())
        counts = {name: int(value) for name, value in rows.items()}
        return Info(
            counts["vertices"],
            counts["edges"],
            counts["faces"],
            counts["characteristic"],
            counts.get("genus"),
            counts.get("crosscaps"),
        )

    def loops(self, base: int = 0) -> Walks:
        """A least system of loops at a vertex: 2 - characteristic closed walks there, independent (mod 2), with the
        least total length; the shortest first.

        >>> loops = Surface.from_file("meshes/eight.off").loops(base=5)
        >>> len(loops), all(loop.vertices[0] == 5 for loop in loops)
        (4, True)
        """
        return self._walks(self._ask_lengths(f"loops M L {self._base(base)}", self._rooms().walks()))

    def basis(self, *, seconds: Optional[float] = None) -> Walks:
        """A shortest homology basis (mod 2): 2 - characteristic independent cycles, wherever they run, with the least
        total length; the shortest first. Where many vertices have loops of nearly one length, a large mesh may take
        minutes.

        seconds: how long the search may take, which then runs in a process of its own; TimedOut after that. None is
                 as long as it takes

        >>> basis = Surface.from_file("meshes/eight.off", decimals=6).basis()
        >>> basis.units, len(basis), basis[0].vertices.tolist()
        (12262957, 4, [68, 73, 75, 76, 78, 155, 154, 149, 148, 70])
        """
        return self._walks(self._ask_lengths("basis M L large", self._rooms().walks(), seconds=seconds))

    def cycle(self, *, seconds: Optional[float] = None) -> Optional[Walk]:
        """A shortest cycle that doesn't separate the surface; None on a sphere, where every cycle does. The seconds
        are as those of `basis`.

        >>> Surface.from_file("meshes/eight.off", decimals=6).cycle().length
        1.854371
        """
        row = self._ask_lengths("cycle M L large", self._rooms().walk(), seconds=seconds).split()
        return None if row == [b"none"] else self._walk(row)

    def distances(self, base: int = 0) -> Distances:
        """The distance of each vertex from a base along edges, and a tree of shortest walks.

        >>> distances = Surface.from_file("meshes/eight.off", decimals=6).distances(0)
        >>> int(distances.units[2]), distances.path(2).tolist()
        (28284, [0, 2])
        """
        text = self._ask_lengths(f"dist M L {self._base(base)}", self._rooms().distances())
        rows = numbers_of(text.replace(b"-", b"-1")).reshape(-1, 3)
        found = Distances(int(base), frozen(rows[:, 1].copy()), frozen(rows[:, 2].copy()), self.decimals)
        return answer_on(self, found)

    def cut(self, base: int = 0, how: Any = "trim") -> Cut:
        """The surface cut open into one disc.

        how: "full" cuts along the edges of a shortest tree from the base and those of the loops there; "trim" along
             as little of that as still opens the surface; a list of vertices, shape (p,), along that and the ways in
             the tree to these vertices, so that each is on the border of the disc

        On a sphere the trimmed cut is two edges only: cut through vertices where an unfolding of the disc matters.
        Raises VerticesRefused where a vertex isn't one, or where the cut through them has fewer than two edges.

        >>> disc = Surface.from_file("meshes/eight.off").cut()
        >>> len(disc.seams), len(disc.origins), disc.faces.shape
        (83, 840, (1512, 3))
        """
        if isinstance(how, str) and how not in ("trim", "full"):
            raise ValueError(f'a cut is "trim", "full" or through vertices, and not {how!r}')
        words, more = f"cut M L {self._base(base)} ", []
        if isinstance(how, str):
            words += how
        else:
            words, more = words + "through N", [_line(_vertices(how))]
        return self._opened(self._ask_lengths(words, self._rooms().cut(), more))

    def certify(self, base: Optional[int] = None) -> bytes:
        """A certificate, as text: that the loops at a base are least, or, without a base, that the basis is. That of
        a basis takes up to 1,000 vertices (LimitRefused).

        >>> surface = Surface.from_file("meshes/torus7.off", lengths="unit")
        >>> surface.certify(0).splitlines()[0]
        b'SURFCERT 1 loops'
        """
        if base is None:
            return self._ask_lengths("certify M L", self._rooms().basis_certificate())
        return self._ask_lengths(f"certify M L {self._base(base)}", self._rooms().certificate())

    def check(self, certificate: Union[bytes, str]) -> Verdict:
        """Whether a certificate is valid for this surface and its lengths, whoever made it. It is tested row by row,
        without any search. Raises CertificateRefused where the text is none.

        >>> surface = Surface.from_file("meshes/torus7.off", lengths="unit")
        >>> surface.check(surface.certify())
        Verdict(valid=True, units=6, fault=None, meaning='')
        """
        return _verdict(self._ask_lengths("check M L N", self._rooms().line(), [_bytes(certificate)]))

    def classify(self, walk: Any) -> Evidence:
        """Whether a closed walk bounds (mod 2), with evidence.

        walk: a Walk, or the vertices of one, shape (n,), with or without the first at the end again

        >>> surface = Surface.from_file("meshes/eight.off")
        >>> surface.classify([0, 1, 3]).faces
        array([1])
        >>> surface.classify(surface.cycle()).bounds
        False
        """
        text = self._ask("class 1 2", [self._mesh(), _walk_line(walk)], self._rooms().evidence())
        return answer_on(self, _evidence(text))

    def same(self, walk: Any, other: Any) -> Evidence:
        """Whether two closed walks are homologous (mod 2), that is, bound together, with evidence.

        >>> surface = Surface.from_file("meshes/torus33.off", lengths="unit")
        >>> surface.same([0, 1, 2], [3, 4, 5]).bounds
        True
        """
        files = [self._mesh(), _walk_line(walk), _walk_line(other)]
        return answer_on(self, _evidence(self._ask("same 1 2 3", files, self._rooms().evidence())))

    def confirm(self, walk: Any, evidence: Union[Evidence, bytes, str]) -> Verdict:
        """Whether evidence of `classify` is right for the walk, whoever made it.

        >>> surface = Surface.from_file("meshes/eight.off")
        >>> bool(surface.confirm([0, 1, 3], surface.classify([0, 1, 3])))
        True
        >>> surface.confirm([0, 1, 3], b"null 1 2").fault
        'boundary 0 1'
        """
        text = evidence.text if isinstance(evidence, Evidence) else _bytes(evidence)
        return _verdict(self._ask("confirm 1 2 3", [self._mesh(), _walk_line(walk), text], self._rooms().line()))

    def shortest(self, walk: Any, *, seconds: Optional[float] = None) -> Walk:
        """A shortest closed walk homologous (mod 2) to a closed walk. Takes up to 16 for 2 - characteristic, and up to
        16,777,216 vertices times 2**(2 - characteristic) (LimitRefused). The seconds are as those of `basis`.

        >>> surface = Surface.from_file("meshes/torus33.off", lengths="unit")
        >>> surface.shortest([0, 1, 2, 0, 3, 6]).vertices
        array([0, 8, 4])
        """
        room, more = self._rooms().lift(), [_walk_line(walk)]
        return self._walk(self._ask_lengths("shortest M L N large", room, more, seconds).split())

    @classmethod
    def sew(cls, cut: Cut, *, lengths: Any = None, decimals: Optional[int] = None) -> Surface:
        """The surface that was cut: each copy becomes its vertex again.

        Raises SewingRefused where copies of one vertex stand at different places, where their numbers don't fit, or
        where they are no disc.

        >>> surface = Surface.from_file("meshes/eight.off")
        >>> bool((Surface.sew(surface.cut()).faces == surface.faces).all())
        True
        """
        return _sewn(cls(len(cut.origins), cut.faces), cut, lengths, decimals)

    # ---- answers

    def _walk(self, row: Sequence[bytes]) -> Walk:
        vertices = np.array(row[2:], dtype=np.int64)
        walk = Walk(frozen(vertices[:-1] if len(vertices) > 1 else vertices), int(row[1]), self.decimals)
        return answer_on(self, walk)

    def _walks(self, text: bytes) -> Walks:
        walks = tuple(self._walk(row.split()) for row in text.splitlines()[2:])
        if self._hub is not None:
            walks = _off_the_hub(walks, self._hub)
        return answer_on(self, Walks(walks, sum(walk.units for walk in walks), self.decimals))

    def _opened(self, text: bytes) -> Cut:
        """The cut of a text whose vertex lines are all `0 0 0`."""
        copies = int(text.split(None, 2)[1])
        faces_at = text.index(b"\n", 4) + 1 + len(b"0 0 0\n") * copies
        copies_at = text.index(b"# copy", faces_at)
        origins = frozen(numbers_of(text[copies_at:].translate(None, b"#copyfrm"))[1::2].copy())
        corners = self._faces.corners_of(numbers_of(text[faces_at:copies_at]))
        places = None if self._points is None else frozen(self._points[origins])
        seams = frozen(self._seams(corners, origins))
        return answer_on(self, Cut(places, self._faces.shaped(frozen(corners)), origins, seams))

    def _seams(self, corners: Ints, origins: Ints) -> Ints:
        """The edges on the border of the disc. One end of each has several copies, since no cut is an edge alone."""
        several = np.bincount(origins)[origins] > 1
        following = self._faces.next_corners(corners)
        near = np.flatnonzero(several[corners] | several[following])
        keys, counts = np.unique(_pair_keys(corners[near], following[near], len(origins)), return_counts=True)
        ends = origins[_pairs(keys[counts == 1], len(origins))]
        return _pairs(np.unique(_pair_keys(ends[:, 0], ends[:, 1], self._count)), self._count)


def _is_far(edges: Ints, hub: _mending.Hub) -> npt.NDArray[np.bool_]:
    """Which edges are the hub's own: those that end at a vertex of it."""
    far: npt.NDArray[np.bool_] = edges[:, 1] >= hub.first_vertex
    return far


def _off_the_hub(walks: Tuple[Walk, ...], hub: _mending.Hub) -> Tuple[Walk, ...]:
    """The walks without a vertex of the hub: all but one less than there are holes, and these the first."""
    kept = tuple(walk for walk in walks if int(walk.vertices.max()) < hub.first_vertex)
    if kept != walks[: len(walks) - (len(hub.rims) - 1)]:
        raise ValueError("a cycle that is needed is longer than an edge of the hub: take fewer decimals")
    return kept


def _pair_keys(first: Ints, second: Ints, count: int) -> Ints:
    """A number for each pair of numbers below a count, in the order of the lesser and then of the greater one."""
    keys: Ints = np.minimum(first, second) * count + np.maximum(first, second)
    return keys


def _pairs(keys: Ints, count: int) -> Ints:
    """The pairs that have these numbers, the lesser number first, shape (n, 2)."""
    lesser = keys // max(count, 1)
    return np.stack([lesser, keys - lesser * count], axis=1)


def _sewn(disc: Surface, cut: Cut, lengths: Any, decimals: Optional[int]) -> Surface:
    """The surface that surf sews of a disc of copies. Its vertex lines have the places bit by bit, as whole
    numbers."""
    count = len(cut.origins)
    places = np.zeros((count, 3)) if cut.vertices is None else np.asarray(cut.vertices, np.float64) + 0.0
    if places.shape != (count, 3):
        raise ValueError(f"vertices have the shape {places.shape}, and there are {count} copies")
    lines = "".join("%d %d %d\n" % tuple(row) for row in places.view(np.uint64).tolist()).encode()
    copies = "".join("# copy %d from %d\n" % pair for pair in enumerate(_vertices(cut.origins))).encode()
    text = disc._ask("sew 1", [disc._head() + lines + disc._face_lines() + copies], disc._rooms().sewn())
    if text.startswith(b"no "):
        raise refusal(1, text.decode(), count)
    kept = int(text.split(None, 2)[1])
    rows = text[text.index(b"\n", 4) + 1 :].split(b"\n", kept)
    points = np.array([row.split() for row in rows[:kept]], dtype=np.uint64).reshape(-1, 3).view(np.float64)
    corners = disc._faces.corners_of(numbers_of(rows[kept]))
    vertices = kept if cut.vertices is None else points
    return Surface(vertices, disc._faces.shaped(corners), lengths=lengths, decimals=decimals)


def _bytes(text: Union[bytes, str]) -> bytes:
    return text.encode() if isinstance(text, str) else bytes(text)


def _vertices(given: Any) -> List[int]:
    """The vertices of a flat sequence; what can't be one becomes a number that is none."""
    row = np.asarray(given)
    if row.ndim != 1:
        raise ValueError(f"vertices have the shape {row.shape}, and not (n,)")
    if row.size and row.dtype.kind not in "iu":
        raise TypeError(f"vertices are of the type {row.dtype}, and not whole numbers")
    wide = row.astype(np.int64)
    numbers: List[int] = np.where((wide < 0) | (wide > NO_VERTEX), NO_VERTEX, wide).tolist()
    return numbers


def _line(numbers: Sequence[int]) -> bytes:
    return " ".join(map(str, numbers)).encode() + b"\n"


def _walk_line(walk: Any) -> bytes:
    """The vertices of a walk on a line, the first at the end again where it isn't."""
    vertices = _vertices(walk.vertices if isinstance(walk, Walk) else walk)
    closed = len(vertices) < 2 or vertices[0] == vertices[-1]
    return _line(vertices if closed else [*vertices, vertices[0]])


def _evidence(text: bytes) -> Evidence:
    kind, _, rest = text.partition(b" ")
    numbers = frozen(numbers_of(rest)[1:].copy())
    if kind in (b"null", b"same"):
        return Evidence(True, numbers, None, text)
    return Evidence(False, None, frozen(numbers.reshape(-1, 2)), text)


def _verdict(text: bytes) -> Verdict:
    line = text.decode().strip()
    if not line.startswith("no "):
        words = line.split()
        return Verdict(True, int(words[2]) if len(words) > 2 else None)
    return Verdict(False, None, line[len("no ") :], advice_in(1, line).meaning)
