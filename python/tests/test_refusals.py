"""Refusals as exceptions: one for each status, with the numbers of its line by name, and what to do."""

import dataclasses
import pickle
import unittest

import numpy as np
import surfbasis
from support import CORNERS, CUBE, Asked, chain, off_text, read
from surfbasis._advice import _entries
from surfbasis._refusals import KINDS, refusal

LINES = {
    1: ["no border none", "no border 0 1 4 5", "no count 9 27 17"],
    2: ["usage: the words are in no row of the command table"],
    3: ["mesh text: face-size 9", "mesh text: face-index 9 2", "mesh text: face-repeat 9 1"],
    4: ["surface: empty", "surface: border 1 2 0", "surface: crowded 1 2 0 3 4", "surface: isolated 4",
        "surface: pinched 0 0 4", "surface: apart 4"],
    5: ["lengths: range 3"],
    6: [f"limit: {name}" for name in ("text", "vertices", "faces", "sides", "loops", "basis-vertices",
                                      "certificate-vertices", "answer", "cover-loops", "cover-nodes")],
    7: ["base: 4 of 4"],
    8: [f"certificate text: {fault}" for fault in ("header 1", "form 1", "early", "trailing 9")],
    9: ["read fault"],
    10: ["write fault"],
    11: ["memory"],
    12: ["coordinates: form 0 1", "coordinates: range 0 2", "coordinates: zero 0 1", "coordinates: great 0 1"],
    13: ["walk 1: empty", "walk 1: not-vertex 1", "walk 2: not-edge 0"],
    14: ["sew: gap 3", "sew: line 1 0", "sew: face-repeat 0 1", "sew: copy-count 4 of 5", "sew: copy-form 9"],
    15: ["vertices: empty", "vertices: not-vertex 1", "vertices: near"],
}


class Lines(unittest.TestCase):
    def test_each_status_has_an_exception(self):
        self.assertEqual(sorted(LINES), sorted(KINDS))
        for status, lines in LINES.items():
            for line in lines:
                refused = refusal(status, f"{line}\n", 4)
                self.assertIs(type(refused), KINDS[status])
                self.assertEqual((refused.status, refused.line, str(refused).splitlines()[0]), (status, line, line))
                again = pickle.loads(pickle.dumps(refused))
                self.assertEqual((type(again), str(again)), (type(refused), str(refused)))

    def test_each_line_has_what_to_do(self):
        for status, lines in LINES.items():
            for line in lines:
                with self.subTest(line=line):
                    if status not in _entries():
                        self.skipTest(f"the page of refusals says nothing of status {status}")
                    refused = refusal(status, line)
                    self.assertTrue(refused.meaning or refused.advice)

    def test_numbers_stand_in_place_of_letters(self):
        self.assertIn("edge 402 412 has one face, 805", refusal(4, "surface: border 402 412 805").meaning)

    def test_mending_is_named(self):
        self.assertIn("`Surface.mended`", refusal(4, "surface: border 402 412 805").advice)
        self.assertNotIn("`Surface.mended`", refusal(4, "surface: empty").advice)

    def test_bases_of_classes(self):
        self.assertIsInstance(refusal(7, "base: 4 of 4"), IndexError)
        self.assertIsInstance(refusal(11, "memory"), MemoryError)
        self.assertIsInstance(refusal(9, "read fault"), OSError)
        self.assertIsInstance(refusal(4, "surface: empty"), ValueError)


class Witnesses(unittest.TestCase):
    """Refused questions, whose witnesses are looked for in the mesh."""

    def refused(self, kind, question, *words):
        with self.assertRaises(kind) as told:
            question(*words)
        return told.exception

    def test_surfaces(self):
        vertices, faces = read("eight")
        border = self.refused(surfbasis.SurfaceRefused, surfbasis.Surface(vertices, faces[:-1]).info)
        self.assertEqual((border.kind, border.status), ("border", 4))
        self.assertLessEqual(set(border.edge), set(faces[border.face].tolist()) & set(faces[-1].tolist()))
        twice = np.concatenate([faces, faces[:1]])
        crowded = self.refused(surfbasis.SurfaceRefused, surfbasis.Surface(vertices, twice).info)
        self.assertEqual((crowded.kind, crowded.faces[0], crowded.faces[2]), ("crowded", 0, 1512))
        isolated = self.refused(surfbasis.SurfaceRefused, surfbasis.Surface(755, faces).info)
        self.assertEqual((isolated.kind, isolated.vertex, isolated.edge), ("isolated", 754, None))
        two = surfbasis.Surface(1508, np.concatenate([faces, faces + 754]))
        apart = self.refused(surfbasis.SurfaceRefused, two.info)
        self.assertEqual((apart.kind, apart.face), ("apart", 1512))
        touching = np.concatenate([faces, np.where(faces == 0, 0, faces + 753)])
        pinched = self.refused(surfbasis.SurfaceRefused, surfbasis.Surface(1507, touching).info)
        self.assertEqual((pinched.kind, pinched.vertex, pinched.faces), ("pinched", 0, (0, 1512)))
        for nothing in (np.zeros((0, 3), int), [], np.zeros(0, int)):
            empty = self.refused(surfbasis.SurfaceRefused, surfbasis.Surface(0, nothing).info)
            self.assertEqual(empty.kind, "empty")

    def test_faces_that_are_none(self):
        vertices, faces = read("tet")
        for corner in (4, -1, 2**40):
            wrong = np.array(faces)
            wrong[2, 1] = corner
            surface = surfbasis.Surface(vertices, wrong)
            for question in (surface.info, surface.basis, lambda: surface.edges):
                refused = self.refused(surfbasis.MeshRefused, question)
                self.assertEqual((refused.kind, refused.face, refused.place), ("face-index", 2, 1))
        repeated = self.refused(surfbasis.MeshRefused, surfbasis.Surface(4, [*faces.tolist(), [1, 2, 1]]).info)
        self.assertEqual((repeated.kind, repeated.face, repeated.vertex), ("face-repeat", 4, 1))
        short = self.refused(surfbasis.MeshRefused, surfbasis.Surface(4, [*faces.tolist(), [1, 2]]).info)
        self.assertEqual((short.kind, short.face), ("face-size", 4))

    def test_coordinates(self):
        vertices, faces = read("tet")
        for value, kind in [(np.nan, "form"), (np.inf, "form"), (1e9, "range"), (-1e300, "range")]:
            wrong = np.array(vertices)
            wrong[3, 1] = value
            refused = self.refused(surfbasis.CoordinatesRefused, surfbasis.Surface(wrong, faces).basis)
            self.assertEqual((refused.kind, refused.vertex, refused.place), (kind, 3, 1))
            self.assertEqual(surfbasis.Surface(wrong, faces, lengths="unit").basis().units, 0)
        zero = self.refused(surfbasis.CoordinatesRefused, surfbasis.Surface(vertices * 1e-10, faces).loops)
        self.assertEqual((zero.kind, zero.edge), ("zero", (0, 1)))
        great = self.refused(surfbasis.CoordinatesRefused, surfbasis.Surface(vertices * 10, faces, decimals=9).loops)
        self.assertEqual((great.kind, great.edge), ("great", (0, 1)))

    def test_lengths(self):
        surface = surfbasis.Surface(7, read("torus7")[1])
        for value in (0, -5, 2**32, 2**62):
            wrong = np.full(21, 3)
            wrong[4] = value
            refused = self.refused(surfbasis.LengthsRefused, surface.with_lengths(wrong).basis)
            self.assertEqual((refused.kind, refused.place), ("range", 4))
        with self.assertRaises(ValueError):
            surface.with_lengths(np.ones(20, int)).basis()
        for wrong in (np.ones(21), [0.5] * 21, ["1"] * 21):
            with self.assertRaises(TypeError):
                surface.with_lengths(wrong)

    def test_limits(self):
        many = surfbasis.Surface(np.zeros((1_000_001, 3)), CUBE)
        self.assertEqual(self.refused(surfbasis.LimitRefused, many.info).limit, "vertices")
        three = surfbasis.Surface(*read("three"), lengths="unit")
        self.assertEqual(self.refused(surfbasis.LimitRefused, three.certify).limit, "certificate-vertices")
        for tori, columns, limit in ((9, 4, "cover-loops"), (8, 9, "cover-nodes")):
            many = surfbasis.Surface(*chain(tori, 4, columns), lengths="unit")
            self.assertEqual(self.refused(surfbasis.LimitRefused, many.shortest, [0]).limit, limit)

    def test_bases_and_walks(self):
        surface = surfbasis.Surface(*read("tet"))
        for base in (4, -1, 2**32, 2**70):
            for question in (surface.loops, surface.distances, surface.cut, surface.certify):
                self.assertEqual(self.refused(surfbasis.BaseRefused, question, base).line, f"base: {base} of 4")
        for base in (0.5, "0", None):
            with self.assertRaises(TypeError):
                surface.loops(base)
        wrong = [([0, 4], "not-vertex", 1), ([0, -1], "not-vertex", 1), ([0, 0, 1], "not-edge", 0), ([], "empty", None)]
        for walk, kind, place in wrong:
            refused = self.refused(surfbasis.WalkRefused, surface.classify, walk)
            self.assertEqual((refused.kind, refused.place), (kind, place))
        self.assertTrue(self.refused(surfbasis.WalkRefused, surface.same, [0], [9]).line.startswith("walk 2: "))
        with self.assertRaises(ValueError):
            surface.classify([[0, 1, 2]])
        with self.assertRaises(TypeError):
            surface.classify([0.0, 1.0, 2.0])

    def test_certificates_and_evidence(self):
        surface = surfbasis.Surface(*read("torus33"), lengths="unit")
        made = surface.certify(0)
        fault = surface.check(made.replace(b"\ntree 0", b"\ntree 1"))
        self.assertFalse(fault)
        self.assertEqual((fault.units, fault.fault.split()[0]), (None, "parent"))
        self.assertIn("tree at", fault.meaning)
        for text, kind in [(b"hello", "header"), (made[: made.index(b"\ndual")], "early"),
                           (made + b"more", "trailing")]:
            self.assertEqual(self.refused(surfbasis.CertificateRefused, surface.check, text).kind, kind)
        self.assertEqual(self.refused(surfbasis.CertificateRefused, surface.confirm, [0], "maybe 1").kind, "header")
        self.assertEqual(surface.confirm([0, 1, 2], b"null 0").fault, "boundary 0 1")

    def test_sewing(self):
        surface = surfbasis.Surface(*read("torus33"))
        cut = surface.cut()
        places = np.array(cut.vertices)
        copies = [np.flatnonzero(cut.origins == origin) for origin in range(9)]
        twice = next(copy for copy in copies if len(copy) > 1)
        places[twice[1], 2] += 1
        torn = dataclasses.replace(cut, vertices=places)
        moved = self.refused(surfbasis.SewingRefused, surfbasis.Surface.sew, torn)
        self.assertEqual((moved.kind, moved.numbers), ("line", [int(twice[1]), int(twice[0])]))
        gap = dataclasses.replace(cut, origins=cut.origins + 1)
        self.assertEqual(self.refused(surfbasis.SewingRefused, surfbasis.Surface.sew, gap).kind, "gap")
        whole = surfbasis.Cut(surface.vertices, surface.faces, np.arange(9), np.zeros((0, 2), int))
        self.assertEqual(self.refused(surfbasis.SewingRefused, surfbasis.Surface.sew, whole).line, "no border none")
        few = dataclasses.replace(cut, vertices=cut.vertices[:-1])
        with self.assertRaises(ValueError):
            surfbasis.Surface.sew(few)

    def test_vertices_to_cut_through(self):
        surface = surfbasis.Surface(*read("tet"))
        try:
            surface.cut(0, [1, 2, 3])
        except surfbasis.WordsRefused:
            self.skipTest("this build of surf has no cut through vertices")
        wrong = [([], "empty", None), ([0, 4], "not-vertex", 1), ([-1], "not-vertex", 0), ([2], "near", None)]
        for vertices, kind, place in wrong:
            refused = self.refused(surfbasis.VerticesRefused, surface.cut, 0, vertices)
            self.assertEqual((refused.kind, refused.place), (kind, place))

    def test_words(self):
        surface = surfbasis.Surface(*read("tet"))
        with self.assertRaises(ValueError):
            surface.cut(0, "half")
        with self.assertRaises(TypeError):
            surface.cut(0, [0.5])

    def test_the_lines_are_the_programs(self):
        vertices, faces = read("eight")
        for given in (faces[:-1], np.concatenate([faces, faces[:1]]), np.concatenate([faces, faces + 700])):
            count = max(len(vertices), int(given.max()) + 1)
            points = np.zeros((count, 3))
            due = Asked(off_text(points, given)).ran("info", "mesh.off")
            told = self.refused(surfbasis.Refused, surfbasis.Surface(points, given).info)
            self.assertEqual((told.status, told.line + "\n"), (due.returncode, due.stderr))


class Shapes(unittest.TestCase):
    def test_wrong_shapes(self):
        faces = read("tet")[1]
        for vertices in (np.zeros((4, 2)), np.zeros(4), np.zeros((4, 3, 1)), -4):
            with self.assertRaises(ValueError):
                surfbasis.Surface(vertices, faces)
        for wrong in (np.zeros(12, int), np.zeros((4, 3, 1), int), [[[0, 1, 2]]]):
            with self.assertRaises(ValueError):
                surfbasis.Surface(4, wrong)

    def test_wrong_types(self):
        faces = read("tet")[1]
        for wrong in (faces.astype(float), faces.astype(str), faces > 1, [["a", "b", "c"]], 5):
            with self.assertRaises(TypeError):
                surfbasis.Surface(4, wrong)
        for vertices in (CORNERS.astype(complex), CORNERS.astype(str), CORNERS > 0, 3.5):
            with self.assertRaises(TypeError):
                surfbasis.Surface(vertices, CUBE)

    def test_wrong_words(self):
        for wrong in (-1, 10):
            with self.assertRaises(ValueError):
                surfbasis.Surface(CORNERS, CUBE, decimals=wrong)
        with self.assertRaises(ValueError):
            surfbasis.Surface(CORNERS, CUBE, lengths="metres")


if __name__ == "__main__":
    unittest.main()
