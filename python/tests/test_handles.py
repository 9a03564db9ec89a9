"""Surfaces without their small handles."""

import unittest

import numpy as np
import surfbasis
from support import CLOSED, CUBE, MEASURED, characteristic, read, torus, units_along


def edge_units(surface, origins):
    """The length of each edge whose ends are old, by the numbers that they had."""
    ends = np.sort(origins[surface.edges], axis=1)
    return {tuple(pair): units for pair, units in zip(ends.tolist(), surface.units.tolist()) if pair[0] >= 0}


class Handles(unittest.TestCase):
    def left_of(self, surface, **how):
        """What is left of a surface, with what holds of each such answer."""
        left = surface.without_handles(**how)
        count, faces = surface.vertex_count, len(surface.faces)
        self.assertEqual(left.vertex_origins[:count].tolist(), list(range(count)))
        self.assertEqual(left.face_origins.tolist(), [*range(faces), *[-1] * (len(left.faces) - faces)])
        old = [left.vertex_origins[face].tolist() for face in list(left.faces)[:faces]]
        self.assertEqual(old, [list(face) for face in surface.faces])
        known = {tuple(edge): units for edge, units in zip(surface.edges.tolist(), surface.units.tolist())}
        self.assertEqual(edge_units(left, left.vertex_origins), known)
        self.assertTrue(all(units_along(surface, walk) == walk.units for walk in left.removed))
        self.assertEqual(left.decimals, surface.decimals)
        shortest = left.cycle()
        if how.get("most") is None and shortest:
            self.assertGreaterEqual(shortest.length, how["shorter_than"])
        return left

    def test_each_mesh_becomes_a_sphere(self):
        for name in CLOSED:
            vertices, faces = read(name)
            for lengths in [None, "unit"] if name in MEASURED else ["unit"]:
                for closing in ("faces", "triangles"):
                    surface = surfbasis.Surface(vertices, faces, lengths=lengths)
                    with self.subTest(mesh=name, lengths=lengths, closing=closing):
                        left = self.left_of(surface, shorter_than=np.inf, closing=closing)
                        self.assertEqual(left.info().genus, 0)
                        self.assertEqual(len(left.removed), (surface.info().rank + 1) // 2)

    def test_a_bound_between_two_lengths(self):
        surface = surfbasis.Surface(*read("eight"), decimals=6)
        first, second = (walk.length for walk in surface.basis()[:2])
        left = self.left_of(surface, shorter_than=second)
        self.assertEqual([walk.length for walk in left.removed], [first])
        self.assertEqual((left.info().genus, left.cycle().length), (1, second))
        self.assertEqual(left.notes, ("1 handle taken off: 1.85437",))
        none = self.left_of(surface, shorter_than=first)
        self.assertEqual((len(none.removed), none.notes), (0, ("0 handles taken off",)))
        self.assertTrue((none.vertices == surface.vertices).all())
        some = self.left_of(surface, shorter_than=np.inf, most=1)
        self.assertEqual(some.faces[-1].tolist(), left.faces[-1].tolist())
        self.assertIsNone(surface.removed)

    def test_copies_stand_a_hair_apart(self):
        surface = surfbasis.Surface(*read("three"), decimals=6)
        left = self.left_of(surface, shorter_than=np.inf)
        self.assertEqual(len(np.unique(left.vertices, axis=0)), left.vertex_count)
        moved = np.abs(left.vertices - surface.vertices[left.vertex_origins]).max(axis=1)
        origins = left.vertex_origins.tolist()
        self.assertEqual(set(np.flatnonzero(moved)), {v for v, n in enumerate(origins) if origins.count(n) > 1})
        self.assertLess(moved.max(), 1e-4)
        anew = left.with_lengths(decimals=6)
        self.assertLess(np.abs(anew.units - left.units).max(), 100)

    def test_polygons_and_triangles(self):
        points, faces = torus(5, 8)
        squares = [[a, b, c, d] for (a, b, c), (_, _, d) in zip(faces[:40].tolist(), faces[40:].tolist())]
        for closing, more in (("faces", 2), ("triangles", 16)):
            left = self.left_of(surfbasis.Surface(points, squares), shorter_than=5, closing=closing)
            self.assertEqual((len(left.faces), characteristic(left.vertex_count, left.faces)), (40 + more, 2))
        self.assertEqual(left.vertex_origins[-2:].tolist(), [-1, -1])
        middle = left.vertices[-1]
        rim = left.faces[-1][:2]
        self.assertLess(np.linalg.norm(left.vertices[rim] - middle, axis=1).max(), 0.8)

    def test_random_lengths(self):
        chance = np.random.default_rng(5)
        for _ in range(20):
            points, faces = torus(3, 4)
            surface = surfbasis.Surface(len(points), faces)
            surface = surface.with_lengths(chance.integers(1, 6, len(surface.edges)), decimals=1)
            bound = float(chance.choice([0.3, 0.5, 0.8, 1.2]))
            left = self.left_of(surface, shorter_than=bound)
            self.assertEqual(len(left.removed), int(surface.cycle().length < bound))
            self.assertEqual(left.info().genus, 1 - len(left.removed))

    def test_origins_in_a_file_or_in_arrays(self):
        points, faces = read("eight")
        points, faces = np.vstack([[[9, 9, 9]], points]), faces[5:] + 1
        mended = surfbasis.Surface.mended(points, faces, close=True, decimals=6)
        left = mended.without_handles(shorter_than=1.86)
        self.assertEqual(left.vertex_origins[:754].tolist(), list(range(1, 755)))
        self.assertTrue((points[left.vertex_origins] - left.vertices < 1e-4).all())
        closing = left.face_origins == -1
        self.assertEqual((left.face_origins[~closing].tolist(), int(closing.sum())), (list(range(len(faces))), 3))
        self.assertEqual(left.notes, (*mended.notes, "1 handle taken off: 1.85437"))

    def test_what_is_refused(self):
        surface = surfbasis.Surface(*read("torus33"), lengths="unit")
        for bound in (0, -1, np.nan):
            with self.assertRaisesRegex(ValueError, f"shorter_than is a number above 0, and not {bound}"):
                surface.without_handles(shorter_than=bound)
        with self.assertRaises(TypeError):
            surface.without_handles(shorter_than="1")
        with self.assertRaisesRegex(ValueError, "most is a number from 0 on, and not -1"):
            surface.without_handles(shorter_than=1, most=-1)
        with self.assertRaisesRegex(ValueError, 'closing is "faces" or "triangles"'):
            surface.without_handles(shorter_than=1, closing="none")
        with self.assertRaisesRegex(surfbasis.SurfaceRefused, "surface: border"):
            surfbasis.Surface(8, CUBE[1:]).without_handles(shorter_than=1)
        points, faces = read("eight")
        hub = surfbasis.Surface.mended(points, np.delete(faces, [0, 700], axis=0), close="hub")
        with self.assertRaisesRegex(ValueError, "where a hub joins holes"):
            hub.without_handles(shorter_than=1)


if __name__ == "__main__":
    unittest.main()
