"""Mesh files and arrays that are no surfaces, mended, with the way back to their numbers."""

import gzip
import pathlib
import unittest

import numpy as np
import surfbasis
from support import CORNERS, CUBE, MESHES, ROOM, off_text, read, torus


def written(name, data):
    path = pathlib.Path(ROOM.name, name)
    path.write_bytes(data if isinstance(data, bytes) else data.encode())
    return path


def obj_text(vertices, faces):
    rows = ["v " + " ".join(map(repr, row)) for row in np.asarray(vertices, float).tolist()]
    return "\n".join(rows + ["f " + " ".join(str(int(v) + 1) for v in face) for face in faces]) + "\n"


def stl_bytes(vertices, faces):
    rows = np.zeros(len(faces), np.dtype([("places", "<f4", (4, 3)), ("rest", "<u2")]))
    rows["places"][:, 1:] = vertices[faces]
    return b"\0" * 80 + np.uint32(len(faces)).tobytes() + rows.tobytes()


class Files(unittest.TestCase):
    def test_a_surface_stays_as_it_is(self):
        vertices, faces = read("eight")
        for path in (MESHES / "eight.off", str(MESHES / "eight.off"), written("eight.obj", obj_text(vertices, faces)),
                     written("eight.off.gz", gzip.compress((MESHES / "eight.off").read_bytes()))):
            surface = surfbasis.Surface.from_file(path, decimals=6)
            self.assertEqual((surface.vertices.tolist(), surface.faces.tolist()), (vertices.tolist(), faces.tolist()))
            self.assertEqual(surface.vertex_origins.tolist(), list(range(754)))
            self.assertEqual(surface.face_origins.tolist(), list(range(1512)))
            self.assertEqual(surface.basis().units, 12262957)

    def test_triangles_that_share_no_vertex(self):
        vertices, faces = read("eight")
        surface = surfbasis.Surface.from_file(written("eight.stl", stl_bytes(vertices, faces)), decimals=4)
        self.assertEqual((surface.info().genus, surface.vertex_count), (2, 754))
        corners = np.reshape(faces, -1)[surface.vertex_origins]
        self.assertEqual(np.abs(surface.vertices - vertices[corners]).max() < 1e-6, True)

    def test_holes(self):
        vertices, faces = read("eight")
        path = written("hole.off", off_text(vertices, faces[1:]))
        with self.assertRaises(surfbasis.SurfaceRefused):
            surfbasis.Surface.from_file(path).info()
        surface = surfbasis.Surface.from_file(path, close=True, decimals=6)
        self.assertEqual((surface.info().genus, surface.basis().units), (2, 12262957))
        self.assertEqual(surface.face_origins.tolist(), [*range(1511), -1])
        self.assertEqual(sorted(surface.faces[-1].tolist()), sorted(faces[0].tolist()))
        self.assertTrue(any("hole" in note for note in surface.notes))

    def test_loops_round_holes(self):
        points, faces = torus(5, 6)
        for gone, due in [([], [5, 6]), ([3], [5, 6]), ([3, 20], [3, 5, 6]), ([3, 20, 47], [3, 3, 5, 6])]:
            surface = surfbasis.Surface.mended(points, np.delete(faces, gone, axis=0), close="hub", lengths="unit")
            for walks in (surface.basis(), surface.loops(0)):
                self.assertEqual(len(walks), len(due))
                self.assertLess(max(int(walk.vertices.max()) for walk in walks), 30)
                self.assertEqual((walks.units, walks.length), (sum(walk.units for walk in walks), walks.units))
            self.assertEqual([walk.units for walk in surface.basis()], due)
            if surface.vertex_count > 30:
                with self.assertRaises(surfbasis.BaseRefused):
                    surface.loops(30)

    def test_a_ring_without_lids(self):
        around = 2 * np.pi * np.arange(12) / 12
        points = np.concatenate([np.stack([np.cos(around), np.sin(around), 0 * around + z], axis=1) for z in (0, 1)])
        points[12:, :2] *= 2
        faces = [[k, (k + 1) % 12, 12 + (k + 1) % 12, 12 + k] for k in range(12)]
        surface = surfbasis.Surface.mended(points, faces, close="hub", decimals=5)
        side = int(2 * np.sin(np.pi / 12) * 10**5)
        basis = surface.basis()
        self.assertEqual([(walk.units, sorted(walk.vertices.tolist())) for walk in basis],
                         [(12 * side, list(range(12)))])
        dear = np.where(surface.edges[:, 1] < 12, 9, 1)
        self.assertEqual(surface.with_lengths(dear).basis()[0].vertices.min(), 12)
        for lengths in (None, "unit"):
            with self.assertRaises(ValueError):
                surface.with_lengths(lengths)
        with self.assertRaises(ValueError):
            surfbasis.Surface.mended(points, faces, close="hub", lengths=dear)
        with self.assertRaises(ValueError):
            surfbasis.Surface.mended(points, faces, close="lid")

    def test_a_cycle_longer_than_the_hub(self):
        square = np.array([[0, 0, 0], [40, 0, 0], [40, 40, 0], [0, 40, 0]], float)
        points = np.concatenate([square, square + (0, 0, 1)])
        faces = [[k, (k + 1) % 4, 4 + (k + 1) % 4, 4 + k] for k in range(4)]
        short = surfbasis.Surface.mended(points, faces, close="hub").basis()
        self.assertEqual([walk.length for walk in short], [160.0])
        with self.assertRaisesRegex(ValueError, "fewer decimals"):
            surfbasis.Surface.mended(points, faces, close="hub", decimals=8).basis()

    def test_near_points(self):
        vertices, faces = read("ring")
        corners = np.reshape(faces, -1)
        loose = vertices[corners] + np.random.default_rng(4).uniform(-1e-7, 1e-7, (len(corners), 3))
        path = written("pieces.off", off_text(loose, np.arange(len(corners)).reshape(-1, 3)))
        with self.assertRaises(surfbasis.SurfaceRefused):
            surfbasis.Surface.from_file(path).info()
        surface = surfbasis.Surface.from_file(path, tolerance=1e-6, lengths="unit")
        self.assertEqual(surface.basis().units, surfbasis.Surface(vertices, faces, lengths="unit").basis().units)
        found = corners[surface.vertex_origins][surface.faces]
        self.assertEqual(found.tolist(), faces[surface.face_origins].tolist())

    def test_parts(self):
        (vertices, faces), (more, others) = read("eight"), read("ring")
        both = np.concatenate([others, faces + len(more)])
        points = np.concatenate([more, vertices + 10])
        path = written("both.off", off_text(points, both))
        first, second = surfbasis.Surface.from_file(path), surfbasis.Surface.from_file(path, part=1)
        self.assertEqual((first.info().genus, second.info().genus), (2, 1))
        self.assertTrue((points[first.vertex_origins] == first.vertices).all())
        genera = [part.info().genus for part in surfbasis.Surface.mended_parts(points, both)]
        self.assertEqual(genera, [2, 1])
        with self.assertRaises(surfbasis.MeshFileError):
            surfbasis.Surface.from_file(path, part=2)

    def test_arrays(self):
        sheet = surfbasis.Surface.mended(CORNERS, CUBE[:5], close=True)
        self.assertEqual((sheet.info().faces, sheet.face_origins.tolist()), (6, [0, 1, 2, 3, 4, -1]))
        mixed = surfbasis.Surface.mended(CORNERS, [*CUBE[:5], [1, 5, 7]], close=True)
        self.assertEqual([len(face) for face in mixed.faces], [4] * 5 + [3, 3])
        self.assertIsNone(surfbasis.Surface(CORNERS, CUBE).vertex_origins)
        for wrong, kind in [((CORNERS, np.array(CUBE, float)), TypeError), ((8, CUBE), ValueError)]:
            with self.assertRaises(kind):
                surfbasis.Surface.mended(*wrong)
        with self.assertRaises(surfbasis.MeshFileError):
            surfbasis.Surface.mended(CORNERS, [*CUBE, [0, 1, -1]])

    def test_files_that_are_none(self):
        for name, data in [("empty.off", ""), ("words.obj", "hello\n"), ("points.off", "OFF\n1 0 0\n0 0 0\n")]:
            with self.assertRaises(surfbasis.MeshFileError):
                surfbasis.Surface.from_file(written(name, data))
        with self.assertRaises(OSError):
            surfbasis.Surface.from_file(pathlib.Path(ROOM.name, "nowhere.off"))


if __name__ == "__main__":
    unittest.main()
