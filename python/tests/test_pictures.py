"""Pictures with and without matplotlib, the command that draws one, and the examples."""

import os
import pathlib
import struct
import subprocess
import sys
import unittest
import zlib
from unittest import mock

import numpy as np
import surfbasis
import surfbasis.plot
from support import CORNERS, CUBE, MESHES, ROOM, TOP, characteristic, read
from surfbasis import _painting

try:
    import matplotlib

    matplotlib.use("Agg")
except ImportError:
    matplotlib = None

RED, BLUE = (214, 39, 40), (31, 119, 180)
NO_MATPLOTLIB = {"matplotlib": None, "matplotlib.figure": None, "matplotlib.pyplot": None}


def pixels_of(path):
    """The pixels of a PNG as the package writes it, shape (height, width, 3)."""
    data = pathlib.Path(path).read_bytes()
    width, height = struct.unpack_from(">II", data, 16)
    size = struct.unpack_from(">I", data, 33)[0]
    rows = np.frombuffer(zlib.decompress(data[41 : 41 + size]), np.uint8).reshape(height, 1 + 3 * width)
    return rows[:, 1:].reshape(height, width, 3).astype(int)


def count_near(pixels, colour, within=25):
    return int((np.abs(pixels - colour).max(axis=2) <= within).sum())


def count_yellow(pixels):
    """The pixels of marked faces, however bright: with much more red than blue."""
    return int((pixels[:, :, 0] > 1.5 * pixels[:, :, 2]).sum())


class Painted(unittest.TestCase):
    """Without matplotlib."""

    def picture(self, surface, shown=None, **how):
        path = os.path.join(ROOM.name, "painted.png")
        with mock.patch.dict(sys.modules, NO_MATPLOTLIB):
            surfbasis.plot.save(path, surface, shown, size=200, **how)
        return pixels_of(path)

    def test_a_basis(self):
        surface = surfbasis.Surface(*read("eight"))
        bare, drawn = self.picture(surface), self.picture(surface, surface.basis())
        self.assertEqual(drawn.shape, (200, 200, 3))
        self.assertEqual(drawn[0, 0].tolist(), [255, 255, 255])
        self.assertEqual(count_near(bare, RED), 0)
        self.assertGreater(count_near(drawn, RED), 20)
        self.assertGreater(count_near(drawn, BLUE), 20)

    def test_what_is_behind_is_hidden(self):
        cube = surfbasis.Surface(CORNERS, CUBE)
        front, back = surfbasis.Walk(np.array([1, 5, 7, 3]), 0, 0), surfbasis.Walk(np.array([0, 2, 6, 4]), 0, 0)
        above = [self.picture(cube, walk, tilt=70) for walk in (front, back)]
        below = [self.picture(cube, walk, tilt=-70) for walk in (front, back)]
        self.assertGreater(count_near(above[0], RED), 2 * count_near(above[1], RED))
        self.assertGreater(count_near(below[1], RED), 2 * count_near(below[0], RED))

    def test_cuts_evidence_and_values(self):
        surface = surfbasis.Surface(*read("eight"))
        self.assertGreater(count_near(self.picture(surface, surface.cut()), RED), 100)
        self.assertGreater(count_near(self.picture(surface, surface.classify(surface.cycle())), RED), 20)
        half = surfbasis.Evidence(True, np.arange(756), None, b"")
        self.assertEqual(count_yellow(self.picture(surface)), 0)
        self.assertGreater(count_yellow(self.picture(surface, half)), 1000)
        by_vertex = self.picture(surface, values=surface.distances(0).lengths)
        by_face = self.picture(surface, values=np.arange(1512))
        self.assertGreater(np.abs(by_vertex - by_face).max(), 30)
        with self.assertRaises(ValueError):
            self.picture(surface, values=[1.0, 2.0])

    def test_polygons_of_all_sizes(self):
        cube = surfbasis.Surface(CORNERS, [*CUBE[:5], [1, 5, 7], [1, 7, 3]])
        self.assertGreater(count_near(self.picture(cube), (255, 255, 255), 0), 1000)
        self.assertGreater((self.picture(cube) < 250).all(axis=2).sum(), 10000)

    def test_what_closes_holes_is_left_out(self):
        vertices, faces = read("eight")
        whole = self.picture(surfbasis.Surface(vertices, faces))
        for close in (True, "hub"):
            holed = surfbasis.Surface.mended(vertices, np.delete(faces, np.arange(0, 1512, 400), axis=0), close=close)
            seen = self.picture(holed)
            self.assertLess((np.abs(seen - whole).max(axis=2) > 60).mean(), 0.05)
            self.assertGreater((seen != whole).any(axis=2).sum(), 5)

    def test_other_endings_want_matplotlib(self):
        with mock.patch.dict(sys.modules, NO_MATPLOTLIB), self.assertRaises(ImportError):
            surfbasis.plot.save(os.path.join(ROOM.name, "a.svg"), surfbasis.Surface(CORNERS, CUBE))

    def test_places_are_needed(self):
        with self.assertRaises(ValueError):
            self.picture(surfbasis.Surface(7, read("torus7")[1]))


class Canvas(unittest.TestCase):
    def test_the_nearest_is_seen(self):
        canvas = _painting.Canvas(8)
        square = np.array([[[0, 0, 0], [8, 0, 0], [0, 8, 0]], [[8, 8, 0], [8, 0, 0], [0, 8, 0]]], float)
        canvas.triangles(square, np.array([RED, RED], float))
        canvas.triangles(square[:1] + (0, 0, 1), np.array([BLUE], float))
        canvas.triangles(square + (0, 0, -1), np.zeros((2, 3)))
        colours = canvas.colours.reshape(8, 8, 3)
        self.assertEqual((tuple(colours[1, 1]), tuple(colours[7, 7])), (BLUE, RED))

    def test_segments_have_no_gaps(self):
        canvas = _painting.Canvas(50)
        canvas.segments(np.array([[[2, 3, 0], [47, 20, 0]]], float), np.array(RED, float), np.zeros((1, 3)))
        painted = (canvas.colours.reshape(50, 50, 3) == RED).all(axis=2)
        self.assertEqual(painted.any(axis=0).nonzero()[0].tolist(), list(range(2, 48)))

    def test_flat_triangles_and_dots_outside(self):
        canvas = _painting.Canvas(4)
        canvas.triangles(np.zeros((1, 3, 3)), np.array([RED], float))
        canvas.put(np.array([[-1, 2, 0], [9, 9, 0]], float), np.array([RED, RED], float))
        self.assertTrue((canvas.colours == 255).all())


@unittest.skipUnless(matplotlib, "matplotlib isn't here")
class Plotted(unittest.TestCase):
    def test_endings(self):
        surface = surfbasis.Surface(*read("eight"))
        for ending, front in [("png", b"\x89PNG"), ("svg", b"<?xml"), ("pdf", b"%PDF")]:
            path = pathlib.Path(ROOM.name, f"plotted.{ending}")
            surfbasis.plot.save(path, surface, surface.basis())
            self.assertTrue(path.read_bytes().startswith(front))

    def test_what_is_drawn(self):
        import matplotlib.pyplot as plt

        surface = surfbasis.Surface(*read("eight"))
        basis = surface.basis()
        axes = surfbasis.plot.draw(surface, basis)
        self.addCleanup(plt.close, axes.figure)
        shapes = axes.collections[0].get_paths()
        self.assertEqual(len(shapes), 1512 + sum(len(walk) for walk in basis))
        told = [text.get_text() for text in axes.get_legend().get_texts()]
        self.assertEqual(told, [f"{walk.length:.6g}" for walk in basis])
        self.assertIs(surfbasis.plot.draw(surface, surface.cut(), axes=axes), axes)


class Commands(unittest.TestCase):
    def ran(self, *words):
        done = subprocess.run([sys.executable, *map(str, words)], cwd=ROOM.name, capture_output=True, text=True)
        return done.returncode, done.stdout, done.stderr

    def test_the_picture_of_a_basis(self):
        status, out, diag = self.ran("-m", "surfbasis", MESHES / "eight.off")
        self.assertEqual((status, diag), (0, ""))
        self.assertEqual((out.splitlines()[0].split()[:2], out.splitlines()[-1]), (["4", "cycles,"], "eight.png"))
        self.assertTrue(pathlib.Path(ROOM.name, "eight.png").read_bytes().startswith(b"\x89PNG"))
        self.assertEqual(self.ran("-m", "surfbasis", MESHES / "ring.off", "ring.html")[0], 0)
        self.assertTrue(pathlib.Path(ROOM.name, "ring.html").read_text().startswith("<!doctype html>"))
        status, out, diag = self.ran("-m", "surfbasis", MESHES / "ring.off", "loops.png", "--base", "3")
        self.assertEqual((status, out.splitlines()[0].split()[:2]), (0, ["2", "loops,"]))

    def test_refusals(self):
        vertices, faces = read("tet")
        path = pathlib.Path(ROOM.name, "open.obj")
        rows = ["v " + " ".join(map(str, row)) for row in vertices.tolist()]
        path.write_text("\n".join(rows + ["f " + " ".join(str(v + 1) for v in face) for face in faces[:3].tolist()]))
        status, out, diag = self.ran("-m", "surfbasis", path)
        self.assertEqual((status, out, diag.splitlines()[0]), (4, "", "surface: border 1 2 0"))
        self.assertEqual(self.ran("-m", "surfbasis", path, "--close")[0], 0)
        self.assertEqual(self.ran("-m", "surfbasis", "nowhere.off")[:2], (1, ""))

    def test_draw_basis(self):
        status, out, diag = self.ran(TOP / "python/examples/draw_basis.py", MESHES / "eight.off", "drawn.png")
        self.assertEqual((status, diag), (0, ""))
        self.assertTrue(pathlib.Path(ROOM.name, "drawn.png").read_bytes().startswith(b"\x89PNG"))

    def test_unfolding_seams(self):
        example = TOP / "python/examples/unfolding_seams.py"
        status, out, diag = self.ran(example, MESHES / "eight.off", "opened.obj", "6")
        if "WordsRefused" in diag:
            self.skipTest("this build of surf has no cut through vertices")
        self.assertEqual((status, diag), (0, ""))
        rows = [line.split() for line in pathlib.Path(ROOM.name, "opened.obj").read_text().splitlines()]
        faces = [list(map(int, row[1:])) for row in rows if row[0] == "f"]
        self.assertEqual(len(faces), 1512)
        self.assertEqual(characteristic(sum(row[0] == "v" for row in rows), faces), 1)

    def test_distance_from_loops(self):
        status, out, diag = self.ran(TOP / "python/examples/distance_from_loops.py", MESHES / "eight.off", "far.png")
        self.assertEqual((status, diag), (0, ""))
        self.assertTrue(pathlib.Path(ROOM.name, "far.png").read_bytes().startswith(b"\x89PNG"))


if __name__ == "__main__":
    unittest.main()
