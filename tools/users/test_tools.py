#!/usr/bin/env python3
"""Tests of the tools beside the program: python3 tools test_tools"""

import base64
import gzip
import json
import pathlib
import re
import struct
import subprocess
import sys
import tempfile
import unittest

from tools import TOP

POINTS = [(0, 0, 0), (1, 0, 0), (0, 1, 0), (0, 0, 1)]
FACES = [(0, 1, 2), (0, 3, 1), (0, 2, 3), (1, 3, 2)]
TET = "OFF\n4 4 6\n0 0 0\n1 0 0\n0 1 0\n0 0 1\n3 0 1 2\n3 0 3 1\n3 0 2 3\n3 1 3 2\n"
OBJ = "".join("v %d %d %d\n" % p for p in POINTS) + "".join("f %d/1 %d %d//2\n" % tuple(c + 1 for c in f)
                                                            for f in FACES)
PLY_HEAD = ("ply\nformat %s 1.0\ncomment made by hand\nelement vertex 4\nproperty float x\nproperty float y\n"
            "property float z\n")
PLY_HEAD += "element face 4\nproperty list uchar int vertex_indices\nend_header\n"
PLY = PLY_HEAD % "ascii" + "".join("%d %d %d\n" % p for p in POINTS) + "".join("3 %d %d %d\n" % f for f in FACES)
PLY_BYTES = (PLY_HEAD % "binary_little_endian").encode()
PLY_BYTES += b"".join(struct.pack("<3f", *p) for p in POINTS) + b"".join(struct.pack("<B3i", 3, *f) for f in FACES)
FACET = "facet normal 0 0 0\nouter loop\n%sendloop\nendfacet\n"
STL = "solid tet\n" + "".join(FACET % "".join("vertex %d %d %d\n" % POINTS[c] for c in f) for f in FACES) + "endsolid\n"
STL_BYTES = bytes(80) + struct.pack("<I", 4)
STL_BYTES += b"".join(struct.pack("<12fH", 0, 0, 0, *POINTS[f[0]], *POINTS[f[1]], *POINTS[f[2]], 0) for f in FACES)
LOOSE = "off 4 4 6 0 0 0 1 0 0 # corners\n0 1 0 0 0 1\n3 0 1 2 3 0 3 1\n3 0 2 3 3 1 3 2\n"


def run(tool, *words):
    return subprocess.run([sys.executable, TOP / "tools", tool, *map(str, words)], capture_output=True, text=True,
                          check=True).stdout


class Conversions(unittest.TestCase):
    def test_each_format_gives_the_same_mesh(self):
        files = {"a.obj": OBJ, "a.ply": PLY, "b.ply": PLY_BYTES, "a.off": LOOSE}
        with tempfile.TemporaryDirectory() as room:
            for name, text in files.items():
                path = pathlib.Path(room, name)
                path.write_bytes(text if isinstance(text, bytes) else text.encode())
                self.assertEqual(run("to_off.py", path), TET, name)

    def test_points_of_stl_are_merged(self):
        for name, text in {"a.stl": STL.encode(), "b.stl": STL_BYTES}.items():
            with tempfile.TemporaryDirectory() as room:
                path = pathlib.Path(room, name)
                path.write_bytes(text)
                # Points are numbered as they first appear, which is the order of the corners here.
                self.assertEqual(run("to_off.py", path), TET, name)

    def test_near_points_and_lone_points(self):
        text = OBJ.replace("v 0 0 1\n", "v 0 0 1\nv 5 5 5\nv 0.0000001 0 0\n").replace("f 1/1 4 2//2", "f 6 4 2")
        with tempfile.TemporaryDirectory() as room:
            path = pathlib.Path(room, "a.obj")
            path.write_text(text)
            self.assertEqual(run("to_off.py", path, "--tolerance", "1e-6"), TET)

    def test_the_largest_part(self):
        text = OBJ + "v 9 9 9\nv 9 8 9\nv 9 9 8\nf 5 6 7\n"
        with tempfile.TemporaryDirectory() as room:
            path = pathlib.Path(room, "a.obj")
            path.write_text(text)
            self.assertEqual(run("to_off.py", path), TET)


class Unfolding(unittest.TestCase):
    CUT = "OFF\n6 4 9\n" + "0 0 0\n" * 3 + "1 0 0\n0 1 0\n0 0 1\n3 0 3 4\n3 1 5 3\n3 2 4 5\n3 3 5 4\n"
    CUT += "".join("# copy %d from %d\n" % pair for pair in enumerate([0, 0, 0, 1, 2, 3]))

    def test_a_cut_mesh_is_laid_into_the_plane(self):
        with tempfile.TemporaryDirectory() as room:
            cut, flat, skin = (pathlib.Path(room, name) for name in ("cut.off", "flat.off", "skin.obj"))
            cut.write_text(self.CUT)
            run("unfold.py", cut, "--off", flat, "--obj", skin)
            rows = [row.split() for row in flat.read_text().splitlines()]
            self.assertEqual(rows[8:], [row.split() for row in self.CUT.splitlines()[8:12]])
            points = [(float(row[0]), float(row[1])) for row in rows[2:8]]
            sides = [(points[b][0] - points[a][0]) * (points[c][1] - points[a][1])
                     - (points[b][1] - points[a][1]) * (points[c][0] - points[a][0])
                     for a, b, c in [(0, 3, 4), (1, 5, 3), (2, 4, 5), (3, 5, 4)]]
            self.assertTrue(all(side > 0.01 for side in sides) or all(side < -0.01 for side in sides))
            text = skin.read_text().splitlines()
            self.assertEqual([row for row in text if row.startswith("f ")],
                             ["f 1/1 2/4 3/5", "f 1/2 4/6 2/4", "f 1/3 3/5 4/6", "f 2/4 4/6 3/5"])
            self.assertEqual(text[:4], ["v 0 0 0", "v 1 0 0", "v 0 1 0", "v 0 0 1"])


class Pictures(unittest.TestCase):
    def shown(self, answer, kind, mesh=TET):
        with tempfile.TemporaryDirectory() as room:
            mesh_path, answer_path, out = (pathlib.Path(room, name) for name in ("m.off", "answer", "out"))
            mesh_path.write_text(mesh)
            answer_path.write_text(answer)
            run("show.py", mesh_path, answer_path, f"--{kind}", out, "--size", "40")
            return out.read_bytes()

    def test_walks_are_polylines(self):
        text = self.shown("loops 1\ntotal 3\nloop 3 0 1 2 0\n", "obj").decode()
        self.assertEqual(text.count("\nf "), 4)
        self.assertTrue(text.endswith("\nl 1 2 3 1\n"))

    def test_walks_alone(self):
        text = self.shown("cycle 3 0 1 2 0\n", "vect").decode().splitlines()
        self.assertEqual(text[:4], ["VECT", "1 4 1", "4", "1"])
        self.assertEqual(text[4:8], ["0 0 0", "1 0 0", "0 1 0", "0 0 0"])

    def test_evidence_is_coloured(self):
        rows = self.shown("null 1 2\n", "coff").decode().splitlines()[6:]
        self.assertEqual([row.endswith("255 209 102") for row in rows], [False, False, True, False])
        self.assertEqual(self.shown("odd 2 0 1 1 3\n", "obj").decode().count("\nl "), 2)

    def test_a_cut_is_drawn_on_the_mesh(self):
        cut = "OFF\n5 4 8\n0 0 0\n0 0 0\n1 0 0\n0 1 0\n0 0 1\n3 0 2 3\n3 1 4 2\n3 1 3 4\n3 2 4 3\n"
        cut += "".join("# copy %d from %d\n" % pair for pair in enumerate([0, 0, 1, 2, 3]))
        text = self.shown(cut, "obj").decode()
        self.assertTrue(text.endswith("\nl 1 2\nl 1 3\n"))

    def test_what_was_added_is_left_out(self):
        hub = TET.replace("4 4 6", "6 6 10") + "# added faces 4 vertices 4\n"
        hub = hub.replace("3 0 1 2\n", "9 9 9\n8 8 8\n3 0 1 2\n", 1).replace("# added", "3 0 1 4\n3 1 2 5\n# added")
        text = self.shown("cycle 3 0 1 2 0\ncycle 9 0 1 4 0\nnull 2 1 5\n", "obj", hub).decode()
        self.assertEqual((text.count("\nv ") + 1, text.count("\nf "), text.count("\nl ")), (4, 4, 1))
        self.assertTrue(text.endswith("\nl 1 2 3 1\n"))

    def test_a_page_that_turns(self):
        page = self.shown("cycle 3 0 1 2 0\n", "html").decode()
        self.assertTrue(page.startswith("<!doctype html>") and "<title>m</title>" in page)
        data = gzip.decompress(base64.b64decode(re.search('id="scene">([^<]+)<', page)[1]))
        head = json.loads(data[4 : 4 + struct.unpack_from("<I", data)[0]])
        self.assertEqual((head["points"]["count"], head["faces"]["count"], head["isCut"]), (4, 4, False))
        self.assertEqual(head["lines"], [{"size": 4, "isWalk": True, "units": 3, "decimals": 0}])

    def test_pictures_are_pictures(self):
        image = self.shown("cycle 3 0 1 2 0\n", "png")
        self.assertEqual(image[:8], b"\x89PNG\r\n\x1a\n")
        self.assertEqual(struct.unpack(">II", image[16:24]), (40, 40))
        drawing = self.shown("cycle 3 0 1 2 0\n", "svg").decode()
        self.assertEqual((drawing.count("<polygon"), drawing.count("<line")), (4, 3))


if __name__ == "__main__":
    unittest.main()
