#!/usr/bin/env python3
"""Tests of the readers and of the mender: python3 tools test_meshfiles

All of it is tried on lists, and where numpy is there on arrays too, which have to give the same bytes."""

import contextlib
import gzip
import json
import os
import pathlib
import random
import struct
import subprocess
import sys
import tempfile
import unittest

from tools import TOP
from tools.oracles.surfaces import characteristic, fault_of
from tools.users import meshfiles
from tools.users.meshfiles import MeshFileError, Soup, mend, mend_all, read_bytes, read_mesh
from tools.users.meshfiles.soup import np
from tools.users.off import read_off

MESHES, CASES = TOP / "meshes", TOP / "tools/oracles/cases/meshes"


POINTS = [(0, 0, 0), (1, 0, 0), (0, 1, 0), (0, 0, 1)]
FACES = [[0, 1, 2], [0, 3, 1], [0, 2, 3], [1, 3, 2]]
TET = b"OFF\n4 4 6\n0 0 0\n1 0 0\n0 1 0\n0 0 1\n3 0 1 2\n3 0 3 1\n3 0 2 3\n3 1 3 2\n"
ROWS = "3 0 1 2\n3 0 3 1\n3 0 2 3\n3 1 3 2\n"
PLACES = "0 0 0\n1 0 0\n0 1 0\n0 0 1\n"


def as_lists(soup):
    """The soup with lists for its tables, as there are where numpy isn't."""
    plain = object.__new__(Soup)
    plain.points = [tuple(map(float, point)) for point in soup.points]
    plain.corners, plain.starts = list(map(int, soup.corners)), list(map(int, soup.starts))
    return plain


def both_ways(soup):
    return [as_lists(soup)] if np is None else [as_lists(soup), soup]


def ring():
    mesh = read_off((MESHES / "ring.off").read_text())
    return mesh.points, mesh.faces


def text_of_stl(points, faces):
    facet = "facet normal 0 0 0\nouter loop\n{}endloop\nendfacet\n"
    rows = (facet.format("".join("vertex {} {} {}\n".format(*points[c]) for c in face)) for face in faces)
    return "solid made by hand\n" + "".join(rows) + "endsolid\n"


def bytes_of_stl(points, faces, head=b""):
    rows = (struct.pack("<12fH", 0, 0, 0, *points[a], *points[b], *points[c], 7) for a, b, c in faces)
    return head.ljust(80, b"\0") + struct.pack("<I", len(faces)) + b"".join(rows)


def head_of_ply(form, vertex="float", lists="uchar int", more="", name="vertex_indices"):
    axes = "".join(f"property {vertex} {axis}\n" for axis in "xyz")
    head = f"ply\nformat {form} 1.0\ncomment made by hand\nelement vertex 4\n{axes}{more}"
    return f"{head}element face 4\nproperty list {lists} {name}\nend_header\n".encode()


class Files(unittest.TestCase):
    """What is read of each format, by the regular way and by that of words."""

    def read(self, data, name=""):
        """The soup of the bytes, in a run with numpy's ways and in one without, which have to agree."""
        data = data.encode() if isinstance(data, str) else data
        soups = [read_bytes(data, name)]
        if np is not None:
            soups.append(without_numpy(data, name))
            self.assertEqual(
                repr([list(map(float, p)) for p in soups[0].points]), repr([list(p) for p in soups[1].points])
            )
            self.assertEqual(soups[0].faces, soups[1].faces)
        return soups[0]

    def same(self, data, name="", points=POINTS, faces=FACES):
        soup = self.read(data, name)
        self.assertEqual(([tuple(p) for p in soup.points], soup.faces), (points, faces))

    def test_off(self):
        for head in (
            "OFF\n4 4 6\n",
            "off\n4 4 6\n",
            "OFF 4 4 6\n",
            "4 4 6\n",
            "# a\n\nOff # b\n\n4 4\n",
            "OFF4 4 6\n",
        ):
            self.same(head + PLACES + ROWS)
        self.same(("OFF\n4 4 6\n" + PLACES + ROWS).replace("\n", "\r\n"))
        self.same("OFF 4 4 6 0 0 0 1 0 0 0 1 0 0 0 1 3 0 1 2 3 0 3 1 3 0 2 3 3 1 3 2")
        self.same("off 4 4 6 0 0 0  1 0 0 # corners\n0 1 0  0 0 1\n3 0 1 2  3 0 3 1\n3 0 2 3 3 1 3 2\n")
        self.same(b"\xef\xbb\xbfOFF\n4 4 6\n" + (PLACES + ROWS).encode())
        self.same(("OFF\n4 4 6\n" + PLACES + ROWS).encode("utf-16"), "a.off")

    def test_a_vertex_that_is_nowhere(self):
        """As scanners write points that they didn't see."""
        for text, name in (
            (f"OFF\n5 4 6\n{PLACES}nan nan nan\n{ROWS}", "a.off"),
            (
                "".join("v %d %d %d\n" % p for p in POINTS)
                + "v nan 0 0\n"
                + "".join("f %d %d %d\n" % tuple(c + 1 for c in face) for face in FACES),
                "a.obj",
            ),
        ):
            self.assertEqual(mend(self.read(text, name)).off_text(), TET)

    def test_colours_of_off(self):
        coloured = "".join(
            row + more + "\n" for row, more in zip(ROWS.splitlines(), ["", " 7", " 0.9 0.1 0.1", " 1 2 3 4"])
        )
        self.same("OFF\n4 4 6\n" + PLACES + coloured)
        self.same("OFF\n4 4 6\n" + PLACES + ROWS.replace("\n", " 255 0 0\n"))
        self.same("COFF\n4 4 6\n" + PLACES.replace("\n", " 255 0 0 255\n") + ROWS)
        self.same("OFF\n4 4 6\n" + PLACES.replace("\n", " 0.5 0 0\n") + ROWS)
        self.same("CNOFF\n4 4 6\n" + PLACES.replace("\n", " 0 0 1 1 0 0 1 ") + ROWS)
        self.same("STOFF 4 4 6\n" + PLACES.replace("\n", " 0.5 0.5  ") + ROWS.replace("\n", " "))
        self.same("{\nOFF\n4 4 6\n" + PLACES + ROWS + "}\n")
        self.same("appearance {\n  texture { file a }\n}\nOFF\n4 4 6\n" + PLACES + ROWS)

    def test_dimensions_of_off(self):
        self.same("4OFF\n4 4 6\n" + PLACES.replace("1", "2").replace("\n", " 2\n") + ROWS)
        self.same("nOFF 5\n4 4 6\n" + PLACES.replace("\n", " 8 9\n") + ROWS)
        self.same("nOFF\n2\n3 1 3\n0 0\n1 0\n0 1\n3 0 1 2\n", points=POINTS[:3], faces=FACES[:1])

    def test_polygons_of_off(self):
        points = [(0, 0, 0), (1, 0, 0), (1, 1, 0), (0, 1, 0), (0.5, 0.5, 1)]
        rows = "".join("%g %g %g\n" % point for point in points)
        faces = [[0, 1, 4], [1, 2, 4], [2, 3, 4], [3, 0, 4], [3, 2, 1, 0]]
        text = "OFF\n5 5 8\n" + rows + "3 0 1 4\n3 1 2 4\n3 2 3 4\n3 3 0 4\n4 3 2 1 0\n"
        self.same(text, points=points, faces=faces)
        self.same(text.replace("4 3 2 1 0", "4 3 2\n1 0"), points=points, faces=faces)

    def test_binary_off(self):
        body = struct.pack(">3i", 4, 4, 6) + b"".join(struct.pack(">3f", *point) for point in POINTS)
        body += b"".join(struct.pack(">4ii", 3, *face, 0) for face in FACES[:2])
        body += b"".join(struct.pack(">4ii4f", 3, *face, 4, 1, 0, 0, 1) for face in FACES[2:])
        self.same(b"OFF BINARY\n" + body)

    def test_obj(self):
        vertices = "".join("v %d %d %d\n" % point for point in POINTS)
        faces = "".join("f %d %d %d\n" % tuple(c + 1 for c in face) for face in FACES)
        self.same(vertices + faces, "a.obj")
        self.same(
            "# a\nmtllib b\no c\ng d\nvn 0 0 1\nvt 0 0\n" + vertices + "s 1\nusemtl e\n" + faces + "l 1 2\n", "a.obj"
        )
        self.same(vertices.replace("\n", " 0.5 0.5 0.5\n") + faces.replace(" ", " ").replace("1", "1/1"), "a.obj")
        self.same(vertices + "".join("f %d/7/8 %d//9 %d/3\n" % tuple(c + 1 for c in face) for face in FACES), "a.obj")
        self.same(vertices + "".join("f %d %d %d\n" % tuple(c - 4 for c in face) for face in FACES), "A.OBJ")
        self.same(vertices.replace("1 0 0", "1 \\\n0 0") + faces, "a.obj")
        self.same(vertices.replace("v ", "v\t") + faces.replace("f ", "f\t"), "a.obj")
        self.same(vertices + "f 1 2 3\nf 1 2 3 4\n", "a.obj", faces=[[0, 1, 2], [0, 1, 2, 3]])

    def test_ply_as_text(self):
        rows = (PLACES + ROWS).encode()
        self.same(head_of_ply("ascii") + rows)
        self.same((head_of_ply("ascii") + rows).replace(b"\n", b"\r\n"))
        self.same(head_of_ply("ascii", name="vertex_index") + rows, "a.ply")
        coloured = (
            head_of_ply("ascii", more="property uchar red\n") + PLACES.replace("\n", " 9\n").encode() + ROWS.encode()
        )
        self.same(coloured)
        between = head_of_ply("ascii").replace(
            b"element face", b"element edge 1\nproperty int a\nproperty int b\nelement face"
        )
        self.same(between + PLACES.encode() + b"0 1\n" + ROWS.encode())
        mixed = PLACES.encode() + b"3 0 1 2\n3 0 3 1\n4 0 1 2 3\n3 1 3 2\n"
        self.same(head_of_ply("ascii") + mixed, faces=[[0, 1, 2], [0, 3, 1], [0, 1, 2, 3], [1, 3, 2]])

    def test_ply_in_binary(self):
        kinds = {
            "char": "b",
            "uchar": "B",
            "short": "h",
            "ushort": "H",
            "int": "i",
            "uint": "I",
            "float": "f",
            "double": "d",
        }
        for form, order in (("binary_little_endian", "<"), ("binary_big_endian", ">")):
            for vertex in ("float", "double", "char"):
                for count, item in (("uchar", "int"), ("int", "uint"), ("ushort", "short"), ("uchar", "float")):
                    data = head_of_ply(form, vertex, f"{count} {item}")
                    data += b"".join(struct.pack(f"{order}3{kinds[vertex]}", *point) for point in POINTS)
                    data += b"".join(struct.pack(f"{order}{kinds[count]}3{kinds[item]}", 3, *face) for face in FACES)
                    self.same(data)

    def test_lists_between_in_ply(self):
        head = head_of_ply("binary_little_endian").replace(
            b"element face", b"element other 2\nproperty list uchar short q\nelement face"
        )
        head = head.replace(b"end_header", b"property list uchar float texcoord\nproperty uchar flag\nend_header")
        body = b"".join(struct.pack("<3f", *point) for point in POINTS) + struct.pack("<Bhh", 2, 5, 5) + b"\0"
        self.same(head + body + b"".join(struct.pack("<B3iB2fB", 3, *face, 2, 0.5, 0.5, 1) for face in FACES))
        body += b"".join(struct.pack(f"<B3iB{k}fB", 3, *face, k, *range(k), 1) for k, face in enumerate(FACES))
        self.same(head + body)

    def test_strips_of_ply(self):
        head = head_of_ply("ascii").replace(b"element face 4", b"element tristrips 1")
        self.same(head + PLACES.encode() + b"9 0 1 2 3 -1 1 0 3 -1\n", faces=[[0, 1, 2], [2, 1, 3], [1, 0, 3]])

    def test_stl(self):
        points = [POINTS[c] for face in FACES for c in face]
        faces = [[k, k + 1, k + 2] for k in range(0, 12, 3)]
        text = text_of_stl(POINTS, FACES)
        for data in (
            text,
            text.upper(),
            text.replace("endsolid\n", "endsolid a\nsolid b\nendsolid b\n"),
            "\n" + text,
        ):
            self.same(data, "a.stl", points, faces)
        self.same(text, "", points, faces)
        for head in (b"", b"solid that isn't text", b"solid facet"):
            self.same(bytes_of_stl(POINTS, FACES, head), "a.stl", points, faces)
        quad = text_of_stl(POINTS, [[0, 1, 2, 3]])
        self.same(quad, "a.stl", POINTS, [[0, 1, 2, 3]])

    def test_grids(self):
        places = [(float(x), float(y), 0.5) for y in range(2) for x in range(3)]
        squares = [[0, 1, 4, 3], [1, 2, 5, 4]]
        self.same("ZMESH 3 2\n0.5 0.5 0.5\n0.5 0.5 0.5\n", "a.mesh", places, squares)
        rows = "".join("%g %g %g" % p + " 0 0 1  1 0 0 1\n" for p in places)
        self.same("# a\nCNMESH\n3 2\n" + rows, "", places, squares)
        rows = "".join("%g %g %g\n" % p for p in places)
        self.same("uMESH\n3 2\n" + rows, "", places, squares + [[2, 0, 3, 5]])
        self.same("vMESH\n3 2\n" + rows, "", places, squares + [[3, 4, 1, 0], [4, 5, 2, 1]])
        self.same("CQUAD\n" + "".join("%g %g %g 1 0 0 1\n" % p for p in places[:4]), "", places[:4], [[0, 1, 2, 3]])

    def test_compressed(self):
        self.same(gzip.compress(TET), "a.off.gz")
        self.same(gzip.compress(TET[:30]) + gzip.compress(TET[30:]), "a.off.gz")
        points = [POINTS[c] for face in FACES for c in face]
        self.same(
            gzip.compress(bytes_of_stl(POINTS, FACES)),
            "a.stl.gz",
            points,
            [[k, k + 1, k + 2] for k in range(0, 12, 3)],
        )


def without_numpy(data, name):
    """The soup of the bytes, read by a Python that is told to do without numpy."""
    global _other
    if _other is None:
        code = (
            "import sys, json; from tools.users.meshfiles import *\nfor row in sys.stdin:\n"
            " data, name = json.loads(row)\n"
            " try: s = read_bytes(bytes.fromhex(data), name); print(json.dumps([s.points, s.corners, s.starts]))\n"
            " except MeshFileError as fault: print(json.dumps(str(fault)))\n sys.stdout.flush()\n"
        )
        _other = subprocess.Popen(
            [sys.executable, "-c", code],
            cwd=TOP,
            stdin=subprocess.PIPE,
            stdout=subprocess.PIPE,
            text=True,
            env={**os.environ, "MESHFILES_PLAIN": "1", "PYTHONDONTWRITEBYTECODE": "1"},
        )
    _other.stdin.write(json.dumps([data.hex(), name]) + "\n")
    _other.stdin.flush()
    came = json.loads(_other.stdout.readline())
    if isinstance(came, str):
        raise MeshFileError(came)
    soup = object.__new__(Soup)
    soup.points, soup.corners, soup.starts = came
    return soup


_other = None


def tearDownModule():
    if _other is not None:
        _other.communicate()


class Refusals(unittest.TestCase):
    """Files that can't be read: one line, that says what and where."""

    CASES = {
        "cut quad": ("a.quad", b"QUAD\n0 0 0 1 0 0 0 1 0 1 1", "the text ends within face 0"),
        "cut grid": ("a.mesh", b"MESH\n2 2\n0 0 0 1 0 0 0 1 0 1 1", "the text ends before vertex 3 of 4 is complete"),
        "great grid": (
            "a.mesh",
            b"MESH\n99999 99999\n0 0 0",
            "the head: 9999800001 vertices and 0 faces are claimed, and the file has 22 bytes",
        ),
        "nothing": ("a.off", b"", "there is no word in the file"),
        "words": ("a.off", b"hello\n", "line 1: `hello` is neither a keyword of OFF nor a count of vertices"),
        "counts": ("a.off", b"OFF\n4\n", "the text ends before the count of faces"),
        "billions": (
            "a.off",
            b"OFF\n353535235358 6 0\n",
            "line 2: 353535235358 vertices and 6 faces are claimed, and the file has 21 bytes",
        ),
        "below 0": ("a.off", b"OFF\n-4 4 6\n" + PLACES.encode(), "line 2: counts that no mesh has"),
        "no number": ("a.off", TET.replace(b"1 0 0", b"1 zero 0"), "line 4: `zero` is no number"),
        "nan": ("a.off", TET.replace(b"1 0 0", b"1 NaN 0"), "vertex 1 has a coordinate that is no finite number"),
        "infinite": (
            "a.off",
            TET.replace(b"1 0 0", b"1 1e999 0"),
            "vertex 1 has a coordinate that is no finite number",
        ),
        "underscore": ("a.off", TET.replace(b"1 0 0", b"1_0 0 0"), "line 4: `1_0` is no number"),
        "cut off": ("a.off", TET[:-8], "the text ends before face 3 of 4 is complete"),
        "cut off early": (
            "a.off",
            b"OFF\n4 4 6\n0 0 0\n1 0 0\n0 1 0 0 0",
            "the text ends before vertex 3 of 4 is complete",
        ),
        "corner": (
            "a.off",
            TET.replace(b"3 1 3 2", b"3 1 3 4"),
            "face 3 has the corner 4, and the vertices are 0 to 3",
        ),
        "no faces": ("a.off", b"OFF\n4 0 0\n" + PLACES.encode(), "no face: a cloud of points, or curves alone"),
        "size": ("a.off", TET.replace(b"3 1 3 2", b"-3 1 3 2"), "line 10: `-3` is no number of corners"),
        "short vertex": ("a.obj", b"v 0 0\n", "line 1: a vertex has three coordinates, and there are 2"),
        "corner 0": ("a.obj", b"v 0 0 0\nf 0 1 1\n", "line 2: `0` names no vertex"),
        "corner behind": ("a.obj", b"v 0 0 0\nf -2 1 1\n", "line 2: `-2` names no vertex"),
        "corner word": ("a.obj", b"v 0 0 0\nf a b c\n", "line 2: `a` is no whole number below 10^18"),
        "points alone": ("a.obj", b"v 0 0 0\n", "no face: a cloud of points, or curves alone"),
        "no ply": ("a.ply", b"", "line 1: a PLY begins with the word `ply`"),
        "head": ("a.ply", b"ply\nformat ascii 1.0\nelement vertex 4\n", "the head has no line `end_header`"),
        "format": ("a.ply", b"ply\nformat morse 1.0\nend_header\n", "line 2: `morse` is no format of PLY"),
        "property": (
            "a.ply",
            b"ply\nformat ascii 1.0\nelement vertex 1\nproperty words x\nend_header\n",
            "line 4: no property of PLY: `property words x`",
        ),
        "claim": (
            "a.ply",
            head_of_ply("ascii").replace(b"vertex 4", b"vertex 4000000000"),
            "4000000000 times `vertex` is claimed, and the file has 0 bytes behind its head",
        ),
        "cut ply": (
            "a.ply",
            head_of_ply("ascii") + PLACES.encode() + ROWS.encode()[:-4],
            "face 3 of 4: a list can't have 3 items there",
        ),
        "list": (
            "a.ply",
            head_of_ply("ascii") + PLACES.encode() + b"9999 0 1 2\n" + ROWS.encode(),
            "face 0 of 4: a list can't have 9999 items there",
        ),
        "word in ply": (
            "a.ply",
            head_of_ply("ascii") + PLACES.encode().replace(b"1 0 0", b"1 x 0") + ROWS.encode(),
            "vertex 1 of 4: `x` is no number",
        ),
        "great word in ply": (
            "a.ply",
            head_of_ply("ascii", "int") + PLACES.encode().replace(b"1 0 0", b"1 %s 0" % (b"9" * 400)) + ROWS.encode(),
            "vertex 1 has a coordinate that is no finite number",
        ),
        "nan in ply": (
            "a.ply",
            head_of_ply("ascii") + PLACES.encode().replace(b"1 0 0", b"1 nan 0") + ROWS.encode(),
            "vertex 1 has a coordinate that is no finite number",
        ),
        "no bytes": ("a.stl", b"", "neither a text with facets nor a binary STL, of which 84 bytes are the head"),
        "short stl": (
            "a.stl",
            bytes_of_stl(POINTS, FACES)[:-60],
            "byte 80: 4 triangles are claimed, and the file holds 2",
        ),
        "open facet": (
            "a.stl",
            text_of_stl(POINTS, FACES).encode().split(b"endloop")[0],
            "the text ends within a facet",
        ),
        "vertex of stl": (
            "a.stl",
            text_of_stl(POINTS, FACES).replace("1 0 0", "1 blah 0", 1).encode(),
            "line 5: `blah` is no number",
        ),
        "word of stl": (
            "a.stl",
            text_of_stl(POINTS, FACES).replace("outer", "inner", 1).encode(),
            "line 3: `inner` is no word of an STL",
        ),
        "cut gzip": ("a.off.gz", gzip.compress(TET)[:-9], "the gzip file is cut off"),
        "bad gzip": ("a.off.gz", gzip.compress(TET)[:14] + b"\xff\xff" + gzip.compress(TET)[16:], None),
    }

    def test_each_is_one_line(self):
        for name, (file, data, due) in self.CASES.items():
            for read in [read_bytes] + ([without_numpy] if np is not None else []):
                with self.assertRaises(MeshFileError, msg=name) as caught:
                    read(data, file)
                told = str(caught.exception)
                self.assertEqual(len(told.splitlines()), 1)
                if due is not None:
                    self.assertEqual(told, due, name)

    def test_the_command_says_it(self):
        with tempfile.TemporaryDirectory() as room:
            path = pathlib.Path(room, "a.off")
            path.write_bytes(TET[:-8])
            for words, told in (
                ([path], f"to_off: {path}: the text ends before face 3 of 4 is complete\n"),
                ([pathlib.Path(room, "none.off")], f"to_off: {room}/none.off: No such file or directory\n"),
                ([room], f"to_off: {room}: Is a directory\n"),
            ):
                ran = subprocess.run([sys.executable, TOP / "tools", "to_off", *words], capture_output=True, text=True)
                self.assertEqual((ran.returncode, ran.stdout, ran.stderr), (1, "", told))

    def test_a_bomb_is_refused(self):
        least, meshfiles.files.MOST_BYTES = meshfiles.files.MOST_BYTES, 1000
        try:
            with self.assertRaisesRegex(MeshFileError, "uncompressed, more than 1,000 bytes"):
                read_bytes(gzip.compress(bytes(100000)), "a.stl.gz")
        finally:
            meshfiles.files.MOST_BYTES = least


class Spoiled(unittest.TestCase):
    """Copies of good files that are spoiled by chance: a mesh or one line comes of each, and the same both ways."""

    def files(self):
        points, faces = ring()
        faces = faces[:40]
        names = sorted({c for face in faces for c in face})
        points, faces = [points[c] for c in names], [[names.index(c) for c in face] for face in faces]
        rows = "".join("%g %g %g\n" % point for point in points), "".join(
            "3 %d %d %d\n" % tuple(face) for face in faces
        )
        head = (
            head_of_ply("ascii")
            .replace(b"vertex 4", b"vertex %d" % len(points))
            .replace(b"face 4", b"face %d" % len(faces))
        )
        yield "a.off", f"OFF\n{len(points)} {len(faces)} 0\n{rows[0]}{rows[1]}".encode()
        yield "a.obj", "".join("v %g %g %g\n" % p for p in points).encode() + "".join(
            "f %d/1/1 %d/1/1 %d/1/1\n" % tuple(c + 1 for c in f) for f in faces
        ).encode()
        yield "a.ply", head + "".join(rows).encode()
        body = b"".join(struct.pack("<3f", *point) for point in points)
        yield "b.ply", head.replace(b"ascii", b"binary_little_endian") + body + b"".join(
            struct.pack("<B3i", 3, *f) for f in faces
        )
        yield "a.stl", text_of_stl(points, faces).encode()
        yield "b.stl", bytes_of_stl(points, faces)
        yield "c.off.gz", gzip.compress(f"OFF\n{len(points)} {len(faces)} 0\n{rows[0]}{rows[1]}".encode())

    def spoiled(self, data, chance):
        kind, at = chance.randrange(6), chance.randrange(len(data))
        if kind == 0:
            return data[:at]
        if kind == 1:
            return data[:at] + data[at + chance.randrange(1, 30) :]
        if kind == 2:
            return data[:at] + bytes(chance.randrange(256) for _ in range(chance.randrange(1, 5))) + data[at + 1 :]
        if kind == 3:
            word = chance.choice(
                [b"nan", b"-1", b"999999999999999999999", b"1e400", b" ", b"\n", b"#", b"4294967295", b"0", b"x"]
            )
            return data[:at] + word + data[at + chance.randrange(0, 4) :]
        if kind == 4:
            start = chance.randrange(len(data))
            return data[:at] + data[start : start + chance.randrange(1, 60)] + data[at:]
        return bytes(b ^ (1 << chance.randrange(8)) if chance.random() < 0.002 else b for b in data)

    def test_no_other_end(self):
        count = int(os.environ.get("MESHFILES_SPOILED", "60"))
        for name, data in self.files():
            chance = random.Random(name)
            for turn in range(count):
                worse = self.spoiled(data, chance)
                answers = [
                    self.answer(read, worse, name)
                    for read in [read_bytes] + ([without_numpy] if np is not None else [])
                ]
                self.assertEqual(answers[0], answers[-1], (name, turn))

    def answer(self, read, data, name):
        try:
            soup = read(data, name)
            if read is read_bytes:
                mended = mend(soup, holes="close")
                self.assertIsNone(fault_of(len(mended.points), mended.faces))
            return repr([list(map(float, point)) for point in soup.points]), soup.faces
        except MeshFileError as fault:
            self.assertEqual(len(str(fault).splitlines()), 1)
            return str(fault)


class Case(unittest.TestCase):
    def mended(self, points, faces, **how):
        """What comes of the soup, on lists and on arrays, as surfaces and by the same bytes."""
        return self.mended_soup(Soup.of(points, faces), **how)

    def mended_soup(self, soup, **how):
        found = [mend(soup, **how) for soup in both_ways(soup)]
        for one in found:
            fault = fault_of(len(one.points), one.faces, border=how.get("holes", "keep") == "keep")
            self.assertIsNone(fault)
            self.assertEqual((len(one.points), len(one.faces)), (len(one.vertex_origins), len(one.face_origins)))
            self.assertEqual((one.off_text(), one.map_text()), (found[0].off_text(), found[0].map_text()))
            self.assertEqual(one.report, found[0].report)
        return found[-1]

    def loops(self, mended):
        return 2 - characteristic(len(mended.points), mended.faces)


class Mending(Case):
    """What becomes one, what goes, and what is glued."""

    def test_a_surface_stays(self):
        for name in ("ring", "eight", "plane6", "pillow", "torus7", "torus33", "tet"):
            mesh = read_off((MESHES / f"{name}.off").read_text())
            mended = self.mended(mesh.points, mesh.faces)
            self.assertEqual(([tuple(p) for p in mended.points], mended.faces), (mesh.points, mesh.faces))
            self.assertEqual(mended.report.lines(), ["the surface is one-sided"] if name == "plane6" else [])

    def test_unused_vertices_go(self):
        mended = self.mended([(5, 5, 5), *POINTS, (6, 6, 6)], [[c + 1 for c in face] for face in FACES])
        self.assertEqual(mended.off_text(), TET)
        self.assertEqual(mended.map_text(), b"v 1\nv 2\nv 3\nv 4\nf 0\nf 1\nf 2\nf 3\n")

    def test_a_soup_of_triangles(self):
        points, faces = ring()
        loose = [points[c] for face in faces for c in face]
        soup = [[k, k + 1, k + 2] for k in range(0, len(loose), 3)]
        mended = self.mended(loose, soup)
        self.assertEqual((len(mended.points), self.loops(mended)), (430, 2))
        self.assertEqual(mended.report.merged_points, len(loose) - 430)
        moved = [tuple(x + 1e-7 * (k % 3 - 1) for x in point) for k, point in enumerate(loose)]
        self.assertEqual(self.loops(self.mended(moved, soup, tolerance=1e-5)), 2)
        told = self.mended(moved, soup).report
        self.assertGreater(told.parts, 1)

    def test_a_seam_is_named(self):
        points, faces = ring()
        copies = {c: len(points) + k for k, c in enumerate(sorted({c for face in faces[400:] for c in face}))}
        apart = points + [(x + 3e-6, y, z) for x, y, z in (points[c] for c in sorted(copies))]
        halves = faces[:400] + [[copies[c] for c in face] for face in faces[400:]]
        told = self.mended(apart, halves + [[0, 1, len(points)]]).report
        self.assertIsNone(told.near_rims if told.parts > 1 else None)
        cylinder, sides = cylinder_of(12, gap=1e-4)
        told = self.mended(cylinder, sides).report
        self.assertEqual(told.near_rims, 1e-4)
        self.assertIn("warning: there are rims that are near each other, try --tolerance 0.0001", told.lines())
        self.assertEqual(len(self.mended(cylinder, sides, tolerance=told.near_rims).rims), 2)

    def test_equal_points_of_a_closed_surface_stay_apart(self):
        points, faces = [(0, 0, 0)] * 7, read_off((MESHES / "torus7.off").read_text()).faces
        self.assertEqual(self.loops(self.mended(points, faces, tolerance=1.0)), 2)

    def test_points_that_tell_nothing(self):
        points, faces = [(0, 0, 0)] * 9, read_off((MESHES / "torus33.off").read_text()).faces
        mended = self.mended(points, faces[1:], tolerance=1.0, holes="close")
        self.assertEqual((len(mended.points), self.loops(mended), mended.report.merged_points), (9, 2, 0))
        points, faces = ring()
        loose = [points[c] for face in faces for c in face]
        soup = [[k, k + 1, k + 2] for k in range(0, len(loose), 3)]
        self.assertEqual(self.mended(loose, soup, tolerance=None).report.parts, 860)

    def test_merging_cannot_pinch(self):
        at = [POINTS[c] for face in FACES for c in face]
        other = [(-x, -y, -z) for x, y, z in at]
        mended = self.mended(at + other, [[k, k + 1, k + 2] for k in range(0, 24, 3)])
        self.assertEqual((len(mended.faces), mended.report.parts, self.loops(mended)), (4, 2, 0))

    def test_parts(self):
        points, faces = ring()
        points = points + [(9 + 4 * x, y, z) for x, y, z in POINTS]
        faces = [[c + 430 for c in face] for face in FACES] + faces
        self.assertEqual(self.loops(self.mended(points, faces)), 2)
        self.assertEqual(self.loops(self.mended(points, faces, part=1)), 0)
        self.assertEqual(self.mended(points, faces, part=1).face_origins[0], 0)
        grown = [tuple(100 * x for x in point) for point in points[430:]]
        self.assertEqual(self.loops(self.mended(points[:430] + grown, faces, most="area")), 0)
        self.assertEqual([len(one.faces) for one in mend_all(Soup.of(points, faces))], [860, 4])
        with self.assertRaisesRegex(MeshFileError, "there is no part 2: the parts are 0 to 1"):
            mend(Soup.of(points, faces), part=2)

    def test_parts_that_touch(self):
        at_vertex = [[{0: 0, 1: 4, 2: 5, 3: 6}[c] for c in face] for face in FACES]
        mended = self.mended(POINTS + [(-1, 0, 0), (0, -1, 0), (0, 0, -1)], FACES + at_vertex)
        self.assertEqual((self.loops(mended), len(mended.faces)), (0, 4))
        at_edge = [[{0: 0, 1: 1, 2: 4, 3: 5}[c] for c in face] for face in FACES]
        mended = self.mended(POINTS + [(0, -1, 0), (0, 0, -1)], FACES + at_edge)
        self.assertEqual((self.loops(mended), len(mended.faces), mended.report.crowded_edges), (0, 4, 1))

    def test_what_stands_twice_goes(self):
        points, faces = ring()
        mended = self.mended(points, faces + faces[7:9] + [faces[3][::-1]])
        self.assertEqual((self.loops(mended), mended.report.doubled_faces, len(mended.faces)), (2, 3, 860))
        corners = [[face[0], *face] for face in faces[:2]] + faces[2:]
        self.assertEqual(self.mended(points, corners).faces, faces)
        mended = self.mended(points, faces + [[0, 1, 0], [5, 5, 5]])
        self.assertEqual((mended.faces, mended.report.spoiled_faces), (faces, 2))
        two_sided = [(x, y, z) for face in FACES for c in face for x, y, z in [POINTS[c]]]
        pieces = [[k, k + 1, k + 2] for k in range(0, 12, 3)] + [[k + 2, k + 1, k] for k in range(0, 12, 3)]
        self.assertEqual(len(self.mended(two_sided, pieces).faces), 4)

    def test_a_face_that_touches_itself(self):
        points = POINTS + [(2, 0, 0), (2, 1, 0)]
        mended = self.mended(points, [[0, 1, 4, 5, 1, 2]], holes="close")
        self.assertEqual((mended.report.parted_faces, sorted(map(len, mended.faces))), (1, [3, 3]))

    def test_a_fin_is_left(self):
        points, faces = ring()
        self.assertEqual(self.loops(self.mended(points + [(5, 5, 5)], faces + [faces[0][:2] + [430]])), 2)

    def test_edges_with_the_same_ends(self):
        # Two cubes' worth of squares round one shared pair of vertices: gluing leaves two edges with the same ends.
        points = [(0, 0, 0), (0, 0, 1), (1, 0, 0), (0, 1, 0), (-1, 0, 0), (0, -1, 0)]
        faces = [
            [0, 1, 2],
            [1, 0, 3],
            [0, 1, 4],
            [1, 0, 5],
            [0, 2, 3],
            [2, 1, 3],
            [0, 4, 5],
            [4, 1, 5],
            [2, 0, 5],
            [1, 2, 5],
            [3, 0, 4],
            [1, 3, 4],
        ]
        mended = self.mended(points, faces, holes="close")
        self.assertIsNone(fault_of(len(mended.points), mended.faces))

    def test_random_soups(self):
        chance = random.Random(5)
        for turn in range(800):
            count = chance.randrange(3, 10)
            points = [
                (chance.choice([0, 1, chance.random()]), chance.choice([0, chance.random()]), chance.random())
                for _ in range(count)
            ]
            points += [chance.choice(points) for _ in range(chance.randrange(4))]
            sizes = [chance.choice([3, 3, 3, 4, 5]) for _ in range(chance.randrange(1, 25))]
            faces = [
                chance.choices(range(len(points)), k=size)
                if chance.random() < 0.2
                else chance.sample(range(len(points)), min(size, len(points)))
                for size in sizes
            ]
            how = {"holes": ("keep", "close", "hub")[turn % 3], "tolerance": chance.choice([0, 0, 0.05, 0.3])}
            with contextlib.suppress(MeshFileError):
                self.mended(points, faces, part=turn % 2, **how)


class Made(Case):
    """Files that real tools wrote: OpenSCAD, ADMesh, Assimp, Gmsh, Geomview, meshio and MeshLab."""

    FRAME = (
        "admesh-ascii.stl admesh-binary.stl admesh.off assimp-obj.obj.gz assimp-ply.ply assimp-plyb.ply "
        "assimp-stl.stl assimp-stlb.stl geomview.off gmsh-binary.stl gmsh.stl meshio.obj meshio.off meshio.ply "
        "meshio.stl meshlab-colours.off "
        "meshlab-more.obj meshlab-more.ply meshlab.obj meshlab.off meshlab.ply meshlab.stl openscad.off openscad.stl"
    )

    def came(self, name, **how):
        return self.mended_soup(read_mesh(CASES / name), **how)

    def test_a_frame(self):
        for name in self.FRAME.split():
            mended = self.came(name)
            self.assertEqual((len(mended.points), len(mended.faces), self.loops(mended)), (16, 32, 2), name)
        self.assertEqual(self.loops(self.came("gmsh-brep.stl")), 2)

    def test_boxes_that_share_an_edge(self):
        for name in ("openscad-boxes.off", "assimp-boxes.obj", "gmsh-boxes.stl"):
            report = self.came(name).report
            self.assertEqual(
                (report.crowded_edges, report.parts, report.rim_sizes, report.one_sided), (1, 2, [], False), name
            )

    def test_a_sheet_with_a_hole(self):
        for name in ("gmsh-sheet.stl", "meshlab-sheet.ply"):
            self.assertEqual(self.came(name).report.rim_sizes, [4, 4], name)
            self.assertEqual([self.loops(self.came(name, holes=how)) for how in ("close", "hub")], [0, 2])

    def test_each_file_is_tried(self):
        names = {path.name for path in CASES.iterdir()}
        others = {
            "gmsh-brep.stl",
            "openscad-boxes.off",
            "assimp-boxes.obj",
            "gmsh-boxes.stl",
            "gmsh-sheet.stl",
            "meshlab-sheet.ply",
        }
        self.assertEqual(names, {*self.FRAME.split(), *others})


def cylinder_of(count, gap=0.0):
    """A cylinder of squares, open along a line where there are two rows of vertices, so far from each other."""
    angles = [2 * 3.141592653589793 * k / count for k in range(count + 1)]
    import math

    points = [(math.cos(a), math.sin(a), float(z)) for z in range(4) for a in angles]
    points = [(x + gap, y, z) if k % (count + 1) == count else (x, y, z) for k, (x, y, z) in enumerate(points)]
    at = lambda z, k: z * (count + 1) + k
    return points, [[at(z, k), at(z, k + 1), at(z + 1, k + 1), at(z + 1, k)] for z in range(3) for k in range(count)]


class Extremes(Case):
    def test_great_and_small_numbers(self):
        for scale in (1e-320, 1e-300, 1e-9, 1e8, 1e150, 1e300):
            points = [tuple(scale * x for x in point) for point in POINTS]
            for faces in (FACES, FACES[1:], FACES + FACES[:1], FACES + [[0, 1, 3]]):
                for how in ({}, {"tolerance": scale}, {"tolerance": 1e-300}, {"most": "area"}, {"holes": "hub"}):
                    with contextlib.suppress(MeshFileError):
                        self.mended(points, faces, **how)


class Holes(Case):
    """Holes that are kept, closed and joined."""

    GRID = [(x, y, 0) for x in range(4) for y in range(4)]
    SQUARES = [[4 * x + y, 4 * x + y + 1, 4 * x + y + 5, 4 * x + y + 4] for x in range(3) for y in range(3)]

    def test_a_hole_is_kept(self):
        points, faces = ring()
        mended = self.mended(points, faces[1:])
        self.assertEqual((len(mended.faces), [sorted(rim) for rim in mended.rims]), (859, [sorted(faces[0])]))
        self.assertIn("# added", self.mended(points, faces[1:], holes="close").off_text().decode())
        self.assertNotIn("# added", mended.off_text().decode())
        self.assertTrue(any(line.startswith("warning: 1 hole of 3 edges") for line in mended.report.lines()))

    def test_a_hole_is_closed_by_one_face(self):
        points, faces = ring()
        mended = self.mended(points, faces[5:], holes="close")
        self.assertEqual(self.loops(mended), 2)
        self.assertEqual(len(mended.faces), 855 + len(mended.rims))
        self.assertEqual(list(mended.face_origins[:855]), list(range(855)))
        self.assertEqual(set(mended.face_origins[855:]), {-1})
        self.assertEqual((mended.first_added_face, mended.first_added_vertex), (855, len(mended.points)))
        edges = lambda faces: {tuple(sorted(pair)) for face in faces for pair in zip(face, face[1:] + face[:1])}
        self.assertEqual(edges(mended.faces), edges(mended.faces[:855]))

    def test_sheets(self):
        self.assertEqual(
            self.loops(self.mended(POINTS, FACES[:1], holes="close")), 0
        )  # one triangle becomes a pillow
        self.assertEqual(self.loops(self.mended(self.GRID, self.SQUARES, holes="close")), 0)
        frame = self.SQUARES[:4] + self.SQUARES[5:]
        self.assertEqual(self.loops(self.mended(self.GRID, frame, holes="close")), 0)
        self.assertEqual(self.loops(self.mended(self.GRID, frame, holes="hub")), 2)
        self.assertEqual(self.mended(self.GRID, [self.SQUARES[k] for k in (0, 4, 8)]).report.parts, 3)

    def test_the_hub(self):
        points, faces = ring()
        left = [face for n, face in enumerate(faces) if n not in (0, 200, 400, 600)]
        mended = self.mended(points, left, holes="hub")
        self.assertEqual((len(mended.rims), self.loops(mended)), (4, 2 + 2 * 3))
        self.assertEqual((len(mended.faces) - len(left), len(mended.hub_edges), len(mended.points) - 430), (4, 12, 6))
        self.assertTrue(all(min(pair) >= 0 and max(pair) >= mended.first_added_vertex for pair in mended.hub_edges))
        self.assertTrue(mended.off_text().endswith(b"# added faces 856 vertices 430\n"))
        rows = [tuple(map(int, row.split())) for row in mended.lengths_text(6).decode().splitlines()]
        due = [tuple(map(int, row.split())) for row in (MESHES / "ring.len").read_text().splitlines()]
        self.assertEqual([row for row in rows if row[1] < 430], due)
        self.assertEqual([row[:2] for row in rows if row[1] >= 430], sorted(mended.hub_edges))
        self.assertEqual({row[2] for row in rows if row[1] >= 430}, {2**32 - 1})

    def test_more_loops_than_are_taken(self):
        points = [(x, y, 0) for x in range(75) for y in range(75)]
        firsts = [75 * x + y for x in range(74) for y in range(74) if x % 2 == 0 or y % 2 == 0]
        left = [[c, c + 1, c + 76, c + 75] for c in firsts]
        told = self.mended(points, left, holes="hub").report
        self.assertEqual(told.loops, 2 * (len(told.rim_sizes) - 1))
        self.assertGreater(told.loops, 1024)
        self.assertTrue(told.lines()[-1].startswith("warning: a basis has"))
        self.assertEqual(self.mended(points, left, holes="close").report.loops, 0)

    def test_lengths_that_cannot_be(self):
        mended = self.mended(POINTS, FACES[:3], holes="hub")
        self.assertEqual(mended.lengths_text(0).decode().split("\n")[0], "0 1 1")
        for points, decimals, told in (
            ([(0, 0, 0), (1e-7, 0, 0), (0, 1, 0), (0, 0, 1)], 6, "the edge 0 1 is shorter than one unit"),
            ([(0, 0, 0), (5, 0, 0), (0, 1, 0), (0, 0, 1)], 9, "the edge 0 1 is too long"),
        ):
            with self.assertRaisesRegex(MeshFileError, told):
                self.mended(points, FACES[:3], holes="hub").lengths_text(decimals)


class Command(unittest.TestCase):
    def run_it(self, *words, status=0):
        ran = subprocess.run([sys.executable, TOP / "tools", "to_off", *map(str, words)], capture_output=True,
                             text=True)
        self.assertEqual(ran.returncode, status, ran.stderr)
        return ran.stdout, ran.stderr

    def test_a_file_for_each_part(self):
        points, faces = ring()
        text = "".join("v %r %r %r\n" % tuple(p) for p in points + [(9 + x, y, z) for x, y, z in POINTS])
        text += "".join(
            "f %d %d %d\n" % tuple(c + 1 for c in face) for face in faces + [[c + 430 for c in f] for f in FACES]
        )
        with tempfile.TemporaryDirectory() as room:
            pathlib.Path(room, "two.obj").write_text(text)
            out, told = self.run_it(f"{room}/two.obj", "--all", f"{room}/parts", "--map", "a.map", "--hub", "a.len")
            self.assertEqual((out, len(told.splitlines())), ("", 2))
            names = sorted(path.name for path in pathlib.Path(room, "parts").iterdir())
            self.assertEqual(names, ["a-0.len", "a-0.map", "a-1.len", "a-1.map", "two-0.off", "two-1.off"])
            found = read_off(pathlib.Path(room, "parts", "two-1.off").read_text())
            self.assertEqual(found.faces, FACES)
            out, told = self.run_it(f"{room}/two.obj", "--map", f"{room}/m")
            self.assertEqual(told, "1 other part left out, with 4 of 864 faces\n")
            self.assertEqual(len(pathlib.Path(room, "m").read_text().splitlines()), 430 + 860)

    def test_numbers_are_written_as_they_are(self):
        for text in ("0 0.1 -0.123456789", "12345.678 -7 0.5", "0.000000001 1 2"):
            with tempfile.TemporaryDirectory() as room:
                pathlib.Path(room, "a.off").write_bytes(TET.replace(b"0 0 1", text.encode()))
                self.assertEqual(self.run_it(f"{room}/a.off")[0].splitlines()[5], text)
        for first, told in (("1e+20 0 0", "1e+20 0.0 0.0"),):
            with tempfile.TemporaryDirectory() as room:
                pathlib.Path(room, "a.off").write_bytes(TET.replace(b"0 0 1", first.encode()))
                self.assertEqual(self.run_it(f"{room}/a.off")[0].splitlines()[5], told)


if __name__ == "__main__":
    if np is None:
        print("numpy isn't here: the mender is tried on lists alone")
    unittest.main()
