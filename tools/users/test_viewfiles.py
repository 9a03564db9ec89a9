#!/usr/bin/env python3
"""Tests of the files that show an answer: python3 tools test_viewfiles

What is packed is read here by the description in packing.py, and compared with the scene. That a browser shows it is
tried by web/check.py."""

import dataclasses
import gzip
import html.parser
import itertools
import json
import math
import random
import re
import struct
import unittest
import unittest.mock

from tools.users import viewfiles
from tools.users.viewfiles import Mesh, Scene, Values, edge_set, tables, walk

POINTS = [(0.0, 0.0, 0.0), (1.0, 0.0, 0.0), (0.0, 1.0, 0.0), (0.0, 0.0, 1.0)]
FACES = [[2, 0, 1], [0, 3, 1], [3, 0, 2], [1, 3, 2]]
HOSTILE = "</script><img src=x onerror=alert(1)>\"'&amp;{{SCENE}}{{TITLE}}"


class Packs:
    """The tables of a packed scene, one behind the other."""

    def __init__(self, data):
        data = gzip.decompress(data)
        size = struct.unpack_from("<I", data)[0]
        self.head, self.data, self.at = json.loads(data[4 : 4 + size]), data[4 + size :], 0

    def numbers(self, count):
        planes = [self.data[self.at + place * count : self.at + (place + 1) * count] for place in range(4)]
        self.at += 4 * count
        return [a + 256 * b + 65536 * c + 16777216 * d for a, b, c, d in zip(*planes)]

    def sums(self, count):
        steps = (number // 2 if number % 2 == 0 else -(number + 1) // 2 for number in self.numbers(count))
        return list(itertools.accumulate(steps))


class Read:
    """A packed scene, read."""

    def __init__(self, scene):
        packs = Packs(viewfiles.packed(scene))
        head = self.head = packs.head
        count, low, step = (head["points"][name] for name in ("count", "low", "step"))
        self.step = step
        columns = [[low[axis] + step * x for x in packs.sums(count)] for axis in range(3)]
        self.points = list(zip(*columns))
        count, size, added = (head["faces"][name] for name in ("count", "size", "added"))
        sizes = [size] * count if size else packs.numbers(count)
        self.added, firsts = packs.sums(added), packs.sums(count)
        rest = iter(packs.numbers(sum(sizes) - count))
        self.faces = [[first] + [first + next(rest) for _ in range(size - 1)] for first, size in zip(firsts, sizes)]
        vertices = iter(packs.sums(sum(line["size"] for line in head["lines"])))
        self.lines = [[next(vertices) for _ in range(line["size"])] for line in head["lines"]]
        self.marked = packs.sums(head["marked"])
        of = head.get("values")
        self.values = packs.sums(len(self.faces if of["isOfFaces"] else self.points)) if of else None
        self.is_whole = packs.at == len(packs.data)


def turned(face):
    """A face from its least vertex on."""
    at = list(face).index(min(face))
    return list(face[at:]) + list(face[:at])


def torus(rounds, steps, seed=None):
    """A torus of triangles; with a seed its vertices and faces come in any order."""
    points, faces = [], []
    for i, j in itertools.product(range(rounds), range(steps)):
        a, b = 2 * math.pi * i / rounds, 2 * math.pi * j / steps
        far = 2 + 0.8 * math.cos(b)
        points.append((far * math.cos(a), far * math.sin(a), 0.8 * math.sin(b)))
        corner = [(i + x) % rounds * steps + (j + y) % steps for x, y in ((0, 0), (1, 0), (1, 1), (0, 1))]
        faces += [(corner[0], corner[1], corner[2]), (corner[0], corner[2], corner[3])]
    if seed is None:
        return points, faces
    chance = random.Random(seed)
    places = chance.sample(range(len(points)), len(points))
    moved = [point for _, point in sorted(zip(places, points))]
    faces = [turned([places[v] for v in face]) for face in faces]
    return moved, chance.sample(faces, len(faces))


class Packed(unittest.TestCase):
    def same(self, scene):
        """What was packed is the scene, but for the order of the faces and small steps of coordinates."""
        read, mesh = Read(scene), scene.mesh
        self.assertTrue(read.is_whole)
        self.assertEqual(sorted(read.faces), sorted(turned(face) for face in mesh.faces))
        for found, due in zip(read.points, mesh.points):
            for x, y in zip(found, due):
                self.assertAlmostEqual(x, y, delta=0.51 * read.step * (1 if len(mesh.points) <= 100_000 else 256))
        self.assertEqual(read.lines, [list(line.vertices) for line in scene.drawn_lines()])
        marked = sorted(read.faces[place] for place in read.marked)
        self.assertEqual(marked, sorted(turned(mesh.faces[number]) for number in scene.marked))
        return read

    def test_walks_seams_and_marks(self):
        mesh = Mesh(POINTS, FACES)
        read = self.same(Scene("a", mesh, [walk([0, 1, 2, 0], 12345678901, 6), edge_set([(3, 0), (1, 2)])]))
        self.assertEqual([line["units"] for line in read.head["lines"]], [12345678901, None])
        self.assertTrue(self.same(Scene("a", mesh, seams=[(0, 1), (0, 2)])).head["isCut"])
        self.same(Scene("a", mesh, marked=[3, 1]))
        self.assertEqual(Read(Scene("a", mesh, turn=12, tilt=-3)).head["tilt"], -3)

    def test_values(self):
        read = self.same(Scene("a", Mesh(POINTS, FACES), values=Values([5, -5, 0, 5], label="x")))
        self.assertEqual((read.values, read.head["values"]["low"]), ([1023, 0, 512, 1023], -5))
        read = self.same(Scene("a", Mesh(POINTS, FACES), values=Values([0, 1, 2, 4], True)))
        by_face = dict(zip(map(tuple, read.faces), read.values))
        self.assertEqual([by_face[tuple(turned(face))] for face in FACES], [0, 256, 512, 1023])
        self.assertEqual(Read(Scene("a", Mesh(POINTS, FACES), values=Values([3] * 4))).values, [0] * 4)

    def test_polygons_and_orders(self):
        self.same(Scene("a", Mesh([*POINTS, (1.0, 1.0, 0.0)], [[4, 2, 0, 1], [0, 3, 1], [3, 0, 2], [1, 3, 2, 4]])))
        self.same(Scene("a", Mesh(*torus(30, 20, seed=1)), values=Values(range(600))))

    def test_a_great_mesh(self):
        self.same(Scene("a", Mesh(*torus(420, 240))))

    def test_what_was_added_is_told_and_does_not_count(self):
        far = Mesh([*POINTS, (900.0, 0.0, 0.0)], [*FACES, [0, 1, 4]], [False] * 4 + [True])
        read = Read(Scene("a", far))
        self.assertEqual([read.faces[place] for place in read.added], [[0, 1, 4]])
        self.assertLess(max(map(max, read.points)), 1.001)
        with self.assertRaises(ValueError):
            viewfiles.packed(Scene("a", Mesh(POINTS, FACES, [True] * 4)))

    def test_tables(self):
        self.assertEqual(tables.planes([1, 258]), bytes([1, 2, 0, 1, 0, 0, 0, 0]))
        self.assertEqual(tables.steps([3, 1]), bytes([6, 3, 0, 0, 0, 0, 0, 0]))

    @unittest.skipUnless(tables.np, "numpy isn't here")
    def test_the_same_bytes_without_numpy(self):
        polygons = Mesh([*POINTS, (1.0, 1.0, 0.0)], [[4, 2, 0, 1], [0, 3, 1], [3, 0, 2], [1, 3, 2, 4]])
        for mesh in (polygons, Mesh(*torus(30, 20, seed=1)), Mesh(POINTS, FACES, [False, True, False, False])):
            scene = Scene("a", mesh, marked=[1, 2], values=Values(range(len(mesh.points))))
            arrays = Mesh(tables.np.array(mesh.points), mesh.faces, mesh.is_added)
            if len({len(face) for face in mesh.faces}) == 1:
                arrays = Mesh(arrays.points, tables.np.array(mesh.faces), mesh.is_added)
            found = [viewfiles.packed(scene), viewfiles.packed(dataclasses.replace(scene, mesh=arrays))]
            with unittest.mock.patch.object(tables, "np", None):
                found.append(viewfiles.packed(scene))
            self.assertEqual(found[0], found[1])
            self.assertEqual(found[0], found[2])


class Markup(html.parser.HTMLParser):
    """The elements of a page, the title's text, and the frame's page."""

    def __init__(self, text):
        super().__init__()
        self.tags, self.texts, self.frames = [], {}, []
        self.feed(text)

    def handle_starttag(self, tag, attributes):
        self.tags.append(tag)
        self.frames += [dict(attributes)] if tag == "iframe" else []

    def handle_data(self, data):
        self.texts.setdefault(self.tags[-1] if self.tags else "", []).append(data)


class Files(unittest.TestCase):
    def page(self, title):
        return viewfiles.html(Scene(title, Mesh(POINTS, FACES), [walk([0, 1, 2, 0], 3)]))

    def test_texts_are_no_markup(self):
        plain, hostile = Markup(self.page("a")), Markup(self.page(HOSTILE))
        self.assertEqual(plain.tags, hostile.tags)
        self.assertEqual(("".join(hostile.texts["title"]).strip(), hostile.texts["h1"][0]), (HOSTILE, HOSTILE))

    def test_only_its_own_script_may_run(self):
        policy = re.search('Content-Security-Policy" content="([^"]*)"', self.page("a"))[1]
        self.assertRegex(policy, r"^default-src 'none'; script-src 'sha256-[^' ]+'; style-src 'sha256-[^' ]+'$")

    def test_a_frame_reaches_nothing(self):
        page = self.page(HOSTILE)
        found = Markup(viewfiles.frame(page, b"png", HOSTILE, 300))
        self.assertEqual(found.tags, ["div", "img", "iframe"])
        self.assertEqual(found.frames[0]["srcdoc"], page)
        self.assertEqual(found.frames[0]["sandbox"], "allow-scripts allow-downloads")

    def test_sizes(self):
        for seed in (None, 1):
            page = viewfiles.html(Scene("a", Mesh(*torus(200, 100, seed)), values=Values(range(20000))))
            self.assertLess(len(page.encode()), 700_000)


if __name__ == "__main__":
    unittest.main()
