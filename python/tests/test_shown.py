"""Pictures that turn: pages, and what a notebook shows."""

import base64
import gzip
import html
import json
import pathlib
import pickle
import re
import struct
import unittest

import numpy as np
import surfbasis
import surfbasis.plot
from support import ROOM, TOP, read, torus


def head_of(page):
    """What a page says of its scene."""
    data = gzip.decompress(base64.b64decode(re.search('id="scene">([^<]+)<', page)[1]))
    return json.loads(data[4 : 4 + struct.unpack_from("<I", data)[0]])


def page_in(frame):
    return html.unescape(re.search('srcdoc="([^"]*)"', frame)[1])


class Pages(unittest.TestCase):
    def setUp(self):
        self.surface = surfbasis.Surface(*read("eight"))

    def saved(self, shown=None, **how):
        path = pathlib.Path(ROOM.name, "saved.html")
        surfbasis.plot.save(path, self.surface, shown, **how)
        return path.read_text(encoding="utf-8")

    def test_walks(self):
        basis = self.surface.basis()
        head = head_of(self.saved(basis, turn=10, tilt=20))
        self.assertEqual((head["title"], head["turn"], head["tilt"], head["isCut"]), ("saved", 10, 20, False))
        self.assertEqual((head["points"]["count"], head["faces"]["count"]), (754, 1512))
        sizes, units = [[line[name] for line in head["lines"]] for name in ("size", "units")]
        self.assertEqual((sizes, units), ([len(walk) + 1 for walk in basis], [walk.units for walk in basis]))
        self.assertEqual(head_of(self.saved(basis[0]))["lines"], head["lines"][:1])
        self.assertEqual(head_of(self.saved([basis[1], basis[0]]))["lines"], head["lines"][1::-1])

    def test_cuts_evidence_and_values(self):
        cut = self.surface.cut()
        head = head_of(self.saved(cut))
        self.assertEqual((head["isCut"], head["lines"][0]["size"]), (True, 2 * len(cut.seams)))
        evidence = self.surface.classify(self.surface.cycle())
        self.assertEqual(head_of(self.saved(evidence))["lines"][0]["size"], 2 * len(evidence.edges))
        self.assertEqual(head_of(self.saved(self.surface.classify([0, 1, 3])))["marked"], 1)
        values = {"isOfFaces": True, "low": 0, "high": 1511, "label": "number"}
        self.assertEqual(head_of(self.saved(values=np.arange(1512), label="number"))["values"], values)
        far = self.surface.distances(7)
        self.assertEqual(head_of(self.saved(far))["values"]["label"], "distance from vertex 7")
        self.assertEqual(head_of(self.saved(far))["values"]["high"], far.lengths.max())
        for wrong in ([1.0], np.full(754, np.nan)):
            with self.assertRaises(ValueError):
                self.saved(values=wrong)

    def test_what_closes_holes_is_not_drawn(self):
        vertices, faces = read("eight")
        holed = surfbasis.Surface.mended(vertices, np.delete(faces, np.arange(0, 1512, 400), axis=0), close="hub")
        head = head_of(holed.show(holed.basis()).html)
        self.assertEqual(head["faces"]["added"], int((holed.face_origins < 0).sum()))
        self.assertGreater(head["faces"]["added"], 0)

    def test_places_are_needed(self):
        bare = surfbasis.Surface(7, read("torus7")[1])
        with self.assertRaises(ValueError):
            bare.show()
        self.assertIsNone(bare.basis()._repr_html_())

    def test_the_size_of_a_page(self):
        rng, (vertices, faces) = np.random.default_rng(1), torus(200, 100)
        order = rng.permutation(len(vertices))
        mixed = surfbasis.Surface(vertices[np.argsort(order)], rng.permutation(order[faces]))
        self.assertLess(len(mixed.show(values=rng.random(20000)).html.encode()), 700_000)


class Notebooks(unittest.TestCase):
    def test_each_answer_shows_itself(self):
        surface = surfbasis.Surface(*read("ring"))
        walk = surface.cycle()
        answers = [surface.basis(), surface.loops(3), walk, surface.distances(3), surface.cut(3)]
        answers += [surface.classify(walk), surface.same(walk, walk), surface.shortest(walk), surface.basis()[1]]
        for answer in answers:
            frame = answer._repr_html_()
            self.assertEqual(head_of(page_in(frame)), head_of(surface.show(answer).html))
            still = re.search('src="data:image/png;base64,([^"]*)"', frame)[1]
            self.assertTrue(base64.b64decode(still).startswith(b"\x89PNG"))

    def test_a_copy_leaves_its_surface_behind(self):
        walks = surfbasis.Surface(*read("ring")).basis()
        copy = pickle.loads(pickle.dumps(walks))
        self.assertEqual([walk.vertices.tolist() for walk in copy], [walk.vertices.tolist() for walk in walks])
        self.assertIsNone(copy._repr_html_())
        self.assertLess(len(pickle.dumps(walks)), 5000)

    def test_a_title_is_no_markup(self):
        title = '</script><img src=x>"\''
        frame = surfbasis.Surface(*read("tet")).show(title=title, height=111)._repr_html_()
        self.assertEqual(head_of(page_in(frame))["title"], title)
        self.assertEqual((frame.count("<img"), frame.count("height: 111px"), page_in(frame).count("<img")), (1, 1, 0))

    def test_the_example_has_no_outputs(self):
        cells = json.loads((TOP / "python/examples/basis.ipynb").read_text())["cells"]
        code = [cell for cell in cells if cell["cell_type"] == "code"]
        self.assertEqual([(cell["outputs"], cell["execution_count"]) for cell in code], [([], None)] * len(code))


if __name__ == "__main__":
    unittest.main()
