"""What the package answers, beside what the program prints of files."""

import dataclasses
import pickle
import unittest

import numpy as np
import surfbasis
from support import (
    CLOSED,
    CORNERS,
    CUBE,
    MEASURED,
    Asked,
    characteristic,
    meshio_like,
    off_text,
    read,
    torus,
    trimesh_like,
    units_along,
    walks_in,
    walks_of,
)


class BesideTheProgram(unittest.TestCase):
    """Each mesh of the repository, with lengths measured where it stands in space, else with length 1."""

    @classmethod
    def setUpClass(cls):
        cls.surfaces = {}
        for name in CLOSED:
            vertices, faces = read(name)
            decimals = 6 if name in MEASURED else None
            surface = surfbasis.Surface(vertices, faces, lengths=None if decimals else "unit", decimals=decimals)
            cls.surfaces[name] = surface, Asked(off_text(vertices, faces), decimals)

    def each(self, check, fits=lambda surface: True):
        """Checks the surfaces that fit, each with the program on its file."""
        for name, (surface, asked) in self.surfaces.items():
            if fits(surface):
                with self.subTest(mesh=name):
                    check(surface, asked)

    def test_info(self):
        def check(surface, asked):
            info = surface.info()
            due = {name: int(value) for name, value in asked.rows("info", measured=False)}
            due = {"genus": None, "crosscaps": None, **due}
            self.assertEqual(dataclasses.asdict(info), due)
            self.assertEqual((info.rank, info.orientable), (2 - due["characteristic"], due["genus"] is not None))

        self.each(check)

    def test_lengths_and_edges(self):
        def check(surface, asked):
            self.assertEqual(len(surface.edges), surface.info().edges)
            if asked.lengths == "unit":
                self.assertEqual(set(surface.units.tolist()), {1})
                return
            rows = np.array([line.split() for line in asked.text("lengths", "mesh.off", "6").splitlines()], int)
            self.assertEqual(surface.edges.tolist(), rows[:, :2].tolist())
            self.assertEqual(surface.units.tolist(), rows[:, 2].tolist())
            self.assertEqual(surface.lengths.tolist(), [units / 10**6 for units in rows[:, 2].tolist()])

        self.each(check)

    def test_loops(self):
        def check(surface, asked):
            for base in (0, surface.vertex_count - 1):
                loops, rows = surface.loops(base), asked.rows("loops", str(base))
                self.assertEqual(walks_of(loops), walks_in(rows[2:]))
                self.assertEqual((len(loops), loops.units), (int(rows[0][1]), int(rows[1][1])))

        self.each(check)

    def test_basis_and_cycle(self):
        def check(surface, asked):
            basis, rows = surface.basis(), asked.rows("basis")
            self.assertEqual(walks_of(basis), walks_in(rows[2:]))
            self.assertEqual([units_along(surface, walk) for walk in basis], [walk.units for walk in basis])
            self.assertEqual(basis.units, sum(walk.units for walk in basis))
            cycle, row = surface.cycle(), asked.rows("cycle")[0]
            self.assertEqual(None if row == ["none"] else walks_in([row])[0], cycle and walks_of([cycle])[0])

        self.each(check)

    def test_distances(self):
        def check(surface, asked):
            distances = surface.distances(1)
            rows = [[int(word.replace("-", "-1")) for word in row] for row in asked.rows("dist", "1")]
            found = [np.arange(len(rows)), distances.units, distances.parents]
            self.assertEqual(np.column_stack(found).tolist(), rows)
            path = distances.path(0).tolist()
            self.assertEqual((path[0], path[-1], distances.path(1).tolist()), (1, 0, [1]))
            steps = {tuple(edge): units for edge, units in zip(surface.edges.tolist(), surface.units.tolist())}
            self.assertEqual(sum(steps[min(step), max(step)] for step in zip(path, path[1:])), distances.units[0])

        self.each(check)

    def test_cuts(self):
        def check(surface, asked):
            for how in ("trim", "full"):
                cut, rows = surface.cut(1, how), asked.rows("cut", "1", how)
                copies, faces = int(rows[1][0]), int(rows[1][1])
                body = rows[2 + copies : 2 + copies + faces]
                self.assertEqual(cut.faces.tolist(), [[int(word) for word in row[1:]] for row in body])
                self.assertEqual(cut.origins.tolist(), [int(row[4]) for row in rows[2 + copies + faces :]])
                self.assertTrue((cut.vertices == surface.vertices[cut.origins]).all())
                self.assertTrue((cut.origins[cut.faces] == surface.faces).all())
                self.assertEqual(characteristic(copies, cut.faces.tolist()), 1)
                self.assertEqual(int(rows[1][2]) - surface.info().edges, len(cut.seams))
                edges = {tuple(edge) for edge in surface.edges.tolist()}
                self.assertLessEqual({tuple(edge) for edge in cut.seams.tolist()}, edges)

        self.each(check)

    def test_certificates(self):
        def check(surface, asked):
            loops, basis = surface.certify(1), surface.certify()
            self.assertEqual(loops.decode(), asked.text("certify", "mesh.off", asked.lengths, "1"))
            self.assertEqual(basis.decode(), asked.text("certify", "mesh.off", asked.lengths))
            self.assertEqual(surface.check(loops), surfbasis.Verdict(True, surface.loops(1).units))
            self.assertEqual(surface.check(basis.decode()), surfbasis.Verdict(True, surface.basis().units))

        self.each(check, lambda surface: surface.vertex_count <= 1000)

    def test_evidence(self):
        def check(surface, asked):
            face = surface.faces[-1].tolist()
            for walk in [surface.cycle(), face, [0]]:
                if walk is None:
                    continue
                vertices = walk.closed.tolist() if isinstance(walk, surfbasis.Walk) else [*walk, walk[0]]
                asked.file("walk", " ".join(map(str, vertices if len(walk) > 1 else walk)))
                found, words = surface.classify(walk), asked.rows("class", "walk", measured=False)[0]
                self.assertEqual((found.bounds, found.text.decode().split()), (words[0] == "null", words))
                numbers = found.faces if found.bounds else found.edges.reshape(-1)
                self.assertEqual(numbers.tolist(), [int(word) for word in words[2:]])
                self.assertTrue(surface.confirm(walk, found))
                self.assertTrue(surface.same(walk, walk).bounds)
                self.assertEqual(surface.same(walk, [0]).bounds, found.bounds)

        self.each(check)

    def test_shortest(self):
        def check(surface, asked):
            walk = surface.loops(2)[-1].closed.tolist() if surface.info().rank else [2]
            asked.file("walk", " ".join(map(str, walk)))
            self.assertEqual(walks_of([surface.shortest(walk)]), walks_in(asked.rows("shortest", "walk")))

        self.each(check, lambda surface: surface.vertex_count << surface.info().rank <= 65_536)

    def test_sewing_undoes_cuts(self):
        def check(surface, asked):
            for how in ("trim", "full"):
                sewn = surfbasis.Surface.sew(surface.cut(0, how), lengths="unit")
                self.assertEqual(sewn.faces.tolist(), surface.faces.tolist())
                self.assertEqual(sewn.vertices.tolist(), surface.vertices.tolist())

        self.each(check)

    def test_cuts_through_vertices(self):
        surface = surfbasis.Surface(*read("tet"))
        try:
            surface.cut(0, [1, 2, 3])
        except surfbasis.WordsRefused:
            self.skipTest("this build of surf has no cut through vertices")

        def check(surface, asked):
            points = [0, surface.vertex_count // 2, surface.vertex_count - 1]
            asked.file("points", " ".join(map(str, points)))
            cut, rows = surface.cut(1, points), asked.rows("cut", "1", "through", "points")
            copies, faces = int(rows[1][0]), int(rows[1][1])
            body = rows[2 + copies : 2 + copies + faces]
            self.assertEqual(cut.faces.tolist(), [[int(word) for word in row[1:]] for row in body])
            self.assertEqual(cut.origins.tolist(), [int(row[4]) for row in rows[2 + copies + faces :]])
            self.assertEqual(characteristic(copies, cut.faces.tolist()), 1)
            self.assertLessEqual(set(points), set(cut.seams.reshape(-1).tolist()))
            trimmed = {tuple(edge) for edge in surface.cut(1).seams.tolist()}
            if surface.info().rank:
                self.assertLessEqual(trimmed, {tuple(edge) for edge in cut.seams.tolist()})
            self.assertEqual(surfbasis.Surface.sew(cut, lengths="unit").faces.tolist(), surface.faces.tolist())

        self.each(check)


class Arrays(unittest.TestCase):
    def test_kinds_of_numbers(self):
        vertices, faces = read("eight")
        due = 12262957
        for kind in (np.int8, np.uint8):
            self.assertEqual(surfbasis.Surface(4, np.array(read("tet")[1], kind)).info().edges, 6)
        for kind in (np.int16, np.uint16, np.int32, np.uint32, np.int64, np.uint64):
            self.assertEqual(surfbasis.Surface(vertices, faces.astype(kind), decimals=6).basis().units, due)
        for kind in (np.asfortranarray, np.ndarray.tolist, lambda array: np.repeat(array, 2, axis=0)[::2]):
            self.assertEqual(surfbasis.Surface(kind(vertices), kind(faces), decimals=6).basis().units, due)
        self.assertEqual(surfbasis.Surface(vertices, faces[:, ::-1], decimals=6).basis().units, due)
        narrow = surfbasis.Surface(vertices.astype(np.float32), faces, decimals=6)
        wide = surfbasis.Surface(vertices.astype(np.float32).astype(float), faces, decimals=6)
        self.assertEqual(narrow.units.tolist(), wide.units.tolist())
        whole = surfbasis.Surface(np.array(CORNERS, int), CUBE)
        self.assertEqual(whole.units.tolist(), [10**9] * 12)

    def test_meshes_of_other_packages(self):
        vertices, faces = read("ring")
        self.assertEqual(surfbasis.Surface(trimesh_like(vertices, faces)).info().genus, 1)
        self.assertEqual(surfbasis.Surface(meshio_like(vertices, line=faces[:, :2], triangle=faces)).info().genus, 1)
        mixed = meshio_like(CORNERS, quad=np.array(CUBE[:5]), triangle=np.array([[1, 5, 7], [1, 7, 3]]))
        self.assertEqual(surfbasis.Surface(mixed).info().edges, 13)
        for wrong in (meshio_like(vertices, tetra=faces), meshio_like(vertices, triangle6=faces), "mesh.off", 3.5):
            with self.assertRaises(TypeError):
                surfbasis.Surface(wrong)

    def test_polygons(self):
        cube = surfbasis.Surface(CORNERS, CUBE)
        self.assertEqual((cube.info().genus, cube.cycle(), len(cube.edges)), (0, None, 12))
        mixed = surfbasis.Surface(CORNERS, [*CUBE[:5], [1, 5, 7], [1, 7, 3]])
        self.assertEqual((mixed.info().edges, len(mixed.edges), len(mixed.faces)), (13, 13, 7))
        self.assertEqual(mixed.units.max(), 1414213562)
        cut = mixed.cut(0, "full")
        self.assertEqual([face.tolist() for face in mixed.faces], [cut.origins[face].tolist() for face in cut.faces])
        self.assertEqual(characteristic(len(cut.origins), [face.tolist() for face in cut.faces]), 1)
        self.assertEqual([len(face) for face in surfbasis.Surface.sew(cut).faces], [4] * 5 + [3, 3])

    def test_given_lengths(self):
        faces = read("torus7")[1]
        surface = surfbasis.Surface(7, faces)
        self.assertEqual((surface.basis().units, surface.decimals, surface.vertices), (6, 0, None))
        for kind in (np.uint8, np.int32, np.int64, np.uint64):
            fives = surface.with_lengths(np.full(21, 5, kind))
            self.assertEqual((fives.basis().units, fives.units.tolist()), (30, [5] * 21))
        exact = surface.with_lengths(np.full(21, 25), decimals=2)
        self.assertEqual((exact.basis().length, exact.decimals, exact.lengths[0]), (1.5, 2, 0.25))
        self.assertEqual(surface.with_lengths("unit", decimals=2).basis().length, 6.0)
        longest = surface.with_lengths(np.full(21, 2**32 - 1))
        self.assertEqual(longest.basis().units, 6 * (2**32 - 1))
        self.assertEqual(surface.units.tolist(), [1] * 21)

    def test_measures_are_those_of_a_file_with_pythons_decimals(self):
        vertices, faces = read("eight")
        turned = vertices @ np.linalg.qr(np.random.default_rng(3).normal(size=(3, 3)))[0]
        for scale, decimals in [(1, 9), (1000, 6), (1e-3, 9), (3e6, 2)]:
            asked = Asked(off_text(turned * scale, faces))
            rows = [line.split() for line in asked.text("lengths", "mesh.off", str(decimals)).splitlines()]
            surface = surfbasis.Surface(turned * scale, faces, decimals=decimals)
            self.assertEqual(surface.units.tolist(), [int(row[2]) for row in rows])

    def test_decimals_are_as_many_as_the_longest_edge_allows(self):
        vertices, faces = read("tet")
        for scale, due in [(1, 9), (3.03, 9), (3.04, 8), (1e3, 6), (1e8, 1), (1e-6, 9)]:
            surface = surfbasis.Surface(vertices * scale, faces)
            self.assertEqual(surface.decimals, due)
            self.assertEqual(surface.units[3], int(np.float64(scale) * np.sqrt(2) * 10**due))

    def test_what_is_taken_is_copied(self):
        vertices, faces = read("tet")
        surface = surfbasis.Surface(vertices, faces)
        vertices[:], faces[:] = 0, 0
        self.assertEqual(surface.info().genus, 0)
        for array in (surface.vertices, surface.faces, surface.edges, surface.units, surface.cut().origins):
            with self.assertRaises(ValueError):
                array[0] = 1

    def test_one_sided(self):
        info = surfbasis.Surface(6, read("plane6")[1]).info()
        self.assertEqual((info.genus, info.crosscaps, info.orientable, info.rank), (None, 1, False, 1))

    def test_walks(self):
        basis = surfbasis.Surface(*read("eight"), decimals=6).basis()
        self.assertEqual((basis.length, basis[0].length, len(basis[0])), (12.262957, 1.854371, 10))
        self.assertEqual(basis[0].closed.tolist(), [*basis[0].vertices.tolist(), int(basis[0].vertices[0])])
        self.assertEqual([walk.units for walk in basis[1:]], [walk.units for walk in basis][1:])
        still = surfbasis.Surface(*read("eight")).shortest([0, 1, 3])
        self.assertEqual((still.vertices.tolist(), still.closed.tolist(), still.units), ([0], [0], 0))
        self.assertEqual(pickle.loads(pickle.dumps(basis))[0].vertices.tolist(), basis[0].vertices.tolist())
        with self.assertRaises(dataclasses.FrozenInstanceError):
            basis[0].units = 0

    def test_sewing_moved_copies(self):
        surface = surfbasis.Surface(*read("eight"))
        cut = surface.cut()
        moved = dataclasses.replace(cut, vertices=cut.vertices * 3 - 1)
        self.assertEqual(surfbasis.Surface.sew(moved).vertices.tolist(), (surface.vertices * 3 - 1).tolist())

    def test_a_large_mesh(self):
        vertices, faces = torus(316, 317)
        surface = surfbasis.Surface(vertices, faces)
        info = surface.info()
        self.assertEqual((info.vertices, info.faces, info.genus), (100_172, 200_344, 1))
        loops, cut = surface.loops(100), surface.cut(100)
        self.assertEqual([units_along(surface, loop) for loop in loops], [loop.units for loop in loops])
        self.assertTrue((cut.origins[cut.faces] == faces).all())
        self.assertEqual(len(cut.origins) - (info.edges + len(cut.seams)) + info.faces, 1)
        far = surface.distances(100)
        self.assertTrue((far.units[far.parents[far.parents >= 0]] < far.units[far.parents >= 0]).all())


if __name__ == "__main__":
    unittest.main()
