"""Tries the add-on inside Blender, as check.py starts it.

    blender -b --factory-startup --python test_blender.py -- ZIP MESHES PROGRAM [PICTURES]

The zip is installed, seams are marked on the samples in MESHES and on Blender's own primitives, and Blender unwraps
them. What is selected is compared with what the program prints for the same mesh. With PICTURES, a folder, two
pictures are written there.
"""

import math
import pathlib
import subprocess
import sys
import tempfile
import unittest

import bmesh
import bpy
import numpy as np

sys.path.insert(0, str(pathlib.Path(__file__).resolve().parent))
import unwrapped  # noqa: E402

ZIP, MESHES, PROGRAM, *PICTURES = sys.argv[sys.argv.index("--") + 1 :]
GREATEST_LENGTH = 4_294_967_295
PRIMITIVES = ("cube", "uv_sphere", "ico_sphere", "cylinder", "cone", "torus", "grid", "plane", "monkey")


def setUpModule():
    bpy.ops.preferences.addon_install(filepath=ZIP)
    bpy.ops.preferences.addon_enable(module="surf_blender")


def shown(name, points, faces):
    """An object of these, which is the active one."""
    data = bpy.data.meshes.new(name)
    data.from_pydata(points, [], faces)
    data.update()
    thing = bpy.data.objects.new(name, data)
    bpy.context.collection.objects.link(thing)
    return active(thing)


def active(thing):
    bpy.ops.object.select_all(action="DESELECT")
    thing.select_set(True)
    bpy.context.view_layer.objects.active = thing
    return thing


def off_tables(name):
    """The points and faces of a sample."""
    rows = [line.split() for line in (pathlib.Path(MESHES) / f"{name}.off").read_text().splitlines()]
    rows = [row for row in rows if row and not row[0].startswith("#")]
    vertices, faces = int(rows[1][0]), int(rows[1][1])
    points = [tuple(map(float, row[:3])) for row in rows[2 : 2 + vertices]]
    return points, [[int(word) for word in row[1:]] for row in rows[2 + vertices : 2 + vertices + faces]]


def sample(name, without=()):
    points, faces = off_tables(name)
    return shown(name, points, [face for number, face in enumerate(faces) if number not in without])


def primitive(name, **how):
    getattr(bpy.ops.mesh, f"primitive_{name}_add")(**how)
    return active(bpy.context.object)


def selected(thing):
    """The ends of the selected edges."""
    return {tuple(sorted(edge.vertices)) for edge in thing.data.edges if edge.select}


def seams(thing):
    return {tuple(sorted(edge.vertices)) for edge in thing.data.edges if edge.use_seam}


def select(thing, vertices=(), edges=()):
    """Selects these, in object mode."""
    for face in thing.data.polygons:
        face.select = False
    for edge in thing.data.edges:
        edge.select = tuple(sorted(edge.vertices)) in edges
    ends = {vertex for edge in edges for vertex in edge}
    for vertex in thing.data.vertices:
        vertex.select = vertex.index in vertices or vertex.index in ends


def refused(operator, **how):
    """What an operator says when it has no answer."""
    try:
        operator(**how)
    except RuntimeError as fault:
        return str(fault)
    raise AssertionError("nothing was refused")


class Printed:
    """What the program prints for an object, whose mesh is written with all digits of its coordinates."""

    def __init__(self, test, thing, unit=False):
        self.room = tempfile.TemporaryDirectory()
        test.addCleanup(self.room.cleanup)
        data = thing.data
        places = [" ".join(repr(value) for value in vertex.co) for vertex in data.vertices]
        faces = [" ".join(map(str, [len(face.vertices), *face.vertices])) for face in data.polygons]
        text = "\n".join(["OFF", f"{len(places)} {len(faces)} 0", *places, *faces, ""])
        pathlib.Path(self.room.name, "M").write_text(text)
        longest = max((data.vertices[u].co - data.vertices[v].co).length for u, v in data.edge_keys)
        decimals = min(9, math.floor(math.log10((GREATEST_LENGTH - 1) / longest)))
        self.lengths = "unit" if unit else "L"
        if not unit:
            pathlib.Path(self.room.name, "L").write_text(self("lengths", "M", str(decimals)))

    def __call__(self, *words):
        done = subprocess.run([PROGRAM, *words], cwd=self.room.name, capture_output=True, text=True, check=True)
        return done.stdout

    def walks(self, command, *words):
        """The walks of an answer, each as its vertices with the first at the end again."""
        rows = [row.split() for row in self(command, "M", self.lengths, *words).splitlines()]
        rows = rows if command in ("cycle", "shortest") else rows[2:]
        return [[int(word) for word in row[2:]] for row in rows]


def edges_of(walks):
    return {tuple(sorted(pair)) for walk in walks for pair in zip(walk, walk[1:])}


class InObjectMode(unittest.TestCase):
    def setUp(self):
        if bpy.context.object and bpy.context.object.mode != "OBJECT":
            bpy.ops.object.mode_set(mode="OBJECT")


class Seams(InObjectMode):
    def unwrap(self, thing, flips=None, **how):
        """Marks seams and unwraps: one island for each part, each a disc, all finite."""
        self.assertEqual(bpy.ops.mesh.surf_mark_seams(**how), {"FINISHED"})
        bpy.ops.object.mode_set(mode="EDIT")
        bpy.ops.mesh.select_all(action="SELECT")
        bpy.ops.uv.unwrap(method="ANGLE_BASED", fill_holes=False, margin=0.01)
        bpy.ops.object.mode_set(mode="OBJECT")
        found = unwrapped.islands(thing.data)
        print(f"{thing.name} {how}: {len(seams(thing))} seams, {found}")
        self.assertTrue(found.finite)
        self.assertEqual(found.characteristics, [1] * unwrapped.part_count(thing.data))
        if flips is not None:
            self.assertEqual(found.flipped, flips)
        return found

    def test_samples(self):
        for name in ("ring", "eight", "three"):
            for how in ({"ends": "NONE"}, {"count": 8}, {}):
                with self.subTest(name=name, **how):
                    self.unwrap(sample(name), flips=0, **how)

    def test_primitives(self):
        for name in PRIMITIVES:
            for how in ({"ends": "NONE"}, {}, {"by_length": False}):
                with self.subTest(name=name, **how):
                    self.unwrap(primitive(name), flips=None if how.get("ends") else 0, **how)

    def test_more_ends_distort_less(self):
        few, many = (self.unwrap(primitive("uv_sphere"), **how).spread for how in ({"ends": "NONE"}, {}))
        self.assertLess(many, few)

    def test_holes(self):
        for without in ({0}, {5, 700}, {*range(0, 1512, 31)}, {*range(0, 1512, 9)}):
            for how in ({"ends": "NONE"}, {}, {"by_length": False}):
                with self.subTest(holes=len(without), **how):
                    self.unwrap(sample("eight", without), flips=0, **how)
        self.unwrap(primitive("cylinder", end_fill_type="NOTHING"), flips=0)

    def test_a_disc_needs_no_seams(self):
        self.unwrap(primitive("grid"), flips=0, ends="NONE")
        self.assertEqual(seams(bpy.context.object), set())

    def test_parts(self):
        things = [primitive("torus"), primitive("monkey"), sample("eight", {3, 4})]
        for thing in things:
            thing.select_set(True)
        bpy.ops.object.join()
        self.unwrap(bpy.context.object, flips=0)

    def test_through_selected(self):
        for without in ((), {5, 700}):
            thing, wanted = sample("eight", without), {0, 17, 300, 600}
            select(thing, wanted)
            self.unwrap(thing, flips=0, ends="SELECTED")
            self.assertLessEqual(wanted, {vertex for edge in seams(thing) for vertex in edge})

    def test_others_are_cleared_or_kept(self):
        thing = sample("ring")
        bpy.ops.mesh.surf_mark_seams(ends="NONE")
        own = seams(thing)
        other = next(edge for edge in thing.data.edges if tuple(sorted(edge.vertices)) not in own)
        other.use_seam = True
        bpy.ops.mesh.surf_mark_seams(ends="NONE", clear=False)
        self.assertEqual(seams(thing), own | {tuple(sorted(other.vertices))})
        bpy.ops.mesh.surf_mark_seams(ends="NONE")
        self.assertEqual(seams(thing), own)

    def test_modes_agree_and_modifiers_stay(self):
        one, other = sample("eight"), sample("eight")
        other.modifiers.new("smooth", "SUBSURF")
        bpy.ops.object.mode_set(mode="EDIT")
        bpy.ops.mesh.surf_mark_seams()
        self.assertEqual(other.mode, "EDIT")
        bpy.ops.object.mode_set(mode="OBJECT")
        self.assertEqual(([*other.modifiers.keys()], len(other.data.vertices)), (["smooth"], 754))
        active(one)
        bpy.ops.mesh.surf_mark_seams()
        self.assertEqual(seams(one), seams(other))

    def test_edit_mode_sees_what_was_edited(self):
        thing = sample("eight")
        bpy.ops.object.mode_set(mode="EDIT")
        drawn = bmesh.from_edit_mesh(thing.data)
        drawn.faces.ensure_lookup_table()
        bmesh.ops.delete(drawn, geom=[drawn.faces[5], drawn.faces[700]], context="FACES_ONLY")
        bmesh.update_edit_mesh(thing.data)
        bpy.ops.mesh.surf_mark_seams(ends="NONE")
        bpy.ops.object.mode_set(mode="OBJECT")
        edited = seams(thing)
        sample("eight", {5, 700})
        bpy.ops.mesh.surf_mark_seams(ends="NONE")
        self.assertEqual(edited, seams(bpy.context.object))


class Loops(InObjectMode):
    def test_they_are_those_of_the_program(self):
        for name in ("ring", "eight", "three"):
            for unit in (False, True):
                thing = sample(name)
                printed = Printed(self, thing, unit)
                for kind, words in (("BASIS", ["basis"]), ("VERTEX", ["loops", "40"]), ("CYCLE", ["cycle"])):
                    with self.subTest(name=name, kind=kind, unit=unit):
                        select(thing, {40})
                        bpy.ops.mesh.surf_select_loops(kind=kind, by_length=not unit)
                        found = selected(thing)
                        self.assertEqual(found, edges_of(printed.walks(*words)))
                        self.assertTrue(found)

    def test_edit_mode_selects_just_the_edges(self):
        thing = sample("three")
        bpy.ops.object.mode_set(mode="EDIT")
        bpy.ops.mesh.select_mode(type="VERT")
        bpy.ops.mesh.surf_select_loops()
        bpy.ops.object.mode_set(mode="OBJECT")
        self.assertEqual(selected(thing), edges_of(Printed(self, thing).walks("basis")))
        self.assertFalse([face for face in thing.data.polygons if face.select])

    def test_homologous(self):
        thing = sample("eight")
        printed = Printed(self, thing)
        longer = max(printed.walks("loops", "300"), key=len)
        longer = longer if len(set(longer)) == len(longer) - 1 else max(printed.walks("basis"), key=len)
        (pathlib.Path(printed.room.name) / "W").write_text(" ".join(map(str, longer)) + "\n")
        select(thing, edges=edges_of([longer]))
        bpy.ops.mesh.surf_select_homologous()
        self.assertEqual(selected(thing), edges_of(printed.walks("shortest", "W")))

    def test_a_loop_that_bounds_stays_selected(self):
        thing = sample("eight")
        face = list(thing.data.polygons[3].vertices)
        select(thing, edges=edges_of([[*face, face[0]]]))
        bpy.ops.mesh.surf_select_homologous()
        self.assertEqual(selected(thing), edges_of([[*face, face[0]]]))

    def test_loops_round_holes(self):
        thing = primitive("cylinder", end_fill_type="NOTHING", vertices=12)
        bpy.ops.mesh.surf_select_loops()
        self.assertEqual(len(selected(thing)), 12)
        bpy.ops.mesh.surf_select_loops(round_holes=False)
        self.assertEqual(len(selected(thing)), 0)

    def test_they_can_be_undone(self):
        for operator in (bpy.ops.mesh.surf_mark_seams, bpy.ops.mesh.surf_select_loops):
            self.assertLessEqual({"REGISTER", "UNDO"}, operator.bl_options)


class Handles(InObjectMode):
    def counts(self, thing):
        data = thing.data
        return len(data.vertices), len(data.edges), len(data.polygons)

    def bound(self, thing):
        """A length between the first two of the shortest basis."""
        lengths = self.lengths(thing)
        return (lengths[0] + lengths[1]) / 2

    def lengths(self, thing):
        places = np.array([vertex.co for vertex in thing.data.vertices])
        walks = Printed(self, thing).walks("basis")
        return sorted(float(np.linalg.norm(places[walk[1:]] - places[walk[:-1]], axis=1).sum()) for walk in walks)

    def info(self, thing):
        printed = Printed(self, thing)
        return dict(row.split() for row in printed("info", "M").splitlines())

    def test_one_of_two_handles(self):
        for mode in ("OBJECT", "EDIT"):
            with self.subTest(mode=mode):
                thing = sample("eight")
                shortest, bound = Printed(self, thing).walks("cycle")[0], self.bound(thing)
                bpy.ops.object.mode_set(mode=mode)
                self.assertEqual(bpy.ops.mesh.surf_remove_handles(shorter_than=bound), {"FINISHED"})
                bpy.ops.object.mode_set(mode="OBJECT")
                edges = len(shortest) - 1
                self.assertEqual(self.counts(thing), (754 + edges, 2268 + edges, 1512 + 2))
                self.assertEqual(self.info(thing)["genus"], "1")
                self.assertGreater(self.lengths(thing)[0], 0.9999 * bound)
                closing = [face for face in thing.data.polygons if face.select]
                self.assertEqual([len(face.vertices) for face in closing], [edges, edges])
                self.assertFalse(thing.data.validate())

    def test_all_handles(self):
        for name in ("ring", "eight", "three", "noisy"):
            thing = sample(name)
            bpy.ops.mesh.surf_remove_handles(shorter_than=100)
            self.assertEqual(self.info(thing)["genus"], "0")
            self.assertEqual(len({tuple(vertex.co) for vertex in thing.data.vertices}), len(thing.data.vertices))
        bpy.ops.mesh.surf_remove_handles(shorter_than=100)
        self.assertEqual(self.info(thing)["genus"], "0")

    def test_normals_stay_coherent(self):
        thing = sample("eight")
        bpy.ops.mesh.surf_remove_handles(shorter_than=100)
        sides = [tuple(side) for face in thing.data.polygons
                 for side in zip(face.vertices, [*face.vertices[1:], face.vertices[0]])]
        self.assertEqual(len(set(sides)), len(sides))

    def test_what_belongs_to_faces_corners_and_edges_stays(self):
        thing = sample("eight")
        data = thing.data
        for name in ("one", "other"):
            data.materials.append(bpy.data.materials.new(name))
        layer, names = data.uv_layers.new(name="places"), data.attributes.new("name", "INT", "FACE")
        for face in data.polygons:
            face.material_index, names.data[face.index].value = face.index % 2, face.index
            for side in face.loop_indices:
                layer.data[side].uv = (face.index / 2000, data.loops[side].vertex_index / 2000)
        for edge in data.edges:
            edge.use_seam = edge.index % 3 == 0
        marked = self.seam_places(data)
        bpy.ops.mesh.surf_remove_handles(shorter_than=self.bound(thing))
        data = thing.data
        seen = set()
        for face in data.polygons:
            if not face.select:
                name = data.attributes["name"].data[face.index].value
                seen.add(name)
                self.assertEqual(face.material_index, name % 2)
                uvs = [data.uv_layers[0].data[side].uv for side in face.loop_indices]
                self.assertTrue(all(abs(u - name / 2000) < 1e-6 for u, _ in uvs))
        self.assertEqual(seen, set(range(1512)))
        self.assertEqual(self.seam_places(data), marked)

    def seam_places(self, data):
        """Where the ends of the seams are, without what a hair changes."""
        places = [tuple(round(x, 3) for x in vertex.co) for vertex in data.vertices]
        return {tuple(sorted(places[v] for v in edge.vertices)) for edge in data.edges if edge.use_seam}

    def test_holes_and_parts(self):
        things = [sample("eight", {5, 700}), sample("noisy"), primitive("uv_sphere")]
        for thing in things:
            thing.select_set(True)
        bpy.context.view_layer.objects.active = things[0]
        bpy.ops.object.join()
        thing = things[0]
        before = unwrapped.part_count(thing.data)
        rims = self.rims(thing)
        bpy.ops.mesh.surf_remove_handles(shorter_than=1)
        self.assertEqual((unwrapped.part_count(thing.data), self.rims(thing)), (before, rims))
        self.assertEqual(sum(face.select for face in thing.data.polygons), 24)

    def rims(self, thing):
        """How many edges have one face."""
        sides = [key for face in thing.data.polygons for key in face.edge_keys]
        return sum(sides.count(key) == 1 for key in set(sides))

    def test_nothing_is_changed_where_no_handle_is_shorter(self):
        thing = sample("eight")
        select(thing, {3})
        bpy.ops.mesh.surf_remove_handles(shorter_than=0.5)
        self.assertEqual(self.counts(thing), (754, 2268, 1512))
        self.assertTrue(thing.data.vertices[3].select)

    def test_it_is_undone_in_one_step(self):
        self.assertLessEqual({"REGISTER", "UNDO"}, bpy.ops.mesh.surf_remove_handles.bl_options)


class Refusals(InObjectMode):
    def test_edges_of_three_faces(self):
        points = [(0, 0, 0), (1, 0, 0), (0, 1, 0), (0, 0, 1), (0, -1, 0)]
        thing = shown("fins", points, [(0, 1, 2), (0, 1, 3), (0, 1, 4)])
        self.assertIn("more than two faces", refused(bpy.ops.mesh.surf_mark_seams))
        self.assertEqual(selected(thing), {(0, 1)})
        bpy.ops.object.mode_set(mode="EDIT")
        bpy.ops.mesh.select_all(action="SELECT")
        self.assertIn("more than two faces", refused(bpy.ops.mesh.surf_select_loops))
        bpy.ops.object.mode_set(mode="OBJECT")
        self.assertEqual(selected(thing), {(0, 1)})

    def test_an_edge_without_length(self):
        """It is named and selected by the numbers of the mesh, also behind another part."""
        first, (points, faces) = off_tables("tet"), off_tables("ring")
        u, v = sorted(faces[7][:2])
        points[v] = points[u]
        count = len(first[0])
        shown("short", first[0] + points, first[1] + [[vertex + count for vertex in face] for face in faces])
        self.assertIn(f"zero {u + count} {v + count}", refused(bpy.ops.mesh.surf_mark_seams))
        self.assertEqual(selected(bpy.context.object), {(u + count, v + count)})
        self.assertEqual(bpy.ops.mesh.surf_mark_seams(by_length=False), {"FINISHED"})

    def test_words(self):
        thing = sample("ring")
        select(thing)
        self.assertIn("select the vertex", refused(bpy.ops.mesh.surf_select_loops, kind="VERTEX"))
        self.assertIn("one closed loop", refused(bpy.ops.mesh.surf_select_homologous))
        select(thing, {1, 2})
        self.assertIn("one vertex", refused(bpy.ops.mesh.surf_select_loops, kind="VERTEX"))
        shown("none", [(0, 0, 0)], [])
        self.assertIn("no faces", refused(bpy.ops.mesh.surf_mark_seams))
        shown("infinite", [(0, 0, 0), (1, 0, 0), (0, float("inf"), 0)], [(0, 1, 2)])
        self.assertIn("no finite number", refused(bpy.ops.mesh.surf_mark_seams))


class Installed(InObjectMode):
    def test_the_menu_is_there_and_goes(self):
        self.assertIn("surf_blender", bpy.context.preferences.addons.keys())
        self.assertTrue(hasattr(bpy.types, "VIEW3D_MT_surf"))
        bpy.ops.preferences.addon_disable(module="surf_blender")
        self.assertFalse(hasattr(bpy.types, "VIEW3D_MT_surf"))
        bpy.ops.preferences.addon_enable(module="surf_blender")
        self.assertTrue(hasattr(bpy.types, "VIEW3D_MT_surf"))


def write_pictures(folder):
    """The seams of a sample, and what Blender unwraps along them."""
    import pictures

    thing = sample("three")
    bpy.ops.mesh.surf_mark_seams()
    bpy.ops.object.mode_set(mode="EDIT")
    bpy.ops.mesh.select_all(action="SELECT")
    bpy.ops.uv.unwrap(method="ANGLE_BASED", margin=0.01)
    bpy.ops.object.mode_set(mode="OBJECT")
    pictures.draw_seams(thing, folder / "blender-seams.png")
    pictures.draw_unwrap(thing, folder / "blender-unwrap.png")


if __name__ == "__main__":
    good = unittest.main(argv=["test_blender"], exit=False, verbosity=1).result.wasSuccessful()
    if good and PICTURES:
        write_pictures(pathlib.Path(PICTURES[0]))
    sys.stdout.flush()
    sys.exit(0 if good else 1)
