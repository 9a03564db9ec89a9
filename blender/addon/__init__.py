"""Blender add-on: seams that open each part of a mesh into one disc, shortest loops, and small handles, by surf."""

bl_info = {
    "name": "Surf: seams into one disc, shortest loops",
    "author": "surf",
    "version": (0, 0, 0),  # make_addon.py puts that of surf here
    "blender": (2, 93, 0),
    "location": "Object > Surf, and in edit mode Mesh > Surf",
    "description": "Marks seams that open each part into one disc; selects shortest loops; removes small handles",
    "category": "UV",
}

import itertools

import bmesh
import bpy
import numpy as np
from bpy.props import BoolProperty, EnumProperty, FloatProperty, IntProperty

from . import handles, loops, seams
from .meshes import Mesh, Unfit


def column(items, name, kind, width=1):
    """An attribute of all items, as an array."""
    found = np.empty(width * len(items), kind)
    items.foreach_get(name, found)
    return found.reshape(-1, width) if width > 1 else found


def mesh_of(data):
    """The mesh as arrays, without modifiers."""
    starts = np.append(column(data.polygons, "loop_start", np.int32), len(data.loops))
    return Mesh(column(data.vertices, "co", np.float32, 3), column(data.loops, "vertex_index", np.int32), starts)


def ends_of(data):
    """The ends of each of Blender's edges, shape (e, 2)."""
    return column(data.edges, "vertices", np.int32, 2).astype(np.int64)


def edge_flags(data, pairs):
    """Which of Blender's edges have these ends."""
    known, asked = np.sort(ends_of(data), axis=1), np.sort(np.reshape(pairs, (-1, 2)).astype(np.int64), axis=1)
    count = len(data.vertices)
    return np.isin(known[:, 0] * count + known[:, 1], asked[:, 0] * count + asked[:, 1])


def mark_seams(thing, flags):
    """Makes just these edges seams."""
    data = thing.data
    if thing.mode == "EDIT":
        drawn = bmesh.from_edit_mesh(data)
        for edge, flag in zip(drawn.edges, flags.tolist()):
            edge.seam = flag
        bmesh.update_edit_mesh(data, loop_triangles=False, destructive=False)
    else:
        data.edges.foreach_set("use_seam", flags)
        data.update()


def select_only(context, vertices=(), edges=(), faces=()):
    """Selects just these, edges by a flag for each, and what they consist of, in the fitting modes of selection."""
    data, count = context.object.data, len(context.object.data.edges)
    lines = np.zeros(count, bool) if len(edges) == 0 else np.array(edges)
    points, areas = np.zeros(len(data.vertices), bool), np.zeros(len(data.polygons), bool)
    points[np.asarray(vertices, int)], areas[np.asarray(faces, int)] = True, True
    modes = [bool(flags.any()) for flags in (points, lines, areas)]
    context.tool_settings.mesh_select_mode = modes if any(modes) else (False, True, False)
    for face in np.flatnonzero(areas).tolist():
        points[list(data.polygons[face].vertices)] = True
        lines |= edge_flags(data, data.polygons[face].edge_keys)
    points[ends_of(data)[lines].reshape(-1)] = True
    if context.object.mode == "EDIT":
        drawn = bmesh.from_edit_mesh(data)
        tables = drawn.verts, drawn.edges, drawn.faces
        for item in itertools.chain(*tables):
            item.select = False  # which reaches what it consists of, so that all goes before anything comes
        for item, flag in zip(itertools.chain(*tables), [*points.tolist(), *lines.tolist(), *areas.tolist()]):
            if flag:
                item.select = True
        bmesh.update_edit_mesh(data, loop_triangles=False, destructive=False)
    else:
        for items, flags in zip((data.vertices, data.edges, data.polygons), (points, lines, areas)):
            items.foreach_set("select", flags)
        data.update()


def rebuild(thing, change):
    """Gives a mesh the new vertices and faces of a change, and selects the faces that close it."""
    data, is_edited = thing.data, thing.mode == "EDIT"
    drawn = bmesh.from_edit_mesh(data) if is_edited else bmesh.new()
    if not is_edited:
        drawn.from_mesh(data)
    closing = redraw(drawn, change)
    for item in itertools.chain(drawn.verts, drawn.edges, drawn.faces):
        item.select = False
    for face in closing:
        face.select = True
    if is_edited:
        bmesh.update_edit_mesh(data)
    else:
        drawn.to_mesh(data)
        drawn.free()
        data.update()


def redraw(drawn, change):
    """Makes a change of a drawn mesh. What is new has all that belongs to what it is a copy of. The faces that close
    the mesh."""
    vertices, faces = list(drawn.verts), list(drawn.faces)
    vertices += [drawn.verts.new((0, 0, 0), vertices[origin]) for origin in change.origins]
    for vertex, place in zip(vertices, change.places.tolist()):
        vertex.co = place
    old = [faces[number] for number in change.faces]
    for face, corners in zip(old, change.faces.values()):
        copy_face(drawn, face, [vertices[corner] for corner in corners])
    closing = [drawn.faces.new([vertices[corner] for corner in corners]) for corners in change.closing]
    bmesh.ops.delete(drawn, geom=old, context="FACES")
    return closing


def copy_face(drawn, face, vertices):
    """A face over other vertices, with all that belongs to the old one, its corners and its edges."""
    made = drawn.faces.new(vertices, face)
    for new, old in zip(made.loops, face.loops):
        new.copy_from(old)
        if new.edge is not old.edge:
            new.edge.copy_from(old.edge)  # without its flags
            new.edge.seam, new.edge.smooth = old.edge.seam, old.edge.smooth


class Asking:
    """What all operators do: they read the mesh, answer, and say what is wrong by words and a selection."""

    bl_options = {"REGISTER", "UNDO"}
    by_length: BoolProperty(name="By Length", description="Measure edges; else each counts 1", default=True)

    @classmethod
    def poll(cls, context):
        thing = context.object
        is_mesh = thing is not None and thing.type == "MESH" and thing.data.library is None
        return is_mesh and thing.mode in {"OBJECT", "EDIT"}

    def execute(self, context):
        if context.object.mode == "EDIT":
            context.object.update_from_editmode()
        data = context.object.data
        try:
            self.report(*self.answer(context, mesh_of(data)))
        except Unfit as unfit:
            if any(map(len, (unfit.vertices, unfit.edges, unfit.faces))):
                edges = edge_flags(data, unfit.edges) if len(unfit.edges) else ()
                select_only(context, unfit.vertices, edges, unfit.faces)
            self.report({"ERROR"}, str(unfit))
        return {"FINISHED"}  # a selection may have changed, which can be undone

    def select_loops(self, context, found):
        """Selects the edges of loops. What to say of them."""
        found = list(found)
        edges = [loop.edges for loop in found if len(loop.edges)]
        flags = edge_flags(context.object.data, np.concatenate(edges)) if edges else ()
        select_only(context, edges=flags)
        if not found:
            return {"INFO"}, "there are no such loops: each loop bounds"
        lengths = ", ".join(f"{loop.length:.6g}" for loop in found)
        return {"INFO"}, f"{len(found)} loop{'s' if len(found) > 1 else ''}: {lengths}"


class MESH_OT_surf_mark_seams(Asking, bpy.types.Operator):
    """Mark seams that open each part of the mesh into one disc"""

    bl_idname, bl_label = "mesh.surf_mark_seams", "Mark Seams into One Disc"
    ends: EnumProperty(
        name="Seams Lead to",
        items=[
            ("FAR", "Far Vertices", "Vertices far from each other, for little distortion"),
            ("SELECTED", "Selected Vertices", "Each selected vertex"),
            ("NONE", "Nothing More", "Few seams, and much distortion where there are no handles"),
        ],
        default="FAR",
    )
    count: IntProperty(name="Far Vertices", description="How many, of each part", default=24, min=1, soft_max=200)
    clear: BoolProperty(name="Clear Others", description="Unmark all other seams first", default=True)

    def answer(self, context, mesh):
        data, far = context.object.data, self.count if self.ends == "FAR" else 0
        chosen = np.flatnonzero(column(data.vertices, "select", bool)) if self.ends == "SELECTED" else ()
        found = seams.seams_into_discs(mesh, chosen, far, self.by_length)
        flags = edge_flags(data, found)
        if not self.clear:
            flags |= column(data.edges, "use_seam", bool)
        mark_seams(context.object, flags)
        return self.told(mesh, ends_of(data)[flags])

    def told(self, mesh, marked):
        """Whether each part is one disc along what is marked now, in words."""
        islands, characteristics = mesh.islands(marked)
        labels, parts = np.unique(islands), mesh.part_count()
        if len(labels) == parts and (characteristics[labels] == 1).all():
            each = "the mesh opens" if parts == 1 else f"each of {parts} parts opens"
            return {"INFO"}, f"{len(marked)} seams: {each} into one disc"
        discs = int((characteristics[labels] == 1).sum())
        return {"WARNING"}, f"{len(marked)} seams: {len(labels)} islands of {parts} parts, and {discs} are discs"


class MESH_OT_surf_select_loops(Asking, bpy.types.Operator):
    """Select shortest loops that don't separate each part of the mesh"""

    bl_idname, bl_label = "mesh.surf_select_loops", "Select Shortest Loops"
    kind: EnumProperty(
        name="Which",
        items=[
            ("BASIS", "Homology Basis", "Independent loops of the least total length, wherever they run"),
            ("VERTEX", "At the Selected Vertex", "The same, all through this vertex"),
            ("CYCLE", "One Cycle", "A shortest cycle that doesn't separate"),
        ],
    )
    round_holes: BoolProperty(
        name="Round Holes", description="Loops round holes count; else holes are closed", default=True
    )

    def answer(self, context, mesh):
        if self.kind == "CYCLE":
            found = loops.shortest_cycles(mesh, self.by_length)
        elif self.kind == "BASIS":
            found = loops.basis_loops(mesh, self.round_holes, self.by_length)
        else:
            chosen = np.flatnonzero(column(context.object.data.vertices, "select", bool))
            found = loops.loops_at(mesh, chosen, self.round_holes, self.by_length)
        return self.select_loops(context, found)


class MESH_OT_surf_select_homologous(Asking, bpy.types.Operator):
    """Select a shortest loop that is homologous (mod 2) to the selected one, where holes are closed"""

    bl_idname, bl_label = "mesh.surf_select_homologous", "Select Shortest Loop Homologous to Selected"

    def answer(self, context, mesh):
        data = context.object.data
        chosen = ends_of(data)[column(data.edges, "select", bool)]
        loop = loops.shortest_homologous(mesh, chosen, self.by_length)
        if len(loop.edges) == 0:
            return {"INFO"}, "the selected loop bounds a part of the surface, so it shrinks to a vertex"
        return self.select_loops(context, [loop])


class MESH_OT_surf_remove_handles(Asking, bpy.types.Operator):
    """Cut along loops that don't separate each part and are shorter than a length, and close each cut by two faces"""

    bl_idname, bl_label = "mesh.surf_remove_handles", "Remove Small Handles"
    shorter_than: FloatProperty(
        name="Shorter Than",
        description="Handles with a loop shorter than this are removed, the shortest first",
        default=0.1,
        min=1e-6,
        soft_max=10.0,
        precision=4,
        subtype="DISTANCE",
    )

    def answer(self, context, mesh):
        change = handles.without_small_handles(mesh, self.shorter_than, self.by_length)
        if change.lengths:
            rebuild(context.object, change)
        return {"INFO"}, change.told()


class VIEW3D_MT_surf(bpy.types.Menu):
    bl_idname, bl_label = "VIEW3D_MT_surf", "Surf"

    def draw(self, context):
        for kind in OPERATORS:
            self.layout.operator(kind.bl_idname)


OPERATORS = MESH_OT_surf_mark_seams, MESH_OT_surf_select_loops, MESH_OT_surf_select_homologous
OPERATORS += (MESH_OT_surf_remove_handles,)
CLASSES = *OPERATORS, VIEW3D_MT_surf


def add_menu(self, context):
    self.layout.menu(VIEW3D_MT_surf.bl_idname)


def menus():
    return bpy.types.VIEW3D_MT_object, bpy.types.VIEW3D_MT_edit_mesh


def register():
    for kind in CLASSES:
        bpy.utils.register_class(kind)
    for menu in menus():
        menu.append(add_menu)


def unregister():
    for menu in menus():
        menu.remove(add_menu)
    for kind in reversed(CLASSES):
        bpy.utils.unregister_class(kind)
