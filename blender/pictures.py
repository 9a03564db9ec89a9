"""The pictures of docs/blender.md, drawn in Blender by Cycles, which needs no window."""

import math

import bpy
import mathutils
import unwrapped

SIZE = 400, 320
PLAIN, INK, SEAM = (0.45, 0.45, 0.42), (0.35, 0.35, 0.33), (0.75, 0.04, 0.03)
PAPER = (0.85, 0.85, 0.80)
VIEW = mathutils.Euler((math.radians(50), 0, math.radians(30)))


def draw_seams(thing, path):
    """The object with its seams as red lines."""
    data = thing.data
    points = [vertex.co.copy() for vertex in data.vertices]
    seams = [[points[vertex] for vertex in edge.vertices] for edge in data.edges if edge.use_seam]
    faces = [list(face.vertices) for face in data.polygons]
    width = max(thing.dimensions) / 180
    draw([surface(points, faces, PLAIN, shaded=True), lines(seams, SEAM, width)], points, VIEW, path)


def draw_unwrap(thing, path):
    """The faces where the coordinates put them, with the edges, and the border of the island in red."""
    data = thing.data
    points = [mathutils.Vector((u, v, 0)) for u, v in unwrapped.coordinates(data).tolist()]
    faces = [list(face.loop_indices) for face in data.polygons]
    seams = {tuple(sorted(edge.vertices)) for edge in data.edges if edge.use_seam}
    inner, border = [], []
    for ends, sides in unwrapped.sides_by_edge(data).items():
        is_border = ends in seams or len(sides) == 1
        (border if is_border else inner).extend([points[one], points[other]] for _, one, other in sides)
    things = [surface(points, faces, PAPER), lines(inner, INK, 0.0006), lines(border, SEAM, 0.0025)]
    draw(things, points, mathutils.Euler((0, 0, 0)), path)


def material(colour, shaded=False):
    """A material that is lit, or that has its colour in any light."""
    made = bpy.data.materials.new("paint")
    made.use_nodes = True
    nodes, links = made.node_tree.nodes, made.node_tree.links
    nodes.clear()
    paint = nodes.new("ShaderNodeBsdfDiffuse" if shaded else "ShaderNodeEmission")
    paint.inputs["Color"].default_value = (*colour, 1)
    links.new(paint.outputs[0], nodes.new("ShaderNodeOutputMaterial").inputs["Surface"])
    return made


def surface(points, faces, colour, shaded=False):
    data = bpy.data.meshes.new("drawn")
    data.from_pydata(points, [], faces)
    data.materials.append(material(colour, shaded))
    return bpy.data.objects.new("drawn", data)


def lines(pairs, colour, width):
    """Round lines between pairs of points."""
    data = bpy.data.curves.new("drawn", "CURVE")
    data.dimensions, data.bevel_depth, data.bevel_resolution = "3D", width, 1
    data.use_fill_caps = True
    for pair in pairs:
        spline = data.splines.new("POLY")
        spline.points.add(1)
        for place, point in zip(spline.points, pair):
            place.co = (*point, 1)
    data.materials.append(material(colour))
    return bpy.data.objects.new("drawn", data)


def draw(things, points, view, path):
    """Renders things, seen along the axis that the view turns upright, so that all points are in the picture."""
    scene = bpy.data.scenes.new("drawn")
    seen = [view.to_matrix().transposed() @ point for point in points]
    low, high = ([kind(point[k] for point in seen) for k in range(3)] for kind in (min, max))
    middle = mathutils.Vector([(a + b) / 2 for a, b in zip(low, high)])
    reach = max(b - a for a, b in zip(low, high))
    camera = bpy.data.objects.new("drawn", bpy.data.cameras.new("drawn"))
    camera.data.type, camera.rotation_euler = "ORTHO", view
    camera.data.ortho_scale = 1.05 * max(high[0] - low[0], (high[1] - low[1]) * SIZE[0] / SIZE[1])
    camera.location = view.to_matrix() @ (middle + mathutils.Vector((0, 0, 2 * reach)))
    camera.data.clip_end = 10 * reach
    sun = bpy.data.objects.new("drawn", bpy.data.lights.new("drawn", "SUN"))
    sun.data.energy, sun.data.angle = 2.5, 0.3
    sun.rotation_euler = mathutils.Euler((view.x - 0.5, 0.3, view.z - 0.4))
    for thing in (*things, camera, sun):
        scene.collection.objects.link(thing)
    scene.camera = camera
    render(scene, path)


def render(scene, path):
    scene.world = bpy.data.worlds.new("drawn")
    scene.world.use_nodes = True
    scene.world.node_tree.nodes["Background"].inputs["Color"].default_value = (1, 1, 1, 1)
    scene.cycles.max_bounces = 0
    scene.render.engine, scene.cycles.samples, scene.cycles.use_denoising = "CYCLES", 24, False
    scene.render.film_transparent = False
    scene.view_settings.view_transform = "Standard"
    scene.render.resolution_x, scene.render.resolution_y = SIZE
    scene.render.image_settings.file_format, scene.render.image_settings.color_mode = "PNG", "RGB"
    scene.render.image_settings.compression = 100
    scene.render.filepath = str(path)
    bpy.ops.render.render(write_still=True, scene=scene.name)
