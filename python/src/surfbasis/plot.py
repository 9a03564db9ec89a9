"""Pictures of surfaces with answers on them: to be turned in a browser; or still, by matplotlib where it is there, and
as PNG without it.

>>> import surfbasis, surfbasis.plot
>>> surface = surfbasis.Surface.from_file("meshes/eight.off")
>>> surfbasis.plot.save("basis.png", surface, surface.basis())
>>> surfbasis.plot.save("basis.html", surface, surface.basis())
"""

from __future__ import annotations

import math
import os
import pathlib
from typing import Any, Iterable, List, NamedTuple, Tuple

import numpy as np

from . import _painting
from ._answers import Cut, Distances, Evidence, Polygons, Walk
from ._callers import Path
from ._showing import Look, Shown
from ._surface import Surface
from ._texts import Floats, Ints

COLOURS = np.array(
    [
        (214, 39, 40),
        (31, 119, 180),
        (44, 160, 44),
        (255, 127, 14),
        (148, 103, 189),
        (140, 86, 75),
        (227, 119, 194),
        (23, 190, 207),
        (188, 189, 34),
        (80, 80, 80),
    ],
    float,
)
PLAIN = np.array((222, 222, 214), float)
MARKED = np.array((255, 209, 102), float)
LEAST, MOST = np.array((37, 52, 148), float), np.array((255, 245, 170), float)
LIFT = 0.015  # how much nearer than the faces lines are taken to be, in parts of the picture's width


class Line(NamedTuple):
    """Edges of one colour, shape (s, 2), and what a legend says of them."""

    edges: Ints
    colour: Floats
    label: str


class Scene(NamedTuple):
    """A surface as it is seen, in parts of the picture's width from -0.5 to 0.5: how far right, up and near each
    vertex is, shape (n, 3); the faces that are drawn, their colours, shape (m, 3), and the lines on them."""

    places: Floats
    faces: Polygons
    colours: Floats
    lines: List[Line]


def draw(
    surface: Surface,
    shown: Any = None,
    *,
    values: Any = None,
    axes: Any = None,
    turn: float = 30.0,
    tilt: float = 40.0,
) -> Any:
    """Draws a surface with what is shown on it, and returns the axes of matplotlib that it is drawn on.

    shown:  a Walk, Walks or other walks, each in a colour of its own; a Cut, whose seams are drawn; Evidence, whose
            faces or edges are marked; Distances, which are values; or None
    values: shape (n,) or (m,), a number for each vertex or face, by which faces are coloured, dark where it is least
    axes:   axes of matplotlib; None makes some
    turn:   degrees about the upright axis; tilt: degrees from above the horizon

    Raises ImportError where matplotlib isn't there; `save` works without it."""
    import matplotlib.pyplot as plt
    from matplotlib.collections import PolyCollection

    scene = scene_of(surface, shown, values, turn, tilt)
    if axes is None:
        axes = plt.figure(figsize=(6, 6)).add_subplot()
    axes.add_collection(PolyCollection(**_shapes(scene), capstyle="round", joinstyle="round"))
    for line in scene.lines:
        if line.label:
            axes.plot([], [], color=line.colour / 255, linewidth=2.5, label=line.label)
    if any(line.label for line in scene.lines):
        axes.legend(title="length", loc="upper right", frameon=False)
    axes.set(xlim=(-0.54, 0.54), ylim=(-0.54, 0.54), aspect="equal")
    axes.set_axis_off()
    return axes


def save(
    path: Path,
    surface: Surface,
    shown: Any = None,
    *,
    values: Any = None,
    turn: float = 30.0,
    tilt: float = 40.0,
    size: int = 600,
    label: str = "",
) -> None:
    """Writes a picture of a surface with what is shown on it, as `draw` takes it, to a file.

    size:  the width and height in pixels, where it is no page
    label: what the scale of a page says of the values

    By the ending of the path: `.html` is a page to be turned in a browser, which asks no other machine for anything;
    all else is by matplotlib in any form that it knows, and without matplotlib `.png` alone."""
    ending = os.fspath(path).rpartition(".")[2].lower()
    if ending == "html":
        Shown(surface, shown, Look(values, label, turn, tilt, pathlib.Path(path).stem)).save(path)
        return
    try:
        import matplotlib.figure
    except ImportError:
        if ending != "png":
            raise
        pathlib.Path(path).write_bytes(png_of(scene_of(surface, shown, values, turn, tilt), size))
        return
    figure = matplotlib.figure.Figure(figsize=(6, 6))
    draw(surface, shown, values=values, axes=figure.add_axes((0, 0, 1, 1)), turn=turn, tilt=tilt)
    figure.savefig(os.fspath(path), dpi=size / 6)


def png_of(scene: Scene, size: int) -> bytes:
    """A PNG of a scene, made without matplotlib."""
    steps = [(line.edges, line.colour) for line in scene.lines]
    return _painting.png(scene.places, scene.faces, scene.colours, steps, LIFT, size)


def scene_of(surface: Surface, shown: Any, values: Any, turn: float, tilt: float) -> Scene:
    """What `draw` and `save` draw."""
    if surface.vertices is None:
        raise ValueError("a surface without places can't be drawn")
    if isinstance(shown, Distances):
        shown, values = None, shown.lengths if values is None else values
    lines, marked = _marks(shown)
    if values is None:
        colours = np.tile(PLAIN, (len(surface.faces), 1))
    else:
        colours = _by_value(surface, np.asarray(values, float))
    colours[marked] = MARKED
    faces, colours = _own_faces(surface, colours)
    places = _seen(surface.vertices, np.unique(np.concatenate(list(faces))), turn, tilt)
    return Scene(places, faces, colours * _light(places, faces)[:, None], lines)


def _own_faces(surface: Surface, colours: Floats) -> Tuple[Polygons, Floats]:
    """The faces and their colours, without those that were added to close holes."""
    faces, origins = surface.faces, surface.face_origins
    if origins is None or (origins >= 0).all():
        return faces, colours
    own = np.flatnonzero(origins >= 0)
    shown = [faces[number] for number in own]
    alike = len({len(face) for face in shown}) == 1
    return np.stack(shown) if alike else tuple(shown), colours[own]


def _seen(points: Floats, drawn: Ints, turn: float, tilt: float) -> Floats:
    """How far right, up and near each point is, where those that are drawn fill the picture."""
    a, b = math.radians(turn), math.radians(tilt)
    right = (math.cos(a), -math.sin(a), 0.0)
    up = (math.sin(a) * math.sin(b), math.cos(a) * math.sin(b), math.cos(b))
    near = (-math.sin(a) * math.cos(b), -math.cos(a) * math.cos(b), math.sin(b))
    seen = points @ np.array([right, up, near]).T
    low, high = seen[drawn].min(axis=0), seen[drawn].max(axis=0)
    places: Floats = (seen - (low + high) / 2) / (max(high[0] - low[0], high[1] - low[1]) or 1.0)
    return places


def _light(places: Floats, faces: Polygons) -> Floats:
    """How bright each face is, whichever way it is turned, shape (m,)."""
    first = faces[:, :3] if isinstance(faces, np.ndarray) else np.array([face[:3] for face in faces])
    p, q, r = (places[first[:, k]] for k in range(3))
    normals = np.cross(q - p, r - p)
    sizes = np.linalg.norm(normals, axis=1)
    slopes = np.abs(normals @ (0.25, 0.35, 0.9)) / np.where(sizes > 0, sizes, 1.0)
    light: Floats = np.minimum(1.0, 0.45 + 0.55 * slopes)
    return light


def _by_value(surface: Surface, values: Floats) -> Floats:
    """The colours of faces by numbers, one for each vertex or face."""
    if len(values) == surface.vertex_count:
        faces = surface.faces
        if isinstance(faces, np.ndarray):
            values = values[faces].mean(axis=1)
        else:
            values = np.array([values[face].mean() for face in faces])
    elif len(values) != len(surface.faces):
        raise ValueError(f"{len(values)} values are neither one for each vertex nor one for each face")
    span = float(np.ptp(values)) or 1.0
    part = ((values - values.min()) / span)[:, None]
    colours: Floats = LEAST + part * (MOST - LEAST)
    return colours


def _marks(shown: Any) -> Tuple[List[Line], Ints]:
    """The lines and the marked faces of what is shown."""
    none = np.zeros(0, np.int64)
    if shown is None:
        return [], none
    if isinstance(shown, Cut):
        return [Line(shown.seams, COLOURS[0], "")], none
    if isinstance(shown, Evidence):
        edges = [] if shown.edges is None else [Line(shown.edges, COLOURS[0], "")]
        return edges, none if shown.faces is None else shown.faces
    walks: Iterable[Walk] = [shown] if isinstance(shown, Walk) else shown
    return [_line(walk, COLOURS[k % len(COLOURS)]) for k, walk in enumerate(walks)], none


def _line(walk: Walk, colour: Floats) -> Line:
    closed = walk.closed
    return Line(np.stack([closed[:-1], closed[1:]], axis=1), colour, f"{walk.length:.6g}")


def _shapes(scene: Scene) -> Any:
    """Faces, and edges of lines as polygons of two corners, for a collection of polygons; the farthest first."""
    places, faces = scene.places, scene.faces
    shapes: List[Any] = [places[face, :2] for face in faces]
    nearness = [float(places[face, 2].mean()) for face in faces]
    inks = [*scene.colours]
    for line in scene.lines:
        shapes += [places[edge, :2] for edge in line.edges]
        nearness += (places[line.edges, 2].mean(axis=1) + LIFT).tolist()
        inks += [line.colour] * len(line.edges)
    order = np.argsort(nearness, kind="stable")
    paint = np.array(inks).reshape(-1, 3)[order] / 255
    is_line = order >= len(faces)
    return {
        "verts": [shapes[k] for k in order],
        "facecolors": paint,
        "edgecolors": np.where(is_line[:, None], paint, paint * 0.82),
        "linewidths": np.where(is_line, 2.5, 0.15),
    }
