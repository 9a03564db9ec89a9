"""A scene in few bytes.

The bytes are the length of a head in four bytes, the head as JSON, and tables of whole numbers, all of it compressed.
A table has four bytes for each number, which stand in planes: the lowest bytes of all numbers first, the highest last.
Numbers that may be less than 0 are told as steps from each to the next, the sign in the lowest bit. So most of the
bytes are 0 or alike, and vanish where they are compressed. web/page/scene.js reads them.
"""

from __future__ import annotations

import gzip
import json
import struct
from typing import Any, Dict, List, Tuple

from .scene import Mesh, Scene, Values
from .tables import bounds, column, order_of, planes, rounded, size_of_all, steps, turned, vertices_in

FINE, COARSE = 24, 16  # bits of a coordinate
MOST_FINE = 100_000  # a mesh with more vertices is told in coarse coordinates
STEPS_OF_VALUES = 1_023  # more than there are colours


def packed(scene: Scene) -> bytes:
    """The bytes of a scene. Where no face is to be drawn it raises ValueError."""
    # The order of faces isn't shown, and in this one they are told in the fewest bytes.
    order = order_of(scene.mesh.faces)
    points, of_points = _points(scene.mesh)
    faces, of_faces = _faces(scene.mesh, order)
    head: Dict[str, Any] = {"title": scene.title, "turn": scene.turn, "tilt": scene.tilt}
    head.update(points=of_points, faces=of_faces)
    tables = [*points, *faces, _lines(scene, head), _marks(scene, order, head)]
    if scene.values is not None:
        tables.append(_values(scene.values, order, head))
    text = json.dumps(head).encode()
    return gzip.compress(b"".join([struct.pack("<I", len(text)), text, *tables]), 6, mtime=0)


def _points(mesh: Mesh) -> Tuple[List[bytes], Dict[str, Any]]:
    """The tables of the coordinates, and what the head says of them: a coordinate is `low` and so many `step`s. They
    are told for the box of what is drawn, of which a hub is no part."""
    drawn = vertices_in(mesh.faces, mesh.is_added)
    if not drawn:
        raise ValueError("there is no face to show")
    columns = [column(mesh.points, axis) for axis in range(3)]
    box = [bounds(numbers, drawn) for numbers in columns]
    most = (1 << FINE) - 1
    grain = 1 if len(mesh.points) <= MOST_FINE else 1 << (FINE - COARSE)
    step = max(high - low for low, high in box) / most or 1.0
    tables = [steps(rounded(numbers, low, step, grain, most)) for numbers, (low, _) in zip(columns, box)]
    return tables, {"count": len(mesh.points), "low": [low for low, _ in box], "step": step}


def _faces(mesh: Mesh, order: List[int]) -> Tuple[List[bytes], Dict[str, Any]]:
    """The tables of the faces: their sizes where these aren't all alike, which ones aren't drawn, the least vertex of
    each, and how much greater the others are."""
    firsts, rest = turned(mesh.faces, order)
    added = [place for place, number in enumerate(order) if mesh.is_added[number]] if len(mesh.is_added) else []
    head = {"count": len(order), "size": size_of_all(mesh.faces) or None, "added": len(added)}
    sizes = [] if head["size"] else [planes([len(mesh.faces[number]) for number in order])]
    return [*sizes, steps(added), steps(firsts), planes(rest)], head


def _lines(scene: Scene, head: Dict[str, Any]) -> bytes:
    """The vertices of all lines, one behind the other."""
    lines = scene.drawn_lines()
    head["isCut"] = scene.seams is not None
    head["lines"] = [
        {"size": len(line.vertices), "isWalk": line.is_walk, "units": line.units, "decimals": line.decimals}
        for line in lines
    ]
    return steps([int(vertex) for line in lines for vertex in line.vertices])


def _marks(scene: Scene, order: List[int], head: Dict[str, Any]) -> bytes:
    """The marked faces, by their places in the file."""
    marked = {int(number) for number in scene.marked}
    head["marked"] = len(marked)
    return steps([place for place, number in enumerate(order) if number in marked]) if marked else b""


def _values(values: Values, order: List[int], head: Dict[str, Any]) -> bytes:
    """The values, from 0 for the least to 1,023 for the greatest."""
    numbers = [float(x) for x in values.numbers]
    low, high = min(numbers), max(numbers)
    head["values"] = {"isOfFaces": values.is_of_faces, "low": low, "high": high, "label": values.label}
    if values.is_of_faces:
        numbers = [numbers[number] for number in order]
    return steps(rounded(numbers, low, (high - low) / STEPS_OF_VALUES or 1.0, 1, STEPS_OF_VALUES))
