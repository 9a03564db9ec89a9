"""What Blender unwrapped, by the coordinates alone: islands, flips, distortion."""

import collections
from typing import NamedTuple

import numpy as np

NEAR = 1e-7


class Islands(NamedTuple):
    """The Euler characteristic of each island, whether all coordinates are finite, how many faces are turned over
    against most of the area, and how far areas are distorted: the deviation of the logarithm of their ratios."""

    characteristics: list
    finite: bool
    flipped: int
    spread: float


class Heads:
    """Things that become one by and by."""

    def __init__(self, count):
        self.heads = list(range(count))

    def __getitem__(self, thing):
        while self.heads[thing] != thing:
            self.heads[thing] = self.heads[self.heads[thing]]
            thing = self.heads[thing]
        return thing

    def join(self, one, other):
        self.heads[self[one]] = self[other]


def sides_by_edge(mesh):
    """For each edge its faces, each with the corners at the lesser and at the greater end."""
    found = collections.defaultdict(list)
    for face in mesh.polygons:
        corners = list(face.loop_indices)
        for one, other in zip(corners, corners[1:] + corners[:1]):
            ends = mesh.loops[one].vertex_index, mesh.loops[other].vertex_index
            pair = (one, other) if ends[0] < ends[1] else (other, one)
            found[min(ends), max(ends)].append((face.index, *pair))
    return found


def part_count(mesh):
    """How many parts hang together by edges."""
    faces = Heads(len(mesh.polygons))
    for sides in sides_by_edge(mesh).values():
        for side in sides[1:]:
            faces.join(sides[0][0], side[0])
    return len({faces[face] for face in range(len(mesh.polygons))})


def coordinates(mesh):
    found = np.empty(2 * len(mesh.loops), np.float32)
    mesh.uv_layers.active.data.foreach_get("uv", found)
    return found.reshape(-1, 2).astype(float)


def islands(mesh):
    """The islands: faces hang together over an edge where both ends have equal coordinates in both."""
    places = coordinates(mesh)
    faces, corners, edges = Heads(len(mesh.polygons)), Heads(len(mesh.loops)), []
    for sides in sides_by_edge(mesh).values():
        is_glued = len(sides) == 2 and all(
            np.abs(places[sides[0][k]] - places[sides[1][k]]).max() <= NEAR for k in (1, 2)
        )
        edges += [side[0] for side in (sides[:1] if is_glued else sides)]
        if is_glued:
            for things, k in ((faces, 0), (corners, 1), (corners, 2)):
                things.join(sides[0][k], sides[1][k])
    counts = collections.Counter(faces[face] for face in range(len(mesh.polygons)))
    counts.subtract(faces[face] for face in edges)
    owners = {corners[corner]: faces[face.index] for face in mesh.polygons for corner in face.loop_indices}
    counts.update(owners.values())
    return Islands(sorted(counts.values()), bool(np.isfinite(places).all()), *distortion(mesh, places))


def distortion(mesh, places):
    """How many faces are turned over, and the spread of areas."""
    areas = np.array([area_of(places[list(face.loop_indices)]) for face in mesh.polygons])
    real = np.array([face.area for face in mesh.polygons])
    areas *= 1 if areas.sum() > 0 else -1
    ratios = np.log(np.maximum(areas, 1e-12) / np.maximum(real, 1e-12))
    ratios -= np.average(ratios, weights=real)
    return int((areas <= 0).sum()), round(float(np.sqrt(np.average(ratios**2, weights=real))), 2)


def area_of(places):
    """The area of a polygon, less than 0 where it runs the other way round."""
    following = np.roll(places, -1, axis=0)
    return float((places[:, 0] * following[:, 1] - places[:, 1] * following[:, 0]).sum() / 2)
