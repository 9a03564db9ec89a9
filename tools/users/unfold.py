#!/usr/bin/env python3
"""Unfolds a mesh that `surf cut` wrote into the plane, as an example of what a disc is good for.

    unfold.py OPEN --off flat.off     the disc in the plane, its vertices numbered as the copies are
    unfold.py OPEN --obj skin.obj     the mesh that was cut, with the place of each corner in the plane as its texture

The border is laid on a circle, each side as long as it is in space, and each other vertex at the mean of its
neighbours (W. T. Tutte, "How to draw a graph", 1963). Tools for textures stretch less; this one is short.
"""

from __future__ import annotations

import argparse
import math
import pathlib

from tools.users.off import Mesh, read_off, write_off

Place = tuple[float, float]  # in the unit square


def border_round(mesh: Mesh) -> list[int]:
    """The vertices on the border, in one round."""
    beside = {}
    for (u, v), faces in mesh.edges().items():
        if len(faces) == 1:
            beside.setdefault(u, []).append(v)
            beside.setdefault(v, []).append(u)
    if not beside or any(len(pair) != 2 for pair in beside.values()):
        raise SystemExit("the mesh has no border that runs once through each of its vertices: cut it first")
    start = min(beside)
    round_, before, at = [start], start, min(beside[start])
    while at != start:
        round_.append(at)
        before, at = at, beside[at][1] if beside[at][0] == before else beside[at][0]
    if len(round_) != len(beside):
        raise SystemExit("the mesh has more than one border")
    return round_


def circle(mesh: Mesh, round_: list[int]) -> dict[int, Place]:
    """A place on the circle for each vertex of the border."""
    sizes = [math.dist(mesh.points[u], mesh.points[v]) for u, v in zip(round_, round_[1:] + round_[:1])]
    least = sum(sizes) / (100 * len(sizes))
    sizes = [max(size, least) for size in sizes]
    places, angle = {}, 0.0
    for vertex, size in zip(round_, sizes):
        places[vertex] = (0.5 + 0.5 * math.cos(angle), 0.5 + 0.5 * math.sin(angle))
        angle += 2 * math.pi * size / sum(sizes)
    return places


def unfolded(mesh: Mesh) -> list[Place]:
    """A place in the plane for each vertex."""
    places = circle(mesh, border_round(mesh))
    beside = [[] for _ in mesh.points]
    for u, v in mesh.edges():
        beside[u].append(v)
        beside[v].append(u)
    inner = [v for v in range(len(mesh.points)) if v not in places]
    at = [places.get(v, (0.5, 0.5)) for v in range(len(mesh.points))]
    speed, moved = 1.8, 1.0
    while moved > 1e-9:
        moved = 0.0
        for v in inner:
            for_all = len(beside[v])
            x = sum(at[w][0] for w in beside[v]) / for_all
            y = sum(at[w][1] for w in beside[v]) / for_all
            step = (speed * (x - at[v][0]), speed * (y - at[v][1]))
            at[v] = (at[v][0] + step[0], at[v][1] + step[1])
            moved = max(moved, abs(step[0]), abs(step[1]))
    return at


def skin_text(mesh: Mesh, places: list[Place]) -> str:
    """The mesh that was cut as an OBJ, each corner with its place in the plane."""
    points = {origin: point for origin, point in zip(mesh.origins, mesh.points)}
    rows = ["v " + " ".join(f"{x:g}" for x in points[vertex]) for vertex in sorted(points)]
    rows += [f"vt {x:.6f} {y:.6f}" for x, y in places]
    rows += ["f " + " ".join(f"{mesh.origins[c] + 1}/{c + 1}" for c in face) for face in mesh.faces]
    return "\n".join(rows) + "\n"


def main() -> None:
    parser = argparse.ArgumentParser(description=__doc__, formatter_class=argparse.RawDescriptionHelpFormatter)
    parser.add_argument("open", type=pathlib.Path)
    parser.add_argument("--off", type=pathlib.Path, metavar="FILE")
    parser.add_argument("--obj", type=pathlib.Path, metavar="FILE")
    words = parser.parse_args()
    mesh = read_off(words.open.read_text())
    places = unfolded(mesh)
    if words.off:
        words.off.write_text(write_off(Mesh([(x, y, 0) for x, y in places], mesh.faces)))
    if words.obj:
        if len(mesh.origins) != len(mesh.points):
            raise SystemExit("the text has no line `# copy` for each vertex")
        words.obj.write_text(skin_text(mesh, places))


if __name__ == "__main__":
    main()
