#!/usr/bin/env python3
"""Makes the meshes with coordinates in `meshes/`: closed surfaces of genus 1, 2, 3 and 13 in space.

    python3 tools meshes

Circles of radius 1 stand in a row in a plane, each touching the next. The surface has the distance 0.4 from them, so
each circle gives it one hole and its genus is their number. It is cut out of a grid of cubes, each of six tetrahedra
along its diagonal, which gives a closed surface of triangles whatever the grid is. Coordinates are written with seven
decimals, as tools for meshes write them.

`noisy.off` is a torus of squares with twelve small handles: tubes that arch from one square to another.

Beside them stands `scan.ply`, a binary PLY of the surface of genus 2 as a scanner's tools would leave it: with three
holes, with vertices that stand twice along a seam, and with a crumb that doesn't hang together with it.
"""
import math
import struct
import sys

from tools import TOP

CORNERS = [(i >> 2 & 1, i >> 1 & 1, i & 1) for i in range(8)]
TETRAHEDRA = [(0, 4, 6, 7), (0, 4, 5, 7), (0, 2, 6, 7), (0, 2, 3, 7), (0, 1, 5, 7), (0, 1, 3, 7)]


def value(circles, point):
    """Below 0 inside the surface of so many circles, and above 0 outside."""
    x, y, z = point
    across = min(abs(math.hypot(x - 2 * i, y) - 1) for i in range(circles))
    return across**2 + z**2 - 0.4**2


def surface(circles, step):
    """The points and the triangles of the surface, on a grid of cubes with sides of this length."""
    # The grid is set off, so that it has no plane in common with the surface's symmetries.
    start = (-1.5 + 0.13 * step, -1.5 - 0.21 * step, -0.5 - 0.37 * step)
    sizes = tuple(math.ceil(length / step) + 1 for length in (2 * circles + 1, 3, 1))
    place = lambda cell: tuple(start[k] + cell[k] * step for k in range(3))
    values, numbers, points, triangles = {}, {}, [], []

    def at(cell):
        if cell not in values:
            values[cell] = value(circles, place(cell))
        return values[cell]

    def crossing(a, b):
        key = (min(a, b), max(a, b))
        if key not in numbers:
            a, b = key
            part = min(0.95, max(0.05, at(a) / (at(a) - at(b))))
            numbers[key] = len(points)
            points.append(tuple(p + part * (q - p) for p, q in zip(place(a), place(b))))
        return numbers[key]

    def add(corners, inner):
        """A triangle, turned so that it is seen from outside against the clock."""
        p, q, r = (points[c] for c in corners)
        u, v = [b - a for a, b in zip(p, q)], [b - a for a, b in zip(p, r)]
        normal = (u[1] * v[2] - u[2] * v[1], u[2] * v[0] - u[0] * v[2], u[0] * v[1] - u[1] * v[0])
        side = sum(m * (a - b) for m, a, b in zip(normal, p, inner))
        triangles.append(corners if side > 0 else (corners[0], corners[2], corners[1]))

    for i in range(sizes[0]):
        for j in range(sizes[1]):
            for k in range(sizes[2]):
                cube = [(i + a, j + b, k + c) for a, b, c in CORNERS]
                for tetrahedron in TETRAHEDRA:
                    cells = [cube[c] for c in tetrahedron]
                    inside = [c for c in cells if at(c) < 0]
                    outside = [c for c in cells if at(c) >= 0]
                    if not inside or not outside:
                        continue
                    inner = place(inside[0])
                    if len(inside) == 2:
                        (a, b), (c, d) = inside, outside
                        ring = [crossing(a, c), crossing(a, d), crossing(b, d), crossing(b, c)]
                        add((ring[0], ring[1], ring[2]), inner)
                        add((ring[0], ring[2], ring[3]), inner)
                    else:
                        lone, others = (inside[0], outside) if len(inside) == 1 else (outside[0], inside)
                        add(tuple(crossing(lone, c) for c in others), inner)
    return points, triangles


def write(path, genus, points, triangles):
    sides = {}
    for t in triangles:
        for a, b in zip(t, t[1:] + t[:1]):
            sides.setdefault((min(a, b), max(a, b)), []).append((a, b))
    if any(len(s) != 2 or s[0] == s[1] for s in sides.values()):
        sys.exit(f"{path}: not a closed surface that is turned one way")
    if len(points) - len(sides) + len(triangles) != 2 - 2 * genus:
        sys.exit(f"{path}: not of genus {genus}")
    lines = [" ".join(f"{c:.7f}" for c in p) for p in points]
    if len(set(lines)) != len(points):
        sys.exit(f"{path}: two vertices at one point")
    with open(path, "w") as file:
        file.write(f"OFF\n{len(points)} {len(triangles)} {len(sides)}\n")
        file.writelines(line + "\n" for line in lines)
        file.writelines(f"{len(t)} {' '.join(map(str, t))}\n" for t in triangles)
    print(f"{path}: {len(points)} vertices, {len(sides)} edges, {len(triangles)} faces")


ROUND, ACROSS = 48, 20  # squares of the torus
HANDLES = 12
RINGS = 7  # of squares on a handle
HEIGHT = 0.34  # how far the curves of a handle lead away from the torus
# The corner of the second square to which each corner of the first leads, where they stand in one row round the torus,
# or across.
MIRRORED_ROUND, MIRRORED_ACROSS = (1, 0, 3, 2), (3, 2, 1, 0)


def number(i, j):
    return (i % ROUND) * ACROSS + j % ACROSS


def normal(i, j):
    u, v = 2 * math.pi * i / ROUND, 2 * math.pi * j / ACROSS
    return math.cos(v) * math.cos(u), math.cos(v) * math.sin(u), math.sin(v)


def on_torus(i, j):
    u, height = 2 * math.pi * i / ROUND, 0.4
    return tuple(x + height * n for x, n in zip((math.cos(u), math.sin(u), 0.0), normal(i, j)))


def arch(start, end, part):
    """A point of a cubic curve that leaves one place and reaches another along the normals there."""
    (p, n), (q, m) = start, end
    weights = [math.comb(3, k) * (1 - part) ** (3 - k) * part**k for k in range(4)]
    places = p, [x + HEIGHT * y for x, y in zip(p, n)], [x + HEIGHT * y for x, y in zip(q, m)], q
    return tuple(sum(w * place[k] for w, place in zip(weights, places)) for k in range(3))


def square(i, j):
    return (i, j), (i + 1, j), (i + 1, j + 1), (i, j + 1)


def add_handle(points, faces, first, second):
    """A tube from one square of the torus to another, in place of both. The squares stand in one row along it."""
    mirrored = MIRRORED_ROUND if first[0] != second[0] else MIRRORED_ACROSS
    ends = [(corner, square(*second)[other]) for corner, other in zip(square(*first), mirrored)]
    rings = [[number(*a) for a, _ in ends]]
    for ring in range(1, RINGS):
        rings.append(range(len(points), len(points) + 4))
        points += [arch(*((on_torus(*at), normal(*at)) for at in pair), ring / RINGS) for pair in ends]
    rings.append([number(*b) for _, b in ends])
    for one, other in zip(rings, rings[1:]):
        faces += [(one[k - 1], one[k], other[k], other[k - 1]) for k in range(4)]


def noisy():
    """The points and the squares of a torus with small handles, half of them along it and half across."""
    points = [on_torus(i, j) for i in range(ROUND) for j in range(ACROSS)]
    squares = [(i, j) for i in range(ROUND) for j in range(ACROSS)]
    starts = [(4 * k, 7 * k % ACROSS) for k in range(HANDLES)]
    pairs = [((i, j), (i + 3, j) if k % 2 else (i, (j + 4) % ACROSS)) for k, (i, j) in enumerate(starts)]
    gone = {at for pair in pairs for at in pair}
    faces = [tuple(number(*at) for at in square(*where)) for where in squares if where not in gone]
    for pair in pairs:
        add_handle(points, faces, *pair)
    return points, faces


HOLES = [((-1.0, -1.0, 0.3), 0.4), ((3.0, 0.9, 0.2), 0.35), ((1.0, 0.3, 0.4), 0.25)]
SEAM = 1.0
CRUMB_POINTS = [(1.0, 1.7, 0.5), (1.1, 1.7, 0.5), (1.0, 1.8, 0.5), (1.0, 1.7, 0.6)]
CRUMB_TRIANGLES = [(0, 2, 1), (0, 1, 3), (1, 2, 3), (2, 0, 3)]


def scan(points, triangles):
    """The points and the triangles of the scan. Those beyond the seam have vertices of their own."""
    middle = lambda t: tuple(sum(points[c][k] for c in t) / 3 for k in range(3))
    left = [t for t in triangles if all(math.dist(middle(t), at) > size for at, size in HOLES)]
    numbers, found, faces = {}, [], []
    for t in left:
        key = lambda c: (middle(t)[0] > SEAM, c)
        for c in t:
            if key(c) not in numbers:
                numbers[key(c)] = len(found)
                found.append(points[c])
        faces.append(tuple(numbers[key(c)] for c in t))
    faces += [tuple(c + len(found) for c in t) for t in CRUMB_TRIANGLES]
    return found + CRUMB_POINTS, faces


def write_scan(path, points, triangles):
    head = ["ply", "format binary_little_endian 1.0", f"element vertex {len(points)}"]
    head += [f"property float {axis}" for axis in "xyz"] + ["property uchar quality"]
    head += [f"element face {len(triangles)}", "property list uchar int vertex_indices", "end_header", ""]
    with open(path, "wb") as file:
        file.write("\n".join(head).encode())
        file.write(b"".join(struct.pack("<3fB", *point, 255) for point in points))
        file.write(b"".join(struct.pack("<B3i", 3, *t) for t in triangles))
    print(f"{path}: {len(points)} vertices, {len(triangles)} faces")


def main():
    folder = TOP / "meshes"
    for name, genus, step in [("ring", 1, 0.4), ("eight", 2, 0.4), ("three", 3, 0.3)]:
        points, triangles = surface(genus, step)
        write(folder / f"{name}.off", genus, points, triangles)
        if name == "eight":
            write_scan(folder / "scan.ply", *scan(points, triangles))
    write(folder / "noisy.off", 13, *noisy())


if __name__ == "__main__":
    main()
