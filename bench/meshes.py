#!/usr/bin/env python3
"""Closed surface meshes that no search was tuned for, as OFF texts.

    bench/meshes.py [--seed S] [--cross] [--near] [--rings N] [--shuffle S] [--turn] KIND NUMBER .. > MESH.off

    torus A B           a torus of A by B squares, each cut into two triangles
    quads A B           the same torus with its squares whole
    chain G A B         G such tori in a row, as `surf gen` makes them
    ring G A B          the chain closed to a ring: one class of walks goes round all of it
    tail G A B C        G small tori behind the far end of a torus of A by C: deep trees
    sphere R S          R rings of S vertices, and two poles
    handles R S H       that sphere with H tubes between random faces (--near: close faces, --cross: some one-sided)
    dense R S H         the same, with tubes that share vertices: more loops than vertices
    comb H N            H tubes of N rings on a narrow sphere with poles of great degree
    hub G N             G tori around one wheel of G * N spokes
    glued N             N triangles (N even) glued at random and each divided twice (--cross: also one-sided)
    flipped N A B       the torus of A by B after N random flips of edges: irregular degrees
    fan N               a torus with a vertex of degree N and more
    polygon N           the same, with one face of N + 2 corners in place of the half of that fan
    suspension N        two poles over a cycle of N vertices
    pillow N            two faces of N corners each
    pyramid N           a cone over one face of N corners
    prism N M           two faces of N corners, and M rows of N squares between them
    bigface A B C       the torus of A by B with a block of C by C squares as one face
    gyroid N P          a minimal surface of P periods on N by N by N cells, cut at a box, with coordinates
    truss N P           a lattice of struts, likewise
    blobs N K           tubes between K near points, likewise: like a scan of something real
    bumpy A B           a torus in space with bumps on bumps, with coordinates
    stretched A B       a torus in space, 1,000 times as long as wide, with coordinates
    scan N H            like a scan of some N vertices, with coordinates: a noisy blob with H small handles between
                        near faces, as noise makes them

With --shuffle the vertices and faces are numbered anew at random, and with --turn some faces are run backwards too.
"""
import argparse
import inspect
import itertools
import math
import random
import sys
from collections.abc import Callable, Iterable, Sequence
from dataclasses import dataclass
from typing import TextIO

Face = tuple[int, ...]
Point = tuple[float, float, float]


@dataclass
class Mesh:
    """A mesh: how many vertices, the corners of each face, and the points of the vertices where they have some."""

    vertices: int
    faces: list[Face]
    points: list[Point] | None = None


@dataclass
class Choices:
    """What the options say: chance by --seed, and whether tubes are one-sided, short, and of how many rings."""

    chance: random.Random
    cross: bool = False
    near: bool = False
    rings: int = 0


KINDS: dict[str, Callable[..., Mesh]] = {}


def kind(make: Callable[..., Mesh]) -> Callable[..., Mesh]:
    """Lists a maker of meshes by its name."""
    KINDS[make.__name__] = make
    return make


def numbered_anew(faces: Iterable[Face]) -> Mesh:
    """The faces with their vertices numbered from 0 on, in the order in which they are met."""
    number: dict[int, int] = {}
    renamed = [tuple(number.setdefault(v, len(number)) for v in face) for face in faces]
    return Mesh(len(number), renamed)


# ---- tori, and tori glued to one another


@kind
def torus(a: int, b: int) -> Mesh:
    faces: list[Face] = []
    for i, j in itertools.product(range(a), range(b)):
        p, q = i * b + j, (i + 1) % a * b + j
        r, s = (i + 1) % a * b + (j + 1) % b, i * b + (j + 1) % b
        faces += [(p, q, r), (p, r, s)]
    return Mesh(a * b, faces)


@kind
def quads(a: int, b: int) -> Mesh:
    return Mesh(
        a * b,
        [
            (i * b + j, (i + 1) % a * b + j, (i + 1) % a * b + (j + 1) % b, i * b + (j + 1) % b)
            for i, j in itertools.product(range(a), range(b))
        ],
    )


def joined_tori(count: int, a: int, b: int, is_ring: bool) -> Mesh:
    """Tori in a row: face 0 of each is taken away, and so is a face of the torus before; their corners become one."""
    one = torus(a, b)
    first, last = 0, 2 * (2 * b + 2)
    faces: list[Face] = []
    same: dict[int, int] = {}
    for place in range(count):
        has_before, has_after = is_ring or place > 0, is_ring or place < count - 1
        shift = place * one.vertices
        for number, face in enumerate(one.faces):
            if not (number == first and has_before or number == last and has_after):
                faces.append(tuple(v + shift for v in face))
        if has_before:
            before = (place - 1) % count * one.vertices
            u, v, w = one.faces[last]
            for mine, other in zip(one.faces[first], (u, w, v)):
                same[mine + shift] = other + before
    return numbered_anew(tuple(same.get(v, v) for v in face) for face in faces)


@kind
def chain(g: int, a: int, b: int) -> Mesh:
    return joined_tori(g, a, b, is_ring=False)


@kind
def ring(g: int, a: int, b: int) -> Mesh:
    return joined_tori(g, a, b, is_ring=True)


def glued_on(vertices: int, hole: Face, part: Mesh, gone: Sequence[int]) -> tuple[int, list[Face], dict[int, int]]:
    """A part whose face 0 lies on a triangle that is a hole: the vertices that there are then, the faces of the part
    but for those that are gone, and the number of each of its vertices."""
    u, v, w = part.faces[0]
    number = {u: hole[0], v: hole[2], w: hole[1]}
    for vertex in range(part.vertices):
        if vertex not in number:
            number[vertex] = vertices
            vertices += 1
    left = [tuple(number[v] for v in face) for place, face in enumerate(part.faces) if place not in gone]
    return vertices, left, number


@kind
def tail(g: int, a: int, b: int, c: int) -> Mesh:
    mesh, small = torus(a, c), torus(a, b)
    far, last = 2 * (2 * c + c // 2), 2 * (2 * b + 2)
    hole = mesh.faces.pop(far)
    for place in range(g):
        gone = (0, last) if place < g - 1 else (0,)
        mesh.vertices, faces, number = glued_on(mesh.vertices, hole, small, gone)
        mesh.faces += faces
        hole = tuple(number[v] for v in small.faces[last])
    return mesh


@kind
def hub(g: int, n: int) -> Mesh:
    wheel = suspension(g * n)
    mesh = Mesh(wheel.vertices, [face for place, face in enumerate(wheel.faces) if place >= g * n or place % n])
    for place in range(0, g * n, n):
        mesh.vertices, faces, _ = glued_on(mesh.vertices, wheel.faces[place], torus(3, 4), (0,))
        mesh.faces += faces
    return mesh


@kind
def bigface(a: int, b: int, c: int) -> Mesh:
    whole = torus(a, b)
    left = [face for place, face in enumerate(whole.faces) if not (place // 2 // b < c and place // 2 % b < c)]
    down = [i * b for i in range(c)] + [c * b + j for j in range(c)]
    up = [i * b + c for i in range(c, 0, -1)] + list(range(c, 0, -1))
    return numbered_anew([*left, tuple(down + up)])


@kind
def flipped(n: int, a: int, b: int, choices: Choices) -> Mesh:
    mesh = torus(a, b)
    owner = {side: place for place, face in enumerate(mesh.faces) for side in zip(face, face[1:] + face[:1])}
    near: list[set[int]] = [set() for _ in range(mesh.vertices)]
    for u, v in owner:
        near[u].add(v)
    done = 0
    for _ in range(20 * n):
        if done == n:
            break
        done += flip(mesh, owner, near, choices.chance)
    return mesh


def flip(mesh: Mesh, owner: dict[tuple[int, int], int], near: list[set[int]], chance: random.Random) -> bool:
    """Turns a random edge over between its two triangles, unless two vertices would then have two edges."""
    place, corner = chance.randrange(len(mesh.faces)), chance.randrange(3)
    u, v, w = (mesh.faces[place] * 2)[corner : corner + 3]
    other = owner[v, u]
    (x,) = (vertex for vertex in mesh.faces[other] if vertex not in (u, v))
    if x in near[w] or x == w or len(near[u]) <= 3 or len(near[v]) <= 3:
        return False
    near[u].discard(v), near[v].discard(u), near[w].add(x), near[x].add(w)
    del owner[u, v], owner[v, u]
    mesh.faces[place], mesh.faces[other] = (w, u, x), (x, v, w)
    for number in (place, other):
        face = mesh.faces[number]
        owner.update(dict.fromkeys(zip(face, face[1:] + face[:1]), number))
    return True


# ---- great degrees and great faces


def opened_torus(n: int) -> tuple[int, int, int, list[int], list[Face]]:
    """A torus of 12 vertices without its first face: the corners of that face, a path of n new vertices between the
    second and the third, both included, and the faces."""
    first, *faces = torus(3, 4).faces
    a, b, c = first
    path = [b, *range(12, 12 + n), c]
    return a, b, c, path, faces + [(a, u, v) for u, v in zip(path, path[1:])]


@kind
def fan(n: int) -> Mesh:
    _, b, c, path, faces = opened_torus(n)
    top = 12 + n
    return Mesh(top + 1, [*faces, *((top, v, u) for u, v in zip(path, path[1:])), (top, b, c)])


@kind
def polygon(n: int) -> Mesh:
    _, _, _, path, faces = opened_torus(n)
    return Mesh(12 + n, [*faces, tuple(reversed(path))])


@kind
def suspension(n: int) -> Mesh:
    rim = [2 + j for j in range(n)]
    sides = list(zip(rim, rim[1:] + rim[:1]))
    return Mesh(n + 2, [(0, u, v) for u, v in sides] + [(1, v, u) for u, v in sides])


@kind
def pillow(n: int) -> Mesh:
    return Mesh(n, [tuple(range(n)), tuple(reversed(range(n)))])


@kind
def pyramid(n: int) -> Mesh:
    first, *others = ((j, (j + 1) % n, n) for j in range(n))
    return Mesh(n + 1, [first, tuple(reversed(range(n))), *others])


@kind
def prism(n: int, m: int) -> Mesh:
    squares = [
        (i * n + j, i * n + (j + 1) % n, (i + 1) * n + (j + 1) % n, (i + 1) * n + j)
        for i, j in itertools.product(range(m), range(n))
    ]
    return Mesh(n * (m + 1), [tuple(reversed(range(n))), tuple(range(n * m, n * m + n)), *squares])


# ---- spheres with tubes


@kind
def sphere(r: int, s: int) -> Mesh:
    def at(i: int, j: int) -> int:
        return 1 + i * s + j % s

    faces: list[Face] = [(0, at(0, j), at(0, j + 1)) for j in range(s)]
    for i, j in itertools.product(range(r - 1), range(s)):
        faces += [(at(i, j), at(i + 1, j), at(i + 1, j + 1)), (at(i, j), at(i + 1, j + 1), at(i, j + 1))]
    top = 1 + r * s
    return Mesh(top + 1, faces + [(top, at(r - 1, j + 1), at(r - 1, j)) for j in range(s)])


def tube(vertices: int, first: Face, second: Face, choices: Choices) -> tuple[int, list[Face]]:
    """A tube between two triangles that are taken away: the vertices that there are then, and its faces."""
    turn = choices.chance.randrange(3)
    end = (tuple(reversed(second)) * 2)[turn : turn + 3]
    if choices.cross and choices.chance.random() < 0.5:
        end = tuple(reversed(end))
    middle = [tuple(range(vertices + 3 * k, vertices + 3 * k + 3)) for k in range(choices.rings)]
    rounds = [first, *middle, end]
    faces: list[Face] = []
    for below, above in zip(rounds, rounds[1:]):
        for i in range(3):
            j = (i + 1) % 3
            faces += [(below[i], below[j], above[j]), (below[i], above[j], above[i])]
    return vertices + 3 * choices.rings, faces


def with_tubes(mesh: Mesh, pairs: list[tuple[int, int]], choices: Choices) -> Mesh:
    """The mesh with tubes between pairs of faces that have no corner in common."""
    gone = {face for pair in pairs for face in pair}
    vertices, added = mesh.vertices, []
    for f, g in pairs:
        vertices, faces = tube(vertices, mesh.faces[f], mesh.faces[g], choices)
        added += faces
    return Mesh(vertices, [face for place, face in enumerate(mesh.faces) if place not in gone] + added)


@kind
def handles(r: int, s: int, h: int, choices: Choices) -> Mesh:
    mesh = sphere(r, s)
    used: set[int] = set()
    inner = list(range(s, len(mesh.faces) - s))
    choices.chance.shuffle(inner)

    def is_free(f: int) -> bool:
        return used.isdisjoint(mesh.faces[f])

    def partners(f: int) -> Iterable[int]:
        if choices.near:
            return [f + 6 if f + 6 < len(mesh.faces) - s else f - 6]
        return (choices.chance.choice(inner) for _ in range(1000))

    pairs: list[tuple[int, int]] = []
    for f in inner:
        if len(pairs) == h:
            return with_tubes(mesh, pairs, choices)
        if is_free(f):
            for g in partners(f):
                if is_free(g) and set(mesh.faces[f]).isdisjoint(mesh.faces[g]):
                    used.update(mesh.faces[f], mesh.faces[g])
                    pairs.append((f, g))
                    break
    if len(pairs) < h:
        raise ValueError(f"a sphere of {r} rings of {s} has no room for {h} tubes")
    return with_tubes(mesh, pairs, choices)


def both_ways(faces: Iterable[Face]) -> set[tuple[int, int]]:
    sides = [side for face in faces for side in zip(face, face[1:] + face[:1])]
    return {*sides, *((v, u) for u, v in sides)}


@kind
def dense(r: int, s: int, h: int, choices: Choices) -> Mesh:
    mesh = sphere(r, s)
    joined = both_ways(mesh.faces)
    done = 0
    while done < h:
        f, g = choices.chance.randrange(len(mesh.faces)), choices.chance.randrange(len(mesh.faces))
        ends = itertools.product(mesh.faces[f], mesh.faces[g])
        if any(u == v or (u, v) in joined for u, v in ends):
            continue
        mesh.vertices, faces = tube(mesh.vertices, mesh.faces[f], mesh.faces[g], choices)
        joined |= both_ways(faces)
        for place in sorted((f, g), reverse=True):
            mesh.faces[place] = mesh.faces[-1]
            mesh.faces.pop()
        mesh.faces += faces
        done += 1
    return mesh


@kind
def comb(h: int, n: int, choices: Choices) -> Mesh:
    choices.rings = n
    inner = [6 * h + 6 * j for j in range(2 * h)]
    return with_tubes(sphere(3, 6 * h), list(zip(inner[::2], inner[1::2])), choices)


# ---- triangles glued at random


class Sets:
    """Numbers in sets that are joined."""

    def __init__(self, count: int) -> None:
        self.above = list(range(count))

    def root(self, x: int) -> int:
        while self.above[x] != x:
            self.above[x] = self.above[self.above[x]]
            x = self.above[x]
        return x

    def join(self, x: int, y: int) -> None:
        self.above[self.root(x)] = self.root(y)


def next_side(s: int) -> int:
    return s - 2 if s % 3 == 2 else s + 1


@kind
def glued(n: int, choices: Choices) -> Mesh:
    if n % 2:
        raise ValueError(f"{n} triangles have an odd number of sides, which can't be glued in pairs")
    sides = list(range(3 * n))
    choices.chance.shuffle(sides)
    corners = Sets(3 * n)
    edge, is_turned = {}, {}
    beside: list[list[int]] = [[] for _ in range(n)]
    for s, t in zip(sides[::2], sides[1::2]):
        is_crossed = choices.cross and choices.chance.random() < 0.5
        edge[s] = edge[t] = s
        is_turned[s], is_turned[t] = False, not is_crossed
        ends = (t, next_side(t)) if is_crossed else (next_side(t), t)
        corners.join(s, ends[0])
        corners.join(next_side(s), ends[1])
        beside[s // 3].append(t // 3)
        beside[t // 3].append(s // 3)
    number: dict[tuple, int] = {}
    faces: list[Face] = []
    for s in (3 * f + k for f in sorted(part_of(0, beside)) for k in range(3)):
        for end in (0, 1):
            at = next_side(s) if end else s
            keys = [
                ("corner", corners.root(at)),
                ("half", edge[s], end ^ is_turned[s]),
                ("edge", edge[s]),
                ("spoke", s),
                ("face", s // 3),
                ("ray", at),
            ]
            loop = [number.setdefault(key, len(number)) for key in (reversed(keys) if end else keys)]
            middle = number.setdefault(("middle", s, end), len(number))
            faces += [(u, v, middle) for u, v in zip(loop, loop[1:] + loop[:1])]
    return Mesh(len(number), faces)


def part_of(first: int, beside: list[list[int]]) -> set[int]:
    """What is reached from the first."""
    reached, waiting = {first}, [first]
    while waiting:
        for other in beside[waiting.pop()]:
            if other not in reached:
                reached.add(other)
                waiting.append(other)
    return reached


# ---- surfaces in space


def marched(n: int, value: Callable[[float, float, float], float]) -> Mesh:
    """The boundary of where a function is below 0 in a box of n^3 cells, by marching tetrahedra; the largest part."""
    m = n + 1
    values = [
        1.0 if {i, j, k} & {0, n} else (value(i / n, j / n, k / n) or 1e-6)
        for i, j, k in itertools.product(range(m), repeat=3)
    ]
    steps = {1: m * m, 2: m, 4: 1}
    shifts = [[sum(step for bit, step in steps.items() if x & bit) for x in (0, p, p | q, 7)]
              for p, q, _ in itertools.permutations((1, 2, 4))]
    box = [sum(some) for some in itertools.product((0, m * m), (0, m), (0, 1))]
    number: dict[tuple[int, int], int] = {}
    points: list[Point] = []
    faces: list[Face] = []

    def cut(u: int, v: int) -> int:
        key = (u, v) if u < v else (v, u)
        if key not in number:
            number[key] = len(points)
            part = min(max(values[u] / (values[u] - values[v]), 1e-3), 1 - 1e-3)
            ends = ((x // (m * m), x // m % m, x % m) for x in (u, v))
            points.append(tuple((p + (q - p) * part) / n for p, q in zip(*ends)))
        return number[key]

    for i, j, k in itertools.product(range(n), repeat=3):
        base = (i * m + j) * m + k
        if len({values[base + step] < 0 for step in box}) == 1:
            continue
        for shift in shifts:
            corners = [base + step for step in shift]
            inner, outer = [x for x in corners if values[x] < 0], [x for x in corners if values[x] >= 0]
            if len(inner) == 2:
                (a, b), (c, d) = inner, outer
                p, q, r, s = cut(a, c), cut(a, d), cut(b, d), cut(b, c)
                faces += [(p, q, r), (p, r, s)]
            elif inner and outer:
                faces.append(tuple(cut(u, v) for u in inner for v in outer))
    return largest_part(Mesh(len(points), faces, points))


def largest_part(mesh: Mesh) -> Mesh:
    sets = Sets(mesh.vertices)
    for face in mesh.faces:
        for v in face[1:]:
            sets.join(face[0], v)
    roots = [sets.root(face[0]) for face in mesh.faces]
    most = max(set(roots), key=roots.count)
    kept = [face for face, root in zip(mesh.faces, roots) if root == most]
    part = numbered_anew(kept)
    order = dict.fromkeys(v for face in kept for v in face)
    part.points = [mesh.points[v] for v in order]
    return part


@kind
def gyroid(n: int, p: int) -> Mesh:
    wave, sin, cos = 2 * math.pi * p, math.sin, math.cos

    def value(x: float, y: float, z: float) -> float:
        x, y, z = wave * x, wave * y, wave * z
        return sin(x) * cos(y) + sin(y) * cos(z) + sin(z) * cos(x) + 0.0123

    return marched(n, value)


@kind
def truss(n: int, p: int) -> Mesh:
    wave = 2 * math.pi * p
    return marched(n, lambda x, y, z: 0.4 - math.cos(wave * x) - math.cos(wave * y) - math.cos(wave * z))


@kind
def blobs(n: int, k: int, choices: Choices) -> Mesh:
    width, uniform = 0.02, choices.chance.uniform
    centres = [(uniform(0.15, 0.85), uniform(0.15, 0.85), uniform(0.15, 0.85)) for _ in range(k)]
    tubes = [(p, q) for p in centres for q in sorted(centres, key=lambda q: math.dist(p, q))[1:4]]
    cell = 3 * width
    near: dict[Point, list[tuple[Point, Point]]] = {}
    for p, q in tubes:
        ends = [(min(a, b) - 2 * width, max(a, b) + 2 * width) for a, b in zip(p, q)]
        for place in itertools.product(*(range(int(low / cell), int(high / cell) + 1) for low, high in ends)):
            near.setdefault(place, []).append((p, q))

    def value(*at: float) -> float:
        here = near.get(tuple(int(x / cell) for x in at), ())
        return min((to_segment(at, p, q) - width for p, q in here), default=9.0)

    return marched(n, value)


def to_segment(at: Point, p: Point, q: Point) -> float:
    """How far a point is from a segment."""
    along = [b - a for a, b in zip(p, q)]
    part = sum(x * (y - a) for x, y, a in zip(along, at, p)) / sum(x * x for x in along)
    part = min(max(part, 0.0), 1.0)
    return math.dist(at, [a + part * x for a, x in zip(p, along)])


def torus_in_space(a: int, b: int, place: Callable[[float, float], Point]) -> Mesh:
    mesh = torus(a, b)
    turns = itertools.product(range(a), range(b))
    mesh.points = [place(2 * math.pi * i / a, 2 * math.pi * j / b) for i, j in turns]
    return mesh


@kind
def bumpy(a: int, b: int, choices: Choices) -> Mesh:
    phases = [(choices.chance.uniform(0, 6.28), choices.chance.uniform(0, 6.28)) for _ in range(6)]

    def place(u: float, v: float) -> Point:
        bumps = (0.3 * 0.6**k * math.sin(2**k * u + p) * math.sin(2**k * v + q) for k, (p, q) in enumerate(phases))
        r = 1 + sum(bumps)
        return (3 + r * math.cos(v)) * math.cos(u), (3 + r * math.cos(v)) * math.sin(u), r * math.sin(v)

    return torus_in_space(a, b, place)


@kind
def stretched(a: int, b: int) -> Mesh:
    def place(u: float, v: float) -> Point:
        return 1000 * (3 + math.cos(v)) * math.cos(u), (3 + math.cos(v)) * math.sin(u), math.sin(v)

    return torus_in_space(a, b, place)


# ---- like a scan


def blob(n: int, chance: random.Random) -> Mesh:
    """A cube of 6 n^2 squares, rounded, with bumps and noise. Squares are cut along either diagonal."""
    ranges = [(1, 9), (1, 9), (1, 9), (0, 6), (0.01, 0.08)]
    bumps = [[chance.uniform(*bounds) for bounds in ranges] for _ in range(12)]
    number: dict[tuple[int, ...], int] = {}
    points: list[Point] = []

    def at(place: tuple[int, ...]) -> int:
        if place not in number:
            number[place] = len(points)
            out = [math.tan((2 * t / n - 1) * math.pi / 4) for t in place]
            x, y, z = (t / math.hypot(*out) for t in out)
            height = 1 + sum(size * math.sin(i * x + j * y + k * z + phase) for i, j, k, phase, size in bumps)
            height *= 1 + chance.gauss(0, 0.15 / n)
            points.append((x * height, y * height, z * height))
        return number[place]

    faces: list[Face] = []
    for axis, end, i, j in itertools.product(range(3), (0, n), range(n), range(n)):
        ring = [(i, j), (i + 1, j), (i + 1, j + 1), (i, j + 1)]
        if (axis + (end > 0)) % 2 == 0:
            ring.reverse()
        a, b, c, d = (at((*pair[:axis], end, *pair[axis:])) for pair in ring)
        faces += [(a, b, c), (a, c, d)] if chance.random() < 0.5 else [(a, b, d), (b, c, d)]
    return Mesh(len(points), faces, points)


def bridged(mesh: Mesh, first: Face, second: Face, count: int) -> list[Face]:
    """The faces of a tube in space between two faces, of so many rings of three; its points are added to the mesh."""
    points = mesh.points
    turned = [(second[t], second[t - 1], second[t - 2]) for t in range(3)]
    end = min(turned, key=lambda other: sum(math.dist(points[u], points[v]) for u, v in zip(first, other)))
    rings = [first]
    for step in range(1, count + 1):
        part = step / (count + 1)
        lift = 1 + 0.02 * math.sin(math.pi * part)
        rings.append(tuple(range(len(points), len(points) + 3)))
        points += [tuple(lift * (a + part * (b - a)) for a, b in zip(points[u], points[v])) for u, v in zip(first, end)]
    mesh.vertices = len(points)
    faces: list[Face] = []
    for (ring, other), i in itertools.product(zip(rings, [*rings[1:], end]), range(3)):
        j = (i + 1) % 3
        faces += [(ring[i], ring[j], other[j]), (ring[i], other[j], other[i])]
    return faces


@kind
def scan(n: int, h: int, choices: Choices) -> Mesh:
    chance = choices.chance
    mesh = blob(max(3, round(math.sqrt(n / 6))), chance)
    at: list[list[int]] = [[] for _ in range(mesh.vertices)]
    for place, face in enumerate(mesh.faces):
        for v in face:
            at[v].append(place)

    def near(face: int) -> int:
        v = mesh.faces[face][0]
        for _ in range(chance.randint(4, 14)):
            v = chance.choice(mesh.faces[chance.choice(at[v])])
        return chance.choice(at[v])

    used: set[int] = set()
    gone: set[int] = set()
    added: list[Face] = []
    while len(gone) < 2 * h:
        f = chance.randrange(len(mesh.faces))
        g = near(f)
        ends = (mesh.faces[f], mesh.faces[g])
        around = {w for end in ends for v in end for place in at[v] for w in mesh.faces[place]}
        if set(ends[0]).isdisjoint(ends[1]) and around.isdisjoint(used):
            used |= around
            gone |= {f, g}
            added += bridged(mesh, *ends, chance.randint(2, 5))
    mesh.faces = [face for place, face in enumerate(mesh.faces) if place not in gone] + added
    return mesh


# ---- the texts


def shuffled(mesh: Mesh, seed: int, turns: bool) -> Mesh:
    """The mesh with its vertices and faces in another order, and its faces begun at another corner."""
    chance = random.Random(seed)
    number = list(range(mesh.vertices))
    chance.shuffle(number)
    faces = []
    for face in mesh.faces:
        turn = chance.randrange(len(face))
        renamed = tuple(number[v] for v in face[turn:] + face[:turn])
        faces.append(tuple(reversed(renamed)) if turns and chance.random() < 0.5 else renamed)
    chance.shuffle(faces)
    points = None
    if mesh.points is not None:
        points = [mesh.points[v] for v in sorted(range(mesh.vertices), key=number.__getitem__)]
    return Mesh(mesh.vertices, faces, points)


def write_off(mesh: Mesh, out: TextIO) -> None:
    """The mesh as an OFF text. A vertex without a point stands at its number on a line."""
    out.write(f"OFF\n{mesh.vertices} {len(mesh.faces)} 0\n")
    if mesh.points is None:
        out.writelines(f"{v} 0 0\n" for v in range(mesh.vertices))
    else:
        out.writelines(f"{x:.7f} {y:.7f} {z:.7f}\n" for x, y, z in mesh.points)
    out.writelines(f"{len(face)} {' '.join(map(str, face))}\n" for face in mesh.faces)


def made(words: Sequence[str]) -> Mesh:
    """The mesh that words say, options and all. Ends the program with a line where they say none."""
    parser = argparse.ArgumentParser(description=__doc__, formatter_class=argparse.RawDescriptionHelpFormatter)
    parser.add_argument("--seed", type=int, default=1, help="of all chance but that of --shuffle")
    parser.add_argument("--cross", action="store_true", help="glue some tubes or sides the other way round")
    parser.add_argument("--near", action="store_true", help="tubes between near faces")
    parser.add_argument("--rings", type=int, default=0, help="of vertices in each tube")
    parser.add_argument("--shuffle", type=int, metavar="SEED", help="number all anew")
    parser.add_argument("--turn", action="store_true", help="run some faces backwards, where all are numbered anew")
    parser.add_argument("kind", choices=KINDS, metavar="KIND")
    parser.add_argument("numbers", type=int, nargs="*", metavar="NUMBER")
    options = parser.parse_args(words)
    make = KINDS[options.kind]
    names = list(inspect.signature(make).parameters)
    given: list = list(options.numbers)
    if names[-1:] == ["choices"]:
        given.append(Choices(random.Random(options.seed), options.cross, options.near, options.rings))
    if len(given) != len(names):
        parser.error(f"{options.kind} takes {len([name for name in names if name != 'choices'])} numbers")
    try:
        mesh = make(*given)
    except ValueError as wrong:
        parser.error(str(wrong))
    return mesh if options.shuffle is None else shuffled(mesh, options.shuffle, options.turn)


if __name__ == "__main__":
    write_off(made(sys.argv[1:]), sys.stdout)
