#!/usr/bin/env python3
"""Compares the built program with the plain method on small surfaces with many ties.

    check_bases.py [--program PATH] [--surfaces N] [--seed S]

The plain method is written here from the definitions: trees of shortest walks at each vertex, the heaviest tree of
faces for each, all loops in order of length, base and edge, and of these what is independent of those before. It
shares nothing with the program and takes a search at every vertex. `loops`, `basis` and `cycle`, the last two also
with `large`, have to print the same bytes. Surfaces of both kinds are made from tori, bottles and planes, glued to
each other, by turning edges over; their lengths are equal, or few, or many. A quarter as many more have long and
short handles, and lengths that tie where a search ends. At the end come meshes that are too large for the plain
method, of which the answer is known otherwise: 1,024 loops of length 4, a torus at the limit of 20,000 vertices, and
one past it.
"""

import argparse
import heapq
import pathlib
import random
import subprocess
import sys
import tempfile

from tools import TOP
from tools.oracles.worked_cases import PLANE_FACES, bottle_faces, edges_of, off, sides, torus_faces

# ---- surfaces


def glued(first, second):
    """The connected sum: a triangle of each is taken out, and their corners become one."""
    count = 1 + max(max(f) for f in first)
    a, b = first[-1], [v + count for v in second[0]]
    names = dict(zip(b, a))
    moved = [[names.get(v + count, v + count) for v in f] for f in second[1:]]
    return renumbered(first[:-1] + moved)


def renumbered(faces):
    """The same faces over the numbers from 0 on."""
    names = {v: n for n, v in enumerate(sorted({v for f in faces for v in f}))}
    return [[names[v] for v in f] for f in faces]


def turned_over(faces, chance, times):
    """The edge between two triangles is taken to the other two corners, some times, where that edge isn't there yet."""
    faces = [list(f) for f in faces]
    for _ in range(times):
        edges = edges_of(faces)
        u, v = chance.choice(edges)
        beside = [n for n, f in enumerate(faces) if (u, v) in sides(f)]
        if len(beside) != 2 or any(len(faces[n]) != 3 for n in beside):
            continue
        w, z = (next(x for x in faces[n] if x not in (u, v)) for n in beside)
        if w == z or tuple(sorted((w, z))) in edges:
            continue
        faces[beside[0]], faces[beside[1]] = [u, z, w], [v, w, z]
    return faces


def stretched(chance):
    """A surface with long and short handles: a thin torus and parts that are glued to it, some of them one-sided."""
    faces = torus_faces(3, chance.choice([8, 10, 13]))
    for _ in range(chance.choice([1, 2, 3])):
        faces = glued(faces, chance.choice([torus_faces(3, 3), torus_faces(3, 6), PLANE_FACES, bottle_faces(4, 5)]))
    return shuffled(turned_over(faces, chance, chance.choice([0, 10])), chance)


def shuffled(faces, chance):
    """The same faces with other numbers, or as they are: how many vertices they have, and the faces."""
    count = 1 + max(max(f) for f in faces)
    names = list(range(count))
    if chance.random() < 0.5:
        chance.shuffle(names)
        faces = chance.sample(faces, len(faces))
    return count, [[names[v] for v in f] for f in faces]


def surface(chance):
    """A surface of two to six loops."""
    parts = [torus_faces(3, 3), torus_faces(3, 4), bottle_faces(4, 5), PLANE_FACES, torus_faces(4, 4)]
    faces = chance.choice(parts)
    for _ in range(chance.choice([0, 0, 1, 1, 2])):
        faces = glued(faces, chance.choice(parts[:2] + [PLANE_FACES]))
    faces = turned_over(faces, chance, chance.choice([0, 10, 40]))
    return shuffled(faces, chance)


# ---- the plain method


class Plain:
    """A surface with lengths, and the loops at its vertices."""

    def __init__(self, count, faces, lengths):
        self.count, self.faces, self.lengths = count, faces, lengths
        self.edges = edges_of(faces)
        number = {p: e for e, p in enumerate(self.edges)}
        self.at = [[] for _ in range(count)]
        for e, (u, v) in enumerate(self.edges):
            self.at[u].append((v, e))
            self.at[v].append((u, e))
        self.beside = [[] for _ in self.edges]
        for n, f in enumerate(faces):
            for p in sides(f):
                self.beside[number[p]].append(n)
        self.trees = {}

    def tree(self, base):
        """Distances, and for each vertex the least parent on a shortest walk with the edge to it."""
        if base not in self.trees:
            far, queue = {}, [(0, base)]
            while queue:
                d, v = heapq.heappop(queue)
                if v not in far:
                    far[v] = d
                    for u, e in self.at[v]:
                        heapq.heappush(queue, (d + self.lengths[e], u))
            up = {v: min((u, e) for u, e in self.at[v] if far[u] + self.lengths[e] == far[v])
                  for v in range(self.count) if v != base}
            self.trees[base] = far, up
        return self.trees[base]

    def size(self, base, e):
        far, _ = self.tree(base)
        u, v = self.edges[e]
        return far[u] + self.lengths[e] + far[v]

    def divided(self, base):
        """The edges of the heaviest tree of faces outside the tree of vertices, and those in neither."""
        held = {e for _, e in self.tree(base)[1].values()}
        root = list(range(len(self.faces)))

        def find(f):
            while root[f] != f:
                f = root[f]
            return f

        cotree = set()
        for e in sorted(set(range(len(self.edges))) - held, key=lambda e: (self.size(base, e), e), reverse=True):
            a, b = map(find, self.beside[e])
            if a != b:
                root[a] = b
                cotree.add(e)
        return cotree, sorted(set(range(len(self.edges))) - held - cotree)

    def loops(self, base):
        """The loops at a vertex: length, base, edge."""
        return sorted((self.size(base, e), base, e) for e in self.divided(base)[1])

    def walk(self, base, e):
        up = self.tree(base)[1]

        def way(v):
            way = [v]
            while way[-1] != base:
                way.append(up[way[-1]][0])
            return way

        u, v = self.edges[e]
        return way(u)[::-1] + way(v)

    def signatures(self):
        """For each edge a number, such that the sum over a closed walk is 0 exactly where the walk bounds."""
        cotree, left = self.divided(0)
        signs = [0] * len(self.edges)
        for bit, e in enumerate(left):
            signs[e] |= 1 << bit
            a, b = self.beside[e]
            for c in self.between(cotree, a, b):
                signs[c] ^= 1 << bit
        return signs

    def between(self, cotree, a, b):
        """The edges on the way from one face to another in a tree of faces."""
        over = [[] for _ in self.faces]
        for e in cotree:
            f, g = self.beside[e]
            over[f].append((g, e))
            over[g].append((f, e))
        came, queue = {a: None}, [a]
        for f in queue:
            for g, e in over[f]:
                if g not in came:
                    came[g] = f, e
                    queue.append(g)
        way = []
        while b != a:
            b, e = came[b]
            way.append(e)
        return way

    def candidates(self):
        return sorted(loop for base in range(self.count) for loop in self.loops(base))

    def basis(self):
        """Of all loops in order those that are independent of those before."""
        signs, rows, kept = self.signatures(), {}, []
        number = {p: e for e, p in enumerate(self.edges)}
        for size, base, e in self.candidates():
            walk, sign = self.walk(base, e), 0
            for step in zip(walk, walk[1:]):
                sign ^= signs[number[tuple(sorted(step))]]
            while sign and sign.bit_length() in rows:
                sign ^= rows[sign.bit_length()]
            if sign:
                rows[sign.bit_length()] = sign
                kept.append((size, base, e))
        return kept

    def lines(self, word, loops):
        return "".join(f"{word} {size} {' '.join(map(str, self.walk(base, e)))}\n" for size, base, e in loops)

    def answers(self, base):
        """What `loops` at a vertex, `basis` and `cycle` have to print."""
        loops, basis, candidates = self.loops(base), self.basis(), self.candidates()
        return (
            f"loops {len(loops)}\ntotal {sum(x[0] for x in loops)}\n" + self.lines("loop", loops),
            f"cycles {len(basis)}\ntotal {sum(x[0] for x in basis)}\n" + self.lines("cycle", basis),
            self.lines("cycle", candidates[:1]) or "none\n",
        )


# ---- the program


def run(program, folder, *words):
    ran = subprocess.run([program, *words], cwd=folder, capture_output=True, text=True, check=False)
    return ran.stdout if ran.returncode == 0 else f"status {ran.returncode}: {ran.stderr}"


def some_lengths(chance, count):
    """Lengths: equal, few, or many."""
    most = chance.choice([1, 1, 2, 3, 5, 4_294_967_295])
    return [chance.randint(1, most) for _ in range(count)]


def tiered_lengths(chance, count):
    """Lengths of few kinds that lie far apart. A search goes four times as far as the one before, so loops often tie
    just as far as it goes."""
    kinds = chance.choice([[1], [1, 4], [1, 4, 16, 64], [3, 12], [1, 2, 3, 1_000], [1, 4_294_967_295]])
    return [chance.choice(kinds) for _ in range(count)]


def compared(program, folder, chance, make, measure):
    """Whether the program prints what the plain method finds, on one surface."""
    count, faces = make(chance)
    lengths = measure(chance, len(edges_of(faces)))
    plain = Plain(count, faces, lengths)
    (folder / "m").write_text(off(count, faces))
    (folder / "l").write_text("".join(f"{u} {v} {n}\n" for (u, v), n in zip(plain.edges, lengths)))
    base = chance.randrange(count)
    loops, basis, cycle = plain.answers(base)
    commands = ((("loops", "m", "l", str(base)), loops), (("basis", "m", "l"), basis), (("cycle", "m", "l"), cycle),
                (("basis", "m", "l", "large"), basis), (("cycle", "m", "l", "large"), cycle))
    for words, due in commands:
        came = run(program, folder, *words)
        if came != due:
            print(f"{' '.join(words)} on\n{(folder / 'm').read_text()}{(folder / 'l').read_text()}gave\n{came}due\n"
                  f"{due}")
            return False
    return True


def known(program, folder):
    """Great meshes of which the answer is known."""
    well = True
    for shape, last, head in (("chain 512 4 4", [], "cycles 1024\ntotal 4096\n"),
                              ("torus 100 200", [], "cycles 2\ntotal 300\n"),
                              ("torus 142 141", ["large"], "cycles 2\ntotal 283\n")):
        (folder / "m").write_text(run(program, folder, "gen", *shape.split()))
        came = run(program, folder, "basis", "m", "unit", *last)
        if not came.startswith(head):
            print(f"basis of gen {shape} began {came[:60]!r}")
            well = False
    return well


def given_words(tool, surfaces):
    """The words of the command line, or none where there is no program yet."""
    parser = argparse.ArgumentParser()
    parser.add_argument("--program", default=TOP / "crates/surf/out/surf", type=pathlib.Path)
    parser.add_argument("--surfaces", default=surfaces, type=int)
    parser.add_argument("--seed", default=1, type=int)
    given = parser.parse_args()
    if not given.program.exists():
        print(f"{tool}: there is no program yet")
        return None
    given.program = given.program.resolve()
    return given


def main():
    given = given_words("check_bases", 300)
    if given is None:
        return 1
    with tempfile.TemporaryDirectory() as name:
        folder = pathlib.Path(name)
        chance = random.Random(given.seed)
        kinds = [(surface, some_lengths)] * given.surfaces + [(stretched, tiered_lengths)] * (given.surfaces // 4)
        wrong = sum(not compared(given.program, folder, chance, *kind) for kind in kinds)
        well = known(given.program, folder)
    print(f"{len(kinds) - wrong} surfaces as the plain method has them, {wrong} otherwise")
    return 1 if wrong or not well else 0


if __name__ == "__main__":
    sys.exit(main())
