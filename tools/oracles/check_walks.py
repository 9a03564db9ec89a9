#!/usr/bin/env python3
"""Compares `shortest` of the built program with the plain method on small surfaces with many ties.

    check_walks.py [--program PATH] [--surfaces N] [--seed S]

The plain method searches from every vertex for the least lengths of walks by their ends and classes. The first vertex
is the least at which a shortest walk of the class begins, and the vertices before the last are chosen from the end
backwards, each the least that stands on such a walk. On each surface some closed walks are tried, at random, so that
some are null, some run edges twice, and some are shortest already. The program has to print the same bytes.
"""

import heapq
import math
import pathlib
import random
import sys
import tempfile

from tools.oracles.check_bases import Plain, given_words, run, surface
from tools.oracles.worked_cases import edges_of, off


class Cover:
    """Least lengths of walks from a vertex, by end and class."""

    def __init__(self, plain):
        self.plain, self.signs = plain, plain.signatures()

    def search(self, base, sign, most):
        """The least lengths that are below that of the walks back to the base of a class, or up to a bound."""
        far, queue = {}, [(0, base, 0)]
        while queue and queue[0][0] <= most and (base, sign) not in far:
            d, v, c = heapq.heappop(queue)
            if (v, c) not in far:
                far[v, c] = d
                for u, e in self.plain.at[v]:
                    heapq.heappush(queue, (d + self.plain.lengths[e], u, c ^ self.signs[e]))
        return far

    def class_of(self, walk):
        number = {p: e for e, p in enumerate(self.plain.edges)}
        sign = 0
        for step in zip(walk, walk[1:]):
            sign ^= self.signs[number[tuple(sorted(step))]]
        return sign

    def shortest(self, walk, bases):
        """What is due for a closed walk, where a shortest one of its class runs through one of these vertices, and
        through none that is less. They come in order."""
        sign, size, best = self.class_of(walk), math.inf, None
        for base in bases:
            far = self.search(base, sign, size)
            if far.get((base, sign), math.inf) < size:
                size, best = far[base, sign], (base, far)
        base, far = best
        way, at = [base], (base, sign)
        while far[at]:
            v, c = at
            at = min((u, c ^ self.signs[e]) for u, e in self.plain.at[v]
                     if far.get((u, c ^ self.signs[e]), math.inf) + self.plain.lengths[e] == far[at])
            way.append(at[0])
        return f"shortest {size} {' '.join(map(str, way[::-1]))}\n"


def some_walk(plain, chance):
    """A closed walk: some random steps, and back by a tree of shortest walks."""
    walk = [chance.randrange(plain.count)]
    for _ in range(chance.choice([0, 2, 5, 10, 20])):
        walk.append(chance.choice(plain.at[walk[-1]])[0])
    up = plain.tree(walk[0])[1]
    while walk[-1] != walk[0]:
        walk.append(up[walk[-1]][0])
    return walk


def compared(program, folder, chance):
    """On how many walks of one surface the program prints something else."""
    count, faces = surface(chance)
    most = chance.choice([1, 1, 2, 3, 4_294_967_295])
    plain = Plain(count, faces, [chance.randint(1, most) for _ in edges_of(faces)])
    if len(plain.divided(0)[1]) > 5:
        return 0
    (folder / "m").write_text(off(count, faces))
    (folder / "l").write_text("".join(f"{u} {v} {n}\n" for (u, v), n in zip(plain.edges, plain.lengths)))
    cover, wrong = Cover(plain), 0
    for _ in range(4):
        walk = " ".join(map(str, some_walk(plain, chance)))
        (folder / "w").write_text(walk + "\n")
        due = cover.shortest(list(map(int, walk.split())), range(count))
        for last in ([], ["large"]):
            came = run(program, folder, "shortest", "m", "l", "w", *last)
            if came != due:
                wrong += 1
                print(f"shortest of {walk} on\n{(folder / 'm').read_text()}{(folder / 'l').read_text()}gave\n"
                      f"{came}due\n{due}")
    return wrong


def made(program, folder, shape, most, chance):
    """A mesh that the program makes, with lengths up to some number, in the files m and l, and as the plain method has
    it."""
    text = run(program, folder, "gen", *shape.split())
    rows = [list(map(int, line.split())) for line in text.splitlines()[1:]]
    faces = [row[1:] for row in rows[1 + rows[0][0] :]]
    plain = Plain(rows[0][0], faces, [chance.randint(1, most) for _ in edges_of(faces)])
    (folder / "m").write_text(text)
    (folder / "l").write_text("".join(f"{u} {v} {n}\n" for (u, v), n in zip(plain.edges, plain.lengths)))
    return plain


def is_large_only(program, folder, walk, due, refusal):
    """Whether `shortest` refuses a walk, and finds what is due with `large`."""
    (folder / "w").write_text(" ".join(map(str, walk)) + "\n")
    plainly, came = (run(program, folder, "shortest", "m", "l", "w", *last) for last in ([], ["large"]))
    if plainly == f"status 6: limit: {refusal}\n" and came == due:
        return True
    print(f"shortest of {walk} gave\n{plainly}and with large\n{came}due\n{due}")
    return False


def past_the_limits(program, folder, chance):
    """On how many walks beyond the limits of the plain word the program says something else. On the torus of 128 by 129
    each edge takes one of 128 rows to itself or to the next, and all rows are passed, so no walk of the class has fewer
    than 128 edges. One through vertex 0 has as many, which is the least vertex: no other has to be searched from."""
    torus = made(program, folder, "torus 128 129", 1, chance)
    rows = [row * 129 + 5 for row in range(128)]
    walk = [*rows[:40], rows[39] + 1, rows[39] + 2, rows[39] + 1, *rows[39:], rows[0]]
    due = Cover(torus).shortest(walk, [0])
    wrong = not (due.startswith("shortest 128 0 ") and is_large_only(program, folder, walk, due, "cover-nodes"))
    for most in (1, 3):
        chain = made(program, folder, "chain 5 4 4", most, chance)
        cover = Cover(chain)
        for _ in range(2):
            walk = some_walk(chain, chance)
            due = cover.shortest(walk, range(chain.count))
            wrong += not is_large_only(program, folder, walk, due, "cover-loops")
    return wrong


def main():
    given = given_words("check_walks", 60)
    if given is None:
        return 1
    with tempfile.TemporaryDirectory() as name:
        chance = random.Random(given.seed)
        wrong = sum(compared(given.program, pathlib.Path(name), chance) for _ in range(given.surfaces))
        wrong += past_the_limits(given.program, pathlib.Path(name), chance)
    print(f"walks on {given.surfaces} surfaces: {wrong} otherwise than by the plain method")
    return 1 if wrong else 0


if __name__ == "__main__":
    sys.exit(main())
