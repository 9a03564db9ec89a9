#!/usr/bin/env python3
"""Lengths of the edges of a mesh that no search was tuned for, as the text of a file of lengths.

    bench/lengths.py [--seed S] MESH.off KIND NUMBER .. > LENGTHS

    random A B          from A to B at random
    scattered S         from 1 to 97 by the number of the edge, as `surf try` scatters them with S
    powers K            powers of two up to 2^K at random
    constant N          all N
    ties K              from 1 to K at random: many equal sums
    near N K            from N to N + K: all loops nearly as long
    heavy N J W         from 1 to N at random, but W on each edge that the dual cycles of the first J left edges
                        cross: loops through these are long, so half of the greatest length bounds no search
    coordinates K       from the points of the vertices, as whole numbers of 10^-K
    strip N W           N where the numbers of both ends are near, W elsewhere
"""
import argparse
import math
import random
import sys
from collections.abc import Callable, Iterable
from pathlib import Path

LARGEST = 2**32 - 1
Edge = tuple[int, int]
Length = Callable[[int, Edge], int]


class Surface:
    """What an OFF file holds: points, and the two faces of each edge, by its ends."""

    def __init__(self, path: Path) -> None:
        _, counts, *lines = path.read_text().splitlines()
        self.vertices = int(counts.split()[0])
        self.points = lines[: self.vertices]
        faces = [tuple(map(int, line.split()[1:])) for line in lines[self.vertices :]]
        self.face_count = len(faces)
        beside: dict[Edge, list[int]] = {}
        for number, face in enumerate(faces):
            for u, v in zip(face, face[1:] + face[:1]):
                beside.setdefault((min(u, v), max(u, v)), []).append(number)
        self.faces_of = dict(sorted(beside.items()))


def tree_above(count: int, joined: Iterable[tuple[int, int, Edge]]) -> list[tuple[int, Edge] | None]:
    """For each node but node 0 the node above and the edge between them, in a tree by the number of steps."""
    near: list[list[tuple[int, Edge]]] = [[] for _ in range(count)]
    for a, b, edge in joined:
        near[a].append((b, edge))
        near[b].append((a, edge))
    above: list[tuple[int, Edge] | None] = [None] * count
    reached, waiting = {0}, [0]
    for node in waiting:
        for other, edge in near[node]:
            if other not in reached:
                reached.add(other)
                waiting.append(other)
                above[other] = (node, edge)
    return above


def crossed_edges(surface: Surface, most: int) -> set[Edge]:
    """The edges that the dual cycles of the first left edges cross, by trees of the vertices and of the faces."""
    in_tree = {hung[1] for hung in tree_above(surface.vertices, ((*edge, edge) for edge in surface.faces_of)) if hung}
    others = {edge: faces for edge, faces in surface.faces_of.items() if edge not in in_tree}
    above = tree_above(surface.face_count, ((*faces, edge) for edge, faces in others.items()))
    in_cotree = {hung[1] for hung in above if hung}

    def way(face: int) -> set[Edge]:
        edges = set()
        while (hung := above[face]) is not None:
            face, edge = hung
            edges.add(edge)
        return edges

    left = [edge for edge in others if edge not in in_cotree]
    crossed: set[Edge] = set()
    for edge in left[:most]:
        a, b = others[edge]
        crossed |= {edge} | (way(a) ^ way(b))
    return crossed


def heavy(surface: Surface, chance: random.Random, n: int, j: int, w: int) -> Length:
    crossed = crossed_edges(surface, j)
    return lambda number, edge: w if edge in crossed else chance.randint(1, n)


def coordinates(surface: Surface, chance: random.Random, k: int) -> Length:
    points = [tuple(map(float, line.split())) for line in surface.points]
    return lambda number, edge: max(1, int(math.dist(points[edge[0]], points[edge[1]]) * 10**k))


KINDS: dict[str, Callable[..., Length]] = {
    "random": lambda surface, chance, a, b: lambda number, edge: chance.randint(a, b),
    "scattered": lambda surface, chance, s: lambda number, edge: 1 + s * (7 * number + 13) % 97,
    "powers": lambda surface, chance, k: lambda number, edge: 2 ** chance.randint(0, k),
    "constant": lambda surface, chance, n: lambda number, edge: n,
    "ties": lambda surface, chance, k: lambda number, edge: chance.randint(1, k),
    "near": lambda surface, chance, n, k: lambda number, edge: n + chance.randint(0, k),
    "heavy": heavy,
    "coordinates": coordinates,
    "strip": lambda surface, chance, n, w: lambda number, edge: n if edge[1] - edge[0] < 50 else w,
}


def lengths_of(path: Path, kind: str, numbers: Iterable[int], seed: int = 1) -> Iterable[str]:
    """The lines of a file of lengths for the mesh of an OFF file, one for each edge."""
    surface = Surface(path)
    length = KINDS[kind](surface, random.Random(seed), *numbers)
    for number, edge in enumerate(surface.faces_of):
        yield f"{edge[0]} {edge[1]} {min(length(number, edge), LARGEST)}\n"


def main() -> None:
    parser = argparse.ArgumentParser(description=__doc__, formatter_class=argparse.RawDescriptionHelpFormatter)
    parser.add_argument("--seed", type=int, default=1)
    parser.add_argument("mesh", type=Path, metavar="MESH.off")
    parser.add_argument("kind", choices=KINDS, metavar="KIND")
    parser.add_argument("numbers", type=int, nargs="*", metavar="NUMBER")
    options = parser.parse_args()
    sys.stdout.writelines(lengths_of(options.mesh, options.kind, options.numbers, options.seed))


if __name__ == "__main__":
    main()
