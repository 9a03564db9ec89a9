#!/usr/bin/env python3
"""Gmsh beside `surf basis`: gmsh.model.mesh.computeHomology, of dimension 1, on a mesh given as a discrete surface.

    gmsh_homology.py MESH.off LENGTHS|unit

Prints `cycles k` and `total t`: how many chains the basis has, and the sum of the lengths of their edges. Gmsh knows
nothing of lengths, so they are added up afterwards. Its homology is that with integers. In the version that Debian 12
has, 4.8, the call asks for the computation, and the next call of `generate` makes it.
"""
import sys
from pathlib import Path

import gmsh

LINE, TRIANGLE = 1, 2


def read_faces(path: str) -> tuple[int, list[int]]:
    """How many vertices an OFF file of triangles has, and the corners of its faces in one list, from 1 on."""
    _, counts, *lines = Path(path).read_text().splitlines()
    vertices = int(counts.split()[0])
    return vertices, [int(v) + 1 for line in lines[vertices:] for v in line.split()[1:4]]


def read_lengths(path: str) -> dict[tuple[int, int], int]:
    rows = (map(int, line.split()) for line in Path(path).read_text().splitlines())
    return {(u + 1, v + 1): length for u, v, length in rows}


def chains() -> list[list[tuple[int, int]]]:
    """The edges of each chain of the basis, by their ends, the lesser first."""
    found = []
    for dimension, group in gmsh.model.getPhysicalGroups(1):
        ends: list[int] = []
        for entity in gmsh.model.getEntitiesForPhysicalGroup(dimension, group):
            _, _, nodes = gmsh.model.mesh.getElements(1, entity)
            ends += [int(node) for some in nodes for node in some]
        found.append([(min(pair), max(pair)) for pair in zip(ends[::2], ends[1::2])])
    return found


def main() -> None:
    mesh, lengths = sys.argv[1:3]
    vertices, corners = read_faces(mesh)
    gmsh.initialize()
    gmsh.option.setNumber("General.Terminal", 0)
    gmsh.model.addDiscreteEntity(2, 1)
    places = [0.0] * (3 * vertices)
    places[::3] = [float(v) for v in range(vertices)]
    gmsh.model.mesh.addNodes(2, 1, list(range(1, vertices + 1)), places)
    gmsh.model.mesh.addElementsByType(1, TRIANGLE, [], corners)
    domain = gmsh.model.addPhysicalGroup(2, [1])
    gmsh.model.mesh.computeHomology([domain], [], [1])
    gmsh.model.mesh.generate(1)
    length_of = {} if lengths == "unit" else read_lengths(lengths)
    basis = chains()
    print(f"cycles {len(basis)}\ntotal {sum(length_of.get(edge, 1) for chain in basis for edge in chain)}")
    gmsh.finalize()


if __name__ == "__main__":
    main()
