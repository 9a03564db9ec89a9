#!/usr/bin/env python3
"""Compares least bases of small surfaces with borders with what comes of them by a hub.

    check_borders.py [--program PATH] [--surfaces N] [--seed S]

Squares are taken out of tori, bottles and planes of few squares, and edges get lengths with many ties. The least
basis of what is left is found by brute force, from the definition: all sets of edges that have an even number at
each vertex, in the order of their lengths, and of these each that isn't a sum of those before it and of boundaries
of faces. It shares nothing with the program, nor with the hub. Beside it stands the answer of `basis` on the
surface that the mender joins by a hub: its cycles that have no vertex of the hub have to come first, to be as
many, and to be as long place by place. Where there is no program the basis of the joined surface is found by brute
force too.
"""

import argparse
import pathlib
import random
import subprocess
import sys
import tempfile

from tools import TOP
from tools.oracles.surfaces import characteristic, fault_of, sides_of
from tools.users.meshfiles import Soup, mend

FAR = 2**32 - 1
SHAPES = ("torus", "bottle", "plane")


def squares(shape, rows, columns):
    """A torus, a bottle or a plane of squares: rows that close round, and columns that close or are turned over.
    For the plane the first and the last row are each closed by a face."""
    at = lambda r, c: (r % rows) * columns + c % columns
    if shape == "plane":  # a band whose ends meet turned over, and a face on its border
        strip = [[r * 2, r * 2 + 1, r * 2 + 3, r * 2 + 2] for r in range(rows - 1)]
        strip.append([2 * rows - 2, 2 * rows - 1, 0, 1])
        return strip + [[2 * r for r in range(rows)] + [2 * r + 1 for r in range(rows)]]
    turn = (lambda r, c: at(r, c)) if shape == "torus" else (lambda r, c: at(r, -c) if r >= rows else at(r, c))
    return [
        [turn(r, c), turn(r, c + 1), turn(r + 1, c + 1), turn(r + 1, c)] for r in range(rows) for c in range(columns)
    ]


def bordered(chance):
    """A small surface with borders, as the mender makes it of what is left of a closed one, and that with its hub."""
    while True:
        faces = squares(chance.choice(SHAPES), 3, 3)
        left = chance.sample(faces, len(faces) - chance.randrange(1, 4))
        soup = Soup.of([(0.0, 0.0, 0.0)] * (1 + max(map(max, faces))), left)
        open_one, joined = mend(soup, tolerance=None), mend(soup, tolerance=None, holes="hub")
        if open_one.rims and len(sides_of(joined.faces)) - len(joined.points) < 14:
            return open_one, joined


def shortest_basis(count, faces, lengths):
    """The lengths of a least basis, by brute force. Sets of edges are bits of a number, and so are sets of faces."""
    edges = sorted(sides_of(faces))
    number = {pair: k for k, pair in enumerate(edges)}
    rows = Rows()
    for face in faces:
        rows.add(sum(1 << number[min(u, v), max(u, v)] for u, v in zip(face, face[1:] + face[:1])))
    cycles = [
        (sum(lengths[pair] for k, pair in enumerate(edges) if cycle >> k & 1), cycle)
        for cycle in all_cycles(count, edges)
    ]
    return [length for length, cycle in sorted(cycles) if rows.add(cycle)]


def all_cycles(count, edges):
    """All sets of edges with an even number at each vertex, as sums of the cycles that edges close in a forest."""
    ways, found = {0: 0}, [0]
    waiting = set(range(len(edges)))
    while True:
        step = next((k for k in sorted(waiting) if (edges[k][0] in ways) != (edges[k][1] in ways)), None)
        if step is None:
            break
        u, v = edges[step] if edges[step][0] in ways else edges[step][::-1]
        ways[v] = ways[u] ^ 1 << step
        waiting.remove(step)
    for k in sorted(waiting):
        cycle = ways[edges[k][0]] ^ ways[edges[k][1]] ^ 1 << k
        found += [other ^ cycle for other in found]
    assert len(ways) == count
    return found[1:]


class Rows:
    """Independent rows of bits."""

    def __init__(self):
        self.by_top = {}

    def add(self, row):
        """Whether the row is no sum of those before it. Then it is one of them."""
        while row:
            top = row.bit_length()
            if top not in self.by_top:
                self.by_top[top] = row
                return True
            row ^= self.by_top[top]
        return False


def lengths_of(joined, chance):
    """A length for each edge: few or many different ones, and the greatest there is for those of the hub."""
    most = chance.choice([1, 2, 5, 1000])
    far = set(joined.hub_edges)
    return {pair: FAR if pair in far else chance.randint(1, most) for pair in sorted(sides_of(joined.faces))}


def cycles_of(program, folder, joined, lengths):
    """The length of each cycle of the answer, and whether it runs over the hub."""
    (folder / "m").write_bytes(joined.off_text())
    (folder / "l").write_text("".join(f"{u} {v} {n}\n" for (u, v), n in lengths.items()))
    ran = subprocess.run([program, "basis", "m", "l"], cwd=folder, capture_output=True, text=True, check=True)
    rows = [list(map(int, row.split()[1:])) for row in ran.stdout.splitlines() if row.startswith("cycle ")]
    return [(row[0], max(row[1:]) >= joined.first_added_vertex) for row in rows]


def compared(program, folder, chance):
    open_one, joined = bordered(chance)
    lengths = lengths_of(joined, chance)
    due = shortest_basis(len(open_one.points), open_one.faces, lengths)
    if program:
        found = cycles_of(program, folder, joined, lengths)
    else:
        found = [(length, length >= FAR) for length in shortest_basis(len(joined.points), joined.faces, lengths)]
    classes = 1 - characteristic(len(open_one.points), open_one.faces)
    well = fault_of(len(joined.points), joined.faces) is None and len(due) == classes
    well = well and found[:classes] == [(length, False) for length in due]
    well = well and [is_far for _, is_far in found[classes:]] == [True] * (len(open_one.rims) - 1)
    if not well:
        print(f"{open_one.faces}\n{joined.faces}\n{lengths}\ngave {found}, due {due}")
    return well


def main():
    parser = argparse.ArgumentParser(description=__doc__, formatter_class=argparse.RawDescriptionHelpFormatter)
    parser.add_argument("--program", default=TOP / "crates/surf/out/surf", type=pathlib.Path)
    parser.add_argument("--surfaces", default=60, type=int)
    parser.add_argument("--seed", default=1, type=int)
    words = parser.parse_args()
    program = words.program.resolve() if words.program.exists() else None
    if program is None:
        print("check_borders: there is no program yet, so joined surfaces are taken by brute force too")
    with tempfile.TemporaryDirectory() as name:
        chance = random.Random(words.seed)
        wrong = sum(not compared(program, pathlib.Path(name), chance) for _ in range(words.surfaces))
    print(
        f"{words.surfaces - wrong} surfaces with borders have the basis that brute force finds, {wrong} another one"
    )
    return 1 if wrong else 0


if __name__ == "__main__":
    sys.exit(main())
