#!/usr/bin/env python3
"""Checks certificates and evidence of surf without surf.

    plain_check.py check MESH LENGTHS CERTIFICATE      what `certify` wrote; LENGTHS may be the word unit
    plain_check.py confirm MESH WALK EVIDENCE          what `class` wrote
    plain_check.py confirm MESH WALK WALK2 EVIDENCE    what `same` wrote

Prints the line of `surf check` and `surf confirm`: `valid ..` with status 0, or one `no` line with status 1. For a
file that can't be read there is a line on standard error, with status 2. There are no limits on counts.

Written from docs/formats.md and docs/definitions.md alone, for whoever would rather trust two unrelated programs than
one, or read this file. It searches for nothing: each row of a certificate is tested where it stands, in the order of
the table in docs/formats.md. So a test may rely on those before it.
"""

import collections
import heapq
import itertools
import pathlib
import re
import sys
from collections.abc import Iterable, Iterator
from typing import NamedTuple

Edge = tuple[int, int]
NUMBER, WHOLE = 2**32 - 1, 2**64 - 1


class Unreadable(Exception):
    """A file that isn't what it should be; the text says which and why."""


# ---- texts


def whole(token: str, most: int = NUMBER) -> int:
    """The number that a token is: digits alone, leading zeros allowed. Else ValueError."""
    digits = token.lstrip("0") or "0"
    if not re.fullmatch("[0-9]+", token) or len(digits) > 20 or int(digits) > most:
        raise ValueError(token)
    return int(digits)


class Lines:
    """The lines with tokens of a file, taken one by one, and the number of the line that was taken last."""

    def __init__(self, path: str, name: str):
        text = pathlib.Path(path).read_bytes().decode("latin-1").split("\n")
        rows = [(number, re.findall("[^ \t\r]+", line.split("#")[0])) for number, line in enumerate(text, 1)]
        self.rest, self.name, self.number = iter([row for row in rows if row[1]]), name, 0

    def take(self, end: str = "early") -> list[str]:
        self.number, tokens = next(self.rest, (self.number, []))
        if not tokens:
            raise Unreadable(f"{self.name}: {end}")
        return tokens

    def fault(self, kind: str) -> Unreadable:
        return Unreadable(f"{self.name}: {kind} {self.number}")

    def end(self) -> None:
        for self.number, _ in self.rest:
            raise self.fault("trailing")


# ---- the surface


def edge(u: int, w: int) -> Edge:
    return (u, w) if u < w else (w, u)


def joined(pairs: Iterable[Edge], start: int) -> set[int]:
    """What hangs together with the start by the pairs."""
    links = collections.defaultdict(list)
    for a, b in pairs:
        links[a].append(b)
        links[b].append(a)
    seen, todo = {start}, [start]
    while todo:
        new = set(links[todo.pop()]) - seen
        seen |= new
        todo += new
    return seen


class Mesh(NamedTuple):
    """A closed connected surface: its counts, and its edges in order, each with its two faces."""

    vertices: int
    faces: int
    edges: dict[Edge, list[int]]

    def loops(self) -> int:
        return 2 - self.vertices + len(self.edges) - self.faces

    def across(self, face: int, side: Edge) -> int:
        return sum(self.edges[side]) - face


def read_face(row: list[str], vertices: int) -> list[int]:
    size = whole(row[0])
    corners = [whole(token, vertices - 1) for token in row[1 : size + 1]]
    if size < 3 or len(set(corners)) != size:
        raise ValueError
    return corners


def read_mesh(path: str) -> Mesh:
    """The surface in an OFF text. Else Unreadable."""
    lines, found = Lines(path, "mesh"), collections.defaultdict(list)
    try:
        keyword, *counts = lines.take()
        if not re.fullmatch("(ST)?C?N?OFF", keyword):
            raise ValueError
        vertices, faces = map(whole, (counts or lines.take())[:2])
        if any(len(lines.take()) < 3 for _ in range(vertices)):
            raise ValueError
        for face in range(faces):
            corners = read_face(lines.take(), vertices)
            for u, w in zip(corners, corners[1:] + corners[:1]):
                found[edge(u, w)].append(face)
    except ValueError:
        raise lines.fault("line") from None
    lines.end()
    mesh = Mesh(vertices, faces, dict(sorted(found.items())))
    test_surface(mesh)
    return mesh


def test_surface(mesh: Mesh) -> None:
    """Each edge has two faces, the faces at a vertex are one fan, and all hang together. Else Unreadable."""
    at = [[] for _ in range(mesh.vertices)]
    for (u, w), beside in mesh.edges.items():
        if len(beside) != 2:
            raise Unreadable(f"surface: edge {u} {w} has {len(beside)} faces")
        at[u].append(beside)
        at[w].append(beside)
    for vertex, pairs in enumerate(at):
        if not pairs or joined(pairs, pairs[0][0]) != set(itertools.chain(*pairs)):
            raise Unreadable(f"surface: vertex {vertex} has no face, or several fans of faces")
    if mesh.faces == 0 or len(joined(mesh.edges.values(), 0)) != mesh.faces:
        raise Unreadable("surface: no face, or several parts")


def numbers_behind(words: list[str], tokens: list[str], count: int) -> list[int]:
    """The numbers on a line of fixed words and so many numbers. Else ValueError."""
    if tokens[: len(words)] != words or len(tokens) != len(words) + count:
        raise ValueError
    return [whole(token) for token in tokens[len(words) :]]


def read_lengths(word: str, mesh: Mesh) -> dict[Edge, int]:
    """The length of each edge, from a file or for the word unit. Else Unreadable."""
    if word == "unit":
        return dict.fromkeys(mesh.edges, 1)
    lines, default, found = Lines(word, "lengths"), 0, {}
    rows = list(lines.rest)
    try:
        if rows and rows[0][1] == ["SURFLEN", "2"]:
            del rows[0]
            if rows and rows[0][1][0] == "default":
                lines.number, tokens = rows.pop(0)
                (default,) = numbers_behind(["default"], tokens, 1)
                if default == 0:
                    raise ValueError
        for lines.number, tokens in rows:
            u, w, length = numbers_behind([], tokens, 3)
            if edge(u, w) not in mesh.edges or edge(u, w) in found:
                raise ValueError
            found[edge(u, w)] = length
    except ValueError:
        raise lines.fault("line") from None
    lengths = dict.fromkeys(mesh.edges, default) | found
    if 0 in lengths.values():
        raise Unreadable("lengths: an edge has none, or 0")
    return lengths


# ---- certificates as texts


class Tree(NamedTuple):
    base: int
    distances: list[int]
    parents: list[int | None]


class FaceRow(NamedTuple):
    depth: int
    side: Edge | None


class Sheet(NamedTuple):
    """For the numbers past the first up to the second: the places of a walk that are the part, and the margin."""

    after: int
    upto: int
    walk: int
    first: int
    last: int
    margin: int


class SheetCertificate(NamedTuple):
    """Walks, the numbers of the cocycles of each edge as bits, and sheets. Walks and cocycles are numbered from 1."""

    counts: list[int]
    cycles: list[list[int]]
    cocycles: dict[Edge, int]
    sheets: list[Sheet]


class Certificate(NamedTuple):
    kind: str
    counts: list[int]
    trees: list[Tree]
    rows: list[FaceRow]
    left: list[Edge]
    cycles: list[list[int]]


def read_pair(tokens: list[str]) -> Edge:
    u, w = map(whole, tokens)
    if u >= w:
        raise ValueError
    return u, w


def read_tree(lines: Lines, vertices: int, due: int | None) -> Tree:
    (base,) = numbers_behind(["tree"], lines.take(), 1)
    if due not in (None, base):
        raise ValueError
    tree = Tree(base, [], [])
    for _ in range(vertices):
        distance, parent = lines.take()
        tree.distances.append(whole(distance, WHOLE))
        tree.parents.append(None if parent == "-" else whole(parent))
    return tree


def read_face_row(tokens: list[str]) -> FaceRow:
    if tokens == ["0", "-"]:
        return FaceRow(0, None)
    depth = whole(tokens[0])
    if depth == 0:
        raise ValueError
    return FaceRow(depth, read_pair(tokens[1:]))


def read_parts(lines: Lines, kind: str) -> Certificate:
    """What stands behind the first line. ValueError where the line that was taken last has another form."""
    counts = numbers_behind(["counts"], lines.take(), 3)
    vertices, faces, loops = counts
    trees = [read_tree(lines, vertices, due) for due in ([None] if kind == "loops" else range(vertices))]
    numbers_behind(["dual"], lines.take(), 0)
    rows = [read_face_row(lines.take()) for _ in range(faces)]
    numbers_behind(["left"], lines.take(), 0)
    left, cycles = [], []
    for _ in range(loops):
        left.append(read_pair(lines.take()))
        if left[-2:-1] and left[-2] >= left[-1]:
            raise ValueError
    if kind == "basis":
        numbers_behind(["cycles"], lines.take(), 0)
        cycles = [[whole(token) for token in lines.take()] for _ in range(loops)]
    return Certificate(kind, counts, trees, rows, left, cycles)


def read_cocycles(lines: Lines, loops: int) -> dict[Edge, int]:
    """The edges of cocycles, each greater than the one before, and their numbers, which rise from 1."""
    found, last = {}, (-1, -1)
    for _ in range(*numbers_behind(["cocycles"], lines.take(), 1)):
        tokens = lines.take()
        side, numbers = read_pair(tokens[:2]), [whole(token, loops) for token in tokens[2:]]
        if side <= last or not numbers or numbers != sorted(set(numbers) - {0}):
            raise ValueError
        found[side], last = sum(1 << number for number in numbers), side
    return found


def read_sheet(tokens: list[str]) -> Sheet:
    if len(tokens) != 6:
        raise ValueError
    return Sheet(*map(whole, tokens[:5]), whole(tokens[5], WHOLE))


def read_sheet_parts(lines: Lines) -> SheetCertificate:
    """What stands behind the first line. ValueError where the line that was taken last has another form."""
    counts = numbers_behind(["counts"], lines.take(), 3)
    loops = counts[2]
    if loops == 0:
        return SheetCertificate(counts, [], {}, [])
    numbers_behind(["cycles"], lines.take(), 0)
    cycles = [[whole(token) for token in lines.take()] for _ in range(loops)]
    cocycles = read_cocycles(lines, loops)
    sheets = [read_sheet(lines.take()) for _ in range(*numbers_behind(["sheets"], lines.take(), 1))]
    return SheetCertificate(counts, cycles, cocycles, sheets)


def read_certificate(path: str) -> Certificate | SheetCertificate:
    """The certificate in a file. Else Unreadable, with the line that `surf check` has on standard error."""
    lines = Lines(path, "certificate text")
    head = lines.take("header 0")
    by_sheets = head == ["SURFCERT", "2", "basis"]
    if not by_sheets and head not in (["SURFCERT", "1", "loops"], ["SURFCERT", "1", "basis"]):
        raise lines.fault("header")
    try:
        cert = read_sheet_parts(lines) if by_sheets else read_parts(lines, head[2])
    except ValueError:
        raise lines.fault("form") from None
    lines.end()
    return cert


# ---- what is wrong with a certificate


def count_faults(mesh: Mesh, counts: list[int]) -> Iterator[str]:
    due = {"vertices": mesh.vertices, "faces": mesh.faces, "loops": mesh.loops()}
    for (name, number), told in zip(due.items(), counts):
        if told != number:
            yield f"no shape {name}"


def shape_faults(mesh: Mesh, cert: Certificate) -> Iterator[str]:
    yield from count_faults(mesh, cert.counts)
    if any(tree.base >= mesh.vertices for tree in cert.trees):
        yield "no shape base"


def parent_faults(mesh: Mesh, tree: Tree) -> Iterator[str]:
    for vertex, parent in enumerate(tree.parents):
        if (parent is None) != (vertex == tree.base) or parent is not None and edge(vertex, parent) not in mesh.edges:
            yield f"no parent {tree.base} {vertex}"


def distance_faults(lengths: dict[Edge, int], tree: Tree) -> Iterator[str]:
    for vertex, (distance, parent) in enumerate(zip(tree.distances, tree.parents)):
        if distance != (0 if parent is None else tree.distances[parent] + lengths[edge(vertex, parent)]):
            yield f"no distance {tree.base} {vertex}"


def slack_faults(lengths: dict[Edge, int], tree: Tree) -> Iterator[str]:
    for (u, w), length in lengths.items():
        if abs(tree.distances[u] - tree.distances[w]) > length:
            yield f"no slack {tree.base} {u} {w}"


def dual_faults(mesh: Mesh, rows: list[FaceRow]) -> Iterator[str]:
    for face, (depth, side) in enumerate(rows):
        if face == 0:
            right = (depth, side) == (0, None)
        else:
            right = face in mesh.edges.get(side, []) and depth == rows[mesh.across(face, side)].depth + 1
        if not right:
            yield f"no dual {face}"


def split_faults(mesh: Mesh, cert: Certificate) -> Iterator[str]:
    uses = collections.Counter(cert.left)
    uses.update(row.side for row in cert.rows[1:])
    uses.update(edge(vertex, up) for vertex, up in enumerate(cert.trees[0].parents) if up is not None)
    for side in sorted(set(mesh.edges) | set(cert.left)):
        if side not in mesh.edges or uses[side] != 1:
            yield "no split %d %d" % side


def loop_lengths(lengths: dict[Edge, int], tree: Tree) -> dict[Edge, int]:
    """For each edge the length of its loop: from the base to one end, over the edge, and back from the other."""
    return {(u, w): tree.distances[u] + length + tree.distances[w] for (u, w), length in lengths.items()}


def way_between(mesh: Mesh, rows: list[FaceRow], a: int, b: int) -> list[Edge]:
    """The edges on the way through the tree of faces from one face to another."""
    way = []
    while a != b:
        if rows[a].depth < rows[b].depth:
            a, b = b, a
        way.append(rows[a].side)
        a = mesh.across(a, rows[a].side)
    return way


def heavier_faults(mesh: Mesh, lengths: dict[Edge, int], cert: Certificate) -> Iterator[str]:
    loops = loop_lengths(lengths, cert.trees[0])
    for side in cert.left:
        for other in sorted(way_between(mesh, cert.rows, *mesh.edges[side])):
            if loops[other] < loops[side]:
                yield "no heavier %d %d %d %d" % (side + other)


# ---- cycles, modulo boundaries


class Sums:
    """Sums of signatures modulo 2, each signature a number. A row for each greatest bit."""

    def __init__(self):
        self.rows: dict[int, tuple[int, int]] = {}

    def reduce(self, signature: int) -> tuple[int, int]:
        """What is left of a signature by the rows, and the greatest length of a row that was used."""
        longest = 0
        while signature and signature.bit_length() in self.rows:
            row, length = self.rows[signature.bit_length()]
            signature, longest = signature ^ row, max(longest, length)
        return signature, longest

    def add(self, signature: int, length: int) -> bool:
        """Whether the signature is no sum of those before it; then it is one more row."""
        rest, _ = self.reduce(signature)
        if rest:
            self.rows[rest.bit_length()] = rest, length
        return rest != 0


def signatures(mesh: Mesh, cert: Certificate) -> dict[Edge, int]:
    """For each edge, as bits, the left edges whose faces are parted where it is taken out of the tree of faces."""
    signs, below = dict.fromkeys(mesh.edges, 0), [0] * mesh.faces
    for bit, side in enumerate(cert.left):
        signs[side] = 1 << bit
        for face in mesh.edges[side]:
            below[face] ^= 1 << bit
    for face in sorted(range(1, mesh.faces), key=lambda face: -cert.rows[face].depth):
        side = cert.rows[face].side
        signs[side] = below[face]
        below[mesh.across(face, side)] ^= below[face]
    return signs


def steps_of(walk: list[int]) -> list[Edge]:
    return [edge(u, w) for u, w in zip(walk, walk[1:])]


def sum_of(signs: dict[Edge, int], walk: list[int]) -> int:
    total = 0
    for step in steps_of(walk):
        total ^= signs[step]
    return total


def closed_faults(mesh: Mesh, cycles: list[list[int]]) -> Iterator[str]:
    for number, cycle in enumerate(cycles):
        if cycle[0] != cycle[-1] or not all(step in mesh.edges for step in steps_of(cycle)):
            yield f"no not-closed {number}"


def dependent_faults(signs: dict[Edge, int], cycles: list[list[int]]) -> Iterator[str]:
    sums = Sums()
    for number, cycle in enumerate(cycles):
        if not sums.add(sum_of(signs, cycle), 0):
            yield f"no dependent {number}"


def uncovered_faults(lengths: dict[Edge, int], signs: dict[Edge, int], cert: Certificate) -> Iterator[str]:
    """There are as many independent cycles as left edges, so each signature is a sum of theirs, in one way. Rows that
    are made in the order of lengths show how long the longest cycle of that sum is."""
    sums = Sums()
    for length, cycle in sorted((sum(map(lengths.get, steps_of(cycle))), cycle) for cycle in cert.cycles):
        sums.add(sum_of(signs, cycle), length)
    for tree in cert.trees:
        to_base = [0] * len(tree.parents)
        for vertex in sorted(range(len(to_base)), key=tree.distances.__getitem__)[1:]:
            parent = tree.parents[vertex]
            to_base[vertex] = to_base[parent] ^ signs[edge(vertex, parent)]
        for (u, w), loop in loop_lengths(lengths, tree).items():
            if sums.reduce(to_base[u] ^ signs[u, w] ^ to_base[w])[1] > loop:
                yield f"no uncovered {tree.base} {u} {w}"


def certificate_faults(mesh: Mesh, lengths: dict[Edge, int], cert: Certificate) -> Iterator[str]:
    """All that is wrong, in the order of the table in docs/formats.md. Only the first counts."""
    yield from shape_faults(mesh, cert)
    for test, given in ((parent_faults, mesh), (distance_faults, lengths), (slack_faults, lengths)):
        for tree in cert.trees:
            yield from test(given, tree)
    yield from dual_faults(mesh, cert.rows)
    yield from split_faults(mesh, cert)
    if cert.kind == "loops":
        yield from heavier_faults(mesh, lengths, cert)
    else:
        signs = signatures(mesh, cert)
        yield from closed_faults(mesh, cert.cycles)
        yield from dependent_faults(signs, cert.cycles)
        yield from uncovered_faults(lengths, signs, cert)


# ---- sheets


def length_of(lengths: dict[Edge, int], walk: list[int]) -> int:
    return sum(lengths[step] for step in steps_of(walk))


def odd_numbers(cocycles: dict[Edge, int], walk: list[int]) -> int:
    """The cocycles, as bits, that a walk is odd on."""
    total = 0
    for step in steps_of(walk):
        total ^= cocycles.get(step, 0)
    return total


def falling_faults(sizes: list[int]) -> Iterator[str]:
    for number, (before, size) in enumerate(zip(sizes, sizes[1:]), 1):
        if size < before:
            yield f"no falling {number}"


def cocycle_faults(mesh: Mesh, cocycles: dict[Edge, int]) -> Iterator[str]:
    for pair in cocycles:
        if pair not in mesh.edges:
            yield "no pair %d %d" % pair
    odd = [0] * mesh.faces
    for side, numbers in cocycles.items():
        for face in mesh.edges[side]:
            odd[face] ^= numbers
    for face in range(mesh.faces):
        if odd[face]:
            yield f"no cocycle {face}"


def paired_faults(cert: SheetCertificate) -> Iterator[str]:
    for number, cycle in enumerate(cert.cycles):
        if odd_numbers(cert.cocycles, cycle) >> number + 1 != 1:
            yield f"no unpaired {number}"


def form_faults(mesh: Mesh, cert: SheetCertificate) -> Iterator[str]:
    for number, sheet in enumerate(cert.sheets):
        right = sheet.after < sheet.upto <= len(cert.cycles)
        if sheet.walk == 0:
            right = right and sheet.first == sheet.last < mesh.vertices
        else:
            right = right and sheet.walk <= len(cert.cycles) and sheet.first <= sheet.last
            right = right and sheet.last < len(cert.cycles[sheet.walk - 1])
        if not right:
            yield f"no sheet {number}"


Links = dict[int, list[tuple[int, int]]]


def links_of(lengths: dict[Edge, int]) -> Links:
    """The neighbours of each vertex in order, with the lengths to them."""
    links = collections.defaultdict(list)
    for (u, w), length in lengths.items():
        links[u].append((w, length))
        links[w].append((u, length))
    return {vertex: sorted(near) for vertex, near in links.items()}


def distances_from(links: Links, part: list[int], limit: int) -> dict[int, int]:
    """The distance from the part of each vertex that is nearer than the limit, in order of distance."""
    found, todo = {}, [(0, vertex) for vertex in set(part)]
    while todo and todo[0][0] < limit:
        far, vertex = heapq.heappop(todo)
        if vertex not in found:
            found[vertex] = far
            for other, length in links[vertex]:
                heapq.heappush(todo, (far + length, other))
    return found


def labels_on(links: Links, cocycles: dict[Edge, int], part: list[int], near: dict[int, int]) -> dict[int, int]:
    """On the part the sum over its walk up to the first place of a vertex. Elsewhere the label of the least neighbour
    on a shortest way, and the numbers of the edge to it."""
    labels, total = {}, 0
    for at, vertex in enumerate(part):
        if at:
            total ^= cocycles.get(edge(part[at - 1], vertex), 0)
        labels.setdefault(vertex, total)
    for vertex, far in near.items():
        if vertex not in labels:
            parent = next(u for u, length in links[vertex] if near.get(u, far) + length == far)
            labels[vertex] = labels[parent] ^ cocycles.get(edge(parent, vertex), 0)
    return labels


def part_of(cert: SheetCertificate, sheet: Sheet) -> list[int]:
    return cert.cycles[sheet.walk - 1][sheet.first : sheet.last + 1] if sheet.walk else [sheet.first]


def short_edges(links: Links, sizes: list[int], cert: SheetCertificate, sheet: Sheet, near: dict[int, int]) -> list[Edge]:
    """The edges over which some number of the range is crossed on too short a way. Where both ends are at the limit
    the way is long enough, so only the edges at nearer vertices count."""
    limit = (sizes[sheet.upto - 1] + 2 * sheet.margin + 1) // 2
    labels = labels_on(links, cert.cocycles, part_of(cert, sheet), near)
    short = set()
    for u, far in near.items():
        for w, length in links[u]:
            crossed = labels[u] ^ labels.get(w, 0) ^ cert.cocycles.get(edge(u, w), 0)
            way = far + length + near.get(w, limit) - 2 * sheet.margin
            if any(crossed >> i & 1 and sizes[i - 1] > way for i in range(sheet.after + 1, sheet.upto + 1)):
                short.add(edge(u, w))
    return sorted(short)


def sheet_faults(lengths: dict[Edge, int], sizes: list[int], cert: SheetCertificate) -> Iterator[str]:
    """Each sheet holds, and each edge has for each of its numbers an end within the margin of a sheet with it."""
    links, served = links_of(lengths), collections.defaultdict(int)
    for number, sheet in enumerate(cert.sheets):
        limit = (sizes[sheet.upto - 1] + 2 * sheet.margin + 1) // 2
        near = distances_from(links, part_of(cert, sheet), limit)
        for side in short_edges(links, sizes, cert, sheet, near):
            yield "no short %d %d %d" % (number, *side)
        for vertex, far in near.items():
            if far <= sheet.margin:
                served[vertex] |= (2 << sheet.upto) - (2 << sheet.after)
    for (u, w), numbers in cert.cocycles.items():
        if numbers & ~(served[u] | served[w]):
            yield f"no unserved {u} {w}"


def sheet_certificate_faults(mesh: Mesh, lengths: dict[Edge, int], cert: SheetCertificate) -> Iterator[str]:
    """All that is wrong, in the order of the table in docs/formats.md. Only the first counts."""
    yield from count_faults(mesh, cert.counts)
    yield from closed_faults(mesh, cert.cycles)
    sizes = [length_of(lengths, cycle) for cycle in cert.cycles]
    yield from falling_faults(sizes)
    yield from cocycle_faults(mesh, cert.cocycles)
    yield from paired_faults(cert)
    yield from form_faults(mesh, cert)
    yield from sheet_faults(lengths, sizes, cert)


def check(mesh: Mesh, lengths: dict[Edge, int], cert: Certificate | SheetCertificate) -> str:
    """`valid` with the total, or the first fault."""
    by_sheets = isinstance(cert, SheetCertificate)
    for fault in (sheet_certificate_faults if by_sheets else certificate_faults)(mesh, lengths, cert):
        return fault
    if not by_sheets and cert.kind == "loops":
        loops = loop_lengths(lengths, cert.trees[0])
        return f"valid loops {sum(loops[side] for side in cert.left)}"
    return f"valid basis {sum(length_of(lengths, cycle) for cycle in cert.cycles)}"


# ---- evidence of a class


def read_walk(path: str, mesh: Mesh) -> list[int]:
    """A closed walk of the mesh. Else Unreadable."""
    lines = Lines(path, "walk")
    try:
        walk = [whole(token, mesh.vertices - 1) for token in lines.take("empty")]
    except ValueError:
        raise lines.fault("line") from None
    if walk[0] != walk[-1] or not all(step in mesh.edges for step in steps_of(walk)):
        raise Unreadable("walk: it isn't closed, or a step is no edge")
    lines.end()
    return walk


def read_evidence(path: str, words: tuple[str, str]) -> tuple[str, list[int] | list[Edge]]:
    """The first of the words with faces, or the second with edges, in increasing order. Else Unreadable."""
    lines = Lines(path, "certificate text")
    word, *tokens = lines.take("header 0")
    if word not in words:
        raise lines.fault("header")
    try:
        count, *listed = map(whole, tokens)
        if word == words[1]:
            listed = [read_pair(tokens[at : at + 2]) for at in range(1, len(tokens), 2)]
        if len(listed) != count or listed != sorted(set(listed)):
            raise ValueError
    except ValueError:
        raise lines.fault("form") from None
    lines.end()
    return word, listed


def null_faults(mesh: Mesh, odd: set[Edge], faces: list[int]) -> Iterator[str]:
    """The faces' boundary is the edges that are run an odd number of times."""
    for face in faces:
        if face >= mesh.faces:
            yield f"no face {face}"
    inside = set(faces)
    for side, beside in mesh.edges.items():
        if (len(inside.intersection(beside)) == 1) != (side in odd):
            yield "no boundary %d %d" % side


def odd_faults(mesh: Mesh, odd: set[Edge], pairs: list[Edge]) -> Iterator[str]:
    """Each face has an even number of the edges, and of them an odd number is run an odd number of times."""
    for pair in pairs:
        if pair not in mesh.edges:
            yield "no pair %d %d" % pair
    counts = collections.Counter(itertools.chain(*(mesh.edges[pair] for pair in pairs)))
    for face in range(mesh.faces):
        if counts[face] % 2:
            yield f"no odd-face {face}"
    if len(odd.intersection(pairs)) % 2 == 0:
        yield "no even"


def confirm(mesh: Mesh, walks: list[list[int]], word: str, listed: list) -> str:
    """`valid` with the word of the evidence, or the first fault."""
    counts = collections.Counter(itertools.chain(*map(steps_of, walks)))
    odd = {step for step, count in counts.items() if count % 2}
    faults = null_faults if word in ("null", "same") else odd_faults
    return next(faults(mesh, odd, listed), f"valid {word}")


# ---- the command line


def answer(task: str, mesh_path: str, *paths: str) -> str:
    mesh = read_mesh(mesh_path)
    if task == "check":
        return check(mesh, read_lengths(paths[0], mesh), read_certificate(paths[1]))
    walks = [read_walk(path, mesh) for path in paths[:-1]]
    words = ("null", "odd") if len(walks) == 1 else ("same", "different")
    return confirm(mesh, walks, *read_evidence(paths[-1], words))


def main() -> int:
    words = sys.argv[1:]
    if (words[:1], len(words)) not in [(["check"], 4), (["confirm"], 4), (["confirm"], 5)]:
        print(__doc__, file=sys.stderr)
        return 2
    try:
        said = answer(*words)
    except (Unreadable, OSError) as fault:
        print(fault, file=sys.stderr)
        return 2
    print(said)
    return 0 if said.startswith("valid") else 1


if __name__ == "__main__":
    sys.exit(main())
