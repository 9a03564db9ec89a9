#!/usr/bin/env python3
"""Makes the sheets of worked cases that tools/oracles/run_cases.py runs beside those of tools/oracles/cases.

    worked_cases.py          counts the cases of each sheet
    worked_cases.py SHEET    prints a sheet: lengths, classes, sewing or begun

What is due comes from the definitions alone: lengths by exact fractions, classes of walks by elimination over the
field of two elements and by trees that are found without any order of search, sewing by lists. Nothing here calls the
program or shares anything with it.
"""

import itertools
import math
import re
import sys
from fractions import Fraction

from tools.oracles.commands import rows_on_meshes

USAGE = "usage: the words are in no row of the command table\n"

# ---- sheets


def shown(text):
    """The lines of a text as a sheet has them."""
    lines = []
    for line in re.findall(r"[^\n]*\n|[^\n]+", text):
        end = "" if line.endswith("\n") else "\\"
        line = line.removesuffix("\n").replace("\\", "\\\\")
        for sign, letter in (("\t", "\\t"), ("\r", "\\r"), ("\0", "\\0")):
            line = line.replace(sign, letter)
        lines.append(f"|{line}{end}\n")
    return "".join(lines)


class Sheet:
    """The text of a sheet, as it grows."""

    def __init__(self, name, title):
        self.name = name
        self.parts = [f"-- {title}\n"]

    def note(self, text):
        self.parts.append(f"\n-- {text}\n")

    def file(self, name, text):
        self.parts.append(f"file {name}\n{shown(text)}")

    def case(self, words, files=(), status=0, out="", diag="", out_of=None, begins=None, keep=None):
        self.parts.append(f"\ncase {words}\n")
        for name, text in dict(files).items():
            self.file(name, text)
        if status:
            self.parts.append(f"status {status}\n")
        if out_of:
            self.parts.append(f"out of {out_of}\n")
        elif out:
            self.parts.append(f"out\n{shown(out)}")
        if diag:
            self.parts.append(f"diag\n{shown(diag)}")
        if begins is not None:
            self.parts.append(f"begins {begins}\n")
        if keep:
            self.parts.append(f"keep {keep}\n")

    def text(self):
        return "".join(self.parts)


# ---- meshes


def off(vertices, faces, keyword="OFF"):
    """A mesh with these vertex lines, or with as many lines `v 0 0`."""
    lines = [f"{v} 0 0" for v in range(vertices)] if isinstance(vertices, int) else vertices
    count = len(edges_of(faces))
    rows = "".join(f"{len(f)} {' '.join(map(str, f))}\n" for f in faces)
    return f"{keyword}\n{len(lines)} {len(faces)} {count}\n" + "".join(f"{line}\n" for line in lines) + rows


def sides(face):
    """The sides of a face as pairs, the lesser vertex first."""
    return [tuple(sorted(p)) for p in zip(face, face[1:] + face[:1])]


def edges_of(faces):
    return sorted({s for face in faces for s in sides(face)})


TET_LINES = ["0 0 0", "1 0 0", "0 1 0", "0 0 1"]
TET_FACES = [[0, 1, 2], [0, 3, 1], [0, 2, 3], [1, 3, 2]]
PILLOW_FACES = [[0, 1, 2], [0, 2, 1]]
PLANE_FACES = [[0, 1, 2], [0, 2, 3], [0, 3, 4], [0, 4, 5], [0, 1, 5], [1, 2, 4], [2, 3, 5], [1, 3, 4], [2, 4, 5],
               [1, 3, 5]]
SEVEN_FACES = [f for i in range(7) for f in ([i, (i + 1) % 7, (i + 3) % 7], [i, (i + 3) % 7, (i + 2) % 7])]


def torus_faces(a, b):
    def at(i, j):
        return i % a * b + j % b

    return [f for i in range(a) for j in range(b)
            for f in ([at(i, j), at(i + 1, j), at(i + 1, j + 1)], [at(i, j), at(i + 1, j + 1), at(i, j + 1)])]


def bottle_faces(a, b):
    """A bottle of Klein: a grid of which the last row is glued to the first one turned round."""
    def at(i, j):
        return i * b + j % b if i < a else -j % b

    return [f for i in range(a) for j in range(b)
            for f in ([at(i, j), at(i + 1, j), at(i + 1, j + 1)], [at(i, j), at(i + 1, j + 1), at(i, j + 1)])]


TORUS_FACES = torus_faces(3, 3)
TET = off(TET_LINES, TET_FACES)
PILLOW = off(TET_LINES[:3], PILLOW_FACES)
PLANE = off(6, PLANE_FACES)
SEVEN = off(7, SEVEN_FACES)
TORUS = off(9, TORUS_FACES)
BOTTLE_FACES = bottle_faces(4, 5)
BOTTLE = off(20, BOTTLE_FACES)

# ---- lengths from coordinates

FORM = re.compile(r"([+-]?)(?:([0-9]+)(?:\.([0-9]*))?|\.([0-9]+))(?:[eE]([+-]?[0-9]{1,3}))?\Z", re.ASCII)


def fixed(token):
    """The value of a token in units of 10^-9, cut towards zero; or the name of its fault."""
    m = FORM.match(token)
    if not m:
        return "form"
    whole, behind = m[2] or "", m[3] or m[4] or ""
    value = Fraction(int(whole + behind or "0"), 10 ** len(behind)) * Fraction(10) ** int(m[5] or "0")
    if value >= 10**9:
        return "range"
    return (-1 if m[1] == "-" else 1) * math.floor(value * 10**9)


def lengths_of(lines, faces, k):
    """The status and the two texts of `lengths` on these vertex lines."""
    points = []
    for v, line in enumerate(lines):
        points.append([fixed(token) for token in re.split("[ \t\r]+", line.strip(" \t\r"))[:3]])
        for place, number in enumerate(points[-1]):
            if isinstance(number, str):
                return 12, "", f"coordinates: {number} {v} {place}\n"
    out = ""
    for u, v in edges_of(faces):
        square = sum((a - b) ** 2 for a, b in zip(points[u], points[v]))
        n = math.isqrt(square // 10 ** (2 * (9 - k)))
        assert n * n * 10 ** (2 * (9 - k)) <= square < (n + 1) ** 2 * 10 ** (2 * (9 - k))
        if n == 0 or n > 4294967295:
            return 12, "", f"coordinates: {'zero' if n == 0 else 'great'} {u} {v}\n"
        out += f"{u} {v} {n}\n"
    return 0, out, ""


def measured(sheet, lines, k, faces=TET_FACES, keyword="OFF"):
    status, out, diag = lengths_of(lines, faces, k)
    sheet.case(f"lengths M {k}", {"M": off(lines, faces, keyword)}, status, out, diag)


NUMBERS = """1 +1 -1 01 1. .5 5. -.5 +.5 -5. +5. 0.5 00.5 0.50 1e0 1E0 1e+0 1e-0 1E-1 1e1 1e+1 15e-1 .5e1 5.e-1 0e999
-0e999 0.0e-999 1e-999 -1e-999 1e-9 -1e-9 1e-10 9e-10 99e-11 -99e-11 199e-11 -199e-11 1e-09 1e009 1e8 9e8 1e9 1e09
1e+009 1e+999 -1e9 -1e+999 0.1e10 0.01e10 10e8 10e7 999999999 999999999. 999999999.0 999999999.9 1000000000
1000000000.0 -1000000000 999999999.999999999 999999999.9999999999999999999999 -999999999.9999999999 000000000001.0
0000000000000000000000000000001 1000000000000000000000000000000 99999999999999999999999999999999999999e-30
0.000000001 0.0000000009 0.0000000010 0.00000000199999999999999999999999 -0.0000000001 -0.000000001
0.123456789123456789123456789123 123456789.123456789123456789123456789 4.294967295 4.294967296 4.2949672955
0.99999999999999999999 1.9999999999999999 -1.9999999999999999 3.1415926535897932384626433832795
18446744073709551616e-19 340282366920938463463374607431768211456e-38 1234567890123456789e-10
0.000000000000000000000000000000000001e36 1000000000000000000000000000000000000e-36 .000000000001e12
000000000000000000000000.000000000000000000001e+21""".split()

SPOILED = """+ - . +. -. e e1 1e 1e+ 1e- 1e1.0 1e1000 1e+1000 1e-1000 1e0001 1e++1 1e+-1 1ee1 1e1e1 1.2.3 1..2 ..
1,0 1_0 0x10
0b1 1f 1d inf -inf nan NaN infinity ++1 --1 +-1 1+ 1- 1e1x x1 1x e5 .e5 -.e5 1/2 1e٣ ١ ½ 1\N{NO-BREAK SPACE}0
−1 1\0 \v1 "1" 1' 1: 1e+9e""".replace("\\0", "\0").split(" ")


def lengths_sheet():
    sheet = Sheet("lengths", "Lengths from coordinates. What is due was computed by exact fractions.")
    sheet.file("tet", TET)
    sheet.file("torus33", TORUS)
    sheet.note("Tokens as the first coordinate of vertex 1, in the finest unit and in whole ones.")
    for token in NUMBERS:
        for k in (9, 0):
            measured(sheet, ["0 0 0", f"{token} 0 0", "1 1 0", "0 0 1"], k)
    sheet.note("Long tokens: hundreds of digits, before and behind the point, and exponents that take them back.")
    for token in ("0." + "1" * 400, "0" * 400 + "1.5", "1" + "0" * 400 + "e-400", "0." + "0" * 400 + "1e+401",
                  "9" * 1000 + "e-991", "9" * 1000 + "e-992", "0." + "0" * 998 + "9e999",
                  "-" + "123456789" * 100 + "e-891",
                  "." + "0" * 990 + "123456789987654321e999", "1" + "0" * 1007 + "e-999", "1" + "0" * 1008 + "e-999"):
        measured(sheet, ["0 0 0", f"{token} 0 0", "1 1 0", "0 0 1"], 9)
        measured(sheet, ["0 0 0", f"{token} 0 0", "1 1 0", "0 0 1"], 0)
    sheet.note("Tokens that are no coordinate.")
    for token in SPOILED:
        for word in token.split("\n"):
            measured(sheet, ["0 0 0", f"{word} 0 0", "1 1 0", "0 0 1"], 3)
    sheet.note("The first token that is refused, by vertex and then by place; what follows the third isn't read.")
    for lines in (["0 0 0", "1 x 0", "y 1 0", "0 0 1"], ["0 0 0", "1 0 1e9", "y 1 0", "0 0 1"],
                  ["0 0 0", "1 0 x", "1e9 1 0", "0 0 1"], ["0 1e9 x", "1 0 0", "0 1 0", "0 0 1"],
                  ["0 0 1e", "1 0 0", "0 1 0", "0 0 1"], ["0 0 0", "1 0 0", "0 1 0", "0 0 -1000000000"],
                  ["0 0 0", "0 0 0", "0 1 0", "0 x 1"], ["0 0 0 x", "1 0 0 1e9", "0 1 0 nan inf", "0 0 1 -"]):
        measured(sheet, lines, 3)
    sheet.note("Other keywords have more than three tokens a line; blanks are spaces, tabs and CR.")
    for keyword, lines in (("COFF", ["0 0 0 255 0 0 255", "1 0 0 .5 .5 .5 1", "0 1 0 x y z w", "0 0 1 1 1 1 1"]),
                           ("NOFF", ["0 0 0 0 0 1e9", "1 0 0 0 0 1", "0 1 0 0 0 1", "0 0 1 0 0 -1"]),
                           ("STCNOFF", ["0\t0\t0\t1 2 3", "1  0 \t 0  1 2 3", " 0 1 0 1 2 3", "0 0 1 1 2 3\r"])):
        measured(sheet, lines, 3, keyword=keyword)
    sheet.note("A comment behind the coordinates, and CR LF at each line end.")
    sheet.case("lengths M 3", {"M": TET.replace("1 0 0\n", "1 0 0# 5\n")}, 0, *lengths_of(TET_LINES, TET_FACES, 3)[1:])
    sheet.case("lengths M 3", {"M": TET.replace("\n", "\r\n")}, 0, *lengths_of(TET_LINES, TET_FACES, 3)[1:])
    squares(sheet)
    sheet.note("The least edge whose length is 0 or too great decides, of both kinds.")
    for lines, k in ((["0 0 0", "0 0 0", "9 0 0", "0 0 1"], 9), (["0 0 0", "9 0 0", "9 0 0", "0 0 1"], 9),
                     (["0 0 0", "1 0 0", "1 0 0", "8 0 0"], 9), (["0 0 0", "1 0 0", "0 1 0", "0 0 0.4"], 0),
                     (["0 0 0", "0 1e-9 0", "0 1 0", "0 0 1"], 8), (["5 5 5", "5 5 5", "5 5 5", "5 5 5"], 9)):
        measured(sheet, lines, k)
    sheet.note("Meshes as tools write them: seven decimals with CR LF, exponents, few digits.")
    for lines, faces, k in tools():
        measured(sheet, lines, k, faces)
    sheet.note("Words, and the order of the tests.")
    for words in ("lengths tet", "lengths tet 10", "lengths tet 3 0", "lengths tet -1", "lengths tet +3",
                  "lengths tet 3.0", "lengths tet x", "lengths", "lengths tet 4294967296",
                  "lengths tet 00000000000000000000000000000000010"):
        sheet.case(words, status=2, diag=USAGE, begins="")
    sheet.case("lengths tet 003", out=lengths_of(TET_LINES, TET_FACES, 3)[1], begins="tet")
    sheet.case("lengths M 3", status=9, diag="read fault\n", begins="M")
    sheet.case("lengths M 3", {"M": "OFF\n4 4 6\nx 0 0\n"}, 3, diag="mesh text: early 7\n")
    sheet.case("lengths M 3", {"M": "OFF\n3 1 3\nx 0 0\n1 0 0\n0 1 0\n3 0 1 2\n"}, 4, diag="surface: border 0 1 0\n")
    sheet.case("lengths torus33 9", status=12, diag="coordinates: great 0 6\n", begins="torus33")
    return sheet


def squares(sheet):
    """Sums of squares one below, at and one above a square, small and great."""
    sheet.note("Squares, and one less and one more, of whole numbers of billionths.")
    for m in (1, 2, 3, 10, 255, 256, 1000, 46340, 46341, 65534, 65535):
        less, same = m * m, m * m + 1
        assert less * less + m * m + m * m == same * same - 1
        for x, y, z in ((less, m, m), (same, 0, 0), (same, 1, 0)):
            measured(sheet, ["0 0 0", f"{x}e-9 {y}e-9 {z}e-9", "0 1 0", "0 0 1"], 9)
    sheet.note("The least and the greatest lengths.")
    for x in (1, 4294967295, 4294967296):
        measured(sheet, ["0 0 0", f"{x}e-9 0 0", "0 1 0", "0 0 1"], 9)
    far = "999999999.999999999"
    for k in (0, 1):
        measured(sheet, [f"{far} {far} {far}", f"-{far} -{far} -{far}", f"{far} -{far} {far}", f"-{far} {far} 0"], k)
    for x in ("1.414213562", "1.414213563", "0.999999999", "1", "3.999999999", "4"):
        for k in (0, 1, 8):
            measured(sheet, ["0 0 0", f"{x} 0 0", "0 4 0", "0 0 4"], k)
    sheet.note("Each unit, and coordinates that are only told apart by all three places.")
    for k in range(10):
        measured(sheet, ["0 0 0", "1.234567891 2.345678912 3.456789123", "-0.5 .25 -.125", "1 1 1.000000001"], k)
    for axis in range(3):
        near = " ".join("7" if place == axis else "0" for place in range(3))
        measured(sheet, ["0 0 0", near, "1 2 3", "-3 1 2"], 6)


def tools():
    """Vertex lines, faces and a unit: an icosahedron by exponents, and a ring by seven decimals."""
    g = (1 + math.sqrt(5)) / 2
    corners = [(x, y, 0) for x in (-1, 1) for y in (-g, g)]
    corners = [p[i:] + p[:i] for i in range(3) for p in corners]
    near = {(u, v) for u, v in itertools.combinations(range(12), 2) if math.dist(corners[u], corners[v]) < 2.1}
    faces = [list(t) for t in itertools.combinations(range(12), 3)
             if all(p in near for p in itertools.combinations(t, 2))]
    yield [" ".join(f"{c / math.sqrt(2 + g):.6e}" for c in p) for p in corners], faces, 6
    yield [" ".join(f"{c / math.sqrt(2 + g):.17g}" for c in p) for p in corners], faces, 9
    yield [" ".join(f"{c:g}" for c in p) for p in corners], faces, 2
    ring = []
    for i, j in itertools.product(range(5), range(4)):
        a, b = 2 * math.pi * i / 5, 2 * math.pi * j / 4
        ring.append((math.cos(a) * (2 + math.cos(b)), math.sin(a) * (2 + math.cos(b)), math.sin(b)))
    yield [" ".join(f"{c:.7f}" for c in p) + "\r" for p in ring], torus_faces(5, 4), 5
    yield [" ".join(f"{1e6 * c:.1f}" for c in p) for p in ring], torus_faces(5, 4), 2


# ---- classes of walks


class Surface:
    """A surface with the trees, the left edges and the signatures that are chosen at vertex 0 for length 1."""

    def __init__(self, vertices, faces):
        self.vertices, self.faces, self.edges = vertices, faces, edges_of(faces)
        self.number = {e: k for k, e in enumerate(self.edges)}
        self.of = {e: [f for f, face in enumerate(faces) if e in sides(face)] for e in self.edges}
        depth = self.depths()
        near = {v: min(u for u in range(vertices) if tuple(sorted((u, v))) in self.number and depth[u] + 1 == depth[v])
                for v in range(1, vertices)}
        tree = {tuple(sorted(p)) for p in near.items()}
        weight = {e: (depth[e[0]] + 1 + depth[e[1]], k) for k, e in enumerate(self.edges) if e not in tree}
        cotree = self.heaviest(weight)
        self.left = [e for e in self.edges if e not in tree and e not in cotree]
        self.signature = {e: self.signed(e, cotree) for e in self.edges}

    def depths(self):
        depth = [0] + [None] * (self.vertices - 1)
        while None in depth:
            for u, v in self.edges:
                for a, b in ((u, v), (v, u)):
                    if depth[a] is not None and (depth[b] is None or depth[b] > depth[a] + 1):
                        depth[b] = depth[a] + 1
        for u, v in self.edges:
            assert abs(depth[u] - depth[v]) <= 1
        return depth

    def heaviest(self, weight):
        """The heaviest tree of the faces over edges with these weights: the greatest edge first."""
        part = list(range(len(self.faces)))
        kept = set()
        for e in sorted(weight, key=weight.get, reverse=True):
            f, g = (part[h] for h in self.of[e])
            if f != g:
                kept.add(e)
                part = [f if p == g else p for p in part]
        return kept

    def signed(self, e, cotree):
        if e in self.left:
            return {self.left.index(e)}
        if e not in cotree:
            return set()
        side = {self.of[e][0]}
        while True:
            more = {g for c in cotree - {e} for g in self.of[c] if side & set(self.of[c])} - side
            if not more:
                return {k for k, c in enumerate(self.left) if len(side & set(self.of[c])) == 1}
            side |= more

    def parity(self, *walks):
        odd = set()
        for walk in walks:
            for step in zip(walk, walk[1:]):
                odd ^= {tuple(sorted(step))}
        return odd

    def boundary(self, faces):
        odd = set()
        for f in faces:
            odd ^= set(sides(self.faces[f]))
        return odd

    def null_faces(self, parity):
        """The faces without face 0 whose boundary this is, by passing from face to face; or None."""
        inside, done, todo = {}, set(), [0]
        inside[0] = False
        while todo:
            f = todo.pop()
            for e in sides(self.faces[f]):
                g = next(h for h in self.of[e] if h != f)
                is_in = inside[f] ^ (e in parity)
                if g not in inside:
                    inside[g] = is_in
                    todo.append(g)
                elif inside[g] != is_in:
                    return None
            done.add(f)
        faces = sorted(f for f in inside if inside[f])
        assert self.boundary(faces) == parity
        return faces

    def evidence(self, parity):
        faces = self.null_faces(parity)
        if faces is not None:
            return "null", faces
        bits = set()
        for e in parity:
            bits ^= self.signature[e]
        edges = [e for e in self.edges if min(bits) in self.signature[e]]
        assert len(parity & set(edges)) % 2 == 1
        assert all(len(set(sides(face)) & set(edges)) % 2 == 0 for face in self.faces)
        return "odd", edges


def evidence_line(word, found):
    kind, items = found
    numbers = items if kind == "null" else [v for e in items for v in e]
    return " ".join(map(str, [word, len(items), *numbers])) + "\n"


def class_line(surface, walk):
    found = surface.evidence(surface.parity(walk))
    return evidence_line(found[0], found)


def same_line(surface, walk, other):
    found = surface.evidence(surface.parity(walk, other))
    return evidence_line({"null": "same", "odd": "different"}[found[0]], found)


def line(walk):
    return " ".join(map(str, walk)) + "\n"


def walk_fault(text, surface):
    """The line of the first refusal of a walk file, by kind and then by place; or None."""
    lines = [re.findall(r"[^ \t\r]+", row.split("#")[0]) for row in text.split("\n")]
    used = [(n, tokens) for n, tokens in enumerate(lines, 1) if tokens]
    if not used:
        return "empty"
    tokens = used[0][1]
    for place, token in enumerate(tokens):
        if not re.fullmatch("[0-9]+", token, re.ASCII) or int(token) > 4294967295:
            return f"form {place}"
    walk = [int(token) for token in tokens]
    for place, v in enumerate(walk):
        if v >= surface.vertices:
            return f"not-vertex {place}"
    for place, step in enumerate(zip(walk, walk[1:])):
        if tuple(sorted(step)) not in surface.number:
            return f"not-edge {place}"
    if walk[0] != walk[-1]:
        return "open"
    return f"trailing {used[1][0]}" if len(used) > 1 else None


SURFACES = {
    "tet": (4, TET_FACES, TET), "pillow": (3, PILLOW_FACES, PILLOW), "plane6": (6, PLANE_FACES, PLANE),
    "seven": (7, SEVEN_FACES, SEVEN), "torus33": (9, TORUS_FACES, TORUS), "bottle": (20, BOTTLE_FACES, BOTTLE),
}

WALKS = {
    "tet": [[0], [3], [0, 1, 0], [0, 1, 2, 0], [1, 3, 2, 1], [0, 1, 2, 3, 0], [0, 1, 2, 0, 1, 2, 0],
            [0, 1, 0, 2, 0, 3, 0], [0, 1, 2, 3, 1, 0], [2, 1, 3, 2, 0, 2]],
    "pillow": [[0], [2], [0, 1, 0], [0, 1, 2, 0], [0, 2, 1, 0], [1, 2, 0, 1], [0, 1, 2, 0, 1, 2, 0], [0, 1, 2, 1, 0],
               [0, 1, 2, 0, 2, 1, 0], [0, 1, 2, 0, 1, 0]],
    "plane6": [[0], [5], [0, 1, 0], [0, 1, 2, 0], [0, 1, 3, 0], [0, 2, 4, 0], [0, 2, 4, 0, 2, 4, 0], [1, 5, 2, 1],
               [0, 1, 2, 3, 4, 5, 0], [0, 1, 3, 0, 2, 4, 0], [0, 1, 3, 5, 4, 2, 0], [5, 4, 3, 2, 1, 0, 5]],
    "seven": [[0], [0, 1, 0], [0, 1, 3, 0], [0, 1, 2, 0], [0, 2, 4, 6, 1, 3, 5, 0], [0, 1, 2, 3, 4, 5, 6, 0],
              [0, 3, 6, 2, 5, 1, 4, 0], [6, 5, 4, 6], [0, 1, 2, 0, 1, 2, 0], [0, 3, 1, 0, 2, 4, 0]],
    "torus33": [[0], [8], [0, 1, 0], [0, 1, 2, 0], [0, 2, 1, 0], [2, 0, 1, 2], [0, 3, 6, 0], [3, 6, 7, 3], [0, 4, 8, 0],
                [0, 1, 2, 0, 1, 2, 0], [0, 1, 2, 0, 3, 6, 0], [0, 1, 2, 0, 3, 6, 0, 4, 8, 0], [0, 3, 4, 0, 1, 4, 0],
                [0, 3, 4, 1, 0], [0, 3, 4, 5, 2, 1, 0], [0, 1, 4, 5, 2, 0], [1, 2, 5, 4, 1, 0, 1], [0, 1, 0, 1, 0],
                [4, 5, 3, 4], [8, 6, 7, 8], [0, 4, 5, 2, 0]],
    "bottle": [[0], [0, 1, 0], [0, 1, 2, 3, 4, 0], [5, 6, 7, 8, 9, 5], [0, 5, 10, 15, 0],
               [1, 6, 11, 16, 4, 9, 14, 19, 1],
               [0, 1, 6, 5, 0], [0, 5, 10, 15, 0, 5, 10, 15, 0], [0, 1, 2, 3, 4, 0, 5, 10, 15, 0],
               [0, 1, 2, 3, 4, 0, 1, 2, 3, 4, 0], [0, 6, 12, 18, 1, 0], [2, 7, 12, 17, 3, 2]],
}


def walks_of(surface, walks):
    """Those of the walks that are closed walks of the surface; each of the lists is meant to have no other."""
    for walk in walks:
        fault = walk_fault(line(walk), surface)
        assert fault is None, (walk, fault)
    return walks


BAD_WALKS = ["", "\n", "\n\n\n", "# 0 1 2 0\n", " \t\r\n", "x\n", "0 1 x\n", "0 -1 0\n", "0 +1 0\n", "0 1.0 0\n",
             "0 1,2 0\n", "4294967296\n", "0 4294967296 0\n", "0 18446744073709551616 0\n",
             "0 99999999999999999999999999 0\n", "4294967295\n", "0 4294967295 0\n", "9\n", "0 9 0\n", "0 1 2 9\n",
             "0 9 x\n", "9 0 x 1\n", "0 0\n", "0 1 1 0\n", "0 5 0\n", "0 1 5 7 0 5\n", "5 0 9\n", "0 1\n", "0 1 2\n",
             "0 1 2 0 1\n", "0 1 2 0\n0\n", "0 1 2 0\n\n\nx\n", "0 1\n2 0\n", "\n0 1 2\n0\n",
             "0 1 2 0\n# more\n\t\n  0 1 2 0\n", "0 1 2\n0 5 0\n", "0 5\nx\n", "0 1 2 0 \v\n", "0 1 2 0\f\n",
             "\N{NO-BREAK SPACE}0\n", "\ufeff0 1 2 0\n", "0\0 1 2 0\n", "0x0\n", "0 1 2 0;\n", "1e0\n"]

GOOD_WALKS = ["0 1 2 0", "0 1 2 0\n\n\n", "\n\n 0 1 2 0\n", "# round\n0 1 2 0 # once\n", "0\t1\t2\t0\t\n",
              "0 1 2 0\r\n", "00 01 000002 0000000000000000000000000\n", "0 1 2 0#0 5\n",
              "\r\n\t\r\n0\r1\r2\r0\r\n#\n# 0 0 0\n"]


def class_cases(sheet, surfaces):
    for name, surface in surfaces.items():
        sheet.note(f"Walks on {name}.")
        for walk in walks_of(surface, WALKS[name]):
            sheet.case(f"class {name} W", {"W": line(walk)}, out=class_line(surface, walk))
    torus = surfaces["torus33"]
    sheet.note("How a walk may be written.")
    for text in GOOD_WALKS:
        assert walk_fault(text, torus) is None
        sheet.case("class torus33 W", {"W": text}, out=class_line(torus, [0, 1, 2, 0]))
    sheet.note("Walks that are refused: the kind first and then the place.")
    for text in BAD_WALKS:
        fault = walk_fault(text, torus)
        sheet.case("class torus33 W", {"W": text}, 13, diag=f"walk 1: {fault}\n")
    sheet.note("A long walk, twelve times round by two ways.")
    walk = [0, 1, 2] * 7 + [0, 3, 6] * 5 + [0]
    sheet.case("class torus33 W", {"W": line(walk)}, out=class_line(torus, walk))


def same_cases(sheet, surfaces):
    for name, surface in surfaces.items():
        sheet.note(f"Pairs of walks on {name}.")
        walks = WALKS[name]
        for i, walk in enumerate(walks):
            for other in (walk, walks[(i + 1) % len(walks)], walks[(i + 4) % len(walks)]):
                sheet.case(f"same {name} W V", {"W": line(walk), "V": line(other)}, out=same_line(surface, walk, other))
    torus = surfaces["torus33"]
    sheet.note("The first file is read and tested before the second one.")
    for first, second in (("0 1 2 0\n", "x\n"), ("x\n", "y z\n"), ("0 1 2\n", ""), ("0 1 2 0\n", "0 1 2\n"),
                          ("0\n", ""),
                          ("0 1 0\n", "0 1\n1 0\n"), ("", ""), ("0\n", "0 9 0\n"), ("0 5 0\n", "0 5 0\n")):
        faults = [walk_fault(text, torus) for text in (first, second)]
        which = 1 if faults[0] else 2
        sheet.case("same torus33 W V", {"W": first, "V": second}, 13, diag=f"walk {which}: {faults[which - 1]}\n",
                   begins="torus33 W" if which == 1 else "torus33 W V")
    sheet.case("same torus33 W W", {"W": "0 1 2 0\n"}, out="same 0\n", begins="torus33 W W")


def classes_sheet():
    sheet = Sheet("classes", "Classes of walks. What is due was computed from the definitions: the faces by passing "
                  "from face to face, the edges by trees that are found without any order of search.")
    surfaces = {}
    for name, (vertices, faces, text) in SURFACES.items():
        sheet.file(name, text)
        surfaces[name] = Surface(vertices, faces)
    class_cases(sheet, surfaces)
    same_cases(sheet, surfaces)
    confirm_cases(sheet, surfaces)
    sheet.note("Words, and files that aren't there.")
    for words in ("class torus33", "class torus33 W V", "same torus33 W", "same torus33 W W W", "confirm torus33 W",
                  "confirm torus33 W C C", "class", "same", "confirm"):
        sheet.case(words, {"W": "0\n", "C": "null 0\n"}, 2, diag=USAGE, begins="")
    for words, begins in (("class M W", "M"), ("class torus33 W", "torus33 W"), ("same M W V", "M"),
                          ("same torus33 W V", "torus33 W"), ("confirm M W C", "M"),
                          ("confirm torus33 W C", "torus33 W")):
        sheet.case(words, status=9, diag="read fault\n", begins=begins)
    sheet.case("same torus33 W V", {"W": "0\n"}, 9, diag="read fault\n", begins="torus33 W V")
    sheet.case("confirm torus33 W C", {"W": "0\n"}, 9, diag="read fault\n", begins="torus33 W C")
    sheet.case("class unit W", {"W": "0\n", "unit": TORUS}, out="null 0\n", begins="unit W")
    sheet.case("class torus33 unit", {"unit": "0 1 2 0\n"}, out=class_line(surfaces["torus33"], [0, 1, 2, 0]),
               begins="torus33 unit")
    return sheet


# ---- evidence


def evidence_of(text):
    """The kind and the items of an evidence text, or the line of its first refusal."""
    lines = [re.findall(r"[^ \t\r]+", row.split("#")[0]) for row in text.split("\n")]
    used = [(n, tokens) for n, tokens in enumerate(lines, 1) if tokens]
    if not used or used[0][1][0] not in ("null", "odd"):
        return f"certificate text: header {used[0][0] if used else 0}\n"
    at, (kind, *rest) = used[0]
    wrong = f"certificate text: form {at}\n"
    if not all(re.fullmatch("[0-9]+", t, re.ASCII) and int(t) <= 4294967295 for t in rest):
        return wrong
    count, *items = [int(t) for t in rest] or [None]
    if kind == "odd":
        if len(items) % 2 or any(u >= v for u, v in zip(items[::2], items[1::2])):
            return wrong
        items = list(zip(items[::2], items[1::2]))
    if count != len(items) or any(a >= b for a, b in zip(items, items[1:])):
        return wrong
    return f"certificate text: trailing {used[1][0]}\n" if len(used) > 1 else (kind, items)


def confirmed(surface, walk, text):
    """The status and the two texts of `confirm`."""
    found = evidence_of(text)
    if isinstance(found, str):
        return 8, "", found
    kind, items = found
    parity = surface.parity(walk)
    if kind == "null":
        for f in items:
            if f >= len(surface.faces):
                return 1, f"no face {f}\n", ""
        for u, v in sorted(parity ^ surface.boundary(items)):
            return 1, f"no boundary {u} {v}\n", ""
        return 0, "valid null\n", ""
    for u, v in items:
        if (u, v) not in surface.number:
            return 1, f"no pair {u} {v}\n", ""
    for f, face in enumerate(surface.faces):
        if len(set(sides(face)) & set(items)) % 2:
            return 1, f"no odd-face {f}\n", ""
    return (0, "valid odd\n", "") if len(parity & set(items)) % 2 else (1, "no even\n", "")


def other_evidence(surface, found):
    """Evidence that is spoiled in one place, or right in another way."""
    kind, items = found
    if kind == "null":
        yield kind, sorted(set(range(len(surface.faces))) - set(items))
        for f in (0, 1, len(surface.faces) - 1, len(surface.faces), 4294967295):
            yield kind, sorted(set(items) ^ {f})
        yield "odd", [surface.edges[0]]
        yield "odd", []
    else:
        for e in (surface.edges[0], surface.edges[-1], (0, surface.vertices), (4294967294, 4294967295)):
            yield kind, sorted(set(items) ^ {e})
        yield kind, sorted(set(items) ^ {e for e in surface.edges if 0 in e})
        yield kind, sorted(set(items) ^ {e for e in surface.edges if surface.vertices - 1 in e})
        yield kind, surface.edges
        yield "null", [0]
        yield "null", []


TEXTS = ["", "\n", "# null 0\n", "nul 0\n", "Null 0\n", "null0\n", "0\n", "nullodd 0\n", "even 0\n", "\n\nodds 0\n",
         "null\n", "odd\n", "null x\n", "null 1\n", "null 0 1\n", "null 1 1 2\n", "null -1\n",
         "null 1 6 # x\nnull 0\n", "null 2 6 6\n", "null 2 7 6\n", "null 3 1 3 2\n", "null 1 4294967296\n",
         "null 4294967296\n", "null 4294967295\n", "null 18446744073709551617 6\n", "null 1 18446744073709551622\n",
         "null 1 18\n", "null 1 4294967295\n", "null 2 18 4294967295\n", "null 1 6 x\n", "null 1 x\n", "null 1 +6\n",
         "null 1\n6\n", "null 1 6\n\n", "null 1 6\n0\n", "null 0\nodd 0\n", "null 1 6\n# end\n\n x\n",
         "null x\nodd 0\n", "odd 0\n", "odd 1\n", "odd 1 0\n", "odd 1 0 1 2\n", "odd 1 1 0\n", "odd 1 1 1\n",
         "odd 2 0 1 0 1\n", "odd 2 0 2 0 1\n", "odd 2 1 2 0 3\n", "odd 2 0 1 0\n", "odd 2 0 1\n",
         "odd 1 0 4294967296\n", "odd 1 4294967295 4294967296\n", "odd 1 0 4294967295\n", "odd 1 0 5\n",
         "odd 1 0 9\n", "odd 1 0 1\n", "odd 2 0 1 0 5\n", "odd x 0 1\n", "odd 1 0 x\n", "odd 1 0 1\nx\n",
         "odd 1 0 1 # 2\n", "null 0\0\n", "null 0\v\n", "null\N{NO-BREAK SPACE}0\n", "\ufeffnull 0\n", "same 0\n",
         "different 1 0 1\n", "valid null\n", "SURFCERT 1 loops\n"]


def confirm_cases(sheet, surfaces):
    for name, surface in surfaces.items():
        sheet.note(f"Evidence on {name}: what `class` prints, and the same spoiled or made otherwise.")
        for walk in WALKS[name]:
            found = surface.evidence(surface.parity(walk))
            text = evidence_line(found[0], found)
            assert confirmed(surface, walk, text)[0] == 0
            sheet.case(f"confirm {name} W C", {"W": line(walk), "C": text}, *confirmed(surface, walk, text))
            for other in list(other_evidence(surface, found))[:: 1 if name == "torus33" else 3]:
                text = evidence_line(other[0], other)
                sheet.case(f"confirm {name} W C", {"W": line(walk), "C": text}, *confirmed(surface, walk, text))
    torus = surfaces["torus33"]
    sheet.note("Evidence texts for a walk that is null, and for one that isn't.")
    for text in TEXTS:
        for walk in ([3, 6, 7, 3], [0, 1, 2, 0]):
            sheet.case("confirm torus33 W C", {"W": line(walk), "C": text}, *confirmed(torus, walk, text))
    sheet.note("How evidence may be written.")
    for text in ("null 1 6", "\n\n null 1 6\n\n", "# the triangle\nnull\t1  06 # one\n#\n", "null 01 0000000006\r\n",
                 "null 1 6#7\n", "null 17 0 1 2 3 4 5 7 8 9 10 11 12 13 14 15 16 17\n"):
        assert confirmed(torus, [3, 6, 7, 3], text)[0] == 0, text
        sheet.case("confirm torus33 W C", {"W": "3 6 7 3\n", "C": text}, out="valid null\n", begins="torus33 W C")
    for text in ("odd 8 1 2 2 5 2 7 3 5 4 8 5 6 5 8 7 8", "odd 0008 1 2 2 5 2 7 3 5 4 8 5 6 5 8 007 8 \n\n",
                 "\r\n# a cut\r\nodd 8 1 2 2 5 2 7 3 5 4 8 5 6 5 8 7 8\r\n"):
        assert confirmed(torus, [0, 1, 2, 0], text)[0] == 0, text
        sheet.case("confirm torus33 W C", {"W": "0 1 2 0\n", "C": text}, out="valid odd\n", begins="torus33 W C")
    sheet.note("The walk is tested before the evidence is read.")
    for text in ("x\n", "0 1 2\n", ""):
        sheet.case("confirm torus33 W C", {"W": text, "C": "x\n"}, 13, diag=f"walk 1: {walk_fault(text, torus)}\n",
                   begins="torus33 W")


# ---- sewing


def copies_of(text, count):
    """The origins by the copy lines, or the line of the first refusal."""
    origins = []
    fault = None
    for n, row in enumerate(text.split("\n"), 1):
        tokens = re.findall(r"[^ \t\r]+", row)
        if tokens[:2] == ["#", "copy"]:
            numbers = [t for t in tokens[2:] if re.fullmatch("[0-9]+", t, re.ASCII)]
            fits = len(tokens) == 5 and tokens[3] == "from" and len(numbers) == 2
            if not fits or int(numbers[0]) != len(origins) or int(numbers[1]) > 4294967295:
                return f"sew: copy-form {n}\n"
            origins.append(int(numbers[1]))
    if len(origins) != count:
        fault = f"sew: copy-count {len(origins)} of {count}\n"
    return fault or origins


def sewn(keyword, lines, faces, origins):
    """The sewn mesh, or the line of the first refusal; colours are no part of a face here."""
    count = len(set(origins))
    for v in range(count):
        if v not in origins:
            return f"sew: gap {v}\n"
    for copy, origin in enumerate(origins):
        earlier = origins.index(origin)
        if lines[copy] != lines[earlier]:
            return f"sew: line {copy} {earlier}\n"
    glued = [[origins[c] for c in face] for face in faces]
    for f, face in enumerate(glued):
        for place, v in enumerate(face):
            if v in face[:place]:
                return f"sew: face-repeat {f} {v}\n"
    return off([lines[origins.index(v)] for v in range(count)], glued, keyword)


class Opened:
    """A mesh that was cut, with its copy lines, in a text that is changed line by line."""

    def __init__(self, text):
        self.text = text
        rows = text.split("\n")
        self.keyword = rows[0]
        self.count, number, _ = map(int, rows[1].split())
        self.lines = rows[2:2 + self.count]
        self.faces = [list(map(int, row.split()[1:])) for row in rows[2 + self.count:2 + self.count + number]]
        self.copies = rows[2 + self.count + number:-1]
        self.head = rows[:2]
        self.rows = rows[2 + self.count:2 + self.count + number]

    def made(self, lines=None, rows=None, copies=None, head=None):
        parts = [head or self.head, lines or self.lines, rows or self.rows, self.copies if copies is None else copies]
        return "".join(f"{row}\n" for part in parts for row in part)


def sew_case(sheet, opened, text):
    found = copies_of(text, opened.count)
    if isinstance(found, list):
        found = sewn(opened.keyword, opened.lines, opened.faces, found)
    if found.startswith("sew: "):
        sheet.case("sew M", {"M": text}, 14, diag=found)
    else:
        sheet.case("sew M", {"M": text}, out=found)


# The tetrahedron cut along two of its edges, and the torus along six, by hand.
TET_CUT = off(["0 0 0", "0 0 0", "1 0 0", "0 1 0", "0 0 1"], [[0, 2, 3], [1, 4, 2], [1, 3, 4], [2, 4, 3]]) + "".join(
    f"# copy {i} from {v}\n" for i, v in enumerate([0, 0, 1, 2, 3]))
TORUS_ORIGINS = [0, 0, 0, 0, 1, 1, 2, 2, 3, 3, 4, 5, 6, 6, 7, 8]
TORUS_CUT = off([f"{v} 0 0" for v in TORUS_ORIGINS], [
    [0, 8, 10], [0, 10, 4], [4, 10, 11], [4, 11, 6], [6, 11, 9], [6, 9, 1], [8, 12, 14], [8, 14, 10], [10, 14, 15],
    [10, 15, 11], [11, 15, 13], [11, 13, 9], [12, 2, 5], [12, 5, 14], [14, 5, 7], [14, 7, 15], [15, 7, 3], [15, 3, 13]
]) + "".join(f"# copy {i} from {v}\n" for i, v in enumerate(TORUS_ORIGINS))

SPOILED_COPIES = ["# copy 0 from", "# copy 0 from 0 0", "# copy 0 from 0 # x", "# copy 0 from x", "# copy x from 0",
                  "# copy", "# copy 0", "# copy 0 of 0", "# copy 0 from -0", "# copy +0 from 0", "# copy 1 from 0",
                  "# copy 0 from 4294967296", "# copy 0 from 18446744073709551616", "# copy 4294967296 from 0",
                  "# copy 0 from 0.0", "# copy 0 from 0\v", "# copy from 0 0", "# copy 0 0 from", "# copy 0 FROM 0",
                  "# copy 0from 0", "# copy 18446744073709551616 from 0"]

OTHER_COMMENTS = ["#copy 0 from 0", "# copied 0 from 0", "# Copy 0 from 0", "#", "# ", "## copy 0 from 0",
                  "# # copy 0 from 0", "# copy0 from 0", "# a copy 0 from 0", "#\tcop y"]

GOOD_COPIES = ["#\tcopy 0 from 0", "  # copy 0 from 0", "# copy 0 from 0\r", "#  copy\t0  from\t0 \t\r",
               "\t#\rcopy 0 from 0", "# copy 00 from 000", "# copy 0000000000000000000000000 from 0"]


# A tetrahedron with colours and decimals, with CR LF; and as it is sewn.
COLOURED_LINES = ["0.000000 0.000000 0.000000 255 0 0 255", "1.000000 0.000000 0.000000 0 255 0 255",
                  "0.000000 1.000000 0.000000 0 0 255 255", "0.000000 0.000000 1.000000 9 9 9 255"]
COLOURED_ROWS = ["3 0 1 2 200 200 200", "3 0 3 1", "3 0 2 3 200 200 200", "3 1 3 2"]
COLOURED = "".join(f"{row}\r\n" for row in ["COFF 4 4 0", *COLOURED_LINES, *COLOURED_ROWS])
COLOURED_SEWN = "".join(f"{row}\n" for row in ["COFF", "4 4 6", *COLOURED_LINES, *COLOURED_ROWS])


def round_trips(sheet):
    for name, (vertices, faces, text) in SURFACES.items():
        sheet.note(f"The cuts of {name}, full and trimmed, at each vertex.")
        for base, way in itertools.product(range(vertices), ("full", "trim")):
            sheet.case(f"cut {name} unit {base} {way}", keep="cut")
            sheet.case("sew cut", out_of=name)
    sheet.note("A mesh with colours.")
    for base, way in itertools.product(range(4), ("full", "trim")):
        sheet.case(f"cut coloured unit {base} {way}", keep="cut")
        sheet.case("sew cut", out_of="sewn")
    sheet.note("A made torus and a chain of tori.")
    for mesh in ("torus 7 4", "chain 3 4 5"):
        sheet.case(f"gen {mesh}", keep="made")
        for base, way in itertools.product((0, 5), ("full", "trim")):
            sheet.case(f"cut made unit {base} {way}", keep="cut")
            sheet.case("sew cut", out_of="made")


def copy_cases(sheet, tet, torus):
    sheet.note("Copy lines that are refused, as the first one and as the last one but one.")
    for spoiled in SPOILED_COPIES:
        sew_case(sheet, tet, tet.made(copies=[spoiled, *tet.copies[1:]]))
        sew_case(sheet, tet, tet.made(copies=[*tet.copies[:3], spoiled, tet.copies[4]]))
    sheet.note("Other comments, which are passed over.")
    for comment in OTHER_COMMENTS:
        sew_case(sheet, tet, tet.made(copies=[comment, *tet.copies[:2], comment, *tet.copies[2:], comment]))
        sew_case(sheet, tet, tet.made(copies=[comment, *tet.copies[1:]]))
    sheet.note("Copy lines with tabs, CR, other blanks and leading zeros.")
    for good in GOOD_COPIES:
        assert copies_of(tet.made(copies=[good, *tet.copies[1:]]), 5) == [0, 0, 1, 2, 3], good
        sew_case(sheet, tet, tet.made(copies=[good, *tet.copies[1:]]))
    sheet.case("sew M", {"M": TET_CUT.replace("\n", "\r\n")}, out_of="tet")
    sheet.note("Copy lines between the faces, before the keyword, among the vertices; the last one without its end.")
    mixed = [row for pair in zip(tet.copies, [*tet.rows, ""]) for row in pair]
    for text in (tet.made(rows=mixed, copies=[]), tet.made(head=tet.copies + tet.head, copies=[]),
                 tet.made(head=tet.head[:1] + tet.copies + tet.head[1:], copies=[]),
                 tet.made(lines=[row for pair in zip(tet.lines, tet.copies) for row in pair], copies=[]),
                 TET_CUT.removesuffix("\n"), TET_CUT + "\n\n# end\n"):
        assert copies_of(text, 5) == [0, 0, 1, 2, 3]
        sheet.case("sew M", {"M": text}, out_of="tet")
    sheet.note("Copy lines that are missing, too many, twice or in another order.")
    for opened in (tet, torus):
        for copies in ([], opened.copies[:-1], opened.copies[1:], opened.copies + opened.copies[-1:],
                       opened.copies + [f"# copy {opened.count} from 0"], opened.copies[::-1],
                       opened.copies[:2] + opened.copies[1:],
                       [opened.copies[1], opened.copies[0], *opened.copies[2:]], opened.copies + ["# copy"]):
            sew_case(sheet, opened, opened.made(copies=copies))


def with_origin(opened, copy, origin):
    copies = list(opened.copies)
    copies[copy] = f"# copy {copy} from {origin}"
    return opened.made(copies=copies)


def fault_cases(sheet, tet, torus):
    sheet.note("Origins with a gap, of other vertex lines, and faces with a vertex twice.")
    for opened in (tet, torus):
        for copy in sorted({0, 1, opened.count // 2, opened.count - 1}):
            for origin in (4294967295, opened.count, 0, 1, 2, 3):
                text = with_origin(opened, copy, origin)
                found = sewn(opened.keyword, opened.lines, opened.faces, copies_of(text, opened.count))
                if found.startswith("sew: "):
                    sheet.case("sew M", {"M": text}, 14, diag=found)
    sheet.note("Vertex lines that differ by a blank, or in one digit, where the origins are one.")
    for first in ("0  0 0", "0 0 0.0", "0 0 00", "0\t0 0", "0 0 0 1", "-0 0 0"):
        lines = [tet.lines[0], first, *tet.lines[2:]]
        sheet.case("sew M", {"M": tet.made(lines=lines)}, 14, diag="sew: line 1 0\n")
    sheet.case("sew M", {"M": tet.made(lines=[" 0 0 0 \t", "0 0 0# one", *tet.lines[2:]])}, out_of="tet")
    flat = ["0 0 0"] * 5
    sheet.note("With equal vertex lines: faces with a vertex at two corners.")
    for origins in ([0, 1, 0, 1, 2], [0, 1, 1, 2, 3], [0, 1, 2, 2, 3], [0, 0, 0, 0, 0], [0, 1, 2, 0, 1]):
        text = tet.made(lines=flat, copies=[f"# copy {i} from {v}" for i, v in enumerate(origins)])
        found = sewn("OFF", flat, tet.faces, origins)
        assert found.startswith("sew: face-repeat"), origins
        sheet.case("sew M", {"M": text}, 14, diag=found)


def order_cases(sheet, tet):
    sheet.note("Then M is no disc, or what is sewn is no surface.")
    rows = ["".join(f"# copy {i} from {i}\n" for i in range(count)) for count in range(10)]
    sheet.case("sew M", {"M": TET + rows[4]}, 1, "no border none\n")
    sheet.case("sew M", {"M": TORUS + rows[9]}, 1, "no border none\n")
    sheet.case("sew M", {"M": "OFF\n0 0 0\n"}, 1, "no border none\n")
    sheet.case("sew M", {"M": "OFF\n1 0 0\n0 0 0\n" + rows[1]}, 1, "no isolated 0\n")
    two = [[0, 1, 2], [3, 4, 5]]
    sheet.case("sew M", {"M": off(["0 0 0"] * 6, two) + rows[6]}, 1, "no apart 1\n")
    bow = [[0, 1, 2], [0, 3, 4]]
    sheet.case("sew M", {"M": off(["0 0 0"] * 5, bow) + rows[5]}, 1, "no pinched 0 0 1\n")
    fins = [[0, 1, 2], [0, 1, 3], [0, 1, 4]]
    sheet.case("sew M", {"M": off(["0 0 0"] * 5, fins) + rows[5]}, 1, "no crowded 0 1 0 1 2\n")
    one = [[0, 1, 2]]
    sheet.case("sew M", {"M": off(["0 0 0"] * 3, one) + rows[3]}, 4, diag="surface: border 0 1 0\n")
    text = tet.made(copies=[f"# copy {i} from {i}" for i in range(5)])
    sheet.case("sew M", {"M": text}, 4, diag="surface: border 0 2 0\n")
    square = [[0, 1, 2], [0, 2, 3]]
    text = off(["0 0 0"] * 4, square) + rows[4].replace("3 from 3", "3 from 1")
    sheet.case("sew M", {"M": text}, out=off(["0 0 0"] * 3, [[0, 1, 2], [0, 2, 1]]))
    sheet.note("The order: the text with its limits, the copy lines, the sewing, the disc, the surface.")
    text = "OFF\n3 1 3\n0 0 0\n0 0 0\n0 0 0\n3 0 1 3\n# copy\n"
    sheet.case("sew M", {"M": text}, 3, diag="mesh text: face-index 6 2\n")
    sheet.case("sew M", {"M": "OFF\n1000001 1 0\n# copy\n"}, 6, diag="limit: vertices\n")
    sheet.case("sew M", {"M": "OFF\n1 2000001 0\n# copy\n"}, 6, diag="limit: faces\n")
    sheet.case("sew M", {"M": TET + "# copy\n"}, 14, diag="sew: copy-form 11\n")
    sheet.case("sew M", {"M": TET + rows[4].replace("3 from 3", "3 from 9")}, 14, diag="sew: gap 3\n")
    sheet.case("sew M", {"M": TET + rows[4].replace("3 from 3", "3 from 0")}, 14, diag="sew: line 3 0\n")
    flat = off(["0 0 0"] * 4, TET_FACES)
    sheet.case("sew M", {"M": flat + rows[4].replace("3 from 3", "3 from 0")}, 14, diag="sew: face-repeat 1 0\n")
    for words in ("sew", "sew M M", "sew M unit", "Sew M"):
        sheet.case(words, {"M": TET}, 2, diag=USAGE, begins="")
    sheet.case("sew M", status=9, diag="read fault\n", begins="M")


def sewing_sheet():
    sheet = Sheet("sewing", "Sewing undoes cutting, and what is refused. What is due is the mesh before the cut, or "
                  "was computed over lists.")
    for name, (vertices, faces, text) in SURFACES.items():
        sheet.file(name, text)
    sheet.file("coloured", COLOURED)
    sheet.file("sewn", COLOURED_SEWN)
    tet, torus = Opened(TET_CUT), Opened(TORUS_CUT)
    round_trips(sheet)
    copy_cases(sheet, tet, torus)
    fault_cases(sheet, tet, torus)
    order_cases(sheet, tet)
    return sheet


# ---- which files are begun

BROKEN = "OFF\n4 4 6\n0 0 0\n"
OPEN = "OFF\n3 1 3\n0 0 0\n1 0 0\n0 1 0\n3 0 1 2\n"
FEW = "0 1 1\n"

# The words of each command that reads a mesh `M`: `L`, `W`, `W2`, `C` and `P` are files, `0` a vertex.
COMMANDS = [" ".join(words) for words in rows_on_meshes()]
CERTIFICATE = "SURFCERT 1 loops\ncounts 4 4 0\n"


def refused(sheet, words, files, status, diag, begins):
    """A case of a command, with the files that there are; those that aren't there can't be begun."""
    there = {name: text for name, text in files.items() if name in words.split()}
    sheet.case(words, there, status, diag=diag, begins=begins)


def begun_sheet():
    sheet = Sheet("begun", "A file is begun only where all tests before it passed: each test of each command refused "
                  "in turn.")
    sheet.file("tet", TET)
    for words in COMMANDS:
        sheet.note(f"{words}: the words, the read of M, its text, the surface.")
        shorter = words.removesuffix(words.split()[-1]).strip()
        for spoiled in (f"{words} 0 0", shorter, words.upper()):
            if spoiled not in COMMANDS:
                sheet.case(spoiled, status=2, diag=USAGE, begins="")
        refused(sheet, words, {}, 9, "read fault\n", "M")
        refused(sheet, words, {"M": BROKEN}, 3, "mesh text: early 7\n", "M")
        refused(sheet, words, {"M": "OFF\n1000001 1 0\n"}, 6, "limit: vertices\n", "M")
        if words not in ("sew M", "disc M"):
            refused(sheet, words, {"M": OPEN}, 4, "surface: border 0 1 0\n", "M")
    after_the_surface(sheet)
    limits(sheet)
    sheet.note("Words that name no file.")
    for words in ("gen torus 1000 1001", "gen torus 4294967295 4294967295", "try torus 1000 1001 0"):
        sheet.case(words, status=6, diag="limit: vertices\n", begins="")
    for words in ("gen chain 76922 4 4", "try chain 76922 4 4 0", "gen chain 4 6 41667"):
        sheet.case(words, status=6, diag="limit: faces\n", begins="")
    sheet.case("try chain 513 4 4 0", status=6, diag="limit: loops\n", begins="")
    sheet.case("try torus 100 201 0", status=6, diag="limit: basis-vertices\n", begins="")
    for words in ("gen torus 2 3", "gen torus 3 2", "gen chain 0 4 4", "gen chain 1 3 4", "gen torus 3",
                  "try torus 3 3", "gen sphere 3 3", "gen torus 4294967296 3", "try torus 3 3 x", ""):
        sheet.case(words, status=2, diag=USAGE, begins="")
    return sheet


def after_the_surface(sheet):
    for words in COMMANDS:
        names = words.replace("M", "tet")
        if " L" in words:
            sheet.note(f"{names}: the read of L, its text, the base.")
            refused(sheet, names, {}, 9, "read fault\n", "tet L")
            refused(sheet, names, {"L": FEW}, 5, "lengths: missing 0 2\n", "tet L")
            refused(sheet, names, {"L": "0 1 0\n"}, 5, "lengths: range 1\n", "tet L")
            if " 0" in words:
                far = names.replace(" 0", " 4")
                refused(sheet, far, {}, 9, "read fault\n", "tet L")
                refused(sheet, far, {"L": FEW}, 5, "lengths: missing 0 2\n", "tet L")
                refused(sheet, far, {"L": "SURFLEN 2\ndefault 1\n"}, 7, "base: 4 of 4\n", "tet L")
                refused(sheet, far.replace(" L", " unit"), {}, 7, "base: 4 of 4\n", "tet")
    good = {"L": "SURFLEN 2\ndefault 1\n", "W": "0 1 2 0\n", "V": "0\n"}
    sheet.note("Certificates, walks, evidence and vertices to cut through.")
    for lengths, before in (("L", "tet L"), ("unit", "tet")):
        refused(sheet, f"check tet {lengths} C", good, 9, "read fault\n", f"{before} C")
        refused(sheet, f"check tet {lengths} C", good | {"C": ""}, 8, "certificate text: header 0\n", f"{before} C")
        begun = good | {"C": CERTIFICATE}
        refused(sheet, f"check tet {lengths} C", begun, 8, "certificate text: early\n", f"{before} C")
        refused(sheet, f"shortest tet {lengths} W", {"L": good["L"]}, 9, "read fault\n", f"{before} W")
        refused(sheet, f"shortest tet {lengths} W", good | {"W": "0 1\n"}, 13, "walk 1: open\n", f"{before} W")
    refused(sheet, "cut tet L 0 through P", {"L": good["L"]}, 9, "read fault\n", "tet L P")
    refused(sheet, "cut tet unit 0 through P", {"P": "4\n"}, 15, "vertices: not-vertex 0\n", "tet P")
    for words, begins in (("class tet W", "tet W"), ("same tet W V", "tet W"), ("confirm tet W C", "tet W")):
        refused(sheet, words, {}, 9, "read fault\n", begins)
        refused(sheet, words, {"W": "0 4 0\n"}, 13, "walk 1: not-vertex 1\n", begins)
    refused(sheet, "same tet W V", {"W": "0\n"}, 9, "read fault\n", "tet W V")
    refused(sheet, "same tet W V", {"W": "0\n", "V": "0 1\n"}, 13, "walk 2: open\n", "tet W V")
    refused(sheet, "confirm tet W C", {"W": "0\n"}, 9, "read fault\n", "tet W C")
    refused(sheet, "confirm tet W C", {"W": "0\n", "C": "null x\n"}, 8, "certificate text: form 1\n", "tet W C")


def limits(sheet):
    sheet.note("A mesh of 1,026 loops: its limit comes before every other file.")
    sheet.case("gen chain 513 4 4", keep="loops")
    for words in COMMANDS:
        if words.split()[0] in ("loops", "basis", "cycle", "cut", "certify", "check", "class", "same", "shortest"):
            sheet.case(words.replace("M", "loops"), status=6, diag="limit: loops\n", begins="loops")
    sheet.case("dist loops L 0", status=9, diag="read fault\n", begins="loops L")
    sheet.case("confirm loops W C", status=9, diag="read fault\n", begins="loops W")
    sheet.note("More vertices than a basis certificate, a basis and a cover have.")
    sheet.case("gen torus 26 39", keep="torus")
    sheet.case("certify torus L", status=6, diag="limit: certificate-vertices\n", begins="torus")
    sheet.case("certify torus L 0", status=9, diag="read fault\n", begins="torus L")
    sheet.case("gen torus 100 201", keep="torus")
    for words in ("basis torus L", "cycle torus L"):
        sheet.case(words, status=6, diag="limit: basis-vertices\n", begins="torus")
        sheet.case(f"{words} large", status=9, diag="read fault\n", begins="torus L")
    sheet.case("loops torus L 0", status=9, diag="read fault\n", begins="torus L")
    sheet.case("gen chain 5 4 4", keep="torus")
    sheet.case("shortest torus L W", status=6, diag="limit: cover-loops\n", begins="torus")
    sheet.case("shortest torus L W large", status=9, diag="read fault\n", begins="torus L")
    sheet.case("gen chain 4 9 9", keep="torus")
    sheet.case("shortest torus L W", status=6, diag="limit: cover-nodes\n", begins="torus")
    sheet.case("shortest torus L W large", status=9, diag="read fault\n", begins="torus L")
    sheet.note("More loops, and more vertices with sets of loops, than a large cover has.")
    sheet.case("gen chain 9 4 4", keep="torus")
    sheet.case("shortest torus L W large", status=6, diag="limit: cover-loops\n", begins="torus")
    sheet.case("gen chain 8 4 9", keep="torus")
    sheet.case("shortest torus L W large", status=6, diag="limit: cover-nodes\n", begins="torus")
    sheet.case("class torus W", status=9, diag="read fault\n", begins="torus W")


# ---- all sheets


def sheets():
    return [lengths_sheet(), classes_sheet(), sewing_sheet(), begun_sheet()]


def main():
    made = {sheet.name: sheet.text() for sheet in sheets()}
    if sys.argv[1:] and sys.argv[1] in made:
        print(made[sys.argv[1]], end="")
    else:
        for name, text in made.items():
            print(f"{name}: {text.count(chr(10) + 'case ')} cases, {len(text.encode())} bytes")
    return 0


if __name__ == "__main__":
    raise SystemExit(main())
