#!/usr/bin/env python3
"""Shows what `surf` printed, on the mesh that it printed it of.

    show.py MESH [ANSWER] --html out.html    a page that shows it, to be turned in any browser
    show.py MESH [ANSWER] --png out.png      a picture, made here, without any viewer
    show.py MESH [ANSWER] --svg out.svg      the same as lines and polygons
    show.py MESH [ANSWER] --obj out.obj      the mesh with a polyline for each walk
    show.py MESH [ANSWER] --vect out.vect    the walks alone, for Geomview
    show.py MESH [ANSWER] --coff out.off     the mesh with colours on the faces along the walks or in the evidence

ANSWER is the output of `loops`, `basis`, `cycle`, `shortest`, `class` or `same` on MESH, or several of these one
after another, or a text that `cut` wrote of MESH, whose border is drawn as the cut. Without it the mesh alone is
shown. Faces that close holes and the hub, which `to_off.py` adds, are left out, with all that runs over the hub.
Pictures look along a line that --turn (degrees about the upright axis) and --tilt (degrees from above the horizon)
give. The page lists walks with their lengths in units of 10^-D, where --decimals D tells how many decimals lengths
were measured with.
"""

import argparse
import math
import pathlib
import struct
import sys
import zlib

from tools.users import viewfiles
from tools.users.off import Mesh, is_off, read_off

PALETTE = [(214, 39, 40), (31, 119, 180), (44, 160, 44), (255, 127, 14), (148, 103, 189), (140, 86, 75)]
PALETTE += [(227, 119, 194), (23, 190, 207), (188, 189, 34), (80, 80, 80)]
PLAIN = (222, 222, 214)
MARKED = (255, 209, 102)


class Answer:
    """Walks to be drawn, each a list of vertices, with their lengths; single edges, all of one colour, and whether
    these are the seams of a cut; and faces to be coloured."""

    def __init__(self, edges=(), is_cut=False):
        self.walks, self.units, self.edges, self.faces, self.is_cut = [], [], list(edges), set(), is_cut

    def lines(self):
        """Each walk and each single edge, with its colour."""
        first = 1 if self.edges else 0
        walks = [(walk, PALETTE[(first + k) % len(PALETTE)]) for k, walk in enumerate(self.walks) if len(walk) > 1]
        return [([u, v], PALETTE[0]) for u, v in self.edges] + walks


def cut_answer(text):
    """The border of an opened mesh, as edges between the vertices that its copies are of."""
    opened = read_off(text)
    border = [edge for edge, faces in opened.edges().items() if len(faces) == 1]
    return Answer(sorted({tuple(sorted(opened.origins[c] for c in edge)) for edge in border}), is_cut=True)


def read_answer(text):
    if is_off(text):
        return cut_answer(text)
    answer = Answer()
    for row in (line.split() for line in text.splitlines()):
        if row[:1] in (["loop"], ["cycle"], ["shortest"]):
            answer.walks.append([int(v) for v in row[2:]])
            answer.units.append(int(row[1]))
        elif row[:1] in (["null"], ["same"]):
            answer.faces |= {int(f) for f in row[2:]}
        elif row[:1] in (["odd"], ["different"]):
            ends = [int(v) for v in row[2:]]
            answer.edges += zip(ends[::2], ends[1::2])
    return answer


def without_added(mesh, answer):
    """The mesh and the answer without what was added to close holes."""
    face, vertex = mesh.added
    shown = Answer((edge for edge in answer.edges if max(edge) < vertex), answer.is_cut)
    shown.faces = {number for number in answer.faces if number < face}
    for walk, units in zip(answer.walks, answer.units):
        if max(walk) < vertex:
            shown.walks.append(walk)
            shown.units.append(units)
    over = len(answer.walks) - len(shown.walks)
    if over:
        print(f"{over} of {len(answer.walks)} walks run over the hub and are left out", file=sys.stderr)
    return Mesh(mesh.points[:vertex], mesh.faces[:face]), shown


def marked_faces(mesh, answer):
    """The faces in the evidence, and those along the lines, each with its colour."""
    found = {face: MARKED for face in answer.faces}
    edges = mesh.edges()
    for walk, colour in answer.lines():
        for u, v in zip(walk, walk[1:]):
            for face in edges.get((min(u, v), max(u, v)), []):
                found.setdefault(face, colour)
    return found


# ---- files for viewers


def obj_text(mesh, answer):
    rows = ["v " + " ".join(f"{x:g}" for x in point) for point in mesh.points]
    rows += ["f " + " ".join(str(c + 1) for c in face) for face in mesh.faces]
    rows += ["l " + " ".join(str(v + 1) for v in walk) for walk, _ in answer.lines()]
    return "\n".join(rows) + "\n"


def vect_text(mesh, answer):
    walks = [walk for walk, _ in answer.lines()]
    rows = ["VECT", f"{len(walks)} {sum(map(len, walks))} {len(walks)}"]
    rows += [" ".join(str(len(walk)) for walk in walks), " ".join("1" for _ in walks)]
    rows += [" ".join(f"{x:g}" for x in mesh.points[v]) for walk in walks for v in walk]
    rows += [" ".join(f"{c / 255:.3f}" for c in colour) + " 1" for _, colour in answer.lines()]
    return "\n".join(rows) + "\n"


def coff_text(mesh, answer):
    marked = marked_faces(mesh, answer)
    rows = ["OFF", f"{len(mesh.points)} {len(mesh.faces)} {len(mesh.edges())}"]
    rows += [" ".join(f"{x:g}" for x in point) for point in mesh.points]
    for number, face in enumerate(mesh.faces):
        rows.append(" ".join(str(n) for n in [len(face), *face, *marked.get(number, PLAIN)]))
    return "\n".join(rows) + "\n"


def html_text(title, mesh, answer, decimals, seen_from):
    """A page. It has the whole mesh, since a cut isn't a disc without what was added, and draws the rest of it."""
    first, _ = mesh.added
    is_added = [number >= first for number in range(len(mesh.faces))] if first < len(mesh.faces) else []
    drawn = viewfiles.Mesh(mesh.points, mesh.faces, is_added)
    _, seen = without_added(mesh, answer)
    lines = [viewfiles.walk(walk, units, decimals) for walk, units in zip(seen.walks, seen.units)]
    seams = answer.edges if answer.is_cut else None
    if answer.edges and not answer.is_cut:
        lines.insert(0, viewfiles.edge_set(seen.edges))
    turn, tilt = seen_from
    scene = viewfiles.Scene(title, drawn, lines, seams, sorted(seen.faces), turn=turn, tilt=tilt)
    return viewfiles.html(scene)


# ---- pictures


class View:
    """The mesh as it is seen: each point's place in the picture and how near it is."""

    def __init__(self, mesh, turn, tilt, size):
        a, b = math.radians(turn), math.radians(tilt)
        seen = []
        for x, y, z in mesh.points:
            right, back = x * math.cos(a) - y * math.sin(a), x * math.sin(a) + y * math.cos(a)
            up = z * math.cos(b) + back * math.sin(b)
            seen.append((right, up, z * math.sin(b) - back * math.cos(b)))
        low = [min(p[k] for p in seen) for k in range(3)]
        high = [max(p[k] for p in seen) for k in range(3)]
        span = max(high[0] - low[0], high[1] - low[1]) or 1.0
        self.size, self.scale = size, 0.92 * size / span
        middle = [(low[k] + high[k]) / 2 for k in range(2)]
        self.points = [
            (size / 2 + (p[0] - middle[0]) * self.scale, size / 2 - (p[1] - middle[1]) * self.scale, p[2] * self.scale)
            for p in seen
        ]

    def light(self, face):
        """How bright a face is, whichever way it is turned."""
        p, q, r = (self.points[c] for c in face[:3])
        u, v = [q[k] - p[k] for k in range(3)], [r[k] - p[k] for k in range(3)]
        n = (u[1] * v[2] - u[2] * v[1], u[2] * v[0] - u[0] * v[2], u[0] * v[1] - u[1] * v[0])
        size = math.sqrt(sum(c * c for c in n)) or 1.0
        return 0.45 + 0.55 * abs(0.25 * n[0] - 0.35 * n[1] + 0.9 * n[2]) / size


def shade(colour, light):
    return tuple(min(255, int(c * min(light, 1.0))) for c in colour)


def face_colour(answer, number):
    return MARKED if number in answer.faces else PLAIN


def svg_text(mesh, answer, view):
    """Faces and steps of walks, the farthest first."""
    shapes = []
    for number, face in enumerate(mesh.faces):
        corners = [view.points[c] for c in face]
        fill = "#%02x%02x%02x" % shade(face_colour(answer, number), view.light(face))
        places = " ".join(f"{x:.1f},{y:.1f}" for x, y, _ in corners)
        shape = f'<polygon points="{places}" fill="{fill}" stroke="#888" stroke-width="0.3"/>'
        shapes.append((sum(p[2] for p in corners) / len(corners), shape))
    for walk, paint in answer.lines():
        colour = "#%02x%02x%02x" % paint
        for u, v in zip(walk, walk[1:]):
            (a, b, near), (c, d, far) = view.points[u], view.points[v]
            shape = f'<line x1="{a:.1f}" y1="{b:.1f}" x2="{c:.1f}" y2="{d:.1f}" stroke="{colour}" stroke-width="3"/>'
            shapes.append(((near + far) / 2 + 0.03 * view.size, shape))
    body = "\n".join(shape for _, shape in sorted(shapes, key=lambda pair: pair[0]))
    size = view.size
    head = f'<svg xmlns="http://www.w3.org/2000/svg" width="{size}" height="{size}" viewBox="0 0 {size} {size}">'
    return f"{head}\n<rect width='100%' height='100%' fill='white'/>\n{body}\n</svg>\n"


class Canvas:
    """Pixels, each with how near it is."""

    def __init__(self, size):
        self.size = size
        self.pixels = bytearray(b"\xff" * (3 * size * size))
        self.near = [-math.inf] * (size * size)

    def dot(self, x, y, near, colour):
        if 0 <= x < self.size and 0 <= y < self.size and near > self.near[y * self.size + x]:
            at = y * self.size + x
            self.near[at] = near
            self.pixels[3 * at : 3 * at + 3] = bytes(colour)

    def triangle(self, p, q, r, colour):
        area = (q[0] - p[0]) * (r[1] - p[1]) - (q[1] - p[1]) * (r[0] - p[0])
        if abs(area) < 1e-9:
            return
        for y in range(max(0, int(min(p[1], q[1], r[1]))), min(self.size - 1, int(max(p[1], q[1], r[1])) + 1) + 1):
            for x in range(max(0, int(min(p[0], q[0], r[0]))), min(self.size - 1, int(max(p[0], q[0], r[0])) + 1) + 1):
                a = ((q[0] - x) * (r[1] - y) - (q[1] - y) * (r[0] - x)) / area
                b = ((r[0] - x) * (p[1] - y) - (r[1] - y) * (p[0] - x)) / area
                if a >= -1e-6 and b >= -1e-6 and a + b <= 1 + 1e-6:
                    self.dot(x, y, a * p[2] + b * q[2] + (1 - a - b) * r[2], colour)

    def line(self, p, q, colour, radius):
        steps = int(max(abs(p[0] - q[0]), abs(p[1] - q[1]))) + 1
        reach = range(-radius, radius + 1)
        disc = [(i, j) for i in reach for j in reach if i * i + j * j <= radius * radius]
        for step in range(steps + 1):
            t = step / steps
            x, y, near = (p[k] + t * (q[k] - p[k]) for k in range(3))
            for i, j in disc:
                self.dot(int(x) + i, int(y) + j, near + 0.012 * self.size, colour)

    def halved(self):
        """The pixels at half the size, each the mean of four."""
        half, wide, out = self.size // 2, 3 * self.size, bytearray()
        for y in range(half):
            upper = self.pixels[2 * y * wide : (2 * y + 1) * wide]
            lower = self.pixels[(2 * y + 1) * wide : (2 * y + 2) * wide]
            for x in range(half):
                for k in range(3):
                    at = 6 * x + k
                    out.append((upper[at] + upper[at + 3] + lower[at] + lower[at + 3]) // 4)
        return half, bytes(out)


def png_bytes(size, pixels):
    def chunk(kind, data):
        return struct.pack(">I", len(data)) + kind + data + struct.pack(">I", zlib.crc32(kind + data))

    rows = b"".join(b"\0" + pixels[3 * size * y : 3 * size * (y + 1)] for y in range(size))
    head = struct.pack(">IIBBBBB", size, size, 8, 2, 0, 0, 0)
    return b"\x89PNG\r\n\x1a\n" + chunk(b"IHDR", head) + chunk(b"IDAT", zlib.compress(rows, 9)) + chunk(b"IEND", b"")


def draw(mesh, answer, view):
    canvas = Canvas(view.size)
    for number, face in enumerate(mesh.faces):
        colour = shade(face_colour(answer, number), view.light(face))
        for q, r in zip(face[1:], face[2:]):
            canvas.triangle(view.points[face[0]], view.points[q], view.points[r], colour)
    for u, v in mesh.edges():
        canvas.line(view.points[u], view.points[v], (150, 150, 146), 0)
    for walk, colour in answer.lines():
        for u, v in zip(walk, walk[1:]):
            canvas.line(view.points[u], view.points[v], colour, max(2, view.size // 300))
    return png_bytes(*canvas.halved())


def main():
    parser = argparse.ArgumentParser(description=__doc__, formatter_class=argparse.RawDescriptionHelpFormatter)
    parser.add_argument("mesh", type=pathlib.Path)
    parser.add_argument("answer", type=pathlib.Path, nargs="?", help="a file, or - for standard input")
    for name in ("html", "obj", "vect", "coff", "svg", "png"):
        parser.add_argument(f"--{name}", type=pathlib.Path, metavar="FILE")
    parser.add_argument("--turn", type=float, default=30.0)
    parser.add_argument("--tilt", type=float, default=40.0)
    parser.add_argument("--size", type=int, default=600)
    parser.add_argument("--decimals", type=int, default=0, metavar="D")
    words = parser.parse_args()
    mesh = read_off(words.mesh.read_text())
    answer = Answer()
    if words.answer:
        answer = read_answer(sys.stdin.read() if str(words.answer) == "-" else words.answer.read_text())
    if words.html:
        shown = words.mesh.stem, mesh, answer, words.decimals
        words.html.write_text(html_text(*shown, (words.turn, words.tilt)), encoding="utf-8")
    mesh, answer = without_added(mesh, answer)
    for name, text_of in (("obj", obj_text), ("vect", vect_text), ("coff", coff_text)):
        if getattr(words, name):
            getattr(words, name).write_text(text_of(mesh, answer))
    if words.svg:
        words.svg.write_text(svg_text(mesh, answer, View(mesh, words.turn, words.tilt, words.size)))
    if words.png:
        words.png.write_bytes(draw(mesh, answer, View(mesh, words.turn, words.tilt, 2 * words.size)))


if __name__ == "__main__":
    main()
