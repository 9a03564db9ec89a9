#!/usr/bin/env python3
"""Takes small handles off a closed surface, shortest first, until no shorter cycle is left that doesn't separate it.

    drop_handles.py MESH --shorter-than X > out.off
    drop_handles.py MESH --shorter-than X --triangles --new-lengths out.len > out.off

While a shortest nonseparating cycle is shorter than X, the surface is cut along it, and each border is closed by one
face. `surf` finds the cycles, and says at the end that none shorter is left. Vertices on a cut get a copy that stands a
hair apart, so that a program which merges equal points doesn't close the cut again. Old edges keep the lengths that
they had before the first cut, and the edges of triangles are so long that no walk takes a short cut over them:
--new-lengths writes all. What was done is told on standard error.
"""

import argparse
import decimal
import os
import pathlib
import shutil
import subprocess
import sys
import tempfile

from tools import TOP
from tools.users import usage
from tools.users.meshfiles import MeshFileError, read_mesh
from tools.users.meshfiles.handles import Cycle, Shape, Wanted, take_off
from tools.users.meshfiles.soup import starts_of
from tools.users.meshfiles.writing import exact_points_text, map_text, mesh_text

CURES = {4: "to_off.py makes one closed surface, with --close where there are holes", 6: "simplify the mesh first"}


class Unfit(ValueError):
    """Why there is no answer, in one line."""


class Surf:
    """The program, over files in a folder. Unfit where it refuses."""

    def __init__(self, program, room):
        self.program, self.room = program, room

    def answer(self, *words):
        ran = subprocess.run([self.program, *words], cwd=self.room, capture_output=True)
        if ran.returncode == 0:
            return ran.stdout.decode()
        if ran.returncode < 0:
            raise Unfit(f"surf was ended by signal {-ran.returncode}")
        line, cure = ran.stderr.decode().strip(), CURES.get(ran.returncode)
        raise Unfit(f"{line}: {cure}" if cure else line)

    def kind(self, shape):
        """The characteristic, and the genus or the crosscaps in words."""
        self.write("mesh", off_text(shape))
        rows = dict(row.split() for row in self.answer("info", "mesh").splitlines())
        name = "genus" if "genus" in rows else "crosscaps"
        return int(rows["characteristic"]), f"{name} {rows[name]}"

    def write(self, name, content):
        (self.room / name).write_bytes(content)

    def cycle(self, mesh, lengths):
        """A shortest cycle that doesn't separate, or None."""
        return next(iter(self.cycles("cycle", mesh, lengths)), None)

    def cycles(self, word, mesh, lengths):
        rows = (row.split() for row in self.answer(word, mesh, lengths, "large").splitlines())
        return [Cycle(int(row[1]), list(map(int, row[2:-1]))) for row in rows if row[0] == "cycle"]


class Finder:
    """Finds the shortest cycles of a shape by the lengths that its edges had at the beginning."""

    def __init__(self, surf, known):
        self.surf, self.known, self.written = surf, known, None

    def files(self, shape):
        """The names of its mesh and its lengths for `surf`. A shape that was cut has more vertices than before."""
        if self.written != len(shape.vertex_origins):
            self.surf.write("mesh", off_text(shape))
            self.surf.write("lengths", self.lengths_text(shape))
            self.written = len(shape.vertex_origins)
        return "mesh", "lengths"

    def lengths_text(self, shape):
        return "".join("%d %d %d\n" % row for row in shape.lengths(self.known)).encode()

    def basis(self, shape):
        return self.surf.cycles("basis", *self.files(shape))

    def cycle(self, shape):
        return self.surf.cycle(*self.files(shape))


def off_text(shape, points=None, comment=""):
    """The mesh, with other points where there are any."""
    lines = exact_points_text(points or shape.points)
    corners = [corner for face in shape.faces for corner in face]
    return mesh_text(lines, corners, starts_of(map(len, shape.faces)), len(corners) // 2, comment)


def known_lengths(text, edges):
    """The length of each edge by a length file that `surf` takes."""
    rows = [row for row in (line.split("#", 1)[0].split() for line in text.splitlines()) if row]
    others = [row for row in rows if row[0] == "default"]
    found = dict.fromkeys(edges, int(others[0][1])) if others else {}
    for u, v, units in (map(int, row) for row in rows if row[0].isdigit()):
        found[min(u, v), max(u, v)] = units
    return found


def program_of(path):
    """The program: the one that is named, that of the release or the repository, or one on the path."""
    near = [TOP / "bin/surf", TOP / "crates/surf/out/surf"]
    if path or any(found.is_file() for found in near):
        return (path or next(found for found in near if found.is_file())).resolve()
    for name in ("surfbasis", "surf"):  # another program may have the second name
        try:
            usage.version_of(pathlib.Path(shutil.which(name) or ""))
            return pathlib.Path(shutil.which(name))
        except (OSError, ValueError, subprocess.CalledProcessError):
            continue
    raise Unfit("surf isn't on the path: --program names it")


def lengths_at_first(surf, words, shape):
    """The length of each edge of the mesh in the file `mesh`: measured, by a length file, or 1."""
    if words.lengths == "unit":
        return dict.fromkeys(shape.edges(), 1)
    if not words.lengths:
        return known_lengths(surf.answer("lengths", "mesh", str(words.decimals)), shape.edges())
    text = pathlib.Path(words.lengths).read_text()
    surf.write("lengths", text.encode())
    surf.answer("dist", "mesh", "lengths", "0")  # which refuses a faulty length file
    return known_lengths(text, shape.edges())


class Report:
    """What was done, in words: what was taken off, the kinds before and after, and the shortest cycle that is left by
    the places that are written, if that was measured. Lengths are in units of 10^-decimals."""

    def __init__(self, words, taken, kinds, anew):
        self.words, self.taken, self.kinds, self.anew = words, taken, kinds, anew

    def shown(self, units):
        text = f"{decimal.Decimal(units).scaleb(0 if self.words.lengths else -self.words.decimals):f}"
        return text.rstrip("0").rstrip(".") if "." in text else text

    def lines(self):
        one, two = self.taken.one_sided, len(self.taken.cycles) - self.taken.one_sided
        counts = [f"{two} handle{'' if two == 1 else 's'}"] if two or not one else []
        counts += [f"{one} crosscap{'' if one == 1 else 's'}"] if one else []
        lengths = "".join(f" {self.shown(cycle.units)}" for cycle in self.taken.cycles)
        yield f"{' and '.join(counts)} taken off{':' if lengths else ''}{lengths}"
        yield f"{self.kinds[0]} before, {self.kinds[1]} now"
        yield self.promise()
        if self.anew and self.anew.units < limit_of(self.words) <= self.taken.left.units:
            yield f"measured anew it has {self.shown(self.anew.units)}, since copies stand a hair apart"

    def promise(self):
        left, bound = self.taken.left, self.words.shorter_than
        if left is None:
            return "every cycle separates what is left"
        told = f"the shortest cycle left that doesn't separate has {self.shown(left.units)}"
        is_short = left.units < limit_of(self.words)
        return f"warning: {told}: --most left it" if is_short else f"{told}: none is shorter than {bound}"


def limit_of(words):
    """The bound in units."""
    try:
        bound = decimal.Decimal(words.shorter_than)
    except decimal.InvalidOperation:
        bound = decimal.Decimal(0)
    if bound.is_nan() or bound <= 0:
        raise Unfit(f"--shorter-than is a number above 0, and not {words.shorter_than}")
    return bound if words.lengths else bound.scaleb(words.decimals)


def run(words):
    limit = limit_of(words)
    if words.most is not None and words.most < 0:
        raise Unfit(f"--most is a number from 0 on, and not {words.most}")
    if not words.lengths and not 0 <= words.decimals <= 9:
        raise Unfit(f"--decimals is from 0 to 9, and not {words.decimals}")
    soup = read_mesh(words.mesh)
    shape = Shape(len(soup.points), [tuple(map(float, point)) for point in soup.points], soup.faces)
    with tempfile.TemporaryDirectory() as room:
        surf = Surf(program_of(words.program), pathlib.Path(room))
        before = surf.kind(shape)
        finder = Finder(surf, lengths_at_first(surf, words, shape))
        taken = take_off(shape, finder, Wanted(limit, words.most, "triangles" if words.triangles else "faces"))
        after, anew = surf.kind(shape), measured_anew(surf, words, shape)
        if after[0] - before[0] != 2 * len(taken.cycles) - taken.one_sided:
            raise Unfit("the characteristic didn't rise as it has to: please report it")
        write(shape, surf, finder, taken, words)
    for line in Report(words, taken, (before[1], after[1]), anew).lines():
        print(line, file=sys.stderr)


def measured_anew(surf, words, shape):
    """A shortest cycle that doesn't separate, if edges are measured by the places that are written and no triangles
    lead over borders."""
    if words.lengths or words.triangles or len(shape.faces) == len(set(shape.face_origins)):
        return None
    surf.write("written", off_text(shape, shape.parted_points()))
    surf.write("measured", surf.answer("lengths", "written", str(words.decimals)).encode())
    return surf.cycle("written", "measured")


def write(shape, surf, finder, taken, words):
    """Writes the files beside the mesh, and then the mesh."""
    if words.new_lengths:
        words.new_lengths.write_bytes(finder.lengths_text(shape))
    if words.certificate:
        words.certificate.write_text(surf.answer("certify", *finder.files(shape)))
    if words.cycles:
        rows = (f"cycle {units} {' '.join(map(str, [*walk, walk[0]]))}\n" for units, walk in taken.cycles)
        words.cycles.write_text("".join(rows))
    if words.map:
        words.map.write_bytes(map_text(shape.vertex_origins, shape.face_origins))
    sys.stdout.buffer.write(off_text(shape, shape.parted_points(), comment_of(shape)))
    sys.stdout.flush()


def comment_of(shape):
    """What was added, for whoever reads the mesh."""
    faces = shape.face_origins.index(-1) if -1 in shape.face_origins else len(shape.faces)
    old = len(set(shape.vertex_origins) - {-1})
    return f"handles taken off: faces from {faces} and vertices from {old} on are new; copies stand a hair apart"


def parsed(arguments):
    parser = argparse.ArgumentParser(description=__doc__, formatter_class=argparse.RawDescriptionHelpFormatter)
    parser.add_argument("mesh", type=pathlib.Path, metavar="MESH", help="one closed surface, as to_off.py writes it")
    parser.add_argument("--shorter-than", required=True, metavar="X", help="in the mesh's unit, or that of L")
    parser.add_argument("--most", type=int, metavar="N", help="no more handles than these, the shortest")
    parser.add_argument("--triangles", action="store_true", help="close borders by triangles round a new vertex")
    lengths = parser.add_mutually_exclusive_group()
    lengths.add_argument("--decimals", type=int, default=6, metavar="K", help="measure edges in units of 10^-K")
    lengths.add_argument("--lengths", metavar="L", help="a length file, or `unit`, by which each edge counts 1")
    parser.add_argument("--new-lengths", type=pathlib.Path, metavar="FILE", help="the lengths of the new mesh")
    parser.add_argument("--cycles", type=pathlib.Path, metavar="FILE", help="where it was cut, for show.py and MESH")
    parser.add_argument("--map", type=pathlib.Path, metavar="FILE", help="which vertex and face of MESH each one is")
    parser.add_argument("--certificate", type=pathlib.Path, metavar="FILE", help="of a basis of the new mesh")
    parser.add_argument("--program", type=pathlib.Path, metavar="PATH", help="surf, where it isn't on the path")
    return parser.parse_args(arguments)


def main():
    words = parsed(None)
    try:
        run(words)
    except KeyboardInterrupt:
        return 130
    except BrokenPipeError:  # whoever reads the mesh has gone
        os.dup2(os.open(os.devnull, os.O_WRONLY), sys.stdout.fileno())
        return 1
    except (Unfit, MeshFileError, OSError) as fault:
        told = fault.strerror if isinstance(fault, OSError) and fault.strerror else fault
        print(f"drop_handles: {words.mesh}: {told}", file=sys.stderr)
        return 1
    except MemoryError:
        print(f"drop_handles: {words.mesh}: there is no memory for it", file=sys.stderr)
        return 1
    return 0


if __name__ == "__main__":
    sys.exit(main())
