#!/usr/bin/env python3
"""Makes the pictures in docs/pictures again, from what the built program prints.

    pictures.py [PROGRAM]      crates/surf/out/surf where none is named

Most are of meshes/eight.off, a surface of genus 2, with the lengths of its edges in space. One is of meshes/scan.ply, a
scan of it with holes. Those of small handles are of meshes/noisy.off and, where Debian's package libcgal-demo is
installed, of its cheese.off; what is left of these is drawn with wide gaps in place of hairs.
"""

import pathlib
import subprocess
import sys
import tarfile
import tempfile

from tools import TOP
from tools.users import drop_handles, show, unfold
from tools.users.meshfiles import Soup, mend, read_bytes, read_mesh
from tools.users.meshfiles.handles import Shape, Wanted, take_off
from tools.users.off import Mesh, read_off

PICTURES = TOP / "docs" / "pictures"
MESH = TOP / "meshes" / "eight.off"
SCAN = TOP / "meshes" / "scan.ply"
NOISY = TOP / "meshes" / "noisy.off"
CHEESE = pathlib.Path("/usr/share/doc/libcgal-dev/data.tar.gz"), "data/meshes/cheese.off"
WIDE = 0.02, 0.3  # a gap of a part of the diagonal, and of the way to what lies beside the cut
# A vertex on top, where the two circles touch, from which the loops are seen.
BASE = 353


def neck(mesh):
    """The walk round the neck between the two circles: the boundary of the faces on the one side."""
    middle = lambda face: sum(mesh.points[c][0] for c in face) / len(face)
    beside = {}
    for (u, v), faces in mesh.edges().items():
        if len({middle(mesh.faces[face]) < 1 for face in faces}) == 2:
            beside.setdefault(u, []).append(v)
            beside.setdefault(v, []).append(u)
    start = min(beside)
    walk, before, at = [start], None, start
    while True:
        at, before = next(w for w in beside[at] if w != before), at
        walk.append(at)
        if at == start:
            return walk


def cheese():
    """The mesh of genus 133 in Debian's package libcgal-demo, or None where that isn't installed."""
    archive, name = CHEESE
    if not archive.is_file():
        return None
    with tarfile.open(archive) as tar:
        return read_bytes(tar.extractfile(name).read(), name)


def draw_handles(name, soup: Soup, limit, program, view):
    """The cycles below so many millionths along which a mesh is cut, on the mesh, and what is left, with the faces that
    close it marked. `view` is how far it is turned and tilted."""
    shape = Shape(len(soup.points), [tuple(map(float, point)) for point in soup.points], soup.faces)
    before = Mesh(shape.points, list(shape.faces))
    with tempfile.TemporaryDirectory() as room:
        surf = drop_handles.Surf(program, pathlib.Path(room))
        surf.write("mesh", drop_handles.off_text(shape))
        known = drop_handles.known_lengths(surf.answer("lengths", "mesh", "6"), shape.edges())
        taken = take_off(shape, drop_handles.Finder(surf, known), Wanted(limit))
    cuts, closing = show.Answer(), show.Answer()
    cuts.walks = [[*cycle.vertices, cycle.vertices[0]] for cycle in taken.cycles]
    closing.faces = {number for number, origin in enumerate(shape.face_origins) if origin < 0}
    draw(f"{name}-cuts", before, cuts, *view)
    draw(f"{name}-off", Mesh(shape.parted_points(*WIDE), shape.faces), closing, *view)


def main():
    program = pathlib.Path(sys.argv[1] if len(sys.argv) > 1 else TOP / "crates/surf/out/surf").resolve()
    if not program.is_file():
        print(f"{program.name} isn't built: no picture is made")
        return 1
    mesh = read_off(MESH.read_text())
    with tempfile.TemporaryDirectory() as name:
        room = pathlib.Path(name)

        def answer(*words):
            return subprocess.run([program, *words], cwd=room, capture_output=True, text=True, check=True).stdout

        (room / "eight.len").write_text(answer("lengths", str(MESH), "6"))
        given = [str(MESH), "eight.len"]
        basis = answer("basis", *given)
        round_neck, round_hole = neck(mesh), [int(v) for v in basis.splitlines()[4].split()[2:]]
        for file, walk in {"neck": round_neck, "hole": round_hole}.items():
            (room / file).write_text(" ".join(map(str, walk)) + "\n")
        trimmed = answer("cut", *given, str(BASE), "trim")
        scan = mend(read_mesh(SCAN), holes="hub")
        (room / "scan.off").write_bytes(scan.off_text())
        (room / "scan.len").write_bytes(scan.lengths_text())
        scan_basis = answer("basis", "scan.off", "scan.len")
        texts = {
            "loops": answer("loops", *given, str(BASE)),
            "basis": basis,
            "cut-full": answer("cut", *given, str(BASE), "full"),
            "cut-trim": trimmed,
            "null": answer("class", str(MESH), "neck") + "cycle 0 " + " ".join(map(str, round_neck)) + "\n",
            "odd": answer("class", str(MESH), "hole") + "cycle 0 " + " ".join(map(str, round_hole)) + "\n",
        }
    for name, text in texts.items():
        draw(name, mesh, show.read_answer(text), 15, 55)
    draw("scan", *show.without_added(read_off(scan.off_text().decode()), show.read_answer(scan_basis)), 15, 55)
    opened = read_off(trimmed)
    flat = Mesh([(x, y, 0) for x, y in unfold.unfolded(opened)], opened.faces)
    draw("flat", flat, show.Answer(), 0, 90)
    draw_handles("noisy", read_mesh(NOISY), 1_000_000, program, (30, 50))
    if cheese() is None:
        print("the pictures of cheese.off aren't made, since libcgal-demo isn't here")
    else:
        draw_handles("cheese", cheese(), 37_500, program, (30, 40))
    return 0


def draw(name, mesh, answer, turn, tilt):
    PICTURES.mkdir(exist_ok=True)
    (PICTURES / f"{name}.png").write_bytes(show.draw(mesh, answer, show.View(mesh, turn, tilt, 960)))
    print(f"docs/pictures/{name}.png")


if __name__ == "__main__":
    sys.exit(main())
