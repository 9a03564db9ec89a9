#!/usr/bin/env python3
"""Compares surfaces that lost their small handles with brute force, and tries `drop_handles.py` by hand.

    check_handles.py [--program PATH] [--surfaces N] [--seed S]

On small surfaces of both kinds, of triangles or of squares, with lengths of many ties, handles are taken off up to a
bound. What is left has to be a closed surface by its definition, with each old face once; its characteristic has to
rise by 2 for each handle, and by 1 for each crosscap. The shortest closed walk that bounds nothing (mod 2) is found by
searches through all pairs of a vertex and a class: no such walk may be below the bound, and each cycle that was cut has
to be as short as that walk was at its turn.

Half of the handles of cheese.off, of genus 133, are taken off in at most 30 processor seconds. That is passed over with
a word where Debian's package libcgal-demo isn't installed.
"""

import heapq
import os
import pathlib
import random
import subprocess
import sys
import tempfile

from tools import TOP
from tools.house.pictures import cheese
from tools.oracles.check_bases import Plain, given_words, surface
from tools.oracles.check_borders import SHAPES, squares
from tools.oracles.surfaces import characteristic, fault_of, sides_of
from tools.oracles.worked_cases import bottle_faces, off
from tools.users import drop_handles
from tools.users.meshfiles.handles import Shape, Wanted, take_off
from tools.users.off import Mesh, read_off, write_off

MESHES = TOP / "meshes"
MOST_SECONDS = 30
CYLINDER = [[0, 1, 4, 3], [1, 2, 5, 4], [2, 0, 3, 5]]

# ---- against brute force


def shortest(shape, known):
    """The length of a shortest closed walk that bounds nothing, or None where each walk bounds."""
    plain = Plain(len(shape.vertex_origins), shape.faces, [units for _, _, units in shape.lengths(known)])
    signs, found = plain.signatures(), float("inf")
    for base in range(plain.count):
        found = min(found, shortest_at(plain, signs, base, found))
    return found if found < float("inf") else None


def shortest_at(plain, signs, base, limit):
    """The same of walks at a vertex that are shorter than the limit, which comes where there is none."""
    known, queue = set(), [(0, base, 0)]
    while queue:
        far, v, sign = heapq.heappop(queue)
        if far >= limit or (v == base and sign):
            return min(far, limit)
        if (v, sign) not in known:
            known.add((v, sign))
            for u, e in plain.at[v]:
                heapq.heappush(queue, (far + plain.lengths[e], u, sign ^ signs[e]))
    return limit


def some_surface(chance):
    """A small surface, of triangles or of squares, with a length for each edge."""
    if chance.random() < 0.7:
        count, faces = surface(chance)
    else:
        faces = squares(chance.choice(SHAPES), 3, 3)
        count = 1 + max(map(max, faces))
    most = chance.choice([1, 2, 3, 5, 1000])
    return count, faces, {pair: chance.randint(1, most) for pair in sorted(sides_of(faces))}


class Trial:
    """A surface with lengths, and how handles are to be taken off."""

    def __init__(self, program, folder, chance):
        self.surf = drop_handles.Surf(program, folder)
        self.count, self.faces, self.known = some_surface(chance)
        size = shortest(Shape(self.count, None, self.faces), self.known) or 1
        self.limit = chance.choice([size, size + 1, 2 * size, 5 * size, float("inf")])
        self.closing = chance.choice(["faces", "triangles"])

    def taken(self, most=None):
        shape = Shape(self.count, [(0.0, 0.0, 0.0)] * self.count, self.faces)
        finder = drop_handles.Finder(self.surf, self.known)
        return shape, take_off(shape, finder, Wanted(self.limit, most, self.closing))

    def fault(self):
        """What is wrong with what is left, or None."""
        shape, found = self.taken()
        left = shortest(shape, self.known)
        if left is not None and left < self.limit:
            return f"a walk of {left} is left"
        if (found.left and found.left.units) != left:
            return f"{found.left} was told, and {left} is left"
        for number, cycle in enumerate(found.cycles):
            if shortest(self.taken(number)[0], self.known) != cycle.units:
                return f"cycle {number} wasn't a shortest one at its turn"
        return self.fault_of_shape(shape, found)

    def fault_of_shape(self, shape, found):
        fault = fault_of(len(shape.vertex_origins), shape.faces)
        if fault:
            return fault
        old = [[shape.vertex_origins[c] for c in face] for face in shape.faces[: len(self.faces)]]
        if old != self.faces or shape.face_origins[: len(old)] != list(range(len(old))):
            return "an old face isn't the one that it was"
        if set(shape.face_origins[len(old) :]) - {-1}:
            return "a new face isn't told as new"
        rise = characteristic(len(shape.vertex_origins), shape.faces) - characteristic(self.count, self.faces)
        return None if rise == 2 * len(found.cycles) - found.one_sided else f"the characteristic rose by {rise}"

    def text(self):
        lengths = "".join(f"{u} {v} {n}\n" for (u, v), n in self.known.items())
        return f"bound {self.limit}, {self.closing}\n{off(self.count, self.faces)}{lengths}"


def is_right(trial):
    fault = trial.fault()
    if fault:
        print(f"{fault}, on\n{trial.text()}")
    return not fault


# ---- by hand


class ByHand:
    """Runs of the tool, with what each has to say and to write."""

    def __init__(self, program, folder):
        self.program, self.folder, self.wrong, self.count = program, folder, 0, 0

    def run(self, *words):
        command = [sys.executable, TOP / "tools", "drop_handles", *map(str, words), "--program", self.program]
        return subprocess.run(command, cwd=self.folder, capture_output=True, text=True)

    def expect(self, what, due, came):
        self.count += 1
        if due != came:
            self.wrong += 1
            print(f"{what}: due {due!r}, came {came!r}")

    def becomes(self, name, said, counts, *words):
        """A mesh of which what is left has these counts of vertices and faces."""
        done = self.run(self.folder / name, *words)
        self.expect(f"{name} {words}", said, done.stderr.splitlines()[:2])
        mesh = read_off(done.stdout)
        self.expect(f"the counts of {name}", counts, (len(mesh.points), len(mesh.faces)))
        self.expect(f"what is left of {name}", None, fault_of(len(mesh.points), mesh.faces))
        return mesh

    def refuses(self, line, *words):
        done = self.run(*words)
        due = 1, "", f"drop_handles: {words[0]}: {line}\n"
        self.expect(f"{words}", due, (done.returncode, done.stdout, done.stderr))

    def text_of(self, name):
        return (self.folder / name).read_text()


def small_surfaces(trial):
    """Surfaces on which it can be counted what is left: a cycle of k edges gives k copies and two faces, and a
    one-sided one k copies and a face of 2k corners."""
    all_of_it = ["--shorter-than", "inf", "--lengths", "unit"]
    one = ["1 handle taken off: 3", "genus 1 before, genus 0 now"]
    trial.becomes("torus33.off", one, (9 + 3, 18 + 2), *all_of_it)
    trial.becomes("torus33.off", one, (9 + 3 + 2, 18 + 6), *all_of_it, "--triangles")
    plane = ["1 crosscap taken off: 3", "crosscaps 1 before, genus 0 now"]
    mesh = trial.becomes("plane6.off", plane, (6 + 3, 10 + 1), *all_of_it)
    trial.expect("the face on a one-sided border", 6, len(mesh.faces[-1]))
    trial.becomes("plane6.off", plane, (6 + 3 + 1, 10 + 6), *all_of_it, "--triangles")
    trial.becomes("tet.off", ["0 handles taken off", "genus 0 before, genus 0 now"], (4, 4), *all_of_it)
    # Of four rows of five squares the shortest cycles are the rows' 4 edges, and cross them no cycle of 4 does.
    (trial.folder / "bottle.off").write_text(off(20, bottle_faces(4, 5)))
    done = trial.run(trial.folder / "bottle.off", *all_of_it)
    trial.expect("what becomes of the bottle", "crosscaps 2 before, genus 0 now", done.stderr.splitlines()[1])
    faces = squares("torus", 3, 3)
    (trial.folder / "squares.off").write_text(off(9, faces))
    trial.becomes("squares.off", one, (12, 11), *all_of_it)


def is_coherent(faces):
    """Whether the two faces of each edge run it in opposite ways."""
    steps = [step for face in faces for step in zip(face, face[1:] + face[:1])]
    return len(set(steps)) == len(steps)


def between_two_lengths(trial):
    """`eight` has cycles of 1.854371 and 1.88172 round its holes, so a bound between them leaves one."""
    said = ["1 handle taken off: 1.854371", "genus 2 before, genus 1 now"]
    files = ["--map", "map", "--cycles", "cycles", "--new-lengths", "len"]
    mesh = trial.becomes("eight.off", said, (754 + 10, 1512 + 2), "--shorter-than", "1.86", *files)
    old = read_off(trial.text_of("eight.off"))
    rows = [row.split() for row in trial.text_of("map").splitlines()]
    vertices = [int(n) for word, n in rows if word == "v"]
    trial.expect("the faces in the map", [str(n) for n in range(1512)] + ["-"] * 2, [n for w, n in rows if w == "f"])
    trial.expect("the vertices in the map", list(range(754)), vertices[:754])
    trial.expect("the old faces", old.faces, [[vertices[c] for c in face] for face in mesh.faces[:1512]])
    trial.expect("the cut", "cycle 1854371 68 73 75 76 78 155 154 149 148 70 68\n", trial.text_of("cycles"))
    trial.expect("the copies", sorted(map(int, "68 73 75 76 78 155 154 149 148 70".split())), sorted(vertices[754:]))
    trial.expect("the old ways round", True, is_coherent(mesh.faces))
    trial.expect("equal places", len(mesh.points), len(set(mesh.points)))
    known = {tuple(row[:2]): row[2] for row in map(str.split, trial.text_of("eight.len").splitlines())}
    rows = [list(map(int, row.split())) for row in trial.text_of("len").splitlines()]
    found = {tuple(map(str, sorted((vertices[u], vertices[v])))): str(n) for u, v, n in rows}
    trial.expect("the lengths", known, found)
    triangles = trial.run("eight.off", "--shorter-than", "1.9", "--triangles").stdout
    trial.expect("the ways round of triangles", True, is_coherent(read_off(triangles).faces))
    said = ["2 handles taken off: 1.854371 1.88172", "genus 2 before, genus 0 now"]
    trial.becomes("eight.off", said, (754 + 20, 1512 + 4), "--shorter-than", "1.9")
    trial.becomes("eight.off", ["1 handle taken off: 1.854371", "genus 2 before, genus 1 now"], (764, 1514),
                  "--shorter-than", "1.9", "--most", "1")


def certified(trial):
    """A certificate of what is left, which the independent checker takes."""
    done = trial.run("torus33.off", "--shorter-than", "3", "--lengths", "unit", "--new-lengths", "len",
                     "--certificate", "cert")
    (trial.folder / "out.off").write_text(done.stdout)
    check = [sys.executable, TOP / "tools", "plain_check", "check", "out.off", "len", "cert"]
    came = subprocess.run(check, cwd=trial.folder, capture_output=True, text=True).stdout
    trial.expect("the certificate", "valid basis 6\n", came)


def bad_input(trial):
    for bound in ("0", "-1", "nan", "x"):
        trial.refuses(f"--shorter-than is a number above 0, and not {bound}", "eight.off", f"--shorter-than={bound}")
    some = ["--shorter-than", "1"]
    trial.refuses("--most is a number from 0 on, and not -1", "eight.off", *some, "--most=-1")
    (trial.folder / "open.off").write_text(off(6, CYLINDER))
    cure = "to_off.py makes one closed surface, with --close where there are holes"
    trial.refuses(f"surface: border 0 1 0: {cure}", "open.off", *some)
    trial.refuses("No such file or directory", "nowhere.off", *some)
    trial.refuses("lengths: missing 0 1", "tet.off", *some, "--lengths", "short")
    trial.refuses("limit: certificate-vertices: simplify the mesh first", "three.off", *some, "--certificate", "cert")


def great(trial):
    """Half of the handles of a mesh of genus 133."""
    soup = cheese()
    if soup is None:
        print("no handles of cheese.off are taken off, since libcgal-demo isn't here")
        return
    (trial.folder / "cheese.off").write_text(write_off(Mesh([tuple(map(float, p)) for p in soup.points], soup.faces)))
    before = os.times()
    done = trial.run("cheese.off", "--shorter-than", "inf", "--most", "66")
    after = os.times()
    seconds = after.children_user + after.children_system - before.children_user - before.children_system
    trial.expect("seconds are enough", True, seconds < MOST_SECONDS)
    mesh = read_off(done.stdout)
    trial.expect("what is left of cheese.off", None, fault_of(len(mesh.points), mesh.faces))
    trial.expect("its characteristic", 2 - 2 * (133 - 66), characteristic(len(mesh.points), mesh.faces))
    trial.expect("its kind", "genus 133 before, genus 67 now", done.stderr.splitlines()[1])


def by_hand(program, folder):
    """How many of the runs by hand are wrong."""
    for path in (*MESHES.glob("*.off"), MESHES / "eight.len"):
        (folder / path.name).write_bytes(path.read_bytes())
    (folder / "short").write_text("0 2 5\n")
    trial = ByHand(program, folder)
    for runs in (small_surfaces, between_two_lengths, certified, bad_input, great):
        runs(trial)
    print(f"{trial.count} outcomes of drop_handles.py by hand, {trial.wrong} wrong")
    return trial.wrong


def main():
    given = given_words("check_handles", 500)
    if given is None:
        return 1
    with tempfile.TemporaryDirectory() as name:
        folder, chance = pathlib.Path(name), random.Random(given.seed)
        wrong = by_hand(given.program, folder)
        trials = (Trial(given.program, folder, chance) for _ in range(given.surfaces))
        right = sum(map(is_right, trials))
    print(f"handles of {given.surfaces} surfaces: {given.surfaces - right} otherwise than by brute force")
    return 1 if wrong or right < given.surfaces else 0


if __name__ == "__main__":
    sys.exit(main())
