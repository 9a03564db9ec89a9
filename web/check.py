#!/usr/bin/env python3
"""Tries the page and what it stands on: the modules in JavaScript and in C, surf.wasm, and surf.html in a browser; and
files that show an answer, in a browser.

    check.py                            builds both by make_page.py, where its tools are here
    check.py --built FOLDER             takes surf.wasm and surf.html in this folder
    check.py --program PATH             the program to compare with, crates/surf/out/surf without it
    check.py --pictures FOLDER          also writes pictures of the page, and of files that show an answer

Each part is passed over with a word where what it needs isn't here: a compiler of C, node, `rt` and `wasm-opt`, the
program, Chromium, WebKit with its driver. None of these belongs to the set-up but rt.
"""

import argparse
import itertools
import json
import math
import os
import pathlib
import random
import shutil
import subprocess
import sys
import tempfile

from tools import TOP
from tools.oracles import check_c, check_handles
from tools.oracles.check_bases import surface
from tools.users import drop_handles
from tools.users.meshfiles import Soup, mend
from tools.users.meshfiles.handles import Shape, Wanted, take_off
from tools.users.meshfiles.writing import mesh_text, points_text
from web import browser, bundle, chrome, shown, webkit

WEB = TOP / "web"


def said(words, **how) -> tuple[int, str]:
    """The status of a command, and all that it wrote."""
    how |= {"stdout": subprocess.PIPE, "stderr": subprocess.STDOUT, "text": True}
    done = subprocess.run([str(word) for word in words], **how)
    return done.returncode, done.stdout


def files_in_c() -> int:
    """The number of tests in C that fail."""
    compiler, wrong = shutil.which(os.environ.get("CC", "cc")), 0
    if not compiler:
        print("web: the heap isn't tried, since a compiler of C isn't here")
        return 0
    with tempfile.TemporaryDirectory() as room:
        for name in ("test_heap", "test_wide"):
            program = pathlib.Path(room, name)
            status, text = said([compiler, "-O2", "-Wall", "-Wextra", "-Werror", "-o", program, WEB / f"{name}.c"])
            if not status:
                status, text = said([program])
            print(text, end="")
            wrong += status != 0
    return wrong


def has_node() -> bool:
    """Whether a node is here that runs tests by itself, which it does from version 18 on."""
    if not shutil.which("node"):
        return False
    return int(said(["node", "--version"])[1].lstrip("v").split(".")[0]) >= 18


def modules() -> int:
    """The number of runs of node that fail: the tests of the page's modules, and a look at each bundle of them."""
    status, text = said(["node", "--test", "--test-reporter=tap", WEB / "test_page.mjs"])
    if status:
        print(text)
    passed = next((line.split()[-1] for line in text.splitlines() if line.startswith("# pass")), "no")
    print(f"web: {passed} tests of the page's modules passed")
    wrong = int(status != 0)
    with tempfile.TemporaryDirectory() as room:
        for names in (bundle.VIEWER + bundle.FINDER, bundle.VIEWER + bundle.PICTURE, bundle.WORKER):
            path = pathlib.Path(room, "bundle.mjs")
            path.write_text(bundle.joined(names))
            status, text = said(["node", "--check", path])
            if status:
                print(text)
                wrong += 1
    return wrong


def built(given) -> pathlib.Path | None:
    """The folder with surf.wasm and surf.html, or nothing where they can't be made here."""
    if given.built:
        return given.built.resolve()
    lack = next((name for name in ("rt", "wasm-opt") if not shutil.which(name)), None)
    if lack:
        print(f"web: surf.wasm and the page in a browser are not tried, since {lack} isn't here")
        return None
    folder = given.room / "built"
    status, text = said([sys.executable, "-m", "web.make_page", "--to", folder], cwd=TOP)
    if status:
        print(text)
        raise SystemExit(1)
    print(f"web: {text.splitlines()[-1]}")
    return folder


def all_calls():
    """Words with their files: those that are tried from C, and each command on each sample mesh."""
    yield from check_c.calls()
    walk, vertices = b"0 1 2 0\n", b"0 3 5\n"
    for path in sorted((TOP / "meshes").glob("*.off")):
        mesh, lengths = path.read_bytes(), path.with_suffix(".len")
        for words in ("info 1", "disc 1", "sew 1", "lengths 1 3", "lengths 1 6", "certify 1 unit"):
            yield words, [mesh]
        measured = [("unit", [mesh])] + ([("2", [mesh, lengths.read_bytes()])] if lengths.exists() else [])
        for name, files in measured:
            yield from ((f"{word} 1 {name}", files) for word in ("basis", "cycle"))
            for base in (0, 5):
                yield from ((f"{word} 1 {name} {base}", files) for word in ("dist", "loops", "certify"))
                yield from ((f"cut 1 {name} {base} {kind}", files) for kind in ("full", "trim"))
            yield f"shortest 1 {name} 3", [mesh, files[1] if len(files) > 1 else b"", walk]
            yield f"cut 1 {name} 0 through 3", [mesh, files[1] if len(files) > 1 else b"", vertices]
        yield "class 1 2", [mesh, walk]
        yield "same 1 2 3", [mesh, walk, b"0\n"]


def answers_of_module(wasm, calls, room) -> list[tuple[int, bytes]]:
    """The statuses and the texts of the module, called by node as the page calls it."""
    listed = []
    for number, (words, files) in enumerate(calls):
        names = [f"{number}.file{place}" for place in range(len(files))]
        for name, content in zip(names, files):
            (room / name).write_bytes(content)
        listed.append({"words": words, "files": names})
    (room / "calls.json").write_text(json.dumps(listed))
    subprocess.run(["node", WEB / "calls.mjs", wasm, room], check=True)
    return [(int((room / f"{k}.status").read_text()), (room / f"{k}.text").read_bytes()) for k in range(len(calls))]


def chained(calls, answers):
    """Words with their files that need an answer: certificates, evidence and cuts, each of them also damaged."""
    for (words, files), (status, text) in zip(calls, answers):
        first, damaged = words.partition(" ")[0], text.replace(b" 1", b" 2", 1)
        for found in (text, damaged) if status == 0 else ():
            if first == "certify":
                yield f"check 1 {words.split()[2]} 3", [files[0], files[1] if len(files) > 1 else b"", found]
            elif first == "class":
                yield "confirm 1 2 3", [files[0], files[1], found]
            elif first == "cut":
                yield from ((f"{word} 1", [found]) for word in ("sew", "disc", "info"))


def compared(calls, answers, program, room) -> int:
    """The number of calls whose status or bytes aren't the program's."""
    answer_of, folder, wrong = check_c.answer_of, room / "of-program", 0
    folder.mkdir(exist_ok=True)
    for (words, files), found in zip(calls, answers):
        due = answer_of(program, folder, words, files)
        if due != found:
            wrong += 1
            print(f"web: {words!r}: due {due[0]} {due[1][:80]!r}, said {found[0]} {found[1][:80]!r}")
    return wrong


def taken_by_tool(program, folder, number, chance):
    """A small surface in files, how the page's modules are to try it, and what the tool in Python makes of it."""
    count, faces, known = check_handles.some_surface(chance)
    limit = chance.choice([2, 3, 5, 10, 30, 100, 1000, math.inf])
    shape = Shape(count, [(float(v), 0.0, 0.0) for v in range(count)], faces)
    names = f"{number}.off", f"{number}.len"
    (folder / names[0]).write_bytes(drop_handles.off_text(shape))
    (folder / names[1]).write_text("".join(f"{u} {v} {n}\n" for (u, v), n in known.items()))
    trial = {"mesh": names[0], "lengths": names[1], "limit": None if limit == math.inf else limit}
    finder = drop_handles.Finder(drop_handles.Surf(program, folder), known)
    return trial, (shape, known, take_off(shape, finder, Wanted(limit)))


def handles_against_tool(wasm, program, room) -> int:
    """The number of small surfaces that the page's modules leave otherwise without handles than the tool in Python."""
    chance, folder = random.Random(3), room / "handles"
    folder.mkdir()
    trials, due = zip(*(taken_by_tool(program, folder, number, chance) for number in range(200)))
    (folder / "trials.json").write_text(json.dumps(trials))
    subprocess.run(["node", WEB / "surgery.mjs", wasm, folder], check=True)
    answers = json.loads((folder / "answers.json").read_text())
    wrong = sum(not is_same_surgery(found, *wanted) for found, wanted in zip(answers, due, strict=True))
    print(f"web: handles of {len(due)} surfaces, {wrong} taken off otherwise than by the tool")
    return wrong


def is_same_surgery(found, shape, known, taken) -> bool:
    """Whether the page's modules leave what the tool leaves."""
    lengths = "".join(f"{u} {v} {units}\n" for u, v, units in shape.lengths(known))
    points = [x for point in shape.parted_points() for x in point]
    same = found["taken"] == [cycle.units for cycle in taken.cycles] and found["oneSided"] == taken.one_sided
    same = same and found["left"] == (taken.left and taken.left.units) and found["lengths"] == lengths
    same = same and found["faces"] == shape.faces and found["origins"] == shape.vertex_origins
    return same and max(abs(x - y) for x, y in zip(points, found["points"], strict=True)) < 1e-12


def some_faulty_mesh(chance):
    """The points and faces of a small mesh with holes, often of two parts."""
    count, faces = surface(chance)
    points = [(v, v * v % 97, v % 7) for v in range(count)]
    again = []
    if chance.random() < 0.5:  # the same elsewhere, with fewer faces or with more
        points += [(x + 1000, y, z) for x, y, z in points]
        again = [[v + count for v in face] for face in faces if chance.random() < 0.9]
    return points, chance.sample(faces, len(faces) - min(len(faces) // 2, chance.choice([0, 1, 2, 3]))) + again


def parted(points, faces):
    """The same where each face has vertices of its own."""
    ends = list(itertools.accumulate(map(len, faces)))
    return [points[v] for face in faces for v in face], [list(range(b - len(f), b)) for f, b in zip(faces, ends)]


def mended_by_tool(folder, number, chance):
    """A small mesh with faults in a file, how the page is to mend it, and what the tool in Python makes of it."""
    points, faces = some_faulty_mesh(chance)
    is_parted, holes = chance.random() < 0.4, chance.choice(["close", "hub", "hub"])
    if is_parted:
        points, faces = parted(points, faces)
    points, starts = [tuple(map(float, point)) for point in points], [0, *itertools.accumulate(map(len, faces))]
    soup = Soup(points, [v for face in faces for v in face], starts)
    (folder / f"{number}.off").write_bytes(mesh_text(points_text(points), soup.corners, starts, 0))
    ways = (["merge"] if is_parted else []) + ["split", "largest", holes]
    trial = {"mesh": f"{number}.off", "ways": ways, "decimals": chance.choice([0, 3])}
    return trial, mend(soup, tolerance=0.0 if is_parted else None, holes=holes)


def mending_against_tool(wasm, room) -> int:
    """The number of small meshes that the page's modules mend otherwise than the tool in Python. Where more than two
    faces meet at an edge, or two edges have the same ends, the tool does more than the page."""
    chance, folder = random.Random(4), room / "mending"
    folder.mkdir()
    made = [mended_by_tool(folder, number, chance) for number in range(300)]
    made = [(trial, mended) for trial, mended in made if not mended.report.crowded_edges + mended.report.halved_edges]
    trials, due = zip(*made)
    (folder / "trials.json").write_text(json.dumps(trials))
    subprocess.run(["node", WEB / "mending.mjs", wasm, folder], check=True)
    answers = json.loads((folder / "answers.json").read_text())
    wrong = sum(not is_same_mending(*pair) for pair in zip(answers, trials, due, strict=True))
    hubs = sum(bool(mended.hub_edges) for mended in due)
    print(f"web: {len(due)} meshes mended, {hubs} by a hub, {wrong} otherwise than by the tool")
    return wrong + (len(due) < 200 or hubs < 40)


def is_same_mending(found, trial, mended) -> bool:
    """Whether the page's modules made what the tool made, where vertices that were parted may have other numbers."""
    names = dict(zip(found["corners"], mended.corners))
    if [names[c] for c in found["corners"]] != mended.corners or len(set(names.values())) != len(names):
        return False
    of_tool = range(len(names))
    order = sorted(of_tool, key=names.get)
    points = [tuple(found["points"][3 * v : 3 * v + 3]) for v in order]
    origins = [found["names"][v] if found["names"][v] < 2**32 - 1 else -1 for v in order]
    same = found["starts"] == list(mended.starts) and points == [tuple(map(float, p)) for p in mended.points]
    same = same and origins == list(mended.vertex_origins)
    if not mended.hub_edges:
        return same and found["lengths"] is None
    rows = [list(map(int, row.split())) for row in found["lengths"].splitlines()]
    named = sorted([*sorted((names[u], names[v])), units] for u, v, units in rows)
    due = [list(map(int, row.split())) for row in mended.lengths_text(trial["decimals"]).decode().splitlines()]
    return same and named == due and found["added"] == [mended.first_added_vertex, mended.first_added_face]


def without_memory(wasm, room) -> int:
    """1 where want of memory isn't told as such, or the call behind it isn't answered."""
    (room / "tet").write_bytes((TOP / "meshes/tet.off").read_bytes())
    calls = [{"words": "gen torus 400 400", "files": []}, {"words": "info 1", "files": ["tet"]}]
    (room / "calls.json").write_text(json.dumps(calls))
    # Two hundred pages are 13 MB; the first answer alone has 6.
    status, text = said(["node", "--wasm-max-mem-pages=200", WEB / "calls.mjs", wasm, room])
    found = [(room / f"{k}.status").read_text() for k in (0, 1)] if not status else text
    if found == ["11", "0"] and (room / "0.text").read_bytes() == b"memory\n":
        return 0
    print(f"web: want of memory: {found}")
    return 1


def module_against_program(wasm, program, room) -> int:
    """The number of calls in which surf.wasm and the program differ."""
    folder, wrong, count = room / "calls", 0, 0
    folder.mkdir()
    calls = list(all_calls())
    answers = answers_of_module(wasm, calls, folder)
    wrong += compared(calls, answers, program, room)
    more = list(chained(calls, answers))
    wrong += compared(more, answers_of_module(wasm, more, folder), program, room)
    count = len(calls) + len(more)
    statuses = sorted({status for status, _ in answers})
    print(f"web: {count} calls of surf.wasm, {wrong} not as the program's; their statuses: {statuses}")
    return wrong


def in_chromium(folder, given) -> int:
    """The number of checks of the page in Chromium that fail."""
    if not chrome.found():
        print("web: the page isn't tried in Chromium, since that isn't here")
        return 0
    room = given.room / "chromium"
    room.mkdir()
    return browser.tried(folder / "surf.html", given.program, room, given.pictures)


def files_shown(given) -> int:
    """The number of checks of files that show an answer that fail."""
    wrong = 0
    for name, is_here, tried in (("Chromium", chrome.found(), shown.tried_in_chromium),
                                 ("WebKit", webkit.found(), shown.tried_in_webkit)):
        if is_here:
            room = given.room / f"files-{name}"
            room.mkdir()
            wrong += tried(room)
            if name == "Chromium" and given.pictures and given.program.is_file():
                shown.pictures_of(given.program, room, given.pictures)
        else:
            print(f"web: files that show an answer aren't tried in {name}, since that isn't here")
    return wrong


def in_webkit(folder, given) -> int:
    """The number of checks of the page in WebKit that fail."""
    if not webkit.found():
        print("web: the page isn't tried in WebKit, since WebKitWebDriver or Xvfb isn't here")
        return 0
    room = given.room / "webkit"
    room.mkdir()
    return webkit.tried(folder / "surf.html", given.program, room)


def main():
    parser = argparse.ArgumentParser(description=__doc__, formatter_class=argparse.RawDescriptionHelpFormatter)
    parser.add_argument("--built", type=pathlib.Path)
    parser.add_argument("--program", type=pathlib.Path, default=TOP / "crates/surf/out/surf")
    parser.add_argument("--pictures", type=pathlib.Path)
    given = parser.parse_args()
    given.program = given.program.resolve()
    wrong = files_in_c()
    if not has_node():
        print("web: the page's modules and surf.wasm are not tried by node, since node 18 isn't here")
    else:
        wrong += modules()
    with tempfile.TemporaryDirectory() as room:
        given.room = pathlib.Path(room)
        wrong += files_shown(given)
        folder = built(given)
        if folder and not given.program.is_file():
            print(f"web: surf.wasm isn't compared, since {given.program} isn't here")
            given.program = None
        if folder and has_node():
            wrong += without_memory(folder / "surf.wasm", given.room)
            if given.program:
                wrong += module_against_program(folder / "surf.wasm", given.program, given.room)
                wrong += handles_against_tool(folder / "surf.wasm", given.program, given.room)
            wrong += mending_against_tool(folder / "surf.wasm", given.room)
        if folder:
            wrong += in_chromium(folder, given)
            wrong += in_webkit(folder, given)
    return 1 if wrong else 0


if __name__ == "__main__":
    sys.exit(main())
