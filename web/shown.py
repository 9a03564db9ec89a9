"""Files that show an answer, as tools/users/viewfiles makes them, opened from disk in a browser and used as a user
does.

What they show is known by how it is made: a ring of squares with the walks round it and through it.
"""

from __future__ import annotations

import base64
import itertools
import math
import pathlib
import subprocess
import sys
import zlib

from tools import TOP
from tools.users import viewfiles
from tools.users.viewfiles import Scene, Values, edge_set, walk
from web import chrome, webkit
from web.browser import Checks

ROUNDS, STEPS = 24, 12
RED, BLUE = (193, 18, 31), (18, 87, 168)  # of the first two rows in the list, by a light theme
DARK, LIGHT = (33, 47, 133), (230, 220, 153)  # of the least and the greatest value, in nine tenths of the light
HOSTILE = "<script>document.title = 'owned'</script><img src=x onerror=\"document.title = 'owned'\">'\"{{SCENE}}&amp;"
READY = "!/^Unpacking/.test(document.getElementById('said').textContent)"

# Has the picture painted anew, and tells of each colour how many pixels are like it and where one of the middle ones
# is; and the sum of all pixels, by which two pictures are compared.
PAINTED = """new Promise((done) => {
  const canvas = document.getElementById('canvas'), colours = %s;
  const press = (key) => canvas.dispatchEvent(new KeyboardEvent('keydown', { key }));
  press('+');
  press('-');
  requestAnimationFrame(() => {
    const { width, height } = canvas, copy = Object.assign(document.createElement('canvas'), { width, height });
    const context = copy.getContext('2d');
    context.drawImage(canvas, 0, 0);
    const { data } = context.getImageData(0, 0, width, height), places = colours.map(() => []);
    let sum = 0;
    for (let k = 0; k < data.length; k += 4) {
      sum = (31 * sum + data[k] + 256 * data[k + 1] + 65536 * data[k + 2]) %% 1000000007;
      colours.forEach((colour, n) => {
        if (colour.every((x, c) => Math.abs(x - data[k + c]) <= 12)) places[n].push(k / 4);
      });
    }
    const box = canvas.getBoundingClientRect(), middle = (list) => list[list.length >> 1];
    const across = (at) => box.x + (at %% width) * box.width / width;
    const place = (at) => [across(at), box.y + Math.floor(at / width) * box.height / height];
    done({ sum, counts: places.map((list) => list.length), at: places.map((list) => place(middle(list) || 0)) });
  });
})"""


def at(i: int, j: int) -> int:
    return (i % ROUNDS) * STEPS + j % STEPS


def mesh() -> viewfiles.Mesh:
    """A ring that lies flat, so that it is seen from above."""
    points = []
    for i, j in itertools.product(range(ROUNDS), range(STEPS)):
        a, b = 2 * math.pi * i / ROUNDS, 2 * math.pi * j / STEPS
        far = 2 + 0.8 * math.cos(b)
        points.append((far * math.cos(a), far * math.sin(a), 0.8 * math.sin(b)))
    corners = itertools.product(range(ROUNDS), range(STEPS))
    return viewfiles.Mesh(points, [(at(i, j), at(i + 1, j), at(i + 1, j + 1), at(i, j + 1)) for i, j in corners])


def around(j: int) -> list[int]:
    return [at(i, j) for i in range(ROUNDS + 1)]


def through(i: int) -> list[int]:
    return [at(i, j) for j in range(STEPS + 1)]


def steps(vertices: list[int]) -> list[tuple[int, int]]:
    return list(zip(vertices, vertices[1:]))


def scenes() -> dict[str, Scene]:
    """A file of each kind of answer."""
    ring, walks = mesh(), [walk(through(6), 1234, 3), walk(around(3), 45678, 3)]
    several = [walk(through(i), 100 + i, 2) for i in range(ROUNDS)]
    return {
        "bare": Scene("bare", ring),
        "basis": Scene("basis", ring, walks),
        "cut": Scene("cut", ring, seams=steps(through(0)) + steps(around(3))),
        "faces": Scene("faces", ring, marked=range(40)),
        "edges": Scene("edges", ring, [edge_set(steps(around(3)))]),
        "values": Scene("values", ring, values=Values([math.copysign(2.8, p[0]) for p in ring.points], label="east")),
        "face values": Scene("face values", ring, values=Values([f < 99 for f in range(len(ring.faces))], True)),
        "several": Scene("several", ring, several),
        "hostile": Scene(HOSTILE, ring, walks, values=Values([p[2] for p in ring.points], label=HOSTILE)),
    }


class Picture:
    """A file in a browser: one that goes to an address and runs scripts."""

    def __init__(self, page, room: pathlib.Path, mark: str = ""):
        self.page, self.room, self.mark, self.count = page, room, mark, 0

    def open(self, scene: Scene):
        self.count += 1
        path = self.room / f"picture{self.count}{self.mark.strip('#')}.html"
        path.write_text(viewfiles.html(scene), encoding="utf-8")
        self.page.go(f"file://{path}{self.mark}")
        self.page.until(READY)

    def text(self, name: str) -> str:
        return self.page.js(f"document.getElementById({name!r}).textContent")

    def painted(self, *colours) -> dict:
        return self.page.js(PAINTED % [list(colour) for colour in colours])

    def key(self, key: str):
        self.page.js(f"void document.getElementById('canvas').dispatchEvent(new KeyboardEvent('keydown', {{key: "
                     f"{key!r}}}))")

    def point(self, x: float, y: float):
        """Moves the mouse to a place of the picture, and waits until it was heard."""
        event = f"new PointerEvent('pointermove', {{pointerType: 'mouse', clientX: {x}, clientY: {y}}})"
        self.page.js(f"void document.getElementById('canvas').dispatchEvent({event})")
        self.page.js("new Promise(done => requestAnimationFrame(() => requestAnimationFrame(done)))")

    def put(self, name: str, value: str):
        script = f"it.value = {value!r}; it.dispatchEvent(new Event('input'))"
        self.page.js(f"(it => {{ {script} }})(document.getElementById({name!r}))")

    def rows(self) -> list[str]:
        return self.page.js("[...document.querySelectorAll('#list li')].filter(it => !it.hidden).map(it => "
                            "it.textContent)")


def each_kind(picture: Picture, checks: Checks):
    """What each kind of answer shows, in colours and in words."""
    found, words, facts = {}, {}, {}
    for name, scene in scenes().items():
        picture.open(scene)
        found[name] = picture.painted(RED, BLUE, DARK, LIGHT)
        words[name], facts[name] = picture.text("said"), picture.text("facts")
    red, blue = ({name: it["counts"][k] for name, it in found.items()} for k in (0, 1))
    checks.expect("the mesh alone has no colours of walks", red["bare"] == blue["bare"] == 0, found["bare"])
    checks.expect("both walks are drawn", min(red["basis"], blue["basis"]) > 100, found["basis"])
    checks.expect("a cut is drawn", red["cut"] > 300, found["cut"])
    checks.expect("edges are drawn", red["edges"] > 100, found["edges"])
    checks.expect("marked faces are drawn", found["faces"]["sum"] != found["bare"]["sum"])
    for name in ("values", "face values"):
        counts = found[name]["counts"][2:]
        checks.expect(f"{name} are drawn", min(counts) > 100 and not any(found["bare"]["counts"][2:]), counts)
    checks.expect("the counts of the ring", facts["bare"] == "vertices288edges576faces288characteristic0",
                  facts["bare"])
    checks.expect("the total length", facts["basis"].endswith("total length46.912"), facts["basis"])
    checks.expect("a basis in words", words["basis"] == "2 closed walks", words["basis"])
    checks.expect("a cut in words", words["cut"] == f"A disc, cut along {STEPS + ROUNDS} edges", words["cut"])
    checks.expect("faces in words", words["faces"] == "A walk that bounds 40 faces", words["faces"])
    checks.expect("edges in words", words["edges"] == "A walk that bounds no set of faces", words["edges"])


def cut_and_values(picture: Picture, checks: Checks):
    """The disc in the plane, and the scale."""
    picture.open(scenes()["cut"])
    picture.page.until("!document.getElementById('flat').hidden")
    count = """(() => { const it = document.getElementById('flat-canvas'), { width, height } = it;
        const { data } = it.getContext('2d').getImageData(0, 0, width, height); let count = 0;
        for (let k = 0; k < data.length; k += 4) if (data[k] > 180 && data[k + 1] < 40) count++; return count; })()"""
    picture.page.until(f"{count} > 200", 10)
    picture.open(scenes()["values"])
    scale = [picture.text(f"scale-{part}") for part in ("label", "low", "high")]
    checks.expect("the scale", scale == ["east", "-2.8", "2.8"], scale)
    hidden = picture.page.js("document.getElementById('scale').hidden")
    picture.open(scenes()["basis"])
    checks.expect("a scale for values alone", not hidden and picture.page.js("document.getElementById('scale').hidden"))


def used(picture: Picture, checks: Checks):
    """The list, the keys, the mouse."""
    picture.open(scenes()["basis"])
    before = picture.painted(RED, BLUE)
    due = ["1. length 1.234, 12 edges", "2. length 45.678, 24 edges"]
    checks.expect("the list", picture.rows() == due, picture.rows())
    picture.page.js("void document.querySelector('#list button').click()")
    after = picture.painted(RED, BLUE)
    checks.expect("the list picks out", after["counts"][0] > before["counts"][0] and not after["counts"][1], after)
    walked = picture.text("walk")
    checks.expect("vertices are told", walked == "Vertices: " + " ".join(map(str, through(6))), walked)
    picture.page.js("void document.querySelector('#list button').click()")
    checks.expect("and puts back", picture.painted(RED, BLUE)["sum"] == before["sum"])
    picture.point(*before["at"][1])
    checks.expect("a walk that is pointed at is named", picture.text("name") == due[1], picture.text("name"))
    picture.point(1270, 10)
    checks.expect("beside it no name is shown", picture.page.js("document.getElementById('name').hidden"))
    picture.key("ArrowLeft")
    checks.expect("an arrow turns", picture.painted(RED)["sum"] != before["sum"])
    picture.key("0")
    checks.expect("0 turns back", picture.painted(RED)["sum"] == before["sum"])


def chosen(picture: Picture, checks: Checks):
    """The first so many walks, and those between two lengths."""
    picture.open(scenes()["several"])
    checks.expect("all walks", len(picture.rows()) == ROUNDS and picture.text("shown") == "All of 24 lines")
    bare, before = picture.painted(RED), None
    picture.put("first", "2")
    before = picture.painted(RED)
    checks.expect("the first two", [row[:2] for row in picture.rows()] == ["1.", "2."], picture.rows())
    checks.expect("the others aren't drawn", before["sum"] != bare["sum"])
    picture.put("first", "24")
    picture.put("from", "1.05")
    picture.put("to", "1.09")
    checks.expect("walks between two lengths", [row[:2] for row in picture.rows()] == ["6.", "7.", "8.", "9.", "10"])
    checks.expect("their number", picture.text("shown") == "5 of 24 lines", picture.text("shown"))


def hostile(picture: Picture, checks: Checks):
    """Texts of a scene are no markup."""
    picture.open(scenes()["hostile"])
    title = picture.page.js("document.title")
    checks.expect("a title of markup", title == HOSTILE and picture.text("scale-label") == HOSTILE, title)
    count = picture.page.js("document.querySelectorAll('img, script:not([id]):not([type=module])').length")
    checks.expect("no elements out of texts", count == 0, count)


def framed(page, room: pathlib.Path, checks: Checks):
    """The frame of a notebook: it draws, and reaches nothing of the page that it stands in."""
    frame = viewfiles.frame(viewfiles.html(scenes()["basis"]), png(), HOSTILE, 300)
    probe = "try { parent.document.title = 'owned' } catch { parent.postMessage('kept out', '*') }"
    alone = viewfiles.frame(f"<script>{probe}</script>", png(), "a", 300)
    hears = "<script>onmessage = ({ data }) => { document.body.className = data.replace(' ', '-') }</script>"
    path = room / "notebook.html"
    path.write_text(f"<!doctype html><meta charset=utf-8><title>notebook</title>{hears}<body>{frame}{alone}")
    page.go(f"file://{path}")
    page.until("document.body.className === 'kept-out'", 20)
    checks.expect("a frame doesn't reach the notebook", page.js("document.title") == "notebook")
    checks.expect("the still picture", page.js("document.images[0].naturalWidth") == 1)
    count = page.js("document.querySelectorAll('*').length")
    checks.expect("no elements out of the frame's title", count == page.js("document.querySelectorAll("
                  "'html, head, meta, title, body, script, div, img, iframe').length"), count)


def png() -> bytes:
    """A picture of one white pixel."""

    def chunk(kind: bytes, data: bytes) -> bytes:
        return len(data).to_bytes(4, "big") + kind + data + zlib.crc32(kind + data).to_bytes(4, "big")

    head = bytes([0, 0, 0, 1, 0, 0, 0, 1, 8, 0, 0, 0, 0])
    parts = [chunk(b"IHDR", head), chunk(b"IDAT", zlib.compress(b"\0\xff")), chunk(b"IEND", b"")]
    return base64.b64decode("iVBORw0KGgo=") + b"".join(parts)


def nothing_leaves(page: chrome.Chrome, checks: Checks):
    """What Chromium was asked for, and what was thrown, since it was started."""
    asked = [it["params"]["request"]["url"] for it in page.events if it.get("method") == "Network.requestWillBeSent"]
    strange = [url for url in asked if not url.startswith(("file:", "blob:", "data:", "about:"))]
    checks.expect("nothing is asked of another machine", bool(asked) and not strange, strange)
    checks.expect("a file lets nothing out", page.js("fetch('https://example.org/').then(() => 1, () => 0)") == 0)
    thrown = [it["params"] for it in page.events if it.get("method") == "Runtime.exceptionThrown"]
    checks.expect("nothing is thrown", not thrown, thrown)


def tried(page, room: pathlib.Path, checks: Checks):
    """All of it in one browser, with WebGL and without."""
    for mark in ("", "#plain"):
        picture = Picture(page, room, mark)
        for part in (each_kind, cut_and_values, used, chosen, hostile):
            part(picture, checks)


def pictures_of(program: pathlib.Path, room: pathlib.Path, folder: pathlib.Path):
    """Pictures of files that tools/users/show.py makes of the program's answers on eight.off."""
    eight = TOP / "meshes/eight.off"

    def answer(name: str, *words) -> pathlib.Path:
        path = room / name
        path.write_bytes(subprocess.run([program, *map(str, words)], check=True, capture_output=True).stdout)
        return path

    lengths, page = answer("eight.len", "lengths", eight, 6), chrome.Chrome(1000, 600)
    try:
        for name, words in {"python": ("basis", ), "python-cut": ("cut", 353, "trim")}.items():
            found, path = answer(name, words[0], eight, lengths, *words[1:]), room / f"{name}.html"
            how = ["--html", path, "--decimals", "6"]
            subprocess.run([sys.executable, TOP / "tools/users/show.py", eight, found, *how], check=True)
            page.go(f"file://{path}")
            page.until(READY)
            page.js("new Promise(done => setTimeout(() => requestAnimationFrame(() => requestAnimationFrame(done)), "
                    "500))")
            (folder / f"{name}.png").write_bytes(page.picture())
    finally:
        page.close()


def tried_in_chromium(room: pathlib.Path) -> int:
    """The number of checks that fail."""
    checks, page = Checks(), chrome.Chrome()
    try:
        tried(page, room, checks)
        picture = Picture(page, room)
        picture.open(scenes()["basis"])
        nothing_leaves(page, checks)
        framed(page, room, checks)
    finally:
        page.close()
    print(f"web: {checks.count} checks of files that show answers in Chromium, {checks.wrong} wrong")
    return checks.wrong


def tried_in_webkit(room: pathlib.Path) -> int:
    """The number of checks that fail."""
    checks, page = Checks(), webkit.WebKit()
    try:
        tried(page, room, checks)
        framed(page, room, checks)
        print(f"web: {checks.count} checks of files that show answers in WebKit {page.version}, {checks.wrong} wrong")
    finally:
        page.close()
    return checks.wrong
