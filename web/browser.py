"""What a user does with surf.html, done in a headless Chromium, and what the page says to it compared.

What the page saves is compared with the program byte by byte, where a program is given.
"""

import math
import pathlib
import re
import struct
import subprocess
import time

from tools import TOP
from tools.users.meshfiles import mend, read_mesh
from web.chrome import Chrome

MESHES = TOP / "meshes"
ENDS = "/^(Done|No answer|Stopped|Click|Vertex|The page)|chosen/"


def text_of(name: str) -> str:
    return f"document.getElementById('{name}').textContent"


class Checks:
    """Counts what holds, and says what doesn't."""

    def __init__(self):
        self.count = self.wrong = 0

    def expect(self, what: str, holds: bool, found: object = ""):
        self.count += 1
        if not holds:
            self.wrong += 1
            print(f"web: {what}: {str(found)[:400]}")


class Actions:
    """What a user does with the page, in any browser that goes to an address, clicks, takes files and runs scripts."""

    def visit(self, path: pathlib.Path, mark: str = ""):
        """Opens the page from disk."""
        self.go(f"file://{path}{mark}")
        self.until(f"/^(Ready|Done|The page)/.test({text_of('said')})")

    def said(self) -> str:
        return self.js(text_of("said"))

    def fault(self) -> str:
        return self.js(text_of("fault"))

    def facts(self) -> dict[str, str]:
        script = "[...document.querySelectorAll('#facts dt')].map(it => [it.textContent, it.nextSibling.textContent])"
        return dict(self.js(script))

    def settled(self, act, seconds: float = 300) -> str:
        """Does something and waits until the page has ended what it began; what it then says."""
        self.js("void (document.getElementById('said').textContent = '-')")
        act()
        ended = f"!document.body.classList.contains('busy') && {ENDS}.test({text_of('said')})"
        self.until(ended, seconds)
        self.js("new Promise(done => requestAnimationFrame(() => requestAnimationFrame(done)))")
        return self.said()

    def choose(self, command: str) -> str:
        return self.settled(lambda: self.set_value("command", command))

    def set_value(self, name: str, value: str):
        self.js(f"""(() => {{ const it = document.getElementById('{name}'); it.value = {value!r};
            it.dispatchEvent(new Event('input')); it.dispatchEvent(new Event('change')); }})()""")

    def press(self, name: str):
        self.js(f"document.getElementById('{name}').click()")

    def button(self, text: str) -> str:
        """A script that finds the button with this text."""
        return f"[...document.querySelectorAll('button')].find(it => !it.hidden && it.textContent === {text!r})"

    def open(self, path: pathlib.Path) -> str:
        return self.settled(lambda: self.choose_file("#file", path))

    def box(self) -> dict:
        """Where the canvas is."""
        script = "document.getElementById('canvas').getBoundingClientRect().toJSON()"
        return {name: self.js(script)[name] for name in ("x", "y", "width", "height")}


class Page(Actions, Chrome):
    """The page in Chromium."""

    def __init__(self, path: pathlib.Path, room: pathlib.Path, mark: str = "", **size):
        super().__init__(**size)
        self.room = room
        self.downloads_to(room)
        self.visit(path, mark)

    def saved(self, name: str, press: str) -> bytes:
        """What the page saves under this name when a button is pressed."""
        path = self.room / name
        path.unlink(missing_ok=True)
        self.press(press)
        for _ in range(600):
            if path.is_file() and path.stat().st_size:
                time.sleep(0.1)
                return path.read_bytes()
            time.sleep(0.05)
        raise AssertionError(f"{name} was never saved")

    def shot(self) -> bytes:
        self.js("new Promise(done => requestAnimationFrame(() => requestAnimationFrame(done)))")
        return self.picture(self.box())


class Program:
    """The program, over files."""

    def __init__(self, path: pathlib.Path | None, room: pathlib.Path):
        self.path, self.room = path, room / "program"
        self.room.mkdir(exist_ok=True)

    def said(self, words: str, *files: bytes) -> bytes:
        for name, content in zip("123", files):
            (self.room / name).write_bytes(content)
        return subprocess.run([self.path, *words.split()], cwd=self.room, capture_output=True).stdout


def tet() -> tuple[list, list]:
    return [(0, 0, 0), (1, 0, 0), (0, 1, 0), (0, 0, 1)], [(0, 1, 2), (0, 3, 1), (0, 2, 3), (1, 3, 2)]


def off(points, faces) -> str:
    rows = [f"OFF\n{len(points)} {len(faces)} 0", *(" ".join(map(str, it)) for it in points)]
    return "\n".join(rows + [f"{len(it)} {' '.join(map(str, it))}" for it in faces]) + "\n"


def read_off(path: pathlib.Path) -> tuple[list, list]:
    rows = [line.split() for line in path.read_text().splitlines()]
    points, faces = int(rows[1][0]), int(rows[1][1])
    return [tuple(map(float, row[:3])) for row in rows[2 : 2 + points]], [
        tuple(map(int, row[1 : 1 + int(row[0])])) for row in rows[2 + points : 2 + points + faces]
    ]


def files_of_each_kind(room: pathlib.Path) -> list[pathlib.Path]:
    """The mesh eight.off as OBJ, PLY and STL, text and binary."""
    points, faces = read_off(MESHES / "eight.off")
    obj = "".join(f"v {x} {y} {z}\n" for x, y, z in points)
    obj += "".join(f"f {' '.join(f'{c + 1}//{c + 1}' for c in face)}\n" for face in faces)
    head = "ply\nformat {} 1.0\nelement vertex %d\nproperty float x\nproperty float y\nproperty float z\n"
    head = (head + "element face %d\nproperty list uchar int vertex_index\nend_header\n") % (len(points), len(faces))
    ply = head.format("ascii") + "".join(f"{x} {y} {z}\n" for x, y, z in points)
    ply += "".join(f"3 {' '.join(map(str, face))}\n" for face in faces)
    plyb = head.format("binary_little_endian").encode() + b"".join(struct.pack("<3f", *point) for point in points)
    plyb += b"".join(struct.pack("<B3i", 3, *face) for face in faces)
    corners = "outer loop\n{}endloop\nendfacet\n"
    rows = ["".join("vertex {} {} {}\n".format(*points[c]) for c in face) for face in faces]
    stl = "solid eight\n" + "".join("facet normal 0 0 0\n" + corners.format(row) for row in rows) + "endsolid\n"
    stlb = bytes(80) + struct.pack("<I", len(faces))
    stlb += b"".join(struct.pack("<12fH", 0, 0, 0, *(x for c in face for x in points[c]), 0) for face in faces)
    files = {"e.obj": obj.encode(), "e.ply": ply.encode(), "eb.ply": plyb, "e.stl": stl.encode(), "eb.stl": stlb}
    for name, data in files.items():
        (room / name).write_bytes(data)
    return [room / name for name in files]


def ring(path: pathlib.Path, rounds: int, steps: int) -> pathlib.Path:
    """A torus in space of so many squares."""
    points, faces = [], []
    for i in range(rounds):
        for j in range(steps):
            a, b = 2 * math.pi * i / rounds, 2 * math.pi * j / steps
            far = 2 + (0.8 + 0.05 * math.sin(5 * a)) * math.cos(b)
            points.append((f"{far * math.cos(a):.6f}", f"{far * math.sin(a):.6f}", f"{0.8 * math.sin(b):.6f}"))
            corner = [(i + x) % rounds * steps + (j + y) % steps for x, y in ((0, 0), (1, 0), (1, 1), (0, 1))]
            faces += [(corner[0], corner[1], corner[2]), (corner[0], corner[2], corner[3])]
    path.write_text(off(points, faces))
    return path


def drop_and_turn(page: Page, checks: Checks):
    start = time.monotonic()
    said = page.settled(lambda: page.drop(MESHES / "eight.off"))
    print(f"web: the basis of eight.off stands {time.monotonic() - start:.2f} s after it was dropped")
    good = said.startswith("Done: 4 cycles") and page.facts()["total length"] == "12.263"
    checks.expect("a dropped mesh", good, said + page.fault())
    before = page.shot()
    page.drag(800, 400, 120, -60)
    turned = page.shot()
    checks.expect("a drag turns the picture", before != turned)
    page.js("document.getElementById('canvas').focus()")
    page.key("ArrowLeft")
    checks.expect("an arrow turns it, too", turned != page.shot())
    page.key("0")
    page.js("document.activeElement.blur()")
    checks.expect("0 turns it back", before == page.shot())
    page.js("document.querySelector('#list button').click()")
    pressed = page.js("document.querySelector('#list button').getAttribute('aria-pressed')")
    checks.expect("a loop is picked out", pressed == "true" and before != page.shot(), pressed)
    walk = page.js(text_of("walk")).split()
    checks.expect("its vertices are told", walk[0] == "Vertices:" and walk[1] == walk[-1] and len(walk) == 12, walk)


def each_command(page: Actions, checks: Checks, program: Program):
    """Each command on eight.off with lengths in space, and what it saves."""
    page.open(MESHES / "eight.off")
    mesh, found = (MESHES / "eight.off").read_bytes(), []
    page.choose("loops")
    page.settled(lambda: page.click(760, 330))
    vertex = page.js("document.getElementById('vertices').value")
    checks.expect("a click chooses a vertex", re.fullmatch(r"\d+", vertex) and vertex != "0", vertex)
    starts = {"basis": "4 cycles", "loops": "4 loops", "cycle": "a shortest", "trim": "a disc", "full": "a disc"}
    for command, due in starts.items():
        said = page.choose(command)
        checks.expect(f"the command {command}", said.startswith(f"Done: {due}"), said + page.fault())
        found.append((command, page.saved("open.off" if "disc" in due else f"{command}.txt", "save")))
    checks.expect("the cut is laid in the plane", page.js("!document.getElementById('flat').hidden"))
    if not program.path:
        return
    total = found[0][1].split()[3]
    decimals = len(total) - len("12")
    checks.expect("the total of the basis is 12.26 in units of the mesh", total.startswith(b"1226"), total)
    measured = program.said(f"lengths 1 {decimals}", mesh)
    words = {"basis": "basis 1 2", "loops": f"loops 1 2 {vertex}", "cycle": "cycle 1 2"}
    words |= {kind: f"cut 1 2 {vertex} {kind}" for kind in ("trim", "full")}
    for command, saved in found:
        checks.expect(f"the bytes of {command}", saved == program.said(words[command], mesh, measured), saved[:80])


def walks(page: Actions, checks: Checks, program: Program):
    """Classes of walks and shortest walks of a class, on the ring, with lengths of 1."""
    page.open(MESHES / "ring.off")
    page.set_value("lengths", "unit")
    mesh = (MESHES / "ring.off").read_bytes()
    cycle = program.said("cycle 1 unit", mesh).decode().split()[2:-1] if program.path else []
    page.choose("class")
    page.settled(lambda: page.click(760, 330))
    checks.expect("a click adds a vertex", page.said().startswith("1 vertex chosen"), page.said())
    page.press("clear")
    face = read_off(MESHES / "ring.off")[1][1]
    page.set_value("vertices", " ".join(map(str, face)))
    said = page.settled(lambda: page.press("run"))
    checks.expect("a face's walk bounds", said.startswith("Done: It bounds 1 face"), said + page.fault())
    said = page.settled(lambda: page.press("certify"))
    checks.expect("its evidence is checked", page.js(text_of("certified")).endswith("valid null"), page.fault())
    if not program.path:
        return
    page.set_value("vertices", " ".join(cycle))
    said = page.settled(lambda: page.press("run"))
    checks.expect("a nonseparating cycle", said.startswith("Done: It bounds no set of faces"), said + page.fault())
    due = program.said("class 1 2", mesh, f"{' '.join(cycle)} {cycle[0]}\n".encode())
    checks.expect("the bytes of class", page.saved("class.txt", "save") == due)
    page.choose("shortest")
    page.set_value("vertices", " ".join(cycle))
    said = page.settled(lambda: page.press("run"))
    checks.expect("a shortest walk", said.startswith("Done: a shortest homologous walk"), said + page.fault())
    due = program.said("shortest 1 unit 3", mesh, b"", f"{' '.join(cycle)} {cycle[0]}\n".encode())
    checks.expect("the bytes of shortest", page.saved("shortest.txt", "save") == due)
    page.set_value("lengths", "space")


def through(page: Actions, checks: Checks, program: Program):
    """The cut through chosen vertices, where the module has it."""
    if not page.js("[...document.getElementById('command').options].some(it => it.value === 'through')"):
        print("web: the module has no cut through vertices, so the page doesn't offer it")
        return
    page.open(MESHES / "eight.off")
    page.choose("through")
    page.set_value("lengths", "unit")
    page.set_value("vertices", "0 300 600")
    said = page.settled(lambda: page.press("run"))
    checks.expect("a cut through vertices", said.startswith("Done: a disc"), said + page.fault())
    if program.path:
        due = program.said("cut 1 unit 0 through 3", (MESHES / "eight.off").read_bytes(), b"", b"0 300 600\n")
        checks.expect("the bytes of the cut through vertices", page.saved("open.off", "save") == due)
    page.set_value("lengths", "space")


def certificates(page: Actions, checks: Checks):
    page.open(MESHES / "ring.off")
    for command, due in (("basis", "valid basis "), ("loops", "valid loops ")):
        page.choose(command)
        page.settled(lambda: page.press("certify"))
        told = page.js(text_of("certified"))
        checks.expect(f"the certificate of {command} is accepted", due in told, told + page.fault())
        saved = page.saved("surf.cert", "save-certificate")
        checks.expect(f"the certificate of {command} is saved", saved.startswith(f"SURFCERT 1 {command}".encode()))
    picture = page.saved("surf.png", "picture")
    checks.expect("a picture is saved", picture.startswith(b"\x89PNG") and len(picture) > 5000, len(picture))


def kinds(page: Actions, checks: Checks, room: pathlib.Path):
    page.choose("basis")
    for path in files_of_each_kind(room):
        said = page.open(path)
        good = said.startswith("Done: 4 cycles") and page.facts()["total length"] == "12.263"
        checks.expect(f"the file {path.name}", good, said + page.fault())


def spoiled() -> list[tuple[str, str, str, list[str]]]:
    """Files that are refused: their names and texts, what is said of them, and the buttons that mend them."""
    points, faces = tet()
    apart = (points + [(x + 3, y, z) for x, y, z in points], faces + [[c + 4 for c in face] for face in faces])
    mirrored = points + [(-x, -y, -z) for x, y, z in points[1:]]
    touching = (mirrored, faces + [[c and c + 3 for c in face] for face in faces])
    soup = ([points[c] for face in faces for c in face], [(k, k + 1, k + 2) for k in range(0, 12, 3)])
    keep, whole = "Keep the largest part", off(points, faces)
    lonely = off(points + [(9, 9, 9)], faces)
    return [
        ("open.off", off(points, faces[:3]), "surface: border 1 2 0", ["Close the holes"]),
        ("apart.off", off(*apart), "surface: apart 4", [keep]),
        ("touching.off", off(*touching), "surface: pinched 0 0 4", ["Take it apart there", keep]),
        ("lonely.off", lonely, "surface: isolated 4", ["Leave such vertices and faces out"]),
        ("soup.off", off(*soup), "surface: border 0 1 0", ["Merge equal points"]),
        ("loose.off", whole.replace("OFF", "off"), "mesh text: header 1", ["Read the file loosely"]),
        ("early.off", whole[:-9], "mesh text: early 1", []),
        ("hello.off", "hello\n", "mesh text: header 1", []),
        ("none.off", "", "mesh text: header 0", []),
        ("bad.ply", "ply\n", "bad.ply can't be read", []),
        ("bad.stl", "", "bad.stl can't be read", []),
        ("bad.obj", "v 0 0 0\n", "bad.obj can't be read", []),
    ]


def refusals(page: Actions, checks: Checks, room: pathlib.Path):
    """Files that are refused, what is said of them, and what mends them."""
    for name, text, due, cures in spoiled():
        (room / name).write_text(text)
        said = page.open(room / name)
        checks.expect(f"{name} is refused", said == "No answer" and due in page.fault(), said + page.fault())
        words = page.js("document.querySelector('#fault p').textContent")
        checks.expect(f"{name} in plain words", len(words) > 20 and words != due, words)
        for cure in cures:
            said = page.settled(lambda: page.js(f"{page.button(cure)}.click()"))
            checks.expect(f"{name}: what was done is told", page.js(text_of("note")) != "", cure)
        if cures:
            checks.expect(f"{name} is mended", said.startswith("Done"), said + page.fault())


def red_on_the_mesh(page: Page, checks: Checks, room: pathlib.Path):
    """The edge that a refusal names is drawn over all else."""
    points, faces = read_off(MESHES / "eight.off")
    (room / "hole.off").write_text(off(points, faces[:-1]))
    page.open(room / "hole.off")
    red = page.shot()
    page.settled(lambda: page.js(f"{page.button('Close the holes')}.click()"))
    checks.expect("a hole is closed", page.said().startswith("Done: 4 cycles"), page.said() + page.fault())
    checks.expect("what was wrong is no longer shown", red != page.shot())


def total_by_tool(program: Program, path: pathlib.Path, count: int) -> float:
    """The length of so many of the first cycles of a basis, where the tool in Python joins the holes."""
    mended = mend(read_mesh(path), holes="hub")
    rows = program.said("basis 1 2 large", mended.off_text(), mended.lengths_text(6)).decode().splitlines()[2:]
    return sum(int(row.split()[1]) for row in rows[:count]) / 10**6


def holes(page: Page, checks: Checks, room: pathlib.Path, program: Program):
    """A surface with holes, round which loops count: what can be asked of it, and what can't."""
    points, faces = read_off(MESHES / "eight.off")
    path = room / "holes.off"
    path.write_text(off(points, [*faces[1:700], *faces[701:]]))  # faces 0 and 700 have no vertex in common
    page.choose("basis")
    page.open(path)
    said = page.settled(lambda: page.js(f"{page.button('Count loops round holes')}.click()"))
    facts, note = page.facts(), page.js(text_of("note"))
    checks.expect("loops round holes count", said.startswith("Done: 5 cycles"), said + page.fault())
    checks.expect("it is told how", note.startswith("2 holes are joined"), note)
    checks.expect("the counts are of the open surface", facts["holes"] == "2" and "genus" not in facts, facts)
    checks.expect("its faces alone", facts["faces"] == str(len(faces) - 2), facts)
    if program.path:
        due = total_by_tool(program, path, 5)
        checks.expect("the tool's total", abs(float(facts["total length"]) - due) < 1e-3, (facts, due))
    checks.expect("no handles are offered", page.js("document.getElementById('handles').hidden"))
    checks.expect("nor a certificate", page.js("document.getElementById('certify').hidden"))
    for command, due in (("loops", "5 loops"), ("cycle", "a shortest")):
        said = page.choose(command)
        checks.expect(f"{command} beside holes", said.startswith(f"Done: {due}"), said + page.fault())
    said = page.choose("trim")
    checks.expect("a cut wants closed holes", "closed surfaces" in page.fault(), said + page.fault())
    page.choose("basis")
    said = page.settled(lambda: page.set_value("lengths", "unit"))
    checks.expect("each edge counts 1", said.startswith("Done: 5 cycles"), said + page.fault())
    page.set_value("lengths", "space")


def large(page: Page, checks: Checks, room: pathlib.Path):
    """More than 100,000 vertices, a long call that is stopped, and a mesh that is dropped while one runs."""
    page.choose("loops")
    start = time.monotonic()
    said = page.open(ring(room / "large.off", 320, 320))
    print(f"web: loops on 102,400 vertices stand {time.monotonic() - start:.1f} s after the file was chosen")
    checks.expect("loops on a large mesh", said.startswith("Done: 2 loops"), said + page.fault())
    page.choose("basis")
    said = page.open(ring(room / "past.off", 142, 141))
    checks.expect("a basis of more than 20,000 vertices", said.startswith("Done: 2 cycles"), said + page.fault())
    path = ring(room / "long.off", 140, 140)
    page.set_value("command", "basis")
    page.js("document.getElementById('said').textContent = '-'")
    page.choose_file("#file", path)
    page.until(f"{text_of('said')}.startsWith('Looking')")
    said = page.settled(lambda: page.press("stop"))
    checks.expect("a long call is stopped", said == "Stopped", said)
    said = page.choose("loops")
    checks.expect("and the next one is answered", said.startswith("Done: 2 loops"), said + page.fault())
    page.set_value("command", "basis")
    page.until(f"{text_of('said')}.startsWith('Looking')")
    said = page.settled(lambda: page.drop(MESHES / "three.off"))
    checks.expect("a mesh is dropped while a call runs", said.startswith("Done: 6 cycles"), said + page.fault())


def handles(page: Page, checks: Checks, program: Program):
    """The small handles of noisy.off: twelve below 0.6, in red where the slider says so, and what is left without."""
    page.set_value("lengths", "space")
    page.choose("basis")
    page.open(MESHES / "noisy.off")
    checks.expect("handles are offered with a basis", page.js("!document.getElementById('handles').hidden"))
    checks.expect("and none is chosen", page.js("document.getElementById('handles-remove').disabled"))
    before = page.shot()
    page.set_value("handles-bound", "12")
    said = page.js(text_of("handles-said"))
    checks.expect("twelve are below the bound", re.fullmatch(r"Shorter than 0\.69\d+: 12 cycles, in red", said), said)
    checks.expect("they are drawn in red", before != page.shot())
    said = page.settled(lambda: page.press("handles-remove"))
    facts, note = page.facts(), page.js(text_of("note"))
    checks.expect("what is left has one handle", said.startswith("Done: 2 cycles") and facts["genus"] == "1", said)
    good = note.startswith("12 handles taken off. The shortest cycle left that doesn't separate has 2.50")
    checks.expect("it is told what was done", good, note)
    name = "noisy-without-handles.off"
    saved = page.saved(name, "save-mesh")
    if program.path:
        kind = program.said("info 1", saved).decode().split()
        checks.expect("what is left can be saved", kind[-2:] == ["genus", "1"] and kind[5] == str(1272 + 24), kind)
    said = page.open(page.room / name)
    checks.expect("and opened again", said.startswith("Done: 2 cycles"), said + page.fault())
    page.set_value("handles-bound", "2")
    said = page.settled(lambda: page.press("handles-remove"))
    checks.expect("the last handle goes", said.startswith("Done: The surface is a sphere"), said + page.fault())
    checks.expect("then none is offered", page.js("document.getElementById('handles').hidden"))
    page.choose("cycle")
    said = page.settled(lambda: page.js(f"{page.button('Klein bottle')}.click()"))
    checks.expect("nor with another answer", page.js("document.getElementById('handles').hidden"), said)
    page.choose("basis")
    page.set_value("handles-bound", "2")
    page.settled(lambda: page.press("handles-remove"))
    checks.expect("a bottle becomes a sphere", page.facts()["genus"] == "0", page.js(text_of("note")))


def samples(page: Actions, checks: Checks):
    page.choose("basis")
    for name, due in (("ring", 2), ("eight", 4), ("three", 6), ("noisy", 26), ("Klein bottle", 2)):
        press = f"(it => {{ it.focus(); it.click(); }})({page.button(name)})"
        said = page.settled(lambda: page.js(press))
        checks.expect(f"the sample {name}", said.startswith(f"Done: {due} cycles"), said + page.fault())
    checks.expect("the Klein bottle has one side", page.facts().get("crosscaps") == "2", page.facts())


def contrast(page: Page, name: str) -> float:
    """The contrast of an element's text to the ground of the side: W3C, "Web Content Accessibility Guidelines"."""

    def light(colour: str) -> float:
        parts = [int(x) / 255 for x in re.findall(r"\d+", colour)[:3]]
        parts = [x / 12.92 if x <= 0.04045 else ((x + 0.055) / 1.055) ** 2.4 for x in parts]
        return 0.2126 * parts[0] + 0.7152 * parts[1] + 0.0722 * parts[2]

    ink = page.js(f"getComputedStyle(document.querySelector('{name}')).color")
    paper = page.js("getComputedStyle(document.getElementById('side')).backgroundColor")
    low, high = sorted((light(ink), light(paper)))
    return (high + 0.05) / (low + 0.05)


def for_everyone(page: Page, checks: Checks):
    """Names of controls, contrast in both themes, and that nothing was asked of another machine or thrown."""
    roles = ("button", "combobox", "textbox", "img", "image")
    for node in page.ask("Accessibility.getFullAXTree")["nodes"]:
        if node.get("role", {}).get("value") in roles and not node.get("ignored"):
            checks.expect("a control has a name", bool(node.get("name", {}).get("value")), node.get("role"))
    for theme in ("light", "dark"):
        page.ask("Emulation.setEmulatedMedia", features=[{"name": "prefers-color-scheme", "value": theme}])
        for name in ("#said", "#facts dt", "#fault", "header p", "#asks"):
            found = contrast(page, name)
            checks.expect(f"the contrast of {name} in the {theme} theme", found >= 4.5, found)
    page.ask("Emulation.setEmulatedMedia", features=[])
    asked = [it["params"]["request"]["url"] for it in page.events if it.get("method") == "Network.requestWillBeSent"]
    strange = [url for url in asked if not url.startswith(("file:", "blob:", "data:", "about:"))]
    checks.expect("nothing is asked of another machine", bool(asked) and not strange, strange)
    script = "fetch('https://example.org/').then(() => 'sent', () => 'refused')"
    checks.expect("the page's policy lets nothing out", page.js(script) == "refused")
    thrown = [it["params"] for it in page.events if it.get("method") == "Runtime.exceptionThrown"]
    checks.expect("nothing is thrown", not thrown, thrown)


def on_a_phone(path: pathlib.Path, room: pathlib.Path, checks: Checks, pictures: pathlib.Path | None):
    page = Page(path, room, width=390, height=844)
    try:
        page.size(390, 844, scale=2, mobile=True)
        said = page.settled(lambda: page.js(f"{page.button('eight')}.click()"))
        checks.expect("an answer on a phone", said.startswith("Done: 4 cycles"), said + page.fault())
        checks.expect("nothing is wider than a phone", page.js("document.documentElement.scrollWidth") <= 390)
        page.js("document.getElementById('canvas').scrollIntoView({ block: 'center' })")
        box = page.box()
        checks.expect("the picture is seen", box["width"] > 300 and box["height"] > 300, box)
        page.choose("loops")
        page.js("document.getElementById('canvas').scrollIntoView({ block: 'center' })")
        box = page.box()
        page.settled(lambda: page.tap(box["x"] + 0.3 * box["width"], box["y"] + 0.45 * box["height"]))
        checks.expect("a tap chooses a vertex", page.js("document.getElementById('vertices').value") != "0")
        if pictures:
            page.choose("basis")
            page.js("scrollTo(0, 0)")
            (pictures / "browser-phone.png").write_bytes(page.picture())
    finally:
        page.close()


def without_webgl(path: pathlib.Path, room: pathlib.Path, checks: Checks):
    page = Page(path, room, "#plain")
    try:
        drop_and_turn(page, checks)
        page.choose("trim")
        checks.expect("a cut without WebGL", page.said().startswith("Done: a disc"), page.said())
    finally:
        page.close()


def pictures_of(page: Page, folder: pathlib.Path):
    """The page with a basis, with a cut, and in the dark."""
    folder.mkdir(parents=True, exist_ok=True)
    page.choose("basis")
    page.open(MESHES / "eight.off")
    (folder / "browser.png").write_bytes(page.picture())
    page.choose("trim")
    (folder / "browser-cut.png").write_bytes(page.picture())
    page.choose("basis")
    page.open(MESHES / "noisy.off")
    page.set_value("handles-bound", "12")
    (folder / "browser-handles.png").write_bytes(page.picture())
    page.open(MESHES / "eight.off")
    page.ask("Emulation.setEmulatedMedia", features=[{"name": "prefers-color-scheme", "value": "dark"}])
    page.choose("loops")
    (folder / "browser-dark.png").write_bytes(page.picture())
    page.ask("Emulation.setEmulatedMedia", features=[])


def tried(path: pathlib.Path, program: pathlib.Path | None, room: pathlib.Path, pictures: pathlib.Path | None) -> int:
    """Tries the page; the number of checks that fail."""
    checks, told = Checks(), Program(program, room)
    page = Page(path, room)
    try:
        drop_and_turn(page, checks)
        each_command(page, checks, told)
        walks(page, checks, told)
        through(page, checks, told)
        certificates(page, checks)
        kinds(page, checks, room)
        refusals(page, checks, room)
        red_on_the_mesh(page, checks, room)
        holes(page, checks, room, told)
        samples(page, checks)
        handles(page, checks, told)
        large(page, checks, room)
        if pictures:
            pictures_of(page, pictures)
        for_everyone(page, checks)
    finally:
        page.close()
    without_webgl(path, room, checks)
    on_a_phone(path, room, checks, pictures)
    print(f"web: {checks.count} checks of the page in Chromium, {checks.wrong} wrong")
    return checks.wrong
