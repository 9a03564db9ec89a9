"""Puts the modules of web/page together into one file of HTML: a page that asks no other machine for anything."""

from __future__ import annotations

import base64
import gzip
import hashlib
import pathlib
import re

PAGE = pathlib.Path(__file__).resolve().parent / "page"

# The modules of the viewer, of the page around it, of a file that shows a picture, and of the page's worker, each
# behind those that it imports from.
VIEWER = ["units", "walks", "dom", "paint", "camera", "gl", "plain", "view", "flat", "walklist", "viewer"]
FINDER = ["told", "refusals", "commands", "form", "faults", "mended", "session", "work", "finder", "handles"]
FINDER += ["samples", "main"]
PICTURE = ["lines", "readers", "mend", "shape", "opened", "unfold", "scene", "picture"]
WORKER = ["lines", "readers", "mend", "holes", "mends", "shape", "opened", "unfold", "surgery", "cycles"]
WORKER += ["program", "worker"]


def joined(names: list[str]) -> str:
    """The modules as one text: those that import stand behind what they import, so the lines of import fall away.
    A name that two modules declare is an error of syntax in the text, which the browser and node refuse to run."""
    texts = []
    for name in names:
        text = (PAGE / f"{name}.js").read_text()
        text = re.sub(r"^import \{[^}]*\} from '[^']*';\n", "", text, flags=re.M)
        texts.append(re.sub(r"^export ", "", text, flags=re.M))
    return "\n".join(texts)


def packed(data: bytes) -> str:
    """Bytes as text that a page can hold."""
    return base64.b64encode(gzip.compress(data, 9, mtime=0)).decode()


def hash_of(text: str) -> str:
    """A text's mark for the page's policy, so that no other script or style is run."""
    return f"'sha256-{base64.b64encode(hashlib.sha256(text.encode()).digest()).decode()}'"


def filled(name: str, parts: dict[str, str]) -> str:
    """A file of HTML with its parts in place of their names, which stand in double braces."""
    return re.sub(r"\{\{(\w+)\}\}", lambda found: parts[found[1]], (PAGE / name).read_text())


def html(name: str, styles: list[str], modules: list[str], parts: dict[str, str]) -> str:
    """A page: its file of HTML with styles, a script and the viewer's parts, the policy that lets only these in, and
    more parts of its own. It raises ValueError where a text would end its own element."""
    style, script = "".join((PAGE / f"{it}.css").read_text() for it in styles), joined(modules)
    for text in (style, script):
        if re.search(r"</(script|style)", text, re.I):
            raise ValueError("a part of the page holds the end of its own element")
    own = {"STYLE": style, "SCRIPT": script, "STYLE_HASH": hash_of(style), "SCRIPT_HASH": hash_of(script)}
    own |= {it.upper(): (PAGE / f"{it}.html").read_text() for it in ("found", "stage")}
    return filled(name, own | parts)


def viewer() -> str:
    """The viewer alone, with {{TITLE}} and {{SCENE}} where the title and the packed scene of a picture are to stand."""
    room = {name: f"{{{{{name}}}}}" for name in ("TITLE", "SCENE")}
    return html("picture.html", ["viewer", "picture"], VIEWER + PICTURE, room)
