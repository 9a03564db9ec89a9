"""The viewer with a scene in it: as a file, and as a frame for the cell of a notebook."""

from __future__ import annotations

import base64
import functools
import html as markup
import importlib.util
import pathlib
import re

from .packing import packed
from .scene import Scene

HERE = pathlib.Path(__file__).resolve().parent
BUILT = HERE / "viewer.html"  # in the wheel and in a release
BUNDLE = HERE.parents[2] / "web/bundle.py"  # in a checkout, where the viewer is built of its modules

# A frame that may run its own scripts, and reaches nothing of the notebook. The picture behind it is seen where scripts
# or frames aren't let in.
FRAME = """<div style="position: relative; height: {height}px">\
<img alt="{title}" src="data:image/png;base64,{still}" style="height: 100%">\
<iframe sandbox="allow-scripts allow-downloads" title="{title}" srcdoc="{page}" \
style="position: absolute; left: 0; top: 0; width: 100%; height: 100%; border: 0"></iframe></div>"""


@functools.lru_cache(maxsize=None)
def template() -> str:
    """The viewer's page, with {{TITLE}} and {{SCENE}} in it."""
    if BUILT.is_file():
        return BUILT.read_text(encoding="utf-8")
    spec = importlib.util.spec_from_file_location("surf_web_bundle", BUNDLE)
    if spec is None or spec.loader is None:
        raise FileNotFoundError(BUILT)
    bundle = importlib.util.module_from_spec(spec)
    spec.loader.exec_module(bundle)
    built: str = bundle.viewer()
    return built


def html(scene: Scene) -> str:
    """The file that shows a scene. No text of the scene stands in it as markup."""
    parts = {"TITLE": markup.escape(scene.title), "SCENE": base64.b64encode(packed(scene)).decode()}
    return re.sub(r"\{\{(TITLE|SCENE)\}\}", lambda found: parts[found[1]], template())


def frame(page: str, still: bytes, title: str, height: int) -> str:
    """Markup that shows a page in a cell of a notebook, so many pixels high, and a PNG where the page can't run."""
    texts = {"page": markup.escape(page), "title": markup.escape(title)}
    return FRAME.format(still=base64.b64encode(still).decode(), height=int(height), **texts)
