"""One file of HTML that shows a mesh with an answer on it, to be turned: the viewer of the page, and a packed scene.

    scene = Scene("eight", mesh, lines=[walk([0, 1, 2, 0], units=31, decimals=1)])
    pathlib.Path("eight.html").write_text(html(scene))

The file asks no other machine for anything. Standard library alone; where numpy can be imported it does the work on
whole tables, and the bytes are the same.
"""

from .packing import packed
from .scene import Line, Mesh, Scene, Values, edge_set, walk
from .template import frame, html

__all__ = ["Line", "Mesh", "Scene", "Values", "edge_set", "frame", "html", "packed", "walk"]
