"""A surface with an answer on it as one page of HTML, which a file or the cell of a notebook shows."""

from __future__ import annotations

import pathlib
from typing import TYPE_CHECKING, Any, Iterable, List, NamedTuple, Optional

import numpy as np

from . import viewfiles
from ._answers import Cut, Distances, Evidence, Walk
from ._callers import Path

if TYPE_CHECKING:
    from ._surface import Surface


class Look(NamedTuple):
    """How a picture looks that is to be turned.

    values: shape (n,) or (m,), a number for each vertex or face, by which faces are coloured; None for no colours
    label:  what the scale says of the values
    turn:   degrees about the upright axis at first; tilt: degrees from above the horizon
    height: of the frame in a notebook, in pixels
    """

    values: Any = None
    label: str = ""
    turn: float = 30.0
    tilt: float = 40.0
    title: str = "surfbasis"
    height: int = 480


class Shown:
    """A surface with an answer on it, to be turned. A notebook shows it where it is the last line of a cell.

    >>> surface = surfbasis.Surface.from_file("meshes/eight.off")
    >>> surface.show(surface.cycle()).html[:15]
    '<!doctype html>'
    """

    def __init__(self, surface: Surface, shown: Any, look: Look):
        if surface.vertices is None:
            raise ValueError("a surface without places can't be drawn")
        self._surface, self._shown, self._look = surface, shown, look

    @property
    def html(self) -> str:
        """The page, which asks no other machine for anything."""
        return viewfiles.html(scene_of(self._surface, self._shown, self._look))

    def save(self, path: Path) -> None:
        """Writes the page to a file."""
        pathlib.Path(path).write_text(self.html, encoding="utf-8")

    def _repr_html_(self) -> str:
        return viewfiles.frame(self.html, self._still(), self._look.title, self._look.height)

    def _still(self) -> bytes:
        """The picture as a PNG."""
        from . import plot

        look = self._look
        return plot.png_of(plot.scene_of(self._surface, self._shown, look.values, look.turn, look.tilt), look.height)


def scene_of(surface: Surface, shown: Any, look: Look) -> viewfiles.Scene:
    """What the page shows."""
    vertices = surface.vertices
    if vertices is None:
        raise ValueError("a surface without places can't be drawn")
    origins = surface.face_origins
    is_added = [] if origins is None or (origins >= 0).all() else (origins < 0).tolist()
    seams = shown.seams.tolist() if isinstance(shown, Cut) else None
    marked = shown.faces.tolist() if isinstance(shown, Evidence) and shown.faces is not None else []
    mesh = viewfiles.Mesh(vertices, surface.faces, is_added)
    values = _values_of(surface, shown, look)
    return viewfiles.Scene(look.title, mesh, _lines(shown), seams, marked, values, look.turn, look.tilt)


def _lines(shown: Any) -> List[viewfiles.Line]:
    """The walks of an answer, or the edges of evidence."""
    if shown is None or isinstance(shown, (Cut, Distances)):
        return []
    if isinstance(shown, Evidence):
        return [] if shown.edges is None else [viewfiles.edge_set((u, v) for u, v in shown.edges.tolist())]
    walks: Iterable[Walk] = [shown] if isinstance(shown, Walk) else shown
    return [viewfiles.walk(walk.closed.tolist(), int(walk.units), walk.decimals) for walk in walks]


def _values_of(surface: Surface, shown: Any, look: Look) -> Optional[viewfiles.Values]:
    """The values that are given, or the distances that are shown."""
    if look.values is None:
        if not isinstance(shown, Distances):
            return None
        return viewfiles.Values(shown.lengths.tolist(), False, look.label or f"distance from vertex {shown.base}")
    numbers = np.asarray(look.values, float)
    if not np.isfinite(numbers).all():
        raise ValueError("values are finite numbers")
    if len(numbers) not in (surface.vertex_count, len(surface.faces)):
        raise ValueError(f"{len(numbers)} values are neither one for each vertex nor one for each face")
    return viewfiles.Values(numbers.tolist(), len(numbers) != surface.vertex_count, look.label)
