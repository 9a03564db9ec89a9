"""Charts of what `bench/peers.py` measured, as SVG pictures, which `bench/page.py` writes.

The pictures are `speed-seconds.svg` (seconds over vertices for each job, with the peers), `speed-handles.svg` (seconds
of a basis over the number of handles) and `speed-memory.svg` (megabytes over vertices). All axes are logarithmic, and
lengths equal. Points that are missing were late or not tried.
"""
import math
from collections.abc import Callable
from dataclasses import dataclass
from html import escape

WIDTH, HEIGHT = 330, 270
LEFT, RIGHT, TOP, BOTTOM = 52, 28, 30, 44
LINE_HEIGHT = 14
COLOURS = {
    "surf": "#1f5fa8",
    "plain": "#6aa0d8",
    "sketch": "#6aa0d8",
    "CGAL": "#c0392b",
    "PHAT": "#2e8b57",
    "GUDHI": "#8e5ea2",
    "Gmsh": "#d68910",
}
TITLES = {
    "info": "The surface test",
    "dist": "Shortest ways from a vertex",
    "loops": "Shortest loops at a vertex",
    "loop": "A shortest loop at a vertex",
    "cut": "A disc",
    "sew": "A disc sewn up",
    "disc": "The test of a disc",
    "basis": "A homology basis",
    "cycle": "A shortest cycle",
    "same": "Whether two walks are the same",
    "class": "The class of a walk",
    "shortest": "A shortest walk of a class",
    "certify": "A certificate of loops",
    "check": "The check of one",
    "gen": "The torus itself",
}
Point = tuple[float, float]


@dataclass
class Axis:
    """A logarithmic axis from `low` to `high`, drawn from pixel `start` to pixel `end`."""

    low: float
    high: float
    start: float
    end: float

    def at(self, value: float) -> float:
        part = math.log(value / self.low) / math.log(self.high / self.low)
        return self.start + part * (self.end - self.start)

    def ticks(self) -> list[float]:
        """The powers of ten on the axis."""
        powers = range(math.ceil(math.log10(self.low) - 1e-9), math.floor(math.log10(self.high) + 1e-9) + 1)
        return [10.0**power for power in powers]


def axis(values: list[float], start: float, end: float) -> Axis:
    """An axis of whole decades that has all values."""
    low = 10.0 ** math.floor(math.log10(min(values)))
    high = 10.0 ** math.ceil(math.log10(max(values)) + 1e-9)
    return Axis(low, max(high, 10 * low), start, end)


def text(x: float, y: float, words: str, more: str = "") -> str:
    return f'<text x="{x:.1f}" y="{y:.1f}" {more}>{escape(words)}</text>'


def short(value: float) -> str:
    return f"{value:,.0f}" if value >= 1 else f"{value:g}"


def frame(x: Axis, y: Axis, title: str, below: str) -> list[str]:
    """The grid of a panel, its numbers and its title."""
    parts = [text(LEFT, TOP - 12, title, 'class="title"')]
    for value in x.ticks():
        at = x.at(value)
        parts.append(f'<line x1="{at:.1f}" y1="{y.start}" x2="{at:.1f}" y2="{y.end}" class="grid"/>')
        parts.append(text(at, y.start + 15, short(value), 'text-anchor="middle"'))
    for value in y.ticks():
        at = y.at(value)
        parts.append(f'<line x1="{x.start}" y1="{at:.1f}" x2="{x.end}" y2="{at:.1f}" class="grid"/>')
        parts.append(text(x.start - 5, at + 4, short(value), 'text-anchor="end"'))
    parts.append(text((x.start + x.end) / 2, HEIGHT - 10, below, 'text-anchor="middle"'))
    return parts


def line(points: list[Point], x: Axis, y: Axis, colour: str) -> list[str]:
    """A line with its points."""
    places = [(x.at(across), y.at(up)) for across, up in points]
    way = " ".join(f"{across:.1f},{up:.1f}" for across, up in places)
    dots = [f'<circle cx="{across:.1f}" cy="{up:.1f}" r="3" fill="{colour}"/>' for across, up in places]
    return [f'<polyline points="{way}" fill="none" stroke="{colour}" stroke-width="2"/>', *dots]


def names(lines: dict[str, list[Point]], x: Axis, y: Axis) -> list[str]:
    """The names of the lines: at the upper left if no point lies there, else at the lower right."""
    height = LINE_HEIGHT * len(lines)
    places = [(x.at(across), y.at(up)) for points in lines.values() for across, up in points]
    is_free = not any(across < LEFT + 70 and down < TOP + height + LINE_HEIGHT for across, down in places)
    across, down, anchor = LEFT + 8, TOP + LINE_HEIGHT, "start"
    if not is_free:
        across, down, anchor = WIDTH - RIGHT - 8, HEIGHT - BOTTOM - 8 - height + LINE_HEIGHT, "end"
    kind = f'class="name" text-anchor="{anchor}"'
    return [
        text(across, down + LINE_HEIGHT * place, name, f'{kind} style="fill:{colour_of(name)}"')
        for place, name in enumerate(lines)
    ]


def colour_of(name: str) -> str:
    return COLOURS.get(name, "#555555")


def panel(lines: dict[str, list[Point]], title: str, below: str) -> str:
    """One chart with a line for each program, and their names."""
    x = axis([across for points in lines.values() for across, _ in points], LEFT, WIDTH - RIGHT)
    y = axis([up for points in lines.values() for _, up in points], HEIGHT - BOTTOM, TOP)
    parts = frame(x, y, title, below)
    for name, points in lines.items():
        parts += line(points, x, y, colour_of(name))
    return "\n".join(parts + names(lines, x, y))


def picture(panels: list[str], label: str) -> str:
    """An SVG of panels, two in a row, or three where there are more than four."""
    columns = 3 if len(panels) > 4 else min(2, len(panels))
    rows = math.ceil(len(panels) / columns)
    style = "text{font:11px sans-serif;fill:#333}.title{font-weight:bold;font-size:12px}.name{font-weight:bold}"
    style += ".grid{stroke:#ddd;stroke-width:1}"
    placed = []
    for place, inside in enumerate(panels):
        across, down = place % columns * WIDTH, place // columns * HEIGHT
        placed.append(f'<g transform="translate({across} {down})">\n{inside}\n</g>')
    width, height = columns * WIDTH, rows * HEIGHT
    head = f'<svg xmlns="http://www.w3.org/2000/svg" viewBox="0 0 {width} {height}" width="{width}" height="{height}"'
    body = "\n".join(placed)
    return f'{head} role="img" aria-label="{escape(label)}">\n<style>{style}</style>\n' \
        f'<rect width="{width}" height="{height}" fill="white"/>\n{body}\n</svg>\n'


def lines_of(rows: list[dict[str, str]], across: Callable[[dict], float], up: str) -> dict[str, list[Point]]:
    """The points of each program, by what is across and by a column; rows without a figure are left out."""
    lines: dict[str, list[Point]] = {}
    for row in rows:
        if row[up] not in ("", "-", "late") and float(row[up]) > 0:
            lines.setdefault(row["program"], []).append((across(row), float(row[up])))
    return lines


def vertices(row: dict[str, str]) -> float:
    return float(row["vertices"])


def handles(row: dict[str, str]) -> float:
    return float(row["rank"]) / 2


def pictures(rows: list[dict[str, str]]) -> dict[str, str]:
    """The pictures by their names."""
    unit = [row for row in rows if row["lengths"] == "unit"]
    tori = {job: [row for row in unit if row["job"] == job and row["series"] == "tori"] for job in TITLES}
    tori = {job: some for job, some in tori.items() if some}
    basis = [row for row in unit if row["job"] == "basis" and row["series"] == "handles"]
    seconds = [panel(lines_of(some, vertices, "seconds"), f"{TITLES[job]}: seconds", "vertices of a torus")
               for job, some in tori.items()]
    memory = [panel(lines_of(some, vertices, "megabytes"), f"{TITLES[job]}: megabytes", "vertices of a torus")
              for job, some in tori.items()]
    handles_title = "handles, at some 20,000 vertices"
    bases = [panel(lines_of(basis, handles, "seconds"), "A homology basis: seconds", handles_title)]
    return {
        "speed-seconds.svg": picture(seconds, "Seconds over the vertices of a torus, for each job and program"),
        "speed-handles.svg": picture(bases, "Seconds of a homology basis over the number of handles"),
        "speed-memory.svg": picture(memory, "Megabytes over the vertices of a torus, for each job and program"),
    }
