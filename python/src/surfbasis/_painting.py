"""A PNG of faces and lines, each pixel with what is nearest there: by numpy and the standard library."""

from __future__ import annotations

import struct
import zlib
from typing import Sequence, Tuple

import numpy as np
import numpy.typing as npt

from ._answers import Polygons
from ._texts import Floats, Ints

MARGIN = 0.92
GREY = np.array((150.0, 150.0, 146.0))  # of the edges of faces
WIDTH = 0.007  # of lines, in parts of the picture's
AT_ONCE = 1 << 19  # pixels that are tried at once


class Canvas:
    """Pixels, each with how near it is. Places are in pixels: right, down and near."""

    def __init__(self, size: int):
        self.size = size
        self.colours: Floats = np.full((size * size, 3), 255.0)
        self.near: Floats = np.full(size * size, -np.inf)

    def put(self, places: Floats, colours: Floats) -> None:
        """Paints dots, shape (d, 3), that are nearer than what is there."""
        whole = np.rint(places[:, :2]).astype(np.int64)
        pixels = whole[:, 1] * self.size + whole[:, 0]
        seen = np.flatnonzero(((whole >= 0) & (whole < self.size)).all(axis=1))
        seen = seen[places[seen, 2] > self.near[pixels[seen]]]
        seen = seen[np.argsort(places[seen, 2])]  # so that the nearest dot of a pixel is put there last
        self.near[pixels[seen]] = places[seen, 2]
        self.colours[pixels[seen]] = colours[seen]

    def triangles(self, corners: Floats, colours: Floats) -> None:
        """Paints triangles, shape (t, 3, 3): of each the pixels of the box around it that lie inside."""
        low = np.floor(corners[:, :, :2].min(axis=1)).astype(np.int64)
        sides = np.ceil(corners[:, :, :2].max(axis=1)).astype(np.int64) - low + 1
        areas = sides.prod(axis=1)
        rounds = np.cumsum(areas) // AT_ONCE
        for one in np.unique(rounds):
            some = np.flatnonzero(rounds == one)
            owners = np.repeat(some, areas[some])
            steps = np.arange(len(owners)) - np.repeat(np.cumsum(areas[some]) - areas[some], areas[some])
            pixels = low[owners] + np.stack([steps % sides[owners, 0], steps // sides[owners, 0]], axis=1)
            inside, near = _inside(corners, owners, pixels)
            dots = np.column_stack([pixels[inside], near])
            self.put(dots, colours[owners[inside]])

    def segments(self, ends: Floats, colour: Floats, brush: Floats) -> None:
        """Paints segments, shape (s, 2, 3), with a brush of dots, shape (b, 3)."""
        reach = np.ceil(np.ptp(ends[:, :, :2], axis=1).max(axis=1, initial=0.0)).astype(np.int64) + 1
        owners = np.repeat(np.arange(len(ends)), reach)
        steps = np.arange(len(owners)) - np.repeat(np.cumsum(reach) - reach, reach)
        part = (steps / np.maximum(reach - 1, 1)[owners])[:, None]
        dots = ends[owners, 0] * (1 - part) + ends[owners, 1] * part
        places = (dots[:, None] + brush[None]).reshape(-1, 3)
        self.put(places, np.broadcast_to(colour, places.shape))

    def halved(self) -> npt.NDArray[np.uint8]:
        """The pixels at half the size, each the mean of four."""
        half = self.size // 2
        mean = self.colours.reshape(half, 2, half, 2, 3).mean(axis=(1, 3))
        pixels: npt.NDArray[np.uint8] = np.clip(np.rint(mean), 0, 255).astype(np.uint8)
        return pixels


def _inside(corners: Floats, owners: Ints, pixels: Ints) -> Tuple[Ints, Floats]:
    """Which pixels lie in their triangles, and how near these are there."""
    p, q, r = (corners[:, k] for k in range(3))
    areas = _cross(q - p, r - p)
    flat = np.abs(areas) < 1e-9
    areas = np.where(flat, 1.0, areas)
    place = pixels - p[owners, :2]
    b = _cross(place, (r - p)[owners]) / areas[owners]
    c = _cross((q - p)[owners], place) / areas[owners]
    inside = np.flatnonzero((b >= -1e-6) & (c >= -1e-6) & (b + c <= 1 + 1e-6) & ~flat[owners])
    these, b, c = owners[inside], b[inside], c[inside]
    return inside, p[these, 2] * (1 - b - c) + q[these, 2] * b + r[these, 2] * c


def _cross(u: Floats, v: Floats) -> Floats:
    product: Floats = u[:, 0] * v[:, 1] - u[:, 1] * v[:, 0]
    return product


def png(
    places: Floats,
    faces: Polygons,
    colours: Floats,
    lines: Sequence[Tuple[Ints, Floats]],
    lift: float,
    size: int,
) -> bytes:
    """The picture of faces in these colours with lines on them. Places are in parts of the width, from -0.5 to 0.5:
    right, up and near. Lines are taken to be a lift nearer than they are."""
    wide = 2 * size
    dots = (places * MARGIN * (1, -1, 1) + (0.5, 0.5, 0.0)) * wide
    canvas = Canvas(wide)
    triangles, owners = _triangles(faces)
    canvas.triangles(dots[triangles], colours[owners])
    canvas.segments(dots[_edges(faces)], GREY, np.array([(0.0, 0.0, 0.001 * wide)]))
    brush = _brush(max(2.0, WIDTH * wide / 2), lift * wide)
    for edges, colour in lines:
        canvas.segments(dots[edges], colour, brush)
    return _png_bytes(canvas.halved())


def _brush(reach: float, lift: float) -> Floats:
    """Dots in a circle."""
    offsets = np.arange(-int(reach), int(reach) + 1)
    i, j = (grid.reshape(-1) for grid in np.meshgrid(offsets, offsets))
    round_ones = i * i + j * j <= reach * reach
    dots: Floats = np.stack([i, j, np.full(len(i), lift)], axis=1)[round_ones]
    return dots


def _triangles(faces: Polygons) -> Tuple[Ints, Ints]:
    """Triangles that fill the faces, shape (t, 3), and the face of each."""
    if isinstance(faces, np.ndarray):
        count, size = faces.shape
        fans = [np.stack([faces[:, 0], faces[:, k], faces[:, k + 1]], axis=1) for k in range(1, size - 1)]
        return np.concatenate(fans), np.tile(np.arange(count), size - 2)
    rows = [(face[0], face[k], face[k + 1]) for face in faces for k in range(1, len(face) - 1)]
    owners = [number for number, face in enumerate(faces) for _ in range(len(face) - 2)]
    return np.array(rows), np.array(owners)


def _edges(faces: Polygons) -> Ints:
    rows = [faces] if isinstance(faces, np.ndarray) else [face[None] for face in faces]
    ends = np.concatenate([np.stack([row, np.roll(row, -1, axis=1)], axis=2).reshape(-1, 2) for row in rows])
    edges: Ints = np.unique(np.sort(ends, axis=1), axis=0)
    return edges


def _png_bytes(pixels: npt.NDArray[np.uint8]) -> bytes:
    """The PNG of pixels of three bytes, shape (height, width, 3)."""

    def chunk(kind: bytes, data: bytes) -> bytes:
        return struct.pack(">I", len(data)) + kind + data + struct.pack(">I", zlib.crc32(kind + data))

    height, width, _ = pixels.shape
    rows = np.concatenate([np.zeros((height, 1), np.uint8), pixels.reshape(height, -1)], axis=1)
    head = struct.pack(">IIBBBBB", width, height, 8, 2, 0, 0, 0)
    body = zlib.compress(rows.tobytes(), 9)
    return b"\x89PNG\r\n\x1a\n" + chunk(b"IHDR", head) + chunk(b"IDAT", body) + chunk(b"IEND", b"")
