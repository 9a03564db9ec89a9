"""Whole arrays to the texts that surf reads, and its answers back to arrays, without a loop over numbers.

surf allows leading zeros, so a table of numbers is a block of fields of one width, which numpy fills by looking up
groups of digits.
"""

from __future__ import annotations

import functools
from typing import Union

import numpy as np
import numpy.typing as npt

Ints = npt.NDArray[np.int64]
Floats = npt.NDArray[np.float64]

NO_VERTEX = 4_294_967_295  # a number that surf reads, and that is no vertex of any mesh
BILLION = 1_000_000_000
FEW = 1 << 16  # numbers that are written at once, so that they stay in the processor's cache
PLACES_BELOW = 4_194_304.0  # below 2^22, doubles lie closer than 10^-9, so their shortest decimals are easily told


@functools.lru_cache(maxsize=None)
def _groups(form: bytes, count: int) -> npt.NDArray[np.uint32]:
    """The four bytes that the form makes of each number below a count."""
    return np.frombuffer(b"".join(form % number for number in range(count)), np.uint32)


def token_lines(tokens: Ints, last: Union[Ints, slice]) -> bytes:
    """Whole numbers as text, with single spaces between; the places of the last ones on their lines are told.

    A number below 0 stands for no vertex, and is written as one that no mesh has."""
    least, most = int(tokens.min(initial=0)), int(tokens.max(initial=0))
    if least < 0:
        tokens = np.where(tokens < 0, NO_VERTEX, tokens)
        most = max(most, NO_VERTEX)
    fours = 1 + max(0, -(-(len(str(most)) - 3) // 4))
    block = np.empty((len(tokens), fours), np.uint32)
    for start in range(0, len(tokens), FEW):
        _fill(block[start : start + FEW], tokens[start : start + FEW])
    text = block.view(np.uint8)
    text[last, -1] = ord("\n")
    return text.tobytes()


def _fill(block: npt.NDArray[np.uint32], tokens: Ints) -> None:
    """Fills a row of groups of four bytes for each number: four digits each, and the last three and a space."""
    rest = tokens // 1000
    block[:, -1] = _groups(b"%03d ", 1000)[tokens - 1000 * rest]
    for column in range(block.shape[1] - 2, -1, -1):
        higher = rest // 10000
        block[:, column] = _groups(b"%04d", 10000)[rest - 10000 * higher]
        rest = higher


def place_lines(vertices: Floats) -> bytes:
    """A line for each vertex with its three coordinates, as exact as surf reads them.

    surf takes of a decimal number nine places and cuts the others. These are the places that it would take of the
    shortest decimals of each double, those that Python prints."""
    if not (np.abs(vertices) < PLACES_BELOW).all():  # far out, or not finite: surf decides on what Python prints
        return (("%r %r %r\n" * len(vertices)) % tuple(vertices.reshape(-1).tolist())).encode()
    block = np.empty((len(vertices), 3, 5), np.uint32)
    for start in range(0, len(vertices), FEW // 4):
        _fill_places(block[start : start + FEW // 4], vertices[start : start + FEW // 4])
    text = block.view(np.uint8)
    text[:, -1, -1] = ord("\n")
    return text.tobytes()


def billionths(values: Floats) -> Ints:
    """The amounts of numbers below 2^22, times 10^9 and cut to whole numbers, by their shortest decimals.

    Where the nearest whole number of billionths is the number as a double, it is what the shortest decimals say.
    Else these lie on the same side of it as the double does."""
    amounts = np.abs(values)
    nearest = np.rint(amounts * 1e9)
    cut: Ints = (nearest - (amounts < nearest / 1e9)).astype(np.int64)
    return cut


def _fill_places(block: npt.NDArray[np.uint32], values: Floats) -> None:
    """Fills five groups of four bytes for each coordinate: `+ddd`, `dddd`, `.ddd`, `dddd`, `dd0 `."""
    units = billionths(values)
    whole = units // BILLION
    part = units - BILLION * whole
    thousands, millionths = whole // 10000, part // 1_000_000
    signs = np.where(values < 0, 1000, 0)
    block[:, :, 0] = np.concatenate([_groups(b"+%03d", 1000), _groups(b"-%03d", 1000)])[thousands + signs]
    block[:, :, 1] = _groups(b"%04d", 10000)[whole - 10000 * thousands]
    block[:, :, 2] = _groups(b".%03d", 1000)[millionths]
    part -= 1_000_000 * millionths
    hundreds = part // 100
    block[:, :, 3] = _groups(b"%04d", 10000)[hundreds]
    block[:, :, 4] = _groups(b"%02d0 ", 100)[part - 100 * hundreds]


def numbers_of(text: bytes) -> Ints:
    """The whole numbers between the blanks of a text."""
    if not text.strip():
        return np.zeros(0, np.int64)
    found: Ints = np.fromstring(text.decode("ascii"), dtype=np.int64, sep=" ")
    return found
