"""Texts of meshes and lengths, as `surf` reads them."""

from __future__ import annotations

import math
from typing import Any, List, Sequence, Set, Tuple

from .soup import MeshFileError, faces_of, is_array, np

GREATEST_LENGTH = 2**32 - 1
DECIMALS = 9  # `surf lengths` cuts what stands behind the ninth


def mesh_text(lines: bytes, corners: Any, starts: Any, edges: int, comment: str = "") -> bytes:
    """A mesh as OFF, of the lines of its vertices, with a comment at its end where there is one."""
    counts = "OFF\n%d %d %d\n" % (lines.count(b"\n"), len(starts) - 1, edges)
    told = f"# {comment}\n" if comment else ""
    return counts.encode() + lines + faces_text(corners, starts) + told.encode()


def map_text(vertices: Sequence[int], faces: Sequence[int]) -> bytes:
    """A line `v N` for each vertex and `f N` for each face, by the number that it had: `-` where it is new."""
    rows = [("v", n) for n in vertices] + [("f", n) for n in faces]
    return "".join(f"{word} {'-' if n < 0 else n}\n" for word, n in rows).encode()


def points_text(points: Any) -> bytes:
    """A line for each point: three decimals of up to nine digits behind the point. Coordinates that are too great or
    all too small for that are written with all their digits."""
    if not len(points):
        return b""
    if is_array(points):
        return _points_by_arrays(points)
    greatest: float = max(abs(x) for point in points for x in point)
    if not 1e-3 <= greatest < 1e9:
        return exact_points_text(points)
    return "".join(f"{decimal(x)} {decimal(y)} {decimal(z)}\n" for x, y, z in points).encode()


def exact_points_text(points: Sequence[Sequence[float]]) -> bytes:
    """A line for each point with all digits, so that what was read is measured as it was in its file."""
    return "".join(f"{x!r} {y!r} {z!r}\n" for x, y, z in points).encode()


def decimal(x: float) -> str:
    value = round(x * 1e9)
    whole, rest = divmod(abs(value), 10**DECIMALS)
    text = f"{whole}.{rest:09d}".rstrip("0").rstrip(".") if rest else str(whole)
    return f"-{text}" if value < 0 else text


def _points_by_arrays(points: Any) -> bytes:
    greatest = np.abs(points).max()
    if not 1e-3 <= greatest < 1e9:
        return exact_points_text(points.tolist())
    values = np.rint(points * 1e9).astype(np.int64).reshape(-1)
    signs, values = values < 0, np.abs(values)
    wide = max(1, len(str(int(values.max()) // 10**DECIMALS)))
    wholes = values // 10**DECIMALS
    digits = np.hstack([digits_of(wholes, wide), digits_of(values - wholes * 10**DECIMALS, DECIMALS)])
    # Kept are the digits from the first that isn't 0, or the last before the point, to the last that isn't 0.
    begun = np.logical_or.accumulate(digits[:, :wide] != 0, axis=1)
    begun[:, -1] = True
    ended = np.logical_or.accumulate(digits[:, : wide - 1 : -1] != 0, axis=1)[:, ::-1]
    text = np.zeros((len(values), wide + DECIMALS + 3), np.uint8)
    keep = np.ones(text.shape, bool)
    text[:, 0], keep[:, 0] = ord("-"), signs
    text[:, 1 : wide + 1], keep[:, 1 : wide + 1] = digits[:, :wide] + ord("0"), begun
    text[:, wide + 1], keep[:, wide + 1] = ord("."), ended[:, 0]
    text[:, wide + 2 : -1], keep[:, wide + 2 : -1] = digits[:, wide:] + ord("0"), ended
    text[:, -1] = ord(" ")
    text[2::3, -1] = ord("\n")
    return bytes(text[keep])


def digits_of(values: Any, wide: int) -> Any:
    """The digits of whole numbers from 0 on, a row of so many for each."""
    digits = np.empty((wide, len(values)), np.uint8)
    if wide < 10:
        values = values.astype(np.uint32)
    for column in range(wide - 1, -1, -1):
        tens = values // 10
        digits[column] = values - tens * 10
        values = tens
    return digits.T


def faces_text(corners: Any, starts: Any) -> bytes:
    """A line for each face: the number of its corners, and these."""
    if not is_array(corners):
        return "".join(f"{len(face)} {' '.join(map(str, face))}\n" for face in faces_of(corners, starts)).encode()
    sizes = np.diff(starts)
    words = np.insert(corners, starts[:-1], sizes)
    wide = len(str(int(words.max()))) if len(words) else 1
    text = np.zeros((len(words), wide + 1), np.uint8)
    text[:, :wide] = digits_of(words, wide)
    keep = np.ones(text.shape, bool)
    keep[:, :wide] = np.logical_or.accumulate(text[:, :wide] != 0, axis=1)
    keep[:, wide - 1] = True
    text[:, :wide] += ord("0")
    text[:, wide] = ord(" ")
    text[starts[1:] + np.arange(len(sizes)), wide] = ord("\n")
    return bytes(text[keep])


def edges_of(corners: Any, starts: Any) -> List[Tuple[int, int]]:
    """Each edge once, the lesser end first, in order."""
    found: Set[Tuple[int, int]] = set()
    for face in faces_of(corners, starts):
        found.update((u, v) if u < v else (v, u) for u, v in zip(face, face[1:] + face[:1]))
    return sorted(found)


def lengths_text(
    points: Any, edges: Sequence[Tuple[int, int]], far: Sequence[Tuple[int, int]], decimals: int
) -> bytes:
    """A length file: the edges as `surf lengths` measures them in units of 10^-decimals, and the greatest length that
    there is for the `far` ones. MeshFileError where a measure is 0, or as great as that."""
    if not 0 <= decimals <= DECIMALS:
        raise MeshFileError(f"units have 0 to {DECIMALS} decimals")
    fixed = [[fixed_value(x) for x in point] for point in points_as_written(points)]
    rows, is_far, scale = [], set(far), 100 ** (DECIMALS - decimals)
    for u, v in edges:
        if (u, v) in is_far:
            rows.append(f"{u} {v} {GREATEST_LENGTH}\n")
            continue
        length = math.isqrt(sum((a - b) ** 2 for a, b in zip(fixed[u], fixed[v])) // scale)
        if not 0 < length < GREATEST_LENGTH:
            what = "shorter than one unit: take more decimals" if length == 0 else "too long: take fewer decimals"
            raise MeshFileError(f"the edge {u} {v} is {what}")
        rows.append(f"{u} {v} {length}\n")
    return "".join(rows).encode()


def points_as_written(points: Any) -> List[List[str]]:
    return [line.split() for line in points_text(points).decode().splitlines()]


def fixed_value(word: str) -> int:
    """The value of a decimal in units of 10^-9, cut to a whole number towards zero, as `surf lengths` reads it."""
    mantissa, _, power = word.lower().partition("e")
    whole, _, rest = mantissa.lstrip("+-").partition(".")
    shift = DECIMALS + int(power or 0) - len(rest)
    value = int(whole + rest) * int(10**shift) if shift >= 0 else int(whole + rest) // int(10**-shift)
    return -value if mantissa.startswith("-") else value
