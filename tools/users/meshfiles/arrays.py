"""The work on whole tables, by numpy. Each function answers as the one of its name in `plain` does."""

from __future__ import annotations

from typing import Any, Dict, List, Sequence, Tuple

from .plain import BORDER, CROWDED
from .soup import MeshFileError, np

Array = Any
MIXERS = (0x9E3779B97F4A7C15, 0xC2B2AE3D27D4EB4F, 0x165667B19E3779F9)
CHUNK = 1 << 18


def next_places(starts: Array) -> Array:
    found = np.arange(1, starts[-1] + 1)
    sizes = np.diff(starts)
    ends = starts[1:][sizes > 0] - 1
    found[ends] = starts[:-1][sizes > 0]
    return found


def face_numbers(starts: Array) -> Array:
    return np.repeat(np.arange(len(starts) - 1), np.diff(starts))


def mates_of(corners: Array, starts: Array) -> Tuple[Array, List[List[int]]]:
    mates = np.full(len(corners), BORDER)
    if np.bincount(corners, minlength=1).max() < 2:  # no two faces have a vertex in common
        return mates, []
    ends = corners[next_places(starts)]
    keys = np.minimum(corners, ends) * (corners.max() + 1) + np.maximum(corners, ends)
    order = np.argsort(keys, kind="stable")
    keys = keys[order]
    first = np.flatnonzero(np.concatenate([[True], keys[1:] != keys[:-1]]))
    sizes = np.diff(np.append(first, len(keys)))
    twos = first[sizes == 2]
    mates[order[twos]], mates[order[twos + 1]] = order[twos + 1], order[twos]
    many = np.repeat(sizes > 2, sizes)
    mates[order[many]] = CROWDED
    groups = np.split(order[many], np.cumsum(sizes[sizes > 2])[:-1]) if many.any() else []
    return mates, sorted((group.tolist() for group in groups), key=lambda group: group[0])


def _components(count: int, a: Array, b: Array) -> Array:
    """Each round every head with a lesser neighbour takes the least for its head, and all chains are shortened."""
    heads = np.arange(count)
    while True:
        a, b = heads[a], heads[b]
        apart = a != b
        if not apart.any():
            return heads
        a, b = a[apart], b[apart]
        low, high = np.minimum(a, b), np.maximum(a, b)
        order = np.argsort(low)[::-1]  # of several for one place the last stays, which so is the least
        heads[high[order]] = low[order]
        while True:
            shorter = heads[heads]
            if (shorter == heads).all():
                break
            heads = shorter


def components(count: int, links: Array) -> Array:
    pairs = np.array(list(links), np.int64).reshape(-1, 2)
    return _components(count, pairs[:, 0], pairs[:, 1])


def rim_vertices(corners: Array, starts: Array, mates: Array) -> Array:
    sides = np.flatnonzero(mates == BORDER)
    if len(sides) == len(mates):
        return np.unique(corners)
    return np.unique(np.concatenate([corners[sides], corners[next_places(starts)[sides]]]))


def _mixed(rows: Array) -> Array:
    """A number of 64 bits for each row, the same where rows are the same."""
    keys = np.zeros(len(rows), np.uint64)
    with np.errstate(over="ignore"):
        for column, mixer in zip(rows.T, MIXERS):
            keys = (keys ^ column) * np.uint64(mixer)
            keys ^= keys >> np.uint64(29)
    return keys


def equal_names(points: Array, chosen: Array) -> Array:
    names = np.arange(len(points))
    if not len(chosen):
        return names
    rows = np.ascontiguousarray(points[chosen] + 0.0).view(np.uint64)
    keys = _mixed(rows)
    order = np.argsort(keys)
    rows, keys = rows[order], keys[order]
    is_new = (rows[1:] != rows[:-1]).any(axis=1)
    if (is_new & (keys[1:] == keys[:-1])).any():  # two places with one key: then by the places themselves
        again = np.lexsort(rows.T)
        order, rows = order[again], rows[again]
        is_new = (rows[1:] != rows[:-1]).any(axis=1)
    firsts = np.flatnonzero(np.concatenate([[True], is_new]))
    vertices = chosen[order]
    names[vertices] = np.repeat(np.minimum.reduceat(vertices, firsts), np.diff(np.append(firsts, len(order))))
    return names


def near_pairs(points: Array, chosen: Array, distance: float, most: int) -> Array:
    places = points[chosen]
    spans = (places - places.min(axis=0)) / distance if len(chosen) else places
    if not len(chosen) or not spans.max() <= 2.0**60:  # so near no two different points can be
        return np.zeros((0, 2), np.int64)
    cells = np.floor(spans).astype(np.int64)
    keys = _mixed(cells.view(np.uint64))
    order = np.argsort(keys, kind="stable")
    found, looked = [], 0
    for step in [(x, y, z) for x in (-1, 0, 1) for y in (-1, 0, 1) for z in (-1, 0, 1)]:
        if step < (0, 0, 0):
            continue
        wanted = _mixed((cells + np.array(step)).view(np.uint64))
        low = np.searchsorted(keys, wanted, "left", order)
        counts = np.searchsorted(keys, wanted, "right", order) - low
        looked += int(counts.sum()) // (2 if step == (0, 0, 0) else 1)
        if looked > most:
            raise MeshFileError(f"{distance:g} is too great: too many points are that near each other")
        found += _pairs_within(places, order, low, counts, distance)
    pairs = chosen[np.concatenate(found)] if found else np.zeros((0, 2), np.int64)
    pairs.sort(axis=1)
    return np.unique(pairs[pairs[:, 0] < pairs[:, 1]], axis=0)


def _pairs_within(places: Array, order: Array, low: Array, counts: Array, distance: float) -> List[Array]:
    """Of each place with those that stand at `counts` numbers of the order from `low` on, the pairs that are near."""
    found = []
    for start in range(0, len(places), CHUNK):
        some = counts[start : start + CHUNK]
        one = np.repeat(np.arange(start, start + len(some)), some)
        begin = np.repeat(low[start : start + CHUNK] - (np.cumsum(some) - some), some)
        other = order[begin + np.arange(len(one))]
        steps = places[one] - places[other]
        is_near = np.sqrt((steps * steps).sum(axis=1)) <= distance
        found.append(np.stack([one[is_near], other[is_near]], axis=1))
    return found


def renamed(corners: Array, names: Array) -> Array:
    return names[corners]


def faulty_faces(corners: Array, starts: Array) -> List[int]:
    sizes = np.diff(starts)
    if len(sizes) and (sizes == sizes[0]).all() and sizes[0] > 0:
        rows = np.sort(corners.reshape(-1, sizes[0]), axis=1)
        faulty = (rows[:, 1:] == rows[:, :-1]).any(axis=1) | (sizes < 3)
        return list(np.flatnonzero(faulty).tolist())
    top = corners.max() + 1 if len(corners) else 1
    keys = np.sort(face_numbers(starts) * top + corners)
    faulty = sizes < 3
    faulty[keys[1:][keys[1:] == keys[:-1]] // top] = True
    return list(np.flatnonzero(faulty).tolist())


def with_faces(corners: Array, starts: Array, origins: Array, changes: Dict[int, List[List[int]]]) -> Array:
    if not changes:
        return corners, starts, origins
    keep = np.ones(len(starts) - 1, bool)
    keep[list(changes)] = False
    rows = [(f, row) for f in sorted(changes) for row in changes[f]]
    sizes = np.concatenate([np.diff(starts)[keep], np.array([len(row) for _, row in rows], np.int64)])
    numbers = np.concatenate([np.flatnonzero(keep), np.array([f for f, _ in rows], np.int64)])
    pool = np.concatenate(
        [corners[np.repeat(keep, np.diff(starts))], np.array(sum((r for _, r in rows), []), np.int64)]
    )
    begins = np.cumsum(sizes) - sizes
    order = np.argsort(numbers, kind="stable")
    sizes = sizes[order]
    new_starts = np.concatenate([[0], np.cumsum(sizes)])
    places = np.repeat(begins[order] - new_starts[:-1], sizes) + np.arange(new_starts[-1])
    return pool[places], new_starts, origins[numbers[order]]


def paired_faces(starts: Array, mates: Array) -> List[int]:
    sizes = np.diff(starts)
    if (sizes == 0).any() or (mates < 0).all():
        return []
    at = face_numbers(starts)
    others = np.where(mates >= 0, at[np.maximum(mates, 0)], -1)
    low, high = np.minimum.reduceat(others, starts[:-1]), np.maximum.reduceat(others, starts[:-1])
    is_paired = (low == high) & (low >= 0) & (low != np.arange(len(sizes))) & (sizes[np.maximum(low, 0)] == sizes)
    return list(np.flatnonzero(is_paired).tolist())


def is_inside_out(points: Array, corners: Array, starts: Array) -> bool:
    places = points[corners] - points[corners[0]]
    first = np.repeat(places[starts[:-1]], np.diff(starts), axis=0)
    values = first * np.cross(places, places[next_places(starts)])
    return bool(values.sum() < -1e-9 * np.abs(values).sum())


def areas(points: Array, corners: Array, starts: Array) -> Array:
    sizes = np.diff(starts)
    places = points[corners] - np.repeat(points[corners[starts[:-1]]], sizes, axis=0)
    cross = np.cross(places, places[next_places(starts)])
    return np.sqrt((np.add.reduceat(cross, starts[:-1]) ** 2).sum(axis=1)) / 2


def fans(corners: Array, starts: Array, mates: Array) -> Array:
    places = next_places(starts)
    sides = np.flatnonzero(mates > np.arange(len(mates)))
    others = mates[sides]
    is_same = corners[sides] == corners[others]
    ends = np.where(is_same, others, places[others])
    others = np.where(is_same, places[others], others)
    return _components(len(corners), np.concatenate([sides, places[sides]]), np.concatenate([ends, others]))


def parts(starts: Array, mates: Array) -> Array:
    at = face_numbers(starts)
    sides = np.flatnonzero(mates > np.arange(len(mates)))
    return _components(len(starts) - 1, at[sides], at[mates[sides]])


def is_orientable(corners: Array, starts: Array, mates: Array) -> bool:
    at, count = face_numbers(starts), len(starts) - 1
    sides = np.flatnonzero(mates > np.arange(len(mates)))
    turned = count * (corners[sides] == corners[mates[sides]])
    if not turned.any():
        return True
    one, other = at[sides], at[mates[sides]]
    a, b = np.concatenate([one, one + count]), np.concatenate([other + turned, other + count - turned])
    heads = _components(2 * count, a, b)
    return bool((heads[:count] != heads[count:]).all())


def parts_by_size(labels: Array, weights: Array) -> Array:
    heads, numbers = np.unique(labels, return_inverse=True)
    totals = np.bincount(numbers, weights)
    rows = np.split(np.argsort(numbers, kind="stable"), np.cumsum(np.bincount(numbers))[:-1])
    return [rows[k] for k in np.lexsort((heads, -totals))]


def chosen_part(tables: Array, faces: Array) -> Array:
    corners, starts, mates, heads = tables
    if len(faces) == len(starts) - 1:
        return corners, starts, mates, heads
    sizes = starts[faces + 1] - starts[faces]
    ends = np.cumsum(sizes)
    sides = np.repeat(starts[faces] - ends + sizes, sizes) + np.arange(ends[-1])
    mates = np.where(mates[sides] >= 0, np.searchsorted(sides, mates[sides]), BORDER)
    return corners[sides], np.concatenate([[0], ends]), mates, np.searchsorted(sides, heads[sides])


def numbered(corners: Array, heads: Array) -> Array:
    roots = np.flatnonzero(heads == np.arange(len(heads)))
    roots = roots[np.argsort(corners[roots], kind="stable")]
    numbers = np.zeros(len(heads), np.int64)
    numbers[roots] = np.arange(len(roots))
    return numbers[heads], corners[roots]


def twin_sides(corners: Array, starts: Array, mates: Array) -> List[int]:
    sides = np.flatnonzero((mates < 0) | (mates > np.arange(len(mates))))
    u, v = corners[sides], corners[next_places(starts)[sides]]
    keys = np.minimum(u, v) * (corners.max() + 1) + np.maximum(u, v)
    order = np.argsort(keys, kind="stable")
    again = order[1:][keys[order[1:]] == keys[order[:-1]]]
    return list(np.sort(sides[again]).tolist())


def inserted(corners: Array, starts: Array, middles: Dict[int, int]) -> Array:
    sides = np.array(sorted(middles))
    vertices = np.array([middles[side] for side in sides.tolist()])
    return np.insert(corners, sides + 1, vertices), starts + np.searchsorted(sides, starts)


def taken(values: Array, places: Array) -> Array:
    return values[places]


def joined(one: Array, other: Array) -> Array:
    if not len(other):
        return one
    return np.concatenate([one, np.asarray(other, one.dtype).reshape(-1, *one.shape[1:])])


def border_sides(mates: Array) -> List[int]:
    return list(np.flatnonzero(mates == BORDER).tolist())


def listed(values: Array) -> List[Any]:
    return list(values.tolist())


def changed(names: Array) -> int:
    return int((names != np.arange(len(names))).sum())


def ranges(count: int) -> Array:
    return np.arange(count)


def numbers(values: Sequence[int]) -> Array:
    return np.array(values, np.int64)
