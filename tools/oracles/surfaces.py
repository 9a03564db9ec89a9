"""A test of surfaces by their definition, which shares nothing with the mender or with `surf`."""

from collections.abc import Sequence


def hang_together(links, nodes):
    """Whether all nodes can be reached from one over the links, which are pairs."""
    nodes = set(nodes)
    beside = {node: set() for node in nodes}
    for a, b in links:
        beside[a].add(b)
        beside[b].add(a)
    seen = set(list(nodes)[:1])
    todo = list(seen)
    while todo:
        new = beside[todo.pop()] - seen
        seen |= new
        todo += new
    return seen == nodes


def sides_of(faces: Sequence[Sequence[int]]) -> dict[tuple[int, int], list[int]]:
    """For each pair of vertices that follow one another in a face, the faces where they do."""
    found = {}
    for number, face in enumerate(faces):
        for u, v in zip(face, face[1:] + face[:1]):
            found.setdefault((min(u, v), max(u, v)), []).append(number)
    return found


def fault_of(count: int, faces: Sequence[Sequence[int]], border: bool = False) -> str | None:
    """Why so many vertices and these faces are no connected surface, or None. With `border` an edge may have one
    face."""
    for number, face in enumerate(faces):
        if len(face) < 3 or len(set(face)) < len(face) or not all(0 <= c < count for c in face):
            return f"face {number} isn't one of at least three different vertices"
    at = [[] for _ in range(count)]
    edges = sides_of(faces)
    for (u, v), sides in edges.items():
        if len(sides) != 2 and not (border and len(sides) == 1):
            return f"the edge {u} {v} has {len(sides)} faces"
        at[u].append(sides)
        at[v].append(sides)
    for vertex, rows in enumerate(at):
        if not rows or not hang_together([row for row in rows if len(row) == 2], {f for row in rows for f in row}):
            return f"the faces at vertex {vertex} are no one fan"
    if not faces or not hang_together([row for row in edges.values() if len(row) == 2], range(len(faces))):
        return "the faces don't hang together"
    return None


def characteristic(count: int, faces: Sequence[Sequence[int]]) -> int:
    return count - len(sides_of(faces)) + len(faces)
