// Takes handles off a closed surface, shortest first: it is cut along cycles that don't separate it, and each border
// that this leaves is closed by one face. After I. Guskov and Z. J. Wood, "Topological noise removal", 2001.
// A cycle is `{units, vertices}`: its length, and its vertices, each of them once.

/** So much of the surface's diagonal, at most, a vertex moves off its cut, and of the way to what is beside it. */
const HAIR = 1e-5, SHARE = 1e-3;

const stepsOf = ({ vertices }) => vertices.map((v, k) => [v, vertices[(k + 1) % vertices.length]]);

/** A number for each pair of vertices, in their order. */
export const keyOf = (u, v) => u * 2 ** 26 + v;

/** The faces at a vertex: the two neighbours of the vertex in each, and the two faces at each neighbour. */
class Ring {
  constructor() {
    this.neighbours = new Map();
    this.faces = new Map();
  }

  add(number, face, place) {
    const pair = [face[(place + face.length - 1) % face.length], face[(place + 1) % face.length]];
    this.neighbours.set(number, pair);
    for (const neighbour of pair) this.faces.set(neighbour, [...(this.faces.get(neighbour) || []), number]);
  }

  across(face, neighbour) {
    const [one, other] = this.neighbours.get(face);
    return neighbour === one ? other : one;
  }

  /** The faces round the vertex from one at the edge to `before` up to that to `after`, and the neighbours between. */
  between(face, before, after) {
    const arc = [face], passed = [];
    for (let at = this.across(face, before); at !== after; at = this.across(arc.at(-1), at)) {
      passed.push(at);
      const [one, other] = this.faces.get(at);
      arc.push(arc.at(-1) === one ? other : one);
    }
    return { arc, passed };
  }
}

/** The rings of the faces at these vertices. */
function ringsAt(faces, vertices) {
  const rings = new Map(Array.from(vertices, (vertex) => [vertex, new Ring()]));
  faces.forEach((face, number) => {
    face.forEach((vertex, place) => rings.get(vertex)?.add(number, face, place));
  });
  return rings;
}

/**
 * What lies on one side of a cycle: at each of its vertices the faces there (`arcs`), and the edges that leave it on
 * this side. On a one-sided cycle what begins on one side comes back on the other, at its first vertex. `along` tells
 * of the two faces at its first edge, that on this side first, whether they run it as the cycle does.
 */
function sideOf({ vertices }, rings) {
  const count = vertices.length, ring = rings.get(vertices[0]), pair = ring.faces.get(vertices[1]);
  const arcs = [], leaving = [];
  let face = pair[0];
  for (let k = 1; k <= count; k++) {
    const vertex = vertices[k % count];
    const { arc, passed } = rings.get(vertex).between(face, vertices[k - 1], vertices[(k + 1) % count]);
    arcs[k % count] = arc;
    for (const end of passed) leaving.push(keyOf(vertex, end));
    face = arc.at(-1);
  }
  const along = pair.map((it) => ring.neighbours.get(it)[1] === vertices[1]);
  return { arcs, leaving, isTwoSided: face === pair[0], along };
}

/** Whether no sum (mod 2) of some rows of bits is 0. */
function isIndependent(rows) {
  const kept = [];
  for (const row of rows) {
    const left = kept.reduce((rest, it) => ((rest ^ it) < rest ? rest ^ it : rest), row);
    if (!left) return false;
    kept.push(left);
    kept.sort((a, b) => (a < b ? 1 : -1));
  }
  return true;
}

/**
 * Cycles of a least basis that are taken off at once, each of them a shortest one when its turn comes.
 *
 * They have no vertex in common and are independent, so together they don't separate. A cycle that meets one of them is
 * passed over. Why the next is still a shortest one: what doesn't separate once the chosen ones are off crosses each of
 * them an even number of times and is no sum of them. If it is no sum of them and of those passed over either, it is no
 * shorter than the next cycle, since the basis is least. So it has to be excluded that some of those passed over cross
 * each chosen one an even number of times, all together: their rows of crossings stay independent (mod 2), or nothing
 * more is chosen.
 */
class Together {
  constructor() {
    this.chosen = [];
    this.passed = [];
    this.taken = new Set();
    this.leaving = new Map();
  }

  meets({ vertices }) {
    return vertices.some((v) => this.taken.has(v));
  }

  choose(cycle, side) {
    for (const key of side.leaving) this.leaving.set(key, 1n << BigInt(this.chosen.length));
    for (const v of cycle.vertices) this.taken.add(v);
    this.chosen.push({ cycle, side });
  }

  /** Whether more can be chosen once this cycle is passed over. */
  passOver(cycle) {
    this.passed.push(cycle);
    return isIndependent(this.passed.map((it) => this.crossings(it)));
  }

  /** The chosen cycles that this one crosses an odd number of times, as bits: each is pushed to its side a little. */
  crossings(cycle) {
    const bit = (u, v) => this.leaving.get(keyOf(u, v)) || 0n;
    return stepsOf(cycle).reduce((bits, [u, v]) => bits ^ bit(u, v) ^ bit(v, u), 0n);
  }
}

/** The first cycles of a least basis that can be taken off at once, with their sides; a one-sided one alone. */
function together(faces, cycles) {
  const rings = ringsAt(faces, new Set(cycles.flatMap(({ vertices }) => vertices))), found = new Together();
  for (const cycle of cycles) {
    if (found.meets(cycle)) {
      if (!found.passOver(cycle)) break;
      continue;
    }
    const side = sideOf(cycle, rings);
    if (side.isTwoSided || !found.chosen.length) found.choose(cycle, side);
    if (!side.isTwoSided) break;
  }
  return found.chosen;
}

/** A closed surface that handles are taken off. In `vertexOrigins` a copy has the number that its vertex had at first. */
export class Surgery {
  /** @param {{points: Float64Array, starts: Uint32Array, corners: Uint32Array}} mesh */
  constructor({ points, starts, corners }) {
    this.points = Array.from(points);
    this.faces = Array.from({ length: starts.length - 1 }, (_, f) => [...corners.subarray(starts[f], starts[f + 1])]);
    this.oldFaces = this.faces.length;
    this.vertexOrigins = Array.from({ length: points.length / 3 }, (_, v) => v);
  }

  /** The surface as a mesh of tables, with other points where there are any. */
  mesh(points = this.points) {
    const starts = new Uint32Array(this.faces.length + 1);
    this.faces.forEach((face, f) => { starts[f + 1] = starts[f] + face.length; });
    return { points: Float64Array.from(points), starts, corners: Uint32Array.from(this.faces.flat()) };
  }

  /** Cuts along cycles that have no vertex in common, and closes the borders. */
  cut(chosen) {
    for (const { cycle: { vertices }, side } of chosen) {
      const copies = vertices.map((vertex, k) => this.copied(vertex, side.arcs[k]));
      const [along, alongBeyond] = side.along;
      if (side.isTwoSided) {
        this.close(vertices, alongBeyond);
        this.close(copies, along);
      } else {
        // From the first copy on the border runs to the second vertex itself, and at its end back.
        const turnedOn = (list) => [...list.slice(1), list[0]];
        this.close([...turnedOn(copies), ...turnedOn(vertices)], along);
      }
    }
  }

  /** Gives the faces of an arc a copy of their vertex, at the same place. */
  copied(vertex, arc) {
    const copy = this.vertexOrigins.push(this.vertexOrigins[vertex]) - 1;
    this.points.push(...this.points.slice(3 * vertex, 3 * vertex + 3));
    for (const f of arc) this.faces[f] = this.faces[f].map((v) => (v === vertex ? copy : v));
    return copy;
  }

  /** Closes a border by one face, against the way that the faces there run it. */
  close(rim, isBackwards) {
    this.faces.push(isBackwards ? [...rim].reverse() : [...rim]);
  }

  /** The points, in which copies of one vertex stand a hair apart, each moved to what lies on its side of the cut. */
  partedPoints() {
    const points = [...this.points], groups = this.copies(), beside = this.besideCopies(new Set(groups.flat()));
    const most = HAIR * diagonalOf(points);
    for (const copies of groups) {
      copies.forEach((copy, k) => {
        const step = stepTowards(points.slice(3 * copy, 3 * copy + 3), beside.get(copy), most);
        // No two go equally far, so they come apart where they go the same way, too.
        const part = (1 + (k + 1) / copies.length) / 2;
        step.forEach((x, c) => { points[3 * copy + c] += part * x; });
      });
    }
    return points;
  }

  /** The vertices that are copies of one, for each vertex that has several. */
  copies() {
    const groups = new Map();
    this.vertexOrigins.forEach((origin, v) => groups.set(origin, [...(groups.get(origin) || []), v]));
    return [...groups.values()].filter((copies) => copies.length > 1);
  }

  /** For each copy the places of corners of its old faces, of those alone that aren't copies if there are any. */
  besideCopies(copies) {
    const corners = new Map(Array.from(copies, (copy) => [copy, new Set()]));
    for (const face of this.faces.slice(0, this.oldFaces)) {
      for (const v of face) if (copies.has(v)) face.forEach((corner) => corners.get(v).add(corner));
    }
    const placesOf = (list) => list.map((v) => this.points.slice(3 * v, 3 * v + 3));
    return new Map(Array.from(corners, ([copy, some]) => {
      const others = [...some].filter((v) => !copies.has(v));
      return [copy, placesOf(others.length ? others : [...some])];
    }));
  }
}

function diagonalOf(points) {
  const low = [Infinity, Infinity, Infinity], high = [-Infinity, -Infinity, -Infinity];
  points.forEach((x, k) => {
    low[k % 3] = Math.min(low[k % 3], x);
    high[k % 3] = Math.max(high[k % 3], x);
  });
  return Math.hypot(...low.map((x, c) => high[c] - x));
}

/** The step to the middle of the goals by a small share of the way, and no more than so far; else along an axis. */
function stepTowards(place, goals, most) {
  const way = place.map((x, c) => goals.reduce((sum, goal) => sum + goal[c], 0) / goals.length - x);
  const size = Math.hypot(...way);
  return size ? way.map((x) => (Math.min(most, SHARE * size) * x) / size) : [most, 0, 0];
}

/**
 * Takes off the handles that are shorter than a limit. `finder.cycle(surgery)` is a shortest cycle that doesn't
 * separate it, or null, and `finder.basis(surgery)` a least homology basis (mod 2), the shortest cycle first. The last
 * word is that of `finder.cycle`. Answers the lengths of the cycles, in their order, how many of them were one-sided,
 * and the length of the one that is left, or null.
 */
export function takeOff(surgery, finder, limit) {
  const taken = [];
  let oneSided = 0;
  for (;;) {
    const left = finder.cycle(surgery);
    if (!left || left.units >= limit) return { taken, oneSided, left: left && left.units };
    const chosen = together(surgery.faces, finder.basis(surgery).filter(({ units }) => units < limit));
    for (const { cycle, side } of chosen) {
      taken.push(cycle.units);
      oneSided += !side.isTwoSided;
    }
    surgery.cut(chosen);
  }
}
