// The holes of a surface: each is closed by a face, or all are joined by a sphere, the hub, so that loops round them
// count. Rims, faces and lengths are those of tools/users/meshfiles.
import { Faces, Lines, Table } from './lines.js';
import { largest, matesOf, split } from './mend.js';

/** The length of the hub's edges, in units: the greatest there is. */
const FAR = 4294967295;

/** The rim that begins with a side: its vertices. What is at a vertex are the sides of its rim there, none but two. */
function rimFrom(first, corners, ahead, at, done) {
  const rim = [];
  let forward = 0;
  for (let side = first, vertex = corners[first]; side !== undefined; ) {
    const isAhead = corners[side] === vertex;
    done.add(side);
    rim.push(vertex);
    forward += isAhead ? 1 : -1;
    vertex = isAhead ? ahead[side] : corners[side];
    side = at.get(vertex).find((other) => !done.has(other));
  }
  return forward > 0 ? rim.reverse() : rim;
}

/**
 * The rims round the holes of a mesh whose vertices have one fan each. A rim begins with the least side that is left,
 * and runs against most of its sides, as a face over the hole has to.
 */
function rimsOf(mesh) {
  const { mates, ahead } = matesOf(mesh), { corners } = mesh, at = new Map(), done = new Set(), rims = [];
  const put = (vertex, side) => (at.get(vertex)?.push(side) || at.set(vertex, [side]));
  mates.forEach((mate, side) => {
    if (mate !== -1) return;
    put(corners[side], side);
    put(ahead[side], side);
  });
  mates.forEach((mate, side) => {
    if (mate === -1 && !done.has(side)) rims.push(rimFrom(side, corners, ahead, at, done));
  });
  return rims;
}

/** The mesh with more faces behind its own. */
function withFaces(mesh, faces) {
  const more = new Faces();
  for (const face of faces) more.add(face);
  const { starts, corners } = more.done(), size = mesh.corners.length;
  const ends = new Uint32Array(mesh.starts.length + faces.length), all = new Uint32Array(size + corners.length);
  ends.set(mesh.starts);
  ends.set(starts.subarray(1).map((at) => at + size), mesh.starts.length);
  all.set(mesh.corners);
  all.set(corners, size);
  return { ...mesh, starts: ends, corners: all };
}

/** The mesh with a face over each hole, and how many were closed. */
export function closed(mesh) {
  const whole = split(mesh).mesh, rims = rimsOf(whole);
  return { mesh: withFaces(whole, rims), holes: rims.length };
}

/**
 * A sphere with a hole for each rim, of as many faces. Between rims its edges have a vertex in their middle, since their
 * ends may have an edge already.
 */
class Hub {
  constructor(rims, points) {
    this.points = new Table(Float64Array, 2 * points.length + 3);
    for (const x of points) this.points.push(x);
    this.faces = [];
    this.edges = [];
    this.whole = [...rims[0]];
    this.at = 0;
    for (const rim of rims.slice(1)) this.join(rim);
    this.faces.push(this.whole.slice(this.at));
  }

  /**
   * Makes one rim of two: a face is put between an edge of each, and what is left is one round. It doesn't begin with the
   * edges that were used, so that the next face is put elsewhere.
   */
  join(rim) {
    const u = this.whole[this.at++], v = this.whole[this.at++], [x, y] = rim;
    const one = this.middle(v, x), other = this.middle(y, u);
    this.faces.push([u, v, one, x, y, other]);
    this.whole.push(u, other);
    for (const vertex of rim.slice(1)) this.whole.push(vertex);
    this.whole.push(x, one, v);
  }

  middle(a, b) {
    const vertex = this.points.size / 3;
    for (let c = 0; c < 3; c++) this.points.push(this.points.list[3 * a + c] / 2 + this.points.list[3 * b + c] / 2);
    this.edges.push([a, vertex], [b, vertex]);
    return vertex;
  }
}

/**
 * The part of the mesh with the most faces, its holes joined by a hub, how many there are, and how many parts. `hub` of
 * the mesh has the first vertex and face of the hub, its edges, and the rims. One hole is closed: a loop round it bounds.
 */
export function joined(mesh) {
  const { mesh: part, parts } = largest(split(mesh).mesh), rims = rimsOf(part), holes = rims.length;
  if (holes < 2) return { mesh: withFaces(part, rims), holes, parts };
  const { points, faces, edges } = new Hub(rims, part.points), count = part.names.length;
  const names = new Uint32Array(points.size / 3).fill(2 ** 32 - 1);
  names.set(part.names);
  const hub = { vertex: count, face: part.starts.length - 1, edges, rims };
  return { mesh: { ...withFaces({ ...part, points: points.done(), names }, faces), hub }, holes, parts };
}

/** The mesh without its hub, where it has one: the surface with its holes. */
export function withoutHub(mesh) {
  const { hub, ...rest } = mesh;
  if (!hub) return mesh;
  const starts = mesh.starts.slice(0, hub.face + 1), corners = mesh.corners.slice(0, starts[hub.face]);
  return { ...rest, starts, corners, points: mesh.points.slice(0, 3 * hub.vertex), names: mesh.names.slice(0, hub.vertex) };
}

/** The mesh in which each hole is closed by a face in place of the hub: all edges but the hub's are there. */
export const closedForHub = (mesh) => withFaces(withoutHub(mesh), mesh.hub.rims);

const inOrder = (rows) => rows.sort(([a, b], [c, d]) => a - c || b - d);
const fileOf = (rows) => new TextEncoder().encode(rows.map((row) => `${row.join(' ')}\n`).join(''));

/** A length file of the mesh with its hub, of that of `closedForHub`. */
export function lengthsWithHub(text, { edges }) {
  const lines = new Lines(text), rows = edges.map((edge) => [...edge, FAR]);
  while (lines.next()) rows.push([0, 1, 2].map((k) => lines.number(k)));
  return fileOf(inOrder(rows));
}

/** A length file that gives all edges the length 1, but those of the hub the greatest. */
export function unitsWithHub({ edges }) {
  const head = new TextEncoder().encode('SURFLEN 2\ndefault 1\n'), rows = fileOf(edges.map((edge) => [...edge, FAR]));
  const whole = new Uint8Array(head.length + rows.length);
  whole.set(head);
  whole.set(rows, head.length);
  return whole;
}

/** What the page is told of a hub: its first vertex, how many holes there are, and how long cycles can be. */
export function hubOf({ hub, points }) {
  if (!hub) return null;
  const spans = [0, 1, 2].map((c) => {
    let low = Infinity, high = -Infinity;
    for (let k = c; k < 3 * hub.vertex; k += 3) [low, high] = [Math.min(low, points[k]), Math.max(high, points[k])];
    return high - low;
  });
  return { vertex: hub.vertex, holes: hub.rims.length, reach: 20 * Math.hypot(...spans) };
}
