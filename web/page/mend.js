// Changes a mesh so that it is a surface: equal points become one, what hangs on nothing is left out, the largest part
// is taken, and a vertex where several fans touch is split.
import { Faces, Table } from './lines.js';

/** The mesh's faces in a loop: what is called gets the place of the first corner and that behind the last. */
export function eachFace({ starts }, does) {
  for (let f = 0; f + 1 < starts.length; f++) does(starts[f], starts[f + 1], f);
}

const isWhole = ({ corners }, from, to, count) => {
  if (to - from < 3) return false;
  for (let k = from; k < to; k++) {
    if (corners[k] >= count) return false;
    for (let j = from; j < k; j++) if (corners[j] === corners[k]) return false;
  }
  return true;
};

/** The mesh without faces that have a vertex twice or one that isn't there, and without vertices that no face has. */
export function tidy(mesh) {
  const count = mesh.points.length / 3, faces = new Faces(), numbers = new Int32Array(count).fill(-1);
  const points = new Table(Float64Array), names = new Table(Uint32Array);
  const used = new Uint8Array(count);
  eachFace(mesh, (from, to) => {
    if (!isWhole(mesh, from, to, count)) return;
    for (let k = from; k < to; k++) {
      used[mesh.corners[k]] = 1;
      faces.corners.push(mesh.corners[k]);
    }
    faces.end();
  });
  for (let v = 0; v < count; v++) {
    if (!used[v]) continue;
    numbers[v] = names.size;
    names.push(mesh.names ? mesh.names[v] : v);
    for (let c = 0; c < 3; c++) points.push(mesh.points[3 * v + c]);
  }
  const { starts, corners } = faces.done();
  for (let k = 0; k < corners.length; k++) corners[k] = numbers[corners[k]];
  return { points: points.done(), starts, corners, names: names.done() };
}

/** For each vertex the least vertex that has the very same point. */
export function firstAtPoint(points) {
  const count = points.length / 3, first = new Uint32Array(count);
  let room = 16;
  while (room < 2 * count) room *= 2;
  const table = new Int32Array(room).fill(-1), value = new Float64Array(3), bits = new Int32Array(value.buffer);
  for (let v = 0; v < count; v++) {
    for (let c = 0; c < 3; c++) value[c] = points[3 * v + c] + 0; // -0 becomes 0
    let hash = 0;
    for (let k = 0; k < 6; k++) hash = Math.imul(hash ^ bits[k] ^ (bits[k] >>> 15), 0x9e3779b1) ^ (hash >>> 13);
    let at = (hash ^ (hash >>> 16)) & (room - 1);
    const isHere = (w) => [0, 1, 2].every((c) => value[c] === points[3 * w + c]);
    while (table[at] >= 0 && !isHere(table[at])) at = (at + 1) & (room - 1);
    if (table[at] < 0) table[at] = v;
    first[v] = table[at];
  }
  return first;
}

/** The mesh in which vertices at the very same point are one. */
export function merged(mesh) {
  const first = firstAtPoint(mesh.points);
  return { ...mesh, corners: mesh.corners.map((v) => (v < first.length ? first[v] : v)) };
}

/** Of each side the vertex at its end: the corner behind that at its beginning. */
export function aheadOf({ starts, corners }) {
  const ahead = new Uint32Array(corners.length);
  eachFace({ starts }, (from, to) => {
    for (let k = from; k < to; k++) ahead[k] = corners[k + 1 < to ? k + 1 : from];
  });
  return ahead;
}

/**
 * Of each side, from a corner to the next, the other side at its edge: -1 where it has none, and -2 where the edge
 * has three sides or more. `edges` are the ends of all edges, two numbers each, in order.
 */
export function matesOf(mesh) {
  const { corners } = mesh, count = mesh.points.length / 3, size = corners.length, ahead = aheadOf(mesh);
  const firsts = new Uint32Array(count + 1);
  for (let k = 0; k < size; k++) firsts[Math.min(corners[k], ahead[k]) + 1]++;
  for (let v = 0; v < count; v++) firsts[v + 1] += firsts[v];
  const order = new Uint32Array(size), fill = firsts.slice(0, count);
  for (let k = 0; k < size; k++) order[fill[Math.min(corners[k], ahead[k])]++] = k;
  const mates = new Int32Array(size).fill(-1), edges = new Table(Uint32Array);
  for (let v = 0; v < count; v++) {
    const sides = order.subarray(firsts[v], firsts[v + 1]), other = (k) => Math.max(corners[k], ahead[k]);
    sides.sort((a, b) => other(a) - other(b));
    for (let at = 0, to; at < sides.length; at = to) {
      for (to = at + 1; to < sides.length && other(sides[to]) === other(sides[at]); ) to++;
      edges.push(v);
      edges.push(other(sides[at]));
      if (to === at + 2) [mates[sides[at]], mates[sides[at + 1]]] = [sides[at + 1], sides[at]];
      else if (to > at + 2) for (let k = at; k < to; k++) mates[sides[k]] = -2;
    }
  }
  return { mates, ahead, edges: edges.done() };
}

class Parts {
  constructor(count) {
    this.above = Int32Array.from({ length: count }, (_, k) => k);
  }

  of(k) {
    while (this.above[k] !== k) k = this.above[k] = this.above[this.above[k]];
    return k;
  }

  join(a, b) {
    this.above[this.of(a)] = this.of(b);
  }
}

/** The part of the mesh, connected by shared vertices, that has the most faces, and how many parts there are. */
export function largest(mesh) {
  const parts = new Parts(mesh.points.length / 3), faces = new Faces(), counts = new Map();
  eachFace(mesh, (from, to) => {
    for (let k = from + 1; k < to; k++) parts.join(mesh.corners[k], mesh.corners[from]);
  });
  eachFace(mesh, (from) => {
    const part = parts.of(mesh.corners[from]);
    counts.set(part, (counts.get(part) || 0) + 1);
  });
  const most = [...counts].reduce((best, it) => (it[1] > best[1] ? it : best), [-1, 0])[0];
  eachFace(mesh, (from, to) => {
    if (parts.of(mesh.corners[from]) === most) faces.add(mesh.corners.subarray(from, to));
  });
  return { mesh: tidy({ ...mesh, ...faces.done() }), parts: counts.size };
}

/** The fans of corners: two corners at one vertex are of one fan where their faces share an edge there. */
function fansOf(mesh, mates) {
  const { corners } = mesh, fans = new Parts(corners.length), next = new Uint32Array(corners.length);
  eachFace(mesh, (from, to) => {
    for (let k = from; k < to; k++) next[k] = k + 1 < to ? k + 1 : from;
  });
  for (let k = 0; k < corners.length; k++) {
    const mate = mates[k];
    if (mate < 0) continue;
    const [start, end] = corners[mate] === corners[k] ? [mate, next[mate]] : [next[mate], mate];
    fans.join(k, start);
    fans.join(next[k], end);
  }
  return fans;
}

/** The mesh in which each fan of faces at a vertex has a vertex of its own, and how many were added. */
export function split(mesh, mates = matesOf(mesh).mates) {
  const fans = fansOf(mesh, mates), count = mesh.points.length / 3;
  const owner = new Int32Array(count).fill(-1), copies = new Map();
  const points = new Table(Float64Array, 3 * count + 1), names = new Table(Uint32Array, count + 1);
  for (let v = 0; v < count; v++) {
    for (let c = 0; c < 3; c++) points.push(mesh.points[3 * v + c]);
    names.push(mesh.names ? mesh.names[v] : v);
  }
  const corners = mesh.corners.map((v, k) => {
    const fan = fans.of(k);
    if (owner[v] < 0) owner[v] = fan;
    if (owner[v] === fan) return v;
    if (!copies.has(fan)) {
      copies.set(fan, names.size);
      for (let c = 0; c < 3; c++) points.push(mesh.points[3 * v + c]);
      names.push(names.list[v]);
    }
    return copies.get(fan);
  });
  return { mesh: { ...mesh, points: points.done(), corners, names: names.done() }, added: copies.size };
}

const decimal = (x) => (Number.isInteger(x) ? String(x) : x.toFixed(9).replace(/\.?0+$/, ''));

/**
 * The mesh as the text that `surf` reads, a piece at a time, so that no one string is too long. Where a hub joins holes a
 * comment at the end tells from which face and vertex on it is added.
 */
export function offOf({ points, starts, corners, hub }) {
  const encoder = new TextEncoder(), pieces = [];
  let rows = ['OFF', `${points.length / 3} ${starts.length - 1} 0`];
  const flush = () => {
    if (rows.length) pieces.push(encoder.encode(rows.join('\n') + '\n'));
    rows = [];
  };
  for (let k = 0; k < points.length; k += 3) {
    rows.push(`${decimal(points[k])} ${decimal(points[k + 1])} ${decimal(points[k + 2])}`);
    if (rows.length > 50000) flush();
  }
  eachFace({ starts }, (from, to) => {
    rows.push(`${to - from} ${corners.subarray(from, to).join(' ')}`);
    if (rows.length > 50000) flush();
  });
  if (hub) rows.push(`# added faces ${hub.face} vertices ${hub.vertex}`);
  flush();
  const whole = new Uint8Array(pieces.reduce((sum, piece) => sum + piece.length, 0));
  pieces.reduce((at, piece) => (whole.set(piece, at), at + piece.length), 0);
  return whole;
}
