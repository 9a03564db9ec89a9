// Lays a disc in the plane: the border on a circle, each other vertex at the mean of its neighbours.
// After W. T. Tutte, "How to draw a graph", 1963.
import { trianglesOf } from './shape.js';
import { matesOf } from './mend.js';

/** The greatest disc that is laid in the plane: beyond it that takes minutes. */
export const MOST_UNFOLDED = 150000;

/** The border on the circle of radius 1: the side from one vertex to the next takes as much as it is long. */
function circle(points, round, places) {
  const far = (u, v) => Math.hypot(...[0, 1, 2].map((c) => points[3 * u + c] - points[3 * v + c]));
  const sizes = Array.from(round, (v, k) => far(v, round[(k + 1) % round.length]));
  const least = (sizes.reduce((sum, size) => sum + size, 0) || 1) / (100 * sizes.length);
  const wide = sizes.map((size) => Math.max(size, least)), whole = wide.reduce((sum, size) => sum + size, 0);
  let angle = 0;
  round.forEach((v, k) => {
    places[2 * v] = Math.cos(angle);
    places[2 * v + 1] = Math.sin(angle);
    angle += (2 * Math.PI * wide[k]) / whole;
  });
}

/** The neighbours of each vertex, one list behind the other. */
function neighbours(count, edges) {
  const starts = new Uint32Array(count + 1), list = new Uint32Array(edges.length);
  for (const v of edges) starts[v + 1]++;
  for (let v = 0; v < count; v++) starts[v + 1] += starts[v];
  const fill = starts.slice(0, count);
  for (let k = 0; k < edges.length; k += 2) {
    list[fill[edges[k]]++] = edges[k + 1];
    list[fill[edges[k + 1]]++] = edges[k];
  }
  return { starts, list };
}

/** One coordinate of the inner vertices by conjugate gradients, to a thousandth of a unit in all; a turn at a time. */
function* settle({ starts, list }, fixed, places, at) {
  const count = fixed.length, [rest, way, image] = [0, 1, 2].map(() => new Float64Array(count));
  const apply = (from, to, stride, offset) => {
    for (let v = 0; v < count; v++) {
      if (fixed[v]) continue;
      let sum = 0;
      for (let k = starts[v]; k < starts[v + 1]; k++) sum += from[stride * list[k] + offset];
      to[v] = (starts[v + 1] - starts[v]) * from[stride * v + offset] - sum;
    }
  };
  const times = (a, b) => a.reduce((sum, x, v) => sum + x * b[v], 0);
  apply(places, rest, 2, at);
  for (let v = 0; v < count; v++) way[v] = rest[v] = -rest[v];
  let size = times(rest, rest);
  for (let turn = 0; turn < 5000 && size > 1e-9 * Math.max(1, count / 1000); turn++) {
    apply(way, image, 1, 0);
    const step = size / times(way, image);
    for (let v = 0; v < count; v++) {
      places[2 * v + at] += step * way[v];
      rest[v] -= step * image[v];
    }
    const now = times(rest, rest), share = now / size;
    for (let v = 0; v < count; v++) way[v] = rest[v] + share * way[v];
    size = now;
    yield;
  }
}

/** The disc in the plane, as `unfold` has it, step by step: whoever takes the steps may do something else between. */
export function* unfolding({ disc, round }) {
  const count = disc.points.length / 3, { triangles } = trianglesOf(disc), fixed = new Uint8Array(count);
  const starts = Uint32Array.from({ length: triangles.length / 3 + 1 }, (_, k) => 3 * k);
  const beside = neighbours(count, matesOf({ points: disc.points, starts, corners: triangles }).edges);
  const places = new Float64Array(2 * count);
  for (const v of round) fixed[v] = 1;
  circle(disc.points, round, places);
  yield* settle(beside, fixed, places, 0);
  yield* settle(beside, fixed, places, 1);
  return { places: Float32Array.from(places), triangles, edges: matesOf(disc).edges };
}

/** The disc in the plane: two numbers for each of its vertices, and the triangles and edges to draw. */
export function unfold(opened) {
  for (const steps = unfolding(opened); ;) {
    const { done, value } = steps.next();
    if (done) return value;
  }
}
