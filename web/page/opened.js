// Reads the text of a cut: the disc, and of which vertex each of its vertices is a copy.
import { HASH, LF, latin } from './lines.js';
import { aheadOf, matesOf, split } from './mend.js';
import { readOff } from './readers.js';

/** Of each copy its vertex, by the lines `# copy i from v` at the end of the text. */
function originsOf(data, count) {
  const origins = new Uint32Array(count);
  for (let end = data.length, left = count; left > 0; left--) {
    const at = data.lastIndexOf(HASH, end - 1), stop = data.indexOf(LF, at);
    const words = at < 0 ? [] : latin.decode(data.subarray(at, stop < 0 ? data.length : stop)).split(' ');
    if (words[1] !== 'copy') throw new Error('the cut has a copy without a line');
    origins[Number(words[2])] = Number(words[4]);
    end = at;
  }
  return origins;
}

/** The border of the disc as one round of copies. */
function roundOf({ corners, points }, mates, ahead) {
  const count = points.length / 3, beside = new Int32Array(2 * count).fill(-1), round = [];
  const link = (u, v) => { beside[beside[2 * u] < 0 ? 2 * u : 2 * u + 1] = v; };
  let start = -1;
  for (let k = 0; k < corners.length; k++) {
    if (mates[k] !== -1) continue;
    link(corners[k], ahead[k]);
    link(ahead[k], corners[k]);
    start = corners[k];
  }
  for (let at = start, last = -1; at >= 0 && round.length < count; ) {
    round.push(at);
    const next = beside[2 * at] === last ? beside[2 * at + 1] : beside[2 * at];
    [last, at] = [at, next === start ? -1 : next];
  }
  return Uint32Array.from(round);
}

/** The edges that the border runs along, each once, by the vertices of which its copies are. */
function cutEdges(round, origins) {
  const count = origins.length, keys = new Float64Array(round.length), edges = [];
  round.forEach((copy, k) => {
    const u = origins[copy], v = origins[round[k + 1 < round.length ? k + 1 : 0]];
    keys[k] = Math.min(u, v) * count + Math.max(u, v);
  });
  keys.sort();
  keys.forEach((key, k) => {
    if (key !== keys[k - 1]) edges.push(Math.floor(key / count), key % count);
  });
  return Uint32Array.from(edges);
}

/** The disc of a cut's text, its border, and the edges that were cut, as ends of edges of the mesh that was cut. */
export function readOpened(data) {
  const disc = readOff(data), origins = originsOf(data, disc.points.length / 3), { mates, ahead } = matesOf(disc);
  const round = roundOf(disc, mates, ahead);
  return { disc, origins, round, edges: cutEdges(round, origins) };
}

/** The disc of a mesh that is cut along edges, which are given by their ends, and its border. */
export function cutAlong(mesh, seams) {
  const count = mesh.points.length / 3, keyOf = (u, v) => Math.min(u, v) * count + Math.max(u, v), keys = new Set();
  for (let k = 0; k < seams.length; k += 2) keys.add(keyOf(seams[k], seams[k + 1]));
  const { mates, ahead } = matesOf(mesh);
  for (let k = 0; k < mates.length; k++) if (keys.has(keyOf(mesh.corners[k], ahead[k]))) mates[k] = -1;
  const disc = split(mesh, mates).mesh;
  return { disc, round: roundOf(disc, mates, aheadOf(disc)) };
}
