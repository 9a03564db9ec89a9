// Walks as the viewer draws and lists them.
import { plural, shownLength } from './units.js';

/**
 * What is drawn in one colour and is a row of the list: the ends of its edges, two numbers each, and its vertices and
 * length, also in units, where it is a walk. A plain one has no number and the ink of a mark.
 * @typedef {{
 *   edges: Uint32Array, vertices: number[], title: string, units?: number, length?: number, isPlain?: boolean
 * }} Walk
 */

/** The ends of a walk's edges, two numbers each. */
export function edgesOfWalk(walk) {
  const edges = new Uint32Array(2 * Math.max(0, walk.length - 1));
  for (let k = 0; k + 1 < walk.length; k++) {
    edges[2 * k] = walk[k];
    edges[2 * k + 1] = walk[k + 1];
  }
  return edges;
}

/** A closed walk, the first vertex at its end again, of so many units of 10^-decimals; of edges without decimals. */
export function walkOf(vertices, units, decimals) {
  const count = plural(vertices.length - 1, 'edge');
  const title = decimals === null ? count : `length ${shownLength(units, decimals)}, ${count}`;
  const size = Number(units);
  return { edges: edgesOfWalk(vertices), vertices, title, units: size, length: size / 10 ** decimals };
}
