// What was done to a mesh that was mended, in words.
import { plural } from './units.js';

export const vertexCount = (count) => plural(count, 'vertex', 'vertices');

/** By the way of mending, of what the worker says: how many there were `before` and `after`. */
export const MENDED = {
  merge: ({ before, after }) => (before.vertices === after.vertices ? 'No two points are equal: nothing was merged'
    : `${vertexCount(before.vertices - after.vertices)} fewer: equal points were merged`),
  close: ({ holes }) => `${plural(holes, 'hole was', 'holes were')} closed, each with one face: no edge is added`,
  hub: ({ holes, parts }) => {
    const which = parts > 1 ? `The largest of ${plural(parts, 'part')} is kept. ` : '';
    if (holes < 2) return `${which}The one hole was closed by one face: a loop round it bounds`;
    return `${which}${plural(holes, 'hole')} are joined by a hub, which isn’t shown: loops round them count`;
  },
  split: ({ added }) => `The surface was taken apart: ${vertexCount(added)} more`,
  largest: ({ parts, before, after }) => (
    `The largest of ${plural(parts, 'part')} is kept: ${after.faces} of ${plural(before.faces, 'face')}`),
  tidy: ({ before, after }) => `${vertexCount(before.vertices - after.vertices)} left out`,
  loose: ({ after }) => `Read loosely: ${vertexCount(after.vertices)}, ${plural(after.faces, 'face')}`,
};
