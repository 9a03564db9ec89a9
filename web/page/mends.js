// The ways in which a mesh is mended, by name.
import { closed, joined } from './holes.js';
import { largest, merged, split, tidy } from './mend.js';
import { readLooseOff } from './readers.js';

/** Each makes another mesh of a mesh and its text, and tells how many there were of what it mended. */
export const MENDS = {
  merge: (mesh) => ({ mesh: tidy(merged(mesh)) }),
  tidy: (mesh) => ({ mesh: tidy(mesh) }),
  largest: (mesh) => largest(tidy(mesh)),
  split: (mesh) => split(tidy(mesh)),
  close: (mesh) => closed(tidy(mesh)),
  hub: (mesh) => joined(tidy(mesh)),
  loose: (_, text) => ({ mesh: tidy(readLooseOff(text)) }),
};
