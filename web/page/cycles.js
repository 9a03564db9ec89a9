// Asks the program for the cycles of a surface that is being cut.
import { Lines, latin } from './lines.js';
import { matesOf, offOf } from './mend.js';
import { keyOf } from './surgery.js';

/** The cycles in an answer, as `{units, vertices}`. */
function cyclesIn(text) {
  const rows = latin.decode(text).split('\n').filter((row) => row.startsWith('cycle '));
  return rows.map((row) => {
    const [units, ...vertices] = row.split(' ').slice(1).map(Number);
    return { units, vertices: vertices.slice(0, -1) };
  });
}

/** The lengths in a file, by the keys of their edges. */
function lengthsIn(data) {
  const lines = new Lines(data), known = new Map();
  while (lines.next()) known.set(keyOf(lines.number(0), lines.number(1)), lines.number(2));
  return known;
}

/** Finds the shortest cycles by the lengths that edges had before the first cut. */
export class Cycles {
  /**
   * @param {(words: string, files: Uint8Array[]) => Uint8Array} ask asks the program
   * @param {Uint8Array | null} lengths the file of the first lengths, or nothing where each is 1
   */
  constructor(ask, lengths) {
    this.ask = ask;
    this.known = lengths && lengthsIn(lengths);
  }

  /** The file of the lengths, or nothing where each is 1. */
  lengthsOf(surgery) {
    if (!this.known) return null;
    const { edges } = matesOf(surgery.mesh()), origins = surgery.vertexOrigins, rows = [];
    for (let k = 0; k < edges.length; k += 2) {
      const u = origins[edges[k]], v = origins[edges[k + 1]];
      rows.push(`${edges[k]} ${edges[k + 1]} ${this.known.get(keyOf(Math.min(u, v), Math.max(u, v)))}\n`);
    }
    return new TextEncoder().encode(rows.join(''));
  }

  asked(word, surgery) {
    const lengths = this.lengthsOf(surgery), mesh = offOf(surgery.mesh());
    const [name, files] = lengths ? ['2', [mesh, lengths]] : ['unit', [mesh]];
    return cyclesIn(this.ask(`${word} 1 ${name} large`, files));
  }

  basis(surgery) {
    return this.asked('basis', surgery);
  }

  cycle(surgery) {
    return this.asked('cycle', surgery)[0] || null;
  }
}
