// What the page can ask the program for, and how its answers are read.
import { plural, shownLength } from './units.js';
import { walkOf } from './walks.js';

/**
 * A row: how many vertices are asked for (`none`, `one`, `many`), the words of the call, the files that these name,
 * and what the page says while the call runs. L is `2`, the file of lengths, or `unit`. What `hasHoles` can be asked of a
 * surface with holes that a hub joins, too.
 */
export const COMMANDS = {
  basis: {
    label: 'Shortest homology basis', asks: 'none', hasHoles: true, step: 'Looking for a shortest homology basis',
    words: (L) => `basis 1 ${L} large`, files: ['mesh', 'lengths'],
    certify: (L) => `certify 1 ${L}`, mostCertified: 1000,
  },
  loops: {
    label: 'Shortest loops at a vertex', asks: 'one', hasHoles: true, step: 'Looking for shortest loops',
    words: (L, [x]) => `loops 1 ${L} ${x}`, files: ['mesh', 'lengths'],
    certify: (L, [x]) => `certify 1 ${L} ${x}`, mostCertified: Infinity,
  },
  cycle: {
    label: 'Shortest nonseparating cycle', asks: 'none', hasHoles: true, step: 'Looking for a shortest nonseparating cycle',
    words: (L) => `cycle 1 ${L} large`, files: ['mesh', 'lengths'],
  },
  trim: {
    label: 'Cut into a disc, trimmed', asks: 'one', step: 'Cutting', isCut: true,
    words: (L, [x]) => `cut 1 ${L} ${x} trim`, files: ['mesh', 'lengths'],
  },
  full: {
    label: 'Cut into a disc, full', asks: 'one', step: 'Cutting', isCut: true,
    words: (L, [x]) => `cut 1 ${L} ${x} full`, files: ['mesh', 'lengths'],
  },
  through: {
    label: 'Cut into a disc through vertices', asks: 'many', step: 'Cutting', isCut: true,
    words: (L, [x]) => `cut 1 ${L} ${x} through 3`, files: ['mesh', 'lengths', 'vertices'],
  },
  class: {
    label: 'Homology class of a closed walk', asks: 'many', step: 'Looking for evidence', isOfWalk: true,
    words: () => 'class 1 2', files: ['mesh', 'walk'], confirm: 'confirm 1 2 3',
  },
  shortest: {
    label: 'Shortest walk homologous to a closed walk', asks: 'many', step: 'Looking for a shortest walk',
    isOfWalk: true, hasHoles: true, words: (L) => `shortest 1 ${L} 3 large`, files: ['mesh', 'lengths', 'walk'],
  },
};

/** What a field of vertices has to say, by what is asked for. */
export const ASKS = {
  none: '',
  one: 'Vertex: click one on the mesh, or type its number',
  many: 'Vertices in order: click them on the mesh, or type their numbers',
};

/** Loops, cycles and walks of an answer, and its rows for the table of facts. */
function readWalks(rows, decimals) {
  const walks = [], facts = [];
  for (const row of rows) {
    if (row[0] === 'total') facts.push(['total length', shownLength(row[1], decimals)]);
    else if (['loop', 'cycle', 'shortest'].includes(row[0])) walks.push(walkOf(row.slice(2).map(Number), row[1], decimals));
  }
  return { walks, facts };
}

/** The evidence of `class`: faces that the walk bounds, or edges that show that it bounds none. */
function readEvidence([word, count, ...numbers]) {
  const list = Uint32Array.from(numbers, Number);
  if (word === 'null') {
    const none = 'It bounds: it runs each edge an even number of times';
    const text = list.length ? `It bounds ${plural(count, 'face')}` : none;
    return { walks: [], facts: [['class', 'null-homologous']], faces: list, text };
  }
  const walk = { edges: list, vertices: [], title: `${plural(count, 'edge')} that the walk crosses oddly` };
  return { walks: [walk], facts: [['class', 'not null-homologous']], text: 'It bounds no set of faces' };
}

const SPHERE = {
  basis: 'The surface is a sphere: its basis is empty',
  loops: 'The surface is a sphere: it needs no loops',
};

const COUNTED = {
  basis: (n) => `${plural(n, 'cycle')}: a shortest homology basis`,
  loops: (n) => `${plural(n, 'loop')} at the vertex`,
  cycle: () => 'a shortest nonseparating cycle',
  shortest: () => 'a shortest homologous walk',
};

/** An answer that is no cut: its walks, faces, facts, and what to say of it. */
export function readAnswer(command, text, decimals) {
  const rows = text.trim().split('\n').map((line) => line.split(' '));
  if (command === 'class') return readEvidence(rows[0]);
  const found = readWalks(rows, decimals), count = found.walks.length;
  if (rows[0][0] === 'none') return { ...found, text: 'None: on this surface every cycle separates' };
  return { ...found, text: count ? COUNTED[command](count) : SPHERE[command] };
}

/**
 * Of an answer on a surface with holes what keeps off the hub: all walks of a basis or of loops but one less than there
 * are holes, and these come last.
 */
export function offHub(command, { walks, facts, ...found }, { vertex, holes }, decimals) {
  const isOff = (walk) => walk.vertices.every((v) => v < vertex), isSystem = command === 'basis' || command === 'loops';
  const kept = walks.slice(0, isSystem ? 1 - holes : walks.length), rest = walks.slice(kept.length);
  if (!kept.every(isOff) || rest.some(isOff)) throw new Error('A cycle is longer than an edge of the hub');
  if (!isSystem) return { walks, facts, ...found };
  const total = kept.reduce((sum, walk) => sum + walk.units, 0);
  return { walks: kept, facts: [['total length', shownLength(total, decimals)]], text: COUNTED[command](kept.length) };
}

/** The counts of the surface with its holes, of those of the closed one that the hub makes of it. */
export function countsWithHoles(rows, { vertex, holes }) {
  const counts = Object.fromEntries(rows.map(([name, count]) => [name, Number(count)]));
  return [
    ['vertices', vertex], ['edges', counts.edges - 4 * (holes - 1)], ['faces', counts.faces - holes],
    ['characteristic', counts.characteristic - 2 + holes], ['holes', holes],
  ];
}

/** The rows of `info` for the table of facts. */
export function readInfo(text) {
  const rows = Object.fromEntries(text.trim().split('\n').map((line) => line.split(' ')));
  const kind = rows.genus === undefined ? ['crosscaps', rows.crosscaps] : ['genus', rows.genus];
  return ['vertices', 'edges', 'faces', 'characteristic'].map((name) => [name, rows[name]]).concat([kind]);
}
