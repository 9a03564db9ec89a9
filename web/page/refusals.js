// What a refusal means in plain words, what of the mesh it names, and what may cure it.
import { STATUSES, TOLD } from './told.js';

/**
 * @typedef {object} Explained
 * @property {string} text what is wrong and what to do
 * @property {number[]} [edges] ends of edges to show, two numbers each
 * @property {number[]} [faces] faces to show
 * @property {number[]} [vertices] vertices to show
 * @property {{label: string, how?: string, command?: string, lengths?: string}[]} [cures] what a button may do
 */

const MERGE = { label: 'Merge equal points', how: 'merge' };
const CLOSE = { label: 'Close the holes', how: 'close' };
const HUB = { label: 'Count loops round holes', how: 'hub' };
const SPLIT = { label: 'Take it apart there', how: 'split' };
const LARGEST = { label: 'Keep the largest part', how: 'largest' };
const TIDY = { label: 'Leave such vertices and faces out', how: 'tidy' };
const LOOSE = { label: 'Read the file loosely', how: 'loose' };
const UNIT = { label: 'Give each edge the length 1', lengths: 'unit' };

/** The buttons for a line, by its front and its first word, or by its front alone. */
const CURES = {
  'mesh text': [LOOSE],
  'surface: border': [MERGE, CLOSE, HUB],
  'surface: crowded': [SPLIT],
  'surface: isolated': [TIDY],
  'surface: pinched': [SPLIT],
  'surface: apart': [LARGEST],
  'coordinates: form': [UNIT],
  'coordinates: range': [UNIT],
  'coordinates: zero': [MERGE, UNIT],
  'coordinates: great': [UNIT],
};

/** What docs/refusals.md says of a line: the letters of its numbers, the numbers, the meaning and the advice. */
function saidOf(front, rest) {
  for (const [pattern, letters, ...texts] of TOLD[STATUSES[front]] || []) {
    const found = rest.match(new RegExp(`^(?:${pattern})$`));
    if (!found) continue;
    const values = Object.fromEntries([...letters].map((letter, k) => [letter, found[k + 1]]));
    const [meaning, advice] = texts.map((text) => text.replace(/\b[A-Z]\b/g, (letter) => values[letter] ?? letter));
    return { letters: [...letters], numbers: found.slice(1).map(Number), meaning, advice };
  }
  return { letters: [], numbers: [], meaning: '', advice: '' };
}

/** A text as a sentence, or nothing of nothing. */
function sentence(text) {
  const plain = text.replace(/`/g, '');
  return plain && `${plain[0].toUpperCase()}${plain.slice(1)}.`;
}

/** A sentence on vertices that have other numbers in the file that was read, or nothing. */
function inFile(vertices, shape) {
  const { names, kind } = shape || {};
  if (!names || kind === 'stl') return '';
  const other = vertices.filter((v) => names[v] !== undefined && (kind === 'obj' || names[v] !== v));
  const listed = other.map((v) => (kind === 'obj' ? `vertex ${v} is v ${names[v] + 1}` : `vertex ${v} is ${names[v]}`));
  return listed.length > 0 ? `In the file ${listed.join(', ')}.` : '';
}

/**
 * What the program's line means.
 * @param {string} line the line that the program says on a refusal
 * @param shape the mesh as it is drawn, or null
 * @returns {Explained}
 */
export function explain(line, shape) {
  const [front, rest = line.trim()] = line.trim().split(': ');
  const { letters, numbers, meaning, advice } = saidOf(front, rest);
  const cures = CURES[front] || CURES[`${front}: ${rest.split(' ')[0]}`];
  const isOfMesh = front === 'surface' || front === 'coordinates', isEdge = letters.includes('U');
  const named = (wanted) => numbers.filter((_, k) => isOfMesh && wanted.includes(letters[k]));
  const vertices = named('UV'), faces = rest.startsWith('apart') ? [0, ...named('F')] : named('F');
  // Where there are buttons they stand in the place of the advice, which is for files.
  const text = [sentence(meaning), inFile(vertices, shape), cures ? '' : sentence(advice)].filter(Boolean).join(' ');
  return { text, edges: isEdge ? vertices : [], vertices: isEdge ? [] : vertices, faces, cures };
}
