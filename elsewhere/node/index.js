// surf for node: closed surfaces, with questions about them.
//
//     import { Surface } from 'surfbasis';
//     const surface = Surface.fromFile('mesh.off');   // or new Surface(vertices, faces)
//     for (const { length, vertices } of surface.basis().walks) console.log(length, vertices);
import { readFileSync } from 'node:fs';
import { Program } from './program.js';

const LEAST_ROOM = 1 << 20;
const GREATEST_LENGTH = 4294967295; // of an edge, in units
const MOST_DECIMALS = 9;

const encoder = new TextEncoder();
const decoder = new TextDecoder();
const program = await Program.load(readFileSync(new URL('surf.wasm', import.meta.url)));

/** surf refused: a status from 2 on, and the line that says why. docs/refusals.md has all of them. */
export class Refused extends Error {
  constructor(status, line) {
    super(line);
    this.name = 'Refused';
    this.status = status;
  }
}

/**
 * Does what surf does with words that name the files by 1, 2 and 3. A trap, which proved code has only if it was
 * translated wrongly, is a WebAssembly.RuntimeError.
 * @param {string} words
 * @param {Uint8Array[]} files
 * @returns {{status: number, text: Uint8Array}} the answer where the status is 0 or 1, else a line that tells why
 */
export function call(words, files = []) {
  const size = files.reduce((sum, { length }) => sum + length, 0);
  return program.call(words, files, Math.max(LEAST_ROOM, 2 * size));
}

const bytesOf = (text) => (typeof text === 'string' ? encoder.encode(text) : text);
const numbersOf = (row) => Uint32Array.from(row, Number);
const lineOf = (vertices) => encoder.encode(`${[...vertices].join(' ')}\n`);

/** The lists of corners of faces, which are triangles one behind the other in a typed array, or lists. */
function* facesOf(faces) {
  if (!ArrayBuffer.isView(faces)) {
    yield* faces;
    return;
  }
  if (faces.length % 3) throw new RangeError(`triangles have 3 corners each, and there are ${faces.length} corners`);
  for (let at = 0; at < faces.length; at += 3) yield faces.subarray(at, at + 3);
}

/** Vertices one behind the other as lines of an OFF; where only their number is given, each stands at 0 0 0. */
function pointRows(vertices) {
  if (typeof vertices === 'number') return Array(vertices).fill('0 0 0');
  if (vertices.length % 3) throw new RangeError(`vertices have 3 places each, and there are ${vertices.length} places`);
  return Array.from({ length: vertices.length / 3 }, (_, v) => vertices.slice(3 * v, 3 * v + 3).join(' '));
}

/** The length of the longest edge in space. */
function longestEdge(vertices, faces) {
  let most = 0;
  for (const face of facesOf(faces)) {
    face.forEach((u, k) => {
      const v = face[(k + 1) % face.length], apart = (c) => vertices[3 * u + c] - vertices[3 * v + c];
      most = Math.max(most, Math.hypot(apart(0), apart(1), apart(2)));
    });
  }
  return most;
}

/** As many decimals as the longest edge allows. Where it is no number, surf says what is wrong. */
function decimalsFor(longest) {
  if (!(longest > 0 && longest < Infinity)) return 0;
  return Math.max(0, Math.min(MOST_DECIMALS, Math.floor(Math.log10((GREATEST_LENGTH - 1) / longest))));
}

/**
 * A closed surface, which may be one-sided. Shapes alone are tested here (RangeError); each question first asks whether
 * the faces are a surface, and throws Refused where they aren't.
 */
export class Surface {
  /**
   * @param {Float64Array|number[]|number} vertices x, y and z of each, or how many there are
   * @param {Uint32Array|number[][]} faces the corners of triangles, or a list of corners for each face
   * @param {{lengths?: 'unit'|Uint32Array, decimals?: number}} how lengths are measured in units of 10^-decimals;
   *   or each is 1; or u, v and the length for each edge, in whole units
   */
  constructor(vertices, faces, { lengths, decimals } = {}) {
    const points = pointRows(vertices), rows = Array.from(facesOf(faces), (face) => `${face.length} ${face.join(' ')}`);
    const hasPlaces = typeof vertices !== 'number';
    this.mesh = encoder.encode(`OFF\n${points.length} ${rows.length} 0\n${[...points, ...rows].join('\n')}\n`);
    this.given = lengths ?? (hasPlaces ? undefined : 'unit');
    this.decimals = decimals ?? (this.given === undefined ? decimalsFor(longestEdge(vertices, faces)) : 0);
  }

  /** The surface of a file in OFF, as the program reads it. Edges are measured in so many decimals, or each is 1. */
  static fromFile(path, { lengths, decimals = 6 } = {}) {
    const told = { given: lengths, decimals: lengths === undefined ? decimals : 0 };
    return Object.assign(Object.create(Surface.prototype), { mesh: readFileSync(path), ...told });
  }

  /** The text of an answer. `more` are the files that the words name behind the mesh and the lengths. */
  ask(words, ...more) {
    const { status, text } = call(words, [this.mesh, ...more]);
    if (status > 1) throw new Refused(status, decoder.decode(text).trim());
    return text;
  }

  /** The file of lengths; it is empty where each is 1. */
  get lengths() {
    if (this.given === 'unit') return new Uint8Array(0);
    this.file ??= this.given === undefined ? this.ask(`lengths 1 ${this.decimals}`) : this.listed();
    return this.file;
  }

  listed() {
    if (this.given.length % 3) throw new RangeError('lengths are u, v and the length for each edge');
    const rows = Array.from({ length: this.given.length / 3 }, (_, k) => this.given.slice(3 * k, 3 * k + 3).join(' '));
    return encoder.encode(`${rows.join('\n')}\n`);
  }

  /** Asks with lengths, which the words name by L. */
  askMeasured(words, ...more) {
    return this.ask(words.replace('L', this.given === 'unit' ? 'unit' : '2'), this.lengths, ...more);
  }

  /** A length in whole units, and in those of the mesh. */
  length(text) {
    return { units: BigInt(text), length: Number(text) / 10 ** this.decimals };
  }

  walks(text) {
    const rows = decoder.decode(text).trim().split('\n').map((line) => line.split(' '));
    const total = rows.find(([word]) => word === 'total');
    const walks = rows.filter(([word]) => ['loop', 'cycle', 'shortest'].includes(word));
    return {
      ...this.length(total ? total[1] : walks[0]?.[1] ?? 0),
      walks: walks.map(([, size, ...row]) => ({ ...this.length(size), vertices: numbersOf(row) })),
    };
  }

  /** The counts of the surface: vertices, edges, faces, characteristic, and genus or crosscaps. */
  info() {
    const rows = decoder.decode(this.ask('info 1')).trim().split('\n').map((line) => line.split(' '));
    return Object.fromEntries(rows.map(([name, value]) => [name, Number(value)]));
  }

  /** A shortest homology basis (mod 2): closed walks with their lengths, and the length of all. */
  basis() {
    return this.walks(this.askMeasured('basis 1 L large'));
  }

  /** A shortest system of independent loops at a vertex. */
  loops(base = 0) {
    return this.walks(this.askMeasured(`loops 1 L ${base}`));
  }

  /** A shortest cycle that doesn't separate the surface, or null where each one separates it. */
  cycle() {
    return this.walks(this.askMeasured('cycle 1 L large')).walks[0] ?? null;
  }

  /** A shortest closed walk homologous (mod 2) to one, whose vertices are given with the first at the end again. */
  shortest(walk) {
    return this.walks(this.askMeasured('shortest 1 L 3 large', lineOf(walk))).walks[0];
  }

  /** The surface cut into one disc, as the program's OFF, its faces, and of which vertex each of its own is a copy. */
  cut(base = 0, how = 'trim') {
    const text = this.askMeasured(`cut 1 L ${base} ${how}`), rows = decoder.decode(text).trim().split('\n');
    const [count, size] = rows[1].split(' ').map(Number), faces = rows.slice(2 + count, 2 + count + size);
    const copies = rows.slice(2 + count + size).map((row) => Number(row.split(' ')[4]));
    return { text, faces: faces.map((row) => numbersOf(row.split(' ')).slice(1)), origins: Uint32Array.from(copies) };
  }

  /** Whether a closed walk bounds faces (mod 2), with what shows it: the faces, or edges that it crosses oddly. */
  classify(walk) {
    const text = this.ask('class 1 2', lineOf(walk)), [word, , ...row] = decoder.decode(text).trim().split(' ');
    return { bounds: word === 'null', shown: numbersOf(row), text };
  }

  /** A certificate of a basis, or of loops at a vertex. */
  certify(base) {
    return this.askMeasured(base === undefined ? 'certify 1 L' : `certify 1 L ${base}`);
  }

  /** What surf says of a certificate: a line that begins with `valid` where it is right. */
  check(certificate) {
    return decoder.decode(this.askMeasured('check 1 L 3', bytesOf(certificate))).trim();
  }
}
