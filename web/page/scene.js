// Reads a scene as tools/users/viewfiles packs it: a mesh, and an answer on it.

/** The tables of a scene, one behind the other: of each the lowest bytes of all numbers first, the highest last. */
class Tables {
  constructor(data) {
    this.data = data;
    this.at = 0;
  }

  /** The next so many numbers. */
  numbers(count) {
    const list = new Uint32Array(count), { data, at } = this;
    for (let place = 0; place < 4; place++) {
      for (let k = 0; k < count; k++) list[k] |= data[at + place * count + k] << (8 * place);
    }
    this.at += 4 * count;
    return list;
  }

  /** The next so many numbers, which are told as steps from each to the next. */
  sums(count) {
    const list = this.numbers(count);
    for (let k = 0, sum = 0; k < count; k++) {
      sum += (list[k] >>> 1) ^ -(list[k] & 1);
      list[k] = sum;
    }
    return list;
  }
}

/** The points, turned so that the third axis of the scene is the upright one of the picture, which is the second. */
function readPoints(tables, { count, low, step }) {
  const points = new Float64Array(3 * count), place = [0, 2, 1], sign = [1, -1, 1];
  for (let c = 0; c < 3; c++) {
    tables.sums(count).forEach((x, v) => { points[3 * v + place[c]] = sign[c] * (low[c] + step * x); });
  }
  return points;
}

/** The faces, each from its least vertex on, and which of them aren't drawn. */
function readFaces(tables, { count, size, added }) {
  const starts = new Uint32Array(count + 1), sizes = size ? null : tables.numbers(count);
  for (let f = 0; f < count; f++) starts[f + 1] = starts[f] + (size || sizes[f]);
  const hidden = tables.sums(added), firsts = tables.sums(count), rest = tables.numbers(starts[count] - count);
  const corners = new Uint32Array(starts[count]);
  for (let f = 0, at = 0; f < count; f++) {
    corners[starts[f]] = firsts[f];
    for (let k = starts[f] + 1; k < starts[f + 1]; k++) corners[k] = firsts[f] + rest[at++];
  }
  return { starts, corners, hidden };
}

function readLines(tables, heads) {
  const all = tables.sums(heads.reduce((sum, { size }) => sum + size, 0));
  let at = 0;
  return heads.map(({ size, ...head }) => {
    at += size;
    return { ...head, vertices: all.slice(at - size, at) };
  });
}

function readValues(tables, { isOfFaces, low, high, label }, count) {
  return { isOfFaces, low, high, label, parts: Float32Array.from(tables.sums(count), (x) => x / 1023) };
}

/**
 * A scene: its title; the camera's turn at first; a mesh of points, starts and corners, as readers.js has it; the faces of it that are `hidden`
 * and those that are `marked`; lines, which are walks, the first vertex at the end again, or else ends of edges;
 * whether the first of them are the seams of a cut; and values, from 0 for the least to 1 for the greatest.
 * @param {Uint8Array} data
 */
export function readScene(data) {
  const size = new DataView(data.buffer, data.byteOffset).getUint32(0, true);
  const head = JSON.parse(new TextDecoder().decode(data.subarray(4, 4 + size)));
  const tables = new Tables(data.subarray(4 + size)), points = readPoints(tables, head.points);
  const { hidden, ...faces } = readFaces(tables, head.faces), lines = readLines(tables, head.lines);
  const marked = tables.sums(head.marked), count = head.values?.isOfFaces ? head.faces.count : head.points.count;
  const values = head.values ? readValues(tables, head.values, count) : null;
  const turn = [head.turn, head.tilt].map((degrees) => (-degrees * Math.PI) / 180), { title, isCut } = head;
  return { title, turn, isCut, mesh: { points, ...faces, names: null }, hidden, lines, marked, values };
}
