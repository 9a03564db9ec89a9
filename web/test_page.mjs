// Tests of the page's own modules: node --test web/test_page.mjs
import assert from 'node:assert/strict';
import { readFileSync } from 'node:fs';
import { test } from 'node:test';
import { kindOf, readLooseOff, readMesh, readOff } from './page/readers.js';
import { firstAtPoint, largest, matesOf, merged, offOf, split, tidy } from './page/mend.js';
import { closed, closedForHub, hubOf, joined, lengthsWithHub, unitsWithHub, withoutHub } from './page/holes.js';
import { longestEdge, shapeOf, trianglesOf } from './page/shape.js';
import { cutAlong, readOpened } from './page/opened.js';
import { unfold } from './page/unfold.js';
import { decimalsFor, shownLength } from './page/units.js';
import { explain } from './page/refusals.js';
import { countsWithHoles, offHub, readAnswer, readInfo } from './page/commands.js';
import { kleinBottle } from './page/samples.js';
import { Session, Stopped } from './page/session.js';
import { WALKS } from './page/paint.js';
import { readScene } from './page/scene.js';
import { walkOf } from './page/walks.js';
import { Surgery, takeOff } from './page/surgery.js';

const POINTS = [[0, 0, 0], [1, 0, 0], [0, 1, 0], [0, 0, 1]];
const FACES = [[0, 1, 2], [0, 3, 1], [0, 2, 3], [1, 3, 2]];
const TET = 'OFF\n4 4 0\n0 0 0\n1 0 0\n0 1 0\n0 0 1\n3 0 1 2\n3 0 3 1\n3 0 2 3\n3 1 3 2\n';

const bytes = (text) => new TextEncoder().encode(text);
const text = (data) => new TextDecoder().decode(data);
const meshOf = (points, faces) => readOff(bytes([
  'OFF', `${points.length} ${faces.length} 0`, ...points.map((point) => point.join(' ')),
  ...faces.map((face) => `${face.length} ${face.join(' ')}`),
].join('\n')));
const facesOf = ({ starts, corners }) => [...starts].slice(1).map((to, f) => [...corners.subarray(starts[f], to)]);

const plyHead = (format) => `ply\nformat ${format} 1.0\nelement vertex 4\nproperty float x\nproperty float y\n`
  + 'property double z\nelement face 4\nproperty list uchar int vertex_indices\nend_header\n';

function plyBytes(little) {
  const head = bytes(plyHead(little ? 'binary_little_endian' : 'binary_big_endian'));
  const body = new DataView(new ArrayBuffer(4 * 16 + 4 * 13));
  POINTS.forEach(([x, y, z], v) => {
    body.setFloat32(16 * v, x, little);
    body.setFloat32(16 * v + 4, y, little);
    body.setFloat64(16 * v + 8, z, little);
  });
  FACES.forEach((face, f) => {
    body.setUint8(64 + 13 * f, 3);
    face.forEach((corner, k) => body.setInt32(64 + 13 * f + 1 + 4 * k, corner, little));
  });
  return new Uint8Array([...head, ...new Uint8Array(body.buffer)]);
}

function stlBytes() {
  const view = new DataView(new ArrayBuffer(84 + 50 * 4));
  new Uint8Array(view.buffer).set(bytes('solid, though it is binary')); // some programs write this
  view.setUint32(80, 4, true);
  FACES.forEach((face, f) => face.forEach((corner, k) => POINTS[corner].forEach((x, c) => {
    view.setFloat32(84 + 50 * f + 12 + 12 * k + 4 * c, x, true);
  })));
  return new Uint8Array(view.buffer);
}

function stlText() {
  const row = (corner) => `vertex ${POINTS[corner].join(' ')}`;
  const facet = (face) => ['facet normal 0 0 0', 'outer loop', ...face.map(row), 'endloop', 'endfacet'];
  return ['solid tet', ...FACES.flatMap(facet), 'endsolid'].join('\n');
}

test('each kind of file is read as the same mesh', () => {
  const faces = ['f 1/1 2/1/1 3', 'f -4 -1 -3', 'f 1//7 3 4', 'f 2 4 3'];
  const obj = [...POINTS.map((point) => `v ${point.join(' ')}`), 'vt 0 0', ...faces];
  const rows = [...POINTS, ...FACES.map((face) => [3, ...face])];
  const ply = plyHead('ascii') + rows.map((row) => row.join(' ')).join('\n');
  const files = {
    'a.off': bytes(TET), 'a.obj': bytes(obj.join('\r\n')), 'a.ply': bytes(ply), 'b.ply': plyBytes(true),
    'c.ply': plyBytes(false), 'a.stl': bytes(stlText()), 'b.stl': stlBytes(),
  };
  for (const [name, data] of Object.entries(files)) {
    const kind = kindOf(name, data), mesh = readMesh(kind, data);
    assert.equal(text(offOf(tidy(kind === 'stl' ? merged(mesh) : mesh))), TET, name);
  }
  assert.equal(kindOf('without-ending', bytes('ply\n')), 'ply');
  const loose = 'off 4 4 6 0 0 0 1 0 0 # corners\n0 1 0 0 0 1\n3 0 1 2 3 0 3 1\n3 0 2 3 3 1 3 2\n';
  assert.equal(text(offOf(tidy(readLooseOff(bytes(loose))))), TET);
});

test('what can’t be read is an error with a sentence', () => {
  const short = `${plyHead('ascii')}0 0`;
  const files = [['ply', 'ply\n'], ['ply', short], ['obj', 'v 0 0 0\n'], ['stl', ''], ['stl', 'x']];
  for (const [kind, data] of files) assert.throws(() => readMesh(kind, bytes(data)), Error, kind);
  assert.throws(() => readMesh('ply', plyBytes(true).subarray(0, 220)), /too early/);
  assert.throws(() => readLooseOff(bytes('hello')), /counts/);
});

test('what hangs on nothing is left out, and vertices keep their numbers of the file', () => {
  const moved = FACES.map((face) => face.map((v) => v + 1));
  const mesh = meshOf([[9, 9, 9], ...POINTS], [...moved, [1, 1, 2], [1, 2, 77]]);
  const left = tidy(mesh);
  assert.deepEqual(facesOf(left), FACES);
  assert.deepEqual([...left.names], [1, 2, 3, 4]);
});

test('equal points become one', () => {
  assert.deepEqual([...firstAtPoint(Float64Array.of(0, 1, 2, 3, 4, 5, -0, 1, 2))], [0, 1, 0]);
});

test('sides at one edge are told', () => {
  const { mates, edges } = matesOf(meshOf(POINTS, FACES));
  assert.equal(edges.length / 2, 6);
  mates.forEach((mate, side) => assert.equal(mates[mate], side));
  const fins = matesOf(meshOf([...POINTS, [1, 1, 1]], [[0, 1, 2], [0, 1, 3], [0, 1, 4]])).mates;
  assert.deepEqual([...fins], [-2, -1, -1, -2, -1, -1, -2, -1, -1]);
});

test('the part with the most faces is kept', () => {
  const far = POINTS.map(([x, y, z]) => [x + 5, y, z]), three = FACES.slice(1).map((face) => face.map((v) => v + 4));
  const { mesh, parts } = largest(meshOf([...POINTS, ...far], [...three, ...FACES]));
  assert.equal(parts, 2);
  assert.deepEqual(facesOf(mesh), FACES);
  assert.deepEqual([...mesh.names], [0, 1, 2, 3]);
});

test('two solids that touch in a vertex are taken apart there', () => {
  const second = FACES.map((face) => face.map((v) => (v ? v + 3 : 0))), more = [[-1, 0, 0], [0, -1, 0], [0, 0, -1]];
  const { mesh, added } = split(meshOf([...POINTS, ...more], [...FACES, ...second]));
  assert.equal(added, 1);
  assert.equal(mesh.points.length / 3, 8);
  assert.deepEqual([...mesh.points.subarray(21)], [0, 0, 0]);
  assert.equal(largest(mesh).parts, 2);
});

test('a hole is closed by one face, and each of two holes by its own', () => {
  const cube = [0, 1, 2, 3, 4, 5, 6, 7].map((v) => [v & 1, (v >> 1) & 1, v >> 2]);
  const around = [[0, 1, 5, 4], [1, 3, 7, 5], [3, 2, 6, 7], [2, 0, 4, 6]];
  const { mesh, holes } = closed(meshOf(cube, around));
  assert.equal(holes, 2);
  assert.deepEqual(facesOf(mesh).slice(4).map((face) => face.sort().join(' ')).sort(), ['0 1 2 3', '4 5 6 7']);
  assert.ok(matesOf(mesh).mates.every((mate) => mate >= 0));
});

// Four faces of a cube, round two that aren't there.
const CUBE = [0, 1, 2, 3, 4, 5, 6, 7].map((v) => [v & 1, (v >> 1) & 1, v >> 2]);
const BAND = [[0, 1, 5, 4], [1, 3, 7, 5], [3, 2, 6, 7], [2, 0, 4, 6]];

test('a hub joins two holes: a band becomes a torus', () => {
  const { mesh, holes, parts } = joined(tidy(meshOf(CUBE, BAND))), { hub, points, starts } = mesh;
  assert.deepEqual([holes, parts, hub.vertex, hub.face, points.length / 3, starts.length - 1], [2, 1, 8, 4, 10, 6]);
  const { mates, edges } = matesOf(mesh);
  assert.ok(mates.every((mate) => mate >= 0));
  assert.equal(edges.length / 2, 12 + 4);
  const far = hub.edges.map(([u, v]) => [u < 8, v]);
  assert.deepEqual(far.sort(), [[true, 8], [true, 8], [true, 9], [true, 9]]);
  const open = withoutHub(mesh);
  assert.deepEqual([facesOf(open), [...open.points]], [BAND, CUBE.flat()]);
  assert.equal(facesOf(closedForHub(mesh)).length, 6);
  assert.match(text(offOf(mesh)), /\n# added faces 4 vertices 8\n$/);
  assert.deepEqual(hubOf(mesh), { vertex: 8, holes: 2, reach: 20 * Math.sqrt(3) });
});

test('one hole is closed, and of two parts that with more faces is taken', () => {
  const far = CUBE.map(([x, y, z]) => [x + 5, y, z]), five = [[0, 2, 3, 1], ...BAND].map((face) => face.map((v) => v + 8));
  const { mesh, holes, parts } = joined(tidy(meshOf([...CUBE, ...far], [...BAND, ...five])));
  assert.deepEqual([holes, parts, mesh.hub, mesh.starts.length - 1], [1, 2, undefined, 6]);
  assert.deepEqual([...mesh.names], [8, 9, 10, 11, 12, 13, 14, 15]);
  assert.equal(withoutHub(mesh), mesh);
  assert.equal(hubOf(mesh), null);
});

test('the edges of a hub are the longest', () => {
  const lengths = lengthsWithHub(bytes('0 1 5\n0 2 7\n1 2 3\n'), { edges: [[1, 3], [0, 3]] });
  assert.equal(text(lengths), '0 1 5\n0 2 7\n0 3 4294967295\n1 2 3\n1 3 4294967295\n');
  assert.equal(text(unitsWithHub({ edges: [[1, 3]] })), 'SURFLEN 2\ndefault 1\n1 3 4294967295\n');
});

test('cycles over a hub are left out', () => {
  const hub = { vertex: 8, holes: 2 }, off = 'cycle 30 0 1 3 2 0\n', over = 'cycle 9000 0 8 4 0\n';
  const read = (rows) => readAnswer('basis', `cycles 2\ntotal 9030\n${rows}`, 1);
  const found = offHub('basis', read(off + over), hub, 1);
  assert.deepEqual(found.walks.map(({ vertices }) => vertices), [[0, 1, 3, 2, 0]]);
  assert.deepEqual(found.facts, [['total length', '3']]);
  assert.match(found.text, /^1 cycle:/);
  assert.throws(() => offHub('basis', read(over + over), hub, 1), /longer than an edge of the hub/);
  assert.throws(() => offHub('basis', read(off + off), hub, 1), /longer than an edge of the hub/);
  assert.equal(offHub('cycle', readAnswer('cycle', off, 1), hub, 1).walks.length, 1);
  const rows = readInfo('vertices 10\nedges 16\nfaces 6\ncharacteristic 0\ngenus 1\n');
  const counts = [['vertices', 8], ['edges', 12], ['faces', 4], ['characteristic', 0], ['holes', 2]];
  assert.deepEqual(countsWithHoles(rows, hub), counts);
});

test('a face of five corners is three triangles, and the longest edge is measured', () => {
  const mesh = meshOf([[0, 0, 0], [3, 4, 0], [0, 5, 0], [-1, 4, 0], [-2, 1, 0]], [[0, 1, 2, 3, 4]]);
  assert.deepEqual([...trianglesOf(mesh).triangles], [0, 1, 2, 0, 2, 3, 0, 3, 4]);
  assert.deepEqual([...trianglesOf(mesh).faces], [0, 0, 0]);
  assert.equal(longestEdge(mesh.points, Uint32Array.of(0, 1, 1, 2)), 5);
  assert.equal(shapeOf(meshOf([[0, 0, 0]], [[0, 7, 8]])).triangles.length, 0);
});

// A tetrahedron of which the edges 0-1 and 0-2 are cut: vertex 0 has two copies.
const OPENED = 'OFF\n5 4 8\n0 0 0\n0 0 0\n1 0 0\n0 1 0\n0 0 1\n3 0 2 3\n3 1 4 2\n3 1 3 4\n3 2 4 3\n'
  + '# copy 0 from 0\n# copy 1 from 0\n# copy 2 from 1\n# copy 3 from 2\n# copy 4 from 3\n';

test('a cut is read: its border, and the edges that were cut', () => {
  const { origins, round, edges } = readOpened(bytes(OPENED));
  assert.deepEqual([...origins], [0, 0, 1, 2, 3]);
  assert.deepEqual([...round].sort(), [0, 1, 2, 3]);
  assert.deepEqual([...edges], [0, 1, 0, 2]);
});

test('a disc in the plane has its border on the circle and the others at the mean of their neighbours', () => {
  const opened = readOpened(bytes(OPENED)), { places, edges } = unfold(opened);
  const at = (v) => [places[2 * v], places[2 * v + 1]];
  for (const v of opened.round) assert.ok(Math.abs(Math.hypot(...at(v)) - 1) < 1e-6);
  for (const c of [0, 1]) assert.ok(Math.abs(at(4)[c] - (at(1)[c] + at(2)[c] + at(3)[c]) / 3) < 1e-4);
  assert.equal(edges.length / 2, 8);
});

test('lengths have as many decimals as the longest edge has room for', () => {
  for (const longest of [1e-12, 0.004, 0.5, 1, 3.99, 42, 1e6, 4e9]) {
    const decimals = decimalsFor(longest);
    assert.ok(longest * 10 ** decimals < 4294967295, `${longest}`);
    assert.ok(decimals === 9 || longest * 10 ** (decimals + 1) > 0.93 * 4294967295 || decimals === 0, `${longest}`);
  }
  assert.equal(shownLength('12262957', 6), '12.263');
  assert.equal(shownLength('20000000000000000000', 9), '20000000000');
  assert.equal(shownLength('58', null), '58');
});

test('each line of a refusal of a mesh has plain words', () => {
  const formats = readFileSync(new URL('../docs/formats.md', import.meta.url), 'utf8');
  const row = (status) => formats.split('\n').find((line) => line.startsWith(`| ${status} | \``));
  const words = (status) => [...row(status).matchAll(/`([^`]*)`/g)].map((found) => found[1]);
  for (const status of [3, 4, 12]) {
    const [front, ...lines] = words(status);
    for (const line of lines) assert.notEqual(explain(`${front}${line.replace(/[A-Z]/g, '0')}`, null).text, '', line);
  }
  const limits = [...formats.matchAll(/^\| `([a-z-]+)` \| .* \| [\d,]+ \|$/gm)].map((found) => `limit: ${found[1]}`);
  assert.ok(limits.length >= 10);
  for (const line of [...limits, 'memory', 'base: 9 of 4']) assert.notEqual(explain(line, null).text, '');
});

test('a refusal names what to show, by the numbers of the mesh and of the file', () => {
  const shape = { kind: 'obj', names: Uint32Array.of(4, 5, 6, 7, 8, 9) };
  const border = explain('surface: border 0 3 2', shape);
  assert.deepEqual([border.edges, border.faces], [[0, 3], [2]]);
  assert.match(border.text, /^Edge 0 3 has one face, 2: .*\. In the file vertex 0 is v 5, vertex 3 is v 8\.$/);
  assert.deepEqual(explain('surface: pinched 5 1 2', shape).vertices, [5]);
  assert.deepEqual(explain('surface: apart 4', null).faces, [0, 4]);
});

test('answers are read', () => {
  const basis = readAnswer('basis', 'cycles 2\ntotal 6\ncycle 3 0 1 2 0\ncycle 3 0 3 6 0\n', null);
  assert.deepEqual(basis.walks.map(({ vertices }) => vertices), [[0, 1, 2, 0], [0, 3, 6, 0]]);
  assert.deepEqual([...basis.walks[0].edges], [0, 1, 1, 2, 2, 0]);
  assert.deepEqual(basis.facts, [['total length', '6']]);
  assert.deepEqual([...readAnswer('class', 'null 2 1 3\n', null).faces], [1, 3]);
  assert.deepEqual([...readAnswer('class', 'odd 1 0 4\n', null).walks[0].edges], [0, 4]);
  assert.match(readAnswer('cycle', 'none\n', 6).text, /separates/);
  assert.match(readAnswer('basis', 'cycles 0\ntotal 0\n', 6).text, /sphere/);
  const rows = readInfo('vertices 6\nedges 15\nfaces 10\ncharacteristic 1\ncrosscaps 1\n');
  assert.deepEqual(rows.at(-1), ['crosscaps', '1']);
});

test('the Klein bottle is closed, and its characteristic is 0', () => {
  const mesh = readOff(bytes(kleinBottle(28, 16))), { mates, edges } = matesOf(mesh);
  assert.ok(mates.every((mate) => mate >= 0));
  assert.equal(mesh.points.length / 3 - edges.length / 2 + mesh.starts.length - 1, 0);
});

test('a file is not opened whose worker ended while it was read', async () => {
  const asked = [];
  globalThis.Worker = class {
    postMessage({ id, what }) {
      asked.push(what);
      queueMicrotask(() => this.onmessage({ data: { id, said: {} } }));
    }

    terminate() {}
  };
  const session = new Session('', new Uint8Array(0));
  await session.start();
  let read;
  const blob = { arrayBuffer: () => new Promise((done) => { read = done; }) };
  const opening = session.open({ name: 'a.off', blob });
  await session.start();
  read(new ArrayBuffer(8));
  await assert.rejects(opening, Stopped);
  assert.deepEqual(asked, ['load', 'load']);
  await session.open({ name: 'b.off', blob: { arrayBuffer: async () => new ArrayBuffer(8) } });
  await session.start();
  assert.deepEqual(asked.slice(2), ['open', 'load', 'open'], 'a new worker is given the file again');
});

/** A table of a scene, by hand: the lowest bytes of all numbers first. */
const table = (...numbers) => [0, 8, 16, 24].flatMap((shift) => numbers.map((x) => (x >>> shift) & 255));
/** The same of steps from each number to the next, from 0 on, the sign in the lowest bit. */
const steps = (...numbers) => table(...numbers.map((x, k) => {
  const step = x - (numbers[k - 1] || 0);
  return step < 0 ? -2 * step - 1 : 2 * step;
}));

function sceneOf(head, ...tables) {
  const words = bytes(JSON.stringify(head)), size = new Uint8Array(4);
  new DataView(size.buffer).setUint32(0, words.length, true);
  return Uint8Array.from([...size, ...words, ...tables.flat()]);
}

test('a scene is read', () => {
  const head = {
    title: '<b>', turn: 90, tilt: 0, isCut: false, points: { count: 3, low: [1, -2, 0], step: 0.5 },
    faces: { count: 2, size: null, added: 1 }, marked: 1, values: { isOfFaces: false, low: -1, high: 3, label: 'x' },
    lines: [{ size: 4, isWalk: true, units: 12, decimals: 1 }, { size: 2, isWalk: false, units: null, decimals: 0 }],
  };
  const points = [steps(0, 2, 0), steps(4, 0, 0), steps(0, 0, 70000)], faces = [table(3, 3), steps(1), steps(0, 0)];
  const rest = [table(1, 2, 2, 1), steps(0, 1, 2, 0, 2, 1), steps(0), steps(0, 1023, 0)];
  const scene = readScene(sceneOf(head, ...points, ...faces, ...rest));
  // The third axis becomes the second one, which is the upright one of the picture.
  assert.deepEqual([...scene.mesh.points], [1, 0, -0, 2, 0, 2, 1, 35000, 2]);
  assert.deepEqual(facesOf(scene.mesh), [[0, 1, 2], [0, 2, 1]]);
  assert.deepEqual([[...scene.hidden], [...scene.marked], scene.title], [[1], [0], '<b>']);
  assert.deepEqual(scene.lines.map(({ vertices }) => [...vertices]), [[0, 1, 2, 0], [2, 1]]);
  assert.deepEqual([...scene.values.parts], [0, 1, 0]);
  assert.ok(Math.abs(scene.turn[0] + Math.PI / 2) < 1e-12 && scene.turn[1] === -0);
});

test('a torus that is cut along a meridian and a longitude is a disc', () => {
  const at = (i, j) => 3 * (i % 3) + (j % 3), places = [], faces = [];
  for (let i = 0; i < 3; i++) {
    for (let j = 0; j < 3; j++) {
      places.push([i, j, 0]);
      faces.push([at(i, j), at(i + 1, j), at(i + 1, j + 1)], [at(i, j), at(i + 1, j + 1), at(i, j + 1)]);
    }
  }
  const seams = [0, 1, 1, 2, 2, 0, 0, 3, 3, 6, 6, 0], { disc, round } = cutAlong(meshOf(places, faces), seams);
  const edges = matesOf(disc).edges.length / 2;
  assert.equal(disc.points.length / 3 - edges + faces.length, 1);
  assert.equal(disc.points.length / 3, 16);
  assert.deepEqual([round.length, new Set(round).size], [12, 12]);
});

test('walks are told with their lengths, or with their edges alone', () => {
  assert.equal(walkOf([0, 1, 2, 0], 1234567, 6).title, 'length 1.23457, 3 edges');
  assert.equal(walkOf([0, 1, 2, 0], 1234567, 0).title, 'length 1234567, 3 edges');
  assert.equal(walkOf([0, 1, 2, 0], 3, null).title, '3 edges');
  assert.deepEqual([...walkOf([5, 1, 5], 2, 1).edges], [5, 1, 1, 5]);
  assert.equal(walkOf([5, 1, 5], 2, 1).length, 0.2);
});

/**
 * What eyes see that lack a kind of cones, for shares of red, green and blue in proportion to light: G. M. Machado,
 * M. M. Oliveira, L. A. F. Fernandes, "A Physiologically-based Model for Simulation of Color Vision Deficiency", 2009.
 */
const SIGHTS = {
  usual: [1, 0, 0, 0, 1, 0, 0, 0, 1],
  'without long waves': [
    0.152286, 1.052583, -0.204868, 0.114503, 0.786281, 0.099216, -0.003882, -0.048116, 1.051998,
  ],
  'without middle waves': [
    0.367322, 0.860646, -0.227968, 0.280085, 0.672501, 0.047413, -0.01182, 0.04294, 0.968881,
  ],
  'without short waves': [
    1.255528, -0.076749, -0.178779, -0.078411, 0.930809, 0.147602, 0.004733, 0.691367, 0.3039,
  ],
};

/** A colour in CIELAB, as it is seen. */
function labOf(colour, sight) {
  const light = [1, 3, 5].map((at) => parseInt(colour.slice(at, at + 2), 16) / 255)
    .map((x) => (x <= 0.04045 ? x / 12.92 : ((x + 0.055) / 1.055) ** 2.4));
  const [r, g, b] = [0, 3, 6].map((row) => light.reduce((sum, x, c) => sum + sight[row + c] * x, 0))
    .map((x) => Math.max(0, Math.min(1, x)));
  const white = [0.95047, 1, 1.08883];
  const [x, y, z] = [[0.4124, 0.3576, 0.1805], [0.2126, 0.7152, 0.0722], [0.0193, 0.1192, 0.9505]]
    .map(([p, q, s], k) => (p * r + q * g + s * b) / white[k])
    .map((t) => (t > 216 / 24389 ? Math.cbrt(t) : ((24389 / 27) * t + 16) / 116));
  return [116 * y - 16, 500 * (x - y), 200 * (y - z)];
}

test('neighbours in the list have colours that all eyes tell apart', () => {
  for (const [theme, colours] of Object.entries(WALKS)) {
    for (const [name, sight] of Object.entries(SIGHTS)) {
      colours.forEach((colour, k) => {
        const a = labOf(colour, sight), b = labOf(colours[(k + 1) % colours.length], sight);
        assert.ok(Math.hypot(...a.map((x, c) => x - b[c])) > 25, `${theme}, ${name}: colours ${k} and ${k + 1}`);
      });
    }
  }
});

/** A torus of 3 by 3 squares that stand on a plane, or a bottle, whose last row is glued turned over. */
function squares(isBottle) {
  const at = (i, j) => (i < 3 ? i * 3 + (j % 3) : isBottle ? (6 - j) % 3 : j % 3), faces = [];
  for (let i = 0; i < 3; i++) {
    for (let j = 0; j < 3; j++) faces.push([at(i, j), at(i + 1, j), at(i + 1, j + 1), at(i, j + 1)]);
  }
  return meshOf(Array.from({ length: 9 }, (_, v) => [v % 3, Math.floor(v / 3), 0]), faces);
}

/** What is left when these cycles, the first of a basis, are there at the first look, and none at the next. */
function left(mesh, ...basis) {
  const cycles = basis.map((vertices) => ({ units: vertices.length, vertices })), surgery = new Surgery(mesh);
  const finder = { cycle: (it) => (it.vertexOrigins.length > 9 ? null : cycles[0]), basis: () => cycles };
  return { surgery, done: takeOff(surgery, finder, 4) };
}

const isClosed = (mesh) => matesOf(mesh).mates.every((mate) => mate >= 0);
const characteristic = (mesh) => mesh.points.length / 3 - matesOf(mesh).edges.length / 2 + mesh.starts.length - 1;

test('a torus becomes a sphere by a cut and two faces', () => {
  const { surgery, done } = left(squares(false), [0, 1, 2], [0, 3, 6]), mesh = surgery.mesh();
  assert.deepEqual(done, { taken: [3], oneSided: 0, left: null });
  assert.deepEqual([mesh.points.length / 3, mesh.starts.length - 1, characteristic(mesh)], [12, 11, 2]);
  assert.ok(isClosed(mesh));
  assert.deepEqual(surgery.vertexOrigins, [0, 1, 2, 3, 4, 5, 6, 7, 8, 0, 1, 2]);
  const steps = facesOf(mesh).flatMap((face) => face.map((v, k) => `${v} ${face[(k + 1) % face.length]}`));
  assert.equal(new Set(steps).size, steps.length, 'the faces of each edge run it in opposite ways');
  const points = surgery.partedPoints(), placeOf = (v) => points.slice(3 * v, 3 * v + 3);
  for (const [one, other] of [0, 1, 2].map((v) => [placeOf(v), placeOf(9 + v)])) {
    assert.notDeepEqual(one, other);
    assert.ok(Math.hypot(...one.map((x, c) => x - other[c])) < 1e-3);
  }
});

test('a one-sided cycle leaves one face', () => {
  const { surgery, done } = left(squares(true), [0, 3, 6]), mesh = surgery.mesh();
  assert.deepEqual(done, { taken: [3], oneSided: 1, left: null });
  assert.deepEqual([mesh.points.length / 3, mesh.starts.length - 1, characteristic(mesh)], [12, 10, 1]);
  assert.ok(isClosed(mesh));
  assert.equal(facesOf(mesh).at(-1).length, 6);
});
