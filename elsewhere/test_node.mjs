// Tests of the package for node: node test_node.mjs INDEX.JS MESHES
import assert from 'node:assert/strict';
import { pathToFileURL } from 'node:url';

const [index, meshes] = process.argv.slice(2);
const { Refused, Surface, call } = await import(pathToFileURL(index));

const CORNERS = [[0, 1, 2], [0, 3, 1], [0, 2, 3], [1, 3, 2]];
const tetrahedron = new Surface(4, CORNERS);
assert.deepEqual(tetrahedron.info(), { vertices: 4, edges: 6, faces: 4, characteristic: 2, genus: 0 });
assert.deepEqual(tetrahedron.basis(), { units: 0n, length: 0, walks: [] });
assert.equal(tetrahedron.cycle(), null);
assert.deepEqual([...tetrahedron.cut().origins], [0, 0, 1, 2, 3]);
assert.equal(tetrahedron.classify([0, 1, 2, 0]).bounds, true);
assert.equal(tetrahedron.check(tetrahedron.certify(0)), 'valid loops 0');
assert.throws(() => tetrahedron.loops(4), (fault) => fault instanceof Refused && fault.status === 7);
assert.throws(() => new Surface(4, CORNERS.slice(1)).info(), { message: 'surface: border 0 1 0', status: 4 });
assert.throws(() => new Surface(Float64Array.of(1, 2), CORNERS), RangeError);
assert.throws(() => new Surface(4, Uint32Array.of(0, 1)), RangeError);

// The places of a torus of 7 vertices, each joined to all others, don't matter where each edge counts 1.
const torus = new Surface(7, [...Array(7).keys()].flatMap((a) => [[a, (a + 1) % 7, (a + 3) % 7], [a, (a + 3) % 7, (a + 2) % 7]]));
assert.equal(torus.info().genus, 1);
assert.deepEqual(torus.basis().walks.map(({ length }) => length), [3, 3]);
assert.equal(torus.cycle().length, 3);
const heavy = Uint32Array.from([...Array(7).keys()].flatMap((a) => [...Array(a).keys()].flatMap((b) => [b, a, 5])));
assert.equal(new Surface(7, torus.cut().faces.map((face) => [...face].map((copy) => torus.cut().origins[copy])), { lengths: heavy }).cycle().length, 15);

// 12.26 is the length of a basis of this mesh as others measured it.
const eight = Surface.fromFile(`${meshes}/eight.off`), basis = eight.basis();
assert.equal(basis.length.toFixed(2), '12.26');
assert.equal(basis.units, basis.walks.reduce((sum, { units }) => sum + units, 0n));
assert.equal(eight.check(eight.certify(0)).split(' ').slice(0, 2).join(' '), 'valid loops');
const [walk] = basis.walks;
assert.equal(eight.classify(walk.vertices).bounds, false);
assert.equal(eight.shortest(walk.vertices).units, walk.units);
assert.deepEqual(call('info 4').status, 9);

// A module that lends the address 8 to all who ask, and whose surf_call is `unreachable`: a trap is no answer.
const TRAP = 'AGFzbQEAAAABGANgAX4BfmABfgBgC35+fn5+fn5+fn5+AAMEAwABAgUDAQABBy4EBm1lbW9yeQIACXN1cmZfdGFrZQAACXN1cmZfZ2l2ZQABCXN1cmZfY2FsbAACCg0DBABCCAsCAAsDAAAL';
const { Program } = await import(new URL('program.js', pathToFileURL(index)));
const trapping = await Program.load(Buffer.from(TRAP, 'base64'));
assert.throws(() => trapping.call('info 1', []), WebAssembly.RuntimeError);
console.log('the package: its tests passed');
