// Mends meshes as the page does: node mending.mjs SURF.WASM FOLDER
// FOLDER has trials.json, a list of {mesh, ways, decimals}: the name of a file in the folder, the ways to mend it one
// after the other, and the decimals of lengths where a hub joins holes. The surfaces go to the file answers.json.
import { readFileSync, writeFileSync } from 'node:fs';
import { join } from 'node:path';
import { closedForHub, lengthsWithHub } from './page/holes.js';
import { offOf } from './page/mend.js';
import { MENDS } from './page/mends.js';
import { Program } from './page/program.js';
import { readOff } from './page/readers.js';

const [wasm, folder] = process.argv.slice(2);
const program = await Program.load(readFileSync(wasm));

function lengthsOf(mesh, decimals) {
  const { status, text } = program.call(`lengths 1 ${decimals}`, [offOf(closedForHub(mesh))]);
  if (status) throw new Error(new TextDecoder().decode(text));
  return new TextDecoder().decode(lengthsWithHub(text, mesh.hub));
}

const trials = JSON.parse(readFileSync(join(folder, 'trials.json'), 'utf8'));
const answers = trials.map(({ mesh: name, ways, decimals }) => {
  const mesh = ways.reduce((it, way) => MENDS[way](it).mesh, readOff(new Uint8Array(readFileSync(join(folder, name)))));
  const { points, starts, corners, names, hub } = mesh;
  const added = hub ? [hub.vertex, hub.face] : [names.length, starts.length - 1];
  const lengths = hub ? lengthsOf(mesh, decimals) : null;
  return { points: [...points], starts: [...starts], corners: [...corners], names: [...names], added, lengths };
});
writeFileSync(join(folder, 'answers.json'), JSON.stringify(answers));
