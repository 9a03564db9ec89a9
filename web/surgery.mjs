// Takes handles off as the page does: node surgery.mjs SURF.WASM FOLDER
// FOLDER has trials.json, a list of {mesh, lengths, limit}, where mesh and lengths are names of files in the folder;
// lengths and limit may be null, for lengths of 1 and for all handles. What is left, by its corners and its lengths,
// and what went, goes to the file answers.json.
import { readFileSync, writeFileSync } from 'node:fs';
import { join } from 'node:path';
import { Cycles } from './page/cycles.js';
import { Program } from './page/program.js';
import { readOff } from './page/readers.js';
import { Surgery, takeOff } from './page/surgery.js';

const [wasm, folder] = process.argv.slice(2);
const program = await Program.load(readFileSync(wasm));
const read = (name) => new Uint8Array(readFileSync(join(folder, name)));

function ask(words, files) {
  const { status, text } = program.call(words, files);
  if (status > 1) throw new Error(new TextDecoder().decode(text));
  return text;
}

const trials = JSON.parse(readFileSync(join(folder, 'trials.json'), 'utf8'));
const answers = trials.map(({ mesh, lengths, limit }) => {
  const cycles = new Cycles(ask, lengths && read(lengths)), surgery = new Surgery(readOff(read(mesh)));
  const done = takeOff(surgery, cycles, limit ?? Infinity), kept = cycles.lengthsOf(surgery);
  return {
    ...done, faces: surgery.faces, origins: surgery.vertexOrigins, points: surgery.partedPoints(),
    lengths: kept && new TextDecoder().decode(kept),
  };
});
writeFileSync(join(folder, 'answers.json'), JSON.stringify(answers));
