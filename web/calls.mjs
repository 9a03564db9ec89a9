// Calls surf.wasm as the page does: node calls.mjs SURF.WASM FOLDER
// FOLDER has calls.json, a list of {words, files}, where files are names of files in the folder. The status and the
// text of call k go to the files k.status and k.text.
import { readFileSync, writeFileSync } from 'node:fs';
import { join } from 'node:path';
import { Program } from './page/program.js';

const [wasm, folder] = process.argv.slice(2);
const program = await Program.load(readFileSync(wasm));
const calls = JSON.parse(readFileSync(join(folder, 'calls.json'), 'utf8'));
calls.forEach(({ words, files }, k) => {
  const { status, text } = program.call(words, files.map((name) => readFileSync(join(folder, name))));
  writeFileSync(join(folder, `${k}.status`), String(status));
  writeFileSync(join(folder, `${k}.text`), text);
});
