// Makes calls that lie in a folder, as caller.c does: node caller.js INDEX.JS FOLDER N
import { existsSync, readFileSync, writeFileSync } from 'node:fs';
import { pathToFileURL } from 'node:url';

const [index, folder, count] = process.argv.slice(2);
const { call } = await import(pathToFileURL(index));
const bytesOf = (name) => (existsSync(name) ? readFileSync(name) : new Uint8Array(0));
for (let k = 0; k < Number(count); k++) {
  const files = [1, 2, 3].map((place) => bytesOf(`${folder}/${k}.${place}`));
  const { status, text } = call(readFileSync(`${folder}/${k}.words`, 'utf8'), files);
  writeFileSync(`${folder}/${k}.status`, String(status));
  writeFileSync(`${folder}/${k}.text`, text);
}
