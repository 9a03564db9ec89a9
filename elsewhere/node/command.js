#!/usr/bin/env node
// The command: the program's words, with files of the system.
import { closeSync, fstatSync, openSync, readFileSync, readSync, writeSync } from 'node:fs';
import { call } from './index.js';
import { ROWS } from './rows.js';

const MOST_TEXT = 268_435_456; // `text` in docs/formats.md: one byte more is refused, so no more is read
const USAGE = 2, OUTPUT = 10, MEMORY = 11;

/** The bytes of a file, up to one more than a text may have, or null where it can't be read. */
function fileNamed(name) {
  let file;
  try {
    file = openSync(name, 'r');
    const { size, mode } = fstatSync(file), isPlain = (mode & 0o170000) === 0o100000;
    return isPlain && size <= MOST_TEXT ? readFileSync(file) : begun(file);
  } catch (fault) {
    if (fault instanceof RangeError) throw fault; // there is no memory for it
    return null;
  } finally {
    if (file !== undefined) closeSync(file);
  }
}

/** The first bytes of a file that may have no end. */
function begun(file) {
  const parts = [];
  for (let left = MOST_TEXT + 1; left > 0; left -= parts.at(-1).length) {
    const part = Buffer.alloc(Math.min(left, 1 << 20)), count = readSync(file, part);
    if (!count) break;
    parts.push(part.subarray(0, count));
  }
  return Buffer.concat(parts);
}

/** Whether words are those of a row, in which a name that the user gives has at most two letters. */
const fits = (row, words) => row.length === words.length && row.every((it, k) => it.length <= 2 || it === words[k]);

const isFile = (name, word) => name.length <= 2 && /^[A-Z]/.test(name) && !(name === 'L' && word === 'unit');

/** A word that names no file, as a call may have it: no word of the table is empty or has a blank. */
const plain = (word) => (word === '' || /[ \t\r]/.test(word) ? '?' : word);

/** What the program answers to the words of a command line. */
function run(words) {
  const row = ROWS.map((it) => it.split(' ')).find((it) => fits(it, words));
  const shown = (named) => (it, k) => (row && isFile(row[k], it) ? named(it) : plain(it));
  const files = [], line = (named) => words.map(shown(named)).join(' ');
  const first = call(line(() => '4'));
  if (!row || first.status === USAGE) return first; // words of a wrong form are refused before any file is opened
  const text = line((name) => {
    const bytes = fileNamed(name);
    files.push(bytes ?? new Uint8Array(0));
    return bytes ? String(files.length) : '4';
  });
  return call(text, files);
}

/** Writes all bytes; false where that fails. */
function written(stream, bytes) {
  for (let at = 0; at < bytes.length; ) {
    try {
      at += writeSync(stream, bytes, at);
    } catch (fault) {
      if (fault.code !== 'EAGAIN') return false;
    }
  }
  return true;
}

function main(words) {
  let said;
  try {
    said = run(words);
  } catch (fault) {
    if (!(fault instanceof RangeError)) throw fault;
    said = { status: MEMORY, text: Buffer.from('memory\n') };
  }
  if (written(said.status < USAGE ? 1 : 2, said.text) || said.status >= USAGE) return said.status;
  written(2, Buffer.from('write fault\n'));
  return OUTPUT;
}

process.exitCode = main(process.argv.slice(2));
