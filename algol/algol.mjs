#!/usr/bin/env node
// The command of the translator: node algol.mjs [--names] FILE.alg > deck

import {readFileSync, writeSync} from 'node:fs';
import {compile} from './compile.mjs';

const [GOOD, REFUSED, WRONG_CALL, CUT] = [0, 1, 2, 3];
const USAGE = 'usage: node algol.mjs [--names] FILE.alg > deck\n';

// Where a mistake is and what it is, with its line and a caret below it.
function shown(path, lines, kind, {line, col, text}) {
  const source = (lines[line - 1] ?? '').replace(/\t/g, ' ').replace(/\r$/, ''), from = Math.max(0, col - 60);
  return `${path}:${line}:${col}: ${kind}: ${text}\n    ${source.slice(from, from + 100)}\n    ${' '.repeat(col - 1 - from)}^\n`;
}

// Writes a text whole; whether it was taken.
function written(to, text) {
  const bytes = Buffer.from(text);
  try {
    for (let at = 0; at < bytes.length;) at += writeSync(to, bytes, at);
    return true;
  } catch { return false; }
}

// Reads a file, or standard input if its name is `-`; null if it can't be read.
function textOf(path) {
  try { return readFileSync(path === '-' ? 0 : path, 'utf8'); } catch { return null; }
}

// Reads a file and prints its deck; mistakes go to standard error.
function translate(path, names) {
  const text = textOf(path);
  if (text === null) { written(2, `${path} cannot be read.\n`); return WRONG_CALL; }
  const {deck, errors, warnings} = compile(text, {names}), lines = text.split('\n');
  const told = [...errors.map(e => shown(path, lines, 'error', e)), ...warnings.map(e => shown(path, lines, 'warning', e))].join('');
  if (told) written(2, told);
  if (deck === null) return REFUSED;
  if (written(1, deck)) return GOOD;
  written(2, 'The deck cannot be written.\n');
  return CUT;
}

const given = process.argv.slice(2), files = given.filter(word => word !== '--names');
if (files.length === 1 && files[0] !== '' && given.length - files.length < 2) process.exitCode = translate(files[0], given.length > 1);
else { written(2, USAGE); process.exitCode = WRONG_CALL; }
