// Searches of the page's module: node finds.mjs PAGE FILE, called by reference/compare_searches.py. FILE has a search and a deck on each line,
// as JSON: core, kind, numbers, from, most, and the deck's text in Latin-1. Prints for each the count, `none`, or `stops`.
import fs from 'node:fs';
import {Program} from '../src/machine/program.js';
import {moduleOf} from './module.mjs';

const [page, file] = process.argv.slice(2);
const [FOUND, NOWHERE, SECTORS] = [0, 1, 65535];
const program = new Program(moduleOf(page));

for (const line of fs.readFileSync(file, 'utf8').split('\n').filter(Boolean)) {
  const {text, ...search} = JSON.parse(line), {status, count} = program.find(text, {...search, sectors: SECTORS});
  console.log(status === FOUND ? count : status === NOWHERE ? 'none' : 'stops');
}
