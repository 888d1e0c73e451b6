// Runs decks by the built program, whose name the variable B67 has.

import {spawnSync} from 'node:child_process';
import {mkdtempSync, rmSync} from 'node:fs';
import {tmpdir} from 'node:os';
import {join} from 'node:path';

export const B67 = process.env.B67 ?? 'b67';
export const AMPLE = 65536;
const LEAST = 256;

const room = mkdtempSync(join(tmpdir(), 'algol-'));
process.on('exit', () => rmSync(room, {recursive: true, force: true}));

// What a command of the program prints for a deck.
export function command(deck, ...words) {
  const {error, stdout} = spawnSync(B67, words, {input: deck, encoding: 'latin1', maxBuffer: 1 << 28});
  if (error) throw error;
  return stdout;
}

// The lines of a deck in a core.
export function run(deck, core = AMPLE) { return command(deck, 'run', '--core', String(core), '--backing', join(room, 'backing')); }

// The lines of a deck in the least core in which it runs, and that core.
export function runInLeast(deck) {
  for (let core = LEAST; ;) {
    const lines = run(deck, core), need = /^NO CORE (\d+) /m.exec(lines);
    if (!need) return {lines, core};
    core = Number(need[1]);
  }
}
