// The page's module against the native program: node compare.mjs PAGE PROGRAM DECKS, called by tools/check-web.sh.
//
// Each deck is run by each command, in several cores; its images at some counts are compared with all sectors of the backing, and
// what `dump` and `resume` make of them. Prints each difference, and at last `N the same, M different`.
import fs from 'node:fs';
import os from 'node:os';
import path from 'node:path';
import {callModule, callNative, moduleOf, sectorsOf} from './module.mjs';

const CORES = ['256', '700', '4096', '1048575'];
const COUNTS = [1, 7, 40, 300];
const [page, program, folder] = process.argv.slice(2);
const module = moduleOf(page);
const room = fs.mkdtempSync(path.join(os.tmpdir(), 'b67-'));
const file = path.join(room, 'backing');
let same = 0, different = 0;

// Calls both. Gives what the module answered, or null if the answers differ.
function both(name, words, text, sectors = null) {
  const native = callNative(program, file, words, text, sectors), after = sectorsOf(file);
  let made;
  try {
    made = callModule(module, words, text, sectors);
  } catch (error) {
    made = {status: error.message, bytes: Buffer.alloc(0), sectors: null};
  }
  const wrong = made.status !== native.status ? `status ${made.status}, natively ${native.status}`
    : !made.bytes.equals(native.bytes) ? 'other bytes'
    : after && !made.sectors.equals(after) ? 'other sectors' : '';
  if (wrong) console.log(`${name}: ${words.join(' ')}: ${wrong}`);
  if (wrong) different++;
  else same++;
  return wrong ? null : made;
}

// The cards between ?ASM or ?HEX and the next line that begins with `?`, of each job.
function bodies(text) {
  return [...text.matchAll(/^\?(?:ASM|HEX) *\n((?:(?!\?).*\n)*)/gm)].map(found => found[1]);
}

function by_each_command(name, text, own) {
  for (const core of new Set([own, ...CORES])) both(name, ['run', '--core', core, '--backing', 'BACKING'], text);
  both(name, ['image', '--core', own, '--backing', 'BACKING'], text);
  for (const words of [['check'], ['dump'], ['asm'], ['convert'], ['resume', '--backing', 'BACKING'], ['bind', '2=2', '3=3'], ['bind', '2=1'], ['run'], []])
    both(name, words, text);
  for (const body of bodies(text.toString('latin1'))) {
    const made = both(name, ['asm'], Buffer.from(body, 'latin1'));
    if (made) both(name, ['convert'], made.bytes);
  }
}

// The deck with a halt after so many operators, in place of its own.
function halting(text, count) {
  return Buffer.from(`?HALT ${count}\n${text.toString('latin1').replace(/^\?HALT.*\n/gm, '')}`, 'latin1');
}

function at_counts(name, text, own) {
  for (const count of COUNTS) {
    const image = both(name, ['image', '--core', own, '--backing', 'BACKING'], halting(text, count));
    if (!image || image.status !== 3) return;
    both(name, ['dump'], image.bytes);
    both(name, ['resume', '--backing', 'BACKING'], image.bytes, image.sectors);
  }
}

for (const name of fs.readdirSync(folder).sort()) {
  const deck = path.join(folder, name, 'stdin');
  if (!fs.existsSync(deck)) continue;
  const text = fs.readFileSync(deck), args = fs.readFileSync(path.join(folder, name, 'args'), 'latin1').split('\n');
  const own = args[args.indexOf('--core') + 1] || '4096';
  const from = different;
  by_each_command(name, text, args.includes('--core') ? own : '4096');
  at_counts(name, text, args.includes('--core') ? own : '4096');
  if (process.stdout.isTTY && from === different) process.stderr.write(`${name} `);
}
for (const seed of ['0', '7', '4294967295']) for (const core of ['700', '4096'])
  both('exercise', ['exercise', seed, '40', '--core', core], Buffer.alloc(0));
fs.rmSync(room, {recursive: true});
console.log(`${same} the same, ${different} different`);
process.exitCode = different ? 1 : 0;
