// The long tests of the translator: node algol/test/long.mjs [--jobs N] [COUNT [FIRST [PART]]]; B67 is the built program. PART is one of
// `programs`, `texts` and `limits`; all three are tried if it isn't said. N processes work, one if it isn't said.
// COUNT random programs (10,000 if nothing is said), numbered from FIRST (1), print the same by the machine as by the reference, in ample
// core and each in its least one; COUNT mutated texts neither break the translator nor give a deck that b67 refuses; and each limit of the
// machine is reached, and one more is a mistake with a line. It goes by pieces of the numbers, and tells each that is done, so a run that
// was cut off goes on by FIRST. What differs is kept in a folder, which is told. The status is 1 if something does.

import {fork} from 'node:child_process';
import {mkdtempSync, readFileSync, readdirSync, writeFileSync} from 'node:fs';
import {tmpdir} from 'node:os';
import {join} from 'node:path';
import {fileURLToPath} from 'node:url';
import {compile} from '../compile.mjs';
import {interpret} from './report.mjs';
import {Programs} from './random.mjs';
import {mutated, Random} from './mutate.mjs';
import {SHAPES} from './limits.mjs';
import {command, run, runInLeast} from './machine.mjs';

const [JOBS, PIECE, MOST_WORKERS] = [8, 250, 64]; // jobs of a deck; numbers of a piece; processes
const CORE = 1048575;
// What ends a run by the machine's own limits, of which the reference knows nothing.
const LIMITS = /LIMIT|STACK OVERFLOW|LOOP/;

let kept = null;
// Keeps a text that shows a difference, and tells what it is.
function keep(name, text, what) {
  kept ??= mkdtempSync(join(tmpdir(), 'algol-kept-'));
  writeFileSync(join(kept, name), text);
  console.log(`${join(kept, name)}: ${what}`);
}

// The lines of each job of several decks, which are run as the jobs of one.
function linesOf(decks, go) {
  const [head] = decks[0].split('?JOB'), jobs = decks.map(deck => deck.slice(deck.indexOf('?JOB'))), found = decks.map(() => []);
  for (const line of go(head + jobs.join('')).trimEnd().split('\n')) {
    const [, job, rest] = /^(\d)\.(.*)$/.exec(line) ?? [null, '1', line];
    found[job - 1].push(`1.${rest}`);
  }
  return found;
}

// Random programs of these numbers; those that the reference would carry out for too long are left out.
class Comparison {
  constructor() { Object.assign(this, {waiting: [], same: 0, long: 0, machine: 0, wrong: 0, lines: 0, ends: {}}); }
  add(number) {
    const text = new Programs(number).program(), {deck, errors} = compile(text);
    if (!deck) { this.wrong++; keep(`${number}.alg`, text, `refused: ${errors[0].line}:${errors[0].col}: ${errors[0].text}`); return; }
    const wanted = interpret(text);
    if (!wanted) { this.long++; return; }
    this.waiting.push({number, text, deck, wanted});
    if (this.waiting.length === JOBS) this.all();
  }
  // Runs the programs that wait: in ample core together, in the least one each by itself, for a core that all need leaves room for one.
  all() {
    if (!this.waiting.length) return;
    const ample = linesOf(this.waiting.map(it => it.deck), deck => run(deck, CORE));
    this.waiting.forEach((it, n) => this.look(it, ample[n], runInLeast(it.deck).lines.trimEnd().split('\n')));
    this.waiting = [];
  }
  look({number, text, wanted}, ample, least) {
    if (ample.join('\n') !== least.join('\n')) { this.wrong++; keep(`${number}.alg`, text, 'another core, other lines'); return; }
    if (ample.join('\n') === wanted.join('\n')) { this.same++; this.lines += wanted.length; const end = wanted.at(-1).slice(4); this.ends[end] = (this.ends[end] ?? 0) + 1; return; }
    if (LIMITS.test(ample.at(-1))) { this.machine++; return; }
    this.wrong++;
    keep(`${number}.alg`, text, `line ${wanted.findIndex((line, n) => line !== ample[n]) + 1} differs`);
  }
}

function programs(from, to) {
  const comparison = new Comparison();
  for (let number = from; number < to; number++) comparison.add(number);
  comparison.all();
  const {same, long, machine, wrong, lines, ends} = comparison;
  return {same, long, machine, wrong, lines, ends};
}

// Whether a translation is as it must be: a deck, or mistakes that all have a place and a sentence.
const isSound = ({deck, errors}) => deck !== null || (errors.length > 0 && errors.every(e => e.line > 0 && e.col > 0 && !/undefined|NaN|null|\[object/.test(e.text)));

// Mutates programs, and looks whether the translator throws, tells nothing, or makes a deck that is refused.
function texts(from, to) {
  const folder = new URL('../programs/', import.meta.url), random = new Random(from), tally = {decks: 0, refused: 0, mistakes: 0, wrong: 0};
  const all = readdirSync(folder).filter(name => name.endsWith('.alg')).map(name => readFileSync(new URL(name, folder), 'utf8'));
  let waiting = [];
  const check = () => {
    const lines = waiting.length ? command(waiting.map(it => it.deck.slice(it.deck.indexOf('?JOB'))).join(''), 'check').trimEnd().split('\n') : [];
    if (lines.length !== waiting.length || lines.some(line => !/ ADMITTED /.test(line))) { tally.wrong++; keep(`mutated-${from}-${tally.decks}.alg`, waiting.map(it => it.text).join('\n%%%\n'), lines.join('; ')); }
    waiting = [];
  };
  for (let k = from; k < to; k++) {
    const text = mutated(random.n(4) ? random.of(all) : new Programs(random.n(1e9)).program(), random);
    let made;
    try { made = compile(text); } catch (e) { tally.wrong++; keep(`threw-${k}.alg`, text, e.stack.split('\n').slice(0, 3).join(' ')); continue; }
    if (!isSound(made)) { tally.wrong++; keep(`unsound-${k}.alg`, text, JSON.stringify(made.errors)); continue; }
    tally.mistakes += made.errors.length;
    if (!made.deck) { tally.refused++; continue; }
    tally.decks++;
    waiting.push({text, deck: made.deck});
    if (waiting.length === JOBS) check();
  }
  check();
  return tally;
}

// For each limit: the largest program that is translated is admitted, and the next one is a mistake with a line.
function limits() {
  let wrong = 0;
  for (const [what, make] of Object.entries(SHAPES)) {
    let low = 1, high = /levels/.test(what) ? 60 : 40000;
    while (low < high) { const middle = (low + high + 1) >> 1; if (compile(make(middle)).deck) low = middle; else high = middle - 1; }
    const admitted = command(compile(make(low)).deck, 'check').trim(), [mistake] = compile(make(low + 1)).errors;
    if (!/ ADMITTED /.test(admitted)) wrong++;
    console.log(`${what}: ${low}, ${admitted}; ${low + 1}: ${mistake ? `${mistake.line}:${mistake.col}: ${mistake.text}` : 'no mistake'}`);
  }
  return {wrong};
}

// What is tried by pieces: what makes the tally of a piece, how a tally is told, and how much of what is wanted it has.
const PIECES = {
  programs: {make: programs, done: it => it.same ?? 0,
    told: it => `${it.same} the same (${it.lines} lines; ${Object.entries(it.ends).map(([end, n]) => `${n} ${end}`).join(', ')}), ${it.long} too long for the reference, ${it.machine} ended by a limit of the machine, ${it.wrong} wrong`},
  texts: {make: texts, done: (it, given) => given, told: it => `${it.refused} refused with ${it.mistakes} mistakes, ${it.decks} translated and admitted, ${it.wrong} wrong`},
};

// Adds the counts of one tally to those of another.
function addTo(sum, tally) {
  for (const [key, n] of Object.entries(tally)) if (typeof n === 'number') sum[key] = (sum[key] ?? 0) + n; else addTo(sum[key] ??= {}, n);
}

// Gives pieces to so many processes until enough is done; tells each piece, and the sum; how many were wrong.
async function tried(part, {count, first, workers}) {
  const {done, told} = PIECES[part], size = Math.min(PIECE, Math.ceil(count / workers)), sum = {};
  let next = first;
  const worker = () => new Promise((ends, fails) => {
    const child = fork(fileURLToPath(import.meta.url), ['--piece']);
    const more = () => { if (done(sum, next - first) >= count) child.disconnect(); else { child.send({part, from: next, to: next + size}); next += size; } };
    child.on('message', ({from, to, tally}) => {
      addTo(sum, tally);
      console.log(`${part} ${from} to ${to - 1}: ${told(tally)}`);
      more();
    });
    child.on('exit', (status, signal) => status === 0 ? ends() : fails(new Error(`a process ended with ${signal ?? `status ${status}`}`)));
    more();
  });
  await Promise.all(Array.from({length: workers}, worker));
  console.log(`all ${part}: ${told(sum)}`);
  return sum.wrong;
}

function usage() {
  console.error('usage: node algol/test/long.mjs [--jobs N] [COUNT [FIRST [programs, texts or limits]]]');
  process.exitCode = 2;
}

async function main(words) {
  const [, jobs] = words[0] === '--jobs' ? words.splice(0, 2) : [null, '1'], workers = Number(jobs), [count, first] = [words[0] ?? '10000', words[1] ?? '1'].map(Number), part = words[2];
  const isNumber = (n, most) => Number.isInteger(n) && n > 0 && n <= most;
  if (words.length > 3 || !isNumber(workers, MOST_WORKERS) || !isNumber(count, 1e7) || !isNumber(first, 1e9) || (part !== undefined && part !== 'limits' && !Object.hasOwn(PIECES, part))) return usage();
  let wrong = 0;
  for (const name of ['programs', 'texts', 'limits']) if (!part || name === part) wrong += name === 'limits' ? limits().wrong : await tried(name, {count, first, workers});
  console.log(wrong ? `${wrong} wrong` : 'all the same');
  process.exitCode = wrong ? 1 : 0;
}

if (process.argv[2] === '--piece') process.on('message', ({part, from, to}) => process.send({from, to, tally: PIECES[part].make(from, to)}));
else await main(process.argv.slice(2));
