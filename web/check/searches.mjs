// The page's module: states from marks against the same from the start, and searches against a look at each state: node searches.mjs PAGE
// DECKS [DECK..], called by tools/check-web.sh.
//
// Of each deck that is run: at some counts the whole image, its sectors and its lines, by `step` and by `image`; and each kind of search that
// is by `find`, from some moments. Prints each difference, and at last `N the same, M different`.
import fs from 'node:fs';
import path from 'node:path';
import {isDeepStrictEqual} from 'node:util';
import {Machine} from '../src/machine/machine.js';
import {Marks} from '../src/machine/marks.js';
import {Program} from '../src/machine/program.js';
import {Search} from '../src/machine/search.js';
import {moduleOf} from './module.mjs';

const [page, folder, ...only] = process.argv.slice(2);
const [LONG, SEARCHED, STEPPED] = [100000, 500, 40]; // operators of a long run, and of one that is searched; counts that are stepped to
let same = 0, different = 0;

function wants(holds, what) {
  if (holds) return void same++;
  different++;
  console.log(what);
}

// The counts of a run at which it is looked at: spread over it, back and forth.
function countsOf(end) {
  const spread = Array.from({length: STEPPED}, (_, k) => 1 + Math.floor(end * ((k * 7) % STEPPED) / STEPPED));
  return [...new Set([...spread, end - 1, end, end + 5])].filter(count => count > 0);
}

function steps(name, marked, plain, end) {
  for (const count of countsOf(end)) {
    const one = marked.at(count), other = plain.at(count);
    wants(['status', 'image', 'sectors', 'lines'].every(it => isDeepStrictEqual(one[it], other[it])), `${name}: at ${count} a state from a mark is another one`);
  }
}

// The breakpoints that are tried: a card that is made often, and two.
function stopsOf(search, end) {
  const cards = [1, end >> 1, end].map(count => search.brief(Math.max(1, count)).card);
  return [[cards[1]], [cards[0], cards[2]], ['no card']];
}

// What a search comes to, by a look at each state.
function byStates(search, kind, from, way, what, end) {
  if (kind === 'deepest') return Array.from({length: end}, (_, count) => search.glance(count).words).reduce((most, words, count, all) => (words > all[most] ? count : most), 0);
  const task = {over: search.machine.machine(from).next.task, out: search.brief(from).task}[kind];
  const depth = count => search.machine.machine(count).tasks.find(it => it.name === task)?.records.filter(it => it.level >= 0).length ?? -1;
  const test = {
    over: count => search.brief(count).task === task && depth(count) <= depth(from),
    out: count => depth(count) < depth(from),
    task: count => search.brief(count).task !== search.brief(count - 1).task,
    stopped: count => what.includes(search.brief(count).card),
  }[kind];
  for (let count = from + way; count > 0 && count <= end; count += way) if (test(count)) return count;
  if (kind === 'over' || kind === 'out') return way > 0 ? end : 0;
  return null;
}

function searches(name, marked, plain, end) {
  const asked = [...stopsOf(plain, end).map(stops => ['stopped', stops]), ['task', []], ['over', []], ['out', []], ['deepest', []]];
  for (const [kind, what] of asked) for (const from of [0, end >> 2, end >> 1, end - 1]) for (const way of kind === 'deepest' ? [1] : [1, -1]) {
    const found = marked.find(kind, from, way, what), wanted = byStates(plain, kind, from, way, what, end);
    wants(found === wanted, `${name}: ${kind} ${what} from ${from}, way ${way}, leads to ${found}, state by state to ${wanted}`);
  }
}

// A machine without marks.
class Plain extends Machine {
  useSectors(sectors) {
    super.useSectors(sectors);
    this.marks = new Marks(1, Infinity);
  }
}

const program = new Program(moduleOf(page));
for (const name of fs.readdirSync(folder).sort()) {
  const args = path.join(folder, name, 'args'), words = fs.existsSync(args) ? fs.readFileSync(args, 'latin1').split('\n') : [];
  if (words[0] !== 'run' || only.length && !only.includes(name)) continue;
  const text = fs.readFileSync(path.join(folder, name, 'stdin'), 'latin1'), core = Number(words[2]);
  const [marked, plain] = [Machine, Plain].map(it => new it(program, text, core, false)), end = plain.endWithin(LONG) ?? LONG;
  marked.useSectors(plain.sectors);
  marked.marks = new Marks(Math.max(2, end >> 4), 1);
  steps(name, marked, plain, end);
  if (end <= SEARCHED) searches(name, new Search(marked, () => {}), new Search(plain, () => {}), end);
}
console.log(`${same} the same, ${different} different`);
process.exitCode = different ? 1 : 0;
