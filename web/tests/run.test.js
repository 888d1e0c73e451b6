// Searches and changes over runs that docs/TOUR.md describes: stops 4, 7 and 9; a stand-in looks through runs and goes on from marks. B67
// names the native program.
import assert from 'node:assert/strict';
import {after, test} from 'node:test';
import {setImmediate as turn} from 'node:timers/promises';
import {Native, decks} from './native.js';
import {lostStores} from '../src/words/lost.js';
import {StandIn} from './stand-in.js';
import {Machine} from '../src/machine/machine.js';
import {Marks} from '../src/machine/marks.js';
import {lastBefore, Search} from '../src/machine/search.js';

const native = new Native(process.env.B67 ?? 'b67');
after(() => native.close());

function searchOf(name, program = native, tell = () => {}) {
  const {text, core} = decks().find(deck => deck.name === name);
  return new Search(new Machine(program, text, core, false), tell);
}

// The same with the stand-in, and with marks three operators apart.
function markedOf(name, tell) {
  const search = searchOf(name, new StandIn(native), tell);
  search.machine.marks = new Marks(3, 1);
  return search;
}

// From a count, by a search and a way, to a count; null where there is none. A store is one into a cell or an array.
const FOUND = {
  two: [['paging', 1, 1, 17], ['paging', 17, 1, 20], ['paging', 20, 1, 23], ['paging', 23, -1, 20], ['line', 0, 1, 26], ['line', 26, 1, 27],
    ['line', 26, -1, null], ['fault', 0, 1, 27],
    ['task', 1, 1, null], ['paging', 24, 1, null], ['paging', 27, -1, 24], ['store', 0, 1, 20, '1.1 1 3array'], ['store', 20, 1, null, '1.1 1 3array']],
  switched: [['task', 1, 1, 8], ['task', 8, 1, 14], ['task', 14, -1, 8], ['fault', 0, 1, 13], ['store', 0, 1, 12, '1.1 1 2'],
    ['store', 12, 1, 17, '1.1 1 2'], ['store', 17, -1, 12, '1.1 1 2'], ['store', 17, 1, null, '1.1 1 2']],
  jensen: [['out', 17, 1, 20], ['over', 16, 1, 20], ['over', 17, 1, 18], ['out', 20, -1, 12], ['out', 12, -1, 0], ['over', 20, -1, 16], ['over', 16, -1, 15],
    ['out', 321, 1, 322], ['deepest', 40, 1, 32],
    ['stopped', 0, 1, 17, ['24']], ['stopped', 17, 1, 20, ['24', '50']], ['stopped', 21, -1, 20, ['24', '50']], ['stopped', 21, -1, 17, ['24']],
    ['stopped', 0, 1, 33, ['45']], ['stopped', 17, -1, null, ['24']], ['stopped', 17, 1, null, ['400']]],
  fault: [['fault', 0, 1, 69], ['line', 69, -1, 59]],
};

for (const [name, searches] of Object.entries(FOUND)) {
  test(`${name}: searches`, async () => {
    await turn();
    const search = markedOf(name);
    for (const [kind, from, way, to, what] of searches) assert.equal(search.find(kind, from, way, what ?? []), to, `${kind} from ${from}`);
  });
}

// Up to where a search has found nothing is told on its way to what it finds.
const TOLD = {two: [['line', 0, 26], ['fault', 0, 27], ['paging', 1, 17]], switched: [['store', 0, 12, '1.1 1 2']]};

for (const [name, searches] of Object.entries(TOLD)) {
  test(`${name}: how far a search is`, () => {
    const told = [], search = markedOf(name, count => told.push(count));
    for (const [kind, from, to, what] of searches) {
      search.told = -1e9; // a walk tells from its beginning on
      search.find(kind, from, 1, what ?? []);
      assert.ok(told.length && told.every(count => count >= from && count < to), `${kind}: ${told.splice(0)}`);
      told.length = 0;
    }
  });
}

// The stores that are lost in a run: the operator that writes over one, and the one that had stored.
const LOST = {switched: [[17, 12]], shared: [], bank: [[54, 38]]};

for (const [name, lost] of Object.entries(LOST)) {
  test(`${name}: stores that are lost`, async () => {
    await turn();
    const search = searchOf(name), briefs = Array.from({length: search.machine.end() + 1}, (_, count) => search.brief(count));
    assert.deepEqual(lostStores(briefs).map(it => [it.at, it.lost]), lost);
  });
}

test('a state from a mark is that from the start', async () => {
  for (const name of ['two', 'switched', 'fault']) {
    await turn();
    const {machine} = searchOf(name), marked = markedOf(name).machine;
    for (const count of [17, 0, 9, 10, 24, 23, 22, 500]) assert.deepEqual(marked.state(count), machine.state(count), `${name} ${count}`);
    assert.ok(marked.program.stepped > 0, name);
  }
});

test('the last of several numbers before one', () => {
  const numbers = [3, 70, 71, 900, 5000, 5001], first = (low, high) => numbers.find(it => it >= low && it < high) ?? null;
  for (const to of [0, 3, 4, 71, 72, 899, 901, 5001, 100000000]) {
    let calls = 0;
    const found = lastBefore((low, high) => { calls++; return first(low, high); }, to);
    assert.equal(found, numbers.findLast(it => it < to) ?? null, `before ${to}`);
    assert.ok(calls <= 2 * Math.ceil(Math.log2(to + 2)), `${calls} calls before ${to}`);
  }
});

// What a count changed, and the card of its operator.
const CHANGED = [
  ['two', 20, 25, /^array 2,2 .* to sectors 2 to 8, which it takes now\. It held 11 in element 5\. No copy led into core, so none is turned$/],
  ['two', 23, 28, /^array 2,3 .* to sectors 9 to 15, which it takes now\. It held 12 in element 6\b/],
  ['two', 20, 25, /^element 6 of array 2,3 .*: 0 becomes 12$/],
  ['switched', 8, 29, /^1\.2 runs, after 1\.1$/],
  ['switched', 12, 33, /^cell 2,2, in record 1 of task 1\.1: 0 becomes 1$/],
  ['switched', 17, 18, /^cell 2,2, in record 1 of task 1\.1: 1 is stored, and it was 1 already$/],
  ['jensen', 21, 24, /^cell 2,2, in record 1 of task 1\.1: 0 becomes 1$/],
  ['jensen', 9, 13, /^the couple 2,5, which names cell 5 of record 1 now$/],
  ['jensen', 10, 14, /^a reference to cell 5 of record 1$/],
  ['jensen', 13, 17, /^SUM, with a reference to cell 5 of record 1 and a reference to cell 4 of record 1$/],
  ['jensen', 13, 17, /^record 3, level 3: its static link leads to record 1$/],
  ['jensen', 17, 24, /^IREF, unasked: STOD met its entry\. STOD is made again when it has returned$/],
  ['jensen', 20, 50, /^record 4$/],
  ['jensen', 20, 50, /^a reference to cell 2 of record 1, which it hands back$/],
  ['jensen', 21, 24, /^1 and a reference to cell 2 of record 1$/],
  ['jensen', 28, 28, /^on at card 29$/],
  ['jensen', 30, 30, /^SQ, unasked: VALC met its entry\. The value that it hands back takes the place$/],
  ['jensen', 321, 18, /^PRINT of the MCP, with 385$/],
  ['jensen', 321, 18, /^1\.1 385$/],
  ['two', 4, 9, /^an array of 200$/],
  ['switched', 6, 13, /^PROCESS of the MCP, with the couple 2,3$/],
  ['switched', 6, 13, /^2$/],
];

test('what an operator changed', async () => {
  for (const [name, count, card, text] of CHANGED) {
    await turn();
    const {changes, operator} = searchOf(name).machine.state(count);
    assert.equal(operator.card, card);
    assert.ok(changes.some(change => text.test(change.text)), `${name} ${count}: ${JSON.stringify(changes)}`);
  }
});

test('each operator of some runs is told', async () => {
  for (const name of ['swap', 'switched', 'entry']) {
    await turn();
    const {machine} = searchOf(name), end = machine.end();
    for (let count = 1; count < end; count++) {
      const {changes, operator} = machine.state(count);
      assert.ok(changes.length || /^(NOOP|PUSH)$/.test(operator.text), `${name} ${count}: ${operator.text}`);
      assert.ok(changes.every(it => !/undefined|NaN/.test(it.text)), `${name} ${count}: ${JSON.stringify(changes)}`);
    }
  }
});

test('a copy that leads into core is turned when its array leaves', async () => {
  const {text} = decks().find(deck => deck.name === 'two');
  const machine = new Machine(native, text.replace('STOD\nLT8 12', 'STOD\nNAMC 2,2\nLT8 5\nINDX\nLT8 12'), 632, false);
  const turned = machine.state(23).changes.filter(change => change.kind === 'turn');
  assert.deepEqual(turned.map(change => change.cell), ['1.1 1 6']);
});

test('the end of a run, and the operator before its first fault', async () => {
  for (const [name, end, fault] of [['two', 27, 27], ['fault', 69, 69], ['jensen', 322, 322]]) {
    await turn();
    const search = searchOf(name);
    assert.equal(search.machine.end(), end, name);
    assert.equal(search.firstFault(), fault, name);
  }
});
