// The page's other parts, by data: expected values stand here, never from the program.
import assert from 'node:assert/strict';
import {existsSync, readFileSync} from 'node:fs';
import {spawnSync} from 'node:child_process';
import {test} from 'node:test';
import {fileURLToPath} from 'node:url';
import {hashOf, placeOf} from '../src/page/address.js';
import {cardsOf, placesOf} from '../src/reader/cards.js';
import {endingOf} from '../src/state/changes.js';
import {arrayBehind, followedText, nextChoice} from '../src/page/follow.js';
import {partOf, startOf} from '../src/editor/cards-area.js';
import {numbersForRead, withNumbers} from '../src/page/deck-view.js';
import {decksOf, GROUPS, START} from '../src/page/decks.js';
import {lanesBeside} from '../src/drawing/draw-arrows.js';
import {intrinsicsIn, Lexicon, operatorsIn} from '../src/words/lexicon.js';
import {INTRINSICS, MEANINGS, OPERATORS, TAKES} from '../src/reader/operators.js';
import {OwnDecks} from '../src/editor/keep.js';
import {actOf, KEYS} from '../src/page/keys.js';
import {momentsOfLessons} from '../src/course/course.js';
import {least} from '../src/machine/machine.js';
import {Marks} from '../src/machine/marks.js';
import {spansText} from '../src/state/memory.js';
import {explained, statusText, tablesOf} from '../src/words/messages.js';
import {isPacked, packed, unpacked} from '../src/editor/share.js';
import {stoppedText, underWayText} from '../src/page/under-way.js';
import {coupleText, numberText} from '../src/reader/words.js';
import {decks} from './native.js';

const rows = tablesOf(readFileSync(new URL('../../docs/MESSAGES.md', import.meta.url), 'utf8'));

test('addresses', () => {
  const moment = {kind: 'moment', deck: 'two', core: 630, count: 20, other: null};
  assert.deepEqual(placeOf('#two,630,20'), moment);
  assert.deepEqual(placeOf('#two,630,20,4096'), {...moment, other: 4096});
  assert.deepEqual(placeOf('#two'), {...moment, core: undefined, count: null});
  assert.deepEqual(placeOf('#lesson:3'), {kind: 'lesson', id: '3'});
  assert.deepEqual(placeOf('#task:3.2'), {kind: 'task', id: '3.2'});
  assert.deepEqual(placeOf('#sheet:ab-_9'), {kind: 'sheet', packed: 'ab-_9', number: 0});
  assert.deepEqual(placeOf('#sheet:ab-_9,2'), {kind: 'sheet', packed: 'ab-_9', number: 2});
  assert.deepEqual(placeOf('#hand:ab-_9'), {kind: 'hand', packed: 'ab-_9'});
  for (const hash of ['', '#<b>', '#lesson:', '#task:a', '#sheet:', '#hand:a,1', '#two;630']) assert.equal(placeOf(hash), null);
  assert.equal(hashOf({deck: 'two', core: 630, count: 0, other: null}), '#two,630,0');
});

test('a deck in an address', async () => {
  for (const text of ['', '?JOB A\n?ASM\nEXIT\n?END\n', 'é – “ÿ”\n', 'NOOP\n'.repeat(5000)]) {
    const part = await packed(text);
    assert.ok(isPacked(part));
    assert.deepEqual(placeOf(`#${part},4096,7`), {kind: 'moment', deck: part, core: 4096, count: 7, other: null});
    assert.equal(await unpacked(part), text);
    if (text) await assert.rejects(unpacked(part.slice(0, -3)), /isn’t whole/);
  }
});

// A storage as browsers have, with room for so many entries.
function storageFor(most) {
  const kept = new Map();
  return {get length() { return kept.size; }, key: k => [...kept.keys()][k] ?? null, getItem: key => kept.get(key) ?? null, removeItem: key => kept.delete(key),
    setItem: (key, value) => { if (!kept.has(key) && kept.size >= most) throw new Error('full'); kept.set(key, value); }};
}

test('decks of one’s own are kept, by two tabs too', () => {
  const storage = storageFor(100), one = new OwnDecks(storage), other = new OwnDecks(storage);
  assert.equal(one.begin('a\n', 4096, 'two', '1.2', 1), 'mine-1');
  assert.equal(other.begin('b\n', 630, '', '', 2), 'mine-2');
  one.put('mine-1', {text: 'aa\n', core: '700'}, 3);
  const later = new OwnDecks(storage);
  assert.deepEqual(later.list().map(({name, text, core, from, task}) => [name, text, core, from, task]), [['mine-1', 'aa\n', 700, 'two', '1.2'], ['mine-2', 'b\n', 630, '', '']]);
  later.remove('mine-1');
  assert.deepEqual(new OwnDecks(storage).list().map(it => it.name), ['mine-2']);
});

test('decks of one’s own without storage, or in a full one', () => {
  const none = new OwnDecks(null), full = new OwnDecks(storageFor(0));
  for (const own of [none, full]) {
    assert.equal(own.begin('a\n', 4096, '', '', 1), 'mine-1');
    assert.equal(own.put('mine-1', {text: 'b\n', core: 4096}, 2), false);
    assert.equal(own.get('mine-1').text, 'b\n');
  }
  const many = new OwnDecks(null);
  for (let k = 0; k < 70; k++) many.begin(`${k}\n`, 4096, '', '', k);
  assert.equal(many.list().length, 60);
  assert.equal(many.list()[0].text, '69\n');
});

test('couples by the running level, and numbers', () => {
  for (const [number, level, text] of [[0x1005, 2, '2,5'], [0x0009, 2, '0,9'], [0x2002, 2, '1,2'], [0x3002, 3, '3,2'], [0x0402, 8, '8,2']]) assert.equal(coupleText(number, level), text);
  for (const [word, text] of [[5, '5'], [2 ** 46 + 5, '-5'], [2 ** 47, '#800000000000']]) assert.equal(numberText(word), text);
});

test('lanes beside a column: of arrows that pass a stack, one for each cell', () => {
  const arrow = (kind, from, to) => ({kind, task: {name: from}, to}), columns = ['1.1', '1.2', '1.3', '1.4'];
  const lanes = lanesBeside([arrow('ref', '1.3', '1.1 1 2'), arrow('ref', '1.4', '1.1 1 2'), arrow('wait', '1.3', '1.1 1 2'), arrow('link', '1.2', '1.1 1'), arrow('ref', '1.4', '1.2 1 3')], name => columns.indexOf(name));
  assert.deepEqual(columns.map((_, k) => lanes(k)), [2, 1, 0, 0]);
});

test('spans of sectors', () => {
  for (const [chain, text] of [[[1], '1'], [[2, 3, 4], '2 to 4'], [[2, 3, 9], '2 to 3, 9'], [[], '']]) assert.equal(spansText(chain), text);
});

test('the least count', () => {
  for (const wanted of [1, 2, 3, 7, 64, 65, 1000003]) assert.equal(least(count => count >= wanted), wanted);
  assert.equal(least(count => count >= 20, 15), 20);
});

test('marks: where they are laid, and which are kept', () => {
  const marks = new Marks(10, 1 << 22);
  assert.deepEqual(marks.wayTo(19), []);
  assert.deepEqual(marks.wayTo(1000), [360, 920, 990]);
  for (const count of marks.wayTo(1000)) marks.keep({count}, 1000);
  assert.deepEqual([359, 360, 995].map(count => marks.below(count)?.count), [undefined, 360, 990]);
  assert.deepEqual([marks.wayTo(1000), marks.wayTo(1009), marks.wayTo(1010)], [[], [], [1000]]);
  for (let count = 1000; count < 2000; count += 10) marks.keep({count}, count);
  assert.equal(marks.kept.length, 8);
  assert.equal(marks.below(1990).count, 1990);
  assert.ok(marks.below(1500) && marks.below(1500).count >= 360, 'none is left far from here');
  assert.deepEqual(new Marks(10, 1 << 26).wayTo(1000), []); // too large to be kept
});

test('the places of breakpoints', () => {
  const operators = [{'1@0:0': [4, 'ONE'], '1@0:1': [0, 'ADD'], '2@3:5': [9, 'EXIT']}, {'1@0:0': [14, 'ONE']}];
  assert.deepEqual(placesOf(['9', '14', '2/3@1:4'], operators), [2, 4, 1, 4, 1, 3, 3, 5, 2, 2, 0, 0]);
  assert.deepEqual(placesOf(['7', '0'], operators), []);
});

test('endings', () => {
  assert.deepEqual(endingOf('1.2 ENDED'), {task: '1.2', name: 'ENDED', bad: false});
  assert.deepEqual(endingOf('1.1 INVALID INDEX'), {task: '1.1', name: 'INVALID INDEX', bad: true});
  assert.equal(endingOf('1.1 23'), null);
});

test('numbers for READ are put on cards of 80 characters, before ?END', () => {
  const deck = '?JOB A\n?ASM\nEXIT\n?DATA\n1 2\n?END\n?JOB B\n?ASM\nEXIT\n?END\n';
  assert.equal(numbersForRead(deck, 1), '1 2');
  assert.equal(withNumbers(deck, 1, ' 3,4  -5 '), '?JOB A\n?ASM\nEXIT\n?DATA\n3 4 -5\n?END\n?JOB B\n?ASM\nEXIT\n?END\n');
  assert.equal(withNumbers(deck, 1, ''), '?JOB A\n?ASM\nEXIT\n?END\n?JOB B\n?ASM\nEXIT\n?END\n');
  assert.equal(withNumbers(deck, 2, '7'), '?JOB A\n?ASM\nEXIT\n?DATA\n1 2\n?END\n?JOB B\n?ASM\nEXIT\n?DATA\n7\n?END\n');
  const long = withNumbers(deck, 2, Array(100).fill('1234567').join(' '));
  assert.ok(cardsOf(long).every(card => card.length <= 80));
  assert.equal(numbersForRead(long, 2), Array(100).fill('1234567').join(' '));
});

test('the part of a long deck in the editor', () => {
  const short = 'a\nb\n', long = Array.from({length: 5000}, (_, k) => `NOOP ; ${k + 1}\n`).join('');
  assert.deepEqual(partOf(short, 1), {before: '', part: short, after: '', first: 0, cards: 2});
  for (const [card, first] of [[1, 0], [200, 0], [2500, 2299], [5000, 4600], [9999, 4600]]) {
    const {before, part, after, ...told} = partOf(long, card);
    assert.equal(before + part + after, long);
    assert.deepEqual(told, {first, cards: 5000});
    assert.ok(part.startsWith(`NOOP ; ${first + 1}\n`) && part.trimEnd().split('\n').length === 400 && (after === '' || after.startsWith('\n')), `card ${card}`);
  }
  assert.deepEqual([0, 1, 2, 3].map(card => startOf('a\nbc\nd', card)), [0, 2, 5, 6]);
});

test('the words of MESSAGES', () => {
  assert.deepEqual(explained(rows, 'ASM 35 REASON 1').card, 35);
  assert.match(explained(rows, 'ASM 35 REASON 1').means, /^Card 35 has an unknown mnemonic/);
  assert.match(explained(rows, '1.1 STACK UNDERFLOW').means, /more words than the top record has/);
  assert.equal(explained(rows, '1.1 23'), null);
  assert.equal(statusText(rows, 4, 'NO CORE 630 629').means, 'The next operator, or the opening, needs 630 words, and core has 629 words.');
  assert.match(statusText(rows, 4, 'NO CORE 630 629').advice, /^Take at least 630 words of core/);
});

test('decks in the page', () => {
  const found = decksOf('#DECK a 256\n#ABOUT It does nothing.\n?JOB A\n?ASM\nEXIT\n?END\n#DECK b 700\n#ABOUT Nor this.\n?JOB B\n');
  assert.deepEqual(found.get('a'), {name: 'a', core: 256, about: 'It does nothing.', text: '?JOB A\n?ASM\nEXIT\n?END\n'});
  assert.deepEqual([...found.keys()], ['start', 'a', 'b']);
});

test('each key does one thing', () => {
  assert.equal(new Set(KEYS.map(it => it.key)).size, KEYS.length);
  assert.deepEqual(actOf('o', true), {act: 'line', way: -1});
  assert.deepEqual(actOf('O', true), {act: 'line', way: -1});
  assert.deepEqual(actOf('ArrowLeft', false), {act: 'back', way: 1});
  assert.equal(actOf('j', false), null);
});

// What join.py takes out of docs, asked of itself.
function joined(name) {
  const made = spawnSync('python3', ['-c', `import sys; sys.dont_write_bytecode = True; import join; sys.stdout.write(join.${name}())`], {cwd: fileURLToPath(new URL('../build', import.meta.url)), encoding: 'utf8'});
  assert.equal(made.status, 0, made.stderr);
  return made.stdout;
}

test('the operators of the page are those of MACHINE: names, codes, and how many words each takes', () => {
  const text = joined('operators'), table = operatorsIn(text), intrinsics = intrinsicsIn(text);
  const names = new Set([...[...OPERATORS.values()].map(([name]) => name), 'VALC', 'NAMC']);
  assert.deepEqual(new Set(table.keys()), names);
  for (const [byte, [name]] of OPERATORS) assert.equal(parseInt(table.get(name).code, 16), byte, name);
  for (const name of names) assert.ok(MEANINGS[name], name);
  for (const [name, {does}] of table) {
    const takes = /^((?:[a-z] )+)->/.exec(does);
    if (takes) assert.equal(TAKES[name], takes[1].trim().split(' ').length, name);
  }
  for (const [number, name] of Object.entries(INTRINSICS)) assert.ok(intrinsics.get(number).call.startsWith(`${name}(`), name);
});

test('what a card’s operator does', () => {
  const lexicon = new Lexicon(joined('operators'), joined('glossary'));
  assert.match(lexicon.ofCard('TOP: ADD  ; the sum'), /^ADD: adds the two numbers on top\.$/);
  assert.match(lexicon.ofCard('NAMC 0,9'), /the MCP’s procedure PRINT, which prints the value/);
  assert.match(lexicon.ofCard('VALC 2,3'), /the value of the cell\. 2,3 is cell 3 of the record of level 2\.$/);
  assert.match(lexicon.ofCard('?SWITCH 7 1.2'), /^\?SWITCH: when so many operators of the whole run are made, this task makes the next one/);
  for (const card of ['SEGMENT MAIN 2', '; ADD', '', 'ROW R', '?NONE', '?']) assert.equal(lexicon.ofCard(card), '');
  const terms = new Map(lexicon.terms.map(cells => [cells[0], cells.at(-1)]));
  for (const term of ['couple', 'accidental entry', 'thunk', 'dictionary', 'hole', 'sector, chain', 'theorem']) assert.ok(terms.get(term), term);
  assert.match(joined('proved'), /Nothing proves that the WebAssembly/);
  assert.match(joined('version'), /^\d+\.\d+\.\d+$/);
});

test('each deck of the page is in one group', () => {
  const grouped = GROUPS.flatMap(([, names]) => names), isAlgol = name => name.startsWith('algol-');
  assert.deepEqual(grouped.filter(name => !isAlgol(name)).toSorted(), [START, ...decks()].map(deck => deck.name).toSorted());
  for (const name of grouped.filter(isAlgol)) assert.ok(existsSync(new URL(`../../algol/programs/${name.slice(6)}.alg`, import.meta.url)), name);
});

test('what is followed', () => {
  const cells = [{at: 2, text: '7'}, {at: 3, text: 'array of 5'}];
  const state = {tasks: [{name: '1.1', records: [{number: 1, level: 2, cells}, {number: 2, level: -1, cells: [{at: 2, text: '1'}]}]}],
    things: [{cell: '1.1 1 3', kind: 'array', text: 'array 2,3'}, {cell: 'DICT 1 2', kind: 'code', text: 'segment 1'}]};
  const order = ['', '1.1 1 2', '1.1 1 3', '1.1 1 3array'];
  order.forEach((it, k) => {
    assert.equal(nextChoice(state, it, 1), order[(k + 1) % 4]);
    assert.equal(nextChoice(state, it, -1), order.at(k - 1));
  });
  for (const [followed, text] of [['1.1 1 2', 'cell 2,2, in record 1 of task 1.1: 7'], ['1.1 1 3array', 'array 2,3'],
    ['1.2 1 2', 'cell 2 of record 1 of task 1.2 isn’t there now'], ['1.1 1 4array', 'the array isn’t there now']]) assert.equal(followedText(state, followed), text);
  assert.match(arrayBehind(state, '1.1 1 3'), /^The cell leads to array 2,3: a click on its name/);
  for (const followed of ['1.1 1 2', '1.1 1 3array', '1.1 9 2']) assert.equal(arrayBehind(state, followed), '');
});

test('what is told while something is computed, and after Stop', () => {
  assert.deepEqual([[0, null, 27], [2, null, 27], [4, null, null], [4, 5210, null], [4, 5210, 12000]].map(it => underWayText(...it)),
    ['computing', 'computing for 2 s', 'computing for 4 s; an endless loop ends at its ?LIMIT, or by Stop', 'computing for 4 s, at operator 5,210',
      'computing for 4 s, at operator 5,210 of 12,000']);
  assert.equal(stoppedText(4, {none: 'There is no paging', from: 20, at: 5210}), 'Stopped. There is no paging from operator 20 to operator 5,210.');
  assert.match(stoppedText(4), /^Stopped after 4 s, before it was done;/);
  assert.match(stoppedText(0), /^Stopped, before it was done;/);
});

test('lessons lead to moments of decks that are there', () => {
  const names = new Map([START, ...decks()].map(deck => [deck.name, deck.core]));
  for (const address of momentsOfLessons()) {
    const moment = placeOf(address);
    assert.ok(names.has(moment.deck) && moment.count !== null, address);
    assert.ok(moment.core >= names.get(moment.deck), address);
  }
});
