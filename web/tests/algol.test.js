// A text in ALGOL 60 in the editor: which texts are such, what stands beside the cards, and how large core is made.
import {test} from 'node:test';
import assert from 'node:assert/strict';
import {worksOut} from '../src/words/reading.js';
import {AlgolRefused, algolBeside, coreFor, deckOf, isAlgol, lineOf, START_ALGOL, thunkAt, translationOf, withData} from '../src/algol/translation.js';
import {namesIn} from '../src/names/names.js';

const {text} = START_ALGOL;

test('texts in ALGOL are told from decks', () => {
  for (const it of [text, '$STACK 99\nbegin end', '  BEGIN end', 'comment x; begin end', 'print(1); begin x', '$DATA 1']) assert.ok(isAlgol(it), it);
  for (const it of ['', '?JOB A\n?ASM\n; begin\n?END\n', '; a comment\n?JOB A', 'beginner', '?STACK 99\nbegin']) assert.ok(!isAlgol(it), it);
});

test('cards know their lines, lines their first cards, and thunks what they work out', () => {
  const {lines, cards, firsts, segments} = algolBeside(text), deck = deckOf(text).split('\n'), card = deck.indexOf('SEGMENT T1 3    ; A[i], by name, line 8') + 1;
  assert.equal(lines[3].trim(), 'for k := m step 1 until n do s := s + term;');
  assert.deepEqual(firsts[3].map(it => deck[it - 1].replace(/ *;.*/, '')), ['VALC 3,3']);
  assert.deepEqual([cards.get(card + 1), lineOf(text, card + 1), lineOf(text, 1)], [7, 8, 0]);
  const thunk = thunkAt({segments}, card + 1);
  assert.deepEqual([thunk.text, thunk.line], ['A[i]', 8]);
  assert.equal(thunkAt({segments}, card - 1), null);
  assert.equal(thunkAt({}, 3), null);
});

test('cells have the names of the program, thunks their expressions', () => {
  const [{cells}] = namesIn(deckOf(text)), named = (level, at) => cells.filter(it => it.level === level && it.at === at).map(it => it.name);
  assert.deepEqual([named(2, 2), named(2, 3), named(2, 5), named(3, 5)], [['sum'], ['A[i]'], ['A'], ['term']]);
});

test('numbers for read are a line of the text', () => {
  assert.equal(withData('$DATA 1 2\nbegin end\n $data 3\n', ' 4, 5 '), '$DATA 4 5\nbegin end\n');
  assert.equal(withData('$DATA 1\nbegin end\n', ''), 'begin end\n');
});

test('mistakes are no deck', () => {
  assert.throws(() => deckOf('begin x := 1 end'), it => it instanceof AlgolRefused && it.errors.length === 1 && it.errors[0].col === 7);
  assert.throws(() => deckOf('begin real x; x := y end'), it => /2 mistakes/.test(it.message));
});

test('core has room for the stack that is asked for', () => {
  assert.equal(coreFor(translationOf(text)), 64 + 2600);
  assert.equal(coreFor(translationOf('begin procedure p; p; p end')), 16383 + 2600);
});

test('what a procedure works out that a VALC has entered', () => {
  const record = (level, back, cells, link = '') => ({level, back, link, cells: cells.map(([at, name]) => ({at, name}))}), table = {'1@0:0': [5, 'ENTR'], '2@0:3': [36, 'L1: VALC 2,2'], '2@1:0': [37, 'VALC 3,6'], '2@1:2': [38, 'ADD']};
  const by = back => worksOut({tasks: [{name: '1.1', records: [record(2, '', [[2, 'total']]), record(3, '1@0:0', [[6, 'x4']], '1.1 1'), record(4, back, [], '1.1 2'), record(-1, '', [])]}]}, '1.1', [table]);
  assert.deepEqual([by('2@1:2'), by('2@1:0'), by('2@0:3'), by(''), worksOut({tasks: []}, '1.1', [table])], [{name: 'x4', card: 37}, {name: 'total', card: 36}, null, null, null]);
});
