// The programs print their lines, in ample core and in the least one in which their decks run. B67 is the built program.

import {test} from 'node:test';
import assert from 'node:assert/strict';
import {readdirSync, readFileSync} from 'node:fs';
import {compile} from '../compile.mjs';
import {interpret} from './report.mjs';
import {run, runInLeast} from './machine.mjs';

const PROGRAMS = new URL('../programs/', import.meta.url), DECKS = new URL('../../decks/', import.meta.url);
const read = (name, folder = PROGRAMS) => readFileSync(new URL(name, folder), 'utf8');
const names = readdirSync(PROGRAMS).filter(name => name.endsWith('.alg')).map(name => name.slice(0, -4));
// Of tasks each one's own lines stand in order; the schedule says when they come.
const apart = (lines, text) => /\bprocess\b/.test(text) ? lines.split('\n').map((line, n) => [line.split(' ')[0], n, line]).sort((a, b) => a[0].localeCompare(b[0]) || a[1] - b[1]).map(it => it[2]).join('\n') : lines;

for (const name of names) test(`${name} prints its lines`, () => {
  const text = read(`${name}.alg`), {deck, errors, warnings} = compile(text), wanted = apart(read(`${name}.lines`), text);
  assert.deepEqual([errors, warnings], [[], []]);
  assert.equal(apart(run(deck), text), wanted);
  assert.equal(apart(runInLeast(deck).lines, text), wanted);
});

// The reference calls itself as deep as the program does; Man or Boy is too deep for it.
for (const name of names.filter(it => it !== 'manboy')) test(`${name} is the same by the reference`, () => {
  const text = read(`${name}.alg`);
  if (!/\bprocess\b/.test(text)) assert.equal(`${interpret(text, 1e7).join('\n')}\n`, read(`${name}.lines`));
});

// The operators of a deck: its cards but for comments, commands, segments, rows and entries.
const operators = deck => deck.split('\n').map(card => card.replace(/;.*/, '').trim()).filter(card => card && !/^(\?|SEGMENT|ROW|NUM|ENTRY|-?\d)/.test(card)).length;

for (const name of ['jensen', 'manboy', 'factorial', 'sort']) test(`${name} has at most 1.5 times the operators of the deck by hand`, () => {
  const [made, hand] = [operators(compile(read(`${name}.alg`)).deck), operators(read(`${name}/stdin`, DECKS))];
  assert.ok(made <= 1.5 * hand, `${made} operators, and ${hand} by hand`);
});

test('the stack that is worked out has room for a long expression', () => {
  const deep = 200, made = compile(`begin integer x; x := 1; print(${'x + ('.repeat(deep)}x${')'.repeat(deep)}) end`);
  assert.ok(made.stack > deep && made.stack < deep + 50, `a stack of ${made.stack}`);
  assert.equal(run(made.deck), `1.1 ${deep + 1}\n1.1 ENDED\n`);
});

test('more thunks than the machine has segments share some, by entries', () => {
  const many = 300, calls = Array.from({length: many}, (_, k) => `s := s + f(x + ${k})`).join(';\n');
  const made = compile(`begin integer x, s; integer procedure f(a); integer a; f := a + a;\nx := 1; s := 0;\n${calls};\nprint(s) end`), thunks = made.segments.filter(it => it.kind === 'thunk');
  assert.equal(run(made.deck), `1.1 ${2 * many + many * (many - 1)}\n1.1 ENDED\n`);
  assert.equal(thunks.length, many);
  const cards = made.deck.split('\n');
  for (const it of thunks) assert.match(cards[it.card], /^(L\d+: )?VALC 2,/);
});

test('the program of size pages in the least core', () => {
  const text = read('pl0.alg'), {deck} = compile(text), {core} = runInLeast(deck);
  assert.ok(text.slice(text.indexOf('\nbegin')).split('\n').length > 400);
  assert.ok(core < 2600, `it wants ${core} words`);
});
