// What is refused, with place and sentence; how long a translation takes; what the command does when it is called carelessly.

import {test} from 'node:test';
import assert from 'node:assert/strict';
import {spawnSync} from 'node:child_process';
import {closeSync, mkdtempSync, openSync, rmSync, writeFileSync} from 'node:fs';
import {tmpdir} from 'node:os';
import {join} from 'node:path';
import {beside, compile} from '../compile.mjs';

// Programs with a mistake: its line and column, and words of its sentence.
const REFUSED = [
  ['begin real x; x := 1 end', [[1, 7, 'whole numbers only: `real`']]],
  ['begin integer x; x := 3.5 end', [[1, 23, '`3.5` is refused']]],
  ['begin integer x; x := 1 / 2 end', [[1, 25, 'write `div`']]],
  ["begin print('a') end", [[1, 13, 'prints numbers only']]],
  ['begin integer x;\n  x := y + z\nend', [[2, 8, '`y` is not declared'], [2, 12, '`z` is not declared']]],
  ['begin integer x; Boolean b; x := b; b := x end', [[1, 34, 'Here an integer is wanted'], [1, 42, 'Here a Boolean is wanted']]],
  ['begin integer x; x = 1 end', [[1, 20, 'An assignment is written `:=`']]],
  ['begin integer x, x; end', [[1, 18, 'declared twice']]],
  ['begin integer x; x := 1; integer y; integer z; y := z end', [[1, 26, 'before the statements']]],
  ['begin procedure p(x); x := 1; end', [[1, 19, 'needs a specification']]],
  ['begin procedure p(x); integer x; x := 1; p(2) end', [[1, 44, 'so a variable is wanted']]],
  ['begin procedure p(x); value x; integer x; print(x); p(1, 2) end', [[1, 53, 'takes 1 argument, and here are 2']]],
  ['begin integer array A[1:2, 1:3]; A[1] := 2 end', [[1, 34, 'has 2 subscripts, and here is one']]],
  ['begin procedure p(A); integer array A; A[1, 2] := 3; integer array B[0:1]; p(B) end', [[1, 78, '`B` has 1 dimension']]],
  ['begin integer array A[2:1]; end', [[1, 21, 'below its lower bound']]],
  ['begin go to L end', [[1, 13, '`L` is not declared']]],
  ['begin integer x; X := 1; outreal(1, x); Print(x) end', [[1, 18, '`X` is not declared. Is `x` meant?'], [1, 26, 'A number is printed by `print(e)`'], [1, 41, 'Is `print` meant?']]],
  ['begin go to 7; 8: end', [[1, 13, 'There is no label 7']]],
  ['begin integer x; go to x; L: end', [[1, 24, 'Here a label is wanted']]],
  ['begin integer to; end', [[1, 15, 'which is a word of the language']]],
  ['begin integer procedure f; print(1); print(f) end', [[1, 25, 'never gets a value']]],
  ['begin procedure p; go to L; integer t; t := process p; L: end', [[1, 53, 'A task cannot leave']]],
  ['begin integer x; if x = 1 then if x = 2 then x := 3 end', [[1, 32, 'another `if` needs']]],
  ['begin print(1)', [[1, 15, 'has no `end`']]],
  ['print(1)', [[1, 1, 'it begins with `begin`']]],
  ['$STACK 5\n$FOO\nbegin end', [[1, 1, 'from 64 to 16383'], [2, 1, 'A `$` line is']]],
  ['', [[1, 1, 'it begins with `begin`']]],
];

for (const [text, wanted] of REFUSED) test(`refuses ${JSON.stringify(text)}`, () => {
  const {deck, errors} = compile(text);
  assert.equal(deck, null);
  assert.deepEqual(errors.map(e => [e.line, e.col]), wanted.map(w => w.slice(0, 2)));
  wanted.forEach(([, , words], n) => assert.ok(errors[n].text.includes(words), errors[n].text));
});

test('what follows `end` is warned of if it looks like a statement', () => {
  const {deck, warnings} = compile('begin integer x; begin x := 1 end x := 2; print(x) end');
  assert.ok(deck);
  assert.deepEqual(warnings.map(w => [w.line, w.col]), [[1, 35]]);
});

// Programs whose calls have an end have a stack that is worked out; the others the greatest.
const STACKS = [['begin print(1) end', 64], ['begin procedure p; begin p end; p end', 16383], ['$STACK 99\nbegin print(1) end', 99],
  ['begin integer t; procedure p; begin p end; t := process p; await(t) end', 4095]];
for (const [text, stack] of STACKS) test(`takes a stack of ${stack} for ${JSON.stringify(text)}`, () => assert.equal(compile(text).stack, stack));

test('each card knows its line', () => {
  const text = 'begin integer x;\n  x := 2;\n  x := x + 40;\n  print(x)\nend\n', made = compile(text), {lines, cards} = beside(text, made), deck = made.deck.split('\n');
  assert.equal(lines[2], '  x := x + 40;');
  assert.deepEqual([...cards].filter(([, line]) => line === 2).map(([card]) => deck[card - 1].replace(/ *;.*/, '')), ['VALC 2,2', 'LT8 40', 'ADD', 'NAMC 2,2', 'STOD']);
});

test('10,000 lines take less than a second of a processor', () => {
  const whole = `begin integer x, y; integer array A[0:9]; procedure p(a, b); value b; integer a, b; a := b;\n`
    + Array.from({length: 200}, (_, n) => `procedure q${n}(a, b); value a; integer a, b; begin integer c;\n${'c := a + b;\nb := c * 2 - A[a mod 10];\n'.repeat(23)}end;\n`).join('')
    + `x := 0; y := 1;\n${'if x < y then x := x + A[x mod 10] else p(y, x * 2);\n'.repeat(400)}x := 1 end\n`;
  assert.ok(whole.split('\n').length >= 10000);
  const times = Array.from({length: 3}, () => {
    const before = process.cpuUsage(), {errors} = compile(whole), {user, system} = process.cpuUsage(before);
    assert.deepEqual(errors, []);
    return user + system;
  });
  assert.ok(Math.min(...times) < 1e6, `${times.map(it => it / 1e3)} ms`);
});

const COMMAND = new URL('../algol.mjs', import.meta.url).pathname;
const called = (words, options = {}) => spawnSync(process.execPath, [COMMAND, ...words], {encoding: 'utf8', ...options});

test('the command, called carelessly', () => {
  const room = mkdtempSync(join(tmpdir(), 'algol-')), file = join(room, 'a.alg'), full = openSync('/dev/full', 'w');
  try {
    writeFileSync(file, 'begin\n  print(x)\nend\n');
    for (const words of [[], [file, file], ['--names'], ['--name', file], ['']]) assert.equal(called(words).status, 2, words.join(' '));
    for (const path of [room, join(room, 'none')]) assert.match(called([path]).stderr, /cannot be read/);
    const refused = called([file]);
    assert.deepEqual([refused.status, refused.stdout, refused.stderr], [1, '', `${file}:2:9: error: \`x\` is not declared.\n      print(x)\n            ^\n`]);
    writeFileSync(file, 'begin print(1) end\n');
    assert.equal(called([file]).status, 0);
    assert.equal(called(['-'], {input: 'begin print(1) end'}).status, 0);
    assert.equal(called([file], {stdio: ['ignore', full, 'pipe']}).status, 3);
    writeFileSync(file, '');
    assert.equal(called([file]).status, 1);
  } finally { closeSync(full); rmSync(room, {recursive: true}); }
});
