// A teacher's sheets, what is handed in, names for cells, and what is said of a step. B67 names the native program.
import assert from 'node:assert/strict';
import {readFileSync} from 'node:fs';
import {after, test} from 'node:test';
import {setImmediate as turn} from 'node:timers/promises';
import {Native, decks} from './native.js';
import {FOUND, PREDICTED, WRITTEN} from './answers.js';
import {START} from '../src/page/decks.js';
import {CONDITIONS, conditionOf} from '../src/course/conditions.js';
import {TASKS} from '../src/course/course.js';
import {csvOf, handsOf, keysOf, linesOf, marksOf, tasksFor} from '../src/course/class.js';
import {drawn, drawOf, filled} from '../src/course/draw.js';
import {doneAgain, handedIn, handsIn, packedHand, sameDecks} from '../src/course/handin.js';
import {namesIn, NamesRefused, withoutNames} from '../src/names/names.js';
import {isFound, isWritten} from '../src/course/progress.js';
import {runWords, textOf} from '../src/machine/program.js';
import {EXAMPLE, keyOfSheet, newestOf, sharedSheet, sheetOf} from '../src/course/sheet.js';
import {textsIn} from '../src/course/zip.js';
import {packedText} from '../src/editor/share.js';
import {sentenceOf} from '../src/ear/speech.js';
import {cellWords, nextCell} from '../src/ear/walk.js';
import {Desk} from '../src/page/worker.js';

const native = new Native(process.env.B67 ?? 'b67');
after(() => native.close());
const [OF_17, OF_BO] = [[8, 46, 193454], [6, -13, 717924]];
const PAGE = new Map(decks().map(deck => [deck.name, deck]));

function deskOf() {
  const desk = new Desk(() => {});
  desk.program = native;
  return desk;
}
const asker = desk => async (name, data) => desk[name](data);

test('the example of a sheet is done rightly and wrongly', async () => {
  await turn();
  const {title, tasks: [write, find]} = sheetOf(EXAMPLE, PAGE), desk = deskOf();
  assert.equal(title, 'A sheet of my own');
  const runs = text => {
    const words = runWords(write.core), {status, bytes} = native.call(words, text);
    return isWritten(write, {words, text, status, printed: textOf(bytes), core: write.core});
  };
  assert.deepEqual([runs(write.deck.replace('LT8 2', 'LT8 4')), runs(write.deck)], [true, false]);
  const {text} = PAGE.get('two'), sees = count => isFound(find, {name: 'two', text}, desk.state({deck: text, core: 630, count}));
  assert.deepEqual([20, 19, 23].map(sees), [true, false, false]);
  assert.deepEqual([20, 23].map(count => desk.isFirst({deck: text, core: 630, find: find.find, count})), [true, false]);
});

test('the sheet that TEACHING shows is done rightly and wrongly', () => {
  const [, text] = /```text\n(title:[\s\S]*?)```/.exec(readFileSync(new URL('../../teaching/TEACHING.md', import.meta.url), 'utf8'));
  const {tasks: [write, find]} = sheetOf(text, PAGE), done = ['LT8 5', 'LT8 3'].map(card => {
    const words = runWords(write.core), deck = write.deck.replace('LT8 3', card), {status, bytes} = native.call(words, deck);
    return isWritten(write, {words, text: deck, status, printed: textOf(bytes), core: write.core});
  });
  assert.deepEqual(done, [true, false]);
  assert.deepEqual([find.kind, find.on, find.core, find.first], ['find', 'two', 630, true]);
});

test('a sheet that is none says which line is wrong', () => {
  const wrong = [['', /Line 1 .* no task/], ['what', /Line 1 .* begins with title:, id:, version: or task:/], ['version: two\ntask: A', /Line 1 .* wants a number/], ['task: A\nask: B\n', /Line 1 .* nothing says when/], ['task: A\nask: B\nprint: 1\n', /Line 3 .* print: is no word/],
    ['task: A\nprints: 1.1 5\n', /Line 1 .* asks nothing/], ['task: A\nask: B\nfind: the end\non: two\n', /Line 3 .*“the end” is no condition/], ['task: A\nask: B\nfind: card 3\n', /wants a deck/],
    ['task: A\nask: B\nfind: card 3\non: none\n', /has no deck none/], ['task: A\nask: B\nfind: card 3\non: two\nprints: 1\n', /several kinds/], ['task: A\nask: B\ncore: many\n', /Line 3 .* wants a number/],
    ['task: A\nask: B\ncore: 1\ncore: 2\n', /Line 4 .* twice/]];
  for (const [text, sentence] of wrong) assert.throws(() => sheetOf(text, PAGE), {message: sentence}, text);
});

test('each form of a condition holds at one moment and not at another', async () => {
  const held = [['operator STOD', 'two', 630, 20, 19], ['card 25', 'two', 630, 20, 19], ['task 1.2', 'switched', 685, 8, 7], ['cell 2,2 = 1', 'switched', 685, 12, 11], ['store 2,2', 'jensen', 4096, 21, 20],
    ['records 4', 'factorial', 4096, 24, 6], ['waiting 4', 'dining', 3258, 154, 20], ['leaves core', 'two', 630, 20, 18], ['comes into core', 'two', 630, 17, 16], ['prints 1.1 23', 'two', 630, 26, 25],
    ['fault CRITICAL BLOCK', 'critical', 4096, null, 1]];
  for (const [condition, name, core, right, wrong] of held) {
    await turn();
    const desk = deskOf(), {text} = PAGE.get(name), at = count => conditionOf(condition)(desk.state({deck: text, core, count}));
    assert.deepEqual([at(right ?? desk.firstFault({deck: text, core})), at(wrong)], [true, false], condition);
  }
  for (const form of CONDITIONS) assert.ok(conditionOf(form), form);
  assert.equal(conditionOf('cell 2,2'), null);
});

test('what a pupil hands in is one address, and each work is done again', async () => {
  const work = new Map([['1.5', {deck: WRITTEN['1.5'][0], core: 4096}], ['1.3', {deck: WRITTEN['1.3'][1], core: 4096}], ['5.1', {deck: 'two', core: 630, count: FOUND['5.1'][0]}],
    ['4.2', {deck: 'switched', core: 685, count: FOUND['4.2'][1]}], ['6.1', {deck: 'two', core: 630, halt: 20}], ['1.1', {deck: 'sum', core: 4096, count: 4}], ['5.4', {deck: 'ten', core: 534}]]);
  const packed = await packedHand({name: 'Ada Ü', version: '1.4.0', work}), hand = await handedIn(packed);
  assert.match(packed, /^[\w-]+$/);
  assert.deepEqual([hand.name, hand.version, [...hand.work.keys()]], ['Ada Ü', '1.4.0', [...work.keys()]]);
  const desk = deskOf(), again = [];
  for (const [id, its] of hand.work) {
    await turn();
    again.push(await doneAgain(asker(desk), TASKS.find(task => task.id === id), its, PAGE));
  }
  assert.deepEqual(again, [true, false, true, false, true, null, false]);
  assert.deepEqual(handsIn(`Ada: b67.html#hand:${packed}\nBo <file:///b67.html#hand:abc-_1>, again #hand:abc-_1`), [packed, 'abc-_1']);
  await assert.rejects(handedIn(packed.slice(0, -9)), /isn’t whole|no work/);
});

test('an answer to a question is done again, where it was handed in', async () => {
  await turn();
  const desk = deskOf(), task = TASKS.find(it => it.id === '1.1'), [name, core, count] = task.at.split(','), work = {deck: name, core: Number(core), count: Number(count)};
  const [right, wrong] = PREDICTED['1.1'], again = async its => doneAgain(asker(desk), task, {...work, ...its}, new Map([...PAGE, ['start', START]]));
  assert.deepEqual([await again({answer: right, tries: 2}), await again({answer: wrong}), await again({answer: null}), await again({answer: right, count: work.count + 1})], [true, false, null, false]);
});

test('the run of a pupil’s deck is bounded, and Stop isn’t taken for a wrong work', async () => {
  await turn();
  const desk = deskOf(), task = TASKS.find(it => it.id === '1.2'), loop = '?JOB A\n?LIMIT 100000000\n?ASM\nSEGMENT MAIN 2\nTOP: MKST\nNAMC 0,9\nLT8 42\nENTR\nBRUN TOP\n?END\n';
  let limit = '';
  const ask = async (name, data) => { limit = /\?LIMIT \d+/.exec(data.text)[0]; return desk[name](data); };
  assert.deepEqual([await doneAgain(ask, task, {deck: loop, core: 4096}, PAGE), limit], [false, '?LIMIT 1000000']);
  await assert.rejects(doneAgain(async () => { throw new Error('stopped'); }, task, {deck: loop, core: 4096}, PAGE), /stopped/);
});

test('a sheet with an id keeps its work when a letter of it changes', () => {
  const [old, now, plain, other] = [EXAMPLE, EXAMPLE.replace('prints 7', 'shall print 7').replace('version: 1', 'version: 2'), EXAMPLE.replace(/^(id|version):.*\n/gm, ''), EXAMPLE.replace('sheet-1', 'sheet-2')].map(text => sheetOf(text, PAGE));
  assert.deepEqual([old.key === now.key, old.key === plain.key, old.key === other.key, now.version], [true, false, false, 2]);
  assert.deepEqual(now.tasks.map(it => it.id), old.tasks.map(it => it.id));
  assert.deepEqual(newestOf([now, old, plain]).map(it => it.version), [2, 0]);
  assert.equal(keyOfSheet('no sheet'), '');
});

test('what a deck must have isn’t met by a comment', () => {
  const {tasks: [task]} = sheetOf('task: A\nask: B\nprints: 1.1 4\nhas: RDIV\nlacks: LT8 4\n', PAGE), done = text => isWritten(task, {words: runWords(4096), text, status: 0, printed: '1.1 4\n', core: 4096});
  const jensen = TASKS.find(it => it.id === '3.4'), passes = text => isWritten(jensen, {words: runWords(4096), text, status: 0, printed: '1.1 10\n1.1 ENDED\n', core: 4096});
  assert.deepEqual([passes(WRITTEN['3.4'][0]), passes(PAGE.get('jensen').text.replace('VALC 2,2\nVALC 2,2\nMULT', 'ONE'))], [true, false]);
  assert.deepEqual([done('LT8 8\nRDIV\n'), done('LT8 8 ; RDIV\n'), done('RDIV\nLT8 4\n'), done('RDIV ; LT8 4\n')], [true, false, false, true]);
});

test('the marks of a class: claimed and done again apart, the newest link of a pupil, and a table for spreadsheets', async () => {
  await turn();
  const {tasks} = sheetOf(EXAMPLE, PAGE), good = ['1.5', {deck: WRITTEN['1.5'][0], core: 4096}], forged = ['1.3', {deck: WRITTEN['1.5'][0], core: 4096}], mine = [tasks[0].id, {deck: tasks[0].deck.replace('LT8 2', 'LT8 4'), core: 4096}];
  const packed = await Promise.all([{name: 'Ada', number: '17', time: '2026-12-01T10:00', work: [good]}, {name: 'Ada', number: '17', time: '2026-12-02T10:00', work: [good, mine], sheets: [EXAMPLE]},
    {name: '=Bo, "B"', work: [forged]}].map(it => packedHand({version: '1', ...it})));
  const text = `${packed.map(it => `x#hand:${it}`).join('\n')}\n#hand:abc`, {hands, broken} = await handsOf(text.replace(packed[0].slice(40), `=\r\n${packed[0].slice(40)}`));
  assert.deepEqual([hands.length, broken, hands.map(it => it.older)], [3, 1, [true, false, false]]);
  const all = tasksFor(hands.map(it => it.hand), PAGE), desk = deskOf(), marks = new Map(), seen = new Map();
  for (const {part, hand} of hands) marks.set(part, await marksOf(asker(desk), hand, all, PAGE, {seen}));
  const [head, ...rows] = csvOf(linesOf(hands, all, part => marks.get(part))).split('\n');
  assert.match(head, /^id,name,time,older,claimed,total,not so,told,wrong answers,same decks,s1,s2,1\.1,/);
  assert.match(rows[0], /^17,Ada,2026-12-01T10:00,older,1,1,0,0,0,1,/);
  assert.match(rows[1], /^17,Ada,2026-12-02T10:00,,2,2,0,0,0,1,1,,/);
  assert.match(rows[2], /^,"'=Bo, ""B""",,,1,0,1,0,0,0,/);
});

// Two files, packed by Python's zipfile: one deflated, one stored.
const ZIP = Uint8Array.from(atob('UEsDBBQAAAAIAAAAIVwlaQV4CwAAAAkAAAAPAAAAQWRhL29ubGluZS5odG1sU85IzEuxSkxKBgBQSwMEFAAAAAAAAAAhXM9iIBkFAAAABQAAAAEAAABicGxhaW5QSwECFAMUAAAACAAAACFcJWkFeAsAAAAJAAAADwAAAAAAAAAAAAAAgAEAAAAAQWRhL29ubGluZS5odG1sUEsBAhQDFAAAAAAAAAAhXM9iIBkFAAAABQAAAAEAAAAAAAAAAAAAAIABOAAAAGJQSwUGAAAAAAIAAgBsAAAAXAAAAAAA'), sign => sign.charCodeAt(0));
// A key has tests with other numbers: of these works, of which the sheet without its tests accepts all but the last two, one is right.
const KEY = `id: twice-1\nversion: 1\n\ntask: Twice\nask: Print twice what READ gives.\nprints: 1.1 8\nprints: 1.1 ENDED\ntest: 5\ngives: 1.1 10\ngives: 1.1 ENDED\ndeck:\n?JOB T\n?ASM\nSEGMENT MAIN 2\nEXIT\n?DATA\n4\n?END\n`;
test('a deck of constants, a forged sheet and a forged link fail by the key; other numbers, a zip archive', async () => {
  await turn();
  const shared = sharedSheet(KEY), {tasks: [task]} = sheetOf(shared, PAGE), deck = cards => task.deck.replace('EXIT', `MKST\nNAMC 0,9\n${cards}\nENTR\nEXIT`), honest = deck('MKST\nNAMC 0,11\nENTR\nDUPL\nADD');
  assert.deepEqual([shared.includes('test:'), task.tests, task.id], [false, [], sheetOf(KEY, PAGE).tasks[0].id]);
  const works = [[honest, shared], [deck('LT8 8'), shared], [task.deck, shared.replace('version: 1', 'version: 2').replace('prints: 1.1 8\n', '')], [task.deck, shared]];
  const packed = await Promise.all(works.map(([text, sheet], k) => packedHand({version: '1', name: `n${k}`, sheets: [sheet], work: [[task.id, {deck: text, core: 4096}]]})));
  const {hands} = await handsOf(packed.map(it => `#hand:${it}`).join(' ')), keys = await keysOf(`x#sheet:${await packedText(KEY)}`, PAGE), desk = deskOf(), marks = [];
  for (const {hand} of hands) marks.push(...(await marksOf(asker(desk), hand, tasksFor(hands.map(it => it.hand), PAGE, keys), PAGE)).values());
  assert.deepEqual(marks, [true, false, false, false]);
  assert.deepEqual(await textsIn(ZIP), ['#hand:abc', 'plain']);
  await assert.rejects(textsIn(ZIP.subarray(0, 90)), /has no end/);
  for (const text of [KEY.replace('id: twice-1\n', ''), KEY.replace('test: 5\n', ''), KEY.replace('test: 5', 'test: five'), KEY.replace(/gives.*\n/g, '')]) assert.throws(() => sheetOf(text, PAGE), /Line \d+ of the sheet/);
});

// The numbers below are drawn by the same rule in Python.
test('numbers of one’s own: drawn by a pupil’s number, worked out in braces, and by them a copied deck is seen', async () => {
  const draws = ['a 2 to 9', 'b -50 to 50', 'c 1 to 1000000'].map(drawOf);
  for (const [seed, numbers] of [['17', OF_17], ['bo', OF_BO]]) assert.deepEqual([...drawn(draws, seed, 'sx/2').values()].map(Number), numbers);
  assert.deepEqual(['a', 'a 9 to 2', 'A 2 to 9', 'a 2 9'].map(drawOf), [null, null, null, null]);
  const numbers = new Map([['a', 7n], ['b', -3n]]);
  assert.equal(filled('1.1 {a * (b + 10) - 2} {a / b} {-a % 4} {549755813887 * 549755813887} {a}{b}', numbers), '1.1 47 -2 -3 302231454902557782048769 7-3');
  for (const [text, why] of [['{c}', /c isn’t drawn/], ['{a +}', /is missing/], ['{(a}', /isn’t closed/], ['{a b}', /to follow “b”/], ['{a / (b + 3)}', /divided by 0/], ['{a ? b}', /can’t be worked out/]]) assert.throws(() => filled(text, numbers), why);
  await turn();
  const text = 'id: own-1\nversion: 1\n\ntask: Twice\nask: Print twice {a}, by READ.\ndraw: a 100 to 999\nprints: 1.1 {a * 2}\nprints: 1.1 ENDED\ndeck:\n?JOB T\n?ASM\nSEGMENT MAIN 2\nEXIT\n?DATA\n{a}\n?END\n';
  const [ada, bo] = ['17', 'bo'].map(seed => sheetOf(text, PAGE, seed).tasks[0]), solved = task => task.deck.replace('EXIT', 'MKST\nNAMC 0,9\nMKST\nNAMC 0,11\nENTR\nDUPL\nADD\nENTR\nEXIT');
  assert.notEqual(ada.lines[0], bo.lines[0]);
  assert.equal(sheetOf(text, PAGE).tasks[0].text, 'Print twice {a}, by READ.');
  assert.equal(ada.text.replace(/\D/g, '') * 2, Number(ada.lines[0].slice(4)));
  const packed = await Promise.all([{name: 'Ada', number: '17', work: solved(ada)}, {name: 'Bo', work: solved(bo)}, {name: 'Cy', work: solved(ada)}].map(({work, ...it}) => packedHand({version: '1', sheets: [text], work: [[ada.id, {deck: work, core: 4096}]], ...it})));
  const {hands} = await handsOf(packed.map(it => `#hand:${it}`).join(' ')), desk = deskOf(), seen = new Map(), marks = [];
  for (const {hand} of hands) marks.push(...(await marksOf(asker(desk), hand, tasksFor(hands.map(it => it.hand), PAGE), PAGE, {seen})).values());
  assert.deepEqual(marks, [true, true, false]);
  assert.throws(() => sheetOf(text.replace('{a * 2}', '{d}'), PAGE), /Line 4 of the sheet: this task has braces: d isn’t drawn/);
});

test('equal decks of several pupils', () => {
  const [one, same, other] = ['?JOB A\nLT8 4 ; four\n', '?JOB A\n  LT8  4\n; mine\n', '?JOB A\nLT8 5\n'].map(deck => ({deck}));
  assert.deepEqual(sameDecks([one, other, same, null, {deck: 'two'}, {deck: 'two'}]), ['a', '', 'a', '', '', '']);
  assert.deepEqual(sameDecks([other, one, one, other]), ['a', 'b', 'b', 'a']);
  assert.deepEqual(sameDecks([one, null]), ['', '']);
  const [plain, hidden, loop] = ['?ASM\nONE\nEXIT\n', '?ASM\nNOOP\nL: ONE\nM: NOOP ; x\nEXIT\n', '?ASM\nL: ONE\nBRUN L\n'].map(deck => ({deck}));
  assert.deepEqual(sameDecks([plain, hidden, loop]), ['a', 'a', '']);
});

const NAMED = '?JOB A\n?ASM\n; the sum\nSEGMENT MAIN 2\nCELL total 2,2\nZERO\nL: VALC total  ; the sum\nNAMC total\nSTOD\nCELL total 2,3 ; another\nVALC total\nEXIT\n?END\n';

test('names for cells become couples, and each card keeps its number', () => {
  assert.equal(withoutNames(NAMED), '?JOB A\n?ASM\n; the sum\nSEGMENT MAIN 2\n; CELL total 2,2\nZERO\nL: VALC 2,2  ; the sum\nNAMC 2,2\nSTOD\n; CELL total 2,3 ; another\nVALC 2,3\nEXIT\n?END\n');
  for (const {text} of PAGE.values()) assert.equal(withoutNames(text), text);
  assert.equal(withoutNames('?JOB A\n?ASM\nSEGMENT MAIN 2\nCELL a\nZERO\nCELL b ; the second\nZERO\nCELL d 2,5\nCELL e\nVALC b\nSEGMENT P 3\nCELL x\nVALC x\nVALC e\n?END\n'),
    '?JOB A\n?ASM\nSEGMENT MAIN 2\n; CELL a 2,2\nZERO\n; CELL b 2,3 ; the second\nZERO\n; CELL d 2,5\n; CELL e 2,6\nVALC 2,3\nSEGMENT P 3\n; CELL x 3,2\nVALC 3,2\nVALC 2,6\n?END\n');
  const long = `?ASM\nCELL a 2,2\nVALC a ${';'.padEnd(73, 'x')}\nCELL abcdefghijklmnop 2,2 ; ${'x'.repeat(51)}\n`;
  assert.ok(withoutNames(long).split('\n').every(card => card.length <= 80));
  for (const [cards, card, sentence] of [['VALC a', 3, /no CELL line before it says which cell a is/], ['CELL a 2,2\n?END\n?JOB B\n?ASM\nNAMC a', 7, /no CELL line/], ['CELL A 2,2', 3, /A is no name/],
    ['CELL abcdefghijklmnopq 2,2', 3, /is no name/], ['CELL a 2', 3, /a CELL line is/], ['CELL', 3, /a CELL line is/], ['CELL a', 3, /stands in none/], ['NAMC a-b', 3, /no CELL line/]]) {
    assert.throws(() => withoutNames(`?JOB A\n?ASM\n${cards}\n`), error => error instanceof NamesRefused && error.card === card && sentence.test(error.message), cards);
  }
});

test('a cell of the picture has its name: that of its own procedure', async () => {
  await turn();
  const deck = withoutNames('?JOB A\n?ASM\nSEGMENT MAIN 2\nCELL p 2,2\nCELL q 2,3\nMPCW P\nMPCW Q\nMKST\nNAMC p\nLT8 7\nENTR\nMKST\nNAMC q\nLT8 8\nENTR\nEXIT\n'
    + 'SEGMENT P 3\nCELL left 3,2\nVALC left\nDLET\nEXIT\nSEGMENT Q 3\nCELL right 3,2\nVALC right\nDLET\nEXIT\n?END\n');
  const desk = deskOf(), names = count => desk.state({deck, core: 4096, count}).tasks[0].records.flatMap(record => record.cells.map(cell => cell.name ?? '')).filter(Boolean);
  assert.deepEqual(names(6), ['p', 'q', 'left']);
  assert.deepEqual(names(13), ['p', 'q', 'right']);
  assert.equal(namesIn(deck)[0].cells.length, 4);
  const state = desk.state({deck, core: 4096, count: 7});
  assert.ok(state.changes.some(it => /cell 3,2 left/.test(it.text)), JSON.stringify(state.changes));
  assert.match(cellWords(state, '1.1 2 2'), /^Cell 3,2 left, in record 2 of task 1\.1: tag 0, 7\./);
});

test('a step is one sentence, and the cells can be walked through', async () => {
  await turn();
  const desk = deskOf(), at = (name, core, count) => desk.state({deck: PAGE.get(name).text, core, count});
  assert.match(sentenceOf(at('two', 630, 20)), /^Operator 20, card 25, STOD, of task 1\.1: takes .*; leaves core array 2,2 .*; comes into core array 2,3 .*; store element 6 of array 2,3 .*: 0 becomes 12\. Next: card 26, MKST, of task 1\.1\.$/);
  assert.match(sentenceOf(at('switched', 685, 0)), /^Before the first operator\. Next: card 8, ZERO/);
  assert.match(sentenceOf(at('critical', 4096, desk.firstFault({deck: PAGE.get('critical').text, core: 4096}))), /fault: task 1\.2 PARENT, task 1\.1 CRITICAL BLOCK/);
  const state = at('switched', 685, 6), first = nextCell(state, '', 1);
  assert.equal(first, '1.1 1 4');
  assert.deepEqual([nextCell(state, first, -1), nextCell(state, first, 1), nextCell(state, '1.1 1', -1), nextCell(state, '9.9 1', 1)], ['1.1 1 3', '1.2 1', '1.1 1', first]);
  assert.match(cellWords(state, first), /^Cell 2,4, in record 1 of task 1\.1: tag 0, 2\. It is the top of the stack\.$/);
  assert.match(cellWords(state, '1.2 1'), /^Record 1 of task 1\.2, level 3: its static link leads to record 1 of task 1\.1, 0 cells\.$/);
  assert.equal(cellWords(state, '1.2 1 9'), 'No cell is there now.');
});
