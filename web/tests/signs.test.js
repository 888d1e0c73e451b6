// Stores that are lost, the signs of the line of time, and the stack that stays at the left: by data.
import assert from 'node:assert/strict';
import {test} from 'node:test';
import {lossChange, lossText, lostStores, touchesOf} from '../src/words/lost.js';
import {nextOf, signsOn} from '../src/drawing/signs.js';
import {isRoot, pinnedWidth} from '../src/drawing/pin-stack.js';
import {depthText} from '../src/page/step-view.js';

const CELL = '1.1 1 2';

// A run of two tasks from its operators: `1.1 VALC`, `1.2 STOD`, each on the cell; `1.1 EXIT` leaves all records of its task.
function runOf(...operators) {
  let records = {1.1: 1, 1.2: 1};
  return operators.map((it, k) => {
    const [task, text] = it.split(' ');
    if (text === 'EXIT') records = {...records, [task]: 0};
    if (text === 'MKST') records = {...records, [task]: 1};
    return {count: k + 1, task, card: String(k + 11), text, records, fetches: text === 'VALC' ? [CELL] : [], puts: text.startsWith('STO') || text === 'ENTR' ? [CELL] : [], paging: [], lines: 0, bad: false};
  });
}

test('stores that are lost', () => {
  const lost = (...operators) => lostStores(runOf(...operators)).map(it => [it.lost, it.at]);
  assert.deepEqual(lost('1.1 VALC', '1.2 VALC', '1.2 STOD', '1.1 STOD'), [[3, 4]]);
  assert.deepEqual(lost('1.1 VALC', '1.2 STOD', '1.2 STON', '1.1 STON'), [[3, 4]]);
  assert.deepEqual(lost('1.1 VALC', '1.1 STOD', '1.2 VALC', '1.2 STOD'), []); // one after the other
  assert.deepEqual(lost('1.1 VALC', '1.2 STOD', '1.1 VALC', '1.1 STOD'), []); // it has looked again
  assert.deepEqual(lost('1.2 STOD', '1.1 STOD'), []); // nothing was fetched
  assert.deepEqual(lost('1.1 VALC', '1.1 STOD', '1.2 STOD', '1.1 STOD'), []); // the fetch was for its own store
  assert.deepEqual(lost('1.1 VALC', '1.2 ENTR', '1.1 STOD'), []); // an intrinsic is no store
  assert.deepEqual(lost('1.2 VALC', '1.1 STOD', '1.1 EXIT', '1.1 MKST', '1.2 STOD'), []); // another record's cell
  const [found] = lostStores(runOf('1.1 VALC', '1.2 STOD', '1.1 STOD'));
  assert.equal(lossText(found), 'that of operator 2, card 12, task 1.2: task 1.1 had fetched the number before it, with operator 1');
  assert.deepEqual(lossChange(found).moment, {text: 'operator 2, card 12', count: 2});
  assert.match(lossText({...found, card: '1/2@0:3'}), /^that of operator 2, at 1\/2@0:3, task 1\.2/);
});

test('what an operator fetched and stored', () => {
  assert.deepEqual(touchesOf([{kind: 'took', text: '2'}, {kind: 'pushed', text: '1', from: CELL}, {kind: 'cell', into: CELL}, {kind: 'cell', into: '1.1 1 2array', element: 5}]),
    {fetches: [CELL], puts: [CELL, '1.1 1 2array[5]']});
  assert.deepEqual(touchesOf([{kind: 'pushed', text: '1', from: ''}]), {fetches: [], puts: []});
});

test('signs of the line of time', () => {
  const brief = (count, more) => ({count, records: {1.1: 1}, paging: [], lines: 0, bad: false, ...more});
  const briefs = [brief(0), brief(1, {paging: ['in', 'out']}), brief(2, {lines: 1}), brief(3, {paging: ['in']}), brief(4, {lines: 1, bad: true})];
  const counts = signs => Object.fromEntries(signs.map(it => [it.kind, it.counts]));
  assert.deepEqual(counts(signsOn(briefs, [])), {in: [1, 3], out: [1], line: [2], bad: [4]});
  assert.deepEqual(counts(signsOn([...briefs, brief(5, {records: {1.1: 1, 1.2: 1}})], [{at: 5}, {at: 5}])).lost, [5]);
  assert.equal(counts(signsOn([brief(5, {records: {1.1: 1, 1.2: 1}})], [], false)).lost, undefined);
  const carded = [brief(1, {card: '9'}), brief(2, {card: '7'}), brief(3, {card: '9'})], stops = cards => counts(signsOn(carded, [], true, new Set(cards))).stop;
  assert.deepEqual([stops([]), stops(['9']), stops(['8'])], [undefined, [1, 3], []]);
  assert.deepEqual([0, 1, 3].map(now => nextOf([1, 3], now)), [1, 3, 1]);
  assert.deepEqual([0, 1, 3, 9].map(now => nextOf([1, 3], now, -1)), [3, 3, 1, 3]);
});

test('how deep a stack is, and gets on a line that has all of the run or a part', () => {
  const state = {tasks: [{name: '1.1', records: [{}]}], last: '1.1'};
  assert.equal(depthText(state, 35, true), '1 record deep, 35 at most');
  assert.equal(depthText(state, 35, false), '1 record deep, 35 at most in the part that is drawn');
  assert.equal(depthText(state, 1, false), '1 record deep');
});

test('the stack on which all others stand', () => {
  const tasks = (...names) => names.map(name => ({name}));
  assert.deepEqual([isRoot(tasks('1.1', '1.2')), isRoot(tasks('1.1')), isRoot(tasks('1.1', '2.1'))], [true, false, false]);
  const picture = {width: 1000, right: 200, size: 0.8};
  assert.equal(pinnedWidth(tasks('1.1', '1.2'), picture, 500), 160);
  assert.equal(pinnedWidth(tasks('1.1', '1.2'), picture, 900), 0); // all are in view
  assert.equal(pinnedWidth(tasks('1.1', '1.2'), picture, 300), 0); // it would take too much
});
