// Why an operator faulted: what the machine before it held, and which of the usual causes fit that. Nothing is guessed: where the state
// can't tell the cause, all causes stand.
import {countOf} from '../reader/words.js';
import {INTRINSICS, TAKES} from '../reader/operators.js';
import {cellOfCouple, endOfChain, heldBy, listed, operatorParts, placeOf, recordOfLevel, recordsOf, wordsText} from './reading.js';

const [GREATEST, NO_NUMBER, DEEP] = [549755813887n, '#800000000000', 12];
const ARGUMENTS = {ARRAYDEC: 1, PRINT: 1, PRINTROW: 1, READ: 0, AWAIT: 1, STATUS: 1, WAIT: 1, CAUSE: 1, DEALLOCATE: 1, RESIZE: 2};
// What operators and intrinsics want that take no mere number.
const WANTS = {STFF: 'a couple or a reference', INDX: 'an array or a copy of one, and a number', NXLV: 'an array or a copy of one, and a number', LOAD: 'a reference', STOD: 'a number and a reference to where it goes', STON: 'a number and a reference to where it goes'};
const WANTED = {WAIT: 'a reference to the cell of the event, as NAMC 2,2 pushes one', CAUSE: 'a reference to the cell of the event, as NAMC 2,2 pushes one', ARRAYDEC: 'a number, the length'};
const RESULTS = {ADD: (a, b) => a + b, SUBT: (a, b) => a - b, MULT: (a, b) => a * b};

// The intrinsic that an open record is to call.
function intrinsicOf(record) {
  const couple = /^0,(\d+)$/.exec(record.cells[0]?.kind === 'NAME' ? record.cells[0].text : '');
  return record.level < 0 && couple ? INTRINSICS[couple[1]] : undefined;
}

function underflow({name, takes, record}) {
  const open = record.level < 0;
  const mark = open ? ' The record is open since its MKST, and what lies below that mark can’t be taken.' : '';
  return {said: `${name} takes ${countOf(takes, 'word')}, and record ${record.number} has ${wordsText(record.cells)}.${mark}`, fits: [open ? /below an open mark/ : /operand is missing/]};
}

function overflow({records, record, task, state}) {
  const words = state.tasks.find(it => it.name === task).words;
  const fits = records.length > DEEP ? [/recursion/] : record.cells.length > 4 * records.length + 20 ? [/loop that pushes/] : null;
  return {said: `The stack of task ${task} has ${countOf(words, 'word')} by now, in ${countOf(records.length, 'record')}; the topmost one has ${countOf(record.cells.length, 'cell')}.`, fits};
}

// An operand of the wrong kind: of a call, of a value that is fetched, or of arithmetic.
function operand(it) {
  const {name, record, taken, found} = it;
  if (name === 'ENTR') return calledWrongly(it);
  const [top] = taken.slice(-1);
  if (found) return {said: `The cell that ${name} names holds ${heldBy(found)}, which is no number.`, fits: null, cells: []};
  if (name === 'RETN' && top?.kind === 'NAME') return {said: `RETN is to hand back ${heldBy(top)}, which means something in this record only.`, fits: [/plain couple/]};
  if (top?.kind === 'ARRAY') return {said: `${name} takes ${heldBy(top)} itself, not a copy of it.`, fits: [/array's original/]};
  const wrong = taken.filter(cell => cell.kind !== 'NUM'), arithmetic = !/^(INDX|NXLV|STOD|STON|LOAD|STFF|RETN)$/.test(name);
  if (!wrong.length || !arithmetic) return {said: `${name} takes ${wordsText(taken)}, in record ${record.number}.${WANTS[name] ? ` It wants ${WANTS[name]}.` : ''}`, fits: arithmetic ? null : [/isn't of the kind/, /^A reference where/], cells: taken};
  const [called] = record.cells;
  if (record.level < 0 && wrong.includes(called)) return {said: `${name} takes ${listed(taken.map(heldBy))}. But ${heldBy(called)} says what is to be called: perhaps an argument is missing.`, fits: [], cells: [called]};
  return {said: `${name} takes ${listed(taken.map(heldBy))}. It wants numbers, and ${listed(wrong.map(heldBy))} ${wrong.length > 1 ? 'are none' : 'is none'}.`,
    fits: wrong.some(cell => cell.kind === 'NAME') ? [/NAMC for VALC/] : null, cells: wrong};
}

function calledWrongly({record, task, state}) {
  if (record.level >= 0) return {said: `Record ${record.number} is entered already: no MKST has begun another.`, fits: [/ENTR without its MKST/]};
  const intrinsic = intrinsicOf(record), given = record.cells.slice(1), wants = ARGUMENTS[intrinsic];
  if (intrinsic && wants !== undefined && given.length !== wants) {
    return {said: `${intrinsic} wants ${wants ? countOf(wants, 'argument') : 'no argument'}, and its record has ${wordsText(given)}.`, fits: [/wrong number of arguments/], cells: given};
  }
  if (intrinsic) return {said: `${intrinsic} gets ${listed(given.map(heldBy))}.${WANTED[intrinsic] ? ` It wants ${WANTED[intrinsic]}.` : ''}`, fits: /^(PRINTROW|DEALLOCATE|RESIZE)$/.test(intrinsic) ? [/without LOAD/] : given.some(it => it.kind === 'NAME') ? [/NAMC for VALC/] : null, cells: given};
  const called = record.cells[0], end = endOfChain(state, task, called);
  return {said: `The first word of record ${record.number} is to lead to a procedure: it is ${heldBy(called)}${end === called ? '' : `, and leads to ${heldBy(end)}`}.`, fits: [/ENTR of what is no procedure/], cells: [called]};
}

// The words of an array that a cell leads to; undefined if that can't be told.
function lengthOf(state, task, cell) {
  const end = endOfChain(state, task, cell);
  if (end.kind === 'ARRAY') return Number(end.text.replace('array of ', ''));
  return state.things.find(thing => thing.cell === end.to && thing.kind !== 'code')?.words;
}

function index({name, taken, record, task, state}) {
  if (name === 'ENTR') return {said: `${intrinsicOf(record) ?? 'It'} gets ${listed(record.cells.slice(1).map(heldBy))}; a length is 1 to 65,535.`, fits: [], clause: 1, cells: record.cells.slice(1)};
  const number = taken.findLast(it => it.kind === 'NUM'), array = taken.find(it => it !== number), length = array && lengthOf(state, task, array);
  if (!number || length === undefined) return {said: '', fits: null};
  return {said: `The index is ${number.text}, and the array has ${countOf(length, 'word')}: the elements 0 to ${length - 1}.`, fits: number.text === String(length) ? [/starts at 1/] : [], clause: 0, cells: [number]};
}

function address({name, operands, task, state, taken}) {
  const couple = name === 'VALC' ? operands[0] : taken.find(it => it.kind === 'NAME')?.text;
  if (!couple) return {said: '', fits: null};
  const [level, at] = couple.split(',').map(Number), found = recordOfLevel(state, task, level);
  if (!found) return {said: `The couple ${couple} names a cell of level ${level}, and no record of that level is in reach.`, fits: [/level is wrong/]};
  const cells = found.record.cells, last = cells.at(-1)?.at;
  if (cells.some(it => it.at === at)) return {said: '', fits: null};
  return {said: `The couple ${couple} names cell ${at} of record ${found.record.number}, and that record has ${last ? `the cells 2 to ${last}` : 'no cells'}.`, fits: [at < 2 ? /displacement 2/ : /isn't pushed yet/]};
}

function integer({name, taken}) {
  const [a, b] = taken.map(it => (/^-?\d+$/.test(it.text) ? BigInt(it.text) : null)), result = a !== null && b !== undefined && b !== null && RESULTS[name]?.(a, b);
  return {said: `${name} takes ${listed(taken.map(heldBy))}${result ? `: the result would be ${result.toLocaleString('en')}` : ''}. The greatest number is ${GREATEST.toLocaleString('en')}.`, fits: null};
}

function exponent({name, taken, record, state, task}) {
  const cells = name === 'ENTR' ? record.cells.slice(1) : taken, wrong = cells.filter(it => it.text.startsWith('#'));
  if (!wrong.length) return {said: '', fits: null};
  const read = state.numbers.find(it => it.job === Number(task.split('.')[0])), ended = wrong[0].text === NO_NUMBER && (!read || read.next >= read.numbers.length);
  return {said: `${name} takes ${listed(wrong.map(heldBy))}, which ${wrong.length > 1 ? 'are no whole numbers' : 'is no whole number'}.`, fits: [ended ? /READ has no number left|made by LNOT/ : /made by LNOT/], cells: wrong};
}

function divided({name, taken}) {
  return {said: `${name} takes ${listed(taken.map(heldBy))}.`, fits: null};
}

function loop({name, operands, task, state}) {
  const named = name === 'VALC' ? cellOfCouple(state, task, operands[0]) : null;
  if (named?.cell.kind !== 'NAME') return {said: '', fits: null};
  const self = named.cell.text === operands[0];
  return {said: `${name} follows ${operands[0]}: that cell holds ${heldBy(named.cell)}${self ? ', so it leads to itself' : ''}.`, fits: self ? [/leads back to itself/, /without STFF/] : null};
}

function protect({taken, task, state}) {
  const target = taken.filter(it => it.kind !== 'NUM').map(it => endOfChain(state, task, it)).find(Boolean);
  if (!target) return {said: '', fits: null};
  const row = /^DICT/.test(target.to);
  return {said: row ? `The word at which it stores is one of ${placeOf(target.to)}, which can only be read.` : `It stores at ${heldBy(target)}, which names no single word.`, fits: [row ? /copy a data row/ : /INDX before STOD/]};
}

function uplevel({taken}) {
  return {said: `RETN is to hand back ${listed(taken.map(heldBy))}: that leads into the record that is left.`, fits: null};
}
function critical({record, records, state, task}) {
  const left = records.findLast(it => it.level >= 0) ?? record, children = state.tasks.filter(it => it.parent === task).map(it => `task ${it.name}`);
  return {said: `Record ${left.number} would be left, and ${listed(children) || 'a task'}, started by task ${task}, ${children.length > 1 ? 'live' : 'lives'} still.`, fits: null};
}
// The first operator of a run may be one, and then there is no machine before it.
function filling({operator, operators}) {
  if (operator.card) return {said: 'The card is NVLD, which is no operator.', fits: []};
  const its = `${operator.place.split('@')[0]}@`, table = operators[operator.task.split('.')[0] - 1] ?? {};
  const [after, text] = Object.entries(table).filter(([place]) => place.startsWith(its)).map(([, card]) => card).reduce((last, card) => (card[0] > last[0] ? card : last), [0, '']);
  if (!after) return {said: 'The place is behind the last operator of its segment, where filling stands.', fits: null};
  return {said: `Card ${after}, ${text}, is the last one of its segment, and it isn’t EXIT, RETN or BRUN: behind it stands no operator.`, fits: [], after};
}
function pending({record}) {
  return {said: `Record ${record.number} is open: its MKST has had no ENTR yet.`, fits: null};
}
function deadlock({state, task, name}) {
  const waiting = state.tasks.filter(it => it.name !== task && it.name.split('.')[0] === task.split('.')[0] && it.condition !== 'ready');
  return {said: `${waiting.map(it => `Task ${it.name} ${it.condition}. `).join('')}Task ${task}, the last one that was ready, waits by this ${name}.`, fits: null, cells: []};
}
function limit({task, operator}) {
  return {said: `Job ${task.split('.')[0]} has made as many operators as it may; the last one was ${operator.card ? `card ${operator.card}` : operator.place}.`, fits: null, cells: []};
}

const WRONG = {'STACK UNDERFLOW': underflow, 'STACK OVERFLOW': overflow, 'INVALID OPERAND': operand, 'INVALID INDEX': index, 'MEMORY PROTECT': protect,
  'INVALID ADDRESS': address, 'INTEGER OVERFLOW': integer, 'DIVIDE BY ZERO': divided, EXPONENT: exponent, LOOP: loop, UPLEVEL: uplevel,
  'CRITICAL BLOCK': critical, 'INVALID OPERATOR': filling, 'MARK PENDING': pending, DEADLOCK: deadlock, LIMIT: limit};

// What was wrong for an operator that ended its task by `ending`, in the machine before it: {said, fits, cells}. `fits` tells which clauses
// of the usual causes hold, null for all; `cells` are the names of those that were wrong; `after` is the card behind which a program ran
// out of its segment, and `clause` the part of the fault's meaning that holds. `operators` are those of each job, by their places.
export function wrongOf(ending, state, operator, operators = []) {
  const {task} = operator, records = recordsOf(state, task), record = records.at(-1);
  if (!WRONG[ending] || !record && ending !== 'INVALID OPERATOR') return {said: '', fits: null, cells: []};
  const [name, ...operands] = operatorParts(operator), takes = TAKES[name] ?? 0, taken = takes && record ? record.cells.slice(-takes) : [];
  const named = name === 'VALC' && operands[0] ? cellOfCouple(state, task, operands[0])?.cell : null, found = named && endOfChain(state, task, named);
  const {said, fits, after, clause, cells = taken} = WRONG[ending]({name, operands, takes, taken, found, record, records, task, state, operator, operators});
  return {said, fits, after, clause, cells: cells.map(cell => `${task} ${record.number} ${cell.at}`)};
}

// Of tasks that end by one operator the one that is the cause: a child that ends with its parent isn't.
export function causeOf(wrongs) {
  return wrongs.find(it => it.name !== 'PARENT') ?? wrongs[0];
}

function sentence(clause) {
  return clause[0].toUpperCase() + clause.slice(1).replace(/[.;]?$/, '.');
}

// What a fault means, of several clauses the one that holds; nothing where the place says it all.
export function fittingMeaning(text = '', {after, clause}) {
  if (after) return '';
  return clause === undefined ? text : sentence(text.split('; or ')[clause]);
}

// Of a text of causes the clauses that fit.
export function fittingCauses(text, fits) {
  if (!fits) return text;
  const clauses = text.split(/(?<=[.;]) +/).filter(clause => fits.some(it => it.test(clause)));
  return clauses.map(clause => sentence(clause.replace(/^or /i, ''))).join(' ');
}
