// Stores that are lost: a task has fetched a cell, another one then stores into it, and the first writes over that without having seen
// it. What an operator fetched and stored is told by its changes, as names of cells, and of elements of arrays.
import {cellOfCouple, endOfChain} from './reading.js';

const STORES = /\bSTO[DN]$/;

// The name of a cell, `task record cell`, by its address; empty if it is no cell of a stack.
function nameAt(state, address) {
  for (const task of state.tasks) for (const record of task.records) {
    const cell = record.cells.find(it => it.address === address);
    if (cell) return `${task.name} ${record.number} ${cell.at}`;
  }
  return '';
}

// The name of an element, by what leads to its array.
function elementName(state, task, array, number) {
  const end = endOfChain(state, task, array), of = end.kind === 'ROW' ? end.to : end.kind === 'ARRAY' ? nameAt(state, end.address) : '';
  return of && `${of}array[${number}]`;
}

// What an operator fetches, by the words that it takes; empty for nothing that a task can store into.
export function fetchedBy({name, operands, task, before}, taken) {
  if (name === 'NXLV' && taken.length === 2) return elementName(before, task, taken[0], taken[1].text);
  const from = name === 'VALC' ? cellOfCouple(before, task, operands[0])?.cell : name === 'LOAD' ? taken[0] : null, end = from && endOfChain(before, task, from);
  if (end?.kind === 'ELEMENT') return `${end.to}array[${end.text.split(' ').pop()}]`;
  return end?.kind === 'NUM' ? nameAt(before, end.address) : '';
}

// The names of what an operator fetched and stored.
export function touchesOf(changes) {
  return {fetches: changes.flatMap(it => it.from || []), puts: changes.flatMap(it => (it.into ? `${it.into}${it.element === undefined ? '' : `[${it.element}]`}` : []))};
}

// Forgets the cells of records that are left.
function forget(cells, records) {
  for (const name of cells.keys()) {
    const [task, record] = name.split(' ');
    if (!(Number(record) <= (records[task] ?? 0))) cells.delete(name);
  }
}

// The stores that are lost, of a part of a run without gaps: `at` is the operator that writes over one, `lost` the one that had stored,
// `by` its task, `card` its card, or its place in a job without cards, and `fetched` the operator with which the other task had fetched.
export function lostStores(briefs) {
  const cells = new Map(), found = [];
  const cellOf = name => cells.get(name) ?? cells.set(name, {seen: new Map(), last: null}).get(name);
  for (const {count, task, card, text, records, fetches, puts} of briefs) {
    forget(cells, records);
    for (const name of fetches) cellOf(name).seen.set(task, count);
    if (!STORES.test(text)) continue;
    for (const name of puts) {
      const cell = cellOf(name), {seen, last} = cell, fetched = seen.get(task);
      if (last && last.task !== task && fetched < last.count) found.push({at: count, lost: last.count, by: last.task, card: last.card, fetched, task});
      seen.delete(task);
      cell.last = {count, task, card};
    }
  }
  return found;
}

// The operator whose store is lost, by its card.
function loserOf({lost, card}) {
  return `operator ${lost}, ${card.includes('/') ? 'at' : 'card'} ${card}`;
}

export function lossText(loss) {
  return `that of ${loserOf(loss)}, task ${loss.by}: task ${loss.task} had fetched the number before it, with operator ${loss.fetched}`;
}

// The same as a change of the operator that writes over a store; `moment` is the part of the text that leads to another count.
export function lossChange(loss) {
  return {kind: 'lost', text: lossText(loss), moment: {text: loserOf(loss), count: loss.lost}};
}
