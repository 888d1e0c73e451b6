// What an operator changed: between the state before it and the state after it.
import {countOf} from '../reader/words.js';
import {spansText} from './memory.js';
import {effectOf} from '../words/effect.js';
import {listed} from '../words/reading.js';

const MOST_TOLD = 3; // of the numbers of an array that leaves core
const ENDING = /^(\d+\.\d+) ([A-Z].*)$/;

export function endingOf(line) {
  const found = ENDING.exec(line);
  return found && {task: found[1], name: found[2], bad: found[2] !== 'ENDED'};
}

function cameIn(thing, before) {
  const from = before.chain.length ? `from ${before.chain.length > 1 ? 'sectors' : 'sector'} ${spansText(before.chain)}` : 'filled with zeros, since it was never used';
  return {kind: 'in', text: `${thing.text}, ${countOf(thing.words, 'word')}, to address ${thing.at}, ${from}`};
}

// What an array holds, in a few words: its first numbers that aren't 0.
function numbersText({numbers}) {
  if (!numbers.length) return 'It held zeros only';
  const told = numbers.slice(0, MOST_TOLD).map(([n, number]) => `${number} in element ${n}`), more = numbers.length - told.length;
  return `It held ${listed(told)}${more ? ', and more' : ''}`;
}

function wentOut(thing, before) {
  if (thing.kind !== 'array') return {kind: 'out', text: `${thing.text}, ${countOf(thing.words, 'word')}; not written, since the backing has it${thing.kind === 'row' ? `. ${numbersText(before)}` : ''}`};
  if (!thing.chain.length) return {kind: 'gone', text: `${thing.text}: its area is given up`};
  const first = before.chain.length ? '' : ', which it takes now', led = before.copies.some(copy => !copy.absent);
  const copies = led ? '' : '. No copy led into core, so none is turned';
  return {kind: 'out', text: `${thing.text}, ${countOf(thing.words, 'word')}, to sectors ${spansText(thing.chain)}${first}. ${numbersText(before)}${copies}`};
}

// A name for a cell as couples name it, with its record.
export function cellName(copy) {
  const [task, record, at] = copy.cell.split(' ');
  if (copy.level < -1) return `cell ${at} of record ${record} of task ${task}`;
  return copy.level < 0 ? `cell ${at} of the open record ${record} of task ${task}` : `cell ${copy.level},${at}${copy.name ? ` ${copy.name}` : ''}, in record ${record} of task ${task}`;
}

function turned(thing, before) {
  const was = new Map(before.copies.map(copy => [copy.cell, copy.absent]));
  return thing.copies.filter(copy => was.has(copy.cell) && was.get(copy.cell) !== copy.absent).map(copy => ({
    kind: 'turn', cell: copy.cell,
    text: `the copy in ${cellName(copy)}: it ${copy.absent ? 'now leads to the original' : 'now leads into core'}`,
  }));
}

// Page-ins, page-outs and copies that were turned, the page-outs first.
function pagingOf(before, after) {
  const old = new Map(before.things.map(thing => [thing.cell + thing.kind, thing]));
  const found = after.things.flatMap(thing => {
    const was = old.get(thing.cell + thing.kind);
    if (!was) return thing.at ? [{kind: 'made', text: `${thing.text}, ${countOf(thing.words, 'word')}`}] : [];
    const events = was.at && !thing.at ? [wentOut(thing, was)] : !was.at && thing.at ? [cameIn(thing, was)] : [];
    return [...events, ...turned(thing, was)];
  });
  const gone = before.things.filter(thing => thing.at && !after.things.some(it => it.cell + it.kind === thing.cell + thing.kind));
  found.push(...gone.map(thing => ({kind: 'gone', text: `${thing.text}: given up with its record`})));
  return found.sort((a, b) => (a.kind === 'in') - (b.kind === 'in'));
}

// The tasks that began or ended, and a task that another one follows.
function tasksChanged(before, after) {
  const was = new Set(before.tasks.map(task => task.name)), is = new Set(after.tasks.map(task => task.name));
  const born = [...is].filter(name => !was.has(name)).map(name => ({kind: 'task', text: `${name} is started`}));
  const dead = [...was].filter(name => !is.has(name)).map(name => ({kind: 'task', text: `${name} has ended`}));
  const woken = after.tasks.flatMap(task => {
    const old = before.tasks.find(it => it.name === task.name);
    return old && old.condition !== task.condition ? [{kind: 'task', text: `${task.name}: ${task.condition}`}] : [];
  });
  const other = before.last && after.last && before.last !== after.last;
  const next = other ? [{kind: 'task', text: `${after.last} runs, after ${before.last}`}] : [];
  return [...next, ...born, ...dead, ...woken];
}

function cellsByName(state) {
  const cells = new Map();
  for (const task of state.tasks) for (const record of task.records) for (const cell of record.cells) {
    cells.set(`${task.name} ${record.number} ${record.level} ${cell.at}`, {...cell, level: record.level, cell: `${task.name} ${record.number} ${cell.at}`});
  }
  return cells;
}

// Cells that hold something else than before, but for the result on top of the stack. `into` names the cell, or the array of an element.
function stored(before, after) {
  const old = cellsByName(before), running = after.tasks.find(task => task.name === after.last)?.records.at(-1), stores = /\bSTOD$/.test(before.next?.text ?? '');
  const top = stores ? null : running?.cells.at(-1); // STOD leaves nothing on top, so what is there may be what it stored into
  return [...cellsByName(after)].flatMap(([name, cell]) => {
    const was = old.get(name);
    if (!was || cell.address === top?.address || cell.tag === 5 || was.text === cell.text && was.tag === cell.tag) return [];
    return [{kind: 'cell', into: cell.cell, text: `${cellName(cell)}: ${was.text} becomes ${cell.text}`}];
  });
}

// A store of the number that the cell had already, which no picture shows: as when an addition is lost.
function storedAgain(before, after) {
  if (!/^STO[DN]$/.test(before.next?.text.split(' ').pop() ?? '')) return [];
  const task = before.tasks.find(it => it.name === after.last), by = task?.records.at(-1).cells.at(-1), now = after.tasks.find(it => it.name === after.last);
  if (!now || now.words >= task.words) return [];
  const [level, at] = by.text.split(','), records = after.tasks.flatMap(it => it.records.map(record => ({task: it.name, record})));
  const byCouple = it => it.record.display.includes(Number(level)), byReference = it => by.to.startsWith(`${it.task} ${it.record.number} `);
  const found = records.find(by.kind === 'NAME' ? byCouple : byReference);
  const cell = found?.record.cells.find(it => it.at === Number(by.kind === 'NAME' ? at : by.to.split(' ').pop()));
  const was = cell && cellsByName(before).get(`${found.task} ${found.record.number} ${found.record.level} ${cell.at}`);
  if (cell?.kind !== 'NUM' || was?.text !== cell.text) return [];
  return [{kind: 'cell', into: was.cell, text: `${cellName(was)}: ${cell.text} is stored, and it was ${cell.text} already`}];
}

// The cells and the records that are new or hold something else: their names, for the drawing.
export function freshCells(before, after) {
  if (!before) return [];
  const old = new Map(), found = [];
  for (const task of before.tasks) for (const record of task.records) {
    old.set(`${task.name} ${record.number}`, record.level);
    for (const cell of record.cells) old.set(`${task.name} ${record.number} ${cell.at}`, `${cell.tag}${cell.text}${cell.absent}`);
  }
  for (const task of after.tasks) for (const record of task.records) {
    const id = `${task.name} ${record.number}`;
    if (old.get(id) !== record.level) found.push(id);
    else found.push(...record.cells.filter(cell => old.get(`${id} ${cell.at}`) !== `${cell.tag}${cell.text}${cell.absent}`).map(cell => `${id} ${cell.at}`));
  }
  return found;
}

// Elements of arrays that hold another number.
function elements(before, after) {
  const old = new Map(before.things.map(thing => [thing.cell + thing.kind, thing]));
  return after.things.flatMap(thing => {
    const was = old.get(thing.cell + thing.kind);
    if (!was || was.words !== thing.words) return [];
    const then = new Map(was.numbers);
    const now = new Map(thing.numbers);
    return [...new Set([...then.keys(), ...now.keys()])].filter(n => then.get(n) !== now.get(n))
      .map(n => ({kind: 'cell', into: thing.cell + thing.kind, element: n, text: `element ${n} of ${thing.text}: ${then.get(n) ?? 0} becomes ${now.get(n) ?? 0}`}));
  });
}

// The lines that were printed between two states.
function printedBetween(before, after) {
  const many = after.lines.total - before.lines.total;
  return many ? after.lines.shown.slice(-many).map(text => ({kind: 'line', text})) : [];
}

// All that an operator changed: first what it did by itself, then its lines, tasks, paging and stores. At the end the lines alone.
export function changesOf(before, after) {
  if (!before) return [];
  if (after.status !== undefined) return printedBetween(before, after);
  return [...effectOf(before, after), ...printedBetween(before, after), ...tasksChanged(before, after), ...pagingOf(before, after), ...stored(before, after), ...storedAgain(before, after), ...elements(before, after)];
}
