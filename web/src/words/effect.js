// What an operator did by itself: the words that it took and pushed, what it called, which record it entered or left, where it goes on.
import {fetchedBy} from './lost.js';
import {INTRINSICS, TAKES} from '../reader/operators.js';
import {cellOfCouple, endOfChain, heldBy, listed, operatorParts, placeOf, recordsOf} from './reading.js';

const FETCHES = /^(VALC|STOD|STON|LOAD|NXLV|INDX|RETN)$/;

function held(cells) {
  return listed(cells.map(heldBy));
}

// Where a static link leads, in words.
function linkOf(record) {
  return record.link.startsWith('DICT') ? 'the dictionary' : `record ${record.link.split(' ')[1]}${record.link.startsWith('1.1 ') ? '' : ` of task ${record.link.split(' ')[0]}`}`;
}

function entered(record) {
  return {kind: 'entered', text: `record ${record.number}, level ${record.level}: its static link leads to ${linkOf(record)}`};
}

// The procedure to which a cell leads, by its name.
function procedureOf(state, task, cell) {
  const end = cell && endOfChain(state, task, cell);
  return end?.kind === 'PROC' ? end.text.replace(/^entry of /, '') : '';
}

// A call: the record on top was begun, and is entered now.
function called({task, before, was, now}) {
  const given = was.at(-1).cells.slice(1), name = procedureOf(before, task, was.at(-1).cells[0]);
  return [{kind: 'call', text: `${name || 'a procedure'}${given.length ? `, with ${held(given)}` : ''}`}, entered(now.at(-1))];
}

// A call of the MCP, which gives up the record that was begun; it may push a word, start a task, or let the task wait.
function calledMcp({was, now, couple}) {
  const given = was.at(-1).cells.slice(1), top = now.at(-1), grown = top && now.length < was.length && top.cells.length > was.at(-2).cells.length;
  const call = {kind: 'call', text: `${INTRINSICS[couple]} of the MCP${given.length ? `, with ${held(given)}` : ''}`};
  return [call, ...(grown ? [{kind: 'pushed', text: held(top.cells.slice(-1))}] : [])];
}

// An operator that wanted a value, met a procedure, and entered it.
function accident({name, operands, task, before, was, now}) {
  const met = name === 'VALC' ? cellOfCouple(before, task, operands[0])?.cell : was.at(-1).cells.findLast(cell => procedureOf(before, task, cell));
  const procedure = procedureOf(before, task, met);
  const after = name === 'VALC' || name === 'RETN' ? 'The value that it hands back takes the place' : `${name} is made again when it has returned`;
  return [{kind: 'call', text: `${procedure || 'a procedure'}, unasked: ${name} met its entry. ${after}`}, entered(now.at(-1))];
}

// Records are given up: the topmost ones, and a word may be handed back.
function left({was, now, after}) {
  const gone = was.slice(now.length), top = now.at(-1), grown = top.cells.length > (was[now.length - 1]?.cells.length ?? 0);
  return [{kind: 'left', text: `record ${gone[0].number}${gone.length > 1 ? ` and ${gone.length - 1} above` : ''}`},
    ...(grown ? [{kind: 'pushed', text: `${heldBy(top.cells.at(-1))}, which it hands back`}] : []), ...goesOn(after)];
}

function goesOn({next}) {
  return next?.card ? [{kind: 'goes', text: `on at card ${next.card}`}] : [];
}

// Of a couple also what it names now.
function namedBy(before, task, cell) {
  const found = cell.kind === 'NAME' && !cell.text.startsWith('0,') ? cellOfCouple(before, task, cell.text) : null;
  return found ? `, which names ${placeOf(`${found.task} ${found.record.number} ${found.cell.at}`)}${found.cell.name ? `, ${found.cell.name},` : ''} now` : '';
}

// Words taken from the record on top, and pushed there.
function onTop(it) {
  const {name, operands, task, before, was, now, after} = it;
  const from = Math.max(0, was.at(-1).cells.length - (TAKES[name] ?? 0)), taken = was.at(-1).cells.slice(from), pushed = now.at(-1).cells.slice(from);
  const parts = [...(taken.length ? [{kind: 'took', text: held(taken)}] : [])], fetched = fetchedBy(it, taken);
  if (name === 'VALC' && pushed.length) {
    const found = cellOfCouple(before, task, operands[0]), chain = found && found.cell.kind !== 'NUM' ? `, by ${heldBy(found.cell)}` : '';
    parts.push({kind: 'pushed', text: `${held(pushed)}, the value of cell ${operands[0]}${found?.cell.name ? ` ${found.cell.name}` : ''}${found ? ` in record ${found.record.number}` : ''}${chain}`, from: fetched});
  } else if (pushed.length) parts.push({kind: 'pushed', text: `${held(pushed)}${pushed.length === 1 ? namedBy(before, task, pushed[0]) : ''}`, from: fetched});
  return name.startsWith('BR') ? [...parts, ...goesOn(after)] : parts;
}

// What the operator between two states did; nothing is told of a task that has ended by it.
export function effectOf(before, after) {
  const {task} = before.next ?? {}, was = recordsOf(before, task), now = recordsOf(after, task);
  if (!was.length || !now.length) return [];
  const [name, ...operands] = operatorParts(before.next), first = was.at(-1).cells[0];
  const it = {name, operands, task, before, after, was, now, couple: /^0,(\d+)$/.exec(first?.kind === 'NAME' ? first.text : '')?.[1]};
  if (name === 'MKST') return [{kind: 'began', text: `record ${now.at(-1).number}; couples name cells of the record below still`}];
  if (name === 'ENTR' && was.at(-1).level < 0) return it.couple ? calledMcp(it) : called(it);
  if (now.length > was.length && FETCHES.test(name)) return accident(it);
  return now.length < was.length ? left(it) : onTop(it);
}
