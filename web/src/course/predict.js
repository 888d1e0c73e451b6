// Predict: a question about the next operator, made from the machine's own next state, which marks the answer. There is no key to it.
import {MEANINGS, TAKES} from '../reader/operators.js';
import {heldBy, listed, operatorParts, recordsOf} from '../words/reading.js';

const COMPUTES = /^(ADD|SUBT|MULT|IDIV|RDIV|LESS|GREQ|GRTR|LSEQ|EQUL|NEQL|CHSN|LAND|LOR|ISOL|INSR|NXLV)$/;
const [MOST_CHOICES, RECORD] = [6, / record /];

// Why this task is next: by a card of the deck, or since the one before can't go on or has had its turn.
function whyNext({count, last, tasks}, next, deck) {
  const card = [...deck.matchAll(/^\?SWITCH +(\d+) +(\S+)/gm)].find(it => Number(it[1]) === count && it[2] === next);
  if (card) return `the card ${card[0]} hands over to it when ${count} operators are made`;
  const was = tasks.find(it => it.name === last);
  return `task ${last} ${!was ? 'has ended' : was.condition === 'ready' ? 'has had its turn' : was.condition}, and ${next} is the next one that is ready`;
}

// Which task makes the next operator, where several are ready and another one than before does it.
function aboutTask(now, then, deck) {
  const ready = now.tasks.filter(it => it.condition === 'ready').map(it => it.name);
  if (ready.length < 2 || !now.last || then.last === now.last) return null;
  return {ask: `Task ${now.last} made the last operator, and ${ready.length} tasks are ready. Which one makes the next?`, choices: ready, right: [then.last], why: whyNext(now, then.last, deck), hides: true};
}

// What leaves core, where an array or a segment is wanted that has no room.
function aboutPaging(now, then) {
  const out = then.changes.filter(it => it.kind === 'out').map(it => it.text), choices = now.things.filter(it => it.at).map(it => it.text);
  const right = choices.filter(it => out.some(text => text.startsWith(`${it},`)));
  return right.length && choices.length > 1 ? {ask: 'This operator wants words for which core has no room. What leaves core?', choices: choices.slice(0, MOST_CHOICES), right,
    why: 'its words and the hole beside them are enough; which of several leaves is the machine’s choice, and no line depends on it'} : null;
}

// Where the static link of a procedure's record leads.
function aboutLink(now, then) {
  const {task} = now.next, was = recordsOf(now, task), is = recordsOf(then, task), top = is.at(-1);
  const entered = top && top.level >= 0 && (is.length > was.length || is.length === was.length && was.at(-1)?.level < 0);
  if (!entered || !top.link.includes(' ') || top.link.startsWith('DICT')) return null;
  const name = link => link.replace(' ', ' record '), all = then.tasks.flatMap(it => it.records.filter(record => record.level >= 0 && record !== top).map(record => `${it.name} record ${record.number}`));
  if (all.length < 2) return null;
  const right = name(top.link), near = all.filter(it => it !== right).slice(-MOST_CHOICES + 2);
  return {ask: `This operator enters a procedure of level ${top.level}. To which record does the static link of its record lead?`, choices: all.filter(it => it === right || it === all[0] || near.includes(it)), right: [right],
    why: 'the procedure was declared in that record; who calls it doesn’t matter, and is the dynamic link'};
}

function aboutLine(now, then) {
  const line = then.fresh.find(it => /^\d+\.\d+ -?\d+$/.test(it));
  return line ? {ask: 'A number is printed. Which one?', right: [line.split(' ')[1]], why: 'it was the argument on top of the stack'} : null;
}

function aboutFault(now, then) {
  const wrong = then.wrongs?.[0];
  return wrong && wrong.name !== 'LIMIT' ? {ask: 'This operator ends its task. By which fault?', right: [wrong.name], why: wrong.said.replace(/\.$/, ''),
    choices: [...new Set([wrong.name, 'INVALID OPERAND', 'STACK UNDERFLOW', 'INVALID INDEX', 'INTEGER OVERFLOW', 'DEADLOCK', 'CRITICAL BLOCK'])].slice(0, MOST_CHOICES).sort()} : null;
}

function aboutTop(now, then) {
  const cell = recordsOf(then, now.next.task).at(-1)?.cells.at(-1);
  if (!COMPUTES.test(operatorParts(now.next)[0]) || cell?.kind !== 'NUM' || cell.text.startsWith('#')) return null;
  const [name] = operatorParts(now.next), taken = recordsOf(now, now.next.task).at(-1).cells.slice(-(TAKES[name] ?? 0));
  return {ask: 'Which number is on top of the stack after it?', right: [cell.text], why: taken.length ? `${name} ${MEANINGS[name]}: it takes ${listed(taken.map(heldBy))}` : ''};
}

// The question that the next operator of a deck deserves; null for none.
export function questionOf(now, then, deck = '') {
  if (!now.next || !then || then.count !== now.count + 1) return null;
  for (const about of [aboutFault, aboutTask, aboutPaging, aboutLink, aboutLine, aboutTop]) {
    const found = about(now, then, deck);
    if (found) return found;
  }
  return null;
}

export function isRight(question, answer) {
  return question.right.includes(answer.trim().replace(/^\+/, '').replace(RECORD, ' record '));
}
