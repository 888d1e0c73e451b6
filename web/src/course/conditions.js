// What a task of finding wants of a state, in a teacher's words: `cell 2,2 = 7`, `leaves core`. Each form is a pattern and what it asks.
import {operatorParts} from '../words/reading.js';

const FORMS = [
  [/^operator ([A-Z][A-Z0-9]+)$/, ([, name]) => state => Boolean(state.operator) && operatorParts(state.operator)[0] === name],
  [/^card (\d+)$/, ([, card]) => state => state.operator?.card === Number(card)],
  [/^task (\d+\.\d+)$/, ([, name]) => state => state.operator?.task === name],
  [/^cell (\d+),(\d+) = (\S.*)$/, ([, level, at, text]) => state => state.tasks.some(task => task.records.some(record => record.level === Number(level)
    && record.cells.some(cell => cell.at === Number(at) && cell.text === text)))],
  [/^store (\d+),(\d+)$/, ([, level, at]) => state => state.changes.some(it => it.into && it.text.startsWith(`cell ${level},${at}`))],
  [/^records (\d+)$/, ([, many]) => state => state.tasks.some(task => task.records.length >= Number(many))],
  [/^waiting (\d+)$/, ([, many]) => state => state.tasks.filter(task => task.condition !== 'ready').length >= Number(many)],
  [/^leaves core$/, () => state => state.changes.some(it => it.kind === 'out')],
  [/^comes into core$/, () => state => state.changes.some(it => it.kind === 'in')],
  [/^prints (\S.*)$/, ([, line]) => state => state.fresh.includes(line)],
  [/^fault ([A-Z][A-Z ]+)$/, ([, name]) => state => (state.fresh ?? []).some(line => line.endsWith(` ${name}`))],
];

// The forms, as they are told to whoever writes a task.
export const CONDITIONS = ['operator RETN', 'card 25', 'task 1.2', 'cell 2,2 = 7', 'store 2,2', 'records 6', 'waiting 4', 'leaves core', 'comes into core', 'prints 1.1 23',
  'fault LOOP'];

// What asks a state whether a condition holds; null for a text that is none.
export function conditionOf(text) {
  for (const [form, made] of FORMS) {
    const found = form.exec(text);
    if (found) return made(found);
  }
  return null;
}

// The same for several, all of which must hold after one operator.
export function allOf(texts) {
  const asked = texts.map(conditionOf);
  return state => state.count > 0 && asked.every(holds => holds(state));
}
