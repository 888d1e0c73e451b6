// Reading a state: the top record of a task, the record and the cell that a couple names, and what a cell holds in words.
import {countOf} from '../reader/words.js';
import {INTRINSICS} from '../reader/operators.js';

export function recordsOf(state, task) {
  return state.tasks.find(it => it.name === task)?.records ?? [];
}

// The name and the operands of an operator, without a label.
export function operatorParts(operator) {
  return operator.text.replace(/^[A-Z][A-Z0-9]*: */, '').split(' ');
}

// The record that a level names for a task: along the static links from its topmost record that is entered, or from another one.
export function recordOfLevel(state, task, level, from = recordsOf(state, task).findLast(it => it.level >= 0)) {
  let [at, record] = [task, from];
  while (record && record.level > level) {
    const [name, number] = record.link.split(' ');
    [at, record] = [name, recordsOf(state, name)[number - 1]];
  }
  return record?.level === level ? {task: at, record} : null;
}

// The cell that a couple `level,displacement` names for a task, with its record; null if it names none.
export function cellOfCouple(state, task, couple) {
  const [level, at] = couple.split(',').map(Number), found = recordOfLevel(state, task, level);
  const cell = found?.record.cells.find(it => it.at === at);
  return cell ? {...found, cell} : null;
}

// What the running procedure works out, if a VALC has entered it: the name of the cell that this fetches, and its card. `operators` has
// those of each job, by their places, in the order of the segments.
export function worksOut(state, task, operators) {
  const entered = recordsOf(state, task).filter(it => it.level >= 0), [caller, {back} = {}] = entered.slice(-2);
  if (!back) return null;
  const table = operators[task.split('.')[0] - 1] ?? {}, places = Object.keys(table), [card, text = ''] = table[places[places.indexOf(back) - 1]] ?? [];
  const [name, couple = ''] = operatorParts({text}), [level, at] = couple.split(',').map(Number);
  const cell = name === 'VALC' && recordOfLevel(state, task, level, caller)?.record.cells.find(it => it.at === at);
  return cell?.name ? {name: cell.name, card} : null;
}

// The cell that is named `task record cell`.
export function cellNamed(state, name) {
  const [task, number, at] = name.split(' '), record = recordsOf(state, task)[number - 1];
  return record?.cells.find(it => it.at === Number(at)) ?? null;
}

// Where references lead from a cell: the last cell of the chain.
export function endOfChain(state, task, cell) {
  for (let [at, links] = [cell, 0]; ; links++) {
    const next = at.kind === 'NAME' ? cellOfCouple(state, task, at.text)?.cell : at.kind === 'REF' ? cellNamed(state, at.to) : null;
    if (!next || links > 1024) return at;
    at = next;
  }
}

// What a cell holds, in words.
export function heldBy(cell) {
  switch (cell.kind) {
    case 'NUM': return cell.text.startsWith('#') ? `the bits ${cell.text}` : cell.text;
    case 'NAME': {
      const intrinsic = /^0,(\d+)$/.exec(cell.text);
      return intrinsic ? `the couple ${cell.text} of ${INTRINSICS[intrinsic[1]] ?? 'no intrinsic'}` : `the couple ${cell.text}`;
    }
    case 'REF': return `a reference to ${placeOf(cell.to)}${cell.toName ? `, ${cell.toName}` : ''}`;
    case 'ARRAY': return `an ${cell.text}`;
    case 'ROW': return 'a copy of an array';
    case 'ELEMENT': return `a copy that names ${cell.text.replace(/^copy: /, '')}`;
    default: return `the ${cell.text}`;
  }
}

// A cell by its name, in words.
export function placeOf(name) {
  const [task, record, at] = name.split(' ');
  return task === 'DICT' ? `data row 1,${at}` : `cell ${at} of record ${record}${task === '1.1' ? '' : ` of task ${task}`}`;
}

// Texts as a list: a, b and c.
export function listed(texts) {
  return texts.length < 2 ? texts[0] ?? '' : `${texts.slice(0, -1).join(', ')} and ${texts.at(-1)}`;
}

export function wordsText(cells) {
  return cells.length ? `${countOf(cells.length, 'word')}: ${listed(cells.map(heldBy))}` : 'no word';
}
