// From cell to cell of the picture by keys: the words that the mouse finds when it rests on a cell.
import {heldBy, placeOf} from '../words/reading.js';

export const GONE = 'No cell is there now.';

// The records and cells of all stacks, from the bottom of the first one to the top of the last one: `task record` or `task record cell`.
function places(state) {
  return (state.remains ?? state).tasks.flatMap(task => task.records.flatMap(record => [`${task.name} ${record.number}`,
    ...record.cells.map(cell => `${task.name} ${record.number} ${cell.at}`)]));
}

// The place above another one, or below it; from nowhere, or from a place that is gone, to the top word of the task that runs.
export function nextCell(state, place, way) {
  const all = places(state), at = all.indexOf(place), {tasks} = state.remains ?? state, runs = tasks.find(task => task.runs) ?? tasks[0];
  if (at >= 0) return all[Math.max(0, Math.min(all.length - 1, at + way))];
  return all.findLast(it => it.startsWith(`${runs?.name} `)) ?? '';
}

function linkSaid(link) {
  const [task, number] = link.split(' ');
  return task === 'DICT' ? 'the dictionary' : `record ${number} of task ${task}`;
}

// A place in words: what a record is, or what a cell holds. Empty for a place that is gone.
export function cellWords(state, place) {
  const [name, number, at] = place.split(' '), task = (state.remains ?? state).tasks.find(it => it.name === name), record = task?.records[number - 1];
  if (!record) return place ? GONE : '';
  const many = record.cells.length, where = `record ${number} of task ${name}`;
  if (at === undefined && record.level < 0) return `Record ${number} of task ${name}, open: ${many} ${many === 1 ? 'cell' : 'cells'}.`;
  if (at === undefined) return `Record ${number} of task ${name}, level ${record.level}: its static link leads to ${linkSaid(record.link)}, ${many} ${many === 1 ? 'cell' : 'cells'}.`;
  const cell = record.cells.find(it => it.at === Number(at));
  if (!cell) return GONE;
  const couple = record.level < 0 ? `Cell ${at}` : `Cell ${record.level},${at}${cell.name ? ` ${cell.name}` : ''}`, isTop = task.records.at(-1) === record && record.cells.at(-1) === cell;
  const array = cell.to && /^(ROW|ELEMENT)$/.test(cell.kind) ? ` of ${placeOf(cell.to)}` : '';
  return `${couple}, in ${where}: tag ${cell.tag}, ${heldBy(cell)}${array}.${isTop ? ' It is the top of the stack.' : ''}`;
}
