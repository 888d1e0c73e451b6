// What is followed: a cell, named by its task, its record and its place, or an array, named by its cell and its kind.
import {cellName} from '../state/changes.js';

// Whether the name is a cell's: an array's ends with its kind.
function isCell(followed) {
  return /^\d+\.\d+ \d+ \d+$/.test(followed);
}

function cellFollowed(state, followed) {
  const [task, record, at] = followed.split(' ');
  const found = state.tasks.find(it => it.name === task)?.records[record - 1];
  const cell = found?.cells.find(it => it.at === Number(at));
  return cell && {...cell, level: found.level};
}

// Of a cell what its name is made of.
function onlyPlace(cell) {
  return cell && {level: cell.level, name: cell.name};
}

function thingFollowed(state, followed) {
  return state.things.find(thing => thing.cell + thing.kind === followed);
}

// What is followed, in words.
export function nameOfFollowed(state, followed) {
  if (!isCell(followed)) return thingFollowed(state, followed)?.text ?? 'the array';
  return cellName({cell: followed, level: -2, ...onlyPlace(cellFollowed(state, followed))});
}

// What is followed, and what it holds now.
export function followedText(state, followed) {
  const name = nameOfFollowed(state, followed);
  if (!isCell(followed)) return thingFollowed(state, followed) ? name : `${name} isn’t there now`;
  const cell = cellFollowed(state, followed);
  return cell ? `${name}: ${cell.text}` : `${name} isn’t there now`;
}

// Of a cell that is followed and leads to an array, how the array is followed; empty for any other.
export function arrayBehind(state, followed) {
  if (!isCell(followed)) return '';
  const led = [followed, cellFollowed(state, followed)?.to], thing = state.things.find(it => it.kind !== 'code' && led.includes(it.cell));
  return thing ? `The cell leads to ${thing.text}: a click on its name, under Core and backing, follows that.` : '';
}

// All that can be followed, in the order in which the key chooses: the cells of each task from the bottom up, then the arrays.
function choices(state) {
  const cells = state.tasks.flatMap(task => task.records.filter(record => record.level >= 0)
    .flatMap(record => record.cells.map(cell => `${task.name} ${record.number} ${cell.at}`)));
  return [...cells, ...state.things.filter(thing => thing.kind !== 'code').map(thing => thing.cell + thing.kind)];
}

// The choice after the one that is followed, or before it; none after the last one.
export function nextChoice(state, followed, way) {
  const all = ['', ...choices(state)], at = Math.max(0, all.indexOf(followed));
  return all.at((at + way) % all.length);
}
