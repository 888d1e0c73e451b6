// What the page shows of a machine: its tasks with their records and cells, from an image.
import {bits, coupleText, numberText} from '../reader/words.js';
import {cellText} from '../reader/dump.js';
import {memoryOf} from './memory.js';

// A cell: its displacement, its tag, its kind in a dump, its text, the cell that it leads to, and whether an array's words
// are out of core.
function cellOf(image, record, address, {level, names}) {
  const tag = image.tag(address), word = image.content(address), [kind, ...rest] = cellText(image, address).split(' ');
  const cell = {at: address - record.first + 2, tag, kind, text: '', to: '', absent: tag === 5 && !bits(word, 47, 47), address};
  switch (kind) {
    case 'NUM': cell.text = numberText(word); break;
    case 'NAME': cell.text = coupleText(word, level); break;
    case 'REF': Object.assign(cell, {text: `→ ${rest[0]} record ${rest[1]}, cell ${rest[2]}`, to: rest.join(' ')}); break;
    case 'ARRAY': cell.text = `array of ${rest[0]}`; break;
    case 'ROW': Object.assign(cell, {text: 'copy of an array', to: rest.slice(0, 3).join(' ')}); break;
    case 'ELEMENT': Object.assign(cell, {text: `copy: element ${rest[3]}`, to: rest.slice(0, 3).join(' ')}); break;
    default: cell.text = `entry of ${names[rest[0] - 1] ?? `segment ${rest[0]}`}${rest[1] === '0:0' ? '' : ` at ${rest[1]}`}`;
  }
  return cell;
}

// Where a record returns to, as `segment@place`; empty in a bottom record.
function returnOf(image, record, number) {
  if (!record.entered || number === 1) return '';
  const word = image.content(record.mark + 1);
  return `${bits(word, 13, 0) - 1}@${bits(word, 32, 20)}:${bits(word, 35, 33)}`;
}

function recordOf(image, record, number, running) {
  const cells = [];
  for (let at = record.first; at <= record.last; at++) cells.push(cellOf(image, record, at, running));
  const display = [];
  for (let n = 2; n <= image.level; n++) if (image.display[n] === record.mark) display.push(n);
  return {number, mark: record.mark, level: record.entered ? record.level : -1, back: returnOf(image, record, number),
    link: record.entered ? image.recordAt(...record.link) : '', cells, display};
}

function waitOf(image, task) {
  if (task.condition === 0) return ['ready', ''];
  if (task.condition === 1) return [`awaits the end of task ${task.job}.${task.wanted}`, ''];
  const record = image.recordOfMark(task.wanted);
  return [`waits at cell ${task.offset} of record ${record.split(' ')[1]} of task ${record.split(' ')[0]}`, `${record} ${task.offset}`];
}

function taskOf(image, task, names) {
  const running = {level: 2, names: names[task.job - 1] ?? []};
  const records = task.records.map((record, k) => {
    if (record.entered) running.level = record.level;
    return recordOf(image, record, k + 1, running);
  });
  const [condition, waits] = waitOf(image, task), [top, mark] = image.topOf(task), base = image.baseOf(task.slot);
  return {name: task.name, condition, waits, next: image.placeOf(task).join('@'), records, runs: image.runs(task),
    parent: image.bySlot.get(task.parent)?.name ?? '', top, mark, words: top - base + 1};
}

// The whole of what is shown, from an image, the sectors that belong to it, and the names of each job's segments.
export function stateOf(image, sectors, names) {
  const tasks = image.tasks.map(task => taskOf(image, task, names));
  const numbers = image.jobs.map((job, k) => ({job: k + 1, numbers: job.numbers, next: job.nextNumber})).filter(job => job.numbers.length);
  return {coreWords: image.coreWords, tasks, numbers, ...memoryOf(image, sectors, copiesOf(tasks), names)};
}

// The copies of each array, by the cell of its original.
function copiesOf(tasks) {
  const copies = new Map();
  for (const task of tasks) for (const record of task.records) for (const cell of record.cells) {
    if (cell.kind !== 'ROW' && cell.kind !== 'ELEMENT') continue;
    if (!copies.has(cell.to)) copies.set(cell.to, []);
    copies.get(cell.to).push({cell: `${task.name} ${record.number} ${cell.at}`, level: record.level, absent: cell.absent, kind: cell.kind});
  }
  return copies;
}
