// An image as the command `dump` prints it, by the page's own reader.
import {bits, hexadecimal} from './words.js';

// What a cell is, in the words of a line CELL.
export function cellText(image, address) {
  const word = image.content(address);
  switch (image.tag(address)) {
    case 0: return `NUM ${hexadecimal(word, 12)}`;
    case 1: return bits(word, 46, 46) ? `REF ${image.recordAt(bits(word, 45, 36), bits(word, 35, 20))} ${bits(word, 12, 0)}` : `NAME ${hexadecimal(word, 4)}`;
    case 5: return arrayText(image, word);
    case 7: return `PROC ${bits(word, 13, 0) - 1} ${bits(word, 32, 20)}:${bits(word, 35, 33)} ${bits(word, 18, 14)}`;
    default: throw new Error(`a cell with tag ${image.tag(address)}`);
  }
}

function arrayText(image, word) {
  if (!bits(word, 46, 46)) return `ARRAY ${bits(word, 39, 20)}`;
  const cell = image.cellAt(image.originalOf(word));
  return bits(word, 45, 45) ? `ELEMENT ${cell} ${bits(word, 39, 20)}` : `ROW ${cell}`;
}

function taskLine(image, task) {
  const [segment, place] = image.placeOf(task);
  const waits = [() => 'READY', () => `AWAITS ${task.wanted}`, () => `WAITS ${image.recordOfMark(task.wanted)} ${task.offset}`];
  return `TASK ${task.name} ${waits[task.condition]()} ${segment} ${place}`;
}

export function dumpText(image) {
  const lines = [];
  for (const task of [...image.tasks].sort((a, b) => a.job - b.job || a.number - b.number)) {
    lines.push(taskLine(image, task));
    task.records.forEach((record, k) => {
      lines.push(record.entered ? `FRAME ${k + 1} LEVEL ${record.level} ENV ${image.recordAt(...record.link)}` : `FRAME ${k + 1} MARKED`);
      for (let at = record.first; at <= record.last; at++) lines.push(`CELL ${at - record.first + 2} ${cellText(image, at)}`);
    });
  }
  return lines.map(line => `${line}\n`).join('');
}
