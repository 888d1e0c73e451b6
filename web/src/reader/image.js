// The reader of images: what `image` prints, as registers, tables and words. It is the only reader, and `dump.js` prints
// again what it has read, to be compared with what the proved `dump` prints of the same image.
import {bits, POWERS} from './words.js';
import {bytesOf, textOf} from '../machine/program.js';

const DIGITS = new Uint8Array(256).fill(255);
[...'0123456789abcdef'].forEach((c, k) => { DIGITS[c.charCodeAt(0)] = k; });
const FIRST_CARD = [...'?IMAGE\n'].map(c => c.charCodeAt(0));

// Where the image begins in what `image` has printed: the lines before it end there. -1 if there is none.
export function startOfImage(bytes) {
  for (let at = 0; at >= 0 && at < bytes.length; at = bytes.indexOf(10, at) + 1 || -1) {
    if (FIRST_CARD.every((byte, k) => bytes[at + k] === byte)) return at;
  }
  return -1;
}

// The bytes of the hexadecimal cards from a place up to the card ?END.
function bytesOfCards(text, from) {
  const end = text.indexOf(63, from);
  const found = new Uint8Array((end - from) >> 1);
  let length = 0;
  for (let at = from; at < end; at++) {
    const high = DIGITS[text[at]];
    if (high === 255) continue;
    found[length++] = high * 16 + DIGITS[text[++at]];
  }
  return found.subarray(0, length);
}

// Numbers of so many bytes, the highest first, one after the other.
export class Items {
  constructor(bytes, at = 0) {
    this.bytes = bytes;
    this.at = at;
  }
  take(width) {
    if (this.at + width > this.bytes.length) throw new Error('the image ends within an item');
    let value = 0;
    for (let k = 0; k < width; k++) value = value * 256 + this.bytes[this.at + k];
    this.at += width;
    return value;
  }
  many(count, width) {
    return Array.from({length: count}, () => this.take(width));
  }
  list(width) {
    return this.many(this.take(4), width);
  }
  words(count) {
    const words = new Float64Array(count);
    const view = new DataView(this.bytes.buffer, this.bytes.byteOffset);
    for (let k = 0; k < count; k++) words[k] = view.getUint32(this.at + 8 * k) * 0x100000000 + view.getUint32(this.at + 8 * k + 4);
    this.at += 8 * count;
    return words;
  }
}

function readJob(items) {
  const name = String.fromCharCode(...items.many(items.take(1), 1));
  const [dictionary, segments, rows, limit, made, nextTask] = [4, 2, 2, 8, 8, 4].map(width => items.take(width));
  const numbers = Array.from({length: items.take(4)}, () => signed(items));
  return {name, dictionary, segments, rows, limit, made, nextTask, numbers, nextNumber: items.take(4)};
}

// A number of 8 bytes in two's complement; READ's numbers are small enough to be exact.
function signed(items) {
  const high = items.take(4) | 0;
  return high * 0x100000000 + items.take(4);
}

function readTask(items) {
  const [job, number, slot, parent, critical] = [1, 4, 1, 1, 2].map(width => items.take(width));
  const [condition, wanted, offset] = [1, 4, 2].map(width => items.take(width));
  const [segment, word, syllable] = [2, 2, 1].map(width => items.take(width));
  return {job, number, slot, parent, critical, condition, wanted, offset, segment, word, syllable, name: `${job}.${number}`};
}

function readRegisters(image, items) {
  [image.s, image.f, image.bosr, image.losr] = items.many(4, 4);
  [image.slot, image.level] = items.many(2, 1);
  [image.segment, image.word, image.syllable] = [2, 2, 1].map(width => items.take(width));
  [image.dictionary, image.entries] = [items.take(4), items.take(2)];
  [image.stacks, image.stackWords, image.peak] = [4, 2, 1].map(width => items.take(width));
  image.display = items.many(32, 4);
  image.criticals = items.many(120, 2);
}

function readTables(image, items) {
  [image.coreWords, image.low] = items.many(2, 4);
  image.links = items.list(4);
  [image.quantum, image.made, image.turn] = [4, 8, 4].map(width => items.take(width));
  [image.lastJob, image.lastTask, image.running, image.passed] = [1, 4, 1, 4].map(width => items.take(width));
  image.switches = Array.from({length: items.take(4)}, () => [8, 1, 4].map(width => items.take(width)));
  image.jobs = Array.from({length: items.take(4)}, () => readJob(items));
  image.tasks = Array.from({length: items.take(4)}, () => readTask(items));
}

export class Image {
  // The image in what `image` has printed, as text or bytes.
  constructor(printed) {
    const text = bytesOf(printed);
    const start = startOfImage(text);
    const bytes = start < 0 ? new Uint8Array(0) : bytesOfCards(text, start + FIRST_CARD.length);
    if (textOf(bytes.subarray(0, 8)) !== 'B67IMAGE') throw new Error('no image');
    const items = new Items(bytes, 8);
    this.core = items.words(items.take(4));
    readRegisters(this, items);
    readTables(this, items);
    if (items.at !== bytes.length) throw new Error('the image goes on after its last item');
    this.arrange();
  }

  // What is looked up often: tasks by slot, and the records of each stack.
  arrange() {
    this.bySlot = new Map(this.tasks.map(task => [task.slot, task]));
    for (const task of this.tasks) task.records = this.recordsOf(task);
  }

  tag(address) {
    return Math.floor(this.core[address] / POWERS[48]);
  }
  content(address) {
    return this.core[address] % POWERS[48];
  }

  // The sectors of a chain, from its first one.
  chain(first) {
    const found = [];
    for (let at = first; at && found.length < this.links.length; at = this.links[at - 1] === at ? 0 : this.links[at - 1]) found.push(at);
    return found;
  }

  runs(task) {
    return this.tasks[this.running] === task;
  }

  // The addresses of a task's top word and of its topmost mark.
  topOf(task) {
    if (this.runs(task)) return [this.s, this.f];
    const base = this.baseOf(task.slot), word = this.content(base);
    return [base + bits(word, 35, 20), base + bits(word, 13, 0)];
  }
  baseOf(slot) {
    return this.stacks + slot * this.stackWords;
  }

  // The records of a task from the bottom up, by its marks.
  recordsOf(task) {
    let [last, mark] = this.topOf(task);
    const records = [];
    for (;;) {
      const word = this.content(mark), entered = bits(word, 46, 46) === 1, back = bits(word, 13, 0);
      records.push({mark, last, entered, first: mark + (entered ? 2 : 1), level: bits(word, 18, 14),
        link: [bits(word, 45, 36), bits(word, 35, 20)]});
      if (back === 0) return records.reverse();
      [last, mark] = [mark - 1, mark - back];
    }
  }

  // Segment, word and syllable of a task's next operator.
  placeOf(task) {
    const at = this.runs(task) ? this : task;
    return [at.segment - 1, `${at.word}:${at.syllable}`];
  }

  // The name of the record at a place of a stack.
  recordAt(stack, displacement) {
    if (stack === 136) return 'MCP';
    if (stack >= 128) return `DICT ${stack - 127}`;
    return this.recordOfMark(this.baseOf(stack) + displacement);
  }
  recordOfMark(mark) {
    const task = this.bySlot.get(Math.floor((mark - this.stacks) / this.stackWords));
    const at = task.records.findIndex(record => record.mark === mark);
    if (at < 0) throw new Error('no such record');
    return `${task.name} ${at + 1}`;
  }

  // The cell of an original, or of an entry of a dictionary, by its address: its record and its displacement.
  cellAt(address) {
    if (address < this.stacks) {
      const number = this.jobs.filter(job => job.dictionary <= address).length;
      return `DICT ${number} ${address - this.jobs[number - 1].dictionary}`;
    }
    const task = this.bySlot.get(Math.floor((address - this.stacks) / this.stackWords));
    const at = task.records.findIndex(record => record.first <= address && address <= record.last);
    return `${task.name} ${at + 1} ${address - task.records[at].first + 2}`;
  }

  // Where the original lies to which a copy leads: a present copy names the area, whose head names the original.
  originalOf(copy) {
    const address = bits(copy, 19, 0);
    return bits(copy, 47, 47) ? bits(this.content(address - 1), 19, 0) : address;
  }
}
