// The image before the first operator. `image` halts after one operator at the earliest, so this one is made of the image
// after the first: that operator's work is taken away. What stands here is section 13 of docs/MACHINE.md and the opening of
// a run. The proved `dump` must admit it as it admits any image, and a test resumes each deck from it.
import {bits, hexadecimal, POWERS} from '../reader/words.js';
import {bytesOf} from './program.js';

const [CONTROL, WORD_OF_HOLES, STACK_VECTOR, FIRST_TASK, NONE] = [3 * POWERS[48], 152, 32, 1023, 255];

// Numbers of so many bytes, as the cards of an image.
class Writer {
  constructor(room) {
    this.bytes = new Uint8Array(room);
    this.view = new DataView(this.bytes.buffer);
    this.bytes.set(bytesOf('B67IMAGE'));
    this.length = 8;
  }
  put(number, width) {
    if (width === 8) {
      this.put(Math.floor(number / POWERS[32]) >>> 0, 4);
      width = 4;
    }
    for (let k = 1; k <= width; k++) this.bytes[this.length++] = Math.floor(number / POWERS[8 * (width - k)]) % 256;
  }
  many(numbers, width) {
    for (const number of numbers) this.put(number, width);
  }
  list(numbers, width) {
    this.put(numbers.length, 4);
    this.many(numbers, width);
  }
  words(numbers) {
    this.put(numbers.length, 4);
    for (const number of numbers) {
      this.view.setUint32(this.length, number / POWERS[32]);
      this.view.setUint32(this.length + 4, number % POWERS[32]);
      this.length += 8;
    }
  }

  // The cards, 32 bytes on each.
  get text() {
    const pairs = Array.from({length: 256}, (_, byte) => bytesOf(hexadecimal(byte, 2)));
    const cards = new Uint8Array(2 * this.length + Math.ceil(this.length / 32) + 13);
    cards.set(bytesOf('?IMAGE\n'));
    let to = 7;
    for (let at = 0; at < this.length; at++) {
      const pair = pairs[this.bytes[at]];
      cards[to++] = pair[0];
      cards[to++] = pair[1];

      if (at % 32 === 31 || at === this.length - 1) cards[to++] = 10;
    }
    cards.set(bytesOf('?END\n'), to);
    return cards.subarray(0, to + 5);
  }
}

// The descriptor of a segment or of a data row when it is absent: its first sector stands in its area's tail.
function absent(image, word) {
  if (!bits(word, 47, 47)) return word;
  const at = bits(word, 19, 0);
  return word - POWERS[47] - at + bits(image.content(at + bits(word, 39, 20)), 19, 0);
}

function layDictionaries(image, core) {
  for (const job of image.jobs) {
    for (let n = 0; n < job.segments + job.rows; n++) core[job.dictionary + 2 + n] = absent(image, core[job.dictionary + 2 + n]);
  }
}

// The stack of a job's first task: its base word, the mark of the outer block, a return to nowhere, and its vector word.
function layStack(image, core, slot) {
  const base = image.baseOf(slot);
  core.fill(0, base, base + image.stackWords);
  core[base] = CONTROL + 2 * POWERS[20] + 2 * POWERS[14] + 1;
  core[base + 1] = CONTROL + 3 * POWERS[46] + (128 + slot) * POWERS[36] + 2 * POWERS[14];
  core[base + 2] = CONTROL;
  core[STACK_VECTOR + slot] = CONTROL + POWERS[46] + FIRST_TASK * POWERS[36] + (slot + 1) * POWERS[16];
}

function openedCore(image) {
  const core = image.core.slice(), words = image.coreWords - image.low;
  layDictionaries(image, core);
  image.jobs.forEach((_, slot) => layStack(image, core, slot));
  core.fill(0, image.low);
  if (words) core[image.low] = CONTROL + 3 * POWERS[46] + words * POWERS[20];
  core[WORD_OF_HOLES] = CONTROL + (words ? image.low : 0);
  return core;
}

function putRegisters(writer, image) {
  writer.many([0, 0, 0, 0], 4);
  writer.many([NONE, 0], 1);
  writer.many([0, 0], 2);
  writer.put(0, 1);
  writer.put(0, 4);
  writer.put(0, 2);
  writer.put(image.stacks, 4);
  writer.put(image.stackWords, 2);
  writer.put(image.jobs.length, 1);
  writer.many(Array(32).fill(0), 4);
  writer.many(Array(120).fill(0), 2);
}

function putJob(writer, job) {
  writer.put(job.name.length, 1);
  writer.many([...bytesOf(job.name)], 1);
  writer.put(job.dictionary, 4);
  writer.many([job.segments, job.rows], 2);
  writer.many([job.limit, 0], 8);
  writer.put(2, 4);
  writer.put(job.numbers.length, 4);
  for (const number of job.numbers) writer.many([Math.floor(number / POWERS[32]) >>> 0, (number % POWERS[32] + POWERS[32]) % POWERS[32]], 4);
  writer.put(0, 4);
}

function putFirstTask(writer, slot) {
  writer.put(slot + 1, 1);
  writer.put(1, 4);
  writer.many([slot, NONE], 1);
  writer.many([0], 2);
  writer.put(0, 1);
  writer.put(0, 4);
  writer.many([0, 2, 0], 2);
  writer.put(0, 1);
}

// The text of the image before the first operator, from the image after it.
export function openedText(image) {
  const numbers = image.jobs.reduce((sum, job) => sum + job.numbers.length, 0);
  const writer = new Writer(4096 + 8 * image.coreWords + 4 * image.links.length + 8 * numbers + 13 * image.switches.length);
  writer.words(openedCore(image));
  putRegisters(writer, image);
  writer.many([image.coreWords, image.low], 4);
  writer.list(image.links, 4);
  writer.put(image.quantum, 4);
  writer.put(0, 8);
  writer.put(0, 4);
  writer.put(0, 1);
  writer.put(0, 4);
  writer.put(NONE, 1);
  writer.put(0, 4);
  writer.put(image.switches.length, 4);
  for (const [count, job, task] of image.switches) [[count, 8], [job, 1], [task, 4]].forEach(item => writer.put(...item));
  writer.put(image.jobs.length, 4);
  for (const job of image.jobs) putJob(writer, job);
  writer.put(image.jobs.length, 4);
  image.jobs.forEach((_, slot) => putFirstTask(writer, slot));
  return writer.text;
}
