// The proved program as a WebAssembly module: bytes in and bytes out. This file alone touches the module's memory.
import {SECTOR} from '../reader/words.js';

const MOST_WORDS = 5;
const BYTE = 255; // a status is a byte; what the module leaves above it means nothing
const SECTOR_BYTES = 8 * SECTOR;
const ALL_SECTORS = 65536; // as many as a file has
// Over how many sectors a command is carried out: the next number if the one before didn't suffice. Each call copies its sectors, 0.6 us a
// sector, so a run begins with few: their number changes no line of a run that ends or halts. An image names all of them.
const SECTORS_OF = {run: [1024, ALL_SECTORS], image: [ALL_SECTORS], resume: [ALL_SECTORS], exercise: [4096]};
const BACKING_FULL = 5;
const encoder = new TextEncoder();
const latin = new TextDecoder('latin1');

// Bytes of a text, one for each character, so that a card's number and columns stay as they are.
export function bytesOf(text) {
  return typeof text === 'string' ? Uint8Array.from(text, c => Math.min(c.charCodeAt(0), 255)) : text;
}

export function textOf(bytes) {
  return latin.decode(bytes);
}

// Room for so many bytes in the instance: their address.
function roomFor(instance, bytes) {
  const at = instance.room(BigInt(bytes));
  if (!at) throw new Error('The page has no memory left: close other pages, or take a smaller core.');
  return at;
}

// Puts bytes into the instance; gives their address and their number.
function lend(instance, bytes) {
  const at = roomFor(instance, bytes.length);
  new Uint8Array(instance.memory.buffer).set(bytes, Number(at));
  return [at, BigInt(bytes.length)];
}

// Sectors in the instance: so many of zeros, or the bytes that an earlier call has left. Their address and their number.
function lendSectors(instance, sectors) {
  if (typeof sectors !== 'number') return [lend(instance, sectors)[0], BigInt(sectors.length / SECTOR_BYTES)];
  return [roomFor(instance, sectors * SECTOR_BYTES), BigInt(sectors)];
}

// The number of 8 bytes at an address, the lowest byte first.
function numberAt({memory}, at) {
  return Number(new DataView(memory.buffer).getBigUint64(Number(at), true));
}

export class Program {
  // Each call has an instance of its own, so a call that is cut off leaves nothing behind.
  constructor(module) {
    this.module = module;
  }
  instance() {
    return new WebAssembly.Instance(this.module, {}).exports;
  }

  // Makes a call that prints: `calls` is given its last five arguments, of sectors, room for lines, and how many bytes were printed. Gives
  // status, what is printed, and the sectors.
  prints(instance, sectors, room, calls) {
    const [sectorsAt, count] = lendSectors(instance, sectors), linesAt = roomFor(instance, room), printedAt = roomFor(instance, 8);
    const status = calls(sectorsAt, count, linesAt, BigInt(room), printedAt) & BYTE, {buffer} = instance.memory;
    return {
      status,
      bytes: new Uint8Array(buffer, Number(linesAt), numberAt(instance, printedAt)),
      sectors: new Uint8Array(buffer, Number(sectorsAt), Number(count) * SECTOR_BYTES),
    };
  }

  // Carries out the command of `words` on a text. `sectors` are the backing's: a count, for so many of zeros, or the bytes
  // that an earlier call has left; as many as it takes if they aren't given. `room` is how many bytes may be printed. Gives status, what is
  // printed, and the sectors.
  call(words, text, {sectors, room = 1 << 20} = {}) {
    const [first, ...more] = sectors === undefined ? SECTORS_OF[words[0]] ?? [1] : [sectors];
    return more.reduce((called, many) => (called.status === BACKING_FULL ? this.over(words, text, many, room) : called), this.over(words, text, first, room));
  }
  over(words, text, sectors, room) {
    if (words.length > MOST_WORDS) throw new Error('The page passes five words at most: bind takes up to four pairs here.');
    const instance = this.instance(), given = Array.from({length: MOST_WORDS}, (_, k) => lend(instance, encoder.encode(words[k] ?? ''))).flat();
    const textAt = lend(instance, bytesOf(text));
    return this.prints(instance, sectors, room, (...lent) => instance.b67_web_serve(...given, BigInt(words.length), ...textAt, ...lent));
  }

  // Makes so many operators from an image, over the sectors that belong to it. Prints the lines of these operators, then, if a task lives,
  // the image there, as `image` does; status 0 if all tasks have ended, else that of `resume`. Who makes many small steps may hand an
  // instance on from one to the next, and takes what a step gives before the next one.
  step(image, steps, {sectors, room, instance = this.instance()}) {
    const imageAt = lend(instance, image);
    return this.prints(instance, sectors, room, (...lent) => instance.b67_web_step(...imageAt, BigInt(steps), ...lent));
  }

  // Looks through the run of a deck, from its start, for the least count of operators, from <= count < most, at which a kind holds of the
  // next operator. `numbers` say more of the kind: of a place four each, job, displacement of the segment, word and syllable; of a height
  // job, task, height and 0. Status 0 and the count; 1 if there is none; else that of a run.
  find(text, {core, kind, numbers = [], from, most, sectors}) {
    const instance = this.instance(), textAt = lend(instance, bytesOf(text)), foundAt = roomFor(instance, 8);
    const [numbersAt] = lend(instance, new Uint8Array(Uint32Array.from(numbers).buffer));
    const status = instance.b67_web_find(core, kind, numbersAt, BigInt(numbers.length), BigInt(from), BigInt(most), ...textAt, sectors, foundAt) & BYTE;
    return {status, count: status === 0 ? numberAt(instance, foundAt) : null};
  }
}

// A program over the module's bytes; where the browser has no WebAssembly, or forbids it, this fails.
export async function programOf(bytes) {
  const program = new Program(await WebAssembly.compile(bytes));
  program.instance(); // here, too, a policy may forbid it: WebKit compiles all the same
  return program;
}

// The words of Run in a core of so many words.
export function runWords(core) {
  return ['run', '--core', String(core), '--backing', 'b'];
}
