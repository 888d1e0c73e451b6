// The heap of the page's module, tried by itself: node heap.mjs HEAP.wasm LARGE.wasm
//
// HEAP.wasm is heap.c alone with all its functions exported, in a memory of 64 MiB at most, linked and lowered to a memory of 32 bits
// by tools/check-web.sh. A long row of calls by chance is compared with a list of the blocks that live: where they lie, how they are
// aligned, what they hold, and what is left after a refusal. Then products of 128 bits are compared with those of JavaScript.
// LARGE.wasm is the same without that limit: what no memory of 32 bits has is refused there, too.
import fs from 'node:fs';

const MOST = 64 << 20, CALLS = 20_000;
const [module, large] = process.argv.slice(2).map(file => new WebAssembly.Module(fs.readFileSync(file)));
let seed = 12345;

// A number below n, by a rule, so that each run makes the same calls.
function chance(n) {
  seed = (Math.imul(seed, 1103515245) + 12345) >>> 0;
  return Math.floor(seed / 2 ** 32 * n);
}

function wants(holds, what) {
  if (!holds) {
    console.log(`heap: ${what}`);
    process.exit(1);
  }
}

class Heap {
  constructor(of = module) {
    this.x = new WebAssembly.Instance(of, {}).exports;
    this.answer = this.x.room(16n); // where the answers of the two functions stand
    this.least = Number(this.answer) + 16;
    this.live = new Map(); // of each block its start, its length and the byte that fills it
  }
  bytes(at, length) {
    return new Uint8Array(this.x.memory.buffer, at, length);
  }
  tried() {
    const view = new DataView(this.x.memory.buffer);
    const ok = view.getBigUint64(Number(this.answer), true), p = Number(view.getBigUint64(Number(this.answer) + 8, true));
    wants(ok === 0n || ok === 1n, `the flag is ${ok}`);
    wants(p > 0, 'a pointer is null');
    return ok ? p : 0;
  }
  alloc(length, align) {
    this.x.rattle_alloc(this.answer, BigInt(length), BigInt(align));
    const at = this.tried();
    if (at) this.takes(at, Math.max(length, 1));
    return at;
  }
  realloc(at, kept, length, align) {
    const fill = this.live.get(at).fill;
    this.x.rattle_realloc(this.answer, BigInt(at), BigInt(kept), BigInt(length), BigInt(align));
    const to = this.tried();
    if (!to) {
      this.holds(at);
      return 0;
    }
    wants(this.bytes(to, kept).every(it => it === fill), `a block of ${length} bytes lost some of the ${kept} that it was to keep`);
    this.live.delete(at);
    this.takes(to, Math.max(length, 1));
    return to;
  }
  free(at) {
    this.holds(at);
    this.live.delete(at);
    this.x.rattle_dealloc(BigInt(at));
  }
  // A new block: aligned, within the memory, apart from all others; it is filled.
  takes(at, length) {
    wants(at % 16 === 0, `a block at ${at} isn't aligned`);
    wants(at >= this.least && at + length <= this.x.memory.buffer.byteLength, `a block at ${at} of ${length} bytes isn't in the heap`);
    for (const [other, it] of this.live)
      wants(at + length <= other - 16 || other + it.length <= at - 16, `blocks at ${at} and ${other} meet`);
    const fill = 1 + chance(255);
    this.bytes(at, length).fill(fill);
    this.live.set(at, {length, fill});
  }
  holds(at) {
    const {length, fill} = this.live.get(at);
    wants(this.bytes(at, length).every(it => it === fill), `the block at ${at} lost its bytes`);
  }
}

function any(heap) {
  return [...heap.live.keys()][chance(heap.live.size)];
}

function by_chance() {
  const heap = new Heap();
  let refused = 0;
  for (let n = 0; n < CALLS; n++) {
    const length = chance(8) ? chance(300) : chance(2) ? chance(1 << 13) : chance(1 << 17), align = 1 << chance(5);
    const what = heap.live.size > 80 ? 2 : chance(3);
    if (!heap.live.size || what === 0) refused += !heap.alloc(length, align);
    else if (what === 1) {
      const at = any(heap), was = heap.live.get(at).length;
      refused += !heap.realloc(at, chance(Math.min(was, length) + 1), length, align);
    } else heap.free(any(heap));
  }
  for (const at of heap.live.keys()) heap.holds(at);
  wants(!refused, `${refused} blocks were refused`);
}

// Sizes that no memory has are refused, and nothing else changes. A memory that is used up refuses, gives what is given back, and no more.
function used_up() {
  const heap = new Heap();
  for (const power of [27, 33, 34, 35, 40, 62]) {
    wants(!heap.alloc(2 ** power, 16), `2^${power} bytes were given`);
    wants(!heap.alloc(2 ** power - 2 ** Math.max(power - 50, 0), 8), `almost 2^${power} bytes were given`);
  }
  heap.x.rattle_alloc(heap.answer, 2n ** 63n - 1n, 1n);
  wants(!heap.tried(), '2^63 - 1 bytes were given');
  const blocks = [];
  for (let at; (at = heap.alloc(1 << 20, 16));) blocks.push(at);
  wants(blocks.length >= 60 && heap.x.memory.buffer.byteLength <= MOST, `${blocks.length} blocks of a MiB fit into the memory`);
  wants(!heap.realloc(blocks[3], 1000, 1 << 21, 16), 'a block grew in a memory that is used up');
  for (const at of blocks) heap.holds(at);
  heap.free(blocks[5]);
  wants(heap.alloc(1 << 20, 1) === blocks[5], "what was given back isn't given again");
  wants(!heap.alloc(1 << 20, 1), 'there was a block too many');
  heap.free(blocks[7]);
  wants(heap.realloc(blocks[9], 1 << 19, 10, 1), 'a block that shrinks was refused');
}

// In a memory that grows to 2^32 bytes: a block that doesn't fit is refused, and what is given then is real memory.
function beyond() {
  const heap = new Heap(large);
  for (const length of [2n ** 32n, 2n ** 33n, 2n ** 34n, 2n ** 40n, 2n ** 63n, 2n ** 31n + 1n, 2n ** 32n - 32n]) wants(heap.x.room(length) === 0n, `${length} bytes were given`);
  const half = heap.x.room(2n ** 31n), end = Number(half) + 2 ** 31;
  wants(half === 0n || end <= heap.x.memory.buffer.byteLength, 'half of the memory was given, and isn’t there');
  if (half) heap.bytes(end - 1, 1)[0] = 7;
  wants(!half || heap.x.room(2n ** 31n) === 0n, 'two halves of the memory were given beside what lies below them');
  wants(heap.alloc(1000, 16), 'nothing is given after refusals');
}

// A fresh heap's room holds zeros, and a block of no bytes has a place of its own.
function fresh() {
  const heap = new Heap();
  const at = Number(heap.x.room(1_000_000n));
  wants(at && heap.bytes(at, 1_000_000).every(it => it === 0), 'room holds other bytes than zeros');
  wants(heap.x.room(0n) !== heap.x.room(0n), 'two rooms of no bytes are one');
  const empty = heap.alloc(0, 8), other = heap.alloc(0, 1);
  wants(empty && other && empty !== other, 'blocks of no bytes');
  wants(heap.realloc(empty, 0, 0, 8) && heap.realloc(other, 0, 5000, 1), 'blocks of no bytes that change');
}

function products() {
  const heap = new Heap(), mask = 2n ** 64n - 1n;
  const some = [0n, 1n, 2n, 0xffffffffn, 0x100000000n, mask, mask << 32n, mask << 64n, (1n << 128n) - 1n, 1n << 127n, (1n << 127n) - 1n];
  const numbers = [...some, ...Array.from({length: 60}, () => [0, 0, 0, 0].reduce(sum => sum << 32n | BigInt(chance(2 ** 32)), 0n))];
  for (const x of numbers) for (const y of numbers) {
    heap.x.__multi3(heap.answer, x & mask, x >> 64n, y & mask, y >> 64n);
    const view = new DataView(heap.x.memory.buffer, Number(heap.answer));
    const product = view.getBigUint64(8, true) << 64n | view.getBigUint64(0, true);
    wants(product === (x * y & ((1n << 128n) - 1n)), `${x} times ${y}`);
  }
  return numbers.length ** 2;
}

by_chance();
used_up();
beyond();
fresh();
console.log(`heap: ${CALLS} calls and ${products()} products as they should be`);
