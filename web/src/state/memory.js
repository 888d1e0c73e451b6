// What the page shows of core and of the backing: what lies where, and each array with its numbers.
import {bits, numberText, POWERS, SECTOR} from '../reader/words.js';

const MOST_NUMBERS = 400;

// The name of an area's owner, from the cell of its original or descriptor.
function ownerName(image, address, names) {
  const [first, second, third] = image.cellAt(address).split(' ');
  if (first === 'DICT') {
    const job = image.jobs[second - 1], several = image.jobs.length > 1 ? ` of job ${second}` : '';
    const name = names[second - 1]?.[third - 2];
    return Number(third) < 2 + job.segments ? `segment ${third - 1}${name ? `, ${name}` : ''}${several}` : `data row 1,${third}${several}`;
  }
  const task = image.tasks.find(it => it.name === first), record = task.records[second - 1];
  return `array ${record.entered ? `${record.level},${third}` : `cell ${third}`} of task ${first}, record ${second}`;
}

// Each thing that can be in core or out of it: segments, data rows, and the arrays that the records own.
function owners(image) {
  const found = [];
  for (const job of image.jobs) {
    for (let n = 0; n < job.segments + job.rows; n++) found.push([job.dictionary + 2 + n, n < job.segments ? 'code' : 'row']);
  }
  for (const task of image.tasks) for (const record of task.records) for (let at = record.first; at <= record.last; at++) {
    if (image.tag(at) === 5 && !bits(image.content(at), 46, 46)) found.push([at, 'array']);
  }
  return found;
}

function fixedAreas(image) {
  const areas = [{at: 0, words: 160, kind: 'mcp', text: 'the MCP'}];
  image.jobs.forEach((job, k) => {
    areas.push({at: job.dictionary, words: 2 + job.segments + job.rows, kind: 'dictionary', text: `dictionary of job ${k + 1}, ${job.name}`});
  });
  for (let slot = 0; slot < image.peak; slot++) {
    const task = image.bySlot.get(slot), at = image.baseOf(slot), used = task ? image.topOf(task)[0] - at + 1 : 0;
    areas.push({at, words: image.stackWords, kind: 'stack', text: task ? `stack of task ${task.name}` : 'stack of no task', used});
  }
  return areas;
}

// The owners of the areas that core holds, in a text: it differs if words came in or left.
export function presentIn(image) {
  const owners = [];
  for (let at = image.low; at < image.coreWords;) {
    const head = image.content(at), hole = bits(head, 47, 46) === 3;
    if (!hole) owners.push(bits(head, 19, 0));
    at += Math.max(1, bits(head, 39, 20) + (hole ? 0 : 2));
  }
  return owners.sort((a, b) => a - b).join();
}

// Areas and holes from the first word above the stacks; `present` learns where each owner's words are.
function freeAreas(image, present, names) {
  const areas = [];
  for (let at = image.low; at < image.coreWords;) {
    const head = image.content(at), kind = bits(head, 47, 46), hole = kind === 3;
    const words = bits(head, 39, 20) + (hole ? 0 : 2), owner = bits(head, 19, 0);
    if (!hole) present.set(owner, at + 1);
    areas.push({at, words, kind: ['array', 'row', 'code', 'hole'][kind], text: hole ? 'hole' : ownerName(image, owner, names)});
    if (!words) throw new Error('an area of no words');
    at += words;
  }
  return areas;
}

// The words of an array that aren't 0, as pairs of index and number: from core.
function numbersInCore(image, at, words) {
  const numbers = [];
  for (let n = 0; n < words && numbers.length <= MOST_NUMBERS; n++) {
    const word = image.content(at + n);
    if (word) numbers.push([n, numberText(word)]);
  }
  return numbers;
}

// The same from a chain of sectors, where a word has 8 bytes, the lowest first: two halves.
function numbersInSectors(sectors, chain, words) {
  const halves = new Uint32Array(sectors.buffer, sectors.byteOffset, sectors.byteLength / 4), numbers = [];
  chain.forEach((sector, k) => {
    const first = 2 * SECTOR * (sector - 1), many = Math.min(SECTOR, words - SECTOR * k);
    for (let n = 0; n < many && numbers.length <= MOST_NUMBERS; n++) {
      const low = halves[first + 2 * n], high = halves[first + 2 * n + 1] & 0xffff; // above 48 bits is the tag
      if (low || high) numbers.push([SECTOR * k + n, numberText(low + high * POWERS[32])]);
    }
  });
  return numbers;
}

function thingOf(image, {sectors, present, copies, names}, [address, kind]) {
  const word = image.content(address), words = bits(word, 39, 20), cell = image.cellAt(address), at = present.get(address) ?? 0;
  const chain = image.chain(at ? bits(image.content(at + words), 19, 0) : bits(word, 19, 0));
  const numbers = kind === 'code' ? [] : at ? numbersInCore(image, at, words) : numbersInSectors(sectors, chain, words);
  return {cell, kind, text: ownerName(image, address, names), words, at, chain, numbers, copies: copies.get(cell) ?? []};
}

export function memoryOf(image, sectors, copies, names) {
  const present = new Map();
  const areas = [...fixedAreas(image), ...freeAreas(image, present, names)];
  const things = owners(image).map(owner => thingOf(image, {sectors, present, copies, names}, owner));
  const used = image.links.reduce((sum, link) => sum + (link ? 1 : 0), 0);
  return {areas, things, sectorsUsed: used};
}

// Sector numbers as spans: 2 to 8, 11.
export function spansText(chain) {
  const spans = [];
  for (const sector of chain) {
    const last = spans.at(-1);
    if (last && last[1] === sector - 1) last[1] = sector;
    else spans.push([sector, sector]);
  }
  return spans.map(([first, last]) => (first === last ? `${first}` : `${first} to ${last}`)).join(', ');
}
