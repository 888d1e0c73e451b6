// How much a run pages: words that come into core and leave it, and the sectors that are read and written for them. The machine keeps no
// such count, so it is taken from image to image, one operator apart: an area that is there and was not has come in. What no image
// shows isn't counted: what RESIZE writes where it makes an array longer, and what leaves core for the code of the last operator.
import {Image, startOfImage} from '../reader/image.js';
import {bits, SECTOR} from '../reader/words.js';
import {jobsOf} from '../reader/cards.js';
import {textOf} from './program.js';

const [HALTED, BACKING_FULL, NO_OUTPUT] = [3, 5, 8];
const [LEAST_SECTORS, MOST_SECTORS, LEAST_ROOM, MOST_ROOM] = [64, 65536, 1 << 16, 1 << 26];
const [ARRAY, HOLE] = [0, 3];
const STEPS_OF_INSTANCE = 64; // its memory only grows

const sectorsOf = words => Math.ceil(words / SECTOR);

// The areas of an image by the address of their owner: where each lies, how long it is, and whether its words stand in sectors.
function areasOf(image) {
  const areas = new Map();
  for (let at = image.low; at < image.coreWords;) {
    const head = image.content(at), words = bits(head, 39, 20), kind = bits(head, 47, 46);
    if (kind !== HOLE) areas.set(bits(head, 19, 0), {at, words, kind, kept: kind !== ARRAY || bits(image.content(at + words + 1), 19, 0) > 0});
    at += Math.max(1, words + (kind === HOLE ? 0 : 2));
  }
  return areas;
}

// Whether the owner of an array that has left core still has it: its original is there, and absent.
function isAbsent(image, owner, {words}) {
  const word = image.content(owner);
  return image.tag(owner) === 5 && !bits(word, 47, 46) && bits(word, 39, 20) === words && bits(word, 19, 0) > 0;
}

// What came in and left between two images, one operator apart; before the first operator no area is there. `most` learns how long the area
// of each owner has been.
function between(before, after, sum, most) {
  const [was, is] = [before ? areasOf(before) : new Map(), areasOf(after)];
  for (const [owner, area] of is) {
    most.set(owner, Math.max(most.get(owner) ?? 0, area.words + 2));
    const then = was.get(owner);
    if (then?.at === area.at) continue;
    sum.ins++;
    if (area.kept) sum.read += sectorsOf(area.words);
    if (then) wentOut(then, sum);
  }
  for (const [owner, area] of was) if (!is.has(owner) && (area.kind !== ARRAY || isAbsent(after, owner, area))) wentOut(area, sum);
}
function wentOut({kind, words}, sum) {
  sum.outs++;
  if (kind === ARRAY) sum.written += sectorsOf(words);
}

// The code that the last operator wanted, if it was absent: no image is left of that one.
function lastOperator(image, sum) {
  const task = image.tasks.find(it => image.runs(it)), descriptor = task && image.content(image.dictionary + image.segment);
  if (!task || bits(descriptor, 47, 47)) return;
  sum.ins++;
  sum.read += sectorsOf(bits(descriptor, 39, 20));
}

// The sectors of all segments and data rows of a machine: they are written when the run begins.
function written(image) {
  const entries = image.jobs.flatMap(job => Array.from({length: job.segments + job.rows}, (_, k) => image.content(job.dictionary + 2 + k)));
  return entries.reduce((sum, word) => sum + sectorsOf(bits(word, 39, 20)), 0);
}

// Makes a call, with more sectors or more room for as long as it wants more.
function suffices(calls, room) {
  for (;;) {
    const called = calls(room);
    if (called.status === NO_OUTPUT && room.bytes < MOST_ROOM) room.bytes *= 4;
    else return called;
  }
}

// The pages of a run, as {core, ins, outs, read, written, made, last, ample}: `last` is the last line, and in a core of `ample` words nothing
// need leave. A run of more than `most` operators isn't followed to its end: `cut` says so. `hears` is told how far it is.
export function pagingOf(program, deck, core, {most = Infinity, hears = () => {}, sectors = LEAST_SECTORS} = {}) {
  const body = deck.split('\n').filter(it => !it.startsWith('?HALT')).join('\n'), room = {bytes: LEAST_ROOM + 17 * core + 9 * sectors};
  const first = suffices(({bytes}) => program.call(['image', '--core', String(core), '--backing', 'b'], `?HALT 1\n${body}`, {sectors, room: bytes}), room);
  const sum = {core, ins: 0, outs: 0, read: 0, written: 0, made: 0, last: '', cut: false, ample: 0}, areas = new Map();
  let [called, before, instance] = [first, null, null];
  while (called.status === HALTED) {
    const start = startOfImage(called.bytes), text = called.bytes.slice(start), held = called.sectors.slice(), image = new Image(text);
    if (!before) sum.written = written(image);
    noteLast(sum, called.bytes.subarray(0, start));
    between(before, image, sum, areas);
    sum.ample = Math.max(sum.ample, image.low + [...areas.values()].reduce((all, words) => all + words, 0));
    [before, sum.made] = [image, sum.made + 1];
    hears(sum.made);
    if (sum.made >= most) return {...sum, cut: true};
    if (sum.made % STEPS_OF_INSTANCE === 1) instance = program.instance();
    called = suffices(({bytes}) => program.step(text, 1, {sectors: held, room: bytes, instance}), room);
  }
  if (called.status === BACKING_FULL && sectors < MOST_SECTORS) return pagingOf(program, deck, core, {most, hears, sectors: 4 * sectors});
  noteLast(sum, called.bytes);
  if (before && jobsOf(deck).length) lastOperator(before, sum);
  return {...sum, made: before ? sum.made + 1 : 0};
}
function noteLast(sum, bytes) {
  const lines = textOf(bytes).trimEnd().split('\n');
  if (lines.at(-1)) sum.last = lines.at(-1);
}

// Some cores from the least in which a deck runs to one in which nothing leaves core, about as many as are wanted.
export function coresBetween(least, ample, many) {
  const step = Math.max(1, Math.ceil((ample - least) / Math.max(1, many - 1)));
  return [...Array.from({length: many}, (_, k) => least + k * step).filter(core => core < ample), ample];
}
