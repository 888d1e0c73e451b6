#!/usr/bin/env node
// The proved machine as a command: `node web/b67.mjs run --core 4096 < deck`. It needs node 18 or later and, beside it, b67.html, out of
// which it takes the WebAssembly module; nothing is built or installed. The commands, their words, their statuses and what they print are
// those of the program `b67` (docs/MACHINE.md, section 20, and docs/MESSAGES.md). Otherwise than there:
//
// - `--backing FILE` may be left out of `run` and `image`: then the sectors are memory. A file has the program's form, so each goes on from
//   the other's. It is read before the run and written after it. It is locked as the program locks it; on Linux by the command `flock`, and
//   without that command give each run a file of its own.
// - A run of more than 1,000,000 operators is made in parts of half a second, from image to image by the machine's own steps, and the lines of
//   each are printed when it ends; so are those of `resume`. A deck with ?HALT, and `image`, print at the end. Arrays that are out of core may
//   then stand in other sectors. Of more than 1 GiB of lines of a part the beginning is printed, with status 8.
// - `bind` takes four pairs at most. A closed input is an empty one.
// - Status 10 and a sentence on standard error: what was asked can't be done here.
//
// Three commands for teachers, over the same module and the page's own scripts, in one process:
//
//     node web/b67.mjs mark DECK.. EXPECTED [--data FILE] [--in-order] [--csv]
//     node web/b67.mjs class FILE.. [--key SHEET] > marks.csv
//     node web/b67.mjs paging DECK [CORE..]
//
// `mark` runs each deck in turns of 1, 7, 17 and 1,000 operators, in its least core and in the greatest, and compares its lines with those of
// EXPECTED, up to `1.1 ENDED`, task by task, or all with --in-order, as scripts/mark.sh does. --data gives other numbers for READ in the place of those on ?DATA cards, which a
// deck of constants doesn't know. No job makes more than 1,000,000 operators, and no run prints much more than EXPECTED has. Status 1 if a
// deck is wrong. `class` takes the links that pupils have handed in out of files, zip archives, or all files of a folder, does each work again,
// and prints a table: 1 for a work that came out again, 0 for one that didn't, t for one that can't be done again. SHEET is a sheet as its
// teacher keeps it, whose tests are made too. `paging` counts how often words come into core and leave it, and the sectors that are read and
// written, operator by operator, in cores that are named or in twelve from the least to an ample one; of a run of more than 100,000 operators
// the beginning. Nothing of it is proved.
import {spawnSync} from 'node:child_process';
import fs from 'node:fs';
import path from 'node:path';
import stream from 'node:stream';
import {fileURLToPath} from 'node:url';
import vm from 'node:vm';
import zlib from 'node:zlib';

const [SECTORS, SECTOR_BYTES, MOST_WORDS] = [65536, 240, 5];
const SECTORS_OF = {run: [1024, SECTORS], image: [SECTORS], resume: [SECTORS], exercise: [4096]}; // they are copied, so a run begins with few; an image names all
const ROOMS = [24, 27, 30].map(power => 2 ** power); // bytes of lines; a run that prints more is made again in the next one
const [PART, PART_MILLISECONDS] = [1000000, 500]; // operators of the first part of a long run, and how long one of the others is to take
const [USAGE, HALTED, BACKING_FULL, BACKING_FAULT, READING_FAULT, PRINTING, CANT] = [1, 3, 5, 6, 7, 8, 10];
const [ANOTHER_TASK, OPENED] = [1, 1]; // a kind of the machine's searches, and its status where nothing is found
// How a file is locked as it is opened: by O_EXLOCK, or, on Windows, shared with nobody (libuv's UV_FS_O_EXLOCK). Elsewhere `flock` does it.
const LOCKING = {darwin: 0x20, freebsd: 0x20, openbsd: 0x20, netbsd: 0x20, win32: 0x10000000}[process.platform] ?? 0;

class Cant extends Error {}

// The page's text, and the module in it.
export function pageOf(file = process.env.B67_PAGE ?? fileURLToPath(new URL('b67.html', import.meta.url))) {
  let html;
  try {
    html = fs.readFileSync(file, 'latin1');
  } catch {
    throw new Cant(`${file} isn’t there: put b67.html beside b67.mjs, or name it by the variable B67_PAGE`);
  }
  const found = /^AGFzb[A-Za-z0-9+/]+=*$/m.exec(html);
  if (!found) throw new Cant(`${file} holds no module of the machine`);
  return {html, bytes: Buffer.from(found[0], 'base64')};
}

// An instance of the machine: what it exports, a view of its memory, room in it, and what puts bytes there.
function instanceOf(module) {
  const x = new WebAssembly.Instance(module, {}).exports, view = (at, length) => new Uint8Array(x.memory.buffer, Number(at), length);
  const roomFor = length => x.room(BigInt(length)) || fails(new Cant('this computer has no memory left for the machine'));
  const put = bytes => {
    const at = roomFor(bytes.length);
    view(at, bytes.length).set(bytes);
    return [at, BigInt(bytes.length)];
  };
  return {x, view, roomFor, put};
}

// A call in an instance of its own: `calls` makes it over so many sectors, which are those that are held, or zeros, with so much room for lines.
// Gives the status, what is printed, and the sectors as the machine has them.
function printed(module, {held, many, room}, calls) {
  const it = instanceOf(module), {view, roomFor} = it, sectors = roomFor(many * SECTOR_BYTES), lines = roomFor(room), count = roomFor(8);
  if (held) view(sectors, many * SECTOR_BYTES).set(held);
  const status = calls(it, sectors, BigInt(many), lines, BigInt(room), count) & 255, length = Number(new DataView(it.x.memory.buffer).getBigUint64(Number(count), true));
  return {status, bytes: Buffer.from(view(lines, length)), held: () => Buffer.from(view(sectors, many * SECTOR_BYTES))};
}
// A command by its words, over a text, and sectors as a file has them, or null for so many of zeros.
function called(module, words, text, {sectors, many, room}) {
  const {status, bytes, held} = printed(module, {held: sectors && Buffer.from(sectors).swap64(), many, room}, ({x, put}, ...lent) => {
    const given = Array.from({length: MOST_WORDS}, (_, k) => put(Buffer.from(words[k] ?? ''))).flat();
    return x.b67_web_serve(...given, BigInt(words.length), ...put(text), ...lent);
  });
  return {status, bytes, sectors: () => held().swap64()};
}
// So many operators from an image on, over the sectors that belong to it: their lines, and, with HALTED, the image after them.
function stepped(module, {image, held, most}, room) {
  return printed(module, {held, many: held.length / SECTOR_BYTES, room}, ({x, put}, ...lent) => x.b67_web_step(...put(image), BigInt(most), ...lent));
}
function fails(problem) {
  throw problem;
}

// What the calls of several tries give: that of the first one whose status isn't `again`, or of the last one.
function firstOf(tries, again, calls) {
  let made;
  for (const one of tries) {
    made = calls(one);
    if (made.status !== again) break;
  }
  return made;
}
// Carries out a command over the sectors of a file, or over zeros: with more room while it prints more, and over more sectors if they don't suffice.
function over(module, words, text, sectors) {
  return firstOf(SECTORS_OF[words[0]] ?? [1], BACKING_FULL, many => firstOf(ROOMS, PRINTING, room => called(module, words, text, {sectors: sectors?.subarray(0, many * SECTOR_BYTES), many, room})));
}

// A long run in parts: `prints` is given the lines of each one when it has ended, and says whether it has printed them. Gives how many bytes it
// has, and what the run gives, with the lines that are left; without that it is to be made as a whole.
function inParts(module, words, text, sectors, prints) {
  const resumes = words[0] === 'resume', told = {bytes: 0, made: null}, many = SECTORS_OF[words[0]][0], its = {sectors: sectors?.subarray(0, many * SECTOR_BYTES), many};
  const first = resumes ? {image: text, held: asMachine(its), most: PART} : begunRun(module, words, text, its, told, prints);
  for (let [part, least] = [first, 0]; part;) {
    const begun = performance.now(), {status, bytes, held} = firstOf(ROOMS, PRINTING, room => stepped(module, part, room)), took = performance.now() - begun;
    if (status !== HALTED) {
      if (status === 0 || status === PRINTING || status === BACKING_FULL && many === SECTORS) told.made = {status, bytes, sectors: () => held().swap64()};
      break;
    }
    // the first part of all tells how long an image and the sectors take
    if (part.most === 1) least = took;
    const most = part.most === 1 ? PART : least === 0 ? 1 : Math.max(1000, Math.round(part.most * Math.min(8, Math.max(PART_MILLISECONDS, 8 * least) / Math.max(1, took - least))));
    part = passesOn({status, bytes, held}, most, told, prints);
  }
  return told;
}
// The sectors of a file, or zeros, as the machine has them.
function asMachine({sectors, many}) {
  return sectors ? Buffer.from(sectors).swap64() : Buffer.alloc(many * SECTOR_BYTES);
}
// The first part of a run, if the run is longer; its lines are printed then.
function begunRun(module, words, text, its, told, prints) {
  if (/^\?HALT/m.test(text.toString('latin1'))) return null;
  const halting = Buffer.concat([Buffer.from(`?HALT ${PART}\n`), text]), calls = name => firstOf(ROOMS, PRINTING, room => called(module, [name, ...words.slice(1)], halting, {...its, room}));
  const ran = calls('run');
  if (ran.status === 0) told.made = ran;
  const image = ran.status === HALTED ? calls('image') : null;
  return image?.status === HALTED ? passesOn({...image, held: () => image.sectors().swap64()}, 1, told, prints) : null;
}
// Prints the lines of a part that has halted, and gives the next one, of so many operators; null if they can't be printed.
function passesOn({bytes, held}, most, told, prints) {
  const at = bytes.indexOf('?IMAGE\n');
  told.bytes += at;
  if (prints(bytes.subarray(0, at))) return {image: bytes.subarray(at), held: held(), most};
  told.made = {status: PRINTING, bytes: Buffer.alloc(0), sectors: () => held().swap64()};
  return null;
}

// The status of opening a deck in a core: OPENED, or that of a run.
function opening(module, text, core) {
  const {x, roomFor, put} = instanceOf(module), none = roomFor(8);
  return x.b67_web_find(core, ANOTHER_TASK, none, 0n, 0n, 0n, ...put(text), SECTORS, none) & 255;
}

// The file of --backing: {held, sectors, write}, or {why} it is none. It is created if it is missing; a file of another length is left as it is.
function opened(file) {
  const length = SECTORS * SECTOR_BYTES;
  try {
    const {O_RDWR, O_CREAT, O_NONBLOCK = 0} = fs.constants, held = fs.openSync(file, O_RDWR | O_CREAT | LOCKING | (LOCKING && O_NONBLOCK), 0o666);
    if (!fs.fstatSync(held).isFile()) return {why: 'it is not a regular file'};
    if (isOutput(held)) return {why: 'standard output goes into it'};
    if (!LOCKING && !isLocked(held)) return {why: 'another run uses it'};
    const its = fs.fstatSync(held);
    if (its.size !== 0 && its.size !== length) return {why: `it has ${its.size} bytes, and a backing file has ${length}`};
    if (its.size === 0) fs.ftruncateSync(held, length);
    return {held, sectors: its.size ? fs.readFileSync(file) : null};
  } catch (problem) {
    return {why: problem.message};
  }
}
function isOutput(held) {
  try {
    const [its, out] = [held, 1].map(it => fs.fstatSync(it));
    return its.ino === out.ino && its.dev === out.dev;
  } catch {
    return false; // nothing is known of it, as of a console of Windows
  }
}
// Locks a file by the command flock, whose lock is that of whoever has the file open; false if another one has locked it.
function isLocked(held) {
  return spawnSync('flock', ['-n', '3'], {stdio: ['ignore', 'ignore', 'ignore', held]}).status !== 1;
}
// Writes the sectors up to the last byte that has changed.
function writes({held, sectors}, after) {
  let end = after.length;
  for (const part of [65536, 8]) while (end > 0 && same(sectors, after, Math.max(0, end - part), end)) end -= Math.min(part, end);
  fs.writeSync(held, after, 0, end, 0);
  fs.closeSync(held);
}
function same(before, after, from, to) {
  const part = after.subarray(from, to);
  return before ? part.equals(before.subarray(from, to)) : part.every(it => it === 0);
}

// What a command gives whose file can't be used: BACKING FAULT, unless it is no `resume` and its text is refused, or its core or the device is too
// small for the opening. A deck without a job uses no sector, so it is no fault.
function withoutBacking(module, words, text, file, why) {
  const fault = {status: BACKING_FAULT, bytes: Buffer.from('BACKING FAULT\n'), said: `${file}: ${why}`};
  if (words[0] === 'resume') return fault;
  if (opening(module, text, Number(words[words.indexOf('--core') + 1])) !== OPENED) return over(module, words, text, null);
  const judged = called(module, ['check'], text, {many: 1, room: ROOMS[1]});
  return judged.status || !judged.bytes.length ? judged : fault;
}

// The words as the machine takes them: where no file is named, the sectors have a name all the same.
function passedOf(words) {
  const [name] = words;
  if (name === 'bind' && words.length > MOST_WORDS && words.slice(1).every(it => /^\d+=\d+$/.test(it))) throw new Cant('bind takes four pairs at most here: bind some, and bind what comes of it with the others');
  if (words.length > MOST_WORDS) return [];
  return ['run', 'image'].includes(name) && !words.includes('--backing') ? [...words, '--backing', 'memory'] : words;
}
// What the machine says of words that are no command; of a command, null.
function refused(module, passed) {
  const said = called(module, passed, Buffer.from('?'), {many: 1, room: ROOMS[0]});
  return said.status === USAGE ? said : null;
}

// Carries out a command over a text: {status, bytes, said}, where `said` is for standard error. With `prints` a long run gives it its lines as they
// come, and `bytes` are those that are left.
export function serve(module, words, text, prints = null) {
  const at = words.indexOf('--backing'), file = ['run', 'image', 'resume'].includes(words[0]) && at > 0 ? words[at + 1] : undefined;
  const passed = passedOf(words), device = file && !refused(module, passed) ? opened(file) : null;
  if (device?.why) return withoutBacking(module, passed, text, file, device.why);
  const parts = prints && /^(run|resume)$/.test(passed[0]) ? inParts(module, passed, text, device?.sectors, prints) : {bytes: 0}, made = parts.made ?? over(module, passed, text, device?.sectors);
  if (device) writes(device, made.sectors());
  return {...made, bytes: parts.made ? made.bytes : made.bytes.subarray(parts.bytes), said: made.status === PRINTING && made.bytes.length ? 'more than 1 GiB is printed: this is the beginning' : ''};
}

// What stands in the place of a command whose input can't be read: no file is opened.
function unread(module, words) {
  return refused(module, passedOf(words)) ?? {status: READING_FAULT, bytes: Buffer.from('READING FAULT\n')};
}

// All of standard input.
function input() {
  const parts = [], part = Buffer.alloc(65536), waits = new Int32Array(new SharedArrayBuffer(4));
  for (;;) {
    try {
      const many = fs.readSync(0, part);
      if (!many) return Buffer.concat(parts);
      parts.push(Buffer.from(part.subarray(0, many)));
    } catch ({code}) {
      if (code === 'EOF') return Buffer.concat(parts);
      if (code !== 'EAGAIN') return null;
      Atomics.wait(waits, 0, 0, 5);
    }
  }
}

// Prints all bytes; says whether that was done.
function print(bytes) {
  const waits = new Int32Array(new SharedArrayBuffer(4));
  for (let at = 0; at < bytes.length;) {
    try {
      at += fs.writeSync(1, bytes, at, Math.min(bytes.length - at, 1 << 20));
    } catch ({code}) {
      if (code !== 'EAGAIN') return false;
      Atomics.wait(waits, 0, 0, 5);
    }
  }
  return true;
}

// ------------------------------------------------------------ for teachers

const [QUANTA, MOST_OPERATORS, MOST_CORE] = [[1, 7, 17, 1000], 1000000, 1048575];

// The page's own scripts, without a page: they hand out what they can do. Node before 20.12 can't undo `deflate-raw` as a browser does.
function partsOf({html}) {
  const text = Buffer.from(html, 'latin1').toString('utf8'), [, script] = /<script id="script">\n([\s\S]*?)\n<\/script>/.exec(text) ?? [], [, decks] = /id="decks">\n([\s\S]*?)<\/script>/.exec(text) ?? [];
  let parts = null;
  globalThis.b67Takes = it => { parts = it; };
  vm.runInThisContext(script ?? '');
  if (!parts) throw new Cant('this b67.html is of another version than b67.mjs');
  try {
    new DecompressionStream('deflate-raw');
  } catch {
    globalThis.DecompressionStream = function () { return stream.Duplex.toWeb(zlib.createInflateRaw()); };
  }
  return {...parts, decks: parts.decksOf(`${decks.trim()}\n`)};
}

function read(file) {
  try {
    return fs.readFileSync(file, 'latin1');
  } catch {
    throw new Cant(`${file}: not a file that can be read`);
  }
}
function unixRead(file) {
  return read(file).replaceAll('\r', '');
}
// The files that are named, and those of folders.
function filesOf(names) {
  return names.flatMap(name => (fs.statSync(name, {throwIfNoEntry: false})?.isDirectory() ? filesOf(fs.readdirSync(name).sort().map(it => path.join(name, it))) : [name]));
}

// A deck that is marked: without turns of its own, with a bound on its operators, and with other numbers if there are some.
function markedDeck(text, data) {
  const bounded = text.replace(/^\?QUANTUM.*\n/gm, '').replace(/^(\?LIMIT +)(\d+)/gm, (_, card, most) => card + Math.min(Number(most), MOST_OPERATORS));
  return data === null ? bounded : bounded.replace(/^\?DATA.*\n(?:[^?].*\n)*/gm, `?DATA\n${data.trim()}\n`);
}
// Lines as they are compared: those of each task together, unless the order of all counts.
function grouped(text, inOrder) {
  const lines = text.split('\n').slice(0, -1), taskOf = line => line.split(' ')[0];
  return inOrder ? lines : lines.map((line, k) => [taskOf(line), k, line]).sort(([a, k], [b, n]) => (a < b ? -1 : a > b ? 1 : k - n)).map(([, , line]) => line);
}
// The first line that isn't as it should be, in words; nothing if all are.
function firstWrong(lines, wanted, inOrder) {
  const [is, should] = [lines, wanted].map(it => grouped(it, inOrder)), at = [...is, ''].findIndex((line, k) => line !== (should[k] ?? ''));
  if (is.length === should.length && is.every((line, k) => line === should[k])) return '';
  if (at >= is.length) return `line ${at + 1} is missing, ${should[at]}`;
  return should[at] === undefined ? `line ${at + 1} is ${is[at]}, and nothing more is wanted` : `line ${at + 1} is ${is[at]} and should be ${should[at]}`;
}

// The marks of one deck: how many of its runs were right, of how many, and what was wrong first.
function markOf(module, text, wanted, {withoutNames, data, inOrder}) {
  const run = (core, deck) => {
    const {status, bytes} = called(module, ['run', '--core', String(core), '--backing', 'b'], Buffer.from(deck, 'latin1'), {many: SECTORS / 16, room: 4 * wanted.length + 4096});
    return {status, lines: bytes.toString('latin1')};
  };
  let deck, [right, runs, first] = [0, 0, ''];
  try {
    deck = markedDeck(withoutNames(text), data);
  } catch (problem) {
    return {right, runs, first: problem.message};
  }
  const checked = called(module, ['check'], Buffer.from(deck, 'latin1'), {many: 1, room: 1 << 16}), said = checked.bytes.toString('latin1').trim().split('\n').at(-1);
  if (checked.status || !said) return {right, runs, first: said ? `refused, ${said}` : 'no job is in it'};
  for (const quantum of QUANTA) for (const core of [256, MOST_CORE]) {
    let its = core, ran = run(its, `?QUANTUM ${quantum}\n${deck}`);
    while (ran.status === 4 && its < MOST_CORE) ran = run(its = Math.min(MOST_CORE, Number(/^NO CORE (\d+)/m.exec(ran.lines)[1])), `?QUANTUM ${quantum}\n${deck}`);
    const why = firstWrong(ran.lines, wanted, inOrder);
    runs++;
    if (!why) right++;
    else first ||= `in turns of ${quantum}, in ${its} words: ${why}`;
  }
  return {right, runs, first};
}

async function mark(module, page, words) {
  const at = words.indexOf('--data'), data = at < 0 ? null : unixRead(words[at + 1] ?? ''), csv = words.includes('--csv'), inOrder = words.includes('--in-order'), {withoutNames, csvOf} = partsOf(page);
  const files = words.filter((it, k) => !['--csv', '--in-order'].includes(it) && (at < 0 || k !== at && k !== at + 1)), wanted = files.length > 1 ? unixRead(files.pop()) : '';
  if (!/^\d+\.\d+ /m.test(wanted) || /^\?JOB/m.test(wanted)) throw new Cant('usage: mark DECK.. EXPECTED [--data FILE] [--in-order] [--csv], where EXPECTED has the lines of a right run');
  const lines = filesOf(files).map(file => {
    const {right, runs, first} = markOf(module, unixRead(file), wanted, {withoutNames, data, inOrder});
    if (!csv) console.log(runs && right === runs ? `${file}: right in ${runs} runs` : runs ? `${file}: wrong in ${runs - right} of ${runs} runs\n    ${first}` : `${file}: ${first}`);
    return [file, runs && right === runs ? 1 : 0, right, runs, first];
  });
  if (csv) process.stdout.write(csvOf([['deck', 'mark', 'right', 'runs', 'first that is wrong'], ...lines]));
  return lines.every(([, is]) => is) ? 0 : 1;
}

// The value of an option, and the words without it.
function optionOf(words, name) {
  const at = words.indexOf(name);
  return at < 0 ? [null, words] : [words[at + 1] ?? '', words.filter((_, k) => k !== at && k !== at + 1)];
}
// The texts of files and of archives, as one.
async function textOfFiles(files, textsIn) {
  const texts = [];
  for (const file of files) texts.push(...await textsIn(Buffer.from(read(file), 'latin1')).catch(({message}) => fails(new Cant(`${file}: ${message}`))));
  return texts.join('\n');
}

async function marksOfClass(page, words) {
  const {Desk, handsOf, keysOf, tasksFor, marksOf, linesOf, csvOf, textsIn, decks} = partsOf(page), desk = new Desk(() => {}), ask = async (name, data) => desk[name](data);
  const [sheet, files] = optionOf(words, '--key'), keys = sheet === null ? [] : await keysOf(Buffer.from(read(sheet), 'latin1').toString('utf8'), decks).catch(({message}) => fails(new Cant(`${sheet}: ${message}`)));
  const {hands, broken} = await handsOf(await textOfFiles(filesOf(files), textsIn)), tasks = tasksFor(hands.map(it => it.hand), decks, keys), [marks, seen] = [new Map(), new Map()];
  if (!hands.length) throw new Cant('no link of work that was handed in stands in these files: each has the sign # and hand: in it');
  await desk.start({bytes: page.bytes, compares: false});
  for (const [k, {part, hand}] of hands.entries()) {
    if (process.stderr.isTTY) process.stderr.write(`\r${k + 1} of ${hands.length} `);
    marks.set(part, await marksOf(ask, hand, tasks, decks, {seen}));
  }
  process.stdout.write(csvOf(linesOf(hands, tasks, part => marks.get(part))));
  if (broken) console.error(`b67.mjs: ${broken} of the links can’t be read: were they cut?`);
  return 0;
}

const MOST_PAGED = 100000;

// The pages of a deck over some cores: a line for each.
async function paging(page, [file, ...cores]) {
  const {Desk, pagingOf, coresBetween, withoutNames} = partsOf(page), desk = new Desk(() => {});
  if (file === undefined || !cores.every(it => /^[1-9]\d{2,6}$/.test(it) && it >= 256 && it <= MOST_CORE)) throw new Cant('usage: paging DECK [CORE..], where a core has 256 to 1048575 words');
  await desk.start({bytes: page.bytes, compares: false});
  const deck = withoutNames(read(file)), least = cores.length ? null : desk.coreFor({deck, core: 256}), row = core => pagingOf(desk.program, deck, core, {most: MOST_PAGED});
  const told = ({core, ins, outs, read, written, cut, last}) => console.log([core, ins, outs, read, written].map(it => String(it).padStart(7)).join(' '), cut ? '(cut)' : '', last);
  const [first, ...others] = cores.length ? cores.map(Number) : [least], begun = row(first);
  if (!begun.made && !/^NO CORE/.test(begun.last)) throw new Cant(`${file}: ${begun.last || 'no job is in it'}`);
  console.log('   core      in     out    read written  last line');
  told(begun);
  for (const core of cores.length ? others : coresBetween(first, begun.ample, 12).slice(1)) told(row(core));
  return 0;
}

async function carriesOut(words) {
  const page = pageOf(), [name, ...rest] = words;
  if (name === 'class') return marksOfClass(page, rest);
  if (name === 'paging') return paging(page, rest);
  const module = new WebAssembly.Module(page.bytes);
  if (name === 'mark') return mark(module, page, rest);
  const text = name === 'exercise' ? Buffer.alloc(0) : input(), {status, bytes, said} = text ? serve(module, words, text, print) : unread(module, words), whole = print(bytes);
  if (said) console.error(`b67.mjs: ${said}`);
  return whole ? status : PRINTING;
}

async function main(words) {
  try {
    process.exitCode = await carriesOut(words);
  } catch (problem) {
    if (!(problem instanceof Cant)) throw problem;
    console.error(`b67.mjs: ${problem.message}`);
    process.exitCode = CANT;
  }
}

if (process.argv[1] && fs.realpathSync(process.argv[1]) === fileURLToPath(import.meta.url)) await main(process.argv.slice(2));
