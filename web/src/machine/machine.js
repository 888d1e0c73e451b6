// One deck in one core: the states of its run, each made when it is looked at, from the nearest mark or from the start.
import {Image, startOfImage} from '../reader/image.js';
import {dumpText} from '../reader/dump.js';
import {Marks} from './marks.js';
import {openedText} from './opened.js';
import {operatorsOf, cardsOf, jobsOf, segmentNames} from '../reader/cards.js';
import {stateOf} from '../state/state.js';
import {presentIn} from '../state/memory.js';
import {changesOf, endingOf, freshCells} from '../state/changes.js';
import {namesIn, putNames} from '../names/names.js';
import {textOf} from './program.js';

export const MOST_OPERATORS = 800000000;
const [FOUND, NOWHERE, HALTED, NO_CORE, BACKING_FULL, NO_OUTPUT] = [0, 1, 3, 4, 5, 8];
const [FEWEST_SECTORS, MOST_SECTORS] = [1024, 65536];
const [LEAST_ROOM, MOST_ROOM] = [1 << 20, 1 << 26];
const LEAST_REACH = 8192; // operators
const [MOST_KEPT, LINES_SENT, MOST_COMPARED] = [300, 400, 65536];
const NO_MACHINE = {tasks: [], numbers: [], areas: [], things: [], sectorsUsed: 0, next: null};

// The task that makes the next operator, by the three rules of docs/MACHINE.md, section 10.
export function nextTask(image) {
  const ready = image.tasks.filter(task => task.condition === 0).sort((a, b) => a.job - b.job || a.number - b.number);
  const named = image.switches.find(([count]) => count === image.made);
  const chosen = named && ready.find(task => task.job === named[1] && task.number === named[2]);
  if (chosen) return chosen;
  const last = ready.find(task => task.job === image.lastJob && task.number === image.lastTask);
  const held = image.switches.some(([count]) => count > image.made) || image.turn < image.quantum;
  if (last && held) return last;
  return ready.find(task => task.job > image.lastJob || task.job === image.lastJob && task.number > image.lastTask) ?? ready[0];
}

// Of two counts, at the first of which `test` doesn't hold, and at the second of which it does, the least one at which it does; once it
// holds, it holds for all up to the second.
export function halved(test, low, high) {
  while (high - low > 1) {
    const middle = Math.floor((low + high) / 2);
    if (test(middle)) high = middle;
    else low = middle;
  }
  return high;
}

// The least count from `from` on for which `test` holds; once it holds, it holds for all greater ones.
export function least(test, from = 1) {
  let [low, high, step] = [from - 1, from, 1];
  while (high < MOST_OPERATORS && !test(high)) [low, step] = [high, step * 2], high = Math.min(from + step, MOST_OPERATORS);
  return halved(test, low, high);
}

function linesOf(bytes) {
  return textOf(bytes).split('\n').slice(0, -1);
}

const NO_LINES = {total: 0, ended: 0, faulted: 0, bytes: 0, sum: 2166136261, shown: []};

// Printed lines, after those before: how many there are, how many of them tell that a task ended, and that it faulted, how many bytes; a
// sum over all bytes, by which two runs are compared; and the last lines.
function linesAfter(before, bytes) {
  let [total, from, sum] = [before.total, bytes.length, before.sum];
  for (const byte of bytes) {
    if (byte === 10) total++;
    sum = Math.imul(sum ^ byte, 16777619);
  }
  for (let seen = 0; from > 0 && (bytes[from - 1] !== 10 || seen++ < LINES_SENT); from--);
  const endings = (textOf(bytes).match(/^\d+\.\d+ [A-Z].*$/gm) ?? []).map(endingOf);
  return {total, ended: before.ended + endings.length, faulted: before.faulted + endings.filter(it => it.bad).length, bytes: before.bytes + bytes.length, sum,
    shown: [...before.shown, ...linesOf(bytes.subarray(from))].slice(-LINES_SENT)};
}

export class Machine {
  // Each image is compared with what the proved `dump` prints of it, in a core above 65,536 words only in tests.
  constructor(program, deck, core, tests) {
    Object.assign(this, {program, deck, core, compares: tests || core <= MOST_COMPARED, compared: 0});
    Object.assign(this, {room: LEAST_ROOM, kept: new Map(), last: undefined});
    this.body = `${cardsOf(deck).filter(card => !card.startsWith('?HALT')).join('\n')}\n`;
    this.operators = jobsOf(deck).map((_, k) => operatorsOf(program, deck, k + 1));
    this.names = jobsOf(deck).map((_, k) => segmentNames(deck, k + 1));
    this.cellNames = namesIn(deck);
    this.useSectors(FEWEST_SECTORS);
  }

  // Takes a backing of so many sectors from now on. The marks belong to the one before, so they go. Two marks are so many operators apart as
  // are made while an image is read.
  useSectors(sectors) {
    this.sectors = sectors;
    this.marks = new Marks(LEAST_REACH + 4 * this.core, this.imageRoom + 240 * sectors);
  }
  get imageRoom() {
    return 17 * this.core + 9 * this.sectors;
  }

  // Runs to a count from the start, with as many sectors and as much room as that takes.
  run(command, count) {
    return this.suffices(() => this.program.call([command, '--core', String(this.core), '--backing', 'b'], `?HALT ${count}\n${this.body}`,
      {sectors: this.sectors, room: this.room + (command === 'image' ? this.imageRoom : 0)}));
  }

  // Makes a call, again with more sectors or more room for as long as it wants more and there are more.
  suffices(calls) {
    for (;;) {
      const called = calls();
      if (called.status === BACKING_FULL && this.sectors < MOST_SECTORS) this.useSectors(4 * this.sectors);
      else if (called.status === NO_OUTPUT && this.room < MOST_ROOM) this.room *= 4;
      else return called;
    }
  }

  // The run after so many operators: its status, the lines up to there, and, if it halts there, the image with its sectors. Made from the
  // nearest mark; on the way to it marks are laid.
  at(count) {
    for (const place of this.marks.wayTo(count)) {
      const made = this.made(place);
      if (made.status !== HALTED) return made; // it has ended by then
      this.marks.keep({...made, count: place, image: made.image.slice(), sectors: made.sectors.slice()}, count);
    }
    return this.made(count);
  }
  made(count) {
    const mark = this.marks.below(count);
    if (mark?.count === count) return mark;
    return mark && this.madeFrom(mark, count) || this.taken(this.run('image', count), NO_LINES);
  }

  // The same from a mark; null where only a run from the start tells it: with more sectors, or where more is printed than there is room for.
  madeFrom(mark, count) {
    const {sectors} = this, makes = () => this.program.step(mark.image, count - mark.count, {sectors: mark.sectors, room: this.room + this.imageRoom});
    const called = this.suffices(() => (sectors < this.sectors ? {} : makes())), made = called.bytes && this.taken(called, mark.lines);
    return made && made.status !== NO_OUTPUT && made.lines.bytes <= MOST_ROOM ? made : null;
  }
  taken({status, bytes, sectors}, before) {
    const end = status === HALTED ? startOfImage(bytes) : bytes.length;
    return {status, lines: linesAfter(before, bytes.subarray(0, end)), image: bytes.subarray(end), sectors};
  }

  // The same without the image, which isn't made where a run from the start is as quick.
  told(count) {
    if (count > this.marks.reach && this.marks.most) return this.at(count);
    const {status, bytes} = this.run('run', count), halt = status === HALTED ? bytes.lastIndexOf(10, -2) + 1 : bytes.length;
    return {status, lines: linesAfter(NO_LINES, bytes.subarray(0, halt))};
  }

  // How many lines are printed up to a count: of all, of those that tell an end (`ended`) or a fault (`faulted`).
  linesAt(count, which = 'total') {
    return count === 0 ? 0 : this.told(count).lines[which];
  }
  lives(count) {
    return count === 0 || this.told(count).status === HALTED;
  }

  // The count with which the run ends: the least one at which it doesn't halt with a task alive.
  end() {
    return this.last ??= least(count => !this.lives(count));
  }

  // The same, if that is soon said.
  endWithin(limit) {
    return this.lives(limit) ? null : this.end();
  }

  // The least count from `from` on, below `most`, at which a kind holds of the next operator; null for none. It is one run, from the start
  // to what is found.
  find({kind, numbers}, from, most = MOST_OPERATORS) {
    const {status, count} = this.suffices(() => this.program.find(this.body, {core: this.core, kind, numbers, from, most, sectors: this.sectors}));
    if ([FOUND, NOWHERE, NO_CORE, BACKING_FULL].includes(status)) return count;
    throw new Error(`The search ends with status ${status}: close other pages, or take a smaller core.`);
  }

  // The machine after so many operators, and what the last one changed.
  state(count) {
    const after = this.machine(count), before = after.count ? this.machine(after.count - 1) : null;
    const operator = before ? before.next : null;
    if (operator && after.last && after.last !== operator.task) {
      throw new Error(`The page expected an operator of task ${operator.task} at count ${after.count}: please report this deck.`);
    }
    const fresh = before ? Math.min(after.lines.total - before.lines.total, LINES_SENT) : 0;
    return {...after, operator, fresh: fresh ? after.lines.shown.slice(-fresh) : [], changes: changesOf(before, after),
      freshCells: freshCells(before, after)};
  }

  // What a search looks at first: who made the operator, what is next, whose words are in core; of each task how high its topmost mark and
  // that of its topmost entered record lie above its stack's base; and the words of the next task's stack. It is a part of a state’s work,
  // and is compared with nothing: the state that a search comes to is.
  glance(count) {
    const {status, image: text} = count ? this.at(count) : this.atStart();
    if (status !== HALTED) return {over: true, marks: {}, entered: {}};
    const image = new Image(text), task = nextTask(image), place = image.placeOf(task).join('@');
    const ofEach = tells => Object.fromEntries(image.tasks.map(it => [it.name, tells(it.records, image.baseOf(it.slot))]));
    return {task: image.lastTask ? `${image.lastJob}.${image.lastTask}` : '', next: {task: task.name, place, ...this.operatorAt(task.job, place)}, present: presentIn(image),
      words: image.topOf(task)[0] - image.baseOf(task.slot),
      marks: ofEach((records, base) => records.at(-1).mark - base), entered: ofEach((records, base) => records.findLast(it => it.entered).mark - base)};
  }

  // The same without the changes. What was made lately is kept.
  machine(count) {
    const at = Math.min(count, this.last ?? Infinity);
    if (!this.kept.has(at)) this.keep(at, at === 0 ? this.opened() : this.lookedAt(at));
    const found = this.kept.get(at);
    return found.tooFar ? this.machine(this.end()) : found;
  }
  keep(count, machine) {
    this.kept.set(count, machine);
    if (this.kept.size > MOST_KEPT) this.kept.delete(this.kept.keys().next().value);
  }

  lookedAt(count) {
    const {status, image, sectors, lines} = this.at(count);
    return status === HALTED ? this.seen(count, new Image(image), image, sectors, lines) : this.ended(count, status, lines);
  }

  // The run before the first operator, as `at` tells it of a later count; no image if that operator ends the run.
  atStart() {
    const {status, image, sectors} = this.at(1);
    return {status, sectors, lines: NO_LINES, ...(status === HALTED && {image: openedText(new Image(image))})};
  }
  opened() {
    const {status, image, sectors, lines} = this.atStart();
    if (status === HALTED) return this.seen(0, new Image(image), image, sectors, lines);
    return {count: 0, lines, coreWords: this.core, ...NO_MACHINE, unseen: true, next: {task: '1.1', place: '1@0:0', ...this.operatorAt(1, '1@0:0')}};
  }

  // No machine is left after the run.
  ended(count, status, lines) {
    if (count > 1 && this.last === undefined && !this.lives(count - 1)) return {tooFar: true};
    this.last = count;
    return {count, status, lines, coreWords: this.core, ...NO_MACHINE};
  }

  seen(count, image, printed, sectors, lines) {
    const dump = dumpText(image);
    if (this.compares) this.compare(printed, dump);
    const task = nextTask(image), place = image.placeOf(task).join('@');
    const last = image.lastTask ? `${image.lastJob}.${image.lastTask}` : '';
    return {count, lines, dump, last, ...putNames(stateOf(image, sectors, this.names), this.cellNames),
      next: {task: task.name, place, ...this.operatorAt(task.job, place)}};
  }

  operatorAt(job, place) {
    const [card, text] = this.operators[job - 1]?.[place] ?? [0, ''];
    return {card, text};
  }

  compare(printed, expected) {
    const {status, bytes} = this.program.call(['dump'], printed, {room: LEAST_ROOM + 2 * expected.length});
    if (status !== 0 || textOf(bytes) !== expected) {
      throw new Error('The page has misread an image: dump prints something else. Please report this deck and this count.');
    }
    this.compared++;
  }
}
