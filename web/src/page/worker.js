// The worker's side: all that computes. It answers what the page asks. When nothing is asked it makes states that will be asked for
// soon, one after the other, and then what the time line needs.
import {programOf, textOf} from '../machine/program.js';
import {operatorsOf} from '../reader/cards.js';
import {Machine} from '../machine/machine.js';
import {Search} from '../machine/search.js';
import {pagingOf} from '../machine/paging.js';
import {allOf} from '../course/conditions.js';
import {TASKS} from '../course/course.js';
import {endingOf} from '../state/changes.js';
import {causeOf, wrongOf} from '../words/faults.js';

const MOST_SHOWN = 1 << 24; // bytes that a command may print
const MOST_OF_IMAGE = 1 << 26;
const MOST_BEFORE = 1000; // operators in which a first moment is looked for
const MOST_PAGED = 20000; // operators of a run whose pages are counted
const SOON = 100000; // operators, within which the end is looked for at once

export class Desk {
  constructor(post) {
    Object.assign(this, {post, searches: new Map(), deck: null, ahead: [], wanted: null, left: null});
  }

  async start({bytes, compares}) {
    this.compares = compares;
    this.ready = programOf(bytes);
    this.program = await this.ready;
  }

  // The answer to a question of this number.
  async answers(id, ask, data) {
    try {
      if (ask !== 'start') await this.ready;
      this.number = id;
      return {id, result: await this[ask](data)};
    } catch (problem) {
      return {id, problem: String(problem.message ?? problem)};
    }
  }

  // Carries out a command; `resumes`: over the text and the sectors that the last image has left.
  call({words, text, room = MOST_SHOWN, resumes}) {
    const begun = performance.now();
    const called = this.program.call(words, resumes ? this.left.bytes : text, {room: words[0] === 'image' ? MOST_OF_IMAGE : room, sectors: resumes ? this.left.sectors : undefined});
    const {status, bytes} = called;
    if (words[0] === 'image') this.left = status === 3 ? {bytes: bytes.slice(), sectors: called.sectors.slice()} : null;
    return {status, text: textOf(bytes), milliseconds: performance.now() - begun};
  }

  // The card and the text of the operator at a place of a job.
  operatorAt({deck, job, place}) {
    return operatorsOf(this.program, deck, job)[place] ?? [0, ''];
  }

  // The searches of a deck in a core; those of another deck are given up.
  search(deck, core) {
    if (this.deck !== deck) this.searches.clear();
    this.deck = deck;
    if (!this.searches.has(core)) {
      const machine = new Machine(this.program, deck, core, this.compares);
      this.searches.set(core, new Search(machine, far => this.post({far, of: this.number})));
    }
    return this.searches.get(core);
  }

  // The state at a count, and of the machine before it what the page shows. `end` is what the page knows of the run's end, after Stop
  // for example.
  state({deck, core, count, end}) {
    const search = this.search(deck, core), {machine} = search;
    machine.last ??= end ?? undefined;
    const state = machine.state(count);
    const then = state.count ? machine.machine(state.count - 1) : null, over = state.status !== undefined && then?.tasks.length;
    return {...state, before: then && shownOfBefore(then), remains: over ? remainsOf(then) : null, wrongs: wrongsOf(state, then, machine.operators), end: machine.last ?? null,
      compared: machine.compared, brief: search.brief(state.count)};
  }

  // The first fault of a run: its count, its operator and what was wrong; null where no task ends by a fault.
  fault({deck, core}) {
    const search = this.search(deck, core), count = search.firstFault(), state = this.state({deck, core, count}), wrong = causeOf(state.wrongs);
    return wrong ? {...wrong, count, operator: state.operator} : null;
  }

  // Whether what a task wants holds of no state before this count: a task of the course, or conditions of a sheet.
  isFirst({deck, core, id, find, count}) {
    const {machine} = this.search(deck, core), {holds} = find ? {holds: allOf(find)} : TASKS.find(it => it.id === id);
    for (let at = 1; at < Math.min(count, MOST_BEFORE); at++) if (holds(machine.state(at))) return false;
    return count <= MOST_BEFORE;
  }

  // The least core in which a run doesn't end for want of words.
  coreFor({deck, core}) {
    for (let words = core, tries = 0; tries < 100; tries++) {
      const {status, bytes} = this.program.call(['run', '--core', String(words), '--backing', 'b'], deck, {room: MOST_SHOWN});
      const need = status === 4 && /^NO CORE (\d+) /m.exec(textOf(bytes.subarray(-60)));
      if (!need) return words;
      words = Number(need[1]);
    }
    return null;
  }

  // How much a run pages in a core.
  paging({deck, core}) {
    let told = performance.now();
    return pagingOf(this.program, deck, core, {most: MOST_PAGED, hears: far => {
      if (performance.now() > told + 200) this.post({far, of: this.number});
      if (performance.now() > told + 200) told = performance.now();
    }});
  }

  // What the page needs to begin with a deck: the operators of its jobs, where it ends if that is soon said, and why it
  // can't begin.
  operators({deck, core}) {
    const {machine, sent} = this.search(deck, core);
    sent.clear();
    Object.assign(this, {ahead: [], wanted: null});
    const {status, bytes} = machine.run('run', 1);
    return {operators: machine.operators, end: machine.endWithin(SOON), refused: status > 3 ? {status, text: textOf(bytes)} : null};
  }

  // The state that a search comes to; null if there is none.
  find({deck, core, kind, from, way, what, end}) {
    const count = this.search(deck, core).find(kind, from, way, what);
    return count === null ? null : this.state({deck, core, end, count});
  }
  end({deck, core}) {
    return this.search(deck, core).end();
  }
  firstFault({deck, core}) {
    return this.search(deck, core).firstFault();
  }

  // Asks for states, each a core and a count, and for the briefs of the counts from..to, all to be made when nothing else is asked.
  soon({deck, core, ahead, from, to}) {
    Object.assign(this, {ahead: ahead.map(it => ({...it, deck})), wanted: {deck, core, from, to}});
    if (!this.ticks) setTimeout(() => this.tick());
    this.ticks = true;
  }

  // Makes and sends at once the briefs of the counts from..to that the page hasn't.
  line(wanted) {
    this.wanted = wanted;
    while (this.wanted) this.makeBriefs();
  }

  // Makes one state, or some briefs; questions come in between.
  tick() {
    this.ticks = Boolean(this.ahead.length || this.wanted);
    if (!this.ticks) return;
    if (this.ahead.length) this.makeAhead(this.ahead.shift());
    else this.makeBriefs();
    setTimeout(() => this.tick());
  }

  // Sends a state that the page may want. What fails here is told when it is asked for.
  makeAhead({deck, core, count}) {
    try {
      this.post({deck, core, state: this.state({deck, core, count})});
    } catch {
      this.ahead = [];
    }
  }

  // Makes some briefs, for eight milliseconds, and sends those that the page hasn't.
  makeBriefs() {
    const {deck, core, from, to} = this.wanted, search = this.search(deck, core), until = performance.now() + 8, briefs = [];
    let count = from;
    while (count <= to && (search.briefs.has(count) || performance.now() < until)) {
      const brief = search.brief(count);
      if (!search.sent.has(count)) briefs.push(brief);
      search.sent.add(count);
      count = brief.status === undefined ? count + 1 : to + 1;
    }
    this.post({deck, core, briefs, end: search.machine.last ?? null});
    this.wanted = count > to ? null : {deck, core, from: count, to};
  }
}

// What is shown of a run that has ended: the last machine, of which nothing is new.
function remainsOf({count, tasks, numbers, areas, things, sectorsUsed, coreWords}) {
  return {count, tasks, numbers, areas, things, sectorsUsed, coreWords, freshCells: []};
}

// Of each task that a fault has just ended: its name, the fault, and what was wrong in the machine before.
function wrongsOf({fresh, operator}, before, operators) {
  const endings = before && operator ? fresh.map(endingOf).filter(it => it?.bad) : [];
  return endings.map(({task, name}) => ({task, name, ...(name === 'PARENT' ? {said: '', fits: null, cells: []} : wrongOf(name, before, operator, operators))}));
}

// Of the machine before an operator what the page shows with it: how many records each task had, the topmost one, and the numbers of
// the arrays.
function shownOfBefore({tasks, things}) {
  return {
    tasks: tasks.map(({name, records}) => ({name, records: records.length, top: {level: records.at(-1).level, first: records.at(-1).cells[0]?.text}})),
    things: things.map(({cell, kind, numbers}) => ({cell, kind, numbers})),
  };
}

// Answers the page's messages, each with its number.
export function serve() {
  const desk = new Desk(message => postMessage(message));
  self.onmessage = async ({data: {id, ask, data}}) => postMessage(await desk.answers(id, ask, data));
}
