// Searches through a run: for the next line, paging, change of task, store, fault, end of a call, or breakpoint, and for the highest stack.
// Where none follows a search gives null, but the end of a call may be the run's.
//
// What a search costs. The module looks for a breakpoint, a change of task, the end of a call and the highest stack in one run, from the
// start to what it finds. It finds the first one; the last one before a moment takes about two such runs for each doubling of the distance
// (`lastBefore`). Lines, faults and the run's end are found by halving, from marks, in about three runs. Paging and stores are looked for
// state by state, each made from a mark that is near.
import {endingOf} from '../state/changes.js';
import {touchesOf} from '../words/lost.js';
import {placesOf} from '../reader/cards.js';
import {halved, least, MOST_OPERATORS} from './machine.js';

const MOST_GLANCES = 20000;
const [PLACE, SWITCH, WITHIN, DEEPEST] = [0, 1, 2, 3]; // kinds of the module's searches
const [MADE_MEANWHILE, MOST_NEAR] = [250000, 256]; // operators that a run makes while a search glances at one state; of so many at most
const FIRST_WINDOW = 16;

// What the time line and the searches need of a state.
function briefOf(state) {
  const {count, operator, fresh, changes, tasks, status} = state;
  const endings = fresh.map(endingOf).filter(Boolean);
  return {
    count, status, task: operator?.task ?? '', card: cardKey(operator), text: operator?.text ?? '', lines: fresh.length,
    ends: endings.length > 0, bad: endings.some(it => it.bad) || status > 3,
    stores: changes.flatMap(it => it.into ?? []), ...touchesOf(changes),
    records: Object.fromEntries(tasks.map(task => [task.name, task.records.length])),
    paging: [...new Set(changes.filter(it => it.kind === 'in' || it.kind === 'out').map(it => it.kind))],
  };
}

// The name of the place of an operator for breakpoints: its card, or its place in a job that has no cards.
export function cardKey(operator) {
  if (!operator) return '';
  return operator.card ? String(operator.card) : `${operator.task.split('.')[0]}/${operator.place}`;
}

// The greatest number below `to` at which something holds, null for none; `first` gives the least one from one number on, below another.
// It asks in windows that double, backwards from `to`, and then halves the one in which something was found.
export function lastBefore(first, to) {
  let [found, low, high] = [null, to, to];
  for (let width = FIRST_WINDOW; found === null && low > 0; width *= 2) {
    [low, high] = [Math.max(0, to - width), low];
    found = first(low, high);
  }
  while (found !== null && found + 1 < high) {
    const middle = Math.floor((found + 1 + high) / 2), later = first(middle, high);
    if (later === null) high = middle;
    else found = later;
  }
  return found;
}

// What is sought: that a task goes on with its topmost mark at a height above its stack's base, or lower.
function within(task, height) {
  return {kind: WITHIN, numbers: [...task.split('.').map(Number), height, 0]};
}

export class Search {
  constructor(machine, tell) {
    Object.assign(this, {machine, tell, briefs: new Map(), glances: new Map(), sent: new Set(), told: 0});
  }

  brief(count) {
    if (!this.briefs.has(count)) this.briefs.set(count, briefOf(this.machine.state(count)));
    return this.briefs.get(count);
  }

  // What the machine tells at a glance.
  glance(count) {
    if (!this.glances.has(count)) {
      this.glances.set(count, this.machine.glance(count));
      if (this.glances.size > MOST_GLANCES) this.glances.delete(this.glances.keys().next().value);
    }
    return this.glances.get(count);
  }

  // The count that a search from `from` comes to: forwards (way 1) or backwards (way -1). `what` are the breakpoints, or what is followed.
  find(kind, from, way, what) {
    if (kind === 'line') return way > 0 ? this.nextLine(from) : this.lineBefore(from);
    if (kind === 'fault') return way > 0 ? this.nextLine(from, 'ended') : this.lineBefore(from, 'ended');
    if (kind === 'deepest') return this.deepest();
    if (kind === 'over' || kind === 'out') return way > 0 ? this.endOfCall(kind, from) : this.beforeCall(kind, from);
    if (kind === 'task') return this.asked({kind: SWITCH}, kind, from, way);
    if (kind === 'stopped') return this.asked({kind: PLACE, numbers: placesOf(what, this.machine.operators)}, kind, from, way, what);
    return this.walk(kind, from, way, what);
  }

  // A breakpoint or a change of task, by the module. First as many states are looked at as cost no more than the run up to here.
  asked(sought, kind, from, way, what) {
    const many = Math.min(MOST_NEAR, Math.floor(from / MADE_MEANWHILE)), near = this.walk(kind, from, way, what, many);
    if (near !== undefined) return near;
    this.tell(null);
    const before = way > 0 ? this.machine.find(sought, from + many) : this.last(sought, from - many - 1);
    return before === null ? null : before + 1;
  }
  // The greatest count below `to` at which a kind holds of the next operator; null for none.
  last(sought, to) {
    return lastBefore((low, high) => this.machine.find(sought, low, high), to);
  }

  // The task whose call is meant: of that which the next operator makes or has left (over), or of that in which the last one was made (out).
  callerOf(kind, from) {
    return kind === 'over' && this.glance(from).next?.task || this.brief(from).task;
  }

  // The end of a call: of that which the next operator makes (over), or of that in which the last one was made (out); null after the run's
  // end. The module tells when the task goes on below the record that is left; that record is left by the last operator of the task before
  // that, and is there until then, so this one is found by halving.
  endOfCall(kind, from) {
    const [now, then] = [this.glance(from), this.glance(from + 1)], task = this.callerOf(kind, from), mark = (kind === 'over' ? then : now).entered[task];
    if (now.over) return null;
    if (kind === 'over' && !(mark > now.entered[task])) return from + 1;
    if (mark === undefined) return this.machine.end();
    const isLeft = count => !(this.glance(count).marks[task] >= mark), last = this.machine.find(within(task, mark - 1), from + 1) ?? this.machine.end();
    const left = isLeft(last - 1) ? halved(isLeft, from, last - 1) : last;
    return kind === 'over' && this.glance(left).task !== task ? this.machine.end() : left;
  }

  // The last operator before a call: before that which the last operator has left, or that of the task before if it has left none (over); or
  // before that in which the last one was made (out). The start if there is none.
  beforeCall(kind, from) {
    if (from === 0) return 0;
    const task = this.callerOf(kind, from), [then, now] = [this.glance(from - 1), this.glance(from)], mark = (kind === 'over' ? then : now).entered[task];
    if (kind === 'out') return mark === undefined ? 0 : this.beforeEntry(task, mark, from);
    const before = mark > now.entered[task] ? this.beforeEntry(task, mark, from - 1) : from - 1;
    if (this.glance(before).task === task) return before;
    return (this.last(within(task, this.machine.core), before) ?? -1) + 1;
  }
  // The last count before a record that is there at `to` was entered. It was marked by the last operator that the task made below it.
  beforeEntry(task, mark, to) {
    const isEntered = count => this.glance(count).entered[task] >= mark, low = this.last(within(task, mark - 1), to) ?? 0;
    return isEntered(low) ? low : halved(isEntered, low, to) - 1;
  }

  // The count that prints the next line: any, or one that tells an end or a fault.
  nextLine(from, which) {
    const {machine} = this, now = machine.linesAt(from, which);
    return machine.linesAt(MOST_OPERATORS, which) > now ? least(this.telling(count => machine.linesAt(count, which) > now), from + 1) : null;
  }

  // The count that printed the last such line before `from`.
  lineBefore(from, which) {
    const wanted = this.machine.linesAt(Math.max(from - 1, 0), which);
    return wanted ? least(count => this.machine.linesAt(count, which) >= wanted) : null;
  }

  // The count of the first fault, or else of the end.
  firstFault() {
    return this.nextLine(0, 'faulted') ?? this.end();
  }
  end() {
    const {machine} = this;
    return machine.last ??= least(this.telling(count => !machine.lives(count)));
  }

  // The first count at which the stack of the task that goes on has more words than at any other. Where a run stops for want of core, the
  // moment before is looked at by itself.
  deepest() {
    const found = this.machine.find({kind: DEEPEST}, 0);
    if (found !== null) return found;
    const last = this.machine.end() - 1, before = last > 0 ? this.machine.find({kind: DEEPEST}, 0, last) : null;
    return before !== null && this.glance(before).words >= this.glance(last).words ? before : last;
  }

  // What must hold at a glance for the test of a kind to hold.
  quickOf(kind, what) {
    const made = count => this.glance(count - 1).next;
    if (kind === 'paging') return ({present}, count) => present !== this.glance(count - 1).present;
    if (kind === 'task') return ({task}, count) => task !== this.glance(count - 1).task;
    if (kind === 'store') return (_, count) => /\b(STO[DN]|ENTR)$/.test(made(count)?.text ?? 'ENTR');
    return (_, count) => !made(count) || what.includes(cardKey(made(count)));
  }
  testOf(kind, what) {
    if (kind === 'paging') return count => this.brief(count).paging.length > 0;
    if (kind === 'task') return count => this.brief(count).task !== this.brief(count - 1).task;
    if (kind === 'store') return count => this.brief(count).stores.includes(what);
    return count => what.includes(this.brief(count).card);
  }

  // Tells how far the search has come: up to a count, or back to it, it has found nothing.
  tells(count) {
    this.told = performance.now();
    this.tell(count);
  }
  // A test that tells where it doesn't hold.
  telling(test) {
    return count => {
      const holds = test(count);
      if (!holds) this.tells(count);
      return holds;
    };
  }

  // Goes from state to state until the test of a kind holds. Null if it never does; undefined if it holds of none of so many states.
  walk(kind, from, way, what, most = Infinity) {
    const quick = this.quickOf(kind, what), test = this.testOf(kind, what);
    for (let count = from + way; count > 0; count += way) {
      if (Math.abs(count - from) > most) return undefined;
      if (performance.now() > this.told + 200) this.tells(count - way);
      const glance = this.glance(count);
      if (!glance.over && !quick(glance, count)) continue;
      const brief = this.brief(count), over = brief.count < count;
      if (!over && test(count)) return count;
      if (over || brief.status !== undefined && way > 0) return null;
    }
    return null;
  }
}
