// What is done of the course and of sheets, with the work by which it was done, and whether a state or a run does a task. What is done is
// kept in the browser, where it keeps things.
import {keepValue, keptValue} from '../editor/keep.js';

export const WORK = 'b67-work';

// The deck of a task, by its address or by the word `on` of a sheet; empty if the task has cards of its own or none.
export function deckOfTask({at = '', on = ''}) {
  return on || at.split(',')[0];
}

export class Progress {
  constructor(storage) {
    Object.assign(this, {storage, work: new Map(Object.entries(keptValue(storage, WORK) ?? {}))});
  }
  isDone({id}) {
    return this.work.has(id);
  }
  // Marks a task as done by a work: {deck, core} and for a moment {count}. A deck of the page is its name.
  mark({id}, work) {
    const is = !this.isDone({id});
    this.takes([[id, work]]);
    return is;
  }
  // Takes in works beside those that the browser keeps by now, perhaps from another tab.
  takes(works) {
    this.looks();
    for (const [id, work] of works) this.work.set(id, work);
    keepValue(this.storage, WORK, Object.fromEntries(this.work));
  }
  // Looks at what the browser keeps, after another tab has changed it.
  looks() {
    const kept = keptValue(this.storage, WORK);
    if (kept) this.work = new Map(Object.entries(kept));
  }
  forget() {
    this.work.clear();
    keepValue(this.storage, WORK, {});
  }
}

// Whether a state of a deck is one that a task of finding wants; of a first one the worker tells whether it is the first.
export function isFound(task, {name, text}, state) {
  const its = task.deck ? text === task.deck : name === deckOfTask(task);
  return task.kind === 'find' && its && state.count > 0 && task.holds(state);
}

// Whether a deck holds a text, which a comment doesn't count for, or what a pattern says.
function holding(text) {
  const cards = text.replace(/;.*$/gm, '');
  return it => (typeof it === 'string' ? cards.includes(it) : it.test(text));
}

// Whether a deck has what its task wants of it, and nothing that it must lack.
function isOfTask({has = [], lacks = []}, text) {
  const holds = holding(text);
  return [has].flat().every(holds) && ![lacks].flat().some(holds);
}

// Why a run hasn't done a task of writing: the first line that differs, or what the deck lacks or may not have.
export function whyNot({lines = [], has = [], lacks = [], hasSaid = '', lacksSaid = ''}, text, printed) {
  const is = printed.split('\n').slice(0, -1), at = lines.findIndex((line, k) => is[k] !== line), holds = holding(text);
  if (at >= 0) return `Line ${at + 1} ${is[at] === undefined ? 'is missing' : `is ${is[at]}`}, and must be ${lines[at]}.`;
  if (lines.length && is.length > lines.length) return `${lines.length} lines must be printed, and there are ${is.length}.`;
  const missing = [has].flat().find(it => !holds(it)), kept = [lacks].flat().find(holds);
  if (missing !== undefined) return typeof missing === 'string' || hasSaid ? `The lines are right, but the deck lacks ${hasSaid || missing}.` : 'The lines are right, but it isn’t the deck of this exercise any more.';
  return kept === undefined ? '' : `The lines are right, but the deck has ${lacksSaid || kept}.`;
}

// Whether a command does a task of writing by itself; `least` is the least core in which its deck runs.
export function isWritten(task, {words, text, status, printed, core, least}) {
  const lines = printed.split('\n').slice(0, -1), same = (wanted, given = lines) => JSON.stringify(given) === JSON.stringify(wanted), runs = words[0] === 'run';
  if (task.kind !== 'write' || !isOfTask(task, text)) return false;
  if (task.refused) return status === 2 && task.refused.test(printed);
  if (task.resumed) return words[0] === 'resume' && status === 0 && same(task.resumed);
  if (task.leastCore) return runs && status === 0 && core === least;
  if (task.mistake) return runs && status === 0;
  if (task.halts) return runs && status === 3 && same(task.lines, lines.slice(0, -1));
  return runs && status === 0 && same(task.lines);
}
