// The marks of a class: of what pupils have handed in, which works a machine finds again. No part of it draws; the page shows these rows as
// a table, and b67.mjs prints them.
import {COURSE} from './course.js';
import {doneAgain, handedIn, handsIn, sameDecks} from './handin.js';
import {seedOf} from './draw.js';
import {newestOf, sheetOf, taskFor} from './sheet.js';
import {unpacked} from '../editor/share.js';

// The hands in a text of many messages: {part, hand}, and how many can't be read. Of one pupil, by number or else by name, all but the
// newest are `older`.
export async function handsOf(text) {
  const found = await Promise.all(handsIn(text).map(async part => ({part, hand: await handedIn(part).catch(() => null)})));
  const read = found.filter(it => it.hand), whose = ({hand}) => hand.number || hand.name, newest = new Map();
  for (const it of read) if (!(newest.get(whose(it))?.hand.time > it.hand.time)) newest.set(whose(it), it);
  return {hands: read.map(it => ({...it, older: newest.get(whose(it)) !== it})), broken: found.length - read.length};
}

// The sheets that a teacher keeps, with their tests: of a text that is one, or that has links to some. Fails where it's neither.
export async function keysOf(text, decks) {
  const links = [...text.matchAll(/#sheet:([\w-]+)/g)], texts = await Promise.all(links.map(([, part]) => unpacked(part)));
  return (links.length ? texts : [text].filter(it => it.trim())).map(it => sheetOf(it, decks));
}

// The sheets of some hands, of each the newest version; one that can't be read is left out. A key stands in the place of the pupils' own sheet.
// Numbers of one's own are drawn by `seed`.
export function sheetsOf(hands, decks, keys = [], seed = '') {
  const sheets = newestOf([...new Set(hands.flatMap(({sheets}) => sheets))].flatMap(text => {
    try {
      return [sheetOf(text, decks, seed)];
    } catch {
      return [];
    }
  }));
  return sheets.map(sheet => keys.find(it => it.key === sheet.key) ?? sheet);
}

// The tasks that works can be about: those of sheets, and those of the lessons.
export function tasksFor(hands, decks, keys) {
  return [...sheetsOf(hands, decks, keys), ...COURSE].flatMap(it => it.tasks);
}

// The short name of a task above its column.
export function columnOf({id, number}, tasks) {
  const sheets = [...new Set(tasks.map(it => it.sheet).filter(Boolean))], at = sheets.indexOf(id.split('/')[0]);
  return number ? `s${sheets.length > 1 ? `${at + 1}.` : ''}${number}` : id;
}

// Does each work of a hand again: a map from its tasks' ids to true, false, or null where nothing can be said. `hears` is told after each.
// `seen` has what came of the works of others, since many of a class are equal.
export async function marksOf(ask, hand, tasks, decks, {seen = new Map(), hears = () => {}} = {}) {
  const marks = new Map(), seed = seedOf(hand);
  for (const task of tasks.filter(it => hand.work.has(it.id))) {
    const work = hand.work.get(task.id), its = JSON.stringify([task.id, task.drawn ? seed : '', {...work, tries: 0}]);
    if (!seen.has(its)) seen.set(its, await doneAgain(ask, taskFor(task, seed, decks), work, decks));
    marks.set(task.id, seen.get(its));
    hears(marks);
  }
  return marks;
}

// How many works were handed in, came out again, did not, and say nothing.
export function sumsOf(hand, tasks, marks) {
  const all = [...marks?.values() ?? []], count = is => all.filter(it => it === is).length;
  return {claimed: tasks.filter(({id}) => hand.work.has(id)).length, again: count(true), not: count(false), told: count(null)};
}

// How many wrong answers to questions came before the right ones.
export function wrongAnswersOf({work}) {
  return [...work.values()].reduce((sum, {tries}) => sum + (tries > 1 ? tries - 1 : 0), 0);
}

// The letters of equal decks, by task: for each hand one.
export function lettersOf(hands, tasks) {
  return new Map(tasks.map(({id}) => [id, sameDecks(hands.map(({hand}) => hand.work.get(id) ?? null))]));
}

// A field of a table that spreadsheets read: a text that would be taken for a formula is none any more.
function field(value) {
  const text = String(value ?? '').replace(/^[=+\-@\t\r]/, "'$&");
  return /[",\r\n]/.test(text) ? `"${text.replaceAll('"', '""')}"` : text;
}
// A table as commas separate it; each line is a list of values.
export function csvOf(lines) {
  return lines.map(line => `${line.map(field).join(',')}\n`).join('');
}

// The table of a class: of each task 1 for a work that came out again, 0 for one that didn't, t for one that only the pupil's page can
// tell, and ? for one that wasn't done again; nothing for none.
export function linesOf(hands, tasks, marksFor) {
  const sign = (hand, marks, id) => (!hand.work.has(id) ? '' : !marks?.has(id) ? '?' : {true: 1, false: 0, null: 't'}[marks.get(id)]);
  const head = ['id', 'name', 'time', 'older', 'claimed', 'total', 'not so', 'told', 'wrong answers', 'same decks', ...tasks.map(task => columnOf(task, tasks))], letters = lettersOf(hands, tasks);
  return [head, ...hands.map(({part, hand, older}, k) => {
    const marks = marksFor(part), {claimed, again, not, told} = sumsOf(hand, tasks, marks), same = tasks.filter(({id}) => letters.get(id)[k]).length;
    return [hand.number, hand.name, hand.time, older ? 'older' : '', claimed, again, not, told, wrongAnswersOf(hand), same, ...tasks.map(({id}) => sign(hand, marks, id))];
  })];
}
