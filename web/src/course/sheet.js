// A sheet: tasks of a teacher's own, written as a text. A line is a word, a colon and what it says; the cards of a deck stand below `deck:`,
// up to the next `task:`. Before the first task may stand `title:`, and `id:`, a name by which marks are kept: a sheet of the same id and a
// greater `version:` takes the place of the one before, and the work stays, task by task. The words of a task:
//
//     task: a name              ask: the question; several lines are one text
//     deck: the cards below     on: a deck of the page            core: words of core        at: the operator at which it opens
//     prints: a line (all of them, in order)    refused: ASM 6 REASON 1      has: a text of the deck       lacks: another
//     find: a condition (all must hold)         first: yes                   predict: the operator before the question
//     test: other numbers for READ              gives: a line that a right deck prints then (all of them, in order)
//     draw: a 2 to 9, a number of one's own for each pupil; {a * a} in other lines is worked out of it (draw.js)
//
// With its tests, which `sharedSheet` leaves out, a sheet is the teacher's key: the tests are made when work is done again.
import {allOf, conditionOf, CONDITIONS} from './conditions.js';
import {drawOf, drawn, filled} from './draw.js';

const MANY = ['ask', 'prints', 'has', 'lacks', 'find'];
const OF_TESTS = ['test', 'gives'];
const ONE = ['on', 'core', 'at', 'refused', 'first', 'predict'];
export const EXAMPLE = `title: A sheet of my own
id: my-sheet-1
version: 1

task: Two and three
ask: Change the deck so that it prints 7.
prints: 1.1 7
prints: 1.1 ENDED
core: 4096
deck:
?JOB SUM
?ASM
SEGMENT MAIN 2
MKST
NAMC 0,9
LT8 2
LT8 3
ADD
ENTR
EXIT
?END

task: Which array leaves?
ask: Two arrays, and a core with room for one. Go to the operator at which an array leaves core for the first time.
on: two
core: 630
find: leaves core
find: operator STOD
first: yes
`;

class SheetRefused extends Error {
  constructor(line, sentence) {
    super(`Line ${line} of the sheet: ${sentence}`);
  }
}

// The lines of a task: a list of texts for each word that may stand more than once, else a text; the deck's cards; and where it begins.
function newTask(name, line) {
  return {name, line, ask: [], prints: [], has: [], lacks: [], find: [], tests: [], draws: [], cards: null};
}

// A line of a test: its numbers, or a line that is printed then.
function takeTest({tests}, word, text, line) {
  if (word === 'test' && /^(-?\d+( +-?\d+)*)?$/.test(text)) tests.push({numbers: text, lines: []});
  else if (word === 'gives' && tests.length) tests.at(-1).lines.push(text);
  else throw new SheetRefused(line, word === 'test' ? 'test: wants numbers, separated by spaces.' : 'gives: stands below a test:.');
}

function takeDraw({draws}, text, line) {
  const its = drawOf(text);
  if (!its) throw new SheetRefused(line, 'draw: is a name, a number, to, and a greater number, as in draw: a 2 to 9.');
  draws.push(its);
}

function takeLine(task, word, text, line) {
  if (OF_TESTS.includes(word)) return takeTest(task, word, text, line);
  if (word === 'draw') return takeDraw(task, text, line);
  if (MANY.includes(word)) task[word].push(text);
  else if (ONE.includes(word) && task[word] === undefined) task[word] = text;
  else throw new SheetRefused(line, ONE.includes(word) ? `${word}: stands twice in one task.` : `${word}: is no word of a sheet: they are task, ask, deck, on, core, at, prints, refused, has, lacks, find, first, predict, test, gives, draw.`);
  if (word === 'find' && !conditionOf(text)) throw new SheetRefused(line, `“${text}” is no condition. Some are: ${CONDITIONS.join('; ')}.`);
  if (['core', 'at', 'predict'].includes(word) && !/^\d+$/.test(text)) throw new SheetRefused(line, `${word}: wants a number.`);
}

// The parts of a text: its title, and its tasks as they are written.
function partsOf(text) {
  const tasks = [], lines = text.replaceAll('\r', '').split('\n');
  const its = {title: '', id: '', version: ''};
  lines.forEach((line, k) => {
    const task = tasks.at(-1), begins = /^task:\s*(.*)$/.exec(line), found = /^([a-z]+):\s*(.*?)\s*$/.exec(line);
    if (begins) tasks.push(newTask(begins[1].trim(), k + 1));
    else if (task?.cards) task.cards.push(line);
    else if (found?.[1] in its && !task) its[found[1]] = found[2];
    else if (found?.[1] === 'deck' && task) task.cards = found[2] ? [found[2]] : [];
    else if (found && task) takeLine(task, found[1], found[2], k + 1);
    else if (line.trim()) throw new SheetRefused(k + 1, task ? 'a line is a word, a colon, and a text, as in ask: What is printed?' : 'a sheet begins with title:, id:, version: or task:.');
    if (found?.[1] === 'version' && !task && !/^\d+$/.test(found[2])) throw new SheetRefused(k + 1, 'version: wants a number.');
  });
  if (!tasks.length) throw new SheetRefused(lines.length, 'it has no task: write task: and a name.');
  return {...its, tasks};
}

// The kind of a task, by what must hold.
function kindOf({prints, refused, find, predict, line}) {
  const kinds = [predict !== undefined && 'predict', find.length && 'find', (prints.length || refused) && 'write'].filter(Boolean);
  if (kinds.length === 1) return kinds[0];
  throw new SheetRefused(line, kinds.length ? `this task is of several kinds: ${kinds.join(', ')}. Make a task of each.` : 'nothing says when this task is done: prints:, refused:, find: or predict:.');
}

// A task with the numbers of a pupil in the place of what stands in braces; without a seed as it is written, once it was tried.
function withNumbers(written, seed, where) {
  const numbers = drawn(written.draws, seed || 'nobody', where), fill = text => {
    try {
      return filled(text, numbers);
    } catch ({message}) {
      throw new SheetRefused(written.line, `this task has braces: ${message}`);
    }
  };
  const its = {...written, ...Object.fromEntries(['ask', 'prints', 'has', 'lacks'].map(word => [word, written[word].map(fill)])), name: fill(written.name), cards: written.cards?.map(fill),
    tests: written.tests.map(test => ({...test, lines: test.lines.map(fill)}))};
  return seed ? its : written;
}

// A task of a sheet as the course has tasks; `drawn` is the sheet's text, if the task has numbers of one's own.
function taskOf(task, number, key, decks, {text: sheet, seed}) {
  const written = task.draws.length ? withNumbers(task, seed, `${key}/${number}`) : task, {name, ask, prints, refused, has, lacks, find, first, predict, on, at, core, line, tests} = written, kind = kindOf(written);
  if (tests.length && (!prints.length || tests.some(it => !it.lines.length))) throw new SheetRefused(line, 'a test: stands in a task with prints:, and below each are its lines, gives:.');
  if (!ask.length) throw new SheetRefused(line, 'this task asks nothing: write ask: and a question.');
  if (on && !decks.has(on)) throw new SheetRefused(line, `the page has no deck ${on}.`);
  const text = written.cards && `${written.cards.join('\n').trim()}\n`;
  if (kind !== 'write' && !text && !on) throw new SheetRefused(line, 'this task wants a deck: deck: with cards below it, or on: and a name.');
  return {id: `${key}/${number}`, sheet: key, number, kind, ...(task.draws.length && {drawn: sheet}), name, text: ask.join(' '), has, lacks, deck: text, on,
    core: Number(core ?? (on ? decks.get(on).core : 4096)), count: at === undefined && kind === 'write' ? null : Number(predict ?? at ?? 0),
    ...(kind === 'find' && {find, holds: allOf(find), first: /^y/.test(first ?? '')}), ...(prints.length && {lines: prints, tests}), ...(refused && {refused: new RegExp(`^${refused.replace(/[^A-Z0-9 ]/g, '')}\\b`), refusal: refused})};
}

// A short name for a text, by which its marks are kept.
function keyOf(text) {
  let sum = 2166136261;
  for (const sign of text) sum = Math.imul(sum ^ sign.codePointAt(0), 16777619);
  return `s${(sum >>> 0).toString(36)}`;
}

// The key of the sheet that a text is; of a text that is none nothing.
export function keyOfSheet(text) {
  try {
    const {id} = partsOf(text);
    return keyOf(id ? `id:${id}` : text);
  } catch {
    return '';
  }
}

// A task as a pupil has it, with the pupil's own numbers.
export function taskFor(task, seed, decks) {
  return task.drawn ? sheetOf(task.drawn, decks, seed).tasks[task.number - 1] : task;
}

// Of sheets the newest one of each key, in their order.
export function newestOf(sheets) {
  const best = new Map();
  for (const sheet of sheets) if (!(best.get(sheet.key)?.version > sheet.version)) best.set(sheet.key, sheet);
  return [...best.values()];
}

// The text of a sheet as pupils get it, without its tests. Cards stand as they are.
export function sharedSheet(text) {
  let inDeck = false;
  return text.split('\n').filter(line => {
    if (/^(task|deck):/.test(line)) inDeck = line.startsWith('deck:');
    return inDeck || !/^(test|gives):/.test(line);
  }).join('\n');
}

// The sheet that a text is: {key, title, id, version, text, tasks}; fails with the line and a sentence. `decks` are those of the page, `seed` is
// what a pupil's own numbers are drawn by.
export function sheetOf(text, decks, seed = '') {
  const {title, id, version, tasks} = partsOf(text), key = keyOfSheet(text), tested = tasks.find(it => it.tests.length);
  if (tested && !id) throw new SheetRefused(tested.line, 'a sheet with test: wants an id: of its own before its tasks, by which work finds its tests.');
  return {key, title: title || 'Exercises of your teacher', id, version: Number(version), text, tasks: tasks.map((task, k) => taskOf(task, k + 1, key, decks, {text, seed}))};
}
