// What a pupil hands in: a name, and the work of each task that is done, packed into an address. A teacher's page takes it apart, and does
// each work again with its own machine.
import {packedText, unpacked} from '../editor/share.js';
import {isFound, isWritten} from './progress.js';
import {isRight, questionOf} from './predict.js';
import {runWords} from '../machine/program.js';
import {STOPPED} from '../page/client.js';
import {withMistake} from './mistakes.js';
import {withoutNames} from '../names/names.js';
import {withNumbers} from '../page/deck-view.js';

const FORMS = [1, 2]; // the first one had one sheet, and no number and time
const [MOST_OPERATORS, MOST_PRINTED] = [1000000, 1 << 18]; // of a job and of a run that is made again: no task needs as many

// The part of an address that holds a pupil's work: a map from a task's id to its work. `sheets` are the texts of the sheets whose tasks
// are among them, `number` is what a school calls the pupil by, `time` when this was made.
export function packedHand({name, number = '', time = '', version, sheets = [], work}) {
  const all = [...work].map(([id, {deck, core, count = null, halt = null, answer = null, tries = null}]) => [id, deck, core, count, halt, answer, tries]);
  return packedText(JSON.stringify({form: FORMS.at(-1), name, number, time, version, sheets, work: all}));
}

// The same taken apart; fails for what is none.
export async function handedIn(packed) {
  const told = JSON.parse(await unpacked(packed).then(text => (text.startsWith('{') ? text : '{}'))), {form, name, number, time, version, sheet, sheets, work} = told;
  if (!FORMS.includes(form) || !Array.isArray(work)) throw new Error('This address holds no work that was handed in by this version of the page.');
  const entries = work.filter(it => Array.isArray(it) && typeof it[0] === 'string' && typeof it[1] === 'string');
  return {name: String(name || 'nobody'), number: String(number ?? ''), time: String(time ?? ''), version: String(version), sheets: [sheets ?? sheet ?? []].flat().map(String).filter(Boolean),
    work: new Map(entries.map(([id, deck, core, count, halt, answer, tries]) => [id, {deck, core: Number(core), count, halt, answer: answer ?? null, tries: tries ?? null}]))};
}

// The addresses of work in a text, as of many messages pasted together; mail may have cut its lines with the sign =.
export function handsIn(text) {
  return [...new Set([...text.replace(/=\r?\n/g, '').matchAll(/#hand:([\w-]+)/g)].map(found => found[1]))];
}

// A deck without its comments, the room in it and its NOOPs; a label stands before the operator that follows, if a card names it.
function bare(deck) {
  const cards = deck.split('\n').map(card => card.replace(/;.*/, '').trim().replace(/\s+/g, ' ').replace(/(^|: ?)NOOP$/, '$1').trim());
  const named = new Set(cards.map(card => /\S+ (?:\S+:)?([A-Z][A-Z0-9]*)$/.exec(card)?.[1]));
  return cards.map(card => card.replace(/^([A-Z][A-Z0-9]*): ?/, (its, label) => (named.has(label) ? `${label}: ` : ''))).filter(Boolean).join('\n').replaceAll(/: \n/g, ': ');
}

// Of some works of one task, null for none, a letter for each that has the same cards as another, comments and NOOPs left out; else an empty text.
export function sameDecks(works) {
  const bares = works.map(work => (work?.deck.includes('\n') ? bare(work.deck) : '')), letters = new Map();
  for (const it of bares) if (it && !letters.has(it) && bares.indexOf(it) !== bares.lastIndexOf(it)) letters.set(it, String.fromCharCode(97 + letters.size % 26));
  return bares.map(it => letters.get(it) ?? '');
}

// ------------------------------------------------------------ work done again

// A deck whose run is made again: its jobs have no more operators than any task needs.
function bounded(text) {
  return text.replace(/^(\?LIMIT +)(\d+)/gm, (_, card, most) => card + Math.min(Number(most), MOST_OPERATORS));
}

// Answers the question of a task to predict again, with the answer that was given; null where none was handed in.
async function predictAgain(ask, task, {name, raw, text, core, count, answer}) {
  const asks = task.at ? task.at === `${name},${core},${count}` : task.count === count && (task.deck ? raw === task.deck : name === task.on);
  if (answer === null || !asks) return answer === null ? null : false;
  const [now, then] = [await ask('state', {deck: text, core, count}), await ask('state', {deck: text, core, count: count + 1})], question = questionOf(now, then, text);
  return Boolean(question) && isRight(question, String(answer));
}

// Does a work of finding again: is the state at its count what the task wants, and for the first time if it asks for that?
async function findAgain(ask, task, {name, raw, text, core, count}) {
  const state = await ask('state', {deck: text, core, count});
  if (state.count !== count || !isFound(task, {name, text: raw}, state)) return false;
  return !task.first || ask('isFirst', {deck: text, core, id: task.id, find: task.find, count});
}

async function resumeAgain(ask, task, {text, core, halt}) {
  await ask('call', {words: ['image', ...runWords(core).slice(1)], text: `?HALT ${halt}\n${bounded(text)}`});
  const {status, text: printed} = await ask('call', {words: ['resume', '--backing', 'b'], text: '', resumes: true});
  return isWritten(task, {words: ['resume'], text, status, printed, core});
}

// The lines of a run must be the same in another core, too.
export async function sameElsewhere(ask, {text, core}, printed) {
  const other = core < 60000 ? 2 * core + 1 : core - 999, {text: again} = await ask('call', {words: runWords(other), text, room: printed.length + 1000});
  return again === printed;
}

// Whether a deck prints what each test gives, over the numbers of that test.
async function passesTests(ask, {tests = []}, {text, core}) {
  for (const {numbers, lines} of tests) {
    const wanted = lines.map(line => `${line}\n`).join(''), {text: printed} = await ask('call', {words: runWords(core), text: withNumbers(text, 1, numbers), room: wanted.length + 1000});
    if (printed !== wanted) return false;
  }
  return true;
}

// Whether the machine with a task's mistake prints something else of a deck, or nothing, where it refuses the deck's cards.
export async function findsMistake(ask, {mistake}, {text, core}, printed) {
  const {status, text: other} = await ask('call', {words: runWords(core), text: bounded(withMistake(mistake, text)), room: 4 * printed.length + 4096});
  return status !== 2 && other !== printed;
}

// Does a work of writing again. `ask` asks the worker.
export async function writeAgain(ask, task, {text, core, halt}) {
  if (task.resumed) return resumeAgain(ask, task, {text, core, halt});
  const words = task.refused ? ['check'] : runWords(core), {status, text: printed} = await ask('call', {words, text: bounded(text), room: MOST_PRINTED});
  const least = task.leastCore ? await ask('coreFor', {deck: text, core: 256}) : null;
  if (!isWritten(task, {words, text, status, printed, core, least})) return false;
  const its = {text: bounded(text), core};
  if (task.mistake) return findsMistake(ask, task, its, printed);
  return !task.lines || await sameElsewhere(ask, its, printed) && passesTests(ask, task, its);
}

// Whether a work does its task, by this page's own machine; null for a prediction without its answer, as older pages handed it in.
export async function doneAgain(ask, task, work, decks) {
  try {
    const raw = decks.get(work.deck)?.text ?? work.deck, text = withoutNames(raw), name = decks.has(work.deck) ? work.deck : '';
    return await {predict: predictAgain, find: findAgain, write: writeAgain}[task.kind](ask, task, {...work, name, raw, text});
  } catch (problem) {
    if (problem.message === STOPPED) throw problem;
    return false;
  }
}
