// The view of the deck: the editor, the commands, and what they print.
import {byId, element, put} from './elements.js';
import {cardsOf, jobsOf} from '../reader/cards.js';
import {lineRow} from '../drawing/draw-cards.js';
import {endingOf} from '../state/changes.js';
import {explained, statusText} from '../words/messages.js';
import {fittingCauses, fittingMeaning} from '../words/faults.js';

const [MOST_LINES, LAST_LINES] = [2000, 200];

// What status 0 means, by command.
const DONE = {
  run: 'All tasks have ended.',
  check: 'The deck is admitted: each job with its segments and data rows.',
  resume: 'All tasks have ended. These are the lines that the run had still to print.',
  exercise: 'All tasks have ended.',
  bind: 'These digits are the codefile of the bound program.',
  image: 'All tasks ended before that count, so there is no image.',
};

// The numbers of a job's ?DATA cards.
export function numbersForRead(deck, job) {
  let [at, inside, found] = [0, false, []];
  for (const card of cardsOf(deck)) {
    if (card.startsWith('?JOB')) at++;
    if (card.startsWith('?')) inside = card.startsWith('?DATA') && at === job;
    else if (inside) found.push(card.trim());
  }
  return found.filter(Boolean).join(' ');
}

// The deck with other numbers for a job, on cards of at most 80 characters; without numbers the job has no ?DATA.
export function withNumbers(deck, job, numbers) {
  const data = numbers.trim().split(/[\s,]+/).filter(Boolean).join(' ').match(/.{1,80}(?: |$)/g) ?? [];
  let [at, inside] = [0, false];
  const cards = cardsOf(deck).flatMap(card => {
    if (card.startsWith('?JOB')) at++;
    if (card.startsWith('?')) inside = card.startsWith('?DATA') && at === job;
    if (inside) return [];
    return card.startsWith('?END') && at === job && data.length ? ['?DATA', ...data.map(it => it.trim()), card] : [card];
  });
  return `${cards.join('\n')}\n`;
}

// Whether a command has done what was wanted: a halt is wanted, a fault isn't.
function outcomeOf(status, lines) {
  if (status === 3) return 'halted';
  return status || lines.some(line => endingOf(line)?.bad) ? 'bad' : '';
}

// Says where a run met its first fault, and what was wrong there; `look` shows the machine before it, `card` is marked.
export function showFault(rows, fault, look) {
  const {task, name, count, operator, said, fits, after} = fault, row = explained(rows, `${task} ${name}`), place = operator.card ? `card ${operator.card}` : after ? `after card ${after}` : `the place ${operator.place}`;
  const causes = fittingCauses(row?.advice ?? '', fits);
  put(byId('outcome').querySelector('.fault-told') ?? byId('outcome').appendChild(element('div', {class: 'fault-told'})),
    element('p', {}, `Task ${task} ended by ${name} at operator ${count.toLocaleString('en')}, ${place}`, after ? `. ${said}` : [': ', element('strong', {}, operator.text), `. ${fittingMeaning(row?.means, fault)} ${said}`]),
    causes ? element('p', {class: 'dim'}, causes) : null,
    element('p', {}, element('button', {type: 'button', id: 'look', onclick: look}, 'Look at the machine before it')));
}

// A button that does what helps, below what a command has given.
export function offer(text, act) {
  byId('outcome').append(element('p', {}, element('button', {type: 'button', class: 'offer', onclick: act}, text)));
}

// What a command has given: its status with its meaning, the lines, and what a refusal or a fault means. Gives the card that is refused, or 0.
export function showResult(rows, {words, status, text, milliseconds, place, byHand, word}, refusedOf = 'deck') {
  const lines = text.split('\n').slice(0, -1), last = lines.at(-1) ?? '', said = status === 2 ? explained(rows, last, byHand) : null;
  const faulty = lines.some(line => endingOf(line)?.bad);
  const {means, advice} = said ?? (status ? statusText(rows, status, last) : {means: DONE[words[0]], advice: ''}), head = said ? last : `${words[0]}: status ${status}`;
  put(byId('outcome'), element('p', {class: `status ${outcomeOf(status, lines)}`},
    element('strong', {}, word || (!said && faulty ? 'A task ended by a fault.' : `${head}.`), ' '), word ? element('span', {class: 'dim'}, `${head}. ${means} ${advice}`) : `${!said && faulty ? `${head}. ` : ''}${means} ${advice}`,
    place?.[0] ? ` It is card ${place[0]}: ${place[1]}.` : '', element('span', {class: 'dim'}, ` ${Math.ceil(milliseconds)} ms`)));
  showRan(resultRows(lines, said ? null : rows));
  return refusedOf === 'deck' ? place?.[0] || said?.card || 0 : 0;
}

// Says why a deck can't be given to the machine.
export function showRefusal(sentence) {
  put(byId('outcome'), element('p', {class: 'status bad'}, sentence));
  showRan([]);
}
// The lines; the key Tab comes to them if there are some, since they may have to be scrolled.
export function showRan(rows) {
  byId('old').hidden = true;
  put(byId('ran'), rows);
  byId('ran').tabIndex = rows.length ? 0 : -1;
}

// The lines, and of very many the first and the last ones.
function resultRows(lines, rows) {
  const hidden = lines.length - MOST_LINES, gap = MOST_LINES - LAST_LINES;
  if (hidden <= 0) return lines.map(line => lineRow(line, rows, false));
  const note = element('div', {class: 'dim'}, `… ${hidden.toLocaleString('en')} lines …`);
  return [lines.slice(0, gap), lines.slice(-LAST_LINES)].flatMap((part, k) => [k ? note : null, ...part.map(line => lineRow(line, rows, false))]);
}

// The jobs of the deck in the list beside READ's numbers.
export function showJobs(deck) {
  const list = byId('job'), kept = Number(list.value) || 1, jobs = jobsOf(deck);
  put(list, (jobs.length ? jobs : ['']).map((name, k) => element('option', {value: k + 1}, `${k + 1} ${name}`)));
  list.value = String(Math.min(kept, Math.max(1, jobs.length)));
  byId('numbers').value = numbersForRead(deck, Number(list.value));
}
