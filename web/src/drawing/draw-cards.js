// The cards of the deck with the one just made and the next, and the lines that were printed.
import {element, put, putKept, taskClass} from '../page/elements.js';
import {cardsOf} from '../reader/cards.js';
import {cardKey} from '../machine/search.js';
import {explained} from '../words/messages.js';
import {thunkAt} from '../algol/translation.js';
import {worksOut} from '../words/reading.js';

const [MOST_ROWS, PART] = [1000, 300]; // of a long deck a part has rows, that around the card that is made
const lists = new WeakMap(); // by its box: the cards, what makes their rows, and which ones have rows

// A row: the button that sets a breakpoint, and a text.
function row(key, kind, shown, said, text, toggle) {
  const button = element('button', {type: 'button', tabindex: -1, class: 'stop', 'aria-pressed': 'false',
    'aria-label': `breakpoint at ${said}`, onclick: () => toggle(key)}, shown);
  return element('li', {'data-key': key, class: kind}, button, element('span', {class: 'card', onclick: () => toggle(key)}, text));
}

// A card as a row, with its comment apart.
function cardRow(card, number, toggle, help) {
  const command = card.startsWith('?'), at = command ? -1 : card.indexOf(';');
  const kind = command ? 'command' : /^(SEGMENT|ROW)/.test(card) ? 'heading' : '';
  const text = at >= 0 ? [card.slice(0, at), element('span', {class: 'comment'}, card.slice(at))] : [card || ' '];
  const made = row(String(number), kind, String(number), `card ${number}`, text, toggle), said = [at >= 0 && card.slice(at), help(card)].filter(Boolean).join('\n');
  if (said) made.lastChild.title = said;
  return made;
}

// A program without cards: its operators, by their places.
function operatorRows(operators, job, toggle) {
  return Object.entries(operators).map(([place, [, text]]) => row(`${job}/${place}`, '', place, place, text, toggle));
}

export function showCards(box, deck, operators, toggle, help) {
  const without = operators.flatMap((table, k) => (Object.values(table).some(([card]) => card) ? [] : operatorRows(table, k + 1, toggle)));
  lists.set(box, {cards: cardsOf(deck), toggle, help, without, from: 0, to: 0});
  showRows(box, 1);
}

// A row for cards that have none, as a button that leads to them.
function foldRow(box, text, card) {
  return element('li', {}, element('button', {type: 'button', onclick: () => showRows(box, card)}, text));
}

// Makes the rows of a deck; of a long one those around a card.
function showRows(box, card) {
  const list = lists.get(box), {cards, toggle, help, without} = list, long = cards.length > MOST_ROWS;
  list.from = long ? Math.max(0, Math.min(card - 1 - PART / 2, cards.length - PART)) : 0;
  list.to = long ? list.from + PART : cards.length;
  const rows = cards.slice(list.from, list.to).map((text, k) => cardRow(text, list.from + k + 1, toggle, help)), after = cards.length - list.to;
  put(box, list.from ? foldRow(box, `… ${list.from.toLocaleString('en')} cards before`, list.from - PART / 2) : null, rows,
    after ? foldRow(box, `… ${after.toLocaleString('en')} cards after`, list.to + PART / 2) : null, without);
}

// Makes rows around the card of an operator that has none.
function bringRow(box, operator) {
  const {from, to} = lists.get(box), card = operator?.card;
  if (card && (card <= from || card > to)) showRows(box, card);
}

function rowOf(box, key) {
  return key ? box.querySelector(`[data-key="${key}"]`) : null;
}

function markStop(row, stops) {
  if (!row) return; // an operator of the filling has no card
  row.classList.toggle('stopped', stops);
  row.firstChild.setAttribute('aria-pressed', String(stops));
}

// Marks the card just made, the next one, the one that faults, and the breakpoints, and brings the first one into view.
export function markCards(box, state, stops, faulty) {
  const list = lists.get(box), isNew = list.state !== state; // where a breakpoint is set the list stays as it was scrolled
  list.state = state;
  if (isNew) bringRow(box, state.operator ?? state.next);
  const now = rowOf(box, cardKey(state.operator)), next = rowOf(box, cardKey(state.next)), shown = now ?? next;
  const {scrollTop, clientHeight} = box, at = shown?.offsetTop, moved = isNew || list.height !== clientHeight; // asked before anything changes
  list.height = clientHeight;
  for (const row of box.querySelectorAll('.now, .next, .faulty')) {
    row.classList.remove('now', 'next', 'faulty');
    row.removeAttribute('aria-current');
  }
  now?.classList.add('now');
  now?.setAttribute('aria-current', 'step');
  next?.classList.add('next');
  rowOf(box, faulty ? cardKey(faulty) : '')?.classList.add('faulty');
  for (const row of box.querySelectorAll('.stopped')) if (!stops.has(row.dataset.key)) markStop(row, false);
  for (const key of stops) markStop(rowOf(box, key), true);
  if (moved && shown && (at < scrollTop + 20 || at > scrollTop + clientHeight - 60)) box.scrollTop = at - clientHeight / 2;
}

// The text in ALGOL beside the cards: the line of the operator just made, and that of the next one; a click at a line sets a breakpoint
// where it begins. In a thunk, and in a procedure that a name has entered, it says what is worked out. A text that was written so stands above its cards.
export function showAlgol(box, {algol, state, stops, operators}, stopsAt) {
  box.parentNode.hidden = !algol;
  box.parentNode.parentNode.classList.toggle('written', Boolean(algol?.firsts));
  if (!algol) return;
  if (box.dataset.text !== algol.lines.join('\n')) put(box, algol.lines.map((line, k) => element('li', {onclick: algol.firsts ? () => stopsAt(k) : undefined}, line)));
  box.dataset.text = algol.lines.join('\n');
  const [now, next] = [state.operator, state.next].map(it => box.children[algol.cards.get(it?.card)]);
  const thunk = thunkAt(algol, state.operator?.card), by = thunk || !algol.firsts ? null : worksOut(state, state.last, operators), line = algol.cards.get(by?.card);
  put(box.parentNode.querySelector('#thunk'), thunk ? `thunk: works out ${thunk.text}, line ${thunk.line}` : line === undefined ? '' : `works out ${by.name}, line ${line + 1}`);
  [...box.children].forEach((row, k) => {
    row.classList.toggle('now', row === now);
    row.classList.toggle('next', row === next);
    row.classList.toggle('thunk', Boolean(thunk));
    row.classList.toggle('stopped', Boolean(algol.firsts?.[k]?.some(key => stops.has(key))));
  });
  const {scrollTop, clientHeight} = box, shown = now ?? next;
  if (shown && (shown.offsetTop < scrollTop || shown.offsetTop > scrollTop + clientHeight - 24)) box.scrollTop = shown.offsetTop - clientHeight / 2;
}

// A line, in the colour of its task; the meaning of a fault below it. Its causes stand where the machine before it is known.
export function lineRow(line, rows, fresh) {
  const task = /^\d+\.\d+ /.test(line) ? taskClass(line.split(' ')[0]) : '';
  const said = rows && /^\d+\.\d+ ENDED$/.test(line) ? null : rows && explained(rows, line);
  return [element('div', {class: `line ${task} ${fresh ? 'fresh' : ''}`}, line), said ? element('div', {class: 'meaning'}, said.means) : null];
}

// The lines that were printed, the last one in view.
export function showPrinted(box, {total, shown}, fresh) {
  const hidden = total - shown.length, last = box.lastChild;
  const lines = shown.map((line, k) => {
    const isFresh = k >= shown.length - fresh;
    return [`${hidden + k} ${isFresh} ${line}`, () => lineRow(line, null, isFresh)[0]];
  });
  putKept(box, [...(hidden ? [[`hidden ${hidden}`, () => element('div', {class: 'dim'}, `… ${hidden.toLocaleString('en')} lines before …`)]] : []),
    ...lines, ...(total ? [] : [['none', () => element('div', {class: 'dim'}, 'Nothing yet.')]])]);
  if (box.lastChild !== last) box.scrollTop = box.scrollHeight;
}
