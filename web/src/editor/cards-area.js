// The cards in the editor: the text, and the numbers beside it. Of a long deck a part of some hundred cards stands in the text field, since a
// browser lays out the whole field anew at each key; the rest waits before it and after it. Of the numbers only those in view are made.
import {byId, element, put} from '../page/elements.js';
import {cardsOf} from '../reader/cards.js';

const [PART, MOST_IN_FIELD, MORE] = [400, 1000, 2]; // cards of a part, and those that may stand in the field; numbers above and below what is in view

// The place in a text at which a card begins, from 0 on; the text's length if there is none.
export function startOf(text, card) {
  let at = 0;
  for (let k = 0; k < card && at >= 0; k++) at = text.indexOf('\n', at) + 1 || -1;
  return at < 0 ? text.length : at;
}

// The part of a text around a card, as three texts that together are the text: before it, the part, and after it.
export function partOf(text, card) {
  const cards = cardsOf(text || ' ').length, first = cards <= MOST_IN_FIELD ? 0 : Math.max(0, Math.min(card - 1 - PART / 2, cards - PART));
  if (cards <= MOST_IN_FIELD) return {before: '', part: text, after: '', first, cards};
  const from = startOf(text, first), to = startOf(text, first + PART), last = to === text.length;
  return {before: text.slice(0, from), part: text.slice(from, last ? to : to - 1), after: last ? '' : text.slice(to - 1), first, cards};
}

export class CardsArea {
  constructor() {
    Object.assign(this, {before: '', after: '', first: 0, cards: 1, refused: 0, wrong: new Set()});
  }
  get field() {
    return byId('deck');
  }
  get text() {
    return this.before + this.field.value + this.after;
  }

  // Puts a text into the field, or of a long one the part around a card.
  put(text, card = 1) {
    const {before, part, after, first, cards} = partOf(text, card);
    Object.assign(this, {before, after, first, cards, refused: 0});
    this.field.value = part; // the caret is at its end then
    this.field.scrollTop = 0;
    this.showPart();
    this.draw();
  }
  // After a change by hand: the numbers, and a new part where so many cards came in that the field would be slow.
  changed() {
    const {value} = this.field, now = cardsOf(value || ' ').length;
    this.refused = 0;
    if (now > MOST_IN_FIELD) {
      const {selectionStart} = this.field, at = this.first + value.slice(0, selectionStart).split('\n').length;
      this.put(this.text, at);
      const start = startOf(this.field.value, at - 1 - this.first);
      this.field.setSelectionRange(start, start);
    } else this.part = now;
    this.draw();
  }

  // The strip above a part: which cards it has, and the ways to the others.
  showPart() {
    const {first, cards, field} = this, last = first + cardsOf(field.value || ' ').length, button = (text, card, off) => element('button', {type: 'button', disabled: off, onclick: () => this.goes(card)}, text);
    this.part = last - first;
    byId('part-bar').hidden = cards <= MOST_IN_FIELD;
    if (cards <= MOST_IN_FIELD) return put(byId('part-bar'));
    const goes = (event, focus) => this.goes(Number(event.target.value) || 1, focus);
    const number = element('input', {type: 'number', min: 1, max: cards, 'aria-label': 'card', onchange: event => goes(event, false), onkeydown: event => { if (event.key === 'Enter') goes(event, true); }});
    put(byId('part-bar'), `cards ${first + 1} to ${last} of ${cards.toLocaleString('en')} `, button('◂ before', first + 1 - PART / 2, first === 0), ' ', button('after ▸', last + PART / 2, last >= cards),
      element('label', {}, ' card ', number));
  }
  // Puts the caret at the begin of a card, and brings it into view: a browser would scroll to wherever the caret stands.
  goes(card, focus = true) {
    const to = Math.max(1, Math.min(card, this.cards)), {field} = this;
    this.brings(to);
    const from = startOf(field.value, to - this.first - 1);
    field.setSelectionRange(from, from);
    if (focus) field.focus({preventScroll: true});
    this.brings(to);
    if (focus) return;
    const number = byId('part-bar').querySelector('input'); // made anew with another part
    number.value = to;
    number.focus();
  }

  // Brings a card into the field and into view, with some before it.
  brings(card) {
    if (card <= this.first || card > this.first + this.part) this.put(this.text, card);
    this.field.scrollTop = Math.max(0, (card - this.first - 4) * this.height());
    this.draw();
  }
  // Marks a card as refused; `selects` also puts the caret there.
  marks(card, selects) {
    this.refused = card;
    if (!card) return this.draw();
    this.brings(card);
    this.refused = card;
    this.draw();
    if (!selects) return;
    const {field} = this, from = startOf(field.value, card - this.first - 1), end = field.value.indexOf('\n', from);
    field.focus({preventScroll: true});
    field.setSelectionRange(from, end < 0 ? field.value.length : end);
    field.scrollTop = Math.max(0, (card - this.first - 4) * this.height());
  }

  // The card in which the caret stands: its number and its text.
  cardAtCaret() {
    const {value, selectionStart} = this.field, from = value.lastIndexOf('\n', selectionStart - 1) + 1, to = value.indexOf('\n', selectionStart);
    return [this.first + value.slice(0, selectionStart).split('\n').length, value.slice(from, to < 0 ? value.length : to)];
  }

  // The height of a card, by the letters that the field has now.
  height() {
    return parseFloat(getComputedStyle(this.field).lineHeight) || 20;
  }
  draw() {
    const {scrollTop, clientHeight} = this.field, height = this.height(), top = Math.max(0, Math.floor(scrollTop / height) - MORE);
    const many = Math.min(this.part ?? 1, top + Math.ceil(clientHeight / height) + 2 * MORE + 1) - top, number = k => this.first + top + k + 1;
    const numbers = Array.from({length: Math.max(0, many)}, (_, k) => element('div', {class: number(k) === this.refused ? 'refused' : this.wrong.has(number(k)) ? 'wrong' : undefined}, String(number(k))));
    const column = element('div', {}, numbers);
    column.style.transform = `translateY(${top * height - scrollTop}px)`; // no attribute: a strict policy forbids those
    put(byId('gutter'), column);
  }
}
