// The view of a text in ALGOL 60: the tabs above the editor, the cards that it becomes, and its mistakes, under their lines and in a list.
import {byId, element, put} from '../page/elements.js';
import {cardsOf} from '../reader/cards.js';
import {startOf} from '../editor/cards-area.js';
import {isAlgol, translationOf} from './translation.js';

const [MOST_SHOWN, LONG, REST_MILLISECONDS] = [12, 20000, 400]; // mistakes in the list; characters of a long text, and when it is looked at

export class AlgolView {
  // `editor` has the text; `takes` is called with a deck that is to become one's own.
  constructor(editor, takes) {
    Object.assign(this, {editor, takes, shown: 'algol'});
    for (const name of ['algol', 'cards']) byId(`tab-${name}`).onclick = () => this.show(name);
    byId('take-cards').onclick = () => takes(translationOf(editor.text).deck);
  }

  get on() {
    return isAlgol(this.editor.text);
  }

  // Shows the text, or the cards that it becomes.
  show(name) {
    this.shown = name;
    this.draw();
  }

  // Draws after a change by hand: of a long text when the hand rests.
  soon() {
    clearTimeout(this.waits);
    if (this.editor.text.length < LONG) return this.draw();
    this.waits = setTimeout(() => this.draw(), REST_MILLISECONDS);
  }

  // Draws what depends on the text.
  draw() {
    const {on} = this, cards = on && this.shown === 'cards', {errors, warnings, deck} = on ? translationOf(this.editor.text) : {errors: [], warnings: []};
    byId('tabs').hidden = !on;
    for (const name of ['algol', 'cards']) byId(`tab-${name}`).setAttribute('aria-selected', String(this.shown === name));
    byId('made').hidden = !cards;
    byId('deck').hidden = byId('gutter').hidden = Boolean(cards);
    byId('take-cards').hidden = !cards || !deck;
    byId('deck').setAttribute('aria-label', on ? 'the program in ALGOL 60' : 'the deck, one card on each line');
    if (cards) byId('made').textContent = deck ? cardsOf(deck).map((card, k) => `${String(k + 1).padStart(4)}  ${card}`).join('\n') : 'There are no cards while the program has mistakes.';
    this.mistakes = [...errors.map(it => ({...it, kind: 'error'})), ...warnings.map(it => ({...it, kind: 'warning'}))];
    this.list(errors.length);
    this.under();
  }

  // The mistakes as a list, each a button that leads to it.
  list(errors) {
    const row = it => element('li', {class: it.kind}, element('button', {type: 'button', onclick: () => this.goes(it)}, `line ${it.line}, column ${it.col}`), ` ${it.text}`), more = this.mistakes.length - MOST_SHOWN;
    put(byId('mistakes'), this.mistakes.slice(0, MOST_SHOWN).map(row), more > 0 ? element('li', {class: 'dim'}, `and ${more} more`) : null);
    byId('mistakes').hidden = !this.mistakes.length;
    this.editor.area.wrong = new Set(errors ? this.mistakes.filter(it => it.kind === 'error').map(it => it.line) : []);
    this.editor.area.draw();
  }

  // Puts the caret where a mistake is.
  goes({line, col}) {
    this.show('algol');
    const {area} = this.editor;
    area.goes(line);
    const from = startOf(area.field.value, line - area.first - 1) + col - 1;
    area.field.setSelectionRange(from, from + (/^\w+/.exec(area.field.value.slice(from))?.[0].length ?? 1));
  }

  // The first mistake of each line that is in view: a mark under it, and its sentence under the line, behind what the next line has.
  under() {
    const {area} = this.editor, {field} = area, height = area.height(), letter = letterWidth(field), seen = new Set(), rows = field.value.split('\n');
    const marks = byId('deck').hidden || !this.on ? [] : (this.mistakes ?? []).filter(it => !seen.has(it.line) && seen.add(it.line)).flatMap(it => {
      const top = (it.line - area.first) * height - field.scrollTop + field.offsetTop + parseFloat(getComputedStyle(field).paddingTop);
      if (top < field.offsetTop || top > field.offsetTop + field.clientHeight) return [];
      const left = field.offsetLeft + parseFloat(getComputedStyle(field).paddingLeft) + (it.col - 1) * letter - field.scrollLeft;
      const behind = Math.max(0, (rows[it.line - area.first] ?? '').length + 2 - it.col) * letter;
      return [element('div', {class: `mistake ${it.kind}`, style: `top:${top}px;left:${Math.max(field.offsetLeft, left)}px`}, element('span', {style: `margin-left:${behind}px`}, it.text))];
    });
    put(byId('under'), marks);
  }
}

// The width of a letter of the field, whose letters are all as wide.
function letterWidth(field) {
  const context = document.createElement('canvas').getContext('2d');
  context.font = getComputedStyle(field).font;
  return context.measureText('m'.repeat(100)).width / 100;
}
