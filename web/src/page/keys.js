// The keys: what each one does. The help line and the help panel are made from this list.
import {element} from './elements.js';

// key: as the browser names it; shift: it goes backwards with shift; act: what page.js does; short: it stands in the help line.
export const KEYS = [
  {key: 'ArrowRight', sign: '→', act: 'forth', what: 'step: one operator', short: 'step'},
  {key: 'ArrowLeft', sign: '←', act: 'back', what: 'one operator back', short: 'back'},
  {key: 's', act: 'over', shift: true, what: 'step over a call', short: 'over a call'},
  {key: 'u', act: 'out', shift: true, what: 'out of the procedure', short: 'out of it'},
  {key: 'o', act: 'line', shift: true, what: 'next line printed', short: 'next line'},
  {key: 'g', act: 'paging', shift: true, what: 'next paging: words come into core or leave it', short: 'paging'},
  {key: 't', act: 'task', shift: true, what: 'next change of task', short: 'task'},
  {key: 'n', act: 'store', shift: true, what: 'next store into the cell or the array that is followed', short: 'store'},
  {key: 'x', act: 'lost', shift: true, what: 'next store that is lost: another task writes over it, and had fetched the cell before it'},
  {key: 'v', act: 'follow', shift: true, what: 'follow the next cell or array (a click on it does the same)', short: 'follow'},
  {key: 'f', act: 'fault', shift: true, what: 'next fault or end of a task', short: 'fault or end'},
  {key: 'r', act: 'deepest', what: 'the moment at which a stack is the highest of the whole run, in words', short: 'highest stack'},
  {key: 'e', act: 'before', what: 'before the end: the last operator before the first fault, or before the end', short: 'before the end'},
  {key: 'b', act: 'stop', what: 'breakpoint at the next card, or none there (a click on a card does the same)', short: 'breakpoint'},
  {key: 'Enter', act: 'stopped', shift: true, what: 'go to the next breakpoint', short: 'go to it'},
  {key: 'Backspace', act: 'stoppedBack', what: 'back to the breakpoint before'},
  {key: 'ArrowUp', sign: '↑', act: 'cellUp', what: 'the words of the next cell or record upwards: what the mouse finds when it rests there; v then follows the cell', short: 'cell'},
  {key: 'ArrowDown', sign: '↓', act: 'cellDown', what: 'the same downwards'},
  {key: 'q', act: 'quiz', what: 'predict: a question before each step, marked by the machine; again: none', short: 'predict'},
  {key: 'p', act: 'play', what: 'play and stop; the speed stands beside the button', short: 'play'},
  {key: 'Home', act: 'first', what: 'operator 0: the machine before the run'},
  {key: 'End', act: 'last', what: 'the end of the run'},
  {key: 'PageDown', act: 'tenForth', what: 'ten operators'},
  {key: 'PageUp', act: 'tenBack', what: 'ten operators back'},
  {key: 'c', act: 'two', what: 'two cores side by side, or one', short: 'two cores'},
  {key: 'z', act: 'fold', what: 'fold long stacks, or show all records and cells'},
  {key: 'a', act: 'arrows', what: 'all arrows, or those of the running task'},
  {key: 'w', act: 'wide', what: 'the stacks alone, or all', short: 'stacks alone'},
  {key: 'k', act: 'present', what: 'for a class: cards and stacks without bars, in large letters; again: all', short: 'class'},
  {key: 'm', act: 'fit', what: 'all stacks in view, or in the size of the letters', short: 'fit'},
  {key: 'i', act: 'picture', what: 'the picture of the stacks as a file (SVG)'},
  {key: '+', act: 'larger', what: 'larger letters', short: 'larger'},
  {key: '-', act: 'smaller', what: 'smaller letters'},
  {key: 'l', act: 'lessons', what: 'lessons', short: 'lessons'},
  {key: 'd', act: 'edit', what: 'back to the deck', short: 'deck'},
  {key: 'Escape', sign: 'Esc', act: 'escape', what: 'Stop, while something is computed; else close the lessons'},
  {key: '?', act: 'help', what: 'all keys, and how to read the picture', short: 'help'},
];

// Whether letters and signs act as keys; it can be switched off, for those who speak to their computer.
const letters = {on: true};
export function setLetters(on) {
  letters.on = on;
}

// What a pressed key does, with its way; null for a key that does nothing.
export function actOf(key, shift) {
  if (!letters.on && key.length === 1 && key !== ' ') return null;
  const name = key === ' ' ? 'ArrowRight' : key.length === 1 && key !== '?' ? key.toLowerCase() : key;
  const found = KEYS.find(it => it.key === name);
  return found ? {act: found.act, way: shift && found.shift ? -1 : 1} : null;
}

function sign(it) {
  return element('kbd', {}, it.sign ?? it.key);
}

export function helpLine(run) {
  return KEYS.filter(it => it.short).map(it => element('button', {type: 'button', class: 'key', title: it.what, onclick: () => run(it.act, 1)},
    sign(it), ` ${it.short}`));
}

export function helpTable() {
  return element('table', {}, KEYS.map(it => element('tr', {}, element('td', {}, sign(it)), element('td', {}, `${it.what}${it.shift ? '; with shift: backwards' : ''}`))));
}
