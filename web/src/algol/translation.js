// A text in ALGOL 60 in the editor: what it becomes, and which cards are whose. The translator stands in algol/.
import {beside, compile} from '../../../algol/compile.mjs';

// The first program in ALGOL 60, to begin with.
export const START_ALGOL = {core: 4096, about: 'A program in ALGOL 60: term is worked out anew each time that sum uses it. Change it, and Run or Step.',
  text: 'begin integer i; integer array A[1:5];\n  integer procedure sum(k, m, n, term); value m, n; integer k, m, n, term;\n  begin integer s; s := 0;\n    for k := m step 1 until n do s := s + term;\n    sum := s\n  end sum;\n  for i := 1 step 1 until 5 do A[i] := i ^ 2;\n  print(sum(i, 1, 5, A[i]))\nend\n'};

// What a text begins with that is no deck: a line for the run, a comment, or a block.
const BEGINS = /^\s*(?:\$|begin\b|comment\b)/i, [SPARE, MOST_CORE] = [2600, 1048575];

export function isAlgol(text) {
  return BEGINS.test(text) || (!/^\s*\?/m.test(text) && /\bbegin\b/i.test(text));
}

let last = {text: null, made: null};
// What the translator makes of a text; the last one is kept.
export function translationOf(text) {
  if (last.text !== text) last = {text, made: compile(text, {names: true})};
  return last.made;
}

// The text with other numbers for read.
export function withData(text, numbers) {
  const data = numbers.trim().split(/[\s,]+/).filter(Boolean).join(' '), rest = text.replace(/^[ \t]*\$DATA\b.*\n?/gim, '');
  return data ? `$DATA ${data}\n${rest}` : rest;
}

// A core in which a program runs: its stacks and some room, for the usual core is too small for deep recursion.
export function coreFor({stack, deck}) {
  const tasks = deck && /\bNAMC 0,12\b/.test(deck) ? 6 : 1;
  return Math.min(MOST_CORE, stack * tasks + SPARE);
}

// A text in ALGOL 60 that has mistakes.
export class AlgolRefused extends Error {
  constructor(errors) {
    super(`The program has ${errors.length === 1 ? 'a mistake' : `${errors.length} mistakes`}, so there are no cards.`);
    this.errors = errors;
  }
}

// The deck of a text; fails if it has mistakes.
export function deckOf(text) {
  const {deck, errors} = translationOf(text);
  if (!deck) throw new AlgolRefused(errors);
  return deck;
}

// The line of a card, from 1; 0 if it is nobody's.
export function lineOf(text, card) {
  const line = beside(text, translationOf(text)).cards.get(card);
  return line === undefined ? 0 : line + 1;
}

// The text beside its cards: its lines, the line of each card, the cards with which a line begins in each segment, and its segments.
export function algolBeside(text) {
  const made = translationOf(text), {lines, cards} = beside(text, made);
  const firsts = made.lines.map(found => found.filter((card, k) => k === 0 || card !== found[k - 1] + 1).map(String)).slice(1);
  return {lines, cards, firsts, segments: made.segments};
}

// The thunk in which a card stands, null if it stands in none: what it works out, and its line.
export function thunkAt({segments = []}, card) {
  let found = null;
  for (const it of segments) if (it.card < card && it.card >= (found?.card ?? 0)) found = it;
  return found?.kind === 'thunk' ? found : null;
}
