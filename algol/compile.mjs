// ALGOL 60 to cards: a translator beside the machine. What runs is the deck that it makes.
// A page imports this module: compile(text) gives {deck, errors, warnings, lines, cells, segments}. algol.mjs is the command.

import {lex} from './lex.mjs';
import {Parser} from './parse.mjs';
import {Checker} from './check.mjs';
import {Passing, segmentsOf} from './pass.mjs';
import {Generator} from './generate.mjs';
import {finish, limits, write} from './deck.mjs';
import {displacement, PARTS} from './segments.mjs';
import {stackFor} from './stack.mjs';

const MOST_ERRORS = 50;
const LONGEST = 500000, LONGEST_DECK = 4194304;

// Errors or warnings: one for each place, sorted by places at the end.
class Told {
  constructor() { this.list = []; this.places = new Set(); }
  add(at, text) {
    const place = `${at.line} ${at.col}`;
    if (this.list.length >= MOST_ERRORS || this.places.has(place)) return;
    this.places.add(place);
    this.list.push({line: at.line, col: at.col, text});
  }
  get sorted() { return this.list.sort((a, b) => a.line - b.line || a.col - b.col); }
}

// The segments of a text, and what its `$` lines say; null if there are errors.
function segmentsFrom(text, fail, warn, errors) {
  const {tokens, options} = lex(text, fail, warn), parser = new Parser(tokens, fail), tree = parser.program();
  const checker = new Checker(fail, parser.lost);
  checker.program(tree);
  new Passing(checker).all();
  if (errors.list.length) return null;
  const made = new Generator(checker.arrays.filter(d => d.own), tokens).program(tree), tasks = checker.processes.flatMap(call => segmentsOf(call.sym));
  options.stack ??= stackFor([tree.seg, ...tasks], tasks.length > 0);
  const segs = finish(made);
  limits(segs, fail);
  return {made, segs, options};
}

// Translates a program. Without errors: its deck, the cards of each line, and its cells and segments. Else `deck` is null.
// With `names` the deck has CELL comments besides.
export function compile(text, {names = false} = {}) {
  const errors = new Told(), warnings = new Told(), fail = (at, told) => errors.add(at, told), warn = (at, told) => warnings.add(at, told);
  const done = more => ({deck: null, errors: errors.sorted, warnings: warnings.sorted, lines: [], cells: [], segments: [], stack: 0, ...more});
  if (text.length > LONGEST) { fail({line: 1, col: 1}, `A program has ${LONGEST} characters at most.`); return done(); }
  const found = segmentsFrom(text, fail, warn, errors);
  if (!found || errors.list.length) return done();
  const {cards, lines} = write(text, found.segs, found.options, names), deck = cards.join('\n') + '\n';
  if (deck.length > LONGEST_DECK) { fail({line: 1, col: 1}, `The deck would have more than ${LONGEST_DECK} characters.`); return done(); }
  return done({deck, lines: Array.from(lines, it => it ?? []), cells: cellsOf(found.made), segments: segmentsTold(found.made), stack: found.options.stack});
}

// The segments as a picture wants them: `card` is that before their first operator, also of one that is carried by another.
const segmentsTold = segs => segs.map(seg => ({name: (seg.carrier ?? seg).card, entry: seg.entry?.name ?? '', kind: seg.kind, level: seg.level, line: seg.line, text: seg.text ?? seg.name, card: seg.at}));

// The cells of all segments, for a picture that shows variables by name.
const cellsOf = segs => segs.flatMap(seg => PARTS.flatMap(part => seg.parts[part]).map(cell => ({segment: (seg.carrier ?? seg).card, level: seg.level, displacement: displacement(cell),
  name: cell.name, part: cell.part, line: cell.line ?? 0})));

// The text and its cards as web/algol.js has them: the lines, and for each card the number of its line, from 0.
export function beside(text, {lines}) {
  const cards = new Map();
  lines.forEach((found, line) => { for (const card of found) cards.set(card, line - 1); });
  return {lines: text.split('\n'), cards};
}
