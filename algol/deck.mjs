// Makes a deck of segments: their cards with names, labels and comments, and what the machine's limits forbid.

import {displacement, NONE, PARTS} from './segments.mjs';

const [MOST_SEGMENTS, MOST_ENTRIES, MOST_WORDS, MOST_LEVEL, MOST_OF_CARD, MOST_OF_NAME] = [255, 255, 8191, 31, 80, 24];
const LITERALS = new Set(['LT48', 'MPCW']);
const BRANCHES = new Set(['BRUN', 'BRTR', 'BRFL']);
// How segments are called that have no name in the program, and what their heading says.
const NAMES = {thunk: 'T', block: 'BLOCK', label: 'LABEL', switch: 'SWITCH'};
const HEADINGS = {procedure: seg => `procedure ${seg.name}`, wrapper: seg => `${seg.name} with arguments by name`, thunk: seg => `${seg.text}, by name`, block: () => 'a block with arrays',
  label: () => 'a label as an argument', switch: () => 'a switch as an argument', program: () => 'the outer block'};

// The greatest displacement of a couple in a segment of this level.
const greatest = level => level < 4 ? 4095 : level < 8 ? 2047 : level < 16 ? 1023 : 511;
// The syllables of an operator; a literal has a word besides.
const syllables = op => op === 'VALC' || op === 'NAMC' || op === 'LT8' ? 2 : op === 'LT16' || BRANCHES.has(op) ? 3 : 1;

// The words that some cards take; `from` counts syllables.
function wordsOf(cards, from = 0) {
  let at = from;
  for (const {op} of cards) {
    at += syllables(op);
    if (LITERALS.has(op)) at = 6 * Math.ceil(at / 6) + 6;
  }
  return Math.ceil(at / 6);
}

// Puts the cards that make a segment's cells before its code.
function complete(seg) {
  const made = seg.parts.pcw.map(cell => ({op: 'MPCW', arg: cell.target, line: cell.line ?? 0, labels: NONE, makes: cell}));
  for (const cell of seg.parts.var) {
    const n = cell.init ?? 0, m = Math.abs(n), line = cell.at ?? cell.line ?? 0;
    made.push({op: m > 1 ? 'LT8' : m ? 'ONE' : 'ZERO', arg: m > 1 ? m : undefined, line, labels: NONE, makes: cell});
    if (n < 0) made.push({op: 'CHSN', line, labels: NONE});
  }
  if (seg.waiting.length) seg.code.push({op: 'EXIT', line: seg.line, labels: seg.waiting.splice(0)});
  seg.code = made.concat(seg.code);
}

// If there are too many segments, puts thunks of one level into one segment, each at an entry of its own.
function pack(segs) {
  if (segs.length <= MOST_SEGMENTS) return segs;
  const left = [], carriers = new Map();
  for (const seg of segs) {
    const carrier = carriers.get(seg.level), small = Object.hasOwn(NAMES, seg.kind) && seg.kind !== 'block';
    if (small && carrier && carrier.entries.length < MOST_ENTRIES && wordsOf(carrier.code) + wordsOf(seg.code) + 1 < MOST_WORDS / 4) { carry(carrier, seg); continue; }
    if (small) carriers.set(seg.level, Object.assign(seg, {entries: []}));
    left.push(seg);
  }
  return left;
}
// Puts a segment behind another one, with an entry where it begins.
function carry(carrier, seg) {
  seg.carrier = carrier;
  seg.entry = {};
  seg.code[0].labels = [...seg.code[0].labels, seg.entry];
  seg.code[0].begins = seg;
  carrier.entries.push(seg.entry);
  carrier.code = carrier.code.concat(seg.code);
}

// Gives each segment a name of its own for its card.
function name(segs) {
  const taken = new Map();
  for (const seg of segs) {
    const known = NAMES[seg.kind], base = known ?? seg.name.toUpperCase().slice(0, 12);
    let n = taken.get(base) ?? (known ? 1 : 0);
    while (taken.has(seg.card = n ? base + n : base)) n++;
    taken.set(base, n + 1);
    taken.set(seg.card, taken.get(seg.card) ?? 1);
  }
}
// Gives the labels of a segment that are aimed at their names.
function label(seg) {
  const aimed = new Set(seg.entries);
  for (const {op, arg} of seg.code) if (BRANCHES.has(op)) aimed.add(arg);
  let n = 0;
  for (const card of seg.code) {
    if (card.labels === NONE) continue;
    const labels = card.labels.filter(it => aimed.has(it));
    if (labels.length) { card.label = `L${++n}`; for (const it of labels) it.name = card.label; }
  }
}

// Makes the code of segments complete; the segments of the deck, with names and labels.
export function finish(segs) {
  for (const seg of segs) complete(seg);
  const packed = pack(segs);
  name(packed);
  for (const seg of packed) label(seg);
  return packed;
}

// How a cell is written on a card.
const couple = cell => typeof cell === 'string' ? cell : `${cell.seg.level},${displacement(cell)}`;

// The operand of a card.
function operand({op, arg}) {
  if (arg === undefined) return '';
  if (BRANCHES.has(op)) return ' ' + arg.name;
  if (op === 'MPCW') return ' ' + (arg.carrier ? `${arg.carrier.card}:${arg.entry.name}` : arg.card);
  return ' ' + (op === 'VALC' || op === 'NAMC' ? couple(arg) : arg);
}

// Tells what the machine's limits forbid.
export function limits(segs, fail) {
  if (segs.length > MOST_SEGMENTS) fail(segs[MOST_SEGMENTS], `The machine has at most ${MOST_SEGMENTS} segments, and this program makes ${segs.length}: one for each procedure and each block with arrays, and some for arguments by name.`);
  for (const seg of segs) {
    if (seg.level > MOST_LEVEL) { fail(seg, `This is at level ${seg.level}, and the machine has levels up to ${MOST_LEVEL}: too many procedures, blocks with arrays and arguments by name stand one in the other.`); continue; }
    const far = seg.code.find(({arg}) => arg?.part && displacement(arg) > greatest(seg.level)), words = wordsOf(seg.code);
    if (far) fail({line: far.line, col: 1}, `\`${far.arg.name}\` is cell ${displacement(far.arg)} of its record; at level ${seg.level} the machine reaches cells up to ${greatest(seg.level)}.`);
    if (words > MOST_WORDS) fail(seg, `This makes ${words} words of code; a segment of the machine has ${MOST_WORDS} at most. Divide it into procedures.`);
  }
}

const ASCII = {'×': '*', '÷': 'div', '↑': '^', '≤': '<=', '≥': '>=', '≠': '<>', '∧': 'and', '∨': 'or', '¬': 'not', '⊃': 'imp', '≡': 'eqv'};
// A line of the source as a card can show it.
const plain = text => text.replace(/[^\x20-\x7e]/g, c => ASCII[c] ?? ' ').trim().replace(/\s+/g, ' ');

// Writes the deck, and notes for each card the line that it comes from.
class Writer {
  // Sets out with the lines of the source; `names` asks for CELL comments, from which the page knows the names of cells.
  constructor(source, names) { Object.assign(this, {source, names, cards: [], lines: [], from: 0}); }
  // Appends a card with its comment.
  card(text, comment, line) {
    this.cards.push((comment ? `${text.padEnd(15)} ; ${comment}` : text).slice(0, MOST_OF_CARD).trimEnd());
    if (line) (this.lines[line] ??= []).push(this.cards.length);
  }
  // A comment that gives a line of the source, if the line before was another one.
  comment(line) {
    if (!line || line === this.from) return '';
    this.from = line;
    return `${line}: ${plain(this.source[line - 1] ?? '')}`;
  }
  // The cards of one segment.
  segment(seg) {
    this.from = 0;
    const params = seg.parts.param.map(cell => `${couple(cell)} ${cell.name}`).join('; ');
    this.card(`SEGMENT ${seg.card} ${seg.level}`, params || `${HEADINGS[seg.kind](seg)}, line ${seg.line}`, 0);
    seg.at = this.cards.length;
    if (this.names) this.cellNames(seg);
    for (const card of seg.code) this.operator(card);
    for (const entry of seg.entries ?? []) this.card(`ENTRY ${entry.name}`, '', 0);
  }
  cellNames(seg) {
    for (const cell of PARTS.flatMap(part => seg.parts[part])) {
      const thunk = cell.target && cell.target.kind !== 'procedure';
      if (thunk || !cell.name.includes(' ')) this.card(`; CELL ${cell.name.replaceAll(' ', '_').slice(0, MOST_OF_NAME)} ${couple(cell)}`, '', 0);
    }
  }
  // One operator, with the cell that it makes or the line that it comes from.
  operator(card) {
    if (card.begins) card.begins.at = this.cards.length;
    const text = `${card.label ? card.label + ': ' : ''}${card.op}${operand(card)}`, cell = card.makes, alone = cell && card.op !== 'ENTR' && cell.at === undefined;
    const comment = this.comment(card.line);
    this.card(text, [cell && `${couple(cell)} ${cell.name}`, alone ? '' : comment].filter(Boolean).join('; '), card.line);
    if (alone) this.from = 0;
  }
  // Numbers, as many on a card as it takes.
  numbers(list) {
    let text = '';
    for (const n of list) {
      if (text.length + String(n).length >= MOST_OF_CARD) { this.card(text); text = ''; }
      text += (text && ' ') + n;
    }
    if (text) this.card(text);
  }
}

// The deck of a program: run cards, its segments, its numbers.
export function write(text, segs, options, names) {
  const writer = new Writer(text.split('\n'), names);
  writer.card(`?STACK ${options.stack}`);
  if (options.quantum) writer.card(`?QUANTUM ${options.quantum}`);
  for (const s of options.switches) writer.card(`?SWITCH ${s}`);
  writer.card(`?JOB ${options.job ?? 'ALGOL'}`);
  if (options.limit) writer.card(`?LIMIT ${options.limit}`);
  writer.card('?ASM');
  for (const seg of segs) writer.segment(seg);
  if (options.data.length) writer.card('?DATA');
  writer.numbers(options.data);
  writer.card('?END');
  return writer;
}
