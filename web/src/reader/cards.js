// Cards and operators: which card of a deck each operator of a program comes from. The proved `asm` makes the codefile; this
// module takes it apart as scripts/listing.sh does.
import {bits, coupleText, hexadecimal, placeText, POWERS} from './words.js';
import {Items} from './image.js';
import {textOf} from '../machine/program.js';
import {OPERATORS} from './operators.js';

export function cardsOf(deck) {
  return deck.replace(/\n$/, '').split('\n').map(card => card.replace(/\r$/, ''));
}

// The program of a job: ASM or HEX, and a text with its cards, each in the line that it has in the deck.
function bodyOf(deck, wanted) {
  let [job, kind, inside] = [0, '', false];
  const lines = cardsOf(deck).map(card => {
    if (!card.startsWith('?')) return inside ? card : '';
    if (card.startsWith('?JOB')) job++;
    const found = /^\?(ASM|HEX) *$/.exec(card);
    inside = Boolean(found) && job === wanted && !kind;
    if (inside) kind = found[1];
    return '';
  });
  return {kind, text: `${lines.join('\n')}\n`};
}

// The cards of assembly that make an operator, in order, each with its segment and its operator's name.
function operatorCards(text) {
  const found = [];
  let segment = 0;
  text.split('\n').forEach((card, k) => {
    const parts = card.replace(/;.*/, '').split(/\s+/).filter(Boolean);
    if (parts[0] === 'SEGMENT') segment++;
    const name = parts[0]?.endsWith(':') ? parts[1] : parts[0];
    if (name && !['SEGMENT', 'ROW', 'NUM', 'ENTRY'].includes(name)) found.push({card: k + 1, segment, name, text: card.replace(/ *;.*/, '').trim()});
  });
  return found;
}

function bytesOfDigits(text) {
  return Uint8Array.from(text.replace(/\s/g, '').match(/../g) ?? [], pair => parseInt(pair, 16));
}

// The segments of a codefile, each with its level and its bytes of code.
function segmentsOf(file) {
  const items = new Items(file, 8), version = textOf(file.subarray(0, 8));
  const [segments] = [items.take(2), items.take(2)];
  return Array.from({length: segments}, () => {
    const level = items.take(1);
    if (version === 'B67CODE2') items.many(items.take(1), 2);
    const code = [];
    for (let words = items.take(2); words > 0; words--) {
      items.take(2);
      code.push(...items.many(6, 1));
    }
    return {level, code};
  });
}

// A literal word as it is written on a card.
function literal(word) {
  if (word < POWERS[39]) return String(word);
  return word >= POWERS[46] && word < POWERS[46] + POWERS[39] ? `-${word - POWERS[46]}` : `#${hexadecimal(word, 12)}`;
}

// The operator at a byte of a segment: how many bytes it takes up to the next one, and its text.
function operatorAt({level, code}, at) {
  const byte = code[at], two = byte * 256 + (code[at + 1] ?? 0);
  if (byte < 64) return [2, `VALC ${coupleText(two, level)}`];
  if (byte < 128) return [2, `NAMC ${coupleText(two - 16384, level)}`];
  if (!OPERATORS.has(byte)) return [1, 'not in the table'];
  const [name, wants] = OPERATORS.get(byte);
  if (wants === 0) return [1, name];
  if (wants === 1) return [2, `${name} ${code[at + 1]}`];
  if (wants === 2) return [3, `${name} ${operandText(byte, code[at + 1], code[at + 2])}`];
  const next = 6 * (Math.floor(at / 6) + 1);
  const word = code.slice(next, next + 6).reduce((sum, digit) => sum * 256 + digit, 0);
  const text = name === 'LT48' ? literal(word) : `segment ${bits(word, 13, 0) - 1} at ${bits(word, 32, 20)}:${bits(word, 35, 33)}`;
  return [next + 6 - at, `${name} ${text}`];
}

function operandText(byte, first, second) {
  if (byte >= 0xa0 && byte <= 0xaf) return `to ${placeText(first * 256 + second)}`;
  return byte === 0xb3 ? String(first * 256 + second) : `${first},${second}`;
}

// The operators of a job by `segment@place`: the card of each, 0 if it has none, and its text.
export function operatorsOf(program, deck, job) {
  const {kind, text} = bodyOf(deck, job);
  if (!kind) return {};
  const made = kind === 'ASM' ? textOf(program.call(['asm'], text, {room: 1 << 23}).bytes) : text;
  const cards = kind === 'ASM' ? operatorCards(text) : [];
  const operators = {};
  segmentsOf(bytesOfDigits(made)).forEach((segment, k) => {
    for (let at = 0; at < segment.code.length;) {
      const [length, shown] = operatorAt(segment, at);
      const card = cards[0];
      const fits = card && card.segment === k + 1 && card.name === shown.split(' ')[0];
      operators[`${k + 1}@${Math.floor(at / 6)}:${at % 6}`] = fits ? [card.card, card.text] : [0, shown];
      if (fits) cards.shift();
      at += length;
    }
  });
  return operators;
}

// The places of breakpoints, four numbers each: job, displacement of the segment in the job's dictionary, which is one more than its number,
// word and syllable. A breakpoint is a card or, of an operator without one, `job/segment@word:syllable`.
export function placesOf(stops, operators) {
  const named = stops.filter(stop => stop.includes('/')), cards = new Set(stops);
  const found = operators.flatMap((job, k) => Object.entries(job).filter(([, [card]]) => card && cards.has(String(card))).map(([place]) => `${k + 1}/${place}`));
  return [...named, ...found].flatMap(place => {
    const [job, segment, word, syllable] = place.split(/[/@:]/).map(Number);
    return [job, segment + 1, word, syllable];
  });
}

// The names of a job's segments, in order; none under ?HEX.
export function segmentNames(deck, job) {
  const {kind, text} = bodyOf(deck, job);
  return kind === 'ASM' ? [...text.matchAll(/^ *SEGMENT +(\S+)/gm)].map(found => found[1]) : [];
}

// Whether a deck has a job, so that something runs.
export function hasJob(deck) {
  return /^\?JOB/m.test(deck);
}

export function jobsOf(deck) {
  return cardsOf(deck).filter(card => card.startsWith('?JOB')).map(card => card.slice(4).trim());
}
