// What is wrong with a card of assembly that is refused, where its own words tell: a name that no operator has, or one that no card defines.
import {cardsOf} from '../reader/cards.js';
import {OPERATORS} from '../reader/operators.js';

const NAMES = ['VALC', 'NAMC', ...[...OPERATORS.values()].map(([name]) => name), 'SEGMENT', 'ROW', 'NUM', 'ENTRY'];
const [UNKNOWN, OPERAND, UNDEFINED] = ['1', '2', '5']; // of the reasons
const LITERAL = /^LT(8|16|48)$/;

// How many letters must be changed, added or left out to make one word of another.
function distance(from, to) {
  let row = Array.from({length: to.length + 1}, (_, k) => k);
  for (const [i, letter] of [...from].entries()) {
    row = row.reduce((made, above, k) => [...made, k ? Math.min(above + 1, made[k - 1] + 1, row[k - 1] + (letter === to[k - 1] ? 0 : 1)) : i + 1], []);
  }
  return row.at(-1);
}

// The operator whose name is like a word; empty if none is.
function nearest(word) {
  const [best] = NAMES.map(name => [distance(word, name), name]).sort(([a], [b]) => a - b);
  return best[0] <= Math.min(2, word.length - 1) ? best[1] : '';
}

function unknown(name) {
  const capitals = name.toUpperCase(), like = nearest(capitals);
  if (!/^[A-Z][A-Z0-9]*$/.test(capitals) || NAMES.includes(name)) return '';
  if (NAMES.includes(capitals)) return `Operators have capital letters: ${capitals}.`;
  return `No operator is called ${name}.${like ? ` Is it to be ${like}?` : ''}`;
}

// What is wrong with operands, where they show it.
function wrongOperand(name, operands) {
  const given = operands.join(' ');
  if (LITERAL.test(name) && /^-?\d{1,3}(,\d{3})+$/.test(given)) return `A number has no commas on a card: ${name} ${given.replaceAll(',', '')}.`;
  if (/^LT(8|16)$/.test(name) && /^-\d+$/.test(given)) return `${name} pushes no negative number: ${name} ${given.slice(1)}, and CHSN on the next card.`;
  if (name === 'PUSH' && given) return `PUSH has no operand, and pushes nothing: LT8 ${/^\d+$/.test(given) ? given : '5'} pushes a number, VALC 2,2 what a cell holds.`;
  if (/^(VALC|NAMC)$/.test(name) && /^\d+$/.test(given)) return `${name} wants a couple, as ${name} 2,2: a level, a comma and a place. LT8 ${given} pushes the number.`;
  return '';
}

function undefinedName(name, [operand = ''], cards) {
  if (name === 'MPCW') return cards.some(card => card.trim().split(/\s+/).slice(0, 2).join(' ') === `SEGMENT ${operand}`) ? '' : `No SEGMENT card is called ${operand}.`;
  return /^BR/.test(name) && !cards.some(card => card.trim().startsWith(`${operand}:`)) ? `No card has the label ${operand}: before its operator.` : '';
}

// The sentence for a refusal, as `ASM 8 REASON 1`, of a deck; empty where its card doesn't tell.
export function refusedWord(line, deck) {
  const [, card, reason] = /^ASM (\d+) REASON (\d+)/.exec(line) ?? [], cards = cardsOf(deck);
  const [name = '', ...operands] = (cards[card - 1] ?? '').replace(/;.*/, '').replace(/^ *[A-Z][A-Z0-9]*:/, '').trim().split(/\s+/);
  if (reason === UNKNOWN) return operands[0]?.startsWith(':') ? '' : unknown(name);
  if (reason === OPERAND) return wrongOperand(name, operands);
  return reason === UNDEFINED ? undefinedName(name, operands, cards) : '';
}
