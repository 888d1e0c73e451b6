// Expressions that are numbers already when they are translated.

import {GREATEST} from './lex.mjs';

const SUMS = {'+': (a, b) => a + b, '-': (a, b) => a - b, '*': (a, b) => a * b};

// The value of an expression of numbers, signs, sums and products, else null. What would overflow is left to the machine.
export function constant(e) {
  if (e.k === 'num') return e.value;
  if (e.k === 'un' && e.op !== 'not') return signed(e.op, constant(e.a));
  if (e.k !== 'bin' || !Object.hasOwn(SUMS, e.op)) return null;
  const [a, b] = [constant(e.a), constant(e.b)];
  if (a === null || b === null) return null;
  const n = SUMS[e.op](a, b);
  return Math.abs(n) <= GREATEST ? n + 0 : null;
}

function signed(op, n) { return n === null ? null : op === '-' ? 0 - n : n; }
