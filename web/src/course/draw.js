// Numbers of one's own. A line `draw: a 2 to 9` in a task of a sheet draws a number a for each pupil, by the pupil's number or name; what stands in
// braces in the task, as in `prints: 1.1 {a * a + 1}`, is worked out of these numbers, with + - * / % as ADD, SUBT, MULT, IDIV and RDIV have
// them. The same pupil gets the same numbers on each computer, and a copied deck prints another pupil's.
const [DRAW, SIGN] = [/^([a-z][a-z0-9]*) +(-?\d{1,9}) +to +(-?\d{1,9})$/, /\s*(\d+|[a-z][a-z0-9]*|[-+*/%()])/y];

// What a pupil's numbers are drawn by.
export function seedOf({number, name}) {
  return String(number || name || '').trim().toLowerCase();
}

// The parts of what a line `draw:` says; null for what is none.
export function drawOf(text) {
  const [, name, low, high] = DRAW.exec(text) ?? [];
  return name && Number(low) <= Number(high) ? {name, low: Number(low), high: Number(high)} : null;
}

// A number of 32 bits of a text, the same in each browser.
function sumOf(text) {
  let sum = 2166136261;
  for (const sign of text) sum = Math.imul(sum ^ sign.codePointAt(0), 16777619);
  for (const [by, times] of [[16, 0x85ebca6b], [13, 0xc2b2ae35]]) sum = Math.imul(sum ^ sum >>> by, times);
  return (sum ^ sum >>> 16) >>> 0;
}

// The numbers of a task, by their names; `where` names the task.
export function drawn(draws, seed, where) {
  return new Map(draws.map(({name, low, high}) => [name, BigInt(low + sumOf(`${seed}/${where}/${name}`) % (high - low + 1))]));
}

// A line with the values of what stands in its braces; fails with a sentence for what has none.
export function filled(line, numbers) {
  return line.replace(/\{([^{}]*)\}/g, (_, text) => String(valueOf(text, numbers)));
}

function signsOf(text) {
  const signs = [];
  for (SIGN.lastIndex = 0; text.slice(SIGN.lastIndex).trim();) {
    const from = SIGN.lastIndex, found = SIGN.exec(text);
    if (!found) throw new Error(`“${text.slice(from).trim()}” can’t be worked out: in braces stand numbers, names that were drawn, + - * / % and parentheses.`);
    signs.push(found[1]);
  }
  return signs;
}
function valueOf(text, numbers) {
  const signs = signsOf(text), value = sum(signs, numbers);
  if (signs.length) throw new Error(`“${text}” can’t be worked out: nothing is to follow “${signs[0]}”.`);
  return value;
}
const MAKES = {'+': (a, b) => a + b, '-': (a, b) => a - b, '*': (a, b) => a * b, '/': (a, b) => a / b, '%': (a, b) => a % b};
// What signs of some kinds join, from left to right.
function joined(signs, kinds, part) {
  let value = part();
  while (kinds.includes(signs[0])) {
    const sign = signs.shift(), other = part();
    if ('/%'.includes(sign) && !other) throw new Error('a number is divided by 0 there.');
    value = MAKES[sign](value, other);
  }
  return value;
}
function sum(signs, numbers) {
  return joined(signs, ['+', '-'], () => joined(signs, ['*', '/', '%'], () => single(signs, numbers)));
}
function single(signs, numbers) {
  const sign = signs.shift() ?? '';
  if (/^\d/.test(sign)) return BigInt(sign);
  if (numbers.has(sign)) return numbers.get(sign);
  if (sign === '-') return -single(signs, numbers);
  if (sign !== '(') throw new Error(/^[a-z]/.test(sign) ? `${sign} isn’t drawn: write draw: ${sign} 1 to 9.` : 'a number or a name is missing in braces.');
  const value = sum(signs, numbers);
  if (signs.shift() !== ')') throw new Error('a parenthesis isn’t closed in braces.');
  return value;
}
