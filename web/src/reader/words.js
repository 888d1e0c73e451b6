// Words of the machine as numbers: a word has 51 bits at most (tag and content), so a JavaScript number holds it exactly.

export const SECTOR = 30; // words of a sector
export const POWERS = Array.from({length: 53}, (_, k) => 2 ** k);

// Bits `high` down to `low` of a word.
export function bits(word, high, low) {
  return Math.floor(word / POWERS[low]) % POWERS[high - low + 1];
}

export function hexadecimal(number, width) {
  return number.toString(16).padStart(width, '0');
}

// How many bits of a couple name the level, by the level that runs.
const LEVEL_BITS = [1, 1, 2, 2, 3, 3, 3, 3, ...Array(8).fill(4), ...Array(16).fill(5)];

// A couple of 14 bits as the running level reads it: the bits of the level stand in reverse.
export function coupleText(number, runningLevel) {
  const width = LEVEL_BITS[Math.min(runningLevel, 31)];
  let level = 0;
  for (let k = 0; k < width; k++) level += ((number >> (13 - k)) & 1) << k;
  return `${level},${number & ((1 << (14 - width)) - 1)}`;
}

// An operand as a number, or as its 48 bits if it is no whole number.
export function numberText(word) {
  if (bits(word, 47, 47) || bits(word, 45, 39)) return `#${hexadecimal(word, 12)}`;
  return `${bits(word, 46, 46) ? '-' : ''}${bits(word, 38, 0)}`;
}

// A place in a segment, from the 16 bits of a branch or an entry.
export function placeText(number) {
  return `${number % 8192}:${Math.floor(number / 8192)}`;
}

const NUMBERS = new Intl.NumberFormat('en');

// A number of things in words: 1 word, 4,096 words.
export function countOf(number, one, many) {
  return `${NUMBERS.format(number)} ${number === 1 ? one : many ?? `${one}s`}`;
}
