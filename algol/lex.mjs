// Reads ALGOL 60 text into tokens. A token is {t, v, line, col}: t is 'id', 'num', 'eof', or the reserved word or sign itself.

export const GREATEST = 549755813887;
const WORDS = new Set(('begin end if then else for step until while do go to goto procedure value integer boolean array true false ' +
  'and or not imp eqv div mod process real own string switch label comment').split(' '));
// The signs of the Report, and how this representation writes each.
const SIGNS = {'×': '*', '÷': 'div', '↑': '^', '≤': '<=', '≥': '>=', '≠': '<>', '∧': 'and', '∨': 'or', '¬': 'not', '⊃': 'imp', '≡': 'eqv'};
const REFUSED = {'/': 'The machine has whole numbers only: write `div` for division.', "'": 'Text in quotes is refused: the machine prints numbers only.',
  '"': 'Text in quotes is refused: the machine prints numbers only.', '{': 'Braces are not ALGOL 60: write `begin` and `end`.',
  '}': 'Braces are not ALGOL 60: write `begin` and `end`.'};
// The options of a `$` line: the card that each makes, its least and its greatest number.
const OPTIONS = {STACK: [64, 16383], QUANTUM: [1, 1000000], LIMIT: [1, 100000000]};
const NEW_LINE = 10;

class Lexer {
  // Sets out on a text; `fail(at, sentence)` takes each error and `warn` each warning.
  constructor(text, fail, warn) {
    Object.assign(this, {text, fail, warn, at: 0, line: 1, start: 0, tokens: [], options: {data: [], switches: []}});
  }
  // The place of the next character, as a token has it.
  here() { return {line: this.line, col: this.at - this.start + 1}; }
  // Takes one character and counts lines.
  next() {
    const c = this.text[this.at++];
    if (c === '\n') { this.line++; this.start = this.at; }
    return c;
  }
  // Takes what the sticky pattern matches here, else null.
  match(pattern) {
    pattern.lastIndex = this.at;
    const found = pattern.exec(this.text);
    if (found) this.at += found[0].length;
    return found && found[0];
  }
  // Appends a token that began at `place`.
  put(t, v, place) { this.tokens.push({t, v, ...place}); }
  // Reads the whole text.
  all() {
    for (;;) {
      this.match(/[^\S\n]+/y);
      if (this.at >= this.text.length) break;
      const c = this.text[this.at];
      if (c === '\n') this.next();
      else if (c === '$' && !this.text.slice(this.start, this.at).trim()) this.option();
      else this.token();
    }
    this.put('eof', null, this.here());
    return this;
  }
  // Reads one token, or tells why there is none.
  token() {
    const place = this.here();
    const word = this.match(/[A-Za-z][A-Za-z0-9_]*/y);
    if (word) return this.word(word, place);
    if (this.match(/(?=\.?\d)/y) !== null) return this.number(place);
    const sign = this.match(/:=|<=|>=|<>|\*\*|[-+*^<>=();:,[\]]/y);
    if (sign) return this.put(sign === '**' ? '^' : sign, null, place);
    const c = String.fromCodePoint(this.text.codePointAt(this.at));
    this.at += c.length;
    if (SIGNS[c]) return this.put(SIGNS[c], null, place);
    if (c === '.' && this.tokens.at(-1)?.t === 'end') return;
    if (c === "'" || c === '"') this.match(c === '"' ? /[^"\n]*"?/y : /[^'\n]*'?/y);
    if (c === '/') this.put('div', '/', place);
    if (c === "'" || c === '"') this.put('num', 0, place);
    this.fail(place, REFUSED[c] ?? `The character ${JSON.stringify(c)} is not part of the language.`);
  }
  // A reserved word or an identifier; a comment is passed over.
  word(word, place) {
    const low = word.toLowerCase();
    if (!WORDS.has(low)) {
      if (word.includes('_')) this.fail(place, `Identifiers have letters and digits only: \`${word}\`.`);
      return this.put('id', word, place);
    }
    if (low === 'comment') return this.comment(place);
    this.put(low, word, place);
    if (low === 'end') this.afterEnd();
  }
  // Passes over a comment, with the semicolon that ends it.
  comment(place) {
    while (this.at < this.text.length) if (this.next() === ';') return;
    this.fail(place, 'This comment has no semicolon that ends it.');
  }
  // Passes over what follows `end`: a comment up to a semicolon, `end` or `else`.
  afterEnd() {
    let place = null, passed = '';
    while (this.at < this.text.length && this.text[this.at] !== ';' && !(this.at === this.start && this.text[this.at] === '$')) {
      const word = /[A-Za-z][A-Za-z0-9]*/y;
      word.lastIndex = this.at;
      const found = word.exec(this.text);
      if (found && /^(end|else)$/i.test(found[0])) break;
      if (!place && /\S/.test(this.text[this.at])) place = this.here();
      passed += found ? found[0] : this.text[this.at];
      if (found) this.at += found[0].length; else this.next();
    }
    if (/:=|\(|\b(begin|if|for|go)\b/i.test(passed)) this.warn(place, 'What follows `end` is a comment up to the next `;`, `end` or `else`. Is a semicolon missing?');
  }
  // A whole number; any other number is refused.
  number(place) {
    const text = this.match(/[\d.]*(?:[eE@][-+]?\d+)?/y);
    if (!/^\d+$/.test(text)) this.fail(place, `The machine has whole numbers only: \`${text}\` is refused.`);
    else if (Number(text) > GREATEST) this.fail(place, `The greatest number of the machine is 549755813887: \`${text}\` is refused.`);
    const value = /^\d+$/.test(text) ? Math.min(Number(text), GREATEST) : 0;
    this.put('num', value, place);
  }
  // A `$` line: STACK n, QUANTUM n, LIMIT n, JOB name, SWITCH n j.t, DATA and numbers, or TEXT and a text.
  option() {
    const place = this.here(), line = this.match(/[^\n]*/y).slice(1).replace(/\r$/, '');
    const [, word, gap, rest] = /^(\S*)(\s?)(.*)$/.exec(line), name = word.toUpperCase(), told = rest.trim();
    if (name === 'TEXT') return this.codes(rest, {line: place.line, col: place.col + 1 + word.length + gap.length});
    const numbers = told.split(/\s+/).filter(Boolean);
    if (name === 'DATA' && numbers.every(n => /^-?\d{1,12}$/.test(n) && Math.abs(Number(n)) <= GREATEST)) return this.give(numbers.map(Number));
    if (name === 'JOB' && /^[A-Z][A-Z0-9]{0,15}$/.test(told)) return void (this.options.job = told);
    if (name === 'SWITCH' && /^\d{1,9} [1-8]\.[1-9]\d{0,7}$/.test(told)) return void this.options.switches.push(told);
    const range = Object.hasOwn(OPTIONS, name) && OPTIONS[name];
    if (range && /^[1-9]\d{0,8}$/.test(told) && +told >= range[0] && +told <= range[1]) return void (this.options[name.toLowerCase()] = +told);
    this.fail(place, range ? `\`$${name}\` takes a number from ${range[0]} to ${range[1]}.`
      : 'A `$` line is `$STACK n`, `$QUANTUM n`, `$LIMIT n`, `$JOB NAME`, `$SWITCH n j.t`, `$DATA` and whole numbers, or `$TEXT` and a text.');
  }
  // Gives numbers to `read`.
  give(numbers) { for (const n of numbers) this.options.data.push(n); }
  // The codes of a text, and that of a new line, as numbers for `read`.
  codes(rest, place) {
    const strange = rest.search(/[^\x20-\x7e]/);
    if (strange >= 0) this.fail({line: place.line, col: place.col + strange}, 'A `$TEXT` line has the printable characters of ASCII only.');
    else this.give([...Array.from(rest, c => c.charCodeAt(0)), NEW_LINE]);
  }
}

// The tokens of a text, and what its `$` lines say.
export function lex(text, fail, warn) {
  const {tokens, options} = new Lexer(text, fail, warn).all();
  return {tokens, options};
}
