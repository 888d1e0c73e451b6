// An interpreter of the same language, written after the Revised Report: text to tree to lines. It shares nothing with the translator, not
// even the reading of the text. Procedures follow the copy rule: what a name parameter stands for is worked out in the place of the call,
// anew each time. It has no tasks, and what it is given is right: it looks for no mistakes.

const GREATEST = 549755813887, MOST_STEPS = 100000;
const WORDS = new Set(('begin end if then else for step until while do go to goto procedure value integer boolean array true false and or not imp eqv div mod own switch label comment').split(' '));
const TYPES = ['integer', 'boolean'];

class Fault extends Error {}
// Thrown by a go to; the activation that has the label catches it.
class Go extends Error { constructor(label) { super(label.name); this.label = label; } }
const fault = text => { throw new Fault(text); };
// The numbers of the machine. What `read` gives after the last number is no number: arithmetic on it is a fault.
const END = NaN;
const whole = n => Number.isNaN(n) ? fault('EXPONENT') : n;
const fit = n => Math.abs(n) > GREATEST ? fault('INTEGER OVERFLOW') : n + 0;

// ---- The text: words, identifiers, numbers and signs.
function tokensOf(text) {
  const tokens = [], data = [];
  const source = text.replace(/^[ \t]*\$(\w+)(.*)$/gm, (line, word, rest) => {
    if (/data/i.test(word)) data.push(...rest.trim().split(/\s+/).map(Number));
    if (/text/i.test(word)) data.push(...Array.from(rest.slice(1), c => c.charCodeAt(0)), 10);
    return '';
  });
  const token = /[A-Za-z][A-Za-z0-9]*|\d+|:=|<=|>=|<>|\*\*|[-+*^<>=();:,[\]]/g;
  for (let found; (found = token.exec(source));) {
    const word = WORDS.has(found[0].toLowerCase()) ? found[0].toLowerCase() : found[0];
    if (word === 'comment') token.lastIndex = source.indexOf(';', token.lastIndex) + 1; else tokens.push(word);
    if (word === 'end') { const rest = /;|\bend\b|\belse\b|$/gi; rest.lastIndex = token.lastIndex; token.lastIndex = rest.exec(source).index; }
  }
  return {tokens: commas(tokens), data};
}
// 3.2.1: `) letters : (` between parameters is a comma.
function commas(tokens) {
  const found = [];
  for (let at = 0; at < tokens.length; at++) {
    let to = at + 1;
    while (/^[A-Za-z]/.test(tokens[to] ?? '') && !WORDS.has(tokens[to])) to++;
    const comma = tokens[at] === ')' && to > at + 1 && tokens[to] === ':' && tokens[to + 1] === '(';
    found.push(comma ? ',' : tokens[at]);
    if (comma) at = to + 1;
  }
  return found;
}

// ---- The tree.
class Reader {
  constructor(tokens) { Object.assign(this, {tokens, at: 0}); }
  get now() { return this.tokens[this.at]; }
  is(...words) { return words.includes(this.now); }
  may(word) { if (this.now !== word) return false; this.at++; return true; }
  must(word) { if (!this.may(word)) throw new Error(`${word} wanted, not ${this.now}`); }
  take() { return this.tokens[this.at++]; }
  list(read) { const found = [read()]; while (this.may(',')) found.push(read()); return found; }
  names() { return this.list(() => this.take()); }

  // A block or a compound statement.
  block() {
    this.must('begin');
    const declarations = [], statements = [];
    while (this.is(...TYPES, 'own', 'array', 'procedure', 'switch')) { declarations.push(...this.declaration()); this.must(';'); }
    do statements.push(this.statement()); while (this.may(';'));
    this.must('end');
    return {kind: declarations.length ? 'block' : 'compound', declarations, statements};
  }
  declaration() {
    if (this.may('switch')) { const name = this.take(); this.must(':='); return [{kind: 'switch', name, list: this.list(() => this.expression())}]; }
    const own = this.may('own'), type = this.is(...TYPES) ? this.take() : null;
    if (this.may('procedure')) return [this.procedure(type)];
    if (this.may('array')) return this.list(() => this.arrays(own));
    return this.names().map(name => ({kind: 'variable', name, own, kept: null}));
  }
  arrays(own) {
    const names = this.names();
    this.must('[');
    const bounds = this.list(() => { const lower = this.expression(); this.must(':'); return [lower, this.expression()]; });
    this.must(']');
    return {kind: 'array', names, bounds, own, kept: null};
  }
  procedure(type) {
    const name = this.take(), formals = this.may('(') ? this.names() : [];
    if (formals.length) this.must(')');
    this.must(';');
    const values = this.may('value') ? this.names() : [], kinds = new Map();
    if (values.length) this.must(';');
    while (this.is(...TYPES, 'array', 'procedure', 'label', 'switch')) {
      const words = [];
      while (this.is(...TYPES, 'array', 'procedure', 'label', 'switch')) words.push(this.take());
      for (const formal of this.names()) kinds.set(formal, words.at(-1));
      this.must(';');
    }
    return {kind: 'procedure', name, type, formals, values, kinds, body: this.statement()};
  }

  statement() {
    const labels = [];
    while (this.tokens[this.at + 1] === ':') { labels.push(this.take()); this.take(); }
    const found = this.unlabelled();
    return {...found, labels, reached: new Set([...labels, ...reachedIn(found)])};
  }
  unlabelled() {
    if (this.is('begin')) return this.block();
    if (this.may('if')) {
      const condition = this.expression();
      this.must('then');
      const yes = this.statement();
      return {kind: 'if', condition, yes, no: this.may('else') ? this.statement() : null};
    }
    if (this.may('for')) return this.loop();
    if (this.may('goto') || this.is('go')) { if (this.may('go')) this.must('to'); return {kind: 'go', to: this.expression()}; }
    if (this.is(';', 'end', 'else') || this.now === undefined) return {kind: 'dummy'};
    const first = this.primary();
    if (!this.is(':=')) return {kind: 'call', call: first};
    const targets = [first];
    for (;;) {
      this.must(':=');
      const e = this.expression();
      if (!this.is(':=')) return {kind: 'assign', targets, value: e};
      targets.push(e);
    }
  }
  loop() {
    const target = this.primary();
    this.must(':=');
    const elements = this.list(() => {
      const from = this.expression();
      if (this.may('while')) return {kind: 'while', from, condition: this.expression()};
      if (!this.may('step')) return {kind: 'one', from};
      const step = this.expression();
      this.must('until');
      return {kind: 'step', from, step, until: this.expression()};
    });
    this.must('do');
    return {kind: 'for', target, elements, body: this.statement()};
  }

  expression() {
    if (!this.may('if')) return this.binary(0);
    const condition = this.expression();
    this.must('then');
    const yes = this.binary(0);
    this.must('else');
    return {kind: 'choice', condition, yes, no: this.expression()};
  }
  // Operators by rank, the weakest first; those of one rank from the left.
  binary(rank) {
    const ranks = [['eqv'], ['imp'], ['or'], ['and'], ['not'], ['<', '<=', '=', '>=', '>', '<>'], ['+', '-'], ['*', 'div', 'mod'], ['^', '**']];
    if (rank === ranks.length) return this.primary();
    if (ranks[rank][0] === 'not') return this.may('not') ? {kind: 'not', a: this.binary(rank + 1)} : this.binary(rank + 1);
    const sign = ranks[rank][0] === '+' && this.is('+', '-') ? this.take() : null;
    let a = this.binary(rank + 1);
    if (sign === '-') a = {kind: 'minus', a};
    while (this.is(...ranks[rank])) a = {kind: 'binary', op: this.take(), a, b: this.binary(rank + 1)};
    return a;
  }
  primary() {
    if (this.may('(')) { const e = this.expression(); this.must(')'); return e; }
    const word = this.take();
    if (/^\d/.test(word)) return {kind: 'number', n: Number(word), name: String(Number(word))};
    if (word === 'true' || word === 'false') return {kind: 'number', n: word === 'true' ? 1 : 0};
    if (this.may('[')) { const subscripts = this.list(() => this.expression()); this.must(']'); return {kind: 'element', name: word, subscripts}; }
    if (!this.may('(')) return {kind: 'name', name: word};
    const actuals = this.list(() => this.expression());
    this.must(')');
    return {kind: 'name', name: word, actuals};
  }
}
// The labels within a statement that belong to the block around it: not those of blocks and for statements.
function reachedIn(s) {
  if (s.kind === 'compound') return s.statements.flatMap(it => [...it.reached]);
  return s.kind === 'if' ? [...s.yes.reached, ...(s.no ? s.no.reached : [])] : [];
}

// ---- The run. What a name means is a variable, an array, a procedure, a label, a switch, or an expression with its surroundings.
const DYADIC = {'+': (a, b) => fit(a + b), '-': (a, b) => fit(a - b), '*': (a, b) => fit(a * b), '<': (a, b) => a < b, '<=': (a, b) => a <= b, '=': (a, b) => a === b, '>=': (a, b) => a >= b,
  '>': (a, b) => a > b, '<>': (a, b) => a !== b, div: (a, b) => b ? Math.trunc(a / b) + 0 : fault('DIVIDE BY ZERO'), mod: (a, b) => b ? a % b + 0 : fault('DIVIDE BY ZERO'), '^': power, '**': power};
const LOGICAL = {and: (a, b) => a && b, or: (a, b) => a || b, imp: (a, b) => !a || b, eqv: (a, b) => !a === !b};
function power(a, n) {
  if (n < 0) fault('DIVIDE BY ZERO');
  let found = 1;
  for (let k = 0; k < n && Math.abs(found) <= GREATEST && !(k > 1 && Math.abs(a) < 2); k++) found *= a;
  return fit(Math.abs(a) < 2 && n > 1 ? (a === -1 && n % 2 ? -1 : Math.abs(a)) : found);
}

class Run {
  constructor(data, most) { Object.assign(this, {data, most, lines: [], steps: 0}); }
  find(scope, name) { for (let s = scope; s; s = s.up) if (s.names.has(name)) return s.names.get(name); return {kind: 'standard', name}; }

  // A block: its declarations, then its statements, from a label on after a go to.
  block(s, up) {
    const scope = {names: new Map(), up};
    for (const d of s.declarations) this.declare(d, scope, up);
    this.within(s.statements, scope);
  }
  // Carries out statements whose labels are this activation's own.
  within(statements, scope) {
    const activation = {};
    for (const s of statements) for (const name of s.reached) scope.names.set(name, {kind: 'label', name, activation});
    for (let from = null; ;) {
      try { return this.sequence(statements, scope, from); } catch (e) {
        if (!(e instanceof Go) || e.label.activation !== activation) throw e;
        from = e.label.name;
      }
    }
  }
  declare(d, scope, up) {
    const put = (name, it) => scope.names.set(name, it);
    if (d.kind === 'variable') put(d.name, d.own ? d.kept ??= {kind: 'variable', v: 0} : {kind: 'variable', v: 0});
    else if (d.kind === 'array') { const made = d.own && d.kept ? d.kept : d.kept = this.arrays(d, up); d.names.forEach((name, n) => put(name, made[n])); }
    else put(d.name, {kind: d.kind, d, scope});
  }
  arrays(d, up) {
    const bounds = d.bounds.map(([lower, upper]) => {
      const from = this.value(lower, up), length = fit(fit(whole(this.value(upper, up)) - whole(from)) + 1);
      if (d.bounds.length > 1 && length < 1) fault('INVALID INDEX');
      return {lower: from, length};
    });
    const size = bounds.reduce((n, b) => fit(n * b.length), 1);
    if (size < 1 || size > 65535) fault('INVALID INDEX');
    return d.names.map(() => ({kind: 'array', bounds, cells: Array.from({length: size}, () => 0)}));
  }
  sequence(statements, scope, from) {
    let n = from === null ? 0 : statements.findIndex(s => s.reached.has(from));
    for (; n < statements.length; n++) { this.statement(statements[n], scope, from); from = null; }
  }
  statement(s, scope, label) {
    const from = s.labels.includes(label) ? null : label;
    if (++this.steps > this.most) fault('LIMIT');
    if (s.kind === 'block') this.block(s, scope);
    else if (s.kind === 'compound') this.sequence(s.statements, scope, from);
    else if (s.kind === 'if') this.choose(s, scope, from);
    else if (s.kind === 'for') this.loop(s, scope);
    else if (s.kind === 'go') { const label = this.label(s.to, scope); if (label) throw new Go(label); }
    else if (s.kind === 'call') this.call(s.call, scope);
    else if (s.kind === 'assign') this.assign(s.targets, () => this.value(s.value, scope), scope);
  }
  choose(s, scope, from) {
    const yes = from === null ? this.value(s.condition, scope) : s.yes.reached.has(from);
    if (yes) this.statement(s.yes, scope, from); else if (s.no) this.statement(s.no, scope, from);
  }
  // 4.2.3: first the subscripts of the left part from left to right, then the expression, then the assignments.
  assign(targets, value, scope) {
    const places = targets.map(t => this.place(t, scope)), v = value();
    for (const place of places) place.set(v);
  }
  // 4.6.4
  loop(s, scope) {
    const put = e => this.assign([s.target], () => this.value(e, scope), scope), get = () => this.value(s.target, scope);
    const body = () => this.within([s.body], {names: new Map(), up: scope});
    for (const e of s.elements) {
      put(e.from);
      if (e.kind === 'one') body();
      else if (e.kind === 'while') for (; this.value(e.condition, scope); put(e.from)) body();
      else for (; !this.exhausted(e, get, scope); this.assign([s.target], () => fit(whole(get()) + whole(this.value(e.step, scope))), scope)) body();
    }
  }
  exhausted({step, until}, get, scope) {
    const v = get(), limit = this.value(until, scope), fixed = step.kind === 'number' ? Math.sign(step.n) : step.kind === 'minus' && step.a.kind === 'number' ? -Math.sign(step.a.n) : 0;
    if (fixed) return fixed > 0 ? whole(v) > whole(limit) : whole(v) < whole(limit);
    const past = fit(whole(v) - whole(limit));
    return fit(past * Math.sign(whole(this.value(step, scope)))) > 0;
  }
  // 3.5, 5.3.5: a switch without such an element has no value.
  label(e, scope) {
    if (e.kind === 'choice') return this.label(this.value(e.condition, scope) ? e.yes : e.no, scope);
    if (e.kind !== 'element') return this.designated(this.find(scope, e.name), scope);
    const found = this.find(scope, e.name), n = this.value(e.subscripts[0], scope), item = found.d.list[n - 1];
    return item ? this.label(item, found.scope) : null;
  }
  designated(it) { return it.kind === 'expression' ? this.label(it.e, it.scope) : it; }

  // Where a variable is.
  place(e, scope) {
    const found = this.find(scope, e.name);
    if (found.kind === 'expression') return this.place(found.e, found.scope);
    if (found.kind === 'variable') return {set: v => { found.v = v; }};
    if (found.kind === 'procedure') return {set: v => { this.result(found.d, scope).v = v; }};
    const n = this.index(e, found, scope);
    return {set: v => { found.cells[n] = v; }};
  }
  // The value of the innermost activation of a procedure that is being carried out here.
  result(d, scope) { for (let s = scope; ; s = s.up) if (s.of === d) return s.result; }
  index(e, {bounds, cells}, scope) {
    let at = 0;
    e.subscripts.forEach((sub, n) => {
      const {lower, length} = bounds[n], from = fit(whole(this.value(sub, scope)) - lower);
      if (n && (from < 0 || from >= length)) fault('INVALID INDEX');
      at = fit(at * (n ? length : 1) + from);
    });
    return at >= 0 && at < cells.length ? at : fault('INVALID INDEX');
  }
  value(e, scope) {
    switch (e.kind) {
      case 'number': return e.n;
      case 'minus': return 0 - whole(this.value(e.a, scope));
      case 'not': return this.value(e.a, scope) ? 0 : 1;
      case 'choice': return this.value(this.value(e.condition, scope) ? e.yes : e.no, scope);
      case 'element': { const found = this.find(scope, e.name); return found.cells[this.index(e, found, scope)]; }
      case 'binary': return this.binary(e, scope);
      default: return this.named(e, scope);
    }
  }
  binary({op, a, b}, scope) {
    const left = this.value(a, scope), right = this.value(b, scope);
    if (LOGICAL[op]) return Number(LOGICAL[op](left, right));
    return Number(DYADIC[op](whole(left), whole(right)));
  }
  named(e, scope) {
    const found = this.find(scope, e.name);
    if (found.kind === 'variable') return found.v;
    if (found.kind === 'expression') return this.value(found.e, found.scope);
    return this.call(e, scope);
  }
  // 4.7.3: what is called by value is worked out first, from left to right; the others stand for the actual parameters.
  call(e, scope) {
    const found = this.find(scope, e.name), actuals = e.actuals ?? [];
    if (++this.steps > this.most) fault('LIMIT');
    if (found.kind === 'standard') return this.standard(e.name, actuals[0], scope);
    if (found.kind === 'expression') return this.value(found.e, found.scope);
    const {d} = found, inner = {names: new Map(), up: found.scope, of: d, result: {v: 0}};
    d.formals.forEach((formal, n) => inner.names.set(formal, this.parameter(actuals[n], d.kinds.get(formal), d.values.includes(formal), scope)));
    this.within([d.body], {names: new Map(), up: inner});
    return inner.result.v;
  }
  parameter(actual, kind, byValue, scope) {
    if (kind === 'array') { const a = this.find(scope, actual.name); return byValue ? {...a, cells: [...a.cells]} : a; }
    if (kind === 'procedure' || kind === 'switch') return this.find(scope, actual.name);
    if (byValue) return {kind: 'variable', v: this.value(actual, scope)};
    return {kind: 'expression', e: actual, scope};
  }
  standard(name, actual, scope) {
    if (name === 'read') return this.data.length ? this.data.shift() : END;
    if (name === 'printrow') { const {cells} = this.find(scope, actual.name); cells.forEach(whole); for (let n = 0; n < cells.length; n += 10) this.lines.push(`1.1 ${cells.slice(n, n + 10).join(' ')}`); return 0; }
    const v = this.value(actual, scope);
    if (name === 'nomore') return Number(Number.isNaN(v));
    whole(v);
    if (name === 'print') { this.lines.push(`1.1 ${v}`); return 0; }
    return name === 'abs' ? Math.abs(v) : Math.sign(v);
  }
}

// The lines of a program; null if it takes more than so many steps.
export function interpret(text, most = MOST_STEPS) {
  const {tokens, data} = tokensOf(text), run = new Run(data, most);
  try { run.block({...new Reader(tokens).block()}, null); run.lines.push('1.1 ENDED'); } catch (e) {
    if (e instanceof RangeError || e.message === 'LIMIT') return null;
    if (!(e instanceof Fault)) throw e;
    run.lines.push(`1.1 ${e.message}`);
  }
  return run.lines;
}
