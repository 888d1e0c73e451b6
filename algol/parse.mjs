// Parses tokens into a tree. Each node has a kind `k`, and the line and column where it begins.

const DEEPEST = 300;
const STOP = Symbol('stop');
// How strongly operators bind.
const [NOT, RELATION, SUM] = [5, 6, 7];
const RANKS = {eqv: 1, imp: 2, or: 3, and: 4, '<': RELATION, '<=': RELATION, '=': RELATION, '>=': RELATION, '>': RELATION, '<>': RELATION, '+': SUM, '-': SUM, '*': 8, div: 8, mod: 8, '^': 9};
const TYPES = ['integer', 'boolean'];
// What can begin a declaration or a specification, besides the types.
const BEGINNINGS = ['procedure', 'real', 'array', 'own', 'switch', 'string', 'label'];
const NOT_HERE = {
  real: 'The machine has whole numbers only: `real` is refused. Declare `integer`.',
  string: '`string` is refused: the machine prints numbers only.',
  array: 'An array without a type is a real array: write `integer array` or `Boolean array`.'};

// Makes a node deeper than a part of it, or than each of a list.
function deepen(node, part) {
  if (Array.isArray(part)) for (const one of part) deepen(node, one);
  else if (part?.d >= node.d) node.d = part.d + 1;
}

export class Parser {
  // Sets out on tokens; `fail(at, sentence)` takes each error. Something is `lost` if what followed an error was passed over.
  constructor(tokens, fail) { Object.assign(this, {tokens, fail, at: 0, depth: 0, lost: false, blocks: [{decls: [], late: false}]}); }
  // The token in hand, and the kind of a later one.
  get tok() { return this.tokens[this.at]; }
  peek(n = 1) { return this.tokens[Math.min(this.at + n, this.tokens.length - 1)].t; }
  // Whether the token in hand is one of these kinds.
  is(...kinds) { return kinds.includes(this.tok.t); }
  // Takes the token in hand.
  take() { const tok = this.tok; if (tok.t !== 'eof') this.at++; return tok; }
  // Takes it if it is of this kind.
  may(t) { return this.is(t) ? this.take() : null; }
  // Takes a token of this kind, or gives up the statement.
  must(t, where) {
    const word = t === 'id' && /^[a-z]/.test(this.tok.t) && this.tok.t !== 'num' && this.tok.t !== 'eof';
    return this.may(t) ?? this.stop(`Here ${t === 'id' ? 'an identifier' : `\`${t}\``} is wanted${where ? ' ' + where : ''}, not ${this.shown()}${word ? ', which is a word of the language' : ''}.`);
  }
  // The token in hand as a message shows it.
  shown() { const {t, v} = this.tok; return t === 'eof' ? 'the end of the text' : `\`${v ?? t}\``; }
  // Tells an error and gives up what is being parsed.
  stop(text, at = this.tok) { this.fail(at, text); throw STOP; }
  // Makes a node; `d` is the depth of its tree.
  node(k, at, more) {
    const found = {k, line: at.line, col: at.col, d: 1, ...more};
    for (const key in more) deepen(found, more[key]);
    if (found.d > 2 * DEEPEST) this.stop('This is too long or too deep: divide it.', at);
    return found;
  }
  // Parses one level deeper, and refuses what is nested too deep.
  deeper(parse) {
    if (++this.depth > DEEPEST) { this.depth--; this.stop(`This is nested more than ${DEEPEST} deep.`); }
    try { return parse(); } finally { this.depth--; }
  }
  // Parses a part; after an error passes on to a semicolon, or an `end` of this block.
  guarded(parse) {
    const from = this.at, blocks = this.blocks.length;
    try { return parse(); } catch (e) { if (e !== STOP) throw e; }
    this.blocks.length = blocks;
    this.lost = true;
    if (this.at === from) this.take();
    for (let nest = 0; !this.is('eof'); this.take()) {
      if (this.is('begin')) nest++;
      else if (nest === 0 && this.is(';', 'end')) break;
      else if (this.is('end')) nest--;
    }
    return null;
  }
  // The program: one block, and nothing after it.
  program() {
    const at = this.tok;
    while (!this.is('begin', 'eof')) this.take();
    if (at !== this.tok || this.is('eof')) this.fail(at, 'A program is one block: it begins with `begin`.');
    const tree = this.is('eof') ? this.node('block', at, {decls: [], stmts: []}) : this.guarded(() => this.block()) ?? this.node('block', at, {decls: [], stmts: []});
    this.may(';');
    if (!this.is('eof')) this.lost = true;
    if (!this.is('eof')) this.fail(this.tok, 'The program has ended before this: one `end` is too many, or a `begin` is missing.');
    return tree;
  }
  // A block or a compound statement; one without declarations is a compound statement.
  block() {
    const at = this.must('begin'), decls = [], stmts = [];
    this.blocks.push({decls, late: false});
    while (this.is(...TYPES, ...BEGINNINGS)) {
      const found = this.guarded(() => this.declaration());
      for (const d of found ?? []) decls.push(d);
      if (!this.may(';')) break;
    }
    do stmts.push(this.guarded(() => this.statement()) ?? this.node('dummy', this.tok)); while (this.may(';') || this.astray());
    this.blocks.pop();
    const end = this.may('end') ?? (this.fail(this.tok, `The \`begin\` of line ${at.line} has no \`end\`.`), this.tok);
    return this.node('block', at, {decls, stmts, end: end.line});
  }
  // After a statement that no semicolon ends: tells it and goes on, unless an `end` comes.
  astray() {
    if (this.is('end', 'eof')) return false;
    this.fail(this.tok, this.is('=') ? 'An assignment is written `:=`.' : `A semicolon or \`end\` is wanted before ${this.shown()}.`);
    this.guarded(() => { throw STOP; });
    return this.may(';') !== null;
  }
  // One declaration: variables, arrays, a switch, or a procedure.
  declaration() {
    if (this.is('label')) this.stop('A label is declared by the colon after it.');
    if (this.may('switch')) return [this.switchList()];
    const own = this.may('own') !== null, type = this.type();
    if (this.is('procedure') && own) this.fail(this.tok, 'A procedure cannot be `own`.');
    if (this.may('procedure')) return [this.procedure(type)];
    if (this.may('array')) return this.arrays(type, own);
    return this.names().map(tok => this.node('var', tok, {name: tok.v, type: type ?? 'integer', own}));
  }
  // A switch: its name and its list of designational expressions.
  switchList() {
    const name = this.must('id', 'after `switch`'), list = [];
    this.must(':=', 'after the name of the switch');
    do list.push(this.expr()); while (this.may(','));
    return this.node('switch', name, {name: name.v, list});
  }
  // The type of a declaration or specification, null if there is none. What is refused counts as an integer, so that its names are known.
  type() {
    if (this.is('string')) this.stop(NOT_HERE.string);
    if (this.is('array', 'real')) this.fail(this.tok, NOT_HERE[this.tok.t]);
    if (this.is('array')) return 'integer';
    if (this.may('real')) return 'integer';
    return this.is(...TYPES) ? this.take().t : null;
  }
  // Identifiers with commas between.
  names() {
    const list = [this.must('id')];
    while (this.may(',')) list.push(this.must('id'));
    return list;
  }
  // Arrays: each list of names has the bounds that follow it.
  arrays(type, own) {
    const groups = [];
    do {
      const names = this.names();
      this.must('[', 'before the bounds of the array');
      const bounds = [];
      do bounds.push(this.bound()); while (this.may(','));
      this.must(']', 'after the bounds');
      groups.push(this.node('array', names[0], {names: names.map(tok => this.node('name', tok, {name: tok.v})), type, own, bounds}));
    } while (this.may(','));
    return groups;
  }
  // The bounds of one dimension.
  bound() {
    const at = this.tok, lower = this.expr();
    this.must(':', 'between the bounds');
    return this.node('bound', at, {lower, upper: this.expr()});
  }
  // A procedure: its heading, its specifications and its body.
  procedure(type) {
    const name = this.must('id'), formals = [];
    if (this.may('(')) {
      do for (const tok of this.names()) formals.push(tok); while (this.delimiter());
      this.must(')', 'after the parameters');
    }
    this.must(';', 'after the heading of the procedure');
    const value = this.may('value') ? this.names() : [];
    if (value.length) this.must(';', 'after the value part');
    const specs = [];
    while (this.is(...TYPES, 'value', ...BEGINNINGS)) {
      for (const found of this.specification()) specs.push(found);
      this.must(';', 'after a specification');
    }
    return this.node('proc', name, {name: name.v, type, formals, value, specs, body: this.statement()});
  }
  // One specification: its names, each with a kind and a type.
  specification() {
    if (this.is('value')) this.stop('The value part stands before the specifications, once.');
    if (this.is('own')) this.stop('A parameter cannot be `own`.');
    const word = this.may('label') ?? this.may('switch'), type = word ? null : this.type();
    const kind = word ? word.t : this.may('procedure') ? 'proc' : this.may('array') ? 'array' : 'var';
    return this.names().map(tok => this.node('spec', tok, {name: tok.v, kind, type: kind === 'var' ? type ?? 'integer' : type}));
  }
  // The delimiter of parameters that is more than a comma: `) words : (`.
  delimiter() {
    let n = 1;
    while (this.peek(n) === 'id') n++;
    if (!this.is(')') || n === 1 || this.peek(n) !== ':' || this.peek(n + 1) !== '(') return false;
    this.at += n + 2;
    return true;
  }
  // A statement with its labels.
  statement() { return this.deeper(() => this.labelled()); }
  labelled() {
    const labels = [];
    while (this.is('id', 'num') && this.peek() === ':') {
      labels.push(this.label(this.take()));
      this.take();
    }
    const stmt = this.unlabelled();
    if (labels.length) stmt.labels = labels.concat(stmt.labels ?? []);
    return stmt;
  }
  // A label's token; that of a number has the number as its name.
  label(tok) { return tok.t === 'num' ? {...tok, v: String(tok.v)} : tok; }
  // A statement without labels.
  unlabelled() {
    const at = this.tok;
    switch (at.t) {
      case 'begin': return this.block();
      case 'if': return this.conditional();
      case 'for': return this.loop();
      case 'go': case 'goto': return this.jump();
      case 'process': return this.node('drop', at, {expr: this.primary()});
      case ';': case 'end': case 'else': case 'eof': return this.node('dummy', at);
      case 'id': return this.peek() === ':=' || this.peek() === '[' ? this.assignment() : this.called(at);
      case 'integer': case 'boolean': case 'procedure': case 'real': case 'own': case 'array': case 'switch': case 'label': case 'string': return this.late();
      default: return this.stop(`A statement cannot begin with ${this.shown()}.`);
    }
  }
  // A procedure statement.
  called(at) {
    const expr = this.primary();
    if (this.is('=')) this.stop('An assignment is written `:=`.');
    return this.node('call', at, {expr});
  }
  // A declaration among statements: the first one of a block is refused, and each is taken as if it stood at the beginning.
  late() {
    const at = this.tok, block = this.blocks.at(-1);
    if (!block.late) this.fail(at, 'Declarations stand before the statements of a block.');
    block.late = true;
    for (const d of this.declaration()) block.decls.push(d);
    return this.node('dummy', at);
  }
  // A go to, with its designational expression.
  jump() {
    const at = this.take();
    if (at.t === 'go') this.must('to', 'after `go`');
    return this.node('goto', at, {to: this.expr()});
  }
  // An assignment, to one variable or several.
  assignment() {
    const at = this.tok, targets = [];
    for (let here = this.at; ; here = this.at) {
      const e = this.expr();
      if (!this.may(':=')) {
        if (!targets.length) this.stop(this.is('=') ? 'An assignment is written `:=`.' : 'Here `:=` is wanted.');
        return this.node('assign', at, {targets, expr: e});
      }
      if (e.k !== 'id' && e.k !== 'sub') this.stop('Only a variable can stand before `:=`.', this.tokens[here]);
      targets.push(e);
    }
  }
  // An if statement.
  conditional() {
    const at = this.take(), cond = this.expr();
    this.must('then', 'after the condition');
    if (this.is('if')) this.stop('After `then` another `if` needs `begin` and `end` around it.');
    const yes = this.statement();
    if (this.is('else') && yes.k === 'for') this.stop('A for statement before `else` needs `begin` and `end` around it.');
    const no = this.may('else') ? this.statement() : null;
    return this.node('if', at, {cond, yes, no});
  }
  // A for statement.
  loop() {
    const at = this.take(), target = this.primary(), elements = [];
    if (target.k !== 'id' && target.k !== 'sub') this.stop('After `for` a variable is wanted.', target);
    this.must(':=', 'after the variable of `for`');
    do elements.push(this.element()); while (this.may(','));
    this.must('do', 'after the for list');
    return this.node('for', at, {target, elements, body: this.statement()});
  }
  // One element of a for list.
  element() {
    const at = this.tok, from = this.expr();
    if (this.may('while')) return this.node('while', at, {from, cond: this.expr()});
    if (!this.may('step')) return this.node('once', at, {from});
    const step = this.expr();
    this.must('until', 'after the step');
    return this.node('step', at, {from, step, until: this.expr()});
  }
  // An expression.
  expr() { return this.deeper(() => this.is('if') ? this.choice() : this.binary(1)); }
  // A conditional expression.
  choice() {
    const at = this.take(), cond = this.expr();
    this.must('then', 'after the condition');
    if (this.is('if')) this.stop('After `then` another `if` needs parentheses around it.');
    const yes = this.deeper(() => this.binary(1));
    this.must('else', 'in an expression');
    return this.node('choice', at, {cond, yes, no: this.expr()});
  }
  // A chain of operators that bind at least as strongly as `least`; those of one rank from the left.
  binary(least) {
    let left = this.operand(least);
    for (let rank; (rank = RANKS[this.tok.t]) >= least;) {
      const op = this.take();
      left = this.node('bin', op, {op: op.t, a: left, b: this.binary(rank + 1)});
      if (rank === RELATION && RANKS[this.tok.t] === RELATION) this.stop('Relations cannot be chained: write `a < b and b < c`.');
    }
    return left;
  }
  // What stands before the first operator: `not` only before a relation, a sign only before the first term of a sum.
  operand(least) {
    const at = this.tok;
    if (least <= NOT && this.may('not')) return this.deeper(() => this.node('un', at, {op: 'not', a: this.is('not') ? this.stop('`not not` needs parentheses.') : this.binary(RELATION)}));
    if (least > SUM || (at.t !== '+' && at.t !== '-')) return this.primary();
    this.take();
    return this.node('un', at, {op: at.t, a: this.binary(SUM + 1)});
  }
  // A number, a truth value, a variable, a call, or an expression in parentheses.
  primary() {
    const at = this.take();
    if (at.t === 'num') return this.node('num', at, {value: at.v});
    if (at.t === 'true' || at.t === 'false') return this.node('bool', at, {value: at.t === 'true'});
    if (at.t === 'process') return this.node('process', at, {call: this.named(this.must('id', 'after `process`'))});
    if (at.t === 'id') return this.named(at);
    if (at.t === '(') { const e = this.expr(); this.must(')', 'to match a parenthesis'); return e; }
    if (at.t !== 'eof') this.at--;
    return this.stop(`An expression is wanted here, not ${this.shown()}.`, at);
  }
  // An argument, with the tokens of which it is made.
  argument() {
    const from = this.at, found = this.expr();
    found.span = [from, this.at];
    return found;
  }
  // An identifier with what follows it: arguments, a subscript, or nothing.
  named(at) {
    if (this.may('[')) {
      const indices = [];
      do indices.push(this.expr()); while (this.may(','));
      this.must(']', 'after the subscripts');
      return this.node('sub', at, {name: at.v, indices});
    }
    if (!this.may('(')) return this.node('id', at, {name: at.v});
    const args = [];
    do args.push(this.argument()); while (this.may(',') || this.delimiter());
    this.must(')', 'after the arguments');
    return this.node('fun', at, {name: at.v, args});
  }
}
