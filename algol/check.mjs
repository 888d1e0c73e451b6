// Binds identifiers to what they name, and checks types. How parameters are passed is found in pass.mjs.

import {Seg, Unit} from './segments.mjs';
import {constant} from './constant.mjs';

const TYPE = {integer: 'integer', boolean: 'Boolean', label: 'label'};
// A type with its article.
export const some = type => `${type === 'integer' ? 'an' : 'a'} ${TYPE[type]}`;
const BUILTINS = {
  print: {args: ['integer'], type: null}, printrow: {args: ['array'], type: null}, read: {args: [], type: 'integer'},
  nomore: {args: ['integer'], type: 'boolean'}, abs: {args: ['integer'], type: 'integer'}, sign: {args: ['integer'], type: 'integer'},
  await: {args: ['integer'], type: null}, status: {args: ['integer'], type: 'integer'}, wait: {args: ['cell'], type: null}, cause: {args: ['cell'], type: null}};
const NOT_HERE = ['sqrt', 'sin', 'cos', 'arctan', 'ln', 'exp', 'entier'];
// What other systems call the statements that print and read, and what is written here.
const ELSEWHERE = [[/^(out(real|integer|put|symbol|char|string)?|writ\w*|put\w*)$/i, 'A number is printed by `print(e)`.'], [/^(in(real|integer|put|symbol|char)?|readln|get\w*)$/i, 'The next number is `read`.']];
// How a parameter of a kind is passed, if it isn't by value.
const MODES = {var: 'name', array: 'array', proc: 'proc', label: 'label', switch: 'switch'};

export class Checker {
  // Sets out; `fail(at, sentence)` takes each error. Of a `partial` tree some declarations are missing, so unknown names aren't told.
  constructor(fail, partial) {
    Object.assign(this, {fail, partial, calls: [], enters: [], gotos: [], procedures: [], arrays: [], waited: [], processes: []});
  }
  // Checks a program; its segment.
  program(tree) {
    tree.seg = new Seg('program', 'MAIN', null, tree);
    this.main = tree.seg;
    this.outside = {names: new Map(), parent: null, seg: tree.seg, unit: new Unit(null)};
    this.block(tree, this.outside, tree.seg, true);
    return tree.seg;
  }
  // Makes a scope inside another one.
  scope(parent, seg, unit = parent.unit) { return {names: new Map(), parent, seg, unit}; }
  // Declares a name in a scope.
  declare(scope, at, sym) {
    if (scope.names.has(sym.name)) this.fail(at, `\`${sym.name}\` is declared twice in this block.`);
    Object.assign(sym, {line: at.line, col: at.col, scope});
    scope.names.set(sym.name, sym);
    return sym;
  }
  // What a name means here; an unknown one is told once.
  find(scope, at, name) {
    let top = scope;
    for (let s = scope; s; s = s.parent) { if (s.names.has(name)) return s.names.get(name); top = s; }
    if (Object.hasOwn(BUILTINS, name)) return {kind: 'builtin', name, ...BUILTINS[name]};
    if (NOT_HERE.includes(name)) this.fail(at, `\`${name}\` is refused: the machine has whole numbers only.`);
    else if (!this.partial) this.fail(at, /^\d/.test(name) ? `There is no label ${name}.` : `\`${name}\` is not declared.${this.nearBy(scope, name)}`);
    top.names.set(name, {kind: 'unknown', name});
    return top.names.get(name);
  }

  // What may be meant by a name that is not declared: one that differs in capital letters, or what other systems call so.
  nearBy(scope, name) {
    for (let s = scope; s; s = s.parent) for (const [other, {kind}] of s.names) if (kind !== 'unknown' && other.toLowerCase() === name.toLowerCase()) return ` Is \`${other}\` meant?`;
    const meant = ELSEWHERE.find(([like]) => like.test(name))?.[1] ?? (Object.hasOwn(BUILTINS, name.toLowerCase()) ? `Is \`${name.toLowerCase()}\` meant?` : '');
    return meant && ` ${meant}`;
  }

  // A block: its declarations, its labels, its statements. One with arrays inside a segment gets a segment of its own.
  block(stmt, outer, seg, isBody) {
    if (!isBody && stmt.decls.some(d => d.k === 'array' && !d.own)) {
      stmt.seg = new Seg('block', 'BLOCK', seg, stmt);
      stmt.cell = seg.cell('pcw', `block of line ${stmt.line}`, {target: stmt.seg, line: stmt.line});
      seg = stmt.seg;
    }
    const scope = stmt.decls.length || outer === this.outside ? this.scope(outer, seg) : outer;
    for (const d of stmt.decls) if (d.k === 'array') for (const {lower, upper} of d.bounds) { this.needs(lower, 'integer', outer); this.needs(upper, 'integer', outer); }
    for (const d of stmt.decls) this['declare_' + d.k](d, scope, seg);
    if (scope !== outer) this.labels(stmt.stmts, scope);
    for (const d of stmt.decls) if (d.k === 'switch') this.switchList(d, scope);
    for (const d of stmt.decls) if (d.k === 'proc') this.body(d);
    for (const s of stmt.stmts) this.statement(s, scope, seg);
  }
  // Declares the labels of statements, but not those inside blocks and for statements.
  labels(stmts, scope) {
    for (const s of stmts) {
      if (!s) continue;
      for (const tok of s.labels ?? []) this.declare(scope, tok, {kind: 'label', name: tok.v, seg: scope.seg, place: {}});
      if (s.k === 'if') this.labels([s.yes, s.no], scope);
      if (s.k === 'block' && !s.decls.length) this.labels(s.stmts, scope);
    }
  }
  // A variable. One that is `own` lives in the outer block.
  declare_var(d, scope, seg) {
    this.declare(scope, d, {kind: 'var', name: d.name, type: d.type, cell: (d.own ? this.main : seg).cell('var', d.name, {line: d.line})});
  }
  // Arrays of one list of bounds; their cells are made when it is known which of them are needed.
  declare_array(d, scope, seg) {
    const bounds = d.bounds.map(b => ({at: b, lower: constant(b.lower), upper: constant(b.upper)}));
    const known = bounds.every(b => b.lower !== null && b.upper !== null), sizes = bounds.map(b => b.upper - b.lower + 1);
    if (bounds.some((b, n) => b.lower !== null && b.upper !== null && sizes[n] < 1)) this.fail(d, 'The upper bound of an array is below its lower bound.');
    else if (known && sizes.reduce((a, b) => a * b) > 65535) this.fail(d, 'An array has 65535 elements at most.');
    if (d.own && !known) this.fail(d, 'The bounds of an `own` array are numbers here.');
    d.seg = d.own ? this.main : seg;
    d.syms = d.names.map(n => this.declare(scope, n, {kind: 'array', name: n.name, type: d.type, dims: d.bounds.length}));
    this.arrays.push(d);
  }
  declare_switch(d, scope) { d.sym = this.declare(scope, d, {kind: 'switch', name: d.name, list: d.list, ready: false}); }
  // The list of a switch, which may name those before it.
  switchList(d, scope) {
    for (const e of d.list) this.designation(e, scope);
    d.sym.ready = true;
  }
  // A procedure: its name outside, its parameters inside.
  declare_proc(d, scope, seg) {
    d.seg = new Seg('procedure', d.name, seg, d);
    const sym = d.sym = this.declare(scope, d, {kind: 'proc', name: d.name, type: d.type, assigns: 0, body: d.seg, params: [], unit: new Unit(null),
      cell: seg.cell('pcw', d.name, {target: d.seg, line: d.line})});
    d.seg.proc = sym;
    sym.unit.seg = d.seg;
    d.scope = this.scope(scope, d.seg, sym.unit);
    for (const tok of d.formals) sym.params.push(this.formal(d, tok));
    for (const at of [...d.specs, ...d.value.map(tok => ({...tok, name: tok.v}))]) {
      if (!d.formals.some(tok => tok.v === at.name)) this.fail(at, `\`${at.name}\` is no parameter of \`${d.name}\`.`);
    }
    this.procedures.push(sym);
  }
  // A parameter: by value or by name, an array, a procedure, a label or a switch.
  formal(d, tok) {
    const specs = d.specs.filter(s => s.name === tok.v), spec = specs[0] ?? {kind: 'var', type: 'integer'};
    if (!specs.length) this.fail(tok, `The parameter \`${tok.v}\` needs a specification, such as \`integer ${tok.v};\`.`);
    if (specs.length > 1) this.fail(specs[1], `\`${tok.v}\` is specified twice.`);
    const value = d.value.some(v => v.v === tok.v);
    if (value && spec.kind !== 'var' && spec.kind !== 'array') this.fail(tok, `\`${tok.v}\` cannot be called by value: only integers, Booleans and arrays can.`);
    return this.declare(d.scope, tok, {kind: spec.kind, mode: value && spec.kind === 'var' ? 'value' : MODES[spec.kind], copied: value && spec.kind === 'array',
      name: tok.v, type: spec.type, assigned: false, acc: false, whole: value, dims: 0, owner: d.name, seg: d.seg, targets: new Set()});
  }
  // The body of a procedure.
  body(d) {
    const {body, seg} = d, inner = this.scope(d.scope, seg);
    this.labels([body], inner);
    this.place(body, inner);
    if (body.k === 'block') this.block(body, inner, seg, true); else this['do_' + body.k](body, inner, seg);
    if (d.type && !d.sym.assigns) this.fail(d, `The ${TYPE[d.type]} procedure \`${d.name}\` never gets a value: \`${d.name} := ..\` is missing.`);
  }

  // Gives the labels of a statement their places.
  place(s, scope) { s.places = (s.labels ?? []).map(tok => this.find(scope, tok, tok.v)).filter(sym => sym.kind === 'label').map(sym => sym.place); }
  // A statement.
  statement(s, scope, seg) { this.place(s, scope); this['do_' + s.k](s, scope, seg); }
  do_block(s, scope, seg) { this.block(s, scope, seg, false); }
  do_dummy() {}
  do_if(s, scope, seg) {
    this.needs(s.cond, 'boolean', scope);
    this.statement(s.yes, scope, seg);
    if (s.no) this.statement(s.no, scope, seg);
  }
  do_goto(s, scope, seg) {
    this.designation(s.to, scope);
    this.gotos.push({to: s.to, seg, unit: scope.unit});
  }
  // A designational expression: a label, a switch with its subscript, or a choice between such.
  designation(e, scope) {
    if (e.k === 'num') { e.sym = this.find(scope, e, String(e.value)); e.type = 'label'; return; }
    if (this.expr(e, scope) && e.type !== 'label') this.fail(e, `Here a label is wanted, and this is ${some(e.type)}.`);
  }
  do_assign(s, scope) {
    const types = s.targets.map(t => this.target(t, scope));
    const type = types.find(Boolean) ?? null;
    s.targets.forEach((t, n) => { if (types[n] && types[n] !== type) this.fail(t, 'The variables of one assignment have one type.'); });
    this.needs(s.expr, type, scope);
  }
  // A variable that is stored into; its type.
  target(t, scope) {
    if (t.k === 'sub') return this.element(t, scope);
    const sym = t.sym = this.find(scope, t, t.name);
    if (sym.kind === 'proc' && !sym.mode) return this.result(t, sym, scope);
    if (sym.kind === 'unknown') return null;
    if (sym.kind !== 'var') return void this.fail(t, `\`${t.name}\` is no variable.`);
    sym.assigned = true;
    this.used(sym, scope);
    return sym.type;
  }
  // An element of an array; its type.
  element(t, scope) {
    const type = this.expr(t, scope);
    if (type === 'label') this.fail(t, `\`${t.name}\` is a switch, and no array.`);
    return type === 'label' ? null : type;
  }
  // A procedure's identifier on the left: its result.
  result(t, sym, scope) {
    let seg = scope.seg;
    while (seg && seg !== sym.body) seg = seg.parent;
    if (!sym.type) return void this.fail(t, `\`${t.name}\` has no type, so it has no value.`);
    if (!seg) return void this.fail(t, `\`${t.name}\` gets its value in its own body only.`);
    sym.assigns++;
    t.result = true;
    return sym.type;
  }
  do_for(s, scope, seg) {
    const type = this.target(s.target, scope);
    if (s.target.result) this.fail(s.target, 'The variable of a for statement cannot be a procedure.');
    if (type && type !== 'integer') this.fail(s.target, 'The variable of a for statement is an integer.');
    for (const e of s.elements) {
      for (const part of ['from', 'step', 'until']) if (e[part]) this.needs(e[part], 'integer', scope);
      if (e.cond) this.needs(e.cond, 'boolean', scope);
    }
    if (s.elements.length > 1) s.which = seg.cell('var', `which element of line ${s.line}`, {line: s.line});
    const inner = this.scope(scope, seg);
    this.labels([s.body], inner);
    this.statement(s.body, inner, seg);
  }
  do_drop(s, scope) { this.expr(s.expr, scope); }
  // A procedure statement.
  do_call(s, scope) {
    const e = s.expr;
    if (e.k === 'sub') return this.fail(s, 'This is a variable, and no statement.');
    e.sym = this.find(scope, e, e.name);
    if (e.sym.kind === 'unknown') { for (const a of e.args ?? []) this.argument(a, scope); return; }
    if (e.sym.kind === 'builtin' && !e.sym.type) return this.builtin(e, scope);
    if (e.sym.kind !== 'proc') return this.fail(s, `\`${e.name}\` is no procedure.`);
    this.call(e, scope);
  }

  // An expression of a certain type; null if any type will do.
  needs(e, type, scope) {
    const found = this.expr(e, scope);
    if (type && found && found !== type) this.fail(e, `Here ${some(type)} is wanted, and this is ${some(found)}.`);
  }
  // An expression; its type, or null if that is unknown.
  expr(e, scope) { return e.type = this['type_' + e.k](e, scope) ?? null; }
  type_num() { return 'integer'; }
  type_bool() { return 'boolean'; }
  type_un(e, scope) { const type = e.op === 'not' ? 'boolean' : 'integer'; this.needs(e.a, type, scope); return type; }
  type_bin(e, scope) {
    const logical = ['and', 'or', 'imp', 'eqv'].includes(e.op), type = logical ? 'boolean' : 'integer';
    this.needs(e.a, type, scope);
    this.needs(e.b, type, scope);
    return logical || /[<=>]/.test(e.op) ? 'boolean' : 'integer';
  }
  type_choice(e, scope) {
    this.needs(e.cond, 'boolean', scope);
    const branches = [e.yes, e.no].filter(part => part.k !== 'num');
    for (const part of branches) this.expr(part, scope);
    const type = branches.find(part => part.type)?.type ?? (branches.length < 2 ? 'integer' : null);
    for (const part of [e.yes, e.no]) {
      if (type === 'label' && part.k === 'num') this.designation(part, scope);
      else if (part.k === 'num') part.type = 'integer';
      if (type && part.type && part.type !== type) this.fail(part, `Here ${some(type)} is wanted, and this is ${some(part.type)}.`);
    }
    return type;
  }
  type_sub(e, scope) {
    const sym = e.sym = this.find(scope, e, e.name);
    for (const i of e.indices) this.needs(i, 'integer', scope);
    if (sym.kind === 'switch') return this.switched(e, sym, scope);
    if (sym.kind !== 'array') return sym.kind === 'unknown' ? null : void this.fail(e, `\`${e.name}\` is no array.`);
    if (sym.mode && !sym.dims) sym.dims = e.indices.length;
    if (sym.dims !== e.indices.length) this.fail(e, `\`${e.name}\` has ${sym.dims === 1 ? 'one subscript' : `${sym.dims} subscripts`}, and here ${e.indices.length === 1 ? 'is one' : `are ${e.indices.length}`}.`);
    return sym.type;
  }
  // A switch with its subscript.
  switched(e, sym, scope) {
    if (e.indices.length > 1) this.fail(e, 'A switch has one subscript.');
    if (!sym.mode && !sym.ready) this.fail(e, 'The list of a switch names only switches that are declared before it.');
    if (sym.mode) this.enter(scope.unit, sym);
    return 'label';
  }
  type_id(e, scope) {
    const sym = e.sym = this.find(scope, e, e.name);
    if (sym.kind === 'label') { this.used(sym, scope); return 'label'; }
    if (sym.kind !== 'var') return this.type_fun(e, scope);
    this.used(sym, scope);
    return sym.type;
  }
  // Notes that a parameter is used where whatever it stands for may be entered.
  used(sym, scope) { if (sym.mode === 'name' || sym.mode === 'label') this.enter(scope.unit, sym); }
  enter(unit, sym) { this.enters.push({unit, sym}); }
  // A function.
  type_fun(e, scope) {
    const sym = e.sym = this.find(scope, e, e.name);
    if (sym.kind === 'unknown') { for (const a of e.args ?? []) this.argument(a, scope); return null; }
    if (sym.kind !== 'builtin' && sym.kind !== 'proc') return void this.fail(e, sym.kind === 'array' ? `\`${e.name}\` is an array: a subscript in brackets is wanted.` : `\`${e.name}\` is no function.`);
    if (!sym.type) { for (const a of e.args ?? []) this.argument(a, scope); return void this.fail(e, `\`${e.name}\` has no value: it is a statement.`); }
    if (sym.kind === 'builtin') this.builtin(e, scope); else this.call(e, scope);
    return sym.type;
  }
  // A task: its procedure has no type.
  type_process(e, scope) {
    const call = e.call, sym = call.sym = this.find(scope, call, call.name);
    if (call.k === 'sub' || sym.kind !== 'proc' || sym.type) { if (sym.kind !== 'unknown') this.fail(call, 'After `process` a call of a procedure without a type is wanted.'); return 'integer'; }
    this.processes.push(call);
    this.call(call, scope);
    return 'integer';
  }
  // A call of what the MCP does, or of a standard function.
  builtin(e, scope) {
    const args = e.args ?? [], {args: wanted, name} = e.sym;
    if (args.length !== wanted.length) this.fail(e, `\`${name}\` takes ${wanted.length === 1 ? 'one argument' : 'no arguments'}.`);
    args.forEach((a, n) => {
      if (wanted[n] === 'integer') return this.needs(a, 'integer', scope);
      this.argument(a, scope);
      if (wanted[n]) this.cell(a, wanted[n]);
    });
  }
  // An argument that is an array, or a variable at which a task waits.
  cell(a, wanted) {
    const fits = a.k === 'id' && (wanted === 'array' ? a.sym.kind === 'array' : a.sym.kind === 'var' && a.sym.type === 'integer');
    if (!fits) { if (a.sym?.kind !== 'unknown') this.fail(a, wanted === 'array' ? 'An array is wanted here.' : 'An integer variable is wanted here, and no element of an array.'); }
    else if (wanted === 'cell') { a.sym.assigned = true; this.waited.push({at: a, sym: a.sym}); }
  }
  // A call of a procedure; its arguments are looked at when all procedures are known.
  call(e, scope) {
    for (const a of e.args ?? []) this.argument(a, scope);
    e.unit = scope.unit;
    this.enter(scope.unit, e.sym);
    this.calls.push(e);
  }
  // An argument: an identifier may be anything. What it works out may become a thunk, so it is a unit of its own.
  argument(a, scope) {
    a.unit = new Unit(scope.unit);
    a.scope = scope;
    if (a.k !== 'id') return void this.expr(a, this.scope(scope, scope.seg, a.unit));
    a.sym = this.find(scope, a, a.name);
    if (a.sym.kind === 'builtin') this.expr(a, scope); else a.type = a.sym.kind === 'label' ? 'label' : a.sym.type ?? null;
  }
}
