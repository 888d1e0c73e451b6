// Makes the operators of each segment from a checked tree.

import {NONE, Seg} from './segments.mjs';
import {constant} from './constant.mjs';
import {isGeneric, leaves} from './pass.mjs';

const OPERATORS = {'+': 'ADD', '-': 'SUBT', '*': 'MULT', div: 'IDIV', mod: 'RDIV', '<': 'LESS', '<=': 'LSEQ', '=': 'EQUL', '>=': 'GREQ', '>': 'GRTR',
  '<>': 'NEQL', and: 'LAND', or: 'LOR', eqv: 'EQUL'};
const [ARRAYDEC, STATUS, PROCESS] = [8, 14, 12];
// How many words more an operator leaves on the stack; those that are not here leave as many, and MKST and ENTR are for themselves.
const GROWTH = {VALC: 1, NAMC: 1, ZERO: 1, ONE: 1, LT8: 1, LT16: 1, LT48: 1, DUPL: 1, ADD: -1, SUBT: -1, MULT: -1, IDIV: -1, RDIV: -1, LESS: -1, LSEQ: -1, EQUL: -1, GREQ: -1,
  GRTR: -1, NEQL: -1, LAND: -1, LOR: -1, SAME: -1, BRFL: -1, BRTR: -1, INDX: -1, NXLV: -1, DLET: -1, STON: -1, RETN: -1, STOD: -2};
const INTRINSICS = {print: 9, printrow: 10, read: 11, await: 13, status: 14, wait: 15, cause: 16};

export class Generator {
  // Sets out; `own` are the arrays that the outer block makes for others, `tokens` those of the text.
  constructor(own = [], tokens = []) { Object.assign(this, {own, tokens, segs: [], seg: null, line: 0, power: null}); }
  // The segments of a program, the outer block first.
  program(tree) {
    this.within(tree.seg, () => {
      for (const d of this.own) this.arrays(d);
      this.contents(tree, null, true);
      this.emit('EXIT');
    });
    return this.segs;
  }
  // Generates a segment while another one is in hand.
  within(seg, make) {
    const {seg: outer, line} = this;
    this.segs.push(seg);
    Object.assign(seg, {open: [0], height: 0, most: 0, unwinds: new Map(), outOfBounds: new Map()});
    Object.assign(this, {seg, line: seg.line});
    make();
    this.unwinding();
    this.boundsTold();
    Object.assign(this, {seg: outer, line});
  }
  // Appends an operator to the segment in hand; the labels that wait stand before it. ENTR leaves as many words as `left`.
  emit(op, arg, left = 0) {
    const {seg} = this;
    seg.code.push({op, arg, line: this.line, labels: seg.waiting.length ? seg.waiting.splice(0) : NONE});
    if (op === 'MKST') { seg.open.push(0); seg.height++; return; }
    if (op === 'ENTR') { seg.height -= seg.open.pop() + 1; this.grow(left); } else this.grow(GROWTH[op] ?? 0);
  }
  // Notes that the stack of the segment in hand has so many words more above its fixed cells and its open marks.
  grow(n) {
    const {seg} = this;
    seg.open[seg.open.length - 1] += n;
    seg.height += n;
    if (seg.height > seg.most) seg.most = seg.height;
  }
  // Puts a label before the next operator.
  put(label) { this.seg.waiting.push(label); }
  // Pushes a number.
  number(n) {
    const m = Math.abs(n);
    if (m > 65535) return this.emit('LT48', n);
    if (m < 2) this.emit(m ? 'ONE' : 'ZERO'); else this.emit(m < 256 ? 'LT8' : 'LT16', m);
    if (n < 0) this.emit('CHSN');
  }
  // Adds a number that is known now to the top of the stack.
  plus(n) { if (n) { this.number(Math.abs(n)); this.emit(n > 0 ? 'ADD' : 'SUBT'); } }
  // Calls an intrinsic, with what `push` pushes as its arguments.
  intrinsic(n, push = () => {}, left = 0) { this.emit('MKST'); this.emit('NAMC', `0,${n}`); push(); this.emit('ENTR', undefined, left); }

  // What a block has in its segment: arrays, statements, and the procedures as segments of their own.
  contents(block, tail = null, once = false) {
    for (const d of block.decls) if (d.k === 'array' && !d.own) this.arrays(d);
    const stmts = once ? this.first(block.stmts) : block.stmts;
    stmts.forEach((s, n) => tail && n === stmts.length - 1 ? this.tail(s, tail) : this.statement(s));
    if (tail && !stmts.length) this.nothing();
    for (const d of block.decls) if (d.k === 'proc') this.procedure(d);
  }
  // Takes the assignments of numbers with which a body begins into the cards that make the cells; the statements that are left.
  first(stmts) {
    let n = 0;
    for (; n < stmts.length - 1; n++) {
      const {k, targets, expr, places, line} = stmts[n];
      const value = k === 'assign' ? (expr.k === 'bool' ? Number(expr.value) : constant(expr)) : null;
      if (value === null || places.length || Math.abs(value) > 255) break;
      const cells = targets.map(t => t.k === 'id' && t.sym.cell);
      if (!cells.every(c => c && c.part === 'var' && c.seg === this.seg && c.init === undefined)) break;
      for (const cell of cells) Object.assign(cell, {init: value, at: line});
    }
    return stmts.slice(n);
  }
  // The arrays of one list of bounds: the cells of its bounds, and then each array.
  arrays(d) {
    const {bounds} = d.syms[0];
    this.line = d.line;
    d.bounds.forEach((b, n) => { this.bounds(b, bounds[n]); if (bounds.length > 1) this.positive(bounds[n].length); });
    for (const sym of d.syms) {
      this.line = sym.line;
      this.intrinsic(ARRAYDEC, () => bounds[0].length === null ? this.length(d.bounds[0], bounds[0]) : this.product(bounds));
      this.seg.code.at(-1).makes = sym.cell;
    }
  }
  // The cells of the bounds of one dimension, those that it has.
  bounds({lower, upper}, bound) {
    if (typeof bound.lower !== 'number') { this.expr(lower); this.made(bound.lower); }
    if (bound.length !== null && typeof bound.length !== 'number') { this.length({upper}, bound); this.made(bound.length); }
  }
  // Looks whether a dimension has elements, since two lengths below 0 have a product above it: a length that isn't is refused by ARRAYDEC.
  positive(length) {
    if (typeof length === 'number') return;
    const good = {};
    for (const step of [['VALC', length], ['ZERO'], ['GRTR'], ['BRTR', good]]) this.emit(...step);
    this.intrinsic(ARRAYDEC, () => this.emit('VALC', length));
    this.emit('NVLD');
    this.put(good);
  }
  // What was pushed last is a cell of the record from now on.
  made(cell) {
    this.seg.code.at(-1).makes = cell;
    this.seg.open[0] = this.seg.height = 0;
  }
  // Pushes how many elements a dimension has.
  length({upper}, {lower}) {
    this.expr(upper);
    if (typeof lower === 'number') return this.plus(1 - lower);
    this.emit('VALC', lower);
    this.emit('SUBT');
    this.plus(1);
  }
  // Pushes a number that is known now or stands in a cell.
  bound(it) { if (typeof it === 'number') this.number(it); else this.emit('VALC', it); }
  // Pushes how many elements an array has.
  product(bounds) {
    if (bounds.every(b => typeof b.length === 'number')) return this.number(bounds.reduce((n, b) => n * b.length, 1));
    bounds.forEach((b, n) => { this.bound(b.length); if (n) this.emit('MULT'); });
  }
  // Copies the array that was passed for a parameter by value.
  copy(p) {
    const [again, done] = [{}, {}];
    this.line = p.line;
    this.intrinsic(ARRAYDEC, () => this.product(p.bounds));
    this.seg.code.at(-1).makes = p.cell;
    this.product(p.bounds);
    for (const step of [['NAMC', p.count], ['STOD'], again, ['VALC', p.count], ['ZERO'], ['EQUL'], ['BRTR', done], ['VALC', p.count], ['ONE'], ['SUBT'], ['NAMC', p.count], ['STOD'],
      ['NAMC', p.cell], ['VALC', p.count], ['INDX'], ['NAMC', p.given], ['VALC', p.count], ['NXLV'], ['STOD'], ['BRUN', again], done]) {
      if (Array.isArray(step)) this.emit(...step); else this.put(step);
    }
  }
  // A procedure as a segment. If all assignments of its value come last, the value stays on the stack.
  procedure(d) {
    const {sym, body} = d, block = body.k === 'block', own = sym.type && tails(body, sym) === sym.assigns ? sym : null;
    this.within(d.seg, () => {
      const copied = sym.params.filter(p => p.copied);
      for (const p of copied) this.copy(p);
      if (block) this.put_all(body.places);
      if (block) this.contents(body, own, !body.places.length && !copied.length); else if (own) this.tail(body, own); else this.statement(body);
      if (own) return;
      this.line = body.end ?? this.line;
      if (sym.type) this.emit('VALC', this.result(sym));
      this.emit(sym.type ? 'RETN' : 'EXIT');
    });
    if (sym.wrapper) this.wrapper(sym);
  }
  // The segment that calls a procedure with arguments that it was given by name.
  wrapper({wrapper: {seg, params}, type, params: wanted, cell, body}) {
    this.within(seg, () => {
      this.emit('MKST');
      this.emit('NAMC', cell);
      wanted.forEach((p, n) => this.argument(p, {k: 'id', line: body.line, sym: params[n]}));
      this.seg.enters.push(body);
      this.emit('ENTR', undefined, type ? 1 : 0);
      this.emit(type ? 'RETN' : 'EXIT');
    });
  }
  put_all(places) { for (const label of places ?? []) this.put(label); }
  // The cell of a procedure's value.
  result(sym) { return sym.value ??= sym.body.cell('var', sym.name, {line: sym.line}); }

  // A statement with which a procedure ends: its value is returned at once.
  tail(s, proc) {
    if (s.k === 'assign' && s.targets[0].result && s.targets[0].sym === proc) {
      this.put_all(s.places);
      this.line = s.line;
      return this.returned(s.expr);
    }
    if (s.k === 'block' && !s.seg) { this.put_all(s.places); return this.contents(s, proc); }
    if (s.k !== 'if' || !tails(s, proc)) { this.statement(s); return this.nothing(); }
    this.put_all(s.places);
    const otherwise = {};
    this.jump(s.cond, false, otherwise);
    this.tail(s.yes, proc);
    this.put(otherwise);
    if (s.no) this.tail(s.no, proc); else this.nothing();
  }
  // The end of a procedure that got no value.
  nothing() { this.emit('ZERO'); this.emit('RETN'); }
  // Returns the value of an expression; each branch of a conditional one returns by itself.
  returned(e) {
    if (e.k !== 'choice') { this.expr(e); return this.emit('RETN'); }
    const otherwise = {};
    this.jump(e.cond, false, otherwise);
    this.returned(e.yes);
    this.put(otherwise);
    this.returned(e.no);
  }

  // A statement.
  statement(s) {
    this.put_all(s.places);
    this.line = s.line;
    this['do_' + s.k](s);
  }
  do_dummy() {}
  do_block(s) {
    if (!s.seg) return this.contents(s);
    const {seg} = s;
    seg.end = {};
    this.within(seg, () => {
      this.contents(s);
      this.line = s.end;
      this.put(seg.end);
      if (seg.exits.length) { this.emit('ZERO'); this.emit('RETN'); } else this.emit('EXIT');
    });
    this.seg.enters.push(seg);
    this.enter(s.cell, seg.exits);
    if (seg.leaves) this.left();
  }
  // Enters a block with arrays; it returns which go to has left it, 0 for none.
  enter(cell, exits) {
    if (!exits.length) { this.emit('MKST'); this.emit('NAMC', cell); return this.emit('ENTR'); }
    this.emit('VALC', cell);
    if (exits.length === 1 && exits[0].seg === this.seg) return this.emit('BRTR', exits[0].place);
    const which = this.seg.cell('var', 'way out', {line: this.line});
    this.emit('NAMC', which);
    this.emit('STOD');
    exits.forEach((label, n) => {
      const next = {};
      this.emit('VALC', which);
      this.number(n + 1);
      this.emit('EQUL');
      this.emit('BRFL', next);
      this.go(label);
      this.put(next);
    });
  }
  do_goto(s) { this.designate(s.to); }
  // Goes to where a designational expression leads. A switch without such an element is passed over.
  designate(e) {
    this.line = e.line;
    const {sym} = e;
    if (e.k === 'choice') {
      const otherwise = {};
      this.jump(e.cond, false, otherwise);
      this.designate(e.yes);
      this.put(otherwise);
      return this.designate(e.no);
    }
    if (sym.mode) { this.emit('MKST'); this.emit('NAMC', sym.cell); if (e.indices) this.expr(e.indices[0]); this.emit('ENTR'); return this.entered(sym); }
    if (e.k !== 'sub') return this.go(sym);
    this.expr(e.indices[0]);
    this.choose(sym.list);
  }
  // Goes to the element of a switch whose number is on top of the stack.
  choose(list) {
    const done = {};
    list.forEach((e, n) => {
      const next = {};
      this.emit('DUPL');
      this.number(n + 1);
      this.emit('EQUL');
      this.emit('BRFL', next);
      this.emit('DLET');
      this.designate(e);
      this.emit('BRUN', done);
      this.put(next);
      this.grow(1);
    });
    this.emit('DLET');
    this.put(done);
  }
  // Goes to a label: by a branch; out of blocks with arrays by a number that says where to; out of procedures by a note in the record that has the label.
  go(label) {
    if (label.seg === this.seg) return this.emit('BRUN', label.place);
    let {seg} = this;
    while (seg !== label.seg && seg.kind === 'block') seg = seg.parent;
    if (seg !== label.seg) return this.depart(label);
    const {exits} = this.seg;
    if (!exits.includes(label)) exits.push(label);
    this.number(exits.indexOf(label) + 1);
    this.emit('RETN');
  }
  // Notes in the record that has the label where it wants to go on, and leaves the running one.
  depart(label) {
    const {flag} = this.segs[0];
    this.number(label.seg.ways.indexOf(label) + 1);
    this.emit('NAMC', label.seg.way);
    this.emit('STOD');
    this.emit('ONE');
    this.emit('NAMC', flag);
    this.emit('STOD');
    this.leave();
  }
  // Leaves the running record on the way to a label. Who entered it looks at the flag.
  leave() {
    const {seg} = this, {kind} = seg;
    seg.leaves = true;
    if (kind === 'block') return this.emit('BRUN', seg.end);
    if (kind === 'thunk' || seg.proc?.type) this.emit('ZERO');
    this.emit(kind === 'thunk' || seg.proc?.type ? 'RETN' : 'EXIT');
  }
  // Notes that a name was entered; if a go to may lead out of it, looks whether one did.
  entered(sym) {
    this.seg.enters.push(sym);
    if (leaves(sym)) this.left();
  }
  // Looks whether what was entered has left on the way to a label; then all that this statement has on the stack is taken away.
  left() {
    const {seg} = this, key = seg.open.join();
    seg.leaves = true;
    if (!seg.unwinds.has(key)) seg.unwinds.set(key, {label: {}, open: [...seg.open]});
    this.emit('VALC', this.segs[0].flag);
    this.emit('BRTR', seg.unwinds.get(key).label);
  }
  // The end of a segment in which something may leave: takes words and open marks away, and goes to the label if it is in this record, else leaves.
  unwinding() {
    const {seg} = this, {unwinds, ways} = seg, here = {};
    if (!unwinds.size) return;
    this.line = seg.line;
    for (const {label, open} of unwinds.values()) {
      this.put(label);
      seg.open = [...open];
      seg.height = open.reduce((a, b) => a + b + 1, -1);
      while (seg.open.length > 1) this.closeMark();
      while (seg.open[0]) this.emit('DLET');
      if (unwinds.size > 1) this.emit('BRUN', here);
    }
    this.put(here);
    const places = ways.map(() => ({}));
    ways.forEach((label, n) => { this.emit('VALC', seg.way); this.number(n + 1); this.emit('EQUL'); this.emit('BRTR', places[n]); });
    this.leave();
    ways.forEach((label, n) => { this.put(places[n]); this.arrive(label); });
  }
  // Takes the words above the last open mark away, and the mark by a call of STATUS.
  closeMark() {
    while (this.seg.open.at(-1)) this.emit('DLET');
    this.emit('NAMC', `0,${STATUS}`);
    this.emit('ZERO');
    this.emit('ENTR', undefined, 1);
    this.emit('DLET');
  }
  // Ends the way to a label that is in this record.
  arrive(label) {
    this.emit('ZERO');
    this.emit('NAMC', this.segs[0].flag);
    this.emit('STON');
    this.emit('NAMC', this.seg.way);
    this.emit('STOD');
    this.emit('BRUN', label.place);
  }
  do_if(s) {
    const otherwise = {}, done = {};
    this.jump(s.cond, false, otherwise);
    this.statement(s.yes);
    if (s.no) { this.emit('BRUN', done); this.put(otherwise); this.statement(s.no); this.put(done); } else this.put(otherwise);
  }
  // Branches if a condition has this value.
  jump(e, sense, label) {
    if (e.k === 'un') return this.jump(e.a, !sense, label);
    this.expr(e);
    this.emit(sense ? 'BRTR' : 'BRFL', label);
  }
  do_assign(s) { this.assign(s.targets, () => this.expr(s.expr)); }
  // Stores what `push` pushes into each target. Addresses that have to be worked out come first, from the left.
  assign(targets, push) {
    const {line} = this, worked = targets.filter(t => this.address(t));
    push();
    this.line = line;
    const order = [...targets.filter(t => !worked.includes(t)), ...worked.reverse()];
    order.forEach((t, n) => {
      if (!worked.includes(t)) this.emit('NAMC', t.result ? this.result(t.sym) : t.sym.cell);
      this.emit(n === order.length - 1 ? 'STOD' : 'STON');
    });
  }
  // Pushes the address of a target that must be worked out before the value: of an element, or of a parameter that may be one.
  address(t) {
    if (t.k === 'sub') { this.element(t); this.emit('INDX'); return true; }
    if (!t.sym.acc) return false;
    this.emit('MKST');
    this.emit('NAMC', t.sym.cell);
    this.emit('ENTR', undefined, 1);
    this.entered(t.sym);
    return true;
  }
  // Pushes an array and an index from 0: elements follow each other by rows.
  element({sym, indices, line}) {
    this.line = line;
    this.emit('NAMC', sym.cell);
    indices.forEach((index, n) => {
      const {lower, length} = sym.bounds[n];
      if (n) { this.bound(length); this.emit('MULT'); }
      this.offset(index, lower);
      if (n) { this.within_bounds(index, lower, length, sym, line); this.emit('ADD'); }
    });
  }
  // Pushes a subscript less the lower bound.
  offset(index, lower) {
    const fixed = constant(index);
    if (typeof lower !== 'number') { this.expr(index); this.emit('VALC', lower); return this.emit('SUBT'); }
    if (fixed !== null && fixed >= lower) return this.number(fixed - lower);
    const more = index.k === 'bin' && '+-'.includes(index.op) ? constant(index.b) : null;
    this.expr(more === null ? index : index.a);
    this.plus((more === null ? 0 : index.op === '+' ? more : -more) - lower);
  }
  // Looks whether the subscript of a later dimension is within its bounds, since the machine looks at the index of the whole array.
  within_bounds(index, lower, length, sym, line) {
    const fixed = constant(index);
    if (fixed !== null && typeof lower === 'number' && typeof length === 'number' && fixed >= lower && fixed - lower < length) return;
    const {outOfBounds} = this.seg;
    if (!outOfBounds.has(line)) outOfBounds.set(line, {label: {}, cell: sym.cell});
    const {label} = outOfBounds.get(line);
    for (const step of [['DUPL'], ['ZERO'], ['LESS'], ['BRTR', label], ['DUPL']]) this.emit(...step);
    this.bound(length);
    this.emit('GREQ');
    this.emit('BRTR', label);
  }
  // Where such a subscript is out of its bounds: an element before the first one is asked for, which is INVALID INDEX.
  boundsTold() {
    for (const [line, {label, cell}] of this.seg.outOfBounds) {
      this.line = line;
      this.put(label);
      for (const step of [['NAMC', cell], ['ONE'], ['CHSN'], ['NXLV'], ['NVLD']]) this.emit(...step);
    }
  }
  do_drop(s) { this.expr(s.expr); this.emit('DLET'); }
  do_call(s) {
    const {expr: e} = s;
    if (e.sym.kind === 'builtin') return this.builtin(e);
    this.call(e);
    if (e.sym.type) this.emit('DLET');
  }

  // A for statement; with several elements a cell says which one is in hand, so that the body stands once.
  do_for(s) {
    const {elements, which} = s, body = {}, done = {}, starts = elements.map(() => ({})), nexts = elements.map((e, n) => e.k === 'once' ? starts[n + 1] ?? done : {});
    starts.push(done);
    elements.forEach((e, n) => {
      this.put(starts[n]);
      this.line = e.line;
      if (which) { this.number(n); this.emit('NAMC', which); this.emit('STOD'); }
      this['element_' + e.k](s, e, nexts[n], starts[n + 1]);
      if (n < elements.length - 1) this.emit('BRUN', body);
    });
    this.put(body);
    this.statement(s.body);
    this.line = s.line;
    elements.forEach((e, n) => {
      if (n === elements.length - 1) { if (e.k !== 'once') this.again(s, e, nexts[n]); return; }
      const other = {};
      this.emit('VALC', which);
      this.number(n);
      this.emit('EQUL');
      if (e.k !== 'step') return this.emit('BRTR', nexts[n]);
      this.emit('BRFL', other);
      this.again(s, e, nexts[n]);
      this.put(other);
    });
    this.put(done);
  }
  element_once(s, e) { this.assign([s.target], () => this.expr(e.from)); }
  element_while(s, e, again, exit) {
    this.put(again);
    this.assign([s.target], () => this.expr(e.from));
    this.jump(e.cond, false, exit);
  }
  element_step(s, e, again, exit) {
    const step = constant(e.step);
    this.assign([s.target], () => this.expr(e.from));
    this.put(again);
    this.expr(s.target);
    this.expr(e.until);
    this.line = e.line;
    if (step) return this.emit(step > 0 ? 'GRTR' : 'LESS'), this.emit('BRTR', exit);
    this.emit('SUBT');
    this.expr(e.step);
    this.sign();
    this.emit('MULT');
    this.emit('ZERO');
    this.emit('GRTR');
    this.emit('BRTR', exit);
  }
  // Goes on with an element of a for list, after its step if it has one.
  again(s, e, label) {
    const step = e.k === 'step' ? constant(e.step) : null;
    this.line = e.line;
    if (e.k === 'step') this.assign([s.target], () => {
      this.expr(s.target);
      if (step) return this.plus(step);
      this.expr(e.step);
      this.emit('ADD');
    });
    this.emit('BRUN', label);
  }

  // Pushes the value of an expression.
  expr(e) {
    this.line = e.line;
    this['value_' + e.k](e);
  }
  value_num(e) { this.number(e.value); }
  value_bool(e) { this.emit(e.value ? 'ONE' : 'ZERO'); }
  value_un(e) {
    const fixed = constant(e);
    if (fixed !== null) return this.number(fixed);
    this.expr(e.a);
    if (e.op === '-') this.emit('CHSN');
    if (e.op === 'not') { this.emit('ZERO'); this.emit('EQUL'); }
  }
  value_bin(e) {
    if (e.op === '^') return this.raise(e);
    this.expr(e.a);
    if (e.op === 'imp') { this.emit('ZERO'); this.emit('EQUL'); }
    this.expr(e.b);
    this.line = e.line;
    this.emit(e.op === 'imp' ? 'LOR' : OPERATORS[e.op]);
  }
  // A power: small ones by multiplications here, others by a procedure that is added to the outer block.
  raise(e) {
    const n = constant(e.b), here = {0: 'DLET ONE', 1: '', 2: 'DUPL MULT', 3: 'DUPL DUPL MULT MULT', 4: 'DUPL MULT DUPL MULT'}[n];
    if (here !== undefined) { this.expr(e.a); for (const op of here.split(' ').filter(Boolean)) this.emit(op); return; }
    this.emit('MKST');
    this.emit('NAMC', this.power ??= this.library());
    this.expr(e.a);
    this.expr(e.b);
    this.seg.enters.push(this.power.target);
    this.emit('ENTR', undefined, 1);
  }
  // The procedure for powers: by squares; a negative exponent divides by zero.
  library() {
    const main = this.segs[0], seg = new Seg('procedure', 'POWER', main, main);
    const [b, e] = ['base', 'exponent'].map(name => seg.cell('param', name)), r = seg.cell('var', 'power', {init: 1});
    const [work, even, done, negative] = [{}, {}, {}, {}];
    const code = [['VALC', e], ['ZERO'], ['LESS'], ['BRTR', negative], ['VALC', e], ['ZERO'], ['EQUL'], ['BRTR', done], work, ['VALC', e], ['BRFL', even],
      ['VALC', r], ['VALC', b], ['MULT'], ['NAMC', r], ['STOD'], even, ['VALC', e], ['LT8', 2], ['IDIV'], ['NAMC', e], ['STON'], ['ZERO'], ['EQUL'], ['BRTR', done],
      ['VALC', b], ['DUPL'], ['MULT'], ['NAMC', b], ['STOD'], ['BRUN', work], done, ['VALC', r], ['RETN'], negative, ['ONE'], ['ZERO'], ['IDIV'], ['RETN']];
    this.within(seg, () => { for (const item of code) if (Array.isArray(item)) this.emit(...item); else this.put(item); });
    return main.cell('pcw', 'POWER', {target: seg});
  }
  value_choice(e) {
    const otherwise = {}, done = {};
    this.jump(e.cond, false, otherwise);
    this.expr(e.yes);
    this.emit('BRUN', done);
    this.put(otherwise);
    this.grow(-1);
    this.expr(e.no);
    this.put(done);
  }
  value_sub(e) { this.element(e); this.emit('NXLV'); }
  value_id(e) {
    if (e.sym.kind === 'builtin') return this.builtin(e);
    this.emit('VALC', e.sym.cell);
    if (e.sym.kind === 'proc' || e.sym.mode === 'name') this.entered(e.sym);
  }
  value_fun(e) { if (e.sym.kind === 'builtin') this.builtin(e); else this.call(e); }
  value_process(e) { this.intrinsic(PROCESS, () => { this.emit('NAMC', e.call.sym.cell); this.pass(e.call); }, 1); }
  // A call of a procedure. One with a value and without parameters is entered by VALC.
  call(e) {
    if (e.sym.type && !e.args) { this.emit('VALC', e.sym.cell); return this.entered(e.sym); }
    this.emit('MKST');
    this.emit('NAMC', e.sym.cell);
    this.pass(e);
    this.line = e.line;
    this.emit('ENTR', undefined, e.sym.type ? 1 : 0);
    this.entered(e.sym);
  }
  // Pushes the arguments of a call. One through a parameter for which no procedure is given is never made.
  pass(e) {
    (e.args ?? []).forEach((a, n) => {
      this.line = a.line;
      if (e.params) this.argument(e.params[n], a); else this.emit('ZERO');
    });
  }
  argument(p, a) {
    const {sym} = a, bare = a.k === 'id' && sym.kind !== 'builtin';
    if (p.mode === 'value') return this.expr(a);
    if (p.mode === 'array') return this.array(p, sym);
    if (p.mode === 'label' || p.mode === 'switch') return this.refer(sym?.mode === p.mode && a.k === 'id' ? sym.cell : this.thunk(p, a));
    if (p.mode === 'proc') return this.refer(this.wrapped(p, sym) ? sym.wrapper.cell : sym.cell);
    if (!p.assigned && (a.k === 'bool' || constant(a) !== null)) return this.expr(a);
    this.refer(bare && (!p.acc || sym.acc) ? sym.cell : this.thunk(p, a));
  }
  // Whether a procedure is given for a parameter whose procedures are called by name.
  wrapped(p, sym) { return !sym.mode && sym.wrapper && isGeneric(p); }
  // Pushes a reference that may be handed on.
  refer(cell) { this.emit('NAMC', cell); this.emit('STFF'); }
  // Pushes a copy of an array, its bounds after it.
  array(p, sym) {
    this.emit('NAMC', sym.cell);
    this.emit('LOAD');
    sym.bounds.forEach(({lower, length}, n) => { this.bound(lower); if (n || p.whole) this.bound(length); });
  }
  // The cell of a thunk: a procedure that returns the value of an argument, or the address if the parameter is assigned to. That of a label or a switch goes there.
  thunk(p, a) {
    const kind = p.mode === 'label' || p.mode === 'switch' ? p.mode : 'thunk';
    const seg = new Seg(kind, kind === 'thunk' ? 'T' : kind, this.seg, a), cell = this.seg.cell('pcw', this.textOf(a), {target: seg, line: a.line});
    seg.text = cell.name;
    if (a.unit) a.unit.seg = seg;
    this.within(seg, () => {
      if (kind === 'label') { this.designate(a); return this.emit('EXIT'); }
      if (kind === 'switch') { this.emit('VALC', seg.cell('param', 'subscript', {line: a.line})); this.choose(a.sym.list); return this.emit('EXIT'); }
      if (!p.acc) this.expr(a);
      else if (a.k === 'sub') { this.element(a); this.emit('INDX'); }
      else this.refer(a.sym.cell);
      this.emit('RETN');
    });
    return cell;
  }
  // An argument as it is written, without most spaces.
  textOf({span}) {
    const words = span ? this.tokens.slice(...span).map(tok => String(tok.v ?? tok.t)) : [];
    return words.join(' ').replace(/ ?([^\w ]+) ?/g, '$1') || 'argument';
  }
  // What the MCP does, and the standard functions.
  builtin(e) {
    const {name} = e.sym, [a] = e.args ?? [];
    if (name === 'abs' || name === 'sign' || name === 'nomore') { this.expr(a); return this[name](); }
    this.intrinsic(INTRINSICS[name], () => {
      if (name === 'wait' || name === 'cause' || name === 'printrow') this.emit('NAMC', a.sym.cell);
      else if (a) this.expr(a);
      if (name === 'printrow') this.emit('LOAD');
      this.line = e.line;
    }, e.sym.type ? 1 : 0);
  }
  abs() {
    const plus = {};
    for (const op of ['DUPL', 'ZERO', 'LESS']) this.emit(op);
    this.emit('BRFL', plus);
    this.emit('CHSN');
    this.put(plus);
  }
  sign() { for (const op of ['DUPL', 'ZERO', 'GRTR', 'EXCH', 'ZERO', 'LESS', 'SUBT']) this.emit(op); }
  nomore() { this.emit('LT48', '#800000000000'); this.emit('SAME'); }
}

// How many assignments of a procedure's value a statement has as the last thing that it does.
function tails(s, proc) {
  if (s.k === 'assign') return s.targets.length === 1 && s.targets[0].result && s.targets[0].sym === proc ? 1 : 0;
  if (s.k === 'if') return tails(s.yes, proc) + (s.no ? tails(s.no, proc) : 0);
  return s.k === 'block' && !s.seg && s.stmts.length ? tails(s.stmts.at(-1), proc) : 0;
}
