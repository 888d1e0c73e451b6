// Finds out how each parameter is passed: who may be called through a procedure parameter, which name parameters are assigned to,
// how many subscripts an array parameter has, and where a go to may lead out of a procedure.

import {Seg, Unit} from './segments.mjs';
import {constant} from './constant.mjs';
import {some} from './check.mjs';

// The procedures that may be given for some procedure parameters, which are all called in one way.
class Group {
  constructor() { Object.assign(this, {procs: new Map(), slots: [], same: null, params: null, generic: false}); }
}
// The group at the end of a chain of those that were found to be one.
function root(group) { while (group.same) group = group.same; return group; }
// The group of a parameter.
function groupOf(sym) { return root(sym.group ??= new Group()); }

export class Passing {
  constructor(checker) {
    Object.assign(this, {checker, fail: checker.fail, calls: checker.calls, twins: [], pairs: [], told: new Set(), crosses: false, goneTo: new Set()});
  }
  // Finds all, and lays out the cells that depend on it.
  all() {
    this.meet();
    this.agree();
    for (const e of this.calls) this.arguments(e);
    this.subscripts();
    this.spread();
    for (const {at, sym} of this.checker.waited) if (sym.acc) this.fail(at, `\`${sym.name}\` may be an array element here, and the machine waits at variables only.`);
    this.flow();
    this.leaving();
    this.lay();
  }
  // Tells an error at a place, but only once.
  once(at, text) {
    const key = `${at.line} ${at.col} ${text}`;
    if (!this.told.has(key)) this.fail(at, text);
    this.told.add(key);
  }
  // The procedures that a call may enter.
  callees(e) { return e.sym.mode ? [...groupOf(e.sym).procs.keys()] : [e.sym]; }

  // Finds for each procedure parameter which procedures may be given for it, also through other parameters.
  meet() {
    for (let again = true; again;) {
      again = false;
      for (const e of this.calls) for (const proc of this.callees(e)) {
        proc.params.forEach((p, n) => {
          const a = e.args?.[n];
          if (p.mode === 'proc' && a?.k === 'id' && a.sym.kind === 'proc') again = this.give(p, a) || again;
        });
      }
    }
  }
  // Gives a procedure, or a parameter that is one, for a parameter; whether that is new.
  give(p, a) {
    const group = groupOf(p);
    if (a.sym.mode) return this.join(group, groupOf(a.sym));
    if (group.procs.has(a.sym)) return false;
    group.procs.set(a.sym, a);
    this.slot(group, a.sym);
    return true;
  }
  // The procedure parameters of a group's procedures that stand in one place are called in one way, too.
  slot(group, proc) {
    proc.params.forEach((p, n) => {
      if (p.mode !== 'proc') return;
      if (group.slots[n]) this.join(root(group.slots[n]), groupOf(p)); else group.slots[n] = groupOf(p);
    });
  }
  // Makes two groups one; whether they were two.
  join(a, b) {
    if (a === b) return false;
    b.same = a;
    for (const [proc, at] of b.procs) if (!a.procs.has(proc)) { a.procs.set(proc, at); this.slot(a, proc); }
    b.slots.forEach((slot, n) => { if (a.slots[n]) this.join(root(a.slots[n]), root(slot)); else a.slots[n] = slot; });
    return true;
  }
  // Decides for each group how its procedures are called.
  agree() {
    for (const proc of this.checker.procedures) for (const p of proc.params) if (p.mode === 'proc') this.convention(groupOf(p));
  }
  // If their parameters differ in value and name alone, all are called by name, through a wrapper each.
  convention(group) {
    if (group.params || !group.procs.size) return;
    const [first, ...others] = group.procs.keys();
    group.params = first.params;
    for (const proc of others) {
      const alike = proc.params.length === first.params.length && proc.params.every((p, n) => p.kind === first.params[n].kind && p.type === first.params[n].type);
      if (!alike) return this.once(group.procs.get(proc), `\`${proc.name}\` and \`${first.name}\` are given for one parameter, so they must have as many parameters, of the same kinds and types.`);
      if (proc.params.some((p, n) => p.mode !== first.params[n].mode)) group.generic = true;
    }
    if (group.generic) group.params = first.params.map(p => ({...p, mode: p.mode === 'value' ? 'name' : p.mode, assigned: false, acc: false, whole: false, targets: new Set()}));
    for (const proc of group.procs.keys()) {
      if (group.generic) proc.wrapped = true;
      if (group.params !== proc.params) proc.params.forEach((p, n) => { if (p.mode === group.params[n].mode) this.twins.push([p, group.params[n]]); });
    }
  }

  // Checks the arguments of a call.
  arguments(e) {
    const params = e.params = e.sym.mode ? groupOf(e.sym).params : e.sym.params, args = e.args ?? [];
    e.generic = e.sym.mode === 'proc' && groupOf(e.sym).generic;
    if (!params) return;
    if (params.length !== args.length) return this.fail(e, `\`${e.name}\` takes ${params.length} argument${params.length === 1 ? '' : 's'}, and here ${args.length === 1 ? 'is' : 'are'} ${args.length}.`);
    params.forEach((p, n) => { if (this.fits(e, p, args[n])) this.pairs.push({p, a: args[n], e}); });
  }
  // Checks one argument; whether it fits.
  fits(e, p, a) {
    const kind = a.k === 'id' ? a.sym.kind : 'expr', of = `The parameter \`${p.name}\` of \`${e.name}\``;
    const refuse = text => { this.once(a, `${of} ${text}`); return false; };
    if (kind === 'unknown') return false;
    if (p.mode === 'label') return this.fitsLabel(a, refuse);
    if (p.mode === 'switch') return kind === 'switch' || refuse('is a switch, and this is none.');
    if (p.mode === 'array' || p.mode === 'proc') return this.fitsKind(p, a, kind, refuse);
    if (kind === 'array' || kind === 'switch' || a.type === 'label') return refuse(`is ${some(p.type)}, and this is ${kind === 'array' ? 'an array' : kind === 'switch' ? 'a switch' : 'a label'}.`);
    if (kind === 'proc' && !a.sym.type) return refuse('is no procedure, and this has no value.');
    if (kind === 'proc' && (a.sym.mode ? groupOf(a.sym).params : a.sym.params)?.length) { this.once(a, `\`${a.name}\` needs its arguments here.`); return false; }
    return !a.type || a.type === p.type || refuse(`is ${some(p.type)}, and this is ${some(a.type)}.`);
  }
  fitsLabel(a, refuse) {
    if (a.k === 'num') this.checker.designation(a, a.scope);
    return a.type === 'label' || a.sym?.kind === 'unknown' || refuse('is a label, and this is none.');
  }
  // An array or a procedure is wanted.
  fitsKind(p, a, kind, refuse) {
    const array = p.mode === 'array', want = array ? 'array' : 'procedure';
    if (kind !== p.mode) return refuse(`is ${array ? 'an array' : 'a procedure'}, and this is none.`);
    return a.sym.type === p.type || refuse(`is ${p.type ? `${some(p.type)} ${want}` : `a ${want} without a type`}, and this is not.`);
  }

  // Finds how many subscripts the array parameters have that are only handed on.
  subscripts() {
    const pairs = this.pairs.filter(({p}) => p.mode === 'array').map(({p, a}) => [p, a.sym]).concat(this.twins.filter(([p]) => p.mode === 'array'));
    for (let again = true; again;) {
      again = false;
      for (const [p, q] of pairs) {
        if (!p.dims && q.dims) { p.dims = q.dims; again = true; }
        if (!q.dims && p.dims) { q.dims = p.dims; again = true; }
      }
    }
    for (const [p, q] of pairs) if (p.owner && q.owner && p.dims !== q.dims) this.once(p, `\`${p.name}\` has ${plural(p.dims, 'dimension')}, and \`${q.name}\`, which is passed in the same way, has ${q.dims}.`);
    for (const {p, a} of this.pairs) {
      if (p.mode === 'array' && p.dims !== a.sym.dims) this.once(a, `\`${a.name}\` has ${plural(a.sym.dims, 'dimension')}, and the parameter \`${p.name}\` has ${p.dims}.`);
    }
  }
  // Finds the parameters by name that are assigned to, those whose address must be asked for, since an element may be given for them,
  // and the arrays whose length is wanted, since they may be given for a copied one.
  spread() {
    const named = this.pairs.filter(({p}) => p.mode === 'name'), arrays = this.pairs.filter(({p}) => p.mode === 'array');
    for (let again = true; again;) {
      again = false;
      const set = (sym, flag, on) => { if (on && !sym[flag]) sym[flag] = again = true; };
      for (const [p, q] of this.twins) for (const f of ['assigned', 'acc', 'whole']) { set(p, f, q[f]); set(q, f, p[f]); }
      for (const {p, a} of named) {
        if (a.sym?.mode === 'name' && a.k === 'id') { set(a.sym, 'assigned', p.assigned); set(p, 'acc', p.assigned && a.sym.acc); }
        if (a.k === 'sub') set(p, 'acc', p.assigned);
      }
      for (const {p, a} of arrays) set(a.sym, 'whole', p.whole);
    }
    for (const {p, a} of named) {
      const variable = a.k === 'sub' || (a.k === 'id' && ['var', 'unknown'].includes(a.sym.kind));
      if (p.assigned && !variable) this.once(a, `The parameter \`${p.name}\` is assigned to (in \`${p.owner}\`), so a variable is wanted here.`);
    }
  }

  // Finds which code a name, label or switch parameter may stand for.
  flow() {
    const handed = [];
    for (const e of this.calls) for (const proc of this.callees(e)) {
      proc.params.forEach((p, n) => {
        const a = e.args?.[n];
        if (!a) return;
        if (e.generic && p.mode === 'value') { handed.push({p, a}); this.checker.enters.push({unit: proc.unit, sym: {mode: 'name', targets: p.targets}}); }
        else if (p.mode === 'value') this.checker.enters.push({unit: e.unit, to: a.unit, sym: a.k === 'id' ? a.sym : null});
        else if (p.mode !== 'array' && p.mode !== 'proc') handed.push({p, a});
      });
    }
    for (let again = true; again;) {
      again = false;
      for (const {p, a} of handed) for (const unit of standsFor(a)) if (!p.targets.has(unit)) { p.targets.add(unit); again = true; }
    }
  }
  // Finds the units that a go to may lead out of, and the segments that are gone to from others.
  leaving() {
    const {gotos, enters, processes} = this.checker;
    for (const {to, seg, unit} of gotos) this.ways(to, seg, unit);
    for (const {p, a} of this.pairs) if (p.mode === 'label' || p.mode === 'switch') for (const e of p.mode === 'switch' ? a.sym.list ?? [] : [a]) this.ways(e, null, a.unit);
    if (!this.crosses) return;
    for (let again = true; again;) {
      again = false;
      for (const {unit, to, sym} of enters) if (!unit.leaves && ((to && to.leaves) || leaves(sym))) unit.leaves = again = true;
    }
    for (const call of processes) if (leaves(call.sym)) this.fail(call, 'A task cannot leave a procedure by a go to.');
  }
  // Notes where a designational expression may lead from a segment; from null it leads out of a procedure in any case.
  ways(e, seg, unit) {
    if (e.k === 'choice') { this.ways(e.yes, seg, unit); this.ways(e.no, seg, unit); return; }
    const {sym} = e;
    if (sym?.mode) { this.checker.enters.push({unit, sym}); return; }
    if (e.k === 'sub') { for (const item of sym?.list ?? []) this.ways(item, seg, unit); return; }
    if (sym?.kind !== 'label' || inside(seg, sym.seg)) return;
    this.crosses = unit.leaves = true;
    this.goneTo.add(sym.seg);
    if (!sym.seg.ways.includes(sym)) sym.seg.ways.push(sym);
  }

  // Lays out the cells that depend on what was found: of parameters, of arrays with their bounds, and of what go tos need.
  lay() {
    for (const proc of this.checker.procedures) {
      for (const p of proc.params) this.parameter(p, proc.body);
      for (const p of proc.params) if (p.copied) this.copied(p, proc.body);
      if (proc.wrapped) proc.wrapper = this.wrapper(proc);
    }
    for (const d of this.checker.arrays.filter(it => it.own)) this.array(d);
    for (const d of this.checker.arrays.filter(it => !it.own)) this.array(d);
    const {main} = this.checker;
    if (this.crosses) main.flag = main.cell('var', 'leaving');
    for (const seg of this.goneTo) seg.way = seg.cell('var', 'way in');
  }
  // The cells of a parameter: of an array with its lower bounds, and with the lengths of its dimensions but for the first, unless it is wanted.
  parameter(p, seg) {
    p.cell = seg.cell('param', p.name, {line: p.line});
    if (p.mode !== 'array') return;
    const of = (what, n) => seg.cell('param', `${what} of ${p.name}${p.dims > 1 ? `, ${n + 1}` : ''}`, {line: p.line});
    p.bounds = Array.from({length: p.dims || 1}, (_, n) => ({lower: of('lower bound', n), length: n || p.whole ? of('length', n) : null}));
  }
  // The cell of an array's copy; what was passed keeps its own.
  copied(p, seg) {
    p.given = p.cell;
    p.count = seg.cell('var', `copying ${p.name}`, {line: p.line});
    p.cell = seg.cell('array', p.name, {line: p.line});
  }
  // A procedure that takes its arguments by name and calls another one, which takes some by value.
  wrapper(proc) {
    const {body} = proc, seg = new Seg('wrapper', proc.name, body.parent, body);
    const params = proc.params.map(p => ({...p, mode: p.mode === 'value' ? 'name' : p.mode, copied: false}));
    for (const p of params) this.parameter(p, seg);
    seg.proc = proc;
    return {cell: body.parent.cell('pcw', `${proc.name} by name`, {target: seg, line: body.line}), seg, params};
  }
  // The cells of the arrays of one list of bounds. A bound that is a number has none; nor has a length that nobody asks for.
  array(d) {
    const many = d.syms.length > 1, whole = d.syms.some(sym => sym.whole), {seg} = d;
    const bounds = d.bounds.map((b, n) => {
      const lower = constant(b.lower), upper = constant(b.upper), known = lower !== null && upper !== null;
      const cell = what => seg.cell('array', `${what} of ${d.syms[0].name}${d.bounds.length > 1 ? `, ${n + 1}` : ''}`, {line: d.line});
      const bound = {lower: lower ?? cell('lower bound')};
      bound.length = known ? upper - lower + 1 : n || whole || many || d.bounds.length > 1 ? cell('length') : null;
      return bound;
    });
    for (const sym of d.syms) Object.assign(sym, {bounds, cell: seg.cell('array', sym.name, {line: sym.line})});
  }
}

const plural = (n, what) => `${n} ${what}${n === 1 ? '' : 's'}`;

// Whether a segment is another one, or a block with arrays in it, so that no procedure is left on the way.
function inside(seg, other) {
  while (seg && seg !== other && seg.kind === 'block') seg = seg.parent;
  return seg === other;
}

// Whether a procedure parameter's procedures are called by name.
export function isGeneric(p) { return p.group ? root(p.group).generic : false; }

// The units for which an argument stands that isn't worked out at once.
function standsFor(a) {
  if (a.k !== 'id') return [a.unit];
  const {sym} = a;
  if (sym.kind === 'proc') return sym.mode ? entered(sym) : [sym.unit];
  if (sym.kind === 'var') return sym.mode === 'name' ? [a.unit, ...sym.targets] : [];
  return sym.mode ? [...sym.targets] : [a.unit];
}

// The units that a name may enter.
export function entered(sym) {
  if (!sym) return [];
  if (sym.kind === 'proc') return sym.mode ? [...groupOf(sym).procs.keys()].map(proc => proc.unit) : [sym.unit];
  return sym.mode && sym.mode !== 'value' && sym.mode !== 'array' ? [...sym.targets] : [];
}

// Whether a go to may lead out of what a name stands for.
export function leaves(sym) { return entered(sym).some(unit => unit.leaves); }

// The segments that what a name stands for is made of.
export function segmentsOf(sym) {
  const wrappers = sym.kind === 'proc' && sym.mode ? [...groupOf(sym).procs.keys()].map(proc => proc.wrapper?.seg) : [];
  return [...entered(sym).map(unit => unit.seg), ...wrappers].filter(Boolean);
}
