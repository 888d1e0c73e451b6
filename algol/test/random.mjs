// Random typed programs of the subset. Each variable has a value before it is used; recursion is bounded by a parameter.
class Random {
  constructor(seed) { this.s = seed * 2654435761 >>> 0 || 1; for (let i = 0; i < 9; i++) this.n(2); }
  n(m) { let x = this.s; x ^= x << 13; x >>>= 0; x ^= x >>> 17; x ^= x << 5; this.s = x >>>= 0; return x % m; }
  of(list) { return list[this.n(list.length)]; }
  chance(p) { return this.n(100) < p; }
}
export class Programs {
  constructor(seed) { this.r = new Random(seed); this.count = 0; this.size = 0; this.bodies = 0; }
  fresh(p) { return p + ++this.count; }
  // What is in scope: {k, name, type, ..}
  pick(scope, f) { const found = scope.filter(f); return found.length ? this.r.of(found) : null; }
  program() {
    const data = Array.from({length: 30}, () => this.r.n(41) - 20).join(' ');
    return `$STACK 8000\n$LIMIT 3000000\n$DATA ${data}\nbegin integer fuel; fuel := 15;\n${this.block([], 0, [], true)}\nend\n`;
  }
  // A block: variables, arrays, procedures, labels to which one may go from inside of procedures, and statements.
  block(outer, depth, labels, main = false) {
    const {r} = this, scope = [...outer], decls = [], starts = [];
    for (let i = r.n(3) + (main ? 2 : 0); i >= 0; i--) this.variable(scope, decls, starts);
    if (r.chance(45)) this.arrays(scope, decls, starts, outer, main);
    const far = r.chance(30) ? [this.fresh('Z'), this.fresh('Z')].slice(r.n(2)) : [];
    for (const name of far) scope.push({k: 'label', name});
    if (far.length && r.chance(40)) {
      const name = this.fresh('S'), target = () => r.chance(70) ? r.of(far) : `if ${this.bool(scope, 1)} then ${r.of(far)} else ${r.of(far)}`;
      decls.push(`switch ${name} := ${Array.from({length: 1 + r.n(3)}, target).join(', ')}`);
      scope.push({k: 'switch', name});
    }
    const procs = this.bodies < 7 && depth < 5 ? r.n(main ? 4 : 2) + (main ? 1 : 0) : 0;
    for (let i = 0; i < procs; i++) { const p = this.procedure(scope, depth + 1); decls.push(p.text); scope.push(p); }
    const stmts = this.statements(scope, depth, labels, 3 + r.n(main ? 6 : 3));
    for (const name of far) { const at = r.n(stmts.length); stmts[at] = `${name}: ${stmts[at]}`; }
    if (main) for (const v of scope) stmts.push(this.shown(v));
    return `begin ${decls.join('; ')};\n${[...starts, ...stmts].join(';\n')}\nend`;
  }
  // A statement that prints what a name has.
  shown(v) { return v.k === 'var' ? `print(${v.type === 'integer' ? v.name : `if ${v.name} then 1 else 0`})` : v.k === 'array' ? `printrow(${v.name})` : ''; }
  variable(scope, decls, starts) {
    const {r} = this, v = {k: 'var', name: this.fresh(r.of(['x', 'y', 'n'])), type: r.chance(70) ? 'integer' : 'Boolean'};
    scope.push(v);
    if (v.type === 'integer' && r.chance(10)) { decls.push(`own integer ${v.name}`); return; }
    decls.push(`${v.type} ${v.name}`);
    starts.push(`${v.name} := ${v.type === 'integer' ? r.n(20) - 5 : r.of(['true', 'false'])}`);
  }
  // Arrays of one list of bounds, of one or two dimensions; the first bounds may depend on a variable.
  arrays(scope, decls, starts, outer, main) {
    const {r} = this, lower = r.n(7) - 3, length = 1 + r.n(6), type = r.chance(75) ? 'integer' : 'Boolean', second = r.chance(35) ? {lower: r.n(5) - 2, length: 1 + r.n(4)} : null;
    const names = [this.fresh('A'), ...(r.chance(30) ? [this.fresh('A')] : [])], known = !main && r.chance(40) && this.pick(outer, v => v.k === 'var' && v.type === 'integer' && !v.byname);
    const more = second ? `, ${second.lower}:${second.lower + second.length - 1}` : '';
    if (!known) {
      decls.push(`${type} array ${names}[${lower}:${lower + length - 1}${more}]`);
      for (const name of names) scope.push({k: 'array', name, type, lower, length, second});
      return;
    }
    const first = this.fresh('i'); // the variable may change later
    decls.push(`integer ${first}`, `${type} array ${names}[${known.name}:${known.name} + ${length - 1}${more}]`);
    starts.push(`${first} := ${known.name}`);
    for (const name of names) scope.push({k: 'array', name, type, lower: first, length, second});
    scope.push({k: 'var', name: first, type: 'integer', fixed: true});
  }
  statements(scope, depth, labels, n) {
    const out = [], here = [];
    for (let i = 0; i < n; i++) {
      if (this.r.chance(10)) { const l = this.fresh('L'); here.push([i + 1 + this.r.n(n - i), l]); out.push(this.statement(scope, depth, [...labels, l])); } else out.push(this.statement(scope, depth, labels));
    }
    for (const [at, l] of here) if (at < out.length) out[at] = `${l}: ${out[at]}`; else { out.push(`${l}:`); }
    return out;
  }
  statement(scope, depth, labels) {
    const {r} = this;
    if (++this.size > 160) return this.assign(scope, 1);
    switch (r.n(depth > 4 ? 8 : 15)) {
      case 0: case 1: case 2: case 3: return this.assign(scope, 3);
      case 4: return `print(${this.int(scope, 3)})`;
      case 5: case 6: return this.callStatement(scope);
      case 7: return r.chance(50) ? this.leave(scope) : labels.length ? `if ${this.bool(scope, 2)} then go to ${r.of(labels)}` : this.assign(scope, 2);
      case 8: case 9: return `if ${this.bool(scope, 2)} then ${this.simple(scope, depth, labels)}${r.chance(50) ? ` else ${this.statement(scope, depth + 1, labels)}` : ''}`;
      case 10: case 11: case 12: return this.loop(scope, depth, labels);
      case 13: return this.block(scope, depth + 1, labels);
      default: return `begin ${this.statements(scope, depth + 1, labels, 1 + r.n(3)).join('; ')} end`;
    }
  }
  // A go to that may lead out of procedures and backwards, so only as often as there is fuel.
  leave(scope) {
    const {r} = this, label = this.pick(scope, x => x.k === 'label'), by = this.pick(scope, x => x.k === 'switch');
    if (!label) return this.assign(scope, 2);
    const to = by && r.chance(40) ? `${by.name}[${this.int(scope, 1)}]` : r.chance(80) ? label.name : `if ${this.bool(scope, 1)} then ${label.name} else ${this.pick(scope, x => x.k === 'label').name}`;
    return `begin fuel := fuel - 1; if fuel > 0 ${r.chance(40) ? `and ${this.bool(scope, 1)} ` : ''}then go to ${to} end`;
  }
  simple(scope, depth, labels) { return this.r.chance(50) ? this.assign(scope, 2) : `begin ${this.statements(scope, depth + 1, labels, 1 + this.r.n(3)).join('; ')} end`; }
  loop(scope, depth, labels) {
    const {r} = this, i = this.fresh('i'), inner = [...scope, {k: 'var', name: i, type: 'integer', fixed: true}];
    const element = () => r.of([() => `${r.n(9) - 4}`, () => this.int(scope, 2), () => `${r.n(4)} step ${1 + r.n(2)} until ${r.n(6)}`, () => `${r.n(5)} step -${1 + r.n(2)} until ${-r.n(3)}`,
      () => `${i} + 1 while ${i} < ${r.n(6)}`, () => `1 step ${r.of(['1', '(if true then 2 else 1)', `(1 + abs(${i}) div 3)`])} until ${r.n(6)}`])();
    const v = r.chance(20) && this.lvalue(scope, 'integer', 2);
    if (v) return `for ${v} := ${r.n(3)} step 1 until ${r.n(5)}${r.chance(30) ? `, ${r.n(9)}` : ''} do ${this.statement(scope, depth + 1, labels)}`;
    const body = r.chance(30) && this.size < 120 ? this.block(inner, depth + 1, labels) : this.statement(inner, depth + 1, labels);
    return `begin integer ${i}; ${i} := 0; for ${i} := ${Array.from({length: 1 + (r.chance(30) ? 1 + r.n(2) : 0)}, element).join(', ')} do ${body} end`;
  }
  lvalue(scope, type, depth) {
    const v = this.pick(scope, x => (x.k === 'array' || (x.k === 'var' && !x.fixed)) && x.type === type);
    return v && (v.k === 'array' ? this.element(scope, v, depth) : v.name);
  }
  element(scope, v, depth) {
    const subscript = d => {
      const {r} = this;
      if (r.chance(1)) return this.int(scope, 1);
      if (typeof d.lower === 'number' && r.chance(30)) return `${d.lower + r.n(d.length)}`;
      const e = `abs(${this.int(scope, depth - 1)}) mod ${d.length}`;
      return typeof d.lower === 'string' ? `${d.lower} + ${e}` : d.lower < 0 ? `${e} - ${-d.lower}` : `${e} + ${d.lower}`;
    };
    return `${v.name}[${[v, ...(v.second ? [v.second] : [])].map(subscript).join(', ')}]`;
  }
  assign(scope, depth) {
    const type = this.r.chance(70) ? 'integer' : 'Boolean', a = this.lvalue(scope, type, depth), b = this.r.chance(15) ? this.lvalue(scope, type, 1) : null;
    if (!a) return '';
    return `${a} := ${b ? b + ' := ' : ''}${type === 'integer' ? `(${this.int(scope, depth)}) mod 1000` : this.bool(scope, depth)}`;
  }
  callStatement(scope) { const p = this.pick(scope, x => x.k === 'proc'); return p ? this.call(scope, p, 2, true) : this.assign(scope, 2); }
  call(scope, p, depth, alone = false) {
    const {r} = this;
    if (!p.params.length) return p.name;
    const args = p.params.map(q => {
      if (q.recursive) return p.inside ? `${q.name} - 1` : `${r.n(4)}`;
      if (q.k === 'label') { const l = this.pick(scope, x => x.k === 'label'); return !l ? null : r.chance(80) ? l.name : `if ${this.bool(scope, 1)} then ${l.name} else ${this.pick(scope, x => x.k === 'label').name}`; }
      if (q.k === 'switch') { const s = this.pick(scope, x => x.k === 'switch'); return s ? s.name : null; }
      if (q.k === 'array') { const a = this.pick(scope, x => x.k === 'array' && x.type === q.type && x.lower === q.lower && x.length >= q.length && sameShape(x, q)); return a ? a.name : null; }
      if (q.k === 'proc') { const f = this.pick(scope, x => x.k === 'proc' && !x.inside && x.shape === q.shape && x.type === q.type); return f ? f.name : null; }
      if (q.assigned) return this.lvalue(scope, q.type, 2);
      return q.type === 'integer' ? this.int(scope, depth) : this.bool(scope, depth);
    });
    if (args.some(a => a === null)) return alone ? '' : p.type === 'integer' ? '3' : p.type === 'Boolean' ? 'true' : '';
    const text = `${p.name}(${args.join(', ')})`;
    return p.inside ? (alone ? `if ${p.params[0].name} > 0 then ${text}` : p.type === 'integer' ? `(if ${p.params[0].name} > 0 then ${text} else 7)` : p.type ? `(if ${p.params[0].name} > 0 then ${text} else false)` : `if ${p.params[0].name} > 0 then ${text}`) : text;
  }
  // Parameters of a procedure, by value and by name, arrays, procedures, labels and switches.
  parameter(outer) {
    const {r} = this, a = r.chance(20) && this.pick(outer, x => x.k === 'array'), f = r.chance(25) && this.pick(outer, x => x.k === 'proc' && x.shape !== null);
    if (a && typeof a.lower === 'number') return {...a, k: 'array', name: this.fresh('F'), value: r.chance(30)};
    if (f) return {k: 'proc', name: this.fresh('f'), type: f.type, shape: f.shape, params: f.params.map(q => ({...q, recursive: false}))};
    if (r.chance(8) && this.pick(outer, x => x.k === 'label')) return {k: 'label', name: this.fresh('l')};
    if (r.chance(8) && this.pick(outer, x => x.k === 'switch')) return {k: 'switch', name: this.fresh('s')};
    const value = r.chance(40);
    return {k: 'var', name: this.fresh('p'), type: r.chance(75) ? 'integer' : 'Boolean', value, byname: !value, assigned: !value && r.chance(40)};
  }
  specification(q) {
    if (q.k === 'label' || q.k === 'switch') return `${q.k} ${q.name}`;
    return q.k === 'array' ? `${q.type} array ${q.name}` : q.k === 'proc' ? `${q.type ?? ''} procedure ${q.name}` : `${q.type} ${q.name}`;
  }
  procedure(outer, depth) {
    const {r} = this, name = this.fresh('P'), type = r.of([null, 'integer', 'integer', 'Boolean']), params = [], recursive = r.chance(50);
    this.bodies++;
    if (recursive) params.push({k: 'var', name: this.fresh('d'), type: 'integer', value: true, recursive: true, fixed: true});
    for (let i = r.n(4); i > 0; i--) params.push(this.parameter(outer));
    // What a parameter must have that this procedure is given for; value and name may differ.
    const shape = params.every(q => q.k === 'var' && !q.assigned && !q.recursive) ? `${params.map(q => q.type)}|` : null, self = {k: 'proc', name, type, params, shape};
    const scope = [...outer, ...params.map(q => q.k === 'var' && q.byname && !q.assigned ? {...q, fixed: true} : q), ...(recursive ? [{...self, inside: true}] : [])];
    const values = params.filter(q => q.value).map(q => q.name), specs = params.map(q => this.specification(q)), before = this.size < 130 ? this.block(scope, depth, []) : '';
    const heading = `${type ?? ''} procedure ${name}${params.length ? `(${params.map(q => q.name).join(', ')})` : ''}; ${values.length ? `value ${values.join(', ')}; ` : ''}${specs.map(s => s + '; ').join('')}`;
    self.text = `${heading}\n${this.body(scope, name, type, before)}`;
    return self;
  }
  // The body of a procedure: its block and its value, in one of several forms.
  body(scope, name, type, before) {
    const {r} = this, result = type === 'integer' ? `${name} := (${this.int(scope, 3)}) mod 100` : type ? `${name} := ${this.bool(scope, 2)}` : '';
    if (!type || r.chance(70)) return `begin ${before}; ${result} end`;
    return r.chance(50) ? result : `if ${this.bool(scope, 1)} then ${result} else begin ${before}; ${name} := ${type === 'integer' ? 5 : 'false'} end`;
  }
  int(scope, depth) {
    const {r} = this;
    if (depth <= 0 || r.chance(20)) { const v = r.chance(75) && this.pick(scope, x => x.k === 'var' && x.type === 'integer'); return v ? v.name : `${r.n(12)}`; }
    const a = () => this.int(scope, depth - 1);
    switch (r.n(14)) {
      case 0: case 1: return `(${a()} + ${a()})`;
      case 2: case 3: return `(${a()} - ${a()})`;
      case 4: return `(${a()} mod 100 * ${a()} mod 30)`;
      case 5: return `(${a()} div ${r.chance(97) ? 1 + r.n(9) : a()})`;
      case 6: return `(${a()} mod ${r.of([2, 3, 7, '(-5)'])})`;
      case 7: return `((${a()}) mod 5 ^ ${r.of(['2', '3', '5', '0', `abs(${this.int(scope, 0)}) mod 4`].map(x => x.includes('(') ? `(${x})` : x))})`;
      case 8: return `(if ${this.bool(scope, depth - 1)} then ${a()} else ${a()})`;
      case 9: return r.of([() => `abs(${a()})`, () => `sign(${a()})`, () => `(-${a()})`, () => r.chance(8) ? 'read' : `(+${a()})`])();
      case 10: { const v = this.pick(scope, x => x.k === 'array' && x.type === 'integer'); return v ? this.element(scope, v, depth) : a(); }
      default: { const p = this.pick(scope, x => x.k === 'proc' && x.type === 'integer'); return p ? this.call(scope, p, depth - 1) : a(); }
    }
  }
  bool(scope, depth) {
    const {r} = this;
    if (depth <= 0 || r.chance(15)) { const v = r.chance(75) && this.pick(scope, x => x.k === 'var' && x.type === 'Boolean'); return v ? v.name : r.of(['true', 'false']); }
    const b = () => this.bool(scope, depth - 1);
    switch (r.n(9)) {
      case 0: return `(${b()} and ${b()})`; case 1: return `(${b()} or ${b()})`; case 2: return `(${b()} imp ${b()})`; case 3: return `(${b()} eqv ${b()})`;
      case 4: return `(not ${b()})`;
      case 5: { const p = this.pick(scope, x => x.k === 'proc' && x.type === 'Boolean'); return p ? this.call(scope, p, depth - 1) : b(); }
      case 6: { const v = this.pick(scope, x => x.k === 'array' && x.type === 'Boolean'); return v ? this.element(scope, v, depth) : `(if ${b()} then ${b()} else ${b()})`; }
      default: return `(${this.int(scope, depth - 1)} ${r.of(['<', '<=', '=', '>=', '>', '<>'])} ${this.int(scope, depth - 1)})`;
    }
  }
}
// Whether an array may be given for another one, by its second dimension.
function sameShape({second: a}, {second: b}) { return a ? Boolean(b) && a.lower === b.lower && a.length === b.length : !b; }
