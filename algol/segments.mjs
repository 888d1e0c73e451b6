// What a program becomes: segments with their records, and the units of code that may enter one another.

// The parts of a record, in the order in which its cells are made.
export const PARTS = ['param', 'pcw', 'var', 'array'];

// The labels of an operator that has none.
export const NONE = Object.freeze([]);

// A segment to be: the program, a procedure, a thunk, or a block with arrays.
export class Seg {
  constructor(kind, name, parent, at) {
    Object.assign(this, {kind, name, parent, line: at.line, col: at.col, level: parent ? parent.level + 1 : 2, code: [], waiting: [], exits: [], ways: [], enters: [],
      parts: {param: [], pcw: [], var: [], array: []}});
  }
  // Makes a cell of this segment's record.
  cell(part, name, more) {
    const made = {seg: this, part, name, index: this.parts[part].length, ...more};
    this.parts[part].push(made);
    return made;
  }
}

// The displacement of a cell, once all cells of its record are known.
export function displacement({seg: {parts}, part, index}) {
  let n = 2 + index;
  for (const before of PARTS) { if (before === part) return n; n += parts[before].length; }
}

// Code that is entered as one: a procedure, or an argument that may become a thunk. It `leaves` if a go to may lead out of it.
export class Unit {
  constructor(parent) { Object.assign(this, {parent, leaves: false, seg: null}); }
}
