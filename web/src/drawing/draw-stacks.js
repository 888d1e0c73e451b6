// The drawing of the stacks: a column of records for each task, from the bottom up; arrows are drawn by draw-arrows.js.
import {drawn, put, putKept, set, taskClass} from '../page/elements.js';
import {INTRINSICS} from '../reader/operators.js';
import {heldBy} from '../words/reading.js';
import {cornerAt, pinnedWidth, placePinned} from './pin-stack.js';
import {arrowsOf, chosen, drawArrows, lanesBeside, legend} from './draw-arrows.js';

const [LEAST_SCALE, LEAST_FIT, MOST_FIT] = [0.8, 0.2, 2.2];
const [ROW, CHARACTER, LEFT, GAP, MOST_ROWS] = [20, 7.9, 34, 56, 46];
const [BESIDE, LANE] = [56, 5]; // at the right of a column: the room for S, F and arrows that turn there, and for each lane
const COUPLE = 52; // the room of a couple before the tag
const [MOST_CELLS, LOWEST, TOPMOST] = [40, 8, 24]; // of a record; of more the lowest and the topmost ones are drawn

function textAt(x, y, kind, ...text) {
  return drawn('text', {x, y, class: kind}, ...text);
}

// The text of a cell, with the name of an intrinsic and whether an array is out of core.
function shownText(cell) {
  const intrinsic = cell.kind === 'NAME' && /^0,/.test(cell.text) ? ` ${INTRINSICS[cell.text.slice(2)] ?? ''}` : '';
  const copy = cell.kind === 'ROW' || cell.kind === 'ELEMENT';
  const named = cell.kind === 'REF' && cell.toName ? ` = ${cell.toName}` : '';
  return `${cell.text}${intrinsic}${named}${copy ? (cell.absent ? ' → original' : ' → core') : cell.tag === 5 && cell.absent ? ' · not in core' : ''}`;
}

function linkText(record) {
  return record.link.startsWith('DICT') ? 'link: dictionary' : `link: ${record.link.replace(' ', ' record ')}`;
}

// How many signs the longest name of a cell has, with a space before it.
function longestName(state) {
  const names = state.tasks.flatMap(task => task.records.flatMap(record => record.cells.map(cell => (cell.name ? cell.name.length + 1 : 0))));
  return Math.max(0, ...names);
}

class StacksDrawing {
  // `view` says what is folded and followed, and which arrows are drawn; `operators` name the cards of return words.
  constructor(state, operators, view) {
    Object.assign(this, {state, operators, view, parts: [], registers: [], records: new Map(), cells: new Map(), lowest: 40, highest: 0});
    this.fresh = new Set(state.freshCells);
    this.short = view.fit && state.tasks.length > 3;
    this.room = COUPLE + Math.ceil(CHARACTER * longestName(state));
    this.tasks = [...state.tasks].sort((a, b) => a.name.localeCompare(b.name, 'en', {numeric: true}));
  }

  // A text as it is drawn: shorter if many stacks are to be in view.
  text(long) {
    if (!this.short) return long;
    return long.replace(/^waits at cell (\d+) of record (\d+) of task (\S+)$/, 'waits $3 r$2 c$1').replace('awaits the end of task', 'awaits').replaceAll(' record ', ' r').replaceAll(', cell ', ' c').replace(' · not in core', ' out');
  }

  // Adds a part: what makes it at the origin, by a key that says all it depends on, and its place.
  add(key, x, y, make, parts = this.parts) {
    parts.push({key, place: `translate(${x} ${y})`, make: () => drawn('g', {}, make())});
  }

  draw() {
    const arrows = arrowsOf(this.tasks), lanes = lanesBeside(chosen(arrows, this.view.allArrows), name => this.tasks.findIndex(task => task.name === name));
    let x = LEFT;
    this.tasks.forEach((task, column) => {
      const width = this.widthOf(task), gap = this.short ? GAP - 14 : GAP;
      this.drawTask(task, column, x, width);
      if (!column) this.first = {parts: [...this.parts], right: x + Math.max(width, this.text(task.condition).length * CHARACTER) + 6};
      x += Math.max(width, this.text(task.condition).length * CHARACTER - 10) + (lanes(column) ? Math.max(gap, BESIDE + LANE * lanes(column)) : gap);
    });
    const {paths, lowest, shown} = drawArrows(arrows, this);
    const width = Math.max(x, 400), top = this.highest - 14, height = lowest + 80 - top;
    this.add(`legend ${shown} ${arrows.length}`, LEFT, lowest + 20, () => legend(shown, arrows.length));
    return {width, height, top, paths};
  }

  // A width of whole steps, so that it is seldom another one.
  widthOf(task) {
    const texts = task.records.flatMap(record => [20 + 5.2 * record.display.length, this.linkLine(task, record).length + 2,
      ...record.cells.map(cell => this.text(shownText(cell)).length + 11 + (this.room - COUPLE) / CHARACTER)]);
    return Math.ceil(Math.max(this.short ? 140 : this.tasks.length > 2 ? 170 : 230, Math.max(...texts) * CHARACTER) / 10) * 10;
  }

  // The stack of a child stands on the record to which its bottom record's static link leads.
  drawTask(task, column, x, width) {
    let y = (column && this.records.get(task.records[0].link)?.y) || 0;
    this.lowest = Math.max(this.lowest, y + 62);
    const next = `next: ${this.placeText(task.name, task.next)}`, title = `task ${task.name}${task.runs ? ' · runs' : ''}`;
    this.add([title, task.condition, next, this.short].join('|'), x, y, () => [textAt(0, 19, `title ${taskClass(task.name)}`, title),
      textAt(0, 36, 'dim', this.text(task.condition)), textAt(0, 53, 'dim', next)]);
    this.cells.set(`task ${task.name}`, {x, width, y: y + 15, column});
    for (const part of this.folded(task)) {
      y -= Array.isArray(part) ? this.drawFold(task, part, column, x, y, width) : this.drawRecord(task, part, column, x, y, width);
    }
    this.highest = Math.min(this.highest, y);
    this.drawRegisters(task, x + width + 5, y + 5);
  }

  placeText(task, place) {
    const found = this.operators[task.split('.')[0] - 1]?.[place];
    return found?.[0] ? `card ${found[0]}` : place;
  }

  // Where a record's static link leads, and where it returns to; nothing comes after a bottom record.
  linkLine(task, record) {
    if (record.level < 0) return '';
    return this.text(linkText(record)) + (record.back ? ` · ${this.short ? 'to' : 'returns to'} ${this.placeText(task.name, record.back)}` : '');
  }

  // The records of a task; of a long stack those that nothing near the top needs are put together.
  folded(task) {
    const rows = task.records.reduce((sum, record) => sum + Math.min(record.cells.length, MOST_CELLS) + 2, 0);
    if (!this.view.folds || rows <= MOST_ROWS) return task.records;
    const top = task.records.length, last = task.records.slice(-3);
    const wanted = new Set(last.flatMap(record => [record.link, ...record.cells.map(cell => cell.to.split(' ').slice(0, 2).join(' '))]));
    const parts = [];
    for (const record of task.records) {
      const kept = record.number === 1 || record.number > top - 4 || record.display.length || wanted.has(`${task.name} ${record.number}`);
      if (kept) parts.push(record);
      else if (Array.isArray(parts.at(-1))) parts.at(-1).push(record);
      else parts.push([record]);
    }
    return parts;
  }

  drawFold(task, records, column, x, y, width) {
    const at = {x, width, y: y - 10, column};
    this.add(`fold ${task.name} ${records.length} ${width}`, x, y, () => [drawn('rect', {y: -24, width, height: 21, rx: 3, class: 'fold'}),
      textAt(8, -9, 'dim', `… ${records.length} records (z shows them) …`)]);
    for (const record of records) {
      this.records.set(`${task.name} ${record.number}`, at);
      for (const cell of record.cells) this.cells.set(`${task.name} ${record.number} ${cell.at}`, {...at, folded: true});
    }
    return 28;
  }

  // The cells of a record as rows from the bottom up; of very many those in the middle are one row.
  rowsOf(record, id) {
    const {cells} = record, hidden = cells.length - LOWEST - TOPMOST;
    if (!this.view.folds || cells.length <= MOST_CELLS) return cells;
    return cells.reduce((rows, cell, k) => {
      const name = `${id} ${cell.at}`, seen = k < LOWEST || k >= LOWEST + hidden || name === this.view.followed || this.fresh.has(name);
      if (seen) rows.push(cell);
      else if (rows.at(-1)?.folded) rows.at(-1).folded.push(cell);
      else rows.push({folded: [cell]});
      return rows;
    }, []);
  }

  // Draws a record whose foot is at y; gives its height.
  drawRecord(task, record, column, x, y, width) {
    const id = `${task.name} ${record.number}`, open = record.level < 0, foot = open ? 1 : 2, rows = this.rowsOf(record, id);
    this.records.set(id, {x, width, y: y - ROW / 2, column});
    rows.forEach((row, k) => {
      const at = {x, width, y: y - (foot + k + 0.5) * ROW, column};
      if (row.folded) for (const cell of row.folded) this.cells.set(`${id} ${cell.at}`, {...at, folded: true});
      else this.cells.set(`${id} ${row.at}`, at);
    });
    const running = task.runs && !open && !task.records.some(it => it.level >= 0 && it.number > record.number);
    const shown = {id, room: this.room, walked: this.view.walked === id, number: record.number, level: record.level, display: record.display, link: this.linkLine(task, record), width, foot,
      kind: `record ${open ? 'open' : ''} ${running ? taskClass(task.name) : ''}`, fresh: this.fresh.has(id), rows: rows.map(row => this.shownRow(row, id))};
    this.add(JSON.stringify(shown), x, y, () => recordParts(shown));
    return (rows.length + foot) * ROW + 6;
  }

  shownRow(row, id) {
    if (row.folded) return {folded: row.folded.length};
    const name = `${id} ${row.at}`;
    return {at: row.at, tag: row.tag, text: this.text(shownText(row)), fresh: this.fresh.has(name), followed: this.view.followed === name, walked: this.view.walked === name, name: row.name ?? '', wrong: this.view.wrong?.has(name), said: `tag ${row.tag}: ${heldBy(row)}`};
  }

  // S, the top word, and F, the topmost mark.
  drawRegisters(task, x, y) {
    const mark = this.records.get(`${task.name} ${task.records.length}`).y, together = Math.abs(mark - y - 10) < 4;
    const text = together ? '◂ S, F' : '◂ S';
    this.add(`S ${task.name} ${text}`, x, y, () => textAt(0, 15, 'dim small register', text), this.registers);
    if (!together) this.add(`F ${task.name}`, x, mark, () => textAt(0, 5, 'dim small register', '◂ F'), this.registers);
  }
}

// A record over its foot at the origin: its title, where it leads and returns to, and its cells.
function recordParts({number, level, display, link, width, foot, kind, fresh, rows, room, walked}) {
  const height = (rows.length + foot) * ROW;
  return [drawn('rect', {y: -height, width, height, rx: 4, class: kind}),
    drawn('rect', {x: 1, y: -ROW, width: width - 2, height: ROW - 1, class: fresh ? 'fresh' : 'head'}),
    textAt(6, -5.5, 'strong', foot === 1 ? `record ${number}, open` : `record ${number}, level ${level}`),
    display.map((at, k) => [drawn('rect', {x: width - 42 - 40 * k, y: 2 - ROW, width: 38, height: 16, rx: 8, class: 'display'}),
      textAt(width - 37 - 40 * k, -5.5, 'display-text', `D[${at}]`)]),
    walked ? drawn('rect', {x: 1.5, y: 1.5 - ROW, width: width - 3, height: ROW - 3, class: 'walked'}) : null,
    foot === 2 ? textAt(6, -ROW - 5.5, 'dim', link) : null,
    rows.map((row, k) => (row.folded ? foldParts(row.folded, -(foot + k + 1) * ROW, width) : cellParts(row, foot === 1 ? '' : `${level},${row.at}${row.name ? ` ${row.name}` : ''}`, -(foot + k + 1) * ROW, width, room)))];
}

function foldParts(many, y, width) {
  return [drawn('rect', {x: 1, y: y + 1, width: width - 2, height: ROW - 1, class: 'fold'}), textAt(8, y + 14.5, 'dim', `… ${many} cells (z shows them) …`)];
}

function cellParts({tag, text, fresh, followed, walked, wrong, said}, name, y, width, room) {
  return [fresh ? drawn('rect', {x: 1, y: y + 1, width: width - 2, height: ROW - 1, class: 'fresh'}) : null,
    drawn('path', {d: `M0 ${y + ROW}h${width}`, class: 'rule'}), textAt(6, y + 14.5, 'dim', name),
    drawn('rect', {x: room, y: y + 3, width: 15, height: 14, rx: 2, class: `tag tag-${tag}`}), textAt(room + 3.5, y + 14.5, 'tag-text', String(tag)),
    textAt(room + 22, y + 14.5, fresh ? 'strong' : '', text), fresh && !wrong ? drawn('path', {d: `M${width - 9} ${y + 5}v10l-6 -5z`, class: 'fresh-sign'}) : null,
    wrong ? [drawn('rect', {x: 1.5, y: y + 1.5, width: width - 3, height: ROW - 3, class: 'wrong'}), textAt(width - 16, y + 14.5, 'wrong-sign', '✕')] : null,
    walked ? drawn('rect', {x: 1.5, y: y + 1.5, width: width - 3, height: ROW - 3, class: 'walked'}) : null,
    followed ? drawn('rect', {x: 1.5, y: y + 1.5, width: width - 3, height: ROW - 3, class: 'followed'}) : null,
    drawn('rect', {x: 0, y, width, height: ROW, class: 'under'}, drawn('title', {}, said))];
}

const pictures = new WeakMap(); // by its box: the picture's element, what is drawn, and its size

// The picture of a box, empty at first.
function pictureOf(box) {
  const kept = pictures.get(box);
  if (kept?.svg.parentNode === box) return kept;
  const made = {svg: drawn('svg', {role: 'img'}, drawn('g'), drawn('g'), drawn('g')), pinned: drawn('svg', {class: 'pinned', 'aria-hidden': 'true'}, drawn('g'))};
  put(box, made.svg, made.pinned);
  pictures.set(box, made);
  return made;
}

// Puts the drawing into its box, at the size that the letters have, with the running stack in view. What the box measures was asked
// before anything was drawn, since an answer in between costs a layout of the page.
export function showStacks(box, state, operators, view, {clientWidth, clientHeight, scrollLeft, scrollTop}) {
  if (!state.tasks.length) return put(box, noMachine(state));
  const drawing = new StacksDrawing(state, operators, view), {width, height, top, paths} = drawing.draw();
  const usual = Math.min(1, Math.max(LEAST_SCALE, (clientWidth - 26) / width)) * view.size / 14;
  const size = view.fit ? Math.max(LEAST_FIT, Math.min(MOST_FIT, (clientWidth - 26) / width, (clientHeight - 28) / height)) : usual;
  const full = view.prints ? height : Math.max(height, (clientHeight - 24) / size), above = top - (full - height);
  const picture = pictureOf(box), {svg, pinned} = picture, room = view.prints ? 0 : pinnedWidth(drawing.tasks, {width, right: drawing.first.right, size}, clientWidth);
  Object.assign(picture, {cells: drawing.cells, size, above});
  for (const [name, value] of Object.entries({width: width * size, height: full * size, viewBox: `0 ${above} ${width} ${full}`})) set(svg, name, value);
  svg.setAttribute('aria-label', spoken(state));
  const [records, arrows, registers] = svg.children;
  putPlaced(records, drawing.parts);
  putKept(arrows, paths);
  putPlaced(registers, drawing.registers);
  putPlaced(pinned.firstChild, room ? drawing.first.parts : []);
  placePinned(box, pinned, room, {above, full, size, left: LEFT});
  const running = drawing.tasks.find(task => task.runs), at = running && drawing.records.get(`${running.name} ${running.records.length}`);
  if (at) bringIn(box, {x: at.x * size, right: (at.x + at.width) * size, y: (at.y - above) * size, room}, {clientWidth, clientHeight, scrollLeft, scrollTop, key: `${state.count} ${running.name} ${running.records.length}`});
}

// Puts parts into a group, each at its place.
function putPlaced(group, parts) {
  putKept(group, parts.map(({key, make}) => [key, make])).forEach((node, k) => set(node, 'transform', parts[k].place));
}

const watched = new WeakMap(); // by its box: the record on top that was brought into view last

// Brings the topmost record of the running task into view if another one is on top now; else the box stays where it was scrolled to.
function bringIn(box, {x, right, y, room}, {clientWidth, clientHeight, scrollLeft, scrollTop, key}) {
  if (x < scrollLeft + room || right > scrollLeft + clientWidth) box.scrollLeft = Math.max(0, Math.min(x - Math.max(60, room + 30), right + 60 - clientWidth)); // no further than it must
  const [, ...record] = key.split(' '), last = watched.get(box);
  watched.set(box, record.join(' '));
  if (last !== record.join(' ') && last?.split(' ')[0] !== record[0] && (y < scrollTop || y > scrollTop + clientHeight - 20)) box.scrollTop = Math.max(0, y - clientHeight / 2);
}

// The name of the cell at a place of the window; null if there is none.
export function cellAt(box, {clientX, clientY}) {
  const {svg, pinned, cells, size, above} = pictureOf(box), corner = cornerAt(svg, pinned, {clientX});
  const x = (clientX - corner.left) / size, y = (clientY - corner.top) / size + above;
  const found = [...(cells ?? [])].find(([name, it]) => !it.folded && !name.startsWith('task') && Math.abs(it.y - y) <= ROW / 2 && x >= it.x && x <= it.x + it.width);
  return found ? found[0] : null;
}

function noMachine(state) {
  const note = document.createElement('p');
  note.className = 'note';
  note.textContent = state.unseen ? 'The machine before the first operator can’t be shown here, since that operator ends the run.'
    : 'The run has ended: no machine is left. Step back to see it before its last operator.';
  return note;
}

// The stacks in words, for those who hear the page.
function spoken(state) {
  const tasks = state.tasks.map(task => `task ${task.name}, ${task.condition}, ${task.records.length} records, ${task.words} words`);
  return `Stacks after ${state.count} operators: ${tasks.join('; ')}`;
}
