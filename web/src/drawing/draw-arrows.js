// The arrows of the drawing: static links, references, copies of arrays, and the cells at which tasks wait.
import {drawn} from '../page/elements.js';

const MOST_ARROWS = 36;
const ARROWS = [['link', 'static link'], ['ref', 'reference'], ['copy', 'copy of an array'], ['wait', 'waits at']];

// All arrows, each with its kind and the names of its two ends.
export function arrowsOf(tasks) {
  const arrows = [];
  for (const task of tasks) {
    for (const record of task.records) {
      const id = `${task.name} ${record.number}`;
      for (const cell of record.cells) {
        if (cell.to) arrows.push({kind: cell.kind === 'REF' ? 'ref' : 'copy', from: `${id} ${cell.at}`, to: cell.to, task, record});
      }
      if (record.link && !/^(DICT|MCP)/.test(record.link)) arrows.push({kind: 'link', from: id, to: record.link, task, record});
    }
    if (task.waits) arrows.push({kind: 'wait', from: `task ${task.name}`, to: task.waits, task});
  }
  return arrows;
}

// How many lanes come up at the right of a column: of arrows that pass a stack, one for all that lead to one cell. `columnOf` gives a task's
// column.
export function lanesBeside(arrows, columnOf) {
  const lanes = new Map();
  for (const {kind, task, to} of arrows) {
    const column = columnOf(to.split(' ')[0]);
    if (columnOf(task.name) - column > 1) lanes.set(column, (lanes.get(column) ?? new Set()).add(kind + to));
  }
  return column => lanes.get(column)?.size ?? 0;
}

// Of many arrows those of the running task's topmost records, unless all are wanted.
export function chosen(arrows, all) {
  if (all || arrows.length <= MOST_ARROWS) return arrows;
  return arrows.filter(({kind, task, record}) => kind === 'wait' || task.runs && record.number >= task.records.length - 1);
}

// An arrow within a stack: links on its left, the others on its right.
function within(arrow, from, to) {
  const right = arrow.kind !== 'link', side = right ? 1 : -1, x = from.x + (right ? from.width : 0);
  const bend = Math.min(right ? 54 : 26, 14 + Math.abs(from.y - to.y) / 5);
  return {d: `M${x} ${from.y}C${x + side * bend} ${from.y} ${x + side * bend} ${to.y} ${x + side * 6} ${to.y}`, tip: [x, to.y, side]};
}

// An arrow between neighbours.
function between(from, to) {
  const left = to.column < from.column, side = left ? -1 : 1, x = left ? from.x : from.x + from.width, end = left ? to.x + to.width : to.x;
  return {d: `M${x} ${from.y}C${x + side * 40} ${from.y} ${end - side * 46} ${to.y} ${end - side * 6} ${to.y}`, tip: [end, to.y, -side]};
}

// An arrow that would pass a stack runs below them; those that lead to one cell share a lane.
function below(arrow, from, to, lanes, drawing) {
  const key = arrow.kind + arrow.to, joins = lanes.has(key);
  if (!joins) {
    lanes.into[to.column] = (lanes.into[to.column] ?? 0) + 1;
    lanes.set(key, {y: drawing.lowest + 6 + 7 * lanes.size, x: to.x + to.width + 20 + 5 * lanes.into[to.column]});
  }
  lanes.out[from.column] = (lanes.out[from.column] ?? 0) + 1;
  const lane = lanes.get(key), x = from.x - 6 - 4 * (lanes.out[from.column] % 6), end = to.x + to.width;
  const d = `M${from.x} ${from.y}H${x}V${lane.y}H${lane.x}${joins ? '' : `V${to.y}H${end + 6}`}`;
  return {d, tip: joins ? null : [end, to.y, 1], dot: joins ? [x, lane.y] : null};
}

// A part of the drawing, by its key.
function path(kind, {d, tip, dot}) {
  return [`${kind} ${d} ${tip} ${dot}`, () => drawn('g', {class: `arrow ${kind}`}, drawn('path', {d}),
    tip && drawn('path', {class: 'tip', d: `M${tip[0]} ${tip[1]}l${tip[2] * 8} -4.5v9z`}),
    dot && drawn('circle', {class: 'tip', cx: dot[0], cy: dot[1], r: 2.6}))];
}

export function drawArrows(arrows, drawing) {
  const lanes = Object.assign(new Map(), {into: [], out: []});
  const shown = chosen(arrows, drawing.view.allArrows);
  const paths = shown.map(arrow => {
    const ends = arrow.kind === 'link' ? drawing.records : drawing.cells, from = ends.get(arrow.from), to = ends.get(arrow.to);
    if (!from || !to || from === to) return null;
    if (from.column === to.column) return path(arrow.kind, within(arrow, from, to));
    return path(arrow.kind, from.column - to.column > 1 ? below(arrow, from, to, lanes, drawing) : between(from, to));
  });
  return {paths: paths.filter(Boolean), lowest: drawing.lowest + 7 * lanes.size, shown: shown.length};
}

// What the four kinds look like, below the picture's origin.
export function legend(shown, all) {
  const parts = ARROWS.map(([kind, name], k) => {
    const left = 190 * (k % 2), at = 20 * Math.floor(k / 2);
    return drawn('g', {class: `arrow ${kind}`}, drawn('path', {d: `M${left} ${at}h26`}), drawn('text', {x: left + 32, y: at + 4.5, class: 'dim small'}, name));
  });
  const note = shown < all ? drawn('text', {x: 0, y: 44.5, class: 'warn small'}, `${shown} of ${all} arrows are drawn (key a: all)`) : null;
  return drawn('g', {}, parts, note);
}
