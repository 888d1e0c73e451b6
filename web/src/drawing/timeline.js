// The line of time: a column for each operator of a window of the run, with its task, its lines, its paging and its fault.
import {drawn, put, set, taskClass} from '../page/elements.js';
import {lossText} from '../words/lost.js';
import {LOST_SIGN} from './signs.js';

const [WHOLE, WINDOW] = [700, 400];
const NAME_WIDTH = 20; // of a task's name
const shownIn = new WeakMap(); // what each picture shows

// The counts that the line shows: the whole of a short run, else a window around the count.
export function windowOf(count, end, old) {
  if (end !== null && end <= WHOLE) return {from: 0, to: end};
  if (old && count >= old.from && count <= old.to && old.to - old.from <= WINDOW) return {from: old.from, to: Math.min(old.to, end ?? old.to)};
  const from = Math.max(0, count - WINDOW / 2);
  return {from, to: Math.min(from + WINDOW, end ?? Infinity)};
}

// The records that the task of an operator has after it.
function depthOf({records, task}) {
  return records[task] ?? 0;
}

function titleOf({count, task, card, text, paging, lines, bad, records}) {
  const moves = {in: 'words come into core', out: 'words leave core'};
  return [`operator ${count}`, task ? `${task} card ${card}: ${text}` : '', records[task] ? `${records[task]} records` : '', ...paging.map(way => moves[way]), lines ? `prints ${lines} ${lines > 1 ? 'lines' : 'line'}` : '', bad ? 'a fault' : '']
    .filter(Boolean).join('; ');
}

// How high the column of an operator is: the deeper the stack of its task, the higher.
function heightOf(brief, deepest) {
  return 4 + 14 * Math.min(1, Math.sqrt(Math.max(0, depthOf(brief) - 1) / Math.max(4, deepest - 1)));
}

// A column; below it words that came in point up, words that left point down.
function column(brief, x, width, {stopped, deepest}) {
  const middle = x + width / 2, inner = Math.max(width - (width > 4 ? 1 : 0), 0.6);
  const high = heightOf(brief, deepest), parts = [drawn('rect', {x, y: 28 - high, width: inner, height: high, class: brief.task ? taskClass(brief.task) : 'quiet'})];
  if (brief.bad) parts.push(drawn('text', {x: middle - 5, y: 10, class: 'fault'}, '✕'));
  else if (brief.lines) parts.push(drawn('circle', {cx: middle, cy: 6, r: 3, class: 'printed'}));
  if (brief.paging.includes('in')) parts.push(drawn('path', {d: `M${middle} 30l-4 6h8z`, class: 'in'}));
  if (brief.paging.includes('out')) parts.push(drawn('path', {d: `M${middle} 43l-4 -6h8z`, class: 'out'}));
  if (stopped) parts.push(drawn('rect', {x, y: 10, width: Math.max(width, 2), height: 18, class: 'stopped'}));
  return drawn('g', {}, drawn('title', {}, titleOf(brief)), drawn('rect', {x, y: 0, width, height: 44, class: 'under'}), parts);
}

// Whether another task than before makes the operator at a count; of a run of one task none does.
function beginsTurn(briefs, at) {
  const before = briefs.get(at - 1);
  return Boolean(before?.task) && Boolean(briefs.get(at).task) && before.task !== briefs.get(at).task;
}

// The names of tasks, each where its turn begins, on top of the columns above which it stands; none where columns are too narrow.
function turnNames(briefs, {from, to}, step, deepest) {
  const found = [];
  for (let at = from; at <= to && step > 5; at++) {
    if (!briefs.has(at) || !beginsTurn(briefs, at)) continue;
    const under = Array.from({length: Math.ceil(NAME_WIDTH / step)}, (_, k) => briefs.get(at + k)).filter(Boolean);
    found.push(drawn('text', {x: (at - from) * step + 1, y: 26 - Math.max(...under.map(it => heightOf(it, deepest))), class: 'who'}, briefs.get(at).task));
  }
  return found;
}

// The stores that are lost: a sign where each is written over.
function lossSigns(losses, from, step) {
  return losses.map(it => drawn('text', {x: (it.at - from + 0.5) * step - 5, y: 10, class: 'lost'}, LOST_SIGN, drawn('title', {}, `operator ${it.at}: a store is lost, ${lossText(it)}`)));
}

// The briefs of a window from its beginning on, up to the first one that isn't there yet.
export function briefsOf(briefs, {from, to}) {
  const found = [];
  for (let at = from; at <= to && briefs.has(at); at++) found.push(briefs.get(at));
  return found;
}

// Draws the window in a picture of this width. While window and breakpoints stay, only new columns are added and the cursor moved.
export function showTimeline(picture, {count, window, briefs, stops, losses, width}) {
  const step = width / (window.to - window.from + 1), deepest = Math.max(1, ...[...briefs.values()].filter(it => it.count >= window.from && it.count <= window.to).map(depthOf)), frame = [window.from, window.to, width, deepest, ...stops].join();
  let shown = shownIn.get(picture);
  if (shown?.briefs !== briefs || shown.frame !== frame) {
    shown = {briefs, frame, counts: new Set(), columns: drawn('g'), names: drawn('g'), losses: drawn('g'), cursor: drawn('path', {class: 'cursor'})};
    shownIn.set(picture, shown);
    set(picture, 'viewBox', `0 0 ${width} 44`);
    put(picture, shown.columns, shown.names, shown.cursor, shown.losses);
  }
  const before = shown.counts.size;
  for (let at = window.from; at <= window.to; at++) {
    const brief = briefs.get(at);
    if (!brief || shown.counts.has(at)) continue;
    shown.counts.add(at);
    shown.columns.append(column(brief, (at - window.from) * step, step, {stopped: stops.has(brief.card), deepest}));
  }
  if (shown.counts.size > before) put(shown.names, turnNames(briefs, window, step, deepest));
  if (shown.losses.childElementCount !== losses.length) put(shown.losses, lossSigns(losses, window.from, step));
  set(shown.cursor, 'd', `M${(count - window.from + 0.5) * step} 0v44`);
  return deepest;
}

// The count at a place of the line.
export function countAt(picture, window, clientX) {
  const box = picture.getBoundingClientRect();
  return window.from + Math.max(0, Math.min(window.to - window.from, Math.floor((clientX - box.left) / box.width * (window.to - window.from + 1))));
}
