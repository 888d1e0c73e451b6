// The signs of the line of time: how often each stands on it, and a button that leads to the next one.
import {element, putKept, set} from '../page/elements.js';
import {countOf} from '../reader/words.js';

const SIGNS = [
  {kind: 'in', sign: '▲', none: 'words come into core', one: 'time into core', many: 'times into core', holds: it => it.paging.includes('in')},
  {kind: 'out', sign: '▼', none: 'words leave core', one: 'time out of core', many: 'times out of core', holds: it => it.paging.includes('out')},
  {kind: 'line', sign: '●', none: 'a line is printed', one: 'line printed', many: 'lines printed', holds: it => it.lines > 0 && !it.bad},
  {kind: 'bad', sign: '✕', none: 'a fault', one: 'fault', holds: it => it.bad},
];
export const LOST_SIGN = '⊘';

// Of each kind the counts at which it stands on the line of time; `losses` are the stores that are lost there, `stops` the breakpoints. That none is
// lost is said of a line that is known as a whole.
export function signsOn(briefs, losses, isWhole = true, stops = new Set()) {
  const tasks = new Set(briefs.flatMap(it => Object.keys(it.records)));
  const all = SIGNS.map(sign => ({...sign, counts: briefs.filter(sign.holds).map(it => it.count)}));
  if (tasks.size > 1 && (isWhole || losses.length)) all.push({kind: 'lost', sign: LOST_SIGN, none: 'no store is lost', one: 'store lost', many: 'stores lost', counts: [...new Set(losses.map(it => it.at))]});
  if (stops.size) all.push({kind: 'stop', sign: '▮', none: 'an operator at a breakpoint', one: 'operator at a breakpoint', many: 'operators at breakpoints', counts: briefs.filter(it => stops.has(it.card)).map(it => it.count)});
  return all;
}

// The count of a sign after the moment that is shown, or before it; of the last one the first comes next.
export function nextOf(counts, now, way = 1) {
  return way > 0 ? counts.find(count => count > now) ?? counts[0] : counts.findLast(count => count < now) ?? counts.at(-1);
}

function signPart({kind, sign, none, one, many = `${one}s`, counts}, isKnown, goes) {
  const mark = element('span', {class: kind}, sign);
  if (!counts.length) return element('span', {}, mark, ` ${none}`);
  const title = `to the next one: operator${counts.length > 1 ? 's' : ''} ${counts.slice(0, 12).join(', ')}${counts.length > 12 ? ' …' : ''}`;
  return element('button', {type: 'button', class: 'key', title, 'data-sign': kind, onclick: () => goes(kind)}, mark, ` ${countOf(counts.length, one, many)}${isKnown ? '' : ' so far'}`);
}

// Shows them below the line of time, which may not be known as a whole yet; `goes` leads to the next of a kind.
export function showSigns(box, signs, isKnown, goes) {
  set(box, 'aria-busy', !isKnown);
  putKept(box, [...signs.map(it => [JSON.stringify([it.kind, it.counts, isKnown]), () => signPart(it, isKnown, goes)]), ['tall', () => element('span', {}, 'the taller, the more records')]]);
}
