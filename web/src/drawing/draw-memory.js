// Core and backing as a bar, a table, and each array with its place and its numbers.
import {chip, drawn, element, putKept} from '../page/elements.js';
import {countOf} from '../reader/words.js';
import {cellName} from '../state/changes.js';
import {spansText} from '../state/memory.js';

const [MOST_AREAS, NUMBERS_SHOWN, SHORT_ARRAY, SECTORS_IN_ROW] = [24, 40, 16, 24];
const LETTERS = {mcp: 'M', dictionary: 'D', stack: 'S', code: 'C', row: 'R', array: 'A', hole: ''}; // beside the colour of an area
// The kinds of changes: the colour and the words of each.
const CHANGES = {
  in: ['in', 'comes into core'], out: ['out', 'leaves core'], turn: ['turn', 'copy turned'], made: ['in', 'new in core'],
  gone: ['quiet', 'gone'], lost: ['out lost', 'a store is lost'], task: ['turn', 'task'], cell: ['quiet', 'store'], line: ['ink', 'prints'], took: ['quiet', 'takes'], pushed: ['quiet', 'pushes'],
  call: ['call', 'calls'], entered: ['call', 'enters'], began: ['call', 'begins'], left: ['call', 'leaves'], goes: ['quiet', 'goes'],
};

// A kind of change in words.
export function wordOf(kind) {
  return CHANGES[kind][1];
}

// The text of a change; `goes` leads to some counts, as that of an operator which it names.
function changeParts({text, moment}, goes) {
  if (!moment) return ` ${text}`;
  const at = text.indexOf(moment.text), button = element('button', {type: 'button', class: 'key moment', title: 'go there', onclick: () => goes([moment.count])}, moment.text);
  return [` ${text.slice(0, at)}`, button, text.slice(at + moment.text.length)];
}

export function changesList({changes, status, count}, goes) {
  if (count === 0) return element('p', {class: 'dim'}, 'Nothing has run yet.');
  const over = status === undefined ? [] : element('li', {class: 'dim'}, 'The run is over.');
  if (!changes.length && status === undefined) return element('p', {class: 'dim'}, 'Nothing but the place of the next operator.');
  return element('ul', {class: 'changes'}, changes.map(it => element('li', {}, chip(CHANGES[it.kind][0], CHANGES[it.kind][1]), changeParts(it, goes))), over);
}

// The bar: each part is as wide as the root of its words, so that small ones are seen.
function barParts(areas) {
  const sum = areas.reduce((all, area) => all + Math.sqrt(area.words), 0);
  let x = 0;
  return areas.map(area => {
    const width = Math.sqrt(area.words) / sum * 1000, at = x;
    x += width;
    return [JSON.stringify([area, at, width]), () => areaBox(area, at, width)];
  });
}

function areaBox(area, x, width) {
  return drawn('g', {}, drawn('rect', {x, y: 1, width: Math.max(1.5, width - 1.5), height: 28, class: `area ${area.kind}`}, drawn('title', {}, areaText(area))),
    area.used ? drawn('rect', {x, y: 1, width: Math.max(2, (width - 1.5) * area.used / area.words), height: 28, class: 'area used'}) : null);
}

function areaText(area) {
  return `${area.at} to ${area.at + area.words - 1}: ${area.text}, ${countOf(area.words, 'word')}`;
}

function areaRow(area) {
  const size = area.used ? `${area.used} of ${area.words} words` : countOf(area.words, 'word');
  return element('tr', {}, element('td', {class: 'number'}, String(area.at)), element('td', {class: 'number'}, String(area.at + area.words - 1)),
    element('td', {}, element('span', {class: `swatch ${area.kind}`, 'aria-hidden': 'true'}, LETTERS[area.kind]), ` ${area.text}, ${size}`));
}

// The rows of the table of core; of many areas the last ones.
function areaRows(areas) {
  const many = areas.length - MOST_AREAS, shown = many > 0 ? [...areas.slice(0, 4), ...areas.slice(4 + many)] : areas;
  const rows = shown.map(area => [JSON.stringify(area), () => areaRow(area)]);
  if (many > 0) rows.splice(4, 0, [`more ${many}`, () => element('tr', {}, element('td', {colspan: 3, class: 'dim'}, `… ${many} more …`))]);
  return rows;
}

// The numbers of an array: all of a short one, else those that aren't 0, each with its index.
function numbersText(thing, changed) {
  const now = new Map(thing.numbers), mark = (n, text) => (changed.has(n) ? element('mark', {}, text) : text);
  if (thing.words <= SHORT_ARRAY) return Array.from({length: thing.words}, (_, n) => [n ? ' ' : '', mark(n, now.get(n) ?? '0')]);
  if (!thing.numbers.length) return 'all 0';
  const shown = thing.numbers.slice(0, NUMBERS_SHOWN).map(([n, number]) => [element('span', {class: 'dim'}, `[${n}] `), mark(n, number), '  ']);
  return [shown, thing.numbers.length > NUMBERS_SHOWN ? '…' : element('span', {class: 'dim'}, 'the others 0')];
}

function copiesLine(thing) {
  if (!thing.copies.length) return null;
  const texts = thing.copies.slice(0, 6).map(copy => `${cellName(copy)} ${copy.absent ? '(leads to the original)' : '(leads into core)'}`);
  return element('div', {class: 'small dim'}, `${thing.copies.length === 1 ? 'copy in' : 'copies in'} ${texts.join('; ')}${thing.copies.length > 6 ? '; …' : ''}`);
}

// The indexes at which an array holds another number than before.
function changedIn(thing, old) {
  if (!old) return new Set();
  const then = new Map(old.numbers), now = new Map(thing.numbers);
  return new Set([...then.keys(), ...now.keys()].filter(n => then.get(n) !== now.get(n)));
}

// An array's name is a button, by which it is followed.
function nameOf(thing, followed) {
  const texts = [element('strong', {}, thing.text), `, ${countOf(thing.words, 'word')} `];
  if (thing.kind === 'code') return texts;
  return element('button', {type: 'button', class: 'name', 'data-follow': thing.cell + thing.kind, 'aria-pressed': String(followed), title: 'follow it: key n goes to the next store'}, texts);
}

function thingRow(thing, changed, followed) {
  const place = thing.at ? chip('in', `in core at ${thing.at}`) : chip(thing.chain.length ? 'out' : 'quiet', thing.chain.length ? 'out of core' : 'never used');
  const sectors = thing.chain.length ? chip('quiet', `${thing.chain.length > 1 ? 'sectors' : 'sector'} ${spansText(thing.chain)}`) : null;
  return element('li', {}, nameOf(thing, followed), ' ', place, ' ', sectors,
    thing.kind === 'code' ? null : element('div', {class: 'numbers'}, numbersText(thing, changed)), copiesLine(thing));
}

// The sectors, those in use with a letter for each thing.
function sectorMap(things, used) {
  const owner = new Map(things.flatMap((thing, k) => thing.chain.map(sector => [sector, {thing, k}])));
  const last = Math.min(480, Math.ceil(Math.max(1, ...owner.keys()) / SECTORS_IN_ROW) * SECTORS_IN_ROW);
  const parts = Array.from({length: last}, (_, n) => {
    const found = owner.get(n + 1), x = n % SECTORS_IN_ROW * 40, y = Math.floor(n / SECTORS_IN_ROW) * 36;
    const title = drawn('title', {}, `sector ${n + 1}: ${found ? found.thing.text : 'free'}`);
    return [drawn('rect', {x: x + 1, y: y + 1, width: 38, height: 33, class: `area ${found?.thing.kind ?? 'hole'}`}, title),
      found ? drawn('text', {x: x + 12, y: y + 25, class: 'letter'}, String.fromCharCode(97 + found.k % 26)) : null];
  });
  const height = Math.ceil(last / SECTORS_IN_ROW) * 36, label = `${used} sectors of the backing are in use`;
  return drawn('svg', {class: 'sectors', viewBox: `0 0 960 ${height}`, role: 'img', 'aria-label': label}, parts);
}

function readRow({job, numbers, next}) {
  const from = Math.max(0, next - 5);
  const shown = numbers.slice(from, next + 20).flatMap((number, k) => [' ', from + k === next ? element('mark', {}, String(number)) : String(number)]);
  return element('div', {class: 'numbers'}, `job ${job}:${from ? ' …' : ''}`, shown, next < numbers.length ? '' : ' (all are read)');
}

// A list of things as a part, filled when it stands in the box.
function listPart(key, title, things) {
  return things.length ? [[`${key} title`, () => element('h2', {}, title)], [key, () => element('ul', {class: 'things'})]] : [];
}

function thingParts(things, old, followed) {
  return things.map(thing => {
    const changed = changedIn(thing, old.get(thing.cell + thing.kind)), is = thing.cell + thing.kind === followed;
    return [JSON.stringify([thing, [...changed], is]), () => thingRow(thing, changed, is)];
  });
}

// Fills a box with the memory of a state; what differs from the state before it is marked, and what didn't change stays as it is.
export function showMemory(box, state, followed) {
  const title = `Core of ${countOf(state.coreWords, 'word')}`;
  if (!state.areas.length) {
    putKept(box, [[title, () => element('h2', {}, title)], ['none', () => element('p', {class: 'dim'}, 'No machine is left.')]]);
    return;
  }
  const old = new Map((state.before?.things ?? []).map(thing => [thing.cell + thing.kind, thing])), used = state.sectorsUsed;
  const arrays = state.things.filter(thing => thing.kind !== 'code'), code = state.things.filter(thing => thing.kind === 'code');
  const chains = JSON.stringify(state.things.map(thing => [thing.text, thing.chain]));
  const sectors = `Backing: ${countOf(used, 'sector')} in use`;
  const nodes = putKept(box, [[title, () => element('h2', {}, title)],
    ['bar', () => drawn('svg', {class: 'bar', viewBox: '0 0 1000 30', preserveAspectRatio: 'none', role: 'img', 'aria-label': title})],
    ['areas', () => element('table', {}, element('caption', {class: 'unseen'}, 'What lies in core'), element('tbody'))],
    ...listPart('arrays', 'Arrays and data rows', arrays),
    ...(state.numbers.length ? [['numbers', () => element('h2', {}, 'Numbers for READ')]] : []),
    ...state.numbers.map(job => [JSON.stringify(job), () => readRow(job)]),
    [sectors, () => element('h2', {}, sectors)], [chains, () => sectorMap(state.things, used)], ...listPart('code', 'Segments', code)]);
  putKept(nodes[1], barParts(state.areas));
  putKept(nodes[2].lastChild, areaRows(state.areas));
  if (arrays.length) putKept(nodes[4], thingParts(arrays, old, followed));
  if (code.length) putKept(nodes.at(-1), thingParts(code, old, ''));
}
