// The curve of paging: the sectors that a run reads in some sizes of core, and the same as a table for whoever doesn't see the picture.
import {drawn, element, put} from '../page/elements.js';

const [WIDTH, HEIGHT, LEFT, BELOW] = [560, 220, 46, 30];

// Where a core and a number of sectors stand in the picture.
function placesIn(rows) {
  const [first, last] = [rows[0].core, Math.max(rows.at(-1).core, rows[0].ample)], most = Math.max(1, ...rows.map(it => it.read));
  return {first, last, most, across: core => LEFT + (WIDTH - LEFT - 20) * (core - first) / Math.max(1, last - first), up: read => HEIGHT - BELOW - (HEIGHT - BELOW - 20) * read / most};
}

function said({core, ins, outs, read, written, cut}) {
  return `${core} words: ${ins} times into core, ${outs} out of it; ${read} sectors read, ${written} written${cut ? ', up to operator 20,000' : ''}`;
}

// Draws what is known by now: a row for each core, of rising size.
export function drawCurve(box, rows) {
  const {first, last, most, across, up} = placesIn(rows), label = (x, y, text, anchor) => drawn('text', {x, y, 'text-anchor': anchor}, text);
  const points = rows.map(({core, read}) => `${across(core)},${up(read)}`).join(' ');
  put(box, drawn('svg', {viewBox: `0 0 ${WIDTH} ${HEIGHT}`, width: WIDTH, height: HEIGHT, class: 'paged', role: 'img', 'aria-label': `Sectors read over core: ${rows.map(it => `${it.core} words, ${it.read}`).join('; ')}`},
    drawn('path', {d: `M${LEFT} 14V${HEIGHT - BELOW}H${WIDTH - 8}`, class: 'axis'}), drawn('polyline', {points, class: 'curve'}),
    rows.map(row => drawn('circle', {cx: across(row.core), cy: up(row.read), r: 4, class: 'point'}, drawn('title', {}, said(row)))),
    label(LEFT - 6, 24, most, 'end'), label(LEFT - 6, HEIGHT - BELOW, 0, 'end'), label(LEFT, HEIGHT - 8, `${first} words`, 'start'), label(WIDTH - 8, HEIGHT - 8, `${last} words`, 'end')),
  element('table', {class: 'paged'}, element('tr', {}, ['core', 'in', 'out', 'read', 'written', 'last line'].map(name => element('th', {}, name))),
    rows.map(row => element('tr', {}, [row.core, row.ins, row.outs, row.read, row.written, row.last].map(value => element('td', {}, value))))));
}
