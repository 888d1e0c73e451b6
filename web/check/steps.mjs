// How long a step takes in a browser: node web/check/steps.mjs BROWSER PAGE DECKS [DECK..]. BROWSER is Chromium's program, or Firefox's.
//
// At some counts of each deck: steps forth and back, from the key to the picture laid out. By hand: a pause of 100 ms before each key.
// Held: each key as soon as the last one is answered. Prints milliseconds, median and 95th percentile, and the slowest one.
import fs from 'node:fs';
import path from 'node:path';
import {pathToFileURL} from 'node:url';
import {Browser} from './browser.mjs';

const [program, page, folder, ...only] = process.argv.slice(2);
const [STEPS, PAUSE, PLACES] = [4, 100, [0, 0.3, 0.6, 0.95]];
const LONG = '?JOB LONG\n?LIMIT 100000\n?ASM\nSEGMENT MAIN 2\nZERO\nTOP: VALC 2,2\nONE\nADD\nNAMC 2,2\nSTOD\nBRUN TOP\n?END\n';

// In the page: presses a key, and gives the milliseconds until its moment is drawn and laid out.
const PRESSED = `window.pressed = (key, pause) => new Promise(goes => setTimeout(() => {
  const line = document.getElementById('line'), old = line.getAttribute('aria-valuenow'), begun = performance.now();
  new MutationObserver((_, seen) => {
    if (line.getAttribute('aria-valuenow') === old) return;
    seen.disconnect();
    document.getElementById('stacks').getBoundingClientRect();
    goes(performance.now() - begun);
  }).observe(line, {attributeFilter: ['aria-valuenow']});
  document.dispatchEvent(new KeyboardEvent('keydown', {key, bubbles: true}));
}, pause)); 0`;

function of(sorted, part) {
  return sorted[Math.min(sorted.length - 1, Math.floor(sorted.length * part))];
}

function told(times) {
  const sorted = times.toSorted((a, b) => a - b);
  return sorted.length ? [0.5, 0.95, 1].map(part => of(sorted, part).toFixed(0).padStart(4)).join('') : '   -   -   -';
}

async function opened(name, text, core) {
  await browser.value(`for (const [id, value] of ${JSON.stringify([['deck', text], ['core', core]])}) { const it = document.getElementById(id);
    it.value = value; for (const kind of ['input', 'change']) it.dispatchEvent(new Event(kind, {bubbles: true})); }
    document.getElementById('step').click(); b67.idle()`);
  await browser.press('End');
  await browser.value('b67.idle()');
  return browser.value('b67.state().count');
}

async function goes(count) {
  await browser.value(`{ const it = document.getElementById('count'); it.value = ${count}; it.dispatchEvent(new Event('change')); } b67.idle()`);
}

// Steps from a count, with a pause before each; what is outside of the run isn't stepped to.
async function steps(key, from, end, pause) {
  const many = Math.max(0, key === 'ArrowRight' ? Math.min(STEPS, end - from) : Math.min(STEPS, from));
  await goes(from);
  const times = [];
  for (let k = 0; k < many; k++) times.push(await browser.value(`pressed('${key}', ${pause})`));
  return times;
}

async function measured(name, text, core) {
  const end = await opened(name, text, core), found = [];
  for (const pause of [PAUSE, 0]) for (const key of ['ArrowRight', 'ArrowLeft']) {
    const times = [];
    for (const part of PLACES) times.push(...await steps(key, Math.floor(end * part) + (key === 'ArrowLeft' ? STEPS : 0) + found.length, end, pause));
    found.push(times);
  }
  console.log(`${name.padEnd(12)}${String(end).padStart(7)}  ${found.map(told).join('  ')}`);
  return found;
}

const browser = await Browser.started(program);
await browser.opens(pathToFileURL(page).href);
await browser.until('window.b67?.ready');
await browser.value('b67.ready');
await browser.value(PRESSED);
console.log('deck            end    by hand: forth        back    held: forth        back');
const all = [[], [], [], []];
for (const name of [...fs.readdirSync(folder).sort(), 'long']) {
  const args = path.join(folder, name, 'args'), words = fs.existsSync(args) ? fs.readFileSync(args, 'latin1').split('\n') : [];
  if (only.length ? !only.includes(name) : words[0] !== 'run' && name !== 'long') continue;
  const found = name === 'long' ? await measured(name, LONG, '4096') : await measured(name, fs.readFileSync(path.join(folder, name, 'stdin'), 'latin1'), words[2]);
  found.forEach((times, k) => all[k].push(...times));
}
console.log(`${'all'.padEnd(19)}  ${all.map(told).join('  ')}`);
await browser.ends();
