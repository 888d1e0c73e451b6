// How long the page takes: node web/check/times.mjs CHROMIUM PAGE PROGRAM DECKS [long [OPERATORS]]. For some decks the milliseconds of Run
// natively and on the page, and of a step forth, a step back and a jump to the middle, least and median; the last ones make 100,000 operators
// and a million. With `long` instead a table of one long run, of 100,000,000 operators or of a multiple of 8 that is given, from 2,000 on: Run,
// searches from its start and the operators that they come to, and steps at operator 20 and ten operators before that number.
import fs from 'node:fs';
import os from 'node:os';
import path from 'node:path';
import {pathToFileURL} from 'node:url';
import {Browser} from './browser.mjs';
import {callNative} from './module.mjs';

const [chromium, page, program, folder, which, most = 100000000] = process.argv.slice(2);
const TIMES = 15;
const room = fs.mkdtempSync(path.join(os.tmpdir(), 'b67-'));
const LONG = '?JOB LONG\n?LIMIT 100000\n?ASM\nSEGMENT MAIN 2\nZERO\nTOP: VALC 2,2\nONE\nADD\nNAMC 2,2\nSTOD\nBRUN TOP\n?END\n';
const MILLION = LONG.replace('?LIMIT 100000\n', '');
// A procedure that is called by operator 21 turns until `operators` are nearly made; a switch and the highest stack come near the end.
const TURN = 'SEGMENT TURN 3\nONE\nTOP: VALC 3,2\nONE\nADD\nNAMC 3,2\nSTON\nLT48 TURNS\nLSEQ\nBRTR TOP\nEXIT\n';
const MAIN = `SEGMENT MAIN 2\nMPCW TURN\n${'NOOP\n'.repeat(17)}MKST\nNAMC 2,2\nENTR\nPUSH\n${'ONE\n'.repeat(16)}EXIT\n`;
const OTHER = `?JOB OTHER\n?ASM\nSEGMENT MAIN 2\n${'NOOP\n'.repeat(30)}EXIT\n?END\n`;
const longDeck = (name, operators) => `?SWITCH ${operators - 1000} 2.1\n?JOB ${name}\n?LIMIT 100000000\n?ASM\n${MAIN}${TURN.replace('TURNS', (operators - 48) / 8)}?END\n${OTHER}`;
// Searches from a count: the name, the key, the count.
const SEARCHES = [['breakpoint', 'Enter', 20], ['change of task', 't', 20], ['over', 's', 20], ['out', 'u', 30], ['highest stack', 'r', 20], ['next line', 'o', 20], ['end', 'End', 20]];

function told(numbers) {
  const sorted = numbers.sort((a, b) => a - b);
  return `${sorted[0].toFixed(0)} ${sorted[sorted.length >> 1].toFixed(0)}`;
}

async function many(work) {
  const found = [];
  for (let k = 0; k < TIMES; k++) found.push(await work());
  return told(found);
}

const browser = await Browser.started(chromium);
await browser.opens(pathToFileURL(page).href);
await browser.until('window.b67?.ready');
await browser.value('b67.ready');
await browser.value(`window.timed = async act => { const t = performance.now(); act(); await b67.idle(); return performance.now() - t; };
  window.key = name => document.dispatchEvent(new KeyboardEvent('keydown', {key: name, bubbles: true}));
  window.counted = count => { const it = document.getElementById('count'); it.value = count; it.dispatchEvent(new Event('change')); }; 0`);

async function writes(text, core) {
  await browser.value(`for (const [id, value] of ${JSON.stringify([['deck', text], ['core', core]])}) { const it = document.getElementById(id);
    it.value = value; for (const kind of ['input', 'change']) it.dispatchEvent(new Event(kind, {bubbles: true})); } 0`);
}

async function measured(name, text, core, middle) {
  await writes(text, core);
  const native = await many(() => {
    const begun = performance.now();
    callNative(program, path.join(room, 'backing'), ['run', '--core', core, '--backing', 'BACKING'], Buffer.from(text, 'latin1'));
    return performance.now() - begun;
  });
  const run = await many(() => browser.value("timed(() => document.getElementById('run').click())"));
  await browser.value("timed(() => document.getElementById('step').click())");
  let count = middle;
  const jump = await many(() => browser.value(`timed(() => counted(${count += 7}))`));
  const forth = await many(() => browser.value("timed(() => key('ArrowRight'))"));
  const back = await many(() => browser.value("timed(() => key('ArrowLeft'))"));
  const again = await many(() => browser.value(`timed(() => counted(${count -= 11}))`));
  console.log(`${name.padEnd(10)} Run natively ${native}, on the page ${run}; forth ${forth}, back ${back}, to a count ${jump}, to an earlier one ${again}`);
}

function row(name, from, to, milliseconds) {
  console.log(`${name.padEnd(16)}${[from, to].map(it => it.toLocaleString('en').padStart(12)).join('')}${milliseconds.padStart(14)}`);
}

// Of a long run: Run, searches, each in a deck of its own, so that nothing is known of its run, and steps.
async function measuredLong(operators) {
  const timed = act => browser.value(`timed(() => ${act})`), key = name => timed(`key('${name}')`), count = () => browser.value('b67.state().count');
  const begins = async name => {
    await writes(longDeck(name, operators), '4096');
    await timed("document.getElementById('step').click()");
  };
  row('', 'from', 'to', 'ms');
  await writes(longDeck('LONG', operators), '4096');
  for (const name of ['Run', 'Run again']) row(name, '', '', (await timed("document.getElementById('run').click()")).toFixed(0));
  for (const [k, [name, by, from]] of SEARCHES.entries()) {
    await begins(`LONG${k}`);
    await timed(`counted(${from})`);
    if (by === 'Enter') await browser.value("[...document.querySelectorAll('#cards .card')].find(it => it.textContent === 'PUSH').click()");
    const took = await key(by);
    row(name, from, await count(), took.toFixed(0));
  }
  for (const to of [20, operators - 10]) {
    row('jump', await count(), to, (await timed(`counted(${to})`)).toFixed(0));
    for (const [name, by] of [['a step forth', 'ArrowRight'], ['a step back', 'ArrowLeft']]) row(name, await count(), '', await many(() => key(by)));
  }
}

if (which === 'long') await measuredLong(Number(most));
else {
  for (const [name, core, middle] of [['two', '630', 1], ['jensen', '4096', 20], ['dining', '3258', 100], ['manboy', '32768', 500], ['crowd', '1234', 50]])
    await measured(name, fs.readFileSync(path.join(folder, name, 'stdin'), 'latin1'), core, middle);
  await measured('long', LONG, '4096', 50000);
  await measured('million', MILLION, '4096', 500000);
}
await browser.ends();
fs.rmSync(room, {recursive: true});
