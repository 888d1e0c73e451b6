#!/usr/bin/env node
// Grades a translator: node algol/grade.mjs TRANSLATOR FILE.test ..
// TRANSLATOR is a command that takes the name of an ALGOL file as its last word and prints a deck. A test has a program and one or more
// runs, each with numbers to be read and the lines that it must print; a run counts if it prints them in ample core and in the least one.

import {spawnSync} from 'node:child_process';
import {mkdtempSync, readFileSync, rmSync, writeFileSync, writeSync} from 'node:fs';
import {tmpdir} from 'node:os';
import {join} from 'node:path';

const USAGE = 'usage: node algol/grade.mjs TRANSLATOR FILE.test ..   B67 is the built program\n';
const [RIGHT, LESS, WRONG_CALL] = [0, 1, 2];
const [AMPLE, LEAST, SECONDS, LONGEST] = [65536, 256, 60, 1 << 26];
const B67 = process.env.B67 ?? 'b67';

// A test that isn't one.
class Malformed extends Error {}

// The parts of a test: what it is about, its program, and its runs.
export function testOf(text) {
  const parts = text.replace(/\r\n/g, '\n').split(/^== *(algol|data|lines) *\n/m), runs = [];
  let program = null, data = '';
  for (let k = 1; k < parts.length; k += 2) {
    if (parts[k] === 'algol') { if (program !== null) throw new Malformed('it has two programs'); program = parts[k + 1]; }
    else if (parts[k] === 'data') data = parts[k + 1].trim();
    else { runs.push({data, lines: parts[k + 1].trimEnd()}); data = ''; }
  }
  if (program === null) throw new Malformed('it has no `== algol`');
  if (!runs.length) throw new Malformed('it has no `== lines`');
  return {about: parts[0].trim(), program, runs};
}

// The lines of each task by themselves, since when they come is the schedule's.
export function apart(lines) {
  return lines.trimEnd().split('\n').map((line, n) => ({task: line.split(' ')[0], n, line})).sort((a, b) => a.task.localeCompare(b.task) || a.n - b.n).map(it => it.line);
}

// What a program prints; null if it takes too long or can't be run.
function outputOf(program, words, input) {
  const {error, status, stdout} = spawnSync(program, words, {input, encoding: 'latin1', timeout: SECONDS * 1000, maxBuffer: LONGEST, stdio: ['pipe', 'pipe', 'ignore']});
  return error ? null : {status, text: stdout};
}

// The lines of a deck with these numbers, in ample core or in the least one.
function linesOf(deck, data, least, room) {
  const whole = data ? deck.replace(/^\?DATA\n[^?]*/m, '').replace(/^\?END/m, `?DATA\n${data.replace(/\s+/g, '\n')}\n?END`) : deck;
  for (let core = least ? LEAST : AMPLE; ;) {
    const text = outputOf(B67, ['run', '--core', String(core), '--backing', join(room, 'backing')], whole)?.text ?? 'b67 could not be run, or took too long';
    const need = /^NO CORE (\d+) /m.exec(text);
    if (!need || Number(need[1]) <= core) return text;
    core = Number(need[1]);
  }
}

// The first line that isn't as it should be, in words; empty if all are.
export function difference(found, wanted) {
  const [have, want] = [apart(found), apart(wanted)], at = want.findIndex((line, n) => line !== have[n]);
  if (at >= 0) return `line ${at + 1} is \`${have[at] ?? 'missing'}\` and should be \`${want[at]}\``;
  return have.length > want.length ? `line ${want.length + 1} is \`${have[want.length]}\` and should not be there` : '';
}

// Grades one test: how many of its runs are right, and what was wrong first.
function graded(translator, {program, runs}, room) {
  const source = join(room, 'program.alg'), [command, ...words] = translator.split(' ').filter(Boolean);
  writeFileSync(source, program);
  const made = outputOf(command, [...words, source], '');
  if (!made || made.status !== 0) return {right: 0, wrong: made ? `the translator ended with status ${made.status}` : 'the translator could not be run'};
  let right = 0, wrong = '';
  for (const [n, {data, lines}] of runs.entries()) {
    const told = [false, true].map(least => difference(linesOf(made.text, data, least, room), lines)), which = told[0] ? 'in ample core' : 'in the least core';
    if (told.every(it => !it)) right++; else wrong ||= `run ${n + 1}, ${which}: ${told[0] || told[1]}`;
  }
  return {right, wrong};
}

// Grades all tests, a line for each; the status.
function all(translator, files, room) {
  let [points, most, status] = [0, 0, RIGHT];
  for (const file of files) {
    let told;
    try {
      const test = testOf(readFileSync(file, 'utf8')), {right, wrong} = graded(translator, test, room);
      points += right; most += test.runs.length;
      told = `${right} of ${test.runs.length}${wrong ? `; ${wrong}` : ''}`;
      if (wrong) status = Math.max(status, LESS);
    } catch (e) {
      told = `no test: ${e instanceof Malformed ? e.message : 'it cannot be read'}`;
      status = WRONG_CALL;
    }
    if (!written(1, `${file}: ${told}\n`)) return WRONG_CALL;
  }
  return written(1, `${points} of ${most} points\n`) ? status : WRONG_CALL;
}

function written(to, text) { try { writeSync(to, text); return true; } catch { return false; } }

if (process.argv[1] === new URL(import.meta.url).pathname) {
  const [translator, ...files] = process.argv.slice(2);
  if (!translator?.trim() || !files.length) { written(2, USAGE); process.exitCode = WRONG_CALL; }
  else {
    const room = mkdtempSync(join(tmpdir(), 'grade-'));
    try { process.exitCode = all(translator, files, room); } finally { rmSync(room, {recursive: true, force: true}); }
  }
}
