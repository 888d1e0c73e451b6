// The machine as a command of node, web/b67.mjs, against the native program: node shell.mjs COMMAND PAGE PROGRAM DECKS ROWS, called by
// tools/check-web.sh.
//
// Rows, lines of a shell, a locked file, images from one to the other and decks/run.sh, as command.mjs has them; the rows by calls of b67.mjs
// in this process. Then what b67.mjs alone can: a run without a file, a long run in parts, marks, and the table of a class. Prints each difference, and at last
// `N the same, M different`.
import {spawnSync} from 'node:child_process';
import fs from 'node:fs';
import path from 'node:path';
import {pageOf, serve} from '../b67.mjs';
import {packedHand} from '../src/course/handin.js';
import {WRITTEN} from '../tests/answers.js';
import {byDecks, byImages, byLines, byLock, byParts, byRows, Comparison} from './command.mjs';

const [command, page, program, decks, rows] = process.argv.slice(2).map(it => path.resolve(it)), comparison = new Comparison(), {room} = comparison;
const module = new WebAssembly.Module(pageOf(page).bytes), wants = (holds, what) => comparison.wants(holds, what);

// A call of b67.mjs in a folder.
function calls(words, text, folder) {
  process.chdir(folder);
  const {status, bytes} = serve(module, words, text);
  return {status, bytes, file: fs.existsSync('b') ? fs.readFileSync('b') : null};
}

// What b67.mjs does otherwise than the program.
function by_itself() {
  const two = fs.readFileSync(path.join(decks, 'two/stdin')), over = (words, text, env = {}) => spawnSync(command, words, {input: text, cwd: room, env: {...process.env, ...env}});
  wants(over(['run', '--core', '630'], two).stdout.toString() === '1.1 23\n1.1 ENDED\n', 'a run without a file');
  const many = over(['bind', '1=1', '2=2', '3=3', '4=4', '5=5'], two);
  wants(many.status === 10 && /four pairs/.test(many.stderr), `five pairs: ${many.status} ${many.stderr}`);
  wants(over(['run', '--core', '630'], two, {B67_PAGE: '/none'}).status === 10, 'without a page');
}

// Marks: a right deck, one of constants, which other numbers find out, one that loops, one that prints without end, and one that is none.
function by_marks() {
  const folder = path.join(room, 'marks'), prints = number => `MKST\nNAMC 0,9\n${number}\nENTR\n`, deck = cards => `?JOB A\n?LIMIT 100000000\n?ASM\nSEGMENT MAIN 2\n${cards}EXIT\n?DATA\n4\n?END\n`;
  fs.mkdirSync(folder);
  const files = {right: deck(prints('MKST\nNAMC 0,11\nENTR')), constant: deck(prints('LT8 4')), loop: deck('TOP: BRUN TOP\n'), spams: deck(`TOP: ${prints('LT8 4')}BRUN TOP\n`), none: 'print 4\n',
    lines: '1.1 4\n1.1 ENDED\n', five: '5\n', lines5: '1.1 5\n1.1 ENDED\n'};
  for (const [name, text] of Object.entries(files)) fs.writeFileSync(path.join(folder, name), text);
  const marks = (...words) => spawnSync(command, ['mark', ...words, '--csv'], {cwd: folder}).stdout.toString().split('\n').slice(1, -1).map(line => line.split(',').slice(0, 2).join(' ')).join();
  const all = ['right', 'constant', 'loop', 'spams', 'none'], begun = Date.now(), [first, second] = [marks(...all, 'lines'), marks(...all, 'lines5', '--data', 'five')];
  wants(first === 'right 1,constant 1,loop 0,spams 0,none 0', `marks: ${first}`);
  wants(second === 'right 1,constant 0,loop 0,spams 0,none 0', `marks with other numbers: ${second}`);
  wants(Date.now() - begun < 120000, 'marks of decks that loop take too long');
  wants(spawnSync(command, ['mark', 'right', 'none'], {cwd: folder}).status === 10 && spawnSync(command, ['class', 'none'], {cwd: folder}).status === 10, 'what can’t be marked');
}
async function by_class() {
  const packed = await packedHand({name: 'Ada', number: '17', version: '1', work: [['1.5', {deck: WRITTEN['1.5'][0], core: 4096}], ['1.3', {deck: WRITTEN['1.5'][0], core: 4096}]]}), folder = path.join(room, 'class');
  fs.mkdirSync(path.join(folder, 'Ada'), {recursive: true});
  fs.writeFileSync(path.join(folder, 'Ada/online.html'), `<a href="https://a.b/b67.html#hand:${packed}">`);
  const {status, stdout} = spawnSync(command, ['class', folder]);
  wants(status === 0 && /^id,name.*\n17,Ada,,,2,1,1,0,0,0,,,0,,1,/.test(stdout), `a class: ${status} ${stdout}`);
}

byRows(comparison, rows, program, calls);
byLines(comparison, decks, program, command);
byLock(comparison, program, command);
byImages(comparison, decks, program, command);
by_itself();
await byParts(comparison, program, command);
by_marks();
await by_class();
byDecks(comparison, decks, command);
comparison.ends();
