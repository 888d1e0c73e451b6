// A program that does what b67 does, against the native one: node command.mjs COMMAND PROGRAM DECKS ROWS, called by scripts/check-web.sh for
// b67.c. Each row of crates/b67_rows/data is carried out by both, and so are calls that a shell makes: status, all that is printed and the
// backing file must be the same. decks/run.sh runs over COMMAND; each goes on from the image and the file of the other; and a long run prints
// its lines as they come. Prints each difference, and at last `N the same, M different`.
import {spawn, spawnSync} from 'node:child_process';
import fs from 'node:fs';
import os from 'node:os';
import path from 'node:path';
import {fileURLToPath} from 'node:url';

const RUN = 'run --core 4096 --backing b', MOST_ARGUMENTS = 5, COUNTS = [20, 300];
const [BAD, NOTES] = ['?JOB A\n?ASM\nSEGMENT MAIN 2\nADDD\n?END\n', 'my notes\n'];
// Each is given to a shell in which B67 is the program: files are `two`, a deck; `halted`, the same with a halt; `bad`, a refused one; `loop`,
// one without an end; and `notes`, which are to stay as they are.
export const LINES = [
  'run --core 630 --backing b < two', 'run --core 629 --backing b < two', 'run --core 630 --backing none/b < two', 'run --core 630 --backing . < two', 'run --backing b --core 630 < two',
  'run --core 630 --backing notes < two', 'run --core 630 --backing notes < bad', 'run --core 300 --backing notes < two', 'run --core 630 --backing notes < /dev/null', 'image --core 300 --backing . < halted',
  'run --core 630 --backing b < .', 'run --core 630 --backing b < two > /dev/full', 'run --core 630 --backing b < two > b', 'run --core 630 --backing /dev/null < two', 'check < loop; B67 run --core 4096 --backing b < loop',
  'image --core 630 --backing b < halted > i; B67 resume --backing b < i', 'image --core 630 --backing b < halted | B67 dump', 'image --core 630 --backing b < halted > i; B67 resume --backing notes < i',
  'run', '', '""', 'exercise 7 40 --core 4096', 'exercise 3 500 --core 256', 'exercise 3 500 --core 1048575', 'exercise 7 40 --core 4096 > /dev/full', 'check < bad', 'resume --backing b < two', 'dump < /dev/null', 'resume --backing notes < bad',
  'run --core 0 --backing b < .', 'image --core 630 --backing b < .', 'resume --backing b < .', 'nothing < .', 'check < .', 'asm < two', 'convert < two', 'bind < two', 'bind 1=1 x < two',
  'run --core 630 --backing b 2=2 < two', 'run --core 630 --backing < two', 'run --core 0630 --backing b < two', 'run --core 630 --core 630 --backing b < two',
];

// Counts what is the same, and prints what isn't.
export class Comparison {
  constructor() {
    Object.assign(this, {same: 0, different: 0, room: fs.mkdtempSync(path.join(os.tmpdir(), 'b67-'))});
  }
  wants(holds, what) {
    if (holds) this.same++;
    else this.different++;
    if (!holds) console.log(what);
  }
  // An empty folder.
  folder(name) {
    const folder = path.join(this.room, name);
    fs.rmSync(folder, {recursive: true, force: true});
    fs.mkdirSync(folder);
    return folder;
  }
  ends() {
    process.chdir('/');
    fs.rmSync(this.room, {recursive: true});
    console.log(`${this.same} the same, ${this.different} different`);
    process.exitCode = this.different ? 1 : 0;
  }
}

// The calls of a file of rows: the arguments and the text of each row; a text stands before the rows that name it.
export function callsOf(text) {
  const texts = new Map(), calls = [];
  let its = null;
  for (const line of text.split('\n')) {
    const [, word, rest] = /^(\S+) ?(.*)$/.exec(line) ?? [];
    if (word === 'text') texts.set(rest, its = {text: ''});
    else if (word === 'row') calls.push(its = {name: rest, words: RUN.split(' '), text: ''});
    else if (word === 'run') its.words = RUN.replace('4096', rest).split(' ');
    else if (word === 'args') its.words = rest.split(' ').map(it => (it === '""' ? '' : it));
    else if (word === '<' && its) its.text += `${rest}\n`;
    else if (word === '<-') its.text += rest;
    else if (word === '<<') its.text += texts.get(rest)?.text ?? '';
  }
  return calls;
}

function contentOf(file) {
  return fs.existsSync(file) ? fs.readFileSync(file) : null;
}

// What a program does with a call, in the folder where it is made: its status, its lines and the file b.
export function ran(program, words, text, folder) {
  const {status, stdout} = spawnSync(program, words, {input: text, cwd: folder, maxBuffer: 1 << 30});
  return {status, bytes: stdout, file: contentOf(path.join(folder, 'b'))};
}
function differs(mine, native) {
  if (mine.status !== native.status) return `status ${mine.status}, natively ${native.status}`;
  if (!mine.bytes.equals(native.bytes)) return `${mine.bytes.toString('latin1').slice(-200)}, natively ${native.bytes.toString('latin1').slice(-200)}`;
  return mine.file === native.file || mine.file && native.file?.equals(mine.file) ? '' : 'another file';
}

// Each row that five arguments suffice for, once; `calls` carries out one of them in a folder.
export function byRows(comparison, rows, program, calls) {
  const seen = new Set();
  for (const file of fs.readdirSync(rows).filter(it => it.endsWith('.rows')).sort()) for (const {name, words, text} of callsOf(fs.readFileSync(path.join(rows, file), 'latin1'))) {
    const call = JSON.stringify([words, text]);
    if (seen.has(call) || words[0] === 'bind' && words.length > MOST_ARGUMENTS) continue;
    seen.add(call);
    const bytes = Buffer.from(text, 'latin1'), mine = calls(words, bytes, comparison.folder('mine')), native = ran(program, words, bytes, comparison.folder('native'));
    const wrong = differs(mine, native);
    comparison.wants(!wrong, `${file}, ${name}: ${words.join(' ')}: ${wrong}`);
  }
}

// Each line of a shell, by both.
export function byLines(comparison, decks, program, command) {
  const two = fs.readFileSync(path.join(decks, 'two/stdin')), loop = '?JOB A\n?LIMIT 1000\n?ASM\nSEGMENT MAIN 2\nTOP: BRUN TOP\n?END\n';
  const said = [program, command].map(name => LINES.map(line => {
    const folder = comparison.folder('line');
    for (const [file, text] of [['two', two], ['bad', BAD], ['halted', `?HALT 20\n${two}`], ['loop', loop], ['notes', NOTES]]) fs.writeFileSync(path.join(folder, file), text);
    const {status, stdout} = spawnSync('sh', ['-c', `B67() { "$0" "$@"; }; B67 ${line}`, name], {cwd: folder, maxBuffer: 1 << 28});
    return [status, stdout.toString('latin1'), fs.readFileSync(path.join(folder, 'notes'), 'latin1'), contentOf(path.join(folder, 'b'))?.toString('base64').replace(/A+=*$/, '') ?? null];
  }));
  LINES.forEach((line, k) => comparison.wants(said[0][k].every((it, n) => it === said[1][k][n]), `${line}: ${JSON.stringify(said[1][k]).slice(0, 200)}, natively ${JSON.stringify(said[0][k]).slice(0, 200)}`));
}

// A file that another process has locked; closed standard streams; a run without a page of its own.
export function byLock(comparison, program, command) {
  const deck = `${RUN.split(' ').slice(0, 3).join(' ')} --backing b`, line = `exec 9> b; flock 9; "$0" ${deck} < /dev/null; "$0" ${deck} < two`;
  const [native, mine] = [program, command].map(name => {
    const folder = comparison.folder('lock');
    fs.writeFileSync(path.join(folder, 'two'), '?JOB A\n?ASM\nSEGMENT MAIN 2\nEXIT\n?END\n');
    const {status, stdout} = spawnSync('sh', ['-c', line, name], {cwd: folder});
    return `${status} ${stdout}`;
  });
  comparison.wants(mine === native && native === '6 BACKING FAULT\n', `a file that is locked: ${mine}, natively ${native}`);
}

// A long run, which is made in parts: what it prints and its status, of a run, of one that is ended by its limit, that pages, that goes on from an
// image, whose output is full; and its first lines come before its end.
export async function byParts(comparison, program, command) {
  const folder = comparison.folder('parts'), long = (most, cards, times) => `?JOB LONG\n?LIMIT ${most}\n?ASM\nSEGMENT MAIN 2\nZERO\n${cards}TOP: MKST\nNAMC 0,9\nVALC 2,2\nENTR\nZERO\nIN: ${times}\nLESS\nBRTR IN\nDLET\nVALC 2,2\nONE\nADD\nNAMC 2,2\nSTON\nLT8 60\nLESS\nBRTR TOP\nEXIT\n?END\n`;
  const counts = at => `VALC 2,${at}\nONE\nADD\nNAMC 2,${at}\nSTON\nLT16 10000`, array = 'MKST\nNAMC 0,8\nLT8 200\nENTR\n', touches = cell => `VALC 2,2\nNAMC 2,${cell}\nLT8 5\nINDX\nSTOD\n`;
  const paging = long(9000000, array + array, `${touches(3)}${touches(4)}${counts(5)}`.replaceAll('LT16 10000', 'LT16 1000')).replace('LT8 60', 'LT8 70');
  const texts = {plain: long(9000000, '', counts(3)), limited: long(2500000, '', counts(3)), paging, halted: `?HALT 300000\n${long(9000000, '', counts(3))}`, endless: long(100000000, '', counts(3)).replace('LESS\nBRTR TOP', 'DLET\nDLET\nBRUN TOP')};
  for (const [name, text] of Object.entries(texts)) fs.writeFileSync(path.join(folder, name), text);
  for (const line of ['run --core 4096 --backing b < plain', 'run --core 4096 --backing b < limited', 'run --core 890 --backing b < paging', 'image --core 4096 --backing b < halted > i; B67 resume --backing b < i', 'run --core 4096 --backing b < plain > /dev/full', 'run --core 4096 --backing b < halted']) {
    const [mine, native] = [command, program].map(name => {
      const {status, stdout} = spawnSync('sh', ['-c', `rm -f b; B67() { "$0" "$@"; }; B67 ${line}`, name], {cwd: folder, maxBuffer: 1 << 28});
      return `${status} ${stdout.toString('latin1')}`;
    });
    comparison.wants(mine === native, `in parts, ${line}: ${mine.slice(-200)}, natively ${native.slice(-200)}`);
  }
  const its = spawn(command, ['run', '--core', '4096', '--backing', 'endless.b'], {cwd: folder, stdio: [fs.openSync(path.join(folder, 'endless')), 'pipe', 'inherit']});
  its.stdout.once('data', () => its.kill());
  comparison.wants(await new Promise(goes => { its.on('close', (_, signal) => goes(signal)); }) === 'SIGTERM', 'the first lines of a long run come at its end');
}

export function byDecks(comparison, decks, command) {
  const {status, stdout} = spawnSync('sh', [path.join(decks, 'run.sh'), command], {maxBuffer: 1 << 28}), [, many] = /(\d+) passed, \d+ failed\n$/.exec(stdout) ?? [0, 0];
  comparison.same += Number(many);
  if (status) comparison.wants(false, String(stdout));
}

// Each deck is halted at some counts by one of both, and the other goes on from its image and its file.
export function byImages(comparison, decks, program, command) {
  for (const name of fs.readdirSync(decks).filter(it => fs.existsSync(path.join(decks, it, 'stdin')))) for (const count of COUNTS) {
    const body = fs.readFileSync(path.join(decks, name, 'stdin'), 'latin1').replace(/^\?HALT.*\n/gm, ''), text = Buffer.from(`?HALT ${count}\n${body}`, 'latin1');
    const [natives, mines] = [[program, command], [command, program]].map(([first, second], k) => {
      const folder = comparison.folder(`image${k}`), image = ran(first, ['image', '--core', '4096', '--backing', 'b'], text, folder);
      return image.status === 3 ? [image, ran(second, ['resume', '--backing', 'b'], image.bytes, folder)] : [image];
    });
    const wrong = natives.map((native, k) => differs(mines[k], native)).join('');
    comparison.wants(!wrong, `${name}, ${count}: ${wrong}`);
  }
}

if (process.argv[1] && fs.realpathSync(process.argv[1]) === fileURLToPath(import.meta.url)) {
  const [command, program, decks, rows] = process.argv.slice(2).map(it => path.resolve(it)), comparison = new Comparison();
  byRows(comparison, rows, program, (words, text, folder) => ran(command, words, text, folder));
  byLines(comparison, decks, program, command);
  byLock(comparison, program, command);
  byImages(comparison, decks, program, command);
  await byParts(comparison, program, command);
  byDecks(comparison, decks, command);
  comparison.ends();
}
