// A call of the page's module and one of the native program, each as bytes in and bytes out, for the comparisons. The page has a call
// of its own, in program.js; this one is apart from it, so that a mistake in either is seen.
import {spawnSync} from 'node:child_process';
import fs from 'node:fs';

const SECTORS = 65536; // as the program's backing file has
const SECTOR_BYTES = 240;
const ROOM = 1 << 25;

// The module out of the page: the one line that is the base64 of a WebAssembly file.
export function moduleOf(page) {
  const found = /^AGFzb[A-Za-z0-9+/]+=*$/m.exec(fs.readFileSync(page, 'latin1'));
  if (!found) throw new Error(`${page} holds no module`);
  return new WebAssembly.Module(Buffer.from(found[0], 'base64'));
}

// A call in an instance of its own: words, text and sectors go in, null for so many of zeros as a file has. A command that names no
// backing gets one sector.
export function callModule(module, words, text, sectors = null) {
  const x = new WebAssembly.Instance(module, {}).exports;
  const view = (at, length) => new Uint8Array(x.memory.buffer, Number(at), length);
  const put = bytes => {
    const at = x.room(BigInt(bytes.length));
    view(at, bytes.length).set(bytes);
    return [at, BigInt(bytes.length)];
  };
  const given = [0, 1, 2, 3, 4].flatMap(k => put(Buffer.from(words[k] ?? '')));
  const source = put(text), count = words.includes('--backing') || words[0] === 'exercise' ? SECTORS : 1;
  const length = count * SECTOR_BYTES, held = x.room(BigInt(length)), lines = x.room(BigInt(ROOM)), printed = x.room(8n);
  if (sectors) view(held, length).set(sectors);
  const status = x.b67_web_serve(...given, BigInt(words.length), ...source, held, BigInt(count), lines, BigInt(ROOM), printed);
  const many = Number(new DataView(x.memory.buffer).getBigUint64(Number(printed), true));
  return {status, bytes: Buffer.from(view(lines, many)), sectors: Buffer.from(view(held, length))};
}

// The sectors of a backing file as the module has them; null if there is no file.
export function sectorsOf(file) {
  return fs.existsSync(file) ? fs.readFileSync(file).swap64() : null;
}

// A call of the program over a file, which holds the sectors that are given; none, and the program makes it.
export function callNative(program, file, words, text, sectors = null) {
  fs.rmSync(file, {force: true});
  if (sectors) fs.writeFileSync(file, Buffer.from(sectors).swap64());
  fs.writeFileSync(`${file}.text`, text);
  const input = fs.openSync(`${file}.text`);
  const ran = spawnSync(program, words.map(word => word === 'BACKING' ? file : word), {stdio: [input, 'pipe', 'pipe'], maxBuffer: 1 << 28});
  fs.closeSync(input);
  if (ran.error) throw ran.error;
  return {status: ran.status ?? ran.signal, bytes: ran.stdout};
}
