// What the parts of check-page.sh share: the browser with the page, the native program beside it, and the counts of what was the same.
import fs from 'node:fs';
import os from 'node:os';
import path from 'node:path';
import {pathToFileURL} from 'node:url';
import {Browser, kindOf} from './browser.mjs';
import {callNative} from './module.mjs';

const room = fs.mkdtempSync(path.join(os.tmpdir(), 'b67-'));
const file = path.join(room, 'backing');
process.on('exit', () => fs.rmSync(room, {recursive: true, force: true}));

export function told(text) {
  if (typeof text !== 'string') return String(text);
  return JSON.stringify(text.length > 200 ? `${text.slice(0, 100)} .. ${text.slice(-100)}` : text);
}

export class Tried {
  // `program` is the browser's, `native` the machine's, `decks` the folder of decks.
  constructor({program, page, native, decks}) {
    Object.assign(this, {program, page, native, folder: decks, same: 0, different: 0, seen: new Map(), isChromium: kindOf(program) === 'chromium'});
  }

  wants(holds, what) {
    if (holds) this.same++;
    else this.different++;
    if (!holds) console.log(what);
  }

  // ------------------------------------------------------------ the native program

  get folders() {
    return [this.folder, path.join(this.folder, '../teaching/decks')];
  }
  deck(name) {
    return fs.readFileSync(path.join(this.folders.find(it => fs.existsSync(path.join(it, name))) ?? this.folder, name, 'stdin'), 'latin1');
  }
  // The decks that are run, with those of the term: name, core and text.
  decks() {
    return this.folders.flatMap(folder => fs.readdirSync(folder).sort().map(name => [folder, name])).flatMap(([folder, name]) => {
      const args = path.join(folder, name, 'args'), words = fs.existsSync(args) ? fs.readFileSync(args, 'latin1').split('\n') : [];
      return words[0] === 'run' ? [{name, core: Number(words[2]), text: this.deck(name)}] : [];
    });
  }
  run(text, core) {
    const {status, bytes} = callNative(this.native, file, ['run', '--core', String(core), '--backing', 'BACKING'], text);
    return {status, text: bytes.toString('latin1')};
  }
  // What the program shows of a deck after so many operators: its status, the lines, and the dump if the run halts there.
  at(text, core, count) {
    const name = `${core} ${count} ${text}`;
    if (!this.seen.has(name)) {
      const body = text.replace(/^\?HALT.*\n/gm, '');
      const {status, bytes} = callNative(this.native, file, ['image', '--core', String(core), '--backing', 'BACKING'], `?HALT ${count}\n${body}`);
      const lines = bytes.toString('latin1').split(/^\?IMAGE\n/m)[0];
      const dump = status === 3 ? callNative(this.native, file, ['dump'], bytes).bytes.toString('latin1') : null;
      this.seen.set(name, {status, lines, dump});
    }
    return this.seen.get(name);
  }

  // ------------------------------------------------------------ the page

  async starts({script, dark} = {}) {
    this.browser = await Browser.started(this.program, {dark});
    if (script) await this.browser.before(script);
    await this.opensPage('?compare');
  }
  async opensPage(end = '') {
    await this.browser.opens(`${pathToFileURL(this.page)}${end}`);
    await this.ready();
  }
  async ready() {
    await this.browser.until('window.b67?.ready');
    await this.browser.value('b67.ready');
  }
  async reloads() {
    await this.browser.reloads();
    await this.ready();
  }
  async ends() {
    await this.browser.ends();
    for (const error of this.browser.errors) this.wants(false, `console: ${error}`);
  }

  // Waits until something holds in the page; what is under way there is told if it doesn't come.
  async until(expression, seconds = 120) {
    try {
      await this.browser.until(expression, seconds);
    } catch (error) {
      throw new Error(`${error.message}; the page says ${JSON.stringify(await this.browser.value('b67.under()').catch(problem => problem.message))}`);
    }
  }

  async state() {
    await this.browser.value('b67.idle()');
    return JSON.parse(await this.browser.value('JSON.stringify(b67.state())'));
  }
  async opens(hash) {
    await this.browser.value(`new Promise(goes => { addEventListener('hashchange', goes, {once: true});
      if (location.hash === '#${hash}') dispatchEvent(new HashChangeEvent('hashchange'));
      else location.hash = '${hash}'; }).then(() => 0)`);
    return this.state();
  }
  async click(selector) {
    await this.browser.click(selector);
    return this.state();
  }
  // The texts of elements that are seen.
  shown(selector) {
    return this.browser.value(`[...document.querySelectorAll('${selector}')].filter(it => it.offsetParent || it.ownerSVGElement).map(it => it.textContent).join('|')`);
  }
  // Writes a deck into the editor, and the core beside it, as a hand does.
  async writes(text, core) {
    await this.opens('sum,4096');
    await this.types(text, core);
  }
  types(text, core) {
    const values = [['deck', text], ['core', core && String(core)]].filter(([, value]) => value !== undefined);
    return this.browser.value(`for (const [id, value] of ${JSON.stringify(values)}) { const it = document.getElementById(id);
      if (it.value !== value) { it.value = value; for (const name of ['input', 'change']) it.dispatchEvent(new Event(name, {bubbles: true})); } } 0`);
  }
  // Goes to a count by the number above the moment.
  async goes(count) {
    await this.browser.value(`{ const it = document.getElementById('count'); it.value = ${count}; it.dispatchEvent(new Event('change')); } 0`);
    return this.state();
  }
  // Presses a key, and compares the moment that is shown then with the native program's.
  async pressed(name, text, key, shift = false) {
    await this.browser.press(key, shift);
    const state = await this.state();
    if (state.view === 'step' && state.count !== null) this.compares(`${name}, key ${shift ? 'shift ' : ''}${key}`, state, text);
    return state;
  }

  // Compares what is shown with the program at the same count; of two cores both.
  compares(name, state, text) {
    if (state.count === 0) return this.wants(state.printed === '' && state.dump !== undefined, `${name}: at operator 0 ${told(state.printed)} is printed`);
    for (const one of [state, ...(state.other ? [state.other] : [])]) {
      const native = this.at(text, one.core, state.count), where = `${name}, core ${one.core}, count ${state.count}`;
      this.wants(one.printed === native.lines, `${where}: printed ${told(one.printed)}, natively ${told(native.lines)}`);
      if (native.dump !== null) this.wants(one.dump === native.dump, `${where}: the state is ${told(one.dump)}, by dump ${told(native.dump)}`);
      else this.wants(one.end === native.status, `${where}: the end is ${one.end}, natively ${native.status}`);
    }
  }
}
