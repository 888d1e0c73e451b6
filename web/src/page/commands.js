// The commands over the deck in the editor: Run, Check, Image, Resume, Exercise, Bind, and what helps after a fault.
import {byId} from './elements.js';
import {endingOf} from '../state/changes.js';
import {hasJob} from '../reader/cards.js';
import {offer, showFault, showRefusal, showResult} from './deck-view.js';
import {USUAL_CORE} from '../editor/editor.js';
import {runWords} from '../machine/program.js';
import {refusedWord} from '../words/refusals.js';
import {coresBetween} from '../machine/paging.js';
import {drawCurve} from '../drawing/draw-paging.js';

const MOST_CORE = 1048575;
const [LEAST_CORE, MANY_CORES] = [256, 12];
const SOON_FOUND = 1000; // milliseconds of a run whose fault is looked for unasked
export const NO_JOB = 'This deck has no job, so nothing runs: choose a deck, or write ?JOB and its cards.';

const FIRST_CARDS = 3; // of an image, which has thousands
// What `image` prints, with the first cards of the image alone.
function withoutImage(text) {
  return text.replace(/\?IMAGE\n([^?]*)\?END\n/, (_, all) => {
    const cards = all.trimEnd().split('\n');
    return ['?IMAGE', ...cards.slice(0, FIRST_CARDS), `(and ${(cards.length - FIRST_CARDS).toLocaleString('en')} cards more)`, '?END\n'].join('\n');
  });
}

export class Commands {
  constructor(page) {
    Object.assign(this, {page, ran: null, halted: null});
  }

  // Calls the machine, and shows what it gives; `refusedOf` says of what a refusal is, if not of the deck.
  async command(words, {text = this.page.given(), refusedOf, resumes} = {}) {
    const {page} = this, result = await page.client.ask('call', {words, text, resumes}), core = page.core(), [name] = words;
    this.ran = {status: result.status, text: result.text};
    if (result.status === 2 && !refusedOf) result.place = await this.placeOf(text, result.text);
    const refused = showResult(page.rows, {words, ...result, byHand: /^\?HEX/m.test(text), word: refusedWord(result.text, text), text: name === 'image' ? withoutImage(result.text) : result.text}, refusedOf);
    page.marks(refused, true);
    if (result.status === 0 && /run|check/.test(name) && !hasJob(text)) {
      showRefusal(NO_JOB); // and no green line that all tasks have ended
      page.say(NO_JOB);
    }
    if (/^(run|resume|check)$/.test(name) && result.status < 4) await page.course.ran({words, text: resumes ? this.halted.text : text, result, core, halt: resumes ? this.halted.halt : null});
    return result;
  }

  // The operator that the loader refuses, with its card.
  async placeOf(deck, text) {
    const found = /^LOAD (\d+) REASON \d+ SEGMENT (\d+) AT (\S+)/.exec(text);
    if (!found) return null;
    const job = deck.split('\n').slice(0, Number(found[1])).filter(card => card.startsWith('?JOB')).length;
    return this.page.client.ask('operatorAt', {deck, job, place: `${found[2]}@${found[3]}`});
  }

  run() {
    const {page} = this;
    page.show('deck');
    return page.guard(async () => {
      const text = page.given();
      page.editor.fitsCore();
      const core = page.core(), result = await this.command(runWords(core), {text});
      await this.helps(text, core, result);
    });
  }
  check() {
    this.page.show('deck');
    return this.page.guard(() => this.command(['check']));
  }

  // After a run that ended otherwise than it should: a core that suffices, or the place of the first fault, at once if that is soon found.
  async helps(text, core, {status, text: printed, milliseconds}) {
    const {page} = this;
    if (status === 4) return this.offerCore(text, core);
    const fault = printed.split('\n').slice(0, -1).map(endingOf).find(it => it?.bad);
    if (!fault || !hasJob(text)) return;
    const find = async () => {
      const found = await page.client.ask('fault', {deck: text, core});
      if (!found || text !== page.given()) return;
      showFault(page.rows, found, () => page.steps.step(found.count - 1));
      page.marks(found.operator.card || found.after);
    };
    if (milliseconds < SOON_FOUND) await find();
    else offer('Find the operator of the first fault', () => page.guard(find));
  }
  async offerCore(text, core) {
    const {page} = this, words = await page.client.ask('coreFor', {deck: text, core});
    const take = async () => {
      await page.coreIs(words);
      return this.run();
    };
    if (page.course.current?.leastCore) return; // that is what it asks
    if (words && words <= MOST_CORE && text === page.given()) offer(`Take ${words.toLocaleString('en')} words of core, enough for the whole run, and run`, take);
  }

  image() {
    const {page} = this;
    return page.guard(async () => {
      const halt = Number(byId('halt').value), deck = page.given(), text = `?HALT ${halt}\n${deck.split('\n').filter(card => !card.startsWith('?HALT')).join('\n')}`;
      const {status} = await this.command(['image', ...runWords(page.core()).slice(1)], {text, refusedOf: 'halted'});
      this.halted = {halt, text: deck};
      byId('resume').disabled = status !== 3;
    });
  }
  resume() {
    return this.page.guard(() => this.command(['resume', '--backing', 'b'], {text: '', resumes: true, refusedOf: 'image'}));
  }
  exercise() {
    const {page} = this;
    return page.guard(() => this.command(['exercise', byId('seed').value, byId('size').value, '--core', String(page.core())], {text: '', refusedOf: 'none'}));
  }
  bind() {
    const {page} = this;
    return page.guard(async () => {
      const text = page.given() + page.decks.get(byId('part').value).text;
      const result = await this.command(['bind', ...byId('pairs').value.trim().split(/\s+/)], {text, refusedOf: 'both'});
      this.bound = result.status === 0 ? result.text : '';
      byId('take').disabled = !this.bound;
    });
  }
  // How many sectors a run reads, core by core, as a curve that grows.
  paging() {
    const {page} = this;
    return page.guard(async () => {
      const deck = page.given(), ask = core => page.client.ask('paging', {deck, core}), rows = [];
      const least = await page.client.ask('coreFor', {deck, core: LEAST_CORE});
      if (!hasJob(deck) || least === null) return page.say(NO_JOB);
      rows.push(await ask(least));
      if (!rows[0].made) return page.say(`The deck doesn’t run: ${rows[0].last}`);
      for (const core of coresBetween(least, rows[0].ample, MANY_CORES).slice(1)) {
        if (deck !== page.given()) return null; // another deck is open by now
        drawCurve(byId('curve'), rows);
        rows.push(await ask(core));
      }
      return drawCurve(byId('curve'), rows);
    });
  }
  take() {
    this.page.editor.take(`?JOB BOUND\n?HEX\n${this.bound}?END\n`, 'The codefile that bind has made.');
  }

  // Opens a deck from the disk.
  async open(file) {
    const bytes = new Uint8Array(await file.arrayBuffer());
    this.page.show('deck');
    byId('core').value = USUAL_CORE;
    this.page.editor.take(new TextDecoder(/\.alg$/i.test(file.name) ? 'utf-8' : 'latin1').decode(bytes).replace(/\r\n/g, '\n'), `The file ${file.name}.`);
  }
}
