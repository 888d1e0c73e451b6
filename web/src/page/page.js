// The page: what is open, what is told, and which of its parts does what. commands.js runs decks, steps.js shows moments, places.js has
// the addresses.
import {byId, element, put} from './elements.js';
import {Client, STOPPED} from './client.js';
import {Commands} from './commands.js';
import {Course} from '../course/course-view.js';
import {decksOf} from './decks.js';
import {showRefusal} from './deck-view.js';
import {Editor} from '../editor/editor.js';
import {Hand} from '../course/hand-view.js';
import {fillHelp} from '../words/help.js';
import {keepValue, keptValue, storageOf} from '../editor/keep.js';
import {helpLine, setLetters} from './keys.js';
import {Lexicon} from '../words/lexicon.js';
import {tablesOf} from '../words/messages.js';
import {NamesRefused, withoutNames} from '../names/names.js';
import {AlgolRefused, deckOf, isAlgol, lineOf} from '../algol/translation.js';
import {perform, toggleLessons} from './acts.js';
import {Places} from './places.js';
import {SheetEditor} from '../course/sheet-view.js';
import {Steps} from './steps.js';
import {stoppedText, underWayText} from './under-way.js';

const [LEAST_CORE, MOST_CORE] = [256, 1048575];
const BUSY_MILLISECONDS = 200; // after which the page says that it computes
const NO_BROWSER = 'This browser can’t run the machine, which is WebAssembly: open this page in a browser of 2024 or later, with WebAssembly switched on.';
const NO_POLICY = 'The policy under which this page was sent forbids WebAssembly, so the machine can’t run here: save the page, and open the file.';

export class Page {
  constructor() {
    this.decks = decksOf(byId('decks').textContent.trim() + '\n');
    this.rows = tablesOf(byId('messages').textContent);
    this.lexicon = new Lexicon(byId('operators').textContent, byId('glossary').textContent);
    this.version = byId('version').textContent.trim();
    this.working = 0;
    this.storage = storageOf(globalThis);
    this.commands = new Commands(this);
    this.steps = new Steps(this, parseFloat(getComputedStyle(document.documentElement).fontSize));
    this.places = new Places(this);
    this.editor = new Editor(this.decks, this.storage, () => this.places.soon());
    this.course = new Course(this);
    this.hand = new Hand(this);
    this.sheets = new SheetEditor(this);
  }

  // Starts the worker, or says why it can't run.
  async begin() {
    const bytes = Uint8Array.from(atob(byId('module').textContent.replace(/\s/g, '')), c => c.charCodeAt(0));
    this.client = new Client(byId('script'), bytes, {
      compares: /[?&]compare/.test(location.search), hear: it => this.steps.hear(it), busy: many => this.busy(many),
    });
    this.lists();
    const can = globalThis.WebAssembly?.validate(bytes);
    const problem = can ? await this.client.start().then(() => '', () => NO_POLICY) : NO_BROWSER;
    this.disabled = Boolean(problem);
    await this.places.follow();
    if (problem) this.say(problem);
  }

  lists() {
    put(byId('part'), [...this.decks.keys()].filter(name => !name.startsWith('algol-')).map(name => element('option', {value: name, selected: name === 'library'}, name)));
    this.course.list();
    put(byId('help-line'), helpLine((act, way) => perform(this, act, way)));
    const letters = element('input', {type: 'checkbox', id: 'letter-keys', onchange: event => this.letterKeys(event.target.checked)});
    fillHelp(this.lexicon, element('p', {}, element('label', {}, letters, ' Letters act as keys')), this.version);
    this.letterKeys(keptValue(this.storage, 'b67-letters') ?? true);
  }

  // Lets letters act as keys, or not; the browser keeps the choice.
  letterKeys(on) {
    setLetters(on);
    keepValue(this.storage, 'b67-letters', on);
    byId('letter-keys').checked = on;
    byId('help-line').hidden = !on;
  }

  // ------------------------------------------------------------ what is told

  // Says something; with a count also a button that leads there.
  say(text, count) {
    const button = () => element('button', {type: 'button', onclick: () => this.guard(() => this.steps.goTo(count))}, `Go to operator ${count.toLocaleString('en')}`);
    put(byId('message'), text, count === undefined ? null : [' ', button()]);
    byId('message').hidden = !text;
  }

  // Says that something is computed, from soon after the first question until the last answer, so that Stop stays where it is.
  busy(many) {
    if (many && this.clock) return;
    clearInterval(this.clock);
    this.clock = null;
    byId('busy').hidden = true;
    if (!many) return;
    const begun = performance.now();
    this.clock = setInterval(() => {
      byId('busy').hidden = false;
      byId('progress').textContent = underWayText(Math.floor((performance.now() - begun) / 1000), this.client.far, this.steps.shown?.end);
    }, BUSY_MILLISECONDS);
  }

  // Carries out something that may fail; the reason is one sentence on the page.
  async guard(work) {
    if (this.disabled) return;
    this.say('');
    this.working++;
    try {
      return await work();
    } catch (problem) {
      if (problem instanceof NamesRefused) this.refuses(problem);
      else if (problem instanceof AlgolRefused) this.refusesAlgol(problem);
      else this.say(problem.message === STOPPED ? stoppedText(problem.seconds) : problem.message, problem.goes);
    } finally {
      this.working--;
    }
  }
  refuses({card, message}) {
    this.show('deck');
    this.commands.ran = {status: 2, text: `${message}\n`};
    showRefusal(message);
    this.editor.area.marks(card, true);
  }
  refusesAlgol({errors, message}) {
    this.show('deck');
    showRefusal(message);
    this.editor.algol.goes(errors[0]);
  }
  // Marks a card in the editor; of a program in ALGOL its line.
  marks(card, selects) {
    const {editor} = this;
    editor.area.marks(card && isAlgol(editor.text) ? lineOf(editor.text, card) : card, selects);
  }

  // ------------------------------------------------------------ what is open

  core(id = 'core') {
    const core = Number(byId(id).value);
    if (Number.isInteger(core) && core >= LEAST_CORE && core <= MOST_CORE) return core;
    throw new Error(`Core has ${LEAST_CORE} to ${MOST_CORE.toLocaleString('en')} words: type a number in this range.`);
  }
  coreIs(words) {
    byId('core').value = words;
    this.coreChanged();
  }
  coreChanged() {
    this.editor.keepSoon();
    this.places.soon();
    if (this.shows('step')) return this.steps.step(this.steps.session.state.count, this.steps.session.other);
  }

  // The deck of the editor: of a program in ALGOL the cards that it becomes.
  deck() {
    const {text} = this.editor;
    return isAlgol(text) ? deckOf(text) : text;
  }
  // It as the machine gets it: with couples in the place of names.
  given() {
    return withoutNames(this.deck());
  }

  shows(view) {
    return document.body.dataset.view === view;
  }
  show(view) {
    document.body.dataset.view = view;
    for (const name of ['deck', 'step', 'hand']) byId(`${name}-view`).hidden = view !== name;
    byId('edit').setAttribute('aria-pressed', String(view === 'deck'));
    byId('step').setAttribute('aria-pressed', String(view === 'step'));
    if (view !== 'step') this.steps.play(false);
    this.places.soon();
  }
  showLessons(shown) {
    if (byId('lessons').hidden === shown) toggleLessons(this, shown);
  }

  // A promise that nothing is under way.
  async idle() {
    do await new Promise(resolve => { setTimeout(resolve, 3); });
    while (this.working || this.client.asked.size);
  }
}
