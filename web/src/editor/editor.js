// The deck in the editor: which one it is, those of one's own, and what keeps it: the address, the browser, a file.
import {byId, element, put} from '../page/elements.js';
import {GROUPS, START} from '../page/decks.js';
import {OwnDecks, saveFile} from './keep.js';
import {MOST_OF_ADDRESS, packed} from './share.js';
import {CardsArea} from './cards-area.js';
import {AlgolView} from '../algol/algol-view.js';
import {coreFor, isAlgol, START_ALGOL, translationOf} from '../algol/translation.js';
import {showJobs, showRan} from '../page/deck-view.js';

export const USUAL_CORE = 4096;
const KEEP_MILLISECONDS = 300;

// The name of a deck's first job.
function firstJob(text) {
  return /^[?$]JOB +(\S+)/m.exec(text)?.[1] ?? '';
}

// How a task is called for which a deck was written.
function nameFor(task) {
  return task.startsWith('s') ? `exercise ${task.split('/')[1]} of a sheet` : `exercise ${task}`;
}

// The first words of a line about a deck.
function shortened(about) {
  return about.length > 62 ? `${about.slice(0, 60).replace(/ \S*$/, '')} …` : about;
}

export class Editor {
  // `decks` are those of the repository; `changed` is called when another deck is open, or the same with another text. `task` is the task of
  // the course for which a new deck is written.
  constructor(decks, storage, changed) {
    Object.assign(this, {decks, changed, own: new OwnDecks(storage), area: new CardsArea(), name: '', about: '', kept: Boolean(storage), task: ''});
    this.algol = new AlgolView(this, deck => this.take(deck, 'The cards of a program in ALGOL 60.', this.name));
  }

  get text() {
    return this.area.text;
  }
  isOwn(name = this.name) {
    return !this.decks.has(name);
  }
  has(name) {
    return this.decks.has(name) || Boolean(this.own.get(name));
  }

  // The list: first the decks of one's own, the one changed last on top.
  list() {
    const mine = this.own.list().map(({name, text, task}) => element('option', {value: name}, `${name} ${firstJob(text)}${task ? `, ${nameFor(task)}` : ''}`));
    const line = name => element('option', {value: name, title: this.decks.get(name).about}, `${name}: ${shortened(this.decks.get(name).about)}`);
    put(byId('pick'), mine.length ? element('optgroup', {label: this.kept ? 'yours, kept in this browser' : 'yours'}, mine) : null,
      GROUPS.map(([label, names]) => element('optgroup', {label}, names.filter(name => this.decks.has(name)).map(line))));
    byId('pick').value = this.name;
  }

  // Opens a deck by its name, in its own core.
  choose(name) {
    this.keepNow();
    const deck = this.decks.get(name) ?? this.own.get(name);
    if (!deck) return;
    byId('core').value = deck.core;
    this.open(deck.text, name, deck.about);
  }

  // Puts a text into the editor that isn't in the list: it is the reader's own from now on. `about` says where it comes from.
  take(text, about, from = '') {
    this.keepNow();
    const found = [...this.decks.values()].find(deck => deck.text === text) ?? this.own.withText(text);
    this.open(text, found?.name ?? this.own.begin(text, byId('core').value, from, this.task), found?.about ?? about);
  }
  begin() {
    this.begins(START, USUAL_CORE);
  }
  beginAlgol() {
    this.begins(START_ALGOL, START_ALGOL.core);
  }
  // Puts a text to begin with there, and the caret into it.
  begins({text, about}, core) {
    byId('core').value = core;
    this.take(text, about);
    this.area.field.focus();
    this.area.field.setSelectionRange(0, 0);
  }

  open(text, name, about) {
    Object.assign(this, {name, about});
    this.area.put(text);
    this.list();
    this.tell();
    for (const id of ['outcome', 'card-help', 'curve']) put(byId(id));
    showRan([]);
    byId('take').disabled = byId('resume').disabled = true;
    showJobs(text);
    byId('welcome').hidden = true;
    this.algol.show('algol');
    this.changed();
  }

  // After a change by hand. A deck of the repository becomes one of one's own; another job has nothing to do with the core of the one before.
  typed() {
    const was = (this.decks.get(this.name) ?? this.own.get(this.name))?.text ?? '';
    if (firstJob(this.text) && firstJob(was) && firstJob(this.text) !== firstJob(was)) byId('core').value = USUAL_CORE;
    if (!this.isOwn() && this.decks.get(this.name).text !== this.text) {
      this.name = this.own.begin(this.text, byId('core').value, this.name, this.task);
      this.about = '';
      this.list();
      this.tell();
    }
    byId('old').hidden = !byId('outcome').childElementCount;
    this.area.changed();
    this.algol.soon();
    this.keepSoon();
    this.changed();
  }

  // A program that calls itself wants a great stack: core is made large enough for it, and never smaller.
  fitsCore() {
    if (isAlgol(this.text)) byId('core').value = Math.max(byId('core').value, coreFor(translationOf(this.text)));
  }

  keepSoon() {
    clearTimeout(this.keeping);
    this.keeping = setTimeout(() => { showJobs(this.text); this.keepNow(); }, KEEP_MILLISECONDS);
  }
  keepNow() {
    clearTimeout(this.keeping);
    if (!this.name || !this.isOwn()) return;
    const was = this.own.get(this.name), core = byId('core').value;
    if (was?.text === this.text && was.core === Number(core)) return;
    this.kept = this.own.put(this.name, {text: this.text, core});
    this.tell();
  }

  // What is said of the deck: of one's own also what keeps it.
  tell() {
    const mine = this.isOwn(), {from, task} = this.own.get(this.name) ?? {};
    byId('delete').hidden = !mine;
    const begun = task ? `Yours, for ${nameFor(task)}.` : this.about || (from ? `Yours, begun from ${from}.` : 'Yours.');
    put(byId('about'), mine ? `${begun} ${this.kept ? 'It is kept in this browser.' : 'This browser keeps nothing for this page: Save or Link keeps the deck.'}` : this.about);
  }

  // What stands for the deck in an address. A deck that is too long for that has its name there, which this browser alone knows.
  async addressed() {
    const {name, text} = this;
    if (!this.isOwn()) return name;
    const part = text.length > 10 * MOST_OF_ADDRESS ? '' : await packed(text);
    return part && part.length <= MOST_OF_ADDRESS ? part : name;
  }

  save() {
    this.keepNow();
    saveFile(this.text, `${(firstJob(this.text) || this.name).toLowerCase().replace(/[^a-z0-9_-]+/g, '-')}.${isAlgol(this.text) ? 'alg' : 'deck'}`);
  }

  // Removes the decks that were written for exercises; one of them that is open gives way to the first deck of the page.
  forgetsTasks() {
    for (const {name} of this.own.list().filter(it => it.task)) this.own.remove(name);
    clearTimeout(this.keeping);
    if (this.has(this.name)) return this.list();
    this.name = '';
    this.choose(START.name);
  }

  remove() {
    clearTimeout(this.keeping);
    const from = this.own.get(this.name)?.from;
    this.own.remove(this.name);
    this.name = '';
    this.choose(this.decks.has(from) ? from : START.name);
  }
}
