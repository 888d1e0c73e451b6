// The steps: the deck that is stepped through, the moment that is shown, and the ways to another one.
import {byId} from './elements.js';
import {perform} from './acts.js';
import {cardKey} from '../machine/search.js';
import {algolOf} from '../course/algol.js';
import {algolBeside, isAlgol} from '../algol/translation.js';
import {hasJob} from '../reader/cards.js';
import {STOPPED} from './client.js';
import {NO_JOB} from './commands.js';
import {showResult} from './deck-view.js';
import {arrayBehind, nameOfFollowed} from './follow.js';
import {sentenceOf, speak} from '../ear/speech.js';
import {nextOf} from '../drawing/signs.js';
import {changesOf, showDeck, showLine, showMoment} from './step-view.js';
import {stoppedText} from './under-way.js';
import {cellWords, nextCell} from '../ear/walk.js';

const MOST_FILLED = 65536;
const [STATES_KEPT, AHEAD] = [60, [1, 2, -1, 3, -2, 4]]; // of states: how many are kept, and which are made ahead

// Keeps a state among those of a session that were sent last, and gives it.
function keepState({states, faults}, core, state) {
  const key = `${core} ${state.count}`;
  states.delete(key);
  states.set(key, state);
  if (state.wrongs.length) faults.set(state.count, {wrongs: state.wrongs, operator: state.operator});
  if (states.size > STATES_KEPT) states.delete(states.keys().next().value);
  return state;
}

// What there isn't if a search of a kind finds nothing.
function thingsOf(state, followed) {
  return {line: 'No line is printed', paging: 'There is no paging', task: 'No other task runs', fault: 'No task ends', stopped: 'No breakpoint is met',
    store: `Nothing is stored into ${followed && nameOfFollowed(state, followed)}`, over: 'No operator is made', out: 'No operator is made', deepest: 'No stack is higher'};
}

// What was looked for in vain, in a sentence.
function nothingFound(kind, way, state, followed) {
  const advice = kind === 'store' && followed ? arrayBehind(state, followed) : '';
  return `${thingsOf(state, followed)[kind]} ${way > 0 ? 'after' : 'before'} this moment, so the page stays here.${advice && ` ${advice}`}`;
}

// The breakpoints of a program in ALGOL after an edit: those of the lines that stand where they stood.
function keptStops(before, algol) {
  const firsts = before?.algol?.firsts && algol?.firsts ? algol.firsts : [];
  return new Set(firsts.flatMap((keys, k) => (algol.lines[k] === before.algol.lines[k] && before.algol.firsts[k]?.some(key => before.stops.has(key)) ? keys : [])));
}

export class Steps {
  // `size` is that of the letters, in pixels.
  constructor(page, size) {
    Object.assign(this, {page, session: null, turn: 0, going: null, view: {size, folds: true, allArrows: false, fit: false, followed: '', walked: ''}});
  }

  // Whether a moment is shown.
  get shown() {
    return this.session?.state && this.page.shows('step') ? this.session : null;
  }

  // Steps through the deck of the editor: at a count, or where it was left if deck and core are the same.
  step(count, other) {
    return this.page.guard(async () => {
      const text = this.page.given();
      this.page.editor.fitsCore();
      const core = this.page.core(), kept = this.session?.text === text && this.session.core === core;
      if (!kept && !await this.begins(text, core)) return;
      if (other !== undefined) this.session.other = other;
      await this.goTo(count ?? this.session.state?.count ?? 0);
    });
  }

  // Begins with another deck or core; gives whether that is possible.
  async begins(text, core) {
    const {page} = this, {editor} = page, {status} = await page.commands.command(['check'], {text});
    if (status) return page.show('deck');
    if (!hasJob(text)) throw new Error(NO_JOB);
    const algol = isAlgol(editor.text) ? algolBeside(editor.text) : algolOf(editor.name), stops = keptStops(this.session, algol);
    this.session = {text, core, raw: page.deck(), name: editor.name, algol, code: await editor.addressed(), stops, briefs: new Map(),
      states: new Map(), faults: new Map(), end: null, other: null, wanted: null, way: 1};
    Object.assign(this.view, {followed: '', walked: ''});
    page.course.stepsThrough(this.session);
    const begun = await page.client.ask('operators', {deck: text, core});
    Object.assign(this.session, begun);
    if (begun.refused) await this.notBegun(begun.refused);
    return !begun.refused;
  }

  // A run that stops before its first operator has no machine to be looked at.
  notBegun(refused) {
    const {page} = this;
    this.session = null;
    page.commands.ran = {status: refused.status, text: refused.text};
    page.show('deck');
    showResult(page.rows, {words: ['step'], milliseconds: 0, ...refused}, 'none');
    return refused.status === 4 ? page.commands.offerCore(page.given(), page.core()) : undefined;
  }

  ask(name, data, core = this.session.core) {
    return this.page.client.ask(name, {deck: this.session.text, core, ...data});
  }

  // The state at a count: one that was sent, or one that the worker makes now.
  async stateAt(count, core) {
    const {session} = this, {states, end} = session;
    return states.get(`${core} ${Math.min(count, end ?? count)}`) ?? keepState(session, core, await this.ask('state', {count, end}, core));
  }

  // ------------------------------------------------------------ to another moment

  // Shows the state at a count. While one is on its way a later wish replaces an earlier one, and the last one is shown.
  goTo(count) {
    this.turn++;
    this.session.wanted = Math.max(0, count);
    this.going ??= this.goes().finally(() => { this.going = null; });
    return this.going;
  }
  async goes() {
    try {
      while (this.session && this.session.wanted !== null) {
        const {session} = this, count = session.wanted, state = await this.stateAt(count, session.core);
        if (session === this.session) await this.showState(state);
        if (session.wanted === count) session.wanted = null;
      }
    } finally {
      if (this.session) this.session.wanted = null;
    }
  }

  // Goes so many operators forth or back, from where the last wish leads.
  goBy(count) {
    const {page} = this;
    if (page.course.quiz.on && count === 1) return page.guard(() => this.predicts());
    return page.guard(() => this.goTo((this.session.wanted ?? this.session.state.count) + count));
  }

  // A step with a question before it, where the operator deserves one.
  async predicts() {
    const {session, page} = this, now = session.state;
    if (this.asking) return;
    this.asking = true;
    try {
      const then = await this.stateAt(now.count + 1, session.core);
      page.working--; // while the pupil thinks, nothing is under way
      await page.course.asks(now, then, session).finally(() => { page.working++; });
      if (session === this.session && session.state === now) await this.goTo(now.count + 1);
    } finally {
      this.asking = false;
    }
  }

  // Goes to what a search finds. A search waits for what was wished before it and goes on from there, so no press of a key is lost; another
  // wish, or Stop, drops those that wait.
  find(kind, way) {
    const {turn} = this;
    return this.page.guard(() => {
      this.finding = Promise.resolve(this.finding).catch(() => {}).then(() => this.going).then(() => (turn === this.turn ? this.finds(kind, way) : null));
      return this.finding;
    });
  }
  // Where there is nothing the page says so, and stays.
  async finds(kind, way) {
    const {session, view, turn} = this, from = session.state.count;
    if (kind === 'stopped' && !session.stops.size) throw new Error('No breakpoint is set: click a card, or press b.');
    if (kind === 'store' && !view.followed) throw new Error('Nothing is followed yet: click a cell or the name of an array, or press v until it is marked; n then goes to the next store.');
    const data = {kind, from, way, what: kind === 'store' ? view.followed : [...session.stops], end: session.end};
    const state = await this.seeks('find', data, from, thingsOf(session.state, view.followed)[kind]);
    if (turn !== this.turn || session !== this.session) return;
    if (!state) throw new Error(nothingFound(kind, way, session.state, view.followed));
    await this.showState(keepState(session, session.core, state));
  }

  // Asks for what a search finds from a count. If it is stopped on its way, the error says how far it came, where there isn't what `none` says,
  // and leads there.
  seeks(name, data, from, none) {
    return this.ask(name, data).catch(problem => {
      const {message, far} = problem;
      if (message !== STOPPED || far === null || far === from) throw problem;
      throw Object.assign(new Error(stoppedText(0, {none, from, at: far})), {goes: far});
    });
  }
  // Goes to the end of the run, or before its first fault: to so many operators before what is found.
  toEnd(name, before, none) {
    return this.page.guard(async () => this.goTo(await this.seeks(name, {}, 0, none) - before));
  }

  // Goes to the next of some counts.
  goesAmong(counts, way = 1) {
    return this.goTo(nextOf(counts, this.session.wanted ?? this.session.state.count, way));
  }
  // Goes to the next sign of a kind on the line of time; where there is none the page says `none`. What the line doesn't tell yet is made first.
  along(kind, way = 1, none = 'This sign doesn’t stand on this line of time, so the page stays here.') {
    return this.page.guard(async () => {
      const {session} = this, mine = ++this.turn;
      if (!session.isKnown) await this.knowsLine();
      if (mine !== this.turn || session !== this.session) return;
      const {counts = []} = session.signs.find(it => it.kind === kind) ?? {};
      if (!counts.length) throw new Error(none);
      if (kind === 'lost' && document.body.classList.contains('hides-lost')) throw new Error('Which store is lost is what this exercise asks.');
      await this.goesAmong(counts, way);
    });
  }
  // Lets the worker make at once what the line of time lacks, and draws it.
  async knowsLine() {
    const {session} = this, {window: {from, to}, end} = session;
    await this.ask('line', {from, to: Math.min(to, end ?? to)});
    if (session === this.session) showLine(session, this.ways);
  }

  async stopped() {
    this.turn++;
    this.play(false);
    await this.page.client.stop();
    if (this.session) this.session.wanted = null;
  }

  play(on = !this.playing) {
    clearInterval(this.playing);
    const from = this.session?.state?.count;
    this.playing = on ? setInterval(() => {
      const {state, stops} = this.session ?? {}, isStopped = state && state.count !== from && stops.has(cardKey(state.operator));
      if (!state || state.status !== undefined || isStopped) this.play(false);
      else if (!this.going) this.goBy(1);
    }, Number(byId('speed').value)) : null;
    byId('play').textContent = on ? 'pause' : 'play';
  }

  // ------------------------------------------------------------ what is shown

  async showState(state) {
    const {session, page} = this, {other} = session, otherState = other === null ? null : await this.stateAt(state.count, other);
    if (session !== this.session) return;
    if (this.asking) page.course.quiz.leave();
    if (!session.state) showDeck(session, key => this.toggle(key), card => page.lexicon.ofCard(card));
    session.way = session.state && state.count < session.state.count ? -1 : 1;
    page.show('step');
    Object.assign(session, {state, otherState, end: state.end ?? session.end});
    session.briefs.set(state.count, state.brief);
    document.body.dataset.compared = state.compared;
    byId('two').setAttribute('aria-pressed', String(other !== null));
    this.draws();
    speak(sentenceOf({...state, changes: changesOf(session)}));
    page.course.sees(session, state).catch(() => {});
    page.places.soon();
    this.prepare();
  }
  draws() {
    const {page, session} = this;
    byId('what').title = page.lexicon.ofCard(session.state.operator?.text ?? '');
    showMoment(session, this.view, page.rows, {act: act => perform(page, act), stopsAt: line => this.toggleLine(line), ...this.ways});
  }
  // The ways that lead from what is drawn: to the next of some counts, and to the next sign of a kind.
  get ways() {
    return {goes: counts => this.page.guard(() => this.goesAmong(counts)), along: kind => this.along(kind)};
  }
  redraw() {
    if (this.shown) this.draws();
  }

  // Asks for the states around the one that is shown, first in the way that was gone, and for what the time line needs.
  prepare() {
    const {session} = this, {from, to} = session.window, most = session.end ?? Infinity, filled = session.core <= MOST_FILLED;
    const counts = AHEAD.map(by => session.state.count + by * session.way).filter(count => count >= 0 && count <= most);
    const cores = [session.core, session.other].filter(core => core !== null && core <= MOST_FILLED);
    const ahead = counts.flatMap(count => cores.map(core => ({core, count}))).filter(({core, count}) => !session.states.has(`${core} ${count}`));
    this.ask('soon', {ahead, from, to: filled ? Math.min(to, most) : from - 1}).catch(() => {});
  }

  // What the worker tells unasked: states made ahead, and briefs for the time line.
  hear({state, briefs, end, deck, core}) {
    const {session} = this;
    if (!session?.state || session.text !== deck) return;
    if (state) {
      keepState(session, core, state);
      if (state.wrongs.length && core === session.core && state.count === session.state.count + 1) this.redraw(); // the next operator faults
      return;
    }
    if (session.core !== core) return;
    for (const brief of briefs) session.briefs.set(brief.count, brief);
    session.end = end ?? session.end;
    this.later();
  }
  // Draws the time line soon, once for many briefs.
  later() {
    this.drawing ??= setTimeout(() => {
      this.drawing = null;
      if (this.shown) showLine(this.session, this.ways);
    }, 60);
  }

  // Sets breakpoints where a line of the text in ALGOL begins, or takes them away.
  toggleLine(line) {
    const {stops, algol} = this.session, keys = algol.firsts?.[line] ?? [], on = !keys.some(key => stops.has(key));
    for (const key of keys) if (on) stops.add(key); else stops.delete(key);
    this.redraw();
  }

  toggle(key) {
    const {stops} = this.session;
    if (!stops.delete(key)) stops.add(key);
    this.redraw();
  }

  // Follows a cell or an array, or no longer if it is followed already.
  follows(name) {
    this.view.followed = this.view.followed === name ? '' : name;
    this.redraw();
  }

  // Goes from cell to cell of the picture, and says the words of each.
  walks(way) {
    this.view.walked = nextCell(this.session.state, this.view.walked, way);
    this.redraw();
    speak(cellWords(this.session.state, this.view.walked));
  }

  walksOff() {
    this.view.walked = '';
    this.redraw();
  }

  // What is shown, for tests.
  told() {
    const {state, otherState, other} = this.shown ?? {}, {page} = this;
    return {
      view: document.body.dataset.view, deck: page.editor.isOwn() ? '' : page.editor.name, core: Number(byId('core').value),
      text: page.editor.text, count: state ? state.count : null, ...toldOf(state),
      ran: page.commands.ran, message: byId('message').textContent, shown: `${byId('outcome').innerText}\n${byId('ran').innerText}`,
      ...(state && otherState ? {other: {core: other, ...toldOf(otherState)}} : {}),
    };
  }
}

// Of a state what tests compare.
function toldOf(state) {
  if (!state) return {dump: null, printed: null, end: null};
  return {dump: state.dump ?? null, printed: state.lines.shown.map(line => `${line}\n`).join(''), end: state.status ?? null};
}
