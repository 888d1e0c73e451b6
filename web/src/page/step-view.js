// The view of a moment: all that is drawn of a state, and of two states side by side.
import {byId, element, put, putKept, set, taskClass} from './elements.js';
import {countOf} from '../reader/words.js';
import {INTRINSICS, MEANINGS} from '../reader/operators.js';
import {endingOf} from '../state/changes.js';
import {showAlgol, showCards, markCards, showPrinted, lineRow} from '../drawing/draw-cards.js';
import {showStacks} from '../drawing/draw-stacks.js';
import {changesList, showMemory} from '../drawing/draw-memory.js';
import {lossChange, lostStores} from '../words/lost.js';
import {showSigns, signsOn} from '../drawing/signs.js';
import {briefsOf, showTimeline, windowOf} from '../drawing/timeline.js';
import {followedText} from './follow.js';
import {statusText} from '../words/messages.js';
import {cardsOf} from '../reader/cards.js';
import {cellWords, GONE} from '../ear/walk.js';
import {faultShown, showFaultNote} from '../words/fault-note.js';

// The operator's name and operands, without a label.
function operatorText(operator) {
  return operator.text.replace(/^[A-Z][A-Z0-9]*: */, '');
}

// What the operator just made did, in a sentence.
function whatItDid(state, rows) {
  const ends = endsText(state.fresh.map(endingOf).filter(Boolean));
  if (state.status !== undefined) return endText(state, rows, ends);
  if (!state.operator) return 'before the first operator: nothing has run yet';
  if (ends) return ends;
  const [name, operand] = operatorText(state.operator).split(' ');
  const intrinsic = /^0,(\d+)$/.exec(operand ?? '');
  if (name === 'NAMC' && intrinsic) return `pushes the couple of the intrinsic ${INTRINSICS[intrinsic[1]]}`;
  return callText(name, state) ?? MEANINGS[name] ?? '';
}

// A call: of an intrinsic, or by accident, where an operator meets a procedure.
function callText(name, state) {
  const then = state.before?.tasks.find(task => task.name === state.operator.task), now = state.tasks.find(task => task.name === state.operator.task);
  if (!then) return null;
  const {top} = then, called = /^0,(\d+)$/.exec(top.first ?? '');
  if (name === 'ENTR' && top.level < 0 && called) return `calls ${INTRINSICS[called[1]]}${now && now.condition !== 'ready' ? `: its task ${now.condition}` : ''}`;
  const entered = now && now.records.length > then.records && ['VALC', 'STOD', 'STON', 'LOAD', 'RETN'].includes(name);
  if (entered) return 'meets a procedure and enters it: an accidental entry';
  return null;
}

// The tasks that the operator ended, each with its ending.
function endsText(endings) {
  if (!endings.length) return '';
  const [{name}] = endings, one = endings.every(it => it.name === name), tasks = endings.map(it => it.task).join(', ');
  const how = name === 'ENDED' ? tasks : `${tasks}: ${name}`;
  return `ends task${endings.length > 1 ? 's' : ''} ${one ? how : endings.map(it => `${it.task} ${it.name}`).join(', ')}`;
}

function endText(state, rows, ends) {
  if (state.status === 0) return `${ends}. No task lives any more; what you see is the machine before this operator`;
  const {means, advice} = statusText(rows, state.status, state.lines.shown.at(-1));
  return `the run stops here. ${means} ${advice.replace(', or press the button', '')}`;
}

// The name that a card has in the place of a couple; empty if it has none.
function nameOnCard({raw}, card) {
  return /(?:VALC|NAMC)\s+([a-z][a-z0-9_]*)/.exec(card ? cardsOf(raw)[card - 1] ?? '' : '')?.[1] ?? '';
}

function showOperator(session, rows) {
  const {state} = session, {operator} = state, name = operator ? nameOnCard(session, operator.card) : '';
  const place = operator && (operator.card ? `card ${operator.card}` : operator.place);
  put(byId('what'), operator ? [element('span', {class: taskClass(operator.task)}, operator.task), ` ${place} `, element('strong', {}, operatorText(operator)), name && ` ${name}`]
    : element('strong', {}, 'operator 0'));
  byId('what').className = state.status === 4 || state.status === 5 ? 'undone' : '';
  put(byId('why'), whatItDid(state, rows));
}

function showCount(session) {
  const {state, end} = session;
  if (document.activeElement !== byId('count')) byId('count').value = state.count;
  put(byId('of'), end === null ? 'operators' : `of ${end.toLocaleString('en')} operators`);
}

// The line of time, its signs, and what changed, since the line tells which stores are lost. `goes` leads to the next of some counts, `along`
// to the next sign of a kind.
export function showLine(session, {goes, along}, width = byId('line').clientWidth || 1000) {
  session.window = windowOf(session.state.count, session.end, session.window);
  const {state, window, briefs, stops, end} = session, line = byId('line'), all = end ?? window.to, known = briefsOf(briefs, window);
  session.losses = lostStores(known);
  const isKnown = known.length > Math.min(window.to, all) - window.from, isWhole = isKnown && window.from === 0 && window.to >= (end ?? Infinity);
  Object.assign(session, {isKnown, signs: signsOn(known, session.losses, isKnown, stops)});
  showSigns(byId('signs'), session.signs, isKnown, along);
  putKept(byId('changed'), changesPart(state, changesOf(session), goes));
  const deepest = showTimeline(line, {count: state.count, window, briefs, stops, losses: session.losses, width}), depth = depthText(state, deepest, isWhole);
  if (byId('depth').textContent !== depth) byId('depth').textContent = depth;
  for (const [name, value] of [['now', state.count], ['min', 0], ['max', all]]) set(line, `aria-value${name}`, value);
  set(line, 'aria-valuetext', `${state.count} of ${end ?? 'many'} operators`);
  const part = byId('part-shown');
  byId('whole').hidden = window.from === 0 && window.to >= all;
  part.style.left = `${window.from / all * 100}%`;
  part.style.width = `${Math.max(0.5, (window.to - window.from) / all * 100)}%`;
}

// What the operator changed, and the stores of other tasks that it wrote over.
export function changesOf({state, losses = []}) {
  return [...state.changes, ...losses.filter(it => it.at === state.count).map(lossChange)];
}

// How deep the stack of the running task is, and how deep one gets on the line of time, of which all of the run may be drawn.
export function depthText({tasks, last}, deepest, isWhole) {
  const records = tasks.find(task => task.name === last)?.records.length;
  return records ? `${countOf(records, 'record')} deep${deepest > 1 ? `, ${deepest} at most${isWhole ? '' : ' in the part that is drawn'}` : ''}` : '';
}

export function showDeck(session, toggle, help) {
  showCards(byId('cards'), session.raw, session.operators, toggle, help);
}

// What the boxes measure. It is asked once, before anything is drawn.
function measured() {
  const {clientWidth, clientHeight, scrollLeft, scrollTop} = byId('stacks');
  return {stacks: {clientWidth, clientHeight, scrollLeft, scrollTop}, line: byId('line').clientWidth || 1000};
}

// Draws all of a session's state.
export function showMoment(session, view, rows, {act, stopsAt, ...ways}) {
  const {state, stops} = session, fault = faultShown(session), shown = state.remains ?? state;
  document.body.classList.toggle('two', Boolean(session.otherState));
  byId('pair').hidden = !session.otherState;
  byId('right').hidden = Boolean(session.otherState);
  byId('to-stop').hidden = !stops.size;
  showFaultNote(fault, rows, act);
  const {stacks, line} = measured();
  markCards(byId('cards'), state, stops, faultyOf(fault));
  showAlgol(byId('algol'), session, stopsAt);
  showPrinted(byId('printed'), state.lines, state.fresh.length);
  byId('stacks').classList.toggle('past', shown !== state);
  showStacks(byId('stacks'), shown, session.operators, {...view, wrong: new Set(fault?.wrongs.flatMap(it => it.cells))}, stacks);
  showCount(session);
  showOperator(session, rows);
  if (session.otherState) showPair(session, view);
  else {
    showMemory(byId('memory'), shown, view.followed);
    byId('dump').textContent = state.dump || 'No task lives.';
  }
  showFollowed(state, view);
  showWalked(state, view);
  showLine(session, ways, line);
}

// The operator whose card is marked as faulty: of a program that ran out of its segment the last one there.
function faultyOf(fault) {
  const after = fault?.wrongs.find(it => it.after)?.after;
  return after ? {...fault.operator, card: after} : fault?.operator;
}

// The list of changes as a part, which stays if the next operator says the same.
function changesPart(state, changes = state.changes, goes = undefined) {
  return [[JSON.stringify([changes, state.status, state.count === 0]), () => changesList({...state, changes}, goes)]];
}

// The cell or the array that is followed, and what it holds.
function showFollowed(state, {followed}) {
  byId('followed').hidden = !followed;
  if (followed) put(byId('followed-text'), followedText(state, followed));
}

// The words of the cell that the keys have come to.
function showWalked(state, {walked}) {
  const words = walked ? cellWords(state, walked) : '';
  byId('walked').hidden = !words || words === GONE;
  put(byId('walked'), words);
}

// One of two cores: what changed, core, and the lines.
function showOne(box, state, {followed}) {
  const shown = state.lines.shown.slice(-12);
  const printed = () => element('div', {class: 'printed'}, shown.length ? shown.map(line => lineRow(line, null, false)) : element('span', {class: 'dim'}, 'Nothing yet.'));
  const nodes = putKept(box, [['printed', () => element('h2', {}, 'Printed')], [JSON.stringify(shown), printed],
    ['changed', () => element('h2', {}, 'What changed')], ...changesPart(state), ['memory', () => element('div', {class: 'memory'})]]);
  showMemory(nodes.at(-1), state, followed);
}

// The sentence above two cores: what is the same, by comparison.
function theoremText(one, other) {
  const lines = one.lines.total === other.lines.total && one.lines.sum === other.lines.sum;
  if (one.count !== other.count || one.status !== other.status) return 'One of the two runs has stopped before this moment: see its last line.';
  if (!lines || one.dump !== other.dump) return 'The two differ: please report this deck and this count.';
  if (one.status !== undefined) return 'Both runs have ended, with the same lines: paging never changes a printed line.';
  const same = countOf(one.dump.split('\n').length - 1, 'line');
  return `With ${outText(one)}, with ${outText(other)}. The lines are the same, and so are the stacks: dump prints the same ${same} of both.`;
}

function outText(state) {
  const out = state.things.filter(thing => thing.kind === 'array' && !thing.at && thing.chain.length).length;
  return `${countOf(state.coreWords, 'word')} ${countOf(out, 'array is', 'arrays are')} out of core`;
}

function showPair({state, otherState}, view) {
  byId('theorem').textContent = theoremText(state, otherState);
  byId('theorem').className = state.count === otherState.count && state.status === otherState.status ? '' : 'apart';
  showOne(byId('first'), state, view);
  showOne(byId('second'), otherState, view);
}
