// Wires the controls to the page, and starts it; the same script is the worker's.
import {byId, put} from './elements.js';
import {Desk, serve} from './worker.js';
import {Page} from './page.js';
import {perform, toggleLessons} from './acts.js';
import {actOf, KEYS} from './keys.js';
import {countAt} from '../drawing/timeline.js';
import {cellAt} from '../drawing/draw-stacks.js';
import {numbersForRead, withNumbers} from './deck-view.js';
import {WORK} from '../course/progress.js';
import {COURSE} from '../course/course.js';
import {csvOf, handsOf, keysOf, linesOf, marksOf, tasksFor} from '../course/class.js';
import {textsIn} from '../course/zip.js';
import {decksOf} from './decks.js';
import {withoutNames} from '../names/names.js';
import {isAlgol, withData} from '../algol/translation.js';
import {coresBetween, pagingOf} from '../machine/paging.js';

// A key for the machine that was pressed in a field of a number, where it means nothing: the field takes its number, and then the key acts.
function isStep(page, {target, key}) {
  return target.type === 'number' && target.closest('header,#controls') && page.shows('step') && /^(Enter|End|Home|PageUp|PageDown)$/.test(key);
}
async function leavesField(page, event) {
  event.preventDefault();
  event.target.blur();
  if (event.key === 'Enter') return;
  await page.idle();
  const {act, way} = actOf(event.key, event.shiftKey);
  perform(page, act, way);
}

function onKey(page, event) {
  const {target, key, shiftKey} = event;
  if (event.ctrlKey || event.metaKey || event.altKey || document.querySelector('dialog[open]')) return;
  if (/^Arrow(Up|Down)$/.test(key) && target.closest?.('#cards,#right,#pair,#lessons,#printed,#results,#hand-view')) return;
  if (isStep(page, event)) return leavesField(page, event);
  if (key !== 'Escape' && /^(INPUT|TEXTAREA|SELECT)$/.test(target.tagName)) return;
  if ((key === ' ' || key === 'Enter') && /^(BUTTON|A|SUMMARY)$/.test(target.tagName)) return;
  const found = actOf(key, shiftKey);
  if (!found || key === ' ' && shiftKey) return;
  event.preventDefault();
  perform(page, found.act, found.way);
}

function listenToDeck(page) {
  const clicks = {
    ...Object.fromEntries(['run', 'check', 'image', 'resume', 'exercise', 'bind', 'take', 'paging'].map(name => [name, () => page.commands[name]()])),
    step: () => page.steps.step(), edit: () => page.show('deck'), two: () => perform(page, 'two'), 'help-button': () => perform(page, 'help'),
    'lessons-button': () => toggleLessons(page), link: () => page.places.link(), save: () => page.editor.save(), 'delete': () => page.editor.remove(),
    'new': () => page.guard(() => page.places.leaves(() => page.editor.begin())), 'new-algol': () => page.guard(() => page.places.leaves(() => page.editor.beginAlgol())), 'link-copy': () => copyLink(), 'put-numbers': () => putNumbers(page), stop: () => perform(page, 'escape'),
    'welcome-lesson': () => { location.hash = '#lesson:1'; }, 'welcome-step': () => page.steps.step(),
  };
  for (const [id, act] of Object.entries(clicks)) byId(id).onclick = act;
  byId('pick').onchange = () => {
    const name = byId('pick').value;
    return page.guard(() => page.places.leaves(() => page.editor.choose(name)));
  };
  byId('file').onchange = () => byId('file').files[0] && page.guard(() => page.commands.open(byId('file').files[0]));
  byId('deck').oninput = () => page.editor.typed();
  document.addEventListener('selectionchange', () => showCardHelp(page));
  addEventListener('pagehide', () => page.editor.keepNow());
  const drawn = () => { page.editor.area.draw(); page.editor.algol.under(); };
  byId('deck').onscroll = drawn;
  new ResizeObserver(drawn).observe(byId('deck'));
  byId('job').onchange = () => { byId('numbers').value = numbersForRead(page.editor.text, Number(byId('job').value)); };
}

function putNumbers(page) {
  const {text} = page.editor, numbers = byId('numbers').value;
  page.editor.area.put(isAlgol(text) ? withData(text, numbers) : withNumbers(text, Number(byId('job').value), numbers));
  page.editor.typed();
}

// Says what the operator of the card does in which the caret stands.
function showCardHelp(page) {
  if (document.activeElement !== byId('deck')) return;
  const [card, text] = page.editor.area.cardAtCaret(), said = page.lexicon.ofCard(text);
  byId('card-help').textContent = said ? `Card ${card}. ${said}` : '';
}

// Copies the address, or marks it where the browser doesn't allow that.
async function copyLink() {
  byId('link-text').select();
  const done = await navigator.clipboard?.writeText(byId('link-text').value).then(() => true, () => false);
  byId('link-copy').textContent = done ? 'Copied' : 'Copy it by hand';
}

// The numbers above the moment: its count, the words of core, and those of a second core.
function listenToNumbers(page) {
  const {steps} = page;
  byId('count').onchange = () => {
    byId('count').blur();
    page.guard(() => steps.goTo(Math.floor(Number(byId('count').value)) || 0));
  };
  byId('core').onchange = () => page.coreChanged();
  byId('other').onchange = () => page.guard(() => {
    if (!steps.shown || steps.session.other === null) return;
    steps.session.other = page.core('other');
    return steps.goTo(steps.session.state.count);
  });
}

function listenToSteps(page) {
  const {steps} = page;
  for (const button of document.querySelectorAll('[data-act]')) button.onclick = () => perform(page, button.dataset.act, 1);
  const goes = event => page.guard(() => steps.goTo(countAt(byId('line'), steps.session.window, event.clientX)));
  byId('line').onpointerdown = event => { if (event.button === 0) { byId('line').setPointerCapture(event.pointerId); goes(event); } };
  byId('line').onpointermove = event => { if (event.buttons & 1) goes(event); };
  byId('leave-class').onclick = () => perform(page, 'present');
  byId('cards').addEventListener('keydown', moveInCards);
  byId('stacks').onclick = event => {
    const name = cellAt(byId('stacks'), event);
    if (name && steps.shown) steps.follows(name);
  };
  for (const id of ['right', 'pair']) byId(id).addEventListener('click', event => {
    const button = event.target.closest('[data-follow]');
    if (button) steps.follows(button.dataset.follow);
  });
  byId('unfollow').onclick = () => steps.follows('');
  byId('message').onclick = () => page.say(''); // it lies over what is below it
}

function listenToWindow(page) {
  document.addEventListener('copy', event => { // a card's name in a sentence holds together by a sign that no deck may have
    const text = String(getSelection());
    if (!text.includes('\u2060') || !event.clipboardData) return;
    event.clipboardData.setData('text/plain', text.replaceAll('\u2060', ''));
    event.preventDefault();
  });
  document.addEventListener('keydown', event => onKey(page, event));
  window.addEventListener('hashchange', event => page.places.follow(event.newURL ? new URL(event.newURL).hash : location.hash));
  window.addEventListener('resize', () => page.steps.redraw());
  window.addEventListener('storage', ({key}) => { if (key === WORK) page.course.looks(); });
  for (const [name, prints] of [['beforeprint', true], ['afterprint', false]]) window.addEventListener(name, () => {
    byId('deck-paper').textContent = prints && page.shows('deck') ? numbered(page.editor.text) : '';
    page.steps.view.prints = prints;
    page.steps.redraw();
  });
}

// A deck with the numbers of its cards, for the printer.
function numbered(text) {
  return text.trimEnd().split('\n').map((card, k) => `${String(k + 1).padStart(5)}  ${card}`).join('\n');
}

// What tests ask of the page.
function hooks(page, ready) {
  return {
    ready, keys: KEYS.map(({key, shift, what}) => ({key, shift: Boolean(shift), what})),
    idle: () => page.idle(), state: () => page.steps.told(), under: () => ({working: page.working, asked: [...page.client.asked.keys()], desk: Boolean(page.client.desk), busy: !byId('busy').hidden, message: byId('message').textContent}),
  };
}

// Up and down in the cards lead from number to number, whose button sets a breakpoint.
function moveInCards(event) {
  if (event.key !== 'ArrowDown' && event.key !== 'ArrowUp') return;
  const row = document.activeElement.closest('#cards li'), list = byId('cards');
  const next = row ? (event.key === 'ArrowDown' ? row.nextElementSibling : row.previousElementSibling) : list.querySelector('.next') ?? list.firstElementChild;
  next?.querySelector('button')?.focus();
  event.preventDefault();
}

async function start() {
  byId('dead').remove();
  const page = new Page();
  listenToDeck(page);
  listenToNumbers(page);
  listenToSteps(page);
  listenToWindow(page);
  const ready = page.begin();
  window.b67 = hooks(page, ready);
  await ready;
  document.body.dataset.ready = '1';
}

// In node, b67.mjs takes the parts that need no page.
if (globalThis.b67Takes) globalThis.b67Takes({Desk, COURSE, pagingOf, coresBetween, decksOf, withoutNames, handsOf, keysOf, tasksFor, marksOf, linesOf, csvOf, textsIn});
else if (typeof document === 'undefined') serve();
else start();
