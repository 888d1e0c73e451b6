// Decks in the page beside the native program: each is run and stepped through, each key is pressed, two cores are shown side by side.
import {told} from './tried.mjs';

const STEPS = 12; // of each deck
const KEYED = ['two', 'dining']; // in these every key is pressed

async function runs(it, {name, text, core}) {
  await it.opens(`${name},${core}`);
  const {ran} = await it.click('#run'), native = it.run(text, core);
  it.wants(ran && ran.status === native.status && ran.text === native.text, `${name}: Run gives ${ran?.status} ${told(ran?.text)}`);
}

// Forth by keys, to the end at once, and back from there.
async function steps(it, {name, text, core}) {
  let state = await it.opens(`${name},${core},0`);
  it.wants(state.view === 'step' && state.count === 0, `${name}: operator 0 isn't shown, but ${state.view} ${state.count}: ${state.message}`);
  for (let k = 0; k < STEPS && state.end === null; k++) {
    const {count} = state;
    state = await it.pressed(name, text, 'ArrowRight');
    it.wants(state.count === count + 1, `${name}: a step from ${count} leads to ${state.count}`);
  }
  const last = await it.pressed(name, text, 'End');
  it.wants(last.end !== null, `${name}: End shows no end`);
  const before = await it.pressed(name, text, 'ArrowLeft');
  it.wants(before.count === last.count - 1, `${name}: a step back from ${last.count} leads to ${before.count}`);
}

// Every key of the list, there and with shift, from the middle; what opens a panel is pressed twice, and a way out is at hand.
async function keys(it, {name, text, core}) {
  for (const {key, shift} of await it.browser.value('b67.keys')) for (const with_shift of shift ? [false, true] : [false]) {
    await it.opens(`${name},${core},9`);
    const state = await it.pressed(name, text, key, with_shift);
    if (state.count === 9) await it.pressed(name, text, key, with_shift);
    await it.browser.press('Escape');
  }
}

export async function each_deck(it) {
  for (const deck of it.decks()) {
    await runs(it, deck);
    await steps(it, deck);
    if (KEYED.includes(deck.name)) await keys(it, deck);
  }
}

export async function two_cores(it) {
  for (const [name, core, other] of [['two', 630, 4096], ['rivals', 505, 1048575], ['ten', 533, 4096]]) for (const count of [5, 20, 26]) {
    const state = await it.opens(`${name},${core},${count},${other}`);
    it.wants(state.other?.core === other, `${name}: no second core is shown`);
    it.compares(`${name}, two cores`, state, it.deck(name));
  }
}

// What is followed, and the next store into it; a search that finds nothing stays and says so.
export async function follows(it) {
  const {browser} = it, shown = () => browser.value("document.getElementById('followed').hidden ? '' : document.getElementById('followed').innerText");
  await it.opens('switched,685,6');
  await browser.press('v');
  it.wants(/^follows cell 2,2, in record 1 of task 1\.1: 0/.test(await shown()), `v follows ${told(await shown())}`);
  for (const [key, shift, count] of [['n', false, 12], ['n', false, 17], ['n', false, 17], ['n', true, 12]]) {
    const from = (await it.state()).count, state = await it.pressed('switched', it.deck('switched'), key, shift);
    it.wants(state.count === count && Boolean(state.message) === (from === count), `${key} from ${from} leads to ${state.count}: ${state.message}`);
  }
  await browser.click('#stacks .followed');
  it.wants(await shown() === '', 'a click on the cell that is followed: it still is');
  await browser.click('#stacks .tag-7');
  it.wants(/^follows cell 2,3/.test(await shown()), `a click on cell 2,3 follows ${told(await shown())}`);
  await it.opens('two,630,20');
  await browser.click('#memory [data-follow]');
  it.wants(/^follows array 2,2/.test(await shown()), `a click on an array follows ${told(await shown())}`);
  await it.opens('two,630,24');
  const last = await it.pressed('two', it.deck('two'), 'g');
  it.wants(last.count === 24 && last.message, `with no paging left g leads to ${last.count}: ${last.message}`);
}

// The signs below the line of time lead from one to the next; of a run of several tasks they tell which stores are lost. A sign that is there
// tells the right count at once (`soon`), though others may be missing still, and move it; by the mouse it is clicked when none is missing.
export async function signs(it) {
  const {browser} = it, clicked = async kind => {
    await it.until("document.querySelector('#signs[aria-busy=false]')");
    return (await it.click(`[data-sign=${kind}]`)).count;
  };
  const soon = async kind => {
    await it.until(`document.querySelector('[data-sign=${kind}]')`);
    await browser.value(`document.querySelector('[data-sign=${kind}]').click()`);
    return (await it.state()).count;
  };
  await it.opens('switched,685,0');
  const {count} = await it.pressed('switched', it.deck('switched'), 'x');
  it.wants(count === 17, `x at once after the deck was opened leads to ${count}`);
  await it.opens('switched,685,0');
  it.wants(await clicked('lost') === 17 && /that of operator 12, card 33, task 1\.2/.test(await it.shown('#changed li')), `the sign of a store that is lost: ${told(await it.shown('#changed li'))}`);
  it.wants((await it.click('#changed .moment')).count === 12, 'the operator whose store is lost leads elsewhere');
  it.wants((await it.pressed('switched', it.deck('switched'), 'x', true)).count === 17, 'x with shift leads away from the one store that is lost');
  await it.opens('task:4.2');
  await it.until("document.querySelector('[data-sign=lost]')");
  it.wants(await it.shown('[data-sign=lost]') === '' && /this exercise asks/.test((await it.pressed('switched', it.deck('switched'), 'x')).message), 'an exercise’s answer is told by its sign');
  await it.opens('two,630,0');
  const out = [await soon('out'), await soon('out'), await clicked('out')];
  it.wants(out.join() === '20,23,24', `the sign of words that leave core leads to ${out}`);
  it.wants(/No store is lost/.test((await it.pressed('two', it.deck('two'), 'x')).message), 'a run of one task: x says nothing');
}

// Of many stacks that on which all stand stays at the left, and a click on it is one on its cells.
export async function pinned(it) {
  const {browser} = it;
  await browser.size(1024, 768);
  await it.opens('dining,3258,150');
  await browser.value("document.getElementById('stacks').scrollLeft = 300; new Promise(goes => setTimeout(goes, 100))");
  const [seen, x, y] = await browser.value("{ const it = document.querySelector('#stacks .pinned'), r = it.querySelector('.under').getBoundingClientRect(), b = document.getElementById('stacks').getBoundingClientRect(); [getComputedStyle(it).visibility, r.x + r.width / 2 - b.x, r.y + r.height / 2] }");
  it.wants(seen === 'visible' && x > 0 && x < 250, `the stack of task 1.1 is ${seen} at ${x}, ${y}`);
  await browser.click('#stacks .pinned .under');
  it.wants(/^follows cell 2,2/.test(await browser.value("document.getElementById('followed').innerText")), 'a click on the stack at the left');
  await browser.click('#unfollow');
  await browser.size(1400, 900);
}

// By keys alone, and by ear: each step is one sentence, and up and down lead through the cells, whose words are said.
export async function aloud(it) {
  const {browser} = it, spoken = () => browser.value("document.getElementById('spoken').textContent");
  const says = async (pattern, what) => {
    await browser.until(`${pattern}.test(document.getElementById('spoken').textContent)`).catch(() => {});
    it.wants(pattern.test(await spoken()), `${what}: it says ${told(await spoken())}`);
  };
  await it.opens('two,630,19');
  await browser.press('ArrowRight');
  await says(/^Operator 20, card 25, STOD, of task 1\.1: .*leaves core array 2,2.*Next: card 26/, 'a step');
  await it.opens('switched,685,6');
  await browser.press('ArrowUp');
  await says(/^Cell 2,4, in record 1 of task 1\.1: tag 0, 2\. It is the top/, 'up to the top of the stack');
  for (let k = 0; k < 2; k++) await browser.press('ArrowDown');
  await says(/^Cell 2,2, in record 1 of task 1\.1: tag 0, 0\.$/, 'down twice');
  await browser.press('v');
  it.wants(/^follows cell 2,2/.test(await browser.value("document.getElementById('followed').innerText")), 'v follows another cell than the one that was walked to');
  it.wants(await browser.value("document.querySelectorAll('[aria-live]:not(#spoken):not(#outcome)').length") === 0, 'more than one part of the page speaks at a step');
  await browser.value("document.activeElement.blur(); document.getElementById('cards').focus(); 0");
  for (const key of ['ArrowDown', 'ArrowDown']) await browser.press(key);
  await browser.press('Enter');
  const one = "document.querySelectorAll('#cards .stopped').length === 1";
  await browser.until(one).catch(() => {});
  it.wants(await browser.value(one), `a breakpoint by keys in the list of cards; the focus is on ${await browser.value("document.activeElement.outerHTML.slice(0, 120)")}`);
}
