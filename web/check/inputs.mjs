// Bad input, faults, decks of one's own, names for cells, and long decks.
import {execFileSync} from 'node:child_process';
import os from 'node:os';
import {told} from './tried.mjs';

const LOOP = '?JOB LOOP\n?ASM\nSEGMENT MAIN 2\nTOP: BRUN TOP\n?END\n';
const LOOPS = LOOP.replace('?ASM', '?LIMIT 100000000\n?ASM').repeat(8); // some ten seconds
const PRINTS = '?JOB PRINTS\n?LIMIT 100000000\n?ASM\nSEGMENT MAIN 2\nTOP: MKST\nNAMC 0,9\nLT48 12345678901\nENTR\nBRUN TOP\n?END\n';
const STOPPABLE = "document.getElementById('stop').offsetParent";

async function refused(it) {
  await it.writes('?JOB A\n?ASM\nSEGMENT MAIN 2\nADDD\n?END\n', 4096);
  let state = await it.click('#run');
  it.wants(state.ran?.status === 2 && state.shown.includes(state.ran.text.trim()), `a refused deck: ${told(state.shown)}`);
  await it.writes(LOOP, 12);
  it.wants((await it.click('#run')).message, 'a core of 12 words: no sentence');
  await it.writes(LOOP, 4096);
  it.wants((await it.click('#run')).ran?.text === '1.1 LIMIT\n', 'an endless loop to its limit');
  await it.writes('', 4096);
  it.wants(/no job/.test((await it.click('#run')).message), 'an empty deck: no sentence');
  it.wants(/^Core has/.test((await it.opens('two,630,3,5')).message), 'a second core of 5 words: no sentence');
  await it.writes(PRINTS, 4096);
  state = await it.click('#run');
  it.wants(state.ran?.status === 8 && /16 MB of lines/.test(state.shown) && !/pipe|disk/.test(state.shown), `a deck that prints without end: ${state.ran?.status} ${state.shown.slice(0, 200)}`);
}

// What takes long is stopped, by the button and by a key, again and again, and the page goes on.
export async function stops(it) {
  const {browser} = it;
  await it.writes(LOOPS, 65536);
  await browser.click('#run');
  await it.until(STOPPABLE);
  it.wants(/^Stopped/.test((await it.click('#stop')).message), 'an endless loop that is stopped: no sentence');
  await it.click('#step');
  for (let k = 0; k < 3; k++) {
    await browser.press('End');
    await it.until(STOPPABLE);
    await browser.press('Escape');
    const state = await it.state();
    it.wants(/^Stopped/.test(state.message) && state.count === 0, `the end of a long run, stopped by a key: ${state.count} ${state.message}`);
  }
  await browser.press('End');
  await it.until(STOPPABLE);
  await browser.value("for (let k = 0; k < 3; k++) document.getElementById('stop').click(); 0");
  it.wants(/^Stopped/.test((await it.state()).message), 'Stop three times: no sentence');
  await browser.press('End');
  await it.until(STOPPABLE); // a worker computes, since the page answers
  it.wants(!(await browser.value('b67.under()')).desk, 'after Stop three times the page itself computes');
  await browser.press('Escape');
  await it.state();
  await stopsOnTheWay(it);
}

// A search that is stopped says how far it has come, and leads there.
async function stopsOnTheWay(it) {
  await it.browser.press('g');
  it.wants((await it.state()).count === 1, 'the segment comes into core elsewhere');
  await it.browser.press('g');
  await it.until("!document.getElementById('busy').hidden && /at operator ([2-9]|1[\\d,])/.test(document.getElementById('progress').textContent)"); // the text of the search before may stand there still
  await it.browser.press('Escape');
  const {message} = await it.state(), found = /^Stopped\. There is no paging from operator 1 to operator ([\d,]+)\. Go to operator \1$/.exec(message);
  const {count} = found ? await it.click('#message button') : {};
  it.wants(found && count === Number(found[1].replaceAll(',', '')), `a search that is stopped says ${told(message)}, and leads to ${count}`);
}

// An exercise in the core of the field prints what the program prints.
async function exercises(it) {
  await it.opens('sum,4096');
  await it.browser.value("document.getElementById('exercise').click(); 0");
  const {ran} = await it.state(), native = execFileSync(it.native, ['exercise', '7', '40', '--core', '4096']).toString();
  it.wants(ran?.text === native, `an exercise: ${told(ran?.text)}, natively ${told(native)}`);
}

export async function bad_input(it) {
  await refused(it);
  await exercises(it);
  await stops(it);
}

// Waits until the page tells where a fault is; of a run that took long, on a slow machine, it is looked for at a press only.
async function findsFault(it) {
  if (/^Find/.test(await it.shown('.offer'))) await it.browser.click('.offer');
  await it.until("document.querySelector('#look')");
}

// A fault: Run says so and marks its card, a button shows the machine before it, and the last machine stays in view. A halt isn't red.
export async function faults(it) {
  const {browser} = it;
  await it.writes('?JOB T\n?ASM\nSEGMENT MAIN 2\nLT8 7\nMKST\nNAMC 0,9\nNAMC 2,2\nONE\nADD\nENTR\nEXIT\n?END\n', 630);
  await it.click('#run');
  it.wants(/^Take \d+ words of core, enough/.test(await it.shown('.offer')), 'no button for a core that suffices');
  await it.click('.offer');
  await findsFault(it);
  it.wants(await it.shown('#gutter .refused') === '9' && /status 0/.test(await it.shown('.status.bad')), `a fault at card 9: ${await it.shown('#gutter .refused')} ${await it.shown('.status')}`);
  let state = await it.click('#look');
  await it.until("!document.getElementById('fault').hidden && document.querySelector('#signs[aria-busy=false]')"); // what is told above may take a line less by then
  it.wants(state.count === 5 && await it.shown('#cards .faulty .stop') === '9' && await it.shown('#stacks .wrong-sign') === '✕', `before a fault: ${state.count}`);
  state = await it.click('#fault button');
  it.wants(state.count === 6 && /couple 2,2/.test(await it.shown('#fault')) && await it.shown('#stacks.past .wrong-sign') === '✕', `at a fault: ${state.count} ${await it.shown('#fault')}`);
  it.wants((await it.click('#fault button')).count === 5, 'one step back from a fault isn’t one click');
  await it.opens('halt,4096');
  await it.click('#run');
  it.wants(/status 3/.test(await it.shown('.status.halted')), `a wanted halt: ${await it.shown('.status')}`);
}

// Mistakes of a first deck: the card and what is wrong with it are named, and another job has nothing to do with the core of the one before.
export async function mistakes(it) {
  const deck = cards => `?JOB T\n?ASM\nSEGMENT MAIN 2\n${cards.join('\n')}\n?END\n`;
  await it.opens('two,630');
  await it.types(deck(['ONE', 'ZERO']));
  const {core} = await it.click('#run');
  await findsFault(it);
  it.wants(core === 4096 && await it.shown('#gutter .refused') === '5' && /after card 5\. Card 5, ZERO, is the last one/.test(await it.shown('#outcome')), `no EXIT, in ${core} words: ${await it.shown('#outcome')}`);
  await it.types(deck(['ONE', 'ONE', 'AD', 'EXIT']));
  await it.click('#run');
  it.wants(await it.shown('#gutter .refused') === '6' && /^No operator is called AD\. Is it to be ADD\?/.test(await it.shown('.status.bad')), `AD for ADD: ${await it.shown('.status')}`);
}

// Names for cells: the machine gets couples, the picture has the names, and a wrong line is refused with its card.
export async function names(it) {
  const named = '?JOB A\n?ASM\nSEGMENT MAIN 2\nCELL total 2,2\nLT8 41\nVALC total\nONE\nADD\nNAMC total\nSTOD\nMKST\nNAMC 0,9\nVALC total\nENTR\nEXIT\n?END\n';
  const bare = named.replace('CELL', '; CELL').replaceAll(/(VALC|NAMC) total/g, '$1 2,2');
  await it.writes(named, 4096);
  it.wants((await it.click('#run')).ran?.text === '1.1 42\n1.1 ENDED\n', 'a deck with names runs otherwise');
  it.compares('a deck with names', await it.click('#step'), bare);
  for (let k = 0; k < 6; k++) await it.pressed('a deck with names', bare, 'ArrowRight');
  it.wants(/2,2 total/.test(await it.shown('#stacks text')), 'the picture has no name beside the couple');
  it.wants(/cell 2,2 total, in record 1/.test(await it.shown('#changed')), `what changed: ${await it.shown('#changed')}`);
  await it.writes(named.replace('VALC total', 'VALC totl'), 4096);
  await it.click('#run');
  it.wants(/^Card 6: no CELL line/.test(await it.shown('.status.bad')) && await it.shown('#gutter .refused') === '6', `a name that is none: ${await it.shown('.status')}`);
}

// A deck of one's own is there again after a reload, by its address, by Back and from the list, at the same operator.
export async function keeps(it) {
  const {browser} = it, text = '?JOB OWN\n?ASM\nSEGMENT MAIN 2\nMKST\nNAMC 0,9\nLT8 42\nENTR\nEXIT\n?END\n', holds = "document.getElementById('deck').value.includes('OWN')";
  const is = async (what, count) => {
    const state = await it.state();
    it.wants(state.text === text && state.count === count && !state.message, `${what}: ${state.count} ${told(state.text)} ${state.message}`);
    it.compares(what, state, text);
  };
  await it.writes(text, 4096);
  await it.click('#step');
  for (let k = 0; k < 3; k++) await it.pressed('own', text, 'ArrowRight');
  await it.until("location.hash.startsWith('#deck:') && location.hash.endsWith(',4096,3')");
  const address = await browser.value('location.href');
  await it.reloads();
  await is('own deck after a reload', 3);
  await it.until("location.hash.endsWith(',4096,3')");
  await it.opens('jensen,4096,13');
  await browser.value('history.back()');
  await it.until(holds);
  await is('own deck after Back', 3);
  await browser.opens('about:blank');
  await browser.opens(address);
  await it.ready();
  await is('own deck by its address', 3);
  await it.opens('two,630');
  await browser.value("{ const it = document.getElementById('pick'); it.value = [...it.options].find(option => option.text.includes('OWN')).value; it.dispatchEvent(new Event('change')); } 0");
  await it.until(holds);
  it.wants(/isn’t whole/.test((await it.opens('deck:AAAA,4096,3')).message), 'half an address: no sentence');
  it.wants(/can’t read/.test((await it.opens('two;630')).message), 'an address that is none: no sentence');
}

// Long decks: a key typed into 10,000 cards, and a file of 4 MB. Times are told; what is wanted is generous, since the machine may be busy.
export async function long_decks(it) {
  const {browser} = it, deck = cards => `?JOB LONG\n?ASM\nSEGMENT MAIN 2\n${'NOOP                ; a card of some length, as one is\n'.repeat(cards)}EXIT\n?END\n`;
  const typed = `new Promise(goes => { const it = document.getElementById('deck'), begun = performance.now(); it.setRangeText('; ', 60, 60, 'end');
    it.dispatchEvent(new InputEvent('input', {bubbles: true})); it.getBoundingClientRect(); const busy = performance.now() - begun;
    requestAnimationFrame(() => setTimeout(() => goes([busy, performance.now() - begun]))); })`;
  await it.writes(deck(10000), 4096);
  const times = [];
  for (let k = 0; k < 8; k++) times.push(await browser.value(typed));
  const [busy, drawn] = [0, 1].map(n => Math.round(times.map(pair => pair[n]).sort((a, b) => a - b)[4]));
  const opened = Math.round(await browser.value(`new Promise(async goes => { const begun = performance.now(), file = new File([${JSON.stringify(deck(1))}.replace('EXIT', 'NOOP                ; a card of some length, as one is\\n'.repeat(77000) + 'EXIT')], 'long.deck');
    const data = new DataTransfer(); data.items.add(file); const it = document.getElementById('file'); it.files = data.files; it.dispatchEvent(new Event('change'));
    while (b67.state().text.length < 4000000) await new Promise(goes => setTimeout(goes, 5));
    requestAnimationFrame(() => setTimeout(() => goes(performance.now() - begun))); })`));
  console.log(`long decks: a key in 10,000 cards ${busy} ms, drawn after ${drawn}; a file of 4 MB open after ${opened} ms`);
  const others = Math.max(1, os.loadavg()[0] / os.cpus().length); // so many share each processor
  it.wants(busy < 200 * others, `a key in 10,000 cards takes ${busy} ms`);
  it.wants(opened < 8000 * others, `a file of 4 MB is open after ${opened} ms`);
  it.wants(await it.shown('#gutter div div:first-child') === '1', 'the numbers of a long deck');
  await browser.value("{ const it = document.querySelector('#part-bar input'); it.value = 77006; it.dispatchEvent(new Event('change')); } new Promise(goes => setTimeout(goes, 200))");
  const last = await browser.value("document.getElementById('gutter').innerText.trim()");
  it.wants(/77006$/.test(last), `the last number of a long deck: ${last.slice(-20)}`);
  await browser.value("{ const it = document.querySelector('#part-bar input'); it.value = 2500; it.dispatchEvent(new KeyboardEvent('keydown', {key: 'Enter'})); } new Promise(goes => setTimeout(goes, 200))");
  const [shown, caret] = await browser.value("[document.getElementById('gutter').innerText.trim().split(/\\s+/).map(Number), document.getElementById('card-help').textContent]");
  it.wants(shown.includes(2500) && shown[0] < 2500 && /^Card 2500\./.test(caret), `the field card with 2500 shows ${shown[0]} to ${shown.at(-1)}, and the caret: ${caret}`);
  await browser.value("{ const it = document.querySelector('#part-bar input'); it.value = 77006; it.dispatchEvent(new Event('change')); } new Promise(goes => setTimeout(goes, 200))");
  await it.types(await browser.value("document.getElementById('deck').value.replace('EXIT', 'EXIT ; the end')"));
  const text = (await it.state()).text.split('\n');
  it.wants(text.length === 77007 && text[77004] === 'EXIT ; the end' && text[0] === '?JOB LONG', `a change at the end of a long deck: ${text.length} ${text[77004]}`);
}
