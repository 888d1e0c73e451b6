// ALGOL 60 in the page: Man or Boy is written, run, broken at a line, and its thunks watched; mistakes stand under their lines; the address
// holds the text.
import fs from 'node:fs';
import {told} from './tried.mjs';
import {compile} from '../../algol/compile.mjs';

const PROGRAMS = new URL('../../algol/programs/', import.meta.url);
const text = name => fs.readFileSync(new URL(`${name}.alg`, PROGRAMS), 'utf8'), lines = name => fs.readFileSync(new URL(`${name}.lines`, PROGRAMS), 'utf8');

// Written by hand, run, its cards looked at.
async function written(it) {
  await it.opens('sum,4096');
  const begun = await it.click('#new-algol');
  it.wants(/^begin integer i/.test(begun.text) && await it.shown('#tab-algol') === 'ALGOL', `New in ALGOL gives ${told(begun.text)}`);
  it.wants(await it.browser.value('document.activeElement.id') === 'deck', 'after New in ALGOL the caret isn’t in the text');
  for (const name of ['manboy', 'jensen2', 'leave']) {
    await it.types(text(name));
    const {ran} = await it.click('#run');
    it.wants(ran?.status === 0 && ran.text === lines(name), `${name}: Run gives ${ran?.status} ${told(ran?.text)}`);
  }
  await it.types(text('sum'));
  await it.click('#tab-cards');
  it.wants((await it.shown('#made')).includes('SEGMENT T1 3') && await it.shown('#deck') === '', 'the tab Cards shows no cards');
  await it.click('#tab-algol');
}

// The running line in both lists, the names, the thunk, a breakpoint on a line.
async function stepped(it) {
  const {browser} = it, source = text('sum'), {deck} = compile(source, {names: true});
  await it.types(source);
  await it.click('#step');
  await it.click('#algol li:nth-child(4)');
  const stopped = await it.pressed('sum in ALGOL', deck, 'Enter');
  it.wants(await it.shown('#algol .next') === source.split('\n')[3], `a breakpoint on line 4 leads to ${told(await it.shown('#algol .next'))} at ${stopped.count}`);
  it.wants((await it.shown('#cards .now')).includes('VALC 3,3'), `the card is ${told(await it.shown('#cards .now'))}`);
  const picture = await browser.value("document.getElementById('stacks').textContent");
  for (const name of [' term', ' k', '= A[i]', '= i']) it.wants(picture.includes(name), `the picture has no ${name}`);
  let [entered, by] = ['', ''];
  for (let k = 0; k < 20 && !entered.startsWith('thunk'); k++) { await it.pressed('sum in ALGOL', deck, 'ArrowRight'); [entered, by] = [await it.shown('#thunk'), entered]; }
  it.wants(by === 'works out term, line 4', `where the thunk is entered the page says ${told(by)}`);
  it.wants(entered === 'thunk: works out A[i], line 8', `in the thunk the page says ${told(entered)}`);
  it.wants(await it.shown('#algol .now.thunk') === source.split('\n')[7], `the thunk's line is ${told(await it.shown('#algol .now.thunk'))}`);
  const address = await browser.value("b67.idle().then(() => new Promise(goes => setTimeout(goes, 500))).then(() => location.hash)");
  it.wants(/^#deck:/.test(address) && address.length < 500, `the address is ${told(address)}`);
  await it.opens('sum,4096');
  const back = await it.opens(address.slice(1));
  it.wants(back.text === source && back.view === 'step' && await it.shown('#thunk') === entered, `the address leads to ${back.view} ${told(back.text)}`);
}

// Man or Boy, broken at a line: a procedure that a parameter by name has entered says what it works out.
async function manOrBoy(it) {
  const source = text('manboy'), {deck} = compile(source, {names: true}), line = source.split('\n').findIndex(it => it.includes('x4 + x5')) + 1;
  await it.browser.press('d');
  await it.types(source);
  await it.click('#step');
  await it.click(`#algol li:nth-child(${line})`);
  let entered = '';
  for (let turn = 0; turn < 11; turn++) await it.pressed('manboy in ALGOL', deck, 'Enter'); // k is 10, 9 and so on to 0
  for (let k = 0; k < 9 && !entered; k++) { await it.pressed('manboy in ALGOL', deck, 'ArrowRight'); entered = await it.shown('#thunk'); }
  it.wants(entered === `works out x4, line ${line}`, `when B is entered by x4 the page says ${told(entered)}`);
  it.wants((await it.browser.value("document.getElementById('stacks').textContent")).includes('= x3'), 'no parameter says what it stands for');
}

// Mistakes, as one types.
async function mistaken(it) {
  const {browser} = it;
  await browser.press('d');
  await it.types('begin integer n;\n  n := m / 2;\n  print(n)\nend\n');
  const list = await it.shown('#mistakes li'), under = await it.shown('#under .mistake');
  it.wants(/^line 2, column 8 `m` is not declared\.\|line 2, column 10 The machine has whole numbers only/.test(list), `the mistakes are ${told(list)}`);
  it.wants(under === '`m` is not declared.', `under the line stands ${told(under)}`);
  const refused = await it.click('#run');
  it.wants(/has 2 mistakes/.test(refused.shown), `Run of a program with mistakes says ${told(refused.shown)}`);
  await it.types('begin integer n;\n  n := 2 div 1;\n  print(n)\nend\n');
  it.wants(await it.shown('#mistakes li') === '' && await it.shown('#under .mistake') === '', 'a mended mistake stays');
  await it.types('begin integer n;\n  n := 0;\n  print(1 div n)\nend\n');
  await it.click('#run');
  if (await it.shown('.offer')) await it.click('.offer'); // the run took more than a second
  it.wants(await it.shown('#gutter .refused') === '3', `a fault marks line ${told(await it.shown('#gutter .refused'))}`);
  await it.types('?JOB A\n?ASM\nSEGMENT MAIN 2\nEXIT\n?END\n');
  it.wants(await it.shown('#tabs') === '', 'a deck has the tabs of a program');
}

export async function algol(it) {
  await written(it);
  await stepped(it);
  await manOrBoy(it);
  await mistaken(it);
}
