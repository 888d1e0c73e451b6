// Walks through docs/statement.html in a browser: node walk.mjs BROWSER PAGE [FOLDER]. Each stop of the short ways by the key n, with a
// detour, and the crumbs over it; each name that the page shows by its link; that each name leads to what the imports of its file mean;
// the counts; the end of the ways; Back, also from a contract; words by the keyboard; names that are found; deep links. Prints what
// differs, and ends with status 1 if anything does. With FOLDER pictures are written there.
import fs from 'node:fs';
import path from 'node:path';
import {pathToFileURL} from 'node:url';
import {Browser} from '../../web/check/browser.mjs';
import {wrongNames} from './names.mjs';

const [program, page, folder] = process.argv.slice(2);
if (!program || !page || !fs.existsSync(page)) {
  console.error('usage: node walk.mjs BROWSER PAGE [FOLDER]');
  process.exit(2);
}
let same = 0, different = 0;
function expect(what, is, wanted) {
  if (JSON.stringify(is) === JSON.stringify(wanted)) same++;
  else {
    different++;
    console.log(`${what}: ${JSON.stringify(is)}, not ${JSON.stringify(wanted)}`);
  }
}
const browser = await Browser.started(program, 1366, 768);
const url = pathToFileURL(path.resolve(page)).href;
const settled = () => browser.value('new Promise(done => setTimeout(done, 60))');
try {
  await browser.opens(url);
  const data = JSON.parse(await browser.value("document.getElementById('data').textContent"));
  const shown = () => browser.value("shown === null ? null : definitions[shown][0]");
  const counted = () => browser.value("document.getElementById('count').innerText");
  expect('names that lead to something else than their file means', wrongNames(data), []);
  expect('lines before anything is opened', (await counted()).startsWith('0 lines opened'), true);
  // the short way and the premises, by one key; a detour skips no stop, and one that it opened isn't opened again
  const short = data.way.filter(stop => !stop[4]), second = data.way.filter(stop => stop[4] === 2);
  const detour = data.way.filter(stop => stop[4] === 1).at(-1), met = short[5];
  const order = [...short.slice(0, 5), ...short.slice(6), ...second];
  const names = [];
  const overs = new Map(data.way.map(stop => [stop[1], stop[3]])), contracts = data.contracts.map(one => one[0]);
  const wayTo = one => (contracts.includes(one) ? [] : [...wayTo(overs.get(one)), data.definitions[overs.get(one)][0]]);
  const crumbs = () => browser.value("pathTo(shown).map(one => definitions[one][0])");
  let lines = 0;
  for (const stop of order) {
    await browser.press('n');
    await settled();
    names.push(await shown());
    if (stop === order[1]) for (const other of [detour, met]) {
      await browser.value(`go(${other[1]})`);
      await settled();
      names.push(await shown());
      if (other === met) lines += data.definitions[other[1]][3];
    }
    if (!stop[4]) lines += data.definitions[stop[1]][3];
    const seen = short.filter(one => names.includes(data.definitions[one[1]][0])).length;
    const said = await counted();
    expect(`stop ${names.length}`, await shown(), data.definitions[(stop === order[1] ? met : stop)[1]][0]);
    if (stop !== order[1]) expect(`crumbs at stop ${names.length}`, await crumbs(), wayTo(stop[1]));
    expect(`lines at stop ${names.length}`, said.includes(`${seen} of ${short.length} names, ${lines} of ${data.wayLines - data.contractLines} lines`), true);
  }
  expect('the stops', names, [...order.slice(0, 2), detour, met, ...order.slice(2)].map(stop => data.definitions[stop[1]][0]));
  expect('lines on the short way', lines, data.wayLines - data.contractLines);
  // each stop of the short way names the next one that it can: no crumb leads over what only lies between, where another would do
  for (const stop of short) {
    const before = data.way.slice(0, data.way.indexOf(stop)).filter(one => !one[4] && data.definitions[one[1]][5].some(line => typeof line !== 'string' && line.some(part => part[1] === stop[1])));
    if (before.length) expect(`what names ${data.definitions[stop[1]][0]}`, stop[3], before.at(-1)[1]);
  }
  const ended = () => browser.value("[document.getElementById('next').disabled, document.querySelector('.acts .main').innerText, document.querySelector('.acts .main').disabled]");
  expect('the end of the ways', await ended(), [true, 'Both short ways are done', true]);
  // Back leads to what was open before, and at last to the beginning
  for (const name of [...names.slice(0, -1).reverse(), null]) {
    await browser.press('b');
    await settled();
    expect('Back', await shown(), name);
    if (name) expect(`the end of the ways, at ${name}`, await ended(), [true, 'Both short ways are done', true]);
  }
  // from a contract that a crumb names Back leads to what was open
  await browser.value(`go(${short[1][1]})`);
  await settled();
  await browser.value("document.querySelector('.path a[data-root]').click()");
  await settled();
  expect('a contract by its crumb', [await shown(), await browser.value("document.getElementById('back').disabled")], [null, false]);
  await browser.press('b');
  await settled();
  expect('Back from a contract', await shown(), data.definitions[short[1][1]][0]);
  await browser.press('b');
  await settled();
  // the crumb is the definition in which a name was clicked, or found
  for (const [inside, found] of [['answers', 'result'], ['after_from', 'next'], ['lines_from', 'next']]) {
    await browser.value(`go(place.get('${inside}'))`);
    await settled();
    if (found === 'result') await browser.value(`document.getElementById('search').value = 'result', drawFound(), take(hits.findIndex(hit => hit.name === 'result' && hit.word === undefined))`);
    else await browser.value(`[...document.querySelectorAll('#side .code a')].find(one => one.textContent === '${found}').click()`);
    await settled();
    expect(`the crumb of ${found}`, [await shown(), (await crumbs()).at(-1)], [found, inside]);
  }
  await browser.press('b');
  await browser.press('b');
  await settled();
  expect('Back, and the crumb of then', [await shown(), (await crumbs()).at(-1)], ['next', 'after_from']);
  await browser.value("beginAgain()");
  // typing in Find scrolls nothing
  await browser.value('scrollTo(0, 700)');
  await browser.press('/');
  for (const letter of 'isone') await browser.press(letter);
  await settled();
  expect('the place while a name is typed', await browser.value('scrollY'), 700);
  await browser.press('Escape');
  await browser.value('scrollTo(0, 0)');
  // the table of statuses, from the first screen
  await browser.value("document.querySelector('[data-part=statuses]').click()");
  expect('the statuses', await browser.value("[...document.querySelectorAll('#statuses[open] td:first-child')].map(one => Number(one.textContent))"), data.statuses.map(one => one[0]));
  // a word that is built in, by the keyboard alone
  await browser.press('n');
  await settled();
  await browser.value("document.querySelector('#side .word').focus()");
  await browser.press('Enter');
  expect('a word by the keyboard', await browser.value("document.querySelectorAll('#side .code .meaning').length"), 1);
  await browser.press('Escape');
  expect('Escape closes it', await browser.value("document.querySelectorAll('.meaning').length"), 0);
  // each definition by its link: it stands open, with its file and its lines, and each link of it has a place
  const wrong = await browser.value(`(async () => {
    const wrong = [];
    for (const [number, one] of definitions.entries()) {
      if (roots.includes(number)) continue;
      open(number);
      const side = document.getElementById('side');
      const text = [...document.querySelectorAll('#open ~ .code')][0];
      const lines = [...text.children].map(line => line.textContent.replace(/\\s+/g, ' ').trim()).join('\\n');
      const wanted = one[TEXT].map(line => textOf(line).replace(/\\s+/g, ' ').trim()).join('\\n');
      if (shown !== number || lines !== wanted || !side.innerText.includes(one[FILE] + ', line ' + one[LINE])) wrong.push(one[NAME]);
      for (const link of text.querySelectorAll('a')) if (!place.has(decodeURIComponent(link.hash.slice(1)))) wrong.push(one[NAME] + ': ' + link.textContent);
      for (const word of text.querySelectorAll('[data-word]')) if (!data.words[word.dataset.word][1]) wrong.push(one[NAME] + ': ' + word.textContent);
      if (!roots.includes(pathTo(number)[0])) wrong.push(one[NAME] + ': no way back to a contract');
    }
    return wrong;
  })()`);
  expect('definitions by their links', wrong, []);
  expect('all lines', (await counted()).includes(`${(data.mainLines - data.contractLines).toLocaleString('en-US')} lines opened`), true);
  // a name that is found, by its beginning, or as it is written: what the theorem rests on comes first
  for (const [typed, found] of [['samel', 'SameLines'], ['print', 'print'], ['PRINT', 'PRINT'], ['row', 'row@Rows'], ['lines', 'lines']]) {
    await browser.press('/');
    for (const letter of typed) await browser.press(letter);
    await browser.press('Enter');
    await settled();
    expect(`the first name for ${typed}`, await shown(), found);
  }
  await browser.opens(url + '#Took');
  await settled();
  expect('a deep link', await shown(), 'Took');
  // nothing is wider than the window, wide or narrow
  for (const [width, height] of [[1366, 768], [1024, 768], [390, 844]]) {
    await browser.size(width, height);
    for (const name of ['StopsAfter', 'Backing', 'SameLines']) {
      await browser.opens(`${url}#${name}`);
      await settled();
      expect(`${name} at ${width}: what is wider than the window`, await browser.value('Math.max(0, document.documentElement.scrollWidth - innerWidth)'), 0);
      if (folder) for (const dark of [false, true]) {
        await browser.dark(dark);
        await settled();
        await browser.picture(path.join(folder, `${name}-${width}${dark ? '-dark' : ''}.png`));
      }
    }
  }
  await browser.hears();
  expect('complaints of the console', browser.errors, []);
} finally {
  await browser.ends();
}
console.log(`${same} the same, ${different} different`);
process.exit(different ? 1 : 0);
