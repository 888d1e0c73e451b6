// The page in a browser without a window: node page.mjs BROWSER PAGE PROGRAM DECKS [FOLDER], called by tools/check-page.sh. BROWSER is
// Chromium's program, Firefox's, or WebKit's MiniBrowser.
//
// Tries the parts that decks.mjs, inputs.mjs, course.mjs and algol.mjs have, or those that TRIES names. With FOLDER it also writes pictures there.
// Prints each difference, each complaint of the console, and at last `N the same, M different`.
import fs from 'node:fs';
import path from 'node:path';
import {algol} from './algol.mjs';
import {course, sheets} from './course.mjs';
import {aloud, each_deck, follows, pinned, signs, two_cores} from './decks.mjs';
import {bad_input, faults, keeps, long_decks, mistakes, names} from './inputs.mjs';
import {policies, strict_server} from './policies.mjs';
import {Tried} from './tried.mjs';

const [program, page, native, decks, pictures] = process.argv.slice(2);
const SIZES = [[1024, 768], [1366, 768], [1900, 1000], [390, 844]];
const PICTURED = ['sum,4096', 'lesson:4', 'task:3.2', 'two,630,20,4096', 'jensen,4096,60', 'dining,3258,120'];

async function takes_pictures(it) {
  fs.mkdirSync(pictures, {recursive: true});
  for (const [width, height] of SIZES) for (const dark of [false, true]) {
    await it.browser.size(width, height);
    await it.browser.dark(dark);
    for (const hash of PICTURED) {
      await it.opens(hash);
      await it.browser.picture(path.join(pictures, `${hash.replaceAll(/[,:.]/g, '-')}-${width}${dark ? '-dark' : ''}.png`));
    }
  }
}

// In the dark: the page's own colours, and each text has at least five times the light of what is behind it.
async function in_the_dark(it) {
  const told = `(() => { const of = (selector, name) => getComputedStyle(document.querySelector(selector))[name].match(/\\d+/g).slice(0, 3).map(Number), light = rgb => rgb.map(it => (it / 255) ** 2.2).reduce((sum, it, k) => sum + it * [0.21, 0.72, 0.07][k], 0.05);
    return {dark: matchMedia('(prefers-color-scheme:dark)').matches, back: light(of('body', 'backgroundColor')), ratios: [['body', 'body'], ['#deck', '#deck'], ['#gutter', '#gutter'], ['.status', '.status'], ['#run', '#run'], ['#core', '#core']]
      .map(([text, behind]) => [text, Math.round(light(of(text, 'color')) / light(of(behind, 'backgroundColor')))])}; })()`;
  await it.browser.dark(true);
  await it.opens('two,630');
  await it.click('#run');
  const {dark, back, ratios} = await it.browser.value(told);
  it.wants(dark && back < 0.07, `dark is ${dark}, and the light behind the page ${back}`);
  for (const [name, ratio] of ratios) it.wants(ratio >= 5, `in the dark ${name} has only ${ratio} times the light of what is behind it`);
  await it.browser.dark(false);
}

async function without_wasm(it) {
  await it.starts({script: 'WebAssembly.validate = () => false; WebAssembly.compile = () => Promise.reject(new WebAssembly.CompileError("no"));'});
  it.wants((await it.state()).message, 'a browser that can’t run the module: no sentence');
  await it.ends();
}

async function tries_all(it) {
  const parts = {each_deck, two_cores, follows, signs, pinned, aloud, bad_input, faults, mistakes, names, keeps, long_decks, course, sheets, algol, policies, strict_server, ...(pictures ? {takes_pictures} : {})};
  const named = process.env.TRIES?.split(',');
  await it.starts();
  for (const [name, part] of Object.entries(parts)) if (!named || named.includes(name)) await part(it);
  await it.ends();
  if (it.isChromium) await without_wasm(it);
  if (named && !named.includes('in_the_dark')) return;
  await it.starts({dark: true});
  await in_the_dark(it);
  await it.ends();
}

const it = new Tried({program, page, native, decks});
try {
  await tries_all(it);
} catch (error) {
  it.wants(false, String(error.stack));
  await it.browser?.ends().catch(() => {});
}
console.log(`${it.same} the same, ${it.different} different`);
process.exitCode = it.different ? 1 : 0;
