// A browser without a window, by the commands of WebDriver (W3C): Chromium by its own chromedriver, WebKit by WebKitWebDriver, Firefox by
// Marionette, which has the same commands over a socket. drivers.mjs carries them; what Chromium alone can (a script before a page's own,
// a size of a phone, the eyes of another) goes by its DevTools.
import fs from 'node:fs';
import path from 'node:path';
import {Chromedriver, Marionette, WebKit} from './drivers.mjs';

const KEYS = {Enter: '\uE007', Backspace: '\uE003', Tab: '\uE004', Escape: '\uE00C', PageUp: '\uE00E', PageDown: '\uE00F', End: '\uE010', Home: '\uE011',
  ArrowLeft: '\uE012', ArrowUp: '\uE013', ArrowRight: '\uE014', ArrowDown: '\uE015'};
const SHIFT = '\uE008';
// Firefox and WebKit have no log of their console for a driver: what a page complains of is gathered in it.
const WATCHES = `(() => { window.complaints = [];
  for (const kind of ['error', 'unhandledrejection']) addEventListener(kind, it => complaints.push(String(it.message ?? it.reason)));
  console.error = (...words) => complaints.push(words.join(' ')); })()`;

// Which browser a program is.
export function kindOf(program) {
  const name = path.basename(program);
  return name.startsWith('firefox') ? 'firefox' : name === 'MiniBrowser' ? 'webkit' : 'chromium';
}

export class Browser {
  // Starts a browser, by its program, and opens an empty page of this size. `errors` has what pages have complained of so far.
  // `dark`: on a dark desktop, of WebKit.
  static async started(program, {width = 1400, height = 900, dark} = {}) {
    const it = new Browser(), kind = kindOf(program);
    Object.assign(it, {kind, gathers: kind !== 'chromium', strict: false, errors: [], driver: await {firefox: Marionette, webkit: WebKit, chromium: Chromedriver}[kind].started(program, dark)});
    await it.driver.call('SetTimeouts', {script: 300000});
    await it.opens('about:blank');
    await it.size(width, height);
    return it;
  }

  async opens(url) {
    await this.hears();
    await this.driver.call('Navigate', {url});
    if (this.gathers) await this.value(WATCHES);
  }
  async reloads() {
    await this.hears();
    await this.driver.call('Refresh');
    if (this.gathers) await this.value(WATCHES);
  }

  // Lets a script run before those of each page.
  before(source) {
    return this.driver.devtools('Page.addScriptToEvaluateOnNewDocument', {source});
  }

  // Takes in what the page has complained of. A complaint of the net counts if the page itself has asked for that address: a new Chromium
  // complains of what it asks for by itself.
  async hears() {
    if (this.gathers) return void this.errors.push(...await this.value('(window.complaints ?? []).splice(0)').catch(() => []));
    const asked = await this.value("[location.href, ...performance.getEntriesByType('resource').map(it => it.name)]").catch(() => []);
    for (const {level, source, message} of await this.driver.log()) {
      if (level === 'SEVERE' && (source !== 'network' || asked.includes(message.split(' ')[0]))) this.errors.push(message);
    }
  }

  // The value of an expression in the page, waited for if it is a promise. `strict`: the page's policy forbids `eval`.
  async value(expression) {
    const script = `const done = arguments[1], [text] = arguments;
      Promise.resolve().then(() => ${this.strict ? `(${expression})` : '(0, window.eval)(text)'}).then(value => done({value}), error => done({error: String(error)}));`;
    const {value, error} = await this.driver.call('ExecuteAsyncScript', {script, args: [this.strict ? '' : expression]});
    if (error) throw new Error(`${expression.slice(0, 80)}: ${error}`);
    return value;
  }

  // Waits until an expression in the page is true.
  async until(expression, seconds = 120) {
    const end = Date.now() + 1000 * seconds;
    while (!(await this.value(`!!(${expression})`))) {
      if (Date.now() > end) throw new Error(`not within ${seconds} seconds: ${expression}`);
      await new Promise(goes => setTimeout(goes, 20));
    }
  }

  // The size of the page. Of Firefox and WebKit the window is set, as large as its page and what is around it.
  async size(width, height) {
    if (!this.gathers) return this.driver.devtools('Emulation.setDeviceMetricsOverride', {width, height, deviceScaleFactor: 1, mobile: false});
    await this.driver.call('SetWindowRect', {width, height});
    const [inner, high] = await this.value('[innerWidth, innerHeight]');
    return this.driver.call('SetWindowRect', {width: 2 * width - inner, height: 2 * height - high});
  }
  dark(is_dark) {
    if (this.kind === 'webkit') return; // it follows its desktop: Browser.started
    if (this.kind === 'firefox') return this.driver.setting('layout.css.prefers-color-scheme.content-override', is_dark ? 0 : 1);
    return this.driver.devtools('Emulation.setEmulatedMedia', {features: [{name: 'prefers-color-scheme', value: is_dark ? 'dark' : 'light'}]});
  }
  // How the page looks to other eyes: `deuteranopia`, `protanopia`, `achromatopsia`, `none`.
  eyes(type) {
    return this.driver.devtools('Emulation.setEmulatedVisionDeficiency', {type});
  }

  acts(id, type, actions) {
    return this.driver.call('PerformActions', {actions: [{id, type, actions, ...(type === 'pointer' && {parameters: {pointerType: 'mouse'}})}]});
  }
  // A key as a hand presses it.
  press(key, shift = false) {
    const value = KEYS[key] ?? (shift ? key.toUpperCase() : key), held = shift ? [{type: 'keyDown', value: SHIFT}] : [];
    return this.acts('keys', 'key', [...held, {type: 'keyDown', value}, {type: 'keyUp', value}, ...held.map(() => ({type: 'keyUp', value: SHIFT}))]);
  }
  // A click on the middle of an element, once it stands still: it hasn't moved between two pictures.
  async click(selector) {
    const [x, y] = await this.value(`(async () => { let before = '';
      for (let k = 0; k < 100; k++) {
        const it = document.querySelector(${JSON.stringify(selector)});
        it.scrollIntoView({block: 'nearest'});
        const r = it.getBoundingClientRect(), at = [Math.round(r.x + r.width / 2), Math.round(r.y + r.height / 2)];
        if (at.join() === before) return at;
        before = at.join();
        await Promise.race([new Promise(requestAnimationFrame), new Promise(goes => setTimeout(goes, 200))]);
      }
      throw new Error('it never stands still'); })()`);
    return this.acts('mouse', 'pointer', [{type: 'pointerMove', x, y, duration: 0, origin: 'viewport'}, {type: 'pointerDown', button: 0}, {type: 'pointerUp', button: 0}]);
  }

  async picture(file) {
    fs.writeFileSync(file, Buffer.from(await this.driver.call('TakeScreenshot', {full: false}), 'base64'));
  }

  async ends() {
    await this.hears();
    await this.driver.ends();
  }
}
