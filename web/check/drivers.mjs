// What carries WebDriver's commands to a browser: chromedriver and WebKitWebDriver by HTTP, and Firefox's Marionette by a socket. Debian has
// no geckodriver, so Marionette, under which geckodriver would work, is spoken to itself: a message is JSON after its length.
import {spawn} from 'node:child_process';
import fs from 'node:fs';
import net from 'node:net';
import os from 'node:os';
import path from 'node:path';

// Of each command that is used: its method and address by HTTP.
const COMMANDS = {SetTimeouts: ['POST', 'timeouts'], Navigate: ['POST', 'url'], Refresh: ['POST', 'refresh'], ExecuteAsyncScript: ['POST', 'execute/async'],
  PerformActions: ['POST', 'actions'], TakeScreenshot: ['GET', 'screenshot'], SetWindowRect: ['POST', 'window/rect']};
const FLAGS = ['--headless=new', '--disable-gpu', '--disable-dev-shm-usage', '--no-first-run', '--disable-extensions', '--disable-background-networking', '--hide-scrollbars'];

function roomFor(name) {
  return fs.mkdtempSync(path.join(os.tmpdir(), `b67-${name}-`));
}

// Waits for a child's end, then makes it end, and removes its room.
async function ended(child, room) {
  await Promise.race([new Promise(goes => (child.exitCode === null ? child.once('exit', goes) : goes())), new Promise(goes => setTimeout(goes, 8000))]);
  child.kill('SIGKILL');
  for (let k = 0; k < 20 && fs.existsSync(room); k++) { // its children may still write there
    await new Promise(goes => setTimeout(goes, 100));
    try {
      fs.rmSync(room, {recursive: true, force: true});
    } catch {}
  }
}

// A driver that hears commands by HTTP.
class ByHttp {
  async asks(method, name, data) {
    const answer = await fetch(name ? `${this.address}/${name}` : this.address, {method, ...(data && {body: JSON.stringify(data)})}), {value} = await answer.json();
    if (!answer.ok) throw new Error(value.message);
    return value;
  }
  call(command, data = {}) {
    const [method, name] = COMMANDS[command];
    return this.asks(method, name, method === 'POST' ? data : undefined);
  }
  async ends() {
    await this.asks('DELETE', '').catch(() => {});
    this.child.kill();
    await ended(this.child, this.room);
  }
}

export class Chromedriver extends ByHttp {
  static async started(program) {
    const it = new Chromedriver(), alone = process.getuid?.() === 0 ? ['--no-sandbox'] : []; // root has no sandbox
    it.room = roomFor('chromium');
    it.child = spawn(process.env.CHROMEDRIVER ?? 'chromedriver', ['--port=0'], {stdio: ['ignore', 'pipe', 'ignore'], env: {...process.env, TMPDIR: it.room}});
    it.address = `http://127.0.0.1:${await it.port()}/session`;
    const options = {binary: program, args: [...FLAGS, ...alone, `--user-data-dir=${it.room}/profile`]};
    const wanted = {browserName: 'chrome', 'goog:chromeOptions': options, 'goog:loggingPrefs': {browser: 'ALL'}};
    const {sessionId} = await it.asks('POST', '', {capabilities: {alwaysMatch: wanted}});
    it.address += `/${sessionId}`;
    return it;
  }
  port() {
    return new Promise((goes, fails) => {
      let said = '';
      this.child.stdout.setEncoding('utf8').on('data', text => { const found = /successfully on port (\d+)/.exec(said += text); if (found) goes(found[1]); });
      this.child.once('error', () => fails(new Error('chromedriver isn’t there (Debian: chromium-driver)')));
      this.child.once('exit', () => fails(new Error(`chromedriver has ended: ${said}`)));
    });
  }
  devtools(cmd, params) {
    return this.asks('POST', 'goog/cdp/execute', {cmd, params});
  }
  log() {
    return this.asks('POST', 'se/log', {type: 'browser'});
  }
}

// A port that nobody uses.
function freePort() {
  return new Promise(goes => {
    const server = net.createServer().listen(0, '127.0.0.1', () => {
      const {port} = server.address();
      server.close(() => goes(port));
    });
  });
}

async function connected(port) {
  for (let k = 0; k < 300; k++) {
    const socket = net.connect(port, '127.0.0.1');
    if (await new Promise(goes => socket.once('connect', () => goes(true)).once('error', () => goes(false)))) return socket;
    await new Promise(goes => setTimeout(goes, 200));
  }
  throw new Error('the browser doesn’t answer');
}

// A display for a browser that has no headless form, where the machine has none: {DISPLAY}, and Xvfb's process, or nothing.
async function displayOf(room) {
  if (process.env.DISPLAY || process.env.WAYLAND_DISPLAY) return {};
  const child = spawn('Xvfb', ['-displayfd', '3', '-screen', '0', '2000x1200x24', '-nolisten', 'tcp'], {stdio: ['ignore', 'ignore', 'ignore', 'pipe'], cwd: room});
  const number = await new Promise((goes, fails) => {
    child.stdio[3].setEncoding('utf8').once('data', goes);
    child.once('error', () => fails(new Error('Xvfb isn’t there (Debian: xvfb)'))).once('exit', () => fails(new Error('Xvfb has ended')));
  });
  return {child, env: {DISPLAY: `:${number.trim()}`}};
}

// WebKit, Safari's engine, in the small browser that WebKitGTK brings with it.
export class WebKit extends ByHttp {
  static async started(program, dark) {
    const it = new WebKit(), port = await freePort(), desktop = dark ? {GTK_THEME: 'Adwaita:dark'} : {};
    it.room = roomFor('webkit');
    it.display = await displayOf(it.room);
    it.child = spawn('WebKitWebDriver', [`--port=${port}`], {stdio: 'ignore', env: {...process.env, ...it.display.env, ...desktop, HOME: it.room, XDG_DATA_HOME: it.room, XDG_CACHE_HOME: it.room}});
    it.address = `http://127.0.0.1:${port}/session`;
    (await connected(port)).destroy();
    const {sessionId} = await it.asks('POST', '', {capabilities: {alwaysMatch: {'webkitgtk:browserOptions': {binary: program, args: ['--automation']}}}});
    it.address += `/${sessionId}`;
    return it;
  }
  async ends() {
    await super.ends();
    this.display.child?.kill();
  }
}

export class Marionette {
  static async started(program) {
    const it = new Marionette(), port = await freePort();
    Object.assign(it, {room: roomFor('firefox'), waiting: new Map(), calls: 0, rest: Buffer.alloc(0)});
    const settings = {'marionette.port': port, 'app.update.enabled': false, 'browser.download.folderList': 2, 'browser.download.dir': it.room,
      'browser.download.alwaysOpenPanel': false}; // the panel of a file that was saved would take the key Enter
    fs.writeFileSync(path.join(it.room, 'user.js'), Object.entries(settings).map(([name, value]) => `user_pref('${name}', ${JSON.stringify(value)});\n`).join(''));
    it.child = spawn(program, ['--headless', '--marionette', '--remote-allow-system-access', '--profile', it.room, '--no-remote'], {stdio: 'ignore', env: {...process.env, HOME: it.room}});
    it.socket = await connected(port);
    it.socket.on('data', bytes => it.hears(bytes));
    await it.call('NewSession');
    return it;
  }

  hears(bytes) {
    this.rest = Buffer.concat([this.rest, bytes]);
    for (let colon = this.rest.indexOf(58); colon > 0; colon = this.rest.indexOf(58)) {
      const end = colon + 1 + Number(this.rest.subarray(0, colon));
      if (this.rest.length < end) return;
      const message = JSON.parse(this.rest.subarray(colon + 1, end));
      this.rest = this.rest.subarray(end);
      if (Array.isArray(message)) this.takes(message);
    }
  }
  takes([, id, error, result]) {
    const [answers, fails] = this.waiting.get(id);
    this.waiting.delete(id);
    if (error) fails(new Error(error.message));
    else answers(result && 'value' in result ? result.value : result);
  }

  call(command, data = {}, family = 'WebDriver') {
    const id = ++this.calls, text = JSON.stringify([0, id, `${family}:${command}`, data]);
    this.socket.write(`${Buffer.byteLength(text)}:${text}`);
    return new Promise((answers, fails) => this.waiting.set(id, [answers, fails]));
  }

  // Sets one of Firefox's own settings.
  async setting(name, value) {
    await this.call('SetContext', {value: 'chrome'}, 'Marionette');
    await this.call('ExecuteScript', {script: `Services.prefs.setIntPref('${name}', ${value})`, args: []});
    await this.call('SetContext', {value: 'content'}, 'Marionette');
  }
  async ends() {
    this.call('Quit', {flags: ['eForceQuit']}, 'Marionette').catch(() => {});
    await ended(this.child, this.room);
  }
}
