// The page under policies of a server: it runs, or says truly why not. And its form in three files, under a policy that allows no script and
// no style within a page.
import {execFileSync} from 'node:child_process';
import fs from 'node:fs';
import http from 'node:http';
import os from 'node:os';
import path from 'node:path';
import {fileURLToPath} from 'node:url';
import {told} from './tried.mjs';

const APART = fileURLToPath(new URL('../build/apart.py', import.meta.url));
const KINDS = {'.html': 'text/html', '.js': 'text/javascript', '.css': 'text/css'};
// A policy, and what the page says under it; nothing where it runs.
const POLICIES = [
  ["script-src 'unsafe-inline' 'wasm-unsafe-eval' blob:; worker-src blob:", ''],
  ["script-src 'unsafe-inline' 'wasm-unsafe-eval'; worker-src 'none'", ''],
  ["sandbox allow-scripts; script-src 'unsafe-inline' 'wasm-unsafe-eval' blob:", ''],
  ["script-src 'unsafe-inline'; worker-src 'none'", 'forbids WebAssembly'],
];
const STRICT = "default-src 'none'; script-src 'self' 'wasm-unsafe-eval'; style-src 'self'; worker-src 'self'; img-src data:";

// A server that answers by `answers`: {policy, name, bytes} of an address.
async function served(answers) {
  const server = http.createServer((asked, answer) => {
    const {policy, name, bytes} = answers(asked.url) ?? {};
    answer.writeHead(bytes ? 200 : 404, {'content-type': KINDS[path.extname(name ?? '')] ?? 'text/plain', ...(policy && {'content-security-policy': policy})}).end(bytes);
  });
  await new Promise(goes => server.listen(0, '127.0.0.1', goes));
  return {server, address: `http://127.0.0.1:${server.address().port}`};
}
function ends({server}) {
  server.closeAllConnections();
  server.close();
}

async function runsAt(it, address, policy, sentence) {
  const {browser} = it;
  await browser.opens(address);
  await it.ready();
  await browser.click('#new');
  const {ran, message} = await it.click('#run');
  it.wants(sentence ? message.includes(sentence) : ran?.text === '1.1 5\n1.1 ENDED\n' && !message, `under ${policy}: ${told(ran?.text)} ${message}`);
}

export async function policies(it) {
  const {browser} = it, bytes = fs.readFileSync(it.page), at = await served(url => ({policy: POLICIES[Number(url.slice(1))]?.[0], name: 'b67.html', bytes}));
  await browser.hears();
  const {length} = browser.errors;
  browser.strict = true;
  for (const [k, [policy, sentence]] of POLICIES.entries()) await runsAt(it, `${at.address}/${k}`, policy, sentence);
  await browser.hears();
  browser.errors.length = length; // a policy's complaints are wanted here
  browser.strict = false;
  await it.opensPage('?compare');
  ends(at);
}

// In three files: by itself, by a worker from its own file; and in a frame of a learning platform, which has no origin and so no worker.
export async function strict_server(it) {
  const {browser} = it, folder = fs.mkdtempSync(path.join(os.tmpdir(), 'b67-apart-'));
  execFileSync('python3', [APART, it.page, folder]);
  const at = await served(url => {
    const name = path.basename(url.split('?')[0]), file = path.join(folder, name);
    return fs.existsSync(file) ? {policy: url.includes('/sandbox/') ? `sandbox allow-scripts; ${STRICT}` : STRICT, name, bytes: fs.readFileSync(file)} : null;
  });
  await browser.hears();
  const {length} = browser.errors;
  browser.strict = true;
  await runsAt(it, `${at.address}/b67.html`, STRICT, '');
  it.wants(!(await browser.value('b67.under()')).desk, 'in three files no worker runs');
  it.wants(await browser.value("getComputedStyle(document.getElementById('line')).height") === '44px', 'in three files the page has no style');
  await browser.hears();
  const complaints = browser.errors.splice(length);
  it.wants(!complaints.length, `in three files: ${complaints.join(' ').slice(0, 300)}`);
  await runsAt(it, `${at.address}/sandbox/b67.html`, 'sandbox', '');
  await browser.hears();
  browser.errors.length = length; // of the worker that has no origin
  browser.strict = false;
  await it.opensPage('?compare');
  ends(at);
  fs.rmSync(folder, {recursive: true});
}
