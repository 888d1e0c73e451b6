// The page's side of the worker: questions and answers, progress, and Stop, which ends the worker and starts it anew. Where a policy allows
// no worker, the same work is done in the page, which then can't answer while it computes.
import {Desk} from './worker.js';

export const STOPPED = 'stopped'; // the reason that Stop gives to what was asked

export class Client {
  // `script` is the page's own script, within it or a file beside it, `bytes` the module; `hear` gets what the worker tells unasked, `busy`
  // whether it works.
  constructor(script, bytes, {compares, hear, busy}) {
    Object.assign(this, {bytes, compares, hear, busy, asked: new Map(), number: 0});
    this.address = script.src || URL.createObjectURL(new Blob([script.textContent], {type: 'text/javascript'}));
  }

  // Starts a worker, or a desk in the page where no worker has ever started; fails where the browser can't run the module. A start that
  // is stopped gives way to the next one.
  async start() {
    if (!this.desk) {
      const problem = await this.startWorker().then(() => null, it => it);
      this.works ||= !problem;
      if (!problem || problem.message === STOPPED) return;
      if (this.works) throw problem;
      this.worker?.terminate();
      this.worker = null;
    }
    this.desk = new Desk(message => this.takes(message));
    await this.ask('start', {bytes: this.bytes, compares: this.compares});
  }
  async startWorker() {
    this.worker = new Worker(this.address);
    this.worker.onmessage = ({data}) => this.takes(data);
    this.worker.onerror = event => this.failAll(event.message ?? 'the worker has failed');
    return this.ask('start', {bytes: this.bytes, compares: this.compares});
  }

  ask(ask, data) {
    const id = ++this.number;
    this.busy(this.asked.size + 1);
    return new Promise((resolve, reject) => {
      this.asked.set(id, {resolve, reject, begun: performance.now()});
      if (this.desk) setTimeout(() => this.desk.answers(id, ask, data).then(message => this.answered(message)), 15);
      else this.worker.postMessage({id, ask, data});
    });
  }

  // An answer, what the worker tells unasked, or how far it has come with a question.
  takes(data) {
    if (data.id) this.answered(data);
    else if (!('far' in data)) this.hear(data);
    else if (this.asked.has(data.of)) this.asked.get(data.of).far = data.far;
  }
  // How far the question has come that is being answered, the oldest one; null if that isn't told.
  get far() {
    return this.asked.values().next().value?.far ?? null;
  }

  answered({id, result, problem}) {
    const {resolve, reject} = this.asked.get(id) ?? {};
    if (!resolve) return; // stopped by then
    this.asked.delete(id);
    this.busy(this.asked.size);
    if (problem === undefined) resolve(result);
    else reject(new Error(problem));
  }

  failAll(reason) {
    for (const {reject, begun, far = null} of this.asked.values()) reject(Object.assign(new Error(reason), {far, seconds: Math.floor((performance.now() - begun) / 1000)}));
    this.asked.clear();
    this.busy(0);
  }

  // Ends what is computed, at once.
  stop() {
    this.worker?.terminate();
    this.failAll(STOPPED);
    return this.start();
  }
}
