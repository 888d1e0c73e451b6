// What the module's `find` and `step` answer, made by its commands alone, state by state from the start: for tests of what calls them.
import {Image, startOfImage} from '../src/reader/image.js';
import {nextTask} from '../src/machine/machine.js';
import {openedText} from '../src/machine/opened.js';
import {textOf} from '../src/machine/program.js';

const [NOWHERE, HALTED] = [1, 3], [SWITCH, WITHIN, DEEPEST] = [1, 2, 3];

// Of a machine, by its image, whether a kind holds of the next operator.
function holds(image, kind, numbers) {
  const task = nextTask(image), [segment, place] = image.placeOf(task), [word, syllable] = place.split(':').map(Number), at = [task.job, segment + 1, word, syllable];
  if (kind === SWITCH) return task.job !== image.lastJob || task.number !== image.lastTask;
  if (kind === WITHIN) return task.job === numbers[0] && task.number === numbers[1] && image.topOf(task)[1] - image.baseOf(task.slot) <= numbers[2];
  return numbers.some((_, k) => k % 4 === 0 && at.every((number, n) => number === numbers[k + n]));
}

// A program with `find` and `step` beside the `call` of another one.
export class StandIn {
  constructor(program) {
    Object.assign(this, {program, runs: new Map(), images: new Map(), stepped: 0});
  }

  // Carries out a command; of an image it is remembered from which run it is.
  call(words, text, how) {
    const called = this.program.call(words, text, how);
    if (words[0] !== 'image' || called.status !== HALTED) return called;
    const {status, sectors} = called, bytes = called.bytes.slice();
    this.runs.set(textOf(bytes.subarray(startOfImage(bytes))), {words, body: text.slice(text.indexOf('\n') + 1), how, printed: startOfImage(bytes)});
    return {status, bytes, sectors};
  }
  halted({words, body, how}, count) {
    return this.call(words, `?HALT ${count}\n${body}`, how);
  }

  step(image, steps) {
    const run = this.runs.get(textOf(image)), {status, bytes, sectors} = this.halted(run, new Image(image).made + steps);
    this.stepped++;
    return {status, bytes: bytes.subarray(run.printed), sectors};
  }

  // The image after so many operators, kept as long as the same run is asked; null if the run doesn't halt there.
  imageAt(run, count) {
    const name = `${count} ${run.words} ${run.body}`;
    if (!this.images.has(name)) {
      const {status, bytes} = this.halted(run, Math.max(count, 1)), image = status === HALTED ? new Image(bytes) : null;
      this.images.set(name, image && count === 0 ? new Image(openedText(image)) : image);
    }
    return this.images.get(name);
  }

  find(body, {core, kind, numbers = [], from, most, sectors}) {
    const run = {words: ['image', '--core', String(core), '--backing', 'b'], body, how: {sectors, room: 1 << 24}};
    let [found, high] = [null, 0];
    for (let count = from; count < most && (found === null || kind === DEEPEST); count++) {
      const image = this.imageAt(run, count);
      if (!image) break;
      const words = image.topOf(nextTask(image))[0] - image.baseOf(nextTask(image).slot);
      if (kind === DEEPEST ? found === null || words > high : holds(image, kind, numbers)) [found, high] = [count, words];
    }
    return found === null ? {status: NOWHERE, count: null} : {status: 0, count: found};
  }
}
