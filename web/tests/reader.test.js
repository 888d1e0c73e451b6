// node --test web/tests/*.test.js: the reader of images over images of decks/ that the native program makes. B67 names it, or it is `b67`
// on the path.
import assert from 'node:assert/strict';
import {after, test} from 'node:test';
import {setImmediate as turn} from 'node:timers/promises';
import {Native, decks} from './native.js';
import {Image} from '../src/reader/image.js';
import {dumpText} from '../src/reader/dump.js';
import {openedText} from '../src/machine/opened.js';
import {Machine, nextTask} from '../src/machine/machine.js';
import {textOf} from '../src/machine/program.js';

const native = new Native(process.env.B67 ?? 'b67');
after(() => native.close());
const COUNTS = [1, 5, 34];

function imageAt(deck, count) {
  const body = deck.text.split('\n').filter(card => !card.startsWith('?HALT')).join('\n');
  return native.call(['image', '--core', String(deck.core), '--backing', 'b'], `?HALT ${count}\n${body}`);
}

const SEVERAL_TASKS = ['dining', 'family', 'jobs', 'producer', 'quantum', 'rivals', 'status', 'switched'];

for (const deck of decks()) {
  test(`${deck.name}: the reader prints what dump prints`, async () => {
    await turn();
    for (const count of COUNTS) {
      const {status, bytes} = imageAt(deck, count);
      if (status !== 3) return;
      assert.equal(dumpText(new Image(bytes)), textOf(native.call(['dump'], bytes).bytes), `at ${count}`);
    }
  });

  test(`${deck.name}: a run from the image before the first operator prints the lines of the run`, async () => {
    await turn();
    const {status, bytes, sectors} = imageAt(deck, 1);
    if (status !== 3) return;
    const opened = openedText(new Image(bytes));
    assert.equal(dumpText(new Image(opened)), textOf(native.call(['dump'], opened).bytes));
    const resumed = native.call(['resume', '--backing', 'b'], opened, {sectors});
    const body = deck.text.split('\n').filter(card => !card.startsWith('?HALT')).join('\n');
    const run = native.call(['run', '--core', String(deck.core), '--backing', 'b'], body);
    assert.deepEqual([resumed.status, textOf(resumed.bytes)], [run.status, textOf(run.bytes)]);
  });

  if (!SEVERAL_TASKS.includes(deck.name)) continue;
  test(`${deck.name}: the task that is next by the rules makes the next operator`, async () => {
    await turn();
    let before = null;
    for (let count = 1; count <= 30; count++) {
      const {status, bytes} = imageAt(deck, count);
      if (status !== 3) return;
      const image = new Image(bytes);
      if (before) assert.equal(nextTask(before).name, `${image.lastJob}.${image.lastTask}`, `at ${count}`);
      before = image;
    }
  });
}

test('each operator of a worked deck has its card', async () => {
  await turn();
  for (const deck of decks().filter(({name}) => ['two', 'jensen', 'switched', 'levels', 'entry'].includes(name))) {
    const machine = new Machine(native, deck.text, deck.core, true);
    for (let count = 1; count <= 40; count++) {
      const {operator, status} = machine.state(count);
      assert.ok(operator.card > 0 && operator.text, `${deck.name} at ${count}: ${JSON.stringify(operator)}`);
      if (status !== undefined) break;
    }
  }
});
