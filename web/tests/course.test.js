// The course: its tasks can be done, its texts in ALGOL fit their decks, and questions are marked by states. B67 names the native program.
import assert from 'node:assert/strict';
import {after, test} from 'node:test';
import {setImmediate as turn} from 'node:timers/promises';
import {Native, decks} from './native.js';
import {FOUND, LEAST_OF_TEN, PREDICTED, WRITTEN} from './answers.js';
import {Desk} from '../src/page/worker.js';
import {placeOf} from '../src/page/address.js';
import {ALGOL_DECKS, algolOf} from '../src/course/algol.js';
import {COURSE, TASKS} from '../src/course/course.js';
import {START} from '../src/page/decks.js';
import {deckOfTask, isFound, isWritten, Progress, whyNot} from '../src/course/progress.js';
import {findsMistake} from '../src/course/handin.js';
import {coreFor, deckOf, translationOf} from '../src/algol/translation.js';
import {isRight, questionOf} from '../src/course/predict.js';
import {runWords, textOf} from '../src/machine/program.js';

const native = new Native(process.env.B67 ?? 'b67');
after(() => native.close());
const texts = new Map([START, ...decks()].map(deck => [deck.name, deck.text]));

function deskOf() {
  const desk = new Desk(() => {});
  desk.program = native;
  return desk;
}
function stateAt(desk, address, count) {
  const {deck, core} = placeOf(`#${address}`);
  return desk.state({deck: texts.get(deck), core, count});
}

test('each task has a name of its lesson, and a deck of the page', () => {
  assert.equal(new Set(TASKS.map(task => task.id)).size, TASKS.length);
  for (const lesson of COURSE) for (const task of lesson.tasks) assert.ok(task.id.startsWith(`${lesson.id}.`));
  for (const task of TASKS) if (task.at) assert.ok(texts.has(deckOfTask(task)) && placeOf(`#${task.at}`), task.id);
});

for (const task of TASKS.filter(it => it.kind === 'find' && FOUND[it.id])) {
  test(`find ${task.id}: ${task.text}`, async () => {
    await turn();
    const desk = deskOf(), {deck, core} = placeOf(`#${task.at}`), text = texts.get(deck), [right, wrong] = FOUND[task.id];
    const holds = count => isFound(task, {name: deck, text}, desk.state({deck: text, core, count})) && (!task.first || desk.isFirst({deck: text, core, id: task.id, count}));
    assert.deepEqual([holds(right), holds(wrong)], [true, false]);
    assert.equal(isFound(task, {name: 'sum', text}, desk.state({deck: text, core, count: right})), false);
  });
}

test('find 5.3: the end of two in a core with room for both arrays', () => {
  const desk = deskOf(), task = TASKS.find(it => it.id === '5.3'), text = texts.get('two');
  assert.deepEqual([4096, 630].map(core => task.holds(desk.state({deck: text, core, count: 100}))), [true, false]);
});

for (const task of TASKS.filter(it => it.kind === 'predict')) {
  test(`predict ${task.id}: ${task.text}`, async () => {
    await turn();
    const desk = deskOf(), {count} = placeOf(`#${task.at}`), question = questionOf(stateAt(desk, task.at, count), stateAt(desk, task.at, count + 1));
    assert.ok(question?.right.length, task.id);
    for (const answer of question.right) {
      assert.ok(isRight(question, ` ${answer} `));
      if (question.choices) assert.ok(question.choices.includes(answer));
    }
    if (question.choices) assert.ok(question.choices.some(it => !isRight(question, it)), 'a question with right answers only');
    assert.deepEqual(PREDICTED[task.id].map(answer => isRight(question, answer)), [true, false]);
    if (question.choices) for (const answer of PREDICTED[task.id]) assert.ok(question.choices.includes(answer), answer);
  });
}

test('a question says why its answer is right', async () => {
  await turn();
  const desk = deskOf(), why = at => questionOf(...[0, 1].map(more => stateAt(desk, at, placeOf(`#${at}`).count + more))).why;
  assert.equal(why('start,4096,4'), 'ADD adds the two numbers on top: it takes 2 and 3');
  assert.match(why('factorial,4096,23'), /declared in that record/);
  assert.match(why('two,630,22'), /machine’s choice/);
});

test('why a task is the next one', async () => {
  await turn();
  const desk = deskOf(), why = (deck, core, count) => questionOf(...[count, count + 1].map(at => desk.state({deck, core, count: at})), deck)?.why;
  assert.equal(why(texts.get('switched'), 685, 7), 'the card ?SWITCH 7 1.2 hands over to it when 7 operators are made');
  assert.equal(why(texts.get('quantum'), 1708, 25), 'task 1.1 awaits the end of task 1.2, and 1.2 is the next one that is ready');
  assert.equal(why(texts.get('quantum'), 1708, 35), 'task 1.2 has had its turn, and 1.3 is the next one that is ready');
});

for (const task of TASKS.filter(it => it.kind === 'write' && !it.resumed)) {
  test(`write ${task.id}: ${task.text}`, async () => {
    await turn();
    const desk = deskOf(), ask = async (name, data) => desk[name](data), done = WRITTEN[task.id].map(async (text, k) => {
      const core = task.leastCore ? LEAST_OF_TEN + k : 4096, words = task.refused ? ['check'] : runWords(core), {status, bytes} = native.call(words, text);
      const is = isWritten(task, {words, text, status, printed: textOf(bytes), core, least: task.leastCore ? desk.coreFor({deck: text, core: 256}) : null});
      return is && (!task.mistake || await findsMistake(ask, task, {text, core}, textOf(bytes)));
    });
    assert.deepEqual(await Promise.all(done), [true, false]);
  });
}

test('why a run hasn’t done a task', () => {
  const lines = ['1.1 2', '1.1 ENDED'], task = {lines, has: ['?SWITCH'], lacks: ['LT8 2']};
  for (const [printed, text, why] of [['1.1 1\n1.1 ENDED\n', '', 'Line 1 is 1.1 1, and must be 1.1 2.'], ['1.1 2\n', '', 'Line 2 is missing, and must be 1.1 ENDED.'], ['1.1 2\n1.1 ENDED\n1.2 ENDED\n', '', '2 lines must be printed, and there are 3.'],
    ['1.1 2\n1.1 ENDED\n', 'LT8 3', 'The lines are right, but the deck lacks ?SWITCH.'], ['1.1 2\n1.1 ENDED\n', '?SWITCH LT8 2', 'The lines are right, but the deck has LT8 2.'], ['1.1 2\n1.1 ENDED\n', '?SWITCH', '']]) assert.equal(whyNot(task, text, printed), why);
  assert.match(whyNot({lines, has: /SUM/}, 'LT8 2', '1.1 2\n1.1 ENDED\n'), /isn’t the deck/);
  const task63 = TASKS.find(it => it.id === '6.3'), printed = `${task63.lines.join('\n')}\n`;
  assert.equal(whyNot(task63, 'LT8 1 ; BRTR\n', printed), 'The lines are right, but the deck lacks a loop, with BRTR or BRFL.');
  assert.equal(whyNot(task63, 'L: BRTR L\n', printed), '');
});

test('a run that is resumed', () => {
  const printed = '1.1 23\n1.1 ENDED\n', task = TASKS.find(it => it.id === '6.1');
  assert.deepEqual([['resume'], runWords(630)].map(words => isWritten(task, {words, text: '', status: 0, printed})), [true, false]);
});

test('marks are kept, with the work', () => {
  const kept = new Map(), storage = {getItem: key => kept.get(key) ?? null, setItem: (key, value) => kept.set(key, value)}, work = {deck: 'sum', core: 4096, count: 5};
  assert.equal(new Progress(storage).mark({id: '1.1'}, work), true);
  assert.equal(new Progress(storage).mark({id: '1.1'}, work), false);
  assert.deepEqual(new Progress(storage).work.get('1.1'), work);
  assert.ok(!new Progress(storage).isDone({id: '1.2'}));
  assert.equal(new Progress(null).mark({id: '1.1'}, work), true);
  const [one, two] = [new Progress(storage), new Progress(storage)]; // two tabs
  one.mark({id: '2.1'}, work);
  two.mark({id: '2.2'}, work);
  assert.deepEqual(['1.1', '2.1', '2.2'].map(id => [new Progress(storage), two].map(it => it.isDone({id}))), [[true, true], [true, true], [true, true]]);
  one.forget();
  two.looks();
  assert.ok(!two.isDone({id: '2.2'}));
});

test('each operator of a deck with a text in ALGOL has its line', () => {
  for (const name of ALGOL_DECKS) {
    const {lines, cards} = algolOf(name), deck = texts.get(name).split('\n');
    deck.forEach((card, k) => {
      const makes = /^([A-Z][A-Z0-9]*: *)?[A-Z]/.test(card) && !/^(SEGMENT|ROW|NUM|ENTRY)\b/.test(card);
      assert.equal(cards.has(k + 1), makes, `${name}, card ${k + 1}: ${card}`);
    });
    for (const line of cards.values()) assert.ok(lines[line]);
  }
  assert.equal(algolOf('sum'), null);
});

for (const name of ALGOL_DECKS) test(`${name} in ALGOL, translated, prints what its deck prints`, () => {
  const text = algolOf(name).lines.join('\n'), core = coreFor(translationOf(text)), [made, hand] = [deckOf(text), texts.get(name)].map(deck => native.call(runWords(core), deck));
  assert.deepEqual([made.status, textOf(made.bytes)], [hand.status, textOf(hand.bytes)]);
});

// What a line must have for an operator of its cards. For a number it must have this, or bounds of so many elements.
const SIGNS = {MULT: /×/, IDIV: /div/, SUBT: /-/, CHSN: /-/, ADD: /\+|step/, EQUL: /=/, GRTR: /[<>≤≥]|until/, LSEQ: /[<>≤≥]|until/, INDX: /\[/, NXLV: /\[/};

test('a card of a deck with a text in ALGOL has its sign or its number in its line', () => {
  for (const name of ALGOL_DECKS) {
    const {lines, cards} = algolOf(name), deck = texts.get(name).split('\n');
    for (const [card, line] of cards) {
      const [, operator, operand] = /^(?:\w+: *)?([A-Z]+\d*) ?([\w,]*)/.exec(deck[card - 1]), wanted = /^LT/.test(operator) ? new RegExp(`\\b${operand}\\b|\\[0:${operand - 1}\\]`) : SIGNS[operator];
      if (wanted) assert.match(lines[line], wanted, `${name}, card ${card}`);
    }
  }
});
