// The course in a browser: each task of each lesson is done wrongly and then rightly; a teacher's sheet; and what is handed in.
import {TASKS} from '../src/course/course.js';
import {START} from '../src/page/decks.js';
import {packedText, unpacked} from '../src/editor/share.js';
import {FOUND, LEAST_OF_TEN, PREDICTED, SEARCHED, WRITTEN} from '../tests/answers.js';

const DONE = "document.getElementById('task').className === 'done'";

async function isDone(it, waits = false) {
  if (waits) await it.browser.until(DONE).catch(() => {});
  return it.browser.value(DONE);
}
// Opens a task, and leaves the keyboard to the page.
async function begins(it, hash) {
  await it.opens(hash);
  await it.browser.value('document.activeElement.blur(); 0');
}

async function answers(it, answer) {
  await it.until("document.querySelector('#quiz form')");
  await it.browser.value(`{ const quiz = document.getElementById('quiz'), field = quiz.querySelector('input'), answer = ${JSON.stringify(answer)};
    if (field) { field.value = answer; quiz.querySelector('form').requestSubmit(); }
    else [...quiz.querySelectorAll('button')].find(it => it.textContent === answer).click(); } 0`);
  await it.until("/Right:|Not .*, but/.test(document.getElementById('quiz').textContent)");
}
async function predicts(it, {id}, hash) {
  for (const [answer, right] of [[PREDICTED[id][1], false], [PREDICTED[id][0], true]]) {
    await begins(it, hash);
    await answers(it, answer);
    it.wants(await isDone(it, right) === right, `task ${id}: ${answer} is marked ${right ? 'wrong' : 'right'}`);
    if (id === '4.1') it.wants(/1\.2, since the card \?SWITCH 7 1\.2 hands over/.test(await it.shown('#quiz')), `task 4.1, ${answer}: ${await it.shown('#quiz')}`);
  }
}

async function finds(it, {id}, hash) {
  await begins(it, hash);
  if (SEARCHED[id]) {
    await it.pressed(`task ${id}`, it.deck('two'), 'End');
    it.wants(!await isDone(it), `task ${id} is done in the core with which it opens`);
    it.wants(/Not yet: at the end/.test(await it.shown('#task')), `task ${id} at the end: ${await it.shown('#task')}`);
    await it.types(undefined, SEARCHED[id]);
    await it.state();
    await it.browser.value('document.activeElement.blur(); 0');
    await it.browser.press('End');
  } else {
    await it.goes(FOUND[id][1]);
    it.wants(!await isDone(it), `task ${id} is done at operator ${FOUND[id][1]}`);
    await it.goes(FOUND[id][0]);
  }
  it.wants(await isDone(it, true), `task ${id} isn't done: ${await it.shown('#task')}`);
}

async function runsOrChecks(it, task) {
  await it.click(task.refused ? '#check' : '#run');
}
async function writes(it, task, hash) {
  const {id} = task;
  await begins(it, hash);
  if (task.resumed) {
    await it.click('#run');
    it.wants(!await isDone(it), `task ${id} is done by Run`);
    await it.browser.value("document.getElementById('more').open = true; 0");
    for (const button of ['#image', '#resume']) await it.click(button);
  } else for (const right of [false, true]) {
    await it.types(WRITTEN[id][right ? 0 : 1], task.leastCore ? LEAST_OF_TEN + (right ? 0 : 1) : undefined);
    await runsOrChecks(it, task);
    if (!right) it.wants(!await isDone(it), `task ${id} is done by a deck that doesn't: ${await it.shown('#task')}`);
  }
  it.wants(await isDone(it, true), `task ${id} isn't done: ${await it.shown('#task')} ${await it.shown('#outcome')}`);
}

// Each task of each lesson, wrongly and then rightly; marks are there after a reload.
export async function course(it) {
  await it.browser.value('localStorage.clear(); 0');
  await it.opensPage('?compare');
  for (const task of TASKS) await {predict: predicts, find: finds, write: writes}[task.kind](it, task, `task:${task.id}`);
  await it.reloads();
  it.wants(await it.shown('#lessons-button') === `Lessons ${TASKS.length}/${TASKS.length}`, `marks after a reload: ${await it.shown('#lessons-button')}`);
  it.wants(/no exercise 9\.9/.test((await it.opens('task:9.9')).message), 'a task that isn’t there: no sentence');
  await it.opens('jensen,4096,30');
  const lines = await it.browser.value("['now', 'next'].map(kind => document.querySelector(`#algol .${kind}`)?.textContent.trim() ?? '').join('|')");
  it.wants(lines === 'do total := total + term;|i × i))', `beside card 30 stand ${lines}`);
  await stumbles(it);
  await comesBack(it);
  await handsIn(it);
}

// Where a pupil has stumbled once: the end of all, a word of a lesson, keys in a field of a number, a question at a fault, no keyboard, and paper.
async function stumbles(it) {
  const {browser} = it;
  await it.opens('task:12.6');
  await it.click('#run');
  it.wants(new RegExp(`^All ${TASKS.length} exercises are done: lesson 1: 5 of 5, .*What next\\?`).test(await it.shown('#finish')), `after the last task: ${await it.shown('#task')}`);
  await it.opens('lesson:2');
  await browser.value("[...document.querySelectorAll('#lesson-2 .word')].find(it => it.textContent === 'static link').click(); 0");
  it.wants(/^static link/.test(await browser.value("document.querySelector('#help dt.wanted')?.textContent ?? ''")) && await browser.value("document.getElementById('help').open"), 'a word of a lesson leads nowhere');
  await browser.value("document.getElementById('help').close(); 0");
  await begins(it, 'two,630,0');
  await browser.value("document.getElementById('core').focus(); document.getElementById('core').value = 832; 0");
  await browser.press('End');
  await it.until('b67.state().end !== null && b67.state().count > 20');
  const {core, count} = await it.state();
  it.wants(core === 832 && count === 27, `End in the field of core: ${core} words, operator ${count}`);
  await asksAtFault(it);
  await it.opens('sum,4096');
  await browser.value("dispatchEvent(new Event('beforeprint')); 0");
  it.wants(/^ +1 {2}.*\n +2 {2}/.test(await browser.value("document.getElementById('deck-paper').textContent")), 'the deck on paper');
  await browser.value("dispatchEvent(new Event('afterprint')); 0");
  await it.opens('task:3.2');
  it.wants(await browser.value("[...document.querySelectorAll('#task .by-hand button')].map(it => it.textContent).join('|')") === 'step|next line|paging|task|store|highest stack|before the end|end', 'buttons for the ways to a moment');
}
// At the operator that faults the question hides what tells its answer.
async function asksAtFault(it) {
  const {browser} = it;
  await it.writes('?JOB T\n?ASM\nSEGMENT MAIN 2\nNAMC 2,2\nONE\nADD\nEXIT\n?END\n', 4096);
  await it.click('#step');
  await browser.value('document.activeElement.blur(); 0');
  for (const key of ['ArrowRight', 'ArrowRight']) await it.pressed('a fault', (await it.state()).text, key);
  await browser.press('q');
  await browser.press('ArrowRight');
  await it.until("document.querySelector('#quiz form')");
  it.wants(/By which fault/.test(await it.shown('#quiz')) && await it.shown('#fault') === '', `beside a question stands ${await it.shown('#fault')}`);
  await browser.value("[...document.querySelectorAll('#quiz form button')].find(it => it.textContent === 'INTEGER OVERFLOW').click(); 0");
  await it.state();
  it.wants(/^✕ Not INTEGER OVERFLOW, but INVALID OPERAND, since ADD takes the couple 2,2 and 1\. It wants numbers/.test(await it.shown('#quiz')), `a wrong answer: ${await it.shown('#quiz')}`);
  await browser.press('q');
}

// Whoever comes back to a task finds the deck that they wrote for it, until they begin anew; after the last task of a lesson comes the next lesson.
async function comesBack(it) {
  let {text} = await it.opens('task:1.5');
  it.wants(text === WRITTEN['1.5'][0], `back at a task stands ${text}`);
  await it.click('#run');
  it.wants(await it.shown('#task a') === 'next: lesson 2', `after the last task of a lesson comes ${await it.shown('#task a')}`);
  await it.until("history.state?.task === '1.5'");
  await it.reloads();
  ({text} = await it.state());
  it.wants(text === WRITTEN['1.5'][0] && /^✓ Exercise 1\.5/.test(await it.shown('#task')), `a task after a reload: ${await it.shown('#task')}`);
  await it.opens('task:1.2');
  await it.browser.value("[...document.querySelectorAll('#task button')].find(it => it.textContent === 'Begin anew').click(); 0");
  ({text} = await it.state());
  it.wants(text === START.text, `a task that is begun anew has ${text}`);
}

// The one link of all that was done, as a teacher sees it.
async function handsIn(it) {
  const {browser} = it;
  await browser.value("document.getElementById('lessons').hidden || 0, document.getElementById('pupil').value = 'Ada', document.getElementById('pupil-number').value = '17'; 0");
  await it.opens('lesson:1');
  await browser.value("[...document.querySelectorAll('#lessons button')].find(it => it.textContent === 'Hand in').click(); 0");
  await it.until("document.getElementById('link-dialog').open");
  const address = await browser.value("document.getElementById('link-text').value");
  it.wants(address.length < 12000, `the link has ${address.length} characters`);
  await browser.value("document.getElementById('link-dialog').close(); localStorage.clear(); 0");
  await browser.opens('about:blank');
  await browser.opens(address);
  await it.ready();
  it.wants(new RegExp(`^Handed in by Ada \\(17\\): ${TASKS.length} of ${TASKS.length}`).test(await it.shown('#hand-view h2')), `what was handed in: ${await it.shown('#hand-view h2')}`);
  await it.click('#again');
  it.wants(await it.shown('#again-said') === `Done again: ${TASKS.length}. Not so: 0.`, `done again: ${await it.shown('#again-said')}`);
  await browser.value(`document.getElementById('class-links').value = ${JSON.stringify(`Ada: ${address}\nBo: ${address.slice(0, -40)}`)}; 0`);
  await it.click('#class-show');
  it.wants(await browser.value("document.querySelectorAll('#class-table tr').length") === 2 && /1 of the links/.test(await it.shown('#class-table p')), 'the table of a class');
  it.wants(new RegExp(`^Ada 17\\|${TASKS.length}\\|${TASKS.length}\\|0\\|\\d*\\|✓`).test(await browser.value("[...document.querySelectorAll('#class-table tr:nth-child(2) > *')].map(it => it.textContent).join('|')")), 'the row of a pupil');
  await browser.value(`{ const data = new DataTransfer(); data.items.add(new File(['Cy: ${address.slice(address.indexOf('#'), -80)}'], 'cy.txt')); document.querySelector('section.class').dispatchEvent(new DragEvent('drop', {dataTransfer: data, bubbles: true, cancelable: true})); } 0`);
  await it.state();
  it.wants(/2 of the links/.test(await it.shown('#class-table p')), 'a file that is dropped');
  await browser.value("document.querySelector('[data-hand=\"1.5\"] a').click(); 0");
  const state = await it.state();
  it.wants(state.text === WRITTEN['1.5'][0], 'the deck of a task that was handed in');
  it.wants(/^Handed in by Ada\. write 1\.5: /.test(await it.shown('#task p')), `whose deck it is: ${await it.shown('#task')}`);
  await browser.value("[...document.querySelectorAll('#task button')].find(it => it.textContent === 'All of the class').click(); 0");
  await it.state();
  it.wants(await browser.value("document.querySelectorAll('#class-table tr').length") === 2 && await it.shown('#task') === '', 'the way back to the table of a class');
  await goesOn(it, address);
  await onPaper(it);
}

// What was handed in goes back into a browser; another tab's mark is seen, and beside it one's own is kept.
async function goesOn(it, address) {
  const {browser} = it, lessons = () => it.shown('#lessons-button');
  await browser.value('localStorage.clear(); 0');
  await browser.opens('about:blank');
  await browser.opens(address);
  await it.ready();
  it.wants(await lessons() === 'Lessons', `before a hand-in is taken back: ${await lessons()}`);
  await it.click('#go-on');
  it.wants(await lessons() === `Lessons ${TASKS.length}/${TASKS.length}` && await browser.value("document.getElementById('pupil-number').value") === '17', `a hand-in that is taken back: ${await lessons()}`);
  it.wants((await it.opens('task:1.5')).text === WRITTEN['1.5'][0], 'the deck of a hand-in that is taken back');
  await browser.value(`localStorage.setItem('b67-work', '{"1.1":{"deck":"start","core":4096,"count":4}}'); dispatchEvent(new StorageEvent('storage', {key: 'b67-work'})); 0`);
  it.wants(await lessons() === `Lessons 1/${TASKS.length}`, `after another tab has changed the marks: ${await lessons()}`);
  await it.click('#run');
  it.wants(await lessons() === `Lessons 2/${TASKS.length}` && /"1\.1".*"1\.5"/.test(await browser.value("localStorage.getItem('b67-work')")), `a mark beside another tab’s: ${await lessons()}`);
}

// The questions of a lesson for the printer, and nothing else.
async function onPaper(it) {
  await it.browser.value("window.print = () => {}; [...document.querySelectorAll('#lesson-4 button')].at(-1).click(); 0");
  it.wants(await it.browser.value("document.querySelectorAll('#paper li').length") === 5 && await it.browser.value("document.body.classList.contains('paper') && getComputedStyle(document.getElementById('paper')).display === 'none'"), 'the questions of a lesson on paper');
  await it.browser.value("dispatchEvent(new Event('afterprint')); 0");
}

const SHEET = `title: Check
task: Thirty
ask: Let it print 30.
prints: 1.1 30
prints: 1.1 ENDED
deck:
${WRITTEN['1.2'][0].trim()}

task: The store
ask: Go to the first store into 2,2.
on: switched
core: 685
find: store 2,2
first: yes

task: The sum
ask: What does ADD leave?
on: sum
predict: 4
`;

// A teacher's own tasks, sent as a link: each is done wrongly and then rightly.
export async function sheets(it) {
  const packed = await packedText(SHEET);
  await begins(it, `sheet:${packed}`);
  await it.click('#run');
  it.wants(!await isDone(it) && /Line 1 is 1\.1 42, and must be 1\.1 30\./.test(await it.shown('#task')), `a sheet’s task with the deck with which it opens: ${await it.shown('#task')}`);
  await it.types(WRITTEN['1.2'][0].replace('42', '30'));
  await it.click('#run');
  it.wants(await isDone(it, true), `a sheet’s task isn’t done: ${await it.shown('#task')}`);
  it.wants(await it.shown('#task a') === 'next: find 2', `after the first task of a sheet comes ${await it.shown('#task a')}`);
  await begins(it, `sheet:${packed},2`);
  await it.goes(17);
  it.wants(!await isDone(it), 'a later moment is taken for the first one');
  await it.goes(12);
  it.wants(await isDone(it, true), `a sheet’s moment isn’t found: ${await it.shown('#task')}`);
  for (const [answer, right] of [['6', false], ['5', true]]) {
    await begins(it, `sheet:${packed},3`);
    await answers(it, answer);
    it.wants(await isDone(it, right) === right, `a sheet’s question: ${answer}`);
  }
  await endsQuestions(it, `sheet:${packed},3`);
  await writesSheet(it);
  await ownNumbers(it);
}

// The questions of a task end where another deck is stepped through, and are back with the task; key q asks in any deck.
async function endsQuestions(it, hash) {
  const {browser} = it, quiz = () => it.shown('#quiz');
  await begins(it, hash);
  it.wants(await quiz() !== '', 'a task to predict asks nothing');
  await it.writes(WRITTEN['1.5'][0], 4096);
  await it.click('#step');
  await browser.value('document.activeElement.blur(); 0');
  await browser.press('ArrowRight');
  const {count} = await it.state();
  it.wants(await quiz() === '' && count === 1, `in another deck the questions of a task go on: ${await quiz()}, operator ${count}`);
  await browser.press('q');
  await it.writes(WRITTEN['1.5'][1], 4096);
  await it.click('#step');
  it.wants(/^Predict/.test(await quiz()), 'key q asks in one deck alone');
  await browser.value('document.activeElement.blur(); 0');
  await browser.press('q');
}

// Numbers of one's own want a name, and are others under another name. Those that are wanted here were drawn by the same rule in Python.
async function ownNumbers(it) {
  const {browser} = it, packed = await packedText('id: own-1\ntask: Own\nask: Print {a}.\ndraw: a 1000 to 999999\nprints: 1.1 {a}\nprints: 1.1 ENDED\n'), asked = async () => /Print (\d+)\./.exec(await it.shown('#task'))?.[1];
  const named = name => browser.value(`for (const [id, value] of [['pupil-number', ''], ['pupil', '${name}']]) { const it = document.getElementById(id); it.value = value; it.dispatchEvent(new Event('change')); } 0`);
  await named('');
  it.wants(/type your name/.test((await it.opens(`sheet:${packed}`)).message), 'numbers of one’s own without a name');
  await named('Ada');
  await it.opens(`sheet:${packed}`);
  it.wants(await asked() === '717537', `Ada’s number is ${await asked()}`);
  await named('Bo');
  await it.state();
  it.wants(await asked() === '146484', `Bo’s number is ${await asked()}`);
  await it.types(WRITTEN['1.2'][0].replace('LT8 42', 'LT48 717537'));
  await it.click('#run');
  it.wants(!await isDone(it), 'Ada’s number does for Bo');
  await it.types(WRITTEN['1.2'][0].replace('LT8 42', 'LT48 146484'));
  await it.click('#run');
  it.wants(await isDone(it, true), `Bo’s number isn’t done: ${await it.shown('#task')}`);
}

// The editor of sheets: what is wrong is said with its line, and the link leads to the tasks.
async function writesSheet(it) {
  const {browser} = it, types = text => browser.value(`{ const it = document.getElementById('sheet-text'); it.value = ${JSON.stringify(text)}; it.dispatchEvent(new Event('input')); } document.getElementById('sheet-said').textContent`);
  await browser.value("[...document.querySelectorAll('#lessons button')].find(it => /Write exercises/.test(it.textContent)).click(); 0");
  it.wants(/^Line 2 of the sheet: print: is no word/.test(await types('task: A\nprint: 5\n')), 'a wrong line of a sheet');
  it.wants(/^3 exercises: write 1, find 2, predict 3/.test(await types(SHEET)), 'a right sheet');
  await browser.click('#sheet-link');
  await it.until("document.getElementById('link-dialog').open");
  const address = await browser.value("document.getElementById('link-text').value");
  it.wants(await unpacked(address.split('#sheet:')[1] ?? '').catch(() => '') === SHEET, `the link of a sheet: ${address.slice(-60)}`);
  await browser.value("document.getElementById('link-dialog').close(); 0");
}
