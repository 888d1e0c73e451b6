// The course on the page: the panel of lessons and sheets with their tasks and marks, and the bar of the task that is being done.
import {byId, element, isNarrow, put} from '../page/elements.js';
import {COURSE, TASKS} from './course.js';
import {findsMistake, packedHand, sameElsewhere} from './handin.js';
import {perform} from '../page/acts.js';
import {showHelp, withWords} from '../words/help.js';
import {KEYS} from '../page/keys.js';
import {keepValue, keptValue} from '../editor/keep.js';
import {deckOfTask, isFound, isWritten, Progress, whyNot} from './progress.js';
import {Quiz} from './quiz.js';
import {printQuestions} from './paper.js';
import {operatorParts} from '../words/reading.js';
import {packedText} from '../editor/share.js';
import {seedOf} from './draw.js';
import {keyOfSheet, newestOf, sheetOf} from './sheet.js';

const ANY_WAY = 'Step with →, click a card, which sets a breakpoint, and press Enter to go there, or search: the keys stand below the line of time.';
const SEARCHES = ['ArrowRight', 'o', 'g', 't', 'n', 'r', 'e', 'End'];
const [SHEETS, NAME, NUMBER, MOST_SHEETS, FORGET] = ['b67-sheets', 'b67-name', 'b67-number', 60, 'Forget my marks'];

// What must hold for a task of writing, in words; of one of finding, the ways to go there.
export function wantedText({kind, how = ANY_WAY, lines, refused, refusal, leastCore, resumed, halts, mistake, untold, has, lacks}) {
  const parts = [...(kind === 'find' ? [how] : []), ...(lines && untold ? ['Run it, and see whether you were right.'] : []), ...(lines && !untold ? [`Run must print ${lines.join(', ')}${halts ? ', and then HALTED' : ''}, and the page then tries another core, too.`] : []),
    ...(refused ? [`Check must refuse it${refusal ? `: ${refusal}` : ''}.`] : []), ...(leastCore ? ['Run must succeed in that core.'] : []), ...(mistake ? ['Run compares its lines with those of the machine with the mistake.'] : []), ...(resumed ? [`Resume must print ${resumed.join(', ')}.`] : [])];
  for (const [texts, verb] of [[has, 'must have'], [lacks, 'may not have']]) {
    const told = [texts ?? []].flat().filter(it => typeof it === 'string'); // of a sheet; a pattern of the course isn't told before
    if (told.length) parts.push(`The deck ${verb}: ${told.join(', ')}.`);
  }
  return parts.join(' ');
}

function numberOf({id, sheet, number}) {
  return sheet ? number : id;
}
function nameOfTask(task) {
  return `${task.kind} ${numberOf(task)}`;
}
// A text in which a card's name isn't parted from the question mark before it.
function unparted(text) {
  return text.replace(/\?(?=[A-Z])/g, '?\u2060');
}
// Whether the deck that is stepped through is that of a task.
function isDeckOf(task, {name, raw}) {
  return task.deck ? raw === task.deck : name === deckOfTask(task);
}
function lessonOf({id}) {
  return id.split('.')[0];
}

// Unfolds core and backing for a lesson that is about them; the others need the stacks alone.
function showMemoryOf({core}) {
  byId('memory-part').open = Boolean(core);
  byId('dump-part').open = Boolean(core);
}

export class Course {
  constructor(page) {
    Object.assign(this, {page, progress: new Progress(page.storage), quiz: new Quiz(), current: null, sheets: [], tries: new Map()});
    this.pupil = {name: keptValue(page.storage, NAME) ?? '', number: keptValue(page.storage, NUMBER) ?? ''};
    for (const text of (keptValue(page.storage, SHEETS) ?? []).reverse()) this.takesKept(text);
  }

  // Whether nothing was done in this browser yet.
  isNew() {
    return !this.progress.work.size && !this.page.editor.own.list().length;
  }

  // Takes in a sheet, the newest first; the same one stands once, in its newest version.
  takeSheet(text) {
    const [sheet] = newestOf([this.sheets.find(it => it.key === keyOfSheet(text)), sheetOf(text, this.page.decks, seedOf(this.pupil))].filter(Boolean));
    this.sheets = [sheet, ...this.sheets.filter(it => it.key !== sheet.key)].slice(0, MOST_SHEETS);
    return sheet;
  }
  keepsSheets() {
    keepValue(this.page.storage, SHEETS, this.sheets.map(it => it.text));
  }
  // Takes in one that was kept; one that can't be read any more is left out.
  takesKept(text) {
    try {
      this.takeSheet(text);
    } catch {}
  }
  get tasks() {
    return [...this.sheets.flatMap(sheet => sheet.tasks), ...TASKS];
  }

  // ------------------------------------------------------------ the panel

  list() {
    const button = (text, act, title) => element('button', {type: 'button', onclick: act, title}, text);
    const name = element('input', {id: 'pupil', size: 14, placeholder: 'your name', 'aria-label': 'your name, for your teacher', autocomplete: 'name', value: this.pupil.name, onchange: () => this.named(name.value.trim(), number.value.trim())});
    const number = element('input', {id: 'pupil-number', size: 9, placeholder: 'number', 'aria-label': 'your number or address at school, if your teacher wants it', value: this.pupil.number, onchange: () => this.named(name.value.trim(), number.value.trim())});
    put(byId('lessons'), element('h2', {}, 'Lessons'), element('p', {id: 'progress-said', role: 'status'}),
      element('p', {class: 'group'}, name, number, button('Hand in', () => this.page.guard(() => this.handsIn(name.value.trim(), number.value.trim())), 'one link that shows your teacher what you have done')),
      element('div', {id: 'sheets'}), COURSE.map(lesson => this.lessonPart(lesson)),
      element('p', {}, 'Key q asks a question before each step, in any deck. ', button(FORGET, event => this.forget(event.target))),
      element('p', {class: 'dim'}, 'For a teacher: the address of a lesson or an exercise can be handed on, copy it from its link.'),
      element('p', {class: 'group'}, button('Write exercises of your own', () => this.page.sheets.shows(), 'a text that becomes a link for the class'),
        button('Look at work handed in', () => this.page.hand.open(), 'links that pupils have sent you')));
    this.showMarks();
    this.listSheets();
  }
  lessonPart({id, title, idea, shows, tells = {}, tasks}) {
    const sentence = (parts, k) => element('li', {'data-tells': tells[k]}, element('span', {}, parts.map(part => (Array.isArray(part) ? element('a', {href: part[1]}, part[0]) : withWords(unparted(part))))));
    return element('details', {id: `lesson-${id}`}, element('summary', {}, `${id} ${title} `, element('span', {class: 'dim', 'data-lesson': id})),
      element('p', {}, withWords(idea), ' ', element('a', {href: `#lesson:${id}`, class: 'small', title: 'an address that leads to this lesson, to hand on'}, 'address')), element('ol', {}, shows.map(sentence)),
      element('ul', {class: 'tasks'}, tasks.map(task => this.taskRow(task, `#task:${task.id}`))), this.paperButton(`${id} ${title}`, tasks));
  }
  // A button that prints the questions of a lesson or of a sheet.
  paperButton(title, tasks) {
    const parts = tasks.map((task, k) => ({kind: task.kind, text: task.text, name: task.name, number: k + 1, wanted: task.kind === 'write' ? wantedText(task) : ''}));
    return element('p', {class: 'small'}, element('button', {type: 'button', title: 'the questions alone, with room for answers', onclick: () => printQuestions(title, parts)}, 'Questions on paper'));
  }
  taskRow(task, href) {
    return element('li', {'data-task': task.id}, element('a', {href}, nameOfTask(task)), ` ${task.name ? `${task.name}. ` : ''}${unparted(task.text)} `, element('span', {class: 'dim'}, task.kind === 'write' ? wantedText(task) : ''));
  }

  // The sheets that this browser has got, each with a link that leads to it.
  async listSheets() {
    const parts = await Promise.all(this.sheets.map(async ({key, title, text, tasks}) => {
      const hash = `#sheet:${await packedText(text)}`;
      return element('details', {id: `sheet-${key}`, open: this.current?.sheet === key}, element('summary', {}, `${title} `, element('span', {class: 'dim', 'data-lesson': key})),
        element('ul', {class: 'tasks'}, tasks.map((task, k) => this.taskRow(task, `${hash},${k + 1}`))), this.paperButton(title, tasks));
    }));
    put(byId('sheets'), parts);
    this.showMarks();
  }

  showMarks() {
    const done = TASKS.filter(task => this.progress.isDone(task)).length, kept = this.page.storage ? '' : ' This browser keeps no marks for this page.';
    put(byId('progress-said'), `${done} of ${TASKS.length} exercises are done.${kept} `, element('progress', {value: done, max: TASKS.length, 'aria-label': 'exercises done'}));
    byId('lessons-button').textContent = done ? `Lessons ${done}/${TASKS.length}` : 'Lessons';
    for (const row of document.querySelectorAll('#lessons [data-task]')) {
      row.classList.toggle('done', this.progress.isDone({id: row.dataset.task}));
      row.classList.toggle('current', this.current?.id === row.dataset.task);
    }
    for (const step of document.querySelectorAll('#lessons [data-tells]')) step.classList.toggle('untold', step.dataset.tells.split(' ').includes(this.current?.id) && !this.progress.isDone(this.current));
    document.body.classList.toggle('hides-lost', Boolean(this.current?.asksLost) && !this.progress.isDone(this.current));
    for (const {id, key, tasks} of [...COURSE, ...this.sheets]) {
      const box = document.querySelector(`[data-lesson="${id ?? key}"]`);
      if (box) box.textContent = `${tasks.filter(task => this.progress.isDone(task)).length} of ${tasks.length}`;
    }
  }
  // Forgets all marks with their work, at the second press only.
  forget(button) {
    const sure = button.textContent !== FORGET;
    button.textContent = sure ? FORGET : 'All of them, and the work? Press again';
    if (!sure) return;
    this.progress.forget();
    this.page.editor.forgetsTasks();
    this.showMarks();
  }

  // ------------------------------------------------------------ what is opened

  // Opens a lesson, beside the first moment that it shows. False if there is none of that name.
  async opensLesson(id) {
    const lesson = COURSE.find(it => it.id === id);
    if (!lesson) return false;
    const {page} = this, [, moment] = lesson.shows.flat().find(Array.isArray);
    this.leaves();
    showMemoryOf(lesson);
    await page.places.openAddress(moment.slice(1));
    this.unfolds(`lesson-${id}`);
    if (lesson === COURSE[0]) byId('lessons').scrollTop = 0; // the head of the list is the head of the course
    return true;
  }
  async opensTask(id) {
    const lesson = COURSE.find(it => it.id === lessonOf({id})), task = lesson?.tasks.find(it => it.id === id);
    if (!task) return false;
    showMemoryOf(lesson);
    await this.begin(task);
    this.unfolds(`lesson-${lesson.id}`, task);
    return true;
  }
  // Opens a sheet: the task of that number, or its first one that isn't done.
  async opensSheet(text, number) {
    const sheet = this.takeSheet(text);
    this.keepsSheets();
    const task = sheet.tasks[number - 1] ?? sheet.tasks.find(it => !this.progress.isDone(it)) ?? sheet.tasks[0];
    await this.begin(task);
    await this.listSheets();
    this.unfolds(`sheet-${sheet.key}`, task);
  }
  // Unfolds a part of the panel, and brings it, or its task, into view; on a phone the task stands above, and the list below.
  unfolds(id, task) {
    this.page.showLessons(true);
    byId(id).open = true;
    if (task && isNarrow()) return scrollTo(0, 0);
    (task ? document.querySelector(`[data-task="${task.id}"]`) : byId(id)).scrollIntoView({block: task ? 'nearest' : 'start'});
  }

  // Begins a task: with the deck that was written for it before, unless it is to begin anew; else with its deck at its moment, or with the
  // deck alone, or with a new one.
  async begin(task, anew = false) {
    if (task.drawn && !seedOf(this.pupil)) this.wantsName();
    const {page} = this, {editor} = page, kept = task.kind === 'write' && !anew && editor.own.list().find(it => it.task === task.id);
    this.current = task;
    editor.task = ''; // what was open is no work of this task
    this.tell(task.text, wantedText(task));
    this.showMarks();
    if (kept) this.goesOn(kept);
    else await this.opens(task);
    editor.task = task.kind === 'write' ? task.id : '';
    this.quiz.turn(task.kind === 'predict', true);
    if (task.kind === 'predict') setTimeout(() => page.steps.goBy(1)); // the question waits for its answer, the page doesn't
  }
  // Numbers of one's own want to know whose they are.
  wantsName() {
    this.page.showLessons(true);
    byId('pupil').focus();
    throw new Error('The numbers of this exercise are your own: type your name in the list of lessons, and the number that your teacher wants, and then open it again.');
  }
  goesOn({name}) {
    this.page.show('deck');
    this.page.editor.choose(name);
  }
  async opens(task) {
    const {page} = this;
    if (task.at) await page.places.openAddress(task.at);
    else if (task.deck || task.on) await this.beginOn(task);
    else page.places.newDeck();
  }
  async beginOn({deck, on, core, count}) {
    const {page} = this;
    if (on) page.editor.choose(on);
    else page.editor.take(deck, 'The deck of an exercise.');
    byId('core').value = core;
    if (count === null) page.show('deck');
    else await page.steps.step(count, null);
  }

  tell(text, wanted = '', done = false) {
    const {current, page} = this, box = byId('task'), writes = current?.kind === 'write' && !done;
    const button = (name, title, act) => element('button', {type: 'button', title, onclick: act}, name);
    box.hidden = !text;
    box.className = done ? 'done' : '';
    document.body.classList.remove('asks');
    put(box, element('p', {}, element('strong', {}, current ? `${done ? '✓ ' : ''}Exercise ${numberOf(current)} ` : ''), element('span', {}, `${text} `), element('span', {class: 'wanted'}, wanted)),
      done ? this.nextLink() : this.handKeys(), writes ? button('Cards and operators', 'how cards are written, and what each operator does', () => showHelp('Decks and cards', 'Procedures of the MCP', 'Operators')) : null,
      writes ? button('Begin anew', 'with the deck as it was at first; yours stays in the list of decks', () => page.guard(() => this.begin(current, true))) : null,
      button('×', 'close the exercise', () => this.leaves()));
  }
  // Buttons for the ways to a moment, where there may be no keyboard; which one leads there is the pupil’s to say.
  handKeys() {
    const {current, page} = this;
    if (!current || current.kind === 'write') return null;
    const keys = (current.kind === 'predict' ? ['ArrowLeft', 'ArrowRight'] : SEARCHES).map(key => KEYS.find(it => it.key === key)).filter(Boolean);
    return element('span', {class: 'group by-hand'}, keys.map(({act, sign, key, short}) => element('button', {type: 'button', onclick: () => perform(page, act, 1)}, short ?? (key === 'End' ? 'end' : sign ?? key))));
  }
  // What comes after a task: the next one of its sheet or its lesson, or the next lesson.
  nextLink() {
    const {current, tasks} = this, next = current && tasks[tasks.indexOf(current) + 1];
    if (!next || next.sheet !== current.sheet) return this.finish();
    if (!next.sheet && lessonOf(next) !== lessonOf(current)) return element('a', {href: `#lesson:${lessonOf(next)}`}, `next: lesson ${lessonOf(next)}`);
    return element('a', {href: document.querySelector(`#lessons [data-task="${next.id}"] a`)?.hash}, `next: ${nameOfTask(next)}`);
  }
  // After the last task of the lessons, or of a sheet: how much is done, and what may come next.
  finish() {
    const left = TASKS.filter(task => !this.progress.isDone(task)), [first] = left, parts = COURSE.map(({id, tasks}) => `lesson ${id}: ${tasks.filter(task => this.progress.isDone(task)).length} of ${tasks.length}`);
    if (this.current.sheet) return null;
    if (first) return element('a', {href: `#task:${first.id}`}, `still open: ${left.length === 1 ? nameOfTask(first) : `${left.length}, first ${nameOfTask(first)}`}`);
    return element('p', {id: 'finish'}, `All ${TASKS.length} exercises are done: ${parts.join(', ')}. Hand in, in the list of lessons, makes a link of it. What next? `, element('a', {href: '#bank2,4096'}, 'two programs that share a bank account'), ', ',
      element('a', {href: '#quantum,1708,0'}, 'turns'), ' and ', element('a', {href: '#library,4096'}, 'a library'), ' are among the decks above; New begins one of your own.');
  }
  // Takes up the task that was being done before the page was loaded again.
  takesUp(id) {
    const task = id && this.current?.id !== id && this.tasks.find(it => it.id === id);
    if (!task) return;
    this.current = task;
    this.page.editor.task = task.kind === 'write' ? id : '';
    if (task.kind === 'predict') this.quiz.turn(true, true);
    this.tell(task.text, wantedText(task), this.progress.isDone(task));
    this.showMarks();
  }
  // Another deck is stepped through: the questions of a task end with its deck, and come back with it.
  stepsThrough(session) {
    const {current, quiz} = this, its = current?.kind === 'predict' && isDeckOf(current, session);
    if (quiz.ofTask && !its) quiz.turn(false);
    if (!quiz.on && its && !this.progress.isDone(current)) quiz.turn(true, true);
  }
  leaves() {
    this.current = null;
    this.page.editor.task = '';
    this.page.places.soon();
    this.tell('');
    this.quiz.turn(false);
    this.showMarks();
  }

  // ------------------------------------------------------------ what is done

  // Marks a task as done by a work, and says so.
  done(task, work, said) {
    const {page} = this;
    this.progress.mark(task, {...work, deck: page.editor.isOwn() ? work.deck : page.editor.name});
    if (this.current === task) this.tell(said, '', true);
    this.showMarks();
  }

  // Looks whether the state that is shown is what the task that is being done wants to be found.
  async sees({name, text, raw, core}, state) {
    const task = this.current;
    if (!task || !isFound(task, {name, text: raw}, state)) return this.misses(task, name, state);
    const first = !task.first || await this.page.client.ask('isFirst', {deck: text, core, id: task.id, find: task.find, count: state.count}).catch(() => false);
    if (this.current !== task) return;
    if (first) this.done(task, {deck: raw, core, count: state.count}, `Found: operator ${state.count}${state.operator ? `, ${operatorParts(state.operator).join(' ')}` : ''}.`);
    else this.tell(task.text, 'Here it holds too, but not for the first time.');
  }

  // Says what a task wants that its own deck's end hasn't shown.
  misses(task, name, {status}) {
    if (task?.misses && status === 0 && name === deckOfTask(task) && !this.progress.isDone(task)) this.tell(task.text, `${wantedText(task)} ${task.misses}`);
  }

  // Looks whether a command has done the task of writing; lines are looked at in a second core, too.
  async ran({words, text, result: {status, text: printed}, core, halt}) {
    const {current: task, page} = this, ask = (name, data) => page.client.ask(name, data), {text: deck} = page.editor;
    if (task?.kind !== 'write') return;
    const least = task.leastCore && words[0] === 'run' && status === 0 ? await ask('coreFor', {deck: text, core: 256}) : null;
    if (!isWritten(task, {words, text, status, printed, core, least})) return this.notYet(task, words, status, task.untold ? 'This deck isn’t the one that is asked for, or does more.' : whyNot(task, deck, printed));
    if (task.lines && !await sameElsewhere(ask, {text, core}, printed)) return;
    if (task.mistake && !await findsMistake(ask, task, {text, core}, printed)) return this.tell(task.text, `${wantedText(task)} Not yet. The machine with the mistake prints the same.`);
    this.done(task, {deck, core, halt}, task.lines ? `Done: ${task.untold ? `${task.lines.join(', ')}` : 'these are the lines'}, and in another core too.` : task.mistake ? 'Done: the machine with the mistake prints something else.' : `Done${task.leastCore ? `: ${core} words are the fewest` : ''}.${task.why ? ` ${task.why}` : ''}`);
  }
  // Says that a run hasn't done the task, and why, once it was one that could have.
  notYet(task, words, status, why) {
    if (task.refused && words[0] === 'check') return this.tell(task.text, `${wantedText(task)} Not yet: ${status === 2 ? 'the refusal is another one' : 'the deck is admitted'}.`);
    if (task.leastCore && words[0] === 'run' && status === 0) return this.tell(task.text, `${wantedText(task)} Not yet: the deck runs in fewer words, too.`);
    if (words[0] === 'run' && status < 4 && !task.resumed) this.tell(task.text, `${wantedText(task)} Not yet. ${why}`);
  }

  // Asks before a step; a right answer at the moment of a task to predict does it.
  async asks(now, then, session) {
    const {current} = this, said = await this.quiz.asks(now, then, session.text), task = this.current;
    if (said !== null && current === task && task?.kind === 'predict') this.tries.set(task.id, (this.tries.get(task.id) ?? 0) + 1);
    if (!said || task?.kind !== 'predict') return;
    const {name, core} = session, its = task.at ? task.at === `${name},${core},${now.count}` : task.count === now.count && isDeckOf(task, session);
    if (!its) return;
    this.done(task, {deck: session.raw, core, count: now.count, answer: said, tries: this.tries.get(task.id)}, `Right: ${said}.`);
    byId('task').querySelector('a')?.focus({preventScroll: true}); // the field that had the focus is gone
  }

  // ------------------------------------------------------------ handing in

  // Whose work it is; another pupil has other numbers of their own.
  named(name, number) {
    const {page, sheets, pupil} = this;
    keepValue(page.storage, NAME, name);
    keepValue(page.storage, NUMBER, number);
    this.pupil = {name, number};
    if (seedOf(pupil) === seedOf(this.pupil) || !sheets.some(it => it.tasks.some(task => task.drawn))) return;
    this.sheets = sheets.map(({text}) => sheetOf(text, page.decks, seedOf(this.pupil)));
    this.listSheets();
    const task = this.current?.drawn && this.sheets.flatMap(it => it.tasks).find(it => it.id === this.current.id);
    if (task) page.guard(() => this.begin(task));
  }
  // Another tab has done a task, or forgotten all.
  looks() {
    this.progress.looks();
    this.showMarks();
  }

  // Shows the one link that a pupil hands in, with their name in it: all that is done, of lessons and of sheets.
  async handsIn(name, number) {
    const {page} = this, {work} = this.progress;
    if (!work.size) throw new Error('Nothing is done yet, so there is nothing to hand in: do an exercise first.');
    if (!name) throw new Error('Type your name beside Hand in first, so that your teacher knows whose work it is.');
    this.named(name, number);
    const sheets = this.sheets.filter(it => it.tasks.some(task => work.has(task.id))), mine = [...work].filter(([id]) => !id.startsWith('s') || sheets.some(({key}) => id.startsWith(`${key}/`)));
    const packed = await packedHand({name, number, time: new Date().toISOString().slice(0, 16), version: page.version, sheets: sheets.map(it => it.text), work: mine});
    page.places.shows(`What ${name} hands in: ${mine.length} ${mine.length === 1 ? 'exercise' : 'exercises'}. Send this link to your teacher.`, page.places.withHash(`#hand:${packed}`));
  }
}
