// What a teacher sees of what pupils hand in: the tasks of one, each with its deck, and a table of a class.
import {byId, element, put} from '../page/elements.js';
import {COURSE} from './course.js';
import {columnOf, csvOf, handsOf, keysOf, lettersOf, linesOf, marksOf, sheetsOf, sumsOf, tasksFor, wrongAnswersOf} from './class.js';
import {seedOf} from './draw.js';
import {textsIn} from './zip.js';
import {saveFile} from '../editor/keep.js';
import {packed} from '../editor/share.js';

// The tasks that a work can be about, in parts: its sheets, and the lessons.
function partsFor(hand, decks) {
  return [...sheetsOf([hand], decks, [], seedOf(hand)), ...COURSE.map(({id, title, tasks}) => ({title: `${id} ${title}`, tasks}))];
}

function nameOfWork({kind, number, id}) {
  return `${kind} ${number ?? id}`;
}

export class Hand {
  constructor(page) {
    Object.assign(this, {page, hand: null, links: '', key: '', part: '', looked: null, marks: new Map()}); // of each part of an address its marks, once done again
    this.ask = (name, data) => page.client.ask(name, data);
  }

  // Shows what one pupil has handed in.
  shows(hand, part) {
    const {page} = this, parts = partsFor(hand, page.decks), tasks = parts.flatMap(part => part.tasks), many = tasks.filter(task => hand.work.has(task.id)).length;
    const other = hand.version === page.version ? '' : ` It was made by version ${hand.version} of the page; this is ${page.version}.`;
    this.forgets();
    Object.assign(this, {hand, part});
    put(byId('hand-view'), this.links ? element('p', {}, this.backButton()) : null, element('h2', {}, `Handed in by ${hand.name}${hand.number && ` (${hand.number})`}: ${many} of ${tasks.length} exercises`),
      element('p', {id: 'again-said', role: 'status', class: 'dim'}, `What is marked here was told by the pupil’s page${hand.time && `, ${hand.time}`}.${other}`),
      element('p', {class: 'group'}, element('button', {type: 'button', id: 'again', onclick: () => page.guard(() => this.again(tasks))}, 'Do each of them again, with this page’s machine'),
        element('button', {type: 'button', id: 'go-on', title: 'for the pupil: on another computer, or after marks were lost', onclick: () => page.guard(() => this.goesOn())}, 'Go on with this work here')),
      parts.map(part => this.partOf(part, hand)), this.classPart());
    if (this.marks.has(part)) this.showsMarks(this.marks.get(part));
    page.show('hand');
  }
  // The view without anybody's work, for links that are pasted.
  open() {
    this.forgets();
    this.hand = null;
    put(byId('hand-view'), element('h2', {}, 'Work that was handed in'), this.classPart());
    this.page.places.held = '';
    this.page.showLessons(false); // a table of a class wants the width
    this.page.show('hand');
    byId('class-links').focus();
    if (this.links) return this.page.guard(() => this.showsClass(this.links));
  }
  backButton() {
    return element('button', {type: 'button', onclick: () => this.open()}, 'All of the class');
  }
  // A link to what a pupil has handed in; it leads there also if it is the address already.
  linkOf(part, name) {
    return element('a', {href: `#hand:${part}`, onclick: () => { if (location.hash === `#hand:${part}`) this.page.places.follow(); }}, name);
  }

  // Another work or deck is looked at now.
  forgets() {
    if (this.looked && !this.page.course.current) byId('task').hidden = true;
    this.looked = null;
  }
  // Where a deck comes from that an address holds.
  about() {
    return this.looked ? `Handed in by ${this.looked.hand.name}, for ${nameOfWork(this.looked.task)}.` : 'The deck of an address.';
  }

  // While a work is looked at, says whose it is, with the ways back.
  tells(hash) {
    if (hash !== this.looked?.at) return this.forgets();
    const {hand, part, task} = this.looked;
    this.page.course.leaves();
    byId('task').hidden = false;
    put(byId('task'), element('p', {}, element('strong', {}, `Handed in by ${hand.name}. `), `${nameOfWork(task)}: ${task.name ? `${task.name}. ` : ''}${task.text}`),
      this.linkOf(part, `all of ${hand.name}’s`), this.links ? this.backButton() : null, element('button', {type: 'button', title: 'close', onclick: () => this.page.course.leaves()}, '×'));
  }
  partOf({title, tasks}, {work}) {
    const done = tasks.filter(task => work.has(task.id)).length;
    return element('details', {open: done > 0}, element('summary', {}, `${title}: ${done} of ${tasks.length}`),
      element('table', {class: 'handed'}, element('tbody', {}, tasks.map(task => this.rowOf(task, work.get(task.id))))));
  }
  rowOf(task, work) {
    const row = element('tr', {'data-hand': task.id}, element('td', {class: 'mark'}, work ? '✓' : '–'), element('td', {}, nameOfWork(task)),
      element('td', {}, `${task.name ? `${task.name}. ` : ''}${task.text}`), element('td', {class: 'work'}));
    if (work) this.linkTo(task, work).then(link => row.lastChild.append(link));
    return row;
  }
  // A link to a work: its deck, in its core, at its operator.
  async linkTo(task, {deck, core, count}) {
    const known = this.page.decks.has(deck), part = known ? deck : await packed(deck), at = count === null ? '' : `,${count}`;
    const {hand, part: from} = this, href = `#${part},${core}${at}`;
    return element('a', {href, onclick: () => { this.looked = {hand, part: from, task, at: href}; }}, `${known ? deck : 'deck'}${count === null ? '' : `, operator ${count}`}`);
  }

  // Does each work again, and marks what this page's machine finds otherwise.
  async again(tasks) {
    const {hand, page, part} = this;
    const marks = await marksOf(this.ask, hand, tasks, page.decks, {hears: it => { if (hand === this.hand) this.showsMarks(it); }});
    this.marks.set(part, marks);
    if (hand !== this.hand) return;
    const {again, not, told} = sumsOf(hand, tasks, marks);
    byId('again-said').textContent = `Done again: ${again}. ${told ? `Answers to questions, which only the pupil’s page knows: ${told}. ` : ''}Not so: ${not}.`;
  }
  showsMarks(marks) {
    for (const [id, is] of marks) {
      const cell = document.querySelector(`[data-hand="${id}"] .mark`);
      put(cell, is === null ? '✓ told' : is ? '✓ again' : '✕ not so');
      cell.className = `mark ${is === false ? 'wrong' : 'right'}`;
    }
  }

  // Takes what was handed in into this browser, as if it had been done here, and goes on with it.
  async goesOn() {
    const {hand, page} = this, {course} = page, tasks = tasksFor([hand], page.decks);
    for (const text of hand.sheets) course.takesKept(text);
    course.keepsSheets();
    course.progress.takes(hand.work);
    for (const {id, kind} of tasks) {
      const work = hand.work.get(id);
      if (kind === 'write' && work?.deck.includes('\n') && !page.editor.own.list().some(it => it.task === id)) page.editor.own.begin(work.deck, work.core, '', id);
    }
    course.named(hand.name, hand.number);
    course.list();
    page.showLessons(true);
    page.say(`${hand.work.size} ${hand.work.size === 1 ? 'exercise is' : 'exercises are'} in this browser now: go on in the list of lessons.`);
  }

  // ------------------------------------------------------------ a class

  classPart() {
    const links = element('textarea', {id: 'class-links', rows: 3, 'aria-label': 'links that pupils have handed in', placeholder: 'Paste the links of one or of all pupils here, in any text, or drop their messages as files.'});
    const key = element('textarea', {id: 'class-key', rows: 1, 'aria-label': 'the sheet with its tests', oninput: () => { this.marks.clear(); }});
    links.value = this.links;
    key.value = this.key;
    const files = element('input', {type: 'file', id: 'class-files', multiple: true, 'aria-label': 'messages of pupils, as files', onchange: () => this.takesFiles(files.files)});
    const section = element('section', {class: 'class'}, element('h2', {}, 'A whole class'), links,
      element('p', {class: 'group'}, element('button', {type: 'button', id: 'class-show', onclick: () => this.page.guard(() => this.showsClass(links.value))}, 'Do all of them again, as a table'),
        element('label', {class: 'file button', for: 'class-files'}, 'files or a zip archive'), files),
      element('p', {}, element('label', {}, 'Your own text of the sheet, with its tests, if it has some: ', key)), element('p', {id: 'class-said', role: 'status'}), element('div', {id: 'class-table', tabindex: 0, role: 'region', 'aria-label': 'table of the class'}));
    section.addEventListener('dragover', event => event.preventDefault());
    section.addEventListener('drop', event => {
      if (event.dataTransfer.files.length) event.preventDefault();
      this.takesFiles(event.dataTransfer.files);
    });
    return section;
  }
  // Puts what files hold below what stands in the field.
  takesFiles(files) {
    return this.page.guard(async () => {
      const texts = await Promise.all([...files].map(async file => textsIn(new Uint8Array(await file.arrayBuffer()))));
      byId('class-links').value = [byId('class-links').value, ...texts.flat()].filter(Boolean).join('\n');
      await this.showsClass(byId('class-links').value);
    });
  }

  // A row for each pupil, a column for each task. Each work is done again here; those that were, in this page, aren't once more.
  async showsClass(text) {
    Object.assign(this, {links: text, key: byId('class-key').value});
    const {page} = this, {hands, broken} = await handsOf(text), tasks = tasksFor(hands.map(it => it.hand), page.decks, await keysOf(this.key, page.decks));
    if (!hands.length) throw new Error('No link of work that was handed in stands in this text: each has the sign # and hand: in it.');
    const table = {hands, tasks, broken, letters: lettersOf(hands, tasks)};
    this.draws(table);
    await this.marksAll(table, text).finally(() => { if (this.links === text && byId('class-table')) this.draws(table); });
  }
  async marksAll(table, text) {
    const {hands, tasks} = table, {page} = this, seen = new Map(), stop = element('button', {type: 'button', id: 'class-stop', onclick: () => { this.halted = true; }}, 'Stop'), said = element('span');
    this.halted = false;
    put(byId('class-said'), said, stop);
    for (const [k, {part, hand}] of hands.entries()) {
      if (this.halted) return;
      if (this.marks.has(part)) continue;
      said.textContent = `Doing again what ${hand.name} handed in: ${k + 1} of ${hands.length}. `;
      const marks = await marksOf(this.ask, hand, tasks, page.decks, {seen});
      this.marks.set(part, marks);
      if (this.links !== text || !byId('class-table')) return;
      document.querySelector(`[data-pupil="${k}"]`)?.replaceWith(this.pupilRow(table, k));
    }
  }
  draws(table) {
    const {hands, tasks, broken, letters} = table, isSame = [...letters.values()].flat().some(Boolean), older = hands.filter(it => it.older).length;
    const head = element('tr', {}, ['pupil', 'told', 'again', 'not so', 'wrong answers'].map(it => element('th', {}, it)), tasks.map(task => element('th', {title: task.text}, columnOf(task, tasks))));
    const save = () => saveFile(csvOf(linesOf(hands, tasks, part => this.marks.get(part))), 'marks.csv', 'text/csv');
    put(byId('class-table'), broken ? element('p', {}, `${broken} of the links can’t be read: were they cut?`) : null, element('p', {}, element('button', {type: 'button', id: 'class-save', onclick: save}, 'Save the table as CSV')),
      element('table', {}, head, hands.map((_, k) => this.pupilRow(table, k))), isSame ? element('p', {class: 'dim'}, 'Equal letters in a column: the same cards, comments and NOOPs left out. Of a short exercise that says little.') : null);
    byId('class-said').textContent = `${hands.length - older} pupils${older ? `, and ${older} older links of theirs` : ''}. ✓ came out again on this page’s machine, ✕ didn’t, ? wasn’t done again.`;
  }
  pupilRow({hands, tasks, letters}, k) {
    const {part, hand, older} = hands[k], marks = this.marks.get(part), {claimed, again, not} = sumsOf(hand, tasks, marks), number = text => element('td', {class: 'number'}, String(text));
    const cell = ({id}) => {
      const is = marks?.get(id), {tries} = hand.work.get(id) ?? {}, often = tries > 1 ? ` ${tries}×` : '', sign = !marks?.has(id) ? '?' : is === false ? '✕' : is ? '✓' : 't';
      return element('td', {class: is === false ? 'mark wrong' : undefined}, hand.work.has(id) ? `${sign}${often}${letters.get(id)[k] && ` ${letters.get(id)[k]}`}` : '');
    };
    return element('tr', {'data-pupil': k, class: older ? 'dim' : undefined}, element('th', {}, this.linkOf(part, hand.name), hand.number ? ` ${hand.number}` : '', older ? ' (older)' : ''),
      number(claimed), number(marks ? again : ''), element('td', {class: not ? 'number mark wrong' : 'number'}, marks ? String(not) : ''), number(wrongAnswersOf(hand) || ''), tasks.map(cell));
  }
}
