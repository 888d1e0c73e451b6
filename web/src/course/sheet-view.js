// Where a teacher writes a sheet: a text, what is wrong with it, and its link.
import {byId, element, put} from '../page/elements.js';
import {CONDITIONS} from './conditions.js';
import {keepValue, keptValue} from '../editor/keep.js';
import {packedText} from '../editor/share.js';
import {EXAMPLE, sharedSheet, sheetOf} from './sheet.js';

const DRAFT = 'b67-draft';
const HELP = [
  'An exercise begins with task: and a name, and asks with ask:. Its deck stands below deck:, or on: names one of the page. core: says how many words of core it opens with, at: at which operator.',
  'What must hold. To write: prints:, a line for each line, in order; or refused:, as in refused: LOAD 1 REASON 8. has: and lacks: say what the deck must and may not hold.',
  'Numbers of one’s own: draw: a 2 to 9 draws a number for each pupil, by the pupil’s number or name; {a}, or {a * a + 1}, in other lines and cards is worked out of it. So a copied deck prints another pupil’s lines.',
  'Tests that pupils don’t see: test: other numbers for READ, and below it gives:, a line for each line that a right deck prints then. The sheet wants an id:. The link for the class leaves them out: keep this text, and put it beside the links of the class.',
  `To find a moment: find:, a line for each condition, and first: yes for the first such moment. Conditions: ${CONDITIONS.join('; ')}.`,
  'To predict: predict:, the operator before the question, which the page makes of what comes next. Several exercises make a sheet. Nobody needs anything but the link: the exercises are in it.',
];

export class SheetEditor {
  constructor(page) {
    Object.assign(this, {page});
  }

  shows() {
    const text = element('textarea', {id: 'sheet-text', rows: 20, spellcheck: 'false', 'aria-label': 'the exercises, as a text', oninput: () => this.looks()});
    text.value = keptValue(this.page.storage, DRAFT) || EXAMPLE;
    const button = (id, name, act) => element('button', {type: 'button', id, onclick: () => this.page.guard(act)}, name);
    put(byId('sheet-dialog'), element('button', {type: 'button', class: 'close', onclick: () => byId('sheet-dialog').close()}, 'Close'), element('h2', {}, 'Exercises of your own'), text,
      element('p', {id: 'sheet-said', role: 'status'}), element('p', {class: 'group'}, button('sheet-try', 'Try it', () => this.tries()), button('sheet-link', 'Link for the class', () => this.links()),
        button('sheet-example', 'The example', async () => { text.value = EXAMPLE; this.looks(); })),
      element('details', {}, element('summary', {}, 'How a sheet is written'), HELP.map(it => element('p', {}, it))));
    this.looks();
    byId('sheet-dialog').showModal();
  }

  // Says what the text is, or what is wrong with it; the browser keeps it.
  looks() {
    const {value} = byId('sheet-text');
    keepValue(this.page.storage, DRAFT, value);
    try {
      const {tasks} = sheetOf(value, this.page.decks);
      byId('sheet-said').textContent = `${tasks.length === 1 ? 'One exercise' : `${tasks.length} exercises`}: ${tasks.map(task => `${task.kind} ${task.number}`).join(', ')}.`;
      return value;
    } catch (problem) {
      byId('sheet-said').textContent = problem.message;
      return null;
    }
  }

  async tries() {
    const text = this.looks();
    if (!text) return;
    byId('sheet-dialog').close();
    await this.page.course.opensSheet(text, 1);
  }
  async links() {
    const text = this.looks();
    if (!text) return;
    byId('sheet-dialog').close();
    this.page.places.shows('Your exercises, as a link for the class', this.page.places.withHash(`#sheet:${await packedText(sharedSheet(text))}`));
  }
}
