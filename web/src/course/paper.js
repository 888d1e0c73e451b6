// The questions of a lesson, or of a sheet, on paper: a part of the page that is seen by the printer alone.
import {byId, element, put} from '../page/elements.js';

const LINES = {predict: 2, find: 3, write: 8}; // for an answer

// A question with room for its answer; `wanted` says what must hold.
function questionPart({kind, text, name, number}, wanted) {
  return element('li', {value: number}, element('p', {}, element('strong', {}, `${kind}. `), name ? `${name}. ` : '', text, ' ', wanted), Array.from({length: LINES[kind]}, () => element('div', {class: 'rule'})));
}

// Prints the questions under a title. `parts` are the tasks, each with its number and what must hold.
export function printQuestions(title, parts) {
  put(byId('paper'), element('h1', {}, title), element('p', {}, 'Name: ______________________________    Date: ______________'),
    element('ol', {}, parts.map(({wanted, ...task}) => questionPart(task, wanted))));
  document.body.classList.add('paper');
  addEventListener('afterprint', () => document.body.classList.remove('paper'), {once: true});
  print();
}
