// Predict on the page: the question before a step, and the answer to it.
import {byId, element, put} from '../page/elements.js';
import {isRight, questionOf} from './predict.js';
import {operatorParts} from '../words/reading.js';

export class Quiz {
  constructor() {
    Object.assign(this, {on: false, ofTask: false, right: 0, asked: 0, resolve: () => {}});
  }

  // Turns it on or off: by hand, or for a task (`ofTask`), with whose deck it ends.
  turn(on = !this.on, ofTask = false) {
    Object.assign(this, {on, ofTask: on && ofTask});
    byId('quiz').hidden = !on;
    if (on) put(byId('quiz'), 'Predict: step with →, and say first what the operator will do. Key q ends it.');
  }

  // Asks about the next operator, if it deserves a question; gives whether the answer was right, and null without one.
  async asks(now, then, deck) {
    const question = questionOf(now, then, deck), answer = question && await this.answerTo(question, now.next);
    if (answer === null) return null;
    const right = isRight(question, answer), said = question.right.join(', ');
    this.asked++;
    if (right) this.right++;
    put(byId('quiz'), element('span', {}, element('strong', {class: right ? 'right' : 'wrong'}, right ? '✓ Right: ' : `✕ Not ${answer || 'that'}, but `), `${said}${question.why ? `, since ${question.why}` : ''}. ${right ? '' : 'The keys ← and → ask it again. '}${this.right} of ${this.asked} so far.`));
    return right ? said : '';
  }
  answerTo(question, next) {
    return new Promise(resolves => {
      const resolve = this.resolve = value => {
        document.body.classList.remove('asks');
        resolves(value);
      };
      document.body.classList.add('asks'); // what would tell the answer isn't seen
      const input = question.choices ? null : element('input', {size: 12, 'aria-label': 'your answer', autocomplete: 'off'});
      const form = element('form', {onsubmit: event => { event.preventDefault(); resolve(input?.value ?? null); }}, question.choices
        ? question.choices.map(text => element('button', {type: 'button', onclick: () => resolve(text)}, text)) : [input, element('button', {}, 'Answer')],
      element('button', {type: 'button', class: 'skip', onclick: () => resolve(null)}, 'skip'));
      const name = question.hides ? '' : `${next.card ? `card ${next.card}` : next.place} ${operatorParts(next).join(' ')}. `;
      put(byId('quiz'), element('span', {}, element('strong', {}, name), question.ask), form);
      (input ?? form.querySelector('button')).focus();
    });
  }

  // Leaves the question that waits for an answer.
  leave() {
    this.resolve(null);
  }
}
