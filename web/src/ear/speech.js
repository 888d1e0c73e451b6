// What the page says aloud: one sentence for each step, in a part of the page that only those hear who use a reader of the screen. Of steps
// that come fast the last one is said.
import {byId} from '../page/elements.js';
import {wordOf} from '../drawing/draw-memory.js';
import {endingOf} from '../state/changes.js';

const [QUIET_MILLISECONDS, MOST_CHANGES] = [150, 8];
let waiting = null;

// Says a sentence, once it stays for a moment.
export function speak(sentence) {
  clearTimeout(waiting);
  waiting = setTimeout(() => { byId('spoken').textContent = sentence; }, QUIET_MILLISECONDS);
}

function operatorSaid({task, card, place, text}) {
  return `${card ? `card ${card}` : `place ${place}`}, ${text.replace(/^[A-Z][A-Z0-9]*: */, '')}, of task ${task}`;
}

// What a state shows, in a sentence: the operator that was made, what it changed, and which is next.
export function sentenceOf(state) {
  const {count, operator, changes, next, status, fresh} = state, endings = (fresh ?? []).map(endingOf).filter(it => it?.bad);
  const said = changes.slice(0, MOST_CHANGES).map(({kind, text}) => `${wordOf(kind)} ${text.replace(/\.$/, '')}`), more = changes.length - MOST_CHANGES;
  const parts = [operator ? `Operator ${count}, ${operatorSaid(operator)}` : 'Before the first operator'];
  if (endings.length) parts.push(`fault: ${endings.map(({task, name}) => `task ${task} ${name}`).join(', ')}`);
  if (said.length) parts.push(said.join('; ') + (more > 0 ? `; and ${more} more` : ''));
  else if (operator && !endings.length) parts.push(status === undefined ? 'nothing else changes' : 'the run is over');
  return `${parts.join(': ')}. ${next ? `Next: ${operatorSaid(next)}.` : 'No operator is next.'}`;
}
