// The note on a fault, between the controls and the pictures: at the operator that ended a task, and at the machine before it.
import {byId, element, put, taskClass} from '../page/elements.js';
import {explained} from './messages.js';
import {causeOf, fittingCauses, fittingMeaning} from './faults.js';

// The faults of the operator that is shown, or of the next one if the page knows them by now; null if there are none.
export function faultShown({state, faults}) {
  if (state.wrongs?.length) return {at: state.count, wrongs: state.wrongs, operator: state.operator, past: true};
  const next = faults.get(state.count + 1);
  return next ? {...next, at: state.count + 1, past: false} : null;
}

function faultText(rows, fault) {
  const {task, name, said, fits} = fault, row = explained(rows, `${task} ${name}`);
  return [element('strong', {class: taskClass(task)}, `task ${task}: ${name}`), `. ${fittingMeaning(row?.means, fault)} ${said} `, element('span', {class: 'dim'}, fittingCauses(row?.advice ?? '', fits))];
}

// Shows the note. Of many tasks that end at once one says why.
export function showFaultNote(fault, rows, act) {
  const box = byId('fault');
  box.hidden = !fault;
  if (!fault) return put(box);
  const first = causeOf(fault.wrongs), others = fault.wrongs.filter(it => it !== first), {operator, past} = fault, name = operator.card ? `card ${operator.card}` : operator.place;
  const button = past ? element('button', {type: 'button', onclick: () => act('back')}, 'One step back: the machine before it')
    : element('button', {type: 'button', onclick: () => act('forth')}, 'Make it');
  put(box, element('span', {class: 'sign'}, '✕'), element('p', {}, past ? '' : `The next operator, ${name}, will fault. `, faultText(rows, first),
    others.length ? element('span', {class: 'others'}, ` ${othersText(first, others)} with it.`) : null), button);
}

// The tasks that end with another one, each with its fault if that is another.
function othersText({name}, others) {
  const same = others.every(it => it.name === name), tasks = others.map(it => (same ? it.task : `${it.task} ${it.name}`)).join(', ');
  return `${others.length > 1 ? 'Tasks' : 'Task'} ${tasks} ${others.length > 1 ? 'end' : 'ends'}`;
}
