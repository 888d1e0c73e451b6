// The words of the machine: its operators and intrinsics from docs/MACHINE.md, and the terms of docs/GLOSSARY.md, as the page holds them.
import {element} from '../page/elements.js';
import {INTRINSICS, MEANINGS} from '../reader/operators.js';
import {rowsOfTable} from './messages.js';

// The operators: name to {code, parameters, does, faults}. A row of the table may have several, with a code for each.
export function operatorsIn(text) {
  const found = new Map();
  for (const [names, codes, parameters, does, faults] of rowsOfTable(text)) {
    const each = names.split(/,? +/).filter(name => /^[A-Z][A-Z0-9]+$/.test(name)), code = codes.split(' ');
    each.forEach((name, k) => found.set(name, {code: /^top bits/.test(codes) ? codes : code[k], parameters, does, faults}));
  }
  return found;
}

// The intrinsics: number to {call, does}.
export function intrinsicsIn(text) {
  return new Map(rowsOfTable(text).filter(row => /^\d+$/.test(row[0])).map(([number, call, does]) => [number, {call, does}]));
}

// The cards that begin with a question mark.
const COMMANDS = {JOB: 'begins a job, with its name', ASM: 'the job’s program follows, an operator on each card', HEX: 'the job’s program follows as a codefile, in hexadecimal', DATA: 'the numbers for READ follow',
  END: 'ends the job', STACK: 'so many words has each stack', QUANTUM: 'so many operators has a turn, after which another task is next', LIMIT: 'so many operators may the job make',
  HALT: 'after so many operators the run halts, and leaves its image', SWITCH: 'when so many operators of the whole run are made, this task makes the next one, if it is ready; it is written job.task'};

// The terms of the glossary, without marks, and without those that only the code has.
function termsIn(text) {
  return rowsOfTable(text).map(row => row.map(cell => cell.replace(/\*([^*]+)\*/g, '$1'))).filter(row => !/^in the code alone/.test(row.at(-1)));
}

export class Lexicon {
  constructor(operators, glossary) {
    Object.assign(this, {operators: operatorsIn(operators), intrinsics: intrinsicsIn(operators), terms: termsIn(glossary)});
  }

  // What a card's operator does, in a line; empty for a card without one. The table of operators has the rest.
  ofCard(card) {
    const command = /^\?([A-Z]+)/.exec(card)?.[1];
    if (command) return COMMANDS[command] ? `?${command}: ${COMMANDS[command]}.` : '';
    const [name, operand = ''] = card.replace(/;.*/, '').trim().replace(/^[A-Z][A-Z0-9]*: */, '').split(/\s+/);
    if (!this.operators.has(name)) return '';
    const couple = /^(\d+),(\d+)$/.exec(operand), intrinsic = couple?.[1] === '0' && this.intrinsics.get(couple[2]);
    if (intrinsic) return `${name}: pushes the couple of the MCP’s procedure ${INTRINSICS[couple[2]]}, which ${intrinsic.does}.`;
    return `${name}: ${MEANINGS[name]}.${couple ? ` ${operand} is cell ${couple[2]} of the record of level ${couple[1]}.` : ''}`;
  }

  operatorTable() {
    return element('table', {}, element('tbody', {}, element('tr', {}, ['operator', 'syllable', 'then', 'takes and leaves; rules', 'in a line'].map(name => element('th', {}, name))),
      [...this.operators].map(([name, row]) => element('tr', {}, element('td', {}, element('strong', {}, name)), element('td', {class: 'number'}, row.code), element('td', {}, row.parameters),
        element('td', {}, row.does), element('td', {}, MEANINGS[name])))));
  }
  intrinsicTable() {
    return element('table', {}, element('tbody', {}, [...this.intrinsics].map(([number, row]) => element('tr', {}, element('td', {class: 'number'}, `0,${number}`), element('td', {}, row.call), element('td', {}, row.does)))));
  }
  glossary() {
    return element('dl', {}, this.terms.map(cells => [element('dt', {}, cells[0]), element('dd', {}, cells.at(-1), cells.length > 2 && cells[1] ? element('span', {class: 'dim'}, ` (Burroughs: ${cells[1]})`) : null)]));
  }
}
