// The help panel: how to read the picture, keys, operators, words, and what is proved.
import {byId, element, put} from '../page/elements.js';
import {helpTable} from '../page/keys.js';

const PICTURE = [
  'The column of a task is its stack; it grows upwards, and a child’s stack stands on the record to which its static link leads.',
  'A box is an activation record: at its foot its number, level and static link, then the place to which it returns, then its cells. A dashed box is a record that MKST has begun.',
  'The small number in a cell is its tag: 0 a number, 1 a reference, 5 an array or a copy of one, 7 the entry of a procedure. D[3] is the display register of level 3. S is the top word of a stack, F its topmost mark.',
  'Yellow is what the last operator changed; red, with a cross, what was wrong for an operator that faulted. A copy of an array leads into core, or to the array’s original if the words were not in core.',
  'On the line of time each column is an operator in the colour of its task, as high as its stack is deep; a dot is a printed line, a cross a fault, a triangle that points up words that came into core, one that points down words that left it, a crossed circle a store that is lost: another task had fetched the cell before it and writes over it. The signs below the line lead from one to the next. Point at a column to read it; drag along the line to go there.',
];
const CARDS = [
  'A deck is a text of cards, one on each line. ?JOB NAME begins a job, ?ASM its program, ?END ends it. ?STACK, ?QUANTUM, ?HALT and ?SWITCH stand before the first job; ?LIMIT before ?ASM, and ?DATA, with the numbers for READ, after the program.',
  '?QUANTUM 10 gives each task turns of ten operators. ?SWITCH 7 1.2 hands over to task 2 of job 1 when seven operators of the whole run are made, wherever the turn is: so one can try what happens if tasks are switched there.',
  'SEGMENT NAME LEVEL begins a procedure; the first one, of level 2, is the outer block. What is declared within it has level 3, and so on. Each operator has a card: its name, its operands, and a comment after a semicolon. LABEL: stands before an operator.',
  'A couple level,displacement names a cell: 2,2 is the first cell of the outer block, 3,2 the first argument of a procedure of level 3. VALC pushes what the cell holds, NAMC the couple itself.',
  'A call is MKST, NAMC of the procedure’s cell, the arguments, ENTR. Level 0 has the procedures of the MCP, the Master Control Program: MKST, NAMC 0,9, a number, ENTR prints it.',
];

// The words of the lessons that a reader may not know, each with the term of the glossary that tells it.
const TOLD = {'activation record': 'record', 'static link': 'static link', 'dynamic link': 'dynamic link', 'display register': 'display', 'by accident': 'accidental entry', couple: 'couple', thunk: 'thunk', sectors: 'sector', turned: 'present, absent', copy: 'copy', MCP: 'MCP', backing: 'backing', cactus: 'cactus', proved: ''};
const PROVED = 'What is proved, and what is trusted';

// A text in parts: the first of each word that the glossary tells is a button that leads there.
export function withWords(text) {
  const parts = text.split(new RegExp(`\\b(${Object.keys(TOLD).join('|')})\\b`)), seen = new Set();
  return parts.map((part, k) => (k % 2 && !seen.has(part) && seen.add(part) ? element('button', {type: 'button', class: 'word', title: 'what this word means', onclick: () => showWord(TOLD[part])}, part) : part));
}
// Shows the glossary at a term: the first one that begins with it, or has it.
function showWord(word) {
  showHelp(word ? 'Words' : PROVED);
  if (!word) return;
  const terms = [...byId('help').querySelectorAll('dt')], found = terms.find(it => it.textContent.toLowerCase().startsWith(word.toLowerCase())) ?? terms.find(it => it.textContent.toLowerCase().includes(word.toLowerCase()));
  for (const it of terms) it.classList.toggle('wanted', it === found);
  found?.scrollIntoView({block: 'center'});
}

function part(title, open, ...content) {
  return element('details', {open}, element('summary', {}, title), content);
}

// Shows the help with these parts open, or as it was.
export function showHelp(...titles) {
  for (const it of byId('help').querySelectorAll('details')) if (titles.length) it.open = titles.includes(it.querySelector('summary').textContent);
  byId('help').showModal();
}

export function fillHelp(lexicon, letterKeys, version) {
  const close = element('button', {type: 'button', class: 'close', onclick: () => byId('help').close()}, 'Close');
  const lines = texts => texts.map(text => element('p', {}, text)), proved = byId('proved').textContent.trim().split(/\n\n+/);
  put(byId('help'), close, element('h2', {}, 'Help'), part('The picture', true, lines(PICTURE)), part('Keys', true, letterKeys, helpTable()),
    part('Decks and cards', false, lines(CARDS)), part('Procedures of the MCP', false, lexicon.intrinsicTable()), part('Operators', false, element('p', {}, 'In “a b -> c” the top of the stack is at the right: b is on top of a.'), lexicon.operatorTable()),
    part('Words', false, lexicon.glossary()),
    part(PROVED, false, element('p', {}, `b67 ${version}. The machine in this page is b67_web, of which these things are proved: status and lines are those of the definitions, and paging never changes a printed line.`),
      proved.map(text => element('p', {}, text))));
}
