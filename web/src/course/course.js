// The course: teaching/TEACHING.md's lessons, each with an idea, what to look at, and tasks; those of a term stand in term.js. A task has one of three kinds, and no key of
// answers: `predict` is a question that the machine's next state marks; `find` holds of a state that the page shows, and `how` says the ways
// to it; `write` is a deck that prints these lines, in two cores. A part of a text that is a pair is a link: [text, address]. With `core` a
// lesson is about core and backing. `tells` names the tasks whose answer a sentence tells, by the sentence's place: it isn't seen then.
import {recordsOf} from '../words/reading.js';
import {deepest, into, made, outOfCore} from './moments.js';
import {TERM} from './term.js';

const FIRST = [
  {id: '1', title: 'Words and tags', tells: {0: '1.1'}, idea: 'A word has 48 bits and a tag of three bits. The tag says what the word is: a number, or a reference, which leads to another word. No operator makes a number of a reference.',
    shows: [['The deck start adds 2 and 3: ', ['LT8 pushes each', '#start,4096,4'], ', ADD takes both and ', ['pushes 5', '#start,4096,5'], ', and PRINT of the MCP prints it: 1.1 5. The 1.1 before each line is its task, the first one of the first job.'],
      ['The small number in a cell is its tag: ', ['0 is an operand, 1 a reference', '#start,4096,4'], '. An operand is a number if its upper bits are 0; operators on bits set any of the 48. A couple, as 0,9 or 2,2, is a reference: it names a cell by its level and its place. NAMC pushes one.']],
    tasks: [
      {id: '1.1', kind: 'predict', at: 'start,4096,4', text: 'What does the ADD leave?'},
      {id: '1.2', kind: 'write', text: 'Write a deck that prints 42.', lines: ['1.1 42', '1.1 ENDED']},
      {id: '1.3', kind: 'write', text: 'Can a program add 1 to a reference? Say what will be printed, then write a deck that tries: push a couple and 1, and ADD them.', untold: true, lines: ['1.1 INVALID OPERAND']},
      {id: '1.4', kind: 'write', text: 'What comes after the greatest number, 549755813887: the least one, 0, or something else? Write a deck that adds 1 to it. LT48 pushes a number of that size.', untold: true, lines: ['1.1 INTEGER OVERFLOW']},
      {id: '1.5', kind: 'write', text: 'A number has 40 bits, a word 48. LNOT turns all 48 over. What does PRINT say of such a word? Write a deck that gives it one.', untold: true, lines: ['1.1 EXPONENT']}]},
  {id: '2', title: 'Stacks and the display', idea: 'A call is an activation record. The dynamic link is the way back; the static link leads to the record in which the procedure was declared.',
    shows: [[['FACT has called itself', '#factorial,4096,24'], ': records 3 and 4 have one level, 3. The line at the left of a record is its static link: it leads to the record in which the procedure was declared.'],
      ['D[3] is the display register of level 3: the couple 3,2 names a cell of the record that has it.']],
    tasks: [
      {id: '2.1', kind: 'predict', at: 'factorial,4096,23', text: 'FACT calls itself: where does the static link of the new record lead?'},
      {id: '2.2', kind: 'find', at: 'factorial,4096,0', text: 'Go to the first RETN: a record is left, and 3,2 is another cell than before.', holds: made('RETN'), first: true},
      {id: '2.3', kind: 'find', at: 'factorial,4096,0', text: 'FACT(n) calls FACT(n - 1). For which n does the stack of task 1.1 come to six records? Go to such a moment.', holds: state => deepest(state) >= 6},
      {id: '2.4', kind: 'write', at: 'factorial,4096', text: 'Why can’t FACT have level 4? Give it that level, and press Check: the loader refuses it by its rule 8.', refused: /^LOAD \d+ REASON 8 /,
        why: 'MAIN has level 2, and FACT is declared in it, so its records have level 3: the static link of each leads to one of level 2.'},
      {id: '2.5', kind: 'write', text: 'Can an operator take a word from below an open mark? Write a deck that pushes a word, marks the stack with MKST, and then tries to take the word: DLET takes one.', untold: true, lines: ['1.1 STACK UNDERFLOW']}]},
  {id: '3', title: 'Call by name', tells: {1: '3.1', 2: '3.2'}, idea: 'ALGOL 60 passes an expression, which is evaluated at each use. Here a thunk is passed, a procedure without parameters; an operator that wanted a value meets it, and enters it by accident.',
    shows: [
      ['The call ', ['SUM(i, i × i)', '#jensen,4096,13'], ' passes no values: the cells 3,2 and 3,3 of its record hold references to two procedures of record 1, IREF and SQ.'],
      [['The STOD of card 24', '#jensen,4096,17'], ' is to store into 3,2, meets IREF there, and enters it by accident: record 4, which no ENTR has called.'],
      ['IREF returns a reference to cell 2,2, and ', ['the same STOD, made once more', '#jensen,4096,21'], ', stores 1 there: so i is stored in record 1, that of the outer block.'],
      [['The VALC of card 30', '#jensen,4096,30'], ' enters SQ in the same way, and the static link of SQ leads to record 1 too, so SQ multiplies the i that SUM has set.'],
      ['Each turn of the loop computes the term anew, and ', ['operator 321', '#jensen,4096,321'], ' prints the sum of the ten squares, 385.']],
    tasks: [
      {id: '3.1', kind: 'predict', at: 'jensen,4096,16', text: 'STOD meets IREF: where does the static link of the new record lead?'},
      {id: '3.2', kind: 'find', at: 'jensen,4096,0', text: 'Go to the first operator that stores into i, which is cell 2,2.', how: 'Step until the cell is in the picture, click it, and press n: the next store into it.', holds: into('1.1 1 2'), first: true},
      {id: '3.3', kind: 'find', at: 'jensen,4096,30', text: 'How often is i × i computed? Go to the last time: the MULT that leaves 100.', how: 'Click the card with MULT, and press Enter again and again: each time counts.', holds: state => made('MULT')(state) && recordsOf(state, '1.1').at(-1).cells.at(-1)?.text === '100'},
      {id: '3.4', kind: 'write', at: 'jensen,4096', text: 'What is SUM(i, 1)? Say it first. Then pass ONE in the place of the thunk SQ: two cards become one.', untold: true, lines: ['1.1 10', '1.1 ENDED'], has: /SEGMENT SUM/, lacks: /(?:^[^;\n]*\bSTFF[^]*?){3}/m, lacksSaid: 'the thunk SQ in the call still'},
      {id: '3.5', kind: 'write', at: 'swap,4096', text: 'SWAP(i, A[i]) fails. Does SWAP(A[i], i)? Say what i, A[1] and A[3] are then, and let the deck call it so.', untold: true, lines: ['1.1 3', '1.1 1', '1.1 0', '1.1 ENDED'], has: /SEGMENT SWAP/},
      {id: '3.6', kind: 'find', at: 'manboy,32768,0', text: 'Man or boy, Knuth’s test of 1964: how many records has its stack at most? More than 100, or fewer? Go to a moment at which it has the most.', holds: state => deepest(state) >= 257}]},
  {id: '4', title: 'Tasks on a cactus', tells: {1: '4.1', 2: '4.1', 3: '4.1 4.2'}, idea: 'A child has a stack of its own, whose first static link leads into its parent’s stack. Both see the same cells, and one may read between the other’s reading and writing.',
    shows: [
      ['Two tasks add 1 to one cell, 2,2 in record 1 of task 1.1: the child 1.2, which ', ['operator 6', '#switched,685,6'], ' starts, finds it by its static link.'],
      [['Operator 7', '#switched,685,7'], ', card 14, fetches the 0 of the cell for the parent, and then the card ?SWITCH 7 1.2 hands over to the child.'],
      [['The child fetches 0', '#switched,685,8'], ' as well, adds 1, and ', ['stores 1 with card 33', '#switched,685,12'], '.'],
      ['The parent goes on with the 0 that it has fetched, and ', ['card 18 stores 1', '#switched,685,17'], ' where 1 is already: with operator 17 an addition is lost.'],
      ['Without the switch ', ['the same program prints 2', '#shared,685,26'], ', since the child fetches what its parent has stored.']],
    tasks: [
      {id: '4.1', kind: 'predict', at: 'switched,685,7', text: 'Which task makes operator 8?'},
      {id: '4.2', kind: 'find', at: 'switched,685,0', text: 'The lost addition: go to the store that changes nothing.', how: 'Click the cell 2,2 when it is in the picture, and press n: the next store into it. What changed says what it was before.', asksLost: true, holds: state => state.changes.some(it => it.into && / already$/.test(it.text))},
      {id: '4.3', kind: 'write', at: 'shared,685', text: 'What if the parent doesn’t await its child? Say which line comes first, and how each task ends. Then take the cards of AWAIT out of the deck shared (18 to 21; the MKST of card 22 stays), and run it.', untold: true, lines: ['1.1 1', '1.2 PARENT', '1.1 CRITICAL BLOCK']},
      {id: '4.4', kind: 'find', at: 'dining,3258,0', text: 'The philosophers: go to a moment at which four tasks or more wait.', how: 'Below each stack stands whether its task waits. They wait for one another’s forks, so shortly before none can go on.', holds: state => state.tasks.filter(task => task.condition !== 'ready').length >= 4},
      {id: '4.5', kind: 'write', text: 'Write a deck of one task that waits for an event which nobody causes. WAIT is a procedure of the MCP, and takes the couple of a cell with 0.', lines: ['1.1 DEADLOCK']}]},
  {id: '5', title: 'Paging and the theorem', core: true, tells: {2: '5.1 5.2', 3: '5.2'}, idea: 'What doesn’t fit core goes to the backing. Which array is where depends on core’s size; what is printed doesn’t, and that is proved, for every deck and any two cores.',
    shows: [
      ['Core has 630 words, so two arrays of 200 words can’t be in it together, and ', ['when both are made', '#two,630,8'], ' neither is, since words come into core when they are first touched.'],
      [['The STOD of card 22', '#two,630,17'], ' touches the first array, which comes into core as zeros, and its element 5 becomes 11.'],
      [['The STOD of card 25', '#two,630,20'], ' touches the second one, and the first leaves core for the sectors 2 to 8; no copy is turned, since both copies were made before their arrays came into core. Which areas leave is the machine’s choice, as long as they make room: an area has two words more than its array, so 202 are wanted, and only the other array has as many.'],
      [['Operator 23', '#two,630,23'], ' fetches 11 and ', ['operator 24', '#two,630,24'], ' fetches 12, and each of them brings one array into core and writes the other to its sectors.'],
      ['Beside it ', ['a core of 4,096 words', '#two,630,24,4096'], ' holds both arrays at the same operator: other pages in core, and ', ['the same line, 23', '#two,630,26,4096'], '.'],
      ['Why can’t a program tell? No operator gives it an address of core: it names a cell by a couple, and a word of an array by the array and an index. Whoever touches an array that is absent waits until the same words are back.']],
    tasks: [
      {id: '5.1', kind: 'find', at: 'two,630,0', text: 'Two arrays, and core for one. At which operator does an array leave core for the first time: when the second is made, or later? Go there.', holds: outOfCore, first: true},
      {id: '5.2', kind: 'predict', at: 'two,630,22', text: 'An array comes into core. What leaves core?'},
      {id: '5.3', kind: 'find', at: 'two,630,0', text: 'Give the deck two a core in which both arrays stay, and go to its end.', how: 'Work out how many words more are wanted than 630. Type the words of core above, beside the deck’s name.', misses: 'Not yet: at the end of this run an array is out of core.', holds: state => state.status === 0 && state.coreWords > 630 && (state.remains?.things ?? []).filter(it => it.kind === 'array').every(it => it.at)},
      {id: '5.4', kind: 'write', at: 'ten,4096', text: 'How few words of core does the deck ten need? Work it out: 160 for the MCP, 2 and one for each segment for the dictionary, the stack, then the segment and the array with 2 more each. Run it in exactly that core.', leastCore: true, has: /^\?JOB TEN$/m},
      {id: '5.5', kind: 'find', at: 'two,630,24,4096', text: 'Two cores side by side: go to the moment at which both have printed 23.', holds: state => state.count === 26 && state.lines.total > 0}]},
  {id: '6', title: 'An image, kept and resumed', core: true, idea: 'A halted machine is a text, the image, and its backing. From both the run goes on, and prints what it had still to print, which is proved.',
    shows: [['Beside the deck, under More, the button Image halts a run after some operators, and Resume goes on from there. At ', ['operator 20 of two', '#two,630,20'], ' the 11 of the first array is in its sectors alone; in ', ['a core of 4,096', '#two,4096,20'], ' it is in the image.'],
      [['Stacks in words', '#two,630,20'], ', at the right below core and backing, is what the command dump prints of an image. ', ['In both cores', '#two,630,20,4096'], ' it is the same.']],
    tasks: [
      {id: '6.1', kind: 'write', at: 'two,630', text: 'Halt two after 20 operators (More, Image), then let it go on (Resume): 23 is printed.', resumed: ['1.1 23', '1.1 ENDED']},
      {id: '6.2', kind: 'write', text: 'Write a deck with a ?HALT card that prints 7 and then halts, with a task alive.', lines: ['1.1 7'], halts: true},
      {id: '6.3', kind: 'write', text: 'For the end: a loop that prints the squares 1, 4, 9, 16, 25.', lines: ['1.1 1', '1.1 4', '1.1 9', '1.1 16', '1.1 25', '1.1 ENDED'], has: /^[^;]*BR(TR|FL)/m, hasSaid: 'a loop, with BRTR or BRFL'}]},
];

export const COURSE = [...FIRST, ...TERM];
export const TASKS = COURSE.flatMap(lesson => lesson.tasks);

// The addresses of all moments that the lessons lead to.
export function momentsOfLessons() {
  return COURSE.flatMap(lesson => lesson.shows.flat().filter(Array.isArray).map(([, address]) => address));
}
