// The lessons 7 to 12, for the weeks of a term that the first six leave out: as those in course.js. A task with `mistake` is done by a deck
// that prints other lines on a machine with that mistake; the mistake is made by changing the deck's cards (mistakes.js).
import {card, into, made, topCells, turned, waits} from './moments.js';

const CODE = {id: '7', title: 'Code from ALGOL, by hand', idea: 'A translator writes cards. Those of an expression leave one word more on the stack; those of a statement leave the stack as they found it. This time you are the translator.',
  shows: [
    ['In the deck ', ['control', '#control,4096,2'], ' the variables s and i are the cells 2,2 and 2,3. Beside its cards stands the text in ALGOL 60, with the line that is made.'],
    ['An expression: ', ['i > 3', '#control,4096,9'], ' is VALC 2,3, LT8 3, GRTR, in the order in which its parts are read, and leaves one word, 0 or 1.'],
    ['A choice: BRFL takes that word, and ', ['goes to the part after else', '#control,4096,10'], ' if its bit 0 is 0. Behind the part after then stands a BRUN over the other.'],
    ['A statement: ', ['s := s - i', '#control,4096,15'], ' has pushed four words and taken four, so the stack is as high as before it.'],
    ['A loop begins with its test, and ', ['ends with a branch back', '#control,4096,21'], '. The cells are where they were, so the couples on the cards still name them.']],
  tasks: [
    {id: '7.1', kind: 'predict', at: 'control,4096,12', text: 'Of s - i the cards are VALC 2,2, VALC 2,3, SUBT, in this order. What does the SUBT leave?'},
    {id: '7.2', kind: 'find', at: 'control,4096,0', text: 'Go to the moment at which s becomes greater than it was, for the first time.', how: 'Which part of the if adds to s, and for which i? A click on a card sets a breakpoint, and Enter goes there.', holds: card(22), first: true},
    {id: '7.3', kind: 'write', text: 'Translate: x := 9; print(x × x - (x + 1)). The variable x is cell 2,2, and the cards of the expression stand in the order in which it is read.', lines: ['1.1 71', '1.1 ENDED'], has: [/VALC 2,2/, /MULT/, /SUBT/], hasSaid: 'the expression with its variable: VALC 2,2, MULT and SUBT'},
    {id: '7.4', kind: 'write', text: 'Translate: for i := 1 step 1 until 20 do if i × i > 200 then print(i). Don’t let a turn of the loop leave a word on the stack.', lines: ['15', '16', '17', '18', '19', '20'].map(it => `1.1 ${it}`).concat('1.1 ENDED'), has: [/BR(TR|FL)/, /MULT/], hasSaid: 'a loop and the product'},
    {id: '7.5', kind: 'write', text: 'A count is no truth value: BRTR looks at bit 0 alone. Translate: x := 6; for x := x - 1 while x ≠ 0 do print(x).', lines: ['1.1 5', '1.1 4', '1.1 3', '1.1 2', '1.1 1', '1.1 ENDED'], has: [/BR(TR|FL)/, /(NEQL|EQUL|GRTR|LESS|GREQ|LSEQ)/], hasSaid: 'a loop with a comparison'},
    {id: '7.6', kind: 'write', text: 'Translate: integer procedure gcd(a, b); value a, b; gcd := if b = 0 then a else gcd(b, a mod b). Print gcd(1071, 462).', lines: ['1.1 21', '1.1 ENDED'], has: [/SEGMENT \w+ 3/, /RDIV/, /RETN/], hasSaid: 'a procedure with RDIV and RETN'}]};

const ARRAYS = {id: '8', title: 'Arrays, bounds and protection', idea: 'A program reaches the words of an array by a descriptor and an index, and by nothing else. The one original owns them; copies name them, and no operator makes a descriptor of a number.',
  shows: [
    ['ARRAYDEC leaves ', ['the original of an array', '#two,4096,4'], ' in cell 2,2: a word of tag 5, which no operator moves or doubles.'],
    ['INDX takes a reference to it and an index, and leaves ', ['a copy that names element 5', '#two,4096,11'], '. It may be handed on, as any word.'],
    ['Every use of an array looks at its length. ', ['Element 4 of four', '#reach,4096,6'], ' isn’t there: the first one is 0.'],
    ['A data row is made by whoever wrote the program, and may only be read. ', ['The copy says so', '#reach,4096,11'], ', whoever has it.'],
    ['And a number with the bits of a couple ', ['is a number', '#reach,4096,15'], ': its tag says so, and LOAD wants a reference.']],
  tasks: [
    {id: '8.1', kind: 'predict', at: 'reach,4096,6', text: 'An array of four words, and the index 4. By which fault does the operator end its task?'},
    {id: '8.2', kind: 'find', at: 'lengths,4096,0', text: 'An array gets another length. Go to the first operator that makes one longer.', how: 'It is the ENTR of a call of RESIZE, intrinsic 18. What changed has the lengths.', holds: card(34), first: true},
    {id: '8.3', kind: 'write', text: 'A procedure is to store 7 into the last element of an array of three, and may not reach the others. Hand it what it needs, and print the array with PRINTROW.', lines: ['1.1 0 0 7', '1.1 ENDED'], has: [/SEGMENT \w+ 3[\s\S]*STO[DN]/, /INDX[\s\S]*SEGMENT \w+ 3/], hasSaid: 'a procedure that stores, and an INDX of whoever calls it'},
    {id: '8.4', kind: 'write', text: 'A store into a data row is refused. What else may never be stored into? Find a deck without a data row that ends with MEMORY PROTECT.', lines: ['1.1 MEMORY PROTECT'], lacks: [/^ROW/m], has: [/STO[DN]/], hasSaid: 'a store'},
    {id: '8.5', kind: 'write', text: 'A procedure makes an array, stores into it, and wants to return a copy of it. What does the machine say, and why must it? Write that deck.', untold: true, lines: ['1.1 UPLEVEL'], has: [/SEGMENT \w+ 3[\s\S]*0,8[\s\S]*RETN/], hasSaid: 'a procedure that makes an array and returns'},
    {id: '8.6', kind: 'write', text: 'RESIZE cuts an array of ten to five words. A copy of element 7 was made before. Write a deck that uses the copy afterwards: what must happen so that it never reads another array’s words?', untold: true, lines: ['1.1 INVALID INDEX'], has: [/0,18/, /INDX/], hasSaid: 'a RESIZE and an INDX'}]};

const TURNS = {id: '9', title: 'Turns', idea: 'Who makes the next operator follows three rules: a card ?SWITCH; else the task that runs, until its turn is over or it waits; else the next one that is ready, in the order of their numbers. So each deck has one order, and you can work it out.',
  shows: [
    ['The deck turns has three jobs of 76, 28 and 44 operators, and ?QUANTUM 20: ', ['after operator 20', '#turns,4096,20'], ' the first one’s turn is over.'],
    ['In ', ['quantum', '#quantum,1708,25'], ' a turn has ten operators. Here task 1.1 has made only five of its turn, and another one follows: it awaits a child.'],
    ['Switches go before: ', ['?SWITCH 7 1.2', '#switched,685,7'], ' hands over after seven operators, whatever the quantum says; and while a switch is left, no turn is over.']],
  tells: {0: '9.1', 1: '9.6'},
  tasks: [
    {id: '9.1', kind: 'predict', at: 'turns,4096,20', text: 'Three jobs, ?QUANTUM 20. Which task makes operator 21?'},
    {id: '9.2', kind: 'find', at: 'turns,4096,0', text: 'The jobs have 76, 28 and 44 operators. Work out after which operator of the run the second one ends, then go there.', how: 'Type the number above the moment. Each job makes 20 operators, then comes the next.', holds: state => (state.fresh ?? []).includes('2.1 ENDED')},
    {id: '9.3', kind: 'write', at: 'turns,4096', text: 'With which quantum do the jobs end in the order of their numbers? Change one card.', lines: ['1.1 ENDED', '2.1 ENDED', '3.1 ENDED'], has: [/SECOND[\s\S]*THIRD/]},
    {id: '9.4', kind: 'write', at: 'turns,4096', text: 'Let the jobs end in the order 3, 1, 2, by cards ?SWITCH in the place of ?QUANTUM. Which rule decides once the last switch has passed?', lines: ['3.1 ENDED', '1.1 ENDED', '2.1 ENDED'], has: [/^\?SWITCH/m, /SECOND[\s\S]*THIRD/], hasSaid: 'a card ?SWITCH'},
    {id: '9.5', kind: 'write', at: 'turns,4096', text: 'The mean of the three ends is the least if the shortest job goes first. Change the order of the jobs, and the quantum, so that it is. Which line comes first then?', lines: ['1.1 ENDED', '2.1 ENDED', '3.1 ENDED'], has: [/SECOND[\s\S]*THIRD[\s\S]*FIRST/, /^(?!\?QUANTUM ([1-9]|[123]\d|4[0-3])\n)/], hasSaid: 'the jobs in the order SECOND, THIRD, FIRST, or turns in which one after the other ends'},
    {id: '9.6', kind: 'find', at: 'quantum,1708,0', text: 'Go to the first moment at which task 1.1 can’t go on, though its turn isn’t over. What does it wait for?', how: 'Below each stack stands whether its task waits.', holds: waits('1.1'), first: true}]};

const FILES = {id: '10', title: 'Codefiles and the loader', idea: 'A program comes as bytes: six syllables to a word, an operator in one of them or more. The loader reads the operators one after the other, and eleven rules say what it admits.',
  shows: [
    ['The deck sum has its program in hexadecimal, under ?HEX. ', ['ae is MKST', '#sum,4096,1'], ', 4009 is NAMC 0,9, b202 is LT8 2. Two ff fill the last word.'],
    ['Before its words a segment has its level and their number: 02 0002. Before all stand eight bytes that say codefile, and how many segments and data rows follow.'],
    ['An ', ['MPCW', '#gears,4096,1'], ' names a segment by its number. So a procedure of another program may come in its place, if its level is the same: that is what Bind does, below the deck, under More.']],
  tasks: [
    {id: '10.1', kind: 'write', at: 'sum,4096', text: 'Change one digit of the codefile so that the program prints 1, and not 5.', lines: ['1.1 1', '1.1 ENDED'], has: [/^\?HEX$/m], hasSaid: 'a codefile under ?HEX'},
    {id: '10.2', kind: 'write', at: 'sum,4096', text: 'Not every byte is an operator. Change one digit so that the loader meets a byte that is none (rule 1).', refused: /^LOAD \d+ REASON 1 /, refusal: 'LOAD 1 REASON 1', has: [/^\?HEX$/m], why: 'The loader reads each operator after the one before, so it says at which place its reading broke.'},
    {id: '10.3', kind: 'write', at: 'sum,4096', text: 'A program’s outer block has level 2, and static links are counted from there. Change one digit so that rule 10 refuses the segment.', refused: /^LOAD \d+ REASON 10 /, refusal: 'LOAD 1 REASON 10', has: [/^\?HEX$/m], why: 'Its static link leads to the dictionary, which has level 1.'},
    {id: '10.4', kind: 'write', at: 'sum,4096', text: 'A branch must lead to an operator. Change the codefile, by as many digits as you like, so that a branch leads between two operators (rule 3).', refused: /^LOAD \d+ REASON 3 /, refusal: 'LOAD 1 REASON 3', has: [/^\?HEX$/m], why: 'Else it could make operators that stand in no listing, of bytes that the loader has read as a number.'},
    {id: '10.5', kind: 'write', at: 'sum,4096', text: 'Does the loader look at numbers, too? Let the program add 174 and 3: in hexadecimal 174 is ae, which is the byte of MKST.', lines: ['1.1 177', '1.1 ENDED'], has: [/^\?HEX$/m, /b2ae/i], hasSaid: 'the byte ae as a number: b2ae'},
    {id: '10.6', kind: 'write', at: 'gears,4096', text: 'The procedures LCM and GCD of gears are stubs. Bind those of library in their place (More, Bind), take what is bound as the deck, and run it: after how many teeth do wheels of 24 and 36 stand as at first?', lines: ['1.1 72', '1.1 ENDED'], has: [/^\?HEX$/m], hasSaid: 'the codefile that Bind has made'}]};

const MORTEM = {id: '11', title: 'Post-mortem', idea: 'A wrong line has a history: a word was wrong before it was printed, and some operator made it so. Say what a cell should hold, look, and go back to the operator that put it there.',
  shows: [
    ['The deck mistake1 should print 12, the sum of 3, 4 and 5, and ends with STACK OVERFLOW. ', ['After the first number', '#mistake1,4096,14'], ' all is well: the sum is 3, and 2,3 was the number.'],
    ['What should lie in 2,3 after the second one? ', ['Look', '#mistake1,4096,17'], ', and say what has been forgotten, before you go on.'],
    ['Click a cell, and the key n goes to the next store into it. ', ['Where does the 7 go', '#mistake3,4096,16'], ' that MAX should return?']],
  tasks: [
    {id: '11.1', kind: 'find', at: 'mistake1,4096,14', text: 'Go to the first moment at which 2,3 isn’t the number that READ gave last.', how: 'Step, and look at the cells of record 1.', holds: state => card(8)(state) && topCells(state, '1.1').length > 2, first: true},
    {id: '11.2', kind: 'find', at: 'mistake3,4096,0', text: 'MAX should return 7 and returns 0. Go to the store that went into the wrong cell.', how: 'What changed has the cell of each store.', holds: into('1.1 1 4'), first: true},
    {id: '11.3', kind: 'find', at: 'mistake4,4096,0', text: 'A LOOP is a cell that leads to itself. Go to the moment at which that cell comes to be.', how: 'From the fault go back.', holds: state => made('ENTR')(state) && topCells(state, '1.1').at(-1)?.text === '3,2', first: true},
    {id: '11.4', kind: 'write', at: 'mistake2,4096', text: 'The deck should print 5, 4, 3, 2 and 1. Why does it stop after 5? Mend it.', lines: ['1.1 5', '1.1 4', '1.1 3', '1.1 2', '1.1 1', '1.1 ENDED'], has: [/BR(TR|FL)/], hasSaid: 'its loop'},
    {id: '11.5', kind: 'write', at: 'mistake5,4096', text: 'A child counts to 3 for its parent, who prints 0. What was handed over? Mend the call, and leave the child as it is.', lines: ['1.2 ENDED', '1.1 3', '1.1 ENDED'], has: [/SEGMENT COUNT 3/, /0,12/], hasSaid: 'the child COUNT'},
    {id: '11.6', kind: 'write', at: 'mistake6,4096', text: 'The child has stored 1, and its parent waits for ever. Whom does a store wake? Mend the child.', lines: ['1.2 ENDED', '1.1 42', '1.1 ENDED'], has: [/SEGMENT WORK 3/, /0,15/], hasSaid: 'the parent’s WAIT'}]};

const PROOF = {id: '12', title: 'What a proof says', core: true, idea: 'A test says that one run was right; a theorem says it of all runs. Whoever writes a theorem asks which wrong machine it would let pass. Here are wrong machines: find a deck that tells each of them from the right one.',
  shows: [
    ['The main theorem is of two runs: ', ['two cores, one list of lines', '#two,630,26,4096'], '. It would be true of a machine that always stops with NO CORE. So another clause says that NO CORE comes only where the words that are needed exceed core.'],
    ['And when an array leaves core, ', ['a copy that led there is turned', '#turned,630,21'], ': a machine that left this out would read another array’s words, in the small core alone.'],
    ['A mistake that no deck of yours shows is still a mistake: the docs’ statement.html has what is promised for all decks, clause by clause.']],
  tells: {1: '12.1'},
  tasks: [
    {id: '12.1', kind: 'find', at: 'turned,630,0,4096', text: 'A machine forgets to turn copies when their array leaves core. Its lines would be right in an ample core. Go to the operator at which the right one turns a copy, in the small core.', how: 'What changed says what is turned, and for which array.', holds: turned, first: true},
    {id: '12.2', kind: 'write', text: 'A machine’s EQUL compares the 48 bits of two words, as SAME does. For which numbers is that wrong? Write a deck that prints something else on it.', mistake: 'equl', has: [/EQUL/], hasSaid: 'an EQUL'},
    {id: '12.3', kind: 'write', text: 'A machine’s BRTR branches if the word isn’t 0, and not if its bit 0 is 1. Write a deck that prints something else on it.', mistake: 'brtr', has: [/BRTR/], hasSaid: 'a BRTR'},
    {id: '12.4', kind: 'write', text: 'A machine’s STFF does nothing. Many decks don’t notice. Write one that does.', mistake: 'stff', has: [/STFF/], hasSaid: 'an STFF'},
    {id: '12.5', kind: 'write', text: 'A machine lets a job make one operator more than its ?LIMIT. Write a deck that prints something else on it.', mistake: 'limit', has: [/^\?LIMIT/m], hasSaid: 'a card ?LIMIT'},
    {id: '12.6', kind: 'write', text: 'The theorem is of cores and not of turns: a deck may print other lines at another quantum. Write one with ?QUANTUM 1 that prints something else at 1,000.', mistake: 'quantum', has: [/^\?QUANTUM 1$/m], hasSaid: 'a card ?QUANTUM 1'}]};

export const TERM = [CODE, ARRAYS, TURNS, FILES, MORTEM, PROOF];
