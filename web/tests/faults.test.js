// Faults: small decks, each with the operator that faults, what is said of it, and the causes that fit. B67 names the native program.
import assert from 'node:assert/strict';
import {readFileSync} from 'node:fs';
import {after, test} from 'node:test';
import {setImmediate as turn} from 'node:timers/promises';
import {Native} from './native.js';
import {StandIn} from './stand-in.js';
import {Desk} from '../src/page/worker.js';
import {fittingCauses, fittingMeaning} from '../src/words/faults.js';
import {refusedWord} from '../src/words/refusals.js';
import {explained, statusText, tablesOf} from '../src/words/messages.js';

const native = new Native(process.env.B67 ?? 'b67');
after(() => native.close());
const text = readFileSync(new URL('../../docs/MESSAGES.md', import.meta.url), 'utf8');
const rows = tablesOf(text);

function deckOf(cards, head = '') {
  return `${head}?JOB T\n?ASM\nSEGMENT MAIN 2\n${cards.replaceAll(' / ', '\n')}\n?END\n`;
}

// Name, cards, the card that faults, a pattern of what is said, a pattern of the causes ('' for none), a head.
const FAULTS = [
  ['STACK UNDERFLOW', 'ONE / ADD / EXIT', 5, /^ADD takes 2 words, and record 1 has 1 word: 1\.$/, /^An operand is missing\.$/],
  ['STACK UNDERFLOW', 'ONE / MKST / DLET / EXIT', 6, /record 2 has no word\. The record is open/, /^Words below an open mark/],
  ['STACK OVERFLOW', 'L: ONE / BRUN L', 4, /^The stack of task 1\.1 has 64 words by now, in 1 record/, /^A loop that pushes in each turn: look at what a turn leaves on the stack\.$/, '?STACK 64\n'],
  ['STACK OVERFLOW', 'MPCW F / MKST / NAMC 2,2 / ENTR / EXIT / SEGMENT F 3 / MKST / NAMC 2,2 / ENTR / EXIT', 0, /in \d\d records/, /^A recursion that misses its end/, '?STACK 99\n'],
  ['INVALID OPERAND', 'NAMC 2,2 / ONE / ADD / EXIT', 6, /the couple 2,2 is none\.$/, /^A reference where a number is wanted \(NAMC for VALC\)/],
  ['INVALID OPERAND', 'MKST / NAMC 0,9 / ONE / ONE / ENTR / EXIT', 8, /^PRINT wants 1 argument, and its record has 2 words: 1 and 1\.$/, /^An intrinsic with the wrong number of arguments/],
  ['INVALID OPERAND', 'MKST / NAMC 0,9 / LT8 6 / MULT / ENTR / EXIT', 7, /^MULT takes the couple 0,9 of PRINT and 6\. But the couple 0,9 of PRINT says what is to be called: perhaps an argument is missing\.$/, ''],
  ['INVALID OPERAND', 'ONE / ENTR / EXIT', 5, /entered already: no MKST/, /^ENTR without its MKST\.$/],
  ['INVALID OPERAND', 'MKST / LT8 7 / ENTR / EXIT', 6, /is to lead to a procedure: it is 7\.$/, /^ENTR of what is no procedure/],
  ['INVALID OPERAND', 'MKST / NAMC 0,8 / LT8 9 / ENTR / DUPL / EXIT', 8, /^DUPL takes an array of 9 itself/, /^DLET, EXCH, DUPL or RETN of an array's original/],
  ['INVALID OPERAND', 'MKST / NAMC 0,8 / LT8 9 / ENTR / VALC 2,2 / EXIT', 8, /^The cell that VALC names holds an array of 9/, /./],
  ['INVALID INDEX', 'MKST / NAMC 0,8 / LT8 9 / ENTR / NAMC 2,2 / LT8 9 / NXLV / EXIT', 10, /^The index is 9, and the array has 9 words: the elements 0 to 8\.$/, /^An index that starts at 1/],
  ['INVALID INDEX', 'MKST / NAMC 0,8 / LT8 9 / ENTR / NAMC 2,2 / ONE / CHSN / NXLV / EXIT', 11, /^The index is -1, and/, ''],
  ['INVALID INDEX', 'MKST / NAMC 0,8 / ZERO / ENTR / EXIT', 7, /^ARRAYDEC gets 0; a length/, ''],
  ['INVALID ADDRESS', 'ONE / VALC 2,9 / EXIT', 5, /^The couple 2,9 names cell 9 of record 1, and that record has the cells 2 to 2\.$/, /^The cell isn't pushed yet/],
  ['INVALID ADDRESS', 'ONE / VALC 2,0 / EXIT', 5, /cell 0 of record 1/, /^The first cell has displacement 2, not 0\.$/],
  ['INTEGER OVERFLOW', 'LT48 549755813887 / ONE / ADD / EXIT', 6, /the result would be 549,755,813,888\./, /numbers are too large/],
  ['DIVIDE BY ZERO', 'LT8 7 / ZERO / IDIV / EXIT', 6, /^IDIV takes 7 and 0\.$/, /^Test the divisor first\.$/],
  ['EXPONENT', 'LT8 5 / LNOT / CHSN / EXIT', 6, /which is no whole number\.$/, /^The word was made by LNOT/],
  ['EXPONENT', 'MKST / NAMC 0,11 / ENTR / CHSN / EXIT', 7, /#800000000000/, /^READ has no number left.*LNOT/],
  ['LOOP', 'NAMC 2,2 / VALC 2,2 / EXIT', 5, /so it leads to itself/, /cell that holds its own couple|without STFF/],
  ['MARK PENDING', 'MKST / EXIT', 5, /^Record 2 is open/, /^An MKST without its ENTR\.$/],
  ['INVALID OPERATOR', 'NVLD', 4, /^The card is NVLD/, ''],
  ['INVALID OPERATOR', 'ONE / ZERO', 0, /^Card 5, ZERO, is the last one of its segment, and it isn’t EXIT, RETN or BRUN/, ''],
  ['MEMORY PROTECT', 'ONE / NAMC 1,3 / STOD / EXIT / ROW R / NUM 7', 6, /data row 1,3|names no single word/, /./],
  ['UPLEVEL', 'MPCW F / MKST / NAMC 2,2 / ENTR / EXIT / SEGMENT F 3 / ONE / NAMC 3,2 / STFF / RETN', 13, /leads into the record that is left\.$/, /^Let the caller own/],
  ['CRITICAL BLOCK', 'MPCW P / MPCW Q / MKST / NAMC 2,3 / ENTR / EXIT / SEGMENT P 3 / EXIT / SEGMENT Q 3 / MKST / NAMC 0,12 / NAMC 2,2 / ENTR / DLET / EXIT', 18, /^Record 2 would be left, and task 1\.2, started by task 1\.1, lives still\.$/, /^AWAIT the task first/],
  ['DEADLOCK', 'ZERO / MKST / NAMC 0,15 / NAMC 2,2 / ENTR / EXIT', 8, /^Task 1\.1, the last one that was ready, waits by this ENTR\.$/, /in a circle/],
  ['LIMIT', 'L: BRUN L', 4, /^Job 1 has made as many operators as it may/, /^An endless loop: step back/],
];

for (const [name, cards, card, said, causes, head] of FAULTS) {
  test(`${name}: ${cards}`, async () => {
    await turn();
    const desk = new Desk(() => {});
    desk.program = new StandIn(native);
    const found = desk.fault({deck: deckOf(cards, head), core: 4096});
    assert.equal(found.name, name);
    if (card) assert.equal(found.operator.card - (head ? 1 : 0), card);
    assert.match(found.said, said);
    const fitting = fittingCauses(explained(rows, `1.1 ${name}`).advice, found.fits);
    if (causes === '') assert.equal(fitting, '');
    else assert.match(fitting, causes);
  });
}

test('of a meaning of several clauses that which holds', () => {
  const {means} = explained(rows, '1.1 INVALID INDEX');
  assert.match(fittingMeaning(means, {clause: 0}), /^An index isn't 0 or more and below the length\.$/);
  assert.match(fittingMeaning(means, {clause: 1}), /^ARRAYDEC or RESIZE was asked/);
  assert.deepEqual([fittingMeaning(means, {}), fittingMeaning(means, {after: 5})], [means, '']);
});

test('a refused card of assembly whose word is wrong', () => {
  const refused = [['ONE / AD / EXIT', 'ASM 5 REASON 1', 'No operator is called AD. Is it to be ADD?'], ['L: ENTER', 'ASM 4 REASON 1', 'No operator is called ENTER. Is it to be ENTR?'], ['add', 'ASM 4 REASON 1', 'Operators have capital letters: ADD.'],
    ['ONE / PRINTIT', 'ASM 5 REASON 1', 'No operator is called PRINTIT.'], ['L : ONE', 'ASM 4 REASON 1', ''], ['BRUN AGAIN', 'ASM 4 REASON 5', 'No card has the label AGAIN: before its operator.'],
    ['MPCW F', 'ASM 4 REASON 5', 'No SEGMENT card is called F.'], ['BRUN L / SEGMENT F 3 / L: EXIT', 'ASM 4 REASON 5', ''], ['LT8 300', 'ASM 4 REASON 3', ''], ['ONE', 'LOAD 1 REASON 8', '']];
  for (const [card, start] of [['LT48 549,755', 'A number has no commas on a card: LT48 549755.'], ['LT8 -5', 'LT8 pushes no negative number: LT8 5, and CHSN'], ['PUSH 5', 'PUSH has no operand, and pushes nothing: LT8 5'], ['VALC 5', 'VALC wants a couple, as VALC 2,2'], ['LT8 300', '']])
    assert.ok(refusedWord('ASM 4 REASON 2', `?JOB A\n?ASM\nSEGMENT MAIN 2\n${card}\n?END\n`).startsWith(start), card);
  for (const [cards, line, sentence] of refused) assert.equal(refusedWord(line, deckOf(cards)), sentence, cards);
});

test('the page’s advice names nothing that the page hasn’t', () => {
  const lines = [...text.matchAll(/^\| `([A-Z ]+)` \|/gm)].map(found => `1.1 ${found[1]}`);
  const refusals = ['DECK', 'ASM', 'CODEFILE', 'LOAD', 'BIND', 'IMAGE'].flatMap(kind => Array.from({length: 15}, (_, k) => `${kind} 1 REASON ${k + 1}`));
  const said = [...lines, ...refusals].map(line => explained(rows, line)).filter(Boolean);
  for (let status = 2; status <= 9; status++) if (status !== 6 && status !== 7) said.push(statusText(rows, status, 'NO CORE 675 630'));
  assert.ok(said.length > 60);
  for (const {means, advice} of said) assert.doesNotMatch(`${means} ${advice}`, /scripts\/|--core|--backing|\bPATH\b|\.sh\b|tracer|undefined/);
  assert.match(statusText(rows, 4, 'NO CORE 675 630').advice, /^Take at least 675 words of core/);
});

test('a core that suffices', async () => {
  await turn();
  const desk = new Desk(() => {});
  desk.program = native;
  const deck = readFileSync(new URL('../../decks/two/stdin', import.meta.url), 'latin1');
  assert.equal(desk.coreFor({deck, core: 256}), 630);
  assert.equal(desk.coreFor({deck, core: 4096}), 4096);
});
