// How each task of the course is done, rightly and wrongly, for the tests: by node over the native program, and by check-page.sh in a browser.
import {readFileSync} from 'node:fs';

function deck(name, folder = 'decks') {
  return readFileSync(new URL(`../../${folder}/${name}/stdin`, import.meta.url), 'latin1');
}
function ofTerm(name) {
  return deck(name, 'teaching/decks');
}
// A deck of one job from its cards.
export function asm(cards, head = '') {
  return `${head}?JOB T\n?ASM\nSEGMENT MAIN 2\n${cards.replaceAll(' / ', '\n')}\n?END\n`;
}

// The answer to each question, and a wrong one.
export const PREDICTED = {'1.1': ['5', '6'], '2.1': ['1.1 record 1', '1.1 record 3'], '3.1': ['1.1 record 1', '1.1 record 3'], '4.1': ['1.2', '1.1'],
  '5.2': ['array 2,3 of task 1.1, record 1', 'segment 1, MAIN'], '7.1': ['-1', '1'], '8.1': ['INVALID INDEX', 'STACK UNDERFLOW'], '9.1': ['2.1', '1.1']};

// An operator at which each moment is found, and one at which it isn't; of a first one the other may be a later one.
export const FOUND = {'2.2': [30, 31], '2.3': [118, 117], '3.2': [21, 17], '3.3': [294, 293], '3.6': [3387, 3000], '4.2': [17, 12], '4.4': [154, 20], '5.1': [20, 23], '5.5': [26, 25],
  '7.2': [74, 15], '8.2': [51, 85], '9.2': [88, 132], '9.6': [25, 30], '11.1': [17, 30], '11.2': [18, 11], '11.3': [10, 9], '12.1': [21, 20]};

const squares = 'ONE / L: MKST / NAMC 0,9 / VALC 2,2 / VALC 2,2 / MULT / ENTR / VALC 2,2 / ONE / ADD / NAMC 2,2 / STON / LT8 5 / LSEQ / BRTR L / EXIT';
const print = (number, head) => asm(`MKST / NAMC 0,9 / ${number} / ENTR / EXIT`, head);

const above = 'ONE / F: VALC 2,2 / LT8 20 / LSEQ / BRFL E / VALC 2,2 / DUPL / MULT / LT8 200 / GRTR / BRFL S / MKST / NAMC 0,9 / VALC 2,2 / ENTR / S: VALC 2,2 / ONE / ADD / NAMC 2,2 / STOD / BRUN F / E: EXIT';
const greatest = 'MPCW G / MKST / NAMC 0,9 / MKST / NAMC 2,2 / LT16 1071 / LT16 462 / ENTR / ENTR / EXIT / SEGMENT G 3 / VALC 3,3 / ZERO / EQUL / BRFL M / VALC 3,2 / RETN / M: MKST / NAMC 2,2 / VALC 3,3 / VALC 3,2 / VALC 3,3 / RDIV / ENTR / RETN';
const stores = how => `MKST / NAMC 0,8 / LT8 3 / ENTR / MPCW P / MKST / NAMC 2,3 / NAMC 2,2 / LT8 2 / ${how} / ENTR / MKST / NAMC 0,10 / NAMC 2,2 / LOAD / ENTR / EXIT / SEGMENT P 3 / LT8 7 / NAMC 3,2 / STOD / EXIT`;
const called = 'MPCW P / MKST / NAMC 2,2 / ENTR / EXIT / SEGMENT P 3';
const cut = length => `MKST / NAMC 0,8 / LT8 10 / ENTR / NAMC 2,2 / LT8 7 / INDX / MKST / NAMC 0,18 / NAMC 2,2 / LOAD / LT8 ${length} / ENTR / VALC 2,3 / EXIT`;
const jobs = ofTerm('turns').split(/(?=^\?JOB)/m);
const reordered = quantum => [`${quantum}\n`, jobs[2], jobs[3], jobs[1]].join('');
const hex = words => `?JOB HEX\n?HEX\n423637434f44453100010000020002\n${words}\n?END\n`;
const bound = `?JOB BOUND\n?HEX\n${readFileSync(new URL('../../decks/bound/stdout', import.meta.url), 'latin1')}?END\n`;
const unstuffed = asm('MPCW P / MPCW Q / MKST / NAMC 2,2 / LT8 5 / ENTR / EXIT / SEGMENT P 3 / MKST / NAMC 2,3 / NAMC 3,2 / STFF / ENTR / EXIT / SEGMENT Q 3 / MKST / NAMC 0,9 / VALC 3,2 / ENTR / EXIT');

// A deck that does each task, and one that does almost the same.
export const WRITTEN = {
  '1.2': [print('LT8 42'), print('LT8 43')],
  '1.3': [asm('NAMC 2,2 / ONE / ADD / EXIT'), asm('ONE / ONE / ADD / EXIT')],
  '1.4': [print('LT48 549755813887 / ONE / ADD'), print('LT48 549755813886 / ONE / ADD')],
  '1.5': [print('LT8 5 / LNOT'), print('LT8 5')],
  '2.4': [deck('factorial').replace('SEGMENT FACT 3', 'SEGMENT FACT 4'), deck('factorial').replace('SEGMENT FACT 3', 'SEGMENT FAC 3')],
  '2.5': [asm('ONE / MKST / DLET / EXIT'), asm('ONE / DLET / MKST / EXIT')],
  '3.4': [deck('jensen').replace('NAMC 2,4\nSTFF', 'ONE'), print('LT8 10')],
  '3.5': [deck('swap').replace('NAMC 2,5\nSTFF\nNAMC 2,6\nSTFF', 'NAMC 2,6\nSTFF\nNAMC 2,5\nSTFF'), deck('swap')],
  '4.3': [deck('shared').split('\n').filter((_, k) => k < 17 || k > 20).join('\n'), deck('shared')],
  '4.5': [asm('ZERO / MKST / NAMC 0,15 / NAMC 2,2 / ENTR / EXIT'), asm('ONE / MKST / NAMC 0,15 / NAMC 2,2 / ENTR / EXIT')],
  '5.4': [deck('ten'), deck('ten')],
  '6.2': [print('LT8 7', '?HALT 4\n'), print('LT8 7')],
  '6.3': [asm(squares), asm(squares.replace('LT8 5', 'LT8 6'))],
  '7.3': [asm('LT8 9 / MKST / NAMC 0,9 / VALC 2,2 / VALC 2,2 / MULT / VALC 2,2 / ONE / ADD / SUBT / ENTR / EXIT'), asm('LT8 9 / MKST / NAMC 0,9 / VALC 2,2 / VALC 2,2 / MULT / VALC 2,2 / SUBT / ONE / ADD / ENTR / EXIT')],
  '7.4': [asm(above), asm(above.replace('LT8 200', 'LT8 225'))],
  '7.5': [asm('LT8 6 / L: VALC 2,2 / ONE / SUBT / NAMC 2,2 / STON / ZERO / NEQL / BRFL E / MKST / NAMC 0,9 / VALC 2,2 / ENTR / BRUN L / E: EXIT'), asm('LT8 6 / L: VALC 2,2 / ONE / SUBT / NAMC 2,2 / STON / BRFL E / MKST / NAMC 0,9 / VALC 2,2 / ENTR / BRUN L / E: EXIT')],
  '7.6': [asm(greatest), asm(greatest.replace('LT16 1071 / LT16 462', 'LT8 21 / LT8 42').replace('RDIV', 'RDIV / DLET / ONE'))],
  '8.3': [asm(stores('INDX')), asm(stores('NXLV'))],
  '8.4': [asm('ONE / NAMC 0,9 / STOD / EXIT'), `${asm('ONE / NAMC 1,R / ZERO / INDX / STOD / EXIT').replace('?END', 'ROW R\nNUM 5\n?END')}`],
  '8.5': [asm(`${called} / MKST / NAMC 0,8 / LT8 3 / ENTR / NAMC 3,2 / LOAD / RETN`), asm(`${called} / MKST / NAMC 0,8 / LT8 3 / ENTR / ZERO / RETN`)],
  '8.6': [asm(cut(5)), asm(cut(8))],
  '9.3': [ofTerm('turns').replace('QUANTUM 20', 'QUANTUM 76'), ofTerm('turns').replace('QUANTUM 20', 'QUANTUM 50')],
  '9.4': [ofTerm('turns').replace('?QUANTUM 20', '?SWITCH 0 3.1\n?SWITCH 44 1.1\n?SWITCH 120 2.1'), ofTerm('turns').replace('?QUANTUM 20', '?SWITCH 0 2.1')],
  '9.5': [reordered('?QUANTUM 76'), reordered('?QUANTUM 20')],
  '10.1': [deck('sum').replace('80aba3', '81aba3').replace('b202b2', 'b204b2'), deck('sum')],
  '10.2': [deck('sum').replace('aba3', 'aba9'), deck('sum').replace('0002\n', '0003\n')],
  '10.3': [deck('sum').replace('020002', '030002'), deck('sum').replace('020002', '220002')],
  '10.4': [hex('0003ae4009a24000\n0003a3ffffffffff'), hex('0003ae4009a22000\n0003a3ffffffffff')],
  '10.5': [deck('sum').replace('b202', 'b2ae'), deck('sum').replace('b203', 'b2af')],
  '10.6': [bound, deck('gears')],
  '11.4': [ofTerm('mistake2').replace('STON\n', 'STON\nZERO\nGRTR\n'), ofTerm('mistake2')],
  '11.5': [ofTerm('mistake5').replace('NAMC 2,3\nVALC 2,2', 'NAMC 2,3\nNAMC 2,2\nSTFF'), ofTerm('mistake5')],
  '11.6': [ofTerm('mistake6').replace('ONE\nNAMC 2,3\nSTOD ', 'MKST\nNAMC 0,16\nNAMC 2,3\nENTR '), ofTerm('mistake6')],
  '12.2': [print('LT48 #400000000000 / ZERO / EQUL'), print('ONE / ZERO / EQUL')],
  '12.3': [asm('LT8 2 / BRTR T / MKST / NAMC 0,9 / ONE / ENTR / T: EXIT'), asm('ONE / BRTR T / MKST / NAMC 0,9 / ONE / ENTR / T: EXIT')],
  '12.4': [unstuffed, deck('names')],
  '12.5': [asm('MKST / NAMC 0,9 / ONE / ENTR / L: BRUN L').replace('?ASM', '?LIMIT 3\n?ASM'), asm('L: BRUN L').replace('?ASM', '?LIMIT 3\n?ASM')],
  '12.6': [`?QUANTUM 1\n${deck('shared').replace('?STACK 256\n', '')}`, `?QUANTUM 1\n${asm('EXIT')}`],
};
export const [LEAST_OF_TEN, SEARCHED] = [533, {'5.3': 4096}]; // the core of 5.4, and the one with which 5.3 is found
