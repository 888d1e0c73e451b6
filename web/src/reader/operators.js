// The operators: their bytes, what follows them, and what each one does in a line.

const TABLE = '80 ADD 0 81 SUBT 0 82 MULT 0 84 IDIV 0 85 RDIV 0 88 LESS 0 89 GREQ 0 8a GRTR 0 8b LSEQ 0 8c EQUL 0 '
  + '8d NEQL 0 8e CHSN 0 90 LAND 0 91 LOR 0 92 LNOT 0 93 LEQV 0 94 SAME 0 96 BSET 1 9a ISOL 2 9c INSR 2 '
  + '9e BRST 1 a0 BRFL 2 a1 BRTR 2 a2 BRUN 2 a3 EXIT 0 a6 INDX 0 a7 RETN 0 ab ENTR 0 ad NXLV 0 ae MKST 0 '
  + 'af STFF 0 b0 ZERO 0 b1 ONE 0 b2 LT8 1 b3 LT16 2 b4 PUSH 0 b5 DLET 0 b6 EXCH 0 b7 DUPL 0 b8 STOD 0 '
  + 'b9 STON 0 bd LOAD 0 be LT48 8 bf MPCW 8 fe NOOP 0 ff NVLD 0';

// By its byte: the operator's name and how many bytes follow; 8 for a word at the next word's beginning.
export const OPERATORS = new Map(TABLE.match(/\S+ \S+ \S+/g).map(entry => {
  const [byte, name, wants] = entry.split(' ');
  return [parseInt(byte, 16), [name, Number(wants)]];
}));

// How many words of the top record an operator takes; the others take none.
export const TAKES = {STFF: 1, LOAD: 1, STOD: 2, STON: 2, INDX: 2, NXLV: 2, ADD: 2, SUBT: 2, MULT: 2, IDIV: 2, RDIV: 2, CHSN: 1, LESS: 2, LSEQ: 2,
  GREQ: 2, GRTR: 2, EQUL: 2, NEQL: 2, SAME: 2, LAND: 2, LOR: 2, LEQV: 2, LNOT: 1, BSET: 1, BRST: 1, ISOL: 1, INSR: 2, BRTR: 1, BRFL: 1, DLET: 1,
  EXCH: 2, DUPL: 1, RETN: 1, ENTR: 1};

export const INTRINSICS = {8: 'ARRAYDEC', 9: 'PRINT', 10: 'PRINTROW', 11: 'READ', 12: 'PROCESS', 13: 'AWAIT', 14: 'STATUS',
  15: 'WAIT', 16: 'CAUSE', 17: 'DEALLOCATE', 18: 'RESIZE'};

export const MEANINGS = {
  ZERO: 'pushes 0', ONE: 'pushes 1', LT8: 'pushes a number', LT16: 'pushes a number', LT48: 'pushes a number',
  VALC: 'pushes the value of the cell', NAMC: 'pushes a couple, which names the cell',
  STFF: 'makes the couple on top a reference that holds in any procedure', LOAD: 'replaces the reference on top by the word that it leads to',
  STOD: 'takes a number and a reference, in either order, and stores the number there', STON: 'stores as STOD does, and keeps the number',
  INDX: 'takes an array and an index: makes a copy that names one element', NXLV: 'takes an array and an index: pushes the element’s value',
  ADD: 'adds the two numbers on top', SUBT: 'subtracts the number on top from the one below', MULT: 'multiplies the two numbers on top',
  IDIV: 'divides the number below by the one on top', RDIV: 'leaves the remainder of the division', CHSN: 'changes the sign',
  LESS: 'leaves 1 if the number below is less, else 0', LSEQ: 'leaves 1 if the number below is less or equal, else 0',
  GRTR: 'leaves 1 if the number below is greater, else 0', GREQ: 'leaves 1 if the number below is greater or equal, else 0',
  EQUL: 'leaves 1 if the two are equal, else 0', NEQL: 'leaves 1 if the two differ, else 0', SAME: 'leaves 1 if all 48 bits are equal, else 0',
  LAND: 'makes the “and” of 48 bits', LOR: 'makes the “or” of 48 bits', LNOT: 'turns all 48 bits', LEQV: 'leaves 1 bits where both are equal',
  BSET: 'sets a bit', BRST: 'resets a bit', ISOL: 'takes out a field', INSR: 'puts a field in',
  BRUN: 'goes to the place named', BRTR: 'goes to the place named if the word on top is true, which is an odd number, as 1', BRFL: 'goes to the place named if the word on top is false, which is an even number, as 0',
  MKST: 'marks the stack: a record for a call is begun', ENTR: 'calls: enters the record that was begun',
  EXIT: 'leaves the procedure without a value', RETN: 'leaves the procedure with the word on top as its value',
  MPCW: 'pushes the entry of a procedure', DLET: 'drops the word on top', EXCH: 'exchanges the two words on top',
  DUPL: 'doubles the word on top', PUSH: 'does nothing here: LT8 and VALC push', NOOP: 'does nothing', NVLD: 'is no operator: INVALID OPERATOR',
};
