// What some decks are in ALGOL 60: each line, and the cards that stand for it. The cards are by hand, and not what the translator makes, so
// their lines are by hand too. Tests translate each text, which must print what its deck does, and compare numbers and signs with the cards.
const TEXTS = {
  factorial: [['begin integer n;', ''], ['  integer procedure FACT(n); value n; integer n;', '6'], ['    FACT := if n = 0', '22-25'], ['      then 1', '26-27'],
    ['      else n × FACT(n - 1);', '28-36'], ['  n := 0;', '7'], ['L: n := n + 1;', '8-12'], ['  print(FACT(n));', '13-19'], ['  go to L', '20'], ['end', '']],
  jensen: [['begin integer i;', '5'], ['  integer procedure SUM(i, term); integer i, term;', '6'], ['  begin integer total; total := 0;', '21'], ['    for i := 1', '22-24'],
    ['      step 1 until 10', '25-28 34-39'], ['      do total := total + term;', '29-33'], ['    SUM := total', '40-41'], ['  end;', ''], ['  print(SUM(', '9-12 17-18'],
    ['    i,', '8 13-14 48-50'], ['    i × i))', '7 15-16 43-46'], ['end', '19']],
  swap: [['begin integer i; integer array A[0:9];', '7-10'], ['  procedure SWAP(a, b); integer a, b;', '16'], ['  begin integer t; t := a;', '44'], ['    a := b;', '45-47'],
    ['    b := t', '48-50'], ['  end;', '51'], ['  i := 1;', '6'], ['  A[1] := 3;', '11-15'], ['  SWAP(', '19-20 25'], ['    i,', '17 21-22 53-55'], ['    A[i]);', '18 23-24 57-60'],
    ['  print(i);', '26-29'], ['  print(A[1]);', '30-35'], ['  print(A[3])', '36-41'], ['end', '42']],
  manboy: [['begin', ''], ['  integer procedure A(k, x1, x2, x3, x4, x5);', '7'], ['    value k; integer k, x1, x2, x3, x4, x5;', ''], ['  begin', ''], ['    integer procedure B;', '24'],
    ['    begin k := k - 1;', '38-42'], ['      B := A := A(k, B, x1, x2, x3, x4)', '43-57'], ['    end;', ''], ['    if k ≤ 0', '25-28'], ['      then A := x4 + x5', '29-32'], ['      else B', '33-36'],
    ['  end;', ''], ['  print(A(8, 1, -1, -1, 1, 0))', '8-21'], ['end', '22']],
  control: [['begin integer s, i;', '6'], ['  s := 0;', ''], ['  for i := 1 step 1 until 6 do', '7-11 29-34'], ['    if i > 3', '12-15'], ['      then s := s + i × i', '16-23'],
    ['      else s := s - i;', '24-28'], ['  for s := s div 2', '35-39'], ['    while s > 10 do;', '40-42'], ['  print(s)', '43-46'], ['end', '47']],
  two: [['begin integer array A[0:199],', '6-9'], ['    B[0:199];', '10-13'], ['  A[5] := 11;', '14-16 20-22'], ['  B[6] := 12;', '17-19 23-25'], ['  print(A[5] + B[6])', '26-31'], ['end', '32']],
};

// The text of a deck: its lines, and for each card the number of its line, from 0; null for a deck without one.
export function algolOf(name) {
  const lines = TEXTS[name];
  if (!lines) return null;
  const cards = new Map();
  lines.forEach(([, spans], k) => {
    for (const span of spans.split(' ').filter(Boolean)) {
      const [from, to = from] = span.split('-').map(Number);
      for (let card = from; card <= to; card++) cards.set(card, k);
    }
  });
  return {lines: lines.map(([text]) => text), cards};
}

export const ALGOL_DECKS = Object.keys(TEXTS);
