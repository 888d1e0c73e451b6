// The first deck of the page, and the one to begin with for a deck of one's own.
export const START = {name: 'start', core: 4096, about: 'Two and three: a deck to begin with. Change it, and Run.',
  text: '?JOB MINE\n?ASM\nSEGMENT MAIN 2\nMKST            ; begins a call\nNAMC 0,9        ; of PRINT\nLT8 2           ; its argument\nLT8 3\nADD\nENTR            ; calls it\nEXIT            ; the end\n?END\n'};

// The decks in groups, each with what it is for.
export const GROUPS = [
  ['first steps', ['start', 'sum', 'addup', 'squares', 'sort', 'fields', 'library', 'gears', 'lights', 'entry']],
  ['calls and names', ['factorial', 'levels', 'jensen', 'swap', 'names', 'manboy', 'mapproc', 'chain']],
  ['arrays and paging', ['two', 'ten', 'leave', 'lengths', 'turned', 'bst', 'forty', 'full']],
  ['tasks and jobs', ['shared', 'switched', 'order', 'family', 'event', 'producer', 'generator', 'status', 'dining', 'bank', 'bank2', 'quantum', 'jobs', 'rivals', 'eight', 'crowd']],
  ['in ALGOL 60', ['sum', 'manboy', 'jensen2', 'swap', 'order', 'ackermann', 'quicksort', 'sieve', 'queens', 'matrix', 'threelevels', 'leave', 'calculator', 'pl0', 'producer', 'dining', 'bank'].map(name => `algol-${name}`)],
  ['faults and ends', ['fault', 'protect', 'critical', 'limit', 'halt']],
  ['for the lessons 7 to 12', ['control', 'reach', 'turns', 'rows', 'columns', 'locks', 'mistake1', 'mistake2', 'mistake3', 'mistake4', 'mistake5', 'mistake6']],
];

// The first deck, and those of the repository, as web.sh puts them into the page: `#DECK name core`, `#ABOUT text`, and the cards.

export function decksOf(text) {
  const decks = new Map([[START.name, START]]);
  for (const part of text.split(/^#DECK /m).slice(1)) {
    const [head, about, ...cards] = part.split('\n');
    const [name, core] = head.split(' ');
    decks.set(name, {name, core: Number(core), about: about.replace(/^#ABOUT /, ''), text: `${cards.join('\n').trimEnd()}\n`});
  }
  return decks;
}
