// Names for cells. A line `CELL name level,displacement` in a program of ?ASM names a cell, and `VALC name` and `NAMC name` mean its
// couple, up to the next CELL line of that name or the next ?JOB. `CELL name` alone names the next cell of its segment: behind that of the
// CELL line before it, or the first one. The machine knows no names: a deck is given to it with couples, and with each CELL line as a
// comment, so that each card keeps its number. From these comments the page knows the names of a picture.
const [LINE, USE, COMMENT] = [/^\s*CELL(?=\s|$)/, /^(\s*(?:[A-Z][A-Z0-9]*:\s*)?(?:VALC|NAMC)\s+)([a-z][^\s;]*)(.*)$/, /^; CELL (\S{1,24}) (\d+),(\d+)\s*(?:;.*)?$/];
const GIVEN = /^\s*CELL\s+([^\s;]+)(?:\s+(\d{1,2},\d{1,5}))?\s*(;.*)?$/;
const [SEGMENT, FIRST_CELL] = [/^\s*SEGMENT\s+\S+\s+(\d+)/, 2];
const [NAME, MOST_OF_CARD] = [/^[a-z][a-z0-9_]{0,15}$/, 80];

// A deck that can't be given to the machine: the card, and a sentence.
export class NamesRefused extends Error {
  constructor(card, sentence) {
    super(`Card ${card}: ${sentence}`);
    this.card = card;
  }
}

// What a CELL line says: its name, its couple, and the comment behind it. `segment` is the one in which it stands, null outside.
function given(line, card, segment) {
  const found = GIVEN.exec(line), [, name, couple = segment && `${segment.level},${segment.next}`, comment = ''] = found ?? [];
  if (!found) throw new NamesRefused(card, 'a CELL line is CELL, a name, and a couple, as in CELL total 2,3; or without the couple, for the next cell of its segment.');
  if (!NAME.test(name)) throw new NamesRefused(card, `${name} is no name for a cell: a small letter, and then small letters, digits or _, 16 signs at most.`);
  if (!couple) throw new NamesRefused(card, `CELL ${name} names the next cell of a segment, and stands in none: write a couple behind it, as in CELL ${name} 2,3.`);
  return {name, couple, card: found[2] ? line.trim() : `CELL ${name} ${couple}${comment && ` ${comment}`}`};
}

// A card that is too long by its couple loses the end of its comment.
function fitting(card) {
  return card.length > MOST_OF_CARD && card.indexOf(';') < MOST_OF_CARD ? card.slice(0, MOST_OF_CARD) : card;
}

// The deck as the machine gets it. A deck without CELL lines and without names is the same, byte for byte.
export function withoutNames(deck) {
  if (!/^\s*CELL(?=\s|$)/m.test(deck) && !/(?:VALC|NAMC)\s+[a-z]/.test(deck)) return deck;
  let [names, inside, segment] = [new Map(), false, null];
  return deck.split('\n').map((line, k) => {
    if (line.startsWith('?')) {
      if (line.startsWith('?JOB')) [names, segment] = [new Map(), null];
      inside = line.startsWith('?ASM');
    } else if (inside && LINE.test(line)) {
      const {name, couple, card} = given(line, k + 1, segment), [level, at] = couple.split(',').map(Number);
      names.set(name, couple);
      if (level === segment?.level) segment.next = at + 1;
      return fitting(`; ${card.trimEnd()}`);
    } else if (inside) {
      const found = SEGMENT.exec(line);
      if (found) segment = {level: Number(found[1]), next: FIRST_CELL};
      return withCouple(line, k + 1, names);
    }
    return line;
  }).join('\n');
}

function withCouple(line, card, names) {
  const found = USE.exec(line);
  if (!found) return line;
  const [, before, name, after] = found;
  if (!names.has(name)) throw new NamesRefused(card, `no CELL line before it says which cell ${name} is. One is CELL ${NAME.test(name) ? name : 'total'} 2,3.`);
  return fitting(before + names.get(name) + after);
}

// The names of each job's cells: by job, from 1, the names with their couple, their card and their segment, and the level of each segment.
export function namesIn(deck) {
  const jobs = [];
  deck.split('\n').forEach((line, k) => {
    const named = COMMENT.exec(line), segment = /^\s*SEGMENT\s+\S+\s+(\d+)/.exec(line);
    if (line.startsWith('?JOB')) jobs.push({levels: [], cells: []});
    if (segment) jobs.at(-1)?.levels.push(Number(segment[1]));
    if (named) jobs.at(-1)?.cells.push({name: named[1], level: Number(named[2]), at: Number(named[3]), card: k + 1, segment: jobs.at(-1).levels.length});
  });
  return jobs;
}

// The name of a cell of a record whose code is a segment of a job, `level,at` being its couple; empty if it has none. A name that stands
// in the segment itself comes first. One that stands in another segment of the same level is that of another procedure's cell.
export function nameOf(job, segment, level, at) {
  const found = (job?.cells ?? []).filter(it => it.level === level && it.at === at);
  const own = found.findLast(it => it.segment === segment), others = found.filter(it => it.segment === 0 || job.levels[it.segment - 1] !== level);
  return (own ?? others.findLast(it => it.segment <= segment) ?? others[0])?.name ?? '';
}

// The segment whose code a record runs: that of the place to which the record above it returns, or of the task's next operator.
function segmentOf(task, k) {
  const above = task.records.slice(k + 1).find(record => record.level >= 0);
  return Number((above ? above.back : task.next).split('@')[0]);
}

// Puts its name to each cell of a state that has one, and to each cell that leads to such a cell.
export function putNames(state, jobs) {
  if (!jobs.some(job => job.cells.length)) return state;
  const names = new Map();
  for (const task of state.tasks) task.records.forEach((record, k) => {
    if (record.level < 0) return;
    const job = jobs[task.name.split('.')[0] - 1], segment = segmentOf(task, k);
    for (const cell of record.cells) {
      const name = nameOf(job, segment, record.level, cell.at);
      if (name) names.set(`${task.name} ${record.number} ${cell.at}`, cell.name = name);
    }
  });
  for (const task of state.tasks) for (const record of task.records) for (const cell of record.cells) if (cell.to) cell.toName = names.get(cell.to) ?? '';
  for (const thing of state.things) for (const copy of thing.copies) copy.name = names.get(copy.cell) ?? '';
  for (const thing of state.things.filter(it => names.has(it.cell))) {
    const named = thing.text.replace(/^(array \S+)/, `$1 ${names.get(thing.cell)}`);
    for (const it of [thing, ...state.areas.filter(area => area.text === thing.text)]) it.text = named;
  }
  return state;
}
