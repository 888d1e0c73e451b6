// What docs/MESSAGES.md says of a line or of a status: the page holds its tables, and this module looks them up.

const OF_TASK = /^\d+\.\d+ ([A-Z][A-Z ]*)$/;
const OF_CARD = /^(DECK|ASM|CODEFILE|LOAD|BIND|IMAGE) (\d+) REASON (\d+)/;

// What the page says in place of a row's advice: it has buttons and keys where the program has options and scripts.
const OURS = {
  'Statuses:0': 'If the deck shouldn’t be empty: write ?JOB and its cards.',
  'Statuses:3': 'Step shows the machine at that moment, and Resume goes on from an image.',
  'Statuses:4': 'Take at least `need` words of core: type the number above, or press the button. A later operator may need more still. A smaller ?STACK card lowers the need, for each task that lives at once.',
  'Statuses:8': 'The page takes 16 MB of lines. Does a loop print in each turn? Look at what it tests; or give the job a lower ?LIMIT.',
  'Statuses:9': 'Close other pages, or take a smaller core.',
  'Endings and faults:LIMIT': 'An endless loop: step back from here, and look at what the loop tests. Or a long run: raise ?LIMIT, to 100,000,000 at most. An operator that waits is counted again when its task is woken.',
  'Endings and faults:DEADLOCK': 'Tasks that wait for each other in a circle; a WAIT of an event that was caused before its cell was set to 0, or that nobody causes; a STOD into the cell where CAUSE was meant; a task that awaits itself. Let all take shared things in one order.',
  'Endings and faults:STACK OVERFLOW': 'A loop that pushes in each turn: look at what a turn leaves on the stack. Or a recursion that misses its end: look at the arguments of the ENTR that recurs; only if they come nearer to the end, raise ?STACK, to 16,383 at most, and the core with it.',
  'DECK:5': '?STACK, ?QUANTUM, ?HALT and ?SWITCH go before the first ?JOB; in a job the order is ?LIMIT, ?ASM or ?HEX, ?DATA, ?END. A text that doesn’t begin with a ? card is no deck: begin with ?JOB, a name, and ?ASM on the next card. A comment outside an ?ASM body; a space before the ?.',
};
const BY_HAND = / \(codefiles made by hand: [^)]*\)/;
const LACKING = /scripts\/|--core|--backing|\bPATH\b|`(?:resume|dump|asm|convert)`|tracer?\b|standard (?:in|out)put/i;

// Advice in the page's words: the page's own, or that of the row without the clauses on what the page hasn't.
function advised(key, cell = '', numbers = {}) {
  if (OURS[key]) return plain(OURS[key], numbers);
  const clauses = cell.split(/(?<=[.;]) +/).filter(clause => !LACKING.test(clause)), text = plain(clauses.join(' '), numbers);
  return text.replace(/;$/, '.');
}

// The text of a cell, without marks; a name in a code span becomes its number.
function plain(text, numbers = {}) {
  return text.trim().replace(/\[([^\]]*)\]\([^)]*\)/g, '$1').replace(/`([^`]*)`/g, (_, name) => numbers[name] ?? name);
}

// The rows of the tables, by section and first column.
export function tablesOf(text) {
  const rows = new Map();
  let section = '';
  for (const line of text.split('\n')) {
    if (line.startsWith('## ')) section = line.slice(3);
    if (!line.startsWith('|')) continue;
    const cells = line.split('|').slice(1, -1);
    rows.set(`${section}:${plain(cells[0])}`, cells);
  }
  return rows;
}

// The cells of the rows of a text of tables, without marks.
export function rowsOfTable(text) {
  return text.split('\n').filter(line => line.startsWith('|')).map(line => line.split('|').slice(1, -1).map(cell => plain(cell)));
}

const SUBJECTS = {DECK: 'Card', ASM: 'Card', IMAGE: 'Card', CODEFILE: 'The bytes under card', BIND: 'Pair', LOAD: 'The program of the job that begins at card'};

// What a refusal, a fault or another last line means: {card, means, advice}; null for a line without a row. What can be so only in a
// codefile that was made by hand is left out, unless there is one.
export function explained(rows, line, byHand = false) {
  const refusal = OF_CARD.exec(line), ending = OF_TASK.exec(line);
  if (refusal) {
    const [, kind, card, reason] = refusal, row = rows.get(`${kind}:${reason}`);
    return row && {card: kind === 'BIND' ? 0 : Number(card), means: `${SUBJECTS[kind]} ${card} ${plain(byHand ? row[1] : row[1].replace(BY_HAND, ''))}.`, advice: advised(`${kind}:${reason}`, row[2])};
  }
  const row = ending && rows.get(`Endings and faults:${ending[1]}`);
  return row ? {card: 0, means: plain(row[1]), advice: advised(`Endings and faults:${ending[1]}`, row[2])} : null;
}

// What a status means, without what the page hasn't.
function meant(status, cell, numbers) {
  if (status === 8) return 'More is printed than the page takes.';
  return status === 3 ? 'The count of ?HALT was reached while a task lives.' : plain(cell, numbers);
}

// What a status means, with the numbers of the run's last line in it.
export function statusText(rows, status, lastLine) {
  const row = rows.get(`Statuses:${status}`);
  if (!row) return {means: 'The command was not called.', advice: ''};
  const found = /^(NO CORE|BACKING FULL) (\d+) (\d+)$/.exec(lastLine ?? '');
  const names = found && (found[1] === 'NO CORE' ? ['need', 'core'] : ['sum', 'sectors']);
  const numbers = found ? {[names[0]]: found[2], [names[1]]: found[3]} : {};
  return {means: meant(status, row[2], numbers), advice: advised(`Statuses:${status}`, row[3], numbers)};
}
