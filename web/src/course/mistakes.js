// Machines with a mistake, for tasks that want a deck which finds it. Each is the right machine on other cards: those that make the right
// one do what the wrong one does on the deck's own.
const OPERATOR = name => new RegExp(`^([A-Z][A-Z0-9]*: *)?${name}\\b`, 'gm');

const MISTAKES = {
  equl: text => text.replace(OPERATOR('EQUL'), '$1SAME'),
  brtr: text => text.replace(OPERATOR('BRTR'), '$1ZERO\nNEQL\nBRTR'),
  stff: text => text.replace(OPERATOR('STFF'), '$1NOOP'),
  limit: text => text.replace(/^\?LIMIT +(\d+)$/gm, (_, most) => `?LIMIT ${Number(most) + 1}`),
  quantum: text => text.replace(/^\?QUANTUM 1$/gm, '?QUANTUM 1000'),
};

// The deck that shows what the machine with a mistake does on this one.
export function withMistake(name, text) {
  return MISTAKES[name](text);
}
